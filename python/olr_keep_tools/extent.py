"""Where a map is, and into how many connected parts it falls: what shows coordinates that are swapped, or far off."""
from typing import Dict, Iterable, List, NamedTuple, Sequence, Tuple

from .geo import Degrees
from .records import UNITS, State, coordinate_of, decimal


class Extent(NamedTuple):
    """The bounding box of a map in degrees, and the number of its parts that lines connect; a node without lines is no part."""

    west: float
    south: float
    east: float
    north: float
    parts: int

    def text(self) -> str:
        """The extent as a part of a line."""
        west, south, east, north = (decimal(it * UNITS) for it in self[:4])
        parts = "1 connected part" if self.parts == 1 else f"{self.parts} connected parts"
        return f"from {west},{south} to {east},{north}, {parts}"


def connected(ends: Iterable[Sequence[int]]) -> List[List[int]]:
    """The nodes of each part that lines with these ends connect, in ascending order; parts by their first nodes."""
    above: Dict[int, int] = {}

    def root(node: int) -> int:
        """The node by which a part is known."""
        while (over := above.setdefault(node, node)) != node:
            above[node] = node = above[over]
        return node

    for a, b in ends:
        a, b = root(a), root(b)
        if a != b:
            above[max(a, b)] = min(a, b)
    parts: Dict[int, List[int]] = {}
    for node in sorted(above):
        parts.setdefault(root(node), []).append(node)
    return list(parts.values())


def extent_of(places: Iterable[Degrees], ends: Iterable[Sequence[int]]) -> Extent:
    """The extent of nodes at these coordinates, of which there is one at least, and of lines with these ends."""
    west, south, east, north = 180.0, 90.0, -180.0, -90.0
    for lon, lat in places:
        west, south, east, north = min(west, lon), min(south, lat), max(east, lon), max(north, lat)
    return Extent(west, south, east, north, len(connected(ends)))


def of_state(state: State) -> Extent:
    """The extent of the map of a state that has a node."""
    places: Iterable[Tuple[int, int]] = map(coordinate_of, state.nodes.text.values())
    return extent_of(((lon / UNITS, lat / UNITS) for lon, lat in places), map(state.ends, state.lines))
