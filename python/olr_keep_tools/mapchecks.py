"""Findings on properties of a map that make strings ambiguous, and on errors of the map, with numbers of lines and nodes."""
import functools
import itertools
import math
from collections import defaultdict
from typing import Callable, Collection, Dict, FrozenSet, Iterable, Iterator, List, NamedTuple, Sequence, Set, Tuple

from .extent import connected
from .geo import METRES, between, direction, distance
from .grid import CELL, Grid, cell_of
from .receiver import Box, Road, RoadMap, bearing, is_wide, place, project, shape_length
from .refound import SHORT, are_twins
from .strings import SECTOR, STEP_16, STEP_24

KINDS = ("twin-lines", "alike-lines", "line-over-node", "open-end", "short-line", "same-coordinate", "near-nodes", "under-straight",
         "over-shape", "over-15-km", "over-100-km", "one-way-dead-end", "separate-part", "lone-node", "too-many-near")
CROWD = 8  # nodes in a cell with which each other one there is compared
AHEAD = 20.0  # metres over which a bearing is taken
LONGEST = 15_000  # metres between two location reference points (LRPs) of a string
FAR = 100_000  # metres; a line with a longer shape has a wrong coordinate

# The greatest difference on each axis, in degrees, between a node and its coordinate in a string. For the first LRP it is less
# than a step of 360 / 2^24 degrees, since the format truncates the value and decoding adds half a step. Each further LRP adds
# at most half a step of 10^-5 degree. The law `decoded_near` of docs/THEOREMS.md has the same numbers.
FIRST_ERROR = STEP_24
FURTHER_ERROR = STEP_16 / 2


def decoding_error(k: int) -> float:
    """The bound at LRP k, from 0."""
    return FIRST_ERROR + k * FURTHER_ERROR


class Finding(NamedTuple):
    """A finding: its kind, the affected lines and nodes, and a text with their numbers."""

    kind: str
    lines: Tuple[int, ...]
    nodes: Tuple[int, ...]
    text: str


def findings(roads: RoadMap, point: int = 0) -> Iterator[Finding]:
    """All findings; nodes are near if the coordinates of this LRP of a string can't distinguish them."""
    return itertools.chain(
        lines_alike(roads), lines_over_nodes(roads), lines_alone(roads), nodes_near(roads, point), dead_ends(roads), parts(roads)
    )


def sector(road: Road, is_last: bool) -> int:
    """The bearing sector of a line at its start, or at its end: of the next 20 m along it, or of the last 20 m, backwards."""
    here, beside = (road.points[-1], road.points[-2]) if is_last else road.points[:2]
    if abs(here[0] - beside[0]) >= min(AHEAD, road.length):
        return int(direction(here[1:], beside[1:]) // SECTOR)
    return int(bearing(road, road.length if is_last else 0.0, is_last) // SECTOR)


def lines_alike(roads: RoadMap) -> Iterator[Finding]:
    """Twin lines, and lines with the same attributes at one of their ends."""
    for is_last, sides in ((False, roads.leaving), (True, roads.entering)):
        for node, numbers in sorted(sides.items()):
            groups: Dict[Tuple[int, int], List[int]] = defaultdict(list)
            for it in numbers:
                groups[roads.lines[it][2:4]].append(it)
            for (frc, fow), group in groups.items():
                how = f"{'enter' if is_last else 'leave'} node {node} alike, class {frc}, form {fow}"
                for a, b in pairs_alike(roads, group, is_last):
                    if not are_twins(roads.lines[a], roads.lines[b]):
                        yield Finding("alike-lines", (a, b), (node,), f"lines {a} and {b} {how}")
    same = defaultdict(list)
    for number, road in roads.lines.items():
        same[road[:4]].append(number)
    for numbers in same.values():
        for a, b in itertools.combinations(numbers, 2):
            one, other = roads.lines[a], roads.lines[b]
            if are_twins(one, other):
                text = f"lines {a} and {b} from node {one.start} to {one.end}, {one.length:.1f} m and {other.length:.1f} m"
                yield Finding("twin-lines", (a, b), one[:2], text)


def pairs_alike(roads: RoadMap, numbers: Sequence[int], is_last: bool) -> Iterator[Tuple[int, int]]:
    """Pairs of these lines with the same bearing sector."""
    if len(numbers) > 1:
        sectors = {it: sector(roads.lines[it], is_last) for it in numbers}
        for a, b in itertools.combinations(numbers, 2):
            if sectors[a] == sectors[b]:
                yield a, b


class TooMany(Exception):
    """So many nodes are beside lines that no further ones are sought, from this line on."""


class Budget:
    """How many boxes and nodes a search may look at: far more than on any map of roads."""

    def __init__(self, lines: int):
        self.left = 1_000_000 + 500 * lines

    def spend(self, count: int, line: int) -> None:
        """Counts what was looked at for a line."""
        self.left -= count
        if self.left < 0:
            raise TooMany(line)


def neighbours(roads: RoadMap) -> Dict[int, Set[int]]:
    """The nodes that lines connect with each node."""
    beside = defaultdict(set)
    for road in roads.lines.values():
        beside[road.start].add(road.end)
        beside[road.end].add(road.start)
    return beside


def lines_over_nodes(roads: RoadMap) -> Iterator[Finding]:
    """Lines that pass a node that isn't their end, and have the class, form and sector of a line that leaves the node; and ends
    of roads beside a line that neither they nor their neighbour are an end of, each with the nearest one."""
    beside = neighbours(roads)
    open_ends: Dict[int, Tuple[float, int]] = {}
    ends = {node for node, others in beside.items() if len(others) == 1}
    found: Set[Tuple[int, int]] = set()
    try:
        nodes_beside(roads, ends, found)
    except TooMany as why:
        line = int(str(why))
        yield Finding("too-many-near", (line,), (), f"so many nodes are near lines that from line {line} on none are sought")
    for node, number in sorted(found):
        road = roads.lines[number]
        far, at = project(road, *roads.nodes[node])
        if far <= SHORT and node in ends and not beside[node].intersection(road[:2]):
            open_ends[node] = min(open_ends.get(node, (far, number)), (far, number))
        if far > SHORT or min(at, road.length - at) <= SHORT:
            continue
        ahead = place(road, at), place(road, min(road.length, at + AHEAD))
        rest = int(direction(*ahead) // SECTOR)
        for other in roads.leaving[node]:
            one = roads.lines[other]
            if one[2:4] == road[2:4] and sector(one, False) == rest:
                text = f"line {number} passes node {node} within {far:.1f} m, alike to line {other} that leaves there"
                yield Finding("line-over-node", (number, other), (node,), text)
    for node, (far, number) in sorted(open_ends.items()):
        text = f"node {node} ends a road {far:.1f} m from line {number}, which has no node there"
        yield Finding("open-end", (number,), (node,), text)


class Leaving(NamedTuple):
    """A node, with the classes and forms of the lines that leave it."""

    lon: float
    lat: float
    node: int
    kinds: FrozenSet[Tuple[int, int]]


def nodes_beside(roads: RoadMap, ends: Collection[int], found: Set[Tuple[int, int]]) -> None:
    """Finds pairs of a node and a line that may pass it: a box of the line, with a margin, contains the node, and the node is one
    of these ends of roads, or a line with the same class and form leaves it."""
    grid: Grid[Leaving] = Grid(CELL)
    budget = Budget(len(roads.lines))
    near: Dict[Tuple[int, int, float, float], List[Leaving]] = {}
    for node, (lon, lat) in roads.nodes.items():
        kinds = frozenset(roads.lines[it][2:4] for it in roads.leaving.get(node, ()))
        grid.add((lon, lat), Leaving(lon, lat, node, kinds))
    for number, road in roads.lines.items():
        if is_wide(road):
            continue
        _, lons, lats = zip(*road.points)
        # The two directions of a road have the same points, and their sums are exact.
        key = (min(road[:2]), max(road[:2]), math.fsum(lons), math.fsum(lats))
        if key not in near:
            near[key] = nodes_in(grid, boxes(road, lons, lats), road[:2], functools.partial(budget.spend, line=number))
        kind = road[2:4]
        beside = [(it.node, number) for it in near[key] if kind in it.kinds or it.node in ends]
        budget.spend(20 * len(beside), number)
        found.update(beside)


def nodes_in(grid: Grid[Leaving], found_boxes: Iterable[Box], ends: Sequence[int], spend: Callable[[int], None]) -> List[Leaving]:
    """The nodes within these boxes, but for a line's ends. How many nodes and boxes it looks at is counted."""
    found = []
    for west, south, east, north in found_boxes:
        here = list(itertools.chain.from_iterable(grid.within(west, south, east, north)))
        spend(1 + len(here))
        found += [it for it in here if south <= it.lat <= north and west <= it.lon <= east and it.node not in ends]
    return found


def boxes(road: Road, lons: Sequence[float], lats: Sequence[float]) -> List[Box]:
    """Boxes that contain a line with a margin of SHORT, as west, south, east, north: one of a short line, and one of each piece
    of a long one."""
    west, south, east, north = min(lons), min(lats), max(lons), max(lats)
    up = SHORT / METRES
    aside = up / max(1e-3, math.cos(math.radians(max(-south, north))))
    if east - west <= 2 * CELL and north - south <= 2 * CELL:
        return [(west - aside, south - up, east + aside, north + up)]
    found = []
    for (_, *a), (_, *b) in zip(road.points, road.points[1:]):
        count = max(1, math.ceil(max(abs(b[0] - a[0]), abs(b[1] - a[1])) / CELL))
        stops = [between(a, b, k / count) for k in range(count + 1)]
        found += [(min(x, u) - aside, min(y, v) - up, max(x, u) + aside, max(y, v) + up) for (x, y), (u, v) in zip(stops, stops[1:])]
    return found


def lines_alone(roads: RoadMap) -> Iterator[Finding]:
    """Findings on the length of a line."""
    for number, road in sorted(roads.lines.items()):
        straight = distance(road.points[0][1:], road.points[-1][1:])
        if road.length < SHORT:
            yield Finding("short-line", (number,), road[:2], f"line {number}, {road.length:.1f} m")
        if road.length + 1 < 0.99 * straight:
            text = f"line {number}, {road.length:.1f} m, and straight {straight:.1f} m"
            yield Finding("under-straight", (number,), road[:2], text)
        # A shape is no shorter than the straight line.
        if road.length > 1.2 * straight + SHORT and road.length > 1.2 * (shape := shape_length(road.points)) + SHORT:
            yield Finding("over-shape", (number,), road[:2], f"line {number}, {road.length:.1f} m, and its shape {shape:.1f} m")
        if (straight > FAR or is_wide(road)) and (shape := shape_length(road.points)) > FAR:
            text = f"line {number}, whose shape is of {shape / 1000:.1f} km: it is left out where nodes beside lines are sought"
            yield Finding("over-100-km", (number,), road[:2], text)
        if road.length > LONGEST:
            yield Finding("over-15-km", (number,), road[:2], f"line {number}, {road.length / 1000:.1f} km")


def nodes_near(roads: RoadMap, point: int) -> Iterator[Finding]:
    """Nodes at one coordinate, and nodes too near to each other for the law `own_is_nearest`: in latitude, and in longitude times
    the least cosine of the map, less than three times the decoding error apart. Then another node may be as near to a
    decoded coordinate as the right one."""
    width = 3 * decoding_error(point)
    grid: Grid[int] = Grid(width)
    least = min((math.cos(math.radians(lat)) for _, lat in roads.nodes.values()), default=1.0)
    for number, (lon, lat) in sorted(roads.nodes.items()):
        here = lon * least, lat
        for other in grid.beside(here):
            there = roads.nodes[other]
            if max(abs(there[0] - lon) * least, abs(there[1] - lat)) < width:
                is_same = there == (lon, lat)
                text = f"nodes {other} and {number}, {distance(there, (lon, lat)):.1f} m apart"
                yield Finding("same-coordinate" if is_same else "near-nodes", (), (other, number), text)
        if len(grid.cells[cell_of(here, width)]) < CROWD:
            grid.add(here, number)


def dead_ends(roads: RoadMap) -> Iterator[Finding]:
    """Nodes with only entering or only leaving lines, and nodes without lines."""
    for node in sorted(roads.nodes):
        entering, leaving = roads.entering.get(node, []), roads.leaving.get(node, [])
        if not entering and not leaving:
            yield Finding("lone-node", (), (node,), f"node {node}")
        elif not leaving:
            yield Finding("one-way-dead-end", tuple(entering), (node,), f"node {node}: line {entering[0]} enters, none leaves")
        elif not entering:
            yield Finding("one-way-dead-end", tuple(leaving), (node,), f"node {node}: line {leaving[0]} leaves, none enters")


def parts(roads: RoadMap) -> Iterator[Finding]:
    """The parts of the map that are not connected to the largest one; a node without lines is no part."""
    found = connected(it[:2] for it in roads.lines.values())
    for part in sorted(found, key=len, reverse=True)[1:]:
        yield Finding("separate-part", (), tuple(part), f"{len(part)} nodes, of them node {part[0]}")
