"""Paths as they are drawn: the courses of their lines, what their offsets cut off, and how their ends are extended to junctions.
Coordinates are whole units of records.
"""
from typing import Dict, List, NamedTuple, Sequence, Tuple

from .geo import Degrees, between, degrees
from .records import Path, State

LIMIT = 150000  # decimetres by which an end of a path is extended at most

Course = List[Tuple[float, float, float]]  # decimetres from the start, longitude and latitude


def courses(state: State, lines: Sequence[int]) -> List[Course]:
    """The courses of these lines, one for each connected part. A line that is not in the map is skipped, and separates them."""
    found: List[Course] = []
    end = None
    for line in map(state.lines.get, lines):
        if line is None:
            end = None
            continue
        if line.start != end:
            found.append([(0, *state.nodes[line.start])])
        end, course = line.end, found[-1]
        at = course[-1][0]
        course += [(at + far, lon, lat) for far, lon, lat in (*line.shape, (line.length, *state.nodes[line.end]))]
    return found


def part(course: Course, start: float, end: float) -> List[Degrees]:
    """The coordinates of a course between two distances from its start."""
    return [place_along(course, start), *(it[1:] for it in course if start < it[0] < end), place_along(course, end)]


def place_along(course: Course, at: float) -> Degrees:
    """The coordinate at a distance from the start of a course, or its end if the course is shorter."""
    for a, b in zip(course, course[1:]):
        if at <= b[0]:
            return between(a[1:], b[1:], (at - a[0]) / (b[0] - a[0]))
    return course[-1][1:]


def shape_of(state: State, path: Path) -> List[Degrees]:
    """The coordinates of a path between its offsets, in degrees; of the first connected lines if they don't join."""
    found = courses(state, path.lines)
    if not found:
        return []
    length = found[0][-1][0]
    begin = min(path.positive, length)
    places = part(found[0], begin, max(begin, length - path.negative))
    return [degrees(it) for k, it in enumerate(places) if k == 0 or it != places[k - 1]]


class CutOff(NamedTuple):
    """What an offset cuts off: at which side, how many decimetres, and where."""

    side: str
    length: int
    places: List[Degrees]


def offset_parts(state: State, path: Path) -> List[CutOff]:
    """The parts that the offsets cut off; none if lines don't join."""
    found = courses(state, path.lines)
    if len(found) != 1 or any(it not in state.lines for it in path.lines):
        return []
    course, length = found[0], found[0][-1][0]
    cuts = [CutOff("positive", path.positive, part(course, 0, min(path.positive, length)))]
    cuts.append(CutOff("negative", path.negative, part(course, max(0, length - path.negative), length)))
    return [it for it in cuts if it.length]


class Junctions:
    """The lines at each node of a map: which nodes have degree two, and how the ends of paths are extended to junctions."""

    def __init__(self, state: State):
        self.state = state
        self.into: Dict[int, List[int]] = {}
        self.out: Dict[int, List[int]] = {}
        for number in state.lines:
            start, end = state.ends(number)
            self.into.setdefault(end, []).append(number)
            self.out.setdefault(start, []).append(number)

    def has_degree_two(self, node: int) -> bool:
        """Whether a node has exactly two neighbours and its lines lead from one to the other, in one direction or in both."""
        before = sorted(self.state.ends(it)[0] for it in self.into.get(node, ()))
        after = sorted(self.state.ends(it)[1] for it in self.out.get(node, ()))
        around = {*before, *after}
        if len(around) != 2 or node in around:
            return False
        return before == after == sorted(around) or (len(before) == len(after) == 1)

    def extension(self, lines: Sequence[int]) -> Tuple[List[int], List[int]]:
        """The lines before a path's start and those after its end by which the ends are extended to a junction."""
        before = self.extend(lines, is_forward=False)[::-1]
        return before, self.extend([*before, *lines][::-1], is_forward=True)

    def extend(self, lines: Sequence[int], is_forward: bool) -> List[int]:
        """The lines that extend the first of these, in the order of the search; none if no junction is near enough."""
        beside, used, now, length = self.out if is_forward else self.into, set(lines), lines[0], 0
        found: List[int] = []
        while True:
            back, node = self.state.ends(now)[:: 1 if is_forward else -1]
            if not self.has_degree_two(node):
                return found
            new = [it for it in beside.get(node, ()) if it not in used and self.state.ends(it)[int(is_forward)] != back]
            length += self.state.lines[new[0]].length if new else LIMIT + 1
            if length > LIMIT:
                return []
            now = new[0]
            found.append(now)
            used.add(now)
