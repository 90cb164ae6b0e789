"""Finds the lines of a map that follow a course.

    found = follow(course, lines, tolerance=20.0)
    print(found.lines if isinstance(found, Found) else found.words)

A course is a list of coordinates in degrees. Of the routes everywhere within the tolerance of it, with a length within 1 % of
its own or twice the tolerance, that with the least mean distance is found. A search over labels, each a node at a position
along the course, tries no route twice, however many lines lead from one node to another.
"""
from __future__ import annotations

import bisect
import functools
import itertools
import math
from collections import defaultdict
from typing import (Callable, Dict, FrozenSet, Iterable, Iterator, List, Mapping, NamedTuple, Optional, Protocol,
                    Sequence, Tuple, Union)

from .geo import METRES, between, distance, onto_segment, scale
from .grid import CELL, Box, Cell, segments
from .routes import Waiting

SNAP = 1.0  # metres along a line between an end of the course and a node that are taken as none
DRAWN = 5.0  # the same for a course that was drawn, or is from another map
SAMPLE = 10.0  # metres between the points at which a line is compared with the course
MOST_SAMPLES = 1000  # of them in a straight segment: no road is straight for longer, but one with a wrong coordinate
SHARE = 0.01
OTHER = 0.01  # the added mean distance of a line that isn't preferred
SAME = 1e-6  # costs that differ by less are equal
MISSED = 100.0  # the cost of another end than one at a junction, where the road has a price
NEARNESS = 0.2  # what a metre from the course costs there
LONGEST = 100_000.0  # metres between two coordinates of a course; beyond, one of them is wrong
FORCED = 1e9  # the cost of an end along a line where an end at a junction is sought
START, END = "start", "end"

Place = Tuple[float, float]
Label = Union[str, Tuple[int, float]]
Step = Tuple[Optional[int], float, float]


class Edge(Protocol):
    """A line of the map: its nodes, a name that its stretch of road shares with others, its coordinates, its length in
    decimetres, and what kind of road it is, as far as that matters."""

    @property
    def start(self) -> int:
        """The node where it begins."""

    @property
    def end(self) -> int:
        """The node where it ends."""

    @property
    def street(self) -> str:
        """The name that it shares."""

    @property
    def points(self) -> Tuple[Place, ...]:
        """Its coordinates."""

    @property
    def length(self) -> int:
        """Its decimetres."""

    @property
    def kind(self) -> Tuple[object, ...]:
        """What kind of road it is."""


class Ground(NamedTuple):
    """A line of the map."""

    start: int
    end: int
    street: str
    points: Tuple[Place, ...]
    length: int
    kind: Tuple[object, ...] = ()


class Rival(NamedTuple):
    """Two roads that follow a course, by name, and where."""

    taken: str
    other: str
    place: Place


class Found(NamedTuple):
    """The lines that follow a course, the decimetres of them before its start and after its end, and a road that follows it
    too, if that was asked."""

    lines: List[int]
    start: int
    end: int
    rival: Optional[Rival] = None


class Lost(NamedTuple):
    """Why no lines follow a course, and where."""

    words: str
    place: Optional[Place]


def reach(course: Sequence[Place], tolerance: float) -> Place:
    """Somewhat more than the tolerance, in degrees east and north of a course."""
    high = 1.1 * tolerance / METRES
    return high / max(0.01, math.cos(math.radians(max([abs(it[1]) for it in course])))), high


@functools.lru_cache(maxsize=4)
def cells_near(course: Tuple[Place, ...], tolerance: float, cell: float = CELL) -> FrozenSet[Cell]:
    """The cells of this size in which lines near a course may have points."""
    wide, high = reach(course, tolerance)
    places = list(course[:1])
    for a, b in zip(course, course[1:]):
        count = int(max(abs(b[0] - a[0]), abs(b[1] - a[1])) / cell) + 1
        places += [between(a, b, k / count) for k in range(1, count)] if count > 1 else ()
        places.append(b)
    boxes = [((x - wide) // cell, (x + wide) // cell, (y - high) // cell, (y + high) // cell) for x, y in places]
    ranges = {(min(a[0], b[0]), max(a[1], b[1]), min(a[2], b[2]), max(a[3], b[3])) for a, b in {*zip(boxes, boxes[1:])}}
    return frozenset((x, y) for w, e, s, n in ranges for x in range(int(w), int(e) + 1) for y in range(int(s), int(n) + 1))


def is_far_off(course: Sequence[Place]) -> bool:
    """Whether two coordinates of a course are so far apart that one of them is wrong."""
    return any(distance(a, b) > LONGEST for a, b in zip(course, course[1:]))


class Polyline:
    """Points of a plane in metres, with their distances from the first."""

    def __init__(self, points: List[Place]) -> None:
        self.points = points
        self.far = list(itertools.accumulate(map(math.dist, points, points[1:]), initial=0.0))
        self.length = self.far[-1]

    def at(self, far: float) -> Place:
        """The point at a distance from the first."""
        k = min(max(1, bisect.bisect_left(self.far, far)), len(self.far) - 1)
        a, b = self.far[k - 1 : k + 1]
        return between(self.points[k - 1], self.points[k], min(1.0, max(0.0, (far - a) / (b - a))) if b > a else 0.0)

    def along(self, fars: Iterable[float]) -> Iterator[Place]:
        """The points at ascending distances from the first."""
        k, last = 1, len(self.far) - 1
        for far in fars:
            while self.far[k] < far and k < last:
                k += 1
            low, high = self.far[k - 1 : k + 1]
            yield between(self.points[k - 1], self.points[k], min(1.0, max(0.0, (far - low) / (high - low or 1.0))))

    def every(self, step: float, count: int) -> List[Place]:
        """The first point, and those at so many multiples of a distance from it, to the last one."""
        return [self.points[0], *self.along(it * step for it in range(1, count)), self.points[-1]]

    def project(self, point: Place, segments: Optional[Iterable[int]] = None) -> List[Tuple[float, float]]:
        """The distance of a point from each of these segments, and the position of the nearest point there."""
        (x, y), points, along, found = point, self.points, self.far, []
        for k in range(len(points) - 1) if segments is None else segments:
            far, share = onto_segment(points[k], points[k + 1], x, y)
            found.append((far, along[k] + share * (along[k + 1] - along[k])))
        return found

    def distance(self, point: Place, first: int, last: int) -> float:
        """The distance of a point from the segments from `first` up to, but not including, `last`."""
        ends = zip(self.points[first:last], self.points[first + 1 : last + 1])
        return min((onto_segment(a, b, *point)[0] for a, b in ends), default=math.inf)

    def samples(self, begin: float, end: float) -> Iterator[float]:
        """Positions between two positions: those of the points, and further ones so that none are more than SAMPLE apart, as far as
        MOST_SAMPLES do."""
        low, high = bisect.bisect_right(self.far, begin), bisect.bisect_left(self.far, end)
        marks = [begin, *self.far[low:high], end]
        for a, b in zip(marks, marks[1:]):
            count = max(1, min(MOST_SAMPLES, math.ceil((b - a) / SAMPLE)))
            yield from (a + (b - a) * k / count for k in range(count))
        yield end


class Plane:
    """Degrees near a latitude as metres."""

    def __init__(self, lat: float) -> None:
        self.wide = scale(lat)

    def flat(self, place: Place) -> Place:
        """A coordinate in degrees as a point of the plane."""
        return place[0] * self.wide, place[1] * METRES

    def course(self, places: Iterable[Place]) -> List[Place]:
        """Coordinates in degrees as points of the plane."""
        wide = self.wide
        return [(lon * wide, lat * METRES) for lon, lat in places]

    def degrees(self, point: Place) -> Place:
        """A point of the plane as a coordinate in degrees."""
        return point[0] / self.wide, point[1] / METRES


class Strip(Polyline):
    """A polyline with a grid of its segments, by which those near a point are found."""

    def __init__(self, points: List[Place], cell: float) -> None:
        super().__init__(points)
        self.grid = segments(points, cell)

    def segments_near(self, point: Place, metres: float) -> Sequence[int]:
        """The segments up to this distance from a point, and perhaps some beside them."""
        x, y = point
        found = self.grid.within(x - metres, y - metres, x + metres, y + metres)
        return sorted(set().union(*found)) if found else ()

    def is_near(self, point: Place, metres: float) -> bool:
        """Whether a point is within this distance."""
        return any(far <= metres for far, _ in self.project(point, self.segments_near(point, metres)))


class Network:
    """Lines of a map, by which searches find those that leave a node and those near a place. Further ones than those near a
    course don't change what is found for it."""

    def __init__(self, lines: Mapping[int, Edge]) -> None:
        self.known: Dict[int, Edge] = {}
        self.lines: Mapping[int, Edge] = self.known
        self.leaving: Dict[int, List[Tuple[int, int]]] = defaultdict(list)  # the lines and the nodes where they end
        self.nodes: Dict[int, Place] = {}
        self.boxes: Dict[int, Box] = {}
        self.add(lines)

    def add(self, lines: Mapping[int, Edge]) -> None:
        """Adds lines."""
        known, leaving, nodes, boxes = self.known, self.leaving, self.nodes, self.boxes
        for number, line in lines.items():
            if number not in known:
                known[number], points, start, end = line, line.points, line.start, line.end
                leaving[start].append((number, end))
                nodes[start], nodes[end] = points[0], points[-1]
                lons, lats = zip(*points)
                boxes[number] = min(lons), min(lats), max(lons), max(lats)

    def near(self, place: Place, east: float, north: float) -> List[int]:
        """The lines whose boxes are within these degrees of a place on both axes."""
        lon, lat = place
        w, s, e, n = lon - east, lat - north, lon + east, lat + north
        return sorted(it for it, box in self.boxes.items() if box[0] <= e and box[2] >= w and box[1] <= n and box[3] >= s)


class Ends(NamedTuple):
    """Whether the start and the end of a course are at junctions, and sought there before any place along a line."""

    start: bool = False
    end: bool = False


class Wish(NamedTuple):
    """What a search for the lines of a course prefers: lines on these streets, and an end within `snap` metres of a node at the
    node. `has_rivals` asks for a second road that follows; of two equally near lines that with the lower number is taken then. With a
    `price(number, low, high)`, in metres, the distance counts less than this, and the start and the end are sought at `junctions`
    first, which are nodes, and then where the course has them."""

    preferred: FrozenSet[str] = frozenset()
    snap: float = SNAP
    ends: Ends = Ends()
    has_rivals: bool = False
    price: Optional[Callable[[int, float, float], float]] = None
    junctions: Tuple[FrozenSet[int], FrozenSet[int]] = (frozenset(), frozenset())

    def at_node(self, node: int, far: float, side: int) -> float:
        """The cost of a start (0) or an end (1) at a node so many metres from it."""
        if self.price is None:
            return far * far
        wanted = self.junctions[side]
        return far if node in wanted or not wanted and far <= self.snap else MISSED + far

    def along(self, far: float, side: int) -> float:
        """The cost of a start (0) or an end (1) along a line so many metres from it."""
        if self.price is not None:
            return far + (MISSED - 1 if self.junctions[side] else 0.0)
        return FORCED if self.ends[side] else 0.0


def course_of(lines: Sequence[Edge], start: int, end: int) -> Tuple[Place, ...]:
    """The coordinates of lines in order, without these decimetres at their start and end."""
    points = list(lines[0].points)
    for it in lines[1:]:
        points += it.points[1:]
    if not (start or end):
        return tuple(points)
    plane = Plane(points[0][1])
    shape, first, last = (Polyline(plane.course(it)) for it in (points, lines[0].points, lines[-1].points))
    begin = start / lines[0].length * first.length
    finish = shape.length - end / lines[-1].length * last.length
    inner = [it for it, far in zip(points, shape.far) if begin < far < finish]
    return (plane.degrees(shape.at(begin)), *inner, plane.degrees(shape.at(max(begin, finish))))


class End(NamedTuple):
    """A place along a line where the course may start or end: how far along, and how far from there, in metres."""

    at: float
    far: float


class Best(NamedTuple):
    """The best way to a label: its cost, its last step, the label before it, and another line that is as good."""

    cost: float
    step: Optional[Step]
    before: Optional[Label]
    other: Optional[int] = None


class Follower:
    """The searches for the lines that follow one course, which has coordinates."""

    def __init__(self, course: Sequence[Place], network: Network, tolerance: float) -> None:
        lats = [it[1] for it in course]
        self.plane = Plane((min(lats) + max(lats)) / 2)
        self.course, self.places = Strip(self.plane.course(course), max(tolerance, 50.0)), tuple(course)
        self.network, self.lines, self.tolerance, self.wish = network, network.lines, tolerance, Wish()
        self.at = {place: k for k, place in enumerate(self.places)}
        self.shapes: Dict[int, Polyline] = {}
        self.positions: Dict[int, List[float]] = {}
        self.following: Dict[int, float] = {}  # the lines that follow it somewhere, and their lengths
        self.avoided: FrozenSet[int] = frozenset()

    def follow(self, wish: Wish) -> Union[Found, Lost]:
        """The lines that follow the course, or why there are none."""
        self.wish, self.following, self.avoided = wish, {}, frozenset()
        if len(set(self.places)) < 2:
            return Lost("its course has no two different coordinates", self.places[0])
        found = self.search()
        return self.with_rival(found) if wish.has_rivals and isinstance(found, Found) and not found.rival else found

    def blocked(self) -> Optional[Lost]:
        """Why no lines lead from the start of the course to its end, whatever is wished; None if some do."""
        self.wish = Wish()
        best = self.labels()
        return best if isinstance(best, Lost) else None

    def node(self, node: int) -> Place:
        """A node in the plane."""
        return self.plane.flat(self.network.nodes[node])

    def near(self, place: Place) -> List[int]:
        """The lines that may be within the tolerance of an end of the course."""
        return self.network.near(place, *self.plane.degrees((self.tolerance, self.tolerance)))

    def shape(self, number: int) -> Polyline:
        """The course of a line in the plane."""
        if number not in self.shapes:
            self.shapes[number] = Polyline(self.plane.course(self.lines[number].points))
        return self.shapes[number]

    def positions_of(self, node: int) -> List[float]:
        """The positions along the course at which it passes a node: of each pass the nearest one, and its end, if that is near."""
        found = self.positions.get(node)
        if found is None:
            place = self.network.nodes[node]
            point = place[0] * self.plane.wide, place[1] * METRES
            segments = self.course.segments_near(point, self.tolerance)
            k = self.at.get(place) if len(segments) <= 2 else None
            if k is not None and all(it in (k - 1, k) for it in segments):
                found = [self.course.far[k]]
            else:
                found = self.passes(point, segments) if segments else []
            if segments and math.dist(point, self.course.points[-1]) <= self.tolerance:
                found = sorted({*found, self.course.length})
            self.positions[node] = found
        return found

    def passes(self, point: Place, segments: Sequence[int]) -> List[float]:
        """The positions along the course at which it passes a point, on these segments."""
        near = sorted([(at, far) for far, at in self.course.project(point, segments) if far <= self.tolerance])
        passes: List[Tuple[float, float, float]] = []
        for at, far in near:
            if passes and at - passes[-1][2] <= 2 * self.tolerance:
                best, least, _ = passes[-1]
                passes[-1] = (at, far, at) if far < least else (best, least, at)
            else:
                passes.append((at, far, at))
        return [at for at, _, _ in passes]

    def cost(self, number: int, begin: float, end: float, low: float, high: float) -> Optional[float]:
        """How far a part of a line is from a part of the course: the mean distance times the length, or None if it doesn't
        follow it."""
        shape = self.shape(number)
        length, wanted = end - begin, high - low
        slack = max(SHARE * max(length, wanted), 2 * self.tolerance)
        if abs(length - wanted) > slack or high < low and low - high > SNAP:
            return None
        total, count = 0.0, 0
        for at in shape.samples(begin, end):
            along = low + (at - begin) / (length or 1) * wanted
            first = max(0, bisect.bisect_left(self.course.far, along - slack) - 1)
            last = bisect.bisect_right(self.course.far, along + slack)
            far = self.course.distance(shape.at(at), first, min(last, len(self.course.far) - 1))
            if far > self.tolerance:
                return None
            total, count = total + far, count + 1
        for k in range(bisect.bisect_right(self.course.far, low), bisect.bisect_left(self.course.far, high)):
            if shape.distance(self.course.points[k], 0, len(shape.far) - 1) > self.tolerance:
                return None
        self.following[number] = shape.length
        return (total / count * (NEARNESS if self.wish.price else 1.0) + self.other(number, low, high)) * length + 1e-4

    def cost_of_all(self, number: int, low: float, high: float) -> Optional[float]:
        """The same for a whole line: if its coordinates are those of the course from a position on, it needn't be compared."""
        points, far = self.lines[number].points, self.course.far
        k = self.at.get(points[0])
        if k is None or abs(far[k] - low) >= SAME or self.places[k : k + len(points)] != points:
            return self.cost(number, 0.0, self.shape(number).length, low, high)
        length = far[k + len(points) - 1] - far[k]
        if abs(length - high + low) > max(SHARE * max(length, high - low), 2 * self.tolerance):
            return None
        self.following[number] = length
        return self.other(number, low, high) * length + 1e-4

    def other(self, number: int, low: float, high: float) -> float:
        """The added mean distance of a line that isn't wanted as much as another one."""
        line, wish = self.lines[number], self.wish
        more = 0.0 if line.street in wish.preferred else OTHER
        if wish.price:
            more += wish.price(number, low, high)
        return more + (2 * self.tolerance if number in self.avoided else 0.0)

    def ends(self) -> Dict[str, Dict[int, End]]:
        """The places along lines where the course may start and end, by the number of the line."""
        found: Dict[str, Dict[int, End]] = {}
        for name, k in ((START, 0), (END, -1)):
            found[name], place, point = {}, self.places[k], self.course.points[k]
            for number in self.near(place):
                if self.lines[number].points[0] != place:
                    shape = self.shape(number)
                    far, at = min(shape.project(point))
                    if far <= self.tolerance and self.wish.snap < at < shape.length - self.wish.snap:
                        found[name][number] = End(at, far)
        return found

    def from_start(self, ends: Mapping[str, Mapping[int, End]]) -> Iterator[Tuple[float, Label, Optional[Step]]]:
        """The labels at which a route begins: (cost, label, lines)."""
        start = self.course.points[0]
        near = [self.lines[it] for it in self.near(self.places[0])]
        for node in {node for it in near for node in (it.start, it.end)}:
            far = math.dist(self.node(node), start)
            if far <= self.tolerance:
                yield self.wish.at_node(node, far, 0), (node, 0.0), None
        for number, (begin, far) in ends[START].items():
            first = self.wish.along(far, 0)
            yield from ((first + cost, label, step) for cost, label, step in self.steps(number, self.lines[number].end, begin, 0.0))
            if number in ends[END] and ends[END][number].at > begin:
                for cost, step in self.last_step(number, begin, ends[END][number], 0.0):
                    yield first + cost, END, step

    def last_step(self, number: int, begin: float, end: End, low: float) -> Iterator[Tuple[float, Step]]:
        """The part of a line that leads to the end of the course, where it ends along the line."""
        cost = self.cost(number, begin, end.at, low, self.course.length)
        if cost is not None:
            yield cost + self.wish.along(end.far, 1), (number, begin, self.shape(number).length - end.at)

    def steps(self, number: int, node: int, begin: float, low: float) -> Iterator[Tuple[float, Label, Optional[Step]]]:
        """The labels that a line to a node leads to from a distance along it, where the course is at this position."""
        for high in self.positions_of(node):
            if low - high > SNAP:
                continue
            cost = self.cost(number, begin, self.shape(number).length, low, high) if begin else self.cost_of_all(number, low, high)
            if cost is not None:
                yield cost, (node, high), (number, begin, 0.0)

    def onward(self, node: int, low: float, has_lines: bool, ends: Mapping[int, End]) -> Iterator[Tuple[float, Label, Optional[Step]]]:
        """The labels that a label leads to, and the end, if it is near, or on one of the lines: (cost, label, lines)."""
        if has_lines and self.course.length - low <= 2 * self.tolerance:
            last = math.dist(self.node(node), self.course.points[-1])
            if last <= self.tolerance:
                yield self.wish.at_node(node, last, 1), END, (None, 0.0, 0.0)
        positions = self.positions
        for number, end in self.network.leaving.get(node, ()):
            highs = positions[end] if end in positions else self.positions_of(end)
            if highs and low - highs[-1] <= SNAP:
                yield from self.steps(number, end, 0.0, low)
            if number in ends:
                yield from ((cost, END, step) for cost, step in self.last_step(number, 0.0, ends[number], low))

    def search(self) -> Union[Found, Lost]:
        """The found lines, or why there are none."""
        best = self.labels()
        return best if isinstance(best, Lost) else self.found(best)

    def labels(self) -> Union[Dict[Label, Best], Lost]:
        """The best ways to labels, with the end among them, or why there is none to the end."""
        ends = self.ends()
        furthest = 0.0
        best: Dict[Label, Best] = {}
        waiting: Waiting[Label] = Waiting()

        def relax(cost: float, label: Label, step: Optional[Step], before: Optional[Label]) -> None:
            known = best.get(label)
            if known is None or cost < known.cost - SAME:
                best[label] = Best(cost, step, before)
                waiting.add(cost, label)
            elif abs(cost - known.cost) <= SAME and step and known.step and step[0] != known.step[0]:
                is_first = step[0] is not None and known.step[0] is not None and step[0] < known.step[0]
                best[label] = Best(known.cost, step, before, known.step[0]) if is_first else known._replace(other=step[0])

        for cost, label, step in self.from_start(ends):
            relax(cost, label, step, None)
        if not waiting:
            return Lost("no line is near its start", self.plane.degrees(self.course.points[0]))
        while waiting:
            cost, label = waiting.take()
            if cost > best[label].cost:
                continue
            if isinstance(label, str):
                return best
            furthest = max(furthest, label[1])
            for more, after, step in self.onward(*label, best[label].step is not None, ends[END]):
                relax(cost + more, after, step, label)
        words = "no lines follow it from here on" if furthest else "no lines follow it from its start"
        return Lost(words, self.plane.degrees(self.course.at(furthest)))

    def found(self, best: Dict[Label, Best]) -> Union[Found, Lost]:
        """The route that leads to the end, or why it is none."""
        label: Optional[Label] = END
        steps: List[Tuple[int, float, float]] = []
        tie: Optional[Tuple[int, int]] = None
        while label is not None:
            _, step, before, other = best[label]
            if step and step[0] is not None:
                steps.append((step[0], *step[1:]))
                tie = tie or (other is not None and (step[0], other)) or None
            label = before
        steps.reverse()
        numbers = [it[0] for it in steps]
        if tie and not (self.wish.price or self.wish.has_rivals):
            place = self.lines[tie[0]].points[0]
            return Lost(f"two lines follow it equally near, of {self.name(tie[0])} and {self.name(tie[1])}", place)
        if len(set(numbers)) < len(numbers):
            twice = next(it for k, it in enumerate(numbers) if it in numbers[:k])
            return Lost(f"it leads over {self.name(twice)} twice in the same direction", self.lines[twice].points[0])
        length = sum(self.following[it] for it in numbers) - steps[0][1] - steps[-1][2]
        if abs(length - self.course.length) > max(SHARE * self.course.length, 2 * self.tolerance):
            return Lost("the lines that follow it have another length", self.plane.degrees(self.course.points[0]))
        taken, other = tie or (0, 0)
        rival = Rival(self.name(taken), self.name(other), self.lines[taken].points[0]) if tie and self.wish.has_rivals else None
        return Found(numbers, self.cut(numbers[0], steps[0][1]), self.cut(numbers[-1], steps[-1][2]), rival)

    def name(self, number: int) -> str:
        """What a message calls a line."""
        return f"street {self.lines[number].street}" if self.lines[number].street else f"line {number}"

    def cut(self, number: int, metres: float) -> int:
        """Decimetres of a line for metres of the plane."""
        return round(metres / (self.shape(number).length or 1) * self.lines[number].length) if metres else 0

    def with_rival(self, found: Found) -> Found:
        """The same lines, with a road that follows the course too, if there is one: another route that avoids them finds it."""
        others = self.following.keys() - set(found.lines)
        if not any(self.lines[it].length > 20 * self.tolerance for it in others):
            return found
        self.avoided = frozenset(found.lines)
        second = self.search()
        other = next((it for it in second.lines if it in others), None) if isinstance(second, Found) else None
        if other is None:
            return found
        middle = self.shape(other).at(self.shape(other).length / 2)
        taken = min(found.lines, key=lambda it: self.shape(it).distance(middle, 0, len(self.shape(it).far) - 1))
        return found._replace(rival=Rival(self.name(taken), self.name(other), self.plane.degrees(middle)))


def follow(course: Sequence[Tuple[float, float]], lines: Union[Network, Mapping[int, Edge]], tolerance: float = 20.0,
           wish: Wish = Wish()) -> Union[Found, Lost]:
    """The lines that follow a course, or why there are none: `Found` or `Lost`."""
    if not course:
        return Lost("its course has no two different coordinates", (0.0, 0.0))
    return Follower(course, lines if isinstance(lines, Network) else Network(lines), tolerance).follow(wish)
