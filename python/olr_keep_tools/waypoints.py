"""Finds the route that leads from a first point over others to a last one, such as from where an incident begins to where it ends.

    found = route_over(roads, [(6.1, 49.6), (6.2, 49.6)], tolerance=20.0)
    print(found.lines if isinstance(found, Route) else found.words)

Each point is placed on each line within the tolerance, where the line is nearest to it. The cost of a route is its length, and
twice what its points are off; of all places the route of the least cost is found. No route turns round, from a line onto the other
direction of the same road. Coordinates are degrees, lengths and costs metres.
"""
from __future__ import annotations

import math
from collections import defaultdict
from typing import Dict, Iterator, List, NamedTuple, Optional, Sequence, Set, Tuple, Union

from .courses import Plane, Strip
from .geo import Degrees, distance
from .receiver import RoadMap, place
from .refound import Location, are_twins, cut_out
from .routes import Search, Step

LONGEST, SHORTEST = 100_000.0, 1.0  # metres of a route
NEARLY = 1.1  # a route of at most so many times the cost may be meant as well
EVEN = 0.05  # metres between two positions on a line that are one
OFF = 2  # how often a metre between a point and its place counts
AROUND, MORE = 3.0, 500.0  # a route that is longer than so many times the straight line, and these metres, is a long way round
NEAREST = 1_000.0  # metres up to which a line is sought to be named
STAGE = 1 << 33  # labels of the lines on the way to a point; more than there are numbers of lines


class Place(NamedTuple):
    """Where a point is on a line: the point, from 0, the line, the position along it, and how far away the point is."""

    point: int
    line: int
    at: float
    off: float


class Route(NamedTuple):
    """Lines, where the route begins on the first and where it ends on the last of them, its length and its cost, and how far the
    points are off."""

    lines: List[int]
    begin: float
    end: float
    length: float
    cost: float
    off: List[float]

    @property
    def location(self) -> Location:
        """The part of the lines that the route is."""
        return Location(self.lines, self.begin, self.end)


class NoRoute(NamedTuple):
    """Why there is no route, and where."""

    words: str
    place: Degrees


class Stages:
    """The graph whose routes lead over one place of each point. A label is a place, or a line at whose start the route is and that
    it takes next, on its way to one of the points; 0 is the start of all, and `end` is behind the places of the last point."""

    def __init__(self, roads: RoadMap, places: Sequence[Place]):
        self.roads, self.places = roads, places
        self.last = max(it.point for it in places)
        self.end = len(places) + 1
        self.on: Dict[Tuple[int, int], List[int]] = defaultdict(list)
        for k, it in enumerate(places, 1):
            self.on[it.point, it.line].append(k)

    def leaving(self, label: int) -> Iterator[Step]:
        """The labels that follow a label, and the metres between."""
        stage, number = divmod(label, STAGE)
        if stage:
            yield from self.onto(stage, number, 0.0)
            yield from self.onward(stage, number, self.roads.lines[number].length)
        elif not number:
            yield from ((k, k, OFF * it.off) for k, it in enumerate(self.places, 1) if it.point == 0)
        elif number < self.end:
            here = self.places[number - 1]
            if here.point == self.last:
                yield self.end, self.end, 0.0
            else:
                yield from self.onto(here.point + 1, here.line, here.at)
                yield from self.onward(here.point + 1, here.line, self.roads.lines[here.line].length - here.at)

    def onto(self, point: int, line: int, begin: float) -> Iterator[Step]:
        """The places of a point on a line, from a position on."""
        for k in self.on.get((point, line), ()):
            it = self.places[k - 1]
            if it.at >= begin - EVEN:
                yield k, k, max(0.0, it.at - begin) + OFF * it.off

    def onward(self, stage: int, line: int, length: float) -> Iterator[Step]:
        """The lines after a line."""
        for it in self.roads.leaving[self.roads.lines[line].end]:
            if not are_opposite(self.roads, line, it):
                yield stage * STAGE + it, stage * STAGE + it, length

    def route(self, limit: float) -> Optional[Route]:
        """The route of the least cost, up to a limit."""
        search = Search(0, self.leaving)
        cost = search.to(self.end, limit)
        if cost is None:
            return None
        labels = search.lines_to(self.end)[:-1]
        taken = [self.places[it - 1] for it in labels if it < STAGE]
        lines = [taken[0].line, *(it % STAGE for it in labels if it >= STAGE)]
        length = cost - OFF * sum(it.off for it in taken)
        begin, end, known = taken[0].at, taken[-1].at, self.roads.lines
        if len(lines) > 1 and begin >= known[lines[0]].length - EVEN:
            lines, begin = lines[1:], 0.0
        if len(lines) > 1 and end <= EVEN:
            lines, end = lines[:-1], known[lines[-2]].length
        return Route(lines, begin, end, length, cost, [it.off for it in taken])


def are_opposite(roads: RoadMap, line: int, other: int) -> bool:
    """Whether two lines are the two directions of a road: they have the same coordinates, in opposite order."""
    a, b = roads.lines[line], roads.lines[other]
    return a.start == b.end and a.end == b.start and [it[1:] for it in a.points] == [it[1:] for it in b.points[::-1]]


def places_of(roads: RoadMap, points: Sequence[Degrees], tolerance: float) -> List[Place]:
    """The places of points on the lines near them."""
    return [Place(k, line, at, off) for k, it in enumerate(points) for line, off, at in roads.lines_near(*it, tolerance)]


def road_at(roads: RoadMap, it: Place) -> Tuple[str, int]:
    """On which road a place is, in whichever direction, or at which node."""
    road = roads.lines[it.line]
    if it.at <= EVEN or it.at >= road.length - EVEN:
        return "node", road.start if it.at <= EVEN else road.end
    return "road", min([it.line, *(other for other in roads.leaving[road.end] if are_opposite(roads, it.line, other))])


def road_of(roads: RoadMap, line: int) -> Tuple[str, int]:
    """The road of a line, in whichever direction."""
    return road_at(roads, Place(0, line, roads.lines[line].length / 2, 0))


def roads_of(roads: RoadMap, route: Route) -> Set[Tuple[str, int]]:
    """The roads of a route, and the nodes that it passes."""
    found = {road_of(roads, it) for it in route.lines}
    return found.union(*((("node", roads.lines[it].start), ("node", roads.lines[it].end)) for it in route.lines))


def apart(roads: RoadMap, route: Route, taken: Set[Tuple[str, int]]) -> float:
    """The length of a route on roads that aren't these."""
    begins = {**dict.fromkeys(route.lines, 0.0), route.lines[0]: route.begin}
    ends = {**{it: roads.lines[it].length for it in route.lines}, route.lines[-1]: route.end}
    return sum(ends[it] - begins[it] for it in route.lines if road_of(roads, it) not in taken)


def another(roads: RoadMap, places: Sequence[Place], first: Route, tolerance: float) -> Optional[List[int]]:
    """The lines of a route that may be meant as well: a point is placed on another road, or a line has a twin. A route that is
    apart by no more than twice the tolerance is the same one, placed around a junction."""
    for it in first.lines:
        for other in roads.leaving[roads.lines[it].start]:
            if other != it and are_twins(roads.lines[it], roads.lines[other]) and not are_opposite(roads, it, other):
                return [other if line == it else line for line in first.lines]
    taken = roads_of(roads, first)
    for point, road in sorted({(it.point, road_at(roads, it)) for it in places}):
        if road not in taken:
            some = [it for it in places if it.point != point or road_at(roads, it) == road]
            second = Stages(roads, some).route(NEARLY * first.cost)
            if second and apart(roads, second, taken) > min(2 * tolerance, second.length - EVEN):
                return second.lines
    return None


def listed(lines: Sequence[int]) -> str:
    """Lines as a message has them."""
    return f"line {lines[0]}" if len(lines) == 1 else f"lines {', '.join(map(str, lines))}"


def two_ways(roads: RoadMap, lines: List[int], others: List[int]) -> NoRoute:
    """The message about two routes: the lines of each that the other one hasn't, and where they part."""
    one, two = ([it for it in a if it not in b] or a for a, b in ((lines, others), (others, lines)))
    words = f"it may lead over {listed(one)} or over {listed(two)}, which is nearly as far: --nearest takes the first"
    return NoRoute(words, place(roads.lines[two[0]], 0.0))


def route_over(roads: RoadMap, points: Sequence[Degrees], tolerance: float, nearest: bool = False) -> Union[Route, NoRoute]:
    """The route from the first point over the others to the last. With `nearest` another one of other lines that is nearly as
    short doesn't matter."""
    places = places_of(roads, points, tolerance)
    for k, it in enumerate(points):
        if not any(other.point == k for other in places):
            return far_off(roads, k, it, tolerance)
    straight = sum(map(distance, points, points[1:]))
    most, stages = LONGEST + OFF * tolerance * len(points), Stages(roads, places)
    limits = (min(most, times * (AROUND * straight + MORE)) for times in (1, 4, math.inf))
    first = next(filter(None, map(stages.route, limits)), None)
    if not first or first.length > LONGEST:
        return NoRoute(f"no route of at most {LONGEST / 1000:g} km leads over its points", points[0])
    twice = next((it for k, it in enumerate(first.lines) if it in first.lines[:k]), None)
    if twice is not None:
        return NoRoute(f"it leads over line {twice} twice in the same direction", place(roads.lines[twice], 0.0))
    if first.length < SHORTEST:
        return NoRoute(f"its points are less than {SHORTEST:g} m apart on their road", points[0])
    others = None if nearest else another(roads, places, first, tolerance)
    return two_ways(roads, first.lines, others) if others else first


def far_off(roads: RoadMap, k: int, point: Degrees, tolerance: float) -> NoRoute:
    """The message about a point that isn't near a line."""
    near = min((far for _, far, _ in roads.lines_near(*point, NEAREST)), default=None)
    more = f", and the nearest is {near:.0f} m away" if near is not None else if_swapped(roads, point, tolerance)
    return NoRoute(f"no line is within {tolerance:g} m of point {k + 1}{more}", point)


def if_swapped(roads: RoadMap, point: Degrees, tolerance: float) -> str:
    """Whether a coordinate is near no line, and would be if its longitude and latitude were swapped, as a part of a message."""
    lon, lat = point
    is_swapped = abs(lon) < 89.9999 and not roads.lines_near(lon, lat, tolerance) and bool(roads.lines_near(lat, lon, tolerance))
    return "; one would be near if longitude and latitude were swapped" if is_swapped else ""


def is_detour(route: Route, points: Sequence[Degrees]) -> bool:
    """Whether a route is a long way round."""
    return route.length > AROUND * sum(map(distance, points, points[1:])) + MORE


def is_beside(roads: RoadMap, route: Route, other: Route, metres: float) -> bool:
    """Whether a route is everywhere within a distance of another one."""
    shapes = [cut_out(roads, it.location) for it in (route, other)]
    plane = Plane(shapes[0][0][1])
    line, there = (Strip(plane.course(it), max(metres, 50.0)) for it in shapes)
    return all(there.is_near(line.at(far), metres) for far in line.samples(0.0, line.length))
