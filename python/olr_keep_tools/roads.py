"""Decides which lines of a map are the road on which a path was given, where other roads run beside it.

    roads = Roads(given, last, network, tolerance=20.0)
    answer = roads.decide()
    print(answer.verdict, answer.found, answer.off)

Across the given course there is a section every few metres. The roads of the last map on which the path was as given, and those
of the map as it is now, cross it side by side, and are paired one to one, from left to right. A pair costs its metres, less if
both have the same id, and a road without a pair costs more. The cheapest pairing has the path's road.
"""
from __future__ import annotations

import bisect
import enum
import functools
import json
import math
from collections import Counter, defaultdict
from typing import Any, Dict, FrozenSet, Iterable, Iterator, List, Mapping, NamedTuple, Optional, Sequence, Set, Tuple, Union

from .courses import Edge, Follower, Found, Ground, Lost, Network, Plane, Polyline, Rival, Wish, cells_near, course_of
from .geo import METRES, angle_between, direction
from .grid import CELL, cells_along

STEP = 10.0  # metres between two sections
GONE = 20.0  # metres along the course for which a road has to be gone
BESIDE = 40.0  # metres for which another road has to run along it, and to be as likely
TWIN = 2.0  # metres up to which lines beside each other are the same road, if ids don't tell them apart
REACH = 40.0  # metres on both sides of the course in which roads of the last map are
WIDER = 60.0  # the same of the map as it is now
NEAR = CELL / 4  # degrees of the cells by which the lines near a course are kept
GRID = 60.0  # metres of the cells by which the sections near a segment are found
LEFTS = range(-60, 61, 30)  # metres to the left of the course: each place of a section is within a quarter of a cell of one
SLANT = 0.7  # the least cosine of the angle between a road and the course
SAME_ID = 5.0  # metres that a pair with the same id costs less
ALONE = 20.0  # metres that a road of the last map without a pair costs
DECIDED = 5.0  # metres that each other pairing has to cost more
NOTHING = 0.02  # metres up to which a path is exactly where it was given
EXACT = 0.5  # metres up to which a road is where it was
STILL = 2.0  # metres up to which a path is as it was given
NEW_ID = 5.0  # metres up to which a road with another id is the same without question
ALIKE = 2.0  # metres by which roads that were moved together may be moved differently
MOVED_TOGETHER = 0.6  # the least share of the junctions around that are moved alike
MOST_STAY = 0.75  # the share of them that are where they were, at which nothing is moved
TURNED = 45.0, 30.0  # degrees: a road that crosses, and one that is the same

Place = Tuple[float, float]


class Given(NamedTuple):
    """A path as it was given: its course in order of travel, in degrees, whether its start and its end were at junctions, and the
    streets that it was on, if they are known."""

    course: Tuple[Place, ...]
    start: bool
    end: bool
    streets: FrozenSet[str] = frozenset()


class LastMap(NamedTuple):
    """The map on which a path was last as given: the lines near its course by number, the path's own ones in order, and the
    decimetres of these that were cut off at the start and the end."""

    lines: Mapping[int, Edge]
    own: Sequence[int]
    cuts: Tuple[int, int] = (0, 0)


def nearby(last: LastMap, course: Sequence[Place]) -> LastMap:
    """The part of a last map that matters for a course: the lines at the nodes of the path's own ones, and those near it."""
    ends = {it for number in last.own for it in (last.lines[number].start, last.lines[number].end)}
    kept = {number for number, it in last.lines.items() if it.start in ends or it.end in ends}
    near = cells_near(tuple(course), REACH, NEAR)
    for number, it in last.lines.items():
        if number not in kept and any(cell in near for a, b in zip(it.points, it.points[1:]) for cell in cells_along(a, b, NEAR)):
            kept.add(number)
    return last._replace(lines={number: last.lines[number] for number in sorted(kept)})


def stored(last: LastMap) -> str:
    """A last map as JSON. A line with the coordinates of another one in the other direction has the number of this instead."""
    shapes: Dict[Tuple[str, Tuple[Place, ...]], int] = {}
    rows: List[List[object]] = []
    for number, it in last.lines.items():
        other = shapes.get((it.street, it.points[::-1]))
        shapes[it.street, it.points] = number
        rows.append([number, it.start, it.end, it.street, it.length, it.points if other is None else other])
    return json.dumps({"own": list(last.own), "cuts": last.cuts, "lines": rows})


def restored(text: Mapping[str, Any]) -> LastMap:
    """A last map that was stored."""
    lines: Dict[int, Edge] = {}
    for number, start, end, street, length, points in text["lines"]:
        places = lines[points].points[::-1] if isinstance(points, int) else tuple((lon, lat) for lon, lat in points)
        lines[number] = Ground(start, end, street, places, length)
    start, end = text["cuts"]
    return LastMap(lines, text["own"], (start, end))


class Verdict(enum.Enum):
    """What became of a path's road: it is there, it was drawn again or moved farther away, two roads may be it, or it is gone."""

    THERE = "there"
    AGAIN = "drawn again"
    FAR = "far"
    TWO = "two roads"
    GONE = "gone"


class Answer(NamedTuple):
    """What became of a path's road, the lines of it, how many metres they are off the given course at most, and the other road.
    `is_beside` is whether there is another road within the tolerance of the course, whatever it was."""

    verdict: Verdict
    found: Union[Found, Lost]
    off: float = 0.0
    rival: Optional[Rival] = None
    is_beside: bool = False

    @property
    def place(self) -> Optional[Place]:
        """Where that is, if it is known."""
        return self.found.place if isinstance(self.found, Lost) else self.rival.place if self.rival else None

    def words(self) -> str:
        """What became of it, in words."""
        if isinstance(self.found, Lost):
            return self.found.words
        if self.rival:
            return f"two roads may be it: it is on {self.rival.taken}, and {self.rival.other} is near it too"
        if self.verdict is Verdict.GONE:
            return "its road is gone"
        return f"its road {'was drawn again,' if self.verdict is Verdict.AGAIN else 'is'} {self.off:.0f} m off"


class Crossing(NamedTuple):
    """A line that crosses a section: how many metres to the left of the course, its number and its street."""

    left: float
    number: int
    street: str


Hit = Tuple[int, float]  # a section, and how many metres to the left of the course it is crossed


class Sections:
    """The sections across a course, about so many metres apart, in a grid."""

    def __init__(self, course: Polyline, step: float = STEP) -> None:
        count = max(4, round(course.length / step))
        self.step = course.length / count
        self.at = [(k + 0.5) * self.step for k in range(count)]
        self.tangents: List[Tuple[float, float, float, float]] = []
        self.cells: Dict[Tuple[float, float], List[int]] = defaultdict(list)
        self.hits: Dict[Place, Dict[Tuple[Place, ...], List[Hit]]] = defaultdict(dict)
        cells = self.cells
        places = course.every(self.step / 2, 2 * count)
        for k, (a, (x, y), b) in enumerate(zip(places[::2], places[1::2], places[2::2])):
            far = math.dist(a, b) or 1.0
            east, north = (b[0] - a[0]) / far, (b[1] - a[1]) / far
            self.tangents.append((x, y, east, north))
            for left in LEFTS:
                cells[(x - left * north) // GRID, (y + left * east) // GRID].append(k)

    @functools.cached_property
    def box(self) -> Tuple[int, int, int, int]:
        """The least and the greatest of the cells."""
        xs, ys = zip(*self.cells)
        return int(min(xs)), int(min(ys)), int(max(xs)), int(max(ys))

    def crossings(self, lines: Mapping[int, Edge], plane: Plane, reach: float, by: Place = (0.0, 0.0)) -> List[List[Crossing]]:
        """The lines that cross each section in its direction, from right to left: if they were moved by so much, the section where it is
        moved to."""
        found: List[List[Crossing]] = [[] for _ in self.at]
        known = self.hits[by]
        for number, line in lines.items():
            hits = known.get(line.points)
            for k, left in self.hit(line.points, plane, by) if hits is None else hits:
                if abs(left) <= reach:
                    found[k].append(Crossing(left, number, line.street))
        for it in found:
            it.sort()
        return found

    def shift(self, k: int, by: Place) -> float:
        """How many metres to the left of the course something is that was moved by so much."""
        return by[1] * self.tangents[k][2] - by[0] * self.tangents[k][3]

    def hit(self, points: Sequence[Place], plane: Plane, by: Place) -> List[Hit]:
        """The sections that a line with these coordinates crosses, which are remembered, also those for the other direction."""
        places = plane.course(points)
        if by != (0.0, 0.0):
            places = [(x - by[0], y - by[1]) for x, y in places]
        forward: List[Hit] = []
        backward: List[Hit] = []
        for a, b in zip(places, places[1:]):
            near = self.near(a, b)
            if near:
                self.add_crossed(near, a, b, (forward, backward))
        if by != (0.0, 0.0):
            forward, backward = ([(k, left + self.shift(k, by)) for k, left in it] for it in (forward, backward))
        self.hits[by][tuple(points[::-1])] = backward
        self.hits[by][tuple(points)] = forward
        return forward

    def near(self, a: Place, b: Place) -> Set[int]:
        """The sections that a segment may cross."""
        (w, s), (e, n), half = a, b, GRID / 4
        w, e = (w - half, e + half) if w < e else (e - half, w + half)
        s, n = (s - half, n + half) if s < n else (n - half, s + half)
        # A segment with a wrong coordinate is as long as the earth.
        west, south, east, north = self.box
        rows = range(max(south, int(s // GRID)), min(north, int(n // GRID)) + 1)
        found: Set[int] = set()
        for x in range(max(west, int(w // GRID)), min(east, int(e // GRID)) + 1):
            for y in rows:
                found.update(self.cells.get((x, y), ()))
        return found

    def add_crossed(self, near: Iterable[int], a: Place, b: Place, found: Tuple[List[Hit], List[Hit]]) -> None:
        """Adds those of some sections that a segment crosses along the course, or against it, and how far to the left of this."""
        (x, y), (east, north), least = a, (b[0] - a[0], b[1] - a[1]), SLANT * math.dist(a, b)
        for k in near:
            from_x, from_y, along_x, along_y = self.tangents[k]
            along = east * along_x + north * along_y
            if -least < along < least or along == 0:
                continue
            far, up = x - from_x, y - from_y
            before = far * along_x + up * along_y
            after = before + along
            if before <= 0 < after or after <= 0 < before:
                found[along < 0].append((k, up * along_x - far * along_y - before / along * (north * along_x - east * along_y)))


Costs = List[List[float]]


def pair_cost(old: Crossing, new: Crossing, shift: float) -> float:
    """The cost of a pair."""
    far = abs(old.left + shift - new.left)
    if old.street != new.street or not old.street:
        return far
    return far - (ALONE if abs(old.left - new.left) <= EXACT else SAME_ID)


def table(old: Sequence[Crossing], new: Sequence[Crossing], shift: float) -> Costs:
    """The least costs of pairing the first so many old ones with the first so many new ones."""
    costs = [[0.0] * (len(new) + 1)]
    for one in old:
        above, row = costs[-1], [costs[-1][0] + ALONE]
        for j, two in enumerate(new):
            row.append(min(above[j] + pair_cost(one, two, shift), above[j + 1] + ALONE, row[j]))
        costs.append(row)
    return costs


def pairing(old: Sequence[Crossing], new: Sequence[Crossing], shift: float) -> List[Tuple[Crossing, Optional[Crossing]]]:
    """The cheapest pairing: each old one with its new one, or None."""
    costs = table(old, new, shift)
    found: List[Tuple[Crossing, Optional[Crossing]]] = []
    i, j = len(old), len(new)
    while i:
        if j and costs[i][j] == costs[i - 1][j - 1] + pair_cost(old[i - 1], new[j - 1], shift):
            i, j = i - 1, j - 1
            found.append((old[i], new[j]))
        elif j and costs[i][j] == costs[i][j - 1]:
            j -= 1
        else:
            i -= 1
            found.append((old[i], None))
    return found


class Section(NamedTuple):
    """What crosses a section: the old ones, the index of the path's own one, the new ones, and by how much the old ones are moved
    as all around them are; and the costs of the pairings in which the own one has each of the new ones, and of those in which it
    has none."""

    old: List[Crossing]
    own: int
    new: List[Crossing]
    shift: float
    costs: List[float]
    none: float

    @property
    def least(self) -> float:
        """The least cost."""
        return min(self.none, *self.costs) if self.costs else self.none

    def others(self, taken: int) -> List[Tuple[Crossing, Optional[Crossing]]]:
        """The other old ones with their new ones in the cheapest pairing in which the own one has this one."""
        return (pairing(self.old[: self.own], self.new[:taken], self.shift)
                + pairing(self.old[self.own + 1 :], self.new[taken + 1 :], self.shift))

    def displacement(self, taken: int) -> float:
        """By how many metres the own one is moved if it has this one, besides what all around are moved."""
        return self.new[taken].left - self.old[self.own].left - self.shift

    def is_there(self, taken: int) -> bool:
        """Whether this one is where the own one was, or where it was given."""
        return abs(self.displacement(taken)) <= EXACT or abs(self.new[taken].left) <= EXACT

    def is_doubtful(self, taken: int) -> bool:
        """Whether the own one may have no pair as well as this one, or another one with its id beyond another road."""
        if len(self.old) + len(self.new) == 2:
            return False
        limit, own, street = self.costs[taken] + DECIDED, self.old[self.own], self.new[taken].street
        if self.none < limit:
            return True
        if self.is_there(taken):
            return False
        there = self.new[taken].left - self.shift
        for it, pair in self.others(taken):
            has_id = pair is not None and pair.street == it.street
            if not has_id and (street and it.street == street or abs(it.left - there) <= EXACT):
                return True
        if street == own.street:
            return False
        others = self.old[: self.own] + self.old[self.own + 1 :]
        return any(pair_cost(own, it, self.shift) + table(others, self.new[:j] + self.new[j + 1 :], self.shift)[-1][-1] < limit
                   for j, it in enumerate(self.new) if it.street == own.street)

    def unlike(self, taken: int) -> List[float]:
        """By how many metres each other one is moved differently."""
        own = self.displacement(taken)
        return [abs(new.left - old.left - self.shift - own) for old, new in self.others(taken) if new]


def without_twins(old: List[Crossing], own: int, new: List[Crossing]) -> Tuple[List[Crossing], int]:
    """The old ones without those that are the same road as the own one, and the index of this."""
    there = {it.street for it in new}
    if old[own].street in there:
        return old, own
    kept = [it for k, it in enumerate(old) if k == own or abs(it.left - old[own].left) > TWIN or it.street in there]
    return kept, kept.index(old[own])


def section(old: List[Crossing], own: int, new: List[Crossing], shift: float) -> Section:
    """What crosses a section, with its costs."""
    if len(old) == 1:
        return Section(old, own, new, shift, [pair_cost(old[0], it, shift) for it in new], ALONE)
    old, own = without_twins(old, own, new)
    left, right, count = table(old[:own], new, shift)[-1], table(old[:own:-1], new[::-1], shift)[-1], len(new)
    costs = [left[j] + pair_cost(old[own], it, shift) + right[count - j - 1] for j, it in enumerate(new)]
    return Section(old, own, new, shift, costs, min(left[j] + ALONE + right[count - j] for j in range(count + 1)))


def moved_by(old: Sequence[Place], new: Sequence[Place], tolerance: float) -> Place:
    """By how much most of these places of the plane are moved, if that is the same; else nothing."""
    there = {*new}
    if sum(it in there for it in old) >= MOST_STAY * len(old):
        return 0.0, 0.0
    cells: Dict[Tuple[float, float], List[Place]] = defaultdict(list)
    for x, y in there:
        cells[x // tolerance, y // tolerance].append((x, y))
    near = [[(x - p, y - q) for i in (-1, 0, 1) for j in (-1, 0, 1) for x, y in cells.get((p // tolerance + i, q // tolerance + j), ())]
            for p, q in old]
    if sum(any(math.hypot(*it) <= EXACT for it in several) for several in near) >= MOST_STAY * len(old):
        return 0.0, 0.0

    votes = Counter((round(x), round(y)) for several in near for x, y in several)

    def votes_around(by: Tuple[int, int]) -> int:
        return sum(votes.get((by[0] + i, by[1] + j), 0) for i in (-1, 0, 1) for j in (-1, 0, 1))

    by = max(votes, key=votes_around, default=(0, 0))
    nearest = (min(several, key=lambda it: math.dist(it, by)) for several in near if several)
    found = [it for it in nearest if math.dist(it, by) <= ALIKE]
    if len(found) < max(3, MOVED_TOGETHER * len(old)):
        return 0.0, 0.0
    return sum(it[0] for it in found) / len(found), sum(it[1] for it in found) / len(found)


def samples_off(one: Polyline, other: Polyline, scale: float, slack: float) -> Iterator[float]:
    """The samples of a course, but for those in segments that another one has as well, about as far along."""
    there = {(a, b): far for a, b, far in zip(other.points, other.points[1:], other.far)}
    for a, b, low, high in zip(one.points, one.points[1:], one.far, one.far[1:]):
        far = there.get((a, b))
        if far is None or abs(far - low * scale) > slack or abs(far + high - low - high * scale) > slack:
            yield from one.samples(low, high)


def farthest(one: Polyline, other: Polyline) -> float:
    """How far the points of a course are from those that are as far along another one, at most."""
    scale, slack = other.length / (one.length or 1.0), max(50.0, 0.02 * one.length)
    worst = max(math.dist(one.points[0], other.points[0]), math.dist(one.points[-1], other.points[-1]))
    marks = list(samples_off(one, other, scale, slack))
    for at, point, there in zip(marks, one.along(marks), other.along(it * scale for it in marks)):
        if math.dist(point, there) > worst:
            low, high = at * scale - slack, at * scale + slack
            first, last = bisect.bisect_left(other.far, low) - 1, bisect.bisect_right(other.far, high)
            worst = max(worst, other.distance(point, max(0, first), min(last, len(other.far) - 1)))
    return worst


def farthest_apart(one: Sequence[Place], other: Sequence[Place]) -> float:
    """How many metres two courses are apart at most, point for point in the order of travel."""
    if one == other:
        return 0.0
    plane = Plane(one[0][1])
    a, b = Polyline(plane.course(one)), Polyline(plane.course(other))
    return max(farthest(a, b), farthest(b, a))


def vertices_apart(one: Sequence[Place], other: Sequence[Place]) -> float:
    """How many metres two courses are apart at most, or somewhat more, by their vertices if they have as many."""
    if len(one) != len(other):
        return farthest_apart(one, other)
    plane = Plane(one[0][1])
    return max(map(math.dist, plane.course(one), plane.course(other)))


class Roads:
    """The decision for one path: `near` are the lines near its given course by number, of a network. Without a last map the road
    was where the course is. `name` is what has the ids."""

    def __init__(self, given: Given, last: Optional[LastMap], near: Mapping[int, Edge], network: Network, tolerance: float,
                 name: str = "street") -> None:
        self.given, self.near, self.network, self.tolerance, self.name = given, near, network, tolerance, name
        self.last = last if last and last.own and all(it in last.lines for it in last.own) else None
        self.plane = Plane(given.course[0][1])
        self.course = Polyline(self.plane.course(given.course))
        self.scale = 1.0
        self.by = self.moved_by() if self.last else (0.0, 0.0)

    @functools.cached_property
    def across(self) -> Sections:
        """The sections across the given course."""
        return Sections(self.course)

    @functools.cached_property
    def nodes(self) -> Dict[int, Place]:
        """The nodes near the course, in the plane."""
        places = {node: at for it in self.near.values() for node, at in ((it.start, it.points[0]), (it.end, it.points[-1]))}
        return dict(zip(places, self.plane.course(places.values())))

    def moved_by(self) -> Place:
        """By how much the junctions around the path are moved, in metres."""
        last = self.last or LastMap({}, [])
        own = {place for it in last.own if it in last.lines for place in (last.lines[it].points[0], last.lines[it].points[-1])}
        old = {place for it in last.lines.values() for place in (it.points[0], it.points[-1])} - own
        new = {place for it in self.near.values() for place in (it.points[0], it.points[-1])}
        return moved_by(self.plane.course(old), self.plane.course(new), self.tolerance)

    @functools.cached_property
    def pairings(self) -> List[Optional[Section]]:
        """The sections with their costs; None where the path's own road isn't known."""
        new = self.across.crossings(self.near, self.plane, WIDER, self.by)
        if self.last is None:
            return [section([Crossing(0.0, 0, "")], 0, it, 0.0) for it in new]
        old, own = self.across.crossings(self.last.lines, self.plane, REACH), {*self.last.own}
        found: List[Optional[Section]] = []
        for k, (before, after) in enumerate(zip(old, new)):
            there = min((i for i, it in enumerate(before) if it.number in own), key=lambda i: abs(before[i].left), default=None)
            found.append(None if there is None else section(before, there, after, self.across.shift(k, self.by)))
        return found

    def price(self, number: int, low: float, high: float) -> float:
        """How many metres more than the cheapest one the pairings cost in which the path's road has this line, between two
        positions of the course."""
        first, last = bisect.bisect_left(self.across.at, low * self.scale), bisect.bisect_right(self.across.at, high * self.scale)
        more = [it.costs[j] - it.least for it in self.pairings[first:last] if it
                for j, new in enumerate(it.new) if new.number == number]
        return sum(more) / len(more) if more else 0.0

    # ---- the decision

    def decide(self) -> Answer:
        """What became of the path's road."""
        course = self.expected()
        follower = Follower(course, self.network, self.tolerance)
        are_there = self.own_streets() <= {it.street for it in self.near.values()}
        blocked = None if are_there else follower.blocked()
        self.scale = self.course.length / (Polyline(self.plane.course(course)).length or 1.0)
        found = blocked or follower.follow(Wish(self.own_streets(), price=self.price, junctions=self.junctions()))
        answer = Answer(Verdict.GONE, found) if isinstance(found, Lost) else Judged(self, found).answer()
        return answer if answer.verdict is Verdict.THERE and answer.off <= NOTHING else self.exact() or answer

    def judge(self, found: Found) -> Answer:
        """Whether these lines are the path's road."""
        return Judged(self, found).answer()

    def expected(self) -> Tuple[Place, ...]:
        """Where the path is sought: where it was given, or, if it was moved since then, where it was last; moved as all around."""
        course, by = self.given.course, self.by
        if self.last:
            was = course_of([self.last.lines[it] for it in self.last.own], *self.last.cuts)
            course = course if farthest_apart(course, was) <= STILL else was
        if not self.is_moved_alike():
            return course
        return tuple((lon + by[0] / self.plane.wide, lat + by[1] / METRES) for lon, lat in course)

    def exact(self) -> Optional[Answer]:
        """The path exactly where it was given, on the streets of then and with its ends at junctions, if it is there."""
        found = Follower(self.given.course, self.network, EXACT).follow(Wish(self.given.streets))
        if isinstance(found, Lost) or found.start and self.given.start or found.end and self.given.end:
            return None
        if not all(self.network.lines[it].street in self.given.streets for it in found.lines):
            return None
        judged = Judged(self, found)
        return Answer(Verdict.THERE, found, judged.off(), None, judged.is_beside())

    def own_streets(self) -> FrozenSet[str]:
        """The streets of the path on the last map."""
        last = self.last or LastMap({}, [])
        return frozenset(last.lines[it].street for it in last.own if it in last.lines)

    def is_moved_alike(self) -> bool:
        """Whether the path's road is moved as all around it is."""
        if self.by == (0.0, 0.0):
            return False
        rest = []
        for it in self.pairings:
            if it and it.costs and min(it.costs) < it.none:
                rest.append(abs(it.displacement(it.costs.index(min(it.costs)))))
        return bool(rest) and sorted(rest)[len(rest) // 2] <= ALIKE

    # ---- the ends

    def junctions(self) -> Tuple[FrozenSet[int], FrozenSet[int]]:
        """The nodes where the same roads meet as at the ends of the path: none if an end wasn't at a junction."""
        course = self.given.course
        return (self.same_junctions(True, course[0]) if self.given.start else frozenset(),
                self.same_junctions(False, course[-1]) if self.given.end else frozenset())

    def same_junctions(self, is_start: bool, place: Place) -> FrozenSet[int]:
        """The nodes where the same roads meet as at the start or the end of the path; all junctions near it without a last map."""
        old: List[Stub] = []
        if self.last:
            line = self.last.lines[self.last.own[0 if is_start else -1]]
            node, points = (line.start, line.points) if is_start else (line.end, line.points[::-1])
            old, place = others_at(stubs(self.last.lines, {node})[node], stub(line.street, points)), points[0]
            if not old:
                return frozenset()
        x, y = self.plane.flat(place)
        there = x + self.by[0], y + self.by[1]
        near = {number for number, at in self.nodes.items() if math.dist(at, there) <= self.tolerance}
        found = stubs(self.near, near)
        if not self.last:
            return frozenset(number for number, new in found.items() if len(new) > 2)
        known = {it.street for it in self.last.lines.values()}
        return frozenset(number for number, new in found.items() if 2 * met(old, new, known) >= len(old))


Stub = Tuple[str, float]  # of a road at a node: its street, and the bearing in which it leaves


def stub(street: str, points: Sequence[Place]) -> Stub:
    """A road that leaves a node along these points."""
    return street, round(direction(points[0], points[1]))


def stubs(lines: Mapping[int, Edge], nodes: Set[int]) -> Dict[int, Set[Stub]]:
    """The roads that meet at nodes."""
    found: Dict[int, Set[Stub]] = defaultdict(set)
    for it in lines.values():
        if it.start in nodes:
            found[it.start].add(stub(it.street, it.points))
        if it.end in nodes:
            found[it.end].add(stub(it.street, it.points[::-1]))
    return found


def others_at(there: Set[Stub], own: Stub) -> List[Stub]:
    """The roads that meet a road at a node, without the one that it leads on as."""
    others = sorted(there - {own})
    through = max(others, key=lambda it: angle_between(it[1], own[1]), default=None)
    return [it for it in others if it is not through or angle_between(it[1], own[1]) < 180 - TURNED[0]]


def met(old: Sequence[Stub], new: Iterable[Stub], known: Set[str]) -> int:
    """How many old roads at a node are among the new ones: by id, or, if that is new, by bearing."""
    return sum(any(street == it[0] or it[0] not in known and angle_between(it[1], angle) <= TURNED[1] for it in new)
               for street, angle in old)


class Judged:
    """Found lines, by the sections that they cross."""

    def __init__(self, roads: Roads, found: Found) -> None:
        self.roads, self.found, self.lines = roads, found, {*found.lines}
        self.taken: List[Tuple[int, Section, int]] = []  # the number of a section, the section, and the index of the found line
        for k, it in enumerate(roads.pairings):
            mine = [j for j, new in enumerate(it.new) if new.number in self.lines] if it else []
            if it and mine:
                self.taken.append((k, it, min(mine, key=it.costs.__getitem__)))

    def answer(self) -> Answer:
        """The decision."""
        off = self.off()
        if self.has_run(it.none < it.costs[j] for _, it, j in self.taken):
            return Answer(Verdict.GONE, self.found, off)
        rival = self.rival() or self.doubt()
        if rival:
            return Answer(Verdict.TWO, self.found, off, rival)
        if off > self.roads.tolerance:
            return Answer(Verdict.FAR, self.found, off)
        is_still = off <= NEW_ID or self.new_id_off() <= NEW_ID or self.is_alike()
        return Answer(Verdict.THERE if is_still else Verdict.AGAIN, self.found, off, None, self.is_beside())

    def is_long(self, count: int, least: float) -> bool:
        """Whether so many sections are this length, or most of the course."""
        return count > 0 and count * self.roads.across.step >= min(least, 0.8 * self.roads.course.length)

    def has_run(self, are: Iterable[bool], least: float = GONE) -> bool:
        """Whether something is so in consecutive sections for this length."""
        longest = run = 0
        for it in are:
            run = run + 1 if it else 0
            longest = max(longest, run)
        return self.is_long(longest, least)

    def off(self) -> float:
        """How many metres the found course is off the given one at most."""
        lines = [self.roads.near[it] for it in self.found.lines]
        return farthest_apart(self.roads.given.course, course_of(lines, self.found.start, self.found.end))

    def new_id_off(self) -> float:
        """How far off the course it is at most where the road has another id than before."""
        own = self.roads.own_streets()
        return max((abs(it.new[j].left) for _, it, j in self.taken if it.new[j].street not in own), default=0.0)

    def is_alike(self) -> bool:
        """Whether the road is moved as those beside it, or as all around it."""
        if self.roads.by != (0.0, 0.0) and self.roads.is_moved_alike():
            return True
        unlike = [far for _, it, j in self.taken for far in it.unlike(j)]
        return bool(unlike) and max(unlike) <= ALIKE

    # ---- other roads

    def is_beside(self) -> bool:
        """Whether there is another road within the tolerance of the course."""
        return self.has_run(any(abs(new.left) <= self.roads.tolerance and new.number not in self.lines for new in it.new)
                            for _, it, _ in self.taken)

    def rival(self) -> Optional[Rival]:
        """Another road that may be the path's, or one of the last map that is gone or may be what was found."""
        lost = [self.suspects(it, j) for _, it, j in self.taken]
        if self.has_run(map(bool, lost), BESIDE):
            k = next(k for k, it in enumerate(lost) if it)
            return self.named(self.taken[k], lost[k][0].street)
        for several in self.tracks().values():
            if self.is_long(len(several), BESIDE) and sum(it for _, it, _ in several) / len(several) < DECIDED:
                at, _, other = several[len(several) // 2]
                return self.named(self.taken[at], other)
        return None

    def doubt(self) -> Optional[Rival]:
        """Another road that may be what was found, so that the path's is gone."""
        near = [it.is_doubtful(j) for _, it, j in self.taken]
        if not self.has_run(near, BESIDE):
            return None
        _, it, j = taken = self.taken[near.index(True)]
        others = [one.street for k, one in enumerate(it.new) if k != j] + [one.street for k, one in enumerate(it.old) if k != it.own]
        return self.named(taken, others[0])

    def suspects(self, it: Section, j: int) -> List[Crossing]:
        """The other roads of the last map without a pair that may be what was found."""
        old, new = it.old[it.own], it.new[j]
        off = abs(it.displacement(j))
        if len(it.old) == 1 or off <= STILL and old.street == new.street:
            return []
        others = [one for one, pair in it.others(j) if not pair]
        if old.street == new.street:
            return [one for one in others if pair_cost(one, new, it.shift) < off - SAME_ID + ALONE / 2]
        return [one for one in others if not it.is_there(j) and pair_cost(one, new, it.shift) <= ALONE or one.street == new.street]

    def tracks(self) -> Dict[int, List[Tuple[int, float, str]]]:
        """The other roads that are beside what was found: for each the sections, by how much a pairing with it is dearer, and the
        street."""
        ends = {node for it in self.found.lines for node in (self.roads.near[it].start, self.roads.near[it].end)}
        first: Dict[int, int] = {}
        at_node: Dict[int, int] = {}
        found: Dict[int, List[Tuple[int, float, str]]] = defaultdict(list)
        for k, (_, it, j) in enumerate(self.taken):
            for other, new in enumerate(it.new):
                if new.number in self.lines or self.is_twin(it, new, it.new[j]):
                    continue
                line = self.roads.near[new.number]
                if new.number not in first:
                    first[new.number] = at_node.get(line.start, new.number)
                    if line.end not in ends:
                        at_node[line.end] = first[new.number]
                found[first[new.number]].append((k, it.costs[other] - it.costs[j], new.street))
        return found

    @staticmethod
    def is_twin(it: Section, other: Crossing, taken: Crossing) -> bool:
        """Whether another line is the same road as what was found, as far as it is known."""
        return abs(other.left - taken.left) <= TWIN and not {other.street, taken.street} & {one.street for one in it.old}

    def named(self, taken: Tuple[int, Section, int], other: str) -> Rival:
        """Two roads by name, and where."""
        k, it, j = taken
        place = self.roads.course.at(self.roads.across.at[k])
        name = self.roads.name
        return Rival(f"{name} {it.new[j].street}", f"{name} {other}", self.roads.plane.degrees(place))
