"""The lines of a path that is given by its streets."""
from __future__ import annotations

import math
from collections import defaultdict
from typing import Dict, FrozenSet, Iterator, List, Mapping, NamedTuple, Optional, Sequence, Set, Tuple, Union

from ..courses import Found, Lost, Plane, Polyline, Rival
from ..geo import distance
from ..routes import Waiting
from ..sql import Course, Place
from .finder import Row

AGAINST = 1e6  # the cost of a street against its geometry where its direction isn't given
STRAY = 10.0  # the cost of a metre between an end of the path and that of its lines

Mark = Tuple[int, int]  # a leg and a line
Result = Union[Found, Lost]


class LastEnds(NamedTuple):
    """Where a path last began and ended: the decimetres that were cut off there, the nodes, as far as they are still there, and
    its course."""

    start: int
    end: int
    nodes: Tuple[Optional[int], Optional[int]]
    course: Course


class Leg(NamedTuple):
    """A street of a route: how it is marked, its lines by number and by the node where they begin, and the last stretch of each
    part."""

    mark: str
    rows: Dict[int, Row]
    leaving: Mapping[int, List[Row]]
    final: Mapping[int, int]


def marked_street(text: str) -> Tuple[str, str]:
    """The mark of a street's direction, and its id."""
    return (text[0], text[1:]) if text[:1] in "<>" else ("", text)


def streets_of(marked: Sequence[str]) -> FrozenSet[str]:
    """The streets of a path without their directions."""
    return frozenset(marked_street(it)[1] for it in marked)


def position(row: Row, place: Place) -> Tuple[float, float, float]:
    """How far a coordinate is from a line, where along it the nearest point is, and the line's length, in metres."""
    plane = Plane(place[1])
    shape = Polyline(plane.course(row.points))
    return (*min(shape.project(plane.flat(place))), shape.length)


class StreetSearch:
    """The search for a route over streets in their order: the shortest one that takes the lines of a street in theirs, and of equally
    short ones that of the first parts."""

    def __init__(self, marked: Sequence[Tuple[str, str]], by_street: Mapping[str, List[Row]], last: Optional[LastEnds],
                 tolerance: float) -> None:
        self.marked, self.last, self.tolerance = marked, last, tolerance
        self.legs: List[Leg] = []
        for mark, street in marked:
            ordered = sorted(by_street[street], key=lambda it: (it.part, it.k, not it.along))
            rows = {it.number: it for it in ordered if not mark or it.along == (mark == ">")}
            leaving: Dict[int, List[Row]] = defaultdict(list)
            final: Dict[int, int] = defaultdict(int)
            for row in rows.values():
                leaving[row.start].append(row)
            for row in by_street[street]:
                final[row.part] = max(final[row.part], row.k)
            self.legs.append(Leg(mark, rows, leaving, final))
        self.first, self.last_lines = self.outer(0, True), self.outer(len(marked) - 1, False)
        self.best: Dict[Mark, Tuple[Optional[Mark], Row, int]] = {}
        self.waiting: Waiting[Tuple[int, Row, Optional[Mark], int]] = Waiting()
        self.route: List[Mark] = []
        self.avoided: Dict[Mark, float] = {}  # what these cost more

    def is_first(self, leg: int, row: Row) -> bool:
        """Whether a line is the first of its part, in its direction."""
        return row.k == (0 if row.along else self.legs[leg].final[row.part])

    def is_last(self, leg: int, row: Row) -> bool:
        """Whether a line is the last of its part, in its direction."""
        return row.k == (self.legs[leg].final[row.part] if row.along else 0)

    def outer(self, leg: int, is_start: bool) -> Set[int]:
        """The lines with which a street begins, or ends, in each direction: of parts that follow each other the first, or the last."""
        rows = self.legs[leg].rows.values()
        firsts, lasts = ([it for it in rows if is_outer(leg, it)] for is_outer in (self.is_first, self.is_last))
        beside: Dict[Tuple[int, bool], Set[int]] = defaultdict(set)
        for it in lasts if is_start else firsts:
            beside[it.end if is_start else it.start, it.along].add(it.part)
        own = firsts if is_start else lasts
        found = {it.number for it in own if not beside[it.start if is_start else it.end, it.along] - {it.part}}
        return found or {it.number for it in own}

    def starts(self) -> Iterator[Tuple[float, Row, int]]:
        """The lines at which the route may begin: (cost, line, decimetres before the start)."""
        leg = self.legs[0]
        for row in leg.rows.values():
            if self.last is None:
                if row.number in self.first:
                    yield 0 if leg.mark or row.along else AGAINST, row, 0
            elif self.last.start:
                far, at, length = position(row, self.last.course[0])
                if far <= self.tolerance and at < length - 0.05:
                    yield STRAY * far - at, row, round(at / (length or 1) * row.length)
            else:
                far = self.stray(row.start, row.points[0], self.last.nodes[0], self.last.course[0])
                if far <= self.tolerance:
                    yield STRAY * far, row, 0

    def ending(self, row: Row) -> Optional[Tuple[float, int]]:
        """The cost at which the route may end on a line, and the decimetres after its end, or None."""
        if self.last is None:
            return (0, 0) if row.number in self.last_lines else None
        if self.last.end:
            far, at, length = position(row, self.last.course[-1])
            if far > self.tolerance or at <= 0.05:
                return None
            return STRAY * far - (length - at), round((length - at) / (length or 1) * row.length)
        far = self.stray(row.end, row.points[-1], self.last.nodes[1], self.last.course[-1])
        return (STRAY * far, 0) if far <= self.tolerance else None

    def stray(self, node: int, place: Place, was: Optional[int], last: Place) -> float:
        """How far a node is from the path's last start or end, in metres: if that node is still there, only it will do, unless
        the ends may have moved."""
        if node == was:
            return 0
        return distance(place, last) if was is None or self.tolerance == math.inf else math.inf

    def following(self, leg: int, row: Row) -> Iterator[Tuple[float, int, Row]]:
        """The lines that may follow a line: the next ones of its street, and those of the next street at its end."""
        for it in self.legs[leg].leaving.get(row.end, ()):
            if it.along != row.along or it.number == row.number:
                continue
            is_next = it.part == row.part and it.k == row.k + (1 if row.along else -1)
            if is_next or self.is_last(leg, row) and self.is_first(leg, it):
                yield 0, leg, it
        if leg + 1 < len(self.legs):
            mark = self.legs[leg + 1].mark
            for it in self.legs[leg + 1].leaving.get(row.end, ()):
                yield 0 if mark or it.along else AGAINST, leg + 1, it

    def metres(self, mark: Mark, row: Row) -> float:
        """What a line costs."""
        return row.length / 10 + self.avoided.get(mark, 0.0)

    def search(self) -> Result:
        """The lines, or why there are none. What waits is a line of a leg, or with the leg after the last one the end."""
        furthest, ends = 0, self.last.course if self.last else (None, None)
        for cost, row, cut in self.starts():
            self.waiting.add(cost + self.metres((0, row.number), row), (0, row, None, cut))
        if not self.waiting:
            return Lost(f"its start is not on street {self.marked[0][1]}", ends[0])
        while self.waiting:
            cost, (leg, row, before, cut) = self.waiting.take()
            if leg == len(self.legs):
                return self.found(before, cut)
            label = leg, row.number
            if label in self.best:
                continue
            self.best[label] = before, row, cut
            furthest = max(furthest, leg)
            if leg == len(self.legs) - 1 and (end := self.ending(row)):
                self.waiting.add(cost + end[0], (leg + 1, row, label, end[1]))
            for more, after, it in self.following(leg, row):
                if (after, it.number) not in self.best:
                    self.waiting.add(cost + more + self.metres((after, it.number), it), (after, it, label, 0))
        if furthest < len(self.legs) - 1:
            a, b = self.marked[furthest][1], self.marked[furthest + 1][1]
            return Lost(f"street {a} does not lead to street {b}", None)
        return Lost(f"its end is not on street {self.marked[-1][1]}", ends[-1])

    def found(self, label: Optional[Mark], after: int) -> Result:
        """The lines up to a label, without those that are cut off whole."""
        rows, before, route = [], 0, []
        while label is not None:
            route.append(label)
            label, row, before = self.best[label]
            rows.append(row)
        rows.reverse()
        self.route = route[::-1]
        if len({it.number for it in rows}) < len(rows):
            return Lost("it leads over a line twice", rows[0].points[0])
        if len(rows) == 1 and before + after >= rows[0].length:
            return Lost("nothing of its street is left", rows[0].points[0])
        return Found([it.number for it in rows], before, after)

    def other_way(self) -> Optional[Rival]:
        """Another route than the one that was found, if there is one that is against as few streets, and where it begins."""
        route, against = self.route, self.against()
        self.avoided = dict.fromkeys(route, AGAINST / (2 * len(route)))
        self.best, self.waiting = {}, Waiting()
        found = self.search()
        k = next((k for k, (one, other) in enumerate(zip(route, self.route)) if one != other), None)
        if k is None or isinstance(found, Lost) or self.against() > against:
            return None
        taken, other = (f"street {self.marked[it[k][0]][1]}" for it in (route, self.route))
        place = self.legs[route[k][0]].rows[route[k][1]].points[0]
        return Rival(taken, other if other != taken else "another part of it", place)

    def against(self) -> int:
        """How many streets the route is on against their geometry, where their direction isn't given."""
        return len({leg for leg, number in self.route if not (self.legs[leg].mark or self.legs[leg].rows[number].along)})
