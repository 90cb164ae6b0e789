"""Whether a course that a partner has decoded is on the road of ours.

    judge = Judge(ours, returned, tolerance=20.0)
    for judged in judge.all():
        print(judged.name, judged.outcome.value, judged.words)

As in `roads`, there is a section across our course every few metres, and what counts is how far to the left of our road, and of the
roads beside it, the other course passes. The shift of the partner's map is taken off, place by place.
"""
from __future__ import annotations

import bisect
import enum
import functools
from collections import Counter
from typing import Any, Callable, Iterator, List, Mapping, NamedTuple, Optional, Sequence, Tuple, TypeVar

from ..courses import Plane, Polyline
from ..forked import in_order
from ..geo import Degrees, distance
from ..roads import BESIDE, DECIDED, STEP
from .across import Across, Pass, chain
from .ours import Beside, Mark, Ours
from .returned import Returned
from .shift import Seen, Shifts, Vector

REACH = 45.0  # metres on both sides of our course in which another one is looked at
STRAY = 15.0  # metres along a course between two sections, beyond those between them, that are nothing
ROUNDING = 3.0  # metres by which a point of a string is off
WIDE = 50.0  # metres between the sections at which the shift is looked at, and between two looks at it
PIECE = 1000  # strings that are judged by one process
ABOUT = 4.0  # metres: a road beside is about as near as ours
CLEARLY = 10.0  # metres by which a course is nearer to our road where it can't be on another one
PARTLY = 0.4  # the share of a line beside our road, near its ends, where it may be so
GAP = 5.0  # metres between two parts of a course that don't join
FEW = 0.2  # the share of the sections that have to be passed: else it is elsewhere
Place = Tuple[float, float]
Found = TypeVar("Found")


class Outcome(enum.Enum):
    """Where a partner has found a string, the worst first."""

    NO_ANSWER = "no answer"
    NOT_FOUND = "not found"
    ELSEWHERE = "elsewhere"
    REVERSED = "reversed"
    LEAVES = "leaves"
    SHORTER = "shorter"
    LONGER = "longer"
    UNCLEAR = "can't tell"
    SAME = "same road"


class Judged(NamedTuple):
    """What became of a string: the outcome in words, by how many metres, where, and the location reference point before, from 0."""

    ours: Ours
    outcome: Outcome
    words: str = ""
    metres: float = 0.0
    place: Optional[Degrees] = None
    point: Optional[int] = None
    are_ends_judged: bool = True

    @property
    def name(self) -> str:
        """The name of the string."""
        return self.ours.name

    @property
    def mark(self) -> Optional[Mark]:
        """The location reference point before."""
        return None if self.point is None else self.ours.marks[self.point]


class Pair:
    """Our course and the other one, as lines of a plane, with sections about so many metres apart."""

    def __init__(self, ours: Ours, theirs: Sequence[Degrees], shifts: Optional[Shifts] = None, step: float = STEP) -> None:
        self.ours, self.plane = ours, Plane(ours.course[0][1])
        self.line, self.other = Polyline(self.plane.course(ours.course)), Polyline(self.plane.course(theirs))
        if shifts:
            self.other = Polyline(list(self.without_shift(shifts)))
        self.across = Across(self.line, step)
        self.passes = self.across.passes(self.other, REACH)

    def without_shift(self, shifts: Shifts) -> Iterator[Place]:
        """The points of the other course without the shift of its map."""
        far, by = self.other.far, (0.0, 0.0)
        for k, (x, y) in enumerate(self.other.points):
            if k == 0 or far[k] // WIDE != far[k - 1] // WIDE:
                by = shifts.at(self.plane.degrees((x, y)))
            yield x - by[0], y - by[1]

    def place(self, at: float) -> Degrees:
        """The coordinate at a position of our course."""
        return self.plane.degrees(self.line.at(at))

    def normal(self, section: int) -> Vector:
        """The direction to the left of a section."""
        _, _, east, north = self.across.tangents[section]
        return -north, east

    def seen(self, most: float) -> List[Seen]:
        """How far to the left the other course is, at the sections that it passes once within a distance."""
        times = Counter(it.section for it in self.passes)
        return [Seen(self.plane.degrees(self.across.tangents[it.section][:2]), self.normal(it.section), it.left)
                for it in self.passes if times[it.section] == 1 and abs(it.left) <= most]


class Tip(NamedTuple):
    """An end of the other course: its position on ours, whether it is near that, and how many metres of the other one are beyond ours
    or off it."""

    at: float
    is_near: bool
    beyond: float


def tip(line: Polyline, other: Polyline, at: float, before: float, tolerance: float) -> Tip:
    """The start of another course that passes a section, which is at these positions of ours and of the other one."""
    k = max(1, bisect.bisect_left(line.far, at))
    low = min(max(0, bisect.bisect_right(line.far, at - before - 2 * tolerance) - 1), k - 1)
    near = [it for it in line.project(other.points[0], range(low, k)) if it[0] <= tolerance]
    if near:
        _, position = min(near, key=lambda it: it[0] + abs(at - before - it[1]) / 2)
        return Tip(min(position, at), True, 0.0)
    ours = at if at <= 2.5 * STEP else 0.0
    return Tip(at - ours, False, max(0.0, before - ours))


def by_pieces(work: Callable[[Sequence[str]], Found], names: Sequence[str]) -> Iterator[Found]:
    """What a function makes of names, piece by piece: of several pieces each in a process of its own, as many as there are
    processors."""
    pieces = [names[k : k + PIECE] for k in range(0, len(names), PIECE)]
    if len(pieces) < 2:
        return map(work, pieces)
    return in_order((functools.partial(work, it) for it in pieces), lambda: None, len(pieces))


class Judge:
    """Judges all strings of a round."""

    def __init__(self, ours: Mapping[str, Ours], returned: Mapping[str, Returned], tolerance: float, report: Callable[[str], None]):
        self.ours, self.returned, self.tolerance, self.report = ours, returned, tolerance, report
        self.shifts = Shifts()

    def all(self) -> Iterator[Judged]:
        """What became of each string."""
        for k, found in enumerate(by_pieces(self.seen, list(self.returned))):
            self.report(f"{k * PIECE} of {len(self.returned)} courses are laid over ours")
            self.shifts.merge(found)
        for judged in by_pieces(self.several, list(self.ours)):
            yield from (Judged(self.ours[name], *rest) for name, *rest in judged)
            self.report(f"of {len(self.ours)} strings {judged[-1][0]} and those before it are judged")

    def seen(self, names: Sequence[str]) -> Shifts:
        """By how much some courses are shifted."""
        shifts = Shifts()
        for name in names:
            course, _ = self.returned[name].course()
            if len(course) > 1:
                shifts.add(Pair(self.ours[name], course, step=WIDE).seen(self.tolerance + 10.0))
        return shifts

    def several(self, names: Sequence[str]) -> List[Tuple[Any, ...]]:
        """What became of some strings: their names in place of what is ours."""
        found = ((it, self.one(self.ours[it], self.returned[it]) if it in self.returned else Judged(self.ours[it], Outcome.NO_ANSWER))
                 for it in names)
        return [(name, *judged[1:]) for name, judged in found]

    def one(self, ours: Ours, returned: Returned) -> Judged:
        """What became of a string for which something came back."""
        course, gap = returned.course()
        if len(course) < 2:
            return Judged(ours, Outcome.NOT_FOUND, "nothing is left between its offsets" if returned.parts else "")
        pair, are_ends_judged = Pair(ours, course, self.shifts), returned.are_ends_judged
        found = One(pair, self.tolerance, are_ends_judged).judged()
        if gap > GAP and found.outcome is Outcome.SAME:
            found = found._replace(outcome=Outcome.UNCLEAR, words=f"its parts don't join: {gap:.0f} m are between them", metres=gap)
        return found._replace(are_ends_judged=are_ends_judged)


class One:
    """The judgement of one string."""

    def __init__(self, pair: Pair, tolerance: float, are_ends_judged: bool) -> None:
        self.pair, self.tolerance, self.are_ends_judged = pair, tolerance, are_ends_judged
        self.ours, self.step = pair.ours, pair.across.step
        self.chain = chain(pair.passes, tolerance, self.step)

    def judged(self) -> Judged:
        """What became of it."""
        if len(self.chain) < max(1, FEW * self.needed):
            return self.off_road()
        return self.leaves() or self.on_another() or self.at_ends() or self.beside() or Judged(self.ours, Outcome.SAME)

    @property
    def needed(self) -> float:
        """The number of sections between the offsets."""
        return (self.ours.end - self.ours.begin) / self.step

    def off_road(self) -> Judged:
        """The outcome of a course that isn't on our road: it may be its way back."""
        back = Polyline([it for it in reversed(self.pair.other.points)])
        passed = chain(self.pair.across.passes(back, REACH), self.tolerance, self.step)
        if len(passed) >= max(1, 0.5 * self.needed):
            return Judged(self.ours, Outcome.REVERSED, "it leads the other way")
        far = distance(self.pair.plane.degrees(self.pair.other.points[0]), self.pair.place(self.ours.begin))
        return Judged(self.ours, Outcome.ELSEWHERE, f"it begins {far:.0f} m from our start", far, self.pair.place(self.ours.begin), 0)

    def left_at(self, at: float, metres: float, words: str) -> Judged:
        """The outcome of a course that leaves ours at a position."""
        point = max((k for k, it in enumerate(self.ours.marks) if it.at <= at + 1.0), default=0)
        return Judged(self.ours, Outcome.LEAVES, words, metres, self.pair.place(at), point)

    # ---- between the sections

    def leaves(self) -> Optional[Judged]:
        """The first place where the other course leaves ours, if all that is off ours together is as long as a road beside it."""
        both = [(self.at(it), it.at) for it in self.chain]
        start, end = self.tips
        both = [*([(start.at, 0.0)] if start.is_near else []), *both, *([(end.at, self.pair.other.length)] if end.is_near else [])]
        off = [(a, b, max(b[0] - a[0], b[1] - a[1])) for a, b in zip(both, both[1:]) if self.is_off(a, b)]
        if sum(it[2] for it in off) < min(BESIDE, 0.5 * self.pair.line.length):
            return None
        (at, _), _, metres = off[0]
        return self.left_at(at, metres, f"for {metres:.0f} m")

    def at(self, it: Pass) -> float:
        """The position of a section on our course."""
        return self.pair.across.at[it.section]

    def is_off(self, a: Place, b: Place) -> bool:
        """Whether the other course is off ours between two positions on both."""
        ours, theirs = b[0] - a[0], b[1] - a[1]
        if ours <= 2.5 * STEP and theirs <= ours + STRAY:
            return False
        return not self.is_close(a, b) or abs(theirs - ours) > STRAY + 0.1 * ours

    def is_close(self, a: Place, b: Place) -> bool:
        """Whether a part of our course and one of the other one are within the tolerance of each other."""
        ours, theirs = (self.pair.line, a[0], b[0]), (self.pair.other, a[1], b[1])
        for (line, first, last), (other, start, stop) in ((ours, theirs), (theirs, ours)):
            low, high = max(0, bisect.bisect_right(other.far, start) - 1), min(bisect.bisect_left(other.far, stop), len(other.far) - 1)
            if any(other.distance(line.at(at), low, max(high, low + 1)) > self.tolerance for at in line.samples(first, last)):
                return False
        return True

    # ---- roads beside

    def nearness(self, road: Beside) -> Optional[float]:
        """By how many metres in the mean the other course is nearer to our road than to another one, along this; None if it isn't
        there. A line is driven as a whole: so it isn't on one of which it is far off, but perhaps near its ends."""
        passed = {it.section: it.left for it in self.chain}
        nearer = [abs(passed[k] - left) - abs(passed[k]) for k, left in road.left if k in passed]
        clearly_ours = sum(it > CLEARLY for it in nearer)
        if len(nearer) * self.step < min(BESIDE, 0.5 * self.pair.line.length) or road.is_one_line and clearly_ours > PARTLY * len(nearer):
            return None
        return sum(nearer) / len(nearer)

    def nearest(self, is_opposite: bool) -> Optional[Tuple[float, Beside]]:
        """The other road to which it is nearest, compared with ours."""
        roads = ((self.nearness(it), it) for it in self.ours.beside if it.is_opposite is is_opposite)
        there = [(near, it) for near, it in roads if near is not None]
        return min(there, key=lambda pair: pair[0]) if there else None

    def on_another(self) -> Optional[Judged]:
        """The outcome of a course that is on another road beside ours."""
        found = self.nearest(False)
        if found is None or found[0] > -DECIDED:
            return None
        road, metres = found[1], len(found[1].left) * self.step
        at = self.pair.across.at[road.left[0][0]]
        return self.left_at(at, metres, f"for {metres:.0f} m, on the road of our line {road.line}")

    def beside(self) -> Optional[Judged]:
        """The outcome of a course that may be on another road beside ours."""
        for is_opposite, limit in ((False, ABOUT), (True, 0.0)):
            found = self.nearest(is_opposite)
            if found and found[0] < limit:
                road, place = found[1], self.pair.place(self.pair.across.at[found[1].left[0][0]])
                words = f"road beside: that of our line {road.line}{', which leads the other way,' * is_opposite} is about as near"
                return Judged(self.ours, Outcome.UNCLEAR, words, len(road.left) * self.step, place)
        return None

    # ---- ends

    @functools.cached_property
    def tips(self) -> Tuple[Tip, Tip]:
        """The start and the end of the other course."""
        first, last, line, other = self.chain[0], self.chain[-1], self.pair.line, self.pair.other
        start = tip(line, other, self.at(first), first.at, self.tolerance)
        back = Polyline(line.points[::-1]), Polyline(other.points[::-1])
        end = tip(*back, line.length - self.at(last), other.length - last.at, self.tolerance)
        return start, end._replace(at=line.length - end.at)

    def at_ends(self) -> Optional[Judged]:
        """The outcome of a course that begins or ends elsewhere on our road, the worse of both ends."""
        start, end = self.tips
        both = self.at_end(start.at - self.ours.begin, start, "start"), self.at_end(self.ours.end - end.at, end, "end")
        order, found = list(Outcome), [it for it in both if it]
        return min(found, key=lambda it: (order.index(it.outcome), -it.metres)) if found else None

    def at_end(self, after: float, it: Tip, side: str) -> Optional[Judged]:
        """The outcome of one end that is so many metres farther in on our course."""
        at = self.ours.begin if side == "start" else self.ours.end
        point, allowed = 0 if side == "start" else len(self.ours.marks) - 2, self.allowed(side)
        if it.beyond > BESIDE:
            where = "before our first point" if side == "start" else "behind our last point"
            words = f"at its {side}: {it.beyond:.0f} m of it are {where} or off our course"
            if not self.are_ends_judged:
                return Judged(self.ours, Outcome.UNCLEAR, f"{words}; ends not judged", it.beyond, self.pair.place(at), point)
            return Judged(self.ours, Outcome.LEAVES, words, it.beyond, self.pair.place(at), point)
        if after > allowed:
            return Judged(self.ours, Outcome.SHORTER, f"by {after:.0f} m at its {side}", after, self.pair.place(at), point)
        longer = it.beyond - after
        if longer > allowed and self.are_ends_judged:
            return Judged(self.ours, Outcome.LONGER, f"by {longer:.0f} m at its {side}", longer, self.pair.place(at), point)
        return None

    def allowed(self, side: str) -> float:
        """By how many metres an end may be off: the interval of the offset, what the legs differ by, the rounding of the point, and
        the tolerance."""
        marks, length = self.ours.marks, self.pair.line.length
        leg, cut = (marks[1].at, self.ours.begin) if side == "start" else (length - marks[-2].at, length - self.ours.end)
        first, last = self.chain[0], self.chain[-1]
        ours = (last.section - first.section) * self.step
        ratio = (last.at - first.at) / ours if ours else 1.0
        return leg / 256 + cut * abs(ratio - 1) + ROUNDING + self.tolerance
