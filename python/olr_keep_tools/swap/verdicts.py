"""What becomes of each path on the next map: its string, and whether that is the same road, as `roads` decides it."""
import enum
import math
from typing import Dict, Iterator, Mapping, NamedTuple, Sequence, Tuple

from .. import roads
from ..courses import Plane, Polyline, Strip
from ..drawn import shape_of
from ..geo import Degrees
from ..records import State
from ..strings import TextError, read_reference
from .carry import Carried, Gone, How, Report, Result

SLACK = 0.2  # metres by which rounded positions may be off
CLOSE = 0.01  # metres by which a course may be farther off than what is found
BESIDE = 6  # segments of a course that are compared with a segment of the other one
REPORTED = 1000

Answer = Sequence[str]


class Kind(enum.Enum):
    """What becomes of a path, the worst first."""

    LOST = "lost"
    OTHER_ROAD = "other road"
    TWO_ROADS = "two roads"
    FARTHER = "farther off"
    WITHOUT = "without a string before"
    SAME_ROAD = "same road"
    SAME_STRING = "same string"


class Verdict(NamedTuple):
    """What becomes of a path: `answers` are the old and the new one, `far` is how many metres its course is off at most,
    `length` how many metres of its course are off by more than `allowed`, the tolerance, and `ends` by how many metres its ends
    are elsewhere along the road. `ambiguous` has what its string may be taken for now, and not before. `course` is the old one
    where it is lost."""

    name: str
    kind: Kind
    answers: Tuple[str, str]
    how: str = ""
    far: float = 0.0
    length: float = 0.0
    allowed: float = 0.0
    ends: Tuple[float, float] = (0.0, 0.0)
    ambiguous: Tuple[str, ...] = ()
    why: str = ""
    place: Sequence[float] = ()
    course: Sequence[Degrees] = ()


class Map(NamedTuple):
    """A map with its paths, and for each path what its string may be taken for."""

    state: State
    ambiguous: Mapping[str, Tuple[str, ...]]


def ambiguities(lines: Sequence[str]) -> Dict[str, Tuple[str, ...]]:
    """What the reply to `ambiguous` says, by path."""
    found: Dict[str, Tuple[str, ...]] = {}
    for line in lines:
        name, _, rest = line.partition(",")
        found[name] = (*found.get(name, ()), rest)
    return found


class Apart(NamedTuple):
    """How many metres a course is off another one at most, and over which length it is off by more than the tolerance."""

    far: float
    length: float


def nearest(strip: Strip, point: Degrees) -> Tuple[float, int]:
    """How far a course is from a point, and which segment of it is the nearest."""
    near = strip.segments_near(point, strip.grid.size)
    found = min(((far, k) for k, (far, _) in zip(near, strip.project(point, near))), default=(math.inf, 0))
    if found[0] > strip.grid.size:
        found = min(((far, k) for k, (far, _) in enumerate(strip.project(point))), default=(math.dist(point, strip.points[0]), 0))
    return found


def apart(course: Sequence[Degrees], other: Sequence[Degrees], tolerance: float) -> Apart:
    """How far a course is off another one."""
    if course == other:
        return Apart(0.0, 0.0)
    plane = Plane(course[0][1])
    strip, line = Strip([plane.flat(it) for it in other], 50.0), Polyline([plane.flat(it) for it in course])
    (worst, first), off = nearest(strip, line.points[0]), 0.0
    for k, (a, b) in enumerate(zip(line.points, line.points[1:])):
        far, last = nearest(strip, b)
        worst = max(worst, far)
        # A segment is no farther from any point between two than from one of these.
        beside = range(max(0, min(first, last) - 1), min(max(first, last) + 2, min(first, last) + BESIDE, len(other) - 1))
        ends = zip(strip.project(a, beside), strip.project(b, beside))
        if min((max(one[0], two[0]) for one, two in ends), default=math.inf) > min(worst + CLOSE, tolerance):
            before = line.far[k]
            for at in line.samples(before, line.far[k + 1]):
                far, _ = nearest(strip, line.at(at))
                off += at - before if far > tolerance else 0.0
                worst, before = max(worst, far), at
        first = last
    return Apart(worst, off)


def intervals(answer: Answer) -> Tuple[float, float]:
    """The metres for which the two offsets of a string stand."""
    try:
        reference = read_reference(answer[1]) if answer[0] == "text" else None
    except TextError:
        reference = None
    if reference is None:
        return 0.0, 0.0
    legs = (reference.points[0].onward, reference.points[-2].onward)
    first, last = ((high - low) * (leg.metres if leg else 0.0) for (low, high), leg in zip(reference.shares, legs))
    return first, last


class Judge:
    """Judges each path by its place on both maps."""

    def __init__(self, old: Map, new: Map, tolerance: float):
        self.old, self.new, self.tolerance = old, new, tolerance

    def verdicts(self, results: Mapping[str, Result], report: Report) -> Iterator[Verdict]:
        """What becomes of each path."""
        for count, (name, found) in enumerate(results.items()):
            if count % REPORTED == 0:
                report(f"{count} of {len(results)} paths are compared")
            yield self.verdict(name, found)

    def verdict(self, name: str, found: Result) -> Verdict:
        """What becomes of a path."""
        was, now = self.old.state.published[name], self.new.state.published.get(name)
        answers = ",".join(was), ",".join(now or ["dropped"])
        if was[0] != "text":
            return Verdict(name, Kind.WITHOUT, answers)
        course = shape_of(self.old.state, self.old.state.paths[name])
        if isinstance(found, Gone):
            return Verdict(name, Kind.LOST, answers, why=found.why, place=found.place, course=course)
        if now is None or now[0] != "text":
            return Verdict(name, Kind.LOST, answers, found.how.value, why="it is not encodable there", course=course)
        return self.compared(Verdict(name, Kind.SAME_ROAD, answers, found.how.value, course=course), found)

    def compared(self, verdict: Verdict, found: Carried) -> Verdict:
        """The verdict on a path with a string on both maps."""
        course = shape_of(self.new.state, self.new.state.paths[verdict.name])
        more = () if self.old.ambiguous.get(verdict.name) else self.new.ambiguous.get(verdict.name, ())
        verdict = compared(verdict._replace(ends=found.off, ambiguous=more), course, self.tolerance)
        return verdict if found.road is None else by_road(verdict, found, found.road)


# What is said of a path by what became of its road.
BY_ROAD = {roads.Verdict.GONE: Kind.OTHER_ROAD, roads.Verdict.TWO: Kind.TWO_ROADS, roads.Verdict.AGAIN: Kind.FARTHER,
           roads.Verdict.FAR: Kind.FARTHER}


def by_road(verdict: Verdict, found: Carried, road: roads.Answer) -> Verdict:
    """A verdict by metres as it is by the path's road. Where that is there, a path that the new map has itself, with ends within
    the tolerance, is on the same road however far it was moved; any other one is farther off if it is by more than the tolerance."""
    kind = BY_ROAD.get(road.verdict)
    if kind in (Kind.OTHER_ROAD, Kind.TWO_ROADS):
        return verdict._replace(kind=kind, why=road.words(), place=road.place or ())
    if kind is None and verdict.kind is not Kind.OTHER_ROAD:
        return verdict
    if kind is None and found.how is How.GIVEN and fits(verdict, verdict.allowed):
        return verdict._replace(kind=same(verdict))
    again = ["its road was drawn again"] if road.verdict is roads.Verdict.AGAIN else []
    return verdict._replace(kind=Kind.FARTHER, why=", ".join([*again, *(["same junctions"] if found.is_between else [])]))


def same(verdict: Verdict) -> Kind:
    """The kind of a path on the same road."""
    return Kind.SAME_STRING if verdict.answers[0] == verdict.answers[1] else Kind.SAME_ROAD


def fits(verdict: Verdict, metres: float = 0.0) -> bool:
    """Whether the ends of a path are off by no more than the intervals of its offsets, or than these metres."""
    was, now = (intervals(it.split(",")) for it in verdict.answers)
    return all(off <= max(metres, *pair) + SLACK for off, *pair in zip(verdict.ends, was, now))


def compared(verdict: Verdict, course: Sequence[Degrees], tolerance: float) -> Verdict:
    """The verdict on a path with a string before and now, whose course was that of the verdict and is this one."""
    there, back = apart(verdict.course, course, tolerance), apart(course, verdict.course, tolerance)
    far, length = max(there.far, back.far), max(there.length, back.length)
    kind = same(verdict) if fits(verdict) and far <= tolerance else Kind.OTHER_ROAD
    return verdict._replace(kind=kind, far=far, length=length, allowed=tolerance, course=course)
