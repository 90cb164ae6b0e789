"""Finds the lines of a path. What an operator gave, streets or a course, decides where it is at first. From then on it is sought on
the road of this course, and if that can't be had, it is found elsewhere."""
from __future__ import annotations

import enum
import math
from typing import Dict, Iterator, List, NamedTuple, Optional, Sequence, Tuple

from ..courses import DRAWN, Ends, Follower, Found, Lost, Plane, Polyline, Rival, Wish, course_of, is_far_off
from ..roads import NEW_ID, STILL, Given, LastMap, Roads, Verdict, farthest_apart, vertices_apart
from ..sql import Course, Place
from ..streets import LATITUDES, LONGITUDES, are_between
from .finder import Finder, Row
from .streetsearch import LastEnds, Result, StreetSearch, marked_street, position, streets_of

LEFT = 20  # decimetres of a street beyond an end of a path that are nothing
WIDE = 0.6  # degrees that may be so far that a coordinate is wrong


class Wanted(NamedTuple):
    """A path as operators give it."""

    name: str
    streets: Optional[List[str]]
    course: Optional[Course]
    cut_start: float
    cut_end: float
    definition: str

    def fault(self) -> Optional[Lost]:
        """Why nothing can be found for it: `Lost`, or None."""
        if self.streets is not None and not all(it and it not in ("<", ">") for it in self.streets):
            return Lost("its streets have an empty or NULL id", None)
        lons, lats = zip(*self.course) if self.course else ((), ())
        if not (are_between(lons, *LONGITUDES) and are_between(lats, *LATITUDES)):
            return Lost("its course is beyond the longitudes -180 to 179.9999 or the latitudes -89.9999 to 89.9999", None)
        is_wide = any(it and max(it) - min(it) > WIDE for it in (lons, lats))
        if self.course and is_wide and is_far_off(self.course):
            return Lost("two coordinates of its course are more than 100 km apart", self.course[0])
        return None


class PathState(enum.Enum):
    """Where a path is: as its streets or its course say, elsewhere, or on no lines."""

    SAID = "said"
    ELSEWHERE = "elsewhere"
    LOST = "lost"


class Known(NamedTuple):
    """A path as it was found last; `nodes` are those at its ends, or None where they are no longer there. `given` is its course
    as it was given, or None if it was never found, with the streets of then, and which of its ends were at junctions. `last` is the map on
    which it was last as given, if it isn't now, and `off` how many metres it is off the given course."""

    lines: List[int]
    streets: List[str]
    start: int
    end: int
    nodes: Tuple[Optional[int], Optional[int]]
    course: Optional[Course]
    definition: str
    state: PathState
    given: Optional[Course]
    given_ends: Ends
    given_streets: List[str]
    last: Optional[LastMap] = None
    off: Optional[float] = None

    def at_junctions(self) -> Ends:
        """Which of its ends are at junctions."""
        return Ends(self.start == 0, self.end == 0)


class Remark(NamedTuple):
    """What an operator should know of a path that is as given: the kind of problem, and what it is in words."""

    kind: str
    words: str
    place: Optional[Place]


class Placement(NamedTuple):
    """Where a path is found, and why not as given; `lost_at` are the places from which on no lines were found. `off` is how many
    metres it is off the given course, and `last` the map on which it was last as given. `has_rival` is whether a problem that two
    roads follow its course isn't mended."""

    state: PathState
    found: Optional[Found] = None
    why: Optional[Lost] = None
    lost_at: Tuple[Place, ...] = ()
    off: Optional[float] = None
    last: Optional[LastMap] = None
    remarks: Tuple[Remark, ...] = ()
    has_rival: bool = False


class PathSearch:
    """The search for one path; `untouched` is whether its lines are as they were before the round, or hardly moved, and `before` finds
    lines of the map as it was then."""

    def __init__(self, finder: Finder, wanted: Wanted, known: Optional[Known], before: Optional[Finder],
                 untouched: bool = False) -> None:
        self.finder, self.wanted, self.before, self.untouched = finder, wanted, before, untouched
        self.known = known if known is not None and known.definition == wanted.definition else None
        self.followers: Dict[Course, Follower] = {}
        self.lost: List[Lost] = []
        self.other_way: Optional[Rival] = None  # over the streets that the operator gave

    def run(self) -> Placement:
        """Where the path is."""
        fault = self.wanted.fault()
        if fault:
            return Placement(PathState.LOST, None, fault)
        if self.known is not None and self.known.given is not None:
            return self.on_road(self.known, self.known.given)
        said = self.as_said()
        if isinstance(said, Found):
            return Placement(PathState.SAID, said, off=0.0, remarks=tuple(self.doubts(said)))
        return Placement(PathState.LOST, None, said, self.lost_at())

    def lost_at(self) -> Tuple[Place, ...]:
        """Where the searches ended: a street that is edited elsewhere doesn't lead to other results."""
        return tuple(dict.fromkeys(it.place for it in self.lost if it.place))

    # ---- as the operator said

    def as_said(self) -> Result:
        """The lines of the streets, or else of the course, that the operator gave."""
        by_streets = self.by_given_streets()
        if isinstance(by_streets, Found) or not self.wanted.course:
            return by_streets
        by_course = self.follow(self.wanted.course, Wish(snap=DRAWN, has_rivals=True))
        return by_course if isinstance(by_course, Found) or not self.wanted.streets else by_streets

    def by_given_streets(self) -> Result:
        """The lines of the streets that the operator gave."""
        if not self.wanted.streets:
            return Lost("it has neither streets nor a course", None)
        found = self.by_streets(self.wanted.streets, None, 0)
        if isinstance(found, Lost):
            return found
        self.other_way = found.rival
        return found._replace(rival=None)

    def by_streets(self, streets: Sequence[str], last: Optional[LastEnds], tolerance: float) -> Result:
        """The lines of streets in this order; each is left where it meets the next. The ends are sought within the tolerance
        of the last ones; without these the lines are from the start of the first street to the end of the last."""
        marked = [marked_street(it) for it in streets]
        self.finder.read_streets({it for _, it in marked})
        for _, street in marked:
            if not self.finder.streets[street]:
                return Lost(f"street {street} has no line", None)
        by_street = {it: [self.finder.rows[number] for number in self.finder.streets[it]] for _, it in marked}
        search = StreetSearch(marked, by_street, last, tolerance)
        found = search.search()
        return found._replace(rival=search.other_way()) if isinstance(found, Found) and last is None else found

    def doubts(self, found: Found) -> Iterator[Remark]:
        """What an operator should know of the lines that were found first: until it is accepted, or the path is given again."""
        it, course = self.other_way, self.wanted.course
        if it:
            words = f"two ways lead over its streets: from here on it is on {it.taken}, and {it.other} leads there too"
            yield Remark("two ways", words, it.place)
        own = course_of([self.finder.rows[number] for number in found.lines], found.start, found.end)
        off = farthest_apart(course, own) if course else 0.0
        if off > NEW_ID:
            yield Remark("off its course", f"it is {off:.0f} m off its drawn course", own[0])

    # ---- on the road where it was given

    def on_road(self, known: Known, given: Course) -> Placement:
        """The lines of the road of the given course."""
        is_given, kept = known.state is PathState.SAID, self.kept(known)
        off = self.off(known, given, kept) if is_given and self.untouched and kept else None
        if kept and off is not None:
            return Placement(PathState.SAID, kept, off=off, remarks=self.remarks(kept), has_rival=True)
        last = self.last_map(known, given) if is_given else known.last
        near, network = self.finder.around(given), self.finder.near(given)
        answer = Roads(Given(given, *known.given_ends, streets_of(known.given_streets)), last, near, network, self.finder.tolerance).decide()
        found = answer.found
        if isinstance(found, Found) and answer.verdict is Verdict.THERE:
            return Placement(PathState.SAID, found, off=answer.off, remarks=self.remarks(found), has_rival=answer.is_beside)
        if isinstance(found, Lost):
            self.lost.append(found)
        lines = found if isinstance(found, Found) else self.elsewhere(known)
        why = Lost(answer.words(), answer.place)
        if lines:
            return Placement(PathState.ELSEWHERE, lines, why, last=last)
        return Placement(PathState.LOST, None, why, self.lost_at(), last=last)

    def off(self, known: Known, given: Course, kept: Found) -> Optional[float]:
        """How far a path is off its given course on the same lines, which are hardly moved; None if a search has to say it."""
        course = course_of([self.finder.rows[it] for it in kept.lines], kept.start, kept.end)
        if known.off is not None and course == known.course:
            return known.off
        off = vertices_apart(given, course)
        return off if off <= STILL else None

    def last_map(self, known: Known, given: Course) -> Optional[LastMap]:
        """The map before the round, as far as it is near."""
        lines = self.before.around(given) if self.before else {}
        return LastMap(lines, known.lines, (known.start, known.end)) if known.lines and all(it in lines for it in known.lines) else None

    def remarks(self, found: Found) -> Tuple[Remark, ...]:
        """What an operator who gave streets should know of the lines that were found."""
        if not self.wanted.streets:
            return ()
        marked = [marked_street(it)[1] for it in self.wanted.streets]
        self.finder.read_streets({*marked})
        rows = [self.finder.rows[it] for it in found.lines]
        under = {it.street for it in rows}
        remarks = [Remark("not on its street", f"street {it} is not under it any more", self.finder.rows[lines[0]].points[0])
                   for it in dict.fromkeys(marked) if it not in under and (lines := self.finder.streets[it])]
        for street, row, cut, words in ((marked[0], rows[0], found.start, "begins {} m before it"),
                                        (marked[-1], rows[-1], found.end, "ends {} m farther on")):
            left = cut + self.left(row, row is rows[-1]) if row.street == street else 0
            if left > LEFT:
                place = row.points[-1 if row is rows[-1] else 0]
                remarks.append(Remark("farther on", f"street {street} " + words.format(round(left / 10)), place))
        return tuple(remarks)

    def left(self, row: Row, is_end: bool) -> int:
        """The decimetres of a line's street beyond it in its direction, or before it."""
        rows = [self.finder.rows[it] for it in self.finder.streets[row.street]]
        rows = [it for it in rows if it.along == row.along and it.part == row.part]
        return sum(it.length for it in rows if (it.k > row.k if is_end == row.along else it.k < row.k))

    # ---- elsewhere

    def elsewhere(self, known: Known) -> Optional[Found]:
        """The lines where the path is instead, as far as they can be had."""
        if isinstance(found := self.by_given_streets(), Found):
            return found
        attempts = self.kept, self.by_last_course, self.by_last_streets, self.by_any_streets
        return next((it for it in (attempt(known) for attempt in attempts) if isinstance(it, Found)), None)

    def follow(self, course: Course, wish: Wish) -> Result:
        """The lines that follow a course."""
        network = self.finder.near(course)
        if course not in self.followers:
            self.followers[course] = Follower(course, network, self.finder.tolerance)
        found = self.followers[course].follow(wish)
        if isinstance(found, Lost):
            self.lost.append(found)
        return found

    def kept(self, known: Known) -> Optional[Found]:
        """The same lines, if all are there and join; what is cut off them at the ends stays at its coordinates."""
        rows = [self.finder.rows[it] for it in known.lines if it in self.finder.rows]
        if not rows or len(rows) < len(known.lines) or any(a.end != b.start for a, b in zip(rows, rows[1:])):
            return None
        start, end = known.start, known.end
        if known.course and (start or end):
            start = cut_before(rows[0], known.course[0]) if start else 0
            end = rows[-1].length - cut_before(rows[-1], known.course[-1]) if end else 0
        return Found(list(known.lines), start, end)

    def by_last_course(self, known: Known) -> Optional[Result]:
        """The lines that follow the last course."""
        if not known.course or known.course == known.given:
            return None
        return self.follow(known.course, Wish(streets_of(known.streets), ends=known.at_junctions()))

    def by_last_streets(self, known: Known) -> Optional[Result]:
        """The lines of the streets that the path led over, from its last start to its last end."""
        if not (known.streets and known.course):
            return None
        return self.by_streets(known.streets, last_ends(known, known.course), self.finder.tolerance)

    def by_any_streets(self, known: Known) -> Optional[Result]:
        """The same, however far the ends have moved."""
        if not (known.streets and known.course):
            return None
        found = self.by_streets(known.streets, last_ends(known, known.course), math.inf)
        if isinstance(found, Found):
            length = sum(self.finder.rows[it].length for it in found.lines) - found.start - found.end
            before = 10 * length_of(known.course)
            if not before / 2 - 1000 <= length <= before * 2 + 1000:
                return None
        return found


def last_ends(known: Known, course: Course) -> LastEnds:
    """Where a path last began and ended."""
    return LastEnds(known.start, known.end, known.nodes, course)


def cut_before(row: Row, place: Place) -> int:
    """The decimetres of a line before the point of it that is nearest to a coordinate."""
    at, length = position(row, place)[1:]
    return round(at / (length or 1) * row.length)


def length_of(course: Course) -> float:
    """The length of a course, in metres."""
    plane = Plane(course[0][1])
    return Polyline(plane.course(course)).length
