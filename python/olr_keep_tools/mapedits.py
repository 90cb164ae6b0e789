"""The edits that lead from one map to another, with the lines that follow the course of those that are removed.

    named = Named({}, {})
    for record in edits(old, new, Limits(tolerance=5.0, length=0.001, dropped=0.05), named):
        print(record)
"""
import bisect
import math
from collections import Counter, deque
from typing import Deque, Dict, Iterable, Iterator, List, NamedTuple, Sequence, Set, Tuple

from .command import Failure
from .geo import METRES, Degrees, between, degrees, distance
from .grid import Points
from .records import UNITS, Line, Margin, Path, State, decimal
from .roads import Verdict
from .twomaps import TwoMaps, concerned

REFUSED = 4
ROUTES = 8  # the number of routes to one node, of one length, that a search follows

Lines = Tuple[int, ...]


class MapRefused(Failure):
    """Why the new map is refused."""

    def __init__(self, text: str):
        super().__init__(REFUSED, text)


class Limits(NamedTuple):
    """How far, in metres, and by which share of their length the courses of the same road may differ, and the greatest share of
    the lines that may be removed. `more` is how many metres of their length may differ whatever the share."""

    tolerance: float
    length: float
    dropped: float
    more: float = 0.0

    def slack(self, length: float) -> float:
        """How many decimetres longer or shorter than a road of this length the same one may be."""
        return max(length * self.length, 10 * self.more)


def place_fields(place: Sequence[int]) -> str:
    """The fields of a coordinate."""
    return ",".join(map(decimal, place))


def line_fields(line: Line) -> str:
    """The fields of a line after its ends."""
    shape = "".join(f",{at},{place_fields(place)}" for at, *place in line.shape)
    return f"{line.frc},{line.fow},{line.length}{shape}"


class Course:
    """The course of consecutive lines: the distances from its start, in decimetres, and the coordinates there, in degrees."""

    def __init__(self, state: State, numbers: Iterable[int]):
        self.at: List[int] = []
        self.places: List[Degrees] = []
        self.length = 0
        for line in map(state.lines.__getitem__, numbers):
            points = [(0, *state.nodes[line.start]), *line.shape, (line.length, *state.nodes[line.end])]
            self.at += [self.length + it[0] for it in points]
            self.places += [degrees(it[1:]) for it in points]
            self.length += line.length

    def place(self, far: float) -> Degrees:
        """The coordinate at a distance from the start."""
        k = min(max(1, bisect.bisect_left(self.at, far)), len(self.at) - 1)
        a, b = self.at[k - 1 : k + 1]
        p, q = self.places[k - 1 : k + 1]
        return between(p, q, min(1, max(0, (far - a) / (b - a))) if b > a else 0)

    def is_near(self, other: "Course", tolerance: float) -> bool:
        """Whether each point of this course is within this many metres of the point at the same distance along the other."""
        scale = other.length / self.length
        return all(distance(it, other.place(at * scale)) <= tolerance for at, it in zip(self.at, self.places))


def points_of(state: State, metres: float) -> Points:
    """The nodes of a map, by which those within so many metres of a place are found."""
    return Points(state.nodes, lambda it: degrees(state.nodes[it]), max(2 * metres / METRES, 1 / UNITS))


class Matcher:
    """Finds the lines of the new map that follow the course of lines of the old one."""

    def __init__(self, old: State, new: State, limits: Limits):
        self.old, self.new = old, new
        self.tolerance, self.limits = limits.tolerance, limits
        self.out: Dict[int, List[int]] = {}
        self.points = points_of(new, limits.tolerance)
        self.found: Dict[Lines, Lines] = {}
        for number in sorted(new.lines):
            self.out.setdefault(new.ends(number)[0], []).append(number)

    def same_nodes(self, node: int) -> List[int]:
        """The nodes of the new map where this one of the old map is: that with its number first, then the nearest ones."""
        far = self.points.near(degrees(self.old.nodes[node]), self.tolerance)
        return sorted(far, key=lambda it: (it != node, far[it], it))

    def matching(self, numbers: Lines) -> Lines:
        """The new lines that follow the course of these old ones; none if there are none."""
        if numbers not in self.found:
            course, ends = Course(self.old, numbers), set(self.same_nodes(self.old.ends(numbers[-1])[1]))
            starts = self.same_nodes(self.old.ends(numbers[0])[0])
            like = self.old.lines[numbers[0]]
            self.found[numbers] = next(filter(None, (self.search(course, it, ends, like) for it in starts)), ())
        return self.found[numbers]

    def search(self, course: Course, start: int, ends: Set[int], like: Line) -> Lines:
        """Connected lines from this node to one of the ends that follow the course and are nearest to its length; of several
        such ones those with the fewest lines, and of these those with lines of the same class. Of the routes to one node that
        have the same length at most ROUTES are followed, so that twin lines don't double the work again and again."""
        best: Lines = ()
        least, routes = math.inf, Counter[Tuple[int, int]]()
        waiting: Deque[Tuple[int, int, Lines]] = deque([(start, 0, ())])
        while waiting and least:
            node, far, route = waiting.popleft()
            slack = self.limits.slack(course.length) + len(route) + 1
            if route and node in ends and abs(far - course.length) < min(least, slack + 1):
                new = Course(self.new, route)
                if new.is_near(course, self.tolerance) and course.is_near(new, self.tolerance):
                    best, least = route, abs(far - course.length)
            lines = {it: self.new.lines[it] for it in self.out.get(node, ()) if it not in route}
            for number, line in sorted(lines.items(), key=lambda it: (it[1][2:4] != like[2:4], it[0])):
                further, near = far + line.length, self.tolerance + (slack + 1) / 10
                if further <= course.length + slack and self.follows(line, course, far, near):
                    routes[line.end, further] += 1
                    if routes[line.end, further] <= ROUTES:
                        waiting.append((line.end, further, (*route, number)))
        return best

    def follows(self, line: Line, course: Course, far: int, near: float) -> bool:
        """Whether a line is near a course from this distance on, with each of its points."""
        points = (*line.shape, (line.length, *self.new.nodes[line.end]))
        return all(distance(degrees(place), course.place(far + at)) <= near for at, *place in points)


def is_kept(old: State, new: State, number: int) -> bool:
    """Whether a line of the old map is in the new one with the same ends."""
    return number in new.lines and new.ends(number) == old.ends(number)


def runs(old: State, lines: Iterable[int], dropped: Set[int]) -> Iterator[Lines]:
    """The lines of a path in order: each retained line alone, and consecutive removed lines together."""
    run: Lines = ()
    for number in lines:
        is_dropped = number in dropped
        if run and not (is_dropped and old.ends(run[-1])[1] == old.ends(number)[0]):
            yield run
            run = ()
        run += (number,)
        if not is_dropped:
            yield run
            run = ()
    if run:
        yield run


def new_lines(matcher: Matcher, path: Path, dropped: Set[int]) -> Tuple[Lines, Lines]:
    """The lines of a path in the new map, and the old lines that have no matching ones there."""
    lines: Lines = ()
    lost: Lines = ()
    for run in runs(matcher.old, path.lines, dropped):
        found = matcher.matching(run) if run[0] in dropped else run
        lines += found or run
        lost += () if found else run
    return (lines, lost) if len(set(lines)) == len(lines) else (path.lines, lost or path.lines)


class Named(NamedTuple):
    """Paths that need a person: those without lines in the new map, each with its old lines, and those that may be on another road
    than theirs, each with why."""

    lost: Dict[str, Lines]
    doubts: Dict[str, str]


def repaths(old: State, new: State, dropped: Set[int], limits: Limits, named: Named) -> Iterator[str]:
    """The records that give paths their new lines. Looked at are the paths over removed lines, and those near lines that are not
    as they were."""
    names = {name for name, path in old.paths.items() if not dropped.isdisjoint(path.lines)} | set(concerned(old, new))
    paths = {name: path for name, path in old.paths.items() if name in names}
    if not paths:
        return
    matcher, maps = Matcher(old, new, limits), TwoMaps(old, new, paths.values())
    for name, path in paths.items():
        lines, without = new_lines(matcher, path, dropped)
        on = maps.on_its_road(path, path._replace(lines=lines))
        if without or on.answer and on.answer.verdict is Verdict.GONE and not dropped.isdisjoint(path.lines):
            named.lost[name] = without or tuple(it for it in path.lines if it in dropped)
            continue
        if on.answer and on.answer.verdict is not Verdict.THERE:
            named.doubts[name] = on.answer.words()
        if on.path != path:
            yield ",".join(map(str, ["repath", name, on.path.positive, on.path.negative, *on.path.lines]))


def edits(old: State, new: State, limits: Limits, named: Named) -> Iterator[str]:
    """The edits in order; `named` gets the paths that need a person. Raises MapRefused if they would remove too many lines."""
    dropped = {it for it in old.lines if old.lines.text[it] != new.lines.text.get(it) and not is_kept(old, new, it)}
    if not new.lines:
        raise MapRefused("it has no line")
    if len(dropped) > limits.dropped * len(old.lines):
        share = f"{len(dropped)} of the {len(old.lines)} lines, {len(dropped) / len(old.lines):.1%}"
        raise MapRefused(f"it would remove {share}: if it is meant so, call edits with a greater --most-dropped")
    yield from (f"drop-line,{it}" for it in old.lines if it in dropped)
    yield from (f"node,{it},{place_fields(new.nodes[it])}" for it in new.nodes if it not in old.nodes)
    moved = (it for it in new.nodes if it in old.nodes and new.nodes.text[it] != old.nodes.text[it])
    yield from (f"move,{it},{place_fields(new.nodes[it])}" for it in moved)
    for it in new.lines:
        if it not in old.lines or it in dropped:
            line = new.lines[it]
            yield f"line,{it},{line.start},{line.end},{line_fields(line)}"
        elif new.lines.text[it] != old.lines.text[it]:
            yield f"set-line,{it},{line_fields(new.lines[it])}"
    yield from repaths(old, new, dropped, limits, named)
    yield from (f"drop-node,{it}" for it in old.nodes if it not in new.nodes)
    if new.margin not in (Margin(), old.margin):
        yield new.margin.record()
