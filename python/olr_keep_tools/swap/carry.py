"""Carries paths to another map: by the numbers of their lines where these are still the same road, else by the lines that
follow the same course.

    carrier = Carrier(old, new, Limits(tolerance=10.0, length=0.02, dropped=1.0))
    for name, found in carrier.carried(old.paths, report).items():
        print(found.path.lines if isinstance(found, Carried) else found.why)

Positions are decimetres along the lines of a path, extended at both ends to junctions if its own ends are no longer there.
"""
import bisect
import enum
import functools
import itertools
import math
from typing import Callable, Dict, Iterator, List, Mapping, NamedTuple, Optional, Sequence, Tuple, Union

from ..courses import DRAWN, Ends, Found, Wish, follow
from ..drawn import Junctions, shape_of
from ..geo import degrees, distance
from ..mapedits import Course, Limits, Lines, Matcher, points_of
from ..records import Path, Place, State
from ..roads import Answer
from ..twomaps import FAR, Nearby, TwoMaps, cells_around, is_unchanged, without_cut

REPORTED = 1000  # paths between two reports
AROUND = 250.0  # metres within which another node shows by how much all of them are moved
TOGETHER = 4  # nodes near each other that are told apart by their lines, and by how all of them are moved

Report = Callable[[str], None]
Anchors = List[Tuple[float, float]]  # positions on the old and on the new lines that are the same place


class How(enum.Enum):
    """How a path came to its lines on the new map."""

    NUMBERS = "by number"
    COURSE = "by course"
    FOUND = "found again"
    GIVEN = "given"


class Carried(NamedTuple):
    """A path on the new map, and by how many metres each of its ends may be elsewhere along the road. `road` is what became of its
    road, where that was asked and can be decided; `is_between` is whether both ends are at the junctions where they were."""

    path: Path
    how: How
    off: Tuple[float, float] = (0.0, 0.0)
    road: Optional[Answer] = None
    is_between: bool = False


class Gone(NamedTuple):
    """Why a path has no lines on the new map, and where, if it is known."""

    why: str
    place: Sequence[float] = ()


Result = Union[Carried, Gone]


class Old(NamedTuple):
    """The lines of a path as they are matched, with its own first and last position, and those at which it begins and ends."""

    lines: Lines
    own: Tuple[int, int]
    at: Tuple[int, int]


class Piece(NamedTuple):
    """Lines of the old map, and those of the new one that follow them; none if there are none."""

    old: Lines
    new: Lines


class Pairing(Matcher):
    """Finds the lines that follow others, between nodes that are the same place on both maps."""

    def __init__(self, old: State, new: State, limits: Limits):
        super().__init__(old, new, limits)
        self.pairs: Dict[int, Optional[int]] = {}
        self.old_points, self.around = points_of(old, limits.tolerance), points_of(old, AROUND)

    def same_nodes(self, node: int) -> List[int]:
        """The node of the new map where this one of the old map is, or none: that with its number, if it is there, or the
        nearest one, where the nodes around it are moved alike, unless that is nearer to another old one."""
        if node not in self.pairs:
            near = self.on_new(self.old.nodes[node])
            self.pairs[node] = node if node in near else near[0] if self.is_alone(near) else self.nearest(node, near)
        pair = self.pairs[node]
        return [] if pair is None else [pair]

    def on_old(self, place: Place) -> List[int]:
        """The nodes of the old map within the tolerance of a place."""
        return list(self.old_points.near(degrees(place), self.tolerance))

    def on_new(self, place: Place) -> List[int]:
        """Those of the new map."""
        return list(self.points.near(degrees(place), self.tolerance))

    def is_alone(self, near: Sequence[int]) -> bool:
        """Whether this is one node of the new map, with one of the old map near it."""
        return len(near) == 1 and len(self.on_old(self.new.nodes[near[0]])) == 1

    def nearest(self, node: int, near: List[int]) -> Optional[int]:
        """The one of these nodes that this one is. If there are as many around it, and no others near, they have lines to the
        same places as far as possible, and are moved alike. Else it is the nearest to where this one is moved to, unless that is
        nearer to another old one."""
        if not near:
            return None
        rivals = self.on_old(self.old.nodes[node])
        others = (it for number in near for it in self.on_old(self.new.nodes[number]))
        if 1 < len(near) == len(rivals) <= TOGETHER and set(rivals).issuperset(others):
            found = min(itertools.permutations(near), key=lambda it: (self.parted(rivals, it), self.spread(rivals, it)))
            return found[rivals.index(node)]
        by = self.displacement(node)

        def to(old: int, new: int) -> float:
            (lon, lat), place = self.old.nodes[old], self.new.nodes[new]
            return distance(degrees((lon + by[0], lat + by[1])), degrees(place))

        best = min(near, key=lambda it: to(node, it))
        return best if all(to(node, best) <= to(it, best) for it in rivals) else None

    @functools.cached_property
    def leaving(self) -> Dict[int, List[int]]:
        """The far ends of the lines that leave each node of the old map."""
        found: Dict[int, List[int]] = {}
        for start, end in map(self.old.ends, self.old.lines):
            found.setdefault(start, []).append(end)
        return found

    def parted(self, old: Sequence[int], new: Sequence[int]) -> int:
        """How many lines from nodes to others have none that leaves the new node and leads to the same place."""
        count = 0
        for a, b in zip(old, new):
            ends = [degrees(self.new.nodes[self.new.ends(it)[1]]) for it in self.out.get(b, ())]
            count += sum(all(distance(degrees(self.old.nodes[it]), there) > self.tolerance for there in ends)
                         for it in self.leaving.get(a, ()))
        return count

    def spread(self, old: Sequence[int], new: Sequence[int]) -> float:
        """How differently nodes are moved to others: the sum of the squares from the mean."""
        wide = math.cos(math.radians(degrees(self.old.nodes[old[0]])[1]))
        pairs = [(self.old.nodes[a], self.new.nodes[b]) for a, b in zip(old, new)]
        moves = [((b[0] - a[0]) * wide, b[1] - a[1]) for a, b in pairs]
        return float(sum((it - sum(axis) / len(axis)) ** 2 for axis in zip(*moves) for it in axis))

    def displacement(self, node: int) -> Place:
        """By how much the nearest node is moved that is the only one where it is on both maps."""
        far = self.around.near(degrees(self.old.nodes[node]), AROUND)
        for other in sorted(far.keys() - {node}, key=lambda it: (far[it], it)):
            at = self.old.nodes[other]
            near = self.on_new(at)
            if self.is_alone(near):
                to = self.new.nodes[near[0]]
                return to[0] - at[0], to[1] - at[1]
        return 0, 0


class Carrier:
    """Carries the paths of one map to another."""

    def __init__(self, old: State, new: State, limits: Limits):
        self.old, self.new, self.limits = old, new, limits
        self.matcher = Pairing(old, new, limits)
        self.known: Dict[int, Lines] = {}

    @functools.cached_property
    def junctions(self) -> Junctions:
        """The junctions of the old map."""
        return Junctions(self.old)

    def carried(self, paths: Mapping[str, Path], report: Report) -> Dict[str, Result]:
        """Each path on the new map, or why it has no lines there. Only those that their lines don't carry are found again, and one
        that the records of the new map have themselves is where they have it."""
        results: Dict[str, Result] = {}
        sought: Dict[str, List[Old]] = {}
        for count, (name, path) in enumerate(paths.items()):
            if count % REPORTED == 0:
                report(f"{count} of {len(paths)} paths are carried by their lines")
            results[name] = found = self.apart(path) or self.by_lines(path)
            if isinstance(found, Gone) and not found.why:
                sought[name] = self.forms(path)
        courses = [Course(self.old, it.lines).places for forms in sought.values() for it in forms]
        report(f"{len(sought)} of {len(paths)} paths are found again")
        nearby = Nearby(self.new, set().union(*map(cells_around, courses)))
        results.update((name, self.again(forms, nearby)) for name, forms in sought.items())
        results.update((name, self.given(name, results[name])) for name in paths if name in self.new.paths)
        return self.on_their_roads(paths, results, report)

    def on_their_roads(self, paths: Mapping[str, Path], results: Dict[str, Result], report: Report) -> Dict[str, Result]:
        """The same, each with what became of its road, and with the lines of this if it was carried to another one."""
        moved_ones = {name: it for name, it in results.items() if isinstance(it, Carried) and not (
            it.path.lines == paths[name].lines and all(map(self.is_unchanged, it.path.lines)))}
        maps = TwoMaps(self.old, self.new, (paths[name] for name in moved_ones))
        for count, (name, it) in enumerate(moved_ones.items()):
            if count % REPORTED == 0:
                report(f"{count} of {len(moved_ones)} paths are compared with the roads beside them")
            results[name] = self.on_its_road(maps, paths[name], it)
        return results

    def on_its_road(self, maps: TwoMaps, path: Path, found: Carried) -> Carried:
        """A path that was carried, on the lines of its own road, if these are known. One that was given stays where it is, and is
        judged both ways: on the way back as on the way there."""
        now = (maps.judged_both_ways if found.how is How.GIVEN else maps.on_its_road)(path, found.path)
        if now.path != found.path:
            cut = without_cut(self.old, path)
            found = self.located(self.form(cut, [], []), Found(list(now.path.lines), now.path.positive, now.path.negative))
        start, end = (0.0 if is_there else off for is_there, off in zip(now.junctions, found.off))
        return found._replace(off=(start, end), road=now.answer, is_between=all(now.junctions))

    def given(self, name: str, carried: Result) -> Carried:
        """A path that the new map has itself: its ends are compared with those to which it would be carried."""
        now = shape_of(self.new, self.new.paths[name])
        was = shape_of(self.new, carried.path) if isinstance(carried, Carried) else shape_of(self.old, self.old.paths[name])
        start, end = (distance(was[k], now[k]) if was and now else 0.0 for k in (0, -1))
        return Carried(self.new.paths[name], How.GIVEN, (start, end))

    def apart(self, path: Path) -> Optional[Result]:
        """A path that was on no connected lines, on those that follow each of them; None if it was on connected ones."""
        missing = next((it for it in path.lines if it not in self.old.lines), None)
        if missing is not None:
            return Gone(f"its line {missing} was not in the old map")
        ends = list(map(self.old.ends, path.lines))
        if all(a[1] == b[0] for a, b in zip(ends, ends[1:])):
            return None
        lines = [new for it in path.lines for new in self.line(it)]
        if all(map(self.line, path.lines)) and len(set(lines)) == len(lines):
            return Carried(path._replace(lines=tuple(lines)), How.COURSE)
        return Gone("its lines did not join")

    def forms(self, path: Path) -> List[Old]:
        """The lines of a path, also with those by which it is extended to junctions, and both without what offsets cut off."""
        found = []
        for part in dict.fromkeys((path, without_cut(self.old, path))):
            before, after = self.junctions.extension(part.lines)
            found += [self.form(part, [], []), *([self.form(part, before, after)] if before or after else [])]
        return found

    def form(self, path: Path, before: List[int], after: List[int]) -> Old:
        """The lines of a path with some before and after them."""
        start, length, _ = (sum(self.old.lines[it].length for it in part) for part in (before, path.lines, after))
        lines = (*before, *path.lines, *after)
        return Old(lines, (start, start + length), (start + path.positive, start + length - path.negative))

    # ---- by lines

    def line(self, number: int) -> Lines:
        """The new lines that follow an old one: that with its number, if it is the same road, or one between the same nodes, or
        several; none if there are none."""
        if number not in self.known:
            is_there = self.is_unchanged(number) or self.is_same(number, number)
            self.known[number] = (number,) if is_there else self.between(number)
        return self.known[number]

    def is_unchanged(self, number: int) -> bool:
        """Whether the line with this number is on the new map as it was."""
        return is_unchanged(self.old, self.new, number)

    def is_same(self, number: int, new: int) -> bool:
        """Whether a line of the new map follows the course of an old one."""
        if new not in self.new.lines:
            return False
        was, now = Course(self.old, (number,)), Course(self.new, (new,))
        is_long = abs(was.length - now.length) <= self.limits.slack(was.length) + 1
        return is_long and was.is_near(now, self.limits.tolerance) and now.is_near(was, self.limits.tolerance)

    def between(self, number: int) -> Lines:
        """The new lines between the same nodes that follow an old one: one alone before several; none that turn back."""
        start, end = map(self.matcher.same_nodes, self.old.ends(number))
        alone = [it for node in start for it in self.matcher.out.get(node, ()) if self.new.ends(it)[1] in end]
        like = self.old.lines[number]

        def unlike(new: int) -> Tuple[bool, int]:
            line = self.new.lines[new]
            return line[2:4] != like[2:4], abs(line.length - like.length)

        if found := min((it for it in alone if self.is_same(number, it)), key=unlike, default=0):
            return (found,)
        lines = self.matcher.matching((number,))
        nodes = [self.new.ends(it)[0] for it in lines]
        return lines if len(set(nodes)) == len(nodes) else ()

    def by_lines(self, path: Path) -> Result:
        """A path on the lines that follow its own ones."""
        for form in self.forms(path):
            pieces = list(self.pieces(form.lines))
            lines = [it for piece in pieces for it in piece.new]
            if all(it.new for it in pieces) and self.is_way(lines):
                how = How.NUMBERS if all(it.old == it.new for it in pieces) else How.COURSE
                return Carried(moved(self.new, form, lines, self.anchors_of(pieces)), how)
        return Gone("")

    def pieces(self, lines: Lines) -> Iterator[Piece]:
        """Lines with those that follow them: each alone, and together those next to each other that nothing follows alone."""
        for is_known, group in itertools.groupby(lines, key=lambda it: bool(self.line(it))):
            if is_known:
                yield from (Piece((it,), self.line(it)) for it in group)
            else:
                run = tuple(group)
                yield Piece(run, self.matcher.matching(run) if len(run) > 1 else ())

    def is_way(self, lines: Sequence[int]) -> bool:
        """Whether lines of the new map are connected, and none is there twice."""
        ends = list(map(self.new.ends, lines))
        return len(set(lines)) == len(lines) and all(a[1] == b[0] for a, b in zip(ends, ends[1:]))

    def anchors_of(self, pieces: Sequence[Piece]) -> Anchors:
        """The ends of the pieces."""
        found, at = [(0.0, 0.0)], [0, 0]
        for piece in pieces:
            at[0] += sum(self.old.lines[it].length for it in piece.old)
            at[1] += sum(self.new.lines[it].length for it in piece.new)
            found.append((float(at[0]), float(at[1])))
        return found

    # ---- found again

    def again(self, forms: Sequence[Old], nearby: Nearby) -> Result:
        """A path on the lines that follow the course of one of its forms."""
        why = Gone("no lines follow it")
        for form in forms:
            course = Course(self.old, form.lines).places
            places = [it for k, it in enumerate(course) if k == 0 or it != course[k - 1]]
            found = follow(places, nearby.near(places), FAR, Wish(snap=DRAWN, ends=Ends(True, True)))
            if isinstance(found, Found):
                return self.located(form, found)
            why = Gone(found.words, found.place or ())
        return why

    def located(self, form: Old, found: Found) -> Carried:
        """A path on lines that were found."""
        firm, loose = self.nodes_along(form, found)
        path = moved(self.new, form, found.lines, loose)
        course, length = Course(self.new, path.lines), Course(self.old, form.lines)
        ends = (path.positive, course.length - path.negative)
        off = [0.0 if is_inside(firm, at) else distance(length.place(at), course.place(to)) for at, to in zip(form.at, ends)]
        return Carried(path, How.FOUND, (off[0], off[1]))

    def nodes_along(self, form: Old, found: Found) -> Tuple[Anchors, Anchors]:
        """The nodes along a path that are on both maps, and these with its ends."""
        was, now = self.stops(self.old, form.lines), self.stops(self.new, found.lines)
        firm: Anchors = []
        for at, node in was:
            places = [to for to, it in now if it in self.matcher.same_nodes(node) and (not firm or to > firm[-1][1])]
            firm += [(at, places[0])] if places else []
        ends = [(was[0][0], float(found.start)), (was[-1][0], now[-1][0] - found.end)]
        return firm, sorted({*firm, *(it for it in ends if it[0] not in dict(firm))})

    @staticmethod
    def stops(state: State, lines: Sequence[int]) -> List[Tuple[float, int]]:
        """The nodes of connected lines, each with its position."""
        found, at = [(0.0, state.ends(lines[0])[0])], 0
        for number in lines:
            at += state.lines[number].length
            found.append((float(at), state.ends(number)[1]))
        return found


def is_inside(anchors: Anchors, at: float) -> bool:
    """Whether a position is between two anchors, or at one."""
    return bool(anchors) and anchors[0][0] <= at <= anchors[-1][0]


def transferred(anchors: Anchors, at: float) -> float:
    """The position on the new lines of one on the old ones."""
    k = min(max(1, bisect.bisect_left(anchors, (at, -math.inf))), len(anchors) - 1)
    (a, to), (b, further) = anchors[k - 1 : k + 1]
    if not a <= at <= b or a == b:
        return further + at - b if at > b else to + at - a
    return to + (further - to) * (at - a) / (b - a)


def moved(new: State, form: Old, lines: Sequence[int], anchors: Anchors) -> Path:
    """A path on lines of the new map: those between its own first and last position, with offsets to its two ends."""
    (first, last), (begin, end) = ([round(transferred(anchors, it)) for it in pair] for pair in (form.own, form.at))
    kept: List[int] = []
    at, start, stop = 0, 0, 0
    for number in lines:
        further = at + new.lines[number].length
        if further > first and (at < last or not kept):
            start, stop = start if kept else at, further
            kept.append(number)
        at = further
    return Path(max(0, begin - start), max(0, stop - end), tuple(kept))
