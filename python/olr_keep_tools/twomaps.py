"""Whether the paths of one map are on the same roads on another one, as `roads` decides it.

    maps = TwoMaps(old, new, old.paths.values())
    answer = maps.judged(old.paths["a"], new.paths["a"]).answer
    print(answer.verdict, answer.off)

The number of a line takes the place of a street's id.
"""
from __future__ import annotations

import functools
from typing import Dict, Iterable, Iterator, List, Mapping, NamedTuple, Optional, Sequence, Set, Tuple

from .courses import Found, Ground, Network, cells_near, course_of, is_far_off
from .drawn import courses
from .geo import Degrees, degrees
from .grid import CELL, Cell, Grid, around, cells_of
from .records import Path, State
from .roads import WIDER, Answer, Given, LastMap, Roads, Verdict

FAR = 20.0  # metres within which a path is found again
CERTAIN = Verdict.THERE, Verdict.AGAIN  # what is said of a path on its own road


class Nearby:
    """The lines of a map that pass some cells of a grid."""

    def __init__(self, state: State, cells: Set[Cell]):
        self.state = state
        self.grid: Grid[int] = Grid(CELL)
        self.grounds: Dict[int, Ground] = {}
        if cells:
            places = {number: degrees(it) for number, it in state.nodes.items()}
            for number in state.lines:
                for cell in cells & cells_of(self.course(number, places), CELL):
                    self.grid.cells[cell].append(number)

    def course(self, number: int, places: Mapping[int, Degrees]) -> List[Degrees]:
        """The course of a line, of a map with its nodes at these places."""
        start, end, _, _, _, *rest = self.state.lines.text[number].split(",")
        inner = zip(map(float, rest[1::3]), map(float, rest[2::3]))
        return [places[int(start)], *inner, places[int(end)]]

    def near(self, course: Sequence[Degrees]) -> Dict[int, Ground]:
        """The lines near a course, by number."""
        return {it: self.ground(it) for it in sorted({*self.grid.at(cells_around(course))})}

    def ground(self, number: int) -> Ground:
        """A line as a search for a course has it."""
        line = self.state.lines[number]
        inner = (degrees(it[1:]) for it in line.shape)
        points = (degrees(self.state.nodes[line.start]), *inner, degrees(self.state.nodes[line.end]))
        return Ground(line.start, line.end, "", points, line.length)


def cells_around(course: Sequence[Degrees]) -> Set[Cell]:
    """The cells of a course and those beside them."""
    return {it for cell in cells_of(course, CELL) for it in around(cell)}


def are_connected(state: State, lines: Sequence[int]) -> bool:
    """Whether all these lines are on the map, and each begins where the one before it ends."""
    if not lines or not all(it in state.lines for it in lines):
        return False
    ends = list(map(state.ends, lines))
    return all(a[1] == b[0] for a, b in zip(ends, ends[1:]))


def without_cut(state: State, path: Path) -> Path:
    """A path without the lines at its ends that its offsets cut off, as far as something of it is left."""
    (positive, negative, lines), lengths = path, state.lines
    while len(lines) > 1 and positive >= lengths[lines[0]].length:
        positive, lines = positive - lengths[lines[0]].length, lines[1:]
    while len(lines) > 1 and negative >= lengths[lines[-1]].length:
        negative, lines = negative - lengths[lines[-1]].length, lines[:-1]
    return Path(positive, negative, lines)


def is_unchanged(old: State, new: State, number: int) -> bool:
    """Whether the line of a map with this number is on another one as it was."""
    text = old.lines.text.get(number)
    if text is None or new.lines.text.get(number) != text:
        return False
    return all(old.nodes.text[it] == new.nodes.text.get(it) for it in old.ends(number))


def changed_cells(old: State, new: State) -> Set[Cell]:
    """The cells of the lines that are not on both maps alike."""
    found: Set[Cell] = set()
    for state, other in ((old, new), (new, old)):
        lines = Nearby(state, set())
        for number in state.lines:
            if not is_unchanged(state, other, number):
                found |= cells_of(lines.ground(number).points, CELL)
    return found


def concerned(old: State, new: State) -> Iterator[str]:
    """The paths of the old map near lines that are not on the new map as they were, of those on connected lines."""
    cells = changed_cells(old, new) if old.paths else set()
    for name, path in old.paths.items():
        if are_connected(old, path.lines):
            course = [degrees(at[1:]) for at in courses(old, path.lines)[0]]
            if not is_far_off(course) and not cells.isdisjoint(cells_near(tuple(course), FAR)):
                yield name


class OnRoad(NamedTuple):
    """A path on a map; what became of its road, if that can be decided; and whether its start and its end are at the junctions where
    they were."""

    path: Path
    answer: Optional[Answer] = None
    junctions: Tuple[bool, bool] = (False, False)


class TwoMaps:
    """Two maps, near some paths of the first one."""

    def __init__(self, old: State, new: State, paths: Iterable[Path]) -> None:
        self.old, self.new = old, new
        shapes = ([degrees(at[1:]) for at in courses(old, it.lines)[0]] for it in paths if are_connected(old, it.lines))
        cells = set().union(*map(cells_around, shapes))
        self.near_old, self.near_new = Nearby(old, cells), Nearby(new, cells)

    @functools.cached_property
    def back(self) -> "TwoMaps":
        """The same two, the other way round."""
        found = TwoMaps(self.new, self.old, ())
        found.near_old, found.near_new = self.near_new, self.near_old
        return found

    def roads(self, path: Path, is_sought: bool = True) -> Optional[Roads]:
        """The decision for a path of the old map, which may be sought on the new one; None if it isn't on connected lines, nothing of it
        is left, or two points of its course are very far apart, which a wrong coordinate brings about."""
        if not are_connected(self.old, path.lines):
            return None
        positive, negative, lines = without_cut(self.old, path)
        if positive + negative >= sum(self.old.lines[it].length for it in lines):
            return None
        own = [numbered(self.near_old, it) for it in lines]
        course = course_of(own, positive, negative)
        if is_far_off(course):
            return None
        cells = cells_near(course, WIDER)
        old, new = ({it: numbered(nearby, it) for it in nearby.grid.at(cells)} for nearby in (self.near_old, self.near_new))
        last = LastMap({**old, **dict(zip(lines, own))}, lines, (positive, negative))
        return Roads(Given(course, not positive, not negative), last, new, Network(new if is_sought else {}), FAR, "line")

    def judged(self, path: Path, now: Path) -> OnRoad:
        """Whether a path of the new map is on the road of one of the old map."""
        roads = self.roads(path, is_sought=False) if are_connected(self.new, now.lines) else None
        if roads is None:
            return OnRoad(now)
        positive, negative, lines = without_cut(self.new, now)
        roads.near = {**{it: numbered(self.near_new, it) for it in lines}, **roads.near}
        return OnRoad(now, roads.judge(Found(list(lines), positive, negative)), at_junctions(roads, Path(positive, negative, lines)))

    def judged_both_ways(self, path: Path, now: Path) -> OnRoad:
        """The same, or what is said of the path of the old map by the road of the one of the new map, if that is better; and each end
        is at its junction if either says so."""
        found = self.judged(path, now)
        if found.answer is None or found.answer.verdict is Verdict.THERE and all(found.junctions):
            return found
        back = self.back.judged(now, path)
        best = min(filter(None, (found.answer, back.answer)), key=lambda it: list(Verdict).index(it.verdict))
        return OnRoad(now, best, (found.junctions[0] or back.junctions[0], found.junctions[1] or back.junctions[1]))

    def on_its_road(self, path: Path, now: Path) -> OnRoad:
        """A path that was carried to some lines: on these if they are its road, else on the lines of this, if they are known."""
        found = self.judged(path, now)
        if found.answer is None or found.answer.verdict in CERTAIN:
            return found
        roads = self.roads(path)
        again = roads.decide() if roads else found.answer
        if roads and isinstance(again.found, Found) and again.verdict in CERTAIN:
            on = Path(again.found.start, again.found.end, tuple(again.found.lines))
            return OnRoad(on, again, at_junctions(roads, on))
        return found


def at_junctions(roads: Roads, now: Path) -> Tuple[bool, bool]:
    """Whether the start and the end of a path are at the junctions where they were."""
    start, end = roads.junctions()
    return (not now.positive and roads.near[now.lines[0]].start in start,
            not now.negative and roads.near[now.lines[-1]].end in end)


def numbered(nearby: Nearby, number: int) -> Ground:
    """A line whose street has its number as id."""
    if number not in nearby.grounds:
        nearby.grounds[number] = nearby.ground(number)._replace(street=str(number))
    return nearby.grounds[number]
