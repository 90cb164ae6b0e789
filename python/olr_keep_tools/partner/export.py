"""What goes out in a round: the strings for the partner, and what we know of each, for `compare`."""
from __future__ import annotations

import csv
import datetime
import io
import itertools
import json
import os
import random
from collections import Counter, defaultdict
from typing import Callable, Dict, Iterable, Iterator, List, Mapping, NamedTuple, Optional, Sequence, Tuple

from ..courses import Plane, Polyline
from ..drawn import Course, Junctions, courses
from ..fields import as_json, location
from ..files import new_folder
from ..geo import Degrees, degrees, distance
from ..records import Path, State
from ..roads import BESIDE, REACH, STEP, TWIN
from ..strings import STEP as STEP_METRES
from ..strings import Reference, read_reference
from ..twomaps import Nearby, cells_around
from .across import Across
from .ours import ABOUT, STRINGS, Beside, Mark, Ours, lines_of
from .words import FOR_PARTNER

STEP_DM = 10 * STEP_METRES  # decimetres of a step of the distance to the next point
HOLE = 2  # sections from one that a line crosses to the next one
ROUNDED = 3.5, 0.9  # metres by which the first point of a string may be off its node, and each further one more
Report = Callable[[str], None]


class Chosen(NamedTuple):
    """Which strings are wanted: those that `ambiguous` names, those that pass within so many metres of a place, and a sample."""

    ambiguous: bool = False
    near: Optional[Tuple[float, float, float]] = None
    sample: Optional[int] = None
    seed: int = 1


class Whole(NamedTuple):
    """A path from its first location reference point to its last one: its lines, its course with decimetres, and the positions
    in decimetres where its offsets end."""

    lines: List[int]
    course: Course
    begin: float
    end: float


def whole_of(state: State, junctions: Junctions, path: Path) -> Whole:
    """The whole course of a path that has a string."""
    before, after = junctions.extension(path.lines)
    lines = [*before, *path.lines, *after]
    (course, *_), added = courses(state, lines), sum(state.lines[it].length for it in before)
    cut = path.negative + sum(state.lines[it].length for it in after)
    return Whole(lines, course, added + path.positive, course[-1][0] - cut)


Stop = Tuple[int, int]  # a position of a course in decimetres, and the node there


def marks_of(state: State, whole: Whole, reference: Reference) -> List[Stop]:
    """The position and the node of each location reference point: the nodes of the course in order of travel that are where the
    string's points are, as far from each other as it says."""
    at, stops = 0, [(0, state.lines[whole.lines[0]].start)]
    for it in map(state.lines.__getitem__, whole.lines):
        at += it.length
        stops.append((at, it.end))
    places = {node: degrees(state.nodes[node]) for _, node in stops}
    there = [[it for it in stops[1:-1] if distance(places[it[1]], point[:2]) <= ROUNDED[0] + k * ROUNDED[1]]
             for k, point in enumerate(reference.points[1:-1], 1)]
    return [stops[0], *between_ends(stops[0][0], stops[-1][0], there, reference), stops[-1]]


def between_ends(begin: int, end: int, there: Sequence[Sequence[Stop]], reference: Reference) -> List[Stop]:
    """The points between the first and the last one, where each may be one of several stops; none if none fit."""
    # The stops up to each point that are as far from each other as the string says; a course may pass a node twice.
    ways: List[List[Stop]] = [[]]
    for k, stops in enumerate((*there, [(end, 0)])):
        dnp = reference.points[k].onward
        low, high = (dnp.dnp * STEP_DM, (dnp.dnp + 1) * STEP_DM) if dnp else (0.0, 0.0)
        fitting = [[*way, it] for way in ways for it in stops if low - 1 <= it[0] - (way[-1][0] if way else begin) <= high + 1]
        ways = list({way[-1]: way for way in reversed(fitting)}.values())
    return ways[-1][:-1] if ways else []


class Along:
    """Positions of a course, in decimetres of its lines, as metres of its shape."""

    def __init__(self, course: Course) -> None:
        self.places: List[Degrees] = [degrees(it[1:]) for it in course]
        self.decimetres = [it[0] for it in course]
        self.plane = Plane(self.places[0][1])
        self.line = Polyline(self.plane.course(self.places))

    def metres(self, at: float) -> float:
        """The metres at a position."""
        for k, (a, b) in enumerate(zip(self.decimetres, self.decimetres[1:])):
            if at <= b:
                low, high = self.line.far[k : k + 2]
                return low + (high - low) * max(0.0, (at - a) / (b - a))
        return self.line.length


class Track(NamedTuple):
    """A line beside a course, and the sections that it crosses one after the other, with the metres to the left. It may be several
    short lines."""

    line: int
    left: Tuple[Tuple[int, float], ...]
    is_one_line: bool = True


def tracks(across: Across, lines: Mapping[int, Polyline]) -> List[Track]:
    """The lines that cross the sections, in the order of their first sections."""
    found: List[Track] = []
    for number, line in lines.items():
        nearest: Dict[int, float] = {}
        for k, _, left in across.passes(line, REACH):
            nearest[k] = min(nearest.get(k, left), left, key=abs)
        run: List[Tuple[int, float]] = []
        for it in (*sorted(nearest.items()), (len(across.at) + HOLE, 0.0)):
            if run and it[0] - run[-1][0] > HOLE:
                found.append(Track(number, tuple(run)))
                run = []
            run.append(it)
    return sorted(found, key=lambda it: it.left[0])


def joined(found: Iterable[Track], ends: Callable[[int], Tuple[int, int]]) -> Iterator[Track]:
    """The tracks that run along the course for BESIDE or more, and shorter ones that follow each other, as one."""
    short: Dict[int, Track] = {}
    for it in found:
        if len(it.left) * STEP >= BESIDE:
            yield it
            continue
        start, end = ends(it.line)
        before = short.get(start)
        if before and 0 <= it.left[0][0] - before.left[-1][0] <= HOLE:
            passed = {k for k, _ in it.left}
            it = Track(before.line, (*(one for one in before.left if one[0] not in passed), *it.left), False)
            del short[start]
        if end in short:
            yield short.pop(end)
        short[end] = it
    yield from short.values()


def roads_beside(state: State, near: Nearby, whole: Whole, along: Along) -> List[Beside]:
    """The other roads that run along a course."""
    across, own = Across(along.line), {*whole.lines}
    lines = {number: along.plane.course(it.points) for number, it in near.near(along.places).items() if number not in own}
    needed = min(BESIDE + STEP / 2, 0.8 * along.line.length)
    found: List[Beside] = []
    for turn in (1, -1):

        def ends(number: int) -> Tuple[int, int]:
            start, end = state.ends(number)
            return (start, end) if turn > 0 else (end, start)

        crossed = tracks(across, {number: Polyline(points[::turn]) for number, points in lines.items()})
        for it in joined(crossed, ends):
            is_own_street = turn < 0 and max(abs(left) for _, left in it.left) <= TWIN
            if len(it.left) * across.step >= needed and not is_own_street:
                found.append(Beside(it.line, it.is_one_line, turn < 0, tuple((k, round(left, 1)) for k, left in it.left)))
    return found


class Exporter:
    """Makes what we know of strings."""

    def __init__(self, state: State, ambiguous: Iterable[str]) -> None:
        self.state, self.junctions = state, Junctions(state)
        self.named: Dict[str, Dict[int, List[str]]] = defaultdict(lambda: defaultdict(list))
        for line in ambiguous:
            name, point, what = line.split(",", 2)
            self.named[name][int(point)].append(what.replace(",", " "))

    def names(self, chosen: Chosen) -> List[str]:
        """The paths that are wanted."""
        names = [it for it, answer in self.state.published.items() if answer[0] == "text"]
        if chosen.ambiguous:
            names = [it for it in names if it in self.named]
        if chosen.near:
            lon, lat, metres = chosen.near
            names = [it for it in names if self.passes(it, (lon, lat), metres)]
        if chosen.sample is not None and chosen.sample < len(names):
            names = self.sample(names, chosen.sample, chosen.seed)
        return names

    def passes(self, name: str, place: Degrees, metres: float) -> bool:
        """Whether a path passes a place."""
        plane = Plane(place[1])
        line = Polyline(plane.course(degrees(it[1:]) for it in courses(self.state, self.state.paths[name].lines)[0]))
        return line.distance(plane.flat(place), 0, len(line.points) - 1) <= metres

    def kind(self, name: str) -> Tuple[int, ...]:
        """What a sample has of each: class, form, length in powers of two, and number of points."""
        path, lines = self.state.paths[name], self.state.lines
        length = sum(lines[it].length for it in path.lines)
        return (*self.class_and_form(path), length.bit_length(), len(read_reference(self.state.published[name][1]).points))

    def class_and_form(self, path: Path) -> Tuple[int, int]:
        """The class and the form that most of a path has."""
        metres: Counter[Tuple[int, int]] = Counter()
        for it in map(self.state.lines.__getitem__, path.lines):
            metres[it.frc, it.fow] += it.length
        return max(sorted(metres), key=metres.__getitem__)

    def sample(self, names: List[str], count: int, seed: int) -> List[str]:
        """So many of the paths: as evenly of each kind as there are."""
        kinds: Dict[Tuple[int, ...], List[str]] = defaultdict(list)
        for it in names:
            kinds[self.kind(it)].append(it)
        rnd, turns = random.Random(seed), sorted(kinds)
        for several in kinds.values():
            rnd.shuffle(several)
        rnd.shuffle(turns)
        dealt = (it for row in itertools.zip_longest(*(kinds[it] for it in turns)) for it in row if it is not None)
        taken = {*itertools.islice(dealt, count)}
        return [it for it in names if it in taken]

    def ours(self, names: Sequence[str], report: Report) -> Iterator[Ours]:
        """What we know of each of these."""
        wholes = {it: whole_of(self.state, self.junctions, self.state.paths[it]) for it in names}
        cells = {cell for it in wholes.values() for cell in cells_around([degrees(at[1:]) for at in it.course])}
        near = Nearby(self.state, cells)
        for k, name in enumerate(names):
            report(f"{k} of {len(names)} strings are exported")
            yield self.of(name, wholes[name], near)

    def of(self, name: str, whole: Whole, near: Nearby) -> Ours:
        """What we know of a string."""
        text, along = self.state.published[name][1], Along(whole.course)
        reference = read_reference(text)
        marks = [Mark(along.metres(at), node, degrees(self.state.nodes[node]), tuple(self.named[name][k] if name in self.named else ()))
                 for k, (at, node) in enumerate(marks_of(self.state, whole, reference))]
        frc, fow = self.class_and_form(self.state.paths[name])
        return Ours(name, text, frc, fow, tuple(along.places), along.metres(whole.begin), along.metres(whole.end), tuple(marks),
                    tuple(roads_beside(self.state, near, whole, along)), location(reference))


def strings_csv(found: Iterable[Ours]) -> str:
    """The table of strings."""
    text = io.StringIO()
    table = csv.writer(text, lineterminator="\n")
    table.writerow(("name", "string"))
    table.writerows((it.name, it.string) for it in found)
    return text.getvalue()


def about(records: str, state: State, count: int) -> str:
    """What a round is: the map, its date, the margin, and the number of strings."""
    date = datetime.datetime.fromtimestamp(os.stat(records).st_mtime, datetime.timezone.utc)
    return json.dumps({"map": os.path.basename(records), "map_date": date.isoformat(timespec="seconds"), "margin": list(state.margin),
                       "strings": count}) + "\n"


def write_round(folder: str, found: Sequence[Ours], text: str) -> None:
    """Makes the folder with all its files, or nothing."""
    with new_folder(folder) as part:
        for it in ("partner", "ours"):
            os.mkdir(f"{part}/{it}")
        fields = as_json({"name": it.name, "string": it.string, **it.fields} for it in found)
        files = {"partner/strings.csv": [strings_csv(found)], "partner/fields.json": fields, "partner/README.txt": [FOR_PARTNER],
                 ABOUT: [text], STRINGS: lines_of(found)}
        for name, texts in files.items():
            with open(f"{part}/{name}", "w", encoding="utf-8") as file:
                file.writelines(texts)
