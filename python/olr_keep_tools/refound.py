"""Whether a receiver recovers a path, and if not, why; and maps that differ from the publisher's like a receiver's map."""
import math
import random
from typing import Callable, Dict, Iterator, List, NamedTuple, Optional, Sequence, Set, Tuple, Union

from .courses import MOST_SAMPLES, SAMPLE
from .geo import METRES, Degrees, between, distance, on_piece, scale
from .grid import CELL, segments
from .receiver import Decoded, Failed, Road, RoadMap, Rules, decode, place, shape_length, within
from .records import Path
from .strings import Reference

SHORT = 5.0  # metres; shorter lines are below the precision of the coordinates of a string
UNDER_5_M = "a line under 5 m"
APART = 30.0  # metres; up to here two shapes are the same road


# ---- the path as a part of a map


class Location(NamedTuple):
    """Lines, the position on the first of them at which the location begins, and that on the last at which it ends."""

    lines: List[int]
    begin: float
    end: float


Parts = Dict[int, List[int]]  # the lines that a line became on another map; none if it is missing there


def location_of(roads: RoadMap, path: Path) -> Location:
    """The part of a registered path between its offsets. Its lines have to be on the map."""
    lines, begin, back = within(roads, path.lines, path.positive / 10, path.negative / 10)
    return Location(lines, begin, roads.lines[lines[-1]].length - back)


def carried(location: Location, old: RoadMap, new: RoadMap, parts: Parts) -> Optional[Location]:
    """The location on another map, or None if one of its lines is missing there."""
    if not all(parts[it] for it in location.lines):
        return None
    first, last = location.lines[0], location.lines[-1]
    begin = location.begin / old.lines[first].length * sum(new.lines[it].length for it in parts[first])
    after = (1 - location.end / old.lines[last].length) * sum(new.lines[it].length for it in parts[last])
    lines, begin, after = within(new, [part for it in location.lines for part in parts[it]], begin, after)
    return Location(lines, begin, new.lines[lines[-1]].length - after)


def cut_out(roads: RoadMap, location: Location) -> List[Degrees]:
    """The coordinates of a location, from its start to its end."""
    coordinates: List[Degrees] = []
    for k, number in enumerate(location.lines):
        road = roads.lines[number]
        begin = location.begin if k == 0 else 0.0
        end = location.end if k == len(location.lines) - 1 else road.length
        inner = [at[1:] for at in road.points if begin < at[0] < end]
        coordinates += [place(road, begin), *inner, place(road, max(begin, end))]
    return coordinates


# ---- comparing


def index_of(whole: List[int], lines: List[int]) -> Optional[int]:
    """The index at which the lines are consecutive in the whole, or None."""
    starts = (k for k, it in enumerate(whole) if it == lines[0] and whole[k : k + len(lines)] == lines)
    return next(starts, None)


def is_same(roads: RoadMap, reference: Reference, found: Decoded, location: Location, slack: float) -> bool:
    """Whether the whole route contains the location's lines, and the offsets' intervals contain its ends."""
    k = index_of(found.whole, location.lines)
    if k is None:
        return False
    lengths = [roads.lines[it].length for it in found.whole]
    before = sum(lengths[:k]) + location.begin - found.begin
    after = sum(lengths[k + len(location.lines) - 1 :]) - location.end - (lengths[-1] - found.end)
    return all(
        low * leg - slack <= cut <= high * leg + slack
        for (low, high), leg, cut in zip(reference.shares, (found.lengths[0], found.lengths[-1]), (before, after))
    )


def farthest(coordinates: Sequence[Degrees], others: Sequence[Degrees]) -> float:
    """The greatest distance of a shape from another one, sampled every 10 m."""
    grid, worst = segments(others, CELL), 0.0
    for a, b in zip(coordinates, coordinates[1:]):
        count = max(1, min(MOST_SAMPLES, math.ceil(distance(a, b) / SAMPLE)))
        for lon, lat in (between(a, b, k / count) for k in range(count + 1)):
            near = {k for cell in grid.within(lon - 4e-4, lat - 4e-4, lon + 4e-4, lat + 4e-4) for k in cell}
            worst = max(worst, min((on_piece(others[k], others[k + 1], lon, lat)[0] for k in near), default=math.inf))
    return worst


def is_near(reference: Reference, found: Decoded, shape: Sequence[Degrees], other: Sequence[Degrees]) -> bool:
    """Whether two shapes follow each other, and their ends are as near as the offsets' intervals allow."""
    more = ((high - low) * leg / 2 for (low, high), leg in zip(reference.shares, (found.lengths[0], found.lengths[-1])))
    ends = ((shape[0], other[0]), (shape[-1], other[-1]))
    if any(distance(a, b) > APART + further for (a, b), further in zip(ends, more)):
        return False
    limit = APART + max(distance(*it) for it in ends)
    return farthest(shape, other) <= limit and farthest(other, shape) <= limit


VERDICTS = ("same lines", "same road", "elsewhere", "not decoded")


class Published(NamedTuple):
    """A path that is looked for on a map: its reference, its location there, None if one of its lines is missing, its shape on the
    publisher's map, and by how many metres its ends may be off."""

    reference: Reference
    location: Optional[Location]
    shape: Sequence[Degrees]
    slack: float


def verdict(roads: RoadMap, path: Published, found: Union[Decoded, Failed]) -> str:
    """How a path was recovered: one of VERDICTS."""
    if isinstance(found, Failed):
        return "not decoded"
    if path.location and is_same(roads, path.reference, found, path.location, path.slack):
        return "same lines"
    ended = Location(found.lines, found.positive, roads.lines[found.lines[-1]].length - found.negative)
    return "same road" if is_near(path.reference, found, path.shape, cut_out(roads, ended)) else "elsewhere"


def are_twins(a: Road, b: Road) -> bool:
    """Whether two lines have the same ends, class, form and, within a metre, length."""
    return a[:4] == b[:4] and abs(a.length - b.length) <= 1


def cause(roads: RoadMap, path: Published, rules: Rules, found: Union[Decoded, Failed]) -> str:
    """Why a path was not recovered as the same lines."""
    reference, location = path.reference, path.location
    if location is None:
        return "a line is missing"
    if isinstance(found, Failed):
        return "a class above LFRCNP" if is_by_class(roads, reference, rules, location) else found.kind
    at_points = {roads.lines[it.line][0] for it in found.taken[:-1]} | {roads.lines[found.taken[-1].line].end}
    k = index_of(found.whole, location.lines)
    if k is not None:
        more = found.whole[:k] + found.whole[k + len(location.lines) :]
        if has_short(roads, more, at_points):
            return UNDER_5_M
        return "a path of one line" if len(location.lines) == 1 else "an offset"
    missed = [it for it in location.lines if it not in found.whole]
    if missed and all(any(are_twins(roads.lines[it], roads.lines[other]) for other in found.whole) for it in missed):
        return "a twin line"
    mistaken = list(mistaken_points(roads, reference, found, location))
    if has_short(roads, missed, at_points) or any(min(one.length, other.length) < SHORT for one, other in mistaken):
        return UNDER_5_M
    if mistaken:
        return "another line at a point"
    return "a class above LFRCNP" if is_by_class(roads, reference, rules, location) else "another route"


def is_by_class(roads: RoadMap, reference: Reference, rules: Rules, location: Location) -> bool:
    """Whether the path would be recovered if routes could use lines of any class."""
    found = decode(roads, reference, rules._replace(class_variance=7))
    return not isinstance(found, Failed) and index_of(found.whole, location.lines) is not None


def has_short(roads: RoadMap, lines: Sequence[int], nodes: Set[int]) -> bool:
    """Whether one of the lines is short and begins or ends at one of the nodes."""
    return any(roads.lines[it].length < SHORT and nodes & set(roads.lines[it][:2]) for it in lines)


def mistaken_points(roads: RoadMap, reference: Reference, found: Decoded, location: Location) -> Iterator[Tuple[Road, Road]]:
    """The points at which another line was chosen than that of the location: the two lines of each. A first or last point is
    included only if its line is nearer than the chosen one, since the ends of the location may be beyond it."""
    last = len(reference.points) - 1
    for k, (point, taken) in enumerate(zip(reference.points, found.taken)):
        ends = {it: roads.lines[it].end if k == last else roads.lines[it].start for it in location.lines}
        far = {it: distance(roads.nodes[ends[it]], point[:2]) for it in location.lines}
        nearest = min(location.lines, key=far.__getitem__)
        is_near = far[nearest] < max(SHORT, taken.distance)
        if taken.line != nearest and (is_near or 0 < k < last and taken.line not in location.lines):
            yield roads.lines[nearest], roads.lines[taken.line]


# ---- maps that differ


Displace = Callable[[Degrees], Degrees]


class Shake(NamedTuple):
    """How a map differs: nodes and shape points are off by up to `metres`, and of a hundred roads `split` are split in two,
    `missing` are missing, and `classes` have a class one lower or higher. A road is all lines with the same ends and length.
    Each point is off by itself, or, with a `reach`, as its neighbours are: from nothing to the most takes so many metres."""

    seed: int
    metres: float = 5.0
    split: float = 20.0
    missing: float = 0.0
    classes: float = 10.0
    reach: float = 0.0

    def title(self) -> str:
        over = f" over {self.reach:g} m" if self.reach else ""
        shares = ((self.split, "split"), (self.missing, "missing"), (self.classes, "classes"))
        return ", ".join((f"{self.metres:g} m{over}", *(f"{share:g} % {word}" for share, word in shares if share)))


class Shaken:
    """The map that differs, as it is made, and for each line the lines that it became there."""

    def __init__(self, roads: RoadMap, shake: Shake):
        self.shake, self.rnd = shake, random.Random(shake.seed)
        self.off = displacement(self.rnd, shake)
        self.parts: Parts = {}
        self.nodes = {number: self.off(roads.nodes[number]) for number in sorted(roads.nodes)}
        self.lines: Dict[int, Road] = {}
        self.free_node, self.free_line = max(self.nodes, default=0) + 1, max(roads.lines, default=0) + 1
        whole: Dict[Tuple[int, int, float], List[int]] = {}
        for number in sorted(roads.lines):
            it = roads.lines[number]
            whole.setdefault((min(it[:2]), max(it[:2]), round(it.length, 1)), []).append(number)
        for numbers in whole.values():
            self.add({it: roads.lines[it] for it in numbers})

    def add(self, roads: Dict[int, Road]) -> None:
        """Adds the lines of a road, all changed alike."""
        is_split, is_missing, is_other, at, step = (self.rnd.random() for _ in range(5))
        middle = self.free_node
        for number, before in roads.items():
            road = moved(before, self.nodes, self.off)
            if is_other * 100 < self.shake.classes:
                road = road._replace(frc=min(7, max(0, road.frc + (1 if step < 0.5 else -1))))
            if is_missing * 100 < self.shake.missing:
                self.parts[number] = []
            elif is_split * 100 < self.shake.split and road.start != road.end:
                far = (0.3 + 0.4 * at if road.start < road.end else 0.7 - 0.4 * at) * road.length
                self.nodes.setdefault(middle, place(road, far))
                self.free_node = middle + 1
                self.parts[number] = [self.free_line, self.free_line + 1]
                self.lines.update(zip(self.parts[number], halves(road, far, middle, self.nodes[middle])))
                self.free_line += 2
            else:
                self.parts[number], self.lines[number] = [number], road


def shaken(roads: RoadMap, shake: Shake) -> Tuple[RoadMap, Parts]:
    """The map that differs, and for each line the lines that it became there."""
    made = Shaken(roads, shake)
    return RoadMap(made.nodes, made.lines), made.parts


def off(rnd: random.Random, at: Degrees, metres: float) -> Degrees:
    """A coordinate off by up to this many metres, in any direction."""
    far, angle = metres * rnd.random(), 2 * math.pi * rnd.random()
    return at[0] + far * math.sin(angle) / scale(at[1]), at[1] + far * math.cos(angle) / METRES


class Waves:
    """Coordinates off by up to so many metres, by a displacement that changes slowly: on each axis two waves, each in a direction
    of its own, whose length is four times the reach or a third more."""

    def __init__(self, rnd: random.Random, shake: Shake):
        self.most = shake.metres / math.sqrt(2) / 2
        self.waves = [(2 * math.pi * rnd.random(), 2 * math.pi * rnd.random(), 4 * shake.reach * longer) for longer in (1, 4 / 3) * 2]

    def __call__(self, at: Degrees) -> Degrees:
        east, north = at[0] * scale(at[1]), at[1] * METRES
        a, b, c, d = (math.sin(2 * math.pi * (east * math.sin(to) + north * math.cos(to)) / length + begun)
                      for to, begun, length in self.waves)
        return at[0] + self.most * (a + b) / scale(at[1]), at[1] + self.most * (c + d) / METRES


def displacement(rnd: random.Random, shake: Shake) -> Displace:
    """How far off each point of the map is."""
    if shake.reach:
        return Waves(rnd, shake)
    return lambda at: off(rnd, at, shake.metres)


def moved(road: Road, nodes: Dict[int, Degrees], displace: Displace) -> Road:
    """A line between its moved nodes, with its shape points moved and its length changed as that of its shape."""
    inner = [(at, *displace((lon, lat))) for at, lon, lat in road.points[1:-1]]
    points = [(0.0, *nodes[road.start]), *inner, (road.length, *nodes[road.end])]
    before, after = shape_length(road.points), shape_length(points)
    ratio = after / before if before and after else 1.0
    return road._replace(length=road.length * ratio, points=tuple((at * ratio, lon, lat) for at, lon, lat in points))


def halves(road: Road, at: float, node: int, coordinate: Degrees) -> Iterator[Road]:
    """The two parts of a line that is split at a node."""
    first = [it for it in road.points if it[0] < at]
    second = [(far - at, lon, lat) for far, lon, lat in road.points if far > at]
    yield Road(road.start, node, road.frc, road.fow, at, (*first, (at, *coordinate)))
    yield Road(node, road.end, road.frc, road.fow, road.length - at, ((0.0, *coordinate), *second))
