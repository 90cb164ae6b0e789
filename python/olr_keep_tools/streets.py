"""Cuts streets at their junctions into nodes and lines, and keeps the numbers of an earlier cut where they still mean the same.

A place is a coordinate as one number: (lon + 180 degrees) * 2^31 + lat + 90 degrees, in units of 10^-7 degree. A street has
parts, each a tuple of places, none twice in a row. It is cut at each place that it shares with another street, or has twice,
and where a line would be too long. The numbers of nodes and lines are those of tools/live.
"""
from __future__ import annotations

import difflib
import itertools
import math
import operator
import struct
from collections import Counter, defaultdict
from typing import (Any, Callable, Collection, Container, Dict, Hashable, Iterable, Iterator, List, Mapping, NamedTuple, Optional,
                    Protocol, Sequence, Set, Tuple, Union)

from .geo import AXIS, RADIAN, onto_segment
from .records import UNITS

EAST, NORTH = 180 * UNITS, 90 * UNITS
LONGITUDES, LATITUDES = (-180.0, 179.9999), (-89.9999, 89.9999)  # of nodes
LOW = (1 << 31) - 1
METRES = AXIS * RADIAN / UNITS  # of a unit of longitude at the equator
LONGEST = 14_900.0  # metres; between two location reference points are 15 km at most
WIDEST = 3_200_000  # units; between two location reference points is a third of a degree at most
SHORT = 1_300_000  # units east or west and north or south up to which no course is too long for a line
MOST_SHAPE = 990  # shape points of a line; the program takes 1,000
WAYS = {"both": (True, False), "along": (True,), "against": (False,)}  # whether the lines of a direction are along the geometry
COORDINATE, LINE_HEAD = struct.Struct("<dd"), struct.Struct("<BIII")  # of EWKB
MOST_SHOWN = 40  # characters of a wrong value
COLLECTION = 7  # of WKB, as are these: where the coordinates of points, lines, arcs, polygons and triangles begin
BEGIN = {1: 5, 2: 9, 8: 9, 3: 13, 17: 13}
ALIKE = 100  # units within which vertices of a street that has another id are the same
NEAR = 20.0  # metres within which a line between the same nodes is the same stretch of road


Place = Tuple[float, float]
Part = Tuple[int, ...]
Parts = Tuple[Part, ...]


class NumberSource(Protocol):
    """What gives new numbers."""

    def take(self, kind: str, count: int) -> List[int]:
        """So many new numbers of nodes or lines."""


def place_of(lon: int, lat: int) -> int:
    """The place of a coordinate in units."""
    return lon + EAST << 31 | lat + NORTH


def units(place: int) -> Tuple[int, int]:
    """The coordinate of a place, in units."""
    return (place >> 31) - EAST, (place & LOW) - NORTH


def degrees(place: int) -> Place:
    """The coordinate of a place, in degrees."""
    lon, lat = units(place)
    return lon / UNITS, lat / UNITS


class Street(NamedTuple):
    """A street that can be lines."""

    frc: int
    fow: int
    direction: str
    parts: Parts


class Made(NamedTuple):
    """A line as the streets give it; `k` is the index of its stretch in its part, `along` whether it follows the geometry."""

    street: str
    part: int
    k: int
    along: bool
    start: int
    end: int
    nth: int
    length: int
    fields: str
    places: Part


class Old(NamedTuple):
    """A line of the earlier cut."""

    number: int
    street: str
    start: int
    end: int
    along: bool
    part: int
    k: int
    nth: int
    fields: str


def ends_of(line: Union[Made, Old]) -> Tuple[int, int, Optional[bool]]:
    """The ends of a line; if they are the same, also its direction, which distinguishes the two lines of the stretch."""
    return line.start, line.end, line.along if line.start == line.end else None


class Unfit(NamedTuple):
    """Why a street can't be lines, and where it is, as far as that is known."""

    words: str
    place: Optional[Place] = None


# ---- reading


def street_of(frc: Optional[str], fow: Optional[str], direction: Optional[str], kind: Optional[str], srid: Optional[int],
              shape: Optional[bytes]) -> Union[Street, Unfit]:
    """The street of these texts and this shape (little-endian WKB in degrees), or why it can't be lines: `Unfit`."""
    found = read_street(frc, fow, direction, kind, srid, shape)
    return found if isinstance(found, Street) or shape is None else found._replace(place=first_place(shape))


def read_street(frc: Optional[str], fow: Optional[str], direction: Optional[str], kind: Optional[str], srid: Optional[int],
                shape: Optional[bytes]) -> Union[Street, Unfit]:
    """The same, but without its place."""
    if frc is None or fow is None or direction is None or kind is None:
        given = ("class", frc), ("form", fow), ("direction", direction), ("geometry", kind)
        missing = [name for name, it in given if it is None]
        return Unfit(f"{' and '.join(missing)} {'is' if len(missing) == 1 else 'are'} NULL")
    for name, text in (("class", frc), ("form", fow)):
        if text not in ("0", "1", "2", "3", "4", "5", "6", "7"):
            return Unfit(f"{name} is {text[:MOST_SHOWN]}, and has to be 0 to 7")
    if direction not in WAYS:
        return Unfit(f"direction is {direction[:MOST_SHOWN]}, and has to be both, along or against")
    if kind not in ("ST_LineString", "ST_MultiLineString"):
        return Unfit(f"the geometry is of type {kind[3:]}, and has to be a LineString or a MultiLineString")
    if srid == 0:
        return Unfit("the geometry has no SRID")
    if shape is None:
        return Unfit(f"the geometry of SRID {srid} has no coordinates in degrees")
    found = []
    for lons, lats in wkb_parts(shape):
        if not (are_between(lons, *LONGITUDES) and are_between(lats, *LATITUDES)):
            return Unfit("the geometry is beyond the longitudes -180 to 179.9999 or the latitudes -89.9999 to 89.9999")
        places = [round(lon * UNITS) + EAST << 31 | round(lat * UNITS) + NORTH for lon, lat in zip(lons, lats)]
        if any(map(operator.eq, places, places[1:])):
            places = [it for k, it in enumerate(places) if k == 0 or it != places[k - 1]]
        found.append(tuple(places if is_short(places) else subdivided(places)))
    parts = tuple(it for it in found if len(it) > 1)
    return Street(int(frc), int(fow), direction, parts) if parts else Unfit("the geometry has no two different vertices")


def is_inside(point: Place) -> bool:
    """Whether a map can have a node at a coordinate in degrees; NaN is nowhere."""
    return are_between(point[:1], *LONGITUDES) and are_between(point[1:], *LATITUDES)


def are_between(numbers: Sequence[float], least: float, most: float) -> bool:
    """Whether all numbers are between two others; NaN is not, and makes their sum one."""
    return not numbers or math.isfinite(sum(numbers)) and least <= min(numbers) and max(numbers) <= most


def first_place(shape: bytes) -> Optional[Place]:
    """The first coordinate of a little-endian WKB geometry of any type, or None if it has none, or a map can't have it."""
    at, kind = 0, COLLECTION
    while kind not in BEGIN and len(shape) >= at + 5:
        (kind,) = struct.unpack_from("<I", shape, at + 1)
        at += BEGIN.get(kind, 9)
    if len(shape) < at + 16 or kind not in BEGIN:
        return None
    lon, lat = struct.unpack_from("<dd", shape, at)
    return (lon, lat) if is_inside((lon, lat)) else None


def wkb_parts(shape: bytes) -> Iterator[Tuple[Sequence[float], Sequence[float]]]:
    """The longitudes and the latitudes of each part of a little-endian WKB LineString or MultiLineString."""
    _, kind, count = struct.unpack_from("<BII", shape)
    at = 9
    for _ in range(count if kind == 5 else 1):
        if kind == 5:
            _, _, size = struct.unpack_from("<BII", shape, at)
            at += 9
        else:
            size = count
        numbers = struct.unpack_from(f"<{2 * size}d", shape, at)
        at += 16 * size
        yield numbers[::2], numbers[1::2]


def wkb_hex(places: Sequence[int]) -> str:
    """The LineString of these places, as hexadecimal EWKB in degrees."""
    points = [COORDINATE.pack(((place >> 31) - EAST) / UNITS, ((place & LOW) - NORTH) / UNITS) for place in places]
    return (LINE_HEAD.pack(1, 0x20000002, 4326, len(points)) + b"".join(points)).hex()


def subdivided(places: Sequence[int]) -> Iterator[int]:
    """The places, with further ones on segments that are too long for a line."""
    for a, b in zip(places, places[1:]):
        yield a
        if is_short((a, b)):
            continue
        (lon, lat), (east, north) = units(a), units(b)
        wide = max(abs(east - lon), abs(north - lat))
        count = int(max(distances((a, b))[1] / LONGEST, wide / WIDEST)) + 1
        for k in range(1, count):
            yield place_of(round(lon + (east - lon) * k / count), round(lat + (north - lat) * k / count))
    yield from places[-1:]


def is_short(places: Sequence[int]) -> bool:
    """Whether a course is surely not too long for a line."""
    far = 0
    for a, b in zip(places, places[1:]):
        far += abs((b >> 31) - (a >> 31)) + abs((b & LOW) - (a & LOW))
    return far <= SHORT


def distances(places: Sequence[int]) -> List[float]:
    """The metres from the first place to each, on the spheroid, with its two radii at the middle of each segment."""
    found, far = [0.0], 0.0
    lon, lat = units(places[0])
    for place in places[1:]:
        east, north = (place >> 31) - EAST, (place & LOW) - NORTH
        sine = math.sin(math.radians((lat + north) / 2 / UNITS))
        bend = 1 - 0.00669437999014 * sine * sine
        across, up = east - lon, north - lat
        far += METRES * math.sqrt((1 - sine * sine) * across * across / bend + 0.98665605 * up * up / (bend * bend * bend))
        found.append(far)
        lon, lat = east, north
    return found


# ---- cutting


def meeting_places(streets: Iterable[Street], others: Container[int]) -> Set[int]:
    """The places at which streets are cut: that several streets have, or one street twice; `others` are places of streets that
    are not among these."""
    counts = Counter(place for street in streets for part in street.parts for place in part)
    return {place for place, count in counts.items() if count > 1 or place in others}


def stretches(part: Part, meeting: Container[int]) -> Iterator[Tuple[int, int]]:
    """The pairs of indices between which a part is one stretch."""
    begin, last = 0, len(part) - 1
    far = None if last <= MOST_SHAPE and is_short(part) else distances(part)
    for k in range(1, last + 1):
        if k == last or part[k] in meeting or far and is_too_long(part, far, begin, k + 1):
            yield begin, k
            begin = k


def is_too_long(part: Part, far: Sequence[float], begin: int, end: int) -> bool:
    """Whether the stretch between these two indices is too long for a line."""
    if far[end] - far[begin] > LONGEST or end - begin > MOST_SHAPE:
        return True
    (lon, lat), (east, north) = units(part[begin]), units(part[end])
    return max(abs(east - lon), abs(north - lat)) > WIDEST


Stretches = List[List[Tuple[int, int]]]  # of each part


def stretches_of(street: Street, meeting: Container[int]) -> Stretches:
    """The stretches of a street."""
    return [list(stretches(part, meeting)) for part in street.parts]


def cut_places(street: Street, found: Stretches) -> Set[int]:
    """The places at which a street with these stretches has nodes."""
    return {part[k] for part, pairs in zip(street.parts, found) for pair in pairs for k in pair}


def fields_of(street: Street, places: Sequence[int]) -> Tuple[int, str, str]:
    """The length of a line in decimetres, and the fields of its two records after the ends: along the places and against."""
    far = distances(places)
    length, shape, before = max(1, round(10 * far[-1])), [], 0
    for place, metres in zip(places[1:-1], far[1:-1]):
        at = round(10 * metres)
        if before < at < length:
            shape.append((at, f"{((place >> 31) - EAST) / UNITS:.7f},{((place & LOW) - NORTH) / UNITS:.7f}"))
            before = at
    head = f"{street.frc},{street.fow},{length}"
    along = ",".join([head, *[f"{at},{text}" for at, text in shape]])
    return length, along, ",".join([head, *[f"{length - at},{text}" for at, text in shape[::-1]]])


def lines_of(key: str, street: Street, found: Stretches, node_at: Mapping[int, int]) -> Iterator[Made]:
    """The lines of a street with these stretches."""
    counts: Dict[Hashable, int] = Counter()
    ways = WAYS[street.direction]
    for index, (part, pairs) in enumerate(zip(street.parts, found)):
        for k, (begin, end) in enumerate(pairs):
            places, first, last = part[begin : end + 1], node_at[part[begin]], node_at[part[end]]
            length, *fields = fields_of(street, places)
            for along in ways:
                a, b = (first, last) if along else (last, first)
                ends = a, b, along if a == b else None
                counts[ends] += 1
                yield Made(key, index, k, along, a, b, counts[ends], length, fields[not along], places if along else places[::-1])


# ---- numbers that stay


def images(old: Parts, new: Parts) -> Dict[int, int]:
    """Where each place of a street is after a change, as far as that is clear: old place to new place."""
    if len(old) != len(new):
        old, new = (tuple(itertools.chain(*old)),), (tuple(itertools.chain(*new)),)
    found: Dict[int, int] = {}
    for before, after in zip(old, new):
        pairs = max((aligned(before, it) for it in (after, after[::-1])), key=lambda it: closeness(before, after, it))
        found.update(pairs)
    return found


def closeness(before: Part, after: Part, pairs: Mapping[int, int]) -> Tuple[int, int, int]:
    """How well places are aligned: how many stay, how many have another place, and how near that is."""
    far = sum(abs(x - y) for a, b in pairs.items() for x, y in zip(units(a), units(b)))
    return sum(a == b for a, b in pairs.items()), len(pairs), -far


def aligned(before: Part, after: Part) -> Dict[int, int]:
    """The places of one course with those of another that take their positions in it."""
    pairs: Dict[int, int] = {}
    for word, a, b, c, d in difflib.SequenceMatcher(None, before, after, False).get_opcodes():
        if word == "equal" or word == "replace" and b - a == d - c:
            pairs.update(zip(before[a:b], after[c:d]))
        elif word == "replace":
            if a == 0 and c == 0:
                pairs[before[0]] = after[0]
            if b == len(before) and d == len(after):
                pairs[before[-1]] = after[-1]
    return pairs


def kept_nodes(votes: Mapping[int, Set[int]], old_places: Mapping[int, int], cuts: Container[int]) -> Dict[int, int]:
    """The node of each place that keeps its number: place to node.

    `votes` has for each node the places at which the streets that were cut there are now. A node whose streets agree on one
    place, which no other node's streets claim, is that place's node. The others are the nodes of their coordinates.
    """
    claims = defaultdict(set)
    for node, places in votes.items():
        for place in places:
            claims[place].add(node)
    found = {}
    for node, places in votes.items():
        place = next(iter(places), 0)
        if len(places) == 1 and place != old_places[node] and place in cuts and claims[place] == {node}:
            found[place] = node
    moved = set(found.values())
    for node, place in old_places.items():
        if node not in moved and place in cuts:
            found.setdefault(place, node)
    return found


def kept_lines(made: Sequence[Made], old: Iterable[Old], nodes: Mapping[int, int]) -> Dict[int, int]:
    """The lines that keep their numbers: the index of each in `made`, with its number.

    A line is its street and its ends, and on a loop its direction; of several such ones those with equal fields belong
    together. What remains is compared without its street: a line between the same nodes over the same ground.
    """
    found, free = {}, {it.number: it for it in old}
    starts = {it.start for it in free.values()}
    near = [(index, line) for index, line in enumerate(made) if line.start in starts]

    def pair(key: Callable[[Any], Hashable], is_same: Callable[[Made, Old], bool]) -> None:
        groups = defaultdict(list)
        for it in free.values():
            groups[key(it)].append(it)
        for index, line in near:
            if index not in found:
                group = groups.get(key(line), [])
                match = next((it for it in group if is_same(line, it)), None)
                if match:
                    group.remove(match)
                    del free[match.number]
                    found[index] = match.number

    for key in (lambda it: (it.street, *ends_of(it))), ends_of:
        pair(key, lambda line, it: line.fields == it.fields)
        if not free:
            break
        pair(key, lambda line, it: it.street == line.street or is_near(line.places, old_course(it, nodes)))
    return found


def old_course(line: Old, nodes: Mapping[int, int]) -> Part:
    """The places of an earlier line, from its fields and the places of its nodes."""
    rest = line.fields.split(",")[3:]
    inner = [place_of(round(float(lon) * UNITS), round(float(lat) * UNITS)) for lon, lat in zip(rest[1::3], rest[2::3])]
    return (nodes[line.start], *inner, nodes[line.end])


def is_near(one: Part, other: Part) -> bool:
    """Whether two courses have lengths within 1 % or twice NEAR, and each vertex of one is within NEAR of the other."""
    a, b = distances(one)[-1], distances(other)[-1]
    if abs(a - b) > max(0.01 * max(a, b), 2 * NEAR):
        return False
    return all(far_from(place, them) <= NEAR for us, them in ((one, other), (other, one)) for place in us)


def far_from(place: int, course: Part) -> float:
    """The metres from a place to a course, in the plane around the place."""
    lon, lat = units(place)
    wide = METRES * math.cos(math.radians(lat / UNITS))
    flat = [((x - lon) * wide, (y - lat) * METRES) for x, y in map(units, course)]
    return min(onto_segment(a, b, 0.0, 0.0)[0] for a, b in zip(flat, flat[1:]))


def renamed(before: Mapping[str, Parts], after: Mapping[str, Street]) -> Dict[str, str]:
    """The streets that have another id now: old key to new key, for streets of the same vertices, each within ALIKE units."""
    fresh, found = defaultdict(list), {}
    for key, street in after.items():
        if not before.get(key):
            fresh[cell(street.parts)].append(key)
    for key, parts in before.items():
        if not parts or key in after or not fresh:
            continue
        x, y, *sizes = cell(parts)
        near = (it for dx in (-1, 0, 1) for dy in (-1, 0, 1) for it in fresh.get((x + dx, y + dy, *sizes), ()))
        match = next((it for it in near if is_alike(parts, after[it].parts)), None)
        if match is not None:
            found[key] = match
            fresh[cell(after[match].parts)].remove(match)
    return found


def cell(parts: Parts) -> Tuple[int, ...]:
    """The cell of a grid in which a street begins, and how many vertices its parts have."""
    lon, lat = units(parts[0][0])
    return (lon // ALIKE, lat // ALIKE, *map(len, parts))


def is_alike(parts: Parts, others: Parts) -> bool:
    """Whether all vertices of two streets are within ALIKE units of each other, on each axis."""
    pairs = zip(itertools.chain(*parts), itertools.chain(*others))
    return all(abs(x - y) <= ALIKE for a, b in pairs for x, y in zip(units(a), units(b)))


class Cut(NamedTuple):
    """What a change of streets makes of the map: places of new nodes, moved and dropped nodes, nodes at which one stretch ends and
    nothing else is, the other ones, and the lines in three kinds."""

    new_nodes: Dict[int, int]
    moved: Dict[int, int]
    dropped_nodes: List[int]
    ends: Set[int]
    through: Set[int]
    dropped: List[int]
    changed: Dict[int, Tuple[Made, Old]]
    added: Dict[int, Made]


class Recut:
    """The new cut of all streets that a change affects, in steps.

    `before` has the old parts of streets by key, `after` the streets that are there now, `lines` their old lines, `nodes` the
    old places of these lines' nodes, and of those at a place of the streets, and `others` the places of streets beside these.
    `numbers` gives new numbers of nodes and of lines.
    """

    def __init__(self, before: Dict[str, Parts], after: Dict[str, Street], lines: Sequence[Old], nodes: Dict[int, int],
                 others: Collection[int], numbers: NumberSource) -> None:
        self.before, self.after, self.lines, self.nodes, self.numbers = before, after, lines, nodes, numbers
        self.others = others
        meeting = meeting_places(after.values(), others)
        self.stretches = {key: stretches_of(it, meeting) for key, it in after.items()}
        self.cuts = set().union(*(cut_places(it, self.stretches[key]) for key, it in after.items()))
        self.ends: Dict[str, Set[int]] = defaultdict(set)
        for line in lines:
            self.ends[line.street].update((line.start, line.end))

    def run(self) -> Cut:
        """The cut."""
        node_at = kept_nodes(self.votes(), self.nodes, self.cuts)
        fresh = sorted(self.cuts - node_at.keys())
        added = dict(zip(self.numbers.take("node", len(fresh)), fresh))
        moved = {node: place for place, node in node_at.items() if self.nodes[node] != place}
        gone = sorted(set().union(*self.ends.values()) - set(node_at.values()))
        node_at.update((place, node) for node, place in added.items())
        made = self.made(node_at)
        ends = self.dead_ends(made, node_at)
        return Cut(added, moved, gone, ends, set(node_at.values()) - ends, *self.numbered(made))

    def dead_ends(self, made: Iterable[Made], node_at: Mapping[int, int]) -> Set[int]:
        """The nodes at which one stretch ends, and no street of others is."""
        counts = Counter(node for street, part, k, ends in {(it.street, it.part, it.k, tuple(sorted((it.start, it.end)))): 0
                                                            for it in made} for node in ends)
        beside = {node_at[it] for it in self.others if it in node_at}
        return {node for node, count in counts.items() if count == 1 and node not in beside}

    def votes(self) -> Dict[int, Set[int]]:
        """Where each node is now by each of the streets that were cut there."""
        new_keys = renamed(self.before, self.after)
        votes: Dict[int, Set[int]] = {node: set() for ends in self.ends.values() for node in ends}
        for key, ends in self.ends.items():
            name = new_keys.get(key, key)
            now = self.after[name].parts if name in self.after else ()
            where = None if now == self.before[key] else images(self.before[key], now)
            for node in ends:
                place = self.nodes[node] if where is None else where.get(self.nodes[node])
                if place is not None:
                    votes[node].add(place)
        return votes

    def made(self, node_at: Mapping[int, int]) -> List[Made]:
        """The lines that the streets are cut into."""
        return [line for key, street in self.after.items() for line in lines_of(key, street, self.stretches[key], node_at)]

    def numbered(self, made: Sequence[Made]) -> Tuple[List[int], Dict[int, Tuple[Made, Old]], Dict[int, Made]]:
        """The numbers of lines that are gone, and by number the lines that stay, with the old one, and the new ones."""
        found, old = kept_lines(made, self.lines, self.nodes), {it.number: it for it in self.lines}
        dropped = sorted(old.keys() - set(found.values()))
        changed = {number: (made[index], old[number]) for index, number in found.items()}
        new = [line for index, line in enumerate(made) if index not in found]
        return dropped, changed, dict(zip(self.numbers.take("line", len(new)), new))
