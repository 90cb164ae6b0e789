"""Records of the roads of an OpenStreetMap extract: their lines, and numbers that stay between runs."""
import array
import itertools
import os
import re
from collections import Counter
from typing import TYPE_CHECKING, Callable, Dict, Iterable, Iterator, List, Mapping, NamedTuple, Optional, Set, Tuple

from .extent import extent_of
from .files import FileFailure
from .geo import geodesic, great_circle
from .osm import Extract, Places, WayKind
from .records import UNITS, decimal

MOST_SHAPE_POINTS = 1000
# A path with a line of more than 15 km is not encodable, so a way without a junction for longer is cut.
LONGEST = 140000
LENGTHS = {False: "sphere", True: "spheroid"}
MOST_NUMBER = (1 << 32) - 1  # of a node or a line
NODE = r"-?[0-9]+(?:\+-?[0-9]+\+[0-9]+)?"  # the number of a node, or an added one between two others
LINE = re.compile(rf"-?[0-9]+:{NODE}:{NODE}:[+-]:[0-9]+")
KEYS = {"node": re.compile(NODE), "line": LINE, "split": LINE, "lengths": re.compile("|".join(LENGTHS.values()))}


if TYPE_CHECKING:
    Steps = array.array[float]
    Integers = array.array[int]
else:
    Steps = Integers = array.array
Measure = Callable[[int, int], float]  # the decimetres between two places


class WayPart(NamedTuple):
    """A part of a way that becomes lines: the number of the way, the places of its nodes, the decimetres between them, and what
    it is."""

    way: int
    nodes: List[int]
    steps: Steps
    road: WayKind


class Numbers:
    """Numbers from 1 for keys of one kind, stored in a table between runs, and the rows that are new in this one."""

    def __init__(self, kind: str):
        self.kind, self.last = kind, 0
        self.table: Dict[str, int] = {}
        self.new: List[Tuple[str, int]] = []

    def put(self, key: str, number: int) -> None:
        """Adds a row of the table. Raises ValueError for one that no run can have written."""
        if not KEYS[self.kind].fullmatch(key) or not 1 <= number <= MOST_NUMBER:
            raise ValueError(f"{self.kind} {key} {number}")
        self.table[key] = number
        self.last = max(self.last, number)

    def give(self, key: str, number: Optional[int] = None) -> int:
        """Assigns this number, or a new one, to a key, as a new row."""
        number = number or self.last + 1
        self.last = max(self.last, number)
        self.new.append((key, number))
        return number

    def of(self, key: str) -> int:
        """The number that a key has or gets."""
        number = self.table.get(key)
        if not number:
            number = self.table[key] = self.give(key)
        return number

    def rows(self) -> Iterator[str]:
        """The new rows of the table, as text."""
        return (f"{self.kind} {key} {number}\n" for key, number in self.new)


def read_table(file: Optional[str]) -> Dict[str, Numbers]:
    """The numbers of nodes and lines in a table, empty if there is none yet; the splits that were reported; and how the lengths
    were measured."""
    tables = {kind: Numbers(kind) for kind in ("node", "line", "split", "lengths")}
    if file and os.path.exists(file):
        with open(file, encoding="utf-8", errors="replace") as rows:
            for count, row in enumerate(rows, 1):
                try:
                    kind, key, number = row.split()
                    tables[kind].put(key, int(number) if re.fullmatch("[0-9]{1,10}", number) else 0)
                except (ValueError, KeyError):
                    raise FileFailure(f"{file}:{count}: not a row of a table of numbers: {row.rstrip()[:80]!r}") from None
        taken = Counter(tables["node"].table.values())
        if twice := next((it for it, times in taken.items() if times > 1), None):
            raise FileFailure(f"{file}: the number {twice} is that of several nodes")
    return tables


def driven(parts: Iterable[WayPart], places: Places) -> Iterator[str]:
    """The key of each line: of each part in each driving direction."""
    seen: Dict[str, int] = {}
    for part in parts:
        first, last = places.key(part.nodes[0]), places.key(part.nodes[-1])
        if part.road.forward:
            yield counted(f"{part.way}:{first}:{last}:+", seen)
        if part.road.backward:
            yield counted(f"{part.way}:{last}:{first}:-", seen)


def counted(key: str, seen: Dict[str, int]) -> str:
    """The key with its count, since a way may lead from a node to another one more than once."""
    seen[key] = seen.get(key, 0) + 1
    return f"{key}:{seen[key]}"


def ends(key: str) -> Tuple[str, ...]:
    """The first and the last node of a line, by its key."""
    return tuple(key.split(":")[1:3])


def number_lines(keys: List[str], numbers: Numbers) -> Integers:
    """The number of each line with these keys: that of the table; or that of a line of the table between the same nodes that no
    longer exists, such as one whose way was renumbered; else a new number."""
    found = array.array("I")
    taken: Set[int] = set()
    free: Dict[Tuple[str, ...], List[int]] = {}
    for key in keys:
        number = numbers.table.get(key, 0)
        found.append(0 if number in taken else number)
        taken.add(found[-1])
    for key, number in sorted(numbers.table.items(), key=lambda it: -it[1]):
        if number not in taken:
            free.setdefault(ends(key), []).append(number)
    for k, key in enumerate(keys):
        if not found[k]:
            left = free.get(ends(key)) if free else None
            found[k] = numbers.give(key, left.pop() if left else None)
    return found


def splits(keys: List[str], found: Integers, numbers: Numbers, reported: Numbers) -> Iterator[str]:
    """Reports each line of the table that is replaced by several lines of its way, or of new ways, and where it was split."""
    taken = set(found) if numbers.table else ()
    gone = {key: number for key, number in numbers.table.items() if number not in taken and key not in reported.table}
    if not gone:
        return
    after: Dict[Tuple[str, str, str], str] = {}
    new = {key.split(":")[0] for key in keys} - {key.split(":")[0] for key in numbers.table}
    for key in keys:
        way, first, last, sign, _ = key.split(":")
        after["" if way in new else way, sign, first] = last
    for key, number in gone.items():
        way, first, last, sign, _ = key.split(":")
        stops = [first]
        while stops[-1] != last:
            further = after.get((way, sign, stops[-1])) or after.get(("", sign, stops[-1]))
            if not further or further in stops:
                break
            stops.append(further)
        if stops[-1] == last and len(stops) > 2:
            reported.give(key, number)
            yield f"line {number} of way {way} was split at node {', '.join(stops[1:-1])}"


def present(nodes: Iterable[int]) -> Iterator[List[int]]:
    """The pieces of a way whose nodes are in the file, without repeated nodes."""
    piece: List[int] = []
    for node in (*nodes, -1):
        if node >= 0:
            if piece[-1:] != [node]:
                piece.append(node)
            continue
        if len(piece) > 1:
            yield piece
        piece = []


def measure_of(places: Places, is_spheroid: bool) -> Measure:
    """The distance between two places in decimetres, on the sphere or on the spheroid."""
    distance, lons, lats = geodesic if is_spheroid else great_circle, places.lons, places.lats

    def measure(a: int, b: int) -> float:
        return 10 * distance((lons[a] / UNITS, lats[a] / UNITS), (lons[b] / UNITS, lats[b] / UNITS))

    return measure


def filled(piece: List[int], places: Places, measure: Measure) -> List[int]:
    """The piece with nodes added on stretches that are too long for a line."""
    nodes = piece[:1]
    for a, b in zip(piece, piece[1:]):
        if abs(places.lats[a] - places.lats[b]) + abs(places.lons[a] - places.lons[b]) > 1_000_000:
            nodes += added(a, b, places, int(measure(a, b) // LONGEST))
        nodes.append(b)
    return nodes


def added(a: int, b: int, places: Places, count: int) -> List[int]:
    """So many added nodes from one node to another, the same in both directions."""
    low, high = sorted((a, b), key=places.key)
    ends_of = [(places.lons[it], places.lats[it]) for it in (low, high)]
    new = []
    for k in range(1, count + 1):
        lon, lat = (round(p + k / (count + 1) * (q - p)) for p, q in zip(*ends_of))
        new.append(places.add(f"{places.key(low)}+{places.key(high)}+{k}", lon, lat))
    return new if a == low else new[::-1]


def crossings(pieces: Iterable[Tuple[int, List[int], WayKind]], count: int) -> bytearray:
    """For each place whether pieces begin, end or meet there."""
    uses = bytearray(count)
    for _, piece, _ in pieces:
        uses[piece[0]] = uses[piece[-1]] = 2
        for node in piece[1:-1]:
            uses[node] = min(2, uses[node] + 1)
    return uses


def cut(piece: List[int], uses: bytearray, measure: Measure) -> Iterator[Tuple[List[int], Steps]]:
    """The piece cut at the junctions, and at other nodes if a part is too long or has too many points: the nodes of each part,
    and the distances between them."""
    part, steps, length = piece[:1], array.array("d"), 0.0
    for node in piece[1:]:
        further = measure(part[-1], node)
        if len(part) > 1 and (length + further > LONGEST or len(part) > MOST_SHAPE_POINTS):
            yield part, steps
            part, steps, length = part[-1:], array.array("d"), 0.0
        part.append(node)
        steps.append(further)
        length += further
        if uses[node] == 2:
            yield part, steps
            part, steps, length = [node], array.array("d"), 0.0
    if len(part) > 1:
        yield part, steps


def shape(steps: Steps, inner: List[str]) -> str:
    """The length of a line in decimetres, and its shape points at ascending distances, as fields; `inner` has the coordinates of
    its inner nodes."""
    if not inner:
        return str(max(1, round(steps[0])))
    along = list(itertools.accumulate(steps))
    length, last, fields = max(1, round(along.pop())), 0, []
    for metres, place in zip(along, inner):
        far = round(metres)
        if last < far < length:
            last = far
            fields.append(f",{far},{place}")
    return f"{length}{''.join(fields)}"


def records(parts: List[WayPart], places: Places, nodes: Numbers, numbers: Integers) -> Iterator[str]:
    """The records of the nodes at the ends of parts, and of the lines, which have these numbers."""

    def fields(node: int) -> str:
        return f"{decimal(places.lons[node])},{decimal(places.lats[node])}"

    of_place = array.array("I", bytes(4 * len(places.lons)))
    for node in dict.fromkeys(end for part in parts for end in (part.nodes[0], part.nodes[-1])):
        of_place[node] = nodes.of(places.key(node))
        yield f"node,{of_place[node]},{fields(node)}\n"
    number = iter(numbers)
    for _, part, steps, road in parts:
        first, last = of_place[part[0]], of_place[part[-1]]
        kind, inner = f"{road.frc},{road.fow}", list(map(fields, part[1:-1]))
        if road.forward:
            yield f"line,{next(number)},{first},{last},{kind},{shape(steps, inner)}\n"
        if road.backward:
            yield f"line,{next(number)},{last},{first},{kind},{shape(steps[::-1], inner[::-1])}\n"


def named(parts: Iterable[WayPart], names: Mapping[int, Tuple[str, str]], numbers: Integers) -> Iterator[Tuple[object, ...]]:
    """The number of each line of a way that has a name or a number, with both."""
    number = iter(numbers)
    for part in parts:
        for _ in range(part.road.forward + part.road.backward):
            line = next(number)
            if part.way in names:
                yield line, *names[part.way]


def parts_of(extract: Extract, measure: Measure) -> List[WayPart]:
    """The parts of all ways."""
    places = extract.places
    pieces = [(it.number, filled(piece, places, measure), it.road) for it in extract.ways for piece in present(it.nodes)]
    uses = crossings(pieces, len(places.lons))
    return [WayPart(way, *part, road) for way, piece, road in pieces for part in cut(piece, uses, measure)]


def report(extract: Extract, count: int) -> Iterator[str]:
    """Lines of text on what was used and what was left out."""
    lacking = sum(1 for it in extract.ways if next(present(it.nodes), None) is None)
    left_out = extract.left_out + Counter({"fewer than two nodes": lacking} if lacking else {})
    yield f"{len(extract.ways) - lacking} ways are used, as {count} lines" + many("; left out", left_out)
    if extract.twice:
        yield f"ways that are given twice, of which the last counts: {extract.twice}"
    if extract.unknown:
        yield "values that are not known, and not used" + many("", extract.unknown)


def extent(parts: List[WayPart], places: Places) -> Iterator[str]:
    """A line of text on where the roads are, if there are some."""
    if parts:
        ends = [(part.nodes[0], part.nodes[-1]) for part in parts]
        coordinates = ((places.lons[it] / UNITS, places.lats[it] / UNITS) for both in ends for it in both)
        yield f"the roads lead {extent_of(coordinates, ends).text()}"


def many(title: str, counts: Mapping[str, int]) -> str:
    """Counts as a text, the greatest first."""
    texts = ", ".join(f"{key} {count}" for key, count in sorted(counts.items(), key=lambda it: (-it[1], it[0])))
    return f"{title}: {texts}" if counts else ""


def lengths(tables: Dict[str, Numbers], is_spheroid: bool) -> Iterator[str]:
    """Notes how lengths are measured, and says so if the table's map was measured in another way."""
    noted, now = tables["lengths"].table, LENGTHS[is_spheroid]
    before = max(noted, key=noted.__getitem__, default=LENGTHS[False])
    if before != now:
        tables["lengths"].give(now)
        if tables["line"].table:
            yield f"lengths are those on the {now}, and were those on the {before}: nearly all lines change, and many strings once"
