"""The lines of the table of tools/live as far as they are needed, read for many paths at once where it is known what is needed."""
from __future__ import annotations

import struct
from typing import Any, Dict, Iterable, List, Mapping, NamedTuple, Sequence, Set, Tuple

from ..courses import Network, cells_near, reach
from ..geo import METRES
from ..grid import CELL, Box, Cell, Grid, boxes_of
from ..roads import WIDER
from ..sql import Course, Place, coordinates, number_array, text_array

FINE = CELL / 4  # degrees of the cells by which the lines near a course are found
COORDINATE = struct.Struct("<dd")  # of WKB
FIELDS = """line.line, from_node, to_node, split_part(fields, ',', 1), split_part(fields, ',', 2), length, line.street,
    street.direction, part, k, along"""
COLUMNS = f"{FIELDS}, ST_AsBinary(geom, 'NDR')"
ONE_WAY = f"{FIELDS}, case when along or street.direction <> 'both' then ST_AsBinary(geom, 'NDR') end"
BOXES = "unnest(%s::float8[], %s::float8[], %s::float8[], %s::float8[]) with ordinality as box(w, s, e, n, number)"
STRETCH = slice(6, 10)  # of a row: street, direction, part and number in it, which both lines of a two-way stretch have
LINES = "olr_keep.line join olr_keep.street on street.street = line.street"


class Row(NamedTuple):
    """A line of the table."""

    number: int
    start: int
    end: int
    frc: str
    fow: str
    length: int
    street: str
    direction: str
    part: int
    k: int
    along: bool
    points: Course

    @property
    def kind(self) -> Tuple[int, int, bool]:
        """Its class, its form, and whether its street is two-way."""
        return int(self.frc), int(self.fow), self.direction == "both"


def sides_of(boxes: Iterable[Box]) -> List[str]:
    """The texts of four arrays with the sides of boxes."""
    return [number_array(f"{it:.7f}" for it in side) for side in zip(*boxes)]


class Unread(Exception):
    """Something isn't read yet, and can't be read here."""


class Rows(Dict[int, Row]):
    """Lines of the table by number, as they were read: most are only beside the paths, so the row of one is made when it is asked
    for. A line without coordinates has those of its stretch's other direction."""

    def __init__(self) -> None:
        super().__init__()
        self.read: Dict[int, Tuple[Any, ...]] = {}
        self.shapes: Dict[Tuple[Any, ...], bytes] = {}

    def __contains__(self, number: object) -> bool:
        return number in self.read

    def __missing__(self, number: int) -> Row:
        it = self.read[number]
        points = coordinates(it[11]) or (coordinates(self.shapes[it[STRETCH]]) or ())[::-1]
        self[number] = row = Row._make((*it[:11], points))
        return row


class Ways(Network):
    """The lines that were read, and those near the ends of the courses that are sought."""

    def __init__(self) -> None:
        super().__init__({})
        self.lines = self.rows = Rows()
        self.beside: Dict[Place, List[int]] = {}
        self.stretches: Dict[Tuple[Any, ...], List[int]] = {}  # the one or two lines of each
        self.fine: Grid[List[int]] = Grid(FINE)
        self.without_cells: List[int] = []

    def take(self, found: Iterable[Tuple[Any, ...]]) -> None:
        """Adds what a query found."""
        read, shapes, leaving, nodes, stretches = self.rows.read, self.rows.shapes, self.leaving, self.nodes, self.stretches
        for it in found:
            number, start, end, shape = it[0], it[1], it[2], it[11]
            if number in read:
                continue
            read[number] = it
            several = stretches.setdefault(it[STRETCH], [])
            several.append(number)
            if len(several) == 1:
                self.without_cells.append(number)
            leaving[start].append((number, end))
            if shape is not None:
                shapes[it[STRETCH]] = shape
                if start not in nodes:
                    lon, lat = COORDINATE.unpack_from(shape, 9)
                    nodes[start] = lon, lat
                if end not in nodes:
                    lon, lat = COORDINATE.unpack_from(shape, len(shape) - 16)
                    nodes[end] = lon, lat

    def near(self, place: Place, east: float, north: float) -> List[int]:
        """The lines near an end of a course."""
        if place in self.beside:
            return [it for it in self.beside[place] if it in self.rows]
        return sorted(self.around((place, place), north * METRES))

    def around(self, course: Sequence[Place], metres: float) -> Dict[int, Row]:
        """The lines that may be within this distance of a course, of those that were read."""
        for number in self.without_cells:
            self.fine.add_along(self.rows[number].points, self.stretches[self.rows.read[number][STRETCH]])
        self.without_cells.clear()
        return {it: self.rows[it] for it in sorted(set().union(*self.fine.at(cells_near(course, metres, FINE))))}


class Finder:
    """Lines of the table, read as they are needed, and many at once where it is known what is needed."""

    def __init__(self, cursor: Any, tolerance: float) -> None:
        self.cursor, self.tolerance = cursor, tolerance
        self.network = Ways()
        self.rows: Mapping[int, Row] = self.network.rows
        self.cells: Set[Cell] = set()
        self.courses: Set[Course] = set()
        self.unused: List[Tuple[Any, ...]] = []
        self.streets: Dict[str, List[int]] = {}

    def read(self, where: str, values: Sequence[object]) -> List[Tuple[Any, ...]]:
        """Reads the lines of the table for which a condition holds."""
        self.ask(f"select {COLUMNS} from {LINES} where {where}", values)
        found: List[Tuple[Any, ...]] = self.cursor.fetchall()
        self.network.take(found)
        return found

    def ask(self, query: str, values: Sequence[object]) -> None:
        """Asks the database."""
        if self.cursor is None:
            raise Unread
        self.cursor.execute(query, values)

    def read_numbers(self, numbers: Iterable[int]) -> None:
        """Reads the lines with these numbers."""
        self.read("line = any(%s::bigint[])", (number_array(numbers),))

    def read_near(self, courses: Iterable[Course]) -> None:
        """Reads the lines near courses, by cells. What was read is used when it is needed."""
        new = {*courses} - self.courses
        self.courses |= new
        cells = set().union(*(cells_near(it, max(self.tolerance, WIDER)) for it in new)) - self.cells
        if cells:
            self.ask(f"""select {ONE_WAY} from {BOXES} cross join lateral (
                select * from olr_keep.line where geom && ST_MakeEnvelope(w, s, e, n, 4326) offset 0
            ) as line join olr_keep.street on street.street = line.street""", sides_of(boxes_of(cells, CELL)))
            self.unused += self.cursor.fetchall()
            self.cells |= cells
        self.read_beside(new)

    def read_beside(self, courses: Iterable[Course]) -> None:
        """Reads which lines are near the ends of courses."""
        boxes: Dict[Place, Box] = {}
        for it in courses:
            (wide, high), places = reach(it, self.tolerance), (it[0], it[-1])
            boxes.update((place, (place[0] - wide, place[1] - high, place[0] + wide, place[1] + high)) for place in places)
        if boxes:
            self.ask(f"""select array(select line from olr_keep.line where geom && ST_MakeEnvelope(w, s, e, n, 4326))
                from {BOXES} order by number""", sides_of(boxes.values()))
            self.network.beside.update(zip(boxes, (it for (it,) in self.cursor)))

    def near(self, course: Course) -> Network:
        """The lines near a course, and others."""
        self.read_near([course])
        self.network.take(self.unused)
        self.unused.clear()
        return self.network

    def around(self, course: Course) -> Dict[int, Row]:
        """The lines that may be as near to a course as other roads matter."""
        self.near(course)
        return self.network.around(course, WIDER)

    def read_streets(self, streets: Set[str]) -> None:
        """Reads the lines of streets."""
        new = {it for it in streets if it not in self.streets}
        if new:
            self.streets.update((it, []) for it in new)
            for it in self.read("line.street = any(%s::text[])", (text_array(new),)):
                self.streets[it[6]].append(it[0])
