"""Grids of square cells, by which what is near a place is found. Their places are degrees, or points of a plane.

    grid: Grid[str] = Grid(0.002)
    grid.add((6.1, 49.6), "a node")
    grid.add_along([(6.1, 49.6), (6.11, 49.61)], "a line")
    print(*grid.beside((6.101, 49.601)))
"""
from __future__ import annotations

import itertools
from collections import defaultdict
from typing import Callable, Collection, Dict, Generic, Iterable, Iterator, List, Sequence, Set, Tuple, TypeVar

from .geo import METRES, distance, scale

CELL = 0.002  # degrees of the cells by which lines and nodes near a place are found
RUN = 8  # cells of a row, and rows, that have a box together at most
MOST_CELLS = 500  # of one straight segment, a degree of a map: a longer one is an error, and is near its ends alone

Place = Tuple[float, float]
Cell = Tuple[int, int]
Box = Tuple[float, float, float, float]  # west, south, east and north
Content = TypeVar("Content")


def cell_of(place: Place, size: float) -> Cell:
    """The cell of this size that has a place."""
    return int(place[0] // size), int(place[1] // size)


def around(cell: Cell) -> List[Cell]:
    """A cell and those beside it."""
    x, y = cell
    return [(x + i, y + j) for i in (-1, 0, 1) for j in (-1, 0, 1)]


def cells_along(a: Place, b: Place, size: float) -> Collection[Cell]:
    """The cells in which a straight segment has points, and perhaps some beside them."""
    x, y, right, top = int(a[0] // size), int(a[1] // size), int(b[0] // size), int(b[1] // size)
    if x == right and y == top:
        return ((x, y),)
    if abs(right - x) <= 1 and abs(top - y) <= 1:
        return ((x, y), (right, top)) if x == right or y == top else ((x, y), (x, top), (right, y), (right, top))
    if max(abs(right - x), abs(top - y)) > MOST_CELLS:
        return (x, y), (right, top)
    middle = (a[0] + b[0]) / 2, (a[1] + b[1]) / 2
    return {*cells_along(a, middle, size), *cells_along(middle, b, size)}


def cells_of(course: Sequence[Place], size: float) -> Set[Cell]:
    """The cells in which a course has points, and perhaps some beside them."""
    cells = {(int(x // size), int(y // size)) for x, y in course}
    if len(cells) > 1:
        cells.update(*(cells_along(a, b, size) for a, b in zip(course, course[1:])))
    return cells


def consecutive(numbers: Sequence[int]) -> Iterator[Tuple[int, int]]:
    """The first and the last of each run of consecutive numbers among ascending ones."""
    ends = [k for k, (a, b) in enumerate(zip(numbers, numbers[1:]), 1) if b != a + 1]
    for first, last in zip([0, *ends], [*ends, len(numbers)]):
        yield numbers[first], numbers[last - 1]


def boxes_of(cells: Iterable[Cell], size: float) -> Iterator[Box]:
    """The boxes of cells of this size. In a square of RUN cells on a side, rows that have the same cells have one box."""
    squares: Dict[Cell, Dict[int, List[int]]] = defaultdict(lambda: defaultdict(list))
    for y, x in sorted([(y, x) for x, y in cells]):
        squares[x // RUN, y // RUN][y].append(x)
    for rows in squares.values():
        same: Dict[Tuple[int, int], List[int]] = defaultdict(list)
        for y, row in rows.items():
            for run in consecutive(row):
                same[run].append(y)
        for (west, east), several in same.items():
            for south, north in consecutive(several):
                yield west * size, south * size, (east + 1) * size, (north + 1) * size


class Grid(Generic[Content]):
    """What is in each cell."""

    def __init__(self, size: float) -> None:
        self.size = size
        self.cells: Dict[Cell, List[Content]] = defaultdict(list)

    def add(self, place: Place, it: Content) -> None:
        """Adds what is at a place."""
        self.cells[cell_of(place, self.size)].append(it)

    def add_along(self, course: Sequence[Place], it: Content) -> None:
        """Adds what is along a course, to each cell once."""
        for cell in cells_of(course, self.size):
            self.cells[cell].append(it)

    def at(self, cells: Iterable[Cell]) -> Iterator[Content]:
        """What is in these cells, from each of them."""
        return (it for cell in cells for it in self.cells.get(cell, ()))

    def beside(self, place: Place) -> Iterator[Content]:
        """What is in the cell of a place and in those beside it."""
        return self.at(around(cell_of(place, self.size)))

    def within(self, west: float, south: float, east: float, north: float) -> List[List[Content]]:
        """What is in each cell that a box touches, however large the box is."""
        size, cells = self.size, self.cells
        columns, rows = range(int(west // size), int(east // size) + 1), range(int(south // size), int(north // size) + 1)
        if len(columns) * len(rows) > len(cells):
            return [it for (x, y), it in cells.items() if x in columns and y in rows]
        return [cells[it] for it in itertools.product(columns, rows) if it in cells]

    def near(self, place: Place, metres: float) -> Iterator[Content]:
        """What is in the cells of degrees within so many metres of a coordinate, and perhaps more, from each of them."""
        (lon, lat), east, north = place, metres / scale(place[1]), metres / METRES
        return (it for cell in self.within(lon - east, lat - north, lon + east, lat + north) for it in cell)


def segments(course: Sequence[Place], size: float) -> Grid[int]:
    """The segments of a course, by index."""
    grid, places = Grid[int](size), [cell_of(it, size) for it in course]
    for k, (a, b) in enumerate(zip(places, places[1:])):
        for cell in (a,) if a == b else cells_along(course[k], course[k + 1], size):
            grid.cells[cell].append(k)
    return grid


class Points:
    """Coordinates by number."""

    def __init__(self, numbers: Iterable[int], place: Callable[[int], Place], size: float = CELL) -> None:
        self.place = place
        self.grid: Grid[int] = Grid(size)
        for it in numbers:
            self.grid.add(place(it), it)

    def near(self, place: Place, metres: float) -> Dict[int, float]:
        """Those within so many metres of a coordinate, in ascending order, each with its distance."""
        far = {it: distance(place, self.place(it)) for it in sorted(self.grid.near(place, metres))}
        return {it: metres_off for it, metres_off in far.items() if metres_off <= metres}
