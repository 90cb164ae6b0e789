"""By how much a partner's map is shifted from ours, place by place: the median of what its courses are to the left of ours."""
from __future__ import annotations

import math
import statistics
from collections import defaultdict
from typing import Dict, Iterable, Iterator, List, NamedTuple, Tuple

from ..geo import METRES, Degrees, scale
from ..grid import Cell, around

CELLS = 250.0, 1000.0, 4000.0, 64000.0  # metres of the cells in which shifts are alike: larger ones where there are few courses
COURSES = 5  # that have to be in a place
SECTORS = 8  # of the directions of roads, of which each has a median
MOST = 15.0  # metres that are taken off at most
ENOUGH = 200  # metres to the left that are kept for each cell and sector
FIRM = 2.0  # what a shift that isn't seen counts: along roads that all lead the same way

Vector = Tuple[float, float]


class Seen(NamedTuple):
    """At a place, a course is so many metres to the left of ours, which is this direction as a vector east and north."""

    place: Degrees
    normal: Vector
    left: float


class Shifts:
    """The shift at each place, in metres east and north."""

    def __init__(self) -> None:
        self.left: List[Dict[Cell, List[List[float]]]] = [{} for _ in CELLS]
        self.courses: List[Dict[Cell, int]] = [defaultdict(int) for _ in CELLS]
        self.found: Dict[Cell, Vector] = {}

    def add(self, seen: Iterable[Seen]) -> None:
        """Adds what was seen along one course."""
        signed = [(it.place, *sector_of(it.normal), it.left) for it in seen]
        for level, size in enumerate(CELLS):
            passed = set()
            for place, sector, sign, left in signed:
                cell = cell_of(place, size)
                passed.add(cell)
                kept = self.left[level].setdefault(cell, [[] for _ in range(SECTORS)])[sector]
                if len(kept) < ENOUGH:
                    kept.append(sign * left)
            for cell in passed:
                self.courses[level][cell] += 1

    def merge(self, after: Shifts) -> None:
        """Adds what another one has, as if that had been added here."""
        for level, cells in enumerate(after.left):
            for cell, sectors in cells.items():
                for kept, more in zip(self.left[level].setdefault(cell, [[] for _ in range(SECTORS)]), sectors):
                    kept += more[: ENOUGH - len(kept)]
            for cell, count in after.courses[level].items():
                self.courses[level][cell] += count

    def at(self, place: Degrees) -> Vector:
        """The shift at a place."""
        cell = cell_of(place, CELLS[0])
        if cell not in self.found:
            self.found[cell] = self.of(place)
        return self.found[cell]

    def of(self, place: Degrees) -> Vector:
        """The shift around a place, from the smallest cells that have enough courses; none if there are too few."""
        for level, size in enumerate(CELLS):
            cells = around(cell_of(place, size))
            if sum(self.courses[level].get(it, 0) for it in cells) >= COURSES:
                return solved(self.medians(level, cells))
        return 0.0, 0.0

    def medians(self, level: int, cells: List[Cell]) -> Iterator[Tuple[Vector, float, float]]:
        """For each direction its vector, the median in these cells, and how much it counts."""
        for sector in range(SECTORS):
            left = [it for cell in cells if cell in self.left[level] for it in self.left[level][cell][sector]]
            if left:
                angle = (sector + 0.5) * math.pi / SECTORS
                yield (math.cos(angle), math.sin(angle)), statistics.median(left), float(min(len(left), 50))


def cell_of(place: Degrees, size: float) -> Cell:
    """The cell of a place, of so many metres."""
    row = int(place[1] * METRES // size)
    return int(place[0] * scale(row * size / METRES) // size), row


def sector_of(normal: Vector) -> Tuple[int, int]:
    """The sector of a direction, and -1 if it is that of the opposite one."""
    angle = math.atan2(normal[1], normal[0]) % (2 * math.pi)
    half, rest = divmod(angle, math.pi)
    return min(int(rest * SECTORS / math.pi), SECTORS - 1), -1 if half else 1


def solved(medians: Iterator[Tuple[Vector, float, float]]) -> Vector:
    """The vector whose parts in these directions are nearest to the medians."""
    a, b, c, p, q = FIRM, 0.0, FIRM, 0.0, 0.0
    for (x, y), left, weight in medians:
        a, b, c, p, q = a + weight * x * x, b + weight * x * y, c + weight * y * y, p + weight * x * left, q + weight * y * left
    whole = a * c - b * b
    east, north = (p * c - q * b) / whole, (q * a - p * b) / whole
    far = math.hypot(east, north)
    share = min(1.0, MOST / far) if far else 1.0
    return east * share, north * share
