"""Grids of cells, and what is near by them."""
import random
import unittest

from olr_keep_tools.geo import distance
from olr_keep_tools.grid import CELL, Grid, Points, cell_of, cells_along


class Cells(unittest.TestCase):
    """The cells of segments, and what is in cells."""

    def test_along_a_segment(self) -> None:
        for a, b in (((0.1, 0.1), (0.9, 0.2)), ((-3.2, 1.1), (4.4, -2.7)), ((0.5, 0.5), (0.5, 7.5))):
            cells = set(cells_along(a, b, 1.0))
            for k in range(101):
                self.assertIn(cell_of((a[0] + (b[0] - a[0]) * k / 100, a[1] + (b[1] - a[1]) * k / 100), 1.0), cells)
        self.assertGreater(len(cells_along((6.0, 49.0), (6.5, 49.0), CELL)), 200)

    def test_a_segment_as_long_as_the_earth(self) -> None:
        self.assertLess(len(cells_along((6.0, 49.0), (-170.0, 49.0), CELL)), 20)

    def test_a_course_is_in_each_cell_once(self) -> None:
        grid: Grid[str] = Grid(1.0)
        grid.add_along([(0.5, 0.5), (0.6, 0.5), (1.5, 0.5), (0.5, 0.6)], "a")
        self.assertEqual(grid.cells, {(0, 0): ["a"], (1, 0): ["a"]})
        self.assertEqual(list(grid.beside((2.5, 1.5))), ["a"])
        self.assertEqual(list(grid.beside((3.5, 1.5))), [])

    def test_within_a_box_of_any_size(self) -> None:
        rnd, grid = random.Random(1), Grid[int](1.0)
        places = [(rnd.uniform(-9, 9), rnd.uniform(-9, 9)) for _ in range(50)]
        for k, it in enumerate(places):
            grid.add(it, k)
        for far in (0.1, 1.0, 4.0, 1e9):
            found = {k for cell in grid.within(-far, -far, far, far) for k in cell}
            self.assertLessEqual({k for k, (x, y) in enumerate(places) if max(abs(x), abs(y)) <= far}, found)
            self.assertLessEqual(found, {k for k, (x, y) in enumerate(places) if max(abs(x), abs(y)) <= far + 1})


class Near(unittest.TestCase):
    """Coordinates within some metres, also beside a pole and on both sides of a degree."""

    def test_all_that_are_near(self) -> None:
        rnd = random.Random(2)
        for lat in (0.0, 49.5, -89.9999):
            places = [(rnd.uniform(5.99, 6.01), lat + rnd.uniform(-0.01, 0.01)) for _ in range(300)]
            for size in (CELL, 0.0002):
                points = Points(range(300), places.__getitem__, size)
                for metres in (20.0, 150.0, 900.0):
                    near = [k for k, it in enumerate(places) if distance((6.0, lat), it) <= metres]
                    self.assertEqual(list(points.near((6.0, lat), metres)), near)
