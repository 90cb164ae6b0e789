"""Tests of waypoints.py."""
import unittest
from typing import List, Optional

from olr_keep_tools.geo import Degrees
from olr_keep_tools.receiver import RoadMap
from olr_keep_tools.records import State
from olr_keep_tools.waypoints import NoRoute, Route, are_opposite, is_beside, is_detour, route_over

# A road 1 - 2 - 3 - 4 in both directions, a one-way street back from 3 to 2, twins from 4 to 5, and a one-way ring at 1.
LINES = (
    "node,1,6,49", "node,2,6.001,49", "node,3,6.002,49", "node,4,6.003,49", "node,5,6.004,49", "node,6,5.999,49",
    "line,1,1,2,3,3,730", "line,2,2,1,3,3,730", "line,3,2,3,3,3,730", "line,4,3,2,3,3,730", "line,5,3,4,3,3,730",
    "line,6,4,3,3,3,730", "line,7,3,2,5,3,1500,750,6.0015,49.0005", "line,8,4,5,3,3,730", "line,9,4,5,3,3,731",
    "line,10,1,6,3,4,900,450,5.9995,49.0002", "line,11,6,1,3,4,900,450,5.9995,48.9998")


def roads() -> RoadMap:
    """The road map."""
    state = State()
    state.read_dump(LINES)
    return RoadMap.of_state(state)


class Routes(unittest.TestCase):
    """Which route leads over points."""

    def lines(self, *points: Degrees, nearest: bool = False) -> Optional[List[int]]:
        """The lines of the route over points, if there is one."""
        found = route_over(roads(), points, 20.0, nearest)
        return found.lines if isinstance(found, Route) else None

    def why(self, *points: Degrees) -> str:
        """Why there is no route over points."""
        found = route_over(roads(), points, 20.0)
        return found.words if isinstance(found, NoRoute) else ""

    def test_directions(self) -> None:
        self.assertEqual([self.lines((6.0002, 49), (6.0008, 49)), self.lines((6.0008, 49), (6.0002, 49))], [[1], [2]])
        self.assertEqual(self.lines((6.0005, 49.0001), (6.0025, 48.9999)), [1, 3, 5])
        self.assertEqual(self.lines((6.001, 49), (6.003, 49)), [3, 5])

    def test_points_between(self) -> None:
        self.assertEqual(self.lines((6.0025, 49), (6.0015, 49.0005), (6.0005, 49)), [6, 7, 2])
        self.assertEqual(self.lines((6.0025, 49), (6.0005, 49)), [6, 4, 2])
        self.assertEqual(self.lines((6.0005, 49), (6.0007, 49), (6.0015, 49)), [1, 3])
        self.assertRegex(self.why((6.0005, 49), (6.0015, 49), (6.0007, 49), (6.0015, 49)), "no route|twice")

    def test_ring(self) -> None:
        self.assertEqual(self.lines((5.9995, 49.0002), (5.9995, 48.9998)), [10, 11])
        self.assertEqual(self.lines((5.9993, 48.9999), (6.0005, 49)), [11, 1])
        self.assertFalse(are_opposite(roads(), 10, 11))
        self.assertTrue(are_opposite(roads(), 5, 6))

    def test_twins(self) -> None:
        self.assertRegex(self.why((6.0025, 49), (6.0035, 49)), "^it may lead over line 8 or over line 9, ")
        self.assertEqual(self.lines((6.0025, 49), (6.0035, 49), nearest=True), [5, 8])

    def test_offsets(self) -> None:
        found = route_over(roads(), [(6.0005, 49.00001), (6.0025, 49)], 20.0)
        assert isinstance(found, Route)
        self.assertAlmostEqual(found.begin, 36.5, 1)
        self.assertAlmostEqual(found.end, 36.5, 1)
        self.assertAlmostEqual(found.length, 146.0, 1)
        self.assertAlmostEqual(found.cost, 148.2, 1)

    def test_other_direction(self) -> None:
        there, back = (route_over(roads(), it, 20.0) for it in ([(6.0005, 49), (6.0025, 49)], [(6.0025, 49), (6.0005, 49)]))
        round_about = route_over(roads(), [(6.0025, 49), (6.0015, 49.0005), (6.0005, 49)], 20.0)
        assert isinstance(there, Route) and isinstance(back, Route) and isinstance(round_about, Route)
        self.assertEqual([is_beside(roads(), it, there, 40.0) for it in (back, round_about)], [True, False])
        self.assertFalse(is_detour(there, [(6.0005, 49), (6.0025, 49)]))

    def test_none(self) -> None:
        self.assertEqual(self.why((6, 50), (6.001, 49)), "no line is within 20 m of point 1")
        self.assertRegex(self.why((6.001, 49.001), (6.001, 49)), "point 1, and the nearest is [0-9]+ m away$")
        self.assertRegex(self.why((6.0035, 49), (6.0005, 49)), "^no route of at most 100 km")
        self.assertRegex(self.why((6.0005, 49), (6.0005, 49.00001)), "less than 1 m apart")


if __name__ == "__main__":
    unittest.main()
