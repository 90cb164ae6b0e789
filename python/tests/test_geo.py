"""Tests of geo.py, routes.py, strings.py, drawn.py, reasons.py and shares.py."""
import math
import unittest
from typing import Dict, List

from olr_keep_tools import geo
from olr_keep_tools.drawn import Junctions, courses, offset_parts, part
from olr_keep_tools.names import Name, described, of_path, streets
from olr_keep_tools.reasons import in_words, lines_about, refusal, without_map
from olr_keep_tools.receiver import RULES, Decoded, Failed, RoadMap, decode, within
from olr_keep_tools.records import Path, State
from olr_keep_tools.routes import Search, Step
from olr_keep_tools.shares import Shares, boxes_of
from olr_keep_tools.strings import TextError, absolute, read_reference


def state_of(*lines: str) -> State:
    """The state of a dump."""
    state = State()
    state.read_dump(lines)
    return state


MAP = state_of(
    "node,1,0,0", "node,2,0.001,0", "node,3,0.002,0", "node,4,0.002,0.001",
    "line,1,1,2,3,3,1112,500,0.0005,0", "line,2,2,3,3,3,1112", "line,3,3,4,3,3,1112", "path,a,300,0,1,2", "path,b,0,0,1,3")


class Earth(unittest.TestCase):
    """Distances, bearings and projections."""

    def test_distances(self) -> None:
        a, b = (6.0, 49.6), (6.01, 49.61)
        self.assertAlmostEqual(geo.distance(a, b), geo.great_circle(a, b), 1)
        # From Flinders Peak to Buninyong, as in the technical manual of the datum of Australia.
        flinders, buninyong = (144.42486788888888, -37.95103341666667), (143.92649552777777, -37.65282113888889)
        self.assertAlmostEqual(geo.geodesic(flinders, buninyong), 54972.271, 2)
        self.assertAlmostEqual(geo.geodesic(a, b), geo.vincenty(a, b), 3)
        self.assertEqual(geo.vincenty(a, a), 0.0)

    def test_bearings(self) -> None:
        for beside, bearing in (((0, 1), 0), ((1, 0), 90), ((0, -1), 180), ((-1, 0), 270), ((0, 0), 0)):
            self.assertAlmostEqual(geo.direction((0, 0), beside), bearing)
        self.assertEqual([geo.angle_between(*it) for it in ((350, 10), (10, 350), (0, 180))], [20, 20, 180])
        there = geo.moved((6.0, 49.6), 30.0, 500.0)
        self.assertAlmostEqual(geo.great_circle((6.0, 49.6), there), 500, 3)

    def test_projections(self) -> None:
        self.assertEqual(geo.onto_segment((0, 0), (4, 0), 1, 3), (3, 0.25))
        self.assertEqual(geo.onto_segment((0, 0), (4, 0), 7, 4), (5, 1))
        self.assertEqual(geo.onto_segment((1, 1), (1, 1), 4, 5), (5, 0))
        far, share = geo.on_piece((6.0, 49.6), (6.1, 49.6), 6.05, 49.601)
        self.assertAlmostEqual(far, 0.001 * geo.METRES, 3)
        self.assertAlmostEqual(share, 0.5)


class ShortestRoutes(unittest.TestCase):
    """Shortest routes."""

    def test_search(self) -> None:
        leaving: Dict[int, List[Step]] = {1: [(10, 2, 5.0), (11, 3, 1.0)], 3: [(12, 2, 2.0)], 2: [(13, 4, 1.0)]}
        search = Search(1, lambda node: leaving.get(node, []))
        self.assertEqual((search.to(2, 3.0), search.lines_to(2)), (3.0, [11, 12]))
        self.assertIsNone(search.to(4, 3.5))
        self.assertEqual((search.to(4, 4.0), search.lines_to(4), search.lines_to(1)), (4.0, [11, 12, 13], []))
        self.assertIsNone(search.to(9, math.inf))
        self.assertEqual(list(Search(1, lambda node: leaving.get(node, [])).nodes(3.0)), [1, 3, 2])


class StringFields(unittest.TestCase):
    """What strings say."""

    def test_steps(self) -> None:
        self.assertEqual((absolute(0), absolute(1), absolute(-1)), (0, 360 / 2**25, -360 / 2**25))

    def test_reference(self) -> None:
        first, last = read_reference("CwAAAAAAABtoCAGQAAAcNFk=").points
        self.assertEqual(first, (0, 0, 3, 3, 8, (3, 8)))
        self.assertEqual((last.lon, last.lat, last.fow, last.onward, last.compass), (0.004, 0, 4, None, "SW"))
        self.assertEqual(read_reference("CwAAAAAAABtoCAGQAAAcNFk=").negative is None, False)
        for text in ("?", "CwRb", "CgAAAAAAABtoCAGQAAAcNFk=", "CwAAAAAAABtoCAGQAAAcFFk="):
            with self.assertRaises(TextError, msg=text):
                read_reference(text)

    def test_decode(self) -> None:
        roads = RoadMap.of_state(MAP)
        self.assertEqual(within(roads, [1, 2, 3], 120.0, 5.0)[0], [2, 3])
        far = decode(roads, read_reference("CwRbWyNG9RpsCQCb/jsbtAT/6/+jK1lE"), RULES["reference"])
        self.assertTrue(isinstance(far, Failed) and far.kind == "no candidate")
        self.assertFalse(isinstance(far, Decoded))


class Drawn(unittest.TestCase):
    """Paths as they are drawn."""

    def test_courses(self) -> None:
        course, = courses(MAP, [1, 2])
        self.assertEqual([it[0] for it in course], [0, 500, 1112, 2224])
        self.assertEqual(len(courses(MAP, [1, 9, 3])), 2)
        self.assertEqual(part(course, 0, 500), [(0, 0), (5000.0, 0.0)])

    def test_offsets(self) -> None:
        cut, = offset_parts(MAP, MAP.paths["a"])
        self.assertEqual((cut.side, cut.length, cut.places), ("positive", 300, [(0, 0), (3000.0, 0.0)]))
        self.assertEqual(offset_parts(MAP, MAP.paths["b"]), [])

    def test_junctions(self) -> None:
        junctions = Junctions(MAP)
        self.assertEqual([junctions.has_degree_two(it) for it in (1, 2, 3, 4)], [False, True, True, False])
        self.assertEqual(junctions.extension([2]), ([1], [3]))

    def test_reasons(self) -> None:
        junctions, answer = Junctions(MAP), ["refused", "2", "0"]
        why = refusal(MAP, MAP.paths["b"], answer, junctions)
        self.assertEqual((why.places, "Line 1 ends at node 2" in why.words), ([(10000, 0), (20000, 0)], True))
        self.assertRegex(why.line(), "^line 1 ends .*, at 0.001,0 and 0.002,0$")
        self.assertEqual(lines_about(MAP.paths["b"], answer), list(MAP.paths["b"].lines[:2]))
        self.assertEqual(lines_about(Path(0, 0, (1, 9, 2, 3)), ["refused", "1", "9"]), [1, 2])
        self.assertEqual(without_map(answer).line(), "of its lines, number 1 does not end where number 2 begins")
        self.assertEqual(in_words("refused,1,9"), "line 9 is not in the map")
        self.assertEqual([in_words(it) for it in ("dropped", "refused", "refused,x")], ["dropped", "refused", "refused,x"])


class Streets(unittest.TestCase):
    """What a path is called by its streets."""

    def test_described(self) -> None:
        names = {1: Name("Bahnhofstrasse", "B 10"), 2: Name("Bahnhofstrasse", ""), 4: Name("", "A 27")}
        self.assertEqual(streets(names, [1, 2, 3, 4, 1]), ["B 10", "Bahnhofstrasse", "A 27"])
        self.assertEqual(described(["B 10"], 600.4, (6, 49), (6.0001, 49.005)), "B 10, 600 m, northward")
        self.assertEqual(described([], 1234, (6, 49), (5.99, 48.995)), "1.2 km, south-westward")
        self.assertEqual(described(list("abcdefgh"), 10, (6, 49), (6, 49)), "a, b, c, d, e, f, 2 more, 10 m")
        self.assertEqual(of_path(MAP, Path(300, 0, (1, 2)), names), "B 10, Bahnhofstrasse, 192 m, eastward")
        self.assertEqual(of_path(MAP, Path(0, 0, (1, 9)), names), "B 10, Bahnhofstrasse")


class Places(unittest.TestCase):
    """Shares by place."""

    def test_boxes(self) -> None:
        places = [(k, k % 3) for k in range(12)]
        boxes = boxes_of(places, 4)
        shares = Shares(4, boxes)
        self.assertEqual([[shares.of_place(it) for it in places].count(k) for k in range(4)], [3, 3, 3, 3])
        self.assertEqual((shares.of_place(None), shares.of_place((1000, 0)), Shares(3).label), (0, 3, "3"))


if __name__ == "__main__":
    unittest.main()
