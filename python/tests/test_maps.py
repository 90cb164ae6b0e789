"""Tests of osm.py, osmrecords.py, mapedits.py, mapchecks.py and refound.py."""
import array
import os
import random
import tempfile
import unittest
from typing import Dict, List, Sequence, Tuple

from olr_keep_tools.geo import METRES, distance
from olr_keep_tools.mapchecks import decoding_error, findings
from olr_keep_tools.mapedits import Limits, MapRefused, Named, edits
from olr_keep_tools.osm import Extract, LeftOut, OsmError, Places, Way, WayKind, read_osm
from olr_keep_tools.osmrecords import Numbers, driven, measure_of, number_lines, parts_of, records, splits
from olr_keep_tools.receiver import RoadMap, bearing, project, shape_length
from olr_keep_tools.records import State
from olr_keep_tools.refound import Location, Shake, Waves, cut_out, farthest, shaken
from olr_keep_tools.roads import farthest_apart


def roads_of(*lines: str) -> RoadMap:
    """The road map of a dump."""
    state = State()
    state.read_dump(lines)
    return RoadMap.of_state(state)


ROADS = roads_of(
    "node,1,6,49", "node,2,6.001,49", "node,3,6.001,49.001", "node,9,7,50",
    "line,1,1,2,3,3,729", "line,2,1,2,3,3,730", "line,3,2,3,3,3,1112,500,6.0012,49.0005")


class Tags(unittest.TestCase):
    """What the tags of a way say of cars."""

    def road(self, **tags: str) -> object:
        """The road of these tags, or why there is none."""
        try:
            return Extract(with_ferries=False).road_of(tags)
        except LeftOut as why:
            return str(why)

    def test_roads(self) -> None:
        both, along = WayKind(6, 3, True, True), WayKind(6, 3, True, False)
        tags: Dict[str, str] = {"highway": "residential"}
        self.assertEqual([self.road(), self.road(**tags), self.road(**tags, oneway="yes")], [None, both, along])
        self.assertEqual(self.road(**tags, access="private", motorcar="yes"), both)
        self.assertEqual(self.road(**tags, access="no"), "access=no")
        self.assertEqual(self.road(**tags, **{"vehicle:backward": "no"}), along)
        self.assertEqual(self.road(**tags, oneway="reversible"), "oneway=reversible")
        self.assertEqual(self.road(highway="trunk_link"), WayKind(1, 6, True, True))
        self.assertEqual(self.road(highway="motorway"), WayKind(0, 1, True, False))
        self.assertEqual(self.road(highway="primary", junction="roundabout"), WayKind(2, 4, True, False))
        self.assertEqual([self.road(highway="footway"), self.road(route="ferry")], ["highway=footway", "route=ferry"])

    def test_xml(self) -> None:
        text = ('<osm><node id="5" lon="6" lat="49"/><node id="3" lon="6.1" lat="49"/><node id="5" lon="6.2" lat="49"/>'
                '<way id="1"><nd ref="3"/><nd ref="5"/><nd ref="7"/><tag k="highway" v="service"/></way></osm>')
        with tempfile.TemporaryDirectory() as folder:
            name = os.path.join(folder, "map.osm")
            with open(name, "w", encoding="utf-8") as file:
                file.write(text)
            extract = read_osm(name, with_ferries=False)
            way, = extract.ways
            self.assertEqual((list(way.nodes), extract.places.degrees(1), way.road.frc), ([0, 1, -1], (6.2, 49.0), 7))
            for wrong in ("<osm/>", "<html/>", text[:-6], text.replace('ref="3"', "")):
                with open(name, "w", encoding="utf-8") as file:
                    file.write(wrong)
                with self.assertRaises(OsmError, msg=wrong):
                    read_osm(name, with_ferries=False)


class Ways(unittest.TestCase):
    """The lines of ways, and their numbers."""

    def places(self, *lons: int) -> Places:
        """Nodes 1, 2, .. at these longitudes, on the equator, in 10^-5 degree."""
        places = Places()
        for number, lon in enumerate(lons, 1):
            places.put(number, lon / 100_000, 0.0)
        return places

    def test_parts(self) -> None:
        places, both = self.places(0, 100, 200, 300, 50_000), WayKind(6, 3, True, True)
        extract = Extract(with_ferries=False)
        extract.places = places
        extract.ways = [Way(7, array.array("i", [0, 1, 2, 3]), both), Way(8, array.array("i", [2, 4]), both)]
        parts = parts_of(extract, measure_of(places, is_spheroid=False))
        nodes = [[places.key(node) for node in it.nodes] for it in parts[:2]]
        self.assertEqual(nodes, [["1", "2", "3"], ["3", "4"]])
        self.assertEqual((parts[2].nodes[-1], len(parts)), (5, 6))
        keys = list(driven(parts[:2], places))
        self.assertEqual(keys, ["7:1:3:+:1", "7:3:1:-:1", "7:3:4:+:1", "7:4:3:-:1"])
        numbers = Numbers("line")
        self.assertEqual(list(number_lines(keys, numbers)), [1, 2, 3, 4])
        rows = list(records(parts[:2], places, Numbers("node"), number_lines(keys, Numbers("line"))))
        self.assertEqual(rows[3:5], ["line,1,1,2,6,3,2224,1112,0.001,0\n", "line,2,2,1,6,3,2224,1112,0.001,0\n"])

    def test_numbers_stay(self) -> None:
        before = Numbers("line")
        for number, key in enumerate(("7:1:3:+:1", "9:5:6:+:1"), 1):
            before.put(key, number)
        keys, reported = ["7:1:2:+:1", "7:2:3:+:1", "4:5:6:+:1"], Numbers("split")
        found = number_lines(keys, before)
        self.assertEqual(list(found), [3, 4, 2])
        self.assertEqual(list(splits(keys, found, before, reported)), ["line 1 of way 7 was split at node 2"])
        self.assertEqual(list(reported.rows()), ["split 7:1:3:+:1 1\n"])


class Findings(unittest.TestCase):
    """What makes strings ambiguous."""

    def test_kinds(self) -> None:
        found = {it.kind: it for it in findings(ROADS)}
        self.assertEqual(sorted(found), ["lone-node", "one-way-dead-end", "twin-lines"])
        self.assertEqual(found["twin-lines"].lines, (1, 2))
        self.assertLess(decoding_error(0), decoding_error(1))

    def test_near(self) -> None:
        near = roads_of("node,1,6,49", "node,2,6.00001,49", "line,1,1,2,3,3,7", "line,2,2,1,3,3,7")
        kinds = {it.kind for it in findings(near)}
        self.assertEqual(kinds, {"near-nodes", "short-line"})


class Edits(unittest.TestCase):
    """The edits between two maps."""

    OLD = ("node,1,6,49", "node,2,6.002,49", "node,3,6.002,49.001", "line,1,1,2,3,3,1458", "line,2,2,3,3,3,1112",
           "path,a,5,0,1,2", "path,b,0,0,2")

    def edits(self, *new: str, dropped: float = 1.0, old: Sequence[str] = OLD) -> Tuple[List[str], Named]:
        """The edits to a new map, and the paths that need a person."""
        named, before, after = Named({}, {}), State(), State()
        before.read_dump(old)
        after.read_dump(new)
        return list(edits(before, after, Limits(5.0, 0.001, dropped), named)), named

    def test_split(self) -> None:
        halves = ["line,5,1,7,3,3,729", "line,6,7,2,3,3,729"]
        new = (*self.OLD[:3], "node,7,6.001,49", *halves, "line,2,2,3,4,3,1112")
        wanted = ["drop-line,1", "node,7,6.001,49", "set-line,2,4,3,1112", *halves, "repath,a,5,0,5,6,2"]
        found, named = self.edits(*new)
        self.assertEqual((sorted(found), found[0], found[-1], named), (sorted(wanted), wanted[0], wanted[-1], Named({}, {})))

    def test_lost(self) -> None:
        found, named = self.edits("node,1,6,49.5", "node,2,6.002,49", "node,3,6.002,49.001", "line,2,2,3,3,3,1112")
        self.assertEqual((found, named), (["drop-line,1", "move,1,6,49.5"], Named({"a": (1,)}, {})))
        self.assertEqual(self.edits(*self.OLD), ([], Named({}, {})))

    def test_lines_of_another_road(self) -> None:
        # Two roads 5 m beside each other, with a path on the first; no line is removed.
        def roads(first: float, second: float, one: int = 1, two: int = 2) -> List[str]:
            lats = [f"{49 + it / 111_195:.7f}" for it in (first, first, second, second)]
            nodes = [f"node,{k},{lon},{lat}" for k, lon, lat in zip((2 * one - 1, 2 * one, 2 * two - 1, 2 * two), (6, 6.003) * 2, lats)]
            return [*nodes, *(f"line,{it},{2 * it - 1},{2 * it},3,3,2188" for it in (one, two))]

        old = (*roads(0, 5), "path,a,0,0,1")
        # Their numbers are swapped, each with its nodes: the path gets the line of its road.
        found, named = self.edits(*roads(0, 5, 2, 1), old=old)
        self.assertEqual((found[-1], named), ("repath,a,0,0,2", Named({}, {})))
        # Its line has become the one beside, and that has moved on: nobody can say which is which.
        found, named = self.edits(*roads(5, 10), old=old)
        self.assertNotIn("repath", "".join(found))
        self.assertEqual(named, Named({}, {}))
        # It is where the road beside was, which is gone; its own is too far off.
        _, named = self.edits(*roads(5, 200), old=old)
        self.assertEqual(list(named.doubts), ["a"])
        _, named = self.edits(*roads(60, 65), old=old)
        self.assertEqual(named.doubts, {"a": "its road is 60 m off"})

    def test_margin(self) -> None:
        self.assertEqual(self.edits("margin,50,1", *self.OLD), (["margin,50,1"], Named({}, {})))

    def test_refused(self) -> None:
        for new in (("node,1,6,49",), ("node,2,6.002,49", "node,3,6.002,49.001", "line,2,2,3,3,3,1112")):
            with self.assertRaises(MapRefused):
                self.edits(*new, dropped=0.05)


class Shapes(unittest.TestCase):
    """Lines, and maps that differ."""

    def test_lines(self) -> None:
        road = ROADS.lines[3]
        self.assertAlmostEqual(bearing(ROADS.lines[1], 0.0, False), 90)
        self.assertAlmostEqual(project(ROADS.lines[1], 6.0005, 49.0001)[0], 0.0001 * METRES, 3)
        self.assertGreater(shape_length(road.points), 111)
        self.assertEqual([it for it, _, _ in ROADS.lines_near(6.0, 49.0, 30.0)], [1, 2])
        self.assertEqual(list(ROADS.points.near((6.0, 49.0), 100.0)), [1, 2])

    def test_waves(self) -> None:
        """Points next to each other are off alike, so that distances stay as they are, nearly."""
        off = Waves(random.Random(1), Shake(1, 5.0, 0.0, 0.0, 0.0, 500.0))
        places = [(6 + k / 1000, 49 + k * k % 97 / 1000) for k in range(100)]
        moved = [distance(it, off(it)) for it in places]
        self.assertTrue(3.0 < max(moved) <= 5.0, max(moved))
        for a, b in zip(places, places[1:]):
            self.assertLess(abs(distance(off(a), off(b)) / distance(a, b) - 1), 0.015)

    def test_shaken(self) -> None:
        there, parts = shaken(ROADS, Shake(3, 5.0, 100.0, 0.0, 0.0))
        self.assertEqual([len(parts[it]) for it in (1, 2, 3)], [2, 2, 2])
        shape = cut_out(ROADS, Location([1, 3], 10.0, 50.0))
        other = cut_out(there, Location([*parts[1], *parts[3]], 10.0, 50.0))
        self.assertLess(farthest(shape[:2], other), 20.0)
        none, parts = shaken(ROADS, Shake(3, 5.0, 0.0, 100.0, 0.0))
        self.assertEqual((parts, len(none.lines)), ({1: [], 2: [], 3: []}, 0))


class Apart(unittest.TestCase):
    """How far two courses are apart, where they share most of their segments."""

    def test_farthest_apart(self) -> None:
        course = [(6 + k * 0.001, 49.0) for k in range(11)]
        for k, metres in ((0, 20.0), (5, 30.0), (10, 40.0)):
            bent = [(lon, lat + (metres / METRES if at == k else 0.0)) for at, (lon, lat) in enumerate(course)]
            self.assertAlmostEqual(farthest_apart(course, bent), metres, delta=0.5)
        self.assertEqual(farthest_apart(course, list(course)), 0.0)
        lap = [*course[:6], (6.005, 49.001), course[5], *course[6:]]
        self.assertAlmostEqual(farthest_apart(course, lap), 0.001 * METRES, delta=0.5)


if __name__ == "__main__":
    unittest.main()
