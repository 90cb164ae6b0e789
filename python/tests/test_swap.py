"""Tests of the modules of tools/swap."""
import io
import os
import tempfile
import unittest
from typing import Dict, List, Optional, Sequence

from olr_keep_tools import roads
from olr_keep_tools.command import Failure
from olr_keep_tools.courses import Found, Rival
from olr_keep_tools.mapedits import Limits, Named, edits
from olr_keep_tools.records import Path, State
from olr_keep_tools.swap.carry import Carried, Carrier, Gone, How, Result, transferred
from olr_keep_tools.swap.manual import Fate, Hand, records_of
from olr_keep_tools.swap.publish import reply, write_folder
from olr_keep_tools.swap.report import as_json, sentence, text, worst_first, write_strings
from olr_keep_tools.swap.verdicts import Judge, Kind, Map, Verdict, ambiguities, apart, intervals

LIMITS = Limits(10.0, 0.02, 1.0)
# Four nodes in a row, each 111 m from the next, a road over them and a side road at the last one.
NODES = ("node,1,6,49", "node,2,6,49.001", "node,3,6,49.002", "node,4,6,49.003", "node,5,6.001,49.003")
ROAD = ("line,1,1,2,3,3,1112", "line,2,2,3,3,3,1112", "line,3,3,4,3,3,1112", "line,4,4,5,6,3,730")
PATH = "path,a,100,200,1,2,3"


def state_of(*lines: str, answers: Sequence[str] = ()) -> State:
    """A map with paths, and what is published of them."""
    state = State()
    state.read_dump(lines)
    state.read_report(answers)
    return state


OLD = state_of(*NODES, *ROAD, PATH)


def carried(*lines: str, old: State = OLD) -> Result:
    """The path on a new map, whatever became of its road."""
    found = Carrier(old, state_of(*lines), LIMITS).carried(old.paths, lambda _: None)["a"]
    return found._replace(road=None, is_between=False) if isinstance(found, Carried) else found


class Carry(unittest.TestCase):
    """Paths on another map."""

    def test_by_number(self) -> None:
        self.assertEqual(carried(*NODES, *ROAD), Carried(OLD.paths["a"], How.NUMBERS))
        # Another class is the same road.
        self.assertEqual(carried(*NODES, "line,1,1,2,0,3,1112", *ROAD[1:]), Carried(OLD.paths["a"], How.NUMBERS))

    def test_numbers_of_other_roads(self) -> None:
        lines = ["line,3,1,2,3,3,1112", "line,1,2,3,3,3,1112", "line,2,3,4,3,3,1112"]
        self.assertEqual(carried(*NODES, *lines), Carried(Path(100, 200, (3, 1, 2)), How.COURSE))

    def test_split(self) -> None:
        nodes = [*NODES, "node,9,6,49.0004"]
        lines = ["line,8,1,9,3,3,445", "line,9,9,2,3,3,667", *ROAD[1:]]
        self.assertEqual(carried(*nodes, *lines), Carried(Path(100, 200, (8, 9, 2, 3)), How.COURSE))

    def test_merged(self) -> None:
        nodes = [it for it in NODES if not it.startswith(("node,2,", "node,3,"))]
        self.assertEqual(carried(*nodes, "line,7,1,4,3,3,3336", ROAD[3]), Carried(Path(100, 200, (7,)), How.COURSE))

    def test_merged_beyond_the_path(self) -> None:
        old = state_of(*NODES, *ROAD, "path,a,100,0,2")
        nodes = [it for it in NODES if not it.startswith(("node,2,", "node,3,"))]
        self.assertEqual(carried(*nodes, "line,7,1,4,3,3,3336", ROAD[3], old=old), Carried(Path(1212, 1112, (7,)), How.COURSE))

    def test_moved_road(self) -> None:
        # 15 m to the east: by its course no line is the same, and it is found again; no node is the same place.
        nodes = [it.replace(",6,", ",6.0002,") for it in NODES]
        found = carried(*nodes, *ROAD)
        self.assertIsInstance(found, Carried)
        if isinstance(found, Carried):
            self.assertEqual((found.how, found.path.lines), (How.FOUND, (1, 2, 3)))
            self.assertTrue(all(14 < it < 16 for it in found.off))

    def test_gone(self) -> None:
        found = carried(*NODES, ROAD[0], ROAD[2], ROAD[3])
        self.assertIsInstance(found, Gone)
        # What an offset cuts off may be gone.
        old = state_of(*NODES, *ROAD, "path,a,1200,0,1,2,3")
        self.assertEqual(carried(*NODES, *ROAD[1:], old=old), Carried(Path(88, 0, (2, 3)), How.NUMBERS))

    def test_near_nodes(self) -> None:
        # Two nodes 2 m apart are both moved by 3 m, and the others are not: each is itself.
        nodes = ("node,1,6,49", "node,2,6,49.001", "node,3,6,49.00102", "node,4,6,49.002")
        lines = ("line,1,1,2,3,3,1112", "line,2,2,3,3,3,22", "line,3,3,4,3,3,1090", "path,a,0,0,1,2,3")
        new = ("node,11,6,49", "node,12,6,49.001027", "node,13,6,49.001047", "node,14,6,49.002")
        there = ("line,21,11,12,3,3,1115", "line,22,12,13,3,3,22", "line,23,13,14,3,3,1087")
        self.assertEqual(carried(*new, *there, old=state_of(*nodes, *lines)), Carried(Path(0, 0, (21, 22, 23)), How.COURSE))
        matcher = Carrier(state_of(*nodes, *lines), state_of(*new, *there), LIMITS).matcher
        self.assertEqual([matcher.same_nodes(it) for it in (1, 2, 3, 4)], [[11], [12], [13], [14]])

    def test_near_nodes_by_their_lines(self) -> None:
        # Two nodes a metre from each other are each moved to where the other one was.
        nodes = ["node,2,6,49.001", "node,3,6,49.00101"]
        roads = ["line,1,1,2,3,3,1112", "line,2,2,3,3,3,11", "line,3,3,4,3,3,2213"]
        old = state_of(*NODES[:1], *nodes, NODES[3], *roads, PATH)
        new = ["node,22,6,49.00102", "node,23,6,49.001", "line,4,1,22,3,3,1113", "line,5,22,23,3,3,22", "line,6,23,4,3,3,2224"]
        carrier = Carrier(old, state_of(NODES[0], *new[:2], NODES[3], *new[2:]), LIMITS._replace(more=5.0))
        found = carrier.carried(old.paths, lambda _: None)["a"]
        self.assertEqual(found.path if isinstance(found, Carried) else found, Path(100, 201, (4, 5, 6)))

    def test_apart(self) -> None:
        old = state_of(*NODES, *ROAD, "path,a,0,0,1,3")
        self.assertEqual(carried(*NODES, *ROAD, old=old), Carried(Path(0, 0, (1, 3)), How.COURSE))
        old = state_of(*NODES, *ROAD, "path,a,0,0,9")
        self.assertEqual(carried(*NODES, *ROAD, old=old), Gone("its line 9 was not in the old map"))

    def test_road_beside(self) -> None:
        # The path's road is gone, and another one is 4 m beside it on both maps; then both are there, with other numbers.
        nodes = ("node,1,6,49", "node,2,6,49.003", "node,3,6.00005,49", "node,4,6.00005,49.003")
        old = state_of(*nodes, "line,1,1,2,3,3,3336", "line,3,3,4,3,3,3336", "path,a,0,0,1")
        found = Carrier(old, state_of(*nodes[2:], "line,3,3,4,3,3,3336"), LIMITS).carried(old.paths, lambda _: None)["a"]
        self.assertTrue(isinstance(found, Carried) and found.road and found.road.verdict is roads.Verdict.GONE)
        named, given = Named({}, {}), Limits(tolerance=5.0, length=0.02, dropped=1.0)
        self.assertNotIn("repath", ",".join(edits(old, state_of(*nodes[2:], "line,3,3,4,3,3,3336"), given, named)))
        self.assertEqual(named, Named({"a": (1,)}, {}))
        both = "line,7,1,2,3,3,3336", "line,9,3,4,3,3,3336"
        self.assertEqual(carried(*nodes, *both, old=old), Carried(Path(0, 0, (7,)), How.COURSE))

    def verdict_of(self, old: State, *new: str) -> Optional[roads.Verdict]:
        """What became of the road of a path on a new map."""
        found = Carrier(old, state_of(*new), LIMITS).carried(old.paths, lambda _: None)["a"]
        return found.road.verdict if isinstance(found, Carried) and found.road else None

    def test_road_beside_that_is_left(self) -> None:
        # Both maps have a road 3 to 10 m beside the path's own, which is gone on the new one.
        for metres in range(3, 11):
            lon = 6 + metres / 73_000
            beside = [f"node,3,{lon:.7f},49", f"node,4,{lon:.7f},49.003", "line,3,3,4,3,3,3336"]
            old = state_of("node,1,6,49", "node,2,6,49.003", "line,1,1,2,3,3,3336", *beside, "path,a,0,0,1")
            self.assertEqual(self.verdict_of(old, *beside), roads.Verdict.GONE)
            beside[-1] = "line,1,3,4,3,3,3336"
            self.assertIn(self.verdict_of(old, *beside), (roads.Verdict.GONE, roads.Verdict.TWO))

    def test_merged_carriageways(self) -> None:
        # Two one-way carriageways 8 m from each other, and one road between them, with other numbers.
        nodes = ["node,1,6,49", "node,2,6,49.003", "node,3,6.00011,49.003", "node,4,6.00011,49"]
        new = ["node,11,6.000055,49", "node,12,6.000055,49.003", "line,11,11,12,3,3,3336", "line,12,12,11,3,3,3336"]
        for number, road in ((1, 11), (2, 12)):
            old = state_of(*nodes, "line,1,1,2,3,2,3336", "line,2,3,4,3,2,3336", f"path,a,0,0,{number}")
            found = carried(*new, old=old)
            self.assertEqual(found.path if isinstance(found, Carried) else found, Path(0, 0, (road,)))
            self.assertEqual(self.verdict_of(old, *new), roads.Verdict.THERE)

    def test_positions(self) -> None:
        anchors = [(0.0, 0.0), (100.0, 200.0), (200.0, 250.0)]
        self.assertEqual([transferred(anchors, it) for it in (0, 50, 100, 150, 200, 230)], [0, 100, 200, 225, 250, 280])


class Verdicts(unittest.TestCase):
    """What becomes of paths."""

    TEXTS = ("CwRbWyNG9RqsDgCG/d4rWS0=", "CwAAAAAAABtoCAGQAAAcNFw=")

    def verdict(self, answer: str, nodes: Sequence[str] = NODES,
                found: Result = Carried(OLD.paths["a"], How.NUMBERS)) -> Verdict:
        """What becomes of the path, with this answer on the new map."""
        old = state_of(*NODES, *ROAD, PATH, answers=[f"a,text,{self.TEXTS[0]}"])
        new = state_of(*nodes, *ROAD, PATH, answers=[answer] if answer else [])
        return Judge(Map(old, {}), Map(new, {"a": ("0,node,7",)}), 10.0).verdict("a", found)

    def test_kinds(self) -> None:
        other = f"a,text,{self.TEXTS[1]}"
        self.assertEqual(self.verdict(f"a,text,{self.TEXTS[0]}").kind, Kind.SAME_STRING)
        self.assertEqual(self.verdict(other).kind, Kind.SAME_ROAD)
        self.assertEqual(self.verdict(other).ambiguous, ("0,node,7",))
        far = self.verdict(other, [it.replace(",6,", ",6.0002,") for it in NODES])
        self.assertEqual(far.kind, Kind.OTHER_ROAD)
        self.assertTrue(14 < far.far < 16 and 290 < far.length < 310)
        off = self.verdict(other, found=Carried(OLD.paths["a"], How.FOUND, (0.0, 9.0)))
        self.assertEqual(off.kind, Kind.OTHER_ROAD)
        self.assertEqual(self.verdict("a,refused,3").kind, Kind.LOST)
        self.assertEqual(self.verdict("", found=Gone("no lines follow it")).answers[1], "dropped")

    def test_by_road(self) -> None:
        # 15 m to the east: how far that is by metres, and what it is by what became of the road.
        nodes, other = [it.replace(",6,", ",6.0002,") for it in NODES], f"a,text,{self.TEXTS[1]}"

        def kind(road: roads.Verdict, how: How = How.COURSE, off: float = 0.0) -> Kind:
            answer = roads.Answer(road, Found([1, 2, 3], 100, 200), 15.0, Rival("line 1", "line 9", (6.0, 49.0)))
            return self.verdict(other, nodes, Carried(OLD.paths["a"], how, (0.0, off), answer, True)).kind

        there, again = roads.Verdict.THERE, roads.Verdict.AGAIN
        self.assertEqual([kind(it) for it in roads.Verdict], [Kind.FARTHER, Kind.FARTHER, Kind.FARTHER, Kind.TWO_ROADS, Kind.OTHER_ROAD])
        self.assertEqual([kind(there, How.GIVEN), kind(again, How.GIVEN)], [Kind.SAME_ROAD, Kind.FARTHER])
        self.assertEqual([kind(there, How.GIVEN, 9.0), kind(there, How.GIVEN, 11.0)], [Kind.SAME_ROAD, Kind.FARTHER])

    def test_given(self) -> None:
        found = carried(*NODES, *ROAD, "path,a,100,0,1,2,3")
        self.assertTrue(isinstance(found, Carried) and found.how == How.GIVEN and found.off[0] == 0 and 19.5 < found.off[1] < 20.5)
        # The way back over a map on which all is 3 m aside.
        aside = state_of(*(it.replace(",6,", ",6.00004,") for it in NODES), *ROAD, PATH)
        found = carried(*NODES, *ROAD, PATH, old=aside)
        self.assertEqual(found, Carried(OLD.paths["a"], How.GIVEN))

    def test_apart(self) -> None:
        far, length = apart([(6, 49), (6, 49.001)], [(6, 49), (6, 49.0005)], 10.0)
        self.assertTrue(55 < far < 56 and 40 < length < 50)
        self.assertEqual(apart([(6, 49), (6, 49.001)], [(6, 49), (6, 49.001)], 10.0), (0.0, 0.0))

    def test_intervals(self) -> None:
        # A negative offset of a leg of one step of DNP, and none.
        first, last = intervals(["text", self.TEXTS[1]])
        self.assertEqual(first, 0.0)
        self.assertAlmostEqual(last, 8.5 * 58.6 / 256)
        self.assertEqual(intervals(["refused", "3"]), (0.0, 0.0))

    def test_ambiguities(self) -> None:
        self.assertEqual(ambiguities(["a,0,node,7", "b,1,sector,2", "a,1,bearing,3"]),
                         {"a": ("0,node,7", "1,bearing,3"), "b": ("1,sector,2",)})


class Reports(unittest.TestCase):
    """The report, and the files."""

    VERDICTS = worst_first([
        Verdict("same", Kind.SAME_STRING, ("text,A", "text,A")),
        Verdict("road", Kind.SAME_ROAD, ("text,A", "text,B"), far=3.0),
        Verdict("far", Kind.FARTHER, ("text,A", "text,B"), far=16.0, length=40.0, allowed=10.0, why="same junctions"),
        Verdict("other", Kind.OTHER_ROAD, ("text,A", "text,B"), far=12.25, ends=(0.0, 9.0), why="its road is gone"),
        Verdict("two", Kind.TWO_ROADS, ("text,A", "text,A"), far=3.0, why="two roads may be it: it is on line 1, and line 2 is near it too"),
        Verdict("lost", Kind.LOST, ("text,A", "dropped"), why="no lines follow it", place=(6.0, 49.0)),
    ])

    def test_text(self) -> None:
        lines = list(text(self.VERDICTS, []))
        counts = "lost 1, other road 1, two roads 1, farther off 1, without a string before 0, same road 1, same string 1"
        self.assertEqual(lines[0], f"paths 6: {counts}; newly ambiguous 0")
        self.assertEqual(lines[1:], [
            "lost: lost: no lines follow it; at 6.0000000,49.0000000",
            "other road: other: its road is gone; 12.2 m off; its end 9.0 m off along the road",
            "two roads: two: two roads may be it: it is on line 1, and line 2 is near it too; 3.0 m off",
            "farther off: far: same junctions; 16.0 m off, by more than 10 m over 40 m",
            "same road: road: 3.0 m off"])
        self.assertEqual(sentence(self.VERDICTS[4]), "3.0 m off")
        without = [it for it in self.VERDICTS if it.kind not in (Kind.TWO_ROADS, Kind.FARTHER)]
        self.assertEqual(next(text(without, [])), "paths 4: lost 1, other road 1, without a string before 0, same road 1, same string 1;"
                         " newly ambiguous 0")
        self.assertIn('"path": "lost"', as_json(self.VERDICTS, []))

    def test_strings(self) -> None:
        file = io.StringIO()
        write_strings(file, self.VERDICTS)
        self.assertEqual(file.getvalue(), "name,old,new,road\nfar,A,B,same\nlost,A,,\nother,A,B,other\nroad,A,B,same\nsame,A,A,same\n"
                         "two,A,A,two\n")

    def test_reply(self) -> None:
        old = state_of(answers=["a,text,A", "b,text,B", "c,text,C"])
        new = state_of(answers=["a,text,A", "b,refused,3", "d,text,D"])
        self.assertEqual(list(reply(old, new)), ["ok,3", "b,refused,3", "d,text,D", "c,dropped"])

    def test_folder(self) -> None:
        with tempfile.TemporaryDirectory() as top:
            folder = os.path.join(top, "next")
            write_folder(folder, OLD, OLD, {"report.txt": ["a report"]})
            self.assertEqual(sorted(os.listdir(folder)), ["back-reply.txt", "back.csv", "log.csv", "reply.txt", "report.txt"])
            with open(os.path.join(folder, "log.csv"), encoding="utf-8") as file:
                self.assertEqual(file.read().splitlines(), [*NODES, *ROAD, PATH])
            self.assertRaises(Failure, write_folder, folder, OLD, OLD, {})
            self.assertEqual(os.listdir(top), ["next"])


class Manual(unittest.TestCase):
    """Manual edits on the next map."""

    BASE = state_of(*NODES, *ROAD)

    def fates(self, old: Sequence[str], new: Sequence[str], base: State = BASE) -> Dict[str, Fate]:
        """What becomes of each edit; `records` has those of the edits that survive."""
        self.found = Hand(base, state_of(*old), state_of(*new), LIMITS).edits()
        self.records: List[str] = records_of(self.found)
        return {it.what: it.fate for it in self.found}

    def shown(self, what: str) -> str:
        """What is shown of the new map beside an edit."""
        return next(it.on_new for it in self.found if it.what == what)

    @staticmethod
    def beside(first: int, metres: float, *lines: str) -> List[str]:
        """Two nodes so many metres beside line 1, from this number on, and lines over them."""
        lon = 6 + metres / 73_000
        return [f"node,{first},{lon:.7f},49", f"node,{first + 1},{lon:.7f},49.001", *lines]

    def test_lane_beside(self) -> None:
        # A lane beside line 1 was added: the road itself isn't it, whatever its number, also if it is nearer to the lane now.
        numbered = [*NODES, "line,11,1,2,3,3,1112", *ROAD[1:]]
        for metres in (3, 5, 7):
            old = [*NODES, *ROAD, *(lane := self.beside(8, metres, "line,8,8,9,3,3,1112"))]
            self.assertEqual(self.fates(old, numbered), {"line 8": Fate.SURVIVES})
            self.assertEqual(self.fates(old, [*NODES, *ROAD]), {"line 8": Fate.SURVIVES})
            self.assertEqual(self.fates(old, [*numbered, *lane]), {"line 8": Fate.ALREADY})
            moved = [*NODES[2:], *self.beside(1, metres - 1, "line,11,1,2,3,3,1112"), *ROAD[1:]]
            self.assertIn(self.fates(old, moved)["line 8"], (Fate.SURVIVES, Fate.CONFLICT))
        self.assertEqual((self.fates(old, moved)["line 8"], self.shown("line 8")), (Fate.CONFLICT, "line,11,1,2,3,3,1112"))

    def test_road_beside_that_is_gone(self) -> None:
        # Line 1 is closed, or has another class, by hand; on the new map only the road 5 m beside it is left.
        beside = self.beside(8, 5, "line,8,8,9,3,3,1112")
        base, new = state_of(*NODES, *ROAD, *beside), [*NODES, *ROAD[1:], *beside]
        closed, changed = [*NODES, *ROAD[1:], *beside], [*NODES, "line,1,1,2,1,3,1112", *ROAD[1:], *beside]
        self.assertEqual(self.fates(closed, new, base), {"line 1": Fate.ALREADY})
        self.assertEqual(self.records, [])
        self.assertEqual(self.fates(changed, new, base), {"line 1": Fate.CONFLICT})
        self.assertEqual((self.shown("line 1"), self.records), ("nothing", []))
        # It has the number of line 1 now, and may be either road.
        new[-1] = "line,1,8,9,3,3,1112"
        for old in (closed, changed):
            self.assertEqual(self.fates(old, new, base), {"line 1": Fate.CONFLICT})
            self.assertEqual((self.shown("line 1"), self.records), (new[-1], []))

    def test_redrawn(self) -> None:
        # The vendor drew line 1 again, 15 m aside in the middle, with another number: what was closed by hand isn't open in silence.
        bend = "line,11,1,2,3,3,1153,576,6.0002,49.0005"
        self.assertEqual(self.fates([*NODES, *ROAD[1:]], [*NODES, bend, *ROAD[1:]]), {"line 1": Fate.CONFLICT})
        self.assertEqual(self.shown("line 1"), bend)
        # By hand it was drawn 6 m aside, and the vendor's is as it was.
        drawn = "line,8,1,2,3,3,1118,559,6.00008,49.0005"
        found = self.fates([*NODES, drawn, *ROAD[1:]], [*NODES, *ROAD])
        self.assertEqual(found, {"line 1": Fate.SURVIVES, "line 8": Fate.SURVIVES})
        self.assertEqual(self.records, ["drop-line,1", drawn])
        self.assertEqual(set(self.fates([*NODES, drawn, *ROAD[1:]], [*NODES, drawn, *ROAD[1:]]).values()), {Fate.ALREADY})

    def test_line_of_a_conflict(self) -> None:
        # The number of line 1 is that of a road elsewhere now: this isn't shown.
        old, far = [*NODES, "line,1,1,2,1,3,1112", *ROAD[1:]], "line,1,5,4,6,3,730"
        self.assertEqual(self.fates(old, [*NODES, *ROAD[1:], far]), {"line 1": Fate.CONFLICT})
        self.assertEqual(self.shown("line 1"), "nothing")
        self.assertEqual(self.fates(old, [*NODES, *ROAD[1:], far, "line,11,1,2,0,3,1112"]), {"line 1": Fate.CONFLICT})
        self.assertEqual(self.shown("line 1"), "line,11,1,2,0,3,1112")

    def test_class(self) -> None:
        old = [*NODES, "line,1,1,2,1,3,1112", *ROAD[1:]]
        numbered = [*NODES, "line,11,1,2,3,3,1112", *ROAD[1:]]
        self.assertEqual(self.fates(old, numbered), {"line 1": Fate.SURVIVES})
        self.assertEqual(self.records, ["set-line,11,1,3,1112"])
        self.assertEqual(self.fates(old, old), {"line 1": Fate.ALREADY})
        self.assertEqual(self.fates(old, [*NODES, "line,11,1,2,0,3,1112", *ROAD[1:]]), {"line 1": Fate.CONFLICT})
        self.assertEqual(self.records, [])

    def test_length(self) -> None:
        old = [*NODES, "line,1,1,2,3,3,1120", *ROAD[1:]]
        self.assertEqual(self.fates(old, [*NODES, *ROAD]), {"line 1": Fate.SURVIVES})
        self.assertEqual(self.fates(old, [*NODES, "line,1,1,2,3,3,1115", *ROAD[1:]]), {"line 1": Fate.CONFLICT})

    def test_removed(self) -> None:
        old = [*NODES[:4], *ROAD[:3]]
        self.assertEqual(self.fates(old, [*NODES, *ROAD]), {"line 4": Fate.SURVIVES, "node 5": Fate.SURVIVES})
        self.assertEqual(self.records, ["drop-line,4", "drop-node,5"])
        self.assertEqual(self.fates(old, old), {"line 4": Fate.ALREADY, "node 5": Fate.ALREADY})
        # Its number is another road now.
        self.assertEqual(self.fates(old, [*NODES[:4], *ROAD[:2], "line,4,3,4,3,3,1112"])["line 4"], Fate.ALREADY)
        longer = self.fates(old, [*NODES, *ROAD[:3], "line,4,4,5,6,3,900"])
        self.assertEqual(longer, {"line 4": Fate.CONFLICT, "node 5": Fate.CONFLICT})
        other = self.fates(old, [*NODES, *ROAD[:3], "line,4,4,5,2,3,730"])
        self.assertEqual(other, {"line 4": Fate.CONFLICT, "node 5": Fate.CONFLICT})

    def test_split(self) -> None:
        cut = ["node,9,6,49.0004", "line,8,1,9,3,3,445", "line,9,9,2,3,3,667"]
        old = [*NODES, cut[0], *ROAD[1:], *cut[1:]]
        self.assertEqual(set(self.fates(old, [*NODES, *ROAD]).values()), {Fate.SURVIVES})
        self.assertEqual(self.records, ["drop-line,1", *cut])
        self.assertEqual(set(self.fates(old, old).values()), {Fate.ALREADY})
        # The vendor gave it another class: all three edits are in conflict.
        self.assertEqual(set(self.fates(old, [*NODES, "line,1,1,2,0,3,1112", *ROAD[1:]]).values()), {Fate.CONFLICT})

    def test_moved(self) -> None:
        old = [*NODES[:4], "node,5,6.001,49.0031", *ROAD]
        self.assertEqual(self.fates(old, [*NODES, *ROAD]), {"node 5": Fate.SURVIVES})
        self.assertEqual(self.records, ["move,5,6.001,49.0031"])
        self.assertEqual(self.fates(old, old), {"node 5": Fate.ALREADY})
        self.assertEqual(self.fates(old, [*NODES[:4], "node,5,6.00101,49.003", *ROAD]), {"node 5": Fate.CONFLICT})
