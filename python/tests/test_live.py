"""Tests of the steps of tools/live: cutting, reading, finding paths, holding, numbers, and what is sent to the program."""
import argparse
import functools
import json
import math
import os
import random
import signal
import struct
import tempfile
import time
import unittest
import unittest.mock
from collections import Counter
from typing import Any, Dict, Iterator, List, Mapping, Optional, Sequence, Set, Tuple

from olr_keep_tools.courses import (DRAWN, Ends, Follower, Found, Ground, Lost, Network, Plane, Polyline, Strip, Wish, cells_near,
                                    follow)
from olr_keep_tools.geo import METRES
from olr_keep_tools.grid import CELL, boxes_of, consecutive
from olr_keep_tools.forked import Forked, in_order
from olr_keep_tools.live.ambiguous import Obstacle, named_places, obstacles, write_ambiguities
from olr_keep_tools.live.attempt import Attempt
from olr_keep_tools.live.draft import Was, verdict
from olr_keep_tools.live.first import FirstLoad, line_rows, node_rows
from olr_keep_tools.live.cells import cell_of, merged
from olr_keep_tools.live.finder import Finder, Row, Ways
from olr_keep_tools.live.map import LAST, Affected, Numbers
from olr_keep_tools.live.paths import PartSearch, Paths, PathsUpdate, parts_of
from olr_keep_tools.live.pathsearch import Known, PathSearch, PathState, Wanted
from olr_keep_tools.live.program import LiveProgram, Sent
from olr_keep_tools.live.read import (Block, Change, Fate, LastRead, Reader, StreetRow, away, changed, fate_of, is_nameless, is_plain,
                                      near_to)
from olr_keep_tools.live.returned import cut_otherwise, has_stayed, returned
from olr_keep_tools.live.rounds import DROPPED, Answer, Clusters, Counts, Effect, Kind, Limits, Round, Waiting
from olr_keep_tools.live.service import Live, Night, words_of
from olr_keep_tools.live.session import Readable, Source, SourceTable, row_query
from olr_keep_tools.live.streetsearch import marked_street
from olr_keep_tools.program import ProgramFailed
from olr_keep_tools.roads import Hit, LastMap, Sections, nearby, restored, stored
from olr_keep_tools.sql import copy_line, places_hex, psycopg2, text_array
from olr_keep_tools.streets import (LONGEST, SHORT, Old, Recut, Street, Unfit, are_between, distances, first_place, is_short,
                                    place_of, street_of, stretches_of, subdivided, wkb_hex)
from olr_keep_tools.streets import lines_of as made_lines


def place(east: int, north: int = 0) -> int:
    """A place so many metres, about, from 6.1, 49.6."""
    return place_of(61_000_000 + 138 * east, 496_000_000 + 90 * north)


def degrees(east: float, north: float = 0) -> Tuple[float, float]:
    """The same, in degrees."""
    return 6.1 + 138e-7 * east, 49.6 + 90e-7 * north


class FakeNumbers:
    """Numbers from 100 on."""

    def __init__(self) -> None:
        self.last = 99

    def take(self, _: str, count: int) -> List[int]:
        """So many new numbers."""
        self.last += count
        return list(range(self.last - count + 1, self.last + 1))


class FakeCursor:
    """A cursor whose queries have the rows that are given for a part of their text."""

    def __init__(self, rows: Optional[Mapping[str, Sequence[Any]]] = None):
        self.rows = rows or {}
        self.found: List[Tuple[Any, ...]] = []
        self.queries: List[str] = []
        self.copied: List[Tuple[str, int, str]] = []

    def execute(self, query: str, _: Any = None) -> None:
        """Remembers a query, and finds its rows."""
        self.queries.append(query)
        self.found = next((list(rows) for key, rows in self.rows.items() if key in query), [])

    def copy_expert(self, query: str, file: Any, size: int) -> None:
        """Remembers what is copied."""
        self.copied.append((query, size, file.read()))

    def fetchall(self) -> List[Tuple[Any, ...]]:
        """All rows."""
        return self.found

    def fetchone(self) -> Tuple[Any, ...]:
        """The first row."""
        return self.found[0] if self.found else (0,)

    def __iter__(self) -> Iterator[Tuple[Any, ...]]:
        return iter(self.found)


# ---- cutting


def recut(before: Mapping[str, Tuple[int, ...]], after: Mapping[str, Tuple[int, ...]], lines: List[Old], nodes: Dict[int, int],
          others: Sequence[int] = ()) -> Recut:
    """A cut of streets that are two-way and have one part."""
    old: Dict[str, Any] = {key: (it,) if it else () for key, it in before.items()}
    return Recut(old, {key: Street(3, 3, "along", (it,)) for key, it in after.items()}, lines, nodes, set(others), FakeNumbers())


class Cutting(unittest.TestCase):
    """The steps of a cut."""

    def test_new_street(self) -> None:
        cut = recut({"a": ()}, {"a": (place(0), place(50), place(100))}, [], {}, [place(50)]).run()
        self.assertEqual(cut.new_nodes, dict(zip((100, 101, 102), sorted((place(0), place(50), place(100))))))
        self.assertEqual([(it.start, it.end) for it in cut.added.values()], [(100, 101), (101, 102)])
        self.assertEqual(cut.ends, {100, 102})

    def test_moved_end_keeps_its_node(self) -> None:
        old = [Old(7, "a", 1, 2, True, 0, 0, 1, "3,3,1000")]
        step = recut({"a": (place(0), place(100))}, {"a": (place(0), place(100, 9))}, old, {1: place(0), 2: place(100)})
        self.assertEqual(step.votes(), {1: {place(0)}, 2: {place(100, 9)}})
        cut = step.run()
        self.assertEqual((cut.moved, list(cut.changed), cut.dropped), ({2: place(100, 9)}, [7], []))

    def test_streets_that_disagree_part(self) -> None:
        old = [Old(7, "a", 1, 2, True, 0, 0, 1, "3,3,1000"), Old(8, "b", 2, 3, True, 0, 0, 1, "3,3,1000")]
        before = {"a": (place(0), place(100)), "b": (place(100), place(200))}
        after = {"a": (place(0), place(100, 9)), "b": before["b"]}
        step = recut(before, after, old, {1: place(0), 2: place(100), 3: place(200)})
        self.assertEqual(step.votes()[2], {place(100, 9), place(100)})
        cut = step.run()
        self.assertEqual((cut.moved, list(cut.new_nodes.values())), ({}, [place(100, 9)]))

    def test_new_id_keeps_the_line(self) -> None:
        old = [Old(7, "a", 1, 2, True, 0, 0, 1, "3,3,1000")]
        ends = place(0), place(100)
        cut = recut({"a": ends, "b": ()}, {"b": ends}, old, dict(zip((1, 2), ends))).run()
        self.assertEqual((list(cut.changed), cut.dropped, cut.added), ([7], [], {}))

    def test_what_is_short_is_not_too_long(self) -> None:
        for lon, lat in ((0, 0), (0, 500_000_000), (1_700_000_000, 899_000_000)):
            for east, north in ((SHORT, 0), (0, SHORT), (SHORT // 2, SHORT // 2), (SHORT // 3, -(SHORT // 3))):
                ends = place_of(lon, lat - SHORT), place_of(lon + east, lat - SHORT + north)
                self.assertTrue(is_short(ends))
                self.assertLess(distances(ends)[1], LONGEST)
                self.assertEqual(list(subdivided(ends)), list(ends))
        self.assertFalse(is_short((place_of(0, 0), place_of(SHORT, 1))))

    def test_first_place(self) -> None:
        point, two = struct.pack("<BIdd", 1, 1, 6.1, 49.6), struct.pack("<dddd", 6.1, 49.6, 6.2, 49.7)
        line = struct.pack("<BII", 1, 2, 2) + two
        shapes = {"POINT": point, "LINE": line, "POLYGON": struct.pack("<BIII", 1, 3, 1, 2) + two,
                  "MULTILINE": struct.pack("<BII", 1, 5, 1) + line,
                  "NESTED": struct.pack("<BII", 1, 7, 2) + struct.pack("<BII", 1, 4, 1) + point + line}
        for name, shape in shapes.items():
            self.assertEqual((name, first_place(shape)), (name, (6.1, 49.6)))
            self.assertIsNone(first_place(shape[:20]))
        nowhere = (b"", struct.pack("<BII", 1, 2, 0), struct.pack("<BII", 1, 7, 0), struct.pack("<BIdd", 1, 1, 6.1, float("nan")),
                   struct.pack("<BIdd", 1, 1, 600, 49.6))
        for shape in nowhere:
            self.assertIsNone(first_place(shape))
        self.assertEqual(street_of("9" * 90, "3", "both", "ST_LineString", 4326, line),
                         Unfit(f"class is {'9' * 40}, and has to be 0 to 7", (6.1, 49.6)))

    def test_between(self) -> None:
        given = [(), (1.0,), (0.0, 2.0), (0.0, 2.1), (float("nan"), 1.0), (1.0, float("nan")), (float("inf"), -float("inf"))]
        self.assertEqual([are_between(it, 0, 2) for it in given], [True, True, True, False, False, False, False])

    def test_unfit(self) -> None:
        self.assertEqual(street_of("9", "3", "both", "ST_LineString", 4326, b""), Unfit("class is 9, and has to be 0 to 7"))
        self.assertEqual(street_of("3", None, None, "ST_LineString", 4326, b""), Unfit("form and direction are NULL"))


class FirstLoads(unittest.TestCase):
    """The cut of a first load is that of a change of all streets."""

    STREETS = {
        "a": Street(3, 3, "both", ((place(0), place(50), place(100)),)), "b": Street(5, 3, "against", ((place(50), place(50, 80)),)),
        "loop": Street(5, 3, "both", ((place(100), place(150), place(150, 50), place(100)),)),
        "long": Street(1, 1, "along", (tuple(place(200 + 9000 * k, 500) for k in range(5)),)),
        "two": Street(4, 3, "both", ((place(0, 300), place(50, 300)), (place(50, 80), place(0, 300)))),
    }

    def lines(self, made: Any, places: Mapping[int, int]) -> List[Any]:
        """Lines with the places of their ends in place of numbers."""
        return sorted((*it[:4], places[it.start], places[it.end], *it[6:]) for it in made)

    def test_same_as_a_change(self) -> None:
        cut = Recut({key: () for key in self.STREETS}, dict(self.STREETS), [], {}, set(), FakeNumbers()).run()
        numbers: Any = FakeNumbers()
        load = FirstLoad(FakeCursor(), numbers, Affected())
        counts = Counter(it for street in self.STREETS.values() for part in street.parts for it in part)
        meeting = {it for it, count in counts.items() if count > 1}
        found = {key: stretches_of(it, meeting) for key, it in self.STREETS.items()}
        for key, street in self.STREETS.items():
            load.number_nodes({key: street}, found)
        made = [it for key, street in self.STREETS.items() for it in made_lines(key, street, found[key], load.node_at)]
        places = {node: it for it, node in load.node_at.items()}
        self.assertEqual(self.lines(made, places), self.lines(cut.added.values(), cut.new_nodes))
        self.assertEqual({it for it, count in load.ending.items() if count == 1}, {cut.new_nodes[it] for it in cut.ends})

    def test_rows(self) -> None:
        streets, stretches = {"a\tb": self.STREETS["a"]}, {"a\tb": [[(0, 2)]]}
        node_at = {place(0): 1, place(100): 2}
        made = list(made_lines("a\tb", self.STREETS["a"], stretches["a\tb"], node_at))
        wanted = "".join(copy_line((number, *it[:9], wkb_hex(it.places))) for number, it in zip((7, 8), made))
        self.assertEqual(line_rows(streets, stretches, node_at, [7, 8]), wanted)
        nodes = node_rows([(place(0), 1), (place(100), 2)], Counter([place(0)])).splitlines()
        self.assertEqual([it.split("\t")[::3] for it in nodes], [["1", "True"], ["2", "False"]])


# ---- reading


SOURCE = Source(1, 'public."100%"', "'%' || id", "text", "class", "form", "direction", "geom", "", "public", None)


class Reading(unittest.TestCase):
    """What has become of streets."""

    def row(self, digest: int = 5, shape: int = 6) -> StreetRow:
        """A row of source 1."""
        return StreetRow(1, digest, shape, Street(3, 3, "both", ((place(0), place(1)),)))

    def test_fates(self) -> None:
        mine, theirs = LastRead(1, 5, 6, True), LastRead(2, 5, 6, True)
        self.assertIs(fate_of(1, mine, [self.row()]), Fate.SAME)
        self.assertIs(fate_of(1, mine, [self.row(7)]), Fate.CHANGED)
        self.assertIs(fate_of(1, mine, []), Fate.GONE)
        self.assertIs(fate_of(1, theirs, []), Fate.SAME)
        self.assertIs(fate_of(1, theirs, [self.row()]), Fate.TAKEN)
        self.assertIs(fate_of(1, None, [self.row()]), Fate.CHANGED)
        self.assertIs(fate_of(1, mine, [self.row(), self.row()]), Fate.CHANGED)

    def test_small_ones_go_first(self) -> None:
        """Of transactions with few streets those that are nowhere near one with very many."""
        notes = [("great", 5000, False), ("far", 3, False), ("near", 3, False), ("medium", 500, False)]
        places = [("great", 5, 5), ("far", 7, 5), ("near", 6, 6), ("near", 9, 9)]
        rows: Dict[str, Sequence[Any]] = {"group by tx": notes, "distinct key, tx": [(it, it) for it, *_ in notes], "olr_keep.vertex": places}
        reader = Reader(FakeCursor(rows), [SourceTable(SOURCE, Readable.READY)], set())
        self.assertEqual(reader.small_ones(), {"far"})
        reader.is_last_split = True
        self.assertEqual(reader.small_ones(), {"great", "near", "medium"})
        for other in ([("great", 5000, True), *notes[1:]], notes[:1], notes[1:]):
            reader = Reader(FakeCursor({**rows, "group by tx": other}), [SourceTable(SOURCE, Readable.READY)], set())
            self.assertEqual(reader.small_ones(), set())

    def test_what_small_ones_are_away_from(self) -> None:
        """The cells near all transactions are known if one is great."""
        rows: Dict[str, Sequence[Any]] = {"group by tx": [("great", 5000, False), ("far", 3, False)], "distinct key, tx": [("1", "great"), ("2", "far")],
                                          "olr_keep.vertex": [("1", 5, 5)], "ST_DumpPoints": [("2", 9, 5)]}
        reader = Reader(FakeCursor(rows), [SourceTable(SOURCE, Readable.READY)], set())
        reader.small_ones()
        self.assertEqual((reader.transactions, len(reader.near or ()), reader.is_split), ({"great"}, 9, True))
        self.assertEqual(away({"a", "b", "c"}, {"a": {(5, 5)}, "b": {(5, 7)}}, near_to({"x"}, {"x": {(5, 5)}})), {"b"})

    def test_merged(self) -> None:
        boxes = merged([(6.1001, 49.6001, 6.1002, 49.6002), (6.1, 49.6, 6.1049, 49.6001), (6.1049, 49.6, 6.1051, 49.6001)])
        self.assertEqual([tuple(round(side, 4) for side in it) for it in boxes],
                         [(6.1, 49.6, 6.11, 49.605)])

    def test_two_rows_are_unfit(self) -> None:
        self.assertEqual(changed(1, [self.row(), self.row()]).street, Unfit("another street has the same id", degrees(0)))

    def test_plain(self) -> None:
        self.assertTrue(is_plain(LastRead(1, 4, 6, True), self.row()))
        self.assertFalse(is_plain(LastRead(1, 4, 7, True), self.row()))
        self.assertFalse(is_plain(LastRead(1, 4, 6, False), self.row()))
        self.assertFalse(is_plain(None, self.row()))

    def test_percent_signs_are_doubled(self) -> None:
        query = row_query(SOURCE) % {"prefix": "''"}
        self.assertIn("('%' || id) as id", query)
        self.assertIn('from public."100%"', query)
        self.assertIn("(concat('%', ref))::text", row_query(SOURCE._replace(name="concat('%', ref)")) % {"prefix": "''"})


class Failing(FakeCursor):
    """A cursor for which rows with the id 3 can't be read, nor the indexes dropped."""

    connection: Any = argparse.Namespace(closed=False)

    def execute(self, query: str, values: Any = None) -> None:
        """Fails if the row with id 3 is asked for, or the indexes are."""
        super().execute(query, values)
        ids = values["ids"] if isinstance(values, dict) and "ids" in values else ""
        if '"3"' in ids or "set_indexes" in query:
            raise psycopg2.DataError("invalid input")
        if len(ids) > 2 and not self.found:
            shape = bytes.fromhex(wkb_hex((place(0), place(9)))[:2] + "02000000" + wkb_hex((place(0), place(9)))[18:])
            self.found = [(it.strip('"'), 1, 2, "Ring", "3", "3", "both", "ST_LineString", 4326, shape)
                          for it in ids[1:-1].split(",") if it]


@unittest.skipIf(psycopg2 is None, "psycopg2 is not installed")
class ReadingRows(unittest.TestCase):
    """The steps of reading: notes, and rows of which one can't be read."""

    def test_notes(self) -> None:
        cursor = Failing({"source in (0, -1)": [(0, "me", "9", ["p"]), (0, "you", "8", [None])], "olr_keep.margin": [("0,0", "0,0")]})
        change = Reader(cursor, [], set()).read()
        self.assertEqual((change.paths, change.users, change.every_path, change.path_group), ({"p"}, {"me", "you"}, True, {"p": "9"}))

    def test_ids_that_no_index_takes_are_none(self) -> None:
        cursor = Failing({"source = %s": [(1, "me", "9", ["a", "", "b" * 1001, "é" * 501])], "count(*)": [(3,)]})
        reader = Reader(cursor, [SourceTable(SOURCE, Readable.READY)], set())
        reader.read_source(SOURCE)
        self.assertEqual(reader.change.keys, {1: {"a"}})
        self.assertEqual(sum("'no id'" in it for it in cursor.queries), 2)
        self.assertEqual([is_nameless(it) for it in ("a", "", "b" * 1000, "b" * 1001)], [False, True, False, True])

    def test_a_preview_leaves_the_notes(self) -> None:
        cursor = Failing()
        Reader(cursor, [], set(), True).notes("true")
        self.assertNotIn("delete", cursor.queries[0])

    def test_a_place_of_rows(self) -> None:
        shape = bytes.fromhex("0102000000" + wkb_hex((place(0), place(9)))[18:])
        reader = Reader(Failing({"limit": [(None,), (memoryview(shape),)]}), [], set())
        self.assertEqual(reader.somewhere(SOURCE, "where true"), degrees(0))
        self.assertIn("100%%", reader.cursor.queries[1])
        self.assertIsNone(reader.somewhere(SOURCE, "where true", ["3"]))

    def test_streets_near_each_other_are_together(self) -> None:
        cursor = Failing({"order by olr_keep.degrees": [("b",), ("a",), ("b",)], "olr_keep.vertex": [("c",)]})
        reader = Reader(cursor, [SourceTable(SOURCE, Readable.READY)], set())
        self.assertEqual(reader.near_each_other(1, {"a", "b", "c", "d"}), ["b", "a", "c", "d"])
        self.assertEqual(reader.near_each_other(-1, {"c", "d"}), ["c", "d"])
        self.assertEqual(reader.near_each_other(1, {"3", "2", "c"}), ["c", "2", "3"])

    def test_indexes_stay_where_the_map_is_read(self) -> None:
        numbers: Any = FakeNumbers()
        for cursor, has_indexes in (FakeCursor(), False), (Failing(), True):
            self.assertEqual(FirstLoad(cursor, numbers, Affected()).has_indexes, has_indexes)

    def test_a_bad_row_is_found(self) -> None:
        rows = Reader(Failing(), [], set()).rows(SOURCE, {str(k) for k in range(8)})
        self.assertEqual(sorted(rows), [str(k) for k in range(8)])
        self.assertEqual(rows["3"][0].street, Unfit("invalid input"))
        self.assertIsInstance(rows["4"][0].street, Street)
        self.assertEqual((rows["3"][0].name, rows["4"][0].name), (None, "Ring"))


class Attempts(unittest.TestCase):
    """The steps of an attempt."""

    def attempt(self, program: Any) -> Attempt:
        """An attempt without a database."""
        live: Any = argparse.Namespace(settings=argparse.Namespace(is_preview=False, tolerance=20.0), stale=set(), program=program, fresh={},
                                       loaded=lambda: {"a": "loaded"}, is_split=False, look_aside=lambda: None)
        work: Any = argparse.Namespace(tables=[], cursor=FakeCursor())
        return Attempt(live, work, False)

    def test_answers(self) -> None:
        program: Any = argparse.Namespace(answers=lambda records: {it: "new" for it in records})
        attempt = self.attempt(program)
        attempt.paths = PathsUpdate(FakeCursor(), Affected(), 20.0, FakeCursor)
        attempt.records, attempt.paths.records, attempt.fresh = ["map"], ["path"], {"map": "old", "other": "old"}
        self.assertEqual(attempt.answers(), {"map": "new", "path": "new", "other": "old"})
        self.assertEqual(self.attempt(None).answers(), {"a": "loaded"})

    def test_open_ends_are_sought_if_streets_are_cut(self) -> None:
        rows = {"a": StreetRow(1, 5, 6, Street(3, 3, "both", ((place(0), place(1)),)))}
        cases: List[Tuple[Set[str], int]] = [({"a"}, 0), (set(), 1)]
        for plain, wanted in cases:
            attempt: Any = self.attempt(argparse.Namespace())
            attempt.numbers, change = Numbers(FakeCursor({"select kind, last": [("node", 0), ("line", 0)]})), Change()
            attempt.reader = argparse.Namespace(blocks=functools.partial(iter, [Block(rows, set(), plain)]))
            change.keys = {1: {str(k) for k in range(5000)}}
            with unittest.mock.patch("olr_keep_tools.live.attempt.write_all_open_ends") as ends, \
                    unittest.mock.patch("olr_keep_tools.live.attempt.MapUpdate.run", lambda _: []):
                attempt.apply_map(change)
            self.assertEqual(ends.call_count, wanted)

    def test_progress_is_said_every_few_seconds(self) -> None:
        attempt: Any = self.attempt(None)
        written: List[bool] = []
        said: List[str] = []
        attempt.live.write_metrics = written.append
        attempt.said = time.monotonic() - 11
        with unittest.mock.patch("olr_keep_tools.live.attempt.say", said.append):
            attempt.tell(5, 10)
            attempt.tell(6, 10)
            attempt.said -= 11
            attempt.tell(500, 900, "paths")
        self.assertEqual((said, len(written), attempt.live.progress), (["5 of 10 streets", "500 of 900 paths"], 2, (6, 10)))

    @unittest.skipIf(psycopg2 is None, "psycopg2 is not installed")
    def test_words_of_an_error(self) -> None:
        self.assertEqual(words_of(ProgramFailed("no reply")), "no reply")
        self.assertEqual(words_of(MemoryError()), "MemoryError")
        nothing: Dict[str, int] = {}
        try:
            nothing["a"] += 1
        except KeyError as error:
            self.assertRegex(words_of(error), r"^KeyError: 'a' \(test_live.py, line \d+\)$")

    def test_a_locked_table_of_paths_is_said_once(self) -> None:
        settings: Any = argparse.Namespace(metrics=None, is_preview=False)
        live: Any = Live(settings, [])
        said: List[str] = []
        live.wait = lambda _: False
        with unittest.mock.patch("olr_keep_tools.live.service.say", said.append):
            live.wait_unlocked("locked")
            self.assertEqual(said, [])
            live.locked_since[0] -= 60
            live.wait_unlocked("locked")
            live.wait_unlocked("locked")
            self.assertEqual(said, ["locked"])
            live.cursor = FakeCursor()
            live.report([], {})
        self.assertEqual((said[1:], live.locked_since), (["olr_keep.path is as it should be again"], {}))

    def test_night(self) -> None:
        def at(day: int, hour: int) -> time.struct_time:
            return time.struct_time((2026, 1, 1, hour, 0, 0, 0, day, 0))

        for began, wanted in ((1, [True, False, False, True, False, True]), (5, [False, False, False, True, False, True])):
            night = Night(3, at(10, began))
            times = (at(10, 3), at(10, 23), at(11, 2), at(11, 3), at(11, 4), at(10, 4))
            self.assertEqual([night.is_due(it) for it in times], wanted)

    def test_metrics_that_cannot_be_written_are_said_once(self) -> None:
        settings: Any = argparse.Namespace(metrics="/nowhere/live.prom")
        live = Live(settings, [])
        said: List[str] = []
        with unittest.mock.patch("olr_keep_tools.live.service.say", said.append):
            live.write_metrics()
            live.write_metrics()
        self.assertEqual(said, ["/nowhere/live.prom: No such file or directory"])

    def test_only_an_empty_map_is_loaded_first(self) -> None:
        attempt = self.attempt(None)
        cursor: Any = attempt.cursor
        attempt.numbers = Numbers(FakeCursor({"select kind, last": [("node", 0), ("line", 0)]}))
        self.assertFalse(attempt.is_first_load(10))
        self.assertFalse(attempt.is_first_load(10_000))
        cursor.rows = {"select not exists": [(True,)]}
        self.assertTrue(attempt.is_first_load(10_000))
        attempt.numbers.last["line"] = LAST - 10
        self.assertFalse(attempt.is_first_load(10_000))


class Writing(unittest.TestCase):
    """Numbers, and lines of COPY."""

    def test_copy_line(self) -> None:
        self.assertEqual(copy_line(("a", 1, 2.5)), "a\t1\t2.5\n")
        self.assertEqual(copy_line(("a\tb", None, "c\\d\n")), "a\\tb\t\\N\tc\\\\d\\n\n")

    def test_numbers(self) -> None:
        cursor = FakeCursor({"select kind, last": [("node", 5), ("line", LAST - 1), ("round", 9), ("hold", 0)],
                               "generate_series": [(3,), (4,)]})
        numbers = Numbers(cursor)
        self.assertEqual(numbers.take("node", 3), [6, 7, 8])
        self.assertEqual(numbers.take("line", 2), [3, 4])
        numbers.write()
        self.assertEqual(sum("insert into olr_keep.counter" in it for it in cursor.queries), 2)

    def test_numbers_beside(self) -> None:
        """Rounds beside another one take its numbers, and note them in rows of their own, which the next one reads."""
        numbers = Numbers(FakeCursor({"select kind, last": [("node", 5), ("round", 3), ("round beside", 9)]}))
        other = numbers.beside(cursor := FakeCursor())
        self.assertEqual((other.take("round", 1), numbers.take("round", 1), other.take("node", 2)), ([10], [11], [6, 7]))
        other.write()
        self.assertEqual((len(cursor.queries), numbers.last), (2, {"node": 7, "round": 11}))


# ---- paths


def ground(start: int, end: int, street: str, *points: Tuple[float, float], kind: Tuple[int, int, bool] = (3, 3, True)) -> Ground:
    """A line of the map."""
    return Ground(start, end, street, points, 1000, kind)


def lines_of(course: Sequence[Tuple[float, float]], roads: Mapping[int, Ground], wish: Wish) -> Any:
    """What is found for a course."""
    return follow(course, roads, 20.0, wish)


class Courses(unittest.TestCase):
    """The lines that follow a course."""

    ROADS = {1: ground(1, 2, "a", degrees(0), degrees(100)), 2: ground(1, 2, "b", degrees(0), degrees(5, 10), degrees(95, 10),
                                                                       degrees(100), kind=(6, 3, True))}

    def test_rival(self) -> None:
        found = lines_of([degrees(0), degrees(100)], self.ROADS, Wish(has_rivals=True))
        self.assertEqual((found.lines, found.rival.taken, found.rival.other), ([1], "street a", "street b"))
        self.assertIsNone(lines_of([degrees(0), degrees(100)], {1: self.ROADS[1]}, Wish(has_rivals=True)).rival)

    def test_price_decides(self) -> None:
        found = lines_of([degrees(0), degrees(100)], self.ROADS, Wish(price=lambda number, *_: 5.0 * (number == 1)))
        self.assertEqual(found.lines, [2])

    def test_an_end_along_a_line_costs_its_distance(self) -> None:
        roads = {1: ground(1, 2, "a", degrees(0), degrees(100)), 2: ground(2, 3, "b", degrees(100), degrees(95, 15))}
        found = lines_of([degrees(0), degrees(100), degrees(95, 15)], roads, Wish(frozenset("a"), price=lambda *_: 0.0))
        self.assertEqual((found.lines, found.end), ([1, 2], 0))

    def test_ends_at_junctions(self) -> None:
        roads = {1: ground(1, 2, "a", degrees(0), degrees(100)), 3: ground(3, 1, "c", degrees(0, -100), degrees(0))}
        course = [degrees(0, -9), degrees(50), degrees(100)]
        self.assertEqual(lines_of(course, roads, Wish(snap=DRAWN)).lines, [3, 1])
        self.assertEqual(lines_of(course, roads, Wish(snap=DRAWN, ends=Ends(True, True))).lines, [1])
        along = lines_of([degrees(30), degrees(70)], roads, Wish(ends=Ends(True, True)))
        self.assertEqual(along.lines, [1])

    def test_lost_says_where(self) -> None:
        found = follow([degrees(0), degrees(300)], self.ROADS, 20.0)
        self.assertIsInstance(found, Lost)

    def test_further_lines_change_nothing(self) -> None:
        course, far = [degrees(0), degrees(100)], ground(8, 9, "far", degrees(0, 500), degrees(100, 500))
        alone, network = lines_of(course, self.ROADS, Wish()), Network(self.ROADS)
        network.add({7: far, 1: far})
        self.assertEqual(follow(course, network, 20.0, Wish()), alone)


class Grids(unittest.TestCase):
    """What is near, by cells."""

    def test_strip_has_all_segments_within_a_distance(self) -> None:
        strip = Strip([(0.0, 0.0), (90.0, 30.0), (130.0, -280.0), (-170.0, -110.0), (0.0, 10.0)], 50.0)
        for x in range(-200, 200, 9):
            for y in range(-300, 100, 11):
                within = [k for k, (far, _) in enumerate(strip.project((x, y))) if far <= 20]
                self.assertLessEqual(set(within), set(strip.segments_near((x, y), 20.0)))
                self.assertEqual(strip.is_near((x, y), 20.0), bool(within))

    def test_strip(self) -> None:
        strip = Strip([(0.0, 0.0), (100.0, 0.0), (100.0, 300.0)], 50.0)
        self.assertEqual(list(strip.segments_near((30.0, 40.0), 50.0)), [0])
        self.assertEqual(list(strip.segments_near((90.0, 10.0), 50.0)), [0, 1])
        self.assertEqual(list(strip.segments_near((500.0, 500.0), 50.0)), [])

    def test_long_lines_are_near(self) -> None:
        network = Network({1: ground(1, 2, "a", degrees(0), degrees(3000, 2500))})
        self.assertEqual(network.near(degrees(1500, 1250), 1e-4, 1e-4), [1])
        self.assertEqual(network.near(degrees(3500, 0), 1e-4, 1e-4), [])

    def test_network_near(self) -> None:
        network = Network({1: ground(1, 2, "a", degrees(0), degrees(100)), 2: ground(3, 4, "b", degrees(0, 40), degrees(100, 40))})
        metres = 138e-7, 90e-7
        self.assertEqual(network.near(degrees(50, 5), *(10 * it for it in metres)), [1])
        self.assertEqual(network.near(degrees(50, 20), *(25 * it for it in metres)), [1, 2])
        self.assertEqual(network.near(degrees(250), *(10 * it for it in metres)), [])

    def test_cells_near(self) -> None:
        course = (6.0011, 49.0011), (6.0019, 49.0011)
        self.assertEqual(cells_near(course, 20.0), {(3000, 24500), (3001, 24500)})
        self.assertEqual(len(cells_near(((6.0011, 49.0011), (6.0611, 49.0011)), 20.0)), 31)
        self.assertGreater(len(cells_near(course, 500.0)), 20)

    def test_boxes(self) -> None:
        given = [(1, 5), (2, 5), (4, 5), (1, 6), (1, 7), (2, 7), (7, 5), (8, 5), (1, 8), (-1, 5)]
        self.assertEqual(sorted(boxes_of(given, CELL)), sorted((it[0] * CELL, it[1] * CELL, it[2] * CELL, it[3] * CELL) for it in (
            (1, 5, 3, 6), (4, 5, 5, 6), (1, 6, 2, 7), (1, 7, 3, 8), (7, 5, 8, 6), (8, 5, 9, 6), (1, 8, 2, 9), (-1, 5, 0, 6))))
        self.assertEqual(list(boxes_of([(x, y) for x in range(8) for y in range(8)], CELL)), [(0, 0, 8 * CELL, 8 * CELL)])
        self.assertEqual(list(consecutive([1, 2, 3, 5, 7, 8])), [(1, 3), (5, 5), (7, 8)])


class Across(unittest.TestCase):
    """Sections across a course, and the part of a last map that matters for it."""

    COURSE = (0.0, 0.0), (130.0, 0.0), (130.0, 0.0), (170.0, 90.0), (60.0, 240.0)

    def test_points_at_each_multiple_of_a_distance(self) -> None:
        course = Polyline(list(self.COURSE))
        for k, it in enumerate(course.every(course.length / 37, 37)):
            self.assertLess(math.dist(it, course.at(k * course.length / 37)), 1e-9)
        self.assertEqual(Polyline([(1.0, 2.0), (1.0, 2.0)]).every(0.0, 2), 3 * [(1.0, 2.0)])

    def crossed(self, across: Sections, a: Tuple[float, float], b: Tuple[float, float]) -> Tuple[Dict[int, float], Dict[int, float]]:
        """The sections that a segment crosses, along the course and against it."""
        found: Tuple[List[Hit], List[Hit]] = ([], [])
        across.add_crossed(range(len(across.at)), a, b, found)
        return dict(found[0]), dict(found[1])

    def test_crossings_are_those_of_all_sections(self) -> None:
        across, rnd, count = Sections(Polyline(list(self.COURSE))), random.Random(1), 0
        for _ in range(3000):
            far, angle = rnd.choice((1, 20, 70, 300)), rnd.uniform(0, math.tau)
            a = rnd.uniform(-150, 300), rnd.uniform(-150, 400)
            b = a[0] + far * math.cos(angle), a[1] + far * math.sin(angle)
            near, crossed, against = across.near(a, b), *self.crossed(across, a, b)
            for it, other in zip((crossed, against), self.crossed(across, b, a)[::-1]):
                self.assertEqual({k: round(left, 6) for k, left in it.items()}, {k: round(left, 6) for k, left in other.items()})
            count += len(crossed)
            self.assertFalse(crossed.keys() & against.keys())
            self.assertLessEqual({k for k, left in crossed.items() if abs(left) <= 60}, near)
            for k, left in crossed.items():
                x, y, east, north = across.tangents[k]
                place = x - left * north, y + left * east
                self.assertAlmostEqual(math.dist(a, place) + math.dist(place, b), math.dist(a, b), 5)
        self.assertGreater(count, 1000)

    def test_moved_lines_cross_the_same_sections(self) -> None:
        """At a hairpin they would cross others if the sections were not moved with them."""
        places, plane = [(0, 0), (100, 0), (75, -13), (75, 40)], Plane(49.6)
        by = 3 * 138e-7 * plane.wide, 2 * 90e-7 * METRES
        was, now = ({k: ground(k, k + 1, "", degrees(a[0] + i, a[1] + j), degrees(b[0] + i, b[1] + j))
                     for k, (a, b) in enumerate(zip(places, places[1:]))} for i, j in ((0, 0), (3, 2)))
        across = Sections(Polyline(plane.course(degrees(*it) for it in places)))
        old, new = across.crossings(was, plane, 40.0), across.crossings(now, plane, 40.0, by)
        for k, (before, after) in enumerate(zip(old, new)):
            self.assertEqual([it.number for it in before], [it.number for it in after])
            for one, other in zip(before, after):
                self.assertAlmostEqual(one.left + across.shift(k, by), other.left, 5)

    def test_last_map(self) -> None:
        there, back = (degrees(0), degrees(50, 3), degrees(100)), (degrees(100), degrees(50, 3), degrees(0))
        lines = {4: ground(1, 2, "a", *there), 5: ground(2, 1, "a", *back), 6: ground(2, 3, "b", degrees(100), degrees(100, 90)),
                 7: ground(8, 9, "c", degrees(0, 20), degrees(100, 20)), 8: ground(9, 8, "c", degrees(100, 20), degrees(0, 20)),
                 9: ground(6, 7, "d", degrees(0, 70), degrees(100, 70))}
        last = nearby(LastMap(lines, [4], (2, 3)), there)
        self.assertEqual(last, LastMap({it: lines[it] for it in (4, 5, 6, 7, 8)}, [4], (2, 3)))
        again = restored(json.loads(stored(last)))
        self.assertEqual((again.own, again.cuts), ([4], (2, 3)))
        self.assertEqual(again.lines, {number: it._replace(kind=()) for number, it in lines.items() if number < 9})
        self.assertEqual(stored(last).count(str(degrees(50, 3)[1])), 1)

    def test_blocked(self) -> None:
        there = (degrees(0), degrees(100))
        self.assertIsNone(Follower(there, Network({1: ground(1, 2, "a", *there)}), 20.0).blocked())
        lost = Follower(there, Network({1: ground(1, 2, "a", degrees(0), degrees(60))}), 20.0).blocked()
        self.assertEqual(lost, follow(there, {1: ground(1, 2, "a", degrees(0), degrees(60))}))


def known(**changes: Any) -> Known:
    """A path that was found on line 1 of street a."""
    whole = Known([1], [">a"], 0, 0, (1, 2), (degrees(0), degrees(100)), "d", PathState.SAID, (degrees(0), degrees(100)),
                  Ends(True, True), [">a"], LastMap({9: ground(1, 2, "a", degrees(0), degrees(100))}, [9]), 0.0)
    return whole._replace(**changes)


class FakeFinder(Finder):
    """The lines of a small map."""

    def __init__(self, *rows: Row):
        super().__init__(None, 20.0)
        self.rows = {it.number: it for it in rows}
        self.streets = {it.street: [other.number for other in rows if other.street == it.street] for it in rows}

    def read_streets(self, streets: Set[str]) -> None:
        """A street that isn't there has no lines."""
        self.streets.update((it, []) for it in streets if it not in self.streets)

    def near(self, _: Any) -> Network:
        """All lines."""
        return Network(self.rows)

    def around(self, _: Any) -> Dict[int, Row]:
        """All lines."""
        return dict(self.rows)


def row(number: int, street: str, north: float = 0, frc: str = "3") -> Row:
    """A line of 100 m."""
    return Row(number, 1, 2, frc, "3", 1000, street, "both", 0, 0, True, (degrees(0, north), degrees(100, north)))


NULL_STREET: Any = [None]
NO_FINDER: Any = None


class Searches(unittest.TestCase):
    """What an operator gave is tried first."""

    COURSE = Wanted("p", None, (degrees(0), degrees(100)), 0, 0, "d")
    STREETS = Wanted("p", ["a"], None, 0, 0, "d")

    def search(self, wanted: Wanted, was: Optional[Known], *rows: Row, before: Sequence[Row] = ()) -> Any:
        """Where a path is; without a map before the round it was on street a."""
        return PathSearch(FakeFinder(*rows), wanted, was, FakeFinder(*(before or [row(1, "a")]))).run()

    def test_untouched(self) -> None:
        found = PathSearch(FakeFinder(row(1, "a", 0.4)), self.COURSE, known(), None, True).run()
        self.assertEqual((found.state, round(found.off or 0, 1)), (PathState.SAID, 0.4))

    def test_has_stayed(self) -> None:
        for there, stays in ((row(1, "a", 0.4), True), (row(1, "a", 0.6), False), (row(1, "b"), False), (row(2, "a"), False)):
            self.assertIs(has_stayed(FakeFinder(there), known()), stays)
        self.assertFalse(has_stayed(FakeFinder(row(1, "a")), known(state=PathState.ELSEWHERE)))

    def test_other_road_is_elsewhere(self) -> None:
        for wanted in (self.COURSE, self.STREETS):
            for frc in "36":
                there = row(2, "b", 12, frc)
                found = self.search(wanted, known(), there, before=(row(1, "a"), there))
                self.assertEqual((found.state, found.found.lines, found.last.own), (PathState.ELSEWHERE, [2], [1]))

    def test_back(self) -> None:
        was = known(lines=[2], streets=[">b"], state=PathState.ELSEWHERE, course=(degrees(0, 12), degrees(100, 12)))
        for wanted in (self.COURSE, self.STREETS):
            found = self.search(wanted, was, row(2, "b", 12), row(3, "a"))
            self.assertEqual((found.state, found.found.lines), (PathState.SAID, [3]))

    def test_new_street_is_the_same_road(self) -> None:
        there = row(3, "b", 12, "6")
        found = self.search(self.COURSE, known(), row(2, "n", 4), there, before=(row(1, "a"), there))
        self.assertEqual((found.state, found.found.lines), (PathState.SAID, [2]))

    def test_drift(self) -> None:
        found = self.search(self.COURSE, known(), row(1, "a", 15))
        self.assertEqual((found.state, round(found.off)), (PathState.SAID, 15))
        self.assertIs(self.search(self.COURSE, known(), row(1, "a", 25)).state, PathState.ELSEWHERE)

    def test_lost_places(self) -> None:
        found = self.search(self.COURSE, None)
        self.assertEqual((found.state, found.lost_at), (PathState.LOST, (degrees(0),)))
        self.assertEqual(len(places_hex(found.lost_at) or ""), 2 * (13 + 21))

    def test_faults(self) -> None:
        for wanted in (self.STREETS._replace(streets=NULL_STREET), self.STREETS._replace(streets=[""]),
                       self.COURSE._replace(course=((6.1, 49.6), (float("nan"), 1.0))),
                       self.COURSE._replace(course=((6.1, 49.6), (100.0, 60.0)))):
            self.assertIs(self.search(wanted, None).state, PathState.LOST)
            self.assertIsNotNone(wanted.fault())
        self.assertIsNone(self.COURSE.fault())

    def returned(self, *rows: Row, state: PathState = PathState.LOST, start: int = 0, end: int = 0) -> Optional[Found]:
        """The lines of a path of three that was on streets a and b, with lines of 100 m, and is found again on these lines."""
        finder = FakeFinder(*rows)
        was = {k: ground(k, k + 1, it, degrees(100 * k), degrees(100 * k + 100)) for k, it in enumerate("aba")}
        course = degrees(start / 10), degrees(100), degrees(200), degrees(300 - end / 10)
        found = returned(finder, known(state=state, lines=[], given=course, last=LastMap(was, [0, 1, 2], (start, end))))
        self.assertLess(found.off or 0.0 if found else 0.0, 0.1)
        return found and found.found

    def test_returned(self) -> None:
        """An undo needs no search: the same streets with the same coordinates are there again."""
        a, b, c = (row(7 + k, street)._replace(start=k, end=k + 1, points=(degrees(100 * k), degrees(100 * k + 100)))
                   for k, street in enumerate("aba"))
        self.assertEqual(self.returned(a, b, c), Found([7, 8, 9], 0, 0))
        self.assertEqual(self.returned(c, a, b, state=PathState.ELSEWHERE, start=300, end=250), Found([7, 8, 9], 300, 250))
        self.assertIsNone(self.returned(a, b, c, state=PathState.SAID))
        self.assertIsNone(self.returned(a, b))
        self.assertIsNone(self.returned(a, b._replace(street="d"), c))
        self.assertIsNone(self.returned(a, b, c._replace(start=5)))
        self.assertIsNone(self.returned(a, b, c._replace(points=(degrees(200, 1), degrees(300, 1)))))
        back = c._replace(number=10, end=2, length=1500, points=(degrees(200), degrees(50)))
        self.assertEqual(self.returned(a, b, back, c, end=250), Found([7, 8, 9], 0, 250))

    def test_cut_otherwise(self) -> None:
        """Lines that are cut at other places, and nothing else, need no search."""
        places = [degrees(0), degrees(30), degrees(60), degrees(100), degrees(130), degrees(200)]

        def cut(number: int, street: str, *at: int) -> Row:
            return row(number, street)._replace(start=at[0], end=at[-1], points=tuple(places[k] for k in at), length=1000)

        was = known(lines=[1, 2], streets=[">a", ">b"], course=tuple(places), given=tuple(places))
        split = cut(1, "a", 0, 1), cut(5, "a", 1, 2, 3), cut(6, "b", 3, 4, 5)
        cases: List[Tuple[Sequence[Row], Known, Optional[List[int]]]] = [
            (split, was, [1, 5, 6]), (split[:2], was, None), (split, was._replace(state=PathState.ELSEWHERE), None),
            ((*split[:2], split[2]._replace(street="c")), was, None), ((*split[:2], split[2]._replace(along=False)), was, None),
            ((*split, split[1]._replace(number=7, length=900)), was, None),
            (split, was._replace(course=(degrees(10), *places[1:]), start=330), [1, 5, 6]),
            (split, was._replace(course=(degrees(10), *places[1:]), start=330, lines=[8, 2]), None),
            (split, was._replace(course=(*places[:5], degrees(150)), end=500, lines=[1, 6]), [1, 5, 6])]
        for rows, it, wanted in cases:
            found = cut_otherwise(FakeFinder(*rows), it)
            self.assertEqual(found and found.lines, wanted)

    def part(self, names: Sequence[str], finder: Any, wanted: Dict[str, Wanted]) -> PartSearch:
        """The search for paths that are new."""
        return PartSearch(PathsUpdate(FakeCursor(), Affected(), 20.0, FakeCursor), (finder, None), Paths(names, wanted, {}, {}, {}))

    def test_failure_is_of_one_path(self) -> None:
        update = PathsUpdate(FakeCursor(), Affected(), 20.0, FakeCursor)
        placed = update.place((NO_FINDER, None), self.COURSE, None)
        self.assertIs(placed.state, PathState.LOST)
        self.assertIn("can't be sought", placed.why.words if placed.why else "")

    def test_search_in_another_process(self) -> None:
        finder, wanted = FakeFinder(row(1, "a")), {"p": self.COURSE, "q": self.STREETS}
        search = self.part(["p", "q", "gone"], finder, wanted)
        search.fork()
        found = search.result()
        lines = [(name, it and it.placed.lines) for name, it in found.items()]
        self.assertEqual(lines, [("p", [1]), ("q", [1]), ("gone", None)])

    def test_long_courses_are_sought_beside_the_session(self) -> None:
        wanted = self.COURSE._replace(course=tuple((6.1, 49.6 + 1e-7 * k) for k in range(50_001)))
        for course, is_long in ((self.COURSE, False), (wanted, True)):
            self.assertEqual(self.part(["p"], FakeFinder(), {"p": course}).is_long(), is_long)

    def test_parts(self) -> None:
        sizes = {count: [len(it) for it in parts_of([str(k) for k in range(count)], 1000)] for count in (0, 50, 51, 300, 2100)}
        self.assertEqual(sizes, {0: [], 50: [50], 51: [50, 1], 300: [150, 150], 2100: [1000, 1000, 100]})

    def test_records(self) -> None:
        wanted, was = {"p": self.COURSE}, (known(), 0, 0)
        search = self.part(["p"], FakeFinder(row(1, "a")), wanted)
        given: List[Any] = [None, was, (known(lines=[]), 0, 0), (known(lines=[2]), 0, 0), (known(), 1, 0)]
        records = []
        for it in given:
            search.known = {"p": it} if it else {}
            sought = search.place("p")
            records.append(sought and sought.record)
        self.assertEqual(records, ["path,p,0,0,1", "", "path,p,0,0,1", "repath,p,0,0,1", "repath,p,0,0,1"])
        search.wanted = {"p": self.COURSE._replace(definition="other", streets=["b"], course=None)}
        search.known = {"p": was}
        sought = search.place("p")
        self.assertEqual((sought and sought.record, sought and sought.row[1:3]), ("drop-path,p", ("{}", "{}")))

    def test_a_killed_search_is_made_again(self) -> None:
        search = self.part(["p"], FakeFinder(row(1, "a")), {"p": self.COURSE})
        search.fork()
        if search.forked:
            os.kill(search.forked.process, signal.SIGKILL)
        found = search.result()["p"]
        self.assertEqual(found and found.placed.lines, [1])

    def test_what_is_not_read_is_left(self) -> None:
        search = self.part(["p"], Finder(FakeCursor(), 20.0), {"p": self.COURSE})
        search.fork()
        self.assertEqual(search.forked and search.forked.result(search.update.tick), {})

    def test_both_directions_have_one_shape(self) -> None:
        shape = bytes.fromhex("0102000000" + wkb_hex((place(0), place(9)))[18:])
        along = (1, 5, 6, "3", "3", 100, "a", "both", 0, 0, True, shape)
        ways = Ways()
        ways.take([(2, 6, 5, "3", "3", 100, "a", "both", 0, 0, False, None), along])
        self.assertEqual([ways.rows[it].points for it in (1, 2)], [(degrees(0), degrees(9)), (degrees(9), degrees(0))])
        self.assertEqual((ways.nodes, ways.leaving), ({5: degrees(0), 6: degrees(9)}, {5: [(1, 6)], 6: [(2, 5)]}))
        self.assertEqual([it in ways.rows for it in (1, 2, 3)], [True, True, False])

    def test_lines_beside_the_ends_of_courses(self) -> None:
        finder = Finder(FakeCursor({"select array": [([1],), ([],)]}), 20.0)
        finder.read_near([(degrees(0), degrees(100))])
        self.assertEqual(finder.network.beside, {degrees(0): [1], degrees(100): []})
        self.assertEqual(finder.network.near(degrees(0), 0.0, 0.0), [])

    def test_marks(self) -> None:
        self.assertEqual([marked_street(it) for it in (">7", "<a", "b")], [(">", "7"), ("<", "a"), ("", "b")])

    def test_arrays(self) -> None:
        self.assertEqual(text_array(['a"b', "c\\d"]), '{"a\\"b","c\\\\d"}')
        given: List[List[object]] = [[], [""], ["a", "b c"], ['"'], ["a", '"', "b"], ["\\"], [1, 2]]
        found = [text_array(it) for it in given]
        wanted = ["{}", '{""}', '{"a","b c"}', '{"\\""}', '{"a","\\"","b"}', '{"\\\\"}', '{"1","2"}']
        self.assertEqual(found, wanted)


# ---- another process


class Forks(unittest.TestCase):
    """A computation in a process of its own."""

    def test_result(self) -> None:
        several = [Forked(functools.partial(list, range(k, 1_000_000))) for k in range(2)]
        self.assertEqual([(it.result(lambda: None) or [])[:1] for it in several], [[0], [1]])

    def test_ticks(self) -> None:
        """The child works until there was a tick."""
        with tempfile.TemporaryDirectory() as folder:
            os.mkdir(there := f"{folder}/there")

            def work() -> None:
                while os.path.exists(there):
                    time.sleep(0.05)

            def tick() -> None:
                if os.path.exists(there):
                    os.rmdir(there)

            Forked(work).result(tick)
            self.assertEqual(os.listdir(folder), [])

    def test_failure(self) -> None:
        self.assertIsNone(Forked(lambda: 1 // 0).result(lambda: None))

    def test_in_order(self) -> None:
        works = (functools.partial(pow, k, 2) for k in range(9))
        self.assertEqual(list(in_order(works, lambda: None)), [k * k for k in range(9)])

    def test_what_a_killed_child_did_is_done_here(self) -> None:
        here = os.getpid()

        def work() -> bool:
            if os.getpid() != here:
                os.kill(os.getpid(), signal.SIGKILL)
            return True

        self.assertEqual(list(in_order(iter([work, work]), lambda: None)), [True, True])

    def test_killed(self) -> None:
        child = Forked(lambda: time.sleep(100))
        child.end()
        with self.assertRaises(ChildProcessError):
            os.waitpid(child.process, 0)


# ---- holding


class Holding(unittest.TestCase):
    """What is published, and what waits."""

    LIMITS = Limits(10, 1, 1, 2, 100)

    def test_limits(self) -> None:
        self.assertFalse(self.LIMITS.are_exceeded(Counts(20, 1, 1, 2), 100))
        self.assertTrue(self.LIMITS.are_exceeded(Counts(21, 0, 0, 0), 100))
        self.assertTrue(self.LIMITS.are_exceeded(Counts(0, 2, 1, 0), 100))
        self.assertTrue(self.LIMITS.are_exceeded(Counts(0, 0, 0, 3), 100))
        self.assertFalse(self.LIMITS.are_exceeded(Counts(0, 10, 0, 10), 1000))

    def test_limits_in_a_nation(self) -> None:
        """However small the share of all paths is: of those nearby more than a quarter, and at least five; and a hundred."""
        self.assertFalse(self.LIMITS.are_exceeded(Counts(0, 4, 0, 0), 30_000, 4))
        self.assertTrue(self.LIMITS.are_exceeded(Counts(0, 2, 2, 1), 30_000, 19))
        self.assertFalse(self.LIMITS.are_exceeded(Counts(0, 2, 2, 1), 30_000, 20))
        self.assertFalse(self.LIMITS.are_exceeded(Counts(40, 2, 2, 0), 30_000, 40))
        self.assertFalse(self.LIMITS.are_exceeded(Counts(0, 60, 0, 40), 30_000))
        self.assertTrue(self.LIMITS.are_exceeded(Counts(0, 60, 0, 41), 30_000))

    def round(self, gone: Sequence[str], rows: Mapping[str, Sequence[Any]]) -> Round:
        """The end of a round that changes nothing but these."""
        paths = PathsUpdate(FakeCursor(), Affected(), 20.0, FakeCursor)
        paths.gone = set(gone)
        cursor, numbers = FakeCursor({"make_interval": [("12:00", 100)], **rows}), FakeCursor()
        numbers.rows = {"select kind, last": [("hold", 99)]}
        return Round(cursor, Change(), Affected(), paths, Numbers(numbers))

    PUBLISHED = [(name, f"old-{name}", None, "as given", False) for name in "abcd"]
    HELD = [(name, "held", None, "refused,1,5", "refused", 1, None, None, False) for name in "abc"]

    def test_few_are_published(self) -> None:
        outcome = self.round("", {"where round > 0": self.PUBLISHED}).judge({"a": "text,new"}, self.LIMITS, 0)
        self.assertEqual(outcome.published, {"a": (Answer("old-a", None), Answer("new", None))})
        self.assertEqual((outcome.counts, outcome.waiting), (Counts(changed=1), {}))

    def test_many_wait(self) -> None:
        outcome = self.round("abc", {"where round > 0": self.PUBLISHED}).judge({"d": "text,new"}, self.LIMITS, 0)
        self.assertEqual(set(outcome.waiting), set("abcd"))
        self.assertEqual(outcome.waiting["a"], Waiting(Kind.HELD, DROPPED, Effect.DROPPED, 100))
        self.assertEqual(outcome.published, {})

    def test_held_before(self) -> None:
        rows: Dict[str, Sequence[Any]] = {"where round > 0": self.PUBLISHED, "olr_keep.waiting": self.HELD}
        outcome = self.round("", rows).judge({"a": "refused,1,6"}, self.LIMITS, 0)
        self.assertEqual((set(outcome.waiting), outcome.ended, outcome.published), (set("abc"), set(), {}))
        outcome = self.round("", rows).judge({"a": "text,old-a", "b": "text,new"}, self.LIMITS, 0)
        self.assertEqual((outcome.waiting, outcome.ended, set(outcome.published)), ({}, set("abc"), set("bc")))

    def test_a_hold_is_judged_once(self) -> None:
        """However many paths wait in it, so that a save beside a great hold takes no longer."""
        names = [f"p{k}" for k in range(100)]
        rows: Dict[str, Sequence[Any]] = {
            "where round > 0": [(it, "old", None, "held", False) for it in names],
            "olr_keep.waiting": [(it, *self.HELD[0][1:]) for it in names]}
        with unittest.mock.patch.object(Limits, "are_exceeded", autospec=True, side_effect=Limits.are_exceeded) as asked:
            outcome = self.round("", rows).judge({"p7": "refused,1,6"}, self.LIMITS, 0)
        self.assertEqual((set(outcome.waiting), outcome.published), (set(names), {}))
        self.assertLessEqual(asked.call_count, 2)

    def test_what_waits_as_before_is_not_written(self) -> None:
        it = self.round("", {"where round > 0": self.PUBLISHED, "from olr_keep.waiting": self.HELD})
        cursor: Any = it.cursor
        it.numbers.last["round"] = it.numbers.before["round"] = 7
        outcome = it.judge({"a": "refused,1,6"}, self.LIMITS, 0)
        self.assertEqual(it.publish(outcome, 0.1), (8, []))
        written = [text for query, _, text in cursor.copied if "olr_keep.waiting" in query]
        self.assertEqual(written, ["a\theld\t1\t\\N\trefused,1,6\trefused\t\\N\t\\N\n"])
        outcome = it.judge({"a": "refused,1,5"}, self.LIMITS, 0)
        self.assertEqual((it.publish(outcome, 0.1), set(outcome.waiting)), ((0, []), set("abc")))

    def test_released(self) -> None:
        rows: Dict[str, Sequence[Any]] = {"where round > 0": self.PUBLISHED, "olr_keep.waiting": [(*it[:-1], True) for it in self.HELD]}
        outcome = self.round("", rows).judge({}, self.LIMITS, 0)
        self.assertEqual((set(outcome.published), outcome.ended, outcome.counts.refused), (set("abc"), set("abc"), 3))

    def test_delayed(self) -> None:
        """What has no string now, or is newly elsewhere, waits until it is due, whatever comes meanwhile."""
        rows: Dict[str, Sequence[Any]] = {"where round > 0": self.PUBLISHED[:3] + [("d", "old-d", None, "as given", True)]}
        outcome = self.round("b", rows).judge({"a": "refused,1,6", "c": "text,new", "d": "text,new"}, self.LIMITS, 60)
        self.assertEqual(outcome.waiting, {
            "a": Waiting(Kind.DELAYED, Answer(None, "refused,1,6"), Effect.REFUSED, due="12:00"),
            "d": Waiting(Kind.DELAYED, Answer("new", None), Effect.ELSEWHERE, due="12:00")})
        self.assertEqual((set(outcome.published), outcome.counts), (set("bc"), Counts(changed=1, dropped=1)))
        outcome = self.round("", rows).judge({"d": "text,old-d"}, self.LIMITS, 60)
        self.assertEqual((set(outcome.waiting), outcome.published), (set("d"), {}))

    def test_delayed_before(self) -> None:
        """An edit or another answer changes neither when it is due nor which round it names."""
        was = ("a", "delayed", None, "refused,1,5", "refused", None, "11:59", 7)
        rows: Dict[str, Sequence[Any]] = {"where round > 0": self.PUBLISHED, "olr_keep.waiting": [(*was, False)]}
        outcome = self.round("", rows).judge({"a": "refused,1,6"}, self.LIMITS, 60)
        self.assertEqual(outcome.waiting["a"], Waiting(Kind.DELAYED, Answer(None, "refused,1,6"), Effect.REFUSED, None, "11:59", 7))
        outcome = self.round("", rows).judge({"a": "text,new"}, self.LIMITS, 60)
        self.assertEqual((outcome.waiting, set(outcome.published), outcome.causes), ({}, set("a"), set()))
        rows["olr_keep.waiting"] = [(*was, True)]
        outcome = self.round("", rows).judge({}, self.LIMITS, 60)
        self.assertEqual((outcome.waiting, set(outcome.published), outcome.causes), ({}, set("a"), {7}))

    def test_delayed_and_limits(self) -> None:
        """What is delayed counts when it is edited, and again if it does something else, but not when it is due."""
        named = [(it, "old", None, "as given", False) for it in "abc"]
        waiting = [(it, "delayed", None, "refused,1,5", effect, None, "11:59", 7, False) for it, effect in zip("abc", ("refused", "changed", None))]
        rows: Dict[str, Sequence[Any]] = {"where round > 0": named, "olr_keep.waiting": waiting}
        answers = dict.fromkeys("abc", "refused,1,6")
        self.assertEqual(len(self.round("", rows).judge(answers, self.LIMITS, 60).holds), 0)
        rows["olr_keep.waiting"] = [(*it[:4], "changed", *it[5:]) for it in waiting]
        self.assertEqual(self.round("", rows).judge(answers, self.LIMITS, 60).holds[0].names, set("abc"))
        rows["olr_keep.waiting"] = [(*it[:-1], True) for it in waiting]
        self.assertEqual(self.round("", rows).judge({}, self.LIMITS, 60).counts.refused, 3)

    def test_frozen(self) -> None:
        frozen = [("a", None, None, False), ("b", "older", None, True)]
        rows: Dict[str, Sequence[Any]] = {"where round > 0": self.PUBLISHED, "olr_keep.frozen": frozen}
        outcome = self.round("", rows).judge({"a": "text,new", "b": "text,newer"}, self.LIMITS, 0)
        self.assertEqual(outcome.published, {"b": (Answer("old-b", None), Answer("older", None))})
        self.assertEqual({name: it.answer.text for name, it in outcome.waiting.items()}, {"a": "new", "b": "newer"})

    def test_clusters(self) -> None:
        change, affected = Change(), Affected()
        affected.keys = {"s", "t", "u"}
        affected.old_cells = {"s": {cell_of(6.1, 49.6)}, "t": {cell_of(6.1, 49.6)}, "u": {cell_of(6.9, 49.6)}}
        change.street_group = {"s": "tx1", "t": "tx2", "u": "tx3"}
        clusters = Clusters(FakeCursor(), change, affected, {"a": Effect.CHANGED, "b": Effect.CHANGED})
        clusters.cells = {"a": {cell_of(6.1001, 49.6)}, "b": {cell_of(6.91, 49.61)}}
        self.assertEqual(sorted((sorted(it.names), sorted(it.streets), it.cells) for it in clusters.run()),
                         [(["a"], ["s", "t"], {cell_of(6.1, 49.6)}), (["b"], ["u"], {cell_of(6.9, 49.6)})])


# ---- the program


SCRIPT = """#!/bin/sh
while read -r record; do
    case $record in
        bad*) echo fault,1,Syntax ;;
        ambiguous) printf 'ok,2\\na,0,sector,7\\na,1,node,9\\n' ;;
        report) printf 'ok,2\\na,text,X\\nb,refused,1,7\\n' ;;
        commit*) printf 'ok,1\\na,text,Y\\n' ;;
        slow) until test -e "$0.ticked"; do sleep 0.1; done; echo ok,0 ;;
        *) echo ok,0 ;;
    esac
done
"""


class Drafts(unittest.TestCase):
    """What becomes of a path in a draft."""

    COURSE = [degrees(0), degrees(1000)]
    WAS = Was(Answer("CwRWsSNFbxpcYv/+AG8aBg==", None), COURSE)

    def kind(self, was: Optional[Was], now: Answer, course: Sequence[Tuple[float, float]]) -> str:
        """The verdict."""
        return verdict("p", was, now, None, course).kind.value

    def test_verdicts(self) -> None:
        text = self.WAS.answer
        far = [degrees(0, 15), degrees(1000, 15)]
        self.assertEqual(self.kind(self.WAS, text, self.COURSE), "same string")
        self.assertEqual(self.kind(self.WAS, Answer("CwRWsSNFbxpcY//+AG8aBg==", None), self.COURSE), "same road")
        self.assertEqual(self.kind(self.WAS, text, far), "other road")
        self.assertEqual(self.kind(self.WAS, DROPPED, []), "lost")
        self.assertEqual(self.kind(None, text, self.COURSE), "without a string before")
        self.assertEqual(self.kind(Was(Answer(None, "lost"), []), text, self.COURSE), "without a string before")

    def test_why_lost(self) -> None:
        self.assertEqual(verdict("p", self.WAS, DROPPED, None, []).why, "an operator removed it")
        self.assertEqual(verdict("p", self.WAS, Answer(None, "refused,3"), None, []).why, "it is not encodable there")


class Programs(unittest.TestCase):
    """What is sent to the program, and its answers."""

    def setUp(self) -> None:
        folder = tempfile.TemporaryDirectory()
        self.addCleanup(folder.cleanup)
        with open(f"{folder.name}/program", "w", encoding="ascii") as file:
            file.write(SCRIPT)
        os.chmod(file.name, 0o755)
        self.ticked = f"{file.name}.ticked"
        self.program = LiveProgram([file.name], self.tick)
        self.addCleanup(self.close)

    def tick(self) -> None:
        """Notes a tick."""
        with open(self.ticked, "w", encoding="ascii"):
            pass

    def close(self) -> None:
        """Ends the program."""
        self.program.kill()
        for stream in (self.program.process.stdin, self.program.process.stdout):
            if stream:
                stream.close()

    def test_answers(self) -> None:
        self.assertEqual(self.program.answers(["node,1,0,0"]), {"a": "text,Y"})
        self.assertEqual(self.program.answers([]), {})

    def test_ambiguities(self) -> None:
        named = obstacles(self.program)
        self.assertEqual(named, {"a": [Obstacle(0, "sector", 7), Obstacle(1, "node", 9)]})
        cursor = FakeCursor({"select line": [(7, "s", "POINT(1 2)")], "select node": [(9, "6.1,49.6", "POINT(6.1 49.6)")]})
        places = named_places(cursor, named)
        self.assertEqual(list(places["a"].values()), ["POINT(1 2)", "POINT(6.1 49.6)"])
        self.assertIn("point 0: another line of street s", next(iter(places["a"])))
        write_ambiguities(cursor, self.program)
        self.assertEqual([len(it[2].splitlines()) for it in cursor.copied], [2])

    def test_rejected(self) -> None:
        with self.assertRaisesRegex(ProgramFailed, "fault,1,Syntax"):
            self.program.carry_out(b"bad\n", 1)
        sent = Sent(self.program)
        sent.write(b"bad\n")
        with self.assertRaisesRegex(ProgramFailed, "fault,1,Syntax"):
            sent.finish()

    def test_sent(self) -> None:
        sent = Sent(self.program)
        sent.write(b"node,1,0,0\n")
        sent.flush()
        sent.write(b"node,2,0,0\n")
        sent.finish()
        self.assertEqual(self.program.carry_out(b"report\n", 1), ["a,text,X", "b,refused,1,7"])

    def test_ticks_while_it_works(self) -> None:
        """A slow record is answered once there was a tick."""
        self.assertEqual(self.program.carry_out(b"slow\n", 1), [])


if __name__ == "__main__":
    unittest.main()
