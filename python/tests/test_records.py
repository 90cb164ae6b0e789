"""Tests of records.py, rejected.py and replies.py, without the program."""
import io
import itertools
import os
import re
import tempfile
import tracemalloc
import unittest
from typing import List

from olr_keep._library import V2, check_processor, lacking
from olr_keep._records import is_one_record as is_record
from olr_keep._replies import Explained
from olr_keep_tools.records import Batch, Records, RecordsError, State, decimal, is_open_after, line_of, units, word_of
from olr_keep_tools.rejected import advice
from olr_keep_tools.replies import Head, NoReply, is_one_record, read_reply
from olr_keep_tools.strings import reference_of


class Processor(unittest.TestCase):
    def test_older(self) -> None:
        """A processor below x86-64-v2 is refused, which a call would end by a signal; one of which nothing is known is not."""
        flags = "fpu sse sse2 cx16 lahf_lm popcnt sse4_1 sse4_2 ssse3"
        for text, lost in ((f"processor : 0\nflags\t\t: {flags} avx\n", []), ("flags : fpu sse sse2 cx16\n", [*V2[1:]]), ("Features : fp\n", [])):
            with tempfile.NamedTemporaryFile("w") as file:
                file.write(text)
                file.flush()
                self.assertEqual(lacking(text), lost)
                if lost:
                    self.assertRaisesRegex(OSError, "lacks lahf_lm, popcnt", check_processor, file.name)
                else:
                    check_processor(file.name)
        check_processor("/none")


class Fields(unittest.TestCase):
    """Coordinates and lines as records have them."""

    def test_units(self) -> None:
        for text, value in (("0", 0), ("-0.0000001", -1), ("6.12838", 61283800), ("-180", -1800000000), ("49.6039900", 496039900)):
            self.assertEqual(units(text), value)
        for value, text in ((0, "0"), (-1, "-0.0000001"), (61283800, "6.12838"), (-1800000000, "-180")):
            self.assertEqual(decimal(value), text)

    def test_line(self) -> None:
        line = line_of("1,2,3,4,500,90,6,49.5,180,6.1,49")
        self.assertEqual((line[:5], line.shape), ((1, 2, 3, 4, 500), ((90, 60000000, 495000000), (180, 61000000, 490000000))))
        self.assertEqual(line_of("1,2,3,4,500").shape, ())


class Words(unittest.TestCase):
    """Command words, records of one line, and batches."""

    def test_word(self) -> None:
        self.assertEqual([word_of(b"node,1,0,0"), word_of(b"report\r")], ["node", "report"])
        self.assertEqual([word_of('"path",a,0,0,1'), word_of("")], ["path", ""])

    def test_one_record(self) -> None:
        for text in ("node,1,0,0", '"node",1,0,0', 'no"de,1,0,0', '"a""b",c', "a,\"b,c\""):
            self.assertTrue(is_one_record(text), text)
            self.assertTrue(is_record(text.encode()), text)
        for text in ("", "a\n", '"a', 'a,"b', "a\rb", '"a\nb"'):
            self.assertFalse(is_one_record(text), text)
            self.assertFalse(is_record(text.encode()), text)

    def test_quotes(self) -> None:
        """All short texts, by a pattern that says the same; a long one takes no memory beyond itself."""
        field = rb'(?:"(?:[^"]|"")*"(?:[^",][^,]*)?|[^",][^,]*|)'
        pattern = re.compile(rb"(?=[^\r\n]+\Z)" + field + rb"(?:," + field + rb")*")
        for text in (bytes(it) for size in range(7) for it in itertools.product(b'a",\n', repeat=size)):
            found = pattern.fullmatch(text) is not None
            self.assertEqual((is_one_record(text), is_record(text)), (found, found), text)
        for text in (b'explain,"' + b"a" * (1 << 18) + b'"', b'"",' * (1 << 14), b'a,"' + b'""' * (1 << 17) + b'"'):
            tracemalloc.start()
            self.assertTrue(is_one_record(text) and is_record(text))
            most = tracemalloc.get_traced_memory()[1]
            tracemalloc.stop()
            self.assertLess(most, 100_000)

    def test_batch(self) -> None:
        batch: Batch[str] = Batch()
        self.assertEqual(batch.accept("node", "a"), ["a"])
        self.assertEqual([batch.accept(it, it) for it in ("begin", "node", "show", "line")], [[]] * 4)
        self.assertEqual((batch.begin, batch.held), ("begin", ["node", "line"]))
        self.assertEqual(batch.accept("commit", "c"), ["node", "line"])
        self.assertEqual((batch.begin, batch.held), (None, None))
        batch.accept("begin", "b")
        batch.accept("node", "a")
        self.assertEqual(batch.accept("abort", "c"), [])

    def test_open(self) -> None:
        is_open = False
        for word, after in (("node", False), ("begin", True), ("node", True), ("commit", False), ("abort", False)):
            is_open = is_open_after(word, is_open)
            self.assertEqual(is_open, after, word)


class Strings(unittest.TestCase):
    """The module olr_keep, which is installed alone, and the tools read strings alike."""

    def test_coordinates(self) -> None:
        lines = ("first,285496,2309750,3,3,4,11,9", "next,-2171,150,3,3,5,2,0", "last,155,-454,3,3,20", "positive,12")
        rows = [it.split(",") for it in lines]
        found, wanted = Explained.of(lines), reference_of((word, list(map(int, more))) for word, *more in rows)
        self.assertEqual([(it.lon, it.lat, it.sector) for it in found.points], [(it.lon, it.lat, it.sector) for it in wanted.points])
        self.assertEqual((found.positive, found.negative), (wanted.positive, wanted.negative))


class Replies(unittest.TestCase):
    """Replies in a stream of text."""

    def test_replies(self) -> None:
        stream = io.StringIO("ok,2\na,text,AAAA\nb,refused,3\nheld,7\nfault,1,Syntax\n")
        found = []
        while reply := read_reply(stream):
            found.append((reply.head, reply.lines, reply.accepted))
        wanted = [("ok,2", ["a,text,AAAA", "b,refused,3"], True), ("held,7", [], True), ("fault,1,Syntax", [], False)]
        self.assertEqual(found, wanted)

    def test_cut_off(self) -> None:
        for text in ("ok,2\na\n", "ok,1\na", "ok,1"):
            with self.assertRaises(EOFError, msg=text):
                read_reply(io.StringIO(text))
        for text in ("begin\n", "ok\n", "ok,x\n", "ok,-1\n"):
            with self.assertRaises(NoReply, msg=text):
                read_reply(io.StringIO(text))
        self.assertEqual(Head.of("fault,12,NotText,3").rest, "NotText,3")


class Files(unittest.TestCase):
    """Files of records, joined."""

    def setUp(self) -> None:
        self.folder = tempfile.TemporaryDirectory()

    def tearDown(self) -> None:
        self.folder.cleanup()

    def write(self, name: str, text: bytes) -> str:
        """A file with this text."""
        path = os.path.join(self.folder.name, name)
        with open(path, "wb") as file:
            file.write(text)
        return path

    def rows(self, *files: str) -> List[List[object]]:
        """The records of files, with the ends of their names."""
        with Records(files) as records:
            return [[it.file[-1], it.line, it.text] for it in records]

    def test_lines(self) -> None:
        one = self.write("1", b"\xef\xbb\xbfnode,1,0,0\r\n\r\nnode,2,0,0\r\r\r")
        two = self.write("2", b'a,"b\nnode,"3",0,0\nc\xff\n')
        wanted = [["1", 1, "node,1,0,0"], ["1", 3, "node,2,0,0"], ["2", 1, 'a,"b'], ["2", 2, 'node,"3",0,0'], ["2", 3, "c\udcff"]]
        self.assertEqual(self.rows(one, two), wanted)

    def test_copy(self) -> None:
        with Records([self.write("1", b'a,"b\nc')]) as records:
            records.file.seek(0)
            self.assertEqual((records.file.read(), records.count), (b"?\nc\n", 2))

    def test_dump(self) -> None:
        self.assertEqual(self.rows(self.write("1", b"ok,2\na\nb\n")), [["1", 2, "a"], ["1", 3, "b"]])
        for text in (b"ok,2\na\n", b"ok,1\na\nb\n", b"ok,1\na"):
            with self.assertRaisesRegex(RecordsError, "not the whole reply to one dump"):
                self.rows(self.write("1", text))

    def test_state(self) -> None:
        state = State()
        self.assertEqual(state.margin, (0, 0))
        state.read_dump(["margin,50,1", "node,1,6,49", "node,2,6.1,49", "line,5,1,2,3,3,700", "path,a.b,10,0,5"])
        state.read_report(["a.b,refused,2,0"])
        self.assertEqual((state.nodes[2], state.lines[5].length, state.ends(5)), ((61000000, 490000000), 700, (1, 2)))
        self.assertEqual((state.paths["a.b"], state.published), ((10, 0, (5,)), {"a.b": ["refused", "2", "0"]}))
        self.assertEqual((state.margin, state.margin.record()), ((50, 1), "margin,50,1"))


class Advice(unittest.TestCase):
    """Why records are rejected."""

    def test_advice(self) -> None:
        for record, head, why in (
            ("line,1,2,3,9,3,10", "fault,2,Range", "FRC is 9, and has to be 0 to 7"),
            ("path,a,0,0,1,2,1", "fault,11,Lines", "line 1 is in it twice"),
            ("Node,1,2,3", "fault,1,Syntax", "'Node' is no command word: write node, in lower case without spaces"),
            ("show,b", "fault,10,NoPath", "path b is not registered: path registers it"),
        ):
            self.assertEqual(advice(record, head), f"{head}: {record}: {why}")
        self.assertTrue(advice("line,1,7,2,3,3,10", "fault,4,NoNode", {2}).endswith("node 7 is not in the map: send it first"))


if __name__ == "__main__":
    unittest.main()
