"""Inputs that are far from what a tool expects: each is refused with a reason, in a moment."""
import contextlib
import io
import os
import tempfile
import time
import unittest
import zlib
from typing import Iterator

from olr_keep_tools import courses, osmrecords, refound
from olr_keep_tools.command import printable
from olr_keep_tools.files import FileFailure
from olr_keep_tools.osm import Extract, OsmError, read_xml, refuse_inflated
from olr_keep_tools.records import LONGEST_LINE, Path, Records, RecordsError, State
from olr_keep_tools.twomaps import TwoMaps


@contextlib.contextmanager
def written(content: bytes) -> Iterator[str]:
    """The name of a file with this content."""
    with tempfile.TemporaryDirectory() as folder:
        name = os.path.join(folder, "file")
        with open(name, "wb") as file:
            file.write(content)
        yield name


def varint(value: int) -> bytes:
    """A number of a message of Protocol Buffers."""
    return bytes([value]) if value < 128 else bytes([value & 127 | 128]) + varint(value >> 7)


def block(content: bytes, is_last: bool = False) -> bytes:
    """A block of a PBF file, whose size stands before its content, or after it."""
    size, packed = b"\x10" + varint(len(content)), zlib.compress(content)
    packed = b"\x1a" + varint(len(packed)) + packed
    blob = packed + size if is_last else size + packed
    head = b"\x0a\x07OSMData\x18" + varint(len(blob))
    return len(head).to_bytes(4, "big") + head + blob


class Inputs(unittest.TestCase):
    def test_pbf(self) -> None:
        with written(block(os.urandom(5000)) * 20) as name:
            refuse_inflated(name)
        for is_last in (False, True):
            with written(block(b"\0" * 10_000_000, is_last) * 3) as name, self.assertRaisesRegex(OsmError, "times as large as the file"):
                refuse_inflated(name)
        for cut in range(40):
            with written(block(os.urandom(50))[:cut]) as name:
                refuse_inflated(name)

    def test_xml(self) -> None:
        for text in (b'<?xml version="1.0" encoding="nothing"?><osm/>', b"<osm><node id='9999999999999999999999' lon='6' lat='49'/></osm>"):
            with self.assertRaises(OsmError):
                read_xml(io.BytesIO(text), Extract(False))

    def test_numbers(self) -> None:
        good = b"node 1 1\nnode -2+7+1 2\nline 5:1:-2:+:1 1\nline 6:1:-2:+:1 1\nsplit 5:1:-2:+:1 1\nlengths sphere 1\nlengths sphere 3\n"
        with written(good) as name:
            self.assertEqual(osmrecords.read_table(name)["node"].last, 2)
        for row in (b"node 1 x", b"node 1 -1", b"node 1 0", b"node 9 4294967296", b"node 9 1_0", b"node x 3", b"line 5:1 9", b"line 5:1:2:*:1 9",
                    b"node 9 2", b"other 1 1", b"node \xff 3", b"lengths cube 1", "node 1 \u0663".encode()):
            with self.subTest(row), written(good + row) as name, self.assertRaises(FileFailure):
                osmrecords.read_table(name)

    def test_lines(self) -> None:
        with written(b"node,1,0," + b"0" * (LONGEST_LINE + (2 << 20))) as name, self.assertRaisesRegex(RecordsError, "longer than 16 MB"):
            Records([name])

    def test_far_points(self) -> None:
        """A straight segment that a wrong coordinate makes very long is compared at some points."""
        for length, count in ((95.0, 10), (9_999.0, 1000), (9e6, 1000)):
            self.assertEqual(len(list(courses.Polyline([(0.0, 0.0), (length, 0.0)]).samples(0.0, length))), count + 1)
        began = time.process_time()
        self.assertGreater(refound.farthest([(6.0, 49.0), (6.0, -80.0)], [(6.0, 49.0), (6.01, 49.0)]), 1000.0)
        self.assertLess(time.process_time() - began, 2.0)

    def test_far_course(self) -> None:
        """On which road a path is isn't decided if a coordinate of its course is far off, which would take minutes."""
        for lon, is_decided in (("6.01", True), ("-170", False)):
            state, path = State(), Path(0, 0, (1,))
            state.read_dump(["node,1,6,49", f"node,2,{lon},49", "line,1,1,2,3,3,7000"])
            self.assertEqual(TwoMaps(state, state, [path]).roads(path) is not None, is_decided)

    def test_far_line_beside(self) -> None:
        """A line beside a path that a wrong coordinate makes very long costs no time."""
        state, began = State(), time.process_time()
        state.read_dump(["node,1,6,49", "node,2,6.01,49", "node,3,-170,-80", "line,1,1,2,3,3,7000", "line,2,2,3,3,3,7000"])
        path = Path(0, 0, (1,))
        self.assertIs(TwoMaps(state, state, [path]).on_its_road(path, path).path, path)
        self.assertLess(time.process_time() - began, 2.0)

    def test_printable(self) -> None:
        self.assertEqual(printable("a\x1b[31mb\u202ec\udcff\n\u00e9"), "a\ufffd[31mb\ufffdc\ufffd\n\u00e9")


if __name__ == "__main__":
    unittest.main()
