"""Tests of stream.py, feed.py, worker.py, tables.py and snapshots.py, without a broker."""
import os
import queue
import tempfile
import time
import unittest
from argparse import Namespace
from types import SimpleNamespace
from typing import List
from unittest import mock

from olr_keep_tools import stream
from olr_keep_tools.command import Failure
from olr_keep_tools.feed import Compared, Confirmed, Source
from olr_keep_tools.shares import Shares
from olr_keep_tools.snapshots import Snapshots, load
from olr_keep_tools.tables import AnswerMessage, Tables
from olr_keep_tools.worker import Carrier, Clock, Commands, Done, Reached, Work


def properties(message_id: str, **more: object) -> SimpleNamespace:
    """What a message has beside its body."""
    return SimpleNamespace(**{"message_id": message_id, "type": "changes", "headers": {"identity": "i"}, "timestamp": 5, **more})


class Ids(unittest.TestCase):
    """The ids of messages, and what can be sent."""

    def test_positions(self) -> None:
        for text, position in (("0:7", (7, stream.END, stream.CHANGES)), ("0:7:2", (7, 2, stream.CHANGES)),
                               ("0:7:rejected", (7, stream.END, stream.REJECTED)), ("0:7:2:whole", (7, 2, stream.WHOLE))):
            self.assertEqual((stream.position_of(text), stream.id_of(0, position)), (position, text))
        self.assertLess((7, 2, stream.CHANGES), (7, stream.END, stream.REJECTED))

    def test_plain(self) -> None:
        self.assertTrue(stream.is_plain(b"node,1,0,0\n"))
        for text in (b'"', b"\xff", b"\t"):
            self.assertFalse(stream.is_plain(text))


class Feeds(unittest.TestCase):
    """What a feed sends."""

    def test_source(self) -> None:
        read, write = os.pipe()
        os.write(write, b'node,1,0,0\r\n"node","2",0,0\nbegin\nnode,3,0,0\ncommit,1\n"a,b"\nshow,"a\0"\nshow,a\x0c\n\nbegin\nx')
        os.close(write)
        source = Source(read, "input")
        bodies: List[bytes] = []
        with mock.patch("olr_keep_tools.feed.say"):
            while not source.is_done:
                bodies.append(source.next())
        os.close(read)
        self.assertEqual(b"".join(bodies), b"node,1,0,0\nnode,2,0,0\nbegin\nnode,3,0,0\ncommit,1\n")
        self.assertEqual(source.left_out, 4)

    def test_sent_before(self) -> None:
        first = Compared().message(b"a\nb\n", Confirmed("f"))
        assert first
        there = Confirmed("f")
        self.assertFalse(there.take(3, properties("other:2"), b"a\nb\n", 0))
        self.assertTrue(there.take(4, properties("f:2", headers={"digest": first.digest}), b"a\nb\n", 0))
        self.assertEqual((there.records, there.before, there.seen), (2, {4: 0}, 4))
        again = Compared().message(b"a\nb\nc\n", there)
        self.assertEqual(again and (again.body, again.number), (b"c\n", 3))
        there.digests.append((2, first.digest))
        with self.assertRaisesRegex(Failure, "other records were sent"):
            Compared().message(b"a\nx\nc\n", there)


class Workers(unittest.TestCase):
    """When a worker writes snapshots, and what it waits for."""

    def test_clock(self) -> None:
        clock = Clock(100, None)
        self.assertFalse(clock.is_due())
        clock.bytes = 100
        self.assertTrue(clock.is_due())
        clock.postpone(60)
        self.assertFalse(clock.is_due())
        clock.reset()
        self.assertEqual(clock.bytes, 0)
        self.assertTrue(0 < Clock(1, (3, 30)).next - time.time() <= 90_000)

    def test_published(self) -> None:
        work: "queue.SimpleQueue[Work]" = queue.SimpleQueue()
        done: "queue.SimpleQueue[Done]" = queue.SimpleQueue()
        carrier = Carrier(Namespace(every=1, at=None), None, work, done)
        carrier.clock.bytes = 1
        work.put(Commands(8, b"", (1, 1)))
        work.put(Reached((7, stream.END, stream.CHANGES), "i"))
        self.assertTrue(carrier.is_published(7))
        self.assertEqual([it.offset for it in carrier.waiting], [8])


class TablesOfAnswers(unittest.TestCase):
    """The table of published answers in a file."""

    def test_table(self) -> None:
        with tempfile.TemporaryDirectory() as folder:
            table = Tables.of(f"{folder}/table", Shares(1))
            table.apply_all([AnswerMessage(0, 0, properties("0:3"), b"a,text,AAAA\nb,refused,3\n"),
                             AnswerMessage(0, 1, properties("0:4:rejected", type="rejected"), b"2,4,NoNode,move,9,0,0\n"),
                             AnswerMessage(0, 2, properties("0:4"), b"a,dropped\n"), AnswerMessage(0, 2, properties("0:4"), b"b,dropped\n")])
            self.assertEqual(table.rows("select name, answer from published"), [("b", "refused,3")])
            self.assertEqual(table.rows("select record, fault, word, text from rejected"), [(2, 4, "NoNode", "move,9,0,0")])
            self.assertEqual((list(table.offsets()), table.is_at(4), table.is_at(5)), ([(0, 4, 3)], True, False))
            with self.assertRaisesRegex(Failure, "start a new table from a newer"):
                table.apply_all([AnswerMessage(0, 9, properties("0:9"), b"")])
            with self.assertRaisesRegex(Failure, "belong to the commands"):
                table.apply_all([AnswerMessage(0, 3, properties("0:5", headers={"identity": "j"}), b"")])
            table.close()
            with self.assertRaisesRegex(Failure, "the table is for 1 shares"):
                Tables.of(f"{folder}/table", Shares(2))

    def test_unreadable(self) -> None:
        """A message that nobody who sends answers sends is left out and named; one that has what isn't printed is read."""
        with tempfile.TemporaryDirectory() as folder:
            table = Tables.of(f"{folder}/table", Shares(1))
            for read, (message_id, body) in enumerate((
                    (None, b"a,dropped\n"), ("0", b""), ("0:1:x", b""), ("0:1", b"a\x0c\n"), ("0:1", b"a b,text,A\n"), ("0:1:rejected", b"1,2\n"))):
                with mock.patch("olr_keep_tools.tables.say") as said:
                    table.apply_all([AnswerMessage(0, read, properties(str(message_id), headers={"identity": "j"}), body)])
                self.assertIn(f"a message at {read} that can't be read", said.call_args[0][0])
            table.apply_all([AnswerMessage(0, 6, properties("0:1:rejected"), b"4,0,NotPlain,a\x0cb\x00\xef\xbf\xbd\n"),
                             AnswerMessage(0, 7, properties("0:1"), b"a,text,A\nb,refused,3\n")])
            self.assertEqual(table.rows("select record, text from rejected"), [(4, "a?b????")])
            self.assertEqual(table.of_share(0), ((1, stream.END), 7))
            table.close()

    def test_compared(self) -> None:
        """All answers of a share, as its worker has computed them, are set and named where the table has others."""
        with tempfile.TemporaryDirectory() as folder:
            table = Tables.of(f"{folder}/table", Shares(1))
            table.apply_all([AnswerMessage(0, 0, properties("0:1"), b"a,text,A\nb,text,B\n")])
            for read, body, wanted in ((1, b"a,text,A\nb,text,B\n", 0), (2, b"b,text,C\nc,text,D\n", 3), (3, b"b,text,C\nc,text,D\n", 0)):
                with mock.patch("olr_keep_tools.tables.say") as said:
                    table.apply_all([AnswerMessage(0, read, properties("0:1:whole", type="whole"), body)])
                self.assertEqual(f": {wanted} are set" in str(said.call_args), wanted > 0)
            with mock.patch("olr_keep_tools.tables.say") as said:
                table.apply_all([AnswerMessage(0, 4, properties("0:0:whole", type="whole"), b"a,text,A\n"),
                                 AnswerMessage(0, 5, properties("0:2:whole", type="whole"), b"b,text,E\nc,text,D\n")])
            self.assertFalse(said.called)
            self.assertEqual(table.rows("select name, answer from published order by name"), [("b", "text,E"), ("c", "text,D")])
            self.assertEqual(list(table.offsets()), [(0, 2, 6)])
            table.close()

    def test_cut_snapshot(self) -> None:
        """A snapshot that isn't as it was written is refused; one without a digest, of 2.0.0, isn't."""
        text = b"node,1,0,0\nnode,2,0,0\n"
        with tempfile.TemporaryDirectory() as folder:
            snapshots, program, share = Snapshots(folder, "s", 0, Shares(1)), mock.Mock(), mock.Mock()
            program.write_dump = lambda file: file.write(text)
            share.carry_out_part.return_value, share.batch.held = [], None
            snapshots.write(program, 3, "i", {})
            newest = snapshots.newest()
            assert newest
            load(share, newest)
            self.assertEqual(newest.records, 2)
            for wrong in (text[:11], text[:-2], text.replace(b"2", b"3")):
                with open(newest.file, "wb") as file:
                    file.write(wrong)
                self.assertRaisesRegex(Failure, "is not as it was written", load, share, newest)
                load(share, newest._replace(digest=None))

    def test_snapshots(self) -> None:
        with tempfile.TemporaryDirectory() as folder:
            snapshots, program = Snapshots(folder, "s", 0, Shares(1)), mock.Mock()
            program.write_dump = lambda file: file.write(b"node,1,0,0\n")
            for offset in (3, 5, 9):
                snapshots.write(program, offset, "i", {"a": 0})
            self.assertEqual(snapshots.offsets(), [5, 9])
            newest = snapshots.newest()
            self.assertEqual(newest and (newest.offset, newest.identity, newest.names), (9, "i", {"a": 0}))


if __name__ == "__main__":
    unittest.main()
