"""Tests of the parts of the service, without the program."""
import asyncio
import collections
import contextlib
import json
import os
import random
import shutil
import socket
import sqlite3
import tempfile
import threading
import unittest
from concurrent.futures import ThreadPoolExecutor
from dataclasses import replace
from typing import Any, Deque, List, Optional, Tuple, Union
from unittest import mock

from olr_keep_tools.command import Failure
from olr_keep_tools.serve import exchange, framing, logfile, sockets, table
from olr_keep_tools.serve.framing import NoReply, Replies, Span
from olr_keep_tools.serve.jobs import Change, Job, Kind, batch, dropped, preview, question_about
from olr_keep_tools.serve.lines import Input, Sort, pieces
from olr_keep_tools.serve.noted import Point
from olr_keep_tools.serve.notify import Systemd
from olr_keep_tools.serve.program import Ended, Program
from olr_keep_tools.serve.table import SKIPPED, Entry, Table, TableError, Taken
from olr_keep_tools.serve.unread import Unread
from olr_keep_tools.serve.writer import Limits

PSYCOPG2: Any = getattr(table, "psycopg2")
OLD_TABLE = f"{os.path.dirname(__file__)}/../../checks/releases/2.0.0/table.sql"


class Owner:
    """Who gets replies."""

    user = "jane"

    def reply(self, text: bytes) -> None:
        """Nothing is noted."""

    def cut(self) -> None:
        """Nothing is noted."""

    def finish(self, job: Job) -> None:
        """Nothing is noted."""


class Source(Owner):
    """A connection with jobs."""

    is_slow = False

    def __init__(self) -> None:
        self.unsent: Deque[Job] = collections.deque()
        self.replies: List[bytes] = []
        self.is_cut = False

    def reply(self, text: bytes) -> None:
        self.replies.append(text)

    def cut(self) -> None:
        self.is_cut = True

    def sent(self, size: int) -> None:
        """Nothing is noted."""


class Sockets(unittest.TestCase):
    """Who gets a socket of a name."""

    def test_one_of_several_at_once(self) -> None:
        with tempfile.TemporaryDirectory() as folder:
            for k in range(20):
                with socket.socket(socket.AF_UNIX) as left:
                    left.bind(f"{folder}/{k}")
                begin = threading.Barrier(4)
                with ThreadPoolExecutor(4) as pool:
                    found = [it.result() for it in [pool.submit(self.listening, f"{folder}/{k}", begin) for _ in range(4)]]
                served = [it for it in found if isinstance(it, socket.socket)]
                self.assertEqual([it for it in found if it not in served], 3 * [sockets.IN_USE])
                served[0].close()

    @staticmethod
    def listening(name: str, begin: threading.Barrier) -> Union[socket.socket, int]:
        """The socket, or the status of a service that doesn't get it."""
        begin.wait()
        try:
            return sockets.listening(name, 0o600, "")
        except Failure as why:
            return why.status


class Windows(unittest.TestCase):
    """How many records are sent before their replies have arrived."""

    def setUp(self) -> None:
        self.now, self.written = 0.0, b""
        clock = mock.patch("time.monotonic", lambda: self.now)
        clock.start()
        self.addCleanup(clock.stop)
        self.said: List[str] = []
        self.may_compact = self.has_room = True
        self.passed, self.source = exchange.Exchange(lambda *_: None, lambda: True, self, lambda _: self.has_room), Source()
        program: Any = mock.Mock(write=self.write)
        self.passed.connect(program)

    def write(self, text: bytes) -> None:
        self.written += text

    def may_begin(self) -> bool:
        """Whether a `compact` may be sent."""
        return self.may_compact

    def begin(self) -> None:
        """It is sent."""
        self.end()

    def end(self) -> str:
        """It has its reply."""
        return self.said.pop() if self.said else ""

    def carry_out(self, records: bytes, rate: float) -> None:
        """Has records carried out, so many in a second."""
        kind = Kind.CHANGES if records.startswith(b"node") else Kind.QUESTION
        self.source.unsent.append(Job(self.source, kind, records, records.count(b"\n")))
        self.passed.offer(self.source)
        while self.written:
            count = min(1000, self.written.count(b"\n"))
            self.written = self.written.split(b"\n", count)[count]
            self.now += count / rate
            self.passed.take_output(b"ok,0\n" * count)

    def test_window(self) -> None:
        """It is what is carried out in a tenth of a second. A question that takes long, or few records, say nothing of that."""
        self.carry_out(b"report\n", 1 / 30)
        self.assertEqual(self.passed.window, exchange.FIRST_WINDOW)
        nodes = b"node,1,0,0\n" * 200_000
        self.carry_out(nodes, 500_000)
        self.assertAlmostEqual(self.passed.window, 50_000, delta=10_000)
        self.carry_out(nodes[:1100], 100)
        self.assertAlmostEqual(self.passed.window, 50_000, delta=10_000)
        self.carry_out(nodes, 1000)
        self.assertLess(self.passed.window, 200)
        self.now += 1
        self.carry_out(nodes, 500_000)
        self.assertAlmostEqual(self.passed.window, 50_000, delta=10_000)

    def test_compact(self) -> None:
        """It is sent alone. Its reply is a fault if the program says until then that the log is not replaced, and no other's is."""
        for text in b"node,1,0,0\n", b"compact\n", b"show,a\n", b"compact\n":
            self.source.unsent.append(Job(self.source, Kind.CHANGES if text.startswith(b"node") else Kind.QUESTION, text, 1))
        self.passed.offer(self.source)
        self.assertEqual(self.written, b"node,1,0,0\n")
        self.said = ["before"]
        self.passed.take_output(b"ok,0\n")
        self.assertEqual(self.written, b"node,1,0,0\ncompact\n")
        self.said = ["a full disk"]
        self.passed.take_output(b"ok,0\n")
        self.said = ["of no record"]
        self.passed.take_output(b"fault,10,NoPath\n")
        self.passed.take_output(b"ok,0\n")
        self.assertEqual(self.written, b"node,1,0,0\ncompact\nshow,a\ncompact\n")
        self.assertEqual(self.source.replies, [b"ok,0\n", b"fault,0,NotCompacted,the log is used as it is: a full disk\n", b"fault,10,NoPath\n", b"ok,0\n"])


    def test_long(self) -> None:
        """Those who wait when a long reply has ended have their turn before the next one, and each of these once there is room."""
        others = [Source() for _ in range(4)]
        for it, text in zip(others, (b"dump\n", b"report\n", b"node,1,0,0\n", b"show,a\n")):
            it.unsent.append(Job(it, Kind.CHANGES if text.startswith(b"node") else Kind.QUESTION, text, 1))
            self.passed.offer(it)
        self.assertEqual(self.written, b"dump\n")
        others[3].unsent.append(Job(others[3], Kind.QUESTION, b"ambiguous\n", 1))
        self.passed.take_output(b"ok,1\na\n")
        self.assertEqual(self.written, b"dump\nnode,1,0,0\nshow,a\nreport\n")
        self.has_room = False
        self.passed.take_output(b"ok,0\nok,0\nok,0\n")
        self.assertEqual(self.written, b"dump\nnode,1,0,0\nshow,a\nreport\n")
        self.has_room = True
        self.passed.dispatch()
        self.assertEqual(self.written, b"dump\nnode,1,0,0\nshow,a\nreport\nambiguous\n")

    def test_cut(self) -> None:
        """If the program ends within a reply of which a part was passed on, its connection ends."""
        self.source.unsent.append(Job(self.source, Kind.QUESTION, b"dump\n", 1))
        self.passed.offer(self.source)
        with mock.patch.object(framing, "PART", 6):
            self.passed.take_output(b"ok,3\na,1\nb,")
            self.passed.take_output(b"2")
        self.assertEqual((self.source.replies, self.source.is_cut), ([b"ok,3\na,1\n"], False))
        self.passed.disconnect()
        self.assertEqual((self.source.replies, self.source.is_cut), ([b"ok,3\na,1\n"], True))


class Unreads(unittest.TestCase):
    def test_stalled(self) -> None:
        """Who reads nothing is ended once others wait, and who reads a little isn't."""
        unread, sizes = Unread(100, 10.0), [60, 60, 60]
        transports = [mock.Mock(get_write_buffer_size=lambda k=k: sizes[k]) for k in range(3)]
        with mock.patch("time.monotonic", lambda: 0.0):
            for it in transports:
                unread.add(it)
        for second in range(1, 14):
            sizes[1] -= 1
            self.assertEqual(unread.has_room() if second != 11 else False, False)
            unread.look(float(second))
        self.assertEqual([it.abort.called for it in transports], [True, False, True])
        unread.discard(transports[0])
        unread.discard(transports[2])
        self.assertTrue(unread.has_room())


class Messages(unittest.TestCase):
    def test_order(self) -> None:
        """What the program said before a reply is known when the reply is, also if much was said."""
        script = ("read; for k in $(seq $2); do echo message $k >&2; done; "
                  "echo olr-keep: a is not compacted, and is used as it is: $1 >&2; echo ok,0; exit 9")
        for count in range(20):
            reader = TakesReplies()
            asyncio.run(reader.run(["bash", "-c", script, "-", f"why {count}", f"{count * 300}"]))
            self.assertEqual((reader.why, reader.ended and reader.ended.status), ([f"why {count}"], 9))


class TakesReplies:
    """Asks with each reply whether the log was replaced."""

    def __init__(self) -> None:
        self.why: List[str] = []
        self.ended: Optional[Ended] = None

    async def run(self, command: List[str]) -> None:
        """Runs a program to its end."""
        self.done = asyncio.Event()
        self.program = await Program.start(command, self, lambda _: None)
        self.program.write(b"\n")
        await self.done.wait()

    def take_output(self, data: bytes) -> None:
        """Asks."""
        self.why.append(self.program.why_uncompacted())

    def take_end(self, ended: Ended) -> None:
        """It has ended."""
        self.ended = ended
        self.done.set()


class IdlePlaces(unittest.TestCase):
    def test_idle(self) -> None:
        """If all places are taken, the one that has been idle for longest is given away, one with an open batch last."""
        limits = Limits(3, 60.0, 1, 1, 60.0, Unread(1))
        with mock.patch("time.monotonic", lambda: 100.0):
            for active, is_idle, held, wanted in (
                ((10, 20, 30), (True, True, True), "", [1, 2]), ((50, 40, 30), (True, True, True), "", [0, 1]),
                ((30, 40, 50), (True, True, True), "0", [0, 2]), ((30, 41, 50), (True, True, True), "0", [1, 2]),
                ((10, 20, 30), (False, False, True), "", [0, 1]), ((10, 20, 30), (False, False, False), "", [0, 1, 2]),
                ((41, 42, 43), (True, True, True), "", [0, 1, 2])):
                writers = [mock.Mock(active=at, is_idle=idle, batch=1 if str(k) in held else None)
                           for k, (at, idle) in enumerate(zip(active, is_idle))]
                for it in writers:
                    it.give_place = mock.Mock(side_effect=lambda it=it: limits.open.discard(it))
                limits.open = set(writers)
                self.assertEqual(limits.has_room(), len(wanted) == 2)
                self.assertEqual([k for k, it in enumerate(writers) if it in limits.open], wanted)


class Notifications(unittest.TestCase):
    def test_unread(self) -> None:
        """Nobody reads what is reported: the service goes on."""
        with tempfile.TemporaryDirectory() as folder, socket.socket(socket.AF_UNIX, socket.SOCK_DGRAM) as manager:
            manager.bind(f"{folder}/notify")
            manager.setsockopt(socket.SOL_SOCKET, socket.SO_RCVBUF, 4096)
            environment: Any = {"NOTIFY_SOCKET": f"{folder}/notify"}
            systemd = Systemd(environment)
            for _ in range(2000):
                systemd.tell("STATUS=" + "x" * 1000)
            self.assertTrue(manager.recv(4096).startswith(b"STATUS=x"))


class Framing(unittest.TestCase):
    def test_any_division(self) -> None:
        """However the bytes arrive, and however many are taken at once, the replies are the same."""
        rnd = random.Random(1)
        texts = [rnd.choice([b"ok,0\n", b"held,7\n", b"fault,0,Word,text\n", b"ok,1\na,text,AAAA\n", b"ok,3\nok,0\nfault,1\nok,7\n"])
                 for _ in range(500)]
        part = mock.patch.object(framing, "PART", 8)
        part.start()
        self.addCleanup(part.stop)
        for _ in range(50):
            replies, data, count = Replies(), b"".join(texts), 0
            found: List[bytes] = []
            while data:
                size = rnd.randrange(1, 400)
                replies.feed(data[:size])
                data = data[size:]
                while span := replies.take(rnd.choice([1, 2, 1000]), rnd.random() < 0.5):
                    found.append(span.text)
                    count += span.count
            self.assertEqual(b"".join(found), b"".join(texts))
            self.assertEqual(count, len(texts))

    def test_no_reply(self) -> None:
        replies = Replies()
        replies.feed(b"node,1,6,49\n")
        self.assertRaises(NoReply, replies.take, 1)


class Lines(unittest.TestCase):
    def sorts(self, text: bytes, size: int = 1 << 16) -> List[Tuple[Sort, int]]:
        source = Input()
        return [(it.sort, it.count) for at in range(0, len(text), size) for it in source.feed(text[at : at + size])]

    def test_sorts(self) -> None:
        text = b"node,1,0,0\nline,1\n\r\ndrop-path,a\nbegin\n\"node\",2,0,0\ncommit,1\ncommit,x\nabort\nbegin,1\nshow,a\nnodes,1\ndump\nx\n"
        wanted = [(Sort.CHANGES, 2), (Sort.DROP_PATH, 1), (Sort.BEGIN, 1), (Sort.CHANGES, 1), (Sort.COMMIT, 1), (Sort.OTHER, 1),
                  (Sort.ABORT, 1), (Sort.OTHER, 3), (Sort.ALONE, 1), (Sort.OTHER, 1)]
        self.assertEqual(self.sorts(text), wanted)
        self.assertEqual(sum(count for _, count in self.sorts(text, 3)), 13)

    def test_empty(self) -> None:
        """A line with nothing in its quotes is a record, which is rejected, and an empty line is none."""
        self.assertEqual([it.text for it in pieces(b'\n""\n\r\n""\r\nshow,"a"\n')], [b"?\n?\nshow,a\n"])

    def test_too_long(self) -> None:
        text = b"node,1," + b"0" * (1 << 20) + b"\nshow,a\n"
        for size in (1 << 16, 1 << 22):
            self.assertEqual([it for it, _ in self.sorts(text, size)], [Sort.TOO_LONG, Sort.OTHER])
        self.assertEqual([it for it, _ in self.sorts(b"x" * (1 << 20) + b"\n")], [Sort.OTHER])


def taken(job: Job, replies: bytes) -> bytes:
    """What the owner of a job gets for the program's replies to it."""
    source, found = Replies(), b""
    source.feed(replies)
    while job.done < job.count:
        span = source.take(job.next_most())
        assert span is not None
        found += job.take(span)
    return found


class Jobs(unittest.TestCase):
    def test_batch(self) -> None:
        """A batch gives the reply to its commit alone, with the first change that was rejected."""
        for replies, wanted, changes in (
            (b"ok,0\nheld,1\nheld,2\nok,1\na,text,A\nfault,15,NoBatch\n", b"ok,1\na,text,A\n", [Change("b", None), Change("a", "text,A")]),
            (b"ok,0\nheld,1\nfault,6,NoLine\nfault,16,CountDiffers\nok,0\n", b"fault,16,CountDiffers,2,6,NoLine\n", []),
            (b"ok,0\nheld,1\nheld,2\nfault,13,Memory\nok,0\n", b"fault,13,Memory\n", []),
        ):
            job = batch(Owner(), [b"drop-path,b\n", b"path,a,0,0,1\n"], 2)
            self.assertEqual((taken(job, replies), job.changes), (wanted, changes))

    def test_preview(self) -> None:
        """A preview gives its own reply, or the first change that was rejected, and changes nothing."""
        for replies, wanted in (
            (b"ok,0\nheld,1\nheld,2\nok,1\na,text,A\nok,0\n", b"ok,1\na,text,A\n"),
            (b"ok,0\nheld,1\nfault,6,NoLine\nok,0\nok,0\n", b"fault,16,CountDiffers,2,6,NoLine\n"),
            (b"ok,0\nheld,1\nheld,2\nfault,13,Memory\nok,0\n", b"fault,13,Memory\n"),
        ):
            job = preview(Owner(), [b"drop-path,b\n", b"path,a,0,0,1\n"], 2)
            self.assertEqual((taken(job, replies), job.changes), (wanted, []))

    def test_not_known(self) -> None:
        job = Job(Owner(), Kind.CHANGES, b"node,1,0,0\nset-line,7,1\nrepath,a,0\n", 3, done=1)
        self.assertEqual(job.not_known(), b"fault,0,NotKnown,ask show-line,7\nfault,0,NotKnown,ask show,a\n")
        self.assertEqual(batch(Owner(), [b"move,5,0,0\n"], 1).not_known(), b"fault,0,NotKnown,of the whole batch; ask show-node,5\n")
        self.assertEqual([question_about(it) for it in (b"report", b"margin,50,1")], ["report", "show-margin"])

    def test_dropped(self) -> None:
        text = b"begin\ndrop-path,a\ndrop-path,b\npath,b,0,0,1\npath,c,0,0,1\ndrop-path,c\ncommit,5\n"
        self.assertEqual(list(dropped(text)), [Change("a", None), Change("c", None)])

    def test_drops(self) -> None:
        """Of several paths that are dropped each that was there is a change."""
        job = Job(Owner(), Kind.DROP_PATH, b"drop-path,a\ndrop-path,b\ndrop-path,c\n", 3)
        for replies in (b"ok,0\n", b"fault,10,NoPath\nok,0\n"):
            job.take(Span(replies.count(b"\n"), replies, False))
        self.assertEqual((job.changes, job.rejected, job.done), ([Change("a", None), Change("c", None)], 1, 3))

    def test_split(self) -> None:
        job = Job(Owner(), Kind.CHANGES, b"node,1\nnode,2\nnode,3\n", 3)
        part = job.split(2)
        self.assertEqual((part.text, part.count, job.text, job.count), (b"node,1\nnode,2\n", 2, b"node,3\n", 1))


class Logs(unittest.TestCase):
    def test_scan(self) -> None:
        """A log that grows is counted on, whole records only; one that was replaced is counted again."""
        with tempfile.TemporaryDirectory() as folder:
            name, texts = f"{folder}/log", [f"node,{k},0,0\nline,{k},1,1,1,1,1\npath,p{k},0,0,1\n" for k in range(40_000)]
            with open(name, "w", encoding="ascii") as file:
                file.write("\n" + "".join(texts) + "drop-path,p1\ndrop-line,1\nrepath,p2,0,0,1\nnode,9")
            scan = logfile.Scan(name)
            self.assertTrue(scan.update())
            self.assertGreater(os.path.getsize(name), logfile.BLOCK)
            self.assertEqual((scan.contents.nodes, scan.contents.lines, scan.contents.paths), (40_000, 39_999, 39_999))
            with open(name, "a", encoding="ascii") as file:
                file.write("9999,0,0\nnode,7,0,0\n")
            self.assertTrue(scan.update())
            self.assertEqual(scan.contents.nodes, 40_002)
            before = scan.last(None)
            for change in (self.replaced, self.cut, self.overwritten):
                change(name)
                self.assertFalse(scan.update())
                self.assertEqual(scan.last(None), before)

    @staticmethod
    def replaced(name: str) -> None:
        """The same content in another file."""
        shutil.copyfile(name, f"{name}.new")
        os.replace(f"{name}.new", name)

    @staticmethod
    def cut(name: str) -> None:
        """Without its last bytes."""
        os.truncate(name, os.path.getsize(name) - 1)

    @staticmethod
    def overwritten(name: str) -> None:
        """Another, longer content."""
        with open(name, "w", encoding="ascii") as file:
            file.write("\n" + "node,1,0,0\n" * 400_000)

    def test_whole(self) -> None:
        """However a text is divided, what counts is what a definition says: whole lines before the first carriage return, up to the
        last one that isn't empty and is in no open batch."""
        rnd = random.Random(3)
        for _ in range(300):
            lines = [rnd.choice(("node,1,0,0", "drop-node,1", "begin", "commit,1", "line,1,1,1,1,1,1", "", "x" * 3000)) for _ in range(rnd.randrange(40))]
            text = "\n" + "".join(f"{it}\n" for it in lines) + rnd.choice(("", "node,9", "begin", "\r\rnode,9,0,0\n"))
            with tempfile.TemporaryDirectory() as folder, mock.patch.object(logfile, "BLOCK", rnd.choice((16, 64, 1 << 20))):
                scan = logfile.Scan(written(f"{folder}/log", text))
                scan.update()
                self.assertEqual(scan.contents, counted(text), text)

    def test_bytes(self) -> None:
        """Each byte of a whole record that the program doesn't write is found. What stands behind the text is said, and no reason."""
        own = b"\nnode,1,0,0\nnode,2,0,0\n"
        with tempfile.TemporaryDirectory() as folder:
            for at in range(1, len(own)):
                for byte in b"\0\"\xff":
                    text = own[:at] + bytes([byte]) + own[at + 1 :]
                    is_last = at >= len(own) - 1
                    self.assertEqual(against(folder, text), not is_last, text)
                self.assertEqual(against(folder, own[:at]), not own[:at].endswith(b"\n"))
                for rest in b"\r" * 3_000_000, b"\r\nnode,3,0,0\n", b"\0\0", b"\xff\r":
                    self.assertFalse(against(folder, own[:at] + rest))

    def test_missing(self) -> None:
        """What was noted has to be there, byte by byte up to its end; what follows it may be anything."""
        text = b"\n" + b"".join(b"node,%d,0,0\npath,p%d,0,0,1\n" % (k, k) for k in range(3000))
        with tempfile.TemporaryDirectory() as folder:
            name = f"{folder}/log"
            scan = logfile.Scan(written(name, text.decode()))
            scan.update()
            last = scan.last(None)
            drops = b"".join(b"drop-path,p%d\n" % k for k in range(2900))
            for now, wanted in (
                (text, False), (text + drops, False), (text + b"begin\n" + drops, False), (text + b"\r" + drops, False), (text[:-13], True),
                (text[:-13] + b"\r" * 9000, True), (text[:3], True), (b"", True), (text[:-3000] + text, True),
                (text[:-5] + b"9,1\n", True), (text[:-5] + b"9,1\n" + drops, True), (text[1:] + drops, True)):
                logfile.write_last(name, last)
                self.assertEqual(against(folder, now), wanted, now[-40:])
            # With the counts alone, as version 2.0.0 has noted them.
            logfile.write_last(name, replace(last, length=-1))
            for now, wanted in ((text + drops, True), (text + b"begin\n" + drops, False), (text + b"\r" + drops, False),
                                (text[:-13] + b"\r" * 9000, False), (text[:-3000] + b"\r", True), (b"", True)):
                self.assertEqual(against(folder, now), wanted, now[-40:])

    def test_compacting(self) -> None:
        """A log that was about to be replaced may be another file with the same counts, and only then; so may one that was accepted."""
        text = "\n" + "".join(f"node,{k},0,0\npath,p{k},0,0,1\n" for k in range(300))
        dumps = (text + "\r", True), (text.replace(",0,0\n", ",0,1\n"), True), (text.replace("path,", "node,"), False), (text[:6000] + "\r", False)
        with tempfile.TemporaryDirectory() as folder:
            name = f"{folder}/log"
            for compacting in True, False:
                for dump, is_right in dumps:
                    scan = logfile.Scan(written(name, text))
                    scan.update()
                    logfile.write_last(name, replace(scan.last(None), compacting=compacting))
                    os.replace(written(f"{name}.new", dump), name)
                    self.assertEqual(is_against(name), not (compacting and is_right or dump.startswith(text)))
                    logfile.accept(name)
                    self.assertFalse(is_against(name))
                    os.replace(written(f"{name}.new", dump.replace(",0\n", ",7\n")), name)
                    self.assertFalse(is_against(name))

    def test_last_of_others(self) -> None:
        """What 2.0.0 has noted, more, less, or nothing that can be read."""
        with tempfile.TemporaryDirectory() as folder:
            name = written(f"{folder}/log", "\nnode,1,0,0\n")
            for text, paths in (
                ('{"nodes": 1, "lines": 2, "paths": 30, "seconds": 0.5, "size": 7}', 30), ('{"paths": 30}', 30), ("{}", 0),
                ('{"paths": 5, "later": [1]}', 5), ("", None), ("[1]", None), ('{"paths": "many"}', None), ("\0\0", None)):
                written(f"{name}.last", text)
                found = logfile.read_last(name)
                self.assertEqual(found.paths if found else None, paths)
                self.assertEqual([it.is_against for it in logfile.look(name)], [False] if paths is None else [True] if paths == 30 else [])
            with open(f"{name}.last", "w", encoding="ascii") as file:
                logfile.write_last(name, logfile.Last(1, 2, 3, 4.0, 5, 6, "7", 8))
            with open(f"{name}.last", encoding="ascii") as file:
                self.assertEqual({**json.load(file), "seconds": 4.0}, {
                    "nodes": 1, "lines": 2, "paths": 3, "seconds": 4.0, "size": 5, "length": 6, "digest": "7", "inode": 8, "compacting": False})

    def test_names(self) -> None:
        """Another name of the log is said, and no reason not to serve it."""
        with tempfile.TemporaryDirectory() as folder:
            name = written(f"{folder}/log", "\nnode,1,0,0\n")
            os.link(name, f"{name}.daily")
            self.assertEqual([(it.is_against, "has 2 names" in it.text) for it in logfile.look(name)], [(False, True)])


def written(name: str, text: str) -> str:
    """The name of a file with this text."""
    with open(name, "w", encoding="latin-1", newline="") as file:
        file.write(text)
    return name


def is_against(name: str) -> bool:
    """Whether something speaks against serving a log."""
    return any(it.is_against for it in logfile.look(name))


def against(folder: str, text: bytes) -> bool:
    """Whether something speaks against serving a log of this text."""
    return is_against(written(f"{folder}/log", text.decode("latin-1")))


def counted(text: str) -> logfile.Contents:
    """What a log has whose first line is empty, line by line."""
    size, at, is_open = 0, 0, False
    for line in text.partition("\r")[0].split("\n")[:-1]:
        at += len(line) + 1
        is_open = line == "begin" or is_open and not line.startswith("commit,")
        size = at if line and not is_open else size
    lines = text[:size].split("\n")
    nodes, drops = sum(it.startswith("node,") for it in lines), sum(it.startswith("drop-node,") for it in lines)
    return logfile.Contents(nodes - drops, sum(it.startswith("line,") for it in lines), 0, size)


class Tables(unittest.TestCase):
    def test_history(self) -> None:
        with tempfile.TemporaryDirectory() as folder:
            table = Table(f"{folder}/table", retained=1000)
            self.addCleanup(table.close)
            entries = [Entry(Change("a", "text,A"), "now", "jane"), Entry(Change("b", "text,B"), "now", "joe"), Entry(Change("a", None), "now", "joe")]
            self.assertEqual(table.write(entries), 3)
            self.assertEqual(table.published(), [("b", "text,B")])
            self.assertEqual(table.changes(1, 9), [(2, "b", "text,B"), (3, "a", "dropped")])
            self.assertEqual(table.set_all({"b": "text,B", "c": "refused,3"}, "-"), 4)
            self.assertEqual(table.set_all({"c": "refused,3"}, "-"), 5)
            self.assertEqual(table.published(), [("c", "refused,3")])
            self.assertEqual((len(table.changes(0, 9) or []), table.changes(5, 9), table.changes(6, 9)), (5, [], None))
            table.write([Entry(Change("d", f"text,{k}"), "now", "joe") for k in range(1200)])
            self.assertEqual((table.changes(4, 9), len(table.changes(205, 9999) or [])), (None, 1000))

    def test_another_table(self) -> None:
        """A table that was made again, restored or changed by hand has another identity, and positions that none has had; one that
        goes on, also as 2.0.0 left it, has not."""
        with tempfile.TemporaryDirectory() as folder:
            name, copy = f"{folder}/table", f"{folder}/copy"

            def point(text: str = "") -> Point:
                """The point at which it is once it was opened, and a change was written, or this statement was run beside."""
                table = Table(name, noted=f"{folder}/noted")
                if text:
                    table.store.run(text)
                else:
                    table.write([Entry(Change("a", "text,A"), "now", "jane")])
                table.close()
                return Point(table.identity, table.position)

            first = point()
            self.assertEqual((first.position, point()), (1, Point(first.identity, 2)))
            shutil.copy(name, copy)
            self.assertEqual(point(), Point(first.identity, 3))
            shutil.copy(copy, name)
            restored = point()
            self.assertEqual(restored.position, 3 + SKIPPED + 1)
            os.unlink(name)
            again = point()
            self.assertEqual(again.position, restored.position + SKIPPED + 1)
            point("delete from history")
            emptied = point()
            self.assertEqual(emptied.position, again.position + SKIPPED + 1)
            point("delete from identity")
            last = point()
            self.assertEqual(last.position, emptied.position + SKIPPED + 1)
            os.unlink(name)
            os.unlink(f"{folder}/noted")
            both = point()  # as a new one, of which only the identity says that it is another one
            self.assertEqual(both.position, 1)
            self.assertEqual(len({it.identity for it in (first, restored, again, emptied, last, both)}), 6)

    def test_upgrade(self) -> None:
        """A table of 2.0.0 goes on at its position. Without the file beside the log nobody knows whether a table is the last one."""
        with tempfile.TemporaryDirectory() as folder:
            with contextlib.closing(sqlite3.connect(f"{folder}/table")) as file, open(OLD_TABLE, encoding="utf-8") as statements:
                file.executescript(statements.read())
            for position, is_noted in ((2, True), (2, False), (2 + SKIPPED, True)):
                table = Table(f"{folder}/table", noted=f"{folder}/noted")
                self.assertEqual((table.position, table.published()), (position, [("a", "text,B")]))
                self.assertEqual(table.store.rows("select name, by_user from published"), [("a", "joe")])
                table.close()
                if not is_noted:
                    os.unlink(f"{folder}/noted")

    def test_emptied(self) -> None:
        """`published` is set as the history has it, so that a path which is gone meanwhile is dropped."""
        with tempfile.TemporaryDirectory() as folder:
            table = Table(f"{folder}/table")
            table.write([Entry(Change(name, answer), "then", "joe") for name, answer in (
                ("a", "text,A"), ("b", "text,B"), ("c", "text,C"), ("c", None), ("d", "text,D"))])
            rows = table.store.rows("select * from published order by name")
            for text in ("delete from published", "update published set answer = 'text,X'", "drop table published",
                         "insert into published select 'c', answer, changed, \"user\", position from published limit 1"):
                table.store.run(text)
                table.close()
                before, table = table.identity, Table(f"{folder}/table")
                self.assertEqual(table.store.rows("select * from published order by name"), rows)
                self.assertNotEqual(table.identity, before)
            table.store.run("delete from published where name = 'b'")
            self.assertRaisesRegex(TableError, "somebody has changed it", table.set_all, {}, "-")
            table.close()
            table = Table(f"{folder}/table")
            table.set_all({"a": "text,A", "d": "text,D"}, "-")
            self.assertEqual([row[1:] for row in table.changes(table.position - 1, 9) or []], [("b", "dropped")])
            self.assertEqual(table.store.rows("select distinct by_user from history order by 1"), [("-",), ("joe",)])
            table.close()

    def test_small_blocks(self) -> None:
        """Where blocks are small, there is no shared memory, also if there was; others read it meanwhile."""
        with tempfile.TemporaryDirectory() as folder:
            for size, mode in ((4096, "wal"), (1024, "delete"), (4096, "wal")):
                with contextlib.closing(sqlite3.connect(f"{folder}/table")) as left:
                    left.execute("pragma journal_mode=wal")
                with mock.patch("os.statvfs", lambda _, size=size: mock.Mock(f_frsize=size)):
                    first = Table(f"{folder}/table")
                first.write([Entry(Change("a", f"text,{size}"), "now", "jane")])
                self.assertEqual(first.store.rows("pragma journal_mode"), [(mode,)])
                with contextlib.closing(sqlite3.connect(f"{folder}/table")) as other:
                    self.assertEqual(other.execute("select answer from published").fetchall(), [(f"text,{size}",)])
                self.assertEqual(os.path.exists(f"{folder}/table-shm"), mode == "wal")
                first.close()

    def test_read_only(self) -> None:
        """Once it is closed, it can be read where nothing can be written."""
        with tempfile.TemporaryDirectory() as folder:
            table = Table(f"{folder}/table")
            table.write([Entry(Change("a", "text,A"), "now", "jane")])
            table.close()
            self.assertEqual(sorted(os.listdir(folder)), ["table", "table.lock"])
            with open(f"{folder}/table", "rb") as file:
                self.assertEqual(file.read(20)[18:], b"\1\1")

    @unittest.skipIf(PSYCOPG2 is None, "psycopg2 is not installed")
    def test_silent_database(self) -> None:
        """A database that doesn't answer fails, and isn't waited for."""
        one, other = socket.socketpair()
        silent = mock.Mock(poll=lambda: PSYCOPG2.extensions.POLL_READ, fileno=one.fileno)
        with one, other, mock.patch.object(table, "ANSWERS", 0.05):
            self.assertRaises(PSYCOPG2.OperationalError, table.wait, silent)

    def test_taken(self) -> None:
        """A table is one process's, whatever name it is opened by; what that one leaves is free at once, also if it fails."""
        with tempfile.TemporaryDirectory() as folder:
            os.symlink("table", f"{folder}/other")
            first = Table(f"{folder}/table", owner="/log on a")
            self.assertRaisesRegex(Taken, "that of /log on a;", Table, f"{folder}/other", owner="/log on b")
            with self.assertRaises(TableError) as again:
                Table(f"{folder}/table", owner="/log on a")
            self.assertNotIsInstance(again.exception, Taken)
            first.close()
            Table(f"{folder}/other", owner="/log on b").close()
            with sqlite3.connect(f"{folder}/wrong") as wrong:
                wrong.execute("create table history (name text)")
            for _ in range(2):
                self.assertRaisesRegex(TableError, "no such column|no column", Table, f"{folder}/wrong", owner="/log on a")

    def test_another_writer(self) -> None:
        with tempfile.TemporaryDirectory() as folder:
            table = Table(f"{folder}/table")
            self.addCleanup(table.close)
            with sqlite3.connect(f"{folder}/table") as other:
                other.execute("insert into history values (1, 'x', 'text,X', 'now', 'joe')")
            self.assertRaises(TableError, table.write, [Entry(Change("a", None), "now", "jane")])

