"""Tests of what the service notes of a log, without the program."""
import asyncio
import functools
import os
import shutil
import tempfile
import unittest
from typing import List, Tuple
from unittest import mock

from olr_keep_tools.serve import logfile
from olr_keep_tools.serve.compaction import Compaction
from olr_keep_tools.serve.jobs import Job, Kind
from olr_keep_tools.serve.notes import Notes
from tests.test_serve import Owner, written

GONE = "node,1,0,0\n" + "".join(f"drop-path,p{k}\n" for k in range(3, 9))


def same(job: Job) -> Job:
    """The job that was sent last."""
    return job


class Noting(unittest.TestCase):
    """A log with 100 paths, and what is noted of it."""

    def setUp(self) -> None:
        self.folder = tempfile.mkdtemp()
        self.addCleanup(shutil.rmtree, self.folder)
        self.log = written(f"{self.folder}/log", "\n" + "".join(f"path,p{k},0,0,1\n" for k in range(100)))
        self.now = 1000.0

    def append(self, text: str) -> None:
        """The program writes to the log."""
        with open(self.log, "a", encoding="ascii") as file:
            file.write(text)

    def noted(self) -> logfile.Last:
        """What is noted."""
        return logfile.read_last(self.log) or logfile.Last()

    def test_answered(self) -> None:
        """Only what was answered is noted: at first, then after ten seconds, and soon if a half of the paths are gone that may be."""
        with mock.patch("time.monotonic", lambda: self.now):
            asyncio.run(self.answered())

    async def answered(self) -> None:
        """Notes what is written step by step."""
        notes = Notes(self.log, 1.0)
        notes.begin(1.5, 300)
        await notes.renew()
        self.assertEqual((self.noted().paths, self.noted().seconds, notes.seconds_of_start(600)), (100, 1.5, 3.0))
        for text, passed, wanted in (("drop-path,p1\n", 9.0, 100), ("drop-path,p2\n", 2.0, 99), (GONE, 1.5, 92), ("drop-path,p9\n", 1.5, 92),
                                     ("drop-path,p10\n", 9.0, 91)):
            job = Job(Owner(), Kind.CHANGES, text.encode(), text.count("\n"))
            before, self.now = os.path.getsize(self.log), self.now + passed
            self.append(text)
            await notes.update(functools.partial(same, job))
            self.assertLessEqual(self.noted().length, before)
            job.done = job.count
            await notes.update(lambda: None)
            self.assertEqual(self.noted().paths, wanted, text)
        self.append("drop-path,p11\n")
        await notes.update(lambda: Job(Owner(), Kind.CHANGES, b"drop-path,p11\n", 1))
        notes.end()
        self.now += 20
        await notes.save()
        self.assertEqual(self.noted().paths, 90)

    def test_compaction(self) -> None:
        """It is noted that a dump may take the place of the log before `compact` is sent, and what the log has before anything else is."""
        asyncio.run(self.compacted())

    async def compacted(self) -> None:
        """Compacts, and then fails to note it."""
        seen: List[Tuple[bool, bool]] = []
        said: List[str] = []

        def resume() -> None:
            seen.append((self.noted().compacting, bool(asked) and compaction.may_begin()))
            if seen[-1][1]:
                compaction.begin()

        asked: List[str] = []
        notes = Notes(self.log, 1.0)
        compaction = Compaction(notes, lambda: "why", resume, said.append)
        notes.begin(0.0, 0)
        compaction.start(1000)
        self.assertTrue(compaction.is_held())
        await self.done(compaction)
        self.assertEqual((compaction.is_held(), compaction.due, compaction.is_due(), compaction.is_due()), (False, 1000, True, False))
        asked.append("compact")
        self.assertEqual((compaction.may_begin(), compaction.is_held()), (False, True))
        await self.done(compaction)
        self.assertEqual((seen, compaction.is_held()), ([(False, False), (True, True)], False))
        asked.clear()
        os.replace(written(f"{self.log}.new", "\n" + "path,p,0,0,1\n" * 100), self.log)
        self.assertEqual((compaction.end(), compaction.is_held()), ("why", True))
        await self.done(compaction)
        self.assertEqual((self.noted().compacting, self.noted().length, compaction.due), (False, 1301, 2602))
        os.unlink(f"{self.log}.last")
        os.mkdir(f"{self.log}.last")
        self.assertFalse(compaction.may_begin())
        await self.done(compaction)
        self.assertEqual((len(said), compaction.is_held()), (1, False))
        compaction.may_begin()
        compaction.reset()
        await self.done(compaction)
        self.assertEqual((len(said), compaction.is_held()), (1, False))

    @staticmethod
    async def done(compaction: Compaction) -> None:
        """Waits until it is noted."""
        assert compaction.task
        await compaction.task


if __name__ == "__main__":
    unittest.main()
