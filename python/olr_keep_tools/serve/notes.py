"""What is noted of a log while it is served, for the next start: only what the program has answered, which is on the disk."""
import asyncio
import errno
import math
import time
from dataclasses import replace
from typing import Any, Callable, NamedTuple, Optional

from olr_keep_tools.serve.jobs import Job
from olr_keep_tools.serve.logfile import Last, Scan, read_last, tolerated, write_last

NOTE_EVERY, AT_MOST_EVERY = 10.0, 1.0  # seconds


class Counted(NamedTuple):
    """What a log had, and the last job that the program had until then: what stood in the log is synced once that one is answered."""

    last: Last
    job: Optional[Job]

    def is_answered(self) -> bool:
        """Whether the job has all its replies."""
        return self.job is None or self.job.done == self.job.count


class Notes:
    """What is known of a log, and what of that is noted beside it."""

    def __init__(self, log: str, most_fewer: float) -> None:
        self.log, self.most_fewer = log, most_fewer
        self.scan, self.noted = Scan(log), read_last(log)
        self.known: Optional[Last] = None  # what was answered
        self.counted: Optional[Counted] = None
        self.lock, self.noted_at, self.run = asyncio.Lock(), -math.inf, 0

    def begin(self, seconds: float, size: int) -> None:
        """The program has begun with the log, in so many seconds."""
        self.scan, self.counted = Scan(self.log), None
        self.noted = replace(self.noted or Last(), seconds=seconds, size=size)

    def end(self) -> None:
        """The program has ended: what it had not answered may be lost."""
        self.counted, self.run = None, self.run + 1

    def seconds_of_start(self, size: int) -> float:
        """How long a start takes with a log of this size, by what the last one took; 0 if that isn't known."""
        found = self.noted
        return found.seconds * size / found.size if found and found.size else 0.0

    async def update(self, last_sent: Callable[[], Optional[Job]]) -> None:
        """Counts what the log has. It is noted every 10 seconds, or once a half of the records are missing that may be."""
        run = self.run
        async with self.lock:
            if self.counted is None and await in_thread(self.scan.update) and run == self.run:
                self.counted = Counted(self.scan.last(self.noted), last_sent())
            if run == self.run and self.counted and self.counted.is_answered():
                self.known, self.counted = self.counted.last, None
        if self.known and time.monotonic() - self.noted_at > (AT_MOST_EVERY if self._has_fallen(self.known) else NOTE_EVERY):
            await self.save()

    def _has_fallen(self, known: Last) -> bool:
        """Whether a half of the records are missing that may be missing beside what is noted."""
        before = self.noted or Last()
        pairs = (before.contents.records, known.contents.records), (before.paths, known.paths)
        return any(was - now > tolerated(was, self.most_fewer) / 2 for was, now in pairs)

    async def save(self) -> None:
        """Notes what is known."""
        async with self.lock:
            self.noted_at = time.monotonic()
            if self.known and self.known != read_last(self.log):
                await self._write(self.known)

    async def finish(self) -> None:
        """Notes what the log has. All of it was answered, and the program has ended."""
        async with self.lock:
            scan = self.scan
            if await in_thread(scan.update):
                await self._write(scan.last(self.noted))

    async def before_compaction(self) -> None:
        """Notes what the log has, all of which was answered, and that a dump may take its place. Raises OSError if it can't be noted."""
        async with self.lock:
            scan = self.scan
            if not await in_thread(scan.update):
                raise OSError(errno.ESTALE, "it is not the file that was served", self.log)
            await self._write(replace(scan.last(self.noted), compacting=True))

    async def renew(self) -> None:
        """Notes what the log has, with which the program has begun, or which a dump has replaced. All of it was answered."""
        async with self.lock:
            scan = self.scan
            if not await in_thread(scan.update):
                scan = self.scan = Scan(self.log)
                await in_thread(scan.update)
            await self._write(scan.last(self.noted))

    async def _write(self, last: Last) -> None:
        """Notes this."""
        self.known, self.counted = last, None
        await in_thread(write_last, self.log, last)
        self.noted, self.noted_at = last, time.monotonic()


async def in_thread(function: Callable[..., Any], *arguments: Any) -> Any:
    """The result of a function that waits for the disk."""
    return await asyncio.get_running_loop().run_in_executor(None, function, *arguments)
