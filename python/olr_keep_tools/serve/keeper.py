"""The thread that writes the table, and reads it for others. Everything reaches it through one queue, in order."""
import asyncio
import math
import queue
import threading
import time
from typing import Any, Callable, Dict, List, NamedTuple, Optional, Union

from olr_keep_tools.serve.jobs import Change
from olr_keep_tools.serve.table import Entry, Table, TableError, Taken, now

MOST_BEHIND = 100_000  # changes that wait for the table, after which no more records are carried out
AT_ONCE = 20_000  # changes of one transaction
RETRY = 1.0  # seconds until the table is tried again


class Changes(NamedTuple):
    """Changes of one job."""

    changes: List[Change]
    at: str
    user: str


class Whole(NamedTuple):
    """All that is published."""

    answers: Dict[str, str]
    user: str


class Read(NamedTuple):
    """A question about the table, and who waits for its answer."""

    ask: Callable[[Table], Any]
    future: "asyncio.Future[Any]"


class Stop(NamedTuple):
    """Nothing follows."""


Work = Union[Changes, Whole, Read, Stop]


class Events(NamedTuple):
    """What is reported to the loop: a position was written; the table can be written, and needs all answers; it failed."""

    written: Callable[[int, int], None]
    needs_all: Callable[[], None]
    failed: Callable[[str], None]


class Keeper:
    """Writes the table. While it can't be written, changes are left out; then all answers are asked for."""

    def __init__(self, make: Callable[[], Table], events: Events) -> None:
        self.make, self.events = make, events
        self.loop = asyncio.get_running_loop()
        self.work: "queue.SimpleQueue[Work]" = queue.SimpleQueue()
        self.behind = 0  # changes that are not written yet; of the loop alone
        self.thread = threading.Thread(target=self._run, name="table", daemon=True)
        # Of the thread alone.
        self.table: Optional[Table] = None
        self.is_right, self.next_try = False, 0.0

    def start(self) -> None:
        """Begins with a table that needs all answers."""
        self.thread.start()

    # ---- called in the loop

    def put(self, changes: List[Change], user: str) -> None:
        """Writes changes after those before."""
        self.behind += len(changes)
        self.work.put(Changes(changes, now(), user))

    def put_all(self, answers: Dict[str, str], user: str) -> None:
        """Writes what differs from these answers."""
        self.behind += len(answers)
        self.work.put(Whole(answers, user))

    def read(self, ask: Callable[[Table], Any]) -> "asyncio.Future[Any]":
        """The answer to a question, after what was written before. Raises TableError if the table fails."""
        future: "asyncio.Future[Any]" = self.loop.create_future()
        self.work.put(Read(ask, future))
        return future

    def has_room(self) -> bool:
        """Whether more changes may follow."""
        return self.behind < MOST_BEHIND

    async def stop(self) -> None:
        """Waits until everything is written, as far as that is possible, and ends the thread."""
        self.work.put(Stop())
        await self.loop.run_in_executor(None, self.thread.join)

    # ---- the thread

    def _run(self) -> None:
        """Carries out what arrives, and tries to open the table again and again while it fails."""
        while True:
            group = self._next()
            if any(isinstance(it, Stop) for it in group):
                self._carry_out([it for it in group if not isinstance(it, Stop)])
                if self.table:
                    self.table.close()
                return
            self._carry_out(group)

    def _next(self) -> List[Work]:
        """What has arrived, after a second at the latest."""
        try:
            group = [self.work.get(timeout=RETRY)]
        except queue.Empty:
            return []
        count = 0
        while count < AT_ONCE and not self.work.empty():
            group.append(it := self.work.get())
            count += len(it.changes) if isinstance(it, Changes) else 1
        return group

    def _carry_out(self, group: List[Work]) -> None:
        """Carries out work; changes that follow each other are one transaction."""
        if self.table is None and time.monotonic() >= self.next_try:
            self._open()
        entries: List[Entry] = []
        for it in group:
            if isinstance(it, Changes):
                entries += [Entry(change, it.at, it.user) for change in it.changes]
                continue
            self._write(entries)
            entries = []
            if isinstance(it, Whole):
                self._write_all(it)
            elif isinstance(it, Read):
                self._read(it)
        self._write(entries)

    def _open(self) -> None:
        """Opens the table."""
        try:
            self.table, self.is_right = self.make(), False
            self._tell(self.events.needs_all)
        except Exception as error:  # whatever it is: without this thread nothing more would be carried out
            self._fail(error)

    def _fail(self, error: Exception) -> None:
        """The table has failed. It is opened again later."""
        if self.table:
            self.table.close()
        self.table, self.is_right = None, False
        # One that is another's isn't taken as soon as that one is being started again.
        self.next_try = math.inf if isinstance(error, Taken) else time.monotonic() + RETRY
        self._tell(self.events.failed, str(error))

    def _write(self, entries: List[Entry]) -> None:
        """Writes changes, unless all answers are needed first."""
        if not entries:
            return
        if self.table and self.is_right:
            try:
                self.table.write(entries)
            except Exception as error:
                self._fail(error)
        self._tell_written(len(entries))

    def _write_all(self, whole: Whole) -> None:
        """Writes all answers."""
        if self.table:
            try:
                self.table.set_all(whole.answers, whole.user)
                self.is_right = True
            except Exception as error:
                self._fail(error)
        self._tell_written(len(whole.answers))

    def _tell_written(self, count: int) -> None:
        """So many changes are written, or left out."""
        self._tell(self._note_written, count, self.table.position if self.table and self.is_right else -1)

    def _note_written(self, count: int, position: int) -> None:
        """In the loop: notes what is written."""
        self.behind -= count
        self.events.written(count, position)

    def _read(self, read: Read) -> None:
        """Answers a question."""
        try:
            if self.table is None or not self.is_right:
                raise TableError("the table is not written at the moment")
            self._tell(_set_result, read.future, read.ask(self.table))
        except Exception as error:
            self._tell(_set_error, read.future, TableError(str(error)))

    def _tell(self, function: Callable[..., None], *arguments: Any) -> None:
        """Calls a function in the loop."""
        try:
            self.loop.call_soon_threadsafe(function, *arguments)
        except RuntimeError:
            pass  # the loop has ended


def _set_result(future: "asyncio.Future[Any]", result: Any) -> None:
    if not future.done():
        future.set_result(result)


def _set_error(future: "asyncio.Future[Any]", error: TableError) -> None:
    if not future.done():
        future.set_exception(error)
