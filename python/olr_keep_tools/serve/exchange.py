"""Passes the jobs of all connections to the program in turns, and the replies back."""
import collections
import time
from typing import Callable, Deque, List, Protocol, Set

from olr_keep_tools.serve.framing import NoReply, Replies, Span
from olr_keep_tools.serve.jobs import WEIGHT, Change, Job, Kind, Owner
from olr_keep_tools.serve.program import Program

LEAST_WINDOW, FIRST_WINDOW, MOST_WINDOW = 32, 1024, WEIGHT  # records whose replies are awaited
AHEAD, MEASURED = 0.1, 0.05  # seconds of work that are passed to the program; after how many it is measured how many these are
PAUSE = 0.01  # seconds without a record, after which it is measured anew
MOST_BYTES = 4 << 20


class Source(Owner, Protocol):
    """Who has jobs for the program."""

    unsent: Deque[Job]
    is_slow: bool  # it doesn't read its replies

    def sent(self, size: int) -> None:
        """So many bytes of its jobs were passed to the program."""


class Compactor(Protocol):
    """Who has to know of each `compact` before it is sent."""

    def may_begin(self) -> bool:
        """Whether it may be sent now. If not, jobs are dispatched again once it may."""

    def begin(self) -> None:
        """It is sent, and nothing else is until it has its reply."""

    def end(self) -> str:
        """It has its reply. Returns why the log was not replaced, or nothing."""


class Counts:
    """What was carried out since the service was started, and how long it took."""

    def __init__(self) -> None:
        self.records = self.rejected = self.changed = self.not_known = 0
        self.last_seconds = self.longest_seconds = 0.0

    def add(self, job: Job, since: float, now: float) -> None:
        """Adds a job that has all its replies."""
        self.records += max(1, job.count - 3) if job.kind.is_batch else job.count
        self.rejected += job.rejected
        self.changed += len(job.changes)
        if job.kind is not Kind.QUESTION:
            self.last_seconds = (now - since) / (1 if job.kind.is_batch else job.count)
            self.longest_seconds = max(self.longest_seconds, self.last_seconds)


class Exchange:
    """Jobs that wait, jobs that were sent, and the window: how many records are sent before their replies have arrived. It is
    what the program carries out in a moment, so that it never waits, and a connection that sends many holds up no other for long. A
    question whose reply may be long fills the window: it waits until there is room for its reply, and after the last one until all
    who had other jobs then had their turn. A `compact` is sent when nothing is awaited, so that what the program says
    until its reply is about it."""

    def __init__(self, publish: Callable[[List[Change], str], None], may_send: Callable[[], bool], compaction: Compactor,
                 has_room: Callable[[Job], bool]) -> None:
        self.publish, self.may_send, self.compaction = publish, may_send, compaction
        self.has_room = has_room  # whether there is room for a long reply
        self.turns: Deque[Source] = collections.deque()
        self.before_long: Set[Source] = set()  # whose turn is before that of a long reply
        self.sent: Deque[Job] = collections.deque()
        self.counts, self.replies = Counts(), Replies()
        self.program: "Program | None" = None
        self.awaited = self.awaited_bytes = 0
        self.window, self.last_progress, self.last_end = FIRST_WINDOW, 0.0, 0.0
        self.measured_since, self.measured, self.was_full = 0.0, 0, False

    def connect(self, program: Program) -> None:
        """Takes a program that was started: nothing was sent to it yet."""
        self.program, self.replies, self.last_progress = program, Replies(), time.monotonic()

    def offer(self, source: Source) -> None:
        """A connection has a job, which waits for its turn."""
        if source not in self.turns:
            self.turns.append(source)
        self.dispatch()

    def dispatch(self) -> None:
        """Sends jobs, as many as the window has room for."""
        texts: List[bytes] = []
        now = time.monotonic()
        turns = 2 * len(self.turns)
        while turns and self.turns and self.program and self._has_room() and self.may_send():
            source = self.turns.popleft()
            turns -= 1
            self.before_long.discard(source)
            if not source.unsent:
                continue
            if source.is_slow or source.unsent[0].is_long and (self.before_long or not self.has_room(source.unsent[0])):
                self.turns.append(source)
                continue
            if source.unsent[0].is_compact and (self.sent or not self.compaction.may_begin()):
                self.turns.appendleft(source)
                break
            texts.append(self._send_one(source, now))
            if source.unsent:
                self.turns.append(source)
                turns += 1
        self.was_full |= bool(self.turns) and not self._has_room()
        if texts and self.program:
            self.program.write(b"".join(texts))

    def _has_room(self) -> bool:
        return self.awaited < self.window and self.awaited_bytes < MOST_BYTES

    def _send_one(self, source: Source, now: float) -> bytes:
        """Moves the first job of a source, or as much of it as there is room for, to those that were sent."""
        job, room = source.unsent[0], self.window - self.awaited
        if not job.kind.is_batch and job.count > 1 and job.weight > room:
            job = job.split(max(1, room // job.weight_of_one))
        else:
            source.unsent.popleft()
        if not self.sent:
            if now - self.last_progress > PAUSE:
                self.window = min(self.window, FIRST_WINDOW)
                self.measured_since, self.measured, self.was_full = now, 0, False
            self.last_progress = self.last_end = now
        if job.is_compact:
            self.compaction.begin()
        job.sent_at = now
        self.sent.append(job)
        self.awaited += job.weight
        self.awaited_bytes += len(job.text)
        source.sent(len(job.text))
        return job.text

    def take_output(self, data: bytes) -> None:
        """Divides output into replies and passes them on. Raises NoReply if it is none."""
        self.last_progress = now = time.monotonic()
        self.replies.feed(data)
        while self.sent:
            job = self.sent[0]
            span = self.replies.take(job.next_most(), job.kind is Kind.QUESTION)
            if span is None:
                break
            self.measured += span.count
            text = self._reply_of(job, span)
            if text:
                job.owner.reply(text)
            if job.done == job.count:
                self.sent.popleft()
                self._finish(job, now)
        else:
            if len(self.replies.buffer) > self.replies.at:
                raise NoReply("a reply to nothing")
        self._set_window(now)
        self.dispatch()

    def _reply_of(self, job: Job, span: Span) -> bytes:
        """What the owner of a job gets for replies. The program accepts `compact` also where the log can't be replaced."""
        text = job.take(span)
        why = self.compaction.end() if job.is_compact else ""
        return job.uncompacted(why) if why and text.startswith(b"ok,") else text

    def _finish(self, job: Job, now: float) -> None:
        """A job has all its replies."""
        self.awaited -= job.weight
        self.awaited_bytes -= len(job.text)
        self.counts.add(job, max(job.sent_at, self.last_end), now)
        self.last_end = now
        if job.is_long:
            self.before_long = {it for it in self.turns if it.unsent and not it.unsent[0].is_long}
        if job.changes:
            self.publish(job.changes, job.owner.user)
        job.owner.finish(job)

    def _set_window(self, now: float) -> None:
        """Fits the window to the replies of the last moment in which some were awaited all the time, if it was full: else more
        could not be sent for another reason, and that so few were carried out says nothing."""
        seconds = max(now - self.measured_since, 1e-6)
        if seconds > MEASURED or self.measured >= self.window:
            if self.was_full:
                fitting = min(4 * self.window, int(self.measured / seconds * AHEAD))
                self.window = max(LEAST_WINDOW, min(fitting, MOST_WINDOW))
            self.measured_since, self.measured, self.was_full = now, 0, False

    def disconnect(self) -> None:
        """The program has ended: of the jobs that were sent nothing more is known."""
        lost, self.sent = self.sent, collections.deque()
        self.program, self.awaited, self.awaited_bytes = None, 0, 0
        self.before_long.clear()
        for job in lost:
            text = job.not_known()
            self.counts.not_known += text.count(b"\n")
            if job.has_begun:
                job.owner.cut()
            elif text:
                job.owner.reply(text)
            job.owner.finish(job)

    def waits_since(self) -> "float | None":
        """Since when the program has been silent although replies are awaited."""
        return self.last_progress if self.sent else None

    def refuse_compact(self, why: str) -> None:
        """Answers the next `compact`, which can't be sent."""
        for source in self.turns:
            if source.unsent and source.unsent[0].is_compact:
                job = source.unsent.popleft()
                source.sent(len(job.text))
                job.owner.reply(job.uncompacted(why))
                job.owner.finish(job)
                break
        self.dispatch()

    def drop_unsent(self, why: str) -> None:
        """Answers what waits to be sent, when nothing else is awaited: it isn't carried out."""
        assert not self.sent
        self.before_long.clear()
        turns, self.turns = self.turns, collections.deque()
        for source in turns:
            while source.unsent:
                job = source.unsent.popleft()
                source.sent(len(job.text))
                job.owner.reply(job.not_served(why))
                job.owner.finish(job)
