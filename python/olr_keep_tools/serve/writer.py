"""A connection that sends records."""
import asyncio
import collections
import itertools
import pwd
import socket
import struct
import time
from dataclasses import dataclass, field
from typing import Deque, List, Optional, Set, Union

from olr_keep_tools.serve.exchange import Exchange
from olr_keep_tools.serve.faults import ACCEPTED, BATCH_FULL, BATCH_OPEN, COUNT_DIFFERS, Word, fault
from olr_keep_tools.serve.jobs import Job, Kind, batch, preview
from olr_keep_tools.serve.lines import MOST_LINE, Input, Piece, Sort
from olr_keep_tools.serve.unread import Unread

MOST_HELD = 100_000
MOST_UNSENT = 1 << 20  # bytes of records of a connection that wait; no more are read then
MOST_DUE = 1000  # jobs, and replies of the service itself, that wait
ARRIVED = bytearray(1 << 16)  # what is read at once, of any connection
OUTPUT_HIGH = 1 << 20
REFUSED_FOR = 1.0  # seconds until a connection that isn't taken is closed
# Questions that are rejected while a batch is open.
ASKED_OUTSIDE = (b"dump", b"compact", b"ambiguous", b"show-node", b"show-line", b"depends")


@dataclass
class Limits:
    """What all connections share."""

    connections: int
    idle: float  # seconds after which a connection that waits for nothing gives its place to another
    waiting: int  # bytes of all open batches
    batch: int  # bytes of one open batch
    batch_idle: float  # seconds after which an open batch is aborted of which nothing is sent
    unread: Unread
    open: "Set[Writer]" = field(default_factory=set)
    refused: "Set[Writer]" = field(default_factory=set)  # connections that get the answer that there are too many
    held: int = 0  # bytes of open batches
    is_stopping: bool = False

    def has_room(self) -> bool:
        """Whether one more connection is taken. If all places are taken, the connection that has been idle for longest gives its
        place, one with an open batch last."""
        if self.is_stopping or len(self.open) < self.connections:
            return not self.is_stopping
        since = time.monotonic() - self.idle
        idle = [it for it in self.open if it.is_idle and it.active <= since]
        if idle:
            min(idle, key=lambda it: (it.batch is not None, it.active)).give_place()
        return bool(idle)

    def look(self) -> None:
        """Aborts the batches of which nothing is sent for too long, and looks at what isn't read."""
        now = time.monotonic()
        for it in self.open:
            if it.batch and not it.batch.aborted and not it.due and now - it.active > self.batch_idle:
                it.drop_batch(f"nothing of this batch was sent for {self.batch_idle:g} s (--batch-idle), and it is aborted: send it again")
        self.unread.look(now)


@dataclass
class Batch:
    """The changes of an open batch; or, if it was aborted before its end, what its records get."""

    texts: List[bytes] = field(default_factory=list)
    size: int = 0
    count: int = 0
    aborted: bytes = b""


def is_asked_outside(line: bytes) -> bool:
    """Whether a line is a question that is rejected while a batch is open."""
    return line.rstrip(b"\n").partition(b",")[0] in ASKED_OUTSIDE


def user_of(connection: socket.socket) -> str:
    """The name of the user at the other end of a connection, or its number."""
    try:
        _, uid, _ = struct.unpack("3i", connection.getsockopt(socket.SOL_SOCKET, socket.SO_PEERCRED, 12))
    except OSError:
        return "-"
    try:
        return pwd.getpwuid(uid).pw_name
    except KeyError:
        return str(uid)


class Writer(asyncio.BufferedProtocol):
    """Takes lines and gives the replies to them, in their order. The changes of a batch stay here until its `commit`."""

    def __init__(self, exchange: Exchange, limits: Limits) -> None:
        self.exchange, self.limits = exchange, limits
        self.user = "-"
        self.unsent: Deque[Job] = collections.deque()
        self.unsent_bytes = 0
        # The replies that are due, in order: jobs, and texts of the service itself behind them.
        self.due: Deque[Union[Job, bytes]] = collections.deque()
        self.due_bytes = 0  # of these texts
        self.input, self.batch = Input(), None  # type: Input, Optional[Batch]
        self.is_slow = self.is_paused = self.has_ended = self.is_lost = False
        self.transport: Optional[asyncio.Transport] = None
        self.active = time.monotonic()  # when something was last sent or answered

    # ---- the connection

    def connection_made(self, transport: asyncio.BaseTransport) -> None:
        assert isinstance(transport, asyncio.Transport)
        self.transport = transport
        if not self.limits.has_room():
            self._refuse(transport)
            return
        self.user = user_of(transport.get_extra_info("socket"))
        transport.set_write_buffer_limits(high=OUTPUT_HIGH)
        self.limits.open.add(self)
        self.limits.unread.add(transport)

    def _refuse(self, transport: asyncio.Transport) -> None:
        """Says why this connection is not taken, unless as many are being answered: each has a file descriptor."""
        self.has_ended = True
        if len(self.limits.refused) >= self.limits.connections:
            transport.abort()
            return
        self.limits.refused.add(self)
        why = "the service ends" if self.limits.is_stopping else f"{self.limits.connections} are open, and no more are taken"
        transport.write(fault(Word.CONNECTIONS, why))
        # What it sends meanwhile is dropped; so it isn't kept from reading why.
        asyncio.get_running_loop().call_later(REFUSED_FOR, transport.close)

    def get_buffer(self, sizehint: int) -> bytearray:
        return ARRIVED

    def buffer_updated(self, nbytes: int) -> None:
        if self.has_ended:
            return
        self.active = time.monotonic()
        for piece in self.input.feed(bytes(memoryview(ARRIVED)[:nbytes])):
            self._take(piece)
        if self.unsent:
            self.exchange.offer(self)
        self._pause_or_resume()

    def eof_received(self) -> bool:
        # It is received again whenever reading is resumed. The connection stays until its replies are written.
        if self.has_ended:
            return True
        self.has_ended = True
        if self.input.is_cut:
            self._say(fault(Word.NO_LINE_END, "the last line has no line end and is not carried out"))
        if self.batch:
            self._end_batch()
            self._say(fault(Word.NO_COMMIT, "the connection ended within a batch: nothing of it is carried out"))
        self._close_if_done()
        return True

    def connection_lost(self, error: Optional[Exception]) -> None:
        # What was sent to the program is carried out; what was not, is not.
        self.has_ended = self.is_lost = True
        self.limits.open.discard(self)
        self.limits.refused.discard(self)
        if self.transport:
            self.limits.unread.discard(self.transport)
        self._end_batch()
        self._drop_unsent()

    def _drop_unsent(self) -> None:
        """What was not sent to the program isn't carried out."""
        for job in self.unsent:
            self.due.remove(job)
        self.unsent.clear()
        self.unsent_bytes = 0

    def pause_writing(self) -> None:
        self.is_slow = True
        self._pause_or_resume()

    def resume_writing(self) -> None:
        self.is_slow = False
        self._pause_or_resume()
        self.exchange.dispatch()

    def _pause_or_resume(self) -> None:
        """Reads no more while enough of this connection waits."""
        assert self.transport is not None
        much = self.is_slow or max(self.unsent_bytes, self.due_bytes) > MOST_UNSENT or len(self.due) > MOST_DUE
        if much != self.is_paused and not self.transport.is_closing():
            self.is_paused = much
            (self.transport.pause_reading if much else self.transport.resume_reading)()

    # ---- records

    def _take(self, piece: Piece) -> None:
        """Takes records."""
        if piece.sort is Sort.TOO_LONG:
            self._say(fault(Word.LINE_TOO_LONG, f"a line has {MOST_LINE} bytes at most"))
        elif self.batch is not None:
            self._take_in_batch(self.batch, piece)
        elif piece.sort is Sort.BEGIN:
            self.batch = Batch()
            self._say(ACCEPTED)
        elif piece.sort is Sort.CHANGES:
            self._offer(Job(self, Kind.CHANGES, piece.text, piece.count))
        elif piece.sort is Sort.DROP_PATH:
            self._offer(Job(self, Kind.DROP_PATH, piece.text, piece.count))
        else:
            self._offer(Job(self, Kind.QUESTION, piece.text, piece.count))

    def _take_in_batch(self, held: Batch, piece: Piece) -> None:
        """Takes records while a batch is open."""
        is_preview = piece.sort is Sort.ALONE and piece.text == b"preview\n"
        if held.aborted and (is_preview or piece.sort in (Sort.CHANGES, Sort.DROP_PATH, Sort.COMMIT)):
            self._say(held.aborted * piece.count)
            if piece.sort is Sort.COMMIT:
                self._end_batch()
        elif piece.sort in (Sort.CHANGES, Sort.DROP_PATH):
            self._hold(held, piece)
        elif piece.sort is Sort.BEGIN:
            self._say(BATCH_OPEN)
        elif piece.sort is Sort.ABORT:
            self._end_batch()
            self._say(ACCEPTED)
        elif piece.sort is Sort.COMMIT:
            self._commit(held, int(piece.text[7:]))
        elif is_preview:
            self._offer(preview(self, held.texts, held.count))
        else:
            for is_outside, lines in itertools.groupby(piece.text.splitlines(True), is_asked_outside):
                text = list(lines)
                if is_outside:
                    self._say(BATCH_OPEN * len(text))
                else:
                    self._offer(Job(self, Kind.QUESTION, b"".join(text), len(text)))

    def _hold(self, held: Batch, piece: Piece) -> None:
        """Holds changes, as far as the batch has room for them."""
        text, count = piece.text, min(piece.count, MOST_HELD - held.count)
        for what, size, most, option in (("a batch", held.size, self.limits.batch, "--most-batch"),
                                         ("all open batches", self.limits.held, self.limits.waiting, "--most-waiting")):
            if size + len(text) > most:
                self._say(fault(Word.TOO_MUCH_WAITS, f"the changes of {what} have {most} bytes at most ({option})") * piece.count)
                return
        if count < piece.count:
            text = b"".join(text.splitlines(True)[:count])
        held.texts.append(text)
        held.size += len(text)
        self.limits.held += len(text)
        replies = b"".join(b"held,%d\n" % it for it in range(held.count + 1, held.count + count + 1))
        held.count += count
        self._say(replies + BATCH_FULL * (piece.count - count))

    def _commit(self, held: Batch, count: int) -> None:
        """Sends the batch, if this is its number of changes. It has ended in any case."""
        self._end_batch()
        if count != held.count:
            self._say(COUNT_DIFFERS + b"\n")
        else:
            self._offer(batch(self, held.texts, held.count))

    def _end_batch(self) -> None:
        """No batch is open any more."""
        if self.batch:
            self.limits.held -= self.batch.size
        self.batch = None

    def drop_batch(self, why: str) -> None:
        """Aborts the open batch. Its records that follow get this answer, until its end."""
        self._end_batch()
        self.batch = Batch(aborted=fault(Word.IDLE, why))

    def _offer(self, job: Job) -> None:
        """Has a job carried out."""
        self.due.append(job)
        self.unsent.append(job)
        self.unsent_bytes += len(job.text)

    def sent(self, size: int) -> None:
        """So many bytes were sent to the program, or dropped."""
        self.unsent_bytes -= size
        if self.is_paused:
            self._pause_or_resume()

    # ---- replies

    def _say(self, text: bytes) -> None:
        """A reply of the service itself, after those that are due."""
        if self.due:
            self.due.append(text)
            self.due_bytes += len(text)
        else:
            self.reply(text)

    def reply(self, text: bytes) -> None:
        """Writes replies. A connection that has not read as much as the limit before is ended, but not within a reply."""
        if self.transport is None or self.is_lost or self.transport.is_closing():
            return
        is_within = self.due and isinstance(self.due[0], Job) and self.due[0].has_begun
        if self.transport.get_write_buffer_size() > self.limits.unread.most and not is_within:
            self.transport.abort()
        else:
            self.transport.write(text)

    def cut(self) -> None:
        """The program has ended within a reply. What follows it could not be distinguished from its lines."""
        self.has_ended = True
        self._drop_unsent()
        if self.transport is not None:
            self.transport.close()

    def finish(self, job: Job) -> None:
        """A job has all its replies. Of one that was sent in parts, the last part is the job itself."""
        self.active = time.monotonic()
        if self.due and self.due[0] is job:
            self.due.popleft()
        while self.due and isinstance(self.due[0], bytes):
            self.due_bytes -= len(self.due[0])
            self.reply(self.due.popleft())  # type: ignore[arg-type]
        if self.has_ended:
            self._close_if_done()
        elif self.is_paused:
            self._pause_or_resume()

    def _close_if_done(self) -> None:
        """After the end of the input: closes the connection once all replies are written."""
        if not self.due and self.transport is not None:
            self.transport.close()

    def end(self, why: str = "the service ends", last: bytes = b"") -> None:
        """Nothing more is read, and the connection is closed once its replies, and the last one, are written."""
        if self.transport is not None and not self.has_ended:
            self.has_ended = True
            if self.batch:
                self._end_batch()
                self._say(fault(Word.NO_COMMIT, f"{why} within this batch: nothing of it is carried out"))
            if last:
                self._say(last)
            self._close_if_done()

    @property
    def is_idle(self) -> bool:
        """Whether it waits for nothing: all its records are answered, and it has read the answers."""
        return not self.due and self.transport is not None and not self.transport.get_write_buffer_size()

    def give_place(self) -> None:
        """Ends this connection, since another one needs its place."""
        self.limits.open.discard(self)
        why = f"nothing was sent for {self.limits.idle:g} s, and another connection needs the place: connect again"
        self.end("this connection ends", fault(Word.IDLE, why))
