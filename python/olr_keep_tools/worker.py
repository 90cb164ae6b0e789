"""A worker: a thread carries out the messages of commands, one by one, and the publisher reads them and publishes their answers.
The two share nothing but two queues.
"""
import collections
import queue
import time
from argparse import Namespace
from typing import Any, Deque, Iterator, List, NamedTuple, Optional, Sequence, Tuple, Union

from . import stream
from .carried import Share
from .command import STREAM, Failure, say
from .program import Program
from .snapshots import Snapshot, Snapshots, load
from .stream import LOST_STREAMS, Position

PART, LONGEST = 1 << 20, 1000
LARGEST = 64 << 20  # bytes of all answers that are published without need
# The seconds in which answers are published before a snapshot is written, and those after which it is tried again.
SETTLED, MINUTE = 5, 60
FIRST = (-1, -1, -1)

Tag = Tuple[int, int]  # the number of a session, and the delivery tag of a message in it


class Answers(NamedTuple):
    """What is published of a message of commands, or of a part of it."""

    position: Position
    lines: List[str]
    rejected: Sequence[str] = ()
    kind: str = "changes"
    tag: Optional[Tag] = None
    is_due: bool = False
    is_again: bool = False  # beside those that are published


class Commands(NamedTuple):
    """A message of commands."""

    offset: int
    body: bytes
    tag: Tag


class Reached(NamedTuple):
    """How far the answers of the share are published, and the identity of the stream of commands."""

    position: Position
    identity: Optional[str]


class Session(NamedTuple):
    """A new connection of the publisher, which is woken when there are answers."""

    connection: stream.Connection


class Again(NamedTuple):
    """All answers of the share are wanted, as they are once what was read is carried out."""


Work = Union[Commands, Reached, Session, Again]
Done = Union[Answers, Failure]


def parts(share: Share, message: Commands, is_due: bool) -> Iterator[Answers]:
    """What is published of a message: usually one part, and another one for each MB. If it is due, also if it is nothing."""
    lines: List[str] = []
    rejected: List[str] = []
    size = number = 0
    for at, record, reply in share.carry_out(message.body):
        if not reply.accepted:
            shown = record if len(record) <= LONGEST else f"{record[:LONGEST]}.."
            new = [f"{at},{reply.number},{reply.rest},{shown}"]
            rejected += new
        else:
            new = [f"{record.split(',')[1]},dropped"] if record.startswith("drop-path,") else reply.lines
            lines += new
        size += sum(map(len, new))
        if size > PART:
            yield Answers((message.offset, number, stream.CHANGES), lines, rejected)
            lines, rejected, size, number = [], [], 0, number + 1
    yield Answers((message.offset, stream.END, stream.CHANGES), lines, rejected, tag=message.tag, is_due=is_due)


class Clock:
    """When a snapshot is to be written: after this many bytes of commands, and at this time of the day."""

    def __init__(self, size: int, at: Optional[Tuple[int, int]]):
        self.size, self.at = size, at
        self.bytes, self.earliest = 0, 0.0
        self.next = self.next_time()

    def next_time(self) -> float:
        """When it is next this time of the day."""
        if self.at is None:
            return float("inf")
        year, month, day, *_ = time.localtime()
        then = time.mktime((year, month, day, *self.at, 0, 0, 0, -1))
        return then if then > time.time() else time.mktime((year, month, day + 1, *self.at, 0, 0, 0, -1))

    def is_due(self) -> bool:
        """Whether a snapshot is due."""
        is_time = self.bytes >= self.size or time.time() >= self.next
        return self.bytes > 0 and is_time and time.monotonic() >= self.earliest

    def postpone(self, seconds: float) -> None:
        """Lets none be due for so long."""
        self.earliest = time.monotonic() + seconds

    def reset(self) -> None:
        """Begins again, after a snapshot."""
        self.bytes, self.next = 0, self.next_time()


class Carrier:
    """Carries out messages in a thread of its own: takes them from one queue, and puts what is published of them into another."""

    def __init__(self, options: Namespace, snapshot: Optional[Snapshot], work: "queue.SimpleQueue[Work]",
                 done: "queue.SimpleQueue[Done]"):
        self.options, self.snapshot, self.work, self.done = options, snapshot, work, done
        self.clock = Clock(options.every, options.at)
        self.waiting: Deque[Commands] = collections.deque()
        self.published = Reached(FIRST, snapshot.identity if snapshot else None)
        self.is_wanted = False  # whether all answers are
        self.connection: stream.Connection = None

    def run(self) -> None:
        """Carries out messages until something fails, which is the last result."""
        try:
            self.carry_out()
        except Failure as why:
            self.put(why)
        except Exception as error:  # Whatever it is, the worker has to end.
            self.put(Failure(STREAM, f"{type(error).__name__}: {error}"))

    def carry_out(self) -> None:
        """Starts the program, from the snapshot if there is one, and carries out messages as they arrive."""
        options, snapshot = self.options, self.snapshot
        share = Share(Program(options.program, options.deadline), options.share, options.shares, snapshot.names if snapshot else {})
        if snapshot:
            load(share, snapshot)
            self.put_whole(share, (snapshot.offset, stream.END, stream.CHANGES))
        offset = snapshot.offset if snapshot else -1
        while True:
            if not self.waiting:
                self.receive(1)
            if self.is_wanted and offset >= 0 and not self.waiting:
                self.is_wanted = False
                self.put_whole(share, (offset, stream.END, stream.WHOLE), is_again=True)
            if self.waiting:
                message = self.waiting.popleft()
                offset, self.clock.bytes = message.offset, self.clock.bytes + len(message.body)
                for it in parts(share, message, self.clock.is_due()):
                    self.put(it)
            else:
                share.program.check()
            if options.snapshots and self.clock.is_due() and self.is_published(offset):
                self.write_snapshot(Snapshots(options.snapshots, options.stream, options.share, options.shares), share, offset)
                self.put_whole(share, (offset, stream.END, stream.WHOLE))

    def receive(self, seconds: float) -> None:
        """Takes what arrives first within this time."""
        try:
            it = self.work.get(timeout=seconds)
        except queue.Empty:
            return
        if isinstance(it, Commands):
            self.waiting.append(it)
        elif isinstance(it, Reached):
            self.published = it
        elif isinstance(it, Again):
            self.is_wanted = True
        else:
            self.connection = it.connection

    def is_published(self, offset: int) -> bool:
        """Whether the answers up to this offset are published, after a moment; else a snapshot would lose rejected records."""
        until, wanted = time.monotonic() + SETTLED, (offset, stream.END, stream.CHANGES)
        while self.published.position < wanted and time.monotonic() < until:
            self.receive(0.1)
        self.clock.postpone(0 if self.published.position >= wanted else MINUTE)
        return self.clock.is_due()

    def write_snapshot(self, snapshots: Snapshots, share: Share, offset: int) -> None:
        """Writes a snapshot; if that is impossible, it is tried again when the next one is due."""
        began = time.monotonic()
        try:
            snapshots.write(share.program, offset, self.published.identity, share.names)
            say(f"wrote a snapshot at offset {offset} in {time.monotonic() - began:.1f} s")
        except OSError as error:
            say(f"no snapshot at offset {offset}: {error.filename or snapshots.folder}: {error.strerror}")
        self.clock.reset()

    def put_whole(self, share: Share, position: Position, is_again: bool = False) -> None:
        """Puts all answers of the share."""
        self.put(Answers(position, share.one("report").lines, kind="whole", is_again=is_again))

    def put(self, it: Done) -> None:
        """Passes a result to the publisher, and wakes it."""
        self.done.put(it)
        if self.connection:
            try:
                self.connection.add_callback_threadsafe(lambda: None)
            except stream.LOST:
                pass


class Publisher:
    """Reads the stream of commands, passes its messages on, and publishes their answers while it has the lock of its share."""

    def __init__(self, options: Namespace, snapshot: Optional[Snapshot], work: "queue.SimpleQueue[Work]",
                 done: "queue.SimpleQueue[Done]"):
        self.options, self.work, self.done = options, work, done
        self.answers = stream.answers_name(options.stream, options.share, options.shares)
        self.waiting: Deque[Answers] = collections.deque()
        # The last message of commands that was read, the stream's identity, and how many messages are not answered.
        self.fed = snapshot.offset if snapshot else -1
        self.identity = snapshot.identity if snapshot else None
        self.behind = int(snapshot is not None)
        # The connection with its number, and whether it has the lock.
        self.connection: stream.Connection = None
        self.channel: stream.Channel = None
        self.session_number = 0
        self.is_active = False
        self.published: Position = FIRST
        # The position of the last result, and whether all answers have to be published beside those that are.
        self.carried_out: Position = FIRST
        self.is_wanted = False
        self.next_try = self.next_progress = 0.0

    def session(self, connection: stream.Connection) -> None:
        """Works over one connection. It tries to get the lock after the newest answers had time to arrive."""
        self.connection, self.is_active, self.session_number = connection, False, self.session_number + 1
        self.work.put(Session(connection))
        self.check_streams()
        self.channel = stream.new_channel(connection)
        stream.consume(self.channel, self.answers, "last", self.take_answers)
        stream.consume(self.channel, self.options.stream, "first" if self.fed < 0 else self.fed + 1, self.take_commands)
        self.next_try = time.monotonic() + 1
        while True:
            connection.process_data_events(0.3)
            self.take_done()
            if not self.is_active and time.monotonic() > self.next_try:
                self.try_lock()
            self.settle()

    def check_streams(self) -> None:
        """Stops if the streams are not those that were read before, or that belong to the snapshot."""
        commands = stream.newest(self.connection, self.options.stream, self.fed)
        last = commands.offset if commands else -1
        if last < self.fed:
            raise Failure(LOST_STREAMS, f"the stream {self.options.stream} ends at {last}, before offset {self.fed}: it is not the"
                                        " stream of before, or not that of the snapshot")
        if commands:
            # Markers of feeds don't have it; the first message does.
            first = None if commands.identity else stream.newest(self.connection, self.options.stream, start="first")
            self.check_identity(first.identity if first else commands.identity, self.options.stream)
        answers = stream.newest(self.connection, self.answers)
        if answers and stream.position_of(answers.properties.message_id):
            self.check_identity((answers.properties.headers or {}).get("identity"), self.answers)

    def check_identity(self, identity: Optional[str], name: str) -> None:
        """Notes the identity of the stream of commands; stops if it is another one than before."""
        self.identity = self.identity or identity
        if identity and identity != self.identity:
            raise Failure(LOST_STREAMS, f"the stream {name} belongs to the commands {identity}, and this worker to"
                                        f" {self.identity}: the streams were made again; start from a snapshot of these")

    def note(self, position: Position) -> None:
        """Notes that the answers are published up to this position."""
        if position > self.published:
            self.published = position
            self.work.put(Reached(position, self.identity))

    def take_answers(self, at: int, tag: int, properties: Any, body: bytes) -> None:
        """Notes what is published for this share, by any worker."""
        if found := stream.answers_of(properties, body):
            self.note(found[0])
        else:
            say(f"the stream {self.answers} has a message at {at} that can't be read, with the id {properties.message_id}: all answers"
                " are published again")
            self.is_wanted = True
        self.channel.basic_ack(tag)

    def take_commands(self, offset: int, tag: int, properties: Any, body: bytes) -> None:
        """Passes a message on to be carried out."""
        if offset <= self.fed:
            self.channel.basic_ack(tag)
            return
        if offset > self.fed + 1:
            raise Failure(LOST_STREAMS, f"the stream has offset {offset} after {self.fed}: start from a newer snapshot")
        self.check_identity(stream.identity_of(offset, properties), self.options.stream)
        self.fed, self.behind = offset, self.behind + 1
        self.work.put(Commands(offset, body, (self.session_number, tag)))

    def take_done(self) -> None:
        """Handles the available results."""
        while not self.done.empty():
            it = self.done.get()
            if isinstance(it, Failure):
                self.settle()
                raise it
            self.behind -= it.position[1:] == (stream.END, stream.CHANGES)
            self.carried_out = it.position
            self.waiting.append(it)

    def try_lock(self) -> None:
        """Tries to get the lock of this share."""
        self.next_try = time.monotonic() + 0.3
        name = f"{self.options.stream}.lock.{self.options.share}.{self.options.shares.label}"
        if stream.is_locked(self.connection, name):
            # Tables compare what this worker has computed with what they have.
            self.is_active, self.is_wanted = True, self.is_wanted or self.published > FIRST
            say(f"publishes share {self.options.share} of {self.options.shares.count}")

    def settle(self) -> None:
        """Publishes the waiting answers in order, and drops those that are published; without the lock it only drops. Of
        messages that changed nothing only the last one is published, one each second, and that before a snapshot, so that
        readers see how far the share is."""
        if self.is_wanted and self.is_active and not self.waiting and FIRST[:2] < self.published[:2] <= self.carried_out[:2]:
            self.is_wanted = False
            self.work.put(Again())
        while self.waiting:
            it = self.waiting[0]
            is_last = not self.behind and len(self.waiting) == 1 or it.is_due or time.monotonic() > self.next_progress
            if it.is_again:
                if self.is_active and it.position[:2] >= self.published[:2]:
                    self.publish_again(it)
            elif it.position > self.published and (it.lines or it.rejected or it.kind == "whole" or is_last):
                if not self.is_active:
                    return
                if it.rejected:
                    self.publish((*it.position[:2], stream.REJECTED), it.rejected, "rejected")
                if it.lines or it.kind == "whole" or is_last:
                    self.publish(it.position, it.lines, it.kind)
            self.waiting.popleft()
            if it.tag and it.tag[0] == self.session_number:
                self.channel.basic_ack(it.tag[1])

    def publish_again(self, it: Answers) -> None:
        """Publishes all answers beside those that are published, so that tables are compared with them. It isn't needed if it is long."""
        if sum(map(len, it.lines)) <= LARGEST:
            self.published = min(self.published, (*it.position[:2], stream.CHANGES))
            self.publish(it.position, it.lines, it.kind)

    def publish(self, position: Position, lines: Sequence[str], kind: str) -> None:
        """Publishes a message of answers, if it isn't published."""
        if position > self.published:
            body = "".join(f"{line}\n" for line in lines).encode()
            message_id = stream.id_of(self.options.share, position)
            stream.publish(self.channel, self.answers, message_id, body, kind, identity=self.identity)
            self.next_progress = time.monotonic() + 1
            self.note(position)
