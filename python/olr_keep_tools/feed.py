"""A feed: sends the records of a file to the stream of commands, and learns what the shares reject."""
import collections
import csv
import hashlib
import os
import re
import select
import time
import uuid
from argparse import Namespace
from typing import Deque, Dict, List, NamedTuple, Optional, Tuple, Union

from . import stream
from .command import STREAM, USAGE, Failure, say
from .records import is_open_after, word_of
from .rejected import advice
from .shares import Shares
from .stream import IN_USE, LOST_STREAMS

BYTES = 1 << 16
# A feed that was killed has its lock until the broker notices it.
LOCK_SECONDS, HOUR, MINUTE = 15, 3600, 60
WHY = {
    "NotPlain": "it is not printed ASCII, or has a quote",
    "NoQuestion": "workers answer no questions: query the table",
    "NoCommit": "this batch has no commit in its message, and is aborted",
    "CountDiffers": "the batch holds another number of changes, and is aborted",
}


class Message(NamedTuple):
    """Records that are not known to be in the stream: their lines, the number of records up to their end, and their digest."""

    body: bytes
    number: int
    digest: str


class Source:
    """The records of a file, in blocks, each of which is one message."""

    def __init__(self, file: int, name: str):
        self.file, self.name, self.rest = file, name, b""
        self.blocks: List[bytes] = []
        self.batch: List[bytes] = []
        self.is_open = self.has_ended = False
        self.left_out = 0

    def plain(self, line: bytes) -> bytes:
        """A line as a record without quotes; nothing if it is empty or can't be sent."""
        line = line.rstrip(b"\r")
        text = line.decode("ascii", "replace")
        try:
            fields = next(csv.reader([text]), []) if b'"' in line else [text]
        except csv.Error:  # a NUL, or a field of more than 128 KB
            fields = ['"']
        record = ",".join(fields)
        if b'"' in line and any(c in it for it in fields for c in '",') or not (record.isascii() and record.isprintable()):
            self.leave_out(f"skipped a record that can't be sent: {text[:200]!r}")
            return b""
        return record.encode()

    def leave_out(self, why: str) -> None:
        """Reports something that is skipped."""
        self.left_out += 1
        say(why)

    def read(self) -> None:
        """Reads what is available within a second."""
        try:
            if not select.select([self.file], [], [], 1)[0]:
                return
            text = os.read(self.file, BYTES)
        except OSError as error:
            raise Failure(STREAM, f"{self.name}: {error.strerror}") from None
        self.has_ended = not text
        if self.has_ended and self.rest:
            text = b"\n"
        whole, end, self.rest = (self.rest + text).rpartition(b"\n")
        whole += end
        # What has neither a batch nor an empty line is sent as it is.
        if not self.is_open and stream.is_plain(whole) and not re.search(b"\n(?:begin|\n)", b"\n" + whole):
            self.blocks.append(whole)
        else:
            for record in filter(None, map(self.plain, whole.split(b"\n"))):
                self.take(record)
        if self.has_ended and self.is_open:
            self.leave_out(f"skipped a batch without an end, with {len(self.batch)} records")

    def take(self, record: bytes) -> None:
        """Appends a record to its batch, and the batch, or a record without one, to what is sent."""
        self.batch.append(record + b"\n")
        self.is_open = is_open_after(word_of(record), self.is_open)
        if not self.is_open:
            self.blocks += self.batch
            self.batch = []

    @property
    def is_done(self) -> bool:
        """Whether all records were given."""
        return self.has_ended and not self.blocks

    def next(self) -> bytes:
        """The records of the next message; nothing if none is available yet."""
        if not self.blocks and not self.has_ended:
            self.read()
        body, self.blocks = b"".join(self.blocks), []
        return body


class Confirmed:
    """What the stream of commands is known to have of a feed's records."""

    def __init__(self, name: str):
        self.name = name
        self.records = 0  # so many of them
        self.before: Dict[int, int] = {}  # the number of records before each message, by its offset
        self.digests: Deque[Tuple[int, Optional[str]]] = collections.deque()  # of records that are not compared yet
        self.seen = -1  # the last offset that was read
        self.began: Optional[int] = None  # the time of the first message

    def take(self, offset: int, properties: stream.Properties, body: bytes, compared: int) -> bool:
        """Notes a message of the stream; `compared` records of the feed are compared. Whether it is new, and one of the feed."""
        self.seen = max(self.seen, offset)
        name, _, text = (properties.message_id or "").partition(":")
        if name != self.name or not text.isdecimal() or offset in self.before:
            return False
        number = int(text)
        self.before[offset] = number - body.count(b"\n")
        if number > compared:
            self.digests.append((number, (properties.headers or {}).get("digest")))
        self.records, self.began = max(self.records, number), self.began or properties.timestamp
        return True


class Compared:
    """The records of a source, so far as they are compared with those in the stream, or made to messages."""

    def __init__(self) -> None:
        self.count, self.digest = 0, hashlib.sha256()

    def message(self, body: bytes, there: Confirmed) -> Optional[Message]:
        """The part of these records that isn't in the stream, as a message; what is there has to be the same."""
        lines, at = body.splitlines(True) if there.digests else [], 0
        for line in lines[: there.records - self.count]:
            self.digest.update(line)
            self.count, at = self.count + 1, at + len(line)
            if there.digests[0][0] == self.count:
                number, digest = there.digests.popleft()
                if digest and digest != self.digest.hexdigest():
                    raise Failure(IN_USE, f"other records were sent under the name {there.name}: they differ up to record {number}")
        if at == len(body):
            return None
        self.digest.update(body[at:])
        self.count += body.count(b"\n", at)
        return Message(body[at:], self.count, self.digest.hexdigest())


class Marker:
    """A message of the feed that it reads back: it is then known what is in the stream before it."""

    def __init__(self, name: str):
        self.id, self.offset = f"{name}:marker:{uuid.uuid4()}", -1


class Feed:
    """Sends the messages of a source, and reads the stream to confirm that they are there."""

    def __init__(self, options: Namespace, source: Source):
        self.stream: str = options.stream
        self.source = source
        self.there, self.records = Confirmed(options.name or str(uuid.uuid4())), Compared()
        self.since: int = -1 if options.name is None else options.since or 0
        self.is_first = True
        self.identity: Optional[str] = None
        self.message: Optional[Message] = None
        self.marker = Marker(self.there.name)
        self.verdicts = Verdicts(options.shares, self.stream, self.there) if options.shares else None

    def session(self, connection: stream.Connection) -> None:
        """Sends the remaining records. Once a marker is read back, it is known what is in the stream."""
        self.lock(connection)
        channel, since = stream.new_channel(connection), self.since
        self.mark(connection, channel)
        if since >= 0:
            self.find(connection, since)
        self.since = self.marker.offset
        if self.verdicts:
            self.verdicts.follow(stream.new_channel(connection))
        while self.message or not self.source.is_done:
            self.message = self.message or self.records.message(self.source.next(), self.there)
            if self.message and self.there.records < self.message.number:
                self.publish(channel, self.message)
            self.message = None
            connection.process_data_events(0)
        if self.there.records > self.records.count:
            many = f"{self.there.records} records were sent under the name {self.there.name}"
            raise Failure(IN_USE, f"{many}, and these are {self.records.count}")
        while self.there.records < self.records.count:
            connection.process_data_events(None)
        if self.verdicts and self.there.before:
            self.verdicts.wait(connection, max(self.there.before))

    def publish(self, channel: stream.Channel, message: Message) -> None:
        """Appends a message to the stream."""
        more = {"digest": message.digest, "identity": self.identity}
        stream.publish(channel, self.stream, f"{self.there.name}:{message.number}", message.body, **more)

    def lock(self, connection: stream.Connection) -> None:
        """Takes the lock of the name: two feeds of one name would send records twice."""
        until = time.monotonic() + (LOCK_SECONDS if self.is_first else 2 * MINUTE)
        while not stream.is_locked(connection, f"{self.stream}.feed.{self.there.name}"):
            if time.monotonic() > until:
                raise Failure(IN_USE, f"another feed sends under the name {self.there.name}")
            connection.process_data_events(0.5)
        self.is_first = False

    def mark(self, connection: stream.Connection, channel: stream.Channel) -> None:
        """Sends a marker, reads it back, and so learns the identity and the end of the stream."""
        stream.declare(channel, self.stream)
        found: List[Optional[str]] = []
        marker = self.marker = Marker(self.there.name)

        def take(offset: int, tag: int, properties: stream.Properties, body: bytes) -> None:
            found.append(stream.identity_of(offset, properties))
            if marker.offset < 0 and properties.message_id != marker.id:
                channel.basic_ack(tag)
            else:
                self.take(channel, offset, tag, properties, body)

        stream.consume(channel, self.stream, "last", take)
        stream.publish(channel, self.stream, marker.id, b"")
        while marker.offset < 0:
            connection.process_data_events(None)
        if not any(found) and (first := stream.newest(connection, self.stream, start="first")):
            found.append(first.identity)
        identity = next(filter(None, found), None)
        if identity != (self.identity or identity):
            raise Failure(LOST_STREAMS, f"the stream {self.stream} is another one than before: {identity}, not {self.identity}")
        self.identity = identity

    def find(self, connection: stream.Connection, since: int) -> None:
        """Reads what was sent under this name before the marker."""
        if since > self.marker.offset:
            raise Failure(USAGE, f"--since {since} is past the end of the stream, {self.marker.offset}")
        channel, last = stream.new_channel(connection), -1

        def take(offset: int, tag: int, properties: stream.Properties, body: bytes) -> None:
            nonlocal last
            if last < self.marker.offset:
                self.take(channel, offset, tag, properties, body)
                last = offset

        stream.consume(channel, self.stream, since, take)
        while last < self.marker.offset:
            connection.process_data_events(None)

    def take(self, channel: stream.Channel, offset: int, tag: int, properties: stream.Properties, body: bytes) -> None:
        """Handles a message of the stream, of this feed or of another one."""
        if self.there.take(offset, properties, body, self.records.count):
            number = self.there.before[offset] + body.count(b"\n")
            print_line(f"{offset},{number}")
        elif properties.message_id == self.marker.id:
            self.marker.offset = offset
        channel.basic_ack(tag)
        if self.verdicts:
            self.verdicts.sort_out()


class Verdicts:
    """The answers of all shares to the messages of a feed: how far they are, and what they reject."""

    def __init__(self, shares: Shares, name: str, there: Confirmed):
        self.shares, self.stream, self.there = shares, name, there
        self.rejected = 0
        self.read: Dict[int, int] = {}
        self.reached = dict.fromkeys(range(shares.count), -1)
        self.waiting: List[Tuple[int, List[str]]] = []

    def follow(self, channel: stream.Channel) -> None:
        """Reads the answers of all shares: from where it has read, or from the first message of this feed on."""
        began: Union[float, str] = float(self.there.began - HOUR) if self.there.began else "next"
        for share in range(self.shares.count):
            name = stream.answers_name(self.stream, share, self.shares)
            stream.declare(channel, name)
            start = self.read[share] + 1 if share in self.read else began
            stream.consume(channel, name, start, self.taker(channel, share))

    def taker(self, channel: stream.Channel, share: int) -> stream.Handler:
        """What handles the messages of answers of a share."""

        def take(at: int, tag: int, properties: stream.Properties, body: bytes) -> None:
            if at > self.read.get(share, -1):
                self.read[share] = at
                if found := stream.answers_of(properties, body):
                    (offset, part, kind), lines = found
                    if kind == stream.REJECTED:
                        self.waiting.append((offset, lines))
                        self.sort_out()
                    elif part == stream.END:
                        self.reached[share] = max(self.reached[share], offset)
            channel.basic_ack(tag)

        return take

    def sort_out(self) -> None:
        """Prints the rejected records of this feed, as soon as it is known which messages are its own."""
        known = [it for it in self.waiting if it[0] <= self.there.seen]
        self.waiting = [it for it in self.waiting if it[0] > self.there.seen]
        for offset, lines in known:
            for line in lines if offset in self.there.before else ():
                index, number, word, record = line.split(",", 3)
                self.rejected += 1
                head = f"fault,{number},{word}"
                why = f"{head}: {record}: {WHY[word]}" if word in WHY else advice(record, head)
                say(f"record {self.there.before[offset] + int(index) + 1} is rejected: {why}")

    def wait(self, connection: stream.Connection, offset: int) -> None:
        """Waits until all shares have carried out the message at this offset."""
        said = time.monotonic() + MINUTE
        while min(self.reached.values()) < offset:
            connection.process_data_events(1)
            if time.monotonic() > said:
                late = [str(share) for share, reached in self.reached.items() if reached < offset]
                say(f"waits for offset {offset} of share {', '.join(late)}")
                said += MINUTE


def print_line(text: str) -> None:
    """Prints a line on standard output."""
    try:
        print(text, flush=True)
    except OSError as error:
        os.dup2(os.open(os.devnull, os.O_WRONLY), 1)
        raise Failure(STREAM, f"the offsets can't be written: {error.strerror}") from None
