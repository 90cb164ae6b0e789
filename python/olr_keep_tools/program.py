"""A running olr-keep: records are sent to it, and its replies read.

    with Program(["olr-keep", "-l", "log.csv"]) as keep:
        reply = keep.ask("path,a,0,0,10")
        if reply.accepted:
            for entry in reply.lines:
                ...
"""
import contextlib
import os
import re
import select
import shutil
import subprocess
import sys
from types import TracebackType
from typing import IO, Iterator, List, NamedTuple, Optional, Protocol, Sequence, Type, Union

from .command import STREAM, TOP, Failure
from .replies import UNCHANGED, Head, NoReply, Reply, is_one_record

CHUNK = 1 << 18
LINE = 64  # bytes, about the length of a line
UNCHANGED_REPLIES = re.compile(b"(?:ok,0\n)+")
INSTALLED = os.path.join(TOP, "../../bin/olr-keep")


class ProgramFailed(Failure):
    """The program can't be run, or gives no reply."""

    def __init__(self, text: str):
        super().__init__(STREAM, text)


class ProgramEnded(ProgramFailed):
    """The program ended before its reply, with this status."""

    def __init__(self, name: str, status: int):
        super().__init__(f"{name} ended with status {status} and gave no reply")
        self.exit_status = status


class Writable(Protocol):
    """A file, as far as it is written."""

    def write(self, text: bytes) -> object:
        """Writes bytes."""


class Run(NamedTuple):
    """So many equal replies in a row; more than one only of `ok,0`."""

    times: int
    reply: Reply


def program_name() -> str:
    """The program: the variable OLR_KEEP, or the proved program of this checkout, or the installed one."""
    found = os.environ.get("OLR_KEEP") or of_checkout() or (INSTALLED if os.path.exists(INSTALLED) else shutil.which("olr-keep"))
    if not found:
        raise ProgramFailed("olr-keep is not installed: the variable OLR_KEEP may name it")
    return found


def of_checkout() -> str:
    """The proved program of this checkout, or an empty text if this is none."""
    if not os.path.exists(f"{TOP}/build/shipped.py"):
        return ""
    if f"{TOP}/build" not in sys.path:
        sys.path.append(f"{TOP}/build")
    import shipped
    try:
        return shipped.program()
    except shipped.NoProduct as why:
        raise ProgramFailed(f"{why}; the variable OLR_KEEP may name another program") from None


class Program:
    """A running program. Whenever a reply is waited for, what was sent before is written as the program takes it, so that neither
    waits for the other. Without a reply, and without taking records, for `deadline` seconds it is ended; None is no deadline.
    `records` is a file that the program reads in place of what is sent."""

    def __init__(self, command: Sequence[str], deadline: Optional[float] = None, records: Optional[IO[bytes]] = None):
        self.name, self.deadline = command[0], deadline
        self.unsent: Union[bytes, memoryview] = b""
        self.buffer, self.at = b"", 0
        pipe: Union[int, IO[bytes]] = subprocess.PIPE
        try:
            # In a session of its own an interrupt doesn't reach it.
            self.process = subprocess.Popen(
                command, stdin=records or pipe, stdout=subprocess.PIPE, bufsize=0, start_new_session=True)
        except OSError as error:
            raise ProgramFailed(f"{self.name}: {error.strerror}") from None
        if self.process.stdin:
            os.set_blocking(self.process.stdin.fileno(), False)

    # ---- sending

    def send(self, text: bytes) -> None:
        """Sends records, after those that are not written yet."""
        self.unsent = memoryview(bytes(self.unsent) + text if self.unsent else text)

    def ask(self, record: str) -> Reply:
        """Sends one record, and returns its reply.

        Raises ValueError for a text that isn't one record on one line, since it would get no reply, or more than one.
        """
        if not is_one_record(record):
            raise ValueError(f"not one record on one line: {record!r}")
        self.send(record.encode("utf-8", "surrogateescape") + b"\n")
        return self.reply()

    # ---- reading

    def runs(self, count: int) -> Iterator[Run]:
        """The next replies, so many in all."""
        while count:
            if self.at == len(self.buffer):
                self.move()
            elif run := UNCHANGED_REPLIES.match(self.buffer, self.at):
                found = min(count, len(run[0]) // len(b"ok,0\n"))
                self.at += found * len(b"ok,0\n")
                count -= found
                yield Run(found, UNCHANGED)
            else:
                count -= 1
                yield Run(1, self.reply())

    def replies(self, count: int) -> Iterator[Reply]:
        """The next replies, so many."""
        for run in self.runs(count):
            yield from (run.reply for _ in range(run.times))

    def reply(self) -> Reply:
        """The next reply."""
        try:
            head = Head.of(self.lines(1)[0])
        except NoReply as why:
            raise ProgramFailed(f"{self.name}: {why}") from None
        return Reply(*head, self.lines(head.following))

    def write_dump(self, file: Writable) -> None:
        """Writes the lines of a dump to a file as they arrive. After a failed write the rest is read, and OSError raised."""
        self.send(b"dump\n")
        head, failure = Head.of(self.lines(1)[0]), None
        if head.word != "ok":
            raise ProgramFailed(f"a dump is rejected with fault {head.number}")
        left = head.number
        while left:
            text = self.take(left)
            left -= text.count(b"\n")
            try:
                failure or file.write(text)
            except OSError as error:
                failure = error
        if failure:
            raise failure

    def lines(self, count: int) -> List[str]:
        """The next lines of replies, so many, without their ends."""
        found: List[bytes] = []
        while len(found) < count:
            found += self.take(count - len(found)).split(b"\n")[:-1]
        return [it.decode("utf-8", "surrogateescape") for it in found]

    def take(self, most: int) -> bytes:
        """The whole lines that were read, at least one and at most so many."""
        while not (end := self.buffer.find(b"\n", self.at) + 1):
            self.move()
        text = self.buffer[self.at : max(end, self.buffer.rfind(b"\n", self.at, self.at + LINE * most) + 1)]
        if text.count(b"\n") > most:
            text = b"\n".join(text.split(b"\n", most)[:most]) + b"\n"
        self.at += len(text)
        return text

    def move(self) -> None:
        """Writes and reads what is possible now, and waits until something is."""
        output, sending = self.process.stdout, [self.process.stdin] if self.unsent else []
        readable, writable, _ = select.select([output], sending, [], self.deadline)
        if not readable and not writable:
            self.kill()
            raise ProgramFailed(f"{self.name}: no reply within {self.deadline:g} seconds; it is ended")
        if writable:
            self.write()
        if readable and output:
            text = os.read(output.fileno(), CHUNK)
            if not text:
                raise ProgramEnded(self.name, self.process.wait())
            self.buffer, self.at = self.buffer[self.at :] + text, 0

    def write(self) -> None:
        """Writes what the program takes now."""
        if self.process.stdin:
            try:
                self.unsent = self.unsent[os.write(self.process.stdin.fileno(), self.unsent[:CHUNK]) :]
            except BlockingIOError:
                pass
            except BrokenPipeError:
                self.unsent = b""

    # ---- the end

    def check(self) -> None:
        """Fails if the program has ended."""
        status = self.process.poll()
        if status is not None:
            raise ProgramEnded(self.name, status)

    def close(self) -> int:
        """Sends what is not written yet, closes the input, reads what is left, and returns the program's exit status."""
        if self.process.poll() is None:
            with contextlib.suppress(ProgramEnded):
                while self.unsent:
                    self.move()
                if self.process.stdin:
                    self.process.stdin.close()
                while True:
                    self.at = len(self.buffer)
                    self.move()
        return self.process.wait()

    def kill(self) -> None:
        """Ends the program, whatever it does."""
        self.process.kill()
        self.process.wait()

    def __enter__(self) -> "Program":
        return self

    def __exit__(self, kind: Optional[Type[BaseException]], _: Optional[BaseException], __: Optional[TracebackType]) -> None:
        if kind is None:
            self.close()
        else:
            self.kill()
        for stream in (self.process.stdin, self.process.stdout):
            if stream:
                stream.close()
