"""The program with its log, as a process of asyncio."""
import asyncio
import collections
import contextlib
import ctypes
import fcntl
import os
import re
import signal
import time
from typing import Any, Callable, Deque, List, NamedTuple, Optional, Protocol

PIPE_SIZE = 1 << 20
PR_SET_PDEATHSIG = 1
PRCTL = ctypes.CDLL(None).prctl  # looked up here, since little may be done between fork and exec
STARTED = re.compile(r"olr-keep: .* has \d+ records? and \d+ paths?")
UNCOMPACTED = re.compile(r"olr-keep: .* is not compacted, and is used as it is: (.*)")
AGAIN = 60.0  # seconds after which it is said again that a log is not compacted, for the same reason
ENDING = 4096  # bytes of a message that is kept until its line ends
LAST_MESSAGES = 2  # the cause, and what follows from it


class Ended(NamedTuple):
    """How the program ended: its status, negative after a signal, and its last messages."""

    status: int
    message: str

    def text(self) -> str:
        """What is said of it."""
        how = f"status {self.status}" if self.status >= 0 else f"signal {signal.Signals(-self.status).name}"
        return f"the program ended with {how}" + (f": {self.message}" if self.message else "")


class Reader(Protocol):
    """Who takes what the program writes."""

    def take_output(self, data: bytes) -> None:
        """Takes output as it arrives."""

    def take_end(self, ended: Ended) -> None:
        """The program has ended, and all of its output was taken."""


def dies_with_service() -> None:
    """Called in the new process: it is killed when the service dies, so that it doesn't hold the log any longer. A file that grows
    beyond a limit is a failed write, and no signal."""
    signal.signal(signal.SIGXFSZ, signal.SIG_IGN)
    signal.pthread_sigmask(signal.SIG_SETMASK, ())
    PRCTL(PR_SET_PDEATHSIG, signal.SIGKILL)


class Program(asyncio.SubprocessProtocol):
    """A process that carries out records. Its messages are passed on as they are. They come through a pipe that is read here, so that
    what it said before a reply is known when the reply is."""

    def __init__(self, reader: Reader, say: Callable[[str], None], said: int) -> None:
        self.reader, self.say, self.said = reader, say, said
        self.transport: Optional[asyncio.SubprocessTransport] = None
        self.input: Optional[asyncio.WriteTransport] = None
        self.messages, self.uncompacted = b"", ""
        self.said_why, self.said_at = "", 0.0  # why the log is not compacted, and when that was said
        self.last_messages: Deque[str] = collections.deque(maxlen=LAST_MESSAGES)

    @classmethod
    async def start(cls, command: List[str], reader: Reader, say: Callable[[str], None]) -> "Program":
        """Starts it. Raises OSError if that isn't possible."""
        loop = asyncio.get_running_loop()
        said, says = os.pipe()
        try:
            started = await loop.subprocess_exec(lambda: cls(reader, say, said), *command, stderr=says, preexec_fn=dies_with_service)
        except OSError:
            os.close(said)
            raise
        finally:
            os.close(says)
        program: "Program" = started[1]
        return program

    def connection_made(self, transport: asyncio.BaseTransport) -> None:
        assert isinstance(transport, asyncio.SubprocessTransport)
        self.transport = transport
        os.set_blocking(self.said, False)
        asyncio.get_running_loop().add_reader(self.said, self.read_messages)
        pipe: Any = transport.get_pipe_transport(0)
        self.input = pipe
        # It may have ended already, with its pipe closed.
        with contextlib.suppress(OSError, ValueError):
            fcntl.fcntl(pipe.get_extra_info("pipe").fileno(), getattr(fcntl, "F_SETPIPE_SZ", 1031), PIPE_SIZE)

    @property
    def pid(self) -> int:
        """Its process id."""
        assert self.transport is not None
        return self.transport.get_pid()

    def write(self, text: bytes) -> None:
        """Passes records to it. If it has ended, its end is about to be noted."""
        if self.input is not None and not self.input.is_closing():
            self.input.write(text)

    def end_input(self) -> None:
        """Closes its input, after which it ends."""
        if self.input is not None:
            self.input.close()

    def kill(self) -> None:
        """Ends it at once."""
        if self.transport is not None:
            with contextlib.suppress(ProcessLookupError):
                self.transport.kill()

    def pipe_data_received(self, fd: int, data: bytes) -> None:
        self.reader.take_output(data)

    def read_messages(self) -> None:
        """Takes the messages that it has written."""
        with contextlib.suppress(BlockingIOError):
            while data := os.read(self.said, 1 << 16):
                *lines, self.messages = (self.messages + data).split(b"\n")
                self.messages = self.messages[-ENDING:]
                for it in lines:
                    self.take_message(it.decode("utf-8", "replace"))
            asyncio.get_running_loop().remove_reader(self.said)

    def take_message(self, message: str) -> None:
        """Takes a message."""
        if found := UNCOMPACTED.match(message):
            self.uncompacted, now = found[1], time.monotonic()
            if self.said_why == self.uncompacted and now - self.said_at < AGAIN:
                return
            self.said_why, self.said_at = self.uncompacted, now
        self.say(message)
        self.last_messages.append(message.replace("olr-keep: ", "", 1))
        if STARTED.match(message):
            self.last_messages.clear()

    def why_uncompacted(self) -> str:
        """Why the log was not replaced since this was asked last, or nothing. It is said before the reply to `compact` leaves."""
        self.read_messages()
        why, self.uncompacted = self.uncompacted, ""
        return why

    def connection_lost(self, error: Optional[Exception]) -> None:
        assert self.transport is not None
        self.read_messages()
        asyncio.get_running_loop().remove_reader(self.said)
        os.close(self.said)
        status = self.transport.get_returncode()
        self.transport.close()
        self.reader.take_end(Ended(-signal.SIGKILL if status is None else status, "; ".join(self.last_messages)))
