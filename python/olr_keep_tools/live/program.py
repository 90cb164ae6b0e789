"""The program olr-keep as tools/live uses it: with the map and the paths of the tables."""
from __future__ import annotations

import contextlib
import fcntl
import select
import time
from typing import Any, Callable, Dict, List, Sequence, Tuple

from ..program import Program, ProgramFailed

MOST_HELD = 100_000  # changes of a batch
HANGING = 600.0  # seconds without a reply after which the program is ended
BLOCK = 1 << 18  # bytes that are sent at once
PIPE = 1 << 20  # bytes that wait for the program
SET_SIZE = 1031  # of fcntl: F_SETPIPE_SZ of Linux
TICK = 1.0  # seconds between two calls of `tick` while replies are awaited


class LiveProgram(Program):
    """A running program. `tick` is called each second while it works, so that the session of the database isn't silent."""

    def __init__(self, command: Sequence[str], tick: Callable[[], None]) -> None:
        super().__init__(command, HANGING)
        self.tick = tick
        if self.process.stdin:
            with contextlib.suppress(OSError):
                fcntl.fcntl(self.process.stdin, SET_SIZE, PIPE)

    def move(self) -> None:
        """Writes and reads what is possible now, and waits until something is."""
        end, inputs = time.monotonic() + HANGING, [self.process.stdin] if self.unsent else []
        while not any(select.select([self.process.stdout], inputs, [], TICK)) and time.monotonic() < end:
            self.tick()
        super().move()

    def carry_out(self, text: bytes, count: int) -> List[str]:
        """Sends so many records, which all have to be accepted, and returns the lines of their replies."""
        self.send(text)
        return self.accepted(count)

    def begin(self, text: bytes) -> None:
        """Sends records, and leaves their replies for later."""
        self.send(text)
        while self.unsent:
            self.move()

    def accepted(self, count: int) -> List[str]:
        """The lines of so many replies, which all have to accept their records."""
        lines = []
        for run in self.runs(count):
            if not run.reply.accepted:
                raise ProgramFailed(f"the program replied {run.reply.head}")
            lines += run.reply.lines
        return lines

    def answers(self, records: Sequence[str]) -> Dict[str, str]:
        """The answers that these records change, after each other, as texts by name."""
        found: Dict[str, str] = {}
        for first in range(0, len(records), MOST_HELD):
            part = records[first : first + MOST_HELD]
            text = "\n".join(["begin", *part, f"commit,{len(part)}", ""]).encode()
            found.update(answer_of(line) for line in self.carry_out(text, len(part) + 2))
        return found

    def load(self, cursor: Any) -> Dict[str, str]:
        """Loads the tables' map and paths, and returns all answers."""
        sent = Sent(self)
        cursor.execute("set local max_parallel_workers_per_gather = 0")
        cursor.copy_expert("copy (select * from olr_keep.records()) to stdout", sent)
        sent.finish()
        return dict(answer_of(line) for line in self.carry_out(b"report\n", 1))


def answer_of(line: str) -> Tuple[str, str]:
    """The path of a line of a reply, and its answer."""
    name, _, answer = line.partition(",")
    return name, answer


class Sent:
    """A file whose lines are sent to a program, as records that have to be accepted. While it carries out a block, the next one
    is collected."""

    def __init__(self, program: LiveProgram) -> None:
        self.program, self.size, self.waiting = program, 0, 0
        self.parts: List[bytes] = []

    def write(self, part: bytes) -> None:
        """Adds whole records."""
        self.parts.append(bytes(part))
        self.size += len(part)
        if self.size >= BLOCK:
            self.flush()

    def flush(self) -> None:
        """Sends what was added, when the block before is carried out."""
        self.program.accepted(self.waiting)
        self.program.tick()
        text = b"".join(self.parts)
        self.parts, self.size, self.waiting = [], 0, text.count(b"\n")
        self.program.begin(text)

    def finish(self) -> None:
        """Sends what was added, and waits until all is carried out."""
        self.flush()
        self.program.accepted(self.waiting)
        self.waiting = 0


def end(program: LiveProgram) -> None:
    """Ends a program at once."""
    program.kill()
    for stream in (program.process.stdin, program.process.stdout):
        if stream:
            stream.close()
