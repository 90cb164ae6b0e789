"""A computation in a process of its own, which shares what this one has in memory, and nothing else."""
from __future__ import annotations

import gc
import os
import pickle
import select
import signal
from collections import deque
from itertools import islice
from typing import Callable, Deque, Generator, Generic, Iterator, Optional, Tuple, TypeVar

Result = TypeVar("Result")
PIECE = 1 << 20  # bytes that are read at once
TICK = 1.0  # seconds
PROCESSES = 2  # children that work at the same time


class Forked(Generic[Result]):
    """A function that is called in a child process. The child closes all files that it inherits, and writes the pickled result
    to a pipe. There must be no other thread."""

    def __init__(self, work: Callable[[], Result]) -> None:
        self.reading, writing = os.pipe()
        self.process = os.fork()
        if self.process == 0:
            self.run(work, writing)
        os.close(writing)

    def run(self, work: Callable[[], Result], writing: int) -> None:
        """What the child does: it never returns."""
        status = 1
        gc.disable()
        try:
            for it in (signal.SIGTERM, signal.SIGINT):
                signal.signal(it, signal.SIG_DFL)
            os.dup2(writing, 3)
            os.closerange(4, max(map(int, os.listdir("/proc/self/fd"))) + 1)
            with open(3, "wb") as file:
                pickle.dump(work(), file, pickle.HIGHEST_PROTOCOL)
            status = 0
        finally:
            os._exit(status)

    def result(self, tick: Callable[[], None]) -> Optional[Result]:
        """Waits for the result, and calls `tick` each second: None if the child was killed, or the function failed."""
        found, piece = bytearray(), b"?"
        while piece:
            if select.select([self.reading], [], [], TICK)[0]:
                piece = os.read(self.reading, PIECE)
                found += piece
            else:
                tick()
        return pickle.loads(bytes(found)) if self.waited() == 0 else None

    def end(self) -> None:
        """Kills the child."""
        os.kill(self.process, signal.SIGKILL)
        self.waited()

    def waited(self) -> int:
        """Waits for the end of the child, and returns its status."""
        os.close(self.reading)
        return os.waitpid(self.process, 0)[1]


def processes(most: int = PROCESSES) -> int:
    """How many children work at the same time."""
    return min(most, len(os.sched_getaffinity(0)))


def in_order(works: Iterator[Callable[[], Result]], tick: Callable[[], None], most: int = PROCESSES) -> Generator[Result, None, None]:
    """The results of functions, in their order. Each is called in a child process, of which there are at most so many, while the
    results before are used; one whose child was killed is called here."""
    working: Deque[Tuple[Callable[[], Result], Forked[Result]]] = deque()
    try:
        working.extend((it, Forked(it)) for it in islice(works, processes(most)))
        while working:
            work, forked = working.popleft()
            found = forked.result(tick)
            working.extend((it, Forked(it)) for it in islice(works, 1))
            yield work() if found is None else found
    finally:
        for _, forked in working:
            forked.end()
