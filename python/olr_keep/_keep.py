"""A register in this process."""
import contextlib
import ctypes
import os
import threading
import weakref
from typing import Iterable, Iterator, List, Optional, Tuple, Union

from . import _records as records
from ._library import ACCEPTED, REJECTED, Handle, LibraryName, load
from ._records import Degrees, Shape
from ._replies import Answer, Changes, Explained, Obstacle, Rejected, Reply, replies_of

Text = Union[str, bytes, bytearray, memoryview]


_registers: "weakref.WeakSet[Keep]" = weakref.WeakSet()
_registering = threading.Lock()
_forking: List[threading.Lock] = []  # the locks that are held during a fork


def _before_fork() -> None:
    """Waits until no thread is within a call: a child has none that could end it."""
    _registering.acquire()
    _forking.append(_registering)
    for it in list(_registers):
        it._lock.acquire()
        _forking.append(it._lock)


def _after_fork() -> None:
    while _forking:
        _forking.pop().release()


os.register_at_fork(before=_before_fork, after_in_parent=_after_fork, after_in_child=_after_fork)


class Batch:
    """A batch of changes: after its end `changes` are those of the `commit`."""

    changes: Changes = Changes()


class Keep:
    """A register of a road map and named paths.

    Calls that change something return `Changes`, or raise `Rejected`. They raise MemoryError if memory ran out: `show` or
    `report` shows whether the record was carried out. Several threads may call one register: their calls wait for each other.
    Its memory is freed by `close`, at the end of a `with` block, or when nothing refers to it any more. A fork waits for calls of
    other threads, and then both processes have the register as it is.
    """

    def __init__(self, library: LibraryName = None) -> None:
        """Makes an empty register. Raises OSError if the library can't be loaded, MemoryError if memory is lacking."""
        self._library, self._handle, self._lock = load(library), Handle(None, False), threading.Lock()
        self._held, self._status = 0, ACCEPTED
        if self._library.olr_keep_make(self._handle) != ACCEPTED:
            raise MemoryError("no memory for a register")
        self._free = weakref.finalize(self, self._library.olr_keep_drop, self._handle)
        # At the end of the process all memory goes, and another thread may still be in a call.
        self._free.atexit = False
        with _registering:
            _registers.add(self)

    def text(self, records_text: Text) -> bytes:
        """Carries out records, with or without the last line end, and returns the bytes of their replies.

        An empty line has no reply. Raises TypeError for what is neither text nor bytes, and ValueError after `close`. An
        interrupt is raised after the call, and its replies are lost.
        """
        sent, length = records.bytes_of(records_text), ctypes.c_size_t()
        with self._lock:
            if not self._free.alive:
                raise ValueError("the register is closed")
            status = self._library.olr_keep_ask(self._handle, sent, len(sent))
            self._status = max(self._status, status)
            if status not in (ACCEPTED, REJECTED):
                raise MemoryError("no memory for a record or its reply")
            at = self._library.olr_keep_text(self._handle, length)
            replies = ctypes.string_at(at, length.value)
            self._held = records.held_after(sent, replies, self._held)
            return replies

    def ask(self, record: Text) -> Optional[Reply]:
        """Carries out a record, with or without its line end, and returns its reply; None for an empty line.

        Raises ValueError, before anything is carried out, for what is not one record on one line.
        """
        line = records.bytes_of(record)
        line = line[: -2 if line.endswith(b"\r\n") else -1] if line.endswith(b"\n") else line
        if not line:
            return None
        if not records.is_one_record(line):
            raise ValueError(f"not one record on one line: {record!r}")
        (reply,) = replies_of(self.text(line).decode("utf-8", "surrogateescape"))
        return reply

    def _accepted(self, record: str) -> Reply:
        """The reply to a record of a typed call, which is one record even if a text in it has a line end."""
        (reply,) = replies_of(self.text(record).decode("utf-8", "surrogateescape"))
        if not reply.accepted:
            raise Rejected(record, reply.number, reply.rest)
        return reply

    def _change(self, record: str) -> Changes:
        reply = self._accepted(record)
        return Changes(tuple(map(Answer.of, reply.lines)), reply.number if reply.word == "held" else None)

    def node(self, number: int, lon: Degrees, lat: Degrees) -> Changes:
        """Adds a node."""
        return self._change(records.node("node", number, lon, lat))

    def move(self, number: int, lon: Degrees, lat: Degrees) -> Changes:
        """Moves a node."""
        return self._change(records.node("move", number, lon, lat))

    def drop_node(self, number: int) -> Changes:
        """Removes a node that no line enters or leaves."""
        return self._change(f"drop-node,{records.number(number)}")

    def line(self, number: int, start: int, end: int, frc: int, fow: int, length: int, shape: Shape = ()) -> Changes:
        """Adds a directed line between two nodes: its functional road class, form of way, length and shape points."""
        return self._change(records.line(number, start, end, frc, fow, length, shape))

    def set_line(self, number: int, frc: int, fow: int, length: int, shape: Shape = ()) -> Changes:
        """Changes a line; its ends stay as they are."""
        return self._change(records.set_line(number, frc, fow, length, shape))

    def drop_line(self, number: int) -> Changes:
        """Removes a line."""
        return self._change(f"drop-line,{records.number(number)}")

    def path(self, name: str, lines: Iterable[int], positive: int = 0, negative: int = 0) -> Changes:
        """Registers a path: its lines in the order of travel, and its offsets at the start and at the end."""
        return self._change(records.path("path", name, lines, positive, negative))

    def repath(self, name: str, lines: Iterable[int], positive: int = 0, negative: int = 0) -> Changes:
        """Changes the lines and offsets of a path."""
        return self._change(records.path("repath", name, lines, positive, negative))

    def drop_path(self, name: str) -> Changes:
        """Removes a path."""
        return self._change(f"drop-path,{records.name(name)}")

    def margin(self, routes: int, classes: int) -> Changes:
        """Sets the margin with which all paths are encoded: thousandths by which their own lines count longer where it is tested
        whether they are the shortest route, and classes by which LFRCNP is less important."""
        return self._change(f"margin,{records.number(routes)},{records.number(classes)}")

    def begin(self) -> Changes:
        """Opens a batch, which holds the changes that follow. `batch` also ends it."""
        return self._change("begin")

    def preview(self) -> Changes:
        """What `commit` would change, if it were called now with the right count. Nothing changes, and the batch stays open."""
        return self._change("preview")

    def commit(self, count: int) -> Changes:
        """Accepts all held changes at once, if their number is `count`."""
        return self._change(f"commit,{records.number(count)}")

    def abort(self) -> Changes:
        """Discards all held changes."""
        return self._change("abort")

    @contextlib.contextmanager
    def batch(self) -> Iterator[Batch]:
        """A batch, for a `with` block: committed at its end, and aborted if the block or the commit raises an exception.

        It holds the changes of all threads.
        """
        batch = Batch()
        self.begin()
        try:
            yield batch
            batch.changes = self.commit(self._held)
        except BaseException:
            with contextlib.suppress(Rejected, ValueError):
                self.abort()
            raise

    def show(self, name: str) -> Answer:
        """What is published of one path."""
        return Answer.of(self._accepted(f"show,{records.name(name)}").lines[0])

    def show_node(self, node: int) -> str:
        """The record of a node."""
        return self._accepted(f"show-node,{records.number(node)}").lines[0]

    def show_line(self, line: int) -> Tuple[str, ...]:
        """The records of the nodes where a line begins and ends, each once, and of the line."""
        return self._accepted(f"show-line,{records.number(line)}").lines

    def show_margin(self) -> Tuple[int, int]:
        """The margin: thousandths of the routes, and classes."""
        routes, classes = self._accepted("show-margin").lines[0].split(",")[1:]
        return int(routes), int(classes)

    def depends(self, *nodes: int) -> Tuple[str, ...]:
        """The names of the paths whose answers an edit may change that touches one of these nodes."""
        return self._accepted(",".join(["depends", *map(records.number, nodes)])).lines

    def ambiguous(self, name: Optional[str] = None) -> Tuple[Obstacle, ...]:
        """What stands in the way of reading strings in only one way: that of one path, or those of all."""
        record = "ambiguous" if name is None else f"ambiguous,{records.name(name)}"
        return tuple(map(Obstacle.of, self._accepted(record).lines))

    def report(self) -> Tuple[Answer, ...]:
        """What is published of all paths, in the order of registration."""
        return tuple(map(Answer.of, self._accepted("report").lines))

    def explain(self, string: str) -> Explained:
        """The contents of a string."""
        return Explained.of(self._accepted(f"explain,{records.name(string)}").lines)

    def dump(self) -> Tuple[str, ...]:
        """The records that build the map and the paths from an empty register."""
        return self._accepted("dump").lines

    @property
    def status(self) -> int:
        """0 if all records were accepted so far, 1 if some were rejected, 4 if memory ran out."""
        return self._status

    def close(self) -> int:
        """Frees the register, and returns its status. A second call does nothing more."""
        with self._lock:
            self._free()
            return self._status

    def __enter__(self) -> "Keep":
        return self

    def __exit__(self, *_: object) -> None:
        self.close()

