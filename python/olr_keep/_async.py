"""A register for asyncio: its calls are made by a thread of its own, one after the other."""
import asyncio
import concurrent.futures
import contextlib
from typing import Any, AsyncIterator, Callable, Iterable, Optional, Tuple, TypeVar

from ._keep import Keep, Text
from ._library import LibraryName
from ._records import Degrees, Shape
from ._replies import Answer, Changes, Explained, Obstacle, Reply

Result = TypeVar("Result")


class AsyncBatch:
    """A batch of changes: after its end `changes` are those of the `commit`."""

    changes: Changes = Changes()


class AsyncKeep:
    """A register whose calls are coroutines, with the calls of `Keep`.

    They are carried out in the order in which they are awaited. One that is cancelled may be carried out all the same. After
    `close` they raise ValueError. A child process that was forked can't use it, since it lacks the thread.
    """

    def __init__(self, library: LibraryName = None) -> None:
        """Makes an empty register. Raises OSError if the library can't be loaded, MemoryError if memory is lacking."""
        self._keep = Keep(library)
        self._thread = concurrent.futures.ThreadPoolExecutor(1, "olr-keep")

    async def _run(self, call: Callable[..., Result], *arguments: Any) -> Result:
        loop = asyncio.get_running_loop()
        try:
            called = loop.run_in_executor(self._thread, call, *arguments)
        except RuntimeError:  # the thread takes no calls any more
            raise ValueError("the register is closed") from None
        return await called

    async def text(self, records_text: Text) -> bytes:
        """Carries out records, and returns the bytes of their replies."""
        return await self._run(self._keep.text, records_text)

    async def ask(self, record: Text) -> Optional[Reply]:
        """Carries out a record, and returns its reply; None for an empty line."""
        return await self._run(self._keep.ask, record)

    async def node(self, number: int, lon: Degrees, lat: Degrees) -> Changes:
        """Adds a node."""
        return await self._run(self._keep.node, number, lon, lat)

    async def move(self, number: int, lon: Degrees, lat: Degrees) -> Changes:
        """Moves a node."""
        return await self._run(self._keep.move, number, lon, lat)

    async def drop_node(self, number: int) -> Changes:
        """Removes a node that no line enters or leaves."""
        return await self._run(self._keep.drop_node, number)

    async def line(self, number: int, start: int, end: int, frc: int, fow: int, length: int, shape: Shape = ()) -> Changes:
        """Adds a directed line between two nodes: its functional road class, form of way, length and shape points."""
        return await self._run(self._keep.line, number, start, end, frc, fow, length, shape)

    async def set_line(self, number: int, frc: int, fow: int, length: int, shape: Shape = ()) -> Changes:
        """Changes a line; its ends stay as they are."""
        return await self._run(self._keep.set_line, number, frc, fow, length, shape)

    async def drop_line(self, number: int) -> Changes:
        """Removes a line."""
        return await self._run(self._keep.drop_line, number)

    async def path(self, name: str, lines: Iterable[int], positive: int = 0, negative: int = 0) -> Changes:
        """Registers a path: its lines in the order of travel, and its offsets at the start and at the end."""
        return await self._run(self._keep.path, name, lines, positive, negative)

    async def repath(self, name: str, lines: Iterable[int], positive: int = 0, negative: int = 0) -> Changes:
        """Changes the lines and offsets of a path."""
        return await self._run(self._keep.repath, name, lines, positive, negative)

    async def drop_path(self, name: str) -> Changes:
        """Removes a path."""
        return await self._run(self._keep.drop_path, name)

    async def margin(self, routes: int, classes: int) -> Changes:
        """As `Keep.margin`."""
        return await self._run(self._keep.margin, routes, classes)

    async def begin(self) -> Changes:
        """Opens a batch, which holds the changes that follow. `batch` also ends it."""
        return await self._run(self._keep.begin)

    async def preview(self) -> Changes:
        """What `commit` would change, if it were called now with the right count. Nothing changes, and the batch stays open."""
        return await self._run(self._keep.preview)

    async def commit(self, count: int) -> Changes:
        """Accepts all held changes at once, if their number is `count`."""
        return await self._run(self._keep.commit, count)

    async def abort(self) -> Changes:
        """Discards all held changes."""
        return await self._run(self._keep.abort)

    @contextlib.asynccontextmanager
    async def batch(self) -> AsyncIterator[AsyncBatch]:
        """A batch, for an `async with` block: committed at its end, and aborted if an exception is raised."""
        batch, held = AsyncBatch(), self._keep.batch()
        inner = await self._run(held.__enter__)
        try:
            yield batch
        except BaseException as error:
            await asyncio.shield(self._run(held.__exit__, type(error), error, error.__traceback__))
            raise
        await self._run(held.__exit__, None, None, None)
        batch.changes = inner.changes

    async def show(self, name: str) -> Answer:
        """What is published of one path."""
        return await self._run(self._keep.show, name)

    async def show_node(self, node: int) -> str:
        """The record of a node."""
        return await self._run(self._keep.show_node, node)

    async def show_line(self, line: int) -> Tuple[str, ...]:
        """The records of the nodes where a line begins and ends, each once, and of the line."""
        return await self._run(self._keep.show_line, line)

    async def show_margin(self) -> Tuple[int, int]:
        """As `Keep.show_margin`."""
        return await self._run(self._keep.show_margin)

    async def depends(self, *nodes: int) -> Tuple[str, ...]:
        """The names of the paths whose answers an edit may change that touches one of these nodes."""
        return await self._run(self._keep.depends, *nodes)

    async def ambiguous(self, name: Optional[str] = None) -> Tuple[Obstacle, ...]:
        """What stands in the way of reading strings in only one way: that of one path, or those of all."""
        return await self._run(self._keep.ambiguous, name)

    async def report(self) -> Tuple[Answer, ...]:
        """What is published of all paths, in the order of registration."""
        return await self._run(self._keep.report)

    async def explain(self, string: str) -> Explained:
        """The contents of a string."""
        return await self._run(self._keep.explain, string)

    async def dump(self) -> Tuple[str, ...]:
        """The records that build the map and the paths from an empty register."""
        return await self._run(self._keep.dump)

    @property
    def status(self) -> int:
        """0 if all records were accepted so far, 1 if some were rejected, 4 if memory ran out."""
        return self._keep.status

    async def close(self) -> int:
        """Frees the register after the calls before, and returns its status. A second call does nothing more."""
        try:
            return await self._run(self._keep.close)
        except ValueError:
            return self._keep.status
        finally:
            self._thread.shutdown(wait=False)

    async def __aenter__(self) -> "AsyncKeep":
        return self

    async def __aexit__(self, *_: object) -> None:
        await self.close()

