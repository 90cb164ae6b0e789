"""Connections that read: the changes of the table from a position on, health, and metrics.

The first line says what is asked: `changes,POSITION,IDENTITY`, `changes,POSITION`, `changes`, `health` or `metrics`. Changes are
lines POSITION,NAME,ANSWER, with the answer as in replies, or `dropped`, each of the position after the one before. A reader that
ends its input gets the changes up to now, another one also those that follow.

With an identity the first line is `identity,IDENTITY`, that of the table. If it is another one, or the history doesn't continue from
the position, there follow `whole,POSITION,N` and N lines NAME,ANSWER, all that is published; so it is each time when the next
changes aren't in the history any more. Without an identity there is no such line, and `whole` is at the start alone, also if no
position is given: the connection ends in its place, so that its reader asks again.
"""
import asyncio
import re
from typing import Any, Callable, NamedTuple, Optional

from olr_keep_tools.serve.faults import Word, fault
from olr_keep_tools.serve.keeper import Keeper
from olr_keep_tools.serve.metrics import Health
from olr_keep_tools.serve.table import Table, TableError
from olr_keep_tools.serve.unread import Unread

ASKED = re.compile(r"changes(?:,([0-9]{1,18})(?:,([!-+.-~-]{1,64}))?)?|health|metrics|GET /metrics HTTP/1\.[01]")
PAGE = 1000
BLOCK = 1 << 16
WAIT = 30.0  # seconds for the first line
MOMENT = 0.1


async def first_of(gone: "asyncio.Future[Any]", other: "asyncio.Future[Any]") -> None:
    """Waits for one of two, and no longer for the second one."""
    await asyncio.wait({gone, other}, return_when=asyncio.FIRST_COMPLETED)
    other.cancel()


class Page(NamedTuple):
    """Changes that follow a position, or all that is published, as lines, with the table's identity and the position after these."""

    identity: str
    position: int
    text: bytes

    def after(self, known: Optional[str]) -> bytes:
        """Its lines for a reader that knows this identity; None if it didn't ask for one."""
        head = b"" if known in (None, self.identity) else f"identity,{self.identity}\n".encode()
        return head + self.text


def page_of(position: Optional[int], identity: Optional[str]) -> Callable[[Table], Optional[Page]]:
    """The question for the changes after a position in a table, in any one if no identity is given. None if the history doesn't have
    them all."""

    def ask(table: Table) -> Optional[Page]:
        is_known = position is not None and identity in (None, table.identity)
        rows = table.changes(position or 0, PAGE) if is_known else None
        if rows is None:
            return None
        return Page(table.identity, (position or 0) + len(rows), "".join(f"{at},{name},{answer}\n" for at, name, answer in rows).encode())

    return ask


def all_of(table: Table) -> Page:
    """All that is published."""
    lines = [f"{name},{answer}\n" for name, answer in table.published()]
    return Page(table.identity, table.position, "".join([f"whole,{table.position},{len(lines)}\n", *lines]).encode())


async def until_end(reader: asyncio.StreamReader) -> None:
    """Waits until a connection has ended its input. What it sends is not looked at."""
    while await reader.read(BLOCK):
        pass


class Readers:
    """All connections that read. As many as may follow the changes may ask something besides."""

    def __init__(self, keeper: Keeper, health: Callable[[], Health], most: int, unread: Unread) -> None:
        self.keeper, self.health, self.most, self.unread = keeper, health, most, unread
        self.turn = asyncio.Lock()  # of who gets all that is published
        self.open = self.following = 0
        self.written = asyncio.Event()

    def wake(self) -> None:
        """Something was written, or the table has failed."""
        self.written.set()
        self.written = asyncio.Event()

    async def serve(self, reader: asyncio.StreamReader, writer: asyncio.StreamWriter) -> None:
        """Serves one connection until its end."""
        self.open += 1
        self.unread.add(writer.transport)
        try:
            if self.open > 2 * self.most:
                writer.write(self._full())
            else:
                await self._answer(reader, writer)
            await writer.drain()
        except (ConnectionError, asyncio.TimeoutError, asyncio.LimitOverrunError, ValueError):
            pass
        finally:
            self.open -= 1
            self.unread.discard(writer.transport)
            writer.close()

    def _full(self) -> bytes:
        """What a connection gets for which there is no place."""
        return fault(Word.CONNECTIONS, f"{self.most} are open, and no more are taken")

    async def _answer(self, reader: asyncio.StreamReader, writer: asyncio.StreamWriter) -> None:
        """Reads what is asked, and answers it."""
        line = (await asyncio.wait_for(reader.readline(), WAIT)).decode("latin-1").strip()
        asked = ASKED.fullmatch(line)
        if asked is None:
            writer.write(fault(Word.NO_POSITION, "ask changes, changes,POSITION, health or metrics"))
        elif line == "health":
            writer.write(f"{self.health().line()}\n".encode())
        elif line == "metrics":
            writer.write(self.health().prometheus().encode())
        elif line.startswith("GET"):
            text = self.health().prometheus().encode()
            writer.write(b"HTTP/1.0 200 OK\r\nContent-Type: text/plain; version=0.0.4\r\nContent-Length: %d\r\n\r\n%s" % (len(text), text))
        elif self.following == self.most:
            writer.write(self._full())
        else:
            self.following += 1
            try:
                await self._follow(reader, writer, int(asked[1]) if asked[1] else None, asked[2])
            finally:
                self.following -= 1

    async def _follow(self, reader: asyncio.StreamReader, writer: asyncio.StreamWriter, position: Optional[int],
                      asked: Optional[str]) -> None:
        """Writes changes as they are made; to a reader that has ended its input, all that there are."""
        gone, identity = asyncio.ensure_future(until_end(reader)), asked
        known = None if asked is None else ""
        try:
            while True:
                await writer.drain()
                written, has_ended = self.written, gone.done()
                page = await self.keeper.read(page_of(position, identity))
                if page is None and asked is None and identity is not None:
                    return
                page = await self._write(writer, page, known)
                position, identity = page.position, page.identity
                known = None if asked is None else identity
                if not page.text:
                    if has_ended:
                        return
                    await first_of(gone, asyncio.ensure_future(written.wait()))
        except TableError as error:
            writer.write(fault(Word.TABLE, str(error)))
        finally:
            gone.cancel()

    async def _write(self, writer: asyncio.StreamWriter, page: Optional[Page], known: Optional[str]) -> Page:
        """Writes a page; in place of none all that is published, once there is room for it."""
        if page:
            writer.write(page.after(known))
            return page
        async with self.turn:
            while not self.unread.has_room():
                await asyncio.sleep(MOMENT)
            found: Page = await self.keeper.read(all_of)
            writer.write(found.after(known))
            return found
