"""Rounds of small saves that are nowhere near a bulk, while the round of this is computed in another session: they don't wait for it,
and it doesn't see them. What both would change is left to the bulk's round, and to the next one."""
from __future__ import annotations

import time
from typing import TYPE_CHECKING, Any, Callable, Collection, Dict, List, Optional, Set

from ..program import ProgramFailed
from ..sql import number_array, psycopg2, text_array
from . import session
from .attempt import Attempt, Bulk, Ending
from .cells import NEAR
from .map import Affected
from .program import LiveProgram, end
from .read import FEW, Change, Reader, away
from .session import LATER, Busy, Stale

if TYPE_CHECKING:
    from .service import Live

EVERY = 0.3  # seconds between two looks


class Near(Exception):
    """Saves that a bulk may have to do with."""


class Aside:
    """Rounds beside that of a bulk. `program` has the map and the paths without it; `records` are those of the rounds, which the
    program that is loaded for the bulk lacks."""

    def __init__(self, live: Live, program: LiveProgram, bulk: Bulk) -> None:
        self.live, self.bulk = live, bulk
        self.program: Optional[LiveProgram] = program
        self.records: List[str] = []
        self.tried = {*bulk.transactions}
        self.seen: Set[str] = set()
        self.sessions: Dict[str, Any] = {}
        self.looked, self.is_busy, self.is_asked = 0.0, False, False

    def end(self) -> List[str]:
        """Ends the program and the sessions. Returns the records."""
        self.drop_program()
        for it in self.sessions.values():
            it.close()
        return self.records

    def drop_program(self) -> None:
        """Ends the program: there are no more rounds beside the bulk."""
        if self.program:
            end(self.program)
        self.program = None

    def session(self, name: str) -> Any:
        """One of the sessions: of the rounds, or of the map as it was before the bulk."""
        if name not in self.sessions:
            live = self.live
            self.sessions[name] = session.connect_beside(live.settings.database, live.settings.idle, live.connection.info.backend_pid)
        return self.sessions[name]

    def before(self) -> Any:
        """A cursor that reads the map as it was before the bulk."""
        is_new = "before" not in self.sessions
        cursor = self.session("before").cursor()
        if is_new:
            cursor.execute("set idle_in_transaction_session_timeout = 0")
            cursor.execute("begin isolation level repeatable read")
            cursor.execute("set transaction snapshot %s", (self.bulk.snapshot,))
        return cursor

    def look(self) -> None:
        """Makes rounds of the small saves that were there at the last look already, if there are some."""
        if self.is_busy or not self.program or time.monotonic() < self.looked + EVERY:
            return
        self.is_busy = True
        try:
            self.make_rounds()
        except (Busy, Stale, ProgramFailed, psycopg2.Error):
            if self.is_asked or any(it.closed for it in self.sessions.values()):
                self.drop_program()
        finally:
            self.looked, self.is_busy = time.monotonic(), False

    def make_rounds(self) -> None:
        """The same, without regard to what fails: one round of them all, or, if one of them has to wait, one of each. They are tried once."""
        cursor = self.session("rounds").cursor()
        cursor.execute("""select tx::text from olr_keep.note where source <> %s and tx <> all(%s::text[]::xid8[])
            group by tx having count(*) <= %s and not bool_or(key is null)""", (LATER, text_array(self.tried), FEW))
        small = {tx for (tx,) in cursor}
        ready, self.seen = small & self.seen, small
        self.tried |= ready
        if ready and not self.is_made(ready) and len(ready) > 1:
            for tx in sorted(ready):
                self.is_made({tx})

    def is_made(self, transactions: Set[str]) -> bool:
        """Whether the round of these could be made, since they are nowhere near the bulk."""
        connection = self.session("rounds")
        try:
            with session.Transaction(connection, connection.cursor()) as work:
                Beside(self, work, transactions).run()
        except (Near, psycopg2.errors.LockNotAvailable):
            if self.is_asked:
                self.drop_program()
            return False
        return True


class SmallReader(Reader):
    """Reads those of some small transactions that are nowhere near a bulk."""

    wanted: Set[str]
    bulk: Bulk

    def small_ones(self) -> Set[str]:
        """These transactions."""
        cells = self.cells_of(self.wanted)
        found = away(self.wanted, cells, self.bulk.near) if cells is not None else set()
        if not found:
            raise Near
        return found


class Beside(Attempt):
    """A round of small saves beside a bulk. It fails before it changes anything that the bulk's round may change."""

    def __init__(self, aside: Aside, work: session.Transaction, wanted: Set[str]) -> None:
        super().__init__(aside.live, work, False)
        if not aside.program:
            raise Near
        self.aside, self.program, self.fresh = aside, aside.program, {}
        self.reader = reader = SmallReader(work.cursor, work.tables, ())
        reader.wanted, reader.bulk = wanted, aside.bulk
        self.affected = Affected()
        self.affected.cells = set()

    def prepare(self, change: Change) -> None:
        """Takes numbers of the bulk's round."""
        if change.is_margin_new or change.every_path:
            raise Near
        change.is_beside = True
        self.numbers = self.aside.bulk.numbers.beside(self.cursor)

    def before(self) -> Callable[[], Any]:
        """What gives a cursor that reads the map as it is committed."""
        return self.live.before

    def tell(self, done: int, count: int, what: str = "streets") -> None:
        """Says nothing: it is short."""

    def answers(self) -> Dict[str, str]:
        """The answers that the round changes, unless it is near the bulk."""
        if not (self.affected.cells or set()).isdisjoint(self.aside.bulk.near):
            raise Near
        self.refuse({*self.paths.found, *self.paths.gone, *self.over_streets()})
        self.aside.is_asked = True
        return super().answers()

    def over_streets(self) -> Set[str]:
        """The paths over the streets of the round."""
        self.cursor.execute("select line from olr_keep.line where street = any(%s::text[])", (text_array(self.affected.keys),))
        lines = number_array(it for (it,) in self.cursor)
        self.cursor.execute("select name from olr_keep.string where lines && %s::bigint[]", (lines,))
        return {name for (name,) in self.cursor}

    def refuse(self, names: Collection[str]) -> None:
        """Fails if a path is near the bulk, or over a street of it."""
        values = (text_array(names),)
        self.cursor.execute("""select distinct ltrim(one, '<>') from olr_keep.string left join olr_keep.path using (name)
            cross join unnest(string.streets || given_streets || path.streets) as one where name = any(%s::text[])""", values)
        streets = {it for (it,) in self.cursor}
        self.cursor.execute(f"""select distinct floor(ST_X(it) / {NEAR})::int, floor(ST_Y(it) / {NEAR})::int
            from olr_keep.string cross join unnest(array[geom, given, lost_at]) as one
                cross join lateral (select (ST_DumpPoints(one)).geom as it) as place where name = any(%s::text[])""", values)
        if not self.aside.bulk.streets.isdisjoint(streets) or not self.aside.bulk.near.isdisjoint(self.cursor.fetchall()):
            raise Near

    def publish(self, change: Change) -> Ending:
        """Publishes the round, and commits. If it can't, the program has what isn't published."""
        self.refuse({*self.outcome.published, *self.outcome.waiting, *self.outcome.ended})
        ending = super().publish(change)
        self.aside.is_asked = False
        self.aside.records += self.records + self.paths.records
        return ending
