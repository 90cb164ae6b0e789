"""The table of what is published, in a file of SQLite or in a database of PostgreSQL.

`published` has a row for each path: its answer as in replies, when that changed, by which user, and its position. `history` has a
row for each change, by position, from 1; the answer of a dropped path is `dropped`. What one call of `write` changes in both is
one transaction. One process at a time has a table: a lock, which ends with it, keeps others from writing it.

`identity` has one row: a random word, and the position after which the changes are that it stands for. A table that is not the one
that was written last, since it was made again, restored or changed by hand, gets another word, and positions that no table of this
log has had: so whoever knows a position and its word never takes other changes for those that follow.
"""
import contextlib
import fcntl
import os
import secrets
import select
import sqlite3
import time
from typing import Any, Dict, Iterable, List, NamedTuple, Optional, Sequence, Tuple, Type, Union

from olr_keep_tools.files import open_lock
from olr_keep_tools.serve.jobs import Change
from olr_keep_tools.serve.noted import Noted, Point
from olr_keep_tools.stores import NEEDED, FileStore, Row, ServerStore, is_url, psycopg2

DROPPED = "dropped"
ROWS = 1000
ANSWERS = 60.0  # seconds in which a database has to answer
LOCK = 7165_0030  # of pg_try_advisory_lock, with the number of the schema
SERVES = "olr-keep-serve "  # before the name of who has a table
MOST_NAME = 63  # bytes of it in PostgreSQL
TABLES = """
create table if not exists published (name text primary key, answer text not null, changed text not null,
    "user" text not null, position bigint not null);
create table if not exists history (position bigint primary key, name text not null, answer text not null,
    changed text not null, "user" text not null);
create index if not exists history_name on history (name, position)"""
IDENTITY = "create table if not exists identity (identity text not null, after bigint not null)"
# In PostgreSQL `user` without quotes is the role that asks.
BY_USER = """alter table {} add column by_user text generated always as ("user") {}"""
PUT = """insert into published (name, answer, changed, "user", position) values {} on conflict (name) do update
    set answer = excluded.answer, changed = excluded.changed, "user" = excluded."user", position = excluded.position"""
ADD = 'insert into history (position, name, answer, changed, "user") values {}'
# The last change of each path of which `published` says something else.
DIFFERING = f"""select last.name, last.answer, last.changed, last."user", last.position
    from (select * from history where position in (select max(position) from history group by name)) as last
    left join published on published.name = last.name
    where (last.answer = '{DROPPED}') = (published.name is not null) or published.answer <> last.answer"""
SKIPPED = 1_000_000_000  # positions that are left out for what a lost table may have had
# With a log of its own a file has memory that its readers share. SQLite writes one byte of each so many of it: where blocks are
# smaller, a full disk lacks the others, and whoever writes to them is ended by a signal. There readers and the writer wait for each other.
SHARED_BLOCK = 4096
SHARED = ("journal_mode=wal", "synchronous=full")
ALONE = ("locking_mode=exclusive", "journal_mode=delete", "locking_mode=normal", "synchronous=full")


class TableError(Exception):
    """The table can't be read or written."""


class Taken(TableError):
    """Another service has the table."""

    def __init__(self, owner: str) -> None:
        super().__init__(f"another service writes it, that of {owner}; start this one again when that one has ended")


class Entry(NamedTuple):
    """A change that is to be written, with its time and its user."""

    change: Change
    at: str
    user: str


class SQLite(FileStore):
    """A file, with another one that is locked and names who has it."""

    generated = "virtual"  # how a column is generated that is added to a table

    def __init__(self, name: str, owner: str) -> None:
        self.lock = open(open_lock(f"{os.path.realpath(name)}.lock"), "r+", encoding="utf-8")
        try:
            self._own(owner)
            self.file = sqlite3.connect(name, isolation_level=None, timeout=20, check_same_thread=False)
            is_small = os.statvfs(os.path.dirname(os.path.realpath(name))).f_frsize < SHARED_BLOCK
            for it in ALONE if is_small else SHARED:
                self.file.execute(f"pragma {it}")
        except BaseException:
            self.lock.close()
            raise

    def _own(self, owner: str) -> None:
        """Locks the table for this process."""
        try:
            fcntl.flock(self.lock, fcntl.LOCK_EX | fcntl.LOCK_NB)
        except BlockingIOError:
            self.lock.seek(0)
            raise taken(self.lock.read(), owner) from None
        self.lock.truncate(0)
        self.lock.write(owner)
        self.lock.flush()

    def close(self) -> None:
        # So that users who may only read it can do so while nobody serves it.
        with contextlib.suppress(sqlite3.Error):
            self.file.execute("pragma busy_timeout=0")
            self.file.execute("pragma journal_mode=delete")
        super().close()
        self.lock.close()


def wait(connection: Any) -> None:
    """Waits for the answer of a database, and not for ever: one that was stopped keeps its connections."""
    while (state := connection.poll()) != psycopg2.extensions.POLL_OK:
        files, none = [connection.fileno()], []  # type: List[int], List[int]
        reads = state == psycopg2.extensions.POLL_READ
        if not any(select.select(files if reads else none, none if reads else files, none, ANSWERS)):
            raise psycopg2.OperationalError(f"the database hasn't answered for {ANSWERS:.0f} seconds")


# The server, too, notices that this machine is gone, so that the lock ends.
OPTIONS = ("-c lock_timeout=20s -c client_min_messages=warning -c tcp_keepalives_idle=10 -c tcp_keepalives_interval=5 "
           "-c tcp_keepalives_count=3")


class PostgreSQL(ServerStore):
    """Tables in the first schema of the search path of a database."""

    generated, locked = "stored", "published"

    def __init__(self, url: str, owner: str) -> None:
        if psycopg2 is None:
            raise TableError(NEEDED)
        psycopg2.extensions.set_wait_callback(wait)
        given = psycopg2.extensions.parse_dsn(url).get("options", "")
        self.connection = psycopg2.connect(
            url, connect_timeout=10, application_name=(SERVES + owner)[:MOST_NAME], keepalives_idle=10, keepalives_interval=5,
            keepalives_count=3, tcp_user_timeout=30_000, options=f"{OPTIONS} {given}")
        self.connection.autocommit = True
        try:
            self._own(owner[: MOST_NAME - len(SERVES)])
        except BaseException:
            self.connection.close()
            raise

    def _own(self, owner: str) -> None:
        """Locks the tables for this session, until it ends."""
        schema = "coalesce(current_schema()::regnamespace::oid, 0)"
        if self.rows(f"select pg_try_advisory_lock(?, {schema}::int)", (LOCK,)) == [(True,)]:
            return
        found = self.rows(f"""select application_name from pg_locks join pg_stat_activity using (pid)
            where locktype = 'advisory' and granted and classid = ? and objid = {schema}
                and pg_locks.database = (select oid from pg_database where datname = current_database())""", (LOCK,))
        raise taken("".join(it[len(SERVES) :] for (it,) in found), owner)


def taken(other: str, owner: str) -> TableError:
    """Why a table can't be had that is locked. What a service left that was killed ends in a moment."""
    return Taken(other) if other not in ("", owner) else TableError("an earlier process of this service has it")


def now() -> str:
    """The time of a change."""
    seconds = time.time()
    return time.strftime("%Y-%m-%dT%H:%M:%S", time.gmtime(seconds)) + f".{int(seconds * 1000) % 1000:03}Z"


class Table:
    """The tables. All calls raise TableError if the database fails; the connection is then of no use any more."""

    def __init__(self, name: str, channel: str = "", retained: int = 0, owner: str = "", noted: str = "") -> None:
        """Opens the table, and makes it if it is missing. With a `channel` PostgreSQL notifies it of each position; the
        newest `retained` changes stay in the history, all if it is 0. `owner` is named to others that want it. `noted` is the file
        that has its identity and position, by which one that was made again or restored is noticed."""
        self.channel, self.retained, self.noted = channel, retained, None  # type: str, int, Optional[Noted]
        kind: Type[Union[SQLite, PostgreSQL]] = PostgreSQL if is_url(name) else SQLite
        self.failures: Tuple[Type[BaseException], ...] = (*kind.failures, OSError)
        try:
            self.store = kind(name, owner)
        except self.failures as error:
            raise TableError(" ".join(str(error).split())) from None
        try:
            for statement in TABLES.split(";"):
                self.store.run(statement)
            self._add_by_user()
            if noted:
                self.noted = Noted(noted)
            self.identity, self.position = self._continued()
        except BaseException as error:
            self.close()
            if isinstance(error, self.failures):
                raise TableError(" ".join(str(error).split())) from None
            raise

    def _add_by_user(self) -> None:
        """Adds the column to tables that lack it, such as those of 2.0.0."""
        for name in ("published", "history"):
            try:
                self.store.rows(f"select by_user from {name} limit 0")
            except self.failures:
                self.store.run(BY_USER.format(name, self.store.generated))

    def _continued(self) -> Point:
        """The point at which the table is: as the one that was written last, or as another one. What `published` lacks, or has
        besides, is set as the history has it."""
        self.store.run("begin")
        self.store.run(IDENTITY)
        there, last = self.point(), self.noted.read() if self.noted else None
        differing = self.store.rows(DIFFERING)
        self._set_published(differing)
        is_last = last.is_before(there) if last else not self.noted
        if not there.identity or differing or not is_last:
            is_first = not (there.identity or differing or last)
            position = max(there.position, last.position if last else 0) + (0 if is_first else SKIPPED)
            there = Point(secrets.token_hex(8), position)
            self.store.run("delete from identity")
            self.store.run("insert into identity values (?, ?)", there)
        self.store.run("commit")
        self._note(there)
        return there

    def _note(self, point: Point) -> None:
        """Notes at which point the table is."""
        if self.noted:
            self.noted.write(point)

    def point(self) -> Point:
        """The identity, empty if there is none yet, and the position of the last change, 0 before the first one."""
        (position,), = self.store.rows("select coalesce(max(position), 0) from history")
        found = self.store.rows("select identity, after from identity")
        return Point(found[0][0], max(int(position), int(found[0][1]))) if found else Point("", int(position))

    def write(self, entries: Iterable[Entry]) -> int:
        """Writes changes in one transaction, and returns the position after them. What changes nothing is left out."""
        return self._transaction(lambda: list(entries))

    def set_all(self, answers: Dict[str, str], user: str) -> int:
        """Writes what differs from these answers, all that are published. If `published` isn't what the history leads to, this fails, and
        is right after the next opening."""

        def differing() -> List[Entry]:
            if self.store.rows(DIFFERING):
                raise TableError("somebody has changed it: it is compared with its history")
            there: Dict[str, str] = {name: answer for name, answer in self.store.rows("select name, answer from published")}
            at = now()
            gone = [Entry(Change(name, None), at, user) for name in there if name not in answers]
            return gone + [Entry(Change(*it), at, user) for it in answers.items() if there.get(it[0]) != it[1]]

        return self._transaction(differing)

    def _transaction(self, entries: Any) -> int:
        """Writes the entries that a function returns within the transaction."""
        try:
            self.store.run("begin")
            if self.point() != (self.identity, self.position):
                raise TableError("another process writes it")
            position = self._put(entries())
            if self.channel and position > self.position:
                self.store.run("select pg_notify(?, ?)", (self.channel, str(position)))
            self.store.run("commit")
            self._note(Point(self.identity, position))
        except self.failures as error:
            raise TableError(" ".join(str(error).split())) from None
        self.position = position
        return position

    def _put(self, entries: List[Entry]) -> int:
        """Writes entries; the last one of each path is in the table."""
        position, rows, last = self.position, [], {}  # type: int, List[Row], Dict[str, Row]
        for change, at, user in entries:
            answer = DROPPED if change.answer is None else change.answer
            position += 1
            rows.append((position, change.name, answer, at, user))
            last[change.name] = (change.name, answer, at, user, position)
        if not rows:
            return position
        self.store.put(ADD, rows)
        self._set_published(list(last.values()))
        if self.retained and position // ROWS > self.position // ROWS:
            self.store.run("delete from history where position <= ?", (position - self.retained,))
        return position

    def _set_published(self, rows: List[Row]) -> None:
        """Sets the rows of paths to these."""
        self.store.put(PUT, [it for it in rows if it[1] != DROPPED])
        for name in (it[0] for it in rows if it[1] == DROPPED):
            self.store.run("delete from published where name = ?", (name,))

    def changes(self, after: int, most: int) -> Optional[List[Row]]:
        """The changes that follow a position, as position, name and answer, in their order; None if they are not all there, or the
        position is of a later time."""
        text = "select position, name, answer from history where position > ? order by position limit ?"
        rows = self._read(text, (after, most))
        following = [row for position, row in enumerate(rows, after + 1) if row[0] == position]
        return following if following or after == self.position else None

    def published(self) -> List[Row]:
        """What is published, as name and answer, by name."""
        return self._read("select name, answer from published order by name", ())

    def _read(self, text: str, values: Sequence[Any]) -> List[Row]:
        try:
            return self.store.rows(text, values)
        except self.failures as error:
            raise TableError(" ".join(str(error).split())) from None

    def close(self) -> None:
        """Closes it."""
        if self.noted:
            self.noted.close()
        try:
            self.store.close()
        except self.failures:
            pass
