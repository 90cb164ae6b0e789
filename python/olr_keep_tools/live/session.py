"""The session of tools/live: connecting, the lock of the process that works, transactions, and what is asked between rounds."""
from __future__ import annotations

import enum
import re
from typing import Any, Dict, Iterable, List, NamedTuple, Optional, Sequence, Set, Tuple, Type

from ..sql import psycopg2, text_array

LOCK, BESIDE = 7165_0029, 7165_0030  # of advisory locks: of the session that works, and of those beside it
LONGEST_LOCK = 200  # milliseconds for which a session beside another one waits for a lock
LATER = -2  # the source of notes of paths that are sought when no other note is left
LONGEST_ID = 1000  # bytes of the id of a street: an index takes 2,700
TRIGGERS = "'olr_keep_row', 'olr_keep_row_note', 'olr_keep_statement', 'olr_keep_truncate'"


class Stale(Exception):
    """The sources changed while a round began."""


class Busy(Exception):
    """Another transaction has the table of paths or of sources locked."""


class Source(NamedTuple):
    """A table of streets, and the expressions of its columns; streets may have no names."""

    source: int
    streets: str
    id: str
    id_type: str
    frc: str
    fow: str
    direction: str
    geom: str
    prefix: str
    search_path: str
    name: Optional[str]


class Readable(enum.Enum):
    """Whether a table can be read now."""

    READY = "ready"
    LOCKED = "locked"
    MISSING = "missing"
    BROKEN = "broken"


class SourceTable(NamedTuple):
    """A source, whether it can be read, and why not."""

    source: Source
    state: Readable
    words: str = ""


class Watched(NamedTuple):
    """A table whose triggers are looked at: source 0 is that of the paths. `files` changes if the table is rewritten."""

    source: int
    streets: str
    is_there: bool
    has_triggers: bool
    files: str


# ---- the session

# What the server says of a login for which it is no use to wait.
REFUSED = re.compile(r"authentication failed|no password supplied|no pg_hba\.conf entry|(role|database|user) \"[^\n]*\" does not exist")


def is_refused(error: Exception) -> bool:
    """Whether the server refuses the login."""
    return isinstance(error, psycopg2.OperationalError) and REFUSED.search(str(error)) is not None


def connect(database: str, idle: int) -> Any:
    """Opens a session that notices if it is cut; the server ends it after a pause of `idle` seconds in a transaction."""
    connection = psycopg2.connect(
        database, application_name="olr-keep live", keepalives_idle=10, keepalives_interval=5, keepalives_count=3,
        tcp_user_timeout=30_000, connect_timeout=10)
    connection.autocommit = True
    with connection.cursor() as cursor:
        cursor.execute("set row_security = off; set search_path = public, pg_temp; set jit = off; set work_mem = '64MB'")
        cursor.execute("set client_min_messages = warning; set idle_in_transaction_session_timeout = %s", (f"{idle}s",))
    return connection


def connect_beside(database: str, idle: int, holder: int) -> Any:
    """Opens a session beside the one that has the lock, as long as that has it. It waits for no lock, since that one may have it."""
    connection = connect(database, idle)
    with connection.cursor() as cursor:
        cursor.execute("set lock_timeout = %s; select pg_advisory_lock_shared(%s)", (f"{LONGEST_LOCK}ms", BESIDE))
        cursor.execute("select exists (select from pg_locks where locktype = 'advisory' and objid = %s and classid = 0 and granted and pid = %s)",
                       (LOCK, holder))
        if not cursor.fetchone()[0]:
            connection.close()
            raise Stale("another process works")
    return connection


def check_schema(cursor: Any) -> None:
    """Fails if the schema is missing, or that of another version."""
    cursor.execute("select not exists (select from pg_attribute where attrelid = to_regclass('olr_keep.street') and attname = 'name')")
    if cursor.fetchone()[0]:
        raise psycopg2.ProgrammingError("the database has no schema olr_keep, or that of another version: run tools/live.sql")


def try_lock(cursor: Any) -> bool:
    """Whether this session is the one that works on the database."""
    cursor.execute("select pg_try_advisory_lock(%s)", (LOCK,))
    return bool(cursor.fetchone()[0])


def end_stopped(cursor: Any, seconds: float) -> bool:
    """Ends the session that has the lock if it has asked nothing for so long, in a transaction or not: a process that runs asks
    more often. While it reads a long answer it doesn't ask, and may be silent twenty times as long."""
    cursor.execute(
        """select pg_terminate_backend(pid) from pg_locks join pg_stat_activity using (pid)
        where locktype = 'advisory' and objid = %s and classid = 0 and granted
            and pg_locks.database = (select oid from pg_database where datname = current_database())
            and (state like 'idle%%' and state_change < clock_timestamp() - make_interval(secs => %s)
                or wait_event_type = 'Client' and state_change < clock_timestamp() - make_interval(secs => 20 * %s))""",
        (LOCK, seconds, seconds))
    return bool(cursor.rowcount > 0)


def end_beside(cursor: Any) -> bool:
    """Ends the sessions beside another one that had the lock before. Returns whether there were some."""
    cursor.execute("""select pg_terminate_backend(pid) from pg_locks
        where locktype = 'advisory' and objid = %s and classid = 0 and granted
            and database = (select oid from pg_database where datname = current_database())""", (BESIDE,))
    return bool(cursor.rowcount > 0)


def sources_of(cursor: Any, draft: str = "") -> List[Source]:
    """The tables of streets; those of the same names in the schema of a draft take their places."""
    cursor.execute("""select source, case when to_regclass(whole) is null then streets else whole end, id, id_type, class, form,
            direction, geom, prefix, search_path, name
        from olr_keep.source cross join lateral (select format('%%I.%%I', %s, (parse_ident(streets))[2]) as whole) as of_draft
        order by source""", (draft,))
    return [Source(*it) for it in cursor]


class Savepoint:
    """A part of a transaction that is taken back if it fails. Inside, functions are sought where `search_path` says."""

    def __init__(self, cursor: Any, search_path: Optional[str] = None) -> None:
        self.cursor, self.search_path = cursor, search_path

    def __enter__(self) -> None:
        self.cursor.execute("savepoint part")
        if self.search_path:
            self.cursor.execute(f"set local search_path = {self.search_path}, public, pg_temp")

    def __exit__(self, kind: Optional[Type[BaseException]], error: object, trace: object) -> None:
        if kind is None:
            back = "; set local search_path = public, pg_temp" if self.search_path else ""
            self.cursor.execute(f"release savepoint part{back}")
        elif issubclass(kind, psycopg2.Error) and not self.cursor.connection.closed:
            self.cursor.execute("rollback to savepoint part; release savepoint part")


class Transaction:
    """A transaction that sees one state of all tables: they are locked against TRUNCATE before its snapshot is taken. It never
    waits for a lock while it has others, so it can't be part of a deadlock with an editor. A table that can't be locked or read
    is left out, and `tables` says why."""

    def __init__(self, connection: Any, cursor: Any, draft: str = "") -> None:
        self.connection, self.cursor, self.draft, self.is_open = connection, cursor, draft, False
        self.tables: List[SourceTable] = []

    def __enter__(self) -> Transaction:
        sources = sources_of(self.cursor, self.draft)
        self.cursor.execute("begin isolation level repeatable read")
        self.is_open = True
        try:
            self.cursor.execute("lock table olr_keep.path, olr_keep.source in access share mode nowait")
            tables = [self.locked(it) for it in sources]
            if sources_of(self.cursor, self.draft) != sources:
                raise Stale("the tables of streets changed")
            self.tables = [self.probed(it) if it.state is Readable.READY else it for it in tables]
        except psycopg2.errors.LockNotAvailable:
            self.__exit__()
            raise Busy("olr_keep.path is locked by another transaction: no round is made") from None
        except BaseException:
            self.__exit__()
            raise
        return self

    def locked(self, source: Source) -> SourceTable:
        """Locks a table. It is the first command for it, since the snapshot of the transaction isn't taken yet."""
        try:
            with Savepoint(self.cursor):
                self.cursor.execute(f"lock table {source.streets} in access share mode nowait")
        except psycopg2.errors.LockNotAvailable:
            return SourceTable(source, Readable.LOCKED, "another transaction has it locked")
        except (psycopg2.errors.UndefinedTable, psycopg2.errors.InvalidSchemaName):
            return SourceTable(source, Readable.MISSING, "it is missing")
        except psycopg2.Error as error:
            return self.broken(source, error)
        return SourceTable(source, Readable.READY)

    def probed(self, table: SourceTable) -> SourceTable:
        """Whether the expressions of a table can be read."""
        try:
            with Savepoint(self.cursor, table.source.search_path):
                self.cursor.execute(f"select * from ({row_query(table.source)}) as row limit 0", {"prefix": ""})
        except psycopg2.Error as error:
            return self.broken(table.source, error)
        return table

    def broken(self, source: Source, error: Exception) -> SourceTable:
        """A table that can't be read for this reason, unless the session has ended."""
        if self.connection.closed:
            raise error
        return SourceTable(source, Readable.BROKEN, first_line(error))

    def commit(self) -> None:
        """Commits."""
        self.cursor.execute("commit")
        self.is_open = False

    def rollback(self) -> None:
        """Takes everything back."""
        self.cursor.execute("rollback")
        self.is_open = False

    def __exit__(self, *_: object) -> None:
        if self.is_open and not self.connection.closed:
            try:
                self.rollback()
            except psycopg2.Error:
                self.connection.close()


def first_line(error: Exception) -> str:
    """What a message of the database says first."""
    return (str(error).strip() or type(error).__name__).splitlines()[0]


def row_query(source: Source, where: str = "") -> str:
    """The rows of a table of streets, with the columns that make a street. It is to be run with parameters."""
    columns = f"({source.id}) as id, ({source.frc})::text as class, ({source.fow})::text as form"
    columns += f", ({source.direction})::text as direction, ({source.geom}) as geom, nullif(btrim(({source.name or 'null'})::text), '') as name"
    inner = f"select {columns} from {source.streets}".replace("%", "%%")
    return f"""select case when octet_length(id::text) <= {LONGEST_ID} then %(prefix)s || id::text end as street, class, form, direction, geom, shape, name,
            hashtextextended(concat_ws('|', coalesce(class, '?'), coalesce(form, '?'), shape, name), 0) as digest
        from (select *, hashtextextended(concat_ws('|', coalesce(direction, '?'), geom::text), 0) as shape
            from ({inner} {where}) as it offset 0) as it"""


# ---- what is asked between rounds


class Work(enum.Enum):
    """What there is to do: what was committed, by notes or a release; or what was left for later, or is due; or nothing."""

    COMMITTED = "committed"
    LATER = "later"
    NOTHING = "nothing"


def work(cursor: Any, unread: Iterable[int], is_patient: bool) -> Work:
    """What there is to do, but for notes of these sources. All that is delayed is due for one that isn't patient."""
    cursor.execute("""select exists (select from olr_keep.note where source <> all(%s::int[]) and source <> %s)
            or exists (select from olr_keep.waiting join olr_keep.release using (hold)),
        exists (select from olr_keep.note where source = %s)
            or exists (select from olr_keep.waiting where due <= clock_timestamp() or due is not null and not %s)""",
                   (list(unread), LATER, LATER, is_patient))
    is_committed, is_later = cursor.fetchone()
    return Work.COMMITTED if is_committed else Work.LATER if is_later else Work.NOTHING


def note_later(cursor: Any, users: Iterable[str], names: Optional[Sequence[str]]) -> None:
    """Notes that paths are sought when no other note is left, those near each other together: these, or all that aren't found as
    they were given. Several users may have caused it, or none."""
    where, values = ("name = any(%s::text[])", (text_array(names),)) if names is not None else ("lost or found_elsewhere", ())
    cursor.execute(f"""insert into olr_keep.note (source, key, who, at)
        select {LATER}, name, who, now() + row_number() over (order by geom, name) * interval '1 microsecond'
        from olr_keep.string cross join unnest(%s::text[]) as who
        where ({where}) and not exists (select from olr_keep.note where source = {LATER} and key = name)""",
                   (text_array(list(users) or [""]), *values))


def renew_identity(cursor: Any) -> None:
    """Writes another identity of the history if it isn't where it was made: it was restored from a backup then."""
    cursor.execute("""update olr_keep.identity set (history, made_in) = (gen_random_uuid()::text, it.place)
        from (select concat_ws(' ', system_identifier, left(pg_walfile_name(pg_current_wal_lsn()), 8), pg_database.oid,
                'olr_keep.history'::regclass::oid) as place
            from pg_control_system() cross join pg_database where datname = current_database()) as it
        where made_in <> it.place""")


def margins(cursor: Any) -> Tuple[str, str]:
    """The margin that is set, and that of the last round, each as the fields of its record."""
    cursor.execute("""select coalesce((select format('%s,%s', routes, classes) from olr_keep.margin), '0,0'),
        coalesce((select margin from olr_keep.round order by round desc limit 1), '0,0')""")
    now, before = cursor.fetchone()
    return now, before


def analyzed_streets(cursor: Any) -> int:
    """How many streets the map had when the statistics of its tables were made."""
    cursor.execute("select greatest(reltuples, 0)::bigint from pg_class where oid = 'olr_keep.street'::regclass")
    return int(cursor.fetchone()[0])


def is_held(cursor: Any) -> bool:
    """Whether the strings of a hold wait."""
    cursor.execute("select exists (select from olr_keep.waiting where hold is not null)")
    return bool(cursor.fetchone()[0])


def watch(cursor: Any) -> List[Watched]:
    """The tables with their triggers."""
    cursor.execute(f"""select source, streets, to_regclass(streets) is not null, coalesce(bool_and(count = 4), false),
            coalesce(string_agg(part::text || filenode, ' ' order by part), '')
        from (select source, streets from olr_keep.source union all select 0, 'olr_keep.path') as source
        left join lateral (
            select part, coalesce(filenode, 0) as filenode, (select count(*) from pg_trigger where tgrelid = part::oid
                and tgenabled = 'A' and tgname in ({TRIGGERS})) as count
            from olr_keep.parts(streets)
        ) as parts on true
        group by source, streets order by source""")
    return [Watched(*it) for it in cursor]


def mend_triggers(cursor: Any, source: int) -> str:
    """Makes the triggers of a table again. Returns why it can't be done, or an empty text."""
    try:
        cursor.execute("select olr_keep.mend_triggers(%s)", (source,))
    except psycopg2.Error as error:
        if cursor.connection.closed:
            raise
        return first_line(error)
    return ""


def write_table_problems(cursor: Any, problems: Set[Tuple[int, str]]) -> None:
    """Writes which tables can't be read, or have no triggers: a set of (source, words)."""
    cursor.execute("select source, words from olr_keep.problem where kind = 'table'")
    known = set(cursor.fetchall())
    for source, words in known - problems:
        cursor.execute("delete from olr_keep.problem where kind = 'table' and source = %s and words = %s", (source, words))
    for source, words in problems - known:
        cursor.execute("insert into olr_keep.problem (kind, source, words) values ('table', %s, %s)", (source, words))


def metrics(cursor: Any) -> Dict[str, float]:
    """Numbers of the tables by name."""
    cursor.execute("""select count(*), count(*) filter (where text is null), count(*) filter (where found_elsewhere),
            (select coalesce(extract(epoch from now() - min(at)), 0) from olr_keep.string join olr_keep.round using (round)
                where string.text is null),
            (select count(*) from olr_keep.problem), (select count(*) from olr_keep.held),
            (select count(*) from olr_keep.waiting where hold is not null), (select count(*) from olr_keep.frozen),
            (select count(*) from olr_keep.waiting where kind = 'delayed'),
            (select count(*) from olr_keep.note where source <> %s),
            (select coalesce(extract(epoch from clock_timestamp() - min(at)), 0) from olr_keep.note where source <> %s),
            (select count(*) from olr_keep.note where source = %s)
        from olr_keep.string""", 3 * [LATER])
    names = ("paths", "paths_refused", "paths_elsewhere", "oldest_refusal_seconds", "problems", "held", "paths_held",
             "paths_frozen", "paths_delayed", "notes", "oldest_note_seconds", "paths_left")
    return dict(zip(names, map(float, cursor.fetchone())))
