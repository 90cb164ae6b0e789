"""The process of tools/live: its session and its program, one attempt at a round after the other, and what it watches."""
from __future__ import annotations

import collections
import os
import select
import time
import traceback
from typing import Any, Dict, List, Mapping, Optional, Sequence, Set, Tuple

from ..command import STREAM, USAGE, Failure, say
from ..files import replaced
from ..program import ProgramFailed
from ..sql import psycopg2
from . import session
from .ambiguous import write_ambiguities
from .aside import Aside
from .attempt import Attempt, Bulk, Ending, Settings
from .program import LiveProgram, end
from .read import Change
from .session import Busy, Readable, Stale

POLL = 1.0  # seconds without a notification after which the notes are read all the same
BUSY = 0.05  # seconds until tables that were locked are tried again
QUIET = 2.0  # seconds after which a round begins though notes still come
WATCH = 5.0  # seconds between two looks at the tables
MINUTE = 60.0
LONGEST_WAIT = 60.0  # seconds between two attempts after failures
LOGINS = 5  # that are refused before it ends
PATHS = 0  # the number that the table of paths has among the tables


class Night:
    """When all is compared: once a day, from an hour on, whatever the clock does; if it starts after that hour, the next day."""

    def __init__(self, hour: int, now: time.struct_time) -> None:
        self.hour, self.last = hour, now.tm_yday if now.tm_hour >= hour else 0

    def is_due(self, now: time.struct_time) -> bool:
        """Whether it is time now. It is no longer then."""
        if now.tm_hour < self.hour or now.tm_yday == self.last:
            return False
        self.last = now.tm_yday
        return True


class Live:
    """The process. `stale` are the sources of which all rows are compared, `unread` those that couldn't be read."""

    def __init__(self, settings: Settings, stopping: List[int]) -> None:
        self.settings, self.stopping = settings, stopping
        self.connection: Any = None
        self.other: Any = None
        self.program: Optional[LiveProgram] = None
        self.totals = collections.Counter(rounds=0, restarts=0)
        self.last_round = self.last_seconds = self.written = self.compared = 0.0
        self.changed, self.asked, self.ask_after = time.monotonic(), 0.0, 0.0
        self.counts: Dict[str, float] = {}
        self.progress, self.failed, self.would_hold, self.unwritten = (0, 0), 0, False, ""
        self.is_announced = False
        self.is_split = False  # whether the last round was of small transactions that went before a great one
        self.aside: Optional[Aside] = None  # of small saves beside the round that is computed
        self.fresh: Dict[str, str] = {}  # answers that the next round publishes
        self.forget()

    def forget(self) -> None:
        """Forgets what a session has seen of the tables."""
        self.stale: Set[int] = set()
        self.unread: Dict[int, Readable] = {}
        self.files: Dict[int, str] = {}
        self.locked_since: Dict[int, float] = {}
        self.words: Set[Tuple[int, str]] = set()
        self.without_triggers: Dict[int, str] = {}

    # ---- the session

    def connect(self) -> None:
        """Opens the session."""
        self.connection = session.connect(self.settings.database, self.settings.idle)
        self.cursor = self.connection.cursor()
        session.check_schema(self.cursor)
        self.forget()

    def before(self) -> Any:
        """A cursor of another session, which reads the map as it is committed: as it was before the round."""
        if self.other is None:
            self.other = session.connect(self.settings.database, self.settings.idle)
        return self.other.cursor()

    def close(self) -> None:
        """Ends the sessions and the programs."""
        self.drop_program()
        self.end_aside()
        for it in (self.connection, self.other):
            if it:
                it.close()
        self.connection = self.other = None

    def drop_program(self) -> None:
        """Ends the program: its map isn't that of the tables."""
        if self.program:
            end(self.program)
        self.program = None

    def leave_program(self, bulk: Optional[Bulk]) -> None:
        """Leaves the program to small saves beside a bulk, or ends it if there may be none."""
        if bulk and self.program:
            self.aside, self.program = Aside(self, self.program, bulk), None
        self.drop_program()

    def look_aside(self) -> None:
        """Makes a round of small saves beside one that is computed, if there are some."""
        if self.aside:
            self.aside.look()

    def end_aside(self) -> List[str]:
        """Ends the rounds beside another one. Returns their records."""
        aside, self.aside = self.aside, None
        return aside.end() if aside else []

    def loaded(self) -> Dict[str, str]:
        """Starts the program with the map and the paths of the tables, and returns all answers."""
        program = LiveProgram(self.settings.command, self.tick)
        try:
            answers = program.load(self.cursor)
        except BaseException:
            end(program)
            raise
        self.program = program
        return answers

    def tick(self) -> None:
        """Asks something, so that the session isn't taken for one that is stopped."""
        if self.stopping:
            raise SystemExit(128 + self.stopping[0])
        if not self.connection.info.transaction_status == psycopg2.extensions.TRANSACTION_STATUS_ACTIVE:
            self.cursor.execute("select 1")
        self.look_aside()

    def lock(self) -> None:
        """Waits until no other process works on the database."""
        waited = False
        while not self.stopping and not session.try_lock(self.cursor):
            if not waited:
                say("another process works on this database; waiting")
            waited = True
            if session.end_stopped(self.cursor, self.settings.stopped):
                say(f"ended the session of a process that had not asked for {self.settings.stopped} s")
            time.sleep(POLL)
        while not self.stopping and session.end_beside(self.cursor):
            time.sleep(BUSY)

    def wait(self, seconds: float) -> bool:
        """Waits for a notification, and returns whether one came."""
        if not self.connection.notifies:
            select.select([self.connection], [], [], seconds)
        self.connection.poll()
        came = bool(self.connection.notifies)
        self.connection.notifies.clear()
        return came

    def wait_unlocked(self, why: str) -> None:
        """Waits a moment for a table without which no round can be made, and says so if that lasts."""
        now = time.monotonic()
        if now - self.locked_since.setdefault(PATHS, now) > 2 * WATCH and (PATHS, why) not in self.words:
            say(why)
            self.words.add((PATHS, why))
        self.write_metrics(False)
        self.wait(BUSY)

    def wait_quiet(self) -> None:
        """Waits until no note has come for a while, since one save of a person may be several commits."""
        end = time.monotonic() + QUIET
        while self.settings.quiet and time.monotonic() < end and self.wait(self.settings.quiet):
            pass

    # ---- rounds

    def attempt(self, every_path: bool = False) -> Ending:
        """One round, if there is something to read."""
        with session.Transaction(self.connection, self.cursor, self.settings.schema) as work:
            self.refuse_unreadable(work.tables)
            self.unread = {it.source.source: it.state for it in work.tables if it.state is not Readable.READY}
            broken = {it.source.source: it.words for it in work.tables if it.state in (Readable.BROKEN, Readable.MISSING)}
            self.stale |= {it.source.source for it in work.tables if it.state is Readable.MISSING}
            ending = Ending.NOTHING
            if every_path or self.work() is not session.Work.NOTHING:
                attempt = Attempt(self, work, every_path)
                ending = attempt.run()
                self.rejoin()
                broken.update(attempt.reader.change.broken)
                self.unread.update((it, Readable.BROKEN) for it in attempt.reader.change.broken)
        self.progress = 0, 0
        self.report(work.tables, broken)
        return ending

    def rejoin(self) -> None:
        """Gives the program that was loaded for a round the records of those beside it. What they change is published in the next."""
        records = self.end_aside()
        self.fresh = self.program.answers(records) if self.program and records else {}

    def refuse_unreadable(self, tables: Sequence[session.SourceTable]) -> None:
        """Fails if a draft has no table of streets, or one that can't be read."""
        if self.settings.draft:
            own = {it.streets for it in session.sources_of(self.cursor)}
            drafted = [it for it in tables if it.source.streets not in own]
            if not drafted:
                names = ", ".join(sorted(own)) or "none"
                raise Failure(USAGE, f"{self.settings.schema}: no table there has the name of a table of streets, of {names}")
            for it in drafted:
                if it.state is not Readable.READY:
                    raise Failure(STREAM, f"{it.source.streets}: {it.words}")

    def work(self) -> session.Work:
        """What there is to read."""
        if self.program is None or self.fresh or self.stale - self.unread.keys():
            return session.Work.COMMITTED
        return session.work(self.cursor, self.unread, self.settings.patience > 0)

    def has_read(self, change: Change) -> None:
        """Remembers which tables were compared."""
        self.stale -= change.compared - change.broken.keys()

    def report(self, tables: Sequence[session.SourceTable], broken: Mapping[int, str]) -> None:
        """Writes which tables can't be read, or have no triggers, and says what is new."""
        now, problems = time.monotonic(), set(self.without_triggers.items())
        names = {PATHS: "olr_keep.path", **{it.source.source: it.source.streets for it in tables}}
        locked = {it.source.source for it in tables if it.state is Readable.LOCKED}
        self.locked_since = {it: self.locked_since.get(it, now) for it in locked}
        problems |= {(it, f"{names[it]} can't be read, and its streets stay as they were: {broken[it]}") for it in broken}
        problems |= {(it, f"{names[it]} is locked by another transaction: its changes wait")
                     for it, since in self.locked_since.items() if now - since > 2 * WATCH}
        if problems != self.words:
            for _, words in sorted(problems - self.words):
                say(words)
            for source in {it for it, _ in self.words} - {it for it, _ in problems}:
                say(f"{names.get(source, source)} is as it should be again")
            self.words = problems
            if not self.settings.is_preview:
                session.write_table_problems(self.cursor, problems)

    def count_round(self, seconds: float) -> None:
        """Counts a round that was published."""
        self.changed = time.monotonic()
        self.totals["rounds"] += 1
        self.last_round, self.last_seconds = time.time(), seconds

    def look(self) -> None:
        """Looks at the tables and their triggers: what was rewritten, or has no triggers, is compared, and a new table, which may
        have been rewritten since it was read. Triggers are made again if that is possible."""
        missing = {}
        for it in session.watch(self.cursor):
            if self.files.get(it.source) != it.files:
                self.files[it.source] = it.files
                self.stale.add(it.source)
            if not it.is_there or it.has_triggers:
                continue
            self.stale.add(it.source)
            why = session.mend_triggers(self.cursor, it.source)
            if why:
                missing[it.source] = f"the triggers of {it.streets} are missing, and it is compared each minute: {why}"
            else:
                say(f"the triggers of {it.streets} were missing or disabled, and are made again")
        if missing.keys() - self.without_triggers.keys() or time.monotonic() - self.compared > MINUTE:
            self.compared = time.monotonic()
        else:
            self.stale -= missing.keys()
        self.without_triggers = missing
        self.unread = {}

    def ask_ambiguous(self) -> None:
        """Asks the program which strings are ambiguous, if some changed, and nothing was saved for a while. On a great map that
        takes seconds: at most a twentieth of the time is spent on it."""
        now = time.monotonic()
        if self.program and self.changed > self.asked and now > max(self.changed + WATCH, self.ask_after):
            try:
                write_ambiguities(self.cursor, self.program)
            except psycopg2.Error as error:
                if self.connection.closed:
                    raise
                say(f"which strings are ambiguous can't be written: {session.first_line(error)}")
            self.asked, self.ask_after = now, now + 20 * (time.monotonic() - now)

    def renew_identity(self) -> None:
        """Writes another identity of the history if it was restored. That may need a right that this role doesn't have."""
        try:
            session.renew_identity(self.cursor)
        except psycopg2.Error as error:
            if self.connection.closed:
                raise
            say(f"whether the history was restored from a backup isn't known: {session.first_line(error)}")

    def start(self) -> None:
        """Opens the session, waits until no other process works, and finds which tables there are."""
        self.connect()
        if not self.settings.is_preview:
            self.lock()
            self.renew_identity()
            self.files = {it.source: it.files for it in session.watch(self.cursor)}
        self.cursor.execute("listen olr_keep_note")
        self.stale = {it.source for it in session.sources_of(self.cursor)}
        self.compared = time.monotonic()

    def serve(self) -> int:
        """Rounds, until something fails; returns the exit status."""
        self.start()
        every_path, looked, tried, night = True, 0.0, 0.0, Night(self.settings.compare_at, time.localtime())
        while not self.stopping:
            ending = Ending.NOTHING
            try:
                work = self.work()
                if every_path or work is not session.Work.NOTHING or time.monotonic() - tried > WATCH:
                    if not every_path and work is not session.Work.LATER:
                        self.wait_quiet()
                    ending, every_path, tried = self.attempt(every_path), False, time.monotonic()
            except Busy as why:
                self.wait_unlocked(str(why))
                continue
            self.write_metrics(ending is Ending.DONE)
            if ending is Ending.DONE or not self.settings.is_preview and self.work() is session.Work.LATER:
                continue
            if self.settings.is_preview or self.settings.is_once:
                return int(self.would_hold or self.settings.is_once and session.is_held(self.cursor))
            self.announce()
            self.wait(POLL)
            self.unread = {it: state for it, state in self.unread.items() if state is not Readable.LOCKED}
            if night.is_due(time.localtime()):
                every_path = True
                session.note_later(self.cursor, (), None)
                self.stale = {it.source for it in session.sources_of(self.cursor)}
            if time.monotonic() - looked > WATCH:
                looked = time.monotonic()
                self.look()
                self.ask_ambiguous()
                self.failed = 0
        return 128 + self.stopping[0]

    def announce(self) -> None:
        """Says once that everything was read."""
        if not self.is_announced:
            self.is_announced = True
            say("everything is read; what is saved from now on is published")

    def run(self) -> int:
        """Serves, and starts again after failures, but not for ever if the login is refused; returns the exit status."""
        while True:
            try:
                return self.serve()
            except BrokenPipeError:
                raise
            except Exception as error:  # of a round: whatever it is, the next start reads the tables, and tries again
                if isinstance(error, Failure) and not isinstance(error, ProgramFailed):
                    raise
                words = words_of(error)
                if session.is_refused(error) and (self.settings.is_once or self.settings.is_preview or self.failed >= LOGINS):
                    raise Failure(STREAM, f"{words}; docs/LIVE.md has the role, its password and the database") from None
                if (self.settings.is_once or self.settings.is_preview) and not isinstance(error, Stale) and self.failed > 3:
                    say(words)
                    return 3
                self.totals["restarts"] += 1
                say(f"{words}; starting again")
            finally:
                self.close()
            self.write_metrics()
            time.sleep(min(LONGEST_WAIT, 0.1 * 2 ** min(self.failed, 10)))
            self.failed += 1

    # ---- metrics

    def write_metrics(self, is_needed: bool = True) -> None:
        """Writes the file for Prometheus's textfile collector, if it is some seconds old or has to show something new."""
        if not self.settings.metrics or not is_needed and time.monotonic() - self.written < POLL * 5:
            return
        self.written = time.monotonic()
        is_up = bool(self.connection) and not self.connection.closed
        if is_up and not self.progress[1]:
            self.counts = session.metrics(self.cursor)
        values = {
            "rounds_total": self.totals["rounds"], "restarts_total": self.totals["restarts"],
            "last_round_timestamp_seconds": self.last_round, "last_round_seconds": self.last_seconds, "up": int(is_up),
            "round_streets": self.progress[1], "round_streets_done": self.progress[0],
            "tables_unreadable": len({it for it, _ in self.words} - self.without_triggers.keys()),
            "tables_without_triggers": len(self.without_triggers), **self.counts,
        }
        text = "".join(f"# HELP olr_keep_live_{name} {HELP[name]}\n# TYPE olr_keep_live_{name} {kind_of(name)}\n"
                       f"olr_keep_live_{name} {value:.6f}\n".replace(".000000\n", "\n") for name, value in values.items())
        try:
            with replaced(self.settings.metrics, is_synced=False) as file:
                file.write(text.encode())
            self.unwritten = ""
        except OSError as error:
            words = f"{self.settings.metrics}: {error.strerror}"
            if words != self.unwritten:
                say(words)
            self.unwritten = words


def words_of(error: Exception) -> str:
    """What is said of an error; of one that isn't expected also where it came from."""
    if isinstance(error, (psycopg2.Error, ProgramFailed, Stale, OSError, MemoryError)):
        return str(error).strip() or type(error).__name__
    at = traceback.extract_tb(error.__traceback__)[-1]
    return f"{type(error).__name__}: {error} ({os.path.basename(at.filename)}, line {at.lineno})"


def kind_of(name: str) -> str:
    """The type of a metric."""
    return "counter" if name.endswith("_total") else "gauge"


HELP = {
    "rounds_total": "Rounds that were published.",
    "restarts_total": "Starts after a lost session, an ended program or another failure.",
    "last_round_timestamp_seconds": "The time of the last round.",
    "last_round_seconds": "How long the last round took.",
    "up": "Whether there is a session of the database.",
    "round_streets": "Streets of the round that is being made, if they are many.",
    "round_streets_done": "Streets of it that are done.",
    "tables_unreadable": "Tables of streets that can't be read.",
    "tables_without_triggers": "Tables whose triggers are missing and can't be made again.",
    "paths": "Published paths.",
    "paths_refused": "Paths without a string.",
    "paths_elsewhere": "Paths that are found elsewhere than their streets or their course say.",
    "oldest_refusal_seconds": "How long the longest refused path has had no string.",
    "problems": "Rows of olr_keep.problem.",
    "held": "Holds that wait for a release.",
    "paths_held": "Paths whose strings wait for a release.",
    "paths_frozen": "Paths whose string is frozen.",
    "paths_delayed": "Paths that are published as elsewhere or without a string when they are due.",
    "notes": "Notes of changes that are not read yet.",
    "oldest_note_seconds": "The age of the oldest of them.",
    "paths_left": "Paths near a great change that are sought when no such note is left.",
}
