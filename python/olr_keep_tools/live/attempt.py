"""One round of tools/live, in steps: it reads what changed, changes the map, finds the paths, asks the program, and publishes."""
from __future__ import annotations

import enum
import functools
import sys
import time
from typing import TYPE_CHECKING, Any, Callable, Dict, List, NamedTuple, Optional, Set

from ..command import say
from ..grid import Cell
from ..records import Margin
from . import session
from .draft import Draft, DraftSettings, write_report
from .first import FirstLoad, is_first
from .map import AHEAD, LAST, Affected, MapUpdate, Numbers, write_all_open_ends
from .paths import PathsUpdate
from .read import BLOCK, NO_SOURCE, Change, Reader
from .rounds import Limits, Round

if TYPE_CHECKING:
    from .service import Live

MANY = 1000  # streets after which the statistics of the tables are made, and again when they have doubled
NAMED = 20  # paths that the log names
METRE = 1 / 100_000  # degrees that are more than a metre of latitude


class Settings(NamedTuple):
    """What the command line says."""

    database: str
    command: List[str]
    limits: Limits
    tolerance: float
    quiet: float
    compare_at: int
    idle: int
    stopped: int
    metrics: str
    is_once: bool
    is_preview: bool
    draft: Optional[DraftSettings] = None
    margin: Optional[Margin] = None  # of a preview
    elsewhere_after: float = 0.0  # seconds

    @property
    def patience(self) -> float:
        """For how many seconds an answer is delayed. One that is shown, or the last one of a run, isn't."""
        return 0.0 if self.is_once or self.is_preview else self.elsewhere_after

    @property
    def schema(self) -> str:
        """The schema of the draft, or nothing."""
        return self.draft.schema if self.draft else ""


class Ending(enum.Enum):
    """How an attempt ends: nothing was there to read, a round was published or all was as before, or it was shown."""

    NOTHING = "nothing"
    DONE = "done"
    SHOWN = "shown"


class Bulk(NamedTuple):
    """A round of very many streets that is computed: its snapshot, the numbers that it takes from, its transactions and streets, and
    the cells near these."""

    snapshot: str
    numbers: Numbers
    transactions: Set[str]
    streets: Set[str]
    near: Set[Cell]


class Attempt:
    """One round, in steps. `program` has the map and the paths of the last round, unless one is loaded for this round."""

    numbers: Numbers

    def __init__(self, live: Live, work: session.Transaction, every_path: bool) -> None:
        self.live, self.work, self.cursor, self.settings = live, work, work.cursor, live.settings
        self.began = time.monotonic()
        self.records: List[str] = []
        self.program, self.fresh = live.program, live.fresh
        self.reader = Reader(self.cursor, work.tables, live.stale, self.settings.is_preview)
        self.reader.is_last_split = live.is_split
        self.every_path, self.affected = every_path, Affected(live.look_aside)

    def run(self) -> Ending:
        """Reads, applies, asks the program, and publishes."""
        if self.settings.margin:
            self.cursor.execute("update olr_keep.margin set (routes, classes) = (%s, %s)", self.settings.margin)
        change = self.reader.read()
        self.prepare(change)
        self.apply_map(change)
        self.paths = PathsUpdate(self.cursor, self.affected, self.settings.tolerance, self.before(), self.settings.is_preview)
        self.paths.run(change, functools.partial(self.tell, what="paths"))
        self.round = Round(self.cursor, change, self.affected, self.paths, self.numbers)
        self.outcome = self.round.judge(self.answers(), self.settings.limits, self.settings.patience)
        return self.show() if self.settings.is_preview else self.publish(change)

    def prepare(self, change: Change) -> None:
        """What has to be known before the map is changed. For very many streets a program is loaded afterwards; the one that runs is
        left to small saves beside them."""
        self.live.is_split = self.reader.is_split
        change.every_path |= self.every_path or self.program is None
        self.records += [f"margin,{change.margin}"] if change.is_margin_new and self.program else []
        self.numbers = Numbers(self.cursor, AHEAD if self.settings.is_preview else 0)
        if self.settings.is_preview:
            self.fresh = self.live.loaded()
            self.program = self.live.program
            self.draft = Draft(self.cursor, self.program) if self.settings.draft and self.program else None
        elif change.count > BLOCK:
            self.live.leave_program(self.bulk(change))
            self.program = None

    def bulk(self, change: Change) -> Optional[Bulk]:
        """What small saves beside this round must not touch; None if there may be none."""
        near, is_whole = self.reader.near, change.every_path or bool(change.compared) or NO_SOURCE in change.keys
        if near is None or is_whole or change.is_margin_new or self.reader.is_split or not are_left(self.numbers, change.count):
            return None
        self.cursor.execute("select pg_export_snapshot()")
        return Bulk(self.cursor.fetchone()[0], self.numbers, self.reader.transactions, {*change.street_group}, near)

    def before(self) -> Callable[[], Any]:
        """What gives a cursor that reads the map as it was before the round."""
        return self.live.aside.before if self.live.aside else self.live.before

    def apply_map(self, change: Change) -> None:
        """Changes the map, block by block."""
        count, done, self.said = change.count, 0, time.monotonic()
        analyzed, is_cut = max(MANY, session.analyzed_streets(self.cursor)), False
        first = FirstLoad(self.cursor, self.numbers, self.affected) if self.is_first_load(count) else None
        self.reader.has_streets = not first or len(change.keys) > 1
        margin = max(30, 2 * self.settings.tolerance) * METRE
        for block in self.reader.blocks():
            if first:
                first.read(block)
            else:
                records = MapUpdate(self.cursor, block, self.numbers, self.affected, margin, count <= BLOCK).run()
                self.records += records if self.program else []
            is_cut |= bool(block.keys() - block.plain)
            done = min(count, done + BLOCK)
            self.tell(done // 2 if first else done, count)
            if done > 2 * analyzed:
                analyzed = done
                self.cursor.execute("analyze olr_keep.street, olr_keep.vertex, olr_keep.node, olr_keep.line")
        if first:
            first.cut(lambda cut: self.tell((count + cut) // 2, count))
        if count > BLOCK and is_cut:
            write_all_open_ends(self.cursor)

    def is_first_load(self, count: int) -> bool:
        """Whether there are many streets and no map yet, and no program that has to follow. Numbers have to be left."""
        return count > BLOCK and self.program is None and are_left(self.numbers, count) and is_first(self.cursor)

    def tell(self, done: int, count: int, what: str = "streets") -> None:
        """Says how far a long round is, every few seconds."""
        if what == "streets":
            self.live.progress = done, count
        if time.monotonic() - self.said > 10:
            self.said = time.monotonic()
            say(f"{done} of {count} {what}")
            self.live.write_metrics(False)
        self.live.look_aside()

    def answers(self) -> Dict[str, str]:
        """The answers that the round changes; all answers if the program is started for it."""
        if self.program is None:
            return self.live.loaded()
        records = self.records + self.paths.records
        return {**self.fresh, **(self.program.answers(records) if records else {})}

    def publish(self, change: Change) -> Ending:
        """Publishes the round, and commits."""
        number, elsewhere = self.round.publish(self.outcome, time.monotonic() - self.began)
        self.work.commit()
        self.live.has_read(change)
        if number:
            self.live.count_round(time.monotonic() - self.began)
        late = f", late of round {', '.join(map(str, sorted(self.outcome.causes)))}" if self.outcome.causes else ""
        if self.outcome.published or self.outcome.holds or late:
            say(f"round {number}{late}: {len(self.affected.keys)} streets, {len(self.outcome.published)} answers; {self.outcome.counts.text()}")
        if elsewhere:
            more = f" and {len(elsewhere) - NAMED} more" if len(elsewhere) > NAMED else ""
            say(f"round {number}: elsewhere are now {', '.join(elsewhere[:NAMED])}{more}")
        for it in self.outcome.holds:
            say(f"hold {it.number} of {len(it.names)} paths: {it.counts.text()}; select olr_keep.release({it.number}) publishes them")
        return Ending.DONE if number else Ending.NOTHING

    def show(self) -> Ending:
        """Prints what would be published, and what would wait or waits; or the report of a draft."""
        held = {**{name: it.answer for name, it in self.round.waited.items() if name not in self.outcome.ended},
                **{name: it.answer for name, it in self.outcome.waiting.items()}}
        shown = {**{name: after for name, (_, after) in self.outcome.published.items()}, **held}
        self.live.would_hold = bool(held)
        if self.draft and self.settings.draft:
            verdicts = self.draft.verdicts(shown, self.paths)
            self.work.rollback()
            self.live.would_hold |= write_report(verdicts, self.settings.draft)
        else:
            before = self.round.read_published(set(shown))
            self.work.rollback()
            for name, answer in sorted(shown.items()):
                was = [f"-{name},{before[name].answer.written()}"] if name in before else []
                print(*was, f"+{name},{answer.written()}", sep="\n")
        words = f"; {len(held)} paths would be held" if held else ""
        print(f"live: {len(self.outcome.published)} answers; {self.outcome.counts.text()}{words}", file=sys.stderr)
        return Ending.SHOWN


def are_left(numbers: Numbers, count: int) -> bool:
    """Whether there are certainly numbers for the nodes and lines of so many streets."""
    return all(numbers.last[it] + 100 * count < LAST for it in ("node", "line"))
