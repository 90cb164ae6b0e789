"""What a round of tools/live publishes: the answers and states that differ, but for those of frozen paths, of clusters of changes
that are held, and of paths that may soon be as they were."""
from __future__ import annotations

import enum
import math
from typing import Any, Collection, Dict, Iterable, List, Mapping, NamedTuple, Optional, Set, Tuple

from ..grid import Cell, around
from ..sql import coordinates, copy, number_array, text_array, update
from .cells import NEAR, cell_of
from .map import MOST_CELLS, Affected, Numbers
from .paths import Cause, PathsUpdate, write_path_problems
from .read import Change
from .session import LATER

MOST_NAMED = 1000  # streets that a hold names
NEARBY, LEAST_NEARBY = 0.25, 5  # the share of the paths in the cells of a cluster, and their number, that are held


class Answer(NamedTuple):
    """The string of a path, or the reason why it has none."""

    text: Optional[str]
    reason: Optional[str]

    @classmethod
    def of(cls, answer: str) -> Answer:
        """An answer as the program writes it."""
        return cls(answer[5:], None) if answer.startswith("text,") else cls(None, answer)

    def written(self) -> str:
        """The answer as the program writes it."""
        return f"text,{self.text}" if self.reason is None else self.reason


GIVEN = "as given", "moved"  # the states of paths that are where they were given
DROPPED, LOST = Answer(None, "dropped"), Answer(None, "lost")


class Effect(enum.Enum):
    """What an answer does to a published string, or to where its path is."""

    CHANGED = "changed"
    REFUSED = "refused"
    DROPPED = "dropped"
    ELSEWHERE = "elsewhere"


class Counts(NamedTuple):
    """How many published strings a round changes, refuses and drops, and how many paths are found elsewhere that were not."""

    changed: int = 0
    refused: int = 0
    dropped: int = 0
    elsewhere: int = 0

    @classmethod
    def of(cls, effects: Collection[Optional[Effect]]) -> Counts:
        """The counts of effects."""
        return cls(*(sum(it is kind for it in effects) for kind in Effect))

    @property
    def worse(self) -> int:
        """How many are refused, dropped or found elsewhere."""
        return self.refused + self.dropped + self.elsewhere

    def text(self) -> str:
        """The counts in words."""
        return f"{self.changed} strings changed, {self.refused} refused, {self.dropped} dropped, {self.elsewhere} found elsewhere"


class Limits(NamedTuple):
    """The shares of all paths, in percent, up to which strings that are changed, that are refused or dropped, and that are found
    elsewhere are published at once, and the least number of each that is held; and how many that are refused, dropped or found
    elsewhere are published at once, whatever their share."""

    changed: float
    refused: float
    elsewhere: float
    least: int
    at_once: int

    def are_exceeded(self, counts: Counts, paths: int, nearby: Optional[int] = None) -> bool:
        """Whether so many have to be released: of all paths, and of the nearby ones, which are in the cells of the changes."""
        return (counts.changed > max(10 * self.least, self.changed / 100 * paths)
                or counts.refused + counts.dropped > max(self.least, self.refused / 100 * paths)
                or counts.elsewhere > max(self.least, self.elsewhere / 100 * paths)
                or counts.worse > self.at_once
                or nearby is not None and counts.worse >= max(LEAST_NEARBY, math.floor(NEARBY * nearby) + 1))


class Kind(enum.Enum):
    """Why an answer isn't published: it is held, its path is frozen, or it is delayed since its path may soon be as it was."""

    HELD = "held"
    FROZEN = "frozen"
    DELAYED = "delayed"


class Waiting(NamedTuple):
    """An answer that isn't published, and what it would do. `is_open` is whether its hold is released, or it is due; `due` is
    the time as the database writes it, and `cause` the round of the edit, or None for the one that is made."""

    kind: Kind
    answer: Answer
    effect: Optional[Effect]
    hold: Optional[int] = None
    due: Optional[str] = None
    cause: Optional[int] = None
    is_open: bool = False


class Published(NamedTuple):
    """What is published of a path: the answer, and the state; and whether the path is found elsewhere now."""

    answer: Answer
    state: Optional[str]
    is_elsewhere: bool


class Hold(NamedTuple):
    """A new hold: its number, its paths, what it does, the streets, and how many paths are in the cells of these, if it has some."""

    number: int
    names: Set[str]
    counts: Counts
    streets: Set[str]
    nearby: Optional[int]


class Cluster(NamedTuple):
    """Changes that belong together: the names of their paths, their streets, and the cells of these."""

    names: Set[str]
    streets: Set[str]
    cells: Set[Cell]


Item = Any  # of a cluster: a street, a cell, a transaction or a path


class Outcome(NamedTuple):
    """What a round publishes (before and after, by name), what waits, and the counts of what is published. `holds` are the new
    ones, and `causes` the rounds whose delayed answers are published."""

    published: Dict[str, Tuple[Optional[Answer], Answer]]
    waiting: Dict[str, Waiting]
    ended: Set[str]
    counts: Counts
    holds: List[Hold]
    causes: Set[int]


class Round:
    """The end of a round, in steps: the answers that differ, what is frozen, what is held, and writing the rest."""

    def __init__(self, cursor: Any, change: Change, affected: Affected, paths: PathsUpdate, numbers: Numbers) -> None:
        self.cursor, self.change, self.affected, self.paths, self.numbers = cursor, change, affected, paths, numbers

    def judge(self, answers: Mapping[str, str], limits: Limits, patience: float) -> Outcome:
        """What is published, and what waits: what may soon be as it was for so many seconds."""
        names = {*answers, *self.paths.found, *self.paths.gone}
        self.read_waiting(patience)
        names |= self.waiting_with(names)
        self.known = self.read_published(names)
        self.before = {name: it.answer for name, it in self.known.items()}
        after = {name: it for name in names if (it := self.answer(name, answers)) is not None}
        frozen = self.frozen_answers(after)
        still = {name: Waiting(Kind.FROZEN, after[name], None) for name, it in frozen.items() if after[name] != it}
        fresh = {name: it for name, it in after.items() if name not in frozen}
        still.update(self.held_before(self.differing(fresh), limits))
        fresh = {name: it for name, it in fresh.items() if name not in still}
        holds = self.held_now(self.differing(fresh), limits)
        for hold in holds:
            held = {name: fresh.pop(name) for name in hold.names}
            still.update({name: Waiting(Kind.HELD, it, self.effect(name, it), hold.number) for name, it in held.items()})
        still.update({name: one for name, it in fresh.items() if (one := self.delayed(name, it))})
        published = {name: (self.before.get(name), it) for name, it in {**self.differing(fresh), **self.differing(frozen)}.items()
                     if name in frozen or name not in still}
        ended = {name for name in self.waited if name in names and name not in still}
        counts = Counts.of([self.effect(name, after) for name, (_, after) in published.items()])
        late = [one for name in ended if (one := self.waited[name]).kind is Kind.DELAYED and one.is_open]
        return Outcome(published, still, ended, counts, holds, {one.cause for one in late if one.cause})

    def differing(self, answers: Mapping[str, Answer]) -> Dict[str, Answer]:
        """Those that aren't what is published."""
        return {name: it for name, it in answers.items() if it != self.before.get(name)}

    def read_waiting(self, patience: float) -> None:
        """Reads what waits, how many paths there are, and until when an answer is delayed from now on, if at all."""
        self.cursor.execute("""select name, kind, text, reason, effect, hold, due::text, cause, release.hold is not null
                or kind = 'delayed' and (due <= clock_timestamp() or not %s)
            from olr_keep.waiting left join olr_keep.release using (hold)""", (patience > 0,))
        self.waited = {name: Waiting(Kind(kind), Answer(text, reason), effect and Effect(effect), *rest)
                       for name, kind, text, reason, effect, *rest in self.cursor}
        self.cursor.execute("select (clock_timestamp() + make_interval(secs => %s))::text, (select count(*) from olr_keep.path)",
                            (patience,))
        due, self.count = self.cursor.fetchone()
        self.due = due if patience > 0 else None

    def waiting_with(self, names: Set[str]) -> Set[str]:
        """The paths of released holds, those that wait in a hold with one of these, and those that are due."""
        due = {name for name, it in self.waited.items() if it.is_open and not self.change.is_beside}
        holds = {it.hold for name, it in self.waited.items() if it.hold and (name in due or name in names)}
        return {name for name, it in self.waited.items() if it.hold in holds or it.kind is Kind.DELAYED and name in due}

    def read_published(self, names: Set[str]) -> Dict[str, Published]:
        """What is published of these paths; a path that is new in this round has no answer yet."""
        self.cursor.execute("""select name, text, reason, state, found_elsewhere and not lost from olr_keep.string
            where round > 0 and name = any(%s::text[])""", (text_array(names),))
        return {name: Published(Answer(text, reason), *rest) for name, text, reason, *rest in self.cursor}

    def delayed(self, name: str, after: Answer) -> Optional[Waiting]:
        """The answer as one that is delayed, if it may be, since the path had a string, and now has none or is newly elsewhere."""
        known, was = self.known.get(name), self.waited.get(name)
        if known is None or known.answer.text is None or after == DROPPED:
            return None
        if after.text is not None and not (known.is_elsewhere and known.state in GIVEN):
            return None
        effect = self.effect(name, after)
        if was is None:
            return Waiting(Kind.DELAYED, after, effect, due=self.due) if self.due else None
        return was._replace(answer=after, effect=effect) if was.kind is Kind.DELAYED and not was.is_open else None

    def answer(self, name: str, answers: Mapping[str, str]) -> Optional[Answer]:
        """The answer of a path now, or None if it has none."""
        if name in self.paths.gone:
            return DROPPED if name in self.before else None
        if name in self.paths.found and not self.paths.found[name].lines:
            return LOST
        if name in answers:
            return Answer.of(answers[name])
        return self.waited[name].answer if name in self.waited else self.before.get(name)

    def frozen_answers(self, after: Mapping[str, Answer]) -> Dict[str, Answer]:
        """The answers that frozen paths keep."""
        self.cursor.execute("""select name, history.text, history.reason, frozen.round is not null
            from olr_keep.frozen left join lateral (
                select * from olr_keep.history where history.name = frozen.name and history.round <= frozen.round
                order by history.round desc limit 1) as history using (name)""")
        frozen = {}
        for name, text, reason, is_round in self.cursor.fetchall():
            if name in after and name in self.before:
                frozen[name] = Answer(text, reason) if is_round and (text or reason) else self.before[name]
        return frozen

    def held_before(self, differing: Mapping[str, Answer], limits: Limits) -> Dict[str, Waiting]:
        """The answers of paths that still wait: those of holds that are not released, and still too many, or of which a path is sought later."""
        holds: Dict[int, Dict[str, Waiting]] = {}
        for name, it in differing.items():
            known = self.waited.get(name)
            if known and known.hold is not None and not known.is_open:
                holds.setdefault(known.hold, {})[name] = Waiting(Kind.HELD, it, self.effect(name, it), known.hold)
        self.cursor.execute("select hold, nearby from olr_keep.hold where hold = any(%s::bigint[])", (number_array(holds),))
        nearby = dict(self.cursor.fetchall())
        self.cursor.execute("select key from olr_keep.note where source = %s", (LATER,))
        later = {name for (name,) in self.cursor}
        exceeded = [held for hold, held in holds.items() if not later.isdisjoint(held)
                    or limits.are_exceeded(Counts.of([it.effect for it in held.values()]), self.count, nearby.get(hold))]
        return {name: it for held in exceeded for name, it in held.items()}

    def held_now(self, fresh: Mapping[str, Answer], limits: Limits) -> List[Hold]:
        """The clusters of changes whose strings have to wait. What was delayed counts if it would do something else now."""
        effects = {name: effect for name, it in fresh.items() if (effect := self.effect(name, it))}
        left = {name: it for name, it in effects.items()
                if name not in self.waited or (was := self.waited[name]).kind is Kind.DELAYED and it is not was.effect}
        if not limits.are_exceeded(Counts.of(left.values()), self.count, 0):
            return []
        holds, clusters = [], Clusters(self.cursor, self.change, self.affected, dict(left))
        for names, streets, cells in clusters.run():
            names = {it for it in names if it in left}
            counts = Counts.of([left[it] for it in names])
            nearby = clusters.nearby(cells, names) if cells and counts.worse >= LEAST_NEARBY else None
            if limits.are_exceeded(counts, self.count, nearby):
                holds.append(Hold(self.numbers.take("hold", 1)[0], names, counts, streets, nearby))
                for it in names:
                    del left[it]
        return holds

    def effect(self, name: str, after: Answer) -> Optional[Effect]:
        """What an answer does to a string that is published, or None."""
        known, waited = self.known.get(name), self.waited.get(name)
        if known is None or known.answer.text is None or after == known.answer:
            return None
        if after == DROPPED:
            return Effect.DROPPED
        if after.text is None:
            return Effect.REFUSED
        was_given = waited.effect is Effect.ELSEWHERE if waited and waited.kind is not Kind.DELAYED else known.state in GIVEN
        return Effect.ELSEWHERE if known.is_elsewhere and was_given else Effect.CHANGED

    # ---- writing

    def publish(self, outcome: Outcome, seconds: float) -> Tuple[int, List[str]]:
        """Writes the answers and the states, and the round with its history. Returns its number, or 0 if nothing changed, and
        the names of the paths that are newly published as elsewhere."""
        outcome = outcome._replace(waiting=self.newly_waiting(outcome))
        streets, names = self.affected.keys, {*outcome.published, *outcome.waiting, *outcome.ended}
        number = self.numbers.take("round", 1)[0]
        self.write_waiting(outcome, number)
        self.write_margins({*outcome.published, *outcome.ended})
        self.write_strings(outcome.published, number)
        write_path_problems(self.cursor, self.paths, names, Cause(number, sorted(self.change.users)))
        states = self.write_states({*names, *self.paths.found})
        if not (streets or self.paths.gone or names or self.change.is_margin_new or states):
            return 0, []
        self.write_round(outcome, number, seconds)
        self.write_history(outcome, number, states)
        self.numbers.write()
        self.cursor.execute("select pg_notify('olr_keep_round', %s)", (str(number),))
        return number, sorted(name for name, it in states.items() if it == "elsewhere")

    def newly_waiting(self, outcome: Outcome) -> Dict[str, Waiting]:
        """What waits and didn't before, or is another answer now."""
        return {name: it for name, it in outcome.waiting.items() if it != self.waited.get(name)}

    def write_waiting(self, outcome: Outcome, number: int) -> None:
        """Writes the answers that wait, and the new holds."""
        self.cursor.execute("delete from olr_keep.waiting where name = any(%s::text[])",
                            (text_array(outcome.ended | outcome.waiting.keys()),))
        copy(self.cursor, "waiting", "name, kind, hold, text, reason, effect, due, cause",
             ((name, it.kind.value, it.hold, *it.answer, it.effect and it.effect.value, it.due, it.due and (it.cause or number))
              for name, it in outcome.waiting.items()))
        users = text_array(sorted(self.change.users))
        for hold, _, counts, streets, nearby in outcome.holds:
            self.cursor.execute(
                """insert into olr_keep.hold (hold, round, streets, users, changed, refused, dropped, elsewhere, nearby)
                values (%s, %s, %s::text[], %s::text[], %s, %s, %s, %s, %s)""",
                (hold, number, text_array(sorted(streets)[:MOST_NAMED]), users, *counts, nearby))
            self.cursor.execute("select pg_notify('olr_keep_held', %s)", (str(hold),))

    def write_strings(self, published: Mapping[str, Tuple[Optional[Answer], Answer]], number: int) -> None:
        """Writes the answers that are published."""
        gone = [name for name, (_, after) in published.items() if after == DROPPED]
        gone += [name for name in self.paths.gone if name not in self.before]
        self.cursor.execute("delete from olr_keep.string where name = any(%s::text[])", (text_array(gone),))
        answers = [(name, *after, number) for name, (_, after) in published.items() if after != DROPPED]
        update(self.cursor, """update olr_keep.string set text = it.text, reason = it.reason, round = it.round,
                last_text = case when it.text is null then coalesce(string.text, last_text) end,
                last_round = case when it.text is null
                    then case when string.text is null then last_round else string.round end end
            from (values %s) as it(name, text, reason, round) where string.name = it.name""", answers)

    def write_margins(self, names: Iterable[str]) -> None:
        """Writes with which margin these strings, and with another margin all that don't wait, are made. One that is published
        again as it was after a round has the margin of its own."""
        self.cursor.execute("""update olr_keep.string set margin = %s where margin <> %s and (%s or name = any(%s::text[]))
            and name not in (select name from olr_keep.waiting)""",
                            (self.change.margin, self.change.margin, self.change.is_margin_new, text_array(names)))
        self.cursor.execute("""update olr_keep.string set margin = coalesce((
                select margin from (
                    select round, margin, text is distinct from lag(text) over (order by round) as is_new
                    from olr_keep.history join olr_keep.round using (round)
                    where history.name = string.name and history.round <= frozen.round
                ) as it where is_new order by round desc limit 1), string.margin)
            from olr_keep.frozen where frozen.name = string.name and string.name = any(%s::text[])
                and string.name in (select name from olr_keep.waiting)""", (text_array(names),))

    def write_states(self, names: Set[str]) -> Dict[str, str]:
        """Writes the states of these paths. Returns those that are others now."""
        self.cursor.execute("""update olr_keep.string set state = it.state from olr_keep.states(%s::text[]) as it
            where string.name = it.name and string.state is distinct from it.state returning string.name, string.state""",
                            (text_array(names),))
        return dict(self.cursor.fetchall())

    def write_round(self, outcome: Outcome, number: int, seconds: float) -> None:
        """Writes the row of the round."""
        names = self.affected.keys, outcome.published, self.change.users
        self.cursor.execute(
            """insert into olr_keep.round (round, at, streets, paths, users, changed, refused, dropped, elsewhere, seconds,
                margin, causes)
            values (%s, clock_timestamp(), %s::text[], %s::text[], %s::text[], %s, %s, %s, %s, %s, %s, %s::bigint[])""",
            (number, *(text_array(sorted(it)) for it in names), *outcome.counts, seconds, self.change.margin,
             number_array(sorted(outcome.causes))))

    def write_history(self, outcome: Outcome, number: int, states: Iterable[str]) -> None:
        """Writes the history of the round: the answers that are published, and the states that are others."""
        self.cursor.execute("""insert into olr_keep.history (round, name, text, reason, state, off_m)
            select %s, name, text, reason, state, off_m from olr_keep.string where name = any(%s::text[])""",
                            (number, text_array({*outcome.published, *states})))
        copy(self.cursor, "history", "round, name, text, reason",
             ((number, name, *after) for name, (_, after) in sorted(outcome.published.items()) if after == DROPPED))


class Clusters:
    """Which changes belong together: those of one transaction, and those near each other; and which paths they change. With
    another margin all do."""

    def __init__(self, cursor: Any, change: Change, affected: Affected, names: Iterable[str]) -> None:
        self.cursor, self.change, self.affected, self.names = cursor, change, affected, names
        self.parents: Dict[Item, Item] = {}
        self.cells: Dict[str, Set[Cell]] = {}
        self.there: List[Item] = []  # the cells of the changes, or one of them if all are one cluster

    def root(self, item: Item) -> Item:
        """The first item of a cluster."""
        self.parents.setdefault(item, item)
        while self.parents[item] != item:
            self.parents[item] = self.parents[self.parents[item]]
            item = self.parents[item]
        return item

    def join(self, a: Item, b: Item) -> None:
        """Makes two clusters one."""
        self.parents[self.root(a)] = self.root(b)

    def run(self) -> List[Cluster]:
        """The clusters, the greatest first. A path may be in several."""
        keys = self.affected.keys
        if len(keys) > MOST_CELLS or self.change.is_margin_new:
            return [Cluster(set(self.names), keys, set())]
        for key in keys:
            group = self.change.street_group.get(key)
            self.join(("street", key), ("transaction", group) if group else "compared")
        self.place(keys)
        for name in self.names:
            for cluster in self.clusters_of(name):
                self.join(("path", name, cluster), cluster)
        found: Dict[Item, Cluster] = {}
        for item in list(self.parents):
            names, streets, places = found.setdefault(self.root(item), Cluster(set(), set(), set()))
            if item[0] == "path":
                names.add(item[1])
            elif item[0] == "street":
                streets.add(item[1])
            elif item[0] == "cell":
                places.add(item[1:])
        return sorted(found.values(), key=lambda it: -len(it.names))

    def nearby(self, cells: Iterable[Cell], names: Set[str]) -> int:
        """How many paths are in some cells, with those of these names."""
        columns, rows = zip(*cells)
        self.cursor.execute("""select count(*) from (
                select name from unnest(%s::int[], %s::int[]) as cell(x, y)
                join olr_keep.string on geom && ST_MakeEnvelope(x * %s, y * %s, (x + 1) * %s, (y + 1) * %s, 4326)
                    and ST_Intersects(geom, ST_MakeEnvelope(x * %s, y * %s, (x + 1) * %s, (y + 1) * %s, 4326))
                union select unnest(%s::text[])) as one""",
                            (number_array(columns), number_array(rows), *8 * [NEAR], text_array(names)))
        return int(self.cursor.fetchone()[0])

    def place(self, keys: Iterable[str]) -> None:
        """Puts the changed streets into cells, as they are, and as they were, and joins those in neighbouring ones."""
        for key, x, y in self.affected_cells(keys):
            cell = "cell", x, y
            self.join(("street", key), cell)
        cells = [it for it in self.parents if it[0] == "cell"]
        for _, x, y in cells:
            for other in around((x, y)):
                if ("cell", *other) in self.parents:
                    self.join(("cell", x, y), ("cell", *other))
        self.there = cells if len({self.root(it) for it in cells}) > 1 else cells[:1]

    def affected_cells(self, keys: Iterable[str]) -> List[Tuple[str, int, int]]:
        """The cells of streets: of their vertices now, and of their boxes before."""
        self.cursor.execute("""select distinct street, floor(olr_keep.lon(place) / %s)::int, floor(olr_keep.lat(place) / %s)::int
            from olr_keep.vertex where street = any(%s::text[])""", (NEAR, NEAR, text_array(keys)))
        found: List[Tuple[str, int, int]] = self.cursor.fetchall()
        return found + [(key, *it) for key, cells in self.affected.old_cells.items() for it in cells]

    def clusters_of(self, name: str) -> Set[Item]:
        """The clusters that change a path: that of the transaction which noted it, and those near it, or else the nearest one."""
        noted = self.change.path_group.get(name)
        found: Set[Item] = {("transaction", noted)} if noted else set()
        cells = self.cells_of(name)
        for cell in cells:
            found.update(("cell", *it) for it in around(cell) if ("cell", *it) in self.parents)
        if not found and cells and self.there:
            found = {min(self.there, key=lambda it: min(math.dist(it[1:], cell) for cell in cells))}
        return {self.root(it) for it in found} or {"compared"}

    def cells_of(self, name: str) -> Set[Cell]:
        """The cells of a path's course, as it is and as it was."""
        if not self.cells:
            self.cursor.execute("""select name, ST_AsBinary(geom, 'NDR'), ST_AsBinary(given, 'NDR') from olr_keep.string
                where name = any(%s::text[])""", (text_array(self.names),))
            for one, *courses in self.cursor:
                places = [place for it in courses for place in coordinates(it) or ()]
                self.cells[one] = {cell_of(*it) for it in places}
        return self.cells.get(name, set())

