"""What a round of tools/live does to the paths: which ones it looks at, where they are, and their records."""
from __future__ import annotations

import os
import time
from collections import deque
from typing import Any, Callable, Container, Deque, Dict, Iterator, List, Mapping, NamedTuple, Optional, Sequence, Set, Tuple

from ..courses import Ends, Found, Lost, Rival, course_of
from ..forked import Forked
from ..geo import METRES
from ..reasons import in_words
from ..roads import nearby, restored, stored
from ..sql import Course, Place, coordinates, copy, course_hex, number_array, places_hex, point, text_array, update
from .cells import merged
from .finder import Finder, Unread, sides_of
from .map import FEW, Affected
from .pathsearch import Known, PathSearch, PathState, Placement, Remark, Wanted
from .read import Change
from .returned import cut_otherwise, has_stayed, last_streets, returned
from .session import note_later
from .streetsearch import marked_street

PART, KNOWN_PART = 1000, 300  # paths that are read at once: new ones, and others, of which much more is read
LEAST = 50  # paths that are sought in the process itself
SEARCHING = 2  # processes that search for paths, if there are several parts
LONG = 50_000  # coordinates of courses
AT_ONCE = 100  # paths that aren't found as said and are near a change, up to which they are sought in its round
FEW_AT_ONCE, AWHILE = 20, 0.5  # of these, at a time; seconds after which the others are left for later rounds
MOST_BOXES = 200  # boxes of changes up to which each is looked at


class Placed(NamedTuple):
    """The lines of a path, what is cut off them, and how the path will be found again."""

    state: PathState
    lines: List[int]
    streets: List[str]
    start: int
    end: int
    positive: int
    negative: int
    nodes: Tuple[Optional[int], Optional[int]]
    course: Optional[Course]
    definition: str
    given: Optional[Course]
    given_streets: List[str]
    last: Optional[str]  # the map on which it was last as given, as JSON, while it isn't
    ends: Optional[Ends]
    why: Optional[Lost]
    lost_at: Tuple[Place, ...]
    rival: Optional[Rival]
    off: Optional[float] = None  # metres between the course that was given and this one
    remarks: Tuple[Remark, ...] = ()
    has_rival: bool = False
    is_first: bool = False  # whether it was found as operators give it, and is given there from now on


Finders = Tuple[Finder, Optional[Finder]]  # of the map as it is, and as it was before the round
Before = Tuple[Known, int, int]  # a path as it was found, and the two offsets of its record


class Sought(NamedTuple):
    """A path that was sought: what a round needs of it later, its row, and its record, or nothing if it stays."""

    placed: Placed
    row: Tuple[object, ...]
    record: str


# The paths that are not found as said, and are over some streets; each part has an index of its own, since they may be very many.
OVER_OPEN = """select name from olr_keep.string where (lost or found_elsewhere) and streets && %s::text[]
    union select name from olr_keep.path join olr_keep.string using (name)
    where (lost or found_elsewhere) and path.streets && %s::text[]"""
# The same for very many streets, of which no index is asked.
OVER_OPEN_MANY = """select name from olr_keep.string left join olr_keep.path using (name) where (lost or found_elsewhere)
    and exists (select from unnest(string.streets || path.streets) as one where ltrim(one, '<>') = any(%s::text[]))"""
# Those near some boxes.
NEAR_OPEN = """with near as materialized (
        select ST_MakeEnvelope(w, s, e, n, 4326) as box
        from unnest(%s::float8[], %s::float8[], %s::float8[], %s::float8[]) as one(w, s, e, n)
    )
    select name from near join olr_keep.string on (lost or found_elsewhere) and lost_at is not null and ST_Intersects(lost_at, box)
    union select name from near join olr_keep.string on (lost or found_elsewhere) and lost_at is null and ST_Intersects(geom, box)
    union select name from near join olr_keep.string on (lost or found_elsewhere) and lost_at is null and ST_Intersects(given, box)
    union select name from olr_keep.string join olr_keep.path using (name)
    where (lost or found_elsewhere) and lost_at is null and (geom is null or given is null)
        and exists (select from near where ST_Intersects(course, box))"""


class PathsUpdate:
    """Where the paths of a round are. `records` are collected unless the program is loaded afterwards. A preview leaves none for
    later rounds. `before` is a cursor of a session that reads the map as it was before the round."""

    def __init__(self, cursor: Any, affected: Affected, tolerance: float, before: Callable[[], Any], is_preview: bool = False) -> None:
        self.cursor, self.affected, self.tolerance, self.before, self.is_preview = cursor, affected, tolerance, before, is_preview
        self.found: Dict[str, Placed] = {}
        self.gone: Set[str] = set()
        self.again: Set[str] = set()  # of the found ones those whose road is there again
        self.records: List[str] = []

    def run(self, change: Change, tell: Callable[[int, int], None]) -> None:
        """Finds the paths, and writes the rows of those that were found; those of removed paths are left. While the paths of one
        part are sought, the next part is read. `tell` gets how many are read, of how many."""
        names, open_ones = self.names(change)
        names = self.ordered(names)
        parts = parts_of(names, self.most_at_once(names))
        first, began = len(parts), time.monotonic()
        parts += [open_ones[k : k + FEW_AT_ONCE] for k in range(0, len(open_ones), FEW_AT_ONCE)]
        most = min(SEARCHING, len(os.sched_getaffinity(0))) if len(parts) > 1 else 0
        searching: Deque[PartSearch] = deque()
        try:
            for k, part in enumerate(parts):
                if k > first and not self.is_preview and time.monotonic() > began + AWHILE:
                    note_later(self.cursor, change.users, [name for it in parts[k:] for name in it])
                    break
                tell(k * len(parts[0]), len(names) + len(open_ones))
                search = self.read_search(part)
                while searching and len(searching) >= most:
                    self.write(searching.popleft())
                if most or search.is_long():
                    search.fork()
                searching.append(search)
            while searching:
                self.write(searching.popleft())
        finally:
            for it in searching:
                it.end()
        self.cursor.execute("update olr_keep.string set lines = '{}' where name = any(%s::text[])", (text_array(self.gone),))

    def most_at_once(self, names: Sequence[str]) -> int:
        """How many of these paths are read at once."""
        if len(names) > KNOWN_PART:
            self.cursor.execute("select not exists (select from olr_keep.string)")
            if self.cursor.fetchone()[0]:
                return PART
        return KNOWN_PART

    def ordered(self, names: Sequence[str]) -> List[str]:
        """The paths in an order in which those near each other are together, if they are many."""
        if len(names) <= KNOWN_PART:
            return list(names)
        self.cursor.execute("""select name from olr_keep.path full join olr_keep.string using (name)
            where name = any(%s::text[]) order by ST_StartPoint(coalesce(string.geom, course)), name""", (text_array(names),))
        found = [it for (it,) in self.cursor]
        return [*found, *sorted(set(names).difference(found))]

    def names(self, change: Change) -> Tuple[List[str], List[str]]:
        """The paths to look at: noted ones, and those that the map's change affects, but for lost ones; and those that were left for
        later, or of those that are not found as said some near the change. The others of these are noted for later rounds."""
        names = change.paths | self.affected.names
        self.cursor.execute("select name from olr_keep.string where lost and name = any(%s::text[])", (text_array(names - change.paths),))
        names -= (lost := {name for (name,) in self.cursor})
        if change.every_path:
            self.cursor.execute("""select name from olr_keep.path full join olr_keep.string using (name)
                where path.name is null or string.name is null
                    or definition <> md5(concat(path.streets::text, '|', course::text))""")
            names |= {it for (it,) in self.cursor}
        near = sorted((self.open_ones() | lost if self.affected.keys else lost) - names)
        at_once = near if self.is_preview else [] if change.is_beside else near[:AT_ONCE]
        if len(near) > len(at_once):
            note_later(self.cursor, change.users, near[len(at_once) :])
        return sorted(names), at_once + sorted(change.later - names)

    def open_ones(self) -> Set[str]:
        """The paths that are not found as said, and are near a changed street or over it."""
        if not self.affected.are_open(self.cursor):
            return set()
        keys, boxes = self.affected.keys, self.affected.boxes
        if len(keys) > FEW:
            self.cursor.execute(OVER_OPEN_MANY, (text_array(keys),))
        else:
            marked = text_array(mark + it for it in keys for mark in ("", "<", ">"))
            self.cursor.execute(OVER_OPEN, (marked, marked))
        names = {it for (it,) in self.cursor}
        self.cursor.execute(NEAR_OPEN, sides_of(boxes if len(boxes) <= MOST_BOXES else merged(boxes)) or 4 * ["{}"])
        return names | {it for (it,) in self.cursor}

    def read_search(self, names: Sequence[str]) -> PartSearch:
        """The search for some paths, whose streets and lines are read."""
        finder = Finder(self.cursor, self.tolerance)
        wanted, known = self.read(names, finder)
        good = [it for it in wanted.values() if not it.fault()]
        before = {it.name: known[it.name][0] for it in good if it.name in known}
        away = {it.name: was for it in good if (was := before.get(it.name)) and was.definition == it.definition}
        streets = [*(it.streets or () for it in good), *(it.streets for it in before.values())]
        finder.read_streets({*(marked_street(it)[1] for several in streets for it in several),
                             *(street for it in away.values() for street in last_streets(it))})
        again = {name: found for name, it in away.items() if (found := returned(finder, it))}
        cut = {name: now for name, it in away.items() if not self.is_untouched(finder, it) and (now := cut_otherwise(finder, it))}
        before.update(cut)
        sought = [it for it in good if it.name not in again and not self.is_untouched(finder, before.get(it.name))]
        last = [before[it.name] for it in sought if it.name in before]
        courses = [*(it.course for it in sought), *(it.course for it in last), *(it.given for it in last)]
        finder.read_near(it for it in courses if it)
        return PartSearch(self, (finder, self.read_before(last)), Paths(names, wanted, known, again, cut))

    def is_untouched(self, finder: Finder, known: Optional[Known]) -> bool:
        """Whether a path is as given, and its lines are as they were before the round, or hardly moved."""
        if known is None or known.state is not PathState.SAID:
            return False
        return self.affected.looked.isdisjoint(known.lines) or has_stayed(finder, known)

    def read_before(self, was: Sequence[Known]) -> Optional[Finder]:
        """Reads the map before the round, where the paths are that were as given."""
        courses = [it.given for it in was if it.state is PathState.SAID and it.given]
        if not courses:
            return None
        finder = Finder(self.before(), self.tolerance)
        finder.read_near(courses)
        return finder

    def write(self, search: PartSearch) -> None:
        """Writes the rows of the paths of a search."""
        rows = []
        self.again |= search.again.keys()
        for name, it in search.result().items():
            before = search.known.get(name)
            if it is not None:
                self.found[name] = it.placed
                self.records += [it.record] if it.record else []
                rows.append(it.row)
            elif before is not None:
                self.gone.add(name)
                self.records += [f"drop-path,{name}"] if before[0].lines else []
        write_rows(self.cursor, rows)

    def tick(self) -> None:
        """Asks something, so that the session isn't taken for one that is stopped."""
        self.cursor.execute("select 1")
        self.affected.tick()

    def read(self, names: Sequence[str], finder: Finder) -> Tuple[Dict[str, Wanted], Dict[str, Before]]:
        """The paths of these names as operators give them, and as they were found last, with their two offsets."""
        self.cursor.execute("""select name, streets, ST_AsBinary(course, 'NDR'), cut_start, cut_end,
                md5(concat(streets::text, '|', course::text))
            from olr_keep.path where name = any(%s::text[])""", (text_array(names),))
        wanted = {name: Wanted(name, streets, coordinates(course), *rest) for name, streets, course, *rest in self.cursor}
        self.cursor.execute("""select name, lines, streets, start_cut, end_cut, start_node, end_node, ST_AsBinary(geom, 'NDR'),
                definition, lost, found_elsewhere, ST_AsBinary(given, 'NDR'), given_streets, last_map, at_junctions, off_m,
                start_offset, end_offset
            from olr_keep.string where name = any(%s::text[])""", (text_array(names),))
        rows = self.cursor.fetchall()
        ends = {it for row in rows for it in row[5:7] if it is not None}
        self.cursor.execute("select node from olr_keep.node where node = any(%s::bigint[])", (number_array(ends),))
        there = {it for (it,) in self.cursor}
        finder.read_numbers({it for row in rows for it in row[1]})
        return wanted, {row[0]: (known_of(row, there), row[-2], row[-1]) for row in rows}

    def place(self, finders: Finders, wanted: Wanted, known: Optional[Known]) -> Placed:
        """Where a path is on the map now."""
        try:
            placement = PathSearch(finders[0], wanted, known, finders[1], self.is_untouched(finders[0], known)).run()
        except (ArithmeticError, AttributeError, LookupError, TypeError, ValueError) as error:
            placement = Placement(PathState.LOST, None, Lost(f"it can't be sought: {type(error).__name__}: {error}", None))
        last = known if known is not None and known.definition == wanted.definition else None
        return Placing(finders[0], wanted, last, placement).placed()


def known_of(row: Sequence[Any], there: Container[int]) -> Known:
    """A path as it was found last, of a row."""
    _, lines, streets, start, end, a, b, course, definition, lost, elsewhere, given, given_streets, last, ends, off, *_ = row
    state = PathState.LOST if lost else PathState.ELSEWHERE if elsewhere else PathState.SAID
    nodes = (a if a in there else None, b if b in there else None)
    return Known(lines, streets, start, end, nodes, coordinates(course), definition, state, coordinates(given),
                 Ends(*(ends or (start == 0, end == 0))), given_streets, restored(last) if last else None, off)


def parts_of(names: Sequence[str], most: int) -> List[Sequence[str]]:
    """The paths in parts of at most so many, which are sought at the same time, while the session asks something; a few are one
    part."""
    size = min(most, max(LEAST, -(-len(names) // SEARCHING)))
    return [names[first : first + size] for first in range(0, len(names), size)]


class Paths(NamedTuple):
    """Some paths: as operators give them, as they were found last, the lines of those whose road is there again, and those that are only cut
    at other places."""

    names: Sequence[str]
    wanted: Dict[str, Wanted]
    known: Dict[str, Before]
    again: Mapping[str, Placement]
    cut: Mapping[str, Known]


class PartSearch:
    """The search for some paths: where each is, by name, or None for a path that is no longer wanted."""

    def __init__(self, update: PathsUpdate, finders: Finders, paths: Paths) -> None:
        self.update, self.finders = update, finders
        self.names, self.wanted, self.known, self.again, self.cut = paths
        self.forked: Optional[Forked[Dict[str, Optional[Sought]]]] = None

    def is_long(self) -> bool:
        """Whether the search may take so long that the session has to be asked something meanwhile."""
        return sum(len(it.course or ()) for it in self.wanted.values()) > LONG

    def fork(self) -> None:
        """Searches in a process of its own."""
        self.forked = Forked(self.without_database)

    def without_database(self) -> Dict[str, Optional[Sought]]:
        """The paths that can be found with what is read."""
        for it in self.finders:
            if it:
                it.cursor = None
        found = {}
        for name in self.names:
            try:
                found[name] = self.place(name)
            except Unread:
                pass
        return found

    def place(self, name: str) -> Optional[Sought]:
        """Where a path is on the map now."""
        wanted, before = self.wanted.get(name), self.known.get(name)
        if wanted is None:
            return None
        if name in self.again and before:
            it = Placing(self.finders[0], wanted, before[0], self.again[name]).placed()
        else:
            it = self.update.place(self.finders, wanted, self.cut.get(name) or before and before[0])
        rest = it._replace(lines=it.lines[:1], streets=[], course=None, given=None, given_streets=[], last=None)
        return Sought(rest, row_of(name, it), record_of(name, it, before))

    def result(self) -> Dict[str, Optional[Sought]]:
        """Where the paths are."""
        found = (self.forked.result(self.update.tick) if self.forked else None) or {}
        return {name: found[name] if name in found else self.place(name) for name in self.names}

    def end(self) -> None:
        """Ends the process that searches."""
        if self.forked:
            self.forked.end()


class Placing:
    """A path that was sought, as its row has it."""

    def __init__(self, finder: Finder, wanted: Wanted, known: Optional[Known], placement: Placement) -> None:
        self.finder, self.wanted, self.known, self.placement = finder, wanted, known, placement
        self.cuts = round(10 * wanted.cut_start), round(10 * wanted.cut_end)

    def placed(self) -> Placed:
        """The row: with the lines that were found, or else with the last ones, or with none."""
        if self.placement.found:
            return self.on_lines(self.placement.found)
        known = self.known
        if known is None or not known.lines:
            return self.row([], [], (0, 0), (None, None), None)
        return self.row(known.lines, known.streets, (known.start, known.end), known.nodes, known.course)

    def on_lines(self, found: Found) -> Placed:
        """The row with lines."""
        rows = [self.finder.rows[it] for it in found.lines]
        streets = [(">" if it.along else "<") + it.street for it in rows]
        streets = [it for k, it in enumerate(streets) if k == 0 or it != streets[k - 1]]
        nodes, course = (rows[0].start, rows[-1].end), course_of(rows, found.start, found.end)
        return self.row(found.lines, streets, (found.start, found.end), nodes, course)

    def row(self, lines: List[int], streets: List[str], ends: Tuple[int, int], nodes: Tuple[Optional[int], Optional[int]],
            course: Optional[Course]) -> Placed:
        """The row of a path on these lines. Where it was given is remembered, and while it isn't found there, the last map."""
        known, placement = self.known, self.placement
        given, at_junctions, given_streets = course, Ends(ends[0] == 0, ends[1] == 0) if lines else None, streets
        if known is not None and known.given:
            given, at_junctions, given_streets = known.given, known.given_ends, known.given_streets
        last = placement.last or (known and known.last)
        if last and given and (known is None or last is not known.last):
            last = nearby(last, given) if placement.state is not PathState.SAID else None
        text = stored(last) if last and placement.state is not PathState.SAID else None
        offsets = (ends[0] + self.cuts[0], ends[1] + self.cuts[1]) if lines else (0, 0)
        off = None if placement.off is None else round(placement.off, 1)
        return Placed(placement.state, lines, streets, *ends, *offsets, nodes, course, self.wanted.definition, given,
                      given_streets, text, at_junctions, placement.why, placement.lost_at, placement.found and placement.found.rival,
                      off, placement.remarks, placement.has_rival, known is None or known.given is None)


ROW = ("name, lines, streets, start_offset, end_offset, start_cut, end_cut, start_node, end_node, definition, lost, "
       "found_elsewhere, geom, given, given_streets, last_map, lost_at, at_junctions, off_m")


def record_of(name: str, placed: Placed, before: Optional[Before]) -> str:
    """The record of a path, or nothing if it is as it was."""
    had_lines = before is not None and bool(before[0].lines)
    if not placed.lines:
        return f"drop-path,{name}" if had_lines else ""
    offsets = placed.positive, placed.negative
    if before is not None and had_lines and (before[1:], before[0].lines) == (offsets, placed.lines):
        return ""
    return ",".join(map(str, ("repath" if had_lines else "path", name, *offsets, *placed.lines)))


def row_of(name: str, it: Placed) -> Tuple[object, ...]:
    """The row of a path."""
    return (name, number_array(it.lines), text_array(it.streets), it.positive, it.negative, it.start, it.end, *it.nodes, it.definition,
            it.state is PathState.LOST, it.state is PathState.ELSEWHERE, course_hex(it.course), course_hex(it.given),
            text_array(it.given_streets), it.last, places_hex(it.lost_at), None if it.ends is None else number_array(it.ends), it.off)


def write_rows(cursor: Any, rows: Sequence[Sequence[object]]) -> None:
    """Writes where paths are; their answers are written when the round is published."""
    update(cursor, f"""insert into olr_keep.string ({ROW}, reason, round)
        select name, lines::bigint[], streets::text[], start_offset, end_offset, start_cut, end_cut, start_node::bigint,
            end_node::bigint, definition, lost, found_elsewhere, geom::geometry, given::geometry, given_streets::text[], last_map::jsonb,
            lost_at::geometry, at_junctions::boolean[], off_m::float8, 'new', 0
        from (values %s) as it({ROW})
        on conflict (name) do update set ({ROW}) = (excluded.name, excluded.lines, excluded.streets, excluded.start_offset,
            excluded.end_offset, excluded.start_cut, excluded.end_cut, excluded.start_node, excluded.end_node,
            excluded.definition, excluded.lost, excluded.found_elsewhere, excluded.geom, excluded.given,
            excluded.given_streets, excluded.last_map, excluded.lost_at, excluded.at_junctions, excluded.off_m)""", rows)


# Problems of paths as they are found first, or as an upgrade finds them, until they are accepted or given again.
FIRST = "two ways", "off its course", "other string"


class Cause(NamedTuple):
    """Which round wrote a problem first, or None, and who made the edits of it."""

    round: Optional[int]
    users: Sequence[str]


def write_path_problems(cursor: Any, paths: PathsUpdate, names: Set[str], cause: Cause) -> None:
    """Writes which of these paths have no string, are found elsewhere, or have two roads near their course, and why. Of paths
    that were not looked at, only the first changes. A problem that is still there keeps its time and its cause."""
    shifts = write_shifts(cursor, [name for name, it in paths.found.items() if it.state is PathState.ELSEWHERE])
    cursor.execute("""delete from olr_keep.problem where path = any(%s::text[]) and (kind <> 'two roads' or path <> all(%s::text[]))
            and (kind <> all(%s::text[]) or path <> all(%s::text[])) or path = any(%s::text[]) and kind = 'no string'
        returning path, kind, since::text, round, users::text""",
                   (text_array({*paths.found, *paths.gone}), text_array(with_rivals_as_before(paths)), text_array(FIRST),
                    text_array(name for name, it in paths.found.items() if not it.is_first), text_array(names)))
    known = {it[:2]: it[2:] for it in cursor.fetchall()}
    new = "now", cause.round, text_array(sorted(cause.users))
    rows = [(kind, name, words, place, *shifts.get(name, (None, None)), *known.get((name, kind), new))
            for kind, name, words, place in path_problems(cursor, paths, names)]
    copy(cursor, "problem", "kind, path, words, geom, metres, shift, since, round, users", rows)


def with_rivals_as_before(paths: PathsUpdate) -> Set[str]:
    """The paths near whose course there still may be two roads."""
    return {name for name, it in paths.found.items() if it.state is PathState.LOST or it.has_rival} | paths.again


def path_problems(cursor: Any, paths: PathsUpdate, names: Set[str]) -> Iterator[Tuple[str, str, str, Optional[str]]]:
    """What is wrong with paths: its kind, the path, what it is in words, and where."""
    cursor.execute("""select name, coalesce(waiting.reason, string.reason), ST_X(ST_StartPoint(geom)), ST_Y(ST_StartPoint(geom)),
            waiting.text is not null
        from olr_keep.string left join olr_keep.waiting using (name) where name = any(%s::text[])""",
                   (text_array({*paths.found, *names}),))
    for name, reason, lon, lat, is_text in cursor.fetchall():
        placed = paths.found.get(name)
        start = None if lon is None else (lon, lat)
        if reason is not None and not is_text:
            yield ("no string", name, *why_no_string(reason, placed, start))
        elif placed and placed.state is PathState.ELSEWHERE and placed.why:
            yield "found elsewhere", name, f"found elsewhere: {placed.why.words}", point(placed.why.place or start)
        if placed and placed.rival:
            words = f"two roads follow its course: it is on {placed.rival.taken}, and {placed.rival.other} is near it too"
            yield "two roads", name, words, point(placed.rival.place)
        for it in placed.remarks if placed else ():
            yield it.kind, name, it.words, point(it.place)


# From the vertex of one course that is farthest from the other one, to the nearest place of that: always from where the path was.
SHIFTS = f"""with pair as (
        select name, wide, ST_Scale(given, wide, {METRES}) as was, ST_Scale(geom, wide, {METRES}) as now
        from olr_keep.string cross join lateral (select cos(radians(ST_Y(ST_StartPoint(geom)))) * {METRES} as wide) as it
        where name = any(%s::text[]) and given is not null
    ), one as (
        select name, wide, ST_ShortestLine(it.geom, now) as line from pair cross join ST_DumpPoints(was) as it
        union all select name, wide, ST_ShortestLine(was, it.geom) from pair cross join ST_DumpPoints(now) as it
    ), farthest as (
        select distinct on (name) name, ST_Length(line) as metres, ST_Scale(line, 1 / wide, 1 / {METRES}) as line
        from one order by name, ST_Length(line) desc
    )
    update olr_keep.string set off_m = coalesce(off_m, round(metres::numeric, 1)) from farthest where string.name = farthest.name
    returning string.name, off_m, line::text"""


def write_shifts(cursor: Any, names: Sequence[str]) -> Dict[str, Tuple[float, str]]:
    """Writes how far paths that are found elsewhere are from where they were given, in metres, and returns it with a line from
    there."""
    if not names:
        return {}
    cursor.execute(SHIFTS, (text_array(names),))
    return {name: (metres, line) for name, metres, line in cursor}


def why_no_string(reason: str, placed: Optional[Placed], start: Optional[Place]) -> Tuple[str, Optional[str]]:
    """Why a path has no string, in words, and where."""
    if placed and placed.why and placed.state is PathState.LOST:
        return placed.why.words, point(placed.why.place or start)
    return "no lines follow it" if reason == "lost" else in_words(reason), point(start)
