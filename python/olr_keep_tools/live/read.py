"""What a round of tools/live reads: the notes, and of the streets that they name the rows that differ from what was read last."""
from __future__ import annotations

import enum
from typing import Any, Container, Dict, Iterable, Iterator, List, Mapping, NamedTuple, Optional, Sequence, Set, Tuple, Union

from ..grid import Cell, around
from ..sql import point, psycopg2, text_array
from ..streets import Place, Street, Unfit, degrees, first_place, street_of
from .cells import NEAR
from .session import LATER, LONGEST_ID, Readable, Savepoint, Source, SourceTable, first_line, margins, row_query

BLOCK = 4000  # streets that are read and cut at once
PART = 200  # paths that were left for later and are read at once
FEW, VERY_MANY = 100, 1000  # notes of transactions that are a round before, and of one before which they are
NO_SOURCE = -1  # of streets whose table is no source any more


class StreetRow(NamedTuple):
    """A street as its table has it now."""

    source: int
    digest: int
    shape: int
    street: Union[Street, Unfit]
    name: Optional[str] = None


class LastRead(NamedTuple):
    """What was read of a street last; `is_fit` is whether it is in the map."""

    source: int
    digest: int
    shape: Optional[int]
    is_fit: bool


class Fate(enum.Enum):
    """What has become of a street."""

    SAME = "same"
    GONE = "gone"
    CHANGED = "changed"
    TAKEN = "taken"


class Block(NamedTuple):
    """Streets that differ: rows by street, streets that are gone, and those of which only class, form or name are others."""

    rows: Dict[str, StreetRow]
    gone: Set[str]
    plain: Set[str]

    def keys(self) -> Set[str]:
        """All streets of it."""
        return self.rows.keys() | self.gone


class Change:
    """What a round is about: the streets and paths that were noted or differ, by which users, and in which transactions; and the
    margin, and whether the last round had another one."""

    def __init__(self) -> None:
        self.paths: Set[str] = set()
        self.later: Set[str] = set()  # paths that were left for later
        self.users: Set[str] = set()
        self.every_path = False
        self.keys: Dict[int, Set[str]] = {}
        self.broken: Dict[int, str] = {}
        self.compared: Set[int] = set()
        self.street_group: Dict[str, str] = {}
        self.path_group: Dict[str, str] = {}
        self.margin, self.is_margin_new = "0,0", False
        self.is_beside = False  # whether it is beside a bulk: paths that it doesn't change itself are left for later then

    @property
    def count(self) -> int:
        """How many streets are to be read."""
        return sum(map(len, self.keys.values()))


class Reader:
    """Reads the changes of the tables that can be read; `stale` are sources of which all rows are compared. A preview leaves the
    notes where they are. `has_streets` is whether streets may have been read before."""

    def __init__(self, cursor: Any, tables: Sequence[SourceTable], stale: Container[int], is_preview: bool = False) -> None:
        self.cursor, self.tables, self.stale, self.is_preview = cursor, tables, stale, is_preview
        self.sources = {it.source.source: it.source for it in tables if it.state is Readable.READY}
        self.change, self.has_streets = Change(), True
        self.first: Set[str] = set()  # the only transactions that are read in this round, if there are some
        self.is_split, self.is_last_split = False, False  # whether this round has small ones before a great one, and the last one had
        self.transactions: Set[str] = set()  # with a great one, those that aren't small and elsewhere
        self.near: Optional[Set[Cell]] = None  # the cells near their streets

    def read(self) -> Change:
        """What there is to do."""
        change = self.change
        change.margin, before = margins(self.cursor)
        change.is_margin_new = change.margin != before
        self.first = self.small_ones()
        for source, who, tx, keys in self.notes("source in (0, -1)"):
            change.users.add(who)
            change.every_path |= source == 0 and None in keys
            names = {it for it in keys if it is not None}
            change.paths |= names
            change.path_group.update(dict.fromkeys(names, tx))
        for source in self.sources.values():
            try:
                with Savepoint(self.cursor, source.search_path):
                    self.read_source(source)
            except psycopg2.Error as error:
                self.fail(source, error)
        self.removed_sources()
        if not (change.keys or change.paths or change.every_path or change.compared or change.is_margin_new or self.is_preview):
            self.read_later()
        return change

    def read_later(self) -> None:
        """Takes paths that were left for later, of those near each other."""
        self.cursor.execute("""delete from olr_keep.note using (
                select distinct key, min(at) as first from olr_keep.note where source = %s group by key order by first, key limit %s
            ) as it where source = %s and note.key = it.key returning note.key, who""", (LATER, PART, LATER))
        for key, who in self.cursor:
            self.change.later.add(key)
            self.change.users.update([who] if who else ())

    def notes(self, where: str, *values: object) -> List[Tuple[Any, ...]]:
        """Takes the notes for which a condition holds: (source, who, transaction, keys), one for each user and transaction."""
        if self.first:
            where, values = f"{where} and tx::text = any(%s::text[])", (*values, text_array(self.first))
        query = f"select * from olr_keep.note where {where}" if self.is_preview else \
            f"delete from olr_keep.note where {where} returning *"
        self.cursor.execute(f"""with taken as ({query})
            select source, who, tx::text, array_agg(distinct key collate "C") from taken group by source, who, tx""", values)
        return list(self.cursor.fetchall())

    def small_ones(self) -> Set[str]:
        """The transactions with few notes that are a round before one with very many, if they are nowhere near it; after such a round all
        others. Nothing means all."""
        self.cursor.execute("""select tx::text, count(*), bool_or(key is null and source >= 0) from olr_keep.note
            where source <> %s group by tx""", (LATER,))
        rows = self.cursor.fetchall()
        great = {tx for tx, count, _ in rows if count > VERY_MANY}
        if not great or self.is_preview or self.stale or any(is_whole for *_, is_whole in rows):
            return set()
        self.transactions = {tx for tx, *_ in rows}
        cells = self.cells_of(self.transactions)
        if cells is None:
            return set()
        small = away({tx for tx, count, _ in rows if count <= FEW}, cells, near_to(great, cells))
        self.is_split = bool(small) and not self.is_last_split
        self.transactions -= small
        self.near = near_to(self.transactions, cells)
        return small if self.is_split else self.transactions if small else set()

    def cells_of(self, transactions: Set[str]) -> Optional[Dict[str, Set[Cell]]]:
        """The cells of the streets that transactions have noted, as they were read last and as they are now; None if they can't be read."""
        cells: Dict[str, Set[Cell]] = {}
        try:
            for source in self.sources.values():
                with Savepoint(self.cursor, source.search_path):
                    self.add_cells(source, transactions, cells)
        except psycopg2.Error:
            if self.cursor.connection.closed:
                raise
            return None
        return cells

    def add_cells(self, source: Source, transactions: Set[str], cells: Dict[str, Set[Cell]]) -> None:
        """Adds those of one table."""
        self.cursor.execute("select distinct key, tx::text from olr_keep.note where source = %s and tx = any(%s::text[]::xid8[])",
                            (source.source, text_array(transactions)))
        noted: Dict[str, List[str]] = {}
        for key, tx in self.cursor:
            if key is not None and not is_nameless(key):
                noted.setdefault(key, []).append(tx)
        self.cursor.execute(f"""select distinct substr(street, %s), floor(olr_keep.lon(place) / {NEAR})::int,
                floor(olr_keep.lat(place) / {NEAR})::int
            from olr_keep.vertex where street = any(%s::text[])""", (len(source.prefix) + 1, text_array(source.prefix + it for it in noted)))
        found = self.cursor.fetchall()
        geom, streets = f"olr_keep.degrees({source.geom})".replace("%", "%%"), source.streets.replace("%", "%%")
        key = f"({source.id})::text".replace("%", "%%")
        self.cursor.execute(f"""select distinct key, floor(ST_X(it) / {NEAR})::int, floor(ST_Y(it) / {NEAR})::int
            from (select {key} as key, {geom} as geom from {streets} {where_ids(source)}) as one
                cross join lateral (select (ST_DumpPoints(geom)).geom as it) as vertex
            where ST_X(it) between -180 and 180 and ST_Y(it) between -90 and 90""", {"ids": text_array(noted)})
        for key, x, y in found + self.cursor.fetchall():
            for tx in noted.get(key, ()):
                cells.setdefault(tx, set()).add((x, y))

    def fail(self, source: Source, error: Exception) -> None:
        """Leaves a table out of this round, since it can't be read; its notes stay."""
        if self.cursor.connection.closed:
            raise error
        self.change.broken[source.source] = first_line(error)
        self.change.keys.pop(source.source, None)

    def read_source(self, source: Source) -> None:
        """The streets of a table that were noted, and if it is compared all that differ."""
        keys: Set[str] = set()
        is_whole = source.source in self.stale
        for _, who, tx, noted in self.notes("source = %s", source.source):
            self.change.users.add(who)
            is_whole |= None in noted
            keys.update(it for it in noted if it is not None)
            self.change.street_group.update((source.prefix + it, tx) for it in noted if it is not None)
        if is_whole:
            keys |= self.compared(source)
            self.change.compared.add(source.source)
        nameless = {it for it in keys if is_nameless(it)}
        if nameless or is_whole:
            self.nameless(source)
        if keys - nameless:
            self.change.keys[source.source] = keys - nameless

    def compared(self, source: Source) -> Set[str]:
        """The ids of rows that differ from what was read last; if a row can't be read, all ids, so that the others are."""
        try:
            with Savepoint(self.cursor):
                return self.differing(source)
        except psycopg2.Error:
            if self.cursor.connection.closed:
                raise
        self.cursor.execute(f"select ({source.id})::text from {source.streets}")
        found = {it for (it,) in self.cursor if it is not None}
        self.cursor.execute("select street from olr_keep.street where source = %s", (source.source,))
        return found | {it[len(source.prefix) :] for (it,) in self.cursor}

    def differing(self, source: Source) -> Set[str]:
        """The ids of rows that differ from what was read last."""
        self.cursor.execute(
            f"""select street
            from (select street, min(digest) as digest, count(*) as count from ({row_query(source)}) as row group by street)
                as new
            full join (select street, digest from olr_keep.street where source = %(source)s) as old using (street)
            where new.digest is distinct from old.digest or count > 1""",
            {"prefix": source.prefix, "source": source.source})
        return {it[len(source.prefix) :] for (it,) in self.cursor if it is not None}

    def nameless(self, source: Source) -> None:
        """Writes how many rows of a table have no id, or one that is too long, and where the first of them is."""
        self.cursor.execute("delete from olr_keep.problem where kind = 'no id' and source = %s", (source.source,))
        where = f"where coalesce(octet_length(({source.id})::text), 0) not between 1 and {LONGEST_ID}"
        self.cursor.execute(f"select count(*) from {source.streets} {where}")
        count = self.cursor.fetchone()[0]
        if count:
            words = f"{count} rows of {source.streets} have no id, or one of more than {LONGEST_ID} bytes"
            place = self.somewhere(source, where.replace("%", "%%"))
            self.cursor.execute("insert into olr_keep.problem (kind, source, words, geom) values ('no id', %s, %s, %s)",
                                (source.source, words, point(place)))

    def somewhere(self, source: Source, where: str, ids: Iterable[str] = ()) -> Optional[Place]:
        """The place of one of the rows for which a condition holds, or None if none can be read."""
        query = f"select ST_AsBinary(olr_keep.degrees({source.geom}), 'NDR') from {source.streets}".replace("%", "%%")
        try:
            with Savepoint(self.cursor):
                self.cursor.execute(f"{query} {where} limit %(count)s", {"ids": text_array(ids), "count": 1})
                shapes = self.cursor.fetchall()
        except psycopg2.Error:
            if self.cursor.connection.closed:
                raise
            return None
        return next((first_place(bytes(it)) for (it,) in shapes if it is not None), None)

    def removed_sources(self) -> None:
        """The streets of tables that are no sources any more, and their notes. They are sought among all streets if there are such
        notes, or if a table is compared."""
        noted = self.notes("source > 0 and not exists (select from olr_keep.source where source.source = note.source)")
        if noted or self.change.compared or not self.sources:
            self.cursor.execute("""select street from olr_keep.street
                where not exists (select from olr_keep.source where source = street.source)""")
            gone = {street for (street,) in self.cursor}
            if gone:
                self.change.keys[NO_SOURCE] = gone
        self.cursor.execute("""delete from olr_keep.problem
            where source is not null and not exists (select from olr_keep.source where source = problem.source)""")

    # ---- the rows, in blocks

    def blocks(self) -> Iterator[Block]:
        """The streets that differ, in blocks of those that are near each other."""
        is_one = self.change.count <= BLOCK
        ordered = [(source, key) for source, keys in self.change.keys.items()
                   for key in (sorted(keys) if is_one else self.near_each_other(source, keys))]
        self.change.keys = {}
        for first in range(0, len(ordered), BLOCK):
            by_source: Dict[int, Set[str]] = {}
            for source, key in ordered[first : first + BLOCK]:
                by_source.setdefault(source, set()).add(key)
            yield self.block(by_source)

    def near_each_other(self, number: int, keys: Set[str]) -> List[str]:
        """The streets of a table in an order in which those near each other are together: by where they are now, on PostGIS's curve
        through the plane, and then by where they were."""
        source, found = self.sources.get(number), {}
        if source:
            query = f"select ({source.id})::text from {source.streets}".replace("%", "%%")
            order = f"order by olr_keep.degrees({source.geom})".replace("%", "%%")
            found = dict.fromkeys(self.streets_in_order(source, f"{query} {where_ids(source)} {order}", keys))
        prefix = source.prefix if source else ""
        left = [prefix + it for it in keys - found.keys()]
        if left:
            self.cursor.execute("""select street from olr_keep.vertex where street = any(%s::text[]) and part = 0 and k = 0
                order by ST_MakePoint(olr_keep.lon(place), olr_keep.lat(place))""", (text_array(left),))
            found.update(dict.fromkeys(street[len(prefix) :] for (street,) in self.cursor))
        return [*found, *sorted(keys - found.keys())]

    def streets_in_order(self, source: Source, query: str, keys: Set[str]) -> List[str]:
        """The ids that a query finds, or none if a row can't be read: which one, is found later."""
        try:
            with Savepoint(self.cursor, source.search_path):
                self.cursor.execute(query, {"ids": text_array(keys)})
                return [it for (it,) in self.cursor]
        except psycopg2.Error:
            if self.cursor.connection.closed:
                raise
        return []

    def block(self, keys: Mapping[int, Set[str]]) -> Block:
        """The streets of these keys that differ, by source."""
        block = Block({}, set(), set())
        for number, ids in keys.items():
            if number == NO_SOURCE:
                block.gone.update(ids)
                continue
            self.read_keys(self.sources[number], ids, block)
        for source, street in self.freed(block.gone):
            self.read_keys(self.sources[source], {street[len(self.sources[source].prefix) :]}, block)
        return block

    def freed(self, gone: Set[str]) -> List[Tuple[int, str]]:
        """Streets of other tables that were left out since a street that is gone had their id."""
        if not gone:
            return []
        self.cursor.execute("""select source, street from olr_keep.problem
            where kind = 'same id' and street = any(%s::text[])""", (text_array(gone),))
        return [it for it in self.cursor.fetchall() if it[0] in self.sources]

    def read_keys(self, source: Source, ids: Set[str], block: Block) -> None:
        """Reads rows, and adds what differs to a block. If the table can't be read, it is left as it was, and noted again."""
        try:
            with Savepoint(self.cursor, source.search_path):
                rows = self.rows(source, ids)
        except psycopg2.Error as error:
            if self.cursor.connection.closed:
                raise
            self.change.broken[source.source] = first_line(error)
            if not self.is_preview:
                self.cursor.execute("""insert into olr_keep.note (source, key, who)
                    select %s, key, session_user from unnest(%s::text[]) as key""", (source.source, text_array(ids)))
            return
        self.sort_out(source, ids, rows, block)

    def rows(self, source: Source, ids: Set[str]) -> Dict[str, List[StreetRow]]:
        """The rows of these ids, as lists by street. A row that can't be read alone is unfit; if none can be read, this fails."""
        try:
            with Savepoint(self.cursor):
                return self.fetch(source, ids)
        except psycopg2.Error as error:
            if self.cursor.connection.closed:
                raise
            if len(ids) == 1:
                self.fetch(source, set())
                street, place = source.prefix + next(iter(ids)), self.somewhere(source, where_ids(source), ids)
                return {street: [StreetRow(source.source, 0, 0, Unfit(first_line(error), place))]}
        ordered = sorted(ids)
        half = len(ordered) // 2
        return {**self.rows(source, set(ordered[:half])), **self.rows(source, set(ordered[half:]))}

    def fetch(self, source: Source, ids: Set[str]) -> Dict[str, List[StreetRow]]:
        """The rows of these ids, as lists by street."""
        self.cursor.execute(
            f"""select street, digest, shape, name, class, form, direction, ST_GeometryType(geom), ST_SRID(geom),
                ST_AsBinary(olr_keep.degrees(geom), 'NDR')
            from ({row_query(source, where_ids(source))}) as row""",
            {"prefix": source.prefix, "ids": text_array(ids)})
        found: Dict[str, List[StreetRow]] = {}
        for street, digest, shape, name, frc, fow, direction, kind, srid, binary in self.cursor:
            read = street_of(frc, fow, direction, kind, srid, None if binary is None else bytes(binary))
            row = StreetRow(source.source, digest, shape, read, name)
            found.setdefault(street, []).append(row)
        return found

    def sort_out(self, source: Source, ids: Set[str], rows: Mapping[str, List[StreetRow]], block: Block) -> None:
        """Adds the streets that differ to a block, and writes which ids another table has."""
        streets = [source.prefix + it for it in sorted(ids)]
        known, taken = self.known(streets, block), []
        for street in streets:
            fate = fate_of(source.source, known.get(street), rows.get(street, ()))
            if fate is Fate.GONE:
                block.gone.add(street)
            elif fate is Fate.TAKEN:
                taken.append(street)
            elif fate is Fate.CHANGED:
                block.gone.discard(street)
                block.rows[street] = changed(source.source, rows[street])
                if is_plain(known.get(street), block.rows[street]):
                    block.plain.add(street)
        self.write_taken(source, streets, {it: rows[it] for it in taken})

    def known(self, streets: Sequence[str], block: Block) -> Dict[str, LastRead]:
        """What was read of these streets last, or in this block from another table."""
        found = {}
        if self.has_streets:
            self.cursor.execute("""select street, source, digest, shape, class is not null from olr_keep.street
                where street = any(%s::text[])""", (text_array(streets),))
            found = {street: LastRead(*rest) for street, *rest in self.cursor if street not in block.gone}
        found.update((it, LastRead(block.rows[it].source, 0, 0, False)) for it in streets if it in block.rows)
        return found

    def write_taken(self, source: Source, streets: Sequence[str], taken: Mapping[str, Sequence[StreetRow]]) -> None:
        """Writes which streets of a table are left out since another table has their id."""
        self.cursor.execute("delete from olr_keep.problem where kind = 'same id' and source = %s and street = any(%s::text[])",
                            (source.source, text_array(streets)))
        words = f"another table has a street with the same id: that of {source.streets} is left out; a prefix tells them apart"
        for street, rows in taken.items():
            self.cursor.execute("insert into olr_keep.problem (kind, source, street, words, geom) values ('same id', %s, %s, %s, %s)",
                                (source.source, street, words, point(place_in(rows[0]))))


def near_to(transactions: Iterable[str], cells: Mapping[str, Set[Cell]]) -> Set[Cell]:
    """The cells near the streets of transactions."""
    return set().union(*(around(cell) for cell in set().union(*(cells.get(tx, ()) for tx in transactions))))


def away(small: Iterable[str], cells: Mapping[str, Set[Cell]], near: Set[Cell]) -> Set[str]:
    """Those of some transactions whose streets are in no cell of these. One that has no street may be anywhere."""
    return {tx for tx in small if cells.get(tx) and near.isdisjoint(cells[tx])}


def fate_of(source: int, known: Optional[LastRead], rows: Sequence[StreetRow]) -> Fate:
    """What has become of a street of this source, whose rows these are."""
    is_mine = known is None or known.source in (source, None)
    if not rows:
        return Fate.GONE if known and is_mine else Fate.SAME
    if not is_mine:
        return Fate.TAKEN
    if len(rows) == 1 and known and known.digest == rows[0].digest and rows[0].digest:
        return Fate.SAME
    return Fate.CHANGED


def changed(source: int, rows: Sequence[StreetRow]) -> StreetRow:
    """The row of a street; with two rows it is unfit."""
    return rows[0] if len(rows) == 1 else StreetRow(source, 0, 0, Unfit("another street has the same id", place_in(rows[0])))


def place_in(row: StreetRow) -> Optional[Place]:
    """Where a street begins, or None if that is nowhere."""
    return degrees(row.street.parts[0][0]) if isinstance(row.street, Street) else row.street.place


def where_ids(source: Source) -> str:
    """The condition for the rows with these ids. It is to be run with parameters."""
    return f"where ({source.id})".replace("%", "%%") + f" = any(%(ids)s::text[]::{source.id_type}[])"


def is_nameless(key: str) -> bool:
    """Whether this can't be the id of a street."""
    return not 1 <= len(key.encode("utf-8", "surrogateescape")) <= LONGEST_ID


def is_plain(known: Optional[LastRead], row: StreetRow) -> bool:
    """Whether only the class, the form or the name of a street is another one."""
    return known is not None and known.is_fit and known.shape == row.shape and isinstance(row.street, Street)
