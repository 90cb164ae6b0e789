"""What a round of tools/live does to the map: the nodes and lines of the streets that differ, block by block."""
from __future__ import annotations

import math
from copy import copy as copy_of
from typing import Any, Callable, Collection, Dict, Iterable, List, Optional, Set, Tuple

from ..geo import METRES
from ..grid import Box, Cell
from ..sql import ESCAPES, copy, copy_lines, number_array, point, point_hex, text_array, update
from ..streets import Cut, Made, Old, Parts, Recut, Street, degrees, wkb_hex
from .cells import cell_of
from .read import Block

FEW = 100  # changed streets up to which each is sought among those of the paths by an index
FEW_LINES = 100  # changed lines up to which their paths are found by the index
MOST_CELLS = 20_000  # changed streets of a round of which cells are kept
GAP = 1.0  # metres between the end of a street and another street that are taken for a fault
LAST = (1 << 32) - 1  # the greatest number of a node or a line
NODE_COLUMNS = "node, place, geom, is_end"
LINE_COLUMNS = "line, street, part, k, along, from_node, to_node, nth, length, fields, geom"
BESIDE = " beside"  # after the kind of the last number of rounds beside another one
AHEAD = 1 << 24  # numbers of a preview beyond the last ones


class Numbers:
    """New numbers of nodes, lines, rounds and holds. They are taken when the round is published. A preview takes those that are
    `ahead` by so many, since a round that takes the same ones would wait for its end."""

    def __init__(self, cursor: Any, ahead: int = 0) -> None:
        self.cursor, self.suffix = cursor, ""
        cursor.execute("select kind, last from olr_keep.counter")
        found = dict(cursor.fetchall())
        self.before: Dict[str, int] = {kind: last for kind, last in found.items() if not kind.endswith(BESIDE)}
        self.last = {kind: max(last, found.get(kind + BESIDE, 0)) + ahead for kind, last in self.before.items()}

    def beside(self, cursor: Any) -> Numbers:
        """The same numbers for a round beside another one. It writes the last ones in rows of its own, so that none waits."""
        other = copy_of(self)
        other.cursor, other.suffix, other.before = cursor, BESIDE, dict(self.last)
        return other

    def take(self, kind: str, count: int) -> List[int]:
        """So many new numbers. When the greatest is reached, they are those that the map doesn't have."""
        first = self.last[kind] + 1
        if first + count - 1 <= LAST or kind not in ("node", "line"):
            self.last[kind] += count
            return list(range(first, first + count))
        self.last[kind] = LAST
        self.cursor.execute(f"""select number from generate_series(1::bigint,
                (select count(*) from olr_keep.{kind}) + %s) as number
            where not exists (select from olr_keep.{kind} where {kind} = number) order by number limit %s""", (count, count))
        return [it for (it,) in self.cursor]

    def write(self) -> None:
        """Writes the last numbers."""
        for kind, last in self.last.items():
            if last != self.before[kind]:
                self.cursor.execute("""insert into olr_keep.counter (kind, last) values (%s, %s)
                    on conflict (kind) do update set last = excluded.last""", (kind + self.suffix, last))


class Affected:
    """What the blocks of a round do to the paths: their names, the streets that were edited, where they were, and the lines that
    are gone, lie elsewhere now or are of another street. `tick` is called between long steps."""

    def __init__(self, tick: Callable[[], None] = lambda: None) -> None:
        self.tick = tick
        self.names: Set[str] = set()
        self.keys: Set[str] = set()
        self.old_cells: Dict[str, Set[Tuple[int, int]]] = {}
        self.looked: Set[int] = set()
        self.boxes: List[Box] = []
        self.has_open: Optional[bool] = None
        self.cells: Optional[Set[Cell]] = None  # of the changed streets and of those beside them, if that is asked

    def are_open(self, cursor: Any) -> bool:
        """Whether some path isn't found as it was given, so that it matters where the changes are. It is asked once."""
        if self.has_open is None:
            cursor.execute("select exists (select from olr_keep.string where lost or found_elsewhere)")
            self.has_open = bool(cursor.fetchone()[0])
        return self.has_open


class MapUpdate:
    """The change of one block of streets. If it is one of many, open ends are sought after all of them."""

    def __init__(self, cursor: Any, block: Block, numbers: Numbers, affected: Affected, margin: float, is_one: bool) -> None:
        self.cursor, self.numbers, self.affected, self.margin, self.is_one = cursor, numbers, affected, margin, is_one
        self.plain = {key: block.rows[key] for key in block.plain}
        self.rows = {key: it for key, it in block.rows.items() if key not in block.plain}
        self.gone = block.gone
        self.keys = self.rows.keys() | self.gone
        self.after = {key: it.street for key, it in self.rows.items() if isinstance(it.street, Street)}
        self.records: List[str] = []

    def run(self) -> List[str]:
        """Writes the change to the tables. Returns the records."""
        self.affected.keys |= self.plain.keys() | self.keys
        if self.plain:
            self.set_attributes()
        if self.keys:
            self.read_old()
            self.affected.tick()
            cut = self.recut()
            self.affected.tick()
            self.find_affected(cut)
            self.write_streets()
            self.affected.tick()
            self.write_nodes(cut)
            self.write_lines(cut)
            self.write_unfit()
            if self.is_one:
                self.write_open_ends(cut)
        return self.records

    def set_attributes(self) -> None:
        """Streets of which only class, form or name differ: their lines stay as they are but for class and form."""
        rows = [(key, it.digest, it.source, street.frc, street.fow, it.name) for key, it in self.plain.items()
                if isinstance(street := it.street, Street)]
        update(self.cursor, """update olr_keep.street
            set digest = it.digest, source = it.source, class = it.class, form = it.form, name = it.name
            from (values %s) as it(street, digest, source, class, form, name) where street.street = it.street""", rows)
        self.cursor.execute("""update olr_keep.line
            set fields = class || ',' || form || substr(fields, length(substring(fields from '^[0-9]+,[0-9]+')) + 1)
            from olr_keep.street where street.street = line.street and street.street = any(%s::text[])
                and substring(fields from '^[0-9]+,[0-9]+') <> class || ',' || form
            returning line, fields""", (text_array(self.plain),))
        self.records += [f"set-line,{line},{fields}" for line, fields in sorted(self.cursor.fetchall())]
        if self.affected.are_open(self.cursor):
            self.cursor.execute("""select ST_XMin(geom), ST_YMin(geom), ST_XMax(geom), ST_YMax(geom) from olr_keep.line
                where street = any(%s::text[])""", (text_array(self.plain),))
            self.affected.boxes += map(self.widened, self.cursor.fetchall())

    def read_old(self) -> None:
        """Reads the streets as they were, and those beside them."""
        self.before = self.old_parts(self.keys)
        both = (parts for key in self.keys for parts in (self.before[key], self.after[key].parts if key in self.after else ()))
        self.touched = {place for parts in both for part in parts for place in part}
        self.cursor.execute("select distinct street from olr_keep.vertex where place = any(%s::bigint[])",
                            (number_array(self.touched),))
        beside = {it for (it,) in self.cursor} - self.keys
        if beside:
            self.before.update(self.old_parts(beside))
            self.cursor.execute("""select street, class, form, direction from olr_keep.street
                where street = any(%s::text[])""", (text_array(beside),))
            self.after.update((key, Street(frc, fow, direction, self.before[key])) for key, frc, fow, direction in self.cursor)
        self.cursor.execute("""select line, street, from_node, to_node, along, part, k, nth, fields from olr_keep.line
            where street = any(%s::text[]) order by line""", (text_array(self.before),))
        self.lines = [Old(*it) for it in self.cursor]

    def old_parts(self, keys: Iterable[str]) -> Dict[str, Parts]:
        """The vertices of streets as they were, as parts by key."""
        self.cursor.execute("""select street, part, place from olr_keep.vertex
            where street = any(%s::text[]) order by street, part, k""", (text_array(keys),))
        parts: Dict[str, Dict[int, List[int]]] = {key: {} for key in keys}
        for street, part, place in self.cursor:
            parts[street].setdefault(part, []).append(place)
        return {key: tuple(tuple(it[1]) for it in sorted(found.items())) for key, found in parts.items()}

    def recut(self) -> Cut:
        """The new cut."""
        places = {place for street in self.after.values() for part in street.parts for place in part}
        self.cursor.execute("""select distinct place from olr_keep.vertex where place = any(%s::bigint[])
            and not exists (select from unnest(%s::text[]) as known where known = street)""",
                            (number_array(places), text_array(self.before)))
        others = {it for (it,) in self.cursor}
        ends = {it for line in self.lines for it in (line.start, line.end)}
        self.cursor.execute("""select node, place from olr_keep.node where node = any(%s::bigint[])
            union select node, place from olr_keep.node where place = any(%s::bigint[])""",
                            (number_array(ends), number_array(places)))
        return Recut(self.before, self.after, self.lines, dict(self.cursor.fetchall()), others, self.numbers).run()

    # ---- the paths that it affects

    def find_affected(self, cut: Cut) -> None:
        """Adds the paths over lines that are gone or lie elsewhere, and those whose streets these are, before anything is
        written."""
        affected = self.affected
        if len(affected.keys) <= MOST_CELLS:
            affected.old_cells.update((key, {cell_of(*degrees(it)) for part in self.before[key] for it in part})
                                      for key in self.keys)
        if affected.cells is not None:
            several = [*self.before.values(), *(it.parts for it in self.after.values())]
            affected.cells.update(cell_of(*degrees(place)) for parts in several for part in parts for place in part)
        looked = {*cut.dropped}
        for number, (line, old) in cut.changed.items():
            is_elsewhere = is_moved(line, old) or line.start in cut.moved or line.end in cut.moved
            if is_elsewhere or (line.street, line.along) != (old.street, old.along):
                looked.add(number)
        affected.looked |= looked
        affected.boxes += self.boxes() if affected.are_open(self.cursor) else []
        self.cursor.execute("select exists (select from olr_keep.string)")
        if self.cursor.fetchone()[0]:
            affected.names |= self.over_lines(looked) | self.over_streets()

    def over_lines(self, numbers: Set[int]) -> Set[str]:
        """The paths over these lines."""
        if not numbers:
            return set()
        condition = "lines && %s::bigint[]" if len(numbers) <= FEW_LINES else \
            "exists (select from unnest(lines) as line where line = any(%s::bigint[]))"
        self.cursor.execute(f"select name from olr_keep.string where {condition}", (number_array(numbers),))
        return {it for (it,) in self.cursor}

    def over_streets(self) -> Set[str]:
        """The paths by these streets."""
        if len(self.keys) <= FEW:
            condition, keys = "streets && %s::text[]", [mark + it for it in self.keys for mark in ("", "<", ">")]
        else:
            condition, keys = "exists (select from unnest(streets) as one where ltrim(one, '<>') = any(%s::text[]))", [*self.keys]
        self.cursor.execute(f"select name from olr_keep.path where {condition}", (text_array(keys),))
        return {it for (it,) in self.cursor}

    def boxes(self) -> List[Box]:
        """The boxes of the changed streets as they were and as they are, with a margin."""
        both = [self.before[key] for key in self.keys] + [self.after[key].parts for key in self.keys if key in self.after]
        boxes = (box_of([place for part in parts for place in part]) for parts in both)
        return [self.widened(it) for it in boxes if it]

    def widened(self, box: Box) -> Box:
        """A box with the margin."""
        return box[0] - self.margin, box[1] - self.margin, box[2] + self.margin, box[3] + self.margin

    # ---- writing

    def write_streets(self) -> None:
        """Writes the changed streets and their vertices."""
        keys = text_array(self.keys)
        self.cursor.execute("delete from olr_keep.vertex where street = any(%s::text[])", (keys,))
        self.cursor.execute("delete from olr_keep.street where street = any(%s::text[])", (keys,))
        self.add_streets()

    def add_streets(self) -> None:
        """Adds the streets and their vertices."""
        rows, vertices = [], []
        for key, it in self.rows.items():
            street, name = self.after.get(key), key.translate(ESCAPES)
            rows.append((key, it.digest, it.source, *(street[:3] if street else (None, None, None)), it.shape, it.name))
            for part, places in enumerate(street.parts if street else ()):
                vertices += [f"{name}\t{part}\t{k}\t{place}\n" for k, place in enumerate(places)]
        copy(self.cursor, "street", "street, digest, source, class, form, direction, shape, name", rows)
        copy_lines(self.cursor, "vertex", "street, part, k, place", vertices)

    def write_nodes(self, cut: Cut) -> None:
        """Writes the nodes of a cut, and their records."""
        self.records += [f"drop-line,{it}" for it in cut.dropped]
        self.records += [f"node,{node},{record_place(place)}" for node, place in cut.new_nodes.items()]
        self.records += [f"move,{node},{record_place(place)}" for node, place in cut.moved.items()]
        self.cursor.execute("delete from olr_keep.node where node = any(%s::bigint[])", (number_array(cut.dropped_nodes),))
        update(self.cursor, """update olr_keep.node set place = it.place::bigint, geom = it.geom::geometry
            from (values %s) as it(node, place, geom) where node.node = it.node""",
               [(node, place, point_hex(place)) for node, place in cut.moved.items()])
        copy(self.cursor, "node", NODE_COLUMNS,
             ((node, place, point_hex(place), node in cut.ends) for node, place in cut.new_nodes.items()))
        self.cursor.execute("update olr_keep.node set is_end = not is_end where node = any(%s::bigint[]) and not is_end",
                            (number_array(cut.ends),))
        self.cursor.execute("update olr_keep.node set is_end = not is_end where node = any(%s::bigint[]) and is_end",
                            (number_array(cut.through),))

    def write_lines(self, cut: Cut) -> None:
        """Writes the lines of a cut, and their records, and then those of nodes that are gone."""
        self.cursor.execute("delete from olr_keep.line where line = any(%s::bigint[])", (number_array(cut.dropped),))
        self.records += [f"line,{number},{it.start},{it.end},{it.fields}" for number, it in cut.added.items()]
        columns, rows = LINE_COLUMNS, []
        for number, (line, old) in sorted(cut.changed.items()):
            is_other = line.fields != old.fields
            if is_other:
                self.records.append(f"set-line,{number},{line.fields}")
            at = old.street, old.part, old.k, old.along, old.nth
            if is_other or line.start in cut.moved or line.end in cut.moved or line[:4] + (line.nth,) != at:
                rows.append((number, *line[:9], wkb_hex(line.places)))
        update(self.cursor, f"""update olr_keep.line set ({columns}) = (it.line, it.street, it.part, it.k, it.along,
            it.from_node, it.to_node, it.nth, it.length, it.fields, it.geom::geometry)
            from (values %s) as it({columns}) where line.line = it.line""", rows)
        copy(self.cursor, "line", columns, ((number, *it[:9], wkb_hex(it.places)) for number, it in cut.added.items()))
        self.records += [f"drop-node,{node}" for node in cut.dropped_nodes]

    def write_unfit(self) -> None:
        """Writes which streets can't be lines."""
        self.cursor.execute("delete from olr_keep.problem where street = any(%s::text[]) and kind = 'street'",
                            (text_array(self.keys),))
        unfit = ((key, it.source, it.street) for key, it in self.rows.items() if not isinstance(it.street, Street))
        copy(self.cursor, "problem", "street, source, words, geom", ((*it, why.words, point(why.place)) for *it, why in unfit))

    def write_open_ends(self, cut: Cut) -> None:
        """Writes which ends of streets nearly touch another street: among the nodes of the lines that changed, and those near."""
        box = box_of(self.touched)
        if not box:
            return
        lines = {(it.street, it.part, it.k): number for number, it in cut.added.items()}
        lines.update(((it.street, it.part, it.k), number) for number, (it, _) in cut.changed.items())
        values = {**reach(max(abs(box[1]), abs(box[3]))), "nodes": number_array({*cut.ends, *cut.through, *cut.dropped_nodes}),
                  "lines": number_array(lines.values()), "w": box[0], "s": box[1], "e": box[2], "n": box[3]}
        self.cursor.execute(OPEN_ENDS.format(CHANGED_NODES), values)


def write_all_open_ends(cursor: Any) -> None:
    """Writes which ends of streets nearly touch another street, of the whole map."""
    cursor.execute("analyze olr_keep.node, olr_keep.line; select max(abs(ST_Y(geom))) from olr_keep.node where is_end")
    cursor.execute(OPEN_ENDS.format(ALL_NODES), reach(cursor.fetchone()[0] or 0.0))


def reach(lat: float) -> Dict[str, object]:
    """The distance at which another street is too near, in metres, and somewhat more in degrees, up to this latitude."""
    high = 1.5 * GAP / METRES
    return {"wide": high / max(0.01, math.cos(math.radians(lat))), "high": high, "gap": GAP}


CHANGED_NODES = """select unnest(%(nodes)s::bigint[])
    union select node from olr_keep.problem where node is not null
        and geom && ST_Expand(ST_MakeEnvelope(%(w)s, %(s)s, %(e)s, %(n)s, 4326), %(wide)s)
    union select node from olr_keep.line
        join olr_keep.node on is_end and node.geom && ST_Expand(line.geom, %(wide)s, %(high)s)
        where line = any(%(lines)s::bigint[])"""
ALL_NODES = """select node from olr_keep.node where is_end
    union select node from olr_keep.problem where node is not null"""
OPEN_ENDS = """with checked(node) as materialized ({}), gone as (
        delete from olr_keep.problem where node in (select node from checked)
    )
    insert into olr_keep.problem (kind, node, street, words, geom)
    select 'open end', node.node, own.street,
        format('an end is %%s m from street %%s, without a common vertex', round(far::numeric, 2), other.street), node.geom
    from checked join olr_keep.node on node.node = checked.node and is_end
    join lateral (
        select street from olr_keep.line where geom && node.geom and node.node in (from_node, to_node) limit 1
    ) as own on true
    join lateral (
        select street, ST_Distance(node.geom::geography, geom::geography) as far from olr_keep.line
        where geom && ST_Expand(node.geom, %(wide)s, %(high)s) and node.node not in (from_node, to_node)
        order by far limit 1
    ) as other on far < %(gap)s"""


def is_moved(line: Made, old: Old) -> bool:
    """Whether a line has another length or other shape points."""
    return line.fields.split(",", 2)[2] != old.fields.split(",", 2)[2]


def box_of(places: Collection[int]) -> Optional[Box]:
    """The least and greatest degrees of places, or None."""
    if not places:
        return None
    lons, lats = zip(*map(degrees, places))
    return min(lons), min(lats), max(lons), max(lats)


def record_place(place: int) -> str:
    """The two fields of a coordinate."""
    return "{:.7f},{:.7f}".format(*degrees(place))
