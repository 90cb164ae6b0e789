"""The map of a first load: all streets are read before any is cut, so that nothing of the map is read again."""
from __future__ import annotations

import contextlib
import io
import marshal
from collections import Counter
from functools import partial
from typing import Any, Callable, Dict, Iterator, List, Mapping, Sequence, Set, Tuple

from ..forked import in_order
from ..sql import ESCAPES, point_hex, psycopg2
from ..streets import WAYS, Street, Stretches, lines_of, stretches_of, wkb_hex
from .map import LINE_COLUMNS, NODE_COLUMNS, Affected, MapUpdate, Numbers
from .read import Block
from .session import Savepoint

NODES, BLOCKS = 50_000, 3  # nodes, and blocks of streets, that are written at once


class PlaceFile:
    """A file whose lines are places."""

    def __init__(self) -> None:
        self.found: Set[int] = set()

    def write(self, line: bytes) -> None:
        """Adds a place."""
        self.found.add(int(line))


class FirstLoad:
    """The map of a first load, in two passes. The streets are kept as bytes meanwhile, some hundred for each."""

    def __init__(self, cursor: Any, numbers: Numbers, affected: Affected) -> None:
        self.cursor, self.numbers, self.affected = cursor, numbers, affected
        self.kept: List[bytes] = []
        self.node_at: Dict[int, int] = {}
        self.ending: Counter[int] = Counter()  # the stretches that end at each place
        self.has_indexes = True
        self.drop_indexes()

    def drop_indexes(self) -> None:
        """Drops the indexes of the map until all is written, if nobody reads it, and this role may."""
        try:
            with Savepoint(self.cursor):
                self.cursor.execute("select olr_keep.set_indexes(false)")
                self.has_indexes = False
        except psycopg2.Error:
            if self.cursor.connection.closed:
                raise

    def read(self, block: Block) -> None:
        """Writes the streets of a block, and keeps those that can be lines."""
        update = MapUpdate(self.cursor, block, self.numbers, self.affected, 0.0, False)
        self.affected.keys |= update.keys
        update.add_streets()
        update.write_unfit()
        self.kept.append(marshal.dumps([(key, *it) for key, it in update.after.items()]))

    def cut(self, tell: Callable[[int], None]) -> None:
        """Cuts all streets at the places that they share, and writes nodes and lines, whose rows other processes make; `tell` gets
        how many are cut."""
        for table, columns, works in ("line", LINE_COLUMNS, self.line_works(tell)), ("node", NODE_COLUMNS, self.node_works()):
            with contextlib.closing(in_order(works, self.tick)) as made:
                for rows in made:
                    self.cursor.copy_expert(f"copy olr_keep.{table} ({columns}) from stdin", io.StringIO(rows), 1 << 18)
        if not self.has_indexes:
            self.cursor.execute("select olr_keep.set_indexes(true)")

    def line_works(self, tell: Callable[[int], None]) -> Iterator[Callable[[], str]]:
        """What makes the rows of the lines, block by block."""
        places, done = PlaceFile(), 0
        self.cursor.copy_expert("copy (select place from olr_keep.vertex group by place having count(*) > 1) to stdout", places)
        self.kept.reverse()
        while self.kept:
            blocks = [marshal.loads(self.kept.pop()) for _ in range(min(BLOCKS, len(self.kept)))]
            streets = {key: Street(*it) for block in blocks for key, *it in block}
            cut = {key: stretches_of(it, places.found) for key, it in streets.items()}
            self.number_nodes(streets, cut)
            count = sum(len(WAYS[it.direction]) * sum(map(len, cut[key])) for key, it in streets.items())
            yield partial(line_rows, streets, cut, self.node_at, self.numbers.take("line", count))
            done += len(streets)
            tell(done)

    def number_nodes(self, streets: Mapping[str, Street], cut: Mapping[str, Stretches]) -> None:
        """Numbers the nodes of some streets, and counts how many stretches end at each."""
        ends = [part[k] for key, street in streets.items() for part, pairs in zip(street.parts, cut[key])
                for pair in pairs for k in pair]
        self.ending.update(ends)
        fresh = sorted(it for it in {*ends} if it not in self.node_at)
        self.node_at.update(zip(fresh, self.numbers.take("node", len(fresh))))

    def node_works(self) -> Iterator[Callable[[], str]]:
        """What makes the rows of the nodes, block by block."""
        nodes = [*self.node_at.items()]
        for first in range(0, len(nodes), NODES):
            yield partial(node_rows, nodes[first : first + NODES], self.ending)

    def tick(self) -> None:
        """Asks something, so that the session isn't taken for one that is stopped."""
        self.cursor.execute("select 1")


def line_rows(streets: Mapping[str, Street], cut: Mapping[str, Stretches], node_at: Mapping[int, int],
              numbers: Sequence[int]) -> str:
    """The rows of the lines of some streets, as COPY reads them."""
    rows, number = [], iter(numbers)
    for key, street in streets.items():
        name = key.translate(ESCAPES)
        for _, part, k, along, start, end, nth, length, fields, places in lines_of(key, street, cut[key], node_at):
            rows.append(f"{next(number)}\t{name}\t{part}\t{k}\t{along}\t{start}\t{end}\t{nth}\t{length}\t{fields}\t"
                        f"{wkb_hex(places)}\n")
    return "".join(rows)


def node_rows(nodes: Sequence[Tuple[int, int]], ending: Mapping[int, int]) -> str:
    """The rows of nodes with their places, as COPY reads them."""
    return "".join([f"{node}\t{place}\t{point_hex(place)}\t{ending[place] == 1}\n" for place, node in nodes])


def is_first(cursor: Any) -> bool:
    """Whether there is no map and no path yet."""
    tables = "street", "vertex", "node", "line", "string"
    cursor.execute("select " + " and ".join(f"not exists (select from olr_keep.{it})" for it in tables))
    return bool(cursor.fetchone()[0])
