"""What the program's record `ambiguous` says of the strings, in words with streets."""
from __future__ import annotations

from typing import Any, Dict, List, Mapping, NamedTuple, Sequence

from ..sql import copy, number_array, text_array
from .program import LiveProgram

KINDS = {
    "sector": "another line of street {} has its class, form and bearing sector",
    "bearing": "another line of street {} has nearly its direction",
    "node": "a line at the node {} may be taken for it",
}


class Obstacle(NamedTuple):
    """What may be taken at a location reference point: the number of the point from 0, a kind, and a line or a node."""

    point: int
    kind: str
    number: int


def obstacles(program: LiveProgram) -> Dict[str, List[Obstacle]]:
    """What the program names, by path."""
    found: Dict[str, List[Obstacle]] = {}
    for line in program.carry_out(b"ambiguous\n", 1):
        name, point, kind, number = line.split(",")
        found.setdefault(name, []).append(Obstacle(int(point), kind, int(number)))
    return found


def named_places(cursor: Any, named: Mapping[str, Sequence[Obstacle]]) -> Dict[str, Dict[str, str]]:
    """The obstacles of each path in words, with the streets and nodes of the map as it is, and where each is, as EWKT."""
    numbers = {is_node: {it.number for found in named.values() for it in found if (it.kind == "node") is is_node}
               for is_node in (False, True)}
    cursor.execute("select line, street, ST_AsEWKT(ST_StartPoint(geom)) from olr_keep.line where line = any(%s::bigint[])",
                   (number_array(numbers[False]),))
    there = {(False, line): (street, place) for line, street, place in cursor}
    cursor.execute("""select node, format('%%s,%%s', round(ST_X(geom)::numeric, 7), round(ST_Y(geom)::numeric, 7)), ST_AsEWKT(geom)
        from olr_keep.node where node = any(%s::bigint[])""", (number_array(numbers[True]),))
    there.update({(True, node): (name, place) for node, name, place in cursor})
    found: Dict[str, Dict[str, str]] = {}
    for path, several in named.items():
        for it in several:
            name, place = there[it.kind == "node", it.number]
            found.setdefault(path, {})[f"point {it.point}: {KINDS[it.kind].format(name)}"] = place
    return found


def write_ambiguities(cursor: Any, program: LiveProgram) -> None:
    """Writes which published strings are ambiguous, and why: what differs from what is written. The program has the map and the
    paths of the tables."""
    cursor.execute("select name from olr_keep.waiting")
    waiting = {it for (it,) in cursor}
    named = named_places(cursor, {name: it for name, it in obstacles(program).items() if name not in waiting})
    rows = {(name, words): place for name, found in named.items() for words, place in found.items()}
    cursor.execute("select name, words from olr_keep.ambiguity")
    known = set(cursor.fetchall())
    gone, new = known - rows.keys(), rows.keys() - known
    cursor.execute("delete from olr_keep.ambiguity using unnest(%s::text[], %s::text[]) as gone(name, words)"
                   " where ambiguity.name = gone.name and ambiguity.words = gone.words",
                   (text_array(it[0] for it in gone), text_array(it[1] for it in gone)))
    copy(cursor, "ambiguity", "name, words, geom", sorted((*it, rows[it]) for it in new))
