"""Explains why a record was rejected: the field, if the record and its fault show it, and what to do.

    advice("line,1,2,3,9,3,10", "fault,2,Range")
    'fault,2,Range: line,1,2,3,9,3,10: FRC is 9, and has to be 0 to 7'
"""
import csv
import re
from collections import Counter
from typing import Container, List, NamedTuple, Optional, Pattern, Sequence, Tuple

from .replies import is_one_record

NUMBER = re.compile("[0-9]+", re.ASCII)
DEGREES = re.compile("-?[0-9]{1,3}([.][0-9]{1,7})?", re.ASCII)
NAME = re.compile("[A-Za-z0-9_.-]{1,64}")
TEXT = re.compile(".*", re.DOTALL)
WORDS = re.compile("[A-Za-z_][A-Za-z_ -]*")
MOST = 4294967295



class Kind(NamedTuple):
    """A kind of field: its form, the text for that form, and the bounds of its number, if it is one."""

    form: Pattern[str]
    text: str
    bounds: Optional[Tuple[float, float]] = None


KINDS = {
    **dict.fromkeys(("NODE", "LINE", "FROM", "TO"), Kind(NUMBER, "a number", (1, MOST))),
    **dict.fromkeys(("FRC", "FOW", "CLASSES"), Kind(NUMBER, "a number", (0, 7))),
    "ROUTES": Kind(NUMBER, "a number of thousandths", (0, 1000)),
    **dict.fromkeys(("POS", "NEG", "COUNT"), Kind(NUMBER, "a number", (0, MOST))),
    "LEN": Kind(NUMBER, "a number of decimetres", (1, 1000000)),
    "AT": Kind(NUMBER, "a number of decimetres", (1, 999999)),
    "LON": Kind(DEGREES, "degrees with at most 7 decimals", (-180, 179.9999)),
    "LAT": Kind(DEGREES, "degrees with at most 7 decimals", (-89.9999, 89.9999)),
    "NAME": Kind(NAME, "1 to 64 of the letters a to z and A to Z, digits, - _ ."),
    "TEXT": Kind(TEXT, "text"),
}

# The fields of each record, and those that may be repeated at its end.
FORMS = {
    "node": ("NODE LON LAT", ""),
    "move": ("NODE LON LAT", ""),
    "drop-node": ("NODE", ""),
    "line": ("LINE FROM TO FRC FOW LEN", "AT LON LAT"),
    "set-line": ("LINE FRC FOW LEN", "AT LON LAT"),
    "drop-line": ("LINE", ""),
    "path": ("NAME POS NEG", "LINE"),
    "repath": ("NAME POS NEG", "LINE"),
    "drop-path": ("NAME", ""),
    "margin": ("ROUTES CLASSES", ""),
    "show": ("NAME", ""),
    "show-node": ("NODE", ""),
    "show-line": ("LINE", ""),
    "show-margin": ("", ""),
    "depends": ("NODE", "NODE"),
    "report": ("", ""),
    "dump": ("", ""),
    "compact": ("", ""),
    "preview": ("", ""),
    "ambiguous": ("", "NAME"),
    "explain": ("TEXT", ""),
    "begin": ("", ""),
    "commit": ("COUNT", ""),
    "abort": ("", ""),
}

AT_MOST_ONE = ("ambiguous",)  # records whose last field may be left out, but not repeated

WHAT_TO_DO = {
    3: "node {1} is in the map: move it, unless this was sent twice",
    4: "a node that it names is not in the map: send that node first",
    5: "line {1} is in the map: set-line changes it, unless this was sent twice",
    6: "line {1} is not in the map: the edit is for another map, or was sent twice",
    7: "a line enters or leaves node {1}: drop the lines first",
    8: "its shape points have to be at most 1,000, at ascending distances, less than the length",
    9: "path {1} is registered: repath changes it, unless this was sent twice",
    10: "path {1} is not registered: path registers it",
    11: "a path has 1 to 10,000 lines, none of them twice",
    12: "it is not an OpenLR string that olr-keep writes",
    13: "out of memory: send it again when there is more",
    14: "a batch is open: commit or abort it first",
    15: "no batch is open: begin was rejected or not sent",
    16: "the batch holds another number of changes and stays open: see which one was rejected, then abort or commit",
    17: "the batch is full: commit it, and begin another one",
    18: "the map or a path has no record",
}
CAUSES = {1: "its length is wrong", 2: "its status byte is wrong", 3: "its offset flags are wrong"}
CAUSES |= {4: "a reserved bit is set", 6: "it is not base64"}


def fields_of(record: str) -> List[str]:
    """The fields of a record of one line."""
    csv.field_size_limit(max(1, len(record)))
    return next(csv.reader([record.replace("\0", "\ufffd")]))


def named(fields: List[str]) -> Optional[List[Tuple[str, str]]]:
    """The fields after the command word with the names of their kinds, or None if their number is wrong."""
    fixed, repeated = (it.split() for it in FORMS[fields[0]])
    more = len(fields) - 1 - len(fixed)
    if more < 0 or more % max(1, len(repeated)) or (more and not repeated) or (more > 1 and fields[0] in AT_MOST_ONE):
        return None
    return list(zip(fixed + repeated * (more // max(1, len(repeated))), fields[1:]))


def other_table(fields: Sequence[str]) -> str:
    """What a row of another table than one of records is, if that can be seen: with other separators, or the names of columns."""
    for sign, name in ((";", "semicolons"), ("\t", "tabs")):
        if sign in fields[0]:
            return f": fields are separated by commas, not by {name}"
    if len(fields) > 1 and all(map(WORDS.fullmatch, fields)):
        return ": a row of the names of columns is no record, leave it out"
    return ""


def wrong_form(fields: List[str]) -> str:
    """Why fields are not a record."""
    word = fields[0]
    if word not in FORMS:
        near = word.strip(" \t\ufeff").lower()
        hint = f": write {near}, in lower case without spaces" if near in FORMS else other_table(fields)
        return f"{word[:40]!r} is no command word{hint}"
    fixed, repeated = (",".join(it.split()) for it in FORMS[word])
    many = "" if word in AT_MOST_ONE else "*"
    form = ",".join(filter(None, [word, fixed])) + (f"[,{repeated}]{many}" if repeated else "")
    if (kinds := named(fields)) is None:
        return f"its form is {form}, and it has {len(fields)} fields"
    for kind, field in kinds:
        if not KINDS[kind].form.fullmatch(field):
            return f"{kind} is {field[:40]!r}, and has to be {KINDS[kind].text}{other_table(fields)}"
    return f"its form is {form}"


def out_of_range(fields: List[str]) -> str:
    """Which field is out of its bounds."""
    if fields[0] == "depends" and len(fields) > 10001:
        return f"it has {len(fields) - 1} nodes, and 10,000 at most are allowed"
    for kind, field in named(fields) or []:
        bounds = KINDS[kind].bounds
        if bounds and not bounds[0] <= (float(field) if kind in ("LON", "LAT") else int(field[:30])) <= bounds[1]:
            return f"{kind} is {field[:40]}, and has to be {bounds[0]} to {bounds[1]}"
    return "a value is out of its bounds"


def bad_shape(fields: List[str]) -> str:
    """Which shape distance is wrong."""
    first = 7 if fields[0] == "line" else 5
    at = list(map(int, fields[first::3]))
    if len(at) > 1000:
        return f"it has {len(at)} shape points, and 1,000 at most are allowed"
    for k, (before, here) in enumerate(zip([0, *at], at), 1):
        if here <= before:
            return f"AT of shape point {k} is {here}, and has to be more than {before}"
    return f"AT of the last shape point is {at[-1]}, and has to be less than LEN, {fields[first - 1]}"


def bad_path(fields: List[str]) -> str:
    """Why the lines of a path are not accepted."""
    lines = list(map(int, fields[4:]))
    if not 1 <= len(lines) <= 10000:
        return f"it has {len(lines)} lines, and has to have 1 to 10,000"
    twice = next(it for it, times in Counter(lines).items() if times > 1)
    return f"line {twice} is in it twice"


def reason(record: str, number: int, rest: str, nodes: Optional[Container[int]]) -> str:
    """What is wrong with a record, as a text."""
    if not is_one_record(record):
        return 'a quote " is open at the end of the line' if '"' in record else "a line end is within the record"
    fields = fields_of(record)
    if number in (1, 2, 8, 11):
        return {1: wrong_form, 2: out_of_range, 8: bad_shape, 11: bad_path}[number](fields)
    if number == 4 and nodes is not None:
        named_nodes = {"line": fields[2:4], "depends": fields[1:]}.get(fields[0], fields[1:2])
        missing = [it for it in named_nodes if int(it) not in nodes]
        if missing:
            return f"node {missing[0]} is not in the map: send it first"
    if number == 12 and rest.isdigit():
        return f"{CAUSES.get(int(rest), rest)}: {WHAT_TO_DO[12]}"
    return WHAT_TO_DO.get(number, "").format(*fields)


def shown(record: str) -> str:
    """A record as a person reads it: at most 200 characters, with a mark for each that isn't printed."""
    text = "".join(it if it.isprintable() else "\ufffd" for it in record[:200])
    return text if len(record) <= 200 else f"{text}.. ({len(record)} characters)"


def advice(record: str, head: str, nodes: Optional[Container[int]] = None) -> str:
    """The fault, the record, and what is wrong with it; `nodes` are the numbers of the nodes in the map, if known."""
    _, number, *rest = head.split(",")
    why = reason(record, int(number), ",".join(rest[1:]), nodes)
    return f"{head}: {shown(record)}" + (f": {why}" if why else "")
