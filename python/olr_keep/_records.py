"""The text of records."""
import decimal
import math
import numbers
import operator
import re
from typing import Iterable, SupportsIndex, Tuple, Union

# Degrees: a number, also of numpy or a fraction, which is rounded to seven decimals, or a text or decimal, which is used as it is.
Degrees = Union[float, int, str, decimal.Decimal, numbers.Real]
# The shape points of a line: the distance of each from the line's start, in decimetres, and its longitude and latitude.
Shape = Iterable[Tuple[int, Degrees, Degrees]]

QUOTES = re.compile(rb'"+')
HELD = re.compile(rb"held,([0-9]+)\n")
NAME = re.compile(r'[^",\r\n]+')


def bytes_of(record: Union[str, bytes, bytearray, memoryview]) -> bytes:
    """The bytes of a record. Raises TypeError for what is neither text nor bytes."""
    if isinstance(record, str):
        return record.encode("utf-8", "surrogateescape")
    if isinstance(record, (bytes, bytearray, memoryview)):
        return bytes(record)
    raise TypeError(f"a record is str or bytes, not {type(record).__name__}")


def is_one_record(line: bytes) -> bool:
    """Whether these bytes are one record on one line, without its line end: neither empty nor with an open quote. A field that begins
    with a quote is open until an odd number of quotes in a row; then text may follow. Other fields may have quotes."""
    if not line or b"\n" in line or b"\r" in line:
        return False
    is_open = False
    for run in QUOTES.finditer(line):
        at, end = run.span()
        if (end - at) % 2 and (is_open or not at or line[at - 1 : at] == b","):
            is_open = not is_open
    return not is_open


def held_after(sent: bytes, replies: bytes, held: int) -> int:
    """How many changes the open batch holds after these replies, if it held so many before."""
    if sent.rstrip() == b"begin" and replies == b"ok,0\n":
        return 0
    at = replies.rfind(b"held,")
    found = HELD.match(replies, at) if at == 0 or replies[at - 1 : at] == b"\n" else None
    return int(found[1]) if found else held


def number(value: SupportsIndex) -> str:
    """A whole number. Raises TypeError for what is none, such as a float or True."""
    if isinstance(value, bool):
        raise TypeError("a whole number is no bool")
    return str(operator.index(value))


def degrees(value: Degrees) -> str:
    """A coordinate. Raises ValueError for a number that is not finite."""
    if isinstance(value, str):
        return name(value)
    if isinstance(value, decimal.Decimal):
        return f"{value:f}"
    if isinstance(value, bool) or not isinstance(value, numbers.Real):
        raise TypeError(f"degrees are a number or a text, not {type(value).__name__}")
    if isinstance(value, numbers.Integral):
        return str(int(value))
    if not math.isfinite(value):
        raise ValueError(f"not degrees: {value}")
    text = f"{float(value):.7f}".rstrip("0").rstrip(".")
    return "0" if text == "-0" else text


def name(text: str) -> str:
    """A text as one field. One that the program would read as several fields or records is quoted, and then rejected."""
    if not isinstance(text, str):
        raise TypeError(f"a name is str, not {type(text).__name__}")
    return text if NAME.fullmatch(text) else '"' + text.replace('"', '""') + '"'


def shape_fields(shape: Shape) -> str:
    """The fields of shape points, each with a comma before it."""
    return "".join(f",{number(at)},{degrees(lon)},{degrees(lat)}" for at, lon, lat in shape)


def node(word: str, node_number: int, lon: Degrees, lat: Degrees) -> str:
    """A record `node` or `move`."""
    return f"{word},{number(node_number)},{degrees(lon)},{degrees(lat)}"


def line(line_number: int, start: int, end: int, frc: int, fow: int, length: int, shape: Shape) -> str:
    """A record `line`."""
    ends = f"{number(start)},{number(end)}"
    return f"line,{number(line_number)},{ends},{number(frc)},{number(fow)},{number(length)}{shape_fields(shape)}"


def set_line(line_number: int, frc: int, fow: int, length: int, shape: Shape) -> str:
    """A record `set-line`."""
    return f"set-line,{number(line_number)},{number(frc)},{number(fow)},{number(length)}{shape_fields(shape)}"


def path(word: str, path_name: str, lines: Iterable[int], positive: int, negative: int) -> str:
    """A record `path` or `repath`."""
    return ",".join([word, name(path_name), number(positive), number(negative), *map(number, lines)])
