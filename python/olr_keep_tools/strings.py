"""What strings say: location reference points (LRPs) and offsets, in degrees, by the White Paper's binary format. The program reads
the strings (`explained`), or, where receivers are tried out, this module does (`read_reference`).
"""
import base64
import binascii
import os
from typing import Dict, Iterable, List, NamedTuple, Optional, Tuple, Union

from .command import USAGE, Failure
from .program import Program, program_name

STEP_24 = 360 / 2**24  # degrees, the step of the first point's coordinates
STEP_16 = 1e-5  # degrees, the step of a further point's coordinates
SECTOR = 11.25  # degrees of a bearing's sector
STEP = 58.6  # metres of a step of the distance to the next point
Share = Tuple[float, float]  # the least and the greatest share of a leg

CLASSES = ("main road", *(f"{it} class road" for it in ("first", "second", "third", "fourth", "fifth", "sixth", "other")))
FORMS = ("undefined", "motorway", "multiple carriageway", "single carriageway", "roundabout", "traffic square", "slip road",
         "other")
COMPASS = ("N", "NNE", "NE", "ENE", "E", "ESE", "SE", "SSE", "S", "SSW", "SW", "WSW", "W", "WNW", "NW", "NNW")
CAUSES = {
    "1": "its number of bytes is that of no line location",
    "2": "its first byte is not the status byte of version 3 with attributes",
    "3": "its offset flags ask for another number of bytes",
    "4": "a reserved bit is set",
    "6": "it is not base64 with padding",
}


class TextError(Failure):
    """A text that is not a line location of version 3."""

    def __init__(self, text: str):
        super().__init__(USAGE, text)


class Onward(NamedTuple):
    """What a point says of the way to the next one: the lowest class (LFRCNP), and the distance in steps (DNP)."""

    lfrcnp: int
    dnp: int

    @property
    def metres(self) -> float:
        """The middle of the step of the distance."""
        return (self.dnp + 0.5) * STEP


class Point(NamedTuple):
    """A location reference point in degrees; the last one has nothing onward."""

    lon: float
    lat: float
    frc: int
    fow: int
    sector: int
    onward: Optional[Onward] = None

    @property
    def bearing(self) -> float:
        """The middle of the bearing's sector, in degrees clockwise from north."""
        return (self.sector + 0.5) * SECTOR

    @property
    def compass(self) -> str:
        """The nearest of the sixteen winds of the compass."""
        return COMPASS[round(self.bearing / 22.5) % 16]


class Reference(NamedTuple):
    """The contents of a string: its LRPs, and its offsets in 256ths of the first and of the last leg."""

    points: Tuple[Point, ...]
    positive: Optional[int]
    negative: Optional[int]

    @property
    def shares(self) -> Tuple[Share, Share]:
        """The least and the greatest share of the first leg, and of the last one, that is cut off."""
        return share(self.positive), share(self.negative)


def share(byte: Optional[int]) -> Share:
    """The bounds of the share of a leg that the byte of an offset stands for; none is cut off without one."""
    return (0, 0) if byte is None else (byte / 256, (byte + 1) / 256)


def absolute(steps: int) -> float:
    """Degrees of a coordinate in 24-bit steps: the middle of what it stands for."""
    return (steps - (steps > 0) / 2 + (steps < 0) / 2) * STEP_24


def reference_of(rows: Iterable[Tuple[str, List[int]]]) -> Reference:
    """The reference of the lines of a reply to `explain`, each a word with numbers, by the White Paper's formulas for absolute and
    relative coordinates."""
    points: List[Point] = []
    offsets: Dict[str, int] = {}
    for word, (x, *rest) in rows:
        if not rest:
            offsets[word] = x
            continue
        y, frc, fow, *more = rest
        onward = None if word == "last" else Onward(more.pop(0), more.pop())
        lon, lat = absolute(x), absolute(y)
        if word != "first":
            lon, lat = points[-1].lon + x * STEP_16, points[-1].lat + y * STEP_16
        points.append(Point(lon, lat, frc, fow, more[0], onward))
    return Reference(tuple(points), offsets.get("positive"), offsets.get("negative"))


class Unreadable(NamedTuple):
    """Why a text is not a line location."""

    why: str


def reading(keep: Program, text: str) -> Union[Reference, Unreadable]:
    """The reference of a string, or why it has none, by a running program."""
    if "\n" in text or "\r" in text:
        return Unreadable("a line end is within it")
    quoted = os.fsencode(text).decode("utf-8", "replace").replace('"', '""')
    reply = keep.ask(f'explain,"{quoted}"')
    if not reply.accepted:
        return Unreadable(CAUSES.get(reply.rest.rpartition(",")[2], reply.head))
    rows = (line.split(",") for line in reply.lines)
    return reference_of((word, list(map(int, numbers))) for word, *numbers in rows)


def explained(texts: Iterable[str]) -> Dict[str, Union[Reference, Unreadable]]:
    """The reference of each string, or why it has none. One run of the program reads all strings."""
    with Program([program_name()]) as keep:
        return {text: reading(keep, text) for text in texts}


def read_reference(text: str) -> Reference:
    """The reference in a base64 text, read without the program."""
    try:
        data = base64.b64decode(text.encode(), validate=True)
    except (ValueError, binascii.Error):
        raise TextError(f"{text}: not base64") from None
    between, more = divmod(len(data) - 16, 7)
    if len(data) < 16 or more > 2 or data[0] != 0x0B:
        raise TextError(f"{text}: not a line location of version 3")
    size = len(data) - more
    flags = data[size - 1] >> 5 & 3
    if bin(flags).count("1") != more:
        raise TextError(f"{text}: its offset flags and its length disagree")
    rows = [("first", [signed(data[1:4]), signed(data[4:7]), *attributes(data[7:10])])]
    for at in range(10, 10 + 7 * between, 7):
        rows.append(("next", [signed(data[at : at + 2]), signed(data[at + 2 : at + 4]), *attributes(data[at + 4 : at + 7])]))
    last = data[size - 6 : size]
    rows.append(("last", [signed(last[:2]), signed(last[2:4]), *attributes(last[4:])]))
    words = [word for word, bit in (("positive", 2), ("negative", 1)) if flags & bit]
    return reference_of([*rows, *((word, [byte]) for word, byte in zip(words, data[size:]))])


def signed(data: bytes) -> int:
    """A whole number in two's complement."""
    return int.from_bytes(data, "big", signed=True)


def attributes(data: bytes) -> List[int]:
    """The numbers in the two or three bytes of a point's attributes, in the order of `explain`."""
    frc, fow, sector = data[0] >> 3 & 7, data[0] & 7, data[1] & 31
    return [frc, fow, sector] if len(data) == 2 else [frc, fow, data[1] >> 5, sector, data[2]]
