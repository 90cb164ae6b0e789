"""Replies, and what they say."""
import dataclasses
from typing import Dict, Iterator, List, Optional, Tuple

FIRST_STEP, NEXT_STEP = 360 / 2**24, 1e-5


@dataclasses.dataclass(frozen=True)
class Reply:
    """The reply to one record: `ok` with the lines that it counts, `held`, or `fault`."""

    word: str
    number: int
    rest: str = ""
    lines: Tuple[str, ...] = ()

    @property
    def accepted(self) -> bool:
        """Whether the record was accepted, or is held by a batch."""
        return self.word != "fault"

    def text(self) -> str:
        """The reply as the program writes it."""
        head = ",".join([self.word, str(self.number), *([self.rest] if self.rest else [])])
        return "".join(f"{line}\n" for line in [head, *self.lines])


class Rejected(Exception):
    """A rejected record: its fault, as a number and a word of docs/LIMITS.md. Nothing has changed."""

    def __init__(self, record: str, number: int, word: str) -> None:
        super().__init__(record, number, word)
        self.record, self.number, self.word = record, number, word

    def __str__(self) -> str:
        return f"fault,{self.number},{self.word}: {self.record}"


@dataclasses.dataclass(frozen=True)
class Answer:
    """What is published of a path: its string, or the reason why it is not encodable.

    Reason 1: line `detail` is not in the map; 2: line `detail` of the path, from 0, does not end where the next begins; 3: the
    offsets leave nothing of the path; 4: no location reference point can follow position `detail`.
    """

    name: str
    string: Optional[str]
    reason: Optional[int] = None
    detail: Optional[int] = None

    @property
    def is_encodable(self) -> bool:
        """Whether there is a string."""
        return self.string is not None

    @classmethod
    def of(cls, line: str) -> "Answer":
        """The answer that a line of a reply has."""
        name, word, first, *more = line.split(",")
        return cls(name, first) if word == "text" else cls(name, None, int(first), int(more[0]) if more else None)


@dataclasses.dataclass(frozen=True)
class Obstacle:
    """What stands in the way of reading a path's string in only one way, at its location reference point `point`, from 0.

    `kind` is `sector` for another line at the point's node that is described alike, `bearing` for another line there whose
    direction is too near, and `node` for another node that is too near. `number` is that of the line or the node.
    """

    name: str
    point: int
    kind: str
    number: int

    @classmethod
    def of(cls, line: str) -> "Obstacle":
        """What a line of a reply says."""
        name, point, kind, number = line.split(",")
        return cls(name, int(point), kind, int(number))


@dataclasses.dataclass(frozen=True)
class Changes:
    """An accepted change: the answers of the paths that are new or whose answer has changed, in the order of registration.

    If a batch is open, the change is held as its `held`th, and no answer has changed.
    """

    answers: Tuple[Answer, ...] = ()
    held: Optional[int] = None

    def __iter__(self) -> Iterator[Answer]:
        return iter(self.answers)

    def __len__(self) -> int:
        return len(self.answers)


@dataclasses.dataclass(frozen=True)
class Point:
    """A location reference point (LRP) of a string.

    `lon` and `lat` are degrees. `sector` is the bearing in sectors of 11.25 degrees, clockwise from north; `dnp` the distance
    to the next LRP in steps of 58.6 m and `lfrcnp` the lowest class up to it: the last LRP has neither.
    """

    lon: float
    lat: float
    frc: int
    fow: int
    sector: int
    lfrcnp: Optional[int] = None
    dnp: Optional[int] = None


@dataclasses.dataclass(frozen=True)
class Explained:
    """The contents of a string. Offsets are 256ths of the first and of the last leg; None if the string has no such offset."""

    points: Tuple[Point, ...]
    positive: Optional[int] = None
    negative: Optional[int] = None

    @classmethod
    def of(cls, lines: Tuple[str, ...]) -> "Explained":
        """The contents that the lines of the reply to `explain` have."""
        points: List[Point] = []
        offsets: Dict[str, int] = {}
        for word, *fields in (line.split(",") for line in lines):
            values = list(map(int, fields))
            if word in ("positive", "negative"):
                offsets[word] = values[0]
                continue
            lon, lat, frc, fow, *more = values
            sector, lfrcnp, dnp = (more[0], None, None) if word == "last" else (more[1], more[0], more[2])
            place = (from_first(lon), from_first(lat))
            if points:
                place = (points[-1].lon + lon * NEXT_STEP, points[-1].lat + lat * NEXT_STEP)
            points.append(Point(place[0], place[1], frc, fow, sector, lfrcnp, dnp))
        return cls(tuple(points), offsets.get("positive"), offsets.get("negative"))


def from_first(steps: int) -> float:
    """The degrees in the middle of a step of the first LRP; step 0 is 0 degrees."""
    return (steps - ((steps > 0) - (steps < 0)) / 2) * FIRST_STEP


def replies_of(text: str) -> List[Reply]:
    """The replies of a text."""
    found, lines = [], iter(text.split("\n")[:-1])
    for head in lines:
        word, number, *rest = head.split(",", 2)
        count = int(number) if word == "ok" else 0
        found.append(Reply(word, int(number), "".join(rest), tuple(next(lines) for _ in range(count))))
    return found
