"""Names of streets: those of the lines of a map, by which people know a path. The program knows nothing of them.

    names = read_names("names.csv")
    print(described(streets(names, [1, 3, 5]), 600.0, (6.1, 49.6), (6.1, 49.605)))
    'B 10, Bahnhofstrasse, 600 m, northward'
"""
from typing import Dict, Iterable, List, Mapping, NamedTuple, Optional, Sequence

from .drawn import courses, part
from .files import FileFailure, rows_of
from .geo import Degrees, degrees, direction
from .records import Path, State

HEAD = ("line", "name", "ref")
MOST = 6  # names of a path that are shown
WINDS = ("north", "north-east", "east", "south-east", "south", "south-west", "west", "north-west")


class Name(NamedTuple):
    """The name of a street and its number, such as `Bahnhofstrasse` and `B 10`; each may be empty."""

    name: str
    ref: str


Names = Mapping[int, Name]


def read_names(file: Optional[str]) -> Names:
    """The names in a table of tools/osm-records --names, or none without a file."""
    found: Dict[int, Name] = {}
    for k, row in enumerate(rows_of(file) if file else (), 1):
        if k == 1 and tuple(row) == HEAD:
            continue
        if len(row) != len(HEAD) or not row[0].isdecimal():
            raise FileFailure(f"{file}: row {k}: its fields have to be LINE,NAME,REF")
        found[int(row[0])] = Name(*row[1:])
    return found


def streets(names: Names, lines: Iterable[int]) -> List[str]:
    """The numbers and names of streets along lines, each once."""
    both = (names.get(it, Name("", "")) for it in lines)
    return list(dict.fromkeys(text for it in both for text in (it.ref, it.name) if text))


def described(found: Sequence[str], metres: float, start: Degrees, end: Degrees) -> str:
    """Streets, a length, and in which direction the straight line from the start to the end points."""
    more = [f"{len(found) - MOST} more"] if len(found) > MOST else []
    far = f"{metres:.0f} m" if round(metres) < 1000 else f"{metres / 1000:.1f} km"
    winds = [] if start == end else [f"{WINDS[round(direction(start, end) / 45) % 8]}ward"]
    return ", ".join([*found[:MOST], *more, far, *winds])


def of_path(state: State, path: Path, names: Names) -> str:
    """The streets, the length and the direction of a registered path between its offsets; only the streets if it has no course."""
    found, course = streets(names, path.lines), courses(state, path.lines)
    length = course[0][-1][0] if len(course) == 1 else 0
    if length <= path.positive + path.negative or any(it not in state.lines for it in path.lines):
        return ", ".join(found[:MOST])
    places = part(course[0], path.positive, length - path.negative)
    return described(found, (length - path.positive - path.negative) / 10, degrees(places[0]), degrees(places[-1]))
