"""What a publisher knows of each string of a round: its course, its location reference points, and the roads beside it.

Coordinates are degrees; positions are metres along the whole course, from the first point to the last one.
"""
from __future__ import annotations

import json
from typing import Any, Dict, Iterable, Iterator, List, NamedTuple, Tuple

from ..courses import Plane, Polyline
from ..files import FileFailure
from ..geo import Degrees

Json = Dict[str, Any]
STRINGS, ABOUT = "ours/strings.json", "ours/round.json"


class Mark(NamedTuple):
    """A location reference point: its position, its node, its place, and what the record `ambiguous` names there, as `node,5`."""

    at: float
    node: int
    place: Degrees
    ambiguous: Tuple[str, ...]


class Beside(NamedTuple):
    """Another road that runs along the course: its first line, whether that is all, whether it leads the other way, and at which
    sections of the course it is how many metres to the left."""

    line: int
    is_one_line: bool
    is_opposite: bool
    left: Tuple[Tuple[int, float], ...]


class Ours(NamedTuple):
    """A string: its class and form, its whole course with the positions where the offsets end, its points, the roads beside it, and
    its fields as `fields.location` has them."""

    name: str
    string: str
    frc: int
    fow: int
    course: Tuple[Degrees, ...]
    begin: float
    end: float
    marks: Tuple[Mark, ...]
    beside: Tuple[Beside, ...]
    fields: Json

    @property
    def is_ambiguous(self) -> bool:
        """Whether `ambiguous` names it."""
        return any(it.ambiguous for it in self.marks)

    def as_json(self) -> Json:
        """It as an object of JSON."""
        marks = [{"at_m": round(it.at, 1), "node": it.node, "longitude": it.place[0], "latitude": it.place[1], "ambiguous": it.ambiguous}
                 for it in self.marks]
        beside = [{"line": it.line, "one_line": it.is_one_line, "other_way": it.is_opposite, "left_m": it.left} for it in self.beside]
        return {"name": self.name, "string": self.string, "frc": self.frc, "fow": self.fow, "begin_m": round(self.begin, 1),
                "end_m": round(self.end, 1), "course": self.course, "lrps": marks, "beside": beside, "fields": self.fields}

    def location(self) -> List[Degrees]:
        """The course between the offsets."""
        plane = Plane(self.course[0][1])
        line = Polyline(plane.course(self.course))
        inner = [place for far, place in zip(line.far, self.course) if self.begin < far < self.end]
        return [plane.degrees(line.at(self.begin)), *inner, plane.degrees(line.at(self.end))]


def place_of(given: Any) -> Degrees:
    """A coordinate of JSON."""
    lon, lat = map(float, given)
    if not (abs(lon) <= 180 and abs(lat) <= 90):
        raise ValueError(f"{lon},{lat} is no longitude and latitude")
    return lon, lat


def ours_of(it: Json) -> Ours:
    """A string from its object of JSON."""
    marks = tuple(Mark(float(one["at_m"]), int(one["node"]), place_of((one["longitude"], one["latitude"])), tuple(one["ambiguous"]))
                  for one in it["lrps"])
    beside = tuple(Beside(int(one["line"]), bool(one["one_line"]), bool(one["other_way"]), tuple((int(k), float(left)) for k, left in one["left_m"]))
                   for one in it["beside"])
    course = tuple(map(place_of, it["course"]))
    if len(course) < 2 or len(marks) < 2:
        raise ValueError("a course or its points are missing")
    length = Polyline(Plane(course[0][1]).course(course)).length
    stops = [0.0, *(one.at for one in marks[1:]), float(it["begin_m"]), float(it["end_m"])]
    if not all(-1 <= at <= length + 1 for at in stops) or abs(marks[-1].at - length) > 1:
        raise ValueError(f"its course is {length:.0f} m long, and its points are elsewhere")
    return Ours(str(it["name"]), str(it["string"]), int(it["frc"]), int(it["fow"]), course, float(it["begin_m"]), float(it["end_m"]),
                marks, beside, it["fields"])


def read_ours(folder: str) -> Dict[str, Ours]:
    """The strings of a round by name, from the folder that `export` made."""
    file = f"{folder}/{STRINGS}"
    try:
        with open(file, encoding="utf-8") as text:
            found = [ours_of(json.loads(line.rstrip(",\n"))) for line in text if line.startswith("{")]
    except OSError as error:
        raise FileFailure(f"{file}: {error.strerror}: is {folder} the folder that export made?") from None
    except (ValueError, KeyError, TypeError, OverflowError, RecursionError) as error:
        raise FileFailure(f"{file} was not written by this tool: {error}") from None
    if not found:
        raise FileFailure(f"{file} was not written by this tool: it has no string")
    return {it.name: it for it in found}


def lines_of(found: Iterable[Ours]) -> Iterator[str]:
    """The text of the file of strings: an array of JSON with a line for each."""
    before = "["
    for it in found:
        yield f"{before}\n{json.dumps(it.as_json(), ensure_ascii=False)}"
        before = ","
    yield "\n]\n"
