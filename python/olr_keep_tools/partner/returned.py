"""Reads what a partner sends back: GeoJSON, or CSV with WKT."""
from __future__ import annotations

import csv
import io
import json
import math
import re
from collections import Counter, defaultdict
from typing import Any, Callable, Dict, Iterable, Iterator, List, Mapping, NamedTuple, Optional, Sequence, Tuple

from ..command import say
from ..courses import Plane, Polyline
from ..files import FileFailure
from ..geo import Degrees, distance
from .ours import Ours

JOINED, SAME = 5.0, 0.5  # metres between two parts that join, and of those that come in another order
NEAR = 2000.0  # metres from our course within which a course has to be, for its coordinates to be understood
LONGEST = 1 << 30  # bytes of a field of CSV
WKT = re.compile(r"\s*(?:SRID\s*=\s*(\d+)\s*;)?\s*(MULTI)?LINESTRING\s*(?:ZM|Z|M)?\s*(EMPTY|\(.*\))\s*", re.IGNORECASE | re.DOTALL)
NOT_FOUND = re.compile(r"\s*(not[ _-]?found|none|null|)\s*", re.IGNORECASE)
Parts = List[List[Degrees]]
Row = Tuple[str, Parts, Optional[float], Optional[float]]


class Returned(NamedTuple):
    """What came back for a string: its parts in the order in which they came, none if it wasn't found, and the metres that are to be
    cut off at both ends, if they were said."""

    parts: Parts
    positive: Optional[float] = None
    negative: Optional[float] = None

    @property
    def are_ends_judged(self) -> bool:
        """Whether it is known where it ends."""
        return self.positive is not None and self.negative is not None

    def course(self) -> Tuple[List[Degrees], float]:
        """The parts as one course without what is cut off, and the greatest gap between two of them in metres."""
        parts = in_order(self.parts)
        whole = [place for it in parts for place in it]
        gap = max((distance(a[-1], b[0]) for a, b in zip(parts, parts[1:])), default=0.0)
        return trimmed(whole, self.positive or 0.0, self.negative or 0.0), gap


def in_order(parts: Parts) -> Parts:
    """Parts so that each begins where the one before it ends, if there is such an order; else as they are."""
    if all(distance(a[-1], b[0]) <= JOINED for a, b in zip(parts, parts[1:])):
        return parts
    ends: List[Degrees] = []
    leaving: Dict[int, List[int]] = defaultdict(list)
    balance: Counter[int] = Counter()
    for k, it in enumerate(parts):
        start, end = end_of(it[0], ends), end_of(it[-1], ends)
        leaving[start].append(k)
        balance[start] += 1
        balance[end] -= 1
    firsts = [it for it, count in balance.items() if count == 1]
    if len(firsts) > 1 or any(abs(it) > 1 for it in balance.values()):
        return parts
    # A walk that uses each part once; where it comes back to an end from which parts still lead, these are put in there.
    walk: List[int] = []
    waiting = [(firsts[0] if firsts else end_of(parts[0][0], ends), -1)]
    while waiting:
        at, part = waiting[-1]
        if leaving[at]:
            following = leaving[at].pop(0)
            waiting.append((end_of(parts[following][-1], ends), following))
        else:
            waiting.pop()
            walk.append(part)
    return [parts[it] for it in walk[-2::-1]] if len(walk) == len(parts) + 1 else parts


def end_of(place: Degrees, ends: List[Degrees]) -> int:
    """The number of an end of parts: the first known one that is as good as there, or a new one."""
    for k, it in enumerate(ends):
        if abs(it[1] - place[1]) < 1e-4 and distance(it, place) <= SAME:
            return k
    ends.append(place)
    return len(ends) - 1


def trimmed(places: List[Degrees], positive: float, negative: float) -> List[Degrees]:
    """A course without so many metres at both ends."""
    if not places or positive <= 0 and negative <= 0:
        return places
    plane = Plane(places[0][1])
    line = Polyline(plane.course(places))
    begin, end = max(0.0, positive), line.length - max(0.0, negative)
    if begin >= end:
        return []
    inner = [place for far, place in zip(line.far, places) if begin < far < end]
    return [plane.degrees(line.at(begin)), *inner, plane.degrees(line.at(end))]


# ---- numbers and coordinates


def metres_of(given: Any, where: str) -> Optional[float]:
    """The metres of an offset; None if there is none."""
    if given in (None, ""):
        return None
    try:
        found = float(given)
    except (TypeError, ValueError, OverflowError):
        found = math.nan
    if isinstance(given, bool) or not math.isfinite(found):
        raise FileFailure(f"{where}: an offset is no number of metres: {given!r:.40}")
    return found


def places_of(given: Any, where: str) -> List[Degrees]:
    """A list of coordinates; heights are left out, and so is a coordinate that is that of the one before."""
    found: List[Degrees] = []
    try:
        for it in given:
            place = float(it[0]), float(it[1])
            if not (math.isfinite(place[0]) and math.isfinite(place[1])):
                raise ValueError
            if not found or found[-1] != place:
                found.append(place)
    except (TypeError, ValueError, OverflowError, LookupError):
        raise FileFailure(f"{where}: a coordinate isn't two numbers") from None
    return found


# ---- GeoJSON


def features_of(text: str, file: str) -> List[Any]:
    """The features of a text: a collection, a list, one feature, or one on each line."""
    try:
        found = json.loads(text)
    except ValueError as error:
        try:
            found = [json.loads(it.lstrip("\x1e")) for it in text.splitlines() if it.strip()]
        except ValueError:
            raise FileFailure(f"{file}: it is no JSON: {error}") from None
    found = found.get("features", [found]) if isinstance(found, dict) else found
    if not isinstance(found, list):
        raise FileFailure(f"{file}: it has no list of features")
    return found


def as_sent(features: Iterable[Any], file: str) -> Iterator[Any]:
    """Features as a partner sends them. Of those that tools/decode prints, which have the set of rules, the points are left out, and the
    courses have no offsets any more."""
    rules = set()
    for it in features:
        properties = it.get("properties") if isinstance(it, dict) else None
        own = properties if isinstance(properties, dict) and "rules" in properties else {}
        if own.get("kind") == "decoded":
            rules.add(str(own["rules"]))
            it = {**it, "properties": {**own, "positive_m": 0, "negative_m": 0}}
        if own.get("kind") != "point":
            yield it
    if len(rules) > 1:
        raise FileFailure(f"{file}: it has the answers of {len(rules)} sets of rules: decode with one, by --rules")


def of_geojson(text: str, file: str) -> Iterator[Row]:
    """The rows of GeoJSON. The name is empty where there is none."""
    for k, it in enumerate(as_sent(features_of(text, file), file), 1):
        where = f"{file}: feature {k}"
        if not isinstance(it, dict) or it.get("type") != "Feature":
            raise FileFailure(f"{where}: it is no GeoJSON feature")
        properties = it.get("properties") or {}
        geometry = it.get("geometry") or {"type": "MultiLineString", "coordinates": []}
        if not isinstance(properties, dict) or not isinstance(geometry, dict):
            raise FileFailure(f"{where}: it is no GeoJSON feature")
        if geometry.get("type") not in ("LineString", "MultiLineString") or not isinstance(geometry.get("coordinates"), list):
            raise FileFailure(f"{where}: its geometry is {str(geometry.get('type')):.40}, and not LineString")
        lists = geometry["coordinates"] if geometry["type"] == "MultiLineString" else [geometry["coordinates"]]
        name = properties.get("name", it.get("id"))
        yield ("" if name is None else str(name), [places_of(one, where) for one in lists],
               metres_of(properties.get("positive_m"), where), metres_of(properties.get("negative_m"), where))


# ---- CSV


def of_wkt(text: str, where: str) -> Parts:
    """The lists of coordinates of a WKT text."""
    if NOT_FOUND.fullmatch(text):
        return []
    found = WKT.fullmatch(text)
    if not found:
        raise FileFailure(f"{where}: it is neither LINESTRING(..) nor 'not found': {text!r:.60}")
    _, multi, inside = found.groups()
    if inside.upper() == "EMPTY":
        return []
    inner = inside.strip()[1:-1]
    lists = re.findall(r"\(([^()]*)\)", inner) if multi else [inner]
    return [places_of((it.split() for it in one.split(",")), where) for one in lists]


def of_csv(text: str, file: str) -> Iterator[Row]:
    """The rows of CSV: name, WKT, and the offsets in metres, or as the names of columns in the first row say."""
    csv.field_size_limit(LONGEST)
    head = text[: text.find("\n") + 1 or None]
    delimiter = ";" if ";" in head.partition("LINESTRING")[0] and "," not in head.partition("LINESTRING")[0] else ","
    columns: Sequence[str] = ("name", "wkt", "positive_m", "negative_m")
    try:
        for k, row in enumerate(filter(None, csv.reader(io.StringIO(text, newline=""), delimiter=delimiter)), 1):
            if k == 1 and "wkt" in (names := [it.strip().lower() for it in row]):
                columns = names
                continue
            cells, where = dict(zip(columns, row)), f"{file}: row {k}"
            if "wkt" not in cells:
                raise FileFailure(f"{where}: it has no name and WKT: {delimiter.join(row)!r:.60}")
            yield (cells.get("name", ""), of_wkt(cells["wkt"], where), metres_of(cells.get("positive_m"), where),
                   metres_of(cells.get("negative_m"), where))
    except csv.Error as error:
        raise FileFailure(f"{file}: {error}") from None


# ---- coordinates that are no degrees


def from_web_mercator(place: Degrees) -> Degrees:
    """A coordinate of EPSG:3857 in degrees."""
    return math.degrees(place[0] / 6378137.0), math.degrees(2 * math.atan(math.exp(min(place[1] / 6378137.0, 50.0))) - math.pi / 2)


READINGS: Sequence[Tuple[str, Callable[[Degrees], Degrees]]] = (
    ("", lambda it: it),
    ("its coordinates are in EPSG:3857 (Web Mercator), and are read as that", from_web_mercator),
    ("its coordinates have the latitude first, and are read so", lambda it: (it[1], it[0])),
)


def are_degrees(place: Degrees) -> bool:
    """Whether a coordinate may be in degrees."""
    return abs(place[0]) <= 180 and abs(place[1]) <= 90


def reading_of(found: Mapping[str, Returned], ours: Mapping[str, Ours], file: str) -> Tuple[str, Callable[[Degrees], Degrees]]:
    """How the coordinates are to be read: the first way by which most of the first courses are near ours."""
    firsts = [(it.parts[0][0], ours[name].course[0]) for name, it in found.items() if it.parts and it.parts[0]][:200]
    for reading in READINGS:
        places = [(reading[1](there), here) for there, here in firsts]
        if 2 * sum(are_degrees(a) and distance(a, b) <= NEAR for a, b in places) > len(places):
            return reading
    if all(are_degrees(it) for it, _ in firsts):
        return READINGS[0]
    raise FileFailure(f"{file}: its coordinates are no degrees, as {firsts[0][0]}: WGS84 is needed, EPSG:4326")


def with_reading(found: Dict[str, Returned], ours: Mapping[str, Ours], file: str) -> Dict[str, Returned]:
    """The courses in degrees."""
    words, read = reading_of(found, ours, file)
    if words:
        say(f"{file}: {words}")
        found = {name: it._replace(parts=[list(map(read, part)) for part in it.parts]) for name, it in found.items()}
    wrong = next((name for name, it in found.items() if not all(are_degrees(place) for part in it.parts for place in part)), None)
    if wrong is not None:
        raise FileFailure(f"{file}: {wrong}: a coordinate is no longitude and latitude")
    return found


# ---- all


def gathered(rows: Iterable[Row], ours: Mapping[str, Ours], file: str) -> Dict[str, Returned]:
    """What came back by name: several rows of a name are its parts. A string is a name too. What has no name of the round is said."""
    found: Dict[str, Returned] = {}
    nameless = unknown = 0
    named: Dict[str, List[str]] = defaultdict(list)
    for it in ours.values():
        named[it.string].append(it.name)
    for given, parts, positive, negative in rows:
        names = [given] if given in ours else named.get(given, [])
        nameless, unknown = nameless + (not given), unknown + bool(given and not names)
        for name in names:
            before = found.get(name, Returned([]))
            found[name] = Returned([*before.parts, *(it for it in parts if len(it) > 1)],
                                   positive if before.positive is None else before.positive,
                                   before.negative if negative is None else negative)
    for count, words in ((nameless, "without a name"), (unknown, "with a name that is none of this round")):
        if count:
            say(f"{file}: {count} rows {words} are left out")
    if not found:
        raise FileFailure(f"{file}: it has no row with a name of this round")
    return found


def read_returned(file: str, ours: Mapping[str, Ours]) -> Dict[str, Returned]:
    """What a partner has sent back, by name."""
    try:
        with open(file, encoding="utf-8-sig") as data:
            text = data.read()
    except UnicodeDecodeError:
        raise FileFailure(f"{file}: it is not UTF-8") from None
    except OSError as error:
        raise FileFailure(f"{file}: {error.strerror}") from None
    rows = of_geojson(text, file) if text.lstrip("\x1e \t\r\n")[:1] in ("{", "[") else of_csv(text, file)
    return with_reading(gathered(rows, ours, file), ours, file)
