"""The fields of a string as objects of JSON and as rows of CSV, in the terms of the White Paper; conformance/schema.json says what each is.

    for row in rows(location(read_reference("CwAAAAAAABtoCAGQAAAcNFk="))):
        print(row["longitude"], row["bearing_middle"])

Coordinates and bearings are degrees, distances and offsets metres. The format rounds them, so each bearing, distance and offset is
the number of its interval with the bounds and the middle.
"""
import json
from typing import Any, Dict, Iterable, Iterator, List, Optional, Sequence

from .strings import CLASSES, FORMS, SECTOR, STEP, Onward, Point, Reference, share

Json = Dict[str, Any]
RANGE = ("interval", "low", "middle", "high")
OFFSET = (*RANGE, "share_low", "share_middle", "share_high")
# The columns of CSV. Those of an offset are filled at the point from which it is measured.
COLUMNS = (
    "name", "string", "point", "longitude", "latitude", "frc", "frc_name", "fow", "fow_name", *(f"bearing_{it}" for it in RANGE),
    "lfrcnp", *(f"dnp_{it}" for it in RANGE), *(f"positive_offset_{it}" for it in OFFSET), *(f"negative_offset_{it}" for it in OFFSET),
)


def interval(number: int, step: float) -> Json:
    """An interval by its number and the width of all."""
    return {"interval": number, "low": round(number * step, 3), "middle": round((number + 0.5) * step, 3),
            "high": round((number + 1) * step, 3)}


def offset(byte: int, leg: Onward) -> Json:
    """An offset on its leg: in metres, as the distance of the leg is an interval too, and as shares of the leg."""
    low, high = share(byte)
    middle = (low + high) / 2
    metres = {"low": round(low * leg.dnp * STEP, 3), "middle": round(middle * leg.metres, 3), "high": round(high * (leg.dnp + 1) * STEP, 3)}
    return {"interval": byte, **metres, "share_low": low, "share_middle": middle, "share_high": high}


def point(it: Point) -> Json:
    """A location reference point."""
    found: Json = {"longitude": round(it.lon, 7) + 0.0, "latitude": round(it.lat, 7) + 0.0, "frc": it.frc, "frc_name": CLASSES[it.frc],
                   "fow": it.fow, "fow_name": FORMS[it.fow], "bearing": interval(it.sector, SECTOR)}
    return {**found, "lfrcnp": it.onward.lfrcnp, "dnp": interval(it.onward.dnp, STEP)} if it.onward else found


def location(reference: Reference) -> Json:
    """A line location. An offset that the string doesn't have is left out: nothing is cut off there."""
    points = reference.points
    found: Json = {"points": list(map(point, points))}
    for title, byte, leg in (("positive_offset", reference.positive, points[0].onward), ("negative_offset", reference.negative, points[-2].onward)):
        if byte is not None and leg:
            found[title] = offset(byte, leg)
    return found


def flat(title: str, found: Optional[Json]) -> Json:
    """The columns of an interval."""
    return {f"{title}_{it}": value for it, value in (found or {}).items()}


def rows(found: Json) -> Iterator[Json]:
    """The rows of CSV of a line location: one for each point."""
    points: List[Json] = found["points"]
    for k, it in enumerate(points):
        plain = {key: value for key, value in it.items() if key not in ("bearing", "dnp")}
        ends = {**(flat("positive_offset", found.get("positive_offset")) if not k else {}),
                **(flat("negative_offset", found.get("negative_offset")) if k == len(points) - 1 else {})}
        yield {"point": k + 1, **plain, **flat("bearing", it["bearing"]), **flat("dnp", it.get("dnp")), **ends}


def as_json(found: Iterable[Json]) -> Iterator[str]:
    """An array of JSON, with a line for each object."""
    before = "["
    for it in found:
        yield before + "\n" + json.dumps(it, ensure_ascii=False)
        before = ","
    yield "[]\n" if before == "[" else "\n]\n"


def values(row: Json, columns: Sequence[str] = COLUMNS) -> List[object]:
    """The values of a row of CSV in the order of the columns."""
    return [row.get(it, "") for it in columns]
