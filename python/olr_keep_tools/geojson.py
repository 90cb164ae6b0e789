"""Features of GeoJSON."""
import json
from typing import Any, Dict, Iterable, List, Sequence

Feature = Dict[str, Any]


def rounded(place: Sequence[float]) -> List[float]:
    """A coordinate, rounded to the decimals of records."""
    return [round(place[0], 7), round(place[1], 7)]


def feature(kind: str, geometry: str, coordinates: object, **more: object) -> Feature:
    """A feature of GeoJSON; one without coordinates has no geometry."""
    place = {"type": geometry, "coordinates": coordinates} if coordinates else None
    return {"type": "Feature", "geometry": place, "properties": {"kind": kind, **more}}


def collection(features: Iterable[Feature]) -> str:
    """The text of a GeoJSON file with these features, one on a line."""
    rows = ",\n".join(json.dumps(it) for it in features)
    return f'{{"type": "FeatureCollection", "features": [\n{rows}\n]}}\n'
