"""Geometry on the earth: distances, bearings and projections. Coordinates are degrees, as (lon, lat), distances metres, and
bearings degrees clockwise from north. Those of records, as in records.py, are whole numbers of 10^-7 degree: `degrees` converts them.
"""
import math
from typing import Sequence, Tuple

from .records import UNITS

EARTH = 6371008.8  # metres, the mean radius
RADIAN = math.pi / 180  # radians to a degree
METRES = EARTH * RADIAN  # metres to a degree of latitude
AXIS, FLATTENING = 6378137.0, 1 / 298.257223563  # metres, the half of the longer axis of the spheroid WGS84

Degrees = Tuple[float, float]


def degrees(place: Sequence[float]) -> Degrees:
    """A coordinate of records, in degrees."""
    return place[0] / UNITS, place[1] / UNITS


def scale(lat: float) -> float:
    """Metres to a degree of longitude."""
    return METRES * math.cos(math.radians(lat))


def distance(a: Sequence[float], b: Sequence[float]) -> float:
    """The straight distance between two coordinates that are near each other."""
    return math.hypot((b[0] - a[0]) * scale((a[1] + b[1]) / 2), (b[1] - a[1]) * METRES)


def great_circle(a: Sequence[float], b: Sequence[float]) -> float:
    """The distance between two coordinates on a sphere."""
    lat, north = a[1] * RADIAN, b[1] * RADIAN
    square = math.sin((b[1] - a[1]) * RADIAN / 2) ** 2
    square += math.cos(lat) * math.cos(north) * math.sin((b[0] - a[0]) * RADIAN / 2) ** 2
    return 2 * EARTH * math.asin(math.sqrt(square if square < 1 else 1))


def geodesic(a: Sequence[float], b: Sequence[float]) -> float:
    """The distance between two coordinates on the spheroid WGS84, as PostGIS has it: up to 2 km by the radii of curvature in
    the middle, to a millimetre, and beyond by Vincenty's formulas."""
    middle = math.radians((a[1] + b[1]) / 2)
    eccentricity = FLATTENING * (2 - FLATTENING)
    square = 1 - eccentricity * math.sin(middle) ** 2
    across = AXIS / math.sqrt(square)
    east = math.radians((b[0] - a[0] + 180) % 360 - 180) * across * math.cos(middle)
    north = math.radians(b[1] - a[1]) * across * (1 - eccentricity) / square
    far = math.hypot(east, north)
    return far if far < 2_000 and abs(middle) < 1.4 else vincenty(a, b)


def vincenty(a: Sequence[float], b: Sequence[float]) -> float:
    """The distance between two coordinates on the spheroid WGS84, by Vincenty's inverse formulas."""
    short = AXIS * (1 - FLATTENING)
    first, last = (math.atan((1 - FLATTENING) * math.tan(math.radians(it[1]))) for it in (a, b))
    sines, cosines = (math.sin(first), math.sin(last)), (math.cos(first), math.cos(last))
    difference = turn = math.radians((b[0] - a[0] + 180) % 360 - 180)
    for _ in range(200):
        across = cosines[1] * math.sin(turn)
        sine = math.hypot(across, cosines[0] * sines[1] - sines[0] * cosines[1] * math.cos(turn))
        if not sine:
            return 0.0
        cosine = sines[0] * sines[1] + cosines[0] * cosines[1] * math.cos(turn)
        arc = math.atan2(sine, cosine)
        azimuth = cosines[0] * across / sine
        square = 1 - azimuth**2
        middle = cosine - 2 * sines[0] * sines[1] / square if square else 0.0
        c = FLATTENING / 16 * square * (4 + FLATTENING * (4 - 3 * square))
        before, inner = turn, middle + c * cosine * (2 * middle**2 - 1)
        turn = difference + (1 - c) * FLATTENING * azimuth * (arc + c * sine * inner)
        if abs(turn - before) < 1e-12:
            break
    u = square * (AXIS**2 - short**2) / short**2
    p = 1 + u / 16384 * (4096 + u * (u * (320 - 175 * u) - 768))
    q = u / 1024 * (256 + u * (u * (74 - 47 * u) - 128))
    inner = cosine * (2 * middle**2 - 1) - q / 6 * middle * (4 * sine**2 - 3) * (4 * middle**2 - 3)
    return short * p * (arc - q * sine * (middle + q / 4 * inner))


def direction(a: Sequence[float], b: Sequence[float]) -> float:
    """The bearing from one coordinate to another; 0 if they are equal."""
    return math.degrees(math.atan2((b[0] - a[0]) * scale(a[1]), (b[1] - a[1]) * METRES)) % 360


def angle_between(a: float, b: float) -> float:
    """The difference of two bearings, at most 180 degrees."""
    return abs((a - b + 180) % 360 - 180)


# The nearest point of a straight segment: how far away it is, and the share of the segment before it.
Projected = Tuple[float, float]


def onto_segment(a: Sequence[float], b: Sequence[float], x: float, y: float) -> Projected:
    """The projection of a point of the plane onto a segment."""
    ax, ay = a
    dx, dy, px, py = b[0] - ax, b[1] - ay, x - ax, y - ay
    square = dx * dx + dy * dy
    share = (px * dx + py * dy) / square if square else 0.0
    share = 0.0 if share < 0 else 1.0 if share > 1 else share
    return math.hypot(px - share * dx, py - share * dy), share


def on_piece(a: Sequence[float], b: Sequence[float], lon: float, lat: float) -> Projected:
    """The projection of a coordinate onto a straight segment between two others."""
    east = scale(lat)
    return onto_segment(((a[0] - lon) * east, (a[1] - lat) * METRES), ((b[0] - lon) * east, (b[1] - lat) * METRES), 0.0, 0.0)


def between(a: Sequence[float], b: Sequence[float], share: float) -> Degrees:
    """The coordinate at a share of the way from one to another."""
    return a[0] + (b[0] - a[0]) * share, a[1] + (b[1] - a[1]) * share


def moved(place: Degrees, bearing: float, far: float) -> Degrees:
    """The coordinate at this distance and this bearing from another one."""
    lon, lat, turn, angle = *map(math.radians, (*place, bearing)), far / EARTH
    north = math.asin(math.sin(lat) * math.cos(angle) + math.cos(lat) * math.sin(angle) * math.cos(turn))
    east = math.atan2(math.sin(turn) * math.sin(angle) * math.cos(lat), math.cos(angle) - math.sin(lat) * math.sin(north))
    return (math.degrees(lon + east) + 540) % 360 - 180, math.degrees(north)


