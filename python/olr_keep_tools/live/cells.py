"""The cells by which changes are near each other, and near paths."""
from __future__ import annotations

import math
from typing import Iterable, List

from ..grid import Box, Cell, boxes_of

NEAR = 0.005  # degrees of a side


def cell_of(lon: float, lat: float) -> Cell:
    """The cell of a coordinate in degrees, as PostgreSQL divides."""
    return math.floor(lon / NEAR), math.floor(lat / NEAR)


def merged(boxes: Iterable[Box]) -> List[Box]:
    """The cells that boxes touch, as boxes."""
    corners = {(*cell_of(west, south), *cell_of(east, north)) for west, south, east, north in boxes}
    cells = {(x, y) for left, low, right, high in corners for x in range(left, right + 1) for y in range(low, high + 1)}
    return list(boxes_of(cells, NEAR))
