"""Which share a path belongs to: that of its name's CRC-32, or that of the box nearest to where it starts.

    shares = Shares.of("4")              # by name
    shares = Shares.of("shares.json")    # by place: a file of tools/shares
    shares.label                         # part of the names of streams: 4, or 4- and a digest of the file

Coordinates are whole numbers of 10^-7 degree.
"""
import hashlib
import json
import re
import zlib
from typing import List, Optional, Sequence, Tuple

Place = Tuple[int, int]
Box = Sequence[int]  # west, south, east, north


class SharesError(Exception):
    """What is neither a number of shares nor a file of them; the text is printed."""


class Shares:
    """A number of shares, by name, or by place with a box (west, south, east, north) for each."""

    def __init__(self, count: int, boxes: Optional[List[Box]] = None):
        self.count, self.boxes = count, boxes
        digest = "" if boxes is None else "-" + hashlib.sha256(json.dumps(boxes).encode()).hexdigest()[:8]
        self.label = f"{count}{digest}"

    @classmethod
    def of(cls, text: str) -> "Shares":
        """The shares that an argument names: a number, or a file."""
        if re.fullmatch("[0-9]{1,6}", text):
            if int(text) == 0:
                raise SharesError("there has to be a share")
            return cls(int(text))
        try:
            with open(text, encoding="utf-8") as file:
                boxes = json.load(file)["boxes"]
            if not boxes or not all(len(box) == 4 and all(isinstance(it, int) for it in box) for box in boxes):
                raise ValueError("no boxes")
        except OSError as error:
            raise SharesError(f"{text} is neither a number nor a file: {error.strerror}") from None
        except (ValueError, KeyError, TypeError):
            raise SharesError(f"{text} is not a file of tools/shares") from None
        return cls(len(boxes), boxes)

    def of_name(self, name: str) -> int:
        """The share of a name, by name. It has to be the same for all workers, of all versions."""
        return zlib.crc32(name.encode()) % self.count

    def of_place(self, place: Optional[Place]) -> int:
        """The share of a path that starts at this coordinate, or whose start isn't known: 0."""
        if place is None or self.boxes is None:
            return 0
        far = [distance(box, *place) for box in self.boxes]
        return far.index(min(far))


def distance(box: Box, lon: int, lat: int) -> int:
    """A measure of the distance of a coordinate from a box; 0 in it."""
    west, south, east, north = box
    aside, up = max(west - lon, lon - east, 0), max(south - lat, lat - north, 0)
    return aside * aside + up * up


def boxes_of(places: List[Place], count: int) -> List[Box]:
    """This number of boxes with equal numbers of these coordinates, by a k-d tree."""
    lons, lats = [it[0] for it in places], [it[1] for it in places]
    box = [min(lons), min(lats), max(lons), max(lats)]
    if count == 1:
        return [box]
    axis = 0 if box[2] - box[0] >= box[3] - box[1] else 1
    in_order, half = sorted(places, key=lambda it: (it[axis], it)), count // 2
    at = len(in_order) * half // count
    return boxes_of(in_order[:at], half) + boxes_of(in_order[at:], count - half)
