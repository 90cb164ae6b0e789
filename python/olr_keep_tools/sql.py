"""Arrays, rows and shapes as PostgreSQL and PostGIS read and write them, for the tables of tools/live."""
from __future__ import annotations

import io
import struct
from typing import Any, Iterable, Optional, Sequence, Tuple

from .command import STREAM, USAGE, Failure
from .stores import psycopg2
from .streets import degrees

__all__ = ["psycopg2"]

COUNT = struct.Struct("<I")  # of WKB
ESCAPES = str.maketrans({"\\": "\\\\", "\t": "\\t", "\n": "\\n", "\r": "\\r"})  # of COPY


Place = Tuple[float, float]
Course = Tuple[Place, ...]


def check_database(name: str) -> None:
    """Fails if there is no psycopg2, or for a connection string that can't be used."""
    if psycopg2 is None:
        raise Failure(STREAM, "Debian's package python3-psycopg2 is not installed for this Python")
    try:
        psycopg2.extensions.parse_dsn(name)
    except UnicodeError:
        raise Failure(USAGE, "the name of the database is not UTF-8") from None
    except psycopg2.ProgrammingError as error:
        raise Failure(USAGE, str(error).strip()) from None


def coordinates(shape: Optional[bytes]) -> Optional[Course]:
    """The coordinates of a little-endian WKB LineString, or None."""
    if shape is None:
        return None
    (count,) = COUNT.unpack_from(shape, 5)
    numbers = struct.unpack_from(f"<{2 * count}d", shape, 9)
    return tuple(zip(numbers[::2], numbers[1::2]))


def point(place: Optional[Place]) -> Optional[str]:
    """A place as EWKT, or None."""
    return None if place is None else "SRID=4326;POINT({:.7f} {:.7f})".format(*place)


def text_array(items: Iterable[object]) -> str:
    """The text of an array of these, as PostgreSQL reads it."""
    found = list(map(str, items))
    text = '","'.join(found)
    if "\\" in text or text.count('"') > 2 * (len(found) - 1):
        text = '","'.join(it.replace("\\", "\\\\").replace('"', '\\"') for it in found)
    return f'{{"{text}"}}' if found else "{}"


def number_array(items: Iterable[object]) -> str:
    """The text of an array of these numbers."""
    return "{" + ",".join(map(str, items)) + "}"


def point_hex(place: int) -> str:
    """The point of a place, as hexadecimal EWKB."""
    return struct.pack("<BIIdd", 1, 0x20000001, 4326, *degrees(place)).hex()


def course_hex(course: Optional[Sequence[Place]]) -> Optional[str]:
    """A course as hexadecimal EWKB, or None."""
    if not course or len(course) < 2:
        return None
    numbers = [it for place in course for it in place]
    return struct.pack(f"<BIII{len(numbers)}d", 1, 0x20000002, 4326, len(course), *numbers).hex()


def places_hex(places: Sequence[Place]) -> Optional[str]:
    """Places as hexadecimal EWKB of a MultiPoint, or None."""
    if not places:
        return None
    points = b"".join(struct.pack("<BIdd", 1, 1, *it) for it in places)
    return (struct.pack("<BIII", 1, 0x20000004, 4326, len(places)) + points).hex()


def copy(cursor: Any, table: str, columns: str, rows: Iterable[Sequence[object]]) -> None:
    """Inserts rows by COPY; None is NULL, and texts may have any characters."""
    copy_lines(cursor, table, columns, map(copy_line, rows))


def copy_lines(cursor: Any, table: str, columns: str, lines: Iterable[str]) -> None:
    """Inserts rows by COPY, of these lines."""
    file = io.StringIO()
    file.writelines(lines)
    if file.tell():
        file.seek(0)
        cursor.copy_expert(f"copy olr_keep.{table} ({columns}) from stdin", file, 1 << 18)


def copy_line(row: Sequence[object]) -> str:
    """A row as COPY reads it. Most have neither NULL nor a character that is escaped."""
    text = "\t".join(map(str, row))
    if None in row or "\\" in text or "\n" in text or "\r" in text or text.count("\t") >= len(row):
        text = "\t".join("\\N" if it is None else str(it).translate(ESCAPES) for it in row)
    return text + "\n"


def update(cursor: Any, statement: str, rows: Sequence[Sequence[object]]) -> None:
    """Runs a statement over rows of values."""
    if rows:
        psycopg2.extras.execute_values(cursor, statement, rows, page_size=2000)
