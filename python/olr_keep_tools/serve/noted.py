"""What was last written to the table, in a file beside the log."""
import os
import re
from typing import NamedTuple, Optional

NOTED = re.compile(rb"([0-9a-f]{16}) ([0-9]{19})\n")


class Point(NamedTuple):
    """The identity of a table, and the position of its last change."""

    identity: str
    position: int

    def is_before(self, other: "Point") -> bool:
        """Whether a table at the other point may have been at this one."""
        return self.identity == other.identity and self.position <= other.position


class Noted:
    """The file. It is written after each transaction, in place: what a kill leaves is at most one transaction behind the table. It is
    not synced, since what the system loses with its power is more than made up for by the positions that are skipped."""

    def __init__(self, name: str) -> None:
        self.file = os.open(name, os.O_RDWR | os.O_CREAT | os.O_CLOEXEC, 0o640)

    def read(self) -> Optional[Point]:
        """The point at which the table was; None if that isn't known."""
        found = NOTED.fullmatch(os.pread(self.file, 64, 0))
        return Point(found[1].decode("ascii"), int(found[2])) if found else None

    def write(self, point: Point) -> None:
        """Notes another point."""
        os.pwrite(self.file, b"%s %019d\n" % (point.identity.encode("ascii"), point.position), 0)

    def close(self) -> None:
        """Closes the file."""
        os.close(self.file)
