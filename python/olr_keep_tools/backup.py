"""A copy of a log that olr-keep may be writing to.

The program writes records over carriage returns behind the text, and never changes the text. So what stands before the first
carriage return that is read was there at some moment, whatever is written meanwhile; a copy by blocks may have a gap behind it.
"""
from typing import BinaryIO, Iterator

from .command import STREAM, Failure
from .files import FileFailure, refuse_inputs, replaced


def whole(log: BinaryIO) -> Iterator[bytes]:
    """The first line of a log, which is empty, and its whole records and batches."""
    batch: "list[bytes]" = []
    for line in log:
        if b"\r" in line or not line.endswith(b"\n"):
            return
        batch.append(line)
        if batch[0] != b"begin\n" or line.startswith(b"commit,"):
            yield from batch
            batch.clear()


def copy(log: str, to: str) -> int:
    """Copies a log, and syncs the copy before it gets its name. Returns how many records it has, `begin` and `commit` counted."""
    refuse_inputs([to], [log])
    count = -1
    with open(log, "rb") as file:
        if file.read(1) != b"\n":
            raise Failure(STREAM, f"{log} doesn't begin with an empty line: it is not a log that olr-keep has written")
        file.seek(0)
        try:
            with replaced(to) as copied:
                for line in whole(file):
                    copied.write(line)
                    count += 1
        except OSError as error:
            raise FileFailure(f"{to}: {error.strerror}") from None
    return count
