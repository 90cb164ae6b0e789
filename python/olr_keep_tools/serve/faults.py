"""The faults of the service itself: `fault,0,WORD,TEXT`. The faults of the program have numbers from 1."""
import enum


class Word(enum.Enum):
    """Why the service didn't have a record carried out, or doesn't know whether it was."""

    NOT_KNOWN = "NotKnown"
    NOT_SERVED = "NotServed"
    NOT_COMPACTED = "NotCompacted"
    LINE_TOO_LONG = "LineTooLong"
    NO_LINE_END = "NoLineEnd"
    NO_COMMIT = "NoCommit"
    TOO_MUCH_WAITS = "TooMuchWaits"
    CONNECTIONS = "Connections"
    IDLE = "Idle"
    NO_POSITION = "NoPosition"
    TABLE = "Table"


# Faults of the program that the service reports for a batch that has not reached it.
BATCH_OPEN = b"fault,14,BatchOpen\n"
COUNT_DIFFERS = b"fault,16,CountDiffers"
BATCH_FULL = b"fault,17,BatchFull\n"
ACCEPTED = b"ok,0\n"


def fault(word: Word, text: str) -> bytes:
    """The line of a fault of the service."""
    return f"fault,0,{word.value},{text}\n".encode("utf-8", "replace")
