"""Replies of olr-keep, from a stream of text such as the file of replies of a service.

    with open("replies", encoding="ascii") as file:
        while reply := read_reply(file):
            print(reply.accepted, reply.lines)

`olr_keep_tools.program` runs the program itself.
"""
import re
from typing import List, NamedTuple, Optional, Protocol, Union

QUOTES = re.compile(rb'"+')

# The first line of a reply.
HEAD = re.compile(r"(ok|held|fault),([0-9]{1,18})(?:,(.*))?")

# A line that is always rejected, to be sent in place of a record that would continue after its line end.
NO_RECORD = b"?"


class NoReply(ValueError):
    """A text that is no reply of olr-keep."""


class Readable(Protocol):
    """A stream of lines of text."""

    def readline(self) -> str:
        """The next line with its end, or nothing at the end of the stream."""


def is_one_record(line: Union[bytes, str]) -> bool:
    """Whether this text is one record on one line: neither empty, nor with a line end or an open quote. A field that begins with a
    quote is open until an odd number of quotes in a row; then text may follow. Other fields may have quotes."""
    text = line if isinstance(line, bytes) else line.encode("utf-8", "surrogateescape")
    if not text or b"\n" in text or b"\r" in text:
        return False
    is_open = False
    for run in QUOTES.finditer(text):
        at, end = run.span()
        if (end - at) % 2 and (is_open or not at or text[at - 1 : at] == b","):
            is_open = not is_open
    return not is_open


class Head(NamedTuple):
    """The first line of a reply: `ok` with the number of lines that follow, `held` with that of the record, or `fault` with its
    number and what follows it."""

    word: str
    number: int
    rest: str = ""

    @classmethod
    def of(cls, line: str) -> "Head":
        """The first line of a reply. Raises NoReply for another text."""
        if not (found := HEAD.fullmatch(line)):
            raise NoReply(f"this is no reply of olr-keep: {line[:200]!r}")
        return cls(found[1], int(found[2]), found[3] or "")

    @property
    def following(self) -> int:
        """How many lines follow."""
        return self.number if self.word == "ok" else 0


class Reply(NamedTuple):
    """The reply to one record: `ok` with the lines that it counts, `held`, or `fault`."""

    word: str
    number: int
    rest: str
    lines: List[str]

    @property
    def accepted(self) -> bool:
        """Whether the record was accepted, or is held by a batch."""
        return self.word != "fault"

    @property
    def head(self) -> str:
        """The first line of the reply."""
        return ",".join([self.word, str(self.number), *([self.rest] if self.rest else [])])

    def text(self) -> str:
        """The reply as it was written."""
        return "".join(f"{line}\n" for line in [self.head, *self.lines])


UNCHANGED = Reply("ok", 0, "", [])


def whole_line(stream: Readable) -> Optional[str]:
    """The next line without its end, or None at the end of the stream. A line that was cut off raises EOFError."""
    line = stream.readline()
    if line and not line.endswith("\n"):
        raise EOFError(f"a reply was cut off: {line[:200]!r}")
    return line[:-1] if line else None


def read_reply(stream: Readable) -> Optional[Reply]:
    """The next reply of a stream of text, or None at its end.

    Raises EOFError for a reply that was cut off, and NoReply, a ValueError, for a text that is none.
    """
    first = whole_line(stream)
    if first is None:
        return None
    head, lines = Head.of(first), []
    for _ in range(head.following):
        if (line := whole_line(stream)) is None:
            raise EOFError(f"lines are missing after {first}")
        lines.append(line)
    return Reply(*head, lines)
