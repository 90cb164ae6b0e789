"""Divides the program's output into whole replies."""
import re
from dataclasses import dataclass
from typing import Optional

PART = 1 << 20  # bytes of a long reply that are passed on together
# Replies of one line, and the first line of others.
ONE_LINE = re.compile(rb"(?:ok,0\n|held,[0-9]+\n|fault,[^\n]*\n)+")
HEAD = re.compile(rb"ok,([0-9]{1,18})\n")


class NoReply(Exception):
    """The program writes what is no reply."""


@dataclass(frozen=True)
class Span:
    """Whole replies that follow each other: their number and their text. `lines` is whether they are one reply that has lines; its
    number is 0 if more of its lines follow."""

    count: int
    text: bytes
    lines: bool


def end_of_lines(text: bytearray, at: int, count: int) -> int:
    """The end of so many lines that are there."""
    for _ in range(count):
        at = text.index(b"\n", at) + 1
    return at


class Replies:
    """Bytes as they arrive, from which whole replies are taken."""

    def __init__(self) -> None:
        self.buffer = bytearray()
        self.at = 0  # where the next reply begins
        self.plain_end = 0  # the end of the replies of one line that were found there
        self.scanned = 0  # in a reply with lines: how far they were counted
        self.missing = 0  # its lines that are not there yet

    def feed(self, data: bytes) -> None:
        """Adds bytes."""
        if self.at:
            del self.buffer[: self.at]
            self.plain_end, self.scanned, self.at = max(0, self.plain_end - self.at), self.scanned - self.at, 0
        self.buffer += data

    def take(self, most: int, in_parts: bool = False) -> Optional[Span]:
        """The next replies: several of one line, at most so many, or one with its lines, or a part of these. None if the next one
        isn't whole yet."""
        if self.missing:
            return self._lines(in_parts)
        if self.at >= self.plain_end:
            found = ONE_LINE.match(self.buffer, self.at)
            if found is None:
                return self._head(in_parts)
            self.plain_end = found.end()
        if most == 1:
            return self._span(end_of_lines(self.buffer, self.at, 1), 1, False)
        count = self.buffer.count(b"\n", self.at, self.plain_end)
        if count <= most:
            return self._span(self.plain_end, count, False)
        return self._span(end_of_lines(self.buffer, self.at, most), most, False)

    def _head(self, in_parts: bool) -> Optional[Span]:
        """Reads the first line of a reply with lines."""
        found = HEAD.match(self.buffer, self.at)
        if found is None:
            end = self.buffer.find(b"\n", self.at, self.at + 4096)
            if end >= 0 or len(self.buffer) - self.at > 4096:
                raise NoReply(repr(bytes(self.buffer[self.at : self.at + 80])))
            return None
        self.missing, self.scanned = int(found[1]), found.end()
        return self._lines(in_parts)

    def _lines(self, in_parts: bool) -> Optional[Span]:
        """The reply whose lines are counted, once all are there, or as many as make a part."""
        count = self.buffer.count(b"\n", self.scanned)
        if count < self.missing:
            self.missing, self.scanned = self.missing - count, max(self.scanned, self.buffer.rfind(b"\n", self.scanned) + 1)
            is_part = in_parts and self.scanned - self.at >= PART
            return self._span(self.scanned, 0, True) if is_part else None
        self.scanned, self.missing = end_of_lines(self.buffer, self.scanned, self.missing), 0
        return self._span(self.scanned, 1, True)

    def _span(self, end: int, count: int, lines: bool) -> Span:
        text = bytes(self.buffer[self.at : end])
        self.at = end
        return Span(count, text, lines)
