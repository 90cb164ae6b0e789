"""Divides what a connection sends into records."""
import csv
import enum
import re
from dataclasses import dataclass
from typing import Iterator, List

from olr_keep_tools.replies import NO_RECORD, is_one_record

MOST_LINE = 1 << 20  # bytes of a line
# Changes of the map and of paths without quotes, other than `drop-path`, which follow each other.
CHANGES = re.compile(rb"(?:(?:node|move|line|set-line|drop-node|drop-line|path|repath|margin),[^\n]*\n)+")
DROPS = re.compile(rb"(?:drop-path,[^\n]*\n)+")
COMMIT = re.compile(rb"commit,[0-9]{1,20}")
# What is taken alone: questions whose replies may be long, and `preview`.
LONG = frozenset(b"report dump ambiguous depends compact".split())
ALONE = LONG | {b"preview"}
CHANGE_WORDS = frozenset(b"node move line set-line drop-node drop-line path repath drop-path margin".split())
MOST_COUNT = 4294967295


class Sort(enum.Enum):
    """What a piece of the input is."""

    CHANGES = enum.auto()
    DROP_PATH = enum.auto()
    BEGIN = enum.auto()
    COMMIT = enum.auto()
    ABORT = enum.auto()
    ALONE = enum.auto()
    OTHER = enum.auto()  # questions, or what is no record
    TOO_LONG = enum.auto()


@dataclass(frozen=True)
class Piece:
    """Lines that follow each other, with their ends: several changes, paths that are dropped, or others, or one line of another sort."""

    sort: Sort
    text: bytes
    count: int = 1


def plain(line: bytes) -> bytes:
    """A line with a quote or a carriage return as the program has to read it: without quotes that aren't needed, or, if it is not
    one record or has nothing in its quotes, a line that is rejected. Only an empty line is none."""
    line = line.rstrip(b"\r")
    if not line:
        return b""
    if not is_one_record(line):
        return NO_RECORD
    csv.field_size_limit(MOST_LINE + 1)
    fields = next(csv.reader([line.decode("latin-1").replace("\0", "\1")]))
    text = ",".join(fields).encode("latin-1")
    is_same = not any(set(it) & set(',"\1') for it in fields)
    return text or NO_RECORD if is_same else line


def sort_of(line: bytes) -> Sort:
    """What a line is, by its command word."""
    word = line.partition(b",")[0]
    if word == b"drop-path":
        return Sort.DROP_PATH
    if word in CHANGE_WORDS:
        return Sort.CHANGES
    if line == b"begin":
        return Sort.BEGIN
    if line == b"abort":
        return Sort.ABORT
    if word in ALONE:
        return Sort.ALONE
    return Sort.COMMIT if COMMIT.fullmatch(line) and int(line[7:]) <= MOST_COUNT else Sort.OTHER


def pieces(block: bytes) -> Iterator[Piece]:
    """The pieces of whole lines."""
    if b'"' in block or b"\r" in block or block.startswith(b"\n") or b"\n\n" in block:
        kept: List[bytes] = [plain(it) if b'"' in it or b"\r" in it else it for it in block.split(b"\n")]
        block = b"".join(it + b"\n" for it in kept if it)
    at = 0
    while at < len(block):
        for sort, many in (Sort.CHANGES, CHANGES), (Sort.DROP_PATH, DROPS):
            if found := many.match(block, at):
                yield Piece(sort, found[0], found[0].count(b"\n"))
                at = found.end()
                break
        else:
            piece = others(block, at)
            yield piece
            at += len(piece.text)


def others(block: bytes, at: int) -> Piece:
    """The lines from here on that are neither changes nor taken alone, or the one line that is."""
    end, count = at, 0
    while end < len(block):
        after = block.index(b"\n", end) + 1
        sort = sort_of(block[end : after - 1])
        if sort is not Sort.OTHER:
            return Piece(Sort.OTHER, block[at:end], count) if count else Piece(sort, block[at:after])
        end, count = after, count + 1
    return Piece(Sort.OTHER, block[at:end], count)


class Input:
    """The bytes of a connection, as they arrive."""

    def __init__(self) -> None:
        self.rest = bytearray()
        self.is_skipping = False  # within a line that is too long

    def feed(self, data: bytes) -> Iterator[Piece]:
        """The pieces up to the last whole line."""
        end = data.rfind(b"\n") + 1
        if not end:
            self._add(data)
            return
        first = data.index(b"\n") + 1
        if self.is_skipping or len(self.rest) + first > MOST_LINE + 1:
            yield Piece(Sort.TOO_LONG, b"")
            self.is_skipping, block = False, data[first:end]
        else:
            block = bytes(self.rest) + data[:end] if self.rest else data[:end]
        self.rest.clear()
        yield from pieces(block)
        self._add(data[end:])

    def _add(self, data: bytes) -> None:
        """Adds a part of a line, unless it is too long."""
        if not self.is_skipping:
            self.rest += data
        if len(self.rest) > MOST_LINE:
            self.rest.clear()
            self.is_skipping = True

    @property
    def is_cut(self) -> bool:
        """Whether the last line has no end."""
        return bool(self.rest) or self.is_skipping
