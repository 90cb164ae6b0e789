"""Looks at a log before it is served: whether it is whole, and has what it had when it was last served.

The text of a log that olr-keep wrote ends before its first carriage return, with its last whole record or batch. What stands behind
it was never answered: the program sets it aside, and it is no reason not to serve the log.
"""
import errno
import hashlib
import json
import os
from dataclasses import asdict, dataclass, fields, replace
from typing import Any, BinaryIO, Callable, Dict, Iterator, List, NamedTuple, Optional

from olr_keep_tools.files import replaced, unnamed_file

BLOCK = 1 << 20
DIGESTED = 1 << 16  # bytes at the end of a text of which a digest is noted
# The records that add to what a log leads to, and those that take away from it.
ADDS = {"nodes": (b"\nnode,", b"\ndrop-node,"), "lines": (b"\nline,", b"\ndrop-line,"), "paths": (b"\npath,", b"\ndrop-path,")}
# What an own log has in its records: printed ASCII without quotes.
OWN = bytes(it for it in range(32, 127) if it != ord('"')) + b"\n"
CUT_OFF = "its last line has no end: the file was cut off"
MOST_FEWER = 1.0  # percent
NOT_SERVED = 5  # the exit status
ALWAYS_ALLOWED = 10  # records that may be missing whatever the percentage
LEAST_ROOM, MOST_ROOM = 1 << 16, 1 << 20  # bytes by which the program lengthens a log, or a tenth of it
FULL = (errno.ENOSPC, errno.EDQUOT, errno.EFBIG)


@dataclass
class Contents:
    """How many nodes, lines and paths the records of a log lead to if all are accepted, and the bytes of these records."""

    nodes: int = 0
    lines: int = 0
    paths: int = 0
    size: int = 0

    @property
    def records(self) -> int:
        """The records that describe the map."""
        return self.nodes + self.lines

    def add(self, text: bytes) -> None:
        """Adds the records of whole lines."""
        lines = b"\n" + text
        has_drops = b"\ndrop-" in lines
        for name, (adds, takes) in ADDS.items():
            change = lines.count(adds) - (lines.count(takes) if has_drops else 0)
            setattr(self, name, getattr(self, name) + change)
        self.size += len(text)


class Finding(NamedTuple):
    """What was found of a log, and whether it speaks against serving it."""

    text: str
    is_against: bool = True


@dataclass
class Last:
    """What was noted of a log when it was last served. Version 2.0.0 noted no more than the start."""

    nodes: int = 0
    lines: int = 0
    paths: int = 0
    seconds: float = 0.0  # of the last start
    size: int = 0  # of the log at that start
    length: int = -1  # bytes of its text; -1 if its bytes were not noted
    digest: str = ""  # of the last block of them
    inode: int = 0
    compacting: bool = False  # it was about to be replaced by a dump, that is by another file with the same counts

    @property
    def contents(self) -> Contents:
        """What it had."""
        return Contents(self.nodes, self.lines, self.paths)


class Count:
    """Counts the records of a text that arrives in whole lines: those up to its last whole batch, which ends with a line that isn't
    empty."""

    def __init__(self, whole: Contents) -> None:
        self.whole, self.all, self.is_open = whole, replace(whole), False

    def take(self, text: bytes) -> None:
        """Takes the next lines."""
        lines, was_open = b"\n" + text, self.is_open
        commit = lines.rfind(b"\ncommit,")
        begin = lines.find(b"\nbegin\n", max(commit, 0))
        has_whole = commit >= 0 or not was_open
        self.is_open = begin >= 0 or not has_whole
        end = len(text[:begin] if begin >= 0 else text) if has_whole else 0
        # The line ends of empty lines are left out.
        end = len(text[:end].rstrip(b"\n")) + 1
        if end > 1:
            self.all.add(text[:end])
            self.whole, text = replace(self.all), text[end:]
        self.all.add(text)


class Scan:
    """Counts the records of a log that grows, and takes a digest of its end."""

    def __init__(self, name: str) -> None:
        self.name = name
        self.contents, self.digest, self.inode, self.is_own = Contents(), "", 0, False

    def update(self) -> bool:
        """Counts what the log has now. If it isn't any more what was counted before, and more, nothing is; returns whether it is."""
        with open(self.name, "rb") as file:
            inode, before = os.fstat(file.fileno()).st_ino, self.contents.size
            if self.inode and (inode != self.inode or digest_before(file, before) != self.digest):
                return False
            self.inode = inode
            if not before:
                file.seek(0)
                self.is_own = file.read(1) == b"\n"
            count = Count(self.contents)
            for text in self._lines(file):
                count.take(text)
            self.contents = count.whole
            self.digest = digest_before(file, count.whole.size)
        return True

    def _lines(self, file: BinaryIO) -> Iterator[bytes]:
        """The whole lines behind what was counted, up to the first carriage return of an own log."""
        at, size = self.contents.size, BLOCK
        while True:
            file.seek(at)
            block = file.read(size)
            text, returned, _ = block.partition(b"\r") if self.is_own else (block, b"", b"")
            end = text.rfind(b"\n") + 1
            if end:
                yield text[:end]
            if returned or len(block) < size:
                return
            at, size = at + end, size if end else 2 * size

    def last(self, before: Optional[Last]) -> Last:
        """What is to be noted of it, with the times of the start before."""
        found, before = self.contents, before or Last()
        last = Last(found.nodes, found.lines, found.paths, before.seconds, before.size, inode=self.inode)
        return replace(last, length=found.size, digest=self.digest) if self.is_own else last


def digest_before(file: BinaryIO, end: int) -> str:
    """A digest of the last block of so many bytes of a file."""
    start = max(0, end - DIGESTED)
    file.seek(start)
    return hashlib.sha256(file.read(end - start)).hexdigest()


def last_name(log: str) -> str:
    """The file beside a log that has what was noted of it."""
    return f"{log}.last"


def read_last(log: str) -> Optional[Last]:
    """What was noted of a log when it was last served; None if nothing was, or it can't be read. What is missing in it isn't compared."""
    try:
        with open(last_name(log), encoding="utf-8") as file:
            found: Dict[str, Any] = dict(json.load(file))
        kinds = {it.name: type(getattr(Last(), it.name)) for it in fields(Last)}
        return Last(**{name: kind(found[name]) for name, kind in kinds.items() if name in found})
    except (FileNotFoundError, ValueError, TypeError, OverflowError):
        return None


def write_last(log: str, last: Last) -> None:
    """Notes what is known of a log. It is on the disk when this returns."""
    with replaced(last_name(log)) as file:
        file.write(f"{json.dumps(asdict(last))}\n".encode())


def accept(log: str) -> None:
    """Notes what a log has as right, also once the program has replaced it by a dump."""
    scan = Scan(log)
    scan.update()
    write_last(log, replace(scan.last(read_last(log)), compacting=True))


def look(log: str, most_fewer: float = MOST_FEWER) -> List[Finding]:
    """What is found of a log before it is served. Raises OSError if it can't be read."""
    scan = Scan(log)
    scan.update()
    with open(log, "rb") as file:
        findings = own_findings(file, scan.contents.size) if scan.is_own else foreign_findings(file.read)
        size, names = os.fstat(file.fileno()).st_size, os.fstat(file.fileno()).st_nlink
    if not scan.is_own and not findings and size > len("\r\n") and not scan.contents.records + scan.contents.paths:
        findings = [Finding("it has no node, line or path")]
    if names > 1:
        findings.append(Finding(f"{log} has {names} names: when it is compacted, the others keep what it has now", False))
    last = read_last(log)
    if last is None and os.path.exists(last_name(log)):
        findings.append(Finding(f"{last_name(log)} can't be read: the log is compared with nothing", False))
    return findings + (missing(scan, last, most_fewer) if last else [])


def other_file(log: str) -> List[Finding]:
    """Whether a file has records and is no log: served, it would become one."""
    with open(log, "rb") as file:
        head = file.read(3)
    if head.startswith(b"\n") or not head.strip(b"\r\n"):
        return []
    return [Finding(f"{log} is no log but other records, such as a map, and would be replaced by one: --new --map {log} LOG makes one")]


def room_for_more(log: str) -> str:
    """Why a disk has no room for as much as the program lengthens a log by at once, or nothing."""
    try:
        size = os.stat(log).st_size
        with unnamed_file(os.path.dirname(os.path.realpath(log))) as file:
            os.posix_fallocate(file.fileno(), 0, max(min(max(size, LEAST_ROOM), MOST_ROOM), size // 10))
    except OSError as error:
        return os.strerror(error.errno or 0) if error.errno in FULL else ""
    return ""


def refusal(log: str) -> str:
    """What is said of a log that is not served."""
    return f"{log} is not served: look at it, and serve it with --accept if it is right"


def missing(scan: Scan, last: Last, most_fewer: float) -> List[Finding]:
    """Whether a log lacks what was noted of it. One that was replaced by a dump has the same counts, and other bytes."""
    log, now, is_noted = scan.name, scan.contents, last.length >= 0
    with open(log, "rb") as file:
        if is_noted and scan.is_own and now.size >= last.length and digest_before(file, last.length) == last.digest:
            return []
    if not now.records + now.paths and last.contents.records + last.paths:
        return [Finding(f"{log} has no record, and had {last.contents.records} of the map and {last.paths} paths")]
    if not is_noted or last.compacting and scan.inode != last.inode:
        return fewer(log, now, last, most_fewer)
    if now.size < last.length:
        return [Finding(f"{log} has {now.size} bytes of records, and had {last.length}: the last ones are missing")]
    return [Finding(f"{log} has other records before byte {last.length} than it had: it is another log, or an older copy that went on")]


def fewer(log: str, now: Contents, last: Last, most_fewer: float) -> List[Finding]:
    """Whether a log leads to fewer records or paths than when it was last served."""
    return [Finding(f"{log} has {here} {what}, and had {before}")
            for what, here, before in (("records of the map", now.records, last.contents.records), ("paths", now.paths, last.paths))
            if before - here > tolerated(before, most_fewer)]


def tolerated(before: int, most_fewer: float) -> float:
    """How many records may be missing where only counts can be compared."""
    return max(ALWAYS_ALLOWED, before * most_fewer / 100)


def own_findings(file: BinaryIO, size: int) -> List[Finding]:
    """What is found of a log that the program wrote and whose text has so many bytes."""
    at = 0
    while at < size:
        block = file.read(min(BLOCK, size - at))
        wrong = block.translate(None, OWN)[:1]
        if wrong or not block:
            return [Finding(f"byte {at + block.find(wrong)} is {wrong!r}: the program writes no such byte into a log")]
        at += len(block)
    return behind_text(file, size)


def behind_text(file: BinaryIO, at: int) -> List[Finding]:
    """What is found behind the text of a log. A part of a line alone, without padding, is left by no crash."""
    first, is_record, end = -1, True, b""
    while block := file.read(BLOCK):
        rest = block.lstrip(b"\r")
        first = at + len(block) - len(rest) if first < 0 and rest else first
        is_record, end = is_record and not block.translate(None, OWN), block[-1:]
        at += len(block)
    if is_record and end not in (b"", b"\n"):
        return [Finding(CUT_OFF)]
    text = f"from byte {first} on, behind its text, something was appended or left by a crash: no answered record is there, and it is set aside"
    return [Finding(text, False)] if first >= 0 else []


def foreign_findings(read: Callable[[int], bytes]) -> List[Finding]:
    """What is wrong with a file of records that the program didn't write, such as a map."""
    last = b""
    while block := read(BLOCK):
        last = (last + block)[-2:]
    if last and not last.endswith((b"\n", b"\r")):
        return [Finding(CUT_OFF)]
    return []
