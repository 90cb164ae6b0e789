"""What a crash may leave of the files that a program wrote, by the events that `trace.c` noted.

What a file holds is certain once it is synced, and the names in a folder once the folder is. Of what was written since, each
sector of 512 bytes may be there or not, in any order; behind the old end of a file anything may stand; of the names that were
made, changed or removed the first ones may be there.
"""
import fnmatch
import os
import re
from dataclasses import dataclass, field
from random import Random
from typing import Callable, Collection, Dict, Iterator, List, NamedTuple, Optional, Tuple, Union

MARK, HEAD = b"@EVENT@ ", re.compile(rb"@EVENT@ (\w+) (\d+) (-?\d+) (\d+)\n")
SECTOR = 512
CREATE, CUT = 0o100, 0o1000


class Event(NamedTuple):
    """A call that succeeded."""

    kind: str
    file: int
    at: int
    data: bytes

    def names(self) -> Tuple[str, str]:
        """The names of a call that has some."""
        first, second = self.data.decode().split("\0")
        return first, second


def events(trace: str) -> Iterator[Event]:
    """The events in a file that `trace.c` wrote. One that is cut is left out: the process was killed while it was noted."""
    with open(trace, "rb") as file:
        text = file.read()
    at = text.find(MARK)
    while at >= 0:
        head = HEAD.match(text, at)
        end = head.end() + int(head[4]) if head else len(text) + 1
        if head and (end == len(text) or text.startswith(MARK, end)):
            yield Event(head[1].decode(), int(head[2]), int(head[3]), text[head.end() : end])
            at = end if end < len(text) else -1
        else:
            at = text.find(MARK, at + 1)


@dataclass
class File:
    """A file: what is certain of it, what it holds, and what was done to it since the last sync."""

    synced: bytes = b""
    now: bytes = b""
    pending: List[Event] = field(default_factory=list)

    def do(self, event: Event) -> None:
        """Writes to the file, or cuts it or makes it longer."""
        self.now = changed(self.now, event)
        self.pending.append(event)

    def find(self, content: bytes) -> None:
        """It holds this, of which not all was noted that wrote it."""
        if len(content) < len(self.now):
            self.do(Event("cut", 0, len(content), b""))
        at = next((k for k, (one, other) in enumerate(zip(content, self.now)) if one != other), len(self.now))
        if content[at:] != self.now[at:]:
            self.do(Event("write", 0, at, content[at:]))

    def sync(self) -> None:
        """What was written since the last sync is certain. A change that an earlier process failed to sync isn't."""
        for event in self.pending:
            self.synced = changed(self.synced, event)
        self.pending = []

    def after_crash(self, rnd: Random) -> bytes:
        """One of the contents that a crash may leave."""
        if not self.pending or rnd.random() < 0.2:
            return rnd.choice((self.synced, self.now))
        content = self.synced
        for event in self.pending:
            if event.kind == "cut":
                content = changed(content, event) if rnd.random() < 0.5 else content
                continue
            for part in sectors(event):
                if rnd.random() < 0.5:
                    content = changed(content, part, rnd)
        return content


def changed(content: bytes, event: Event, rnd: Optional[Random] = None) -> bytes:
    """A content after a write or a cut. What a write leaves out behind the old end is zero, or anything."""
    if event.kind == "cut":
        return content[: event.at].ljust(event.at, b"\0")
    gap = max(0, event.at - len(content))
    fill = rnd.choice((b"\0", b"\r", b"node,7777,0,0\n")) if rnd else b"\0"
    content += (fill * gap)[:gap]
    return content[: event.at] + event.data + content[event.at + len(event.data) :]


def sectors(event: Event) -> Iterator[Event]:
    """A write, by the sectors of the disk."""
    at, end = event.at, event.at + len(event.data)
    while at < end:
        until = min(end, at // SECTOR * SECTOR + SECTOR)
        yield event._replace(at=at, data=event.data[at - event.at : until - event.at])
        at = until


class Disk:
    """The files of one folder, or those of them that have such names, and what is certain of them."""

    def __init__(self, folder: str, only: Collection[str] = ()) -> None:
        self.folder, self.only, self.answered = os.path.realpath(folder), only, b""
        self.names: Dict[str, File] = {}
        self.certain: Dict[str, File] = {}
        self.renames: List[Callable[[Dict[str, File]], object]] = []
        self.opened: Dict[int, Union[File, str]] = {}

    def put(self, name: str, now: bytes, synced: Optional[bytes] = None) -> None:
        """A file is there before the first event. With `synced` an earlier process failed to sync more than this of it, and to sync
        its name."""
        self.names[name] = File(now if synced is None else synced, now)
        self.certain = {} if synced is not None else dict(self.names)

    def name_in(self, name: str) -> Optional[str]:
        """The name in the folder, or None if it is another folder's."""
        path = os.path.join(os.path.realpath(os.path.dirname(name) or "."), os.path.basename(name))
        found = os.path.basename(path)
        return found if os.path.dirname(path) == self.folder and self.has(found) else None

    def has(self, name: str) -> bool:
        """Whether it is about files of this name."""
        return not self.only or any(fnmatch.fnmatch(name, it) for it in self.only)

    def rename(self, change: Callable[[Dict[str, File]], object]) -> None:
        """Changes the names, which isn't certain yet."""
        change(self.names)
        self.renames.append(change)

    def open(self, event: Event) -> None:
        """A file or the folder is opened, and made if it is missing."""
        path, self.opened[event.file] = event.names()[0], ""
        name = self.name_in(path)
        if os.path.realpath(path) == self.folder:
            self.opened[event.file] = self.folder
        elif name is not None:
            if name not in self.names and event.at & CREATE:
                made = File()
                self.rename(lambda names: names.__setitem__(name, made))
            elif name not in self.names:
                # It was there before, with a content that isn't looked at.
                self.names[name] = self.certain[name] = File()
            self.opened[event.file] = file = self.names[name]
            if event.at & CUT and file.now:
                file.do(event._replace(kind="cut", at=0))

    def sync(self, event: Event) -> None:
        """A file, or the names in the folder, are certain."""
        opened = self.opened.get(event.file, "")
        if isinstance(opened, File):
            opened.sync()
        elif opened == self.folder:
            self.certain, self.renames = dict(self.names), []

    def take(self, event: Event) -> None:
        """What the disk is after a call."""
        opened = self.opened.get(event.file, "")
        if event.kind == "open":
            self.open(event)
        elif event.kind == "close":
            self.opened.pop(event.file, None)
        elif event.kind in ("write", "cut") and isinstance(opened, File):
            opened.do(event)
        elif event.kind == "found" and isinstance(opened, File) and opened.now != event.data:
            opened.find(event.data)
        elif event.kind == "sync":
            self.sync(event)
        elif event.kind == "answer":
            self.answered += event.data
        elif event.kind in ("rename", "remove"):
            first, second = map(self.name_in, event.names())
            if event.kind == "remove" and first in self.names:
                self.rename(lambda names: names.pop(first, None))
            elif event.kind == "rename" and first in self.names and second is not None:
                self.rename(lambda names: names.__setitem__(second, names.pop(first)))

    def uncertain(self, name: str) -> str:
        """Why it isn't certain what a file of this name holds, or nothing."""
        if self.certain.get(name) is not self.names.get(name):
            return f"the name {name} is not synced"
        file = self.names.get(name)
        if file and file.pending:
            return f"{len(file.pending)} writes of {name} are not synced"
        return f"{name} is not what is on the disk" if file and file.synced != file.now else ""

    def crash(self, rnd: Random, into: str) -> None:
        """Writes the files that a crash at this moment may leave to another folder, or to this one. What is there remains the same file."""
        names = dict(self.certain)
        for change in self.renames[: rnd.randint(0, len(self.renames))]:
            change(names)
        for name, file in names.items():
            with open(f"{into}/{name}", "wb") as copy:
                copy.write(file.after_crash(rnd))
        for name in {*filter(self.has, os.listdir(into))} - {*names}:
            os.unlink(f"{into}/{name}")
