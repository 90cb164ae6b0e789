"""Follows the changes of a service, whatever ends meanwhile, and hands each event to a sink.

    follow(lambda sink: Reader("/run/olr-keep/changes", sink), sink)

A sink has the identity and the position up to which it has taken events, from its last run on; `changes,POSITION,IDENTITY` goes on
from there. An event is a change, or all that is published, where the changes since then are not known. history.py follows
tools/live in the same way.
"""
import contextlib
import select
import socket
import time
from typing import Callable, Dict, Iterator, List, NamedTuple, Optional, Protocol, Union

from .command import say
from .reasons import in_words

FIRST = "-"  # the identity that is asked for at first
WAIT = 1.0  # seconds after which a sink is notified that nothing follows yet, and before the service is asked again
BLOCK = 1 << 16
Json = Dict[str, object]


class Changed(NamedTuple):
    """A change of the answer of a path, or in tools/live of its state. There several have a position, the round, by name."""

    identity: str
    position: int
    name: str
    answer: str
    state: Optional[str] = None
    is_last: bool = True

    def as_json(self) -> Json:
        """The event as an object of JSON."""
        what: Json = {"identity": self.identity, "position": self.position, "name": self.name}
        what.update({"state": self.state} if self.state else {})
        kind, _, rest = self.answer.partition(",")
        if kind == "text":
            return {"event": "changed", **what, "string": rest}
        return {"event": "dropped", **what} if kind == "dropped" else {"event": "changed", **what, "reason": self.answer, "words": in_words(self.answer)}

    @property
    def key(self) -> str:
        """What only this event has."""
        return f"{self.identity}-{self.position}-{self.name}"

    @property
    def after(self) -> str:
        """Its name, if others of its position follow."""
        return "" if self.is_last else self.name


class Whole(NamedTuple):
    """All that is published after a position: the answer of each path."""

    identity: str
    position: int
    answers: Dict[str, str]

    def as_json(self) -> Json:
        """The event as an object of JSON: the strings by name, and the reasons of paths that have none."""
        strings = {name: it[5:] for name, it in self.answers.items() if it.startswith("text,")}
        reasons = {name: it for name, it in self.answers.items() if not it.startswith("text,")}
        return {"event": "whole", "identity": self.identity, "position": self.position, "strings": strings, "reasons": reasons}

    @property
    def key(self) -> str:
        """What only this event has."""
        return f"{self.identity}-{self.position}"

    @property
    def after(self) -> str:
        """Nothing, since no other event of its position follows."""
        return ""


Event = Union[Changed, Whole]


class Sink(Protocol):
    """What takes events in their order. It stores what it took with `identity` and `position`, so that none is lost. Of a position
    with several changes it has those up to the name in `after`; if this is empty, all."""

    identity: str
    position: int
    after: str

    def take(self, event: Event) -> None:
        """Takes an event."""

    def rest(self) -> None:
        """No event follows at the moment."""


class Broken(Exception):
    """Why a connection gives no more events."""


class Reader:
    """A connection to the changes of a service."""

    def __init__(self, name: str, sink: Sink):
        self.identity, self.position, self.text = sink.identity or FIRST, sink.position, b""
        self.waiting: List[str] = []
        self.socket = socket.socket(socket.AF_UNIX)
        try:
            self.socket.connect(name)
            self.socket.sendall(f"changes,{self.position},{self.identity}\n".encode())
        except OSError as error:
            self.socket.close()
            raise Broken(f"{name}: {error.strerror}") from None

    def close(self) -> None:
        """Ends the connection."""
        self.socket.close()

    def line(self) -> str:
        """The next line; it is waited for."""
        while (found := self.line_now(None)) is None:
            pass
        return found

    def line_now(self, wait: Optional[float] = WAIT) -> Optional[str]:
        """The next line, or None if there is none within this time."""
        if not self.waiting:
            if not select.select([self.socket], [], [], wait)[0]:
                return None
            try:
                block = self.socket.recv(BLOCK)
            except OSError as error:
                raise Broken(str(error.strerror)) from None
            if not block:
                raise Broken("the service has ended the connection")
            *lines, self.text = (self.text + block).split(b"\n")
            self.waiting = [it.decode("ascii", "replace") for it in reversed(lines)]
        return self.waiting.pop() if self.waiting else None

    def events(self) -> Iterator[Optional[Event]]:
        """The events, and None where none follows at the moment."""
        while True:
            line = self.line_now()
            if line is None:
                yield None
                continue
            word, _, rest = line.partition(",")
            if word == "identity":
                self.identity = rest
            elif word == "whole":
                yield self.whole(*map(int, rest.split(",")))
            elif word.isdecimal() and int(word) == self.position + 1:
                self.position += 1
                name, _, answer = rest.partition(",")
                yield Changed(self.identity, self.position, name, answer)
            else:
                raise Broken(f"it says {line[:200]!r} after position {self.position}")

    def whole(self, position: int, count: int) -> Whole:
        """All that is published."""
        rows = (self.line().partition(",") for _ in range(count))
        self.position = position
        return Whole(self.identity, position, {name: answer for name, _, answer in rows})


class Connection(Protocol):
    """What gives events from the position of a sink on."""

    def events(self) -> Iterator[Optional[Event]]:
        """The events, and None where none follows at the moment."""

    def close(self) -> None:
        """Ends the connection."""


def follow(connect: Callable[[Sink], Connection], sink: Sink) -> None:
    """Hands the events of a service to a sink, without an end."""
    said = ""
    while True:
        try:
            with contextlib.closing(connect(sink)) as reader:
                for event in reader.events():
                    said = ""
                    if event:
                        sink.take(event)
                    else:
                        sink.rest()
        except Broken as why:
            sink.rest()
            if said != str(why):
                said = str(why)
                say(f"{said}; asks again")
            time.sleep(WAIT)
