"""What is passed to the program: changes, questions and batches, each with the replies that it gets."""
import enum
import re
from dataclasses import dataclass, field
from typing import Iterator, List, NamedTuple, Optional, Protocol, Tuple

from olr_keep_tools.serve.faults import COUNT_DIFFERS, Word, fault
from olr_keep_tools.serve.framing import Span
from olr_keep_tools.serve.lines import LONG

FAULT = re.compile(rb"^fault,([^\n]*)\n", re.M)
REJECTED_COUNT = COUNT_DIFFERS + b"\n"
SHOWN = 100
# How many records a question counts as while its reply is awaited: one whose reply may be long, and another one.
WEIGHT, OF_QUESTION = 1 << 17, 8


class Kind(enum.Enum):
    """What the records of a job are."""

    CHANGES = enum.auto()
    DROP_PATH = enum.auto()
    QUESTION = enum.auto()
    BATCH = enum.auto()
    PREVIEW = enum.auto()  # a batch that ends with `preview` and `abort`

    @property
    def is_batch(self) -> bool:
        """Whether one reply is given for all records."""
        return self in (Kind.BATCH, Kind.PREVIEW)


class Change(NamedTuple):
    """A path whose answer has changed, and its answer; None if it was dropped."""

    name: str
    answer: Optional[str]


class Owner(Protocol):
    """Who gets the replies to a job."""

    @property
    def user(self) -> str:
        """The name of its user."""

    def reply(self, text: bytes) -> None:
        """Takes whole replies to its oldest job."""

    def cut(self) -> None:
        """The reply of which it has a part has no end."""

    def finish(self, job: "Job") -> None:
        """A job of its has all its replies, in the order in which they were sent."""


@dataclass(eq=False)
class Job:
    """Records for the program. `count` is the number of replies that they get from it."""

    owner: Owner
    kind: Kind
    text: bytes
    count: int
    done: int = 0
    sent_at: float = 0.0
    rejected: int = 0
    cause: bytes = b""  # of a batch: the first change that was rejected, and its fault
    changes: List[Change] = field(default_factory=list)
    has_begun: bool = False  # a part of its reply was passed on

    @property
    def is_long(self) -> bool:
        """Whether its reply may be long."""
        return self.kind is Kind.QUESTION and self.text.rstrip(b"\n").partition(b",")[0] in LONG

    @property
    def is_compact(self) -> bool:
        """Whether it asks that the log be replaced by a dump."""
        return self.kind is Kind.QUESTION and self.text == b"compact\n"

    @property
    def weight(self) -> int:
        """How many records it counts as while its replies are awaited."""
        return WEIGHT if self.is_long else self.count * self.weight_of_one

    @property
    def weight_of_one(self) -> int:
        """How many records each of its records counts as, if it isn't long."""
        return OF_QUESTION if self.kind is Kind.QUESTION else 1

    def next_most(self) -> int:
        """How many of the next replies may be taken together."""
        if self.kind.is_batch:
            return max(1, self.count - 2 - self.done)
        return self.count - self.done

    def take(self, span: Span) -> bytes:
        """Notes replies, and returns what its owner gets for them."""
        first, self.done = self.done, self.done + span.count
        self.has_begun |= not span.count
        if self.kind.is_batch:
            return self._take_of_batch(first, span)
        if not span.lines:
            self.rejected += span.text.count(b"fault,")
        if self.kind is Kind.CHANGES and span.lines:
            self.changes += answers(span.text)
        elif self.kind is Kind.DROP_PATH:
            asked = self.text.split(b"\n")[first : first + span.count]
            self.changes += [Change(name_of(it), None) for it, reply in zip(asked, span.text.split(b"\n")) if reply.startswith(b"ok")]
        return span.text

    def uncompacted(self, why: str) -> bytes:
        """What its owner gets if the log could not be replaced. The program has accepted it."""
        self.rejected += 1
        return fault(Word.NOT_COMPACTED, f"the log is used as it is: {why}")

    def _take_of_batch(self, first: int, span: Span) -> bytes:
        """The replies to `begin` and to changes were given before; then come those to `commit` or `preview`, and to `abort`."""
        if first < self.count - 2:
            found = None if self.cause else FAULT.search(span.text)
            if found:
                number = first + span.text.count(b"\n", 0, found.start())
                self.cause = b"%d,%s" % (number, found[1])
            return b""
        if first == self.count - 1:
            return b""
        if self.kind is Kind.PREVIEW and self.cause:
            return b"%s,%s\n" % (COUNT_DIFFERS, self.cause)
        if span.text.startswith(b"ok"):
            if self.kind is Kind.BATCH:
                self.changes = [*dropped(self.text), *answers(span.text)]
            return span.text
        self.rejected += 1
        return b"%s,%s\n" % (COUNT_DIFFERS, self.cause) if span.text == REJECTED_COUNT and self.cause else span.text

    def split(self, most: int) -> "Job":
        """The first records of this job as a job of its own; the others remain."""
        end = 0
        for _ in range(most):
            end = self.text.index(b"\n", end) + 1
        part = Job(self.owner, self.kind, self.text[:end], most)
        self.text, self.count = self.text[end:], self.count - most
        return part

    def not_known(self) -> bytes:
        """What its owner gets for the records without a reply if the program ended."""
        if self.kind is Kind.PREVIEW:
            return b"" if self.done == self.count - 1 else fault(Word.NOT_KNOWN, "ask for the preview again")
        if self.kind is Kind.BATCH:
            if self.done == self.count - 1:
                return b""
            first = self.text.split(b"\n", 2)[1]
            return fault(Word.NOT_KNOWN, f"of the whole batch; ask {question_about(first)}")
        lines = self.text.splitlines()[self.done :]
        return b"".join(fault(Word.NOT_KNOWN, f"ask {question_about(it)}") for it in lines)

    def not_served(self, why: str) -> bytes:
        """What its owner gets if it was not sent to the program."""
        return fault(Word.NOT_SERVED, why) * (1 if self.kind.is_batch else self.count)


def batch(owner: Owner, changes: List[bytes], count: int) -> Job:
    """A batch with its `begin` and `commit`. An `abort` follows, which is rejected if the commit was accepted."""
    return Job(owner, Kind.BATCH, b"".join([b"begin\n", *changes, b"commit,%d\nabort\n" % count]), count + 3)


def preview(owner: Owner, changes: List[bytes], count: int) -> Job:
    """What a batch of these changes would change. It is aborted."""
    return Job(owner, Kind.PREVIEW, b"".join([b"begin\n", *changes, b"preview\nabort\n"]), count + 3)


def answers(reply: bytes) -> List[Change]:
    """The answers in the lines of a reply."""
    lines = reply.decode("latin-1").split("\n")[1:-1]
    return [Change(*it.split(",", 1)) for it in lines]


def name_of(line: bytes) -> str:
    """The name of a path in a record."""
    return line.split(b",", 2)[1].decode("latin-1")


def dropped(text: bytes) -> Iterator[Change]:
    """The paths that the accepted records of a batch drop and don't register again."""
    names = set()
    if b"\ndrop-path," in text:
        for line in text.split(b"\n"):
            if line.startswith(b"drop-path,"):
                names.add(name_of(line))
            elif line.startswith(b"path,"):
                names.discard(name_of(line))
    return (Change(it, None) for it in sorted(names))


def question_about(line: bytes) -> str:
    """The question that shows whether a change took effect; for a question, itself."""
    word, number = words_of(line)
    if word in ("node", "move", "drop-node"):
        return f"show-node,{number}"
    if word in ("line", "set-line", "drop-line"):
        return f"show-line,{number}"
    if word in ("path", "repath", "drop-path"):
        return f"show,{number}"
    if word == "margin":
        return "show-margin"
    return line[:SHOWN].decode("latin-1")


def words_of(line: bytes) -> Tuple[str, str]:
    """The command word of a record and its next field, as they are shown."""
    word, number = (line.split(b",", 2) + [b""])[:2]
    return word.decode("latin-1"), number[:SHOWN].decode("latin-1")
