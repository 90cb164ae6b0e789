"""Sends records as whole batches, to the service or to a program, and prints what they answer.

    send(Service("/run/olr-keep-records", 600), steps(read_records("edits.csv")))
"""
import contextlib
import re
import socket
from typing import Dict, List, NamedTuple, Optional, Sequence, Tuple, Union

from .command import INTERRUPTED, STREAM, Failure, say
from .drawn import Junctions
from .program import Program, ProgramFailed
from .reasons import lines_about, refusal, without_map
from .records import BOM, ENDS, QUESTIONS, Path, State, word_of
from .rejected import advice, fields_of, shown
from .replies import NoReply, Reply, is_one_record, read_reply

MOST_HELD = 100_000
AT_ONCE = 500  # records that are sent before their replies are read
NOTHING = b'""'  # a line to which a service of 2.0.0 gives no reply
OF_SERVICE = 0  # the number of the faults of the service itself
ANSWERS = ("show", "report", "preview")  # the questions whose replies are answers of paths
CAUSE = re.compile(r"fault,16,CountDiffers,([0-9]+),([0-9]+),(.*)")
REJECTED, NO_REPLY = 1, 4


class InputRecord(NamedTuple):
    """A record, with its line in the input; 0 for one that was added."""

    line: int
    text: str

    @property
    def word(self) -> str:
        """Its command word."""
        return word_of(self.text)


Step = List[InputRecord]


def encoded(records: Sequence[InputRecord]) -> bytes:
    """Records as they are sent."""
    return "".join(f"{it.text}\n" for it in records).encode("utf-8", "surrogateescape")


# ---- what is sent


def read_records(name: Optional[str]) -> List[InputRecord]:
    """The records of a file, or of the input, in which a byte order mark may stand first."""
    try:
        with open(name or 0, "rb", closefd=bool(name)) as file:
            lines = [it.rstrip(b"\r\n") for it in file]
        lines[:1] = [it[len(BOM) :] if it.startswith(BOM) else it for it in lines[:1]]
    except OSError as error:
        raise Failure(STREAM, f"{name or 'the input'}: {error.strerror}") from None
    for number, line in enumerate(lines, 1):
        if line and (line == NOTHING or not is_one_record(line)):
            raise Failure(STREAM, f"line {number} is not one record: {shown(line[:80].decode(errors='replace'))}")
    return [InputRecord(number, line.decode("utf-8", "surrogateescape")) for number, line in enumerate(lines, 1) if line]


def steps(records: List[InputRecord]) -> List[Step]:
    """The records in steps: each a batch with its `begin` and `commit`, or one record."""
    if any(it.word == "begin" for it in records):
        return as_they_stand(records)
    changes = [k for k, it in enumerate(records) if it.word not in QUESTIONS]
    if not changes:
        return [[it] for it in records]
    first, last = changes[0], changes[-1] + 1
    for it in records[first:last]:
        if it.word in QUESTIONS:
            raise Failure(STREAM, f"line {it.line}: {it.text[:80]} is between changes: put begin and commit around those before it")
        if it.word in ENDS:
            raise Failure(STREAM, f"line {it.line}: {it.text[:80]} without begin")
    if len(changes) > MOST_HELD:
        many = f"{len(changes)} changes, and a batch holds {MOST_HELD} at most"
        raise Failure(STREAM, f"{many}: put begin and commit around each part")
    batch = [InputRecord(0, "begin"), *records[first:last], InputRecord(0, f"commit,{len(changes)}")]
    return [*([it] for it in records[:first]), batch, *([it] for it in records[last:])]


def as_they_stand(records: List[InputRecord]) -> List[Step]:
    """The steps of records that have their own batches."""
    found: List[Step] = []
    batch: Step = []
    for it in records:
        if it.word == "begin":
            if batch:
                raise Failure(STREAM, f"line {it.line}: begin in the batch of line {batch[0].line}")
            batch = [it]
        elif it.word in ENDS:
            if not batch:
                raise Failure(STREAM, f"line {it.line}: {it.text[:80]} without begin")
            count = sum(other.word not in QUESTIONS for other in batch[1:])
            if it.word == "commit" and (it.text != f"commit,{count}" or count > MOST_HELD):
                raise Failure(STREAM, f"line {it.line}: {it.text[:80]}, and the batch of line {batch[0].line} has {count} changes")
            found.append([*batch, it])
            batch = []
        elif batch:
            batch.append(it)
        else:
            found.append([it])
    if batch:
        raise Failure(STREAM, f"line {batch[0].line}: the batch that begins here has no commit")
    return found


# ---- to whom


class Service:
    """A connection to the service."""

    def __init__(self, name: str, timeout: float):
        self.name, self.timeout = name, timeout
        self.socket = socket.socket(socket.AF_UNIX)
        self.socket.settimeout(timeout)
        try:
            self.socket.connect(name)
        except OSError as error:
            why = "nobody serves it: start olr-keep-serve" if isinstance(error, ConnectionRefusedError) else error.strerror
            raise Failure(STREAM, f"{name}: {why}") from None
        self.lines = self.socket.makefile("r", encoding="utf-8", errors="surrogateescape", newline="\n")

    def send(self, text: bytes) -> None:
        """Sends records. If the service has ended, its last replies are still read."""
        try:
            self.socket.sendall(text)
        except socket.timeout:
            raise ProgramFailed(f"{self.name} was not read within {self.timeout:g} seconds") from None
        except ConnectionError:
            pass

    def reply(self) -> Reply:
        """The next reply."""
        try:
            found = read_reply(self.lines)
        except socket.timeout:
            raise ProgramFailed(f"no reply within {self.timeout:g} seconds") from None
        except (ConnectionError, EOFError):
            found = None
        except NoReply as why:
            raise ProgramFailed(f"{self.name}: {why}") from None
        if found is None:
            raise ProgramFailed("the service has ended")
        return found


Target = Union[Service, Program]


# ---- sending


class Sender:
    """Sends steps one after the other, and prints what they answer."""

    def __init__(self, target: "Target"):
        self.target, self.is_open, self.held, self.done = target, False, 0, 0
        self.step: Step = []
        self.paths: Dict[str, Path] = {}
        self.answers: List[str] = []  # of paths, since they were explained

    def send_all(self, all_steps: List[Step]) -> None:
        """Sends all steps."""
        for self.step in all_steps:
            self.send(self.step)
            self.done += 1
            self.explain()

    def send(self, step: Step) -> None:
        """Sends a batch, or one record. If a record is rejected, the batch is aborted."""
        if len(step) == 1:
            self.ask(step)
            return
        self.open(*step[:-1])
        self.ask(step[-1:])
        self.is_open = False

    def open(self, begin: InputRecord, *changes: InputRecord) -> None:
        """Opens a batch, and sends its changes."""
        self.is_open, self.held = True, 0
        reply = self.answer(begin)
        if not reply.accepted:
            self.is_open = False
            self.stop(*self.cause_of(begin, reply))
        for first in range(0, len(changes), AT_ONCE):
            self.ask(changes[first : first + AT_ONCE])

    def answer(self, record: InputRecord) -> Reply:
        """The reply to one record."""
        self.target.send(encoded([record]))
        return self.reply_to(record)

    def reply_to(self, record: InputRecord) -> Reply:
        """The next reply. After one that the record can't have, nothing is known of it."""
        reply = self.target.reply()
        if not reply.accepted:
            return reply
        if self.is_open and record.word not in (*QUESTIONS, *ENDS, "begin"):
            self.held += 1
            is_own = (reply.word, reply.number) == ("held", self.held)
        else:
            is_own = reply.word == "ok"
        if record.word == "show" and '"' not in record.text:
            is_own &= [it.partition(",")[0] for it in reply.lines] == [record.text.partition(",")[2]]
        if not is_own:
            raise ProgramFailed(f"{reply.head} is no reply to {record.text[:80]}")
        return reply

    def ask(self, records: Sequence[InputRecord]) -> None:
        """Sends records, reads all their replies, and prints those of questions and of what takes effect."""
        self.target.send(encoded(records))
        rejected, answers = [], []
        for it in records:
            reply = self.reply_to(it)
            if not reply.accepted:
                rejected.append(self.cause_of(it, reply))
                continue
            if it.word in ("path", "repath"):
                name, *numbers = fields_of(it.text)[1:]
                self.paths[name] = Path(int(numbers[0]), int(numbers[1]), tuple(map(int, numbers[2:])))
            if it.word in QUESTIONS or it is self.step[-1]:
                print(reply.text(), end="", flush=True)
                answers += reply.lines if it.word in ANSWERS or it.word not in QUESTIONS else []
        if rejected:
            self.stop(*rejected[0])
        self.answers += answers

    def explain(self) -> None:
        """Reports for each path without a string the reason in words."""
        answers, self.answers = self.answers, []
        for line in answers:
            name, *answer = line.split(",")
            if answer[0] == "refused":
                say(f"{name}: {','.join(answer)}: {self.why(name, answer)}")

    def why(self, name: str, answer: List[str]) -> str:
        """Why a path has no string, by its lines and theirs on the map, as far as they are known."""
        path, state = self.paths.get(name), State()
        about = lines_about(path, answer) if path else []
        with contextlib.suppress(Failure):
            for it in about:
                state.read_dump(self.answer(InputRecord(0, f"show-line,{it}")).lines)
        if path and about and all(it in state.lines for it in about):
            return refusal(state, path, answer, Junctions(state)).line()
        return without_map(answer).line()

    def cause_of(self, record: InputRecord, reply: Reply) -> Tuple[InputRecord, Reply]:
        """The record that was rejected, and its fault. The service gives both with the reply to a `commit`, which ends the batch."""
        cause = CAUSE.fullmatch(reply.head)
        if cause:
            self.is_open = False
            changes = [it for it in self.step[1:-1] if it.word not in QUESTIONS]
            return changes[int(cause[1]) - 1], Reply("fault", int(cause[2]), cause[3], [])
        word, _, text = reply.rest.partition(",")
        if reply.number == OF_SERVICE and word == "NotKnown":
            raise ProgramFailed(f"the program ended: {text}")
        if reply.number == OF_SERVICE and word in ("NotServed", "Connections", "Idle"):
            raise Failure(NO_REPLY, f"{text}; {self.before()}")
        return record, reply

    def stop(self, record: InputRecord, reply: Reply) -> None:
        """Aborts the batch of a rejected record, and ends."""
        where = f"line {record.line}: " if record.line else ""
        text = where + advice(record.text, reply.head)
        if self.is_open:
            self.abort()
        if len(self.step) > 1:
            text += "; its batch is aborted"
        raise Failure(REJECTED, f"{text}; {self.before()}")

    def before(self) -> str:
        """What took effect before."""
        if not self.done:
            return "nothing took effect"
        what = "the batch or record" if self.done == 1 else f"{self.done} batches and records"
        return f"{what} before it took effect"

    def abort(self) -> None:
        """Aborts the open batch."""
        self.is_open = False
        self.answer(InputRecord(0, "abort"))

    def unknown(self) -> str:
        """What is not known if there was no reply."""
        lines = [it.line for it in self.step if it.line]
        if all(it.word in QUESTIONS for it in self.step):
            return "nothing was sent that changes anything"
        which = f"line {lines[0]}" if len(lines) == 1 else f"lines {lines[0]} to {lines[-1]}"
        text = f"whether {which} took effect is not known"
        return f"{text}; {self.before()}" if self.done else text

    def interrupted(self) -> bool:
        """Aborts the open batch, as far as that is possible. Whether one was open."""
        was_open, self.is_open = self.is_open, False
        if was_open:
            with contextlib.suppress(Failure, OSError):
                self.target.send(b"abort\n")
        return was_open


class Previewer(Sender):
    """Sends the changes of one batch, prints what they would change, and aborts the batch."""

    def send_all(self, all_steps: List[Step]) -> None:
        """Prints each answer that would be another one, with `-` as it is and with `+` as it would be."""
        if len(all_steps) != 1 or len(all_steps[0]) == 1:
            raise Failure(STREAM, "--preview takes the changes of one batch, and no questions")
        (self.step,) = all_steps
        self.open(*self.step[:-1])
        asked = InputRecord(0, "preview")
        reply = self.answer(asked)
        if not reply.accepted:
            self.stop(*self.cause_of(asked, reply))
        self.abort()
        for line in reply.lines:
            before = self.answer(InputRecord(0, f"show,{line.partition(',')[0]}"))
            print(*(f"-{it}" for it in before.lines), f"+{line}", sep="\n")
        self.answers += reply.lines
        self.explain()


def send(target: Target, all_steps: List[Step], is_preview: bool = False) -> None:
    """Sends all steps, or prints what they would change."""
    sender = Previewer(target) if is_preview else Sender(target)
    try:
        sender.send_all(all_steps)
        if isinstance(target, Program) and (status := target.close()) not in (0, REJECTED):
            raise ProgramFailed(f"{target.name} ended with status {status}")
    except ProgramFailed as error:
        sender.interrupted()
        raise Failure(NO_REPLY, f"{error}: {sender.unknown()}") from None
    except (Failure, OSError):
        sender.interrupted()
        raise
    except KeyboardInterrupt:
        raise Failure(INTERRUPTED, "interrupted" + (": the open batch is aborted" if sender.interrupted() else "")) from None
