"""Carries out messages of commands on olr-keep, with the whole map and one share of the paths.

    share = Share(Program(["olr-keep"]), 0, Shares.of("2"))
    for outcome in share.carry_out(b"node,1,0,0\\npath,a,0,0,1\\n"):
        print(outcome.at, outcome.record, outcome.reply)
"""
import re
from typing import Dict, Iterator, List, Mapping, NamedTuple, Optional, Tuple

from .command import Failure
from .program import Program, ProgramEnded, Run
from .records import ENDS, QUESTIONS, Batch, coordinate_of
from .replies import Reply
from .shares import Shares
from .stream import SHOWN, is_plain

OUT_OF_MEMORY, MEMORY = 4, 13
PATH_COMMANDS = ("path", "repath", "drop-path")
OF_A_PATH = (*PATH_COMMANDS, "show")
# Questions that no worker answers.
UNANSWERED = tuple(it for it in QUESTIONS if it not in OF_A_PATH)
# The records that a worker looks at, after the end of the line before; all others are sent as they are.
SPECIAL = re.compile(f"\n({'|'.join((*OF_A_PATH, *UNANSWERED, 'begin', *ENDS))})(?:,.*)?(?=\n)".encode())
NOT_PLAIN = Reply("fault", 0, "NotPlain", [])
NO_QUESTION = Reply("fault", 0, "NoQuestion", [])
NO_COMMIT = Reply("fault", 0, "NoCommit", [])
COUNT_DIFFERS = Reply("fault", 16, "CountDiffers", [])


class Outcome(NamedTuple):
    """A record of a message that was rejected or changed something, with its index in the message and the reply."""

    at: int
    record: str
    reply: Reply


class Sent(NamedTuple):
    """Records that are sent as they are, with the index of the first one in its message."""

    at: int
    records: int
    text: bytes


class Command(NamedTuple):
    """A record that a worker looks at: its index in the message, and its command word."""

    at: int
    record: str
    word: str

    def sent(self) -> Sent:
        """The record as it is sent."""
        return Sent(self.at, 1, self.record.encode() + b"\n")


class Share:
    """The program, with the whole map and one share of the paths."""

    def __init__(self, program: Program, share: int, shares: Shares, names: Mapping[str, int]):
        self.program, self.share, self.shares, self.names = program, share, shares, dict(names)
        self.waiting: List[Sent] = []
        self.unplaced: Dict[str, Command] = {}
        # Of a batch the program holds the edits, and this the path commands.
        self.batch: Batch[Command] = Batch()
        # Whether this share reports rejected edits: all shares reject the same ones.
        self.reports = share == 0

    def carry_out(self, body: bytes) -> Iterator[Outcome]:
        """Carries out a message, and yields the outcomes of the records that were rejected or changed something. A batch that
        does not commit is aborted."""
        yield from self.carry_out_part(body)
        if begun := self.batch.begin:
            self.batch.accept("abort", begun)
            self.one("abort")
            yield from self.report(begun, NO_COMMIT)

    def carry_out_part(self, body: bytes) -> Iterator[Outcome]:
        """Carries out whole records of a message or of a snapshot. A batch may stay open."""
        if is_plain(body) and body.endswith(b"\n") and b"\n\n" not in body and not body.startswith(b"\n"):
            yield from self.carry_out_plain(body)
        else:
            for index, line in enumerate(body.split(b"\n")):
                if line and is_plain(line):
                    yield from self.carry_out_plain(line + b"\n", index)
                elif line:
                    yield from self.report(Command(index, line.translate(SHOWN).decode("ascii"), ""), NOT_PLAIN)
        yield from self.flush()

    def carry_out_plain(self, text: bytes, index: int = 0) -> Iterator[Outcome]:
        """Carries out lines without quotes. What is between path commands, questions and ends of batches is sent as it is."""
        text, at = b"\n" + text, 1
        for it in SPECIAL.finditer(text):
            if it.start() >= at:
                count = text.count(b"\n", at, it.start() + 1)
                yield from self.push(Sent(index, count, text[at : it.start() + 1]))
                index += count
            yield from self.step(Command(index, it[0][1:].decode(), it[1].decode()))
            at, index = it.end() + 1, index + 1
        if at < len(text):
            yield from self.push(Sent(index, text.count(b"\n", at), text[at:]))

    def step(self, command: Command) -> Iterator[Outcome]:
        """Carries out a path command, a question or an end of a batch."""
        is_open, word = self.batch.held is not None, command.word
        if word in UNANSWERED:
            yield from self.report(command, NO_QUESTION)
        elif is_open and word in PATH_COMMANDS:
            self.batch.accept(word, command)
        elif is_open and word == "commit":
            yield from self.commit(command)
        elif word in OF_A_PATH:
            yield from self.path_command(command)
        else:
            yield from self.push(command.sent())
            if command.record == "abort" or (command.record == "begin" and not is_open):
                self.batch.accept(word, command)

    def report(self, command: Command, reply: Reply) -> Iterator[Outcome]:
        """The outcome of a rejected record that all shares reject."""
        if self.reports:
            yield Outcome(command.at, command.record, reply)

    def commit(self, command: Command) -> Iterator[Outcome]:
        """Commits the edits of a batch, and then carries out its path commands. A batch whose commit is rejected is aborted."""
        yield from self.flush()
        held, count = self.batch.accept("commit", command), command.record[7:]
        record, reply = command.record, COUNT_DIFFERS
        if not count.isdecimal() or int(count[:20]) >= len(held):
            if count.isdecimal():
                record = f"commit,{int(count[:20]) - len(held)}"
            reply = self.one(record)
        if not reply.accepted:
            self.one("abort")
            yield from self.report(command, reply)
            return
        yield Outcome(command.at, command.record, reply)
        for it in held:
            yield from self.path_command(it)

    def path_command(self, command: Command) -> Iterator[Outcome]:
        """Carries out a path command, if the path belongs here."""
        name = command.record.split(",", 2)[1] if "," in command.record else ""
        if self.shares.boxes is None:
            owner = self.shares.of_name(name)
        elif command.word == "path" and name not in self.names and name not in self.unplaced:
            self.unplaced[name] = command
            return
        else:
            yield from self.place()
            owner = self.names.get(name, 0)
        if owner == self.share:
            yield from self.push(command.sent())

    def place(self) -> Iterator[Outcome]:
        """Finds the shares of new names, by the places where their paths start, and lets those that belong here wait."""
        if not self.unplaced:
            return
        unplaced, self.unplaced = self.unplaced, {}
        yield from self.flush()
        firsts = [it.record.split(",", 5)[4:5] for it in unplaced.values()]
        places = iter(self.places([it[0] for it in firsts if it]))
        for (name, command), first in zip(unplaced.items(), firsts):
            self.names[name] = self.shares.of_place(next(places) if first else None)
            if self.names[name] == self.share:
                self.waiting.append(command.sent())

    def places(self, lines: List[str]) -> List[Optional[Tuple[int, int]]]:
        """The coordinate of the node where each of these lines starts, or None for a line that the map does not have."""
        runs = self.ask("".join(f"show-line,{it}\n" for it in lines).encode(), len(lines))
        return [place_of(it.reply.lines[0]) if it.reply.accepted else None for it in runs]

    def push(self, records: Sent) -> Iterator[Outcome]:
        """Lets records wait to be sent with others, after the new names before them."""
        yield from self.place()
        self.waiting.append(records)

    def flush(self) -> Iterator[Outcome]:
        """Sends the waiting records, and yields their outcomes."""
        yield from self.place()
        waiting, self.waiting = self.waiting, []
        runs = self.ask(b"".join(it.text for it in waiting), sum(it.records for it in waiting))
        left = Run(0, COUNT_DIFFERS)
        for part in waiting:
            at = 0
            while at < part.records:
                left = left if left.times else next(runs)
                taken = min(left.times, part.records - at)
                yield from self.outcome(part, at, left.reply)
                at, left = at + taken, left._replace(times=left.times - taken)

    def outcome(self, part: Sent, at: int, reply: Reply) -> Iterator[Outcome]:
        """The outcome of a record that was sent, if there is anything to say, and this share says it."""
        if reply.lines or not reply.accepted or part.text.startswith(b"drop-path,"):
            record = part.text.split(b"\n", at + 1)[at].decode("ascii")
            if reply.accepted or self.reports or record.partition(",")[0] in OF_A_PATH:
                yield Outcome(part.at + at, record, reply)

    # ---- the program

    def ask(self, text: bytes, count: int) -> Iterator[Run]:
        """Sends so many records, and yields their replies. Fails if one lacks memory, or if the program ended for lack of it."""
        self.program.send(text)
        try:
            for run in self.program.runs(count):
                if run.reply.word == "fault" and run.reply.number == MEMORY:
                    raise Failure(OUT_OF_MEMORY, "out of memory for a record")
                yield run
        except ProgramEnded as ended:
            raise Failure(OUT_OF_MEMORY if ended.exit_status == OUT_OF_MEMORY else ended.status, str(ended)) from None

    def one(self, record: str) -> Reply:
        """The reply to one record."""
        run, = self.ask(record.encode() + b"\n", 1)
        return run.reply


def place_of(record: str) -> Tuple[int, int]:
    """The coordinate in the record of a node, in whole numbers of 10^-7 degree."""
    return coordinate_of(record.split(",", 2)[2])
