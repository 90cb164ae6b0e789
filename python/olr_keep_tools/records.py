"""Reads files of records: the map, the paths and their margin after the accepted records, and what is published of the paths.

    state = read_state(["map.csv", "paths.csv"])
    for name, path in state.paths.items():
        print(name, path.lines, state.published[name])

The program carries the records out, and its `dump` and `report` are what is read. Coordinates are whole numbers of 10^-7 degree,
lengths and offsets decimetres, as in records. A file may be the reply to `dump`: its first line, `ok,N`, is no record, and N lines
have to follow it. `Batch` follows `begin`, `commit` and `abort` for all tools that read accepted records, and `is_open_after` for
those that don't know yet which ones are accepted.
"""
import argparse
import re
from typing import IO, Callable, Dict, Generic, Iterable, Iterator, List, Mapping, NamedTuple, Optional, Sequence, Tuple
from typing import TypeVar, Union

from .command import STREAM, Failure, say
from .files import unnamed_file
from .program import Program, ProgramFailed, program_name
from .rejected import advice
from .replies import NO_RECORD, Reply, is_one_record

UNITS = 10_000_000
HEAD = re.compile(rb"ok,(\d{1,18})\r?\n")
QUESTIONS = ("show", "show-node", "show-line", "show-margin", "depends", "report", "explain", "dump", "compact", "preview",
             "ambiguous")
ENDS = ("commit", "abort")
BLOCK = 1 << 20
LONGEST_LINE = 16 << 20  # bytes
PADDING = re.compile(rb"\r(?!\n)")
BOM = b"\xef\xbb\xbf"  # the byte order mark of UTF-8
# What a file without a record begins with, and what it is.
OTHER_FILES = (
    (re.compile(rb"\xff\xfe|\xfe\xff|.\0.\0|\0.\0.", re.DOTALL), "it is UTF-16: records are ASCII"),
    (re.compile(rb".{4}\n\tOSMHeader|(?:\xef\xbb\xbf)?\s*<(?:.{0,300}<)?osm", re.DOTALL),
     "it is an OpenStreetMap file: tools/osm-records makes records of it"),
    (re.compile(rb"\x1f\x8b|BZh|\xfd7zXZ|PK\x03\x04|\x28\xb5\x2f\xfd"), "it is compressed: unpack it first"),
)

Place = Tuple[int, int]  # longitude and latitude
Entry = TypeVar("Entry")
Held = TypeVar("Held")


class Line(NamedTuple):
    """A line of the map; `shape` has a distance from its start and a coordinate for each point between its ends."""

    start: int
    end: int
    frc: int
    fow: int
    length: int
    shape: Tuple[Tuple[int, int, int], ...]


class Path(NamedTuple):
    """A registered path: its two offsets, and its lines in the order of travel."""

    positive: int
    negative: int
    lines: Tuple[int, ...]


class Margin(NamedTuple):
    """The margin of all paths: the thousandths by which their own lines count longer, and classes."""

    routes: int = 0
    classes: int = 0

    def record(self) -> str:
        """The record that sets it."""
        return f"margin,{self.routes},{self.classes}"


def margin_of(text: str) -> Margin:
    """A margin, as an argument."""
    routes, _, classes = text.partition(",")
    if not (routes.isdecimal() and classes.isdecimal() and int(routes) <= 1000 and int(classes) <= 7):
        raise argparse.ArgumentTypeError(f"{text}: not ROUTES,CLASSES, 0 to 1000 thousandths and 0 to 7 classes")
    return Margin(int(routes), int(classes))


class RecordsError(Failure):
    """A file that can't be read as records, or a program that can't be run."""

    def __init__(self, text: str):
        super().__init__(STREAM, text)


class Batch(Generic[Held]):
    """Follows the batches of accepted records. Of the open batch, `begin` is its first record, and `held` has its changes; without
    one both are None."""

    def __init__(self) -> None:
        self.begin: Optional[Held] = None
        self.held: Optional[List[Held]] = None

    def accept(self, word: str, record: Held) -> List[Held]:
        """The records that take effect now that one with this command word is accepted: the record itself, or all of the batch
        that it commits, or none. What a record is, is the caller's matter."""
        if word == "begin":
            self.begin, self.held = record, []
        elif word in ENDS:
            held, self.begin, self.held = self.held, None, None
            return held or [] if word == "commit" else []
        elif self.held is None:
            return [record]
        elif word not in QUESTIONS:
            self.held.append(record)
        return []


def word_of(record: Union[bytes, str]) -> str:
    """The command word of a record, which may be quoted."""
    word = record if isinstance(record, str) else record.partition(b",")[0].decode("latin-1")
    return word.partition(",")[0].replace('"', "").rstrip("\r")


def is_open_after(word: str, is_open: bool) -> bool:
    """Whether a batch is open after a record with this command word, as far as the words show: it may be rejected."""
    return word == "begin" or (is_open and word not in ENDS)


class Table(Mapping[int, Entry]):
    """Nodes or lines by number. Each is stored as the text of its fields, and made from it whenever it is asked for: so a map of
    which little is looked at takes little time and memory."""

    def __init__(self, make: Callable[[str], Entry]):
        self.make = make
        self.text: Dict[int, str] = {}

    def __getitem__(self, number: int) -> Entry:
        return self.make(self.text[number])

    def __iter__(self) -> Iterator[int]:
        return iter(self.text)

    def __len__(self) -> int:
        return len(self.text)

    def __contains__(self, number: object) -> bool:
        return number in self.text


class Rejected(NamedTuple):
    """A rejected record of a file, and the reply to it."""

    record: "Record"
    reply: Reply


class State:
    """Nodes as (lon, lat) and lines by number, paths by name, their margin, what is published by name, and the rejected records."""

    def __init__(self) -> None:
        self.margin = Margin()
        self.nodes, self.lines = Table(coordinate_of), Table(line_of)
        self.paths: Dict[str, Path] = {}
        self.published: Dict[str, List[str]] = {}
        self.rejected: List[Rejected] = []

    def read_dump(self, lines: Iterable[str]) -> None:
        """Reads the lines of a dump."""
        nodes, roads = self.nodes.text, self.lines.text
        for line in lines:
            word, name, rest = line.split(",", 2)
            if word == "line":
                roads[int(name)] = rest
            elif word == "node":
                nodes[int(name)] = rest
            elif word == "margin":
                self.margin = Margin(int(name), int(rest))
            else:
                positive, negative, *numbers = map(int, rest.split(","))
                self.paths[name] = Path(positive, negative, tuple(numbers))

    def read_report(self, lines: Iterable[str]) -> None:
        """Reads the lines of a report."""
        for name, *answer in (it.split(",") for it in lines):
            self.published[name] = answer

    def ends(self, number: int) -> Tuple[int, int]:
        """The nodes where a line starts and ends."""
        start, end, _ = self.lines.text[number].split(",", 2)
        return int(start), int(end)


def units(text: str) -> int:
    """Degrees as a whole number of 10^-7 degree."""
    whole, _, part = text.lstrip("-").partition(".")
    value = int(whole) * UNITS + int(part.ljust(7, "0") or 0)
    return -value if text.startswith("-") else value


def decimal(value: float) -> str:
    """Degrees as records have them, without trailing zeros, of a whole number of 10^-7 degree."""
    return f"{value / UNITS:.7f}".rstrip("0").rstrip(".")


def coordinate_of(text: str) -> Place:
    """A longitude and a latitude, as fields, in whole units."""
    lon, lat = text.split(",")
    return units(lon), units(lat)


def line_of(text: str) -> Line:
    """The line with these fields of a record."""
    start, end, frc, fow, length, *rest = text.split(",")
    shape = zip(map(int, rest[::3]), map(units, rest[1::3]), map(units, rest[2::3]))
    return Line(int(start), int(end), int(frc), int(fow), int(length), tuple(shape) if rest else ())


# ---- files of records


class Record(NamedTuple):
    """A record with its file, and the number of its line there."""

    file: str
    line: int
    text: str

    def shown(self) -> str:
        """The text of the record, with a mark for each byte that isn't text."""
        return self.text.encode("utf-8", "surrogateescape").decode("utf-8", "replace")


class Part(NamedTuple):
    """The records of one file: where they begin in the copy of all, how many there are, and how many lines before them, as the
    first of a reply to `dump`, are none."""

    name: str
    begin: int
    records: int
    skipped: int


def blocks(file: IO[bytes]) -> Iterator[bytes]:
    """The text of a file in blocks of whole lines; the last line may lack its end. A log of the program, which begins with an empty
    line, ends before its padding: what it has there of a record that was cut is none."""
    rest, is_log = b"", None
    while text := file.read(BLOCK):
        if len(rest) > LONGEST_LINE:
            raise RecordsError(f"{file.name}: a line is longer than 16 MB")
        is_log = text.startswith(b"\n") if is_log is None else is_log
        lines, end, rest = (rest + text).rpartition(b"\n")
        whole = lines + end
        if is_log and (padding := PADDING.search(whole)):
            yield whole[: whole.rfind(b"\n", 0, padding.start()) + 1]
            return
        if end:
            yield whole
    if rest and not (is_log and b"\r" in rest):
        yield rest


class Records:
    """The records of files, one after the other, as lines of one temporary file. A line that isn't one record, since a quote is
    open at its end, is one that is rejected there."""

    def __init__(self, files: Iterable[str] = ()):
        self.file, self.size, self.count = unnamed_file(), 0, 0
        self.parts: List[Part] = []
        self.others: Dict[int, bytes] = {}
        try:
            for name in files:
                self.read(name)
        except BaseException:
            self.file.close()
            raise

    def read(self, name: str) -> None:
        """Adds a file."""
        try:
            with open(name, "rb") as file:
                self.add(name, blocks(file))
        except OSError as error:
            raise RecordsError(f"{name}: {error.strerror}") from None

    def add(self, name: str, texts: Iterable[bytes]) -> None:
        """Adds the blocks of a file: of the reply to `dump` the lines after the first, which counts them."""
        begin, count, ends, head = self.size, self.count, 0, None
        self.file.seek(self.size)
        for k, text in enumerate(texts):
            if not k and (head := HEAD.match(text)):
                text = text[head.end() :]
            elif not k and text.startswith(BOM):
                text = text[len(BOM) :]
            ends += text.count(b"\n")
            lines = self.lines(text)
            self.count += sum(map(bool, lines))
            self.size += self.file.write(b"\n".join(lines) + b"\n" * bool(lines[-1]))
        self.file.flush()
        self.parts.append(Part(name, begin, self.count - count, int(head is not None)))
        if head and ends != int(head[1]):
            begins = f"it begins with {head[0].decode().strip()}, and {ends} whole lines follow"
            raise RecordsError(f"{name} is not the whole reply to one dump: {begins}")

    def lines(self, text: bytes) -> List[bytes]:
        """The lines of a block, each without an end, and one that is rejected in place of each that isn't one record."""
        text = text.replace(b"\r\n", b"\n")
        if b'"' not in text:
            return text.replace(b"\r", b"\n").split(b"\n")
        lines, count = [it.strip(b"\r") for it in text.split(b"\n")], self.count
        self.others.update((count + k, it) for k, it in enumerate(filter(None, lines)) if not is_one_record(it))
        return [it if not it or is_one_record(it) else NO_RECORD for it in lines]

    def __iter__(self) -> Iterator[Record]:
        index = 0
        for part in self.parts:
            with open(f"/proc/self/fd/{self.file.fileno()}", "rb") as file:
                file.seek(part.begin)
                left = part.records
                for number, line in enumerate(file, 1 + part.skipped):
                    if not left:
                        break
                    if len(line) > 1:
                        text = self.others.get(index, line[:-1]).decode("utf-8", "surrogateescape")
                        yield Record(part.name, number, text)
                        index, left = index + 1, left - 1

    def run(self, program: Optional[str], questions: Sequence[str] = ()) -> Program:
        """The program, which reads the records and then these questions."""
        self.file.seek(self.size)
        self.file.truncate()
        self.file.writelines(f"{it}\n".encode() for it in questions)
        self.file.flush()
        self.file.seek(0)
        return Program([program or program_name()], records=self.file)

    def answered(self, program: Optional[str], questions: Sequence[str]) -> Tuple[List[Rejected], List[Reply]]:
        """The rejected records, and the replies to these questions after all of them. A batch that the records leave open is
        aborted before."""
        rejected: Dict[int, Reply] = {}
        with self.run(program, ["abort", *questions]) as keep:
            index = 0
            for run in keep.runs(self.count):
                if not run.reply.accepted:
                    rejected[index] = run.reply
                index += run.times
            _, *replies = keep.replies(1 + len(questions))
            status = keep.close()
        if status not in (0, 1):
            raise ProgramFailed(f"olr-keep ended with status {status}")
        found = [Rejected(it, rejected[k]) for k, it in enumerate(self) if k in rejected] if rejected else []
        return found, replies

    def check(self, rejected: Sequence[Rejected], or_empty: bool) -> None:
        """Fails if all records of a file are rejected, or, without `or_empty`, if it has none."""
        for part in self.parts:
            of_part = [it for it in rejected if it.record.file == part.name]
            if not part.records and not or_empty:
                raise RecordsError(f"{part.name}: it has no record")
            if part.records and len(of_part) >= part.records:
                self.file.seek(part.begin)
                begins = self.file.read(400)
                what = next((what for form, what in OTHER_FILES if form.match(begins)), None)
                many = f"all its {part.records} records are rejected" if part.records > 1 else "its only record is rejected"
                first, reply = of_part[0]
                raise RecordsError(f"{part.name}: {many}: {what or advice(first.shown(), reply.head)}")

    def __enter__(self) -> "Records":
        return self

    def __exit__(self, *_: object) -> None:
        self.file.close()


def read_state(files: Iterable[str], program: Optional[str] = None) -> State:
    """The state after the records of these files, in this order. An open batch at the end is ignored. It is said how many records are
    rejected.

    Raises RecordsError if a file can't be read, if all its records are rejected, or if it has none.
    """
    with Records(files) as records:
        return state_of(records, program)


def state_of(records: Records, program: Optional[str] = None, or_empty: bool = False) -> State:
    """The state after these records, as `read_state` gives it; a file may be empty with `or_empty`."""
    return state_and(records, (), program, or_empty)[0]


def state_and(records: Records, questions: Sequence[str], program: Optional[str] = None,
              or_empty: bool = False) -> Tuple[State, List[Reply]]:
    """The state after these records, and the replies to further questions there."""
    state = State()
    state.rejected, (dump, report, *others) = records.answered(program, ("dump", "report", *questions))
    records.check(state.rejected, or_empty)
    if state.rejected:
        first, reply = state.rejected[0]
        why = f"{first.file}:{first.line}: {advice(first.shown(), reply.head)}"
        say(f"{len(state.rejected)} of {records.count} records are rejected, the first at {why}")
    for name, reply in (("dump", dump), ("report", report)):
        if not reply.accepted:
            raise ProgramFailed(f"{name} is rejected: {reply.head}")
    state.read_dump(dump.lines)
    state.read_report(report.lines)
    return state, others
