"""The manual edits of a map, and what becomes of them on the vendor's next map.

    found = Hand(base, old, new, limits).edits()
    print(*records_of(found), sep="\\n")

What differs from the vendor's map before (`base`) to the map as it is (`old`) was edited by hand. An edit survives if what it
changes is on the new map as it was on `base`. Lines that were removed and added at the same nodes, as by a split, are in
conflict if one of them is.
"""
import enum
import functools
import itertools
import math
from typing import Dict, Iterable, Iterator, List, NamedTuple, Set, Tuple

from ..courses import Lost
from ..mapedits import Limits, Lines, line_fields, place_fields
from ..records import Path, State
from ..roads import Verdict
from ..twomaps import CERTAIN, TwoMaps
from .carry import Carrier

ORDER = ("drop-line", "node", "move", "set-line", "line", "drop-node")


class Fate(enum.Enum):
    """What becomes of a manual edit."""

    SURVIVES = "survive"
    ALREADY = "in the new map already"
    CONFLICT = "in conflict"


class Edit(NamedTuple):
    """A manual edit: what it changes, what becomes of it, the record that made it, what the new map has there, the records that
    it becomes, and the nodes at which lines are removed or added."""

    what: str
    fate: Fate
    by_hand: str
    on_new: str
    records: Tuple[str, ...] = ()
    nodes: Tuple[int, ...] = ()


def records_of(edits: Iterable[Edit]) -> List[str]:
    """The records of the edits that survive, in an order in which they are accepted."""
    records = dict.fromkeys(it for edit in edits if edit.fate == Fate.SURVIVES for it in edit.records)
    return sorted(records, key=lambda it: ORDER.index(it.partition(",")[0]))


def has_ends(one: State, other: State, number: int) -> bool:
    """Whether both maps have this line, with the same ends."""
    return number in one.lines and number in other.lines and one.ends(number) == other.ends(number)


class Now(NamedTuple):
    """The lines of the new map that follow another one, none if there are none, and by how many metres they are off. It is certain
    that they are the same road unless another one may be it, or they are farther off, or cut otherwise, than lines are matched."""

    lines: Lines
    off: float = 0.0
    is_certain: bool = True


class Followed:
    """Finds the lines of the new map that follow some lines of another one: those of the same road, whatever their numbers."""

    def __init__(self, old: State, new: State, limits: Limits, numbers: Iterable[int]):
        self.by_course = Carrier(old, new, limits)
        self.maps = TwoMaps(old, new, (Path(0, 0, (it,)) for it in numbers))
        self.known: Dict[int, Now] = {}

    def now(self, number: int) -> Now:
        """The lines that follow this one."""
        if number not in self.known:
            found = self.by_course.line(number)
            self.known[number] = self.matched(number, found) if found else self.paired(number)
        return self.known[number]

    def matched(self, number: int, found: Lines) -> Now:
        """These lines, which follow this one by their course, unless its road is gone."""
        road = self.maps.on_its_road(Path(0, 0, (number,)), Path(0, 0, found))
        if road.answer is None:
            return Now(found)
        lines = () if road.answer.verdict is Verdict.GONE else road.path.lines
        return Now(lines, road.answer.off, road.answer.verdict in CERTAIN)

    def paired(self, number: int) -> Now:
        """The lines of this one's road, where none follows it by its course."""
        roads = self.maps.roads(Path(0, 0, (number,)))
        answer = roads.decide() if roads else None
        if answer is None or answer.verdict is Verdict.GONE or isinstance(answer.found, Lost):
            return Now(())
        return Now(tuple(answer.found.lines), answer.off, False)


class Hand:
    """Finds the manual edits, and judges each on the new map."""

    def __init__(self, base: State, old: State, new: State, limits: Limits):
        self.base, self.old, self.new, self.limits = base, old, new, limits
        self.numbers: Dict[int, int] = {}
        self.retained: Set[int] = set()

    @functools.cached_property
    def of_base(self) -> Followed:
        """Finds the lines of the new map that follow those of the vendor's map before, where these were edited."""
        edited = (it for it in self.base.lines if self.base.lines.text[it] != self.old.lines.text.get(it))
        return Followed(self.base, self.new, self.limits, edited)

    @functools.cached_property
    def of_old(self) -> Followed:
        """Finds the lines of the new map that follow those that were added."""
        added = (it for it in self.old.lines if not has_ends(self.base, self.old, it))
        return Followed(self.old, self.new, self.limits, added)

    @functools.cached_property
    def of_removed(self) -> Dict[int, float]:
        """The lines of the new map that follow one that was removed by hand, and by how many metres they are off it."""
        found = (self.of_base.now(it) for it in self.base.lines if not has_ends(self.base, self.old, it))
        return {line: it.off for it in sorted(found, key=lambda it: -it.off) for line in it.lines}

    def edits(self) -> List[Edit]:
        """The manual edits and what becomes of each."""
        base, old = self.base, self.old
        added = [self.added(it) for it in old.lines if not has_ends(base, old, it)]
        dropped = [self.dropped(it) for it in base.lines if not has_ends(base, old, it)]
        both = (it for it in base.lines if has_ends(base, old, it))
        others = [self.changed(it) for it in both if base.lines.text[it] != old.lines.text[it]]
        moves = (it for it in base.nodes if it in old.nodes and base.nodes.text[it] != old.nodes.text[it])
        cuts = list(together([*dropped, *added]))
        gone = {it for edit in cuts if edit.fate == Fate.SURVIVES for it in edit.records}
        nodes = [self.dropped_node(it, gone) for it in base.nodes if it not in old.nodes]
        return [*cuts, *others, *map(self.moved, moves), *nodes]

    # ---- lines

    def shown(self, numbers: Lines) -> str:
        """The records of lines of the new map."""
        rows = (f"line,{it},{self.new.lines.text[it]}" for it in numbers if it in self.new.lines)
        return "; ".join(rows) or "nothing"

    def kinds(self, numbers: Lines) -> Set[Tuple[int, int]]:
        """The classes and forms of lines of the new map."""
        return {self.new.lines[it][2:4] for it in numbers}

    def there(self, number: int) -> Now:
        """The lines of the new map that follow one that was added, unless they rather follow one that was removed."""
        found = self.of_old.now(number)
        nearest = min((self.of_removed.get(it, math.inf) for it in found.lines), default=math.inf)
        is_other = nearest < found.off or nearest == found.off and not found.is_certain
        return Now(()) if is_other else found

    def added(self, number: int) -> Edit:
        """A line that was added."""
        what, line, (now, _, is_certain) = f"line {number}", self.old.lines[number], self.there(number)
        record = f"line,{number},{self.old.lines.text[number]}"
        ends = self.old.ends(number)
        if now:
            self.retained.update(now)
            fate = Fate.ALREADY if is_certain and self.kinds(now) == {line[2:4]} else Fate.CONFLICT
            return Edit(what, fate, record, self.shown(now), (), ends)
        nodes = [self.node(it) for it in ends]
        if not all(nodes):
            return Edit(what, Fate.CONFLICT, record, f"no node where its node {ends[nodes.index(0)]} was", (), ends)
        made = [f"node,{it},{place_fields(self.old.nodes[was])}" for it, was in zip(nodes, ends) if was not in self.base.nodes]
        made.append(f"line,{self.free(number)},{nodes[0]},{nodes[1]},{line_fields(line)}")
        return Edit(what, Fate.SURVIVES, record, "nothing", tuple(made), ends)

    def dropped(self, number: int) -> Edit:
        """A line that was removed. If the new map has lines that replaced it by hand, it is removed there too."""
        what, record, (now, _, is_certain) = f"line {number}", f"drop-line,{number}", self.of_base.now(number)
        nodes = self.base.ends(number)
        if not now and number in self.new.lines and self.new.ends(number) == tuple(map(self.node, nodes)):
            now, is_certain = (number,), False
        if not now or self.retained.intersection(now):
            return Edit(what, Fate.ALREADY, record, self.shown(now), (), nodes)
        fate = Fate.SURVIVES if is_certain and self.kinds(now) == {self.base.lines[number][2:4]} else Fate.CONFLICT
        return Edit(what, fate, record, self.shown(now), tuple(f"drop-line,{it}" for it in now), nodes)

    def changed(self, number: int) -> Edit:
        """A line that has other fields. Its class and form are changed on all lines that follow it now; its length and its
        shape only where they are as they were."""
        was, line, (now, _, is_certain) = self.base.lines[number], self.old.lines[number], self.of_base.now(number)
        edit = Edit(f"line {number}", Fate.CONFLICT, f"set-line,{number},{line_fields(line)}", self.shown(now))
        tails = {self.new.lines[it][2:] for it in now}
        if was[4:] == line[4:]:
            fields = {it: self.new.lines[it]._replace(frc=line.frc, fow=line.fow) for it in now}
            is_done, is_there = self.kinds(now) == {line[2:4]}, self.kinds(now) == {was[2:4]}
        else:
            fields = {it: line._replace(start=self.new.lines[it].start, end=self.new.lines[it].end) for it in now}
            is_done, is_there = tails == {line[2:]}, tails == {was[2:]} and len(now) == 1
        if is_done and is_certain:
            return edit._replace(fate=Fate.ALREADY)
        records = tuple(f"set-line,{it},{line_fields(new)}" for it, new in fields.items())
        return edit._replace(fate=Fate.SURVIVES, records=records) if is_there and is_certain else edit

    # ---- nodes

    def node(self, number: int) -> int:
        """The node on the new map of one of the map as it is, or the number that an added one gets; 0 if there is none."""
        if number in self.base.nodes:
            return next(iter(self.of_base.by_course.matcher.same_nodes(number)), 0)
        return self.free(number)

    def free(self, number: int) -> int:
        """A number for what is added under this one: the same, if the new map has neither a node nor a line with it."""
        if number not in self.numbers:
            taken = {*self.numbers.values()}
            candidates = itertools.chain((number,), itertools.count(1))
            self.numbers[number] = next(it for it in candidates
                                        if it not in self.new.nodes and it not in self.new.lines and it not in taken)
        return self.numbers[number]

    def moved(self, number: int) -> Edit:
        """A node that was moved. It is moved on the new map if it is exactly where it was."""
        place = self.old.nodes[number]
        now = self.node(number)
        record = f"move,{number},{place_fields(place)}"
        if not now:
            near = next(iter(self.of_old.by_course.matcher.same_nodes(number)), 0)
            fate = Fate.ALREADY if near and self.new.nodes[near] == place else Fate.CONFLICT
            return Edit(f"node {number}", fate, record, f"node {near}" if near else "nothing")
        there = self.new.nodes[now]
        fate = Fate.ALREADY if there == place else Fate.SURVIVES if there == self.base.nodes[number] else Fate.CONFLICT
        made = (f"move,{now},{place_fields(place)}",)
        return Edit(f"node {number}", fate, record, f"node,{now},{place_fields(there)}", made)

    def dropped_node(self, number: int, gone: Set[str]) -> Edit:
        """A node that was removed. It is removed on the new map if its lines are."""
        now, record = self.node(number), f"drop-node,{number}"
        if not now:
            return Edit(f"node {number}", Fate.ALREADY, record, "nothing")
        left = [it for it in self.lines_at.get(now, ()) if f"drop-line,{it}" not in gone]
        fate = Fate.CONFLICT if left else Fate.SURVIVES
        return Edit(f"node {number}", fate, record, self.shown(tuple(left)), (f"drop-node,{now}",))

    @functools.cached_property
    def lines_at(self) -> Dict[int, List[int]]:
        """The lines of the new map that begin or end at each node."""
        found: Dict[int, List[int]] = {}
        for number in self.new.lines:
            for node in set(self.new.ends(number)):
                found.setdefault(node, []).append(number)
        return found


def together(edits: List[Edit]) -> Iterator[Edit]:
    """These edits, where each that is connected by its nodes with one in conflict is in conflict too."""
    at: Dict[int, List[int]] = {}
    for k, edit in enumerate(edits):
        for node in edit.nodes:
            at.setdefault(node, []).append(k)
    waiting = [k for k, it in enumerate(edits) if it.fate == Fate.CONFLICT]
    held = set(waiting)
    while waiting:
        beside = {k for node in edits[waiting.pop()].nodes for k in at[node]} - held
        held |= beside
        waiting += beside
    for k, edit in enumerate(edits):
        if k in held and edit.fate == Fate.SURVIVES:
            edit = edit._replace(fate=Fate.CONFLICT, on_new=f"{edit.on_new}; an edit beside it is in conflict")
        yield edit
