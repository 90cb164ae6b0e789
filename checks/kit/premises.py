"""When it is proved that a receiver on a map of its own recovers a path, as docs/THEOREMS.md says: the premises of the laws
`read_elsewhere` and `read_on_roads`, computed for two maps and a path; and what such a receiver recovers.

Lengths of both maps are whole numbers in one unit, of which our map's are multiples of a decimetre.
"""
import heapq
from typing import Callable, Dict, Iterator, List, Mapping, NamedTuple, Optional, Sequence, Set, Tuple


class Line(NamedTuple):
    """A directed line: the nodes where it begins and ends, its length, and its functional road class."""

    start: int
    end: int
    length: int
    frc: int


class Margin(NamedTuple):
    """How much longer, in thousandths, the lines of a route count, and by how many classes the LFRCNP is less important."""

    routes: int
    classes: int


Lines = Mapping[int, Line]
Chain = Mapping[int, Sequence[int]]


class Graph:
    """The lines that leave each node, at most of a class, by number."""

    def __init__(self, lines: Lines):
        self.lines = lines
        self.leaving: Dict[int, List[int]] = {}
        for number, line in lines.items():
            self.leaving.setdefault(line.start, []).append(number)

    def out(self, node: int, frc: int) -> Iterator[int]:
        """The lines of at most this class number that leave a node."""
        return (it for it in self.leaving.get(node, ()) if self.lines[it].frc <= frc)

    def distances(self, source: int, most: int, frc: int, length: Callable[[int], int]) -> Dict[int, Tuple[int, int]]:
        """The nodes within a distance, each with its distance and the number of shortest routes, of which two are as many as
        any."""
        found: Dict[int, Tuple[int, int]] = {source: (0, 1)}
        heap, settled = [(0, source)], set()
        while heap:
            far, node = heapq.heappop(heap)
            if node in settled:
                continue
            settled.add(node)
            for number in self.out(node, frc):
                end, total = self.lines[number].end, far + length(number)
                known = found.get(end)
                if total > most or known and known[0] < total:
                    continue
                if known and known[0] == total:
                    found[end] = total, min(2, known[1] + found[node][1])
                else:
                    found[end] = total, found[node][1]
                    heapq.heappush(heap, (total, end))
        return found


class Maps:
    """Our map and another one, and for each line of ours the lines that it is there, in driving order. `unit` is how many units a
    decimetre has."""

    def __init__(self, ours: Lines, theirs: Lines, chain: Chain, margin: Margin, unit: int = 1):
        self.ours, self.theirs = Graph(ours), Graph(theirs)
        self.chain, self.margin, self.unit = chain, margin, unit
        self.nodes = {node for line in ours.values() for node in line[:2]}
        self.roads: Dict[int, List[int]] = {}
        for line, parts in chain.items():
            for part in parts:
                self.roads.setdefault(part, []).append(line)

    def length_of(self, lines: Sequence[int]) -> int:
        """The length of lines of the other map."""
        return sum(self.theirs.lines[it].length for it in lines)

    def chains(self, lines: Sequence[int]) -> List[int]:
        """The lines there that lines of ours are."""
        return [part for it in lines for part in self.chain.get(it, ())]

    def allowed(self, frc: int) -> int:
        """A class number with what the margin allows."""
        return min(7, frc + self.margin.classes) if self.margin.classes else frc

    def leads(self, line: int) -> bool:
        """Whether the lines there that a line of ours is lead from its start to its end."""
        node = self.ours.lines[line].start
        for part in self.chain.get(line, ()):
            if part not in self.theirs.lines or self.theirs.lines[part].start != node:
                return False
            node = self.theirs.lines[part].end
        return bool(self.chain.get(line)) and node == self.ours.lines[line].end

    def is_unique(self, source: int, target: int, lines: Sequence[int]) -> bool:
        """Whether lines of ours are the unique shortest route, where they count longer and no others do."""
        own = set(lines)

        def length(number: int) -> int:
            plain = self.ours.lines[number].length
            more = -(-(plain // self.unit) * self.margin.routes // 1000) * self.unit
            return plain + more if number in own else plain

        total = sum(map(length, lines))
        return self.ours.distances(source, total, 7, length).get(target) == (total, 1)


class Leg(NamedTuple):
    """The lines from one LRP to the next, and whether that is the last one."""

    lines: Sequence[int]
    is_last: bool


class Premises:
    """The premises for a path of these legs; `fault` is the first one that doesn't hold, or None."""

    def __init__(self, maps: Maps, legs: Sequence[Leg]):
        self.maps, self.legs = maps, legs
        self.longest, self.shortest = 0, 1000  # thousandths: of own lines more than ours, of those in reach the share of ours
        self.fault = self.own() or self.without_splits() and self.with_splits()
        if not self.fault and (1000 + self.longest) * 1000 > self.shortest * (1000 + maps.margin.routes):
            self.fault = "lengths differ by more than the margin"

    def lfrc(self, leg: Leg) -> int:
        """The class LFRCNP of a leg."""
        return self.maps.allowed(max(self.maps.ours.lines[it].frc for it in leg.lines))

    def own(self) -> Optional[str]:
        """What the path's own lines lack there."""
        maps, lines = self.maps, [it for leg in self.legs for it in leg.lines]
        parts = maps.chains(lines)
        if not all(map(maps.leads, lines)):
            return "a line of the path is missing, or has other ends"
        if len(set(parts)) < len(parts):
            return "a line there is in two lines of the path"
        for it in lines:
            ours = maps.ours.lines[it]
            self.longest = max(self.longest, -(-1000 * maps.length_of(maps.chain[it]) // ours.length) - 1000)
            if any(maps.theirs.lines[part].frc > maps.allowed(ours.frc) for part in maps.chain[it]):
                return "a class differs by more than the margin"
        return None

    def reach(self, source: int, most: int, frc: int) -> Set[int]:
        """The lines there on which a route that is shorter than `most` may go on."""
        maps = self.maps
        found = maps.theirs.distances(source, most, frc, lambda it: maps.theirs.lines[it].length)
        return {line for node, (far, _) in found.items() if far < most for line in maps.theirs.out(node, frc)}

    def note(self, line: int) -> None:
        """Notes how much shorter a line of ours is there."""
        there = self.maps.length_of(self.maps.chain[line])
        self.shortest = min(self.shortest, 1000 * there // self.maps.ours.lines[line].length)

    def without_splits(self) -> Optional[str]:
        """What is in reach of a leg and isn't a whole line of ours."""
        maps, before = self.maps, self.shortest
        for leg in self.legs:
            if any(len(maps.chain[it]) > 1 for it in leg.lines):
                return "a line of the path is split"
            rest = maps.chains(leg.lines[1:])
            for part in self.reach(maps.ours.lines[leg.lines[0]].end, maps.length_of(rest), self.lfrc(leg)):
                whole = [it for it in maps.roads.get(part, ()) if maps.leads(it) and len(maps.chain[it]) == 1]
                if not whole:
                    self.shortest = before
                    return "a line in reach isn't ours"
                self.note(whole[0])
        return None

    def with_splits(self) -> Optional[str]:
        """What is in reach of a leg and isn't a line of a road, or why a leg isn't unique with its first line."""
        for leg in self.legs:
            part = self.part_of(leg)
            if part is None:
                return "a leg isn't the unique shortest path with its first and last line"
            source, compared = part
            fault = self.roads_in(self.reach(source, self.maps.length_of(self.maps.chains(compared)), self.lfrc(leg)))
            if fault:
                return fault
        return None

    def part_of(self, leg: Leg) -> Optional[Tuple[int, Sequence[int]]]:
        """The lines of a leg that are the unique shortest path, and where they begin: all but its first line and, at the last
        LRP, its last one if that isn't split; else with these."""
        maps, lines = self.maps, leg.lines
        first_whole = len(maps.chain[lines[0]]) == 1
        last_whole = leg.is_last and len(maps.chain[lines[-1]]) == 1 and len(lines) > 1
        for from_first in (1, 0):
            for to_last in (1, 0):
                if (first_whole or not from_first) and (last_whole or not to_last):
                    part = lines[from_first : len(lines) - to_last]
                    own = maps.ours.lines
                    source = own[lines[0]][from_first]
                    target = own[lines[-1]].start if to_last else own[lines[-1]].end
                    if maps.is_unique(source, target, part):
                        return source, part
        return None

    def roads_in(self, reach: Set[int]) -> Optional[str]:
        """What of the lines in reach isn't a line of a road."""
        maps = self.maps
        for part in reach:
            roads = [it for it in maps.roads.get(part, ()) if maps.leads(it) and self.is_road(it, reach)]
            if not roads:
                return "a line in reach isn't of a road"
            self.note(roads[0])
        return None

    def is_road(self, line: int, reach: Set[int]) -> bool:
        """Whether at the nodes within a line of ours there is only a way on, or back."""
        maps, parts = self.maps, self.maps.chain[line]
        for part, following in zip(parts, parts[1:]):
            node = maps.theirs.lines[part].end
            on = [it for it in maps.theirs.out(node, 7) if it in reach]
            if node in maps.nodes or any(it != following and maps.theirs.lines[it].end != maps.theirs.lines[part].start for it in on):
                return False
        return True


def is_recovered(maps: Maps, legs: Sequence[Leg]) -> bool:
    """Whether a receiver that takes the first line of the own road at each LRP, at the last LRP the last one, and shortest routes
    between, can only recover the legs."""
    for k, leg in enumerate(legs):
        parts, own = maps.chains(leg.lines), maps.ours.lines
        frc = maps.allowed(max(own[it].frc for it in leg.lines))
        if len(parts) == 1 and leg.is_last:
            continue
        ends = maps.theirs.lines[parts[-1]]
        target, between = (ends.start, parts[1:-1]) if leg.is_last else (ends.end, parts[1:])
        total = maps.length_of(between)
        found = maps.theirs.distances(maps.theirs.lines[parts[0]].end, total, frc, lambda it: maps.theirs.lines[it].length)
        if found.get(target) != (total, 1) or any(maps.theirs.lines[it].frc > frc for it in parts):
            return False
    return True
