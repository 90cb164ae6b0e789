"""Shortest routes over the lines of a map, and the queue of any such search."""
import heapq
import math
from typing import Callable, Dict, Generic, Iterable, Iterator, List, Optional, Tuple, TypeVar

Label = TypeVar("Label")

# A line that leaves a node: its number, the node where it ends, and its length.
Step = Tuple[int, int, float]


class Search:
    """Dijkstra's algorithm from a node, over the steps that `leaving` gives; each call continues it. Of nodes that are equally far
    the one with the lesser number is settled first."""

    def __init__(self, start: int, leaving: Callable[[int], Iterable[Step]]):
        self.start, self.leaving = start, leaving
        self.far: Dict[int, float] = {start: 0}
        self.last: Dict[int, Tuple[int, int]] = {}  # the line to each node, and where it starts
        self.settled: Dict[int, float] = {}
        self.heap: List[Tuple[float, int]] = [(0, start)]

    def nodes(self, limit: float = math.inf) -> Iterator[int]:
        """Settles the further nodes within a distance, the nearest first."""
        while self.heap and self.heap[0][0] <= limit:
            far, node = heapq.heappop(self.heap)
            if node in self.settled:
                continue
            self.settled[node] = far
            for line, end, length in self.leaving(node):
                further = far + length
                if further < self.far.get(end, math.inf):
                    self.far[end], self.last[end] = further, (line, node)
                    heapq.heappush(self.heap, (further, end))
            yield node

    def to(self, node: int, limit: float) -> Optional[float]:
        """The length of the shortest route to a node, or None if it is beyond the limit."""
        if node not in self.settled:
            for it in self.nodes(limit):
                if it == node:
                    break
        far = self.settled.get(node)
        return None if far is None or far > limit else far

    def lines_to(self, node: int) -> List[int]:
        """The lines of that route."""
        lines = []
        while node != self.start:
            line, node = self.last[node]
            lines.append(line)
        return lines[::-1]


class Waiting(Generic[Label]):
    """What a search has reached and not settled yet: the cheapest first, of equally cheap ones the one that came first."""

    def __init__(self) -> None:
        self.heap: List[Tuple[float, int, Label]] = []
        self.count = 0

    def __bool__(self) -> bool:
        return bool(self.heap)

    def add(self, cost: float, label: Label) -> None:
        """Adds a label that is reached at this cost."""
        self.count += 1
        heapq.heappush(self.heap, (cost, self.count, label))

    def take(self) -> Tuple[float, Label]:
        """Takes the next one, with its cost."""
        cost, _, label = heapq.heappop(self.heap)
        return cost, label
