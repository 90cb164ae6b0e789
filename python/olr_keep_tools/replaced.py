"""What became of the lines of a map on another one, by where they are: numbers count only as ids that may have stayed.

    found = replaced(old, new)
    print(found.removed, found.added, found.changed)
"""
from typing import Dict, Iterable, List, NamedTuple, Set, Tuple

from .mapedits import Limits, Lines, is_kept
from .records import Place, State
from .swap.carry import Carrier
from .swap.manual import Followed
from .twomaps import is_unchanged

NEAR = Limits(tolerance=10.0, length=0.02, dropped=1.0, more=5.0)  # how far a line may be from the one whose place it takes

Form = Tuple[Place, Place, int, int, int, Tuple[Tuple[int, int, int], ...]]


class Replaced(NamedTuple):
    """Lines of the old map that are gone, and those that were changed; lines of the new one that were added, and those into which
    others were changed."""

    removed: List[int]
    before: List[int]
    added: List[int]
    changed: List[int]


def form(state: State, number: int) -> Form:
    """A line with the places of its ends, whatever their numbers and its own."""
    it = state.lines[number]
    return (state.nodes[it.start], state.nodes[it.end], it.frc, it.fow, it.length, it.shape)


def without_equal(old: State, new: State) -> Tuple[Set[int], Set[int]]:
    """The lines of each map that the other one doesn't have as they are, with any number."""
    left = {it for it in old.lines if not is_unchanged(old, new, it)}
    right = {it for it in new.lines if not is_unchanged(new, old, it)}
    forms: Dict[Form, List[int]] = {}
    for it in sorted(right, reverse=True):
        forms.setdefault(form(new, it), []).append(it)
    for it in sorted(left):
        if equal := forms.get(form(old, it)):
            left.discard(it)
            right.discard(equal.pop())
    return left, right


def is_redrawn(old: State, new: State, number: int) -> bool:
    """Whether a line with this number has the same nodes on both maps, and one of them is where it was."""
    return is_kept(old, new, number) and any(old.nodes[it] == new.nodes[it] for it in old.ends(number))


def taken(one: State, other: State, lines: Iterable[int], free: Set[int]) -> Dict[int, Lines]:
    """Those of the free lines of another map that follow lines of one map, if there are some: by their course, and the rest by their
    road."""
    carrier = Carrier(one, other, NEAR)
    found = {it: carrier.line(it) for it in lines}
    followed = Followed(one, other, NEAR, (it for it, to in found.items() if not to))
    chosen = {it: tuple(line for line in to or followed.paired(it).lines if line in free) for it, to in found.items()}
    return {it: to for it, to in chosen.items() if to}


def replaced(old: State, new: State) -> Replaced:
    """What became of the lines of the old map on the new one."""
    left, right = without_equal(old, new)
    before = {it for it in left & right if is_redrawn(old, new, it)}
    changed = set(before)
    if left - before and right - changed:
        pairs = taken(old, new, sorted(left - before), right - changed)
        before |= pairs.keys()
        changed.update(*pairs.values())
    if left - before and right - changed:  # several that became one
        pairs = taken(new, old, sorted(right - changed), left - before)
        changed |= pairs.keys()
        before.update(*pairs.values())
    return Replaced(sorted(left - before), sorted(before), sorted(right - changed), sorted(changed))
