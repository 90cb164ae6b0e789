"""The report of a round: as text, as JSON, and beside an earlier round."""
from __future__ import annotations

import json
from collections import Counter, defaultdict
from typing import Any, Callable, Dict, Iterator, List, Mapping, NamedTuple, Sequence, Tuple

from ..files import FileFailure
from .judge import Judged, Outcome

Json = Dict[str, Any]
ORDER = {it: k for k, it in enumerate(Outcome)}
KINDS: Sequence[Tuple[str, Callable[[Judged], str]]] = (
    ("class", lambda it: str(it.ours.frc)),
    ("LRPs", lambda it: str(len(it.ours.marks))),
    ("named by ambiguous", lambda it: "yes" if it.ours.is_ambiguous else "no"),
)


class Round(NamedTuple):
    """A round that was compared: what `export` says of it, the tolerance in metres, and what became of each string, the worst first."""

    about: Json
    tolerance: float
    judged: List[Judged]


class Before(NamedTuple):
    """An earlier round: the outcome of each string in words."""

    file: str
    outcomes: Mapping[str, str]


def worst_first(judged: Sequence[Judged]) -> List[Judged]:
    """The strings, the worst first."""
    return sorted(judged, key=lambda it: (ORDER[it.outcome], -it.metres, it.name))


def counted(judged: Sequence[Judged]) -> Dict[str, int]:
    """How many strings have each outcome, the best first."""
    counts = Counter(it.outcome for it in judged)
    return {it.value: counts[it] for it in reversed(Outcome) if counts[it]}


def groups(judged: Sequence[Judged]) -> Iterator[Tuple[str, str, Dict[str, int]]]:
    """The counts by class, by number of points, and by what `ambiguous` names."""
    for title, key in KINDS:
        found: Dict[str, List[Judged]] = defaultdict(list)
        for it in judged:
            found[key(it)].append(it)
        for value in sorted(found, key=lambda it: (len(it), it)):
            yield title, value, counted(found[value])


def share(counts: Mapping[str, int]) -> str:
    """Counts in words."""
    return f"{sum(counts.values())}: " + ", ".join(f"{name} {count}" for name, count in counts.items())


def sentence(it: Judged) -> str:
    """What a line of the report says of a string after its name."""
    parts = [it.words] if it.words else []
    if it.place:
        parts.append("at {:.7f},{:.7f}".format(*it.place))
    if it.mark:
        named = f", which ambiguous names: {', '.join(it.mark.ambiguous)}" if it.mark.ambiguous else ""
        parts.append(f"after LRP {it.point} at node {it.mark.node}{named}")
    return "; ".join(parts)


def text(found: Round) -> Iterator[str]:
    """The lines of the report."""
    yield f"strings {share(counted(found.judged))}"
    for title, value, counts in groups(found.judged):
        yield f"{title} {value}, {share(counts)}"
    unjudged = sum(not it.are_ends_judged for it in found.judged)
    if unjudged:
        yield f"ends not judged: {unjudged}, which came back without offsets"
    for it in found.judged:
        if it.outcome is not Outcome.SAME:
            yield ": ".join(filter(None, (it.outcome.value, it.name, sentence(it))))


def fields(it: Judged) -> Json:
    """What became of a string, as members of JSON."""
    mark = it.mark
    return {"name": it.name, "outcome": it.outcome.value, "words": it.words, "metres": round(it.metres, 1),
            "place": [round(it.place[0], 7), round(it.place[1], 7)] if it.place else None, "lrp": it.point,
            "node": mark.node if mark else None, "ambiguous": list(mark.ambiguous) if mark else [],
            "ends_judged": it.are_ends_judged, "class": it.ours.frc, "lrps": len(it.ours.marks)}


def as_json(found: Round) -> str:
    """The report as JSON."""
    by: Dict[str, Dict[str, Dict[str, int]]] = defaultdict(dict)
    for title, value, counts in groups(found.judged):
        by[title][value] = counts
    head = {"round": found.about, "tolerance_m": found.tolerance, "counts": counted(found.judged), "by": by}
    strings = ",\n".join(json.dumps(fields(it), ensure_ascii=False) for it in found.judged)
    return f'{json.dumps(head, ensure_ascii=False)[:-1]},\n"strings": [\n{strings}\n]}}\n'


def read_before(file: str) -> Before:
    """An earlier round, from its report as JSON."""
    try:
        with open(file, encoding="utf-8") as data:
            return Before(file, {str(it["name"]): Outcome(it["outcome"]).value for it in json.load(data)["strings"]})
    except OSError as error:
        raise FileFailure(f"{file}: {error.strerror}") from None
    except (ValueError, KeyError, TypeError, RecursionError):
        raise FileFailure(f"{file} is no report that --json has written") from None


def beside(before: Before, judged: Sequence[Judged]) -> Iterator[str]:
    """What differs from an earlier round: how many strings went from one outcome to another, and which."""
    both = [it for it in judged if it.name in before.outcomes]
    was, now = (sum(one == Outcome.SAME.value for one in several)
                for several in ((before.outcomes[it.name] for it in both), (it.outcome.value for it in both)))
    yield f"strings of {before.file} too {len(both)}: same road {was} before, {now} now"
    changes: Dict[Tuple[str, str], List[str]] = defaultdict(list)
    for it in both:
        if it.outcome.value != before.outcomes[it.name]:
            changes[before.outcomes[it.name], it.outcome.value].append(it.name)
    for (old, new), names in sorted(changes.items(), key=lambda it: -len(it[1])):
        yield f"{old} before, {new} now {len(names)}: {', '.join(names)}"
