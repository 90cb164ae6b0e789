"""The report of tools/swap: as text, as JSON, as GeoJSON with a style, and as a table of strings."""
import csv
import json
from collections import Counter
from typing import IO, Iterable, Iterator, List, Sequence

from ..geojson import Feature, feature, rounded
from .manual import Edit, Fate
from .verdicts import Kind, Verdict

ORDER = {kind: k for k, kind in enumerate(Kind)}
LOOKED_AT = tuple(it.value for it in (Kind.LOST, Kind.OTHER_ROAD, Kind.TWO_ROADS, Kind.FARTHER))  # by a person
OFF = Kind.OTHER_ROAD, Kind.TWO_ROADS, Kind.FARTHER, Kind.SAME_ROAD
RARE = Kind.TWO_ROADS, Kind.FARTHER  # which are counted only if there are some
ROADS = {Kind.OTHER_ROAD: "other", Kind.TWO_ROADS: "two", Kind.FARTHER: "same", Kind.SAME_ROAD: "same", Kind.SAME_STRING: "same"}


def worst_first(verdicts: Iterable[Verdict]) -> List[Verdict]:
    """The verdicts, the worst first: by kind, then the newly ambiguous ones, then by how much is off, and how far."""
    return sorted(verdicts, key=lambda it: (ORDER[it.kind], not it.ambiguous, -it.length, -max(it.far, *it.ends), it.name))


def sentence(verdict: Verdict) -> str:
    """What a line of the report says of a path after its name."""
    parts = [verdict.why] if verdict.why else []
    if verdict.place:
        parts.append("at {:.7f},{:.7f}".format(*verdict.place))
    if verdict.kind in OFF:
        far = f", by more than {verdict.allowed:g} m over {verdict.length:.0f} m" if verdict.length else ""
        parts.append(f"{verdict.far:.1f} m off{far}")
        ends = zip(("start", "end"), verdict.ends)
        parts += [f"its {side} {off:.1f} m off along the road" for side, off in ends if off >= 0.05]
    if verdict.kind == Kind.WITHOUT or verdict.kind == Kind.LOST and verdict.answers[1] != "dropped":
        parts.append(f"{verdict.answers[0]}, now {verdict.answers[1]}" if verdict.kind == Kind.WITHOUT else verdict.answers[1])
    parts += [f"newly ambiguous: {it}" for it in verdict.ambiguous]
    return "; ".join(parts)


def text(verdicts: Sequence[Verdict], manual: Sequence[Edit]) -> Iterator[str]:
    """The lines of the report."""
    counts, ambiguous = Counter(it.kind for it in verdicts), sum(bool(it.ambiguous) for it in verdicts)
    kinds = ", ".join(f"{it.value} {counts[it]}" for it in Kind if counts[it] or it not in RARE)
    yield f"paths {len(verdicts)}: {kinds}; newly ambiguous {ambiguous}"
    if manual:
        fates = Counter(it.fate for it in manual)
        yield f"manual edits {len(manual)}: {', '.join(f'{it.value} {fates[it]}' for it in Fate)}"
    for edit in manual:
        if edit.fate == Fate.CONFLICT:
            yield f"conflict: {edit.what}: by hand {edit.by_hand}; new map: {edit.on_new}"
    for verdict in verdicts:
        if verdict.kind != Kind.SAME_STRING or verdict.ambiguous:
            yield f"{verdict.kind.value}: {verdict.name}: {sentence(verdict)}"


def fields(verdict: Verdict) -> Feature:
    """A verdict as members of JSON."""
    old, new = verdict.answers
    return {"path": verdict.name, "verdict": verdict.kind.value, "old": old, "new": new, "how": verdict.how,
            "off_m": round(verdict.far, 1), "over_m": round(verdict.length), "start_off_m": round(verdict.ends[0], 1),
            "end_off_m": round(verdict.ends[1], 1), "newly_ambiguous": list(verdict.ambiguous), "why": verdict.why, "says": sentence(verdict),
            "place": rounded(verdict.place) if verdict.place else None}


def as_json(verdicts: Sequence[Verdict], manual: Sequence[Edit]) -> str:
    """The report as JSON: the counts, the paths and the manual edits."""
    counts = Counter(it.kind.value for it in verdicts)
    edits = [{"what": it.what, "fate": it.fate.value, "by_hand": it.by_hand, "new_map": it.on_new} for it in manual]
    paths = ",\n".join(json.dumps(fields(it)) for it in verdicts)
    return f'{{"counts": {json.dumps(counts)},\n"manual_edits": {json.dumps(edits)},\n"paths": [\n{paths}\n]}}\n'


def features(verdicts: Iterable[Verdict]) -> Iterator[Feature]:
    """A line for each path, on the new map, or, if it is lost, on the old one."""
    for it in verdicts:
        row = {**fields(it), "place": ",".join(map(str, it.place)) or None, "newly_ambiguous": "; ".join(it.ambiguous)}
        yield feature("swap", "LineString", [rounded(place) for place in it.course], **row)


def write_strings(file: IO[str], verdicts: Iterable[Verdict]) -> None:
    """The table for partners: the name, the two strings, and whether that is the same road."""
    table = csv.writer(file, lineterminator="\n")
    table.writerow(("name", "old", "new", "road"))
    for it in sorted(verdicts, key=lambda it: it.name):
        strings = (answer[5:] if answer.startswith("text,") else "" for answer in it.answers)
        table.writerow((it.name, *strings, ROADS.get(it.kind, "")))
