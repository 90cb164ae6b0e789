"""The reasons why paths are not encodable, in words, and where. Coordinates are whole units of records.

    for name, answer in state.published.items():
        if answer[0] == "refused":
            print(refusal(state, state.paths[name], answer, Junctions(state)).line())
"""
from typing import List, NamedTuple, Sequence

from .drawn import Junctions, courses, place_along
from .geo import Degrees
from .records import Path, State, decimal

# What each reason is about.
TITLES = {
    "1": "a line is not in the map", "2": "the lines do not join", "3": "the offsets leave nothing",
    "4": "no next location reference point",
}
NOTHING_LEFT = "The offsets together are as long as the path, or longer, so nothing of it is left."


class Refusal(NamedTuple):
    """Why a path is not encodable, as a text, and where: up to two coordinates, the ends of what is missing."""

    words: str
    places: List[Degrees]

    def line(self) -> str:
        """The text as a part of a line, with the coordinates."""
        where = " and ".join(f"{decimal(lon)},{decimal(lat)}" for lon, lat in self.places)
        return self.words[0].lower() + self.words[1:].rstrip(".") + (f", at {where}" if where else "")


def refusal(state: State, path: Path, answer: Sequence[str], junctions: Junctions) -> Refusal:
    """Why a path with this answer, as `refused,2,0`, is not encodable. The map has to have the lines that the answer is about."""
    kind, at, lines, known = answer[1], int(answer[2]) if len(answer) > 2 else 0, path.lines, state.lines
    if kind == "1":
        k = lines.index(at)
        ends = [state.nodes[known[it].end] for it in lines[max(0, k - 1) : k] if it in known]
        starts = [state.nodes[known[it].start] for it in lines[k + 1 : k + 2] if it in known]
        return Refusal(f"Line {at} is not in the map.", [*ends, *starts])
    if kind == "2":
        a, b = known[lines[at]], known[lines[at + 1]]
        words = f"Line {lines[at]} ends at node {a.end}, but the next line, {lines[at + 1]}, starts at node {b.start}."
        return Refusal(words, [state.nodes[a.end], state.nodes[b.start]])
    if kind == "3":
        return Refusal(NOTHING_LEFT, [place_along(courses(state, lines)[0], path.positive)])
    before, after = junctions.extension(lines)
    whole = [*before, *lines, *after]
    line = known[whole[at]]
    words = f"No next location reference point can follow node {line.start}: line {whole[at]}, which starts there, is longer"
    return Refusal(f"{words} than 15 km, or leads more than a third of a degree away.", [state.nodes[line.start]])


def without_map(answer: Sequence[str]) -> Refusal:
    """The same without the path and its map."""
    kind, k = answer[1], 1 + int(answer[2]) if len(answer) > 2 else 0
    words = {
        "1": f"Line {k - 1} is not in the map.",
        "2": f"Of its lines, number {k} does not end where number {k + 1} begins.",
        "3": NOTHING_LEFT,
        "4": "No next location reference point can follow one of its lines, which is longer than 15 km, or leads more than a third"
             " of a degree away.",
    }
    return Refusal(words.get(kind, TITLES.get(kind, kind)), [])


def in_words(answer: str) -> str:
    """An answer as `refused,2,0` in words, without the path and its map. One that is no refusal stays as it is."""
    parts = answer.split(",")
    return without_map(parts).line() if parts[0] == "refused" and len(parts) > 1 and all(map(str.isdecimal, parts[1:])) else answer


def lines_about(path: Path, answer: Sequence[str]) -> List[int]:
    """The lines of a path that `refusal` needs for a missing line, or for lines that don't join; none for another reason."""
    if answer[1] == "1" and int(answer[2]) in path.lines:
        k = path.lines.index(int(answer[2]))
        return [*path.lines[max(0, k - 1) : k], *path.lines[k + 1 : k + 2]]
    return list(path.lines[int(answer[2]) :][:2]) if answer[1] == "2" else []
