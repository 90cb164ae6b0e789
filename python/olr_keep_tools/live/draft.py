"""What a draft of the streets would make of the paths: the report of tools/swap, from the database."""
from __future__ import annotations

import os
from typing import Any, Dict, List, Mapping, NamedTuple, Optional, Sequence

from ..files import replacing
from ..geo import Degrees, distance
from ..geojson import collection
from ..qml import style
from ..sql import coordinates, text_array
from ..swap.report import as_json, features, text, worst_first, write_strings
from ..swap.verdicts import Kind, Verdict, compared
from .ambiguous import named_places, obstacles
from .paths import Placed, PathsUpdate
from .pathsearch import PathState
from .program import LiveProgram
from .rounds import Answer

OFF = 10.0  # metres from its course beyond which a path is on another road


class DraftSettings(NamedTuple):
    """The schema of a draft, and the files that are written."""

    schema: str
    json: Optional[str] = None
    geojson: Optional[str] = None
    strings: Optional[str] = None


class Was(NamedTuple):
    """The answer of a path that is published, and its course."""

    answer: Answer
    course: Sequence[Degrees]


class Draft:
    """What is published before the draft is read, and what becomes of it."""

    def __init__(self, cursor: Any, program: LiveProgram) -> None:
        self.cursor, self.program = cursor, program
        self.before = self.published("round > 0", ())
        self.named = obstacles(program)

    def published(self, where: str, values: Sequence[object]) -> Dict[str, Was]:
        """The paths for which a condition holds."""
        self.cursor.execute(f"select name, text, reason, ST_AsBinary(geom, 'NDR') from olr_keep.string where {where}", values)
        return {name: Was(Answer(string, reason), coordinates(shape) or ()) for name, string, reason, shape in self.cursor}

    def verdicts(self, answers: Mapping[str, Answer], paths: PathsUpdate) -> List[Verdict]:
        """What becomes of each path, the worst first: `answers` are those that are others now."""
        now = self.published("name = any(%s::text[])", (text_array(paths.found),))
        named = obstacles(self.program)
        more = named_places(self.cursor, {name: it for name, it in named.items() if name not in self.named})
        found = []
        for name in sorted({*self.before, *answers}):
            was, answer = self.before.get(name), answers.get(name)
            course = now[name].course if name in now else was.course if was else ()
            it = verdict(name, was, answer or (was.answer if was else Answer(None, "new")), paths.found.get(name), course)
            found.append(it._replace(ambiguous=tuple(more.get(name, ()))) if it.kind is not Kind.LOST else it)
        return worst_first(found)


def verdict(name: str, was: Optional[Was], now: Answer, placed: Optional[Placed], course: Sequence[Degrees]) -> Verdict:
    """What becomes of one path, which is on this course now."""
    answers = was.answer.written() if was else "new", now.written()
    how = placed.state.value if placed else ""
    if was is None or was.answer.text is None:
        return Verdict(name, Kind.WITHOUT, answers, how, course=course)
    if now.text is None:
        lost = placed.why if placed and placed.state is PathState.LOST else None
        why = lost.words if lost else "an operator removed it" if now.reason == "dropped" else "it is not encodable there"
        return Verdict(name, Kind.LOST, answers, how, why=why, place=lost.place or () if lost else (), course=was.course)
    ends = [distance(was.course[k], course[k]) for k in (0, -1)] if was.course and course else [0.0, 0.0]
    return compared(Verdict(name, Kind.SAME_ROAD, answers, how, ends=(ends[0], ends[1]), course=was.course), course, OFF)


def write_report(verdicts: Sequence[Verdict], chosen: DraftSettings) -> bool:
    """Prints the report, and writes the files. Returns whether some path is lost or on another road."""
    if chosen.json:
        with replacing(chosen.json) as file:
            file.write(as_json(verdicts, ()))
    if chosen.strings:
        with replacing(chosen.strings) as file:
            write_strings(file, verdicts)
    if chosen.geojson:
        os.makedirs(chosen.geojson, exist_ok=True)
        for ending, content in (("geojson", collection(features(verdicts))), ("qml", style("swap"))):
            with replacing(f"{chosen.geojson}/draft.{ending}") as file:
                file.write(content)
    print(*text(verdicts, ()), sep="\n")
    return any(it.kind in (Kind.LOST, Kind.OTHER_ROAD) for it in verdicts)
