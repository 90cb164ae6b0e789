"""Paths of which no search is needed: whose road is hardly moved, or only cut at other places, or is again exactly as it was when they
were last found as they were given, as after an undo."""
from __future__ import annotations

from typing import Iterator, List, Optional, Sequence

from ..courses import Found, course_of
from ..roads import EXACT, farthest_apart, vertices_apart
from ..sql import Course
from .finder import Finder, Row
from .pathsearch import Known, PathState, Placement
from .streetsearch import streets_of

SAME = 1e-7  # degrees between the coordinates of two courses that are the same


def last_streets(known: Known) -> List[str]:
    """The streets of a path when it was last as given, if it isn't now."""
    return [known.last.lines[it].street for it in known.last.own] if known.last and known.state is not PathState.SAID else []


def returned(finder: Finder, known: Known) -> Optional[Placement]:
    """Where a path is that isn't where it was given, if its road is there again: the same streets with the same coordinates. The
    lines of the streets have to be read."""
    last, given = known.last, known.given
    if known.state is PathState.SAID or last is None or given is None:
        return None
    rows: List[Row] = []
    for number in last.own:
        was = last.lines[number]
        lines = (finder.rows[it] for it in finder.streets.get(was.street, ()))
        fitting = [it for it in lines if is_same(it.points, was.points) and (not rows or it.start == rows[-1].end)]
        if len(fitting) != 1:
            return None
        rows += fitting
    found = Found([it.number for it in rows], *last.cuts)
    return Placement(PathState.SAID, found, off=farthest_apart(given, course_of(rows, *last.cuts)))


def is_same(a: Course, b: Course) -> bool:
    """Whether two courses have the same coordinates."""
    return len(a) == len(b) and all(abs(x - u) <= SAME and abs(y - v) <= SAME for (x, y), (u, v) in zip(a, b))


def has_stayed(finder: Finder, known: Known) -> bool:
    """Whether the lines of a path that is as given are there, of the streets of before and not moved. They have to be read."""
    rows = [finder.rows[it] for it in known.lines if it in finder.rows]
    if known.state is not PathState.SAID or not known.course or len(rows) < len(known.lines):
        return False
    if {it.street for it in rows} != streets_of(known.streets) or any(a.end != b.start for a, b in zip(rows, rows[1:])):
        return False
    return vertices_apart(known.course, course_of(rows, known.start, known.end)) <= EXACT


def cut_otherwise(finder: Finder, known: Known) -> Optional[Known]:
    """A path that is as given, on its lines as they are cut now, if its streets have the same coordinates; else None. The lines of the
    streets have to be read."""
    course, rows = known.course or (), finder.rows
    if known.state is not PathState.SAID or not course or not known.lines or known.start and known.lines[0] not in rows:
        return None
    found = [rows[known.lines[0]]] if known.start else []
    at, leg = course.index(found[0].points[-1]) if found and found[0].points[-1] in course else 0, 0
    while at < len(course) - 1:
        several = [(k, it) for k in (leg, leg + 1) if k < len(known.streets) for it in onward(finder, known.streets[k], found)
                   if is_same(it.points, course[at : at + len(it.points)])]
        if len(several) != 1:
            break
        leg, row = several[0]
        found.append(row)
        at += len(row.points) - 1
    if known.end and known.lines[-1] in rows and rows[known.lines[-1]] not in found:
        found.append(rows[known.lines[-1]])
    now = known._replace(lines=[it.number for it in found])
    return now if found and has_stayed(finder, now) else None


def onward(finder: Finder, marked: str, found: Sequence[Row]) -> Iterator[Row]:
    """The lines of a street in a direction that begin where the last of these ends, or all if there is none."""
    for number in finder.streets.get(marked[1:], ()):
        row = finder.rows[number]
        if row.along == (marked[0] == ">") and (not found or row.start == found[-1].end and row not in found):
            yield row
