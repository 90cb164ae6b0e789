"""The page of a round: the counts, and a picture of each string that isn't on the same road, the worst first."""
from __future__ import annotations

import html
import math
from typing import Iterator, List, Mapping, Sequence, Tuple

from ..courses import Plane
from ..geo import Degrees
from .judge import Judged, Outcome
from .report import Round, counted, groups, sentence
from .returned import Returned

SIDE = 360  # pixels of a picture
MOST = 500  # pictures, and points of a course in one
STYLE = """body{font:15px/1.4 sans-serif;margin:2em auto;max-width:78em;padding:0 1em}table{border-collapse:collapse}
td,th{border:1px solid #bbb;padding:.2em .6em;text-align:right}th:first-child,td:first-child{text-align:left}
figure{display:inline-block;margin:1em 1em 0 0;vertical-align:top;width:360px}svg{background:#f7f7f4;border:1px solid #bbb}
.ours{stroke:#1b62c4;stroke-width:5;stroke-opacity:.5;fill:none}.theirs{stroke:#c4371b;stroke-width:2;fill:none}
figcaption{overflow-wrap:anywhere}"""
Place = Tuple[float, float]


def table(found: Round) -> Iterator[str]:
    """The counts as a table."""
    kinds = list(counted(found.judged))
    yield f"<table><tr><th></th><th>strings</th>{''.join(f'<th>{it}</th>' for it in kinds)}</tr>"
    for title, counts in (("all", counted(found.judged)), *((f"{title} {value}", counts) for title, value, counts in groups(found.judged))):
        cells = "".join(f"<td>{counts.get(it, '')}</td>" for it in kinds)
        yield f"<tr><td>{title}</td><td>{sum(counts.values())}</td>{cells}</tr>"
    yield "</table>"


class Picture:
    """A picture of some courses."""

    def __init__(self, courses: Sequence[Sequence[Degrees]]) -> None:
        places = [it for course in courses for it in course]
        self.plane = Plane(places[0][1])
        points = self.plane.course(places)
        (west, east), (south, north) = ((min(it), max(it)) for it in zip(*points))
        self.metres = max(east - west, north - south, 100.0) * 1.1
        self.corner = (west + east - self.metres) / 2, (south + north + self.metres) / 2

    def at(self, place: Degrees) -> Place:
        """The pixel of a coordinate."""
        x, y = self.plane.flat(place)
        return (x - self.corner[0]) / self.metres * SIDE, (self.corner[1] - y) / self.metres * SIDE

    def course(self, places: Sequence[Degrees], kind: str) -> str:
        """A course."""
        some = places[:: math.ceil(len(places) / MOST)] if places else []
        points = " ".join("{:.1f},{:.1f}".format(*self.at(it)) for it in [*some, *places[-1:]])
        return f'<polyline class="{kind}" points="{points}"/>'

    def circle(self, place: Degrees, radius: int, color: str) -> str:
        """A circle at a coordinate."""
        x, y = self.at(place)
        return f'<circle cx="{x:.1f}" cy="{y:.1f}" r="{radius}" fill="{color}"/>'

    def scale(self) -> str:
        """A bar of a round number of metres."""
        metres = 10 ** math.floor(math.log10(self.metres / 2))
        wide = metres / self.metres * SIDE
        return f'<path d="M8 {SIDE - 8}h{wide:.1f}" stroke="#333"/><text x="8" y="{SIDE - 12}" font-size="11">{metres:,} m</text>'


def figure(it: Judged, theirs: Sequence[Sequence[Degrees]]) -> str:
    """The picture of a string, with what became of it."""
    ours = it.ours.location()
    picture = Picture([ours, *theirs, [mark.place for mark in it.ours.marks]])
    parts = [picture.course(ours, "ours"), *(picture.course(part, "theirs") for part in theirs)]
    parts += [picture.circle(mark.place, 4, "#c49a1b" if mark.ambiguous else "#1b62c4") for mark in it.ours.marks]
    parts += [picture.circle(it.place, 5, "#c4371b")] if it.place else []
    words = html.escape(": ".join(filter(None, (it.outcome.value, it.name, sentence(it)))))
    return (f'<figure><svg width="{SIDE}" height="{SIDE}" role="img" aria-label="{html.escape(it.name)}">{"".join(parts)}{picture.scale()}'
            f"</svg><figcaption>{words}</figcaption></figure>")


def page(found: Round, returned: Mapping[str, Returned]) -> Iterator[str]:
    """The lines of the page."""
    about = found.about
    worse = [it for it in found.judged if it.outcome is not Outcome.SAME]
    yield f'<!DOCTYPE html><html lang="en"><head><meta charset="utf-8"><title>A round with a partner</title><style>{STYLE}</style></head><body>'
    yield "<h1>A round with a partner</h1>"
    yield (f"<p>{html.escape(str(about.get('map', '')))} of {html.escape(str(about.get('map_date', '')))}, "
           f"margin {html.escape(','.join(map(str, about.get('margin', []))))}, tolerance {found.tolerance:g} m</p>")
    yield from table(found)
    yield '<p>Blue is our course, red theirs; circles are location reference points, brown where ambiguous names one, red where they leave.</p>'
    for it in worse[:MOST]:
        parts: List[List[Degrees]] = returned[it.name].parts if it.name in returned else []
        yield figure(it, parts)
    if len(worse) > MOST:
        yield f"<p>{len(worse) - MOST} more are in the report.</p>"
    yield "</body></html>"
