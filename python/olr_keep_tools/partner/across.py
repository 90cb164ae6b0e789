"""Where lines pass the sections across a course."""
from __future__ import annotations

from typing import List, NamedTuple, Sequence, Tuple

from ..courses import Polyline
from ..roads import SLANT, Sections


class Pass(NamedTuple):
    """Where a line passes a section in the direction of the course: the section, the position on the line, and how many metres to the
    left of the course."""

    section: int
    at: float
    left: float


class Across(Sections):
    """The sections across a course, and where a line passes them."""

    def passes(self, line: Polyline, reach: float) -> List[Pass]:
        """Where a line passes the sections within a distance, of at most that of LEFTS."""
        found: List[Pass] = []
        for i, (a, b) in enumerate(zip(line.points, line.points[1:])):
            begin, long, (ax, ay), (bx, by) = line.far[i], line.far[i + 1] - line.far[i], a, b
            for k in self.near(a, b):
                x, y, east, north = self.tangents[k]
                before = (ax - x) * east + (ay - y) * north
                if before > 0:
                    continue
                after = (bx - x) * east + (by - y) * north
                if after <= 0 or after - before < SLANT * long:
                    continue
                share, one = before / (before - after), (ay - y) * east - (ax - x) * north
                left = one + share * ((by - y) * east - (bx - x) * north - one)
                if abs(left) <= reach:
                    found.append(Pass(k, begin + share * long, left))
        return found


def chain(passes: Sequence[Pass], most: float, step: float) -> List[Pass]:
    """The passes within a distance that are one after the other on both courses, so that as many sections as possible are passed, as
    near as possible, and what lies between two is about as long on both."""
    within = sorted(it for it in passes if abs(it.left) <= most)
    scores: List[float] = []
    links: List[int] = []
    best = -1
    for k, it in enumerate(within):
        score, link = before(within, scores, k, best, step)
        scores.append(score + 1.0 - abs(it.left) / (2 * most))
        links.append(link)
        best = k if best < 0 or scores[k] >= scores[best] else best
    found: List[Pass] = []
    while best >= 0:
        found.append(within[best])
        best = links[best]
    return found[::-1]


BACK, JUMP = 24, 60.0  # passes before one that may be the one before it, and the metres that a jump counts at most


def before(within: Sequence[Pass], scores: Sequence[float], k: int, best: int, step: float) -> Tuple[float, int]:
    """The best pass before one, and the score with it; none and 0 if it begins a chain."""
    score, link = 0.0, -1
    section, at, _ = within[k]
    for j in (*range(k - 1, max(-1, k - BACK), -1), best):
        if j < 0 or within[j][0] >= section or within[j][1] >= at:
            continue
        sections, metres = section - within[j][0], at - within[j][1]
        more = abs(sections * step - metres)
        found = scores[j] - min(more, JUMP) / step
        if found > score:
            score, link = found, j
        if sections == 1 and more < 0.3 * step:
            break
    return score, link
