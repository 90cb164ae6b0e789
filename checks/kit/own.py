"""The lines of a path that are its own at the points of its string."""
import sys

from .whole import TOP

sys.path.insert(0, f"{TOP}/python")
from olr_keep_tools.geo import angle_between, distance  # noqa: E402
from olr_keep_tools.receiver import bearing  # noqa: E402


def own_lines(roads, junctions, path, reference):
    """The line of a path by which each point is left, or the last one entered: of the extended path the one whose node is the
    nearest, and of two from one node the one in the direction of the point."""
    lines, last = extended(junctions, path), len(reference.points) - 1

    def apart(line, point, is_last):
        road = roads.lines[line]
        turned = angle_between(bearing(road, road.length if is_last else 0.0, is_last), point.bearing)
        return round(distance(roads.nodes[road[int(is_last)]], point[:2]), 3), turned

    return [min(lines, key=lambda it: apart(it, point, k == last)) for k, point in enumerate(reference.points)]


def extended(junctions, path):
    """The lines of the extended path."""
    before, after = junctions.extension(path.lines)
    return [*before, *path.lines, *after]
