"""Whether a case of conformance/decode has one answer by any sensible rating, by brute force: all lines within 100 m of each point, and
all routes of the map.

At each point the right line is at least as good as every other one in the distance of its node and of itself, in bearing, class and
form, and better in one of them. Each leg is shorter by a tenth than every other route from its first node to its last one over lines
of at most three classes more than LFRCNP, and fits the distance of the string.
"""
import math

RADIUS = 100.0  # metres
NORTH = 111_195.0  # metres to a degree of latitude
BACK = 20.0  # metres over which a bearing is taken
SECTOR, STEP = 11.25, 58.6
CLASSES = 3  # by which a line of a route may be less important than LFRCNP, for tolerant decoders
LONGER = 1.1  # times the length of a leg that each other route has at least
FIT = 0.03  # of a leg, by which it may be longer or shorter than its distance


def flat(place, origin):
    """A coordinate in metres from another one."""
    return (place[0] - origin[0]) * NORTH * math.cos(math.radians(origin[1])), (place[1] - origin[1]) * NORTH


def nearest(course):
    """How far a course of the plane is from 0,0, and the position along it of the nearest point."""
    best, at = (math.inf, 0.0), 0.0
    for (ax, ay), (bx, by) in zip(course, course[1:]):
        dx, dy = bx - ax, by - ay
        long = math.hypot(dx, dy)
        share = min(1.0, max(0.0, -(ax * dx + ay * dy) / (long * long))) if long else 0.0
        best = min(best, (math.hypot(ax + share * dx, ay + share * dy), at + share * long))
        at += long
    return best


def place_at(course, metres):
    """The point of a course at a distance from its start."""
    for a, b in zip(course, course[1:]):
        long = math.dist(a, b)
        if metres <= long and long:
            return a[0] + (b[0] - a[0]) * metres / long, a[1] + (b[1] - a[1]) * metres / long
        metres -= long
    return course[-1]


def turned(course, at, bearing):
    """By how many degrees the bearing over 20 m from a position of a course differs from another one."""
    a, b = place_at(course, at), place_at(course, at + BACK)
    return abs((math.degrees(math.atan2(b[0] - a[0], b[1] - a[1])) - bearing + 180) % 360 - 180)


class AskedMap:
    """A case, with its lines by number, and the points of its string."""

    def __init__(self, case, points):
        self.nodes = {it["id"]: (it["longitude"], it["latitude"]) for it in case["map"]["nodes"]}
        self.lines = {it["id"]: it for it in case["map"]["lines"]}
        self.points, self.answer = points, case["answers"][0]

    def faults(self):
        """What isn't so."""
        lines, starts = self.answer["lines"], self.answer["points"]
        ends = [self.lines[it] for it in lines]
        if any(a["end"] != b["start"] for a, b in zip(ends, ends[1:])):
            yield "the lines of the answer don't join"
        right = [*(lines[k] for k in starts), lines[-1]]
        for k, point in enumerate(self.points):
            yield from self.rivals(k, point, right[k])
        for k, (begin, end) in enumerate(zip(starts, [*starts[1:], len(lines)])):
            yield from self.routes(k, lines[begin:end])

    def measures(self, number, point, is_last):
        """Of a line at a point: the distances of its node and of itself, the least and the greatest difference of bearings at both,
        that of classes, and that of forms; None if it isn't near, or only by its far end."""
        line = self.lines[number]
        places = [self.nodes[line["start"]], *line["shape"], self.nodes[line["end"]]]
        course = [flat(it, (point["longitude"], point["latitude"])) for it in (places[::-1] if is_last else places)]
        far, at = nearest(course)
        long = sum(map(math.dist, course, course[1:]))
        node = math.hypot(*course[0])
        places = [0.0] * (node <= RADIUS) + [at] * (far <= RADIUS and at < long - 0.1)
        if not places:
            return None
        bearings = [turned(course, it, point["bearing"]["middle"]) for it in places]
        return node, far, min(bearings), max(bearings), abs(line["frc"] - point["frc"]), int(line["fow"] != point["fow"])

    def rivals(self, k, point, right):
        """The other lines near a point that are better than the right one in something, or as good in all."""
        is_last = k == len(self.points) - 1
        node, far, _, bearing, frc, fow = self.measures(right, point, is_last)
        if bearing > SECTOR / 2 + 4 or node > 6:
            yield f"point {k}: the right line {right} is {node:.1f} m away, and turned by {bearing:.1f} degrees"
        for number in self.lines:
            other = self.measures(number, point, is_last)
            if number == right or other is None:
                continue
            # A line through the right node may pass the point up to as near as that is far from it.
            pairs = ((node, other[0], 0.1), (far, other[1], node + 0.1), (bearing, other[2], 1.0), (frc, other[4], 0), (fow, other[5], 0))
            if any(ours > theirs + slack for ours, theirs, slack in pairs):
                yield f"point {k}: line {number} is better than the right one, {right}, in something: {other}"
            if not any(theirs > ours + slack + 1e-9 for ours, theirs, slack in pairs):
                yield f"point {k}: line {number} is as good as the right one, {right}: {other}"

    def routes(self, k, leg):
        """The other routes of a leg that are too short, and whether it fits its distance."""
        length, point = sum(self.lines[it]["length"] for it in leg), self.points[k]
        if not point["dnp"]["low"] - FIT * length <= length <= point["dnp"]["high"] + FIT * length:
            yield f"leg {k}: its length, {length}, isn't its distance, {point['dnp']}"
        if max(self.lines[it]["frc"] for it in leg) > point["lfrcnp"]:
            yield f"leg {k}: a line of it is less important than LFRCNP"
        start, end, most = self.lines[leg[0]]["start"], self.lines[leg[-1]]["end"], point["lfrcnp"] + CLASSES
        for other in self.walks(start, end, most, LONGER * length, {start}):
            if other != leg and sum(self.lines[it]["length"] for it in other) < LONGER * length:
                yield f"leg {k}: the route {other} is nearly as short as {leg}"

    def walks(self, at, end, most, left, seen):
        """All routes from a node to another one that pass no node twice, up to a length."""
        for number, line in self.lines.items():
            if line["start"] != at or line["frc"] > most or line["length"] > left:
                continue
            if line["end"] == end:
                yield [number]
            elif line["end"] not in seen:
                yield from ([number, *it] for it in self.walks(line["end"], end, most, left - line["length"], seen | {line["end"]}))
