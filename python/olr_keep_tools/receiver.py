"""A receiver of OpenLR line locations: decodes strings on a road map by the decoding rules of the White Paper.

    roads = RoadMap.of_state(read_state(["map.csv"]))
    found = decode(roads, read_reference("CwRbWyNG9RqsDgCG/d4rWS0="), RULES["reference"])
    print(found.lines if isinstance(found, Decoded) else found.why)

Coordinates are degrees; lengths, distances and offsets metres; bearings degrees, clockwise from north.
"""
import functools
import itertools
import math
from collections import defaultdict
from typing import Callable, Dict, Iterable, Iterator, List, NamedTuple, Optional, Sequence, Set, Tuple, Union

from .geo import METRES, Degrees, angle_between, between, direction, distance, on_piece, scale
from .grid import CELL, Grid, Points
from .records import State
from .routes import Search, Step
from .strings import Onward, Point, Reference

WIDEST = 1.0  # degrees; a line over more than these is in no cell

Box = Tuple[float, float, float, float]  # west, south, east, north
Shape = Sequence[Tuple[float, float, float]]  # distance along a line, longitude and latitude


# ---- the map


class Road(NamedTuple):
    """A directed line; `points` are (distance along the line, lon, lat), its two ends included."""

    start: int
    end: int
    frc: int
    fow: int
    length: float
    points: Tuple[Tuple[float, float, float], ...]


class RoadMap:
    """Lines by number, those that leave and enter each node, and a grid of both, which is made when it is first asked for."""

    def __init__(self, nodes: Dict[int, Degrees], lines: Dict[int, Road]):
        self.nodes, self.lines = nodes, lines
        self.leaving: Dict[int, List[int]] = defaultdict(list)
        self.entering: Dict[int, List[int]] = defaultdict(list)
        for number, road in lines.items():
            self.leaving[road.start].append(number)
            self.entering[road.end].append(number)

    @functools.cached_property
    def points(self) -> Points:
        """The nodes, by which those near a coordinate are found."""
        return Points(self.nodes, self.nodes.__getitem__)

    @functools.cached_property
    def line_grid(self) -> Grid[Tuple[int, Box]]:
        """The lines, each with its box; without those that have a coordinate that is far off."""
        grid: Grid[Tuple[int, Box]] = Grid(CELL)
        for number, road in self.lines.items():
            if not is_wide(road):
                _, lons, lats = zip(*road.points)
                grid.add_along(list(zip(lons, lats)), (number, (min(lons), min(lats), max(lons), max(lats))))
        return grid

    @classmethod
    def of_state(cls, state: State) -> "RoadMap":
        """The map of a state that `records.read_state` gave. It is made from the texts of the records: a decimal of a coordinate
        is the same number as its whole units divided by their number."""
        nodes = {}
        for number, text in state.nodes.text.items():
            lon, lat = text.split(",")
            nodes[number] = float(lon), float(lat)
        return cls(nodes, {number: road_of(text, nodes) for number, text in state.lines.text.items()})

    def lines_near(self, lon: float, lat: float, radius: float) -> List[Tuple[int, float, float]]:
        """The lines within a radius of a coordinate, each with its distance and the position of its nearest point, in ascending
        order."""
        east, north = radius / scale(lat), radius / METRES
        found: Dict[int, Tuple[float, float]] = {}
        for it, (west, south, other_east, other_north) in self.line_grid.near((lon, lat), radius):
            if west - east <= lon <= other_east + east and south - north <= lat <= other_north + north and it not in found:
                found[it] = project(self.lines[it], lon, lat)
        return [(it, far, at) for it, (far, at) in sorted(found.items()) if far <= radius]


def road_of(text: str, nodes: Dict[int, Degrees]) -> Road:
    """The line with these fields of a record, in metres and degrees."""
    start, end, frc, fow, length, *rest = text.split(",")
    first, last, metres = int(start), int(end), int(length) / 10
    inner = zip((int(it) / 10 for it in rest[::3]), map(float, rest[1::3]), map(float, rest[2::3])) if rest else ()
    return Road(first, last, int(frc), int(fow), metres, ((0.0, *nodes[first]), *inner, (metres, *nodes[last])))


def is_wide(road: Road) -> bool:
    """Whether the segments of a line together are wider or higher than any road."""
    return sum(max(abs(b[1] - a[1]), abs(b[2] - a[2])) for a, b in zip(road.points, road.points[1:])) > WIDEST


# ---- geometry of roads


def shape_length(points: Shape) -> float:
    """The length of a shape along its straight segments."""
    return sum(distance(a[1:], b[1:]) for a, b in zip(points, points[1:]))


def place(road: Road, at: float) -> Degrees:
    """The coordinate at this distance along a line."""
    for a, b in zip(road.points, road.points[1:]):
        if at <= b[0]:
            return between(a[1:], b[1:], max(0.0, (at - a[0]) / (b[0] - a[0])))
    return road.points[-1][1:]


def bearing(road: Road, at: float, is_last: bool, length: float = 20.0) -> float:
    """The bearing from a position on a line to the one 20 m along it, or 20 m back for a last point, or to the line's end."""
    other = max(0.0, at - length) if is_last else min(road.length, at + length)
    return direction(place(road, at), place(road, other))


def project(road: Road, lon: float, lat: float) -> Tuple[float, float]:
    """The distance of a coordinate from a line, and the position of the nearest point along the line."""
    best = (math.inf, 0.0)
    for a, b in zip(road.points, road.points[1:]):
        far, share = on_piece(a[1:], b[1:], lon, lat)
        if far < best[0]:
            best = (far, a[0] + (b[0] - a[0]) * share)
    return best


# ---- sets of rules


class Rules(NamedTuple):
    """The weights and limits of a receiver; `RULES` has two sets. Each rating and each score is between 0 and 1."""

    radius: float  # the greatest distance of a candidate from the point
    weights: Tuple[float, ...]  # of distance, class, form and bearing; together 1
    least: float  # the least rating of a candidate
    class_scores: Tuple[float, ...]  # by the difference of the classes
    form_scores: Tuple[Tuple[float, ...], ...]  # by the form of the point, and then that of the line
    # (degrees, score) up to each of these differences, in ascending order; empty: 1 - degrees / 180
    bearing_scores: Tuple[Tuple[float, float], ...]
    bearing_limit: float  # the greatest difference of bearings of a candidate
    class_variance: int  # how much lower than LFRCNP a line of a route may be
    dnp_share: float  # the share by which a route may be longer or shorter than the distance to the next point
    dnp_metres: float  # and the metres in addition
    pairs: int  # the number of pairs of candidates that are tried for a leg
    same_line: float  # the share subtracted from a pair's rating if both are on one line
    nodes_first: bool  # whether lines are found by their nodes, and by their shape only if that gives no candidate
    snap: float  # a position this near to a line's relevant end counts as that end, and this near to the other one as past it


ALIKE = tuple(tuple(1.0 if a == b else 0.5 if 0 in (a, b) or {a, b} <= {1, 2} else 0.25 for b in range(8)) for a in range(8))
STAND_IN = (
    (0.50, 0.50, 0.50, 0.50, 0.50, 0.50, 0.50, 0.50),
    (0.50, 1.00, 0.75, 0.00, 0.00, 0.00, 0.00, 0.00),
    (0.50, 0.75, 1.00, 0.75, 0.50, 0.00, 0.00, 0.00),
    (0.50, 0.00, 0.75, 1.00, 0.50, 0.50, 0.00, 0.00),
    (0.50, 0.00, 0.50, 0.50, 1.00, 0.50, 0.00, 0.00),
    (0.50, 0.00, 0.00, 0.50, 0.50, 1.00, 0.00, 0.00),
    (0.50, 0.00, 0.00, 0.00, 0.00, 0.00, 1.00, 0.00),
    (0.50, 0.00, 0.00, 0.00, 0.00, 0.00, 0.00, 1.00),
)
RULES = {
    "reference": Rules(
        radius=100, weights=(0.25, 0.25, 0.25, 0.25), least=800 / 1200, class_scores=(1, 0.75, 0.5, 0, 0, 0, 0, 0),
        form_scores=ALIKE, bearing_scores=((6, 1), (12, 0.5), (18, 0.25), (180, 0)), bearing_limit=180, class_variance=2,
        dnp_share=0, dnp_metres=118, pairs=4, same_line=0.1, nodes_first=True, snap=0,
    ),
    "dereferencer": Rules(
        radius=100, weights=(0.25, 0.25, 0.25, 0.25), least=0.3, class_scores=tuple(1 - k / 7 for k in range(8)),
        form_scores=STAND_IN, bearing_scores=(), bearing_limit=45, class_variance=0, dnp_share=0.3, dnp_metres=30,
        pairs=1_000_000, same_line=0, nodes_first=False, snap=20,
    ),
}


# ---- candidates


class Candidate(NamedTuple):
    """A line that may be meant by a point, and the position on it; higher ratings are better. `bearing` is the difference."""

    rating: float
    line: int
    at: float
    distance: float
    bearing: float


class Position(NamedTuple):
    """A position along a line, and how far away a point is."""

    line: int
    at: float
    far: float


def candidates(roads: RoadMap, point: Point, is_last: bool, rules: Rules) -> Tuple[List[Candidate], int]:
    """The candidates of a point, the best first, and the number of rated lines."""
    count, good = 0, []
    for positions in (by_nodes, by_shape) if rules.nodes_first else (by_shape,):
        rated = [rate(roads, point, is_last, rules, it) for it in positions(roads, point, is_last, rules)]
        good = [it for it in rated if it.rating >= rules.least and it.bearing <= rules.bearing_limit]
        count = max(count, len(rated))
        if good:
            break
    return sorted(good, key=lambda it: (-it.rating, it.line)), count


def by_nodes(roads: RoadMap, point: Point, is_last: bool, rules: Rules) -> Iterator[Position]:
    """Lines that leave (for the last point: enter) a node within the radius."""
    sides = roads.entering if is_last else roads.leaving
    for node, far in roads.points.near((point.lon, point.lat), rules.radius).items():
        for line in sides[node]:
            yield Position(line, roads.lines[line].length if is_last else 0.0, far)


def by_shape(roads: RoadMap, point: Point, is_last: bool, rules: Rules) -> Iterator[Position]:
    """Lines whose shape is within the radius, from their position nearest to the point."""
    for line, far, at in roads.lines_near(point.lon, point.lat, rules.radius):
        road = roads.lines[line]
        end = road.length if is_last else 0.0
        if abs(at - end) <= rules.snap:
            yield Position(line, end, distance((point.lon, point.lat), place(road, end)))
        elif abs(road.length - end - at) > rules.snap:
            yield Position(line, at, far)


def rate(roads: RoadMap, point: Point, is_last: bool, rules: Rules, it: Position) -> Candidate:
    """A candidate with its rating."""
    road = roads.lines[it.line]
    turned = angle_between(bearing(road, it.at, is_last), point.bearing)
    steps = (score for limit, score in rules.bearing_scores if turned <= limit)
    scores = (
        max(0.0, 1 - it.far / rules.radius),
        rules.class_scores[abs(road.frc - point.frc)],
        rules.form_scores[point.fow][road.fow],
        next(steps, 0.0) if rules.bearing_scores else 1 - turned / 180,
    )
    return Candidate(sum(a * b for a, b in zip(rules.weights, scores)), it.line, it.at, it.far, turned)


# ---- routes


class Stretch(NamedTuple):
    """A route between two candidates: the lines after that of the first one, up to that of the second, and its length."""

    lines: List[int]
    length: float


class NoLeg(NamedTuple):
    """Why there is no route between two candidates: `no route` or `another length`, and a text."""

    kind: str
    why: str


class Router:
    """Routes for one string, by its rules. Searches are cached, since many candidates share a node."""

    def __init__(self, roads: RoadMap, rules: Rules):
        self.roads, self.rules = roads, rules
        self.searches: Dict[Tuple[int, int], Search] = {}

    def bounds(self, onward: Onward) -> Tuple[float, float]:
        """The least and the greatest length of the route after a point."""
        more = onward.metres * self.rules.dnp_share + self.rules.dnp_metres
        return onward.metres - more, onward.metres + more

    def search(self, start: int, lowest: int) -> Search:
        """The search from a node over lines whose class is at most a limit."""
        lines, leaving = self.roads.lines, self.roads.leaving

        def steps(node: int) -> Iterator[Step]:
            for it in leaving[node]:
                road = lines[it]
                if road.frc <= lowest:
                    yield it, road.end, road.length

        if (start, lowest) not in self.searches:
            self.searches[start, lowest] = Search(start, steps)
        return self.searches[start, lowest]

    def route(self, onward: Onward, a: Candidate, b: Candidate) -> Union[Stretch, NoLeg]:
        """The leg from one candidate to the next, or why there is none."""
        least, most = self.bounds(onward)
        road, lowest = self.roads.lines[a.line], onward.lfrcnp + self.rules.class_variance
        if a.line == b.line and a.at < b.at:
            leg = Stretch([], b.at - a.at)
        else:
            search, target, ends = self.search(road.end, lowest), self.roads.lines[b.line].start, road.length - a.at + b.at
            between_ends = search.to(target, most - ends)
            if between_ends is None:
                how = f"of at most {most:.0f} m over classes 0 to {min(7, lowest)}"
                return NoLeg("no route", f"no route {how} from line {a.line} to line {b.line}")
            leg = Stretch([*search.lines_to(target), b.line], ends + between_ends)
        if not least <= leg.length <= most:
            how = f"{leg.length:.0f} m and not {max(0, least):.0f} to {most:.0f} m"
            return NoLeg("another length", f"the route from line {a.line} to line {b.line} is of {how}")
        return leg


# ---- decoding


class Decoded(NamedTuple):
    """A decoded string: the lines between its offsets, what is cut off the first and the last of them, all lines between the
    first and the last point, the positions of these two points on the first and the last line, the chosen candidates, the
    second best of each point or None, and the length of each leg."""

    lines: List[int]
    positive: float
    negative: float
    whole: List[int]
    begin: float
    end: float
    taken: List[Candidate]
    second: List[Optional[Candidate]]
    lengths: List[float]


class Failed(NamedTuple):
    """The point, from 0, at which decoding failed, and why; of the kinds `no candidate`, `no route` and `another length`."""

    point: int
    kind: str
    why: str


class Joined(NamedTuple):
    """One candidate for each point, and the legs between them."""

    taken: List[Candidate]
    legs: List[Stretch]


def decode(roads: RoadMap, reference: Reference, rules: Rules) -> Union[Decoded, Failed]:
    """Decodes a reference on a map."""
    points = reference.points
    ranked = []
    for k, point in enumerate(points):
        good, count = candidates(roads, point, k == len(points) - 1, rules)
        if not good:
            why = f"none of the {count} lines within {{}} m matches" if count else "no line within {} m"
            return Failed(k, "no candidate", why.format(f"{rules.radius:g}"))
        ranked.append(good)
    joined = joined_candidates(Router(roads, rules), [it.onward for it in points if it.onward], ranked)
    return joined if isinstance(joined, Failed) else cut(roads, reference, joined, ranked)


Pair = Tuple[Candidate, Candidate]


def pairs_of(starts: List[Candidate], ends: List[Candidate], rules: Rules) -> Iterator[Pair]:
    """Pairs of candidates, the best rated first."""

    def rating(pair: Pair) -> float:
        a, b = pair
        return (a.rating + b.rating) * (1 - rules.same_line * (a.line == b.line))

    return iter(sorted(itertools.product(starts, ends), key=lambda it: -rating(it))[: rules.pairs])


def joined_candidates(router: Router, onward: Sequence[Onward], ranked: List[List[Candidate]]) -> Union[Joined, Failed]:
    """One candidate for each point and the legs between them. If a leg has no route, the leg before it is tried with its next
    pair (backtracking); a candidate from which the rest failed is not tried again."""
    waiting, deepest = [pairs_of(ranked[0], ranked[1], router.rules)], Failed(0, "no route", "")
    taken: List[Pair] = []
    legs: List[Stretch] = []
    dead: Set[Tuple[int, Candidate]] = set()
    while waiting:
        k, pair = len(waiting) - 1, next(waiting[-1], None)
        if pair is None:
            waiting.pop()
            if taken:
                dead.add((k, taken.pop()[1]))
                legs.pop()
            continue
        if (k + 1, pair[1]) in dead:
            continue
        leg = router.route(onward[k], *pair)
        if isinstance(leg, NoLeg):
            if k > deepest.point or not deepest.why:
                deepest = Failed(k, leg.kind, f"to point {k + 1}: {leg.why}")
            continue
        taken.append(pair)
        legs.append(leg)
        if k + 1 == len(onward):
            return Joined([taken[0][0], *(b for _, b in taken)], legs)
        waiting.append(pairs_of([pair[1]], ranked[k + 2], router.rules))
    return deepest


def within(roads: RoadMap, lines: Sequence[int], begin: float, back: float) -> Tuple[List[int], float, float]:
    """Lines without those that are cut off whole by metres at the start and at the end, and what is cut off the others."""
    left = list(lines)
    while len(left) > 1 and begin >= roads.lines[left[0]].length:
        begin -= roads.lines[left.pop(0)].length
    while len(left) > 1 and back >= roads.lines[left[-1]].length:
        back -= roads.lines[left.pop()].length
    return left, begin, back


def cut(roads: RoadMap, reference: Reference, joined: Joined, ranked: List[List[Candidate]]) -> Decoded:
    """The whole route with its offsets cut off, each in the middle of its interval."""
    taken, legs = joined
    whole, begin, end = [taken[0].line, *(line for it in legs for line in it.lines)], taken[0].at, taken[-1].at
    lengths, (positive, negative) = [it.length for it in legs], reference.shares
    first = begin + sum(positive) / 2 * lengths[0]
    last = roads.lines[whole[-1]].length - end + sum(negative) / 2 * lengths[-1]
    lines, first, last = within(roads, whole, first, last)
    second = [next((it for it in good if it.line != one.line), None) for good, one in zip(ranked, taken)]
    return Decoded(lines, first, last, whole, begin, end, taken, second, lengths)


# ---- the sets of rules as a table


def numbers(values: Iterable[float]) -> str:
    """Numbers as a text, with two decimals."""
    return ", ".join(f"{it:.2f}".rstrip("0").rstrip(".") for it in values)


def bearings_text(rules: Rules) -> str:
    """The score of a difference of bearings, as a text."""
    if not rules.bearing_scores:
        return "1 - difference / 180"
    return ", ".join(f"{score:g} to {limit:g} degrees" for limit, score in rules.bearing_scores)


ROWS: Sequence[Tuple[str, Callable[[Rules], str], str]] = (
    ("candidate lines", lambda it: "at nodes within `radius`, else by shape" if it.nodes_first else "by shape",
     "White Paper, candidate nodes and direct search; dereferencer: projection on each line"),
    ("`radius`, in m", lambda it: f"{it.radius:g}", "greatest distance of a node; search radius"),
    ("`weights` of distance, class, form, bearing", lambda it: numbers(it.weights),
     "node factor 3 and line factor 3 of ratings up to 100; four weights"),
    ("distance", lambda it: "1 - distance / `radius`", "rating of nodes; geographic score"),
    ("`class_scores`, by difference", lambda it: numbers(it.class_scores),
     "ratings 100, 75, 50, 0; share of the 7 classes"),
    ("form: the same, motorway and multiple carriageway, undefined, roundabout and single carriageway",
     lambda it: numbers(it.form_scores[a][b] for a, b in ((3, 3), (1, 2), (0, 3), (4, 3))),
     "ratings 100, 50, 50, 25; substitution table"),
    ("bearing", bearings_text, "ratings 100, 50, 25, 0 at 6, 12, 18 degrees; linear score"),
    ("`bearing_limit`, in degrees", lambda it: f"{it.bearing_limit:g}", "none; greatest deviation of bearings"),
    ("`least` rating", lambda it: f"{it.least:.3g}", "least accepted rating 800 of 1,200; least score"),
    ("`class_variance`, above LFRCNP", lambda it: f"{it.class_variance}", "FRC variance; tolerated LFRCNP"),
    ("`dnp_share` and `dnp_metres`, by which a route may differ", lambda it: f"{it.dnp_share:g} and {it.dnp_metres:g}",
     "DNP variance; greatest deviation and tolerated metres"),
    ("`pairs` of candidates tried", lambda it: f"{it.pairs}" if it.pairs < 1000 else "all", "3 retries; all pairs"),
    ("`same_line`, subtracted for a pair on one line", lambda it: f"{it.same_line:g}", "same line degradation; none"),
    ("`snap`, in m, of positions near a line's ends", lambda it: f"{it.snap:g}" if it.snap else "none",
     "none; threshold for partial lines"),
    ("bearing taken over", lambda it: "20 m", "White Paper"),
    ("DNP, bearing, offset", lambda it: "middle of the interval", "White Paper gives the interval; both take its middle"),
    ("order of pairs", lambda it: "sum of ratings", "this tool, in place of a product; dereferencer"),
    ("no route", lambda it: "backtrack to the previous leg", "this tool; dereferencer"),
)


def rule_sets() -> str:
    """The two sets of rules as a table."""
    lines = ["| rule | " + " | ".join(f"`{name}`" for name in RULES) + " | from |", "|---|---|---|---|"]
    lines += [f"| {name} | " + " | ".join(text(it) for it in RULES.values()) + f" | {source} |" for name, text, source in ROWS]
    return "".join(f"{it}\n" for it in lines)
