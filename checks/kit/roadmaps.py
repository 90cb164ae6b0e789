"""Small maps with roads beside each other, edits of them, and what is right afterwards, for checks/roads, checks/swap and checks/edits."""
import collections
import itertools
import math
import random
import sys

from .whole import TOP

sys.path.insert(0, f"{TOP}/python")
from olr_keep_tools.courses import Found, Ground, Network, Polyline, course_of  # noqa: E402
from olr_keep_tools.roads import Given, LastMap, Roads, Verdict  # noqa: E402

EAST, NORTH = 72_300.0, 111_194.9  # metres to a degree at 49.6 degrees
TURNED = {"both": "both", "along": "against", "against": "along"}


def degrees(place, at=(6.1, 49.6)):
    """A place in metres from a map's corner, in degrees."""
    return at[0] + place[0] / EAST, at[1] + place[1] / NORTH


class Street:
    """A street: its places in metres, its direction, its class, and the name of the road that it is part of in truth."""

    def __init__(self, places, direction, road, frc=3):
        self.places, self.direction, self.road, self.frc = list(places), direction, road, frc

    def copy(self):
        """Another one that is the same."""
        return Street(self.places, self.direction, self.road, self.frc)


def same_streets(streets, others):
    """The streets that are the same in another map."""
    return {name: it for name, it in streets.items() if name in others and vars(others[name]) == vars(it)}


def corner(place):
    """A place by which vertices are the same."""
    return round(place[0] * 100), round(place[1] * 100)


def lines_of(streets):
    """The lines of streets that are cut where they share vertices, by number."""
    uses = collections.Counter(it for street in streets.values() for it in {corner(place) for place in street.places})
    ends = {corner(place) for street in streets.values() for place in (street.places[0], street.places[-1])}
    nodes, found = {}, {}
    for name, street in streets.items():
        places = street.places
        cuts = [k for k in range(1, len(places) - 1) if uses[corner(places[k])] > 1 or corner(places[k]) in ends]
        for a, b in zip([0, *cuts], [*cuts, len(places) - 1]):
            part = places[a : b + 1]
            start, end = (nodes.setdefault(corner(it), len(nodes) + 1) for it in (part[0], part[-1]))
            length, points = round(10 * sum(map(math.dist, part, part[1:]))), tuple(map(degrees, part))
            if street.direction != "against":
                found[len(found) + 1] = Ground(start, end, name, points, length)
            if street.direction != "along":
                found[len(found) + 1] = Ground(end, start, name, points[::-1], length)
    return found


def lines_over(lines, streets, names):
    """The lines over streets that follow each other, in the direction in which they are drawn."""
    found = []
    for name in names:
        order = [degrees(it) for it in streets[name].places]
        found += sorted((it for it, line in lines.items() if line.street == name
                         and order.index(line.points[0]) < order.index(line.points[-1])), key=lambda it: order.index(lines[it].points[0]))
    return found


def decided(before, path, after, cuts=(0, 0)):
    """What the rule decides of a path over streets, when these streets become those: the decision, the lines, and the course."""
    old, new = lines_of(before), lines_of(after)
    own = lines_over(old, before, path)
    course = course_of([old[it] for it in own], *cuts)
    roads = Roads(Given(course, not cuts[0], not cuts[1], frozenset(path)), LastMap(old, own, cuts), new, Network(new), 20.0)
    return roads.decide(), new, course


def outcome(answer):
    """G as given, M moved, E elsewhere, L lost."""
    if isinstance(answer.found, Found) and answer.verdict is Verdict.THERE:
        return "G" if answer.off <= 2 else "M"
    return "E" if isinstance(answer.found, Found) else "L"


# ---- maps in text


def street_of(text, far):
    """A street of a text like 0:100@d:200, of places east@north in metres, where d is the distance of the road beside."""
    places = []
    for it in text.split(":"):
        east, _, north = it.partition("@")
        places.append((float(east), sum(map(float, north.replace("d", f"{far}").replace("-", " -").replace("+", " ").split()))))
    return Street(places, "both", "")


def edited(streets, text, far):
    """Streets after the edits of a text: 1 0:200 draws street 1, -1 deletes it, 1<>9 swaps the ids of two."""
    found = {name: it.copy() for name, it in streets.items()}
    for edit in text.split("; ") if text else ():
        name, _, shape = edit.partition(" ")
        if "<>" in edit:
            a, b = edit.split("<>")
            found[a], found[b] = found[b], found[a]
        elif shape:
            found[name] = street_of(shape, far)
        else:
            del found[edit[1:]]
    return found


# ---- what editors do

FAR = 3, 6, 12, 18, 30  # metres to the road beside
# The path is over streets 1 and 2, the road beside is street 9; others meet them at the ends and between.
MAP = "1 0:100:200; 2 200:350:500; 3 500:650; 4 -150:0; 9 0@d:250@d:500@d; 5 0:0@-80; 6 500:500@-80; 7 200:200@-80"
# Each line: what an editor did, the edits, and what the path is then, with the other road at each distance: G as given, M moved,
# E found elsewhere, L lost. A word for all five, if it is the same.
TABLE = """
split, the first part keeps the id | 2 200:350; 8 350:500 | G
split, the second part keeps the id | 2 350:500; 8 200:350 | G
split of the first street | 1 100:200; 8 0:100 | G
merge of the first street with the one before | -4; 1 -150:0:100:200 | G
merge of the one before with the first street | -1; 4 -150:0:100:200 | G
merge of the last street with the one after | -3; 2 200:350:500:650 | G
merge of both streets | -2; 1 0:100:200:350:500 | G
the road beside is split | 9 0@d:250@d; 8 250@d:500@d | G
reverse | 1 200:100:0 | G
reverse of all | 1 200:100:0; 2 500:350:200; 9 500@d:250@d:0@d | G
redraw by a metre | 1 0:100@-1:200 | G
redraw by 4 m | 1 0:100@-4:200 | M
redraw by a metre, with another id | -1; 8 0:100@-1:200 | G
redraw by 4 m, with another id | -1; 8 0:100@-4:200 | M
redraw by 9 m, with another id | -1; 8 0:50@-9:150@-9:200 | E
shift by 6 m | 1 0@-6:100@-6:200@-6; 2 200@-6:350@-6:500@-6 | M
shift by 6 m, with other ids | -1; -2; 11 0@-6:100@-6:200@-6; 12 200@-6:350@-6:500@-6 | E
shift of both roads by 6 m | 1 0@-6:100@-6:200@-6; 2 200@-6:350@-6:500@-6; 9 0@d-6:250@d-6:500@d-6 | M
shift of both roads by 6 m, with other ids | -1; -2; -9; 11 0@-6:200@-6; 12 200@-6:500@-6; 19 0@d-6:500@d-6 | M
a district is moved by 6 m, with other ids | -1; -2; -3; -4; -5; -6; -7; -9; 11 0@6:200@6; 12 200@6:500@6; 13 500@6:650@6; 14 -150@6:0@6; 15 0@6:0@-74; 16 500@6:500@-74; 17 200@6:200@-74; 19 0@d+6:500@d+6 | M
a junction is moved along the path | 1 0:100:206; 2 206:350:500; 7 206:200@-80 | G
a junction is moved off the path | 1 0:100:200@-5; 2 200@-5:350:500; 7 200@-5:200@-80 | M
the junction at its end is moved along the road | 2 200:350:506; 3 506:650; 6 506:500@-80 | M
the junction at its start is moved to the side | 1 0@-7:100:200; 4 -150:0@-7; 5 0@-7:0@-80 | M
copy and paste | 8 0:100:200 | G
delete, and again with its id | 1 0:100:200 | G
delete, and again with another id | -1; 8 0:100:200 | G
other ids for all | -1; -2; -9; 11 0:100:200; 12 200:350:500; 19 0@d:250@d:500@d | G
other ids for all, the other road is gone | -1; -2; -9; 11 0:100:200; 12 200:350:500 | EGGGG
other ids for all, the road is gone | -1; -2; -9; 19 0@d:250@d:500@d | EEEEL
delete | -1; -2 | EEEEL
delete of one street | -1 | EEEEL
the road beside is deleted | -9 | G
a crossing street is deleted | -6 | G
a side road | 8 100:100@-50 | G
the street is longer | -3; 2 200:350:500:560 | G
another road is drawn beside | 8 0@-d:250@-d:500@-d | G
delete, and one of its kind is drawn on the other side | -1; -2; 8 0@-10:250@-10:500@-10 | E
delete, and one of its kind is drawn farther | -1; -2; 8 0@d+6:250@d+6:500@d+6 | EEEEL
ids swapped | 1<>9 | G
ids swapped, of a part | 2<>9 | G
its ids given to the road beside | -1; -2; -9; 1 0@d:250@d:500@d | EEEEL
its id given to the road beside, and that is moved | -1; -2; -9; 1 0@d+2:250@d+2:500@d+2 | EEELL
"""


def rows():
    """The lines of the table: what was done, the edits, and the five outcomes."""
    for line in TABLE.strip().splitlines():
        what, edits, wanted = line.split(" | ")
        yield what, edits, wanted if len(wanted) > 1 else wanted * len(FAR)


# ---- random maps


def beside(places, far):
    """A course so many metres to the left of another one."""
    found = []
    for k, place in enumerate(places):
        a, b = places[max(0, k - 1)], places[min(len(places) - 1, k + 1)]
        length = math.dist(a, b)
        found.append((place[0] - (b[1] - a[1]) / length * far, place[1] + (b[0] - a[0]) / length * far))
    return found


STEPS = 6  # segments of a street
OWN, BESIDE, CROSSING, OTHER = "own", "beside", "crossing", "other"


class World:
    """A road of three to six streets with a path, one of its kind 3 to 30 m beside it, joined to it at none, one or both ends, and
    streets that cross one or both."""

    def __init__(self, rnd):
        self.rnd, self.streets, self.last = rnd, {}, 0
        count, size = rnd.randint(3, 6), rnd.randint(60, 200) / STEPS
        self.far, self.direction = rnd.uniform(3, 30) * rnd.choice((1, -1)), rnd.choice(("both", "both", "along"))
        bend, angle, places = rnd.choice((0, 0, 5e-4, 1e-3, 2e-3)), 0.0, [(0.0, 0.0)]
        for _ in range(count * STEPS):
            angle += rnd.uniform(-0.05, 0.05) + bend * size * rnd.choice((1, 1, -1))
            places.append((places[-1][0] + size * math.cos(angle), places[-1][1] + size * math.sin(angle)))
        self.path = [self.add(places[k * STEPS : (k + 1) * STEPS + 1], self.direction, OWN) for k in range(count)]
        if rnd.random() < 0.5:
            self.add([(-150, rnd.uniform(-40, 40)), (-70, 0), (0, 0)], "both", OTHER)
        if rnd.random() < 0.5:
            x, y = places[-1]
            ahead = [(x + far * math.cos(angle), y + (far + 10) * math.sin(angle)) for far in (70, 150)]
            self.add([places[-1], *ahead], "both", OTHER)
        self.add_beside(places, count)
        self.cuts = tuple(rnd.choice((0, 0, rnd.randint(50, 200))) for _ in range(2))

    def add(self, places, direction, road):
        """Adds a street, and returns its name."""
        self.last += 1
        self.streets[str(self.last)] = Street(places, direction, road)
        return str(self.last)

    def add_beside(self, places, count):
        """Adds the road beside, and the streets that cross."""
        rnd, other, joined = self.rnd, beside(places, self.far), self.rnd.choice((0, 1, 2, 2))
        other = [places[0] if joined else other[0], *other[1:-1], places[-1] if joined == 2 else other[-1]]
        cuts = {0, len(places) - 1, *(k * STEPS for k in range(1, count) if rnd.random() < 0.6)}
        cuts = sorted(cuts | ({rnd.randint(2, len(places) - 3)} if rnd.random() < 0.3 else set()))
        for a, b in zip(cuts, cuts[1:]):
            self.add(other[a : b + 1], self.direction, BESIDE)
        side = math.copysign(1, self.far)
        away, across = beside(places, -120 * side), beside(places, 150 * side)
        for k in range(0, len(places), STEPS):
            chance = rnd.random()
            if chance < 0.5:
                self.add([places[k], away[k]], "both", CROSSING)
            elif chance < 0.8 and k in cuts and other[k] != places[k]:
                self.add([away[k], places[k], other[k], across[k]], "both", CROSSING)

    def of(self, road):
        """The names of the streets of a road."""
        return [name for name, it in self.streets.items() if it.road == road]


class Editor:
    """Edits of a world, as users of QGIS make them, and those of deliveries."""

    MILD = "split", "split_beside", "merge", "reverse", "redraw", "redraw_again", "new_class", "copied", "side_road", "no_crossing"
    HARD = ("shift_both", "shift_own", "shift_beside", "district", "swapped", "all_swapped", "deleted", "one_deleted", "beside_deleted",
            "new_beside", "new_ids", "own_new_ids", "given_again", "drawn_beside", "again", "junction")

    def __init__(self, world):
        self.world, self.streets, self.rnd = world, world.streets, world.rnd

    def edit(self, count):
        """So many edits, of which one at most is hard to understand; returns their names, and the maps from the first one on."""
        hard, maps = self.rnd.randrange(count), [self.map()]
        names = [self.rnd.choice(self.HARD if k == hard and self.rnd.random() < 0.7 else self.MILD) for k in range(count)]
        for it in names:
            getattr(self, it)()
            maps.append(self.map())
        return names, maps

    def map(self):
        """The streets as they are now."""
        return {name: it.copy() for name, it in self.streets.items()}

    def some(self, road):
        """Some street of a road, or none."""
        names = self.world.of(road)
        return [self.rnd.choice(names)] if names else []

    def move(self, names, east, north):
        """Moves streets, and the ends of others with them."""
        there = {corner(it): (it[0] + east, it[1] + north) for name in names for it in self.streets[name].places}
        for it in self.streets.values():
            it.places = [there.get(corner(place), place) for place in it.places]

    def shift(self, names, most):
        """Moves streets to one side."""
        far, angle = self.rnd.uniform(1, most) * self.rnd.choice((1, -1)), self.rnd.uniform(-0.3, 0.3)
        self.move(names, far * math.sin(angle), far * math.cos(angle))

    def again_as(self, name, places=None):
        """Deletes a street, and draws it with another id."""
        was = self.streets.pop(name)
        return self.world.add(places or was.places, was.direction, was.road)

    def shift_both(self):
        self.shift(self.world.of(OWN) + self.world.of(BESIDE), 8)

    def shift_own(self):
        self.shift(self.world.of(OWN), min(8, 0.4 * abs(self.world.far)))

    def shift_beside(self):
        self.shift(self.world.of(BESIDE), min(8, 0.4 * abs(self.world.far)))

    def district(self):
        far, angle = self.rnd.uniform(3, 9), self.rnd.uniform(0, 2 * math.pi)
        self.move(list(self.streets), far * math.cos(angle), far * math.sin(angle))
        if self.rnd.random() < 0.5:
            self.new_ids()

    def split_of(self, road):
        """Splits a street of a road; one part keeps the id."""
        for it in map(self.streets.get, self.some(road)):
            if len(it.places) > 2:
                at = self.rnd.randint(1, len(it.places) - 2)
                parts = [it.places[: at + 1], it.places[at:]]
                self.rnd.shuffle(parts)
                it.places = parts[0]
                self.world.add(parts[1], it.direction, it.road)

    def split(self):
        self.split_of(OWN)

    def split_beside(self):
        self.split_of(BESIDE)

    def merge(self):
        """Two streets of a road, or one with the road before or after, that follow each other; one id is kept."""
        streets = self.streets
        pairs = [(a, b) for a, one in streets.items() for b, two in streets.items() if a != b and one.places[-1] == two.places[0]
                 and one.direction == two.direction and {one.road, two.road} in ({OWN}, {BESIDE}, {OWN, OTHER})]
        for a, b in [self.rnd.choice(pairs)] if pairs else ():
            places = streets[a].places + streets[b].places[1:]
            kept, gone = self.rnd.choice(((a, b), (b, a)))
            road = OWN if OWN in (streets[a].road, streets[b].road) else BESIDE
            streets[kept].places, streets[kept].road = places, road
            del streets[gone]

    def reverse(self):
        it = self.streets[self.rnd.choice(list(self.streets))]
        it.places.reverse()
        it.direction = TURNED[it.direction]

    def redraw(self):
        for it in map(self.streets.get, self.some(OWN)):
            most = self.rnd.uniform(0.1, 2)
            it.places[1:-1] = [(x + self.rnd.uniform(-most, most), y + self.rnd.uniform(-most, most)) for x, y in it.places[1:-1]]

    def redraw_again(self):
        self.redraw()
        for it in self.some(OWN):
            self.again_as(it)

    def new_class(self):
        for it in self.some(OWN):
            self.streets[it].frc = self.rnd.randint(2, 5)

    def copied(self):
        for it in map(self.streets.get, self.some(OWN)):
            self.world.add(it.places, it.direction, OWN)

    def side_road(self):
        for it in map(self.streets.get, self.some(OWN)):
            x, y = it.places[self.rnd.randint(1, len(it.places) - 2)] if len(it.places) > 2 else it.places[0]
            self.world.add([(x, y), (x + self.rnd.uniform(-30, 30), y - 60)], "both", CROSSING)

    def no_crossing(self):
        for it in self.some(CROSSING):
            del self.streets[it]

    def swap(self, pairs):
        """Swaps the ids of streets."""
        for a, b in pairs:
            self.streets[a], self.streets[b] = self.streets[b], self.streets[a]

    def swapped(self):
        self.swap(zip(self.some(OWN), self.some(BESIDE)))

    def all_swapped(self):
        self.swap(zip(self.world.of(OWN), self.world.of(BESIDE)))

    def delete(self, names):
        """Deletes streets."""
        for it in names:
            del self.streets[it]

    def deleted(self):
        self.delete(self.world.of(OWN))

    def one_deleted(self):
        self.delete(self.some(OWN))

    def beside_deleted(self):
        self.delete(self.world.of(BESIDE) if self.rnd.random() < 0.5 else self.some(BESIDE))

    def new_beside(self):
        far = self.rnd.uniform(3, 25) * self.rnd.choice((1, -1))
        for it in self.world.of(OWN):
            self.world.add(beside(self.streets[it].places, far), self.streets[it].direction, "new")

    def new_ids(self):
        names = list(self.streets)
        self.rnd.shuffle(names)
        for it in names:
            self.again_as(it)

    def own_new_ids(self):
        for it in self.world.of(OWN):
            self.again_as(it)

    def given_again(self):
        """The road is deleted, and its ids are given to the one beside it."""
        own, other = self.world.of(OWN), self.world.of(BESIDE)
        self.delete(own if other else ())
        for a, b in zip(own, other):
            self.streets[a] = self.streets.pop(b)

    def drawn_beside(self):
        """The road is deleted, and one of its kind is drawn 6 to 18 m beside it."""
        far = self.rnd.uniform(6, 18) * self.rnd.choice((1, -1))
        for it in self.world.of(OWN):
            self.streets[self.again_as(it, beside(self.streets[it].places, far))].road = "new"

    def again(self):
        for it in self.some(OWN):
            self.again_as(it)

    def junction(self):
        """An end of a street and all that meets there is moved."""
        for it in map(self.streets.get, self.some(OWN)):
            (x, y), far, angle = self.rnd.choice((it.places[0], it.places[-1])), self.rnd.uniform(2, 12), self.rnd.uniform(0, 2 * math.pi)
            far = min(far, 0.4 * abs(self.world.far))
            for other in self.streets.values():
                other.places = [(x + far * math.cos(angle), y + far * math.sin(angle)) if corner(place) == corner((x, y)) else place
                                for place in other.places]


def metres_off(lines, streets, found):
    """How many metres of found lines are on another road than the path's own."""
    wrong = 0
    for k, it in enumerate(found.lines):
        if streets[lines[it].street].road != OWN:
            wrong += lines[it].length - (found.start if k == 0 else 0) - (found.end if k == len(found.lines) - 1 else 0)
    return wrong / 10


def is_of_another_length(lines, course, answer):
    """Whether found lines are longer or shorter than a course by more than an edit of these makes them."""
    found = course_of([lines[it] for it in answer.found.lines], answer.found.start, answer.found.end)
    lengths = [Polyline([(lon * EAST, lat * NORTH) for lon, lat in it]).length for it in (course, found)]
    return abs(lengths[0] - lengths[1]) > max(15, 2 * answer.off + 3)


class Trial:
    """A random map, edits of it, and what the rule decides."""

    def __init__(self, seed):
        rnd = random.Random(seed)
        self.seed, self.world = seed, World(rnd)
        self.edits, self.maps = Editor(self.world).edit(rnd.randint(1, 3))
        self.answer, self.lines, self.course = decided(self.maps[0], self.world.path, self.world.streets, self.world.cuts)
        has_lines = isinstance(self.answer.found, Found)
        self.is_right = has_lines and metres_off(self.lines, self.world.streets, self.answer.found) <= 15
        self.is_silent = outcome(self.answer) in "GM"
        self.is_wrong = self.is_silent and (not self.is_right or is_of_another_length(self.lines, self.course, self.answer))

    @property
    def case(self):
        """The map with the path, and the map afterwards, for `Places`."""
        return self.maps[0], self.world.path, self.world.streets, self.world.cuts

    def __str__(self):
        return f"seed {self.seed}: {', '.join(self.edits)}; {self.world.far:.1f} m beside: {self.answer.verdict.value}, {self.answer.off:.1f} m off"


# ---- many small maps as one, in records


class Places:
    """Small maps, each in a place of its own, as records of one map, before and after: `(streets, the path's streets, streets
    afterwards, cuts)` of each. A line has a number of its street, or, with `new_numbers`, afterwards another one."""

    def __init__(self, cases, new_numbers=False):
        self.old, self.new, self.roads, self.first = [], [], {}, 400_000_000 if new_numbers else 0
        paths = []
        for place, (before, path, after, cuts) in enumerate(cases, 1):
            nodes, lines = {}, lines_of(before)
            numbers = dict(zip(lines, self.add(self.old, place, before, nodes)))
            over = ",".join(str(numbers[it]) for it in lines_over(lines, before, path))
            paths.append(f"path,p{place - 1},{cuts[0]},{cuts[1]},{over}")
            numbered = self.add(self.new, place, after, nodes, self.first)
            self.roads.update((number, after[it.street].road) for number, it in zip(numbered, lines_of(after).values()))
        self.old += paths

    @staticmethod
    def add(records, place, streets, nodes, first=0):
        """Adds the records of a small map, and returns the numbers of its lines."""
        counts, numbers, rows, lon, lat = collections.Counter(), [], [], 0.05 * (place % 40) - 1.1, 0.02 * (place // 40) - 0.1
        for it in lines_of(streets).values():
            counts[it.street] += 1
            numbers.append(first + 10_000 * place + 100 * int(it.street) + counts[it.street])
            ends = [first + nodes.setdefault(at, 10_000 * place + len(nodes) + 1) for at in (it.points[0], it.points[-1])]
            rows += [f"node,{end},{at[0] + lon:.7f},{at[1] + lat:.7f}" for end, at in zip(ends, (it.points[0], it.points[-1]))]
            flat = [(x * EAST, y * NORTH) for x, y in it.points]
            at = [round(10 * far) for far in itertools.accumulate(map(math.dist, flat, flat[1:]))]
            bends = [f",{far},{x + lon:.7f},{y + lat:.7f}" for low, far, (x, y) in zip([0, *at], at[:-1], it.points[1:]) if low < far < it.length]
            rows.append(f"line,{numbers[-1]},{ends[0]},{ends[1]},{streets[it.street].frc},3,{it.length}{''.join(bends)}")
        records += dict.fromkeys(rows)
        return numbers

    def off(self, state, number):
        """How many metres a path is on other roads than its own on a map; infinitely many if it has no lines there."""
        path = state.paths.get(f"p{number}")
        if path is None or not all(it in state.lines for it in path.lines):
            return math.inf
        cuts = collections.Counter({path.lines[0]: path.positive})
        cuts[path.lines[-1]] += path.negative
        return sum(state.lines[it].length - cuts[it] for it in path.lines if self.roads.get(it) != OWN) / 10
