"""Roads beside each other in a database of tools/live: what editors do there, and what becomes of the paths, for checks/roads."""
import collections
import math
import random

from .livecases import ROW, Case, line
from .roadmaps import OWN, Editor, Trial, World, course_of, degrees, lines_of, lines_over, same_streets

OPTIONS = "--most", "100%", "--most-changed", "100%", "--most-elsewhere", "100%", "--most-at-once", "1000000"
STATES = {"as given": "G", "moved": "M", "elsewhere": "E", "lost": "L", "refused": "L"}
KINDS = {"s": "streets", "c": "course", "b": "streets and course"}
TOGETHER = 10  # places that are edited at the same time

Seen = collections.namedtuple("Seen", "place kind state off metres lengths text rows")
Way = collections.namedtuple("Way", "maps is_waited sessions")  # maps of a place, each a commit; whether rounds are waited for


class Place:
    """A small map of its own in the database, with three paths over some of its streets; `now` is the map as it is."""

    def __init__(self, number, streets, path, cuts=(0, 0), cut=(0, 0)):
        self.number, self.first, self.path, self.cuts, self.cut = number, streets, path, cuts, cut
        self.at, self.now = (5.0 + 0.05 * (number % 40), 49.5 + 0.02 * (number // 40)), {}

    def street(self, name):
        """The id of a street in the table."""
        return self.number * 1000 + int(name)

    def roads(self):
        """The roads that the streets are part of, by id."""
        return {f"{self.street(name)}": it.road for name, it in self.now.items()}

    def paths(self):
        """The rows of its paths."""
        lines = lines_of(self.first)
        places = course_of([lines[it] for it in lines_over(lines, self.first, self.path)], *self.cuts)
        course = line(*((lon - 6.1 + self.at[0], lat - 49.6 + self.at[1]) for lon, lat in places))
        streets = f"'{{{','.join(str(self.street(it)) for it in self.path)}}}'"
        for kind, columns in {"s": (streets, "null"), "c": ("null", course), "b": (streets, course)}.items():
            yield f"('p{self.number}-{kind}', {', '.join(columns)}, {self.cut[0]}, {self.cut[1]})"

    def change(self, streets, is_whole=False):
        """The ids of the streets that are deleted for another map, and the rows that are inserted, of all or of those that differ;
        from now on that is the map."""
        same = {} if is_whole else same_streets(self.now, streets)
        gone = [f"{self.street(it)}" for it in self.now if it not in same]
        rows = [f"({self.street(name)}, {it.frc}, 3, '{it.direction}', {line(*(degrees(place, self.at) for place in it.places))})"
                for name, it in streets.items() if name not in same]
        self.now = streets
        return gone, rows


class Town:
    """Many places in one database, with two sessions."""

    def __init__(self, case, places):
        self.case, self.places, self.wrong = case, places, []
        self.sessions = [case.server.connect(case.database).cursor() for _ in range(2)]
        self.change((it, it.first) for it in places)
        case.save("insert into olr_keep.path (name, streets, course, cut_start, cut_end) values "
                  + ", ".join(row for it in places for row in it.paths()))
        self.texts, self.at_first = {}, {}
        self.at_first = {(it.place.number, it.kind): it for it in self.seen(places)}
        self.wrong += [f"at first {name(it)} is {it.state}" for it in self.at_first.values() if it.state != "G"]

    def commit(self, changes, session=0):
        """Commits together what makes these maps of places: (place, map)."""
        changes = [place.change(streets) for place, streets in changes]
        gone, rows = ([it for change in changes for it in change[k]] for k in (0, 1))
        self.sessions[session].execute("; ".join(["begin", *([f"delete from streets where id in ({', '.join(gone)})"] if gone else []),
                                                  *([ROW + ", ".join(rows)] if rows else []), "commit"]))

    def change(self, changes):
        """The same, and waits for the round; what is held is released."""
        self.commit(changes)
        self.settle()

    def settle(self):
        """Waits for the round; what is held is released."""
        self.case.settle()
        if self.case.ask("select exists (select from olr_keep.held)")[0][0]:
            self.case.save("select olr_keep.release(hold) from olr_keep.held")

    def seen(self, places):
        """What is published of the paths of places."""
        by_number = {it.number: it for it in places}
        rows = self.case.ask(f"""select name, string.state, coalesce(off_m, 0)::float8, text, ST_Length(string.geom::geography),
                array_agg(line.street order by nr), array_agg(length / 10.0::float8 order by nr), start_cut / 10.0::float8, end_cut / 10.0::float8,
                array(select kind || ': ' || words from olr_keep.problem where path = name order by 1)
            from olr_keep.string left join unnest(lines) with ordinality as one(number, nr) on true
            left join olr_keep.line on line.line = number
            where split_part(substr(name, 2), '-', 1)::int in ({', '.join(map(str, by_number))}) group by name order by name""")
        for path, state, off, text, metres, streets, lengths, start, end, problems in rows:
            number, _, kind = path[1:].partition("-")
            lengths = [float(it or 0) for it in lengths]
            lengths[0], lengths[-1] = lengths[0] - start, lengths[-1] - end
            yield Seen(by_number[int(number)], kind, STATES[state], off, metres, list(zip(streets, lengths)), text, problems)

    def expect_first(self, places, when):
        """Notes which paths aren't as they were at first. Only that two roads are near a drawn course may have been mended."""
        for it in self.seen(places):
            first = self.at_first[it.place.number, it.kind]
            if (it.state, it.text) != ("G", first.text) or not {*it.rows} <= {*first.rows}:
                self.wrong.append(f"{when}: {name(it)} is {it.state}{'' if it.text == first.text else ' with another string'}, {it.rows}")

    def off_road(self, it):
        """The metres of a path that are on another road."""
        roads = it.place.roads()
        return sum(metres for street, metres in it.lengths if roads.get(street) != OWN)

    def is_listed(self, it):
        """Whether a path is listed though it is right. A given street that is another road now is a row by design."""
        roads, new = it.place.roads(), {*it.rows} - {*self.at_first[it.place.number, it.kind].rows}
        others = {f"not on its street: street {street} is not under it any more" for street, road in roads.items() if road != OWN}
        return self.off_road(it) <= 15 and (it.state == "E" or it.state in "GM" and bool(new - others))

    def is_wrong(self, it):
        """Whether a path is silently on another road, or of another length; or not where it was, and not listed."""
        if it.state not in "GM":
            return not it.rows
        return self.off_road(it) > 15 or abs(it.metres - self.at_first[it.place.number, it.kind].metres) > max(15, 2 * it.off + 3)


def name(it):
    """What a path is called."""
    return f"the path by {KINDS[it.kind]} of place {it.place.number}"


# ---- the table


def table(server, edits, numbers):
    """Edits of small maps, each in so many commits: (what, map, path, map then, outcome). Returns what is wrong."""
    places = [Place(k, before, path) for k, (_, before, path, _, _) in enumerate(edits)]
    with Case(server, "roads_table", *OPTIONS) as case:
        town = Town(case, places)
        for commits in numbers:
            walk(town, [(it, edit[3]) for it, edit in zip(places, edits)], commits)
            for it in town.seen(places):
                what, *_, wanted = edits[it.place.number]
                if it.state != wanted:
                    town.wrong.append(f"{what}, in {commits} commits, {name(it)}: {it.state}, and not {wanted}")
            walk(town, [(it, it.first) for it in places], commits)
            town.expect_first(places, f"after {commits} commits and an undo")
    print(f"roads: {len(places)} edits of the table in tools/live, for three kinds of paths, in {words(numbers)}")
    return town.wrong


def walk(town, changes, commits):
    """Makes maps of places, all together, in so many commits: what is deleted first."""
    if commits == 2:
        town.change((place, same_streets(place.now, streets)) for place, streets in changes)
    town.change(changes)


def words(numbers):
    """In how many commits something is done."""
    return " and in ".join("one commit" if it == 1 else f"{it} commits" for it in numbers)


# ---- random maps


def way(maps, rnd):
    """How maps of a place follow each other: each in one commit or in two, all of them or the last at once, by one session or two, with
    a round after each or as they come."""
    maps = maps if rnd.random() < 0.7 else [maps[0], maps[-1]]
    if rnd.random() < 0.3:
        maps = [maps[0], *(it for a, b in zip(maps, maps[1:]) for it in (same_streets(a, b), b))]
    return Way(maps[1:], rnd.random() < 0.5, rnd.choice((1, 2)))


def take(town, ways):
    """Takes places along their ways at the same time; after each round, yields the places that were changed."""
    for k in range(max(len(it.maps) if it.is_waited else 1 for it in ways.values())):
        changed = []
        for place, it in ways.items():
            for j in range(k, min(k + 1, len(it.maps))) if it.is_waited else range(len(it.maps) if k == 0 else 0):
                town.commit([(place, it.maps[j])], j % it.sessions)
                changed.append(place)
        town.settle()
        yield list(dict.fromkeys(changed))


def trials(server, seed, count):
    """Random maps and edits of them. Returns what is wrong."""
    tried = [Trial(seed * 1_000_000 + k) for k in range(count)]
    rnds = [random.Random(it.seed) for it in tried]
    cuts = [tuple(rnd.choice((0, 0, rnd.randint(1, 40))) for _ in range(2)) for rnd in rnds]
    places = [Place(k, it.maps[0], it.world.path, it.world.cuts, cut) for k, (it, cut) in enumerate(zip(tried, cuts))]
    counts = collections.Counter()
    with Case(server, "roads_trials", *OPTIONS) as case:
        town = Town(case, places)
        for first in range(0, count, TOGETHER):
            group = places[first : first + TOGETHER]
            there = {it: way(tried[it.number].maps, rnds[it.number]) for it in group}
            for changed in take(town, there):
                judge(town, changed, tried, counts)
            for it in town.seen(group):
                counts.update(edits=len(tried[it.place.number].edits), right=it.state in "GME" and town.off_road(it) <= 15,
                              listed=town.is_listed(it))
            back = {it: way([tried[it.number].maps[-1], *tried[it.number].maps[-2::-1]], rnds[it.number]) for it in group}
            for changed in take(town, back):
                judge(town, changed, tried, counts)
            town.expect_first(group, "after an undo")
    print(f"roads: {count} random maps in tools/live, with {counts['edits'] // 3} edits, for three kinds of paths: {counts['right']} are on "
          f"their road, {counts['listed']} of them listed; {counts['commits']} answers after commits and undos: {counts['wrong']} silent errors")
    return town.wrong + ([f"of the edits {counts['listed'] / counts['edits']:.1%} list a path that is right"]
                         if counts["listed"] > 0.02 * counts["edits"] else [])


def judge(town, places, tried, counts):
    """Notes which paths of places are silently wrong."""
    for it in town.seen(places) if places else ():
        counts["commits"] += 1
        if it.place in places and town.is_wrong(it):
            counts["wrong"] += 1
            town.wrong.append(f"{name(it)}: {it.state}, {it.off:.0f} m off, {town.off_road(it):.0f} m on other roads, {it.metres:.0f} m long: "
                              f"{tried[it.place.number]}")


# ---- deliveries


def gone(editor):
    """Its own road is gone."""
    editor.delete(editor.world.of(OWN))


def there(_):
    """Its own road is there."""


def moved(editor):
    """A whole district is moved by 6 m."""
    angle = editor.rnd.uniform(0, 2 * math.pi)
    editor.move(list(editor.streets), 6 * math.cos(angle), 6 * math.sin(angle))


DELIVERIES = (gone, "EL"), (there, "G"), (moved, "M")


def deliveries(server, seed, count):
    """Random maps that are delivered again, with new ids for all, after something happened to the roads. Returns what is wrong."""
    rnds = [seed * 1_000_000 + k for k in range(count)]
    worlds = [World(random.Random(it)) for it in rnds]
    places = [Place(k, it.streets, it.path, it.cuts) for k, it in enumerate(worlds)]
    with Case(server, "roads_delivered", *OPTIONS) as case:
        town = Town(case, places)
        for change, wanted in DELIVERIES:
            maps = []
            for it in rnds:
                editor = Editor(World(random.Random(it)))
                change(editor)
                editor.new_ids()
                maps.append(editor.streets)
            deliver(town, maps)
            states = collections.Counter()
            for it in town.seen(places):
                states[it.state] += 1
                if it.state not in wanted or town.is_wrong(it) or town.is_listed(it):
                    town.wrong.append(f"a delivery with new ids: {change.__doc__} {name(it)} is {it.state}, {it.rows}")
            print(f"roads: a delivery with new ids, {count} maps, for three kinds of paths: {change.__doc__} {dict(states)}")
            deliver(town, [it.first for it in places])
            town.expect_first(places, "after a delivery of the first map")
    return town.wrong


def deliver(town, maps):
    """Truncates the table, and fills it with these maps of the places."""
    rows = [row for place, streets in zip(town.places, maps) for row in place.change(streets, is_whole=True)[1]]
    town.case.do("truncate streets", ROW + ", ".join(rows))
    town.settle()
