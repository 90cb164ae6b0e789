"""A database for checks of tools/live: the process, and what has to be published, made from scratch."""
import collections
import math
import select
import signal
import subprocess
import sys
import time

from .postgres import LIMIT
from .whole import PROGRAM, TOP, run

PATIENCE = 3  # seconds after which a stopped process is replaced


def fail(text):
    """Ends the check."""
    print(f"live: {text}")
    sys.exit(1)


class Work:
    """A database, processes of tools/live on it, and a consumer."""

    program = PROGRAM

    def __init__(self, server, database):
        self.server, self.database = server, database
        self.log, self.processes, self.consumed, self.last, self.rounds = open(f"{server.folder}/live.log", "ab"), [], {}, 0, 0
        self.connect()

    def connect(self):
        """Opens the session that watches."""
        self.connection = self.server.connect(self.database)
        with self.connection.cursor() as cursor:
            cursor.execute("listen olr_keep_round; listen olr_keep_held")

    def ask(self, query):
        """The rows of a query."""
        with self.connection.cursor() as cursor:
            cursor.execute(query)
            return cursor.fetchall()

    def start(self, *arguments, environment=None):
        """Starts tools/live."""
        self.start_as(None, *arguments, environment=environment)

    def start_as(self, user, *arguments, environment=None):
        """Starts tools/live with a role, and with these variables."""
        options = ["--stopped", str(PATIENCE), "--quiet-ms", "0", "--elsewhere-after", "0", *arguments]
        url = self.server.url(self.database)
        url = f"{url.partition(' user=')[0]} user={user}" if user else url
        command = [sys.executable, f"{TOP}/tools/live", *options, url, self.program]
        self.processes.append(subprocess.Popen(command, stderr=self.log, stdout=self.log, env=environment))

    def said(self):
        """What the processes of all databases have said."""
        with open(f"{self.server.folder}/live.log", encoding="utf-8") as log:
            return log.read()

    def stop(self):
        """Ends all processes."""
        for it in self.processes:
            it.send_signal(signal.SIGCONT)
            it.terminate()
        for it in self.processes:
            it.wait(LIMIT)
        self.processes.clear()

    def settle(self, held=False):
        """Waits until no note is left, or until a round is held."""
        end = time.monotonic() + LIMIT
        query = """select exists (select from olr_keep.note), exists (select from olr_keep.held),
            not exists (select from olr_keep.round), exists (select from olr_keep.waiting join olr_keep.release using (hold))"""
        while time.monotonic() < end:
            has_notes, is_held, is_new, is_released = self.ask(query)[0]
            if not (has_notes or is_new or is_released or held and not is_held):
                return
            time.sleep(0.02)
        fail(f"no round in {LIMIT} s")

    def wait_round(self, seconds):
        """Whether a round was notified."""
        end = time.monotonic() + seconds
        while not self.connection.notifies and time.monotonic() < end:
            select.select([self.connection], [], [], 0.1)
            self.connection.poll()
        found = bool(self.connection.notifies)
        self.connection.notifies.clear()
        return found

    def verify(self):
        """Compares what is published with programs and maps that are made from nothing, all in one snapshot."""
        with self.connection.cursor() as cursor:
            cursor.execute("begin isolation level repeatable read")
            cursor.execute("select exists (select from olr_keep.note)")
            if cursor.fetchone()[0]:
                cursor.execute("rollback")
                return False
            verify_strings(cursor)
            verify_map(cursor)
            verify_paths(cursor)
            self.consume(cursor)
            cursor.execute("rollback")
        self.rounds += 1
        return True

    def published(self):
        """What is published of each path: text, reason and state."""
        return {name: answer for name, *answer in self.ask("select name, text, reason, state from olr_keep.string")}

    def consume(self, cursor):
        """Reads the history since the last round, as a consumer does."""
        cursor.execute("""select round, name, text, reason, state from olr_keep.history
            where round > %s order by round, name""", (self.last,))
        for number, name, *answer in cursor.fetchall():
            if self.consumed.get(name) == answer:
                fail(f"round {number} has the answer of {name} again")
            self.consumed[name] = None if answer[1] == "dropped" else answer
            self.last = number
        cursor.execute("select name, text, reason, state from olr_keep.string")
        published = {name: answer for name, *answer in cursor.fetchall()}
        if published != {name: it for name, it in self.consumed.items() if it}:
            fail("the history does not lead to the published strings")


def points_of(text):
    """The points of a LineString's text."""
    return [tuple(map(float, it.split())) for it in text[text.index("(") + 1 : -1].split(",")]


def wkt(points):
    """The text of a LineString in degrees."""
    return "SRID=4326;LINESTRING({})".format(", ".join("{:.7f} {:.7f}".format(*it) for it in points))


def verify_strings(cursor):
    """Fails unless the strings are those of a program that is loaded with the tables' map and the paths' lines."""
    cursor.execute("""select 'node,' || node || ',' || round(ST_X(geom)::numeric, 7) || ',' || round(ST_Y(geom)::numeric, 7)
        from olr_keep.node
        union all select 'line,' || line || ',' || from_node || ',' || to_node || ',' || fields from olr_keep.line""")
    records = sorted((it for (it,) in cursor.fetchall()), reverse=True)
    cursor.execute("select 'margin,' || routes || ',' || classes from olr_keep.margin")
    records += [it for (it,) in cursor.fetchall()]
    cursor.execute("""select name, coalesce(waiting.text, case when waiting.reason is null then string.text end),
            coalesce(waiting.reason, case when waiting.text is null then string.reason end), lines, start_offset, end_offset,
            (select count(*) from olr_keep.path where path.name = string.name)
        from olr_keep.string left join olr_keep.waiting using (name)""")
    wanted, rows = {}, [it for it in cursor.fetchall() if it[2] != "dropped"]
    for name, text, reason, lines, start, end, count in rows:
        if count != 1:
            fail(f"{name} is published, and is no path")
        if lines:
            records.append(f"path,{name},{start},{end}," + ",".join(map(str, lines)))
            wanted[name] = f"{name},text,{text}" if text else f"{name},{reason}"
        elif reason != "lost":
            fail(f"{name} has no lines, and its reason is {reason}")
    cursor.execute("select count(*) from olr_keep.path")
    if cursor.fetchone()[0] != len(rows):
        fail("a path is not published")
    output = run("\n".join([*records, "report", ""])).output
    if "fault" in output:
        fail(f"the tables' map is rejected: {output[output.index('fault'):][:60]}")
    found = output.splitlines()[-len(wanted) :] if wanted else []
    cursor.execute("""select name, string.margin, routes || ',' || classes from olr_keep.string cross join olr_keep.margin
        where string.margin <> routes || ',' || classes and name not in (select name from olr_keep.waiting)""")
    if others := cursor.fetchall():
        fail(f"strings have another margin than is set: {others[:4]}")
    differing = set(found) ^ set(wanted.values())
    if differing:
        fail(f"strings differ from those of a program from nothing: {sorted(differing)[:4]}")


def rows_of(cursor, source):
    """The parts of the streets of a table, a row of olr_keep.source, that can be lines: (id, class, form, direction, text of the
    geometry)."""
    prefix, streets, key, frc, fow, direction, geom, path = source
    cursor.execute(f"set local search_path = {path}")
    cursor.execute(f"""with street as (
            select ({key})::text as id, ({frc})::text as class, ({fow})::text as form, ({direction})::text as direction, ({geom}) as geom
            from {streets}
        )
        select '{prefix}' || id, class::int, form::int, direction, ST_AsText(part, 7) from (
            select *,
                (ST_Dump(ST_Force2D(case when ST_SRID(geom) = 4326 then geom else ST_Transform(geom, 4326) end))).geom as part
            from street
            where class ~ '^[0-7]$' and form ~ '^[0-7]$' and direction in ('both', 'along', 'against')
                and ST_SRID(geom) <> 0 and ST_GeometryType(geom) in ('ST_LineString', 'ST_MultiLineString')
                and not ST_IsEmpty(geom) and octet_length(id) between 1 and 1000
                and id not in (select id from street where id is not null group by id having count(*) > 1)
        ) as it""")
    return cursor.fetchall()


def verify_map(cursor):
    """Fails unless the lines are those of the editors' tables, cut at their junctions."""
    cursor.execute("select prefix, streets, id, class, form, direction, geom, search_path from olr_keep.source")
    found = [it for source in cursor.fetchall() for it in rows_of(cursor, source)]
    rows, wrong, counts = [], set(), collections.Counter()
    for key, frc, fow, direction, text in found:
        points = points_of(text)
        points = [it for k, it in enumerate(points) if k == 0 or it != points[k - 1]]
        if not all(-180 <= lon < 180 and -90 < lat < 90 for lon, lat in points):
            wrong.add(key)
        rows.append((key, frc, fow, direction, points))
    rows = [it for it in rows if it[0] not in wrong and len(it[4]) > 1]
    for *_, points in rows:
        counts.update(points)
    wanted = collections.Counter()
    for _, frc, fow, direction, points in rows:
        ends = [k for k, it in enumerate(points) if k in (0, len(points) - 1) or counts[it] > 1]
        for a, b in zip(ends, ends[1:]):
            course = tuple(points[a : b + 1])
            wanted.update([(frc, fow, course)] if direction != "against" else [])
            wanted.update([(frc, fow, course[::-1])] if direction != "along" else [])
    cursor.execute("""select split_part(fields, ',', 1)::int, split_part(fields, ',', 2)::int, ST_AsText(geom, 7)
        from olr_keep.line""")
    found = collections.Counter((frc, fow, tuple(points_of(text))) for frc, fow, text in cursor.fetchall())
    found, wanted = map(short, (found, wanted))
    if found != wanted:
        more, less = list((found - wanted).items()), list((wanted - found).items())
        fail(f"the map is not that of the streets: {more[:2]} in place of {less[:2]}")


def short(lines):
    """The lines that are not cut only for their length."""
    return collections.Counter({it: count for it, count in lines.items() if sum(map(math.dist, it[2], it[2][1:])) <= 0.02})


def verify_paths(cursor):
    """Fails if a path has no lines though its streets are there in order, and none of them leads far away by a wrong coordinate."""
    cursor.execute("select distinct street from olr_keep.line where length > 50000")
    wrong = {it for (it,) in cursor.fetchall()}
    cursor.execute("select street, along, from_node, to_node from olr_keep.line")
    edges = collections.defaultdict(set)
    for street, along, a, b in cursor.fetchall():
        edges[(">" if along else "<") + street].add((a, b))
    cursor.execute("select name, streets from olr_keep.string where lost and cardinality(streets) > 0")
    for name, streets in cursor.fetchall():
        if wrong.intersection(it[1:] for it in streets):
            continue
        reached = {b for _, b in edges[streets[0]]} | {a for a, _ in edges[streets[0]]}
        for street in streets:
            more, steps = set(), {b for a, b in edges[street] if a in reached}
            while steps - more:
                more |= steps
                steps = {b for a, b in edges[street] if a in more}
            reached = more
        if reached:
            cursor.execute("select words from olr_keep.problem where path = %s", (name,))
            words = cursor.fetchone()[0]
            if "its length" not in words:
                fail(f"{name} has no lines, though its streets {streets} are there in order: {words}")
