"""Consumers of what is published: one written for 2.0.0, one that knows the identity of the table, and one by SQL, each with its rows, the
position and the identity, from which it asks again whenever its connection has ended. And what has happened to a table with them beside."""
import contextlib
import os
import re
import shutil
import socket
import sqlite3
import threading
import time

from .serving import LIMIT, SERVED, Failed, connected, run
from .whole import text_of

try:
    import psycopg2
    FAILURES = (sqlite3.Error, psycopg2.Error)
except ImportError:
    FAILURES = (sqlite3.Error,)
HISTORY, MANY = 1000, 3000
UPGRADED = text_of("checks/releases/2.0.0/table.sql")  # a table as 2.0.0 left it
# The queries of the page, as they are.
READ, WHOLE = re.findall(r"^select identity, .*(?=;$)", text_of("docs/SERVICE.md"), re.M)


class Consumer(threading.Thread):
    """One of them. It can be paused: then it is not connected; or, if it `holds` its connection, doesn't read."""

    def __init__(self, it, holds=False, before=None):
        """`before` is its position and its rows, if it has some."""
        super().__init__(daemon=True)
        self.it, self.holds, self.identity = it, holds, "-"
        self.position, self.rows = before or (None, {})
        self.may_read, self.stopped = threading.Event(), threading.Event()
        self.wholes, self.missing, self.new, self.at = 0, 0, {}, 0
        self.may_read.set()
        self.start()

    def run(self):
        while not self.stopped.is_set():
            self.may_read.wait()
            try:
                self.read()
            except (OSError, EOFError, *FAILURES):
                time.sleep(0.02)

    def read(self):
        """Reads over one connection."""
        with connected(f"{self.it.log}.changes") as to:
            to.settimeout(0.1)
            self.missing, rest = 0, b""
            to.sendall(self.question().encode())
            while not self.stopped.is_set() and (self.holds or self.may_read.is_set()):
                self.may_read.wait()
                with contextlib.suppress(socket.timeout):
                    if not (data := to.recv(1 << 16)):
                        return
                    *lines, rest = (rest + data).split(b"\n")
                    for line in lines:
                        self.take(line.decode())

    def take(self, line):
        """Takes a line."""
        first, name, answer = (line.split(",", 2) + ["", ""])[:3]
        if self.missing:
            self.missing, self.new[first] = self.missing - 1, ",".join(filter(None, (name, answer)))
        elif first == "fault":
            raise EOFError(line)
        elif first == "identity":
            self.identity = name
            return
        elif first == "whole":
            self.at, self.missing, self.new, self.wholes = int(name), int(answer), {}, self.wholes + 1
        else:
            self.position = int(first)
            self.put(name, answer)
            return
        if not self.missing:
            self.rows, self.position = self.new, self.at

    def put(self, name, answer):
        """Takes the answer of a path."""
        if answer == "dropped":
            self.rows.pop(name, None)
        else:
            self.rows[name] = answer

    def stop(self):
        """Ends it."""
        self.stopped.set()
        self.may_read.set()
        self.join(LIMIT)


class Old(Consumer):
    """As the page of 2.0.0 has it: with the position, or nothing at first."""

    def question(self):
        return "changes\n" if self.position is None else f"changes,{self.position}\n"


class New(Consumer):
    """With the identity."""

    def question(self):
        return f"changes,{self.position or 0},{self.identity}\n"


class Query(Consumer):
    """By SQL, in one statement each time."""

    def read(self):
        rows = self.it.place.select(READ.replace(":position", str(self.position or 0)))
        if rows and rows[0][:2] == (self.identity, self.position):
            for _, self.position, name, answer in rows[1:]:
                self.put(name, answer)
        else:
            rows, self.wholes = self.it.place.select(WHOLE), self.wholes + 1
            if not rows:
                raise EOFError("it has no identity yet")
            self.identity, self.position = rows[0][:2]
            self.rows = {name: answer for _, _, name, answer in rows if name is not None}
        time.sleep(0.01)


class TableFile:
    """A table in a file. SQLite doesn't bear that one is replaced while it is read."""

    def __init__(self, name):
        self.name, self.used = name, threading.Lock()

    def select(self, query):
        """The rows of a query."""
        with self.used:
            if not os.path.exists(self.name):
                raise EOFError("it is made again")
            with contextlib.closing(sqlite3.connect(self.name, timeout=LIMIT)) as file:
                return file.execute(query).fetchall()

    def run(self, statements):
        """Runs statements while no service has the table."""
        with self.used, contextlib.closing(sqlite3.connect(self.name)) as file:
            file.executescript(statements)

    def save(self):
        """Copies it while no service has it."""
        shutil.copy(self.name, f"{self.name}-copy")

    def replace(self, is_copy):
        """Removes it while no service has it, or puts the copy into its place."""
        with self.used:
            for name in (self.name, f"{self.name}-wal", f"{self.name}-shm"):
                with contextlib.suppress(FileNotFoundError):
                    os.unlink(name)
            if is_copy:
                shutil.copy(f"{self.name}-copy", self.name)

    @contextlib.contextmanager
    def hanging(self):
        """A moment in which nothing can be written."""
        with contextlib.closing(sqlite3.connect(self.name, isolation_level=None)) as file:
            file.execute("begin immediate")
            yield
            file.execute("rollback")


class Schema:
    """Tables in the first schema of a database."""

    names = ("published", "history", "identity")

    def __init__(self, server):
        self.server = server

    def select(self, query):
        """The rows of a query."""
        with contextlib.closing(self.connection()) as connection, connection.cursor() as cursor:
            cursor.execute(query)
            return cursor.fetchall()

    def connection(self):
        """A connection."""
        return self.server.connect("postgres")

    def run(self, *statements):
        """Runs statements while no service has the table."""
        with contextlib.closing(self.connection()) as connection, connection.cursor() as cursor:
            cursor.execute(";".join(statements))

    def save(self):
        """Copies it."""
        self.run("drop schema if exists copy cascade", "create schema copy", *(f"create table copy.{it} as table {it}" for it in self.names))

    def replace(self, is_copy):
        """Removes the tables, or restores them as a dump of them does."""
        columns = {"published": "name, answer, changed, \"user\", position", "history": "position, name, answer, changed, \"user\"",
                   "identity": "identity, after"}
        put = [f"truncate {it}; insert into {it} ({columns[it]}) select {columns[it]} from copy.{it}" for it in self.names]
        # In the order in which those who read take them.
        self.run("begin; lock table identity", *(put if is_copy else [f"drop table {it}" for it in self.names]), "commit")

    @contextlib.contextmanager
    def hanging(self):
        """A moment in which nothing can be written, or read."""
        with contextlib.closing(self.connection()) as connection, connection.cursor() as cursor:
            cursor.execute("begin; lock table published")
            yield
            cursor.execute("rollback")


class Beside:
    """All consumers of a service, and paths of their own that are changed."""

    def __init__(self, it, lines):
        self.it, self.lines, self.count, self.names = it, lines, 0, set()
        self.prompt, self.away = ([kind(it) for kind in (Old, New, Query)] for _ in range(2))
        self.held = [*(kind(it, True) for kind in (Old, New)), Old(it, before=(2, {"a": "text,B"}))]
        self.all = self.prompt + self.away + self.held

    def pause(self):
        """Some read no more; the prompt ones go on."""
        for it in self.away + self.held:
            it.may_read.clear()

    def edit(self, count, at_once=1000, first=0):
        """So many changes of paths, each to another answer, in batches."""
        texts = []
        for name in (f"p{k}" for k in range(first, first + count)):
            self.count += 1
            word = "repath" if name in self.names else "path"
            self.names.add(name)
            texts.append(f"{word},{name},0,0,{self.lines[self.count % len(self.lines)]}\n")
        for at in range(0, count, at_once):
            part = texts[at : at + at_once]
            found = self.it.ask("".join(["begin\n", *part, f"commit,{len(part)}\n"]))
            if "fault" in found:
                raise Failed(f"{part[0]} ..: {found[-200:]}")

    def check(self, what):
        """Whether each has what `report` says, after a moment."""
        for it in self.all:
            it.may_read.set()
        self.it.wait_until_well()
        until = time.monotonic() + LIMIT / 4
        wanted = dict(row.split(",", 1) for row in self.it.ask("report\n").split("\n")[1:-1])
        while wrong := [it for it in self.all if it.rows != wanted]:
            if time.monotonic() > until:
                rows = [f"{type(it).__name__} {len(set(it.rows.items()) ^ set(wanted.items()))}" for it in wrong]
                raise Failed(f"{what}: of {len(wanted)} rows are wrong for good: {', '.join(rows)}")
            time.sleep(0.02)

    def stop(self):
        """Ends them."""
        for it in self.all:
            it.stop()


# ---- what happens to a table


def made_again(beside):
    """The table is removed, and the next one comes to the positions that the readers have."""
    beside.edit(200)
    beside.edit(200)
    beside.check("as it is")
    beside.pause()
    beside.it.stop()
    beside.it.place.replace(False)
    beside.it.start()
    beside.it.wait_until_well()
    beside.edit(100, first=100)
    while int(re.search(r"position (-?\d+)", beside.it.health())[1]) < beside.away[0].position:
        beside.edit(100)
    beside.edit(20)


def restored(beside):
    """The table is that of some time ago."""
    it = beside.it
    it.stop()
    it.place.save()
    it.start()
    beside.edit(100)
    beside.edit(100)
    beside.check("before a table is restored")
    beside.pause()
    it.kill()
    it.place.replace(True)
    it.start()
    beside.edit(100, first=100)
    beside.edit(5)


def emptied(beside):
    """`published` is emptied, or dropped, while paths are dropped."""
    for k, statement in enumerate(("delete from published", "drop table published", "delete from history", "drop table history")):
        beside.it.stop()
        beside.it.place.run(statement)
        dropped = [f"p{it}" for it in range(150 + 8 * k, 158 + 8 * k)]
        beside.names -= set(dropped)
        run("".join(f"drop-path,{it}\n" for it in dropped), (SERVED, "-l", beside.it.log, "--lines"))
        beside.it.start()
        beside.check(statement)


def overtaken(beside):
    """More changes than the history retains, at once and one after the other, while some stand still."""
    beside.edit(MANY, MANY)
    beside.check("one batch")
    beside.pause()
    beside.edit(3 * MANY, HISTORY // 2)


def hung(beside):
    """The database hangs for a moment, while records are carried out."""
    with beside.it.place.hanging():
        beside.edit(MANY, HISTORY // 2)
        time.sleep(1)


CASES = [made_again, restored, emptied, overtaken, hung]


def ready(it):
    """Health isn't OK before the table was compared."""
    it.stop()
    it.start(wait=False)
    until, line = time.monotonic() + LIMIT, ""
    while not line.startswith("OK") and time.monotonic() < until:
        with contextlib.suppress(OSError):
            line = it.health()
    if not re.match(r"OK: .* position [0-9]+,", line):
        raise Failed(f"health before the table was compared: {line}")


def cases(it, lines, place):
    """All of them, one after the other, with a table of 2.0.0 at first."""
    it.place = place
    ready(it)
    beside = Beside(it, lines)
    try:
        for case in CASES:
            case(beside)
            beside.check(case.__doc__)
    finally:
        beside.stop()
    return f"{len(CASES)} faults of a table beside {len(beside.all)} consumers"
