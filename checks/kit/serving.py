"""A service that is started for a test, five writers that send to it, and what has to be true whatever was killed."""
import contextlib
import os
import queue
import random
import re
import shutil
import signal
import socket
import sqlite3
import subprocess
import sys
import threading
import time
from typing import NamedTuple

sys.path.insert(0, f"{os.path.dirname(os.path.abspath(__file__))}/../../python")
from .disk import Disk, events  # noqa: E402
from .whole import PROGRAM, TOP, run  # noqa: E402
from olr_keep_tools.replies import read_reply  # noqa: E402

PYTHON = "/usr/bin/python3" if os.access("/usr/bin/python3", os.X_OK) else sys.executable
SERVED = os.environ.get("SERVED_PROGRAM", PROGRAM)
LIMIT = 120  # seconds for what takes a moment, unless the machine is busy
WRITERS = 5
ACCEPTED, REJECTED, NOT_SERVED, NOT_KNOWN = "accepted", "rejected", "not served", "not known"


class Failed(Exception):
    """What is wrong."""


class Served:
    """A service with its log in a folder, and the socket where systemd would listen."""

    started = []

    def __init__(self, folder, *options, log="log.csv", env=None, program=SERVED):
        self.folder, self.options, self.env, self.command = folder, options, env or {}, program
        self.log, self.errors = f"{folder}/{log}", f"{folder}/errors"
        self.reported, self.process, self.starts = queue.SimpleQueue(), None, 0

    @property
    def table(self):
        return f"{self.log}.published.sqlite"

    def start(self, wait=True):
        """Starts it, and waits until it serves."""
        command = [PYTHON, "-B", f"{TOP}/tools/serve", *self.options, self.log, self.command]
        with open(self.errors, "ab") as errors:
            self.process = subprocess.Popen(command, stdin=subprocess.DEVNULL, stderr=errors, stdout=errors,
                                            env={**os.environ, "NOTIFY_SOCKET": self.listen(), **self.env})
        self.started.append(self.process)
        if wait:
            self.wait_for("READY=1")
        return self

    def listen(self):
        """The name of the socket where systemd would listen, of one start alone. What is reported is read as it arrives, so that there
        is room for more."""
        self.starts += 1
        name, reported = f"{self.folder}/notify{self.starts}", queue.SimpleQueue()
        with contextlib.suppress(FileNotFoundError):
            os.unlink(name)
        systemd = socket.socket(socket.AF_UNIX, socket.SOCK_DGRAM)
        systemd.bind(name)

        def read():
            while True:
                reported.put(systemd.recv(65536).decode())

        threading.Thread(target=read, daemon=True).start()
        self.reported = reported
        return name

    def wait_for(self, word):
        """Waits until this is reported to systemd, after what was waited for before."""
        until, last = time.monotonic() + LIMIT, ""
        while time.monotonic() < until:
            has_ended = self.process.poll() is not None
            try:
                last = self.reported.get(timeout=5 if has_ended else 0.05)
            except queue.Empty:
                if has_ended:
                    raise Failed(f"the service ended with status {self.process.returncode}: {self.said()}") from None
            else:
                if word in last:
                    return
        raise Failed(f"{word} was not reported to systemd: {last} {self.said()}")

    def said(self):
        """The last messages."""
        with open(self.errors, encoding="utf-8", errors="replace") as file:
            return file.read()[-2000:]

    def program(self):
        """The process id of its program."""
        pid = self.process.pid
        try:
            with open(f"/proc/{pid}/task/{pid}/children", encoding="ascii") as file:
                return next(map(int, file.read().split()), None)
        except FileNotFoundError:
            return None

    def kill(self, number=signal.SIGKILL):
        """Kills the service."""
        self.process.send_signal(number)
        self.process.wait()

    def kill_program(self, number=signal.SIGKILL):
        """Kills its program, if it runs."""
        if pid := self.program():
            with contextlib.suppress(ProcessLookupError):
                os.kill(pid, number)

    def stop(self):
        """Ends it, and returns its status."""
        if self.process is None:
            return 0
        if self.process.poll() is None:
            self.process.terminate()
        try:
            return self.process.wait(LIMIT)
        except subprocess.TimeoutExpired:
            self.process.kill()
            raise Failed(f"the service doesn't end: {self.said()}") from None

    def ask(self, text, name="socket", timeout=LIMIT):
        """What a connection gets that sends this and then ends its input."""
        return asked(f"{self.log}.{name}", text, timeout)

    def health(self):
        """Its line."""
        with connected(f"{self.log}.changes") as to:
            to.sendall(b"health\n")
            return b"".join(iter(lambda: to.recv(1 << 16), b"")).decode()

    def wait_until_well(self):
        """Waits until its health has no trouble."""
        self.wait_until_health("OK: ")

    def wait_until_health(self, wanted):
        """Waits until its line has this."""
        until, line = time.monotonic() + LIMIT, ""
        while time.monotonic() < until:
            with contextlib.suppress(OSError):
                line = self.health()
                if wanted in line:
                    return
            if self.process.poll() is not None:
                raise Failed(f"the service ended with status {self.process.returncode}: {self.said()}")
            time.sleep(0.05)
        raise Failed(f"its health is not {wanted}: {line} {self.said()}")

    def records(self):
        """The records of the log, up to its padding."""
        with open(self.log, encoding="latin-1", newline="") as file:
            return [it for it in file.read().partition("\r")[0].split("\n") if it]


def asked(name, text, timeout=LIMIT):
    """What a connection gets that sends this and then ends its input."""
    with connected(name, timeout) as to:
        to.sendall(text.encode("latin-1"))
        to.shutdown(socket.SHUT_WR)
        return b"".join(iter(lambda: to.recv(1 << 16), b"")).decode("latin-1")


def connected(name, timeout=LIMIT):
    """A connection. While as many wait as the system lets wait, it is tried again."""
    found, until = socket.socket(socket.AF_UNIX), time.monotonic() + timeout
    found.settimeout(timeout)
    try:
        while not has_connected(found, name, until):
            time.sleep(0.02)
    except OSError:
        found.close()
        raise
    return found


def has_connected(to, name, until):
    """Whether a socket is connected now. After a moment it has to be."""
    try:
        to.connect(name)
    except BlockingIOError:
        if time.monotonic() > until:
            raise
        return False
    return True


class Manager:
    """A systemd of its own in namespaces, with the units as they are, their user, and what they run below /usr/local. It knows no
    other units, and can write to nothing of this machine: all file systems are read-only, or its own."""

    targets = ("sysinit", "basic", "sockets", "multi-user", "shutdown", "umount", "test")
    script = """set -e
        mount --make-rprivate /
        mount -o remount,bind,ro /
        mount -t proc proc /proc
        mount -t tmpfs -o mode=755 tmpfs /run
        mkdir /run/test /run/units
        mount --bind "$1" /run/test
        mount -o remount,bind,ro /run/test
        for name in /tmp /var/tmp /var/lib; do mount -t tmpfs -o mode=1777 tmpfs $name; done
        chmod 755 /var/lib
        cp -r /run/test/units/* /run/units/
        mount --bind /run/test/local /usr/local
        for name in passwd group; do mount --bind /run/test/$name /etc/$name; done
        if touch /etc/written 2> /dev/null; then exit 1; fi
        exec env -i PATH=/usr/sbin:/usr/bin:/sbin:/bin container=other SYSTEMD_UNIT_PATH=/run/units /lib/systemd/systemd --system \\
            --unit=test.target --log-target=null"""

    def __init__(self, folder):
        self.folder, self.init = folder, None
        local = f"{folder}/local"
        for name in ("tools", "python"):
            shutil.copytree(f"{TOP}/{name}", f"{local}/share/olr-keep/{name}", ignore=shutil.ignore_patterns("__pycache__"))
        os.makedirs(f"{local}/bin")
        shutil.copy(SERVED, f"{local}/bin/olr-keep")
        os.chmod(f"{local}/bin/olr-keep", 0o755)
        for name in os.listdir(f"{TOP}/tools"):
            os.symlink(f"../share/olr-keep/tools/{name}", f"{local}/bin/olr-keep-{name}")
        os.makedirs(f"{folder}/units/olr-keep.service.d")
        for name in ("olr-keep.service", "olr-keep.socket"):
            shutil.copy(f"{TOP}/packaging/{name}", f"{folder}/units/{name}")
        for name in self.targets:
            write(f"{folder}/units/{name}.target", "[Unit]\nDefaultDependencies=no\n")
        write(f"{folder}/units/olr-keep.service.d/soon.conf", "[Service]\nWatchdogSec=10\nRestartSec=0.1\n")
        for name, more in (("passwd", "olr-keep:x:61111:61111::/:/bin/false\n"), ("group", "olr-keep:x:61111:\nolr-keep-edit:x:61112:\n")):
            with open(f"/etc/{name}", encoding="utf-8") as file:
                write(f"{folder}/{name}", file.read() + more)
        os.chmod(folder, 0o755)

    def start(self):
        """Starts it. Whether that is possible here."""
        namespaces = ("--fork", "--pid", "--mount", "--ipc", "--uts", "--net", "--cgroup")
        self.process = subprocess.Popen(["unshare", *namespaces, "bash", "-c", self.script, "bash", self.folder],
                                        stdin=subprocess.DEVNULL, stdout=subprocess.DEVNULL, stderr=subprocess.DEVNULL)
        until = time.monotonic() + LIMIT
        while time.monotonic() < until and self.process.poll() is None:
            with contextlib.suppress(OSError, ValueError, IndexError):
                pid = self.process.pid
                with open(f"/proc/{pid}/task/{pid}/children", encoding="ascii") as file:
                    self.init = int(file.read().split()[0])
                if self.call("systemctl", "is-system-running").stdout.strip() in ("running", "degraded"):
                    return True
            time.sleep(0.1)
        return False

    def call(self, *words):
        """Runs a command beside it."""
        return subprocess.run(["nsenter", "-t", str(self.init), "-m", "-p", *words], capture_output=True, text=True, timeout=LIMIT,
                              stdin=subprocess.DEVNULL)

    def show(self, name, unit="olr-keep.service"):
        """A property of the service, or of another unit."""
        return self.call("systemctl", "show", "-P", name, unit).stdout.strip()

    def wait(self, name, wanted, unit="olr-keep.service"):
        """Waits until a property of the service, or of another unit, is this."""
        until, found = time.monotonic() + LIMIT, None
        while time.monotonic() < until:
            if (found := self.show(name, unit)) == wanted:
                return
            time.sleep(0.05)
        raise Failed(f"{name} is {found}, and not {wanted}: {self.show('StatusText')}")

    def path(self, name):
        """A file of its, as it is named outside."""
        return f"/proc/{self.init}/root{name}"

    def end(self):
        """Ends it, with all that it runs."""
        with contextlib.suppress(ProcessLookupError, TypeError):
            os.kill(self.init, signal.SIGKILL)
        self.process.kill()
        self.process.wait()


def write(name, text):
    """Writes a file."""
    with open(name, "w", encoding="utf-8") as file:
        file.write(text)


class Sent(NamedTuple):
    """Records that were sent together, and what their writer knows of them."""

    texts: list
    outcome: str


class Writer(threading.Thread):
    """Sends records until it is stopped, in the way of one of four kinds of writers. Each record has another text, no other writer
    changes its lines and paths, and each batch has a node of its own, which is there if the batch is."""

    kinds = ("drops", "waits", "streams", "batches")

    def __init__(self, served, number, lines):
        super().__init__(daemon=True)
        self.served, self.kind = served, self.kinds[number % len(self.kinds)]
        self.lines = lines[number % WRITERS :: WRITERS]
        self.rnd, self.stopped, self.sent = random.Random(number), threading.Event(), []
        self.count, self.names, self.wrong = number * 100_000, [], None
        # No other writer of a log has these, of 80 in a row.
        self.margins = iter([f"margin,{number // 8 % 10 * 100 + k},{number % 8}" for k in range(100)])

    def run(self):
        while not self.stopped.is_set():
            try:
                with connected(f"{self.served.log}.socket") as to, to.makefile("r", encoding="latin-1", newline="\n") as replies:
                    for _ in range(self.rnd.randrange(1, 30)):
                        if self.stopped.is_set() or not self.step(to, replies):
                            break
            except (OSError, EOFError):
                time.sleep(0.02)
            except (ValueError, AttributeError) as error:
                self.wrong = repr(error)
                return

    def node(self):
        """A node that nobody else makes."""
        self.count += 1
        return f"node,{self.count + 1_000_000_000},0,0"

    def path(self):
        """A path that nobody else registers."""
        self.count += 1
        self.names.append(f"w{self.count}")
        return f"path,{self.names[-1]},0,0,{self.rnd.choice(self.lines)}"

    def change(self):
        """A change that nobody sends twice."""
        kind = self.rnd.random()
        if kind < 0.5:
            return self.node()
        self.count += 1
        line = self.rnd.choice(self.lines)
        if kind < 0.8:
            return f"set-line,{line},{self.count // 1_000_000 % 8},{self.count // 8_000_000 % 8},{self.count % 1_000_000 + 1}"
        if kind < 0.9 or not self.names:
            return self.path()
        if kind < 0.96:
            return f"drop-path,{self.names.pop()}"
        rejected = f"drop-line,{self.count + 2_000_000_000}"
        return rejected if kind < 0.99 else next(self.margins, rejected)

    def step(self, to, replies):
        """Sends something and reads what becomes of it. Whether the connection can still be used."""
        if self.rnd.random() < 0.02:
            return self.singles(to, replies, ["compact"])
        if self.kind == "drops":
            return self.drops(to, replies)
        if self.kind == "batches" or self.rnd.random() < 0.2:
            return self.batch(to, replies, [self.change() for _ in range(self.rnd.randrange(1, 30))])
        return self.singles(to, replies, [self.change() for _ in range(1 if self.kind == "waits" else 40)])

    def drops(self, to, replies):
        """Registers many paths, or drops a third of them, in a batch or not."""
        if len(self.names) < 60:
            return self.batch(to, replies, [self.path() for _ in range(60)])
        self.rnd.shuffle(self.names)
        texts = [f"drop-path,{self.names.pop()}" for _ in range(20)]
        return (self.batch if self.rnd.random() < 0.5 else self.singles)(to, replies, texts)

    def singles(self, to, replies, texts):
        """Sends records that are not in a batch."""
        done = 0
        try:
            to.sendall("".join(f"{it}\n" for it in texts).encode())
            for it in texts:
                reply = read_reply(replies)
                if reply is None:
                    break
                self.sent.append(Sent([it], outcome_of(reply)))
                done += 1
        finally:
            self.sent += [Sent([it], NOT_KNOWN) for it in texts[done:]]
        return done == len(texts)

    def batch(self, to, replies, texts):
        """Sends a batch; some writers end before its commit, or don't wait for the reply."""
        texts, outcome = [*texts, self.node()], NOT_KNOWN
        way = self.rnd.random()
        try:
            if way < 0.1:
                outcome = REJECTED
                to.sendall("\n".join(["begin", *texts, "node,1"]).encode())
                return False
            to.sendall("".join(f"{it}\n" for it in ("begin", *texts, f"commit,{len(texts)}")).encode())
            if way < 0.15:
                return False
            last = None
            for _ in range(len(texts) + 2):
                last = read_reply(replies)
                if last is None:
                    return False
            outcome = outcome_of(last)
        finally:
            self.sent.append(Sent(texts, outcome))
        return True


def outcome_of(reply):
    """What a reply says of a record or of a batch."""
    if reply.word == "ok":
        return ACCEPTED
    if reply.number:
        return REJECTED
    return {"NotKnown": NOT_KNOWN, "NotCompacted": REJECTED}.get(reply.rest.split(",")[0], NOT_SERVED)


def effect_of(record):
    """What a record sets, and to what; in a dump a line has its nodes before its attributes."""
    word, name, *more = record.split(",")
    if word in ("line", "set-line"):
        return f"line,{name}", ",".join(more[2:5] if word == "line" else more[:3])
    return f"{word.replace('drop-', '')},{name}", "" if word.startswith("drop-") else "there"


def state_of(dump):
    """What a dump has: nodes, paths, and the attributes of lines."""
    return dict(effect_of(it) for it in dump.split("\n") if it.startswith(("node,", "line,", "path,")))


def check_state(sent, before, there):
    """Whether a state has exactly what a writer had accepted, batches as a whole. Of what isn't known each record or batch may have
    been carried out, also later."""
    sure, maybe = {}, {}
    for texts, outcome in sent:
        effects = [effect_of(it) for it in texts if "," in it and not it.startswith("margin,")]
        nodes = [key in there for key, _ in effects if key.startswith("node,")]
        if any(nodes) and (outcome in (REJECTED, NOT_SERVED) or not all(nodes)):
            raise Failed(f"{outcome}, and it is there, or in part: {texts} {nodes}")
        if outcome == ACCEPTED:
            sure.update(effects)
        for key, value in effects if outcome == NOT_KNOWN else []:
            maybe.setdefault(key, []).append(value)
    for key in {*sure, *maybe}:
        allowed = [sure.get(key, before.get(key, "")), *maybe.get(key, [])]
        if there.get(key, "") not in allowed:
            raise Failed(f"{key} is {there.get(key)!r}, and not one of {allowed}")


class Power:
    """The disk of a service and of its programs, whose power is cut: what isn't synced of the log and of its note is lost, or parts of
    it. The table is on another disk."""

    names = ("log.csv", "log.csv.compacting", "log.csv.last", ".olr-keep-*.part")

    def __init__(self, folder, library):
        self.folder, self.trace, self.disk, self.at = folder, f"{folder}/trace", None, 0
        self.env = {"LD_PRELOAD": library, "TRACE": self.trace}
        self.begin()

    def begin(self):
        """All that is there now is on the disk."""
        write(self.trace, "")
        self.disk = Disk(self.folder, self.names)
        for name in filter(self.disk.has, os.listdir(self.folder)):
            with open(f"{self.folder}/{name}", "rb") as file:
                self.disk.put(name, file.read())

    def cut(self, it, rnd):
        """Cuts the power."""
        program = it.program()
        it.kill()
        until = time.monotonic() + LIMIT
        while program and is_running(program) and time.monotonic() < until:
            time.sleep(0.01)
        for event in events(self.trace):
            self.disk.take(event)
        self.disk.crash(rnd, self.folder)
        self.begin()


def is_running(pid):
    """Whether a process runs, and is not only waited for."""
    with contextlib.suppress(OSError), open(f"/proc/{pid}/stat", encoding="ascii") as file:
        return file.read().rpartition(")")[2].split()[0] not in "ZX"
    return False


def check_table(served, rows):
    """Whether the table and the program say the same, and a run over the log does. `rows` returns the rows of the table."""
    until = time.monotonic() + LIMIT
    while True:
        report = served.ask("report\n").split("\n")[1:-1]
        table = sorted(rows())
        if table == sorted(report):
            break
        if time.monotonic() > until:
            raise Failed(f"the table differs from report: {set(table) ^ set(report)}")
        time.sleep(0.05)
    again = run("".join(f"{it}\n" for it in [*served.records(), "report"])).output.split("\n")
    if sorted(again[len(again) - len(report) - 1 : -1]) != table:
        raise Failed("report differs from a run over the log")


def sqlite_rows(name):
    """The rows of a table in a file."""
    with contextlib.closing(sqlite3.connect(name, timeout=LIMIT)) as file:
        return [f"{path},{answer}" for path, answer in file.execute("select name, answer from published")]


def history_is_right(name):
    """Whether the history of a table leads to its rows, without a gap."""
    with contextlib.closing(sqlite3.connect(name, timeout=LIMIT)) as file:
        last = {}
        for number, (position, path, answer) in enumerate(file.execute("select position, name, answer from history order by 1"), 1):
            if position != number:
                raise Failed(f"position {position} is the change {number}")
            last[path] = answer
        there = dict(file.execute("select name, answer from published"))
    if {key: it for key, it in last.items() if it != "dropped"} != there:
        raise Failed("the history doesn't lead to the table")


def lines_of(records):
    """The numbers of the lines of a map."""
    return [int(it) for it in re.findall(r"^line,(\d+),", records, re.M)]
