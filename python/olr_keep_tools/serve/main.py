"""The command olr-keep-serve."""
import argparse
import asyncio
import os
import re
import shutil
import signal
import subprocess
from typing import List

from olr_keep_tools.command import STREAM, USAGE, Failure, command_line, say, whole_number
from olr_keep_tools.files import beside, refuse_inputs
from olr_keep_tools.program import program_name
from olr_keep_tools.serve.logfile import MOST_FEWER, NOT_SERVED, accept, look, other_file, refusal
from olr_keep_tools.serve.notify import Systemd, passed_sockets
from olr_keep_tools.serve.program import STARTED
from olr_keep_tools.serve.service import HANDLED, Service, Settings
from olr_keep_tools.serve.sockets import listening
from olr_keep_tools.serve.unread import Unread
from olr_keep_tools.serve.writer import Limits
from olr_keep_tools.stores import is_url


def mode(text: str) -> int:
    """An argument that is the mode of a socket."""
    if not re.fullmatch("0?[0-7]{3}", text):
        raise argparse.ArgumentTypeError(f"{text!r} is no mode such as 0660")
    return int(text, 8)


def amount(text: str) -> float:
    """An argument that is a number, perhaps with a fraction."""
    if not re.fullmatch(r"[0-9]{1,9}(\.[0-9]{1,9})?", text):
        raise argparse.ArgumentTypeError(f"{text!r} is no number")
    return float(text)


def size(text: str) -> int:
    """An argument that is a number of bytes."""
    found = re.fullmatch("([0-9]{1,12})([KMG]?)", text)
    if not found or not int(found[1]):
        raise argparse.ArgumentTypeError(f"{text!r} is no number of bytes such as 500M")
    return int(found[1]) << {"": 0, "K": 10, "M": 20, "G": 30}[found[2]]


def arguments(about: str) -> argparse.Namespace:
    """The command-line arguments."""
    parser = command_line(about)
    add, number = parser.add_argument, whole_number(1)
    add("--check", action="store_true", help="look at LOG, print what speaks against serving it, and end")
    add("--accept", action="store_true", help="serve LOG whatever speaks against it")
    add("--new", action="store_true", help="make LOG from the records of --map, and end; LOG must not exist")
    add("--map", metavar="FILE", help="the records of a new log")
    add("--most-fewer", type=amount, default=MOST_FEWER, metavar="PERCENT",
        help="of the records or paths that may be missing where only counts are compared (1)")
    add("--socket", metavar="SOCKET", help="where writers connect (LOG.socket)")
    add("--mode", type=mode, default=0o660, metavar="MODE", help="of SOCKET (0660)")
    add("--group", default="", metavar="GROUP", help="of SOCKET")
    add("--changes", metavar="SOCKET", help="where readers connect (LOG.changes)")
    add("--changes-mode", type=mode, default=0o660, metavar="MODE", help="of the readers' socket (0660)")
    add("--changes-group", default="", metavar="GROUP", help="of the readers' socket")
    add("--table", metavar="TABLE", help="an SQLite file or postgresql://.. (LOG.published.sqlite)")
    add("--notify", nargs="?", const="published", default="", metavar="CHANNEL",
        help="let PostgreSQL notify this channel (published) of each position")
    add("--history", type=number, default=0, metavar="N", help="changes that stay in the history (all)")
    add("--compact-at", type=size, metavar="SIZE", help="replace LOG by a dump when it has SIZE bytes, as 500M, and when it has doubled since")
    add("--deadline", type=amount, metavar="SECONDS",
        help="for a reply, before the program is ended (a minute and ten times what the last start took)")
    add("--most-connections", type=number, default=100, metavar="N", help="of writers, and of readers (100)")
    add("--idle", type=amount, default=60.0, metavar="SECONDS",
        help="after which a writer that waits for nothing gives its place to another, if all places are taken (60)")
    add("--most-waiting", type=number, default=256, metavar="MB", help="of all open batches (256)")
    add("--most-batch", type=number, metavar="MB", help="of one open batch (three quarters of --most-waiting)")
    add("--batch-idle", type=amount, default=60.0, metavar="SECONDS",
        help="after which an open batch is aborted of which nothing is sent (60)")
    add("--most-unread", type=number, default=64, metavar="MB", help="of replies that aren't read, beside which no long one begins (64)")
    add("--metrics", default="", metavar="FILE", help="write metrics for Prometheus to this file")
    add("log", metavar="LOG", help="the log")
    add("program", nargs="*", metavar="PROGRAM", help="the program (the one beside the tools, or olr-keep)")
    chosen: argparse.Namespace = parser.parse_args()
    if chosen.new != bool(chosen.map):
        parser.error("--new and --map belong together")
    if chosen.notify and not is_url(chosen.table or ""):
        parser.error("--notify needs --table postgresql://..")
    return chosen


def check(log: str, most_fewer: float) -> List[str]:
    """What speaks against serving a log. All that was found is said."""
    if not os.path.exists(log):
        raise Failure(USAGE, f"{log} is missing: is its disk mounted? --new --map FILE makes one")
    found = look(log, most_fewer) + other_file(log)
    for it in found:
        say(it.text)
    return [it.text for it in found if it.is_against]


def make(log: str, name: str, program: List[str]) -> None:
    """Makes a log from a file of records. Nothing is left if that fails."""
    if os.path.lexists(log):
        raise Failure(USAGE, f"{log} is there, and stays as it is")
    try:
        for why in look(name, 100.0):
            if why.is_against:
                raise Failure(NOT_SERVED, f"{name}: {why.text}")
        with beside(log) as folder:
            os.mkdir(folder)
            made = f"{folder}/log"
            shutil.copyfile(name, made)
            ended = subprocess.run([*program, "-l", made], stdin=subprocess.DEVNULL, capture_output=True, text=True, check=False)
            said = ended.stderr.strip().replace(made, name).replace("olr-keep: ", "")
            if ended.returncode:
                raise Failure(NOT_SERVED if ended.returncode == NOT_SERVED else STREAM, f"{said or 'the program failed'}")
            if not STARTED.search(ended.stderr):
                raise Failure(STREAM, f"{program[0]} is not olr-keep")
            os.link(made, log)
            # The map may be a log with padding, of which the program says that replies of its last run may be missing.
            say(f"{log} is made: {said.splitlines()[-1].partition(';')[0]}")
    except FileExistsError:
        raise Failure(USAGE, f"{log} is there, and stays as it is") from None
    except OSError as error:
        raise Failure(STREAM, f"{error.filename if error.filename in (name, program[0]) else log}: {error.strerror}") from None


def limits_of(chosen: argparse.Namespace) -> Limits:
    """What all connections share."""
    waiting = chosen.most_waiting << 20
    most_batch = chosen.most_batch << 20 if chosen.most_batch else waiting * 3 // 4
    return Limits(chosen.most_connections, chosen.idle, waiting, most_batch, chosen.batch_idle, Unread(chosen.most_unread << 20))


def settings_of(chosen: argparse.Namespace, program: List[str], accepted: List[str]) -> Settings:
    """How the service runs, with its sockets open."""
    passed = passed_sockets(os.environ)
    records = passed.get("records") or listening(chosen.socket or f"{chosen.log}.socket", chosen.mode, chosen.group)
    changes = passed.get("changes") or listening(chosen.changes or f"{chosen.log}.changes", chosen.changes_mode, chosen.changes_group)
    command = [*program, "-l", chosen.log, "--lines"]
    table = chosen.table or f"{chosen.log}.published.sqlite"
    return Settings(chosen.log, command, chosen.compact_at, table, chosen.notify, chosen.history, chosen.deadline, chosen.most_connections,
                    limits_of(chosen), chosen.most_fewer, accepted, chosen.metrics, records, changes)


async def serve(settings: Settings, systemd: Systemd) -> int:
    """Serves in this loop."""
    return await Service(settings, systemd).run()


def main(about: str) -> int:
    """Checks, makes or serves a log, and returns the exit status."""
    chosen = arguments(about)
    refuse_inputs([chosen.metrics], [chosen.log, chosen.map])
    program = chosen.program or [program_name()]
    if chosen.new or chosen.check:
        signal.pthread_sigmask(signal.SIG_UNBLOCK, HANDLED)
    if chosen.new:
        make(chosen.log, chosen.map, program)
        return 0
    found = check(chosen.log, chosen.most_fewer)
    if chosen.check:
        print(f"{chosen.log}: {'to be looked at' if found else 'nothing speaks against serving it'}")
        return NOT_SERVED if found else 0
    if found and not chosen.accept:
        raise Failure(NOT_SERVED, refusal(chosen.log))
    if found:
        accept(chosen.log)
    return asyncio.run(serve(settings_of(chosen, program, found), Systemd(os.environ)))
