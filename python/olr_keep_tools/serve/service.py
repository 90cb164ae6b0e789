"""The service: the program and everything around it, from the start to the end."""
import asyncio
import collections
import contextlib
import math
import os
import signal
import socket
import time
from dataclasses import dataclass, field
from typing import Any, Deque, Dict, List, Optional, Set, cast

from olr_keep_tools.command import STREAM, Failure, say
from olr_keep_tools.serve.changes import Readers
from olr_keep_tools.serve.compaction import Compaction
from olr_keep_tools.serve.exchange import Exchange
from olr_keep_tools.serve.framing import NoReply
from olr_keep_tools.serve.jobs import Change, Job, Kind
from olr_keep_tools.serve.keeper import Events, Keeper
from olr_keep_tools.serve.logfile import NOT_SERVED, look, refusal, room_for_more
from olr_keep_tools.serve.metrics import Health, State, size_of, write_metrics
from olr_keep_tools.serve.notes import Notes, in_thread
from olr_keep_tools.serve.notify import Systemd
from olr_keep_tools.serve.program import Ended, Program
from olr_keep_tools.serve.table import Table
from olr_keep_tools.serve.writer import Limits, Writer

FINAL = (2, 5, 7)  # statuses of the program after which another start doesn't help
IN_USE, LOCK_WAIT = 7, 20.0  # a program that was killed holds the lock until its last write is on the disk
ENDING = signal.SIGTERM, signal.SIGINT
HANDLED = signal.SIGTERM, signal.SIGHUP  # kept from the start on until they are handled
TICK, METRICS_EVERY, ASK_AGAIN = 0.25, 10.0, 1.0
FIRST_PAUSE, LONGEST_PAUSE, GOOD_RUN = 0.1, 5.0, 60.0
LAST_MOMENTS = 5.0  # in which connections may read their last replies
DEADLINE, PER_START, PER_MB = 60.0, 10.0, 20.0  # of a reply: seconds, times of a start, or seconds for each MB if none was measured


@dataclass
class Settings:
    """How the service runs."""

    log: str
    command: List[str]
    compact_at: Optional[int]  # bytes of the log
    table: str
    channel: str
    retained: int
    deadline: Optional[float]  # seconds for a reply; by the size of the log if None
    connections: int
    limits: Limits
    most_fewer: float
    accepted: List[str]  # what speaks against serving the log, and is right
    metrics: str
    records_socket: socket.socket
    changes_socket: socket.socket

    def name(self) -> str:
        """This service, as it is named to others that want the table."""
        return f"{os.path.realpath(self.log)} on {socket.gethostname()}"


@dataclass(eq=False)
class Questions:
    """The service as the owner of jobs: it asks for all that is published, and has the log replaced."""

    service: "Service"
    user: str = "-"
    unsent: Deque[Job] = field(default_factory=collections.deque)
    is_slow: bool = False
    answer: bytes = b""

    def ask(self, text: bytes = b"report\n") -> None:
        """Asks once more."""
        self.unsent.append(Job(self, Kind.QUESTION, text, 1))
        self.service.exchange.offer(self)

    def sent(self, size: int) -> None:
        """Nothing is counted."""

    def reply(self, text: bytes) -> None:
        self.answer += text

    def cut(self) -> None:
        self.answer = b""

    def finish(self, job: Job) -> None:
        answer, self.answer = self.answer, b""
        if job.is_compact:
            return
        if answer.startswith(b"ok,"):
            lines = answer.decode("latin-1").split("\n")[1:-1]
            self.service.take_report(dict(it.split(",", 1) for it in lines))
        elif not answer.startswith(b"fault,0,"):
            self.service.take_no_report(answer.decode("latin-1").strip())


class Service:
    """Owns the program. All of it runs in one loop, but for the thread that writes the table."""

    def __init__(self, settings: Settings, systemd: Systemd) -> None:
        self.settings, self.systemd = settings, systemd
        self.keeper = Keeper(
            lambda: Table(settings.table, settings.channel, settings.retained, settings.name(), f"{settings.log}.position"),
            Events(self.take_written, self.ask_for_all, self.take_table_fault))
        self.notes = Notes(settings.log, settings.most_fewer)
        self.compaction = Compaction(self.notes, self.why_uncompacted, lambda: self.exchange.dispatch(), self.refuse_compact)
        self.limits = settings.limits
        self.exchange = Exchange(self.publish, self.may_send, self.compaction, self.has_room)
        self.questions = Questions(self)
        self.health = Health(self.exchange.counts, settings.log)
        self.readers = Readers(self.keeper, self.current_health, settings.connections, self.limits.unread)
        self.program: Optional[Program] = None
        self.ended: "asyncio.Queue[Ended]" = asyncio.Queue()
        self.began = self.down_since = time.monotonic()
        self.is_loaded, self.needs_all = asyncio.Event(), False
        self.stop_asked = asyncio.Event()
        self.is_reloading = self.was_loaded = self.is_other = False
        self.first_try = time.monotonic()
        self.names: Set[str] = set()
        self.refused: Set[str] = set()
        self.written_at, self.inode = time.monotonic(), 0
        self.counting: "asyncio.Future[None]" = asyncio.get_running_loop().create_future()
        self.counting.set_result(None)

    # ---- what the program writes

    def take_output(self, data: bytes) -> None:
        """Output of the program."""
        try:
            self.exchange.take_output(data)
        except NoReply as error:
            say(f"this is no reply of olr-keep: {error}")
            self.is_other = not self.was_loaded
            if self.program:
                self.program.kill()

    def why_uncompacted(self) -> str:
        """Why the log was not replaced since this was asked last, or nothing."""
        return self.program.why_uncompacted() if self.program else ""

    def refuse_compact(self, why: str) -> None:
        """The log can't be replaced, since that can't be noted."""
        say(f"{self.settings.log} is not compacted: {why}")
        self.exchange.refuse_compact(why)

    def take_end(self, ended: Ended) -> None:
        """The program has ended."""
        self.program = None
        self.notes.end()
        self.compaction.reset()
        self.exchange.disconnect()
        self.questions.unsent.clear()
        self.ended.put_nowait(ended)

    def take_report(self, answers: Dict[str, str]) -> None:
        """All that is published: the first one after a start shows that the map is loaded."""
        self.health.paths = len(answers)
        self.health.refused = sum(it.startswith("refused") for it in answers.values())
        self.refused = {name for name, it in answers.items() if it.startswith("refused")}
        self.names = set(answers)
        self.keeper.put_all(answers, "-")
        if not self.is_loaded.is_set():
            self.is_loaded.set()
            self.notes.begin(time.monotonic() - self.began, size_of(self.settings.log))
            self.compaction.start(self.settings.compact_at or math.inf)

    def take_no_report(self, fault: str) -> None:
        """The program could not say all that is published, as without memory for it. It is asked again in a moment."""
        self.health.why_down = f"report got {fault}"
        say(f"{self.health.why_down}; it is asked again")
        asyncio.get_running_loop().call_later(ASK_AGAIN, self.ask_again)

    def ask_again(self) -> None:
        """Asks for all that is published."""
        if self.program:
            self.questions.ask()

    # ---- the table

    def publish(self, changes: List[Change], user: str) -> None:
        """Answers that have changed."""
        for name, answer in changes:
            (self.names.discard if answer is None else self.names.add)(name)
            is_refused = answer is not None and answer.startswith("refused")
            (self.refused.add if is_refused else self.refused.discard)(name)
        self.health.paths, self.health.refused = len(self.names), len(self.refused)
        self.keeper.put(changes, user)

    def may_send(self) -> bool:
        """Whether records may be carried out now."""
        return self.keeper.has_room() and not self.compaction.is_held()

    def has_room(self, job: Job) -> bool:
        """Whether a long reply may begin. That to a `compact` isn't, and what is asked here is read at once."""
        return job.is_compact or job.owner is self.questions or self.limits.unread.has_room()

    def take_written(self, count: int, position: int) -> None:
        """So many changes are in the table, up to this position; it is negative if they aren't."""
        if position >= 0:
            if self.health.table_fault:
                say("the table is written again")
            is_first, self.health.position, self.health.table_fault = self.health.position < 0, position, ""
            if is_first and self.health.state is State.SERVING:
                self.systemd.tell(f"STATUS={self.status()}")
        self.readers.wake()
        self.exchange.dispatch()

    def ask_for_all(self) -> None:
        """The table was opened: what it lacks is found by comparing all."""
        if self.is_loaded.is_set() and self.program:
            self.questions.ask()

    def take_table_fault(self, why: str) -> None:
        """The table can't be written."""
        if why != self.health.table_fault:
            say(f"the table is not written: {why}")
        self.health.table_fault = why
        self.readers.wake()

    # ---- from start to end

    async def run(self) -> int:
        """Serves until it is asked to end, and returns the exit status."""
        loop = asyncio.get_running_loop()
        for number in ENDING:
            loop.add_signal_handler(number, self.stop_asked.set)
        loop.add_signal_handler(signal.SIGHUP, self.reload)
        signal.pthread_sigmask(signal.SIG_UNBLOCK, HANDLED)
        self.keeper.start()
        ticking = asyncio.ensure_future(self.tick())
        try:
            return await self.serve()
        finally:
            ticking.cancel()
            # One that arrives once the loop is closed would change the status.
            signal.pthread_sigmask(signal.SIG_BLOCK, {*ENDING, signal.SIGHUP})

    async def serve(self) -> int:
        """Starts the program again and again, and serves as soon as the map was loaded for the first time."""
        servers: List[asyncio.AbstractServer] = [await asyncio.start_unix_server(self.readers.serve, sock=self.settings.changes_socket)]
        asked = asyncio.ensure_future(self.stop_asked.wait())
        status, pause = 0, FIRST_PAUSE
        while not asked.done():
            await self.start_program()
            ended, loaded = asyncio.ensure_future(self.ended.get()), asyncio.ensure_future(self.is_loaded.wait())
            await asyncio.wait(cast("Set[asyncio.Future[Any]]", {asked, ended, loaded}), return_when=asyncio.FIRST_COMPLETED)
            loaded.cancel()
            if self.is_loaded.is_set() and not asked.done():
                await self.open_sockets(servers)
                await asyncio.wait(cast("Set[asyncio.Future[Any]]", {asked, ended}), return_when=asyncio.FIRST_COMPLETED)
            if not ended.done():
                ended.cancel()
                break
            pause = FIRST_PAUSE if time.monotonic() - self.began > GOOD_RUN else min(2 * pause, LONGEST_PAUSE)
            final = self.take_program_end(ended.result()) or await self.look_again()
            if final:
                status = final
                break
            if ended.result().status == STREAM:
                await self.wait_for_room(asked)
            if not self.is_reloading:
                await asyncio.wait({asked}, timeout=pause)
        asked.cancel()
        await self.end(servers)
        return status

    async def start_program(self) -> None:
        """Starts the program, which loads the map, and asks for all that is published."""
        self.is_loaded.clear()
        self.is_reloading = False
        self.began = time.monotonic()
        self.health.state = State.LOADING
        self.health.starts += 1
        try:
            self.program = await Program.start(self.settings.command, self, print_message)
        except OSError as error:
            text = f"{self.settings.command[0]}: {error.strerror}"
            if not self.was_loaded:
                raise Failure(STREAM, text) from None
            # As while it is being installed.
            self.ended.put_nowait(Ended(STREAM, text))
            return
        self.exchange.connect(self.program)
        self.exchange.turns.clear()
        self.questions.ask()
        # Those who wait are next.
        for writer in self.limits.open:
            if writer.unsent:
                self.exchange.turns.append(writer)

    async def open_sockets(self, servers: List[asyncio.AbstractServer]) -> None:
        """The map is loaded: records are carried out, and writers are taken."""
        self.was_loaded = True
        self.health.state, self.health.why_down = State.SERVING, ""
        if len(servers) == 1:
            loop, found = asyncio.get_running_loop(), self.settings.records_socket
            servers.append(await loop.create_unix_server(lambda: Writer(self.exchange, self.limits), sock=found))
        self.exchange.dispatch()
        self.systemd.tell("READY=1", f"STATUS={self.status()}")

    def take_program_end(self, ended: Ended) -> int:
        """Notes how the program ended. Returns the status with which the service has to end, or 0."""
        self.health.state, self.health.why_down = State.DOWN, ended.text()
        self.down_since = time.monotonic()
        if self.is_reloading:
            return 0
        is_lock = ended.status == IN_USE and time.monotonic() - self.first_try < LOCK_WAIT
        if ended.status in FINAL and not is_lock:
            say(ended.text())
            return ended.status
        if self.is_other or not self.was_loaded and ended.status in (0, 1):
            say(f"{ended.text()}: it is not olr-keep")
            return STREAM
        say(f"{ended.text()}; it is started again")
        self.systemd.tell(f"STATUS={ended.text()}; it is started again")
        return 0

    async def look_again(self) -> int:
        """Looks at the log before another program begins with it. Returns the status with which the service has to end if it is not
        what was served, or 0."""
        try:
            await self.notes.save()
        except OSError as error:
            say(f"{error.filename or self.settings.log}: {error.strerror}")
        try:
            found = await in_thread(look, self.settings.log, self.settings.most_fewer)
        except OSError:
            return 0  # the program says it
        for it in found:
            say(it.text)
        if any(it.is_against and it.text not in self.settings.accepted for it in found):
            say(refusal(self.settings.log))
            return NOT_SERVED
        return 0

    async def wait_for_room(self, asked: "asyncio.Future[Any]") -> None:
        """The program failed to write: waits until there is room for as much as it asks for. Each start in vain would read the whole log."""
        said = ""
        while not asked.done() and (why := await in_thread(room_for_more, self.settings.log)):
            if why != said:
                say(f"{self.settings.log}: {why}: the program is started again once there is room")
            said = why
            await asyncio.wait({asked}, timeout=ASK_AGAIN)

    def reload(self) -> None:
        """Starts the program again, when it has answered all that was sent to it. Connections stay."""
        if self.program and self.is_loaded.is_set() and not self.is_reloading:
            self.is_reloading = True
            now = time.clock_gettime_ns(time.CLOCK_MONOTONIC) // 1000
            self.systemd.tell("RELOADING=1", f"MONOTONIC_USEC={now}", "STATUS=starts the program again")
            self.exchange.program = None
            self.end_when_answered()

    def end_when_answered(self) -> None:
        """Closes the input of the program once nothing is awaited."""
        if self.program and self.exchange.sent:
            asyncio.get_running_loop().call_later(0.01, self.end_when_answered)
        elif self.program:
            self.program.end_input()

    async def end(self, servers: List[asyncio.AbstractServer]) -> None:
        """Takes nothing more, waits for the last answers, and ends the program, the table and the connections."""
        self.limits.is_stopping = True
        self.systemd.tell("STOPPING=1", "STATUS=ends after the last answer")
        was_serving, self.health.state = self.health.state is State.SERVING, State.STOPPING
        for server in servers:
            server.close()
        self.exchange.program = None
        if self.program and not was_serving:
            self.program.kill()
        while self.program and self.exchange.sent:
            await asyncio.sleep(0.005)
        self.exchange.drop_unsent("the service ends, and this is not carried out")
        writers = list(self.limits.open)
        for writer in writers:
            writer.end()
        if self.program:
            self.program.end_input()
            ended = await self.ended.get()
            if was_serving and ended.status == 0:
                await self.note_end()
        await self.keeper.stop()
        until = time.monotonic() + LAST_MOMENTS
        while self.limits.open and time.monotonic() < until:
            await asyncio.sleep(0.01)

    # ---- from time to time

    async def tick(self) -> None:
        """Looks at deadlines, tells systemd, and notes what is known of the log."""
        while True:
            before = time.monotonic()
            await asyncio.sleep(TICK)
            # No deadline counts the time in which this process, or the machine, was stopped.
            self.exchange.last_progress += max(0.0, time.monotonic() - before - 2 * TICK)
            self.check_deadline()
            self.limits.look()
            self.exchange.dispatch()
            words = ["WATCHDOG=1"] if self.systemd.watchdog else []
            if self.health.state is State.LOADING:
                words += [f"STATUS={self.progress()}", "EXTEND_TIMEOUT_USEC=30000000"]
            if words:
                self.systemd.tell(*words)
            if self.health.state is State.SERVING and self.counting.done():
                self.counting = asyncio.ensure_future(self.count())
            if time.monotonic() - self.written_at > METRICS_EVERY:
                self.write_metrics()

    def check_deadline(self) -> None:
        """Ends a program that is silent for too long, and answers what waits too long for one that isn't started."""
        seconds, now = self.seconds_for_reply(), time.monotonic()
        since = self.exchange.waits_since()
        if self.program and since is not None and now - since > seconds:
            say(f"the program has not replied for {seconds:.0f} s; it is ended")
            self.program.kill()
        if self.program is None and now - self.down_since > seconds:
            self.exchange.drop_unsent(f"{self.health.why_down}, and is not started yet")

    def seconds_for_reply(self) -> float:
        """How long a reply may take: no question and no edit takes longer than a start, which encodes each path."""
        size = size_of(self.settings.log)
        start = self.notes.seconds_of_start(size)
        return self.settings.deadline or DEADLINE + (PER_START * start if start else PER_MB * size / 1e6)

    def progress(self) -> str:
        """How far the start is, by the time that the last one took."""
        seconds, size = time.monotonic() - self.began, size_of(self.settings.log)
        start = self.notes.seconds_of_start(size)
        return f"loads {size / 1e6:.1f} MB: {seconds:.0f} s" + (f" of about {start:.0f} s" if start else "")

    def status(self) -> str:
        """The line for systemd."""
        return self.current_health().line()

    def current_health(self) -> Health:
        """What is known now."""
        health = self.health
        health.connections, health.readers = len(self.limits.open), self.readers.following
        health.behind, health.waiting_bytes = self.keeper.behind, self.limits.held
        health.unread_bytes = self.limits.unread.size()
        return health

    async def count(self) -> None:
        """Counts what the log has, notes it, and has the log replaced when that is due."""
        try:
            await self.notes.update(lambda: self.exchange.sent[-1] if self.exchange.sent else None)
        except OSError as error:
            say(f"{error.filename or self.settings.log}: {error.strerror}")
        self.health.records = self.notes.scan.contents.records
        if self.inode != self.notes.scan.inode:
            with contextlib.suppress(OSError):
                self.health.compacted_at = os.stat(self.settings.log).st_ctime
            self.inode = self.notes.scan.inode
        if self.program and self.compaction.is_due():
            self.questions.ask(b"compact\n")

    async def note_end(self) -> None:
        """Notes what the log has at a clean end."""
        try:
            await self.notes.finish()
        except OSError as error:
            say(f"{error.filename or self.settings.log}: {error.strerror}")

    def write_metrics(self) -> None:
        """Writes the metrics, and reports the status."""
        self.written_at = time.monotonic()
        if self.health.state in (State.SERVING, State.STOPPING):
            self.systemd.tell(f"STATUS={self.status()}")
        try:
            if self.settings.metrics:
                write_metrics(self.settings.metrics, self.current_health().prometheus())
        except OSError as error:
            say(f"{error.filename or self.settings.metrics}: {error.strerror}")


def print_message(text: str) -> None:
    """Passes a message of the program on."""
    if text:
        say(text.replace("olr-keep: ", "", 1))

