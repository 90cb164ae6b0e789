"""Replacing the log by a dump: what the log has is noted before, and the result is noted before anything else is carried out."""
import asyncio
import enum
import math
from typing import Callable, Optional

from olr_keep_tools.serve.notes import Notes


class Phase(enum.Enum):
    """How far a `compact` is."""

    NONE = enum.auto()
    NOTING = enum.auto()  # nothing is sent until it is noted that a dump may take the place of the log
    NOTED = enum.auto()
    SENT = enum.auto()
    ENDING = enum.auto()  # nothing is sent until it is noted what the log has now


class Compaction:
    """Whether a `compact` may be sent, and when one is due. Between the two notes another file of the log's name is compared by its
    counts, which no record changes meanwhile."""

    def __init__(self, notes: Notes, why_not: Callable[[], str], resume: Callable[[], None], refuse: Callable[[str], None]) -> None:
        self.notes, self.why_not, self.resume, self.refuse = notes, why_not, resume, refuse
        self.phase, self.run = Phase.NONE, 0
        self.least = self.due = math.inf  # bytes of the log
        self.task: Optional["asyncio.Task[None]"] = None

    def start(self, least: float) -> None:
        """The program has begun with the log, and nothing else is sent until it is noted what it has. It is replaced if it has so many
        bytes, and whenever it has doubled since."""
        self.least, self.phase, self.task = least, Phase.ENDING, asyncio.ensure_future(self._renew(self.run, least))

    def is_due(self) -> bool:
        """Whether the log is to be replaced now. That is asked for once."""
        if self.notes.scan.contents.size < self.due:
            return False
        self.due = math.inf
        return True

    def is_held(self) -> bool:
        """Whether nothing may be sent now."""
        return self.phase in (Phase.NOTING, Phase.ENDING)

    def may_begin(self) -> bool:
        """Whether a `compact` that is next may be sent. If not, sending is resumed once it may."""
        if self.phase is Phase.NONE:
            self.phase, self.task = Phase.NOTING, asyncio.ensure_future(self._note(self.run))
        return self.phase is Phase.NOTED

    async def _note(self, run: int) -> None:
        """Notes that a dump may take the place of the log, which a run of the program has asked for."""
        why = ""
        try:
            await self.notes.before_compaction()
        except OSError as error:
            why = f"{error.filename or self.notes.log}: {error.strerror}"
        if run != self.run:
            return
        if not why:
            self.phase = Phase.NOTED
            self.resume()
        # The one who asked may be gone.
        if why or self.phase is Phase.NOTED:
            self.phase = Phase.NONE
        if why:
            self.due = self._doubled()
            self.refuse(why)

    def begin(self) -> None:
        """It is sent."""
        self.phase = Phase.SENT
        self.why_not()  # whatever was said before

    def end(self) -> str:
        """It has a reply. Returns why the log was not replaced, or nothing."""
        self.phase, self.task = Phase.ENDING, asyncio.ensure_future(self._renew(self.run, math.inf))
        return self.why_not()

    async def _renew(self, run: int, due: float) -> None:
        """Notes what the log of a run of the program has now, which is next replaced when it has so many bytes, or has doubled if that is
        less."""
        try:
            await self.notes.renew()
        except OSError:
            pass  # it is noted later, and compared by its counts until then
        if run == self.run:
            self.due = min(due, self._doubled())
            self.phase = Phase.NONE
            self.resume()

    def _doubled(self) -> float:
        """The bytes that the log has when it is due again."""
        return max(self.least, 2 * self.notes.scan.contents.size)

    def reset(self) -> None:
        """The program has ended."""
        self.phase, self.run = Phase.NONE, self.run + 1
