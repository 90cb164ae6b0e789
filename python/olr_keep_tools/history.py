"""Follows the strings of tools/live, by its table olr_keep.history, as events.

    follow(lambda sink: History("dbname=roads user=partner", sink), sink)

A round and a name are a position while the word in olr_keep.identity is the same. Of a round all changes but the last are followed
by others of the same position.
"""
import select
from typing import Iterator, List, Optional, Sequence, Tuple

from .command import STREAM, Failure
from .following import Broken, Changed, Event, Sink, Whole
from .live.session import first_line, is_refused
from .sql import psycopg2

PAGE = 5000  # changes that are read at once
WAIT = 5.0  # seconds after which the history is read again, if no round is notified
PLACE = """select history, coalesce((select min(round) from olr_keep.round), %(position)s),
    coalesce((select max(round) from olr_keep.round), %(position)s) from olr_keep.identity"""
CHANGES = """select round, name, coalesce('text,' || text, reason), state from olr_keep.history
    where (round, name) > (%(round)s, %(after)s) order by round, name limit %(most)s"""
STRINGS = "select name, coalesce('text,' || text, reason) from olr_keep.string where round > 0"


class History:
    """A session that reads the history from the position of a sink on."""

    def __init__(self, database: str, sink: Sink):
        self.identity, self.position, self.after = sink.identity, sink.position, sink.after
        self.has_more = False  # whether a page was read that others follow
        try:
            self.connection = psycopg2.connect(database, application_name="olr-keep forward", connect_timeout=10, keepalives_idle=10,
                                               keepalives_interval=5, keepalives_count=3)
            self.connection.set_session(isolation_level="REPEATABLE READ")
        except psycopg2.Error as error:
            if is_refused(error):
                raise Failure(STREAM, first_line(error)) from None
            raise Broken(first_line(error)) from None

    def close(self) -> None:
        """Ends the session."""
        self.connection.close()

    def events(self) -> Iterator[Optional[Event]]:
        """The events, and None where none follows at the moment."""
        try:
            with self.connection, self.connection.cursor() as cursor:
                cursor.execute("listen olr_keep_round")
            while True:
                for event in self.read():
                    self.identity, self.position, self.after = event.identity, event.position, event.after
                    yield event
                if not self.has_more:
                    yield None
                    self.wait()
        except psycopg2.Error as error:
            if isinstance(error, (psycopg2.OperationalError, psycopg2.InterfaceError)):
                raise Broken(first_line(error)) from None
            raise Failure(STREAM, first_line(error)) from None

    def read(self) -> List[Event]:
        """The changes after the last one; or all that is published, if it isn't known that none of them is missing."""
        with self.connection, self.connection.cursor() as cursor:
            cursor.execute(PLACE, {"position": self.position})
            identity, first, last = cursor.fetchone()
            following = self.position if self.after else self.position + 1
            if identity != self.identity or first > following or last < self.position:
                cursor.execute(STRINGS)
                return [Whole(identity, last, dict(cursor.fetchall()))]
            cursor.execute(CHANGES, {"round": following, "after": self.after, "most": PAGE + 1})
            return self.changes(cursor.fetchall())

    def changes(self, rows: Sequence[Tuple[int, str, str, Optional[str]]]) -> List[Event]:
        """The changes of a page; the last row only says whether others follow."""
        self.has_more = len(rows) > PAGE
        ends = [k + 1 == len(rows) or rows[k + 1][0] != row[0] for k, row in enumerate(rows)]
        return [Changed(self.identity, *row, end) for row, end in zip(rows[:PAGE], ends)]

    def wait(self) -> None:
        """Waits for a notification, or for some seconds."""
        select.select([self.connection], [], [], WAIT)
        self.connection.poll()
        self.connection.notifies.clear()
