"""Databases of SQLite and PostgreSQL, asked in the same way. The values of a text are `?`, those of rows `{}`, and `begin` keeps others
from writing."""
import sqlite3
from typing import Any, List, Sequence, Tuple, Type

try:
    import psycopg2
    import psycopg2.errors
    import psycopg2.extras
except ImportError:
    psycopg2 = None

__all__ = ["psycopg2"]
NEEDED = "for PostgreSQL install Debian's python3-psycopg2, and run this with /usr/bin/python3"
PAGE = 1000  # rows that are put at once
Row = Tuple[Any, ...]
Values = Sequence[object]


def is_url(name: str) -> bool:
    """Whether this is the URL of a database of PostgreSQL."""
    return name.startswith(("postgresql://", "postgres://"))


class FileStore:
    """A file of SQLite, which whoever derives from this opens."""

    failures: Tuple[Type[BaseException], ...] = (sqlite3.Error,)
    file: sqlite3.Connection

    def rows(self, text: str, values: Values = ()) -> List[Row]:
        """The rows of a query."""
        return self.file.execute(text, values).fetchall()

    def run(self, text: str, values: Values = ()) -> None:
        """Runs a statement."""
        self.file.execute("begin immediate" if text == "begin" else text, values)

    def put(self, text: str, rows: Sequence[Values]) -> None:
        """Runs a statement for each of these rows."""
        if rows:
            self.file.executemany(text.format(f"({', '.join('?' * len(rows[0]))})"), rows)

    def close(self) -> None:
        """Closes the connection."""
        self.file.close()


class ServerStore:
    """A database of PostgreSQL, to which whoever derives from this connects."""

    failures: Tuple[Type[BaseException], ...] = (psycopg2.Error,) if psycopg2 else ()
    connection: Any
    locked: str  # the table that `begin` locks

    def rows(self, text: str, values: Values = ()) -> List[Row]:
        """The rows of a query."""
        with self.connection.cursor() as cursor:
            cursor.execute(text.replace("?", "%s"), values)
            return list(cursor.fetchall())

    def run(self, text: str, values: Values = ()) -> None:
        """Runs a statement."""
        with self.connection.cursor() as cursor:
            cursor.execute(text.replace("?", "%s"), values)
            if text == "begin":
                cursor.execute(f"lock table {self.locked} in share row exclusive mode")

    def put(self, text: str, rows: Sequence[Values]) -> None:
        """Runs a statement for each of these rows."""
        with self.connection.cursor() as cursor:
            psycopg2.extras.execute_values(cursor, text.format("%s"), rows, page_size=PAGE)

    def close(self) -> None:
        """Closes the connection."""
        self.connection.close()
