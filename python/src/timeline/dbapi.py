"""The Python Database API 2.0 (PEP 249) over a journal: `connect`, cursors, and the exceptions and types that it names.

A query is answered over what is committed. Statements that make commits wait until `commit`, which keeps all of them or
none, and `rollback` forgets them; so a fault of theirs is raised by `commit`. A statement with a block has its rows by
`executemany`, under the names in parentheses: `executemany("PUT staff (id, pay)", [(1, 3000), (2, 2800)])`."""
from __future__ import annotations

import datetime
import os
import re
import time
from typing import Any, Iterable, Iterator, NamedTuple, Sequence

from . import api, errors
from .answers import Answer
from .statements import BATCHES, statements_of

apilevel = "2.0"
threadsafety = 1             # threads may share the module, and not a connection
paramstyle = "qmark"
_WITH_BLOCK = re.compile(r"\s*((?:PUT|REMOVE|SYNC)\s+[A-Za-z_][A-Za-z0-9_]*)\s*\(([^()]*)\)\s*;?\s*")
_ROWS = 1                    # what arraysize is at first


class Warning(Exception):
    """What is worth a warning; nothing here raises it."""


class Error(Exception):
    """All that can go wrong. `fault` is the error of the front, with its fields, where there is one."""

    def __init__(self, message: str = "", fault: errors.TimelineError | None = None) -> None:
        self.fault = fault
        super().__init__(message)


class InterfaceError(Error):
    """A fault of the calls themselves: a closed connection or cursor, no answer to fetch from."""


class DatabaseError(Error):
    """A fault of the journal or of a statement."""


class DataError(DatabaseError):
    """A value that its column cannot have."""


class OperationalError(DatabaseError):
    """The journal cannot be opened, read or written, or another program has it."""


class IntegrityError(DatabaseError):
    """A key that stands twice, or a row that is not there to be removed."""


class InternalError(DatabaseError):
    """The journal is damaged, or a program ended in a way that is none of its own."""


class ProgrammingError(DatabaseError):
    """A statement that is ill-formed, or names what is not there."""


class NotSupportedError(DatabaseError):
    """What the journal does not have."""


_DATA = frozenset("NotInt NotUtf8 NotDecimal NotDate NotTime TextTooLong EmptyPeriod NumberTooLarge".split())
_INTEGRITY = frozenset("KeyTwice NoRow TableExists".split())


def _raised(error: errors.TimelineError) -> Error:
    """The error of this interface for one of the front."""
    if isinstance(error, errors.Refused):
        kind = DataError if error.kind in _DATA else IntegrityError if error.kind in _INTEGRITY else ProgrammingError
        return kind(str(error), error)
    if isinstance(error, (errors.Damaged, errors.ProgramFault)):
        return InternalError(str(error), error)
    return OperationalError(str(error), error)


class _Type:
    """Kinds of columns that are one type here; equal to the name of each."""

    def __init__(self, *names: str) -> None:
        self.names = frozenset(names)

    def __eq__(self, other: object) -> bool:
        return other in self.names if isinstance(other, str) else self is other

    def __hash__(self) -> int:
        return hash(self.names)


STRING, NUMBER, DATETIME = _Type("TEXT"), _Type("INT", "DECIMAL", "AVERAGE"), _Type("DATE", "TIME")
BINARY, ROWID = _Type(), _Type()
Date, Timestamp = datetime.date, datetime.datetime


def Time(hour: int, minute: int, second: int) -> datetime.time:
    """A time of day, which no column has a kind for."""
    return datetime.time(hour, minute, second)


def DateFromTicks(ticks: float) -> datetime.date:
    """The day of a second since 1970, in the time zone of the machine."""
    return Date(*time.localtime(ticks)[:3])


def TimeFromTicks(ticks: float) -> datetime.time:
    """The time of day of a second since 1970, in the time zone of the machine."""
    return Time(*time.localtime(ticks)[3:6])


def TimestampFromTicks(ticks: float) -> datetime.datetime:
    """The second since 1970 as a datetime in UTC."""
    return datetime.datetime.fromtimestamp(int(ticks), datetime.timezone.utc)


def Binary(data: bytes) -> bytes:
    """Bytes, which no column has a kind for."""
    return bytes(data)


def connect(folder: str | os.PathLike[str] = ".", wait: float | None = 0.0, create: bool = False) -> Connection:
    """A connection to the journal of a folder; `wait` and `create` are as `timeline.open` has them."""
    try:
        return Connection(api.open(folder, wait, create))
    except errors.TimelineError as error:
        raise _raised(error) from error


class Connection:
    """A connection, with the changes that wait for `commit`. As a context manager it commits, or rolls back, and stays open."""

    Warning, Error, InterfaceError, DatabaseError, DataError = Warning, Error, InterfaceError, DatabaseError, DataError
    OperationalError, IntegrityError, InternalError = OperationalError, IntegrityError, InternalError
    ProgrammingError, NotSupportedError = ProgrammingError, NotSupportedError

    def __init__(self, database: api.Database) -> None:
        self._database: api.Database | None = database
        self._unit = database.unit()

    @property
    def database(self) -> api.Database:
        """The journal of it. Raises InterfaceError once it is closed."""
        if self._database is None:
            raise InterfaceError("the connection is closed")
        return self._database

    @property
    def unit(self) -> api.Unit:
        """The changes that wait."""
        self.database
        return self._unit

    def cursor(self) -> Cursor:
        """A further cursor."""
        self.database
        return Cursor(self)

    def commit(self) -> None:
        """Keeps all changes that wait, or none of them where it raises."""
        unit, self._unit = self.unit, self.database.unit()
        try:
            unit.commit()
        except errors.TimelineError as error:
            raise _raised(error) from error

    def rollback(self) -> None:
        """Forgets the changes that wait."""
        self.unit.rollback()

    def close(self) -> None:
        """Forgets what waits, and ends its programs."""
        if self._database is not None:
            self._database.close()
            self._database = None

    def __enter__(self) -> Connection:
        return self

    def __exit__(self, kind: type[BaseException] | None, *_: object) -> None:
        if kind is None:
            self.commit()
        else:
            self.rollback()


class Described(NamedTuple):
    """What is said of a column of an answer, in the order that the interface has."""

    name: str
    type_code: str
    display_size: None = None
    internal_size: None = None
    precision: int | None = None
    scale: int | None = None
    null_ok: bool | None = None


class Cursor:
    """Statements one after the other, and the rows of the last answer."""

    def __init__(self, connection: Connection) -> None:
        self.connection, self.arraysize, self._is_closed = connection, _ROWS, False
        self.description: tuple[Described, ...] | None = None
        self.rowcount = -1
        self._rows: Iterator[tuple[Any, ...]] | None = None

    def _open(self) -> Connection:
        if self._is_closed:
            raise InterfaceError("the cursor is closed")
        self.connection.database
        return self.connection

    def execute(self, operation: str, parameters: Sequence[Any] = ()) -> Cursor:
        """Asks a query, or adds a statement without rows to the changes that wait."""
        connection = self._open()
        self.description, self.rowcount, self._rows = None, -1, None
        if _WITH_BLOCK.fullmatch(operation):
            return self.executemany(operation, [parameters] if parameters else [])
        try:
            found = statements_of(operation)
            if len(found) == 1 and found[0].word in BATCHES:
                connection.unit.execute(api.with_parameters(operation, parameters))
            else:
                self._answered(connection.database.ask(operation, parameters))
        except errors.TimelineError as error:
            raise _raised(error) from error
        except TypeError as error:
            raise ProgrammingError(str(error)) from error
        return self

    def _answered(self, answer: Answer) -> None:
        self.description = tuple(
            Described(name, kind.name if kind else "INT", scale=kind.places if kind and kind.name == "DECIMAL" else None)
            for name, kind in zip(answer.names, answer.kinds))
        self.rowcount, self._rows = answer.count, iter(answer)

    def executemany(self, operation: str, seq_of_parameters: Iterable[Sequence[Any]]) -> Cursor:
        """Adds a statement with a block whose rows are the parameters; of another statement, executes it with each of them."""
        connection = self._open()
        found = _WITH_BLOCK.fullmatch(operation)
        if found is None:
            for parameters in seq_of_parameters:
                self.execute(operation, parameters)
                if self.description is not None:
                    raise ProgrammingError("executemany is for statements that make commits")
            return self
        names = [it.strip() for it in found[2].split(",")]
        try:
            rows = [tuple(row) for row in seq_of_parameters]
        except TypeError as error:
            raise ProgrammingError(f"each row is a sequence of values: {error}") from error
        if any(len(row) != len(names) for row in rows):
            raise ProgrammingError(f"each row wants {len(names)} values")
        try:
            connection.unit.add_block(found[1], names, rows)
        except errors.TimelineError as error:
            raise _raised(error) from error
        except TypeError as error:
            raise DataError(str(error)) from error
        self.description, self.rowcount, self._rows = None, len(rows), None
        return self

    def _fetching(self) -> Iterator[tuple[Any, ...]]:
        self._open()
        if self._rows is None:
            raise InterfaceError("there is no answer to fetch from")
        return self._rows

    def fetchone(self) -> tuple[Any, ...] | None:
        """The next row, None at the end."""
        return next(self._fetching(), None)

    def fetchmany(self, size: int | None = None) -> list[tuple[Any, ...]]:
        """The next rows, at most `size`, or `arraysize` of them."""
        rows = self._fetching()
        return [row for _, row in zip(range(self.arraysize if size is None else size), rows)]

    def fetchall(self) -> list[tuple[Any, ...]]:
        """All rows that are left."""
        return list(self._fetching())

    def __iter__(self) -> Iterator[tuple[Any, ...]]:
        return self._fetching()

    def setinputsizes(self, sizes: Sequence[object]) -> None:
        """Does nothing, as the interface allows."""

    def setoutputsize(self, size: int, column: int | None = None) -> None:
        """Does nothing, as the interface allows."""

    def close(self) -> None:
        """Closes the cursor; a later call of it raises InterfaceError."""
        self._is_closed, self._rows = True, None
