"""A journal from Python: questions that are answered by values, and units of changes of which all is kept or nothing.

A question is answered by a program that stays open over pipes, and is begun anew, unseen, when the journal has changed.
Whoever only asks takes no lock; a change takes it for as long as it is written. Nothing here writes to an output."""
from __future__ import annotations

import os
from contextlib import contextmanager
from typing import Iterable, Iterator, Mapping, NamedTuple, Optional, Sequence, Union

from . import days, kinds, notes, queries
from .answers import Answer
from .errors import Place, Refused
from .journal import Journal
from .statements import BLOCKS, Statement, encode, is_open, statements_of, tokens

TYPE_CHECKING = False
if TYPE_CHECKING:
    import datetime
    from decimal import Decimal
    from types import TracebackType

    from .loads import Reading
    from .sheets import Sheet

Value = Union[int, str, "Decimal", "datetime.date"]
Cell = Optional[Value]       # None is a valid_to without end
_QUESTIONS = frozenset("SELECT COUNT SUM AVG MIN MAX JOIN".split())


def open(folder: str | os.PathLike[str] = ".", wait: float | None = 0.0, create: bool = False) -> Database:
    """The journal of a folder. `wait` is how many seconds a change waits for the lock that another program has, None for ever;
    with `create` an empty journal is made where none is there. Raises NoJournal where there is none, DeviceFault where it
    cannot be read or made."""
    journal = Journal(folder, wait)
    if create and journal.size() == 0:
        journal.init()
    journal.check_readable()
    return Database(journal)


class Database:
    """An open journal; close it after use, or open it by `with`."""

    def __init__(self, journal: Journal) -> None:
        self.journal = journal

    def __enter__(self) -> Database:
        return self

    def __exit__(self, *_: object) -> None:
        self.close()

    def close(self) -> None:
        """Ends the program that answers questions; a later question begins it anew."""
        self.journal.close()

    def ask(self, query: str, parameters: Sequence[Value] = ()) -> Answer:
        """The answer to one query, in which each `?` outside of texts stands for a parameter. Raises Refused."""
        (answer,) = self.ask_all([(query, parameters)])
        return answer

    def ask_all(self, asked: Iterable[tuple[str, Sequence[Value]]]) -> list[Answer]:
        """The answers to some queries with their parameters, all over one version. Raises the first that is Refused."""
        with _advising():
            statements = [_one(with_parameters(query, parameters)) for query, parameters in asked]
            results = queries.ask_look(self.journal.look(), statements, with_types=True)
            for result in results:
                if isinstance(result, Refused):
                    raise result
            return [it for it in results if isinstance(it, Answer)]

    @property
    def version(self) -> int:
        """The number of commits that the journal has."""
        (reply,) = self.journal.look().ask([b"S"])
        version = getattr(reply, "version")
        assert isinstance(version, int)
        return version

    def unit(self, by: str = "", because: str = "", stamp: bool | None = None) -> Unit:
        """A unit of changes, of which all is kept when its `with` ends, or nothing where that raises. `by` and `because` keep who
        made it and why; `stamp` is whether the present second is stated first, None where the journal's moments are seconds."""
        return Unit(self, notes.Cause(by, because, "", stamp))

    def put(self, table: str, rows: Iterable[Mapping[str, Cell]], by: str = "", because: str = "") -> int:
        """Puts rows, each a value for each column by its name, and gives the version that this made. Raises Refused."""
        with self.unit(by, because) as unit:
            unit.put(table, rows)
        return unit.version

    def remove(self, table: str, keys: Iterable[Mapping[str, Cell]], by: str = "", because: str = "") -> int:
        """Ends the rows of keys, and gives the version that this made. Raises Refused."""
        with self.unit(by, because) as unit:
            unit.remove(table, keys)
        return unit.version

    def load(self, table: str, path: str | os.PathLike[str], by: str = "", because: str = "", missing: Mapping[str, str] | None = None) -> int:
        """Puts the records of a CSV file into a table, and gives the version that this made. `missing` says by columns' names what
        stands for an empty cell. Raises Refused, SourceFault, UsageError where no file can be read there."""
        from . import loads

        with _advising(), _sheet(path) as sheet:
            return loads.load(self.journal, table, sheet, _cause(by, because, path), missing or {}).version

    def sync(self, table: str, path: str | os.PathLike[str], by: str = "", because: str = "",
             allow_removals: bool = False, keep: bool = False) -> int:
        """Brings a table to what a CSV file says, and gives the version that this made, or the one that was there where nothing
        differs. Raises Refused, also where more than half of the rows would be ended and `allow_removals` is not given."""
        from . import loads

        with _advising(), _sheet(path) as sheet:
            synced = loads.sync(self.journal, table, sheet, _cause(by, because, path), loads.Syncing(keep, allow_removals))
        return synced.outcome.version if synced.outcome is not None else self.version

    def import_(self, table: str, path: str | os.PathLike[str], key: str, by: str = "", because: str = "",
                reading: Reading | None = None) -> int:
        """Makes a table of a CSV file and puts it in, and gives the version that this made. `reading` says how the file is read where
        that is not to be found out, as `timeline.Reading(valid=True, kinds={"pay": "DECIMAL(2)"})`. Raises Refused, UsageError."""
        from . import loads

        with _advising(), _sheet(path) as sheet:
            plan = loads.plan(table, sheet, key, reading or loads.Reading())
            outcome = loads.import_sheet(self.journal, plan, _cause(by, because, path))
        return outcome.version

    def execute(self, statement: str, by: str = "", because: str = "") -> int:
        """Makes the commit of a CREATE, MOMENT or FORGET, and gives its version. Raises Refused, also for a question."""
        with self.unit(by, because) as unit:
            unit.execute(statement)
        return unit.version


@contextmanager
def _advising() -> Iterator[None]:
    """Adds to what is refused in the block what to do about it, where nothing is said of that."""
    try:
        yield
    except Refused as refused:
        if not refused.advice:
            from . import explaining

            text, offset = encode(refused.statement), refused.place.offset if refused.place else None
            case = explaining.text_case(text, offset, refused.kind) if offset is not None else ""
            refused.advice = explaining.advice(refused.kind, case)
        raise


@contextmanager
def _sheet(path: str | os.PathLike[str]) -> Iterator[Sheet]:
    """The sheet of a file, closed at the end."""
    from .sheets import open_sheet

    sheet = open_sheet(os.fspath(path))
    try:
        yield sheet
    finally:
        sheet.close()


def _cause(by: str, because: str, path: str | os.PathLike[str]) -> notes.Cause:
    """Who and why, and the name of the file that it is of."""
    return notes.cause_of(by, because, os.fspath(path), None)


class _Part(NamedTuple):
    """A statement of a unit, and its block with the names of its columns and its cells as people write them, where it has one."""

    statement: str
    names: Sequence[str] = ()
    rows: Sequence[Sequence[str]] = ()


class Unit:
    """Changes that are kept together. Nothing is sent before the end of the `with`, or `commit`; then `version` is what it made."""

    def __init__(self, database: Database, cause: notes.Cause) -> None:
        self._database, self._cause, self._parts = database, cause, list[_Part]()
        self.version = 0

    def __enter__(self) -> Unit:
        return self

    def __exit__(self, kind: type[BaseException] | None, _error: BaseException | None, _trace: TracebackType | None) -> None:
        if kind is None:
            self.commit()

    def execute(self, statement: str) -> None:
        """Adds a statement that has no block. Raises Refused for a question, and for a statement with rows."""
        found = _one(statement)
        if found.word in _QUESTIONS:
            raise self._refused("NoCommit", found.text, f"{found.word} is a question, and makes no commit", "Use ask for it.")
        if found.word in BLOCKS:
            raise self._refused("NoBlock", found.text, f"{found.word} has rows, and none were given", f"Use {found.word.lower()} of a unit for it.")
        self._parts.append(_Part(found.text))

    def _refused(self, kind: str, statement: str, sentence: str, advice: str = "") -> Refused:
        return Refused(kind, (), statement, Place(0), sentence, advice).over(0, len(self._parts) + 1)

    def put(self, table: str, rows: Iterable[Mapping[str, Cell]]) -> None:
        """Adds rows that are put, each a value for each column by its name; None is a valid_to without end. Raises TypeError for what
        no cell can be, and Refused."""
        self._add(f"PUT {_name(table)}", rows)

    def remove(self, table: str, keys: Iterable[Mapping[str, Cell]]) -> None:
        """Adds keys whose rows end, by the name of the key's column."""
        self._add(f"REMOVE {_name(table)}", keys)

    def sync(self, table: str, rows: Iterable[Mapping[str, Cell]]) -> None:
        """Adds rows that are to be all rows of a table."""
        self._add(f"SYNC {_name(table)}", rows)

    def add_block(self, statement: str, names: Sequence[str], rows: Iterable[Sequence[Cell]]) -> None:
        """Adds a statement with a block of rows under the names of their columns. Raises as `put` does."""
        text, known = _one(statement).text, tuple(map(_name, names))
        try:
            spelled = [[_spelled(name, value) for name, value in zip(known, row)] for row in rows]
        except Refused as refused:
            refused.statement, refused.number = text, len(self._parts) + 1
            raise
        self._parts.append(_Part(text, known, spelled))

    def _add(self, statement: str, rows: Iterable[Mapping[str, Cell]]) -> None:
        taken = list(rows)
        wrong = next((row for row in taken if not isinstance(row, Mapping)), None)
        if wrong is not None:
            raise TypeError(f"a row is a dict of values by the names of their columns, and not {type(wrong).__name__}")
        names = tuple(taken[0]) if taken else ()
        if any(tuple(row) != names and set(row) != set(names) for row in taken):
            raise self._refused("FieldCount", statement, "the rows do not have the same columns")
        if taken:
            self.add_block(statement, names, ([row[name] for name in names] for row in taken))

    def commit(self) -> None:
        """Sends all that was added, which is kept whole, or Refused is raised. A unit without changes makes no version."""
        parts, self._parts = self._parts, []
        if parts:
            with _advising():
                outcome = notes.transact(self._database.journal, "python", lambda unit: _script(unit, parts), self._cause)
            self.version = outcome.version

    def rollback(self) -> None:
        """Forgets all that was added."""
        self._parts = []


def _script(unit: notes.Unit, parts: Sequence[_Part]) -> Iterator[bytes]:
    """The pieces of a unit's statements, with the engine's cells in place of what people write."""
    for number, part in enumerate(parts, 1):
        try:
            if part.names:
                yield unit.begin(part.statement) + _block(unit.state.catalog, part)
            else:
                yield from notes.batch(unit, Statement(part.statement, 0))
        except Refused as refused:
            refused.statement, refused.number = part.statement, number
            raise


def _block(catalog: kinds.Catalog, part: _Part) -> bytes:
    """The block of a statement. Raises Refused where a cell is none of its column's kind."""
    table = part.statement.split()[-1]
    found = [catalog.of(table, name) for name in part.names]
    return notes.block([part.names, *([_cell(text, kind) for text, kind in zip(row, found)] for row in part.rows)])


def _cell(text: str, kind: kinds.Kind | None) -> str:
    """The engine's cell for what people write. Raises Refused where it is none of its column's kind."""
    try:
        return kind.cell(text) if kind is not None else text
    except kinds.KindFault as fault:
        raise Refused(fault.name, sentence=f"{text!r} is no {kind}", advice=fault.advice) from None


def _spelled(name: str, value: Cell) -> str:
    """A cell of a column as people write it; None is a valid_to without end. Raises as `_written` does."""
    return kinds.FOREVER if value is None and name == "valid_to" else _written(value)


def _written(value: Cell) -> str:
    """A value as people write it. Raises TypeError where it is none that a cell can have, Refused for parts of a second."""
    if isinstance(value, str):
        return value
    if isinstance(value, int) and not isinstance(value, bool):
        return str(value)
    names = _names(value)
    if "Decimal" in names:
        text = format(value, "f")
        if text.lstrip("-")[:1].isdigit():
            return text
        raise Refused("NotDecimal", sentence=f"{value} is no number that a column can have")
    if "datetime" in names:
        return _second(value, is_local=False)
    if "date" in names:
        return str(value)
    raise TypeError(f"a cell is an int, a str, a Decimal, a date or a datetime, and not {names[0]}")


def _names(value: object) -> list[str]:
    """The names of a value's type and of those that it is a case of, as pandas' Timestamp is of datetime; so no module is loaded."""
    return [it.__name__ for it in type(value).__mro__]


def _second(value: object, is_local: bool) -> str:
    """A datetime as a time in UTC, or in the time zone of the machine; one without a zone is taken to be in it already."""
    import datetime

    assert isinstance(value, datetime.datetime)
    if value.microsecond:
        raise Refused("NotTime", sentence=f"a time has whole seconds, and {value} has parts of one",
                      advice="Leave them out: value.replace(microsecond=0).")
    if value.tzinfo is None:
        return value.isoformat()
    text = value.astimezone(None if is_local else datetime.timezone.utc).replace(tzinfo=None).isoformat()
    moment = int(value.timestamp())
    if is_local and days.moment_of("TIME", text) != moment:
        raise Refused("NoTime", sentence=f"{text} comes twice, as the clocks are put back, and AS OF TIME means the other one",
                      advice=f"Ask AS OF MOMENT {moment}.")
    return text


def _literal(value: Value, is_local: bool) -> str:
    """A value as a statement has it: texts, days and times between quotes, numbers bare."""
    names = _names(value)
    text = _second(value, is_local) if "datetime" in names else _written(value)
    return text if "int" in names or "Decimal" in names else "'" + text.replace("'", "''") + "'"


def with_parameters(query: str, parameters: Sequence[Value]) -> str:
    """A query with a literal in place of each `?` outside of texts. Raises Refused where there are more or fewer of them."""
    parts, words, left = [], list[str](), list(parameters)
    found = tokens(query)
    if sum(it.text == "?" for it in found) != len(left):
        raise Refused("Parameters", statement=query, place=Place(0),
                      sentence=f"the statement has {sum(it.text == '?' for it in found)} places for parameters, and {len(left)} were given")
    for token in found:
        try:
            parts.append(_literal(left.pop(0), words[-3:] == ["AS", "OF", "TIME"]) if token.text == "?" else token.text)
        except Refused as refused:
            refused.statement, refused.place = query, Place(token.start)
            raise
        words += [] if token.kind == "blank" else [token.text]
    return "".join(parts)


def _one(text: str) -> Statement:
    """The one statement of a text. Raises Refused where there is none, or another one after it, or a text without an end."""
    found = statements_of(text)
    if len(found) != 1 or any(is_open(it) for it in tokens(text)):
        raise Refused("OneStatement", statement=text, place=Place(0), sentence="one statement is wanted here")
    return found[0]


def _name(text: str) -> str:
    """A name of the language; anything else would be read as more than a name. Raises Refused."""
    found = tokens(text)
    if len(found) != 1 or found[0].kind != "name":
        raise Refused("NoName", statement=text, place=Place(0), sentence=f"{text!r} is no name of a table or a column")
    return text
