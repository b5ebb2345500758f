"""What load, import and sync do: a sheet into a table, as one unit of which all is kept or nothing.

The sheet is read as often as that takes; what is committed is made while the program has the journal's lock. Nothing here
writes to an output; what there is to tell is handed to `say`."""
from __future__ import annotations

import csv
import io
from array import array
from collections import Counter
from itertools import chain, compress
from operator import itemgetter
from typing import Callable, Iterable, Iterator, Mapping, NamedTuple, Sequence

from . import kinds
from .errors import Place, Refused, ScriptFault, TimelineError, UsageError
from .kinds import FOREVER, GREATEST, INT, LEAST, Kind, KindFault
from .listing import columns_of
from .notes import Cause, Outcome, State, Unit, Whole, put_kinds, state_of, transact
from .replies import Rows
from .sheets import (END, MOST_BYTES, MOST_ROWS, PERIOD, Column, Guess, NotRaw, Row, Sheet, checked, chunked, column_names, converted,
                     encoded, from_bytes, lines_from)
from .statements import encode

TYPE_CHECKING = False
if TYPE_CHECKING:
    from .journal import Journal

Say = Callable[[str], None]
Script = Callable[[Unit, bool], Iterator[bytes]]     # with the sheet's own bytes where the second is true
MOST_SYNC = MOST_ROWS         # so many records go by one SYNC; more go by REMOVE and PUT, several versions of one unit
MANY = 10                    # of more rows than these, more than half are not ended unless that is allowed
_SEEN = -1                   # a number that no hash is


class TooLarge(TimelineError):
    """A block cannot hold all records."""


def _quiet(_: str) -> None:
    return


class Shape(NamedTuple):
    """A table: its columns with the engine's types, those of periods too; its key; and whether its rows have periods."""

    columns: Mapping[str, Kind]
    key: str
    is_valid: bool

    @property
    def identity(self) -> list[str]:
        """The columns that tell one row that stands from another."""
        return [self.key, *(PERIOD if self.is_valid else ())]


_UNKNOWN = Shape({}, "", True)      # of a table that nobody was asked about


class Target(NamedTuple):
    """A table, a sheet that is put into it, what the sheet's columns are, and the table's shape."""

    table: str
    sheet: Sheet
    columns: Sequence[Column]
    shape: Shape

    @property
    def names(self) -> list[str]:
        """The names of the sheet's columns."""
        return [column.name for column in self.columns]

    def is_unchanged(self) -> bool:
        """Whether the engine can take all cells as they are spelled."""
        return not any(column.changes for column in self.columns)

    def rows(self) -> Iterator[Row]:
        """The records, with numbers as the engine writes them."""
        return chain.from_iterable(converted(self.sheet, self.columns, spell=True))


def shape_of(journal: Journal, table: str) -> Shape:
    """The shape of a table; Refused where there is none of that name."""
    columns = columns_of(journal, table)
    if not columns:
        raise Refused("UnknownTable", sentence=f"no table is called {table}", advice="import makes one of a sheet.")
    types = {column.name: Kind(column.type) for column in columns}
    period = dict.fromkeys(PERIOD if columns[0].is_valid else (), INT)
    return Shape({**types, **period}, next(column.name for column in columns if column.is_key), bool(period))


def target_of(state: State, table: str, sheet: Sheet, missing: Mapping[str, str] = {}, shape: Shape = _UNKNOWN) -> Target:
    """A sheet for a table that is there: the kinds of its columns are those of the catalog, or else the types that the table's shape
    has. `missing` says by names or headers what stands for empty cells; UsageError where it does so wrongly."""
    names = column_names(sheet.header, shape.is_valid)
    empty = by_name(missing, sheet, names, "--missing")
    found = {name: state.catalog.of(table, name) or shape.columns.get(name) for name in names}
    return Target(table, sheet, [_column(header, name, found[name], empty) for header, name in zip(sheet.header, names)], shape)


def _column(header: str, name: str, kind: Kind | None, missing: Mapping[str, str]) -> Column:
    """A column; UsageError where what stands for an empty cell is none of its kind."""
    column = Column(header, name, kind, missing.get(name))
    try:
        if column.missing is not None and kind is not None:
            kind.cell(column.missing)
    except KindFault as fault:
        raise UsageError(f"--missing {name}={column.missing}: {name} is {kind}. {fault.advice}") from None
    return column


def _name_of(word: str, sheet: Sheet, names: Sequence[str]) -> str | None:
    """The name of the column that a word means: a name, or a header."""
    headers = {from_bytes(header).strip(): name for header, name in zip(sheet.header, names)}
    return word if word in names else headers.get(word.strip())


def by_name(given: Mapping[str, str], sheet: Sheet, names: Sequence[str], option: str) -> dict[str, str]:
    """Options of columns, `name=value`, by the columns' names; they may have been given by their headers."""
    found: dict[str, str] = {}
    for word, value in given.items():
        name = _name_of(word, sheet, names)
        if name is None:
            raise UsageError(f"{option}: no column is called {word}; there are {', '.join(names)}")
        found[name] = value
    return found


# Blocks

def blocks(unit: Unit, statement: str, names: Sequence[str], sheet: Sheet, chunks: Iterable[Sequence[Row]]) -> Iterator[bytes]:
    """A statement with its block of records, as several of them where a block cannot hold all; TooLarge where it is a SYNC then,
    which says all of a table."""
    rows = size = record = 0
    for part in chain.from_iterable(_parts(sheet, chunk, record + 2) for chunk in chunks):
        if not record or rows + part.records > MOST_ROWS or size + len(part.text) > MOST_BYTES:
            if record and statement.startswith("SYNC"):
                raise TooLarge
            if record:
                yield Whole(END + b"GO\n")
            yield unit.begin(statement, records=record) + encoded([names])
            rows = size = 0
        yield part.text
        rows, size, record = rows + part.records, size + len(part.text), record + part.records
    if not record:
        yield unit.begin(statement) + encoded([names])
    yield Whole(END)


class _Part(NamedTuple):
    records: int
    text: bytes


def _parts(sheet: Sheet, chunk: Sequence[Row], record: int) -> Iterator[_Part]:
    """Records, the first of which has a number, as CSV, in parts that are small beside a block."""
    text, half = checked(sheet, chunk, record), len(chunk) // 2
    if not half or len(text) < MOST_BYTES >> 3:
        yield _Part(len(chunk), text)
    else:
        yield from _parts(sheet, chunk[:half], record)
        yield from _parts(sheet, chunk[half:], record + half)


def put_sheet(unit: Unit, target: Target, raw: bool, word: str = "PUT") -> Iterator[bytes]:
    """The script that puts a sheet: its own bytes where nothing has to change, NotRaw where these cannot be sent."""
    statement = f"{word} {target.table}"
    if raw and target.is_unchanged():
        yield unit.begin(statement)
        yield from target.sheet.raw(target.names)
        yield Whole(END)
    else:
        yield from blocks(unit, statement, target.names, target.sheet, converted(target.sheet, target.columns))


def transact_sheet(journal: Journal, session: str, script: Script, cause: Cause, say: Say,
                   check: Callable[[], None] = lambda: None) -> Outcome:
    """Runs a unit with a sheet's own bytes, or, where these cannot be sent or are more than a block, after a `check`, with its cells
    spelled anew. Raises as `notes.transact` does."""
    try:
        return transact(journal, session, lambda unit: script(unit, True), cause, say)
    except (NotRaw, ScriptFault):
        pass
    except Refused as refused:
        if refused.kind != "BatchTooLong":
            raise
    check()
    return transact(journal, session, lambda unit: script(unit, False), cause, say)


def _told(outcome: Outcome, puts: int, say: Say) -> Outcome:
    """What came of a unit with so many blocks of a sheet, once it is said that these are several."""
    if puts > 1:
        say(f"more than a block can hold: {puts} versions, which are kept together")
    return outcome


def refuse_second(target: Target) -> None:
    """Raises Refused where two records have one key, and periods that overlap where the table has them. Of a key that stands once
    eight bytes are kept in memory."""
    at, *period = map(target.names.index, target.shape.identity)
    buckets = [array("q") for _ in range(256)]
    for row in target.rows():
        number = hash(row[at])
        buckets[number & 255].append(number)
    twice = {number for bucket in buckets if len(set(bucket)) < len(bucket) for number, count in Counter(bucket).items() if count > 1}
    spans = []
    for record, row in enumerate(target.rows() if twice else (), 2):
        if hash(row[at]) in twice:
            first, last = [row[place] for place in period] or [str(LEAST), FOREVER]
            spans.append((row[at], int(first), GREATEST if last == FOREVER else int(last), record))
    spans.sort()
    found = [sorted((one[3], other[3])) for one, other in zip(spans, spans[1:]) if one[0] == other[0] and other[1] < one[2]]
    if found:
        earlier, record = min(found, key=itemgetter(1))
        sentence = f"its key stands in record {earlier}" + (" for a period that overlaps" if period else "")
        raise target.sheet.refused("KeyTwice", record, None, sentence)


# load

def load(journal: Journal, table: str, sheet: Sheet, cause: Cause = Cause(), missing: Mapping[str, str] = {}, say: Say = _quiet) -> Outcome:
    """Puts the records of a sheet into a table. Raises Refused where one is refused; then nothing is kept."""
    try:
        names = column_names(sheet.header, True)
    except Refused as refused:
        raise refused.over(journal.version()) from None
    if cause.stamp is False and not (cause.who or cause.why) and sheet.is_plain(names):
        if target_of(state_of(journal.look()), table, sheet, missing).is_unchanged():
            return _load_alone(journal, table, sheet)
    shape = shape_of(journal, table) if set(PERIOD) & set(names) else _UNKNOWN

    def script(unit: Unit, raw: bool) -> Iterator[bytes]:
        """The PUT of the sheet."""
        return put_sheet(unit, target_of(unit.state, table, sheet, missing, shape), raw)

    def check() -> None:
        """Refuses a key that stands twice in a sheet of several blocks."""
        target = target_of(state_of(journal.look()), table, sheet, missing, shape_of(journal, table))
        if not target.shape.is_valid and target.shape.key in target.names:
            refuse_second(target)

    outcome = transact_sheet(journal, "load", script, cause, say, check)
    return _told(outcome, len(outcome.replies), say)


def _load_alone(journal: Journal, table: str, sheet: Sheet) -> Outcome:
    """Hands a sheet to the program's own load, which takes a line that would end a block as a part of its text."""
    before = journal.version()
    try:
        sheet.check_end()
    except Refused as refused:
        raise refused.over(before)
    return Outcome(journal.answers(["load", table], sheet.bytes()), before)


# import

class Reading(NamedTuple):
    """How a sheet is read that a table is made of: whether it has periods, in the columns valid_from and valid_to; and by columns'
    names or headers their kinds, as `{"pay": "DECIMAL(2)"}`, where these are not to be found out, and what stands for empty cells."""

    valid: bool = False
    kinds: Mapping[str, str] = {}
    missing: Mapping[str, str] = {}


class Plan(NamedTuple):
    """The table that is made of a sheet, the kind of its periods where it has any, and how many records the sheet has."""

    target: Target
    period: Kind | None
    records: int

    @property
    def cells(self) -> list[Column]:
        """The columns but those of the period."""
        return [column for column in self.target.columns if self.period is None or column.name not in PERIOD]

    def create(self, stored: bool) -> str:
        """The CREATE TABLE, with the kinds as people say them or with the engine's types."""
        columns = ", ".join(f"{it.name} {(it.kind or kinds.TEXT).stored if stored else it.kind}" for it in self.cells)
        valid = "" if self.period is None else " VALID" if stored or self.period == INT else f" VALID {self.period}"
        return f"CREATE TABLE {self.target.table} ({columns}) KEY {self.target.shape.key}{valid}"

    def places(self) -> list[tuple[str, str]]:
        """The rows of the catalog."""
        found = [*((it.name, it.kind) for it in self.cells), (kinds.PERIOD, self.period)]
        return [(f"{self.target.table}.{name}", str(kind)) for name, kind in found if kind is not None and not kind.is_plain]


def plan(table: str, sheet: Sheet, key: str, reading: Reading = Reading(), say: Say = _quiet) -> Plan:
    """What `import` makes of a sheet. Raises UsageError for what fits no column, Refused for a sheet that can be no table."""
    is_valid = reading.valid
    names = column_names(sheet.header, is_valid)
    wanted = {name: _kind(name, word) for name, word in by_name(reading.kinds, sheet, names, "--kind").items()}
    empty = by_name(reading.missing, sheet, names, "--missing")
    shape = Shape({}, _key(key, sheet, names), is_valid)
    _check_names(sheet, names, is_valid)
    _tell_names(sheet, names, say)
    guesses = {name: Guess(is_end=is_valid and name == "valid_to") for name in names if name not in wanted}
    records = 0
    for chunk in sheet.chunks():
        for name, cells in zip(names, zip(*chunk)):
            if name in guesses:
                guesses[name].take(cells, records + 2)
        records += len(chunk)
    found = {name: wanted.get(name) or _guessed(name, guesses[name], empty, sheet, say) for name in names}
    columns = [_column(header, name, found[name], empty) for header, name in zip(sheet.header, names)]
    if not is_valid:
        return Plan(Target(table, sheet, columns, shape), None, records)
    period = found["valid_from"] if found["valid_from"].name in ("DATE", "TIME") else INT
    columns = [column._replace(kind=period) if column.name in PERIOD else column for column in columns]
    return Plan(Target(table, sheet, columns, shape), period, records)


def _kind(name: str, word: str) -> Kind:
    try:
        return kinds.parse(word)
    except KindFault as fault:
        raise UsageError(f"--kind {name}={word}: {fault.advice}") from None


def _key(key: str, sheet: Sheet, names: Sequence[str]) -> str:
    name = _name_of(key, sheet, names)
    if name is None:
        has_semicolon = any(";" in header for header in sheet.header)
        advice = "Semicolons stand in the header: where they part the fields, save the sheet with commas." if has_semicolon else ""
        raise Refused("UnknownColumn", sentence=f"no column is called {key}, which is to be the key; there are {', '.join(names)}", advice=advice)
    return name


def _check_names(sheet: Sheet, names: Sequence[str], is_valid: bool) -> None:
    """Raises Refused for a header that no table can have."""
    if not names:
        raise sheet.refused("HeaderMissing", 1, None, "the file has no header")
    _refuse_twice(sheet, names)
    cells = [name for name in names if not (is_valid and name in PERIOD)]
    if len(cells) > 16:
        raise sheet.refused("Unexpected", 1, 17, f"there are {len(cells)} columns, and a table has at most 16")
    if is_valid and len(names) - len(cells) != 2:
        raise sheet.refused("HeaderMissing", 1, None, "with --valid the header names valid_from and valid_to")


def _refuse_twice(sheet: Sheet, names: Sequence[str]) -> None:
    """Raises Refused where two columns have one name."""
    for at, name in enumerate(names):
        if name in names[:at]:
            raise sheet.refused("HeaderTwice", 1, at + 1, f"two columns are called {name}")


def _tell_names(sheet: Sheet, names: Sequence[str], say: Say) -> None:
    """Says which headers became other names, and what parts the fields where that is no comma."""
    changed = [f"{header!r} to {name}" for header, name in zip(map(from_bytes, sheet.header), names) if header != name]
    if changed:
        say("headers were turned into names: " + ", ".join(changed))
    if sheet.delimiter != ",":
        say(f"the fields of {sheet.name} are parted by {'tabs' if sheet.delimiter == chr(9) else 'semicolons'}")


def _guessed(name: str, guess: Guess, missing: Mapping[str, str], sheet: Sheet, say: Say) -> Kind:
    """The kind that a column gets; where that is TEXT, and its cells do not look so, it is said why."""
    kind = kinds.TEXT if guess.has_empty and name not in missing and name not in PERIOD else guess.kind
    advice = guess.advice(name, sheet.line_of) if kind == kinds.TEXT else ""
    if advice:
        say(advice)
    return kind


def import_sheet(journal: Journal, made: Plan, cause: Cause = Cause(), say: Say = _quiet) -> Outcome:
    """Makes the table of a plan and puts the sheet into it, all in one unit. Raises Refused where anything of it is refused."""
    is_parted = made.records > MOST_ROWS
    if is_parted and made.period is None:
        refuse_second(made.target)

    def script(unit: Unit, raw: bool) -> Iterator[bytes]:
        """The rows of the catalog, the CREATE and the PUT."""
        if made.places():
            yield put_kinds(unit, made.places())
        yield Whole(unit.begin(made.create(stored=True)))
        yield from put_sheet(unit, made.target, raw and not is_parted)

    outcome = transact_sheet(journal, "import", script, cause, say)
    return _told(outcome, len(outcome.replies) - 1, say)


# sync

class Difference(NamedTuple):
    """What a sheet says other than a table at a version: how many records are new, changed, and the same; which rows are gone,
    by their keys, and periods where they have any; how many rows the table has; and which records are to be put."""

    version: int
    new: int
    changed: int
    same: int
    gone: list[tuple[str, ...]]
    rows: int
    puts: bytearray


class _Stale(TimelineError):
    """The journal has gone on since the sheet was compared."""


class Syncing(NamedTuple):
    """What a sync may do: whether it keeps the rows that the sheet does not have, whether it may end more than half of the rows,
    whether it is only worked out, and by columns' names what stands for empty cells."""

    keep: bool = False
    allow_removals: bool = False
    dry_run: bool = False
    missing: Mapping[str, str] = {}


class Synced(NamedTuple):
    """What came of a sync: the difference, and the replies; None where nothing was to be done, or was only to be told."""

    difference: Difference
    outcome: Outcome | None


def sync(journal: Journal, table: str, sheet: Sheet, cause: Cause = Cause(), options: Syncing = Syncing(), say: Say = _quiet) -> Synced:
    """Brings a table to what a sheet says: rows that it does not have are ended, unless they are kept. Raises Refused where the sheet
    is refused, and where more than half of the rows would be ended and that is not allowed."""
    shape = shape_of(journal, table)
    _check_header(sheet, column_names(sheet.header, shape.is_valid), shape)
    while True:
        target = target_of(state_of(journal.look()), table, sheet, options.missing, shape)
        difference = compare(journal, target)
        if options.keep:
            difference = difference._replace(gone=[])
        try:
            if not options.allow_removals:
                _refuse_removals(table, difference)
        except Refused as refused:
            if not options.dry_run:
                raise
            say(f"the sync itself would be refused: {refused}")
        if options.dry_run or not (difference.new or difference.changed or difference.gone):
            return Synced(difference, None)
        try:
            is_whole = not options.keep and len(difference.puts) <= MOST_SYNC
            return Synced(difference, _commit(journal, target, difference, is_whole, cause, say))
        except _Stale:
            continue


def _check_header(sheet: Sheet, names: Sequence[str], shape: Shape) -> None:
    """Raises Refused where a header is not the table's."""
    for at, name in enumerate(names):
        if name not in shape.columns:
            has = ", ".join(shape.columns)
            raise sheet.refused("HeaderName", 1, at + 1, f"{from_bytes(sheet.header[at])!r} is no column of the table; it has {has}")
    _refuse_twice(sheet, names)
    left_out = next((name for name in shape.columns if name not in names), None)
    if left_out is not None:
        raise sheet.refused("HeaderMissing", 1, None, f"the header leaves out {left_out}")


def _refuse_removals(table: str, difference: Difference) -> None:
    gone = len(difference.gone)
    if difference.rows > MANY and 2 * gone > difference.rows:
        raise Refused("ManyRemovals", (gone, difference.rows), sentence=f"the sheet would end {gone} of the {difference.rows} rows of {table}: "
                      "nothing was changed", advice="Is the file whole? Where it is meant so, --allow-removals does it.")


def compare(journal: Journal, target: Target) -> Difference:
    """What a sheet says other than a table now. Of each row that stands its key is kept in memory, and a number for all of it.

    Raises Refused where a cell is none of its kind, or a key, or one for one period, stands twice."""
    (reply,) = journal.look().ask([encode(f"SELECT * FROM {target.table}")])
    if not isinstance(reply, Rows):
        raise Refused("UnknownTable", sentence=str(reply))
    identity = itemgetter(*map(reply.names.index, target.shape.identity))
    with lines_from(io.BytesIO(reply.raw), 0) as lines:
        standing: dict[object, int] = {identity(cells): hash(tuple(cells)) for cells in csv.reader(lines)}
    places = list(map(target.names.index, reply.names))
    picked = map(itemgetter(*places), target.rows()) if len(places) > 1 else (tuple(row) for row in target.rows())
    new = changed = same = 0
    puts = bytearray()
    for row in picked:
        key = identity(row)
        was, now = standing.get(key), hash(row)
        if was == _SEEN:
            raise target.sheet.refused("KeyTwice", len(puts) + 2, None, "its key, or its key and period, stood in an earlier record")
        new, changed, same = new + (was is None), changed + (was is not None and was != now), same + (was == now)
        puts.append(was != now)
        standing[key] = _SEEN
    gone = [key if isinstance(key, tuple) else (str(key),) for key, was in standing.items() if was != _SEEN]
    return Difference(reply.version, new, changed, same, gone, reply.count, puts)


def _commit(journal: Journal, target: Target, difference: Difference, is_whole: bool, cause: Cause, say: Say) -> Outcome:
    """Commits a difference: by SYNC where the sheet says all of the table and a block holds it, or else by its parts."""

    def script(unit: Unit, raw: bool) -> Iterator[bytes]:
        """The statements, where the journal is still the one that was compared."""
        if unit.state.version != difference.version:
            raise _Stale
        return put_sheet(unit, target, raw, "SYNC") if is_whole else parts_script(unit, target, difference)

    if not is_whole and target.shape.is_valid:
        refuse_second(target)
    try:
        return transact_sheet(journal, "sync", script, cause, say)
    except (TooLarge, ScriptFault):
        if not is_whole:
            raise
    except Refused as refused:
        if not is_whole and refused.place is not None and (refused.place.record or 0) > 1:
            put = list(compress(range(len(difference.puts)), difference.puts))
            record = put[(refused.place.record or 2) - 2] + 2
            refused.place, refused.numbers = Place(None, record, refused.place.field), (record, *refused.numbers[1:])
        if not is_whole or refused.kind != "EndOfBlock":
            raise
    return _commit(journal, target, difference, False, cause, say)


def parts_script(unit: Unit, target: Target, difference: Difference) -> Iterator[bytes]:
    """The statements that bring a table to what a sheet says where no one block can: REMOVE what is gone, and PUT what is new or
    changed."""
    if difference.gone:
        yield from blocks(unit, f"REMOVE {target.table}", target.shape.identity, target.sheet, chunked(difference.gone))
        yield Whole(b"GO\n")
    if difference.new or difference.changed:
        wanted = compress(target.rows(), difference.puts)
        yield from blocks(unit, f"PUT {target.table}", target.names, target.sheet, chunked(wanted))
