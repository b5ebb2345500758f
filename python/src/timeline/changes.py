"""What changed: the history of a key, and the difference of a table between two versions or days.

Both stand on the listing of all rows that a table ever had, which is read once; what is shown is an Answer. What FORGET gave up is
never shown: a row that ended by then is left out, and one that stood then begins there."""
from __future__ import annotations

import csv
import io
from typing import Iterable, Iterator, NamedTuple, Sequence

from . import days, kinds, notes
from .answers import Answer, csv_line
from .asking import add_forms, form_of
from .errors import Refused, UsageError
from .kinds import INT, TEXT, Kind
from .listing import Column, columns_of, rows_of
from .replies import Rows

TYPE_CHECKING = False
if TYPE_CHECKING:
    from .cli import Call
    from .journal import Journal

Cells = Sequence[str]
FRONT = 3            # of a listed row: id, from, to


class Table(NamedTuple):
    """A table as it is listed: its columns with their kinds, the period's first where it has one, the key's place in them, and the
    first version that may be asked."""

    name: str
    names: tuple[str, ...]
    kinds: tuple[Kind, ...]
    key: int
    periods: int         # 2 where the table has valid time, else 0
    floor: int


class Row(NamedTuple):
    """A row that a table had: the versions from which and before which it stood, 0 for one that stands, and its cells."""

    begin: int
    end: int
    cells: tuple[str, ...]

    def stood_at(self, version: int) -> bool:
        """Whether it was there at a version."""
        return self.begin <= version and (not self.end or version < self.end)


def table_of(journal: Journal, name: str, catalog: kinds.Catalog) -> Table:
    """A table of the journal. Raises Refused where no table has the name."""
    columns: Sequence[Column] = columns_of(journal, name)
    if not columns:
        raise Refused("UnknownTable", sentence=f"no table is called {name}")
    period = catalog.of(name, kinds.PERIOD) or INT
    front = [("valid_from", period), ("valid_to", period)] if columns[0].is_valid else []
    found = [(it.name, catalog.of(name, it.name) or (TEXT if it.type == "TEXT" else INT)) for it in columns]
    key = next(at for at, it in enumerate(columns) if it.is_key)
    return Table(name, tuple(it for it, _ in front + found), tuple(it for _, it in front + found), len(front) + key, len(front), columns[0].floor)


def rows_ever(journal: Journal, table: Table) -> Iterator[Row]:
    """All rows that a table had at a version that may be asked, in the order in which they came."""
    lines = io.TextIOWrapper(io.BytesIO(journal.listing(["rows", table.name])), encoding="utf-8", newline="")
    records = csv.reader(lines, strict=True)
    next(records)
    for record in records:
        end = int(record[2] or 0)
        if not end or end > table.floor:
            yield Row(max(int(record[1]), table.floor), end, tuple(record[FRONT:]))


class Times:
    """The moments of a journal's versions, where they are seconds: which version stood on a day, and when a version was made."""

    def __init__(self, journal: Journal, has_seconds: bool) -> None:
        self.has_seconds = has_seconds
        rows = rows_of(journal.listing(["log"]))
        at = rows[0].index("moment")
        self.stated = [(int(row[0]), int(row[at])) for row in rows[1:] if row[at]]
        self.last = len(rows) - 1

    def version(self, text: str) -> int:
        """The version that a word means: a number, or a day or a time. Raises UsageError for another word, Refused for a version
        to come, and for a day where the moments are no seconds."""
        if text.isascii() and text.isdigit() and len(text) < 9:
            if int(text) > self.last:
                raise Refused("VersionAhead", (int(text), self.last), sentence=f"there are {self.last} versions, and {text} is none of them")
            return int(text)
        try:
            moment = days.moment_of("DAY" if len(text) == 10 else "TIME", text)
        except ValueError:
            raise UsageError(f"{text} is no version, and no day or time as 2026-03-31 or 2026-03-31T12:00") from None
        if not self.has_seconds:
            raise Refused("NoSeconds", sentence="nobody has said that the moments of this journal are seconds")
        return next((version - 1 for version, stated in self.stated if stated > moment), self.last)

    def shown(self, version: int) -> str:
        """When a version was made, in the machine's time zone, as the last second that was stated by then; empty where none was, or
        they are no seconds."""
        if not self.has_seconds or not version:
            return ""
        from bisect import bisect_right

        at = bisect_right(self.stated, (version, 1 << 63))
        return days.shown(self.stated[at - 1][1]) if at else ""


def answer_of(names: Sequence[str], found: Sequence[Kind], rows: Iterable[Sequence[str | None]], version: int) -> Answer:
    """An Answer with these rows of the engine's cells, None where nothing is there."""
    taken = list(rows)
    absent = {(at, column) for at, row in enumerate(taken) for column, cell in enumerate(row) if cell is None}
    raw = "".join(csv_line([cell or "" for cell in row]) for row in taken).encode("utf-8")
    return Answer(Rows("", version, len(taken), tuple(names), raw), found, absent)


def key_cell(table: Table, key: str) -> str:
    """The engine's cell of a key as people write it. Raises Refused where it is none."""
    try:
        return table.kinds[table.key].cell(key)
    except kinds.KindFault as fault:
        raise Refused(fault.name, sentence=f"{table.names[table.key]} is {table.kinds[table.key]}, and {key} is none", advice=fault.advice) from None


def history(journal: Journal, name: str, key: str) -> Answer:
    """All rows that a key ever had: from which version up to which, when that was where moments are seconds, who made it and why."""
    look = journal.look()
    catalog, made = notes.catalog_of(look), notes.notes_of(look)
    table = table_of(journal, name, catalog)
    times, wanted = Times(journal, catalog.has_seconds), key_cell(table, key)
    when = [("from_time", TEXT), ("to_time", TEXT)] if times.has_seconds else []
    who = [("who", TEXT), ("why", TEXT)] if made else []
    rows = []
    for row in rows_ever(journal, table):
        if row.cells[table.key] == wanted:
            cells: list[str | None] = [str(row.begin), str(row.end) if row.end else None]
            cells += [times.shown(row.begin) or None, times.shown(row.end) or None] if when else []
            rows.append([*cells, *row.cells, *(made.get(row.begin, ("", ""))[:2] if made else ())])
    columns = [("from", INT), ("to", INT), *when, *zip(table.names, table.kinds), *who]
    return answer_of([it for it, _ in columns], [it for _, it in columns], rows, times.last)


def diff(journal: Journal, name: str, old: str, new: str) -> Answer:
    """What a table has at one version or day and not at another: rows that are new, changed with old and new cells, or gone."""
    catalog = notes.catalog_of(journal.look())
    table = table_of(journal, name, catalog)
    times = Times(journal, catalog.has_seconds)
    first, second = times.version(old), times.version(new)
    if min(first, second) < table.floor:
        raise Refused("Forgotten", (min(first, second), table.floor), sentence=f"what {name} was before version {table.floor} was given up by FORGET")
    before: dict[Cells, Cells] = {}
    after: dict[Cells, Cells] = {}
    for row in rows_ever(journal, table):
        if row.stood_at(first):
            before[_identity(table, row.cells)] = row.cells
        if row.stood_at(second):
            after[_identity(table, row.cells)] = row.cells
    shown = [at for at in range(len(table.names)) if at != table.key and at >= table.periods]
    front = [*range(table.periods), table.key]
    names = ["what", *(table.names[at] for at in front)]
    names += [f"{table.names[at]}_{side}" for at in shown for side in ("old", "new")]
    found = [TEXT, *(table.kinds[at] for at in front), *(table.kinds[at] for at in shown for _ in range(2))]
    return answer_of(names, found, _differences(before, after, front, shown), second)


def _identity(table: Table, cells: Cells) -> Cells:
    """What tells which row another one follows: its key, and in a table with valid time its period."""
    return (*cells[:table.periods], cells[table.key])


def _differences(before: dict[Cells, Cells], after: dict[Cells, Cells], front: Sequence[int], shown: Sequence[int]) -> Iterator[list[str | None]]:
    for identity, old in before.items():
        new = after.get(identity)
        if new != old:
            yield _line("gone" if new is None else "changed", old, new, front, shown)
    for identity, new in after.items():
        if identity not in before:
            yield _line("new", None, new, front, shown)


def _line(what: str, old: Cells | None, new: Cells | None, front: Sequence[int], shown: Sequence[int]) -> list[str | None]:
    one = old or new or ()
    pairs = [cells[at] if cells else None for at in shown for cells in (old, new)]
    return [what, *(one[at] for at in front), *pairs]


def history_command(call: Call) -> int:
    """Prints the history of a key."""
    parser = call.parser()
    parser.add_argument("table")
    parser.add_argument("key")
    add_forms(parser)
    given = parser.parse_args(call.words)
    getattr(history(call.journal(), given.table, given.key), f"write_{form_of(call, given)}")(call.console)
    return 0


def _bare_points(words: Sequence[str]) -> list[str]:
    """The words of diff, where DAY before a day and TIME before a time, as a query has them, are left out."""
    sizes = {"DAY": (10,), "TIME": (16, 19)}
    return [word for word, after in zip(words, [*words[1:], ""]) if len(after) not in sizes.get(word.upper(), ())]


def diff_command(call: Call) -> int:
    """Prints the difference of a table between two versions or days: `diff t FROM a TO b`, also `FROM DAY d TO DAY e`."""
    parser = call.parser()
    parser.add_argument("words", nargs="*")
    add_forms(parser)
    given = parser.parse_args(call.words)
    words = _bare_points(given.words)
    if len(words) != 5 or (words[1].upper(), words[3].upper()) != ("FROM", "TO"):
        raise UsageError("diff wants a table, FROM a version or day, TO another")
    getattr(diff(call.journal(), words[0], words[2], words[4]), f"write_{form_of(call, given)}")(call.console)
    return 0
