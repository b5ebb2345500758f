"""The commands log, tables and rows: what the journal of this folder has, as the program that lists gives it."""
from __future__ import annotations

from typing import List, NamedTuple, Tuple

Listing = List[Tuple[str, ...]]    # the rows of a listing, its header first

TYPE_CHECKING = False
if TYPE_CHECKING:
    from .cli import Call
    from .journal import Journal


class Column(NamedTuple):
    """A column of a table: its name, INT or TEXT, and whether it is the key; and of its table how many rows stand, the first
    version that may be asked, and whether it has valid time."""

    name: str
    type: str
    is_key: bool
    is_valid: bool
    open: int
    floor: int


def rows_of(listing: bytes) -> Listing:
    """The records of a listing, its header first."""
    import csv
    import io

    return [tuple(row) for row in csv.reader(io.StringIO(listing.decode("utf-8", "replace"), newline=""))]


def tables_of(journal: Journal) -> dict[str, list[Column]]:
    """The columns of each table."""
    found: dict[str, list[Column]] = {}
    for row in rows_of(journal.listing(["tables"]))[1:]:
        found.setdefault(row[0], []).append(Column(row[1], row[2], row[3] == "yes", row[7] == "yes", int(row[4]), int(row[8])))
    return found


def columns_of(journal: Journal, table: str) -> list[Column]:
    """The columns of a table; none where no table has this name."""
    return tables_of(journal).get(table, [])


def log(call: Call) -> int:
    """Lists the commits: what was done, and when, who did it and why where the journal says so."""
    from . import notes

    parser = call.parser()
    parser.add_argument("--csv", action="store_true")
    parser.add_argument("--times", action="store_true")
    parser.add_argument("--between", nargs=2, metavar="DAY")
    given = parser.parse_args(call.words)
    journal = call.journal()
    listing = journal.listing(["log"])
    look = journal.look()
    is_timed, found = notes.catalog_of(look).has_seconds, notes.notes_of(look)
    if given.csv and not (given.times or given.between or is_timed or found):
        return _write(call, listing)
    rows = notes.told(rows_of(listing), is_timed, found)
    if given.between:
        rows = notes.between(rows, is_timed, *given.between)
    if given.times and not is_timed:
        call.console.say("nobody has said that the moments of this journal are seconds: they are shown as numbers")
    if is_timed and (given.times or not given.csv):
        rows = notes.with_times(rows)
    return _write_rows(call, rows, given.csv)


def shown_log(journal: Journal) -> Listing:
    """The commits as log shows them without an option."""
    from . import notes

    look = journal.look()
    is_timed = notes.catalog_of(look).has_seconds
    found = notes.told(rows_of(journal.listing(["log"])), is_timed, notes.notes_of(look))
    return notes.with_times(found) if is_timed else found


def shown_tables(journal: Journal, table: str = "") -> Listing:
    """The columns of a table, or of all, each with its kind as its type where it has one."""
    from .notes import catalog_of

    listed, catalog = rows_of(journal.listing(["tables"])), catalog_of(journal.look())
    at = listed[0].index("type")
    return [listed[0], *((*row[:at], str(catalog.of(row[0], row[1]) or row[at]), *row[at + 1:])
                         for row in listed[1:] if table in ("", row[0]))]


def shown_rows(journal: Journal, table: str) -> Listing:
    """Every row that a table ever had, its cells as people read them."""
    from .changes import FRONT, table_of
    from .kinds import Memo
    from .notes import catalog_of

    listed = rows_of(journal.listing(["rows", table]))
    memos = [Memo(kind.shown) for kind in table_of(journal, table, catalog_of(journal.look())).kinds]
    return [listed[0], *((*row[:FRONT], *(memo[cell] for memo, cell in zip(memos, row[FRONT:]))) for row in listed[1:])]


def rows(call: Call) -> int:
    """Lists every row that a table ever had, with the versions from which and up to which it stood; with --csv as the engine keeps it."""
    parser = call.parser()
    parser.add_argument("table")
    parser.add_argument("--csv", action="store_true")
    given, journal = parser.parse_args(call.words), call.journal()
    if given.csv:
        return _write(call, journal.listing(["rows", given.table]))
    return _write_rows(call, shown_rows(journal, given.table), False)


def tables(call: Call) -> int:
    """Lists the tables; with --csv as the engine keeps them."""
    parser = call.parser()
    parser.add_argument("--csv", action="store_true")
    given, journal = parser.parse_args(call.words), call.journal()
    if given.csv:
        return _write(call, journal.listing(["tables"]))
    return _write_rows(call, shown_tables(journal), False)


def _write(call: Call, listing: bytes) -> int:
    call.console.write(listing)
    return 0


def _write_rows(call: Call, rows: Listing, as_csv: bool) -> int:
    from .answers import csv_line, write_table

    if as_csv:
        call.console.write("".join(map(csv_line, rows)).encode("utf-8"))
    else:
        write_table(rows, call.console)
    return 0
