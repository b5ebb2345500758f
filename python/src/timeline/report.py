"""A report: one HTML file that shows the tables at any version or day, what changed, who did it and why, totals and the seal.

The page with its looks and its script is report.html; here what it shows is read, bounded, and put into it, as JSON that no text
can end. All of it is of the version that the seal names, whatever is written meanwhile. Nothing here writes to an output."""
from __future__ import annotations

import json
import os
from collections import Counter
from typing import Iterator, NamedTuple, Sequence

from . import cleanup, days, notes, sealing
from .changes import Row, Table, Times, rows_ever, table_of
from .errors import Refused
from .export import History
from .kinds import DATE, FOREVER, Catalog, Kind, Memo
from .listing import rows_of, tables_of
from .queries import ask_look
from .statements import Statement

TYPE_CHECKING = False
if TYPE_CHECKING:
    from .cli import Call
    from .journal import Journal

MOST_ROWS = 100_000         # row versions of a report, and so many commits of its log
MOST_RUNS = 200_000         # of all totals together
_OWN = "timeline_"          # the names of the front's own tables begin so
_LOG = ("version", "when", "moment", "table", "what", "closed", "opened", "floor", "who", "why", "source")
_ESCAPES = {ord(it): f"\\u{ord(it):04x}" for it in "<>&\u2028\u2029"}


class Extent(NamedTuple):
    """The versions that a report is of: from `first`, before which row versions are left out, to `last`."""

    first: int
    last: int

    def clipped(self, row: Row) -> Row | None:
        """A row as it was known at the last version; None where it did not stand at any of these versions."""
        end = row.end if row.end <= self.last else 0
        return None if row.begin > self.last or end and end <= self.first else row._replace(end=end)


class Source(NamedTuple):
    """What a report is read from: a journal, its kinds and moments, its seal, and its tables with how many rows of each stand."""

    journal: Journal
    catalog: Catalog
    times: Times
    seal: str
    tables: dict[str, tuple[Table, int]]


def source_of(journal: Journal) -> Source:
    """The source of a report. The seal comes first: what is read after it has all commits that it names, and maybe more."""
    seal = sealing.line_of(journal)
    catalog = notes.catalog_of(journal.look())
    names = sorted(tables_of(journal).items(), key=lambda it: it[0].startswith(_OWN))
    tables = {name: (table_of(journal, name, catalog), columns[0].open) for name, columns in names}
    return Source(journal, catalog, Times(journal, catalog.has_seconds), seal, tables)


def page_of(journal: Journal, most: int = MOST_ROWS) -> tuple[str, list[str]]:
    """The page of a report with `most` row versions, and what it leaves out, a sentence each."""
    source = source_of(journal)
    last = int(source.seal[1:].partition(" ")[0])
    shown, left = _fitting(source, most)
    extent = Extent(_first(source, shown, last, most), last)
    if extent.first:
        left.append(f"versions before {extent.first}, since a report has at most {most:,} row versions and commits")
    data: dict[str, object] = {
        "seal": source.seal, "first": extent.first, "last": last, "made": days.shown(_now()), "zone": _zone(),
        "stated": [[version, days.shown(second)] for version, second in source.times.stated if version <= last] if source.catalog.has_seconds else [],
        "days": [[DATE.shown(str(day)), min(version, last)] for day, version in History(journal, [], source.times).days() if version >= extent.first],
        "log": _log(source, extent), "tables": [_table(source, table, extent, table in shown) for table, _ in source.tables.values()],
    }
    left += _add_totals(source, extent, data)
    data["left"] = left
    return _filled(data), left


def _now() -> int:
    import time

    return int(time.time())


def _zone() -> str:
    import time

    return time.strftime("UTC%z")


def _fitting(source: Source, most: int) -> tuple[list[Table], list[str]]:
    """The tables whose rows that stand are few enough together, and what is left out for that: the largest tables."""
    room, shown, left = most, [], []
    for table, count in sorted(source.tables.values(), key=lambda it: it[1]):
        if count <= room:
            room -= count
            shown.append(table)
        else:
            left.append(f"the rows of {table.name}, of which {count:,} stand: a report has at most {most:,} row versions")
    return shown, left


def _first(source: Source, shown: Sequence[Table], last: int, most: int) -> int:
    """The least version from which on the tables have no more row versions than fit, and the log no more commits."""
    extent = Extent(0, last)
    ends: Counter[int] = Counter()
    for table in shown:
        ends.update(row.end for row in map(extent.clipped, rows_ever(source.journal, table)) if row)
    count = ends.pop(0, 0)
    for version in sorted(ends, reverse=True):
        count += ends[version]
        if count > most:
            return max(version, last - most)
    return max(0, last - most)


def _table(source: Source, table: Table, extent: Extent, is_shown: bool) -> dict[str, object]:
    """A table as the page has it: its columns, and its row versions as people read them."""
    found = [row for row in map(extent.clipped, rows_ever(source.journal, table)) if row] if is_shown else []
    memos = [Memo(kind.shown) for kind in table.kinds]
    made: dict[str, object] = {
        "name": table.name, "shown": is_shown, "floor": table.floor, "key": table.key, "periods": table.periods,
        "columns": [[name, str(kind)] for name, kind in zip(table.names, table.kinds)],
        "from": [row.begin for row in found], "to": [row.end for row in found],
        "rows": [[memo[cell] for memo, cell in zip(memos, row.cells)] for row in found],
    }
    if table.periods:      # as texts of whole numbers: a number of JavaScript has 53 bits
        made["valid"] = [[cell if cell != FOREVER else "" for cell in row.cells[:table.periods]] for row in found]
    return made


def _log(source: Source, extent: Extent) -> dict[str, object]:
    """The commits from the first version on, the latest first, with who made them and why."""
    look = source.journal.look()
    rows = notes.told(rows_of(source.journal.listing(["log"])), source.catalog.has_seconds, notes.notes_of(look))
    kept = [rows[0], *(row for row in rows[1:] if extent.first <= int(row[0]) <= extent.last)]
    if source.catalog.has_seconds:
        kept = notes.with_times(kept)
    places = [kept[0].index(name) for name in _LOG if name in kept[0] and not (name == "moment" and "when" in kept[0])]
    return {"names": [kept[0][at] for at in places], "rows": [[row[at] for at in places] for row in kept[:0:-1]]}


def _add_totals(source: Source, extent: Extent, data: dict[str, object]) -> list[str]:
    """Puts into the data the runs of COUNT and of the SUM of each number, as the engine answers them; tells what is left out."""
    wanted = [it for table, _ in source.tables.values() if not table.name.startswith(_OWN) for it in _totals_of(table)]
    answers = ask_look(source.journal.look(), [Statement(query, 0) for _, _, query, _ in wanted]) if wanted else []
    found: list[dict[str, object]] = []
    left, room = [], MOST_RUNS
    for (table, name, _, kind), answer in zip(wanted, answers):
        if isinstance(answer, Refused):
            left.append(f"{name} of {table}: {answer}")
            continue
        runs = list(_runs(answer.cells(), extent, kind))
        if len(runs) > room:
            left.append(f"{name} of {table}, which has {len(runs):,} steps")
            continue
        room -= len(runs)
        found.append({"table": table, "name": name, "runs": runs})
    data["totals"] = found
    return left


def _totals_of(table: Table) -> Iterator[tuple[str, str, str, Kind]]:
    """The totals of a table: its name, theirs, the query for it, and its kind."""
    yield table.name, "COUNT", f"COUNT FROM {table.name} OVER SYSTEM ALL", Kind("INT")
    for at, (name, kind) in enumerate(zip(table.names, table.kinds)):
        if at >= table.periods and at != table.key and kind.name in ("INT", "DECIMAL"):
            yield table.name, f"SUM {name}", f"SUM {name} FROM {table.name} OVER SYSTEM ALL", kind


def _runs(rows: Sequence[Sequence[str]], extent: Extent, kind: Kind) -> Iterator[list[object]]:
    for begin, end, value in rows:
        if int(end) > extent.first and int(begin) <= extent.last:
            yield [max(int(begin), extent.first), min(int(end), extent.last + 1), kind.shown(value)]


def _filled(data: dict[str, object]) -> str:
    """The page with its data, and with a policy that lets nothing run but its own script, and nothing be fetched."""
    import base64
    import hashlib

    with open(os.path.join(os.path.dirname(os.path.abspath(__file__)), "report.html"), encoding="utf-8") as file:
        page = file.read()
    for name in ("script", "style"):
        text = page.partition(f"<{name}>")[2].partition(f"</{name}>")[0]
        page = page.replace(f"@{name}@", base64.b64encode(hashlib.sha256(text.encode("utf-8")).digest()).decode("ascii"), 1)
    front, _, back = page.partition("@data@")
    return front + json.dumps(data, ensure_ascii=False, separators=(",", ":")).translate(_ESCAPES) + back


def report(call: Call) -> int:
    """Writes the report of this folder's journal, and says what it leaves out."""
    parser = call.parser()
    parser.add_argument("-o", dest="path", required=True)
    given = parser.parse_args(call.words)
    journal = call.journal()
    cleanup.check_target(given.path, journal.path)
    page, left = page_of(journal)
    with cleanup.whole(given.path) as part:
        with open(part, "w", encoding="utf-8", newline="") as file:
            file.write(page)
    for sentence in left:
        call.console.say(f"left out: {sentence}")
    return 0
