"""The whole history for another system: every row that each table ever had, with the versions between which it stood.

Each system is one class with the same calls: its types, how a cell is spelled, and what stands around the rows. A file is
written whole or not at all. Nothing here asks a question: all is read from the listings."""
from __future__ import annotations

import os
from typing import IO, Callable, Iterator, NamedTuple, Protocol, Sequence

from . import cleanup, days, notes
from .changes import Row, Table, Times, rows_ever, table_of
from .errors import DeviceFault, Refused, UsageError
from .kinds import DATE, FOREVER, GREATEST, TIME, Kind
from .listing import tables_of

TYPE_CHECKING = False
if TYPE_CHECKING:
    import sqlite3

    from .cli import Call
    from .journal import Journal

FRONT = ("row_id", "from_version", "to_version")
_EPOCH = 719_163              # the ordinal of 1970-01-01
_AT_ONCE = 10_000


class History(NamedTuple):
    """What is exported: the tables, and of each version the second that was last stated by then."""

    journal: Journal
    tables: list[Table]
    times: Times

    def versions(self) -> Iterator[tuple[int, int | None]]:
        """Each version from 0 on, with its second, None where none was stated by then or moments are no seconds."""
        stated, at, second = self.times.stated, 0, None
        for version in range(self.times.last + 1):
            while at < len(stated) and stated[at][0] <= version:
                second = stated[at][1] if self.times.has_seconds else None
                at += 1
            yield version, second

    def days(self) -> Iterator[tuple[int, int]]:
        """Each day from the first moment to the last, as `AS OF DAY` has it: as days since 1970, with the version of its end."""
        from datetime import date

        if not self.times.has_seconds or not self.times.stated:
            return
        stated, at = self.times.stated, 0
        first, last = (date.fromtimestamp(stated[place][1]).toordinal() for place in (0, -1))
        for day in range(first, last + 1):
            end = days.moment_of("DAY", date.fromordinal(day).isoformat())
            while at < len(stated) and stated[at][1] <= end:
                at += 1
            yield day - _EPOCH, stated[at][0] - 1 if at < len(stated) else self.times.last


def history_of(journal: Journal) -> History:
    """The history of a journal."""
    catalog = notes.catalog_of(journal.look())
    names = list(tables_of(journal))
    return History(journal, [table_of(journal, name, catalog) for name in names], Times(journal, catalog.has_seconds))


def fronts(table: Table) -> list[str]:
    """The names of the columns before a table's own, apart from these."""
    taken = {name.lower() for name in table.names}
    return [name if name not in taken else f"{name}_of_timeline" for name in FRONT]


class Csv:
    """A folder with a file for each table, in the kinds as people read them, and one of the versions."""

    def write(self, history: History, path: str) -> None:
        """Makes the folder, which must not be there."""
        os.mkdir(path)
        for table in history.tables:
            with _text(os.path.join(path, f"{table.name}.csv")) as file:
                file.write(_line([*fronts(table), *table.names]))
                for number, row in enumerate(rows_ever(history.journal, table)):
                    shown = [kind.shown(cell) for kind, cell in zip(table.kinds, row.cells)]
                    file.write(_line([str(number), str(row.begin), str(row.end or ""), *shown]))
        with _text(os.path.join(path, "timeline_versions.csv")) as file:
            file.write("version,made_at\n")
            file.writelines(_line([str(version), "" if second is None else _utc(second)]) for version, second in history.versions())


def _utc(second: int) -> str:
    """A second as a time that says of itself that it is in UTC."""
    return TIME.shown(str(second)) + "Z"


def _text(path: str) -> IO[str]:
    return open(path, "w", encoding="utf-8", newline="")


def _line(cells: Sequence[str]) -> str:
    from .answers import csv_line

    return csv_line(cells)


class Sqlite:
    """A database file of SQLite: a table for each with all its rows, and views of now, of each version and of each day.

    DECIMAL is kept as an integer of its last place, beside which the view has the number; DATE and TIME as ISO texts."""

    def write(self, history: History, path: str) -> None:
        """Makes the file."""
        import sqlite3

        connection = sqlite3.connect(path)
        try:
            self._fill(connection, history)
            connection.commit()
        except sqlite3.Error as error:
            raise DeviceFault(f"the database cannot be written: {error}") from None
        finally:
            connection.close()

    def _fill(self, connection: sqlite3.Connection, history: History) -> None:
        connection.execute("PRAGMA journal_mode = OFF")
        connection.execute("CREATE TABLE timeline_versions (version INTEGER PRIMARY KEY, made_at TEXT)")
        connection.executemany("INSERT INTO timeline_versions VALUES (?, ?)",
                               ((version, None if second is None else _utc(second)) for version, second in history.versions()))
        connection.execute("CREATE TABLE timeline_days (day TEXT PRIMARY KEY, version INTEGER)")
        connection.executemany("INSERT INTO timeline_days VALUES (?, ?)", ((DATE.shown(str(day)), version) for day, version in history.days()))
        for table in history.tables:
            self._table(connection, history, table)

    def _table(self, connection: sqlite3.Connection, history: History, table: Table) -> None:
        number, begin, end = fronts(table)
        columns = [f'"{name}" {"INTEGER" if kind.name in ("INT", "DECIMAL") else "TEXT"}' for name, kind in zip(table.names, table.kinds)]
        connection.execute(f'CREATE TABLE "{table.name}_rows" ({number} INTEGER PRIMARY KEY, {begin} INTEGER NOT NULL, {end} INTEGER, '
                           + ", ".join(columns) + ")")
        marks = ", ".join("?" * (3 + len(columns)))
        connection.executemany(f'INSERT INTO "{table.name}_rows" VALUES ({marks})',
                               ((at, row.begin, row.end or None, *map(self._value, table.kinds, row.cells))
                                for at, row in enumerate(rows_ever(history.journal, table))))
        connection.execute(f'CREATE INDEX "{table.name}_by_version" ON "{table.name}_rows" ({begin}, {end})')
        shown = ", ".join(f'r."{name}" / {10 ** kind.places}.0 AS "{name}"' if kind.name == "DECIMAL" else f'r."{name}"'
                          for name, kind in zip(table.names, table.kinds))
        stands = f"r.{begin} <= v.version AND (r.{end} IS NULL OR v.version < r.{end})"
        for suffix, extra, source, test in [
            ("now", "", "", f"r.{end} IS NULL"), ("as_of", "v.version AS as_of_version, ", ", timeline_versions v", stands),
            ("on", "v.day AS on_day, ", ", timeline_days v", stands),
        ]:
            connection.execute(f'CREATE VIEW "{table.name}_{suffix}" AS SELECT {extra}{shown} FROM "{table.name}_rows" r{source} WHERE {test}')

    def _value(self, kind: Kind, cell: str) -> object:
        if kind.name in ("INT", "DECIMAL"):
            return GREATEST if cell == FOREVER else int(cell)
        return "9999-12-31" if cell == FOREVER else kind.shown(cell)


class Postgresql:
    """A script for psql: a table for each with all its rows, the view t_now, and the functions t_as_of(version) and t_on(day)."""

    def write(self, history: History, path: str) -> None:
        """Writes the script."""
        with _text(path) as file:
            file.write("BEGIN;\nSET client_encoding = 'UTF8';\n")
            file.write("CREATE TABLE timeline_versions (version integer PRIMARY KEY, made_at timestamptz);\nCOPY timeline_versions FROM stdin;\n")
            file.writelines(f"{version}\t{self._second(second)}\n" for version, second in history.versions())
            file.write("\\.\nCREATE TABLE timeline_days (day date PRIMARY KEY, version integer NOT NULL);\nCOPY timeline_days FROM stdin;\n")
            file.writelines(f"{DATE.shown(str(day))}\t{version}\n" for day, version in history.days())
            file.write("\\.\n")
            for table in history.tables:
                self._table(file, history, table)
            file.write("COMMIT;\n")

    def _second(self, second: int | None) -> str:
        return "\\N" if second is None else _utc(second)

    def _table(self, file: IO[str], history: History, table: Table) -> None:
        number, begin, end = fronts(table)
        name, rows = f'"{table.name}"', f'"{table.name}_rows"'
        columns = [f'"{it}" {self._type(kind)} NOT NULL' for it, kind in zip(table.names, table.kinds)]
        file.write(f"CREATE TABLE {rows} ({number} bigint PRIMARY KEY, {begin} integer NOT NULL, {end} integer, {', '.join(columns)});\n")
        file.write(f"COPY {rows} FROM stdin;\n")
        for at, row in enumerate(rows_ever(history.journal, table)):
            file.write("\t".join([str(at), str(row.begin), str(row.end or "\\N"), *self._cells(table, row)]) + "\n")
        file.write(f'\\.\nCREATE INDEX ON {rows} ({begin}, {end});\n')
        own = ", ".join(f'r."{it}"' for it in table.names)
        returned = ", ".join(f'"{it}" {self._type(kind)}' for it, kind in zip(table.names, table.kinds))
        stands = f"r.{begin} <= {{0}} AND (r.{end} IS NULL OR {{0}} < r.{end})"
        file.write(f'CREATE VIEW {name[:-1]}_now" AS SELECT {own} FROM {rows} r WHERE r.{end} IS NULL;\n')
        file.write(f'CREATE FUNCTION {name[:-1]}_as_of"(version integer) RETURNS TABLE ({returned}) LANGUAGE sql STABLE AS '
                   f"$$ SELECT {own} FROM {rows} r WHERE {stands.format('$1')} $$;\n")
        at_day = "(SELECT max(d.version) AS v FROM timeline_days d WHERE d.day <= $1) at_day"
        file.write(f'CREATE FUNCTION {name[:-1]}_on"(day date) RETURNS TABLE ({returned}) LANGUAGE sql STABLE AS '
                   f"$$ SELECT {own} FROM {rows} r, {at_day} WHERE {stands.format('at_day.v')} $$;\n")

    def _type(self, kind: Kind) -> str:
        names = {"INT": "bigint", "TEXT": "text", "DATE": "date", "TIME": "timestamptz"}
        return f"numeric(20, {kind.places})" if kind.name == "DECIMAL" else names[kind.name]

    def _cells(self, table: Table, row: Row) -> Iterator[str]:
        for name, kind, cell in zip(table.names, table.kinds, row.cells):
            if kind.name == "TEXT" and "\0" in cell:
                raise Refused("NoText", sentence=f"{table.name}.{name} has a text with a NUL, which PostgreSQL cannot keep")
            if cell == FOREVER:
                yield str(GREATEST) if kind.name == "INT" else "infinity"
            else:
                yield _escaped(kind.shown(cell)) + ("Z" if kind.name == "TIME" else "")


def _escaped(text: str) -> str:
    """A text as COPY and TabSeparated have it."""
    return text.replace("\\", "\\\\").replace("\t", "\\t").replace("\n", "\\n").replace("\r", "\\r").replace("\0", "\\0")


class Clickhouse:
    """A script for clickhouse-client --multiquery: a table for each with all its rows, in the order of their versions, and the
    views t_now, t_as_of (WHERE as_of_version = v) and t_on (WHERE on_day = d)."""

    def write(self, history: History, path: str) -> None:
        """Writes the script; a row that stands has 4294967295 as its last version."""
        with _text(path) as file:
            file.write("CREATE TABLE timeline_versions (version UInt32, made_at DateTime) ENGINE = MergeTree ORDER BY version;\n")
            self._rows(file, "timeline_versions", ((str(version), str(second or 0)) for version, second in history.versions()))
            file.write("CREATE TABLE timeline_days (day Date, version UInt32) ENGINE = MergeTree ORDER BY day;\n")
            self._rows(file, "timeline_days", ((f"'{DATE.shown(str(day))}'", str(version)) for day, version in history.days()))
            for table in history.tables:
                self._table(file, history, table)

    def _table(self, file: IO[str], history: History, table: Table) -> None:
        number, begin, end = fronts(table)
        rows = f"`{table.name}_rows`"
        columns = [f"`{it}` {self._type(kind)}" for it, kind in zip(table.names, table.kinds)]
        file.write(f"CREATE TABLE {rows} ({number} UInt64, {begin} UInt32, {end} UInt32, {', '.join(columns)}) "
                   f"ENGINE = MergeTree PARTITION BY intDiv({begin}, 100000) ORDER BY ({begin}, {number});\n")
        self._rows(file, rows, ((str(at), str(row.begin), str(row.end or 4_294_967_295), *map(self._value, table.kinds, row.cells))
                                for at, row in enumerate(rows_ever(history.journal, table))))
        own = ", ".join(f"`{it}`" for it in table.names)
        file.write(f"CREATE VIEW `{table.name}_now` AS SELECT {own} FROM {rows} WHERE {end} = 4294967295;\n")
        for suffix, column, source, key in (("as_of", "as_of_version", "timeline_versions", "version"), ("on", "on_day", "timeline_days", "day")):
            picked = f"SELECT {key} AS {column}, version AS at_version FROM {source}"
            file.write(f"CREATE VIEW `{table.name}_{suffix}` AS SELECT {column}, {own} FROM ({picked}) CROSS JOIN {rows} "
                       f"WHERE {begin} <= at_version AND at_version < {end};\n")

    def _rows(self, file: IO[str], name: str, rows: Iterator[Sequence[str]]) -> None:
        held: list[str] = []
        for row in rows:
            held.append("(" + ", ".join(row) + ")")
            if len(held) == _AT_ONCE:
                file.write(f"INSERT INTO {name} VALUES {', '.join(held)};\n")
                held = []
        if held:
            file.write(f"INSERT INTO {name} VALUES {', '.join(held)};\n")

    def _type(self, kind: Kind) -> str:
        names = {"INT": "Int64", "TEXT": "String", "DATE": "Date", "TIME": "DateTime"}
        return f"Decimal(18, {kind.places})" if kind.name == "DECIMAL" else names[kind.name]

    def _value(self, kind: Kind, cell: str) -> str:
        if cell == FOREVER:
            return {"DATE": "'2105-12-31'", "TIME": "'2105-12-31 00:00:00'"}.get(kind.name, str(GREATEST))
        if kind.name == "TEXT":
            return "'" + _escaped(cell).replace("'", "\\'") + "'"
        shown = kind.shown(cell)
        if kind.name in ("DATE", "TIME") and not "1970" <= shown[:4] < "2106":
            raise Refused("NoDate", sentence=f"a column of the kind {kind} has {shown}, and ClickHouse keeps days from 1970 to 2105",
                          advice="export --to postgresql, sqlite or csv keeps it")
        return f"'{shown.replace('T', ' ')}'" if kind.name in ("DATE", "TIME") else shown


class System(Protocol):
    """What is written for a system."""

    def write(self, history: History, path: str) -> None:
        """Writes the history as a path, where nothing is."""


SYSTEMS: dict[str, Callable[[], System]] = {"csv": Csv, "sqlite": Sqlite, "postgresql": Postgresql, "clickhouse": Clickhouse}


def export(call: Call) -> int:
    """Writes the whole history of this folder's journal for another system."""
    parser = call.parser()
    parser.add_argument("--to", required=True, choices=sorted(SYSTEMS))
    parser.add_argument("-o", dest="path", required=True)
    given = parser.parse_args(call.words)
    journal = call.journal()
    cleanup.check_target(given.path, journal.path)
    if os.path.exists(given.path):
        raise UsageError(f"{given.path} is there already")
    history = history_of(journal)
    with cleanup.whole(given.path) as part:
        SYSTEMS[given.to]().write(history, part)
    call.console.say(f"{given.path}: {len(history.tables)} tables, {history.times.last} versions")
    return 0
