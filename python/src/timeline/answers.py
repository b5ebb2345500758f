"""An answer as people and programs take it: CSV, JSON lines, a table of aligned text, tuples, dicts, pandas.

Writes to what it is given; asks nothing and starts nothing. The rows stay the engine's bytes wherever these will do."""
from __future__ import annotations

import re
from typing import Callable, Container, Iterator, Protocol, Sequence, Tuple, TypeVar

TYPE_CHECKING = False
if TYPE_CHECKING:
    from typing import Any

    from .kinds import Kind
    from .replies import Rows

_QUOTED = re.compile(r'[,"\r\n]')
_PIECE = 1 << 20           # so many characters are written at once
Row = Sequence[str]
Place = Tuple[int, int]      # a row and a column of an answer, both from 0
T = TypeVar("T")


class Output(Protocol):
    """What an answer is written to."""

    def write(self, data: bytes, /) -> object:
        """Takes some bytes."""


class Answer:
    """The rows of an answer over one version of the journal, with the names and the kinds of its columns.

    Iterated it gives the rows as tuples of Python values: int, str, Decimal, date, datetime, and None for an empty number and for
    a period that does not end."""

    def __init__(self, reply: Rows, kinds: Sequence[Kind | None] = (), absent: Container[Place] = ()) -> None:
        """`kinds` has the kind of each column, None where it is INT or TEXT and nobody asked which; `absent` the rows and columns,
        from 0, of cells that are empty since nothing is there: null in JSON, None in Python."""
        self.names, self.version, self.count, self._reply = reply.names, reply.version, reply.count, reply
        self._kinds = tuple(kinds) or (None,) * len(reply.names)
        self._rows: list[tuple[str, ...]] | None = None
        self._absent = absent

    @property
    def kinds(self) -> tuple[Kind, ...]:
        """The kind of each column; TEXT stands for one that nobody asked for."""
        from .kinds import TEXT

        return tuple(kind or TEXT for kind in self._kinds)

    def cells(self) -> list[tuple[str, ...]]:
        """The rows as the engine's cells."""
        if self._rows is None:
            self._rows = self._reply.rows()
        return self._rows

    def texts(self) -> Iterator[Row]:
        """The rows as people read them."""
        shown = [None if kind is None or kind.is_plain else kind.shown for kind in self._kinds]
        if not any(shown):
            return iter(self.cells())
        return ([cell if show is None else show(cell) for show, cell in zip(shown, row)] for row in self.cells())

    def __len__(self) -> int:
        return self.count

    def __iter__(self) -> Iterator[tuple[object, ...]]:
        return map(tuple, self._made([kind.value for kind in self.kinds], None))

    def _made(self, makes: Sequence[Callable[[str], T]], nothing: T) -> Iterator[list[T]]:
        """The rows with what is made of each cell, and `nothing` for one that is absent."""
        rows = ([make(cell) for make, cell in zip(makes, row)] for row in self.cells())
        if not self._absent:
            return rows
        return ([nothing if (at, column) in self._absent else it for column, it in enumerate(row)] for at, row in enumerate(rows))

    def dicts(self) -> Iterator[dict[str, object]]:
        """The rows as dicts; of two columns of one name the second is called `name_2`."""
        names = _unlike(self.names)
        return (dict(zip(names, row)) for row in self)

    def to_pandas(self) -> Any:
        """The rows as a DataFrame of pandas: INT as int64, or Int64 where a number is missing; TIME as UTC, where pandas has all of
        the times; the others as Python's."""
        import pandas  # type: ignore[import]

        frame = pandas.DataFrame(list(self), columns=list(self.names), dtype=object)
        columns = {}
        for at, kind in enumerate(self.kinds):
            column = frame.iloc[:, at]
            if kind.name == "INT" and not column.map(lambda it: isinstance(it, str)).any():
                column = column.astype("Int64" if column.isna().any() else "int64")
            if kind.name == "TIME":
                times = pandas.to_datetime(column, utc=True, errors="coerce")
                column = times if times.isna().equals(column.isna()) else column
            columns[at] = column
        made = pandas.concat(columns, axis=1) if columns else frame
        made.columns = pandas.Index(self.names)
        return made

    def write_csv(self, out: Output) -> None:
        """The names and the rows as CSV, which is the engine's own where nothing in it changes."""
        out.write(csv_line(self.names).encode("utf-8"))
        if any(kind is not None and not kind.is_plain for kind in self._kinds):
            _write_lines(map(csv_line, self.texts()), out)
        else:
            out.write(self._reply.raw)

    def write_json(self, out: Output) -> None:
        """A line with a JSON object for each row: INT and DECIMAL are numbers, null for an empty one and for FOREVER."""
        from json import JSONEncoder

        quote = JSONEncoder(ensure_ascii=False).encode
        names = [quote(name) + ": " for name in _unlike(self.names)]
        spell = [_json_of(kind, quote) for kind in self.kinds]
        _write_lines(("{" + ", ".join(map("".join, zip(names, row))) + "}\n" for row in self._made(spell, "null")), out)

    def write_table(self, out: Output) -> None:
        """The names and the rows laid under each other."""
        write_table([self.names, *self.texts()], out)


def _json_of(kind: Kind, quote: Callable[[str], str]) -> Callable[[str], str]:
    def number(cell: str) -> str:
        """A whole number, or a sum and a count, which stays a text."""
        return "null" if not cell or cell == "FOREVER" else quote(cell) if "/" in cell else cell

    def shown(cell: str) -> str:
        """What people read, as a number where it is one."""
        text = kind.shown(cell)
        return "null" if not text or text == "FOREVER" else quote(text) if kind.name in ("DATE", "TIME") else text

    return quote if kind.name == "TEXT" else number if kind.name == "INT" else shown


def _unlike(names: Sequence[str]) -> list[str]:
    """Names of which no two are the same."""
    made: list[str] = []
    for name in names:
        number, new = 2, name
        while new in made:
            number, new = number + 1, f"{name}_{number}"
        made.append(new)
    return made


def csv_line(row: Row) -> str:
    """A row as the engine writes it: a field in quotes where it needs them."""
    if len(row) == 1 and not row[0]:
        return '""\n'
    text = ",".join(row)
    if text.count(",") != len(row) - 1 or _QUOTED.search(text.replace(",", "")):
        text = ",".join(['"' + cell.replace('"', '""') + '"' if _QUOTED.search(cell) else cell for cell in row])
    return text + "\n"


def _write_lines(lines: Iterator[str], out: Output) -> None:
    """Writes lines in large pieces."""
    parts: list[str] = []
    size = 0
    for line in lines:
        parts.append(line)
        size += len(line)
        if size > _PIECE:
            out.write("".join(parts).encode("utf-8"))
            parts, size = [], 0
    out.write("".join(parts).encode("utf-8"))


def width(text: str) -> int:
    """How many columns of a terminal a text takes."""
    if text.isascii():
        return len(text)
    import unicodedata

    return sum(0 if unicodedata.combining(it) else 2 if unicodedata.east_asian_width(it) in "WF" else 1 for it in text)


def _cell(text: str) -> str:
    """A cell in one line: ends of lines as `\\n`, and `?` for what cannot be shown."""
    if text.isprintable():
        return text
    text = text.replace("\r\n", "\\n").replace("\n", "\\n")
    return "".join(it if it.isprintable() else "?" for it in text)


_NUMBER = re.compile(r"|-?[0-9]+(\.[0-9]+|/[0-9]+)?|FOREVER")


def write_table(rows: Sequence[Row], out: Output) -> None:
    """Writes a first row of names, and rows, laid under each other; columns of numbers stand to the right."""
    cells = [[_cell(it) for it in row] for row in rows]
    count = len(cells[0])
    wide = [max(width(row[at]) for row in cells) for at in range(count)]
    right = [all(_NUMBER.fullmatch(row[at]) for row in cells[1:]) for at in range(count)]
    _write_lines((_laid(row, wide, right) for row in cells), out)


def _laid(row: Row, wide: Sequence[int], right: Sequence[bool]) -> str:
    gaps = [" " * (size - width(cell)) for size, cell in zip(wide, row)]
    return "  ".join(gap + cell if is_right else cell + gap for gap, cell, is_right in zip(gaps, row, right)).rstrip() + "\n"
