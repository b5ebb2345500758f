"""CSV files: what is in them, which kinds their columns are, and how they become blocks of statements.

Read by the `csv` module, whose reader parts fields and records as the engine's does, or handed on as raw bytes where
nothing has to change. Fields are kept as Latin-1 texts, one character a byte, so that no encoding is judged here and none
changed. Nothing here asks a journal."""
from __future__ import annotations

import csv
import io
import os
import re
import sys
from collections import Counter, deque
from contextlib import contextmanager
from itertools import chain, islice
from typing import IO, Callable, Iterable, Iterator, NamedTuple, Sequence

from . import kinds
from .errors import DeviceFault, Place, Refused, SourceFault, TimelineError, UsageError
from .kinds import FOREVER, Kind, KindFault, Memo
from .scripts import is_file

PIECE = 1 << 20
CHUNK = 5_000                # so many records are handled at once
MOST_ROWS = 1_000_000        # of a block, as the engine takes it
MOST_BYTES = 48 << 20        # of a block that is made here, of the 64 MiB that a phase has
END = b"\\.\n"
MARK = b"\xef\xbb\xbf"
WIDE_MARKS = (b"\xff\xfe", b"\xfe\xff")     # of UTF-16
KEYWORDS = frozenset("CREATE TABLE KEY VALID INT TEXT PUT REMOVE SELECT FROM WHERE AND OR AS OF AT COUNT SUM AVG MIN MAX BY OVER "
                     "SYSTEM ALL TO JOIN WITH ON FOREVER valid_from valid_to".split())
PERIOD = ("valid_from", "valid_to")
_NAME = re.compile(r"[A-Za-z_][A-Za-z0-9_]{0,63}")
_LAST = "\u0101"             # a record after the last one: where it is part of that, the file ends within quotes
_NUL = "\u0100"              # what stands for a NUL, which the csv module of Python 3.10 refuses
_COMMA = re.compile(r"[-+]?[0-9]+(?:\.[0-9]{3})*,[0-9]+")
_THOUSANDS = re.compile(r"[-+]?[1-9][0-9]{0,2},[0-9]{3}")
_MEANT = re.compile(rf"(?P<number>[-+]?[0-9]+(?:\.[0-9]+)?)|(?P<day>[0-9]{{4}}-[0-9]{{2}}-[0-9]{{2}})|(?P<comma>{_COMMA.pattern})"
                    r"|(?P<time>[0-9]{4}-[0-9]{2}-[0-9]{2}[T ][0-9]{2}:[0-9]{2}(?::[0-9]{2})?)")
_NUMBER = re.compile(r"([-+]?[0-9]+)(?:\.([0-9]{1,18}))?")
_ODD = re.compile(r"[+].*|-?0[0-9]+|-0")
_CANONICAL = re.compile(r"0|-?[1-9][0-9]{0,17}").fullmatch
_ENDS_BLOCK = re.compile(r"\n\\\.\r?\n")
_CSV_TAKES_NUL = sys.version_info >= (3, 11)
Row = Sequence[str]


class NotRaw(TimelineError):
    """The bytes of a sheet cannot be handed on as they are."""


def is_name(text: str) -> bool:
    """Whether a text is a name of the language."""
    return _NAME.fullmatch(text) is not None and text not in KEYWORDS


def from_bytes(text: str) -> str:
    """The text that a field stands for; bytes that are no UTF-8 become other characters."""
    return text.encode("latin-1").decode("utf-8", "replace")


def to_bytes(text: str) -> str:
    """A text as a field: one character a byte."""
    return text.encode("utf-8", "surrogateescape").decode("latin-1")


def open_sheet(path: str | None) -> Sheet:
    """The sheet of a file, or of standard input for None. What is no regular file is copied into a file that has no name, in the
    working folder where that may be. UsageError where it cannot be opened, SourceFault and DeviceFault where reading or copying fails."""
    try:
        file = open(path, "rb") if path is not None else open(0, "rb", closefd=False)
        is_regular = is_file(file.fileno())
    except OSError as error:
        raise UsageError(f"{path or 'standard input'} is no file that can be read: {error.strerror}") from None
    return Sheet(file if is_regular else _copied(file), path or "standard input")


def _copied(file: IO[bytes]) -> IO[bytes]:
    import tempfile

    try:
        copy: IO[bytes] = tempfile.TemporaryFile(dir="." if os.access(".", os.W_OK) else None)
        copy.writelines(_pieces(file))
        copy.seek(0)
    except OSError as error:
        raise DeviceFault(f"the input cannot be copied: {error.strerror}") from None
    return copy


def chunked(rows: Iterable[Row]) -> Iterator[list[Row]]:
    """Rows, some thousand at once."""
    left = iter(rows)
    return iter(lambda: list(islice(left, CHUNK)), [])


class Sheet:
    """A CSV file: the fields of its header, and its records as often as they are asked for, one
    reader at a time."""

    def __init__(self, file: IO[bytes], name: str) -> None:
        """`file` is one in which places can be sought; the sheet begins where it is read now."""
        csv.field_size_limit(1 << 30)
        self.file, self.name, self.delimiter = file, name, ","
        self.start = self.body = file.tell()
        while (front := self._at(self.start, 3)) == MARK:
            self.start += 3
        self._is_wide = front[:2] in WIDE_MARKS
        self._fields = self._header()

    def _at(self, place: int, count: int) -> bytes:
        self.file.seek(place)
        return _read(self.file, count)

    def _header(self) -> list[str]:
        """Reads the header, and keeps where the records begin."""
        self.body = self.start
        with lines_from(self.file, self.start) as lines:
            counted = self._counted(lines)
            line = next((line for line in counted if line.strip("\r\n")), "")
            self.delimiter = _delimiter(line)
            return next(csv.reader(chain([line], counted, [_LAST]), delimiter=self.delimiter)) if line else []

    def _counted(self, lines: Iterable[str]) -> Iterator[str]:
        for line in lines:
            self.body += len(line)
            yield line

    @property
    def header(self) -> list[str]:
        """The fields of the header. Raises Refused where the file ends within one, or is UTF-16."""
        if self._is_wide:
            raise self.refused("NotUtf8", 1, None, "it is UTF-16, and a sheet is UTF-8",
                               "Save it as CSV UTF-8, or turn it by `iconv -f UTF-16 -t UTF-8`.")
        if self._fields and self._fields[-1].endswith(_LAST):
            raise self._cut_off(1)
        return self._fields

    def _cut_off(self, record: int) -> Refused:
        return self.refused("OpenQuotes", record, None, "the file ends within a quoted field: it is cut off",
                            "Get the file whole, or close the quote; a quote within a field is written twice.")

    def _records(self, lines: Iterable[str]) -> Iterator[list[str]]:
        """The records of lines, and after the last one, where no quote is open there, `[_LAST]`."""
        return filter(None, csv.reader(chain(lines, [_LAST]), delimiter=self.delimiter))

    def chunks(self) -> Iterator[list[Row]]:
        """The records after the header, some thousand at once, each with as many fields as it. Raises Refused for one that has
        another number of them, and where the file ends within quotes; SourceFault where reading fails."""
        record, width = 2, len(self.header)
        with lines_from(self.file, self.body) as lines:
            for chunk in chunked(self._records(lines)):
                if chunk[-1][-1].endswith(_LAST) and chunk.pop() != [_LAST]:
                    raise self._cut_off(record + len(chunk))
                if set(map(len, chunk)) - {width}:
                    at, row = next((at, row) for at, row in enumerate(chunk, record) if len(row) != width)
                    raise self.refused("FieldCount", at, None, f"it has {len(row)} fields and the header {width}")
                if chunk:
                    yield chunk
                record += len(chunk)

    def check_end(self) -> None:
        """Raises Refused where the file ends within quotes. Without a quote in it nothing is parted into records."""
        self.file.seek(self.body)
        if self.header and any(b'"' in piece for piece in _pieces(self.file)):
            with lines_from(self.file, self.body) as lines:
                record, last = deque(enumerate(self._records(lines), 2), maxlen=1).pop()
            if last != [_LAST]:
                raise self._cut_off(record)

    def raw(self, names: Sequence[str]) -> Iterator[bytes]:
        """The sheet's bytes with these names in its header, and an end of line at their end. NotRaw where that is another sheet,
        or one that ends a block too early; Refused where it ends within quotes."""
        self.check_end()
        if self.delimiter != ",":
            raise NotRaw
        yield encoded([names])
        self.file.seek(self.body)
        seam = b"\n"
        for piece in _pieces(self.file):
            if b"\n\\." in piece or b"\n\\." in seam + piece[:2]:
                raise NotRaw
            yield piece
            seam = (seam + piece[-2:])[-2:]
        if not seam.endswith(b"\n"):
            yield b"\n"

    def is_plain(self, names: Sequence[str]) -> bool:
        """Whether the program can take the file as it is: fields parted by commas, under names that its header has."""
        return self.delimiter == "," and list(map(from_bytes, self.header)) == list(names)

    def bytes(self) -> Iterator[bytes]:
        """The file as it is."""
        self.file.seek(self.start)
        return _pieces(self.file)

    def size(self) -> int:
        """How many bytes it has."""
        return self.file.seek(0, os.SEEK_END) - self.start

    def line_of(self, record: int) -> int:
        """The line in which a record begins, both from 1; the header is record 1, which begins in the first line that is not empty."""
        begun = ended = 0

        def counted(lines: Iterable[str]) -> Iterator[str]:
            nonlocal ended
            for line in lines:
                ended += line.endswith("\n")
                yield line

        with lines_from(self.file, self.start) as lines:
            for row in csv.reader(counted(lines), delimiter=self.delimiter):
                record -= bool(row)
                if not record:
                    break
                begun = ended
        return begun + 1

    def refused(self, kind: str, record: int, field: int | None, sentence: str, advice: str = "") -> Refused:
        """The refusal of a record, from 1 for the header, and of its field, from 1."""
        numbers = (record,) if field is None else (record, field)
        where = f"line {self.line_of(record)}, record {record}" + (f", field {field}" if field else "")
        return Refused(kind, numbers, place=Place(None, record, field), sentence=f"{self.name}, {where}: {sentence}", advice=advice)

    def close(self) -> None:
        """Closes the file."""
        self.file.close()


def _read(file: IO[bytes], count: int = PIECE) -> bytes:
    try:
        return file.read(count)
    except OSError as error:
        raise SourceFault(f"reading the input failed: {error.strerror}") from None


def _pieces(file: IO[bytes]) -> Iterator[bytes]:
    """What is left of a file."""
    return iter(lambda: _read(file), b"")


@contextmanager
def lines_from(file: IO[bytes], place: int) -> Iterator[Iterator[str]]:
    """The lines of a file from a place on, each with its end; the file stays open. SourceFault where it cannot be read."""
    file.seek(place)
    text = io.TextIOWrapper(file, "latin-1", newline="")
    try:
        yield iter(text) if _CSV_TAKES_NUL else (line.replace("\0", _NUL) for line in text)
    except OSError as error:
        raise SourceFault(f"reading the input failed: {error.strerror}") from None
    finally:
        if not text.closed:
            text.detach()


def _delimiter(line: str) -> str:
    """What parts the fields of a header: commas, or semicolons or tabs where there are none."""
    return "," if "," in line else max(";\t", key=line.count) if ";" in line or "\t" in line else ","


def encoded(rows: Iterable[Row]) -> bytes:
    """Rows as CSV that a block can carry. The texts of a single column are quoted, since a line `\\.` would end the block."""
    out = io.StringIO()
    taken = list(rows)
    quoting = csv.QUOTE_ALL if taken and len(taken[0]) == 1 else csv.QUOTE_MINIMAL
    csv.writer(out, lineterminator="\r\n", quoting=quoting).writerows(taken)
    text = out.getvalue()
    return (text if _CSV_TAKES_NUL else text.replace(_NUL, "\0")).encode("latin-1")


def checked(sheet: Sheet, chunk: Sequence[Row], record: int) -> bytes:
    """As `encoded`, of records of which the first has a number. Raises Refused for a text that would end the block."""
    text = encoded(chunk)
    if b"\n\\." in text:
        for at, row in enumerate(chunk):
            for field, cell in enumerate(row):
                if _ENDS_BLOCK.search(cell):
                    raise sheet.refused("EndOfBlock", record + at, field + 1, "it has a line that is \\. alone, which ends a block",
                                        "Write the line in another way; into a table of INT and TEXT alone `load --no-stamp` takes it as it is.")
    return text


# Names

def column_names(headers: Sequence[str], is_valid: bool) -> list[str]:
    """The names of the columns of a sheet: a header that is a name stays, another one is turned into one, as `Emp No` into
    `emp_no`. Two headers that are the same stay so: the engine refuses them."""
    texts = [from_bytes(it).strip() for it in headers]
    taken = {it for it in texts if is_name(it) or (is_valid and it in PERIOD)}
    names: list[str] = []
    for place, text in enumerate(texts):
        if text in taken:
            names.append(text)
            continue
        stem = _turned(text) or f"column_{place + 1}"
        name, number = stem, 1
        while name in taken:
            number += 1
            name = f"{stem[:60]}_{number}"
        taken.add(name)
        names.append(name)
    return names


def _turned(text: str) -> str:
    import unicodedata

    plain = unicodedata.normalize("NFKD", text.casefold()).encode("ascii", "ignore").decode("ascii")
    name = re.sub(r"[^a-z0-9]+", "_", plain).strip("_")[:62]
    return name if is_name(name) or not name else f"_{name}" if name[0].isdigit() else f"{name}_"


# Kinds

class Guess:
    """Which kinds a column can be, by the cells so far: those that show each cell as it is spelled."""

    def __init__(self, is_end: bool = False) -> None:
        """`is_end` where FOREVER may stand in place of a number."""
        self.is_end, self.has_empty, self.first = is_end, False, (0, "")
        self.left: list[Kind] | None = None
        # While all cells are numbers in any spelling: one of each number of decimals, with its record.
        self.samples: dict[int, tuple[int, str]] | None = {}
        self.odd: tuple[int, str] | None = None      # one that no kind of number would show as it is
        self.strange: tuple[int, str, str] | None = None    # the first that is not what most are, and what

    def take(self, cells: Sequence[str], record: int) -> None:
        """Looks at further cells of the column, the first of which stands in a record with this number."""
        given = cells
        if "" in cells or self.is_end:
            self.has_empty = self.has_empty or "" in cells
            cells = [cell for cell in cells if self._counts(cell)]
        if not cells:
            return
        if self.left is None:
            self.left = [kinds.INT, kinds.DATE, kinds.TIME, *_decimal_of(cells[0])]
            self.first = record + given.index(cells[0]), cells[0]
        else:
            cells = [self.first[1], *cells]
        self.left = [kind for kind in self.left if fits(kind, cells)]
        if not self.left and self.samples is not None:
            placed = [(at, cell) for at, cell in enumerate(given, record) if self._counts(cell)]
            self._take_numbers([self.first, *placed])
            if self.samples is None:
                self.strange = _strange(placed)

    def _counts(self, cell: str) -> bool:
        """Whether a cell says anything of the kind: an empty one does not, nor an end that never comes."""
        return bool(cell) and not (self.is_end and cell == FOREVER)

    def _take_numbers(self, cells: Sequence[tuple[int, str]]) -> None:
        assert self.samples is not None
        for place, cell in cells:
            found = _NUMBER.fullmatch(cell)
            if found is None:
                self.samples = None
                return
            self.samples.setdefault(len(found[2] or ""), (place, cell))
            if _ODD.fullmatch(found[1] if found[2] is None or found[1] != "-0" else ""):
                self.odd = self.odd or (place, cell)

    @property
    def kind(self) -> Kind:
        """The kind of the column, empty cells aside; TEXT where it has no other cell."""
        return self.left[0] if self.left else kinds.TEXT

    def advice(self, name: str, line_of: Callable[[int], int]) -> str:
        """What to say of a column of texts that might be meant as numbers or days, else nothing; `line_of` gives a record's line."""
        front = f"{name} is TEXT, since "
        if self.left and self.has_empty:
            return f"{front}it has empty cells; --missing {name}=.. says what stands for them, and then it is {self.kind}"
        if self.strange is not None:
            place, cell, most = self.strange
            return f"{front}line {line_of(place)} has {from_bytes(cell)[:60]!r}, {_difference(cell, most)}"
        if self.left or not self.samples:
            return ""
        places = max(self.samples)
        meant = Kind("DECIMAL", places) if places else kinds.INT
        place, cell = self.odd or self.samples[min(self.samples)]
        try:
            shown = meant.shown(meant.cell(cell))
        except KindFault:
            return ""
        end = f"would come back as {shown}; --kind '{name}={meant}' takes it as a number"
        return f"{front}{cell} in line {line_of(place)} {end}" if shown != cell else ""


def _difference(cell: str, most: str) -> str:
    """What is said of a cell that is not what most of its column are, or that has a comma as most have: of decimals, or of thousands
    where it could be either."""
    if most != "comma":
        return f"which is no {most}"
    with_point = cell.replace(".", "").replace(",", ".")
    if _THOUSANDS.fullmatch(cell):
        return f"with a comma: save the sheet without it, as {cell.replace(',', '')}, or with a point, as {with_point}"
    return f"with a decimal comma: save the sheet with points, as {with_point}"


def _family(cell: str) -> str:
    """What a cell looks like: a number, a day of the calendar, a time, a number with a decimal comma, or a text."""
    found = _MEANT.fullmatch(cell)
    if found is None or found["day"] and not comes_back(kinds.DATE, cell):
        return "text"
    return str(found.lastgroup)


def _strange(cells: Sequence[tuple[int, str]]) -> tuple[int, str, str] | None:
    """The first of some cells that is no number, or no day, where more than half of them are, with its record and what these are; the
    first with a decimal comma where more than half have one. None where all look alike."""
    families = [_family(cell) for _, cell in cells]
    most, count = Counter(families).most_common(1)[0]
    if most == "text" or 2 * count <= len(cells):
        return None
    return next(((*cell, most) for cell, family in zip(cells, families) if (family != most) != (most == "comma")), None)


def _decimal_of(cell: str) -> list[Kind]:
    _, point, decimals = cell.partition(".")
    return [Kind("DECIMAL", len(decimals))] if point and 0 < len(decimals) <= 18 else []


def comes_back(kind: Kind, cell: str) -> bool:
    """Whether a column of a kind shows a cell as it is spelled; FOREVER is none of a kind's but at the end of a period."""
    try:
        return cell != kinds.FOREVER and kind.shown(kind.cell(cell)) == cell
    except KindFault:
        return False


def fits(kind: Kind, cells: Sequence[str]) -> bool:
    """Whether a kind shows all of some cells as they are spelled. What a pattern says of most cells is not worked out."""
    sure = _sure(kind)
    unsure = [cell for cell in cells if not sure(cell)] if sure else dict.fromkeys(cells)
    return all(comes_back(kind, cell) for cell in unsure)


def _sure(kind: Kind) -> Callable[[str], object] | None:
    if kind.name == "INT":
        return _CANONICAL
    if kind.name == "DECIMAL" and kind.places < 17:
        return re.compile(r"(?:0|-?[1-9][0-9]{0,%d})\.[0-9]{%d}" % (16 - kind.places, kind.places)).fullmatch
    return None


class Column(NamedTuple):
    """A column of a sheet: its header, its name, its kind where that is known, and what stands for an empty cell."""

    header: str
    name: str
    kind: Kind | None = None
    missing: str | None = None

    @property
    def changes(self) -> bool:
        """Whether its cells are spelled in another way for the engine."""
        return self.missing is not None or (self.kind is not None and not self.kind.is_plain)

    def converter(self, spell: bool) -> Callable[[Sequence[str]], Iterable[str]] | None:
        """What makes the engine's cells of the column's, None where they stay; with `spell` numbers as the engine writes them."""
        kind = self.kind or kinds.TEXT
        if not self.changes:
            return (_end_spelled if self.name == "valid_to" else _spelled) if spell and kind == kinds.INT else None
        memo = Memo(kind.cell)
        if self.missing is not None:
            memo[""] = memo[to_bytes(self.missing)]
        return lambda cells: map(memo.__getitem__, cells)


def _spelled(cells: Sequence[str]) -> Sequence[str]:
    """Whole numbers as the engine writes them."""
    return cells if all(map(_CANONICAL, cells)) else [kinds.INT.cell(cell) for cell in cells]


def _end_spelled(cells: Sequence[str]) -> Sequence[str]:
    """Ends of periods as the engine writes them: the greatest number is no end."""
    greatest = str(kinds.GREATEST)
    return [FOREVER if cell == greatest else cell for cell in _spelled(cells)]


def converted(sheet: Sheet, columns: Sequence[Column], spell: bool = False) -> Iterator[list[Row]]:
    """The records of a sheet with the engine's cells in place of people's. Raises Refused for a cell that is none of its kind."""
    converters = [column.converter(spell) for column in columns]
    record = 2
    for chunk in sheet.chunks():
        rows: list[Row] = list(chunk)
        if any(converters):
            try:
                rows = list(zip(*(cells if convert is None else convert(cells) for convert, cells in zip(converters, zip(*chunk)))))
            except KindFault:
                raise _cell_refused(sheet, columns, chunk, record) from None
        yield rows
        record += len(rows)


def _cell_refused(sheet: Sheet, columns: Sequence[Column], chunk: Sequence[Row], record: int) -> Refused:
    """The refusal of the first cell of some records that is none of its kind."""
    for at, row in enumerate(chunk):
        for field, (column, cell) in enumerate(zip(columns, row)):
            try:
                if column.kind is not None and not (cell == "" and column.missing is not None):
                    column.kind.cell(cell)
            except KindFault as fault:
                said = f"{column.name} is {column.kind}, and this is {from_bytes(cell)!r}" if cell else f"{column.name} is empty"
                advice = fault.advice if cell else f"There is no empty {column.kind}: --missing {column.name}=.. says what stands for it."
                return sheet.refused(fault.name, record + at, field + 1, said, advice)
    raise AssertionError("no cell is at fault")
