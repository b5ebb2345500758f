"""What a column means beyond whole numbers and texts: its kind, how that is written and shown, and where kinds are kept.

The engine keeps INT and TEXT. DECIMAL(n), DATE and TIME are kept as INT, and a table of the journal, `timeline_kinds`,
says which column has which. Nothing here reads or writes a journal: who has one hands rows in and sends what is made."""
from __future__ import annotations

import re
from typing import Callable, Iterable, NamedTuple, Sequence

TYPE_CHECKING = False
if TYPE_CHECKING:
    from .statements import Token

CATALOG = "timeline_kinds"
CREATE_CATALOG = f"CREATE TABLE {CATALOG} (place TEXT, kind TEXT) KEY place"
SELECT_CATALOG = f"SELECT place, kind FROM {CATALOG}"
MOMENTS = "moment"           # the catalog's place for the unit of moments
PERIOD = "valid"             # and, after a table's name and a dot, for that of its periods
LEAST, GREATEST = -(1 << 63), (1 << 63) - 1
FOREVER = "FOREVER"
_MEMORY = 1 << 16            # so many cells of a column are remembered with what they stand for
_DAY = re.compile(r"[0-9]{4}-[0-9]{2}-[0-9]{2}")
_SECOND = re.compile(r"([0-9]{4}-[0-9]{2}-[0-9]{2})[T ]([0-9]{2}):([0-9]{2})(?::([0-9]{2}))?Z?")
_WHOLE = re.compile(r"[-+]?[0-9]+")
_DECIMAL = re.compile(r"([-+]?)([0-9]+)(?:\.([0-9]+))?")
_SPELLING = re.compile(r"(INT|TEXT|DATE|TIME|DECIMAL)\s*(?:\(\s*([0-9]{1,2})\s*\))?", re.IGNORECASE)


class KindFault(ValueError):
    """A text that is none of its kind: `name` is the fault's name and `advice` says how such a cell is written."""

    def __init__(self, name: str, advice: str) -> None:
        self.name, self.advice = name, advice
        super().__init__(name)


class Kind(NamedTuple):
    """What the cells of a column are. `places` is the number of decimals of DECIMAL, and of AVERAGE, which no column has:
    it is what an AVG over a column of decimals answers, a sum and a count."""

    name: str
    places: int = 0

    def __str__(self) -> str:
        return f"DECIMAL({self.places})" if self.name == "DECIMAL" else self.name

    @property
    def stored(self) -> str:
        """The engine's type of such a column."""
        return "TEXT" if self.name == "TEXT" else "INT"

    @property
    def is_plain(self) -> bool:
        """Whether the engine's own cells are what people write and read."""
        return self.name in ("INT", "TEXT")

    def number(self, text: str) -> int:
        """The number that is kept for a text of this kind, which is not TEXT. Raises KindFault."""
        return _bounded(_NUMBERS[self.name](text, self.places))

    def cell(self, text: str) -> str:
        """The engine's cell for a text as people write it; FOREVER stays. Raises KindFault."""
        return text if self.name == "TEXT" or text == FOREVER else str(self.number(text))

    def shown(self, cell: str) -> str:
        """What people read for a cell of the engine. An empty cell, FOREVER, and a day that no calendar has, stay as they are."""
        if self.name in ("INT", "TEXT") or not cell or cell == FOREVER:
            return cell
        if self.name == "DECIMAL":
            return _with_point(int(cell), self.places)
        if self.name == "AVERAGE":
            return _average(cell, self.places)
        return _day_shown(cell) if self.name == "DATE" else _second_shown(cell)

    def value(self, cell: str) -> object:
        """The Python value of a cell of the engine: int, str, Decimal, date, or datetime in UTC; None for an empty number and
        for FOREVER; an int for a day that no calendar of Python has."""
        if self.name == "TEXT":
            return cell
        if not cell or cell == FOREVER:
            return None
        shown = self.shown(cell)
        if self.name in ("DECIMAL", "AVERAGE"):
            from decimal import Decimal

            return Decimal(shown)
        if self.name == "INT" or shown == cell:
            return cell if "/" in cell else int(cell)
        from datetime import date, datetime, timezone

        return date.fromisoformat(shown) if self.name == "DATE" else datetime.fromisoformat(shown).replace(tzinfo=timezone.utc)


INT, TEXT, DATE, TIME = Kind("INT"), Kind("TEXT"), Kind("DATE"), Kind("TIME")


def parse(text: str) -> Kind:
    """The kind of a word such as `DECIMAL(2)`, in letters of either case. Raises KindFault where it is none."""
    found = _SPELLING.fullmatch(text.strip())
    name = found[1].upper() if found else ""
    if found is None or (name == "DECIMAL") != (found[2] is not None) or int(found[2] or 1) not in range(1, 19):
        raise KindFault("NoKind", "A kind is INT, TEXT, DECIMAL(n) with n from 1 to 18, DATE or TIME.")
    return Kind(name, int(found[2] or 0))


def _bounded(number: int) -> int:
    if not LEAST <= number <= GREATEST:
        raise KindFault("NotInt", "A number is kept in 64 bits: in units of its last place it is at most 9223372036854775807.")
    return number


def _whole(text: str, _: int) -> int:
    if not _WHOLE.fullmatch(text):
        raise KindFault("NotInt", "This is no whole number: digits alone, with a sign before them if any, no spaces, no unit.")
    return int(text) if len(text) < 40 else GREATEST + 1


def _units(text: str, places: int) -> int:
    found = _DECIMAL.fullmatch(text)
    if found is None or len(text) > 60:
        raise KindFault("NotDecimal", "A decimal is digits with a point in them, as 2800.50: no spaces, no marks between thousands, no unit.")
    decimals = (found[3] or "").rstrip("0")
    if len(decimals) > places:
        raise KindFault("NotDecimal", f"It has more than {places} decimals, and the column keeps {places}.")
    return int(found[1] + found[2] + decimals.ljust(places, "0"))


def _day(text: str, _: int = 0) -> int:
    from datetime import date

    try:
        if _DAY.fullmatch(text):
            return date.fromisoformat(text).toordinal() - 719163
    except ValueError:
        pass
    raise KindFault("NotDate", "A day is written 2026-03-31, and is one of the calendar.")


def _second(text: str, _: int) -> int:
    found = _SECOND.fullmatch(text)
    if found is None or not (found[2] < "24" and found[3] < "60" and (found[4] or "00") < "60"):
        raise KindFault("NotTime", "A time is written 2026-03-31T12:00 or 2026-03-31T12:00:05, in UTC.")
    return ((_day(found[1]) * 24 + int(found[2])) * 60 + int(found[3])) * 60 + int(found[4] or 0)


_NUMBERS: dict[str, Callable[[str, int], int]] = {"INT": _whole, "DECIMAL": _units, "DATE": _day, "TIME": _second}


def _with_point(units: int, places: int) -> str:
    digits = str(abs(units)).rjust(places + 1, "0")
    return ("-" if units < 0 else "") + digits[:-places] + "." + digits[-places:]


def _average(cell: str, places: int) -> str:
    """A sum of units and a count, divided: four places more than the sum has, rounded half to even."""
    total, _, count = cell.partition("/")
    wanted, divisor = int(total) * 10_000, int(count)
    units, left = divmod(wanted, divisor)
    if 2 * left > divisor or (2 * left == divisor and units % 2):
        units += 1
    return _with_point(units, places + 4)


def _day_shown(cell: str) -> str:
    from datetime import date

    ordinal = int(cell) + 719163
    return date.fromordinal(ordinal).isoformat() if 0 < ordinal <= 3652059 else cell


def _second_shown(cell: str) -> str:
    days, seconds = divmod(int(cell), 86_400)
    day = _day_shown(str(days))
    return f"{day}T{seconds // 3600:02}:{seconds // 60 % 60:02}:{seconds % 60:02}" if "-" in day[1:] else cell


class Memo(dict[str, str]):
    """What a function makes of cells, remembered for as many cells as memory is meant for: `memo[cell]`."""

    def __init__(self, make: Callable[[str], str]) -> None:
        super().__init__()
        self.make = make

    def __missing__(self, cell: str) -> str:
        made = self.make(cell)
        if len(self) < _MEMORY:
            self[cell] = made
        return made


class Catalog:
    """The kinds of a journal: those of its columns and periods, and whether its moments are seconds."""

    def __init__(self, rows: Iterable[Sequence[str]] = ()) -> None:
        """`rows` are places and kinds as `SELECT_CATALOG` answers them; a word that is no kind counts as the engine's type."""
        self.places: dict[str, Kind] = {}
        for place, word in rows:
            try:
                self.places[place] = parse(word)
            except KindFault:
                continue

    @property
    def has_seconds(self) -> bool:
        """Whether this journal says that its moments are seconds since 1970, in UTC."""
        return self.places.get(MOMENTS) == TIME

    def of(self, table: str, column: str) -> Kind | None:
        """The kind of a column, or of a table's periods where the column is PERIOD; None where the engine's type is all."""
        if column in ("valid_from", "valid_to"):
            column = PERIOD
        kind = self.places.get(f"{table}.{column}")
        return None if kind is None or kind.is_plain else kind

    def has(self, table: str) -> bool:
        """Whether a table has a kind that is not the engine's own type."""
        return any(place.startswith(table + ".") and not kind.is_plain for place, kind in self.places.items())


class LiteralFault(Exception):
    """A literal that is none of its column's kind, at byte `offset` of the statement."""

    def __init__(self, offset: int, place: str, kind: Kind, advice: str) -> None:
        self.offset, self.place, self.kind, self.advice = offset, place, kind, advice
        super().__init__(f"{place} is {kind}")


_COMPARISONS = frozenset(("=", "<>", "<", "<=", ">", ">="))


def literal_edits(words: Sequence[Token], catalog: Catalog) -> list[tuple[int, int, str]]:
    """Where the engine gets other literals than a statement has, and which: offsets of bytes, and the text between them.

    `words` are the statement's tokens without blanks. Raises LiteralFault where a literal is none of its column's kind."""
    table, edits = "", []
    tables = tables_of(words)
    for at, word in enumerate(words):
        before = words[at - 1].text if at else ""
        if word.kind == "name" and before in ("FROM", "JOIN", "WITH"):
            table = word.text
        if before in _COMPARISONS and at > 1 and words[at - 2].kind == "name":
            edit = _edit(words, at, f"{table}.{words[at - 2].text}", catalog.of(table, words[at - 2].text))
        elif tables and _is_time(words, at):
            edit = _edit(words, at, f"{tables[0]}.{PERIOD}", _period(tables, catalog))
        else:
            edit = None
        if edit is not None:
            edits.append(edit)
    return edits


def _is_time(words: Sequence[Token], at: int) -> bool:
    """Whether a valid time stands at a place: after VALID AT, after OVER VALID, or after the TO of the latter."""
    front = [word.text for word in words[max(at - 2, 0):at]]
    if front in (["VALID", "AT"], ["OVER", "VALID"]):
        return True
    overs = [place for place, word in enumerate(words[:at]) if word.text == "OVER"]
    return front[-1:] == ["TO"] and bool(overs) and words[overs[-1] + 1].text == "VALID"


def _period(tables: Sequence[str], catalog: Catalog) -> Kind | None:
    """The kind of the valid times of a query over some tables."""
    return next(filter(None, (catalog.of(table, PERIOD) for table in tables)), None)


def _edit(words: Sequence[Token], at: int, place: str, kind: Kind | None) -> tuple[int, int, str] | None:
    """The edit for the literal that begins at a place; None for FOREVER and what is no literal, which the engine judges."""
    if kind is None:
        return None
    start, text, is_text = words[at].start, "", words[at].kind == "text"
    end = start
    for word in words[at:]:
        if text and (is_text or word.start != end) or not (is_text or word.kind == "number" or word.text in ("+", "-", ".")):
            break
        text, end = text + word.text, word.end
    if not text:
        return None
    advice = "A decimal stands bare: 2800.50." if kind.name == "DECIMAL" else "A day or a time stands between single quotes: '2026-03-31'."
    if is_text == (kind.name != "DECIMAL"):
        try:
            return start, end, str(kind.number(text[1:-1] if is_text else text))
        except KindFault as fault:
            advice = fault.advice
    raise LiteralFault(start, place, kind, advice)


def declared(words: Sequence[Token]) -> tuple[list[tuple[int, int, str]], list[tuple[str, str]]]:
    """The kinds that a CREATE TABLE gives columns and periods beyond the engine's types: the edits that put these in their place, and
    the rows of the catalog. Raises LiteralFault for DECIMAL without its places."""
    edits, rows = list[tuple[int, int, str]](), list[tuple[str, str]]()
    for at, word in enumerate(words):
        before, front = words[at - 1], words[at - 2].text
        is_period = before.text == "VALID"
        if word.text not in ("DECIMAL", "DATE", "TIME") or not (is_period or before.kind == "name" and front in ("(", ",")):
            continue
        place = f"{words[2].text}.{PERIOD if is_period else before.text}"
        end = at + 3 if [it.text for it in words[at + 1:at + 4:2]] == ["(", ")"] else at
        try:
            kind = parse("".join(it.text for it in words[at:end + 1]))
        except KindFault as fault:
            raise LiteralFault(word.start, place, TEXT, fault.advice) from None
        edits.append((word.start, words[end].end, "" if is_period else "INT"))
        rows.append((place, str(kind)))
    return edits, rows


def tables_of(words: Sequence[Token]) -> list[str]:
    """The tables that a query names, in their order."""
    return [words[at + 1].text for at, word in enumerate(words[:-1]) if word.text in ("FROM", "JOIN", "WITH") and word.kind == "name"]


def answer_kinds(words: Sequence[Token], names: Sequence[str], catalog: Catalog) -> tuple[Kind | None, ...]:
    """The kind of each column of an answer to a query, by its words and the names of the answer's columns; None where the
    engine's type is all that is known."""
    tables = tables_of(words)
    if not tables or not words:
        return (None,) * len(names)
    first = words[0].text
    if first == "SELECT":
        return tuple(catalog.of(tables[0], name) for name in names)
    over_valid = any(word.text == "OVER" and after.text == "VALID" for word, after in zip(words, words[1:]))
    point = (_period(tables, catalog) or INT) if over_valid else INT
    if first == "JOIN":
        return (point, point, *(_joined(name, tables, catalog) for name in names[2:]))
    group = [catalog.of(tables[0], names[0])] if len(names) == 4 else []
    return (*group, point, point, _aggregate(first, catalog.of(tables[0], words[1].text) if len(words) > 1 else None))


def _joined(name: str, tables: Sequence[str], catalog: Catalog) -> Kind | None:
    table, _, column = name.partition(".")
    return catalog.of(table if table in tables else tables[0], column)


def _aggregate(word: str, kind: Kind | None) -> Kind | None:
    """The kind of an aggregate's value over a column of a kind: sums of days and times are numbers."""
    if word == "COUNT":
        return INT
    if word == "AVG" and kind is not None and kind.name == "DECIMAL":
        return Kind("AVERAGE", kind.places)
    if word in ("SUM", "AVG") and (kind is None or kind.name != "DECIMAL"):
        return INT
    return kind or INT
