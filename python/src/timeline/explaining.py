"""Why a statement was refused, for people: its text with a caret, the record of a block, and what to do.

The sentences stand in docs/FORMATS.md, in the tables of its chapters `What to do` and `Faults of the command`. This makes lines of text; it prints
nothing, and what the engine says is never judged again: a case only chooses a sentence."""
from __future__ import annotations

import os
import re
from functools import lru_cache
from typing import Callable, Iterable, NamedTuple

from .errors import Place, Refused
from .replies import Fault
from .statements import decode

KEYWORDS = frozenset("CREATE TABLE KEY VALID INT TEXT PUT REMOVE SELECT FROM WHERE AND OR AS OF AT COUNT SUM AVG MIN MAX BY OVER SYSTEM ALL "
                     "TO JOIN WITH ON FOREVER MOMENT FORGET BEFORE SYNC".split())
FIRST_WORDS = r"CREATE|PUT|REMOVE|SYNC|MOMENT|FORGET|SELECT|COUNT|SUM|AVG|MIN|MAX|JOIN"
_AGGREGATE = rb"(?:COUNT|SUM|AVG|MIN|MAX)"
_FIELD = re.compile(rb'(?:"(?:[^"]|"")*"?)?[^,]*')
_CONTROLS = re.compile("[\x00-\x08\x0a-\x1f\x7f-\x9f]")
_MARK = b"\xef\xbb\xbf"
_WIDE, _FRONT = 200, 60     # so many bytes of a long text are shown, and so many of them in front of a caret


def formats_path() -> str:
    """The path of FORMATS.md: beside this file where the front was installed, else among the documents."""
    here = os.path.dirname(os.path.abspath(__file__))
    beside = os.path.join(here, "FORMATS.md")
    return beside if os.path.exists(beside) else os.path.join(here, "../../../docs/FORMATS.md")


@lru_cache(maxsize=None)
def _sentences() -> dict[tuple[str, str], str]:
    """The rows of the table: a fault and a case to what to do."""
    found: dict[tuple[str, str], str] = {}
    try:
        with open(formats_path(), encoding="utf-8") as file:
            text = file.read()
    except OSError:
        return found
    chapters = [text.partition(f"\n## {it}\n")[2].partition("\n## ")[0] for it in ("What to do", "Faults of the command")]
    for line in "\n".join(chapters).split("\n"):
        cells = [it.strip() for it in line.split("|")]
        if len(cells) == 5:
            found[cells[1], cells[2]] = cells[3]
    return found


def advice(fault: str, case: str = "") -> str:
    """What to do about a fault, in a case of it or else in any; empty where nothing is known."""
    sentences = _sentences()
    return sentences.get((fault, case)) or sentences.get((fault, "")) or ""


def shown(text: bytes, offset: int | None) -> list[str]:
    """A text, and a caret under the byte of an offset; of several lines the one that is meant, of a long one the part around it."""
    at = offset or 0
    begin = text.rfind(b"\n", 0, at) + 1
    text = text[begin:].partition(b"\n")[0]
    offset, begin = None if offset is None else offset - begin, 0
    if offset is not None and offset > 2 * _FRONT:
        begin = offset - _FRONT
        while begin < len(text) and 0x80 <= text[begin] < 0xC0:
            begin += 1
    end = min(len(text), begin + _WIDE)
    while end < len(text) and 0x80 <= text[end] < 0xC0:
        end -= 1
    front = ".. " if begin else ""
    lines = ["    " + front + _printable(text[begin:end]) + (" .." if end < len(text) else "")]
    if offset is not None:
        from .answers import width

        before = _printable(text[begin:offset])
        lines.append("    " + " " * len(front) + "".join(it if it == "\t" else " " * width(it) for it in before) + "^")
    return lines


def _printable(text: bytes) -> str:
    """A text without its end of line, and `?` for what would move a terminal's cursor; bytes that are no UTF-8 stay."""
    return _CONTROLS.sub("?", decode(text.rstrip(b"\r\n")))


def text_case(text: bytes, offset: int, fault: str) -> str:
    """Which case of its fault a statement has at an offset."""
    rest, before = text[offset:], text[:offset]
    if fault == "BadByte":
        if rest.startswith(b'"'):
            return "a double quote"
        if rest.startswith(b"!="):
            return "not equal"
        return "a decimal" if rest.startswith(b".") and before[-1:].isdigit() else ""
    if fault != "Unexpected":
        return ""
    at_end = not rest or rest.startswith(b";")
    if at_end and re.match(_AGGREGATE + rb"[ \t]", text) and not re.search(rb"[ \t]OVER", text):
        return "no range"
    if not rest:
        return "the end"
    if re.match(rb"-[0-9]{2}-[0-9]{2}", rest) and re.search(rb"[0-9]{4}$", before):
        return "a date"
    if text.startswith(b"SELECT") and (re.match(_AGGREGATE + rb"[ \t]*\(", rest)
                                       or rest.startswith(b"(") and re.search(_AGGREGATE + rb"[ \t]*$", before, re.IGNORECASE)):
        return "an aggregate"
    if text.startswith(b"CREATE") and rest.startswith(b",") and text.count(b",") > 15:
        return "a seventeenth column"
    return _word_case(decode(re.match(rb"[A-Za-z0-9_]*", rest).group()), offset)  # type: ignore[union-attr]


def _word_case(word: str, offset: int) -> str:
    upper = word.upper()
    if upper in ("ORDER", "LIMIT", "LIKE", "BETWEEN", "GROUP"):
        return upper
    if upper in KEYWORDS and word != upper:
        return "a keyword in lower case"
    return "the first word" if offset == 0 else ""


def field_case(text: str, fault: str, name: str) -> str:
    """Which case of its fault a field of a block has, in the column with a name."""
    if fault != "NotInt":
        return ""
    if not text:
        return "an empty valid_to" if name == "valid_to" else "an empty field"
    if re.match(r"\d{4}-\d\d?-\d|\d\d?[./]\d\d?[./]\d\d", text):
        return "a date"
    if re.fullmatch(r"[-+]?\d*[.,]\d+", text):
        return "a decimal"
    if text.strip(" \t") != text:
        return "a space"
    return "past 64 bits" if re.fullmatch(r"[-+]?[0-9]+", text) else ""


def line_case(text: bytes) -> str:
    """Which case a line has that is none of a script."""
    if text.startswith(_MARK):
        return "a byte order mark"
    if re.fullmatch(rb"[ \t]*GO[ \t;]*", text.rstrip(b"\r\n"), re.IGNORECASE):
        return "a GO of another form"
    return "no session" if re.match(rf"[ \t]*({FIRST_WORDS})[ \t]".encode(), text) else ""


class Record(NamedTuple):
    """A record of a block: the line where it begins, its text, the field that is meant and where in the text, and the header."""

    line: int
    text: bytes
    field: str
    offset: int | None
    header: list[str]


class _Lines:
    """The lines of a block for the csv module, which takes a CR alone as an end too; keeps what the record so far was read of."""

    def __init__(self, lines: Iterable[bytes], line: int) -> None:
        self.lines, self.line, self.start, self.raw = lines, line - 1, line, b""

    def __iter__(self) -> Iterable[str]:
        first = True
        for line in self.lines:
            self.line += 1
            while first and line.startswith(_MARK):
                line = line[len(_MARK):]
            first = False
            if not self.raw:
                self.start = self.line
            for piece in re.split(rb"(?<=\r)(?!\n)", line):
                self.raw += piece
                yield piece.replace(b"\0", b"\1").decode("latin-1")


def find_record(lines: Iterable[bytes], line: int, number: int, field: int | None) -> Record | None:
    """The record with a number, from 1, of a block whose first line has a number; None where it is not found."""
    import csv

    csv.field_size_limit(1 << 30)
    block, count = _Lines(lines, line), 0
    header: list[str] = []
    try:
        for row in csv.reader(block):  # type: ignore[arg-type]
            raw, block.raw = block.raw, b""
            if not row:
                continue
            count += 1
            cells = [it.encode("latin-1").decode("utf-8", "replace") for it in row] if count in (1, number) else []
            header = cells if count == 1 else header
            if count == number:
                meant = cells[field - 1] if field and field <= len(cells) else ""
                return Record(block.start, raw.split(b"\n")[0], meant, _field_offset(raw, field), header)
    except csv.Error:
        return None
    return None


def _field_offset(raw: bytes, field: int | None) -> int | None:
    """Where a field begins in the first line of a record, if it is there."""
    if field is None:
        return None
    at = 0
    for _ in range(field - 1):
        found = _FIELD.match(raw, at)
        at = (found.end() if found else at) + 1
        if at > len(raw):
            return None
    return at if b"\n" not in raw[:at] else None


Columns = Callable[[str], "list[str]"]


def explain_statement(text: bytes, fault: Fault, label: str, known: str = "") -> list[str]:
    """What is said of a statement in whose text the fault is, and of no block: `label` says which it is, and `known` what to do,
    where the table does not."""
    offset = fault.offset
    lines = _head(text, fault, label, offset)
    return lines + ([f"    {known}"] if known else _advice(fault.name, text_case(text, offset, fault.name) if offset is not None else ""))


def explain_block(text: bytes, fault: Fault, label: str, record: Record | None, missing: str = "") -> list[str]:
    """What is said of a statement whose block has the fault; `missing` is the column that a header leaves out, where known."""
    lines = _head(text, fault, label, None)
    case = ""
    if record is not None:
        lines.append(f"    line {record.line}, record {fault.record}:")
        lines += shown(record.text, record.offset)
        name = record.header[fault.field - 1] if fault.field and fault.field <= len(record.header) else ""
        case = field_case(record.field, fault.name, name)
        if fault.name.startswith("Header") and b"," not in record.text:
            case = "a semicolon" if b";" in record.text else "a tab" if b"\t" in record.text else case
    if missing:
        lines.append(f"    It leaves out {missing}.")
    return lines + _advice(fault.name, case)


def explain_sheet(label: str, statement: str, refused: Refused, lines: Iterable[bytes] | None, missing: str) -> list[str]:
    """What is said of a sheet that was refused; with its `lines` the record that is meant is shown. A fault that the front found
    has its own sentence."""
    fault, place = Fault(refused.kind, refused.numbers), refused.place or Place()
    record = find_record(lines, 1, place.record, place.field) if lines is not None and place.record else None
    if not refused.sentence and place.record:
        return explain_block(statement.encode(), fault, label, record, missing) if lines is not None else [f"timeline: {label} was refused: {fault}"]
    told = [f"timeline: {refused.sentence or f'{label} was refused: {fault}'}"]
    if record is not None:
        told += [f"    line {record.line}, record {place.record}:", *shown(record.text, record.offset)]
    return told + ([f"    {refused.advice}"] if refused.advice else _advice(fault.name))


def _head(text: bytes, fault: Fault, label: str, offset: int | None) -> list[str]:
    was = "was not done" if fault.name in ("device", "broken") else "was refused"
    return [f"timeline: {label} {was}: {fault}", *shown(text, offset)]


def _advice(fault: str, case: str = "") -> list[str]:
    sentence = advice(fault, case)
    return [f"    {sentence}"] if sentence else []


def explain_unknown(fault: Fault, label: str) -> list[str]:
    """What is said of a statement whose text cannot be read a second time."""
    was = "was not done" if fault.name in ("device", "broken") else "was refused"
    return [f"timeline: {label} {was}: {fault}", *_advice(fault.name)]


def explain_closing(words: tuple[str, ...], line: bytes | None) -> list[str]:
    """What is said of a run that ended with a closing line; `line` is the script's line that it names."""
    named = " ".join(words[:2]) if words[0] in ("script", "journal") else words[0]
    case = line_case(line) if line is not None and named == "script NoSession" else ""
    return [f"timeline: the run ended: ! {' '.join(words)}", *(shown(line, None) if line is not None else []), *_advice(named, case)]
