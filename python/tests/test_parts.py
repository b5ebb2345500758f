"""The parts of the front that read: replies in pieces, statements and their places, records of blocks, and scripts."""
from __future__ import annotations

import csv
import io
import random

import pytest

from conftest import ROOT  # noqa: F401  the package's folder is put on the path there

from timeline.answers import Answer, csv_line, write_table
from timeline.errors import ProgramFault, Refused
from timeline.explaining import advice, field_case, find_record, line_case, shown, text_case
from timeline.kinds import INT, TEXT, parse
from timeline.replies import Closing, Fault, NotStored, Ok, Refusal, Rows, read_replies
from timeline.statements import Statement, encode, prepare, statements_of, tokens


class Pieces:
    """A stream that gives a few bytes at once."""

    def __init__(self, data: bytes, draw: random.Random) -> None:
        self.data, self.draw = data, draw

    def read(self, size: int, /) -> bytes:
        count = self.draw.randrange(1, 9)
        piece, self.data = self.data[:count], self.data[count:]
        return piece


def field(text: str) -> str:
    return '"' + text.replace('"', '""') + '"' if set(text) & set(',"\r\n') else text


def test_replies_in_pieces() -> None:
    """Replies of random rows, read a few bytes at once, are those that were written; no line of a text is taken for one."""
    draw = random.Random(20261204)
    for _ in range(300):
        written, wanted = [], []
        for _ in range(draw.randrange(6)):
            kind = draw.randrange(5)
            if kind < 2:
                rows = [tuple("".join(draw.choice('ab",\n\r \'é') for _ in range(draw.randrange(6))) for _ in range(2)) for _ in range(draw.randrange(4))]
                raw = "".join(",".join(map(field, row)) + "\n" for row in rows).encode()
                written.append(b"a @7 rows %d\nk,v\n" % len(rows) + raw)
                wanted.append(("rows", 7, len(rows), ("k", "v"), raw, rows))
            else:
                reply = (Ok("load", 3), Refusal("b", 4, Fault("NotInt", (2, 1))), NotStored("c", 5, draw.random() < 0.5))[kind - 2]
                written.append({Ok: b"load @3 ok\n", Refusal: b"b @4 ! NotInt 2 1\n"}.get(type(reply)) or
                               (b"c @5 ! broken\n" if isinstance(reply, NotStored) and reply.broken else b"c @5 ! device\n"))
                wanted.append(reply)
        found = list(read_replies(Pieces(b"".join(written) + b"! script NoSession 3\n", draw), with_names=True))
        assert found.pop() == Closing(("script", "NoSession", "3"))
        assert [("rows", it.version, it.count, it.names, it.raw, it.rows()) if isinstance(it, Rows) else it for it in found] == wanted
        passed = list(read_replies(Pieces(b"".join(written), draw), with_names=True, keep=False))
        assert [type(it) for it in passed] == [type(it) for it in found]


@pytest.mark.parametrize("data", (b"a @1 rows 2\nk\n1\n", b"a @1 o", b'a @1 rows 1\nk\n"x\n', b"hello\n", b"a @x ok\n"))
def test_replies_that_break_off(data: bytes) -> None:
    with pytest.raises(ProgramFault):
        list(read_replies(io.BytesIO(data), with_names=True))


@pytest.mark.parametrize("text", ("SELECT a FROM t WHERE b = 'x;''y' AND c<>3", "é 'é", "", "\x00\udc80 '\n' ;;", "a<=b>=c<>d"))
def test_tokens_are_the_text(text: str) -> None:
    assert "".join(it.text for it in tokens(text)) == text
    assert all(encode(text)[it.start:it.end] == encode(it.text) for it in tokens(text))


def test_statements_are_parted_outside_of_texts() -> None:
    text = " SELECT 'a;b''; c' ;\n;; é ; MOMENT 5;  last 'open ;"
    found = statements_of(text)
    assert [it.text for it in found] == ["SELECT 'a;b''; c'", "é", "MOMENT 5", "last 'open ;"]
    assert all(encode(text)[it.start:].startswith(encode(it.text)) for it in found)
    assert [it.word for it in found] == ["SELECT", "", "MOMENT", "last"]


def moment(kind: str, text: str) -> int:
    if text not in ("2026-03-31", "12:00"):
        raise ValueError(text)
    return 7 if kind == "DAY" else 123456789012


def test_places_are_mapped_back() -> None:
    """Each byte that the engine gets unchanged is at its place in what was typed."""
    typed = Statement("SELECT é, a\r\nFROM t\tWHERE a = 'AS OF DAY 1' AS\nOF DAY 2026-03-31 ORDER BY a DESC, b LIMIT 3", 0)
    made = prepare(typed, moment)
    assert made.sent == "SELECT é, a  FROM t\tWHERE a = 'AS OF DAY 1' AS OF MOMENT 7".encode()
    assert [(it.column, it.falling) for it in made.order] == [("a", True), ("b", False)] and made.limit == 3
    text = encode(typed.text)
    for at, byte in enumerate(made.sent[:made.sent.index(b"MOMENT")]):
        assert made.typed_offset(at) == at and (text[at] == byte or text[at] in b"\r\n" and byte == 0x20)
    assert text[made.typed_offset(made.sent.index(b"MOMENT") + 3):].startswith(b"DAY")
    assert made.typed_offset(len(made.sent)) == text.index(b" ORDER")
    longer = prepare(Statement("SELECT a FROM t AS OF TIME 12:00", 0), moment)
    assert longer.sent.endswith(b"MOMENT 123456789012") and longer.typed_offset(len(longer.sent)) == len("SELECT a FROM t AS OF TIME 12:00")


@pytest.mark.parametrize("text, fault", (("SELECT a FROM t WHERE a = 'x\ny'", ("LineBreak", 28)), ("SELECT a FROM t AS OF DAY 5", ("NoDay", 26)),
                                         ("SELECT a FROM t AS OF TIME", ("NoTime", 26)), ("SELECT a FROM t ORDER BY a b", ("Unexpected", 27))))
def test_what_the_front_refuses(text: str, fault: tuple[str, int]) -> None:
    with pytest.raises(Refused) as refused:
        prepare(Statement(text, 0), moment)
    assert (refused.value.kind, *refused.value.numbers) == fault and refused.value.place is not None and refused.value.place.offset == fault[1]


def test_records_of_blocks() -> None:
    """A record is found where the csv module has it, whatever ends its lines, with the line and the byte of a field."""
    draw = random.Random(20261205)
    for _ in range(200):
        rows = [["".join(draw.choice('ab",\n é') for _ in range(draw.randrange(5))) for _ in range(3)] for _ in range(1 + draw.randrange(6))]
        ends = draw.choice(("\n", "\r\n"))
        lines = [",".join(map(field, row)) + ends for row in rows]
        text = "\ufeff" * draw.randrange(2) + "".join(it + ends * draw.randrange(2) for it in lines)
        number, place = draw.randrange(len(rows)), draw.randrange(3)
        found = find_record(iter(io.BytesIO(text.encode()).readline, b""), 1, number + 1, place + 1)
        assert found is not None and found.field == rows[number][place]
        front = text.encode().index(lines[number].encode()) if lines.count(lines[number]) == 1 else -1
        if front >= 0:
            assert found.line == text.encode()[:front].count(b"\n") + 1
        if found.offset is not None and number:
            assert found.text[found.offset:].startswith(field(rows[number][place]).split("\n")[0].encode())


def test_cases_of_faults() -> None:
    """The cases that docs/FORMATS.md has a sentence for; a sentence is one that the document has."""
    for text, offset, fault, case in ((b'SELECT "a"', 7, "BadByte", "a double quote"), (b"a != 2", 2, "BadByte", "not equal"), (b"a = 1.5", 5, "BadByte", "a decimal"),
                                      (b"select", 0, "Unexpected", "a keyword in lower case"), (b"COUNT FROM t", 12, "Unexpected", "no range"),
                                      (b"SELECT a FROM", 13, "Unexpected", "the end"), (b"SELECT COUNT(a)", 12, "Unexpected", "an aggregate"),
                                      (b"MOMENT 2026-01-31", 11, "Unexpected", "a date"), (b"hello", 0, "Unexpected", "the first word"),
                                      (b"SELECT a FROM t GROUP BY b", 16, "Unexpected", "GROUP"), (b"SELECT a FROM t LIKE", 16, "Unexpected", "LIKE"),
                                      (b"CREATE TABLE t (" + b"a INT, " * 16 + b"b INT)", 16 + 7 * 15 + 5, "Unexpected", "a seventeenth column")):
        assert text_case(text, offset, fault) == case, text
        assert advice(fault, case) not in ("", advice(fault)), case
    for text, name, case in (("", "a", "an empty field"), ("", "valid_to", "an empty valid_to"), ("2026-01-31", "a", "a date"), ("31.01.2026", "a", "a date"),
                             ("12.50", "a", "a decimal"), (" 1", "a", "a space"), ("9" * 20, "a", "past 64 bits"), ("x", "a", "")):
        assert field_case(text, "NotInt", name) == case and advice("NotInt", case)
    for line, case in ((b"\xef\xbb\xbfa> S", "a byte order mark"), (b" go;\n", "a GO of another form"), (b"SELECT a", "no session"), (b"1,2", "")):
        assert line_case(line) == case and advice("script NoSession", case)
    for fault in ("LineBreak", "NoDay", "NoTime", "NoSeconds"):
        assert advice(fault)


def test_a_caret_stands_under_what_is_meant() -> None:
    assert shown("é漢 x".encode(), 6) == ["    é漢 x", "    " + " " * 4 + "^"]
    assert shown(b"a\tb\x01c", 3) == ["    a\tb?c", "     \t ^"]
    long = b"x" * 500
    text, caret = shown(long, 300)
    assert text == "    .. " + "x" * 200 + " .." and caret.index("^") == 4 + 3 + 60
    assert shown(b"one\ntwo\nthree", 5) == ["    two", "     ^"]


def test_rows_are_spelled_as_the_engine_spells_them() -> None:
    for row, line in ((("",), '""\n'), (("a", ""), "a,\n"), (("a,b", 'c"d'), '"a,b","c""d"\n'), (("x\ry", "\n"), '"x\ry","\n"\n'), ((" a ", "'"), " a ,'\n")):
        assert csv_line(row) == line


def test_answers_as_values() -> None:
    from datetime import date
    from decimal import Decimal

    raw = b'1,"a\nb",250,20543\n2,,-5,FOREVER\n'
    answer = Answer(Rows("a", 3, 2, ("k", "v", "p", "d"), raw), (INT, TEXT, parse("DECIMAL(2)"), parse("DATE")))
    assert list(answer) == [(1, "a\nb", Decimal("2.50"), date(2026, 3, 31)), (2, "", Decimal("-0.05"), None)]
    assert list(answer.dicts())[0] == {"k": 1, "v": "a\nb", "p": Decimal("2.50"), "d": date(2026, 3, 31)}
    out = io.BytesIO()
    answer.write_csv(out)
    answer.write_json(out)
    assert out.getvalue().decode() == ('k,v,p,d\n1,"a\nb",2.50,2026-03-31\n2,,-0.05,FOREVER\n'
                                       '{"k": 1, "v": "a\\nb", "p": 2.50, "d": "2026-03-31"}\n{"k": 2, "v": "", "p": -0.05, "d": null}\n')
    table = io.BytesIO()
    write_table([("k", "v"), ("1", "x"), ("", "yy"), ("-12/3", "")], table)
    assert table.getvalue() == b"    k  v\n    1  x\n       yy\n-12/3\n"


def test_the_csv_module_reads_what_is_spelled() -> None:
    draw = random.Random(20261206)
    rows = [tuple("".join(draw.choice('ab",\n\r ') for _ in range(draw.randrange(5))) for _ in range(1 + draw.randrange(3))) for _ in range(500)]
    text = "".join(map(csv_line, rows))
    assert [tuple(it) for it in csv.reader(io.StringIO(text, newline=""))] == rows
