"""Sheets: what import, load and sync make of a file, and that each of them is done whole or not at all."""
from __future__ import annotations

import csv
import io
import os
import random
import subprocess
import time
from typing import Any, Sequence

import pytest

from conftest import Done, program, run

from timeline import kinds, loads, notes, sheets
from timeline.errors import Refused, TimelineError
from timeline.journal import Journal

Rows = Sequence[Sequence[str]]


def csv_of(rows: Rows) -> bytes:
    out = io.StringIO()
    csv.writer(out).writerows(rows)
    return out.getvalue().encode()


def asked(folder: str, question: str) -> list[list[str]]:
    """The rows of an answer, its names first."""
    done = run(["ask", question], folder=folder)
    assert done.status == 0, done
    return list(csv.reader(io.StringIO(done.out, newline="")))


def sheet_of(data: bytes) -> sheets.Sheet:
    return sheets.Sheet(io.BytesIO(data), "sheet")


def listed(folder: str) -> str:
    return run(["log", "--csv"], folder=folder).out


# Kinds that come back the same

GUESSES = [
    (["1", "0", "-7", "9223372036854775807"], "INT"),
    (["9223372036854775808", "1"], "TEXT"),
    (["273", "0273"], "TEXT"),
    (["+44", "44"], "TEXT"),
    (["-0", "1"], "TEXT"),
    (["1e5", "2"], "TEXT"),
    (["2800.50", "-0.05", "0.00"], "DECIMAL(2)"),
    (["2800.50", "2800.5"], "TEXT"),
    (["2800.50", "2800"], "TEXT"),
    (["-0.00", "1.00"], "TEXT"),
    (["01.50", "1.50"], "TEXT"),
    (["92233720368547758.07", "1.00"], "DECIMAL(2)"),
    (["92233720368547758.08", "1.00"], "TEXT"),
    (["2026-03-31", "0001-01-01", "9999-12-31", "2024-02-29"], "DATE"),
    (["2026-02-29"], "TEXT"),
    (["2026-3-1"], "TEXT"),
    (["20260331"], "INT"),
    (["2026-03-31T12:00:05", "1969-12-31T23:59:59"], "TIME"),
    (["2026-03-31T12:00"], "TEXT"),
    (["2026-03-31T24:00:00"], "TEXT"),
    (["2026-03-31", "7"], "TEXT"),
    (["7", "", "8"], "TEXT"),
    (["", ""], "TEXT"),
    (["Doe, J.", "x\r\ny"], "TEXT"),
    (["FOREVER", "FOREVER"], "TEXT"),
    (["2026-03-31", "FOREVER"], "TEXT"),
]


@pytest.mark.parametrize("cells,kind", GUESSES)
def test_a_column_has_the_kind_that_shows_its_cells_as_they_are(cells: list[str], kind: str) -> None:
    made = loads.plan("t", sheet_of(csv_of([["k", "c"], *([str(at), cell] for at, cell in enumerate(cells))])), "k")
    assert str(made.target.columns[1].kind) == kind


@pytest.mark.parametrize("kind", sorted({kind for _, kind in GUESSES}))
def test_each_cell_of_a_kind_comes_back(kind: str) -> None:
    meant = kinds.parse(kind)
    for cells, name in GUESSES:
        for cell in cells if name == kind else ():
            assert meant.shown(meant.cell(cell)) == cell


def test_an_imported_sheet_comes_back_cell_by_cell(journal: str) -> None:
    numbers = random.Random(7)
    makers = [
        lambda: f"0{numbers.randrange(10**6)}", lambda: f"+{numbers.randrange(100)}", lambda: str(numbers.randrange(-5, 10**12)),
        lambda: f"{numbers.randrange(10**5)}.{numbers.randrange(100):02}", lambda: f"20{numbers.randrange(100):02}-0{numbers.randrange(1, 10)}-1{numbers.randrange(9)}",
        lambda: "".join(numbers.choice("a,\"'\r\né\\.0") for _ in range(numbers.randrange(6))), lambda: f"{numbers.randrange(99)}.{numbers.randrange(1000)}",
    ]
    for number in range(6):
        columns = [numbers.choice(makers) for _ in range(numbers.randrange(1, 15))]
        rows = [["k", *(f"c{at}" for at in range(len(columns)))]]
        rows += [[str(at), *(make() for make in columns)] for at in range(numbers.randrange(1, 40))]
        done = run(["import", f"t{number}", "--key", "k"], csv_of(rows), journal)
        assert done.status == 0, done
        assert asked(journal, f"SELECT * FROM t{number}") == rows, done.out


def test_telephone_numbers_and_a_quoted_line_end_before_numbers(journal: str) -> None:
    rows = [["id", "text", "phone", "pay"], ["1", "two\r\nlines", "0273", "10"], ["2", "x", "+44", "20"]]
    done = run(["import", "t", "--key", "id"], csv_of(rows), journal)
    assert done.out.startswith("CREATE TABLE t (id INT, text TEXT, phone TEXT, pay INT) KEY id\n")
    assert "phone is TEXT, since 0273 in line 2 would come back as 273" in done.err
    assert asked(journal, "SELECT * FROM t") == rows


def test_what_is_said_of_columns_that_might_be_numbers() -> None:
    said: list[str] = []
    rows = [["k", "pay", "fee", "zip", "tax", "day", "rate", "name", "code", "born", "cost"],
            ["1", "2800.5", "", "01", "n/a", "2026-01-01", "1,5", "Ann", "7", "2000-02-29", "1,234"],
            ["2", "2800", "5", "2", "5", "two\r\nlines", "2.000,25", "Bob", "x", "2001-02-29", "12,000"],
            ["3", "1.5", "5", "2", "7", "2026-01-02", "3,5", "Cy", "y", "2004-02-29", "5,5"]]
    loads.plan("t", sheet_of(csv_of(rows)), "k", say=said.append)
    assert [it.partition(";")[0] for it in said] == [
        "pay is TEXT, since 2800 in line 3 would come back as 2800.0", "fee is TEXT, since it has empty cells",
        "zip is TEXT, since 01 in line 2 would come back as 1", "tax is TEXT, since line 2 has 'n/a', which is no number",
        "day is TEXT, since line 3 has 'two\\r\\nlines', which is no day",
        "rate is TEXT, since line 2 has '1,5', with a decimal comma: save the sheet with points, as 1.5",
        "born is TEXT, since line 3 has '2001-02-29', which is no day",
        "cost is TEXT, since line 2 has '1,234', with a comma: save the sheet without it, as 1234, or with a point, as 1.234"]


def test_an_odd_cell_after_many_is_said() -> None:
    said: list[str] = []
    rows = [["k", "pay"], *([str(at), "n/a" if at == 7_000 else str(at)] for at in range(12_000))]
    assert str(loads.plan("t", sheet_of(csv_of(rows)), "k", say=said.append).target.columns[1].kind) == "TEXT"
    assert said == ["pay is TEXT, since line 7002 has 'n/a', which is no number"]


def test_kinds_that_are_said_and_cells_that_are_missing(journal: str) -> None:
    words = ["import", "t", "--key", "No", "--kind", "pay=decimal(2)", "--kind", "Hired On=TEXT", "--missing", "pay=0", "--missing", "note=none"]
    done = run(words, "No,pay,Hired On,note\n1,2800.5,2026-01-01,\n2,,2026-01-02,x\n", journal)
    assert done.out.splitlines()[0] == "CREATE TABLE t (No INT, pay DECIMAL(2), hired_on TEXT, note TEXT) KEY No", done
    assert asked(journal, "SELECT * FROM t")[1:] == [["1", "2800.50", "2026-01-01", "none"], ["2", "0.00", "2026-01-02", "x"]]
    done = run(["load", "t"], "No,pay,Hired On,note\n3,,2026-01-01,\n", journal)
    assert done.status == 20 and "NotDecimal 2 2" in done.out and "--missing pay=.." in done.err
    done = run(["load", "t", "--missing", "pay=1.5"], "No,pay,Hired On,note\n3,,2026-01-01,\n", journal)
    assert done.status == 0 and asked(journal, "SELECT pay FROM t WHERE No = 3")[1] == ["1.50"]


@pytest.mark.parametrize("words,why", [
    (["--key", "nothing"], "no column is called nothing, which is to be the key; there are id, emp_no"),
    (["--key", "id", "--kind", "id=FLOAT"], "A kind is INT"),
    (["--key", "id", "--kind", "x=INT"], "no column is called x"),
    (["--key", "id", "--kind", "id=DATE", "--missing", "id=x"], "--missing id=x: id is DATE"),
    (["--key", "id", "--valid"], "the header names valid_from and valid_to"),
    ([], "--key"),
])
def test_what_is_wrong_with_an_import_is_said(journal: str, words: list[str], why: str) -> None:
    done = run(["import", "t", *words], "id,Emp No\n1,2\n", journal)
    assert done.status in (2, 20) and why in done.err, done
    assert listed(journal) == "version,session,table,what,closed,opened,moment,floor\n"


def test_sums_of_decimals_are_exact_and_averages_rounded(journal: str) -> None:
    run(["import", "t", "--key", "id", "--no-stamp"], "id,pay,day\n1,0.10,2026-01-01\n2,0.20,2026-01-03\n3,-2.35,2026-01-02\n", journal)
    assert asked(journal, "SUM pay FROM t OVER SYSTEM 4 TO 5") == [["from", "to", "value"], ["4", "5", "-2.05"]]
    done = run(["ask", "AVG pay FROM t OVER SYSTEM 4 TO 5; MAX day FROM t OVER SYSTEM 4 TO 5"], folder=journal)
    assert done.out.splitlines()[1::3] == ["4,5,-0.683333", "4,5,2026-01-03"] and "rounded to 6 places" in done.err, done
    for literal, advice in (("0.105", "more than 2 decimals"), ("'x'", "A decimal stands bare")):
        done = run(["ask", f"SELECT id FROM t WHERE pay = {literal}"], folder=journal)
        assert done.status == 20 and advice in done.err, done
    assert asked(journal, "SELECT id FROM t WHERE pay < -0.5 AND day <> '2026-01-03' OR pay = 0.2") == [["id"], ["2"], ["3"]]
    done = run(["ask", "SELECT id FROM t WHERE day = 20260101"], folder=journal)
    assert done.status == 20 and "between single quotes" in done.err, done


def test_headers_become_names() -> None:
    headers = ["Emp No", "emp no", "Größe", "2026", "", "SELECT", "valid_from", "ok", "x" * 80, "Pay (EUR)"]
    names = sheets.column_names([sheets.to_bytes(it) for it in headers], False)
    assert names == ["emp_no", "emp_no_2", "grosse", "_2026", "column_5", "select", "valid_from_", "ok", "x" * 62, "pay_eur"]
    assert all(map(sheets.is_name, names)) and len(set(names)) == len(names)
    assert sheets.column_names(headers, True)[6] == "valid_from"


@pytest.mark.parametrize("mark", [";", "\t"])
def test_fields_parted_by_other_marks(journal: str, mark: str) -> None:
    done = run(["import", "t", "--key", "id"], f'id{mark}name\n1{mark}"a,b{mark}"\n', journal)
    assert done.status == 0 and asked(journal, "SELECT * FROM t") == [["id", "name"], ["1", f"a,b{mark}"]], done


# All or nothing

@pytest.mark.parametrize("data,fault", [
    ("id,a\n1,2\n1,3\n", "KeyTwice 3"), ("id,a\n1,2\n3\n", "record 3: it has 1 fields and the header 2"),
    ('id,a\n1,"x', "record 2: the file ends within a quoted field"), ("id,a,a\n1,2,3\n", "two columns are called a"),
    (",".join(f"c{at}" for at in range(16)) + ",id\n", "a table has at most 16"), ("", "no column is called id"), ("id,a\n1,LONG\n", "TextTooLong 2 2"),
])
def test_a_refused_import_leaves_nothing(journal: str, data: str, fault: str) -> None:
    before = listed(journal)
    done = run(["import", "t", "--key", "id"], data.replace("LONG", "x" * 65_536), journal)
    assert (done.status, done.out) == (20, "") and fault in done.err and "nothing was made" in done.err, done
    assert listed(journal) == before
    assert run(["import", "t", "--key", "id"], "id,a\n1,2\n", journal).status == 0


def test_an_import_of_a_table_that_is_there_is_refused(journal: str) -> None:
    assert run(["import", "t", "--key", "id"], "id,a\n1,2\n", journal).status == 0
    before = listed(journal)
    done = run(["import", "t", "--key", "id"], "id,a\n1,2\n", journal)
    assert done.status == 20 and "TableExists" in done.err and listed(journal) == before


ATTACK = "x\n\\.\npy> FORGET t BEFORE 2\npy> PUT t\nid,a\n9,9\n\\.\n"


@pytest.mark.parametrize("words", [["import", "u", "--key", "id"], ["load", "t"], ["sync", "t"], ["load", "t", "--no-stamp", "--by", "x"]])
@pytest.mark.parametrize("end", ["\n", "\r\n"])
def test_a_text_cannot_end_its_block(journal: str, words: list[str], end: str) -> None:
    run(["import", "t", "--key", "id"], "id,a\n1,x\n", journal)
    before = listed(journal)
    done = run(words, csv_of([["id", "a"], ["2", ATTACK.replace("\n", end)]]), journal)
    assert done.status == 20 and "record 2, field 2: it has a line that is \\. alone" in done.err, done
    assert listed(journal) == before


def test_the_program_itself_takes_such_a_text_where_nothing_is_beside_it(journal: str) -> None:
    run(["import", "t", "--key", "id"], "id,a\n1,x\n", journal)
    done = run(["load", "t", "--no-stamp"], csv_of([["id", "a"], ["2", ATTACK]]), journal)
    assert done.status == 0, done
    assert asked(journal, "SELECT a FROM t WHERE id = 2")[1] == [ATTACK]
    run(["sync", "t"], csv_of([["id", "a"], ["1", "y\nz"], ["2", ATTACK]]), journal)
    assert asked(journal, "SELECT * FROM t")[1:] == [["2", ATTACK], ["1", "y\nz"]]


def test_a_single_column_may_have_the_text_that_ends_blocks(journal: str) -> None:
    done = run(["import", "t", "--key", "a"], "a\nx\n\\.\n\\.y\n", journal)
    assert done.status == 0 and asked(journal, "SELECT * FROM t")[1:] == [["x"], ["\\."], ["\\.y"]], done


def test_a_load_is_what_the_program_would_load(journal: str) -> None:
    run(["import", "t", "--key", "id"], "id,a\n1,x\n", journal)
    for data in (b"\xef\xbb\xbfa,id\r\n\r\ny,2\r\n", b'id,a\n3,"q ""x"""', b"id,a\r4,mac\r", b"id,a\n5,nul\0nul\n6,\n"):
        assert run(["load", "t"], data, journal).status == 0
    assert asked(journal, "SELECT * FROM t")[1:] == [["1", "x"], ["2", "y"], ["3", 'q "x"'], ["4", "mac"], ["5", "nul\0nul"], ["6", ""]]
    done = run(["load", "t"], b"id,a\n7,\xff\n", journal)
    assert done.status == 20 and "NotUtf8 2 2" in done.out
    for words in (["import", "p", "--key", "id"], ["load", "p"], ["sync", "p"]):     # no period: a header that names one gets another name
        assert run(words, "id,valid_from\n1,5\n", journal).status == 0


def test_records_are_parted_as_the_program_parts_them(journal: str) -> None:
    """Random bytes through the front's reader, and through the program's."""
    numbers = random.Random(11)
    files = [b"k,a\n" + b"".join(b"%d,%s" % (at, bytes(numbers.choice(b',"\r\n\0x \xc3') for _ in range(numbers.randrange(7))) + b"\n") for at in range(5))
             for _ in range(150)]
    script = b"a> CREATE TABLE t (k TEXT, a TEXT) KEY k\nGO\n"
    for data in files:
        script += b"a> PUT t\n" + data.replace(b"\xc3", b"\xc3\xa9") + b"\\.\na> SELECT * FROM t\nGO\n"
    done = subprocess.run([program("timeline"), "run"], input=script, cwd=journal, stdout=subprocess.PIPE, check=True)
    from timeline.replies import Refusal, read_replies
    replies = list(read_replies(io.BytesIO(done.stdout)))[1:]
    standing: dict[str, list[str]] = {}
    for data, put, seen in zip(files, replies[::2], replies[1::2]):
        try:
            rows = [row for chunk in sheet_of(data.replace(b"\xc3", b"\xc3\xa9")).chunks() for row in chunk]
        except Refused as refused:
            if refused.kind == "OpenQuotes":
                standing = {sheets.to_bytes(row[0]): [sheets.to_bytes(it) for it in row] for row in seen.rows()}
                continue
            assert isinstance(put, Refusal) and (put.fault.name, put.fault.numbers) == (refused.kind, refused.numbers), data
            continue
        if isinstance(put, Refusal):
            assert put.fault.name == "KeyTwice" and len({row[0] for row in rows}) < len(rows), (data, put)
            continue
        for row in rows:
            standing.pop(row[0], None)
            standing[row[0]] = row
        assert [[sheets.to_bytes(it) for it in row] for row in seen.rows()] == list(standing.values()), data


CUT_OFF = ('id,a\n1,"two\nlines"\n\n2,"y\n3,z\n', "line 5, record 3: the file ends within a quoted field"), ('id,"a\n1,x\n', "line 1, record 1: the file ends within")


@pytest.mark.parametrize("words", [["import", "u", "--key", "id"], ["load", "t"], ["load", "t", "--no-stamp"], ["sync", "t"]], ids=" ".join)
@pytest.mark.parametrize("data, told", CUT_OFF)
def test_a_sheet_that_is_cut_off_is_refused_with_its_line(journal: str, words: list[str], data: str, told: str) -> None:
    run(["import", "t", "--key", "id"], "id,a\n1,x\n", journal)
    before = listed(journal)
    done = run(words, data, journal)
    assert done.status == 20 and told in done.err and listed(journal) == before, done


@pytest.mark.parametrize("words", [["import", "u", "--key", "id", "--kind", "id=INT"], ["load", "t"], ["load", "t", "--no-stamp"], ["sync", "t"]], ids=" ".join)
def test_a_refusal_names_the_line(journal: str, words: list[str]) -> None:
    run(["import", "t", "--key", "id"], "id,a\n1,x\n", journal)
    done = run(words, 'id,a\r\n\r\n1,"two\r\nlines"\r\n7,LONG\r\n'.replace("LONG", "x" * 65_536), journal)
    assert done.status == 20 and "TextTooLong 3 2" in done.err and "line 5" in done.err and "record 3" in done.err, done


@pytest.mark.parametrize("mark, code", [(b"\xff\xfe", "utf-16-le"), (b"\xfe\xff", "utf-16-be")])
def test_a_sheet_of_another_encoding_is_named(journal: str, mark: bytes, code: str) -> None:
    for words in (["import", "u", "--key", "id"], ["load", "t"], ["sync", "t"]):
        run(["import", "t", "--key", "id"], "id,a\n1,x\n", journal)
        done = run(words, mark + "id,a\n2,y\n".encode(code), journal)
        assert done.status == 20 and "it is UTF-16" in done.err and "CSV UTF-8" in done.err, done
        assert words[0] != "load" or not done.out.startswith("load @0"), done


# Blocks

def test_a_sheet_that_no_block_can_hold_is_one_unit(journal: str, monkeypatch: pytest.MonkeyPatch) -> None:
    monkeypatch.setattr(loads, "MOST_ROWS", 3)
    monkeypatch.setattr(sheets, "CHUNK", 2)
    said: list[str] = []
    data = csv_of([["id", "a"], *([str(at), f"text {at}"] for at in range(8))])
    made = loads.plan("t", sheet_of(data), "id")
    done = loads.import_sheet(Journal(journal), made, say=said.append)
    assert len(done.replies) == 1 + 4 and "4 versions" in said[0]
    assert asked(journal, "SELECT * FROM t") == list(csv.reader(io.StringIO(data.decode())))
    twice = csv_of([["id", "a"], *([str(at % 7), "x"] for at in range(8))])
    with pytest.raises(Refused) as caught:
        loads.import_sheet(Journal(journal), loads.plan("u", sheet_of(twice), "id"))
    assert (caught.value.kind, caught.value.numbers) == ("KeyTwice", (9,))
    late = csv_of([["id", "a"], *([str(at), "x" * (70_000 if at == 6 else 1)] for at in range(8))])
    with pytest.raises(Refused) as caught:
        loads.import_sheet(Journal(journal), loads.plan("u", sheet_of(late), "id"))
    assert (caught.value.kind, caught.value.place.record, caught.value.place.field) == ("TextTooLong", 8, 2)
    assert ",u," not in listed(journal)


# Moments

def test_a_load_today_changes_nothing_that_was_known(journal: str) -> None:
    """A journal whose last moment is in November: what is loaded now was not known then."""
    assert run(["import", "t", "--key", "id", "--no-stamp"], "id,a\n1,old\n", journal).status == 0
    script = "a> CREATE TABLE timeline_kinds (place TEXT, kind TEXT) KEY place\na> PUT timeline_kinds\nplace,kind\nmoment,TIME\n\\.\na> MOMENT 1700000000\n"
    assert run(["run"], script, journal).status == 0
    question = "SELECT a FROM t AS OF DAY 2023-11-20"
    before = asked(journal, question)
    assert before == [["a"], ["old"]]
    assert run(["load", "t"], "id,a\n1,new\n", journal).status == 0
    assert asked(journal, question) == before
    assert asked(journal, "SELECT a FROM t") == [["a"], ["new"]]
    assert run(["load", "t", "--no-stamp"], "id,a\n1,later\n", journal).status == 0


def test_moments_of_another_unit_are_left_alone(journal: str) -> None:
    assert run(["run"], "a> CREATE TABLE t (id INT) KEY id\na> MOMENT 20260131\n", journal).status == 0
    done = run(["load", "t"], "id\n1\n", journal)
    assert done.status == 0 and "not stamped: nobody has said" in done.err
    done = run(["--stamp", "load", "t"], "id\n2\n", journal)
    assert done.status == 20 and "NoSeconds 20260131" in done.out, done
    assert run(["ask", "SELECT * FROM t AS OF DAY 2026-01-31"], folder=journal).status == 20
    assert ",moment,0,0,20260131," in listed(journal) and listed(journal).count("moment,0,0") == 1


def test_two_loads_within_a_second(journal: str, monkeypatch: pytest.MonkeyPatch) -> None:
    monkeypatch.setattr(time, "time", lambda: 1_800_000_000.5)
    sheet = b"id,a\n%d,x\n"
    loads.import_sheet(Journal(journal), loads.plan("t", sheet_of(sheet % 1), "id"))
    assert len(loads.load(Journal(journal), "t", sheet_of(sheet % 2)).replies) == 1
    said: list[str] = []
    monkeypatch.setattr(time, "time", lambda: 1_700_000_000.0)
    loads.load(Journal(journal), "t", sheet_of(sheet % 3), say=said.append)
    assert said == ["not stamped: the last moment that was stated, 1800000000, is later than now"]
    assert listed(journal).count(",moment,0,0,") == 1 and len(asked(journal, "SELECT id FROM t")) == 4


# Notes

def test_who_and_why_are_kept_and_listed(journal: str) -> None:
    why = 'pay run, "late"\nünd'
    assert run(["import", "t", "--key", "id", "--by", "anna", "--because", why], "id,a\n1,x\n", journal).status == 0
    assert run(["--by=ben", "load", "t"], "id,a\n2,x\n", journal).status == 0
    assert run(["load", "t"], "id,a\n3,x\n", journal).status == 0
    rows = list(csv.DictReader(io.StringIO(listed(journal))))
    noted = {(row["table"], row["what"]): (row["who"], row["why"], row["source"]) for row in rows if row["who"]}
    assert noted == {("t", "change"): ("ben", "", "standard input")} and [row["who"] for row in rows if row["table"] == "t"] == ["", "anna", "ben", ""]
    assert [row["why"] for row in rows if row["who"] == "anna"] == [why]
    before = listed(journal)
    assert run(["load", "t", "--by", "carl"], "id,a\nx,x\n", journal).status == 20
    assert listed(journal) == before


def test_log_between_days(journal: str) -> None:
    script = ["a> CREATE TABLE timeline_kinds (place TEXT, kind TEXT) KEY place", "a> PUT timeline_kinds", "place,kind", "moment,TIME", "\\."]
    for day in (1_767_225_600, 1_767_312_000, 1_767_398_400):       # from the first day of 2026 on, at midnight
        script += [f"a> MOMENT {day}", f"a> CREATE TABLE t{day} (id INT) KEY id"]
    utc = {**os.environ, "TZ": "UTC"}
    assert run(["run"], "\n".join([*script, f"a> MOMENT {1 << 50}", ""]), journal).status == 0
    done = run(["log", "--csv", "--between", "2026-01-02", "2026-01-02"], folder=journal, env=utc)
    assert [line.split(",")[0] for line in done.out.splitlines()] == ["version", "5", "6"], done
    lines = run(["log", "--times", "--csv"], folder=journal, env=utc).out.splitlines()
    assert lines[3].split(",")[6] == "2026-01-01T00:00:00" and lines[-1].split(",")[6] == str(1 << 50)
    assert lines[8].split(",")[8] == "2026-01-03T00:00:00"
    assert run(["log", "--between", "2026-01-02", "2026-13-02"], folder=journal).status == 2


# sync

def test_a_sync_is_what_the_sheet_says(journal: str) -> None:
    run(["import", "t", "--key", "id"], "id,a,pay\n1,x,1.50\n2,y,2.50\n3,z,3.50\n", journal)
    sheet = 'pay,id,a\n1.50,+1,x\n2.75,2,"two\nlines"\n4.50,4,w\n'
    before = listed(journal)
    done = run(["sync", "t", "--dry-run"], sheet, journal)
    assert (done.status, done.out) == (0, "1 new, 1 changed, 1 gone, 1 unchanged\n") and listed(journal) == before
    done = run(["sync", "t"], sheet, journal)
    assert (done.status, done.out, done.err) == (0, "1 new, 1 changed, 1 gone, 1 unchanged\n", "")
    assert asked(journal, "SELECT * FROM t")[1:] == [["1", "x", "1.50"], ["2", "two\nlines", "2.75"], ["4", "w", "4.50"]]
    assert listed(journal).count(",t,change,") == before.count(",t,change,") + 1, "a night is one version"
    before = listed(journal)
    done = run(["sync", "t"], sheet, journal)
    assert done == (0, "0 new, 0 changed, 0 gone, 3 unchanged\n", "timeline: nothing differs: no version was made\n") and listed(journal) == before
    assert run(["sync", "t", "--keep"], "id,a,pay\n5,v,5.00\n", journal).out == "1 new, 0 changed, 0 gone, 0 unchanged\n"
    assert len(asked(journal, "SELECT id FROM t")) == 5


def test_a_sync_with_periods(journal: str) -> None:
    sheet = "id,a,valid_from,valid_to\n1,x,2026-01-01,2026-02-01\n1,y,2026-02-01,FOREVER\n2,z,2026-01-01,FOREVER\n"
    done = run(["import", "t", "--key", "id", "--valid"], sheet, journal)
    assert done.out.splitlines()[0] == "CREATE TABLE t (id INT, a TEXT) KEY id VALID DATE", done
    assert run(["sync", "t"], sheet, journal).out == "0 new, 0 changed, 0 gone, 3 unchanged\n"
    sheet = "id,a,valid_from,valid_to\n1,x,2026-01-01,2026-03-01\n1,y,2026-03-01,FOREVER\n2,w,2026-01-01,FOREVER\n"
    assert run(["sync", "t"], sheet, journal).out == "2 new, 1 changed, 2 gone, 0 unchanged\n"
    assert sorted(asked(journal, "SELECT * FROM t")) == sorted(csv.reader(io.StringIO(sheet)))
    assert asked(journal, "SELECT a FROM t WHERE id = 1 VALID AT '2026-02-10'")[1:] == [["x"]]


def test_a_sync_that_no_block_can_hold(journal: str, monkeypatch: pytest.MonkeyPatch) -> None:
    """By parts, which are one unit: as many records as blocks, and periods of one key that overlap."""
    monkeypatch.setattr(loads, "MOST_ROWS", 3)
    monkeypatch.setattr(loads, "MOST_SYNC", 3)
    monkeypatch.setattr(sheets, "CHUNK", 2)
    run(["import", "t", "--key", "id"], "id,a\n" + "".join(f"{at},x\n" for at in range(12)), journal)
    wanted = [["id", "a"], *([str(at), "x" if at % 3 else "y"] for at in range(4, 16))]
    done = loads.sync(Journal(journal), "t", sheet_of(csv_of(wanted)))
    assert (done.difference.new, done.difference.changed, len(done.difference.gone), done.difference.same) == (4, 2, 4, 6)
    assert len(done.outcome.replies) == 5 and sorted(asked(journal, "SELECT * FROM t")) == sorted(wanted)
    run(["import", "v", "--key", "id", "--valid"], "id,valid_from,valid_to\n1,0,10\n", journal)
    with pytest.raises(Refused) as caught:
        loads.sync(Journal(journal), "v", sheet_of(b"id,valid_from,valid_to\n2,0,1\n1,0,8\n2,1,2\n1,7,FOREVER\n"))
    assert (caught.value.kind, caught.value.numbers) == ("KeyTwice", (5,)) and asked(journal, "SELECT * FROM v")[1:] == [["1", "0", "10"]]


@pytest.mark.parametrize("whole", [True, False])
def test_a_sync_with_periods_that_overlap_is_refused(journal: str, whole: bool) -> None:
    run(["import", "v", "--key", "id", "--valid"], "id,valid_from,valid_to\n1,0,10\n", journal)
    done = run(["sync", "v", *([] if whole else ["--keep"])], "id,valid_from,valid_to\n1,0,8\n1,7,FOREVER\n", journal)
    assert done.status == 20 and "KeyTwice 3" in done.err + "KeyTwice 3" * (not whole) and asked(journal, "SELECT * FROM v")[1:] == [["1", "0", "10"]], done


@pytest.mark.parametrize("sheet,gone", [("id,a\n", 20), ("id,a\n1,x\n2,x\n", 18), ("id,a\n" + "".join(f"{at},x\n" for at in range(9)), 11)])
def test_a_sync_ends_no_more_than_half_of_the_rows(journal: str, sheet: str, gone: int) -> None:
    run(["import", "t", "--key", "id"], "id,a\n" + "".join(f"{at},x\n" for at in range(20)), journal)
    before = listed(journal)
    done = run(["sync", "t"], sheet, journal)
    assert done.status == 20 and f"would end {gone} of the 20 rows" in done.err and "--allow-removals" in done.err and listed(journal) == before, done
    done = run(["sync", "t", "--allow-removals"], sheet, journal)
    assert done.status == 0 and f"{gone} gone" in done.out and len(asked(journal, "SELECT id FROM t")) == 21 - gone


@pytest.mark.parametrize("sheet,fault", [
    ('id,a\n1,x\n2,"y', "record 3: the file ends within a quoted field"), ("id,a\n1,x\n1,y\n", "record 3: its key"),
    ("id,a\n1,x\n+1,y\n", "record 3: its key"), ("id,a\nx,1\n", "record 2, field 1: id is INT"), ("id,b\n1,2\n", "'b' is no column of the table"),
    ("id\n1\n", "the header leaves out a"), ("id,a\n1\n", "record 2: it has 1 fields"), ("id,a\n1,x\n2,LONG\n", "TextTooLong 3 2"),
])
def test_a_refused_sync_changes_nothing(journal: str, sheet: str, fault: str) -> None:
    run(["import", "t", "--key", "id"], "id,a\n1,x\n2,y\n", journal)
    before = listed(journal)
    done = run(["sync", "t"], sheet.replace("LONG", "x" * 65_536), journal)
    assert done.status == 20 and fault in done.err and "nothing was changed" in done.err and listed(journal) == before, done


def test_a_sync_sees_what_came_between(journal: str, monkeypatch: pytest.MonkeyPatch) -> None:
    """A commit after the comparison, and before the lock is had."""
    run(["import", "t", "--key", "id"], "id,a\n1,x\n", journal)
    compare, calls = loads.compare, []

    def and_a_load(*words: Any) -> loads.Difference:
        found = compare(*words)
        calls.append(found)
        if len(calls) == 1:
            assert run(["load", "t"], "id,a\n2,y\n", journal).status == 0
        return found

    monkeypatch.setattr(loads, "compare", and_a_load)
    done = loads.sync(Journal(journal), "t", sheet_of(b"id,a\n1,z\n"))
    assert (len(calls), len(done.difference.gone)) == (2, 1) and asked(journal, "SELECT * FROM t")[1:] == [["1", "z"]]


def test_statuses_of_the_program_stay(room: str) -> None:
    for words in (["sync", "t"], ["load", "t"], ["import", "t", "--key", "id"]):
        done = run(words, "id,a\n1,2\n", room)
        assert (done.status, done.out.splitlines()[-1]) == (7, "! journal NotInitialised 0"), done
        assert run([*words, "/nowhere"], folder=room).status == 2


# Rooms

@pytest.mark.parametrize("command", [["sync", "t", "--allow-removals"], ["load", "t"], ["import", "u", "--key", "id"]])
@pytest.mark.parametrize("tmpdir", ["/nowhere", "/proc", "a\\b"])
def test_no_temporary_folder_is_wanted(journal: str, command: list[str], tmpdir: str) -> None:
    run(["import", "t", "--key", "id"], "id,a\n" + "".join(f"{at},x\n" for at in range(20)), journal)
    done = run(command, "id,a\n" + "".join(f"{at},y\n" for at in range(20)), journal, env={**os.environ, "TMPDIR": tmpdir})
    assert done.status == 0, done
    assert {row[1] for row in asked(journal, f"SELECT * FROM {command[1]}")[1:]} == {"y"}
    assert sorted(os.listdir(journal)) == ["timeline.tlj"]


def test_an_input_that_fails_is_said(journal: str) -> None:
    run(["import", "t", "--key", "id"], "id,a\n1,x\n", journal)
    before = listed(journal)
    for words in (["sync", "t"], ["load", "t"], ["import", "u", "--key", "id"]):
        done = run([*words, "/proc/self/mem"], folder=journal)
        assert (done.status, done.out) == (3, "! source\n") and listed(journal) == before, done


@pytest.mark.parametrize("signal", ["INT", "TERM", "KILL"])
def test_a_command_that_is_stopped_has_done_all_or_nothing(journal: str, signal: str) -> None:
    numbers = random.Random(signal)
    rows = 3_000
    data = os.path.join(journal, "sheet.csv")
    with open(data, "wb") as file:
        file.write(csv_of([["id", "a"], *([str(at), f"text {at}"] for at in range(rows))]))
    for number in range(6):
        from conftest import COMMAND

        process = subprocess.Popen([COMMAND, "import", f"t{number}", data, "--key", "id", "--by", "x"], cwd=journal, stdout=subprocess.PIPE, stderr=subprocess.PIPE)
        try:
            process.wait(numbers.random() * 0.8)
        except subprocess.TimeoutExpired:
            process.send_signal(getattr(__import__("signal"), f"SIG{signal}"))
        process.communicate()
        deadline = time.time() + 60
        while Journal(journal).is_held() and time.time() < deadline:
            time.sleep(0.02)
        done = run(["ask", f"COUNT FROM t{number} OVER SYSTEM ALL"], folder=journal)
        if done.status == 0:
            assert done.out.splitlines()[-1].endswith(f",{rows}"), done
        assert sorted(os.listdir(journal)) == ["sheet.csv", "timeline.tlj"]


# What a library sees

def test_errors_have_fields(journal: str) -> None:
    run(["import", "t", "--key", "id"], "id,pay\n1,2.50\n", journal)
    with pytest.raises(Refused) as caught:
        loads.load(Journal(journal), "t", sheet_of(b"id,pay\n2,2.505\n"))
    error = caught.value
    assert (error.kind, error.numbers, error.place.record, error.place.field) == ("NotDecimal", (2, 2), 2, 2)
    assert "more than 2 decimals" in error.advice and "pay is DECIMAL(2)" in str(error) and isinstance(error, TimelineError)
    assert notes.state_of(Journal(journal).look()).catalog.of("t", "pay") == kinds.Kind("DECIMAL", 2)


def test_a_sync_that_would_be_refused_says_so_when_it_is_only_tried(journal: str) -> None:
    run(["import", "t", "--key", "id"], "id,a\n" + "".join(f"{at},x\n" for at in range(30)), journal)
    before = listed(journal)
    done = run(["sync", "t", "--dry-run"], "id,a\n1,x\n", journal)
    assert (done.status, done.out) == (0, "0 new, 0 changed, 29 gone, 1 unchanged\n") and "would be refused" in done.err, done
    assert listed(journal) == before


@pytest.mark.parametrize("words", [["t", "--key", "id", "--key", "a"], ["timeline_notes", "--key", "id"]])
def test_an_import_that_is_none(journal: str, words: list[str]) -> None:
    done = run(["import", *words], "id,a\n1,x\n", journal)
    assert (done.status, done.out) == (2, "! usage\n") and len(listed(journal).splitlines()) == 1, done
