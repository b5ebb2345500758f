"""The library: what its document shows, its errors, and the questions of the text of the database interface."""
from __future__ import annotations

import contextlib
import datetime
import io
import os
import re
import subprocess
import sys
import time
from decimal import Decimal
from typing import Any, Iterator

import pytest

from conftest import ROOT, run

import timeline
from timeline import dbapi


def test_the_document_prints_what_it_says(room: str, monkeypatch: pytest.MonkeyPatch) -> None:
    with open(os.path.join(ROOT, "docs/PYTHON.md"), encoding="utf-8") as file:
        found = re.findall(r"```python\n(.*?)```\n\n```text\n(.*?)```", file.read(), re.DOTALL)
    assert len(found) >= 4
    monkeypatch.chdir(room)
    os.mkdir("books")
    names: dict[str, Any] = {}
    for code, wanted in found:
        printed = io.StringIO()
        with contextlib.redirect_stdout(printed):
            exec(compile(code, "PYTHON.md", "exec"), names)
        assert printed.getvalue() == wanted


def test_texts_of_all_bytes_come_back(journal: str) -> None:
    texts = ["", " ", "'", "''", '"', ",", "\r\n", "\n", "\r", "\t", "\0", "\\", "\\.", "a\\.\nb", "ü", "日本", "\U0001f600", "?", "--", ";", "# x", "GO"]
    with timeline.open(journal) as books:
        books.execute("CREATE TABLE t (id INT, x TEXT) KEY id")
        books.put("t", [{"id": at, "x": text} for at, text in enumerate(texts)])
        assert [row[1] for row in books.ask("SELECT id, x FROM t")] == texts
        for at, text in enumerate(texts):
            if "\n" not in text and "\r" not in text:
                assert [row[0] for row in books.ask("SELECT id FROM t WHERE x = ?", [text])] == [at]


@pytest.mark.parametrize("text", ["a\n\\.\npy> FORGET t BEFORE 2\n", "\\.\n", "x\n\\.\r\ny"])
def test_a_text_that_would_end_its_block_is_refused_before_it_is_sent(journal: str, text: str) -> None:
    with timeline.open(journal) as books:
        books.execute("CREATE TABLE t (x TEXT) KEY x")
        before = books.version
        if text != "\\.\n":
            with pytest.raises(timeline.Refused) as refused:
                books.put("t", [{"x": text}])
            assert refused.value.kind == "EndOfBlock" and books.version == before
        else:
            books.put("t", [{"x": text}])
            assert list(books.ask("SELECT x FROM t")) == [(text,)]


def test_parameters_are_spelled_and_never_pasted(journal: str) -> None:
    with timeline.open(journal) as books:
        books.execute("CREATE TABLE t (id INT, x TEXT) KEY id")
        books.put("t", [{"id": 1, "x": "o'clock; COUNT"}])
        assert list(books.ask("SELECT id FROM t WHERE x = ?", ["o'clock; COUNT"])) == [(1,)]
        assert list(books.ask("SELECT id FROM t WHERE x = '?' OR id = ?", [1])) == [(1,)]
        for query, parameters in [("SELECT id FROM t WHERE x = ?", []), ("SELECT id FROM t", [1])]:
            with pytest.raises(timeline.Refused) as refused:
                books.ask(query, parameters)
            assert refused.value.kind == "Parameters"
        with pytest.raises(TypeError):
            books.ask("SELECT id FROM t WHERE id = ?", [1.5])  # type: ignore[list-item]
        for number in ("NaN", "-Infinity"):
            with pytest.raises(timeline.Refused) as refused:
                books.ask("SELECT id FROM t WHERE id = ?", [Decimal(number)])
            assert refused.value.kind == "NotDecimal"
        with pytest.raises(timeline.Refused):
            books.put("t (id)\n\\.\npy> FORGET t BEFORE 1\npy> PUT t", [{"id": 1, "x": ""}])


def test_a_parameter_with_a_line_break_says_why(journal: str) -> None:
    with timeline.open(journal) as books:
        books.execute("CREATE TABLE t (id INT, pay DECIMAL(2)) KEY id")
        with pytest.raises(timeline.Refused) as refused:
            books.ask("SELECT id FROM t WHERE id = ?", ["a\nb"])
        assert refused.value.kind == "LineBreak" and "nor a parameter, has a line break" in str(refused.value) and refused.value.advice
        with pytest.raises(timeline.NoJournal) as none:
            timeline.open(os.path.join(journal, "timeline.tlj.d"))
        assert "timeline init" in none.value.advice and "create=True" in none.value.advice
        with pytest.raises(timeline.Refused) as refused:
            books.ask("SELECT id FROM t WHERE id = '\ud800'")
        assert refused.value.kind == "BadByte"
        books.put("t", [{"id": 1, "pay": "2.5"}])
        assert str(list(books.ask("SELECT pay FROM t"))[0][0]) == "2.50"


def test_refusals_have_their_place_in_what_was_typed(journal: str) -> None:
    with timeline.open(journal) as books:
        books.execute("CREATE TABLE t (id INT) KEY id")
        with pytest.raises(timeline.Refused) as refused:
            books.ask("SELECT id FROM t WHERE id = ? AND nope = 1", [123456])
        place = refused.value.place
        assert refused.value.kind == "UnknownColumn" and place and place.offset and refused.value.statement[place.offset:][:4] == "nope"
        with pytest.raises(timeline.Refused) as refused:
            books.put("t", [{"id": 1}, {"id": 1}])
        assert refused.value.kind == "KeyTwice" and refused.value.place and refused.value.place.record == 3
        assert len(books.ask("SELECT id FROM t")) == 0


def test_a_look_follows_what_others_commit(journal: str) -> None:
    with timeline.open(journal) as books:
        books.execute("CREATE TABLE t (id INT) KEY id")
        for number in range(5):
            assert run(["run"], f"a> PUT t\nid\n{number}\n\\.\n", journal).status == 0
            assert len(books.ask("SELECT id FROM t")) == number + 1


def test_a_lock_of_another_program_is_named(journal: str) -> None:
    with timeline.open(journal) as books:
        books.execute("CREATE TABLE t (id INT) KEY id")
    holder = subprocess.Popen([os.path.join(ROOT, "timeline"), "run"], cwd=journal, stdin=subprocess.PIPE, stdout=subprocess.PIPE)
    assert holder.stdin and holder.stdout
    holder.stdin.write(b"a> COUNT FROM t OVER SYSTEM ALL\nGO\n")
    holder.stdin.flush()
    holder.stdout.readline()
    try:
        with timeline.open(journal) as books, pytest.raises(timeline.Locked) as locked:
            books.put("t", [{"id": 1}])
        assert locked.value.holder is not None and locked.value.status == 13
    finally:
        holder.stdin.close()
        holder.stdout.read()
        holder.wait()


def test_a_thousand_questions_take_little(journal: str) -> None:
    with timeline.open(journal) as books:
        books.execute("CREATE TABLE t (id INT, x INT) KEY id")
        books.put("t", [{"id": at, "x": at * at} for at in range(100)])
        books.ask("SELECT x FROM t WHERE id = ?", [1])
        taken = []
        for _ in range(3):       # the least of them, since others use the machine too
            begun = time.process_time()
            for at in range(1000):
                assert list(books.ask("SELECT x FROM t WHERE id = ?", [at % 100])) == [((at % 100) ** 2,)]
            taken.append(time.process_time() - begun)
        assert min(taken) < 0.5, taken


_IN_BERLIN = """
import datetime, sys, time, timeline
seconds = int(datetime.datetime(2026, 10, 24, 22, 30, tzinfo=datetime.timezone.utc).timestamp())
with timeline.open(sys.argv[1]) as books:
    books.execute("CREATE TABLE t (id INT, at INT) KEY id")
    with books.unit(stamp=False) as unit:
        unit.put("timeline_kinds", [{"place": "t.at", "kind": "TIME"}])
    later = int(time.time()) // 3600 * 3600 + 86_400 * 500
    for hour in range(3):
        with books.unit(stamp=False) as unit:
            unit.execute(f"MOMENT {later + 3600 * hour}")
            at = datetime.datetime.fromtimestamp(later + 3600 * hour, datetime.timezone(datetime.timedelta(hours=-5)))
            unit.put("t", [{"id": hour, "at": at}])
    print([len(books.ask("SELECT id FROM t AS OF TIME ?", [datetime.datetime.fromtimestamp(later + 3600 * hour, zone)]))
           for zone in (None, datetime.timezone.utc) for hour in range(3)])
    print([it["at"].timestamp() - later for it in books.ask("SELECT at FROM t").dicts()])
    print(len(books.ask("SELECT id FROM t WHERE at = ?", [at])))
    print(len(books.ask("SELECT id FROM t AS OF DAY ?", [datetime.date.fromtimestamp(later + 86_400)])))
    twice = datetime.datetime(2026, 10, 25, 0, 30, tzinfo=datetime.timezone.utc)
    said = []
    for hour in range(2):
        try:
            books.ask("SELECT id FROM t AS OF TIME ?", [twice + datetime.timedelta(hours=hour)])
        except timeline.Refused as refused:
            said.append(refused)
    print([(it.kind, it.advice.startswith("Ask AS OF MOMENT 1792")) for it in said])
"""


def test_a_datetime_means_its_instant_in_each_place(journal: str) -> None:
    around = {**os.environ, "TZ": "Europe/Berlin", "PYTHONPATH": os.path.join(ROOT, "python/src")}
    done = subprocess.run([sys.executable, "-c", _IN_BERLIN, journal], env=around, capture_output=True, text=True, timeout=60)
    assert (done.stdout.splitlines(), done.stderr) == (
        ["[1, 2, 3, 1, 2, 3]", "[0.0, 3600.0, 7200.0]", "1", "3", "[('NoTime', True)]"], "")


def test_parts_of_a_second_are_refused(journal: str) -> None:
    moment = datetime.datetime(2026, 3, 1, 12, 0, 0, 5)
    with timeline.open(journal) as books:
        books.execute("CREATE TABLE t (id TEXT) KEY id")
        before = books.version
        for call in (lambda: books.put("t", [{"id": moment}]), lambda: books.ask("SELECT id FROM t WHERE id = ?", [moment]),
                     lambda: books.ask("SELECT id FROM t AS OF TIME ?", [moment])):
            with pytest.raises(timeline.Refused) as refused:
                call()
            assert refused.value.kind == "NotTime" and "whole seconds" in str(refused.value) and refused.value.statement
        assert books.version == before


def test_a_put_that_fails_leaves_no_lock(journal: str) -> None:
    def script() -> Iterator[bytes]:
        raise ZeroDivisionError
        yield b""

    with timeline.open(journal) as books:
        books.execute("CREATE TABLE t (id INT, x INT) KEY id")
        for number, wrong in enumerate([None, 1.5, True, b"x", [1]]):
            with pytest.raises(TypeError):
                books.put("t", [{"id": number, "x": wrong}])  # type: ignore[dict-item]
            books.put("t", [{"id": number, "x": 0}])
            with pytest.raises(ZeroDivisionError):
                books.journal.transact(script())
            books.put("t", [{"id": number, "x": 1}])
        assert list(books.ask("SELECT id, x FROM t")) == [(number, 1) for number in range(5)]
        with pytest.raises(TypeError, match="a row is a dict .* tuple"):
            books.put("t", [(1, 2)])  # type: ignore[list-item]


def test_a_refusal_names_the_statement_that_was_given(journal: str) -> None:
    with timeline.open(journal) as books:
        books.execute("CREATE TABLE t (id INT) KEY id")
        with pytest.raises(timeline.Refused) as refused, books.unit(by="anna", because="so") as unit:
            unit.put("t", [{"id": 1}])
            unit.execute(" CREATE TABLE t (id INT) KEY id;")
        assert (refused.value.kind, refused.value.number, refused.value.statement) == ("TableExists", 2, "CREATE TABLE t (id INT) KEY id")
        assert refused.value.advice
        with pytest.raises(timeline.Refused) as refused, books.unit() as unit:
            unit.put("t", [{"id": 1}])
            unit.put("t", [{"id": 2}, {"id": "two"}])
        assert (refused.value.kind, refused.value.number, refused.value.statement) == ("NotInt", 2, "PUT t")
        assert refused.value.advice and refused.value.place and refused.value.place.record == 3
        with pytest.raises(timeline.Refused) as refused:
            books.ask("SELECT nope FROM t")
        assert refused.value.advice and refused.value.number == 1
        assert len(books.ask("SELECT id FROM t")) == 0


@pytest.mark.parametrize("statement, kind, word", [("SELECT id FROM t", "NoCommit", "ask"), ("COUNT FROM t OVER SYSTEM ALL", "NoCommit", "ask"),
                                                   ("PUT t", "NoBlock", "put")])
def test_execute_takes_no_question_and_no_rows(journal: str, statement: str, kind: str, word: str) -> None:
    with timeline.open(journal) as books:
        books.execute("CREATE TABLE t (id INT) KEY id")
        before = books.version
        with pytest.raises(timeline.Refused) as refused:
            books.execute(statement, by="anna")
        assert (refused.value.kind, refused.value.statement) == (kind, statement) and word in refused.value.advice
        assert books.version == before


def test_the_rows_of_an_answer_can_be_put_back(journal: str) -> None:
    with timeline.open(journal) as books:
        books.execute("CREATE TABLE t (id INT, x TEXT) KEY id VALID")
        books.put("t", [{"id": 1, "x": "a", "valid_from": 0, "valid_to": 5}, {"id": 1, "x": "b", "valid_from": 5, "valid_to": None}])
        rows: Any = list(books.ask("SELECT * FROM t").dicts())
        assert [row["valid_to"] for row in rows] == [5, None]
        books.remove("t", [{"id": 1, "valid_from": 0, "valid_to": None}])
        books.put("t", rows)
        assert list(books.ask("SELECT * FROM t").dicts()) == rows


def test_pandas(journal: str) -> None:
    pytest.importorskip("pandas")
    with timeline.open(journal) as books:
        books.execute("CREATE TABLE t (id INT, x TEXT) KEY id")
        books.put("t", [{"id": 1, "x": "a"}])
        frame = books.ask("SELECT id, x FROM t").to_pandas()
        assert str(frame["id"].dtype) == "int64" and frame["x"].tolist() == ["a"]
        books.execute("CREATE TABLE u (id INT, at TIME) KEY id")
        books.put("u", [{"id": 1, "at": datetime.datetime(2026, 1, 2)}])
        assert str(books.ask("SELECT at FROM u").to_pandas()["at"].dtype) == "datetime64[ns, UTC]"
        far = datetime.datetime(9999, 12, 31, 12, tzinfo=datetime.timezone.utc)
        books.put("u", [{"id": 2, "at": far}])
        assert books.ask("SELECT at FROM u").to_pandas()["at"].tolist()[1] == far       # pandas has no such time


def test_the_database_interface(journal: str) -> None:
    assert (dbapi.apilevel, dbapi.paramstyle) == ("2.0", "qmark") and dbapi.threadsafety in (0, 1, 2, 3)
    for name in ("InterfaceError", "DatabaseError", "DataError", "OperationalError", "IntegrityError", "InternalError", "ProgrammingError",
                 "NotSupportedError"):
        assert issubclass(getattr(dbapi, name), dbapi.Error) and getattr(dbapi.Connection, name) is getattr(dbapi, name)
    assert issubclass(dbapi.Warning, Exception) and dbapi.Date(2026, 1, 2) == datetime.date(2026, 1, 2)
    connection = dbapi.connect(journal)
    cursor = connection.cursor()
    assert cursor.description is None and cursor.rowcount == -1 and cursor.arraysize == 1
    with pytest.raises(dbapi.Error):
        cursor.fetchone()
    cursor.execute("CREATE TABLE t (id INT, x TEXT) KEY id")
    cursor.executemany("PUT t (id, x)", [(1, "a"), (2, "b"), (3, "c")])
    with pytest.raises(dbapi.ProgrammingError):
        cursor.execute("SELECT id FROM t")
    connection.commit()
    cursor.execute("SELECT id, x FROM t")
    assert cursor.rowcount == 3 and [column[0] for column in cursor.description or ()] == ["id", "x"]
    assert [column[1] == dbapi.NUMBER for column in cursor.description or ()] == [True, False]
    assert cursor.description is not None and cursor.description[1][1] == dbapi.STRING and len(cursor.description[0]) == 7
    assert cursor.fetchone() == (1, "a") and cursor.fetchmany(1) == [(2, "b")] and cursor.fetchall() == [(3, "c")]
    assert cursor.fetchone() is None and cursor.fetchall() == []
    cursor.execute("PUT t (id, x)", (4, "d"))
    connection.rollback()
    connection.commit()
    assert len(cursor.execute("SELECT id FROM t").fetchall()) == 3
    cursor.close()
    with pytest.raises(dbapi.Error):
        cursor.execute("SELECT id FROM t")
    connection.close()
    for call in (connection.cursor, connection.commit, connection.rollback):
        with pytest.raises(dbapi.Error):
            call()


@pytest.mark.parametrize("operation, kind", [
    ("SELECT id FROM nope", "ProgrammingError"), ("SELECT", "ProgrammingError"), ("SELECT id FROM t; SELECT id FROM t", "ProgrammingError")])
def test_faults_of_statements_are_errors_of_the_interface(journal: str, operation: str, kind: str) -> None:
    with dbapi.connect(journal) as connection:
        connection.cursor().execute("CREATE TABLE t (id INT) KEY id")
    with pytest.raises(getattr(dbapi, kind)):
        connection.cursor().execute(operation)


def test_no_journal_is_an_operational_error(room: str) -> None:
    with pytest.raises(dbapi.OperationalError):
        dbapi.connect(room)


@pytest.mark.parametrize("create", [False, True])
def test_a_folder_that_is_not_there_is_said(room: str, create: bool) -> None:
    with pytest.raises((timeline.NoJournal, timeline.DeviceFault)) as raised:
        timeline.open(os.path.join(room, "nowhere"), create=create)
    assert not create or "nowhere is no folder" in str(raised.value)
    with pytest.raises(dbapi.OperationalError):
        dbapi.connect(os.path.join(room, "nowhere"), create=create)


@pytest.mark.parametrize("row, kind", [((None,), "DataError"), ((1.5,), "DataError"), ((dbapi.Time(1, 2, 3),), "DataError"),
                                       ((datetime.datetime(2026, 1, 1, 0, 0, 0, 1),), "DataError"), (1, "ProgrammingError"), ((1, 2), "ProgrammingError")])
def test_a_cell_that_no_column_can_have_is_an_error_of_the_interface(journal: str, row: Any, kind: str) -> None:
    with dbapi.connect(journal) as connection:
        connection.cursor().execute("CREATE TABLE t (id INT) KEY id")
    cursor = connection.cursor()
    with pytest.raises(getattr(dbapi, kind)):
        cursor.executemany("PUT t (id)", [row])
        connection.commit()
    cursor.executemany("PUT t (id)", [(7,)])
    connection.commit()
    assert cursor.execute("SELECT id FROM t").fetchall() == [(7,)]
