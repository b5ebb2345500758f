"""The command ask: what it answers, in which form and order, on which day, and what it says of a query that is refused."""
from __future__ import annotations

import json
import os
import pty
import subprocess
import time

import pytest

from conftest import COMMAND, run

STAFF = """a> CREATE TABLE staff (id INT, name TEXT, code TEXT, pay INT) KEY id
a> PUT staff
id,name,code,pay
1,"Doe, J.",007,3000
2,Roe,10,2800
3,"a ""b""
c",9,-5
\\.
a> CREATE TABLE price (item INT, cents INT) KEY item VALID
a> PUT price
item,cents,valid_from,valid_to
7,250,0,10
7,300,10,FOREVER
\\.
"""
DECLARED = 'a> CREATE TABLE timeline_kinds (place TEXT, kind TEXT) KEY place\na> PUT timeline_kinds\nplace,kind\nmoment,TIME\n\\.\n'


@pytest.fixture
def staff(journal: str) -> str:
    """A folder with a journal of a few rows."""
    assert run(["--strict", "run"], STAFF, journal).status == 0
    return journal


ORDERED = (
    ("SELECT id FROM staff ORDER BY pay", "UnknownColumn 30"),
    ("SELECT id, pay FROM staff ORDER BY pay", "id,pay\n3,-5\n2,2800\n1,3000\n"),
    ("SELECT id, pay FROM staff ORDER BY pay DESC LIMIT 2", "id,pay\n1,3000\n2,2800\n"),
    ("SELECT code, id FROM staff ORDER BY code", "code,id\n007,1\n10,2\n9,3\n"),
    ("SELECT id FROM staff LIMIT 0", "id\n"),
    ("SELECT name, id FROM staff WHERE id > 1 ORDER BY id DESC", 'name,id\n"a ""b""\nc",3\nRoe,2\n'),
    ("SELECT name FROM staff ORDER BY name\n LIMIT 9", 'name\n"Doe, J."\nRoe\n"a ""b""\nc"\n'),
    ("SELECT valid_to, cents FROM price ORDER BY valid_to DESC, cents ASC", "valid_to,cents\nFOREVER,300\n10,250\n"),
    ("SELECT id FROM staff LIMIT many", "Unexpected 21"),
    ("SELECT id FROM staff ORDER BY", "Unexpected 29"),
    ("SELECT id FROM staff ORDER BY id,", "Unexpected 33"),
    ("COUNT FROM staff OVER SYSTEM ALL LIMIT 1", "Unexpected 33"),
)


@pytest.mark.parametrize("text, wanted", ORDERED)
def test_order_and_limit(text: str, wanted: str, staff: str) -> None:
    found = run(["ask", text], folder=staff)
    if " " in wanted and "\n" not in wanted:
        assert (found.status, found.out) == (20, "") and f"line 1 was refused: {wanted}\n" in found.err
    else:
        assert found == (0, wanted, "")


def test_names_that_are_words_of_the_front(journal: str) -> None:
    """ORDER, LIMIT, DAY and TIME are names wherever the engine takes them as such."""
    script = "a> CREATE TABLE LIMIT (ORDER INT, DAY INT, TIME TEXT) KEY ORDER\na> PUT LIMIT\nORDER,DAY,TIME\n5,1,x\n6,2,ORDER BY\n\\.\n"
    assert run(["--strict", "run"], script, journal).status == 0
    asks = (("SELECT ORDER FROM LIMIT", "ORDER\n5\n6\n"), ("SELECT ORDER FROM LIMIT LIMIT 1", "ORDER\n5\n"),
            ("SELECT DAY FROM LIMIT WHERE ORDER = 6", "DAY\n2\n"), ("SELECT DAY FROM LIMIT WHERE TIME = 'ORDER BY' ORDER BY DAY", "DAY\n2\n"),
            ("SUM DAY FROM LIMIT BY TIME OVER SYSTEM 2 TO 3", "TIME,from,to,value\nORDER BY,2,3,2\nx,2,3,1\n"))
    for text, wanted in asks:
        assert run(["ask", text], folder=journal) == (0, wanted, "")


def test_json_has_types(staff: str) -> None:
    text = "SELECT * FROM staff; SELECT * FROM price VALID AT 12; AVG pay FROM staff WHERE id < 3 OVER SYSTEM 1 TO 3"
    found = run(["ask", "--json", text], folder=staff)
    assert found.status == 0 and not found.err
    assert [json.loads(line) for line in found.out.split("\n")[:-1]] == [
        {"id": 1, "name": "Doe, J.", "code": "007", "pay": 3000}, {"id": 2, "name": "Roe", "code": "10", "pay": 2800},
        {"id": 3, "name": 'a "b"\nc', "code": "9", "pay": -5},
        {"item": 7, "cents": 300, "valid_from": 10, "valid_to": None},
        {"from": 1, "to": 2, "value": None}, {"from": 2, "to": 3, "value": "5800/2"}]
    found = run(["ask", "SELECT id, id FROM staff WHERE id = 1", "--json"], folder=staff)
    assert found.out == '{"id": 1, "id_2": 1}\n'


def test_table_is_laid_out(staff: str) -> None:
    wanted = "id  name       pay\n 1  Doe, J.   3000\n 2  Roe       2800\n 3  a \"b\"\\nc    -5\n"
    assert run(["ask", "SELECT id, name, pay FROM staff", "--table"], folder=staff) == (0, wanted, "")
    assert run(["--strict", "run"], "a> CREATE TABLE w (k TEXT, n INT) KEY k\na> PUT w\nk,n\n漢字,1\nab\u0301c\u0001,2\n\\.\n", staff).status == 0
    assert run(["ask", "SELECT * FROM w", "--table"], folder=staff).out == "k     n\n漢字  1\nab\u0301c?  2\n"


def test_terminal_gets_a_table_and_a_pipe_csv(staff: str) -> None:
    reads, terminal = pty.openpty()
    subprocess.run([COMMAND, "ask", "SELECT id, pay FROM staff WHERE id < 3"], cwd=staff, stdout=terminal, stdin=terminal, timeout=60, check=True)
    assert os.read(reads, 4096) == b"id   pay\r\n 1  3000\r\n 2  2800\r\n"
    os.close(reads)
    os.close(terminal)


def test_a_text_with_a_line_break_is_refused(staff: str) -> None:
    """It is never another text: the row whose name has a line break is not found by one with a space, nor the other way round."""
    found = run(["ask", "SELECT id\nFROM staff\nWHERE name = 'a \"b\"\nc'"], folder=staff)
    assert found.status == 20 and found.out == ""
    assert found.err.startswith("timeline: line 1 was refused: LineBreak 40\n    WHERE name = 'a \"b\"\n")
    assert run(["ask", "SELECT id FROM staff WHERE name = 'a \"b\" c'"], folder=staff) == (0, "id\n", "")
    assert run(["ask", "SELECT id\r\n\tFROM staff\r\nWHERE id = 2;\r\n"], folder=staff) == (0, "id\n2\n", "")


REFUSED = (
    ("SELECT\n wage\nFROM staff", "line 1 was refused: UnknownColumn 8\n     wage\n     ^\n"),
    ("SELECT id FROM staff;\n\nSELECT id FROM staf AS OF\n 2", "line 3 was refused: UnknownTable 15\n    SELECT id FROM staf AS OF\n                   ^\n"),
    ("SELECT id FROM staff WHERE name = 'é' AND wage = 1", "line 1 was refused: UnknownColumn 43\n    SELECT id FROM staff WHERE name = 'é' AND wage = 1\n"
     + " " * 46 + "^\n"),
    ("select id FROM staff", "Unexpected 0\n    select id FROM staff\n    ^\n    Keywords are written in upper case.\n"),
    ("SELECT id FROM staff AS OF 99", "VersionAhead 27 99 4\n"),
    ("SELECT id FROM staff WHERE pay = 12.50", "    There are whole numbers alone: count in a smaller unit, as cents.\n"),
    ("SELECT id FROM staff WHERE name = 'x", "OpenText 34\n"),
    ("SELECT SUM(pay) FROM staff", "    A total is a statement of its own"),
)


@pytest.mark.parametrize("text, told", REFUSED)
def test_refusal_is_shown_where_it_is_typed(text: str, told: str, staff: str) -> None:
    found = run(["ask", text], folder=staff)
    assert found.status == 20 and told in found.err


def test_long_texts_are_quick(staff: str) -> None:
    """Time grows with the length of what is asked, not with its square."""
    quotes = "''" * 30_000
    begun = time.monotonic()
    assert run(["ask", f"SELECT id FROM staff WHERE name = '{quotes}'"], folder=staff) == (0, "id\n", "")
    assert time.monotonic() - begun < 10


def second(text: str) -> int:
    """The second of a time in the time zone of the machine, as `date` has it."""
    return int(subprocess.run(["date", "-d", text, "+%s"], capture_output=True, text=True, check=True).stdout)


def put(pay: int) -> str:
    return f"a> PUT staff\nid,name,code,pay\n2,Roe,10,{pay}\n\\.\n"


def test_days_over_seconds(staff: str) -> None:
    script = DECLARED + "".join(f"a> MOMENT {second(day)}\n{put(pay)}" for day, pay in (("2026-01-31 09:00", 3300), ("2026-02-28 23:59:59", 3400)))
    assert run(["--strict", "run"], script, staff).status == 0
    for zone in ("UTC", "America/New_York", "Asia/Kolkata"):
        around = {**os.environ, "TZ": zone}
        for text in ("2026-01-31", "2025-03-09", "2024-11-03"):
            last = int(subprocess.run(["date", "-d", f"{text} next day", "+%s"], capture_output=True, text=True, check=True, env=around).stdout) - 1
            asked = f"SELECT pay FROM staff AS OF DAY {text}; SELECT pay FROM staff AS OF MOMENT {last}"
            one, other = run(["ask", asked], folder=staff, env=around).out.split("\n\n")
            assert one + "\n" == other
    for what, pay in (("DAY 2026-01-30", 2800), ("DAY 2026-01-31", 3300), ("TIME 2026-01-31T08:59", 2800), ("TIME '2026-01-31 09:00'", 3300),
                      ("DAY 2026-02-27", 3300), ("DAY '2026-02-28'", 3400), ("TIME 2026-02-28T23:59:58", 3300)):
        found = run(["ask", f"SELECT pay FROM staff WHERE id = 2 AND name <> 'AS OF DAY 2026-01-01' AS OF {what}"], folder=staff)
        assert found[:2] == (0, f"pay\n{pay}\n"), what


@pytest.mark.parametrize("what, fault", (("TIME 2026-03-31", "NoTime"), ("DAY 20261101", "NoDay"), ("TIME 2026-01-01 02:00", "NoTime"), ("DAY 2026-02-30", "NoDay"),
                                         ("DAY today", "NoDay"), ("DAY 2026-01-31T09:00", "NoDay"), ("TIME 2026-01-01T24:00", "NoTime"), ("DAY", "NoDay"),
                                         ("TIME 2026-01-01T12:00:60", "NoTime"), ("DAY 0000-01-01", "NoDay")))
def test_what_is_no_day(what: str, fault: str, staff: str) -> None:
    assert run(["--strict", "run"], DECLARED + "a> MOMENT 1000000000\n", staff).status == 0
    found = run(["ask", f"SELECT id FROM staff AS OF {what}"], folder=staff)
    assert (found.status, found.out) == (20, "")
    assert f"line 1 was refused: {fault} " in found.err and "^" in found.err and "2026-03-31" in found.err.split("^\n")[1]


def test_days_over_moments_that_are_no_seconds(staff: str) -> None:
    assert run(["--strict", "run"], "a> MOMENT 20260131\n" + put(3300) + "a> MOMENT 20260228\n" + put(3400), staff).status == 0
    for what in ("DAY 2026-01-31", "TIME 2026-01-31T09:00"):
        found = run(["ask", f"SELECT pay FROM staff WHERE id = 2 AS OF {what}"], folder=staff)
        assert (found.status, found.out) == (20, "") and "NoSeconds" in found.err and "AS OF MOMENT" in found.err
    assert run(["ask", "SELECT pay FROM staff WHERE id = 2 AS OF MOMENT 20260131"], folder=staff) == (0, "pay\n3300\n", "")
    listed = run(["log", "--csv", "--times"], folder=staff)
    assert listed.status == 0 and ",20260131,\n" in listed.out and "1970" not in listed.out and "seconds" in listed.err


def test_times_of_the_log_stand_where_they_belong(journal: str) -> None:
    """A moment that no calendar has is shown as the number that it is, and shifts no other."""
    moments = [-62135596801, -1, 0, second("2026-01-31 09:00"), 253402300799 + 90_000, 10**18]
    script = "".join(f"a> MOMENT {it}\n" for it in moments) + DECLARED
    assert run(["--strict", "run"], script, journal).status == 0
    listed = run(["log", "--csv", "--times"], folder=journal)
    shown = [line.split(",")[6] for line in listed.out.split("\n")[1:7]]
    assert listed.status == 0 and shown[3] == "2026-01-31T09:00:00" and shown[5] == str(10**18) and shown[4] == str(moments[4])
    assert listed.out.count("\n") == 9


def test_a_day_that_may_still_change_is_said_so(staff: str) -> None:
    """A load that states its moment changes nothing of what was known on a day before; where no moment was stated since, ask says it."""
    day, now = time.strftime("%Y-%m-%d", time.localtime(time.time() - 3 * 86_400)), int(time.time())
    assert run(["--strict", "run"], DECLARED + f"a> MOMENT {now - 4 * 86_400}\n" + put(3300), staff).status == 0
    query = ["ask", f"SELECT pay FROM staff WHERE id = 2 AS OF DAY {day}"]
    found = run(query, folder=staff)
    assert found[:2] == (0, "pay\n3300\n") and f"no moment after {day} is stated yet" in found.err
    assert run(["load", "staff"], "id,name,code,pay\n2,Roe,10,9999\n", staff).status == 0
    assert run(query, folder=staff) == (0, "pay\n3300\n", "")
    assert run(["run"], put(1), staff).status == 0
    assert run(query, folder=staff) == (0, "pay\n3300\n", "")


def test_a_word_that_is_none_says_which(staff: str) -> None:
    for words, told in ((["aks", "S"], "aks is no command: did you mean ask?"), (["--stric", "run"], "--stric is no option"),
                        (["load", "t", "nothing.csv"], "nothing.csv is no file that can be read: No such file or directory"),
                        (["run", "."], ". is no file that can be read: Is a directory"), (["--wait", "ask", "S"], "--wait is no option of ask"),
                        (["--strict", "seal"], "--strict is no option of seal"), (["--wait=x", "run"], "--wait wants a number of seconds"),
                        (["ask", "PUT staff"], "ask writes nothing, and PUT does"), (["run", "--workers", "99"], "--workers")):
        found = run(words, folder=staff)
        assert found[:2] == (2, "! usage\n") and told in found.err, (words, found)


def test_answers_of_any_size_come_whole(journal: str) -> None:
    """As many rows as were put come back, also where memory's file system is small: nothing goes by way of it."""
    rows = "k,v\n" + "".join(f"{key},{key % 97}\n" for key in range(300_000))
    assert run(["run"], "a> CREATE TABLE t (k INT, v INT) KEY k\n", journal).status == 0
    assert run(["--no-stamp", "load", "t"], rows, journal) == (0, "load @2 ok\n", "")
    assert run(["ask", "SELECT * FROM t"], folder=journal) == (0, rows, "")
