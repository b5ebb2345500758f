"""The history in other systems: what these answer for versions and days is what `ask` says."""
from __future__ import annotations

import contextlib
import csv
import io
import os
import random
import re
import sqlite3
import subprocess
import tempfile
from typing import Callable, Iterator

import pytest

from conftest import ROOT, Done, run
from servers import ClickHouse, Postgresql

Ask = Callable[[str], "list[list[str]]"]
FIRST = 1_767_225_600     # 2026-01-01
CATALOG = ("a> CREATE TABLE timeline_kinds (place TEXT, kind TEXT) KEY place\na> PUT timeline_kinds\nplace,kind\nmoment,TIME\nstaff.pay,DECIMAL(2)\n"
           "price.valid,DATE\n\\.\na> CREATE TABLE staff (id INT, name TEXT, pay INT) KEY id\na> CREATE TABLE price (item INT, cents INT) KEY item VALID\n")


@pytest.fixture(scope="module")
def books() -> Iterator[str]:
    """A folder with a journal of some months: texts with odd signs, decimals, ended rows, valid periods."""
    chance = random.Random(3)
    script = [CATALOG]
    for day in range(0, 40, 2):
        script.append(f"a> MOMENT {FIRST + day * 86_400 + 3_600}\na> PUT staff\nid,name,pay\n")
        for number in chance.sample(range(12), 3):
            name = chance.choice(["Ada", '"a ""b"" c"', '"x,\ty"', "it's", "日本 é", '"line\nbreak"', "back\\slash", "$1"])
            script.append(f"{number},{name},{chance.randrange(-500, 500_000)}\n")
        start = 20_454 + chance.randrange(60)
        script.append(f"\\.\na> PUT price\nitem,cents,valid_from,valid_to\n{chance.randrange(3)},{chance.randrange(900)},{start},"
                      f"{chance.choice(['FOREVER', start + chance.randrange(1, 30)])}\n\\.\n")
    with tempfile.TemporaryDirectory(prefix="test-") as folder:
        assert run(["init"], folder=folder).status == 0
        done = run(["--no-stamp", "--strict", "run"], "".join(script), folder)
        assert done.status == 0, done
        yield folder


def exported(books: str, system: str, folder: str) -> str:
    """The path of what was exported."""
    path = os.path.join(folder, f"out.{system}")
    done = run(["export", "--to", system, "-o", path], folder=books)
    assert done.status == 0 and os.path.exists(path), done
    return path


def asked(books: str, query: str) -> list[list[str]]:
    """The rows of an answer, sorted."""
    done = run(["ask", query], folder=books)
    assert done.status == 0, done
    return sorted(list(csv.reader(io.StringIO(done.out, newline="")))[1:])


def compare(books: str, select: Callable[[str, str, str], str], ask: Ask) -> None:
    """Compares rows and sums at some versions and days; `select` writes what is wanted, from a view or function, at a point."""
    versions = random.Random(4).sample(range(6, 64), 6)
    for version in versions:
        assert sorted(ask(select("id, name, pay", "staff_as_of", str(version)))) == asked(books, f"SELECT id, name, pay FROM staff AS OF {version}"), version
        ((total,),) = ask(select("sum(pay)", "staff_as_of", str(version)))
        wanted = asked(books, f"SUM pay FROM staff OVER SYSTEM {version} TO {version + 1}")[0][2]
        assert f"{float(total):.2f}" == f"{float(wanted):.2f}"
        rows = ask(select("item, cents, valid_from", "price_as_of", str(version)))
        assert sorted(rows) == asked(books, f"SELECT item, cents, valid_from FROM price AS OF {version}")
    for day in ("2026-01-03", "2026-01-04", "2026-02-01"):
        rows = ask(select("id, name, pay", "staff_on", day))
        assert sorted(rows) == asked(books, f"SELECT id, name, pay FROM staff AS OF DAY {day}"), day


def test_sqlite(books: str, tmp_path: str) -> None:
    connection = sqlite3.connect(exported(books, "sqlite", str(tmp_path)))

    def select(what: str, view: str, point: str) -> str:
        column = "as_of_version" if view.endswith("as_of") else "on_day"
        return f"SELECT {what.replace(' pay', ' printf(chr, pay)').replace('chr', repr('%.2f'))} FROM {view} WHERE {column} = '{point}'"

    compare(books, select, lambda query: [[str(it) for it in row] for row in connection.execute(query)])
    count = connection.execute("SELECT count(*) FROM staff_now").fetchone()[0]
    assert count == len(asked(books, "SELECT id FROM staff"))


def rows_of(done: Done) -> list[list[str]]:
    """What a client of a server printed as CSV."""
    assert done.status == 0, done
    return list(csv.reader(io.StringIO(done.out, newline="")))


def test_postgresql(books: str, tmp_path: str) -> None:
    script = exported(books, "postgresql", str(tmp_path))
    with Postgresql() as server:
        with open(script, encoding="utf-8", newline="") as file:
            assert server.run(file.read()).status == 0

        def select(what: str, view: str, point: str) -> str:
            return f"SELECT {what} FROM {view}({repr(point)})".replace("as_of('", "as_of(int '")

        compare(books, select, lambda query: rows_of(server.run(query)))


def test_clickhouse(books: str, tmp_path: str) -> None:
    script = exported(books, "clickhouse", str(tmp_path))
    with ClickHouse() as server:
        with open(script, encoding="utf-8", newline="") as file:
            assert server.run(file.read()).status == 0

        def select(what: str, view: str, point: str) -> str:
            return f"SELECT {what} FROM {view} WHERE " + (f"as_of_version = {point}" if view.endswith("as_of") else f"on_day = '{point}'")

        compare(books, select, lambda query: rows_of(server.run(query)))


@pytest.mark.parametrize("title, system", [("In PostgreSQL", Postgresql), ("In ClickHouse", ClickHouse)])
def test_what_beyond_says(title: str, system: type[Postgresql] | type[ClickHouse], room: str) -> None:
    """The statements of docs/BEYOND.md, one block after the other, print what stands after them."""
    with open(os.path.join(ROOT, "docs/BEYOND.md"), encoding="utf-8") as file:
        sections = file.read().split("\n## ")
    (example,), (section,) = ([it for it in sections if it.startswith(name)] for name in ("What goes along", title))
    os.symlink(os.path.join(ROOT, "timeline"), os.path.join(room, "timeline"))
    os.symlink(os.path.join(ROOT, "examples"), os.path.join(room, "examples"))
    shell = "".join(re.findall(r"```sh\n(.*?)```", example + section, re.DOTALL))
    subprocess.run(["bash", "-e", "-c", shell], cwd=room, check=True, capture_output=True)
    with system() as server:
        with open(os.path.join(room, "staff.sql"), encoding="utf-8", newline="") as file:
            assert server.run(file.read()).status == 0
        for kind, text in re.findall(r"```(sql|text)\n(.*?)```", section, re.DOTALL):
            if kind == "sql":
                done = server.run(text)
                assert done.status == 0, done
            else:
                assert done.out == text
        if system is Postgresql:
            refused = server.run("INSERT INTO staff_rows VALUES (99, 13, NULL, 1, 'Ada', 'dev', 1, '2020-01-01')")
            assert refused.status != 0 and "exclusion constraint" in refused.err


def test_a_day_that_clickhouse_cannot_keep(journal: str, tmp_path: str) -> None:
    sheet = os.path.join(journal, "born.csv")
    with open(sheet, "w", encoding="ascii") as file:
        file.write("id,born\n1,1961-05-03\n")
    assert run(["import", "people", sheet, "--key", "id"], folder=journal).status == 0
    path = os.path.join(str(tmp_path), "people.sql")
    done = run(["export", "--to", "clickhouse", "-o", path], folder=journal)
    assert done.status == 20 and "1961-05-03" in done.err and not os.path.exists(path)
    assert run(["export", "--to", "postgresql", "-o", path], folder=journal).status == 0


def test_csv_and_what_is_there_already(books: str, tmp_path: str) -> None:
    folder = exported(books, "csv", str(tmp_path))
    with open(os.path.join(folder, "staff.csv"), encoding="utf-8", newline="") as file:
        rows = list(csv.reader(file))
    listed = run(["rows", "staff", "--csv"], folder=books).out
    assert rows[0] == ["row_id", "from_version", "to_version", "id", "name", "pay"] and len(rows) == len(list(csv.reader(io.StringIO(listed, newline=""))))
    assert run(["export", "--to", "csv", "-o", folder], folder=books).status == 2
    with open(os.path.join(folder, "timeline_versions.csv"), encoding="utf-8", newline="") as file:
        made = [row[1] for row in list(csv.reader(file))[1:]]
    wanted = [None if not it else it for it in made]
    with contextlib.closing(sqlite3.connect(exported(books, "sqlite", str(tmp_path)))) as connection:
        assert [row[0] for row in connection.execute("SELECT made_at FROM timeline_versions ORDER BY version")] == wanted
    assert made[0] == "" and made[6:8] == ["2026-01-01T01:00:00Z", "2026-01-01T01:00:00Z"]
