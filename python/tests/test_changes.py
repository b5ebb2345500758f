"""What changed, and pictures: the history of a key, differences, and lines of steps, worked by hand."""
from __future__ import annotations

import functools
import json
import os
import re
import sys
import time

import pytest

from conftest import run

SCRIPT = """a> CREATE TABLE timeline_kinds (place TEXT, kind TEXT) KEY place
a> PUT timeline_kinds
place,kind
moment,TIME
staff.pay,DECIMAL(2)
price.valid,DATE
\\.
a> CREATE TABLE staff (id INT, dept TEXT, pay INT) KEY id
a> MOMENT 1767229200
a> PUT staff
id,dept,pay
1,ops,300050
2,dev,280000
\\.
a> MOMENT 1767402000
a> PUT staff
id,dept,pay
2,dev,310000
3,dev,100
\\.
a> REMOVE staff
id
1
\\.
a> CREATE TABLE price (item INT, cents INT) KEY item VALID
a> PUT price
item,cents,valid_from,valid_to
1,5,20454,FOREVER
\\.
a> PUT price
item,cents,valid_from,valid_to
1,9,20460,20470
\\.
"""


@pytest.fixture
def books(journal: str) -> str:
    """A folder with a journal of 11 versions."""
    assert run(["--no-stamp", "--strict", "run"], SCRIPT, journal).status == 0
    return journal


@pytest.mark.parametrize("words, out", [
    (["history", "staff", "2"], "from,to,from_time,to_time,id,dept,pay\n5,7,2026-01-01T01:00:00,2026-01-03T01:00:00,2,dev,2800.00\n"
                                "7,,2026-01-03T01:00:00,,2,dev,3100.00\n"),
    (["history", "staff", "1"], "from,to,from_time,to_time,id,dept,pay\n5,8,2026-01-01T01:00:00,2026-01-03T01:00:00,1,ops,3000.50\n"),
    (["history", "staff", "99"], "from,to,from_time,to_time,id,dept,pay\n"),
    (["history", "price", "1"], "from,to,from_time,to_time,valid_from,valid_to,item,cents\n"
                                "10,11,2026-01-03T01:00:00,2026-01-03T01:00:00,2026-01-01,FOREVER,1,5\n"
                                "11,,2026-01-03T01:00:00,,2026-01-01,2026-01-07,1,5\n11,,2026-01-03T01:00:00,,2026-01-17,FOREVER,1,5\n"
                                "11,,2026-01-03T01:00:00,,2026-01-07,2026-01-17,1,9\n"),
    (["diff", "staff", "FROM", "5", "TO", "8"], "what,id,dept_old,dept_new,pay_old,pay_new\ngone,1,ops,,3000.50,\nchanged,2,dev,dev,2800.00,3100.00\n"
                                                "new,3,,dev,,1.00\n"),
    (["diff", "staff", "FROM", "2026-01-01", "TO", "2026-01-03"], "what,id,dept_old,dept_new,pay_old,pay_new\ngone,1,ops,,3000.50,\n"
                                                                  "changed,2,dev,dev,2800.00,3100.00\nnew,3,,dev,,1.00\n"),
    (["diff", "staff", "FROM", "DAY", "2026-01-01", "TO", "TIME", "2026-01-01T12:00"], "what,id,dept_old,dept_new,pay_old,pay_new\n"),
    (["diff", "staff", "FROM", "8", "TO", "8"], "what,id,dept_old,dept_new,pay_old,pay_new\n"),
    (["diff", "price", "FROM", "10", "TO", "11"], "what,valid_from,valid_to,item,cents_old,cents_new\ngone,2026-01-01,FOREVER,1,5,\n"
                                                  "new,2026-01-01,2026-01-07,1,,5\nnew,2026-01-17,FOREVER,1,,5\nnew,2026-01-07,2026-01-17,1,,9\n"),
])
def test_what_changed(books: str, words: list[str], out: str) -> None:
    done = run(words, folder=books, env=dict(os.environ, TZ="UTC"))
    assert done == (0, out, "")


@pytest.mark.parametrize("words, status", [
    (["history", "nope", "1"], 20), (["history", "staff", "x"], 20), (["diff", "staff", "FROM", "1"], 2), (["diff", "staff", "FROM", "DAY", "5", "TO", "8"], 2), (["diff", "staff", "FROM", "x", "TO", "2"], 2),
    (["diff", "staff", "FROM", "1", "TO", "99"], 20), (["plot", "SELECT id FROM staff"], 20), (["plot", "COUNT FROM nope OVER SYSTEM ALL"], 20),
    (["plot", "SUM pay FROM staff WHERE id = 99 OVER SYSTEM ALL"], 20), (["plot", "COUNT FROM staff OVER SYSTEM 9 TO 10"], 20),
    (["plot", "COUNT FROM staff OVER SYSTEM ALL", "-o", "x.gif"], 2),
])
def test_what_is_refused(books: str, words: list[str], status: int) -> None:
    done = run(words, folder=books)
    assert done.status == status and done.err and not os.path.exists(os.path.join(books, "x.gif")), done


def test_times_of_a_history_are_those_of_the_log(books: str) -> None:
    there = dict(os.environ, TZ="XYZ-5:30")      # five and a half hours east
    told = run(["history", "staff", "2"], folder=books, env=there).out.splitlines()
    assert told[1] == "5,7,2026-01-01T06:30:00,2026-01-03T06:30:00,2,dev,2800.00"
    (line,) = (it.split() for it in run(["log"], folder=books, env=there).out.splitlines() if it.split()[0] == "5")
    assert line[-1] == "2026-01-01T06:30:00"


def test_listings_show_kinds(books: str) -> None:
    listed = {words[0]: words for words in (it.split() for it in run(["rows", "price"], folder=books).out.splitlines())}
    assert listed["id"] == ["id", "from", "to", "valid_from", "valid_to", "item", "cents"] and listed["0"][3:5] == ["2026-01-01", "FOREVER"]
    assert run(["rows", "staff"], folder=books).out.splitlines()[1].split() == ["0", "5", "8", "1", "ops", "3000.50"]
    assert run(["rows", "staff", "--csv"], folder=books).out.splitlines()[1] == "0,5,8,1,ops,300050"
    types = {tuple(it.split()[:3]) for it in run(["tables"], folder=books).out.splitlines()}
    assert {("staff", "pay", "DECIMAL(2)"), ("staff", "id", "INT"), ("staff", "dept", "TEXT")} <= types
    assert "staff,pay,INT," in run(["tables", "--csv"], folder=books).out and run(["rows", "nope"], folder=books).status == 20
    shell = run(["--no-stamp", "shell"], "\\d staff\n\\log\n", books, env=dict(os.environ, TZ="UTC")).out
    assert re.search(r"^staff  pay +DECIMAL\(2\)", shell, re.MULTILINE) and shell.endswith(run(["log"], folder=books, env=dict(os.environ, TZ="UTC")).out)


@pytest.mark.parametrize("name", ["link.svg", "none.svg", "folder.svg", "pipe.svg", "other/timeline.tlj", "hard.svg", "timeline.tlj", ""])
def test_where_no_file_is_put(books: str, name: str) -> None:
    path = functools.partial(os.path.join, books)
    with open(path("kept"), "w", encoding="ascii") as file:
        file.write("kept")
    os.symlink("kept", path("link.svg"))
    os.symlink("gone", path("none.svg"))
    os.mkfifo(path("pipe.svg"))
    os.link(path("timeline.tlj"), path("hard.svg"))
    for folder in ("folder.svg", "other"):
        os.mkdir(path(folder))

    def state() -> list[tuple[str, int, int]]:
        return sorted((it.path, it.stat(follow_symlinks=False).st_ino, it.stat(follow_symlinks=False).st_mode) for it in os.scandir(books))

    before = state()
    for words in (["report"], ["plot", "COUNT FROM staff OVER SYSTEM ALL"], ["export", "--to", "csv"], ["export", "--to", "sqlite"]):
        done = run([*words, "-o", name], folder=books)
        assert done.status == 2 and done.err and done.out == "! usage\n", done
        assert state() == before and os.listdir(path("other")) == [], words
    with open(path("kept"), encoding="ascii") as file:
        assert file.read() == "kept"


def test_a_page_replaces_a_regular_file(books: str) -> None:
    path = os.path.join(books, "r.html")
    with open(path, "w", encoding="ascii") as file:
        file.write("old")
    assert run(["report", "-o", "r.html"], folder=books).status == 0 and os.path.getsize(path) > 1000
    assert run(["export", "--to", "sqlite", "-o", "r.html"], folder=books).status == 2


def test_json_has_types(books: str) -> None:
    lines = run(["history", "staff", "2", "--json"], folder=books).out.splitlines()
    assert json.loads(lines[0])["pay"] == 2800.0 and json.loads(lines[1])["to"] is None and json.loads(lines[1])["to_time"] is None
    lines = run(["diff", "staff", "FROM", "5", "TO", "8", "--json"], folder=books).out.splitlines()
    assert [(it["dept_old"], it["dept_new"]) for it in map(json.loads, lines)] == [("ops", None), ("dev", "dev"), (None, "dev")]


def test_a_refused_plot_is_explained(books: str) -> None:
    done = run(["plot", "SUM pay FROM staff OVER SYSTEM AL"], folder=books)
    assert done.status == 20 and done.err.startswith("timeline: the query was refused: Unexpected 31\n    SUM pay FROM staff OVER SYSTEM AL\n"), done
    assert "docs/LANGUAGE.md" in done.err


def test_the_corners_of_a_line(books: str, monkeypatch: pytest.MonkeyPatch) -> None:
    from timeline import journal, plots

    monkeypatch.chdir(books)
    opened = journal.Journal(".")
    picture = plots.picture_of(opened, "SUM pay FROM staff BY dept OVER SYSTEM ALL")
    assert picture.axis == "time (UTC)" and [one.label for one in picture.series] == ["dev", "ops"]
    assert plots.steps_of(picture.series[0]) == ([1767229200, 1767402000, 1767402000, 1767402000], [2800.0, 2800.0, 3101.0, 3101.0])
    assert picture.bounds == (1767229200, 1767402000)      # not past the last moment
    assert plots.picture_of(opened, "COUNT FROM staff OVER SYSTEM ALL").bounds[1] == 1767402000
    opened.close()


@pytest.mark.parametrize("ending, magic", [("svg", b"<?xml"), ("png", b"\x89PNG")])
def test_a_picture_is_a_file(books: str, ending: str, magic: bytes) -> None:
    pytest.importorskip("matplotlib")
    done = run(["plot", "SUM pay FROM staff BY dept OVER SYSTEM ALL", "-o", f"pay.{ending}"], folder=books)
    assert done.status == 0, done
    with open(os.path.join(books, f"pay.{ending}"), "rb") as file:
        assert file.read(5).startswith(magic[:5])
    assert run(["plot", "COUNT FROM staff OVER SYSTEM ALL", "-o", "none/pay.svg"], folder=books).status == 5


@pytest.mark.parametrize("begin, end, label", [(1796100000, 1796150000, "[01][0-9]:00"), (1796100008, 1796100050, "04:40:[0-5][0-9]")])
def test_the_hour_and_the_day_stand_below_the_axis(begin: int, end: int, label: str) -> None:
    """From 04:40 of a day to its evening, and within a minute of it."""
    pytest.importorskip("matplotlib")
    from matplotlib.backends.backend_agg import FigureCanvasAgg

    from timeline import kinds, plots

    figure = plots._figure(plots.Picture("COUNT", "time (UTC)", kinds.TIME, [plots.Series("", [begin], [end], [1.0])]))
    FigureCanvasAgg(figure).draw()
    axis = figure.axes[0].xaxis
    found = [it.get_text() for it in axis.get_ticklabels()]
    assert len(found) > 3 and all(re.fullmatch(label, it) for it in found), found
    assert axis.get_offset_text().get_text() == "2026-12-01"


def test_a_picture_of_text(books: str) -> None:
    done = run(["plot", "SUM pay FROM staff BY dept OVER SYSTEM ALL"], folder=books, env=dict(os.environ, COLUMNS="60", LINES="20"))
    assert done.status == 0 and re.search(r"^ *3,101\|", done.out, re.MULTILINE) and "# dev\n* ops\n" in done.out


def test_a_hundred_thousand_runs_take_at_most_ten_seconds() -> None:
    pytest.importorskip("matplotlib")
    from timeline import kinds, plots

    count = 100_000
    series = plots.Series("", list(range(count)), list(range(1, count + 1)), [float(at % 97) for at in range(count)])
    picture = plots.Picture("COUNT", "version", kinds.INT, [series])
    path = f"/tmp/test-{os.getpid()}.svg"
    begun = time.process_time()
    try:
        plots.draw(picture, path)
        assert time.process_time() - begun < 10 and os.path.getsize(path) > 0
    finally:
        if os.path.exists(path):
            os.remove(path)
