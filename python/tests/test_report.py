"""The report in headless Chromium: rows beside `ask`, the slider, marks, texts of every kind, keys and a narrow screen."""
from __future__ import annotations

import csv
import io
import json
import os
import re
import shutil
import subprocess
import tempfile
from typing import Any, Iterator, Sequence

import pytest

from conftest import run

NASTY = ['</script><script>document.title="broken"</script>', "<!-- <img src=x onerror=alert(1)>", "&amp; \" ' `${1}`", "@data@ @script@", "日本 é \U0001f600",
         "line\nbreak", "\u2028\u2029 \u202e", "back\\slash \\u003c", "NULL"]
FIRST = 1_767_225_600     # 2026-01-01
CATALOG = ("a> CREATE TABLE timeline_kinds (place TEXT, kind TEXT) KEY place\na> PUT timeline_kinds\nplace,kind\nmoment,TIME\nstaff.pay,DECIMAL(2)\n"
           "price.valid,DATE\n\\.\na> CREATE TABLE staff (id INT, name TEXT, pay INT) KEY id\na> CREATE TABLE price (item INT, cents INT) KEY item VALID\n")


def block(statement: str, rows: Sequence[Sequence[object]]) -> str:
    out = io.StringIO()
    csv.writer(out, lineterminator="\n").writerows(rows)
    return f"a> {statement}\n{out.getvalue()}\\.\n"


def script() -> str:
    """Sixteen versions: rows that are put, changed, put again as they were, and removed; periods; a note; a table given up in part."""
    parts = [CATALOG, f"a> MOMENT {FIRST}\n", block("PUT staff", [["id", "name", "pay"], *([at, text, 100_000 + at] for at, text in enumerate(NASTY))]),
             f"a> MOMENT {FIRST + 86_400 * 2}\n", block("PUT staff", [["id", "name", "pay"], [1, NASTY[1], 5], [2, NASTY[2], 100_002], [20, "new", -5]]),
             block("REMOVE staff", [["id"], [3]]), block("PUT price", [["item", "cents", "valid_from", "valid_to"], [1, 5, 20_454, "FOREVER"]]),
             block("PUT price", [["item", "cents", "valid_from", "valid_to"], [1, 9, 20_460, 20_470]]),
             "a> CREATE TABLE timeline_notes (version INT, who TEXT, why TEXT, source TEXT) KEY version\n",
             block("PUT timeline_notes", [["version", "who", "why", "source"], [8, "anna", "<i>Test raise</i>", "s.csv"]]),
             "a> CREATE TABLE old (id INT, secret TEXT) KEY id\n", block("PUT old", [["id", "secret"], [1, "given up"]]),
             block("REMOVE old", [["id"], [1]]), "a> FORGET old BEFORE 16\n"]
    return "".join(parts)


@pytest.fixture(scope="module")
def books() -> Iterator[str]:
    """A folder with a journal and its report, r.html."""
    with tempfile.TemporaryDirectory(prefix="test-") as folder:
        assert run(["init"], folder=folder).status == 0
        done = run(["--no-stamp", "--strict", "run"], script(), folder)
        assert done.status == 0, done
        assert run(["report", "-o", "r.html"], folder=folder) == (0, "", "")
        yield folder


ROWS = """[...document.getElementById('%s').tBodies[0].rows].map((row) => [...row.cells].map((cell) => {
    const copy = cell.cloneNode(true); copy.querySelectorAll('del').forEach((it) => it.remove()); return copy.textContent; }))"""


class Page:
    """A page in a browser of one's own, which is told what to do by a pipe."""

    def __init__(self, path: str) -> None:
        command = shutil.which("chromium") or shutil.which("chromium-browser")
        if command is None:
            pytest.skip("Chromium is not here: Debian's package chromium")
        self.path, self.number, self.events = path, 0, list[dict[str, Any]]()
        self.folder = tempfile.mkdtemp(prefix="test-chromium-")
        (reads, told), (said, writes) = os.pipe(), os.pipe()
        words = [command, "--headless=new", "--no-sandbox", "--disable-gpu", "--disable-dev-shm-usage", "--remote-debugging-pipe",
                 f"--user-data-dir={self.folder}", "about:blank"]
        front = f"exec 3<&{reads} 4>&{writes}; exec \"$@\""
        self.process = subprocess.Popen(["bash", "-c", front, "bash", *words], pass_fds=(reads, writes), stdout=subprocess.DEVNULL, stderr=subprocess.DEVNULL)
        os.close(reads)
        os.close(writes)
        self.told, self.said = os.fdopen(told, "wb", buffering=0), os.fdopen(said, "rb")
        self.session: str | None = None

    def __enter__(self) -> Page:
        target = self.send("Target.createTarget", url="about:blank")["targetId"]
        self.session = self.send("Target.attachToTarget", targetId=target, flatten=True)["sessionId"]
        for domain in ("Page", "Runtime", "Log", "Network"):
            self.send(f"{domain}.enable")
        self.send("Page.navigate", url=f"file://{self.path}")
        while not any(it["method"] == "Page.loadEventFired" for it in self.events):
            self.events.append(self.read())
        return self

    def __exit__(self, *_: object) -> None:
        self.told.close()
        self.process.terminate()
        self.process.wait()
        self.said.close()
        shutil.rmtree(self.folder, ignore_errors=True)

    def read(self) -> dict[str, Any]:
        text = bytearray()
        while not text.endswith(b"\0"):
            piece = self.said.read(1)
            assert piece, "the browser has ended"
            text += piece
        found = json.loads(text[:-1])
        assert isinstance(found, dict)
        return found

    def send(self, method: str, **parameters: object) -> Any:
        """Has the browser do something, and gives what it says."""
        self.number += 1
        message = {"id": self.number, "method": method, "params": parameters, **({"sessionId": self.session} if self.session else {})}
        self.told.write(json.dumps(message).encode() + b"\0")
        while True:
            answer = self.read()
            if answer.get("id") == self.number:
                assert "error" not in answer, answer
                return answer["result"]
            if "method" in answer:
                self.events.append(answer)

    def evaluate(self, text: str) -> Any:
        """The value of an expression in the page."""
        found = self.send("Runtime.evaluate", expression=text, returnByValue=True)
        assert "exceptionDetails" not in found, found
        return found["result"].get("value")

    def choose(self, name: str, value: object, event: str = "input") -> None:
        """Gives a control a value, as a person would."""
        self.evaluate(f"(() => {{ const it = document.getElementById({json.dumps(name)}); it.value = {json.dumps(value)}; it.dispatchEvent(new Event('{event}')); }})()")

    def choose_table(self, name: str) -> None:
        self.choose("table", self.evaluate(f"[...document.getElementById('table').options].find((it) => it.text === {json.dumps(name)}).value"), "change")

    def press(self, key: str, code: int) -> None:
        for kind in ("keyDown", "keyUp"):
            self.send("Input.dispatchKeyEvent", type=kind, key=key, code=key, windowsVirtualKeyCode=code)

    def rows(self, name: str = "rows") -> list[list[str]]:
        """What a table shows, without what is no longer so."""
        found = self.evaluate(ROWS % name)
        assert isinstance(found, list)
        return found

    def rows_at(self, stops: Sequence[object], name: str = "slider") -> list[list[list[str]]]:
        """What the table of rows shows, without what is gone, at each of some stops of the slider, or values of another control."""
        found = self.evaluate("""%s.map((stop) => { const it = document.getElementById('%s'); it.value = stop; it.dispatchEvent(new Event('input'));
            return %s.filter((row) => row[0] !== 'gone').map((row) => row.slice(1)); })""" % (json.dumps(stops), name, ROWS % "rows"))
        assert isinstance(found, list)
        return found

    def text(self, name: str) -> str:
        return str(self.evaluate(f"document.getElementById({json.dumps(name)}).textContent"))

    def picture(self, path: str) -> None:
        import base64

        with open(path, "wb") as file:
            file.write(base64.b64decode(self.send("Page.captureScreenshot", format="png", captureBeyondViewport=True)["data"]))


@pytest.fixture(scope="module")
def page(books: str) -> Iterator[Page]:
    with Page(os.path.join(books, "r.html")) as opened:
        yield opened


def asked(books: str, *queries: str) -> list[list[list[str]]]:
    """The rows that `ask` answers to each of some queries."""
    done = run(["ask", "; ".join(queries)], folder=books)
    assert done.status == 0, done
    answers: list[list[list[str]]] = [[]]
    for row in csv.reader(io.StringIO(done.out, newline="")):
        answers[-1].append(row) if row else answers.append([])
    return [answer[1:] for answer in answers]


def test_each_version_shows_what_ask_says(books: str, page: Page) -> None:
    last = int(page.text("seal")[1:].split()[0])
    for table, columns, made in (("staff", "id, name, pay", 4), ("price", "valid_from, valid_to, item, cents", 5)):
        page.choose_table(table)
        shown = page.rows_at(list(range(last + 1)))
        assert not any(shown[:made]) and shown[made:] == asked(books, *(f"SELECT {columns} FROM {table} AS OF {at}" for at in range(made, last + 1)))


def test_each_day_shows_what_ask_says(books: str, page: Page) -> None:
    page.choose_table("staff")
    page.evaluate("document.querySelector('input[value=day]').click()")
    days = ("2026-01-01", "2026-01-02", "2026-01-03")
    assert page.rows_at([0, 1, 2]) == asked(books, *(f"SELECT id, name, pay FROM staff AS OF DAY {day}" for day in days))
    assert page.text("where").startswith(days[2])
    page.evaluate("document.querySelector('input[value=version]').click()")


def test_what_changed_is_marked(page: Page) -> None:
    page.choose_table("staff")
    page.choose("slider", 8)
    assert [(row[0], row[1]) for row in page.rows() if row[0]] == [("changed", "1"), ("new", "20")]      # and 2, put as it was, is none
    assert page.evaluate("document.querySelector('#rows tr.changed del').textContent") == "1000.01"
    assert "by anna: <i>Test raise</i>" in page.text("where")
    page.choose("slider", 9)
    assert [row[:2] for row in page.rows() if row[0]] == [["gone", "3"]]
    page.choose("slider", 7)
    page.evaluate("document.getElementById('held').click()")
    assert page.text("base").startswith("version 6 ")
    page.choose("slider", 9)
    assert sorted(row[0] + row[1] for row in page.rows() if row[0]) == ["changed1", "gone3", "new20"]
    page.evaluate("document.getElementById('held').click()")
    page.evaluate("document.getElementById('only').click()")
    assert [row[:2] for row in page.rows()] == [["gone", "3"]]
    page.evaluate("document.getElementById('only').click()")


def test_search_totals_log_and_seal(books: str, page: Page) -> None:
    page.choose_table("staff")
    page.choose("slider", 8)
    page.choose("search", "日本")
    assert [row[1] for row in page.rows()] == ["4"]
    page.choose("search", "")
    page.choose("total", "1", "change")
    steps = [[row[0], row[1], row[3]] for row in page.rows("steps")]
    assert [steps] == asked(books, "SUM pay FROM staff OVER SYSTEM ALL")
    assert page.text("value").startswith(next(value for begin, end, value in steps if int(begin) <= 8 < int(end)) + " at version 8")
    log = list(csv.DictReader(io.StringIO(run(["log", "--csv"], folder=books).out)))
    assert [row[0] for row in page.rows("log")] == [it["version"] for it in reversed(log)]
    page.choose("log-search", "anna")
    assert [(row[0], row[-3:]) for row in page.rows("log")] == [("8", ["anna", "<i>Test raise</i>", "s.csv"])]
    page.choose("log-search", "")
    assert page.text("seal") + "\n" == run(["seal"], folder=books).out


def test_valid_time(books: str, page: Page) -> None:
    page.choose_table("price")
    page.choose("slider", 11)
    days = ("2025-12-31", "2026-01-03", "2026-01-10", "2030-01-01")
    shown = page.rows_at(days, "valid")
    assert shown == asked(books, *(f"SELECT valid_from, valid_to, item, cents FROM price VALID AT '{day}' AS OF 11" for day in days))
    assert [len(it) for it in shown] == [0, 1, 1, 1]


def test_what_was_given_up_is_not_there(books: str, page: Page) -> None:
    page.choose_table("old")
    page.choose("slider", 14)
    assert page.rows() == [] and "may not be asked" in page.evaluate("document.querySelector('#rows caption').textContent")
    with open(os.path.join(books, "r.html"), encoding="utf-8") as file:
        assert "given up" not in re.sub(r"<script>.*</script>", "", file.read(), flags=re.DOTALL)
    assert run(["history", "old", "1"], folder=books).out.count("\n") == 1
    assert run(["diff", "old", "FROM", "14", "TO", "16"], folder=books).status == 20


def test_by_keys_and_on_a_narrow_screen(page: Page, tmp_path: str) -> None:
    page.choose_table("staff")
    page.choose("slider", 8)
    page.evaluate("document.getElementById('slider').focus()")
    page.press("ArrowLeft", 37)
    assert page.text("where").startswith("version 7 ")
    page.press("Tab", 9)
    assert page.evaluate("document.activeElement.id") == "later"
    page.press("Tab", 9)
    assert page.evaluate("document.activeElement.id") == "version"
    assert page.evaluate("document.getElementById('holds').offsetParent") is None       # staff has no valid time
    page.send("Emulation.setDeviceMetricsOverride", width=360, height=740, deviceScaleFactor=1, mobile=True)
    try:
        assert page.evaluate("document.documentElement.scrollWidth") <= 360
        page.picture(os.path.join(os.environ.get("TIMELINE_PICTURES", str(tmp_path)), "narrow.png"))
    finally:
        page.send("Emulation.clearDeviceMetricsOverride")


def test_nothing_is_fetched_and_nothing_else_runs(page: Page, tmp_path: str) -> None:
    """Texts that look like pages stay texts."""
    page.choose_table("staff")
    page.choose("slider", 8)
    assert page.evaluate("document.title") == "Report of a journal, version 17"
    assert page.evaluate("document.images.length + document.querySelectorAll('i, b').length") == 0
    requested = [it["params"]["request"]["url"] for it in page.events if it["method"] == "Network.requestWillBeSent"]
    assert [it for it in requested if not it.startswith("data:")] == [f"file://{page.path}"]      # the browser's own icons are data
    assert not [it for it in page.events if it["method"] in ("Runtime.exceptionThrown", "Log.entryAdded", "Page.javascriptDialogOpening")]
    page.picture(os.path.join(os.environ.get("TIMELINE_PICTURES", str(tmp_path)), "wide.png"))


def test_what_does_not_fit_is_said(books: str, monkeypatch: pytest.MonkeyPatch) -> None:
    from timeline import journal, report

    monkeypatch.chdir(books)
    opened = journal.Journal(".")
    page, left = report.page_of(opened, 10)
    opened.close()
    data = json.loads(page.partition('id="data">')[2].partition("</script>")[0])
    assert sum(len(it["rows"]) for it in data["tables"]) <= 10 and data["first"] > 0 and data["left"] == left and len(left) == 2
    (table,) = (it for it in data["tables"] if it["name"] == "price")
    versions = range(data["first"], data["last"] + 1)
    shown = [[row for row, begin, end in zip(table["rows"], table["from"], table["to"]) if begin <= version and (not end or version < end)]
             for version in versions]
    assert shown == asked(books, *(f"SELECT valid_from, valid_to, item, cents FROM price AS OF {version}" for version in versions))


def test_a_report_is_written_whole_or_not_at_all(books: str) -> None:
    assert run(["report", "-o", "none/r.html"], folder=books).status == 5
    assert run(["report"], folder=books).status == 2
    assert not [it for it in os.listdir(books) if it not in ("timeline.tlj", "r.html")]
