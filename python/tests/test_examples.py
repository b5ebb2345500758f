"""The examples: what each prints, its status, and what `--explain` says of it are what stands beside it.

An example of examples/ or a folder below it has NAME.expected, what it prints, and beside it:
    NAME.tl      the script, or NAME.make, a shell script that prints it, or NAME.input, the path of what is read
    NAME.output  the path that it writes to, where that is not compared
    NAME.status  its status, where that is not 0
    NAME.words   the words of the command, a line each, where these are not `run` alone
    NAME.before  a script that is run before it
    NAME.told    what `--explain` says of it on standard error
It runs in a folder of its own, in which `init` has made a journal. In cases/, runs.rows has a run on each line, blocks.rows
a block, and journals.rows a run over a journal that is there; `\\n`, `\\xff` and the like are written so."""
from __future__ import annotations

import glob
import os
import re
import shlex
import subprocess
import sys

import pytest
from conftest import COMMAND, ROOT, program

EXAMPLES = os.path.join(ROOT, "examples")
LIMIT = 60      # seconds that each may take
PATHS = sorted(os.path.relpath(it, EXAMPLES)[:-9] for it in glob.glob(f"{EXAMPLES}/**/*.expected", recursive=True))
# Examples that print the same with any number of workers, and with marks after any number of events.
SAME = ["answers", "queries", "valid_time", "payroll", "moments", "retention", "cases/joins", "cases/least_value",
        "cases/valid_parts", "cases/seams", "cases/valid_moments", "cases/floors_of_joins", "cases/valid_mark"]
OPTIONS = ["--every 1", "--workers 2 --every 3", "--every 3 --workers 8", "--every 0 --workers 1"]
ESCAPES = {b"n": b"\n", b"r": b"\r", b"t": b"\t", b"\\": b"\\"}


def bytes_of(path: str) -> bytes:
    """What stands in a file below examples/, empty where there is none."""
    try:
        with open(os.path.join(EXAMPLES, path), "rb") as file:
            return file.read()
    except FileNotFoundError:
        return b""


def unescaped(text: str) -> bytes:
    """The bytes that a text with `\\n`, `\\xff` and the like stands for."""
    def one(found: re.Match[bytes]) -> bytes:
        sign = found.group(1)
        return bytes([int(sign[1:], 16)]) if sign[:1] == b"x" else ESCAPES[sign]
    return re.sub(rb"\\(x[0-9a-f]{2}|[nrt\\])", one, text.encode())


def words_of(text: str) -> list[bytes]:
    """Words as a shell takes them, `$'..'` with escapes among them."""
    plain = re.sub(r"\$'([^']*)'", lambda it: unescaped(it[1]).decode("utf-8", "surrogateescape"), text)
    return [it.encode("utf-8", "surrogateescape") for it in shlex.split(plain)]


def rows_of(path: str, columns: int) -> list[pytest.param]:
    """The rows of a table of cases, each named by its line; `words` is the third cell."""
    found = []
    for number, line in enumerate(bytes_of(path).decode().splitlines(), 1):
        cells = [it.strip(" ") for it in line.split("|", columns - 1)]
        if not cells[0].startswith("#"):
            found.append(pytest.param(*cells, id=f"{os.path.basename(path)}:{number}"))
    return found


def run(words: list[str] | list[bytes], given: bytes, room: str, **more: object) -> tuple[int, bytes, bytes]:
    """Runs the command in a folder: its status, what it printed, what it said."""
    done = subprocess.run([COMMAND, *words], input=given, cwd=room, timeout=LIMIT, capture_output=True, **more)
    return done.returncode, done.stdout, done.stderr


def script_of(path: str) -> bytes:
    """The script of an example, made where a shell script makes it."""
    if os.path.exists(os.path.join(EXAMPLES, f"{path}.make")):
        return subprocess.run(["bash", f"{path}.make"], cwd=EXAMPLES, capture_output=True, check=True).stdout
    return bytes_of(f"{path}.tl")


@pytest.mark.parametrize("path", [it for it in PATHS if not os.path.exists(os.path.join(EXAMPLES, f"{it}.input"))])
def test_example(path: str, journal: str) -> None:
    status, told = int(bytes_of(f"{path}.status") or 0), bytes_of(f"{path}.told")
    words = ["--explain", "run"] if told else bytes_of(f"{path}.words").decode().splitlines() or ["run"]
    before = bytes_of(f"{path}.before")
    if before:
        assert run(["run"], before, journal)[0] == 0
    found = run(words, script_of(path), journal)
    assert found[:2] == (status, bytes_of(f"{path}.expected"))
    if told:
        assert found[2] == told


@pytest.mark.parametrize("path", [it for it in PATHS if os.path.exists(os.path.join(EXAMPLES, f"{it}.input"))])
def test_example_of_files(path: str, journal: str) -> None:
    given = os.path.join(EXAMPLES, os.path.dirname(path), bytes_of(f"{path}.input").decode().strip())
    output = bytes_of(f"{path}.output").decode().strip() or os.path.join(journal, "printed")
    words = bytes_of(f"{path}.words").decode().splitlines() or ["run"]
    before = bytes_of(f"{path}.before")
    if before:
        assert run(["run"], before, journal)[0] == 0
    source = os.open(given, os.O_RDONLY)
    with open(output, "wb") as printed:
        done = subprocess.run([COMMAND, *words], stdin=source, stdout=printed, stderr=subprocess.PIPE, cwd=journal, timeout=LIMIT)
    os.close(source)
    assert done.returncode == int(bytes_of(f"{path}.status") or 0)
    if not os.path.exists(os.path.join(EXAMPLES, f"{path}.output")):
        with open(output, "rb") as printed:
            assert printed.read() == bytes_of(f"{path}.expected")


@pytest.mark.parametrize("options", OPTIONS)
@pytest.mark.parametrize("path", SAME)
def test_options_change_nothing(path: str, options: str, journal: str) -> None:
    assert run(["run", *options.split()], bytes_of(f"{path}.tl"), journal)[:2] == (0, bytes_of(f"{path}.expected"))


@pytest.mark.parametrize("workers", ["2", "8"])
@pytest.mark.parametrize("words", ["40000 7 --every 10000", "200000 7"])
def test_sample(words: str, workers: str, room: str) -> None:
    wanted = subprocess.run([sys.executable, f"{EXAMPLES}/sample.py", *words.split()], capture_output=True, check=True).stdout
    assert run(["sample", *words.split(), "--workers", workers], b"", room)[:2] == (0, wanted)


@pytest.mark.parametrize("status, output, words, script", rows_of("cases/runs.rows", 4))
def test_run(status: str, output: str, words: str, script: str, journal: str) -> None:
    printed = unescaped(output) + b"\n"
    assert run(words_of(words), unescaped(script), journal)[:2] == (int(status), printed if output else b"\n"[:0])


@pytest.mark.parametrize("reply, block", rows_of("cases/blocks.rows", 2))
def test_block(reply: str, block: str, journal: str) -> None:
    """A block is put into a new table of numbers, and its rows are asked for."""
    wanted = f"a @1 ok\na @1 {reply}\na @1 rows 0\n" if reply.startswith("!") else f"a @1 ok\na @2 ok\na @2 {reply}\n"
    script = b"a> CREATE TABLE t (k INT, x INT) KEY k\na> PUT t\n" + unescaped(block) + b"\\.\na> SELECT k, x FROM t\n"
    assert run(["run"], script, journal)[:2] == (0, unescaped(wanted))


def journal_of(word: str) -> bytes | None:
    """The journal that a word of the table of journals means, None for no file: `B` that of cases/script_b.hex, `E` an empty
    one, `Z` no bytes, and then changes, from left to right: `@AT=HEX` these bytes from offset AT on, `/N` the first N bytes
    alone, `+HEX` these bytes after them."""
    if word == "-":
        return None
    first = {"B": bytes.fromhex(bytes_of("cases/script_b.hex").decode()), "E": b"timeline journal\0", "Z": b""}
    data = first[word[0]]
    for sign, text in re.findall(r"([@/+])([^@/+]*)", word[1:]):
        if sign == "@":
            at, new = int(text.partition("=")[0]), bytes.fromhex(text.partition("=")[2])
            data = data[:at] + new + data[at + len(new):]
        else:
            data = data[:int(text)] if sign == "/" else data + bytes.fromhex(text)
    return data


def journal_in(room: str) -> bytes | None:
    try:
        with open(f"{room}/timeline.tlj", "rb") as file:
            return file.read()
    except FileNotFoundError:
        return None


def put_journal(word: str, room: str) -> None:
    data = None if word == "folder" else journal_of(word)
    if word == "folder":
        os.mkdir(f"{room}/timeline.tlj")
    elif data is not None:
        with open(f"{room}/timeline.tlj", "wb") as file:
            file.write(data)


@pytest.mark.parametrize("status, before, words, script, output, after", rows_of("cases/journals.rows", 6))
def test_journal(status: str, before: str, words: str, script: str, output: str, after: str, room: str) -> None:
    put_journal(before, room)
    printed = unescaped(output)
    if printed and not printed.endswith(b"\n"):
        printed += b"\n"
    assert run(words_of(words), unescaped(script), room)[:2] == (int(status), printed)
    if after not in ("?", "folder"):
        assert journal_in(room) == journal_of(before if after == "=" else after)


@pytest.mark.parametrize("length", range(221))
def test_cut(length: int, room: str) -> None:
    """The journal of script B cut to each length: damaged at the last open gate after which a record and a byte are not whole."""
    put_journal(f"B/{length}", room)
    words = f"NotInitialised {length}"
    if length >= 17:
        words = f"Damaged {next(at for at in (178, 158, 112, 44, 16) if length > at)}"
    done = subprocess.run([program("timeline"), "run"], input=b"a> SELECT id FROM emp\n", cwd=room, capture_output=True, timeout=LIMIT)
    assert (done.returncode, done.stdout) == (7 if length < 17 else 9, f"! journal {words}\n".encode())


def judged(words: list[str], replies: bytes, room: str) -> None:
    """Has a script of awk judge replies."""
    with open(f"{room}/replies", "wb") as file:
        file.write(replies)
    done = subprocess.run(["awk", "-f", *words, f"{room}/replies"], cwd=f"{EXAMPLES}/sessions", capture_output=True, text=True, check=False)
    assert done.returncode == 0, done.stdout + done.stderr


def test_sessions_count(journal: str) -> None:
    status, out, _ = run(["run"], bytes_of("sessions/counts.tl"), journal)
    assert status == 0
    judged(["counts.awk"], out, journal)


@pytest.mark.parametrize("options", ["--workers 1", "--workers 2 --every 1", "--workers 8 --every 1"])
def test_sessions_state_moments(options: str, journal: str) -> None:
    status, out, _ = run(["run", *options.split()], bytes_of("sessions/moments.tl"), journal)
    assert status == 0
    judged(["moments.awk", "moments.tl"], out, journal)


@pytest.mark.parametrize("shape", ["1 4 250 1", "4 4 250 1", "2 3 20 50"])
def test_sessions_at_once(shape: str, journal: str) -> None:
    """Scripts of several sessions at once, of so many tables, loaders, batches of a loader and lines of a batch."""
    script = subprocess.run(["bash", "sessions/script.sh", *shape.split()], cwd=EXAMPLES, capture_output=True, check=True).stdout
    with open(f"{journal}/script", "wb") as file:
        file.write(script)
    status, out, _ = run(["run"], script, journal)
    assert status == 0
    judged(["transcript.awk", f"{journal}/script"], out, journal)
