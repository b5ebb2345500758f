"""The commands ship, follow and seal where packets break off, a disk fails, or lines of a seal come in another form."""
from __future__ import annotations

import os
import random
import shutil
import subprocess

import pytest

from conftest import COMMAND, run

SCRIPT = "a> CREATE TABLE t (k INT, v TEXT) KEY k\n" + "".join(f"a> PUT t\nk,v\n{it},{'x' * it}\n\\.\n" for it in range(9))


def bytes_of(folder: str) -> bytes:
    """The journal of a folder."""
    with open(f"{folder}/timeline.tlj", "rb") as file:
        return file.read()


@pytest.fixture
def leader(journal: str) -> str:
    """A folder with a journal of ten commits."""
    assert run(["run"], SCRIPT, journal).status == 0
    return journal


def shipped(folder: str, *words: str) -> bytes:
    return subprocess.run([COMMAND, "ship", *words], cwd=folder, stdout=subprocess.PIPE, check=True).stdout


def test_all_packets_are_shipped_also_where_a_piece_of_them_begins_as_a_closing_line_does(journal: str) -> None:
    """A pipe gives pieces that end anywhere: here nearly each of them begins with the sign of a closing line."""
    rows = "".join(f"{it},{'!' * 90}\n" for it in range(20_000))
    assert run(["run"], f"a> CREATE TABLE t (k INT, v TEXT) KEY k\na> PUT t\nk,v\n{rows}\\.\n", journal).status == 0
    size = len(bytes_of(journal))
    assert len(shipped(journal)) == size - 16 - 1 + 2 * 3
    assert run(["seal"], folder=journal).out.startswith(f"@2 {size - 1} ")


def follower(leader: str, name: str) -> str:
    """A folder with an empty journal."""
    os.mkdir(f"{leader}/{name}")
    with open(f"{leader}/{name}/timeline.tlj", "wb") as file:
        file.write(b"timeline journal\0")
    return f"{leader}/{name}"


def test_what_came_whole_of_a_stream_that_breaks_off_is_kept(leader: str) -> None:
    each = [shipped(leader, str(it), str(it)) for it in range(1, 11)]
    starts = [sum(map(len, each[:at])) for at in range(10)]
    stream = b"".join(each)
    for number, (cut, kept) in enumerate(((starts[4] + 3, 4), (starts[1] - 1, 0), (starts[9] + 20, 9))):
        for given in ("pipe", "file"):
            folder = follower(leader, f"{number}{given}")
            with open(f"{folder}/packets", "wb") as file:
                file.write(stream[:cut])
            found = run(["follow"], stream[:cut], folder) if given == "pipe" else run(["follow", "packets"], folder=folder)
            assert found[:2] == (10, f"follow @{kept}\n! packet {starts[kept]}\n")
            assert f"breaks off at byte {starts[kept]}" in found.err
            assert bytes_of(leader).startswith(bytes_of(folder)[:-1])
            assert run(["follow"], stream, folder) == (0, "follow @10\n", "")
            assert bytes_of(folder) == bytes_of(leader)


def test_nothing_is_kept_of_a_commit_that_does_not_fit(leader: str) -> None:
    """Also where a later one is of version 1 or 2, for which the copy is asked over another journal."""
    folder = follower(leader, "copy")
    assert run(["follow"], shipped(leader, "1", "3"), folder).out == "follow @3\n"
    assert run(["run"], "a> CREATE TABLE u (k INT) KEY k\n", folder).status == 0
    other = follower(leader, "other")
    assert run(["run"], "a> CREATE TABLE t (k INT) KEY k\na> CREATE TABLE t2 (k INT) KEY k\na> CREATE TABLE t3 (k INT) KEY k\na> CREATE TABLE t4 (k INT) KEY k\n"
               "a> CREATE TABLE u (k INT) KEY k\n", other).status == 0
    before = bytes_of(folder)
    for packets in (shipped(other), shipped(other, "5") + shipped(other, "1", "4"), shipped(other, "5")):
        found = run(["follow"], packets, folder)
        assert found.status == 10 and found.out.startswith("! packet ") and bytes_of(folder) == before
    empty = follower(leader, "empty")
    for at in (1, 2):
        wrong = at.to_bytes(4, "big") + shipped(leader, "3", "3")[4:]
        found = run(["follow"], (shipped(leader, "1", "1") if at == 2 else b"") + wrong[:-1] + b"\7" + wrong, empty)
        assert found.status == 10


def test_ship_waits_for_the_disk(leader: str) -> None:
    """Where the journal cannot be synced nothing is shipped: a copy would have what a crash may take from its leader."""
    if not shutil.which("strace"):
        pytest.skip("strace is not here")
    done = subprocess.run(["strace", "-f", "-o", "calls", "-e", "inject=fdatasync:error=EIO", COMMAND, "ship"], cwd=leader, capture_output=True, timeout=60)
    assert (done.returncode, done.stdout) == (5, b"! device\n") and b"cannot be synced" in done.stderr


@pytest.mark.parametrize("words", (["ship", "x"], ["ship", "16777216"], ["ship", "1", "2", "3"], ["ship", "-1"], ["ship", "\u0663"], ["--stamp", "ship"], ["--stamp", "follow"]),
                         ids=" ".join)
def test_words_of_ship(words: list[str], journal: str) -> None:
    assert run(words, folder=journal)[:2] == (2, "! usage\n")


def test_seals_in_any_form(leader: str) -> None:
    """Lines that end in CRLF, a last line without its end, and lines from a pipe are tried as any other, and none is passed over."""
    first = run(["seal"], folder=leader).out
    assert run(["run"], "a> PUT t\nk,v\n99,y\n\\.\n", leader).status == 0
    second = run(["seal"], folder=leader).out
    false = second[:-2] + ("0" if second[-2] != "0" else "1")
    for text, status, told in ((first + second, 0, "2 of 2"), (first + second.rstrip("\n"), 0, "2 of 2"), (first.rstrip("\n"), 0, "1 of 1"),
                               ((first + second).replace("\n", "\r\n"), 0, "2 of 2"), (first + false, 21, "1 of 2"), (false, 21, "0 of 1"),
                               ("\n" + first + "\n\n" + false + "\r\n", 21, "1 of 2"), ("", 21, "0 of 0"), (first + "@5 x\n", 21, "1 of 2"),
                               (first.replace("@10", "@10 "), 0, "1 of 1"), (second.replace(second.split()[1], "999999"), 21, "0 of 1")):
        with open(f"{leader}/seals", "w", newline="") as file:
            file.write(text)
        for words in (["seal", "--check", "seals"], ["seal", "--check", "/dev/stdin"]):
            found = run(words, text, leader)
            assert found[:2] == (status, f"{told} seals hold\n"), (text, found)


def test_a_seal_is_of_what_the_gate_lets_in(leader: str) -> None:
    """Its length is up to the gate that is closed, whatever stands after that, and its version the number of commits."""
    size = os.path.getsize(f"{leader}/timeline.tlj")
    sealed = run(["seal"], folder=leader).out
    assert sealed.startswith(f"@10 {size - 1} ")
    with open(f"{leader}/timeline.tlj", "ab") as file:
        file.write(b"cut off by the next that opens it")
    assert run(["seal"], folder=leader).out == sealed
    assert run(["seal"], folder=follower(leader, "none")).out.startswith("@0 16 ")


def test_any_bytes_come_back(journal: str) -> None:
    """Texts of all characters, put by a load and by a script, come back as they were, by ask and by run."""
    draw = random.Random(20261203)
    letters = [chr(it) for it in range(1, 256)] + ["\u2028", "\ufeff", "\U0001f600", '""', "\r\n", "\\", "'", ","]
    texts = ["".join(draw.choice(letters) for _ in range(draw.randrange(12))) for _ in range(400)]
    texts = [it for it in texts if "\\." not in it.split("\n")]
    rows = b"".join(b'%d,"%s"\n' % (at, it.replace('"', '""').encode()) for at, it in enumerate(texts))
    assert run(["--strict", "run"], "a> CREATE TABLE t (k INT, v TEXT) KEY k\na> CREATE TABLE u (k INT, v TEXT) KEY k\n", journal).status == 0
    assert run(["--no-stamp", "load", "t"], b"k,v\n" + rows, journal) == (0, "load @3 ok\n", "")
    assert run(["--strict", "run"], b"a> PUT u\nk,v\n" + rows + b"\\.\n", journal).status == 0
    import csv
    import io

    for table in "tu":
        done = subprocess.run([COMMAND, "ask", f"SELECT v, k FROM {table}"], cwd=journal, stdout=subprocess.PIPE, check=True)
        found = list(csv.reader(io.StringIO(done.stdout.decode(), newline="")))[1:]
        assert [row[0] for row in found] == texts
