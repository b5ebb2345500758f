"""Runs the program over more than a few of everything: groups, letters, marks, commits, rows of one key that hold one
after the other, packets; and over keys far apart. Each run has a limit of memory and of processor time, several times
what it takes, so that work or room that grows as the square of what is given does not pass."""
import os
import resource
import subprocess
import sys
import tempfile

from conftest import program, room_for_journals

PROGRAM = program("timeline")
JOURNALS = room_for_journals()
# The program that `rt try` makes, whose memory is not as it is, is run without limits of memory.
LIMITED = os.environ.get("UNLIMITED") is None
MEGABYTE = 1 << 20


def run(name, script, wanted, megabytes=1024, seconds=20, words=()):
    """Runs a script over an empty journal, with one worker where no words say otherwise; it prints what is wanted."""
    with tempfile.TemporaryDirectory(dir=JOURNALS) as room:
        init(room)
        done = subprocess.run([PROGRAM, "run", *(words or ("--workers", "1"))], cwd=room, input=script, capture_output=True,
                              text=True, preexec_fn=limits(megabytes, seconds))
    judge(name, done, 0, wanted)


def init(room):
    subprocess.run([PROGRAM, "init"], cwd=room, stdin=subprocess.DEVNULL, check=True)


def limits(megabytes, seconds):
    """What sets a program's limits before it begins."""
    def limit():
        resource.setrlimit(resource.RLIMIT_CPU, (seconds, seconds))
        if LIMITED:
            resource.setrlimit(resource.RLIMIT_AS, (megabytes * MEGABYTE, megabytes * MEGABYTE))

    return limit


def judge(name, done, status, wanted):
    """A run has ended with the status that is wanted, and printed what is wanted."""
    assert (done.returncode, done.stdout) == (status, wanted), (
        f"{name}: status {done.returncode}, {len(done.stdout)} bytes that begin {done.stdout[:200]!r}, "
        f"in place of {len(wanted)} that begin {wanted[:200]!r}")


def put(table, columns, lines):
    return f"a> PUT {table}\n{columns}\n" + "".join(f"{it}\n" for it in lines) + "\\.\n"


def rows(version, lines):
    return f"a @{version} rows {len(lines)}\n" + "".join(f"{it}\n" for it in lines)


def done(first, last):
    return "".join(f"a @{it} ok\n" for it in range(first, last + 1))


def test_many_groups():
    """1,500 groups of numbers near 0, of numbers far from it, and of texts; the values come in order."""
    keys = range(1500)
    far = [-(1 << 62) + it * (1 << 51) for it in keys]
    texts = [f"group {it:04}" for it in keys]
    script = "a> CREATE TABLE t (k INT, near INT, far INT, name TEXT) KEY k\n"
    script += put("t", "k,near,far,name", [f"{it},{it},{far[it]},{texts[it]}" for it in keys])
    wanted = done(1, 2)
    for column, names in (("near", keys), ("far", far), ("name", texts)):
        for kind, value in (("COUNT", lambda it: 1), ("MAX k", lambda it: it)):
            script += f"a> {kind} FROM t BY {column} OVER SYSTEM ALL\n"
            wanted += rows(2, [f"{name},2,3,{value(it)}" for it, name in enumerate(names)])
    run("1,500 groups", script, wanted)


def test_long_texts():
    """Texts of 101, 4,000 and 65,535 letters are kept, told apart by their last letter, found, grouped and joined."""
    texts = [("n" * (length - 1)) + end for length in (101, 4000, 65535) for end in "ab"]
    script = "a> CREATE TABLE t (k INT, name TEXT) KEY k\n"
    script += put("t", "k,name", [f"{it},{text}" for it, text in enumerate(texts)])
    script += "a> SELECT name FROM t\na> COUNT FROM t BY name OVER SYSTEM ALL\na> JOIN t WITH t ON name = name OVER SYSTEM ALL\n"
    script += f"a> SELECT k FROM t WHERE name = '{texts[3]}'\n"
    wanted = done(1, 2) + rows(2, texts) + rows(2, [f"{it},2,3,1" for it in sorted(texts)])
    wanted += rows(2, [f"2,3,{it},{text},{it},{text}" for it, text in enumerate(texts)]) + rows(2, ["3"])
    run("texts of 101 letters and more", script, wanted)


def test_many_marks():
    """600 commits, each with a mark, asked at some versions and over all of them by several workers."""
    script = "a> CREATE TABLE t (k INT) KEY k\n" + "".join(put("t", "k", [it]) for it in range(600)) + "GO\n"
    wanted = done(1, 601)
    for version in (2, 100, 101, 102, 601):
        script += f"a> SELECT k FROM t AS OF {version}\n"
        wanted += rows(601, range(version - 1))
    script += "a> COUNT FROM t OVER SYSTEM ALL\n"
    wanted += rows(601, ["0,2,0"] + [f"{it},{it + 1},{it - 1}" for it in range(2, 602)])
    for workers in ("1", "3", "64"):
        run(f"600 marks, {workers} workers", script, wanted, 65536, words=("--every", "1", "--workers", workers))


def test_keys_far_apart():
    """Keys take room by their number and not by their size, also where they are looked for twice."""
    keys = [0, 1 << 31, 10_000_000_000, (1 << 34) - 1, 1 << 34, (1 << 63) - 1, -1, -(1 << 63)]
    plain = "a> CREATE TABLE t (k INT) KEY k\n" + put("t", "k", keys) + put("t", "k", [10_000_000_000])
    plain += "a> REMOVE t\nk\n10000000000\n1\n\\.\na> REMOVE t\nk\n10000000000\n-1\n\\.\na> SELECT k FROM t\n"
    left = [str(it) for it in keys if it not in (10_000_000_000, -1)]
    run("keys far apart", plain, done(1, 3) + "a @3 ! NoRow 3\n" + done(4, 4) + rows(4, left), 256)
    script = "a> CREATE TABLE t (k INT) KEY k VALID\n" + put("t", "k,valid_from,valid_to", [f"{it},0,10" for it in keys])
    script += put("t", "k,valid_from,valid_to", ["10000000000,2,4"]) + "a> COUNT FROM t OVER VALID 0 TO 10\n"
    run("keys far apart, with periods", script, done(1, 3) + rows(3, ["0,10,8"]), 256)


def test_one_after_the_other():
    """A join of two tables whose 200,000 rows all have one value, and of which two hold at a time."""
    count = 200_000
    script = "a> CREATE TABLE l (k INT, x INT) KEY k VALID\na> CREATE TABLE r (k INT, x INT) KEY k VALID\n"
    script += put("l", "k,x,valid_from,valid_to", [f"{it},7,{10 * it},{10 * it + 10}" for it in range(count)])
    script += put("r", "k,x,valid_from,valid_to", [f"{it},7,{10 * it + 5},{10 * it + 15}" for it in range(count)])
    script += f"a> JOIN l WITH r ON x = x OVER VALID 0 TO {10 * count}\n"
    pairs = []
    for it in range(count):
        if it > 0:
            pairs.append(f"{10 * it},{10 * it + 5},{it},7,{it - 1},7")
        pairs.append(f"{10 * it + 5},{10 * it + 10},{it},7,{it},7")
    run("rows one after the other", script, done(1, 4) + rows(4, pairs))


def test_many_commits():
    """30,000 commits of a line, whose snapshots are let go as they are followed."""
    count = 30_000
    phases = [range(first, first + 1000) for first in range(0, count, 1000)]
    script = "a> CREATE TABLE t (k INT, x INT) KEY k\n"
    script += "".join("GO\n" + "".join(put("t", "k,x", [f"{it},{it}"]) for it in phase) for phase in phases)
    script += f"GO\na> COUNT FROM t OVER SYSTEM {count} TO {count + 2}\n"
    wanted = done(1, count + 1) + rows(count + 1, [f"{count},{count + 1},{count - 1}", f"{count + 1},{count + 2},{count}"])
    run("30,000 commits", script, wanted, 60)


def test_many_marks_of_periods():
    """10,000 commits of a line with a period, each with a mark, whose ends are shared and joined as they grow many."""
    count = 10_000
    phases = [range(first, first + 1000) for first in range(0, count, 1000)]
    script = "a> CREATE TABLE t (k INT) KEY k VALID\n"
    line = "k,valid_from,valid_to"
    script += "".join("GO\n" + "".join(put("t", line, [f"{it},{it},{it + 2}"]) for it in phase) for phase in phases)
    script += f"GO\na> COUNT FROM t OVER VALID 0 TO {count + 1}\n"
    wanted = done(1, count + 1) + rows(count + 1, ["0,1,1", f"1,{count},2", f"{count},{count + 1},1"])
    run("10,000 marks of periods", script, wanted, 100, words=("--every", "1", "--workers", "1"))


def test_long_answer():
    """An answer of 4 MB in rows of 4,000 letters takes some times its own size."""
    lines = [f"{it},{'x' * 4000}" for it in range(1000)]
    script = "a> CREATE TABLE t (k INT, name TEXT) KEY k\n" + put("t", "k,name", lines) + "GO\na> SELECT k, name FROM t\n"
    run("an answer of 4 MB", script, done(1, 2) + rows(2, lines), 160)


def follow(name, given, status, wanted, megabytes, seconds=20):
    """Follows an input, whose writer is given its file, onto an empty journal."""
    with tempfile.TemporaryDirectory(dir=JOURNALS) as room:
        init(room)
        with open(f"{room}/input", "w+b") as file:
            given(file)
            file.seek(0)
            done = subprocess.run([PROGRAM, "follow"], cwd=room, stdin=file, capture_output=True, text=True,
                                  preexec_fn=limits(megabytes, seconds))
    judge(name, done, status, wanted)


def test_long_inputs():
    """An input of packets is not kept: not that of 3 GB which is none, nor what stands after a place where no packet
    begins, nor packets that came before. A packet may be longer than a piece, and the place of one past the first."""
    if not LIMITED:
        return
    with tempfile.TemporaryDirectory(dir=JOURNALS) as room:
        init(room)
        script = "a> CREATE TABLE t (k INT, x INT) KEY k\n" + put("t", "k,x", [f"{it},{it}" for it in range(1000)])
        script += "GO\n" + put("t", "k,x", [f"{it},{it}" for it in range(1000, 200_000)]) + "a> CREATE TABLE u (k INT) KEY k\n"
        subprocess.run([PROGRAM, "run"], cwd=room, input=script, capture_output=True, text=True, check=True)
        first, second, third, last = (subprocess.run([PROGRAM, "ship", it, it], cwd=room, capture_output=True, check=True).stdout
                                      for it in "1234")

    def holed(size):
        def given(file):
            file.write(first)
            file.truncate(size)

        return given

    def packets(*each):
        return lambda file: file.writelines(each)

    follow("an input of 3 GB", lambda file: file.truncate(3 << 30), 10, "! packet 2147483648\n", 24)
    follow("a packet and 3 GB", holed(3 << 30), 10, "! packet 2147483648\n", 24)
    follow("a packet and 200 MB", holed(200 * MEGABYTE), 10, f"! packet {len(first)}\n", 24)
    follow("packets that came before", packets(*[first, second] * (64 * MEGABYTE // len(second))), 0, "follow @2\n", 24)
    follow("a packet of many pieces", packets(first, last, third, second), 0, "follow @4\n", 160)
    cut = packets(first, second, third[:-1])
    follow("a packet of many pieces, cut", cut, 10, f"! packet {len(first + second)}\n", 160)
    again = last[:4] + first[4:]
    follow("a place past many pieces", packets(third, second, again, first), 10, f"! packet {len(third + second)}\n", 160)
