"""What a command leaves when it is stopped or killed, when it has no room, and when another program has the journal."""
from __future__ import annotations

import fcntl
import os
import random
import shutil
import signal
import subprocess
import sys
import time
from typing import Iterator, Sequence

import pytest

from conftest import COMMAND, ROOT, run
from timeline import cleanup

TABLE = "a> CREATE TABLE t (k INT, v TEXT) KEY k\na> PUT t\nk,v\n1,one\n2,two\n\\.\n"
PATIENCE = 60.0      # seconds: what takes a moment may take longer where other programs run
SIGNALS = (signal.SIGINT, signal.SIGTERM, signal.SIGHUP)
# Commands of which each has its input open for as long as the test lasts, and one that ends by itself.
WAITING = (["run"], ["--explain", "run"], ["group"], ["load", "t"], ["follow"], ["try"], ["watch", "COUNT FROM t OVER SYSTEM ALL"],
           ["--stamp", "transact"])


@pytest.fixture
def table(journal: str) -> str:
    """A folder with a journal that has a table t."""
    assert run(["run"], TABLE, journal).status == 0
    return journal


@pytest.fixture
def temporary(room: str) -> Iterator[str]:
    """A folder for temporary files."""
    os.mkdir(f"{room}/temporary")
    yield f"{room}/temporary"


def start(words: Sequence[str], folder: str, temporary: str) -> subprocess.Popen[bytes]:
    """Starts a command in a session of its own, with its input open."""
    return subprocess.Popen([COMMAND, *words], cwd=folder, stdin=subprocess.PIPE, stdout=subprocess.PIPE, stderr=subprocess.DEVNULL,
                            env={**os.environ, "TMPDIR": temporary}, start_new_session=True)


def processes_of(session: int) -> list[int]:
    """The processes of a session that are there."""
    found = []
    for name in filter(str.isdigit, os.listdir("/proc")):
        try:
            with open(f"/proc/{name}/stat") as stat:
                fields = stat.read().rpartition(")")[2].split()
        except OSError:
            continue
        if int(fields[3]) == session and fields[0] != "Z":
            found.append(int(name))
    return found


def is_free(folder: str) -> bool:
    """Whether nobody has the journal's lock."""
    with open(f"{folder}/timeline.tlj", "rb") as file:
        try:
            fcntl.flock(file, fcntl.LOCK_EX | fcntl.LOCK_NB)
        except BlockingIOError:
            return False
    return True


def catches_signals(process: int) -> bool:
    """Whether a command has come so far that a signal is its own to deal with; before, it ends as any process does."""
    with open(f"/proc/{process}/status") as status:
        caught = next(line.split()[1] for line in status if line.startswith("SigCgt:"))
    return int(caught, 16) >> signal.SIGTERM - 1 & 1 == 1


def until(is_so: object, seconds: float = PATIENCE) -> bool:
    """Whether something comes to be so in time."""
    assert callable(is_so)
    ends = time.monotonic() + seconds
    while time.monotonic() < ends:
        if is_so():
            return True
        time.sleep(0.02)
    return bool(is_so())


@pytest.mark.parametrize("words", WAITING, ids=" ".join)
def test_signal_ends_a_command_whose_input_is_open(words: Sequence[str], table: str, temporary: str) -> None:
    before = os.path.getsize(f"{table}/timeline.tlj")
    for number in SIGNALS:
        command = start(words, table, temporary)
        assert until(lambda: catches_signals(command.pid))
        time.sleep(0.4)      # by then it waits for its input, on most machines
        os.kill(command.pid, number)
        assert command.wait(PATIENCE) == 128 + number
        assert until(lambda: not processes_of(command.pid)), "a process is left"
        assert is_free(table) and not os.listdir(temporary)
        for pipe in (command.stdin, command.stdout):
            assert pipe is not None
            pipe.close()
    assert "--stamp" in words or os.path.getsize(f"{table}/timeline.tlj") == before


def test_signals_at_any_moment(table: str, temporary: str) -> None:
    """Also at a command's start no process, no folder and no lock is left, whichever signal comes when."""
    draw = random.Random(20261201)
    started = []
    for turn in range(48):
        command = start(WAITING[turn % len(WAITING)], table, temporary)
        time.sleep(draw.random() * 0.3)
        os.kill(command.pid, SIGNALS[turn % 3])
        started.append(command)
    for command in started:
        command.wait(PATIENCE)
        assert until(lambda: not processes_of(command.pid)), "a process is left"
    assert is_free(table)
    assert run(["ask", "SELECT v FROM t"], folder=table, env={**os.environ, "TMPDIR": temporary}) == (0, "v\none\ntwo\n", "")
    assert not os.listdir(temporary)


def test_what_was_killed_is_cleared_by_the_next_command(table: str, temporary: str) -> None:
    command = start(["try"], table, temporary)
    assert until(lambda: os.listdir(temporary) and processes_of(command.pid)[1:])
    os.mkdir(f"{temporary}/timeline-of-mine")
    command.kill()
    command.wait()
    assert len(os.listdir(temporary)) == 2
    assert run(["ask", "SELECT v FROM t"], folder=table, env={**os.environ, "TMPDIR": temporary}).status == 0
    assert os.listdir(temporary) == ["timeline-of-mine"], "what is not the command's own stays"
    assert command.stdin is not None
    command.stdin.close()


def test_private_folder_of_a_command_that_runs_stays(table: str, temporary: str) -> None:
    command = start(["try"], table, temporary)
    assert command.stdin is not None and command.stdout is not None
    command.stdin.write(b"a> CREATE TABLE u (k INT) KEY k\nGO\n")
    command.stdin.flush()
    assert command.stdout.readline() == b"a @1 ok\n"
    for _ in range(3):
        assert run(["ask", "SELECT v FROM t"], folder=table, env={**os.environ, "TMPDIR": temporary}).status == 0
    command.stdin.write(b"a> SELECT * FROM u\n")
    command.stdin.close()
    assert command.stdout.read() == b"a @1 rows 0\n" and command.wait(PATIENCE) == 0


def test_killed_at_any_moment_nothing_is_lost(table: str, temporary: str) -> None:
    """Loads that are killed by kill -9, the front alone or with the program: each is there whole or not at all, with its moment."""
    draw = random.Random(20261202)
    rows = "k,v\n" + "".join(f"{key},{'x' * 40}\n" for key in range(100, 3100))
    for turn in range(24):
        command = start(["load", "t"], table, temporary)
        assert command.stdin is not None
        time.sleep(draw.random() * 0.1)
        try:
            command.stdin.write(rows.encode())
            command.stdin.close()
        except BrokenPipeError:
            pass
        time.sleep(draw.random() * 0.4)
        (os.killpg if turn % 2 else os.kill)(command.pid, signal.SIGKILL)
        command.wait()
        assert until(lambda: not processes_of(command.pid))
    counted = run(["ask", "COUNT FROM t OVER SYSTEM ALL"], folder=table)
    assert counted.status == 0
    assert {line.split(",")[2] for line in counted.out.split()[1:]} <= {"0", "2", "3002"}
    log = [line.split(",") for line in run(["log", "--csv"], folder=table).out.split("\n")[1:-1]]
    words = [line[3] for line in log]
    assert all(after == "change" or after == "create" for before, after in zip(words, words[1:]) if before == "moment"), "a moment alone is none"
    assert words[-1] != "moment"


def test_commands_that_begin_at_once_keep_their_own_folders(temporary: str) -> None:
    """What a command clears that was killed is no folder that another has just made, and has not locked yet."""
    words = [sys.executable, "-c", "import sys; from timeline import cleanup\nwhile True: cleanup.sweep(sys.argv[1])", temporary]
    clearing = [subprocess.Popen(words, env={**os.environ, "PYTHONPATH": f"{ROOT}/python/src"}) for _ in range(2)]
    try:
        ends = time.monotonic() + 2
        while time.monotonic() < ends:
            folder = cleanup.private_folder(temporary)
            assert os.path.isdir(folder)
            cleanup.remove(folder)
    finally:
        for process in clearing:
            process.kill()
            process.wait()


# A folder for temporary files that is none, or has no room, or an odd name.
FOLDERS = ("missing", "file", "back\\slash and 'quotes'", "read-only")


@pytest.mark.parametrize("name", FOLDERS)
def test_odd_temporary_folder(name: str, table: str) -> None:
    folder = f"{table}/{name}"
    if name == "file":
        open(folder, "w").close()
    elif name != "missing":
        os.mkdir(folder, 0o500 if name == "read-only" else 0o700)
    around = {**os.environ, "TMPDIR": folder, "SHELLOPTS": "noglob"}
    assert run(["ask", "SELECT v FROM t"], folder=table, env=around) == (0, "v\none\ntwo\n", "")
    assert run(["try"], TABLE, table, env=around) == (0, "a @1 ok\na @2 ok\n", "")
    assert run(["--strict", "--explain", "run"], "a> SELECT x FROM t\n", table, env=around).status == 20
    assert run(["--no-stamp", "load", "t"], "k,v\n3,three\n", table, env=around) == (0, "load @3 ok\n", "")
    packets = subprocess.run([COMMAND, "ship"], cwd=table, env=around, stdout=subprocess.PIPE, check=True).stdout
    assert run(["follow"], packets, table, env=around) == (0, "follow @3\n", "")
    assert run(["seal", "--check", "/dev/stdin"], run(["seal"], folder=table, env=around).out, table, env=around).status == 0


def can_mount() -> bool:
    """Whether a file system of one's own may be made."""
    return shutil.which("unshare") is not None and subprocess.run(["unshare", "-rm", "true"], capture_output=True).returncode == 0


@pytest.mark.skipif(not can_mount(), reason="no file system of one's own may be made here")
def test_no_room_for_temporary_files(table: str) -> None:
    """With no room for temporary files a command does its work without, or says so and changes nothing."""
    os.mkdir(f"{table}/small")
    script = 'mount -t tmpfs -o size=64k none small && head -c 65536 /dev/zero >small/filler; export TMPDIR="$PWD/small"\n'
    rows = "k,v\n" + "".join(f"{key},{'x' * 50}\n" for key in range(10, 5000))
    before = run(["ask", "COUNT FROM t OVER SYSTEM ALL"], folder=table)

    def small(words: str, given: str = "") -> tuple[int, str, str]:
        done = subprocess.run(["unshare", "-rm", "sh", "-c", script + f'"$0" {words}', COMMAND], input=given, cwd=table, capture_output=True,
                              text=True)
        return done.returncode, done.stdout, done.stderr

    assert small("ask 'SELECT v FROM t'")[:2] == (0, "v\none\ntwo\n")
    assert small("--explain run", "a> SELECT v FROM t\n")[:2] == (0, "a @2 rows 2\none\ntwo\n")
    loaded = small("--no-stamp load t", rows)
    if loaded[0] == 0:
        assert loaded[1] == "load @3 ok\n"
        assert run(["ask", "COUNT FROM t OVER SYSTEM 3 TO 4"], folder=table).out.endswith(f"3,4,{2 + 4990}\n")
    else:
        assert loaded[:2] == (5, "! device\n") and "room" in loaded[2] or "copied" in loaded[2]
        assert run(["ask", "COUNT FROM t OVER SYSTEM ALL"], folder=table) == before


def test_full_disk_is_named(table: str) -> None:
    """A disk that has no room for a commit fails that commit, and keeps what was there."""
    limit = os.path.getsize(f"{table}/timeline.tlj") // 512 + 1
    rows = "a> PUT t\nk,v\n" + "".join(f"{key},{'x' * 50}\n" for key in range(10, 100)) + "\\.\n"
    done = subprocess.run(["sh", "-c", f'ulimit -f {limit}; exec "$0" run', COMMAND], input=rows.encode(), cwd=table, capture_output=True)
    assert (done.returncode, done.stdout) == (5, b"a @2 ! device\n! device\n")
    assert run(["ask", "SELECT v FROM t"], folder=table).out == "v\none\ntwo\n"


WRITERS = ("group big.tl", "transact big.tl", "group <big.tl", "transact <big.tl", "group", "transact", "--explain group big.tl", "watch 'COUNT FROM t OVER SYSTEM ALL'",
           "load t big.csv", "load t big.csv --no-stamp", "import u big.csv --key k", "sync t big.csv", "--lenient load t big.csv")


@pytest.mark.parametrize("words", WRITERS)
def test_a_full_disk_keeps_nothing_and_is_said(words: str, table: str) -> None:
    """What has no room is not there, and the status is not 0, whatever the input is read from; nothing is tried with half of it."""
    rows = "k,v\n" + "".join(f"{key},{'x' * 50}\n" for key in range(10, 9_000))
    for name, text in (("big.csv", rows), ("big.tl", f"a> PUT t\n{rows}\\.\n")):
        with open(f"{table}/{name}", "w") as file:
            file.write(text)
    given = "" if "big" in words else "cat big.tl | "
    limit = os.path.getsize(f"{table}/timeline.tlj") // 1024 + 100
    before = run(["log", "--csv"], folder=table).out
    done = subprocess.run(["bash", "-c", f'ulimit -f {limit}; {given}"$0" {words}', COMMAND], cwd=table, capture_output=True, text=True, timeout=60)
    assert (done.returncode, done.stdout) == (5, "! device\n") and ("disk" in done.stderr or "--explain" not in words), done
    assert run(["log", "--csv"], folder=table).out == before and run(["ask", "SELECT v FROM t"], folder=table).out == "v\none\ntwo\n"


@pytest.mark.parametrize("words", (["run"], ["--strict", "run"], ["init"], ["load", "t"], ["group"], ["follow"], ["--stamp", "run"]), ids=" ".join)
def test_journal_that_another_has(words: Sequence[str], table: str) -> None:
    with open(f"{table}/timeline.tlj", "rb") as other:
        fcntl.flock(other, fcntl.LOCK_EX)
        before = other.read()
        found = run(words, "k,v\n7,x\n", table)
        assert found[:2] == (13, "! locked\n")
        assert f"another program has this journal: process {os.getpid()}, " in found.err
        begun = time.monotonic()
        assert run(["--wait", "1", *words], "k,v\n7,x\n", table)[:2] == (13, "! locked\n")
        assert 1.0 <= time.monotonic() - begun < 8.0
        other.seek(0)
        assert other.read() == before
        assert run(["ask", "SELECT v FROM t"], folder=table) == (0, "v\none\ntwo\n", "")


def test_wait_goes_on_once_the_lock_is_free(table: str) -> None:
    for words in (["--wait", "--no-stamp", "load", "t"], ["--no-stamp", "load", "t", "--wait", "30"]):
        with open(f"{table}/timeline.tlj", "rb") as other:
            fcntl.flock(other, fcntl.LOCK_EX)
            waiter = subprocess.Popen([COMMAND, *words], cwd=table, stdin=subprocess.PIPE, stdout=subprocess.PIPE, stderr=subprocess.PIPE)
            assert waiter.stdin is not None and waiter.stderr is not None and waiter.stdout is not None
            waiter.stdin.write(b"k,v\n3,three\n")
            waiter.stdin.close()
            assert waiter.stderr.readline().startswith(b"timeline: another program has this journal: process ")
            time.sleep(0.3)
            assert waiter.poll() is None
        assert waiter.stdout.read().endswith(b" ok\n") and waiter.wait(PATIENCE) == 0
        waiter.stdout.close()
        waiter.stderr.close()


@pytest.mark.parametrize("words", (["run"], ["ask", "SELECT 1"], ["log"], ["tables"], ["ship"], ["seal"], ["seal", "--check", "/dev/null"],
                                   ["load", "t"], ["follow"], ["init"]), ids=" ".join)
def test_journal_that_is_no_file(words: Sequence[str], room: str) -> None:
    """A pipe in the journal's place keeps no command waiting, and a folder is named."""
    os.mkfifo(f"{room}/timeline.tlj")
    found = run(words, "", room)
    assert found[:2] == (5, "! device\n") and "timeline.tlj is no file" in found.err
    os.remove(f"{room}/timeline.tlj")
    os.mkdir(f"{room}/timeline.tlj")
    found = run(words, "", room)
    assert found[:2] == (5, "! device\n") and "timeline.tlj is a folder" in found.err


@pytest.mark.parametrize("words", (["run"], ["--strict", "run"], ["ask", "SELECT v FROM t"], ["log"], ["tables", "--csv"], ["ship"], ["seal"],
                                   ["--help"], ["group"], ["--no-stamp", "load", "t"]), ids=" ".join)
def test_output_that_fails(words: Sequence[str], table: str) -> None:
    given = "k,v\n1,one\n" if "load" in words else "a> SELECT v FROM t\n"
    with open("/dev/full", "wb") as full:
        done = subprocess.run([COMMAND, *words], input=given.encode(), cwd=table, stdout=full, stderr=subprocess.PIPE)
    assert done.returncode == 4
    reads, writes = os.pipe()
    os.close(reads)
    done = subprocess.run([COMMAND, *words], input=given.encode(), cwd=table, stdout=writes, stderr=subprocess.PIPE)
    os.close(writes)
    assert (done.returncode, done.stderr) == (4, b"")
