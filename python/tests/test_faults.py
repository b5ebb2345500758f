"""Runs the program where a script alone does not reach: an input, an output and a journal that fail in a phase or
between two, and the lock of the journal."""
import fcntl
import os
import resource
import signal
import socket
import subprocess
import sys
import tempfile

import pytest
from conftest import program

PROGRAM = program("timeline")

# Three phases: a table, a batch of each of two sessions, and a query.
TABLE = "a> CREATE TABLE emp (id INT) KEY id\nGO\n"
BATCHES = "b> PUT emp\nid\n1\n\\.\nc> PUT emp\nid\n2\n\\.\nGO\n"
ROWS = "a> SELECT * FROM emp\n"


def judge(name, is_right, found=""):
    assert is_right, f"{name}: {found}"


def init(room):
    subprocess.run([PROGRAM, "init"], cwd=room, stdin=subprocess.DEVNULL, check=True)


def query(room):
    """What a query over the journal in a folder then answers."""
    return subprocess.run([PROGRAM, "run"], cwd=room, input=ROWS, capture_output=True, text=True).stdout


def input_fails(taken, output, later):
    """An input gives these bytes, and then a fault in place of its end."""
    with tempfile.TemporaryDirectory() as room:
        init(room)
        ours, theirs = socket.socketpair()
        ours.sendall(taken.encode())
        # An end that is closed with bytes unread resets the other, once that has read what was sent to it.
        theirs.sendall(b"unread")
        ours.close()
        run = subprocess.run([PROGRAM, "run"], cwd=room, stdin=theirs, capture_output=True, text=True)
        theirs.close()
        found = run.returncode, run.stdout, query(room)
        judge(f"an input that fails after {len(taken)} bytes", found == (3, output, later), found)


def output_fails(is_read, later):
    """The reader of the output goes away, before the first reply or once it has read that."""
    with tempfile.TemporaryDirectory() as room:
        init(room)
        reader, writer = os.pipe()
        run = subprocess.Popen([PROGRAM, "run"], cwd=room, stdin=subprocess.PIPE, stdout=writer)
        os.close(writer)
        if is_read:
            run.stdin.write(TABLE.encode())
            run.stdin.flush()
            judge("the reply of a phase, before the next is there", os.read(reader, 100) == b"a @1 ok\n", "")
        os.close(reader)
        try:
            run.stdin.write(((BATCHES + ROWS) if is_read else (TABLE + BATCHES + ROWS)).encode())
            run.stdin.close()
        except BrokenPipeError:
            pass
        found = run.wait(), query(room)
        judge("an output without a reader", found in [(4, it) for it in later], found)


def journal_fails(room_for, outputs):
    """The journal may not grow beyond so many bytes: it has 34 with the table, 61 with a batch and 88 with both. An
    output is that of the run and of a query after it."""

    def limit():
        signal.signal(signal.SIGXFSZ, signal.SIG_IGN)
        resource.setrlimit(resource.RLIMIT_FSIZE, (room_for, room_for))

    with tempfile.TemporaryDirectory() as room:
        init(room)
        words = {"cwd": room, "input": TABLE + BATCHES + ROWS, "capture_output": True, "text": True}
        run = subprocess.run([PROGRAM, "run"], preexec_fn=limit, **words)
        found = run.returncode, run.stdout + query(room)
        judge(f"a journal of at most {room_for} bytes", found in [(5, it) for it in outputs], found)


def test_streams_not_open():
    """A run whose output or input is not open fails, and the journal does not take its place."""
    for number, status, said in [(1, 4, ""), (0, 3, "! source\n")]:
        with tempfile.TemporaryDirectory() as room, open(f"{room}/replies", "w+") as replies:
            init(room)
            with open(f"{room}/script", "w+") as script:
                script.write(TABLE)
                script.seek(0)
                done = subprocess.run([PROGRAM, "run"], cwd=room, stdin=script, stdout=replies,
                                      preexec_fn=lambda: os.close(number))
            replies.seek(0)
            again = subprocess.run([PROGRAM, "run"], cwd=room, input="", capture_output=True, text=True)
            found = done.returncode, replies.read(), again.returncode, again.stdout
            judge(f"descriptor {number} is not open", found == (status, said, 0, ""), found)


def is_free(room, kind):
    """Whether the lock of the journal in a folder can be taken, at once and for as long as this looks."""
    with open(f"{room}/timeline.tlj", "rb") as journal:
        try:
            fcntl.flock(journal, kind | fcntl.LOCK_NB)
        except BlockingIOError:
            return False
    return True


def test_the_lock_is_kept():
    """A run has the lock of its journal, which it shares with nobody, from its first reply until it ends."""
    with tempfile.TemporaryDirectory() as room:
        init(room)
        with subprocess.Popen([PROGRAM, "run"], cwd=room, stdin=subprocess.PIPE, stdout=subprocess.PIPE) as run:
            run.stdin.write(TABLE.encode())
            run.stdin.flush()
            found = run.stdout.readline(), is_free(room, fcntl.LOCK_SH)
            judge("the lock while a run goes on", found == (b"a @1 ok\n", False), found)
            run.stdin.close()
            run.wait()
        judge("the lock once the run has ended", is_free(room, fcntl.LOCK_EX), "it is not free")
        with open(f"{room}/timeline.tlj", "rb") as other:
            fcntl.flock(other, fcntl.LOCK_SH)
            done = subprocess.run([PROGRAM, "run"], cwd=room, input=ROWS, capture_output=True, text=True)
            found = done.returncode, done.stdout
            judge("a run beside a shared lock", found == (5, "! device\n"), found)


@pytest.mark.parametrize("taken, output, later", [
    ("a> CREATE TABLE emp", "! source\n", "a @0 ! UnknownTable 14\n"),
    (TABLE + "b> PUT emp\nid\n1\n", "a @1 ok\n! source\n", "a @1 rows 0\n"),
], ids=["in a statement", "in a block"])
def test_an_input_that_fails(taken, output, later):
    input_fails(taken, output, later)


@pytest.mark.parametrize("is_read, later", [(False, ["a @1 rows 0\n"]), (True, ["a @3 rows 2\n1\n2\n", "a @3 rows 2\n2\n1\n"])])
def test_an_output_without_a_reader(is_read, later):
    output_fails(is_read, later)


BROKEN = "a @1 ok\nb @1 ! {}\nc @1 ! {}\na @1 rows 0\n! device\na @1 rows 0\n"
FULL = "a @1 ok\nb @2 {}\nc @2 {}\na @2 rows 1\n{}\n! device\na @2 rows 1\n{}\n"


@pytest.mark.parametrize("size, outputs", [
    (50, [BROKEN.format("device", "broken"), BROKEN.format("broken", "device")]),
    (70, [FULL.format("ok", "! device", 1, 1), FULL.format("! device", "ok", 2, 2)]),
], ids=["50", "70"])
def test_a_journal_that_may_not_grow(size, outputs):
    journal_fails(size, outputs)
