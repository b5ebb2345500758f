#!/usr/bin/env python3
"""Asks queries with the names of their columns: names.py PROGRAM LOOK, the program and the one that looks. Each line of
cases/names.rows has a statement, the names or the refusal, and the number of rows; the rows are those that `run` gives
without names. Ends with 1 where something is not as it should be."""
import os
import shutil
import subprocess
import sys
import tempfile

HERE = os.path.dirname(os.path.abspath(__file__))
PROGRAM, LOOK = (os.path.abspath(word) for word in sys.argv[1:])
# The folder for journals: a file system in memory, where there is one.
JOURNALS = "/dev/shm" if os.access("/dev/shm", os.W_OK) else None
VERSION = 5
FIRST = r"""
a> CREATE TABLE emp (id INT, dept TEXT, pay INT) KEY id
a> CREATE TABLE lease (flat INT, tenant TEXT) KEY flat VALID
a> PUT emp
id,dept,pay
7,ops,100
1,"dev, test",50
\.
a> PUT lease
flat,tenant,valid_from,valid_to
7,anna,10,20
7,bert,20,FOREVER
\.
a> PUT emp
id,dept,pay
1,"dev, test",60
\.
"""

failed = 0


def judge(name, found, wanted):
    global failed
    if found != wanted:
        failed = 1
        print(f"{name}: {found!r} and not {wanted!r}")


def run(program, words, given, room):
    done = subprocess.run([program, *words], input=given.encode(), cwd=room, capture_output=True, timeout=60)
    return done.returncode, done.stdout.decode()


def table():
    with open(f"{HERE}/cases/names.rows") as rows:
        for row in rows:
            if not row.startswith("#"):
                statement, told, count = (field.strip() for field in row.split("|"))
                yield statement.replace("\\n", "\n").replace("\\\\", "\\"), told, count


def wanted_of(statement, told, count, room):
    """The reply with names: that of `run`, with the line of the names after its first one."""
    if told.startswith("!"):
        return f"a @{VERSION} {told}\n"
    status, printed = run(PROGRAM, ["run"], f"a> {statement}\n", room)
    first, rows = printed.split("\n", 1)
    judge(statement, (status, first), (0, f"a @{VERSION} rows {count}"))
    return f"{first}\n{told}\n{rows}"


def each_alone_and_all_at_once(room):
    replies = []
    for statement, told, count in table():
        replies.append(wanted_of(statement, told, count, room))
        judge(statement, run(LOOK, ["--names"], f"a> {statement}\n", room), (0, replies[-1]))
    script = "GO\n".join(f"a> {statement}\n" for statement, _, _ in table())
    judge("all at once", run(LOOK, ["--names"], script, room), (0, "".join(replies)))


def phase_by_phase(room):
    """Each phase is answered before the next one is there."""
    look = subprocess.Popen([LOOK, "--names"], cwd=room, stdin=subprocess.PIPE, stdout=subprocess.PIPE)
    for _ in range(3):
        look.stdin.write(b"b> SELECT id FROM emp WHERE id = 7\nGO\n")
        look.stdin.flush()
        judge("a phase", [look.stdout.readline() for _ in range(3)], [b"b @5 rows 1\n", b"id\n", b"7\n"])
    look.stdin.close()
    judge("the end", (look.stdout.read(), look.wait(60)), (b"", 0))


def what_ends_it(room, empty):
    for words in (["--names", "run"], ["run", "--names"], ["--name"], []):
        judge(words, run(LOOK, words, "a> SELECT id FROM emp\n", room), (2, "! usage\n"))
    one = f"a @{VERSION} rows 0\nid\n"
    judge("a fault", run(LOOK, ["--names"], "a> SELECT id FROM emp AS OF 1\nnone\n", room), (6, "! script NoSession 2\n"))
    judge("a fault after a phase", run(LOOK, ["--names"], "a> SELECT id FROM emp AS OF 1\nGO\nnone\n", room), (6, one + "! script NoSession 3\n"))
    judge("no journal", run(LOOK, ["--names"], "a> SELECT id FROM emp\n", empty), (7, "! journal NotInitialised 0\n"))
    with open(f"{empty}/timeline.tlj", "wb") as file:
        file.write(b"timeline")
    judge("a short one", run(LOOK, ["--names"], "a> SELECT id FROM emp\n", empty), (7, "! journal NotInitialised 8\n"))


room, empty = tempfile.mkdtemp(dir=JOURNALS), tempfile.mkdtemp(dir=JOURNALS)
try:
    judge("init", run(PROGRAM, ["init"], "", room)[0], 0)
    judge("a first script", run(PROGRAM, ["run"], FIRST, room)[0], 0)
    with open(f"{room}/timeline.tlj", "rb") as file:
        before = file.read()
    each_alone_and_all_at_once(room)
    phase_by_phase(room)
    what_ends_it(room, empty)
    with open(f"{room}/timeline.tlj", "rb") as file:
        judge("the journal", file.read() == before, True)
finally:
    shutil.rmtree(room)
    shutil.rmtree(empty)
sys.exit(failed)
