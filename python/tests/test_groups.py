"""Runs the commands group, transact, ship, follow and watch: a group is kept whole or not at all, a transaction not where a
statement is refused; packets come in any order, are
lost and come again, and what is watched is what asking anew says."""
import fcntl
import os
import random
import re
import shutil
import signal
import subprocess
import sys
import tempfile

import followed
import watched
import pytest
from conftest import COMMAND, ROOT, program, room_for_journals

PROGRAM = program("timeline")
JOURNALS = room_for_journals()
EMPTY = b"timeline journal\0"
SEED = 20261130          # what is drawn is the same in each run


def judge(name, is_right, found=""):
    assert is_right, f"{name}: {found}"


def run(words, given=b"", room=None, command=COMMAND, **more):
    """Runs the command, and gives its status, what it printed and what it said."""
    given = given.encode() if isinstance(given, str) else given
    done = subprocess.run([command, *words], input=given, cwd=room, capture_output=True, **more)
    return done.returncode, done.stdout, done.stderr.decode()


class Room:
    """A folder of its own, with a journal, over which a script was run."""

    def __init__(self, script=""):
        self.script = script

    def __enter__(self):
        self.room = tempfile.mkdtemp(dir=JOURNALS)
        judge("init", run(["init"], room=self.room)[0] == 0)
        if self.script:
            judge("a first script", run(["--strict", "run"], self.script, self.room)[0] == 0, self.script)
        return self.room

    def __exit__(self, *_):
        shutil.rmtree(self.room)


def journal(room):
    with open(f"{room}/timeline.tlj", "rb") as file:
        return file.read()


def put(table, rows, names="k,x"):
    return f"a> PUT {table}\n{names}\n" + "".join(f"{row}\n" for row in rows) + "\\.\n"


def test_a_group_is_kept_whole():
    """The replies and the journal are those of `run`, and nothing is kept where the script or the disk fails."""
    create = "a> CREATE TABLE t (k INT, x INT) KEY k\n"
    script = create + "".join(put("t", [f"{it},{it % 7}"]) + ("GO\n" if it % 10 == 0 else "") for it in range(100)) + "GO\nb> SELECT k FROM t WHERE x = 3\n"
    with Room() as one, Room() as other:
        found, wanted = run(["group"], script, one), run(["run"], script, other)
        judge("group beside run", found == wanted and found[0] == 0, (found[0], found[1][-80:], found[2]))
        judge("its journal", journal(one) == journal(other))
        with open(f"{one}/next.tl", "w") as file:
            file.write(put("t", ["7,7"]))
        judge("group FILE", run(["group", "next.tl"], room=one) == (0, b"a @102 ok\n", ""))
        before = journal(one)
        told = "timeline: 1 of 2 statements was refused\n"
        judge("--strict group", run(["--strict", "group"], put("t", ["1,1"]) + "a> S\n", one) == (20, b"a @103 ok\na @103 ! Unexpected 0\n", told))
        before = journal(one)
        for name, text, status in (("an open block", create + "a> PUT t\nk,x\n1,1\n", 6), ("a line that is none", put("t", ["2,2"]) + "GO\nhello\n", 6)):
            found = run(["group"], text, one)
            judge(f"group of {name}", found[0] == status and found[1].startswith(b"! script ") and journal(one) == before, found)
        # A disk with no room for all of it: the group is not there at all, and the journal goes on.
        limit = len(before) // 1024 + 2
        words = f'ulimit -f {limit}; trap "" XFSZ; exec "$0" group'
        text = "".join(put("t", [f"{it},1"]) for it in range(2000, 2200))
        done = subprocess.run(["bash", "-c", words, PROGRAM], input=text.encode(), cwd=one, capture_output=True)
        judge("group on a full disk", (done.returncode, done.stdout) == (5, b"! device\n"), done)
        found = run(["ask", "COUNT FROM t WHERE x = 1 AND k >= 2000 OVER SYSTEM 102 TO 104"], room=one)
        judge("what it left", found == (0, b"from,to,value\n102,104,0\n", ""), found)
        judge("the journal goes on", run(["group"], text, one)[0] == 0)
        found = run(["ask", "COUNT FROM t WHERE x = 1 AND k >= 2000 OVER SYSTEM 303 TO 304"], room=one)
        judge("all of it", found == (0, b"from,to,value\n303,304,200\n", ""), found)
        with open("/dev/full", "w") as full:
            status = subprocess.run([PROGRAM, "group"], input=put("t", ["1,1"]).encode(), cwd=one, stdout=full).returncode
        judge("group with an output that fails", status == 4, status)


def test_a_transaction_is_kept_whole():
    """Without a refusal it is `group`; with one the replies end with that of the statement, whose number the last line has,
    and the journal stays as it was, whatever is refused and wherever it stands."""
    draw = random.Random(SEED)
    create = "a> CREATE TABLE t (k INT, x INT) KEY k\n"
    # Statements that are refused, whatever stands before them, and the words of their fault.
    refused = [("a> PUT t\nk,x\n1,1\n1,2\n\\.\n", "KeyTwice 3"), ("b> SELECT y FROM t\n", "UnknownColumn 7"), ("c> \n", "Unexpected 0"),
               ("a> REMOVE t\nk\n-1\n\\.\n", "NoRow 2"), ("b> PUT t\nk,x\n1,one\n\\.\n", "NotInt 2 2"), (create, "TableExists")]
    for number in range(60):
        # Each statement, with its reply where it is done; after some of them a phase ends.
        version, script, replies = 1, "", b""
        length, at = 1 + draw.randrange(12), draw.randrange(24)
        for it in range(1, length + 1):
            if it == at:
                statement, fault = refused[number % len(refused)]
                script += statement
                replies += f"{statement[0]} @{version} ! {fault}\n! refused {at}\n".encode()
            elif draw.randrange(4):
                version += 1
                script += put("t", [f"{it},{draw.randrange(9)}"])
                replies += f"a @{version} ok\n".encode() if not 0 < at < it else b""
            else:
                script += "b> SELECT k FROM t WHERE x = 10\n"
                replies += f"b @{version} rows 0\n".encode() if not 0 < at < it else b""
            script += draw.choice(("", "", "GO\n"))
        is_refused = 0 < at <= length
        with Room(create) as one, Room(create) as other:
            before = journal(one)
            found = run(["transact"], script, one)
            judge(f"transact, script {number}", found[:2] == (12 if is_refused else 0, replies), (found, replies))
            beside = run(["group"], script, other)
            if is_refused:
                judge(f"what script {number} left", journal(one) == before)
                judge(f"group of script {number}", beside[0] == 0 and beside[1].startswith(replies[:replies.rindex(b"! refused")]), beside)
            else:
                judge(f"group beside transact, script {number}", beside == found and journal(one) == journal(other), beside)
    with Room(create + put("t", ["1,1"])) as room:
        before = journal(room)
        # After a refusal no more is read: the program ends while its input is still open.
        with subprocess.Popen([PROGRAM, "transact"], cwd=room, stdin=subprocess.PIPE, stdout=subprocess.PIPE) as transaction:
            transaction.stdin.write((put("t", ["2,2"]) + "a> S\nGO\n").encode())
            transaction.stdin.flush()
            judge("it ends", transaction.wait(60) == 12)
            judge("its replies", transaction.stdout.read() == b"a @3 ok\na @3 ! Unexpected 0\n! refused 2\n")
        with open(f"{room}/next.tl", "w") as file:
            file.write(put("t", ["7,7"]) + put("t", ["8,x"]))
        told = "timeline: the run ended: ! refused 2\n    The statement with this number"
        status, printed, said = run(["--explain", "transact", "next.tl"], room=room)
        judge("--explain transact FILE", (status, printed) == (12, b"a @3 ok\na @3 ! NotInt 2 2\n! refused 2\n") and told in said, (status, printed, said))
        judge("--strict transact", run(["--strict", "transact"], "a> S\n", room)[:2] == (12, b"a @2 ! Unexpected 0\n! refused 1\n"))
        for name, script in (("replies", put("t", ["2,2"])), ("a refusal", put("t", ["2,2"]) + "a> S\n")):
            before = journal(room)
            with open("/dev/full", "w") as full:
                done = subprocess.run([PROGRAM, "transact"], input=script.encode(), cwd=room, stdout=full)
            judge(f"transact with an output that fails at {name}", done.returncode == 4, done)
            judge(f"what it left after {name}", (journal(room) == before) == (name == "a refusal"))
        before = journal(room)
        # A disk with no room for all of it.
        words = f'ulimit -f {len(before) // 1024 + 2}; trap "" XFSZ; exec "$0" transact'
        text = "".join(put("t", [f"{it},1"]) for it in range(2000, 2200))
        done = subprocess.run(["bash", "-c", words, PROGRAM], input=text.encode(), cwd=room, capture_output=True)
        judge("transact on a full disk", (done.returncode, done.stdout) == (5, b"! device\n"), done)
        done = subprocess.run(["bash", "-c", words, PROGRAM], input=(text + "a> S\n").encode(), cwd=room, capture_output=True)
        judge("a refusal on a full disk", done.returncode == 12 and done.stdout.endswith(b"\n! refused 201\n"), done)
        judge("the journal after both", run(["group"], "a> SELECT k FROM t WHERE x = 1 AND k >= 2000\n", room)[1] == b"a @3 rows 0\n")
        # A look forgets what it plays.
        looker = program("timeline_look")
        if os.path.exists(looker):
            before = journal(room)
            judge("transact over a look", run(["transact"], put("t", ["9,9"]), room, looker) == (0, b"a @4 ok\n", ""))
            judge("a refusal over a look", run(["transact"], put("t", ["9,9"]) + "a> S\n", room, looker) == (12, b"a @4 ok\na @4 ! Unexpected 0\n! refused 2\n", ""))
            judge("what a look left", journal(room) == before)


def test_a_group_waits_twice():
    """However many commits a group has, after the opening there are two syncs, and one write of them all and one of the
    gate. `strace` counts, where it is there."""
    if not shutil.which("strace"):
        pytest.skip("syncs are not counted, since strace is not here")
    with Room("a> CREATE TABLE t (k INT, x INT) KEY k\n") as room:
        counts = []
        for script in ("", "".join(put("t", [f"{it},1"]) for it in range(1000))):
            traced = subprocess.run(["strace", "-f", "-e", "trace=fsync,fdatasync,write,pwrite64", "-o", "calls", PROGRAM, "group"], input=script.encode(), cwd=room,
                                    capture_output=True)
            judge("group, traced", traced.returncode == 0, traced.stderr)
            with open(f"{room}/calls") as calls:
                text = calls.read()
            counts.append((len(re.findall(r"f(?:data)?sync\(", text)), len(re.findall(r"p?write(?:64)?\((?!1,)", text))))
        judge("syncs and writes of a group", counts[1][0] - counts[0][0] == 2 and counts[1][1] - counts[0][1] <= 2, counts)


def packets(room, last):
    """The packet of each version, from 1 on."""
    each = [run(["ship", str(it), str(it)], room=room)[1] for it in range(1, last + 1)]
    judge("ship", run(["ship"], room=room)[:2] == (0, b"".join(each)))
    judge("ship from a version on", run(["ship", "3"], room=room)[1] == b"".join(each[2:]))
    judge("ship of versions that are not there", run(["ship", str(last + 1), "16777215"], room=room) == (0, b"", ""))
    return each


def test_packets_come_as_they_like():
    draw = random.Random(SEED)
    script = "a> CREATE TABLE t (k INT, x INT) KEY k\na> CREATE TABLE v (k INT) KEY k VALID\n"
    for it in range(200):
        script += (f"a> MOMENT {it}\n", put("t", [f"{it % 20},{it}", f"{100 + it},1"]), f"a> PUT v\nk,valid_from,valid_to\n{it % 5},{it},{it + 9}\n\\.\n",
                   f"a> REMOVE t\nk\n{100 + it - 2}\n\\.\n")[it % 4]
    script += "a> FORGET t BEFORE 4\n"
    with Room(script) as leader, tempfile.TemporaryDirectory(dir=JOURNALS) as room:
        last = int(re.match(r"@(\d+) ", run(["seal"], room=leader)[1].decode())[1])
        each = packets(leader, last)
        whole = journal(leader)

        def follow(name, given, wanted, *words):
            found = run([*words, "follow"], given, room)
            judge(name, found[:2] == wanted, (found, wanted))

        def begin():
            with open(f"{room}/timeline.tlj", "wb") as file:
                file.write(EMPTY)

        # In any order, each third lost, and then sent again; and all of them twice.
        begin()
        mixed = each[:]
        draw.shuffle(mixed)
        lost = set(range(2, last, 3))
        follow("a third is lost", b"".join(it for it in mixed if each.index(it) not in lost), (0, b"follow @2\n"))
        judge("a prefix", whole.startswith(journal(room)[:-1]))
        draw.shuffle(mixed)
        follow("all, twice", b"".join(mixed + mixed[::-1]), (0, f"follow @{last}\n".encode()))
        judge("the same journal", journal(room) == whole)
        follow("again", b"".join(each), (0, f"follow @{last}\n".encode()))
        judge("a follower of a follower", run(["ship"], room=room)[1] == b"".join(each))
        begin()
        follow("backwards", b"".join(each[::-1]), (0, f"follow @{last}\n".encode()))
        # From the version that the copy has, each time.
        begin()
        for upto in range(0, last + 7, 7):
            follow("catching up", b"".join(each[max(0, upto - 9):upto]), (0, f"follow @{min(upto, last)}\n".encode()))
        # Cut at each byte of the first packets, and with one byte changed at each place, in order and backwards: what is
        # written and kept is what working it out anew says.
        stream, starts = b"".join(each[:20]), [sum(len(it) for it in each[:at]) for at in range(5)]
        judge("so many bytes", len(stream) >= 500, len(stream))
        inputs = [(f"cut at byte {cut}", stream[:cut]) for cut in range(len(stream))]
        for name, text in (("in order", stream), ("backwards", b"".join(each[19::-1]))):
            for at in range(len(text)):
                inputs.append((f"a byte changed at {at}, {name}", text[:at] + bytes([text[at] ^ (1 << draw.randrange(8))]) + text[at + 1:]))
        for name, text in inputs:
            begin()
            wanted = followed.follow(text)
            found = (*run(["follow"], text, room, PROGRAM)[:2], journal(room))
            judge(name, found == wanted, (found, wanted))
        # A copy that took a commit of its own follows as far as the leader's commits fit it, which is not to the fifth.
        begin()
        follow("the first", each[0], (0, b"follow @1\n"))
        judge("a commit of its own", run(["run"], "a> CREATE TABLE v (k INT) KEY k\n", room)[0] == 0)
        before = journal(room)
        status, printed, said = run(["--explain", "follow"], b"".join(each), room)
        judge("stuck", (status, printed) == (10, f"! packet {starts[4]}\n".encode()) and journal(room) == before, (status, printed))
        judge("what is said of it", said.startswith(f"timeline: the run ended: ! packet {starts[4]}\n    At this byte"), said)
        judge("--stamp follow", run(["--stamp", "follow"], b"", room)[:2] == (2, b"! usage\n"))
        # While a program has the leader's lock.
        with open(f"{leader}/timeline.tlj", "rb") as other:
            fcntl.flock(other, fcntl.LOCK_EX)
            judge("ship beside a writer", run(["ship", "1", "2"], room=leader) == (0, b"".join(each[:2]), ""))
        for words in (["ship", "x"], ["ship", "16777216"], ["ship", "1", "2", "3"], ["ship", "-1"], ["follow", "no file"]):
            judge(f"the words {words}", run(words, room=leader)[:2] == (2, b"! usage\n"))


def test_packets_of_the_worked_journal():
    """The packet of the worked journal's version 4; and of two packets of one version the first counts, also where their
    commits differ and the version is still to come."""
    with open(f"{ROOT}/examples/cases/script_b.hex") as file:
        records = [bytes.fromhex(line)[1:] for line in file.read().split("\n")[1:6]]
    with Room() as room:
        with open(f"{room}/timeline.tlj", "wb") as file:
            file.write(EMPTY[:-1] + b"".join(b"\1" + it for it in records) + b"\0")
        for command in (COMMAND, PROGRAM):
            found = run(["ship", "4", "4"], room=room, command=command)
            judge("version 4", found == (0, b"\0\0\0\4" + records[3], "") and len(records[3]) == 19, found)
    create = "a> CREATE TABLE t (k INT, x INT) KEY k\n"
    with Room(create + put("t", ["1,1"])) as one, Room(create + put("t", ["2,2"])) as other, Room() as room:
        first, second = packets(one, 2)
        found = run(["follow"], second + packets(other, 2)[1] + first, room)
        judge("the first of two packets", found[:2] == (0, b"follow @2\n") and journal(room) == journal(one), found)


def test_a_journal_is_shipped_while_it_grows():
    """What is shipped beside a program that commits are the first commits, whole ones, and all that were answered."""
    script = "a> CREATE TABLE t (k INT, x INT) KEY k\n"
    phases = [script + "GO\n"] + [put("t", [f"{100 * at + it},{it}" for it in range(at)]) + "GO\n" for at in range(1, 40)]
    with Room() as room, subprocess.Popen([PROGRAM, "run"], cwd=room, stdin=subprocess.PIPE, stdout=subprocess.PIPE) as writer:
        shipped = []
        for at, phase in enumerate(phases):
            writer.stdin.write(phase.encode())
            writer.stdin.flush()
            shipped.append((at, run(["ship"], room=room)))
            judge("a commit is answered", writer.stdout.readline() == f"a @{at + 1} ok\n".encode(), at)
        writer.stdin.close()
        judge("the writer ends", writer.wait(60) == 0)
        each = packets(room, len(phases))
        for answered, (status, given, said) in shipped:
            fronts = [b"".join(each[:it]) for it in range(answered, answered + 2)]
            judge(f"shipped while commit {answered + 1} is made", status == 0 and given in fronts and not said, (status, len(given), said))


def test_totals_that_are_always_there():
    """What is watched is what asking anew says: for each kind, by a number, a text and by none, with no test, one and
    three, over a plain table and one with periods; and watched from the first commit on, from between, and near the end."""
    draw = random.Random(SEED)
    create = ("a> CREATE TABLE t (k INT, g INT, n TEXT, x INT) KEY k\na> CREATE TABLE u (k INT) KEY k\n"
              "a> CREATE TABLE v (k INT, g INT, n TEXT, x INT) KEY k VALID\n")

    def cells():
        return f"{draw.randrange(4)},{draw.choice('pqrs')},{draw.choice((-5, 0, 0, 3, 9223372036854775807))}"

    def period():
        begin = draw.randrange(100)
        return f"{begin},{begin + 1 + draw.randrange(40)}"

    def commit(at):
        keys, kind = draw.sample(range(40), 3), draw.randrange(9)
        if kind < 3:
            return put("t", [f"{key},{cells()}" for key in keys], "k,g,n,x")
        if kind < 6:
            return put("v", [f"{key % 8},{cells()},{period()}" for key in keys], "k,g,n,x,valid_from,valid_to")
        if kind == 6:
            return f"a> REMOVE t\nk\n{keys[0]}\n\\.\na> REMOVE v\nk,valid_from,valid_to\n{keys[1] % 8},{period()}\n\\.\n"
        if kind == 7:
            return f"a> MOMENT {at}\na> FORGET u BEFORE 1\n"
        return put("u", [at], "k") + "a> SELECT k FROM t WHERE x = 3\n"

    commits = [commit(at) for at in range(200)]
    texts = [f"{front} FROM {table}{test}{by} OVER SYSTEM ALL" for table in "tv" for front in ("COUNT", "SUM x", "AVG x", "MIN x", "MAX x")
             for by in ("", " BY g", " BY n") for test in ("", " WHERE x = 0", " WHERE g = 1 AND n <> 'p' OR x < 0")]
    # All from the first commit on; and each of three begins later as well.
    for cut, watched_texts in ((0, texts), (100, texts[::3]), (190, texts[1::3])):
        with Room() as room:
            judge("what comes before", run(["run"], create + "".join(commits[:cut]), room)[0] == 0)
            for text in watched_texts:
                number, wrong = watched.compare(text, "".join(commits[cut:]), f"{room}/timeline.tlj")
                judge(f"watch {text} from {cut} on", number >= 200 - cut - 50 and not wrong, (number, wrong))
    with Room(create) as room:
        before = journal(room)
        for text, words, told in (("SELECT * FROM t", "Unexpected 0", "SELECT * FROM t"), ("SUM n FROM t OVER SYSTEM ALL", "WrongType 4", "    ^"),
                                  ("SUM x FROM t OVER VALID 0 TO 1", "", ""), ("COUNT FROM nothing OVER SYSTEM ALL", "UnknownTable 11", "           ^"), ("", "Unexpected 0", "")):
            status, printed, said = run(["--explain", "watch", text], put("t", ["1,1,p,1"], "k,g,n,x"), room)
            judge(f"watch {text}", status == 11 and re.fullmatch(rf"! watch {words or '.*'}\n", printed.decode()) and told in said, (status, printed, said))
        judge("what is not watched is not run", journal(room) == before)
        found = run(["--strict", "watch", "COUNT FROM u OVER SYSTEM ALL"], put("u", [1], "k") + put("u", ["x"], "k") + put("u", [2], "k"), room)
        judge("--strict watch", found == (20, b"a @4 ok\nwatch @4 rows 1\n1,1\na @4 ! NotInt 2 1\na @5 ok\nwatch @5 rows 1\n2,2\n",
                                          "timeline: 1 of 3 statements was refused\n"), found)
