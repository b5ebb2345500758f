"""Runs the commands that stand around the program: ask, shell, import, sync, seal, and days. """
import contextlib
import fcntl
import os
import pty
import re
import select
import shutil
import signal
import subprocess
import sys
import tempfile
import time

from conftest import COMMAND, room_for_journals

JOURNALS = room_for_journals()
STAFF = """a> CREATE TABLE staff (id INT, name TEXT, pay INT) KEY id
a> CREATE TABLE price (item INT, cents INT) KEY item VALID
a> PUT staff
id,name,pay
1,"Doe, J.",3000
2,Roe,2800
\\.
a> PUT staff
id,name,pay
2,Roe,3100
\\.
a> PUT price
item,cents,valid_from,valid_to
7,250,0,FOREVER
\\.
"""


def judge(name, is_right, found=""):
    assert is_right, f"{name}: {found}"


def run(words, given="", room=None, **more):
    """Runs the command, and gives its status, what it printed and what it said."""
    done = subprocess.run([COMMAND, *words], input=given, cwd=room, capture_output=True, text=True, **more)
    return done.returncode, done.stdout, done.stderr


class Room:
    """A folder of its own, in which a script was run over a new journal."""

    def __init__(self, script=""):
        self.script = script

    def __enter__(self):
        self.room = tempfile.mkdtemp(dir=JOURNALS)
        judge("init", run(["init"], room=self.room)[0] == 0)
        judge("a first script", run(["--strict", "run"], self.script, self.room)[0] == 0, self.script)
        return self.room

    def __exit__(self, *_):
        shutil.rmtree(self.room)


class Terminal:
    """The command on a pseudo-terminal."""

    def __init__(self, words, room):
        self.number, self.terminal = pty.fork()
        if self.number == 0:
            os.chdir(room)
            os.execv(COMMAND, [COMMAND, *words])
        self.shown = ""

    def until(self, wanted):
        """What the terminal shows up to this text, and for a minute at most."""
        shown, ends = "", time.time() + 60
        while wanted not in shown and time.time() < ends:
            if select.select([self.terminal], [], [], 0.2)[0]:
                try:
                    shown += os.read(self.terminal, 4096).decode()
                except OSError:
                    break
        return re.sub(r"\x1b\[\??[0-9;]*[A-Za-z]", "", shown)

    def type(self, text, wanted):
        """Types a text, and gives what is shown up to another one."""
        os.write(self.terminal, text.encode())
        return self.until(wanted)

    def end(self, key=""):
        """The status that it ends with. Until then a key is pressed again each second, where one is given: bash misses a
        signal that comes just as it begins to wait for a line."""
        while not (ended := os.waitpid(self.number, os.WNOHANG if key else 0))[0]:
            time.sleep(1)
            with contextlib.suppress(OSError):
                os.write(self.terminal, key.encode())
        os.close(self.terminal)
        return os.waitstatus_to_exitcode(ended[1])


def test_questions_in_one_line():
    with Room(STAFF) as room:
        with open(f"{room}/timeline.tlj", "rb") as journal:
            before = journal.read()
        asks = [("SELECT name, id FROM staff", "name,id\n\"Doe, J.\",1\nRoe,2\n"),
                ("SELECT * FROM staff AS OF 3", "id,name,pay\n1,\"Doe, J.\",3000\n2,Roe,2800\n"),
                ("SELECT * FROM price;", "item,cents,valid_from,valid_to\n7,250,0,FOREVER\n"),
                ("SUM pay FROM staff OVER SYSTEM 3 TO 6", "from,to,value\n3,4,5800\n4,6,6100\n"),
                ("COUNT FROM staff BY name OVER SYSTEM ALL", "name,from,to,value\n\"Doe, J.\",3,6,1\nRoe,3,6,1\n"),
                ("JOIN staff WHERE id = 2 WITH staff ON id = id OVER SYSTEM ALL",
                 "from,to,staff.id,staff.name,staff.pay,staff_2.id,staff_2.name,staff_2.pay\n3,4,2,Roe,2800,2,Roe,2800\n4,6,2,Roe,3100,2,Roe,3100\n"),
                ("SELECT id FROM staff WHERE name = 'a;b ''FROM''; c'", "id\n"),
                ("SELECT id FROM staff WHERE id = 1; SELECT cents\nFROM price", "id\n1\n\ncents\n250\n")]
        for text, wanted in asks:
            found = run(["ask", text], room=room)
            judge(f"ask {text}", found == (0, wanted, ""), found)
        found = run(["ask", "SELECT wage FROM staff; SELECT id FROM staff WHERE id = 1"], room=room)
        told = ("timeline: line 1 was refused: UnknownColumn 7\n    SELECT wage FROM staff\n           ^\n")
        judge("ask, refused", found[:2] == (20, "id\n1\n") and found[2].startswith(told), found)
        for text in ("PUT staff", "MOMENT 5", "SELECT id FROM staff; CREATE TABLE t (k INT) KEY k", "", " ; "):
            judge(f"ask {text}", run(["ask", text], room=room)[:2] == (2, "! usage\n"), text)
        found = run(["run", "SELECT id FROM staff"], room=room)
        judge("a query in place of a file", found[:2] == (2, "! usage\n") and './timeline ask "SELECT id FROM staff"' in found[2], found)
        # While another program has the journal, and where it may only be read.
        os.chmod(f"{room}/timeline.tlj", 0o400)
        with open(f"{room}/timeline.tlj", "rb") as other:
            fcntl.flock(other, fcntl.LOCK_EX)
            for text, wanted in asks[:2]:
                found = run(["ask", text], room=room)
                judge("ask beside a writer", found == (0, wanted, ""), found)
            judge("log beside a writer", run(["log"], room=room)[0] == 0, run(["log"], room=room))
        with open(f"{room}/timeline.tlj", "rb") as journal:
            judge("ask writes nothing", journal.read() == before)
        terminal = Terminal(["ask", "SELECT name, pay FROM staff"], room)
        shown = terminal.until("3100\r\n")
        judge("ask on a terminal", shown == "name      pay\r\nDoe, J.  3000\r\nRoe      3100\r\n" and terminal.end() == 0, repr(shown))
    with tempfile.TemporaryDirectory(dir=JOURNALS) as room:
        found = run(["ask", "SELECT id FROM staff"], room=room)
        judge("ask without a journal", found[:2] == (7, "! journal NotInitialised 0\n") and not os.listdir(room), found)


def test_a_look_beside_a_loader():
    """What is asked while another program commits is what some first commits make, all that were answered before among
    them; and so is a listing."""
    with Room("a> CREATE TABLE t (k INT) KEY k\n") as room:
        with subprocess.Popen([COMMAND, "run"], cwd=room, stdin=subprocess.PIPE, stdout=subprocess.PIPE, text=True) as loader:
            answered, asked = 0, 0
            keys = 0
            while asked < 8:
                for _ in range(20):
                    loader.stdin.write(f"a> PUT t\nk\n{keys}\n\\.\nGO\n")
                    keys += 1
                loader.stdin.flush()
                judge("a loader's reply", loader.stdout.readline() == f"a @{answered + 2} ok\n", answered)
                answered += 1
                status, printed, said = run(["ask", "SELECT k FROM t"], room=room)
                found = printed.split()[1:]
                is_right = (status, said) == (0, "") and found == [str(it) for it in range(len(found))] and len(found) >= answered
                judge("a look beside a loader", is_right, (status, answered, found, said))
                status, printed, said = run(["log", "--csv"], room=room)
                judge("a listing beside a loader", status == 0 and printed.count("\n") >= answered + 2, (status, printed, said))
                while answered < keys:
                    loader.stdout.readline()
                    answered += 1
                asked += 1
            loader.stdin.close()
        judge("the loader", loader.returncode == 0, loader.returncode)


def test_whoever_may_read_may_ask(run_as_nobody):
    """A person who may only read the file asks and lists; one who may not is told so."""
    with Room(STAFF) as room:
        os.chmod(room, 0o755)
        os.chmod(f"{room}/timeline.tlj", 0o444)
        for words, wanted in ((["ask", "SELECT cents FROM price"], "cents\n250\n"), (["shell", "--look"], "id\n1\n2\n")):
            found = run_as_nobody(words, "SELECT id FROM staff;\n", room)
            judge(f"{words} of a file that may only be read", found == (0, wanted, ""), found)
        judge("log of it", run_as_nobody(["log"], room=room)[0] == 0)
        os.chmod(f"{room}/timeline.tlj", 0o600)
        found = run_as_nobody(["ask", "SELECT cents FROM price"], room=room)
        judge("ask of a file that may not be read", found == (5, "! device\n", "timeline: timeline.tlj cannot be read\n"), found)


def test_evidence():
    with Room(STAFF) as room:
        status, first, said = run(["seal"], room=room)
        size = os.path.getsize(f"{room}/timeline.tlj")
        judge("seal", status == 0 and not said and re.fullmatch(rf"@5 {size - 1} [0-9a-f]{{64}}\n", first), (status, first, said))
        run(["--no-stamp", "load", "staff"], "id,name,pay\n9,Noe,1\n", room)
        # What stands after the last gate is not sealed.
        with open(f"{room}/timeline.tlj", "ab") as journal:
            journal.write(b"cut off")
        second = run(["seal"], room=room)[1]
        judge("a second seal", second.startswith("@6 "), second)
        with open(f"{room}/seals", "w") as seals:
            seals.write(first + second)
        found = run(["seal", "--check", "seals"], room=room)
        judge("seal --check", found == (0, "2 of 2 seals hold\n", ""), found)
        with open(f"{room}/timeline.tlj", "r+b") as journal:
            journal.seek(size - 5)
            byte = journal.read(1)[0]
            journal.seek(size - 5)
            journal.write(bytes([byte ^ 1]))
        found = run(["seal", "--check", "seals"], room=room)
        judge("one bit", found[:2] == (21, "0 of 2 seals hold\n") and found[2].startswith("timeline: @5 is not true"), found)
        with open(f"{room}/seals", "w") as seals:
            seals.write("@5 x\n")
        judge("no line of seal", run(["seal", "--check", "seals"], room=room)[0] == 21)
