"""Runs the command `timeline` where a script with its expected replies does not reach: what it does around the program."""
import fcntl
import glob
import hashlib
import os
import pty
import random
import re
import select
import shutil
import signal
import subprocess
import sys
import tempfile
import time

from conftest import COMMAND, ROOT, room_for_journals

JOURNALS = room_for_journals()
HELD = "timeline: another program has this journal"


def judge(name, is_right, found=""):
    assert is_right, f"{name}: {found}"


def run(words, given="", room=None, command=COMMAND, **more):
    """Runs the command, and gives its status, what it printed and what it said."""
    done = subprocess.run([command, *words], input=given, cwd=room, capture_output=True, text=True, **more)
    return done.returncode, done.stdout, done.stderr


def make_journal(room, script=""):
    judge("init", run(["init"], room=room) == (0, "", ""), room)
    if script:
        judge("a first script", run(["--strict", "run"], script, room)[0] == 0, script)


def test_files_are_opened():
    """`try`, `run` and `load` open the file that stands after them."""
    with open(f"{ROOT}/examples/first.expected") as expected:
        wanted = expected.read()
    judge("try FILE", run(["try", f"{ROOT}/examples/first.tl"]) == (0, wanted, ""), wanted)
    with tempfile.TemporaryDirectory(dir=JOURNALS) as room:
        make_journal(room)
        judge("run FILE", run(["run", f"{ROOT}/examples/first.tl"], room=room) == (0, wanted, ""), wanted)
        with open(f"{room}/more.csv", "w") as more:
            more.write("id,pay\n3,2900\n")
        judge("load TABLE FILE", run(["--no-stamp", "load", "staff", "more.csv"], room=room) == (0, "load @4 ok\n", ""), room)


def test_refusals_are_told():
    """A refused load says so; `--strict` ends with 20 where a statement was refused, and else as the program does."""
    with tempfile.TemporaryDirectory(dir=JOURNALS) as room:
        make_journal(room, "a> CREATE TABLE t (k INT) KEY k\n")
        told = "timeline: the load was refused: NotInt 2 1: line 2 of standard input, record 2\n" \
               "timeline: 1 of 1 statements was refused: nothing was loaded\n"
        refused = "load @1 ! NotInt 2 1\n"
        judge("a refused load", run(["load", "t"], "k\nx\n", room) == (20, refused, told), "")
        judge("--lenient load", run(["--lenient", "load", "t"], "k\nx\n", room) == (0, refused, told), "")
        script = 'a> SELECT k FROM t\na> select k FROM t\na> SELECT x FROM t\n'
        replies = "a @1 rows 0\na @1 ! Unexpected 0\na @1 ! UnknownColumn 7\n"
        judge("a run", run(["run"], script, room) == (0, replies, ""), "")
        told = "timeline: 2 of 3 statements were refused\n"
        judge("--strict run", run(["--strict", "run"], script, room) == (20, replies, told), "")
        judge("--strict run, none refused", run(["--strict", "run"], "a> SELECT k FROM t\n", room) == (0, "a @1 rows 0\n", ""), "")
        ends = run(["--strict", "run"], "a> S\nGO\nhello\n", room)
        told = "timeline: 1 of 1 statements was refused\n"
        judge("--strict with a status", ends == (6, "a @1 ! Unexpected 0\n! script NoSession 3\n", told), ends)
        os.mkdir(f"{room}/none")
        ends = run(["--strict", "run"], script, f"{room}/none")
        judge("--strict without a journal", ends == (7, "! journal NotInitialised 0\n", ""), ends)
        with open("/dev/full", "w") as full:
            found = subprocess.run([COMMAND, "--strict", "run"], input=script, cwd=room, stdout=full, text=True,
                                   stderr=subprocess.DEVNULL).returncode
        judge("--strict with an output that fails", found == 4, found)
        # A row that looks like a reply, in a text of several lines, is none.
        odd = 'a> CREATE TABLE o (k TEXT) KEY k\na> PUT o\nk\n"x\na @1 ! NotInt 2 1"\n\\.\na> SELECT k FROM o\n'
        judge("--strict over texts of lines", run(["--strict", "run"], odd, room)[0::2] == (0, ""), "")
    for first in range(0, 256, 64):
        with tempfile.TemporaryDirectory(dir=JOURNALS) as room:
            # Each byte as a cell: those from 128 on are no UTF-8 alone, and stand for the letter with that number.
            make_journal(room, "a> CREATE TABLE b (k INT, t TEXT) KEY k\n")
            quoted = {'"': '""'}
            rows = "".join(f'{it},"{quoted.get(chr(it), chr(it))}""x"\n' for it in range(first, first + 64))
            asked = f"a> PUT b\nk,t\n{rows}\\.\na> SELECT t, k FROM b\na> SELECT x FROM b\n"
            done = subprocess.run([COMMAND, "--strict", "run"], input=asked.encode(), cwd=room, capture_output=True)
            told = "timeline: 1 of 3 statements was refused\n"
            judge(f"--strict after the bytes from {first} on", (done.returncode, done.stderr.decode()) == (20, told), done)
            passed = subprocess.run([f"{ROOT}/examples/rows", "2"], input=done.stdout, capture_output=True).stdout
            judge(f"examples/rows of the bytes from {first} on", passed == done.stdout.split(b" rows 64\n")[1].rpartition(b"a @2")[0], passed)
            explained = subprocess.run([COMMAND, "--explain", "run"], input=asked.encode(), cwd=room, capture_output=True)
            judge(f"--explain after the bytes from {first} on", b"UnknownColumn 7\n    SELECT x FROM b\n           ^\n" in explained.stderr, explained)


def test_explanations_come_from_a_pipe():
    """A script from a pipe is explained as one from a file, and so is a load."""
    with tempfile.TemporaryDirectory(dir=JOURNALS) as room:
        make_journal(room, "a> CREATE TABLE t (k INT, x INT) KEY k\n")
        status, printed, said = run(["--explain", "run"], "# first\na> SELECT k from t\n", room)
        wanted = "timeline: line 2 was refused: Unexpected 9\n    SELECT k from t\n             ^\n"
        judge("--explain run", (status, printed) == (0, "a @1 ! Unexpected 9\n") and said.startswith(wanted), said)
        status, printed, said = run(["--explain", "load", "t"], "k,x\r\n1,2\r\n3,12.50\r\n", room)
        wanted = "timeline: the load was refused: NotInt 3 2\n    PUT t\n    line 3, record 3:\n    3,12.50\n      ^\n"
        judge("--explain load", (status, printed) == (20, "load @1 ! NotInt 3 2\n") and said.startswith(wanted), said)


def test_explanations_begin_where_the_input_stands():
    """A script of which another program has read the front is explained from there on."""
    with tempfile.TemporaryDirectory(dir=JOURNALS) as room:
        make_journal(room)
        with open(f"{room}/script.tl", "w") as script:
            script.write("a> SELECT k FROM nothing\na> SELECT k from t\n")
        found = run(["-c", '{ read -r _; "$0" --explain run; } <script.tl', COMMAND], room=room, command="bash")
        wanted = "timeline: line 1 was refused: Unexpected 9\n    SELECT k from t\n             ^\n"
        judge("a script that is read from its second line on", found[:2] == (0, "a @0 ! Unexpected 9\n") and found[2].startswith(wanted), found)


def test_what_is_not_open_fails():
    """An output or an input that is not open is one that fails; the journal's file does not take its place."""
    with tempfile.TemporaryDirectory(dir=JOURNALS) as room:
        make_journal(room)
        create = "echo 'a> CREATE TABLE t (k INT) KEY k' | "
        for words, wanted in (("run >&-", 4), ("--strict run >&-", 4), ("run <&-", 3), ("run 2>&-", 0), ("--explain run 2>&-", 0)):
            done = subprocess.run(["bash", "-c", f'{create}"$0" {words}', COMMAND], cwd=room, capture_output=True)
            judge(f"the command with {words}", done.returncode == wanted, done)
        printed = run(["run"], "a> SELECT k FROM t\n", room)[1]
        judge("the journal afterwards", printed == "a @1 rows 0\n", printed)


def test_a_terminal_is_told():
    """On a pseudo-terminal the replies come phase by phase, and a refusal is explained where it stands."""
    with tempfile.TemporaryDirectory(dir=JOURNALS) as room:
        make_journal(room, "a> CREATE TABLE t (k INT) KEY k\n")
        number, terminal = pty.fork()
        if number == 0:
            os.chdir(room)
            os.execv(COMMAND, [COMMAND, "run"])

        def until(wanted):
            """What the terminal shows up to this text, and for a minute at most."""
            shown, ends = "", time.time() + 60
            while wanted not in shown and time.time() < ends:
                if select.select([terminal], [], [], 0.2)[0]:
                    try:
                        shown += os.read(terminal, 4096).decode()
                    except OSError:
                        break
            return shown

        os.write(terminal, b"a> SELECT k FORM t\nGO\n")
        shown = until("^\r\n")
        judge("a terminal's first phase", "a @1 ! Unexpected 9\r\n" in shown and "line 1 was refused" in shown, shown)
        os.write(terminal, b"a> SELECT k FROM t\n\x04")
        shown = until("was refused\r\n")
        judge("a terminal's last phase", "a @1 rows 0\r\n" in shown, shown)
        judge("a terminal's count", "1 of 2 statements was refused\r\n" in shown, shown)
        judge("a terminal's status", os.waitstatus_to_exitcode(os.waitpid(number, 0)[1]) == 0, shown)
        os.close(terminal)


def test_progress_is_told():
    """A run that lasts tells on a terminal the commits that were answered so far and the size of the journal's file."""
    with tempfile.TemporaryDirectory(dir=JOURNALS) as room:
        make_journal(room, "a> CREATE TABLE t (k INT) KEY k\n")
        shows, terminal = pty.openpty()
        runs = subprocess.Popen([COMMAND, "run"], cwd=room, stdin=subprocess.PIPE, stdout=subprocess.PIPE, stderr=terminal)
        os.close(terminal)

        def shown_until(wanted):
            """What the terminal shows up to this text, and for a minute at most."""
            shown, ends = "", time.time() + 60
            while wanted not in shown and time.time() < ends:
                if select.select([shows], [], [], 0.2)[0]:
                    try:
                        shown += os.read(shows, 4096).decode()
                    except OSError:
                        break
            return shown

        answered = 0
        for count in (3, 4):
            script = "".join(f"a> PUT t\nk\n{answered + number}\n\\.\n" for number in range(count))
            runs.stdin.write(f"{script}GO\n".encode())
            runs.stdin.flush()
            for number in range(count):
                answered += 1
                judge("a reply of a run that lasts", runs.stdout.readline() == f"a @{answered + 1} ok\n".encode(), answered)
            size = os.stat(f"{room}/timeline.tlj").st_size
            told = f"timeline: {answered} commits answered, {size} bytes in the journal "
            shown = shown_until(told)
            judge("the progress of a run", told in shown, shown)
        runs.stdin.close()
        shown = shown_until("\r\x1b[K")
        judge("a run whose progress was told", runs.wait(timeout=60) == 0 and shown.endswith("\r\x1b[K"), shown)
        os.close(shows)


def test_two_loaders_at_once():
    """Two loaders, 40 loads each, with and without --wait: what was answered `ok` is there, and nothing else."""
    for words in (["--wait", "load", "t"], ["load", "t"]):
        with tempfile.TemporaryDirectory(dir=JOURNALS) as room:
            make_journal(room, "a> CREATE TABLE t (k INT) KEY k\n")
            loads = [(first + number) for number in range(40) for first in (1000, 2000)]
            running, answered, refused = [], [], 0
            for key in loads:
                loader = subprocess.Popen([COMMAND, *words], cwd=room, stdin=subprocess.PIPE, stdout=subprocess.PIPE,
                                          stderr=subprocess.PIPE, text=True)
                loader.stdin.write(f"k\n{key}\n")
                loader.stdin.close()
                running.append((key, loader))
                if len(running) == 2:
                    for loaded, it in running:
                        printed = it.stdout.read()
                        it.stderr.read()
                        if it.wait() == 0 and printed.endswith(" ok\n"):
                            answered.append((printed.split()[1], loaded))
                        else:
                            judge("a loader that is refused", (it.returncode, printed) == (13, "! locked\n"), printed)
                            refused += 1
                    running = []
            printed = run(["run"], "a> SELECT k FROM t\n", room)[1]
            found = sorted(int(it) for it in printed.split("\n")[1:-1])
            judge(f"{words}: what was answered is there", found == sorted(key for _, key in answered), (answered, found))
            judge(f"{words}: a version is answered once", len({it for it, _ in answered}) == len(answered), answered)
            judge(f"{words}: all are loaded", "--wait" not in words or refused == 0, refused)


def test_another_program_has_the_journal():
    """While another program has the lock of the journal, a run ends with a status of its own, and says who has it."""
    with tempfile.TemporaryDirectory(dir=JOURNALS) as room:
        make_journal(room, "a> CREATE TABLE t (k INT) KEY k\n")
        with open(f"{room}/timeline.tlj", "rb") as journal:
            before = journal.read()
        with open(f"{room}/timeline.tlj", "rb") as other:
            fcntl.flock(other, fcntl.LOCK_EX)
            for words in (["run"], ["load", "t"], ["init"], ["--strict", "run"]):
                found = run(words, "k\n1\n", room)
                is_right = found[:2] == (13, "! locked\n") and found[2].startswith(HELD)
                judge(f"{words} over a journal that another program has", is_right, found)
            with open(f"{room}/timeline.tlj", "rb") as journal:
                judge("the journal that another program has", journal.read() == before, "")
            listed = run(["log", "--csv"], room=room)
            judge("a listing of a journal that another program has", listed[0] == 0 and listed[2] == "", listed)
            waiter = subprocess.Popen([COMMAND, "--wait", "--no-stamp", "load", "t"], cwd=room, stdin=subprocess.PIPE,
                                      stdout=subprocess.PIPE, stderr=subprocess.PIPE, text=True)
            waiter.stdin.write("k\n1\n")
            waiter.stdin.close()
            said = waiter.stderr.readline()
            judge("--wait", said.startswith(HELD), said)
            time.sleep(0.5)
            judge("--wait, while it is held", waiter.poll() is None, waiter.returncode)
        printed, said = waiter.stdout.read(), waiter.stderr.read()
        judge("--wait, once it is free", (waiter.wait(), printed, said) == (0, "load @2 ok\n", ""), (printed, said))
        judge("a folder in the journal's place", refused_folder() == (5, "! device\n", "timeline: timeline.tlj is a folder\n"), "")


def test_another_file_is_locked():
    """A lock of a file whose number ends as the journal's does is no lock of the journal. It is tried on a file system of
    its own, whose numbers are small, where one may be made."""
    commands = """mount -t tmpfs none none && cd none && "$0" init && journal=$(stat -c %i timeline.tlj) || exit
        for ((file = 0; file < 300; file++)); do : >"$file"; done
        other=$(stat -c '%i %n' [0-9]* | awk -v end="$journal" 'length($1) > length(end) && substr($1, length($1) - length(end) + 1) == end { print $2; exit }')
        [[ -n $other ]] || exit 0
        exec 9<"$other" && flock 9 && "$0" run </dev/null"""
    with tempfile.TemporaryDirectory(dir=JOURNALS) as room:
        os.mkdir(f"{room}/none")
        if subprocess.run(["unshare", "-rm", "bash", "-c", "mount -t tmpfs none none"], cwd=room, capture_output=True).returncode == 0:
            found = run(["-rm", "bash", "-c", commands, COMMAND], room=room, command="unshare")
            judge("another file's lock", found == (0, "", ""), found)


def test_what_may_not_be_written_is_named(run_as_nobody):
    """A file that may not be written, and a folder that may not, are told apart."""
    with tempfile.TemporaryDirectory(dir=JOURNALS) as room:
        make_journal(room)
        os.chmod(room, 0o755)
        os.chmod(f"{room}/timeline.tlj", 0o444)
        os.mkdir(f"{room}/none")
        os.chmod(f"{room}/none", 0o755)
        told = "timeline: timeline.tlj may not be read and written here; ./timeline ask needs to read alone\n"
        for words in (["run"], ["--strict", "run"]):
            found = run_as_nobody(words, "", room)
            judge(f"{words} of a file that may not be written", found == (5, "! device\n", told), found)
        found = run_as_nobody(["init"], "", f"{room}/none")
        judge("a folder that may not be written", found == (5, "! device\n", "timeline: this folder may not be written\n"), found)


def test_a_disk_that_fails_says_why():
    """That a disk is full is said, where one may be made that is."""
    with tempfile.TemporaryDirectory(dir=JOURNALS) as room:
        os.mkdir(f"{room}/none")
        commands = 'mount -t tmpfs -o size=16k none none && cd none && head -c 16384 /dev/zero >filler; "$0" init'
        if subprocess.run(["unshare", "-rm", "bash", "-c", "mount -t tmpfs -o size=16k none none"], cwd=room, capture_output=True).returncode == 0:
            done = subprocess.run(["unshare", "-rm", "bash", "-c", commands, COMMAND], cwd=room, capture_output=True, text=True)
            judge("a full disk", (done.returncode, done.stdout) == (5, "! device\n") and done.stderr.endswith("timeline: the disk is full\n"), done)


def test_a_listing_is_refused():
    """Where there is no journal, or none that can be listed, `log` and `tables` say so, and end as a run does."""
    with tempfile.TemporaryDirectory(dir=JOURNALS) as room:
        told = "timeline: no journal is here\n    ./timeline init makes one in this folder; from Python, timeline.open(folder, create=True)\n"
        for words in (["log"], ["tables", "--csv"], ["log", "--times"], ["rows", "t"]):
            found = run(words, room=room)
            judge(f"{words} without a journal", found == (7, "! journal NotInitialised 0\n", told), found)
        judge("a listing makes no file", not os.listdir(room), os.listdir(room))
        with open(f"{room}/timeline.tlj", "w") as journal:
            journal.write("this is no journal of timeline\n")
        found = run(["log"], room=room)
        judge("log of what is no journal", found[:2] == (9, "! journal Damaged 0\n") and "no journal from byte 0 on" in found[2], found)
        os.remove(f"{room}/timeline.tlj")
        os.mkdir(f"{room}/timeline.tlj")
        found = run(["tables"], room=room)
        judge("tables of a folder", found == (5, "! device\n", "timeline: timeline.tlj is a folder\n"), found)


def test_nothing_is_left_behind():
    """The folders that the command makes for a run are gone once it has ended, however it ends."""
    with tempfile.TemporaryDirectory(dir=JOURNALS) as room:
        made = lambda: set(glob.glob("/dev/shm/timeline.????????")) | set(glob.glob(f"{room}/tmp/*"))
        os.mkdir(f"{room}/tmp")
        around = dict(os.environ, TMPDIR=f"{room}/tmp")
        make_journal(room, "a> CREATE TABLE t (k INT) KEY k\n")
        before = made()
        for words in (["log"], ["tables"], ["ask", "SELECT k FROM t"], ["ask", "S"], ["seal"], ["shell", "--look"], ["--explain", "run"], ["--strict", "load", "t"],
                      ["try"], ["--stamp", "run"]):
            run(words, "k\n1\n", room, env=around)
        for number in (signal.SIGTERM, signal.SIGINT):
            loader = subprocess.Popen([COMMAND, "--explain", "run"], cwd=room, env=around, stdin=subprocess.PIPE, stdout=subprocess.PIPE,
                                      stderr=subprocess.DEVNULL, start_new_session=True)
            loader.stdin.write(b"a> SELECT k FROM t\nGO\n")
            loader.stdin.flush()
            loader.stdout.readline()
            os.killpg(loader.pid, number)
            loader.wait()
        time.sleep(0.5)
        judge("folders that were left behind", not made() - before, made() - before)


def refused_folder():
    """What `--wait` makes of a journal that cannot be opened for another reason: it does not wait."""
    with tempfile.TemporaryDirectory(dir=JOURNALS) as room:
        os.mkdir(f"{room}/timeline.tlj")
        return run(["--wait", "run"], "", room)


def test_a_long_load_goes_on():
    """A load of 300 batches that is killed three times goes on each time, and leaves no row out and none twice."""
    with tempfile.TemporaryDirectory(dir=JOURNALS) as room:
        make_journal(room, "a> CREATE TABLE t (k INT, x INT) KEY k\n")
        with open(f"{room}/rows.csv", "w") as rows:
            rows.write("k,x\n" + "".join(f"{key},{key % 7}\n" for key in range(600)))
        words = ["bash", f"{ROOT}/examples/long_load.sh", "rows.csv", "t", "2"]
        for turn in range(40):
            loader = subprocess.Popen(words, cwd=room, stdout=subprocess.DEVNULL, stderr=subprocess.DEVNULL,
                                      start_new_session=True)
            try:
                if loader.wait(random.uniform(0.1, 0.5) if turn < 3 else 100) == 0:
                    break
            except subprocess.TimeoutExpired:
                os.killpg(loader.pid, signal.SIGKILL)
                loader.wait()
        printed = run(["run"], "a> SELECT k, x FROM t\n", room)[1]
        wanted = "".join(f"{key},{key % 7}\n" for key in range(600))
        judge("a long load", loader.returncode == 0 and printed.partition("\n")[2] == wanted, (loader.returncode, printed[:200]))
        printed = run(["run"], "a> COUNT FROM t OVER SYSTEM ALL\n", room)[1]
        judge("a long load puts each batch once", printed.split("\n")[0].endswith("rows 301"), printed[:200])


def test_a_long_load_names_what_is_refused():
    """A load with a batch that is refused loads the others, names it, and does not begin again over it."""
    with tempfile.TemporaryDirectory(dir=JOURNALS) as room:
        make_journal(room, "a> CREATE TABLE t (k INT, x INT) KEY k\n")
        with open(f"{room}/rows.csv", "w") as rows:
            rows.write("k,x\n1,1\n2,2\n3,x\n4,4\n5,5\n")
        for turn in range(2):
            load = subprocess.run(["bash", f"{ROOT}/examples/long_load.sh", "rows.csv", "t", "2"], cwd=room, text=True,
                                  capture_output=True)
            named = "batch 2, lines 4 to 5: load @5 ! NotInt 2 2\n" in load.stderr
            printed = run(["run"], "a> SELECT k FROM t\n", room)[1]
            judge("a long load with a batch that is refused",
                  load.returncode == 20 and named and printed.endswith(" rows 3\n1\n2\n5\n"), (load, printed))


def test_a_long_load_knows_its_file():
    """A load that is not done keeps another file out of its table; commits of others between leave no row out."""
    with tempfile.TemporaryDirectory(dir=JOURNALS) as room:
        make_journal(room, "a> CREATE TABLE t (k INT, x INT) KEY k\na> CREATE TABLE u (k INT) KEY k\n")
        for name, first in (("A.csv", 0), ("B.csv", 100)):
            with open(f"{room}/{name}", "w") as rows:
                rows.write("k,x\n" + "".join(f"{first + key},{key}\n" for key in range(10)))
        load = lambda *words: run([f"{ROOT}/examples/long_load.sh", *words], room=room, command="bash")
        with open(f"{room}/A.csv", "rb") as rows:
            digest = hashlib.sha256(rows.read()).hexdigest()
        # As if killed: two batches are marked, a third one is there without its mark, and then others committed.
        mark = f'a> PUT long_load\nload,file,size,sum,lines,batch\nt,A.csv,{os.path.getsize(f"{room}/A.csv")},{digest},2,%d\n\\.\n'
        put = lambda *keys: "a> PUT t\nk,x\n" + "".join(f"{key},{key}\n" for key in keys) + "\\.\n"
        columns = "load TEXT, file TEXT, size INT, sum TEXT, lines INT, batch INT"
        make_journal_part = f"a> CREATE TABLE long_load ({columns}) KEY load\n" + mark % 0 + put(0, 1) + mark % 1 + put(2, 3) + mark % 2 + put(4, 5)
        judge("the front of a load", run(["--strict", "run"], make_journal_part + "a> PUT u\nk\n1\n\\.\n", room)[0] == 0, "")
        status, printed, said = load("B.csv", "t", "2")
        judge("another file", status == 1 and "another load of t came to batch 2" in said, (status, printed, said))
        found = load("A.csv", "t", "2")
        judge("a load that goes on", found == (0, "3 batches are loaded\nall of A.csv is loaded\n", ""), found)
        found = load("B.csv", "t", "2")
        judge("the next file", found == (0, "0 batches are loaded\nall of B.csv is loaded\n", ""), found)
        printed = run(["run"], "a> SELECT k FROM t\na> COUNT FROM t OVER SYSTEM ALL\n", room)[1]
        wanted = "".join(f"{key}\n" for key in [*range(10), *range(100, 110)])
        judge("the rows of both", wanted in printed and printed.count("\n") == 1 + 20 + 1 + 11, printed)
