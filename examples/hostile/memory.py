#!/usr/bin/env python3
"""Refuses memory to the program: each allocation of eleven runs in turn, alone and with all after it, by the library
that refuse.c makes. Each run has to give the usual result; or status 1, and then the replies of its first phases, whole,
and a journal that opens and has at least the commits that were answered. Of `group`, `transact`, `ship`, `follow` and `watch`
it is the usual result, or status 1, nothing that is written, and the journal as it was. `memory.py PROGRAM`; it prints a row for each
run, `name, tried, wrong`, and says what was wrong."""
import os
import re
import subprocess
import sys
import tempfile

PROGRAM = os.path.abspath(sys.argv[1])
SOURCE = os.path.join(os.path.dirname(os.path.abspath(__file__)), "refuse.c")

# The folder for journals: a file system in memory, where there is one.
JOURNALS = "/dev/shm" if os.access("/dev/shm", os.W_OK) else None

# Each phase with its replies.
WORKED = [
    ("a> CREATE TABLE emp (id INT, dept TEXT, pay INT) KEY id\n", "a @1 ok\n"),
    ("a> PUT emp\nid,dept,pay\n1,ops,100\n2,dev,50\n\\.\n", "a @2 ok\n"),
    ("a> PUT emp\nid,dept,pay\n1,ops,150\n\\.\na> REMOVE emp\nid\n2\n\\.\n", "a @3 ok\na @4 ok\n"),
    ("a> PUT emp\nid,dept,pay\n2,dev,50\n\\.\na> SELECT id, pay FROM emp AS OF 2\n", "a @5 ok\na @5 rows 2\n1,100\n2,50\n"),
    ("a> COUNT FROM emp OVER SYSTEM 1 TO 6\n", "a @5 rows 4\n1,2,0\n2,4,2\n4,5,1\n5,6,2\n"),
    ("a> JOIN emp WITH emp ON id = id OVER SYSTEM 2 TO 6\na> SELECT id FORM emp\n",
     "a @5 rows 4\n2,3,1,ops,100,1,ops,100\n2,4,2,dev,50,2,dev,50\n3,6,1,ops,150,1,ops,150\n5,6,2,dev,50,2,dev,50\n"
     "a @5 ! Unexpected 10\n"),
]
TOLD = [
    ("a> CREATE TABLE emp (id INT, pay INT) KEY id\na> PUT emp\nid,pay\n1,100\n2,50\n\\.\n", "a @1 ok\na @2 ok\n"),
    ("a> MOMENT 1000\n", "a @3 ok\n"),
    ("a> PUT emp\nid,pay\n1,150\n\\.\na> FORGET emp BEFORE 2\n", "a @4 ok\na @5 ok\n"),
    ("a> SELECT id FROM emp AS OF MOMENT 999\na> SELECT id FROM emp AS OF 1\na> MOMENT 1000\na> FORGET emp BEFORE 6\n",
     "a @5 rows 2\n1\n2\na @5 ! Forgotten 25 2\na @5 ! MomentFalls 1000\na @5 ! FloorAhead 5\n"),
]
SAMPLE = [(None, "sample @1 ok\n"), (None, "sample @2 ok\n"), (None, "sample @2 rows 2\n0,2,\n2,3,9806\n"),
          (None, "sample @2 rows 2\n0,2,\n2,3,19564\n"), (None, "sample @2 rows 2\n4,2,3,19564\n6,2,3,9806\n")]

# What is watched of the grouped script, and the rows after each of its commits.
LONG = "a text of more than sixteen bytes,2,1"
WATCHED = [("MIN id FROM emp BY dept OVER SYSTEM ALL", [[LONG, "ops,1,1"]] * 2 + [[LONG, "dev,1,1"]] * 2),
           ("COUNT FROM emp WHERE dept <> 'dev' OVER SYSTEM ALL", [["2,2"]] * 2 + [["1,1"]] * 2)]


def called(words, given, room, library, **around):
    environment = dict(os.environ, LD_PRELOAD=library, **around)
    return subprocess.run([PROGRAM, *words], cwd=room, input=given, env=environment, capture_output=True, text=True, timeout=60)


def version(replies):
    """The greatest version that replies name, 0 where there is none."""
    return max([int(it) for it in re.findall(r"^\w+ @(\d+) ok$", replies, re.M)], default=0)


def journal_stands(room, printed):
    """Whether the journal of a run opens again, with at least the commits that were answered."""
    again = subprocess.run([PROGRAM, "run"], cwd=room, input="v> ?\n", capture_output=True, text=True, timeout=60)
    found = re.fullmatch(r"v @(\d+) ! BadByte 0\n", again.stdout)
    return again.returncode == 0 and found is not None and version(printed) <= int(found.group(1)) <= 5


def is_made(path):
    return os.path.exists(path)


def trial(words, phases, library, refusal):
    """Runs once with some memory refused: what is wrong with it, and whether memory was refused at all."""
    whole = "".join(replies for _, replies in phases)
    fronts = ["".join(replies for _, replies in phases[:it]) for it in range(len(phases) + 1)]
    given = "GO\n".join(script for script, _ in phases) if words == ["run"] else ""
    with tempfile.TemporaryDirectory(dir=JOURNALS) as room:
        if words[0] == "run":
            subprocess.run([PROGRAM, "init"], cwd=room, stdin=subprocess.DEVNULL, check=True)
        done = called(words, given, room, library, REFUSED=f"{room}/refused", **refusal)
        was_refused = is_made(f"{room}/refused")
        is_usual = (done.returncode, done.stdout) == (0, whole)
        is_cut = was_refused and done.returncode == 1 and done.stdout in fronts
        if not is_usual and not is_cut:
            return f"status {done.returncode}, {done.stdout!r}, {done.stderr!r}", was_refused
        if words[0] == "run" and not journal_stands(room, done.stdout):
            return "the journal does not open, or lacks a commit that was answered", was_refused
        return None, was_refused


def initialise(library, refusal):
    """Makes a journal with some memory refused: it is made, or the file is empty or not there."""
    with tempfile.TemporaryDirectory(dir=JOURNALS) as room:
        done = called(["init"], "", room, library, REFUSED=f"{room}/refused", **refusal)
        size = os.path.getsize(f"{room}/timeline.tlj") if is_made(f"{room}/timeline.tlj") else 0
        if (done.returncode, done.stdout, size) in ((0, "", 17), (1, "", 0)):
            return None, is_made(f"{room}/refused")
        return f"status {done.returncode}, {done.stdout!r}, {size} bytes", is_made(f"{room}/refused")


def grouped():
    """A journal of one commit, a script of four batches and a query, and its replies."""
    first = journal_of([("a> CREATE TABLE emp (id INT, dept TEXT) KEY id\n", "")])
    script = ("a> PUT emp\nid,dept\n1,ops\n2,a text of more than sixteen bytes\n\\.\na> MOMENT 1000\na> PUT emp\nid,dept\n1,dev\n\\.\n"
              "a> FORGET emp BEFORE 2\na> SELECT id FROM emp WHERE dept = 'dev'\n")
    return first, script.encode(), b"a @2 ok\na @3 ok\na @4 ok\na @5 ok\na @5 rows 1\n1\n"


def watched(replies, after):
    """The replies with what is watched after each commit."""
    lines, after = [], iter(after)
    for line in replies.decode().splitlines():
        lines.append(line)
        if line.endswith(" ok"):
            rows = next(after)
            lines += [f"watch {line.split()[1]} rows {len(rows)}", *rows]
    return "".join(f"{it}\n" for it in lines).encode()


def journal_of(phases):
    """The bytes of a journal of these phases."""
    with tempfile.TemporaryDirectory(dir=JOURNALS) as room:
        subprocess.run([PROGRAM, "init"], cwd=room, stdin=subprocess.DEVNULL, check=True)
        given = "GO\n".join(script for script, _ in phases)
        subprocess.run([PROGRAM, "run"], cwd=room, input=given, stdout=subprocess.DEVNULL, text=True, check=True)
        with open(f"{room}/timeline.tlj", "rb") as file:
            return file.read()


def over(words, given, journal, library="", refusal=None):
    """Runs over a journal: the status, what is written, the journal then, and whether memory was refused."""
    with tempfile.TemporaryDirectory(dir=JOURNALS) as room:
        with open(f"{room}/timeline.tlj", "wb") as file:
            file.write(journal)
        around = dict(os.environ, LD_PRELOAD=library, REFUSED=f"{room}/refused", **(refusal or {}))
        done = subprocess.run([PROGRAM, *words], cwd=room, input=given, env=around, capture_output=True, timeout=60)
        with open(f"{room}/timeline.tlj", "rb") as file:
            return done.returncode, done.stdout, file.read(), is_made(f"{room}/refused")


def all_or_nothing(words, given, journal, usual, library, refusal):
    """Runs over a journal with some memory refused: the usual result, or nothing at all."""
    status, written, left, was_refused = over(words, given, journal, library, refusal)
    if (status, written, left) == usual or was_refused and (status, written, left) == (1, b"", journal):
        return None, was_refused
    return f"status {status}, {written!r}, {len(left)} bytes", was_refused


def refusals():
    """None, and then each allocation by its number, alone and with all after it."""
    yield "no memory", {}
    for number in range(1, 1_000_000):
        yield f"allocation {number}", {"REFUSE": str(number)}
        yield f"allocation {number} and all after it", {"REFUSE": str(number), "REFUSE_ON": "1"}


def main():
    with tempfile.TemporaryDirectory() as room:
        library = f"{room}/refuse.so"
        subprocess.run(["cc", "-shared", "-fPIC", "-O1", "-o", library, SOURCE], check=True)
        runs = {
            "init": lambda refusal: initialise(library, refusal),
            "the worked script": lambda refusal: trial(["run"], WORKED, library, refusal),
            "moments and floors": lambda refusal: trial(["run"], TOLD, library, refusal),
            "sample 2 7": lambda refusal: trial(["sample", "2", "7"], SAMPLE, library, refusal),
        }
        first, script, replies = grouped()
        worked, empty = journal_of(WORKED), b"timeline journal\0"
        packets = over(["ship", "0", "16777215"], b"", worked)[1]
        refused = script + b"a> S\na> MOMENT 2000\n", replies + b"a @5 ! Unexpected 0\n! refused 6\n"
        for name, words, given, journal, wanted in ("group", ["group"], script, first, (0, replies)), ("transact", ["transact"], script, first, (0, replies)), \
                ("transact, refused", ["transact"], refused[0], first, (12, refused[1])), \
                ("ship 0 16777215", ["ship", "0", "16777215"], b"", worked, (0, packets)), ("follow", ["follow"], packets, empty, (0, b"follow @5\n")), \
                *((f"watch {text}"[:30], ["watch", text], script, first, (0, watched(replies, after))) for text, after in WATCHED):
            status, written, left, _ = over(words, given, journal)
            if (status, written) != wanted or status == 12 and left != journal:
                sys.exit(f"{name}: status {status}, {written!r}")
            runs[name] = lambda refusal, it=(words, given, journal, (status, written, left)): all_or_nothing(*it, library, refusal)
        for name, attempt in runs.items():
            tried = wrong = 0
            for refused, refusal in refusals():
                what, was_refused = attempt(refusal)
                if refusal and not was_refused:
                    break
                tried += 1
                if what:
                    wrong += 1
                    print(f"{name}, {refused} refused: {what}", file=sys.stderr)
            print(f"memory refused to {name}\t{tried}\t{wrong}", flush=True)


main()
