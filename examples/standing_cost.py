#!/usr/bin/env python3
"""Counts what an aggregate that stands costs: the instructions of `watch TEXT` beside those of `group`, for 1,000 commits
of one line each into a table of 1,000,000 rows. It is run by hand, and wants valgrind. A table of `--rows` rows `item (id,
grp, val)` in ten groups is loaded; then the same script of `--commits` batches of one line, half of them updates, is run by
`group` and by `watch` with each of several texts. `opened` are the instructions of the same command over an empty script:
the opening of the journal, and of `watch` also the registration. `net` is the rest, in all but the column `lines` net of
the functions that write the lines, whose names have one of the words of `--lines` in them, with all that they call.
`beside` is `net` in parts of that of `group`. `anew` is what one question for the same at one version takes: of as many as
there are commits, asking would take so many times that."""
import argparse
import os
import random
import re
import shutil
import subprocess
import sys
import tempfile

TEXTS = ["SUM val FROM item BY grp OVER SYSTEM ALL", "MIN val FROM item BY grp OVER SYSTEM ALL", "SUM val FROM item OVER SYSTEM ALL",
         "MIN val FROM item OVER SYSTEM ALL", "MIN val FROM item WHERE grp = 3 OVER SYSTEM ALL"]
PROGRAM = os.path.dirname(os.path.dirname(os.path.abspath(__file__))) + "/crates/timeline/out/timeline"


def put(lines):
    return "a> PUT item\nid,grp,val\n" + "".join(f"{key},{key % 10},{value}\n" for key, value in lines) + "\\.\n"


def counted(words, script, journal, room, names):
    """Millions of instructions of a run over a copy of a journal, and of those that functions of these names take."""
    shutil.copy(journal, f"{room}/timeline.tlj")
    subprocess.run(["valgrind", "--tool=callgrind", f"--callgrind-out-file={room}/counts", *words], input=script.encode(), cwd=room,
                   stdout=subprocess.DEVNULL, stderr=subprocess.DEVNULL, check=True)
    table = subprocess.run(["callgrind_annotate", "--inclusive=yes", "--threshold=100", f"{room}/counts"], capture_output=True, text=True, check=True).stdout
    whole = int(re.search(r"^\s*([\d,]+) .*PROGRAM TOTALS", table, re.M)[1].replace(",", ""))
    written = [int(found[1].replace(",", "")) for line in table.splitlines() if (found := re.match(r"\s*([\d,]+) ", line))
               and names and any(name in line for name in names)]
    return whole / 1e6, max(written, default=0) / 1e6


def main():
    words = argparse.ArgumentParser(description="Counts instructions of watch beside group; see the file's head.")
    words.add_argument("--program", default=PROGRAM)
    words.add_argument("--rows", type=int, default=1_000_000)
    words.add_argument("--commits", type=int, default=1000)
    words.add_argument("--lines", nargs="*", default=["put_told", "Watching::tell"], help="words of the names of the functions that write the lines")
    given = words.parse_args()
    draw, program = random.Random(1), os.path.abspath(given.program)
    keys = [draw.randrange(given.rows) if it % 2 else given.rows + it for it in range(given.commits)]
    script = "".join(put([(key, draw.randrange(-1000, 10000))]) for key in keys)
    with tempfile.TemporaryDirectory(dir="/dev/shm" if os.access("/dev/shm", os.W_OK) else None) as room:
        run = lambda words, text: subprocess.run([program, *words], input=text.encode(), cwd=room, stdout=subprocess.DEVNULL, check=True)
        run(["init"], "")
        run(["run"], "a> CREATE TABLE item (id INT, grp INT, val INT) KEY id\n")
        for low in range(0, given.rows, 500_000):
            run(["run"], put([(key, draw.randrange(10000)) for key in range(low, min(low + 500_000, given.rows))]))
        last = 1 + (given.rows + 499_999) // 500_000
        journal = f"{room}/journal"
        os.rename(f"{room}/timeline.tlj", journal)
        print(f"{'millions of instructions':52}{'whole':>10}{'opened':>10}{'lines':>10}{'net':>10}{'beside':>8}{'anew':>10}")
        asking = counted([program, "run", "--workers", "1"], "", journal, room, [])[0]
        first = None
        for asked in (["group"], *(["watch", text] for text in TEXTS)):
            whole, lines = counted([program, *asked], script, journal, room, given.lines)
            opened = counted([program, *asked], "", journal, room, [])[0]
            net = whole - opened - lines
            first = first or net
            anew = ""
            if asked[0] == "watch":
                question = f"a> {asked[1].replace('ALL', f'{last} TO {last + 1}')}\n"
                anew = f"{(counted([program, 'run', '--workers', '1'], question * 4, journal, room, [])[0] - asking) / 4:10.2f}"
            print(f"{' '.join(asked):52}{whole:10.1f}{opened:10.1f}{lines:10.1f}{net:10.1f}{net / first:8.2f}{anew}", flush=True)


sys.exit(main())
