#!/usr/bin/env python3
"""gate_times.py COMMAND..: runs a command, such as `rt ci`, and prints after it how many processor seconds each crate's proof,
tests and must-fail edits took, as a table, and their sum in minutes. Ends with the command's status. It reads /proc every
third of a second, so of each process the last third may be missing; processes that others run are counted too."""
import collections
import os
import re
import subprocess
import sys
import threading

TICKS = os.sysconf("SC_CLK_TCK")
seconds = {}   # of each process that was seen: its crate, what it does, and its processor seconds so far


def look():
    """Takes down what each process of the prover has taken so far."""
    for process in filter(str.isdigit, os.listdir("/proc")):
        try:
            with open(f"/proc/{process}/stat") as file:
                stat = file.read()
            if "(rattle)" not in stat:
                continue
            fields = stat[stat.rindex(")") + 2:].split()
            known = seconds.get((process, fields[19]))
            if known is None:
                with open(f"/proc/{process}/cmdline") as file:
                    words = file.read().split("\0")
                crate = words[words.index("--crate-name") + 1]
                folder = os.readlink(f"/proc/{process}/cwd")
                what = "edits" if "rt-edit-" in folder else "tests" if "--test" in words else "proof"
                known = seconds[process, fields[19]] = [crate, what, 0]
            known[2] = sum(map(int, fields[11:13])) / TICKS
        except (OSError, ValueError):
            continue


def main():
    ended = threading.Event()

    def watch():
        while not ended.wait(0.3):
            look()

    watcher = threading.Thread(target=watch)
    watcher.start()
    status = subprocess.run(sys.argv[1:], check=False).returncode
    ended.set()
    watcher.join()
    table = collections.defaultdict(collections.Counter)
    for crate, what, taken in seconds.values():
        table[crate][what] += taken
    print("| crate | proof | tests | edits |\n|---|---|---|---|")
    for crate, taken in sorted(table.items()):
        print(f"| {crate} | " + " | ".join(f"{taken[it]:.0f}" if taken[it] else "" for it in ("proof", "tests", "edits")) + " |")
    print(f"{sum(sum(taken.values()) for taken in table.values()) / 60:.0f} minutes of a processor", flush=True)
    return status


sys.exit(main())
