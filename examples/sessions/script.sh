#!/usr/bin/env bash
# Prints a script of several sessions at once: script.sh TABLES LOADERS BATCHES LINES
# In its first phase a session `setup` makes the tables t0, t1, ..; in the second the sessions load0, load1, .. put so
# many batches each, of so many lines with keys of their own, into the tables in turn, while `audit` asks for the rows
# of each table as often as a loader puts a batch; in the third `audit` asks once more.
set -euo pipefail
awk -v tables="$1" -v loaders="$2" -v batches="$3" -v lines="$4" 'BEGIN {
    for (t = 0; t < tables; t++) printf "setup> CREATE TABLE t%d (k INT, v INT) KEY k\n", t
    print "GO"
    for (b = 0; b < batches; b++) {
        for (s = 0; s < loaders; s++) {
            printf "load%d> PUT t%d\nk,v\n", s, s % tables
            for (l = 0; l < lines; l++) printf "%d,%d\n", (b * loaders + s) * lines + l, b
            print "\\."
        }
        printf "audit> SELECT k FROM t%d\n", b % tables
    }
    print "GO"
    for (t = 0; t < tables; t++) printf "audit> SELECT k FROM t%d\n", t
}'
