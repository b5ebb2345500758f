"""Runs the program under order.c, and looks at the order of its writes and syncs: each commit is written after the
closed gate and synced, then its gate is opened and synced, and only then is it answered."""
import os
import shutil
import subprocess
import tempfile

import pytest
from conftest import program

SOURCE = os.path.join(os.path.dirname(os.path.abspath(__file__)), "order.c")

# Three phases: a table, two batches and a query, and a batch.
SCRIPT = """a> CREATE TABLE t (k INT) KEY k
GO
a> PUT t
k
1
\\.
a> PUT t
k
2
\\.
a> SELECT k FROM t
GO
a> REMOVE t
k
1
\\.
"""
COMMIT = ["write", "sync", "write", "sync"]
# `init` syncs, and cuts, writes and syncs; a run syncs as it opens the journal.
WANTED = ["sync", "write", "sync", "sync", *COMMIT, "reply", *COMMIT, *COMMIT, "reply", *COMMIT, "reply"]


def folded(order):
    """The order, with replies that follow each other as one: a phase's replies may take several writes."""
    return [it for at, it in enumerate(order) if it != "reply" or order[at - 1] != "reply"]


def test_the_order_of_writes_and_syncs():
    compiler = next((it for it in ("cc", "clang", "gcc") if shutil.which(it)), None)
    if compiler is None:
        pytest.skip("no C compiler is here to see it")
    with tempfile.TemporaryDirectory() as room:
        library = f"{room}/order.so"
        subprocess.run([compiler, "-shared", "-fPIC", "-O1", "-o", library, SOURCE], check=True)
        around = dict(os.environ, LD_PRELOAD=library, ORDER=f"{room}/order")
        words = {"cwd": room, "env": around, "timeout": 60}
        subprocess.run([program("timeline"), "init"], stdin=subprocess.DEVNULL, check=True, **words)
        run = subprocess.run([program("timeline"), "run"], input=SCRIPT, capture_output=True, text=True, **words)
        with open(f"{room}/order") as order:
            found = folded(order.read().split())
    assert (run.returncode, run.stdout) == (0, "a @1 ok\na @2 ok\na @3 ok\na @3 rows 2\n1\n2\na @4 ok\n")
    assert found == WANTED
