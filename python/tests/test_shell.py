"""The shell: through pipes nothing is passed over in silence, and on a terminal Ctrl-C ends a statement and not the shell."""
from __future__ import annotations

import os
import re
import subprocess
import time

import pytest

from conftest import COMMAND, ROOT, run

TABLE = "CREATE TABLE t (id INT, x TEXT) KEY id;\n"


@pytest.mark.parametrize("given, status, out, said", [
    ("PUT t;\r\nid,x\r\n1,a\r\n\\.\r\nSELECT x FROM t;\r\n", 0, "@N ok\nx\na\n", ""),                   # lines that end in CRLF
    ("SELECT x FROM t", 0, "x\n", ""),                                                                     # a last statement without `;`
    ("\nPUT t;\nid,x\n1,a\n", 6, "! script BlockOpen 2\n", "the block of PUT t that begins in line 2 has no end"),   # a block that is cut off
    ("PUT t\nid,x\n1,a\n\\.\nSELECT id FROM t;\n", 6, "! script BlockOpen 1\n", "PUT t that begins in line 1 has no end, `;`: nothing"),
    ("SELECT id FROM t;\nSELECT id FROM t\nWHERE x = 'a;\nCREATE TABLE u (k INT) KEY k;\n", 6, "id\n! script OpenText 3\n",
     "the text that begins in line 3 has no end"),                                                         # a text that is cut off
    ("PUT t;\nid,x\n1,\"a\n\\.\nSELECT id FROM t;\n", 0, "id\n", "line 2, record 2: the file ends within a quoted field"),
    ("SELECT id FROM t;\nSELECT \udcc3 FROM t;\nCREATE TABLE \udcff (k INT) KEY k;\nSELECT x FROM t;\n", 0, "id\nx\n",
     "line 2 was refused: BadByte 7"),                                                                     # no UTF-8
    ("", 0, "", "the input is empty"),
    ("PUT t;\nid,x\n1,\"a\nb\"\n\\.\nSELECT id FROM t;\n", 0, "@N ok\nid\n1\n", ""),                      # a line break in a text
    ("SELECT id FROM t WHERE x = 'a\nb';\n", 0, "", "LineBreak"),
    ("# a comment\n-- another\n\n;\nSELECT id\n  FROM t;\n", 0, "id\n", ""),
    ("SELECT nope\nFROM t;\nCOUNT FROM u OVER SYSTEM ALL;\n", 0, "", "line 3 was refused: UnknownTable 11"),  # the line that is meant
    ("SELECT id FROM t; SELECT x FROM t;\n", 0, "id\nx\n", ""),
    ("quit\nSELECT id FROM t;\n", 0, "", ""),
    ("\\nope\nSELECT id FROM t;\n", 0, "id\n", "there are \\d"),
    ("PUT t;\nid,x\n1,a\0b\n\\.\nSELECT x FROM t;\n", 0, "@N ok\nx\na\0b\n", ""),                        # a NUL in a cell
])
def test_what_comes_through_a_pipe(journal: str, given: str, status: int, out: str, said: str) -> None:
    assert run(["--no-stamp", "shell"], TABLE, journal).status == 0
    done = run(["--no-stamp", "shell"], given, journal)
    assert (done.status, done.out.replace("@2", "@N")) == (status, out), done
    assert said in done.err, done


def test_a_create_gives_kinds(journal: str) -> None:
    given = ("CREATE TABLE p (id INT, DATE DATE,\n pay DECIMAL(2)) KEY id VALID DATE;\nPUT p;\nid,DATE,pay,valid_from,valid_to\n1,2026-01-31,2.50,2026-01-01,FOREVER\n\\.\n"
             "SELECT * FROM p WHERE pay = 2.5 VALID AT '2026-02-01';\nCREATE TABLE q (id INT, pay DECIMAL(2), x) KEY id;\nCREATE TABLE q (id DECIMAL) KEY id;\n")
    done = run(["--no-stamp", "shell"], given, journal)
    assert done.out == "@3 ok\n@4 ok\nid,DATE,pay,valid_from,valid_to\n1,2026-01-31,2.50,2026-01-01,FOREVER\n", done
    assert "line 8 was refused: Unexpected 41" in done.err and "line 9 was refused: Unexpected 19" in done.err and "DECIMAL(n)" in done.err, done


def test_strict_makes_a_refusal_a_status(journal: str) -> None:
    assert run(["--strict", "shell"], "SELECT id FROM nope;\n", journal).status == 20
    assert run(["shell"], "SELECT id FROM nope;\n", journal).status == 0


def test_what_a_look_is_told_is_forgotten(journal: str) -> None:
    assert run(["--no-stamp", "shell"], TABLE, journal).status == 0
    before = run(["log", "--csv"], folder=journal).out
    done = run(["shell", "--look"], "SELECT id FROM t;\nPUT t;\nid,x\n1,a\n\\.\nSELECT x FROM t;\nCREATE TABLE u (k INT) KEY k;\n\\log\n", journal)
    assert done.out.startswith("id\n@2 ok\nx\na\n@3 ok\n") and not done.err and len(done.out.splitlines()) == 9, done
    assert run(["log", "--csv"], folder=journal).out == before


def test_no_lock_is_held_between_statements(journal: str) -> None:
    shell = subprocess.Popen([COMMAND, "--no-stamp", "shell"], cwd=journal, stdin=subprocess.PIPE, stdout=subprocess.PIPE)
    assert shell.stdin and shell.stdout
    shell.stdin.write(TABLE.encode())
    shell.stdin.flush()
    assert shell.stdout.readline() == b"@1 ok\n"
    assert run(["run"], "a> PUT t\nid,x\n1,a\n\\.\n", journal) == (0, "a @2 ok\n", "")
    shell.stdin.write(b"SELECT id FROM t;\n")
    shell.stdin.close()
    assert shell.stdout.read() == b"id\n1\n" and shell.wait() == 0


def test_help_shows_a_statement(journal: str) -> None:
    from timeline.shell import WORDS
    from timeline.statements import BATCHES

    done = run(["shell"], "\\help SELECT\n\\help\n", journal)
    assert done.status == 0 and done.out.lstrip().startswith("SELECT ") and "CREATE TABLE" in done.out
    with open(os.path.join(ROOT, "python/src/timeline/help.txt"), encoding="utf-8") as file:
        page = file.read()
    _, first, after = page.partition("  CREATE TABLE t ")
    statements = (first + after).partition("\n\n")[0]
    found = re.findall(r"^  [A-Z].*(?:\n   .*)*", statements, re.MULTILINE)
    assert BATCHES <= {it.split()[0] for it in found} and "\n".join(found) == statements
    assert run(["shell"], "\\help\n", journal).out == f"{statements}\n  Words of the shell: {WORDS}\n"
    assert run(["shell"], "".join(f"\\help {it.split()[0]}\n" for it in found), journal).out == statements + "\n"


def test_many_lines_of_one_text_take_little(journal: str) -> None:
    """A quote that is left open reaches over all that comes after it: time grows with its length, not with its square."""
    begun = time.monotonic()
    done = run(["--no-stamp", "shell"], "SELECT id FROM t WHERE x = 'a;\n" + "SELECT id FROM t;\n" * 100_000, journal)
    assert (done.status, done.out) == (6, "! script OpenText 1\n") and time.monotonic() - begun < 20, done


def test_a_prompt_takes_signals_and_half_characters(journal: str) -> None:
    """SIGINT while a prompt waits and while a query runs, a byte that is no UTF-8, and a history that has one."""
    pexpect = pytest.importorskip("pexpect")
    pytest.importorskip("prompt_toolkit")
    os.makedirs(f"{journal}/timeline")
    with open(f"{journal}/timeline/history", "wb") as file:
        file.write(b"\n# now\n+SELECT '\xc3\n+\xff")
    env = dict(os.environ, TERM="xterm", XDG_STATE_HOME=journal, PROMPT_TOOLKIT_NO_CPR="1")
    shell = pexpect.spawn(COMMAND, ["--no-stamp", "shell"], cwd=journal, env=env, timeout=30, dimensions=(40, 120))
    shell.expect(b"timeline>")
    for turn in range(6):
        shell.send(b"SELECT x FROM nothing;\r")
        time.sleep(0.02 * turn)
        shell.kill(2)
        time.sleep(0.1)
    shell.send(b"\x03")
    shell.send(b"SELECT '\xe9';\r")
    shell.expect(b"BadByte 8")
    shell.send(b"quit\r")
    shell.expect(pexpect.EOF)
    shell.close()
    assert shell.exitstatus == 0
    with open(f"{journal}/timeline/history", "rb") as file:
        assert file.read().endswith(b"\n+quit\n")


def test_on_a_terminal(journal: str) -> None:
    pexpect = pytest.importorskip("pexpect")
    pytest.importorskip("prompt_toolkit")
    env = dict(os.environ, TERM="xterm", XDG_STATE_HOME=journal, LC_ALL="C", PROMPT_TOOLKIT_NO_CPR="1")
    shell = pexpect.spawn(COMMAND, ["--no-stamp", "shell"], cwd=journal, env=env, encoding="utf-8", timeout=30, dimensions=(40, 120))
    for sent, wanted in [
        ("CREATE TABLE t (id INT, name TEXT)\r", "\\.\\.\\.>"), ("KEY id;\r", "@1 ok"),
        ("SELECT nope\x03", "timeline>"), ("PUT t;\r", "row>"), ("id,name\r", "row>"), ("7,日é\x7fe\r", "row>"), ("\\.\r", "@2 ok"),
        ("PUT t;\r", "row>"), ("\x03", "nothing of it was done"), ("SELECT name FROM t WHERE id = 7;\r", "日e"),
        ("\\d t\r", "name"), ("quit\r", pexpect.EOF),
    ]:
        if sent[0] not in "K7i\\" and "row" not in str(shell.after):
            shell.expect("timeline>") if "timeline>" not in str(shell.after) else None
        time.sleep(0.1)
        shell.send(sent)
        shell.expect(wanted)
    shell.close()
    assert shell.exitstatus == 0
