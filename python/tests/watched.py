"""Compares what `watch` says after each commit of a script with asking anew. It runs
`timeline watch TEXT` over the script, on a journal of its own or a copy of one, and asks at each version of a line
`watch @V` the aggregate of TEXT, and the number of its rows, over that version alone."""
import csv
import io
import re
import shutil
import subprocess
import tempfile

from conftest import COMMAND, room_for_journals

JOURNALS = room_for_journals()


def answers(printed):
    """The rows of each reply, `None` for one without rows, and the first words of it."""
    out, lines = [], io.StringIO(printed, newline="")
    for line in lines:
        words = line.split()
        rows = None
        if words[2] == "rows":
            reader, rows = csv.reader(lines), []
            while len(rows) < int(words[3]):
                rows.append(next(reader))
        out.append((words[:3], rows))
    return out


def compare(text, script, journal=None):
    """How many commits were compared, and what differs."""
    front, by, column = text.partition(" OVER ")[0], " BY " in text, text.split()[1]
    counted = re.sub(r"^(SUM|AVG|MIN|MAX) \w+ ", "COUNT ", front)
    with tempfile.TemporaryDirectory(dir=JOURNALS) as room:
        if journal:
            shutil.copy(journal, f"{room}/timeline.tlj")
        else:
            subprocess.run([COMMAND, "init"], cwd=room, check=True)
        run = lambda words, given: subprocess.run([COMMAND, *words], input=given, cwd=room, capture_output=True, text=True)
        done = run(["watch", text], script)
        if done.returncode:
            return 0, f"it ended with {done.returncode}: {done.stdout[-200:]}"
        told = answers(done.stdout)
        commits = [int(words[1][1:]) for words, rows in told if words[2] == "ok"]
        said = [(int(words[1][1:]), rows) for at, (words, rows) in enumerate(told) if at and words[0] == "watch" and told[at - 1][0][2] == "ok"]
        if commits != [version for version, _ in said]:
            return 0, f"not one line for each commit: {commits}, {said}"
        asked = "".join(f"a> {each} OVER SYSTEM {version} TO {version + 1}\n" for version in commits for each in (front, counted))
        anew = answers(run(["run"], asked).stdout)
        for at, (version, rows) in enumerate(said):
            values, counts = anew[2 * at][1], anew[2 * at + 1][1]
            wanted = [[group, value, count[3]] for (group, _, _, value), count in zip(values, counts)] if by else [[values[0][2], counts[0][2]]]
            if rows != wanted:
                return at, f"at version {version} it says {rows}, and asking anew {wanted}"
        return len(said), ""
