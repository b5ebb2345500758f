"""The command test: runs the tests of python/tests, in as many processes as there are processors, over the programs that run.

What a machine lacks for them it has apt install, or names in one line. It starts pytest and apt-get alone, and looks at no
journal."""
from __future__ import annotations

import json
import os
import shutil
import subprocess
import sys
import time
from typing import TYPE_CHECKING, Any, Iterator

from . import cleanup, programs
from .errors import NOT_BUILT, ProgramFault, UsageError

if TYPE_CHECKING:
    from .cli import Call
    from .console import Console

TESTS = "python/tests"
NEEDS = os.path.join(programs.ROOT, TESTS, "needs.txt")
FAILED = 1
_OF_SYSTEM = "/usr/bin/python3"      # for which apt installs modules
_LINES = 60      # of what a test said that failed
_EACH = 30       # seconds between two lines that say how far the tests are, where no terminal is


def test(call: Call) -> int:
    """Runs all tests, or those that its words name: a path, a path with `::` and a test's name, or a part of names."""
    if not os.path.isdir(os.path.join(programs.ROOT, TESTS)):
        raise UsageError("the tests stand beside the sources, which are not here")
    begun = time.monotonic()
    python, lacking = _needs(call.console)
    folder = cleanup.private_folder()
    kinds = _programs(folder)
    said = open(os.path.join(folder, "said"), "w+b")
    running = [_start(python, call.words, folder, said) for _ in range(len(os.sched_getaffinity(0)))]
    results = _results(running, folder, call.console)
    statuses = [cleanup.end(it) for it in running]
    lost = [it for it in statuses if it not in (0, 1, 5)]
    wrong = _tell(results, folder, call.console)
    if lost or not results:
        said.seek(0)
        call.console.tell("\n".join(said.read().decode("utf-8", "replace").splitlines()[-_LINES:]))
        call.console.say("no test was found" if not lost else f"a process of the tests ended with {lost[0]}")
    if lacking:
        call.console.say(lacking)
    call.console.say(_counted(results, wrong, time.monotonic() - begun) + f", over programs that are {kinds}")
    return FAILED if wrong or lost or not results else 0


def _counted(results: dict[str, str], wrong: list[str], seconds: float) -> str:
    passed = sum(it == "passed" for it in results.values())
    skipped = sum(it == "skipped" for it in results.values())
    return f"{passed} passed, {len(wrong)} failed, in {seconds:.0f} s" + f", {skipped} not tried" * bool(skipped)


def _programs(folder: str) -> str:
    """Copies the three programs into a folder, for all tests to use, and says what they are. Each user may run them there,
    wherever they stood: some tests run commands as nobody."""
    copies = os.path.join(folder, "programs")
    os.mkdir(copies)
    kinds = set()
    for name in programs.NAMES:
        path = programs.program(name)
        found = programs.find(name)
        kinds.add(found.kind if found else "not of these sources")
        shutil.copyfile(path, os.path.join(copies, name))
        os.chmod(os.path.join(copies, name), 0o755)
    for it in (folder, copies):
        os.chmod(it, 0o755)
    words = {"checked": "checked as they run", "given": "in " + os.environ.get("TIMELINE_PROGRAMS", "")}
    return " and ".join(sorted(words.get(it, it) for it in kinds))


def _start(python: str, words: list[str], folder: str, said: Any) -> subprocess.Popen[bytes]:
    """Starts one of the processes that share the tests."""
    chosen: list[str] = []
    for word in words:
        chosen += [word] if "/" in word or "::" in word else [TESTS, "-k", word]
    around = {**os.environ, "TIMELINE_PROGRAMS": os.path.join(folder, "programs"), "TIMELINE_CLAIMS": folder}
    line = [python, "-m", "pytest", "-p", "no:cacheprovider", "-c", "python/pyproject.toml", "--rootdir", ".", "-q", *(chosen or [TESTS])]
    return cleanup.start(line, programs.ROOT, subprocess.DEVNULL, said, said, around)


def _results(running: list[subprocess.Popen[bytes]], folder: str, console: Console) -> dict[str, str]:
    """What became of each test, by its name; says meanwhile how far the tests are."""
    found: dict[str, str] = {}
    told, at = time.monotonic(), dict.fromkeys((it.pid for it in running), 0)
    while True:
        ended = all(it.poll() is not None for it in running)
        for process in running:
            for result in _lines(os.path.join(folder, f"{process.pid}.results"), at, process.pid):
                known = found.get(result["test"], "passed")
                found[result["test"]] = known if known == "failed" else result["outcome"]
        failed = sum(it == "failed" for it in found.values())
        text = f"{len(found)} of {_total(folder)} tests done" + f", {failed} failed" * bool(failed)
        console.progress(text)
        if not console.err_is_terminal and time.monotonic() - told > _EACH:
            told = time.monotonic()
            console.say(text)
        if ended:
            console.progress("")
            return found
        time.sleep(0.2)


def _total(folder: str) -> int:
    """How many tests there are, as a process has found."""
    try:
        with open(os.path.join(folder, "total"), encoding="ascii") as file:
            return int(file.read() or 0)
    except OSError:
        return 0


def _lines(path: str, at: dict[int, int], number: int) -> Iterator[dict[str, str]]:
    """The results in a file after a place, which is moved past them; a line that is not whole waits."""
    try:
        with open(path, encoding="utf-8") as file:
            file.seek(at[number])
            lines = file.read()
    except OSError:
        return
    whole = lines[:lines.rfind("\n") + 1]
    at[number] += len(whole)
    yield from map(json.loads, whole.splitlines())


def _tell(results: dict[str, str], folder: str, console: Console) -> list[str]:
    """Says what the tests said that failed, how each is run alone, and why some were not tried; gives the names of those that
    failed, and those that never ended."""
    wrong = sorted(it for it, outcome in results.items() if outcome == "failed")
    reasons: dict[str, int] = {}
    for name in (it for it in os.listdir(folder) if it.endswith(".results")):
        for result in _lines(os.path.join(folder, name), {0: 0}, 0):
            if result["outcome"] == "failed":
                console.tell("\n".join([f"== {result['test']}", *result["said"].splitlines()[-_LINES:]]))
            elif result["outcome"] == "skipped":
                reason = result["said"].strip().removeprefix("Skipped: ")
                reasons[reason] = reasons.get(reason, 0) + 1
    for reason, count in sorted(reasons.items()):
        console.tell(f"{count} not tried: {reason}")
    if results and _total(folder) > len(results):
        wrong.append(f"{_total(folder) - len(results)} tests that did not end")
    for name in wrong:
        console.tell(f"failed: {name}" + f"\n    alone: ./timeline test '{name}'" * (name in results))
    return wrong


def _needs(console: Console) -> tuple[str, str]:
    """The python3 that runs the tests, and a line that names what is not here and could not be installed: tests that need it
    are not tried."""
    python, lacking = _best()
    if lacking and os.geteuid() == 0 and shutil.which("apt-get"):
        console.say(f"installing what the tests need: {' '.join(_lacking(_OF_SYSTEM))}")
        for words in (["install"], ["update"], ["install"]):
            packages = _lacking(_OF_SYSTEM)
            if packages:
                subprocess.run(["apt-get", "-y", "-q", *words, *(packages if words == ["install"] else [])], stdin=subprocess.DEVNULL, check=False,
                               stdout=subprocess.DEVNULL, stderr=subprocess.DEVNULL, env={**os.environ, "DEBIAN_FRONTEND": "noninteractive"})
        python, lacking = _best()
    if "python3-pytest" in lacking:
        raise ProgramFault(NOT_BUILT, f"the tests need more than is here: apt-get install {' '.join(lacking)}")
    return python, f"what needs these was not tried: apt-get install {' '.join(lacking)}" if lacking else ""


def _best() -> tuple[str, list[str]]:
    """The python3 with which most tests can be tried, and the packages of what they need and is not here."""
    found = [(it, _lacking(it)) for it in dict.fromkeys((sys.executable, _OF_SYSTEM))]
    return min(found, key=lambda it: ("python3-pytest" in it[1], len(it[1])))


def _lacking(python: str) -> list[str]:
    """The Debian packages of what the tests need and is not here."""
    with open(NEEDS, encoding="utf-8") as file:
        needs = [line.split() for line in file if line.strip() and not line.startswith("#")]
    modules = [name for kind, name, _ in needs if kind == "module"]
    is_whole = _has_modules(python, modules)
    return sorted({package for kind, name, package in needs
                   if not (is_whole or _has_modules(python, [name]) if kind == "module" else shutil.which(name))})


def _has_modules(python: str, names: list[str]) -> bool:
    code = "import sys, importlib.util as u; sys.exit(not all(u.find_spec(it) for it in sys.argv[1:]))"
    try:
        return subprocess.run([python, "-c", code, *names], cwd="/", stderr=subprocess.DEVNULL, check=False).returncode == 0
    except OSError:
        return False
