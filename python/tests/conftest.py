"""What all tests share: the command, and folders for journals.

`./timeline test` runs them in several processes at once: each test is done by the process that first makes its file in the
folder that TIMELINE_CLAIMS names."""
from __future__ import annotations

import json
import os
import signal
import subprocess
import sys
import tempfile
import time
from typing import Any, Callable, Iterator, NamedTuple, Sequence

import pytest

ROOT = os.path.dirname(os.path.dirname(os.path.dirname(os.path.abspath(__file__))))
LIMIT = 200     # seconds that a test may take, where no more processes want to run than there are processors
COMMAND = os.path.join(ROOT, "timeline")
NOBODY = {"user": 65534, "group": 65534, "extra_groups": []}     # how a command is run as another user
sys.path.insert(0, os.path.join(ROOT, "python/src"))


class Done(NamedTuple):
    """How a command ended: its status, what it printed, and what it said."""

    status: int
    out: str
    err: str


def run(words: Sequence[str], given: str | bytes = "", folder: str | None = None, command: str = COMMAND, **more: Any) -> Done:
    """Runs `timeline`, or another command, with these words in a folder."""
    given = given if isinstance(given, bytes) else given.encode("utf-8", "surrogateescape")
    done = subprocess.run([command, *words], input=given, cwd=folder, capture_output=True, **more)
    return Done(done.returncode, *(it.decode("utf-8", "surrogateescape") for it in (done.stdout, done.stderr)))


def room_for_journals() -> str | None:
    """Where journals of tests stand: a file system in memory where it has 2 GB free, since programs sync often; else None, the
    system's temporary folder."""
    try:
        found = os.statvfs("/dev/shm")
    except OSError:
        return None
    return "/dev/shm" if os.access("/dev/shm", os.W_OK) and found.f_bavail * found.f_frsize > 2 << 30 else None


@pytest.fixture
def room() -> Iterator[str]:
    """An empty folder."""
    with tempfile.TemporaryDirectory(prefix="test-", dir=room_for_journals()) as folder:
        yield folder


@pytest.fixture
def journal(room: str) -> str:
    """A folder with an empty journal."""
    done = run(["init"], folder=room)
    assert done == (0, "", ""), done
    return room


def program(name: str) -> str:
    """The path of one of the programs."""
    from timeline import programs

    return programs.program(name)


@pytest.fixture
def run_as_nobody() -> Iterator[Callable[..., Done]]:
    """As `run`, by a user who may do least. That user runs what root installed in a folder that all may pass: these sources,
    and the programs that are tested, may lie below one that it may not pass."""
    if os.geteuid() != 0:
        pytest.skip("only root runs a command as another user")
    with tempfile.TemporaryDirectory(prefix="test-") as folder:
        os.chmod(folder, 0o755)
        done = run(["install", folder])
        assert done.status == 0, done
        command = f"{folder}/bin/timeline"
        around = {**os.environ, "TIMELINE_PROGRAMS": f"{folder}/lib/timeline/programs"}
        try:
            subprocess.run([command, "--help"], stdout=subprocess.DEVNULL, env=around, check=True, **NOBODY)
        except (PermissionError, subprocess.CalledProcessError):
            if _all_may_pass(folder):
                raise
            pytest.skip(f"{folder} lies below a folder that other users may not pass")
        yield lambda words, given="", room=None: run(words, given, room, command, env=around, **NOBODY)


def _all_may_pass(path: str) -> bool:
    """Whether each user may pass a folder and all above it."""
    while os.stat(path).st_mode & 0o001:
        if path == "/":
            return True
        path = os.path.dirname(path)
    return False


def pytest_configure(config: pytest.Config) -> None:
    # A test of signals starts commands that have the usual ones, however these tests were started.
    for number in (signal.SIGINT, signal.SIGHUP, signal.SIGTERM):
        if signal.getsignal(number) is signal.SIG_IGN:
            signal.signal(number, signal.SIG_DFL)


@pytest.fixture(autouse=True)
def limit() -> Iterator[None]:
    """Has a test fail that does not end, with what it has started. Where others share the machine, it may take as much longer as
    there are more of them."""
    begun = time.monotonic()

    def end(number: int, frame: object) -> None:
        others = max(1.0, os.getloadavg()[0] / len(os.sched_getaffinity(0)))
        taken = time.monotonic() - begun
        if taken >= LIMIT * others:
            raise AssertionError(f"not ended after {taken:.0f} seconds")
        signal.alarm(int(LIMIT * others - taken) + 1)

    before = signal.signal(signal.SIGALRM, end)
    signal.alarm(LIMIT)
    yield
    signal.alarm(0)
    signal.signal(signal.SIGALRM, before)


def pytest_runtestloop(session: pytest.Session) -> bool | None:
    claims = os.environ.get("TIMELINE_CLAIMS")
    if claims is None or session.config.option.collectonly or session.testsfailed:
        return None
    with open(os.path.join(claims, f"total.{os.getpid()}"), "w", encoding="ascii") as file:
        file.write(str(len(session.items)))
    os.replace(file.name, os.path.join(claims, "total"))
    for number, item in enumerate(session.items):
        try:
            os.close(os.open(os.path.join(claims, f"{number}.claim"), os.O_CREAT | os.O_EXCL))
        except FileExistsError:
            continue
        item.config.hook.pytest_runtest_protocol(item=item, nextitem=None)
    return True


def pytest_runtest_logreport(report: pytest.TestReport) -> None:
    claims = os.environ.get("TIMELINE_CLAIMS")
    if claims is None or report.when != "call" and report.passed:
        return
    said = report.longrepr[2] if report.skipped and isinstance(report.longrepr, tuple) else report.longreprtext
    result = {"test": report.nodeid, "outcome": report.outcome, "said": said}
    with open(os.path.join(claims, f"{os.getpid()}.results"), "a", encoding="utf-8") as file:
        file.write(json.dumps(result) + "\n")
