"""What has to be undone however a command ends: processes that it started, folders that it made; and signals.

A signal becomes the exception Stopped in the main thread, save while a process or a folder is being made, so that none
is left that nobody knows of. A folder is locked by who made it: one that nobody has locked was left by a process that
was killed, and the next command removes it."""
from __future__ import annotations

import os
import signal
import time
from contextlib import contextmanager, suppress

TYPE_CHECKING = False
if TYPE_CHECKING:
    import subprocess
    from typing import IO, Any, Iterator, Mapping, Sequence

PREFIX = "timeline-private-"
_PATIENCE = 5.0           # seconds that a program has to end when it is told to
_STOPPING = (signal.SIGINT, signal.SIGTERM, signal.SIGHUP)
_processes: list[subprocess.Popen[bytes]] = []
_folders: dict[str, int] = {}
_deferring = 0
_received = 0
_dealt_with = float("-inf")    # when a signal was last dealt with
_PAUSE, _RECENT = 0.2, 1.0     # seconds: between two tries, and from which on a signal is another one


class Stopped(BaseException):
    """The command was stopped by the signal with this number."""

    def __init__(self, number: int) -> None:
        self.number = number
        super().__init__(f"stopped by signal {number}")


def _receive(number: int, _frame: object) -> None:
    global _received
    if not _deferring:
        raise Stopped(number)
    _received = number


def handle_signals() -> None:
    """Has SIGINT, SIGTERM and SIGHUP raise Stopped, save those that are ignored already."""
    import _thread

    reads, writes = os.pipe()
    os.set_blocking(writes, False)
    for number in _STOPPING:
        if signal.getsignal(number) is not signal.SIG_IGN:
            signal.signal(number, _receive)
    signal.set_wakeup_fd(writes, warn_on_full_buffer=False)
    _thread.start_new_thread(_insist, (reads, _thread.get_ident()))


def _insist(reads: int, main: int) -> None:
    """Sends a signal again until it is dealt with. One that comes just before a system call that waits is not looked at before that
    ends, and an exception that is raised within a callback of Python's own is lost."""
    while True:
        number, begun = os.read(reads, 1)[0], time.monotonic()
        while number in _STOPPING and _dealt_with < begun - _RECENT:
            time.sleep(_PAUSE)
            if _dealt_with < begun - _RECENT:
                signal.pthread_kill(main, number)


@contextmanager
def deferred() -> Iterator[None]:
    """Keeps a signal back until the end of the block."""
    global _deferring, _received
    _deferring += 1
    try:
        yield
    finally:
        _deferring -= 1
    if _received and not _deferring:
        number, _received = _received, 0
        raise Stopped(number)


def start(words: Sequence[str], folder: str, stdin: int | IO[Any] | None, stdout: int | IO[Any] | None,
          stderr: int | IO[Any] | None = None, around: Mapping[str, str] | None = None) -> subprocess.Popen[bytes]:
    """Starts a program in a folder, to be ended with the command at the latest; `around` is its environment, if not this one."""
    import subprocess

    with deferred():
        process = subprocess.Popen(words, cwd=folder, stdin=stdin, stdout=stdout, stderr=stderr, env=around, bufsize=0, restore_signals=False)
        _processes.append(process)
    return process


def end(process: subprocess.Popen[bytes]) -> int:
    """Waits until a program has ended, and gives its status, 128 and more where a signal ended it."""
    status = process.wait()
    if process in _processes:
        _processes.remove(process)
    return 128 - status if status < 0 else status


def private_folder(beside: str | None = None) -> str:
    """Makes a folder that is gone when the command ends: in the system's temporary folder, or in another one."""
    import fcntl
    import tempfile

    while True:
        with deferred():
            path = tempfile.mkdtemp(prefix=PREFIX, dir=beside)
            try:
                number = os.open(path, os.O_RDONLY)
            except FileNotFoundError:
                continue      # another command removed it, since nobody had locked it yet
            _folders[path] = number
            fcntl.flock(number, fcntl.LOCK_EX)
        if os.path.isdir(path):
            return path
        remove(path)


def remove(path: str) -> None:
    """Removes a private folder with all that is in it."""
    import shutil

    with deferred():
        shutil.rmtree(path, ignore_errors=True)
        if path in _folders:
            os.close(_folders.pop(path))


def sweep(parent: str) -> None:
    """Removes the private folders that commands of this user left in a folder when they were killed."""
    import fcntl

    left: list[str] = []
    with suppress(OSError):
        left = [it.path for it in os.scandir(parent) if it.name.startswith(PREFIX) and it.is_dir(follow_symlinks=False)
                and it.stat(follow_symlinks=False).st_uid == os.getuid() and it.path not in _folders]
    for path in left:
        with suppress(OSError):
            number = os.open(path, os.O_RDONLY | os.O_DIRECTORY | os.O_NOFOLLOW)
            try:
                fcntl.flock(number, fcntl.LOCK_EX | fcntl.LOCK_NB)
                remove(path)
            finally:
                os.close(number)


def check_target(path: str, journal: str) -> None:
    """Raises UsageError where a file may not be put at a path: where something else than a regular file is there, a link too, or where
    it is the journal, or has the name of one. `journal` is the path of the folder's own."""
    from .errors import UsageError

    name, is_there = os.path.basename(path), os.path.lexists(path)
    if not name:
        raise UsageError(f"{path or 'an empty word'} names no file")
    if is_there and (os.path.islink(path) or not os.path.isfile(path)):
        raise UsageError(f"{path} is there already, and is no regular file: it stays as it is")
    is_journal = is_there and os.path.exists(journal) and os.path.samefile(path, journal)
    if is_journal or name == os.path.basename(journal):
        raise UsageError(f"{path} is the journal, or has a journal's name: nothing is written there")


@contextmanager
def whole(path: str) -> Iterator[str]:
    """A path for a file, or a folder, that is put in its place when the block ends: it is there whole, or what was there stays.

    Raises DeviceFault where it cannot be written. What a command left that was killed is removed by the next one that writes there."""
    from .errors import DeviceFault

    beside, name = os.path.dirname(path) or ".", os.path.basename(path)
    sweep(beside)
    try:
        folder = private_folder(beside)
        try:
            yield os.path.join(folder, name)
            os.replace(os.path.join(folder, name), path)
        finally:
            remove(folder)
    except OSError as error:
        raise DeviceFault(f"{path} cannot be written: {error.strerror}") from None


def undo() -> None:
    """Ends what still runs, or kills it where it does not end, and removes what is left; from here on signals are kept back for good."""
    global _deferring, _dealt_with
    _deferring += 1
    _dealt_with = time.monotonic()
    for process in list(_processes):
        if process.poll() is None:
            import subprocess

            process.terminate()
            try:
                process.wait(_PATIENCE)
            except subprocess.TimeoutExpired:
                process.kill()
        end(process)
    for path in list(_folders):
        remove(path)


def go_on() -> None:
    """Forgets a signal that was received: what it stopped has been dealt with."""
    global _received, _dealt_with
    _received, _dealt_with = 0, time.monotonic()


def show(words: Sequence[str], text: bytes) -> None:
    """Has a program show a text on the terminal, and waits for its end; that it ends early is no fault."""
    import subprocess

    process = start(words, ".", subprocess.PIPE, None)
    process.communicate(text)
    end(process)
