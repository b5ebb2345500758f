"""One folder's journal: its lock, looks at it, scripts over it. Only this module, programs and
installing start processes.

Nothing here writes to standard output, or ends the process; what a program answers comes back as
values or bytes."""
from __future__ import annotations

import os
import signal
import time
from contextlib import suppress

from . import cleanup
from .console import write_all
from .errors import (ILLEGAL, CheckFailed, Damaged, DeviceFault, Holder, Locked, NoJournal, Refused,
                     TimelineError, from_closing)
from .programs import program
from .replies import PIECE, Closing, Refusal, Reply, read_replies

TYPE_CHECKING = False
if TYPE_CHECKING:
    import subprocess
    from typing import Callable, Iterable, Iterator, Sequence, TypeVar

    from .kinds import Catalog, Kind

    T = TypeVar("T")
    Sink = Callable[[bytes], object]

NAME = "timeline.tlj"
MOST_PHASES = 65_535     # of one run: the engine's limit, less one
_PAUSE = 0.05            # seconds between two tries for the lock
_TRIES = 5               # tries where nobody has the lock, and the journal was not opened
_SETTLED = 0.05          # seconds after which a file's time tells a later change from the last one
_OPENING = 0.2           # seconds after which a program that sleeps, with no lock to be seen, has
_STARTING = 10.0         # its journal all the same, and after which one that does not sleep has
_UNOPENED = b"! device\n"   # all that a program writes that could not open its journal


class Journal:
    """The journal of a folder. `wait` is how many seconds a command waits for the lock that another
    program has, None for ever; `on_wait` is called once, with the holder where it is known, before
    it waits."""

    def __init__(self, folder: str | os.PathLike[str] = ".", wait: float | None = 0.0,
                 on_wait: Callable[[Holder | None], None] | None = None) -> None:
        self.folder, self.wait, self.on_wait = os.fspath(folder), wait, on_wait
        self.path = os.path.join(self.folder, NAME)
        self._look: Look | None = None

    def look(self) -> Look:
        """A look at the journal as it is now. It is kept for the next call, and opened again when
        the file has changed."""
        self.check_readable()
        if self._look is None or not self._look.is_fresh():
            self.close()
            self._look = Look(self)
        return self._look

    def new_look(self) -> Look:
        """A look of one's own, in which commits may be tried: they are forgotten with it. It names
        no columns. Close it after use."""
        self.check_readable()
        return Look(self, with_names=False)

    def close(self) -> None:
        """Ends the look that is kept."""
        if self._look is not None:
            self._look.close()
            self._look = None

    def _check(self) -> bool:
        """Whether there is a file. Raises DeviceFault where what has its name is none."""
        try:
            os.stat(self.path)
        except FileNotFoundError:
            return False
        except OSError as error:
            raise DeviceFault(f"{NAME} cannot be read: {error.strerror}") from None
        if not os.path.isfile(self.path):
            what = "a folder" if os.path.isdir(self.path) else "no file"
            raise DeviceFault(f"{NAME} is {what}")
        return True

    def check_readable(self) -> None:
        """Raises NoJournal, or DeviceFault with its reason, where no file is that can be read."""
        if not self._check():
            raise NoJournal()
        if not os.access(self.path, os.R_OK):
            raise DeviceFault(f"{NAME} cannot be read")

    def check_writable(self) -> None:
        """Raises DeviceFault where what has the journal's name is no file, or no folder is there
        for it."""
        if not self._check() and not os.path.isdir(self.folder):
            nothing = "" if os.path.exists(self.folder) else ": nothing is there"
            raise DeviceFault(f"{self.folder} is no folder{nothing}")

    def size(self) -> int:
        """The bytes of the file, 0 where there is none."""
        with suppress(OSError):
            return os.stat(self.path).st_size
        return 0

    def holder(self) -> Holder | None:
        """Who has the journal's lock, where the system tells. It takes no lock itself."""
        with suppress(OSError, ValueError):
            at = os.stat(self.path)
            place = f"{os.major(at.st_dev):02x}:{os.minor(at.st_dev):02x}:{at.st_ino}"
            with open("/proc/locks", encoding="ascii", errors="replace") as locks:
                for words in map(str.split, locks):
                    if place in words and "FLOCK" in words and "->" not in words:
                        return _holder(int(words[4]))
        return None

    def is_held(self) -> bool:
        """Whether another program has the lock; where the system does not list it the lock is
        tried, for a moment."""
        if self.holder() is not None:
            return True
        import fcntl

        with suppress(OSError), open(self.path, "rb") as file:
            try:
                fcntl.flock(file, fcntl.LOCK_EX | fcntl.LOCK_NB)
            except BlockingIOError:
                return True
        return False

    def init(self) -> None:
        """Makes an empty journal; AlreadyThere where one is there."""
        self.answers(["init"], [])

    def transact(self, script: Iterable[bytes]) -> list[Reply]:
        """Runs a script of which all commits are kept, or none where a statement is refused: then
        Refused is raised.

        `script` is the script's bytes in pieces, which are asked for once the program has the
        journal's lock. Its replies come back in order; where a piece cannot be made nothing is
        kept, and what that raised goes on.

        No piece but the last ends between two statements, and one that has the end of a statement
        has at most 4,096 bytes: a pipe takes such a piece whole, so that a script that is cut off
        since this process was killed ends within a block, and is refused."""
        return self.answers(["transact"], script)

    def answers(self, words: Sequence[str], source: Iterable[bytes]) -> list[Reply]:
        """The replies to a command of the program that ends with the first refusal, which is raised
        as Refused, as its error is where it ends otherwise. Its input is pieces of bytes."""
        import io

        output: list[bytes] = []
        status = self.stream(words, source, output.append)
        replies = list(read_replies(io.BytesIO(b"".join(output))))
        closing = replies.pop() if replies and isinstance(replies[-1], Closing) else None
        last = replies[-1] if replies else None
        if isinstance(last, Refusal) and status in (0, 12):
            fault = last.fault
            refused = Refused(fault.name, fault.numbers, place=fault.place)
            raise refused.over(last.version, len(replies))
        if status:
            raise self.fault(status, closing.words if isinstance(closing, Closing) else ())
        return replies

    def fault(self, status: int, words: Sequence[str]) -> TimelineError:
        """The error of a program that ended so, with the reason where the disk failed."""
        if words[:1] == ("device",):
            return DeviceFault(self.device_reason())
        return from_closing(status, words)

    def listing(self, words: Sequence[str]) -> bytes:
        """What the program that lists writes of the journal: `log`, `tables` or `rows` and a
        table."""
        self.check_readable()
        return _twice(lambda: b"".join(self._read(["timeline_log", *words])))

    def _read(self, words: Sequence[str]) -> Iterator[bytes]:
        """What a program that only reads writes, in pieces. A closing line stands alone, so that no
        later piece is taken for one; its error is raised."""
        process = self.start(words)
        assert process.stdout is not None
        first = piece = process.stdout.read(PIECE)
        while piece:
            if not first.startswith(b"!"):
                yield piece
            piece = process.stdout.read(PIECE)
        status = cleanup.end(process)
        if status:
            closing = ("device",) if status == 3 else _closing_words(first)
            raise self.fault(status, closing)

    def start(self, words: Sequence[str], stdin: int | None = None) -> subprocess.Popen[bytes]:
        """Starts one of the programs in the folder, with its output to be read; without `stdin` its
        input is empty."""
        import subprocess

        given = subprocess.DEVNULL if stdin is None else stdin
        command = [program(words[0]), *words[1:]]
        return cleanup.start(command, self.folder, given, subprocess.PIPE)

    def version(self) -> int:
        """How many commits the journal has."""
        version = getattr(self.look().ask([b"S"])[0], "version")
        assert isinstance(version, int)
        return version

    def ship(self, first: int, last: int, sink: Sink) -> None:
        """Gives `sink` the packets of the versions from one to another, once the journal's file is
        synced: a commit may be seen that its writer has not synced yet, and a crash could take it
        back."""
        def read() -> None:
            """Gives the packets, or raises Damaged before the first of them."""
            for number, piece in enumerate(self._read(["timeline_look", "ship", *bounds])):
                if not number:
                    self._sync()
                sink(piece)

        bounds = [str(first), str(last)]
        self.check_readable()
        _twice(read)

    def _sync(self) -> None:
        try:
            with open(self.path, "rb") as file:
                os.fdatasync(file.fileno())
        except OSError as error:
            raise DeviceFault(f"{NAME} cannot be synced: {error.strerror}") from None

    def stream(self, words: Sequence[str], source: int | Iterable[bytes], sink: Sink) -> int:
        """Runs a command of the program, and gives its status. Its input is a file's descriptor, or
        pieces of bytes, its output goes to `sink` in pieces as it comes. Raises Locked or
        DeviceFault where the journal could not be opened, with nothing of the input read and
        nothing given to `sink`."""
        run = self.begin(words, source)
        while piece := run.read(PIECE):
            sink(piece)
        return run.status()

    def begin(self, words: Sequence[str], source: int | Iterable[bytes], beside: bool = False) -> Run:
        """Begins a command of the program, as `stream` does; its output is then read from what it
        gives. With `beside` the pieces are sent while the output is read, for a command that
        answers before it has read all."""
        from .scripts import is_file, pieces

        if words[0] != "sample":
            self.check_writable()
        if isinstance(source, int) and words[0] not in ("run", "sample") and not is_file(source):
            source = pieces(source)
        given: int | Iterable[bytes] = source if isinstance(source, int) else iter(source)
        ends, tries, is_told = time.monotonic() + (self.wait or 0.0), 0, False
        while not (run := Run(self, words, given, beside)).is_open():
            held = self.is_held()
            tries = 0 if held else tries + 1
            may_open = not os.path.exists(self.path) or os.access(self.path, os.R_OK | os.W_OK)
            if tries > _TRIES or not may_open or os.path.isdir(self.path):
                raise DeviceFault(self.device_reason())
            if held and self.wait is not None and time.monotonic() >= ends:
                raise Locked(self.holder())
            if held and not is_told and self.on_wait is not None:
                is_told = True
                self.on_wait(self.holder())
            time.sleep(_PAUSE)
        return run

    def device_reason(self) -> str:
        """Why the disk failed, where the system tells, else an empty text."""
        if os.path.isdir(self.path):
            return f"{NAME} is a folder"
        is_there = os.path.exists(self.path)
        if is_there and not os.access(self.path, os.R_OK | os.W_OK):
            return f"{NAME} may not be read and written here; ./timeline ask needs to read alone"
        if not is_there and not os.access(self.folder, os.W_OK):
            return "this folder may not be written"
        with suppress(OSError):
            left = os.statvfs(self.folder)
            return "the disk is full" if left.f_bavail * left.f_frsize < 65536 else ""
        return ""


class Look:
    """A copy in memory of the journal as it was when this was opened. With names it answers queries
    alone, each under the names of its columns; without, it takes commits too, and forgets them."""

    def __init__(self, journal: Journal, with_names: bool = True) -> None:
        self._journal, self._with_names = journal, with_names
        self._process: subprocess.Popen[bytes] | None = None
        self._phases = 0
        self._file: tuple[int, ...] = ()
        self._settled = False
        self.catalog: Catalog | None = None      # what was asked of it already: queries.py keeps it
        self.types: dict[tuple[str, str], Kind] = {}

    def is_fresh(self) -> bool:
        """Whether the file is still the one that was read, and a further phase may be asked."""
        may_ask = self._process is not None and self._phases < MOST_PHASES - 1
        return may_ask and self._settled and self._file == self._seen()

    def _seen(self) -> tuple[int, ...]:
        with suppress(OSError):
            at = os.stat(self._journal.path)
            return (at.st_dev, at.st_ino, at.st_size, at.st_mtime_ns)
        return ()

    def _open(self) -> subprocess.Popen[bytes]:
        import subprocess

        self._file = self._seen()
        self._settled = bool(self._file) and abs(time.time() - self._file[3] / 1e9) > _SETTLED
        self._phases = 0
        word = "--names" if self._with_names else "run"
        return self._journal.start(["timeline_look", word], subprocess.PIPE)

    def ask(self, statements: Sequence[bytes]) -> list[Reply]:
        """The replies to some statements, one phase; a statement is one line, with its block where
        it has one."""
        if self._process is None:
            return _twice(lambda: self._ask(statements))
        return self._ask(statements)

    def _ask(self, statements: Sequence[bytes]) -> list[Reply]:
        self._process = self._process or self._open()
        assert self._process.stdin is not None and self._process.stdout is not None
        self._phases += 1
        asked = b"".join(b"ask> " + it + b"\n" for it in statements)
        with suppress(BrokenPipeError):
            write_all(self._process.stdin.fileno(), asked + b"GO\n")
        replies: list[Reply] = []
        for reply in read_replies(self._process.stdout, self._with_names):
            if isinstance(reply, Closing):
                raise self._ended(reply.words)
            replies.append(reply)
            if len(replies) == len(statements):
                return replies
        raise self._ended(())

    def _ended(self, words: Sequence[str]) -> TimelineError:
        process, self._process = self._process, None
        assert process is not None and process.stdin is not None
        process.stdin.close()
        return self._journal.fault(cleanup.end(process), words)

    def close(self) -> None:
        """Ends the program."""
        if self._process is not None:
            self._ended(())


class Run:
    """A command of the program that runs: its output, and then its status.

    Pieces are sent once the program has its journal, and nothing of them is taken before that. So a
    program that writes no more than `! device` has opened its journal where it was sent anything,
    or has read of its file: then the disk failed, and what it read is not given to a second one."""

    def __init__(self, journal: Journal, words: Sequence[str], given: int | Iterable[bytes],
                 beside: bool) -> None:
        import subprocess
        import threading

        from .scripts import is_file

        stdin = given if isinstance(given, int) else subprocess.PIPE
        self._file = given if isinstance(given, int) and is_file(given) else None
        self._begun = self._place()
        self._process = journal.start(["timeline", *words], stdin)
        assert self._process.stdout is not None
        self._output = self._process.stdout
        self._first, self._is_sent = b"", False
        self._error: OSError | TimelineError | None = None
        if isinstance(given, int):
            return
        try:
            self._is_sent = self._has_lock(journal)
            if self._is_sent and beside:
                threading.Thread(target=self._send, args=(given,), daemon=True).start()
            else:
                self._send(given if self._is_sent else ())
        except BaseException:      # a signal too: the program is not to take what was sent for all
            self._process.kill()
            self.status()
            raise

    def _place(self) -> int:
        """From where the program reads its file next."""
        return 0 if self._file is None else os.lseek(self._file, 0, os.SEEK_CUR)

    def _has_lock(self, journal: Journal) -> bool:
        """Waits until the program has the lock, so that a script may be made of what the journal is
        then; False where it ends without."""
        begun = time.monotonic()
        while self._process.poll() is None:
            holder, passed = journal.holder(), time.monotonic() - begun
            if holder is not None and holder.process == self._process.pid:
                break
            if passed > _STARTING or passed > _OPENING and _sleeps(self._process.pid):
                break
            time.sleep(0.001)
        return self._process.returncode is None

    def _send(self, given: Iterable[bytes]) -> None:
        """Writes all pieces to the program, up to where it ends. Where a piece cannot be made, the
        program is killed before it sees an end of its input, and `status` raises why."""
        assert self._process.stdin is not None
        try:
            for piece in given:
                write_all(self._process.stdin.fileno(), piece)
        except BrokenPipeError:
            pass
        except (OSError, TimelineError) as error:
            self._error = error
            self._process.kill()
        finally:
            self._process.stdin.close()

    def is_open(self) -> bool:
        """Whether the journal was opened, or need not be; where not, the program has ended and read
        nothing."""
        while len(self._first) <= len(_UNOPENED) and _UNOPENED.startswith(self._first):
            piece = self._output.read(PIECE)
            if not piece:
                break
            self._first += piece
        if self._first != _UNOPENED or self._is_sent or self._place() != self._begun:
            return True
        self.status()
        return False

    def read(self, size: int, /) -> bytes:
        """The next piece of the output, of at most so many bytes; empty at its end."""
        if self._first:
            piece, self._first = self._first[:size], self._first[size:]
            return piece
        return self._output.read(size)

    def is_waiting(self) -> bool:
        """Whether a piece was read that was not given yet."""
        return bool(self._first)

    def fileno(self) -> int:
        """The descriptor of the output, to be waited for."""
        return self._output.fileno()

    def status(self) -> int:
        """Waits for the end, and gives the status. Raises what kept the input from being given."""
        self._output.close()
        status = cleanup.end(self._process)
        if self._error is not None:
            raise self._error
        if status == ILLEGAL:
            raise CheckFailed()
        return 4 if status == 128 + signal.SIGPIPE else status


def _twice(work: Callable[[], T]) -> T:
    """Does a look again where a writer was too quick for a reader, which shows as damage."""
    try:
        return work()
    except Damaged:
        return work()


def _sleeps(process: int) -> bool:
    """Whether a process waits for something other than a processor or the disk."""
    with suppress(OSError), open(f"/proc/{process}/stat", "rb") as file:
        return file.read().rpartition(b") ")[2].startswith(b"S")
    return True


def _holder(process: int) -> Holder:
    text = ""
    with suppress(OSError), open(f"/proc/{process}/cmdline", "rb") as file:
        words = file.read().rstrip(b"\0").split(b"\0")
        text = b" ".join([os.path.basename(words[0]), *words[1:]]).decode("utf-8", "replace")
    return Holder(process, "".join(it if it.isprintable() else "?" for it in text[:200]))


def _closing_words(output: bytes) -> tuple[str, ...]:
    last = output.rstrip(b"\n").rpartition(b"\n")[2].decode("utf-8", "replace")
    return tuple(last[2:].split(" ")) if last.startswith("! ") else ()
