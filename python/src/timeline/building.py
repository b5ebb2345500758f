"""Makes the programs: checked as they run, in minutes, by `rt try`'s compiler with an optimizer; or proved, by `rt ci`.

It starts the kit's processes, writes below out/ and crates/*/out alone, and says how far it is; it runs no journal."""
from __future__ import annotations

import fcntl
import glob
import hashlib
import os
import re
import select
import shlex
import shutil
import subprocess
import sys
import time
from contextlib import contextmanager
from typing import TYPE_CHECKING, Iterator

from . import cleanup, programs
from .errors import NOT_BUILT, ProgramFault

if TYPE_CHECKING:
    from .cli import Call

NO_KIT = "the command rt, which makes the programs, is not here: it comes with the Rattle kit"
PROOF_TIME, PROOF_ROOM = "about an hour", "10 GB"     # all three from nothing, on four processors; README.md and the help say so too
_OFTEN, _SELDOM = 15, 60     # seconds between two lines that say how far a proof is, where no terminal is
_NO_SOURCES = ("out", "must-fail")     # of the folder of a crate
ALL = ("src", "specs", "proofs")
_KEPT = 3                # so many programs of other sources stay, beside those of these
_MEMORY = 2_000_000      # KiB that one compilation may take
_ENDED = "\nthe compiler was ended from outside, as the system does where memory is short: it takes up to 2 GB for each program"
# What stands in for the kit's compiler: it optimizes, and leaves the sanitizer out, and the checks in.
_CLANG = """#!/bin/sh
for word do
    shift
    case $word in
        -O0) word=-O1 ;;
        -fsanitize=address) continue ;;
        -march=x86-64) word=-march={processor} ;;
    esac
    set -- "$@" "$word"
done
exec {kit}/toolchain/bin/clang "$@"
"""
# What stands in for its linker: it leaves out the sanitizer's library, the one whole archive, and keeps the program.
_LINKER = """#!/bin/sh
skip= out= before=
for word do
    shift
    [ "$before" = -o ] && out=$word
    before=$word
    case $word in
        --whole-archive) skip=yes && continue ;;
        --no-whole-archive) skip= && continue ;;
    esac
    [ -n "$skip" ] || set -- "$@" "$word"
done
{kit}/toolchain/bin/ld.lld "$@" && /bin/cp "$out" {program}
"""


def kit() -> str | None:
    """The folder of the kit, None where it is not here."""
    command = shutil.which("rt")
    return os.path.dirname(os.path.dirname(os.path.realpath(command))) if command else None


def _sum_of(name: str, parts: tuple[str, ...], top: str = programs.ROOT) -> str:
    """The checksum of these parts of a program's sources, and of what crates.txt says of its crates."""
    total = hashlib.sha256(repr(programs.crates_of(name)).encode())
    for path in sorted(it.path for it in programs.files_of(name, parts, top) if it.is_file()):
        with open(path, "rb") as file:
            total.update(repr((os.path.relpath(path, top), file.read())).encode())
    return total.hexdigest()


def keep_sum(name: str, size: str, path: str) -> str:
    """The checksum of a program's code, kept in a file for as long as the sources are of this size and time."""
    total = _sum_of(name, ("src",))
    if str(programs.source_size(name)) == size:
        try:
            os.makedirs(os.path.dirname(path), exist_ok=True)
            with open(f"{path}.{os.getpid()}", "w", encoding="ascii") as file:
                file.write(f"{size} {total}\n")
            os.replace(f"{path}.{os.getpid()}", path)
        except OSError:
            return total
    return total


def _record(name: str, kind: str, processor: str, top: str = programs.ROOT) -> dict[str, str]:
    """What is to be written of a program that is made of the sources in a folder."""
    return {"kind": kind, "commit": commit(), "kit": _said_by(["rt", "version"]), "processor": processor,
            "sources": _sum_of(name, ("src",), top), "all": _sum_of(name, ALL, top)}


def _said_by(words: list[str]) -> str:
    try:
        done = subprocess.run(words, cwd=programs.ROOT, capture_output=True, text=True, stdin=subprocess.DEVNULL, check=False)
    except OSError:
        return ""
    return done.stdout.strip().partition("\n")[0] if done.returncode == 0 else ""


def commit() -> str:
    """The commit of the sources, with `and changes` where they are not as committed; empty where git does not tell."""
    if not os.path.exists(os.path.join(programs.ROOT, ".git")):
        return ""
    found = _said_by(["git", "rev-parse", "--short=12", "HEAD"])
    return found + " and changes" * bool(found and _said_by(["git", "status", "--porcelain", "--", "crates", "crates.txt"]))


# Checked as they run

@contextmanager
def _turn(name: str, waiting: str) -> Iterator[None]:
    """Lets one process at a time make a program; says meanwhile what is waited for."""
    os.makedirs(programs.CHECKED, exist_ok=True)
    begun = time.monotonic()
    with open(os.path.join(programs.CHECKED, f"{name}.lock"), "w", encoding="ascii") as lock:
        while True:
            try:
                fcntl.flock(lock, fcntl.LOCK_EX | fcntl.LOCK_NB)
                break
            except BlockingIOError:
                programs.console.progress(f"{waiting}, {time.monotonic() - begun:.0f} s")
                time.sleep(0.2)
        yield


def make_checked(name: str, alone: bool = False) -> None:
    """Makes a program that is checked as it runs, where it is not there; and, unless `alone`, has others that are not there
    made beside it, as processors and memory allow. Raises ProgramFault where the kit does not make it."""
    try:
        beside = [] if alone else _make_others(name)
    except OSError as error:
        raise ProgramFault(NOT_BUILT, f"{programs.CHECKED} cannot be written: {error.strerror}") from None
    try:
        with _turn(name, f"another command makes {name}"):
            for _ in range(2):
                if programs.find(name) is None:
                    _make(name)
    except BaseException:      # a signal too: none of those beside goes on alone
        for process in beside:
            process.terminate()
        raise


def _make_others(name: str) -> list[subprocess.Popen[bytes]]:
    """Starts what makes the other programs: one process for each, or for both. It goes on when this one has ended."""
    lacking = [it for it in programs.NAMES if it != name and programs.find(it) is None]
    count = min(len(lacking), len(os.sched_getaffinity(0)) - 1, _memory() // _MEMORY - 1)
    os.makedirs(programs.CHECKED, exist_ok=True)
    code = "import sys; sys.path.insert(0, sys.argv[1]); from timeline import building; building.make_all(sys.argv[2:])"
    started = []
    for at in range(count):
        words = [sys.executable, "-I", "-c", code, os.path.join(programs.ROOT, "python/src"), *lacking[at::count]]
        with open(os.path.join(programs.CHECKED, f"{lacking[at]}.beside"), "wb") as said:
            started.append(subprocess.Popen(words, stdin=subprocess.DEVNULL, stdout=said, stderr=said, start_new_session=True))
    return started


def make_all(names: list[str]) -> None:
    """Makes programs one by one, each where it is not there: what a process beside the first command does."""
    cleanup.handle_signals()
    try:
        for name in names:
            make_checked(name, alone=True)
    except cleanup.Stopped:
        return
    finally:
        cleanup.undo()


def _memory() -> int:
    """KiB of memory that are free, as far as the system tells."""
    try:
        with open("/proc/meminfo", encoding="ascii") as file:
            return int(re.findall(r"^MemAvailable: *(\d+)", file.read(), re.M)[0])
    except (OSError, IndexError):
        return _MEMORY


def _make(name: str) -> None:
    """Makes a program, in a folder that stands in for the kit, and puts it where it is kept."""
    total = programs.source_sum(name)
    folder = cleanup.private_folder()
    made, log = os.path.join(folder, "program"), os.path.join(programs.CHECKED, f"{name}.log")
    kind = programs.processor()
    _stand_in(folder, kind, made)
    words = [os.path.join(folder, "kit/bin/rt"), "try"]
    with open(log, "wb") as said:
        process = cleanup.start(words, os.path.join(programs.ROOT, "crates", name), subprocess.DEVNULL, said, said,
                                {**os.environ, "TMPDIR": folder})
        _follow(process, f"making {name}, checked as it runs, which takes two to three minutes")
    if not os.access(made, os.X_OK):
        end = _end_of(log)
        end += _ENDED * (end == "run=none proved=no")
        raise ProgramFault(NOT_BUILT, f"{name} was not made; {log} has all that was said, and ends so:\n{end}")
    if programs.source_sum(name) == total:
        path = programs.checked_path(name, total)
        shutil.copy(made, path + ".new")
        os.replace(path + ".new", path)
        programs.write_record(path, _record(name, "checked", kind))
        for _, older in programs.checked_paths(name)[_KEPT:]:
            for ending in ("", ".built"):
                os.remove(older + ending)
    cleanup.remove(folder)


def _stand_in(folder: str, processor: str, program: str) -> None:
    """Makes a folder `kit` that stands in for the kit: all of it but the compiler and the linker is the kit's. `rt` finds its
    kit by its own place, so it is copied. It also begins a check that gives a hint alone, for which nothing stands in."""
    real, own = kit(), os.path.join(folder, "kit")
    assert real is not None
    os.makedirs(f"{own}/bin")
    os.makedirs(f"{own}/toolchain/bin")
    links = [it for it in os.listdir(real) if it not in ("bin", "toolchain")]
    links += [f"bin/{it}" for it in os.listdir(f"{real}/bin") if it not in ("rt", "rtlib.py", "rattle")]
    links += [f"toolchain/{it}" for it in os.listdir(f"{real}/toolchain") if it != "bin"]
    links += [f"toolchain/bin/{it}" for it in os.listdir(f"{real}/toolchain/bin") if it not in ("clang", "ld.lld")]
    for it in links:
        os.symlink(f"{real}/{it}", f"{own}/{it}")
    for it in ("rt", "rtlib.py"):
        shutil.copy(f"{real}/bin/{it}", f"{own}/bin/{it}")
    texts = {"bin/rattle": "#!/bin/sh\nexit 0\n", "toolchain/bin/clang": _CLANG, "toolchain/bin/ld.lld": _LINKER}
    for it, text in texts.items():
        for key, value in {"kit": real, "processor": processor, "program": program}.items():
            text = text.replace("{" + key + "}", shlex.quote(value))
        with open(f"{own}/{it}", "w", encoding="utf-8") as file:
            file.write(text)
        os.chmod(f"{own}/{it}", 0o755)


def _follow(process: subprocess.Popen[bytes], text: str) -> None:
    """Waits for a process, and says meanwhile for how long."""
    begun = time.monotonic()
    if not programs.console.err_is_terminal:
        programs.console.say(text)
    while process.poll() is None:
        programs.console.progress(f"{text}: {time.monotonic() - begun:.0f} s")
        time.sleep(0.2)
    programs.console.progress("")
    cleanup.end(process)


def _end_of(log: str) -> str:
    with open(log, encoding="utf-8", errors="replace") as file:
        return "".join(file.readlines()[-15:]).rstrip("\n")


# Proved

class _Report:
    """How far a proof is: which crates the prover has said are proved, and which of them its processes are at work on."""

    def __init__(self, count: int) -> None:
        self.count, self.proved, self.awaited = count, 0, ""
        self.begun = self._told = time.monotonic()
        self._said = 0

    def take(self, line: str) -> None:
        """Takes a line of the prover's down, and says what it notes of the machine."""
        if re.match(r"rt: \w+ (proved$|is kept: )", line):
            self.proved, self.awaited = self.proved + 1, ""
        elif re.match(r"rt: \w+: another run on this machine is proving the same", line):
            self.awaited = line.split()[1].rstrip(":")
        elif line.startswith("rt: note: "):
            programs.console.say(line[len("rt: note: "):])

    def tell(self, process: int) -> None:
        """Says how far it is: on a terminal always, and else each minute, or after some seconds where a crate was proved since."""
        now = time.monotonic()
        crates = _under_way(process)
        does = f"at work on {', '.join(crates)}" if crates else "comparing the sources with what was proved before"
        if self.awaited and not crates:
            does = f"waiting for another run on this machine that proves {self.awaited}"
        text = f"{self.proved} of {self.count} crates proved; {does}; {(now - self.begun) / 60:.0f} minutes gone"
        programs.console.progress(text)
        if not programs.console.err_is_terminal and now - self._told >= (_OFTEN if self.proved > self._said else _SELDOM):
            self._told, self._said = now, self.proved
            programs.console.say(text)


def _under_way(process: int) -> list[str]:
    """The crates that the prover is at work on, by the processes that it has started."""
    crates = []
    for path in glob.glob(f"/proc/{process}/task/*/children"):
        for child in _text_of(path).split():
            words = _text_of(f"/proc/{child}/cmdline").split("\0")
            if "--crate-name" in words[:-1]:
                crates.append(words[words.index("--crate-name") + 1])
    return sorted(crates)


def _text_of(path: str) -> str:
    try:
        with open(path, encoding="utf-8", errors="replace") as file:
            return file.read()
    except OSError:
        return ""


def is_proved(name: str) -> bool:
    """Whether a program is there that is proved of just these sources, and can run here."""
    path = programs.proved_path(name)
    record = programs.read_record(path) if os.access(path, os.X_OK) else None
    return bool(record and programs.suits(record) and record.get("all") == _sum_of(name, ALL))


def build(call: Call) -> int:
    """Proves and builds the programs that are not proved of these sources."""
    call.parser().parse_args(call.words)
    lacking = [it for it in programs.NAMES if not is_proved(it)]
    if not lacking:
        call.console.say("all three are proved already")
        return 0
    if kit() is None:
        raise ProgramFault(NOT_BUILT, NO_KIT)
    call.console.say(f"proving {', '.join(lacking)}; from nothing all three take {PROOF_TIME} and {PROOF_ROOM} of disk")
    try:
        _prove(lacking)
    except OSError as error:
        raise ProgramFault(NOT_BUILT, f"the programs were not built: {error.filename or programs.ROOT}: {error.strerror or error}") from None
    except cleanup.Stopped:
        call.console.say("stopped; " + ("./timeline build goes on after the crates that were proved" if _keeps() else
                                        f"nothing is kept, since {_store()} may not be written: ./timeline build begins again"))
        raise
    call.console.say("all three are proved")
    return 0


def _store() -> str:
    """The folder in which the kit keeps what it has proved, for any copy of the sources on this machine."""
    return os.path.join(os.path.dirname(kit() or ""), "rattle-kept")


def _keeps() -> bool:
    return os.access(_store(), os.W_OK)


def _prove(names: list[str]) -> None:
    """Proves and builds programs by the gate's command, over a copy of the crates that they are made of, and puts them where
    proved ones are kept. ProgramFault where one is not proved, or where the sources have changed meanwhile."""
    folder = cleanup.private_folder()
    top, own = os.path.join(folder, "sources"), os.path.join(folder, "temporary")
    for it in (folder, own):
        os.makedirs(it, exist_ok=True)
        os.chmod(it, 0o711)      # as root the kit runs each program as nobody
    report = _Report(_copy_crates(names, top))
    records = {it: _record(it, "proved", programs.PLAIN, top) for it in names}
    os.makedirs(programs.CHECKED, exist_ok=True)
    log = os.path.join(programs.CHECKED, "build.log")
    status = _gate(top, own, log, report)
    made = {it: os.path.join(top, "crates", it, "out", it) for it in names}
    if status or not all(os.access(it, os.X_OK) for it in made.values()):
        raise ProgramFault(NOT_BUILT, f"not all was proved; {log} has all that was said, and ends so:\n{_end_of(log)}")
    for name in names:
        if _sum_of(name, ALL) != records[name]["all"]:
            raise ProgramFault(NOT_BUILT, f"the sources of {name} were changed while it was proved: ./timeline build")
    for name, path in made.items():
        _put(path, programs.proved_path(name), records[name])
    cleanup.remove(folder)


def _put(made: str, path: str, record: dict[str, str]) -> None:
    """Puts a program in its place, with what is written of it."""
    os.makedirs(os.path.dirname(path), exist_ok=True)
    shutil.copyfile(made, path + ".new")
    os.chmod(path + ".new", 0o755)
    os.replace(path + ".new", path)
    programs.write_record(path, record)


def _copy_crates(names: list[str], top: str) -> int:
    """Copies the crates that programs are made of, without what is made of them and without wrong bodies that are only tried,
    and gives how many they are. The kit tells them by their files alone, so what it keeps of them serves the gate too."""
    crates = list(dict.fromkeys(crate for name in names for crate in programs.crates_of(name)))
    for crate in crates:
        source = os.path.join(programs.ROOT, "crates", crate)
        shutil.copytree(source, os.path.join(top, "crates", crate), ignore=lambda at, _, own=source: _NO_SOURCES if at == own else ())
    with open(os.path.join(programs.ROOT, "crates.txt"), encoding="utf-8") as file:
        lines = [line for line in file if (line.partition(":")[0].split() or [""])[0] in crates]
    with open(os.path.join(top, "crates.txt"), "w", encoding="utf-8") as file:
        file.writelines(lines)
    shutil.copyfile(os.path.join(programs.ROOT, "HANDLES"), os.path.join(top, "HANDLES"))
    os.mkdir(os.path.join(top, ".git"))      # what stands below this is a repository of its own
    return len(crates)


def _gate(top: str, own: str, log: str, report: _Report) -> int:
    """Runs the gate in a folder, with its temporary files in another, and gives its status; all that it says is in the log."""
    process = cleanup.start(["rt", "ci"], top, subprocess.DEVNULL, subprocess.PIPE, subprocess.STDOUT, {**os.environ, "TMPDIR": own})
    assert process.stdout is not None
    rest = b""
    with open(log, "wb") as said:
        while True:
            report.tell(process.pid)
            if not select.select([process.stdout], [], [], 1)[0]:
                continue
            piece = os.read(process.stdout.fileno(), 1 << 16)
            if not piece:
                break
            said.write(piece)
            said.flush()
            *lines, rest = (rest + piece).split(b"\n")
            for line in lines:
                report.take(line.decode("utf-8", "replace"))
    programs.console.progress("")
    return cleanup.end(process)


def clean(call: Call) -> int:
    """Removes all that builds leave but the programs of these sources, and what is written of them."""
    call.parser().parse_args(call.words)
    kept = {programs.checked_path(it, programs.source_sum(it)) for it in programs.NAMES}
    kept |= {programs.proved_path(it) for it in programs.NAMES}
    kept |= {it + ".built" for it in kept}
    freed = 0
    for folder in [programs.CHECKED, *glob.glob(os.path.join(programs.ROOT, "crates/*/out"))]:
        for entry in os.scandir(folder) if os.path.isdir(folder) else ():
            if entry.path not in kept:
                freed += _removed(entry)
        if folder != programs.CHECKED and not os.listdir(folder):
            os.rmdir(folder)
    call.console.say(f"{freed >> 20} MiB are free again")
    return 0


def _removed(entry: os.DirEntry[str]) -> int:
    """Removes a file or a folder, and gives how many bytes it had on the disk."""
    if not entry.is_dir(follow_symlinks=False):
        size = entry.stat(follow_symlinks=False).st_blocks * 512
        os.remove(entry.path)
        return size
    size = sum(_removed(it) for it in os.scandir(entry.path))
    os.rmdir(entry.path)
    return size


def version(call: Call) -> int:
    """Says what the sources are, and of each program whether it is proved, and of what it was made."""
    call.parser().parse_args(call.words)
    here = f", installed in {programs.ROOT}"
    if not programs.is_installed():
        here = f", commit {commit()}" * bool(commit())
    call.console.line(f"timeline{here}")
    for name in programs.NAMES:
        call.console.line(f"{name}: {_described(name)}")
    return 0


def _described(name: str) -> str:
    try:
        found = programs.find(name)
    except ProgramFault as fault:
        return str(fault)
    if found is None:
        return "not made yet of these sources: the first command that needs it makes it, checked as it runs; ./timeline build proves it"
    record = found.record
    made = f", of commit {record.get('commit')}" * bool(record.get("commit")) + f", with {record.get('kit')}" * bool(record.get("kit"))
    made += f", for {record.get('processor')}" * bool(record.get("processor"))
    if found.kind == "given":
        return f"{found.path}, which TIMELINE_PROGRAMS gives" + (f": {record.get('kind', 'of unknown making')}{made}" if record else "")
    if found.kind == "proved" and not programs.is_installed() and record.get("all") != _sum_of(name, ALL):
        made += "; since then specs or proofs have changed: ./timeline build"
    return f"proved{made}" if found.kind == "proved" else f"{programs.unproved()}{made}"
