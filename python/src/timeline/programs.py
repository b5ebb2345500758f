"""Which of the programs `timeline`, `timeline_log` and `timeline_look` runs: a proved one of these sources, or else one
that is checked as it runs; building.py makes either. It may not write to standard output, and never proves anything.

The programs stand, in this order of choice: in the folder that TIMELINE_PROGRAMS names; in `programs/` beside this
front, where it was installed; in crates/NAME/out, proved; in out/checked, by the checksum of their sources."""
from __future__ import annotations

import os
import time
from typing import Iterator, Mapping, NamedTuple, Protocol

from .errors import NOT_BUILT, ProgramFault

NAMES = ("timeline", "timeline_log", "timeline_look")
ROOT = os.path.abspath(os.path.join(os.path.dirname(__file__), "../../.."))
CHECKED = os.path.join(ROOT, "out/checked")
PLAIN = "x86-64-v2"      # the kind of processor that a program is for where it was not built for another
_DAY = 24 * 3600


class Listener(Protocol):
    """Who is told which program runs, and how far the making of one is."""

    @property
    def err_is_terminal(self) -> bool:
        """Whether what is said is shown on a terminal."""

    def say(self, text: str, /) -> None:
        """Says a sentence."""

    def progress(self, text: str, /) -> None:
        """Shows how far the making is, in place of what was shown before."""


class _Nobody:
    """Tells nobody: what a library does that is imported."""

    err_is_terminal = False

    def say(self, text: str, /) -> None:
        """Says nothing."""

    def progress(self, text: str, /) -> None:
        """Shows nothing."""


console: Listener = _Nobody()      # cli.py sets it
_is_told = False                   # whether this process has said which program runs


class Program(NamedTuple):
    """A program that is there: its path, whether it was proved, is checked as it runs, or was given by TIMELINE_PROGRAMS, and
    what is written of how it was made."""

    path: str
    kind: str
    record: Mapping[str, str]


class _Size(NamedTuple):
    """What tells one state of a file, or of some files, from another without reading them."""

    number: int
    bytes: int
    time: int

    def __str__(self) -> str:
        return "-".join(map(str, self))


def is_installed() -> bool:
    """Whether this front stands where `install` put it, with its programs and no sources."""
    return os.path.isdir(os.path.join(ROOT, "programs"))


def unproved() -> str:
    """What is said of a program that is checked as it runs."""
    return "checked as it runs" + ("; it is not proved" if is_installed() else "; ./timeline build proves it")


def program(name: str) -> str:
    """The path of a program, which is made first where it is not there and can be. ProgramFault where it is not and cannot."""
    global _is_told
    found = find(name) or _made(name)
    if found.kind == "checked" and not _is_told and (console.err_is_terminal or _is_first_today()):
        console.say(unproved())
    _is_told = _is_told or found.kind == "checked"
    return found.path


def find(name: str) -> Program | None:
    """The program that runs as things are, None where it has to be made first."""
    folder = os.environ.get("TIMELINE_PROGRAMS")
    if folder or is_installed():
        return _in_folder(os.path.join(folder or os.path.join(ROOT, "programs"), name), "given" if folder else "")
    total = source_sum(name)
    proved = _proved(name, total)
    if proved and suits(proved.record):
        return proved
    path = checked_path(name, total)
    checked = read_record(path)
    return Program(path, "checked", checked) if checked and suits(checked) else None


def _in_folder(path: str, kind: str) -> Program:
    record = read_record(path, bool(kind)) or {}
    path = os.path.abspath(path)
    if not os.access(path, os.X_OK) or os.path.isdir(path):
        raise ProgramFault(NOT_BUILT, f"{path} is no program that can be run")
    if not suits(record):
        raise ProgramFault(NOT_BUILT, f"{path} is for another kind of processor, {record['processor']}, than this one")
    return Program(path, kind or record.get("kind", "checked"), record)


def _made(name: str) -> Program:
    """Makes a program, checked as it runs; where no kit is here, one of earlier sources has to do."""
    from . import building

    if building.kit() is not None:
        building.make_checked(name)
        found = find(name)
        if found:
            return found
        raise ProgramFault(NOT_BUILT, f"{name} was made, and is not there")
    older = _older(name)
    if older is None:
        raise ProgramFault(NOT_BUILT, building.NO_KIT)
    console.say(f"the sources are newer than the program {older.path}, and {building.NO_KIT}")
    return older


def _older(name: str) -> Program | None:
    places = [proved_path(name), *(it for _, it in checked_paths(name))]
    found = [(path, read_record(path)) for path in places if os.access(path, os.X_OK)]
    return next((Program(path, it.get("kind", "checked"), it) for path, it in found if it and suits(it)), None)


def proved_path(name: str) -> str:
    """Where the prover leaves a program."""
    return os.path.join(ROOT, "crates", name, "out", name)


def checked_path(name: str, total: str) -> str:
    """Where the program of the sources with this checksum stands that is checked as it runs."""
    return os.path.join(CHECKED, f"{name}-{total[:16]}")


def checked_paths(name: str) -> list[tuple[float, str]]:
    """The programs of any sources that are checked as they run, the last one first, each with the time when it was made."""
    try:
        found = [it for it in os.scandir(CHECKED) if it.name.rpartition("-")[0] == name and "." not in it.name]
    except OSError:
        return []
    return sorted(((it.stat().st_mtime, it.path) for it in found), reverse=True)


def _proved(name: str, total: str) -> Program | None:
    """The proved program, where its code is that of these sources; one of which nothing is written is not called proved."""
    path = proved_path(name)
    if not os.access(path, os.X_OK):
        return None
    record = read_record(path)
    return Program(path, "proved", record) if record and record.get("sources") == total else None


def read_record(path: str, looks: bool = True) -> dict[str, str] | None:
    """What was written of how a program was made, None where nothing was, or, where it `looks`, another program stands there now:
    one with another checksum, which is not taken again of a file that was not touched since."""
    try:
        with open(path + ".built", encoding="utf-8") as file:
            record = dict(line.rstrip("\n").partition(" ")[::2] for line in file)
        if not looks or record.get("file") == str(_size_of(os.stat(path))):
            return record
        return record if record.get("program") == _sum_of_file(path) else None
    except (OSError, UnicodeDecodeError):
        return None


def write_record(path: str, record: Mapping[str, str]) -> None:
    """Writes how a program was made, beside it; OSError where that cannot be written."""
    lines = {**record, "file": str(_size_of(os.stat(path))), "program": _sum_of_file(path)}
    with open(path + ".built.new", "w", encoding="utf-8") as file:
        file.writelines(f"{key} {value}\n" for key, value in lines.items())
    os.replace(path + ".built.new", path + ".built")


def _size_of(found: os.stat_result) -> _Size:
    return _Size(1, found.st_size, found.st_ctime_ns)


def _sum_of_file(path: str) -> str:
    import hashlib

    with open(path, "rb") as file:
        return hashlib.sha256(file.read()).hexdigest()


def crates_of(name: str) -> list[str]:
    """The crates of the repository that a program is made of, itself the first."""
    needs: dict[str, list[str]] = {}
    with open(os.path.join(ROOT, "crates.txt"), encoding="utf-8") as file:
        for line in file:
            head, colon, rest = line.partition(":")
            if colon and not line.startswith("#"):
                needs[head.split()[0]] = rest.split()
    found = [name]
    for it in found:
        found += [one for one in needs.get(it, []) if one in needs and one not in found]
    return found


def files_of(name: str, parts: tuple[str, ...] = ("src",), top: str = ROOT) -> Iterator[os.DirEntry[str]]:
    """The files and folders of a program's sources: of these parts of each crate that it is made of, below a folder."""
    folders = [os.path.join(top, "crates", crate, part) for crate in crates_of(name) for part in parts]
    while folders:
        try:
            entries = list(os.scandir(folders.pop()))
        except FileNotFoundError:
            continue
        for entry in entries:
            yield entry
            if entry.is_dir():
                folders.append(entry.path)


def source_size(name: str) -> _Size:
    """What tells whether a program's sources have changed: their number, their bytes, and when the last change was made."""
    number = size = last = 0
    for entry in files_of(name):
        found = entry.stat()
        number, size, last = number + 1, size + found.st_size, max(last, found.st_ctime_ns)
    return _Size(number, size, last)


def source_sum(name: str) -> str:
    """The checksum of a program's code. It is kept, and taken anew where the sources have changed since."""
    size, kept = str(source_size(name)), os.path.join(CHECKED, f"{name}.sum")
    try:
        with open(kept, encoding="ascii") as file:
            seen, total = file.read().split()
        if seen == size:
            return total
    except (OSError, ValueError):
        pass
    from . import building

    return building.keep_sum(name, size, kept)


def suits(record: Mapping[str, str]) -> bool:
    """Whether a program can run on the processor that is here, as far as the system tells."""
    kind = record.get("processor", PLAIN)
    return kind == PLAIN or kind == processor() or not _flags()


def processor() -> str:
    """The kind of processor that is here: x86-64-v3 where it has all that this one asks for, and else x86-64-v2."""
    has = _flags()
    wanted = set("avx avx2 bmi1 bmi2 f16c fma movbe xsave".split())
    return "x86-64-v3" if wanted <= has and has & {"abm", "lzcnt"} else PLAIN


def _flags() -> set[str]:
    """What the processor has; nothing where the system does not tell. (avx stands there only where its registers are kept.)"""
    try:
        with open("/proc/cpuinfo", encoding="utf-8", errors="replace") as file:
            return set(next((line for line in file if line.startswith("flags")), "").split())
    except OSError:
        return set()


def _is_first_today() -> bool:
    """Whether nothing was said today of which program runs; it is taken down that something was."""
    cache = os.environ.get("XDG_CACHE_HOME") or os.path.expanduser("~/.cache")
    folder = CHECKED if not is_installed() else os.path.join(cache, "timeline")
    told = os.path.join(folder, "told")
    try:
        if time.time() - os.stat(told).st_mtime < _DAY:
            return False
    except OSError:
        pass
    try:
        os.makedirs(folder, exist_ok=True)
        with open(told, "w", encoding="ascii"):
            return True
    except OSError:
        return True
