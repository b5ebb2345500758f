"""The commands install and package: the front and the programs below a folder, or in a tar, to run with no sources and no kit.

The page of the manual is made of help.txt and FORMATS.md, and the completions of the commands that cli.py has. It writes
below the folder that is named, and starts nothing."""
from __future__ import annotations

import os
import re
import shutil
from typing import TYPE_CHECKING, Iterator

from . import cleanup, explaining, programs
from .errors import NOT_BUILT, ProgramFault, TimelineError

if TYPE_CHECKING:
    import tarfile

    from .cli import Call
    from .programs import Program

HERE = os.path.dirname(os.path.abspath(__file__))
PAGE = "share/man/man1/timeline.1"
COMPLETIONS = "share/bash-completion/completions/timeline"
_COLUMN = 29     # where in help.txt what a word does begins
_BASH = """# Completions of the command timeline for bash.
_timeline() {{
    local word=${{COMP_WORDS[COMP_CWORD]}} at command=
    for ((at = 1; at < COMP_CWORD; at++)); do
        [[ ${{COMP_WORDS[at]}} == -* ]] || {{ command=${{COMP_WORDS[at]}} && break; }}
    done
    COMPREPLY=()
    if [[ $word == -* ]]; then
        mapfile -t COMPREPLY < <(compgen -W "{options}" -- "$word")
    elif [[ -z $command ]]; then
        mapfile -t COMPREPLY < <(compgen -W "{commands}" -- "$word")
    elif [[ " load sync rows history diff " == *" $command "* && at -eq $((COMP_CWORD - 1)) ]]; then
        mapfile -t COMPREPLY < <(compgen -W "$("${{COMP_WORDS[0]}}" tables --csv 2>/dev/null | sed '1d; s/,.*//' | sort -u)" -- "$word")
    fi
}}
complete -o default -F _timeline timeline ./timeline
"""


def _programs() -> dict[str, Program]:
    """The three programs that run, made where they are not there."""
    found = {}
    for name in programs.NAMES:
        programs.program(name)
        one = programs.find(name)
        if one is None:
            raise ProgramFault(NOT_BUILT, f"the sources of {name} have changed, and it was not made anew")
        found[name] = one
    return found


def _kind(found: dict[str, Program]) -> str:
    """`proved` where all programs are, else `checked`."""
    return "proved" if all(it.record.get("kind") == "proved" for it in found.values()) else "checked"


def install(call: Call) -> int:
    """Puts the programs, the front, the page of the manual and the completions below a folder."""
    parser = call.parser()
    parser.add_argument("prefix")
    prefix = os.path.abspath(parser.parse_args(call.words).prefix)
    found = _programs()
    _install(prefix, found)
    call.console.say(f"installed as {prefix}/bin/timeline, with programs that are {'proved' if _kind(found) == 'proved' else 'checked as they run'}")
    return 0


def _install(prefix: str, found: dict[str, Program]) -> None:
    """Lays all out below a folder. TimelineError where that cannot be written."""
    try:
        _lay_out_below(prefix, found)
    except OSError as error:
        raise TimelineError(f"{error.filename or prefix} cannot be written: {error.strerror}") from None


def _lay_out_below(prefix: str, found: dict[str, Program]) -> None:
    """Lays all out in a folder beside the one that is there, and then takes its place, so that none is there by half."""
    library = os.path.join(prefix, "lib/timeline")
    os.umask(0o022)      # all may run what is installed, whatever of their own others may not see
    for folder in ("bin", "lib", os.path.dirname(PAGE), os.path.dirname(COMPLETIONS)):
        os.makedirs(os.path.join(prefix, folder), exist_ok=True)
    new = cleanup.private_folder(os.path.join(prefix, "lib"))
    _lay_out(os.path.join(new, "timeline"), found)
    if os.path.isdir(library):
        os.rename(library, os.path.join(new, "old"))
    os.rename(os.path.join(new, "timeline"), library)
    cleanup.remove(new)
    link = os.path.join(prefix, "bin/timeline")
    if os.path.lexists(link):
        os.remove(link)
    os.symlink("../lib/timeline/timeline", link)
    _write(os.path.join(prefix, PAGE), "".join(f"{it}\n" for it in manual(found)))
    _write(os.path.join(prefix, COMPLETIONS), completions())


def _lay_out(root: str, found: dict[str, Program]) -> None:
    package = os.path.join(root, "python/src/timeline")
    shutil.copytree(HERE, package, ignore=shutil.ignore_patterns("__pycache__"))
    shutil.copyfile(explaining.formats_path(), os.path.join(package, "FORMATS.md"))
    shutil.copy(os.path.join(programs.ROOT, "timeline"), os.path.join(root, "timeline"))
    os.mkdir(os.path.join(root, "programs"))
    for name, one in found.items():
        path = os.path.join(root, "programs", name)
        shutil.copyfile(one.path, path)
        os.chmod(path, 0o755)
        programs.write_record(path, one.record)
    _compile(package)
    _open_to_all(root)


def _open_to_all(root: str) -> None:
    """Has all users read, and pass or run, what was copied of files that may be their owner's alone."""
    for at, _, names in os.walk(root):
        for path in (at, *(os.path.join(at, it) for it in names)):
            os.chmod(path, 0o755 if os.stat(path).st_mode & 0o100 else 0o644)


def _compile(package: str) -> None:
    """Compiles the front for the python3 that is here: whoever runs it may not be let write beside it."""
    import compileall
    import py_compile

    compileall.compile_dir(package, quiet=2, stripdir=package, invalidation_mode=py_compile.PycInvalidationMode.UNCHECKED_HASH)


def _write(path: str, text: str) -> None:
    with open(path, "w", encoding="utf-8") as file:
        file.write(text)


def package(call: Call) -> int:
    """Makes a tar of what `install` lays out, in this folder, and prints its name."""
    parser = call.parser()
    parser.add_argument("--checked", action="store_true")
    given = parser.parse_args(call.words)
    found = _programs()
    kind, record = _kind(found), found["timeline"].record
    if kind != "proved" and not given.checked:
        raise ProgramFault(NOT_BUILT, "the programs are not proved: ./timeline build, or package --checked for these")
    commit = record.get("commit", "").replace(" and changes", "-changed") or "no-commit"
    name = f"timeline-{kind}-{commit}-{record.get('processor', programs.PLAIN)}"
    folder = cleanup.private_folder()
    _install(os.path.join(folder, name), found)
    try:
        _pack(folder, name, f"{name}.tar.gz")
    except OSError as error:
        raise TimelineError(f"{name}.tar.gz cannot be written: {error.strerror}") from None
    call.console.line(f"{name}.tar.gz")
    return 0


def _pack(folder: str, name: str, path: str) -> None:
    import tarfile

    def owned_by_none(entry: tarfile.TarInfo) -> tarfile.TarInfo:
        """An entry of the archive without the owner that its file has here."""
        entry.uid = entry.gid = 0
        entry.uname = entry.gname = ""
        return entry

    with tarfile.open(f"{path}.new", "w:gz", format=tarfile.PAX_FORMAT) as tar:
        tar.add(os.path.join(folder, name), name, filter=owned_by_none)
    os.replace(f"{path}.new", path)


# The page of the manual, and completions

def _text(name: str) -> str:
    with open(explaining.formats_path() if name == "FORMATS.md" else os.path.join(HERE, name), encoding="utf-8") as file:
        return file.read()


def manual(found: dict[str, Program]) -> Iterator[str]:
    """The lines of the page of the manual: what help.txt says, and the statuses of FORMATS.md."""
    paragraphs = _text("help.txt").rstrip("\n").split("\n\n")
    made = f"{_kind(found)}, commit {found['timeline'].record.get('commit', 'unknown')}"
    yield f'.TH TIMELINE 1 "" "{made}" "User Commands"'
    yield from (".SH NAME", rf"timeline \- {_roff(paragraphs[0].partition(' ')[2].rstrip('.'))}")
    yield from (".SH SYNOPSIS", r".B timeline", r"[\fIOPTION\fR]... \fICOMMAND\fR [\fIWORD\fR]...", ".SH DESCRIPTION")
    for paragraph in paragraphs[1:]:
        yield ".PP"
        yield from _entries(paragraph) if paragraph.startswith("  ") else (_roff(it) for it in paragraph.split("\n"))
    yield ".SH EXIT STATUS"
    formats = _text("FORMATS.md").split("\n## Statuses and closing lines\n")[1].split("\n## ")[0]
    for status, when in re.findall(r"^\| (\d+) \| (.*?) \|", formats, re.M):
        yield from (".TP", rf"\fB{status}\fR", _roff(when))


def _entries(paragraph: str) -> Iterator[str]:
    """The lines of a paragraph of words and what they do, each with its further lines."""
    for line in paragraph.split("\n"):
        head, text = ("", line.strip()) if line.startswith("   ") else (line.strip(), "")
        if head and line[_COLUMN - 1:_COLUMN] == " " and line[_COLUMN:_COLUMN + 1].isalnum():
            head, text = line[:_COLUMN].strip(), line[_COLUMN:]
        if head:
            yield from (".TP", rf"\fB{_roff(head.replace('./timeline', 'timeline'))}\fR")
        if text:
            yield _roff(text)


def _roff(text: str) -> str:
    """A line of text as the page has it, with what stands between backquotes in bold."""
    text = text.replace("\\", r"\e").replace("-", r"\-")
    text = re.sub(r"`([^`]*)`", r"\\fB\1\\fR", text)
    return text if not text.startswith((".", "'")) else r"\&" + text


def completions() -> str:
    """The completions for bash."""
    from .cli import COMMANDS

    options = sorted(set(re.findall(r"--[a-z-]+", _text("help.txt"))))
    return _BASH.format(commands=" ".join(sorted(COMMANDS)), options=" ".join(options))
