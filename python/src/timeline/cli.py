"""The command `timeline`: words to calls, exceptions to sentences and statuses. This alone ends the process.

Each command is a function that is handed a Call and gives a status; it stands in the module that COMMANDS names, which is
imported when it is called."""
from __future__ import annotations

import os
import sys

from . import cleanup, programs
from .console import Console
from .errors import Refused, TimelineError, UsageError

TYPE_CHECKING = False
if TYPE_CHECKING:
    import argparse
    from typing import NoReturn, Sequence

    from .journal import Journal

_RUNS = "strict explain stamp wait"
_SHEETS = _RUNS + " by because"
# Each command's module and function, and which of the options it takes.
COMMANDS = {
    "ask": ("asking:ask", "strict explain"),
    "build": ("building:build", ""),
    "clean": ("building:clean", ""),
    "diff": ("changes:diff_command", ""),
    "export": ("export:export", ""),
    "follow": ("copying:follow", "explain wait"),
    "group": ("running:run", _RUNS),
    "install": ("installing:install", ""),
    "history": ("changes:history_command", ""),
    "init": ("running:init", "stamp wait"),
    "import": ("sheet_commands:import_", _SHEETS),
    "load": ("sheet_commands:load", _SHEETS + " lenient"),
    "log": ("listing:log", ""),
    "package": ("installing:package", ""),
    "plot": ("plots:plot", "explain"),
    "report": ("report:report", ""),
    "rows": ("listing:rows", ""),
    "run": ("running:run", _RUNS),
    "sample": ("running:sample", "strict explain"),
    "seal": ("sealing:seal", ""),
    "shell": ("shell:shell", "strict explain stamp wait by because"),
    "ship": ("copying:ship", "explain"),
    "sync": ("sheet_commands:sync", _SHEETS),
    "tables": ("listing:tables", ""),
    "test": ("testing:test", ""),
    "transact": ("running:run", _RUNS),
    "try": ("running:try_script", "strict explain"),
    "watch": ("running:watch", _RUNS),
    "--version": ("building:version", ""),
}
HINT = "see ./timeline --help"


class Options:
    """What may stand before, or after, every command's word."""

    def __init__(self) -> None:
        self.strict = self.lenient = self.explain = False
        self.stamp: bool | None = None       # None: as the command has it
        self.wait: float | None = 0.0        # seconds, None for ever
        self.by = self.because = ""
        self.given: list[str] = []           # the names of those that were given

    def refuse_others(self, command: str, taken: str) -> None:
        """Raises UsageError for an option that was given and is none of those that a command takes."""
        for name in self.given:
            if name not in taken.split():
                raise UsageError(f"--{name} is no option of {command}")


class Call:
    """One call of a command: its word, the words after it, the options, and where it writes."""

    def __init__(self, word: str, words: list[str], options: Options, console: Console) -> None:
        self.word, self.words, self.options, self.console = word, words, options, console

    def parser(self) -> argparse.ArgumentParser:
        """A parser for the words after the command's; it raises UsageError."""
        import argparse

        class Parser(argparse.ArgumentParser):
            def error(self, message: str) -> NoReturn:
                """Raises what argparse would end the process for."""
                raise UsageError(message)

        return Parser(prog=f"timeline {self.word}", add_help=False, allow_abbrev=False)

    def journal(self) -> Journal:
        """The journal of this folder, which is waited for as the options say."""
        from .journal import Journal

        waits = self.options.wait is None or self.options.wait > 0
        return Journal(".", self.options.wait, (lambda holder: self._waiting(holder)) if waits else None)

    def _waiting(self, holder: object) -> None:
        self.console.say("another program has this journal" + (f": {holder}" if holder else "") + "; waiting until it ends")


_OPTIONS = frozenset("--strict --lenient --explain --stamp --no-stamp --wait --by --because".split())


def take_options(words: Sequence[str]) -> tuple[Options, list[str]]:
    """The options that stand in front of the command's word or after it, and the words that are left."""
    options, left = Options(), []
    given = list(words)
    while given:
        word, equals, value = given.pop(0).partition("=")
        if word in _OPTIONS:
            options.given.append("stamp" if word == "--no-stamp" else word[2:])
        if word in ("--strict", "--lenient", "--explain") and not equals:
            setattr(options, word[2:], True)
        elif word in ("--stamp", "--no-stamp") and not equals:
            options.stamp = word == "--stamp"
        elif word == "--wait":
            value = value if equals else given.pop(0) if given and given[0].isdigit() else ""
            options.wait = _seconds(value) if equals or value else None
        elif word in ("--by", "--because"):
            if not equals and not given:
                raise UsageError(f"{word} wants a word")
            setattr(options, word[2:], value if equals else given.pop(0))
        else:
            left.append(word + equals + value)
    return options, left


def _seconds(text: str) -> float:
    if not text.isascii() or not text.isdigit() or len(text) > 9:
        raise UsageError(f"--wait wants a number of seconds, and not {text}")
    return float(text)


def _command(call: Call) -> int:
    import importlib

    if call.word not in COMMANDS:
        raise UsageError(_unknown(call.word))
    (module, _, function), taken = COMMANDS[call.word][0].partition(":"), COMMANDS[call.word][1]
    call.options.refuse_others(call.word, taken)
    status = getattr(importlib.import_module(f".{module}", __package__), function)(call)
    assert isinstance(status, int)
    return status


def _unknown(word: str) -> str:
    import difflib

    near = difflib.get_close_matches(word, list(COMMANDS), 1)
    if word[:1] == "-":
        return f"{word} is no option"
    return f"{word} is no command" + (f": did you mean {near[0]}?" if near else "")


def _main(words: Sequence[str], console: Console) -> int:
    """Runs the command that the words name, and says why where it could not be done."""
    try:
        options, left = take_options(words)
        if not left:
            raise UsageError("")
        if left[0] in ("-h", "--help", "help"):
            with open(os.path.join(os.path.dirname(os.path.abspath(__file__)), "help.txt"), "rb") as page:
                console.write(page.read())
            return 0
        return _command(Call(left[0], left[1:], options, console))
    except TimelineError as error:
        console.tell(_told(error))
        if isinstance(error, UsageError):
            console.say(HINT)
        if error.closing:
            console.line(f"! {error.closing}")
        return error.status


def _told(error: TimelineError) -> str:
    """What is said of an error; of a query that was refused its text too, with a caret."""
    if isinstance(error, Refused) and error.statement and not error.sentence:
        from .explaining import explain_statement
        from .replies import Fault
        from .statements import encode

        fault = Fault(error.kind, error.numbers)
        return "\n".join(explain_statement(encode(error.statement), fault, "the query", error.advice))
    lines = [f"timeline: {error}" if str(error) else "", f"    {error.advice}" if error.advice else ""]
    return "\n".join(filter(None, lines))


def run(words: Sequence[str], console: Console) -> int:
    """As `_main`, with what the command began undone, and signals and a failing output looked at."""
    try:
        try:
            programs.console = console
            cleanup.handle_signals()
            cleanup.sweep(os.environ.get("TMPDIR") or "/tmp")
            return _main(words, console)
        finally:
            cleanup.undo()
    except cleanup.Stopped as stopped:
        return 128 + stopped.number
    except TimelineError as error:
        return error.status


def _open_what_is_closed() -> None:
    """An input or an output that is not open is one that fails: otherwise the next file would take its place."""
    for number, path, flags in ((0, os.devnull, os.O_WRONLY), (1, "/dev/full", os.O_WRONLY), (2, "/dev/null", os.O_WRONLY)):
        try:
            os.fstat(number)
        except OSError:
            os.set_inheritable(os.open(path, flags), True)


def entry() -> NoReturn:
    """Ends the process with the status of the command that its words name."""
    _open_what_is_closed()
    words = [os.fsencode(it).decode("utf-8", "surrogateescape") for it in sys.argv[1:]]
    try:
        status = run(words, Console())
    except cleanup.Stopped as stopped:
        status = 128 + stopped.number
    os._exit(status)
