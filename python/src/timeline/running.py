"""The commands that pass a script to the program: init, run, group, transact, watch, sample and try."""
from __future__ import annotations

import os

from .errors import UsageError

TYPE_CHECKING = False
if TYPE_CHECKING:
    import argparse

    from .cli import Call
    from .journal import Journal

HINT = "see ./timeline --help"


def init(call: Call) -> int:
    """Makes an empty journal in this folder."""
    call.parser().parse_args(call.words)
    journal = call.journal()
    journal.init()
    if call.options.stamp:
        state_moment(journal, call)
    return 0


def state_moment(journal: Journal, call: Call) -> None:
    """States the present second, as a unit of its own."""
    from .notes import Cause, transact

    transact(journal, "stamp", lambda unit: iter(()), Cause(stamp=True), call.console.say)


def add_engine_options(parser: argparse.ArgumentParser) -> None:
    """The options of the program itself."""
    import argparse

    class Once(argparse.Action):
        """An option that stands at most once."""

        def __call__(self, parser: argparse.ArgumentParser, given: argparse.Namespace, value: object, option: str | None = None) -> None:
            if getattr(given, self.dest) is not None:
                parser.error(f"{option} stands twice")
            setattr(given, self.dest, value)

    parser.add_argument("--workers", type=_number(1, 64), action=Once)
    parser.add_argument("--every", type=_number(0, 16_777_216), action=Once)


def _number(least: int, most: int) -> type[int]:
    class Bounded(int):
        """A number in digits alone, within bounds."""

        def __new__(cls, text: str) -> Bounded:
            if not text.isascii() or not text.isdigit() or len(text.lstrip("0")) > 9 or not least <= int(text) <= most:
                raise ValueError(text)
            return super().__new__(cls, text)

    return Bounded


def engine_words(given: argparse.Namespace) -> list[str]:
    """The program's own options as it takes them."""
    words = []
    for name in ("workers", "every"):
        if getattr(given, name) is not None:
            words += [f"--{name}", str(getattr(given, name))]
    return words


def run(call: Call) -> int:
    """Runs a script over the journal in this folder: run, group and transact."""
    parser = call.parser()
    parser.add_argument("file", nargs="?")
    if call.word == "run":
        add_engine_options(parser)
    given = parser.parse_args(call.words)
    return run_script(call, call.journal(), [call.word] + (engine_words(given) if call.word == "run" else []), given.file)


def watch(call: Call) -> int:
    """Runs a script as a group, and has the program say after each commit what an aggregate is."""
    parser = call.parser()
    parser.add_argument("text")
    parser.add_argument("file", nargs="?")
    given = parser.parse_args(call.words)
    return run_script(call, call.journal(), ["watch", given.text], given.file)


def sample(call: Call) -> int:
    """Runs the program's own jobs, which it makes from two numbers, over no journal."""
    parser = call.parser()
    parser.add_argument("rows", type=_number(1, 1_000_000))
    parser.add_argument("start")
    add_engine_options(parser)
    given = parser.parse_args(call.words)
    if not given.start.isascii() or not given.start.isdigit() or int(given.start) >= 1 << 64:
        raise UsageError("sample wants a number below 2^64 to start with")
    return run_script(call, call.journal(), ["sample", str(given.rows), given.start, *engine_words(given)], None)


def try_script(call: Call) -> int:
    """Runs a script over an empty journal, which is forgotten."""
    from . import cleanup
    from .journal import Journal

    parser = call.parser()
    parser.add_argument("file", nargs="?")
    given = parser.parse_args(call.words)
    journal = Journal(cleanup.private_folder())
    journal.init()
    return run_script(call, journal, ["run"], given.file)


def run_script(call: Call, journal: Journal, words: list[str], path: str | None) -> int:
    """Runs a command of the program with a script: passes on what it writes, and says what was refused."""
    from .scripts import Script, open_input
    from .watching import FEW, Explainer, pass_on, status_of
    from .watching import watch as watch_run

    number, console, options = open_input(path), call.console, call.options
    is_typed = os.isatty(number)
    if words[0] == "run" and is_typed and console.err_is_terminal:
        console.say("a line GO sends what stands before it, Ctrl-D ends; ./timeline shell has a prompt")
    if options.stamp:
        state_moment(journal, call)
    explains = options.explain or console.err_is_terminal
    if not (explains or options.strict):
        status = pass_on(journal.begin(words, number), console)
    else:
        script = Script(number) if explains and words[0] != "sample" else None
        started = journal.begin(words, number if script is None else script.copy.source, beside=True)
        watched = words[1] if words[0] == "watch" else ""
        explainer = Explainer(console, script, journal, None if options.explain else FEW, watched) if explains else None
        shows = journal if console.err_is_terminal and not is_typed else None
        status, count = watch_run(started, console, explainer, shows, words[0] == "watch")
        if count.refused:
            console.say(count.sentence() + (": nothing was kept" if status == 12 else ""))
        status = status_of(status, count, options.strict)
    if status == 2:
        console.say(HINT)
    if status == 5 and journal.device_reason():
        console.say(journal.device_reason())
    return status
