"""The commands load, import and sync: their words, and what they print of what came of a sheet."""
from __future__ import annotations

import io
import os
import time

from .errors import Refused, UsageError
from .replies import Fault

TYPE_CHECKING = False
if TYPE_CHECKING:
    import argparse
    from typing import Iterable

    from .cli import Call
    from .console import Console
    from .notes import Cause, Outcome
    from .sheets import Sheet


def _pairs(words: Iterable[str], option: str) -> dict[str, str]:
    """Options of columns, each `column=value`."""
    found: dict[str, str] = {}
    for word in words:
        name, equals, value = word.partition("=")
        if not equals or name in found:
            raise UsageError(f"{option} is column=value, once for each column, and not {word}")
        found[name] = value
    return found


def _parsed(call: Call, *flags: str, key: bool = False) -> argparse.Namespace:
    """The words of a command on a sheet: its table and file, the options that all of them have, and its own."""
    from .running import add_engine_options
    from .sheets import is_name

    parser = call.parser()
    parser.add_argument("table")
    parser.add_argument("file", nargs="?", default="-")
    parser.add_argument("--missing", action="append", default=[], metavar="COLUMN=VALUE")
    if key:
        parser.add_argument("--key", action="append", required=True)
        parser.add_argument("--kind", action="append", default=[], metavar="COLUMN=KIND")
    if call.word == "load":
        add_engine_options(parser)
    for flag in flags:
        parser.add_argument(flag, action="store_true")
    parsed = parser.parse_intermixed_args(call.words)
    if key and len(parsed.key) != 1:
        raise UsageError(f"a table has one key, and not {', '.join(parsed.key)}")
    if key and parsed.table.startswith("timeline_"):
        raise UsageError("tables whose names begin with timeline_ are the command's own")
    if not is_name(parsed.table):
        raise UsageError(f"{parsed.table} is no name of a table: letters, digits and _, at most 64, and no word of the language")
    return parsed


class _Watched(io.BufferedReader):
    """The file of a sheet, of which it is said each second on a terminal how much was read."""

    def __init__(self, sheet: Sheet, console: Console) -> None:
        super().__init__(io.FileIO(os.dup(sheet.file.fileno())))
        self._sheet, self._console, self._next = sheet, console, time.monotonic() + 1.0
        self._size = sheet.size() or 1

    def _tell(self) -> None:
        if time.monotonic() >= self._next:
            self._next = time.monotonic() + 1.0
            self._console.progress(f"{self._sheet.name}: {self.tell() * 100 // self._size} % read")

    def read(self, size: int | None = -1, /) -> bytes:
        """As of every such file."""
        self._tell()
        return super().read(size)

    def read1(self, size: int = -1, /) -> bytes:
        """As of every such file."""
        self._tell()
        return super().read1(size)


def _sheet(call: Call, file: str) -> Sheet:
    from .sheets import open_sheet

    sheet = open_sheet(None if file == "-" else file)
    if call.console.err_is_terminal:
        sheet.file = _Watched(sheet, call.console)
    return sheet


def _cause(call: Call, sheet: Sheet) -> Cause:
    from .notes import cause_of

    options = call.options
    return cause_of(options.by, options.because, sheet.name, options.stamp)


def _print(call: Call, outcome: Outcome) -> None:
    call.console.progress("")
    for reply in outcome.replies:
        call.console.line(str(reply))


def _tell(call: Call, statement: str, sheet: Sheet, refused: Refused) -> None:
    """Says why a sheet was refused and in which line, and shows the record that is meant where that is wanted."""
    from .explaining import explain_sheet
    from .scripts import Copy
    from .watching import missing_column

    record = refused.place.record if refused.place else None
    if call.options.explain or call.console.err_is_terminal:
        lines = Copy(sheet.file.fileno(), 0, sheet.start).lines()
        missing = missing_column(call.journal(), statement, Fault(refused.kind, refused.numbers))
        call.console.tell("\n".join(explain_sheet(f"the {call.word}", statement, refused, lines, missing)))
    elif record is not None and not refused.sentence:
        fault = Fault(refused.kind, refused.numbers)
        call.console.say(f"the {call.word} was refused: {fault}: line {sheet.line_of(record)} of {sheet.name}, record {record}")
    elif call.word != "load" or refused.sentence:          # else the reply has said it
        call.console.tell("\n".join(explain_sheet(f"the {call.word}", statement, refused, None, "")))


def load(call: Call) -> int:
    """Puts the records of a sheet into a table."""
    from .loads import load as load_sheet

    words = _parsed(call)
    sheet = _sheet(call, words.file)
    try:
        _print(call, load_sheet(call.journal(), words.table, sheet, _cause(call, sheet), _pairs(words.missing, "--missing"), call.console.say))
    except Refused as refused:
        call.console.line(f"load @{refused.version} ! {Fault(refused.kind, refused.numbers)}")
        _tell(call, f"PUT {words.table}", sheet, refused)
        call.console.say("1 of 1 statements was refused: nothing was loaded")
        return 0 if call.options.lenient else refused.status
    return 0


def import_(call: Call) -> int:
    """Makes a table of a sheet, and puts its records into it."""
    from .loads import Reading, import_sheet, plan

    words = _parsed(call, "--valid", "--dry-run", key=True)
    sheet = _sheet(call, words.file)
    try:
        reading = Reading(words.valid, _pairs(words.kind, "--kind"), _pairs(words.missing, "--missing"))
        made = plan(words.table, sheet, words.key[0], reading, call.console.say)
        done = None if words.dry_run else import_sheet(call.journal(), made, _cause(call, sheet), call.console.say)
    except Refused as refused:
        _tell(call, f"PUT {words.table}", sheet, refused)
        call.console.say("nothing was made")
        return refused.status
    call.console.progress("")
    call.console.line(made.create(stored=False))
    if done is None:
        call.console.say(f"{made.records} records would be put into it; nothing was made")
    else:
        _print(call, done)
    return 0


def sync(call: Call) -> int:
    """Brings a table to what a sheet says."""
    from .loads import Syncing
    from .loads import sync as sync_sheet

    words = _parsed(call, "--keep", "--dry-run", "--allow-removals")
    sheet = _sheet(call, words.file)
    try:
        options = Syncing(words.keep, words.allow_removals, words.dry_run, _pairs(words.missing, "--missing"))
        done = sync_sheet(call.journal(), words.table, sheet, _cause(call, sheet), options, call.console.say)
    except Refused as refused:
        _tell(call, f"SYNC {words.table}", sheet, refused)
        call.console.say("nothing was changed")
        return refused.status
    found = done.difference
    call.console.progress("")
    call.console.line(f"{found.new} new, {found.changed} changed, {len(found.gone)} gone, {found.same} unchanged")
    if words.dry_run:
        call.console.say("nothing was changed")
    elif done.outcome is None:
        call.console.say("nothing differs: no version was made")
    return 0
