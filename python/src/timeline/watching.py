"""What stands beside a run: it passes the replies on, says which statements were refused and why, and how far the run is.

It looks at the replies as they come; a run that nobody watches is passed on unread."""
from __future__ import annotations

import select
import time

from .errors import REFUSED, ProgramFault
from .explaining import explain_block, explain_closing, explain_statement, explain_unknown
from .replies import PIECE, Closing, Fault, NotStored, Ok, Refusal, Rows, read_replies

TYPE_CHECKING = False
if TYPE_CHECKING:
    from .console import Console
    from .journal import Journal, Run
    from .replies import Reply
    from .scripts import Script

FEW = 20          # so many refusals are explained on a terminal where all are not asked for


class Passing:
    """The output of a run, which is written to the console as it is read; each second it says how far the run is."""

    def __init__(self, run: Run, console: Console, journal: Journal | None) -> None:
        self.run, self.console, self.journal = run, console, journal
        self.commits, self.next = 0, time.monotonic() + 1.0

    def read(self, size: int, /) -> bytes:
        """The next piece, once it is written."""
        while self.journal is not None:
            if self.run.is_waiting() or select.select([self.run], [], [], max(0.0, self.next - time.monotonic()))[0]:
                break
            self.next = time.monotonic() + 1.0
            self.console.progress(f"{self.commits} commits answered, {self.journal.size()} bytes in the journal")
        piece = self.run.read(size)
        if piece:
            self.console.progress("")
            self.console.write(piece)
        return piece


class Explainer:
    """Says why statements of a script were refused, as they are: all, or the first few; and why what was to be `watched` was."""

    def __init__(self, console: Console, script: Script | None, journal: Journal, most: int | None, watched: str = "") -> None:
        self.console, self.script, self.journal, self.most, self.watched = console, script, journal, most, watched
        self.left_out = 0

    def refused(self, number: int, fault: Fault) -> None:
        """Explains the statement with a number, where it is one of the first."""
        if self.most == 0:
            self.left_out += 1
            return
        if self.most is not None:
            self.most -= 1
        self.console.tell("\n".join(self._lines(number, fault)))

    def _lines(self, number: int, fault: Fault) -> list[str]:
        found = self.script.statement(number) if self.script is not None else None
        if found is None or self.script is None:
            return explain_unknown(fault, f"statement {number}")
        line, text = found
        if fault.record is None:
            return explain_statement(text, fault, f"line {line}")
        missing = missing_column(self.journal, text.decode("utf-8", "replace"), fault)
        return explain_block(text, fault, f"line {line}", self.script.record(fault.record, fault.field), missing)

    def closing(self, words: tuple[str, ...]) -> None:
        """Explains how a run ended before its input did."""
        if words[0] == "watch" and len(words) > 1:
            fault = Fault(words[1], tuple(int(it) for it in words[2:]))
            self.console.tell("\n".join(explain_statement(self.watched.encode("utf-8", "surrogateescape"), fault, "what is watched")))
            return
        named = words[0] == "script" and self.script is not None and words[-1].isdigit()
        line = self.script.line(int(words[-1])) if named and self.script is not None else None
        self.console.tell("\n".join(explain_closing(words, line)))

    def end(self) -> None:
        """Says how many were not explained."""
        if self.left_out:
            self.console.say(f"{self.left_out} more were refused: --explain tells all")


def missing_column(journal: Journal, statement: str, fault: Fault) -> str:
    """The column that a block's header leaves out, where the fault says so and the journal tells."""
    from .errors import TimelineError
    from .listing import columns_of

    words = statement.replace(";", " ").split()
    if fault.name != "HeaderMissing" or len(words) < 2:
        return ""
    try:
        columns = columns_of(journal, words[1])
    except TimelineError:
        return ""
    wanted = [it.name for it in columns if it.is_key or words[0] != "REMOVE"]
    wanted += ["valid_from", "valid_to"] if any(it.is_valid for it in columns) else []
    place = fault.numbers[0]
    return wanted[place - 1] if 0 < place <= len(wanted) else ""


class Count:
    """How many statements were answered, and how many of them refused."""

    def __init__(self) -> None:
        self.answered = self.refused = 0

    def sentence(self) -> str:
        """Says so."""
        return f"{self.refused} of {self.answered} statements {'was' if self.refused == 1 else 'were'} refused"


def pass_on(run: Run, console: Console) -> int:
    """Passes on a run that nobody watches, and gives its status."""
    piece = run.read(PIECE)
    while piece:
        console.write(piece)
        piece = run.read(PIECE)
    return run.status()


def watch(run: Run, console: Console, explainer: Explainer | None, journal: Journal | None, is_watch: bool) -> tuple[int, Count]:
    """Passes on a run and looks at its replies: gives its status and the count. `journal` is given where progress is shown, and
    `is_watch` where a line of what is watched comes after each commit."""
    passing, count = Passing(run, console, journal), Count()
    committed = False
    try:
        for reply in read_replies(passing, keep=False):
            if isinstance(reply, Closing):
                if explainer is not None:
                    explainer.closing(reply.words)
            elif not (committed and isinstance(reply, Rows)):
                _take(reply, count, passing, explainer)
            committed = is_watch and isinstance(reply, Ok)
    except ProgramFault:
        while passing.read(PIECE):
            pass
    status = run.status()
    console.progress("")
    if explainer is not None:
        explainer.end()
    return status, count


def _take(reply: Reply, count: Count, passing: Passing, explainer: Explainer | None) -> None:
    count.answered += 1
    passing.commits += isinstance(reply, Ok)
    fault = None
    if isinstance(reply, Refusal):
        count.refused += 1
        fault = reply.fault
    elif isinstance(reply, NotStored):
        fault = Fault("broken" if reply.broken else "device")
    if fault is not None and explainer is not None:
        explainer.refused(count.answered, fault)


def status_of(status: int, count: Count, strict: bool) -> int:
    """What the command ends with."""
    return REFUSED if strict and status == 0 and count.refused else status
