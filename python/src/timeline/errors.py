"""What can go wrong, as exceptions with fields, and the sentence for each: the one place that words them.

Nothing here prints, ends the process or looks at the journal."""
from __future__ import annotations

from typing import NamedTuple, Sequence

REFUSED, SEAL_BROKEN, CHECK_FAILED, NOT_BUILT, LOCKED = 20, 21, 22, 125, 13
ILLEGAL = 132     # the status of a program that signal 4 ended, which is how a check that fails ends one


class Holder(NamedTuple):
    """The process that has a journal's lock: its number, and its command as far as the system tells, else empty."""

    process: int
    command: str

    def __str__(self) -> str:
        return f"process {self.process}" + (f", {self.command}" if self.command else "")


class Place(NamedTuple):
    """Where in what was typed a fault stands: a byte offset, or in a block a record and a field from 1; None is unknown."""

    offset: int | None = None
    record: int | None = None
    field: int | None = None


class TimelineError(Exception):
    """Anything that keeps a command from being done.

    `status` is what the command ends with, `closing` the last line that it writes without its `! ` (empty where it
    writes none), and `advice` says what to do, or is empty."""

    status = 1
    closing = ""
    advice = ""


class UsageError(TimelineError):
    """Words that are none of the command's."""

    status, closing = 2, "usage"


class Refused(TimelineError):
    """A statement, or a sheet, that was refused: nothing of it is kept.

    `kind` is the fault's name and `numbers` its numbers, `statement` the text as it was typed,
    `place` where in it, and `advice` what to do. `sentence` is what the front says of a fault that
    it found itself, else empty. `number` is which statement, from 1, of those that were given (0 is
    one that the front added), and `version` that of the journal over which it was refused."""

    status = REFUSED

    def __init__(self, kind: str, numbers: Sequence[int] = (), statement: str = "",
                 place: Place | None = None, sentence: str = "", advice: str = "") -> None:
        self.kind, self.numbers, self.statement = kind, tuple(numbers), statement
        self.place, self.advice, self.sentence = place, advice, sentence
        self.number, self.version = 1, 0
        super().__init__(sentence or "refused: " + " ".join([kind, *map(str, self.numbers)]))

    def over(self, version: int, number: int = 1) -> Refused:
        """The same of the statement with a number, over a version of the journal."""
        self.number, self.version = number, version
        return self


class NoJournal(TimelineError):
    """No journal is in the folder, or a file of `size` bytes that is less than one."""

    status = 7
    advice = "./timeline init makes one in this folder; from Python, timeline.open(folder, create=True)"

    def __init__(self, size: int = 0) -> None:
        self.size, self.closing = size, f"journal NotInitialised {size}"
        super().__init__("no journal is here")


class AlreadyThere(TimelineError):
    """A journal is in the folder already, with `size` bytes."""

    status = 8

    def __init__(self, size: int) -> None:
        self.size, self.closing = size, f"journal AlreadyInitialised {size}"
        super().__init__("there is a journal in this folder, and it stays as it is")


class Damaged(TimelineError):
    """The file is no journal from byte `offset` on."""

    status = 9

    def __init__(self, offset: int = 0) -> None:
        self.offset, self.closing = offset, f"journal Damaged {offset}"
        super().__init__(f"the file is no journal from byte {offset} on")


class DeviceFault(TimelineError):
    """The disk, or the file on it, failed; `reason` says how, where that is known."""

    status, closing = 5, "device"

    def __init__(self, reason: str = "") -> None:
        self.reason = reason
        super().__init__(reason or "the disk failed")


class Locked(TimelineError):
    """Another program has the journal: `holder`, where the system tells."""

    status, closing = LOCKED, "locked"

    def __init__(self, holder: Holder | None = None) -> None:
        self.holder = holder
        super().__init__("another program has this journal" + (f": {holder}" if holder else ""))


class SourceFault(TimelineError):
    """Reading the input failed."""

    status, closing = 3, "source"


class OutputFault(TimelineError):
    """Writing the output failed."""

    status = 4


class ScriptFault(TimelineError):
    """A phase of a script is ill-formed: `kind` is the fault's name and `line` the line's number."""

    status = 6

    def __init__(self, kind: str, line: int) -> None:
        self.kind, self.line, self.closing = kind, line, f"script {kind} {line}"
        super().__init__(f"line {line} of the script: {kind}")


class OutOfMemory(TimelineError):
    """The program had not enough memory."""

    def __init__(self) -> None:
        super().__init__("out of memory")


class PacketFault(TimelineError):
    """At byte `offset` of what was to be followed no packet begins, or one whose commit does not fit."""

    status = 10

    def __init__(self, offset: int) -> None:
        self.offset, self.closing = offset, f"packet {offset}"
        super().__init__(f"no packet that fits begins at byte {offset}")


class ProgramFault(TimelineError):
    """A program is missing (status 125), or ended in a way that is none of its own: `said` is what it said."""

    def __init__(self, status: int, said: str) -> None:
        self.status, self.said = status, said
        super().__init__(said or f"the program ended with {status}")


class CheckFailed(TimelineError):
    """A check failed as the program ran, which ended it: an index, a sum, a cast or a tag out of its bounds, in code that is not proved."""

    status = CHECK_FAILED
    advice = "what was answered before stands; ./timeline build finds the fault: such code is not proved"

    def __init__(self) -> None:
        super().__init__("a check failed as the program ran, and ended it")


def from_closing(status: int, words: Sequence[str]) -> TimelineError:
    """The error of a program that ended with a status, after a closing line `! ` and these words."""
    number = int(words[-1]) if words and words[-1].isdigit() else 0
    what = words[0] if words else ""
    if what == "journal":
        if words[1] == "NotInitialised":
            return NoJournal(number)
        return AlreadyThere(number) if words[1] == "AlreadyInitialised" else Damaged(number)
    if what == "script":
        return ScriptFault(words[1], number)
    if what == "packet":
        return PacketFault(number)
    if what == "rows":
        return Refused(words[1], sentence=f"no table is called {words[2]}" if len(words) > 2 else "no table has this name")
    if what == "device":
        return DeviceFault()
    if what == "source":
        return SourceFault("reading the input failed")
    if status == ILLEGAL:
        return CheckFailed()
    if status == 1:
        return OutOfMemory()
    if status == 4:
        return OutputFault("writing the output failed")
    return ProgramFault(status, " ".join(["!", *words]) if words else "")
