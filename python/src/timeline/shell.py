"""The command shell: statements as they are typed, each done when its `;` comes.

A query goes to a look that is opened again when the journal has changed; what makes a commit takes the lock, is kept or
refused, and lets the lock go. Where the input is no terminal the shell is a filter that passes over nothing in silence:
what is cut off is refused by name. prompting.py has the prompt of a terminal."""
from __future__ import annotations

import io
import os
import signal

from . import cleanup
from .errors import REFUSED, DeviceFault, OutputFault, Refused, ScriptFault, SourceFault, TimelineError, UsageError
from .statements import BATCHES, BLOCKS, Statement, decode, encode, statements_of, tokens

TYPE_CHECKING = False
if TYPE_CHECKING:
    from typing import Iterator, Protocol

    from .cli import Call
    from .listing import Listing
    from .notes import Unit
    from .sheets import Sheet

    class Lines(Protocol):
        """What is typed, line by line; `line` is the number of the first line of the last statement, from 1."""

        is_terminal: bool
        line: int

        def statement(self) -> str | None:
            """The next lines up to where a statement, or a word of the shell, is whole; None at the end."""

        def row(self) -> bytes | None:
            """The next line of a block without its LF; None at the end."""


WORDS = "\\d [TABLE] (or \\tables), \\log, \\put TABLE FILE, \\help [WORD] and \\q (or quit)"
_PIECE = 1 << 18
_COMMENT = ("#", "--")


def is_whole(text: str) -> bool:
    """Whether what was typed can be done: it ends with `;` outside of texts, is a word of the shell, or is empty."""
    bare = text.strip()
    if not bare or bare[0] == "\\" or bare in ("quit", "exit") or bare.startswith(_COMMENT):
        return True
    return bare.endswith(";") and bare.count("'") % 2 == 0


class PipedLines:
    """Lines of a pipe or a file, as they are: bytes that are no UTF-8, and NULs, stay what they are."""

    is_terminal = False

    def __init__(self, number: int) -> None:
        self._file = open(number, "rb", _PIECE, closefd=False)
        self.line, self._read = 1, 0

    def row(self) -> bytes | None:
        """The next line without its LF, None at the end; a last line without LF counts. SourceFault where it cannot be read."""
        try:
            line = self._file.readline()
        except OSError as error:
            raise SourceFault(f"reading the input failed: {error.strerror}") from None
        self._read += 1
        return (line[:-1] if line.endswith(b"\n") else line) if line else None

    def statement(self) -> str | None:
        """Lines up to where a statement is whole; what stands at the end without its `;` is one too. Raises CutOff where the input
        ends within a text."""
        lines: list[str] = []
        quotes, self.line, begun = 0, self._read + 1, 0
        while (row := self.row()) is not None:
            line = decode(row.rstrip(b"\r"))
            lines.append(line)
            if len(lines) == 1 and is_whole(line):
                return line
            if line.count("'") % 2:
                quotes, begun = quotes + 1, self._read
            if quotes % 2 == 0 and line.rstrip().endswith(";"):
                break
        if quotes % 2:
            raise CutOff("OpenText", begun, "the text", "a single quote", "nothing from its statement on")
        return "\n".join(lines) if lines else None


class CutOff(ScriptFault):
    """The input ended before the end of a statement, a block or a text that began in a line: nothing of it was done."""

    def __init__(self, kind: str, line: int, what: str, wanted: str, lost: str) -> None:
        super().__init__(kind, line)
        self.what, self.wanted, self.lost = what, wanted, lost

    def __str__(self) -> str:
        return f"{self.what} that begins in line {self.line} has no end, {self.wanted}: {self.lost} was done"


class Shell:
    """What the shell does with each statement; `status` is what it ends with."""

    def __init__(self, call: Call, lines: Lines, is_look: bool) -> None:
        self.call, self.console, self.lines, self.is_look = call, call.console, lines, is_look
        self.journal, self.status, self.refused = call.journal(), 0, 0
        self._is_trial, self._steps = False, 0

    def run(self) -> int:
        """Does one statement after the other up to the end, and gives the status."""
        while self._step():
            self._steps += 1
        self.journal.close()
        if not self._steps and not self.lines.is_terminal:
            self.console.say("the input is empty: nothing was done")
        return REFUSED if self.refused and not self.status and self.call.options.strict else self.status

    def _step(self) -> bool:
        """Does the next statement, False where there is none. On a terminal Ctrl-C ends it, and not the shell, and so does a fault."""
        try:
            text = self.lines.statement()
            if text is None or text.strip() in ("quit", "exit", "\\q"):
                return False
            self.do(text)
        except OutputFault:
            raise
        except TimelineError as error:
            if not self.lines.is_terminal:
                raise
            self.console.say(str(error) or f"! {error.closing}")
            if error.advice:
                self.console.tell(f"    {error.advice}")
        except cleanup.Stopped as stopped:
            if stopped.number != signal.SIGINT or not self.lines.is_terminal:
                raise
            cleanup.go_on()
            self.journal.close()
            self.console.say("stopped; what was not answered is not kept, or shows in the next answer")
        return True

    def do(self, text: str) -> None:
        """Does what was typed up to a `;`: a word of the shell, or statements."""
        bare = text.strip()
        if bare.startswith("\\"):
            self._word(bare.split())
        elif bare and not bare.startswith(_COMMENT):
            for statement in statements_of(text):
                self._one(statement, text)

    def _one(self, statement: Statement, text: str) -> None:
        block = self._block(statement, text) if statement.word in BLOCKS else b""
        try:
            if statement.word not in BATCHES:
                self._ask(statement)
            else:
                self._begin_trial()
                self._commit(statement, block)
        except Refused as refused:
            self._explain(refused, statement, text, block)

    def _begin_trial(self) -> None:
        """Where the shell only looks: goes on over a copy of the journal, in which what is put is kept up to the shell's end."""
        import shutil

        from .journal import NAME, Journal

        if not self.is_look or self._is_trial:
            return
        folder = cleanup.private_folder()
        try:
            shutil.copyfile(self.journal.path, os.path.join(folder, NAME))
        except OSError as error:
            raise DeviceFault(f"the journal cannot be copied among the temporary files: {error.strerror}") from None
        self.journal.close()
        self.journal, self._is_trial = Journal(folder), True

    def _block(self, statement: Statement, text: str) -> bytes:
        """The block of a statement, up to a line `\\.`. Raises CutOff where the input ends in it."""
        rows: list[bytes] = []
        while True:
            row = self.lines.row()
            if row is None:
                first, _, more = statement.text.strip().partition("\n")
                wanted = "`;`" if more else "a line \\. alone"
                raise CutOff("BlockOpen", self._line(statement, text), first if more else f"the block of {first}", wanted, "nothing of it")
            if row in (b"\\.", b"\\.\r"):
                return b"".join(rows)
            rows.append(row + b"\n")

    def _ask(self, statement: Statement) -> None:
        from .queries import ask_look

        (result,) = ask_look(self.journal.look(), [statement])
        if isinstance(result, Refused):
            raise result
        if not self.console.out_is_terminal:
            result.write_csv(self.console)
            return
        shown = io.BytesIO()
        result.write_table(shown)
        shown.write(b"(%d row%s)\n" % (result.count, b"" if result.count == 1 else b"s"))
        self._show(shown.getvalue())

    def _show(self, text: bytes) -> None:
        """Writes what may be longer than the terminal is high."""
        if self.lines.is_terminal:
            from .prompting import page

            page(text, self.console)
        else:
            self.console.write(text)

    def _commit(self, statement: Statement, block: bytes) -> None:
        """Keeps what a statement makes, and prints its version."""
        from .loads import put_sheet, target_of
        from .notes import batch, cause_of, prepared_batch, transact
        from .sheets import NotRaw

        options = self.call.options
        stamp = False if self.is_look or statement.word == "MOMENT" else options.stamp
        cause = cause_of(options.by, options.because, "", stamp)
        prepared = prepared_batch(statement)[0]
        sent = decode(prepared.sent)
        words = sent.split()

        def body(unit: Unit, raw: bool) -> Iterator[bytes]:
            """The pieces of the statement, with its block as it was typed where that is wanted."""
            if statement.word not in BLOCKS:
                yield from batch(unit, statement)
            elif len(words) != 2:
                yield unit.begin(sent) + block + b"\\.\n"
            else:
                sheet = _sheet_of(block, f"the block of {statement.text}")
                yield from put_sheet(unit, target_of(unit.state, words[1], sheet), raw, words[0])

        try:
            outcome = transact(self.journal, "shell", lambda unit: body(unit, True), cause, self.console.say)
        except NotRaw:
            outcome = transact(self.journal, "shell", lambda unit: body(unit, False), cause, self.console.say)
        except Refused as refused:
            if refused.place is not None and refused.place.offset is not None and refused.number:
                refused.numbers = (prepared.typed_offset(refused.place.offset), *refused.numbers[1:])
            raise
        self.console.line(f"@{outcome.version} ok")

    def _line(self, statement: Statement, text: str) -> int:
        """The line in which a statement of what was typed begins."""
        return self.lines.line + encode(text)[:statement.start].count(b"\n")

    def _explain(self, refused: Refused, statement: Statement, text: str, block: bytes) -> None:
        """Says why a statement was refused."""
        from .explaining import explain_sheet, explain_statement
        from .replies import Fault

        self.refused += 1
        label = "this" if self.lines.is_terminal else f"line {self._line(statement, text)}"
        if refused.place is not None and refused.place.record:
            lines = explain_sheet(label, statement.text, refused, io.BytesIO(block), "")
        else:
            lines = explain_statement(encode(statement.text), Fault(refused.kind, refused.numbers), label, refused.advice)
        self.console.tell("\n".join(lines))

    def _word(self, words: list[str]) -> None:
        """What a word that begins with `\\` does."""
        from .listing import shown_log, shown_tables

        word = words[0]
        if word in ("\\d", "\\tables") and len(words) <= 2:
            self._listing(shown_tables(self.journal, words[1] if len(words) == 2 else ""))
        elif word == "\\log" and len(words) == 1:
            self._listing(shown_log(self.journal))
        elif word == "\\put" and len(words) == 3:
            self._put(words[1], words[2])
        elif word == "\\help" and len(words) <= 2:
            self._help(words[1] if len(words) == 2 else "")
        else:
            self.console.say(f"there are {WORDS}")

    def _listing(self, rows: Listing) -> None:
        from .answers import write_table

        shown = io.BytesIO()
        write_table(rows, shown)
        self._show(shown.getvalue())

    def _put(self, table: str, path: str) -> None:
        """Puts a file into a table, as `load` does."""
        from .loads import load
        from .notes import cause_of
        from .sheets import is_name, open_sheet

        if not is_name(table):
            raise UsageError(f"{table} is no name of a table")
        self._begin_trial()
        options = self.call.options
        sheet = open_sheet(path)
        stamp = False if self.is_look else options.stamp
        try:
            outcome = load(self.journal, table, sheet, cause_of(options.by, options.because, sheet.name, stamp), {}, self.console.say)
            self.console.line(f"@{outcome.version} ok")
        except Refused as refused:
            from .explaining import explain_sheet

            self.refused += 1
            self.console.tell("\n".join(explain_sheet(path, f"PUT {table}", refused, None, "")))
        finally:
            sheet.close()

    def _help(self, word: str) -> None:
        """The statements, as the page of help has them."""
        with open(os.path.join(os.path.dirname(__file__), "help.txt"), encoding="utf-8") as file:
            page = file.read()
        _, first, after = page.partition("\n  CREATE TABLE t ")
        shown, is_shown = [], False
        for line in (first[1:] + after).partition("\n\n")[0].split("\n"):
            if line[2:3] != " ":
                is_shown = word in ("", line.split()[0])
            if is_shown:
                shown.append(line)
        self.console.write(encode("\n".join([*shown, f"  Words of the shell: {WORDS}" if not word else ""]).rstrip() + "\n"))


def _sheet_of(block: bytes, name: str) -> Sheet:
    from .sheets import Sheet

    return Sheet(io.BytesIO(block), name)


def shell(call: Call) -> int:
    """Statements from a terminal by a prompt, or from a pipe as they come."""
    parser = call.parser()
    parser.add_argument("--look", action="store_true")
    is_look = parser.parse_args(call.words).look
    lines: Lines = PipedLines(0)
    if os.isatty(0):
        from .prompting import prompt_lines

        lines = prompt_lines(call)
    shell_of = Shell(call, lines, is_look)
    shell_of.journal.check_readable()
    shell_of.journal.look().ask([b"S"])
    if not is_look and not os.access(shell_of.journal.path, os.W_OK):
        raise DeviceFault("timeline.tlj may not be written here: shell --look only reads it")
    return shell_of.run()
