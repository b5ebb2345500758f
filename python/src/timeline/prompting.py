"""The prompt of a terminal: by prompt_toolkit where it is there, else by Python's own readline.

It reads and shows; what is done with a statement stands in shell.py."""
from __future__ import annotations

import os
import shutil
import signal
import sys

from . import cleanup
from .statements import encode, is_open, tokens

TYPE_CHECKING = False
if TYPE_CHECKING:
    from typing import Any, Iterable

    from .cli import Call
    from .console import Console
    from .shell import Lines

FIRST, MORE, ROW = "timeline> ", "     ...> ", "     row> "
_STYLES = {"text": "ansigreen", "number": "ansicyan", "other": "ansired"}


def history_path() -> str:
    """The file in which what was typed is kept, whose folder is made; empty where that cannot be."""
    folder = os.path.join(os.environ.get("XDG_STATE_HOME") or os.path.expanduser("~/.local/state"), "timeline")
    try:
        os.makedirs(folder, mode=0o700, exist_ok=True)
    except OSError:
        return ""
    path = os.path.join(folder, "history")
    is_there = os.path.lexists(path)
    return path if os.access(path if is_there else folder, os.W_OK) and os.path.isfile(path) == is_there else ""


def prompt_lines(call: Call) -> Lines:
    """What reads from the terminal."""
    try:
        return ToolkitLines(call)
    except ImportError:
        call.console.say("without colours and completion: Debian's package python3-prompt-toolkit has them")
        return ReadlineLines()


class Completions:
    """The words that may stand in a statement: those of the language, tables and their columns, as they were when last asked."""

    def __init__(self, call: Call) -> None:
        self._journal, self._size, self._names = call.journal(), -1, list[str]()

    def words(self) -> list[str]:
        """The words, with the names that the journal has now."""
        from .errors import TimelineError
        from .listing import tables_of
        from .sheets import KEYWORDS

        if self._journal.size() != self._size:
            self._size = self._journal.size()
            try:
                found = tables_of(self._journal)
            except TimelineError:
                found = {}
            self._names = sorted({*found, *(column.name for columns in found.values() for column in columns)})
        return [*self._names, *sorted(KEYWORDS), "SYNC", "MOMENT", "FORGET", "BEFORE", "ORDER", "LIMIT", "DESC", "DAY"]


class ToolkitLines:
    """Lines by prompt_toolkit: several for one statement, with history, colours and completion."""

    is_terminal = True
    line = 1

    def __init__(self, call: Call) -> None:
        import prompt_toolkit

        history = _history(history_path())
        self._session: prompt_toolkit.PromptSession[str] = prompt_toolkit.PromptSession(
            history=history, lexer=_lexer(), completer=_completer(Completions(call)), complete_while_typing=False,
            multiline=True, key_bindings=_bindings(), prompt_continuation=lambda *_: MORE)
        self._rows: prompt_toolkit.PromptSession[str] = prompt_toolkit.PromptSession()

    def statement(self) -> str | None:
        """What was typed up to a `;`; Ctrl-C forgets it, Ctrl-D at its start ends the shell."""
        while True:
            try:
                return _typed(self._session, FIRST)
            except KeyboardInterrupt:
                continue
            except EOFError:
                return None

    def row(self) -> bytes | None:
        """A line of a block; Ctrl-C or Ctrl-D leave the block."""
        try:
            return encode(_typed(self._rows, ROW))
        except (KeyboardInterrupt, EOFError):
            return None


def _typed(session: Any, prompt: str) -> str:
    """What is typed after a prompt. The prompt has signals its own way while it waits, and leaves them so: they are set back."""
    taken, wakes = signal.getsignal(signal.SIGINT), signal.set_wakeup_fd(-1)
    try:
        text = session.prompt(prompt)
    finally:
        signal.signal(signal.SIGINT, taken)
        signal.set_wakeup_fd(wakes, warn_on_full_buffer=False)
    assert isinstance(text, str)
    return text


def _history(path: str) -> Any:
    """What was typed before, in a file, or for as long as the shell runs where no path is given."""
    from prompt_toolkit.history import FileHistory, InMemoryHistory

    class Kept(FileHistory):
        """The file as prompt_toolkit has it; what cannot be kept is passed over, and half a character kept as `?`."""

        def store_string(self, string: str) -> None:
            """Adds what was typed to the file."""
            try:
                super().store_string(string.encode("utf-8", "replace").decode())
            except OSError:
                return

    return Kept(path) if path else InMemoryHistory()


def _bindings() -> Any:
    from prompt_toolkit.key_binding import KeyBindings

    from .shell import is_whole

    bindings = KeyBindings()

    @bindings.add("enter")
    def _(event: Any) -> None:
        buffer = event.current_buffer
        if is_whole(buffer.text):
            buffer.validate_and_handle()
        else:
            buffer.insert_text("\n")

    return bindings


def _lexer() -> Any:
    from prompt_toolkit.lexers import Lexer

    from .sheets import KEYWORDS

    class Words(Lexer):
        """Colours of the tokens of a statement; a text that goes over several lines has its colour in the first."""

        def lex_document(self, document: Any) -> Any:
            lines = document.lines

            def styled(number: int) -> list[tuple[str, str]]:
                found = []
                for token in tokens(lines[number]):
                    style = "ansiblue bold" if token.text in KEYWORDS else _STYLES.get(token.kind, "")
                    found.append(("ansiyellow" if is_open(token) else style, token.text))
                return found

            return styled

    return Words()


def _completer(completions: Completions) -> Any:
    from prompt_toolkit.completion import Completer, Completion

    class Names(Completer):
        """The words that begin as the one before the cursor, in letters of either case."""

        def get_completions(self, document: Any, event: Any) -> Iterable[Any]:
            begun = document.get_word_before_cursor()
            for word in completions.words():
                if word.lower().startswith(begun.lower()):
                    yield Completion(word, -len(begun))

    return Names()


class ReadlineLines:
    """Lines by Python's own readline, where prompt_toolkit is not there."""

    is_terminal = True
    line = 1

    def __init__(self) -> None:
        import readline  # noqa: F401

        sys.stdin = open(0, encoding="utf-8", errors="surrogateescape", closefd=False)

    def statement(self) -> str | None:
        """What was typed up to a `;`; Ctrl-C forgets it."""
        from .shell import is_whole

        text, prompt = "", FIRST
        while True:
            try:
                line = input(prompt)
            except (KeyboardInterrupt, cleanup.Stopped):
                cleanup.go_on()
                text, prompt = "", FIRST
                continue
            except EOFError:
                return None
            text += ("\n" if text else "") + line
            if is_whole(text):
                return text
            prompt = MORE

    def row(self) -> bytes | None:
        """A line of a block; Ctrl-C or Ctrl-D leave the block."""
        try:
            return encode(input(ROW))
        except (KeyboardInterrupt, EOFError, cleanup.Stopped):
            cleanup.go_on()
            return None


def page(text: bytes, console: Console) -> None:
    """Writes a text, by the pager where it is longer than the terminal is high."""
    words = (os.environ.get("PAGER") or "less").split()
    pager = shutil.which(words[0]) if words else None
    if text.count(b"\n") < shutil.get_terminal_size().lines or pager is None or not console.out_is_terminal:
        console.write(text)
        return
    before = signal.signal(signal.SIGINT, signal.SIG_IGN)       # Ctrl-C is the pager's own for as long as it runs
    try:
        cleanup.show([pager, *words[1:], *(["-S", "-R"] if os.path.basename(pager) == "less" else [])], text)
    finally:
        signal.signal(signal.SIGINT, before)
