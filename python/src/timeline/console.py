"""What a command writes and says: replies and answers on standard output, sentences on standard error.

Only cli.py makes one of standard output and standard error; every other part is handed it."""
from __future__ import annotations

import os
from contextlib import suppress

from .errors import OutputFault

CLEAR = "\r\x1b[K"


def write_all(number: int, data: bytes) -> None:
    """Writes all of some bytes to a descriptor; OSError where that fails."""
    left = memoryview(data)
    while left:
        left = left[os.write(number, left):]


class Console:
    """Where a command writes: two descriptors, and whether each is a terminal."""

    def __init__(self, out: int = 1, err: int = 2) -> None:
        self._out, self._err = out, err
        self.out_is_terminal, self.err_is_terminal = os.isatty(out), os.isatty(err)

    def write(self, data: bytes) -> None:
        """Writes bytes to the output, all of them; OutputFault where that fails."""
        try:
            write_all(self._out, data)
        except OSError as error:
            is_closed = isinstance(error, BrokenPipeError)       # who read it has ended, as `head` does, which is worth no word
            raise OutputFault("" if is_closed else f"writing the output failed: {error.strerror}") from None

    def line(self, text: str) -> None:
        """Writes a line to the output."""
        self.write(text.encode("utf-8", "surrogateescape") + b"\n")

    def say(self, text: str) -> None:
        """Says a sentence, after the command's name."""
        self.tell(f"timeline: {text}")

    def tell(self, text: str) -> None:
        """Says lines as they are, nothing for an empty text; that they cannot be said is no fault."""
        if text:
            self._say((CLEAR if self.err_is_terminal else "") + text + "\n")

    def progress(self, text: str) -> None:
        """Shows on a terminal how far a command is, in place of what was shown before; an empty text clears it."""
        if self.err_is_terminal:
            self._say(f"\rtimeline: {text} " if text else CLEAR)

    def _say(self, text: str) -> None:
        with suppress(OSError):
            write_all(self._err, text.encode("utf-8", "surrogateescape"))
