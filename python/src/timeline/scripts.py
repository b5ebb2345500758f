"""A script's text, read a second time beside the run of it: to show a statement that was refused, and the record of its block.

A file is read where it is, from where the program reads it; what comes through a pipe is kept in a file without a name as
it comes. Nothing here moves the place from which the program reads."""
from __future__ import annotations

import io
import os
import re

from .errors import DeviceFault, SourceFault, UsageError
from .explaining import Record, find_record
from .statements import BLOCKS

TYPE_CHECKING = False
if TYPE_CHECKING:
    from typing import IO, Iterator

    from _typeshed import WriteableBuffer

PIECE = 1 << 20
_MOST_KEPT = 1 << 28       # so many bytes of a pipe are kept to be explained
_STATEMENT = re.compile(rb"[A-Za-z0-9_]+>[ \t]*(.*?)[ \t]*", re.DOTALL)
_BLOCK = re.compile(rb"([A-Z]+)(?![A-Za-z0-9_])")


def open_input(path: str | None) -> int:
    """The descriptor of a file that is named, or of standard input; UsageError where it cannot be read."""
    if path is None:
        return 0
    try:
        number = os.open(path.encode("utf-8", "surrogateescape"), os.O_RDONLY)
    except OSError as error:
        sentence = f"{path} is no file that can be read: {error.strerror}"
        if re.match(r"(SELECT|COUNT|SUM|AVG|MIN|MAX|JOIN)\s", path):
            sentence = f'a query is asked by ./timeline ask "{path}"'
        raise UsageError(sentence) from None
    if os.path.isdir(f"/dev/fd/{number}"):
        raise UsageError(f"{path} is no file that can be read: Is a directory")
    return number


def is_file(number: int) -> bool:
    """Whether a descriptor is one of a file, which can be read a second time."""
    import stat

    return stat.S_ISREG(os.fstat(number).st_mode)


def pieces(number: int) -> Iterator[bytes]:
    """What comes from a descriptor, in pieces as they come; SourceFault where it cannot be read."""
    while True:
        try:
            piece = os.read(number, PIECE)
        except OSError as error:
            raise SourceFault(f"reading the input failed: {error.strerror}") from None
        if not piece:
            return
        yield piece


def unnamed() -> IO[bytes]:
    """A file on the disk that has no name, and so is gone with this process however it ends; DeviceFault where none can be made."""
    import tempfile

    try:
        return tempfile.TemporaryFile(buffering=0)
    except OSError as error:
        raise DeviceFault(f"no file can be made in the folder for temporary files: {error.strerror}") from None


class Reread(io.RawIOBase):
    """A file that is read from a place on, while another reader goes on from its own."""

    def __init__(self, number: int, at: int) -> None:
        super().__init__()
        self.number, self.at = number, at

    def readable(self) -> bool:
        """It can be read."""
        return True

    def seekable(self) -> bool:
        """Its place can be set."""
        return True

    def readinto(self, room: WriteableBuffer, /) -> int:
        """Reads what is there into some room."""
        view = memoryview(room)
        piece = os.pread(self.number, len(view), self.at)
        view[:len(piece)] = piece
        self.at += len(piece)
        return len(piece)

    def seek(self, offset: int, whence: int = os.SEEK_SET, /) -> int:
        """Sets the place, from the file's start or from the place itself."""
        self.at = offset if whence == os.SEEK_SET else self.at + offset
        return self.at


class Copy:
    """An input that can be read a second time: `source` is what a program is given, a descriptor or pieces as they come."""

    def __init__(self, number: int, most: int, start: int | None = None) -> None:
        """`number` is the descriptor of the input, which is not read yet, or of a file and the byte where its input starts; of a pipe
        at most so many bytes are kept, and what has no room on the disk is not."""
        self.source: int | Iterator[bytes] = number
        self.number, self.start, self.is_whole = number, 0, True
        self._file: IO[bytes] | None = None
        if is_file(number):
            self.start = os.lseek(number, 0, os.SEEK_CUR) if start is None else start
            return
        try:
            self._file = unnamed()
            self.number = self._file.fileno()
        except DeviceFault:
            self.is_whole = False
        self.source = self._copied(number, most)

    def _copied(self, number: int, most: int) -> Iterator[bytes]:
        """The pieces of a pipe, each kept before it is passed on."""
        for piece in pieces(number):
            most -= len(piece)
            if self._file is not None and self.is_whole:
                try:
                    self.is_whole = most >= 0 and _write(self._file, piece)
                except OSError:
                    self.is_whole = False
            yield piece

    def lines(self) -> io.BufferedReader:
        """The input from its start on, as far as it was kept."""
        return io.BufferedReader(Reread(self.number, self.start))

    def read(self, begin: int, end: int | None) -> Iterator[bytes]:
        """The pieces from one byte of the input to another."""
        at, stop = self.start + begin, None if end is None else self.start + end
        while stop is None or at < stop:
            piece = os.pread(self.number, PIECE if stop is None else min(PIECE, stop - at), at)
            if not piece:
                return
            at += len(piece)
            yield piece


def _write(file: IO[bytes], piece: bytes) -> bool:
    left = memoryview(piece)
    while left:
        left = left[file.write(left):]
    return True


class Script:
    """The script of a run: what the program is given, and its statements in their order."""

    def __init__(self, number: int) -> None:
        """`number` is the descriptor of the script, which is not read yet."""
        self.copy = Copy(number, _MOST_KEPT)
        self._text = self.copy.lines()
        self._line, self._seen, self._in_block = 0, 0, False

    def statement(self, number: int) -> tuple[int, bytes] | None:
        """The line and the text of the statement with a number, from 1; asked for in rising order. None where it is not there."""
        while self._seen < number:
            raw = self._text.readline()
            if not raw:
                return None
            self._line += 1
            line = raw.removesuffix(b"\n").removesuffix(b"\r")
            if self._in_block:
                self._in_block = line != b"\\."
                continue
            found = _STATEMENT.fullmatch(line)
            if found is None:
                continue
            self._seen += 1
            word = _BLOCK.match(found[1])
            self._in_block = word is not None and word[1].decode() in BLOCKS
            if self._seen == number:
                return self._line, found[1]
        return None

    def record(self, number: int, field: int | None) -> Record | None:
        """A record of the block of the statement that was asked for last."""
        at = self._text.tell()
        try:
            return find_record(self._block_lines(), self._line + 1, number, field)
        finally:
            self._text.seek(at)

    def _block_lines(self) -> Iterator[bytes]:
        for line in iter(self._text.readline, b""):
            if line.rstrip(b"\r\n") == b"\\.":
                return
            yield line

    def line(self, number: int) -> bytes:
        """The line with a number, from 1, of the whole script."""
        lines = self.copy.lines()
        for _ in range(number - 1):
            if not lines.readline():
                break
        return lines.readline(1 << 16)
