"""The replies of the programs as values: what each statement was answered.

Reads streams of bytes and nothing else. Rows stay the bytes that the program wrote until they are asked for."""
from __future__ import annotations

from typing import Iterator, NamedTuple, Protocol, Union

from .errors import Place, ProgramFault

PIECE = 1 << 18          # so many bytes are read at once
_OFFSET = frozenset("BadByte OpenText NumberTooLarge Unexpected UnknownTable UnknownColumn WrongType NotValidTable VersionAhead Forgotten "
                    "EmptyRange ColumnTwice LineBreak NoDay NoTime NoSeconds".split())
_RECORD = frozenset("NotUtf8 NotInt TextTooLong FieldCount BatchTooLong EmptyPeriod KeyTwice NoRow "
                    "NotDecimal NotDate NotTime OpenQuotes EndOfBlock".split())       # the last five are the front's own


class Source(Protocol):
    """What replies are read from: a file without a buffer, which gives what is there, at most so many bytes."""

    def read(self, size: int, /) -> bytes: ...


class Fault(NamedTuple):
    """Why a statement was refused: the fault's name and its numbers."""

    name: str
    numbers: tuple[int, ...] = ()

    def __str__(self) -> str:
        return " ".join([self.name, *map(str, self.numbers)])

    @property
    def offset(self) -> int | None:
        """The byte of the statement at which the fault is, where it names one."""
        return self.numbers[0] if self.name in _OFFSET and self.numbers else None

    @property
    def record(self) -> int | None:
        """The record of the block that it names, from 1, its header; None where it names none."""
        if self.name in ("HeaderName", "HeaderTwice", "HeaderMissing"):
            return 1
        return self.numbers[0] if self.name in _RECORD and self.numbers else None

    @property
    def field(self) -> int | None:
        """The field of that record, from 1, where it names one."""
        if self.name in ("HeaderName", "HeaderTwice"):
            return self.numbers[0]
        return self.numbers[1] if self.name in _RECORD and len(self.numbers) > 1 else None

    @property
    def place(self) -> Place:
        """Where it is."""
        return Place(self.offset, self.record, self.field)


class Ok(NamedTuple):
    """A batch whose commit made this version."""

    session: str
    version: int

    def __str__(self) -> str:
        return f"{self.session} @{self.version} ok"


class Rows:
    """An answer: `count` rows over a version, the columns' names where they were asked for, and the rows as the CSV that the
    program wrote."""

    def __init__(self, session: str, version: int, count: int, names: tuple[str, ...], raw: bytes) -> None:
        self.session, self.version, self.count, self.names, self.raw = session, version, count, names, raw

    def rows(self) -> list[tuple[str, ...]]:
        """The rows, each a tuple of its fields as text."""
        import csv
        import io

        lines = io.TextIOWrapper(io.BytesIO(self.raw), encoding="utf-8", newline="")
        return [tuple(row) for row in csv.reader(lines, strict=True)]

    def records(self) -> list[bytes]:
        """The rows as the program wrote them, each with the end of its line."""
        if b'"' not in self.raw:
            return [line + b"\n" for line in self.raw.split(b"\n")[:-1]]
        found, at = [], 0
        while at < len(self.raw):
            end = _records_end(self.raw, at, 1, False)[0]
            found.append(self.raw[at:end])
            at = end
        return found


class Refusal(NamedTuple):
    """A statement that was refused, at this version."""

    session: str
    version: int
    fault: Fault

    def __str__(self) -> str:
        return f"{self.session} @{self.version} ! {self.fault}"


class NotStored(NamedTuple):
    """A batch in whose append the disk failed, or one after such a batch (`broken`)."""

    session: str
    version: int
    broken: bool


class Closing(NamedTuple):
    """The last line of a run that ended early, without its `! `."""

    words: tuple[str, ...]


Reply = Union[Ok, Rows, Refusal, NotStored, Closing]


class _Reader:
    """Lines and rows of a stream, from pieces as they come."""

    def __init__(self, stream: Source) -> None:
        self.stream, self.piece, self.at = stream, b"", 0

    def more(self) -> bool:
        """Reads the next piece after what is left; False at the end."""
        piece = self.stream.read(PIECE)
        self.piece, self.at = self.piece[self.at:] + piece, 0
        return bool(piece)

    def line(self) -> bytes:
        """The next line without its end, empty at the end of the stream; raises ProgramFault where it ends within one."""
        while True:
            end = self.piece.find(b"\n", self.at)
            if end >= 0:
                line, self.at = self.piece[self.at:end], end + 1
                return line
            if not self.more():
                if self.at < len(self.piece):
                    raise ProgramFault(1, "the replies break off within a line")
                return b""

    def records(self, count: int, keep: bool) -> bytes:
        """The next so many records of CSV, each with the end of its line; passed over, and empty, without `keep`."""
        parts: list[bytes] = []
        quoted = False
        while count > 0:
            if self.at == len(self.piece) and not self.more():
                raise ProgramFault(1, "the replies break off within an answer")
            end, count, quoted = _records_end(self.piece, self.at, count, quoted)
            if keep:
                parts.append(self.piece[self.at:end])
            self.at = end
        return b"".join(parts)


def _records_end(piece: bytes, at: int, count: int, quoted: bool) -> tuple[int, int, bool]:
    """Where in a piece, from a place on, so many records end: the place, how many are still to come, and whether a quote is open."""
    while at < len(piece):
        stop = piece.find(b'"', at)
        stop = len(piece) if stop < 0 else stop
        if not quoted:
            found = piece.count(b"\n", at, stop)
            if found >= count:
                for _ in range(count):
                    at = piece.find(b"\n", at) + 1
                return at, 0, False
            count -= found
        if stop == len(piece):
            break
        quoted = not quoted
        at = stop + 1
    return len(piece), count, quoted


def _names(line: bytes) -> tuple[str, ...]:
    return tuple(line.decode("utf-8").split(","))


def _reply(line: bytes, reader: _Reader, with_names: bool, keep: bool) -> Reply:
    words = line.decode("utf-8", "replace").split(" ")
    if words[0] == "!":
        return Closing(tuple(words[1:]))
    if len(words) < 3 or words[1][:1] != "@" or not words[1][1:].isdigit():
        raise ProgramFault(1, f"this is no reply: {line[:80]!r}")
    session, version, what = words[0], int(words[1][1:]), words[2]
    if what == "rows":
        count = int(words[3])
        names = _names(reader.line()) if with_names else ()
        return Rows(session, version, count, names, reader.records(count, keep))
    if what == "ok":
        return Ok(session, version)
    if words[3] in ("device", "broken"):
        return NotStored(session, version, words[3] == "broken")
    return Refusal(session, version, Fault(words[3], tuple(int(it) for it in words[4:])))


def read_replies(stream: Source, with_names: bool = False, keep: bool = True) -> Iterator[Reply]:
    """The replies of a stream as they come, up to its end; `with_names` where a line of columns' names stands before rows, and
    without `keep` the rows are passed over.

    Raises ProgramFault where the stream breaks off within a reply, or has a line that is none."""
    reader = _Reader(stream)
    while True:
        line = reader.line()
        if not line:
            return
        yield _reply(line, reader, with_names, keep)
