"""The command seal: of the journal, up to its last record, how long it is and its checksum; and such lines tried.

A journal only grows after its last record, so a line stays true for ever. How long it is up to there is worked out of the
packets that the program ships, each of which is a record with its version in front."""
from __future__ import annotations

import os
import re

from .errors import SEAL_BROKEN, Damaged, DeviceFault, SourceFault, UsageError

TYPE_CHECKING = False
if TYPE_CHECKING:
    from .cli import Call
    from .console import Console
    from .journal import Journal

_HEADER, _GATE, _VERSION = 16, 1, 4      # bytes of the journal's header, of a gate, and of a packet's version
_PIECE = 1 << 20
_LINE = re.compile(rb"@([0-9]{1,18}) ([0-9]{1,18}) ([0-9a-f]{64})")


def seal(call: Call) -> int:
    """Prints the line of this journal, or tries the lines of a file."""
    parser = call.parser()
    parser.add_argument("--check", metavar="FILE")
    given = parser.parse_args(call.words)
    if given.check is not None:
        return check(call.journal(), given.check, call.console)
    call.console.line(line_of(call.journal()))
    return 0


def line_of(journal: Journal) -> str:
    """The line of a journal as it is now: version, bytes and checksum."""
    version, size = length_of(journal)
    return f"@{version} {size} {checksum(journal, [size])[size]}"


def length_of(journal: Journal) -> tuple[int, int]:
    """The journal's version, and how many bytes it has up to the gate that is closed."""
    version = journal.version()
    shipped = 0

    def count(piece: bytes) -> None:
        """Adds the bytes of a piece."""
        nonlocal shipped
        shipped += len(piece)

    if version:
        journal.ship(1, version, count)
    return version, _HEADER + shipped + (_GATE - _VERSION) * version


def checksum(journal: Journal, sizes: list[int]) -> dict[int, str]:
    """The checksums of the first so many bytes of the journal's file, for each of some numbers, in one reading."""
    import hashlib

    found, total, at = {}, hashlib.sha256(), 0
    try:
        with open(journal.path, "rb") as file:
            for size in sorted(set(sizes)):
                while at < size:
                    piece = file.read(min(_PIECE, size - at))
                    if not piece:
                        raise Damaged(at)
                    total.update(piece)
                    at += len(piece)
                found[size] = total.copy().hexdigest()
    except OSError as error:
        raise DeviceFault(f"the journal cannot be read: {error.strerror}") from None
    return found


def check(journal: Journal, path: str, console: Console) -> int:
    """Tries each line of a file, says which is not true, and gives the status."""
    from .scripts import open_input, pieces

    text = b"".join(pieces(open_input(path)))
    journal.check_readable()
    lines = [it.strip() for it in text.replace(b"\r\n", b"\n").split(b"\n") if it.strip()]
    found = [_LINE.fullmatch(re.sub(rb"[ \t]+", b" ", it)) for it in lines]
    size = journal.size()
    sums = checksum(journal, [int(it[2]) for it in found if it and int(it[2]) <= size])
    wrong = 0
    for line, it in zip(lines, found):
        sentence = "no line of seal: " + line[:200].decode("utf-8", "replace") if it is None else _wrong(int(it[2]), it[3].decode(), size, sums)
        if sentence:
            wrong += 1
            console.say(sentence if it is None else f"@{int(it[1])} is not true: {sentence}")
    console.line(f"{len(lines) - wrong} of {len(lines)} seals hold")
    return 0 if lines and not wrong else SEAL_BROKEN


def _wrong(bytes_sealed: int, total: str, size: int, sums: dict[int, str]) -> str:
    """Why a line is not true, or an empty text."""
    if bytes_sealed > size:
        return f"the journal has {size} bytes"
    return "" if sums[bytes_sealed] == total else "what was sealed is another journal, or was changed"
