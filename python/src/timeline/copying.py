"""The commands ship and follow: the commits of a journal as packets, and packets into a journal.

Packets may come in any order, be lost and come again: the journal is then a prefix of the one that they come from."""
from __future__ import annotations

from .errors import UsageError

TYPE_CHECKING = False
if TYPE_CHECKING:
    from .cli import Call
    from typing import Iterable

    from .journal import Journal
    from .scripts import Copy

MOST = 16_777_215           # versions of a journal
_LONGEST = 1 << 31          # bytes of an input that is followed
_HEADER = b"timeline journal"
_MOMENT = bytes(4) + b"\4"  # the record of a commit that states a moment, without the moment


def ship(call: Call) -> int:
    """Writes the packets of the versions from one to another."""
    parser = call.parser()
    parser.add_argument("first", nargs="?", default="1")
    parser.add_argument("last", nargs="?", default=str(MOST))
    given = parser.parse_args(call.words)
    for word in (given.first, given.last):
        if not word.isascii() or not word.isdigit() or len(word.lstrip("0")) > 8 or int(word) > MOST:
            raise UsageError(f"{word} is no version that can be shipped")
    call.journal().ship(int(given.first), int(given.last), call.console.write)
    return 0


def follow(call: Call) -> int:
    """Takes packets, and keeps their commits as far as none is missing; of a stream that breaks off those that came whole."""
    from .explaining import explain_closing
    from .scripts import Copy, open_input

    parser = call.parser()
    parser.add_argument("file", nargs="?")
    given, journal, console = parser.parse_args(call.words), call.journal(), call.console
    packets = Copy(open_input(given.file), _LONGEST)
    status, said = _follow(journal, packets.source)
    offset = int(said.split()[2]) if status == 10 else _LONGEST
    if offset < _LONGEST and packets.is_whole and _breaks_off(packets, offset):
        kept, said_of_it = _follow(journal, packets.read(0, offset))
        if kept == 0:
            console.write(said_of_it)
            console.say(f"the stream breaks off at byte {offset}: what came whole before that is kept, as far as no version is missing")
    console.write(said)
    if status == 10 and (call.options.explain or console.err_is_terminal):
        console.tell("\n".join(explain_closing(tuple(said.decode().split()[1:]), None)))
    return status


def _follow(journal: Journal, packets: int | Iterable[bytes]) -> tuple[int, bytes]:
    """The status of the program that takes packets, and what it writes."""
    output: list[bytes] = []
    status = journal.stream(["follow"], packets, output.append)
    return status, b"".join(output)


def _breaks_off(packets: Copy, offset: int) -> bool:
    """Whether no packet begins at a byte, and not one whose commit does not fit. The program is asked, over a journal that has the
    commit of the packet that would be there, or lacks one before it, so that it would be passed over."""
    from . import cleanup
    from .journal import NAME, Journal

    version = int.from_bytes(next(packets.read(offset, offset + 4), b""), "big")
    commits = b"".join(b"\1" + _MOMENT + it.to_bytes(8, "big") for it in range(2 if version == 2 else 1))
    folder = cleanup.private_folder()
    with open(f"{folder}/{NAME}", "wb") as file:
        file.write(_HEADER + commits + b"\0")
    try:
        return _follow(Journal(folder), packets.read(offset, None)) == (10, b"! packet 0\n")
    finally:
        cleanup.remove(folder)
