"""Statements as they are typed, and as the engine gets them.

One tokenizer. What the front adds to the language is rewritten here, AS OF DAY and AS OF TIME, and ORDER BY and LIMIT at
the end of a SELECT; all else goes to the engine untouched, which alone says what is well formed. Offsets are in bytes of
the UTF-8 text, and places in what the engine got are mapped back to what was typed."""
from __future__ import annotations

import re
from functools import lru_cache
from typing import Callable, Iterable, NamedTuple, Sequence

from .errors import Place, Refused

_TOKEN = re.compile(rb"(?P<blank>[ \t\r\n]+)|(?P<name>[A-Za-z_][A-Za-z0-9_]*)|(?P<number>[0-9]+)|(?P<text>'(?:[^']|'')*'?)"
                    rb"|(?P<sign><>|<=|>=|[(),;*=<>-])|(?P<other>[\x80-\xff]+|.)", re.DOTALL)
BATCHES = frozenset("CREATE PUT REMOVE MOMENT FORGET SYNC".split())
BLOCKS = frozenset("PUT REMOVE SYNC".split())
_MOST = (1 << 63) - 1
_NO_UTF8 = "No character begins with this byte: type or save the statement as UTF-8."
_BROKEN = {"OpenText": "a text in the statement has no end", "LineBreak": "a statement is one line, so no text in it, nor a parameter, has a line break"}


class Token(NamedTuple):
    """A piece of a statement: its kind (name, number, text, sign, blank or other), its text, and the bytes where it stands."""

    kind: str
    text: str
    start: int
    end: int


class Statement(NamedTuple):
    """One statement as it was typed, without blanks around it and its `;`, and the byte at which it begins in what was typed."""

    text: str
    start: int

    @property
    def word(self) -> str:
        """Its first word, empty where it begins with none."""
        found = re.match(r"[A-Za-z_][A-Za-z0-9_]*", self.text)
        return found.group() if found else ""


class Edit(NamedTuple):
    """Bytes of a typed statement that the engine gets in another form."""

    start: int
    end: int
    new: bytes


class Order(NamedTuple):
    """A column by which an answer is sorted, where it was named, and whether the greatest comes first."""

    column: str
    place: int
    falling: bool


class Moment(NamedTuple):
    """A day or a time after AS OF, as it was typed, the byte where it stands, and its moment."""

    text: str
    place: int
    moment: int


class Prepared(NamedTuple):
    """A statement as the engine gets it, with what the front does with its answer."""

    typed: Statement
    sent: bytes
    edits: tuple[Edit, ...]
    order: tuple[Order, ...] = ()
    limit: int | None = None
    moments: tuple[Moment, ...] = ()

    def typed_offset(self, offset: int) -> int:
        """Where in the typed statement a byte of the sent one comes from."""
        shift = 0
        for edit in self.edits:
            if offset < edit.start + shift:
                break
            if offset < edit.start + shift + len(edit.new):
                return offset - shift if len(edit.new) == edit.end - edit.start else edit.start
            shift += len(edit.new) - (edit.end - edit.start)
        return offset - shift


def encode(text: str) -> bytes:
    """The bytes of a text, also of one that was no UTF-8."""
    try:
        return text.encode("utf-8", "surrogateescape")
    except UnicodeEncodeError:          # half a character of another encoding, which stands for no byte
        return text.encode("utf-8", "surrogatepass")


def decode(text: bytes) -> str:
    """A text of bytes, also of those that are no UTF-8."""
    return text.decode("utf-8", "surrogateescape")


@lru_cache(maxsize=8)
def tokens(text: str) -> tuple[Token, ...]:
    """The tokens of a text, blanks among them: together they are the text."""
    return tuple([Token(str(it.lastgroup), decode(it.group()), it.start(), it.end()) for it in _TOKEN.finditer(encode(text))])


def is_open(token: Token) -> bool:
    """Whether a token is a text that has no end."""
    return token.kind == "text" and token.text.count("'") % 2 == 1


def statements_of(text: str) -> list[Statement]:
    """The statements of a text, parted by `;` outside of texts; empty ones are left out."""
    found: list[Statement] = []
    begin, end = -1, 0
    for token in [*tokens(text), Token("sign", ";", 0, 0)]:
        if token.kind == "sign" and token.text == ";":
            if begin >= 0:
                found.append(Statement(decode(encode(text)[begin:end]), begin))
            begin = -1
        elif token.kind != "blank":
            begin, end = token.start if begin < 0 else begin, token.end
    return found


def prepare(statement: Statement, moment_of: Callable[[str, str], int], literals: Iterable[tuple[int, int, str]] = ()) -> Prepared:
    """The statement as the engine gets it. `moment_of` gives the moment of a DAY or a TIME and raises ValueError where it is none;
    `literals` are other texts for bytes of the statement.

    Raises Refused where a day is none, and for what a statement cannot carry: a text with a line break, bytes that are no UTF-8."""
    found = tokens(statement.text)
    _refuse_texts(statement, found)
    words = [it for it in found if it.kind != "blank"]
    order, limit, end = _tail(statement, words)
    kept = [it for it in words if it.end <= end]
    edits = [Edit(it.start, it.end, re.sub(rb"[\r\n]", b" ", encode(it.text))) for it in found
             if it.kind == "blank" and it.end <= end and re.search(r"[\r\n]", it.text)]
    moments = []
    for edit, moment in _days(statement, kept, moment_of):
        edits.append(edit)
        moments.append(moment)
    edits += [Edit(start, stop, encode(new)) for start, stop, new in literals if stop <= end]
    edits.sort()
    return Prepared(statement, _apply(encode(statement.text)[:end], edits), tuple(edits), order, limit, tuple(moments))


def _apply(text: bytes, edits: list[Edit]) -> bytes:
    parts, at = [], 0
    for edit in edits:
        parts += [text[at:edit.start], edit.new]
        at = edit.end
    return b"".join([*parts, text[at:]])


def _refuse_texts(statement: Statement, found: Sequence[Token]) -> None:
    """Raises Refused for what no line of a script can have: bytes that are no UTF-8, and line breaks within a text."""
    strange = re.search("[\ud800-\udfff]", statement.text)
    if strange:
        at = len(encode(statement.text[:strange.start()]))
        raise Refused("BadByte", (at,), statement.text, Place(at), sentence="the statement is no UTF-8", advice=_NO_UTF8)
    for token in found:
        broken = encode(token.text).find(b"\n") if token.kind == "text" else -1
        if broken >= 0:
            kind, at = ("OpenText", token.start) if is_open(token) else ("LineBreak", token.start + broken)
            raise Refused(kind, (at,), statement.text, Place(at), sentence=_BROKEN[kind])


def _refuse(statement: Statement, kind: str, token: Token | None) -> Refused:
    at = token.start if token else len(encode(statement.text))
    return Refused(kind, (at,), statement.text, Place(at))


def _tail(statement: Statement, words: list[Token]) -> tuple[tuple[Order, ...], int | None, int]:
    """What stands after a SELECT for the front: the columns of ORDER BY, the number of LIMIT, and the byte before them."""
    order: tuple[Order, ...] = ()
    limit, end = None, len(encode(statement.text))
    if not words or words[0].text != "SELECT":
        return order, limit, end
    if len(words) > 3 and words[-2].text == "LIMIT" and words[-1].kind == "number":
        limit = min(int(words[-1].text), _MOST)
        end, words = words[-3].end, words[:-2]
    for at in range(1, len(words) - 1):
        if words[at].text == "ORDER" and words[at + 1].text == "BY":
            return _orders(statement, words[at + 2:]), limit, words[at - 1].end
    return order, limit, end


def _orders(statement: Statement, words: list[Token]) -> tuple[Order, ...]:
    """The columns of ORDER BY: names, each with ASC or DESC or neither, parted by commas."""
    order: list[Order] = []
    at = 0
    while True:
        if at >= len(words) or words[at].kind != "name":
            raise _refuse(statement, "Unexpected", words[at] if at < len(words) else None)
        falls = at + 1 < len(words) and words[at + 1].text in ("ASC", "DESC")
        order.append(Order(words[at].text, words[at].start, falls and words[at + 1].text == "DESC"))
        at += 2 if falls else 1
        if at == len(words):
            return tuple(order)
        if words[at].text != ",":
            raise _refuse(statement, "Unexpected", words[at])
        at += 1


def _days(statement: Statement, words: list[Token], moment_of: Callable[[str, str], int]) -> list[tuple[Edit, Moment]]:
    """The days and times after AS OF, as moments."""
    found: list[tuple[Edit, Moment]] = []
    for at in range(len(words) - 2):
        front = [it.text for it in words[at:at + 3]]
        if front[:2] != ["AS", "OF"] or front[2] not in ("DAY", "TIME"):
            continue
        rest = words[at + 3:]
        count = 1
        while count < len(rest) and rest[count].start == rest[count - 1].end:
            count += 1
        text = "".join(it.text for it in rest[:count]).strip("'")
        try:
            moment = moment_of(front[2], text)
        except ValueError:
            raise _refuse(statement, f"No{front[2].capitalize()}", rest[0] if rest else None) from None
        found.append((Edit(words[at + 2].start, rest[count - 1].end, b"MOMENT %d" % moment), Moment(text, words[at + 2].start, moment)))
    return found
