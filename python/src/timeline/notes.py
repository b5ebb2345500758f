"""When a change was made, who made it and why: the parts of a unit beside the change itself.

A unit is a script for `transact`. It begins with the present second as its moment, and may end with a row of the table
`timeline_notes`. Its pieces are made while the program already has the journal's lock, so the versions in them are true.
Nothing here starts a process or writes to an output."""
from __future__ import annotations

import time
from typing import Callable, Iterable, Iterator, List, NamedTuple, Sequence, Tuple

from . import days, kinds
from .errors import Place, Refused, UsageError
from .replies import Ok, Rows
from .statements import Prepared, Statement, decode, encode, prepare, tokens

TYPE_CHECKING = False
if TYPE_CHECKING:
    from .journal import Journal, Look
    from .replies import Reply

Listing = List[Tuple[str, ...]]    # the rows of a listing, its header first
NOTES = "timeline_notes"
CREATE_NOTES = f"CREATE TABLE {NOTES} (version INT, who TEXT, why TEXT, source TEXT) KEY version"
SELECT_NOTES = f"SELECT version, who, why, source FROM {NOTES}"
_MOST_CAUSE = 1_500                # bytes, so that a note and the end of the block before it fit a pipe whole, quoted too
_FIRST_SECOND = 1_000_000_000      # 2001-09-09: a moment before it is no second that a program stated


class Cause(NamedTuple):
    """Who makes a change, why, and of what file; and whether it states the present second: None is where the journal's
    moments are seconds, True also where nobody has said what they are."""

    who: str = ""
    why: str = ""
    source: str = ""
    stamp: bool | None = None


def cause_of(who: str, why: str, source: str, stamp: bool | None) -> Cause:
    """A cause; UsageError where its texts are so long that a script could be cut off between them."""
    if sum(len(encode(text)) for text in (who, why, source)) > _MOST_CAUSE:
        raise UsageError(f"--by, --because and the file's name have at most {_MOST_CAUSE} bytes together")
    return Cause(who, why, source, stamp)


class State(NamedTuple):
    """What a unit has to know of the journal: its version, its kinds, and which of the front's tables are there."""

    version: int
    catalog: kinds.Catalog
    has_catalog: bool
    has_notes: bool


def state_of(look: Look) -> State:
    """The state of a journal, by one phase of a look."""
    asked = look.ask([encode(kinds.SELECT_CATALOG), encode(f"SELECT version FROM {NOTES} WHERE version = 0")])
    catalog = asked[0].rows() if isinstance(asked[0], Rows) else []
    return State(getattr(asked[0], "version"), kinds.Catalog(catalog), isinstance(asked[0], Rows), isinstance(asked[1], Rows))


def catalog_of(look: Look) -> kinds.Catalog:
    """The kinds of a journal."""
    (asked,) = look.ask([encode(kinds.SELECT_CATALOG)])
    return kinds.Catalog(asked.rows() if isinstance(asked, Rows) else [])


class Whole(bytes):
    """A piece of a script that ends between two statements. The program is not to see one as its input's end, so it is sent with
    the piece after it."""


class Unit:
    """A script as it is made: the pieces of each statement, the version that it will make, and what it is for."""

    def __init__(self, session: str, state: State) -> None:
        self.session, self.state, self.version = session, state, state.version
        self.statements: list[str] = []    # each statement so far
        self.uses: list[str] = []          # of each, `own` of the command, else what it is for
        self.records: list[int] = []       # of each, how many records of a sheet came before its block's

    def begin(self, statement: str, use: str = "own", records: int = 0) -> bytes:
        """The line of a statement that makes a commit; its block, where it has one, comes after it."""
        self.version += 1
        self.statements.append(statement)
        self.uses.append(use)
        self.records.append(records)
        return encode(f"{self.session}> {statement}\n")

    def put(self, table: str, columns: Sequence[str], rows: Iterable[Sequence[object]], use: str) -> Whole:
        """A PUT of a few rows."""
        return Whole(self.begin(f"PUT {table}", use) + block([columns, *rows]))


def block(rows: Iterable[Sequence[object]]) -> bytes:
    """A block of a few rows, the first of which has the names, with its end. Raises Refused for a text with a line `\\.`."""
    import csv
    import io

    out = io.StringIO()
    csv.writer(out, lineterminator="\r\n").writerows(rows)
    text = encode(out.getvalue())
    if b"\n\\.\r\n" in text or b"\n\\.\n" in text:
        raise Refused("EndOfBlock", sentence="a text has a line that is \\. alone, which ends a block", advice="Write the line in another way.")
    return text + b"\\.\r\n"


Body = Callable[[Unit], Iterator[bytes]]


class Moment:
    """The second that a unit states first, where it does: found by the journal, and given up where it does not rise."""

    def __init__(self, journal: Journal, wanted: bool | None, say: Callable[[str], None]) -> None:
        self.journal, self.wanted, self.say, self.rises = journal, wanted, say, True

    def script(self, unit: Unit) -> Iterator[bytes]:
        """The statements that state the present second, and that say of the journal that its moments are seconds."""
        catalog = unit.state.catalog
        if self.wanted is False or not (catalog.has_seconds or self._may_declare(unit.state)):
            return
        if self.rises:
            yield Whole(unit.begin(f"MOMENT {int(time.time())}", "moment"))
        if not catalog.has_seconds:
            yield put_kinds(unit, [(kinds.MOMENTS, str(kinds.TIME))])

    def _may_declare(self, state: State) -> bool:
        """Whether moments may be said to be seconds: none was stated so far, or the command is told so and they can be."""
        stated = [] if state.version == 0 else moments_of(self.journal)
        if not stated or (self.wanted and stated[0] >= _FIRST_SECOND and stated[-1] <= time.time() + 86_400):
            return True
        if self.wanted:
            raise Refused("NoSeconds", (stated[0],), sentence=f"moments of this journal are no seconds: {stated[0]} is one of them",
                          advice="Leave --stamp out, or state moments in the unit that the journal has.")
        self.say("not stamped: nobody has said what this journal's moments are; --stamp says that they are seconds")
        self.wanted = False
        return False

    def falls(self, refused: Refused) -> bool:
        """Whether a refusal is of the moment alone, so that the unit may be tried again without it."""
        if refused.kind != "MomentFalls" or refused.number != 1 or not self.rises or self.wanted is False:
            return False
        if refused.numbers[0] > time.time():
            self.say(f"not stamped: the last moment that was stated, {refused.numbers[0]}, is later than now")
        self.rises = False
        return True


def put_kinds(unit: Unit, rows: Sequence[tuple[str, str]]) -> Whole:
    """The statements that put rows into the catalog, which they make where it is not there."""
    made = b""
    if not unit.state.has_catalog and "catalog" not in unit.uses:
        made = unit.begin(kinds.CREATE_CATALOG, "catalog")
    return Whole(made + unit.put(kinds.CATALOG, ("place", "kind"), rows, "kinds"))


def prepared_batch(statement: Statement) -> tuple[Prepared, list[tuple[str, str]]]:
    """A statement that makes a commit, as the engine gets it, and the rows of the catalog for the kinds that a CREATE names. Raises
    Refused where it is none that the engine can get."""
    edits, rows = list[tuple[int, int, str]](), list[tuple[str, str]]()
    if statement.word == "CREATE":
        try:
            edits, rows = kinds.declared([it for it in tokens(statement.text) if it.kind != "blank"])
        except kinds.LiteralFault as fault:
            raise Refused("Unexpected", (fault.offset,), statement.text, Place(fault.offset), advice=fault.advice) from None
    return prepare(statement, days.moment_of, edits), rows


def batch(unit: Unit, statement: Statement) -> Iterator[bytes]:
    """The pieces of a statement without a block that makes a commit, and of the kinds that it names."""
    prepared, rows = prepared_batch(statement)
    if rows:
        yield put_kinds(unit, rows)
    yield unit.begin(decode(prepared.sent))


def put_note(unit: Unit, version: int, cause: Cause) -> Whole:
    """The statements that keep who made the change of a version, why and of what; none where neither is said."""
    if not cause.who and not cause.why:
        return Whole()
    made = b"" if unit.state.has_notes else unit.begin(CREATE_NOTES, "notes")
    row = (version, cause.who, cause.why, cause.source)
    return Whole(made + unit.put(NOTES, ("version", "who", "why", "source"), [row], "note"))


def moments_of(journal: Journal) -> list[int]:
    """The moments that a journal states, in their order."""
    lines = journal.listing(["log"]).split(b"\n")
    at = lines[0].split(b",").index(b"moment")
    return [int(moment) for moment in (line.split(b",")[at] for line in lines[1:] if line) if moment]


class Outcome(NamedTuple):
    """What came of a unit: the replies to the command's own statements, and the version that was there before it."""

    replies: list[Reply]
    before: int

    @property
    def version(self) -> int:
        """The version that the last of them made."""
        return max((reply.version for reply in self.replies if isinstance(reply, Ok)), default=self.before)


def transact(journal: Journal, session: str, body: Body, cause: Cause, say: Callable[[str], None] = lambda _: None) -> Outcome:
    """Runs a unit of which all is kept or nothing: the moment, what `body` makes of a Unit, and a note on its last version.

    `body` may be called more than once. Raises Refused, with the number of the record in the sheet where a block is refused,
    and whatever the journal raises."""
    moment = Moment(journal, cause.stamp, say)
    while True:
        made: list[Unit] = []
        try:
            replies = journal.transact(joined(_script(journal, session, body, cause, moment, made)))
        except Refused as refused:
            if moment.falls(refused):
                continue
            raise _placed(refused, made[-1]) if made else refused
        unit = made[-1]
        return Outcome([reply for reply, use in zip(replies, unit.uses) if use == "own"], unit.state.version)


def _script(journal: Journal, session: str, body: Body, cause: Cause, moment: Moment, made: list[Unit]) -> Iterator[bytes]:
    unit = Unit(session, state_of(journal.look()))
    made.append(unit)
    yield from moment.script(unit)
    yield from body(unit)
    yield put_note(unit, unit.version, cause)


def joined(pieces: Iterable[bytes]) -> Iterator[bytes]:
    """The pieces of a script, of which none but the last ends between two statements: where this process is killed, what the
    program has seen ends within a block, and is refused."""
    held = b""
    for piece in pieces:
        held += piece
        if not isinstance(piece, Whole):
            yield held
            held = b""
    yield held


def _placed(refused: Refused, unit: Unit) -> Refused:
    """A refusal with its statement, its number among the command's own, the place in the sheet, and the version of the journal."""
    from .replies import Fault

    refused.version = unit.state.version
    fault = Fault(refused.kind, refused.numbers)
    refused.version = unit.state.version
    at = refused.number - 1
    if not 0 <= at < len(unit.uses):
        return refused
    if not refused.sentence:
        is_own = unit.uses[at] == "own"
        refused.statement, refused.number = unit.statements[at] if is_own else "", unit.uses[:at + 1].count("own") if is_own else 0
    if fault.record is None:
        return refused
    record = fault.record + (unit.records[at] if fault.record > 1 else 0)
    refused.place = Place(None, record, fault.field)
    if fault.record > 1:
        refused.numbers = (record, *refused.numbers[1:])
    return refused


def notes_of(look: Look) -> dict[int, tuple[str, str, str]]:
    """Who, why and source of each version that has a note."""
    (asked,) = look.ask([encode(SELECT_NOTES)])
    return {int(row[0]): (row[1], row[2], row[3]) for row in asked.rows()} if isinstance(asked, Rows) else {}



def told(rows: Listing, is_timed: bool, notes: dict[int, tuple[str, str, str]]) -> Listing:
    """The rows of a log, its header first, with what the journal says of each commit: `when`, the moment at which it was done,
    where moments are seconds, and who, why and of what source, where there are notes."""
    at = rows[0].index("moment")
    head = (("when",) if is_timed else ()) + (("who", "why", "source") if notes else ())
    made, when = [(*rows[0], *head)], ""
    for row in rows[1:]:
        when = row[at] or when
        more = ((when,) if is_timed else ()) + (notes.get(int(row[0]), ("", "", "")) if notes else ())
        made.append((*row, *more))
    return made


def between(rows: Listing, is_timed: bool, first: str, last: str) -> Listing:
    """The rows of a log, with their moments, of commits that were done from the first second of a day on to the last of another.

    Raises UsageError where one is no day, Refused where the journal's moments are no seconds."""
    try:
        least, most = days.moment_of("TIME", f"{first}T00:00"), days.moment_of("DAY", last)
    except ValueError:
        raise UsageError(f"--between wants two days, as 2026-03-01 2026-03-31, and not {first} {last}") from None
    if not is_timed:
        raise Refused("NoSeconds", sentence="nobody has said that the moments of this journal are seconds, so its commits have no days")
    at = rows[0].index("when")
    return [rows[0], *(row for row in rows[1:] if row[at] and least <= int(row[at]) <= most)]


def with_times(rows: Listing) -> Listing:
    """The rows of a log with times for its moments."""
    places = {at for at, name in enumerate(rows[0]) if name in ("moment", "when")}
    return [rows[0], *(tuple(days.shown(int(cell)) if at in places and cell else cell for at, cell in enumerate(row)) for row in rows[1:])]
