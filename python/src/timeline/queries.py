"""Queries as people ask them: made the engine's, asked of a look in one phase, and answered with kinds, order and limit.

What the front adds to a query is undone here again: literals of kinds, days, ORDER BY and LIMIT, and the places of
refusals. Nothing here starts a process or writes to an output."""
from __future__ import annotations

import time
from typing import Callable, NamedTuple, Sequence, Union

from . import kinds, notes
from .answers import Answer
from .days import moment_of
from .errors import Place, Refused
from .replies import Refusal, Rows
from .statements import BATCHES, Moment, Prepared, Statement, Token, prepare, statements_of, tokens

TYPE_CHECKING = False
if TYPE_CHECKING:
    from .journal import Journal, Look

Result = Union[Answer, Refused]
_UNSORTED = "ORDER BY sorts by columns of the answer: name this one among the items of the SELECT too."


class Query(NamedTuple):
    """A query as it was typed and as the engine gets it, with its words."""

    prepared: Prepared
    words: tuple[Token, ...]

    def column(self, at: int, name: str) -> tuple[str, str] | None:
        """The table and the column that a column of the answer has its cells from, None for a point, a period's end or a value."""
        tables = kinds.tables_of(self.words)
        word = self.words[0].text if self.words and tables else ""
        if word == "SELECT":
            return None if name in ("valid_from", "valid_to") else (tables[0], name)
        if word == "JOIN":
            table, point, column = name.partition(".")
            return (table if table in tables else tables[0], column) if point else None
        grouped = any(it.text == "BY" for it in self.words)
        return (tables[0], name) if tables and grouped and at == 0 else None


def catalog_of(look: Look) -> kinds.Catalog:
    """The kinds of the journal that a look has, asked once for a look."""
    if look.catalog is None:
        look.catalog = notes.catalog_of(look)
    return look.catalog


def query_of(statement: Statement, catalog: kinds.Catalog) -> Query:
    """A statement made the engine's. Raises Refused where it is none that the engine can get."""
    words = tuple(it for it in tokens(statement.text) if it.kind != "blank")
    if statement.word in BATCHES:
        raise Refused("NoQuery", statement=statement.text, place=Place(0),
                      sentence=f"{statement.word} makes a commit, and a question makes none")
    try:
        edits = kinds.literal_edits(words, catalog) if catalog.places else []
    except kinds.LiteralFault as fault:
        raise Refused("WrongType", (fault.offset,), statement.text, Place(fault.offset), sentence=str(fault),
                      advice=fault.advice) from None
    prepared = prepare(statement, moment_of, edits)
    if prepared.moments and not catalog.has_seconds:
        place = prepared.moments[0].place
        raise Refused("NoSeconds", (place,), statement.text, Place(place))
    return Query(prepared, words)


def ask(journal: Journal, text: str, with_types: bool = False, say: Callable[[str], None] = lambda _: None) -> list[Result]:
    """What each query of a text, parted by `;`, is answered: an Answer, or why it is refused. All are of one version.

    With `with_types` each column of an answer has its kind; without, those alone that are neither INT nor TEXT. `say` is told of a
    day that is over, and of which it may still change what was known, and of averages that are rounded."""
    statements = statements_of(text)
    results = ask_look(journal.look(), statements, with_types)
    places = sorted({kind.places for it in results if isinstance(it, Answer) for kind in it.kinds if kind.name == "AVERAGE"})
    if places:
        say("averages of decimals are rounded to " + " or ".join(str(it + 4) for it in places) + " places")
    if "AS" in text and any(it.text in ("DAY", "TIME") for it in tokens(text)):
        _tell_unsettled(journal, statements, say)
    return results


def _tell_unsettled(journal: Journal, statements: Sequence[Statement], say: Callable[[str], None]) -> None:
    """Says of a day or time that is over that no moment after it was stated yet, so that what is known of it may still change."""
    look = journal.new_look()
    try:
        catalog = catalog_of(look)
        moments = [it for each in statements for it in _moments(each, catalog)]
        (reply,) = look.ask([b"MOMENT %d" % kinds.LEAST]) if moments else (None,)
    finally:
        look.close()
    last = reply.fault.numbers[0] if isinstance(reply, Refusal) else kinds.LEAST
    now = time.time()
    early = next((it.text for it in moments if last <= it.moment < now), None)
    if early is not None:
        say(f"no moment after {early} is stated yet: commits that state none, as those of run, still count to it")


def _moments(statement: Statement, catalog: kinds.Catalog) -> tuple[Moment, ...]:
    try:
        return query_of(statement, catalog).prepared.moments
    except Refused:
        return ()


def ask_look(look: Look, statements: Sequence[Statement], with_types: bool = False) -> list[Result]:
    """As `ask`, of a look and of statements that were parted."""
    catalog = catalog_of(look)
    asked: list[Query | Refused] = []
    for number, statement in enumerate(statements, 1):
        try:
            asked.append(query_of(statement, catalog))
        except Refused as refused:
            refused.number = number
            asked.append(refused)
    queries = [it for it in asked if isinstance(it, Query)]
    replies = iter(look.ask([it.prepared.sent for it in queries]) if queries else ())
    results: list[Result] = []
    for number, it in enumerate(asked, 1):
        try:
            results.append(it if isinstance(it, Refused) else _answer(look, it, next(replies), with_types))
        except Refused as refused:
            refused.number = number
            results.append(refused)
    return results


def _answer(look: Look, query: Query, reply: object, with_types: bool) -> Answer:
    """The answer of a reply to a query; raises Refused where it was refused."""
    if isinstance(reply, Rows):
        catalog = catalog_of(look)
        found = kinds.answer_kinds(query.words, reply.names, catalog) if catalog.places else (None,) * len(reply.names)
        if with_types or query.prepared.order:
            found = _with_types(look, query, reply.names, found)
        return Answer(ordered(reply, query.prepared, found), found)
    assert isinstance(reply, Refusal)
    fault = reply.fault
    offset = None if fault.offset is None else query.prepared.typed_offset(fault.offset)
    numbers = fault.numbers if offset is None else (offset, *fault.numbers[1:])
    raise Refused(fault.name, numbers, query.prepared.typed.text, Place(offset)).over(reply.version)


def _with_types(look: Look, query: Query, names: Sequence[str], found: Sequence[kinds.Kind | None]) -> tuple[kinds.Kind | None, ...]:
    """The kinds of an answer's columns with the engine's own types, which are asked once for a look."""
    columns = [query.column(at, name) if kind is None else None for at, (name, kind) in enumerate(zip(names, found))]
    unknown = sorted({it for it in columns if it is not None and it not in look.types})
    if unknown:
        probes = [f"SELECT {column} FROM {table} WHERE {column} = 0 AND {column} <> 0".encode() for table, column in unknown]
        for place, reply in zip(unknown, look.ask(probes)):
            is_text = isinstance(reply, Refusal) and reply.fault.name == "WrongType"
            look.types[place] = kinds.TEXT if is_text else kinds.INT
    return tuple(kind or (kinds.INT if column is None else look.types[column]) for kind, column in zip(found, columns))


def ordered(reply: Rows, prepared: Prepared, found: Sequence[kinds.Kind | None]) -> Rows:
    """The rows in the order that was asked for, and no more of them than that; numbers by what they are, texts by their letters.

    Raises Refused where a column of ORDER BY is none of the answer's."""
    if not prepared.order and prepared.limit is None:
        return reply
    records = reply.records()
    if prepared.order:
        rows = reply.rows()
        places = list(range(len(rows)))
        for order in reversed(prepared.order):
            if order.column not in reply.names:
                raise Refused("UnknownColumn", (order.place,), prepared.typed.text, Place(order.place), advice=_UNSORTED).over(reply.version)
            at = reply.names.index(order.column)
            keys = _sort_keys([row[at] for row in rows], found[at])
            places.sort(key=keys.__getitem__, reverse=order.falling)
        records = [records[place] for place in places]
    kept = records if prepared.limit is None else records[:prepared.limit]
    return Rows(reply.session, reply.version, len(kept), reply.names, b"".join(kept))


def _sort_keys(cells: Sequence[str], kind: kinds.Kind | None) -> list[tuple[int, int, str]]:
    """What sorts the cells of a column: texts by their letters, numbers by what they are, an empty one before and FOREVER after all."""
    if kind == kinds.TEXT:
        return [(1, 0, it) for it in cells]
    return [(0, 0, "") if not it else (2, 0, "") if it == kinds.FOREVER else (1, int(it), "") for it in cells]
