"""The command ask: queries over a look at the journal, which is never written to."""
from __future__ import annotations

from .errors import REFUSED, Refused, UsageError
from .queries import ask as ask_journal
from .replies import Fault
from .statements import BATCHES, Statement, encode, statements_of

TYPE_CHECKING = False
if TYPE_CHECKING:
    import argparse

    from .cli import Call


def ask(call: Call) -> int:
    """Answers the queries of its one word."""
    parser = call.parser()
    parser.add_argument("text")
    add_forms(parser)
    given = parser.parse_args(call.words)
    statements = statements_of(given.text)
    if not statements:
        raise UsageError("ask wants a query")
    for statement in statements:
        if statement.word in BATCHES:
            raise UsageError(f"ask writes nothing, and {statement.word} does: ./timeline run, or shell")
    form = form_of(call, given)
    status, is_first = 0, True
    for statement, result in zip(statements, ask_journal(call.journal(), given.text, form == "json", call.console.say)):
        if isinstance(result, Refused):
            status = REFUSED
            call.console.tell("\n".join(explained(result, given.text, statement)))
        else:
            if not is_first and form != "json":
                call.console.write(b"\n")
            is_first = False
            getattr(result, f"write_{form}")(call.console)
    return status


def add_forms(parser: argparse.ArgumentParser) -> None:
    """The options that say how an answer is written."""
    for form in ("--csv", "--json", "--table"):
        parser.add_argument(form, dest="form", action="store_const", const=form[2:])


def form_of(call: Call, given: argparse.Namespace) -> str:
    """How an answer is written: as the options say, else a table on a terminal, and CSV elsewhere."""
    form = given.form or ("table" if call.console.out_is_terminal else "csv")
    assert isinstance(form, str)
    return form


def explained(refused: Refused, typed: str, statement: Statement) -> list[str]:
    """The lines that say why a statement of what was typed was refused."""
    from .explaining import explain_statement

    line = encode(typed)[:statement.start].count(b"\n") + 1
    return explain_statement(encode(statement.text), Fault(refused.kind, refused.numbers), f"line {line}", refused.advice)
