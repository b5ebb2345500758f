"""Temporal tables that keep every version of every row: the front of the programs that are proved.

`timeline.open` gives a journal to ask and to change, `timeline.dbapi` the same by PEP 249."""
from __future__ import annotations

TYPE_CHECKING = False
if TYPE_CHECKING:
    from .api import Database as Database, Unit as Unit, open as open
    from .errors import Damaged as Damaged, DeviceFault as DeviceFault, Locked as Locked, NoJournal as NoJournal
    from .errors import Refused as Refused, TimelineError as TimelineError
    from .loads import Reading as Reading

_PLACES = {
    "Reading": "loads",
    **dict.fromkeys(("Database", "Unit", "open"), "api"),
    **dict.fromkeys(("AlreadyThere", "Damaged", "DeviceFault", "Locked", "NoJournal", "Refused", "TimelineError", "UsageError"), "errors"),
}


def __getattr__(name: str) -> object:
    """The library's names, brought in when they are asked for: the command wants few of them."""
    from importlib import import_module

    if name in _PLACES:
        return getattr(import_module(f".{_PLACES[name]}", __name__), name)
    if name in ("api", "dbapi", "errors"):
        return import_module(f".{name}", __name__)
    raise AttributeError(f"module {__name__!r} has no attribute {name!r}")
