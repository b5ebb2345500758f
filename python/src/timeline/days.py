"""Days and times as moments, which are seconds then: in the time zone of the machine, as `date` has it.

Nothing here asks a journal."""
from __future__ import annotations

import re
import time

_DAY = re.compile(r"(\d{4})-(\d{2})-(\d{2})")
_TIME = re.compile(r"(\d{4})-(\d{2})-(\d{2})[T ](\d{2}):(\d{2})(?::(\d{2}))?")


def moment_of(kind: str, text: str) -> int:
    """The moment of a DAY, which is its last second, or of a TIME; ValueError where the text is none."""
    import datetime

    found = (_DAY if kind == "DAY" else _TIME).fullmatch(text)
    if found is None:
        raise ValueError(text)
    numbers = [int(it or 0) for it in found.groups()]
    year, month, day, hour, minute, second = (numbers + [0, 0, 0])[:6]
    datetime.datetime(year, month, day, hour, minute, second)
    try:
        moment = int(time.mktime((year, month, day + (kind == "DAY"), hour, minute, second, 0, 0, -1)))
    except OverflowError:
        raise ValueError(text) from None
    return moment - 1 if kind == "DAY" else moment


def shown(moment: int) -> str:
    """A moment as a time, or as the number where it is none that a calendar has."""
    try:
        return time.strftime("%Y-%m-%dT%H:%M:%S", time.localtime(moment)) if 0 <= moment < 253402300800 else str(moment)
    except (OverflowError, OSError, ValueError):
        return str(moment)
