"""Pictures of an aggregate: its runs as steps over versions, time or valid time, one line for each group of BY.

SVG and PNG are drawn by matplotlib; a picture of text needs nothing. Nothing here asks how a query is spelled: the names of
the answer's columns say what they are."""
from __future__ import annotations

import os
from bisect import bisect_right
from typing import NamedTuple, Sequence

from . import cleanup, kinds
from .changes import Times
from .errors import Refused, UsageError
from .queries import ask as ask_journal, catalog_of
from .statements import tokens

TYPE_CHECKING = False
if TYPE_CHECKING:
    from typing import Any

    from .answers import Answer
    from .cli import Call
    from .journal import Journal

_ENDINGS = (".svg", ".png", ".pdf")
_MARKS = "#*o+x@%=~."           # of the lines of a picture of text, the first ones
_MOST_LINES = 40                # so many groups have a line of their own in the legend


class Series(NamedTuple):
    """A line of steps: its group, where each step begins and ends, and its value; None where there is none."""

    label: str
    begins: list[float]
    ends: list[float]
    values: list[float | None]


class Picture(NamedTuple):
    """Lines over one axis, whose numbers are versions, seconds, days or valid times."""

    title: str
    axis: str
    kind: kinds.Kind
    series: list[Series]

    @property
    def bounds(self) -> tuple[float, float]:
        """Where the axis begins and ends."""
        return min(it for one in self.series for it in one.begins), max(it for one in self.series for it in one.ends)

    @property
    def heights(self) -> tuple[float, float]:
        """The least and the greatest value, 0 where there is none."""
        found = [it for one in self.series for it in one.values if it is not None]
        return (min(found), max(found)) if found else (0.0, 0.0)


def _number(cell: str, kind: kinds.Kind) -> float | None:
    """The number that a value is drawn at."""
    if not cell:
        return None
    total, slash, count = cell.partition("/")
    number = int(total) / int(count) if slash else float(int(total))
    return number / float(10 ** kind.places) if kind.name in ("DECIMAL", "AVERAGE") else number


def picture_of(journal: Journal, text: str) -> Picture:
    """The picture of one aggregate. Raises Refused where the query is refused, or is none over time."""
    results = ask_journal(journal, text, with_types=True)
    if len(results) != 1:
        raise UsageError("plot wants one aggregate")
    (answer,) = results
    if isinstance(answer, Refused):
        raise answer
    if answer.names[-3:] != ("from", "to", "value"):
        raise Refused("NoAggregate", statement=text, sentence="only an aggregate over versions or valid time can be drawn",
                      advice="SUM pay FROM staff BY dept OVER SYSTEM ALL")
    return _drawn(answer, text, _axis_of(journal, answer, text))


def _last(axis: _Axis, points: Sequence[float]) -> float:
    """Where the axis ends: after the last version, or at the last moment; a valid time that does not end goes on for a while."""
    greatest, first = max(points), min(filter(None, points), default=0)
    if axis.name == "version" or axis.times is not None and greatest > first:
        return greatest
    return greatest + max(1.0, (greatest - first) // 20)


class _Axis(NamedTuple):
    """What the points of an answer stand for: a name, a kind, and where versions have seconds these."""

    name: str
    kind: kinds.Kind
    times: Times | None

    def place(self, cell: str, last: float) -> float:
        """Where a point stands on the axis; `last` for FOREVER, and for the end of a run that goes on."""
        if cell == kinds.FOREVER:
            return last
        number = int(cell)
        if self.times is None:
            return number
        if number > self.times.last:
            return last
        stated = self.times.stated
        at = bisect_right(stated, (number, 1 << 63))
        return stated[at - 1][1] if at else stated[0][1]


def _axis_of(journal: Journal, answer: Answer, text: str) -> _Axis:
    kind = answer.kinds[-3]
    words = [it.text for it in tokens(text) if it.kind != "blank"]
    if ("OVER", "VALID") in zip(words, words[1:]):
        return _Axis("valid time", kind, None)
    if catalog_of(journal.look()).has_seconds:
        times = Times(journal, True)
        if times.stated:
            return _Axis("time (UTC)", kinds.TIME, times)
    return _Axis("version", kinds.INT, None)


def _drawn(answer: Answer, text: str, axis: _Axis) -> Picture:
    """The lines of an answer. A run of no length on the axis, as one within a second, is left out, but for one at its end."""
    grouped = len(answer.names) == 4
    rows = answer.cells()
    if not rows:
        raise Refused("NoRows", statement=text, sentence="the answer has no row to be drawn")
    last = _last(axis, [axis.place(row[-3], 0) for row in rows] + [axis.place(row[-2], 0) for row in rows if row[-2] != kinds.FOREVER])
    found: dict[str, Series] = {}
    for row in rows:
        label = answer.kinds[0].shown(row[0]) if grouped else ""
        one = found.setdefault(label, Series(label, [], [], []))
        begin, end = axis.place(row[-3], last), axis.place(row[-2], last)
        if begin < end or begin == last:
            one.begins.append(begin)
            one.ends.append(end)
            one.values.append(_number(row[-1], answer.kinds[-1]))
    if not any(value is not None for one in found.values() for value in one.values):
        raise Refused("NoValue", statement=text, sentence=f"the answer has no value over {axis.name} that could be drawn")
    return Picture(" ".join(text.split()), axis.name, axis.kind, [one for one in found.values() if one.begins])


def steps_of(one: Series) -> tuple[list[float], list[float]]:
    """The corners of a line; where it has no value a gap, as a number that is none."""
    nan = float("nan")
    across: list[float] = []
    up: list[float] = []
    for begin, end, value in zip(one.begins, one.ends, one.values):
        if across and across[-1] != begin:
            across.append(begin)
            up.append(nan)
        across += [begin, end]
        up += [nan if value is None else value] * 2
    return across, up


def _moments(numbers: Sequence[float], kind: kinds.Kind) -> Any:
    """Points of the axis as matplotlib has them: days and seconds as its dates."""
    import numpy

    if kind.name in ("DATE", "TIME"):
        unit = "D" if kind.name == "DATE" else "s"
        return numpy.array([int(it) for it in numbers], dtype="int64").astype(f"datetime64[{unit}]")
    return numpy.array(numbers, dtype=float)


def draw(picture: Picture, path: str) -> None:
    """Writes a picture into a file, whole or not at all. UsageError for an ending that is none, or where matplotlib is missing;
    DeviceFault where the file cannot be written."""
    ending = os.path.splitext(path)[1].lower()
    if ending not in _ENDINGS:
        raise UsageError(f"a picture ends with {', '.join(_ENDINGS)}, and not as {path}")
    try:
        import matplotlib  # type: ignore[import]
    except ImportError:
        raise UsageError("pictures are drawn by matplotlib: Debian's package python3-matplotlib") from None
    matplotlib.use("Agg")
    figure = _figure(picture)
    with cleanup.whole(path) as part:
        figure.savefig(part, dpi=150)


def _figure(picture: Picture) -> Any:
    from matplotlib import dates, ticker
    from matplotlib.figure import Figure  # type: ignore[import]

    figure = Figure(figsize=(10, 5), layout="constrained")
    axes = figure.add_subplot()
    for one in picture.series[:_MOST_LINES]:
        across, up = steps_of(one)
        axes.plot(_moments(across, picture.kind), up, label=one.label.replace("$", r"\$"), linewidth=1.5, solid_joinstyle="miter")
    axes.set_title(picture.title.replace("$", r"\$"), fontsize=10, wrap=True)
    axes.set_xlabel(picture.axis)
    axes.grid(True, alpha=0.3)
    axes.yaxis.set_major_formatter(ticker.FuncFormatter(lambda value, _: f"{value:,.10g}"))
    if picture.axis == "version":
        axes.xaxis.set_major_locator(ticker.MaxNLocator(integer=True))
    elif picture.kind.name in ("DATE", "TIME"):
        places = dates.AutoDateLocator()
        axes.xaxis.set_major_locator(places)
        axes.xaxis.set_major_formatter(_formatter(places))
    if len(picture.series) > 1 or picture.series[0].label:
        axes.legend(fontsize=8, ncols=1 + len(picture.series) // 21, title=_left_out(picture))
    return figure


def _formatter(places: Any) -> Any:
    """How days and times stand below the axis: as short as they can be told from each other, the rest at its end."""
    from matplotlib import dates

    # For points at years, months, days, hours, minutes and seconds; what they have in common, by the same order.
    return dates.ConciseDateFormatter(places, formats=["%Y", "%Y-%m", "%m-%d", "%H:%M", "%H:%M", "%H:%M:%S.%f"],
                                      zero_formats=["", "%Y", "%Y-%m", "%m-%d", "%H:%M", "%H:%M"],
                                      offset_formats=["", "", "%Y", "%Y-%m-%d", "%Y-%m-%d", "%Y-%m-%d"])


def _left_out(picture: Picture) -> str | None:
    more = len(picture.series) - _MOST_LINES
    return f"{more} groups more are left out" if more > 0 else None


def draw_text(picture: Picture, width: int, height: int) -> str:
    """A picture of text: a mark for each line at each column, the values at the left and the points below."""
    low, high = picture.heights
    first, last = picture.bounds
    labels = [f"{high:,.10g}", f"{low:,.10g}"]
    margin = max(map(len, labels)) + 1
    columns = max(10, width - margin - 1)
    grid = [[" "] * columns for _ in range(height)]
    for number, one in enumerate(picture.series):
        for column in range(columns):
            value = _at(one, first + (last - first) * column / (columns - 1), last)
            if value is not None:
                row = 0 if high == low else round((high - value) / (high - low) * (height - 1))
                grid[row][column] = _MARKS[number] if number < len(_MARKS) else "?"
    lines = [f"{labels[0] if at == 0 else labels[1] if at == height - 1 else '':>{margin}}|{''.join(row).rstrip()}" for at, row in enumerate(grid)]
    ends = [picture.kind.shown(str(int(it))) for it in (first, last)]
    lines.append(" " * margin + "+" + "-" * columns)
    lines.append(" " * (margin + 1) + ends[0] + ends[1].rjust(columns - len(ends[0])))
    legend = [f"{_MARKS[at] if at < len(_MARKS) else '?'} {one.label}" for at, one in enumerate(picture.series[:_MOST_LINES]) if one.label]
    return "\n".join([picture.title, *lines, *legend]) + "\n"


def _at(one: Series, point: float, last: float) -> float | None:
    """The value of a line at a point, of which the last one ends the axis."""
    at = bisect_right(one.begins, point) - 1
    return one.values[at] if at >= 0 and (point < one.ends[at] or point == one.ends[at] == last) else None


def plot(call: Call) -> int:
    """Draws an aggregate into a file, or without one as text."""
    import shutil

    parser = call.parser()
    parser.add_argument("text")
    parser.add_argument("-o", dest="path")
    given = parser.parse_args(call.words)
    journal = call.journal()
    if given.path is not None:
        cleanup.check_target(given.path, journal.path)
    picture = picture_of(journal, given.text)
    if given.path is not None:
        draw(picture, given.path)
        call.console.say(f"{given.path}: {len(picture.series)} line{'' if len(picture.series) == 1 else 's'} over {picture.axis}")
        return 0
    size = shutil.get_terminal_size((80, 24))
    call.console.write(draw_text(picture, size.columns, max(8, size.lines - 6)).encode("utf-8"))
    return 0
