"""The delay curve of a chain over one hyperperiod from the warm-up tick, as a picture.

The delay jumps up at each anchor and falls by one tick a tick until the next. Where anchors lie too close to be told apart, a column of the picture, a pixel wide, spans
the delays in it instead: the table of the column's own anchors is lent to the proved calls, which give its greatest delay and its low.
"""
from __future__ import annotations

from bisect import bisect_left
from typing import List, NamedTuple, Tuple

from . import calls, measures
from .analysis import SLOTS, Figures
from .drawing import ALONE, ROOM_UP, Axis, Frame, apart, document, dot, grid, line, text, wide
from .lent import Chain, Table
from .measures import counted

# One anchor in so many pixels can still be told from the next; with more the picture is drawn in columns.
PIXELS = 3
# As many anchors as an instrument's report has room for are marked, with more the marks would be one band.
MOST_MARKS = SLOTS


class Span(NamedTuple):
    """A part of the curve without a jump: from its anchor to the next start, where the delay would have fallen to `end`."""

    start: int
    latency: int
    stop: int
    end: int


class Column(NamedTuple):
    """The delays of a column of the picture, from its first tick to the one before `stop`: the greatest, and the low, which is not reached."""

    start: int
    stop: int
    anchors: int
    greatest: int
    low: int


def spans(figures: Figures) -> List[Span]:
    """The parts of the curve, one for each anchor; where each ends is the low of its anchor alone."""
    starts, found = figures.table.starts, []
    for i, (start, latency) in enumerate(zip(starts, figures.table.latencies)):
        stop = starts[i + 1] if i + 1 < len(starts) else figures.warm + figures.hyperperiod
        found.append(Span(start, latency, stop, calls.low(Table([start], [latency], 1, stop - start))))
    return found


def column(chain: Chain, figures: Figures, start: int, stop: int) -> Column:
    """The ticks from start to the one before stop: the curve there is that of a table that begins with the delay at the first tick."""
    starts, latencies = figures.table.starts, figures.table.latencies
    first, last = bisect_left(starts, start), bisect_left(starts, stop)
    anchors, delays = list(starts[first:last]), list(latencies[first:last])
    if anchors[:1] != [start]:
        anchors, delays = [start, *anchors], [calls.delay(chain, start), *delays]
    within = Table(anchors, delays, len(anchors), stop - start)
    return Column(start, stop, last - first, calls.greatest(within), calls.low(within))


def columns(chain: Chain, figures: Figures, count: int) -> List[Column]:
    """So many columns of the picture, each at least a tick wide."""
    edges = [figures.warm + figures.hyperperiod * i // count for i in range(count + 1)]
    return [column(chain, figures, start, stop) for start, stop in zip(edges, edges[1:])]


def levels(figures: Figures) -> List[Tuple[str, object, str]]:
    """The lines across a curve: name, value, and what it is."""
    return [
        ("greatest", figures.greatest, "the greatest delay"),
        ("mean", figures.mean, "the mean delay, over every time of a hyperperiod"),
        ("low", figures.low, "low: every delay is above it"),
    ]


def level_label(value, up: Axis) -> str:
    return f"{measures.in_unit(value, up.unit())} {measures.sign(up.unit())}"


def axes(figures: Figures, frame: Frame) -> Tuple[Axis, Axis]:
    """The axes: ticks of a press over one hyperperiod, and delays, from 0 where that leaves the curve half of the height. Long labels take their room from the curve."""
    height = figures.greatest - figures.low
    bottom = 0 if 2 * figures.low <= figures.greatest else max(0, figures.low - max(1, height // 4))
    up = Axis(bottom, figures.greatest + max(1, height // 12), frame.bottom, frame.top)
    left = max(frame.left, 34 + wide(up.label(mark) for mark in up.marks(ROOM_UP)))
    right = min(frame.right, frame.width - 16 - wide(level_label(value, up) for _, value, _ in levels(figures)))
    return Axis(figures.warm, figures.warm + figures.hyperperiod, left, right), up


def singly(figures: Figures, frame: Frame) -> bool:
    """Whether the anchors are drawn one by one."""
    return figures.table.anchors * PIXELS <= frame.right - frame.left


def picture(chain: Chain, figures: Figures, name: str, frame: Frame = ALONE) -> str:
    """The picture of a chain's curve."""
    across, up = axes(figures, frame)
    parts = [*_titles(figures, name, frame), *grid(across, up, "press at", "delay")]
    drawn = _levels(figures, across, up)
    parts += [*drawn, *_sawtooth(figures, across, up)] if singly(figures, frame) else [*_columns(chain, figures, across, up), *drawn]
    return document(frame.width, frame.height, f"{name}: delay of a press over one hyperperiod", parts, frame.kind)


def close(figures: Figures) -> str:
    """What is said of a picture in columns."""
    many = "" if figures.table.anchors <= MOST_MARKS else ", too many to mark"
    return f"{figures.table.anchors:,} anchors{many}; each column spans the delays in it"


def _titles(figures: Figures, name: str, frame: Frame) -> List[str]:
    if not frame.titled:
        return []
    anchors = f"from the warm-up tick, {counted(figures.table.anchors, 'anchor')}" if singly(figures, frame) else close(figures)
    below = f"one hyperperiod of {measures.short(figures.hyperperiod)}, {anchors}"
    return [text(frame.left, 26, f"{name}: delay of a press", "ink title"), text(frame.left, 45, below, "faint")]


def _levels(figures: Figures, across: Axis, up: Axis) -> List[str]:
    """Greatest, mean and low as lines, named at the right."""
    labels = apart([up.place(value) for _, value, _ in levels(figures)], 34)
    parts, end = [], across.end + 6
    for (name, value, words), label in zip(levels(figures), labels):
        ends = [(across.start, up.place(value)), (end, up.place(value))]
        parts += [line(f"line dashed {name}-line", ends, more=f' data-level="{name}"'), line("hover", ends, f"{words}: {measures.said(value)}")]
        parts += [text(end + 6, label + 1, name, name), text(end + 6, label + 16, level_label(value, up), name)]
    return parts


def _sawtooth(figures: Figures, across: Axis, up: Axis) -> List[str]:
    """One falling line for each anchor, a thin rise to the next, and the anchors as dots."""
    falls, rises, dots = [], [], []
    every = spans(figures)
    # Where there is room, a hollow dot says that the end of a fall is not reached.
    hollow = len(every) * 24 <= across.end - across.start
    for i, span in enumerate(every):
        begin, end = (across.place(span.start), up.place(span.latency)), (across.place(span.stop), up.place(span.end))
        following = every[i + 1].latency if i + 1 < len(every) else every[0].latency
        falls.append(line("bold delay-line", [begin, end], more=f' data-start="{span.start}" data-latency="{span.latency}" data-stop="{span.stop}" data-end="{span.end}"'))
        rises.append(line("hair dotted delay-line", [end, (end[0], up.place(following))]))
        falling = f"press from {measures.said(span.start)} on, before {measures.said(span.stop)}: the delay falls from {measures.said(span.latency)} and stays above {measures.said(span.end)}"
        falls.append(line("hover", [begin, end], falling))
        if hollow:
            dots.append(dot("hollow paper delay-line", *end, 3.5, f"not reached: at {measures.said(span.stop)} the delay is {measures.said(following)}"))
    return [*rises, *falls, *dots, *_marks(figures, across, up, 4.5 if len(every) <= 60 else 2.5)]


def _marks(figures: Figures, across: Axis, up: Axis, radius: float) -> List[str]:
    """The anchors as dots."""
    count = figures.table.anchors
    return [
        dot("delay", across.place(start), up.place(latency), radius, f"anchor {i + 1} of {count}: a press at {measures.said(start)} waits {measures.said(latency)}", f' data-anchor="{i + 1}"')
        for i, (start, latency) in enumerate(zip(figures.table.starts, figures.table.latencies))
    ]


def _columns(chain: Chain, figures: Figures, across: Axis, up: Axis) -> List[str]:
    parts = []
    # A pixel each, or a tick where there are fewer ticks.
    for each in columns(chain, figures, min(int(across.end - across.start), figures.hyperperiod)):
        x = (across.place(each.start) + across.place(each.stop)) / 2
        title = (
            f"press from {measures.said(each.start)} on, before {measures.said(each.stop)}: {counted(each.anchors, 'anchor')}, "
            f"delays up to {measures.said(each.greatest)} and above {measures.said(each.low)}"
        )
        more = f' data-start="{each.start}" data-stop="{each.stop}" data-greatest="{each.greatest}" data-low="{each.low}"'
        parts.append(line("line column delay-line", [(x, up.place(each.greatest)), (x, up.place(each.low))], title, more))
    return parts + (_marks(figures, across, up, 1.2) if figures.table.anchors <= MOST_MARKS else [])
