"""How often each delay of a chain occurs, as a picture: a bar for each step of delays, as high as so many ticks of one hyperperiod have such a delay.

The counts are those of the proved call. The mean is drawn where it lies among the delays.
"""
from __future__ import annotations

from typing import List, Sequence, Tuple

from .analysis import Bar, Figures, entries, too_many
from .drawing import ALONE, ROOM_ACROSS, ROOM_UP, Axis, Counts, Frame, box, document, grid, line, rounds, text, wide
from .measures import counted, percent, said, short

# Room above the bars for the name of the mean.
ABOVE = 18
# A bar that is lower than this can be hovered over up to here.
REACH = 14
# As many bars as a page shows of a chain.
MOST_ON_PAGE = 40


def round_width(figures: Figures) -> int:
    """The smallest round width with which a page has room for every bar."""
    return next(width for width in rounds() if len(entries(figures, width)) <= MOST_ON_PAGE and not too_many(figures, width))


def room(across: Axis) -> float:
    """How far the marks of the delays lie apart. Only widths far above every delay have labels that need more than usual."""
    return max(ROOM_ACROSS, 12 + wide([across.label(across.last)]))


def axes(figures: Figures, bars: Sequence[Bar], frame: Frame) -> Tuple[Axis, Axis]:
    """The axes: delays from the first bar to the last, and ticks from 0. The mean is of every time, so it may lie below every delay of a whole tick, but never below the low: the axis reaches
    down to that."""
    top = max(bar.count for bar in bars)
    up = Counts(0, top + max(1, top // 12), frame.bottom, frame.top + ABOVE)
    left = max(frame.left, 34 + wide(up.label(mark) for mark in up.marks(ROOM_UP)))
    across = Axis(min(bars[0].start, figures.low), bars[-1].stop, left, frame.width - 16)
    # The label of a mark at the end of the axis is as much right of it as left.
    over = wide(across.label(mark) for mark in across.marks(room(across))) / 2
    return across._replace(end=frame.width - 8 - over), up


def picture(figures: Figures, bars: Sequence[Bar], name: str, frame: Frame = ALONE) -> str:
    """The picture of a chain's histogram."""
    across, up = axes(figures, bars, frame)
    parts = [*_titles(figures, bars, name, frame), *grid(across, up, "delay", "ticks", room(across)), *_bars(figures, bars, across, up), *_mean(figures, across, up)]
    return document(frame.width, frame.height, f"{name}: how often each delay occurs over one hyperperiod", parts, frame.kind)


def _titles(figures: Figures, bars: Sequence[Bar], name: str, frame: Frame) -> List[str]:
    if not frame.titled:
        return []
    below = f"{counted(figures.hyperperiod, 'tick')} of one hyperperiod, by delays in steps of {short(bars[0].stop - bars[0].start)}"
    return [text(frame.left, 26, f"{name}: how often each delay occurs", "ink title"), text(frame.left, 45, below, "faint")]


def _bars(figures: Figures, bars: Sequence[Bar], across: Axis, up: Axis) -> List[str]:
    """The bars. One with a tick is high enough to be seen, and a hair's breadth lies between two where there is room for it."""
    parts = []
    for bar in bars:
        begin, end = across.place(bar.start), across.place(bar.stop)
        breadth = end - begin - (1 if end - begin >= 4 else 0)
        height = max(1, up.start - up.place(bar.count)) if bar.count else 0
        title = f"delays from {said(bar.start)} to below {said(bar.stop)}: {counted(bar.count, 'tick')}, {percent(bar.count, figures.hyperperiod)}"
        more = f' fill-opacity=".5" data-from="{bar.start}" data-to="{bar.stop}" data-count="{bar.count}"'
        parts.append(box("delay", begin, up.start - height, breadth, height, title, more))
        if height < REACH:
            parts.append(box("reach", begin, up.start - REACH, breadth, REACH, title, ' fill-opacity="0"'))
    return parts


def _mean(figures: Figures, across: Axis, up: Axis) -> List[str]:
    """The mean as a line, named above the bars."""
    x, label = across.place(figures.mean), f"mean {short(figures.mean)}"
    ends, half = [(x, up.end - 4), (x, up.start)], wide([label]) / 2
    return [
        line("line dashed mean-line", ends, more=' data-level="mean"'),
        line("hover", ends, f"the mean delay, over every time of a hyperperiod: {said(figures.mean)}"),
        text(min(max(x, across.start + half), across.end - half), up.end - 8, label, "mean", "middle"),
    ]
