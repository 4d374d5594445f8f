"""The jobs on the way of a press, as a picture: a row for each place, a bar from the read of a job to its write, and the wait for the next place's read."""
from __future__ import annotations

from typing import List, NamedTuple, Sequence, Tuple

from . import measures
from .analysis import Job, jobs_between, way_of_press
from .drawing import Axis, box, document, line, text
from .lent import Chain

TOP = 34
# The width of a picture, and where its rows begin and end: in a page, and in one of a phone's width.
WIDE = (900, 96, 866, "wide")
NARROW = (420, 86, 394, "narrow")
# A row with more jobs shows those on the way alone.
MOST_JOBS = 80


class Rows(NamedTuple):
    """The rows of a picture, one for each place: their height."""

    height: int

    def middle(self, place: int) -> float:
        return TOP + self.height * (place - 0.5)

    def bottom(self, places: int) -> int:
        return TOP + self.height * places

    def bar(self) -> float:
        return self.height * 0.54


def picture(chain: Chain, numbers: Sequence[int], press: int, name: str, frame: Tuple[int, int, int, str] = WIDE) -> str:
    """The way of a press at this tick; `numbers` are those of the tasks at the places. Time is counted from the press."""
    width, left, right, kind = frame
    way = way_of_press(chain, press)
    rows = Rows(30 if chain.places <= 6 else 22)
    bottom = rows.bottom(chain.places)
    waited = way[-1].write - press
    margin = max(1, waited // 40)
    across = Axis(-min(press, margin), waited + margin, left, right)
    parts = _grid(across, bottom)
    for job, number in zip(way, numbers):
        parts += _row(chain, job, number, press, across, rows)
    parts += [*_links(chain, way, press, across, rows), *_ends(press, way[-1].write, across, bottom)]
    return document(width, bottom + 54, f"{name}: the jobs on the way of the press at tick {press}", parts, kind)


def _grid(across: Axis, bottom: float) -> List[str]:
    parts = []
    for value in across.marks(96):
        x = across.place(value)
        if value >= 0:
            parts += [line("hair grid-line", [(x, TOP - 6), (x, bottom + 5)]), text(x, bottom + 21, across.label(value), "faint", "middle")]
    parts.append(text((across.start + across.end) / 2, bottom + 44, f"time after the press ({measures.sign(across.unit())})", "ink", "middle"))
    return parts


def _row(chain: Chain, job: Job, number: int, press: int, across: Axis, rows: Rows) -> List[str]:
    """One place: its other jobs behind, and the one on the way before them."""
    middle = rows.middle(job.place)
    parts = [text(across.start - 10, middle + 4.5, f"task {number}", "ink", "end")]
    others = jobs_between(chain, job.place, press + across.first, press + across.last, MOST_JOBS)
    if others is None:
        parts.append(line("hair dotted faint-line", [(across.start, middle), (across.end, middle)], f"task {number}: more than {MOST_JOBS} jobs, which are not drawn one by one"))
    for other in others or []:
        if other.number != job.number:
            begin, end = max(across.place(other.read - press), across.start), min(across.place(other.write - press), across.end)
            parts.append(box("idle", begin, middle - 3, max(1, end - begin - 1), 6, _said(other, number), f' data-place="{job.place}" data-other="{other.number}"'))
    begin, end = across.place(job.read - press), across.place(job.write - press)
    more = f' rx="2" data-place="{job.place}" data-job="{job.number}" data-read="{job.read}" data-write="{job.write}"'
    parts.append(box("delay", begin, middle - rows.bar() / 2, max(2, end - begin), rows.bar(), _said(job, number), more))
    return parts


def _said(job: Job, number: int) -> str:
    return f"place {job.place}, task {number}, job {job.number:,}: reads at {measures.said(job.read)}, writes at {measures.said(job.write)}"


def _links(chain: Chain, way: Sequence[Job], press: int, across: Axis, rows: Rows) -> List[str]:
    """From each write to the read of the next place, with the gap where there is one."""
    parts = []
    for job, following in zip(way, way[1:]):
        write, read = across.place(job.write - press), across.place(following.read - press)
        above, below = rows.middle(job.place), rows.middle(following.place)
        if chain.gap:
            gap = [(write, above), (across.place(job.write + chain.gap - press), above)]
            parts.append(line("line dotted mean-line", gap, f"readable {measures.said(chain.gap)} after the write"))
        bend = [(write, above), (write, below), (read, below)]
        parts += [line("line delay-line", bend), line("hover", bend, f"written at {measures.said(job.write)}, read by place {following.place} at {measures.said(following.read)}")]
    return parts


def _ends(press: int, booked: int, across: Axis, bottom: float) -> List[str]:
    first, last = across.place(0), across.place(booked - press)
    return [
        line("line greatest-line", [(first, TOP - 8), (first, bottom)], f"press at {measures.said(press)}"),
        line("line greatest-line", [(last, TOP - 8), (last, bottom)], f"booked at {measures.said(booked)}"),
        text(first, TOP - 14, "press", "greatest", "start"),
        text(last, TOP - 14, f"booked {measures.short(booked - press)} later", "greatest", "end"),
    ]
