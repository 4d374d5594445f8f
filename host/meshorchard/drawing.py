"""Pieces of pictures in SVG: frames, axes with round numbers and their grid, lines, texts, and the colours for light and dark."""
from __future__ import annotations

import itertools
from html import escape
from typing import Iterable, Iterator, List, NamedTuple

from . import measures

# Name, colour on light, colour on dark.
COLOURS = (
    ("paper", "#ffffff", "#15191e"),
    ("ink", "#1c2228", "#e7eaed"),
    ("faint", "#5d6873", "#9aa5b0"),
    ("grid", "#e3e7eb", "#2b323a"),
    ("delay", "#0a62c4", "#62b0ff"),
    ("greatest", "#b3261e", "#ff8f86"),
    ("mean", "#8a5a00", "#f0c050"),
    ("low", "#1b7a3d", "#70d694"),
    ("idle", "#c9d1d9", "#3c4651"),
)
# How far the marks of an axis lie apart, in pixels: across, where a label stands below each, and up.
ROOM_ACROSS = 88
ROOM_UP = 38


class Frame(NamedTuple):
    """The size of a picture and of what is drawn between its axes, with a title above it or without."""

    width: int
    height: int
    left: int
    right: int
    top: int
    bottom: int
    kind: str
    titled: bool


# A picture for itself, one in a page, and one in a page of a phone's width.
ALONE = Frame(900, 420, 74, 778, 58, 362, "alone", True)
WIDE = Frame(900, 360, 74, 778, 12, 302, "wide", False)
NARROW = Frame(420, 320, 72, 306, 12, 262, "narrow", False)


def rules(picture: str) -> str:
    """The style rules of every picture, below this selector: classes for filling, for lines, and for texts."""
    def coloured(which: int) -> str:
        fills = "".join(f"{picture} .{name[0]}{{fill:{name[which]}}}{picture} .{name[0]}-line{{stroke:{name[which]}}}" for name in COLOURS)
        return fills
    fixed = (
        f"{picture} text{{font-family:system-ui,-apple-system,'Segoe UI',Roboto,'Helvetica Neue',Arial,sans-serif;font-size:13px}}"
        f"{picture} .title{{font-size:17px;font-weight:600}}"
        f"{picture} .line{{fill:none;stroke-width:1.5}}{picture} .bold{{fill:none;stroke-width:2.2;stroke-linecap:round}}"
        f"{picture} .hair{{fill:none;stroke-width:1}}{picture} .dashed{{stroke-dasharray:5 4}}{picture} .dotted{{stroke-dasharray:1.5 4}}"
        f"{picture} .hollow{{stroke-width:1.5}}{picture} .column{{stroke-width:1.1;stroke-opacity:.45}}{picture} .hover{{fill:none;stroke:transparent;stroke-width:14;pointer-events:stroke}}"
    )
    return f"{fixed}{coloured(1)}@media (prefers-color-scheme:dark){{{coloured(2)}}}@media print{{{coloured(1)}}}"


def document(width: int, height: int, name: str, parts: Iterable[str], kind: str) -> str:
    """A picture of some kind. One that stands alone brings its style and its paper; in a page both are the page's."""
    head = f'<svg xmlns="http://www.w3.org/2000/svg" class="picture {kind}" viewBox="0 0 {width} {height}" role="img" aria-label="{escape(name)}"'
    if kind == "alone":
        head += f' width="{width}" height="{height}">\n<style>{rules(".picture")}</style>\n<rect class="paper" width="{width}" height="{height}"/>'
    else:
        head += ">"
    return "\n".join([head, *parts, "</svg>"]) + "\n"


def wide(labels: Iterable[str]) -> float:
    """The room of the longest of some labels, a little more than the widest usual letters take."""
    return max(7.6 * len(label) for label in labels)


def at(value: float) -> str:
    """A coordinate, to a hundredth."""
    return f"{value:.2f}".rstrip("0").rstrip(".")


def text(x: float, y: float, said: str, kind: str = "ink", anchor: str = "start", more: str = "") -> str:
    return f'<text class="{kind}" x="{at(x)}" y="{at(y)}" text-anchor="{anchor}"{more}>{escape(said)}</text>'


def line(kind: str, points: Iterable[tuple], title: str = "", more: str = "") -> str:
    """A line through points, with a title to hover over."""
    path = "L".join(f"{at(x)} {at(y)}" for x, y in points)
    inner = f"><title>{escape(title)}</title></path>" if title else "/>"
    return f'<path class="{kind}" d="M{path}"{more}{inner}'


def box(kind: str, x: float, y: float, width: float, height: float, title: str = "", more: str = "") -> str:
    inner = f"><title>{escape(title)}</title></rect>" if title else "/>"
    return f'<rect class="{kind}" x="{at(x)}" y="{at(y)}" width="{at(width)}" height="{at(height)}"{more}{inner}'


def dot(kind: str, x: float, y: float, radius: float, title: str, more: str = "") -> str:
    return f'<circle class="{kind}" cx="{at(x)}" cy="{at(y)}" r="{at(radius)}"{more}><title>{escape(title)}</title></circle>'


def rounds() -> Iterator[int]:
    """The round numbers: 1, 2, 5, 10, 20, 50 and so on."""
    for power in itertools.count():
        yield from (times * 10**power for times in (1, 2, 5))


class Axis(NamedTuple):
    """Ticks from first to last, drawn from one coordinate to another."""

    first: int
    last: int
    start: float
    end: float

    def place(self, value) -> float:
        return self.start + (self.end - self.start) * float(value - self.first) / (self.last - self.first)

    def unit(self) -> str:
        return measures.unit_for(self.last)

    def step(self, room: float) -> int:
        """The smallest round number of ticks whose marks are this far apart."""
        apart = (self.last - self.first) * room / abs(self.end - self.start)
        return next(step for step in rounds() if step >= apart)

    def marks(self, room: float) -> List[int]:
        """Round numbers on the axis, at least two, since one gives no scale: closer together where it must be."""
        step = self.step(room)
        first = -(-self.first // step) * step
        found = list(range(first, self.last + 1, step))
        return found if len(found) > 1 else self.marks(room / 2)

    def label(self, value: int) -> str:
        return measures.in_unit(value, self.unit())

    def name(self, of: str) -> str:
        """What stands at the axis: what it is of, and its unit."""
        return f"{of} ({measures.sign(self.unit())})"


class Counts(Axis):
    """An axis of plain numbers, which have no unit."""

    __slots__ = ()

    def label(self, value: int) -> str:
        return f"{value:,}"

    def name(self, of: str) -> str:
        return of


def grid(across: Axis, up: Axis, below: str, beside: str, room: float = ROOM_ACROSS) -> List[str]:
    """The two axes with their marks, a line through the picture at each, and what they are of. Those across lie so far apart."""
    left, right, top, bottom = across.start, across.end, up.end, up.start
    parts = []
    for value in up.marks(ROOM_UP):
        y = up.place(value)
        parts += [line("hair grid-line", [(left, y), (right, y)]), text(left - 8, y + 4.5, up.label(value), "faint", "end")]
    for value in across.marks(room):
        x = across.place(value)
        parts += [line("hair grid-line", [(x, top), (x, bottom + 5)]), text(x, bottom + 21, across.label(value), "faint", "middle")]
    parts.append(line("hair faint-line", [(left, top), (left, bottom), (right, bottom)]))
    parts.append(text((left + right) / 2, bottom + 44, across.name(below), "ink", "middle"))
    middle = (top + bottom) / 2
    parts.append(text(15, middle, up.name(beside), "ink", "middle", f' transform="rotate(-90 15 {at(middle)})"'))
    return parts


def apart(places: List[float], room: float) -> List[float]:
    """Places for labels that lie at least so far from each other, near those asked for, in the order given from top to bottom."""
    moved: List[float] = []
    for place in places:
        moved.append(max(place, moved[-1] + room) if moved else place)
    # Back up by half of what the last was pushed down, so that all of them stay near.
    pushed = max(after - before for before, after in zip(places, moved)) if places else 0
    return [place - pushed / 2 for place in moved]
