"""The curve, the histogram and the page of ./meshorchard: what is drawn and said against the reference.

    python3 tests/pictures.py [--count FACTOR] [--seed SEED]

Positions are read off the pictures as a reader would: the axes give the scale, by their marks and labels. At every pixel of a curve the delay that is drawn there is compared
with that of the walk at the pixel's tick, and every bar of a histogram with the reference's count. The last line is 'N passed, M failed', in groups.
"""
import argparse
import bisect
import dataclasses
import glob
import math
import os
import random
import re
import subprocess
import sys
import tempfile
import time
import xml.etree.ElementTree as ElementTree
from fractions import Fraction

HERE = os.path.dirname(os.path.abspath(__file__))
TOP = os.path.dirname(HERE)
sys.path[:0] = [HERE, os.path.join(TOP, "reference")]
import inputs
import meshorchard_reference as reference
import proved
from meshorchard import Chain, Schedule, analysis, calls, curve, drawing, histogram, page, timeline

GROUPS = []
SVG = "{http://www.w3.org/2000/svg}"
# Coordinates are written to a hundredth of a pixel, and read off marks that are.
NEAR = 0.03


class Wrong(Exception):
    """A picture does not show what it should."""


def group(function):
    GROUPS.append(function)
    return function


def same(ours, theirs, *about):
    if ours != theirs:
        raise Wrong(f"{about}: {ours!r}, and not {theirs!r}")


def near(ours, theirs, *about, slope=0):
    """Two coordinates are the same; where a steep line is crossed, what is lost across counts as often as the line is steep."""
    if abs(ours - theirs) > NEAR * (1 + abs(slope)):
        raise Wrong(f"{about}: drawn at {ours}, and not at {float(theirs):.3f}")


# ---- Reading a picture

def points(path):
    """The points of a path."""
    return [tuple(map(float, point.split())) for point in path.get("d")[1:].split("L")]


def of_class(root, name):
    return [element for element in root.iter() if name in (element.get("class") or "").split()]


def title(element):
    return element.find(f"{SVG}title").text


class Scale:
    """From ticks to a coordinate, by two marks of an axis and their labels."""

    def __init__(self, marks, unit):
        # What is no time has no unit.
        ticks = {"µs": 1, "ms": 1000, None: 1}[unit]
        found = sorted({(Fraction(label.replace(",", "")) * ticks, place) for label, place in marks})
        (first, start), (last, end) = (found[0], found[-1]) if len(found) > 1 else (found[0], found[0])
        same(len(found) > 1, True, "two marks on an axis", marks)
        self.first, self.start, self.each = first, start, (end - start) / float(last - first)
        for value, place in found:
            near(place, self(value), "a mark of an axis", value)

    def __call__(self, value):
        return self.start + float(value - self.first) * self.each


def scales(root, below="press at", beside="delay"):
    """The scales across and up of a picture, by what stands at its axes: each grid line has its label after it."""
    elements = list(root)
    across, up = [], []
    for mark, label in zip(elements, elements[1:]):
        if mark.get("class") == "hair grid-line":
            (x, y), (other, _) = points(mark)
            (across if x == other else up).append((label.text, x if x == other else y))
    units = [re.fullmatch(rf"({below}|{beside})(?: \((.*)\))?", text.text or "") for text in root.iter(f"{SVG}text")]
    names = {found[1]: found[2] for found in units if found}
    return Scale(across, names[below]), Scale(up, names[beside])


# ---- The curve

def check_falls(root, tasks, gap, x0, h, across, up):
    """A curve with its anchors drawn one by one: at every pixel the drawn height is that of the delay at the pixel's tick."""
    falls = of_class(root, "bold")
    starts = [int(fall.get("data-start")) for fall in falls]
    same((starts[0], starts), (x0, sorted(starts)), "starts")
    left, right = across(x0), across(x0 + h)
    for pixel in range(math.floor(right) - math.ceil(left) + 1):
        tick = min(x0 + h - 1, x0 + math.floor(h * (pixel / (right - left))))
        (x, y), (end, low) = points(falls[bisect.bisect_right(starts, tick) - 1])
        slope = (low - y) / (end - x)
        _, delay = reference.delay(tasks, gap, tick)
        near(y + slope * (across(tick) - x), up(delay), "the delay at a pixel", tasks, gap, tick, slope=slope)
    return int(right - left)


def least(tasks, gap, start, stop, anchors):
    """The greatest and the least delay of the ticks from start to the one before stop: at the ends, at each anchor and before it."""
    inside = anchors[bisect.bisect_left(anchors, start):bisect.bisect_left(anchors, stop)]
    ticks = {start, stop - 1, *inside, *[max(start, anchor - 1) for anchor in inside]}
    delays = [reference.delay(tasks, gap, tick)[1] for tick in ticks]
    return max(delays), min(delays)


def check_columns(root, tasks, gap, x0, h, across, up, anchors):
    """A curve in columns: they follow on each other, and each spans the delays of its ticks."""
    columns, at = of_class(root, "column"), x0
    for column in columns:
        start, stop = int(column.get("data-start")), int(column.get("data-stop"))
        same(start, at, "columns in a row", tasks)
        at = stop
        (x, top), (_, bottom) = points(column)
        near(x, (across(start) + across(stop)) / 2, "a column", tasks, start)
        most, fewest = least(tasks, gap, start, stop, anchors)
        near(top, up(most), "the greatest delay in a column", tasks, gap, start, stop)
        # The low of a column is not reached: it is where the least delay has fallen to at the end of its tick.
        near(bottom, up(fewest - 1), "the low of a column", tasks, gap, start, stop)
        same(f"delays up to {most:,} µs" in title(column) and f"above {fewest - 1:,} µs" in title(column), True, "the title of a column", title(column), most, fewest)
    same(at, x0 + h, "the last column", tasks)
    return len(columns)


def check_curve(root, tasks, gap):
    """Everything in one curve. How many pixels were looked at."""
    _, _, x0, h = reference.warm_up(tasks, gap)
    anchors = reference.anchors(tasks, gap, cut(tasks))
    starts, latencies = [start for start, _ in anchors], [latency for _, latency in anchors]
    across, up = scales(root)
    table = (starts, latencies, len(starts), h)
    area, ticks = reference.mean(*table)[1:]
    levels = {"greatest": reference.greatest(*table)[1], "low": reference.low(*table)[1], "mean": Fraction(area, ticks)}
    for line in root.iter(f"{SVG}path"):
        if line.get("data-level"):
            (_, y), (_, other) = points(line)
            near(y, up(levels.pop(line.get("data-level"))), "a level", tasks, gap)
            same(y, other, "a level line")
    same(levels, {}, "levels that are not drawn", tasks)
    marks = [mark for mark in root.iter(f"{SVG}circle") if mark.get("data-anchor")]
    same(len(marks), len(starts) if len(starts) <= 1024 else 0, "anchors marked", tasks)
    for mark, start, latency in zip(marks, starts, latencies):
        near(float(mark.get("cx")), across(start), "an anchor", tasks, start)
        near(float(mark.get("cy")), up(latency), "an anchor", tasks, start)
        for value in (start, latency):
            same(f" {value:,} µs" in title(mark), True, "the title of an anchor", title(mark), value)
    if of_class(root, "column"):
        return check_columns(root, tasks, gap, x0, h, across, up, starts)
    return check_falls(root, tasks, gap, x0, h, across, up)


def cut(tasks):
    periods = [t for t, _, _ in tasks]
    return periods.index(max(periods)) + 1


def quick(tasks, gap):
    """Whether the reference is quick on a chain that is accepted."""
    if reference.check_chain(tasks, gap)[0] != "ok":
        return False
    periods = [t for t, _, _ in tasks]
    return math.lcm(*periods) // max(periods) <= 6000


def bytes_of(path):
    with open(path, "rb") as file:
        return file.read()


def drawn(tasks, gap, frame):
    chain = Chain.of(tasks, gap)
    return ElementTree.fromstring(curve.picture(chain, analysis.made(chain), "a chain", frame))


def schedules():
    """The examples that are accepted, by name, as tasks (T, D, F) of each chain."""
    for name in sorted(glob.glob(os.path.join(TOP, "examples", "*.schedule"))):
        with open(name, "rb") as file:
            _, tasks, chains, gap = reference.read_file(file.read())
        task_of = {number: tuple(task) for number, *task in tasks}
        yield name, [[task_of[number] for number in chain] for chain in chains], chains, gap


@group
def example_curves(r, factor):
    """curves of the examples, by the command"""
    with tempfile.TemporaryDirectory() as folder:
        out = os.path.join(folder, "out.svg")
        for name, chains, _, gap in schedules():
            for number, tasks in enumerate(chains, start=1):
                if reference.check_chain(tasks, gap)[0] != "ok":
                    continue
                subprocess.run([os.path.join(TOP, "meshorchard"), "curve", name, "-o", out, "--chain", str(number)], check=True)
                root = ElementTree.parse(out).getroot()
                same((root.get("width"), root.get("height")), ("900", "420"), "the size", name)
                yield check_curve(root, tasks, gap)


@group
def documents(r, factor):
    """the pictures in docs/, which are those that the command draws now, and the examples' files and reports, which are those of their texts"""
    with tempfile.TemporaryDirectory() as folder:
        out, command = os.path.join(folder, "out"), os.path.join(TOP, "meshorchard")
        for picture in sorted(glob.glob(os.path.join(TOP, "docs", "*.svg"))):
            name = os.path.join(TOP, "examples", os.path.basename(picture)[:-4])
            subprocess.run([command, "curve", name + ".schedule", "-o", out], check=True)
            same(bytes_of(out) == bytes_of(picture), True, "a picture of docs/", picture)
            yield 1
        for text in sorted(glob.glob(os.path.join(TOP, "examples", "*.txt"))):
            subprocess.run([command, "write", text, out], check=True, stdout=subprocess.DEVNULL, stderr=subprocess.DEVNULL)
            same(bytes_of(out), bytes_of(text[:-4] + ".schedule"), "the file of a text", text)
            report = subprocess.run([command, "report", out], stdout=subprocess.PIPE).stdout
            same(report, bytes_of(text[:-4] + ".report"), "the report of a text", text)
            yield 1


@group
def random_curves(r, factor):
    """curves of random chains, in each size of a picture"""
    kinds = set()
    for i in range(int(60 * factor)):
        tasks = r.choice([inputs.chain, inputs.cut_chain, inputs.far_chain])(r)
        tasks, gap = inputs.linked(r, tasks)
        if quick(tasks, gap):
            root = drawn(tasks, gap, (drawing.ALONE, drawing.WIDE, drawing.NARROW, page.SHEET)[i % 4])
            kinds.add("columns" if of_class(root, "column") else "falls")
            yield check_curve(root, tasks, gap)
    same(kinds, {"columns", "falls"}, "kinds of curves")


@group
def crowded_curves(r, factor):
    """curves of more anchors than a report holds, and of as many as a picture marks"""
    found = set()
    for periods in ((997, 1000), (1023, 1024), (1024, 1025), (1025, 1026), (1999, 2000), (47, 16, 9, 5, 7), (1, 1), (1,), (2, 3)):
        tasks, gap = [(t, r.randint(1, 3 * t), r.randint(0, 50)) for t in periods], r.choice([0, 7])
        root = drawn(tasks, gap, drawing.ALONE)
        found.add(min(len(reference.anchors(tasks, gap, cut(tasks))), 1025) > 1024)
        yield check_curve(root, tasks, gap)
    same(found, {True, False}, "tables of more than 1,024 anchors, and others")


# ---- How often each delay occurs

def table_of(tasks, gap):
    """The table of a chain as the reference has it."""
    anchors = reference.anchors(tasks, gap, cut(tasks))
    return [start for start, _ in anchors], [latency for _, latency in anchors], len(anchors), reference.hyperperiod(tasks)


def counted(table, width):
    """The counts of a histogram from the first with ticks to the last, with the number of the first, by the reference."""
    answer, counts, rest = reference.histogram(*table, width, reference.greatest(*table)[1] // width + 1)
    same((answer, rest), ("ok", 0), "a histogram up to the greatest delay", table, width)
    occurring = [i for i, count in enumerate(counts) if count]
    return occurring[0], counts[occurring[0]:occurring[-1] + 1]


def bars_of(table, width):
    """How many bars a histogram has from the least delay to the greatest, and how many counts its list."""
    least, top = reference.low(*table)[1] + 1, reference.greatest(*table)[1]
    return top // width - least // width + 1, top // width + 1


def told(ticks):
    """A time as a title tells it."""
    return f"{ticks:,} µs" if ticks < 1000 else f"{ticks:,} µs ({shown(ticks)})"


def share(count, h):
    """A share in percent, to a tenth, marked where it is rounded."""
    tenths = math.floor(Fraction(1000 * count, h) + Fraction(1, 2))
    return f"{'' if 1000 * count == tenths * h else '≈ '}{tenths // 10}.{tenths % 10} %"


def check_bars(root, first, counts, width, h, across, up):
    """The bars of a histogram: one for each entry, in a row, as high as its count."""
    bars = [bar for bar in of_class(root, "delay") if bar.get("data-count")]
    same([(int(bar.get("data-from")), int(bar.get("data-to")), int(bar.get("data-count"))) for bar in bars],
         [((first + i) * width, (first + i + 1) * width, count) for i, count in enumerate(counts)], "the bars of a histogram", width)
    bottom = up(0)
    for i, (bar, count) in enumerate(zip(bars, counts), start=first):
        begin, end = across(i * width), across((i + 1) * width)
        near(float(bar.get("x")), begin, "the left edge of a bar", i, width)
        # Between two bars there is a hair's breadth where there is room, and a single tick can still be seen.
        if abs(end - begin - 4) > NEAR:
            near(float(bar.get("width")), end - begin - 1 if end - begin > 4 else end - begin, "the breadth of a bar", i, width)
        near(float(bar.get("height")), max(1, bottom - up(count)) if count else 0, "the height of a bar", i, width, count)
        near(float(bar.get("y")) + float(bar.get("height")), bottom, "the foot of a bar", i, width)
        ticks = "1 tick" if count == 1 else f"{count:,} ticks"
        same(title(bar), f"delays from {told(i * width)} to below {told((i + 1) * width)}: {ticks}, {share(count, h)}", "the title of a bar")
    # What is too low to be hovered over has its title up to 14 pixels as well.
    reached = [bar for bar in of_class(root, "reach")]
    low = [bar for bar in bars if float(bar.get("height")) < 14]
    same([(title(bar), bar.get("x"), bar.get("width"), bar.get("height")) for bar in reached], [(title(bar), bar.get("x"), bar.get("width"), "14") for bar in low], "low bars")
    return len(bars)


def check_histogram(root, tasks, gap, width):
    """Everything in one histogram. How many bars were looked at."""
    table = table_of(tasks, gap)
    first, counts = counted(table, width)
    across, up = scales(root, "delay", "ticks")
    (level,) = [line for line in root.iter(f"{SVG}path") if line.get("data-level")]
    (x, _), (other, _) = points(level)
    mean = Fraction(*reference.mean(*table)[1:])
    same((level.get("data-level"), x), ("mean", other), "the mean's line")
    near(x, across(mean), "the mean", tasks, gap)
    same([text.text for text in of_class(root, "mean")], [f"mean {shown(mean)}"], "what is said of the mean")
    # Nothing lies outside of the axes, the mean neither.
    (left, top), (_, bottom), (right, _) = points(of_class(root, "faint-line")[0])
    bars = of_class(root, "delay")
    same(left - NEAR <= min(x, float(bars[0].get("x"))) and float(bars[-1].get("x")) + float(bars[-1].get("width")) <= right + NEAR, True, "the ends of the axis", left, right)
    same(all(top - NEAR <= float(bar.get("y")) for bar in bars), True, "the top of the axis", top)
    near(bottom, up(0), "the foot of the axis")
    return check_bars(root, first, counts, width, table[3], across, up)


def some_width(r, tasks, gap):
    """A width with few bars or with many, but with no more than the command shows."""
    table = table_of(tasks, gap)
    low, top = reference.low(*table)[1], reference.greatest(*table)[1]
    widths = [1, top, top + 1, 2 * top, *[max(1, (top - low) // parts) for parts in (1, 2, 5, 20, 60, 150, 250, 350, 480, 499)]]
    return r.choice([width for width in widths if bars_of(table, width)[0] <= 500 and bars_of(table, width)[1] <= 2**20])


@group
def example_histograms(r, factor):
    """histograms of the examples, by the command"""
    with tempfile.TemporaryDirectory() as folder:
        out = os.path.join(folder, "out.svg")
        for name, chains, _, gap in schedules():
            for number, tasks in enumerate(chains, start=1):
                if reference.check_chain(tasks, gap)[0] != "ok":
                    continue
                for width in (some_width(r, tasks, gap), some_width(r, tasks, gap)):
                    command = [os.path.join(TOP, "meshorchard"), "histogram", name, "--width", str(width), "-o", out, "--chain", str(number)]
                    subprocess.run(command, check=True)
                    root = ElementTree.parse(out).getroot()
                    same((root.get("width"), root.get("height")), ("900", "420"), "the size", name)
                    titles = [text.text for text in list(root)[2:4]]
                    of = os.path.basename(name)[:-9] + (f", chain {number}" if len(chains) > 1 else "")
                    h = reference.hyperperiod(tasks)
                    same(titles, [f"{of}: how often each delay occurs", f"{h:,} ticks of one hyperperiod, by delays in steps of {shown(width)}"], "titles")
                    yield check_histogram(root, tasks, gap, width)


@group
def random_histograms(r, factor):
    """histograms of random chains, in each size of a picture, of very wide bars, and of entries without a tick"""
    breadths = set()
    for i in range(int(90 * factor)):
        tasks, gap = inputs.linked(r, r.choice([inputs.chain, inputs.cut_chain, inputs.far_chain])(r))
        if quick(tasks, gap):
            figures, width = analysis.made(Chain.of(tasks, gap)), some_width(r, tasks, gap) if i % 9 else 2**64 - 1
            # A very wide bar has labels that a narrow picture has no room for; a page has no such bar.
            frame = (drawing.ALONE, drawing.WIDE, drawing.NARROW)[i % 3 if width < 10**9 else 0]
            root = ElementTree.fromstring(histogram.picture(figures, analysis.histogram(figures, width), "a chain", frame))
            breadths.add(min(len([bar for bar in of_class(root, "delay")]), 300) // 100)
            yield check_histogram(root, tasks, gap, width)
    same(breadths, {0, 1, 2, 3}, "histograms with few bars and with many")
    # Every chain has delays from the least to the greatest without a gap, so entries without a tick are made up.
    for counts in ([6, 0, 6], [1, 0, 0, 10**6, 0, 7], [1]):
        figures = dataclasses.replace(analysis.made(Chain.of([(4, 4, 0), (6, 6, 0)])), hyperperiod=sum(counts))
        bars = [analysis.Bar((2 + i) * 5, (3 + i) * 5, count) for i, count in enumerate(counts)]
        root = ElementTree.fromstring(histogram.picture(figures, bars, "counts", drawing.ALONE))
        yield check_bars(root, 2, counts, 5, sum(counts), *scales(root, "delay", "ticks"))


# ---- The way of a press

def way(tasks, gap, press):
    """The jobs on the way of a press, as (number, read, write), by going through the jobs of each place from the first on."""
    jobs, after = [], press + 1
    for t, d, f in tasks:
        number = max(0, -(-(after - f) // t))
        jobs.append((number, f + number * t, f + number * t + d))
        after = jobs[-1][2] + gap
    same(jobs[-1][2], press + reference.delay(tasks, gap, press)[1], "the way of a press and its delay", tasks, gap, press)
    return jobs


def check_way(root, tasks, gap, press, numbers, frame):
    """The bars of a way. How many were looked at."""
    elements, marks = list(root), []
    for mark, label in zip(elements, elements[1:]):
        if mark.get("class") == "hair grid-line":
            marks.append((label.text, points(mark)[0][0]))
    (unit,) = [found[1] for found in (re.search(r"time after the press \((.*)\)", text.text or "") for text in root.iter(f"{SVG}text")) if found]
    across, bars = Scale(marks, unit), list(root.iter(f"{SVG}rect"))
    jobs = way(tasks, gap, press)
    for place, (number, read, write) in enumerate(jobs, start=1):
        (bar,) = [bar for bar in bars if bar.get("data-place") == str(place) and bar.get("data-job")]
        same([int(bar.get(f"data-{name}")) for name in ("job", "read", "write")], [number, read, write], "a job on the way", tasks, gap, press, place)
        near(float(bar.get("x")), across(read - press), "the read of a job", tasks, press, place)
        near(float(bar.get("width")), max(2, across(write) - across(read)), "the length of a job", tasks, press, place)
        same(title(bar).startswith(f"place {place}, task {numbers[place - 1]}, job {number:,}: reads at {read:,} µs"), True, "the title of a job", title(bar))
        check_others([bar for bar in bars if bar.get("data-place") == str(place) and bar.get("data-other")], number, tasks[place - 1], press, across, frame)
    rows = [float(bar.get("y")) + float(bar.get("height")) / 2 for bar in bars if bar.get("data-job")]
    check_links(root, jobs, gap, press, across, rows)
    return len(bars)


def check_links(root, jobs, gap, press, across, rows):
    """The lines from each write to the next read, the gaps, the press and the booking."""
    paths = {kind: [points(path) for path in root.iter(f"{SVG}path") if path.get("class") == kind] for kind in ("line delay-line", "line dotted mean-line", "line greatest-line")}
    links = list(zip(jobs, jobs[1:], rows, rows[1:]))
    wanted = [[(across(one[2] - press), here), (across(one[2] - press), there), (across(two[1] - press), there)] for one, two, here, there in links]
    gaps = [[(across(one[2] - press), here), (across(one[2] + gap - press), here)] for one, _, here, _ in links if gap]
    booked = jobs[-1][2] - press
    same((len(paths["line delay-line"]), len(paths["line dotted mean-line"]), len(paths["line greatest-line"])), (len(wanted), len(gaps), 2), "lines of a way")
    for drawn_line, right in zip(paths["line delay-line"] + paths["line dotted mean-line"], wanted + gaps):
        for (x, y), (other, row) in zip(drawn_line, right):
            near(x, other, "a link", jobs)
            near(y, row, "the row of a link", jobs)
    for end, tick in zip(paths["line greatest-line"], (0, booked)):
        near(end[0][0], across(tick), "the press or the booking", jobs)
    same([text.text for text in of_class(root, "greatest") if text.tag == f"{SVG}text"], ["press", f"booked {shown(booked)} later"], "what is said of the ends")


def check_others(drawn_bars, number, task, press, across, frame):
    """The other jobs of a row: all that write after its beginning and read before its end, or none where they are more than 80. What does so just at an end may be drawn or not."""
    t, d, f = task
    drawn_jobs = [int(bar.get("data-other")) for bar in drawn_bars]
    for bar, job in zip(drawn_bars, drawn_jobs):
        begin, end = max(frame[1], across(f + job * t - press)), min(frame[2], across(f + job * t + d - press))
        near(float(bar.get("x")), begin, "another job", task, press, job)
        # A hair's breadth is left between two jobs.
        near(float(bar.get("width")), max(1, end - begin - 1), "the length of another job", task, press, job)
    ends = [press + float(across.first) + (edge - across.start) / across.each for edge in frame[1:3]]
    wide = NEAR / across.each
    seen, inner = (range(max(0, math.ceil((ends[0] - by - f - d) / t)), math.floor((ends[1] + by - f) / t) + 1) for by in (wide, -wide))
    if len(inner) > 80:
        same(drawn_jobs, [], "a crowded row", task, press)
    elif len(seen) <= 80:
        same(set(inner) - {number} <= set(drawn_jobs) <= set(seen) - {number}, True, "the other jobs of a row", task, press, drawn_jobs, seen)


@group
def ways(r, factor):
    """ways of presses: every bar against the jobs of its place"""
    for i in range(int(150 * factor)):
        tasks, gap = inputs.linked(r, r.choice([inputs.chain, inputs.cut_chain])(r))
        warm = reference.warm_up(tasks, gap)
        if warm[0] == "ok":
            press, frame = warm[2] + r.choice([0, r.randrange(warm[3])]), (timeline.WIDE, timeline.NARROW)[i % 2]
            numbers = [r.randint(1, 65535) for _ in tasks]
            yield check_way(ElementTree.fromstring(timeline.picture(Chain.of(tasks, gap), numbers, press, "a chain", frame)), tasks, gap, press, numbers, frame)


# ---- The page

def shown(ticks):
    """A time as a page shows it: from 1,000 ticks on in milliseconds, else in microseconds, to three digits."""
    value, unit = (Fraction(ticks, 1000), "ms") if ticks >= 1000 else (Fraction(ticks), "µs")
    thousandths = math.floor(value * 1000 + Fraction(1, 2))
    text = f"{thousandths // 1000:,}.{thousandths % 1000:03d}".rstrip("0").rstrip(".")
    return f"{'' if thousandths == value * 1000 else '≈ '}{text} {unit}"


def check_schedule(text, schedule, gap):
    """The table of the tasks and the gap, as the page has them."""
    unit = {"µs": 1, "ms": 1000}[re.search("times in (.*):", text)[1]]
    cells = [re.findall("<td>(.*?)</td>", row) for row in re.findall("<tr><td>.*?</tr>", text)]
    rows = [(int(number), *[Fraction(cell.replace(",", "")) * unit for cell in values]) for number, *values in cells]
    same(rows, [tuple(task) for task in schedule], "the tasks of the page")
    same(re.search(r"(?:no gap|gap ([0-9,]+) µs)", text)[1], f"{gap:,}" if gap else None, "the gap of the page")


def figures_sentence(x0, h, top, low, mean, anchors):
    """The figures of a chain in words."""
    return (
        f"<p>From {shown(x0)} on, when the chain has warmed up, a press waits at most <b>{shown(top)}</b> until it is booked, always longer than <b>{shown(low)}</b>, and "
        f"<b>{shown(mean)}</b> on average. The delays repeat every {shown(h)}, and their table has {anchors:,} anchor{'' if anchors == 1 else 's'}.</p>"
    )


def check_page(text, schedule, chains, numbers, gap, bound=None, jobs=10):
    """A page's figures and pictures, chain by chain. How many were looked at."""
    sections, looked = re.findall(r"<section>\n<h2>Chain .*?</section>", text, re.DOTALL), 0
    check_schedule(text, schedule, gap)
    same(len(sections), len(chains), "chains of the page")
    for c, (section, tasks, names) in enumerate(zip(sections, chains, numbers), start=1):
        same(re.search("<h2>(.*?)</h2>", section)[1], f"Chain {c}: task{'' if len(names) == 1 else 's'} {' → '.join(map(str, names))}", "the heading of a chain")
        if reference.check_chain(tasks, gap)[0] != "ok":
            periods = sorted({f"{t:,}" for t, _, _ in tasks})
            same(f"Chain {c} is refused with 7: " in section and all(period in section for period in periods), True, "a refused chain", section)
            continue
        _, _, x0, h = reference.warm_up(tasks, gap)
        anchors = reference.anchors(tasks, gap, cut(tasks))
        table = ([start for start, _ in anchors], [latency for _, latency in anchors], len(anchors), h)
        top, area = reference.greatest(*table)[1], reference.mean(*table)[1:]
        found = dict(re.findall(r"<dt>(.*?)</dt><dd>(.*?)</dd>", section))
        wanted = {"greatest delay": shown(top), "mean delay": shown(Fraction(*area)), "low, not reached": shown(reference.low(*table)[1])}
        same(found, {**wanted, "hyperperiod": shown(h), "warm-up tick": shown(x0), "anchors": f"{len(anchors):,}"}, "figures", tasks)
        same(figures_sentence(x0, h, top, reference.low(*table)[1], Fraction(*area), len(anchors)) in section, True, "figures in words", tasks)
        worst = next(start for start, latency in anchors if latency == top)
        same(f"<h3>The way of the worst press, at {shown(worst)}</h3>" in section, True, "the worst press", worst)
        same("is refused with 11 in a report" in section, len(anchors) > 1024, "a table for which a report has no room", tasks)
        curves, ways_of = (pictures_of(section, kind) for kind in ("curve", "way"))
        # On the sheet of one chain the curve has a size of its own.
        same([kind for kind, _ in curves], ["wide", "narrow"] + ["sheet"] * (len(chains) == 1), "curves of a chain", c)
        looked += sum(check_curve(picture, tasks, gap) for _, picture in curves)
        looked += check_often(section, tasks, gap, table)
        same([kind for kind, _ in ways_of], ["wide", "narrow"], "ways of a chain", c)
        looked += sum(check_way(picture, tasks, gap, worst, names, frame) for (_, picture), frame in zip(ways_of, (timeline.WIDE, timeline.NARROW)))
        looked += check_bounds(section, tasks, gap, table, top * 95 // 100 if bound is None else bound, jobs)
        same(("Against the chosen bound: " in section, "Against a bound of 95 %" in section), (bound is not None, bound is None), "which bound")
    return looked + check_pairs(text, chains, gap)


def pictures_of(section, part):
    """The pictures in a part of a chain's section, each with its kind."""
    held = re.search(rf'<div class="{part}">(.*?)</div>', section, re.DOTALL)
    same(bool(held), True, "a part of a chain's section", part)
    found = [ElementTree.fromstring(picture) for picture in re.findall(r"<svg.*?</svg>", held[1], re.DOTALL)]
    return [(picture.get("class").split()[-1], picture) for picture in found]


def check_often(section, tasks, gap, table):
    """The histograms of a chain: the heading, the width, which is the smallest round one with at most 40 bars, and the bars."""
    said_width = re.search(r'<p class="faint">Ticks of one hyperperiod; each bar is ([0-9,.]+) (µs|ms) wide\.</p>', section)
    same(bool(said_width), True, "the width of a page's bars in words")
    width = Fraction(said_width[1].replace(",", "")) * {"µs": 1, "ms": 1000}[said_width[2]]
    rounds = sorted(times * 10**power for times in (1, 2, 5) for power in range(9))
    fitting = [each for each in rounds if bars_of(table, each)[0] <= 40 and bars_of(table, each)[1] <= 2**20]
    same(width, fitting[0], "the width of a page's bars", tasks, gap)
    same("<h3>How often each delay occurs</h3>" in section, True, "the heading of a histogram")
    pictures = pictures_of(section, "often")
    same([kind for kind, _ in pictures], ["wide", "narrow"], "histograms of a chain")
    return sum(check_histogram(picture, tasks, gap, int(width)) for _, picture in pictures)


def check_bounds(section, tasks, gap, table, bound, jobs):
    """The longest exceedance and the windows of a bound, as the page words them."""
    run, (misses, first) = reference.exceedance(*table, bound)[1], reference.windows(tasks, gap, bound, jobs)[1:]
    same(f": {shown(bound)}</h3>" in section, True, "the bound", bound)
    wanted = f"No press waits longer than {shown(bound)}." if run == 0 else f"Every press waits longer than {shown(bound)}."
    if run not in (0, "endless"):
        wanted = f"The longest time over which every press waits longer than {shown(bound)} is {shown(run)}."
    same(wanted in section, True, "the longest exceedance", wanted)
    wanted = f"at most {misses} of {jobs} jobs" if misses else "After the warm-up no job of the first place takes longer"
    same(wanted in section and (not misses or f"begins with job {first:,}." in section), True, "windows", wanted, first)
    return 2


def check_pairs(text, chains, gap):
    """The greatest difference of every two chains."""
    looked = 0
    for i, one in enumerate(chains):
        for j, two in enumerate(chains[:i]):
            found = re.search(f"(Chains {j + 1} and {i + 1} (?:book|are)|chain ({i + 1}|{j + 1}) is refused)[^\n]*", text, re.IGNORECASE)
            same(bool(found), True, "two chains of the page", j + 1, i + 1)
            warm = [reference.warm_up(chain, gap) for chain in (one, two)]
            if "refused" in (warm[0][0], warm[1][0]) or math.lcm(warm[0][3], warm[1][3]) > inputs.MOST_HYPER:
                continue
            greatest = reference.bookings(two, gap, one, gap, max(warm[0][2], warm[1][2]))[4]
            same(f"at most <b>{shown(greatest)}</b> apart" in found[0], True, "the greatest difference", found[0], greatest)
            looked += 1
    return looked


@group
def pages(r, factor):
    """pages of the examples and of random schedules: figures, curves, histograms, ways, bounds, chains side by side"""
    for name, chains, numbers, gap in schedules():
        with open(name, "rb") as file:
            made = page.of_schedule("a page", calls.read_file(file.read()), None, 10)
        same(bool(made.refusals), any(reference.check_chain(tasks, gap)[0] != "ok" for tasks in chains), "a refused chain", name)
        yield check_page(made.text(), reference.read_file(bytes_of(name))[1], chains, numbers, gap)
    # A table for which a report has no room.
    crowded = [(1, 1030, 9, 0), (2, 1031, 5, 3)]
    yield check_page(page.of_schedule("a page", Schedule.of(crowded, [[1, 2]], 0), None, 10).text(), crowded, [[task[1:] for task in crowded]], [[1, 2]], 0)
    for _ in range(int(12 * factor)):
        chains = [inputs.cut_chain(r)[:8] for _ in range(r.randint(1, 4))]
        gap = inputs.some_gap(r, *chains)
        tasks, numbers = inputs.numbered(r, chains)
        bound, jobs = r.choice([None, r.randint(0, 100)]), r.randint(2, 100)
        made = page.of_schedule("a page", Schedule.of(tasks, numbers, gap), bound, jobs)
        yield check_page(made.text(), tasks, chains, numbers, gap, bound, jobs)


def main():
    parser = argparse.ArgumentParser()
    parser.add_argument("--count", type=float, default=1.0, help="how much longer than usual")
    parser.add_argument("--seed", type=int, default=20261116)
    chosen = parser.parse_args()
    proved.build()
    print(f"pictures against the reference, seed {chosen.seed}, count {chosen.count}")
    passed = failed = 0
    for run in GROUPS:
        began, made, looked, fault = time.time(), 0, 0, ""
        try:
            for found in run(random.Random(f"{chosen.seed} {run.__name__}"), chosen.count):
                made, looked = made + 1, looked + found
        except Wrong as wrong:
            fault = f"; {wrong}"
        print(f"{run.__doc__.strip()}: {made} pictures, {looked} places looked at{fault} ({time.time() - began:.1f} s)")
        if fault or looked == 0:
            failed += 1
        else:
            passed += 1
    print(f"{passed} passed, {failed} failed")
    sys.exit(0 if failed == 0 else 1)


if __name__ == "__main__":
    main()
