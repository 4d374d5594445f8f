"""One page on a schedule file: the schedule, each chain's figures, curve, histogram and worst way, bounds, and chains side by side. It needs nothing from elsewhere."""
from __future__ import annotations

import itertools
from html import escape
from typing import List, Optional, Sequence

from . import analysis, calls, curve, drawing, histogram, timeline, words
from .analysis import Figures, made, slots_table
from .lent import Chain, Schedule
from .measures import counted, in_unit, short, sign, unit_for
from .refusals import Refused

# The style of the page; the pictures bring their own rules.
STYLE = """
:root{color-scheme:light dark;--paper:#fff;--ink:#1c2228;--faint:#5d6873;--line:#e3e7eb;--card:#f6f8fa;--warn:#b3261e}
@media (prefers-color-scheme:dark){:root{--paper:#15191e;--ink:#e7eaed;--faint:#9aa5b0;--line:#2b323a;--card:#1c2228;--warn:#ff8f86}}
*{box-sizing:border-box}
body{margin:0;background:var(--paper);color:var(--ink);font:16px/1.5 system-ui,-apple-system,'Segoe UI',Roboto,'Helvetica Neue',Arial,sans-serif}
main{max-width:960px;margin:0 auto;padding:24px 20px 40px}
h1{font-size:28px;line-height:1.2;margin:0 0 6px;overflow-wrap:anywhere}
h2{font-size:21px;margin:36px 0 8px;padding-top:18px;border-top:1px solid var(--line)}
h3{font-size:16px;margin:20px 0 6px}
p{margin:6px 0}
.faint,footer{color:var(--faint);font-size:14px}
footer{margin-top:36px;padding-top:14px;border-top:1px solid var(--line)}
table{border-collapse:collapse;font-variant-numeric:tabular-nums;margin:8px 0}
th,td{padding:4px 14px 4px 0;text-align:right;white-space:nowrap}
th{font-weight:600;color:var(--faint);font-size:14px}
td{border-top:1px solid var(--line)}
.tasks{display:flex;flex-wrap:wrap;align-items:flex-start;gap:0 48px}
dl{display:grid;grid-template-columns:repeat(3,1fr);gap:10px;margin:12px 0}
dl div{background:var(--card);border:1px solid var(--line);border-radius:8px;padding:8px 10px}
dt{color:var(--faint);font-size:13px}
dd{margin:0;font-size:18px;font-weight:600;font-variant-numeric:tabular-nums}
.refused{border-left:4px solid var(--warn);background:var(--card);padding:10px 14px;border-radius:0 8px 8px 0;overflow-wrap:anywhere}
.refused strong{color:var(--warn)}
svg.picture{display:block;width:100%;height:auto;margin:6px 0}
svg.narrow,p.narrow,svg.sheet,p.sheet{display:none}
@media (max-width:640px){body{font-size:15px}main{padding:16px 14px 28px}h1{font-size:23px}h2{margin-top:28px}svg.wide,p.wide{display:none}svg.narrow,p.narrow{display:block}
dl{grid-template-columns:repeat(2,1fr);gap:8px}dd{font-size:17px}th,td{padding-right:10px}}
@page{size:A4;margin:10mm}
@media print{:root{--paper:#fff;--ink:#1c2228;--faint:#5d6873;--line:#e3e7eb;--card:#fff;--warn:#b3261e}
body{font-size:9pt;line-height:1.3}main{max-width:none;padding:0}h1{font-size:15pt;margin:0}h2{font-size:11pt;margin:4pt 0 2pt;padding-top:3pt}h3{font-size:9pt;margin:3pt 0 1pt}
p{margin:1pt 0}table{margin:2pt 0}.faint,footer,th{font-size:8pt}th,td{padding:0 6pt 0 0}dl{display:none}footer{margin-top:4pt;padding-top:3pt}
.tasks{flex-wrap:nowrap;gap:0 8mm}section,.refused{break-inside:avoid}.refused{padding:0 5pt;border-left-width:2pt}
svg.picture{margin:1pt auto}svg.wide,p.wide{display:block}svg.narrow,p.narrow{display:none}
.pictures{display:grid;gap:0 4mm;align-items:start}.words{font-size:8pt}
.chains-1 .pictures{grid-template-columns:640fr 420fr}.chains-1 .way{grid-column:1/3}.chains-1 svg{max-height:60mm}
.chains-1 .curve .wide,.chains-1 .often .wide{display:none}.chains-1 .curve .sheet,.chains-1 .often .narrow{display:block}
.several .pictures{grid-template-columns:repeat(3,1fr)}.several svg{max-height:52mm}.several .pictures h3{font-size:7.5pt}.several .pictures p{font-size:7pt}
.several .wide{display:none}.several .narrow{display:block}.several .words{display:none}.several .pairs{columns:2}
.many{font-size:7pt;line-height:1.2}.many h2{font-size:8.5pt}.many h3{font-size:7.5pt;margin:1pt 0 0}.many .pictures h3,.many .often p{display:none}.many th,.many .faint,.many footer{font-size:7pt}
.many .chains{display:grid;grid-template-columns:1fr 1fr;gap:0 7mm}.many .pictures{grid-template-columns:1fr 1fr}.many .way{grid-column:1/3}.many svg{max-height:34mm}.many .way svg{max-height:27mm}}
"""


# Curves and histograms are drawn for a wide window and for a narrow one. On the sheet of one chain the curve has a frame of its own, which leaves room for the histogram beside it.
FRAMES = (drawing.WIDE, drawing.NARROW)
SHEET = drawing.Frame(640, 320, 74, 518, 12, 262, "sheet", False)


# What the words and the signs mean, on the screen and on the sheet of one chain.
WORDS = """<section class="words"><h2>How to read this page</h2>
<p><b>Delay</b>: the time from a press until it is booked, the write of the last task. <b>Hyperperiod</b>: the time after which the delays repeat. <b>Warm-up tick</b>: presses before it
are not counted, since the chain still fills. <b>Anchor</b>, a dot on the curve: from there the delay falls by one tick a tick until the next one; the anchors are the table that the instrument
makes. A hollow dot is not reached, and neither is the <b>low</b>. A job of the <b>first place</b> is one sample; its own time begins with its read, a press has waited before that.</p>
<p>In the picture of how often each delay occurs a bar counts the ticks of one hyperperiod with a delay from its left edge up to below its right one. In the picture of a way a blue bar
is a job that carries the press, from its read to its write, a line the wait for the next task's read, a grey bar another job of the task; a dotted line stands for the jobs of a row of
more than 80.</p></section>
"""


class Page:
    """A page of so many chains that is being made: its parts, and what is refused on it."""

    def __init__(self, name: str, chains: int):
        self.name = name
        self.chains = chains
        self.parts = [f"<h1>{escape(name)}</h1>"]
        self.refusals: List[str] = []

    def add(self, *parts: str) -> None:
        self.parts += parts

    def say(self, sentence: str) -> None:
        self.add(f"<p>{escape(sentence[0].upper() + sentence[1:])}</p>")

    def refuse(self, sentence: str) -> None:
        self.add(f'<p class="refused"><strong>Refused.</strong> {escape(sentence[0].upper() + sentence[1:])}</p>')
        self.refusals.append(sentence)

    def text(self) -> str:
        """The whole page: on paper the pictures of a chain stand in a row where there are two chains, and more than two chains stand side by side and are smaller."""
        kind = "chains-1" if self.chains < 2 else "several" if self.chains == 2 else "several many"
        head = '<!doctype html>\n<html lang="en">\n<head>\n<meta charset="utf-8">\n<meta name="viewport" content="width=device-width, initial-scale=1">'
        style = f"<title>{escape(self.name)}: delays</title>\n<style>{STYLE}{drawing.rules('.picture')}</style>"
        foot = f"{WORDS}<footer>The figures, curves, counts and ways on this page come from the proved calls of Meshorchard. 1 tick is 1 µs.</footer>" if self.chains else ""
        return "\n".join([head, style, f'</head>\n<body>\n<main class="{kind}">', *self.parts, foot, "</main>\n</body>\n</html>"]) + "\n"


def of_refused(name: str, sentence: str) -> Page:
    """The page of a file that is no schedule."""
    page = Page(name, 0)
    page.refuse(sentence)
    return page


def of_schedule(name: str, schedule: Schedule, bound: Optional[int], jobs: int) -> Page:
    """The page of a schedule. Without a bound each chain has one of its own."""
    page = Page(name, schedule.chain_count)
    page.add(f'<p class="faint">{counted(schedule.count, "task")}, {counted(schedule.chain_count, "chain")}, {escape(words.of_gap(schedule.gap))}.</p>')
    _tasks(page, schedule)
    page.add('<div class="chains">')
    for number, tasks in enumerate(schedule.chain_list(), start=1):
        page.add(f"<section>\n<h2>Chain {number}: {'task' if len(tasks) == 1 else 'tasks'} {' → '.join(map(str, tasks))}</h2>")
        try:
            chain = calls.chain_of_schedule(schedule, number)
            _chain(page, chain, number, tasks, bound, jobs)
            # The report's room is looked at last: the page itself has room for every table.
            slots_table(chain)
        except Refused as refused:
            page.refuse(words.of_chain(schedule, number, refused))
        page.add("</section>")
    page.add("</div>")
    if schedule.chain_count > 1:
        _pairs(page, schedule)
    return page


def _tasks(page: Page, schedule: Schedule) -> None:
    """The tasks in tables of at most eight rows, as equal as they can be, which stand side by side where there is room."""
    tasks = schedule.task_list()
    unit = unit_for(max(max(task[1:]) for task in tasks))
    page.add(f'<p class="faint">The tasks, times in {sign(unit)}:</p>', '<div class="tasks">')
    rows = -(-len(tasks) // -(-len(tasks) // 8))
    for first in range(0, len(tasks), rows):
        page.add("<table><tr><th>task</th><th>period</th><th>duration</th><th>phase</th></tr>")
        page.add(*[f"<tr><td>{task.number}</td>" + "".join(f"<td>{in_unit(value, unit)}</td>" for value in task[1:]) + "</tr>" for task in tasks[first:first + rows]])
        page.add("</table>")
    page.add("</div>")


def _chain(page: Page, chain: Chain, number: int, tasks: Sequence[int], bound: Optional[int], jobs: int) -> None:
    figures = made(chain)
    _figures(page, figures)
    frames = (*FRAMES, SHEET) if page.chains == 1 else FRAMES
    page.add('<div class="pictures">', '<div class="curve">', "<h3>Delay of a press over one hyperperiod</h3>")
    page.add(*[f'<p class="faint {frame.kind}">{curve.close(figures)}.</p>' for frame in frames if not curve.singly(figures, frame)])
    page.add(*[curve.picture(chain, figures, f"chain {number}", frame) for frame in frames], "</div>")
    _often(page, figures, number)
    page.add('<div class="way">', f"<h3>The way of the worst press, at {short(figures.worst)}</h3>")
    page.add(*[timeline.picture(chain, tasks, figures.worst, f"chain {number}", frame) for frame in (timeline.WIDE, timeline.NARROW)])
    page.add("</div>", "</div>")
    _bounds(page, chain, figures, bound, jobs)


def _often(page: Page, figures: Figures, number: int) -> None:
    """How often each delay occurs, in steps of a round width."""
    width = histogram.round_width(figures)
    bars = analysis.histogram(figures, width)
    page.add('<div class="often">', "<h3>How often each delay occurs</h3>", *[histogram.picture(figures, bars, f"chain {number}", frame) for frame in FRAMES])
    page.add(f'<p class="faint">Ticks of one hyperperiod; each bar is {short(width)} wide.</p>', "</div>")


def _figures(page: Page, figures: Figures) -> None:
    """The figures of a chain, in words and one by one."""
    anchors = counted(figures.table.anchors, "anchor")
    page.add(
        f"<p>From {short(figures.warm)} on, when the chain has warmed up, a press waits at most <b>{short(figures.greatest)}</b> until it is booked, always longer than "
        f"<b>{short(figures.low)}</b>, and <b>{short(figures.mean)}</b> on average. The delays repeat every {short(figures.hyperperiod)}, and their table has {anchors}.</p>"
    )
    cells = [
        ("greatest delay", short(figures.greatest)), ("mean delay", short(figures.mean)), ("low, not reached", short(figures.low)),
        ("hyperperiod", short(figures.hyperperiod)), ("warm-up tick", short(figures.warm)), ("anchors", f"{figures.table.anchors:,}"),
    ]
    page.add("<dl>", *[f"<div><dt>{title}</dt><dd>{value}</dd></div>" for title, value in cells], "</dl>")


def _bounds(page: Page, chain: Chain, figures: Figures, bound: Optional[int], jobs: int) -> None:
    """The longest exceedance and the windows of a bound: the one asked for, or 95 % of the greatest delay, rounded down, as published case studies have it."""
    b = figures.greatest * 95 // 100 if bound is None else bound
    chosen = "a bound of 95 % of the greatest delay, rounded down" if bound is None else "the chosen bound"
    page.add(f"<h3>Against {chosen}: {short(b)}</h3>")
    page.say(words.exceedance(calls.exceedance(figures.table, b), b) + ".")
    try:
        page.say(words.windows(calls.windows(chain, b, jobs), b, jobs) + ".")
    except Refused as refused:
        page.refuse(f"a window of {jobs:,} jobs is refused with {refused.number}: {refused.words}.")


def _pairs(page: Page, schedule: Schedule) -> None:
    """Every two chains side by side."""
    page.add("<section>", "<h2>Chains side by side</h2>", '<div class="pairs">')
    for first, second in itertools.combinations(range(1, schedule.chain_count + 1), 2):
        try:
            t = max(calls.warm_up(calls.chain_of_schedule(schedule, number)).tick for number in (first, second))
            page.add(f"<p>Chains {first} and {second} book one press at most <b>{short(calls.bookings(schedule, first, second, t).greatest)}</b> apart.</p>")
        except Refused as refused:
            page.refuse(words.of_pair(schedule, first, second, refused))
    page.add("</div>", "</section>")
