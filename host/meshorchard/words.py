"""What the calls say of a schedule, a chain, a press or a leg, in words for a terminal."""
from __future__ import annotations

from typing import List, Optional, Sequence, Tuple

from . import calls, diagnosis, limits
from .analysis import SLOTS, AtPhase, Bar, Disagreement, Figures, Job, at_phase, first_leg, slots_table, way_of_leg, way_of_press
from .lent import Schedule
from .measures import counted, in_unit, percent, said, short, sign, unit_for
from .refusals import Refused

# How long the bar of the largest count is.
LONGEST_BAR = 40


def columns(rows: Sequence[Sequence[str]]) -> List[str]:
    """Rows of cells, the cells of a column equally wide."""
    widths = [max(map(len, cells)) for cells in zip(*rows)]
    return ["  " + "  ".join(cell.ljust(width) for cell, width in zip(row, widths)).rstrip() for row in rows]


def flush_right(cells: Sequence[str]) -> List[str]:
    """The cells of a column of numbers, equally wide, so that their digits stand below each other."""
    width = max(map(len, cells))
    return [cell.rjust(width) for cell in cells]


def of_file(name: str, data: bytes, refused: Refused) -> str:
    """A refused file."""
    return f"{name} is refused with {refused.number} at {refused.place:,}: {diagnosis.explained(data, refused)}."


def of_chain(schedule: Schedule, number: int, refused: Refused) -> str:
    """Why an analysis of a chain of a sound schedule is refused."""
    if refused.number == 7:
        chain = calls.chain_of_schedule(schedule, number)
        periods = sorted({chain.task(place)[0] for place in range(1, chain.places + 1)})
        return f"chain {number} is refused with 7: its hyperperiod, the least common multiple of the {'period' if len(periods) == 1 else 'periods'} {listed(periods)}, is above 60,000,000 µs (60 s)."
    if refused.number == 12:
        chain = calls.chain_of_schedule(schedule, number)
        return f"chain {number} is refused with 12: it has not warmed up. A press has a delay from tick {calls.warm_up(chain).tick:,} on, a leg an age from tick {first_leg(chain):,} on."
    if refused.number == 17:
        places = calls.chain_of_schedule(schedule, number).places
        right = {1: "it cannot be cut", 2: "its one cut is 1"}.get(places, f"each cut is 1 to {places - 1}, and above the cut before")
        return f"chain {number} is refused with 17: it has {counted(places, 'place')}, so {right}."
    if refused.number == 11:
        return f"chain {number} is refused with 11 in a report: its table has {refused.made.anchors:,} anchors, and a report has room for {SLOTS:,}."
    return f"chain {number} is refused with {refused.number}: {refused.words}."


def of_task(schedule: Schedule, number: int, task: int, refused: Refused) -> str:
    """Why the phases of a task in a chain of a sound schedule are not tried."""
    if refused.number == 19:
        tasks, others = sorted(set(schedule.chain_list()[number - 1])), with_task(schedule, task)
        but = f", but in {'chain' if len(others) == 1 else 'chains'} {listed(others)}" if others else ""
        return f"task {task} is refused with 19: it is not in chain {number}, where {limits.known(tasks)}{but}."
    if refused.number == 20:
        return f"task {task} is refused with 20: its period is {said(schedule.task(task).period)}, and phases are tried up to a period of 10,000 µs (10 ms)."
    return of_chain(schedule, number, refused)


def with_task(schedule: Schedule, task: int) -> List[int]:
    """The numbers of the chains that a task is in."""
    return [number for number, tasks in enumerate(schedule.chain_list(), start=1) if task in tasks]


def of_pair(schedule: Schedule, first: int, second: int, refused: Refused) -> str:
    """Why two chains of a sound schedule are not put side by side."""
    said_of = f"chains {first} and {second} are refused with {refused.number}"
    for number in (first, second):
        try:
            calls.warm_up(calls.chain_of_schedule(schedule, number))
        except Refused:
            return f"{said_of}: the hyperperiod of chain {number} alone is above 60,000,000 µs (60 s)."
    if refused.number == 7:
        return f"{said_of}: their common hyperperiod is above 60,000,000 µs (60 s)."
    if refused.number == 12:
        ticks = [calls.warm_up(calls.chain_of_schedule(schedule, number)).tick for number in (first, second)]
        return f"{said_of}: they have not both warmed up. Chain {first} has delays from tick {ticks[0]:,} on, chain {second} from tick {ticks[1]:,} on."
    return f"{said_of}: {refused.words}."


def listed(numbers: Sequence[int]) -> str:
    said_numbers = [f"{number:,}" for number in numbers]
    return said_numbers[0] if len(numbers) == 1 else f"{', '.join(said_numbers[:-1])} and {said_numbers[-1]}"


def of_gap(gap: int) -> str:
    return f"gap {said(gap)}: a value can be read that long after its write" if gap else "no gap: a value can be read from its write on"


def check_chain(schedule: Schedule, number: int) -> Tuple[List[str], bool]:
    """A chain of a sound schedule, and whether the instrument's report refuses it."""
    tasks = schedule.chain_list()[number - 1]
    chain = calls.chain_of_schedule(schedule, number)
    lines = [f"  chain {number}: {'task' if len(tasks) == 1 else 'tasks'} {', then '.join(map(str, tasks))}"]
    try:
        warm = calls.warm_up(chain)
        lines.append(f"    hyperperiod {said(warm.hyperperiod)}: the delays repeat after it")
        lines.append(f"    warm-up: a press has a delay from tick {warm.tick:,} on, a leg an age from tick {first_leg(chain):,} on")
        lines.append(f"    warm-up jobs, counted from 0: {', '.join(f'{job:,}' for job in warm.jobs)}")
        lines.append(f"    table: {counted(slots_table(chain).anchors, 'anchor')}")
    except Refused as refused:
        return [*lines, "    " + of_chain(schedule, number, refused)], True
    return lines, False


def way(jobs: Sequence[Job], numbers: Sequence[int]) -> List[str]:
    """The jobs of a way, place by place, in columns."""
    rows = [(f"place {job.place}", f"task {number}", f"job {job.number:,}", f"reads at {job.read:,}", f"writes at {job.write:,}") for job, number in zip(jobs, numbers)]
    return columns(rows)


def delay(schedule: Schedule, number: int, t: int) -> List[str]:
    """The delay of a press and its way."""
    chain = calls.chain_of_schedule(schedule, number)
    found = calls.delay(chain, t)
    jobs = way_of_press(chain, t)
    return [
        f"chain {number}, press at tick {t:,}: the delay is {said(found)}",
        *way(jobs, schedule.chain_list()[number - 1]),
        f"  booked at tick {jobs[-1].write:,}",
    ]


def age(schedule: Schedule, number: int, z: int) -> List[str]:
    """The age of what a leg is booked from, and its way."""
    chain = calls.chain_of_schedule(schedule, number)
    found = calls.age(chain, z)
    jobs = way_of_leg(chain, z)
    return [
        f"chain {number}, leg at tick {z:,}: the newest reading is {said(found)} old",
        *way(jobs, schedule.chain_list()[number - 1]),
        f"  read at tick {jobs[0].read:,}",
    ]


def exceedance(found: calls.Exceedance, b: int) -> str:
    """The longest run of presses with delays above a bound."""
    if found.endless:
        return f"every press waits longer than {short(b)}"
    if found.run == 0:
        return f"no press waits longer than {short(b)}"
    return f"the longest time over which every press waits longer than {short(b)} is {short(found.run)}"


def windows(found: calls.Windows, b: int, k: int) -> str:
    """The jobs of the first place that miss a bound. The call counts those after the warm-up job."""
    longer = f"longer than {short(b)} from the job's own read to its booking"
    if found.misses == 0:
        return f"after the warm-up no job of the first place takes {longer}"
    if k == 1:
        return f"after the warm-up a job of the first place can take {longer}; job {found.first:,} is the first that does"
    take = "takes" if found.misses == 1 else "take"
    return f"after the warm-up at most {found.misses} of {k:,} jobs of the first place in a row {take} {longer}; the first such stretch begins with job {found.first:,}"


def sections(schedule: Schedule, number: int, cuts: Sequence[int]) -> List[str]:
    """The sections of a chain that is cut, each on its own board, and the whole chain beside them."""
    chain, tasks = calls.chain_of_schedule(schedule, number), schedule.chain_list()[number - 1]
    found, whole = calls.sections(chain, cuts), calls.sections(chain, []).sum
    rows = []
    for section, (first, last) in enumerate(zip([0, *cuts], [*cuts, len(tasks)]), 1):
        at = f"place {last}" if last == first + 1 else f"places {first + 1} to {last}"
        rows.append((f"section {section}", at, f"{'task' if last == first + 1 else 'tasks'} {', '.join(map(str, tasks[first:last]))}", f"greatest latency {said(found.latencies[section - 1])}"))
    gaps = f" with {counted(len(cuts), 'gap')} of {said(schedule.gap)}" if schedule.gap else ""
    return [
        f"chain {number}, cut after {'place' if len(cuts) == 1 else 'places'} {listed(cuts)}:",
        *columns(rows),
        f"  the sum{gaps} is {said(found.sum)}",
        f"  the whole chain's greatest latency is {said(whole)}",
    ]


def histogram(number: int, figures: Figures, bars: Sequence[Bar]) -> List[str]:
    """How often each delay occurs, as bars: the longest is that of the largest count, and what occurs at all has one sign at least."""
    width, unit, top = bars[0].stop - bars[0].start, unit_for(bars[-1].stop), max(bar.count for bar in bars)
    # The ends have as many digits after the point as the width needs.
    digits = len(in_unit(width, unit).partition(".")[2])
    starts, stops = (flush_right([in_unit(end, unit, digits, True) for end in ends]) for ends in ([bar.start for bar in bars], [bar.stop for bar in bars]))
    counts, shares = flush_right([f"{bar.count:,}" for bar in bars]), flush_right([percent(bar.count, figures.hyperperiod) for bar in bars])
    rows = []
    for bar, start, stop, count, share in zip(bars, starts, stops, counts, shares):
        signs = max(1, (2 * LONGEST_BAR * bar.count + top) // (2 * top)) if bar.count else 0
        rows.append((f"from {start} {sign(unit)} to below {stop} {sign(unit)}", f"{count} {'tick' if bar.count == 1 else 'ticks'}", share, "#" * signs))
    return [
        f"chain {number}, hyperperiod {said(figures.hyperperiod)}, width {said(width)}: how often each delay occurs",
        *columns(rows),
        f"  together {counted(sum(bar.count for bar in bars), 'tick')}: every tick of a hyperperiod",
    ]


def smallest_phase(schedule: Schedule, number: int, task: int, bound: int, today: AtPhase, then: Optional[AtPhase]) -> List[str]:
    """The smallest phase of a task with which a chain keeps a bound, and what it changes."""
    head = f"chain {number}, task {task}, bound {said(bound)}:"
    now = f"  today, with phase {said(today.phase)}, the chain's greatest latency is {said(today.greatest)}"
    if then is None:
        return [f"{head} none, no phase keeps it", now]
    lines = [f"{head} the smallest phase that keeps it is {said(then.phase)}", f"  with that phase the chain's greatest latency is {said(then.greatest)}"]
    if then.phase == today.phase:
        return [*lines, f"  task {task} has that phase today: nothing need change"]
    lines.append(f"{now}, which keeps the bound too" if today.greatest <= bound else now)
    others = [other for other in with_task(schedule, task) if other != number]
    return lines + [f"  chain {other} has task {task} too: {moved(schedule, other, task, then.phase)}" for other in others]


def moved(schedule: Schedule, number: int, task: int, phase: int) -> str:
    """What another phase of a task makes of a chain."""
    try:
        then, today = (at_phase(schedule, number, task, each).greatest for each in (phase, schedule.task(task).phase))
    except Refused as refused:
        return of_chain(schedule, number, refused)
    return f"its greatest latency becomes {said(then)}, and is {said(today)} today"


def pair(schedule: Schedule, found: calls.Bookings, first: int, second: int, t: int) -> List[str]:
    """The bookings of a press by two chains; which chain books when is asked of each alone, and must be the same."""
    booked = {number: t + calls.delay(calls.chain_of_schedule(schedule, number), t) for number in (first, second)}
    if (max(booked.values()), min(booked.values())) != (found.later, found.earlier):
        raise Disagreement(f"chains {first} and {second} book a press at {t} otherwise together than alone")

    def by(tick: int) -> str:
        return " and ".join(f"chain {number}" for number in sorted(booked) if booked[number] == tick)

    return [
        f"press at tick {t:,}, chains {first} and {second}:",
        f"  later booking    tick {found.later:,}, by {by(found.later)}",
        f"  earlier booking  tick {found.earlier:,}, by {by(found.earlier)}",
        f"  difference       {said(found.difference)}",
        f"  greatest difference of any press  {said(found.greatest)}",
    ]


def accepted(schedule: Schedule, name: str) -> List[str]:
    """A sound schedule, its tasks and its gap."""
    tasks, chains = schedule.task_list(), schedule.chain_count
    lines = [f"{name}: {counted(len(tasks), 'task')}, {counted(chains, 'chain')}, {of_gap(schedule.gap)}; times in ticks of 1 µs"]
    rows = [(f"task {task.number}", f"period {task.period:,}", f"duration {task.duration:,}", f"phase {task.phase:,}") for task in tasks]
    return lines + columns(rows)
