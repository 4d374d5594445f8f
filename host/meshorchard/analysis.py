"""What the proved calls say of a chain: its table, its figures, how often each delay occurs, the phase that keeps a bound, the way of a press and of a leg, and how
two chains are booked.

The numbers are those of the calls. Two steps are done here beside them: the read of a job is its write less the task's duration, and its number is how many periods lie
between the phase and the read; where these are no whole periods, that is an error.
"""
from __future__ import annotations

import itertools
from array import array
from dataclasses import dataclass
from fractions import Fraction
from typing import List, NamedTuple, Optional, Tuple

from . import calls
from .lent import Chain, Schedule, Table
from .measures import said
from .refusals import Refused

# The slots that a table has at first; as many as the instrument's report has.
SLOTS = 1024
# As many counts as are lent for a histogram, 8 MB of them, and as many bars as can still be told apart in a picture.
MOST_COUNTS = 2**20
MOST_BARS = 500


class Disagreement(Exception):
    """Two calls that must agree do not."""


class TooNarrow(Exception):
    """A width with which a histogram has more counts than are lent, or more bars than are shown."""


@dataclass(frozen=True)
class Job:
    """A job on a way: its place, counted from 1, its number, counted from 0, its read and its write."""

    place: int
    number: int
    read: int
    write: int


def job_written(chain: Chain, place: int, write: int) -> Job:
    """The job of a place that writes at this tick."""
    period, duration, phase = chain.task(place)
    read = write - duration
    number, rest = divmod(read - phase, period)
    if number < 0 or rest:
        raise Disagreement(f"no job of place {place} writes at {write}")
    return Job(place, number, read, write)


def way_of_press(chain: Chain, t: int) -> List[Job]:
    """The jobs that carry what a press at t waits for, one for each place. The delay along the first places ends with the write of the last of them."""
    return [job_written(chain, place, t + calls.delay(chain.front(place), t)) for place in range(1, chain.places + 1)]


def way_of_leg(chain: Chain, z: int) -> List[Job]:
    """The jobs through which the newest reading came that a leg at z is booked from, one for each place. From the last place back: the age at one place alone ends at
    the read of its latest job that is readable. The front parts of the chain must have the same age at the same ticks."""
    jobs, asked, tick = [], [], z
    for place in range(chain.places, 0, -1):
        read = tick - calls.age(chain.single(place), tick)
        jobs.append(job_written(chain, place, read + chain.task(place)[1]))
        asked.append((place, tick))
        tick = read - chain.gap
    for place, tick in asked:
        if calls.age(chain.front(place), tick) != tick - jobs[-1].read:
            raise Disagreement(f"the age of the first {place} places at tick {tick} is another than that of the way")
    return jobs[::-1]


def first_leg(chain: Chain) -> int:
    """The first tick at which a leg has an age: the write of the last warm-up job. The age there is asked for, and a tick earlier it is refused."""
    period, duration, phase = chain.task(chain.places)
    tick = phase + calls.warm_up(chain).jobs[-1] * period + duration
    calls.age(chain, tick)
    try:
        calls.age(chain, tick - 1)
    except Refused as refused:
        if refused.number == 12:
            return tick
    raise Disagreement(f"a leg before tick {tick} has an age")


@dataclass(frozen=True)
class Figures:
    """A chain's table and what it says. The low is a delay that is not reached; the mean is of every time, not of whole ticks alone."""

    table: Table
    warm: int
    hyperperiod: int
    greatest: int
    low: int
    mean: Fraction
    # The earliest press of the first hyperperiod with the greatest delay.
    worst: int


def cut_of(chain: Chain) -> int:
    """The place at which making takes least work: the first with the longest period. The table is the same at any."""
    periods = [chain.task(place)[0] for place in range(1, chain.places + 1)]
    return periods.index(max(periods)) + 1


def slots(count: int) -> array:
    """A list of so many entries."""
    return array("Q", bytes(8 * count))


def slots_table(chain: Chain) -> calls.Making:
    """What making says with as many slots as the instrument's report has."""
    return calls.make_table(chain, cut_of(chain), slots(SLOTS), slots(SLOTS))


def made(chain: Chain, count: int = SLOTS) -> Figures:
    """The table of a chain and its figures. Where the table has more anchors than slots, it is made again with as many as it has."""
    starts, latencies = slots(count), slots(count)
    try:
        making = calls.make_table(chain, cut_of(chain), starts, latencies)
    except Refused as refused:
        if refused.number != 11:
            raise
        return made(chain, refused.made.anchors)
    del starts[making.anchors:], latencies[making.anchors:]
    table = Table(starts, latencies, making.anchors, making.hyperperiod)
    top, mean = calls.greatest(table), calls.mean(table)
    return Figures(table, making.tick, making.hyperperiod, top, calls.low(table), Fraction(mean.doubled_area, mean.doubled_ticks), starts[latencies.index(top)])


class Bar(NamedTuple):
    """An entry of a histogram: how many ticks of a hyperperiod have a delay from `start` up to below `stop`."""

    start: int
    stop: int
    count: int


def entries(figures: Figures, width: int) -> range:
    """The entries of a histogram from that of the least delay, which is a tick above the low, to that of the greatest. A width of 0 has none."""
    return range((figures.low + 1) // width, figures.greatest // width + 1) if width else range(0)


def too_many(figures: Figures, width: int) -> Optional[str]:
    """What a histogram of this width has too many of, if anything."""
    of = entries(figures, width)
    if len(of) > MOST_BARS:
        return f"makes {len(of):,} bars, and at most {MOST_BARS} are shown"
    return f"needs a list of {of.stop:,} counts, and at most {MOST_COUNTS:,} are lent" if of.stop > MOST_COUNTS else None


def histogram(figures: Figures, width: int) -> List[Bar]:
    """How often each delay occurs: a bar for each entry from the first with ticks to the last. The list that is lent reaches the greatest delay, so that no tick is left."""
    fault = too_many(figures, width)
    if fault:
        least = next(wider for wider in itertools.count(width) if not too_many(figures, wider))
        raise TooNarrow(f"a width of {said(width)} {fault}; the least width above it that works is {said(least)}")
    of = entries(figures, width)
    # It is the call that refuses a width of 0.
    counts = slots(of.stop)
    rest = calls.histogram(figures.table, width, counts)
    bars = [Bar(i * width, (i + 1) * width, counts[i]) for i in of]
    if rest or sum(bar.count for bar in bars) != figures.hyperperiod or not (bars[0].count and bars[-1].count):
        raise Disagreement(f"the counts of a width of {width} are not those of all {figures.hyperperiod} ticks of a hyperperiod, from the least delay to the greatest")
    return bars


class AtPhase(NamedTuple):
    """A phase of a task, and the greatest latency that a chain has with it."""

    phase: int
    greatest: int


def at_phase(schedule: Schedule, number: int, task: int, phase: int) -> AtPhase:
    """A chain of a schedule in which a task has this phase."""
    return AtPhase(phase, made(calls.chain_of_schedule(schedule.with_phase(task, phase), number)).greatest)


def smallest_phase(schedule: Schedule, number: int, task: int, bound: int) -> Tuple[AtPhase, Optional[AtPhase]]:
    """A task's phase today, and the smallest with which a chain keeps a bound, if there is one. The tables must say the same: that phase keeps the bound, and of the
    smaller ones neither the next nor that of today does."""
    found, own = calls.smallest_phase(schedule, number, task, bound), schedule.task(task)
    wrong = Disagreement(f"{'none' if found is None else found} is not the smallest phase of task {task} with which chain {number} keeps a bound of {bound}")
    if found is not None and found >= own.period:
        raise wrong
    today = at_phase(schedule, number, task, own.phase)
    then = None if found is None else at_phase(schedule, number, task, found)
    smaller = [today] if found is None or own.phase < found else []
    smaller += [at_phase(schedule, number, task, found - 1)] if found else []
    if then and then.greatest > bound or any(each.greatest <= bound for each in smaller):
        raise wrong
    return today, then


def jobs_between(chain: Chain, place: int, first: int, last: int, most: int) -> Optional[List[Job]]:
    """The jobs of a place that write after tick first and read at most at tick last, or nothing where there are more than so many. One after another: what a press at
    the read of a job waits for is the next job."""
    single = chain.single(place)
    warm = calls.warm_up(single).tick
    # A press at a tick waits for a job that reads after it, and what read so long ago has written by the first tick.
    tick, jobs = first - single.task(1)[1], []
    if tick < warm:
        jobs.append(job_written(single, 1, warm + single.task(1)[1]))
        tick = warm
    while True:
        job = job_written(single, 1, tick + calls.delay(single, tick))
        if job.read > last:
            return [Job(place, each.number, each.read, each.write) for each in jobs if each.read <= last]
        jobs.append(job)
        if len(jobs) > most:
            return None
        tick = job.read
