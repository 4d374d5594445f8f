"""Every call of include/meshorchard.h as a function, under its name without `mo_`. The header says what each answers.

A success is a number or a dataclass, a refusal the exception Refused. What the header promises beside the answer, that every number is written, with zeros in a
refusal and past the counts, is looked at in each call; where it does not hold, the shared object is not that of these declarations, and the exception Broken tells.
"""
from __future__ import annotations

from dataclasses import dataclass
from typing import Optional, Sequence, Tuple

from . import library, structs
from .lent import (
    ROW, UNWRITTEN, Bytes, Chain, Numbers, Schedule, Table, WritableBytes, WritableNumbers, answers, lend, lend_bytes, lend_bytes_to_write, lend_to_write, number,
)
from .refusals import Refused
from .structs import Bounded, State

# Reading a table answers a delay below this, or this and the refusal's number.
REFUSED = 2**32
LONGEST_FILE = 698
LONGEST_REPORT = 92000


class Broken(Exception):
    """A call left what the header does not allow."""


@dataclass(frozen=True)
class WarmUp:
    jobs: Tuple[int, ...]  # W1 to Wn, counted from 0
    tick: int
    hyperperiod: int


@dataclass(frozen=True)
class Making:
    anchors: int
    tick: int
    hyperperiod: int
    walked: int


@dataclass(frozen=True)
class Mean:
    doubled_area: int
    doubled_ticks: int


@dataclass(frozen=True)
class Throughput:
    anchors: int
    ticks: int


@dataclass(frozen=True)
class Exceedance:
    run: int
    endless: bool


@dataclass(frozen=True)
class Windows:
    misses: int
    first: int  # counted from 0


@dataclass(frozen=True)
class Sections:
    latencies: Tuple[int, ...]  # of each section, in order
    sum: int


@dataclass(frozen=True)
class Bookings:
    later: int
    earlier: int
    difference: int
    greatest: int


@dataclass(frozen=True)
class Asking:
    state: State
    latencies: Tuple[int, ...]  # of each chain, in order


def _sound(code: int, left, of: str) -> None:
    """Nothing after a success, in which each number that was lent must be written. After a refusal each must be 0."""
    if UNWRITTEN in left:
        raise Broken(f"beside the code {code} the call left numbers as they were")
    if code == 0:
        return
    if any(left):
        raise Broken(f"beside the code {code} the call left {list(left)}")
    raise Refused(code % 256, code // 256, of)


def _asked(name: str, of: str, count: int, lent: tuple, *arguments: int) -> list:
    """The numbers of a call that lends so many, one by one."""
    left = [answers(1) for _ in range(count)]
    code = getattr(library.load(), name)(*lent, *map(number, arguments), *left)
    found = [each[0] for each in left]
    _sound(code, found, of)
    return found


# ---- Tables

def read_table(table: Table, t: int) -> int:
    answer = library.load().mo_read_table(*table.lent(), number(t))
    if answer >= REFUSED:
        raise Refused(answer - REFUSED, 0, "table")
    return answer


def greatest(table: Table) -> int:
    return _asked("mo_greatest", "table", 1, table.lent())[0]


def low(table: Table) -> int:
    return _asked("mo_low", "table", 1, table.lent())[0]


def mean(table: Table) -> Mean:
    return Mean(*_asked("mo_mean", "table", 2, table.lent()))


def throughput(table: Table) -> Throughput:
    return Throughput(*_asked("mo_throughput", "table", 2, table.lent()))


def exceedance(table: Table, b: int) -> Exceedance:
    run, endless = _asked("mo_exceedance", "table", 2, table.lent(), b)
    if endless > 1 or endless and run:
        raise Broken(f"the run is {run} and endless {endless}")
    return Exceedance(run, endless == 1)


def histogram(table: Table, width: int, counts: WritableNumbers) -> int:
    """The rest, the ticks whose delays lie beyond the list; the counts are left in the list."""
    rest = answers(1)
    _sound(library.load().mo_histogram(*table.lent(), number(width), *lend_to_write(counts), rest), list(rest), "table")
    return rest[0]


# ---- Chains

def check(chain: Chain) -> int:
    """The hyperperiod."""
    return _asked("mo_check", "chain", 1, chain.lent())[0]


def warm_up(chain: Chain) -> WarmUp:
    jobs, tick, hyperperiod = answers(ROW), answers(1), answers(1)
    code = library.load().mo_warm_up(*chain.lent(), jobs, tick, hyperperiod)
    _sound(code, [*jobs, *tick, *hyperperiod], "chain")
    if any(jobs[chain.places:]):
        raise Broken(f"the jobs of {chain.places} places are {list(jobs)}")
    return WarmUp(tuple(jobs[:chain.places]), tick[0], hyperperiod[0])


def delay(chain: Chain, t: int) -> int:
    return _asked("mo_delay", "chain", 1, chain.lent(), t)[0]


def age(chain: Chain, z: int) -> int:
    return _asked("mo_age", "chain", 1, chain.lent(), z)[0]


def make_table(chain: Chain, p: int, starts: WritableNumbers, latencies: WritableNumbers) -> Making:
    """The anchors are left in the lists. Where the lists are too short the refusal has what was made: its `made`."""
    figures = answers(4)
    code = library.load().mo_make_table(*chain.lent(), number(p), *lend_to_write(starts), *lend_to_write(latencies), figures)
    if code == 11 and UNWRITTEN not in figures:
        raise Refused(11, 0, "chain", Making(*figures))
    _sound(code, list(figures), "chain")
    return Making(*figures)


def windows(chain: Chain, b: int, k: int) -> Windows:
    return Windows(*_asked("mo_windows", "chain", 2, chain.lent(), b, k))


def sections(chain: Chain, cuts: Numbers) -> Sections:
    latencies, count, total = answers(ROW), answers(1), answers(1)
    lent_cuts = lend(cuts)
    code = library.load().mo_sections(*chain.lent(), *lent_cuts, latencies, count, total)
    _sound(code, [*latencies, *count, *total], "chain")
    if count[0] != lent_cuts[1] + 1 or any(latencies[count[0]:]):
        raise Broken(f"the {count[0]} sections of {lent_cuts[1]} cuts have {list(latencies)}")
    return Sections(tuple(latencies[:count[0]]), total[0])


def load(seed: int, places: int) -> Chain:
    """The made-up chain of a seed and a number of places."""
    flat = answers(3 * ROW)
    code = library.load().mo_load(number(seed), number(places), flat)
    _sound(code, list(flat), "chain")
    if not 1 <= places <= ROW or any(flat[3 * places:]):
        raise Broken(f"the chain of {places} places is {list(flat)}")
    return Chain(flat[:3 * places], places, 0)


# ---- Schedules and their files

def read_file(data: Bytes) -> Schedule:
    tasks, chains, places, counts = answers(4 * 32), answers(4 * ROW), answers(4), answers(3)
    code = library.load().mo_read_file(*lend_bytes(data), tasks, chains, places, counts)
    _sound(code, [*tasks, *chains, *places, *counts], "file")
    count, chain_count, gap = counts
    past = [*tasks[4 * count:], *places[chain_count:]]
    for c, n in enumerate(places):
        past += chains[ROW * c + n:ROW * (c + 1)]
    if count > 32 or chain_count > 4 or max(places) > ROW or any(past):
        raise Broken(f"reading left {[list(each) for each in (tasks, chains, places, counts)]}")
    return Schedule(list(tasks), count, list(chains), list(places), chain_count, gap)


def write_file(schedule: Schedule, out: WritableBytes) -> int:
    """The length; the file is left in the first bytes of `out`."""
    length = answers(1)
    _sound(library.load().mo_write_file(*schedule.lent(), *lend_bytes_to_write(out), length), list(length), "schedule")
    return length[0]


def chain_of_schedule(schedule: Schedule, number_of_chain: int) -> Chain:
    """The chain with a number, counted from 1, with the schedule's gap."""
    flat, places = answers(3 * ROW), answers(1)
    code = library.load().mo_chain_of_schedule(*schedule.lent(), number(number_of_chain), flat, places)
    _sound(code, [*flat, *places], "schedule")
    if places[0] > ROW or any(flat[3 * places[0]:]):
        raise Broken(f"the chain is {list(flat)} with {places[0]} places")
    return Chain(flat[:3 * places[0]], places[0], schedule.gap)


def bookings(schedule: Schedule, first: int, second: int, t: int) -> Bookings:
    figures = answers(4)
    code = library.load().mo_bookings(*schedule.lent(), number(first), number(second), number(t), figures)
    _sound(code, list(figures), "schedule")
    return Bookings(*figures)


def smallest_phase(schedule: Schedule, number_of_chain: int, number_of_task: int, bound: int) -> Optional[int]:
    """The smallest phase of a task, by its number, with which a chain has no latency above the bound; None where no phase keeps it."""
    phase, none = _asked("mo_smallest_phase", "schedule", 2, schedule.lent(), number_of_chain, number_of_task, bound)
    if none > 1 or none and phase:
        raise Broken(f"the phase is {phase} and none {none}")
    return None if none else phase


# ---- The instrument's state

def bounded_schedule(schedule: Schedule, bounds: Sequence[int]) -> Bounded:
    """A schedule with the bounds of its chains, of which up to four are given. Nothing is judged."""
    return library.load().mo_bounded_schedule(*schedule.lent(), structs.four([number(bound) for bound in bounds]))


def _answered(answer, kept: State):
    """An answer that is no refusal. After a refusal the state must be the one that is to be kept, and every latency 0."""
    refusal = answer.refusal
    if refusal.number == 0:
        if refusal.place:
            raise Broken(f"a success has the place {refusal.place}")
        return answer
    if answer.state != kept or any(getattr(answer, "latencies", ())):
        raise Broken(f"beside the refusal {refusal.number} the call handed back another state or latencies")
    raise Refused(refusal.number, refusal.place, "schedule")


def make_state(bounded: Bounded) -> State:
    """A state in which this runs and no proposal stands."""
    return _answered(library.load().mo_make_state(bounded), State()).state


def ask(state: State, bounded: Bounded) -> Asking:
    """The state with this as its proposal, and the greatest latency of each chain. A refusal leaves the state as it is."""
    answer = _answered(library.load().mo_ask(state, bounded), state)
    chains = bounded.schedule.chain_count
    if chains > 4 or any(answer.latencies[chains:]):
        raise Broken(f"the latencies of {chains} chains are {list(answer.latencies)}")
    return Asking(answer.state, tuple(answer.latencies[:chains]))


def commit(state: State, bounded: Bounded) -> State:
    """The state in which the proposal runs, which is named again. A refusal leaves the state as it is."""
    return _answered(library.load().mo_commit(state, bounded), state).state


# ---- Reports

def report(data: Bytes, out: WritableBytes) -> int:
    """The length of the text; as much of it as fits is left in `out`."""
    length = library.load().mo_report(*lend_bytes(data), *lend_bytes_to_write(out))
    if not 0 < length <= LONGEST_REPORT:
        raise Broken(f"a report has {length} bytes")
    return length
