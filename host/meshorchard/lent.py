"""What is lent to the calls: chains, tables and schedules, as lists of numbers and counts, and the memory in which they are lent.

Any numbers from 0 to 2^64 - 1 may stand in them: it is the calls that judge. A list, a tuple or bytes are copied for the call. An array("Q"), a bytearray
or a memoryview of either is lent as it is, without a copy; the calls that write to a list or to bytes write there. No pointer is null, also that of no entries:
Python's buffers have none.
"""
from __future__ import annotations

import ctypes
from array import array
from dataclasses import dataclass
from typing import List, NamedTuple, Optional, Sequence, Tuple, Union

from .library import NUMBER

LARGEST = 2**64 - 1
# The entries of the list of chains that each chain has.
ROW = 12
# What a number that is lent for an answer holds before the call. No answer is as large, so one that the call did not write is seen.
UNWRITTEN = 0xDEADBEEFDEADBEEF

Numbers = Union[Sequence[int], array, memoryview]
Bytes = Union[bytes, bytearray, memoryview]
WritableNumbers = Union[array, memoryview]
WritableBytes = Union[bytearray, memoryview]


def number(value: int) -> int:
    """A number as it is; one that a call cannot be given is an error here and not another number there."""
    if not 0 <= value <= LARGEST:
        raise ValueError(f"{value} is not from 0 to {LARGEST}")
    return value


def _kind(numbers) -> str:
    """How the entries of a list lie in memory."""
    return numbers.typecode if isinstance(numbers, array) else numbers.format if isinstance(numbers, memoryview) else ""


def lend(numbers: Numbers, length: Optional[int] = None) -> Tuple[ctypes.Array, int]:
    """A lent list of numbers: its memory and its length, or a shorter one. A list of another kind is copied, number by number."""
    as_it_is = _kind(numbers) == "Q" and not (isinstance(numbers, memoryview) and numbers.readonly)
    held = numbers if as_it_is else array("Q", list(numbers))
    if length is not None and not 0 <= length <= len(held):
        raise ValueError(f"a list of {len(held)} entries is not lent as one of {length}")
    return (NUMBER * len(held)).from_buffer(held), len(held) if length is None else length


def lend_to_write(numbers: WritableNumbers) -> Tuple[ctypes.Array, int]:
    """A list that a call writes to; what it wrote to a copy would be lost."""
    if _kind(numbers) != "Q" or isinstance(numbers, memoryview) and numbers.readonly:
        raise TypeError('a list to write to is an array("Q"), or a memoryview of one')
    return lend(numbers)


def lend_bytes(data: Bytes) -> Tuple[ctypes.Array, int]:
    """Lent bytes: their memory and their number."""
    held = data if _writable(data) else bytearray(bytes(data))
    return (ctypes.c_char * len(held)).from_buffer(held), len(held)


def _writable(data) -> bool:
    """Whether a call can write to these bytes where they are."""
    return isinstance(data, bytearray) or isinstance(data, memoryview) and data.itemsize == 1 and not data.readonly


def lend_bytes_to_write(data: WritableBytes) -> Tuple[ctypes.Array, int]:
    """Bytes that a call writes to."""
    if not _writable(data):
        raise TypeError("bytes to write to are a bytearray, or a memoryview of one")
    return lend_bytes(data)


def answers(count: int) -> ctypes.Array:
    """So many numbers for an answer."""
    return (NUMBER * count)(*[UNWRITTEN] * count)


class Task(NamedTuple):
    """A task of a schedule; times are in ticks of 1 microsecond."""

    number: int
    period: int
    duration: int
    phase: int


@dataclass(frozen=True)
class Chain:
    """A chain: T, D, F of the task at each place, the number of places, and the gap."""

    tasks: Numbers
    places: int
    gap: int = 0

    @classmethod
    def of(cls, tasks: Sequence[Tuple[int, int, int]], gap: int = 0) -> Chain:
        """The chain of these (T, D, F)."""
        return cls([value for task in tasks for value in task], len(tasks), gap)

    def part(self, first: int, last: int) -> Chain:
        """The places first to last, counted from 1, as a chain with the same gap."""
        return Chain(self.tasks[3 * (first - 1):3 * last], last - first + 1, self.gap)

    def front(self, places: int) -> Chain:
        """The first places as a chain."""
        return self.part(1, places)

    def single(self, place: int) -> Chain:
        """One place, counted from 1, as a chain."""
        return self.part(place, place)

    def task(self, place: int) -> Tuple[int, int, int]:
        """T, D and F at a place, counted from 1."""
        period, duration, phase = self.tasks[3 * (place - 1):3 * place]
        return period, duration, phase

    def lent(self) -> tuple:
        """The first arguments of every call on a chain."""
        return (*lend(self.tasks), number(self.places), number(self.gap))


@dataclass(frozen=True)
class Table:
    """A table of anchors: their starts and latencies, their number and the hyperperiod."""

    starts: Numbers
    latencies: Numbers
    anchors: int
    hyperperiod: int

    def lent(self) -> tuple:
        """The first arguments of every call on a table."""
        return (*lend(self.starts), *lend(self.latencies), number(self.anchors), number(self.hyperperiod))


@dataclass(frozen=True)
class Schedule:
    """A schedule: three lists, two counts and the gap. Entries past the counts are no part of it."""

    tasks: Numbers  # number, T, D, F, number, T, D, F, ..
    count: int
    chains: Numbers  # the task numbers of chain c, counted from 1, stand from entry 12 (c - 1) on
    places: Numbers  # of each chain
    chain_count: int
    gap: int = 0
    lengths: Tuple[Optional[int], Optional[int], Optional[int]] = (None, None, None)  # of the three lists, where they are lent as shorter ones

    @classmethod
    def of(cls, tasks: Sequence[Tuple[int, int, int, int]], chains: Sequence[Sequence[int]], gap: int = 0) -> Schedule:
        """The schedule of these tasks (number, T, D, F) and chains of task numbers. Of a chain with more places than a row has entries only the first
        stand in its row; its count says that there are more, which no call accepts."""
        rows = [[*chain[:ROW], *[0] * (ROW - len(chain))] for chain in chains]
        return cls([value for task in tasks for value in task], len(tasks), [entry for row in rows for entry in row], [len(chain) for chain in chains], len(chains), gap)

    def task_list(self) -> List[Task]:
        """The counted tasks."""
        return [Task(*self.tasks[4 * i:4 * i + 4]) for i in range(self.count)]

    def task(self, number: int) -> Task:
        """The task with a number."""
        return next(task for task in self.task_list() if task.number == number)

    def with_phase(self, number: int, phase: int) -> Schedule:
        """The schedule in which the task with a number has this phase; all else is as it was."""
        tasks = [task._replace(phase=phase) if task.number == number else task for task in self.task_list()]
        return Schedule.of(tasks, self.chain_list(), self.gap)

    def chain_list(self) -> List[List[int]]:
        """The task numbers at the places of each counted chain."""
        return [list(self.chains[ROW * c:ROW * c + self.places[c]]) for c in range(self.chain_count)]

    def lent(self) -> tuple:
        """The first arguments of every call on a schedule."""
        tasks, chains, places = map(lend, (self.tasks, self.chains, self.places), self.lengths)
        return (*tasks, number(self.count), *chains, *places, number(self.chain_count), number(self.gap))
