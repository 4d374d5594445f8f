"""Why a schedule file is refused, in words: which record, which value, which limit. That it is refused, with which number and where, the proved reader says; the
bytes there are then looked at to tell what they hold."""
from __future__ import annotations

from typing import List, NamedTuple

from . import limits
from .lent import Task
from .measures import counted
from .refusals import MEANINGS, Refused

TASK, CHAIN, END, GAP = 1, 2, 3, 4
KINDS = {TASK: "task", CHAIN: "chain", END: "end", GAP: "gap"}
LENGTHS = {TASK: "18 bytes", CHAIN: "4 bytes and 2 for each of 1 to 12 places", END: "4 bytes", GAP: "6 bytes"}


class Record(NamedTuple):
    """A record of a file: where it begins, the length and kind that it says it has, and its bytes."""

    offset: int
    length: int
    kind: int
    data: bytes

    def value(self, first: int, width: int) -> int:
        """A number in the record, by its first byte and its width."""
        return int.from_bytes(self.data[first:first + width], "little")

    def task(self) -> Task:
        return Task(self.value(4, 2), self.value(6, 4), self.value(10, 4), self.value(14, 4))

    def chain(self) -> List[int]:
        return [self.value(i, 2) for i in range(4, self.length, 2)]


def record_at(data: bytes, offset: int) -> Record:
    length, kind = (int.from_bytes(data[i:i + 2], "little") for i in (offset, offset + 2))
    return Record(offset, length, kind, data[offset:offset + length])


def records_before(data: bytes, offset: int) -> List[Record]:
    """The records before a refused one. They were accepted, so each is as long as it says."""
    found, at = [], 0
    while at < offset:
        found.append(record_at(data, at))
        at += found[-1].length
    return found


def explained(data: bytes, refused: Refused) -> str:
    """One sentence on a refused file."""
    before = records_before(data, refused.place)
    left = len(data) - refused.place
    if refused.number == 1 and left < 4:
        return _stops(before, left, refused.place)
    here = record_at(data, refused.place)
    which = f"record {len(before) + 1}, at byte {refused.place:,}"
    if refused.number == 1:
        return f"{which}, says that it has {here.length:,} bytes, and only {left:,} are left"
    if refused.number == 2 and here.length < 4:
        return f"{which}, says that it has {here.length} bytes, and the shortest record has 4"
    if refused.number == 2:
        return f"{which}, is of kind {here.kind}, the {KINDS[here.kind]}, and has {here.length:,} bytes; a record of this kind has {LENGTHS[here.kind]}"
    if refused.number == 3:
        return f"{which}, is of kind {here.kind:,}; {MEANINGS[3].right}"
    if refused.number == 4:
        return _turn(before, here, which, left)
    if refused.number == 5:
        return _outside(before, here, which)
    if refused.number == 6:
        return _unknown(before, here, which)
    return refused.words


# What may stand after a record of each kind, and at the beginning.
FOLLOWS = {None: "a task", TASK: "another task or a chain", CHAIN: "another chain, the gap or the end", GAP: "the end"}


def _stops(before: List[Record], left: int, offset: int) -> str:
    if not before and not left:
        return "the file is empty; it should begin with a task"
    after = f"after its {counted(len(before), 'record')}, at byte {offset:,}," if before else "at its beginning"
    rest = f"only {counted(left, 'byte')} {'is' if left == 1 else 'are'} left" if left else "the file ends"
    return f"{after} {rest}, and {FOLLOWS[before[-1].kind if before else None]} should stand there"


def _turn(before: List[Record], here: Record, which: str, left: int) -> str:
    kinds = [record.kind for record in before]
    if END in kinds:
        return f"at byte {here.offset:,}, after the end record, {left:,} more {'byte follows' if left == 1 else 'bytes follow'}"
    tasks, chains = kinds.count(TASK), kinds.count(CHAIN)
    if here.kind == TASK:
        why = "a task after a chain" if chains else f"task {tasks + 1}, and {limits.WORDS['tasks']}"
    elif here.kind == CHAIN:
        why = "a chain after the gap" if GAP in kinds else f"chain {chains + 1}, and {limits.WORDS['chains']}" if tasks else "a chain before the first task"
    elif here.kind == GAP:
        why = "a second gap" if GAP in kinds else "a gap before the first chain"
    else:
        why = "the end before the first chain"
    return f"{which}, is {why}; {MEANINGS[4].right}"


def _outside(before: List[Record], here: Record, which: str) -> str:
    if here.kind == GAP:
        return f"{which}, is a gap of {here.value(4, 2):,}; {limits.WORDS['gap']}, and a file without a gap has no record of it"
    task = here.task()
    name = limits.fault_of_task(task)
    if name == "rising":
        return f"{which}, is task {task.number}, and the task before has the number {before[-1].task().number}; {limits.WORDS[name]}"
    if name == "number":
        return f"{which}, is a task with the number {task.number}; {limits.WORDS[name]}"
    return f"{which}, is task {task.number}, and its {name} is {getattr(task, name):,}; {limits.WORDS[name]}"


def _unknown(before: List[Record], here: Record, which: str) -> str:
    known = [record.task().number for record in before if record.kind == TASK]
    place, number = next((place, number) for place, number in enumerate(here.chain(), start=1) if number not in known)
    chain = 1 + sum(record.kind == CHAIN for record in before)
    return f"{which}, is chain {chain}, and its place {place} names task {number}; {limits.known(known)}"
