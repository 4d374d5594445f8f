"""Which value of a task, a chain or a gap a refusal is about, and its limit in words. The proved call decides: it is asked about each value alone."""
from __future__ import annotations

from typing import List, Optional, Sequence

from . import calls
from .lent import Schedule, Task
from .refusals import Refused

# In the words of people who write schedules.
WORDS = {
    "number": "a task's number is 1 to 65,535",
    "period": "a period is 1 to 1,000,000 ticks, up to 1 s",
    "duration": "a duration is 1 to 4,000,000 ticks, up to 4 s",
    "phase": "a phase is 0 to 1,000,000 ticks, up to 1 s",
    "rising": "the numbers of tasks rise from task to task",
    "gap": "a gap is at most 1,000 ticks, 1 ms",
    "tasks": "a schedule has 1 to 32 tasks",
    "chains": "a schedule has 1 to 4 chains",
    "places": "a chain has 1 to 12 places",
}


def known(numbers: Sequence[int]) -> str:
    """The tasks that there are."""
    return f"the only task is {numbers[0]}" if len(numbers) == 1 else f"the tasks are {', '.join(map(str, numbers))}"


def refusal(schedule: Schedule) -> Optional[Refused]:
    """What the proved writer refuses of a schedule, if anything."""
    try:
        calls.write_file(schedule, bytearray(calls.LONGEST_FILE))
    except Refused as refused:
        return refused
    return None


def file_of(schedule: Schedule) -> bytes:
    """The schedule's file."""
    out = bytearray(calls.LONGEST_FILE)
    return bytes(out[:calls.write_file(schedule, out)])


def _alone(task: Task) -> bool:
    """Whether a schedule of this task alone is refused."""
    return refusal(Schedule.of([task], [[task.number]])) is not None


def fault_of_task(task: Task) -> str:
    """Which value of a refused task is at fault; where each is permitted by itself, it is the turn of the numbers."""
    if _alone(Task(task.number, 1, 1, 0)):
        return "number"
    if _alone(Task(1, task.period, 1, 0)):
        return "period"
    if _alone(Task(1, 1, task.duration, 0)):
        return "duration"
    if _alone(Task(1, 1, 1, task.phase)):
        return "phase"
    return "rising"


def fault_of_chain(tasks: List[Task], chain: List[int]) -> bool:
    """Whether it is the number of places for which a chain is refused."""
    found = refusal(Schedule.of(tasks, [chain]))
    return found is not None and found.number == 8
