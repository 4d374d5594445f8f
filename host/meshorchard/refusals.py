"""Refusals in words: what each number means, what its place counts, and what would be right."""
from __future__ import annotations

from typing import List, NamedTuple, Optional


class Meaning(NamedTuple):
    short: str
    right: str


MEANINGS = {
    1: Meaning(
        "the file ends early: where a record should begin fewer than 4 bytes remain, or the record is longer than the rest of the file",
        "a file ends with its end record, and each record says how many bytes it has",
    ),
    2: Meaning(
        "a record has a length that its kind does not have",
        "a task has 18 bytes, a chain 4 and 2 more for each of its 1 to 12 places, the gap 6, the end 4",
    ),
    3: Meaning("a record is of an unknown kind", "the kinds are 1 for a task, 2 for a chain, 4 for the gap and 3 for the end"),
    4: Meaning(
        "a record stands where it may not stand, or a byte follows the end",
        "1 to 32 tasks, then 1 to 4 chains, then at most one gap, then the end, and nothing after it",
    ),
    5: Meaning(
        "a value of a task, or the gap, is outside its limits",
        "a task's number is 1 to 65,535 and above that of the task before, its period 1 to 1,000,000, its duration 1 to 4,000,000 and its phase 0 to 1,000,000 "
        "ticks; the gap is at most 1,000 ticks, and a file in which it is 0 has no record of it",
    ),
    6: Meaning("a chain names a task that the schedule does not have", "each number in a chain is the number of a task"),
    7: Meaning(
        "the hyperperiod is too long",
        "the least common multiple of the periods in the chain, or in the two chains that are put side by side, is at most 60,000,000 ticks, which is 60 s; "
        "periods with more divisors in common have a shorter one",
    ),
    8: Meaning(
        "there are too many or too few tasks, chains or places, or a list does not hold as many as it should",
        "a schedule has 1 to 32 tasks and 1 to 4 chains, a chain 1 to 12 places",
    ),
    9: Meaning("the cut is at no place of the chain", "the place of the cut is 1 to the number of places"),
    10: Meaning("the lists for the starts and the latencies differ in length", "both have the same length"),
    11: Meaning(
        "there is too little room: the lists are shorter than the number of anchors, or the bytes fewer than those of the file",
        "hyperperiod / longest period entries hold every table, and 698 bytes every file; a report has room for 1,024 anchors of a chain, and `curve` and `page` "
        "make longer lists where a table needs them",
    ),
    12: Meaning(
        "the tick is too early: the chain has not warmed up, or the table begins later",
        "a press has a delay from the warm-up tick on, a leg has an age from the first write of the last place that carries a sample; `check` tells both",
    ),
    13: Meaning("the tick is too late", "ticks go up to 1,000,000,000,000"),
    14: Meaning(
        "the table is not well-formed",
        "starts rise and lie within one hyperperiod, the first at most at 1,000,000,000; each latency is at most 60,011,000 and above the distance to the next start",
    ),
    15: Meaning("the window is outside its limits", "k is 1 to 100 jobs"),
    16: Meaning("the schedule has no chain of that number", "chains are numbered from 1, in the order of the file"),
    17: Meaning(
        "the cuts do not part the chain into sections",
        "cut c parts place c from the next, so each cut is 1 to the number of places less 1, and above the cut before; a chain of one place has none",
    ),
    18: Meaning("the width is 0", "a width is 1 tick or more; delays are counted in steps of it"),
    19: Meaning("the task is not in the chain", "a phase is looked for of a task that fills a place of the chain, named by its number"),
    20: Meaning("the task's period is too long for a search of its phases", "its period is at most 10,000 ticks, which is 10 ms"),
    21: Meaning("a chain's greatest latency is above its bound", "no chain of a schedule that is asked for, or that a state is made of, has a greatest latency above the bound that goes with it"),
    22: Meaning("there is no proposal to commit", "a schedule with its bounds is asked for first, and then committed"),
    23: Meaning("what is committed is not the proposal", "a commit names the schedule and the bounds of the last ask that was not refused"),
}

# What the place counts: in a file, in a schedule, in a chain.
FILE_PLACE = "the record that begins at byte {place} of the file, counted from 0"
POSITIONS = {
    "file": {**{number: FILE_PLACE for number in (1, 2, 3, 5, 6)}, 4: FILE_PLACE + ", or the byte there after the end"},
    "schedule": {5: "task {place} of the schedule, in the order of their numbers", 6: "place {place} of the first chain that has such a number"},
    "chain": {5: "place {place} of the chain"},
}
# The gap has place 0 where places count from 1.
OF_GAP = "the gap"


def position(number: int, place: int, of: str) -> Optional[str]:
    """What the place of a refusal points at."""
    if number == 5 and place == 0 and of != "file":
        return OF_GAP
    said = POSITIONS.get(of, {}).get(number)
    return said.format(place=f"{place:,}") if said else None


def explanation(number: int, place: Optional[int] = None) -> List[str]:
    """A refusal's number in words, for a reader who does not know which call refused: what is wrong, what its place may be, and what would be right."""
    meaning = MEANINGS[number]
    lines = [f"{number}: {meaning.short}."]
    if place is not None:
        tasks_or_places = 32 if number == 5 else 12
        for of, name, most in (("file", "in a report or of a schedule file", None), ("schedule", "of a call on a schedule", tasks_or_places), ("chain", "of a call on a chain", 12)):
            said = position(number, place, of)
            if said and (most is None or place <= most and (place > 0 or number == 5)):
                lines.append(f"Place {place:,} {name}: {said}.")
        if len(lines) == 1:
            lines.append("This refusal has no place but 0." if place else "Place 0: it is of the whole, not of one part.")
    lines.append(f"Right would be: {meaning.right}.")
    return lines


class Refused(Exception):
    """What a call refused: the refusal's number, its place, and the same in words. `of` tells what was judged: a file, a schedule, a chain or a table."""

    def __init__(self, number: int, place: int, of: str, made=None):
        super().__init__(number, place, of, made)
        self.number = number
        self.place = place
        self.of = of
        # Only making gives figures with a refusal: those of a table for which the lists are too short.
        self.made = made

    @property
    def words(self) -> str:
        meaning = MEANINGS.get(self.number)
        if meaning is None:
            return "a refusal without a meaning"
        where = position(self.number, self.place, self.of)
        return f"{meaning.short}{f' ({where})' if where else ''}; {meaning.right}"

    def __str__(self) -> str:
        return f"refused {self.number} {self.place}: {self.words}"
