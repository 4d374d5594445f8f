"""The text form of a schedule, for people: EXAMPLE shows it. Words and their turn are judged here; values, counts and the numbers in chains by the proved writer, line
by line."""
from __future__ import annotations

import re
from typing import List, Optional

from . import limits, measures
from .lent import Schedule, Task

EXAMPLE = """
  # A sample every 4 ms, taken over by a filter every 6 ms.
  task 7 period 4ms duration 4ms phase 0
  task 9 period 6,000 duration 6_000 phase 0.5 ms
  chain 7 9
  gap 10

First the tasks, their numbers rising; then one to four chains, each with the numbers of its tasks in the order of their places; then the gap, if
there is one: how long after its write a value can be read, at every link of every chain. A task samples or takes over a value every period, for the first time
at its phase, and writes the result a duration later. Times are in ticks of 1 us, or have a unit: us, ms or s. A # begins a comment.""".strip("\n")
AS_TASK = "task 7 period 4000 duration 4000 phase 0"
AS_CHAIN = "chain 7 9 9"
AS_GAP = "gap 10"


# Not splitlines, which knows more ends of lines than an editor does.
ENDS = re.compile("\r\n|\n|\r")


class WrongLine(Exception):
    """A line that is no line of a schedule: its number, the word that is wrong, where it is one, and what would be right."""

    def __init__(self, line: int, word: Optional[str], right: str):
        super().__init__(line, word, right)
        self.line = line
        self.word = word
        self.right = right

    def __str__(self) -> str:
        word = self.word if self.word is None or len(self.word) <= 40 else self.word[:40] + ".."
        return f"line {self.line}: {'' if word is None else repr(word) + ' is wrong: '}{self.right}"


class Line:
    """The words of one line, taken one by one."""

    def __init__(self, number: int, text: str):
        self.number = number
        # Spaces and tabs; a space that does not break is what word processors write for one.
        self.words = re.findall("[^ \t\u00a0]+", text.split("#", 1)[0])
        self.next = 0

    def wrong(self, at: Optional[int], right: str) -> WrongLine:
        """The word at this index is wrong, with the unit that follows it, or the line itself."""
        if at is None:
            return WrongLine(self.number, None, right)
        unit = [word for word in self.words[at + 1:at + 2] if word in measures.UNITS and measures.TIME.fullmatch(self.words[at])]
        return WrongLine(self.number, " ".join([self.words[at], *unit]), right)

    def take(self, wanted: str) -> str:
        if self.next == len(self.words):
            raise self.wrong(None, f"the line ends after '{self.words[-1]}', and {wanted}")
        self.next += 1
        return self.words[self.next - 1]

    def word(self, wanted: str, example: str) -> None:
        """The next word is this one; after a time without a unit it might have been a unit."""
        unit = "" if self.next == 2 else self.unit()
        if self.take(f"'{wanted}' should follow, as in '{example}'") != wanted:
            raise self.wrong(self.next - 1, f"{unit and unit + 'or '}'{wanted}' should stand here, as in '{example}'")

    def whole(self, limit: str, example: str) -> int:
        """The next word is a plain number."""
        word = self.take(f"the number of a task should follow, as in '{example}'")
        try:
            return measures.whole(word)
        except measures.Unclear as why:
            raise self.wrong(self.next - 1, f"{why}; {limits.WORDS[limit]}") from None

    def ticks(self, limit: str, example: str) -> int:
        """The next word is a time, and perhaps the one after it a unit."""
        at = self.next
        word = self.take(f"a time should follow, as in '{example}'")
        unit = self.words[self.next] if self.next < len(self.words) and self.words[self.next] in measures.UNITS else None
        try:
            found = measures.ticks(word, unit)
        except measures.Unclear as why:
            raise self.wrong(at, f"{why}; {limits.WORDS[limit]}") from None
        self.next += unit is not None
        return found

    def unit(self) -> str:
        """What might stand after a time that has no unit."""
        return "" if self.words[self.next - 1][-1] == "s" else "a unit, which is us, ms or s, "

    def end(self, what: str) -> None:
        if self.next < len(self.words):
            unit = self.unit()
            raise self.wrong(self.next, f"{unit}or nothing stands after {what}" if unit else f"nothing stands after {what}")


class Reader:
    """What the lines up to now say, each of them judged."""

    def __init__(self):
        self.tasks: List[Task] = []
        self.chains: List[List[int]] = []
        self.gap = 0
        # Where the first chain and the gap stand.
        self.first_chain: Optional[Line] = None
        self.gap_line: Optional[Line] = None

    def line(self, line: Line) -> None:
        kind = line.take("")
        if kind == "task":
            self.task(line)
        elif kind == "chain":
            self.chain(line)
        elif kind == "gap":
            self.the_gap(line)
        else:
            raise line.wrong(0, "a line begins with task, chain or gap, in small letters")

    def before_gap(self, line: Line) -> None:
        if self.gap_line:
            raise line.wrong(0, f"nothing stands after the gap, which is on line {self.gap_line.number}")

    def task(self, line: Line) -> None:
        self.before_gap(line)
        if self.first_chain:
            raise line.wrong(0, f"the tasks stand before the chains, and the first chain is on line {self.first_chain.number}")
        at = {"number": 1, "rising": 1}
        number = line.whole("number", AS_TASK)
        values = []
        for name in ("period", "duration", "phase"):
            line.word(name, AS_TASK)
            at[name] = line.next
            values.append(line.ticks(name, AS_TASK))
        line.end("the phase")
        task = Task(number, *values)
        before, self.tasks = self.tasks, [*self.tasks, task]
        found = limits.refusal(Schedule.of(self.tasks, [[self.tasks[0].number]]))
        if found and found.number == 8:
            raise line.wrong(0, f"this is task {len(self.tasks)} of the text, and {limits.WORDS['tasks']}")
        if found:
            name = limits.fault_of_task(task)
            last = f", and the one before is {before[-1].number}" if name == "rising" else ""
            raise line.wrong(at[name], limits.WORDS[name] + last)

    def chain(self, line: Line) -> None:
        self.before_gap(line)
        if not self.tasks:
            raise line.wrong(0, "the tasks stand before the chains, and there is no task yet")
        chain = [line.whole("number", AS_CHAIN)]
        while line.next < len(line.words):
            chain.append(line.whole("number", AS_CHAIN))
        self.first_chain = self.first_chain or line
        self.chains.append(chain)
        found = limits.refusal(Schedule.of(self.tasks, self.chains))
        if found and found.number == 8 and limits.fault_of_chain(self.tasks, chain):
            raise line.wrong(13, f"this is the 13th number, and {limits.WORDS['places']}")
        if found and found.number == 8:
            raise line.wrong(0, f"this is chain {len(self.chains)} of the text, and {limits.WORDS['chains']}")
        if found:
            raise line.wrong(found.place, f"there is no task of that number; {limits.known([task.number for task in self.tasks])}")

    def the_gap(self, line: Line) -> None:
        self.before_gap(line)
        if not self.chains:
            raise line.wrong(0, "the gap stands after the chains, and there is no chain yet")
        self.gap = line.ticks("gap", AS_GAP)
        line.end("the gap")
        self.gap_line = line
        if limits.refusal(self.schedule()):
            raise line.wrong(1, limits.WORDS["gap"])

    def schedule(self) -> Schedule:
        return Schedule.of(self.tasks, self.chains, self.gap)


def read(text: str) -> Schedule:
    """The schedule of a text, which the proved writer accepts; or the first line that is wrong."""
    reader, lines = Reader(), ENDS.split(text)
    for number, each in enumerate(lines, start=1):
        line = Line(number, each)
        if line.words:
            reader.line(line)
    for many, what, example in ((reader.tasks, "task", AS_TASK), (reader.chains, "chain", AS_CHAIN)):
        if not many:
            raise WrongLine(len(lines), None, f"the text ends without a {what}; a {what} is written '{example}'")
    return reader.schedule()


def decoded(data: bytes) -> str:
    """The text in bytes of a text file."""
    if data[:2] in (b"\xff\xfe", b"\xfe\xff"):
        raise WrongLine(1, None, "the text is in UTF-16; save it as UTF-8")
    if b"\0" in data:
        raise WrongLine(_line(data[:data.index(b"\0")]), None, "this is no text; if it is a schedule file, `text` shows it as one")
    try:
        return data.decode("utf-8-sig")
    except UnicodeDecodeError as fault:
        raise WrongLine(_line(data[:fault.start]), None, f"the byte {data[fault.start]:#04x} is no UTF-8 text; save the text as UTF-8") from None


def _line(before: bytes) -> int:
    """The number of the line in which these bytes end."""
    return len(ENDS.split(before.decode("utf-8", "replace")))


def canonical(schedule: Schedule) -> str:
    """The one text of a schedule: times in ticks, a gap of 0 left out."""
    lines = [f"task {task.number} period {task.period} duration {task.duration} phase {task.phase}" for task in schedule.task_list()]
    lines += [" ".join(["chain", *map(str, chain)]) for chain in schedule.chain_list()]
    if schedule.gap:
        lines.append(f"gap {schedule.gap}")
    return "".join(line + "\n" for line in lines)
