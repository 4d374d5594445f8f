"""The published case studies of source 002, table II, as far as their chains are known: the proved calls and the reference against the paper's figures.

    python3 tests/case_studies.py

Each case has six columns, and each column is checked once for the program and once for the reference. The last line is 'N passed, M failed'.
docs/CASE-STUDIES.md says where the chains come from, and why the figures in ticks and the paper's in real time are the same.
"""
import math
import os
import sys
from fractions import Fraction

HERE = os.path.dirname(os.path.abspath(__file__))
sys.path[:0] = [HERE, os.path.join(os.path.dirname(HERE), "reference")]
import meshorchard_reference as reference
import proved

# A tick is 1 microsecond, the paper's figures are in milliseconds.
TICKS = 1000
COLUMNS = ("Max", "Min", "Av", "Thr", "m", "LE")
# The windows of the column (m,k) have 10 jobs.
WINDOW = 10
# The published chains run on one board: a value is readable at its write.
GAP = 0

# Name, the periods in milliseconds, and the six columns as the paper prints them. Phases are 0, durations are the periods.
CASES = (
    ("Wat17-C1", (10, 10, 10, 10), ("50", "40", "45.0", "0.100", "0", "2.50")),
    ("Wat17-C2", (100, 10, 2), ("212", "112", "162.0", "0.010", "0", "10.60")),
    ("Wat19-C1", (33, 400, 15, 15, 5), ("908", "470", "689.0", "0.003", "1", "45.40")),
    ("Wat19-C2", (10, 400, 15, 15, 5), ("855", "445", "650.0", "0.003", "4", "42.75")),
    ("Wat19-C3", (10, 15, 15, 5), ("65", "45", "55.0", "0.067", "0", "3.25")),
    ("Wat19-C4", (33, 15, 5), ("98", "53", "75.5", "0.030", "0", "4.90")),
    ("Wat19-C5", (66, 15, 5), ("164", "86", "125.0", "0.015", "0", "8.20")),
    ("Wat19-C6", (200, 15, 5), ("430", "220", "325.0", "0.005", "0", "21.50")),
    ("Pag14-C1", (10, 20, 20), ("70", "50", "60.0", "0.050", "0", "3.50")),
    ("Pag14-C2", (10, 20), ("50", "30", "40.0", "0.050", "0", "2.50")),
)


class Disagreement(Exception):
    """A call did not answer what a case study needs."""


def values(answer):
    """The values of a success."""
    if answer[0] != "ok":
        raise Disagreement(f"the answer is {answer}")
    return answer[1:]


class Program:
    """The proved calls."""

    name = "the program"

    def __init__(self):
        proved.build()

    def table(self, tasks, p):
        """The table of a chain cut at place p, as the calls on a table take it."""
        slots = [0] * slots_for(tasks)
        answer, starts, latencies = proved.make(flat(tasks), len(tasks), GAP, p, slots, slots)
        g, _, h, _ = values(answer)
        return (proved.Table(starts, latencies, g, h),)

    def windows(self, tasks, bound):
        return values(proved.windows(flat(tasks), len(tasks), GAP, bound, WINDOW))[0]

    def figure(self, name, *arguments):
        return values(getattr(proved, name)(*arguments))


class Reference:
    """The reference program."""

    name = "the reference"

    def table(self, tasks, p):
        slots = [0] * slots_for(tasks)
        answer, starts, latencies = reference.make(tasks, GAP, p, slots, slots)
        g, _, h, _ = values(answer)
        return starts, latencies, g, h

    def windows(self, tasks, bound):
        return values(reference.windows(tasks, GAP, bound, WINDOW))[0]

    def figure(self, name, *arguments):
        return values(getattr(reference, name)(*arguments))


def chain_of(periods):
    """The chain: synchronous releases and implicit deadlines, as the paper assumes where a case study says nothing else."""
    return [(period * TICKS, period * TICKS, 0) for period in periods]


def flat(tasks):
    return [number for task in tasks for number in task]


def slots_for(tasks):
    """As many slots as a table of this chain can need: one for each job of the longest period."""
    periods = [period for period, _, _ in tasks]
    return math.lcm(*periods) // max(periods)


def columns_of(who, periods):
    """The six columns, exact: times in milliseconds, throughput per millisecond."""
    tasks = chain_of(periods)
    table = who.table(tasks, periods.index(max(periods)) + 1)
    (greatest,) = who.figure("greatest", *table)
    (low,) = who.figure("low", *table)
    area, ticks = who.figure("mean", *table)
    anchors, hyperperiod = who.figure("throughput", *table)
    bound = Fraction(95, 100) * greatest
    if bound.denominator != 1:
        # Only for a whole B is a number of ticks above B a length of time above B.
        raise Disagreement(f"B is {bound}, not a whole number of ticks")
    (run,) = who.figure("exceedance", *table, int(bound))
    if run == "endless":
        raise Disagreement("the exceedance is endless")
    return (
        Fraction(greatest, TICKS),
        Fraction(low, TICKS),
        Fraction(area, ticks) / TICKS,
        Fraction(anchors * TICKS, hyperperiod),
        Fraction(who.windows(tasks, int(bound))),
        Fraction(run, TICKS),
    )


def as_printed(column, value, printed):
    """Whether the exact value is the printed one. Every column is printed whole but throughput, which is rounded to three decimals, halves upward."""
    if column == "Thr":
        value = Fraction(math.floor(value * 1000 + Fraction(1, 2)), 1000)
    return value == Fraction(printed)


def main():
    passed = failed = 0
    for who in (Program(), Reference()):
        print(f"{who.name}, exact: {', '.join(COLUMNS)} (milliseconds; throughput per millisecond; k = {WINDOW}, B = 0.95 Max)")
        for name, periods, printed in CASES:
            try:
                computed = columns_of(who, periods)
            except Disagreement as said:
                print(f"  {name}: {said}")
                failed += len(COLUMNS)
                continue
            print(f"  {name} {' '.join(str(p) for p in periods)}: {', '.join(str(value) for value in computed)}")
            for column, value, figure in zip(COLUMNS, computed, printed):
                if as_printed(column, value, figure):
                    passed += 1
                else:
                    failed += 1
                    print(f"  {name}: {column} is printed {figure}, {who.name} says {value}")
    print(f"{passed} passed, {failed} failed")
    sys.exit(0 if failed == 0 else 1)


if __name__ == "__main__":
    main()
