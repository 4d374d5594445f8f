"""The command ./meshorchard and the host package against the reference: every command, texts both ways, wrong lines, limits, refused files in words, the package, streams, phases.

    python3 tests/tools.py [--count FACTOR] [--seed SEED]

What must hold is taken from include/meshorchard.h, from `./meshorchard --help` and from the reference; texts and their faults are formatted and judged here. The many
cases call the command in this process, a few dozens of each kind run ./meshorchard itself. A group gives cases: what was looked at, what the command or the package gave,
and what it should be. The last line is 'N passed, M failed', in groups; a group without a case has failed.
"""
import argparse
import ast
import collections
import concurrent.futures
import ctypes
import dataclasses
import functools
import glob
import inspect
import io
import itertools
import math
import os
import random
import re
import shutil
import struct
import subprocess
import sys
import tempfile
import time
import typing
import xml.etree.ElementTree
from array import array
from fractions import Fraction

HERE = os.path.dirname(os.path.abspath(__file__))
TOP = os.path.dirname(HERE)
sys.path[:0] = [HERE, os.path.join(TOP, "reference")]
import inputs
import meshorchard_reference as reference
import proved
import report as reports
from meshorchard import Broken, Chain, Refused, Schedule, State, Table, analysis, calls, command, structs, words
from meshorchard import page as pages
from meshorchard import streams as streams_of
from meshorchard.lent import UNWRITTEN

PROGRAM = os.path.join(TOP, "meshorchard")
EXAMPLES = sorted(glob.glob(os.path.join(TOP, "examples", "*.schedule")))
LASER = os.path.join(TOP, "examples", "laser.schedule")
LASER_TEXT = os.path.join(TOP, "examples", "laser.txt")
# A number with separators, and a time: in microseconds, from a millisecond on in milliseconds too.
COUNT = r"([0-9,]+)"
TIME = r"([0-9,]+) µs(?: \(([0-9,.]+) ms\))?"
GROUPS = []
# The arguments are the same for every call in this process; making them anew would take most of its time.
command.arguments = functools.lru_cache(maxsize=None)(command.arguments)


def group(function):
    GROUPS.append(function)
    return function


class Answer(typing.NamedTuple):
    status: int
    out: bytes
    err: str

    def text(self):
        return self.out.decode("utf-8", "replace")


# ---- Running the command

def called(*arguments, stdin=b""):
    """The command in this process."""
    kept = sys.stdin, sys.stdout, sys.stderr
    streams = [io.TextIOWrapper(io.BytesIO(data), encoding="utf-8") for data in (stdin, b"", b"")]
    sys.stdin, sys.stdout, sys.stderr = streams
    try:
        status = command.main([str(argument) for argument in arguments])
    except SystemExit as left:
        status = left.code
    finally:
        sys.stdin, sys.stdout, sys.stderr = kept
    for stream in streams[1:]:
        stream.flush()
    return Answer(status, streams[1].buffer.getvalue(), streams[2].buffer.getvalue().decode("utf-8"))


def surroundings(**more):
    """What a process of the command finds: no other shared object, the usual width, signs beyond ASCII, and no setting of Python, as one that writes without a buffer."""
    kept = {name: value for name, value in os.environ.items() if not name.startswith("PYTHON") and name not in ("MESHORCHARD_LIBRARY", "COLUMNS")}
    return {**kept, "LC_ALL": "C.UTF-8", "PYTHONDONTWRITEBYTECODE": "1", **more}


def ran(arguments, given=b"", **how):
    """The command as a process of its own, with bytes on its standard input or with other streams."""
    data = {} if "stdin" in how else {"input": given}
    done = subprocess.run([PROGRAM, *map(str, arguments)], **{"stdout": subprocess.PIPE, "stderr": subprocess.PIPE, "cwd": TOP, "env": surroundings(), **data, **how})
    return Answer(done.returncode, done.stdout or b"", done.stderr.decode("utf-8", "replace"))


def ran_all(many):
    """Some of them at once."""
    with concurrent.futures.ThreadPoolExecutor(2) as workers:
        return list(workers.map(lambda each: ran(*each[:2], **(each[2] if len(each) > 2 else {})), many))


def put(folder, name, data):
    """A file of these bytes."""
    path = os.path.join(folder, name)
    with open(path, "wb") as file:
        file.write(data)
    return path


def content(path):
    """What a file holds, None where there is none."""
    if not os.path.exists(path):
        return None
    with open(path, "rb") as file:
        return file.read()


# ---- What the command prints, as numbers

def number(word):
    return int(word.replace(",", ""))


def time_of(found, at=1):
    """The ticks of a time that was found; what it says in milliseconds must be the same."""
    ticks, thousands = number(found[at]), found[at + 1]
    same = thousands is None and ticks < 1000 or thousands is not None and Fraction(thousands.replace(",", "")) * 1000 == ticks
    return ticks if same else (ticks, thousands)


def way_of(answer, says, ends):
    """The chain, the tick and the answer of a way, its rows (place, task, job, read, write) and the tick in its last line; the whole answer where it has another form."""
    lines = answer.text().splitlines()
    first = re.match(rf"chain {COUNT}, .* at tick {COUNT}: {says} {TIME}", lines[0]) if lines else None
    rows = [re.fullmatch(rf" +place {COUNT} +task {COUNT} +job {COUNT} +reads at {COUNT} +writes at {COUNT}", line) for line in lines[1:-1]]
    last = re.fullmatch(rf" +{ends} at tick {COUNT}", lines[-1]) if lines else None
    if answer.status or answer.err or not first or not last or not all(rows):
        return answer
    return number(first[1]), number(first[2]), time_of(first, 3), [tuple(map(number, row.groups())) for row in rows], number(last[1])


def refused_with(answer):
    """Status, the refusal's number and, of a file, its place; the whole answer where there is another."""
    found = re.search(rf"refused with (\d+)(?: at {COUNT})?: .+", answer.err)
    if not found or answer.out or answer.err.count("\n") != 1:
        return answer
    return answer.status, int(found[1]), None if found[2] is None else number(found[2])


def check_of(answer):
    """Status, tasks, the gap, and of each chain its tasks, hyperperiod, first tick of a press and of a leg, warm-up jobs and anchors, or 7, which refuses it."""
    lines, chains = answer.text().splitlines(), []
    head = re.search(rf": (\d+) tasks?, (\d+) chains?, (?:no gap|gap {TIME})", lines[0]) if lines else None
    if not head or answer.err:
        return answer
    tasks = [tuple(map(number, found)) for found in re.findall(rf"^  task {COUNT} +period {COUNT} +duration {COUNT} +phase {COUNT}$", answer.text(), re.MULTILINE)]
    for part in re.split(r"^(?=  chain )", answer.text(), flags=re.MULTILINE)[1:]:
        head_of = r"  chain (\d+): tasks? ([0-9]+(?:, then [0-9]+)*)\n"
        form = rf"{head_of} +hyperperiod {TIME}: .*\n.*delay from tick {COUNT} on.*age from tick {COUNT} on\n.*counted from 0: (.+)\n"
        # A table for which a report has no room is told as one that is refused.
        form += rf"    (table: |chain \1 is refused with 11 in a report: its table has ){COUNT} anchors?(?:, and a report has room for 1,024\.)?\n"
        found, no = re.fullmatch(form, part), re.fullmatch(rf"{head_of}    chain \1 is refused with (\d+): .+\n", part)
        if not found and not no:
            return answer
        if no:
            chains.append((int(no[1]), int(no[3])))
        else:
            places, jobs = (list(map(number, re.split(sign, found[i]))) for sign, i in ((", then ", 2), (", ", 7)))
            chains.append((int(found[1]), places, time_of(found, 3), number(found[5]), number(found[6]), jobs, number(found[9]), found[8] == "table: "))
    counts_right = (int(head[1]), int(head[2])) == (len(tasks), len(chains))
    return (answer.status, tasks, time_of(head, 3) if head[3] else 0, chains) if counts_right else answer


# ---- What the reference says of the same

class File(typing.NamedTuple):
    """A schedule file that is accepted, and what the reference reads from it."""
    path: str
    data: bytes
    tasks: list
    chains: list
    gap: int

    def places(self, c):
        """T, D, F at the places of chain c, from 1."""
        known = {number: tuple(task) for number, *task in self.tasks}
        return [known[number] for number in self.chains[c - 1]]

    def at_phase(self, task, phase):
        """The schedule in which a task has this phase, and its file."""
        tasks = [(number, t, d, phase if number == task else f) for number, t, d, f in self.tasks]
        return self._replace(data=b"".join(inputs.records(tasks, self.chains, self.gap)), tasks=tasks)


def file_of(path):
    data = content(path)
    return File(path, data, *reference.read_file(data)[1:])


def rows_of(file, c, jobs):
    """A way as it is printed."""
    places = file.places(c)
    return [(i + 1, file.chains[c - 1][i], job, reference.read_of(places[i], job), reference.write_of(places[i], job)) for i, job in enumerate(jobs)]


def delay_right(file, c, t):
    places = file.places(c)
    answer = reference.delay(places, file.gap, t)
    if answer[0] != "ok":
        return 1, answer[1], None
    jobs = [reference.earliest_reading_at_or_after(places[0], t + 1)]
    for before, here in zip(places, places[1:]):
        jobs.append(reference.earliest_reading_at_or_after(here, reference.write_of(before, jobs[-1]) + file.gap))
    return c, t, answer[1], rows_of(file, c, jobs), t + answer[1]


def age_right(file, c, z):
    places = file.places(c)
    answer = reference.age(places, file.gap, z)
    if answer[0] != "ok":
        return 1, answer[1], None
    jobs = reference.backward_way(places, file.gap, len(places), reference.latest_writing_at_or_before(places[-1], z))
    return c, z, answer[1], rows_of(file, c, jobs), z - answer[1]


def first_leg(places, warm):
    return reference.write_of(places[-1], warm[1][-1])


def table_of(places, gap):
    """The table of a chain: starts, latencies, the number of anchors and the hyperperiod; where the reference is slow, by the call."""
    periods = [t for t, _, _ in places]
    cut, partitions = periods.index(max(periods)) + 1, math.lcm(*periods) // max(periods)
    if partitions <= 20000:
        anchors = reference.anchors(places, gap, cut)
        return [start for start, _ in anchors], [latency for _, latency in anchors], len(anchors), math.lcm(*periods)
    answer, starts, latencies = proved.make(inputs.flat(places), len(places), gap, cut, [0] * partitions, [0] * partitions)
    return starts, latencies, answer[1], math.lcm(*periods)


def check_right(file):
    chains = []
    for c, numbers in enumerate(file.chains, start=1):
        places = file.places(c)
        warm = reference.warm_up(places, file.gap)
        if warm[0] == "ok":
            anchors = table_of(places, file.gap)[2]
            chains.append((c, numbers, warm[3], warm[2], first_leg(places, warm), warm[1], anchors, anchors <= 1024))
        else:
            chains.append((c, warm[1]))
    return int(any(len(chain) == 2 or not chain[-1] for chain in chains)), file.tasks, file.gap, chains


def canonical(tasks, chains, gap):
    """The canonical text."""
    lines = ["task %d period %d duration %d phase %d\n" % task for task in tasks]
    lines += ["chain" + "".join(f" {number}" for number in chain) + "\n" for chain in chains]
    return "".join(lines + [f"gap {gap}\n"] * (gap > 0)).encode()


# ---- 1: every command

def ticks_of(r, file, c):
    """Ticks for a press or a leg at a chain: around its first ones, within two hyperperiods and around the upper tick."""
    warm = reference.warm_up(file.places(c), file.gap)
    if warm[0] != "ok":
        return [0, 10**6]
    firsts = [warm[2], first_leg(file.places(c), warm)]
    some = [tick + step for tick in firsts for step in (-1, 0, 1)] + [reference.UPPER_TICK, reference.UPPER_TICK + 1, 2**64 - 1]
    return [tick for tick in some + [r.randint(min(firsts), max(firsts) + 2 * warm[3]) for _ in range(3)] if tick >= 0]


def ways_cases(r, file):
    """delay and age of each chain, and of chains that there are not. A refusal has its reason in words."""
    for c in range(1, len(file.chains) + 1):
        for t in ticks_of(r, file, c):
            # Chain 1 need not be named.
            named = () if c == 1 and r.random() < 0.5 else (c,)
            for word, says, ends, right in (("delay", "the delay is", "booked", delay_right), ("age", "the newest reading is", "read", age_right)):
                answer = called(word, file.path, t, *named)
                yield f"{word} {file.path} {t} chain {c}", refused_with(answer) if answer.status else way_of(answer, says, ends), right(file, c, t)
                if answer.status:
                    yield f"{word} {file.path} {t} chain {c}, in words: {answer.err}", lacking(answer, reasons(file, refused_with(answer)[1], c)), []
    for word, c in itertools.product(("delay", "age"), (0, len(file.chains) + 1, 2**64 - 1)):
        yield f"{word} of chain {c}", refused_with(called(word, file.path, 10**6, c)), (1, 16, None)


def reasons(file, refusal, *chains):
    """What the words on a refusal of one chain, or of two, must have in them."""
    warm = [reference.warm_up(file.places(c), file.gap) for c in chains]
    if refusal == 7 and len(chains) == 1:
        return [f"{t:,}" for t, _, _ in file.places(*chains)] + ["60,000,000"]
    if refusal == 7:
        return next(([f"hyperperiod of chain {c} alone"] for c, each in zip(chains, warm) if each[0] != "ok"), ["their common hyperperiod"])
    if refusal == 12 and len(chains) == 1:
        return [f"a delay from tick {warm[0][2]:,} on", f"an age from tick {first_leg(file.places(*chains), warm[0]):,} on"]
    if refusal == 12:
        return [f"Chain {chains[0]} has delays from tick {warm[0][2]:,} on, chain {chains[1]} from tick {warm[1][2]:,} on"]
    if refusal == 17:
        places = len(file.places(*chains))
        return {1: ["1 place,", "cannot be cut"], 2: ["2 places,", "its one cut is 1."]}.get(places, [f"{places} places,", f"1 to {places - 1},"])
    return {13: ["1,000,000,000,000"], 15: ["1 to 100"], 18: ["the width is 0", "1 tick or more"]}[refusal]


def lacking(answer, pieces):
    return [piece for piece in pieces if piece not in answer.err]


def pair_of(answer):
    """The press, the two chains, the four figures, and the chains that book later and earlier."""
    by = r", by chain (\d+)(?: and chain (\d+))?"
    bookings, differences = rf" +later booking +tick {COUNT}{by}\n +earlier booking +tick {COUNT}{by}\n", rf" +difference +{TIME}\n +greatest difference .*? {TIME}\n"
    found = re.search(rf"tick {COUNT}, chains {COUNT} and {COUNT}:\n{bookings}{differences}$", answer.text())
    if not found or answer.err or answer.status:
        return answer
    later, earlier = ({int(each) for each in pair if each} for pair in (found.group(5, 6), found.group(8, 9)))
    return (*(number(found[i]) for i in (1, 2, 3, 4, 7)), time_of(found, 10), time_of(found, 12), later, earlier)


def bookers(file, n, m, t):
    """Which of two chains book a press later, and which earlier: both where they book at once."""
    booked = {c: reference.booking(file.places(c), file.gap, t) for c in (n, m)}
    return tuple({c for c in booked if booked[c] == which(booked.values())} for which in (max, min))


def pair_cases(r, file):
    """pair on all chains of a file whose common hyperperiod the reference goes through quickly, and on a chain that there is not."""
    count = len(file.chains)
    counted = [(len(chain), chain) for chain in file.chains]
    for n, m in itertools.product(range(1, count + 1), repeat=2):
        periods = [task[0] for task in file.places(n) + file.places(m)]
        if math.lcm(*periods) // max(periods) > 500 and math.lcm(*periods) <= inputs.MOST_HYPER:
            continue
        for t in r.sample(ticks_of(r, file, n) + ticks_of(r, file, m), 3):
            right = reference.bookings_of(len(file.tasks), file.tasks, count, counted, file.gap, n, m, t)
            answer = called("pair", file.path, t, n, m)
            if answer.status:
                yield f"pair {file.path} {t} {n} {m}, in words: {answer.err}", lacking(answer, reasons(file, refused_with(answer)[1], n, m)), []
            yield f"pair {file.path} {t} {n} {m}", refused_with(answer) if answer.status else pair_of(answer), (t, n, m, *right[1:], *bookers(file, n, m, t)) if right[0] == "ok" else (1, right[1], None)
    yield f"pair {file.path} of no chain", refused_with(called("pair", file.path, 10**6, 1, count + 1)), (1, 16, None)
    yield f"pair {file.path} of chain 0", refused_with(called("pair", file.path, 10**6, 0, 1)), (1, 16, None)


def windows_of(answer):
    """The chain, the bound, the misses, the jobs of a window and the first job; only the first two where none misses."""
    longer = r"longer than ([0-9,.]+) (µs|ms) from the job's own read to its booking"
    forms = (
        rf"no job of the first place takes {longer}()()()", rf"a job of the first place can take {longer}; job {COUNT} is the first that does()()",
        rf"at most {COUNT} of {COUNT} jobs of the first place in a row takes? {longer}; the first such stretch begins with job {COUNT}",
    )
    none, one, some = (re.fullmatch(rf"chain {COUNT}: after the warm-up {form}\n", answer.text()) for form in forms)
    if answer.err or answer.status or not (none or one or some):
        return answer
    c, value, unit = (some.group(1, 4, 5) if some else (none or one).group(1, 2, 3))
    told_of = (number(some[2]), number(some[3]), number(some[6])) if some else (1, 1, number(one[4])) if one else (0,)
    return number(c), Fraction(value.replace(",", "")) * (1000 if unit == "ms" else 1), *told_of


def windows_cases(r, file):
    for c in range(1, len(file.chains) + 1):
        places = file.places(c)
        if reference.check_chain(places, file.gap)[0] == "ok" and reference.hyperperiod(places) // places[0][0] > 1000:
            continue
        for k in (0, 1, 10, 100, 101):
            bound = r.choice([0, 2**64 - 1, sum(place[1] for place in places), sum(place[0] + place[1] for place in places)])
            right = reference.windows(places, file.gap, bound, k)
            answer = called("windows", file.path, bound, k, "--chain", c)
            if answer.status:
                yield f"windows {file.path} {bound} {k} of chain {c}, in words: {answer.err}", lacking(answer, reasons(file, refused_with(answer)[1], c)), []
            expected = (c, bound, *((right[1], k, right[2]) if right[1] else (0,))) if right[0] == "ok" else (1, right[1], None)
            yield f"windows {file.path} {bound} {k} of chain {c}", refused_with(answer) if answer.status else windows_of(answer), expected


def sections_of(answer):
    """The chain, the cuts, the first and last place, the tasks and the latency of each section, the gaps and the gap of the sum, the sum and the whole."""
    lines = answer.text().splitlines()
    head = re.fullmatch(rf"chain {COUNT}, cut after places? ([0-9]+(?:, [0-9]+)*(?: and [0-9]+)?):", lines[0]) if lines else None
    form = rf"  section {COUNT} +places? {COUNT}(?: to {COUNT})? +tasks? ([0-9]+(?:, [0-9]+)*) +greatest latency {TIME}"
    rows = [re.fullmatch(form, line) for line in lines[1:-2]]
    total = re.fullmatch(rf"  the sum(?: with {COUNT} gaps? of {TIME})? is {TIME}", lines[-2]) if len(lines) > 2 else None
    whole = re.fullmatch(rf"  the whole chain's greatest latency is {TIME}", lines[-1]) if lines else None
    if answer.status or answer.err or not head or not total or not whole or not all(rows):
        return answer
    sections = [(number(row[1]), number(row[2]), number(row[3] or row[2]), list(map(number, row[4].split(", "))), time_of(row, 5)) for row in rows]
    gaps = (number(total[1]), time_of(total, 2)) if total[1] else None
    return number(head[1]), list(map(number, re.split(", | and ", head[2]))), sections, gaps, time_of(total, 4), time_of(whole)


def sections_right(file, c, cuts):
    places, numbers = file.places(c), file.chains[c - 1]
    answer = reference.sections(places, file.gap, cuts)
    if answer[0] != "ok":
        return 1, answer[1], None
    ends = list(zip([0, *cuts], [*cuts, len(places)]))
    sections = [(i, first + 1, last, numbers[first:last], latency) for i, ((first, last), latency) in enumerate(zip(ends, answer[1]), start=1)]
    return c, cuts, sections, (len(cuts), file.gap) if file.gap else None, answer[2], reference.sections(places, file.gap, [])[2]


def sections_cases(r, file):
    """Cuts that are right, in the middle and everywhere, and such as are not, with commas or blanks between them; the chain's number before them and after."""
    for c in range(1, len(file.chains) + 1):
        places = file.places(c)
        if reference.check_chain(places, file.gap)[0] == "ok" and math.lcm(*[t for t, _, _ in places]) > 1000 * max(t for t, _, _ in places):
            continue
        n = len(places)
        for cuts in [[max(1, n // 2)], list(range(1, n)), inputs.some_cuts(r, n), *r.sample(inputs.faulty_cuts(r, n), 3)]:
            if not cuts:
                continue
            spelt_cuts, chosen = r.choice([[",".join(map(str, cuts))], list(map(str, cuts))]), ["--chain", c]
            answer = called("sections", file.path, *r.choice([[*spelt_cuts, *chosen], [*chosen, *spelt_cuts]]))
            if answer.status:
                yield f"sections {file.path} {cuts} of chain {c}, in words: {answer.err}", lacking(answer, reasons(file, refused_with(answer)[1], c)), []
            yield f"sections {file.path} {cuts} of chain {c}", refused_with(answer) if answer.status else sections_of(answer), sections_right(file, c, cuts)
    for c in (0, len(file.chains) + 1, 2**64 - 1):
        yield f"sections of chain {c}", refused_with(called("sections", file.path, 1, "--chain", c)), (1, 16, None)


# The longest bar, and the most bars and counts that the command allows.
LONGEST_BAR, MOST_BARS, MOST_COUNTS = 40, 500, 2**20


def in_a_row(lines, sign):
    """Whether a sign stands at the same place of all lines that have it."""
    return len({line.index(sign) for line in lines if sign in line}) <= 1


def histogram_of(answer):
    """The chain, the hyperperiod, the width; of each row both ends, the ticks, the share, whether it is marked as rounded and the length of the bar; the ticks together."""
    lines, end = answer.text().splitlines(), r"([0-9,.]+) (µs|ms)"
    head = re.fullmatch(rf"chain {COUNT}, hyperperiod {TIME}, width {TIME}: how often each delay occurs", lines[0]) if lines else None
    rows = [re.fullmatch(rf"  from +{end} to below +{end} +{COUNT} (ticks?) +(≈ )?([0-9]+\.[0-9]) %(?:  (#+))?", line) for line in lines[1:-1]]
    last = re.fullmatch(rf"  together {COUNT} (ticks?): every tick of a hyperperiod", lines[-1]) if lines else None
    if answer.status or answer.err or not head or not last or not rows or not all(rows):
        return answer
    # One tick and several, one unit, and columns below each other.
    named, units = [(number(row[5]), row[6]) for row in rows] + [(number(last[1]), last[2])], {row[i] for row in rows for i in (2, 4)}
    if any((word == "tick") != (count == 1) for count, word in named) or len(units) > 1 or not all(in_a_row(lines[1:-1], sign) for sign in ("to below", " tick", "%", "#")):
        return answer
    ticks = {"µs": 1, "ms": 1000}
    ends = [[Fraction(row[i].replace(",", "")) * ticks[row[i + 1]] for i in (1, 3)] for row in rows]
    told_of = [(*both, number(row[5]), row[8], bool(row[7]), len(row[9] or "")) for both, row in zip(ends, rows)]
    return number(head[1]), time_of(head, 2), time_of(head, 4), told_of, number(last[1])


def too_narrow(least, top, width):
    """What a histogram of this width has more of than the command allows, if anything: bars from the least delay to the greatest, or else counts up to there."""
    bars, counts = top // width - least // width + 1, top // width + 1
    return f"{bars:,} bars" if bars > MOST_BARS else f"{counts:,} counts" if counts > MOST_COUNTS else None


def wide_enough(least, top, width):
    """The least width from this one on with which the command makes a histogram."""
    return next(each for each in itertools.count(width) if not too_narrow(least, top, each))


def histogram_right(c, table, width):
    """What the command prints on chain c, from the counts of the reference."""
    h, top = table[3], reference.greatest(*table)[1]
    answer = reference.histogram(*table, width, top // width + 1 if width else 0)
    if answer[0] != "ok":
        return 1, answer[1], None
    counts, rows, most = answer[1], [], max(answer[1])
    occurring = [i for i, count in enumerate(counts) if count]
    for i in range(occurring[0], occurring[-1] + 1):
        tenths = Fraction(1000 * counts[i], h)
        nearest = math.floor(tenths + Fraction(1, 2))
        length = math.floor(Fraction(LONGEST_BAR * counts[i], most) + Fraction(1, 2))
        rows.append((i * width, (i + 1) * width, counts[i], f"{nearest // 10}.{nearest % 10}", nearest != tenths, max(length, 1) if counts[i] else 0))
    return c, h, width, rows, h


def some_widths(r, least, top):
    """Widths around the limits of the command, around the least and the greatest delay, and others."""
    first = wide_enough(least, top, 1)
    some = [first + 1, least - 1, least, least + 1, top, top + 1, top // 2 + 1, 2**64 - 1, 1000, 1000000, r.randint(first, top), r.randint(1, top)]
    return [0, first, *([first - 1] if first > 1 else []), *r.sample(some, 4)]


def histogram_cases(r, file):
    """Widths with units and without, those with too many bars or counts among them, and chains that there are not."""
    for c in range(1, len(file.chains) + 1):
        places = file.places(c)
        if reference.check_chain(places, file.gap)[0] != "ok":
            answer = called("histogram", file.path, "--width", r.choice([0, 1, 5000]), "--chain", c)
            yield f"histogram {file.path} of chain {c}", refused_with(answer), (1, 7, None)
            yield f"histogram {file.path} of chain {c}, in words: {answer.err}", lacking(answer, reasons(file, 7, c)), []
            continue
        table = table_of(places, file.gap)
        least, top = reference.low(*table)[1] + 1, reference.greatest(*table)[1]
        for width in some_widths(r, least, top):
            words_of = ["--width", r.choice([str(width), spelt(r, width)])], ["--chain", c] if c > 1 or r.random() < 0.5 else []
            answer = called("histogram", *r.choice([[file.path, *words_of[0], *words_of[1]], [*words_of[1], *words_of[0], file.path]]))
            what, fault = f"histogram {file.path} {words_of} {width}: {answer.err}", too_narrow(least, top, width) if width else None
            if fault:
                found = re.fullmatch(rf"\./meshorchard: a width of {TIME} .*?({COUNT} (?:bars|counts)), .*; the least width above it that works is {TIME}\n", answer.err)
                yield what, (answer.status, answer.out, found and (time_of(found), found[3], time_of(found, 5))), (2, b"", (width, fault, wide_enough(least, top, width)))
                continue
            yield what, refused_with(answer) if answer.status else histogram_of(answer), histogram_right(c, table, width)
            if answer.status:
                yield f"{what} in words", lacking(answer, reasons(file, refused_with(answer)[1], c)), []
    for c in (0, len(file.chains) + 1, 2**64 - 1):
        yield f"histogram of chain {c}", refused_with(called("histogram", file.path, "--width", 5000, "--chain", c)), (1, 16, None)


def rows_of_counts(counts, width, first=0):
    """The rows that are printed of these counts, from an entry on."""
    figures = dataclasses.replace(analysis.made(CHAIN_A), hyperperiod=sum(counts))
    bars = [analysis.Bar((first + i) * width, (first + i + 1) * width, count) for i, count in enumerate(counts)]
    return histogram_of(Answer(0, "".join(line + "\n" for line in words.histogram(1, figures, bars)).encode(), ""))


def bar_cases():
    """Bars of counts that no chain has: none between two others, one tick beside very many, and halves of a sign and of a tenth."""
    for counts, width, first, told_of in (
        ([3, 0, 1], 5, 2, [("75.0", False, 40), ("0.0", False, 0), ("25.0", False, 13)]), ([1, 10**6], 1000, 0, [("0.0", True, 1), ("100.0", True, 40)]),
        ([80, 1, 3], 10, 1, [("95.2", True, 40), ("1.2", True, 1), ("3.6", True, 2)]), ([1999, 1], 1, 7, [("100.0", True, 40), ("0.1", True, 1)]),
        ([2], 2**64 - 1, 0, [("100.0", False, 40)]),
    ):
        right = 1, sum(counts), width, [((first + i) * width, (first + i + 1) * width, count, *told) for i, (count, told) in enumerate(zip(counts, told_of))], sum(counts)
        yield f"bars of {counts} from entry {first} of width {width}", rows_of_counts(counts, width, first), right


def phase_words(text):
    """The chain, the task and the bound; the phase found and the greatest latency with it, or None; those of today, or None where nothing need change; whether today's keeps the bound; of each
    other chain both latencies, or its refusal. The whole text where it has another form."""
    latency = rf"the chain's greatest latency is {TIME}"
    head = rf"chain {COUNT}, task (\d+), bound {TIME}: (?:none, no phase keeps it|the smallest phase that keeps it is {TIME}\n  with that phase {latency})\n"
    now = rf"(?:  task (\d+) has that phase today: nothing need change\n|  today, with phase {TIME}, {latency}(, which keeps the bound too)?\n)"
    found = re.fullmatch(rf"{head}{now}((?:  chain .*\n)*)", text)
    other = rf"  chain (\d) has task (\d+) too: (?:its greatest latency becomes {TIME}, and is {TIME} today|chain (\d) is refused with (\d+): .+)"
    rows = [re.fullmatch(other, line) for line in found[15].splitlines()] if found else [None]
    if not all(rows) or any(row[2] != found[2] or row[7] not in (None, row[1]) for row in rows) or found[9] not in (None, found[2]):
        return text
    others = [(int(row[1]), int(row[8])) if row[7] else (int(row[1]), time_of(row, 3), time_of(row, 5)) for row in rows]
    then, today = (found[i] and (time_of(found, i), time_of(found, i + 2)) for i in (5, 10))
    return number(found[1]), int(found[2]), time_of(found, 3), then, today, bool(found[14]), others


def phase_of(answer):
    """What is said of a phase; the refusal, or the whole answer where it has another form."""
    if answer.status:
        return refused_with(answer)
    return answer if answer.err else phase_words(answer.text())


def latency_of(file, c):
    """The greatest latency of a chain of a file, or its refusal."""
    refusal = reference.check_chain(file.places(c), file.gap)
    return reference.greatest_latency(file.places(c), file.gap) if refusal[0] == "ok" else refusal


def phase_right(file, c, task, bound):
    counted = [(len(chain), chain) for chain in file.chains]
    answer = reference.smallest_phase_of(len(file.tasks), file.tasks, len(file.chains), counted, file.gap, c, task, bound)
    if answer[0] != "ok":
        return 1, answer[1], None
    found, phase = answer[1], next(f for each, _, _, f in file.tasks if each == task)
    today = phase, latency_of(file, c)
    if found is None:
        return c, task, bound, None, today, False, []
    moved, others = file.at_phase(task, found), []
    for other in [each for each, numbers in enumerate(file.chains, start=1) if each != c and task in numbers and found != phase]:
        then, now = latency_of(moved, other), latency_of(file, other)
        others.append((other, then[1]) if isinstance(then, tuple) else (other, then, now))
    same = found == phase
    return c, task, bound, (found, latency_of(moved, c)), None if same else today, not same and today[1] <= bound, others


def phase_reasons(file, c, task, refusal):
    """What the words on a refusal must have in them: the tasks that the chain has and the chains that the task is in, or its period and the limit."""
    if refusal == 19:
        tasks, others = sorted(set(file.chains[c - 1])), [each for each, numbers in enumerate(file.chains, start=1) if task in numbers]
        where = f"{'only task is' if len(tasks) == 1 else 'tasks are'} {', '.join(map(str, tasks))}"
        but = re.sub(r", (\d)$", r" and \1", f", but in {'chain' if len(others) == 1 else 'chains'} {', '.join(map(str, others))}") if others else ""
        return [f"task {task} is", f"not in chain {c}, where the {where}{but}."]
    if refusal == 20:
        period = next(t for each, t, _, _ in file.tasks if each == task)
        return [f"task {task} is", f"its period is {period:,} µs", "up to a period of 10,000 µs (10 ms)."]
    return reasons(file, refusal, c)


def phase_case(r, file, c, task, bound):
    """The command on a file, or on its bytes, with a bound in any form, and what it should say; a refusal with its reason in words."""
    words_of = [task, r.choice([bound, spelt(r, bound)])], ["--chain", c] if c != 1 or r.random() < 0.5 else []
    path, given = (file.path, b"") if file.path else ("-", file.data)
    answer = called("phase", *r.choice([[path, *words_of[0], *words_of[1]], [*words_of[1], path, *words_of[0]]]), stdin=given)
    found, right = phase_of(answer), phase_right(file, c, task, bound)
    if len(right) == 3 and len(found) == 3 and right[1] != 16:
        found = found, lacking(answer, phase_reasons(file, c, task, right[1]))
        right = right, []
    return f"phase of task {task} in chain {c} for {words_of}: {file.tasks} {file.chains} {file.gap} {answer.err}", found, right


def phase_bounds(r, file, c, task):
    """Bounds around the greatest latency of today and the least of some phases, and the ends of 64 bits."""
    if reference.check_chain(file.places(c), file.gap)[0] != "ok":
        return [0, 5000, 10**9, 2**64 - 1]
    period = next((t for each, t, _, _ in file.tasks if each == task), 1)
    today, least = latency_of(file, c), min(latency_of(file.at_phase(task, r.randrange(period)), c) for _ in range(4))
    return [today + r.choice([-1, 0, 1]), least - 1, least, least, least, least + 1, (today + least) // 2, r.choice([0, 2**64 - 1])]


def phase_cases(r, file):
    """Every task of each chain whose phases the reference tries quickly, tasks that are not in it, and chains that there are not."""
    for c, numbers in enumerate(file.chains, start=1):
        places = file.places(c)
        work = {task: t * (math.lcm(*[each[0] for each in places]) // max(each[0] for each in places)) for task, (t, _, _) in zip(numbers, places)}
        quick = [task for task in work if work[task] <= 20000 or reference.check_chain(places, file.gap)[0] != "ok" or dict(zip(numbers, places))[task][0] > 10000]
        others = [task for task, _, _, _ in file.tasks if task not in numbers] + [0, 65536, 2**64 - 1]
        for task in quick[:3] + r.sample(others, 2):
            for bound in r.sample(phase_bounds(r, file, c, task), 2):
                yield phase_case(r, file, c, task, bound)
    for c in (0, len(file.chains) + 1, 2**64 - 1):
        yield f"phase in chain {c}", refused_with(called("phase", file.path, file.tasks[0][0], 5000, "--chain", c)), (1, 16, None)


def picture_faults(data):
    """What is wrong with an SVG."""
    try:
        return None if xml.etree.ElementTree.fromstring(data).tag == "{http://www.w3.org/2000/svg}svg" else "the root is no svg"
    except xml.etree.ElementTree.ParseError as fault:
        return str(fault)


def page_faults(data):
    """What an HTML page would fetch from elsewhere."""
    held = data.decode("utf-8").replace("http://www.w3.org/2000/svg", "")
    found = re.findall(r"src\s*=.{0,40}|https?:.{0,40}|@import.{0,40}|url\((?!#).{0,40}", held)
    return found or (None if held.lstrip().lower().startswith("<!doctype html") and held.rstrip().endswith("</html>") else "this is no whole page")


def picture_cases(folder, file, statuses):
    """curve, histogram and page: a status, and an output that is a picture or a page. `statuses` are those of the pictures of each chain and of the page."""
    out = os.path.join(folder, "out")
    for (c, status), drawn in itertools.product(enumerate(statuses[:-1], start=1), (["curve"], ["histogram", "--width", 60011000], ["histogram", "--width", 2**64 - 1])):
        answer = called(*drawn, file.path, "-o", out, "--chain", c)
        yield f"{drawn} {file.path} of chain {c}", (answer.status, answer.out, picture_faults(content(out)) if os.path.exists(out) else "no file"), (status, b"", "no file" if status else None)
        if os.path.exists(out):
            os.remove(out)
    answer = called("page", file.path, "-o", out, "--bound", 5000, "--jobs", 7)
    yield f"page {file.path}", (answer.status, page_faults(content(out) or b"")), (statuses[-1], None)
    # What a page says of a bound is looked at in pictures.py; here, that the chosen one comes to it.
    made = pages.of_schedule(streams_of.title_of(file.path), calls.read_file(file.data), 5000, 7)
    yield f"page {file.path} with a bound", content(out) == made.text().encode(), True
    yield f"what is said beside the page of {file.path}", answer.err.splitlines(), made.refusals
    os.remove(out)


def accepted_cases(r, folder, file):
    """Every command on a file that is accepted; a chain may be refused."""
    right = reference.report(file.data)
    chains = [len(chain) == 2 for chain in check_right(file)[3]]
    yield f"report {file.path}", called("report", file.path), Answer(int(b"refused" in right), right, "")
    yield f"chainreport {file.path}", reports.printed(file.data), right
    yield f"text {file.path}", called("text", file.path), Answer(0, canonical(file.tasks, file.chains, file.gap), "")
    yield f"check {file.path}", check_of(called("check", file.path)), check_right(file)
    yield from ways_cases(r, file)
    yield from pair_cases(r, file)
    yield from windows_cases(r, file)
    yield from sections_cases(r, file)
    yield from histogram_cases(r, file)
    yield from phase_cases(r, file)
    yield from picture_cases(folder, file, [*map(int, chains), int(any(chains) or no_common(file) or not all(chain[-1] for chain in check_right(file)[3]))])


def no_common(file):
    """Whether two chains of a file have no common hyperperiod within the limit, which a page says as a refusal."""
    hypers = [math.lcm(*[t for t, _, _ in file.places(c)]) for c in range(1, len(file.chains) + 1)]
    return any(math.lcm(one, two) > inputs.MOST_HYPER for one, two in itertools.combinations(hypers, 2))


def refused_files(r, folder):
    """For each refusal a file that has it, and some of its own kind: each with the number and the place."""
    tasks, chains = inputs.schedule(r, 3, [2, 1])
    parts, wanted = inputs.records(tasks, chains, 5), {1, 2, 3, 4, 5, 6}
    for data in itertools.chain(inputs.dropped(r, parts), inputs.wrong_lengths(r, parts), inputs.inserted(r, parts), inputs.edge_files(r, tasks, chains, 5)):
        found = reference.read_file(data)
        if found[0] != "ok" and found[1] in wanted:
            wanted.discard(found[1])
            yield put(folder, f"refused-{found[1]}.schedule", data), found[1], found[2]
    assert not wanted, wanted
    yield put(folder, "empty.schedule", b""), 1, 0
    yield put(folder, "text.schedule", content(LASER_TEXT)), *reference.read_file(content(LASER_TEXT))[1:]


def arguments_for(word, path, out):
    """The command on a file."""
    more = {"delay": [10**6], "age": [10**6], "pair": [10**6, 1, 1], "windows": [5000, 10], "sections": [1], "histogram": ["--width", "5ms"], "phase": [10, "129.5ms"], "curve": ["-o", out],
            "page": ["-o", out]}
    return [word, path, *more.get(word, [])]


ON_FILES = ("text", "check", "report", "delay", "age", "pair", "windows", "sections", "histogram", "phase", "curve", "page")


def refused_cases(r, folder):
    """Every command on files that are refused, missing or no file."""
    out = os.path.join(folder, "out")
    for path, refusal, place in refused_files(r, folder):
        for word in ON_FILES:
            answer = called(*arguments_for(word, path, out))
            if word == "report":
                yield f"report {path}", answer, Answer(1, b"refused %d %d\n" % (refusal, place), "")
            elif word == "page":
                # The page is made all the same, and tells it.
                yield f"page {path}", (answer.status, page_faults(content(out)), f"refused with {refusal} at {place:,}".encode() in content(out)), (1, None, True)
                os.remove(out)
            else:
                begins = answer.err.startswith(f"{path} is refused with {refusal} at {place:,}: ")
                yield f"{word} {path}", (refused_with(answer), begins, content(out)), ((1, refusal, place), True, None)
    yield "check of a text", "write" in called("check", os.path.join(folder, "text.schedule")).err, True
    for path, word in itertools.product((os.path.join(folder, "missing"), folder), ON_FILES):
        answer = called(*arguments_for(word, path, out))
        yield f"{word} {path}", (answer.status, answer.out, path in answer.err, content(out)), (2, b"", True, None)
    for path in (os.path.join(folder, "missing"), folder):
        answer = called("write", path, out)
        yield f"write {path}", (answer.status, answer.out, path in answer.err, content(out)), (2, b"", True, None)


def long_cases(r, folder):
    """More than the 4,096 bytes that the instrument's program looks at: check judges as many, and says so."""
    for data in reports.long(r, 0.1):
        path = put(folder, "long-input", data)
        yield f"report of {len(data)} bytes", called("report", path), Answer(1, reference.report(data), "")
        answer = called("check", path)
        said_so = "Only the first 4,096 bytes are looked at." in answer.err
        yield f"check of {len(data)} bytes", (refused_with(answer), said_so), ((1, *reference.read_file(data[:4096])[1:]), len(data) > 4095)


def wrong_use_cases(folder):
    """Wrong use: status 2, nothing printed, and the wrong word told."""
    out = os.path.join(folder, "out")
    some = [([], "COMMAND"), (["chekc", LASER], "chekc"), (["check"], "FILE"), (["check", LASER, "more"], "more"), (["curve", LASER], "-o"), (["write", LASER_TEXT], "FILE"), (["sections", LASER], "CUTS"), (["sections", LASER, "1,x"], "x"), (["sections", LASER, "1,"], "1,")]
    some += [(["histogram", LASER, *words], "--width") for words in ([], ["5ms"], ["--width"])] + [(["histogram", "--width", "5ms"], "FILE"), (["histogram", LASER, "--width", "5ms", "-o"], "-o")]
    # A width with more bars than are shown; the picture is not made either.
    some += [(["histogram", LASER, "--width", "1", *more], "105,000 bars") for more in ([], ["-o", out], ["-o", "-"])]
    some += [(["explain"], "N")] + [(["explain", word], word) for word in ("0", "24", "18446744073709551616", "x", "-1", "1.5")] + [(["explain", "5", "x"], "x")]
    some += [(["phase", LASER], "TASK"), (["phase", LASER, "10"], "BOUND"), (["phase", LASER, "10", "5", "7"], "7"), (["phase", LASER, "10", "129.5", "ms"], "129.5"), (["phase", LASER, "10", "5ms", "-o"], "-o")]
    for bad in ("-1", "x", "1.5", "18446744073709551616", "5ns", "1,0", "", "١", "1e3", "0.0000001s"):
        wrong = (["delay", LASER, bad], ["age", LASER, bad, "1"], ["pair", LASER, bad, "1", "1"], ["windows", LASER, bad, "5"], ["page", LASER, "-o", out, "--bound", bad])
        some += [(arguments, bad) for arguments in (*wrong, ["histogram", LASER, "--width", bad], ["histogram", LASER, "--width", bad, "-o", out], ["phase", LASER, "10", bad, "-o", out])]
    for bad in ("-1", "x", "1.5", "18446744073709551616", "1ms", ""):
        wrong = (["delay", LASER, "5", bad], ["pair", LASER, "5", "1", bad], ["windows", LASER, "5", bad], ["sections", LASER, bad], ["sections", LASER, "1", "--chain", bad], ["curve", LASER, "-o", out, "--chain", bad], ["page", LASER, "-o", out, "--jobs", bad])
        some += [(arguments, bad) for arguments in (*wrong, ["histogram", LASER, "--width", "5ms", "--chain", bad], ["phase", LASER, bad, "130ms", "-o", out], ["phase", LASER, "10", "130ms", "--chain", bad])]
    for arguments, word in some:
        answer = called(*arguments)
        yield " ".join(map(str, arguments)), (answer.status, answer.out, word in answer.err, "Traceback" in answer.err, content(out)), (2, b"", True, False, None)


def like_processes(folder, files):
    """./meshorchard gives what the calls in this process give."""
    out = os.path.join(folder, "out")
    some = [arguments_for(word, path, out) for path in files for word in ON_FILES if word not in ("curve", "page")]
    some += [["explain", "5", "18"], ["explain", "23"], ["explain", "24"], ["delay", LASER, "95ms"], ["delay", LASER, "x"], []]
    some += [["histogram", LASER, "--width", width, *more] for width, more in (("0", []), ("1", []), ("20 ms", ["--chain", "1"]), ("20ms", ["-o", "-"]), ("0", ["-o", "-"]))]
    some += [["phase", LASER, *words] for words in (["10", "130 ms"], ["10", "129.5ms", "-o", "-"], ["20", "1ms"], ["20", "1ms", "-o", "-"], ["20", "1ms", "-o", out], ["30", "130ms"], ["40", "130ms", "--chain", "1"])]
    for arguments, answer in zip(some, ran_all([(arguments,) for arguments in some])):
        yield f"./meshorchard {' '.join(map(str, arguments))}", answer, called(*arguments)


@group
def commands(r, factor):
    """every command on the examples, on other files and on refused ones, with the reference's numbers"""
    with tempfile.TemporaryDirectory() as folder:
        # Beside the examples: any chains, a hyperperiod that is too long beside one that is not, more anchors than a report has room for, and delays that differ little but are long.
        some = {"long": [[(999983, 1, 0), (999979, 1, 0)], [(4, 4, 0), (6, 6, 0)], [(768, 5, 1), (78125, 9, 2)]], "anchors": [reports.near_slots(r, 1030)],
                "long-delays": [[(3, 3999999, 999999), (7, 4000000, 1000000)] * 6]}
        some.update({f"any-{i}": reports.quick_chains(r, i % 4 + 1) for i in range(int(12 * factor))})
        files = [file_of(path) for path in EXAMPLES] + [file_of(put(folder, f"{name}.schedule", b"".join(reports.file_of(r, chains)))) for name, chains in some.items()]
        assert len(EXAMPLES) >= 8 and {7, 11} <= {found[0] for file in files for found in reports.refusals(file.data).values()}
        for file in files:
            yield from accepted_cases(r, folder, file)
        for name in EXAMPLES:
            out = os.path.join(folder, "written")
            yield f"write of the text beside {name}", (called("write", name[:-9] + ".txt", out).status, content(out)), (0, content(name))
        yield from refused_cases(r, folder)
        yield from long_cases(r, folder)
        yield from wrong_use_cases(folder)
        yield from bar_cases()
        for jobs in (0, 101):
            yield f"page with windows of {jobs} jobs, which are refused with 15", called("page", LASER, "-o", os.path.join(folder, "out"), "--jobs", jobs).status, 1
        for refusal in range(1, 24):
            answer = called("explain", refusal)
            yield f"explain {refusal}", (answer.status, answer.text().startswith(f"{refusal}: "), answer.text().count("\n") >= 2, answer.err), (0, True, True, "")
        yield from like_processes(folder, [LASER, os.path.join(folder, "long.schedule"), os.path.join(folder, "refused-5.schedule"), os.path.join(folder, "missing")])


# ---- 2: texts both ways

def grouped(value, sign):
    return f"{value:,}".replace(",", sign)


def decimal(value, digits):
    """So many millionths or thousandths as a decimal number; zeros at its end may stay or go."""
    before, after = divmod(value, 10**digits)
    return before, f"{after:0{digits}d}"


def spelt(r, ticks):
    """A time as someone may write it, exactly."""
    unit, digits = r.choice([("", 0), ("", 0), ("us", 0), ("\u00b5s", 0), ("\u03bcs", 0), ("ms", 3), ("s", 6)])
    before, after = decimal(ticks, digits) if digits else (ticks, "")
    word = r.choice([str, str, lambda value: grouped(value, ","), lambda value: grouped(value, "_")])(before)
    after = r.choice([after, after.rstrip("0")])
    return word + ("." + after if after else "") + r.choice(["", " ", "\t "] if unit else [""]) + unit


def not_canonical(r, tasks, chains, gap):
    """A text of a schedule with units, separators, comments, blank lines, tabs, other ends of lines and what else is permitted."""
    counted = lambda value: r.choice([str(value), grouped(value, ","), grouped(value, "_")])
    rows = [["task", counted(n), "period", spelt(r, t), "duration", spelt(r, d), "phase", spelt(r, f)] for n, t, d, f in tasks]
    rows += [["chain", *map(counted, chain)] for chain in chains]
    rows += [["gap", spelt(r, gap)]] if gap or r.random() < 0.5 else []
    lines = []
    for row in rows:
        lines += r.choice([[], [], [""], ["  \t"], ["# chain 9 9, and no line: µ"], ["\t#"]])
        lines.append(r.choice(["", " ", "\t"]) + r.choice([" ", "  ", "\t", " \t "]).join(row) + r.choice(["", " ", "\t", "# a comment", "  # gap 7 # more"]))
    end = r.choice(["\n", "\n", "\r\n"])
    return r.choice([b"", b"", b"\xef\xbb\xbf"]) + (end.join(lines) + r.choice(["", end, end + end])).encode()


def some_schedules(r, count):
    """Schedules of every permitted gap in turn, at all counts."""
    for i in range(count):
        tasks, chains = inputs.any_schedule(r)
        yield tasks, chains, i % (inputs.MOST_GAP + 1)


def in_process_both_ways(folder, tasks, chains, gap):
    """From the bytes of a file to its text and from the text to a file, which is shown again."""
    data, text, out = b"".join(inputs.records(tasks, chains, gap)), canonical(tasks, chains, gap), os.path.join(folder, "out")
    yield f"text of {data.hex()}", called("text", "-", stdin=data), Answer(0, text, "")
    answer = called("write", "-", out, stdin=text)
    yield f"write of {text!r}", (answer.status, content(out), noted(answer.err)), (0, data, too_long(tasks, chains))
    # What is shown is the canonical text, after a line of its own.
    yield f"what write shows of {text!r}", answer.text().partition("\n")[2], text.decode()
    assert reference.write_file(len(tasks), tasks, len(chains), [(len(chain), chain) for chain in chains], gap, bytes(698))[1].startswith(data)


def noted(err):
    """The chains of which `write` notes that their hyperperiod is too long; what it says of other refusals is left out, and anything else is told whole."""
    notes = [re.fullmatch(r"note: chain (\d) is refused with (7|11)( in a report)?: .*", line) for line in err.splitlines()]
    return [int(note[1]) for note in notes if note[2] == "7"] if all(notes) else err


def too_long(tasks, chains):
    period = {task[0]: task[1] for task in tasks}
    return [c for c, chain in enumerate(chains, start=1) if math.lcm(*[period[number] for number in chain]) > inputs.MOST_HYPER]


def process_both_ways(folder, some):
    """The same by ./meshorchard, through files and through streams."""
    asked = []
    for i, (tasks, chains, gap) in enumerate(some):
        data, text = b"".join(inputs.records(tasks, chains, gap)), canonical(tasks, chains, gap)
        path, source = put(folder, f"{i}.schedule", data), put(folder, f"{i}.txt", text)
        asked += [((["text", path],), text), ((["text", "-"], data), text), ((["write", source, "-"],), data), ((["write", "-", "-"], text), data)][2 * (i % 2):][:2]
    for (given, right), answer in zip(asked, ran_all([given for given, _ in asked])):
        # Beside bytes on standard output what they say is told on standard error.
        yield f"./meshorchard {' '.join(given[0])}", (answer.status, answer.out, "task" in answer.err), (0, right, given[0][0] == "write")


@group
def both_ways(r, factor):
    """canonical texts to files and back, and texts that are not canonical"""
    counts, gaps = set(), set()
    with tempfile.TemporaryDirectory() as folder:
        for tasks, chains, gap in some_schedules(r, int(2002 * factor)):
            counts.add((len(tasks), 0)), counts.add((0, len(chains))), gaps.add(gap)
            yield from in_process_both_ways(folder, tasks, chains, gap)
        for tasks, chains, gap in some_schedules(r, int(1002 * factor)):
            gap = r.choice([0, gap])
            text = not_canonical(r, tasks, chains, gap)
            answer = called("write", "-", "-", stdin=text)
            yield f"write of {text!r}", (answer.status, answer.out), (0, b"".join(inputs.records(tasks, chains, gap)))
        yield from process_both_ways(folder, some_schedules(r, int(16 * factor)))
    assert factor < 1 or gaps == set(range(inputs.MOST_GAP + 1)) and {(1, 0), (31, 0), (32, 0), (0, 1), (0, 4)} <= counts, "not every gap and every count"


# ---- 3: wrong lines

ONE = "task 1 period 4 duration 4 phase 0\n"
TWO = ONE + "task 7 period 6 duration 6 phase 0\n"
FULL = TWO + "chain 1 7\n"
ALL = "".join(f"task {n} period 4 duration 4 phase 0\n" for n in range(1, 33))
PERIOD, DURATION, PHASE, GAP_LIMIT, NUMBER_LIMIT = "1 to 1,000,000 ticks, up to 1 s", "1 to 4,000,000 ticks, up to 4 s", "0 to 1,000,000 ticks, up to 1 s", "1,000 ticks, 1 ms", "1 to 65,535"


def with_period(word):
    return f"task 1 period {word} duration 4 phase 0\nchain 1\n"


# A text, the line that is wrong, the word that is told (None where a word is missing) and a piece of what would be right.
WRONG_WORDS = [
    ("tsk 1 period 4 duration 4 phase 0\nchain 1\n", 1, "tsk", "task, chain or gap"), ("Task 1 period 4 duration 4 phase 0\nchain 1\n", 1, "Task", "task, chain or gap"),
    ("task1 period 4 duration 4 phase 0\nchain 1\n", 1, "task1", "task, chain or gap"), (ONE + "chian 1\n", 2, "chian", "task, chain or gap"),
    (ONE + "chain1\n", 2, "chain1", "task, chain or gap"),
    (FULL + "gab 3\n", 4, "gab", "task, chain or gap"), (FULL + "end\n", 4, "end", "task, chain or gap"), ("// a comment\n" + FULL, 1, "//", "task, chain or gap"),
    ("7\n" + FULL, 1, "7", "task, chain or gap"),
    ("task\n", 1, None, "number of a task"), ("task 1\nchain 1\n", 1, None, "'period'"), ("task 1 period\nchain 1\n", 1, None, "a time"),
    ("task 1 period 4\nchain 1\n", 1, None, "'duration'"),
    ("task 1 period 4 duration\nchain 1\n", 1, None, "a time"), ("task 1 period 4 duration 4\nchain 1\n", 1, None, "'phase'"),
    ("task 1 period 4 duration 4 phase\nchain 1\n", 1, None, "a time"),
    ("task 1 period 4 duration 4 # phase 0\nchain 1\n", 1, None, "'phase'"), (ONE + "chain\n", 2, None, "number of a task"), (FULL + "gap\n", 4, None, "a time"),
    ("task period 4 duration 4 phase 0\nchain 1\n", 1, "period", NUMBER_LIMIT), ("task 1 4 duration 4 phase 0\nchain 1\n", 1, "4", "'period'"),
    ("task 1 period duration 4 phase 0\nchain 1\n", 1, "duration", PERIOD),
    ("task 1 periode 4 duration 4 phase 0\nchain 1\n", 1, "periode", "'period'"), ("task 1 period 4 durations 4 phase 0\nchain 1\n", 1, "durations", "'duration'"),
    ("task 1 period 4 duration 4 Phase 0\nchain 1\n", 1, "Phase", "'phase'"), ("task 1 duration 4 period 4 phase 0\nchain 1\n", 1, "duration", "'period'"),
    ("task task 1 period 4 duration 4 phase 0\n", 1, "task", NUMBER_LIMIT),
    ("task 1 period period 4 duration 4 phase 0\n", 1, "period", PERIOD), ("task 1 1 period 4 duration 4 phase 0\n", 1, "1", "'period'"),
    ("task 1 period 4 4 duration 4 phase 0\n", 1, "4", "'duration'"),
    ("task 1 period 4 duration 4 phase 0 5\nchain 1\n", 1, "5", "nothing"), ("task 1 period 4 duration 4 phase 0 phase 3\nchain 1\n", 1, "phase", "nothing"),
    (FULL + "gap 3 5\n", 4, "5", "nothing"),
    ("\ufeff\ufeff" + FULL, 1, "\\ufefftask", "task, chain or gap"),
]
WRONG_TURNS = [
    ("", 1, None, "task 7 period"), ("\n# nothing\n\n", 4, None, "task 7 period"), (ONE, 2, None, "chain 7"), (TWO.rstrip(), 2, None, "chain 7"),
    ("chain 1\n" + ONE, 1, "chain", "tasks"), ("gap 3\n" + FULL, 1, "gap", "chain"),
    (ONE + "gap 3\nchain 1\n", 2, "gap", "chain"), (FULL + "task 9 period 4 duration 4 phase 0\n", 4, "task", "tasks stand before the chains"),
    (FULL + "gap 3\nchain 1\n", 5, "chain", "nothing stands after the gap"),
    (FULL + "gap 3\ngap 3\n", 5, "gap", "nothing stands after the gap"), (FULL + "gap 0\ngap 3\n", 5, "gap", "nothing stands after the gap"),
    (FULL + "gap 3\n\n# x\ntask 9 period 4 duration 4 phase 0\n", 7, "task", "nothing stands after the gap"),
    (ALL + "task 33 period 4 duration 4 phase 0\nchain 1\n", 33, "task", "1 to 32 tasks"), (FULL + "chain 1\n" * 4, 7, "chain", "1 to 4 chains"),
    (ONE + "chain" + " 1" * 13 + "\n", 2, "1", "1 to 12 places"),
    (ONE + "chain" + " 1" * 40 + "\n", 2, "1", "1 to 12 places"), (ONE + "chain" + " 1" * 12 + " 7\n", 2, "7", "1 to 12 places"),
    (TWO + "chain 1 8\n", 3, "8", "1, 7"), (TWO + "chain 0\n", 3, "0", "1, 7"), (TWO + "chain 7\nchain 1\nchain 7 7 7 65536\n", 5, "65536", "1, 7"),
    (TWO + "chain 2 3\n", 3, "2", "1, 7"),
    (ONE + ONE + "chain 1\n", 2, "1", "rise"), (TWO + "task 6 period 4 duration 4 phase 0\nchain 1\n", 3, "6", "before is 7"),
    (TWO + "task 1 period 4 duration 4 phase 0\nchain 1\n", 3, "1", "rise"),
]
WRONG_NUMBERS = [(with_period(word), 1, word, piece) for word, piece in (
    ("0", PERIOD), ("1000001", PERIOD), ("1,000,001", PERIOD), ("-4", PERIOD), ("+4", PERIOD), ("0x10", PERIOD), ("1e3", PERIOD), ("four", PERIOD), ("٤", PERIOD),
    ("４", PERIOD), ("4²", PERIOD), ("½s", PERIOD),
    ("18446744073709551615", PERIOD), ("18446744073709551617", PERIOD), ("4294967300", PERIOD), ("9" * 40, PERIOD), ("1,0", "thousands"),
    ("1_0", "thousands"), ("1,0000", "thousands"),
    ("1000,000", "thousands"), ("1__000", "thousands"), ("1,,000", "thousands"), ("1,000_000", "thousands"), ("1_000,000", "thousands"), ("1,000,", "thousands"),
    ("0,004", "thousands"), (",100", PERIOD), ("_100", PERIOD),
    ("1'000", PERIOD), ("4min", "us, ms and s"), ("4ns", "us, ms and s"), ("4MS", "us, ms and s"), ("4S", "us, ms and s"), ("4us.", PERIOD),
    ("4msms", "us, ms and s"), ("4usms", "us, ms and s"), ("4ticks", "us, ms and s"),
    ("4.5", "has a unit"), ("4.0", "has a unit"), ("1.000", "has a unit"), ("4.5us", "whole number of ticks"), ("0.0005ms", "whole number of ticks"), ("1.2345ms", "whole number of ticks"),
    ("0.0000001s", "whole number of ticks"), (".5ms", PERIOD), ("5.ms", PERIOD),
    ("1.2.3ms", PERIOD), ("1,5ms", "thousands"), ("1001ms", PERIOD), ("1.000001s", PERIOD), ("2s", PERIOD), ("0ms", PERIOD), ("-1ms", PERIOD), ("ms", PERIOD),
    ("=4", PERIOD), ("4;", "us, ms and s"),
)] + [
    ("task 1 period 4 minutes duration 4 phase 0\n", 1, "minutes", "us, ms or s"), ("task 1 period 4ms ms duration 4 phase 0\n", 1, "4ms ms", "two units"),
    ("task 1 period 4 ms ms duration 4 phase 0\n", 1, "ms", "'duration'"),
    ("task 1 period 4 duration 4ms us phase 0\n", 1, "4ms us", "two units"),
    (FULL + "gap 10 ms\n", 4, "10 ms", GAP_LIMIT), ("task 1 period 40 s duration 4 phase 0\n", 1, "40 s", PERIOD), ("task 1 period 1 000 duration 4 phase 0\n", 1, "000", "'duration'"),
    ("task 1 period 4 duration 0 phase 0\n", 1, "0", DURATION),
    ("task 1 period 4 duration 4000001 phase 0\n", 1, "4000001", DURATION), ("task 1 period 4 duration -1 phase 0\n", 1, "-1", DURATION),
    ("task 1 period 4 duration 4.000001s phase 0\n", 1, "4.000001s", DURATION),
    ("task 1 period 4 duration 4 phase 1000001\n", 1, "1000001", PHASE), ("task 1 period 4 duration 4 phase -1\n", 1, "-1", PHASE),
    ("task 1 period 4 duration 4 phase 1.5\n", 1, "1.5", "has a unit"),
    # A long word is told shortened.
    (with_period("9" * 5000), 1, "9" * 40 + "..", PERIOD),
    # A sign that only looks like a space or an end of a line is a part of its word.
    (TWO + "chain 1\u20287\n", 3, "1\\u20287", NUMBER_LIMIT), (TWO + "chain 1\x0b7\n", 3, "1\\x0b7", NUMBER_LIMIT),
    ("task 0 period 4 duration 4 phase 0\n", 1, "0", NUMBER_LIMIT), ("task 65536 period 4 duration 4 phase 0\n", 1, "65536", NUMBER_LIMIT),
    ("task 65,536 period 4 duration 4 phase 0\n", 1, "65,536", NUMBER_LIMIT),
    ("task 4294967297 period 4 duration 4 phase 0\n", 1, "4294967297", NUMBER_LIMIT), ("task 1ms period 4 duration 4 phase 0\n", 1, "1ms", NUMBER_LIMIT),
    ("task 1.0 period 4 duration 4 phase 0\n", 1, "1.0", NUMBER_LIMIT),
    ("task -1 period 4 duration 4 phase 0\n", 1, "-1", NUMBER_LIMIT), ("task ١ period 4 duration 4 phase 0\n", 1, "١", NUMBER_LIMIT),
    (TWO + "chain 1,7\n", 3, "1,7", "thousands"), (TWO + "chain 1, 7\n", 3, "1,", "thousands"),
    (TWO + "chain 1 -> 7\n", 3, "->", NUMBER_LIMIT), (TWO + "chain 1 7us\n", 3, "7us", NUMBER_LIMIT), (TWO + "chain 1 us\n", 3, "us", NUMBER_LIMIT),
    (TWO + "chain 1 -7\n", 3, "-7", NUMBER_LIMIT),
    (TWO + "chain 18446744073709551617\n", 3, "18446744073709551617", NUMBER_LIMIT), (FULL + "gap 1001\n", 4, "1001", GAP_LIMIT),
    (FULL + "gap 1.001ms\n", 4, "1.001ms", GAP_LIMIT), (FULL + "gap -1\n", 4, "-1", GAP_LIMIT),
    (FULL + "gap 0.5us\n", 4, "0.5us", "whole number of ticks"), (FULL + "gap 65537\n", 4, "65537", GAP_LIMIT), (FULL + "gap x\n", 4, "x", GAP_LIMIT),
    (FULL + "gap 1 us us\n", 4, "us", "nothing"), (FULL + "gap 1us us\n", 4, "1us us", "two units"),
    # A unit was meant, and only a unit may follow.
    (FULL + "gap 3 min\n", 4, "min", "us, ms"), ("task 1 period 4 duration 4 phase 5 min\nchain 1\n", 1, "min", "us, ms"),
]
# Bytes that are no text. Whether a word is told is left open: where there is no text there is no word.
NO_TEXT = [
    (content(LASER), 1, None, "schedule file"), (b"\n\n" + content(LASER), 3, None, "schedule file"), (bytes(20), 1, None, "text"),
    (ONE.encode() + b"chain \xff\n", 2, None, "UTF-8"),
    (b"# caf\xe9\n" + FULL.encode(), 1, None, "UTF-8"), (FULL.encode() + b"# \xed\xa0\x80\n", 4, None, "UTF-8"), (FULL.encode() + b"# \xc3", 4, None, "UTF-8"),
    (b"\xff\xfe" + ONE.encode(), 1, None, "UTF-8"), (ONE.encode("utf-16"), 1, None, "text"),
]


def told(err, word):
    """The line, whether the word is told as wrong, and the rest."""
    found = re.match(r"[^\n]*, line (\d+): ([^\n]*)\n$", err)
    if not found:
        return err
    quoted = {f"'{word}' is wrong", f'"{word}" is wrong'}
    return int(found[1]), word is None or any(found[2].startswith(each) for each in quoted), found[2]


def wrong_line_case(folder, text, line, word, piece):
    """The wrong line told; nothing printed, no file made, an existing one kept."""
    data = text if isinstance(text, bytes) else text.encode()
    kept, new = put(folder, "kept", b"as it was"), os.path.join(folder, "new")
    answers = [called("write", "-", out, stdin=data) for out in (kept, new, "-")]
    found = told(answers[0].err, word)
    right = found if isinstance(found, str) else (*found[:2], piece in found[2])
    written = {(answer.status, answer.out, answer.err) for answer in answers}, content(kept), content(new)
    return f"{data[-160:]!r} says {answers[0].err[:300]!r}", (right, *written), ((line, True, True), {(1, b"", answers[0].err)}, b"as it was", None)


@group
def wrong_lines(r, factor):
    """wrong lines: the line, the word and what would be right are told, and nothing is written"""
    table = WRONG_WORDS + WRONG_TURNS + WRONG_NUMBERS + NO_TEXT
    assert len({(text, line) for text, line, *_ in table}) == len(table) >= 60
    with tempfile.TemporaryDirectory() as folder:
        for entry in table:
            yield wrong_line_case(folder, *entry)
        # Lines before the wrong one, comments and other ends of lines count.
        for text, line, word, piece in r.sample(WRONG_WORDS[:-1] + WRONG_TURNS[4:] + WRONG_NUMBERS, 60):
            more = r.randint(1, 9)
            end = r.choice(["\n", "\r\n"])
            yield wrong_line_case(folder, (r.choice(["# a comment\n", "\n", " \t\n"]) * more + text).replace("\n", end), line + more, word, piece)
        some = [(put(folder, f"{i}.txt", text if isinstance(text, bytes) else text.encode()), line) for i, (text, line, _, _) in enumerate(r.sample(table, 12))]
        kept = put(folder, "kept", b"as it was")
        for (path, line), answer in zip(some, ran_all([(["write", path, kept],) for path, _ in some])):
            yield f"./meshorchard write {path}", (answer.status, answer.out, answer.err.startswith(f"{path}, line {line}: "), content(kept)), (1, b"", True, b"as it was")


# ---- 4: the limits

NAMES = ("number", "period", "duration", "phase")
LIMIT_WORDS = dict(zip(NAMES, (NUMBER_LIMIT, PERIOD, DURATION, PHASE)))
# What `explain` must say of the limits of a refusal.
EXPLAINED = {
    1: ("ends early", "end record"), 2: ("length", "18 bytes", "1 to 12 places", "the gap 6", "the end 4"), 3: ("unknown kind", "1 for a task", "2 for a chain", "3 for the end", "4 for the gap"),
    4: ("may not stand", "1 to 32 tasks", "1 to 4 chains"), 5: ("outside its limits", "1 to 65,535", "1 to 1,000,000", "1 to 4,000,000", "0 to 1,000,000", "1,000 ticks"),
    6: ("names a task",), 7: ("hyperperiod is too long", "60,000,000"), 8: ("too many or too few", "1 to 32", "1 to 4", "1 to 12"), 9: ("the cut is at no place",),
    10: ("starts and the latencies differ in length",), 11: ("too little room", "698", "1,024"), 12: ("too early", "warm-up tick"), 13: ("too late", "1,000,000,000,000"),
    14: ("not well-formed", "1,000,000,000", "60,011,000"), 15: ("window is outside", "1 to 100"), 16: ("no chain of that number", "from 1"),
    17: ("do not part the chain", "1 to the number of places less 1"), 18: ("width is 0", "1 tick or more"), 19: ("not in the chain", "fills a place"), 20: ("period is too long", "10,000 ticks", "10 ms"),
    21: ("above its bound", "no chain"), 22: ("no proposal", "asked for first"), 23: ("not the proposal", "the schedule and the bounds"),
}
# What it must say of a place, and what it must not.
PLACES = {
    (5, 18): (("begins at byte 18", "task 18 of the schedule"), "of the chain"), (5, 3): (("begins at byte 3", "task 3 of the schedule", "place 3 of the chain"), "gap."),
    (5, 0): (("begins at byte 0", "the gap."), "task 0"), (6, 3): (("begins at byte 3", "place 3 of the first chain"), "task 3"), (6, 18): (("begins at byte 18",), "of the first chain"),
    (4, 50): (("begins at byte 50", "after the end"), "schedule:"), (7, 0): (("of the whole",), "byte"), (7, 3): (("no place but 0",), "byte"),
}


def limit_texts():
    """A text with a value at each limit and one beyond, whether it is accepted, and where it is refused the line, the word and the limit in words."""
    for field, name in enumerate(NAMES):
        low, high = inputs.LIMITS[field]
        for value in (low - 1, low, high, high + 1):
            for first in (True, False):
                values = [9, 4, 4, 0]
                values[field] = value
                line = "task %d period %d duration %d phase %d\n" % tuple(values)
                # As the second task its number must be above that of the first.
                if value >= 0 and (first or field or value > 1):
                    number_of = values[0] if field == 0 else 9
                    yield ("" if first else ONE) + line + f"chain {number_of}\n", low <= value <= high, 1 if first else 2, str(value), LIMIT_WORDS[name]
    for value in (0, 1, inputs.MOST_GAP, inputs.MOST_GAP + 1):
        yield FULL + f"gap {value}\n", value <= inputs.MOST_GAP, 4, str(value), GAP_LIMIT
    for count in (1, inputs.MOST_TASKS, inputs.MOST_TASKS + 1):
        yield "".join(f"task {n} period 4 duration 4 phase 0\n" for n in range(1, count + 1)) + "chain 1\n", count <= inputs.MOST_TASKS, 33, "task", "1 to 32 tasks"
    for count in (1, inputs.MOST_CHAINS, inputs.MOST_CHAINS + 1):
        yield ONE + "chain 1\n" * count, count <= inputs.MOST_CHAINS, 6, "chain", "1 to 4 chains"
    for count in (1, inputs.MOST_PLACES, inputs.MOST_PLACES + 1):
        yield ONE + "chain" + " 1" * count + "\n", count <= inputs.MOST_PLACES, 2, "1", "1 to 12 places"
    for before, line, after, name in (("1s", "1 s", "1.000001s", "period"), ("4s", "4000ms", "4000.001ms", "duration"), ("1000 ms", "1s", "1_000_001us", "phase")):
        for word in (before, line, after):
            values = {"period": "4", "duration": "4", "phase": "0", name: word}
            yield "task 1 " + " ".join(f"{key} {value}" for key, value in values.items()) + "\nchain 1\n", word != after, 1, word, LIMIT_WORDS[name]


def schedule_of_text(text):
    """The schedule that a text of limit_texts means: what the calls are asked about, whatever its values."""
    rows = [line.replace("_", "").split() for line in text.splitlines()]
    tasks = [tuple(int(row[i]) for i in (1, 3, 5, 7)) for row in rows if row[0] == "task"]
    return Schedule.of(tasks, [list(map(int, row[1:])) for row in rows if row[0] == "chain"], max([int(row[1]) for row in rows if row[0] == "gap"], default=0))


@group
def at_limits(r, factor):
    """each limit: accepted at it, refused one beyond and told at its line, by the command as by the call"""
    for text, accepted, line, word, piece in limit_texts():
        answer = called("write", "-", "-", stdin=text.encode())
        if accepted:
            read = reference.read_file(answer.out)
            yield f"write of {text!r}", (answer.status, read[0], canonical(*read[1:]).decode() == answer.err.partition("\n")[2] if read[0] == "ok" else read), (0, "ok", True)
        else:
            found = told(answer.err, word)
            yield f"write of {text!r}: {answer.err}", (answer.status, *(found[:2] if isinstance(found, tuple) else [found]), piece in answer.err), (1, line, True, True)
        if not re.search(r"[0-9] ?(us|ms|s)\b", text):
            yield f"mo_write_file of {text!r}", proved.answered(calls.write_file, schedule_of_text(text), bytearray(698))[0], "ok" if accepted else "refused"
    # The words of explain have the limits of the header too.
    for refusal, pieces in EXPLAINED.items():
        yield f"explain {refusal}", [piece for piece in pieces if not re.search(rf"(?<![0-9,]){piece}(?![0-9]|,[0-9])", called("explain", refusal).text())], []
    for (refusal, place), (pieces, other) in PLACES.items():
        said = "\n".join(called("explain", refusal, place).text().splitlines()[1:-1])
        yield f"explain {refusal} {place}: {said}", ([piece for piece in pieces if piece not in said], other in said), ([], False)


# ---- 5: refused files in words

KINDS = {1: "task", 2: "chain", 3: "end", 4: "gap"}
RIGHT_LENGTHS = {1: "18", 2: "1 to 12 places", 3: "4", 4: "6"}


def plain(message):
    """A message without the separators in its numbers, which may stand there or not."""
    return re.sub(r"(?<=[0-9]),(?=[0-9]{3}(?![0-9]))", "", message)


def walked(data, offset):
    """The records before an offset: how many, the tasks as (number, T, D, F), the number of chains and of gaps, whether the end was there."""
    at, count, tasks, seen = 0, 0, [], collections.Counter()
    while at < offset:
        length, kind = struct.unpack_from("<HH", data, at)
        if kind == 1:
            tasks.append(struct.unpack_from("<HIII", data, at + 4))
        at, count = at + length, count + 1
        seen[kind] += 1
    return count, tasks, seen


def turn_pieces(data, offset, tasks, seen, kind):
    """What must be said of a record out of turn."""
    if seen[3]:
        left = len(data) - offset
        return "after the end", [f"{left:,} more byte", "end"]
    if kind == 1:
        return ("33rd task", ["33", "1 to 32 tasks"]) if not seen[2] else ("task after a chain", ["task after a chain"])
    if kind == 2:
        if not tasks:
            return "chain first", ["chain before the first task"]
        return ("chain after the gap", ["chain after the gap"]) if seen[4] else ("fifth chain", ["chain 5", "1 to 4 chains"])
    if kind == 4:
        return ("second gap", ["second gap"]) if seen[4] else ("gap early", ["gap before the first chain"])
    return "end early", ["end before the first chain"]


def outside(data, offset, tasks):
    """The values of the task there that are outside their limits, each with its limit in words."""
    values = struct.unpack_from("<HIII", data, offset + 4)
    found = {name: value for field, (name, value) in enumerate(zip(NAMES, values)) if not inputs.LIMITS[field][0] <= value <= inputs.LIMITS[field][1]}
    if tasks and 0 < values[0] <= tasks[-1][0]:
        found["rising"] = values[0]
    return values, found


def outside_pieces(data, offset, tasks, message):
    """What must be said of a value: one that is outside, with its limit. Where there are several the message has its choice."""
    values, found = outside(data, offset, tasks)
    choices = []
    for name, value in found.items():
        if name == "rising":
            choices.append([f"task {value:,}", f"the number {tasks[-1][0]:,}", "rise"])
        elif name == "number":
            choices.append(["number 0", NUMBER_LIMIT])
        else:
            choices.append([f"task {values[0]:,}", f"{name} is {value:,};", LIMIT_WORDS[name]])
    fits = [pieces for pieces in choices if all(plain(piece) in plain(message) for piece in pieces)]
    return "and ".join(sorted(found)), fits[0] if fits else choices[0]


def pieces_of(data, refusal, offset, message):
    """The kind of a fault and the pieces that its explanation must have, from the bytes alone."""
    count, tasks, seen = walked(data, offset)
    left = len(data) - offset
    record = [f"record {count + 1:,}", f"at byte {offset:,}"]
    if refusal == 1 and left < 4:
        # What is missing is a chain where there is none yet; an end there would be refused.
        missing = ["task"] if not count else ["end"] if seen[2] else ["chain"]
        amount = ["empty"] if not data else [f"only {left} byte"] if left else ["the file ends"]
        return f"{'some' if left else 'no'} bytes left{' without a chain' if count and not seen[2] else ''}", amount + missing
    length, kind = struct.unpack_from("<HH", data, offset) if left >= 4 else (0, 0)
    if refusal == 1:
        return "length past the file", [*record, f"{length:,} bytes", f"only {left:,}"]
    if refusal == 2 and length < 4:
        return "length below 4", [*record, f"{length} byte", "4"]
    if refusal == 2:
        return f"length of kind {kind}", [*record, f"kind {kind}", KINDS[kind], f"{length:,} bytes", RIGHT_LENGTHS[kind]]
    if refusal == 3:
        return "kind", [*record, f"of kind {kind:,};", "1 for a task", "2 for a chain", "4 for the gap", "3 for the end"]
    if refusal == 4:
        what, pieces = turn_pieces(data, offset, tasks, seen, kind)
        return what, pieces + ([f"at byte {offset:,}"] if seen[3] else record)
    if refusal == 5 and kind == 4:
        return "gap", [*record, f"gap of {struct.unpack_from('<H', data, offset + 4)[0]:,};", GAP_LIMIT]
    if refusal == 5:
        what, pieces = outside_pieces(data, offset, tasks, message)
        return what, pieces + record
    known = [task[0] for task in tasks]
    numbers = struct.unpack_from(f"<{(length - 4) // 2}H", data, offset + 4)
    place = next(i for i, each in enumerate(numbers) if each not in known)
    return "unknown", [*record, f"chain {seen[2] + 1}", f"place {place + 1} names task {numbers[place]};", ", ".join(map(str, known))]


def some_of(r, files, most):
    """So many of the files, drawn while they are made."""
    kept = []
    for i, data in enumerate(files):
        if i < most:
            kept.append(data)
        elif r.random() < most / (i + 1):
            kept[r.randrange(most)] = data
    return kept


def damaged_files(r, factor):
    """Damaged files of every kind of damage."""
    for _ in range(max(1, int(20 * factor))):
        tasks, chains = inputs.schedule(r, r.choice([1, 2, 3, 5]), inputs.some_sizes(r, r.randint(1, 4)))
        gap = inputs.file_gap(r)
        for damage in inputs.RECORD_DAMAGES:
            yield from some_of(r, damage(r, inputs.records(tasks, chains, gap)), 40)
        yield from some_of(r, inputs.edge_files(r, tasks, chains, gap), 60)
        yield from itertools.chain(*[inputs.unknown_files(r, tasks, chains, c) for c in range(len(chains))])
        yield from inputs.many_tasks(r, 33)
        yield from [make(r) for make in (inputs.random_bytes, inputs.random_records) for _ in range(30)]
    for files, most in ((inputs.faults_of_order(r), 800), (inputs.gap_files(r), 500), (inputs.turns(r, (1, 2, 3, 4), 6), 500)):
        yield from some_of(r, files, int(most * factor))


@group
def refused_in_words(r, factor):
    """refused files: the number, the place, the record and the values that check names"""
    kinds = collections.Counter()
    for data in damaged_files(r, factor):
        # As the program does, the command looks at the first 4,096 bytes.
        data = data[:4096]
        read = reference.read_file(data)
        if read[0] == "ok":
            continue
        answer = called("check", "-", stdin=data)
        begins = f"standard input is refused with {read[1]} at {read[2]:,}: "
        what, pieces = pieces_of(data, read[1], read[2], answer.err)
        kinds[read[1], what] += 1
        # Not as a part of a longer number or word.
        said = plain(answer.err.partition(": ")[2])
        missing = [piece for piece in map(plain, pieces) if not re.search(rf"(?<![0-9a-z]){re.escape(piece)}(?![0-9])", said)]
        yield f"{data[:700].hex()}: {answer.err!r}, without", (answer.status, answer.out, answer.err.startswith(begins), missing), (1, b"", True, [])
    assert len(kinds) >= 27 and {number for number, _ in kinds} == {1, 2, 3, 4, 5, 6}, sorted(kinds)


# ---- 6: the package

CHAIN_A = Chain.of([(4, 4, 0), (6, 6, 0)])
SCHEDULE_A = Schedule.of([(1, 4, 4, 0), (2, 6, 6, 0)], [[1, 2], [2]])
TABLE_A = Table([0, 8], [18, 16], 2, 12)
# The greatest latency of chain 1 at the phases 0 to 9 of task 3 is 43, but 33 at the phases 5, 6 and 7.
THREES = Schedule.of([(3, 10, 3, 7), (9, 20, 5, 0)], [[3, 9, 3]])
FILE_A = b"".join(inputs.records([(1, 4, 4, 0), (2, 6, 6, 0)], [[1, 2], [2]], 0))


def bounded(schedule, *bounds):
    """A schedule with bounds as a struct, by hand, with zeros past the counts."""
    found = structs.Bounded()
    found.schedule.count, found.schedule.chain_count, found.schedule.gap = schedule.count, schedule.chain_count, schedule.gap
    for entry, (number, *values) in zip(found.schedule.tasks, schedule.task_list()):
        entry.number, entry.task = number, structs.Task(*values)
    for chain, numbers in zip(found.schedule.chains, schedule.chain_list()):
        chain.places, chain.tasks[:len(numbers)] = len(numbers), numbers
    found.bounds[:len(bounds)] = bounds
    return found


# The same schedule with bounds, its greatest latencies, and with a gap of 1 and those that it has then; and states of them.
BOUNDED_A, BOUNDED_GAP = bounded(SCHEDULE_A, 18, 12), bounded(dataclasses.replace(SCHEDULE_A, gap=1), 20, 12)
RUNNING_A, RUNNING_GAP = State(BOUNDED_A), State(BOUNDED_GAP)
PROPOSED = State(BOUNDED_A, structs.Side(BOUNDED_GAP, 1))
# Each call of the header with chain A of the specification: its arguments, and what README, header or reference say that it answers.
ANSWERS = {
    "read_table": ((TABLE_A, 7), 11), "greatest": ((TABLE_A,), 18), "low": ((TABLE_A,), 10), "mean": ((TABLE_A,), (336, 24)), "throughput": ((TABLE_A,), (2, 12)),
    "exceedance": ((TABLE_A, 15), (3, False)), "histogram": ((TABLE_A, 5, array("Q", [99, 98, 97])), 6),
    "check": ((CHAIN_A,), 12), "warm_up": ((CHAIN_A,), ((0, 1), 0, 12)), "delay": ((CHAIN_A, 0), 18), "age": ((CHAIN_A, 12), 12),
    "make_table": ((CHAIN_A, 1, array("Q", bytes(24)), array("Q", bytes(24))), (2, 0, 12, 3)),
    "windows": ((CHAIN_A, 13, 3), reference.windows([(4, 4, 0), (6, 6, 0)], 0, 13, 3)[1:]), "read_file": ((FILE_A,), ([1, 4, 4, 0, 2, 6, 6, 0, *[0] * 120], 2, [1, 2, *[0] * 10, 2, *[0] * 35], [2, 1, 0, 0], 2, 0, (None, None, None))),
    "sections": ((CHAIN_A, [1]), ((8, 12), 20)), "write_file": ((SCHEDULE_A, bytearray(698)), len(FILE_A)), "chain_of_schedule": ((SCHEDULE_A, 1), ([4, 4, 0, 6, 6, 0], 2, 0)),
    "bookings": ((SCHEDULE_A, 1, 2, 0), reference.bookings([(4, 4, 0), (6, 6, 0)], 0, [(6, 6, 0)], 0, 0)[1:]),
    "bounded_schedule": ((SCHEDULE_A, [18, 12]), BOUNDED_A), "make_state": ((BOUNDED_A,), RUNNING_A), "ask": ((RUNNING_A, BOUNDED_GAP), (PROPOSED, (20, 12))), "commit": ((PROPOSED, BOUNDED_GAP), RUNNING_GAP),
    "smallest_phase": ((THREES, 1, 3, 33), 5), "report": ((FILE_A, bytearray(92000)), len(reference.report(FILE_A))),
    "load": ((0, 3), ([10000, 10000, 8591, 10000, 10000, 7183, 40000, 40000, 26767], 3, 0)),
}
# What each refusal comes from: a call and its arguments, with the place.
REFUSALS = {
    7: (calls.check, (Chain.of([(999983, 1, 0), (999979, 1, 0)]),), 0), 8: (calls.check, (Chain([], 0),), 0),
    9: (calls.make_table, (CHAIN_A, 3, array("Q", bytes(8)), array("Q", bytes(8))), 0),
    10: (calls.make_table, (CHAIN_A, 1, array("Q", bytes(8)), array("Q", bytes(16))), 0),
    11: (calls.make_table, (CHAIN_A, 1, array("Q", bytes(8)), array("Q", bytes(8))), 0), 12: (calls.age, (CHAIN_A, 11), 0),
    13: (calls.delay, (CHAIN_A, 10**12 + 1), 0), 14: (calls.greatest, (dataclasses.replace(TABLE_A, hyperperiod=0),), 0), 15: (calls.windows, (CHAIN_A, 5, 101), 0),
    16: (calls.chain_of_schedule, (SCHEDULE_A, 3), 0), 17: (calls.sections, (CHAIN_A, [1, 1]), 0), 18: (calls.histogram, (TABLE_A, 0, array("Q", [7])), 0),
    19: (calls.smallest_phase, (SCHEDULE_A, 2, 1, 18), 0), 20: (calls.smallest_phase, (Schedule.of([(1, 10001, 4, 0)], [[1]]), 1, 1, 10**6), 0),
    21: (calls.ask, (RUNNING_A, bounded(SCHEDULE_A, 18, 11)), 0), 22: (calls.commit, (RUNNING_A, BOUNDED_A), 0), 23: (calls.commit, (PROPOSED, BOUNDED_A), 0),
    5: (calls.check, (Chain.of([(4, 4, 0), (0, 6, 0)]),), 2), 6: (calls.write_file, (Schedule.of([(1, 4, 4, 0)], [[1, 1, 9]]), bytearray(698)), 3),
    1: (calls.read_file, (FILE_A[:-1],), len(FILE_A) - 4), 2: (calls.read_file, (b"\3\0\1\0",), 0), 3: (calls.read_file, (b"\4\0\5\0",), 0),
    4: (calls.read_file, (FILE_A + b"x",), len(FILE_A)),
}


def shape(found):
    """An answer as plain numbers."""
    return dataclasses.astuple(found) if dataclasses.is_dataclass(found) else found


def declared_cases():
    """Every call of the header is a typed function with the answer that it should have."""
    with open(os.path.join(TOP, "include", "meshorchard.h"), encoding="utf-8") as header:
        names = re.findall(r"^\w+ mo_(\w+)\(", re.sub(r"/\*.*?\*/", "", header.read(), flags=re.DOTALL), re.MULTILINE)
    assert len(names) == len(set(names)) == len(ANSWERS) == 25, names
    for name in names:
        function = getattr(calls, name, None)
        typed = callable(function) and all(each.annotation is not each.empty for each in inspect.signature(function).parameters.values())
        yield f"calls.{name} is a typed function", typed, True
        arguments, right = ANSWERS[name]
        found = function(*arguments)
        yield f"calls.{name}", shape(found), right
        kind = eval(function.__annotations__["return"], vars(calls))
        yield f"calls.{name} answers what its type says", isinstance(found, typing.get_args(kind) or kind), True
    yield "calls.read_file", (calls.read_file(FILE_A).task_list(), calls.read_file(FILE_A).chain_list()), ([(1, 4, 4, 0), (2, 6, 6, 0)], [[1, 2], [2]])
    yield "what calls.histogram leaves", list(ANSWERS["histogram"][0][2]), [0, 0, 6]
    for width, length in ((1, 19), (1, 0), (5, 4), (5, 5), (5, 0), (18, 1), (19, 1), (2**64 - 1, 1), (2**64 - 1, 0), (2**63, 3)):
        counts = array("Q", [7] * length)
        rest = calls.histogram(TABLE_A, width, counts)
        yield f"calls.histogram of width {width} and {length} counts", ("ok", list(counts), rest), reference.histogram(*shape(TABLE_A), width, length)
    for bound, right in ((0, None), (32, None), (33, 5), (42, 5), (43, 0), (2**64 - 1, 0)):
        yield f"calls.smallest_phase for a bound of {bound}", calls.smallest_phase(THREES, 1, 3, bound), right
    yield "the proposal of a state", (RUNNING_A.proposal, PROPOSED.proposal), (None, BOUNDED_GAP)
    for seed, places in ((0, 1), (1, 2), (2**64 - 1, 12), (2**63, 11), (0xDEADBEEF, 4)):
        chain, right = calls.load(seed, places), Chain.of(reference.load(seed, places)[1])
        yield f"calls.load of seed {seed} and {places} places, as a chain", (chain, proved.answered(calls.check, chain)), (right, ("ok", max(right.tasks[::3])))


def refusal_cases():
    """Every refusal is the exception, with its number, its place and words."""
    for refusal, (call, arguments, place) in REFUSALS.items():
        try:
            found = call(*arguments)
        except Refused as refused:
            words = refused.words
            found = refused.number, refused.place, isinstance(words, str) and len(words) > 20, words in str(refused), str(refusal) in str(refused)
        yield f"refusal {refusal} of calls.{call.__name__}", found, (refusal, place, True, True, True)
    yield "a refusal for each number of the header", sorted(REFUSALS), list(range(1, 24))
    for table, width, refusal in ((TABLE_A, 0, 18), (dataclasses.replace(TABLE_A, anchors=3), 0, 14), (dataclasses.replace(TABLE_A, anchors=3), 5, 14)):
        counts = array("Q", [7, 8, 9])
        yield f"a histogram that is refused with {refusal}, and its list", (proved.answered(calls.histogram, table, width, counts), list(counts)), (("refused", refusal, 0), [7, 8, 9])
    for places in (0, 13, 2**32 + 1, 2**64 - 1):
        yield f"a load of {places} places", proved.answered(calls.load, 5, places), ("refused", 8, 0)


def beyond():
    """Calls with numbers that no call can be given, each value wherever a number may stand."""
    for value in (-1, 2**64, 2**64 + 1, -2**63, 2**65 + 12):
        asked = [
            (calls.delay, CHAIN_A, value), (calls.age, CHAIN_A, value), (calls.windows, CHAIN_A, value, 3), (calls.windows, CHAIN_A, 5, value),
            (calls.sections, CHAIN_A, [value]), (calls.sections, CHAIN_A, [1, value]), (calls.load, value, 3), (calls.load, 5, value),
            (calls.read_table, TABLE_A, value), (calls.exceedance, TABLE_A, value), (calls.histogram, TABLE_A, value, array("Q", bytes(8))),
            (calls.make_table, CHAIN_A, value, array("Q", bytes(8)), array("Q", bytes(8))), (calls.chain_of_schedule, SCHEDULE_A, value),
            (calls.bounded_schedule, SCHEDULE_A, [18, value]), (calls.bounded_schedule, dataclasses.replace(SCHEDULE_A, gap=value), []),
            (calls.bookings, SCHEDULE_A, value, 1, 5), (calls.bookings, SCHEDULE_A, 1, value, 5),
            (calls.bookings, SCHEDULE_A, 1, 1, value), (calls.smallest_phase, SCHEDULE_A, value, 2, 18), (calls.smallest_phase, SCHEDULE_A, 1, value, 18),
            (calls.smallest_phase, SCHEDULE_A, 1, 2, value), (calls.check, dataclasses.replace(CHAIN_A, gap=value)), (calls.check, dataclasses.replace(CHAIN_A, places=value)),
            (calls.check, Chain.of([(4, 4, value)])), (calls.greatest, dataclasses.replace(TABLE_A, anchors=value)),
            (calls.greatest, dataclasses.replace(TABLE_A, hyperperiod=value)), (calls.greatest, dataclasses.replace(TABLE_A, starts=[0, value])),
            (calls.write_file, dataclasses.replace(SCHEDULE_A, gap=value), bytearray(698)), (calls.write_file, dataclasses.replace(SCHEDULE_A, count=value), bytearray(698)),
            (calls.write_file, dataclasses.replace(SCHEDULE_A, lengths=(value, None, None)), bytearray(698)),
            (calls.write_file, dataclasses.replace(SCHEDULE_A, chain_count=value), bytearray(698)), (calls.write_file, Schedule.of([(1, 4, value, 0)], [[1]]), bytearray(698)),
            (calls.write_file, Schedule.of([(1, 4, 4, 0)], [[value]]), bytearray(698)),
        ]
        yield from [(value, *each) for each in asked]
    # Lists that are lent as they are: their entries must be of the kind that the calls read.
    for kind, value in (("q", -1), ("q", -2**63), ("d", 0.5)):
        lent = array(kind, [4, 4, value])
        yield from [(f"{value} in an array of kind {kind}", calls.check, Chain(numbers, 1)) for numbers in (lent, memoryview(lent))]


def beyond_cases():
    """Such numbers are an error, and no other number."""
    for value, call, *arguments in beyond():
        try:
            found = call(*arguments)
        except (ValueError, OverflowError, TypeError):
            found = "an error"
        except Refused as refused:
            found = str(refused)
        yield f"calls.{call.__name__} with {value}", found, "an error"


def leaves(code, *lists):
    """A call that answers this code and leaves these numbers at the beginning of its last lists; of None nothing is written."""
    def call(*arguments):
        for out, numbers in zip(arguments[-len(lists):], lists):
            for i in range(len(out)) if numbers is not None else ():
                out[i] = numbers[i] if i < len(numbers) else 0
        return code
    return call


# Calls that break a promise of the header: a number that is not written, one that is not 0 in a refusal, or past a count; a report of no bytes.
BREACHES = [
    ("mo_delay", calls.delay, (CHAIN_A, 0), leaves(0, None)), ("mo_delay", calls.delay, (CHAIN_A, 0), leaves(12, [5])), ("mo_check", calls.check, (CHAIN_A,), leaves(7, None)),
    ("mo_mean", calls.mean, (TABLE_A,), leaves(0, [3], None)), ("mo_exceedance", calls.exceedance, (TABLE_A, 5), leaves(0, [3], [1])), ("mo_exceedance", calls.exceedance, (TABLE_A, 5), leaves(0, [3], [2])),
    ("mo_histogram", calls.histogram, (TABLE_A, 5, array("Q", [0])), leaves(0, None)), ("mo_histogram", calls.histogram, (TABLE_A, 0, array("Q", [0])), leaves(18, [12])),
    ("mo_warm_up", calls.warm_up, (CHAIN_A,), leaves(0, [1, 1, 1], [4], [12])), ("mo_warm_up", calls.warm_up, (CHAIN_A,), leaves(8, [], [4], [])),
    ("mo_make_table", calls.make_table, (CHAIN_A, 1, array("Q", [0]), array("Q", [0])), leaves(11, None)),
    ("mo_make_table", calls.make_table, (CHAIN_A, 1, array("Q", [0]), array("Q", [0])), leaves(9, [0, 0, 12])),
    ("mo_read_file", calls.read_file, (FILE_A,), leaves(0, [1, 4, 4, 0, 7], [1], [1], [1, 1, 0])), ("mo_read_file", calls.read_file, (FILE_A,), leaves(0, [1, 4, 4, 0], [1, 1], [1], [1, 1, 0])),
    ("mo_read_file", calls.read_file, (FILE_A,), leaves(0, [1, 4, 4, 0], [1], [1, 1], [1, 1, 0])), ("mo_read_file", calls.read_file, (FILE_A,), leaves(0, [], [], [], [33, 1, 0])),
    ("mo_read_file", calls.read_file, (FILE_A,), leaves(1, [], [], [], [0, 0, 9])), ("mo_write_file", calls.write_file, (SCHEDULE_A, bytearray(9)), leaves(8, [4])),
    ("mo_chain_of_schedule", calls.chain_of_schedule, (SCHEDULE_A, 1), leaves(0, [4, 4, 0, 5], [1])), ("mo_chain_of_schedule", calls.chain_of_schedule, (SCHEDULE_A, 1), leaves(16, [], [1])),
    ("mo_sections", calls.sections, (CHAIN_A, [1]), leaves(0, [8, 12, 1], [2], [20])), ("mo_sections", calls.sections, (CHAIN_A, [1]), leaves(0, [8], [1], [8])),
    ("mo_sections", calls.sections, (CHAIN_A, [1]), leaves(0, [8, 12], [2], None)), ("mo_sections", calls.sections, (CHAIN_A, [2]), leaves(17, [], [1], [])),
    ("mo_load", calls.load, (5, 1), leaves(0, None)), ("mo_load", calls.load, (5, 1), leaves(0, [2500, 2500, 307, *[UNWRITTEN] * 33])), ("mo_load", calls.load, (5, 12), leaves(0, [2500] * 35 + [UNWRITTEN])),
    ("mo_load", calls.load, (5, 1), leaves(0, [2500, 2500, 307, 1])), ("mo_load", calls.load, (5, 11), leaves(0, [2500] * 35 + [1])), ("mo_load", calls.load, (5, 11), leaves(0, [2500] * 35)),
    ("mo_load", calls.load, (5, 13), leaves(8, None)), ("mo_load", calls.load, (5, 13), leaves(8, [0] * 35 + [1])), ("mo_load", calls.load, (5, 13), leaves(8, [2500])), ("mo_load", calls.load, (5, 13), leaves(0, [2500] * 36)),
    ("mo_load", calls.load, (5, 0), leaves(8, None)), ("mo_load", calls.load, (5, 0), leaves(8, [2500])), ("mo_load", calls.load, (5, 0), leaves(0, [])),
    *[("mo_smallest_phase", calls.smallest_phase, (THREES, 1, 3, 33), leaves(*left)) for left in (
        (0, None, None), (0, [5], None), (0, None, [0]), (0, None, [1]), (0, [5], [1]), (0, [5], [2]), (0, [0], [2]), (19, [5], [0]), (20, [0], [1]), (7, None, None), (16, [0], None),
    )],
    # A success with a place; a refusal with another state, or with latencies; latencies past the chains.
    ("mo_make_state", calls.make_state, (BOUNDED_A,), lambda b: structs.MadeState(RUNNING_A, structs.Refusal(0, 1))),
    ("mo_make_state", calls.make_state, (BOUNDED_A,), lambda b: structs.MadeState(RUNNING_A, structs.Refusal(21, 0))),
    ("mo_ask", calls.ask, (PROPOSED, BOUNDED_A), lambda s, b: structs.Asked(RUNNING_A, structs.Refusal(21, 0))),
    ("mo_ask", calls.ask, (RUNNING_A, BOUNDED_A), lambda s, b: structs.Asked(s, structs.Refusal(21, 0), (0, 0, 0, 1))),
    ("mo_ask", calls.ask, (RUNNING_A, BOUNDED_A), lambda s, b: structs.Asked(s, structs.Refusal(0, 0), (18, 12, 1, 0))),
    ("mo_commit", calls.commit, (PROPOSED, BOUNDED_A), lambda s, b: structs.Committed(RUNNING_A, structs.Refusal(23, 0))),
    ("mo_bookings", calls.bookings, (SCHEDULE_A, 1, 2, 0), leaves(16, [0, 0, 0, 1])), ("mo_report", calls.report, (FILE_A, bytearray(9)), leaves(0, None)),
]


class Replaced:
    """Something of a module in another form, for a while."""

    def __init__(self, module, name, other):
        self.module, self.name, self.other, self.own = module, name, other, getattr(module, name)

    def __enter__(self):
        setattr(self.module, self.name, self.other)

    def __exit__(self, *_):
        setattr(self.module, self.name, self.own)


def raised(exception, call, *arguments):
    """Whether a call raises this exception; what it does else."""
    try:
        return f"answers {call(*arguments)}"
    except exception:
        return True
    except Exception as other:
        return repr(other)


def counting(entries, rest):
    """A histogram with these counts and this rest."""
    def call(table, width, counts):
        counts[:] = array("Q", entries)
        return rest
    return call


def breach_cases():
    """Calls that break a promise are told as broken, and answers of two calls that differ as a disagreement."""
    for name, call, arguments, other in BREACHES:
        fake = type("Fake", (), {name: staticmethod(other)})
        with Replaced(calls.library, "load", lambda: fake):
            yield f"{name} that breaks a promise {arguments}", raised(Broken, call, *arguments), True
    age = calls.age
    with Replaced(calls, "age", lambda chain, z: age(chain, z) + (chain.places > 1)):
        yield "a leg whose front parts have another age", raised(analysis.Disagreement, analysis.way_of_leg, CHAIN_A, 30), True
    with Replaced(calls, "age", lambda chain, z: 5):
        yield "an age before the first", raised(analysis.Disagreement, analysis.first_leg, CHAIN_A), True
    figures = analysis.made(CHAIN_A)
    # A rest, a tick too few, ticks below the least delay, none at the greatest, none at the least.
    for counted, rest in (([0, 0, 6, 6], 1), ([0, 0, 6, 5], 0), ([0, 6, 6, 0], 0), ([0, 0, 12, 0], 0), ([0, 0, 0, 12], 0)):
        with Replaced(calls, "histogram", counting(counted, rest)):
            yield f"a histogram {counted} with the rest {rest}", raised(analysis.Disagreement, analysis.histogram, figures, 5), True
    with Replaced(calls, "histogram", counting([], 0)):
        yield "a width of 0 that is not refused", raised(analysis.Disagreement, analysis.histogram, figures, 0), True
    yield "a job between two", raised(analysis.Disagreement, analysis.job_written, CHAIN_A, 1, 7), True
    yield "bookings other than those of each chain", raised(analysis.Disagreement, words.pair, SCHEDULE_A, calls.Bookings(19, 12, 7, 9), 1, 2, 0), True


def buffer_cases():
    """Lists and bytes that a call cannot write to are an error, and bytes of other kinds are lent as bytes."""
    written = array("B", bytes(698)), (ctypes.c_char * 698)(), bytes(698), memoryview(bytes(698)), memoryview(array("Q", bytes(696)))
    for out in written:
        yield f"write_file to {type(out)}", raised(TypeError, calls.write_file, SCHEDULE_A, out), True
        yield f"report to {type(out)}", raised(TypeError, calls.report, FILE_A, out), True
    for out in ([0] * 5, (0,) * 5, array("q", [0] * 5), array("L", [0] * 5), memoryview(bytes(40))):
        yield f"make_table to {type(out)}", raised(TypeError, calls.make_table, CHAIN_A, 1, out, out), True
        yield f"histogram to {type(out)}", raised(TypeError, calls.histogram, TABLE_A, 5, out), True
    for data in (FILE_A, bytearray(FILE_A), memoryview(FILE_A), memoryview(bytearray(FILE_A)), array("B", FILE_A), memoryview(array("B", FILE_A))):
        yield f"read_file of {type(data)}", shape(calls.read_file(data)), shape(calls.read_file(FILE_A))
    yield "a list lent as a longer one", raised(ValueError, calls.write_file, dataclasses.replace(SCHEDULE_A, lengths=(128, None, None)), bytearray(698)), True


def library_cases(folder):
    """A shared object that is missing, or is none, is told with the way to make it; what needs none works without."""
    no_object, other = put(folder, "no-object.so", b"this is no shared object"), os.path.join(folder, "missing.so")
    # Neither the shared object nor the crates from which it is made.
    bare = shutil.copytree(os.path.join(TOP, "host"), os.path.join(folder, "bare", "host"), ignore=shutil.ignore_patterns("__pycache__"))
    alone = subprocess.run([sys.executable, bare, "check", LASER], env=surroundings(), capture_output=True, text=True)
    yield "the package without a shared object", (alone.returncode, alone.stdout, "host/library" in alone.stderr, "Traceback" in alone.stderr), (2, "", True, False)
    # A name without a folder is one in the current folder.
    shutil.copy(os.path.join(TOP, "target", "host", "libmeshorchard.so"), os.path.join(folder, "named.so"))
    answer = ran(["text", LASER], cwd=folder, env=surroundings(MESHORCHARD_LIBRARY="named.so"))
    yield "a shared object in the current folder", (answer.status, answer.err), (0, "")
    named = [(path, arguments) for path in (other, no_object, folder, "/proc/self/exe") for arguments in (["check", LASER], ["write", LASER_TEXT, os.path.join(folder, "out")])]
    for (path, arguments), answer in zip(named, ran_all([(arguments, b"", {"env": surroundings(MESHORCHARD_LIBRARY=path)}) for path, arguments in named])):
        told_so = path in answer.err and answer.err.count("\n") == 1
        yield f"{arguments[0]} with MESHORCHARD_LIBRARY={path}: {answer.err}", (answer.status, answer.out, told_so, content(os.path.join(folder, "out"))), (2, b"", True, None)
    without = [["explain", "5"], ["--help"], ["check", "--help"]]
    for arguments, answer in zip(without, ran_all([(arguments, b"", {"env": surroundings(MESHORCHARD_LIBRARY=other)}) for arguments in without])):
        yield f"{arguments} without a shared object", (answer.status, bool(answer.out), answer.err), (0, True, "")


def making_cases(folder):
    """What needs the calls has them made first, and stops where that fails; help and `explain` need none, and a shared object that is named is not made."""
    os.mkdir(os.path.join(folder, "host"))
    program = shutil.copy(PROGRAM, folder)
    os.chmod(put(folder, "host/library", b"#!/bin/sh\necho not made >&2\nexit 2\n"), 0o755)
    put(folder, "host/__main__.py", b"print('begun')\n")
    begun, stopped = (0, b"begun\n", b""), (2, b"", b"not made\n")
    for words_of, more, right in [([word], {}, stopped) for word in ("write", *ON_FILES)] + [
        (["explain", "5"], {}, begun), (["--help"], {}, begun), ([], {}, begun), (["phase", "--help"], {}, begun), (["phase", LASER], {"MESHORCHARD_LIBRARY": "named.so"}, begun),
    ]:
        done = subprocess.run([program, *words_of], env=surroundings(**more), capture_output=True)
        yield f"{words_of} where the calls cannot be made, with {more}", (done.returncode, done.stdout, done.stderr), right


@group
def package(r, factor):
    """the package: every call, every refusal, numbers beyond 64 bits, a missing shared object, Python 3.9"""
    yield from declared_cases()
    yield from refusal_cases()
    yield from breach_cases()
    yield from buffer_cases()
    yield from beyond_cases()
    for part in (library_cases, making_cases):
        with tempfile.TemporaryDirectory() as folder:
            yield from part(folder)
    sources = glob.glob(os.path.join(TOP, "host", "**", "*.py"), recursive=True)
    assert len(sources) >= 5
    for path in sources:
        with open(path, encoding="utf-8") as source:
            held = source.read()
        try:
            ast.parse(held, path, feature_version=(3, 9))
            found = None
        except SyntaxError as fault:
            found = str(fault)
        yield f"{path} as Python 3.9", found, None


# ---- 7: streams and statuses

def stream_cases(folder):
    """`-` for a file, in and out, gives what the file's name gives."""
    out = os.path.join(folder, "out")
    by_name = [arguments_for(word, LASER, "-") for word in ON_FILES]
    by_stream = [arguments_for(word, "-", "-") for word in ON_FILES]
    answers = ran_all([(arguments,) for arguments in by_name] + [(arguments, content(LASER)) for arguments in by_stream])
    for word, one, two in zip(ON_FILES, answers, answers[len(by_name):]):
        # Only the name may differ; in a picture it is the title.
        same = [answer.text().replace("standard input", "NAME").replace(LASER, "NAME").replace("laser", "NAME") for answer in (one, two)]
        yield f"{word} -", (two.status, two.err, same[1], bool(two.out)), (0, "", same[0], True)
        called(*arguments_for(word, LASER, out))
        if word in ("curve", "page"):
            yield f"{word} -o -", one.out, content(out)
    called("histogram", LASER, "--width", "5ms", "-o", out)
    answers = ran_all([(["histogram", LASER, "--width", "5ms", "-o", "-"],), (["histogram", "-", "--width", "5ms", "-o", "-"], content(LASER))])
    yield "histogram -o -", [(answer.status, answer.err, answer.out.replace(b"standard input", b"laser")) for answer in answers], [(0, "", content(out))] * 2
    beside = called("phase", LASER, "10", "129.5ms", "-o", out).text().replace(out, "standard output")
    answers = ran_all([(["phase", LASER, "10", "129.5ms", "-o", "-"],), (["phase", "-", "10", "129.5ms", "-o", "-"], content(LASER))])
    yield "phase -o -", [(answer.status, answer.out, answer.err) for answer in answers], [(0, content(out), beside)] * 2
    for source, stdin in ((LASER_TEXT, b""), ("-", content(LASER_TEXT))):
        answer = ran(["write", source, "-"], stdin)
        yield f"write {source} -", (answer.status, answer.out, "task 10 period 2500" in answer.err), (0, content(LASER), True)
    answer = ran(["write", "-", out], content(LASER_TEXT))
    yield "write - FILE", (answer.status, content(out), answer.err), (0, content(LASER), "")


def printing(out):
    """Every command as it prints on standard output."""
    return [arguments_for(word, LASER, "-") for word in ON_FILES] + [["write", LASER_TEXT, "-"], ["write", LASER_TEXT, out], ["phase", LASER, "10", "129.5ms", "-o", "-"], ["phase", LASER, "10", "129.5ms", "-o", out], ["explain", "5"], ["--help"], ["check", "--help"]]


def unwritable_cases(folder):
    """Standard output that is full, closed or has no reader; files that cannot be written."""
    out = os.path.join(folder, "out")
    reader, gone = os.pipe()
    os.close(reader)
    with open("/dev/full", "wb") as full:
        for name, how in (("full", {"stdout": full}), ("without a reader", {"stdout": gone}), ("closed", {"preexec_fn": functools.partial(os.close, 1)})):
            some = printing(out) if name == "full" else [["check", LASER], ["text", LASER], ["page", LASER, "-o", "-"], ["write", LASER_TEXT, "-"]]
            for arguments, answer in zip(some, ran_all([(arguments, b"", how) for arguments in some])):
                # Who has stopped reading is not told.
                found = answer.status, "standard output" in answer.err, "Traceback" in answer.err
                yield f"{arguments} on a standard output that is {name}: {answer.err[-200:]}", found, (2, name != "without a reader", False)
    os.close(gone)
    for path in ("/dev/full", folder, os.path.join(folder, "missing", "out")):
        for arguments in (["write", LASER_TEXT, path], ["curve", LASER, "-o", path], ["histogram", LASER, "--width", "5ms", "-o", path], ["phase", LASER, "10", "129.5ms", "-o", path], ["page", LASER, "-o", path]):
            answer = called(*arguments)
            yield f"{arguments}", (answer.status, answer.out, path in answer.err and "cannot be written" in answer.err, "Traceback" in answer.err), (2, b"", True, False)


def unreadable_cases():
    """Standard input that is closed or a folder."""
    place = os.open(TOP, os.O_RDONLY)
    for name, how in (("closed", {"stdin": None, "preexec_fn": functools.partial(os.close, 0)}), ("a folder", {"stdin": place})):
        for arguments in (["check", "-"], ["write", "-", "-"]):
            answer = ran(arguments, **how)
            found = answer.status, answer.out, "standard input" in answer.err, "Traceback" in answer.err
            yield f"{arguments} on a standard input that is {name}: {answer.err[-200:]}", found, (2, b"", True, False)
    os.close(place)


def same_file_cases(folder):
    """An output that is the input, by whatever name: status 2, and the input is kept."""
    text, data = content(LASER_TEXT), content(LASER)
    drawn = [["curve", None, "-o", None], ["histogram", None, "--width", "5ms", "-o", None], ["phase", None, "10", "129.5ms", "-o", None], ["page", None, "-o", None]]
    for name, held, form in (("same.txt", text, ["write", None, None]), *[("same.schedule", data, form) for form in drawn]):
        path = put(folder, name, held)
        hard, soft = os.path.join(folder, f"{form[0]}-hard"), os.path.join(folder, f"{form[0]}-soft")
        os.link(path, hard)
        os.symlink(path, soft)
        for other in (path, hard, soft, os.path.join(folder, ".", name), os.path.relpath(path)):
            names = iter((path, other))
            answer = called(*[next(names) if word is None else word for word in form])
            yield f"{form[0]} from {path} to {other}", (answer.status, answer.out, content(path), other in answer.err), (2, b"", held, True)


def redirected_cases(folder):
    """The same where the input is a redirected standard input."""
    for name, held, arguments in (("same.txt", content(LASER_TEXT), ["write", "-"]), ("same.schedule", content(LASER), ["page", "-", "-o"]), ("same.schedule", content(LASER), ["phase", "-", "10", "129.5ms", "-o"])):
        path = put(folder, name, held)
        with open(path, "rb") as stream:
            answer = ran([*arguments, path], stdin=stream)
        yield f"{' '.join(arguments)} {path} <{path}", (answer.status, answer.out, content(path) == held), (2, b"", True)


def elsewhere_cases(folder):
    """Run from another folder, whatever Python files lie there."""
    for name in ("meshorchard.py", "fractions.py", "struct.py", "text.py"):
        strange = os.path.join(folder, name[:-3])
        os.mkdir(strange)
        put(strange, name, b"raise SystemExit('a file of the current folder was run')\n")
        yield f"check in a folder with a file {name}", ran(["check", LASER], cwd=strange)[::2], (0, "")


def example_cases(folder):
    """Each command's help has an example, the same as in the help of all, whole in one line, which runs."""
    os.symlink(os.path.join(TOP, "examples"), os.path.join(folder, "examples"))
    os.symlink(PROGRAM, os.path.join(folder, "meshorchard"))
    words = ["write", *ON_FILES, "explain"]
    general, *each = ran_all([(["--help"],)] + [([word, "--help"],) for word in words])
    shown = re.findall(r"^ +(\./meshorchard \w.*)$", general.text(), re.MULTILINE)
    yield "the commands with an example in --help", sorted(line.split()[1] for line in shown), sorted(words)
    for word, answer in zip(words, each):
        found = re.findall(rf"\./meshorchard {word} [^-\[].*", answer.text())
        yield f"the example of {word} --help", (answer.status, found), (0, [line for line in shown if line.split()[1] == word])
    with concurrent.futures.ThreadPoolExecutor(2) as workers:
        done = workers.map(lambda line: subprocess.run(line, shell=True, cwd=folder, env=surroundings(), capture_output=True), shown)
        for line, found in zip(shown, done):
            yield line, (found.returncode, found.stderr), (0, b"")


def name_cases(folder):
    """A file whose name is no UTF-8, or has a sign of HTML in it, is as good as another."""
    for name in (b"\xff.schedule", b"a<b>&'\".schedule", "größe 1.schedule".encode()):
        path = os.fsdecode(os.path.join(os.fsencode(folder), name))
        shutil.copyfile(LASER, path)
        out = os.path.join(folder, "out")
        for arguments in [arguments_for(word, path, out) for word in ON_FILES] + [["histogram", path, "--width", "5ms", "-o", out]]:
            answer = called(*arguments)
            yield f"{arguments} of a file named {name}: {answer.err[-200:]}", (answer.status, "Traceback" in answer.err), (0, False)
            if arguments[0] == "curve" or "histogram" in arguments and "-o" in arguments:
                yield f"{arguments} of a file named {name}", picture_faults(content(out)), None


@group
def streams(r, factor):
    """streams, outputs that cannot be written, an output that is the input, examples of --help"""
    for part in (stream_cases, unwritable_cases, same_file_cases, redirected_cases, elsewhere_cases, example_cases, name_cases):
        with tempfile.TemporaryDirectory() as folder:
            yield from part(folder)
    yield from unreadable_cases()


# ---- 8: a phase that keeps a bound

# A schedule, the chain and the task, and bounds with the phases that they have: the worked examples, a gap, a period at its limit, a task at every place, and four chains.
FOUR = [(1, 4, 1, 0), (2, 6, 2, 0), (3, 6, 3, 1)], [[1, 2], [2], [2, 3], [2, 2]], 0
PHASES = [
    ([(1, 4, 4, 0), (2, 6, 6, 0)], [[1, 2]], 0, 1, 2, {0: None, 17: None, 18: 0, 19: 0, 2**64 - 1: 0}),
    ([(1, 4, 4, 1), (2, 6, 6, 0)], [[1, 2]], 0, 1, 2, {17: None, 18: 1, 19: 0}),
    ([(1, 4, 4, 0), (2, 6, 6, 1)], [[1, 2]], 1, 1, 2, {18: None, 19: 1, 20: 0}),
    ([(3, 10, 3, 7), (9, 20, 5, 0)], [[3, 9, 3]], 0, 1, 3, {32: None, 33: 5, 42: 5, 43: 0}),
    ([(3, 10, 3, 7), (9, 20, 5, 0)], [[3, 9, 3]], 1, 1, 3, {32: None, 33: 6, 43: 0}),
    ([(1, 5, 1, 0), (2, 10, 2, 0)], [[1, 2]], 0, 1, 1, {12: None, 13: 4, 14: 3, 15: 2, 16: 1, 17: 0}),
    ([(5, 10, 2, 0), (6, 10, 1, 95)], [[5, 6]], 0, 1, 6, {12: None, 13: 2, 16: 2, 20: 2, 21: 0}),
    ([(7, 10000, 3, 9999)], [[7]], 0, 1, 7, {10002: None, 10003: 0}),
    ([(1, 10000, 1, 0), (2, 10000, 1, 0)], [[1, 2]], 0, 1, 1, {10001: None, 10002: 9999, 10003: 9998}),
    ([(65535, 5, 5, 1000000)], [[65535] * 12], 0, 1, 65535, {64: None, 65: 0}),
    (*FOUR, 1, 2, {10: None, 11: 1, 12: 0}), (*FOUR, 2, 2, {7: None, 8: 0}), (*FOUR, 3, 2, {10: None, 11: 5, 13: 3, 16: 0}), (*FOUR, 4, 2, {13: None, 14: 0}),
]


def unnamed(tasks, chains, gap):
    """A schedule file that is given on standard input."""
    return File("", b"".join(inputs.records(tasks, chains, gap)), tasks, chains, gap)


def worked_phases(r):
    """The phases that were worked out by hand, by the command and by the reference, and as files."""
    for tasks, chains, gap, c, task, found in PHASES:
        file = unnamed(tasks, chains, gap)
        for bound, phase in found.items():
            told_of = phase_of(called("phase", "-", task, bound, "--chain", c, stdin=file.data))
            yield f"the phase of task {task} in {chains} of {tasks} for {bound}", told_of[3] and told_of[3][0] if len(told_of) == 7 else told_of, phase
            yield phase_case(r, file, c, task, bound)
            yield written_phase(r, file, c, task, bound)


def written_phase(r, file, c, task, bound):
    """With -o: the file is that of the schedule with the phase found; the words are those without it, and then what stands in the file. With none a file that is there stays."""
    right = phase_right(file, c, task, bound)
    with tempfile.TemporaryDirectory() as folder:
        out = r.choice([os.path.join(folder, "out"), put(folder, "there", b"as it was"), "-"])
        kept = content(out)
        answer = called("phase", "-", task, bound, "--chain", c, "-o", out, stdin=file.data)
        # Beside bytes on standard output the words are on standard error.
        held, words_of, rest = (answer.out or None, answer.err, "") if out == "-" else (content(out), answer.text(), answer.err)
    name = "standard output" if out == "-" else out
    what = f"phase of task {task} in chain {c} for {bound} to {name}: {file.tasks} {file.chains} {file.gap}"
    if len(right) == 3:
        return what, (refused_with(answer), held), (right, kept)
    if right[3] is None:
        words_of, _, last = (words_of + rest).rstrip("\n").rpartition("\n")
        return what, (answer.status, phase_words(words_of + "\n"), last, held), (1, right, f"{name} is not written: no phase keeps the bound.", kept)
    moved = file.at_phase(task, right[3][0])
    shows = f"{name}: {len(moved.data)} bytes; the instrument will read\n{canonical(moved.tasks, moved.chains, moved.gap).decode()}"
    words_of, shown, notes = words_of.partition(shows)
    found = answer.status, phase_words(words_of), shown == shows, noted(notes + rest), held, reference.read_file(held or b"")
    return what, found, (0, right, True, too_long(moved.tasks, moved.chains), moved.data, ("ok", moved.tasks, moved.chains, moved.gap))


def phase_refusals(r):
    """Every refusal, at its limit and in its turn; whatever the bound."""
    tasks = [(2, 10000, 1, 0), (5, 10001, 1, 0), (6, 1000000, 1, 0), (7, 999983, 1, 0), (8, 999979, 1, 0), (9, 4, 1, 0)]
    file = unnamed(tasks, [[9, 5, 9], [6], [7, 8, 2], [2, 6]], 3)
    for c, task, refusal in (
        (1, 5, 20), (1, 6, 19), (1, 2, 19), (1, 0, 19), (1, 1, 19), (1, 65536, 19), (1, 2**64 - 1, 19), (2, 6, 20), (2, 2, 19), (2, 9, 19), (3, 7, 7), (3, 2, 7), (3, 9, 7), (3, 0, 7),
        (4, 6, 20), (4, 5, 19), (0, 2, 16), (5, 2, 16), (5, 0, 16), (2**64 - 1, 6, 16),
    ):
        for bound in (0, 10**6, 2**64 - 1):
            answer = called("phase", "-", task, bound, "--chain", c, stdin=file.data)
            yield f"phase of task {task} in chain {c} for {bound}", refused_with(answer), (1, refusal, None)
            yield f"the same in words: {answer.err}", lacking(answer, ["has 4 chains"] if refusal == 16 else phase_reasons(file, c, task, refusal)), []
            yield written_phase(r, file, c, task, bound)


def some_phase_schedules(r, count):
    """Schedules of few tasks, so that a task fills several places of several chains, with the number of a chain and of a task. In some a chain has a hyperperiod or a period that is too long."""
    for _ in range(count):
        periods = r.choice([[4, 6, 12], [10, 20], [6], [5, 10], [8, 16, 40], [1, 3, 9], [25, 50, 100], [5, 6, 9]])
        short = [(r.choice(periods), r.choice([1, 3, r.randint(1, 40), 4000000]), r.choice([0, r.randint(0, 60), r.randint(0, 9), 1000000])) for _ in range(r.randint(1, 4))]
        long = r.choice([[], [], [(999983, 1, 0), (999979, 1, 0)], [(10001, 5, 7)]])
        numbers = inputs.rising(r, len(short + long))
        chains = [r.choices(numbers[:len(short)], k=r.choice([1, 2, 2, 3, 4, 5])) for _ in range(r.randint(1, 3))]
        if long:
            chains.insert(r.randint(0, len(chains)), [r.choice(chains[0]), *numbers[len(short):]])
        c = r.randint(1, len(chains))
        file = unnamed([(number, *task) for number, task in zip(numbers, short + long)], chains, r.choice([0, 0, 1, r.randint(1, 30), r.randint(1, 1000)]))
        yield file, c, r.choice(chains[c - 1] * 4 + numbers)


def many_anchors(r):
    """A table with more anchors than a report has room for, which a file with it is noted for."""
    file = unnamed([(1, 2, 1, 1), (2, 1030, 7, 5), (3, 1031, 9, 4)], [[1, 2, 3], [1]], 1)
    assert (11, 0) in reports.refusals(file.data).values()
    for bound in phase_bounds(r, file, 1, 1):
        yield phase_case(r, file, 1, 1, bound)
        yield written_phase(r, file, 1, 1, bound)
    answer = called("phase", "-", 1, 10**6, "-o", "-", stdin=file.data)
    yield f"the note of {answer.err}", re.findall(r"^note: chain (\d) is refused with 11 in a report: its table has ([0-9,]+) anchors", answer.err, re.MULTILINE), [("1", f"{table_of(file.at_phase(1, 0).places(1), 1)[2]:,}")]


def phase_kinds(right):
    """Which kinds of answer this is."""
    if len(right) == 3:
        return [right[1]]
    *_, then, today, kept, others = right
    if then is None or today is None:
        return ["none" if then is None else "nothing need change"]
    return [f"{'kept today' if kept else 'found'}, {'above 0' if then[0] else '0'}", *(["another chain refused" if len(other) == 2 else "another chain" for other in others] or ["alone"])]


def any_phases(r, factor):
    """Any schedules, chains, tasks and bounds, every third with -o. All kinds of answers must be met."""
    kinds = collections.Counter()
    for i, (file, c, task) in enumerate(some_phase_schedules(r, int(1200 * factor))):
        bound = r.choice(phase_bounds(r, file, c, task))
        case = (written_phase if i % 3 == 0 else phase_case)(r, file, c, task, bound)
        kinds.update(phase_kinds(phase_right(file, c, task, bound)))
        yield case
    assert factor < 1 or len(kinds) == 12, kinds


def lied_to(phase, *arguments, stdin):
    """The command with a shared object that answers this phase, or none, and is else the proved one."""
    own, answers = calls.library.load(), leaves(0, [phase or 0], [int(phase is None)])
    other = type("Other", (), {"__getattr__": lambda _, name: getattr(own, name), "mo_smallest_phase": staticmethod(answers)})()
    with Replaced(calls.library, "load", lambda: other):
        return called(*arguments, stdin=stdin)


def lying_cases(folder):
    """A shared object that answers another phase, or none: told, with status 2, and nothing is written."""
    out = os.path.join(folder, "out")
    a, c = [(1, 4, 4, 0), (2, 6, 6, 0)], [(1, 5, 5, 0), (2, 5, 5, 3)]
    for tasks, chain, task, bound, right, wrong in (
        # Phases that do not keep the bound, that are not the first, that are not below the period, and no phase where that of today keeps it.
        ([(3, 10, 3, 7), (9, 20, 5, 0)], [3, 9, 3], 3, 33, 5, (0, 1, 4, 6, 7, 8, 10, 15, 25, 1000000, 1000005, 2**63, None)), ([(3, 10, 3, 0), (9, 20, 5, 0)], [3, 9, 3], 3, 33, 5, (0, 4, 6, 7, 15)),
        # Only the phase of today tells; only the period tells.
        (a, [1, 2], 2, 18, 0, (1, 2, 4, None)), (c, [1, 2], 2, 15, 0, (1, 5, 10)),
        # Where there is none.
        (a, [1, 2], 2, 17, None, (0, 1, 5, 6)),
    ):
        data = b"".join(inputs.records(tasks, [chain], 0))
        for phase in wrong:
            answers = [lied_to(phase, "phase", "-", task, bound, *more, stdin=data) for more in ([], ["-o", out], ["-o", "-"])]
            found = [(answer.status, answer.out, f"{'none' if phase is None else phase} is not the smallest phase of task {task}" in answer.err, answer.err.count("\n")) for answer in answers]
            yield f"{phase} for {right} of {tasks}, {bound}: {answers[0].err}", (found, content(out)), ([(2, b"", True, 1)] * 3, None)
        yield f"{right} of {tasks}, {bound}", lied_to(right, "phase", "-", task, bound, stdin=data).status, 0


def commented_cases(folder):
    """From a text with comments to a file with the phase: the file of the text in which only that number is another."""
    text = "# a comment\ntask 3 period 10 duration 3 phase {} # the sampler\n\ntask 9 period 20us duration 0.005ms phase 0\nchain 3 9 3\nchain 9 # alone\ngap {}\n"
    for gap, phase in ((0, 5), (1, 6)):
        paths = [os.path.join(folder, f"{name}-{gap}") for name in ("today", "then", "by-hand")]
        called("write", "-", paths[0], stdin=text.format(7, gap).encode())
        called("write", "-", paths[2], stdin=text.format(phase, gap).encode())
        answer = called("phase", paths[0], 3, 33, "-o", paths[1])
        yield f"phase {phase} with gap {gap}", (answer.status, answer.err, content(paths[1])), (0, "", content(paths[2]))
        yield f"today's phase with gap {gap} stays", called("text", paths[0]).text(), canonical([(3, 10, 3, 7), (9, 20, 5, 0)], [[3, 9, 3], [9]], gap).decode()
        # Asked again, the phase is the one that the file has.
        again = called("phase", paths[1], 3, 33, "-o", "-")
        yield f"phase {phase} with gap {gap}, once more", (again.status, again.out, "nothing need change" in again.err), (0, content(paths[2]), True)


@group
def phases(r, factor):
    """phases that keep a bound: worked ones, refusals, any schedules, files, and a shared object that answers wrongly"""
    yield from worked_phases(r)
    yield from phase_refusals(r)
    yield from many_anchors(r)
    yield from any_phases(r, factor)
    with tempfile.TemporaryDirectory() as folder:
        yield from lying_cases(folder)
        yield from commented_cases(folder)


def shortened(value):
    said = repr(value)
    return said if len(said) <= 500 else f"{said[:240]} .. {said[-240:]}"


def main():
    parser = argparse.ArgumentParser()
    parser.add_argument("--count", type=float, default=1.0, help="how much longer than usual")
    parser.add_argument("--seed", type=int, default=20261116)
    chosen = parser.parse_args()
    reports.build()
    proved.build()
    print(f"./meshorchard and the package against the reference, seed {chosen.seed}, count {chosen.count}")
    passed = failed = cases = 0
    for run in GROUPS:
        began, made, wrong, broken = time.time(), 0, [], ""
        try:
            for what, mine, right in run(random.Random(f"{chosen.seed} {run.__name__}"), chosen.count):
                made += 1
                if mine != right:
                    wrong.append((what, mine, right))
        except AssertionError as fault:
            broken = f", not as it should be {fault}"
        except Exception as fault:
            # What the test did not expect of the command is a fault of this group alone.
            broken = f", broken off by {fault!r}"
        print(f"{run.__doc__.strip()}: {made} cases, {len(wrong)} not as they should be{broken} ({time.time() - began:.1f} s)")
        # One of each kind of fault.
        kinds = {(shortened(mine), shortened(right)): what for what, mine, right in reversed(wrong)}
        for (mine, right), what in list(reversed(kinds.items()))[:12]:
            print(f"  {what[:300]} .. {what[-300:]}" if len(what) > 600 else f"  {what}")
            print(f"    is {mine}\n    not {right}")
        cases += made
        # A group that looks at nothing shows nothing.
        passed, failed = (passed, failed + 1) if wrong or broken or made == 0 else (passed + 1, failed)
    print(f"{cases} cases")
    print(f"{passed} passed, {failed} failed")
    sys.exit(0 if failed == 0 else 1)


if __name__ == "__main__":
    main()
