"""The differential test: every proved call against the reference program, on fixed random, boundary and damaged inputs.

    python3 tests/differential.py [--count FACTOR] [--seed SEED]

The groups run side by side, one for each processor. Each group prints its number of comparisons, and how often each kind of answer or input was met; the last line is 'N passed, M failed', in
groups. A disagreement is printed with its input.
"""
import argparse
import collections
import dataclasses
import itertools
import math
import multiprocessing
import os
import random
import sys
import time

HERE = os.path.dirname(os.path.abspath(__file__))
sys.path[:0] = [HERE, os.path.join(os.path.dirname(HERE), "reference")]
import inputs
import meshorchard_reference as reference
import proved

GROUPS = []
# The name under which 5 at place 0 of a call on a chain or a schedule is counted.
OF_GAP = "5 of the gap"
# What note_links tells of a chain and its gap.
LINKS = ("no gap", "a gap", "gap 1", "gap 1000", "just fits", "just misses")


def group(function):
    GROUPS.append(function)
    return function


class Comparison:
    """Compares answers, counts them and keeps the first few disagreements."""

    def __init__(self):
        self.made = 0
        self.wrong = []
        self.met = collections.Counter()
        self.lately = set()

    def same(self, ours, theirs, *about):
        self.made += 1
        if ours != theirs:
            self.wrong.append((about, ours, theirs))

    def meet(self, answer):
        """Counts an answer of the reference, as "ok" or by the refusal's number."""
        self.note("ok" if answer[0] == "ok" else answer[1])

    def meet_call(self, answer):
        """The same of a call on a chain or a schedule: there 5 at place 0 is that of the gap, and counts apart from that of a task."""
        self.note(OF_GAP if answer[:3] == ("refused", 5, 0) else "ok" if answer[0] == "ok" else answer[1])

    def note(self, name):
        """Counts an answer of this kind."""
        self.met[name] += 1
        self.lately.add(name)

    def must_meet(self, *answers):
        """The inputs since the last such line led to these answers; inputs that no longer do show nothing of them."""
        self.same([a for a in answers if a not in self.lately], [], "answers that were not met")
        self.lately = set()


def note_links(tasks, gap, warm, compare):
    """What an accepted chain shows of gaps: whether it has links and a gap, and whether on its way of the warm-up a value becomes readable just when a job
    of the next place reads, or one tick later."""
    if warm[0] != "ok" or len(tasks) == 1:
        return
    compare.note("a gap" if gap else "no gap")
    if gap in (1, inputs.MOST_GAP):
        compare.note(f"gap {gap}")
    for (t, d, f), job, (following, _, phase) in zip(tasks, warm[1], tasks[1:]):
        readable = f + job * t + d + gap
        if gap and readable > phase:
            if (readable - phase) % following == 0:
                compare.note("just fits")
            if (readable - phase) % following == 1 % following:
                compare.note("just misses")


def lent(r, tasks):
    """A chain as it is lent to C: its numbers, often with rubbish past the count."""
    numbers = inputs.flat(tasks)
    return numbers + (inputs.rubbish(r) if r.random() < 0.5 else [])


@group
def chains(ours, r, factor, compare):
    """checks, warm-up, delay and age"""
    for _ in range(int(4000 * factor)):
        tasks, gap = inputs.any_linked(r, inputs.any_chain(r))
        numbers, n = lent(r, tasks), len(tasks)
        checked = reference.check_chain(tasks, gap)
        compare.same(ours.check(numbers, n, gap), checked, "check", tasks, gap)
        compare.meet_call(checked)
        warm = reference.warm_up(tasks, gap)
        compare.same(ours.warm_up(numbers, n, gap), warm, "warm-up", tasks, gap)
        note_links(tasks, gap, warm, compare)
        middles = []
        if warm[0] == "ok":
            _, jobs, x0, h = warm
            t, d, f = tasks[-1]
            middles = [x0, x0 + h, f + jobs[-1] * t + d, f + (jobs[-1] + 1) * t + d]
        for tick in inputs.ticks_around(r, middles, 7):
            compare.same(ours.delay(numbers, n, gap, tick), reference.delay(tasks, gap, tick), "delay", tasks, gap, tick)
            compare.same(ours.age(numbers, n, gap, tick), reference.age(tasks, gap, tick), "age", tasks, gap, tick)
    compare.must_meet("ok", 5, OF_GAP, 7, 8, *LINKS)
    # Every call at the limits of the gap: for one place, which has no link and whose gap is tested all the same, for two and for twelve.
    for n in (1, 2, 12):
        for gap in (0, 1, 2, inputs.MOST_GAP - 1, inputs.MOST_GAP, *inputs.FAULTY_GAPS):
            tasks = [(r.choice([1, 2, 3, 4, 6, 12]), r.randint(1, 15), r.randint(0, 20)) for _ in range(n)]
            numbers, t = lent(r, tasks), r.choice([0, 10**5, 10**5 + 1, inputs.UPPER + 1])
            compare.meet_call(reference.check_chain(tasks, gap))
            compare.same(ours.check(numbers, n, gap), reference.check_chain(tasks, gap), "check", tasks, gap)
            compare.same(ours.warm_up(numbers, n, gap), reference.warm_up(tasks, gap), "warm-up", tasks, gap)
            compare.same(ours.delay(numbers, n, gap, t), reference.delay(tasks, gap, t), "delay", tasks, gap, t)
            compare.same(ours.age(numbers, n, gap, t), reference.age(tasks, gap, t), "age", tasks, gap, t)
            compare_making(ours, r, tasks, gap, numbers, r.randint(0, n), (12, 12), compare)
            compare_windows(ours, numbers, tasks, gap, r.choice([0, 30, gap]), r.choice([0, 1, 3]), compare)
        compare.must_meet("ok", OF_GAP)


@group
def lists_of_tasks(ours, r, factor, compare):
    """lists of numbers that are no chain"""
    for _ in range(int(500 * factor)):
        tasks = inputs.chain(r)
        numbers = inputs.flat(tasks) + [r.randint(1, 9) for _ in range(r.choice([1, 2, 4, 5]))]
        places = r.choice([len(tasks), 1, 12])
        eight = ("refused", 8, 0)
        # 8 comes before a fault of the gap.
        gap = r.choice([0, 1, inputs.MOST_GAP, *inputs.FAULTY_GAPS])
        compare.same(ours.delay(numbers, places, gap, 100), eight, "length", numbers, gap)
        compare.same(ours.warm_up(numbers, places, gap), eight, "length", numbers, gap)
        cuts = r.choice([[], [1], [0], [proved.LARGEST]])
        compare.same(ours.sections(numbers, places, gap, cuts), eight, "length", numbers, gap, cuts)
        whole = inputs.flat(tasks)
        # The last two would be the right count to a call that kept fewer bits.
        for places in (len(tasks) + 1, 13, 2**63, proved.LARGEST, len(tasks) + 2**32, len(tasks) + 2**63):
            compare.same(ours.age(whole, places, gap, 100), eight, "places", whole, places, gap)
            compare.same(ours.check(whole, places, gap), eight, "places", whole, places, gap)
            compare.same(ours.sections(whole, places, gap, cuts), eight, "places", whole, places, gap, cuts)


def compare_making(ours, r, tasks, gap, numbers, p, lengths, compare):
    """One making on lists of these lengths: its answer, and every entry of both lists after it."""
    starts, latencies = inputs.lent_lists(r, *lengths)
    mine = ours.make(numbers, len(tasks), gap, p, starts, latencies)
    theirs = reference.make(tasks, gap, p, starts, latencies)
    compare.same(mine, theirs, "making", tasks, gap, p, lengths)
    compare.meet_call(theirs[0])
    return mine


@group
def making(ours, r, factor, compare):
    """making a table at every cut, and its agreement with walk and age"""
    for _ in range(int(10000 * factor)):
        tasks, gap = inputs.linked(r, inputs.cut_chain(r))
        numbers, n = lent(r, tasks), len(tasks)
        g = len(reference.anchors(tasks, gap, 1))
        note_links(tasks, gap, reference.warm_up(tasks, gap), compare)
        lengths = [(g, g), (g + r.randint(1, 3),) * 2, (r.randint(0, g - 1),) * 2, (g, g + 1)]
        for p in range(1, n + 1):
            compare_making(ours, r, tasks, gap, numbers, p, r.choice(lengths), compare)
        # The last cut once more, on lists that hold the table; then its readings against the walk, and its greatest latency against both.
        p, size = r.randint(1, n), r.choice([g, g + 2])
        (answer, starts, latencies) = compare_making(ours, r, tasks, gap, numbers, p, (size, size), compare)
        if answer[0] != "ok":
            continue
        _, g, x0, h, _ = answer
        table = proved.Table(starts, latencies, g, h)
        ticks = [x0, x0 + h, inputs.UPPER, inputs.UPPER - r.randint(0, 3 * h), r.randint(x0, inputs.UPPER)]
        for start in starts[:g]:
            ticks += [start, max(x0, start - 1), start + h * r.randint(1, 10**6 // h + 1)]
        for t in ticks:
            if t <= inputs.UPPER:
                compare.same(ours.read_table(table, t), ours.delay(numbers, n, gap, t), "table and walk", tasks, gap, p, t)
        top = ours.greatest(table)
        for start, latency in zip(starts[:g], latencies[:g]):
            if ("ok", latency) == top:
                compare.same(ours.delay(numbers, n, gap, start), top, "greatest delay", tasks, gap, p)
                compare.same(ours.age(numbers, n, gap, start + latency - 1), ("ok", latency - 1), "greatest age", tasks, gap, p)
    compare.must_meet("ok", 10, 11, *LINKS)


# The latencies of twelve places without a gap and with the longest, each link waiting as long as one can; and of one place.
LONG_LATENCIES = (5000000, 59999989, 60010989)


@group
def longest_latencies(ours, r, factor, compare):
    """making where every link waits long: latencies up to 60,010,989, and every tick around an anchor read, walked and aged"""
    for places, gap in itertools.product((1, 2, 11, 12), (0, 1, 2, 500, inputs.MOST_GAP - 1, inputs.MOST_GAP)):
        for short in (0, 1, 2):
            # A job of the next place reads so many ticks before a value becomes readable: with 0 the two connect, else the value waits that much less than a period.
            tasks = [(1000000, 4000000, (gap - short) * i % 1000000) for i in range(places)]
            numbers = lent(r, tasks)
            answer, starts, latencies = compare_making(ours, r, tasks, gap, numbers, r.randint(1, places), (1, 1), compare)
            compare.same(answer[0], "ok", "making", tasks, gap)
            if answer[0] != "ok":
                continue
            if latencies[0] in LONG_LATENCIES:
                compare.note(latencies[0])
            table = proved.Table(starts, latencies, 1, answer[3])
            for step in (0, 1, 2, 999998, 999999, 1000000, r.randint(0, 10**9)):
                t = starts[0] + step
                compare.same(ours.read_table(table, t), ours.delay(numbers, places, gap, t), "table and walk", tasks, gap, t)
                compare.same(ours.delay(numbers, places, gap, t), reference.delay(tasks, gap, t), "delay", tasks, gap, t)
                z = t + latencies[0] - 1
                compare.same(ours.age(numbers, places, gap, z), reference.age(tasks, gap, z), "age", tasks, gap, z)
    compare.must_meet("ok", *LONG_LATENCIES)


def longest(periods):
    return f"longest period {max(periods)}"


@group
def making_far_apart(ours, r, factor, compare):
    """making where periods differ much, at every cut with at most 8,000 partitions"""
    for _ in range(int(500 * factor)):
        tasks, gap = inputs.linked(r, inputs.far_chain(r))
        numbers, h = lent(r, tasks), math.lcm(*[t for t, _, _ in tasks])
        for p in range(1, len(tasks) + 1):
            walked = h // tasks[p - 1][0]
            if walked <= 8000:
                answer, _, _ = compare_making(ours, r, tasks, gap, numbers, p, (r.choice([walked, r.randint(0, walked)]),) * 2, compare)
                if answer[0] == "ok":
                    compare.note(longest(t for t, _, _ in tasks))
                    note_links(tasks, gap, reference.warm_up(tasks, gap), compare)
    # Of every kind there was a table, so that each of these periods was stepped with.
    compare.must_meet("ok", 11, *map(longest, inputs.FAR_APART), *LINKS)


@group
def making_refused(ours, r, factor, compare):
    """making refused: chains, places and lists"""
    for _ in range(int(2000 * factor)):
        tasks = inputs.cut_chain(r) if r.random() < 0.5 else inputs.any_chain(r)
        if len(tasks) in range(1, 13) and reference.check_chain(tasks, 0)[0] == "ok" and math.lcm(*[t for t, _, _ in tasks]) > 10**4:
            tasks = inputs.cut_chain(r)
        tasks, gap = inputs.any_linked(r, tasks)
        numbers = lent(r, tasks)
        for p in (0, len(tasks) + 1, 13, proved.LARGEST, r.randint(0, 13)):
            size = r.randint(0, 5)
            compare_making(ours, r, tasks, gap, numbers, p, (size, size + r.choice([0, 0, 1])), compare)
    compare.must_meet("ok", 5, OF_GAP, 7, 8, 9, 10, 11)


def window_bounds(r, tasks, gap, warm):
    """Bounds around the real spans of a job after W1, from its read to its forward end, and the ends of 64 bits."""
    bounds = [0, proved.LARGEST, r.randint(0, 100)]
    if warm[0] == "ok":
        j = warm[1][0] + 1 + r.randrange(warm[3] // tasks[0][0])
        span = reference.write_of(tasks[-1], reference.forward(tasks, gap, 1, j)) - reference.read_of(tasks[0], j)
        bounds += 3 * [span - 1, span, span + 1]
    return bounds


def compare_windows(ours, numbers, tasks, gap, b, k, compare):
    """One answer, which is the reference's."""
    theirs = reference.windows(tasks, gap, b, k)
    compare.same(ours.windows(numbers, len(tasks), gap, b, k), theirs, "windows", tasks, gap, b, k)
    compare.meet_call(theirs)
    return theirs


def note_window(tasks, gap, warm, b, k, count, job, compare):
    """Where the earliest window lies in its range, and whether the last one of the range has as many misses."""
    first, last = warm[1][0] + 1, warm[1][0] + warm[3] // tasks[0][0]
    if first < job:
        compare.note("the last job" if job == last else "a later job")
        if last < job + k - 1:
            compare.note("past the range")
    if job < last and count == sum(reference.misses(tasks, gap, j, b) for j in range(last, last + k)):
        compare.note("as many at the end")


@group
def windows(ours, r, factor, compare):
    """windows of jobs"""
    for i in range(int(10000 * factor)):
        tasks, gap = inputs.linked(r, inputs.wide_window_chain(r) if i % 25 == 0 else inputs.cut_chain(r))
        numbers, warm = lent(r, tasks), reference.warm_up(tasks, gap)
        note_links(tasks, gap, warm, compare)
        for k in r.sample([0, 1, 2, 3, r.randint(4, 12), r.randint(4, 100), 99, 100, 101, proved.LARGEST], 4):
            b = r.choice(window_bounds(r, tasks, gap, warm))
            theirs = compare_windows(ours, numbers, tasks, gap, b, k, compare)
            if theirs[0] == "ok":
                note_window(tasks, gap, warm, b, k, *theirs[1:], compare)
    compare.must_meet("ok", 15, "a later job", "the last job", "past the range", "as many at the end", *LINKS)


@group
def windows_refused(ours, r, factor, compare):
    """windows refused: chains, and k outside its limits"""
    for _ in range(int(2000 * factor)):
        tasks = inputs.any_chain(r)
        if reference.check_chain(tasks, 0)[0] == "ok":
            tasks = [*tasks, *tasks, inputs.faulty_task(r)] if r.random() < 0.5 else inputs.cut_chain(r)
        tasks, gap = inputs.any_linked(r, tasks)
        numbers = lent(r, tasks)
        for k in (0, 1, 101, 2**32 + 1, proved.LARGEST):
            compare_windows(ours, numbers, tasks, gap, inputs.any_number(r), k, compare)
    compare.must_meet("ok", 5, OF_GAP, 7, 8, 15)


def compare_sections(ours, numbers, tasks, gap, cuts, compare):
    """One answer, which is the reference's."""
    theirs = reference.sections(tasks, gap, cuts)
    compare.same(ours.sections(numbers, len(tasks), gap, cuts), theirs, "sections", tasks, gap, cuts)
    compare.meet_call(theirs)
    return theirs


def compare_further(sums, compare, *about):
    """Each cut adds at least 1: of every two lists of cuts of which one has all cuts of the other."""
    for cuts, total in sums.items():
        for more, larger in sums.items():
            if set(cuts) < set(more):
                compare.same(total + len(more) - len(cuts) <= larger, True, "each cut adds at least 1", *about, cuts, more)
                if total + len(more) - len(cuts) == larger:
                    compare.note("exactly 1 for each cut")


@group
def sections(ours, r, factor, compare):
    """sections: every list of cuts of short chains, some of long ones, the whole chain's greatest latency, and further cuts"""
    for i in range(int(9000 * factor)):
        tasks, gap = inputs.linked(r, inputs.far_chain(r) if i % 150 == 0 else inputs.cut_chain(r))
        if i % 3 == 0:
            gap = r.choice([0, 1, inputs.MOST_GAP])
        numbers, warm = lent(r, tasks), reference.warm_up(tasks, gap)
        note_links(tasks, gap, warm, compare)
        lists = inputs.all_cuts(len(tasks)) if len(tasks) < 5 else [[], *(inputs.some_cuts(r, len(tasks)) for _ in range(4))]
        answers = {tuple(cuts): compare_sections(ours, numbers, tasks, gap, cuts, compare) for cuts in lists}
        compare.note(f"{max(map(len, answers))} cuts")
        compare_further({cuts: answer[2] for cuts, answer in answers.items()}, compare, tasks, gap)
        if i % 5 == 0:
            # In one piece it is the greatest latency of the table.
            made, starts, latencies = ours.make(numbers, len(tasks), gap, 1, [0] * 4096, [0] * 4096)
            if made[0] == "ok":
                compare.same(("ok", answers[()][2]), ours.greatest(proved.Table(starts, latencies, made[1], made[3])), "the whole", tasks, gap)
                compare.note("the table's")
    compare.must_meet("ok", "exactly 1 for each cut", "the table's", *(f"{k} cuts" for k in (0, 1, 2, 3, 11)), *LINKS)


@group
def sections_refused(ours, r, factor, compare):
    """sections refused: chains, and cuts that do not rise or lie outside"""
    for _ in range(int(3000 * factor)):
        tasks, gap = inputs.any_linked(r, inputs.any_chain(r) if r.random() < 0.5 else inputs.cut_chain(r))
        if reference.check_chain(tasks, gap)[0] == "ok" and math.lcm(*[t for t, _, _ in tasks]) > 100 * max(t for t, _, _ in tasks):
            continue
        numbers, n = lent(r, tasks), max(1, min(len(tasks), 12))
        for cuts in [*inputs.faulty_cuts(r, n), inputs.some_cuts(r, n)]:
            compare_sections(ours, numbers, tasks, gap, cuts, compare)
    compare.must_meet("ok", 5, OF_GAP, 7, 8, 17)


def compare_figures(ours, lent, table, compare):
    for name in ("greatest", "low", "mean", "throughput"):
        compare.same(getattr(ours, name)(lent), getattr(reference, name)(*table), name, table)


def compare_table(ours, r, anchors, ticks, most, compare):
    """A well-formed table, with rubbish past its anchors: its figures, its readings at these ticks and around its corners, its exceedances."""
    starts, latencies, h = anchors
    table = (*inputs.with_rest(r, starts, latencies), len(starts), h)
    lent = proved.Table(*table)
    compare.same(reference.well_formed(*table), True, "well-formed", table)
    compare_figures(ours, lent, table, compare)
    for t in [*ticks, *inputs.table_ticks(r, starts, h)]:
        compare.same(ours.read_table(lent, t), reference.read_table(*table, t), "reading", table, t)
    for b in inputs.bounds(r, latencies, reference.low(*table)[1], most):
        compare.same(ours.exceedance(lent, b), reference.exceedance(*table, b), "exceedance", table, b)
    for latency in {60000001, inputs.MOST_LATENCY} & set(latencies):
        compare.note(latency)


@group
def tables(ours, r, factor, compare):
    """readings and figures of well-formed tables"""
    for _ in range(int(8000 * factor)):
        starts, latencies, h = inputs.small_table(r)
        every = range(max(0, starts[0] - 2), starts[0] + h + 2)
        compare_table(ours, r, (starts, latencies, h), every, 30, compare)
    compare.must_meet(60000001, inputs.MOST_LATENCY)
    for _ in range(int(150 * factor)):
        compare_table(ours, r, inputs.middle_table(r), [], 4, compare)
    for _ in range(int(1000 * factor)):
        compare_table(ours, r, inputs.large_table(r), [], 12, compare)
    compare.must_meet(60000001, inputs.MOST_LATENCY)


@group
def damaged_tables(ours, r, factor, compare):
    """readings and figures of tables with one fault"""
    fourteen = ("refused", 14, 0)
    for damaged in inputs.DAMAGES:
        for _ in range(int(1000 * factor)):
            table = damaged(r)
            lent = proved.Table(*table)
            t, b = inputs.any_number(r), inputs.any_number(r)
            if table[0]:
                t = r.choice([t, table[0][0]])
            if inputs.MOST_LATENCY + 1 in table[1]:
                compare.note(inputs.MOST_LATENCY + 1)
            compare.same(reference.read_table(*table, t), fourteen, damaged.__name__, table)
            compare.same(ours.read_table(lent, t), fourteen, "reading", table, t)
            compare_figures(ours, lent, table, compare)
            compare.same(ours.exceedance(lent, b), reference.exceedance(*table, b), "exceedance", table, b)
    compare.must_meet(inputs.MOST_LATENCY + 1)


def compare_histogram(ours, r, table, width, length, compare):
    """One list of counts, which held rubbish: every entry and the rest are the reference's, and with them the ticks of a hyperperiod."""
    held = [inputs.any_number(r)] * length
    mine, theirs = ours.histogram(proved.Table(*table), width, held), reference.histogram(*table, width, length)
    compare.same(mine, theirs, "histogram", table, width, length)
    compare.meet(theirs)
    if theirs[0] == "ok":
        compare.same(sum(mine[1]) + mine[2], table[3], "all ticks", table, width, length)
        compare.note("empty list" if length == 0 else "all in the list" if theirs[2] == 0 else "all beyond" if theirs[2] == table[3] else "some beyond")
        if any(theirs[1]) and len(theirs[1]) > 1 and theirs[1][-1] and not theirs[2]:
            compare.note("just long enough")


def compare_histograms(ours, r, anchors, most, compare):
    """A well-formed table with rubbish past its anchors: several widths, with lists that are empty, short, just long enough and long."""
    starts, latencies, h = anchors
    table = (*inputs.with_rest(r, starts, latencies), len(starts), h)
    for width in inputs.widths(r, latencies, h, most):
        for length in inputs.lengths(r, max(latencies), width, 2):
            compare_histogram(ours, r, table, width, length, compare)


LISTS = ("empty list", "all in the list", "some beyond", "all beyond", "just long enough")


@group
def histograms(ours, r, factor, compare):
    """how often each delay occurs: short tables, tables of every number of anchors from 1 to 1,024, long ones"""
    for _ in range(int(800 * factor)):
        compare_histograms(ours, r, inputs.small_table(r), 12, compare)
    compare.must_meet("ok", *LISTS)
    for g in range(1, 1025):
        anchors = inputs.close_table(r, g)
        compare.same(len(anchors[0]), g, "anchors", anchors)
        compare_histograms(ours, r, anchors, 2, compare)
        compare_histogram(ours, r, (anchors[0], anchors[1], g, anchors[2]), r.randint(1, 3), inputs.MOST_ENTRIES, compare)
    compare.must_meet("ok", *LISTS)
    for _ in range(int(60 * factor)):
        compare_histograms(ours, r, inputs.middle_table(r), 4, compare)
    for _ in range(int(60 * factor)):
        compare_histograms(ours, r, inputs.large_table(r), 5, compare)
    compare.must_meet("ok", *LISTS)


@group
def histograms_of_chains(ours, r, factor, compare):
    """how often each delay occurs: tables that were made, against the delays of walking at each tick of a hyperperiod, from the warm-up tick and from a later one"""
    made = 0
    while made < int(600 * factor):
        tasks, gap = inputs.linked(r, inputs.cut_chain(r))
        numbers, warm = lent(r, tasks), reference.warm_up(tasks, gap)
        if warm[0] != "ok" or warm[3] > 400:
            continue
        made += 1
        note_links(tasks, gap, warm, compare)
        _, _, x0, h = warm
        answer, starts, latencies = ours.make(numbers, len(tasks), gap, r.randint(1, len(tasks)), [0] * 400, [0] * 400)
        compare.same(answer[::3], ("ok", h), "making", tasks, gap)
        table = proved.Table(starts, latencies, answer[1], h)
        from_tick = x0 + r.choice([0, 1, r.randint(0, 3 * h)])
        delays = [reference.delay(tasks, gap, t)[1] for t in range(from_tick, from_tick + h)]
        for width in inputs.widths(r, latencies[:answer[1]], h, 4):
            for length in inputs.lengths(r, max(delays), width, 2):
                counted = [sum(i * width <= delay < (i + 1) * width for delay in delays) for i in range(min(length, max(delays) // width + 1))]
                walked = ("ok", counted + [0] * (length - len(counted)), sum(delay >= length * width for delay in delays))
                compare.same(ours.histogram(table, width, [7] * length), walked, "histogram of a chain", tasks, gap, width, length)
                compare.meet(walked)
    compare.must_meet("ok", *LINKS)


@group
def histograms_refused(ours, r, factor, compare):
    """how often each delay occurs, refused: tables with one fault, with a width of 0 too, and a width of 0 for a table without"""
    for damaged in inputs.DAMAGES:
        for _ in range(int(300 * factor)):
            table, length = damaged(r), r.choice([0, 1, 5, 60])
            compare_histogram(ours, r, table, 0, length, compare)
            compare_histogram(ours, r, table, r.choice([1, 2**64 - 1, inputs.any_number(r)]), length, compare)
            compare.same(reference.histogram(*table, 0, length), ("refused", 14, 0), damaged.__name__, table)
    compare.same({"ok", 18} & set(compare.met), set(), "damaged tables that pass")
    compare.must_meet(14)
    for _ in range(int(600 * factor)):
        starts, latencies, h = r.choice([inputs.small_table, inputs.small_table, inputs.middle_table, inputs.large_table])(r)
        table = (*inputs.with_rest(r, starts, latencies), len(starts), h)
        compare_histogram(ours, r, table, 0, r.choice([0, 1, 5, 60, inputs.MOST_ENTRIES]), compare)
        compare.same(reference.histogram(*table, 0, 1), ("refused", 18, 0), "width 0", table)
    compare.must_meet(18)


# ---- Schedules and their files

def told(schedule):
    """What lent lists and counts say, as the header has it: the arguments of the reference's calls on a schedule. A list that does not hold what its
    count says holds nothing."""
    tasks, chains, places = (numbers[:length] for numbers, length in zip((schedule.tasks, schedule.chains, schedule.places), schedule.lengths))
    count = schedule.count if len(tasks) % 4 == 0 and schedule.count <= len(tasks) // 4 else 0
    chain_count = schedule.chain_count if schedule.chain_count <= len(places) else 0
    rows = []
    for c in range(chain_count):
        start, n = proved.ROW * c, places[c]
        rows.append((n, chains[start:start + n]) if start + n <= len(chains) else (0, []))
    return count, [tuple(tasks[i:i + 4]) for i in range(0, len(tasks), 4)], chain_count, rows, schedule.gap


def compare_choosing(ours, schedule, said, numbers, compare):
    """Chains of a schedule by these numbers; `said` is what its lists say."""
    for number in numbers:
        theirs = reference.chain_of_schedule(*said, number)
        compare.meet_call(theirs)
        compare.same(ours.chain_of_schedule(schedule, number), theirs, "chain", schedule, number)


def compare_reading(ours, data, compare, past=b""):
    """One file: its schedule, or its refusal and the place. Of an accepted file what reading left in the arrays is written again, as the same bytes, and a chain
    is chosen from them."""
    mine, theirs = ours.read_file(data, past), reference.read_file(data)
    compare.meet(theirs)
    compare.same(mine, theirs, "reading", data)
    if mine[0] != "ok" or mine != theirs:
        return
    compare.note("with a gap" if theirs[3] else "without a gap")
    schedule = ours.read_as_lent(data, past)[1]
    # Just as many lent bytes, or more, which keep their content.
    rest = b"rest" if schedule.count % 2 else b""
    written = ours.write_file(schedule, bytes(len(data)) + rest)
    compare.same(written, (("ok", len(data)), data + rest), "reading and writing", data)
    # Each of the chains in turn, from file to file.
    number = compare.met["ok"] % len(theirs[2]) + 1
    found = reference.chain_of_schedule(len(theirs[1]), theirs[1], len(theirs[2]), [(len(chain), chain) for chain in theirs[2]], theirs[3], number)
    compare.same(ours.chain_of_schedule(schedule, number), found, "chain", data, number)


@group
def files(ours, r, factor, compare):
    """schedule files: every number of tasks, of chains and of places, with a gap and without"""
    for count in range(1, inputs.MOST_TASKS + 1):
        for chain_count in range(1, inputs.MOST_CHAINS + 1):
            for places in range(1, inputs.MOST_PLACES + 1):
                for _ in range(max(1, int(2 * factor))):
                    sizes = inputs.some_sizes(r, chain_count)
                    sizes[r.randrange(chain_count)] = places
                    (tasks, chains), gap = inputs.schedule(r, count, sizes), inputs.file_gap(r)
                    data = inputs.joined(inputs.records(tasks, chains, gap))
                    compare.same(ours.read_file(data, r.choice([b"", data])), ("ok", tasks, chains, gap), "reading", data)
                    compare_reading(ours, data, compare)
    compare.same({answer for answer in compare.met if isinstance(answer, int)}, set(), "files that are refused")
    compare.must_meet("ok", "with a gap", "without a gap")
    # Every gap there is, and its file.
    for gap in range(inputs.MOST_GAP + 1):
        data = inputs.joined(inputs.records([(7, 4, 4, 0)], [[7, 7]], gap))
        compare.same(ours.read_file(data), ("ok", [(7, 4, 4, 0)], [[7, 7]], gap), "reading", data)


@group
def turns_of_records(ours, r, factor, compare):
    """schedule files: tasks, chains and ends in every turn, up to eight records, so up to six chains; with gaps, up to six; faults in each of one to six chains"""
    for data in inputs.turns(r, (inputs.TASK, inputs.CHAIN, inputs.END), 8):
        compare_reading(ours, data, compare)
    compare.must_meet("ok", 1, 4)
    for data in inputs.turns(r, (inputs.TASK, inputs.CHAIN, inputs.GAP, inputs.END), 6):
        compare_reading(ours, data, compare)
    compare.must_meet("with a gap", 1, 4, 5)
    for chain_count in range(1, 7):
        for _ in range(max(1, int(8 * factor))):
            tasks, chains = inputs.schedule(r, r.choice([1, 2, 5, 32]), inputs.some_sizes(r, chain_count))
            compare_reading(ours, inputs.joined(inputs.records(tasks, chains, inputs.file_gap(r))), compare)
            compare.must_meet("ok" if chain_count <= inputs.MOST_CHAINS else 4)
            for c in range(chain_count):
                for data in inputs.unknown_files(r, tasks, chains, c):
                    compare_reading(ours, data, compare)
        compare.must_meet(2, 6)


@group
def gaps_in_files(ours, r, factor, compare):
    """schedule files: a record of a gap at every turn, of every length around its own, with values that are accepted and others"""
    for _ in range(max(1, int(factor))):
        for data in inputs.gap_files(r):
            compare_reading(ours, data, compare)
    compare.must_meet("with a gap", 1, 2, 4, 5)


@group
def changed_bytes(ours, r, factor, compare):
    """schedule files: every other value of every byte"""
    two = ([(1, 4, 4, 0), (2, 6, 6, 0), (3, 10, 3, 5)], [[1, 2], [3]], 1)
    for tasks, chains, gap in (two, (*inputs.schedule(r, 1, [1, 2, 1, 1]), 0)):
        data = inputs.joined(inputs.records(tasks, chains, gap))
        for i, byte in enumerate(data):
            for other in range(256):
                if other != byte:
                    compare_reading(ours, data[:i] + bytes([other]) + data[i + 1:], compare)
    compare.must_meet("ok", 1, 2, 3, 4, 5, 6, "with a gap", "without a gap")


@group
def cut_files(ours, r, factor, compare):
    """schedule files: cut at every length"""
    for i in range(max(1, int(12 * factor))):
        tasks, chains = inputs.schedule(r, 32, [12] * 4) if i == 0 else inputs.any_schedule(r)
        data = inputs.joined(inputs.records(tasks, chains, inputs.MOST_GAP if i == 0 else inputs.file_gap(r)))
        for n in range(len(data) + 1):
            # The rest lies in memory past the lent bytes: a call that looks there accepts the file.
            compare_reading(ours, data[:n], compare, data[n:])
    compare.must_meet("ok", 1, "with a gap")


@group
def damaged_records(ours, r, factor, compare):
    """schedule files: records doubled, dropped, swapped, inserted, with other lengths and kinds; bytes after the end"""
    for damaged, answers in inputs.RECORD_DAMAGES.items():
        for count, sizes in ((1, [1]), (2, [2, 1]), (3, [5, 1, 2]), (31, [12]), (32, [1, 2, 3, 4])):
            if damaged in (inputs.wrong_lengths, inputs.other_kinds, inputs.inserted) and count > 3:
                # As many files for each record, so of a long file a beginning and an end of few records.
                count = 4
            tasks, chains = inputs.schedule(r, count, sizes)
            # A gap where there is an even number of chains.
            for data in damaged(r, inputs.records(tasks, chains, r.choice(inputs.GAP_VALUES) if len(sizes) % 2 == 0 else 0)):
                compare_reading(ours, data, compare)
        compare.must_meet(*answers)


@group
def faulty_records(ours, r, factor, compare):
    """schedule files: values at and past their limits, unknown tasks, too many tasks, several faults in one record"""
    for count in (1, 2, 3, 8, 32):
        tasks, chains = inputs.schedule(r, count, [r.randint(1, 12)])
        for data in inputs.edge_files(r, tasks, chains, inputs.file_gap(r)):
            compare_reading(ours, data, compare)
    compare.must_meet("ok", 5)
    for places in range(1, inputs.MOST_PLACES + 1):
        for _ in range(max(1, int(5 * factor))):
            for data in inputs.unknown_files(r, *inputs.schedule(r, r.choice([1, 2, 5, 32]), [places]), 0):
                compare_reading(ours, data, compare)
    compare.must_meet(2, 6)
    for count in (33, 33, 33, 34, 40, 64, 200):
        for data in inputs.many_tasks(r, count):
            compare_reading(ours, data, compare)
    compare.must_meet(1, 2, 3, 4, 5)
    for data in inputs.faults_of_order(r):
        compare_reading(ours, data, compare)
    compare.must_meet("ok", 1, 2, 3, 4, 5, 6)


@group
def random_files(ours, r, factor, compare):
    """schedule files: random bytes and random records, up to 5,000 bytes"""
    for _ in range(int(6000 * factor)):
        compare_reading(ours, inputs.random_bytes(r), compare)
    compare.must_meet(1, 2, 3)
    for _ in range(int(6000 * factor)):
        compare_reading(ours, inputs.random_records(r), compare)
    compare.must_meet("ok", 1, 2, 3, 4, 5, 6, "with a gap", "without a gap")


def file_length(count, sizes, gap):
    return 18 * count + 4 * len(sizes) + 2 * sum(sizes) + (6 if gap else 0) + 4


def lent_sizes(r, length):
    """Numbers of lent bytes for a file of this length: as many, more, one too few, none, fewer."""
    return [length, length + 1, length + r.randint(2, 600), length - 1, 0, r.randint(0, length - 1)]


def compare_writing(ours, r, schedule, said, size, compare):
    """One writing into so many lent bytes. What is written is read again, as the same schedule."""
    out = r.randbytes(size)
    mine, theirs = ours.write_file(schedule, out), reference.write_file(*said, out)
    compare.meet_call(theirs[0])
    compare.same(mine, theirs, "writing", schedule, size)
    if mine[0][0] == "ok":
        count, tasks, _, rows, gap = said
        compare.note("with a gap" if gap else "without a gap")
        compare.same(ours.read_file(mine[1][:mine[0][1]]), ("ok", tasks[:count], [numbers for _, numbers in rows], gap), "writing and reading", schedule)


@group
def writing(ours, r, factor, compare):
    """writing schedule files: every number of tasks, of chains and of places, rubbish past them, lent bytes of every size"""
    for count in range(1, inputs.MOST_TASKS + 1):
        for places in range(1, inputs.MOST_PLACES + 1):
            sizes = inputs.some_sizes(r, (count + places) % inputs.MOST_CHAINS + 1)
            sizes[r.randrange(len(sizes))] = places
            gap = inputs.file_gap(r)
            schedule = inputs.lent_schedule(r, *inputs.schedule(r, count, sizes), gap)
            for size in lent_sizes(r, file_length(count, sizes, gap)):
                compare_writing(ours, r, schedule, told(schedule), size, compare)
            # Just as many bytes as it would have without its gap, which are too few with one.
            compare_writing(ours, r, schedule, told(schedule), file_length(count, sizes, 0), compare)
    compare.must_meet("ok", 11, "with a gap", "without a gap")


def other_numbers(chain_count):
    """Numbers of chains that are in no schedule of so many; the last would be right to a call that kept fewer bits."""
    return [0, chain_count + 1, 5, 12, 13, proved.LARGEST, 2**32 + 1, 2**63 + 1]


def compare_refused(ours, r, schedule, size, compare):
    """A schedule that is refused, or hardly not: every call on it gives the same refusal, whatever numbers of chains or tasks and whatever tick or bound it is given."""
    said = told(schedule)
    compare_writing(ours, r, schedule, said, size, compare)
    number, other = r.choice([1, 1, 2, 3, 4, *other_numbers(4)]), r.choice([1, 2, 3, 4, 0, proved.LARGEST])
    compare_choosing(ours, schedule, said, [number], compare)
    t = r.choice([0, 0, inputs.UPPER, inputs.UPPER + 1, r.randint(0, 10**7)])
    fault = reference.schedule_fault(*said)
    # Without a fault the two chains may be any, on which the reference is slow.
    if fault is not None:
        compare.same(ours.bookings(schedule, number, other, t), fault, "bookings", schedule, number, other, t)
        compare.same(ours.smallest_phase(schedule, number, other, t), fault, "phase", schedule, number, other, t)


@group
def schedules(ours, r, factor, compare):
    """schedules of 0 to 6 chains, lent with rubbish past every count: writing, and choosing each chain and others"""
    for i in range(int(1400 * factor)):
        chain_count = i % 7
        sizes = inputs.some_sizes(r, chain_count)
        tasks, chains = inputs.schedule(r, r.choice([1, 2, 3, 5, r.randint(1, 32), 32]), sizes)
        gap = r.choice(inputs.FAULTY_GAPS) if r.random() < 0.1 else inputs.file_gap(r)
        schedule = inputs.lent_schedule(r, tasks, chains, gap)
        said = told(schedule)
        compare_writing(ours, r, schedule, said, r.choice([*lent_sizes(r, file_length(len(tasks), sizes, gap)), 900]), compare)
        compare_choosing(ours, schedule, said, range(1, chain_count + 1), compare)
        compare_choosing(ours, schedule, said, r.sample(other_numbers(chain_count), 3), compare)
        if not 1 <= chain_count <= inputs.MOST_CHAINS:
            compare_refused(ours, r, schedule, r.choice([0, 900]), compare)
    compare.must_meet("ok", OF_GAP, 8, 11, 16, "with a gap", "without a gap")


@group
def schedules_refused(ours, r, factor, compare):
    """schedules refused, by writing, choosing, bookings and phases: counts, tasks, the gap, each chain, several faults"""
    for i in range(max(1, int(9 * factor))):
        sizes = [12] * 4 if i == 0 else inputs.some_sizes(r, i % 4 + 1)
        (tasks, chains), gap = inputs.schedule(r, 32 if i == 0 else r.randint(1, 4), sizes), inputs.file_gap(r)
        schedule, length = inputs.lent_schedule(r, tasks, chains, gap), file_length(len(tasks), sizes, gap)
        count, past = schedule.count, schedule.tasks[4 * len(tasks):]
        for faulty in inputs.faulty_tasks(tasks):
            compare_refused(ours, r, dataclasses.replace(schedule, tasks=inputs.flat(faulty) + past), r.choice(lent_sizes(r, length)), compare)
        compare.must_meet(5)
        # The gap alone, then after a fault of a task and of a count, then before one of a chain.
        for gap in inputs.FAULTY_GAPS:
            compare_refused(ours, r, dataclasses.replace(schedule, gap=gap), r.choice(lent_sizes(r, length)), compare)
        compare.must_meet(OF_GAP)
        for gap in inputs.FAULTY_GAPS:
            compare_refused(ours, r, dataclasses.replace(schedule, gap=gap, tasks=inputs.replaced(schedule.tasks, 4 * r.randrange(count) + 1, 0)), length, compare)
        compare.must_meet(5)
        for gap in inputs.FAULTY_GAPS:
            compare_refused(ours, r, dataclasses.replace(schedule, gap=gap, count=r.choice([0, 33])), length, compare)
        compare.must_meet(8)
        for gap in inputs.FAULTY_GAPS:
            compare_refused(ours, r, dataclasses.replace(schedule, gap=gap, chains=inputs.replaced(schedule.chains, 0, 0)), length, compare)
        compare.must_meet(OF_GAP)
        for c, chain in enumerate(chains):
            for place, number in inputs.faulty_chain(r, tasks, chain, past[::4]):
                strange = inputs.replaced(schedule.chains, proved.ROW * c + place, number)
                compare_refused(ours, r, dataclasses.replace(schedule, chains=strange), r.choice(lent_sizes(r, length)), compare)
            compare.must_meet(6)
        # Lists that hold as many as the counts say, where a list can.
        long = dataclasses.replace(schedule, tasks=inputs.flat((tasks * 40)[:40]), chains=(schedule.chains * 80)[:80], places=[*schedule.places[:len(chains)], 1, 1, 1, 1])
        for other in [0, 33, 34, 40, *[count + many for many in inputs.MANY], proved.LARGEST]:
            compare_refused(ours, r, dataclasses.replace(long, count=other), r.choice([length, 2000]), compare)
        compare.must_meet(8)
        for other in [0, 5, 6, *[len(chains) + many for many in inputs.MANY], proved.LARGEST]:
            compare_refused(ours, r, dataclasses.replace(long, chain_count=other), r.choice([length, 2000]), compare)
        compare.must_meet(8)
        for c in range(len(chains)):
            for other in [0, 13, 14, 40, *[schedule.places[c] + many for many in inputs.MANY], proved.LARGEST]:
                compare_refused(ours, r, dataclasses.replace(long, places=inputs.replaced(long.places, c, other)), r.choice([length, 2000]), compare)
            compare.must_meet(8)
    for _ in range(int(3000 * factor)):
        schedule = inputs.several_faults(r)
        compare_refused(ours, r, schedule, r.choice([0, r.randint(0, 698), 698, 700]), compare)
    compare.must_meet("ok", 8, 5, OF_GAP, 6, 11)


def cut_short(r, schedule):
    """The schedule with each of its lists, and with several, too short for its counts or of no whole tasks: the rest lies in memory past the list, or nothing does."""
    tasks, last = 4 * schedule.count, schedule.chain_count - 1
    least = proved.ROW * last + schedule.places[last]
    for lengths in (
        (tasks - 4, None, None),
        (r.randrange(tasks), None, None),
        (tasks - r.choice([1, 2, 3]), None, None),
        (None, least - 1, None),
        (None, proved.ROW * last, None),
        (None, r.randrange(least), None),
        (None, None, last),
        (None, None, r.randrange(last + 1)),
        (0, None, None),
        (None, 0, None),
        (None, None, 0),
        (tasks - 1, least - 1, last),
        (0, 0, 0),
    ):
        behind = dataclasses.replace(schedule, lengths=lengths)
        yield behind
        yield dataclasses.replace(schedule, tasks=schedule.tasks[:lengths[0]], chains=schedule.chains[:lengths[1]], places=schedule.places[:lengths[2]])
    # One to three numbers more than whole tasks.
    yield dataclasses.replace(schedule, tasks=schedule.tasks + [r.randint(1, 9) for _ in range(r.choice([1, 2, 3, 5]))])


def just_held(r, schedule):
    """The schedule in lists that just hold it, in memory that goes on or not, and in longer ones."""
    tasks, last = 4 * schedule.count, schedule.chain_count - 1
    least = proved.ROW * last + schedule.places[last]
    yield dataclasses.replace(schedule, lengths=(tasks, least, last + 1))
    yield dataclasses.replace(schedule, tasks=schedule.tasks[:tasks], chains=schedule.chains[:least], places=schedule.places[:last + 1])
    yield dataclasses.replace(schedule, chains=schedule.chains + [inputs.any_number(r) for _ in range(r.randint(1, 60))], places=schedule.places + [inputs.any_number(r)] * r.randint(1, 9))


@group
def lists_of_schedules(ours, r, factor, compare):
    """lists that do not hold the counted tasks, chains or places, and such as just hold them"""
    eight = ("refused", 8, 0)
    for _ in range(int(200 * factor)):
        tasks, chains = inputs.any_schedule(r)
        schedule, out = inputs.lent_schedule(r, tasks, chains, inputs.file_gap(r)), r.randbytes(r.choice([0, 700]))
        for short in cut_short(r, schedule):
            # 8 comes before a fault of the gap.
            short = dataclasses.replace(short, gap=r.choice([schedule.gap, r.choice(inputs.FAULTY_GAPS)]))
            compare.same(reference.schedule_fault(*told(short)), eight, "lists", short)
            compare.same(ours.write_file(short, out), (eight, out), "lists", short)
            number = r.choice([1, len(chains), 0, proved.LARGEST])
            compare.same(ours.chain_of_schedule(short, number), eight, "chain of lists", short, number)
            compare.same(ours.bookings(short, number, 1, 0), eight, "bookings of lists", short, number)
            compare.same(ours.smallest_phase(short, number, 1, 0), eight, "phase of lists", short, number)
        for held in just_held(r, schedule):
            compare.same(reference.schedule_fault(*told(held)), None, "lists", held)
            compare_writing(ours, r, held, told(held), 700, compare)
            compare_choosing(ours, held, told(held), range(len(chains) + 2), compare)
    compare.must_meet("ok", 16)


# ---- Analyses from a schedule

def analysed(ours, schedule, number, call, *arguments):
    """An analysis of a chain of a schedule as C has it: the chain is chosen, and the call on chains takes what was given, and the schedule's gap."""
    given = ours.chain_of_schedule(schedule, number)
    if given[0] != "ok":
        return given
    numbers = inputs.flat(given[1])
    return call(numbers + [0] * (36 - len(numbers)), len(given[1]), schedule.gap, *arguments)


def analysed_chains(r):
    """One to four chains that the reference is quick on, sometimes one of them with a hyperperiod above the limit; and their schedule."""
    chains = [inputs.cut_chain(r)[:8] for _ in range(r.randint(1, inputs.MOST_CHAINS))]
    if r.random() < 0.2:
        chains[r.randrange(len(chains))] = [(999983, 1, 0), (999979, 5, 3)]
    gap = inputs.some_gap(r, *chains)
    if gap and r.random() < 0.3:
        chains = [inputs.tightened(r, chain, gap) for chain in chains]
    return chains, inputs.lent_schedule(r, *inputs.numbered(r, chains), gap)


def compare_analyses(ours, r, schedule, number, tasks, compare):
    """Every analysis of one chain of a schedule; `tasks` are those of the chain where the number is one."""
    said = *told(schedule), number
    warm = reference.warm_up_of(*said)
    compare.meet_call(warm)
    note_links(tasks, schedule.gap, warm, compare)
    compare.same(analysed(ours, schedule, number, ours.warm_up), warm, "warm-up", schedule, number)
    x0, h = warm[2:] if warm[0] == "ok" else (0, 12)
    for t in inputs.ticks_around(r, [x0, x0 + h], 4):
        compare.same(analysed(ours, schedule, number, ours.delay, t), reference.delay_of(*said, t), "delay", schedule, number, t)
        compare.same(analysed(ours, schedule, number, ours.age, t), reference.age_of(*said, t), "age", schedule, number, t)
    b, k = r.choice(window_bounds(r, tasks, schedule.gap, warm)), r.choice([0, 1, 2, r.randint(3, 100), 101])
    compare.same(analysed(ours, schedule, number, ours.windows, b, k), reference.windows_of(*said, b, k), "windows", schedule, number, b, k)
    cuts = r.choice([inputs.some_cuts(r, len(tasks)), r.choice(inputs.faulty_cuts(r, len(tasks)))])
    mine, theirs = analysed(ours, schedule, number, ours.sections, cuts), reference.sections_of(*said, cuts)
    compare.same(mine, theirs, "sections", schedule, number, cuts)
    compare.meet_call(theirs)
    p, size = r.randint(0, len(tasks) + 1), r.choice([0, 1, 3, 60, 60])
    starts, latencies = inputs.lent_lists(r, size, size)
    mine = analysed(ours, schedule, number, ours.make, p, starts, latencies)
    theirs = reference.make_of(*said, p, starts, latencies)
    # A chain that is not chosen leaves no list to look at.
    compare.same(mine, theirs if warm[0] == "ok" or warm[1] == 7 else theirs[0], "making", schedule, number, p)
    if mine[0][0] == "ok":
        _, g, x0, h, _ = mine[0]
        table = proved.Table(*mine[1:], g, h)
        for t in (x0, x0 + r.randrange(h), r.randint(x0, inputs.UPPER), inputs.UPPER):
            compare.same(ours.read_table(table, t), analysed(ours, schedule, number, ours.delay, t), "table and walk", schedule, number, t)


@group
def chosen_chains(ours, r, factor, compare):
    """analyses from a schedule: warm-up, delay, age, windows, sections and making of each chain, and of numbers that no chain has"""
    for i in range(int(400 * factor)):
        chains, schedule = analysed_chains(r)
        for number, tasks in enumerate(chains, start=1):
            compare_analyses(ours, r, schedule, number, tasks, compare)
        compare_analyses(ours, r, schedule, r.choice(other_numbers(len(chains))), chains[0], compare)
        if i % 4 == 0:
            # A fault in any task, in any chain or of the gap is one of every chain.
            c = r.randrange(len(chains))
            faulty = r.choice([
                dataclasses.replace(schedule, tasks=inputs.replaced(schedule.tasks, 4 * r.randrange(schedule.count) + 1, 0)),
                dataclasses.replace(schedule, chains=inputs.replaced(schedule.chains, proved.ROW * c, 0)),
                dataclasses.replace(schedule, places=inputs.replaced(schedule.places, c, 13)),
                dataclasses.replace(schedule, gap=r.choice(inputs.FAULTY_GAPS)),
            ])
            compare_analyses(ours, r, faulty, r.choice([1, len(chains), 0, 9]), chains[0], compare)
    compare.must_meet("ok", 5, OF_GAP, 6, 7, 8, 16, 17, *LINKS)


# ---- Two chains side by side

def compare_bookings(ours, schedule, first, second, t, compare):
    """One press and two chains of a schedule: its figures, also as those of the two delays, and the same with the numbers changed about."""
    theirs = reference.bookings_of(*told(schedule), first, second, t)
    compare.meet_call(theirs)
    mine = ours.bookings(schedule, first, second, t)
    compare.same(mine, theirs, "bookings", schedule, first, second, t)
    if mine[0] == "ok":
        delays = [analysed(ours, schedule, number, ours.delay, t)[1] for number in (first, second)]
        compare.same(mine[1:4], (t + max(delays), t + min(delays), max(delays) - min(delays)), "bookings and delays", schedule, first, second, t)
    return mine


def compare_pair(ours, r, schedule, first, second, count, compare):
    """Two chains that are accepted, at so many ticks around their warm-ups and the upper tick."""
    said = told(schedule)
    one, two = reference.warm_up_of(*said, first), reference.warm_up_of(*said, second)
    compare.same((one[0], two[0]), ("ok", "ok"), "accepted chains", schedule, first, second)
    if "refused" in (one[0], two[0]):
        return 0, 1
    for number, warm in ((first, one), (second, two)):
        note_links(reference.chain_of_schedule(*said, number)[1], schedule.gap, warm, compare)
    common = math.lcm(one[3], two[3])
    for t in inputs.pair_ticks(r, (one[2], two[2]), common, count):
        compare_bookings(ours, schedule, first, second, t, compare)
    return max(one[2], two[2]), common


@group
def bookings(ours, r, factor, compare):
    """bookings of two chains: common hyperperiods that are enumerated tick by tick"""
    for i in range(int(500 * factor)):
        common = r.choice([1, 2, 6, 12, 12, 24, 30, 60, 60, 84, 120, 180])
        chains = [inputs.small_pair_chain(r, common) for _ in range(r.choice([1, 2, 2, 3, 4]))]
        chains = [chain[:32 // len(chains)] for chain in chains]
        gap = inputs.some_gap(r, *chains)
        if gap and r.random() < 0.3:
            chains = [inputs.tightened(r, chain, gap) for chain in chains]
        schedule = inputs.lent_schedule(r, *inputs.numbered(r, chains), gap)
        first, second = r.randint(1, len(chains)), r.randint(1, len(chains))
        warm, common = compare_pair(ours, r, schedule, first, second, 8, compare)
        here = ours.bookings(schedule, first, second, warm)
        compare.same(ours.bookings(schedule, second, first, warm), here, "bookings, the numbers changed about", schedule, first, second)
        if first == second:
            compare.same(here[3:], (0, 0), "one chain twice", schedule, first)
        if i % 10 == 0:
            # The greatest difference is that of some press of one common hyperperiod, and no press of the next one has more.
            apart = [ours.bookings(schedule, first, second, t)[3:4] for t in range(warm, warm + 2 * common)]
            compare.same((max(apart[:common]), max(apart)), (here[4:], here[4:]), "greatest difference", schedule, first, second)
    compare.must_meet("ok", 12, 13, *LINKS)


def quick_pair(one, two):
    """Whether reference and program are both quick on two chains of (T, D, F)."""
    longest = [max(t for t, _, _ in chain) for chain in (one, two)]
    common = math.lcm(*[t for t, _, _ in one + two])
    return common // min(longest) <= 100000 and (common // max(longest) <= 200 or common <= 1000)


@group
def wide_bookings(ours, r, factor, compare):
    """bookings of two chains: long periods, durations and phases; common hyperperiods around those that are enumerated and at and above 60,000,000"""
    made = 0
    while made < int(120 * factor):
        one, two = inputs.wide_pair_chain(r), inputs.wide_pair_chain(r)
        if quick_pair(one, two):
            made += 1
            gap = inputs.some_gap(r, one, two)
            if gap and made % 2:
                one, two = inputs.tightened(r, one, gap), inputs.tightened(r, two, gap)
            schedule = inputs.lent_schedule(r, *inputs.numbered(r, [one, two]), gap)
            compare_pair(ours, r, schedule, *r.choice([(1, 2), (2, 1)]), 6, compare)
    compare.must_meet("ok", 12, 13, *LINKS)
    for common in (19998, 20000, 20002):
        one, two = ([(d, r.randint(1, 3 * d), r.randint(0, 3 * d)) for d in (r.choice([2, common // 2]), r.choice([1, common]))] for _ in range(2))
        schedule = inputs.lent_schedule(r, *inputs.numbered(r, [one, [(common, 5, r.randint(0, 99))] + two]), inputs.some_gap(r, one))
        compare_pair(ours, r, schedule, 1, 2, 5, compare)
    found = set()
    for periods in inputs.COMMON * max(1, int(2 * factor)):
        one, two = inputs.common_pair(r, periods)
        schedule = inputs.lent_schedule(r, *inputs.numbered(r, [one, two]), inputs.some_gap(r, one, two))
        found.add(compare_pair(ours, r, schedule, 1, 2, 4, compare)[1] - inputs.MOST_HYPER)
    compare.must_meet("ok", 7)
    compare.same((0 in found, min(found) < 0 < max(found)), (True, True), "common hyperperiods at the limit, below and above")


@group
def bookings_refused(ours, r, factor, compare):
    """bookings refused: every two of numbers in the schedule and not, faults of the schedule, of either chain and of both, ticks too early and too late"""
    # Accepted; above the limit alone; above it beside the first; accepted, from tick 63 on, where the gap is at most 3.
    chains = [[(7, 1, 3)], [(999983, 1, 0), (999979, 1, 0)], [(768, 1, 0), (78125, 1, 0)], [(7, 2, 0), (7, 1, 68)]]
    for _ in range(max(1, int(2 * factor))):
        schedule = inputs.lent_schedule(r, *inputs.numbered(r, chains), r.choice([0, 1, 3]))
        beyond = r.choice(inputs.FAULTY_GAPS)
        faulty = [
            schedule,
            dataclasses.replace(schedule, count=0),
            dataclasses.replace(schedule, chain_count=5),
            dataclasses.replace(schedule, places=inputs.replaced(schedule.places, 3, 13)),
            dataclasses.replace(schedule, tasks=inputs.replaced(schedule.tasks, 4 * schedule.count - 2, 0)),
            dataclasses.replace(schedule, chains=inputs.replaced(schedule.chains, 36, 0)),
            dataclasses.replace(schedule, tasks=inputs.replaced(schedule.tasks, 1, 0), chains=inputs.replaced(schedule.chains, 0, 0)),
            dataclasses.replace(schedule, chain_count=0, tasks=inputs.replaced(schedule.tasks, 1, 0)),
            dataclasses.replace(schedule, gap=beyond),
            dataclasses.replace(schedule, gap=beyond, chains=inputs.replaced(schedule.chains, 36, 0)),
            dataclasses.replace(schedule, gap=beyond, tasks=inputs.replaced(schedule.tasks, 4 * schedule.count - 2, 0)),
            dataclasses.replace(schedule, gap=4),
        ]
        numbers = [0, 1, 2, 3, 4, 5, proved.LARGEST]
        for lent, first, second in itertools.product(faulty, numbers, numbers):
            for t in r.sample([0, 2, 3, 62, 63, inputs.UPPER, inputs.UPPER + 1, proved.LARGEST], 4):
                compare_bookings(ours, lent, first, second, t, compare)
        compare.must_meet("ok", 5, OF_GAP, 6, 7, 8, 12, 13, 16)


# ---- A phase that keeps a bound

def moved(schedule, number, phase):
    """The schedule with another phase of the task with that number."""
    at = next(i for i in range(schedule.count) if schedule.tasks[4 * i] == number)
    return dataclasses.replace(schedule, tasks=inputs.replaced(schedule.tasks, 4 * at + 3, phase))


def compare_phase(ours, schedule, chain, number, bound, theirs, compare):
    """One answer, which is this one of the reference."""
    compare.same(ours.smallest_phase(schedule, chain, number, bound), theirs, "phase", schedule, chain, number, bound)
    compare.meet_call(theirs)
    if theirs[0] == "ok":
        compare.note("none" if theirs[1] is None else "a later phase" if theirs[1] else "phase 0")


def compare_phases(ours, r, schedule, chain, number, most, compare):
    """A task of a chain with many bounds. From the latencies with each phase the answers to all of them are told; to some the reference searches itself. Each phase of today has the same answers."""
    said = *told(schedule), chain, number
    listed = reference.latency_at_phases_of(*said)
    if listed[0] != "ok":
        for bound in (0, inputs.any_number(r), proved.LARGEST):
            compare_phase(ours, schedule, chain, number, bound, listed, compare)
            compare.same(reference.smallest_phase_of(*said, bound), listed, "refusal", schedule, chain, number, bound)
        return
    latencies = listed[1]
    period, bounds = len(latencies), inputs.phase_bounds(r, latencies, most)
    searched = set(r.sample(bounds, 2))
    for bound in bounds:
        phase = next((phase for phase, latency in enumerate(latencies) if latency <= bound), None)
        if bound in searched:
            compare.same(reference.smallest_phase_of(*said, bound), ("ok", phase), "search", schedule, chain, number, bound)
        today = moved(schedule, number, r.choice([0, period, r.randrange(period), r.randint(0, inputs.MOST_PHASE), inputs.MOST_PHASE])) if r.random() < 0.3 else schedule
        compare_phase(ours, today, chain, number, bound, ("ok", phase), compare)
        if phase and phase == period - 1:
            compare.note("the last phase")
    # The schedule with one of the phases, and with one from the period on, which is as its remainder.
    phase = r.randrange(period)
    for other in (phase, phase + period * r.randint(1, (inputs.MOST_PHASE - phase) // period)):
        answer = analysed(ours, moved(schedule, number, other), chain, ours.sections, [])
        compare.same(answer[::2], ("ok", latencies[phase]), "latency with a phase", schedule, chain, number, other)
    if min(latencies) < max(latencies):
        compare.note("hangs on the phase")
    numbers = schedule.chain_list()[chain - 1]
    if 1 < numbers.count(number):
        compare.note("all places" if len(set(numbers)) == 1 else "several places")
    task = next(task[1:] for task in schedule.task_list() if task.number == number)
    if any(other.number != number and other[1:] == task for other in schedule.task_list() if other.number in numbers):
        compare.note("another task alike")
    if task[-1] >= period:
        compare.note("today from the period on")


PHASES = ("phase 0", "a later phase", "the last phase", "none", "hangs on the phase", "all places", "several places", "another task alike", "today from the period on")


@group
def phases(ours, r, factor, compare):
    """a phase that keeps a bound: bounds around the latencies of every phase, of each task of a chain; chains that are warm late, long walks, the longest period"""
    for _ in range(int(650 * factor)):
        tasks, chains, gap = inputs.phase_schedule(r, 240)
        schedule = inputs.lent_schedule(r, tasks, chains, gap)
        chain = r.randint(1, len(chains))
        timed = [next(task[1:] for task in tasks if task[0] == number) for number in chains[chain - 1]]
        note_links(timed, gap, reference.warm_up(timed, gap), compare)
        for number in sorted(set(chains[chain - 1])):
            compare_phases(ours, r, schedule, chain, number, 5, compare)
    compare.must_meet("ok", 20, *PHASES, *LINKS)
    # Chains of the other groups, with the tasks of short periods.
    for _ in range(int(150 * factor)):
        chains, schedule = analysed_chains(r)
        for chain, numbers in enumerate(schedule.chain_list(), start=1):
            if inputs.phase_work(chains[chain - 1]) <= 240:
                compare_phases(ours, r, schedule, chain, r.choice(numbers), 3, compare)
    compare.must_meet("ok", 7, 20, "phase 0", "a later phase", "none")
    for i in range(max(10, int(40 * factor))):
        gap = r.choice([0, 1, inputs.MOST_GAP, r.randint(0, inputs.MOST_GAP)])
        timed = inputs.late_chain(r, gap) if i % 4 else inputs.long_walk_chain(r)
        tasks = [(number, *task) for number, task in zip(inputs.rising(r, len(timed)), timed)]
        schedule = inputs.lent_schedule(r, tasks, [[number for number, _, _, _ in tasks]], gap)
        compare_phases(ours, r, schedule, 1, min(tasks, key=lambda task: task[1])[0], 8, compare)
    compare.must_meet("ok", "phase 0", "a later phase", "none", "hangs on the phase")
    # Two tasks of the longest period that is searched; with the last phase of the first no value waits, so that every phase is the answer to a bound.
    t, d, gap = inputs.MOST_SEARCHED, r.randint(1, 4000000), r.randint(0, inputs.MOST_GAP)
    schedule = inputs.lent_schedule(r, [(3, t, d, 0), (4, t, r.randint(1, 4000000), (d + gap - 1) % t + t * r.randrange(99))], [[3, 4]], gap)
    latencies = reference.latency_at_phases_of(*told(schedule), 1, 3)[1]
    least = min(latencies)
    compare.same(latencies, list(range(least + t - 1, least - 1, -1)), "phase by phase", schedule)
    for step in (-1, 0, 1, t - 2, t - 1, t, *(r.randrange(t) for _ in range(20))):
        compare_phase(ours, schedule, 1, 3, least + step, ("ok", None if step < 0 else max(0, t - 1 - step)), compare)


@group
def phases_refused(ours, r, factor, compare):
    """a phase that keeps a bound, refused: chain numbers and task numbers in the schedule and not, faults of the schedule and of the chain, and what is just within the limits"""
    # With a period just too long; with a hyperperiod that is too long; with short periods alone, one task at two places; with a hyperperiod at its limit and a period just not too long.
    chains = [[(10001, 1, 3), (4, 1, 0)], [(999983, 1, 0), (61, 1, 0), (999979, 1, 0)], [(6, 7, 0), (6, 7, 1), (4, 1, 0), (6, 7, 0)], [(768, 1, 0), (78125, 1, 0), (10000, 2, 0)]]
    for _ in range(max(1, int(3 * factor))):
        schedule = inputs.lent_schedule(r, *inputs.numbered(r, chains), r.choice([0, 1, 3]))
        beyond, number = r.choice(inputs.FAULTY_GAPS), r.choice(schedule.chains[24:28])
        at = schedule.tasks[:4 * schedule.count:4].index(number)
        faulty = [
            schedule,
            dataclasses.replace(schedule, gap=inputs.MOST_GAP),
            moved(schedule, number, inputs.MOST_PHASE),
            moved(schedule, number, inputs.MOST_PHASE + 1),
            dataclasses.replace(schedule, count=0),
            dataclasses.replace(schedule, chains=(schedule.chains[:39] * 2)[:61], places=[*schedule.places[:4], 1], chain_count=5),
            dataclasses.replace(schedule, places=inputs.replaced(schedule.places, 3, 13)),
            dataclasses.replace(schedule, lengths=(4 * schedule.count - 1, None, None)),
            dataclasses.replace(schedule, tasks=schedule.tasks + [1]),
            dataclasses.replace(schedule, tasks=(schedule.tasks * 33)[:132], count=33),
            dataclasses.replace(schedule, lengths=(None, 38, None)),
            dataclasses.replace(schedule, lengths=(None, None, 3)),
            dataclasses.replace(schedule, tasks=inputs.replaced(schedule.tasks, 4 * at + 1, 0)),
            dataclasses.replace(schedule, tasks=inputs.replaced(schedule.tasks, 4 * schedule.count - 2, 0)),
            dataclasses.replace(schedule, chains=inputs.replaced(schedule.chains, 36, 0)),
            dataclasses.replace(schedule, tasks=inputs.replaced(schedule.tasks, 1, 0), chains=inputs.replaced(schedule.chains, 0, 0)),
            dataclasses.replace(schedule, chain_count=0, tasks=inputs.replaced(schedule.tasks, 1, 0)),
            dataclasses.replace(schedule, gap=inputs.MOST_GAP + 1),
            dataclasses.replace(schedule, gap=beyond),
            dataclasses.replace(schedule, gap=beyond, chains=inputs.replaced(schedule.chains, 36, 0)),
            dataclasses.replace(schedule, gap=beyond, tasks=inputs.replaced(schedule.tasks, 4 * schedule.count - 2, 0)),
        ]
        known = schedule.tasks[:4 * schedule.count:4]
        numbers = [*known, 0, inputs.unknown(r, schedule.task_list()), inputs.MOST_NUMBER + 1, proved.LARGEST, *(number + many for many in inputs.MANY)]
        for lent, chain, asked in itertools.product(faulty, [0, 1, 2, 3, 4, 5, 2**32 + 1, proved.LARGEST], numbers):
            # Bounds that phase 0 keeps where a period is long, on which the reference is slow.
            bound = r.choice([proved.LARGEST, 2**32, 2**63, r.randint(10**8, 2**63)] if chain in (1, 4) else [0, *range(34, 46), 2**32 + 34, inputs.any_number(r)])
            compare_phase(ours, lent, chain, asked, bound, reference.smallest_phase_of(*told(lent), chain, asked, bound), compare)
        compare.must_meet("ok", "phase 0", 5, OF_GAP, 6, 7, 8, 16, 19, 20)
    # Periods and hyperperiods around their limits.
    for periods in ((10000, 3), (10001, 3), (10002, 6), (768, 78125), (769, 78125), (151, 397351), (1000000, 60), (1000000, 61)):
        schedule = inputs.lent_schedule(r, [(7, periods[0], 1, 0), (8, periods[1], 2, 5)], [[7, 8]], 0)
        for number, bound in itertools.product((7, 8, 9), (0, proved.LARGEST)):
            compare_phase(ours, schedule, 1, number, bound, reference.smallest_phase_of(*told(schedule), 1, number, bound), compare)
    compare.must_meet("phase 0", "none", 7, 19, 20)


# ---- Test loads

def compare_load(ours, seed, places, compare):
    """One load, which is the reference's. Counts its periods, the numbers at the ends of the periods, and the phases at their ends."""
    mine, theirs = ours.load(seed, places), reference.load(seed, places)
    compare.same(mine, theirs, "load", seed, places)
    compare.meet(theirs)
    for place, (t, _, f) in enumerate(theirs[1] if theirs[0] == "ok" else (), start=1):
        number = inputs.drawn(seed, 2 * place - 1) % 97
        compare.note(f"period {t}")
        if number in inputs.LOAD_ENDS:
            compare.note(f"number {number}")
        if f in (0, t - 1):
            compare.note(f"phase {f} of {t}")
    return mine


LOAD_PERIODS = sorted(set(inputs.LOAD_ENDS.values()))


@group
def loads(ours, r, factor, compare):
    """test loads: seeds at the ends of 64 bits and others, every number of places and numbers that are none; each number and phase at an end of its range, at each place"""
    for seed in inputs.edge_seeds():
        for places in (1, 12, r.randint(2, 11), r.choice(inputs.NO_PLACES)):
            compare_load(ours, seed, places, compare)
    for seed in (0, 1, 2**63, proved.LARGEST, inputs.any_seed(r)):
        for places in [*range(15), *inputs.NO_PLACES]:
            compare_load(ours, seed, places, compare)
    compare.must_meet("ok", 8)
    for _ in range(int(5000 * factor)):
        seed = inputs.any_seed(r)
        whole, front = compare_load(ours, seed, 12, compare), compare_load(ours, seed, r.randint(1, 11), compare)
        # Fewer places are the front of more.
        compare.same(front, (*whole[:1], whole[1][:len(front[1])], *whole[2:]) if "ok" == front[0] == whole[0] else None, "front", seed)
        compare_load(ours, seed, r.choice([*inputs.NO_PLACES, r.randint(13, proved.LARGEST)]), compare)
    compare.must_meet("ok", 8, *(f"period {t}" for t in LOAD_PERIODS))
    for place, (number, period) in itertools.product(range(1, 13), inputs.LOAD_ENDS.items()):
        for _ in range(max(1, int(5 * factor))):
            seed = inputs.seed_of_number(r, place, number)
            mine = compare_load(ours, seed, place, compare)
            compare.same(mine[0] == "ok" and mine[1][-1][:2], (period, period), "number", number, seed, place)
    compare.must_meet("ok", *(f"number {number}" for number in inputs.LOAD_ENDS))
    for place, period in itertools.product(range(1, 13), LOAD_PERIODS):
        for phase in (0, 1, period // 2, period - 2, period - 1):
            seed = inputs.seed_of_phase(r, place, period, phase)
            mine = compare_load(ours, seed, place, compare)
            compare.same(mine[0] == "ok" and mine[1][-1], (period, period, phase), "phase", seed, place)
    compare.must_meet("ok", *(f"phase {phase} of {t}" for t in LOAD_PERIODS for phase in (0, t - 1)))


@group
def load_chains(ours, r, factor, compare):
    """test loads as chains: checks, a table in lists of one entry at every cut, its figures, delay, age, windows, sections and the file"""
    ends = list(inputs.LOAD_ENDS)
    for i in range(max(44, int(440 * factor))):
        # One place has its one period as the longest; in turn each of the periods comes to that.
        places = 1 if i % 4 == 0 else r.randint(2, 12)
        seed = inputs.seed_of_number(r, 1, ends[i % len(ends)])
        tasks = reference.load(seed, places)[1]
        compare.same(ours.load(seed, places), ("ok", tasks, 0), "load", seed, places)
        numbers, longest_one = lent(r, tasks), max(t for t, _, _ in tasks)
        compare.note(longest(t for t, _, _ in tasks))
        compare.same(ours.check(numbers, places, 0), ("ok", longest_one), "check", seed, places)
        compare.same(80000 % longest_one, 0, "divides 80,000", seed, places)
        warm = reference.warm_up(tasks, 0)
        compare.same(ours.warm_up(numbers, places, 0), warm, "warm-up", seed, places)
        for p in range(1, places + 1):
            (answer, starts, latencies) = compare_making(ours, r, tasks, 0, numbers, p, (1, 1), compare)
            compare.same(answer, ("ok", 1, warm[2], longest_one, longest_one // tasks[p - 1][0]), "one anchor", seed, places, p)
        table = (starts, latencies, 1, longest_one)
        compare_figures(ours, proved.Table(*table), table, compare)
        for t in inputs.ticks_around(r, [warm[2], warm[2] + longest_one], 6):
            compare.same(ours.delay(numbers, places, 0, t), reference.delay(tasks, 0, t), "delay", seed, places, t)
            compare.same(ours.age(numbers, places, 0, t), reference.age(tasks, 0, t), "age", seed, places, t)
            compare.same(ours.read_table(proved.Table(*table), t), ours.delay(numbers, places, 0, t), "table and walk", seed, places, t)
        compare_windows(ours, numbers, tasks, 0, r.choice(window_bounds(r, tasks, 0, warm)), r.choice([1, 2, 100]), compare)
        compare_sections(ours, numbers, tasks, 0, inputs.some_cuts(r, places), compare)
        # The file, whose tasks are numbered from 1 and whose chain has them in that order: by the reference, by hand and by the call.
        numbered, chain = [(n, *task) for n, task in enumerate(tasks, start=1)], list(range(1, places + 1))
        data = reference.load_file(seed, places)[1]
        compare.same(data, inputs.joined(inputs.records(numbered, [chain], 0)), "file", seed, places)
        compare.same(ours.write_file(inputs.lent_schedule(r, numbered, [chain], 0), bytes(len(data))), (("ok", len(data)), data), "writing", seed, places)
        compare_reading(ours, data, compare)
    compare.must_meet("ok", *(longest([t]) for t in LOAD_PERIODS))


def outcome(job):
    """What one group found: comparisons, disagreements, the first few of them, the answers met, and its time. It runs in a process of its own."""
    at, seed, count = job
    run, compare, began = GROUPS[at], Comparison(), time.time()
    run(proved, random.Random(f"{seed} {run.__name__}"), count, compare)
    return compare.made, len(compare.wrong), compare.wrong[:5], compare.met, time.time() - began


def main():
    parser = argparse.ArgumentParser()
    parser.add_argument("--count", type=float, default=1.0, help="how much longer than usual")
    parser.add_argument("--seed", type=int, default=20261115)
    chosen = parser.parse_args()
    proved.build()
    print(f"differential test, seed {chosen.seed}, count {chosen.count}", flush=True)
    passed = failed = 0
    with multiprocessing.get_context("fork").Pool() as pool:
        found = pool.imap(outcome, [(at, chosen.seed, chosen.count) for at in range(len(GROUPS))], chunksize=1)
        for run, (made, wrong, first, met, took) in zip(GROUPS, found):
            print(f"{run.__doc__.strip()}: {made} comparisons, {wrong} disagree ({took:.1f} s)")
            if met:
                print("  met: " + ", ".join(f"{answer} {times}" for answer, times in sorted(met.items(), key=str)))
            for about, mine, other in first:
                print(f"  {about}: the program says {mine}, the reference {other}")
            # A group that compares nothing shows nothing.
            if wrong == 0 and made > 0:
                passed += 1
            else:
                failed += 1
    print(f"{passed} passed, {failed} failed")
    sys.exit(0 if failed == 0 else 1)


if __name__ == "__main__":
    main()
