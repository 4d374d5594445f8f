"""Self test of the Meshorchard reference program.

Run: python3 reference/selftest.py
It prints one line for each group and last `N passed, M failed`.
Each check compares two things that are computed independently: a printed
figure of document 01 or 02 with a computed one, a figure had by hand with a
computed one, or two different methods.
"""

import itertools
import math
import random
import re
import sys
from fractions import Fraction

sys.dont_write_bytecode = True

import meshorchard_reference as ref  # noqa: E402

SEED = 20240611
UPPER = 1_000_000_000_000


# ---------------------------------------------------------------------------
# Counting
# ---------------------------------------------------------------------------

class Counter:
    """Counts checks of the group that runs, and groups without a failure."""

    def __init__(self):
        self.passed = 0
        self.failed = 0
        self.group_passed = 0
        self.group_failed = 0
        self.shown = 0

    def begin(self):
        self.group_passed = 0
        self.group_failed = 0
        self.shown = 0

    def finish(self, name):
        print("%-44s %8d checks hold, %d fail"
              % (name, self.group_passed, self.group_failed), flush=True)
        # A group without a check shows nothing, so it counts as failed.
        if self.group_failed == 0 and self.group_passed > 0:
            self.passed += 1
        else:
            self.failed += 1

    def same(self, found, expected, what):
        """One check: found equals expected."""
        if found == expected and type(found) is type(expected):
            self.group_passed += 1
            return
        self.group_failed += 1
        # Only the first failures of a group are shown.
        if self.shown < 5:
            self.shown += 1
            print("  FAILED %s: found %r, expected %r"
                  % (what, found, expected))


COUNT = Counter()
same = COUNT.same


# ---------------------------------------------------------------------------
# Literal definitions: every search begins at job 0, nothing is divided
# ---------------------------------------------------------------------------

def literal_earliest(task, tick):
    """The earliest job that reads at or after the tick."""
    T, _D, F = task
    for job in itertools.count():
        if F + job * T >= tick:
            return job


def literal_strictly_after(task, tick):
    """The earliest job that reads strictly after the tick."""
    T, _D, F = task
    for job in itertools.count():
        if F + job * T > tick:
            return job


def literal_latest(task, gap, tick):
    """The latest job with write + gap at or before the tick, or None."""
    T, D, F = task
    latest = None
    for job in itertools.count():
        if F + job * T + D + gap > tick:
            return latest
        latest = job


def literal_forward_end(tasks, gap, job):
    """The last write of the forward way from a job of the first place.

    Each link has the gap, the last write has none.
    """
    T, D, F = tasks[0]
    write = F + job * T + D
    for T, D, F in tasks[1:]:
        write = F + literal_earliest((T, D, F), write + gap) * T + D
    return write


def literal_backward_way(tasks, gap, job):
    """The jobs at all places on the backward way from the last place."""
    way = [job]
    for index in range(len(tasks) - 1, 0, -1):
        T, _D, F = tasks[index]
        job = literal_latest(tasks[index - 1], gap, F + job * T)
        if job is None:
            return None
        way.insert(0, job)
    return way


def literal_warm_up(tasks, gap):
    """W1 to Wn by trying the last place's jobs from 0 upward."""
    for job in itertools.count():
        way = literal_backward_way(tasks, gap, job)
        if way is not None:
            return way


def literal_booking(tasks, gap, t):
    """The last write of the forward walk of a press at t."""
    return literal_forward_end(tasks, gap,
                               literal_strictly_after(tasks[0], t))


def literal_delay(tasks, gap, t):
    """The delay at t by literal searches."""
    return literal_booking(tasks, gap, t) - t


def literal_age(tasks, gap, z):
    """The age at z by literal searches.  The last write has no gap."""
    job = literal_latest(tasks[-1], 0, z)
    first = literal_backward_way(tasks, gap, job)[0]
    return z - (tasks[0][2] + first * tasks[0][0])


def literal_hyperperiod(tasks):
    """The first multiple of the first period that all periods divide."""
    step = tasks[0][0]
    H = step
    while any(H % T for T, _D, _F in tasks):
        H += step
    return H


def anchors_from_delays(delays, x0):
    """Anchors had from delays only, without any partition.

    Between anchors tick + delay stays the same.  It jumps at an anchor.
    """
    found = []
    end = None
    for offset, one in enumerate(delays):
        tick = x0 + offset
        if tick + one != end:
            end = tick + one
            found.append((tick, one))
    return found


def area_below(pieces, end):
    """The exact area below the delay, from the first start to the end.

    A piece is (start, latency).  Up to the next start the delay is the
    latency less the time since the start, a straight line.  So a piece's
    area is its length times half the sum of its two end values.
    """
    area = Fraction(0)
    next_starts = [start for start, _latency in pieces[1:]] + [end]
    for (start, latency), next_start in zip(pieces, next_starts):
        length = next_start - start
        area += Fraction(latency + (latency - length), 2) * length
    return area


def mean_of_pieces(pieces, H):
    """The area and H, both doubled: two whole numbers."""
    doubled = 2 * area_below(pieces, pieces[0][0] + H)
    if doubled.denominator != 1:
        raise AssertionError("twice the area is not whole")
    return (doubled.numerator, 2 * H)


# ---------------------------------------------------------------------------
# Random chains and tables
# ---------------------------------------------------------------------------

def small_chain(rng, largest_H, most_places=5):
    """A random chain with a small hyperperiod."""
    while True:
        places = rng.randint(1, most_places)
        pool = rng.choice([(1, 2, 3, 4, 6, 12), (2, 5, 10), (3, 4, 6, 8),
                           (5, 7), (1, 7, 9), tuple(range(1, 13)),
                           (10, 15, 20, 30), (4, 6, 9)])
        tasks = []
        for _place in range(places):
            T = rng.choice(pool)
            D = rng.choice([1, T, rng.randint(1, 2 * T), rng.randint(1, 30)])
            F = rng.choice([0, 0, rng.randint(0, T), rng.randint(0, 60)])
            tasks.append((T, D, F))
        # A task may fill several places.
        if places > 1 and rng.random() < 0.2:
            tasks[rng.randrange(places)] = tasks[rng.randrange(places)]
        if literal_hyperperiod(tasks) <= largest_H:
            return tasks


DIVISORS = [d for d in range(1, 1_000_001) if 60_000_000 % d == 0]


def large_chain(rng):
    """A random accepted chain over the full range of values."""
    while True:
        places = rng.randint(1, 12)
        tasks = []
        if rng.random() < 0.7:
            periods = [rng.choice(DIVISORS) for _ in range(places)]
        else:
            base = rng.randint(1, 80_000)
            periods = [base * rng.choice([1, 2, 3, 4, 5, 6, 8, 10, 12])
                       for _ in range(places)]
        for T in periods:
            D = rng.choice([1, T, 4_000_000, rng.randint(1, 4_000_000),
                            rng.randint(1, 2 * T)])
            F = rng.choice([0, 1_000_000, rng.randint(0, 1_000_000)])
            tasks.append((T, D, F))
        if all(T <= 1_000_000 and D <= 4_000_000 for T, D, _F in tasks) \
                and math.lcm(*periods) <= 60_000_000:
            return tasks


def no_gap(_rng, *_chains):
    """No gap, as document 01 has it.  It takes no draw."""
    return 0


def deciding_gap(rng, tasks):
    """A gap with which a link just fits for some jobs, or just misses.

    A read of one place less a write of the place before is the same number
    modulo the greatest common divisor of the two periods.  With such a gap
    equal ticks connect, with one more they do not.
    """
    here = rng.randrange(len(tasks) - 1)
    (T, D, F), (next_T, _D, next_F) = tasks[here:here + 2]
    step = math.gcd(T, next_T)
    fits = (next_F - F - D) % step + step * rng.randint(0, 3)
    return min(fits + rng.randint(0, 1), 1_000)


def small_gap(rng, *chains):
    """A random gap for small chains, on which searches begin at job 0."""
    tasks = rng.choice(chains)
    if len(tasks) > 1 and rng.random() < 0.4:
        return deciding_gap(rng, tasks)
    if len(tasks) < 4 and rng.random() < 0.1:
        return rng.choice([999, 1_000])
    return rng.choice([0, 1, 1, 2, 3, rng.randint(1, 40)])


def wide_gap(rng, *_chains):
    """A random gap of any size, for chains that are not searched through."""
    return rng.choice([0, 1, 2, rng.randint(1, 1_000), 999, 1_000, 1_000])


def tightened(rng, tasks, gap):
    """The chain with phases with which links just fit or just miss.

    A read of each later place falls on the tick at which job 0 of the place
    before becomes readable, or on the tick before that.
    """
    tasks = list(tasks)
    for here in range(1, len(tasks)):
        T, D, F = tasks[here - 1]
        next_T, next_D, _next_F = tasks[here]
        readable = F + D + gap - rng.choice([0, 1])
        tasks[here] = (next_T, next_D, readable % next_T)
    return tasks


def random_table(rng, largest_H):
    """A random well-formed table, of no chain in particular."""
    H = rng.randint(1, largest_H)
    g = rng.randint(1, min(H, 12))
    first = rng.choice([0, rng.randint(0, 50), 1_000_000_000])
    offsets = [0] + sorted(rng.sample(range(1, H), g - 1))
    starts = [first + offset for offset in offsets]
    ends = starts[1:] + [first + H]
    latencies = [end - start + rng.randint(1, 1 + 2 * H)
                 for start, end in zip(starts, ends)]
    # Entries from g on are no part of the table.
    extra = rng.randint(0, 3)
    starts += [rng.randint(0, 99) for _ in range(extra)]
    latencies += [rng.randint(0, 99) for _ in range(extra)]
    return starts, latencies, g, H


# ---------------------------------------------------------------------------
# Survey examples
# ---------------------------------------------------------------------------

CHAIN_A = [(4, 4, 0), (6, 6, 0)]
TABLE_A = ([0, 8], [18, 16], 2, 12)


def group_survey_a(_rng):
    A = CHAIN_A
    same(ref.warm_up(A, 0), ("ok", [0, 1], 0, 12), "A1")
    same(ref.check_chain(A, 0), ("ok", 12), "A1 hyperperiod")
    for p in (1, 2):
        same(ref.anchors(A, 0, p), [(0, 18), (8, 16)], "A2 cut at %d" % p)
    same(ref.partitions(A, 0, 1), [(0, 18), (4, 18), (8, 24)], "A2 partitions")
    for p, walked in ((1, 3), (2, 2)):
        same(ref.make(A, 0, p, [7, 7, 7], [9, 9, 9]),
             (("ok", 2, 0, 12, walked), [0, 8, 7], [18, 16, 9]),
             "A3 cut at %d" % p)
    for t, expected in ((0, 18), (7, 11), (8, 16), (11, 13), (12, 18)):
        same(ref.delay(A, 0, t), ("ok", expected), "A4 delay at %d" % t)
        same(ref.read_table(*TABLE_A, t), ("ok", expected),
             "A4 table at %d" % t)
    for z, expected in ((12, 12), (17, 17), (18, 10), (23, 15)):
        same(ref.age(A, 0, z), ("ok", expected), "A5 age at %d" % z)
    same(ref.low(*TABLE_A), ("ok", 10), "A6 low")
    # The mean of order 3; document 01 still has 174 and 12.
    same(ref.mean(*TABLE_A), ("ok", 336, 24), "A6 mean by area")
    same(ref.greatest(*TABLE_A), ("ok", 18), "greatest")
    same(ref.throughput(*TABLE_A), ("ok", 2, 12), "throughput")
    for B, expected in ((18, 0), (14, 4), (11, 11), (10, "endless")):
        same(ref.exceedance(*TABLE_A, B), ("ok", expected), "A7 of %d" % B)
    same(ref.windows(A, 0, 11, 2), ("ok", 2, 3), "A8 B 11 k 2")
    same(ref.windows(A, 0, 14, 3), ("ok", 0, 1), "A8 B 14 k 3")
    # The example of order 2: every window of three jobs holds 2 misses.
    same(ref.windows(A, 0, 11, 3), ("ok", 2, 1), "order 2 B 11 k 3")


def group_survey_b_to_e(_rng):
    B = [(10, 3, 5)]
    same(ref.anchors(B, 0, 1), [(5, 13)], "B anchor")
    same(ref.delay(B, 0, 4), ("refused", 12, 0), "B tick 4")
    same(ref.delay(B, 0, 5), ("ok", 13), "B tick 5")
    C = [(5, 5, 0), (5, 5, 0)]
    for p in (1, 2):
        same(ref.anchors(C, 0, p), [(0, 15)], "C cut at %d" % p)
    D = [(10, 2, 0), (10, 1, 95)]
    same(ref.warm_up(D, 0)[2], 90, "D x0")
    same(ref.delay(D, 0, 90), ("ok", 16), "D delay")
    same(ref.delay(D, 0, 89), ("refused", 12, 0), "D tick 89")
    for places in (0, 13):
        same(ref.check_chain([(1, 1, 0)] * places, 0), ("refused", 8, 0),
             "E %d places" % places)
    # 60,000,000 is 2^8 * 3 * 5^7, and 60,000,001 is 151 * 397,351.
    same(2 ** 8 * 3 * 5 ** 7, 60_000_000, "E factors at the limit")
    same(151 * 397_351, 60_000_001, "E factors above")
    at_limit = [(1_000_000, 1, 0), (768, 1, 0), (5 ** 7, 1, 0)]
    same(ref.check_chain(at_limit, 0), ("ok", 60_000_000), "E at the limit")
    same(ref.warm_up(at_limit, 0)[3], 60_000_000, "E warm-up at the limit")
    above = [(151, 1, 0), (397_351, 1, 0)]
    for answer in (ref.check_chain(above, 0), ref.warm_up(above, 0),
                   ref.delay(above, 0, 500_000), ref.age(above, 0, 500_000),
                   ref.make(above, 0, 1, [], [])[0],
                   ref.windows(above, 0, 1, 1), ref.sections(above, 0, [1])):
        same(answer, ("refused", 7, 0), "E above the limit")


# ---------------------------------------------------------------------------
# The 48-byte file of chain A and its report
# ---------------------------------------------------------------------------

FILE_A = bytes.fromhex(
    "1200" "0100" "0100" "04000000" "04000000" "00000000"
    "1200" "0100" "0200" "06000000" "06000000" "00000000"
    "0800" "0200" "0100" "0200"
    "0400" "0300")

REPORT_A = b"""chain 1
warm 0
hyper 12
anchors 2
a 0 18
a 8 16
max 18
low 10
mean 336 24
walked 2
"""


def padded(tasks):
    """A schedule's 32 task entries; those past the count are junk."""
    return list(tasks) + [(9, 0, 0, 9)] * (32 - len(tasks))


def padded_chain(chain):
    """A chain's 12 entries; those past the count are junk."""
    return list(chain) + [7] * (12 - len(chain))


def padded_chains(chains):
    """A schedule's 4 chains with their counts; those past are junk."""
    return [(len(chain), padded_chain(chain)) for chain in chains] \
        + [(99, [0] * 12)] * (4 - len(chains))


def schedule(tasks, chains, gap):
    """The arguments that stand for a schedule."""
    return (len(tasks), padded(tasks), len(chains), padded_chains(chains),
            gap)


def group_file_of_chain_a(_rng):
    tasks = [(1, 4, 4, 0), (2, 6, 6, 0)]
    same(len(FILE_A), 48, "length")
    same(ref.read_file(FILE_A), ("ok", tasks, [[1, 2]], 0), "read")
    same(ref.write_file(*schedule(tasks, [[1, 2]], 0), b"\xaa" * 50),
         (("ok", 48), FILE_A + b"\xaa\xaa"), "written")
    same(ref.write_file(*schedule(tasks, [[1, 2]], 0), b"\xaa" * 47),
         (("refused", 11, 0), b"\xaa" * 47), "lent bytes short")
    same(ref.report(FILE_A), REPORT_A, "report")
    # A second chain record, byte for byte: task 2 alone.
    file = FILE_A[:44] + bytes.fromhex("0600" "0200" "0200" "0400" "0300")
    same(ref.read_file(file), ("ok", tasks, [[1, 2], [2]], 0), "two chains")
    same(ref.write_file(*schedule(tasks, [[1, 2], [2]], 0), bytes(60)),
         (("ok", 54), file + bytes(6)), "two chains written")
    # Its one anchor: press at 0, read at 6, write at 12.  The delay falls
    # from 12 to 6 in 6 ticks, an area of 6 times 9, which is 54.
    same(ref.report(file), REPORT_A + b"""chain 2
warm 0
hyper 6
anchors 1
a 0 12
max 12
low 6
mean 108 12
walked 1
""", "report of two chains")


# ---------------------------------------------------------------------------
# Steps and warm-up against literal searches
# ---------------------------------------------------------------------------

def group_steps(rng):
    for _ in range(3_000):
        task = (rng.randint(1, 30), rng.randint(1, 60), rng.randint(0, 60))
        tick = rng.randint(0, 600)
        same(ref.earliest_reading_at_or_after(task, tick),
             literal_earliest(task, tick), "earliest %r %r" % (task, tick))
        same(ref.latest_writing_at_or_before(task, tick),
             literal_latest(task, 0, tick), "latest %r %r" % (task, tick))
    # Over the full range the neighbours decide.
    for _ in range(3_000):
        T = rng.randint(1, 1_000_000)
        D = rng.randint(1, 4_000_000)
        F = rng.randint(0, 1_000_000)
        tick = rng.choice([rng.randint(0, UPPER), rng.randint(0, 6_000_000)])
        j = ref.earliest_reading_at_or_after((T, D, F), tick)
        same((F + j * T >= tick, j == 0 or F + (j - 1) * T < tick),
             (True, True), "earliest is earliest")
        j = ref.latest_writing_at_or_before((T, D, F), tick)
        if j is None:
            same(F + D > tick, True, "none writes")
        else:
            same((F + j * T + D <= tick, F + (j + 1) * T + D > tick),
                 (True, True), "latest is latest")


def warm_ups(rng, choose_small, choose_large):
    for _ in range(600):
        tasks = small_chain(rng, 400, most_places=8)
        gap = choose_small(rng, tasks)
        answer = ref.warm_up(tasks, gap)
        way = literal_warm_up(tasks, gap)
        x0 = tasks[0][2] + way[0] * tasks[0][0]
        same(answer, ("ok", way, x0, literal_hyperperiod(tasks)),
             "warm-up %r gap %d" % (tasks, gap))
        same(ref.warm_up_job_by_bisection(tasks, gap), way[-1],
             "bisection %r gap %d" % (tasks, gap))
    # Large chains: the answer is compared with the bisection.
    for turn in range(600):
        tasks = large_chain(rng)
        gap = choose_large(rng, tasks)
        if gap and turn % 2:
            tasks = tightened(rng, tasks, gap)
        same(ref.warm_up(tasks, gap)[1][-1],
             ref.warm_up_job_by_bisection(tasks, gap),
             "large warm-up %r gap %d" % (tasks, gap))
    # Some of them can be searched literally, job by job.
    for _ in range(40):
        tasks = [(T * 997, D, F) for T, D, F in large_chain(rng)
                 if T <= 1_000]
        if tasks and math.lcm(*[T for T, _D, _F in tasks]) <= 60_000_000:
            gap = choose_large(rng, tasks)
            same(ref.warm_up(tasks, gap)[1], literal_warm_up(tasks, gap),
                 "literal warm-up %r gap %d" % (tasks, gap))


def group_warm_up(rng):
    warm_ups(rng, no_gap, no_gap)


def group_warm_up_with_gaps(rng):
    warm_ups(rng, small_gap, wide_gap)


# ---------------------------------------------------------------------------
# Demand 3
# ---------------------------------------------------------------------------

def demand_3(rng, choose):
    for number in range(400):
        tasks = small_chain(rng, 60 if number % 10 else 240,
                            most_places=5 if number % 7 else 12)
        gap = choose(rng, tasks)
        chain = "%r gap %d" % (tasks, gap)
        _ok, way, x0, H = ref.warm_up(tasks, gap)
        # The walk over three hyperperiods, and literally over the first.
        delays = [ref.delay(tasks, gap, x0 + offset)[1]
                  for offset in range(3 * H)]
        same(delays[:H],
             [literal_delay(tasks, gap, x0 + offset) for offset in range(H)],
             "walk against literal walk " + chain)
        # The age over three hyperperiods, and literally over the first.
        z0 = tasks[-1][2] + way[-1] * tasks[-1][0] + tasks[-1][1]
        ages = [ref.age(tasks, gap, z0 + offset)[1] for offset in range(3 * H)]
        same(ages[:H],
             [literal_age(tasks, gap, z0 + offset) for offset in range(H)],
             "age against literal age " + chain)
        same(ref.age(tasks, gap, z0 - 1), ("refused", 12, 0), "age too early")
        same(1 + max(ages), max(delays), "age and delay " + chain)
        from_delays = anchors_from_delays(delays[:H], x0)
        # The first anchor is not redundant in the next hyperperiod.
        same(anchors_from_delays(delays[:2 * H], x0),
             from_delays + [(start + H, latency)
                            for start, latency in from_delays],
             "anchors repeat " + chain)
        far = [UPPER - rng.randint(0, 5 * H) for _ in range(5)] + [UPPER]
        for p in range(1, len(tasks) + 1):
            what = "%s cut at %d" % (chain, p)
            junk = [rng.randint(0, 99) for _ in range(H + 3)]
            answer, starts, latencies = ref.make(tasks, gap, p, junk, junk)
            g = answer[1]
            same(answer,
                 ("ok", len(from_delays), x0, H, H // tasks[p - 1][0]),
                 "made " + what)
            same(list(zip(starts, latencies))[:g], from_delays,
                 "anchors " + what)
            same(ref.anchors(tasks, gap, p), from_delays, "anchors " + what)
            same(len(ref.partitions(tasks, gap, p)), H // tasks[p - 1][0],
                 "partitions " + what)
            same((starts[g:], latencies[g:]), (junk[g:], junk[g:]),
                 "entries from g on " + what)
            same(ref.well_formed(starts, latencies, g, H), True,
                 "well-formed " + what)
            same(ref.greatest(starts, latencies, g, H), ("ok", max(delays)),
                 "greatest " + what)
            same(ref.mean(starts, latencies, g, H),
                 ("ok", *mean_of_pieces(from_delays, H)), "mean " + what)
            same(ref.low(starts, latencies, g, H), ("ok", min(delays) - 1),
                 "low " + what)
            for offset, one in enumerate(delays):
                same(ref.read_table(starts, latencies, g, H, x0 + offset),
                     ("ok", one), "table at %d %s" % (x0 + offset, what))
            for t in far:
                same(ref.read_table(starts, latencies, g, H, t),
                     ref.delay(tasks, gap, t), "table at %d %s" % (t, what))


def group_demand_3(rng):
    demand_3(rng, no_gap)


def group_demand_3_with_gaps(rng):
    demand_3(rng, small_gap)


# ---------------------------------------------------------------------------
# Figures
# ---------------------------------------------------------------------------

def circular_run(delays, B):
    """Longest run above B on a circle, by trying every first tick."""
    H = len(delays)
    longest = 0
    for first in range(H):
        run = 0
        while run <= H and delays[(first + run) % H] > B:
            run += 1
        if run > H:
            return "endless"
        longest = max(longest, run)
    return longest


def group_figures(rng):
    for _ in range(400):
        table = random_table(rng, rng.choice([1, 5, 40, 150]))
        starts, latencies, g, H = table
        same(ref.well_formed(*table), True, "random table is well-formed")
        read = [ref.read_table(*table, starts[0] + r)[1] for r in range(H)]
        same(ref.delays_of_hyperperiod(*table), read, "delays")
        same(ref.sum_by_segments(*table), sum(read), "sum by segments")
        same(ref.sum_by_enumeration(*table), sum(read), "sum")
        same(ref.low_by_segments(*table), min(read) - 1, "low by segments")
        same(ref.low_by_enumeration(*table), min(read) - 1, "low")
        same(ref.greatest(*table), ("ok", max(read)), "greatest")
        same(ref.throughput(*table), ("ok", len(set(starts[:g])), H),
             "throughput")
        for B in {0, 2 ** 64 - 1, min(read) - 1, min(read), max(read) - 1,
                  max(read), rng.choice(read), rng.choice(read)}:
            expected = circular_run(read, B)
            same(ref.exceedance_by_enumeration(*table, B), expected,
                 "exceedance by ticks")
            same(ref.exceedance_by_segments(*table, B), expected,
                 "exceedance by segments")
            same(ref.exceedance(*table, B), ("ok", expected), "exceedance")
    # Large tables: both methods, on both sides of the limit.
    for _ in range(25):
        table = random_table(rng, 60_000)
        starts, latencies, g, H = table
        same(ref.sum_by_segments(*table), ref.sum_by_enumeration(*table),
             "large sum")
        same(ref.low(*table), ("ok", ref.low_by_enumeration(*table)),
             "large low")
        for B in (rng.choice(latencies[:g]), rng.randint(0, 2 * H)):
            same(ref.exceedance(*table, B),
                 ("ok", ref.exceedance_by_enumeration(*table, B)),
                 "large exceedance")
    # The figures at the limits of a table, by hand.
    one = ([1_000_000_000], [60_000_000], 1, 59_999_999)
    same(ref.low(*one), ("ok", 1), "low at the limit")
    same(ref.exceedance(*one, 1), ("ok", "endless"), "endless at the limit")
    same(ref.exceedance(*one, 2), ("ok", 59_999_998), "run at the limit")
    # The delays are 60,000,000 down to 2.
    same(ref.sum_by_segments(*one), 60_000_000 * 60_000_001 // 2 - 1,
         "sum at the limit")
    # The limits of order 5: the delays are 60,011,000 down to 11,001.
    one = ([1_000_000_000], [60_011_000], 1, 60_000_000)
    same(ref.greatest(*one), ("ok", 60_011_000), "greatest at the limit")
    same(ref.low(*one), ("ok", 11_000), "low at the limit of order 5")
    same(ref.exceedance(*one, 11_000), ("ok", "endless"), "endless there")
    same(ref.exceedance(*one, 11_001), ("ok", 59_999_999), "run there")
    same(ref.exceedance(*one, 60_010_999), ("ok", 1), "shortest run there")
    same(ref.exceedance(*one, 60_011_000), ("ok", 0), "no run there")
    same(ref.sum_by_segments(*one),
         60_011_000 * 60_011_001 // 2 - 11_000 * 11_001 // 2, "sum there")
    # 60,000,000 times 60,022,000, which is 60,011,000 and 11,000 together.
    same(ref.mean(*one), ("ok", 3_601_320_000_000_000, 120_000_000),
         "mean there")
    same(ref.read_table(*one, 1_000_000_000), ("ok", 60_011_000),
         "reading at the limit")
    same(ref.read_table(*one, 1_059_999_999), ("ok", 11_001), "last tick")


# ---------------------------------------------------------------------------
# Mean by area, order 3
# ---------------------------------------------------------------------------

FINER = (1, 2, 3, 5, 10)


def limit_table(rng):
    """A random well-formed table with values up to the limits."""
    H = rng.choice([1, 2, 19_999, 20_000, 20_001, 59_999_999, 60_000_000,
                    rng.randint(1, 40_000), rng.randint(1, 60_000_000)])
    g = rng.randint(1, min(H, 6))
    first = rng.choice([0, rng.randint(0, 50), 1_000_000_000])
    offsets = [0] + sorted(rng.sample(range(1, H), g - 1))
    starts = [first + offset for offset in offsets]
    latencies = []
    for start, end in zip(starts, starts[1:] + [first + H]):
        least = end - start + 1
        latencies.append(rng.choice([least, 60_011_000,
                                     rng.randint(least, 60_011_000)]))
    return starts + [0], latencies + [0], g, H


def delay_at_time(starts, latencies, g, H, time):
    """The delay that a table gives at a time, whole or not.

    The time lies within the H ticks from first start.
    """
    found = None
    for start, latency in list(zip(starts, latencies))[:g]:
        if start <= time:
            found = latency - (time - start)
    return found


def group_mean_by_hand(_rng):
    million = 1_000_000
    most = 60 * million
    longest = 60_011_000
    # A table, its pieces as (length, delay at the start, delay at the end),
    # and the two numbers.  Twice a piece's area is its length times the sum
    # of its two delays.
    cases = [
        ("chain A", TABLE_A, [(8, 18, 10), (4, 16, 12)], 336, 24),
        ("chain B", ([5], [13], 1, 10), [(10, 13, 3)], 160, 20),
        # An area of 62 and a half.
        ("chain C", ([0], [15], 1, 5), [(5, 15, 10)], 125, 10),
        ("chain D", ([90], [16], 1, 10), [(10, 16, 6)], 220, 20),
        ("H one", ([0], [2], 1, 1), [(1, 2, 1)], 3, 2),
        ("entry from g on", ([3, 5, 0], [4, 9, 7], 2, 6),
         [(2, 4, 2), (4, 9, 5)], 68, 12),
        ("two anchors in two ticks", ([4, 5], [2, 3], 2, 2),
         [(1, 2, 1), (1, 3, 2)], 8, 4),
        ("H one, latency 60,000,000", ([1_000 * million], [most], 1, 1),
         [(1, most, 59_999_999)], 119_999_999, 2),
        ("H one, latency at its limit", ([1_000 * million], [longest], 1, 1),
         [(1, longest, 60_010_999)], 120_021_999, 2),
        # 20,000 times 20,002 is 20,001 squared less one, and 20,001 times
        # 20,003 is 20,002 squared less one.
        ("last H tick by tick", ([0], [20_001], 1, 20_000),
         [(20_000, 20_001, 1)], 400_040_000, 40_000),
        ("first H anchor by anchor", ([0], [20_002], 1, 20_001),
         [(20_001, 20_002, 1)], 400_080_003, 40_002),
        # 60,000,000 squared less one.
        ("one anchor, low 1", ([1_000 * million], [most], 1, 59_999_999),
         [(59_999_999, most, 1)], 3_599_999_999_999_999, 119_999_998),
        # The same piece and 3 more.
        ("H at its limit", ([0, 1], [2, most], 2, most),
         [(1, 2, 1), (59_999_999, most, 1)], 3_600_000_000_000_002,
         120 * million),
        # 60,000,000 times 60,022,000.
        ("one anchor at the limits", ([1_000 * million], [longest], 1, most),
         [(most, longest, 11_000)], 3_601_320_000_000_000, 120 * million),
        # 2 times 119,999,998 is 239,999,996.  59,999,998 times 60,000,002
        # is 60,000,000 squared less four.
        ("H and latencies 60,000,000", ([7, 9], [most, most], 2, most),
         [(2, most, 59_999_998), (59_999_998, most, 2)],
         3_600_000_239_999_992, 120 * million),
        ("two halves", ([0, 30 * million], [most, most], 2, most),
         [(30 * million, most, 30 * million)] * 2, 5_400_000_000_000_000,
         120 * million),
        # 60,000,000 times 119,999,000.
        ("many anchors", (list(range(0, most, 1_000)), [most] * 60_000,
                          60_000, most),
         [(1_000, most, 59_999_000)] * 60_000, 7_199_940_000_000_000,
         120 * million),
        # 60,000,000 times 120,021,000.
        ("many anchors at the limits", (list(range(0, most, 1_000)),
                                        [longest] * 60_000, 60_000, most),
         [(1_000, longest, 60_010_000)] * 60_000, 7_201_260_000_000_000,
         120 * million),
    ]
    for what, table, pieces, above, below in cases:
        starts, latencies, g, H = table
        same(sum(length for length, _first, _last in pieces), H,
             what + ", length of the pieces")
        same(sum(length * (first + last) for length, first, last in pieces),
             above, what + ", area by hand")
        same(ref.mean(*table), ("ok", above, below), what)
        same(mean_of_pieces(list(zip(starts, latencies))[:g], H),
             (above, below), what + ", the area as the self test has it")
    # The area of chain A is 168 and its mean 14, half a tick below the 174
    # in 12 of document 01.
    same(area_below([(0, 18), (8, 16)], 12), Fraction(168), "area of A")
    same(Fraction(*ref.mean(*TABLE_A)[1:]), Fraction(14), "mean of A")
    same(ref.sum_by_enumeration(*TABLE_A), 174, "sum of A at whole ticks")
    same(Fraction(ref.sum_by_enumeration(*TABLE_A), 12)
         - Fraction(*ref.mean(*TABLE_A)[1:]), Fraction(1, 2),
         "half a tick too much")
    # The same from the chains themselves.  C with gap 1 falls from 20 to 15
    # in 5 ticks, A with gap 1 from 18 to 14 in 4 and from 20 to 12 in 8.
    chains = [(CHAIN_A, 0, 336, 24), ([(10, 3, 5)], 0, 160, 20),
              ([(5, 5, 0), (5, 5, 0)], 0, 125, 10),
              ([(10, 2, 0), (10, 1, 95)], 0, 220, 20),
              ([(1, 1, 0)], 0, 3, 2), ([(1, 1, 0)], 1_000, 3, 2),
              ([(5, 5, 0), (5, 5, 0)], 1, 175, 10), (CHAIN_A, 1, 384, 24)]
    for tasks, gap, above, below in chains:
        for p in range(1, len(tasks) + 1):
            answer, starts, latencies = ref.make(tasks, gap, p, [5] * 4,
                                                 [6] * 4)
            same(ref.mean(starts, latencies, answer[1], answer[3]),
                 ("ok", above, below),
                 "%r gap %d cut at %d" % (tasks, gap, p))


def check_printed_means(text, what):
    """Each chain's printed mean is the area below its printed anchors."""
    means = 0
    for part in re.split(rb"(?m)^chain \d+\n", text)[1:]:
        lines = [line.split() for line in part.decode().splitlines()]
        figures = {line[0]: line[1:] for line in lines}
        if "refused" in figures:
            continue
        pieces = [(int(line[1]), int(line[2])) for line in lines
                  if line[0] == "a"]
        above, below = mean_of_pieces(pieces, int(figures["hyper"][0]))
        same(figures["mean"], [str(above), str(below)], what)
        means += 1
    return means


def printed_means(rng, choose):
    """Reports in which two chains of three have H beyond the limit."""
    means = 0
    for turn in range(20):
        chains = [small_chain(rng, 120, 4)]
        while len(chains) < 3:
            tasks = large_chain(rng)[:6]
            H = math.lcm(*[task[0] for task in tasks])
            if 20_000 < H <= 300 * max(task[0] for task in tasks):
                chains.append(tasks)
        gap = choose(rng, *chains)
        file = file_of(*schedule_of_chains(rng, chains), gap)
        means += check_printed_means(ref.report(file), "report %d" % turn)
    same(means, 60, "printed means")


def group_mean_by_area(rng):
    tables = [random_table(rng, rng.choice([1, 2, 5, 40, 150]))
              for _ in range(500)]
    tables += [random_table(rng, 60_000) for _ in range(40)]
    tables += [limit_table(rng) for _ in range(200)]
    methods = set()
    finer_means = 0
    for number, table in enumerate(tables):
        starts, latencies, g, H = table
        what = "%r g %d H %d" % (starts[:g], g, H)
        same(ref.well_formed(*table), True, "well-formed " + what)
        area = area_below(list(zip(starts, latencies))[:g], starts[0] + H)
        word, above, below = ref.mean(*table)
        same((word, type(above), type(below)), ("ok", int, int), what)
        # The area in H ticks; the two numbers are not reduced.
        same(Fraction(above, below), area / H, "area in H ticks " + what)
        same(below, 2 * H, "twice H " + what)
        same(ref.low(*table)[1] < Fraction(above, below)
             < ref.greatest(*table)[1], True, "low, mean, greatest " + what)
        if g == 1:
            same(2 * Fraction(above, below),
                 Fraction(ref.low(*table)[1] + ref.greatest(*table)[1]),
                 "one anchor: midway of low and greatest " + what)
        methods.add((H > ref.ENUMERATION_LIMIT, g > 1))
        if H > 150:
            continue
        # Tick by tick: within a tick the line's value in the middle is the
        # tick's area.
        middles = [delay_at_time(*table, starts[0] + r + Fraction(1, 2))
                   for r in range(H)]
        same(sum(middles, Fraction(0)), area, "area by ticks " + what)
        # On a finer clock the same table has the same mean.
        for n in FINER:
            finer = ([n * one for one in starts],
                     [n * one for one in latencies], g, n * H)
            if number % 10 == 0:
                same(ref.delays_of_hyperperiod(*finer),
                     [n * delay_at_time(*table, starts[0] + Fraction(k, n))
                      for k in range(n * H)], "finer delays " + what)
            if n * starts[0] <= 1_000_000_000 \
                    and n * max(latencies[:g]) <= 60_011_000:
                same(ref.mean(*finer), ("ok", n * n * above, n * below),
                     "finer mean " + what)
                finer_means += 1
    same(len(methods), 4, "both methods, one anchor and several")
    same(finer_means > 1_000, True, "finer means")
    printed_means(rng, no_gap)
    printed_means(rng, wide_gap)
    # A refused chain between two others prints no mean.
    file = task_record(1, 1_024, 1, 0) + task_record(2, 1_025, 1, 0) \
        + task_record(3, 1_026, 1, 0) + chain_record([1, 2]) \
        + chain_record([2, 3]) + chain_record([1]) + END
    same(check_printed_means(ref.report(file), "1,024 anchors"), 2,
         "printed means beside 11")


def finer_gap(rng, tasks):
    """A random gap that also a clock 10 times finer can have."""
    return min(small_gap(rng, tasks), 100)


def means_on_finer_clocks(rng, choose):
    """The mean against the walk alone, with presses between whole ticks.

    On a clock n times finer every period, duration and phase and the gap is
    n times as large, and a press may fall on n ticks where there was one.
    """
    chains = [CHAIN_A, [(10, 3, 5)], [(5, 5, 0), (5, 5, 0)],
              [(10, 2, 0), (10, 1, 95)], [(1, 1, 0)], [(1, 1, 0)] * 12,
              [(1, 1, 0), (6, 1, 0)], [(100, 1, 0), (10, 1, 50)]]
    chains += [small_chain(rng, 60) for _ in range(150)]
    # One whose mean is had anchor by anchor: H is 20,010.
    chains.append([(138, 9, 3), (145, 200, 31)])
    for tasks in chains:
        gap = choose(rng, tasks)
        _ok, way, x0, H = ref.warm_up(tasks, gap)
        p = rng.randint(1, len(tasks))
        answer, starts, latencies = ref.make(tasks, gap, p, [0] * H, [0] * H)
        _ok, above, below = ref.mean(starts, latencies, answer[1], H)
        integral = Fraction(above, below) * H
        whole = [literal_delay(tasks, gap, x0 + offset) for offset in range(H)]
        sums = {}
        clocks = FINER if H <= 1_000 else (1, 3)
        for n in clocks:
            what = "%r gap %d on a clock %d times finer" % (tasks, gap, n)
            finer = [(n * T, n * D, n * F) for T, D, F in tasks]
            same(ref.warm_up(finer, n * gap), ("ok", way, n * x0, n * H),
                 what)
            walk = [ref.walked_delay(finer, n * gap, n * x0 + k)
                    for k in range(n * H)]
            # The delay falls within each tick.
            same(walk, [n * one - i for one in whole for i in range(n)],
                 "delays of " + what)
            # The clock does not matter: a press at a time between ticks.
            k = rng.randrange(n * H)
            same(Fraction(walk[k], n),
                 Fraction(literal_delay(tasks, gap, x0 + Fraction(k, n))),
                 "literal walk of " + what)
            same(ref.delay(finer, n * gap, n * x0 + k), ("ok", walk[k]),
                 what)
            # A finer tick is 1/n wide and its delays count n-ths.  Within
            # it the delay begins at the walk's and never falls by more than
            # one finer tick.  So the integral lies between two sums, which
            # come nearer to each other as n grows.
            upper = Fraction(sum(walk), n) / n
            lower = Fraction(sum(one - 1 for one in walk), n) / n
            same(upper - lower, Fraction(H, n), "between the sums, " + what)
            same(lower < integral, True, "sum from below, " + what)
            same(integral < upper, True, "sum from above, " + what)
            sums[n] = upper
            # The finer chain's own table and mean.
            answer, starts, latencies = ref.make(finer, n * gap, p, [0] * H,
                                                 [0] * H)
            same(ref.mean(starts, latencies, answer[1], n * H),
                 ("ok", n * n * above, n * below), "mean of " + what)
        # The sums from above lie on a line over 1/n.  Its value at 0, where
        # the clock has no ticks any more, is the integral.
        for n, m in itertools.combinations(clocks, 2):
            same((m * sums[m] - n * sums[n]) / (m - n), integral,
                 "limit of the sums for %d and %d, %r" % (n, m, tasks))


def group_mean_on_finer_clocks(rng):
    means_on_finer_clocks(rng, no_gap)


def group_mean_on_finer_clocks_with_gaps(rng):
    means_on_finer_clocks(rng, finer_gap)


# ---------------------------------------------------------------------------
# Well-formed, reading a table
# ---------------------------------------------------------------------------

def group_well_formed(_rng):
    starts, latencies, g, H = [5, 9, 14, 3], [5, 6, 7, 0], 3, 15
    same(ref.well_formed(starts, latencies, g, H), True, "base")
    faults = [
        ("lists of unequal length", starts[:3], latencies, 3, H),
        ("g zero", starts, latencies, 0, H),
        ("g above the length", starts, latencies, 5, H),
        ("entry from g on counted", starts, latencies, 4, H),
        ("H zero", starts, latencies, g, 0),
        ("start not below first start + H", starts, latencies, g, 9),
        ("equal starts", [5, 9, 9, 3], latencies, g, H),
        ("falling starts", [5, 9, 8, 3], latencies, g, H),
        ("latency equal to the distance", starts, [4, 6, 7, 0], g, H),
        ("middle latency equal", starts, [5, 5, 7, 0], g, H),
        ("last latency equal", starts, [5, 6, 6, 0], g, H),
        ("latency zero", starts, [0, 6, 7, 0], g, H),
        ("latency above its limit", starts, [60_011_001, 6, 7, 0], g, H),
        ("middle latency above its limit", starts, [5, 60_011_001, 7, 0], g,
         H),
        ("last latency above its limit", starts, [5, 6, 60_011_001, 0], g,
         H),
        ("empty lists", [], [], 0, H),
        ("empty lists, g one", [], [], 1, H),
        ("first start above", [1_000_000_001], [20], 1, 15),
        ("H above", [0], [60_000_000], 1, 60_000_001),
        ("H above, latency above the distance", [0], [60_011_000], 1,
         60_000_001),
        ("H at the limit, latency of the distance", [0], [60_000_000], 1,
         60_000_000),
        ("H at the limit, latency above its limit", [0], [60_011_001], 1,
         60_000_000),
    ]
    for what, s, latency, count, hyper in faults:
        same(ref.well_formed(s, latency, count, hyper), False, what)
        refusal = ("refused", 14, 0)
        same(ref.read_table(s, latency, count, hyper, 0), refusal, what)
        same(ref.greatest(s, latency, count, hyper), refusal, what)
        same(ref.low(s, latency, count, hyper), refusal, what)
        same(ref.mean(s, latency, count, hyper), refusal, what)
        same(ref.throughput(s, latency, count, hyper), refusal, what)
        same(ref.exceedance(s, latency, count, hyper, 0), refusal, what)
        # 14 before 18.
        for width in (0, 1, 7, 2 ** 64 - 1):
            for length in (0, 1, 20):
                same(ref.histogram(s, latency, count, hyper, width, length),
                     refusal, "%s, width %d" % (what, width))
    passes = [
        ("latency 60,000,000", starts, [60_000_000, 6, 7, 0], g, H),
        ("latency 60,000,001", starts, [60_000_001, 6, 7, 0], g, H),
        ("latency at its limit", starts, [60_011_000, 6, 7, 0], g, H),
        ("middle latency at its limit", starts, [5, 60_011_000, 7, 0], g, H),
        ("last latency at its limit", starts, [5, 6, 60_011_000, 0], g, H),
        ("one anchor, H at its limit", [0], [60_000_001], 1, 60_000_000),
        ("one anchor at the limits", [1_000_000_000], [60_011_000], 1,
         60_000_000),
        ("first start at its limit", [1_000_000_000], [16], 1, 15),
        ("H at its limit", [0, 1], [2, 60_000_000], 2, 60_000_000),
        ("exact length", starts[:3], latencies[:3], 3, H),
        ("H one", [0], [2], 1, 1),
    ]
    for what, s, latency, count, hyper in passes:
        same(ref.well_formed(s, latency, count, hyper), True, what)
        for length in (0, 1, 20):
            same(ref.histogram(s, latency, count, hyper, 0, length),
                 ("refused", 18, 0), what + ", width 0")
            same(ref.histogram(s, latency, count, hyper, 1, length)[0], "ok",
                 what + ", width 1")
    same(ref.read_table(starts, latencies, g, H, 4), ("refused", 12, 0),
         "below first start")
    same(ref.read_table(starts, latencies, g, H, 5), ("ok", 5),
         "at first start")
    same(ref.read_table(starts, latencies, g, H, 19), ("ok", 2), "last tick")
    same(ref.read_table(starts, latencies, g, H, 20), ("ok", 5), "next H")
    same(ref.read_table(starts, latencies, g, H, UPPER + 1),
         ("refused", 13, 0), "above the upper tick")
    # UPPER - 5 leaves 5 by 15, so the tick is 10 in the table: 6 - 1.
    same((UPPER - 5) % 15, 5, "remainder")
    same(ref.read_table(starts, latencies, g, H, UPPER), ("ok", 5),
         "upper tick")
    # A table of order 5, and one latency more.
    same(ref.read_table([0], [60_011_000], 1, 60_000_000, 0),
         ("ok", 60_011_000), "the greatest delay")
    same(ref.read_table([0], [60_011_001], 1, 60_000_000, 0),
         ("refused", 14, 0), "a latency more")


# ---------------------------------------------------------------------------
# Making and the refusals of the calls
# ---------------------------------------------------------------------------

def makings(rng, choose):
    for _ in range(150):
        tasks = small_chain(rng, 60)
        gap = choose(rng, tasks)
        _ok, _way, x0, H = ref.warm_up(tasks, gap)
        found = anchors_from_delays(
            [literal_delay(tasks, gap, x0 + offset) for offset in range(H)],
            x0)
        p = rng.randint(1, len(tasks))
        walked = H // tasks[p - 1][0]
        g = len(found)
        for length in {0, 1, g - 1, g, g + 2}:
            starts = [rng.randint(0, 10 ** 19) for _ in range(length)]
            latencies = [rng.randint(0, 10 ** 19) for _ in range(length)]
            before = (list(starts), list(latencies))
            if length >= g:
                answer = ("ok", g, x0, H, walked)
            else:
                answer = ("refused", 11, 0, g, x0, H, walked)
            expected = (answer,
                        ([s for s, _l in found] + starts[g:])[:length],
                        ([l for _s, l in found] + latencies[g:])[:length])
            same(ref.make(tasks, gap, p, starts, latencies), expected,
                 "make %r gap %d cut at %d, %d entries"
                 % (tasks, gap, p, length))
            same((starts, latencies), before, "the lists given stay")
        lists = ([1, 2], [3, 4])
        for wrong in (0, len(tasks) + 1, 2 ** 64 - 1):
            same(ref.make(tasks, gap, wrong, *lists),
                 (("refused", 9, 0), *lists), "p outside")
            same(ref.make(tasks, gap, wrong, [1], [3, 4]),
                 (("refused", 9, 0), [1], [3, 4]), "9 before 10")
        same(ref.make(tasks, gap, p, [1], [3, 4]),
             (("refused", 10, 0), [1], [3, 4]), "unequal lengths")
        same(ref.make(tasks, gap, p, [1], []), (("refused", 10, 0), [1], []),
             "10 before 11")


def group_making(rng):
    makings(rng, no_gap)


def group_making_with_gaps(rng):
    makings(rng, small_gap)


def group_call_refusals(_rng):
    good = (10, 1, 0)
    bad = [(0, 1, 0), (1_000_001, 1, 0), (1, 0, 0), (1, 4_000_001, 0),
           (1, 1, 1_000_001)]
    limit = [(1, 1, 0), (1_000_000, 4_000_000, 1_000_000)]
    huge = [(999_983, 1, 0), (999_979, 1, 0)]

    def refused_with(tasks, gap, refusal):
        same(ref.check_chain(tasks, gap), refusal, "check_chain")
        same(ref.warm_up(tasks, gap), refusal, "warm_up")
        for t in (0, UPPER + 1):
            same(ref.delay(tasks, gap, t), refusal, "delay")
            same(ref.age(tasks, gap, t), refusal, "age")
        for p in (0, 1):
            same(ref.make(tasks, gap, p, [1], [2, 3]),
                 (refusal, [1], [2, 3]), "make")
            same(ref.make(tasks, gap, p, [], []), (refusal, [], []), "make")
        for k in (0, 1):
            same(ref.windows(tasks, gap, 0, k), refusal, "windows")
        for cuts in ([], [1], [0]):
            same(ref.sections(tasks, gap, cuts), refusal, "sections")

    def all_calls(tasks, refusal):
        """A gap above the limit comes after 8 and 5 and before 7."""
        for gap in (0, 1, 1_000):
            refused_with(tasks, gap, refusal)
        for gap in (1_001, 2 ** 64 - 1):
            refused_with(tasks, gap, refusal if refusal[1] in (8, 5)
                         else ("refused", 5, 0))

    all_calls([], ("refused", 8, 0))
    all_calls([bad[0]] * 13, ("refused", 8, 0))
    for one in bad:
        for place in range(1, 13):
            tasks = huge + [good] * 10
            tasks[place - 1] = one
            all_calls(tasks, ("refused", 5, place))
            tasks[11] = one
            all_calls(tasks, ("refused", 5, place))
    all_calls(huge, ("refused", 7, 0))
    # The gap alone is refused, also where there is no link, and before 9,
    # 10, 12, 13, 15 and 17, all of which would follow.
    for tasks in ([good], [good] * 2, [good] * 12, limit, CHAIN_A):
        for gap in (1_001, 1_002, 2_000, 65_536, 2 ** 32, 2 ** 32 + 1,
                    2 ** 63, 2 ** 64 - 1):
            refused_with(tasks, gap, ("refused", 5, 0))
        for gap in (0, 1, 999, 1_000):
            same(ref.check_chain(tasks, gap)[0], "ok", "gap %d" % gap)
            same(ref.make(tasks, gap, 0, [1], [2, 3])[0], ("refused", 9, 0),
                 "9 with gap %d" % gap)
            same(ref.make(tasks, gap, 1, [1], [2, 3])[0], ("refused", 10, 0),
                 "10 with gap %d" % gap)
            same(ref.delay(tasks, gap, UPPER + 1), ("refused", 13, 0),
                 "13 with gap %d" % gap)
            same(ref.windows(tasks, gap, 0, 0), ("refused", 15, 0),
                 "15 with gap %d" % gap)
            same(ref.sections(tasks, gap, [12]), ("refused", 17, 0),
                 "17 with gap %d" % gap)
    same(ref.check_chain(limit, 0), ("ok", 1_000_000), "limits pass")
    same(ref.check_chain([good] * 12, 0), ("ok", 10), "12 places pass")
    for k in (0, 101, 2 ** 64 - 1):
        same(ref.windows([good], 0, 0, k), ("refused", 15, 0), "k %d" % k)
    for k in (1, 100):
        same(ref.windows([good], 0, 0, k), ("ok", k, 1), "k %d" % k)
    # Ticks: the write of the warm-up job and the upper tick.
    same(ref.delay([good], 0, UPPER)[0], "ok", "upper tick")
    same(ref.delay([good], 0, UPPER + 1), ("refused", 13, 0), "above")
    same(ref.age([good], 0, UPPER)[0], "ok", "upper tick")
    same(ref.age([good], 0, UPPER + 1), ("refused", 13, 0), "above")
    same(ref.age([good], 0, 0), ("refused", 12, 0), "before the write")
    same(ref.age([good], 0, 1), ("ok", 1), "at the write")
    same(ref.delay([good], 0, 0), ("ok", 11), "the press comes before")


# ---------------------------------------------------------------------------
# Windows
# ---------------------------------------------------------------------------

def span_by_ticks(tasks, gap, job):
    """A job's forward end less its own read, by letting ticks pass."""
    T, D, F = tasks[0]
    read = F + job * T
    tick = read + D
    for T, D, F in tasks[1:]:
        # The gap passes.  Equal ticks connect, so the tick at which the
        # value becomes readable is tried first.
        tick += gap
        while tick < F or (tick - F) % T:
            tick += 1
        tick += D
    return tick - read


def literal_spans(tasks, gap):
    """W1, the length of the range H/T1, and the spans of the jobs.

    The spans are those of all windows of up to 100 jobs that begin in a
    range twice as long.
    """
    W1 = literal_warm_up(tasks, gap)[0]
    length = literal_hyperperiod(tasks) // tasks[0][0]
    jobs = range(W1 + 1, W1 + 2 * length + 100)
    return W1, length, {j: span_by_ticks(tasks, gap, j) for j in jobs}


def check_windows(found, W1, length, spans, B, k, what):
    """Check an answer of windows by what document 01 and order 2 say of it.

    It holds of one answer only.  Returned is what kind of answer it is.
    """
    what = "windows of %s B %d k %d" % (what, B, k)
    counts = {}
    for first in range(W1 + 1, W1 + 2 * length + 1):
        counts[first] = len([j for j in range(first, first + k)
                             if spans[j] > B])
    in_range = range(W1 + 1, W1 + length + 1)
    word, count, job = found
    same(word, "ok", what)
    same(job in in_range, True, what + ", job in the range")
    same(count, max(counts[first] for first in in_range),
         what + ", largest count")
    same(counts.get(job), count, what + ", count of the job")
    same([first for first in in_range if first < job
          and counts[first] >= count], [], what + ", earlier jobs have fewer")
    # The second half of the longer range brings nothing new.
    same(max(counts.values()), count, what + ", count beyond the range")
    kinds = set()
    if length >= 4 and job > W1 + 3 * length // 4:
        kinds.add("late in the range")
    if length >= 4 and job == W1 + length:
        kinds.add("the last job of the range")
    if count > 0 and k <= length and job + k - 1 > W1 + length:
        kinds.add("over the end of the range")
    if count > 0 and job > W1 + 1 and any(
            counts[first] == count for first in in_range if first > job):
        kinds.add("one of several, not the first job")
    if any(counts[first] > 0 for first in in_range if first < job):
        kinds.add("after windows with fewer misses")
    return kinds


def bounds_around(spans):
    """B just below, at and just above every span, and the extremes."""
    return sorted({0, 2 ** 64 - 1} | {span + more for span in spans.values()
                                      for more in (-1, 0, 1)})


def many_windows(rng, choose):
    met = {}

    def check(tasks, gap, B, k, own):
        for kind in check_windows(ref.windows(tasks, gap, B, k), *own, B, k,
                                  "%r gap %d" % (tasks, gap)):
            met[kind] = met.get(kind, 0) + 1

    for _ in range(100):
        tasks = small_chain(rng, 60)
        gap = choose(rng, tasks)
        own = literal_spans(tasks, gap)
        # A press one tick before job j's read is served by job j.
        T1, _D1, F1 = tasks[0]
        for j, span in own[2].items():
            same(span, literal_delay(tasks, gap, F1 + j * T1 - 1) - 1, "span")
        for B in bounds_around(own[2]):
            for k in (1, 2, 3, rng.randint(4, 98), 99, 100):
                check(tasks, gap, B, k, own)
    # With every phase of the second place the misses move through the
    # range: best windows early, late, and over its end.
    for T1, T2 in ((5, 7), (7, 5), (7, 11), (4, 9), (9, 4), (8, 13),
                   (13, 8), (5, 12)):
        for F in range(T1 + T2):
            tasks = [(T1, T1, 0), (T2, T2, F)]
            gap = choose(rng, tasks)
            own = literal_spans(tasks, gap)
            for B in bounds_around(own[2]):
                for k in (1, 2, 3, 4, 5):
                    check(tasks, gap, B, k, own)
    # Three places, of which the last is the quicker one.
    for F in range(7):
        tasks = [(3, 2, 1), (7, 5, F), (4, 4, 0)]
        gap = choose(rng, tasks)
        own = literal_spans(tasks, gap)
        for B in bounds_around(own[2]):
            for k in (1, 2, 3, 5, 99, 100):
                check(tasks, gap, B, k, own)
    # Ranges longer than the longest window.
    for tasks in ([(401, 401, 0), (503, 503, 400)], [(2, 1, 0), (251, 3, 9)],
                  [(3, 5, 1), (10, 3, 0), (101, 7, 50)],
                  [(1, 1, 0), (150, 20, 149)], [(7, 7, 3), (143, 1, 0)]):
        gap = choose(rng, tasks)
        own = literal_spans(tasks, gap)
        same(own[1] > 100, True, "a long range")
        high = sorted(set(own[2].values()))
        for B in (high[0] - 1, high[0], high[len(high) // 3], high[-3],
                  high[-2], high[-1], rng.choice(high)):
            for k in (1, 2, 3, 10, 99, 100):
                check(tasks, gap, B, k, own)
    for kind in ("late in the range", "the last job of the range",
                 "over the end of the range",
                 "one of several, not the first job",
                 "after windows with fewer misses"):
        same(met.get(kind, 0) > 50, True, "often met: " + kind)


def group_windows(rng):
    many_windows(rng, no_gap)


def group_windows_with_gaps(rng):
    many_windows(rng, small_gap)


def group_windows_by_hand(_rng):
    # Spans of jobs 1 to 8 are 18, 13, 15, 17, 12, 14, 16, 18, and W1 is 0.
    # The last window of the range takes job 8, which lies past it.
    tasks = [(5, 5, 0), (7, 7, 2)]
    for B, k, expected in ((15, 1, (1, 1)), (15, 2, (2, 7)), (15, 3, (2, 6)),
                           (13, 3, (3, 6)), (17, 2, (1, 1)), (16, 2, (1, 1)),
                           (16, 4, (2, 1)), (18, 9, (0, 1)), (11, 9, (9, 1))):
        same(ref.windows(tasks, 0, B, k), ("ok", *expected),
             "last window, B %d k %d" % (B, k))
    # W is 2, 1, 4.  Jobs 3, 4 and 5 have the spans 18, 15 and 16.
    same(ref.windows([(3, 2, 1), (7, 5, 2), (4, 4, 0)], 0, 14, 3),
         ("ok", 3, 3), "three misses at once")
    # Chain D: W1 is 9, and job 10 alone is in the range.  Its span is 6.
    chain_d = [(10, 2, 0), (10, 1, 95)]
    for B, k, expected in ((11, 2, (0, 10)), (6, 100, (0, 10)),
                           (5, 100, (100, 10)), (5, 1, (1, 10))):
        same(ref.windows(chain_d, 0, B, k), ("ok", *expected),
             "D B %d k %d" % (B, k))
    # The span is 904 and the wait for the read.  A wait of 502 needs
    # 401 (j + 1) = 401 modulo 503: job 0, which does not count, and job 503.
    # W1 is 1.  The earliest window that takes job 503 ends with it.
    tasks = [(401, 401, 0), (503, 503, 400)]
    for k in (1, 2, 3, 10, 99, 100):
        same(ref.windows(tasks, 0, 1405, k), ("ok", 1, 504 - k),
             "one miss in 503 jobs, k %d" % k)
        same(ref.windows(tasks, 0, 1406, k), ("ok", 0, 2), "no miss, k %d" % k)
    # Job W1 itself waits longer than any later one, but does not count.
    tasks = [(100, 1, 0), (10, 1, 50)]
    for k in (1, 2, 100):
        same(ref.windows(tasks, 0, 20, k), ("ok", 0, 1), "W1 waits, k %d" % k)
        same(ref.windows(tasks, 0, 10, k), ("ok", k, 1), "all miss, k %d" % k)
    # The largest values: each write is the next place's read.
    worst = [(1_000_000, 4_000_000, 1_000_000)] * 12
    for k in (1, 100):
        same(ref.windows(worst, 0, 48_000_000, k), ("ok", 0, 1), "span is B")
        same(ref.windows(worst, 0, 47_999_999, k), ("ok", k, 1),
             "span above B")
        same(ref.windows(worst, 0, 2 ** 64 - 1, k), ("ok", 0, 1),
             "largest B")
        # With a gap each value waits for the next read, a period later.
        for gap in (1, 1_000):
            same(ref.windows(worst, gap, 59_000_000, k), ("ok", 0, 1),
                 "span is B, gap %d" % gap)
            same(ref.windows(worst, gap, 58_999_999, k), ("ok", k, 1),
                 "span above B, gap %d" % gap)


def windows_of_schedules(rng, choose):
    for turn in range(60):
        chains = [small_chain(rng, 40) for _ in range(1 + turn % 4)]
        gap = choose(rng, *chains)
        arguments = schedule(*schedule_of_chains(rng, chains), gap)
        for n, tasks in enumerate(chains, start=1):
            own = literal_spans(tasks, gap)
            for B in bounds_around(own[2]):
                k = rng.choice([1, 2, 3, 99, 100, rng.randint(1, 100)])
                found = ref.windows_of(*arguments, n, B, k)
                check_windows(found, *own, B, k, "chain %d of %r gap %d"
                              % (n, chains, gap))
            for k in (0, 101, 2 ** 64 - 1):
                same(ref.windows_of(*arguments, n, 0, k), ("refused", 15, 0),
                     "k %d" % k)
        for n in (0, len(chains) + 1, 2 ** 64 - 1):
            for k in (0, 1, 100):
                same(ref.windows_of(*arguments, n, 0, k), ("refused", 16, 0),
                     "chain number %d" % n)


def group_windows_of_schedules(rng):
    windows_of_schedules(rng, no_gap)
    # Chain A as the first, and as the last of four.
    tasks = [(1, 4, 4, 0), (2, 6, 6, 0), (9, 10, 3, 5)]
    for n, chains in ((1, [[1, 2]]), (4, [[9], [2], [2, 1], [1, 2]])):
        arguments = schedule(tasks, chains, 0)
        for B, k, expected in ((11, 3, (2, 1)), (11, 2, (2, 3)),
                               (14, 3, (0, 1))):
            same(ref.windows_of(*arguments, n, B, k), ("ok", *expected),
                 "chain A as chain %d" % n)
        # With gap 1 the spans of jobs 1, 2 and 3 are 14, 16 and 12.
        arguments = schedule(tasks, chains, 1)
        for B, k, expected in ((11, 2, (2, 1)), (14, 1, (1, 2)),
                               (13, 2, (2, 1)), (13, 3, (2, 1))):
            same(ref.windows_of(*arguments, n, B, k), ("ok", *expected),
                 "chain A with gap 1 as chain %d" % n)


def group_windows_of_schedules_with_gaps(rng):
    windows_of_schedules(rng, small_gap)


# ---------------------------------------------------------------------------
# Schedule file
# ---------------------------------------------------------------------------

def le(value, width):
    """A little-endian number, byte by byte."""
    return bytes((value >> (8 * index)) & 255 for index in range(width))


def task_record(number, T, D, F):
    return le(18, 2) + le(1, 2) + le(number, 2) + le(T, 4) + le(D, 4) \
        + le(F, 4)


def chain_record(chain):
    return le(4 + 2 * len(chain), 2) + le(2, 2) \
        + b"".join(le(number, 2) for number in chain)


def gap_record(gap):
    return le(6, 2) + le(4, 2) + le(gap, 2)


END = le(4, 2) + le(3, 2)


def records_of(tasks, chains, gap):
    """The records of a schedule's file; a gap of 0 has none."""
    return [task_record(*task) for task in tasks] \
        + [chain_record(chain) for chain in chains] \
        + [gap_record(gap)] * (gap != 0) + [END]


def file_of(tasks, chains, gap):
    return b"".join(records_of(tasks, chains, gap))


def file_gap(rng):
    """A random gap, often one at the ends of its bytes or of its limits."""
    return rng.choice([0, 1, 2, 255, 256, 257, 999, 1_000,
                       rng.randint(1, 1_000)])


def random_schedule(rng):
    """A random schedule within all rules: tasks and 1 to 4 chains."""
    count = rng.choice([1, 2, 3, rng.randint(1, 32), 32])
    numbers = sorted(rng.sample(range(1, 65_536), count))
    if rng.random() < 0.2:
        numbers[-1] = 65_535
    if rng.random() < 0.2:
        numbers[0] = 1
    tasks = []
    for number in numbers:
        tasks.append((number,
                      rng.choice([1, 1_000_000, rng.randint(1, 1_000_000)]),
                      rng.choice([1, 4_000_000, rng.randint(1, 4_000_000)]),
                      rng.choice([0, 1_000_000, rng.randint(0, 1_000_000)])))
    chains = [[rng.choice(numbers)
               for _ in range(rng.choice([1, 12, rng.randint(1, 12)]))]
              for _ in range(rng.randint(1, 4))]
    return tasks, chains


def number_at(data, offset, width):
    """A little-endian number in a file."""
    return sum(data[offset + index] << (8 * index) for index in range(width))


def first_fault(data):
    """The first fault of a file, or None.  A second way to read a file.

    Every fault of every record is listed with its rank in document 01.
    The first record with a fault, and in it the least rank, decides.
    """
    # Cut the file into records, as far as lengths allow.
    records = []
    faults = []
    offset = 0
    while True:
        if offset + 4 > len(data):
            faults.append((offset, 1, 1))
            break
        length = number_at(data, offset, 2)
        if length < 4:
            faults.append((offset, 2, 2))
            break
        if offset + length > len(data):
            faults.append((offset, 3, 1))
            break
        records.append((offset, length, number_at(data, offset + 2, 2)))
        offset += length
    # Judge each record with what stands before it.
    for index, (offset, length, kind) in enumerate(records):
        earlier = records[:index]
        tasks_before = [at for at, _length, k in earlier if k == 1]
        chains_before = [at for at, _length, k in earlier if k == 2]
        gaps_before = [at for at, _length, k in earlier if k == 4]
        if kind == 1:
            if length != 18:
                faults.append((offset, 5, 2))
                continue
            if chains_before or gaps_before or len(tasks_before) >= 32:
                faults.append((offset, 6, 4))
            number = number_at(data, offset + 4, 2)
            T, D, F = [number_at(data, offset + at, 4) for at in (6, 10, 14)]
            rising = all(number_at(data, at + 4, 2) < number
                         for at in tasks_before[-1:])
            if number == 0 or not rising \
                    or T not in range(1, 1_000_001) \
                    or D not in range(1, 4_000_001) \
                    or F not in range(0, 1_000_001):
                faults.append((offset, 7, 5))
        elif kind == 2:
            if length % 2 or length < 6 or length > 28:
                faults.append((offset, 5, 2))
                continue
            if len(chains_before) >= 4 or not tasks_before or gaps_before:
                faults.append((offset, 6, 4))
            known = [number_at(data, at + 4, 2) for at in tasks_before]
            for at in range(offset + 4, offset + length, 2):
                if number_at(data, at, 2) not in known:
                    faults.append((offset, 8, 6))
        elif kind == 3:
            if length != 4:
                faults.append((offset, 5, 2))
            if not chains_before:
                faults.append((offset, 6, 4))
        elif kind == 4:
            if length != 6:
                faults.append((offset, 5, 2))
                continue
            if gaps_before or not chains_before:
                faults.append((offset, 6, 4))
            if number_at(data, offset + 4, 2) not in range(1, 1_001):
                faults.append((offset, 7, 5))
        else:
            faults.append((offset, 4, 3))
    # Nothing past the first end record is judged as a record.  A byte
    # there is 4 at that byte.
    ends = [at + size for at, size, k in records if k == 3]
    if ends:
        faults = [fault for fault in faults if fault[0] < ends[0]]
        if not faults and ends[0] < len(data):
            faults = [(ends[0], 0, 4)]
    if not faults:
        return None
    offset, _rank, number = min(faults)
    return ("refused", number, offset)


def changed_file(rng, records):
    """A file with records or bytes changed at random."""
    records = list(records)
    for _ in range(rng.choice([0, 1, 1, 2])):
        at = rng.randrange(len(records))
        change = rng.randrange(4)
        if change == 0:
            del records[at]
        elif change == 1:
            records.insert(at, rng.choice(records))
        elif change == 2:
            other = rng.randrange(len(records))
            records[at], records[other] = records[other], records[at]
        else:
            records.append(rng.choice(records))
        if not records:
            break
    changed = bytearray(b"".join(records))
    for _ in range(rng.choice([0, 1, 2])):
        if changed:
            changed[rng.randrange(len(changed))] = rng.choice(
                [0, 1, 2, 3, 4, 6, 18, 232, 233, 255, rng.randrange(256)])
    if rng.random() < 0.2:
        del changed[rng.randint(0, len(changed)):]
    return bytes(changed)


def file_round_trips(rng, choose):
    counts = set()
    for _ in range(300):
        tasks, chains = random_schedule(rng)
        gap = choose(rng)
        counts.add((len(chains), gap > 0))
        records = records_of(tasks, chains, gap)
        file = b"".join(records)
        same(ref.read_file(file), ("ok", tasks, chains, gap), "read")
        extra = rng.randint(0, 40)
        lent = bytes(rng.randrange(256) for _ in range(len(file) + extra))
        same(ref.write_file(*schedule(tasks, chains, gap), lent),
             (("ok", len(file)), file + lent[len(file):]), "written")
        for length in (len(file) - 1, rng.randrange(len(file))):
            short = lent[:length]
            same(ref.write_file(*schedule(tasks, chains, gap), short),
                 (("refused", 11, 0), short), "lent bytes short")
        # A file cut anywhere is 1 at the record that is cut or missing.
        begins = [0]
        for record in records[:-1]:
            begins.append(begins[-1] + len(record))
        for cut in {0, len(file) - 1, *(rng.randrange(len(file))
                                        for _ in range(6)), *begins[:3]}:
            at = max(begin for begin in begins if begin <= cut)
            same(ref.read_file(file[:cut]), ("refused", 1, at), "cut file")
        # Whatever follows the end is 4 at its first byte.
        after = bytes(rng.randrange(256) for _ in range(rng.randint(1, 9)))
        same(ref.read_file(file + after), ("refused", 4, len(file)),
             "bytes after end")
        # A changed file is refused at its first fault, or it is another
        # file that is accepted and written back byte for byte.
        for _change in range(20):
            changed = changed_file(rng, records)
            answer = ref.read_file(changed)
            if answer[0] == "ok":
                back = ref.write_file(*schedule(*answer[1:]), bytes(700))
                same(back, (("ok", len(changed)),
                            changed + bytes(700 - len(changed))),
                     "accepted and written back")
            same(answer[:3] if answer[0] == "refused" else None,
                 first_fault(changed), "first fault of %s" % changed.hex())
    return counts


def group_file_round_trips(rng):
    same(file_round_trips(rng, no_gap),
         {(chains, False) for chains in range(1, 5)}, "1 to 4 chains were met")


def group_file_round_trips_with_gaps(rng):
    same(file_round_trips(rng, file_gap),
         {(chains, gap) for chains in range(1, 5) for gap in (False, True)},
         "1 to 4 chains were met, with a gap and without")


def group_file_faults(_rng):
    one = task_record(3, 10, 2, 0)
    two = task_record(7, 20, 5, 1)
    chain = chain_record([3, 7])
    many = b"".join(task_record(n, 10, 1, 0) for n in range(1, 33))
    body14 = bytes(14)
    cases = [
        # What the case shows, the bytes, number, offset.
        ("empty", b"", 1, 0),
        ("3 bytes", b"\x12\x00\x01", 1, 0),
        ("missing end", one + chain, 6, 18),
        ("missing end", one + two + chain, 1, 44),
        ("length 0 with kind 0", bytes(4), 2, 0),
        ("length 3", le(3, 2) + le(1, 2), 2, 0),
        ("length past the file", le(19, 2) + le(9, 2) + body14, 1, 0),
        ("length 65,535", le(65_535, 2) + le(9, 2), 1, 0),
        ("kind 0", le(4, 2) + le(0, 2), 3, 0),
        ("kind 5", one + le(5, 2) + le(5, 2) + b"x", 3, 18),
        ("kind 4 of length 5", one + le(5, 2) + le(4, 2) + b"x", 2, 18),
        ("kind 256", one + le(4, 2) + le(256, 2), 3, 18),
        ("task of 17", le(17, 2) + le(1, 2) + body14, 2, 0),
        ("task of 19", le(19, 2) + le(1, 2) + body14 + b"x", 2, 0),
        ("wrong length before wrong turn",
         one + two + chain + le(19, 2) + le(1, 2) + body14 + b"x", 2, 44),
        ("chain of no place", one + le(4, 2) + le(2, 2), 2, 18),
        ("chain of odd length", one + le(7, 2) + le(2, 2) + b"\x03\x00x",
         2, 18),
        ("chain of 13", one + chain_record([3] * 13) + END, 2, 18),
        ("end of 6", one + chain_record([3]) + le(6, 2) + le(3, 2) + b"xx",
         2, 24),
        ("task after the chain", one + chain_record([3]) + two + END, 4, 24),
        ("bad task after the chain",
         one + chain_record([3]) + task_record(0, 0, 0, 0), 4, 24),
        ("33rd task", many + task_record(33, 1, 1, 0), 4, 576),
        ("bad 33rd task", many + task_record(1, 0, 0, 0), 4, 576),
        ("chain first", chain + END, 4, 0),
        ("task after two chains",
         one + chain_record([3]) + chain_record([3]) + two + END, 4, 30),
        ("fifth chain", one + two + chain * 5 + END, 4, 68),
        ("bad fifth chain", one + two + chain * 4 + chain_record([9]), 4, 68),
        ("fifth chain of 13",
         one + two + chain * 4 + chain_record([3] * 13), 2, 68),
        ("fifth chain cut", one + two + chain * 4 + chain[:7], 1, 68),
        ("missing end after four chains", one + two + chain * 4, 1, 68),
        ("missing end after three chains", one + two + chain * 3, 1, 60),
        ("unknown task in the second chain",
         one + two + chain + chain_record([3, 9]) + END, 6, 44),
        ("unknown task in the third chain",
         one + two + chain * 2 + chain_record([7, 7, 0]) + END, 6, 52),
        ("unknown task in the fourth chain",
         one + two + chain * 3 + chain_record([1]) + chain, 6, 60),
        ("second chain of no place",
         one + two + chain + le(4, 2) + le(2, 2) + END, 2, 44),
        ("byte after end of two chains",
         one + two + chain * 2 + END + b"\0", 4, 56),
        ("end first", END, 4, 0),
        ("end before the chain", one + END, 4, 18),
        ("task number 0", task_record(0, 10, 2, 0), 5, 0),
        ("equal task number", one + one, 5, 18),
        ("falling task number", two + one, 5, 18),
        ("T 0", task_record(3, 0, 2, 0), 5, 0),
        ("T above", task_record(3, 1_000_001, 2, 0), 5, 0),
        ("D 0", task_record(3, 10, 0, 0), 5, 0),
        ("D above", one + task_record(4, 10, 4_000_001, 0), 5, 18),
        ("F above", one + task_record(4, 10, 1, 1_000_001), 5, 18),
        ("T 2^32 - 1", task_record(3, 2 ** 32 - 1, 2, 0), 5, 0),
        ("unknown task", one + chain_record([3, 4]) + END, 6, 18),
        ("task 0 in the chain", one + chain_record([0]) + END, 6, 18),
        ("byte after end", one + chain_record([3]) + END + b"\0", 4, 28),
        ("record after end", one + chain_record([3]) + END + END, 4, 28),
    ]
    for what, data, number, offset in cases:
        same(ref.read_file(data), ("refused", number, offset), what)
        same(ref.report(data), b"refused %d %d\n" % (number, offset), what)
    largest = many + chain_record([32] * 12) * 4 + END
    same(ref.read_file(largest),
         ("ok", [(n, 10, 1, 0) for n in range(1, 33)], [[32] * 12] * 4, 0),
         "largest file without a gap")
    same(len(largest), 692, "its length")
    largest = many + chain_record([32] * 12) * 4 + gap_record(1_000) + END
    same(ref.read_file(largest),
         ("ok", [(n, 10, 1, 0) for n in range(1, 33)], [[32] * 12] * 4,
          1_000), "largest file")
    same(len(largest), 698, "largest length")
    for count in range(1, 5):
        same(ref.read_file(one + two + chain * count + END),
             ("ok", [(3, 10, 2, 0), (7, 20, 5, 1)], [[3, 7]] * count, 0),
             "%d equal chains" % count)
        same(ref.read_file(one + two + chain * count + gap_record(7) + END),
             ("ok", [(3, 10, 2, 0), (7, 20, 5, 1)], [[3, 7]] * count, 7),
             "%d equal chains and a gap" % count)


def group_gap_records(rng):
    """A record of kind 4 at every turn, with every length and value."""
    one = task_record(1, 4, 4, 0)
    two = task_record(2, 6, 6, 0)
    chain = chain_record([1, 2])
    # The records before, and the chains in them where a gap may follow.
    beginnings = [(b"", 0), (one, 0), (one + two, 0)]
    beginnings += [(one + two + chain * count, count)
                   for count in range(1, 5)]
    beginnings += [(one + two + chain + gap_record(5), 0)]
    # What comes after the gap: a refusal's number and its offset from there.
    endings = [(END, None), (b"", (1, 0)), (chain, (4, 0)), (two, (4, 0)),
               (gap_record(3), (4, 0)), (END + END, (4, 4)),
               (le(4, 2) + le(9, 2), (3, 0))]
    for before, chains in beginnings:
        for value in (0, 1, 2, 255, 256, 257, 999, 1_000, 1_001, 1_024,
                      4_096, 32_768, 65_535):
            for length in range(12):
                body = (le(value, 2) + bytes(8))[:max(0, length - 4)]
                record = le(length, 2) + le(4, 2) + body
                for after, fault in endings:
                    if length != 6:
                        expected = ("refused", 2, len(before))
                    elif not chains:
                        expected = ("refused", 4, len(before))
                    elif not 1 <= value <= 1_000:
                        expected = ("refused", 5, len(before))
                    elif fault is not None:
                        expected = ("refused", fault[0],
                                    len(before) + len(record) + fault[1])
                    else:
                        expected = ("ok", [(1, 4, 4, 0), (2, 6, 6, 0)],
                                    [[1, 2]] * chains, value)
                    same(ref.read_file(before + record + after), expected,
                         "%d bytes, value %d, length %d, then %s"
                         % (len(before), value, length, after.hex()))
                # Cut inside the record: it runs past the file.
                if length > 4:
                    same(ref.read_file((before + record)[:-1]),
                         ("refused", 1, len(before)), "cut gap")
    # One spelling: what is read is written back as the same bytes.
    for gap in range(1_003):
        file = file_of([(1, 4, 4, 0)], [[1]], gap)
        if gap > 1_000:
            same(ref.read_file(file), ("refused", 5, 24), "gap %d" % gap)
            same(ref.write_file(*schedule([(1, 4, 4, 0)], [[1]], gap),
                                b"x" * 40),
                 (("refused", 5, 0), b"x" * 40), "gap %d" % gap)
            continue
        same(len(file), 34 if gap else 28, "length with gap %d" % gap)
        answer = ref.read_file(file)
        same(answer, ("ok", [(1, 4, 4, 0)], [[1]], gap), "gap %d" % gap)
        extra = bytes(rng.randrange(256) for _ in range(rng.randrange(3)))
        same(ref.write_file(*schedule(*answer[1:]), bytes(len(file)) + extra),
             (("ok", len(file)), file + extra), "gap %d again" % gap)
        for short in (len(file) - 1, len(file) - 6):
            same(ref.write_file(*schedule(*answer[1:]), bytes(short)),
                 (("refused", 11, 0), bytes(short)), "bytes for gap %d" % gap)


def group_file_turns(_rng):
    """Every turn of records, each told by a letter.

    t task, c chain, x bad chain, g gap, b bad gap, e end.  A bad chain
    names an unknown task, a bad gap has a value outside its rule.  An
    expression says which rows of records may begin a file.
    """
    begins = re.compile("t{0,32}|t{1,32}c{1,4}g?e?")
    bad_gaps = itertools.cycle([0, 1_001, 1_256, 65_535])

    def judge(row):
        records = []
        for index, letter in enumerate(row):
            records.append({"t": task_record(index + 1, 10, 1, 0),
                            "c": chain_record([1, 1]),
                            "x": chain_record([1, 99]),
                            "g": gap_record(1 + 7 * index),
                            "b": gap_record(next(bad_gaps)),
                            "e": END}[letter])
        expected = None
        for index, letter in enumerate(row):
            offset = sum(map(len, records[:index]))
            known = row[:index + 1].replace("x", "c").replace("b", "g")
            if not begins.fullmatch(known):
                expected = ("refused", 4, offset)
            elif letter == "x":
                expected = ("refused", 6, offset)
            elif letter == "b":
                expected = ("refused", 5, offset)
            if expected is not None:
                break
        else:
            if row.endswith("e"):
                expected = ("ok", [(n, 10, 1, 0) for n
                                   in range(1, row.count("t") + 1)],
                            [[1, 1]] * row.count("c"),
                            1 + 7 * row.index("g") if "g" in row else 0)
            else:
                expected = ("refused", 1, sum(map(len, records)))
        same(ref.read_file(b"".join(records)), expected, row)

    for length in range(6):
        for letters in itertools.product("tcxe", repeat=length):
            judge("".join(letters))
    for letters in itertools.product("tcxe", repeat=6):
        judge("t" + "".join(letters))
    for tasks in range(30, 34):
        for chains in range(6):
            judge("t" * tasks + "c" * chains + "e")
            for gap in ("g", "b", "gg", "gc", "gt", "gx", "bg", "gb"):
                judge("t" * tasks + "c" * chains + gap + "e")
    # With gaps, wherever they stand.
    for length in range(5):
        for letters in itertools.product("tcxgbe", repeat=length):
            judge("".join(letters))
            judge("tc" + "".join(letters))


def group_file_writing(rng):
    lent = bytes(rng.randrange(256) for _ in range(700))
    good = [(n, 10, 1, 0) for n in range(1, 33)]
    chain = list(range(1, 13))
    bad_tasks = [(0, 0, 0, 0)] * 32

    def written_with(gap, task_count, tasks, chain_count, chains):
        arguments = (task_count, tasks, chain_count, chains, gap)
        answer, after = ref.write_file(*arguments, lent)
        if answer[0] == "refused":
            same(after, lent, "lent bytes stay")
            same(ref.schedule_fault(*arguments), answer,
                 "the schedule's fault")
        else:
            same(ref.schedule_fault(*arguments), None, "no fault")
        return answer

    def written(*counts_and_lists):
        """Without a gap.  A gap comes after 8 and 5, before 6 and 11."""
        answer = written_with(0, *counts_and_lists)
        for gap in (1, 256, 1_000):
            same(written_with(gap, *counts_and_lists),
                 ("ok", answer[1] + 6) if answer[0] == "ok" else answer,
                 "with gap %d" % gap)
        for gap in (1_001, 65_536 + 5, 2 ** 32, 2 ** 64 - 1):
            same(written_with(gap, *counts_and_lists),
                 answer if answer[1] in (5, 8) and answer[0] == "refused"
                 else ("refused", 5, 0), "with gap %d" % gap)
        return answer

    for count in (0, 33, 2 ** 32, 2 ** 64 - 1):
        same(written(count, bad_tasks, 1, [(1, chain)] * 4),
             ("refused", 8, 0), "task count %d" % count)
    for count in (0, 5, 2 ** 32, 2 ** 64 - 1):
        same(written(1, bad_tasks, count, [(1, chain)] * 4),
             ("refused", 8, 0), "number of chains %d" % count)
        same(written(1, good, count, [(1, [1] * 12)] * 5),
             ("refused", 8, 0), "number of chains %d alone" % count)
    # The number of places of every counted chain, before 5 and 6.
    for places in (0, 13, 2 ** 64 - 1):
        for which in range(1, 5):
            chains = [(1, [99] * 12)] * 4
            chains[which - 1] = (places, [99] * 12)
            for count in range(1, 5):
                same(written(1, bad_tasks, count, chains),
                     ("refused", 8, 0) if which <= count
                     else ("refused", 5, 1),
                     "places %d of chain %d of %d" % (places, which, count))
    bad = [(0, 10, 1, 0), (5, 0, 1, 0), (5, 1_000_001, 1, 0), (5, 1, 0, 0),
           (5, 1, 4_000_001, 0), (5, 1, 1, 1_000_001), (4, 1, 1, 0)]
    unknown = [(1, [99] * 12)] * 4
    for one in bad:
        tasks = list(good)
        tasks[4] = one
        for count in range(1, 5):
            same(written(32, tasks, count, unknown), ("refused", 5, 5),
                 repr(one))
        tasks[9] = (0, 0, 0, 0)
        same(written(32, tasks, 1, unknown), ("refused", 5, 5), repr(one))
        same(written(4, tasks, 1, [(4, chain)]), ("ok", 4 * 18 + 12 + 4),
             "a fault past the count")
    # A number that is not above the one before is the later task's fault.
    tasks = list(good)
    tasks[4] = (50, 10, 1, 0)
    same(written(32, tasks, 1, [(1, chain)]), ("refused", 5, 6),
         "the later task")
    # An unknown task at every position of every chain.
    for which in range(1, 5):
        for position in range(1, 13):
            numbers = list(chain)
            numbers[position - 1] = 33
            chains = [(12, chain)] * 4
            chains[which - 1] = (12, numbers)
            for count in range(1, 5):
                same(written(32, good, count, chains),
                     ("refused", 6, position) if which <= count
                     else ("ok", 32 * 18 + count * 28 + 4),
                     "unknown task in chain %d of %d" % (which, count))
            if which < 4:
                # A later chain's lower position does not come first.
                chains[which] = (12, [33] * 12)
                same(written(32, good, 4, chains), ("refused", 6, position),
                     "the lower chain")
                chains[which] = (12, chain)
            if position < 12:
                lower = numbers[:11] + [0]
                chains[which - 1] = (12, lower)
                same(written(32, good, 4, chains), ("refused", 6, position),
                     "lowest chain position")
            if position > 1:
                chains[which - 1] = (position - 1, numbers)
                same(written(32, good, 4, chains),
                     ("ok", 32 * 18 + 3 * 28 + 4 + 2 * (position - 1) + 4),
                     "unknown task past the count")
    # A task past the count is unknown.
    same(written(3, good, 1, [(4, chain)]), ("refused", 6, 4),
         "past the count")
    same(written(3, good, 2, [(3, chain), (5, chain)]), ("refused", 6, 4),
         "past the count, second chain")


def listed_fault(task_count, tasks, chain_count, chains, gap):
    """The fault of a schedule: all are listed, the least rank decides."""
    faults = []
    if task_count not in range(1, 33) or chain_count not in range(1, 5):
        faults.append((0, 0, 0, 8))
    for which in range(min(chain_count, len(chains))):
        if chains[which][0] not in range(1, 13):
            faults.append((0, 0, 0, 8))
    if not faults:
        for index in range(task_count):
            number, T, D, F = tasks[index]
            if number not in range(1, 65_536) \
                    or (index > 0 and tasks[index - 1][0] >= number) \
                    or T not in range(1, 1_000_001) \
                    or D not in range(1, 4_000_001) \
                    or F not in range(0, 1_000_001):
                faults.append((1, 0, index + 1, 5))
        if gap not in range(1_001):
            faults.append((2, 0, 0, 5))
        for which in range(chain_count):
            for index in range(chains[which][0]):
                if chains[which][1][index] not in [
                        tasks[at][0] for at in range(task_count)]:
                    faults.append((3, which, index + 1, 6))
    if not faults:
        return None
    _rank, _chain, place, number = min(faults)
    return ("refused", number, place)


def faulty_schedule(rng, choose):
    """A schedule with some faults, or none, in the counted entries."""
    tasks, chains = random_schedule(rng)
    task_count, tasks, chain_count, chains, gap = schedule(tasks, chains,
                                                           choose(rng))
    for _ in range(rng.choice([0, 1, 2, 3])):
        change = rng.randrange(8)
        which = rng.randrange(4)
        places, numbers = chains[which]
        if change == 0:
            task_count = rng.choice([0, 33, task_count, 2 ** 64 - 1])
        elif change == 1:
            chain_count = rng.choice([0, 5, chain_count, 2 ** 64 - 1])
        elif change == 2:
            chains[which] = (rng.choice([0, 13, 2 ** 64 - 1]), numbers)
        elif change < 5:
            at = rng.randrange(min(max(task_count, 1), 32))
            number, T, D, F = tasks[at]
            tasks[at] = rng.choice([
                (0, T, D, F), (number, 0, D, F), (number, T, 0, F),
                (number, 1_000_001, D, F), (number, T, 4_000_001, F),
                (number, T, D, 1_000_001), (65_535, T, D, F)])
        else:
            numbers = list(numbers)
            numbers[rng.randrange(12)] = rng.choice([0, 65_535, 1])
            chains[which] = (places, numbers)
    return task_count, tasks, chain_count, chains, gap


def any_gap(rng):
    """A gap of a schedule, sometimes one above the limit."""
    if rng.random() < 0.7:
        return file_gap(rng)
    return rng.choice([1_001, 1_002, 65_536, 2 ** 32 + 1, 2 ** 64 - 1])


def schedule_faults(rng, choose):
    """The same fault for writing and for every analysis."""
    met = {}
    for _ in range(3_000):
        arguments = faulty_schedule(rng, choose)
        expected = listed_fault(*arguments)
        number = expected[1] if expected else None
        if expected == ("refused", 5, 0):
            number = "gap"
        met[number] = met.get(number, 0) + 1
        same(ref.schedule_fault(*arguments), expected, "fault")
        if expected is None:
            continue
        same(ref.write_file(*arguments, b"xyz"), (expected, b"xyz"),
             "writing")
        n = rng.choice([0, 1, 2, 3, 4, 5, 2 ** 64 - 1])
        m = rng.choice([0, 1, 2, 3, 4, 5, 2 ** 64 - 1])
        same(ref.chain_of_schedule(*arguments, n), expected, "chain")
        same(ref.warm_up_of(*arguments, n), expected, "warm-up")
        same(ref.delay_of(*arguments, n, UPPER + 1), expected, "delay")
        same(ref.age_of(*arguments, n, UPPER + 1), expected, "age")
        same(ref.make_of(*arguments, n, 0, [1], [2, 3]),
             (expected, [1], [2, 3]), "make")
        same(ref.windows_of(*arguments, n, 0, 0), expected, "windows")
        same(ref.sections_of(*arguments, n, [0]), expected, "sections")
        same(ref.smallest_phase_of(*arguments, n, 0, 0), expected, "phase")
        same(ref.latency_at_phases_of(*arguments, n, 0), expected, "phases")
        same(ref.bookings_of(*arguments, n, m, UPPER + 1), expected,
             "bookings")
    same(min(met.values()) > 100, True, "each fault often")
    return set(met)


def group_schedule_faults(rng):
    same(schedule_faults(rng, no_gap), {None, 5, 6, 8},
         "every fault was met")


def group_schedule_faults_with_gaps(rng):
    same(schedule_faults(rng, any_gap), {None, 5, "gap", 6, 8},
         "every fault was met")


# ---------------------------------------------------------------------------
# Analyses from a schedule
# ---------------------------------------------------------------------------

def schedule_of_chains(rng, chains):
    """Tasks and chains of numbers for given chains of (T, D, F).

    Equal tasks of the chains share one number or have several.  Some
    tasks are in no chain.  Tasks stand in a random order.
    """
    places = [task for chain in chains for task in chain]
    distinct = sorted(set(places))
    entries = distinct + [task for task in distinct if rng.random() < 0.2]
    entries += [(1, 1, 0)] * rng.randint(0, 2)
    entries = entries[:max(len(distinct), 32)]
    rng.shuffle(entries)
    numbers = sorted(rng.sample(range(1, 65_536), len(entries)))
    tasks = [(number, *task) for number, task in zip(numbers, entries)]
    return tasks, [[rng.choice([one[0] for one in tasks if one[1:] == task])
                    for task in chain] for chain in chains]


def schedule_analyses(rng, choose):
    for turn in range(140):
        chains = [small_chain(rng, 40) for _ in range(1 + turn % 4)]
        gap = choose(rng, *chains)
        arguments = schedule(*schedule_of_chains(rng, chains), gap)
        for n in list(range(len(chains) + 2)) + [5, 2 ** 64 - 1]:
            what = "chain %d of %r gap %d" % (n, chains, gap)
            k = rng.choice([0, 1, 2, 5, 101])
            B = rng.randint(0, 60)
            t = rng.choice([0, rng.randint(0, 200), UPPER, UPPER + 1])
            if not 1 <= n <= len(chains):
                refusal = ("refused", 16, 0)
                same(ref.chain_of_schedule(*arguments, n), refusal, what)
                same(ref.warm_up_of(*arguments, n), refusal, what)
                same(ref.delay_of(*arguments, n, t), refusal, what)
                same(ref.age_of(*arguments, n, t), refusal, what)
                same(ref.make_of(*arguments, n, 0, [1], [2, 3]),
                     (refusal, [1], [2, 3]), what)
                same(ref.windows_of(*arguments, n, B, k), refusal, what)
                same(ref.sections_of(*arguments, n, [0]), refusal, what)
                same(ref.smallest_phase_of(*arguments, n, 0, B), refusal,
                     what)
                for m in range(len(chains) + 2):
                    same(ref.bookings_of(*arguments, n, m, t), refusal, what)
                    same(ref.bookings_of(*arguments, m, n, t), refusal, what)
                continue
            tasks = chains[n - 1]
            same(ref.chain_of_schedule(*arguments, n), ("ok", tasks), what)
            # Literal walks, without the schedule.
            way = literal_warm_up(tasks, gap)
            x0 = tasks[0][2] + way[0] * tasks[0][0]
            z0 = tasks[-1][2] + way[-1] * tasks[-1][0] + tasks[-1][1]
            H = literal_hyperperiod(tasks)
            same(ref.warm_up_of(*arguments, n), ("ok", way, x0, H), what)
            delays = [literal_delay(tasks, gap, x0 + offset)
                      for offset in range(H)]
            same([ref.delay_of(*arguments, n, x0 + offset)
                  for offset in range(H)], [("ok", one) for one in delays],
                 what)
            same([ref.age_of(*arguments, n, z0 + offset)
                  for offset in range(H)],
                 [("ok", literal_age(tasks, gap, z0 + offset))
                  for offset in range(H)], what)
            # Table and walk agree chain by chain.
            p = rng.randint(1, len(tasks))
            found = anchors_from_delays(delays, x0)
            g = len(found)
            made, starts, latencies = ref.make_of(
                *arguments, n, p, [5] * (g + 1), [6] * (g + 1))
            same(made, ("ok", g, x0, H, H // tasks[p - 1][0]), what)
            same(list(zip(starts, latencies)), found + [(5, 6)], what)
            same([ref.read_table(starts, latencies, g, H, x0 + offset)
                  for offset in range(2 * H)],
                 [("ok", one) for one in delays * 2], what)
            # Every call's own refusals follow.
            same(ref.delay_of(*arguments, n, t), ref.delay(tasks, gap, t),
                 what)
            same(ref.age_of(*arguments, n, t), ref.age(tasks, gap, t), what)
            for place in (0, p, len(tasks) + 1):
                for lists in (([1], [2, 3]), ([1], [2]), ([], [])):
                    same(ref.make_of(*arguments, n, place, *lists),
                         ref.make(tasks, gap, place, *lists), what)
            same(ref.windows_of(*arguments, n, B, k),
                 ref.windows(tasks, gap, B, k), what)


def group_schedule_analyses(rng):
    schedule_analyses(rng, no_gap)
    # A chain of 7 beside a good one: each number has its own answer.
    tasks = [(1, 999_983, 1, 0), (2, 999_979, 1, 0), (9, 10, 3, 5)]
    for turn in itertools.permutations([[1, 2], [9], [9, 9]]):
        arguments = schedule(tasks, list(turn), 0)
        for n, numbers in enumerate(turn, start=1):
            same(ref.warm_up_of(*arguments, n)[:2],
                 ("refused", 7) if numbers == [1, 2]
                 else ("ok", list(range(len(numbers)))), "7 beside")
        same(ref.warm_up_of(*arguments, 4), ("refused", 16, 0),
             "16 before 7")
        # The gap is the schedule's fault, so it comes before 16 and 7.
        arguments = schedule(tasks, list(turn), 1_001)
        for n in range(6):
            same(ref.warm_up_of(*arguments, n), ("refused", 5, 0),
                 "the gap before 16 and 7")


def group_schedule_analyses_with_gaps(rng):
    schedule_analyses(rng, small_gap)


# ---------------------------------------------------------------------------
# Two chains
# ---------------------------------------------------------------------------

def small_pair(rng, largest_common, most_places=4):
    """Two random chains with a small common hyperperiod."""
    while True:
        first = small_chain(rng, largest_common, most_places)
        second = small_chain(rng, largest_common, most_places)
        # Chains of one schedule may share tasks.
        if rng.random() < 0.3:
            second[rng.randrange(len(second))] = rng.choice(first)
        if literal_hyperperiod(first + second) <= largest_common:
            return first, second


def differences_of_tables(first, first_gap, second, second_gap,
                          later_warm_up, common):
    """The differences at every tick, from tables and without a walk."""
    rows = []
    for tasks, gap in ((first, first_gap), (second, second_gap)):
        H = math.lcm(*[T for T, _D, _F in tasks])
        p = ref.longest_period_place(tasks)
        slots = [0] * H
        _answer, starts, latencies = ref.make(tasks, gap, p, slots, slots)
        delays = ref.delays_of_hyperperiod(starts, latencies, _answer[1], H)
        rows.append((starts[0], delays, H))
    (a0, a, Ha), (b0, b, Hb) = rows
    return [abs(a[(t - a0) % Ha] - b[(t - b0) % Hb])
            for t in range(later_warm_up, later_warm_up + common)]


def group_pairs_by_hand(_rng):
    A = CHAIN_A
    B = [(10, 3, 5)]
    C = [(5, 5, 0), (5, 5, 0)]
    D = [(10, 2, 0), (10, 1, 95)]
    # A books 18 from 0, 24 from 8, 30 from 12, and so on.  C books
    # 5 k + 15 from 5 k.  At 24 they are 42 and 35.
    for t, later, earlier in ((0, 18, 15), (4, 18, 15), (5, 20, 18),
                              (8, 24, 20), (12, 30, 25), (15, 30, 30),
                              (24, 42, 35), (55, 70, 66), (60, 78, 75)):
        expected = ("ok", later, earlier, later - earlier, 7)
        same(ref.bookings(A, 0, C, 0, t), expected, "A and C at %d" % t)
        same(ref.bookings(C, 0, A, 0, t), expected, "C and A at %d" % t)
    # Before D's warm-up D books 96, far from B.  This is not counted.
    same(ref.bookings(B, 0, D, 0, 90), ("ok", 106, 98, 8, 8), "B and D at 90")
    same(ref.bookings(B, 0, D, 0, 95), ("ok", 108, 106, 2, 8), "B and D at 95")
    for t in (0, 5, 89):
        same(ref.bookings(B, 0, D, 0, t), ("refused", 12, 0),
             "B and D too early")
        same(ref.bookings(D, 0, B, 0, t), ("refused", 12, 0),
             "D and B too early")
    for tasks in (A, B, C, D):
        x0 = ref.warm_up(tasks, 0)[2]
        end = x0 + ref.delay(tasks, 0, x0)[1]
        same(ref.bookings(tasks, 0, tasks, 0, x0), ("ok", end, end, 0, 0),
             "a chain with itself")
    # The upper tick leaves 40 by 60.  At 40 A books 54 and C books 55.
    same(UPPER % 60, 40, "remainder")
    same(ref.bookings(A, 0, C, 0, 40), ("ok", 55, 54, 1, 7), "A and C at 40")
    same(ref.bookings(A, 0, C, 0, UPPER),
         ("ok", UPPER + 15, UPPER + 14, 1, 7), "upper tick")
    # With gap 1 A books 12 k + 18 from 12 k and 12 k + 24 from 12 k + 4, and
    # C books 5 k + 20 from 5 k.  They lie furthest apart at 35.
    for t, a, c in ((0, 18, 20), (3, 18, 20), (4, 24, 20), (5, 24, 25),
                    (12, 30, 30), (15, 30, 35), (16, 36, 35), (28, 48, 45),
                    (35, 48, 55), (40, 60, 60), (52, 72, 70), (60, 78, 80)):
        expected = ("ok", max(a, c), min(a, c), abs(a - c), 7)
        same(ref.bookings(A, 1, C, 1, t), expected,
             "A and C with gap 1 at %d" % t)
        same(ref.bookings(C, 1, A, 1, t), expected,
             "C and A with gap 1 at %d" % t)
    # One chain with a gap and one without.
    same(ref.bookings(C, 1, C, 0, 0), ("ok", 20, 15, 5, 5),
         "C with gap 1 and without")
    same(ref.bookings(B, 1_000, B, 0, 5), ("ok", 18, 18, 0, 0),
         "B has no link")


def pairs_every_tick(rng, choose):
    equal_warm_ups = set()
    for turn in range(220):
        first, second = small_pair(rng, 30 if turn % 8 else 120,
                                   4 if turn % 9 else 12)
        gap = choose(rng, first, second)
        what = "%r %r gap %d" % (first, second, gap)
        warm = [tasks[0][2] + literal_warm_up(tasks, gap)[0] * tasks[0][0]
                for tasks in (first, second)]
        x = max(warm)
        equal_warm_ups.add((warm[0] > warm[1]) - (warm[0] < warm[1]))
        common = literal_hyperperiod(first + second)
        # Every tick, walked literally.
        one = [literal_booking(first, gap, x + r) for r in range(2 * common)]
        two = [literal_booking(second, gap, x + r) for r in range(2 * common)]
        differences = [abs(a - b) for a, b in zip(one, two)]
        largest = max(differences[:common])
        # The next hyperperiod has the same differences.
        same(differences[common:], differences[:common], "repeats " + what)
        for r in range(2 * common):
            expected = ("ok", max(one[r], two[r]), min(one[r], two[r]),
                        differences[r], largest)
            same(ref.bookings(first, gap, second, gap, x + r), expected, what)
        same(ref.bookings(second, gap, first, gap, x),
             ref.bookings(first, gap, second, gap, x), "turned round " + what)
        if x > 0:
            same(ref.bookings(first, gap, second, gap, x - 1),
                 ("refused", 12, 0), "too early " + what)
        same(ref.bookings(first, gap, second, gap, UPPER + 1),
             ("refused", 13, 0), "too late " + what)
        # The segments, the tables, and the reads of the first places.
        same(ref.greatest_difference_by_segments(first, gap, second, gap, x,
                                                 common),
             largest, "segments " + what)
        same(differences_of_tables(first, gap, second, gap, x, common),
             differences[:common], "tables " + what)
        changes = {x} | {t for T, _D, F in (first[0], second[0])
                         for t in range(F, x + common, T) if t >= x}
        same(max(differences[t - x] for t in changes), largest,
             "reads " + what)
        # The next change, by looking tick by tick.
        for tasks, row in ((first, one), (second, two)):
            for r in range(0, common, 1 + common // 7):
                after = next((q for q in range(r, len(row))
                              if row[q] != row[r]), None)
                if after is not None:
                    same(ref.next_change(tasks, gap, x + r), x + after,
                         "next change " + what)
        # Table and walk agree at any tick.
        t = rng.randint(x, UPPER)
        answer = ref.bookings(first, gap, second, gap, t)
        same(answer[3], differences[(t - x) % common], "far tick " + what)
        same({answer[1], answer[2]},
             {t + ref.delay(first, gap, t)[1],
              t + ref.delay(second, gap, t)[1]}, "delays " + what)
    same(equal_warm_ups, {-1, 0, 1}, "either warm-up is the later one")


def group_pairs_every_tick(rng):
    pairs_every_tick(rng, no_gap)


def group_pairs_every_tick_with_gaps(rng):
    pairs_every_tick(rng, small_gap)
    # Chains with gaps of their own.
    for _ in range(60):
        first, second = small_pair(rng, 30)
        one, two = small_gap(rng, first), small_gap(rng, second)
        what = "%r gap %d %r gap %d" % (first, one, second, two)
        x = max(tasks[0][2] + literal_warm_up(tasks, gap)[0] * tasks[0][0]
                for tasks, gap in ((first, one), (second, two)))
        common = literal_hyperperiod(first + second)
        rows = [(literal_booking(first, one, x + r),
                 literal_booking(second, two, x + r)) for r in range(common)]
        largest = max(abs(a - b) for a, b in rows)
        for r, (a, b) in enumerate(rows):
            same(ref.bookings(first, one, second, two, x + r),
                 ("ok", max(a, b), min(a, b), abs(a - b), largest), what)
        same(ref.greatest_difference_by_segments(first, one, second, two, x,
                                                 common),
             largest, "segments " + what)


def large_pairs(rng, choose):
    # On both sides of the limit of the enumeration, every tick by tables.
    for turn in range(24):
        while True:
            pool = rng.choice([(16, 81, 25), (7, 11, 13, 30), (3, 64, 125),
                               (24, 40, 99, 7), (512, 81), (125, 9, 32),
                               (16, 9, 125), (27, 16, 25)])
            first, second = ([(rng.choice(pool), rng.randint(1, 60),
                               rng.randint(0, 400))
                              for _ in range(rng.randint(1, 3))]
                             for _ in range(2))
            common = math.lcm(*[T for T, _D, _F in first + second])
            if (8_000 <= common <= 20_000) if turn < 4 \
                    else (20_000 < common <= 60_000):
                break
        gap = choose(rng, first, second)
        x = max(ref.warm_up(first, gap)[2], ref.warm_up(second, gap)[2])
        what = "%r %r gap %d" % (first, second, gap)
        largest = max(differences_of_tables(first, gap, second, gap, x,
                                            common))
        same(ref.bookings(first, gap, second, gap, x)[4], largest,
             "greatest of " + what)
        same(ref.greatest_difference_by_segments(first, gap, second, gap, x,
                                                 common),
             largest, "segments of " + what)
        if turn == 4:
            same(ref.greatest_difference_by_ticks(first, gap, second, gap, x,
                                                  common),
                 largest, "ticks of " + what)
    # Full-range values: every start of every anchor of both chains.
    done = 0
    while done < 60:
        first, second = large_chain(rng), large_chain(rng)
        common = math.lcm(*[T for T, _D, _F in first + second])
        if common > 60_000_000 or any(
                common > 1_500 * max(T for T, _D, _F in tasks)
                for tasks in (first, second)):
            continue
        done += 1
        gap = choose(rng, first, second)
        x = max(ref.warm_up(first, gap)[2], ref.warm_up(second, gap)[2])
        ticks = {x}
        for tasks in (first, second):
            p = ref.longest_period_place(tasks)
            H = math.lcm(*[T for T, _D, _F in tasks])
            for start, _latency in ref.anchors(tasks, gap, p):
                t = start + H * ((x - start) // H)
                ticks |= {one for one in range(t, x + common, H) if one >= x}
        largest = max(abs(ref.walked_delay(first, gap, t)
                          - ref.walked_delay(second, gap, t)) for t in ticks)
        what = "%r %r gap %d" % (first, second, gap)
        same(ref.greatest_difference_by_segments(first, gap, second, gap, x,
                                                 common),
             largest, "anchors of " + what)
        t = rng.choice([x, UPPER, rng.randint(x, UPPER)])
        ends = [t + ref.delay(tasks, gap, t)[1] for tasks in (first, second)]
        same(ref.bookings(first, gap, second, gap, t),
             ("ok", max(ends), min(ends), max(ends) - min(ends), largest),
             what)
        for _ in range(20):
            t = rng.randint(x, x + 2 * common)
            same(ref.bookings(first, gap, second, gap, t)[3] <= largest,
                 True, what)


def group_pairs_large(rng):
    large_pairs(rng, no_gap)
    # A period of one tick beside the longest: few segments.
    fast = [(1, 1, 0)]
    slow = [(1_000_000, 1, 0), (768, 1, 0), (5 ** 7, 1, 0)]
    for gap in (0, 1, 500, 1_000):
        x = ref.warm_up(slow, gap)[2]
        answer = ref.bookings(fast, gap, slow, gap, x)
        same(answer[:2], ("ok", x + ref.delay(slow, gap, x)[1]),
             "at the limit")
        p = ref.longest_period_place(slow)
        # A press at t books t + 2 by the fast chain, which has no link.
        same(answer[4], max(latency for _start, latency
                            in ref.anchors(slow, gap, p)) - 2, "at the limit")
    # The largest values: 49,000,000 by hand, beside one tick.
    worst = [(1_000_000, 4_000_000, 1_000_000)] * 12
    same(ref.bookings(worst, 0, fast, 0, 1_000_000),
         ("ok", 50_000_000, 1_000_002, 48_999_998, 48_999_998),
         "largest values")
    # With a gap each of the eleven links costs a period more.
    for gap in (1, 1_000):
        same(ref.bookings(worst, gap, fast, gap, 1_000_000),
             ("ok", 61_000_000, 1_000_002, 59_999_998, 59_999_998),
             "largest values with gap %d" % gap)


def group_pairs_large_with_gaps(rng):
    large_pairs(rng, wide_gap)


def group_pair_refusals(rng):
    good = [(10, 1, 0)]
    late = [(10, 2, 0), (10, 1, 95)]
    huge = [(999_983, 1, 0), (999_979, 1, 0)]
    none = []
    many = [(0, 0, 0)] * 13
    bad = [(10, 1, 0), (10, 0, 0), (0, 1, 0)]
    worse = [(10, 1, 1_000_001)]
    own = [(good, 0, None), (late, 0, None), (huge, 0, ("refused", 7, 0)),
           (none, 0, ("refused", 8, 0)), (many, 0, ("refused", 8, 0)),
           (bad, 0, ("refused", 5, 2)), (worse, 0, ("refused", 5, 1)),
           (good, 1_001, ("refused", 5, 0)),
           (huge, 2 ** 64 - 1, ("refused", 5, 0)),
           (bad, 1_001, ("refused", 5, 2)), (many, 1_001, ("refused", 8, 0))]
    # The first chain's own checks, then the second's own.
    for (first, gap, refusal), (second, other_gap, other) \
            in itertools.product(own, own):
        for t in (0, 90, UPPER + 1):
            if refusal is not None:
                expected = refusal
            elif other is not None:
                expected = other
            elif t == 0 and late in (first, second):
                expected = ("refused", 12, 0)
            elif t > UPPER:
                expected = ("refused", 13, 0)
            else:
                expected = None
            found = ref.bookings(first, gap, second, other_gap, t)
            same(found if found[0] == "refused" else None, expected,
                 "own checks %r %r %d" % (first, second, t))
    # 7 for the common hyperperiod, before 12 and 13.
    pairs = [([(999_983, 1, 0)], [(999_979, 1, 0)]),
             ([(151, 1, 0)], [(397_351, 1, 0)]),
             ([(151, 1, 500), (151, 1, 0)], [(397_351, 1, 900)])]
    for first, second in pairs:
        for t in (0, 1_000_000, UPPER, UPPER + 1):
            for one, two in ((first, second), (second, first)):
                same(ref.bookings(one, 0, two, 0, t), ("refused", 7, 0),
                     "common hyperperiod")
    for first, second in (([(1_000_000, 1, 0)], [(768, 1, 0)]),
                          ([(768, 1, 0)], [(1_000_000, 1, 0)])):
        same(math.lcm(first[0][0], second[0][0], 5 ** 7) <= 60_000_000,
             True, "common hyperperiod within")
        same(ref.bookings(first, 0, second, 0, 0)[0], "ok", "within")
    same(ref.bookings([(1_000_000, 1, 0), (768, 1, 0)], 0,
                      [(5 ** 7, 1, 0)], 0, 2_000_000)[0], "ok",
         "60,000,000 passes")
    # Ticks: either chain may be the late one.
    for first, second in ((good, late), (late, good), (late, late)):
        same(ref.bookings(first, 0, second, 0, 89), ("refused", 12, 0), "89")
        same(ref.bookings(first, 0, second, 0, 90)[0], "ok", "90")
        same(ref.bookings(first, 0, second, 0, UPPER)[0], "ok", "upper tick")
        same(ref.bookings(first, 0, second, 0, UPPER + 1), ("refused", 13, 0),
             "above the upper tick")
    # From a schedule: 8, 5, 6, 16, own, common, 12, 13, one after another.
    # Task 3 is late; tasks 4 and 5 together are 7.
    tasks = [(1, 10, 1, 0), (2, 10, 2, 0), (3, 10, 1, 95), (4, 999_983, 1, 0),
             (5, 999_979, 1, 0)]
    numbers = (0, 1, 2, 3, 4, 5, 2 ** 64 - 1)
    for chains in ([[1], [2, 3], [4, 5], [4]], [[1], [2, 3], [4], [5]]):
        arguments = schedule(tasks, chains, 0)
        for first, second in itertools.product(numbers, numbers):
            for t in (0, 89, 90, UPPER, UPPER + 1):
                if first not in range(1, 5) or second not in range(1, 5):
                    expected = ("refused", 16, 0)
                else:
                    met = set(chains[first - 1] + chains[second - 1])
                    if {4, 5} <= met:
                        expected = ("refused", 7, 0)
                    elif 3 in met and t < 90:
                        expected = ("refused", 12, 0)
                    elif t > UPPER:
                        expected = ("refused", 13, 0)
                    else:
                        expected = None
                found = ref.bookings_of(*arguments, first, second, t)
                same(found if found[0] == "refused" else None, expected,
                     "numbers %d and %d at %d" % (first, second, t))
    arguments = schedule(tasks, [[1], [2, 3], [4, 5], [4]], 0)
    faults = [(("refused", 8, 0), (0, *arguments[1:])),
              (("refused", 8, 0), (*arguments[:2], 5, *arguments[3:])),
              (("refused", 8, 0), (*arguments[:3],
                                   arguments[3][:3] + [(0, [1] * 12)], 0)),
              (("refused", 8, 0), (0, *arguments[1:4], 1_001)),
              (("refused", 5, 4), schedule(tasks[:3] + [(3, 0, 1, 0)],
                                           [[9]], 0)),
              (("refused", 5, 4), schedule(tasks[:3] + [(3, 0, 1, 0)],
                                           [[9]], 1_001)),
              (("refused", 5, 0), (*arguments[:4], 1_001)),
              (("refused", 5, 0), schedule(tasks, [[1], [2, 9], [9]],
                                           2 ** 64 - 1)),
              (("refused", 6, 2), schedule(tasks, [[1], [2, 9], [9]], 0)),
              (("refused", 6, 2), schedule(tasks, [[1], [2, 9], [9]],
                                           1_000))]
    for expected, faulty in faults:
        for first, second in ((1, 2), (0, 9), (1, 1), (9, 1)):
            for t in (0, UPPER + 1):
                same(ref.bookings_of(*faulty, first, second, t), expected,
                     "the schedule first")
    # Random schedules: numbers against lists, equal numbers too.
    for turn in range(60):
        while True:
            chosen = [small_chain(rng, 12, 3) for _ in range(1 + turn % 4)]
            if literal_hyperperiod([task for chain in chosen
                                    for task in chain]) <= 120:
                break
        gap = no_gap(rng) if turn % 2 else small_gap(rng, *chosen)
        arguments = schedule(*schedule_of_chains(rng, chosen), gap)
        for first in range(1, len(chosen) + 1):
            for second in range(1, len(chosen) + 1):
                one, two = chosen[first - 1], chosen[second - 1]
                t = rng.randint(0, 200)
                answer = ref.bookings_of(*arguments, first, second, t)
                same(answer, ref.bookings(one, gap, two, gap, t),
                     "numbers and lists")
                if answer[0] == "ok":
                    ends = [literal_booking(one, gap, t),
                            literal_booking(two, gap, t)]
                    same(answer[1:4], (max(ends), min(ends),
                                       abs(ends[0] - ends[1])), "literal")
                if first == second and answer[0] == "ok":
                    same(answer[3:], (0, 0), "equal numbers")


# ---------------------------------------------------------------------------
# Report
# ---------------------------------------------------------------------------

def literal_report(tasks, gap):
    """The lines of one chain, built from literal walks."""
    way = literal_warm_up(tasks, gap)
    x0 = tasks[0][2] + way[0] * tasks[0][0]
    H = literal_hyperperiod(tasks)
    delays = [literal_delay(tasks, gap, x0 + offset) for offset in range(H)]
    found = anchors_from_delays(delays, x0)
    text = "warm %d\nhyper %d\nanchors %d\n" % (x0, H, len(found))
    text += "".join("a %d %d\n" % anchor for anchor in found)
    text += "max %d\nlow %d\nmean %d %d\n" % (
        max(delays), min(delays) - 1, *mean_of_pieces(found, H))
    text += "walked %d\n" % (H // max(T for T, _D, _F in tasks))
    return text


def reports(rng, choose):
    for turn in range(160):
        chains = [small_chain(rng, 120 if turn % 4 == 0 else 40)
                  for _ in range(1 + turn % 4)]
        gap = choose(rng, *chains)
        file = file_of(*schedule_of_chains(rng, chains), gap)
        text = ""
        for n, chain in enumerate(chains, start=1):
            text += "chain %d\n%s" % (n, literal_report(chain, gap))
        same(ref.report(file), text.encode(),
             "report %r gap %d" % (chains, gap))


def group_report_with_gaps(rng):
    reports(rng, small_gap)
    # Chain A with gap 1, and C, by hand.
    file = FILE_A[:44] + gap_record(1) + END
    same(ref.report(file), b"""chain 1
warm 0
hyper 12
anchors 2
a 0 18
a 4 20
max 20
low 12
mean 384 24
walked 2
""", "report of A with gap 1")
    file = task_record(7, 5, 5, 0) + chain_record([7, 7]) \
        + chain_record([7]) + gap_record(1) + END
    same(ref.report(file), b"""chain 1
warm 0
hyper 5
anchors 1
a 0 20
max 20
low 15
mean 175 10
walked 1
chain 2
warm 0
hyper 5
anchors 1
a 0 10
max 10
low 5
mean 75 10
walked 1
""", "report of C with gap 1")
    # A refused gap record has its line alone; a gap does not change what a
    # chain is refused for.
    same(ref.report(FILE_A[:44] + gap_record(0) + END), b"refused 5 44\n",
         "gap 0 in a file")
    same(ref.report(FILE_A[:44] + gap_record(1_001) + END),
         b"refused 5 44\n", "gap 1,001 in a file")
    same(ref.report(FILE_A[:44] + gap_record(1) * 2 + END),
         b"refused 4 50\n", "gap twice")
    file = task_record(1, 999_983, 1, 0) + task_record(2, 999_979, 1, 0) \
        + chain_record([1, 2]) + gap_record(1_000) + END
    same(ref.report(file), b"chain 1\nrefused 7 0\n", "report of 7")
    file = task_record(1, 1_025, 1, 0) + task_record(2, 1_026, 1, 0) \
        + chain_record([1, 2]) + gap_record(1_000) + END
    same(ref.report(file), b"chain 1\nrefused 11 0\n", "1,025 anchors")


def group_report(rng):
    reports(rng, no_gap)
    # Chains that are read but refused by making.
    file = task_record(1, 999_983, 1, 0) + task_record(2, 999_979, 1, 0) \
        + chain_record([1, 2]) + END
    same(ref.report(file), b"chain 1\nrefused 7 0\n", "report of 7")
    # Periods 1,024 and 1,025 have no common divisor: g is H / 1,025.
    file = task_record(1, 1_024, 1, 0) + task_record(2, 1_025, 1, 0) \
        + chain_record([1, 2]) + END
    full = ref.report(file).splitlines()
    same(full[0], b"chain 1", "1,024 slots")
    same(full[3], b"anchors 1024", "1,024 slots")
    file = task_record(1, 1_025, 1, 0) + task_record(2, 1_026, 1, 0) \
        + chain_record([1, 2]) + END
    same(ref.report(file), b"chain 1\nrefused 11 0\n", "1,025 anchors")
    # The slots are for each chain: two full tables, one after the other.
    file = task_record(1, 1_024, 1, 0) + task_record(2, 1_025, 1, 0) \
        + chain_record([1, 2]) * 2 + END
    same(ref.report(file).splitlines(),
         full + [b"chain 2"] + full[1:], "1,024 slots for each chain")
    # Refused chains first, in the middle, last, and in every turn.
    tasks = [(1, 10, 3, 5), (2, 999_983, 1, 0), (3, 999_979, 1, 0),
             (4, 1_025, 1, 0), (5, 1_026, 1, 0)]
    kinds = [([1], literal_report([(10, 3, 5)], 0)),
             ([1, 1], literal_report([(10, 3, 5)] * 2, 0)),
             ([2, 3], "refused 7 0\n"), ([4, 5], "refused 11 0\n")]
    rows = [row for count in (1, 2) for row
            in itertools.product(kinds, repeat=count)]
    rows += list(itertools.product(kinds[:3], repeat=3))
    rows += list(itertools.permutations(kinds))
    rows += [[kinds[2]] * 4]
    for row in rows:
        file = b"".join(task_record(*task) for task in tasks)
        file += b"".join(chain_record(numbers) for numbers, _text in row)
        text = "".join("chain %d\n%s" % (n, lines) for n, (_numbers, lines)
                       in enumerate(row, start=1))
        same(ref.report(file + END), text.encode(), "refused chains")
        # A refused file has its one line alone.
        same(ref.report(file), b"refused 1 %d\n" % len(file),
             "refused file of %d chains" % len(row))
        same(ref.report(file + END + b"x"),
             b"refused 4 %d\n" % (len(file) + 4), "byte after end")
        if len(row) == 4:
            same(ref.report(file + chain_record([1]) + END),
                 b"refused 4 %d\n" % len(file), "fifth chain")
    # The text does not show the place among equals, so it is compared.
    same(ref.longest_period_place([(4, 1, 0), (6, 1, 0), (6, 2, 0)]), 2,
         "lowest place among equals")
    # A longer input is judged as if it ended after 4,096 bytes.
    same(ref.report(FILE_A + bytes(5_000)), b"refused 4 48\n", "long input")
    record = le(4_072, 2) + le(9, 2) + bytes(4_068)
    long = task_record(1, 4, 4, 0) + chain_record([1]) + record
    same(len(long), 4_096, "length")
    same(ref.report(long), b"refused 3 24\n", "record up to the limit")
    record = le(4_073, 2) + le(9, 2) + bytes(4_069)
    long = task_record(1, 4, 4, 0) + chain_record([1]) + record
    same(ref.report(long), b"refused 1 24\n", "record past the limit")
    same(ref.read_file(long), ("refused", 3, 24), "the file itself")


# ---------------------------------------------------------------------------
# Full range
# ---------------------------------------------------------------------------

def full_range(rng, choose):
    """Delays and ages over the full range.

    The forward end of a press at t is the first write whose backward
    start lies after t.  So delay and age decide each other.
    """
    for turn in range(2_500):
        tasks = large_chain(rng)
        gap = choose(rng, tasks)
        if gap and turn % 2:
            tasks = tightened(rng, tasks, gap)
        _ok, way, x0, H = ref.warm_up(tasks, gap)
        T, D, F = tasks[-1]
        z0 = F + way[-1] * T + D
        t = rng.choice([x0, UPPER, rng.randint(x0, UPPER),
                        rng.randint(x0, x0 + 2 * H)])
        one = ref.delay(tasks, gap, t)[1]
        end = t + one
        if end <= UPPER:
            same(end - ref.age(tasks, gap, end)[1] > t, True, "age at the end")
            same((end - 1) - ref.age(tasks, gap, end - 1)[1] <= t, True,
                 "age before the end")
        if t + H <= UPPER:
            same(ref.delay(tasks, gap, t + H), ("ok", one), "delay repeats")
        z = rng.choice([z0, UPPER, rng.randint(z0, UPPER)])
        start = z - ref.age(tasks, gap, z)[1]
        same(start + ref.delay(tasks, gap, start)[1] > z, True,
             "delay at the start")
        if start > x0:
            same(start - 1 + ref.delay(tasks, gap, start - 1)[1] <= z, True,
                 "delay before the start")
        same(ref.delay(tasks, gap, x0 - 1) if x0 else ("refused", 12, 0),
             ("refused", 12, 0), "too early")
    # Tables with few partitions and large values.
    for _ in range(60):
        while True:
            tasks = large_chain(rng)
            H = math.lcm(*[task[0] for task in tasks])
            cuts = [p for p in range(1, len(tasks) + 1)
                    if H // tasks[p - 1][0] <= 200]
            if cuts:
                break
        gap = choose(rng, tasks)
        tables = []
        for p in cuts:
            answer, starts, latencies = ref.make(tasks, gap, p, [0] * 200,
                                                 [0] * 200)
            g, x0 = answer[1], answer[2]
            same(answer, ("ok", g, x0, H, H // tasks[p - 1][0]), "made")
            same(ref.well_formed(starts, latencies, g, H), True,
                 "well-formed")
            tables.append((starts, latencies, g, H))
        for other in tables[1:]:
            same(other, tables[0], "equal for every cut")
        starts, latencies, g, H = tables[0]
        ticks = [rng.randint(starts[0], UPPER) for _ in range(20)]
        # At each anchor, and just before the next one.
        ticks += starts[:g] + [start - 1 for start in starts[1:g]]
        for t in ticks:
            same(ref.read_table(*tables[0], t), ref.delay(tasks, gap, t),
                 "table at %d" % t)
        # The age nears its limit just before the write that ends the
        # segment with the greatest latency.
        longest = ref.greatest(*tables[0])[1]
        start = starts[latencies.index(longest)]
        same(1 + ref.age(tasks, gap, start + longest - 1)[1], longest,
             "greatest age")


def group_full_range(rng):
    full_range(rng, no_gap)


def group_full_range_with_gaps(rng):
    full_range(rng, wide_gap)


def bounds(rng, choose):
    """Bounds by hand: from place i on, reads wait less than a period."""
    largest = 0
    for turn in range(1_500):
        tasks = large_chain(rng)
        gap = choose(rng, tasks)
        if gap and turn % 2:
            tasks = tightened(rng, tasks, gap)
        _ok, way, x0, _H = ref.warm_up(tasks, gap)
        n = len(tasks)
        bound = max(
            tasks[i][2] - sum(D + gap for _T, D, _F in tasks[:i])
            + sum(T - 1 for T, _D, _F in tasks[i + 1:]) for i in range(n))
        same(x0 <= bound, True, "bound of x0 %r" % (tasks,))
        latency = sum(T + D for T, D, _F in tasks) + (n - 1) * (gap - 1)
        same(latency <= 60_010_989, True, "bound of every latency")
        t = rng.randint(x0, x0 + 60_000_000)
        found = ref.delay(tasks, gap, t)[1]
        same(found <= latency, True, "bound of the delay %r" % (tasks,))
        same(found > sum(D for _T, D, _F in tasks) + (n - 1) * gap, True,
             "the delay is above all durations and gaps %r" % (tasks,))
        largest = max(largest, way[-1])
    # The chains reach beyond the literal search of the warm-up job.
    same(largest > 1_000_000, True, "a large warm-up job was met")


def group_bounds(rng):
    bounds(rng, no_gap)
    # The largest values, by hand: each write is the next place's read.
    worst = [(1_000_000, 4_000_000, 1_000_000)] * 12
    same(ref.warm_up(worst, 0), ("ok", [4 * i for i in range(12)],
                                 1_000_000, 1_000_000), "largest values")
    same(ref.delay(worst, 0, 1_000_000), ("ok", 49_000_000),
         "delay of the largest values")
    # With a gap each value waits for the read a period later.
    for gap in (1, 2, 999, 1_000):
        same(ref.warm_up(worst, gap), ("ok", [5 * i for i in range(12)],
                                       1_000_000, 1_000_000),
             "largest values with gap %d" % gap)
        same(ref.delay(worst, gap, 1_000_000), ("ok", 60_000_000),
             "delay of the largest values with gap %d" % gap)


def group_bounds_with_gaps(rng):
    bounds(rng, wide_gap)


def group_anchor_corners(_rng):
    # The last partition already starts in the next hyperperiod.
    tasks = [(100, 1, 0), (10, 1, 50)]
    same(ref.partitions(tasks, 0, 2),
         [(0, 61), (0, 71), (0, 81), (0, 91), (0, 101), (0, 111),
          (100, 121), (100, 131), (100, 141), (100, 151)],
         "ten partitions at place 2")
    same(ref.anchors(tasks, 0, 2), [(0, 111)], "one anchor at place 2")
    same(ref.anchors(tasks, 0, 1), [(0, 111)], "one anchor at place 1")
    same(ref.make(tasks, 0, 2, [], []),
         (("refused", 11, 0, 1, 0, 100, 10), [], []), "two empty lists")
    # Ends that repeat more than once leave one anchor.  Job 0 of the last
    # place reads before any write, so its job 1 is W2 and 5 is W1.
    tasks = [(1, 1, 0), (6, 1, 0)]
    same(ref.warm_up(tasks, 0), ("ok", [5, 1], 5, 6), "warm-up by hand")
    same(ref.partitions(tasks, 0, 1), [(start, 13) for start in range(5, 11)],
         "six partitions with one end")
    for p in (1, 2):
        same(ref.anchors(tasks, 0, p), [(5, 8)], "one anchor remains")


# ---------------------------------------------------------------------------
# The gap, order 5
# ---------------------------------------------------------------------------

CHAIN_B = [(10, 3, 5)]
CHAIN_C = [(5, 5, 0), (5, 5, 0)]
CHAIN_D = [(10, 2, 0), (10, 1, 95)]
CHAIN_X = [(3, 2, 1), (7, 5, 2), (4, 4, 0)]


def group_gap_by_hand(_rng):
    # Chain, gap, W, x0, H and the anchors.
    cases = [
        # C: a value written at 5 is read at 5, with a gap at 10.  Gap 5 is
        # the last with which the read at 10 is in time.
        ("C", CHAIN_C, 0, [0, 1], 0, 5, [(0, 15)]),
        ("C", CHAIN_C, 1, [0, 2], 0, 5, [(0, 20)]),
        ("C", CHAIN_C, 2, [0, 2], 0, 5, [(0, 20)]),
        ("C", CHAIN_C, 4, [0, 2], 0, 5, [(0, 20)]),
        ("C", CHAIN_C, 5, [0, 2], 0, 5, [(0, 20)]),
        ("C", CHAIN_C, 6, [0, 3], 0, 5, [(0, 25)]),
        ("C", CHAIN_C, 1_000, [0, 201], 0, 5, [(0, 1_015)]),
        # A: with gap 2 the write at 4 is readable at 6, just in time.
        ("A", CHAIN_A, 0, [0, 1], 0, 12, [(0, 18), (8, 16)]),
        ("A", CHAIN_A, 1, [0, 1], 0, 12, [(0, 18), (4, 20)]),
        ("A", CHAIN_A, 2, [0, 1], 0, 12, [(0, 18), (4, 20)]),
        ("A", CHAIN_A, 3, [1, 2], 4, 12, [(4, 20), (8, 22)]),
        ("A", CHAIN_A, 4, [1, 2], 4, 12, [(4, 20), (8, 22)]),
        ("A", CHAIN_A, 1_000, [1, 168], 4, 12, [(4, 1_016), (8, 1_018)]),
        # D: the read at 95 takes the write at 92 up to gap 3.
        ("D", CHAIN_D, 0, [9, 0], 90, 10, [(90, 16)]),
        ("D", CHAIN_D, 2, [9, 0], 90, 10, [(90, 16)]),
        ("D", CHAIN_D, 3, [9, 0], 90, 10, [(90, 16)]),
        ("D", CHAIN_D, 4, [8, 0], 80, 10, [(80, 26)]),
        ("D", CHAIN_D, 1_000, [0, 91], 0, 10, [(0, 1_016)]),
    ]
    # B has no link, so no gap matters.
    cases += [("B", CHAIN_B, gap, [0], 5, 10, [(5, 13)])
              for gap in (0, 1, 2, 500, 999, 1_000)]
    # Each link adds a gap, and each read comes a tick too early: the longest
    # latency of all.  Without a gap, further below, it is 11 times 1,000
    # less.
    cases += [("twelve places",
               [(1_000_000, 4_000_000, 999 * i) for i in range(12)], 1_000,
               [5 * i for i in range(12)], 0, 1_000_000, [(0, 60_010_989)])]
    for name, tasks, gap, way, x0, H, expected in cases:
        what = "%s with gap %d" % (name, gap)
        same(ref.warm_up(tasks, gap), ("ok", way, x0, H), what)
        same(literal_warm_up(tasks, gap), way, what + ", searched")
        for p in range(1, len(tasks) + 1):
            same(ref.anchors(tasks, gap, p), expected, what)
            g = len(expected)
            same(ref.make(tasks, gap, p, [7] * (g + 1), [9] * (g + 1)),
                 (("ok", g, x0, H, H // tasks[p - 1][0]),
                  [start for start, _latency in expected] + [7],
                  [latency for _start, latency in expected] + [9]), what)
        for start, latency in expected:
            same(ref.delay(tasks, gap, start), ("ok", latency), what)
        same(ref.delay(tasks, gap, x0 - 1) if x0 else ("refused", 12, 0),
             ("refused", 12, 0), what + ", too early")
    same(ref.delay(CHAIN_C, 1, 0), ("ok", 20), "C with gap 1 at 0")
    same(ref.age(CHAIN_C, 1, 15), ("ok", 15), "C with gap 1, age at 15")
    same(ref.age(CHAIN_C, 1, 14), ("refused", 12, 0), "C, age at 14")
    same(ref.age(CHAIN_C, 1, 19), ("ok", 19), "C with gap 1, age at 19")
    same(ref.age(CHAIN_C, 1, 20), ("ok", 15), "C with gap 1, age at 20")
    for t, expected in ((4, 20), (7, 17), (8, 22), (15, 15), (16, 20)):
        same(ref.delay(CHAIN_A, 3, t), ("ok", expected),
             "A with gap 3 at %d" % t)
    same(ref.age(CHAIN_A, 3, 17), ("refused", 12, 0), "A, age at 17")
    for z, expected in ((18, 14), (23, 19), (24, 16), (29, 21)):
        same(ref.age(CHAIN_A, 3, z), ("ok", expected),
             "A with gap 3, age at %d" % z)
    same(ref.partitions(CHAIN_A, 1, 1), [(0, 18), (4, 24), (8, 24)],
         "A with gap 1, partitions at 1")
    same(ref.partitions(CHAIN_A, 1, 2), [(0, 18), (4, 24)],
         "A with gap 1, partitions at 2")
    # With gap 1 every job of A needs more than 11; without, job 2 does not.
    same(ref.windows(CHAIN_A, 1, 11, 2), ("ok", 2, 1), "A with gap 1")
    same(ref.windows(CHAIN_A, 0, 11, 2), ("ok", 2, 3), "A without a gap")
    # X, the first anchor by hand: 1, 4, 6, 10, 16, 21, 25, 28, 32.
    same(ref.warm_up(CHAIN_X, 4), ("ok", [0, 1, 5], 1, 84), "X with gap 4")
    for p in (1, 2, 3):
        same(ref.anchors(CHAIN_X, 4, p)[0], (1, 31), "X with gap 4")
    twelve = [(1_000_000, 4_000_000, 999 * i) for i in range(12)]
    same(ref.age(twelve, 1_000, 60_010_988), ("ok", 60_010_988),
         "greatest age of all")
    same(ref.age(twelve, 1_000, 60_010_989), ("ok", 59_010_989),
         "and a tick later")
    without = [(1_000_000, 4_000_000, 999_999 * i % 1_000_000)
               for i in range(12)]
    for p in (1, 12):
        same([latency for _start, latency in ref.anchors(without, 0, p)],
             [59_999_989], "greatest latency without a gap")
    # Refusals.
    same(ref.check_chain(CHAIN_A, 1_001), ("refused", 5, 0), "A, 1,001")
    same(ref.check_chain(CHAIN_B, 1_001), ("refused", 5, 0), "B, 1,001")
    same(ref.check_chain([(0, 1, 0)], 1_001), ("refused", 5, 1),
         "the task before the gap")
    long = [(769, 1, 0), (78_125, 1, 0)]
    same(ref.check_chain(long, 1_001), ("refused", 5, 0), "the gap before 7")
    same(ref.check_chain(long, 1_000), ("refused", 7, 0), "7")
    same(ref.check_chain([], 1_001), ("refused", 8, 0), "8 before the gap")
    lent = b"x" * 60
    for gap, expected in ((1_001, ("refused", 5, 0)),
                          (1_000, ("refused", 6, 2)), (0, ("refused", 6, 2))):
        arguments = schedule([(1, 4, 4, 0)], [[1, 9]], gap)
        same(ref.write_file(*arguments, lent), (expected, lent),
             "writing with gap %d" % gap)
        same(ref.chain_of_schedule(*arguments, 3), expected,
             "chain with gap %d" % gap)


def group_gap_files_by_hand(_rng):
    """Files of one task (18 bytes) and one chain of two places (8 bytes)."""
    task = bytes.fromhex("1200" "0100" "0100" "04000000" "04000000"
                         "00000000")
    chain = bytes.fromhex("0800" "0200" "0100" "0100")
    gap = bytes.fromhex("0600" "0400" "0100")
    end = bytes.fromhex("0400" "0300")
    file = task + chain + gap + end
    same(len(file), 36, "36 bytes")
    read = ("ok", [(1, 4, 4, 0)], [[1, 1]], 1)
    same(ref.read_file(file), read, "gap 1")
    same(ref.write_file(*schedule(*read[1:]), b"\xaa" * 40),
         (("ok", 36), file + b"\xaa" * 4), "written")
    same(ref.write_file(*schedule(*read[1:]), b"\xaa" * 35),
         (("refused", 11, 0), b"\xaa" * 35), "35 bytes lent")
    same(ref.write_file(*schedule(*read[1:3], 0), b"\xaa" * 40),
         (("ok", 30), task + chain + end + b"\xaa" * 10), "gap 0 written")
    # 1,000 is 03E8 in hexadecimal.
    most = bytes.fromhex("0600" "0400" "e803")
    same(ref.read_file(task + chain + most + end),
         (*read[:3], 1_000), "gap 1,000")
    none = bytes.fromhex("0600" "0400" "0000")
    above = bytes.fromhex("0600" "0400" "e903")
    long = bytes.fromhex("0800" "0400" "0100" "0000")
    for what, data, number, offset in [
            ("value 0", task + chain + none + end, 5, 26),
            ("value 1,001", task + chain + above + end, 5, 26),
            ("value 65,535",
             task + chain + bytes.fromhex("06000400ffff") + end, 5, 26),
            ("twice", task + chain + gap + gap + end, 4, 32),
            ("twice, the second 0", task + chain + gap + none + end, 4, 32),
            ("before the chain", task + gap + chain + end, 4, 18),
            ("0 before the chain", task + none + chain + end, 4, 18),
            ("first", gap + task + chain + end, 4, 0),
            ("a chain after it", task + chain + gap + chain + end, 4, 32),
            ("an unknown task after it", task + chain + gap
             + bytes.fromhex("060002000900") + end, 4, 32),
            ("a task after it", task + chain + gap + task + end, 4, 32),
            ("length 8", task + chain + long + end, 2, 26),
            ("length 8 before the chain", task + long + chain + end, 2, 18),
            ("length 8 twice", task + chain + gap + long + end, 2, 32),
            ("length 4", task + chain + bytes.fromhex("04000400") + end, 2,
             26),
            ("no end", task + chain + gap, 1, 32),
            ("a byte of it missing", task + chain + gap[:5], 1, 26),
            ("a byte after the end", file + b"\0", 4, 36),
            ("a gap after the end", file + gap, 4, 36),
            ("kind 5", task + chain + bytes.fromhex("060005000100") + end, 3,
             26)]:
        same(ref.read_file(data), ("refused", number, offset), what)
        same(ref.report(data), b"refused %d %d\n" % (number, offset), what)


def group_links(rng):
    """One link by listing jobs: each write + gap against each read."""
    met = {}

    def check(first, second, gap):
        (T, D, F), (next_T, _D, next_F) = first, second
        most = (F + 6 * T + D + gap) // next_T + 2
        readable = [F + i * T + D + gap
                    for i in range((next_F + 6 * next_T) // T + 2)]
        reads = [next_F + j * next_T for j in range(most)]
        what = "%r %r gap %d" % (first, second, gap)
        for i in range(6):
            tick = F + i * T + D + gap
            found = min(j for j in range(most) if tick <= reads[j])
            same(ref.forward([first, second], gap, 1, i), found, what)
            kind = "just fits" if reads[found] == tick else "waits"
            if found and reads[found - 1] == tick - 1:
                kind = "just misses"
            met[kind] = met.get(kind, 0) + 1
        for j in range(6):
            read = next_F + j * next_T
            before = [i for i, tick in enumerate(readable) if tick <= read]
            found = max(before) if before else None
            same(ref.backward([first, second], gap, 2, j), found, what)
            met[found is None] = met.get(found is None, 0) + 1

    for T, next_T in itertools.product((1, 2, 3, 4), repeat=2):
        for D, F, next_F, gap in itertools.product((1, 2, 5), (0, 1),
                                                   (0, 1, 4, 9), range(6)):
            check((T, D, F), (next_T, 1, next_F), gap)
    for _ in range(1_500):
        first, second = [(rng.randint(1, 60), rng.randint(1, 90),
                          rng.randint(0, 90)) for _ in range(2)]
        check(first, second, rng.choice([deciding_gap(rng, [first, second]),
                                         rng.randint(0, 1_000), 1_000]))
    for kind in ("just fits", "just misses", "waits", True, False):
        same(met.get(kind, 0) > 500, True, "often met: %s" % kind)
    # Over the full range each step's neighbours decide.
    for _ in range(1_000):
        tasks = large_chain(rng)
        gap = wide_gap(rng)
        tasks = tightened(rng, tasks, gap)
        for place in range(1, len(tasks)):
            (T, D, F), (next_T, _D, next_F) = tasks[place - 1:place + 1]
            pair = tasks[place - 1:place + 1]
            i = rng.choice([0, rng.randint(0, 10 ** 6)])
            j = ref.forward(pair, gap, 1, i)
            tick = F + i * T + D + gap
            same((tick <= next_F + j * next_T,
                  j == 0 or tick > next_F + (j - 1) * next_T),
                 (True, True), "forward is the earliest")
            i = ref.backward(pair, gap, 2, j)
            same((F + i * T + D + gap <= next_F + j * next_T,
                  F + (i + 1) * T + D + gap > next_F + j * next_T),
                 (True, True), "backward is the latest")


def flow(tasks, gap, until):
    """What lies at the chain's end at each tick before `until`.

    Values travel tick by tick, and nothing is searched.  A value is told by
    the tick at which the first place read it, None where there is none yet.
    Behind the last place it lies from its write on, behind each other place
    from write + gap on.  Within a tick values come to lie before jobs read,
    so equal ticks connect.
    """
    places = range(len(tasks))
    lies = [None for _ in places]
    comes = [{} for _ in places]
    seen = []
    for tick in range(until):
        for place in places:
            if tick in comes[place]:
                lies[place] = comes[place].pop(tick)
        for place, (T, D, F) in enumerate(tasks):
            if tick >= F and (tick - F) % T == 0:
                value = tick if place == 0 else lies[place - 1]
                if value is not None:
                    wait = gap if place < len(tasks) - 1 else 0
                    comes[place][tick + D + wait] = value
        seen.append(lies[-1])
    return seen


def group_flow(rng):
    """Warm-up, age and delay against values that travel tick by tick."""
    chains = [(tasks, gap) for tasks in (CHAIN_A, CHAIN_B, CHAIN_C, CHAIN_D,
                                         CHAIN_X)
              for gap in (0, 1, 2, 3, 4, 5, 6, 7, 999, 1_000)]
    for _ in range(250):
        tasks = small_chain(rng, 60)
        chains.append((tasks, small_gap(rng, tasks)))
    for tasks, gap in chains:
        what = "%r gap %d" % (tasks, gap)
        _ok, way, x0, H = ref.warm_up(tasks, gap)
        # Longer than two hyperperiods of presses and their delays.
        until = tasks[-1][2] + way[-1] * tasks[-1][0] + 4 * H \
            + sum(T + D + gap for T, D, _F in tasks)
        seen = flow(tasks, gap, until)
        first = next(z for z in range(until) if seen[z] is not None)
        same((first, seen[first]),
             (tasks[-1][2] + way[-1] * tasks[-1][0] + tasks[-1][1], x0),
             "the first value comes with Wn and stems from W1, " + what)
        if first > 0:
            same(ref.age(tasks, gap, first - 1), ("refused", 12, 0), what)
        same([ref.age(tasks, gap, z) for z in range(first, first + 2 * H)],
             [("ok", z - seen[z]) for z in range(first, first + 2 * H)],
             "age of " + what)
        # A press is booked by the first value that was read after it.
        booked = []
        z = first
        for t in range(x0, x0 + 2 * H):
            while seen[z] <= t:
                z += 1
            booked.append(("ok", z - t))
        same([ref.delay(tasks, gap, t) for t in range(x0, x0 + 2 * H)],
             booked, "delay of " + what)


def plain_backward_way(tasks, job):
    """Document 01's backward way; it knows no gap."""
    way = [job]
    for (T, D, F), (next_T, _D, next_F) in zip(tasks[-2::-1], tasks[:0:-1]):
        read = next_F + way[0] * next_T
        if F + D > read:
            return None
        way.insert(0, max(i for i in range(read // T + 1)
                          if F + i * T + D <= read))
    return way


def group_gap_of_none(rng):
    """With gap 0 every answer is that of document 01, which has no gap."""
    for _ in range(200):
        tasks = small_chain(rng, 60)
        what = repr(tasks)
        H = literal_hyperperiod(tasks)
        last = next(job for job in itertools.count()
                    if plain_backward_way(tasks, job) is not None)
        way = plain_backward_way(tasks, last)
        T, D, F = tasks[-1]
        x0 = tasks[0][2] + way[0] * tasks[0][0]
        same(ref.warm_up(tasks, 0), ("ok", way, x0, H), "warm-up " + what)
        z0 = F + last * T + D
        for offset in range(H):
            # The latest write of the last place at or before this tick.
            job = last + offset // T
            start = plain_backward_way(tasks, job)[0]
            same(ref.age(tasks, 0, z0 + offset),
                 ("ok", z0 + offset - tasks[0][2] - start * tasks[0][0]),
                 "age " + what)
        for t in range(x0, x0 + H):
            # The first job of the last place that stems from a read after t.
            job = last
            while tasks[0][2] + plain_backward_way(tasks, job)[0] \
                    * tasks[0][0] <= t:
                job += 1
            same(ref.delay(tasks, 0, t), ("ok", F + job * T + D - t),
                 "delay " + what)
        delays = [ref.delay(tasks, 0, x0 + offset)[1] for offset in range(H)]
        for p in range(1, len(tasks) + 1):
            same(ref.anchors(tasks, 0, p), anchors_from_delays(delays, x0),
                 "anchors " + what)


def moved(tasks, ticks):
    """The chain with each place read that much later after the one before."""
    return [(T, D, F + index * ticks)
            for index, (T, D, F) in enumerate(tasks)]


def group_gap_and_phases(rng):
    """A longer gap, with later places reading so much later, keeps the jobs.

    Every read and write of place i then comes i - 1 times as many ticks
    later as the gap is longer, so each job connects as it did.
    """
    for turn in range(400):
        more = rng.choice([1, 2, rng.randint(1, 1_000), 1_000])
        gap = rng.choice([0, 0, 1_000 - more, rng.randint(0, 1_000 - more)])
        if turn % 2:
            tasks = small_chain(rng, 120)
        else:
            while True:
                tasks = [(T, D, min(F, 989_000))
                         for T, D, F in large_chain(rng)]
                H = math.lcm(*[task[0] for task in tasks])
                if H <= 200 * max(task[0] for task in tasks):
                    break
        later = moved(tasks, more)
        lag = (len(tasks) - 1) * more
        what = "%r gap %d and %d" % (tasks, gap, gap + more)
        _ok, way, x0, H = ref.warm_up(tasks, gap)
        same(ref.warm_up(later, gap + more), ("ok", way, x0, H), what)
        z0 = ref.write_of(tasks[-1], way[-1])
        for _ in range(5):
            t = rng.randint(x0, rng.choice([x0 + 2 * H, UPPER]))
            same(ref.delay(later, gap + more, t),
                 ("ok", ref.delay(tasks, gap, t)[1] + lag), "delay " + what)
            z = rng.randint(z0, rng.choice([z0 + 2 * H, UPPER - lag]))
            same(ref.age(later, gap + more, z + lag),
                 ("ok", ref.age(tasks, gap, z)[1] + lag), "age " + what)
        same(ref.age(later, gap + more, z0 + lag - 1), ("refused", 12, 0),
             "age too early " + what)
        p = ref.longest_period_place(tasks)
        found = ref.anchors(tasks, gap, p)
        same(ref.anchors(later, gap + more, p),
             [(start, latency + lag) for start, latency in found],
             "anchors " + what)
        T1 = tasks[0][0]
        if H // T1 <= 300:
            B = rng.choice(found)[1] - rng.randint(0, T1)
            k = rng.randint(1, 10)
            same(ref.windows(later, gap + more, max(0, B) + lag, k),
                 ref.windows(tasks, gap, max(0, B), k), "windows " + what)
        t = rng.randint(x0, x0 + H)
        same(ref.bookings(later, gap + more, later[:1], gap, t)[1:3],
             (ref.booking(tasks, gap, t) + lag, ref.booking(tasks[:1], 0, t)),
             "bookings " + what)


# ---------------------------------------------------------------------------
# Sections, order 6
# ---------------------------------------------------------------------------

CHAIN_FOUR = [(5, 2, 0), (7, 3, 1), (10, 4, 3), (4, 1, 2)]
# Lists that are refused with 17 for every chain.
NOT_CUTS = [[0], [2 ** 64 - 1], [1, 1], [2, 1], list(range(12)),
            list(range(1, 13)), list(range(1, 14)), [1] * 13]


def literal_greatest(tasks, gap):
    """The largest delay, tick by tick, over one hyperperiod from x0."""
    x0 = tasks[0][2] + literal_warm_up(tasks, gap)[0] * tasks[0][0]
    return max(literal_delay(tasks, gap, x0 + offset)
               for offset in range(literal_hyperperiod(tasks)))


def literal_parts(tasks, cuts):
    """The sections, place by place.

    The first place opens one, and so does each place that comes next after
    a cut.
    """
    parts = []
    for place, task in enumerate(tasks, start=1):
        if place == 1 or place - 1 in cuts:
            parts.append([])
        parts[-1].append(task)
    return parts


def all_cut_lists(places):
    """Every permitted list of cuts: each place but the last parts or not."""
    return [cuts for count in range(places)
            for cuts in itertools.combinations(range(1, places), count)]


def greatest_of_two(first, second, gap):
    """The greatest latency of a chain of two places, without a walk.

    A press at a read waits a period for the next job.  The wait from write
    + gap to the read is the same number modulo the greatest common divisor
    of the periods, and in one hyperperiod it takes each such value below
    the second period.
    """
    (T, D, F), (next_T, next_D, next_F) = first, second
    step = math.gcd(T, next_T)
    longest_wait = next_T - step + (next_F - F - D - gap) % step
    return T + D + gap + longest_wait + next_D


def group_sections_by_hand(_rng):
    million = 1_000_000
    worst = [(million, 4 * million, million)] * 12
    # Here each read comes a tick too early, as in the gap by hand.
    twelve = [(million, 4 * million, 999 * i) for i in range(12)]
    each = list(range(1, 12))
    # Chain, gap, cuts, the sections' greatest latencies, sum, and that of
    # the whole.  A place alone has T + D.
    cases = [
        ("A", CHAIN_A, 0, [], [18], 18, 18),
        ("A", CHAIN_A, 0, [1], [8, 12], 20, 18),
        # The table with gap 1 is (0, 18), (4, 20).
        ("A", CHAIN_A, 1, [1], [8, 12], 21, 20),
        ("A", CHAIN_A, 1, [], [20], 20, 20),
        # A press at 4 is read at 8, written at 12, readable at 19, read at
        # 24 and written at 30: 26.  One at 0: 4, 8, 15, 18, 24: 24.  One at
        # 8: 12, 16, 23, 24, 30: 22.
        ("A", CHAIN_A, 7, [1], [8, 12], 27, 26),
        ("A", CHAIN_A, 7, [], [26], 26, 26),
        ("B", CHAIN_B, 0, [], [13], 13, 13),
        ("B", CHAIN_B, 1_000, [], [13], 13, 13),
        ("C", CHAIN_C, 0, [1], [10, 10], 20, 15),
        ("C", CHAIN_C, 1, [1], [10, 10], 21, 20),
        ("C", CHAIN_C, 5, [1], [10, 10], 25, 20),
        ("C", CHAIN_C, 6, [1], [10, 10], 26, 25),
        ("D", CHAIN_D, 0, [1], [12, 11], 23, 16),
        # Place 2 alone has its warm-up at 50.  From tick 0, the warm-up of
        # the whole, a press would wait for the read at 50: 51.
        ("late", [(100, 1, 0), (10, 1, 50)], 0, [1], [101, 11], 112, 111),
        ("late", [(100, 1, 0), (10, 1, 50)], 0, [], [111], 111, 111),
        # Place 2 alone has its warm-up at 0, long before that of the whole.
        # The periods have no common divisor, so some value waits 6 ticks.
        ("early", [(10, 1, 100), (7, 1, 0)], 0, [1], [11, 8], 19, 18),
        ("four", CHAIN_FOUR, 0, [], [31], 31, 31),
        ("four", CHAIN_FOUR, 0, [2], [16, 18], 34, 31),
        ("four", CHAIN_FOUR, 0, [1, 2, 3], [7, 10, 14, 5], 36, 31),
        ("four", CHAIN_FOUR, 1_000, [2], [1_016, 1_018], 3_034, 3_031),
        ("four", CHAIN_FOUR, 1_000, [1, 2, 3], [7, 10, 14, 5], 3_036, 3_031),
        ("worst", worst, 0, each, [5 * million] * 12, 60 * million,
         49 * million),
        ("worst", worst, 1_000, each, [5 * million] * 12, 60_011_000,
         60 * million),
        ("worst", worst, 1_000, [], [60 * million], 60 * million,
         60 * million),
        # The largest sum of all, eleven above the longest latency of all.
        ("twelve", twelve, 1_000, each, [5 * million] * 12, 60_011_000,
         60_010_989),
        # Two halves with 5 links each: 30,000,000 and 5 times 999.
        ("twelve", twelve, 1_000, [6], [30_004_995] * 2, 60_010_990,
         60_010_989),
        ("twelve", twelve, 1_000, [1, 11], [5 * million, 50_008_991,
                                            5 * million], 60_010_991,
         60_010_989),
    ]
    for name, tasks, gap, cuts, latencies, total, whole in cases:
        what = "%s with gap %d cut at %r" % (name, gap, cuts)
        given = list(cuts)
        same(ref.sections(tasks, gap, given), ("ok", latencies, total), what)
        same(given, cuts, what + ", the list given stays")
        same(ref.greatest_latency(tasks, gap), whole, what + ", the whole")
        same(ref.sections(tasks, gap, []), ("ok", [whole], whole),
             what + ", no cut")
        same(whole + len(cuts) <= total, True, what + ", whole and sum")
        numbers = {task: 5 + 3 * index
                   for index, task in enumerate(sorted(set(tasks)))}
        arguments = schedule([(number, *task)
                              for task, number in numbers.items()],
                             [[5], [numbers[task] for task in tasks]], gap)
        same(ref.sections_of(*arguments, 2, cuts), ("ok", latencies, total),
             what + ", from a schedule")
    # Period 1 reads at every tick, so each value is read when it becomes
    # readable.  A section of k places has 1, its durations and k - 1 gaps.
    # Durations are powers of two, which tell the places of a section.
    # All 2,048 lists of cuts of 12 places.
    powers = [(1, 2 ** index, 0) for index in range(12)]
    for cuts in all_cut_lists(12):
        edges = [0, *cuts, 12]
        for gap in (0, 1_000):
            latencies = [1 + 2 ** end - 2 ** begin + (end - begin - 1) * gap
                         for begin, end in zip(edges, edges[1:])]
            same(ref.sections(powers, gap, list(cuts)),
                 ("ok", latencies, 1 + 4_095 + 11 * gap + len(cuts)),
                 "powers with gap %d cut at %r" % (gap, cuts))


def group_greatest_latency(rng):
    """The greatest latency against the largest delay, and at all places."""
    chains = [(tasks, gap) for tasks in (CHAIN_A, CHAIN_B, CHAIN_C, CHAIN_D,
                                         CHAIN_X, CHAIN_FOUR)
              for gap in (0, 1, 2, 3, 7, 1_000)]
    for turn in range(300):
        tasks = small_chain(rng, 60 if turn % 10 else 240,
                            most_places=5 if turn % 7 else 12)
        gap = no_gap(rng) if turn % 4 == 0 else small_gap(rng, tasks)
        chains.append((tasks, gap))
    later = 0
    for tasks, gap in chains:
        what = "%r gap %d" % (tasks, gap)
        found = ref.greatest_latency(tasks, gap)
        same(found, literal_greatest(tasks, gap), "greatest latency " + what)
        same(ref.sections(tasks, gap, []), ("ok", [found], found),
             "no cut " + what)
        H = literal_hyperperiod(tasks)
        for p in range(1, len(tasks) + 1):
            same(max(latency for _start, latency
                     in ref.anchors(tasks, gap, p)), found,
                 "anchors of %s cut at %d" % (what, p))
            made, starts, latencies = ref.make(tasks, gap, p, [0] * H,
                                               [0] * H)
            same(ref.greatest(starts, latencies, made[1], H), ("ok", found),
                 "table of %s cut at %d" % (what, p))
        # "the greatest age is one less than the greatest delay"
        T, D, F = tasks[-1]
        z0 = F + literal_warm_up(tasks, gap)[-1] * T + D
        same(max(literal_age(tasks, gap, z0 + offset)
                 for offset in range(H)), found - 1, "greatest age " + what)
        if len(tasks) == 1:
            same(found, sum(tasks[0][:2]), "one place " + what)
        if len(tasks) == 2:
            same(found, greatest_of_two(*tasks, gap), "two places " + what)
        later += ref.anchors(tasks, gap, 1)[0][1] < found
    same(later > 30, True, "often met: the first anchor is not the greatest")


def group_sections(rng):
    """Each section by literal walks, for every list of cuts."""
    chains = [(tasks, gap) for tasks in (CHAIN_A, CHAIN_B, CHAIN_C, CHAIN_D,
                                         CHAIN_X, CHAIN_FOUR)
              for gap in (0, 1, 2, 7)]
    for turn in range(200):
        tasks = small_chain(rng, 60)
        gap = no_gap(rng) if turn % 4 == 0 else small_gap(rng, tasks)
        chains.append((tasks, gap))
    for tasks, gap in chains:
        known = {}
        for cuts in all_cut_lists(len(tasks)):
            latencies = []
            total = 0
            for part in literal_parts(tasks, cuts):
                if tuple(part) not in known:
                    known[tuple(part)] = literal_greatest(part, gap)
                if latencies:
                    # A cut lies before this section.
                    total += gap
                latencies.append(known[tuple(part)])
                total += latencies[-1]
            what = "%r gap %d cut at %r" % (tasks, gap, cuts)
            same(ref.sections(tasks, gap, list(cuts)),
                 ("ok", latencies, total), what)
            same(ref.parts_of(tasks, cuts), literal_parts(tasks, cuts), what)


def check_cut_lists(tasks, gap, met):
    """What order 6 says of all lists of cuts, and one more for each cut.

    A value that leaves a section at its write w is readable at w + gap.  So
    it passes the next section as one pressed at w + gap - 1, the last tick
    before that read.  That is one tick below what the sum has for the cut.
    """
    what = "%r gap %d" % (tasks, gap)
    sums = {cuts: ref.sections(tasks, gap, list(cuts))[2]
            for cuts in all_cut_lists(len(tasks))}
    whole = ref.greatest_latency(tasks, gap)
    same(sums[()], whole, "no cut " + what)
    for cuts, total in sums.items():
        # At most the sum.
        same(whole <= total, True, "whole of %s and %r" % (what, cuts))
        same(whole + len(cuts) <= total, True,
             "whole and cuts of %s and %r" % (what, cuts))
        for further, larger in sums.items():
            if not set(cuts) < set(further):
                continue
            pair = "%s, %r and %r" % (what, cuts, further)
            # Cutting further never lowers the sum.
            same(total <= larger, True, pair)
            more = len(further) - len(cuts)
            same(total + more <= larger, True, pair + ", and the cuts")
            kind = "just" if total + more == larger else "above"
            met[kind] = met.get(kind, 0) + 1


def group_cut_lists(rng):
    met = {}
    for tasks in (CHAIN_A, CHAIN_B, CHAIN_C, CHAIN_D, CHAIN_X, CHAIN_FOUR):
        for gap in (0, 1, 2, 3, 5, 6, 7, 999, 1_000):
            check_cut_lists(tasks, gap, met)
    for turn in range(160):
        tasks = small_chain(rng, 120 if turn % 4 else 360)
        for gap in {0, 1, 1_000, small_gap(rng, tasks), wide_gap(rng)}:
            check_cut_lists(tasks, gap, met)
            if turn % 4 == 0:
                check_cut_lists(tightened(rng, tasks, gap), gap, met)
    for kind in ("just", "above"):
        same(met.get(kind, 0) > 1_000, True, "often met: " + kind)


def sectioned_chain(rng, gap):
    """A chain over the full range whose sections have few partitions."""
    while True:
        tasks = large_chain(rng)
        edges = range(len(tasks) + 1)
        parts = [tasks[begin:end]
                 for begin, end in itertools.combinations(edges, 2)]
        if all(math.lcm(*[task[0] for task in part])
               <= 60 * max(task[0] for task in part) for part in parts):
            return tightened(rng, tasks, gap) if rng.random() < 0.5 else tasks


def group_sections_in_turn(rng):
    """A press that passes the sections one after another.

    Each section gets the value as one pressed at the tick before it becomes
    readable.  The last section's booking is that of the whole, and no
    section needs more than its greatest latency.
    """
    for turn in range(300):
        if turn % 2:
            tasks = small_chain(rng, 60)
            gap = small_gap(rng, tasks)
        else:
            gap = wide_gap(rng)
            tasks = sectioned_chain(rng, gap)
        n = len(tasks)
        cuts = sorted(rng.sample(range(1, n), rng.randint(0, n - 1)))
        what = "%r gap %d cut at %r" % (tasks, gap, cuts)
        _ok, latencies, _sum = ref.sections(tasks, gap, cuts)
        _ok, _way, x0, H = ref.warm_up(tasks, gap)
        presses = range(x0, x0 + H) if H <= 60 else \
            [x0, x0 + 1] + [rng.randint(x0, x0 + 2 * H) for _ in range(20)]
        for t in presses:
            tick = t
            for part, latency in zip(literal_parts(tasks, cuts), latencies):
                word, found = ref.delay(part, gap, tick)
                # The section is past its own warm-up.
                same(word, "ok", what)
                same(found <= latency, True, what)
                tick += found + gap - 1
            same(tick - gap + 1 - t, ref.walked_delay(tasks, gap, t), what)


def group_sections_large(rng):
    """Sections over the full range, with up to 11 cuts."""
    met = {}
    for turn in range(200):
        gap = wide_gap(rng)
        tasks = sectioned_chain(rng, gap)
        n = len(tasks)
        most = rng.randint(0, n - 1)
        further = sorted(rng.sample(range(1, n), most))
        cuts = sorted(rng.sample(further, rng.randint(0, most)))
        answers = {}
        for chosen in ([], cuts, further, list(range(1, n))):
            what = "%r gap %d cut at %r" % (tasks, gap, chosen)
            answer = ref.sections(tasks, gap, chosen)
            answers[tuple(chosen)] = answer
            word, latencies, total = answer
            same((word, len(latencies)), ("ok", len(chosen) + 1), what)
            same(total - sum(latencies), len(chosen) * gap, what + ", gaps")
            for part, latency in zip(literal_parts(tasks, chosen), latencies):
                # The table of the section, cut somewhere.
                p = rng.randint(1, len(part))
                if math.lcm(*[task[0] for task in part]) \
                        <= 300 * part[p - 1][0]:
                    same(max(one for _start, one
                             in ref.anchors(part, gap, p)), latency, what)
                if len(part) == 1:
                    same(latency, part[0][0] + part[0][1], what)
                if len(part) == 2:
                    same(latency, greatest_of_two(*part, gap), what)
                # As in the bounds of delays.
                links = len(part) - 1
                same(sum(D for _T, D, _F in part) + links * gap < latency
                     <= sum(T + D for T, D, _F in part) + links * (gap - 1),
                     True, what + ", bounds")
            same(total <= 60_011_000, True, what + ", the largest sum")
        # Every place by itself: nothing but T + D and the gaps.
        same(answers[tuple(range(1, n))],
             ("ok", [T + D for T, D, _F in tasks],
              sum(T + D for T, D, _F in tasks) + (n - 1) * gap),
             "every place of %r gap %d" % (tasks, gap))
        # Ever further cuts: each adds at least one.
        chosen = []
        steps = rng.sample(range(1, n), n - 1)
        total = ref.sections(tasks, gap, chosen)[2]
        same(total, ref.greatest_latency(tasks, gap), "no cut")
        for cut in steps:
            chosen = sorted(chosen + [cut])
            larger = ref.sections(tasks, gap, chosen)[2]
            same(total + 1 <= larger, True,
                 "%r gap %d cut at %r, last %d" % (tasks, gap, chosen, cut))
            kind = "just" if total + 1 == larger else "above"
            met[kind] = met.get(kind, 0) + 1
            total = larger
        same(answers[tuple(cuts)][2] + len(further) - len(cuts)
             <= answers[tuple(further)][2], True,
             "%r gap %d, %r and %r" % (tasks, gap, cuts, further))
    for kind in ("just", "above"):
        same(met.get(kind, 0) > 100, True, "often met: " + kind)


def group_section_refusals(_rng):
    refusal = ("refused", 17, 0)
    highest = 2 ** 64 - 1
    # Every list of numbers up to places + 1: it passes where it is one of
    # the lists of cuts that there are.
    for places in (1, 2, 3, 4):
        tasks = CHAIN_FOUR[:places]
        permitted = set(all_cut_lists(places))
        same(len(permitted), 2 ** (places - 1), "lists of cuts")
        for length in range(places + 1):
            for cuts in itertools.product(range(places + 2), repeat=length):
                for gap in (0, 1_000):
                    found = ref.sections(tasks, gap, list(cuts))
                    same(found if found[0] == "refused" else None,
                         None if cuts in permitted else refusal,
                         "%d places cut at %r" % (places, cuts))
    # By hand, for 1, 2, 5 and 12 places.
    cases = [(1, [0]), (1, [1]), (1, [2]), (1, [highest]), (1, [1, 2]),
             (2, [0]), (2, [2]), (2, [3]), (2, [0, 1]), (2, [1, 1]),
             (2, [1, 2]), (2, [highest]), (2, [1, highest]),
             (2, [2 ** 32 + 1]), (2, [2 ** 16 + 1]), (2, [257]),
             (5, [0]), (5, [5]), (5, [6]), (5, [0, 2]), (5, [2, 2]),
             (5, [3, 2]), (5, [1, 3, 2]), (5, [1, 3, 3, 4]), (5, [4, 5]),
             (5, [1, 2, 3, 4, 5]), (5, [0, 1, 2, 3, 4]), (5, [4, 3, 2, 1]),
             (5, [2, 1, 3]), (5, [1, 2, 4, 3]), (5, [1, 2, 3, highest]),
             (5, [highest, 1]), (5, [highest, highest]), (5, [4, 1]),
             (12, [0]), (12, [12]), (12, [13]), (12, [11, 12]),
             (12, [0, 11]), (12, [11, 11]), (12, [11, 10]),
             # Eleven cuts with one fault, twelve and thirteen cuts.
             (12, list(range(11))), (12, list(range(2, 13))),
             (12, [1, 2, 3, 4, 5, 6, 7, 8, 9, 11, 10]),
             (12, [1, 2, 3, 4, 5, 5, 7, 8, 9, 10, 11]),
             (12, list(range(1, 13))), (12, list(range(12))),
             (12, list(range(1, 12)) + [11]), (12, list(range(1, 12)) + [1]),
             (12, list(range(1, 12)) + [highest]),
             (12, list(range(1, 14))), (12, list(range(13))),
             (12, list(range(1, 12)) + [11, 11]), (12, [5] * 12),
             (12, [highest] * 13), (12, list(range(12, 0, -1))),
             (12, list(range(1_000)))]
    for places, cuts in cases:
        tasks = (CHAIN_FOUR * 3)[:places]
        arguments = schedule([(7 + index, *task)
                              for index, task in enumerate(tasks)],
                             [[7], [7 + index for index in range(places)]],
                             1_000)
        for gap in (0, 1, 1_000):
            same(ref.sections(tasks, gap, cuts), refusal,
                 "%d places cut at %r" % (places, cuts))
            same(ref.sections_of(*arguments[:4], gap, 2, cuts), refusal,
                 "%d places of a schedule cut at %r" % (places, cuts))
    for places, cuts in ((1, []), (2, []), (2, [1]), (5, [4]), (5, [1]),
                         (5, [1, 2, 3, 4]), (12, [11]), (12, [1, 11]),
                         (12, list(range(1, 12))), (12, list(range(2, 12)))):
        same(ref.sections((CHAIN_FOUR * 3)[:places], 0, cuts)[0], "ok",
             "%d places cut at %r" % (places, cuts))
    # The chain's own checks come first, whatever the cuts are.
    good = (10, 1, 0)
    bad = [(0, 1, 0), (1_000_001, 1, 0), (1, 0, 0), (1, 4_000_001, 0),
           (1, 1, 1_000_001)]
    huge = [(999_983, 1, 0), (999_979, 1, 0)]
    every = NOT_CUTS + [[], [1], [1, 2], [11], [12]]
    for cuts in every:
        for gap in (0, 1_000, 1_001, highest):
            same(ref.sections([], gap, cuts), ("refused", 8, 0), "no place")
            for tasks in ([good] * 13, [bad[0]] * 13):
                same(ref.sections(tasks, gap, cuts), ("refused", 8, 0),
                     "13 places")
            for one in bad:
                for place in range(1, 13):
                    tasks = huge + [good] * 10
                    tasks[place - 1] = one
                    same(ref.sections(tasks, gap, cuts),
                         ("refused", 5, place), "5 before 17")
                    tasks[11] = one
                    same(ref.sections(tasks, gap, cuts),
                         ("refused", 5, place), "lowest place")
        for tasks in ([good], CHAIN_A, CHAIN_FOUR, [good] * 12, huge):
            for gap in (1_001, 1_002, 2 ** 32, highest):
                same(ref.sections(tasks, gap, cuts), ("refused", 5, 0),
                     "the gap before 7 and 17")
        for gap in (0, 1, 1_000):
            # Each section of huge cut at 1 would pass.
            same(ref.sections(huge, gap, cuts), ("refused", 7, 0),
                 "7 before 17")
            same(ref.sections(huge * 6, gap, cuts), ("refused", 7, 0),
                 "7 before 17, 12 places")
    for cuts in NOT_CUTS:
        for tasks in (CHAIN_A, CHAIN_FOUR, [good], [good] * 12):
            same(ref.sections(tasks, 0, cuts), refusal, "%r" % cuts)


def group_sections_of_schedules(rng):
    refusal = ("refused", 17, 0)
    for turn in range(100):
        chains = [small_chain(rng, 40) for _ in range(1 + turn % 4)]
        gap = no_gap(rng) if turn % 3 == 0 else small_gap(rng, *chains)
        arguments = schedule(*schedule_of_chains(rng, chains), gap)
        for n, tasks in enumerate(chains, start=1):
            what = "chain %d of %r gap %d" % (n, chains, gap)
            for cuts in all_cut_lists(len(tasks)):
                latencies = [literal_greatest(part, gap)
                             for part in literal_parts(tasks, cuts)]
                same(ref.sections_of(*arguments, n, list(cuts)),
                     ("ok", latencies, sum(latencies) + len(cuts) * gap),
                     "%s cut at %r" % (what, cuts))
            for cuts in NOT_CUTS + [[len(tasks)], [len(tasks) + 1]]:
                same(ref.sections_of(*arguments, n, cuts), refusal, what)
        for n in (0, len(chains) + 1, 5, 2 ** 64 - 1):
            for cuts in NOT_CUTS + [[], [1]]:
                same(ref.sections_of(*arguments, n, cuts),
                     ("refused", 16, 0), "16 before 17")
    # 8, 5, 6, 16, 7, 17, one after another.  Tasks 4 and 5 together are 7.
    tasks = [(1, 10, 1, 0), (2, 10, 2, 0), (3, 10, 1, 95), (4, 999_983, 1, 0),
             (5, 999_979, 1, 0)]
    chains = [[1], [2, 3], [4, 5], [4]]
    arguments = schedule(tasks, chains, 0)
    same(ref.sections_of(*arguments, 2, [1]), ("ok", [12, 11], 23), "D")
    every = NOT_CUTS + [[], [1], [2]]
    for cuts in every:
        for gap in (0, 1, 1_000):
            same(ref.sections_of(*arguments[:4], gap, 3, cuts),
                 ("refused", 7, 0), "7 before 17")
            for n, numbers in ((1, [1]), (2, [2, 3]), (4, [4])):
                found = ref.sections_of(*arguments[:4], gap, n, cuts)
                passes = cuts == [] or (cuts == [1] and len(numbers) == 2)
                same(found if found[0] == "refused" else None,
                     None if passes else refusal, "chain %d" % n)
    junk = [(0, [1] * 12)]
    faults = [(("refused", 8, 0), (0, *arguments[1:])),
              (("refused", 8, 0), (33, *arguments[1:])),
              (("refused", 8, 0), (*arguments[:2], 0, *arguments[3:])),
              (("refused", 8, 0), (*arguments[:2], 5, *arguments[3:])),
              (("refused", 8, 0), (*arguments[:3], arguments[3][:3] + junk,
                                   0)),
              (("refused", 8, 0), (0, *arguments[1:4], 1_001)),
              (("refused", 5, 4), schedule(tasks[:3] + [(3, 0, 1, 0)],
                                           [[9]], 0)),
              (("refused", 5, 4), schedule(tasks[:3] + [(3, 0, 1, 0)],
                                           [[9]], 1_001)),
              # A task of no chain is a fault of the schedule too.
              (("refused", 5, 3), schedule(tasks[:2] + [(3, 10, 0, 0)],
                                           [[1, 2]], 0)),
              (("refused", 5, 0), (*arguments[:4], 1_001)),
              (("refused", 5, 0), schedule(tasks, [[1], [2, 9], [9]],
                                           2 ** 64 - 1)),
              (("refused", 6, 2), schedule(tasks, [[1], [2, 9], [9]], 0)),
              (("refused", 6, 1), schedule(tasks, [[1, 2], [4, 5], [9]],
                                           1_000))]
    for expected, faulty in faults:
        for n in (0, 1, 2, 3, 5, 2 ** 64 - 1):
            for cuts in every:
                same(ref.sections_of(*faulty, n, cuts), expected,
                     "the schedule first")


# ---------------------------------------------------------------------------
# How often each delay occurs, order 7
# ---------------------------------------------------------------------------

WIDE = [2 ** 32, 2 ** 32 + 1, 2 ** 52, 2 ** 62, 2 ** 63 - 1, 2 ** 63,
        2 ** 63 + 1, 2 ** 64 - 1]


def literal_histogram(delays, width, length):
    """The words of order 7, each count from the ticks by itself.

    Beyond the list are the delays that lie in none of its entries.
    """
    entries = [(i * width, (i + 1) * width) for i in range(length)]
    counts = [sum(1 for one in delays if begin <= one < end)
              for begin, end in entries]
    rest = sum(1 for one in delays
               if not any(begin <= one < end for begin, end in entries))
    return (counts, rest)


def ticks_below(table, bound):
    """How many of the H ticks have a delay below the bound.

    The delay falls between two starts, so these are the last ticks there,
    the ones that come more than latency - bound ticks after the start.
    """
    starts, latencies, g, H = table
    edges = starts[:g] + [starts[0] + H]
    below = 0
    for start, next_start, latency in zip(edges, edges[1:], latencies):
        first = start + max(0, latency - bound + 1)
        below += max(0, next_start - first)
    return below


def histogram_from_below(table, width, length):
    """The counts as differences, which serves as another method."""
    below = [ticks_below(table, i * width) for i in range(length + 1)]
    return ([after - before for before, after in zip(below, below[1:])],
            table[3] - below[-1])


def some_widths(rng, delays):
    """Widths with which delays lie at the ends of entries, and others."""
    one = rng.choice(delays)
    return {1, 2, rng.randint(1, 2 * max(delays)), one - 1, one, one + 1,
            min(delays) - 1, min(delays), min(delays) + 1, max(delays) - 1,
            max(delays), max(delays) + 1, (one + 1) // 2, (one + 2) // 3,
            rng.choice(WIDE)}


def some_lengths(rng, delays, width):
    """Lengths with which the list ends near the greatest or least delay."""
    last = max(delays) // width
    lengths = {0, 1, last - 1, last, last + 1, last + 2,
               min(delays) // width, min(delays) // width + 1,
               rng.randint(0, last + 5)}
    return {length for length in lengths if 0 <= length}


def group_histogram_by_hand(_rng):
    most = 60_000_000
    longest = 60_011_000
    # A table, its delays from first start on, and for a width the counts
    # and the rest.  Delays of A: 11, 12, 17 and 18 once, 13 to 16 twice.
    each = [0] * 11 + [1, 1, 2, 2, 2, 2, 1, 1]
    delays_a = [18, 17, 16, 15, 14, 13, 12, 11, 16, 15, 14, 13]
    cases = [
        ("chain A", TABLE_A, delays_a, [
            (1, each, 0), (1, each + [0], 0), (1, each + [0] * 9, 0),
            # The list ends at the greatest delay, before it, and so on.
            (1, each[:18], 1), (1, each[:17], 2), (1, each[:16], 4),
            (1, each[:13], 10), (1, each[:12], 11), (1, each[:11], 12),
            (1, each[:10], 12), (1, [0], 12), (1, [], 12),
            # 10 and 11, 12 and 13, 14 and 15, 16 and 17, 18 and 19.
            (2, [0] * 5 + [1, 3, 4, 3, 1], 0), (2, [0] * 5 + [1, 3, 4, 3], 1),
            # 9 to 11, 12 to 14, 15 to 17, 18 to 20.
            (3, [0, 0, 0, 1, 5, 5, 1], 0), (3, [0, 0, 0, 1, 5, 5], 1),
            (3, [0, 0, 0, 1, 5], 6), (3, [0, 0, 0, 1], 11),
            # 8 to 11, 12 to 15, 16 to 19.
            (4, [0, 0, 1, 7, 4], 0), (4, [0, 0, 1, 7], 4), (4, [0, 0, 1], 11),
            # 10 to 14, 15 to 19.
            (5, [0, 0, 6, 6], 0), (5, [0, 0, 6, 6, 0], 0), (5, [0, 0, 6], 6),
            (5, [0, 0], 12), (5, [0], 12), (5, [], 12),
            # 6 to 11, 12 to 17, 18 to 23.
            (6, [0, 1, 10, 1], 0), (6, [0, 1, 10], 1),
            # 7 to 13, 14 to 20.
            (7, [0, 4, 8], 0), (8, [0, 8, 4], 0), (9, [0, 11, 1], 0),
            (9, [0, 11], 1), (10, [0, 12], 0), (10, [0], 12),
            # The least delay is 11, the greatest 18.
            (11, [0, 12], 0), (11, [0], 12), (12, [1, 11], 0),
            (12, [1], 11), (13, [2, 10], 0), (14, [4, 8], 0),
            (15, [6, 6], 0), (16, [8, 4], 0), (17, [10, 2], 0),
            (17, [10], 2), (18, [11, 1], 0), (18, [11, 1, 0], 0),
            (18, [11], 1), (18, [], 12), (19, [12], 0), (19, [12, 0], 0),
            (19, [], 12), (20, [12], 0)]),
        ("chain B", ([5], [13], 1, 10), [13, 12, 11, 10, 9, 8, 7, 6, 5, 4], [
            (1, [0] * 4 + [1] * 10, 0), (1, [0] * 4 + [1] * 9, 1),
            (4, [0, 4, 4, 2], 0), (4, [0, 4, 4], 2), (5, [1, 5, 4], 0),
            (13, [9, 1], 0), (13, [9], 1), (14, [10], 0), (3, [0, 2], 8)]),
        ("chain C", ([0], [15], 1, 5), [15, 14, 13, 12, 11], [
            (5, [0, 0, 4, 1], 0), (5, [0, 0, 4], 1), (15, [4, 1], 0),
            (15, [4], 1), (16, [5], 0), (12, [1, 4], 0), (12, [], 5)]),
        ("chain C, gap 1", ([0], [20], 1, 5), [20, 19, 18, 17, 16], [
            (4, [0, 0, 0, 0, 4, 1], 0), (10, [0, 4], 1), (20, [4, 1], 0)]),
        ("chain D", ([90], [16], 1, 10), list(range(16, 6, -1)), [
            (8, [1, 8, 1], 0), (8, [1, 8], 1), (16, [9], 1), (17, [10], 0)]),
        ("H one", ([0], [2], 1, 1), [2], [
            (1, [0, 0, 1], 0), (1, [0, 0], 1), (1, [0], 1), (1, [], 1),
            (2, [0, 1], 0), (2, [0], 1), (2, [], 1), (3, [1], 0),
            (3, [1, 0], 0), (3, [], 1)]),
        ("entries from g on", ([3, 5, 6, 0], [4, 9, 7, 2 ** 64 - 1], 2, 6),
         [4, 3, 9, 8, 7, 6],
         [(1, [0, 0, 0, 1, 1, 0, 1, 1, 1, 1], 0), (3, [0, 2, 3, 1], 0),
          (3, [0, 2, 3], 1), (4, [1, 3, 2], 0), (9, [5], 1), (10, [6], 0)]),
        ("a latency that comes once more", ([4, 5], [3, 3], 2, 2), [3, 3], [
            (1, [0, 0, 0, 2], 0), (1, [0, 0, 0], 2), (3, [0, 2], 0),
            (3, [0], 2), (4, [2], 0)]),
        ("H one at the limits", ([1_000_000_000], [longest], 1, 1),
         [longest], [
            (1, [0] * 4_096, 1), (1_000, [0] * 60_011 + [1], 0),
            (1_000, [0] * 60_011, 1), (longest, [0, 1], 0),
            (longest, [0], 1), (longest + 1, [1], 0)]),
        # The delays are 60,011,000 down to 11,001.
        ("at the limits", ([1_000_000_000], [longest], 1, most), None, [
            (1, [], most), (1, [0] * 11_001, most),
            (1, [0] * 11_001 + [1], 59_999_999),
            # 11,001 to 19,999.  From 30,000 on there are 59,981,001.
            (10_000, [0, 8_999, 10_000], 59_981_001),
            # The last one begins at 5,455 times 11,000, 60,005,000.
            (11_000, [0, 10_999] + [11_000] * 5_453 + [6_001], 0),
            (11_000, [0, 10_999] + [11_000] * 5_453, 6_001),
            (11_001, [0, 11_001, 11_001], 59_977_998),
            (11_002, [1, 11_002, 11_002], 59_977_995),
            # Twice 30,005,500 is the greatest delay.
            (30_005_500, [29_994_499, 30_005_500, 1], 0),
            (30_005_500, [29_994_499, 30_005_500], 1),
            (30_005_501, [29_994_500, 30_005_500], 0),
            (longest - 1, [59_999_998, 2], 0), (longest, [59_999_999, 1], 0),
            (longest, [59_999_999], 1), (longest + 1, [most], 0)]),
        # Each of 6,000 anchors has 60,011,000 down to 60,001,001.
        ("many anchors", (list(range(0, most, 10_000)), [longest] * 6_000,
                          6_000, most), None, [
            (60_001_001, [0, most], 0), (60_001_001, [0], most),
            (60_001_002, [6_000, 59_994_000], 0),
            (longest, [59_994_000, 6_000], 0),
            (longest, [59_994_000], 6_000), (longest + 1, [most], 0),
            # 9,499 delays are below 60,010,500, and 501 are not.
            (30_005_250, [0, 56_994_000, 3_006_000], 0)]),
        # Delays 2 down to 2 and 60,000,000 down to 2.
        ("H at its limit", ([0, 1], [2, most], 2, most), None, [
            (1, [0, 0, 2, 1, 1], 59_999_996), (2, [0, 3, 2], 59_999_995),
            (3, [2, 3], 59_999_995), (most, [59_999_999, 1], 0),
            (most, [59_999_999], 1), (most + 1, [most], 0)]),
    ]
    for what, table, delays, counted in cases:
        starts, latencies, g, H = table
        if delays is not None:
            same([ref.read_table(*table, starts[0] + r)[1]
                  for r in range(H)], delays, what + ", delays by hand")
        for width, counts, rest in counted:
            length = len(counts)
            entry = "%s, width %d, length %d" % (what, width, length)
            same(sum(counts) + rest, H, entry + ", sum by hand")
            same(ref.histogram(*table, width, length), ("ok", counts, rest),
                 entry)
            same(ref.histogram_by_segments(*table, width, length),
                 (counts, rest), entry + ", by segments")
            if delays is not None:
                same(ref.histogram_by_enumeration(*table, width, length),
                     (counts, rest), entry + ", by ticks")
                if length < 100:
                    same(literal_histogram(delays, width, length),
                         (counts, rest), entry + ", as the self test has it")
        # Wide entries: all lie in the first, and in no other, also where
        # the end of an entry or of the list is 2 to the 64 or more.
        for width in WIDE:
            same(ref.histogram(*table, width, 0), ("ok", [], H), what)
            for length in (1, 2, 3, 4, 5, 4_095, 4_096, 4_097):
                same(ref.histogram(*table, width, length),
                     ("ok", [H] + [0] * (length - 1), 0),
                     "%s, width %d, length %d" % (what, width, length))


def group_histogram(rng):
    """Random tables: the words of order 7, and both methods."""
    met = {}
    for turn in range(240):
        table = random_table(rng, rng.choice([1, 2, 5, 12, 40, 90]))
        starts, latencies, g, H = table
        given = (list(starts), list(latencies), g, H)
        delays = [ref.read_table(*table, starts[0] + r)[1] for r in range(H)]
        # A hyperperiod may begin at any tick, the delays are the same.
        later = starts[0] + rng.randint(0, 5 * H)
        same(sorted(ref.read_table(*table, later + r)[1] for r in range(H)),
             sorted(delays), "a hyperperiod from a later tick")
        for width in sorted(some_widths(rng, delays)):
            for length in sorted(some_lengths(rng, delays, width)):
                what = "%r width %d length %d" % (table, width, length)
                counts, rest = literal_histogram(delays, width, length)
                same(ref.histogram(*table, width, length),
                     ("ok", counts, rest), what)
                same(ref.histogram_by_enumeration(*table, width, length),
                     (counts, rest), "by ticks " + what)
                same(ref.histogram_by_segments(*table, width, length),
                     (counts, rest), "by segments " + what)
                same(histogram_from_below(table, width, length),
                     (counts, rest), "from below " + what)
                same(sum(counts) + rest, H, "all ticks " + what)
                kinds = [("an empty list", length == 0),
                         ("none in the rest", rest == 0),
                         ("all in the rest", rest == H and length > 0),
                         ("both", 0 < rest < H),
                         ("a delay at an end", length * width in delays),
                         ("a delay before it", length * width - 1 in delays)]
                for kind, is_met in kinds:
                    met[kind] = met.get(kind, 0) + is_met
        same(table, given, "the lists given stay")
        # Entries from g on have no part in it.
        width, length = rng.randint(1, 9), rng.randint(0, 30)
        found = ref.histogram(starts[:g], latencies[:g], g, H, width, length)
        for junk in (0, 1, starts[g - 1] + 1, starts[0] + H, 2 ** 64 - 1):
            for more in (1, 5):
                same(ref.histogram(starts[:g] + [junk] * more,
                                   latencies[:g] + [junk] * more,
                                   g, H, width, length), found,
                     "entries from g on %r" % (table,))
    for kind, count in met.items():
        same(count > 100, True, "often met: " + kind)


def group_histogram_small_tables(_rng):
    """All tables with H up to 4 and latencies up to distance + 2."""
    tables = 0
    for H in (1, 2, 3, 4):
        for cut in itertools.product((False, True), repeat=H - 1):
            offsets = [0] + [r + 1 for r in range(H - 1) if cut[r]]
            lengths = [end - begin for begin, end
                       in zip(offsets, offsets[1:] + [H])]
            for above in itertools.product((1, 2), repeat=len(offsets)):
                latencies = [a + b for a, b in zip(lengths, above)]
                for first in (0, 7):
                    table = ([first + one for one in offsets], latencies,
                             len(offsets), H)
                    tables += 1
                    delays = [delay_at_time(*table, first + r)
                              for r in range(H)]
                    for width in range(1, 9):
                        for length in range(8):
                            what = "%r width %d length %d" \
                                % (table, width, length)
                            expected = literal_histogram(delays, width,
                                                         length)
                            same(ref.histogram(*table, width, length),
                                 ("ok", *expected), what)
                            same(ref.histogram_by_segments(
                                *table, width, length), expected, what)
    # A tick is a start or not, and a start has 2 latencies: 2 times 3 for
    # each tick more.  Each table comes with 2 first starts.
    same(tables, 2 * (2 + 6 + 18 + 54), "tables")


def check_histogram(table, width, length):
    """A table of any size: other methods, and what they have in common."""
    starts, latencies, g, H = table
    what = "%r g %d H %d width %d length %d" % (starts[:3], g, H, width,
                                                length)
    word, counts, rest = ref.histogram(*table, width, length)
    same((word, len(counts)), ("ok", length), what)
    same((counts, rest), histogram_from_below(table, width, length), what)
    same(ref.histogram_by_segments(*table, width, length), (counts, rest),
         "by segments " + what)
    if H <= 60_000:
        same(ref.histogram_by_enumeration(*table, width, length),
             (counts, rest), "by ticks " + what)
    same(sum(counts) + rest, H, "all ticks " + what)
    # A longer list takes its counts from the rest alone.
    longer, less = ref.histogram_by_segments(*table, width, length + 3)
    same((longer[:length], sum(longer[length:]) + less), (counts, rest),
         "longer list " + what)
    # Entries of twice the width hold two each.
    halves, beyond = ref.histogram_by_segments(*table, width, 2 * length)
    same(ref.histogram_by_segments(*table, 2 * width, length),
         ([halves[2 * i] + halves[2 * i + 1] for i in range(length)],
          beyond), "twice the width " + what)


def group_histogram_large(rng):
    """Both methods and a third, on both sides of the limit."""
    # Many anchors, random ones, and tables that making gives.
    tables = []
    for H in (20_000, 20_001, 60_000_000):
        g = 1_024
        offsets = [0] + sorted(rng.sample(range(1, H), g - 1))
        tables.append((offsets,
                       [end - begin + rng.randint(1, 9_000) for begin, end
                        in zip(offsets, offsets[1:] + [H])], g, H))
    tables += [random_table(rng, 60_000) for _ in range(17)]
    tables += [limit_table(rng) for _ in range(100)]
    while len(tables) < 150:
        tasks = large_chain(rng)
        H = math.lcm(*[task[0] for task in tasks])
        if H <= 300 * max(task[0] for task in tasks):
            p = ref.longest_period_place(tasks)
            made, starts, latencies = ref.make(tasks, wide_gap(rng), p,
                                               [9] * 300, [9] * 300)
            tables.append((starts, latencies, made[1], made[3]))
    sides = set()
    for table in tables:
        starts, latencies, g, H = table
        same(ref.well_formed(*table), True, "well-formed")
        top = max(latencies[:g])
        bottom = ref.low_by_segments(*table) + 1
        sides.add(H > ref.ENUMERATION_LIMIT)
        one = rng.choice(latencies[:g])
        for width in rng.sample([1, one, one + 1, (one + 1) // 2,
                                 top // 7 + 1, top // 90 + 1,
                                 rng.randint(1, top), rng.choice(WIDE)], 3):
            last = top // width
            length = rng.choice([0, last, last + 1, rng.randint(0, 40)])
            check_histogram(table, width, min(length, 100))
        # The least and the greatest delay.
        same(ref.histogram(*table, top + 1, 1), ("ok", [H], 0), "below all")
        same(ref.histogram(*table, top, 1)[2],
             sum(1 for latency in latencies[:g] if latency == top),
             "the greatest delay")
        same(ref.histogram(*table, bottom, 1), ("ok", [0], H), "above all")
        same(ref.histogram(*table, bottom + 1, 1)[1][0] > 0, True,
             "the least delay")
        # The mean's sum: entry i of width 1 stands for the delay i.
        if top < 100_000:
            _ok, counts, rest = ref.histogram(*table, 1, top + 1)
            same((sum(i * count for i, count in enumerate(counts)), rest),
                 (ref.sum_by_segments(*table), 0), "sum of the delays")
    same(len(sides), 2, "both sides of the limit")
    # A long list, of which each segment meets many entries.
    for table, width in zip(tables, (1, 2, 40)):
        counts, rest = ref.histogram_by_segments(*table, width, 4_096)
        same(ref.histogram(*table, width, 4_096), ("ok", counts, rest),
             "a long list")
        same(rest > 0, True, "a long list and a rest")
        for i in [0, 4_095] + rng.sample(range(4_096), 60):
            same(counts[i], ticks_below(table, (i + 1) * width)
                 - ticks_below(table, i * width), "entry of a long list")
        same(rest, table[3] - ticks_below(table, 4_096 * width),
             "the rest of a long list")


def group_histogram_of_walks(rng):
    """The tables of chains against the walk, tick by tick from warm-up."""
    chains = [(tasks, gap) for tasks in (CHAIN_A, CHAIN_B, CHAIN_C, CHAIN_D,
                                         CHAIN_X, CHAIN_FOUR)
              for gap in (0, 1, 7)]
    for turn in range(150):
        tasks = small_chain(rng, 60 if turn % 10 else 240)
        gap = no_gap(rng) if turn % 3 == 0 else small_gap(rng, tasks)
        chains.append((tasks, gap))
    for tasks, gap in chains:
        x0 = tasks[0][2] + literal_warm_up(tasks, gap)[0] * tasks[0][0]
        H = literal_hyperperiod(tasks)
        walked = [literal_delay(tasks, gap, x0 + r) for r in range(H)]
        expected = {}
        for width in (1, rng.randint(1, 12), rng.choice(walked),
                      max(walked), max(walked) + 1):
            for length in (0, 1, max(walked) // width,
                           max(walked) // width + 1):
                if length <= 200:
                    expected[width, length] = literal_histogram(
                        walked, width, length)
        for p in range(1, len(tasks) + 1):
            junk = [rng.randint(0, 99) for _ in range(H + 3)]
            made, starts, latencies = ref.make(tasks, gap, p, junk, junk)
            table = (starts, latencies, made[1], made[3])
            for (width, length), counted in expected.items():
                same(ref.histogram(*table, width, length), ("ok", *counted),
                     "%r gap %d cut at %d, width %d, length %d"
                     % (tasks, gap, p, width, length))


def group_histogram_refusals(rng):
    lengths = (0, 1, 2, 19, 4_096)
    widths = (0, 1, 18, 2 ** 63, 2 ** 64 - 1)
    # 18 for the width alone, on both sides of the limit.
    tables = [TABLE_A, ([0], [2], 1, 1), ([0], [20_001], 1, 20_000),
              ([0], [20_002], 1, 20_001),
              ([1_000_000_000], [60_011_000], 1, 60_000_000)]
    tables += [random_table(rng, 50) for _ in range(100)]
    tables += [limit_table(rng) for _ in range(100)]
    for table in tables:
        starts, latencies, g, H = table
        for length in lengths:
            same(ref.histogram(*table, 0, length), ("refused", 18, 0),
                 "width 0, length %d" % length)
            same(ref.histogram(*table, 60_011_001, length)[0], "ok",
                 "length %d" % length)
        # 14 first, for each thing that may be wrong with a table.
        index = rng.randrange(g)
        wrong = [(starts + [0], latencies, g, H),
                 (starts, latencies + [0], g, H),
                 (starts, latencies, 0, H),
                 (starts, latencies, len(starts) + 1, H),
                 (starts, latencies, g, 0),
                 (starts, latencies, g, 60_000_001),
                 (starts, latencies, g, starts[g - 1] - starts[0]),
                 ([one + 1_000_000_001 for one in starts], latencies, g, H),
                 (starts[:index] + [starts[index]] + starts[index:g],
                  latencies[:index + 1] + latencies[index:g], g + 1, H)]
        for latency in (0, ref.distance_to_next(starts, g, H, index),
                        60_011_001, 2 ** 64 - 1):
            wrong.append((starts, latencies[:index] + [latency]
                          + latencies[index + 1:], g, H))
        for faulty in wrong:
            for width in widths:
                for length in (0, 3):
                    same(ref.histogram(*faulty, width, length),
                         ("refused", 14, 0),
                         "%r width %d" % (faulty, width))


# ---------------------------------------------------------------------------
# A test load, order 8
# ---------------------------------------------------------------------------

HIGHEST = 2 ** 64 - 1

# The step of a draw in decimal digits; the order has 9E3779B97F4A7C15.
STEP = 11_400_714_819_323_198_485

# The order's own words.
PERIODS_IN_WORDS = "0 is 2,500; 1 to 10 is 5,000; 11 to 43 is 10,000; " \
    "44 to 58 is 20,000; 59 to 81 is 40,000; 82 to 96 is 80,000"

# Source document 003, table III: period in ms and number of tasks.
TABLE_III = [("2.5", 1), ("5", 10), ("10", 33), ("20", 15), ("33.3", 5),
             ("40", 23), ("80", 15)]

# The periods of the numbers 0 to 96, by their weights and without a limit.
WEIGHTED = [int(1_000 * Fraction(ms)) for ms, weight in TABLE_III
            if ms != "33.3" for _ in range(weight)]

# The first and the last number of each period.
LIMITS = {0: 2_500, 1: 5_000, 10: 5_000, 11: 10_000, 43: 10_000,
          44: 20_000, 58: 20_000, 59: 40_000, 81: 40_000, 82: 80_000,
          96: 80_000}

# Places that are none: around the limits and their look-alikes.
NOT_PLACES = [0, 13, 14, 24, 97, 255, 256, 257, 268, 65_536, 65_537,
              2 ** 31, 2 ** 32, 2 ** 32 + 1, 2 ** 32 + 12, 2 ** 63 - 1,
              2 ** 63, 2 ** 63 + 1, 2 ** 64 - 12, 2 ** 64 - 2, HIGHEST]


def bits_of(number):
    """The 64 bits of a number, the lowest first."""
    return [number // 2 ** place % 2 for place in range(64)]


def number_of_bits(bits):
    """The number of these bits, the lowest first."""
    return sum(bit * 2 ** place for place, bit in enumerate(bits))


STEP_BITS = [int(bit) for digit in "9E3779B97F4A7C15"[::-1]
             for bit in format(int(digit, 16), "04b")[::-1]]


def draw_by_bits(bits):
    """One draw, bit by bit: (the state it sets, what it gives)."""
    after = []
    carry = 0
    for one, other in zip(bits, STEP_BITS):
        after.append((one + other + carry) % 2)
        carry = (one + other + carry) // 2
    # The last carry is lost.  Bit 31 moves to bit 0, and zeros follow.
    moved = after[31:] + 31 * [0]
    return after, [int(one != other) for one, other in zip(after, moved)]


def remainder_of_bits(bits, divisor):
    """The remainder by long division, from the highest bit on."""
    rest = 0
    for bit in reversed(bits):
        rest = 2 * rest + bit
        if rest >= divisor:
            rest -= divisor
    return rest


def load_by_bits(seed, places):
    """The tasks of a test load, bit by bit."""
    tasks = []
    state = bits_of(seed)
    for _ in range(places):
        state, given = draw_by_bits(state)
        T = WEIGHTED[remainder_of_bits(given, 97)]
        state, given = draw_by_bits(state)
        tasks.append((T, T, remainder_of_bits(given, T)))
    return tasks


def nth_draw(seed, n):
    """Draw n, counted from 1, without the draws before it."""
    state = (seed + n * STEP) & HIGHEST
    return state ^ state // 2 ** 31


def load_by_numbers(seed, places):
    """The same tasks, each place without those before it."""
    tasks = []
    for place in range(places):
        T = WEIGHTED[nth_draw(seed, 2 * place + 1) % 97]
        tasks.append((T, T, nth_draw(seed, 2 * place + 2) % T))
    return tasks


def seed_of_state(n, state):
    """The seed whose draw n, counted from 1, sets this state."""
    return (state - n * STEP) % 2 ** 64


def seed_of_draw(n, number):
    """The seed whose draw n, counted from 1, gives this number.

    Bits 33 to 63 of the number are the state's.  Each bit below is xored
    with the state's bit 31 places higher, which is undone from above.
    """
    return seed_of_state(n, number ^ number >> 31 ^ number >> 62)


def numbers_with_rest(rng, rest, divisor):
    """Numbers of 64 bits with this remainder: least, greatest, between."""
    greatest = HIGHEST - (HIGHEST - rest) % divisor
    most = (greatest - rest) // divisor
    return [rest, greatest] + [rest + divisor * rng.randint(0, most)
                               for _ in range(4)]


def corner_seeds():
    """Seeds at the ends, and those with which a state comes to one."""
    seeds = [0, 1, 2, 3, HIGHEST, HIGHEST - 1, HIGHEST - 2, 10 ** 19,
             0xDEADBEEF, STEP, STEP - 1, STEP + 1, 2 ** 64 - STEP,
             2 ** 64 - STEP - 1, 2 ** 64 - STEP + 1]
    for power in (30, 31, 32, 33, 53, 62, 63):
        seeds += [2 ** power - 1, 2 ** power, 2 ** power + 1]
    for n in range(1, 25):
        seeds += [seed_of_state(n, state) for state in (0, 1, HIGHEST)]
        seeds += [seed_of_draw(n, number) for number in (1, HIGHEST)]
    return seeds


def seeds_of_loads(rng, count):
    """Corner seeds and random ones, also small ones."""
    return corner_seeds() + [rng.randint(0, HIGHEST) >> rng.choice([0, 0, 40])
                             for _ in range(count)]


def group_draws_by_hand(_rng):
    same("%X" % STEP, "9E3779B97F4A7C15", "the step")
    same(number_of_bits(STEP_BITS), STEP, "the step's bits")
    # It is the whole part of 2^64 by the golden ratio, (root of 5 + 1) / 2.
    same((math.isqrt(5 * 2 ** 128) - 2 ** 64) // 2, STEP, "golden ratio")
    # Worked out beforehand, by another way.
    same(["%016X" % number for number in ref.draws(0, 3)],
         ["9E3779B843248F67", "3C6EF37286491ECF", "DAA66D2DC893AE67"],
         "seed 0")
    # The first state of seed 0 is the step, the second is twice the step
    # less 2^64: 3C6EF372FE94F82A.  Shifted: 13C6EF372 and 78DDE6E5.
    same(0x9E3779B97F4A7C15 ^ 0x13C6EF372, 0x9E3779B843248F67, "by hand")
    same(0x3C6EF372FE94F82A ^ 0x78DDE6E5, 0x3C6EF37286491ECF, "by hand")
    same(ref.draw(0), (0x9E3779B97F4A7C15, 0x9E3779B843248F67), "one draw")
    same(ref.draw(0x9E3779B97F4A7C15),
         (0x3C6EF372FE94F82A, 0x3C6EF37286491ECF), "a second draw")
    # A state, and the number that it gives, by hand.
    cases = [(0, 0), (1, 1), (2 ** 30, 2 ** 30), (2 ** 31 - 1, 2 ** 31 - 1),
             (2 ** 31, 2 ** 31 + 1), (2 ** 31 + 1, 2 ** 31),
             (2 ** 32, 2 ** 32 + 2),
             (2 ** 32 + 2 ** 31, 2 ** 32 + 2 ** 31 + 3),
             (2 ** 62, 2 ** 62 + 2 ** 31), (2 ** 62 + 2 ** 31, 2 ** 62 + 1),
             (2 ** 63, 2 ** 63 + 2 ** 32),
             (2 ** 63 + 2 ** 32, 2 ** 63 + 2),
             # 64 ones, of which the lower 33 go.
             (HIGHEST, 2 ** 64 - 2 ** 33),
             (HIGHEST - 1, 2 ** 64 - 2 ** 33 + 1)]
    for state, number in cases:
        seed = seed_of_state(1, state)
        same(ref.draw(seed), (state, number), "state %X" % state)
        same(ref.draws(seed, 1), [number], "state %X" % state)
        same(nth_draw(seed, 1), number, "state %X by itself" % state)
        same(seed_of_draw(1, number), seed, "state %X from there" % state)
        for n in (2, 3, 24):
            same(ref.draws(seed_of_state(n, state), n)[-1], number,
                 "state %X at draw %d" % (state, n))
    # The sum is just below 2^64, then just 2^64.
    same(ref.draw(0x61C8864680B583EA)[0], HIGHEST, "just below")
    same(ref.draw(0x61C8864680B583EB), (0, 0), "just 2^64")
    same(ref.draw(0x61C8864680B583EC), (1, 1), "just above")
    same(ref.draw(HIGHEST)[0], STEP - 1, "the highest seed")


def group_draws(rng):
    for seed in seeds_of_loads(rng, 60):
        what = "seed %X" % seed
        found = ref.draws(seed, 30)
        state = bits_of(seed)
        states = [seed]
        expected = []
        for _ in range(30):
            state, given = draw_by_bits(state)
            states.append(number_of_bits(state))
            expected.append(number_of_bits(given))
        same(found, expected, what)
        same(found, [nth_draw(seed, n) for n in range(1, 31)],
             what + ", each by itself")
        for n in (0, 1, 2, 7, 24, 29):
            same(ref.draws(seed, n), expected[:n], what + ", fewer")
            same(ref.draws(states[n], 30 - n), expected[n:],
                 what + ", from a state")
        for n in range(30):
            same(ref.draw(states[n]), (states[n + 1], expected[n]),
                 what + ", one after another")
            same(seed_of_draw(n + 1, expected[n]), seed,
                 what + ", back to the seed")
    # The step is odd, so states do not repeat before 2^64 draws, and each
    # state gives a number of its own.
    for _ in range(20):
        same(len(set(ref.draws(rng.randint(0, HIGHEST), 500))), 500,
             "draws differ")


def group_load_periods(rng):
    """Which number picks which period, by words, weights and seeds."""
    words = re.findall(r"(\d+)(?: to (\d+))? is (\d+),(\d+)",
                       PERIODS_IN_WORDS)
    same(len(words), 6, "six periods in words")
    by_words = {}
    weights = []
    for first, last, thousands, rest in words:
        numbers = range(int(first), int(last or first) + 1)
        weights.append((len(numbers), int(thousands + rest)))
        for number in numbers:
            by_words[number] = int(thousands + rest)
    same(weights, [(1, 2_500), (10, 5_000), (33, 10_000), (15, 20_000),
                   (23, 40_000), (15, 80_000)], "weights in words")
    same(sum(weight for weight, _T in weights), 97, "weights come to 97")
    same(sum(weight for _ms, weight in TABLE_III) - 5, 97,
         "table III without its 33.3 ms row")
    same(WEIGHTED, [by_words[number] for number in range(97)],
         "words and table III")
    for number in range(97):
        same(ref.load_period(number), WEIGHTED[number], "number %d" % number)
    for number, T in LIMITS.items():
        same(ref.load_period(number), T, "limit %d" % number)
        same(by_words[number], T, "limit %d in words" % number)
    # The least seed, from 0 on, with each number as its first.
    seeds = {}
    for seed in itertools.count():
        seeds.setdefault(nth_draw(seed, 1) % 97, seed)
        if len(seeds) == 97:
            break
    for number, seed in seeds.items():
        T = WEIGHTED[number]
        same(ref.load(seed, 1),
             ("ok", [(T, T, nth_draw(seed, 2) % T)], 0),
             "seed %d for %d" % (seed, number))
    # Each number at each place, with draws of all sizes.
    for number in range(97):
        T = LIMITS.get(number, WEIGHTED[number])
        places = range(1, 13) if number in LIMITS else (1, 2, 12)
        for place in places:
            for one in numbers_with_rest(rng, number, 97):
                seed = seed_of_draw(2 * place - 1, one)
                what = "%d at place %d, seed %X" % (number, place, seed)
                same(ref.draws(seed, 2 * place - 1)[-1], one, what)
                found = ref.load(seed, place)
                same((len(found[1]), found[1][-1][:2]), (place, (T, T)),
                     what)
                same(found, ("ok", load_by_numbers(seed, place), 0), what)


def group_load_phases(rng):
    """The least and the greatest phases of each period, at each place."""
    for T in (2_500, 5_000, 10_000, 20_000, 40_000, 80_000):
        for place in (1, 2, 3, 11, 12):
            # Phases from T / 2 on tell T from the shorter periods.
            for phase in (0, 1, T // 2 - 1, T // 2, T - 2, T - 1):
                # One of so many second draws has T before it.
                while True:
                    second = T * rng.randint(0, (HIGHEST - phase) // T) \
                        + phase
                    seed = seed_of_draw(2 * place, second)
                    if WEIGHTED[nth_draw(seed, 2 * place - 1) % 97] == T:
                        break
                what = "T %d phase %d at place %d, seed %X" \
                    % (T, phase, place, seed)
                found = ref.load(seed, place)
                same(found[1][-1], (T, T, phase), what)
                same(found, ("ok", load_by_bits(seed, place), 0), what)
                same(ref.check_chain(*found[1:])[0], "ok", what)


def group_loads_by_hand(_rng):
    # Seed, places, and (period, phase) of the first ones, known beforehand.
    cases = [
        (0, 3, [(10_000, 8_591), (10_000, 7_183), (40_000, 26_767)]),
        (1, 2, [(10_000, 8_590), (20_000, 17_182)]),
        (0xDEADBEEF, 4, [(10_000, 8_782), (20_000, 46), (80_000, 34_910),
                         (20_000, 7_822)]),
        (0x61C8864680B583EB, 1, [(2_500, 307)]),
        (HIGHEST, 12, [(10_000, 8_588), (10_000, 7_176), (40_000, 26_764),
                       (40_000, 34_352)])]
    for seed, places, begin in cases:
        what = "seed %X, %d places" % (seed, places)
        found = ref.load(seed, places)
        same((found[0], found[2], len(found[1])), ("ok", 0, places), what)
        same(found[1][:len(begin)], [(T, T, F) for T, F in begin], what)
        same(found[1], load_by_bits(seed, places), what)
        for fewer in range(1, len(begin) + 1):
            same(ref.load(seed, fewer),
                 ("ok", [(T, T, F) for T, F in begin[:fewer]], 0), what)
    # Seed 0 by hand: its first draw is 26 above a multiple of 97, so the
    # period is 10,000.  Its second ends in 8591, which is the phase.
    same(ref.draws(0, 2), [97 * 117_533_142_412_568_173 + 26,
                           4_354_685_562_918_608_591], "draws of seed 0")
    highest = ref.load(HIGHEST, 12)
    same(ref.check_chain(*highest[1:]), ("ok", 40_000), "highest seed, H")
    same(ref.greatest_latency(*highest[1:]), 426_052, "its greatest latency")
    for p in range(1, 13):
        slots = [0] * 16
        made, starts, latencies = ref.make(*highest[1:], p, slots, slots)
        same(ref.greatest(starts, latencies, made[1], made[3]),
             ("ok", 426_052), "cut at %d" % p)


def check_load(seed, tasks):
    """The checks that each chain of a test load passes."""
    what = "seed %X, %d places" % (seed, len(tasks))
    H = literal_hyperperiod(tasks)
    same(ref.check_chain(tasks, 0), ("ok", H), what)
    same(H, max(T for T, _D, _F in tasks), "longest period, " + what)
    same(80_000 % H, 0, "80,000, " + what)
    same(all(T == D and 0 <= F < T for T, D, F in tasks), True, what)


def group_loads(rng):
    met = {}
    for seed in seeds_of_loads(rng, 300):
        expected = load_by_bits(seed, 12)
        same(load_by_numbers(seed, 12), expected, "seed %X" % seed)
        for places in range(1, 13):
            found = ref.load(seed, places)
            same(found, ("ok", expected[:places], 0),
                 "seed %X, %d places" % (seed, places))
            same(type(found[1]), list, "a list of tasks")
            check_load(seed, found[1])
        for T, _D, _F in expected:
            met[T] = met.get(T, 0) + 1
    same(sorted(met), sorted(set(WEIGHTED)), "every period is met")
    # Random seeds and places, each by itself.
    for _ in range(2_000):
        seed = rng.randint(0, HIGHEST)
        places = rng.randint(1, 12)
        found = ref.load(seed, places)
        same(found, ("ok", load_by_numbers(seed, places), 0),
             "seed %X, %d places" % (seed, places))
        check_load(seed, found[1])
    # Many seeds in a row, as clubs would trade them.
    for seed in range(1_000):
        same(ref.load(seed, 12), ("ok", load_by_numbers(seed, 12), 0),
             "seed %d" % seed)
    # The chain of a seed goes on from a state within it.
    for _ in range(300):
        seed = rng.randint(0, HIGHEST)
        before = rng.randint(1, 11)
        state = (seed + 2 * before * STEP) % 2 ** 64
        same(ref.load(seed, 12)[1][before:], ref.load(state, 12 - before)[1],
             "seed %X from place %d" % (seed, before + 1))


def group_load_refusals(rng):
    refusal = ("refused", 8, 0)
    for seed in seeds_of_loads(rng, 20):
        for places in NOT_PLACES + [rng.randint(13, HIGHEST)]:
            what = "seed %X, %d places" % (seed, places)
            same(ref.load(seed, places), refusal, what)
            same(ref.load_file(seed, places), refusal, "file, " + what)
        for places in (1, 12):
            same(ref.load(seed, places)[0], "ok", "%d places" % places)
            same(ref.load_file(seed, places)[0], "ok", "%d places" % places)


# Seed 1, 2 places: T and D 10,000 (2710 hexadecimal), F 8,590 (218E); T and
# D 20,000 (4E20), F 17,182 (431E).
FILE_OF_SEED_1 = bytes.fromhex(
    "1200" "0100" "0100" "10270000" "10270000" "8e210000"
    "1200" "0100" "0200" "204e0000" "204e0000" "1e430000"
    "0800" "0200" "0100" "0200"
    "0400" "0300")

# Its place 2 reads at 17,182, before the first write at 18,590, then at
# 37,182 what was written at 28,590 and read at 18,590.  A press then is read
# at 28,590, written at 38,590, read at 57,182 and written at 77,182, which is
# 58,592 later.  20,000 times 58,592 and 38,592 together is 1,943,680,000.
REPORT_OF_SEED_1 = b"""chain 1
warm 18590
hyper 20000
anchors 1
a 18590 58592
max 58592
low 38592
mean 1943680000 40000
walked 1
"""


def group_load_files(rng):
    same(ref.load_file(1, 2), ("ok", FILE_OF_SEED_1), "seed 1, 2 places")
    same(ref.report(FILE_OF_SEED_1), REPORT_OF_SEED_1, "its report")
    # One place: read at 307, then at 2,807, written at 5,307.
    file = bytes.fromhex("1200" "0100" "0100" "c4090000" "c4090000" "33010000"
                         "0600" "0200" "0100" "0400" "0300")
    same(ref.load_file(0x61C8864680B583EB, 1), ("ok", file), "first state 0")
    same(ref.report(file), b"chain 1\nwarm 307\nhyper 2500\nanchors 1\n"
         b"a 307 5000\nmax 5000\nlow 2500\nmean 18750000 5000\nwalked 1\n",
         "its report")
    for turn, seed in enumerate(seeds_of_loads(rng, 100)):
        expected = load_by_numbers(seed, 12)
        for places in range(1, 13):
            what = "seed %X, %d places" % (seed, places)
            answer = ref.load_file(seed, places)
            same((answer[0], type(answer[1])), ("ok", bytes), what)
            file = answer[1]
            numbered = [(place, *expected[place - 1])
                        for place in range(1, places + 1)]
            chain = list(range(1, places + 1))
            same(file, file_of(numbered, [chain], 0), what)
            same(len(file), 18 * places + 4 + 2 * places + 4, what)
            same(ref.read_file(file), ("ok", numbered, [chain], 0), what)
            _ok, tasks, chains, gap = ref.read_file(file)
            same(ref.chain_of_schedule(*schedule(tasks, chains, gap), 1),
                 ("ok", ref.load(seed, places)[1]), "chain, " + what)
            # The longest period is the hyperperiod, so the table has one
            # anchor, and the report is that of one walk.
            if (turn + places) % 12 == 0:
                x0 = ref.warm_up(expected[:places], gap)[2]
                latency = literal_delay(expected[:places], gap, x0)
                H = max(T for T, _D, _F in expected[:places])
                lines = ["chain 1", "warm %d" % x0, "hyper %d" % H,
                         "anchors 1", "a %d %d" % (x0, latency),
                         "max %d" % latency, "low %d" % (latency - H),
                         "mean %d %d" % (H * (2 * latency - H), 2 * H),
                         "walked 1"]
                same(ref.report(file).decode("ascii").splitlines(), lines,
                     "report, " + what)


TWO_WORDS_LINE = \
    b"chainload: two words are needed: chainload SEED PLACES\n"
SEED_LINE = \
    b"chainload: SEED must be a number from 0 to 18446744073709551615, " \
    b"in at most 20 decimal digits\n"
PLACES_LINE = \
    b"chainload: PLACES must be a number from 1 to 12, in at most 20 " \
    b"decimal digits\n"

# Words that are no numbers, whatever they stand for.
NOT_NUMBERS = [
    b"", b" ", b"  ", b"\n", b"\t", b"\0", b"+", b"-", b".", b"_", b"x",
    # A sign, also on a number that is written out.
    b"+1", b"-1", b"+0", b"-0", b"1+", b"1-", b"--1", b"-18446744073709551615",
    # Blanks before, after and within, and other bytes that print as none.
    b" 1", b"1 ", b" 1 ", b"1 2", b"\t1", b"1\t", b"\n1", b"1\n", b"1\r",
    b"1\r\n", b"1\x0b", b"1\x0c", b"\x001", b"1\x00", b"\x001\x00", b"1\x1c",
    b"1\x1f", b"1\x7f", b"1\xa0", b"\xa01", b"1\xc2\xa0", b"1\xc2\x85",
    b"\xef\xbb\xbf1", b"1\xe2\x80\x8b",
    # Points, marks and letters.
    b"1.", b".1", b"1.0", b"1,0", b"1_0", b"_1", b"1_", b"1__0", b"1'0",
    b"1e1", b"1E1", b"1e0", b"0x1", b"0X1", b"x1", b"0b1", b"0o1", b"1h",
    b"1L", b"1u", b"1u64", b"a", b"A", b"f", b"DEADBEEF", b"deadbeef",
    b"61C8864680B583EB", b"nan", b"inf", b"one", b"None", b"True", b"\\1",
    b"#1", b"\"1\"", b"'1'", b"(1)", b"1;", b"1/1", b"1:", b"$1", b"--",
    b"-h", b"--help", b"12345678901234567\xff", b"\xff", b"\x80", b"1\x80",
    # The bytes beside the digits.
    b"/", b":", b"0/", b"0:", b"/0", b":0",
    # Digits of other scripts, which stand for numbers: full width, Arabic,
    # Devanagari; superscripts two and one, in UTF-8 and in Latin 1; a half.
    "\uff11".encode(), "\u0661".encode(), "\u0967".encode(),
    "\u00b2".encode(), "\u00b9".encode(), "1\uff11".encode(), b"\xb2",
    b"\xb9", b"1\xb9", b"\xbd", "\u2460".encode(), "\u2160".encode(),
    # The same in UTF-16.
    b"1\x00", b"\x001", b"\xff\xfe1\x00",
    # Above 20 digits, whatever the value.
    b"0" * 21, b"0" * 20 + b"1", b"0" * 19 + b"12", b"0" * 30 + b"7",
    b"018446744073709551615", b"018446744073709551616", b"1" * 21,
    b"100000000000000000000", b"0" * 255 + b"1", b"0" * 256 + b"1",
    b"0" * 4_299 + b"1", b"0" * 5_000 + b"1", b"9" * 5_000, b"0" * 5_000,
    # 20 or 21 bytes, one of which is no digit.
    b" " + b"0" * 19 + b"1", b"0" * 19 + b"1 ", b"0" * 19 + b"1\n",
    b"+" + b"0" * 19 + b"1", b"+" + b"0" * 18 + b"1", b"0" * 18 + b"1\n",
    b"0" * 10 + b"_" + b"0" * 8 + b"1",
    # Not below 2^64: above it by 0 to 12 and by more, multiples of it, and
    # the greatest of 20 digits.
    b"18446744073709551616", b"18446744073709551617",
    b"18446744073709551618", b"18446744073709551620",
    b"18446744073709551626", b"18446744073709551627",
    b"18446744073709551628", b"18446744073709551700",
    b"18446744073709552000", b"18446744073709600000",
    b"18446744074000000000", b"18446745000000000000",
    b"18447000000000000000", b"19000000000000000000",
    b"18500000000000000000", b"20000000000000000000",
    b"27670116110564327424", b"36893488147419103232",
    b"36893488147419103233", b"55340232221128654849",
    b"92233720368547758081", b"92233720368547758090",
    b"99999999999999999999"]


def words_put_out(words):
    """What chainload puts out, with its types looked at."""
    found = ref.chainload(words)
    same((type(found), [type(one) for one in found]), (tuple, [bytes, bytes]),
         "two bytes objects for %r" % (words,))
    return found


def expected_words(words):
    """The rule of the words once more.

    Which words are digits is had from a pattern, the value from Python.
    """
    if len(words) < 2 or len(words) > 2:
        return (b"", TWO_WORDS_LINE)
    values = []
    for word in words:
        value = None
        if re.fullmatch(rb"[0123456789]{1,20}", word):
            value = int(word.decode("ascii"), 10)
            if value > 18_446_744_073_709_551_615:
                value = None
        values.append(value)
    if values[0] is None:
        return (b"", SEED_LINE)
    if values[1] not in range(1, 13):
        return (b"", PLACES_LINE)
    seed, places = values
    return (file_of([(place, *task) for place, task
                     in enumerate(load_by_numbers(seed, places), start=1)],
                    [list(range(1, places + 1))], 0), b"")


def group_words_by_hand(_rng):
    # The lines, by their lengths and one LF each.
    for line, length in ((TWO_WORDS_LINE, 55), (SEED_LINE, 94),
                         (PLACES_LINE, 78)):
        same((len(line), line.count(b"\n"), line[-1:]), (length, 1, b"\n"),
             "the line %r" % line)
    two_words = (b"", TWO_WORDS_LINE)
    seed_fault = (b"", SEED_LINE)
    places_fault = (b"", PLACES_LINE)
    success = (FILE_OF_SEED_1, b"")
    same(words_put_out([b"1", b"2"]), success, "seed 1, 2 places")
    # There must be two words, whatever they are.
    for words in ([], [b""], [b"1"], [b"1 2"], [b"1", b"2", b""],
                  [b"1", b"2", b"3"], [b"", b"", b""], [b"x"], [b"-1"],
                  [b"x", b"y", b"z"], [b"1", b"0", b"2"], [b"x", b"2", b"3"],
                  [b"1", b"2", b"1", b"2"], [b"chainload", b"1", b"2"],
                  [b"--", b"1", b"2"], [b"", b"1", b"2"], [b"1", b"", b"2"],
                  [b"1"] * 12, [b"1"] * 256, [b"1"] * 258):
        same(words_put_out(words), two_words, "%d words" % len(words))
    # Leading zeros, up to 20 digits.
    for seed in range(20):
        for places in range(20):
            words = [b"0" * seed + b"1", b"0" * places + b"2"]
            same(words_put_out(words), success, "%r" % words)
    # They change neither the value nor its base.
    for word, places in ((b"08", 8), (b"09", 9), (b"010", 10), (b"011", 11),
                         (b"012", 12), (b"00012", 12)):
        same(words_put_out([word, word]),
             (ref.load_file(places, places)[1], b""), "%r" % word)
    for word in (b"013", b"014", b"00", b"0" * 20):
        same(words_put_out([b"1", word]), places_fault, "%r" % word)
    same(words_put_out([b"0" * 20 + b"1", b"2"]), seed_fault,
         "21 digits of a seed")
    same(words_put_out([b"1", b"0" * 20 + b"2"]), places_fault,
         "21 digits of places")
    # SEED is judged before PLACES, and neither stands for the other.
    for word in NOT_NUMBERS:
        for places in (b"1", b"2", b"12", b"0", b"13", b"", b"x",
                       b"18446744073709551615", b"18446744073709551616"):
            same(words_put_out([word, places]), seed_fault,
                 "%r %r" % (word, places))
        for seed in (b"0", b"1", b"12", b"13", b"18446744073709551615",
                     b"0" * 20):
            same(words_put_out([seed, word]), places_fault,
                 "%r %r" % (seed, word))
        same(words_put_out([word, word]), seed_fault, "%r twice" % word)
    # Numbers that are no places, and the same as seeds.
    for places in NOT_PLACES:
        word = b"%d" % places
        for seed in (b"0", b"1", b"18446744073709551615"):
            same(words_put_out([seed, word]), places_fault,
                 "%r places" % word)
        same(words_put_out([b"x", word]), seed_fault, "%r places" % word)
        same(words_put_out([b"", word]), seed_fault, "%r places" % word)
        found = words_put_out([word, b"12"])
        same((len(found[0]), found[1]), (248, b""), "seed %r" % word)
        same(found, (ref.load_file(places, 12)[1], b""), "seed %r" % word)
    # The ends of the seeds, written in several ways.
    for word in (b"18446744073709551615", b"18446744073709551614",
                 b"18446744073709551609", b"18446744073709551599",
                 b"18446744073709551000", b"18446744073700000000",
                 b"18399999999999999999", b"17999999999999999999",
                 b"10000000000000000000", b"09999999999999999999",
                 b"9999999999999999999", b"09223372036854775808",
                 b"9223372036854775807", b"00000000000000000000", b"0"):
        for places in (1, 12):
            same(words_put_out([word, b"%d" % places]),
                 (ref.load_file(int(word), places)[1], b""),
                 "seed %r" % word)
    same(words_put_out([b"18446744073709551616", b"1"]), seed_fault, "2^64")
    # The words themselves stay, and a tuple of words serves as well.
    words = [b"1", b"2"]
    words_put_out(words)
    same(words, [b"1", b"2"], "words stay")
    same(words_put_out((b"1", b"2")), success, "a tuple")


def group_words(rng):
    # Every word of one byte and of two, at either place.
    short = [bytes([one]) for one in range(256)]
    for word in short + [one + other for one in short for other in short]:
        for words in ([word, b"3"], [b"7", word]):
            same(ref.chainload(words), expected_words(words), "%r" % words)
    # A number with one byte changed, put in or taken out.
    for _ in range(6_000):
        words = [b"%0*d" % (rng.choice([1, 1, 19, 20, 21]), value)
                 for value in (rng.choice([rng.randint(0, HIGHEST),
                                           rng.randint(0, 10 ** 20 - 1),
                                           rng.randint(HIGHEST - 9,
                                                       HIGHEST + 9),
                                           rng.randint(0, 20)]),
                               rng.choice([rng.randint(0, 14),
                                           rng.randint(1, 12),
                                           rng.randint(0, 2 ** 65)]))]
        if rng.random() < 0.5:
            which = rng.randrange(2)
            word = words[which]
            at = rng.randrange(len(word))
            byte = rng.choice([bytes([rng.randrange(256)]), b"", b"0", b"9",
                               b" ", b"+", b"-", b"_", b"/", b":"])
            words[which] = word[:at] + byte + word[at + rng.randint(0, 1):]
        if rng.random() < 0.05:
            words = rng.choice([words[:1], words + [b"1"], words[1:],
                                [words[1], words[0]]])
        same(words_put_out(words), expected_words(words), "%r" % words)
    # Loads of all kinds by their words, also with leading zeros.
    for seed in seeds_of_loads(rng, 60):
        for places in range(1, 13):
            for form in (b"%d", b"%020d"):
                words = [form % seed, form % places]
                same(words_put_out(words), expected_words(words),
                     "%r" % words)


# ---------------------------------------------------------------------------
# A phase that keeps the promise, order 9
# ---------------------------------------------------------------------------

def places_at_phase(tasks, numbers, number, phase):
    """The places of a chain as (T, D, F); those of the task have the phase.

    The tasks are (number, T, D, F), and numbers is the chain.
    """
    places = []
    for one in numbers:
        for other, T, D, F in tasks:
            if other == one:
                places.append((T, D, phase if one == number else F))
    return places


def latencies_at_phases(tasks, numbers, gap, number, greatest, most=10_000):
    """The greatest latency at phase 0, at phase 1 and so on, by a method."""
    period = next(T for one, T, _D, _F in tasks if one == number)
    return [greatest(places_at_phase(tasks, numbers, number, phase), gap)
            for phase in range(min(period, most))]


def travelled_greatest(tasks, gap):
    """One more than the greatest age of values that travel tick by tick."""
    T, D, F = tasks[-1]
    z0 = F + literal_warm_up(tasks, gap)[-1] * T + D
    until = z0 + literal_hyperperiod(tasks)
    seen = flow(tasks, gap, until)
    return 1 + max(z - seen[z] for z in range(z0, until))


def greatest_of_pair(tasks, gap):
    """The greatest latency of two places, as for sections."""
    return greatest_of_two(*tasks, gap)


def greatest_of_equals(tasks, gap):
    """The greatest latency where all periods are one, without a walk.

    A press at a read waits a period for the next job.  From write + gap to
    the next place's read each value waits equally long.
    """
    T = tasks[0][0]
    latency = T + sum(D for _T, D, _F in tasks)
    for (_T, D, F), (_next_T, _next_D, next_F) in zip(tasks, tasks[1:]):
        latency += gap + (next_F - F - D - gap) % T
    return latency


def first_at_most(latencies, bound):
    """The smallest phase whose latency is at most the bound, or None."""
    fits = {phase for phase, one in enumerate(latencies) if one <= bound}
    return min(fits) if fits else None


def check_phases(arguments, n, number, latencies, what):
    """Both calls, with every bound at which the answer can change."""
    same(ref.latency_at_phases_of(*arguments, n, number), ("ok", latencies),
         what)
    at = {0, *WIDE}
    for one in latencies:
        at |= {one - 1, one, one + 1}
    for bound in sorted(at):
        same(ref.smallest_phase_of(*arguments, n, number, bound),
             ("ok", first_at_most(latencies, bound)),
             "%s, bound %d" % (what, bound))


def group_phases_by_hand(_rng):
    A = [(1, 4, 4, 0), (2, 6, 6, 0)]
    A_odd = [(1, 4, 4, 1), (2, 6, 6, 0)]
    C = [(1, 5, 5, 0), (2, 5, 5, 0)]
    D = [(5, 10, 2, 0), (6, 10, 1, 95)]
    threes = [(3, 10, 3, 7), (9, 20, 5, 0)]
    four = [(1, 4, 1, 0), (2, 6, 2, 0), (3, 6, 3, 1)]
    four_chains = [[1, 2], [2], [2, 3], [2, 2]]
    # Tasks, chains, gap, chain number, task number, the latencies at phases
    # 0, 1, ..., and bounds with their phases.
    cases = [
        # Writes of task 1 are multiples of 4.  At an even phase of task 2 a
        # value waits up to 4 ticks for its read: 4 + 4 + 4 + 6.  At an odd
        # one it waits up to 5.
        ("A", A, [[1, 2]], 0, 1, 2, [18, 19, 18, 19, 18, 19],
         [(0, None), (17, None), (18, 0), (19, 0), (HIGHEST, 0)]),
        ("A, first task", A, [[1, 2]], 0, 1, 1, [18, 19, 18, 19],
         [(17, None), (18, 0)]),
        # Task 1 writes on odd ticks, so task 2 does well to read there.
        ("A odd", A_odd, [[1, 2]], 0, 1, 2, [19, 18, 19, 18, 19, 18],
         [(0, None), (17, None), (18, 1), (19, 0), (20, 0), (HIGHEST, 0)]),
        # The gap makes a value readable on odd ticks as well.
        ("A with gap 1", A, [[1, 2]], 1, 1, 2, [20, 19, 20, 19, 20, 19],
         [(18, None), (19, 1), (20, 0)]),
        ("A with gap 999", A, [[1, 2]], 999, 1, 2,
         [1_018, 1_017, 1_018, 1_017, 1_018, 1_017],
         [(1_016, None), (1_017, 1), (1_018, 0)]),
        ("A with gap 1,000", A, [[1, 2]], 1_000, 1, 2,
         [1_018, 1_019, 1_018, 1_019, 1_018, 1_019],
         [(1_017, None), (1_018, 0)]),
        # One place has T + D at every phase.
        ("B", [(7, 10, 3, 5)], [[7]], 0, 1, 7, [13] * 10,
         [(0, None), (12, None), (13, 0), (14, 0)]),
        ("B with gap 1,000", [(7, 10, 3, 5)], [[7]], 1_000, 1, 7, [13] * 10,
         [(12, None), (13, 0)]),
        # C with one task at both places: both move, nothing changes.
        ("C, one task", [(1, 5, 5, 0)], [[1, 1]], 0, 1, 1, [15] * 5,
         [(14, None), (15, 0)]),
        ("C, one task, gap 1", [(1, 5, 5, 0)], [[1, 1]], 1, 1, 1, [20] * 5,
         [(19, None), (20, 0)]),
        # C with two tasks that are alike: one moves, the other stays.
        # Task 1 writes on multiples of 5.  Task 2 at phase f makes each
        # value wait f ticks; task 1 at phase f > 0 makes it wait 5 - f.
        ("C, second task", C, [[1, 2]], 0, 1, 2, [15, 16, 17, 18, 19],
         [(14, None), (15, 0), (17, 0)]),
        ("C, first task", C, [[1, 2]], 0, 1, 1, [15, 19, 18, 17, 16],
         [(14, None), (15, 0), (16, 0)]),
        # The other one at phase 4, where a value waits 4 - f ticks.
        ("C, a later task", [(1, 5, 5, 0), (2, 5, 5, 4)], [[1, 2]], 0, 1, 1,
         [19, 18, 17, 16, 15],
         [(14, None), (15, 4), (16, 3), (17, 2), (18, 1), (19, 0), (20, 0)]),
        # And at 9 and at 999,999, which are later by multiples of 5.
        ("C, 9", [(1, 5, 5, 0), (2, 5, 5, 9)], [[1, 2]], 0, 1, 1,
         [19, 18, 17, 16, 15], [(14, None), (15, 4), (18, 1), (19, 0)]),
        ("C, 999,999", [(1, 5, 5, 0), (2, 5, 5, 999_999)], [[1, 2]], 0, 1, 1,
         [19, 18, 17, 16, 15], [(14, None), (15, 4), (18, 1), (19, 0)]),
        # The gap adds one tick and takes one off the wait, once around.
        ("C with gap 1", C, [[1, 2]], 1, 1, 2, [20, 16, 17, 18, 19],
         [(15, None), (16, 1), (19, 1), (20, 0)]),
        # D today has phase 95 and 16.  A write ends in 2: 10 + 2 + 1 and the
        # wait from there.  The phase of today is none of those asked for.
        ("D", D, [[5, 6]], 0, 1, 6,
         [21, 22, 13, 14, 15, 16, 17, 18, 19, 20],
         [(12, None), (13, 2), (16, 2), (20, 2), (21, 0), (22, 0)]),
        ("D, first task", D, [[5, 6]], 0, 1, 5,
         [16, 15, 14, 13, 22, 21, 20, 19, 18, 17],
         [(12, None), (13, 3), (14, 2), (15, 1), (16, 0)]),
        # Task 3 before and behind task 9, which reads at 0 and writes at 5.
        # A write of task 3 at phase f waits (7 - f) modulo 10 for the read
        # at 0, and the value at 5 waits (f - 5) modulo 10 for task 3.  At 5,
        # 6 and 7 this is 2 together, else 12: 20 + 3 + 5 + 3 and the waits.
        ("threes", threes, [[3, 9, 3]], 0, 1, 3,
         [43, 43, 43, 43, 43, 33, 33, 33, 43, 43],
         [(32, None), (33, 5), (42, 5), (43, 0), (HIGHEST, 0)]),
        # Task 9 moves past task 3, which has phase 7: it does well to read
        # at 0, 1, 2 after a write of task 3.
        ("threes, middle", threes, [[3, 9, 3]], 0, 1, 9,
         ([33] * 3 + [43] * 7) * 2, [(32, None), (33, 0)]),
        # With gap 1 only phase 6 has a write + gap at the read and a read at
        # write + gap: 31, two gaps, no wait.
        ("threes with gap 1", threes, [[3, 9, 3]], 1, 1, 3,
         [43, 43, 43, 43, 43, 43, 33, 43, 43, 43],
         [(32, None), (33, 6), (42, 6), (43, 0)]),
        # With gap 2 phase 6 is a tick late at both: 31, two gaps, 9 and 9.
        ("threes with gap 2", threes, [[3, 9, 3]], 2, 1, 3,
         [43, 43, 43, 43, 43, 43, 53, 43, 43, 43],
         [(42, None), (43, 0), (53, 0)]),
        # Periods without a common divisor: some value waits all but one tick
        # of the period, whatever the phases are.  4 + 1 + 6 + 2.
        ("4 and 7", [(1, 4, 1, 2), (2, 7, 2, 5)], [[1, 2]], 0, 1, 2,
         [13] * 7, [(12, None), (13, 0)]),
        # Period 1: one phase there is.
        ("period 1", [(1, 1, 1, 1_000_000), (2, 3, 2, 1)], [[1, 2]], 0, 1, 1,
         [6], [(0, None), (5, None), (6, 0), (HIGHEST, 0)]),
        # Four chains of one schedule, and task 2 in each.
        # Task 1 writes on odd ticks: 4 + 1 + 4 + 2 at odd phases.
        ("chain 1 of 4", four, four_chains, 0, 1, 2,
         [12, 11, 12, 11, 12, 11], [(10, None), (11, 1), (13, 0)]),
        ("chain 2 of 4", four, four_chains, 0, 2, 2, [8] * 6,
         [(7, None), (8, 0), (13, 0)]),
        # 6 + 2 + 3, and from phase + 2 the wait for task 3's read at 1 or 7.
        ("chain 3 of 4", four, four_chains, 0, 3, 2,
         [16, 15, 14, 13, 12, 11], [(10, None), (11, 5), (13, 3), (16, 0)]),
        # Both places move: from each write 4 ticks to the next read.
        ("chain 4 of 4", four, four_chains, 0, 4, 2, [14] * 6,
         [(13, None), (14, 0)]),
    ]
    # Twelve places.  All periods are 5, so is each duration, and where no
    # value waits the latency is 65.
    X, Y = (20, 5, 5, 0), (30, 5, 5, 3)
    cases += [
        ("twelve of one", [X], [[20] * 12], 0, 1, 20, [65] * 5,
         [(64, None), (65, 0)]),
        # Each of the 11 links waits 4 ticks beside the gap of 1.
        ("twelve of one, gap 1", [X], [[20] * 12], 1, 1, 20, [120] * 5,
         [(119, None), (120, 0)]),
        # One place of twelve: f ticks to it, 5 - f from it.
        ("one of twelve", [X, Y], [[20] * 6 + [30] + [20] * 5], 0, 1, 30,
         [65, 70, 70, 70, 70], [(64, None), (65, 0)]),
        # All the others move, which is the same.
        ("eleven of twelve", [X, Y], [[20] * 6 + [30] + [20] * 5], 0, 1, 20,
         [70, 70, 70, 65, 70], [(64, None), (65, 3), (69, 3), (70, 0)]),
        # Every other place: six times f and five times 5 - f.
        ("six of twelve", [X, Y], [[20, 30] * 6], 0, 1, 30,
         [65, 91, 92, 93, 94], [(64, None), (65, 0), (94, 0)]),
        # The first moves, the last moves.  The rest stays at 3.
        ("first of twelve", [X, Y], [[20] + [30] * 11], 0, 1, 20,
         [68, 67, 66, 65, 69], [(64, None), (65, 3), (67, 1), (68, 0)]),
        ("last of twelve", [X, Y], [[30] * 11 + [20]], 0, 1, 20,
         [67, 68, 69, 65, 66], [(64, None), (65, 3), (66, 3), (67, 0)]),
        ("both ends of twelve", [X, Y], [[20] + [30] * 10 + [20]], 0, 1, 20,
         [70, 70, 70, 65, 70], [(64, None), (65, 3), (70, 0)]),
    ]
    # Any number of places: the last moves, and a value waits f ticks for it.
    # With gap 1 each link before it takes a whole period, and that one f
    # ticks, or 5 at phase 0.  A place alone has T + D.
    for places in range(1, 13):
        chains = [[20] * (places - 1) + [30]]
        plain = [5 + 5 * places + f for f in range(5)]
        gapped = [5 * (places - 2) + one for one in plain]
        gapped[0] += 5
        if places == 1:
            plain = gapped = [10] * 5
        for gap, latencies in ((0, plain), (1, gapped)):
            cases.append(("%d places, gap %d" % (places, gap), [X, Y], chains,
                          gap, 1, 30, latencies,
                          [(min(latencies) - 1, None),
                           (min(latencies), gap if places > 1 else 0),
                           (max(latencies), 0)]))
    for name, tasks, chains, gap, n, number, latencies, pairs in cases:
        what = "%s, task %d" % (name, number)
        arguments = schedule(tasks, chains, gap)
        for bound, phase in pairs:
            same(ref.smallest_phase_of(*arguments, n, number, bound),
                 ("ok", phase), "%s, bound %d" % (what, bound))
        check_phases(arguments, n, number, latencies, what)
        numbers = chains[n - 1]
        same(latencies_at_phases(tasks, numbers, gap, number,
                                 ref.greatest_latency),
             latencies, what + ", place by place")
        # Today's phase, be it as large as may be, has no part in it.
        for today in (0, 1, 95, 999_999, 1_000_000):
            moved_today = [(one, T, D, today if one == number else F)
                           for one, T, D, F in tasks]
            same(ref.latency_at_phases_of(*schedule(moved_today, chains, gap),
                                          n, number), ("ok", latencies),
                 "%s, today %d" % (what, today))
            for bound, phase in pairs:
                same(ref.smallest_phase_of(
                    *schedule(moved_today, chains, gap), n, number, bound),
                     ("ok", phase), "%s, today %d, bound %d"
                     % (what, today, bound))
    # What is given stays, as lists and as tuples, and entries past a count
    # are not looked at.
    arguments = schedule(threes, [[9], [3, 9, 3], [9, 3]], 1)
    copy = (arguments[0], list(arguments[1]), arguments[2],
            [(count, list(numbers)) for count, numbers in arguments[3]],
            arguments[4])
    same(ref.smallest_phase_of(*arguments, 2, 3, 33), ("ok", 6), "threes")
    same(ref.latency_at_phases_of(*arguments, 2, 3)[1].index(33), 6, "threes")
    same(arguments, copy, "the schedule given stays")
    tuples = (2, tuple(threes), 1, ((3, (3, 9, 3)),), 1)
    same(ref.smallest_phase_of(*tuples, 1, 3, 33), ("ok", 6), "tuples")
    beyond = (2, threes + [None] * 30, 1, [(3, [3, 9, 3] + [None] * 9), None],
              1)
    same(ref.smallest_phase_of(*beyond, 1, 3, 33), ("ok", 6), "past a count")
    same(ref.latency_at_phases_of(*beyond, 1, 3)[1], [43] * 6 + [33]
         + [43] * 3, "past a count")
    # A task past the count has the number of one that moves, or of one that
    # stays; a chain past the count has the chain's number.
    beyond = (2, threes + [(3, 1, 1, 0), (9, 1, 1, 0)], 1,
              [(3, [3, 9, 3, 9, 9, 3]), (1, [3])], 1)
    same(ref.smallest_phase_of(*beyond, 1, 3, 33), ("ok", 6), "past a count")
    same(ref.smallest_phase_of(*beyond, 1, 3, 32), ("ok", None),
         "past a count")


def phase_schedule(rng, chain_count, most_places):
    """A random small schedule whose tasks fill several places: tasks, chains.

    The hyperperiod of each chain is at most 36.
    """
    pool = rng.choice([(1, 2, 3, 4, 6, 12), (2, 5, 10), (3, 4, 6, 8), (5, 7),
                       (1, 7, 4), (4, 6, 9), (5, 10, 15), (8, 12), (11, 3)])
    numbers = sorted(rng.sample(range(1, 65_536), rng.randint(1, 6)))
    tasks = []
    for number in numbers:
        T = rng.choice(pool)
        D = rng.choice([1, T, rng.randint(1, 2 * T), rng.randint(1, 20)])
        F = rng.choice([0, rng.randint(0, T), rng.randint(0, 40)])
        tasks.append((number, T, D, F))
    chains = []
    for _ in range(chain_count):
        fill = rng.sample(numbers, rng.randint(1, min(3, len(numbers))))
        chains.append([rng.choice(fill)
                       for _place in range(rng.randint(1, most_places))])
    return tasks, chains


def group_phases(rng):
    """Each phase by literal walks and by values that travel."""
    met = {}
    for turn in range(180):
        tasks, chains = phase_schedule(rng, 1 + turn % 4,
                                       12 if turn % 7 == 0 else 4)
        n = rng.randint(1, len(chains))
        numbers = chains[n - 1]
        number = rng.choice(numbers)
        today = places_at_phase(tasks, numbers, None, 0)
        gap = no_gap(rng) if turn % 3 == 0 else min(small_gap(rng, today), 60)
        what = "chain %d of %r with %r, gap %d, task %d" \
            % (n, chains, tasks, gap, number)
        latencies = latencies_at_phases(tasks, numbers, gap, number,
                                        literal_greatest)
        same(latencies_at_phases(tasks, numbers, gap, number,
                                 travelled_greatest), latencies,
             "walks and travels, " + what)
        # Other tasks of the chain keep their phase; this one's of today
        # goes, and so it may be any.
        tasks = [(one, T, D, rng.choice([F, T, 1_000_000])
                  if one == number else F) for one, T, D, F in tasks]
        check_phases(schedule(tasks, chains, gap), n, number, latencies, what)
        for kind, holds in (
                ("several places", numbers.count(number) > 1),
                ("all places", set(numbers) == {number}),
                ("the first place alone", numbers.count(number) == 1
                 and numbers[0] == number and len(numbers) > 1),
                ("the last place alone", numbers.count(number) == 1
                 and numbers[-1] == number and len(numbers) > 1),
                ("the answer hangs on the bound", len(set(latencies)) > 1),
                ("not the first phase", min(latencies) < latencies[0]),
                ("the last phase", min(latencies[:-1], default=0)
                 > latencies[-1])):
            met[kind] = met.get(kind, 0) + holds
    same(len(met), 7, "kinds")
    for kind, count in met.items():
        same(count >= 2, True, "met: %s, %d" % (kind, count))


def group_phases_of_schedules(rng):
    """Every chain and every number of a schedule."""
    refusal = ("refused", 19, 0)
    met = {}
    for turn in range(60):
        tasks, chains = phase_schedule(rng, 1 + turn % 4, 5)
        gap = no_gap(rng) if turn % 3 == 0 else wide_gap(rng)
        arguments = schedule(tasks, chains, gap)
        known = [one for one, _T, _D, _F in tasks]
        # Numbers of the schedule and their neighbours, those of the entries
        # past the counts, and numbers that no task can have.
        asked = set(known) | {one + 1 for one in known} \
            | {one - 1 for one in known} | {0, 7, 9, 65_535, 65_536, HIGHEST}
        asked |= {one + 65_536 for one in known}
        for n, numbers in enumerate(chains, start=1):
            for number in sorted(asked):
                what = "chain %d of %r with %r, gap %d, task %d" \
                    % (n, chains, tasks, gap, number)
                if number in numbers:
                    latencies = latencies_at_phases(tasks, numbers, gap,
                                                    number,
                                                    ref.greatest_latency)
                    check_phases(arguments, n, number, latencies, what)
                    # The phase of today, taken down below the period.
                    _one, T, _D, F = tasks[known.index(number)]
                    today = places_at_phase(tasks, numbers, None, 0)
                    same(ref.greatest_latency(today, gap),
                         latencies[F % T], what + ", today")
                    # Where all the others go a way, this one follows.
                    way = rng.choice([1, T, rng.randint(1, 999_900)])
                    gone = [(one, *task, F if one == number else F + way)
                            for one, *task, F in tasks]
                    same(ref.latency_at_phases_of(
                        *schedule(gone, chains, gap), n, number),
                         ("ok", [latencies[(phase - way) % T]
                                 for phase in range(T)]),
                         "%s, others %d later" % (what, way))
                    kind = "in the chain"
                else:
                    for bound in (0, 60, HIGHEST):
                        same(ref.smallest_phase_of(*arguments, n, number,
                                                   bound), refusal, what)
                    same(ref.latency_at_phases_of(*arguments, n, number),
                         refusal, what)
                    if number not in known:
                        kind = "not in the schedule"
                    elif any(number in others for others in chains):
                        kind = "in another chain"
                    else:
                        kind = "in no chain"
                met[kind] = met.get(kind, 0) + 1
        for n in (0, len(chains) + 1, 5, HIGHEST):
            for number in (known[0], 0, HIGHEST):
                for bound in (0, HIGHEST):
                    same(ref.smallest_phase_of(*arguments, n, number, bound),
                         ("refused", 16, 0), "chain number %d" % n)
                same(ref.latency_at_phases_of(*arguments, n, number),
                     ("refused", 16, 0), "chain number %d" % n)
    for kind in ("in the chain", "not in the schedule", "in another chain",
                 "in no chain"):
        same(met.get(kind, 0) > 30, True, "often met: " + kind)


def group_late_partitions(rng):
    """The answer at the first late partition against the plain one."""
    met = {}
    for turn in range(400):
        if turn % 5:
            tasks = small_chain(rng, 60 if turn % 10 else 400,
                                most_places=5 if turn % 7 else 12)
            gap = no_gap(rng) if turn % 4 == 0 else small_gap(rng, tasks)
        else:
            gap = wide_gap(rng)
            tasks = sectioned_chain(rng, gap)
        what = "%r gap %d" % (tasks, gap)
        latency = ref.greatest_latency(tasks, gap)
        walk = [end - start for start, end in
                ref.partitions(tasks, gap, ref.longest_period_place(tasks))]
        # No partition is later than every anchor.
        same(max(walk), latency, "largest of all partitions, " + what)
        for bound in {0, HIGHEST, latency - 1, latency, latency + 1,
                      *walk, *[one - 1 for one in walk]}:
            same(ref.keeps(tasks, gap, bound),
                 ref.greatest_latency(tasks, gap) <= bound,
                 "%s bound %d" % (what, bound))
        late = [m for m, one in enumerate(walk) if one == latency]
        for kind, holds in (
                ("one partition", len(walk) == 1),
                ("the first alone", len(walk) > 1 and late == [0]),
                ("the last alone", len(walk) > 1
                 and late == [len(walk) - 1]),
                ("between", 0 < late[0] and late[-1] < len(walk) - 1)):
            met[kind] = met.get(kind, 0) + holds
    for kind, count in met.items():
        same(count > 20, True, "often met: %s, %d" % (kind, count))


def group_phases_large(rng):
    # Period 10,000 by hand.  Task 1 writes 9,999 after a multiple of 10,000.
    # At phase 9,999 nothing waits: 10,000 + 9,999 + 7.  At phase f before
    # that a value waits f + 1 ticks.
    tasks = [(1, 10_000, 9_999, 0), (2, 10_000, 7, 1_000_000)]
    arguments = schedule(tasks, [[2], [1, 2]], 0)
    same(ref.latency_at_phases_of(*arguments, 2, 2),
         ("ok", [20_007 + f for f in range(9_999)] + [20_006]),
         "period 10,000")
    for bound, phase in ((20_006, 9_999), (20_007, 0), (20_005, None),
                         (HIGHEST, 0)):
        same(ref.smallest_phase_of(*arguments, 2, 2, bound), ("ok", phase),
             "period 10,000, bound %d" % bound)
    # Task 1 moves: the less it has to wait for 7, the later its phase is.
    same([ref.smallest_phase_of(*schedule(
        [(1, 10_000, 4_000_000, 1_000_000), (2, 10_000, 4_000_000, 7)],
        [[1, 2]], gap), 1, 1, 8_010_000 + gap + wait)[1]
          for gap in (0, 3, 7) for wait in (0, 1, 7 - gap, 9_999)],
         [7, 6, 0, 0, 4, 3, 0, 0, 0, 0, 0, 0], "longest durations")
    # Twelve places and nearly the longest latency there is.  Task 1 fills
    # eleven of them.  With gap 1,000 each link among these takes a whole
    # period: 1 + 44 + 10 million.  Task 2 stands behind or before and adds
    # 4,000,000, the gap, and the wait.
    tasks = [(1, 1_000_000, 4_000_000, 1_000_000), (2, 10_000, 4_000_000, 5)]
    arguments = schedule(tasks, [[1] * 11 + [2], [2] + [1] * 11], 1_000)
    for n, bound, phase in (
            # Behind: task 1 writes on multiples of 10,000, so a value is
            # readable 1,000 later.
            (1, 59_001_000, 1_000), (1, 59_001_001, 1_000),
            (1, 59_009_999, 1_000), (1, 59_010_000, 0), (1, HIGHEST, 0),
            # Before: a value of phase f waits 9,000 - f ticks.
            (2, 59_010_000, 0), (2, 59_009_999, 1), (2, 59_009_800, 200)):
        same(ref.smallest_phase_of(*arguments, n, 2, bound), ("ok", phase),
             "twelve places, chain %d, bound %d" % (n, bound))
    # Two places, and any number of equal periods, without a walk.
    met = {}
    for turn in range(200):
        gap = wide_gap(rng)
        T = rng.choice([1, 2, 9_999, 10_000, rng.randint(1, 50),
                        rng.randint(1, 10_000)])
        if turn % 2:
            greatest = greatest_of_pair
            numbers = rng.choice([[11, 12], [12, 11]])
            next_T = rng.choice([T, T * rng.randint(1, 99),
                                 rng.randint(1, 10_000)])
        else:
            greatest = greatest_of_equals
            numbers = [rng.choice([11, 11, 12, 13, 14])
                       for _ in range(rng.randint(1, 11))]
            numbers.insert(rng.randint(0, len(numbers)), 11)
            next_T = T
        tasks = [(number, T if number == 11 else next_T,
                  rng.choice([1, 4_000_000, rng.randint(1, 20_000)]),
                  rng.choice([0, 1_000_000, rng.randint(0, 1_000_000)]))
                 for number in (11, 12, 13, 14)]
        if math.lcm(T, next_T) > 100 * max(T, next_T):
            continue
        what = "%r with %r, gap %d" % (numbers, tasks, gap)
        arguments = schedule(tasks, [[13], numbers, [14, 12]], gap)
        latencies = latencies_at_phases(tasks, numbers, gap, 11, greatest,
                                        rng.choice([1, 20, 100]))
        if len(latencies) == T and T <= 20:
            check_phases(arguments, 2, 11, latencies, what)
        # A bound that a phase among these keeps.
        for bound in {min(latencies), rng.choice(latencies), HIGHEST}:
            phase = first_at_most(latencies, bound)
            same(ref.smallest_phase_of(*arguments, 2, 11, bound),
                 ("ok", phase), "%s, bound %d" % (what, bound))
            kind = "later" if phase else "at once"
            met[kind] = met.get(kind, 0) + 1
    for kind in ("later", "at once"):
        same(met.get(kind, 0) > 50, True, "often met: " + kind)


def group_phase_refusals(rng):
    refusal = ("refused", 20, 0)
    # The faults in their order, all of them together or not.  Task 1 is the
    # one that passes.  Tasks 4 and 5 together are 7, 3 and 7 have a period
    # above 10,000, and 8 is unknown.
    tasks = [(1, 10, 1, 0), (2, 10_000, 2, 0), (3, 10_001, 1, 0),
             (4, 999_983, 1, 0), (5, 999_979, 1, 0), (6, 10, 1, 0),
             (7, 10_001, 1, 3)]
    met = {}
    for faults in itertools.product((False, True), repeat=8):
        eight, five, far, six, sixteen, seven, nineteen, twenty = faults
        for _ in range(12):
            chain = [1, 4, 5] if seven else [1, 3]
            if nineteen:
                number = 7 if twenty else \
                    rng.choice([0, 2, 6, 8, 65_535, 65_536, HIGHEST])
            else:
                number = chain[1] if twenty else 1
            rng.shuffle(chain)
            # The other chains are as good as any, and one of them is 7.
            chains = rng.sample([[2], [7, 2, 6], [7], [4, 5], [2, 6]],
                                rng.randint(1, 3))
            at = rng.randint(0, len(chains))
            chains.insert(at, chain)
            n = at + 1
            place = 0
            if sixteen:
                n = rng.choice([0, len(chains) + 1, 5, HIGHEST])
            if six:
                which = rng.randrange(len(chains))
                index = rng.randrange(len(chains[which]))
                chains[which][index] = 8
                if rng.random() < 0.5:
                    chains[-1][-1] = 8
                place = next(position for numbers in chains
                             for position, one in enumerate(numbers, start=1)
                             if one == 8)
            gap = rng.choice([0, 1, 1_000])
            if far:
                gap = rng.choice([1_001, 65_536, HIGHEST])
                place = 0
            given = list(tasks)
            if five:
                # Also the task that is to move, and also its phase.
                index = rng.choice([0, rng.randrange(7)])
                one, T, D, F = given[index]
                given[index] = rng.choice([
                    (one, 0, D, F), (one, 1_000_001, D, F), (one, T, 0, F),
                    (one, T, 4_000_001, F), (one, T, D, 1_000_001),
                    (one, T, D, HIGHEST), (index, T, D, F),
                    (65_536, T, D, F)])
                place = index + 1
            arguments = list(schedule(given, chains, gap))
            if eight:
                kind = rng.randrange(3)
                if kind == 0:
                    arguments[0] = rng.choice([0, 33, HIGHEST])
                elif kind == 1:
                    arguments[2] = rng.choice([0, 5, HIGHEST])
                else:
                    which = rng.randrange(len(chains))
                    arguments[3][which] = (rng.choice([0, 13, HIGHEST]),
                                           arguments[3][which][1])
                place = 0
            expected = next((one for one, holds
                             in zip((8, 5, 5, 6, 16, 7, 19, 20), faults)
                             if holds), None)
            if expected is not None:
                expected = ("refused", expected,
                            place if expected in (5, 6) else 0)
            met[expected and expected[1]] = 1
            what = "%r number %d of chain %d" % (arguments, number, n)
            bound = rng.choice([0, 100_000, HIGHEST])
            for found in (ref.smallest_phase_of(*arguments, n, number, bound),
                          ref.latency_at_phases_of(*arguments, n, number)):
                same(found if found[0] == "refused" else None, expected, what)
    same(set(met), {None, 8, 5, 6, 16, 7, 19, 20}, "every refusal was met")
    # The period of the task, at the limit and above it.  Here it is the only
    # task, the last, or first and last.
    for T in (1, 2, 9_999, 10_000, 10_001, 10_002, 16_384, 20_000, 65_536,
              75_000, 999_999, 1_000_000):
        for gap in (0, 1_000):
            arguments = schedule([(4, 10, 1, 0), (5, T, 1, 1_000_000)],
                                 [[5], [4, 5], [5, 4, 5]], gap)
            for n in (1, 2, 3):
                what = "period %d, chain %d" % (T, n)
                same(ref.smallest_phase_of(*arguments, n, 5, HIGHEST),
                     refusal if T > 10_000 else ("ok", 0), what)
                if T > 10_000:
                    for bound in (0, T, T + 1, 2 ** 32):
                        same(ref.smallest_phase_of(*arguments, n, 5, bound),
                             refusal, what)
                    same(ref.latency_at_phases_of(*arguments, n, 5), refusal,
                         what)
                for number in (0, 1, 3, 6, 65_535, HIGHEST):
                    same(ref.smallest_phase_of(*arguments, n, number, 0),
                         ("refused", 19, 0), what)
            # The other task's period has no part in it, but 19 has.
            same(ref.smallest_phase_of(*arguments, 1, 4, HIGHEST),
                 ("refused", 19, 0), "period %d beside" % T)
            for n in (2, 3):
                same(ref.smallest_phase_of(*arguments, n, 4, HIGHEST),
                     ("ok", 0), "period %d beside, chain %d" % (T, n))
                same(ref.smallest_phase_of(*arguments, n, 4, 0),
                     ("ok", None), "period %d beside, chain %d" % (T, n))
    # Entries past a chain's count do not put a task into it.  They are 7.
    arguments = schedule([(7, 10, 1, 0), (8, 10_001, 1, 0), (9, 5, 1, 0)],
                         [[9], [9, 8]], 0)
    for n in (1, 2):
        same(ref.smallest_phase_of(*arguments, n, 7, HIGHEST),
             ("refused", 19, 0), "7 past the count")
    same(ref.smallest_phase_of(*arguments, 1, 8, HIGHEST),
         ("refused", 19, 0), "19 before 20")
    same(ref.smallest_phase_of(*arguments, 2, 8, HIGHEST), refusal, "20")
    # Today's phase is checked, although it would be replaced.
    for F, expected in ((1_000_000, ("ok", 0)), (1_000_001, ("refused", 5, 2)),
                        (HIGHEST, ("refused", 5, 2))):
        for numbers in ([4, 5], [5, 5]):
            arguments = schedule([(4, 10, 1, 0), (5, 10, 1, F)], [numbers], 0)
            same(ref.smallest_phase_of(*arguments, 1, 5, HIGHEST), expected,
                 "phase %d today" % F)
    # 7 is of the chain that is asked for, and of today's periods.
    tasks = [(1, 151, 1, 0), (2, 397_351, 1, 0), (3, 8, 1, 0)]
    arguments = schedule(tasks, [[1, 3], [1, 2], [3, 2]], 0)
    for number in (0, 1, 2, 3, 4, HIGHEST):
        for bound in (0, HIGHEST):
            same(ref.smallest_phase_of(*arguments, 2, number, bound),
                 ("refused", 7, 0), "7 before 19 and 20")
        same(ref.latency_at_phases_of(*arguments, 2, number),
             ("refused", 7, 0), "7 before 19 and 20")
    # H of chain 3 is 8 times 397,351, and its longest period walks 8.
    same(ref.smallest_phase_of(*arguments, 3, 3, 397_361), ("ok", 0),
         "397,351 + 1 + 1 and up to 8")
    same(ref.smallest_phase_of(*arguments, 3, 2, HIGHEST), refusal, "20")
    same(ref.smallest_phase_of(*arguments, 1, 2, HIGHEST),
         ("refused", 19, 0), "19 before 20")


# ---------------------------------------------------------------------------
# A running schedule and a proposal, order 10
# ---------------------------------------------------------------------------

TASKS_A = [(1, 4, 4, 0), (2, 6, 6, 0)]

# Greatest latencies by hand, of chains of tasks 1 and 2, by gap.  Task 1
# reads and writes on multiples of 4, task 2 on multiples of 6.  After each
# press stand read, write, read, write; a press at a read is the latest.
BY_HAND = {
    0: {(1,): 8, (2,): 12,
        # 0: 4, 8, 12, 18.  4: 8, 12, 12, 18.  8: 12, 16, 18, 24.
        (1, 2): 18,
        # 0: 6, 12, 12, 16.  6: 12, 18, 20, 24.
        (2, 1): 18,
        # 0: 4, 8, 8, 12.
        (1, 1): 12,
        # 0: 4, 8, 12, 18, 20, 24.  4 to the same, 8: 12, 16, 18, 24, 24, 28.
        (1, 2, 1): 24},
    1: {(1,): 8, (2,): 12,
        # 0: 4, 8, 12, 18.  4: 8, 12, 18, 24.  8: 12, 16, 18, 24.
        (1, 2): 20,
        # 0: 6, 12, 16, 20.  6: 12, 18, 20, 24.
        (2, 1): 20,
        # 0: 4, 8, 12, 16.
        (1, 1): 16,
        # 0: 4, 8, 12, 18, 20, 24.  4: 8, 12, 18, 24, 28, 32.  8 to the same.
        (1, 2, 1): 28},
    1_000: {(1,): 8, (2,): 12,
            # 0: 4, 8, 1,008, 1,014.  4: 8, 12, 1,014, 1,020.
            # 8: 12, 16, 1,020, 1,026.
            (1, 2): 1_018,
            # 0: 6, 12, 1,012, 1,016.  6: 12, 18, 1,020, 1,024.
            (2, 1): 1_018,
            # 0: 4, 8, 1,008, 1,012.
            (1, 1): 1_012,
            # 0: 4, 8, 1,008, 1,014, 2,016, 2,020.
            # 4: 8, 12, 1,014, 1,020, 2,020, 2,024.
            # 8: 12, 16, 1,020, 1,026, 2,028, 2,032.
            (1, 2, 1): 2_024},
}


def with_bounds(tasks, chains, gap, bounds):
    """A schedule with bounds; those beyond the chain count are junk."""
    return (*schedule(tasks, chains, gap),
            list(bounds) + [0] * (4 - len(bounds)))


def written_out(held):
    """What counts of a schedule with bounds, entry by entry."""
    task_count, tasks, chain_count, chains, gap, bounds = held
    counted_tasks, counted_chains, counted_bounds = (), (), ()
    for index in range(32):
        if index < task_count:
            number, T, D, F = tasks[index]
            counted_tasks += ((number, T, D, F),)
    for which in range(4):
        if which < chain_count:
            places = chains[which][0]
            numbers = ()
            for index in range(12):
                if index < places:
                    numbers += (chains[which][1][index],)
            counted_chains += ((places, numbers),)
            counted_bounds += (bounds[which],)
    return (task_count, counted_tasks, chain_count, counted_chains, gap,
            counted_bounds)


def alike(one, other):
    """Whether two schedules with bounds are the same, without writing them
    out: a difference is looked for, first in the counts."""
    for part in (0, 2, 4):
        if one[part] != other[part]:
            return False
    for index in range(min(one[0], 32)):
        for value in range(4):
            if one[1][index][value] != other[1][index][value]:
                return False
    for which in range(min(one[2], 4)):
        if one[3][which][0] != other[3][which][0] \
                or one[5][which] != other[5][which]:
            return False
        for index in range(min(one[3][which][0], 12)):
            if one[3][which][1][index] != other[3][which][1][index]:
                return False
    return True


def any_number(rng):
    """A number of any kind."""
    return rng.choice([0, 1, 2, 12, 65_535, 2 ** 32 - 1, HIGHEST,
                       rng.randrange(100), rng.randrange(2 ** 64)])


def with_other_junk(rng, held):
    """The same, with what lies past a count drawn anew."""
    task_count, tasks, chain_count, chains, gap, bounds = held
    tasks = [tasks[index] if index < task_count
             else tuple(any_number(rng) for _ in range(4))
             for index in range(32)]
    chains = [(chains[which][0] if which < chain_count else any_number(rng),
               [chains[which][1][index]
                if which < chain_count and index < chains[which][0]
                else any_number(rng) for index in range(12)])
              for which in range(4)]
    bounds = [bounds[which] if which < chain_count else any_number(rng)
              for which in range(4)]
    if rng.random() < 0.5:
        tasks, bounds = tuple(tasks), tuple(bounds)
        chains = tuple((count, tuple(numbers)) for count, numbers in chains)
    return (task_count, tasks, chain_count, chains, gap, bounds)


def is_7(tasks):
    """Whether no tick up to the limit is a multiple of all periods."""
    longest = max(T for T, _D, _F in tasks)
    return not any(all(tick % T == 0 for T, _D, _F in tasks)
                   for tick in range(longest, 60_000_001, longest))


KNOWN_GREATEST = {}


def known_greatest(tasks, gap):
    """literal_greatest, each chain once."""
    key = (tuple(tasks), gap)
    if key not in KNOWN_GREATEST:
        KNOWN_GREATEST[key] = literal_greatest(tasks, gap)
    return KNOWN_GREATEST[key]


def places_of(held, which):
    """The places of a chain of a good schedule as (T, D, F)."""
    task_count, tasks, _chain_count, chains, _gap, _bounds = held
    places, numbers = chains[which]
    return [tasks[at][1:] for index in range(places)
            for at in range(task_count) if tasks[at][0] == numbers[index]]


def judged(held, greatest=known_greatest):
    """What an ask answers, without the program."""
    fault = listed_fault(*held[:5])
    if fault is not None:
        return fault
    chains = [places_of(held, which) for which in range(held[2])]
    if any(is_7(chain) for chain in chains):
        return ("refused", 7, 0)
    latencies = [greatest(chain, held[4]) for chain in chains]
    if any(held[5][which] < one for which, one in enumerate(latencies)):
        return ("refused", 21, 0)
    return ("ok", latencies)


def check_ask_and_make(held, expected, states, what):
    """Both calls, and a commit that follows: the form is written out."""
    form = written_out(held)
    if expected[0] == "ok":
        same(ref.make_state(held), ("ok", (form, None)), "make, " + what)
        for running, proposal in states:
            found, after = ref.ask((running, proposal), held)
            same((found, after), (expected, (running, form)), "ask, " + what)
            same(ref.commit(after, held), (("ok",), (form, None)),
                 "commit, " + what)
    else:
        same(ref.make_state(held), expected, "make, " + what)
        for state in states:
            same(ref.ask(state, held), (expected, state), "ask, " + what)


def states_by_hand():
    """A state without a proposal and one with, and one made of zeros."""
    one = (2, ((1, 4, 4, 0), (2, 6, 6, 0)), 2, ((2, (1, 2)), (1, (2,))), 0,
           (18, 12))
    two = (1, ((9, 10, 3, 5),), 1, ((1, (9,)),), 1_000, (HIGHEST,))
    zeros = (0, (), 0, (), 0, ())
    return [(one, None), (one, two), (two, one), (zeros, None)]


def group_states_by_hand(_rng):
    # Greatest latencies and bounds at them.
    for gap, latencies in BY_HAND.items():
        for count in (1, 2, 3, 4):
            for chains in itertools.permutations(latencies, count):
                expected = [latencies[chain] for chain in chains]
                check_ask_and_make(
                    with_bounds(TASKS_A, chains, gap, expected),
                    ("ok", expected), states_by_hand()[:2],
                    "%r gap %d" % (chains, gap))
                if count > 2:
                    continue
                for which in range(count):
                    for other, answer in (
                            (expected[which] - 1, ("refused", 21, 0)),
                            (expected[which] + 1, ("ok", expected)),
                            (0, ("refused", 21, 0)),
                            (HIGHEST, ("ok", expected))):
                        at = list(expected)
                        at[which] = other
                        check_ask_and_make(
                            with_bounds(TASKS_A, chains, gap, at), answer,
                            states_by_hand(),
                            "%r gap %d bounds %r" % (chains, gap, at))
    # A way through all of it, with every state written by hand.
    A = [[1, 2], [2]]
    plain = (2, ((1, 4, 4, 0), (2, 6, 6, 0)), 2, ((2, (1, 2)), (1, (2,))), 0,
             (18, 12))
    gapped = (2, ((1, 4, 4, 0), (2, 6, 6, 0)), 2, ((2, (1, 2)), (1, (2,))), 1,
              (20, 13))
    roomy = (2, ((1, 4, 4, 0), (2, 6, 6, 0)), 2, ((2, (1, 2)), (1, (2,))), 1,
             (HIGHEST, 12))
    single = (1, ((2, 6, 6, 0),), 1, ((1, (2,)),), 0, (12,))
    a_plain = with_bounds(TASKS_A, A, 0, [18, 12])
    a_gapped = with_bounds(TASKS_A, A, 1, [20, 13])
    a_roomy = with_bounds(TASKS_A, A, 1, [HIGHEST, 12])
    a_single = with_bounds(TASKS_A[1:], [[2]], 0, [12])
    same([ref.named(held) for held in (a_plain, a_gapped, a_roomy, a_single)],
         [plain, gapped, roomy, single], "what is named")
    tight = with_bounds(TASKS_A, A, 1, [19, 13])
    tight_second = with_bounds(TASKS_A, A, 1, [20, 11])
    same(ref.make_state(a_plain), ("ok", (plain, None)), "made")
    same(ref.make_state(tight), ("refused", 21, 0), "not made")
    same(ref.STATE_OF_ZEROS, ((0, (), 0, (), 0, ()), None), "zeros")
    # 8, 5 of a task, 5 of the gap, 6, 7.
    faulty = [
        (with_bounds(TASKS_A, [], 0, []), ("refused", 8, 0)),
        (with_bounds(TASKS_A, [[1, 2], []], 0, [18, 12]), ("refused", 8, 0)),
        (with_bounds([(1, 4, 4, 0), (1, 6, 6, 0)], [[1]], 0, [18]),
         ("refused", 5, 2)),
        (with_bounds(TASKS_A, A, 1_001, [18, 12]), ("refused", 5, 0)),
        (with_bounds(TASKS_A, [[1, 2], [2, 3]], 0, [18, 12]),
         ("refused", 6, 2)),
        (with_bounds([(1, 151, 1, 0), (2, 397_351, 1, 0)], A, 0,
                     [HIGHEST] * 2), ("refused", 7, 0)),
        (tight, ("refused", 21, 0)), (tight_second, ("refused", 21, 0)),
    ]
    # Call, what it takes, its answer, the state after it.
    way = [
        (ref.commit, a_plain, ("refused", 22, 0), (plain, None)),
        (ref.commit, a_gapped, ("refused", 22, 0), (plain, None)),
        (ref.ask, tight, ("refused", 21, 0), (plain, None)),
        (ref.commit, tight, ("refused", 22, 0), (plain, None)),
        (ref.ask, a_gapped, ("ok", [20, 12]), (plain, gapped)),
        (ref.ask, a_gapped, ("ok", [20, 12]), (plain, gapped)),
        (ref.ask, tight, ("refused", 21, 0), (plain, gapped)),
        (ref.commit, tight, ("refused", 23, 0), (plain, gapped)),
        # The running one is not the proposal, nor is another's bound.
        (ref.commit, a_plain, ("refused", 23, 0), (plain, gapped)),
        (ref.commit, a_roomy, ("refused", 23, 0), (plain, gapped)),
        (ref.ask, a_roomy, ("ok", [20, 12]), (plain, roomy)),
        # The earlier proposal is gone.
        (ref.commit, a_gapped, ("refused", 23, 0), (plain, roomy)),
        (ref.commit, a_roomy, ("ok",), (roomy, None)),
        (ref.commit, a_roomy, ("refused", 22, 0), (roomy, None)),
        (ref.commit, a_gapped, ("refused", 22, 0), (roomy, None)),
        (ref.ask, a_single, ("ok", [12]), (roomy, single)),
        (ref.ask, a_plain, ("ok", [18, 12]), (roomy, plain)),
        (ref.ask, tight_second, ("refused", 21, 0), (roomy, plain)),
        (ref.ask, a_single, ("ok", [12]), (roomy, single)),
        (ref.commit, a_single, ("ok",), (single, None)),
        # What runs may be asked for and made to run once more.
        (ref.ask, a_single, ("ok", [12]), (single, single)),
        (ref.commit, a_single, ("ok",), (single, None)),
        (ref.commit, a_single, ("refused", 22, 0), (single, None)),
    ]
    state = (plain, None)
    for turn, (call, held, answer, after) in enumerate(way):
        what = "call %d" % (turn + 1)
        same(call(state, held), (answer, after), what)
        # A fault in between is answered and changes nothing.
        standing = 22 if after[1] is None else 23
        for bad, refusal in faulty:
            same(ref.make_state(bad), refusal, "make, fault")
            same(ref.ask(after, bad), (refusal, after), "ask, fault")
            same(ref.commit(after, bad), (("refused", standing, 0), after),
                 "commit, fault")
        state = after
    # From a state of zeros the calls go on as from any other.
    same(ref.commit(ref.STATE_OF_ZEROS, a_single),
         (("refused", 22, 0), ref.STATE_OF_ZEROS), "zeros")
    zeros_asked = ((0, (), 0, (), 0, ()), single)
    same(ref.ask(ref.STATE_OF_ZEROS, a_single),
         (("ok", [12]), zeros_asked), "zeros")
    same(ref.commit(zeros_asked, a_single), (("ok",), (single, None)),
         "zeros")
    # What is given stays, and what is kept does not hang on it.
    tasks, chains, bounds = list(TASKS_A), [(1, [2, 1, 1])], [12, 0, 0, 0]
    held = (2, tasks, 1, chains, 0, bounds)
    kept = (2, ((1, 4, 4, 0), (2, 6, 6, 0)), 1, ((1, (2,)),), 0, (12,))
    _ok, made = ref.make_state(held)
    _answer, asked = ref.ask(made, held)
    same(held, (2, [(1, 4, 4, 0), (2, 6, 6, 0)], 1, [(1, [2, 1, 1])], 0,
                [12, 0, 0, 0]), "what is given stays")
    tasks[0], chains[0][1][0], bounds[0] = (1, 5, 5, 0), 1, 99
    same((made, asked), ((kept, None), (kept, kept)), "what is kept stays")
    same(ref.commit(asked, held), (("refused", 23, 0), (kept, kept)),
         "what is given became another")


def group_state_refusals(rng):
    """Every selection of the faults in one call."""
    # Tasks 4 and 5 together are 7, and 3 and 8 are unknown.
    tasks = [(1, 4, 4, 0), (2, 6, 6, 0), (4, 999_983, 1, 0),
             (5, 999_979, 1, 0)]
    states = states_by_hand()
    met = {}
    for faults in itertools.product((False, True), repeat=6):
        eight, five, far, six, seven, over = faults
        for _ in range(25):
            gap = rng.choice(list(BY_HAND))
            chains = [list(rng.choice(list(BY_HAND[gap])))
                      for _ in range(rng.randint(1, 3 if seven else 4))]
            latencies = [BY_HAND[gap][tuple(chain)] for chain in chains]
            bounds = [rng.choice([one, one, one + 1, HIGHEST])
                      for one in latencies]
            if over:
                which = rng.randrange(len(chains))
                bounds[which] = rng.choice([latencies[which] - 1, 0])
            if seven:
                # Before or behind a latency above its bound.
                at = rng.randint(0, len(chains))
                chains.insert(at, rng.choice([[4, 5], [5, 1, 4], [2, 4, 5]]))
                bounds.insert(at, rng.choice([0, HIGHEST]))
            place = 0
            if six:
                which = rng.randrange(len(chains))
                index = rng.randrange(len(chains[which]))
                chains[which][index] = 8
                if rng.random() < 0.5:
                    chains[-1][-1] = 3
                place = next(position for numbers in chains
                             for position, one in enumerate(numbers, start=1)
                             if one in (3, 8))
            if far:
                gap = rng.choice([1_001, 65_536, HIGHEST])
                place = 0
            given = list(tasks)
            if five:
                index = rng.randrange(4)
                one, T, D, F = given[index]
                given[index] = rng.choice([
                    (one, 0, D, F), (one, 1_000_001, D, F), (one, T, 0, F),
                    (one, T, 4_000_001, F), (one, T, D, 1_000_001),
                    (one, T, D, HIGHEST), (index - (index > 2), T, D, F),
                    (65_536, T, D, F)])
                place = index + 1
            held = list(with_bounds(given, chains, gap, bounds))
            if eight:
                kind = rng.randrange(3)
                if kind == 0:
                    held[0] = rng.choice([0, 33, 40, HIGHEST])
                elif kind == 1:
                    held[2] = rng.choice([0, 5, 9, HIGHEST])
                else:
                    which = rng.randrange(len(chains))
                    held[3][which] = (rng.choice([0, 13, HIGHEST]),
                                      held[3][which][1])
                place = 0
            held = tuple(held)
            number = next((one for one, holds
                           in zip((8, 5, 5, 6, 7, 21), faults) if holds),
                          None)
            expected = ("ok", latencies)
            if number is not None:
                expected = ("refused", number,
                            place if number in (5, 6) else 0)
            met[number] = met.get(number, 0) + 1
            what = "%r" % (held,)
            same(judged(held, lambda chain, gap: BY_HAND[gap][tuple(
                1 if task[0] == 4 else 2 for task in chain)]), expected,
                 "judged, " + what)
            check_ask_and_make(held, expected, states, what)
            # A commit looks for no fault.
            for state in states:
                same(ref.commit(state, held),
                     (("refused", 22 if state[1] is None else 23, 0), state),
                     "commit, " + what)
    same(set(met), {None, 8, 5, 6, 7, 21}, "every refusal was met")
    # The faults of a schedule at large, with any numbers for the bounds.
    for _ in range(600):
        arguments = faulty_schedule(rng, any_gap)
        fault = listed_fault(*arguments)
        if fault is None:
            continue
        held = (*arguments, [any_number(rng) for _ in range(4)])
        check_ask_and_make(held, fault, states[:3], "%r" % (held,))
        for state in states:
            same(ref.commit(state, held)[1], state, "commit of a fault")
    # 7 is each chain's own.  H 60,000,000 passes and one more does not.
    primes = [(1, 999_983, 7, 0), (2, 999_979, 5, 3), (3, 151, 1, 0),
              (4, 397_351, 1, 0), (5, 800_000, 2, 0), (6, 937_500, 1, 0),
              (7, 15_625, 1, 0)]
    for chains, expected in (
            ([[1], [2]], ("ok", [999_990, 999_984])),
            ([[1, 2]], ("refused", 7, 0)),
            ([[1], [2, 1], [2]], ("refused", 7, 0)),
            ([[2], [1], [1, 2], [1]], ("refused", 7, 0)),
            ([[1], [1], [1], [2, 1]], ("refused", 7, 0)),
            ([[1], [1], [1], [2, 2]], ("ok", [999_990] * 3 + [
                greatest_of_two(*[primes[1][1:]] * 2, 0)])),
            ([[3], [4]], ("ok", [152, 397_352])),
            ([[3, 4]], ("refused", 7, 0)),
            ([[3], [4, 3]], ("refused", 7, 0)),
            # 256 * 3,125 and 4 * 3 * 78,125: H is 60,000,000.
            ([[5, 6], [6]], ("ok", [
                greatest_of_two(primes[4][1:], primes[5][1:], 0), 937_501])),
            ([[6, 5], [7]], ("ok", [
                greatest_of_two(primes[5][1:], primes[4][1:], 0), 15_626])),
            ([[7], [5, 6], [3]], ("ok", [
                15_626, greatest_of_two(primes[4][1:], primes[5][1:], 0),
                152])),
            ([[6, 5], [3, 6], [2]], ("refused", 7, 0))):
        for bounds in ([HIGHEST] * len(chains),
                       expected[1] if expected[0] == "ok" else [0] * 4):
            check_ask_and_make(
                with_bounds(primes, chains, 0, bounds[:len(chains)]),
                expected, states, "%r" % (chains,))


def single_changes(held):
    """Every counted value of a schedule with bounds changed by itself."""
    task_count, tasks, chain_count, chains, gap, bounds = held
    changed = []
    for count in {0, 1, task_count - 1, task_count + 1, 32, 33, 40,
                  HIGHEST} - {task_count}:
        changed.append((count, tasks, chain_count, chains, gap, bounds))
    for count in {0, 1, chain_count - 1, chain_count + 1, 4, 5, 9,
                  HIGHEST} - {chain_count}:
        changed.append((task_count, tasks, count, chains, gap, bounds))
    for other in {0, 1, gap + 1, 1_000, 1_001, gap ^ 2 ** 63} - {gap}:
        changed.append((task_count, tasks, chain_count, chains, other,
                        bounds))
    for at in range(task_count):
        for value in range(4):
            for step in (1, 65_536, HIGHEST):
                task = list(tasks[at])
                task[value] = (task[value] + step) % 2 ** 64
                others = list(tasks)
                others[at] = tuple(task)
                changed.append((task_count, others, chain_count, chains, gap,
                                bounds))
    for which in range(chain_count):
        places, numbers = chains[which]
        entries = [(count, numbers)
                   for count in {0, 1, places - 1, places + 1, 12, 13,
                                 HIGHEST} - {places}]
        for at in range(places):
            for other in {0, 65_535, numbers[0], numbers[at] + 1,
                          tasks[0][0]} - {numbers[at]}:
                entries.append((places, list(numbers[:at]) + [other]
                                + list(numbers[at + 1:])))
        for entry in entries:
            changed.append((task_count, tasks, chain_count,
                            list(chains[:which]) + [entry]
                            + list(chains[which + 1:]), gap, bounds))
        for other in {0, bounds[which] - 1, bounds[which] + 1,
                      bounds[which] ^ 2 ** 63, HIGHEST} - {bounds[which]}:
            at = list(bounds)
            at[which] = other
            changed.append((task_count, tasks, chain_count, chains, gap, at))
    # Tasks, chains and bounds in another turn, where that is another one.
    turned = written_out(held)[3]
    if task_count > 1:
        changed.append((task_count, [tasks[1], tasks[0]] + list(tasks[2:]),
                        chain_count, chains, gap, bounds))
    if chain_count > 1 and turned[0] != turned[1]:
        changed.append((task_count, tasks, chain_count,
                        [chains[1], chains[0]] + list(chains[2:]), gap,
                        bounds))
    if chain_count > 1 and bounds[0] != bounds[1]:
        changed.append((task_count, tasks, chain_count, chains, gap,
                        [bounds[1], bounds[0]] + list(bounds[2:])))
    return changed


def small_held(rng, chain_count):
    """A good schedule that literal walks can do, with bounds it keeps."""
    if rng.random() < 0.5:
        tasks, chains = phase_schedule(rng, chain_count, 4)
    else:
        tasks, chains = schedule_of_chains(
            rng, [small_chain(rng, 30, 3) for _ in range(chain_count)])
    gap = rng.choice([0, 0, 1, 2, rng.randint(1, 40)])
    held = with_bounds(tasks, chains, gap, [HIGHEST] * chain_count)
    latencies = judged(held)[1]
    bounds = [rng.choice([one, one, one + 1, one + rng.randint(0, 9),
                          2 ** 63, HIGHEST]) for one in latencies]
    return with_other_junk(rng, with_bounds(tasks, chains, gap, bounds)), \
        latencies


def group_what_is_named(rng):
    # Counts at the ends of their arrays: all entries count.
    tasks = [(number, 2, 2, 0) for number in range(1, 33)]
    chains = [list(range(1, 13)), list(range(12, 0, -1)), [32] * 12,
              list(range(21, 33))]
    # Twelve places that never wait: 2 + 24.
    full = with_bounds(tasks, chains, 0, [26, 27, 28, 29])
    helds = [(full, [26] * 4)]
    helds += [(with_bounds(TASKS_A, [[1, 2], [2]], 1, [20, 12]), [20, 12])]
    helds += [small_held(rng, 1 + turn % 4) for turn in range(24)]
    other = with_bounds([(9, 10, 3, 5)], [[9]], 0, [13])
    running = (1, ((9, 10, 3, 5),), 1, ((1, (9,)),), 0, (13,))
    changes = 0
    for held, latencies in helds:
        form = written_out(held)
        same(ref.named(held), form, "named")
        after = (running, form)
        same(ref.ask((running, None), held), (("ok", latencies), after),
             "asked")
        # What lies past a count does not matter, in no call.
        for _ in range(12):
            again = with_other_junk(rng, held)
            same(ref.named(again), form, "past a count")
            same(ref.make_state(again), ("ok", (form, None)), "past a count")
            same(ref.ask((running, None), again), (("ok", latencies), after),
                 "past a count")
            same(ref.commit(after, again), (("ok",), (form, None)),
                 "past a count")
        # All else does.
        for changed in single_changes(held):
            changes += 1
            if rng.random() < 0.5:
                changed = with_other_junk(rng, changed)
            same(alike(changed, held), False, "changed")
            same(ref.named(changed) == form, False, "changed")
            same(ref.commit(after, changed), (("refused", 23, 0), after),
                 "changed")
        same(ref.commit(after, other), (("refused", 23, 0), after), "other")
    same(changes > 3_000, True, "many changes")
    # The same numbers one after the other, counted in another way.
    three = [(1, 2, 2, 0), (2, 2, 2, 0), (3, 2, 2, 0)]
    ways = [[[1, 2, 3]], [[1, 2], [3]], [[1], [2, 3]], [[1], [2], [3]],
            [[3], [1, 2]], [[1, 2], [3], [3]], [[1], [2], [3], [3]]]
    ways = [with_bounds(three, chains, 0, [8] * len(chains))
            for chains in ways]
    # With the same in every entry, those past the count too.
    ways += [(count, [(1, 2, 2, 0)] * 32, which, [(places, [1] * 12)] * 4, 0,
              [26] * 4)
             for count in (1, 2, 32, 33, 40, HIGHEST)
             for which in (1, 3, 4, 5, 9, HIGHEST)
             for places in (1, 11, 12, 13, HIGHEST)]
    for first, second in itertools.product(ways, repeat=2):
        same(ref.named(first) == ref.named(second), first is second,
             "counted in another way")
    for first, second in itertools.product(ways[:7], repeat=2):
        _answer, asked = ref.ask((running, None), first)
        same(ref.commit(asked, second)[0],
             ("ok",) if first is second else ("refused", 23, 0),
             "counted in another way")
    for count, which, places in itertools.product(
            (1, 32, 33, 40, HIGHEST), (1, 4, 5, 9, HIGHEST),
            (1, 12, 13, HIGHEST)):
        # Tasks in the rising numbers of a good schedule, all 32 of them.
        held = (count, tasks, which, [(places, [1] * 12)] * 4, 0, [26] * 4)
        good = count <= 32 and which <= 4 and places <= 12
        expected = ("ok", [2 + 2 * places] * which) if good \
            else ("refused", 8, 0)
        check_ask_and_make(held, expected, [(running, None)],
                           "counts %d, %d, %d" % (count, which, places))
        asked = ref.ask((running, None),
                        (32, tasks, 4, [(12, [1] * 12)] * 4, 0, [26] * 4))[1]
        same(ref.commit(asked, held)[0],
             ("ok",) if (count, which, places) == (32, 4, 12)
             else ("refused", 23, 0),
             "counts %d, %d, %d" % (count, which, places))
    # Good ones are the same where their files and bounds are.
    pool = []
    for _ in range(40):
        tasks, chains = random_schedule(rng)
        gap = rng.choice([0, 1, 1_000])
        bounds = [rng.choice([0, 1, HIGHEST]) for _ in chains]
        pool.append((tasks, chains, gap, bounds))
        pool.append((tasks, chains, rng.choice([0, 1, 1_000]), bounds))
        pool.append((tasks, chains, gap,
                     [rng.choice([0, 1, HIGHEST]) for _ in chains]))
        pool.append((tasks, rng.sample(chains, len(chains)), gap, bounds))
    keys = [(file_of(*one[:3]), one[3]) for one in pool]
    helds = [with_other_junk(rng, with_bounds(*one)) for one in pool]
    forms = [ref.named(held) for held in helds]
    equal = 0
    for first, second in itertools.combinations(range(len(pool)), 2):
        expected = keys[first] == keys[second]
        equal += expected
        same(forms[first] == forms[second], expected, "files")
        same(alike(helds[first], helds[second]), expected, "files, alike")
    same(equal > 20, True, "some are the same")


def group_asks(rng):
    """Latencies by literal walks, and bounds at, below and above them."""
    met = {}
    running = states_by_hand()[0][0]
    for turn in range(60):
        count = 1 + turn % 4
        held, latencies = small_held(rng, count)
        for way in itertools.product((-1, 0, 1), repeat=count):
            bounds = [one + step for one, step in zip(latencies, way)]
            bounds += [any_number(rng) for _ in range(4 - count)]
            expected = ("refused", 21, 0) if -1 in way else ("ok", latencies)
            check_ask_and_make((*held[:5], bounds), expected,
                               [(running, None)], "bounds %r" % bounds)
        # A single bound too low, in each chain by itself, and all of it.
        for which in range(count):
            for low in (0, rng.randrange(latencies[which]),
                        latencies[which] - 1):
                bounds = [HIGHEST] * 4
                bounds[which] = low
                check_ask_and_make((*held[:5], bounds), ("refused", 21, 0),
                                   [(running, None)], "bounds %r" % bounds)
        for bound in WIDE:
            check_ask_and_make((*held[:5], [bound] * 4), ("ok", latencies),
                               [(running, None)], "bound %d" % bound)
        # Each chain by itself, and values that travel.
        for which, latency in enumerate(latencies):
            chain = places_of(held, which)
            same(travelled_greatest(chain, held[4]), latency, "travelled")
        for kind, holds in (
                ("the first is the largest", latencies[0] == max(latencies)),
                ("the last is the largest", count > 1
                 and latencies[-1] == max(latencies)),
                ("all are others", len(set(latencies)) == count > 2)):
            met[kind] = met.get(kind, 0) + holds
    for kind, number in met.items():
        same(number > 5, True, "met: %s, %d" % (kind, number))


def group_asks_large(rng):
    """Two places and any number of equal periods, without a walk."""
    running = states_by_hand()[0][0]
    # The longest latency: 12 places that read a tick too early.
    million = 1_000_000
    far = [(1 + i, million, 4 * million, 999 * i) for i in range(12)]
    held = with_bounds(far, [list(range(1, 13)), [1] * 12], 1_000,
                       [60_010_989, 60_000_000])
    # Each link has the gap and waits a period less a tick: 1 + 48 million
    # and 11 times 1,000 + 999,999.  With one task it is 11 whole periods.
    check_ask_and_make(held, ("ok", [60_010_989, 60_000_000]),
                       [(running, None)], "longest")
    for bounds in ([60_010_988, HIGHEST], [HIGHEST, 59_999_999],
                   [2 ** 32, 0]):
        check_ask_and_make((*held[:5], bounds + [0, 0]),
                           ("refused", 21, 0), [(running, None)], "longest")

    def greatest(chain, gap):
        if len({T for T, _D, _F in chain}) == 1:
            return greatest_of_equals(chain, gap)
        return greatest_of_pair(chain, gap)

    met = {}
    for _turn in range(250):
        gap = wide_gap(rng)
        times = [rng.randint(1, 12), rng.randint(1, 12)]
        base = rng.choice([1, 1_000_000 // max(times),
                           rng.randint(1, 1_000_000 // max(times))])
        T, next_T = [base * one for one in times]
        tasks = [(number, T if number < 13 else next_T,
                  rng.choice([1, 4_000_000, rng.randint(1, 4_000_000)]),
                  rng.choice([0, 1_000_000, rng.randint(0, 1_000_000)]))
                 for number in (11, 12, 13, 65_535)]
        chains = []
        for _ in range(rng.randint(1, 4)):
            fill = rng.choice([[11, 12], [13, 65_535]])
            if rng.random() < 0.5:
                chains.append([rng.choice(fill)
                               for _ in range(rng.randint(1, 12))])
            else:
                chains.append(rng.sample([11, 12, 13, 65_535], 2))
        held = with_bounds(tasks, chains, gap, [HIGHEST] * len(chains))
        expected = judged(held, greatest)
        check_ask_and_make(held, expected, [(running, None)], "%r" % (held,))
        latencies = expected[1]
        bounds = [one - rng.choice([0, 0, 0, 1]) for one in latencies]
        held = with_other_junk(rng, with_bounds(tasks, chains, gap, bounds))
        expected = judged(held, greatest)
        check_ask_and_make(held, expected, [(running, None)], "%r" % (held,))
        met[expected[0]] = met.get(expected[0], 0) + 1
    for kind in ("ok", "refused"):
        same(met.get(kind, 0) > 50, True, "often met: " + kind)


def group_all_short_lists(_rng):
    """Every list of up to 4 calls, and what runs from its letters alone.

    A small letter asks, the large one commits.  Of p, q and r each is
    accepted; x is above its bound and y is faulty.  A commit P is refused
    unless p was asked for, and since then no other and no P: any other
    commit in between is refused.
    """
    helds = {
        "p": with_bounds(TASKS_A, [[1, 2], [2]], 0, [18, 12]),
        "q": with_bounds(TASKS_A, [[1, 2], [2]], 0, [18, 13]),
        "r": with_bounds(TASKS_A, [[1, 2], [2]], 1, [20, 12]),
        "x": with_bounds(TASKS_A, [[1, 2], [2]], 1, [20, 11]),
        "y": with_bounds(TASKS_A, [[1, 2], [2, 3]], 0, [18, 12]),
    }
    forms = {letter: written_out(held) for letter, held in helds.items()}
    answers = {"p": ("ok", [18, 12]), "q": ("ok", [18, 12]),
               "r": ("ok", [20, 12]), "x": ("refused", 21, 0),
               "y": ("refused", 6, 2)}
    first = "q"

    def run_and_proposal(text):
        ends, stands = [(0, first)], [None]
        for letter in "pqr":
            since = "%s[^pqr%s]*" % (letter, letter.upper())
            ends += [(found.end(), letter)
                     for found in re.finditer(since + letter.upper(), text)]
            if re.search(since + "$", text):
                stands.append(letter)
        return max(ends)[1], stands[-1]

    made = ref.make_state(helds[first])
    same(made, ("ok", (forms[first], None)), "made")
    before = {"": made[1]}
    for length in range(1, 5):
        after = {}
        for text, state in before.items():
            for letter in "pqrxyPQRXY":
                held = helds[letter.lower()]
                longer = text + letter
                _runs, stood = run_and_proposal(text)
                if letter.islower():
                    expected = answers[letter]
                    found = ref.ask(state, held)
                else:
                    expected = ("refused", 22, 0) if stood is None \
                        else ("ok",) if stood == letter.lower() \
                        else ("refused", 23, 0)
                    found = ref.commit(state, held)
                runs, stands = run_and_proposal(longer)
                same(found, (expected, (forms[runs],
                                        forms[stands] if stands else None)),
                     longer)
                after[longer] = found[1]
        before = after
    same(len(before), 10 ** 4, "lists of 4 calls")


def state_of_log(first, log):
    """What runs and what is proposed, from the calls so far alone.

    The running one is that of the last commit not refused, or the first.
    The proposal is that of the last ask not refused since then.
    """
    commits = [at for at, (call, _held, was_refused) in enumerate(log)
               if call == "commit" and not was_refused]
    since = commits[-1] + 1 if commits else 0
    asks = [held for call, held, was_refused in log[since:]
            if call == "ask" and not was_refused]
    return log[commits[-1]][1] if commits else first, \
        asks[-1] if asks else None


def pool_of_helds(rng):
    """Schedules with bounds that are often near to each other."""
    pool = []
    for _ in range(rng.randint(1, 3)):
        held, latencies = small_held(rng, rng.randint(1, 4))
        pool += [held] * 2
        task_count, tasks, chain_count, chains, gap, bounds = held
        # Other bounds, some of them too low.
        other = list(bounds)
        which = rng.randrange(chain_count)
        other[which] = rng.choice([latencies[which], latencies[which] + 1,
                                   latencies[which] - 1, HIGHEST])
        pool.append((*held[:5], other))
        # Another gap, which often makes a latency longer than its bound.
        pool.append((task_count, tasks, chain_count, chains,
                     rng.choice([0, 1, gap + 1, 1_001]), bounds))
        # Fewer or more chains.
        pool.append((task_count, tasks, rng.randint(0, 5), chains, gap,
                     bounds))
        # A fault, or another value.
        pool.append(rng.choice(single_changes(held)))
    # No literal walk is to take long.
    pool = [held for held in pool
            if listed_fault(*held[:5]) is not None
            or (held[4] <= 60 and all(
                literal_hyperperiod(places_of(held, which)) <= 60
                and all(D <= 60 and F <= 120 for _T, D, F
                        in places_of(held, which))
                for which in range(held[2])))]
    pool.append(with_bounds([(1, 999_983, 1, 0), (2, 999_979, 1, 0)],
                            [[1], [2, 1]], 0, [HIGHEST, HIGHEST]))
    return pool


def group_lists_of_calls(rng):
    """Random lists of calls, and the state from a log of them alone."""
    met = {}
    for turn in range(150):
        pool = pool_of_helds(rng)
        first = rng.choice([held for held in pool
                            if judged(held)[0] == "ok"])
        made = ref.make_state(first)
        same(made, ("ok", (written_out(first), None)), "made")
        state = made[1]
        log = []
        for _ in range(rng.choice([5, 20, 40])):
            running, proposal = state_of_log(first, log)
            if proposal is not None and rng.random() < 0.25:
                held = proposal
            else:
                held = rng.choice(pool)
            if rng.random() < 0.5:
                held = with_other_junk(rng, held)
            if rng.random() < 0.5:
                call = "ask"
                expected = judged(held)
                found, after = ref.ask(state, held)
            else:
                call = "commit"
                expected = ("refused", 22, 0) if proposal is None \
                    else ("ok",) if alike(proposal, held) \
                    else ("refused", 23, 0)
                found, after = ref.commit(state, held)
            what = "list %d, call %d, %s" % (turn, len(log) + 1, call)
            same(found, expected, what)
            was_refused = expected[0] == "refused"
            if was_refused:
                same(after, state, what + ", refused")
            log.append((call, held, was_refused))
            kind = (call, expected[1] if was_refused else "ok")
            met[kind] = met.get(kind, 0) + 1
            running, proposal = state_of_log(first, log)
            same(after, (written_out(running),
                         None if proposal is None else written_out(proposal)),
                 what)
            # What runs meets its own bounds, and so would the proposal.
            for one in after:
                if one is not None:
                    same(judged(one)[0], "ok", what + ", bounds")
            state = after
    for kind in [("ask", "ok"), ("ask", 8), ("ask", 5), ("ask", 6),
                 ("ask", 7), ("ask", 21), ("commit", "ok"), ("commit", 22),
                 ("commit", 23)]:
        same(met.get(kind, 0) > 20, True, "often met: %s %s" % kind)


GROUPS = [
    ("survey example A", group_survey_a),
    ("survey examples B to E", group_survey_b_to_e),
    ("file and report of chain A", group_file_of_chain_a),
    ("earliest and latest job", group_steps),
    ("warm-up", group_warm_up),
    ("demand 3 at every tick", group_demand_3),
    ("figures of a table", group_figures),
    ("well-formed and reading a table", group_well_formed),
    ("making with lent lists", group_making),
    ("refusals of the calls on a chain", group_call_refusals),
    ("windows of jobs", group_windows),
    ("file round trips", group_file_round_trips),
    ("file faults", group_file_faults),
    ("writing a file", group_file_writing),
    ("report", group_report),
    ("full-range values", group_full_range),
    ("bounds", group_bounds),
    ("corners of anchors", group_anchor_corners),
    ("turns of records in a file", group_file_turns),
    ("faults of a schedule", group_schedule_faults),
    ("analyses by chain number", group_schedule_analyses),
    ("two chains by hand", group_pairs_by_hand),
    ("two chains at every tick", group_pairs_every_tick),
    ("two chains, large values", group_pairs_large),
    ("refusals of two chains", group_pair_refusals),
    ("windows by hand", group_windows_by_hand),
    ("windows by chain number", group_windows_of_schedules),
    ("mean by hand", group_mean_by_hand),
    ("mean by area", group_mean_by_area),
    ("mean on finer clocks", group_mean_on_finer_clocks),
    ("gap by hand", group_gap_by_hand),
    ("files with a gap by hand", group_gap_files_by_hand),
    ("gap records in a file", group_gap_records),
    ("one link with gaps", group_links),
    ("values that travel with gaps", group_flow),
    ("gap 0 is no gap", group_gap_of_none),
    ("a longer gap and later phases", group_gap_and_phases),
    ("warm-up with gaps", group_warm_up_with_gaps),
    ("demand 3 at every tick with gaps", group_demand_3_with_gaps),
    ("making with gaps", group_making_with_gaps),
    ("windows of jobs with gaps", group_windows_with_gaps),
    ("windows by chain number with gaps",
     group_windows_of_schedules_with_gaps),
    ("file round trips with gaps", group_file_round_trips_with_gaps),
    ("faults of a schedule with gaps", group_schedule_faults_with_gaps),
    ("analyses by chain number with gaps",
     group_schedule_analyses_with_gaps),
    ("two chains at every tick with gaps", group_pairs_every_tick_with_gaps),
    ("two chains, large values with gaps", group_pairs_large_with_gaps),
    ("report with gaps", group_report_with_gaps),
    ("full-range values with gaps", group_full_range_with_gaps),
    ("bounds with gaps", group_bounds_with_gaps),
    ("mean on finer clocks with gaps", group_mean_on_finer_clocks_with_gaps),
    ("sections by hand", group_sections_by_hand),
    ("greatest latency of a chain", group_greatest_latency),
    ("sections by literal walks", group_sections),
    ("whole and sums for all lists of cuts", group_cut_lists),
    ("one press through the sections", group_sections_in_turn),
    ("sections, large values", group_sections_large),
    ("refusals of sections", group_section_refusals),
    ("sections by chain number", group_sections_of_schedules),
    ("how often each delay occurs by hand", group_histogram_by_hand),
    ("how often each delay occurs", group_histogram),
    ("how often, all small tables", group_histogram_small_tables),
    ("how often, large values", group_histogram_large),
    ("how often along the walk", group_histogram_of_walks),
    ("refusals of how often", group_histogram_refusals),
    ("draws of a test load by hand", group_draws_by_hand),
    ("draws of a test load", group_draws),
    ("periods of a test load", group_load_periods),
    ("phases of a test load", group_load_phases),
    ("test loads by hand", group_loads_by_hand),
    ("test loads", group_loads),
    ("refusals of test loads", group_load_refusals),
    ("files of test loads", group_load_files),
    ("words of chainload by hand", group_words_by_hand),
    ("words of chainload", group_words),
    ("a phase for a bound by hand", group_phases_by_hand),
    ("a phase for a bound by literal walks", group_phases),
    ("a phase for a bound by chain number", group_phases_of_schedules),
    ("partitions up to the first late one", group_late_partitions),
    ("a phase for a bound, large values", group_phases_large),
    ("refusals of a phase for a bound", group_phase_refusals),
    ("running and proposed schedules by hand", group_states_by_hand),
    ("what is named of a schedule", group_what_is_named),
    ("asks by literal walks", group_asks),
    ("asks, large values", group_asks_large),
    ("refusals of ask, make and commit", group_state_refusals),
    ("all short lists of asks and commits", group_all_short_lists),
    ("lists of asks and commits by a log", group_lists_of_calls),
]


def main():
    print("seed %d" % SEED)
    for index, (name, group) in enumerate(GROUPS):
        COUNT.begin()
        try:
            group(random.Random(SEED + index))
        except Exception as error:
            # A group that breaks off is a failure of that group.
            same(repr(error), "", "group broke off")
        COUNT.finish(name)
    print("%d passed, %d failed" % (COUNT.passed, COUNT.failed))
    return 1 if COUNT.failed else 0


if __name__ == "__main__":
    sys.exit(main())
