"""Reference program of Meshorchard: delay tables for chains of
fixed-duration tasks of cave-survey laser instruments.

It is written from document 01 and orders 1 to 3 and 5 to 10 of document 02
alone and follows their definitions as literally as running time allows.  It
uses the standard library only.  Order 4 changes no answer.  Only the words
and lines of chainload, and the task numbers in its file, are not in these
documents; they are a decision of the project.

Conventions
  A task is (T, D, F): period, duration, phase.
  A chain is a list of tasks, one for each place, and its gap.  The gap
  follows the tasks wherever a chain is given.
  A schedule is given as task_count, tasks, chain_count, chains, gap.  A task
  there is (number, T, D, F), a chain is (place_count, task numbers).  Entries
  past a count are no part of it.  Its gap is that of each of its chains.
  A schedule with bounds, called held, is one tuple of these five and the
  bounds, one for each chain.  A state is (running, proposal), each as named()
  gives it; the proposal is None where none stands.
  Places and chains count from 1, job numbers count from 0.
  A success is ("ok", ...), a refusal is ("refused", number, place).
"""

import functools
import math
import struct

# ---------------------------------------------------------------------------
# Limits of document 01 and of orders 1 and 5
# ---------------------------------------------------------------------------

LONGEST_PERIOD = 1_000_000
LONGEST_DURATION = 4_000_000
LARGEST_PHASE = 1_000_000
MOST_TASKS = 32
MOST_CHAINS = 4
MOST_PLACES = 12
LARGEST_GAP = 1_000
LARGEST_HYPERPERIOD = 60_000_000
LARGEST_LATENCY = 60_011_000
LARGEST_FIRST_START = 1_000_000_000
UPPER_TICK = 1_000_000_000_000
LARGEST_TASK_NUMBER = 65_535
LARGEST_WINDOW = 100
REPORT_BYTES = 4_096
REPORT_SLOTS = 1_024

# Figures of a table are had tick by tick up to this hyperperiod.
# Beyond it they are had segment by segment.  The same limit holds for the
# greatest difference of two chains and their common hyperperiod.
ENUMERATION_LIMIT = 20_000

# The warm-up job is searched upward, job by job, up to this number.
# Beyond it an estimate is used and verified.
LITERAL_WARM_UP_LIMIT = 16


def refused(number, place=0):
    """A refusal: its number and its place."""
    return ("refused", number, place)


# ---------------------------------------------------------------------------
# Tasks and jobs
# ---------------------------------------------------------------------------

def read_of(task, job):
    """The tick at which the job reads: F + j * T."""
    period, _duration, phase = task
    return phase + job * period


def write_of(task, job):
    """The tick at which the job writes: F + j * T + D."""
    period, duration, phase = task
    return phase + job * period + duration


def task_within_rule(task):
    """Whether T, D and F lie within their limits."""
    period, duration, phase = task
    return (1 <= period <= LONGEST_PERIOD
            and 1 <= duration <= LONGEST_DURATION
            and 0 <= phase <= LARGEST_PHASE)


def earliest_reading_at_or_after(task, tick):
    """The task's earliest job that reads at or after the tick.

    The search begins near an estimate.  It is correct for every estimate:
    reads rise with the job number, so a job that passes while the job
    before it fails (or does not exist) is the earliest.
    """
    period, _duration, phase = task
    job = max(0, (tick - phase) // period)
    while read_of(task, job) < tick:
        job += 1
    while job > 0 and read_of(task, job - 1) >= tick:
        job -= 1
    return job


def latest_writing_at_or_before(task, tick):
    """The task's latest job that writes at or before the tick, or None.

    Again a search near an estimate.  The job found passes and the job
    after it fails.  There is none when job 0 writes after the tick.
    """
    if write_of(task, 0) > tick:
        return None
    period, duration, phase = task
    job = max(0, (tick - phase - duration) // period)
    while job > 0 and write_of(task, job) > tick:
        job -= 1
    while write_of(task, job + 1) <= tick:
        job += 1
    return job


# ---------------------------------------------------------------------------
# Chains
# ---------------------------------------------------------------------------

def hyperperiod(tasks):
    """The hyperperiod H: least common multiple of the places' periods.

    The gap has no part in it.
    """
    return math.lcm(*[period for period, _duration, _phase in tasks])


def gap_within_rule(gap):
    """Whether the gap lies within its limits."""
    return 0 <= gap <= LARGEST_GAP


def check_chain(tasks, gap):
    """Refusals 8, 5 and 7 of an analysed chain, else ("ok", H).

    Order 5: "A call given a gap above 1,000 refuses it as 5 at place 0,
    after the tasks."  A chain of one place has no link, but it is a call
    given a gap all the same.
    """
    if not 1 <= len(tasks) <= MOST_PLACES:
        return refused(8)
    for place, task in enumerate(tasks, start=1):
        if not task_within_rule(task):
            return refused(5, place)
    if not gap_within_rule(gap):
        return refused(5, 0)
    H = hyperperiod(tasks)
    if H > LARGEST_HYPERPERIOD:
        return refused(7)
    return ("ok", H)


def forward(tasks, gap, place, job):
    """The last place's job reached by forward steps from a job at a place.

    Order 5: "A job then connects to reads at or after write + gap".  So a
    forward step takes the next place's earliest job that reads at or after
    this job's write + gap.  Equal ticks connect.
    """
    for here in range(place, len(tasks)):
        readable = write_of(tasks[here - 1], job) + gap
        job = earliest_reading_at_or_after(tasks[here], readable)
    return job


def backward_way(tasks, gap, place, job):
    """The jobs at places 1 to `place` on the backward way, or None.

    A backward step takes the previous place's latest job that connects to
    this job's read: its write + gap is at or before the read, so its write
    is at or before the read less the gap.  There may be none.
    """
    way = [job]
    for here in range(place, 1, -1):
        read = read_of(tasks[here - 1], job)
        job = latest_writing_at_or_before(tasks[here - 2], read - gap)
        if job is None:
            return None
        way.append(job)
    way.reverse()
    return way


def backward(tasks, gap, place, job):
    """The first place's job reached by backward steps, or None."""
    way = backward_way(tasks, gap, place, job)
    return None if way is None else way[0]


# ---------------------------------------------------------------------------
# Warm-up
# ---------------------------------------------------------------------------

def warm_up_job_by_literal_search(tasks, gap, limit=None):
    """Wn by trying job after job upward.  None when the limit is passed."""
    last = len(tasks)
    job = 0
    while backward(tasks, gap, last, job) is None:
        job += 1
        if limit is not None and job > limit:
            return None
    return job


def warm_up_job_by_bisection(tasks, gap):
    """Wn by bisection over the job numbers of the last place.

    A later job never reaches less than an earlier one, so "reaches the
    first place" changes once, from no to yes.  The bisection keeps one
    job that does not reach and one that does until they are neighbours.
    """
    last = len(tasks)
    if backward(tasks, gap, last, 0) is not None:
        return 0
    reaches_not = 0
    reaches = 1
    while backward(tasks, gap, last, reaches) is None:
        reaches_not = reaches
        reaches *= 2
    while reaches - reaches_not > 1:
        middle = (reaches_not + reaches) // 2
        if backward(tasks, gap, last, middle) is None:
            reaches_not = middle
        else:
            reaches = middle
    return reaches


def is_warm_up_job(tasks, gap, job):
    """Whether the job is Wn: it reaches, the one before does not."""
    last = len(tasks)
    if backward(tasks, gap, last, job) is None:
        return False
    return job == 0 or backward(tasks, gap, last, job - 1) is None


def warm_up_job(tasks, gap):
    """Wn: the least job at the last place that reaches the first place."""
    job = warm_up_job_by_literal_search(tasks, gap, LITERAL_WARM_UP_LIMIT)
    if job is None:
        # Estimate: where the first place's job 0 leads forward.
        job = forward(tasks, gap, 1, 0)
        if not is_warm_up_job(tasks, gap, job):
            job = warm_up_job_by_bisection(tasks, gap)
    if not is_warm_up_job(tasks, gap, job):
        raise AssertionError("this is not the warm-up job")
    return job


def warm_up_way(tasks, gap):
    """The jobs W1 to Wn of an accepted chain."""
    return backward_way(tasks, gap, len(tasks), warm_up_job(tasks, gap))


def warm_up(tasks, gap):
    """Warm-up: ("ok", [W1 to Wn], x0, H), or refusal 8, 5, 7."""
    answer = check_chain(tasks, gap)
    if answer[0] != "ok":
        return answer
    H = answer[1]
    way = warm_up_way(tasks, gap)
    x0 = read_of(tasks[0], way[0])
    return ("ok", way, x0, H)


# ---------------------------------------------------------------------------
# Delay and age
# ---------------------------------------------------------------------------

def booking(tasks, gap, t):
    """The last write of the forward walk of a press at tick t.

    The first place's earliest job that reads strictly after t reads at or
    after t + 1, ticks being whole.  The last write has no gap.
    """
    job = earliest_reading_at_or_after(tasks[0], t + 1)
    end_job = forward(tasks, gap, 1, job)
    return write_of(tasks[-1], end_job)


def walked_delay(tasks, gap, t):
    """The delay at tick t, without the refusals."""
    return booking(tasks, gap, t) - t


def walked_age(tasks, gap, z):
    """The age at tick z, without the refusals.

    It is of the last place's latest job that writes at or before z: the
    last write has no gap.
    """
    job = latest_writing_at_or_before(tasks[-1], z)
    first_job = backward(tasks, gap, len(tasks), job)
    return z - read_of(tasks[0], first_job)


def delay(tasks, gap, t):
    """Walking: ("ok", delay at t), or refusal 8, 5, 7, 12, 13."""
    answer = warm_up(tasks, gap)
    if answer[0] != "ok":
        return answer
    x0 = answer[2]
    if t < x0:
        return refused(12)
    if t > UPPER_TICK:
        return refused(13)
    return ("ok", walked_delay(tasks, gap, t))


def age(tasks, gap, z):
    """Ageing: ("ok", age at z), or refusal 8, 5, 7, 12, 13."""
    answer = warm_up(tasks, gap)
    if answer[0] != "ok":
        return answer
    way = answer[1]
    if z < write_of(tasks[-1], way[-1]):
        return refused(12)
    if z > UPPER_TICK:
        return refused(13)
    return ("ok", walked_age(tasks, gap, z))


# ---------------------------------------------------------------------------
# Partitions and anchors
# ---------------------------------------------------------------------------

def partition(tasks, gap, p, m):
    """The partition of job m at place p: its start and its end."""
    first_job = backward(tasks, gap, p, m)
    last_job = forward(tasks, gap, p, m + 1)
    return (read_of(tasks[0], first_job), write_of(tasks[-1], last_job))


def range_of_m(tasks, gap, p):
    """The definition's range of m: Wp to Wp + H/Tp - 1."""
    answer = warm_up(tasks, gap)
    if answer[0] != "ok":
        raise ValueError("the chain is not accepted")
    if not 1 <= p <= len(tasks):
        raise ValueError("p is outside the places")
    way, H = answer[1], answer[3]
    Tp = tasks[p - 1][0]
    Wp = way[p - 1]
    return range(Wp, Wp + H // Tp)


def partitions(tasks, gap, p):
    """The partitions (start, end) of every m in the range."""
    return [partition(tasks, gap, p, m) for m in range_of_m(tasks, gap, p)]


def anchors_of_walk(walk, next_start):
    """The anchors of walked partitions.

    `next_start` is the start of the m just after the range.
    """
    # Keep a partition when the next m has another start.
    kept = []
    for index, (start, end) in enumerate(walk):
        if index + 1 < len(walk):
            start_of_next = walk[index + 1][0]
        else:
            start_of_next = next_start
        if start != start_of_next:
            kept.append((start, end))
    # Drop each kept one whose end equals that of the kept one before.
    remaining = []
    for index, (start, end) in enumerate(kept):
        if index > 0 and kept[index - 1][1] == end:
            continue
        remaining.append((start, end))
    # An anchor is the start and the latency.
    return [(start, end - start) for start, end in remaining]


def anchors(tasks, gap, p):
    """The anchors (start, latency) of an accepted chain cut at place p."""
    numbers = range_of_m(tasks, gap, p)
    walk = [partition(tasks, gap, p, m) for m in numbers]
    after = backward(tasks, gap, p, numbers.stop)
    return anchors_of_walk(walk, read_of(tasks[0], after))


# ---------------------------------------------------------------------------
# Making a table
# ---------------------------------------------------------------------------

def make(tasks, gap, p, starts, latencies):
    """Making: (answer, starts after, latencies after).

    The answer is ("ok", g, x0, H, walked), or
    ("refused", 11, 0, g, x0, H, walked), or refusal 8, 5, 7, 9, 10.
    """
    starts_after = list(starts)
    latencies_after = list(latencies)
    answer = warm_up(tasks, gap)
    if answer[0] != "ok":
        return (answer, starts_after, latencies_after)
    if not 1 <= p <= len(tasks):
        return (refused(9), starts_after, latencies_after)
    if len(starts) != len(latencies):
        return (refused(10), starts_after, latencies_after)
    x0, H = answer[2], answer[3]
    found = anchors(tasks, gap, p)
    walked = len(range_of_m(tasks, gap, p))
    g = len(found)
    # The first anchors that fit are written, the rest keeps its content.
    for index in range(min(g, len(starts))):
        start, latency = found[index]
        starts_after[index] = start
        latencies_after[index] = latency
    if len(starts) < g:
        made = ("refused", 11, 0, g, x0, H, walked)
    else:
        made = ("ok", g, x0, H, walked)
    return (made, starts_after, latencies_after)


# ---------------------------------------------------------------------------
# Reading a table
# ---------------------------------------------------------------------------

def distance_to_next(starts, g, H, index):
    """Distance to the next start; for the last, to first start + H."""
    if index + 1 < g:
        return starts[index + 1] - starts[index]
    return starts[0] + H - starts[index]


def well_formed(starts, latencies, g, H):
    """Whether the table is well-formed.  Entries from g on do not count."""
    if len(starts) != len(latencies):
        return False
    if not 1 <= g <= len(starts):
        return False
    if not 1 <= H <= LARGEST_HYPERPERIOD:
        return False
    if starts[0] > LARGEST_FIRST_START:
        return False
    for index in range(g - 1):
        if not starts[index] < starts[index + 1]:
            return False
    for index in range(g):
        if not starts[index] < starts[0] + H:
            return False
    for index in range(g):
        if latencies[index] > LARGEST_LATENCY:
            return False
        if not latencies[index] > distance_to_next(starts, g, H, index):
            return False
    return True


def table_delay(starts, latencies, g, H, t):
    """The delay that a well-formed table gives at tick t."""
    r = (t - starts[0]) % H
    tick = starts[0] + r
    # The last anchor whose start is at most the tick.
    last = max(index for index in range(g) if starts[index] <= tick)
    return latencies[last] - (tick - starts[last])


def read_table(starts, latencies, g, H, t):
    """Reading a table: ("ok", delay at t), or refusal 14, 12, 13."""
    if not well_formed(starts, latencies, g, H):
        return refused(14)
    if t < starts[0]:
        return refused(12)
    if t > UPPER_TICK:
        return refused(13)
    return ("ok", table_delay(starts, latencies, g, H, t))


# ---------------------------------------------------------------------------
# Figures of a table
# ---------------------------------------------------------------------------

def delays_of_hyperperiod(starts, latencies, g, H):
    """The delays at the H ticks from first start, tick by tick."""
    delays = []
    last = 0
    for tick in range(starts[0], starts[0] + H):
        # `last` is the last anchor whose start is at most the tick.
        if last + 1 < g and starts[last + 1] <= tick:
            last += 1
        delays.append(latencies[last] - (tick - starts[last]))
    return delays


def segments_of_table(starts, latencies, g, H):
    """(latency, distance to the next start) of each anchor."""
    return [(latencies[index], distance_to_next(starts, g, H, index))
            for index in range(g)]


def low_by_enumeration(starts, latencies, g, H):
    """The limit that the delay nears: one below the least delay.

    Delays fall by one from tick to tick, so at the last tick before the
    next start the delay is one above latency less distance.
    """
    return min(delays_of_hyperperiod(starts, latencies, g, H)) - 1


def low_by_segments(starts, latencies, g, H):
    """The least of latency less distance to the next start."""
    return min(latency - distance for latency, distance
               in segments_of_table(starts, latencies, g, H))


def sum_by_enumeration(starts, latencies, g, H):
    """The sum of the delays at the H ticks from first start."""
    return sum(delays_of_hyperperiod(starts, latencies, g, H))


def sum_by_segments(starts, latencies, g, H):
    """The same sum; each segment is a falling row of delays."""
    total = 0
    for latency, distance in segments_of_table(starts, latencies, g, H):
        first = latency
        last = latency - distance + 1
        total += (first + last) * distance // 2
    return total


def exceedance_by_enumeration(starts, latencies, g, H, B):
    """Longest run of ticks with delay above B, or "endless".

    Delays repeat with H.  When some tick has no delay above B, a run is
    shorter than H, and two hyperperiods show every run whole.
    """
    delays = delays_of_hyperperiod(starts, latencies, g, H)
    if all(one > B for one in delays):
        return "endless"
    longest = 0
    run = 0
    for one in delays + delays:
        if one > B:
            run += 1
            longest = max(longest, run)
        else:
            run = 0
    return longest


def exceedance_by_segments(starts, latencies, g, H, B):
    """The same run, segment by segment.

    In a segment the delays fall, so the ticks above B come first.
    """
    segments = segments_of_table(starts, latencies, g, H)
    if all(latency - distance + 1 > B for latency, distance in segments):
        return "endless"
    longest = 0
    run = 0
    for latency, distance in segments + segments:
        above = min(distance, max(0, latency - B))
        run += above
        longest = max(longest, run)
        if above < distance:
            run = 0
    return longest


def greatest(starts, latencies, g, H):
    """Greatest latency: the largest of the first g latencies."""
    if not well_formed(starts, latencies, g, H):
        return refused(14)
    return ("ok", max(latencies[:g]))


def low(starts, latencies, g, H):
    """Low: the limit that the delay nears and never reaches."""
    if not well_formed(starts, latencies, g, H):
        return refused(14)
    if H <= ENUMERATION_LIMIT:
        return ("ok", low_by_enumeration(starts, latencies, g, H))
    return ("ok", low_by_segments(starts, latencies, g, H))


def mean(starts, latencies, g, H):
    """Mean by area: ("ok", numerator, denominator), or refusal 14.

    Document 02, order 3: "The delay falls within each tick.  Mean becomes
    two numbers: twice the sum at whole ticks less H, and twice H."  The sum
    is that of document 01, of the delays at the H ticks from first start.
    H is taken off once, after the doubling: chain A gives 336 and 24.  A
    common divisor stays.
    """
    if not well_formed(starts, latencies, g, H):
        return refused(14)
    if H <= ENUMERATION_LIMIT:
        total = sum_by_enumeration(starts, latencies, g, H)
    else:
        total = sum_by_segments(starts, latencies, g, H)
    return ("ok", 2 * total - H, 2 * H)


def throughput(starts, latencies, g, H):
    """Throughput: g anchors in H ticks."""
    if not well_formed(starts, latencies, g, H):
        return refused(14)
    return ("ok", g, H)


def exceedance(starts, latencies, g, H, B):
    """Longest exceedance of B: a number of ticks, or "endless"."""
    if not well_formed(starts, latencies, g, H):
        return refused(14)
    if H <= ENUMERATION_LIMIT:
        return ("ok", exceedance_by_enumeration(starts, latencies, g, H, B))
    return ("ok", exceedance_by_segments(starts, latencies, g, H, B))


# ---------------------------------------------------------------------------
# How often each delay occurs
# ---------------------------------------------------------------------------

def histogram_by_enumeration(starts, latencies, g, H, width, length):
    """(counts, rest), tick by tick.

    A delay lies from i * width up to below (i + 1) * width for one i, the
    whole part of delay / width.
    """
    counts = [0] * length
    rest = 0
    for one in delays_of_hyperperiod(starts, latencies, g, H):
        if one >= length * width:
            rest += 1
        else:
            counts[one // width] += 1
    return (counts, rest)


def histogram_by_segments(starts, latencies, g, H, width, length):
    """The same, segment by segment.

    In a segment the delays fall by one, so it has each delay from its
    latency down to its least one once.  An entry counts those that lie
    within its own first and last delay too.
    """
    counts = [0] * length
    rest = 0
    for latency, distance in segments_of_table(starts, latencies, g, H):
        least = latency - distance + 1
        # The entries of the list that the segment meets.
        for i in range(least // width, min(latency // width + 1, length)):
            first = max(least, i * width)
            last = min(latency, (i + 1) * width - 1)
            counts[i] += last - first + 1
        rest += max(0, latency - max(least, length * width) + 1)
    return (counts, rest)


def histogram(starts, latencies, g, H, width, length):
    """How often each delay occurs: ("ok", counts, rest), or refusal 14, 18.

    Document 02, order 7: "entry i of a lent list counts delays from i *
    width up to below (i + 1) * width, and a separate count takes those
    beyond the list."  The delays are those of document 01, "Reading a
    table", at the H ticks from first start.  The lent list has `length`
    entries, and 0 is allowed.  A success leaves the counts in all of them,
    whatever they held; a refusal leaves them as they are.
    """
    if not well_formed(starts, latencies, g, H):
        return refused(14)
    if width == 0:
        return refused(18)
    if H <= ENUMERATION_LIMIT:
        counts, rest = histogram_by_enumeration(starts, latencies, g, H,
                                                width, length)
    else:
        counts, rest = histogram_by_segments(starts, latencies, g, H,
                                             width, length)
    return ("ok", counts, rest)


# ---------------------------------------------------------------------------
# Windows of jobs
# ---------------------------------------------------------------------------

def misses(tasks, gap, j, B):
    """Whether job j of the first place misses.

    It misses when its forward end less its own read is above B.
    """
    end = write_of(tasks[-1], forward(tasks, gap, 1, j))
    return end - read_of(tasks[0], j) > B


def windows(tasks, gap, B, k):
    """Windows: ("ok", count, job), or refusal 8, 5, 7, 15.

    Document 01, "Windows of jobs": count is the largest number of misses
    in k successive jobs, the first of which lies in W1 + 1 to W1 + H/T1.
    Document 02, order 2: job is "the earliest starting job whose window
    holds that many misses, within the range of jobs as before".
    """
    answer = warm_up(tasks, gap)
    if answer[0] != "ok":
        return answer
    if not 1 <= k <= LARGEST_WINDOW:
        return refused(15)
    W1, H = answer[1][0], answer[3]
    T1 = tasks[0][0]
    first_jobs = range(W1 + 1, W1 + H // T1 + 1)
    # Every job of every window is judged once.
    missing = {}
    for j in range(first_jobs.start, first_jobs.stop - 1 + k):
        missing[j] = misses(tasks, gap, j, B)
    # Every window is counted by itself.  It may run past the range.
    counts = {}
    for first in first_jobs:
        counts[first] = sum(missing[j] for j in range(first, first + k))
    largest = max(counts.values())
    # Of all first jobs with that count, the earliest is asked for.
    earliest = min(first for first in first_jobs if counts[first] == largest)
    return ("ok", largest, earliest)


# ---------------------------------------------------------------------------
# Sections of a chain
# ---------------------------------------------------------------------------

def greatest_latency(tasks, gap):
    """The greatest latency of an accepted chain, as a plain number.

    Document 01: "the largest of the first g latencies", so of the anchors.
    Every cut gives the same anchors.  At the longest period the range of m
    is the shortest.
    """
    p = longest_period_place(tasks)
    return max(latency for _start, latency in anchors(tasks, gap, p))


def cuts_within_rule(cuts, places):
    """Whether the cuts rise strictly and lie within 1 to places - 1.

    A list of 12 or more cuts cannot do both, so its length needs no rule.
    """
    inside = all(1 <= cut <= places - 1 for cut in cuts)
    rising = all(cuts[index] < cuts[index + 1]
                 for index in range(len(cuts) - 1))
    return inside and rising


def parts_of(tasks, cuts):
    """The tasks of each section, in order; the cuts are within their rule.

    "c parts place c from the next": a section ends with place c, and the
    next one begins with place c + 1, which has index c.
    """
    begins = [0] + list(cuts)
    ends = list(cuts) + [len(tasks)]
    return [tasks[begin:end] for begin, end in zip(begins, ends)]


def sections(tasks, gap, cuts):
    """Sections: ("ok", [each one's greatest latency], sum), or a refusal.

    Document 02, order 6: "each section is analysed as a chain with its own
    warm-up, and the sum of the greatest latencies plus one gap for each cut
    is answered with each section's greatest latency, in order."  Refusals:
    8, 5, 7, the chain's own; 17 for the cuts.  No section is refused, since
    its places are some of the chain's and its H divides the chain's.
    """
    answer = check_chain(tasks, gap)
    if answer[0] != "ok":
        return answer
    if not cuts_within_rule(cuts, len(tasks)):
        return refused(17)
    # The gap counts inside a section, at each of its links, and once more
    # at each cut, which is a link of the whole chain.
    latencies = [greatest_latency(part, gap) for part in parts_of(tasks, cuts)]
    return ("ok", latencies, sum(latencies) + gap * len(cuts))


# ---------------------------------------------------------------------------
# Two chains
# ---------------------------------------------------------------------------

def next_change(tasks, gap, t):
    """The first tick after t whose booking is another than that of t.

    The job that ends the walk from t also ends the walk from every job of
    the first place up to the one it reaches backward.  A press at the read
    of that one comes too late for it.
    """
    job = earliest_reading_at_or_after(tasks[0], t + 1)
    end_job = forward(tasks, gap, 1, job)
    return read_of(tasks[0], backward(tasks, gap, len(tasks), end_job))


def greatest_difference_by_ticks(first, first_gap, second, second_gap,
                                 from_tick, common):
    """The greatest difference of the bookings, tick by tick."""
    return max(abs(booking(first, first_gap, t)
                   - booking(second, second_gap, t))
               for t in range(from_tick, from_tick + common))


def greatest_difference_by_segments(first, first_gap, second, second_gap,
                                    from_tick, common):
    """The same, by the segments in which one chain's booking stays.

    In a segment the other booking never falls, so the difference is
    greatest at the segment's first or last tick.  The segments are those
    of the chain with the longest period, which has few.
    """
    if max(task[0] for task in first) >= max(task[0] for task in second):
        steady, steady_gap, other, other_gap = \
            first, first_gap, second, second_gap
    else:
        steady, steady_gap, other, other_gap = \
            second, second_gap, first, first_gap
    largest = 0
    t = from_tick
    while t < from_tick + common:
        after = min(next_change(steady, steady_gap, t), from_tick + common)
        stays = booking(steady, steady_gap, t)
        largest = max(largest,
                      abs(stays - booking(other, other_gap, t)),
                      abs(stays - booking(other, other_gap, after - 1)))
        t = after
    return largest


@functools.lru_cache(maxsize=64)
def greatest_difference(first, first_gap, second, second_gap, from_tick,
                        common):
    """The greatest difference over the common ticks from the tick given.

    It does not depend on the press, so the last answers are kept.
    """
    if common <= ENUMERATION_LIMIT:
        return greatest_difference_by_ticks(first, first_gap, second,
                                            second_gap, from_tick, common)
    return greatest_difference_by_segments(first, first_gap, second,
                                           second_gap, from_tick, common)


def bookings(first_tasks, first_gap, second_tasks, second_gap, t):
    """Two chains: ("ok", later, earlier, difference, greatest).

    Each chain has its gap; chains of one schedule have the same.
    Refusals: the first chain's own 8, 5, 7, the second's own, 7 for the
    common hyperperiod, 12 for a tick before either warm-up, 13.
    """
    first = warm_up(first_tasks, first_gap)
    if first[0] != "ok":
        return first
    second = warm_up(second_tasks, second_gap)
    if second[0] != "ok":
        return second
    common = hyperperiod(list(first_tasks) + list(second_tasks))
    if common > LARGEST_HYPERPERIOD:
        return refused(7)
    later_warm_up = max(first[2], second[2])
    if t < later_warm_up:
        return refused(12)
    if t > UPPER_TICK:
        return refused(13)
    both = [booking(first_tasks, first_gap, t),
            booking(second_tasks, second_gap, t)]
    largest = greatest_difference(tuple(map(tuple, first_tasks)), first_gap,
                                  tuple(map(tuple, second_tasks)), second_gap,
                                  later_warm_up, common)
    return ("ok", max(both), min(both), max(both) - min(both), largest)


# ---------------------------------------------------------------------------
# Schedule file
# ---------------------------------------------------------------------------

KIND_TASK = 1
KIND_CHAIN = 2
KIND_END = 3
KIND_GAP = 4
TASK_LENGTH = 18
END_LENGTH = 4
GAP_LENGTH = 6
CHAIN_LENGTHS = [4 + 2 * places for places in range(1, MOST_PLACES + 1)]


def read_file(data):
    """Reading a file: ("ok", tasks, chains, gap), or the first fault.

    tasks is a list of (number, T, D, F), chains a list of lists of task
    numbers.  The gap is 0 where the file has no gap record.  The place of
    a refusal is a byte offset.
    """
    tasks = []
    chains = []
    gap = None
    offset = 0
    while True:
        remaining = len(data) - offset
        # 1: fewer than 4 bytes remain.
        if remaining < 4:
            return refused(1, offset)
        length, kind = struct.unpack_from("<HH", data, offset)
        # 2: length below 4.
        if length < 4:
            return refused(2, offset)
        # 1: length runs past the file.
        if length > remaining:
            return refused(1, offset)
        # 3: unknown kind.
        if kind not in (KIND_TASK, KIND_CHAIN, KIND_END, KIND_GAP):
            return refused(3, offset)
        # 2: wrong length for the kind.
        if kind == KIND_TASK and length != TASK_LENGTH:
            return refused(2, offset)
        if kind == KIND_CHAIN and length not in CHAIN_LENGTHS:
            return refused(2, offset)
        if kind == KIND_END and length != END_LENGTH:
            return refused(2, offset)
        if kind == KIND_GAP and length != GAP_LENGTH:
            return refused(2, offset)

        if kind == KIND_TASK:
            # 4: task after a chain (so after a gap too), 33rd task.
            if chains or len(tasks) == MOST_TASKS:
                return refused(4, offset)
            number, T, D, F = struct.unpack_from("<HIII", data, offset + 4)
            # 5: task number or value outside its rule.
            if not 1 <= number <= LARGEST_TASK_NUMBER:
                return refused(5, offset)
            if tasks and number <= tasks[-1][0]:
                return refused(5, offset)
            if not task_within_rule((T, D, F)):
                return refused(5, offset)
            tasks.append((number, T, D, F))

        elif kind == KIND_CHAIN:
            # 4: chain first, fifth chain, chain after a gap.
            if not tasks or len(chains) == MOST_CHAINS or gap is not None:
                return refused(4, offset)
            places = (length - 4) // 2
            numbers = list(struct.unpack_from("<%dH" % places, data,
                                              offset + 4))
            # 6: unknown task in the chain.
            known = {task[0] for task in tasks}
            if any(number not in known for number in numbers):
                return refused(6, offset)
            chains.append(numbers)

        elif kind == KIND_GAP:
            # 4: gap before a chain, gap twice.
            if not chains or gap is not None:
                return refused(4, offset)
            value, = struct.unpack_from("<H", data, offset + 4)
            # 5: a gap of 0, which is written by leaving it out, or one
            # above its limit.
            if value == 0 or not gap_within_rule(value):
                return refused(5, offset)
            gap = value

        else:
            # 4: end before a chain.
            if not chains:
                return refused(4, offset)
            # A byte after end is 4 at that byte.
            if offset + length < len(data):
                return refused(4, offset + length)
            return ("ok", tasks, chains, 0 if gap is None else gap)

        offset += length


def schedule_fault(task_count, tasks, chain_count, chains, gap):
    """The refusal 8, 5 or 6 of a schedule, or None.

    Array entries past a count are no part of the schedule.  A gap outside
    its limits is 5 at place 0, after the tasks.
    """
    # 8: task count, number of chains or of places outside its limits.
    if not 1 <= task_count <= MOST_TASKS:
        return refused(8)
    if not 1 <= chain_count <= MOST_CHAINS:
        return refused(8)
    for place_count, _numbers in chains[:chain_count]:
        if not 1 <= place_count <= MOST_PLACES:
            return refused(8)
    # 5: lowest task outside its rule.
    counted = tasks[:task_count]
    for position, (number, T, D, F) in enumerate(counted, start=1):
        if not 1 <= number <= LARGEST_TASK_NUMBER:
            return refused(5, position)
        if position > 1 and number <= counted[position - 2][0]:
            return refused(5, position)
        if not task_within_rule((T, D, F)):
            return refused(5, position)
    if not gap_within_rule(gap):
        return refused(5, 0)
    # 6: chain by chain, lowest position with an unknown task.
    known = {task[0] for task in counted}
    for place_count, numbers in chains[:chain_count]:
        for position, number in enumerate(numbers[:place_count], start=1):
            if number not in known:
                return refused(6, position)
    return None


def write_file(task_count, tasks, chain_count, chains, gap, lent):
    """Writing a file: (answer, lent bytes after).

    The answer is ("ok", length), or refusal 8, 5, 6, 11.
    """
    lent = bytes(lent)
    fault = schedule_fault(task_count, tasks, chain_count, chains, gap)
    if fault is not None:
        return (fault, lent)
    # Tasks, chains, the gap unless it is 0, end.
    file = b""
    for number, T, D, F in tasks[:task_count]:
        file += struct.pack("<HHHIII", TASK_LENGTH, KIND_TASK,
                            number, T, D, F)
    for place_count, numbers in chains[:chain_count]:
        file += struct.pack("<HH", 4 + 2 * place_count, KIND_CHAIN)
        for number in numbers[:place_count]:
            file += struct.pack("<H", number)
    if gap != 0:
        file += struct.pack("<HHH", GAP_LENGTH, KIND_GAP, gap)
    file += struct.pack("<HH", END_LENGTH, KIND_END)
    # 11: lent bytes shorter than the file.
    if len(lent) < len(file):
        return (refused(11), lent)
    return (("ok", len(file)), file + lent[len(file):])


# ---------------------------------------------------------------------------
# Analyses from a schedule
# ---------------------------------------------------------------------------

def chain_of_schedule(task_count, tasks, chain_count, chains, gap, n):
    """Chain n: ("ok", its places as (T, D, F)), or refusal 8, 5, 6, 16.

    Its gap is the schedule's.
    """
    fault = schedule_fault(task_count, tasks, chain_count, chains, gap)
    if fault is not None:
        return fault
    # 16: a chain number not in the schedule.
    if not 1 <= n <= chain_count:
        return refused(16)
    by_number = {number: (T, D, F) for number, T, D, F in tasks[:task_count]}
    place_count, numbers = chains[n - 1]
    return ("ok", [by_number[number] for number in numbers[:place_count]])


def warm_up_of(task_count, tasks, chain_count, chains, gap, n):
    """Warm-up of chain n.  Refusals 8, 5, 6, 16, then those of warm_up."""
    chain = chain_of_schedule(task_count, tasks, chain_count, chains, gap, n)
    if chain[0] != "ok":
        return chain
    return warm_up(chain[1], gap)


def delay_of(task_count, tasks, chain_count, chains, gap, n, t):
    """Walking chain n.  Refusals 8, 5, 6, 16, then those of delay."""
    chain = chain_of_schedule(task_count, tasks, chain_count, chains, gap, n)
    if chain[0] != "ok":
        return chain
    return delay(chain[1], gap, t)


def age_of(task_count, tasks, chain_count, chains, gap, n, z):
    """Ageing chain n.  Refusals 8, 5, 6, 16, then those of age."""
    chain = chain_of_schedule(task_count, tasks, chain_count, chains, gap, n)
    if chain[0] != "ok":
        return chain
    return age(chain[1], gap, z)


def make_of(task_count, tasks, chain_count, chains, gap, n, p, starts,
            latencies):
    """Making a table of chain n: (answer, starts after, latencies after).

    Refusals 8, 5, 6, 16, then those of make.
    """
    chain = chain_of_schedule(task_count, tasks, chain_count, chains, gap, n)
    if chain[0] != "ok":
        return (chain, list(starts), list(latencies))
    return make(chain[1], gap, p, starts, latencies)


def windows_of(task_count, tasks, chain_count, chains, gap, n, B, k):
    """Windows of chain n, with the earliest job as in windows.

    Refusals 8, 5, 6, 16, then those of windows.
    """
    chain = chain_of_schedule(task_count, tasks, chain_count, chains, gap, n)
    if chain[0] != "ok":
        return chain
    return windows(chain[1], gap, B, k)


def sections_of(task_count, tasks, chain_count, chains, gap, n, cuts):
    """Sections of chain n.  Refusals 8, 5, 6, 16, then those of sections."""
    chain = chain_of_schedule(task_count, tasks, chain_count, chains, gap, n)
    if chain[0] != "ok":
        return chain
    return sections(chain[1], gap, cuts)


def bookings_of(task_count, tasks, chain_count, chains, gap, first, second,
                t):
    """Two chains by their numbers, which may be equal.

    Refusals 8, 5, 6, 16 for either number, then those of bookings.
    """
    one = chain_of_schedule(task_count, tasks, chain_count, chains, gap,
                            first)
    if one[0] != "ok":
        return one
    two = chain_of_schedule(task_count, tasks, chain_count, chains, gap,
                            second)
    if two[0] != "ok":
        return two
    return bookings(one[1], gap, two[1], gap, t)


# ---------------------------------------------------------------------------
# A phase that keeps the promise
# ---------------------------------------------------------------------------

LONGEST_SEARCHED_PERIOD = 10_000


def period_to_search(task_count, tasks, chain_count, chains, gap, n, number):
    """The period of the task that is to move: ("ok", T), or a refusal.

    Document 02, order 9: "After the chain's checks, a task not in the chain
    is refused with 19 and a period above 10,000 with 20."  The checks are
    those of the schedule as it is given, with today's phases: 8, 5, 6, 16,
    then 7.  The number is any.
    """
    chain = chain_of_schedule(task_count, tasks, chain_count, chains, gap, n)
    if chain[0] != "ok":
        return chain
    answer = check_chain(chain[1], gap)
    if answer[0] != "ok":
        return answer
    # 19: a task not in this chain, whether the schedule has it or not.
    place_count, numbers = chains[n - 1]
    if number not in numbers[:place_count]:
        return refused(19)
    # 20: a period above 10,000, of this task and no other.
    period, _duration, _phase = chain[1][numbers.index(number)]
    if period > LONGEST_SEARCHED_PERIOD:
        return refused(20)
    return ("ok", period)


def chain_with_phase(task_count, tasks, chain_count, chains, gap, n, number,
                     phase):
    """Chain n of the schedule in which the task has another phase.

    Document 02, order 9: "Every place filled by that task moves."  So the
    phase is put into the schedule and the chain is taken from it again.  A
    task with another number stays, also one that is alike.
    """
    replaced = [(one, T, D, phase if one == number else F)
                for one, T, D, F in tasks[:task_count]]
    chain = chain_of_schedule(task_count, replaced, chain_count, chains, gap,
                              n)
    if chain[0] != "ok":
        raise AssertionError("another phase is refused")
    return chain[1]


def keeps(tasks, gap, bound):
    """Whether an accepted chain's greatest latency is at most the bound.

    This is greatest_latency(tasks, gap) <= bound, left at the first
    partition above the bound.  Partitions that are no anchors decide
    nothing: one whose next m has the same start ends no later than that
    next one, and one dropped has the end of the one before it and starts
    later.  So an anchor has the largest latency of all partitions.
    """
    p = longest_period_place(tasks)
    for m in range_of_m(tasks, gap, p):
        start, end = partition(tasks, gap, p, m)
        if end - start > bound:
            return False
    return True


def smallest_phase_of(task_count, tasks, chain_count, chains, gap, n, number,
                      bound):
    """A phase for a bound: ("ok", phase), with None for `none`.

    Document 02, order 9: "the smallest phase from 0 to period - 1 with which
    the chain's greatest latency is at most the bound, or `none` exactly when
    there is no such phase."  Refusals 8, 5, 6, 16, 7, 19, 20.  The bound is
    any 64-bit number.
    """
    answer = period_to_search(task_count, tasks, chain_count, chains, gap, n,
                              number)
    if answer[0] != "ok":
        return answer
    for phase in range(answer[1]):
        chain = chain_with_phase(task_count, tasks, chain_count, chains, gap,
                                 n, number, phase)
        if keeps(chain, gap, bound):
            return ("ok", phase)
    return ("ok", None)


def latency_at_phases_of(task_count, tasks, chain_count, chains, gap, n,
                         number):
    """The chain's greatest latency at each phase: ("ok", latencies).

    Entry f is that of phase f, for phases 0 to period - 1 of the task.
    Refusals as in smallest_phase_of.  The order does not ask for this list;
    it is for tests.
    """
    answer = period_to_search(task_count, tasks, chain_count, chains, gap, n,
                              number)
    if answer[0] != "ok":
        return answer
    latencies = []
    for phase in range(answer[1]):
        chain = chain_with_phase(task_count, tasks, chain_count, chains, gap,
                                 n, number, phase)
        latencies.append(greatest_latency(chain, gap))
    return ("ok", latencies)


# ---------------------------------------------------------------------------
# A running schedule and a proposal
# ---------------------------------------------------------------------------

def named(held):
    """What counts of a schedule with bounds, in tuples and nothing else.

    It has the six parts of held, cut at their counts.  Document 01: "Array
    entries past a count are no part of a schedule or chain."  Document 02,
    order 10: "Bounds beyond the chain count are not looked at."  The counts
    stay in it: one beyond its array takes the entries that are there, and
    differs all the same.  So two are the same schedule with the same bounds
    exactly where this is equal.
    """
    task_count, tasks, chain_count, chains, gap, bounds = held
    return (task_count,
            tuple(tuple(task) for task in tasks[:task_count]),
            chain_count,
            tuple((place_count, tuple(numbers[:place_count]))
                  for place_count, numbers in chains[:chain_count]),
            gap,
            tuple(bounds[:chain_count]))


# What a caller has after a refused making: no task, no chain, gap 0, no bound
# and no proposal.
STATE_OF_ZEROS = (named((0, (), 0, (), 0, ())), None)


def latencies_within_bounds(held):
    """The greatest latency of each chain: ("ok", latencies), or a refusal.

    Document 02, order 10: "After the schedule's own checks (8, 5 and 6 as in
    order 1, then 7 chain by chain) ask refuses a latency above its bound
    with 21".  So every 7 comes before any 21.  A latency equal to its bound
    passes.  The bounds are any 64-bit numbers.
    """
    task_count, tasks, chain_count, chains, gap, bounds = held
    fault = schedule_fault(task_count, tasks, chain_count, chains, gap)
    if fault is not None:
        return fault
    analysed = []
    for n in range(1, chain_count + 1):
        chain = chain_of_schedule(task_count, tasks, chain_count, chains, gap,
                                  n)
        if chain[0] != "ok":
            raise AssertionError("a chain of a good schedule is refused")
        analysed.append(chain[1])
    # 7: each chain's own hyperperiod.
    for chain in analysed:
        answer = check_chain(chain, gap)
        if answer[0] != "ok":
            return answer
    latencies = [greatest_latency(chain, gap) for chain in analysed]
    # 21: a latency above its bound, at place 0 whichever chain it is.
    for index, latency in enumerate(latencies):
        if latency > bounds[index]:
            return refused(21)
    return ("ok", latencies)


def make_state(held):
    """Making a state: ("ok", state), or refusal 8, 5, 6, 7, 21.

    Document 02, order 10: "Making a state takes a schedule with bounds and
    refuses what an ask would refuse, then handing back a state of zeros."
    A made state has no proposal.
    """
    answer = latencies_within_bounds(held)
    if answer[0] != "ok":
        return answer
    return ("ok", (named(held), None))


def ask(state, held):
    """Ask: (answer, state after).

    The answer is ("ok", latencies), or refusal 8, 5, 6, 7, 21.  Document 02,
    order 10: "Ask takes a schedule with bounds, gives the greatest latencies,
    and keeps it as the proposal in place of an earlier one."  "A refused call
    alters neither", so it leaves the running one and the proposal.
    """
    running, _earlier = state
    answer = latencies_within_bounds(held)
    if answer[0] != "ok":
        return (answer, state)
    return (answer, (running, named(held)))


def commit(state, held):
    """Commit: (answer, state after).

    The answer is ("ok",), or refusal 22, 23.  Document 02, order 10: "Commit
    names the schedule and bounds again and makes them run, clearing the
    proposal."  It "makes no other checks than 22 if no proposal stands, and
    then 23 if schedule or bounds differ from it, faulty ones included."
    """
    _running, proposal = state
    if proposal is None:
        return (refused(22), state)
    if named(held) != proposal:
        return (refused(23), state)
    return (("ok",), (proposal, None))


# ---------------------------------------------------------------------------
# A test load
# ---------------------------------------------------------------------------

DRAW_STEP = 0x9E3779B97F4A7C15
DRAW_MODULUS = 2 ** 64
DRAW_SHIFT = 31
LOAD_MODULUS = 97
LOAD_GAP = 0

# The periods of order 8: the first and the last number that pick it, and the
# period in microseconds, which are ticks.
LOAD_PERIODS = [
    (0, 0, 2_500),
    (1, 10, 5_000),
    (11, 43, 10_000),
    (44, 58, 20_000),
    (59, 81, 40_000),
    (82, 96, 80_000),
]


def draw(s):
    """One draw from the state s: (the state it sets, the number it gives).

    Document 02, order 8: "each draw sets s to s + 9E3779B97F4A7C15
    (hexadecimal) modulo 2^64 and gives s xor (s shifted right by 31)."  The
    number is had from the s just set.
    """
    s = (s + DRAW_STEP) % DRAW_MODULUS
    return (s, s ^ (s >> DRAW_SHIFT))


def draws(seed, count):
    """The first `count` draws from a seed, in order."""
    s = seed
    numbers = []
    for _ in range(count):
        s, number = draw(s)
        numbers.append(number)
    return numbers


def load_period(number):
    """The period that a number from 0 to 96 picks."""
    for first, last, period in LOAD_PERIODS:
        if first <= number <= last:
            return period
    raise ValueError("the number picks no period")


def load(seed, places):
    """A test load: ("ok", tasks, gap), or refusal 8.

    Document 02, order 8: "For each place a first draw modulo 97 picks the
    period in us [...].  A second draw modulo the period is the phase;
    duration equals period, gap 0."  The draws go on from place to place.
    The seed is a 64-bit number; places is any.
    """
    if not 1 <= places <= MOST_PLACES:
        return refused(8)
    s = seed
    tasks = []
    for _place in range(places):
        s, first = draw(s)
        period = load_period(first % LOAD_MODULUS)
        s, second = draw(s)
        phase = second % period
        duration = period
        tasks.append((period, duration, phase))
    return ("ok", tasks, LOAD_GAP)


def load_file(seed, places):
    """The schedule file of a test load: ("ok", bytes), or refusal 8.

    Each place has a task of its own, also where two are alike.  The tasks
    are numbered 1 to places, and the one chain has them in that order.  The
    gap of 0 is left out, as in every file.
    """
    answer = load(seed, places)
    if answer[0] != "ok":
        return answer
    _ok, tasks, gap = answer
    numbers = list(range(1, places + 1))
    numbered = [(number, *task) for number, task in zip(numbers, tasks)]
    written, lent = write_file(places, numbered, 1, [(places, numbers)], gap,
                               bytes(REPORT_BYTES))
    if written[0] != "ok":
        raise AssertionError("a load is refused in writing")
    return ("ok", lent[:written[1]])


# ---------------------------------------------------------------------------
# Program chainreport
# ---------------------------------------------------------------------------

def longest_period_place(tasks):
    """The place with the longest period, lowest place among equals."""
    periods = [period for period, _duration, _phase in tasks]
    return periods.index(max(periods)) + 1


def refusal_line(answer):
    """The line of a refusal: its number and its place."""
    return "refused %d %d" % (answer[1], answer[2])


def lines_of_chain(tasks, gap):
    """The lines of one chain: its table and figures, or its refusal."""
    p = longest_period_place(tasks)
    slots = [0] * REPORT_SLOTS
    answer, starts, latencies = make(tasks, gap, p, slots, slots)
    if answer[0] != "ok":
        return [refusal_line(answer)]
    _ok, g, x0, H, walked = answer
    lines = ["warm %d" % x0, "hyper %d" % H, "anchors %d" % g]
    for index in range(g):
        lines.append("a %d %d" % (starts[index], latencies[index]))
    lines.append("max %d" % greatest(starts, latencies, g, H)[1])
    lines.append("low %d" % low(starts, latencies, g, H)[1])
    lines.append("mean %d %d" % mean(starts, latencies, g, H)[1:])
    lines.append("walked %d" % walked)
    return lines


def report(data):
    """The whole text that chainreport prints for this input."""
    # Of a longer input the first 4,096 bytes are judged.
    schedule = read_file(bytes(data[:REPORT_BYTES]))
    if schedule[0] != "ok":
        lines = [refusal_line(schedule)]
    else:
        _ok, tasks, chains, gap = schedule
        counted = [(len(numbers), numbers) for numbers in chains]
        lines = []
        for n in range(1, len(chains) + 1):
            lines.append("chain %d" % n)
            chain = chain_of_schedule(len(tasks), tasks,
                                      len(counted), counted, gap, n)
            if chain[0] != "ok":
                raise AssertionError("a schedule that was read is refused")
            lines += lines_of_chain(chain[1], gap)
    return ("\n".join(lines) + "\n").encode("ascii")


# ---------------------------------------------------------------------------
# Program chainload
# ---------------------------------------------------------------------------

MOST_DIGITS = 20
LARGEST_NUMBER = 2 ** 64 - 1

TWO_WORDS = b"chainload: two words are needed: chainload SEED PLACES\n"
SEED_RULE = (b"chainload: SEED must be a number from 0 to "
             b"18446744073709551615, in at most 20 decimal digits\n")
PLACES_RULE = (b"chainload: PLACES must be a number from 1 to 12, "
               b"in at most 20 decimal digits\n")


def number_of_word(word):
    """The number that a word stands for, or None where it is no number.

    A number is a word of 1 to 20 bytes, each a decimal digit, whose value
    is below 2^64.  Leading zeros are allowed.  Nothing else is: no sign, no
    blank, no digit of another script.
    """
    if not 1 <= len(word) <= MOST_DIGITS:
        return None
    value = 0
    for byte in word:
        if not ord("0") <= byte <= ord("9"):
            return None
        value = 10 * value + (byte - ord("0"))
    if value > LARGEST_NUMBER:
        return None
    return value


def chainload(words):
    """What chainload puts out: (standard output, standard error).

    The words are bytes objects, without the program's own name.  First
    their number is judged, then SEED, then PLACES.
    """
    if len(words) != 2:
        return (b"", TWO_WORDS)
    seed = number_of_word(words[0])
    if seed is None:
        return (b"", SEED_RULE)
    places = number_of_word(words[1])
    if places is None:
        return (b"", PLACES_RULE)
    answer = load_file(seed, places)
    # The only refusal is 8, of places outside 1 to 12.
    if answer[0] != "ok":
        return (b"", PLACES_RULE)
    return (answer[1], b"")


if __name__ == "__main__":
    import sys
    sys.stdout.buffer.write(report(sys.stdin.buffer.read()))
