"""Random, boundary and damaged inputs. Every draw comes from the generator that is passed in."""
import dataclasses
import itertools
import math
import struct

from proved import ROW as ENTRIES
from proved import Schedule

LARGEST = 2**64 - 1
UPPER = 10**12
# Periods that meet in small hyperperiods, up to the limits of a task.
HARMONIC = [1, 2, 4, 5, 8, 10, 16, 20, 25, 40, 50, 80, 100, 125, 200, 250, 400, 500, 1000, 2000, 2500, 5000, 8000, 10000, 20000, 25000, 40000, 50000, 80000, 100000, 125000, 200000, 250000, 500000, 1000000]


def small_task(r):
    return (r.randint(1, 12), r.randint(1, 15), r.randint(0, 20))


def harmonic_task(r):
    return (r.choice(HARMONIC), r.choice([1, r.randint(1, 4000000), r.randint(1, 1000), 4000000]), r.choice([0, r.randint(0, 1000000), r.randint(0, 1000), 1000000]))


def wide_task(r):
    return (r.randint(1, 1000000), r.randint(1, 4000000), r.randint(0, 1000000))


def edge_task(r):
    return (r.choice([1, 2, 3, 500000, 1000000]), r.choice([1, 2, 3999999, 4000000]), r.choice([0, 1, 999999, 1000000]))


def faulty_task(r):
    """A task just outside, or far outside, one of its limits."""
    t, d, f = r.choice([small_task, edge_task])(r)
    return r.choice([(0, d, f), (1000001, d, f), (t, 0, f), (t, 4000001, f), (t, d, 1000001), (LARGEST, d, f), (t, LARGEST, f), (t, d, LARGEST), (0, 0, LARGEST)])


def near_limit(r):
    """Chains whose hyperperiod is at its limit of 60,000,000, or just below or above."""
    # The second is just above it.
    at = [(1000000, 768, 78125), (151, 397351), (1000000, 60), (960000, 1000000, 7500), (999999, 60), (7745, 7747), (7746, 7747), (60, 1000000, 500000, 3), (999983, 60), (999983, 61), (1000000, 59), (1000000, 61, 60)]
    periods = list(r.choice(at))
    r.shuffle(periods)
    return [(t, r.randint(1, 4000000), r.randint(0, 1000000)) for t in periods]


def chain(r):
    """A chain of 1 to 12 places, mostly acceptable."""
    kind = r.choice([small_task, small_task, harmonic_task, harmonic_task, edge_task, wide_task])
    tasks = [kind(r) for _ in range(r.choice([1, 2, 2, 3, 3, 4, 5, 6, 8, 10, 12]))]
    if r.random() < 0.2:
        tasks[r.randrange(len(tasks))] = small_task(r)
    if r.random() < 0.3:
        # one task fills several places
        tasks[r.randrange(len(tasks))] = tasks[0]
    return tasks


def any_chain(r):
    """Any chain, also of 0 or more than 12 places and with values outside their limits."""
    draw = r.random()
    if draw < 0.7:
        return chain(r)
    if draw < 0.8:
        return near_limit(r)
    if draw < 0.9:
        tasks = chain(r)
        for _ in range(r.choice([1, 1, 2])):
            tasks[r.randrange(len(tasks))] = faulty_task(r)
        return tasks
    return [small_task(r) for _ in range(r.choice([0, 13, 13, 14, 40]))]


# Gaps of a chain or a schedule.

MOST_GAP = 1000
# Those that are refused; some would pass with fewer bits.
FAULTY_GAPS = [MOST_GAP + 1, MOST_GAP + 1, MOST_GAP + 2, 2**16, 2**16 + 1, 2**32, 2**32 + 1, 2**63, 2**63 + MOST_GAP, LARGEST]


def deciding_gap(r, tasks):
    """A gap with which a link just fits, for some of its jobs, or just misses. A read of one place less a write of the place before always leaves the
    same rest by the common divisor of their periods; a gap with that rest makes the two ticks equal for some jobs."""
    i = r.randrange(len(tasks) - 1)
    (t, d, f), (following, _, phase) = tasks[i:i + 2]
    step = math.gcd(t, following) or 1
    fits = (phase - f - d) % step + step * r.choice([0, 0, 1, r.randint(0, 9)])
    return min(max(1, fits + r.choice([0, 1])), MOST_GAP)


def tightened(r, tasks, gap):
    """The chain with other phases: most places have a job that reads just when one of the place before becomes readable, or a tick earlier. What is outside
    its limits stays so."""
    tight = tasks[:1]
    for following, duration, phase in tasks[1:]:
        _, d, f = tight[-1]
        if following and phase <= 1000000 and r.random() < 0.8:
            phase = (f + d + gap - r.choice([0, 1])) % following
        tight.append((following, duration, phase))
    return tight


def some_gap(r, *chains):
    """A permitted gap for these chains."""
    tasks = r.choice(chains)
    if len(tasks) > 1 and r.random() < 0.3:
        return deciding_gap(r, tasks)
    return r.choice([0, 0, 0, 1, 2, MOST_GAP - 1, MOST_GAP, r.randint(1, MOST_GAP), r.randint(1, 20)])


def linked(r, tasks):
    """The chain, sometimes with phases for its gap, and a permitted gap, sometimes one for its phases."""
    gap = some_gap(r, tasks)
    return (tightened(r, tasks, gap) if gap and r.random() < 0.3 else tasks), gap


def any_linked(r, tasks):
    """The same, sometimes with a gap that is refused."""
    return (tasks, r.choice(FAULTY_GAPS)) if r.random() < 0.15 else linked(r, tasks)


def flat(tasks):
    return [value for task in tasks for value in task]


def rubbish(r):
    """Numbers that stand past a chain's count, whole tasks of them."""
    return [r.choice([0, 1, r.randint(0, 100), r.randint(0, LARGEST), LARGEST]) for _ in range(3 * r.choice([0, 1, 2, 5, 12]))]


def ticks_around(r, middles, count):
    """Ticks at and around the given ones, around the upper tick, and anywhere."""
    some = []
    for middle in middles:
        some += [middle + step for step in (-2, -1, 0, 1, 2)]
    some += [0, 1, UPPER - 1, UPPER, UPPER + 1, LARGEST]
    some += [r.randint(0, 200), r.randint(0, UPPER), r.randint(0, 10**9), r.randint(UPPER, LARGEST)]
    some = [t for t in some if 0 <= t <= LARGEST]
    return r.sample(some, min(count, len(some)))


# Tables: two lists, the anchor count g and the hyperperiod h.

MOST_HYPER = 60000000
MOST_LATENCY = 60011000
MOST_FIRST = 1000000000


def any_number(r):
    return r.choice([0, 1, r.randint(0, 100), r.randint(0, MOST_HYPER), r.randint(0, LARGEST), LARGEST])


def first_start(r):
    return r.choice([0, 0, r.randint(0, 50), r.randint(0, MOST_FIRST), MOST_FIRST - 1, MOST_FIRST])


def distance(starts, h, i):
    """The ticks from start i to the next start."""
    following = starts[i + 1] if i + 1 < len(starts) else starts[0] + h
    return following - starts[i]


def latency_above(r, d):
    """A latency above that distance: near it, at the limit, and around the 60,000,000 that were the limit without a gap."""
    some = [d + 1, d + r.randint(1, 20), d + r.randint(1, 20), r.randint(d + 1, MOST_LATENCY), MOST_LATENCY, MOST_LATENCY, MOST_HYPER + r.choice([0, 1])]
    return r.choice([v for v in some if d < v <= MOST_LATENCY])


def spread_table(r, g, h, first):
    """A well-formed table but for what the limits say of h and first: no two starts are as far apart as the latency's limit."""
    inner = set(range(MOST_LATENCY - 1, h, MOST_LATENCY - 1))
    while len(inner) < g - 1:
        inner.add(r.choice([1, h - 1, r.randint(1, h - 1), r.randint(1, h - 1)]))
    starts = [first + offset for offset in [0, *sorted(inner)]]
    return starts, [latency_above(r, distance(starts, h, i)) for i in range(len(starts))], h


def small_table(r):
    """A table short enough to be read at each of its ticks."""
    h = r.randint(1, 48)
    return spread_table(r, r.randint(1, min(h, 8)), h, first_start(r))


def middle_table(r):
    h = r.choice([r.randint(49, 3000), r.randint(49, 3000), r.randint(19990, 20010)])
    return spread_table(r, r.randint(1, min(h, 40)), h, first_start(r))


def large_table(r):
    """A long hyperperiod, up to its limit, and up to 1,024 anchors."""
    h = r.choice([r.randint(20001, MOST_HYPER), r.randint(20001, 100000), MOST_HYPER - 1, MOST_HYPER])
    return spread_table(r, r.choice([1, 2, 3, r.randint(1, 20), r.randint(1, 20), r.randint(1, 200), 1024]), h, first_start(r))


def with_rest(r, starts, latencies):
    """The lists with rubbish past the anchors, equally much in both, often none."""
    n = r.choice([0, 0, 1, 2, 7])
    return starts + [any_number(r) for _ in range(n)], latencies + [any_number(r) for _ in range(n)]


def undamaged(r):
    """A table of at least two anchors to be damaged: the anchors, and the table's g and h."""
    h = r.choice([r.randint(3, 60), r.randint(3, 60), r.randint(3, MOST_HYPER)])
    starts, latencies, h = spread_table(r, r.randint(2, min(h, 6)), h, first_start(r))
    return starts, latencies, len(starts), h


# Each way in which a table is not well-formed, alone: from a generator to the lists, g and h.

def no_anchors(r):
    starts, latencies, g, h = undamaged(r)
    return r.choice([(starts, latencies, 0, h), ([], [], 0, h)])


def too_many_anchors(r):
    starts, latencies, g, h = undamaged(r)
    return starts, latencies, r.choice([g + 1, g + 2, 2**32 + g, 2**63, LARGEST]), h


def unequal_lists(r):
    starts, latencies, g, h = undamaged(r)
    starts, latencies = with_rest(r, starts, latencies)
    more = [any_number(r) for _ in range(r.choice([1, 1, 2, 5]))]
    return r.choice([(starts + more, latencies, g, h), (starts, latencies + more, g, h)])


def no_hyper(r):
    starts, latencies, g, h = undamaged(r)
    return starts, latencies, g, 0


def hyper_above_limit(r):
    h = MOST_HYPER + r.choice([1, 1, 2, r.randint(1, MOST_HYPER)])
    starts, latencies, h = spread_table(r, r.randint(2, 5), h, first_start(r))
    return starts, latencies, len(starts), r.choice([h, h, h, LARGEST, min(LARGEST, 2**64 - starts[0])])


def first_above_limit(r):
    h = r.randint(3, 60)
    first = r.choice([MOST_FIRST + 1, MOST_FIRST + 1, r.randint(MOST_FIRST + 1, 2**63), LARGEST - h + 1, LARGEST - h])
    starts, latencies, h = spread_table(r, r.randint(1, 3), h, first)
    return starts, latencies, len(starts), h


def equal_starts(r):
    starts, latencies, g, h = undamaged(r)
    i = r.randrange(g)
    return starts[:i + 1] + starts[i:], latencies[:i + 1] + latencies[i:], g + 1, h


def falling_starts(r):
    starts, latencies, g, h = undamaged(r)
    i = r.randint(1, g - 1)
    low = r.choice([starts[i - 1] - 1, starts[0] - 1, 0, r.randint(0, starts[i - 1])])
    starts[i] = max(0, min(low, starts[i - 1]))
    latencies[i] = MOST_LATENCY
    return starts, latencies, g, h


def start_past_end(r):
    """The last start at first start + h, or past it."""
    starts, latencies, g, h = undamaged(r)
    past = starts[0] + h + r.choice([0, 0, 1, r.randint(0, 1000)])
    latencies[-1] = MOST_LATENCY if past - starts[-1] < MOST_LATENCY else latencies[-1]
    return starts + [past], latencies + [latency_above(r, 0)], g + 1, h


def latency_above_limit(r):
    starts, latencies, g, h = undamaged(r)
    latencies[r.randrange(g)] = MOST_LATENCY + r.choice([1, 1, 2, r.randint(1, 2**63), LARGEST - MOST_LATENCY])
    return starts, latencies, g, h


def latency_of_distance(r):
    """A latency, not the last, of at most the distance to the next start."""
    starts, latencies, g, h = undamaged(r)
    i = r.randrange(g - 1)
    d = distance(starts, h, i)
    latencies[i] = r.choice([d, d, d - 1, 0, r.randint(0, d)])
    return starts, latencies, g, h


def last_latency_of_distance(r):
    starts, latencies, g, h = undamaged(r)
    d = distance(starts, h, g - 1)
    latencies[-1] = r.choice([d, d, d - 1, 0, r.randint(0, d)])
    return starts, latencies, g, h


DAMAGES = [no_anchors, too_many_anchors, unequal_lists, no_hyper, hyper_above_limit, first_above_limit, equal_starts, falling_starts, start_past_end, latency_above_limit, latency_of_distance, last_latency_of_distance]


def within(numbers):
    """Those that fit 64 bits, each once."""
    return sorted({n for n in numbers if 0 <= n <= LARGEST})


def table_ticks(r, starts, h):
    """Ticks for a table: around its first start, each of some starts, the end of its hyperperiod and of others, and the upper tick."""
    first = starts[0]
    turns = (UPPER - first) // h
    middles = [first, first + h, first + turns * h, first + r.randint(0, turns) * h, UPPER, r.choice(starts), r.choice(starts) + r.randint(0, turns) * h]
    some = [middle + step for middle in middles for step in (-1, 0, 1)]
    return within([*some, 0, LARGEST, r.randint(0, UPPER), r.randint(first, first + h)])


def bounds(r, latencies, low, most):
    """Bounds at and around the latencies and low, and at the ends of 64 bits; `most` of them where there are more."""
    some = within([middle + step for middle in [low, *latencies] for step in (-1, 0, 1)] + [r.randint(0, MOST_LATENCY), 2**63])
    return [0, LARGEST, low, low + 1, *r.sample(some, min(most, len(some)))]



# The most entries that a list of counts has here.
MOST_ENTRIES = 4096


def widths(r, latencies, h, most):
    """Widths of the entries of a histogram: the least, at and around the latencies and their parts, H, at the limits, and at the ends of 64 bits; `most` of them where there are more."""
    some = [latency // part + step for latency in r.sample(latencies, min(4, len(latencies))) for part in (1, 2, 3, 10) for step in (-1, 0, 1)]
    ends = [1, 2, 3, h, h + 1, MOST_LATENCY, MOST_LATENCY + 1, MOST_LATENCY + 2, 2**32 - 1, 2**32, 2**32 + 1, 2**63, LARGEST]
    every = within([*some, *ends, r.randint(1, MOST_LATENCY), r.randint(1, LARGEST), r.randint(1, 50), r.randint(1, 5000)])
    return [width for width in r.sample(every, min(most, len(every))) if width > 0]


def lengths(r, top, width, most):
    """Lengths of a list: none, few, many, and such that the entry of the greatest delay is the last of the list, or lies just past it; `most` of them."""
    reaching = [n for n in (top // width - 1, top // width, top // width + 1, top // width + 2) if 0 <= n <= MOST_ENTRIES]
    return [*r.sample([0, 1, 2, 3, 64, r.randint(0, 200), r.randint(0, MOST_ENTRIES), MOST_ENTRIES], most), *r.sample(reaching, min(most, len(reaching)))]


def close_table(r, g):
    """A table of so many anchors in few ticks, with latencies of a few thousand, which a long list of narrow entries holds."""
    h = g + r.choice([0, 1, r.randint(0, 30), r.randint(0, 3 * g)])
    starts, latencies, h = spread_table(r, g, h, first_start(r))
    top = r.choice([5, 300, 5000])
    return starts, [distance(starts, h, i) + r.randint(1, top) for i in range(g)], h


def cut_chain(r):
    """A chain whose hyperperiod holds few enough jobs that every cut can be walked by definition."""
    while True:
        draw = r.random()
        if draw < 0.6:
            tasks = [(r.randint(1, 8), r.randint(1, 12), r.randint(0, 20)) for _ in range(r.choice([1, 2, 2, 3, 3, 4, 5]))]
        elif draw < 0.75:
            base = r.choice([1, 10, 1000, 250000])
            tasks = [(base * r.choice([1, 2, 4]), r.randint(1, 4 * base), r.randint(0, 4 * base)) for _ in range(r.choice([2, 3, 6, 12]))]
        elif draw < 0.9:
            tasks = [(r.choice([100000, 200000, 250000, 500000, 1000000]), r.randint(1, 4000000), r.randint(0, 1000000)) for _ in range(r.choice([1, 2, 3, 5, 12]))]
        else:
            # one task fills several places
            one = (r.randint(1, 9), r.randint(1, 9), r.randint(0, 9))
            tasks = [one, small_task(r), one]
        periods = [t for t, _, _ in tasks]
        if math.lcm(*periods) <= 60 * min(periods):
            return tasks


# Periods that differ much, at the ends of their limits, or on both sides of 1,024, where the step takes another power of two. In the last ones short periods
# stand between long ones, so that one job of a place is many of its neighbour.
FAR_APART = [(1, 1000, 1999), (2, 1, 1000, 1999), (5, 59999, 2, 40), (1024, 1025), (1023, 1024, 1), (1025, 1026, 2), (999983, 60), (1000000, 3, 7), (999999, 7, 1), (7744, 7747), (1999, 1000, 1, 2, 3, 4, 5, 6, 8, 10, 12, 15), (3779, 7558, 2, 1, 3, 6)]


def far_chain(r):
    """A chain with periods that differ much, in any order, also with a place more for each of some divisors of its hyperperiod."""
    periods = list(r.choice(FAR_APART))
    h = math.lcm(*periods)
    more = [t for t in (1, 2, 3, 5, 60, 1000, 1024, 1025, 100000, 1000000) if h % t == 0]
    periods += [r.choice(more) for _ in range(r.choice([0, 0, 1, 3]))]
    periods = periods[:12]
    if r.random() < 0.7:
        r.shuffle(periods)
    return [(t, r.choice([1, t, r.randint(1, t), r.randint(1, 4000000), 4000000]), r.choice([0, r.randint(0, t - 1), r.randint(0, 1000000), 1000000])) for t in periods]


def wide_window_chain(r):
    """A chain whose first place has up to some thousand jobs in a hyperperiod, more than a window holds."""
    while True:
        tasks = [(r.randint(1, 60), r.randint(1, 90), r.randint(0, 90)) for _ in range(r.choice([2, 3, 4]))]
        if 100 < math.lcm(*[t for t, _, _ in tasks]) // tasks[0][0] <= 3000:
            return tasks


def all_cuts(n):
    """Every list of cuts of a chain of n places, the empty one first."""
    return [list(cuts) for k in range(n) for cuts in itertools.combinations(range(1, n), k)]


def some_cuts(r, n):
    """A list of cuts of a chain of n places: few, some or all of them."""
    return sorted(r.sample(range(1, n), r.choice([0, min(1, n - 1), r.randint(0, n - 1), n - 1])))


def faulty_cuts(r, n):
    """Lists that are no cuts of a chain of n places: a cut that is 0, equal, falling, after the last place or far beyond, alone or in a list that is right else; and lists too long."""
    right = some_cuts(r, n)
    low, high = right[0] if right else n, right[-1] if right else 0
    far = [n, n + 1, 12, 2**32 + 1, 2**63, LARGEST]
    lists = [[0], [0, *right], [*right, r.choice(far)], [r.choice(far), *right], [*right, high], [low, *right], list(range(1, 13)), list(range(1, 14)), [r.choice(far)]]
    if len(right) > 1:
        lists += [right[::-1], [*right[:-1], right[0]]]
    return lists


def lent_lists(r, n, m):
    """Two lent lists of these lengths, with rubbish in them."""
    return [r.randint(0, LARGEST) for _ in range(n)], [r.randint(0, LARGEST) for _ in range(m)]


# Schedules: tasks (number, T, D, F), chains, each a list of task numbers, and a gap. Files: records of length, kind and body, little-endian.

TASK, CHAIN, END, GAP = 1, 2, 3, 4
# The greatest task number is also the most that a length or a kind can be.
MOST_TASKS, MOST_CHAINS, MOST_PLACES, MOST_NUMBER = 32, 4, 12, 65535
# The least and the greatest of each value of a task, by its position among number, T, D, F.
LIMITS = {0: (1, MOST_NUMBER), 1: (1, 1000000), 2: (1, 4000000), 3: (0, 1000000)}


def rising(r, count):
    """Strictly rising task numbers: one after another from 1 or up to 65,535, with some left out, or any."""
    draw = r.random()
    if draw < 0.2:
        return list(range(1, count + 1))
    if draw < 0.3:
        return list(range(MOST_NUMBER + 1 - count, MOST_NUMBER + 1))
    if draw < 0.6:
        return list(itertools.accumulate(r.randint(1, 3) for _ in range(count)))
    return sorted(r.sample(range(1, MOST_NUMBER + 1), count))


def schedule(r, count, sizes):
    """A schedule of so many tasks, with a chain of each of these numbers of places."""
    kind = r.choice([small_task, wide_task, edge_task])
    tasks = [(number, *kind(r)) for number in rising(r, count)]
    return tasks, [[r.choice(tasks)[0] for _ in range(places)] for places in sizes]


def some_sizes(r, chains):
    """Numbers of places of so many chains."""
    return [r.choice([1, 2, 3, r.randint(1, 12), 12]) for _ in range(chains)]


def any_schedule(r):
    return schedule(r, r.choice([1, 1, 2, 3, 4, r.randint(1, 32), 31, 32]), some_sizes(r, r.randint(1, MOST_CHAINS)))


def numbered(r, chains):
    """The schedule of chains of (T, D, F): its numbered tasks, and the chains as task numbers. Other tasks stand between them, and a task may fill several places."""
    kinds = list(dict.fromkeys(itertools.chain(*chains)))
    kinds += [edge_task(r) for _ in range(min(r.choice([0, 0, 1, 3]), MOST_TASKS - len(kinds)))]
    r.shuffle(kinds)
    numbers = rising(r, len(kinds))
    number_of = {task: number for number, task in zip(numbers, kinds)}
    return [(number, *task) for number, task in zip(numbers, kinds)], [[number_of[task] for task in chain] for chain in chains]


def record(kind, body, length=None):
    """A record with its own length, or with the one that is given."""
    return struct.pack("<HH", len(body) + 4 if length is None else length, kind) + body


def task_record(number, t, d, f):
    return record(TASK, struct.pack("<HIII", number, t, d, f))


def chain_record(numbers):
    return record(CHAIN, struct.pack(f"<{len(numbers)}H", *numbers))


def gap_record(value):
    return record(GAP, struct.pack("<H", value))


END_RECORD = record(END, b"")
# Values of a gap record that are accepted, at the ends of the limits and of a byte, and values that are not.
GAP_VALUES, OTHER_VALUES = [1, 2, 255, 256, 257, MOST_GAP - 1, MOST_GAP], [0, MOST_GAP + 1, 1024, 2**15, MOST_NUMBER]


def file_gap(r):
    """The gap of a file: none as often as one."""
    return r.choice([0, r.choice([*GAP_VALUES, r.randint(1, MOST_GAP)])])


def records(tasks, chains, gap):
    """The records of a file. A gap of 0 has none."""
    return [*[task_record(*task) for task in tasks], *[chain_record(chain) for chain in chains], *([gap_record(gap)] if gap else []), END_RECORD]


def joined(parts):
    return b"".join(parts)


# Ways in which the records of a file are damaged: from a file's records to many files.

def doubled(r, parts):
    for i in range(len(parts)):
        yield joined(parts[:i + 1] + parts[i:])


def dropped(r, parts):
    for i in range(len(parts)):
        yield joined(parts[:i] + parts[i + 1:])


def swapped(r, parts):
    for i, j in itertools.combinations(range(len(parts)), 2):
        other = list(parts)
        other[i], other[j] = parts[j], parts[i]
        yield joined(other)


def inserted(r, parts):
    """Before each record and last: each record of the file, a task that rises on, one that does not, other chains, gaps, other kinds."""
    last = max(number for kind, number in (struct.unpack_from("<HH", part, 2) for part in parts[:-1]) if kind == TASK)
    rising_on = [task_record(number, 1, 1, 0) for number in {1, last, min(last + 1, MOST_NUMBER), MOST_NUMBER}]
    others = [chain_record([last]), chain_record([0]), chain_record([]), record(0, b""), record(5, b""), record(END, b"x")]
    others += [gap_record(r.choice(GAP_VALUES)), gap_record(r.choice(OTHER_VALUES)), record(GAP, b""), record(GAP, r.randbytes(r.choice([1, 3, 4])))]
    others.append(record(r.randint(5, MOST_NUMBER), r.randbytes(r.randint(0, 20))))
    for i in range(len(parts) + 1):
        for extra in [*parts, *rising_on, *others]:
            yield joined([*parts[:i], extra, *parts[i:]])


def wrong_lengths(r, parts):
    """Each record with another length: 0 to 40, as far as the file goes, further by one, the most. Alone, and with the body cut or filled to it."""
    for i, part in enumerate(parts):
        before, after = joined(parts[:i]), joined(parts[i + 1:])
        remaining = len(part) + len(after)
        for length in {*range(41), remaining - 1, remaining, remaining + 1, remaining + 256, 256 + len(part), MOST_NUMBER}:
            head = struct.pack("<H", length)
            yield before + head + part[2:] + after
            if 4 <= length:
                yield before + head + (part[2:] + r.randbytes(length))[:length - 2] + after


def other_kinds(r, parts):
    """A record of every kind and every length up to 40, before each record and last: with the rest after it, and cut by a byte as the last."""
    for i in range(len(parts) + 1):
        before, after = joined(parts[:i]), joined(parts[i:])
        for kind in (0, TASK, CHAIN, END, GAP, 5, 256 + TASK, 256 * CHAIN, MOST_NUMBER):
            for length in range(41):
                # A gap of two random bytes is seldom one.
                body = gap_record(r.choice(GAP_VALUES))[4:] if (kind, length) == (GAP, 6) else r.randbytes(max(0, length - 4))
                extra = record(kind, body, length)
                yield before + extra + after
                yield before + extra[:-1]


def trailing(r, parts):
    """One to five bytes after the end, and many: zeros, the bytes of records, any."""
    whole = joined(parts)
    for more in range(1, 6):
        for extra in (bytes(5), END_RECORD + b"x", parts[0], parts[-2], b"\xff" * 5, r.randbytes(5)):
            yield whole + extra[:more]
    yield whole + whole
    yield whole + r.randbytes(r.randint(6, 4000))


# With the answers that each must lead to.
RECORD_DAMAGES = {
    doubled: ("ok", 4, 5),
    dropped: ("ok", 1, 4, 6),
    swapped: ("ok", 4, 5),
    inserted: ("ok", 2, 3, 4, 5, 6),
    wrong_lengths: (1, 2),
    other_kinds: (1, 2, 3, 4, 5, 6),
    trailing: (4,),
}


def turns(r, kinds_of, most):
    """Every row of up to so many records of these kinds; the chains have tasks of before."""
    for kinds in itertools.chain(*[itertools.product(kinds_of, repeat=n) for n in range(most + 1)]):
        parts, numbers = [], []
        for kind in kinds:
            if kind == TASK:
                numbers.append(len(numbers) + 1)
                parts.append(task_record(numbers[-1], *small_task(r)))
            elif kind == CHAIN:
                parts.append(chain_record([r.choice(numbers or [1]) for _ in range(r.choice([1, 1, 2, 12]))]))
            elif kind == GAP:
                parts.append(gap_record(r.choice([*GAP_VALUES, *GAP_VALUES, *OTHER_VALUES])))
            else:
                parts.append(END_RECORD)
        yield joined(parts)


def gap_files(r):
    """A record of kind 4 after every beginning of a file, with each value and length, whole and cut by a byte; after it the rest of the file, nothing, or
    another record."""
    tasks, chains = schedule(r, 32, some_sizes(r, MOST_CHAINS))
    two = records(tasks[:2], [[tasks[0][0]]], 0)
    whole, known = records(tasks, chains, MOST_GAP), [tasks[0][0]]
    # Nothing, one task, two, all; then with one chain to four, and with a gap after the chains.
    beginnings = [[], two[:1], two[:2], whole[:32], two[:3], *[whole[:32 + n] for n in range(1, MOST_CHAINS + 1)], [*two[:3], gap_record(7)], whole[:-1], whole]
    endings = [[END_RECORD], [], [chain_record(known), END_RECORD], [chain_record([0])], [task_record(MOST_NUMBER, 1, 1, 0)], [gap_record(3), END_RECORD], [gap_record(0)], [END_RECORD, END_RECORD]]
    for beginning, value in itertools.product(beginnings, [0, 1, r.choice(GAP_VALUES), MOST_GAP, MOST_GAP + 1, r.choice(OTHER_VALUES), MOST_NUMBER]):
        for length in (4, 5, 6, 7, 8):
            extra = record(GAP, struct.pack("<HH", value, 0)[:length - 4], length)
            yield joined([*beginning, extra[:-1]])
            for ending in endings if length == 6 else r.sample(endings, 2):
                yield joined([*beginning, extra, *ending])


# Values at and past their limits.

def edge_values(field):
    """Values of a task at and just past the limits of that field, and the ends of the bytes that hold it."""
    low, high = LIMITS[field]
    most = MOST_NUMBER if field == 0 else 2**32 - 1
    return [v for v in {low - 1, low, low + 1, high - 1, high, high + 1, 0, 256, most} if 0 <= v <= most]


def with_value(tasks, i, field, value):
    """The tasks with one value of one task changed."""
    task = list(tasks[i])
    task[field] = value
    return [*tasks[:i], tuple(task), *tasks[i + 1:]]


def edge_files(r, tasks, chains, gap):
    """Each value of each task at and past its limits; each number equal to the one before and after, below, above."""
    for i in range(len(tasks)):
        for field in LIMITS:
            for value in edge_values(field):
                yield joined(records(with_value(tasks, i, field, value), chains, gap))
        for number in {tasks[max(0, i - 1)][0], tasks[i][0] - 1, tasks[0][0], tasks[-1][0], tasks[min(i + 1, len(tasks) - 1)][0]}:
            yield joined(records(with_value(tasks, i, 0, number), chains, gap))


def unknown(r, tasks):
    """A number that none of the tasks has."""
    numbers = {task[0] for task in tasks}
    near = [0, MOST_NUMBER, tasks[0][0] - 1, tasks[-1][0] + 1, r.choice(tasks)[0] ^ 256, r.choice(tasks)[0] ^ 1, r.randint(1, MOST_NUMBER)]
    return r.choice([n for n in near if n <= MOST_NUMBER and n not in numbers] or [0])


def unknown_files(r, tasks, chains, c):
    """Of chain c: an unknown task at each place, at two places and at all; the chain with 0 and 13 places. The same with a fault in a chain after it."""
    chain, parts = chains[c], records(tasks, chains, file_gap(r))
    at, last = len(tasks) + c, len(tasks) + len(chains) - 1
    for i in range(len(chain)):
        strange = [*chain[:i], unknown(r, tasks), *chain[i + 1:]]
        yield joined([*parts[:at], chain_record(strange), *parts[at + 1:]])
        strange[r.randrange(len(chain))] = unknown(r, tasks)
        yield joined([*parts[:at], chain_record(strange), *parts[at + 1:]])
        if at < last:
            yield joined([*parts[:at], chain_record(strange), *parts[at + 1:last], chain_record(r.choice([[], [unknown(r, tasks)]])), *parts[last + 1:]])
    for numbers in ([unknown(r, tasks)] * len(chain), [], (chain * 13)[:13], (chain * 13)[:12] + [unknown(r, tasks)], (chain * 14)[:14]):
        yield joined([*parts[:at], chain_record(numbers), *parts[at + 1:]])


def many_tasks(r, count):
    """A file of more than 32 tasks: the 33rd is right but for that, or has another fault too, or the file ends there."""
    tasks, chains = schedule(r, count, some_sizes(r, r.randint(1, MOST_CHAINS)))
    parts = records(tasks, chains, file_gap(r))
    yield joined(parts)
    for i, fault in ((32, (0, 1, 1, 0)), (32, (tasks[0][0], 1, 1, 0)), (32, (MOST_NUMBER, 0, 1, 0)), (31, (0, 1, 1, 0))):
        yield joined([*parts[:i], task_record(*fault), *parts[i + 1:]])
    yield joined([*parts[:32], parts[32][:17]])
    yield joined([*parts[:32], record(TASK, parts[32][4:], 19), *parts[33:]])
    yield joined([*parts[:32], record(5, parts[32][4:]), *parts[33:]])
    yield joined([*parts[:32], record(GAP, parts[32][4:]), *parts[33:]])
    yield joined([*parts[:32], gap_record(r.choice([0, 1])), *parts[33:]])
    yield joined(parts[:33])


def faults_of_order(r):
    """Every record that has several faults at once, after every kind of beginning, with the rest of the file after it or not: only the order of
    the tests decides which fault is told."""
    tasks, chains = schedule(r, 32, [3, 1, 2, 1])
    known, strange = tasks[0][0], unknown(r, tasks)
    one, two, all_tasks = records(tasks[:1], [[known]] * 4, 5), records(tasks[:2], [[known]], 0), records(tasks, chains, MOST_GAP)
    # Nothing, one task, two, all; then with one chain, three and four, those also with a gap, and a whole file.
    beginnings = [[], one[:1], two[:2], all_tasks[:32], one[:2], one[:4], one[:5], one[:6], all_tasks[:33], all_tasks[:36], all_tasks[:37], two]
    faulty = [(0, 1, 1, 0), (MOST_NUMBER, 0, 1, 0), (MOST_NUMBER, 1, 0, 0), (MOST_NUMBER, 1, 1, 1000001), (0, 0, 0, 2**32 - 1)]
    bodies = [task_record(*task)[4:] for task in [tasks[2], tasks[0], *faulty]]
    bodies += [chain_record(numbers)[4:] for numbers in ([known], [strange], [known, strange], [strange] * 12, [strange] * 13, [])]
    bodies += [gap_record(value)[4:] for value in (0, 1, MOST_GAP, MOST_GAP + 1)]
    for beginning, kind, body in itertools.product(beginnings, (0, TASK, CHAIN, END, GAP), bodies):
        for length in {0, 3, 4, 5, 6, 18, len(body) + 3, len(body) + 4, len(body) + 5, MOST_NUMBER}:
            start = joined(beginning) + record(kind, body, length)
            yield start
            yield start + joined(records(tasks[2:3], [[tasks[2][0]]], 0))


# Bytes that were never a file.

def random_bytes(r):
    """Any bytes; or bytes that are often those of a head."""
    n = r.choice([r.randint(0, 60), r.randint(0, 60), r.randint(0, 700), r.randint(0, 5000), 5000])
    if r.random() < 0.3:
        return r.randbytes(n)
    return bytes(r.choices([0, 1, 2, 3, 4, 6, 18, 255], [8, 3, 2, 2, 2, 2, 3, 1], k=n))


def random_records(r):
    """A row of records, mostly in turn and mostly right, up to 5,000 bytes."""
    parts, number, most = [], 0, r.choice([60, 200, 700, 5000])
    while sum(map(len, parts)) < most:
        draw = r.random()
        if draw < 0.75:
            number = min(MOST_NUMBER, number + r.choice([1, 1, 2, 1000] if r.random() < 0.97 else [0]))
            parts.append(task_record(number, *(edge_task(r) if r.random() < 0.98 else (0, 1, 1))))
        elif draw < 0.9:
            for _ in range(r.choice([1, 1, 2, 3, 4, 5])):
                parts.append(chain_record([r.randint(1, number + 1) if r.random() < 0.03 else number for _ in range(r.randint(1, 12))]))
            if r.random() < 0.4:
                parts.append(gap_record(r.choice(GAP_VALUES) if r.random() < 0.9 else r.choice(OTHER_VALUES)))
            if r.random() < 0.7:
                parts.append(END_RECORD)
                if r.random() < 0.8:
                    break
        elif draw < 0.93:
            parts.append(r.choice([END_RECORD, END_RECORD, gap_record(r.choice(GAP_VALUES))]))
        else:
            parts.append(record(r.choice([0, GAP, 5, r.randint(0, MOST_NUMBER)]), r.randbytes(r.choice([0, 1, 14, r.randint(0, 4000)]))))
    return joined(parts)[:5000]


# Schedules to be written: any numbers of 64 bits.

def past_tasks(r, tasks):
    """Whole tasks that stand past the count: rubbish, and such as would follow."""
    return [r.choice([tuple(any_number(r) for _ in range(4)), (min(tasks[-1][0] + 1 + i, MOST_NUMBER), 1, 1, 0)]) for i in range(r.choice([0, 1, 2, 31, 40]))]


def lent_schedule(r, tasks, chains, gap):
    """A schedule as it is lent to C, with rubbish past its tasks, past the places of each chain and past the chains; sometimes in lists of chains and places that just
    hold it."""
    numbers = [r.choice([any_number(r), tasks[0][0]]) for _ in range(ENTRIES * len(chains) + r.choice([0, 1, 2, 11, 20]))]
    places = [*map(len, chains), *[r.choice([0, 1, 12, 13, any_number(r)]) for _ in range(r.choice([0, 1, 3, 4, 6]))]]
    for c, chain in enumerate(chains):
        numbers[ENTRIES * c:ENTRIES * c + len(chain)] = chain
    if chains and r.random() < 0.3:
        del numbers[ENTRIES * (len(chains) - 1) + len(chains[-1]):], places[len(chains):]
    return Schedule(flat(tasks + past_tasks(r, tasks)), len(tasks), numbers, places, len(chains), gap)


def replaced(numbers, at, value):
    """The list with another number there."""
    return [*numbers[:at], value, *numbers[at + 1:]]


def faulty_values(field, before):
    """Values of a task that are refused in that field, `before` being the number of the task before; also such as would pass with fewer bits."""
    low, high = LIMITS[field]
    faulty = [high + 1, high + 2, 2**16 + high, 2**32, 2**32 + low, 2**32 + high, 2**63 + high, 2**64 - 1]
    if field == 0:
        # The next number with further bits, and every way of not being above the number before.
        return within([*faulty, 2**16 + before + 1, 2**32 + before + 1, 0, before, before - 1, min(1, before)])
    return within([*faulty, low - 1])


def faulty_tasks(tasks):
    """Each field of each task at each refused value."""
    for i in range(len(tasks)):
        for field in LIMITS:
            for value in faulty_values(field, tasks[i - 1][0] if i else 0):
                yield with_value(tasks, i, field, value)


def faulty_chain(r, tasks, chain, past):
    """Each place with each kind of number that no counted task has, the place with it; `past` are numbers of tasks that stand past the count."""
    numbers = {task[0] for task in tasks}
    for i in range(len(chain)):
        for number in {0, chain[i] + 2**16, chain[i] + 2**32, chain[i] + 2**63, MOST_NUMBER + 1, LARGEST, unknown(r, tasks), *past} - numbers:
            yield i, number


# Counts that pass with fewer bits.
MANY = [2**16, 2**32, 2**63]


def several_faults(r):
    """A lent schedule with several faults, or none: in its tasks, in its gap, in its chains, in its counts, in the lengths of its lists."""
    tasks, chains = any_schedule(r)
    known = chains[0][0]
    for _ in range(r.choice([0, 0, 1, 2, 3])):
        i, field = r.randrange(len(tasks)), r.choice(list(LIMITS))
        tasks = with_value(tasks, i, field, r.choice(faulty_values(field, tasks[i - 1][0] if i else 0)))
    for _ in range(r.choice([0, 0, 1, 2])):
        chain = r.choice(chains)
        chain[r.randrange(len(chain))] = r.choice([0, MOST_NUMBER, any_number(r), 2**32 + known])
    lent = lent_schedule(r, tasks, chains, r.choice(FAULTY_GAPS) if r.random() < 0.2 else file_gap(r))
    if r.random() < 0.1:
        lent = dataclasses.replace(lent, count=r.choice([0, 33, LARGEST, r.choice(MANY) + lent.count]))
    if r.random() < 0.1:
        lent = dataclasses.replace(lent, chain_count=r.choice([0, 5, 6, LARGEST, r.choice(MANY) + lent.chain_count]))
    if r.random() < 0.15:
        c = r.randrange(len(chains))
        lent = dataclasses.replace(lent, places=replaced(lent.places, c, r.choice([0, 13, LARGEST, r.choice(MANY) + lent.places[c]])))
    if r.random() < 0.1:
        # Shorter lists, with the rest in memory past them.
        lent = dataclasses.replace(lent, lengths=tuple(r.choice([None, r.randint(0, len(numbers))]) for numbers in (lent.tasks, lent.chains, lent.places)))
    return lent


# Two chains side by side.

def divisors(n):
    return [d for d in range(1, n + 1) if n % d == 0]


def small_pair_chain(r, common):
    """A chain whose hyperperiod divides that number: durations above the periods too, and phases."""
    return [(r.choice(divisors(common)), r.choice([1, r.randint(1, 12), r.randint(1, 90)]), r.choice([0, r.randint(0, 12), r.randint(0, 150)])) for _ in range(r.choice([1, 1, 2, 2, 3, 4, 12]))]


def wide_pair_chain(r):
    """A chain of long periods, durations up to four seconds and phases up to one."""
    return [(r.choice(HARMONIC[12:]), r.choice([1, r.randint(1, 4000000), r.randint(1, 1000), 4000000]), r.choice([0, r.randint(0, 1000000), r.randint(0, 1000), 1000000])) for _ in range(r.choice([1, 1, 2, 3, 5, 12]))]


# Periods of two chains whose common hyperperiod is the limit of 60,000,000, below it and above; each chain alone is accepted.
COMMON = [((768,), (78125,)), ((151,), (397351,)), ((78125, 768), (1000000,)), ((768,), (1000000, 78125)), ((1000000,), (59,)), ((1000000,), (60,)), ((7500, 960000), (1000000,)), ((999983,), (60,)), ((769,), (78125,)), ((999983,), (61,)), ((7745,), (7747,)), ((78125, 768), (7,)), ((1000000,), (61, 60)), ((1000000,), (999999,)), ((999983, 60), (999983,))]


def common_pair(r, periods):
    """Two chains of these periods, in either order."""
    both = [[(t, r.choice([1, r.randint(1, 4000000)]), r.choice([0, r.randint(0, 1000000)])) for t in some] for some in periods]
    r.shuffle(both)
    return both


def pair_ticks(r, warm, common, count):
    """Ticks around the warm-up ticks, one common hyperperiod later and the upper tick, and anywhere."""
    middles = [*warm, max(warm) + common, UPPER]
    some = [middle + step for middle in middles for step in (-1, 0, 1)]
    some = within([*some, 0, LARGEST, 2**63, r.randint(0, max(warm) + common), r.randint(0, UPPER), r.randint(max(warm), UPPER)])
    return r.sample(some, min(count, len(some)))


# A phase that keeps a bound.

# The longest period of a task whose phases are searched, and the longest phase that a task has.
MOST_SEARCHED, MOST_PHASE = 10000, 1000000
# Periods of the tasks of a schedule: small ones, such as divide one another, have no common divisor, have one, have several; and short ones beside long ones, whose hyperperiods reach 60,000,000
# with few jobs of the longest.
PHASE_PERIODS = [range(1, 10), (1, 2, 4, 8, 16), (2, 3, 5, 7, 11), (4, 6, 9, 10, 12, 15, 20), (6, 10, 15, 30), (3, 8, 12, 20, 60, 250000, 500000, 937500, 1000000, 999983)]


def phase_task(r, periods):
    """A task of one of these periods: durations and phases below it, above it and at their limits."""
    t = r.choice(periods)
    return (t, r.choice([1, t, r.randint(1, t), r.randint(1, 40), r.randint(1, 40), r.randint(1, 4000000), 4000000]), r.choice([0, r.randint(0, t - 1), r.randint(0, 60), r.randint(0, MOST_PHASE), MOST_PHASE]))


def late_chain(r, gap):
    """Twelve places, one of a short period, that are warm as late as they can be: the last has the longest period, and most of the others read just before a value becomes readable. After the
    short one it becomes readable in time with some of its phases."""
    short, period, tick, tasks = r.randrange(MOST_PLACES - 1), r.choice([2, 4, 5, 12]), MOST_PHASE - r.randint(0, 1000), []
    for i in range(MOST_PLACES):
        t = period if i == short else 937500 if i < MOST_PLACES - 1 else 1000000
        if i > 0:
            tick += 4000000 + gap + (r.randrange(period) if i == short + 1 else -r.choice([1, 1, 1, r.randint(0, 1000)]))
        tasks.append((t, 4000000, r.randrange(t) if i == MOST_PLACES - 1 else tick % t if i > 0 else tick))
    return tasks


def long_walk_chain(r):
    """Three places, one of a short period that shares a divisor with the others, whose walk has a hundred partitions or more."""
    return [phase_task(r, [t]) for t in r.sample([r.choice([4, 6]), 194, 278], 3)]


def phase_work(chain):
    """What the phases of a chain's tasks cost the reference: the partitions of all of them, times the places."""
    periods = [t for t, _, _ in chain]
    h = math.lcm(*periods)
    # Of a chain that is refused nothing is walked.
    return h // max(periods) * max([t for t in periods if t <= MOST_SEARCHED], default=0) * len(chain) if h <= MOST_HYPER else 0


def phase_schedule(r, work):
    """Tasks, some of them alike but for their number, and one to four chains of them, each of which costs the reference at most so much; and a gap."""
    while True:
        periods = r.choice(PHASE_PERIODS)
        kinds = [phase_task(r, periods) for _ in range(r.choice([1, 2, 2, 3, 3, 4]))]
        kinds += [r.choice(kinds)] if r.random() < 0.3 else []
        tasks = [(number, *task) for number, task in zip(rising(r, len(kinds)), kinds)]
        chosen = [[r.choice(tasks) for _ in range(r.choice([1, 2, 2, 3, 3, 4, 5, 12]))] for _ in range(r.randint(1, MOST_CHAINS))]
        timed = [[task[1:] for task in chain] for chain in chosen]
        if max(map(phase_work, timed)) <= work:
            return tasks, [[task[0] for task in chain] for chain in chosen], some_gap(r, *timed)


def phase_bounds(r, latencies, most):
    """Bounds at and around the latencies of a chain with each phase, and at the ends of 64 bits; `most` of the former. One would be none with fewer bits."""
    some = within([latency + step for latency in latencies for step in (-1, 0, 1)])
    least, greatest = min(latencies), max(latencies)
    return [0, least - 1, least, greatest - 1, greatest, r.choice([2**32, 2**63]) + least - 1, r.choice([2**32 - 1, 2**63, LARGEST - 1]), LARGEST, *r.sample(some, min(most, len(some)))]


# Test loads. A draw sets the state so much further, modulo 2^64, so that each can be had by itself.

DRAW_STEP = 0x9E3779B97F4A7C15
# The first and the last number that pick each period.
LOAD_ENDS = {0: 2500, 1: 5000, 10: 5000, 11: 10000, 43: 10000, 44: 20000, 58: 20000, 59: 40000, 81: 40000, 82: 80000, 96: 80000}
# Numbers of places that no load has; some would be one to a call that kept fewer bits.
NO_PLACES = [0, 13, 14, 2**8 + 1, 2**16 + 12, 2**32, 2**32 + 1, 2**32 + 12, 2**63, 2**63 + 3, LARGEST - 11, LARGEST]


def drawn(seed, n):
    """Draw n of a seed, counted from 1."""
    s = (seed + n * DRAW_STEP) % 2**64
    return s ^ s >> 31


def seed_of(n, number):
    """The seed whose draw n is this number: the upper 31 bits of the state are the number's own, and undo the others from above."""
    return ((number ^ number >> 31 ^ number >> 62) - n * DRAW_STEP) % 2**64


def with_rest_by(r, divisor, rest):
    """A number of 64 bits with this rest, of any size."""
    return rest + divisor * (r.randint(0, (LARGEST - rest) // divisor) >> r.choice([0, 0, 0, 30, 60]))


def seed_of_number(r, place, number):
    """A seed whose first draw at this place has this rest by 97."""
    return seed_of(2 * place - 1, with_rest_by(r, 97, number))


def seed_of_phase(r, place, period, phase):
    """A seed that has this period and phase at this place: of the second draws with this phase one has the period before it."""
    numbers = [number for number, t in LOAD_ENDS.items() if t == period]
    while True:
        seed = seed_of(2 * place, with_rest_by(r, period, phase))
        if min(numbers) <= drawn(seed, 2 * place - 1) % 97 <= max(numbers):
            return seed


def edge_seeds():
    """Seeds at the ends of 64 bits and around each power of two; and such as bring the state, at some draw, to the ends of 64 bits or of the shift."""
    states = [0, 1, 2**31 - 1, 2**31, 2**32, 2**62, 2**63, LARGEST]
    return within([power + step for power in [0, *(2**i for i in range(65))] for step in (-1, 0, 1)] + [(state - n * DRAW_STEP) % 2**64 for state in states for n in range(25)])


def any_seed(r):
    return r.choice([r.randint(0, LARGEST), r.randint(0, LARGEST), r.randint(0, 10**6), r.randint(LARGEST - 10**6, LARGEST)])
