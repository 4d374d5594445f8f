"""The instrument's state against the reference's model of order 10: random lists of asks and commits from a made state, and what the header promises over them.

    python3 tests/instrument.py [--count FACTOR] [--seed SEED]

After each call the refusal, every latency and every byte of the state are compared, entries past the counts included. The groups run side by side, one for each processor. Each group prints its
number of comparisons, and how often each kind of answer or input was met; the last line is 'N passed, M failed', in groups. A disagreement is printed with its input.
"""
import argparse
import concurrent.futures
import dataclasses
import faulthandler
import functools
import itertools
import multiprocessing
import os
import random
import struct
import sys
import time
import traceback

HERE = os.path.dirname(os.path.abspath(__file__))
sys.path[:0] = [HERE, os.path.join(os.path.dirname(HERE), "reference")]
import inputs
import meshorchard_reference as reference
import proved
from differential import OF_GAP, Comparison, cut_short, just_held
from inputs import LARGEST

GROUPS = []
# A schedule with bounds is 187 numbers here, in the order of the struct: 32 tasks; 4 routes, which are the task numbers of a chain and how many places it has; the count of tasks; that of chains;
# the gap; 4 bounds.
ROUTES, COUNT, CHAINS, GAP, BOUNDS, NUMBERS = 128, 180, 181, 182, 183, 187
SIZE = 8 * NUMBERS
# Whether a proposal stands, as the last bytes of a state say.
NO, YES = struct.pack("<Q", 0), struct.pack("<Q", 1)


def group(function):
    GROUPS.append(function)
    return function


# ---- the struct, and the reference's form of it

def route(c):
    """Where the places of chain c stand, c from 0. Their count is 12 further."""
    return ROUTES + 13 * c


def parts(numbers):
    """The arguments of the reference: whole arrays and their counts."""
    tasks = [tuple(numbers[4 * i:4 * i + 4]) for i in range(32)]
    chains = [(numbers[route(c) + 12], numbers[route(c):route(c) + 12]) for c in range(4)]
    return numbers[COUNT], tasks, numbers[CHAINS], chains, numbers[GAP], numbers[BOUNDS:]


def whole(named):
    """The struct of what counts, with 0 past the counts."""
    count, tasks, chain_count, chains, gap, bounds = named
    numbers = [0] * NUMBERS
    numbers[:4 * len(tasks)] = inputs.flat(tasks)
    for c, (places, row) in enumerate(chains):
        numbers[route(c):route(c) + len(row)] = row
        numbers[route(c) + 12] = places
    numbers[COUNT:BOUNDS] = count, chain_count, gap
    numbers[BOUNDS:BOUNDS + len(bounds)] = bounds
    return numbers


def packed(numbers):
    return struct.pack(f"<{len(numbers)}Q", *numbers)


def unpacked(data):
    return list(struct.unpack(f"<{len(data) // 8}Q", data))


def stored(model):
    """Every byte of a state of the reference."""
    running, proposal = model
    return packed(whole(running)) + (bytes(SIZE) + NO if proposal is None else packed(whole(proposal)) + YES)


def counted(numbers):
    """Which of the numbers are part of the schedule and its bounds. A count above its array counts all of it."""
    chains = range(min(numbers[CHAINS], 4))
    places = [at for c in chains for at in (*range(route(c), route(c) + min(numbers[route(c) + 12], 12)), route(c) + 12)]
    return [*range(4 * min(numbers[COUNT], 32)), *places, COUNT, CHAINS, GAP, *(BOUNDS + c for c in chains)]


def plain(numbers):
    """The same schedule and bounds, with 0 past the counts."""
    other = [0] * NUMBERS
    for at in counted(numbers):
        other[at] = numbers[at]
    return other


def kind(at):
    """What stands there."""
    if at < ROUTES:
        return "a task's value" if at % 4 else "a number"
    if at < COUNT:
        return "a place" if (at - ROUTES) % 13 < 12 else "a count of places"
    return {COUNT: "the count of tasks", CHAINS: "the count of chains", GAP: "the gap"}.get(at, "a bound")


KINDS = tuple(dict.fromkeys(map(kind, range(NUMBERS))))


# ---- random schedules with bounds

# The chains of these periods have few partitions, so that the reference is quick.
PERIODS = [(1,), (1, 2, 4), (2, 3, 6), (3, 4, 5), (4, 6, 12), (5, 10, 15), (1000, 1500, 3000), (250000, 500000, 1000000)]


def some_task(r, t):
    return t, r.choice([1, t, r.randint(1, 2 * t), r.randint(1, 20), 4000000]), r.choice([0, r.randint(0, t), r.randint(0, 30), 1000000])


def some_schedule(r):
    """A schedule without bounds. Some have a hyperperiod at its limit of 60,000,000 or above it; some are full."""
    gap, draw = r.choice([0, 0, 1, 1, 1000, r.randint(0, 1000)]), r.random()
    if draw < 0.25:
        chains = [inputs.near_limit(r)[:4] if r.random() < 0.2 else inputs.cut_chain(r)[:7] for _ in range(r.randint(1, 4))]
        tasks, chains = inputs.numbered(r, chains)
    else:
        full, periods = draw > 0.95, r.choice(PERIODS)
        tasks = [(number, *some_task(r, r.choice(periods))) for number in inputs.rising(r, 32 if full else r.choice([1, 2, 2, 3, 3, 4, 5, 32]))]
        chains = [[r.choice(tasks)[0] for _ in range(12 if full else r.choice([1, 1, 2, 2, 3, 4, 12]))] for _ in range(4 if full else r.randint(1, 4))]
    return whole((len(tasks), tasks, len(chains), [(len(chain), chain) for chain in chains], gap, ()))


@functools.lru_cache(maxsize=1000)
def walked(schedule):
    return reference.latencies_within_bounds((*schedule, [LARGEST] * 4))


def latencies_of(numbers):
    """The greatest latency of each chain whatever the bounds are, None where the schedule is refused."""
    answer = walked(reference.named(parts(numbers))[:5])
    return answer[1] if answer[0] == "ok" else None


def shape(r, draw=some_schedule):
    """A schedule that is accepted, and the greatest latency of each chain."""
    while True:
        numbers = draw(r)
        latencies = latencies_of(numbers)
        if latencies is not None:
            return numbers, latencies


def near(r, numbers):
    """The schedule with another phase, duration, gap or place; the same where that is refused."""
    other = list(numbers)
    i, c = r.randrange(numbers[COUNT]), r.randrange(numbers[CHAINS])
    at, value = r.choice([(4 * i + 3, r.randint(0, 30)), (4 * i + 2, r.randint(1, 30)), (GAP, r.choice([0, 1, 1000])), (route(c), numbers[4 * i])])
    other[at] = value
    return other if latencies_of(other) else numbers


def some_shapes(r):
    """The schedules of one list of calls: few, and some that differ in little, so that commits often name a proposal or nearly."""
    one = shape(r)
    other = near(r, one[0])
    return [one, one, (other, latencies_of(other)), shape(r)]


def redrawn(r, numbers):
    """The same schedule and bounds, with other numbers past the counts: zeros, small ones, such as stand elsewhere in it, any."""
    draw = r.random()
    other = [0] * NUMBERS if draw < 0.15 else r.choices([0, 1, 4, 12, 13, LARGEST, *numbers], k=NUMBERS) if draw < 0.5 else unpacked(r.randbytes(SIZE))
    for at in counted(numbers):
        other[at] = numbers[at]
    return other


def with_bounds(r, numbers, latencies, low):
    """Bounds at the latencies and above; with `low` one of them is below its latency."""
    other = list(numbers)
    for c, latency in enumerate(latencies):
        other[BOUNDS + c] = r.choice([latency, latency, latency + 1, latency + r.randint(0, 9), 2**32, 2**63, LARGEST])
    if low:
        c = r.randrange(len(latencies))
        other[BOUNDS + c] = r.choice([latencies[c] - 1, latencies[c] - 1, 0, r.randrange(latencies[c])])
    return other


# Faults of a schedule, one for each refusal: from a generator to the numbers, which they change. Another fault may have changed the counts before.

def chain_in(r, numbers):
    """Where one of the chains stands."""
    return route(r.randrange(min(4, numbers[CHAINS]) or 1))


def count_outside(r, numbers):
    """A count outside its limits: 8. Some would pass with fewer bits."""
    at = r.choice([COUNT, CHAINS, chain_in(r, numbers) + 12])
    numbers[at] = r.choice([0, {COUNT: 33, CHAINS: 5}.get(at, 13), 40, 2**32 + 1, 2**63 + 2, LARGEST])


def faulty_task(r, numbers):
    """A number, period, duration or phase outside its limits: 5."""
    at, field = 4 * r.randrange(min(32, numbers[COUNT]) or 1), r.choice(list(inputs.LIMITS))
    numbers[at + field] = r.choice(inputs.faulty_values(field, numbers[at - 4] if at else 0))


def faulty_gap(r, numbers):
    """5 at place 0."""
    numbers[GAP] = r.choice(inputs.FAULTY_GAPS)


def unknown_task(r, numbers):
    """A place with a number that no counted task has: 6. The next task past the count has it."""
    past, at = 4 * min(32, numbers[COUNT]), chain_in(r, numbers)
    some = inputs.within([0, r.randint(1, 65535), numbers[0] + 1, numbers[0] + 2**16, numbers[0] + 2**32, LARGEST])
    number = r.choice([number for number in some if number not in numbers[:past:4]])
    numbers[at + r.randrange(min(12, numbers[at + 12]) or 1)] = number
    if past < ROUTES:
        numbers[past:past + 4] = number, 1, 1, 0


def too_long(r, numbers):
    """Two tasks in one of the chains whose hyperperiod is above the limit: 7."""
    if numbers[COUNT] == 1:
        numbers[4:8], numbers[COUNT] = (min(numbers[0] + 1, 65535), 1, 1, 0), 2
    at = chain_in(r, numbers)
    numbers[at + 12] = max(2, numbers[at + 12])
    tasks, places = r.sample(range(min(32, numbers[COUNT]) or 2), 2), r.sample(range(min(12, numbers[at + 12])), 2)
    for task, place, period in zip(tasks, places, r.choice([(999983, 61), (1000000, 999999), (7745, 7747)])):
        numbers[4 * task + 1], numbers[at + place] = period, numbers[4 * task]


FAULTS = [count_outside, faulty_task, faulty_gap, unknown_task, too_long]


def asked_for(r, shapes):
    """A schedule with bounds for an ask or a making: mostly one of these shapes, with bounds that it meets; a tenth has a bound too low, a tenth has faults, a few have both."""
    draw, (numbers, latencies) = r.random(), r.choice(shapes)
    numbers = redrawn(r, with_bounds(r, numbers, latencies, draw < 0.12))
    for fault in r.choices(FAULTS, k=r.choice([1, 1, 1, 1, 2, 3]) if 0.1 < draw < 0.22 else 0):
        fault(r, numbers)
    return numbers


def changed(r, numbers, at):
    """Another number there: the next, one with a bit changed, an end of 64 bits, or one that stands elsewhere."""
    value = numbers[at]
    some = [value + 1, value - 1, value ^ 1 << r.randrange(64), 0, LARGEST, r.choice(numbers)]
    return inputs.replaced(numbers, at, r.choice([number for number in inputs.within(some) if number != value]))


def one_changed(r, numbers):
    """Another number in one counted entry, of each kind as often."""
    chosen = r.choice(KINDS)
    return changed(r, numbers, r.choice([at for at in counted(numbers) if kind(at) == chosen] or [GAP]))


def past_changed(r, numbers):
    """Another number in one entry past a count, where there is one."""
    past = sorted(set(range(NUMBERS)) - set(counted(numbers)))
    return changed(r, numbers, r.choice(past)) if past else numbers


def two_turned(r, numbers):
    """Two counted entries of one kind changed about: two bounds, two places, two numbers."""
    chosen, other = r.choice(KINDS), list(numbers)
    some = [at for at in counted(numbers) if kind(at) == chosen]
    if len(some) > 1:
        one, two = r.sample(some, 2)
        other[one], other[two] = other[two], other[one]
    return other


def named_again(r, asked, running, shapes):
    """A schedule with bounds for a commit: mostly one of the last three asked for, as it was, with other numbers past the counts, or with one number changed."""
    draw = r.random()
    if draw < 0.06 or not asked:
        return asked_for(r, shapes)
    if draw < 0.1:
        return redrawn(r, running)
    numbers = r.choice([asked[-1], asked[-1], asked[-1], *asked[-3:]])
    if draw < 0.25:
        return past_changed(r, numbers)
    # Where a count is changed, zeros stand past it or others do.
    numbers = r.choice([numbers, plain(numbers), redrawn(r, numbers)])
    return numbers if draw < 0.65 else one_changed(r, numbers) if draw < 0.93 else two_turned(r, numbers)


# ---- comparing

def told(answer):
    """Number and place of an answer of the reference."""
    return (0, 0) if answer[0] == "ok" else answer[1:]


def four(latencies):
    """The latencies of an ask, with 0 past the chains."""
    return (*latencies, 0, 0, 0, 0)[:4]


def meet(compare, name, answer):
    """Counts an answer of the reference by its call. 5 of the gap counts apart from that of a task."""
    compare.note(f"{name} {OF_GAP if answer == ('refused', 5, 0) else 'ok' if answer[0] == 'ok' else answer[1]}")


def differing(mine, other):
    """Where the bytes of two states differ, and the numbers there; the first few."""
    return [] if mine == other else [(at, *both) for at, both in enumerate(itertools.zip_longest(unpacked(mine), unpacked(other))) if both[0] != both[1]][:4]


def same_bytes(compare, mine, other, *about):
    compare.same(differing(mine, other), [], *about)


def same_answer(compare, mine, other, *about):
    """Number and place of the refusal, every latency, and every byte of the state."""
    compare.same((*mine[:3], differing(mine[3], other[3])), (*other[:3], []), *about)


def met_often(compare, factor, *names):
    """Each of these was met, and not only now and then."""
    compare.same({name: compare.met[name] for name in names if compare.met[name] < max(1, 20 * factor)}, {}, "seldom met")


def compare_making(ours, numbers, compare):
    """One making. The state of both."""
    answer = reference.make_state(parts(numbers))
    meet(compare, "make", answer)
    mine = ours.make_state(numbers)
    model, wanted = (answer[1], stored(answer[1])) if answer[0] == "ok" else (reference.STATE_OF_ZEROS, bytes(2 * SIZE + 8))
    same_answer(compare, mine, (*told(answer), (), wanted), "making", reference.named(parts(numbers)))
    return mine[3], model


def note_call(name, numbers, model, answer, compare):
    """What a call shows of order 10: how it stands to the proposal and to what runs."""
    running, proposal = model
    meet(compare, name, answer)
    if name == "ask":
        if proposal is not None:
            compare.note("in place of a proposal" if answer[0] == "ok" else "refused beside a proposal")
        if reference.named(parts(numbers)) in model:
            compare.note("asked for what runs" if reference.named(parts(numbers)) == running else "asked for the proposal again")
    elif proposal is not None:
        other = whole(proposal)
        differs = [at for at in counted(numbers) if numbers[at] != other[at]]
        if answer[0] == "ok":
            compare.note("committed, zeros past the counts" if numbers == other else "committed, other past a count")
        elif len(differs) == 1:
            compare.note(f"23 by {kind(differs[0])} alone")
        if reference.schedule_fault(*parts(numbers)[:5]):
            compare.note("23 of a faulty one")


def compare_call(ours, name, state, model, numbers, compare):
    """One ask or commit. What is handed back, and the state of the reference."""
    answer, after = getattr(reference, name)(model, parts(numbers))
    note_call(name, numbers, model, answer, compare)
    mine = getattr(ours, name)(state, numbers)
    latencies = four(answer[1] if answer[0] == "ok" else ()) if name == "ask" else ()
    same_answer(compare, mine, (*told(answer), latencies, stored(after)), name, reference.named(parts(numbers)), "from", model)
    return mine, after


def compare_laws(ours, state, named, compare):
    """What the header promises of a state that a list left: what runs is what was named last, it meets its bounds, and it can be asked for again."""
    running = unpacked(state[:SIZE])
    about = reference.named(parts(running))
    same_bytes(compare, state[:SIZE], packed(plain(named)), "what runs", about)
    latencies = latencies_of(running)
    compare.same(latencies is not None and all(latency <= bound for latency, bound in zip(latencies, running[BOUNDS:])), True, "meets its bounds", about)
    same_answer(compare, ours.ask(state, running), (0, 0, four(latencies or ()), state[:SIZE] * 2 + YES), "asking for what runs", about)


def compare_list(ours, r, shapes, length, compare, from_zeros=False):
    """One list of calls from a made state, or from the state of zeros that a refused making hands back; then the list once more with other numbers past the counts."""
    while True:
        first = asked_for(r, shapes)
        made, model = compare_making(ours, first, compare)
        if (model == reference.STATE_OF_ZEROS) == from_zeros:
            break
    state, named, asked, log = made, [0] * NUMBERS if from_zeros else first, [], []
    for _ in range(length):
        name = r.choice(["ask", "commit"])
        if name == "ask":
            numbers = redrawn(r, r.choice([named, *asked[-1:]])) if r.random() < 0.1 else asked_for(r, shapes)
            asked.append(numbers)
        else:
            numbers = named_again(r, asked, named, shapes)
        mine, model = compare_call(ours, name, state, model, numbers, compare)
        log.append((name, numbers, mine))
        # From what was called and answered alone.
        named = numbers if name == "commit" and mine[0] == 0 else named
        state = mine[3]
        if any(named):
            compare_laws(ours, state, named, compare)
    state = ours.make_state(redrawn(r, first))[3]
    same_bytes(compare, state, made, "made with other numbers past the counts", reference.named(parts(first)))
    for name, numbers, before in log:
        mine = getattr(ours, name)(state, redrawn(r, numbers))
        same_answer(compare, mine, before, name, "with other numbers past the counts", reference.named(parts(numbers)))
        state = mine[3]


# ---- groups

REFUSED = (8, 5, OF_GAP, 6, 7, 21)
EVERY = tuple(f"{name} {number}" for name in ("make", "ask") for number in ("ok", *REFUSED)) + ("commit ok", "commit 22", "commit 23")
SHOWN = ("in place of a proposal", "refused beside a proposal", "asked for what runs", "asked for the proposal again", "committed, other past a count", "committed, zeros past the counts",
         "23 of a faulty one", *(f"23 by {each} alone" for each in KINDS))


@group
def lists(ours, r, factor, compare):
    """random lists of about 25 asks and commits from a made state, and the laws over them"""
    for _ in range(int(500 * factor)):
        compare_list(ours, r, some_shapes(r), r.randint(20, 30), compare)
    met_often(compare, factor, *(name for name in EVERY if not name.startswith("make")), *SHOWN)


@group
def lists_from_zeros(ours, r, factor, compare):
    """lists of calls from the state of zeros that a refused making hands back"""
    for _ in range(int(40 * factor)):
        compare_list(ours, r, some_shapes(r), r.randint(5, 30), compare, from_zeros=True)
    compare.must_meet("ask ok", "commit ok", "commit 22", "commit 23")


@group
def long_walks(ours, r, factor, compare):
    """lists of few calls on schedules with longer hyperperiods, up to 30,030 partitions"""
    for i in range(max(3, int(20 * factor))):
        periods = (2, 3, 5, 7, 11, 13, 17)[:7 if i < max(1, 2 * factor) else 5 + i % 2]

        def drawn(r):
            tasks = [(number, *some_task(r, t)) for number, t in zip(inputs.rising(r, len(periods)), periods)]
            order = [task[0] for task in tasks]
            chains = [r.sample(order, len(order)), *(r.choices(order[:4], k=r.randint(1, 12)) for _ in range(r.randrange(4)))]
            r.shuffle(chains)
            return whole((len(tasks), tasks, len(chains), [(len(chain), chain) for chain in chains], r.choice([0, 1, 1000]), ()))

        numbers, latencies = shape(r, drawn)
        compare.note(f"{len(periods)} periods")
        compare_list(ours, r, [(numbers, latencies)], 4 if len(periods) == 7 else 12, compare)
        for low in (0, 1):
            compare_making(ours, [*numbers[:BOUNDS], *four([latency - low for latency in latencies])], compare)
    compare.must_meet("7 periods", "6 periods", "5 periods", "make ok", "make 21", "ask ok")


@group
def makings(ours, r, factor, compare):
    """makings alone: every refusal, several faults at once, hyperperiods at their limit; the state of a refused one is zeros"""
    for _ in range(int(3000 * factor)):
        numbers = some_schedule(r)
        latencies = latencies_of(numbers)
        numbers = redrawn(r, with_bounds(r, numbers, latencies or [r.randint(1, 9)] * numbers[CHAINS], r.random() < 0.3))
        for fault in r.choices(FAULTS, k=r.choice([0, 0, 0, 1, 1, 2, 3])):
            fault(r, numbers)
        compare_making(ours, numbers, compare)
    met_often(compare, factor, *(name for name in EVERY if name.startswith("make")))
    # Hyperperiods at their limit, which pass, and just above it, in each chain; asked for as well.
    for (accepted, *periods), c in itertools.product(((True, 768, 78125), (True, 1000000, 60), (False, 769, 78125), (False, 151, 397351)), range(4)):
        chains = [[(4, 4, 0)], [(6, 6, 0), (4, 4, 0)], [(6, 6, 0)], [(5, 1, 2)]]
        chains[c] = [(t, 1, 0) for t in periods]
        tasks, chains = inputs.numbered(r, chains)
        numbers = whole((len(tasks), tasks, 4, [(len(chain), chain) for chain in chains], 1, [LARGEST] * 4))
        state, model = compare_making(ours, numbers, compare)
        compare.same(model != reference.STATE_OF_ZEROS, accepted, "hyperperiod", periods)
        compare_call(ours, "ask", state, model, numbers, compare)


@group
def selections(ours, r, factor, compare):
    """every selection of the faults 8, 5, 5 of the gap, 6, 7 and 21 at once, in a making, an ask beside a proposal and none, and commits"""
    for _ in range(max(1, int(5 * factor))):
        for chosen in itertools.product((False, True), repeat=6):
            running, asked, (numbers, latencies) = shape(r), shape(r), shape(r)
            numbers = redrawn(r, with_bounds(r, numbers, latencies, chosen[5]))
            for fault in itertools.compress(FAULTS[::-1], chosen):
                fault(r, numbers)
            compare_making(ours, numbers, compare)
            state, model = compare_making(ours, with_bounds(r, *running, False), compare)
            for name, given in (("commit", numbers), ("ask", numbers), ("ask", with_bounds(r, *asked, False)), ("ask", numbers), ("commit", numbers), ("commit", numbers)):
                mine, model = compare_call(ours, name, state, model, given, compare)
                state = mine[3]
    compare.must_meet(*EVERY, "refused beside a proposal", "23 of a faulty one")


@group
def every_number(ours, r, factor, compare):
    """a commit with another number in each of the 187 entries in turn, of full schedules, of the least and of others: 23 where it counts, else accepted"""
    least = whole((1, [(7, 4, 4, 0)], 1, [(1, [7])], 0, ()))
    full = whole((32, [(n, 2, n, 3) for n in range(1, 33)], 4, [(12, range(1 + 6 * c, 13 + 6 * c)) for c in range(4)], 1000, ()))
    shapes = [(full, latencies_of(full)), (least, latencies_of(least)), *(shape(r) for _ in range(int(16 * factor)))]
    for numbers, latencies in shapes:
        numbers = with_bounds(r, numbers, latencies, False)
        state, model = compare_making(ours, with_bounds(r, *r.choice(shapes), False), compare)
        mine, model = compare_call(ours, "ask", state, model, redrawn(r, numbers), compare)
        for at in range(NUMBERS):
            # Another bit, the lowest and the highest among these; any other number, with zeros past the counts and with others.
            others = [inputs.replaced(numbers, at, numbers[at] ^ bit) for bit in (1, 2**63, 2**32, 1 << r.randrange(64))]
            for other in [*others, changed(r, numbers, at), changed(r, redrawn(r, numbers), at)]:
                compare_call(ours, "commit", mine[3], model, other, compare)
                if at not in counted(numbers):
                    compare.note(f"accepted, {kind(at)} past a count")
    compare.must_meet(*(f"23 by {each} alone" for each in KINDS), *(f"accepted, {each} past a count" for each in KINDS if each.startswith("a ")))


# ---- states that no list leaves

def after_ask(state, numbers):
    """What an ask hands back from any bytes of a state, by the header: its answer does not hang on them, and a refusal leaves them."""
    answer = reference.latencies_within_bounds(parts(numbers))
    if answer[0] != "ok":
        return *told(answer), four(()), state
    return 0, 0, four(answer[1]), state[:SIZE] + packed(plain(numbers)) + YES


def after_commit(state, numbers):
    """The same of a commit: only the bytes of the proposal as they stand, and whether it stands, make a difference."""
    proposal, stands = state[SIZE:2 * SIZE], state[2 * SIZE:]
    if stands == NO:
        return 22, 0, (), state
    if packed(plain(numbers)) != proposal:
        return 23, 0, (), state
    return 0, 0, (), proposal + bytes(SIZE) + NO


def damaged(r, state):
    """The bytes of a state with one of them changed, or with a whole number: anywhere, or where the proposal says how much of it counts and whether it stands."""
    data, words = bytearray(state), len(state) // 8
    telling = [NUMBERS + at for at in (COUNT, CHAINS, GAP, *(route(c) + 12 for c in range(4)))] + [2 * NUMBERS]
    at = r.choice([r.randrange(words), r.randrange(NUMBERS, words), r.choice(telling)])
    if r.random() < 0.5:
        data[8 * at + r.randrange(8)] ^= r.randint(1, 255)
    else:
        data[8 * at:8 * at + 8] = struct.pack("<Q", r.choice([0, 1, 1, LARGEST]))
    return bytes(data)


@group
def damaged_states(ours, r, factor, compare):
    """states with a byte or a number changed anywhere, and random bytes: calls return, and answer what the header says of any state"""
    for i in range(int(1500 * factor)):
        shapes = some_shapes(r)
        running, proposal = (with_bounds(r, *r.choice(shapes), False) for _ in range(2))
        sound = packed(running) + (packed(proposal) + YES if r.random() < 0.8 else bytes(SIZE) + NO)
        state = r.randbytes(len(sound)) if i % 20 == 0 else damaged(r, damaged(r, sound) if i % 4 == 0 else sound)
        held, damage = unpacked(state[SIZE:2 * SIZE]), differing(state, sound)
        for numbers in (asked_for(r, shapes), unpacked(state[:SIZE])):
            wanted = after_ask(state, numbers)
            same_answer(compare, ours.ask(state, numbers), wanted, "ask", reference.named(parts(numbers)), damage)
            compare.note("ask refused" if wanted[0] else "ask ok")
        for numbers in (held, redrawn(r, held), proposal, redrawn(r, proposal), one_changed(r, held), named_again(r, [proposal], running, shapes)):
            wanted = after_commit(state, numbers)
            same_answer(compare, ours.commit(state, numbers), wanted, "commit", reference.named(parts(numbers)), damage)
            compare.note(f"commit {wanted[0] or 'ok'}")
            if wanted[0] == 23 and plain(numbers) == plain(held):
                compare.note("23 by what stands past a count in the state")
            if wanted[0] == 0 and latencies_of(held) is None:
                compare.note("a faulty one made to run")
            if wanted[0] == 0 and state[2 * SIZE:] != YES:
                compare.note("committed where stands is above 1")
        # An ask from any state leaves a proposal that can be committed.
        mine = ours.commit(ours.ask(state, proposal)[3], redrawn(r, proposal))
        same_answer(compare, mine, (0, 0, (), packed(proposal) + bytes(SIZE) + NO), "asked and committed", damage)
    met_often(compare, factor, "ask ok", "ask refused", "commit ok", "commit 22", "commit 23", "23 by what stands past a count in the state", "a faulty one made to run",
              "committed where stands is above 1")


# ---- from lists to a schedule with bounds

def listed(schedule, bounds):
    """The schedule with bounds of lent lists, from the header's words: where a list does not hold what is counted, that count becomes 0; entries past a count are those of the lists, 0 past
    their ends."""
    tasks, chains, places = (list(numbers[:length]) for numbers, length in zip((schedule.tasks, schedule.chains, schedule.places), schedule.lengths))
    numbers = [0] * NUMBERS
    # Of a task that the end of the list cuts the header says nothing; it is 0.
    held = tasks[:len(tasks) // 4 * 4][:ROUTES]
    numbers[:len(held)] = held
    for c in range(4):
        row = chains[12 * c:12 * c + 12]
        numbers[route(c):route(c) + len(row)] = row
        numbers[route(c) + 12] = places[c] if c < len(places) and 12 * c + places[c] <= len(chains) else 0
    numbers[COUNT] = schedule.count if len(tasks) % 4 == 0 and 4 * schedule.count <= len(tasks) else 0
    numbers[CHAINS] = schedule.chain_count if schedule.chain_count <= len(places) else 0
    numbers[GAP:] = schedule.gap, *bounds
    return numbers


def other_counts(r, schedule):
    """The schedule in longer lists, which hold more than the arrays do, with counts that they hold or not; some would be held by a call that kept fewer bits of a count or of four times it."""
    long = dataclasses.replace(schedule, tasks=inputs.flat((schedule.task_list() * 40)[:40]), chains=(schedule.chains * 80)[:80], places=[*schedule.places[:schedule.chain_count], 1, 1, 1, 1])
    c = r.randrange(schedule.chain_count)
    for count in (0, 33, 40, 41, *(many + schedule.count for many in (2**32, 2**62, 2**63)), LARGEST):
        yield dataclasses.replace(long, count=count)
    for count in (0, 5, 6, len(long.places), len(long.places) + 1, 2**32 + 1, 2**63 + 1, LARGEST):
        yield dataclasses.replace(long, chain_count=count)
    for count in (0, 12, 13, 80 - 12 * c, 81 - 12 * c, 2**32 + 1, 2**64 - 12 * c - 1, 2**64 - 12 * c + 1, LARGEST):
        yield dataclasses.replace(long, places=inputs.replaced(long.places, c, min(count, LARGEST)))


def compare_listed(ours, r, schedule, compare):
    """One schedule from lists, which is that of the header's words. Nothing past the lists is looked at."""
    bounds = [inputs.any_number(r) for _ in range(4)]
    mine, wanted = ours.bounded_schedule(schedule, bounds), listed(schedule, bounds)
    same_bytes(compare, packed(mine), packed(wanted), "from lists", schedule, bounds)
    for name, at, given in (("tasks", COUNT, schedule.count), ("chains", CHAINS, schedule.chain_count)):
        compare.note(f"{name} {'held' if wanted[at] == given else 'not held'}")
    if wanted[CHAINS]:
        short = [c for c, count in enumerate(schedule.places[:min(4, wanted[CHAINS])]) if wanted[route(c) + 12] != count]
        compare.note("places not held" if short else "places held")
    if wanted[COUNT] > 32 or wanted[CHAINS] > 4 or any(wanted[route(c) + 12] > 12 for c in range(min(4, wanted[CHAINS]))):
        compare.note("held, but above the limits")
    if any(length is not None for length in schedule.lengths):
        other = [[*numbers[:length], *(inputs.any_number(r) for _ in numbers[length:])] if length is not None else numbers
                 for numbers, length in zip((schedule.tasks, schedule.chains, schedule.places), schedule.lengths)]
        compare.same(ours.bounded_schedule(dataclasses.replace(schedule, tasks=other[0], chains=other[1], places=other[2]), bounds), mine, "memory past the lists", schedule)
    # What is refused is refused as the lists would be.
    fault = reference.schedule_fault(*parts(wanted)[:5])
    if fault:
        compare.same(ours.make_state(mine)[:2], told(fault), "made from lists", schedule)
        meet(compare, "make", fault)
    return mine


@group
def from_lists(ours, r, factor, compare):
    """schedules with bounds from lists: any, with several faults, lists that just hold what is counted, and such as do not"""
    for _ in range(int(60 * factor)):
        schedule = inputs.lent_schedule(r, *inputs.any_schedule(r), inputs.file_gap(r))
        for each in itertools.chain([schedule], cut_short(r, schedule), just_held(r, schedule), other_counts(r, schedule)):
            compare_listed(ours, r, each, compare)
    for _ in range(int(1500 * factor)):
        compare_listed(ours, r, inputs.several_faults(r), compare)
    compare.must_meet(*(f"{name} {held}" for name in ("tasks", "chains", "places") for held in ("held", "not held")), "held, but above the limits", *(f"make {number}" for number in REFUSED[:4]))
    # From the lists of a file to what runs.
    for _ in range(int(200 * factor)):
        numbers, latencies = shape(r)
        _, tasks, _, chains, gap, _ = reference.named(parts(numbers))
        file = proved.read_as_lent(inputs.joined(inputs.records(tasks, [row for _, row in chains], gap)))[1]
        bounds = with_bounds(r, numbers, latencies, False)[BOUNDS:]
        mine = ours.bounded_schedule(file, bounds)
        same_bytes(compare, packed(mine), packed([*numbers[:BOUNDS], *bounds]), "from a file", numbers)
        compare_making(ours, mine, compare)
    compare.must_meet("make ok")


def outcome(at, seed, count):
    """What one group found: comparisons, disagreements, the first few of them, the answers met, and its time. It runs in a process of its own, which ends where a call does not return."""
    faulthandler.enable()
    faulthandler.dump_traceback_later(600 * max(1, count), exit=True)
    run, compare, began = GROUPS[at], Comparison(), time.time()
    try:
        run(proved, random.Random(f"{seed} {run.__name__}"), count, compare)
    except Exception:
        compare.wrong.insert(0, (("the group ended",), traceback.format_exc(), ""))
    faulthandler.cancel_dump_traceback_later()
    return compare.made, len(compare.wrong), [tuple(str(each)[:1500] for each in wrong) for wrong in compare.wrong[:5]], compare.met, time.time() - began


def main():
    parser = argparse.ArgumentParser()
    parser.add_argument("--count", type=float, default=1.0, help="how much longer than usual")
    parser.add_argument("--seed", type=int, default=20261118)
    chosen = parser.parse_args()
    proved.build()
    print(f"the instrument's state against the reference, seed {chosen.seed}, count {chosen.count}", flush=True)
    passed = failed = 0
    # Where a call ends its process, this pool tells.
    with concurrent.futures.ProcessPoolExecutor(mp_context=multiprocessing.get_context("fork")) as pool:
        jobs = [pool.submit(outcome, at, chosen.seed, chosen.count) for at in range(len(GROUPS))]
        for run, job in zip(GROUPS, jobs):
            try:
                made, wrong, first, met, took = job.result()
            except concurrent.futures.process.BrokenProcessPool:
                made, wrong, first, met, took = 0, 1, [("its process, or one beside it", "has ended", "")], {}, 0
            print(f"{run.__doc__.strip()}: {made} comparisons, {wrong} disagree ({took:.1f} s)")
            if met:
                print("  met: " + ", ".join(f"{answer} {times}" for answer, times in sorted(met.items(), key=str)))
            for about, mine, other in first:
                print(f"  {about}: the program says {mine}, the reference {other}")
            # A group that compares nothing shows nothing.
            passed, failed = (passed + 1, failed) if wrong == 0 and made > 0 else (passed, failed + 1)
    print(f"{passed} passed, {failed} failed")
    sys.exit(0 if failed == 0 else 1)


if __name__ == "__main__":
    main()
