"""The proved calls, by the host package, in the form in which the reference answers: ("ok", ..), or ("refused", number, place).

Beside the answers stands what only a test looks at: whether lists and bytes that a call may only read are as they were, and whether a call wrote past what was lent to it.
"""
import dataclasses
import os
import subprocess
import sys
from array import array

TOP = os.path.dirname(os.path.dirname(os.path.abspath(__file__)))
sys.path.insert(0, os.path.join(TOP, "host"))
from meshorchard import Bounded, Broken, Chain, Refused, Schedule, State, Table, calls, library
from meshorchard.lent import LARGEST, ROW

# What lies in memory past lent bytes: a call must not write there.
FENCE = bytes(range(0xA0, 0xB0))


def build():
    """The shared object that the package loads."""
    subprocess.run([os.path.join(TOP, "host", "library")], check=True)


def answered(call, *arguments):
    """What a call answers. Making gives its figures in a refusal too."""
    try:
        found = call(*arguments)
    except Refused as refused:
        return ("refused", refused.number, refused.place, *(() if refused.made is None else dataclasses.astuple(refused.made)))
    except Broken as broken:
        return ("broken", str(broken))
    as_it_is = not dataclasses.is_dataclass(found) or isinstance(found, (Chain, Schedule))
    return ("ok", *((found,) if as_it_is else dataclasses.astuple(found)))


# The calls on a lent chain: a flat list, the number of places and the gap.

def check(flat, places, gap):
    return answered(calls.check, Chain(flat, places, gap))


def delay(flat, places, gap, t):
    return answered(calls.delay, Chain(flat, places, gap), t)


def age(flat, places, gap, z):
    return answered(calls.age, Chain(flat, places, gap), z)


def windows(flat, places, gap, b, k):
    return answered(calls.windows, Chain(flat, places, gap), b, k)


def sections(flat, places, gap, cuts):
    """The sections' latencies and the sum. The cuts must stay as they were."""
    lent_cuts = array("Q", cuts)
    answer = answered(calls.sections, Chain(flat, places, gap), lent_cuts)
    if lent_cuts != array("Q", cuts):
        return ("changed", answer)
    return ("ok", list(answer[1]), answer[2]) if answer[0] == "ok" else answer


def warm_up(flat, places, gap):
    answer = answered(calls.warm_up, Chain(flat, places, gap))
    return ("ok", list(answer[1]), *answer[2:]) if answer[0] == "ok" else answer


def make(flat, places, gap, p, starts, latencies):
    """Making, and what the two lists hold after it."""
    first, second = array("Q", starts), array("Q", latencies)
    return answered(calls.make_table, Chain(flat, places, gap), p, first, second), list(first), list(second)


def load(seed, places):
    """A test load as a list of (T, D, F), and its gap."""
    answer = answered(calls.load, seed, places)
    if answer[0] != "ok":
        return answer
    chain = answer[1]
    tasks = [chain.task(place) for place in range(1, chain.places + 1)]
    return ("ok", tasks, chain.gap) if len(chain.tasks) == 3 * chain.places else ("length", chain)


# The calls on a lent table.

def read_table(table, t):
    return answered(calls.read_table, table, t)


def greatest(table):
    return answered(calls.greatest, table)


def low(table):
    return answered(calls.low, table)


def mean(table):
    return answered(calls.mean, table)


def throughput(table):
    return answered(calls.throughput, table)


def exceedance(table, bound):
    answer = answered(calls.exceedance, table, bound)
    return answer if answer[0] != "ok" else ("ok", "endless" if answer[2] else answer[1])


def histogram(table, width, held):
    """The counts of a list that held these numbers, and the rest. A refusal must leave the list, and no call may write past it or to the table."""
    given = Table(array("Q", table.starts), array("Q", table.latencies), table.anchors, table.hyperperiod)
    memory = array("Q", [*held, *FENCE])
    answer = answered(calls.histogram, given, width, memoryview(memory)[:len(held)])
    counts = memory[:len(held)].tolist()
    if memory[len(held):].tolist() != [*FENCE] or (given.starts, given.latencies) != (array("Q", table.starts), array("Q", table.latencies)) or answer[0] == "refused" and counts != [*held]:
        return ("changed", answer, memory)
    return ("ok", counts, answer[1]) if answer[0] == "ok" else answer


# The calls on schedules and their files.

def lent(schedule):
    """The schedule in lists that the call sees as they are, so that what it wrote to them would be seen."""
    return dataclasses.replace(schedule, tasks=array("Q", schedule.tasks), chains=array("Q", schedule.chains), places=array("Q", schedule.places))


def asked(call, schedule, *arguments):
    """A call on a schedule, whose lists it must leave as they were."""
    given = lent(schedule)
    answer = answered(call, given, *arguments)
    return answer if given == lent(schedule) else ("changed", answer)


def read_as_lent(data, past=b""):
    """Reading a file. `past` lies in memory after the lent bytes, where a call that looks past them would find it. The bytes must stay as they were."""
    memory = bytearray(data + past + FENCE)
    answer = answered(calls.read_file, memoryview(memory)[:len(data)])
    return answer if memory == data + past + FENCE else ("changed", answer)


def read_file(data, past=b""):
    """The same, with tasks as (number, T, D, F) and chains as lists of task numbers."""
    answer = read_as_lent(data, past)
    return ("ok", list(map(tuple, answer[1].task_list())), answer[1].chain_list(), answer[1].gap) if answer[0] == "ok" else answer


def write_file(schedule, out):
    """Writing a file, and what the lent bytes hold after it. A refusal must leave them, and no call may write past them."""
    memory = bytearray(out + FENCE)
    answer = asked(calls.write_file, schedule, memoryview(memory)[:len(out)])
    after = bytes(memory[:len(out)])
    if memory[len(out):] != FENCE or answer[0] == "refused" and after != out:
        answer = ("changed", answer, bytes(memory))
    return answer, after


def chain_of_schedule(schedule, number):
    """A chain of a schedule as a list of (T, D, F); its gap must be the schedule's."""
    answer = asked(calls.chain_of_schedule, schedule, number)
    if answer[0] != "ok":
        return answer
    chain = answer[1]
    return ("ok", [chain.task(place) for place in range(1, chain.places + 1)]) if chain.gap == schedule.gap else ("gap", chain)


def bookings(schedule, first, second, t):
    """Later and earlier booking, their difference and the greatest."""
    return asked(calls.bookings, schedule, first, second, t)


def smallest_phase(schedule, chain, number, bound):
    """The smallest phase of the task with that number, None where no phase keeps the bound of the chain."""
    return asked(calls.smallest_phase, schedule, chain, number, bound)


# The calls on the instrument's state. A schedule with bounds is given as its 187 numbers, a state as its bytes.

# Which of the numbers is the count of chains.
CHAINS = 181


def handed(call, *given):
    """What the shared object hands back: number and place of the refusal, the latencies of an ask, every byte of the state. What was given must stay, and the package must tell the same."""
    before = list(map(bytes, given))
    answer = getattr(library.load(), f"mo_{call.__name__}")(*given)
    number, place, latencies = answer.refusal.number, answer.refusal.place, tuple(getattr(answer, "latencies", ()))
    told = answered(call, *given)
    success = (answer.state, latencies[:array("Q", bytes(given[-1]))[CHAINS]]) if call is calls.ask else (answer.state,)
    if told != (("refused", number, place) if number else ("ok", *success)):
        number = f"{number}, but {told} by the package"
    if list(map(bytes, given)) != before:
        number = f"{number}, but what was given is changed"
    return number, place, latencies, bytes(answer.state)


def bounded(numbers):
    return Bounded.from_buffer_copy(array("Q", numbers))


def make_state(numbers):
    return handed(calls.make_state, bounded(numbers))


def ask(state, numbers):
    return handed(calls.ask, State.from_buffer_copy(state), bounded(numbers))


def commit(state, numbers):
    return handed(calls.commit, State.from_buffer_copy(state), bounded(numbers))


def bounded_schedule(schedule, bounds):
    """The 187 numbers of a schedule with bounds from lists, which must stay as they were."""
    answer = asked(calls.bounded_schedule, schedule, bounds)
    return array("Q", bytes(answer[1])).tolist() if answer[0] == "ok" else answer


def report(data, out):
    """The length of a report, and what the lent bytes hold after it. No call may write past them or to the file's bytes."""
    file, memory = bytearray(data + FENCE), bytearray(out + FENCE)
    length = calls.report(memoryview(file)[:len(data)], memoryview(memory)[:len(out)])
    if memory[len(out):] != FENCE or file != data + FENCE:
        return ("changed", length, bytes(memory))
    return length, bytes(memory[:len(out)])
