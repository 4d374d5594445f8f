"""The program chainreport and the call mo_report against the reference's report, on fixed random, boundary and damaged files.

    python3 tests/report.py [--count FACTOR] [--seed SEED]

Runs the program once for each file, and the call with more bytes than the text has, with just as many, with fewer, and with bytes that end
inside the text of each chain. Each group prints its number of files. Then come reads and writes that fail, and the statuses of ./report. The last line is 'N passed, M failed', in groups. A
disagreement is printed with its file.
"""
import argparse
import glob
import itertools
import math
import os
import random
import re
import subprocess
import sys
import tempfile
import time

HERE = os.path.dirname(os.path.abspath(__file__))
TOP = os.path.dirname(HERE)
sys.path[:0] = [HERE, os.path.join(TOP, "reference")]
import inputs
import meshorchard_reference as reference
import proved

PROGRAM = os.path.join(TOP, "target", "bin", "chainreport")
# The reference walks every partition, and below this every tick.
LONGEST = 20000
GROUPS = []


def group(function):
    GROUPS.append(function)
    return function


def build(program=PROGRAM):
    """The program, proved and linked anew where a file of the crates is newer."""
    if subprocess.run([os.path.join(TOP, "host", "fresh"), program]).returncode:
        made = subprocess.run([os.path.join(TOP, "host", "program"), os.path.basename(program)], stdout=subprocess.PIPE, stderr=subprocess.STDOUT)
        if made.returncode:
            sys.exit(made.stdout.decode(errors="replace"))


def printed(data):
    return subprocess.run([PROGRAM], input=data, stdout=subprocess.PIPE, check=True).stdout


def sizes(r, text):
    """Numbers of lent bytes for a text: more, as many, fewer, and an end inside the text of each chain; at its line `chain N` for one of them."""
    starts = [line.start() for line in re.finditer(rb"^chain ", text, re.MULTILINE)]
    inside = [r.randrange(start + 1, end) for start, end in zip(starts, starts[1:] + [len(text)])]
    return [len(text) + 9, len(text), r.randrange(len(text)), *inside, *r.sample(starts, min(1, len(starts)))]


def called(r, data, text):
    """Whether the call leaves this text in lent bytes, as much of it as fits, and answers its length."""
    for size in sizes(r, text):
        old = r.randbytes(size)
        if proved.report(data, old) != (len(text), (text + old[len(text):])[:size]):
            return False
    return True


def rightly_called(r, data, text):
    """The same for the 4,096 bytes that the program judges, and for all of a longer input, which no schedule file is."""
    if not called(r, data[:4096], text):
        return False
    return len(data) <= 4096 or called(r, data, b"refused %d %d\n" % reference.read_file(data)[1:])


# ---- files

def file_of(r, chains):
    """The records of a schedule with these chains of (T, D, F): without a gap, or with any, or with one that decides a link."""
    gap = r.choice([inputs.file_gap(r), inputs.some_gap(r, *chains)])
    return inputs.records(*inputs.numbered(r, chains), gap)


def partitions(places):
    """How many partitions the report of this chain walks."""
    periods = [t for t, _, _ in places]
    return math.lcm(*periods) // max(periods)


def quick(places):
    """Whether the reference is quick on this chain."""
    return partitions(places) <= LONGEST


def quick_chain(r):
    while True:
        places = [task for task in inputs.chain(r) if reference.task_within_rule(task)]
        if places and quick(places):
            return places


def quick_chains(r, count):
    """So many chains, of no more tasks than a schedule holds."""
    while True:
        chains = [quick_chain(r) for _ in range(count)]
        if len(set(itertools.chain(*chains))) <= inputs.MOST_TASKS - 4:
            return chains


def quick_file(read):
    """Whether the reference is quick on every chain of a file that it read."""
    task_of = {number: task for number, *task in read[1]}
    return all(quick([task_of[number] for number in chain]) for chain in read[2])


def beside(r, chain):
    """The chain with up to three others, before and after it."""
    chains = quick_chains(r, r.randint(0, inputs.MOST_CHAINS - 1))
    chains.insert(r.randint(0, len(chains)), chain)
    return chains


def refusals(data):
    """The refusals that the reference prints, of the file (0) or by the number of the chain."""
    found, chain = {}, 0
    for line in reference.report(data).split(b"\n"):
        words = line.split()
        if words[:1] == [b"chain"]:
            chain = int(words[1])
        if words[:1] == [b"refused"]:
            found[chain] = tuple(map(int, words[1:]))
    return found


# ---- groups: each yields files

@group
def whole(r, factor):
    """schedule files of one to four chains, with a gap and without"""
    found = set()
    for i in range(int(600 * factor)):
        data = b"".join(file_of(r, quick_chains(r, i % inputs.MOST_CHAINS + 1)))
        found.add(reference.read_file(data)[3])
        yield data
    assert {0, 1, inputs.MOST_GAP} <= found


@group
def worked(r, factor):
    """worked examples of order 5, with the lines that each must have"""
    for tasks, chain, gap, lines in (
        ([(1, 5, 5, 0)], [1, 1], 0, ["a 0 15"]),
        ([(1, 5, 5, 0)], [1, 1], 1, ["warm 0", "a 0 20"]),
        ([(1, 5, 5, 0)], [1, 1], 4, ["warm 0", "a 0 20"]),
        ([(1, 5, 5, 0)], [1, 1], 1000, ["warm 0", "a 0 1015"]),
        ([(1, 4, 4, 0), (2, 6, 6, 0)], [1, 2], 2, ["warm 0", "a 0 18", "a 4 20", "max 20"]),
        ([(1, 4, 4, 0), (2, 6, 6, 0)], [1, 2], 3, ["warm 4", "a 4 20", "a 8 22", "max 22"]),
        ([(1, 4, 4, 0), (2, 6, 6, 0)], [1, 2], 1000, ["warm 4", "a 4 1016", "a 8 1018"]),
        ([(1, 10, 2, 0), (2, 10, 1, 95)], [1, 2], 4, ["warm 80", "a 80 26"]),
        ([(1, 10, 3, 5)], [1], 1000, ["warm 5", "a 5 13"]),
        ([(1, 3, 2, 1), (2, 7, 5, 2), (3, 4, 4, 0)], [1, 2, 3], 4, ["warm 1", "a 1 31"]),
        ([(i + 1, 1000000, 4000000, 999 * i) for i in range(12)], list(range(1, 13)), 1000, ["warm 0", "a 0 60010989", "max 60010989", "low 59010989"]),
    ):
        data = b"".join(inputs.records(tasks, [chain], gap))
        assert set(lines) <= set(reference.report(data).decode().splitlines()), lines
        yield data


@group
def hyperperiods(r, factor):
    """hyperperiods at the limit of 60,000,000, just below and above, of a chain beside others"""
    found = set()
    for _ in range(int(150 * factor)):
        places = inputs.near_limit(r)
        if quick(places) or math.lcm(*[t for t, _, _ in places]) > 60000000:
            found.add(math.lcm(*[t for t, _, _ in places]))
            yield b"".join(file_of(r, beside(r, places)))
    assert 60000000 in found and max(found) > 60000000


def near_slots(r, n):
    """A chain of about so many anchors: two periods with no common divisor have one anchor for each job of the longer one."""
    places = [(n, r.randint(1, 50), r.randint(0, 50)), (n + 1, r.randint(1, 50), r.randint(0, 50))]
    r.shuffle(places)
    return places


@group
def slots(r, factor):
    """anchors around the 1,024 slots, of a chain beside others"""
    found = set()
    for _ in range(int(60 * factor)):
        data = b"".join(file_of(r, beside(r, near_slots(r, r.choice([1022, 1023, 1023, 1024, 1024, 1025, 1100, 3000])))))
        found |= set(refusals(data).values()) or {None}
        yield data
    assert found == {None, (11, 0)}


@group
def refused_chains(r, factor):
    """one to four chains, each with a table, with a hyperperiod above the limit or with too many anchors, in every order"""
    for _ in range(max(1, int(factor))):
        for kinds in itertools.chain(*[itertools.product((0, 7, 11), repeat=count) for count in range(1, inputs.MOST_CHAINS + 1)]):
            chains = quick_chains(r, len(kinds))
            for c, kind in enumerate(kinds):
                if kind == 7:
                    chains[c] = [(999983, 1, 0), (999979, 1, 0)]
                elif kind == 11:
                    chains[c] = near_slots(r, 1030)
                elif reference.check_chain(chains[c], 0)[0] != "ok" or partitions(chains[c]) > 1024:
                    chains[c] = [inputs.small_task(r)]
            data = b"".join(file_of(r, chains))
            assert refusals(data) == {number: (kind, 0) for number, kind in enumerate(kinds, start=1) if kind}
            yield data


@group
def longest(r, factor):
    """four chains of 1,023 and 1,024 anchors, whose text has more than 65,536 bytes"""
    for _ in range(max(1, int(2 * factor))):
        pairs = [(1023, 58651), (1024, 58593), (1023, 58651), (1024, 58593)]
        data = b"".join(file_of(r, [[(t, r.randint(3000000, 4000000), r.randint(0, 1000000)) for t in r.sample(pair, 2)] for pair in pairs]))
        assert len(reference.report(data)) > 65536
        yield data


@group
def damaged(r, factor):
    """damaged files"""
    found = set()
    for _ in range(int(1100 * factor)):
        some = file_of(r, quick_chains(r, r.choice([1, 1, 2, 3, 4])))
        for _ in range(r.choice([0, 1, 1, 2])):
            at = r.randrange(len(some))
            other = [inputs.END_RECORD, inputs.task_record(r.randint(0, 9), *inputs.edge_task(r)), inputs.gap_record(r.choice(inputs.GAP_VALUES + inputs.OTHER_VALUES))]
            some[at:at + r.choice([0, 1])] = r.choice([[], [r.choice(some)], [r.choice(other)]])
            some = some or [inputs.END_RECORD]
        data = bytearray(b"".join(some))
        for _ in range(r.choice([0, 0, 1, 1, 2])):
            data[r.randrange(len(data))] = r.choice([0, 1, 2, 3, 4, 6, 18, 255, r.randrange(256)])
        if r.random() < 0.25:
            del data[r.randint(0, len(data)):]
        if r.random() < 0.1:
            data += bytes(r.randint(1, 5))
        read = reference.read_file(bytes(data))
        # A change may have made a chain on which the reference is slow.
        if read[0] == "ok":
            if not quick_file(read):
                continue
        else:
            # A refused file has its one line alone.
            assert reference.report(bytes(data)).count(b"\n") == 1
            found.add(read[1])
        yield bytes(data)
    assert {1, 2, 3, 4, 5, 6} <= found


@group
def gaps(r, factor):
    """records of a gap at every turn, of every length around its own, with values that are accepted and others"""
    found = set()
    some = list(inputs.gap_files(r))
    for data in r.sample(some, min(len(some), int(150 * factor))) + [data for data in some if reference.read_file(data)[0] == "ok"]:
        read = reference.read_file(data)
        if read[0] != "ok":
            assert reference.report(data).count(b"\n") == 1
            found.add(read[1])
        elif quick_file(read):
            found.add("with a gap" if read[3] > 0 else "without a gap")
        else:
            continue
        yield data
    assert {1, 2, 4, 5, "with a gap"} <= found


@group
def many(r, factor):
    """32 and 33 tasks, 0 to 13 places, 0 to 6 chains"""
    found = set()
    for _ in range(int(30 * factor)):
        for count, sizes in ((32, [12]), (33, [12]), (32, [13]), (1, [1]), (32, [r.randint(0, 13)]), (32, [12] * 4), (32, [12] * 5), (2, [1] * r.randint(0, 6)), (3, [1, 2, r.randint(0, 13)])):
            tasks = [(2 * i + 1, *inputs.small_task(r)) for i in range(count)]
            data = b"".join(inputs.records(tasks, [[r.choice(tasks)[0] for _ in range(places)] for places in sizes], inputs.file_gap(r)))
            found.add(refusals(data).get(0, (0,))[0])
            yield data
    assert found == {0, 2, 4}


@group
def long(r, factor):
    """inputs around and beyond 4,096 bytes"""
    found = set()
    for _ in range(int(15 * factor)):
        start = b"".join(file_of(r, quick_chains(r, r.randint(1, inputs.MOST_CHAINS)))[:-1])
        for end in (4095, 4096, 4097, r.randint(4098, 65535)):
            # A record of an unknown kind that ends there: it is 3 where the first 4,096 bytes hold it, else 1.
            size = end - len(start)
            data = start + inputs.record(9, bytes(size - 4))
            found.add(reference.read_file(data[:4096])[1])
            yield data
            yield data + bytes(r.randint(1, 5000))
        yield start + inputs.END_RECORD + bytes(r.randint(1, 70000))
    assert found == {1, 3}


@group
def short(r, factor):
    """the empty input and other short ones"""
    yield b""
    for size in range(1, 50):
        yield bytes(size)
        yield bytes(r.randrange(256) for _ in range(size))


@group
def examples(r, factor):
    """examples/: the report beside each file is what the program prints"""
    names = sorted(glob.glob(os.path.join(TOP, "examples", "*.schedule")))
    assert len(names) >= 4
    for name in names:
        with open(name, "rb") as file, open(name[:-9] + ".report", "rb") as report:
            data = file.read()
            assert report.read() == reference.report(data), name
        yield data


# ---- what fails outside the proofs: the program's input and output, and ./report

def ran(command, **how):
    """Status, standard output and standard error of a command, without what ./report says of building."""
    done = subprocess.run(command, stderr=subprocess.PIPE, cwd=TOP, **{"stdout": subprocess.PIPE, "stdin": subprocess.DEVNULL, **how})
    return done.returncode, done.stdout, b"".join(line for line in done.stderr.splitlines(True) if b"proving and building" not in line)


def failures():
    """reads and writes that fail, and the statuses of ./report"""
    chain_a = os.path.join(TOP, "examples", "chain-a.schedule")
    with open(chain_a, "rb") as kept, tempfile.NamedTemporaryFile() as broken, tempfile.NamedTemporaryFile() as refused, open("/dev/full", "wb") as full:
        text = reference.report(kept.read())
        broken.write(bytes(3))
        broken.flush()
        # Two periods with a hyperperiod above the limit, then a chain that has a table.
        file = b"".join(inputs.records([(1, 769, 1, 0), (2, 78125, 1, 0), (3, 7, 1, 0)], [[1, 2], [3]], 5))
        second = reference.report(file)
        refused.write(file)
        refused.flush()
        folder = os.open("/", os.O_RDONLY)
        with open(chain_a, "rb") as data:
            yield "a full disk", ran([PROGRAM], stdin=data, stdout=full), (0, None, b"chainreport: writing the report: No space left on device\n")
        yield "an input that cannot be read", ran([PROGRAM], stdin=folder), (0, b"", b"chainreport: reading standard input: Is a directory\n")
        yield "no standard input at all", ran(["sh", "-c", "exec \"$0\" <&-", PROGRAM]), (0, b"", b"chainreport: reading standard input: Bad file descriptor\n")
        os.close(folder)
        yield "./report", ran(["./report"]), (0, text, b"")
        yield "./report of a refused file", ran(["./report", broken.name]), (1, b"refused 1 0\n", b"")
        yield "./report of a refused chain before another", ran(["./report", refused.name]), (1, second, b"")
        yield "./report of a folder", ran(["./report", "/"]), (2, b"", b"chainreport: reading standard input: Is a directory\n")
        yield "./report of no name", ran(["./report", ""])[:2], (2, b"")
        yield "./report of no file", ran(["./report", broken.name + "-missing"])[:2], (2, b"")
        yield "./report on a full disk", ran(["./report"], stdout=full)[0], 2


def main():
    parser = argparse.ArgumentParser()
    parser.add_argument("--count", type=float, default=1.0, help="how much longer than usual")
    parser.add_argument("--seed", type=int, default=20261115)
    chosen = parser.parse_args()
    build()
    proved.build()
    print(f"chainreport and mo_report against the reference, seed {chosen.seed}, count {chosen.count}")
    passed = failed = files = 0
    for run in GROUPS:
        began, made, wrong, broken = time.time(), 0, [], ""
        lengths = random.Random(chosen.seed)
        try:
            for data in run(random.Random(f"{chosen.seed} {run.__name__}"), chosen.count):
                made += 1
                mine, other = printed(data), reference.report(data)
                if mine != other:
                    wrong.append((data, mine, other))
                elif not rightly_called(lengths, data, other):
                    wrong.append((data, b"(by the call)", other))
        except AssertionError as fault:
            broken = f", not as it should be {fault}"
        print(f"{run.__doc__.strip()}: {made} files, {len(wrong)} disagree{broken} ({time.time() - began:.1f} s)")
        for data, mine, other in wrong[:3]:
            print(f"  {data[:700].hex()} ({len(data)} bytes): the program prints {mine[:300]!r}, the reference {other[:300]!r}")
        # A group that compares nothing shows nothing.
        files += made
        if wrong or broken or made == 0:
            failed += 1
        else:
            passed += 1
    print(f"{files} files")
    wrong = [found for found in failures() if found[1] != found[2]]
    print(f"{failures.__doc__}: {len(wrong)} not as they should be")
    for what, mine, other in wrong:
        print(f"  {what}: {mine}, and not {other}")
    passed, failed = (passed, failed + 1) if wrong else (passed + 1, failed)
    print(f"{passed} passed, {failed} failed")
    sys.exit(0 if failed == 0 else 1)


if __name__ == "__main__":
    main()
