"""The program chainload against the reference's, on fixed random and boundary words, and ./load.

    python3 tests/load.py [--count FACTOR] [--seed SEED]

Runs the program once for each list of words: its status, which is always 0, its standard output and its standard error must be those of the reference. Each group prints its
number of runs. Then come the files that it writes, as chainreport reports them, other surroundings, writes that fail, the statuses of ./load, and when that builds the program. The
last line is 'N passed, M failed', in groups. A disagreement is printed with its words.
"""
import argparse
import concurrent.futures
import contextlib
import functools
import itertools
import os
import random
import shlex
import shutil
import struct
import subprocess
import sys
import tempfile
import time

HERE = os.path.dirname(os.path.abspath(__file__))
TOP = os.path.dirname(HERE)
sys.path[:0] = [HERE, os.path.join(TOP, "reference")]
import inputs
import meshorchard_reference as reference
import report as reports

PROGRAM = os.path.join(TOP, "target", "bin", "chainload")
SCRIPT = os.path.join(TOP, "load")
TWO_WORDS = b"chainload: two words are needed: chainload SEED PLACES\n"
SEED_RULE = b"chainload: SEED must be a number from 0 to 18446744073709551615, in at most 20 decimal digits\n"
PLACES_RULE = b"chainload: PLACES must be a number from 1 to 12, in at most 20 decimal digits\n"
WRITING = b"chainload: writing the schedule file: "
BUILDING = b"load: proving and building chainload; the first time takes some minutes\n"
NEEDED = b"load: two words are needed: ./load SEED PLACES\n"
# What a run can come to.
KINDS = {TWO_WORDS: "two words", SEED_RULE: "SEED", PLACES_RULE: "PLACES", b"": "a file"}
# The longest word that Linux gives a program.
LONGEST = 131071
GROUPS, PARTS = [], []


def group(function):
    GROUPS.append(function)
    return function


def part(function):
    PARTS.append(function)
    return function


def build():
    """The programs, proved and linked anew where a file of the crates is newer."""
    reports.build()
    reports.build(PROGRAM)


def ran(command, **how):
    """Status, standard output and standard error of a command."""
    done = subprocess.run(command, **{"stdin": subprocess.DEVNULL, "stdout": subprocess.PIPE, "stderr": subprocess.PIPE, "cwd": TOP, **how})
    return done.returncode, done.stdout, done.stderr


def right(words):
    """The same of chainload, by the reference."""
    return (0, *reference.chainload(words))


def kind(words):
    said = reference.chainload(words)[1]
    return KINDS.get(said, said)


def digits(number, width=0):
    """A number as a word, with zeros before it where it is to be longer."""
    return b"%0*d" % (width, number)


# ---- groups: each yields lists of words

@group
def worked(r, factor):
    """worked examples of order 8, with the bytes that each must have"""
    for seed, tasks in (
        (0, [(10000, 8591), (10000, 7183), (40000, 26767)]),
        (1, [(10000, 8590), (20000, 17182)]),
        (0xDEADBEEF, [(10000, 8782), (20000, 46), (80000, 34910), (20000, 7822)]),
        (0x61C8864680B583EB, [(2500, 307)]),
    ):
        file = b"".join(struct.pack("<HHHIII", 18, 1, number, period, period, phase) for number, (period, phase) in enumerate(tasks, start=1))
        file += struct.pack(f"<HH{len(tasks)}H", 4 + 2 * len(tasks), 2, *range(1, len(tasks) + 1)) + b"\4\0\3\0"
        words = [digits(seed), digits(len(tasks))]
        assert reference.chainload(words) == (file, b""), words
        yield words
    one = bytes.fromhex("1200 0100 0100 c4090000 c4090000 33010000  0600 0200 0100  0400 0300")
    assert reference.chainload([b"7046029254386353131", b"1"]) == (one, b"")
    for words, rule in (([], TWO_WORDS), ([b"0"], TWO_WORDS), ([b"0", b"3", b"1"], TWO_WORDS), ([b"x", b"13"], SEED_RULE), ([b"0", b"13"], PLACES_RULE), ([b"0", b"0"], PLACES_RULE)):
        assert reference.chainload(words) == (b"", rule), words
        yield words


@group
def seeds(r, factor):
    """seeds at the ends of 64 bits and others, with every number of places, and zeros before them"""
    found = set()
    some = r.sample(inputs.edge_seeds(), int(min(1, factor) * len(inputs.edge_seeds())) // 2 + 1) + [inputs.any_seed(r) for _ in range(int(300 * factor))]
    some += [inputs.seed_of_number(r, place, number) for place, number in itertools.product((1, 2, 12), inputs.LOAD_ENDS)]
    for i, seed in enumerate([0, 1, inputs.LARGEST - 1, inputs.LARGEST, *some]):
        places = i % 12 + 1
        found |= {places, *(f"number {inputs.drawn(seed, n) % 97}" for n in range(1, 2 * places, 2))}
        yield [digits(seed, r.choice([0, 0, 0, 20, r.randint(1, 20)])), digits(places, r.choice([0, 0, 0, 2, 20, r.randint(1, 20)]))]
    assert {*range(1, 13), *(f"number {number}" for number in inputs.LOAD_ENDS)} <= found


@group
def limits(r, factor):
    """numbers at their limits: 12 and 13 places, 2^64 - 1 and 2^64, 20 and 21 digits; and such as would pass with fewer bits"""
    found = set()
    below = [0, 1, 9, 10, 11, 12, 13, 14, 99, 100, 2**8 + 1, 2**16 + 1, 2**31 + 1, 2**32 + 1, 2**32 + 12, 2**63 - 1, 2**63 + 1, 10**19 - 1, 10**19, 2**64 - 2, 2**64 - 1]
    above = [2**64, 2**64 + 1, 2**64 + 12, 2 * 2**64 + 1, 5 * 2**64 + 1, 10**20 - 1, 10**20, 10**20 + 1, 2**67 + 1, 2**128 + 1]
    for number in below + above:
        for width in (0, 19, 20, 21, 22, 40):
            for words in ([digits(number, width), b"12"], [b"5", digits(number, width)], [digits(number, width)] * 2):
                found.add((number < 2**64 and width <= 20, kind(words)))
                yield words
    assert found == {(True, "a file"), (True, "PLACES"), (False, "SEED"), (False, "PLACES")}


# Words that are no numbers: signs, blanks, letters, other notations, digits of other scripts, bytes of no script, none at all.
STRANGE = [b"", b"+5", b"-5", b"-0", b"+", b"-", b"--", b"--help", b"-h", b" 5", b"5 ", b" ", b"\t5", b"5\n", b"\n", b"5\r\n", b"\x0b5", b"5 6", b"five", b"x", b"5x", b"x5", b"5L", b"5u", b"0x5", b"0X5", b"0b1",
           b"0o5", b"9E3779B97F4A7C15", b"1_0", b"_1", b"1_", b"1,000", b"1'000", b"1.0", b"5.", b".5", b"1e1", b"1E1", b"inf", b"nan", b"5/1", b"5:", b"/", b":", b"(5)", b"'5'", b"\"5\"", b"$5", b"5%", b"5;", b"*", b"~",
           "\u0665".encode(), "1\u0662".encode(), "\uff15".encode(), "\u096b".encode(), "\u00b2".encode(), b"\xb2", "\u00a05".encode(), "\ufeff5".encode(), "5\u200b".encode(), b"\xff", b"5\xff",
           b"\xff5", b"\x80", b"\xb5", b"5\x7f", b"\x01", b"\x015", b"5\x1b", b"\xc0\xb5", b"\xed\xa0\x80", b"5" * 19 + b"\xff", b"0" * 20 + b" ", b" " * 20]


@group
def strange(r, factor):
    """words that are no numbers: for SEED, for PLACES, for both and beside a number that is none either"""
    found = set()
    for word in STRANGE:
        for words in ([word, b"3"], [b"7", word], [word, word], [word, b"13"], [b"18446744073709551616", word]):
            found.add((kind(words), words[1] == word))
            yield words
    assert found == {("SEED", False), ("PLACES", True), ("SEED", True)}


@group
def every_byte(r, factor):
    """every byte alone, and before, between and after digits"""
    found = set()
    for byte in range(1, 256):
        one = bytes([byte])
        some = [one, one + b"1", b"1" + one, b"0" + one + b"1"]
        for word in [one, r.choice(some[1:])] if factor <= 1 else some:
            for words in ([word, b"2"], [b"2", word]):
                found.add((one.isdigit(), kind(words)))
                yield words
    # A digit makes another number, of places perhaps one that is none.
    assert {(True, "a file"), (False, "SEED"), (False, "PLACES")} <= found <= {(True, "a file"), (True, "PLACES"), (False, "SEED"), (False, "PLACES")}


@group
def counts(r, factor):
    """no word, one, two, three and many, whatever they are"""
    found = set()
    for count in [*range(9), 12, 20, 21, 64, 255, 256, 257, 258, 1000, 4096, 65536 + 2]:
        for words in ([b"1"] * count, [b""] * count, [b"12"] * (count - 1) + [b"x"], [b"x"] + [b"1"] * (count - 1), [digits(i) for i in range(count)], [r.choice(STRANGE) for _ in range(count)]):
            found.add((len(words) == 2, kind(words) == "two words"))
            yield words
    for words in itertools.product([b"", b"1", b"x"], repeat=3):
        yield list(words)
    assert found == {(True, False), (False, True)}


@group
def long_words(r, factor):
    """words of up to 131,071 bytes: digits, zeros and others"""
    found = set()
    for length in (18, 19, 20, 21, 22, 23, 39, 40, 41, 64, 255, 256, 257, 276, 1000, 4095, 4096, 4097, 65535, 65536, 65537 + 19, LONGEST - 1, LONGEST):
        for word in (b"0" * length, b"0" * (length - 1) + b"1", b"1" + b"0" * (length - 1), b"9" * length, b"1" * length, b" " * (length - 1) + b"1", b"\xff" * length, b"1" + b"x" * (length - 1)):
            for words in ([word, b"1"], [b"1", word], [word, word], [b"1", b"1", word]):
                found.add((length <= 20, kind(words)))
                yield words
    assert {(True, "a file"), (False, "SEED"), (False, "PLACES"), (False, "two words")} <= found and (False, "a file") not in found


def some_word(r, most):
    """A number up to that, often with zeros before it, often with a byte that is changed, put in or left out; or any bytes."""
    draw = r.random()
    if draw < 0.1:
        return bytes(r.randint(1, 255) for _ in range(r.randint(0, 24)))
    if draw < 0.2:
        return b"".join(digits(r.randint(0, 9)) for _ in range(r.randint(1, 23)))
    word = bytearray(digits(r.randint(0, most), r.choice([0, 0, 0, r.randint(1, 20), 20, 21])))
    if r.random() < 0.3:
        at = r.randint(0, len(word))
        word[at:at + r.choice([0, 1])] = r.choice([b"", bytes([r.randint(1, 255)]), r.choice(STRANGE), b"0", b"9"])
    return bytes(word)


@group
def random_words(r, factor):
    """random words"""
    found = set()
    for _ in range(int(700 * factor)):
        words = [some_word(r, 2**64 + 2**61), some_word(r, 14)]
        if r.random() < 0.1:
            words = [some_word(r, 20) for _ in range(r.randint(0, 5))]
        found.add(kind(words))
        yield words
    assert found == set(KINDS.values())


# ---- parts: each yields what was looked at, what was found and what is right

def some_loads(r, count):
    """Words that make a file."""
    for i in range(count):
        yield [digits(r.choice([inputs.any_seed(r), inputs.seed_of_number(r, 1, r.choice(list(inputs.LOAD_ENDS)))])), digits(i % 12 + 1)]


@part
def reported(r, factor):
    """files of chainload as chainreport reports them: one anchor, and the hyperperiod a divisor of 80,000"""
    found = set()
    # One place has its own period as the hyperperiod.
    single = [[digits(inputs.seed_of_number(r, 1, number)), b"1"] for number in inputs.LOAD_ENDS]
    for words in [[b"0", b"12"], [b"18446744073709551615", b"12"], *single, *some_loads(r, int(120 * factor))]:
        file = ran([PROGRAM, *words])[1]
        report = subprocess.run([reports.PROGRAM], input=file, stdout=subprocess.PIPE, check=True).stdout
        yield f"the report of {words}", report, reference.report(reference.chainload(words)[0])
        lines = dict(line.split(" ", 1) for line in report.decode().splitlines() if " " in line)
        yield f"figures of {words}", (lines.get("chain"), lines.get("anchors"), lines.get("walked"), 80000 % int(lines.get("hyper", 7))), ("1", "1", "1", 0)
        found.add(lines.get("hyper"))
    assert found == {str(t) for t in inputs.LOAD_ENDS.values()}, found


@part
def surroundings(r, factor):
    """the same bytes once more: another folder, no environment, another name, another standard input, several at once"""
    for words in [[b"18446744073709551615", b"12"], [b"0", b"1"], [], [b"7"], [b"x", b"1"], [b"1", b"0"], *some_loads(r, int(20 * factor))]:
        wanted = right(words)
        yield f"{words} twice", [ran([PROGRAM, *words]) for _ in range(2)], [wanted] * 2
        yield f"{words} in another folder", ran([PROGRAM, *words], cwd="/"), wanted
        yield f"{words} without an environment", ran([PROGRAM, *words], env={}), wanted
        yield f"{words} with other variables", ran([PROGRAM, *words], env={"SEED": "5", "PLACES": "5", "LC_ALL": "ar_EG.UTF-8", "LANG": "C", "TZ": "UTC"}), wanted
        # The name by which a program is called is no word, whatever it is.
        for name in (b"", b"5", b"chainload", b"a name"):
            yield f"{words} by the name {name}", ran([name, *words], executable=PROGRAM), wanted
        yield f"{words} without standard input", ran([PROGRAM, *words], preexec_fn=functools.partial(os.close, 0)), wanted
        with open(PROGRAM, "rb") as some:
            yield f"{words} with bytes on standard input", ran([PROGRAM, *words], stdin=some), wanted
            yield f"{words} with bytes on standard input, which are left there", some.tell(), 0
    words = [b"123456789", b"12"]
    several = [subprocess.Popen([PROGRAM, *words], stdout=subprocess.PIPE, stderr=subprocess.PIPE) for _ in range(20)]
    for each in several:
        yield "several at once", (*each.communicate(), each.wait()), (*reference.chainload(words), 0)


@contextlib.contextmanager
def without_reader():
    """A pipe from which nobody reads."""
    reader, gone = os.pipe()
    os.close(reader)
    yield gone
    os.close(gone)


@part
def failures(r, factor):
    """writes that fail"""
    lists = [[b"0", b"3"], [b"18446744073709551615", b"12"]]
    with open("/dev/full", "wb") as full:
        for words in lists:
            yield f"{words} on a full disk", ran([PROGRAM, *words], stdout=full), (0, None, WRITING + b"No space left on device\n")
            yield f"{words} without standard output", ran([PROGRAM, *words], preexec_fn=functools.partial(os.close, 1)), (0, b"", WRITING + b"Bad file descriptor\n")
        # Where a word is wrong nothing is written there, and nothing fails.
        for words in ([], [b"0"], [b"x", b"3"], [b"0", b"13"]):
            yield f"{words} on a full disk", ran([PROGRAM, *words], stdout=full), (0, None, reference.chainload(words)[1])
            yield f"{words} without standard output", ran([PROGRAM, *words], preexec_fn=functools.partial(os.close, 1)), right(words)
        # Standard error that is not to be had changes nothing of the file.
        yield "a full standard error", ran([PROGRAM, *lists[0]], stderr=full), (*right(lists[0])[:2], None)
        yield "no standard error", ran([PROGRAM, *lists[0]], preexec_fn=functools.partial(os.close, 2)), right(lists[0])
        # A line that cannot be told is lost, and no more.
        for words in ([], [b"x", b"3"], [b"0", b"13"]):
            yield f"{words} and a full standard error", ran([PROGRAM, *words], stderr=full), (0, b"", None)
            yield f"{words} and no standard error", ran([PROGRAM, *words], preexec_fn=functools.partial(os.close, 2)), (0, b"", b"")
    read_only = os.open(os.devnull, os.O_RDONLY)
    yield "a standard output that cannot be written", ran([PROGRAM, *lists[0]], stdout=read_only), (0, None, WRITING + b"Bad file descriptor\n")
    os.close(read_only)
    with without_reader() as gone:
        # The signal is off here, else it would end the program.
        yield "a standard output without a reader", ran([PROGRAM, *lists[0]], stdout=gone, restore_signals=False), (0, None, WRITING + b"Broken pipe\n")


def loaded(words):
    """Status, standard output and standard error of ./load with these words, by the reference; the script counts the words itself."""
    if len(words) != 2:
        return 1, b"", NEEDED
    out, err = reference.chainload(words)
    return (1 if err else 0), out, err


def put(path, lines):
    """A command of these lines."""
    with open(path, "w", encoding="utf-8") as file:
        file.write(f"#!/bin/sh\n{lines}\n")
    os.chmod(path, 0o755)


def held(folder):
    """The files and folders there, and what is in the files."""
    found = {}
    for place, folders, names in os.walk(folder):
        found.update({os.path.join(place, name): None for name in folders})
        for name in names:
            with open(os.path.join(place, name), "rb") as file:
                found[os.path.join(place, name)] = file.read()
    return found


@contextlib.contextmanager
def beside(program=None, rt=None):
    """The script in a folder of its own with older crates, beside chainload or a program of these lines, and with a command rt of these lines or none: the way to call it, and the folder."""
    with tempfile.TemporaryDirectory() as kept:
        folder, tools = os.path.join(kept, "in it"), os.path.join(kept, "tools")
        for path in (tools, os.path.join(folder, "target", "bin"), os.path.join(folder, "crates", "one"), os.path.join(folder, "crates", "chainload"), os.path.join(folder, "host")):
            os.makedirs(path)
        shutil.copy(SCRIPT, folder)
        for name in ("fresh", "program"):
            shutil.copy(os.path.join(TOP, "host", name), os.path.join(folder, "host"))
        put(os.path.join(folder, "target", "bin", "chainload"), program or f"exec {shlex.quote(PROGRAM)} \"$@\"")
        for name in ("crates.txt", "crates/one/lib.rt"):
            open(os.path.join(folder, name), "wb").close()
        shutil.copy(os.path.join(TOP, "crates", "chainload", "args"), os.path.join(folder, "crates", "chainload"))
        for name in ("crates.txt", "crates/one/lib.rt", "crates/chainload/args", "crates/one", "crates/chainload", "crates"):
            os.utime(os.path.join(folder, name), (10**9, 10**9))
        # What the scripts and the lines call, and no more.
        for tool in ("bash", "sh", "dirname", "realpath", "find", "mkdir", "tail", "rm", "cp", "mv", "touch", "test"):
            os.symlink(shutil.which(tool), os.path.join(tools, tool))
        if rt is not None:
            put(os.path.join(tools, "rt"), rt)
        # Called from another folder than its own.
        yield lambda *words, **how: ran([how.pop("name", os.path.join(folder, "load")), *words], cwd=tools, env={"PATH": tools}, **how), folder


# A command rt that keeps what it is asked, says something and puts the program in its place.
BUILDS = f"echo \"$(pwd -P): $*\" >>../../asked; echo noise; echo noise >&2; mkdir -p out && rm -f out/chainload && cp {shlex.quote(PROGRAM)} out"


@part
def script(r, factor):
    """./load: its statuses and its bytes"""
    with open("/dev/full", "wb") as full:
        # The script as it stands, with the toolchain, which may have something to build.
        for words in ([b"0", b"3"], [b"18446744073709551615", b"12"], [], [b"0", b"13"]):
            status, out, err = ran(["./load", *words])
            yield f"./load {words}", (status, out, err.replace(BUILDING, b"")), loaded(words)
        status, _, err = ran(["./load", "0", "3"], stdout=full)
        yield "./load on a full disk", (status, err.replace(BUILDING, b"")), (2, WRITING + b"No space left on device\n")
        # Beside a program that is newer than the crates it needs no toolchain.
        with beside() as (load, folder):
            before = held(folder)
            wrong = [[], [b"0"], [b"0", b"1", b"2"], [b"0 3"], [b"0", b"3 "], [b"*", b"3"], [b"", b""], [b"-n", b"3"], [b"0"] * 300, [b"18446744073709551616", b"1"], [b"1", b"13"], [b"x", b"13"]]
            strange = [[word, b"3"] for word in STRANGE[:12]] + [[b"3", word] for word in r.sample(STRANGE, 12)]
            met = set()
            for words in [*wrong, *strange, *some_loads(r, 24)]:
                answer = load(*words)
                met.add(answer[0])
                yield f"./load {words}", answer, loaded(words)
            yield "the statuses that were met", met, {0, 1}
            yield "./load on a full disk", load("0", "3", stdout=full), (2, None, WRITING + b"No space left on device\n")
            yield "./load of a wrong word on a full disk", load("0", "13", stdout=full), (1, None, PLACES_RULE)
            status, out, err = load("0", "3", preexec_fn=functools.partial(os.close, 1))
            yield "./load without standard output", (status, out, err != b""), (2, b"", True)
            with without_reader() as gone:
                yield "./load without a reader", load("0", "3", stdout=gone)[0], 2
            with tempfile.TemporaryFile() as file:
                yield "./load into a file", load("5", "12", stdout=file), (0, None, b"")
                file.seek(0)
                yield "  which holds", file.read(), reference.load_file(5, 12)[1]
            link = os.path.join(os.path.dirname(folder), "link")
            os.symlink(os.path.join(folder, "load"), link)
            yield "./load by a link", load("0", "3", name=link), loaded([b"0", b"3"])
            several = [[digits(i), digits(i % 14)] for i in range(28)]
            with concurrent.futures.ThreadPoolExecutor(len(several)) as workers:
                answers = list(workers.map(lambda words: load(*words), several))
            yield "several ./load at once", answers, [loaded(words) for words in several]
            yield "what ./load leaves behind", held(folder), before
    with beside("printf 'a\\0b\\n\\n\\377'; printf '%s|' \"$@\"") as (load, _):
        yield "./load leaves bytes and words as they are", load("a  b*", b"\xff"), (0, b"a\0b\n\n\xffa  b*|\xff|", b"")
    for lines in ("echo part; echo said >&2; exit 3", "kill -9 $$"):
        with beside(lines) as (load, _):
            status, _, err = load("0", "3")
            yield f"./load of a program that does {lines}", (status, err.endswith(b"load: chainload did not end well\n")), (2, True)


@part
def building(r, factor):
    """./load: when it builds chainload, and what it does where it cannot"""
    words = [b"0", b"3"]
    late = time.time() + 100

    def changes():
        """What makes the program missing or older than the crates."""
        yield "no program", lambda folder: os.remove(os.path.join(folder, "target", "bin", "chainload"))
        yield "no folder target", lambda folder: shutil.rmtree(os.path.join(folder, "target"))
        yield "a program that cannot be run", lambda folder: os.chmod(os.path.join(folder, "target", "bin", "chainload"), 0o644)
        for name in ("crates.txt", "crates/one/lib.rt", "crates/one", "crates"):
            yield f"{name} newer", lambda folder, name=name: os.utime(os.path.join(folder, name), (late, late))

    for what, change in changes():
        with beside(rt=BUILDS) as (load, folder):
            yield f"before {what}", (load(*words), held(folder).get(os.path.join(folder, "asked"))), (loaded(words), None)
            change(folder)
            yield what, load(*words), (*loaded(words)[:2], BUILDING)
            yield f"what rt is asked with {what}", held(folder).get(os.path.join(folder, "asked")), os.fsencode(f"{os.path.realpath(folder)}/crates/chainload: run -- 7 3\n")
            # Words are counted before that.
            yield f"one word, with {what}", (load(b"0"), held(folder).get(os.path.join(folder, "asked"), b"").count(b"\n")), (loaded([b"0"]), 1)
        with beside() as (load, folder):
            change(folder)
            yield f"{what}, and no rt", load(*words), (2, b"", b"load: the command rt, of the Rattle toolchain, is missing\n")
    with beside() as (load, folder):
        kept = os.path.join(folder, "crates", "one", "out")
        os.mkdir(kept)
        put(os.path.join(kept, "some"), "")
        for path in (os.path.join(kept, "some"), kept, os.path.dirname(kept)):
            os.utime(path, (late, late))
        yield "what rt keeps of a crate newer, and no rt", load(*words), loaded(words)
    with beside(rt="for i in 1 2 3 4 5 6 7 8 9 10 11; do echo said $i; echo told $i >&2; done; exit 1") as (load, folder):
        os.utime(os.path.join(folder, "crates.txt"), (late, late))
        last = b"".join(b"said %d\ntold %d\n" % (i, i) for i in range(2, 12))
        yield "what is not proved", load(*words), (2, b"", BUILDING + last)
    with beside(rt="exit 0") as (load, folder):
        os.remove(os.path.join(folder, "target", "bin", "chainload"))
        status, out, err = load(*words)
        yield "an rt that builds nothing", (status, out, err.startswith(BUILDING), err.endswith(b"load: chainload did not end well\n")), (2, b"", True, True)


def shortened(words):
    said = repr(words)
    return said if len(said) <= 300 else f"{said[:140]} .. {said[-140:]} ({len(words)} words, {sum(map(len, words))} bytes)"


def main():
    parser = argparse.ArgumentParser()
    parser.add_argument("--count", type=float, default=1.0, help="how much longer than usual")
    parser.add_argument("--seed", type=int, default=20261117)
    chosen = parser.parse_args()
    build()
    print(f"chainload against the reference, seed {chosen.seed}, count {chosen.count}")
    passed = failed = runs = 0
    for run in [*GROUPS, *PARTS]:
        began, made, wrong, broken = time.time(), 0, [], ""
        try:
            for each in run(random.Random(f"{chosen.seed} {run.__name__}"), chosen.count):
                made += 1
                what, mine, other = each if run in PARTS else (shortened(each), ran([PROGRAM, *each]), right(each))
                if mine != other:
                    wrong.append((what, mine, other))
        except AssertionError as fault:
            broken = f", not as it should be {fault}"
        name = "cases" if run in PARTS else "runs"
        runs += 0 if run in PARTS else made
        print(f"{run.__doc__.strip()}: {made} {name}, {len(wrong)} disagree{broken} ({time.time() - began:.1f} s)")
        for what, mine, other in wrong[:5]:
            print(f"  {what}: is {str(mine)[:500]}, and not {str(other)[:500]}")
        # A group that compares nothing shows nothing.
        passed, failed = (passed, failed + 1) if wrong or broken or made == 0 else (passed + 1, failed)
    print(f"{runs} runs")
    print(f"{passed} passed, {failed} failed")
    sys.exit(0 if failed == 0 else 1)


if __name__ == "__main__":
    main()
