"""The command for clubs and makers: its arguments, what each command prints and writes, and its status: 0, or 1 where something is refused, or 2 for wrong use."""
from __future__ import annotations

import argparse
import os
import sys
import traceback
from typing import List, Optional, Sequence

from . import analysis, calls, curve, histogram, limits, measures, page, refusals, text, words
from .lent import Chain, Schedule
from .library import Missing
from .refusals import Refused
from .streams import STREAM, Stop, put, read, say, shown, title_of, write

PROGRAM = "./meshorchard"
# What the instrument's program looks at of its input; the longest schedule has 698 bytes.
REPORTED = 4096
# No text needs as much.
LONGEST_TEXT = 1000000


class Unsound(Exception):
    """A file or a text that is refused, in words: status 1."""


def file_bytes(path: str) -> bytes:
    """The bytes of a schedule file, as many of them as the instrument's program looks at, so that every command judges what the report judges."""
    return read(path, REPORTED)


def cut_short(data: bytes) -> str:
    return f" Only the first {REPORTED:,} bytes are looked at." if len(data) == REPORTED else ""


def schedule_of(path: str) -> Schedule:
    """The schedule of a file; in words why it is none."""
    data = file_bytes(path)
    try:
        return calls.read_file(data)
    except Refused as refused:
        hint = ""
        if data.lstrip(b"\xef\xbb\xbf \t\r\n").startswith((b"task", b"chain", b"gap", b"#")):
            hint = f" It looks like a text; `{PROGRAM} write {shown(path, STREAM)} FILE` makes a file of it."
        raise Unsound(words.of_file(shown(path), data, refused) + cut_short(data) + hint) from None


def chain_of(schedule: Schedule, path: str, number: int) -> Chain:
    """A chain of a schedule by its number."""
    try:
        return calls.chain_of_schedule(schedule, number)
    except Refused as refused:
        has = measures.counted(schedule.chain_count, "chain")
        raise Unsound(f"chain {number:,} is refused with {refused.number}: {shown(path)} has {has}, numbered from 1.") from None


def on_chain(schedule: Schedule, number: int, ask):
    """What a call on a chain says, or why it refuses."""
    try:
        return ask()
    except Refused as refused:
        raise Unsound(words.of_chain(schedule, number, refused)) from None


def tell(path: str, lines: Sequence[str]) -> None:
    """Lines beside a file that is written: on standard error where that is standard output."""
    if path == STREAM:
        print("\n".join(lines), file=sys.stderr)
    else:
        say(lines)


def write_schedule(path: str, schedule: Schedule, source: str, lines: Sequence[str] = ()) -> None:
    """Writes the file of a schedule; then come these lines and what stands in the file now."""
    data = limits.file_of(schedule)
    write(path, data, source)
    back = read(path) if path != STREAM and os.path.isfile(path) else data
    if back != data:
        raise Stop(f"{path} does not hold what was written to it")
    name = shown(path, "standard output")
    tell(path, [*lines, f"{name}: {len(back)} bytes; the instrument will read", text.canonical(calls.read_file(back)).rstrip("\n")])
    # The file is what the schedule says; that a chain of it has no table is told here already.
    for number in range(1, schedule.chain_count + 1):
        said, refused = words.check_chain(schedule, number)
        if refused:
            print(f"note: {said[-1].strip()}", file=sys.stderr)


# ---- The commands

def do_write(asked) -> int:
    given = read(asked.text, LONGEST_TEXT + 1)
    if len(given) > LONGEST_TEXT:
        raise Unsound(f"{shown(asked.text)} has more than {LONGEST_TEXT:,} bytes; the longest schedule has 37 lines.")
    try:
        schedule = text.read(text.decoded(given))
    except text.WrongLine as wrong:
        raise Unsound(f"{shown(asked.text)}, {wrong}") from None
    write_schedule(asked.file, schedule, asked.text)
    return 0


def do_text(asked) -> int:
    write(STREAM, text.canonical(schedule_of(asked.file)).encode(), asked.file)
    return 0


def do_check(asked) -> int:
    schedule, status = schedule_of(asked.file), 0
    lines = words.accepted(schedule, shown(asked.file))
    for number in range(1, schedule.chain_count + 1):
        said, refused = words.check_chain(schedule, number)
        lines += said
        status = 1 if refused else status
    say(lines)
    return status


def do_report(asked) -> int:
    data, out = file_bytes(asked.file), bytearray(calls.LONGEST_REPORT)
    report = bytes(out[:calls.report(data, out)])
    write(STREAM, report, asked.file)
    return 1 if b"refused" in report else 0


def do_explain(asked) -> int:
    if asked.number not in refusals.MEANINGS:
        raise Stop(f"no refusal has the number {asked.number:,}; they are 1 to {max(refusals.MEANINGS)}")
    say(refusals.explanation(asked.number, asked.place))
    return 0


def answer_at(asked, ask) -> int:
    """The delay or the age at a tick."""
    if asked.named is not None and asked.chain is not None:
        raise Stop("the chain is named twice")
    schedule, number = schedule_of(asked.file), next((each for each in (asked.named, asked.chain) if each is not None), 1)
    chain_of(schedule, asked.file, number)
    say(on_chain(schedule, number, lambda: ask(schedule, number, asked.tick)))
    return 0


def do_delay(asked) -> int:
    return answer_at(asked, words.delay)


def do_age(asked) -> int:
    return answer_at(asked, words.age)


def name_of(schedule: Schedule, asked) -> str:
    """What a picture of one chain calls it."""
    return f"{title_of(asked.file)}, chain {asked.chain}" if schedule.chain_count > 1 else title_of(asked.file)


def do_curve(asked) -> int:
    schedule = schedule_of(asked.file)
    chain = chain_of(schedule, asked.file, asked.chain)
    figures = on_chain(schedule, asked.chain, lambda: analysis.made(chain))
    write(asked.output, curve.picture(chain, figures, name_of(schedule, asked)).encode(), asked.file)
    return 0


def do_histogram(asked) -> int:
    schedule = schedule_of(asked.file)
    chain = chain_of(schedule, asked.file, asked.chain)
    figures = on_chain(schedule, asked.chain, lambda: analysis.made(chain))
    bars = on_chain(schedule, asked.chain, lambda: analysis.histogram(figures, asked.width))
    if asked.output is None:
        say(words.histogram(asked.chain, figures, bars))
    else:
        write(asked.output, histogram.picture(figures, bars, name_of(schedule, asked)).encode(), asked.file)
    return 0


def do_page(asked) -> int:
    data, name = file_bytes(asked.file), title_of(asked.file)
    try:
        made = page.of_schedule(name, calls.read_file(data), asked.bound, asked.jobs)
    except Refused as fault:
        made = page.of_refused(name, words.of_file("the file", data, fault) + cut_short(data))
    write(asked.output, made.text().encode(), asked.file)
    for sentence in made.refusals:
        print(sentence, file=sys.stderr)
    return 1 if made.refusals else 0


def do_pair(asked) -> int:
    schedule = schedule_of(asked.file)
    for number in (asked.first, asked.second):
        chain_of(schedule, asked.file, number)
    try:
        found = calls.bookings(schedule, asked.first, asked.second, asked.tick)
    except Refused as refused:
        raise Unsound(words.of_pair(schedule, asked.first, asked.second, refused)) from None
    say(words.pair(schedule, found, asked.first, asked.second, asked.tick))
    return 0


def do_windows(asked) -> int:
    schedule = schedule_of(asked.file)
    chain = chain_of(schedule, asked.file, asked.chain)
    found = on_chain(schedule, asked.chain, lambda: calls.windows(chain, asked.bound, asked.jobs))
    say([f"chain {asked.chain}: {words.windows(found, asked.bound, asked.jobs)}"])
    return 0


def do_sections(asked) -> int:
    schedule = schedule_of(asked.file)
    chain_of(schedule, asked.file, asked.chain)
    cuts = [cut for few in asked.cuts for cut in few]
    say(on_chain(schedule, asked.chain, lambda: words.sections(schedule, asked.chain, cuts)))
    return 0


def do_phase(asked) -> int:
    schedule = schedule_of(asked.file)
    chain_of(schedule, asked.file, asked.chain)
    try:
        today, then = analysis.smallest_phase(schedule, asked.chain, asked.task, asked.bound)
    except Refused as refused:
        raise Unsound(words.of_task(schedule, asked.chain, asked.task, refused)) from None
    lines = words.smallest_phase(schedule, asked.chain, asked.task, asked.bound, today, then)
    if asked.output is None:
        say(lines)
        return 0
    if then is None:
        tell(asked.output, lines)
        print(f"{shown(asked.output, 'standard output')} is not written: no phase keeps the bound.", file=sys.stderr)
        return 1
    write_schedule(asked.output, schedule.with_phase(asked.task, then.phase), asked.file, lines)
    return 0


# ---- The arguments

def as_ticks(word: str) -> int:
    number, *unit = word.split(None, 1) or [word]
    try:
        return measures.ticks(number, *unit)
    except measures.Unclear as why:
        raise argparse.ArgumentTypeError(f"'{word}': {why}; right would be 42000, 42,000, 42000us, 42ms or 0.042s") from None


def as_number(word: str) -> int:
    try:
        return measures.whole(word)
    except measures.Unclear as why:
        unit = "; a unit stands at its number, as in 42ms" if word in measures.UNITS else ""
        raise argparse.ArgumentTypeError(f"'{word}': {why}{unit}") from None


def as_cuts(word: str) -> List[int]:
    """Cuts, with commas between them."""
    return [as_number(each) for each in word.split(",")]


# Name, what it does, its arguments, an example.
FILE = ("file", {"metavar": "FILE", "help": "a schedule file, or - for standard input"})
TICK = ("tick", {"metavar": "TICK", "type": as_ticks, "help": "in ticks of 1 us, or with a unit, as 42ms"})
CHAIN = ("named", {"metavar": "CHAIN", "type": as_number, "nargs": "?", "help": "the chain's number; 1 where none is named"})
# The same as an option, for who knows it from the other commands.
CHAIN_TOO = ("--chain", {"metavar": "N", "type": as_number, "help": argparse.SUPPRESS})
ONE_CHAIN = ("--chain", {"metavar": "N", "type": as_number, "default": 1, "help": "the chain's number; 1 where none is named"})
OUTPUT = {"metavar": "OUT", "required": True, "help": "the file to write, or - for standard output"}
COMMANDS = (
    ("write", do_write, "make a schedule file of a text, and show what stands in it", (("text", {"metavar": "TEXT", "help": "a text, or - for standard input"}), ("file", {"metavar": "FILE", "help": "the file to write, or - for standard output"})),
     "write examples/laser.txt laser.schedule"),
    ("text", do_text, "print a schedule file as text", (FILE,), "text examples/laser.schedule"),
    ("check", do_check, "say what is in a schedule file, or why it is refused", (FILE,), "check examples/two-boards.schedule"),
    ("report", do_report, "print the report of a schedule file, as the instrument's program does", (FILE,), "report examples/chain-a.schedule"),
    ("explain", do_explain, "say what a refusal's number means", (("number", {"metavar": "N", "type": as_number}), ("place", {"metavar": "P", "type": as_number, "nargs": "?", "help": "the refusal's place"})),
     "explain 5 18"),
    ("delay", do_delay, "how long a press at a tick waits, and by which jobs it is booked", (FILE, TICK, CHAIN, CHAIN_TOO), "delay examples/laser.schedule 95ms"),
    ("age", do_age, "how old the newest reading is that a leg at a tick is booked from, and through which jobs it came", (FILE, TICK, CHAIN, CHAIN_TOO), "age examples/two-boards.schedule 325000 2"),
    ("curve", do_curve, "draw the delay of a press over one hyperperiod", (FILE, ("-o", {"dest": "output", **OUTPUT}), ONE_CHAIN), "curve examples/waters19-c1.schedule -o waters.svg"),
    ("histogram", do_histogram, "count how many ticks of one hyperperiod have each delay", (
        FILE, ("--width", {"metavar": "W", "type": as_ticks, "required": True, "help": "the delays are counted in steps of this: in ticks of 1 us, or with a unit, as 5ms"}), ONE_CHAIN,
        ("-o", {"dest": "output", "metavar": "OUT", "help": "the picture to write, or - for standard output; where none is named, bars of text are printed"}),
    ), "histogram examples/waters19-c1.schedule --width 20ms"),
    ("page", do_page, "make a page of everything", (
        FILE, ("-o", {"dest": "output", **OUTPUT}),
        ("--bound", {"metavar": "B", "type": as_ticks, "default": None, "help": "the delay that should not be exceeded; 95 %% of each chain's greatest where none is named"}),
        ("--jobs", {"metavar": "K", "type": as_number, "default": 10, "help": "how many successive jobs a window has; 10 where none is named"}),
    ), "page examples/laser-and-compass.schedule -o laser.html --bound 120ms"),
    ("pair", do_pair, "when a press is booked by two chains", (FILE, TICK, ("first", {"metavar": "N", "type": as_number, "help": "the number of a chain"}), ("second", {"metavar": "M", "type": as_number, "help": "the number of a chain"})),
     "pair examples/laser-and-compass.schedule 42000 1 2"),
    ("windows", do_windows, "how many of K successive jobs take longer than B ticks from read to booking", (
        FILE, ("bound", {"metavar": "B", "type": as_ticks, "help": "in ticks of 1 us, or with a unit"}), ("jobs", {"metavar": "K", "type": as_number, "help": "1 to 100"}), ONE_CHAIN,
    ), "windows examples/waters19-c1.schedule 862600 10"),
    ("sections", do_sections, "the greatest latency of each section of a chain that is cut, as its maker has it, their sum, and that of the whole", (
        FILE, ("cuts", {"metavar": "CUTS", "type": as_cuts, "nargs": "+", "help": "the places after which the chain is cut, as 2,4"}), ONE_CHAIN,
    ), "sections examples/two-boards.schedule 2 --chain 2"),
    ("phase", do_phase, "find the smallest phase of a task with which a chain's greatest latency is at most a bound", (
        FILE, ("task", {"metavar": "TASK", "type": as_number, "help": "the number of a task of the chain; its period is at most 10 ms"}),
        ("bound", {"metavar": "BOUND", "type": as_ticks, "help": "in ticks of 1 us, or with a unit, as 130ms"}), ONE_CHAIN,
        ("-o", {"dest": "output", "metavar": "OUT", "help": "the schedule file to write, in which the task has that phase, or - for standard output"}),
    ), "phase examples/two-boards.schedule 30 130ms --chain 2"),
)


class Parser(argparse.ArgumentParser):
    """The arguments; its help is printed as everything else is."""

    def print_help(self, file=None) -> None:
        put(self.format_help().encode())


def arguments() -> argparse.ArgumentParser:
    examples = "\n".join(f"  {PROGRAM} {example}" for *_, example in COMMANDS)
    parser = Parser(
        prog=PROGRAM, description="Schedules of cave-survey instruments: from a text to a file, to delays, and to pictures of them. Every delay comes from the proved calls.",
        epilog=f"examples:\n{examples}\n\nThe exit status is 0; 1 where something is refused; 2 for wrong use, or where a file cannot be read or written.",
        formatter_class=argparse.RawDescriptionHelpFormatter,
    )
    commands = parser.add_subparsers(dest="command", metavar="COMMAND", required=True)
    for name, do, about, wanted, example in COMMANDS:
        form = f"a text:\n{text.EXAMPLE}\n\n" if name == "write" else ""
        each = commands.add_parser(
            name, help=about, description=f"{about[0].upper()}{about[1:]}.", epilog=f"{form}example:\n  {PROGRAM} {example}", formatter_class=argparse.RawDescriptionHelpFormatter,
        )
        each.set_defaults(do=do)
        for word, how in wanted:
            each.add_argument(word, **how)
    return parser


def main(given: Optional[List[str]] = None) -> int:
    sys.stderr = sys.stderr or open(os.devnull, "w")
    try:
        asked = arguments().parse_args(given)
        return asked.do(asked)
    except SystemExit as ended:
        # Help, or arguments that are none.
        return ended.code or 0
    except Unsound as why:
        print(why, file=sys.stderr)
        return 1
    except (Stop, Missing, calls.Broken, analysis.Disagreement, analysis.TooNarrow) as why:
        print(f"{PROGRAM}: {why}", file=sys.stderr)
        return 2
    except Exception:
        # A fault of this program is no refusal, so its status is not 1.
        traceback.print_exc()
        return 2
