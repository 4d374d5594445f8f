#!/usr/bin/env python3
"""Order 4 of document 02: the step from one partition to the following one has no division and no remainder.

Looks at the source of the crate `stepping` and of the few functions outside it that stand in the same loop, and at the compiled calls that walk
partitions: the loop in which the step stands may have no division instruction, no widening product, by which compilers divide by constants, and
no way out of the function that could hide one. The step is known by its shifts by a variable, and its loop is the smallest that has all of them.
"""
import os
import re
import subprocess
import sys

TOP = os.path.dirname(os.path.dirname(os.path.abspath(__file__)))
STEP = os.path.join("crates", "stepping", "src", "lib.rt")
# What else a turn of the loops over the partitions runs, that of making and that of the greatest latency.
BESIDE = [
    (os.path.join("crates", "maker", "src", "lib.rt"), ("walk", "add_anchor", "last_end", "store")),
    (os.path.join("crates", "latency", "src", "lib.rt"), ("walk", "latency_of")),
    (os.path.join("crates", "chain", "src", "lib.rt"), ("task_at", "given_at")),
    (os.path.join("crates", "task", "src", "lib.rt"), ("read", "write")),
]
# mo_sections has its loop in a function of its own, which it calls for each section.
CALLS = [("libcapi_maker.a", "mo_make_table"), ("libcapi_sections.a", "sections::section_latency"), ("libcapi_phase.a", "mo_smallest_phase"), ("libcapi_report.a", "mo_report")]


def text_of(path):
    with open(os.path.join(TOP, path), encoding="utf-8") as source:
        return source.read()


def body_of(text, function):
    """The function's body, from the first brace that begins a line to the next that ends one at the same depth."""
    found = re.search(rf"^( *)(?:pub )?fn {function}\(.*?^\1\{{$(.*?)^\1\}}$", text, re.MULTILINE | re.DOTALL)
    return found.group(2) if found else ""


def divisions(text):
    """The lines with / or % outside comments."""
    return [line.strip() for line in text.splitlines() if re.search(r"[/%]", line.split("//")[0])]


def instructions(archive, function):
    """The function's instructions: (address, name, operands)."""
    listed = subprocess.run(["objdump", "-d", "--no-show-raw-insn", f"--disassemble={function}", archive], check=True, stdout=subprocess.PIPE, text=True).stdout
    lines = re.findall(r"^ *([0-9a-f]+):\t(?:(?:data16|cs|ds|notrack|bnd|rep|repz|lock) )*(\S+)(?: +(.*))?$", listed, re.MULTILINE)
    return [(int(address, 16), name, operands) for address, name, operands in lines]


def tabled(archive, function):
    """The addresses in the function's jump tables. An entry is an address less its table's, so the linker is told that address and the entry's distance from the table's start."""
    told = subprocess.run(["objdump", "-dr", "--no-show-raw-insn", f"--disassemble={function}", archive], check=True, stdout=subprocess.PIPE, text=True).stdout
    starts = sorted({int(start or "0", 16) + 4 for start in re.findall(rf"R_X86_64_PC32\t\.rodata\.{function}([+-]0x[0-9a-f]+)?", told)})
    told = subprocess.run(["objdump", "-r", "-j", f".rodata.{function}", archive], stdout=subprocess.PIPE, stderr=subprocess.DEVNULL, text=True).stdout
    entries = [(int(at, 16), int(to, 16)) for at, to in re.findall(rf"^([0-9a-f]+) R_X86_64_PC32 +\.text\.{function}\+0x([0-9a-f]+)$", told, re.MULTILINE)]
    return sorted({to - (at - max(start for start in starts if start <= at)) for at, to in entries})


def followers(listed, table):
    """Of each instruction the places in the list to which it can go on, and whether it can leave the function for another: by a call, or by a jump out. A jump by a
    table, which goes by a register, may go to every address that is in one."""
    at = {address: i for i, (address, _, _) in enumerate(listed)}
    onward, leaves = [], []
    for i, (_, name, operands) in enumerate(listed):
        ways, out = [], name.startswith("call")
        if name == "jmp" and operands.startswith("*%"):
            out = not table or any(address not in at for address in table)
            ways += [at[address] for address in table if address in at]
        elif name.startswith("j"):
            target = re.match(r"([0-9a-f]+) <", operands)
            place = at.get(int(target.group(1), 16)) if target else None
            out = place is None
            ways += [] if out else [place]
        if name not in ("jmp", "ret", "retq", "ud2", "hlt") and i + 1 < len(listed):
            ways.append(i + 1)
        onward.append(ways)
        leaves.append(out)
    return onward, leaves


def reached(onward):
    """The instructions to which a way from the entry comes; padding between them has none."""
    seen, left = set(), [0]
    while left:
        i = left.pop()
        if i not in seen:
            seen.add(i)
            left.extend(onward[i])
    return sorted(seen)


def dominators(onward, before):
    """Of each instruction those through which every way from the entry to it goes, as bits of a number."""
    everything = (1 << len(onward)) - 1
    found = [1] + [everything] * (len(onward) - 1)
    changed = True
    while changed:
        changed = False
        for i in reached(onward)[1:]:
            common = everything
            for j in before[i]:
                common &= found[j]
            common |= 1 << i
            if common != found[i]:
                found[i], changed = common, True
    return found


def loops(onward):
    """The natural loops, each as the set of its instructions."""
    before = [[] for _ in onward]
    for i in reached(onward):
        for way in onward[i]:
            before[way].append(i)
    through, found = dominators(onward, before), {}
    for i in reached(onward):
        for head in onward[i]:
            if through[i] >> head & 1:
                loop, left = found.setdefault(head, {head}), [i]
                while left:
                    j = left.pop()
                    if j not in loop:
                        loop.add(j)
                        left.extend(before[j])
    return list(found.values())


def main():
    given = [(sys.argv[1], "mo_make_table")] if len(sys.argv) > 1 else None
    if given is None:
        subprocess.run([os.path.join(TOP, "host", "archives")], check=True, stdout=subprocess.DEVNULL, stderr=subprocess.DEVNULL)
        given = [(os.path.join(TOP, "target", "staticlib", archive), call) for archive, call in CALLS]
    passed = failed = 0

    def expect(holds, said):
        nonlocal passed, failed
        passed, failed = passed + bool(holds), failed + (not holds)
        print(f"{'ok' if holds else 'NOT SO'}: {said}")

    text = text_of(STEP)
    expect(text and not divisions(text), f"no / and no % in the {len(text.splitlines())} lines of {STEP} {divisions(text) or ''}")
    for path, functions in BESIDE:
        for function in functions:
            body = body_of(text_of(path), function)
            expect(body and not divisions(body), f"none in the {len(body.splitlines())} lines of {function} in {path} {divisions(body) or ''}")

    for archive, call in given:
        listed = instructions(archive, call)
        onward, leaves = followers(listed, tabled(archive, call))
        shifts = {i for i, (_, name, operands) in enumerate(listed) if name.startswith("shrx") or (name.startswith("shr") and operands.startswith("%cl"))}
        dividing = {i for i, (_, name, _) in enumerate(listed) if "div" in name}
        widening = {i for i, (_, name, operands) in enumerate(listed) if re.match(r"i?mul[lq]?$|mulx", name) and "," not in operands}
        out = {i for i, leaving in enumerate(leaves) if leaving}
        expect(dividing, f"{call} has {len(listed)} instructions; {len(dividing)} divide, so that a division would be seen")
        expect(len(shifts) > 1, f"{len(shifts)} shift by a variable, as the step does on its two ways")
        around = [loop for loop in loops(onward) if shifts <= loop] if shifts else []
        expect(around, "a loop has them all")
        loop = min(around, key=len, default=set())
        for kind, wrong in (("divides", dividing & loop), ("multiplies into two words", widening & loop), ("leaves the function", out & loop)):
            expect(loop and not wrong, f"of its {len(loop)} instructions none {kind} {[hex(listed[i][0]) for i in sorted(wrong)] or ''}")
    print(f"{passed} passed, {failed} failed")
    return 0 if failed == 0 else 1


if __name__ == "__main__":
    sys.exit(main())
