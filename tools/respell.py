#!/usr/bin/env python3
"""Spells the repository's own definitions, lemmas and fields of records as today's Rattle spells them: words in snake case.

usage: respell.py [--list]        at the top of the repository, once, after port.py

The names are those that the files of specs/ and the lemma files of proofs/ declare: afterFault becomes after_fault, fault-here becomes fault_here. Types and modules, the functions of src/, exported names, strings, inputs and
outputs keep their names. --list prints each name with its new one, and what falls together, and changes nothing.
"""

import os
import re
import subprocess
import sys

# Names that would be those of crates, and what they are called instead.
OTHERWISE = {"tableText": "text_of_table", "loadFile": "file_of_load", "load-report": "load_report_holds"}
# Lemmas that port.py has spelled so already, each beside a definition that is to be called so.
LEMMAS = {"all_right", "chain_by", "cleared_by", "longest_run", "moved_at"}

DECLARED = re.compile(r"^ *(?:(?:abbrev|unfoldable|opaque|private|instance|pub) +)*(?:(?:record|data|module) +)?([^\s:(){}]+)(?: +(?:\([^()]*\)|\{[^{}]*\}))* +: ")
# A word of antt's text, and one of Rust's.
WORD = re.compile(r"[^\s(){}\[\];,@\"«».`|:λ→¬]+")


def snake(name):
    words = re.sub(r"(?<=[a-z0-9])[A-Z]", lambda m: "_" + m[0].lower(), name)
    return OTHERWISE.get(name, words.replace("-", "_"))


def is_word(name):
    return name[0].islower() and re.fullmatch(r"[\w'′₀-₉-]+", name) and (re.search(r"[a-z0-9][A-Z]", name) or "-" in name)


def files(root, *ends):
    out = subprocess.run(["git", "ls-files", "-z"], cwd=root, capture_output=True, text=True, check=True).stdout
    return [f for f in out.split("\0") if f.endswith(ends)]


def read(f):
    with open(f, encoding="utf-8") as x:
        return x.read()


def lemma_file(f):
    return re.fullmatch(r"crates/\w+/(?:specs/.*|proofs/\w+)\.antt", f)


def declared(root):
    names = {}
    for f in files(root, ".antt"):
        if not lemma_file(f):
            continue
        for line in read(f).splitlines():
            m = DECLARED.match(line)
            if m and not line.lstrip().startswith("--"):
                names.setdefault(m[1], []).append(f)
    return names


def renamed(root):
    """Every name that is declared, and the new name of each that gets one. Where a lemma would be called as a definition is, its new name ends in _holds."""
    names = declared(root)
    new = {n: snake(n) for n in names if is_word(n)}
    taken = {snake(n) for n in names if "-" not in n and n not in LEMMAS}
    for n in names:
        if (n in LEMMAS or n in new and "-" in n) and snake(n) in taken:
            new[n] = snake(n) + "_holds"
    return names, new


def turn(text, new):
    return WORD.sub(lambda m: new.get(m[0], m[0]), text)


def quoted(text, new):
    """Of a comment or a page: what stands in backticks, and names in camel case, which no English word is."""
    text = re.sub(r"`([^`\n]+)`", lambda m: "`" + turn(m[1], new) + "`", text)
    return turn(text, {o: n for o, n in new.items() if re.search("[a-z0-9][A-Z]", o)})


def turn_lines(text, new, comment):
    out = []
    for line in text.splitlines(keepends=True):
        code, mark, rest = re.fullmatch(r"(?s)((?:[^\"" + comment[0] + r"]|\"(?:[^\"\\]|\\.)*\"|\"(?![^\"]*\")|" + comment[0] + r"(?!" + comment[0] + r"))*)(" + comment + r"|)(.*)", line).groups()
        parts = re.split(r"(\"(?:[^\"\\]|\\.)*\")", code)
        out.append("".join(p if p.startswith('"') and p.endswith('"') and len(p) > 1 else turn(p, new) for p in parts) + mark + quoted(rest, new))
    return "".join(out)


def main():
    names, new = renamed(".")
    if "--list" in sys.argv:
        met = {}
        for old, n in sorted(new.items()):
            met.setdefault(n, []).append(old)
            print(old, n)
        for n, olds in sorted(met.items()):
            if len(olds) > 1 or n in names:
                print("MEET", n, olds, "declared already" if n in names else "", [sorted({f.split("/")[1] + "/" + f.split("/")[-1] for f in names[o]}) for o in olds + ([n] if n in names else [])])
        return
    for f in files(".", ".antt", ".rt", ".edit", ".md"):
        text = read(f)
        if f.endswith(".md"):
            after = re.sub(r"`([^`\n]+)`", lambda m: "`" + turn(m[1], new) + "`", text)
        elif f.endswith(".edit"):
            after = turn(text, new)
        else:
            after = turn_lines(text, new, "--" if f.endswith(".antt") else "//")
        if after != text:
            with open(f, "w", encoding="utf-8") as x:
                x.write(after)


main()
