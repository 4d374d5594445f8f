"""Files and standard streams of the command: read, written, and told of where that fails."""
from __future__ import annotations

import os
import re
import stat
import sys
from typing import List

# The name of standard input, and of standard output.
STREAM = "-"


class Stop(Exception):
    """Wrong use, or a file that cannot be read or written: status 2."""


def shown(path: str, of: str = "standard input") -> str:
    return of if path == STREAM else path or "''"


def read(path: str, most: int = -1) -> bytes:
    """The bytes of a file or of standard input, or so many of them at most."""
    try:
        if path == STREAM:
            if sys.stdin is None:
                raise Stop("standard input is closed")
            return sys.stdin.buffer.read(most)
        with open(path, "rb") as file:
            return file.read(most)
    except OSError as fault:
        raise Stop(f"{shown(path)} cannot be read: {fault.strerror}") from None


def put(data: bytes) -> None:
    """Writes to standard output, at once. What cannot be written is told, and nothing tries it again when the program ends."""
    if sys.stdout is None:
        raise Stop("standard output is closed")
    try:
        sys.stdout.buffer.write(data)
        sys.stdout.buffer.flush()
    except OSError as fault:
        os.dup2(os.open(os.devnull, os.O_WRONLY), sys.stdout.fileno())
        if isinstance(fault, BrokenPipeError):
            # Who reads has gone, as `head` does, and knows it.
            raise SystemExit(2) from None
        raise Stop(f"standard output cannot be written: {fault.strerror}") from None


def say(lines: List[str]) -> None:
    """Lines on standard output; a terminal that lacks a sign shows a question mark for it."""
    encoding = sys.stdout.encoding if sys.stdout else "utf-8"
    put("".join(line + "\n" for line in lines).encode(encoding, "replace"))


def same_file(path: str, source: str) -> bool:
    """Whether a file to be written is the one that was read, by its name or through standard input."""
    try:
        one, two = os.stat(path), os.fstat(sys.stdin.fileno()) if source == STREAM else os.stat(source)
    except (OSError, ValueError, AttributeError):
        return False
    return stat.S_ISREG(one.st_mode) and os.path.samestat(one, two)


def write(path: str, data: bytes, source: str) -> None:
    """Writes a file; never over the one that was read."""
    if path == STREAM:
        put(data)
        return
    if same_file(path, source):
        raise Stop(f"{path} is what was read; name another file to write")
    try:
        with open(path, "wb") as file:
            file.write(data)
    except OSError as fault:
        raise Stop(f"{shown(path)} cannot be written: {fault.strerror}") from None


def title_of(path: str) -> str:
    """What a picture calls a file: its name without folder and ending, not too long, with marks for what is no text."""
    if path == STREAM:
        return shown(path)
    name = re.sub("[\x00-\x1f\x7f\ufffe\uffff]", "\ufffd", os.fsencode(os.path.splitext(os.path.basename(path))[0]).decode("utf-8", "replace"))
    return name if len(name) <= 32 else name[:31] + "…"
