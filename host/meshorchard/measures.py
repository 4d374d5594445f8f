"""Ticks as people write and read them: numbers with separators and units on the way in, microseconds and milliseconds on the way out. A tick is 1 microsecond."""
from __future__ import annotations

import re
from fractions import Fraction
from typing import Optional

from .lent import LARGEST

# How many ticks a unit has. With either of the two signs for micro it is how this program prints it.
UNITS = {"us": 1, "\u00b5s": 1, "\u03bcs": 1, "ms": 1000, "s": 1000000}
# Plain digits, or groups of three after the first; a number with groups does not begin with 0, so that 0,004 is not taken for 4.
WHOLE = r"[0-9]+|[1-9][0-9]{0,2}(?:,[0-9]{3})+|[1-9][0-9]{0,2}(?:_[0-9]{3})+"
TIME = re.compile(rf"(?P<whole>{WHOLE})(?:\.(?P<part>[0-9]+))?(?P<unit>[^0-9.,_]*)")
# More digits than any number here has. Python itself refuses some thousands.
MOST_DIGITS = 30


class Unclear(Exception):
    """A word that is no number here, and why."""


def _digits(word: str) -> int:
    digits = word.replace(",", "").replace("_", "").lstrip("0") or "0"
    if len(digits) > MOST_DIGITS or int(digits) > LARGEST:
        raise Unclear("the number is too large")
    return int(digits)


def whole(word: str) -> int:
    """A plain number, as that of a task or of a job."""
    if not re.fullmatch(WHOLE, word):
        raise Unclear(_why(word, "7 or 1,024"))
    return _digits(word)


def _why(word: str, examples: str) -> str:
    if re.fullmatch(r"[0-9][0-9,_]*[,_][0-9,_]*(\.[0-9]*)?[a-z]*", word):
        return "',' and '_' stand only between thousands, as in 1,000,000, and a decimal point is '.'"
    return f"this is not a number as {examples}"


def ticks(word: str, unit: Optional[str] = None) -> int:
    """A time in ticks. The unit stands at the number or is the word after it; without one the number is in ticks. What is no whole number of ticks is refused."""
    found = TIME.fullmatch(word)
    if not found:
        raise Unclear(_why(word, "2500, 2,500, 2_500 or 2.5ms"))
    name = found["unit"] or unit or "us"
    if found["unit"] and unit:
        raise Unclear("there are two units")
    if name not in UNITS:
        raise Unclear(f"'{name}' is no unit here; the units are us, ms and s")
    if found["part"] and not (found["unit"] or unit):
        raise Unclear("a number with a point has a unit, as 2.5ms; 1.000 alone might be a thousand")
    value, part = _digits(found["whole"]) * UNITS[name], (found["part"] or "").rstrip("0") or "0"
    if len(part) > MOST_DIGITS:
        raise Unclear("there are too many digits after the point")
    exact = value + Fraction(int(part) * UNITS[name], 10 ** len(part))
    if exact.denominator != 1:
        raise Unclear("this is no whole number of ticks, and a tick is 1 us")
    if exact > LARGEST:
        raise Unclear("the number is too large")
    return int(exact)


def decimal(value: Fraction, digits: int = 3, zeros: bool = False) -> str:
    """A number with separators, exact where so many digits after the point suffice, else rounded and marked. Zeros at its end are left out, or stay."""
    scaled = value * 10**digits
    exact = scaled.denominator == 1
    rounded = (2 * scaled.numerator + scaled.denominator) // (2 * scaled.denominator)
    before, after = divmod(rounded, 10**digits)
    shown = f"{before:,}.{after:0{digits}d}" if digits else f"{before:,}"
    shown = shown.rstrip("0").rstrip(".") if digits and not zeros else shown
    return shown if exact else f"≈ {shown}"


def percent(part: int, whole: int) -> str:
    """A share to a tenth of a percent. The tenth always stands there, so that shares below each other align at their points."""
    return f"{decimal(Fraction(100 * part, whole), 1, True)} %"


def in_unit(value, unit: str, digits: int = 3, zeros: bool = False) -> str:
    """Ticks in a unit, without its name."""
    return decimal(Fraction(value) / (1000 if unit == "ms" else 1), digits, zeros)


def said(value) -> str:
    """A time in words: in microseconds, and from a millisecond on in milliseconds too."""
    exact = Fraction(value)
    small = f"{decimal(exact)} µs"
    return f"{small} ({in_unit(exact, 'ms')} ms)" if exact >= 1000 else small


def short(value) -> str:
    """A time as short as it can be said exactly: in milliseconds from 1,000 ticks on."""
    unit = unit_for(value)
    return f"{in_unit(value, unit)} {sign(unit)}"


def unit_for(value) -> str:
    """The unit in which a time is read most easily."""
    return "ms" if value >= 1000 else "us"


def sign(unit: str) -> str:
    """How a unit is printed."""
    return "µs" if unit == "us" else unit


def counted(count: int, name: str) -> str:
    """So many of something."""
    return f"{count:,} {name}{'' if count == 1 else 's'}"
