"""The shared object of the proved calls: where it is, how each call is declared, and how to make it where it is missing."""
from __future__ import annotations

import ctypes
import functools
import os

from . import structs
from .structs import NUMBER, SIZE

TOP = os.path.dirname(os.path.dirname(os.path.dirname(os.path.abspath(__file__))))
# The variable names another one.
VARIABLE = "MESHORCHARD_LIBRARY"
MADE = os.path.join(TOP, "target", "host", "libmeshorchard.so")

NUMBERS = ctypes.POINTER(NUMBER)
BYTES = ctypes.POINTER(ctypes.c_char)

# What the calls of include/meshorchard.h have in common: a lent table, chain, schedule.
TABLE = (NUMBERS, SIZE, NUMBERS, SIZE, NUMBER, NUMBER)
CHAIN = (NUMBERS, SIZE, SIZE, NUMBER)
SCHEDULE = (NUMBERS, SIZE, SIZE, NUMBERS, SIZE, NUMBERS, SIZE, SIZE, NUMBER)
DECLARED = {
    "mo_read_table": (*TABLE, NUMBER),
    "mo_greatest": (*TABLE, NUMBERS),
    "mo_low": (*TABLE, NUMBERS),
    "mo_mean": (*TABLE, NUMBERS, NUMBERS),
    "mo_throughput": (*TABLE, NUMBERS, NUMBERS),
    "mo_exceedance": (*TABLE, NUMBER, NUMBERS, NUMBERS),
    "mo_histogram": (*TABLE, NUMBER, NUMBERS, SIZE, NUMBERS),
    "mo_check": (*CHAIN, NUMBERS),
    "mo_warm_up": (*CHAIN, NUMBERS, NUMBERS, NUMBERS),
    "mo_delay": (*CHAIN, NUMBER, NUMBERS),
    "mo_age": (*CHAIN, NUMBER, NUMBERS),
    "mo_make_table": (*CHAIN, SIZE, NUMBERS, SIZE, NUMBERS, SIZE, NUMBERS),
    "mo_windows": (*CHAIN, NUMBER, NUMBER, NUMBERS, NUMBERS),
    "mo_sections": (*CHAIN, NUMBERS, SIZE, NUMBERS, NUMBERS, NUMBERS),
    "mo_load": (NUMBER, SIZE, NUMBERS),
    "mo_read_file": (BYTES, SIZE, NUMBERS, NUMBERS, NUMBERS, NUMBERS),
    "mo_write_file": (*SCHEDULE, BYTES, SIZE, NUMBERS),
    "mo_chain_of_schedule": (*SCHEDULE, SIZE, NUMBERS, NUMBERS),
    "mo_bookings": (*SCHEDULE, SIZE, SIZE, NUMBER, NUMBERS),
    "mo_smallest_phase": (*SCHEDULE, SIZE, NUMBER, NUMBER, NUMBERS, NUMBERS),
    "mo_bounded_schedule": (*SCHEDULE, NUMBERS),
    "mo_make_state": (structs.Bounded,),
    "mo_ask": (structs.State, structs.Bounded),
    "mo_commit": (structs.State, structs.Bounded),
    "mo_report": (BYTES, SIZE, BYTES, SIZE),
}
# What a call hands back; a number where nothing is said.
GIVES = {
    "mo_bounded_schedule": structs.Bounded,
    "mo_make_state": structs.MadeState,
    "mo_ask": structs.Asked,
    "mo_commit": structs.Committed,
}


class Missing(Exception):
    """There is no shared object to load."""


def path() -> str:
    """Where the shared object is looked for."""
    return os.path.abspath(os.environ.get(VARIABLE) or MADE)


@functools.lru_cache(maxsize=None)
def load() -> ctypes.CDLL:
    """The shared object, loaded once, with each call declared as in the header."""
    where = path()
    named = bool(os.environ.get(VARIABLE))
    cure = f"{where} is what the variable {VARIABLE} names; without it the one that host/library makes is loaded"
    if not named:
        cure = f"host/library makes it, from the archives, with the Rattle toolchain and gcc; the variable {VARIABLE} names another one"
    if not os.path.exists(where):
        raise Missing(f"there is no shared object of the proved calls at {where}; {cure}")
    try:
        found = ctypes.CDLL(where)
        for name, arguments in DECLARED.items():
            call = getattr(found, name)
            call.argtypes, call.restype = arguments, GIVES.get(name, NUMBER)
    except (OSError, AttributeError) as fault:
        raise Missing(f"this is no shared object of the proved calls: {fault}; {cure}") from None
    return found
