"""The structs of include/meshorchard.h that calls take and hand back by value: a schedule with bounds, and the instrument's state."""
from __future__ import annotations

import ctypes
from typing import Optional, Sequence

NUMBER = ctypes.c_uint64
SIZE = ctypes.c_size_t


class _Struct(ctypes.Structure):
    """A struct with no padding, so that two are equal where their bytes are."""

    def __eq__(self, other) -> bool:
        return type(self) is type(other) and bytes(self) == bytes(other)

    def __hash__(self) -> int:
        return hash(bytes(self))


class Task(_Struct):
    _fields_ = [("period", NUMBER), ("duration", NUMBER), ("phase", NUMBER)]


class NumberedTask(_Struct):
    _fields_ = [("number", NUMBER), ("task", Task)]


class Chain(_Struct):
    """The task numbers at the places of a chain, and how many places it has."""

    _fields_ = [("tasks", NUMBER * 12), ("places", SIZE)]


class Schedule(_Struct):
    _fields_ = [("tasks", NumberedTask * 32), ("chains", Chain * 4), ("count", SIZE), ("chain_count", SIZE), ("gap", NUMBER)]


class Bounded(_Struct):
    """A schedule and the bound of each chain. Entries past a count, and bounds past the chains, are no part of it."""

    _fields_ = [("schedule", Schedule), ("bounds", NUMBER * 4)]


class Side(_Struct):
    """A proposal, and whether it stands: 0 means no, every other number yes."""

    _fields_ = [("proposal", Bounded), ("stands", NUMBER)]


class State(_Struct):
    """What runs, and the proposal. Hand it on as it is."""

    _fields_ = [("running", Bounded), ("firmware", Side)]

    @property
    def proposal(self) -> Optional[Bounded]:
        """The proposal, where one stands."""
        return self.firmware.proposal if self.firmware.stands else None


class Refusal(_Struct):
    _fields_ = [("number", NUMBER), ("place", SIZE)]


class MadeState(_Struct):
    _fields_ = [("state", State), ("refusal", Refusal)]


class Asked(_Struct):
    _fields_ = [("state", State), ("refusal", Refusal), ("latencies", NUMBER * 4)]


class Committed(_Struct):
    _fields_ = [("state", State), ("refusal", Refusal)]


def four(bounds: Sequence[int]) -> ctypes.Array:
    """Up to four bounds, with 0 past them."""
    return (NUMBER * 4)(*bounds)
