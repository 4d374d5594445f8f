"""Delay tables for chains of fixed-duration tasks, on a host: the proved calls of include/meshorchard.h, and what clubs and makers use them for.

    from meshorchard import Chain, calls
    calls.delay(Chain.of([(4, 4, 0), (6, 6, 0)]), 0)     # 18

`calls` has every call as a function; the other modules make texts, words and pictures of what the calls answer, and compute no delay themselves. Python 3.9 and
later; nothing beside the standard library.
"""
from .calls import Broken
from .lent import Chain, Schedule, Table, Task
from .library import Missing
from .refusals import Refused
from .structs import Bounded, State

__all__ = ["Bounded", "Broken", "Chain", "Missing", "Refused", "Schedule", "State", "Table", "Task"]
