"""The planner's desk of Zuthlemyr: PD2 schedules of periodic tasks on one to 64 processors, each of them proved.

    >>> from pfair import Desk, Join
    >>> with Desk(processors=2, base=3) as desk:
    ...     for task in (1, 2, 3):
    ...         number = desk.insert(Join(slot=0, task=task, cost=2, period=3))
    ...     desk.advance(3)
    ...     desk.row(1)
    3
    [Pick(task=1, sub=2), Pick(task=3, sub=1)]

Slots, periods and deadlines are counted in slots from 0, costs in quanta of one slot. A weight cost/period is a part of one
processor; each period divides the base. Only the standard library is needed.
"""

from pfair._desk import Desk
from pfair._errors import BadRecord, BadSettings, Busy, ClosedDesk, NoPlace, NotYet, OutOfRange, Pending, PfairError, Refused
from pfair._errors import name, record_faults, script_faults, sentence
from pfair._events import Delay, Event, Join, Leave, Limit
from pfair._library import VERSION as __version__
from pfair._shared import Caller, Reader, SharedDesk, Snapshot
from pfair._told import Denial, Figures, Fit, Lag, Miss, Pick, Quantum, Settings

__all__ = [
    "BadRecord", "BadSettings", "Busy", "Caller", "ClosedDesk", "Delay", "Denial", "Desk", "Event", "Figures", "Fit",
    "Join", "Lag", "Leave", "Limit", "Miss", "NoPlace", "NotYet", "OutOfRange", "Pending", "PfairError", "Pick",
    "Quantum", "Reader", "Refused", "Settings", "SharedDesk", "Snapshot", "__version__", "name", "record_faults",
    "script_faults", "sentence",
]
