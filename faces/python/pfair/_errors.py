"""Why a call gave nothing."""

import ctypes
from typing import List, Optional

from pfair._events import unsigned
from pfair._library import NUMBERS, filled


class PfairError(Exception):
    """Why a call gave nothing. Want of memory is a MemoryError instead: then the desk is as it was before."""


class BadSettings(PfairError):
    """A number of the settings is out of its limits."""


class ClosedDesk(PfairError):
    """The desk was closed, or what one has of a shared desk."""


class OutOfRange(PfairError):
    """A slot that was not stepped, or a range of slots or a look that cannot be shown."""


class Busy(PfairError):
    """Another caller is at the shared desk, or there is nothing to read just now: nothing was done; one may try again."""


class Pending(PfairError):
    """A quantum was not taken yet, so no step was taken: `processor` is the lowest on which one lies."""

    def __init__(self, processor: int) -> None:
        self.processor = processor
        super().__init__(f"{sentence(NUMBERS['PENDING'])}: processor {processor}")


class NotYet(PfairError):
    """The slot is not stepped yet: nothing was taken."""


class NoPlace(PfairError):
    """Each caller, or each reader, of a shared desk was opened."""


class Refused(PfairError):
    """The desk refused a command: nothing changed but its history.

    number and name are those of the table of refusals, as 16 and "JoinTwice", and sentence is what that says. Of a strict
    change that would leave a denial `event` is the event's number and `reason` the denial's name; of a bad weight `reason`
    is why.
    """

    def __init__(self, number: int, event: int = 0, reason: int = 0) -> None:
        self.number = number
        self.name = name(number)
        self.sentence = sentence(reason or number)
        self.event: Optional[int] = event or None
        self.reason: Optional[str] = name(reason) if reason else None
        more = "".join(f" {it}" for it in (self.event, self.reason) if it is not None)
        super().__init__(f"refused {number} {self.name}{more}: {self.sentence}")


class BadRecord(PfairError):
    """A record is none of a script's: its number, the line on which it begins, and its field at fault, from 1 on.

    Its text is the line that the program's `check` writes of it.
    """

    def __init__(self, number: int, line: int, field: int, text: str) -> None:
        self.number, self.line, self.field = number, line, field
        super().__init__(text)


def _faults(call: str, records: str) -> List[str]:
    text = records.encode()
    status, told = filled(call, ctypes.c_char, text, len(text))
    if status != NUMBERS["OK"]:
        raise MemoryError
    lines: bytes = told
    return lines.decode("ascii").splitlines()


def script_faults(script: str) -> List[str]:
    """What the program's `check` tells of the bad records of a script of any version: a line for each, where and why."""
    return _faults("script_faults", script)


def record_faults(records: str) -> List[str]:
    """The same of records, as they stand behind the settings in a script of version 2."""
    return _faults("record_faults", records)


def _told(call: str, number: int) -> str:
    status, text = filled(call, ctypes.c_char, unsigned(number, 32))
    if status != NUMBERS["OK"]:
        raise ValueError(f"{number} is no status and no reason")
    told: bytes = text
    return told.decode("ascii")


def name(number: int) -> str:
    """The name of a status or a reason in the table of refusals, as "JoinTwice" of 16. Raises ValueError."""
    return _told("name", number)


def sentence(number: int) -> str:
    """What a status or a reason says, as "another event joins the task" of 16. Raises ValueError."""
    return _told("sentence", number)


_RAISED = {
    NUMBERS["NO_MEMORY"]: MemoryError,
    NUMBERS["BAD_SETTINGS"]: BadSettings,
    NUMBERS["NOT_OPEN"]: ClosedDesk,
    NUMBERS["OUT_OF_RANGE"]: OutOfRange,
    NUMBERS["UNKNOWN_KIND"]: ValueError,
    NUMBERS["BUSY"]: Busy,
    NUMBERS["NOT_YET"]: NotYet,
    NUMBERS["NO_PLACE"]: NoPlace,
}


def check(status: int, event: int = 0, reason: int = 0) -> None:
    """Raises what a status says, if it is no success."""
    if status == NUMBERS["OK"]:
        return
    raised = _RAISED.get(status)
    if raised is not None:
        raise raised(sentence(status))
    raise Refused(status, event, reason)
