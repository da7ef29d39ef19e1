"""What happens in a slot of a plan."""

import operator
from dataclasses import dataclass, fields
from typing import Any, ClassVar, Union

from pfair._library import NUMBERS, struct


class _Numbers:
    """What events have in common: each field is a whole number of 64 bits, which is looked at when the event is made."""

    def __post_init__(self) -> None:
        for it in fields(self):  # type: ignore[arg-type]
            name = f"{it.name} of {type(self).__name__}"
            # The fields are frozen. Other kinds of whole numbers, as numpy's, become Python's own.
            object.__setattr__(self, it.name, unsigned(whole(getattr(self, it.name), name), name=name))


@dataclass(frozen=True)
class Join(_Numbers):
    """The task (1 to 4,095) joins with the weight cost/period: cost quanta in each period slots.

    The period divides the base. A subtask may run up to early slots before its release.
    """

    slot: int
    task: int
    cost: int
    period: int
    early: int = 0
    KIND: ClassVar[int] = NUMBERS["JOIN"]


@dataclass(frozen=True)
class Leave(_Numbers):
    """The task leaves."""

    slot: int
    task: int
    KIND: ClassVar[int] = NUMBERS["LEAVE"]


@dataclass(frozen=True)
class Delay(_Numbers):
    """The task's subtasks that did not run are held back by so many slots."""

    slot: int
    task: int
    by: int
    KIND: ClassVar[int] = NUMBERS["DELAY"]


@dataclass(frozen=True)
class Limit(_Numbers):
    """From the slot on the processors below count are in use, until the next limit."""

    slot: int
    count: int
    KIND: ClassVar[int] = NUMBERS["LIMIT"]


Event = Union[Join, Leave, Delay, Limit]


def whole(value: Any, name: str) -> int:
    """The number, where it is a whole one; the name says what it is of."""
    try:
        return operator.index(value)
    except TypeError:
        raise TypeError(f"{name} is a whole number, not {value!r}") from None


def unsigned(value: int, bits: int = 64, name: str = "") -> int:
    """The number, where so many bits hold it; ctypes would cut it."""
    if not 0 <= value < 1 << bits:
        raise ValueError(f"{name + ': ' if name else ''}{value} is not 0 to 2^{bits} - 1")
    return value


def raw_event(event: Event) -> Any:
    return struct("event")(kind=event.KIND, **{it.name: unsigned(getattr(event, it.name)) for it in fields(event)})


def event_of(raw: Any) -> Event:
    kind = next(it for it in (Join, Leave, Delay, Limit) if it.KIND == raw.kind)
    return kind(**{it.name: getattr(raw, it.name) for it in fields(kind)})
