"""What a desk tells, as tuples with names."""

from fractions import Fraction
from typing import Any, List, NamedTuple, Optional, Tuple

NEVER = (1 << 64) - 1


class Pick(NamedTuple):
    """A quantum of a processor: it goes to the task's subtask `sub`, counted from 1."""

    task: int
    sub: int


class Quantum(NamedTuple):
    """A quantum of a slot: the processor gives it to the task's subtask `sub`, counted from 1."""

    slot: int
    processor: int
    task: int
    sub: int


class Settings(NamedTuple):
    """What a desk was opened with: the cap in 1/base, the distance of checkpoints and the horizon in slots."""

    processors: int
    base: int
    cap: int
    every: int
    horizon: int


# Who runs on each processor in a slot, or None where it is idle or out of use.
Row = List[Optional[Pick]]


class Lag(NamedTuple):
    """How far a task is from its fair share: cost and received in quanta, the period in slots.

    scaled is the lag times the period; above 0 the task is behind its share.
    """

    task: int
    cost: int
    period: int
    received: int
    scaled: int

    @property
    def lag(self) -> Fraction:
        """The lag itself, in quanta."""
        return Fraction(self.scaled, self.period)


class Miss(NamedTuple):
    """A window that was missed: the subtask did not run in a slot below the deadline.

    ran is the slot in which it ran late, if it did.
    """

    task: int
    sub: int
    deadline: int
    ran: Optional[int]


class Denial(NamedTuple):
    """An event of the plan that has no effect, since a rule of admission fails in its slot; reason names the rule."""

    slot: int
    event: int
    reason: str


class Fit(NamedTuple):
    """Whether the loads of the slots stepped were within the processors in use.

    first is the first slot whose load was above them, None where there was none: then no window was missed. overload is the
    loads above them of all slots together, in 1/base; the base times a task's tardiness is at most that.
    """

    first: Optional[int]
    overload: int


class Figures(NamedTuple):
    """What every simulator tells of a task: cost and quanta in quanta, the period, responses and tardiness in slots.

    response is the least and the greatest of the jobs that were done, None where there is none; scaled the least and the
    greatest lag times the period, while the task was inside.
    """

    task: int
    cost: int
    period: int
    quanta: int
    migrations: int
    preemptions: int
    jobs: int
    response: Optional[Tuple[int, int]]
    missed: int
    tardiness: int
    scaled: Tuple[int, int]


def figures_of(it: Any) -> Figures:
    response = (it.response_least, it.response_greatest) if it.jobs else None
    first = (it.task, it.cost, it.period, it.quanta, it.migrations, it.preemptions, it.jobs)
    return Figures(*first, response, it.missed, it.tardiness, (it.scaled_least, it.scaled_greatest))
