"""What `pfair fit -f json` must answer to a list of tasks without faults, from docs/COMMANDS.md, in the plainest way.

Beside lists.py it has the margins of the plan that is shown: how far each number may go, the others as they are.
"""
import json
import math

from lists import LARGEST_BASE, MOST_PROCESSORS, ceil, fits, object_of, planned, quanta_of, shown_of, tasks_of, work_of


def divisors_of(number):
    low = [it for it in range(1, math.isqrt(number) + 1) if number % it == 0]
    return sorted({*low, *(number // it for it in low)})


def room_beside(plan, slots, processors):
    """What the other tasks leave of the processors, in units of 1/base; below 0 where they ask for more."""
    return processors * plan.base - plan.load + slots.cost * (plan.base // slots.period)


def most_work(plan, slots, processors, quantum, asked):
    """The most work of a job of a task, or None."""
    quanta = min(slots.period, room_beside(plan, slots, processors) // (plan.base // slots.period))
    return quanta * (quantum - asked.switch) if quanta >= 1 else None


def least_period(plan, slots, processors):
    """The least period of a task in slots, or None, and whether it is the first that there is room for."""
    room = room_beside(plan, slots, processors)
    if room < 1:
        return None, True
    period = max(slots.cost, ceil(slots.cost * plan.base, room))
    if plan.exact and period <= LARGEST_BASE and math.lcm(plan.base, period) <= LARGEST_BASE:
        return period, True
    return min((it for it in divisors_of(plan.base) if it >= period), default=None), False


def serves(plan, tasks, processors, quantum, switch):
    """Whether the plan has room where a switch takes so much."""
    costs = [ceil(it.work, quantum - switch) for it in tasks]
    return (all(cost <= it.period for cost, it in zip(costs, plan.slots))
            and sum(cost * (plan.base // it.period) for cost, it in zip(costs, plan.slots)) <= processors * plan.base)


def longest_switch(plan, tasks, processors, quantum):
    """The longest switch that there is room for, or None: where there is for one, there is for each shorter one."""
    if not serves(plan, tasks, processors, quantum, 0):
        return None
    least, above = 0, quantum
    while above - least > 1:
        middle = (least + above) // 2
        least, above = (middle, above) if serves(plan, tasks, processors, quantum, middle) else (least, middle)
    return least


def is_exact(plan, tasks, firsts, quantum, asked):
    """Whether nothing beyond the margins is served in quanta of this length."""
    return (asked.arrivals == "aligned" and all(it.due == it.every for it in tasks) and plan.exact and all(firsts)
            and all(it.period * quantum == task.every for it, task in zip(plan.slots, tasks)))


def with_margins(plan, tasks, quantum, processors, asked):
    """The plan as an object, with the margins of each task, and those of all together."""
    shown = object_of(quantum, plan, [], asked)
    firsts = []
    for slots, told in zip(plan.slots, shown["tasks"]):
        period, is_first = least_period(plan, slots, processors)
        firsts.append(is_first)
        told["least"] = None if period is None else (period + (asked.arrivals == "any")) * quantum
        told["most"] = most_work(plan, slots, processors, quantum, asked)
    shown["tasks"] = [dict(sorted(it.items())) for it in shown["tasks"]]
    is_fit = plan.needed <= processors
    margins = {"exact": is_exact(plan, tasks, firsts, quantum, asked), "fail": processors - plan.needed if is_fit else None,
               "processors": plan.needed, "switch": longest_switch(plan, tasks, processors, quantum)}
    return shown, margins, is_fit


def fit_of(tasks, asked):
    """The object that is written."""
    quanta = quanta_of(tasks, asked)
    answers = [planned(tasks, quantum, asked) for quantum in quanta]
    shown, margins, processors, is_fit = None, None, asked.processors, False
    if quanta:
        place = shown_of(quanta, answers, asked)
        plan, faults = answers[place]
        if plan:
            processors = asked.processors or min(plan.needed, MOST_PROCESSORS)
            shown, margins, is_fit = with_margins(plan, tasks, quanta[place], processors, asked)
        else:
            shown = object_of(quanta[place], plan, faults, asked)
    listed = [{"deadline": it.deadline, "early": it.early, "every": it.every, "first": it.first, "name": it.name, "work": it.work}
              for it in tasks]
    tried = [{"fits": fits(plan, asked), "processors": plan and plan.needed, "quantum": quantum} for quantum, (plan, _) in zip(quanta, answers)]
    return {"arrivals": asked.arrivals, "margins": margins, "plan": shown, "processors": processors, "switch": asked.switch, "tasks": listed,
            "tried": tried, "unit": asked.unit, "verdict": "fits" if is_fit else "does not fit", "work": work_of(tasks)}


def fit_meaning(text, asked):
    """What is written and told for a list on standard input, and the status."""
    told = fit_of(list(tasks_of(text, asked.unit)), asked)
    return json.dumps(told, separators=(",", ":")) + "\n", "", 0 if told["verdict"] == "fits" else 6
