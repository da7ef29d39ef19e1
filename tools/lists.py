"""What `pfair convert` must answer to a list of tasks without faults, from docs/COMMANDS.md, in the plainest way.

It shares nothing with the program: times are fractions, and each base of the 5,260 is looked at for each task.
"""
import json
import math
from bisect import bisect_right
from dataclasses import dataclass
from fractions import Fraction

LARGEST_BASE, HORIZON, LARGEST_EARLY, MOST_PROCESSORS = 2**30, 4_194_304, 2**20, 64
NANOSECONDS = {"ns": 1, "us": 10**3, "ms": 10**6, "s": 10**9}
LONGEST_QUANTUM, MOST_QUANTA, FILE = 10**9, 64, "-"
HEADINGS = ["task", "name", "work", "every", "deadline", "work/every", "weight", "cost/period", "added", "response", "from any arrival"]


def ceil(a, b):
    return -(-a // b)


def with_decimals(parts):
    return f"{parts // 10**4}.{parts % 10**4:04}"


def up(a, b):
    """a / b with four decimals, rounded up."""
    return with_decimals(ceil(a * 10**4, b))


def cut(a, b):
    """a / b with four decimals, cut off."""
    return with_decimals(a * 10**4 // b)


@dataclass(frozen=True)
class Timed:
    """A task in nanoseconds, its line, and the place of the first byte of each field in it."""
    line: int
    places: dict
    name: str
    work: int
    every: int
    deadline: int | None
    first: int
    early: int

    @property
    def due(self):
        return self.deadline or self.every

    def at(self, column):
        return f"{self.line}:{self.places[column]}: {column}: "


@dataclass
class Slotted:
    """The same in slots."""
    cost: int
    period: int
    join: int
    early: int


@dataclass(frozen=True)
class Asked:
    """What the words ask for, times in nanoseconds. No quanta are those that are found; the unit is that of the times shown."""
    quanta: list
    switch: int
    processors: int | None
    unit: str
    form: str
    arrivals: str

    def decimal(self, time):
        whole, rest = divmod(time, NANOSECONDS[self.unit])
        places = len(str(NANOSECONDS[self.unit])) - 1
        return str(whole) + (f".{rest:0{places}}".rstrip("0") if rest else "")

    def time(self, time):
        return self.decimal(time) + self.unit


@dataclass(frozen=True)
class Plan:
    base: int
    exact: bool
    slots: list

    @property
    def load(self):
        return sum(it.cost * (self.base // it.period) for it in self.slots)

    @property
    def needed(self):
        return max(1, ceil(self.load, self.base))


def nanoseconds(text, unit):
    """A time in nanoseconds: in its own unit, where it has one."""
    number = text.rstrip("nums").rstrip()
    return int(Fraction(number) * NANOSECONDS[text[len(number):].strip() or unit])


COLUMNS = {"task": "name", "wcet": "work", "cost": "work", "c": "work", "period": "every", "t": "every", "d": "deadline"}


# The names of columns, in small letters.
NAMES = {*COLUMNS, *COLUMNS.values(), "first", "early"}


def name_columns(fields):
    """Whether two of these fields, or more, name columns."""
    return sum(it.strip(" \t").lower() in NAMES for it in fields) >= 2


def is_list(records):
    """Whether these are the records of a list of tasks: the first one names columns, or the parts of its one field do."""
    for fields in records[:1]:
        return name_columns(fields) or len(fields) == 1 and any(name_columns(fields[0].split(it)) for it in ";\t")
    return False


def places_of(fields):
    """The place, from 1, of each field of a plain line."""
    return [1 + sum(len(it) + 1 for it in fields[:place]) for place in range(len(fields))]


def tasks_of(text, unit):
    """The tasks of a list without faults, of plain lines."""
    lines = [(number, line.split(",")) for number, line in enumerate(text.splitlines(), 1) if line and line[0] != "#"]
    (_, heading), *records = lines
    columns = [COLUMNS.get(it.lower(), it.lower()) for it in heading]
    for number, fields in records:
        record = dict(zip(columns, fields))
        work, every, deadline, first, early = (
            nanoseconds(record.get(column) or "0", unit) for column in ("work", "every", "deadline", "first", "early"))
        yield Timed(number, dict(zip(columns, places_of(fields))), record["name"], work, every, deadline or None, first, early)


def slots_of(task, quantum, asked):
    period = task.due // quantum - (asked.arrivals == "any")
    return Slotted(ceil(task.work, quantum - asked.switch), period, ceil(task.first, quantum), task.early // quantum)


def fault_of(task, slots, quantum, asked):
    """Why these slots are none, or None."""
    if slots.period <= 0:
        quanta = "2 quanta of " if asked.arrivals == "any" else "the quantum "
        return f"{task.at('deadline' if task.deadline else 'every')}{asked.time(task.due)} is below {quanta}{asked.time(quantum)}"
    if slots.cost > slots.period:
        return f"{task.at('work')}{slots.cost} quanta are above the period of {slots.period}"
    if slots.join >= HORIZON:
        return f"{task.at('first')}slot {slots.join} is not below the horizon {HORIZON}"
    if slots.early > LARGEST_EARLY:
        return f"{task.at('early')}{slots.early} slots are above {LARGEST_EARLY}"
    if asked.arrivals == "any" and slots.early > 0:
        return f"{task.at('early')}a quantum would run before its job arrives, with --arrivals any it is below a quantum"
    return None


def powers(prime):
    return [prime**k for k in range(31) if prime**k <= LARGEST_BASE]


def smooth_bases():
    """The numbers up to the largest base without a prime factor above 7, from the least on."""
    found = [1]
    for prime in (2, 3, 5, 7):
        found = [a * b for a in found for b in powers(prime) if a * b <= LARGEST_BASE]
    return sorted(found)


BASES = smooth_bases()


def divisor_within(base, period):
    """The greatest divisor of the base that is at most the period; a divisor of it has no prime factor above 7 either."""
    return next(it for it in reversed(BASES[:bisect_right(BASES, period)]) if base % it == 0)


def rounded_plan(slots):
    """The plan over the base with the least load, or None."""
    best = None
    for base in BASES:
        periods = [divisor_within(base, it.period) for it in slots]
        if all(it.cost <= period for it, period in zip(slots, periods)):
            plan = Plan(base, False, [Slotted(it.cost, period, it.join, it.early) for it, period in zip(slots, periods)])
            if best is None or plan.load * best.base < best.load * base:
                best = plan
    return best


def planned(tasks, quantum, asked):
    """What a quantum gives: a plan, or the lines of its faults."""
    slots = [slots_of(task, quantum, asked) for task in tasks]
    faults = [fault for task, it in zip(tasks, slots) if (fault := fault_of(task, it, quantum, asked))]
    if faults:
        return None, faults
    least = math.lcm(*(it.period for it in slots))
    plan = Plan(least, True, slots) if least <= LARGEST_BASE else rounded_plan(slots)
    return plan, [] if plan else [f"no base up to {LARGEST_BASE} holds all tasks"]


def work_of(tasks):
    """The work of all tasks in billionths of a processor, that of each rounded up."""
    return sum(ceil(it.work * 10**9, it.every) for it in tasks)


def quotients(time, switch, is_whole):
    """The quotients of a time that are above the switch, the longest first."""
    found = {time // parts for parts in range(1, min(MOST_QUANTA, time) + 1) if not is_whole or time % parts == 0}
    return sorted((it for it in found if it > switch), reverse=True)


def quanta_of(tasks, asked):
    """The quanta that are tried."""
    if asked.quanta:
        return asked.quanta
    shortest = min([LONGEST_QUANTUM, *(it.due for it in tasks)])
    whole = quotients(shortest, asked.switch, True)
    plans = [planned(tasks, quantum, asked)[0] for quantum in whole]
    best = best_of(whole, plans, asked)
    least = ceil(sum(it.work * 10**9 // it.every for it in tasks), 10**9)
    if best is not None and (asked.processors or plans[best].needed <= least):
        return whole
    return quotients(shortest, asked.switch, False)


def shown_of(quanta, answers, asked):
    """The place of the plan that is shown."""
    plans = [plan for plan, _ in answers]
    if (best := best_of(quanta, plans, asked)) is not None:
        return best
    def distance(place):
        plan, faults = answers[place]
        return (0, plan.needed) if plan else (1, len(faults))
    return min(range(len(quanta)), key=lambda place: (distance(place), -quanta[place]))


def none_tried(tasks, asked):
    return f"{FILE}: no quantum is above the switch and up to the shortest time, {asked.time(min([LONGEST_QUANTUM, *(it.due for it in tasks)]))}\n"


def slot_text(quantum):
    unit = next(it for it in ("s", "ms", "us", "ns") if quantum % NANOSECONDS[it] == 0)
    return f"{quantum // NANOSECONDS[unit]},{unit}"


def script_text(tasks, quantum, plan, processors):
    joins = [f"join,{it.join},{number},{it.cost},{it.period},{it.early}" for number, it in enumerate(plan.slots, 1)]
    steps = min(max(it.join for it in plan.slots) + plan.base, HORIZON)
    return "".join(f"{line}\n" for line in [
        "plan,1", f"settings,{processors},{plan.base},{processors * plan.base},64", f"slot,{slot_text(quantum)}",
        *(f"name,{number},{task.name}" for number, task in enumerate(tasks, 1)), *joins, f"step,{steps}"])


def row_of(number, task, slots, quantum, asked, has_deadlines):
    added = up(slots.cost * task.every - task.work * slots.period, slots.period * task.every)
    due = [asked.time(task.due)] if has_deadlines else []
    return [str(number), task.name, asked.time(task.work), asked.time(task.every), *due, up(task.work, task.every), f"{slots.cost}/{slots.period}",
            up(slots.cost, slots.period), added, asked.time(slots.period * quantum), asked.time((slots.period + 1) * quantum)]


def in_columns(rows):
    widths = [max(map(len, column)) for column in zip(*rows)]
    return "".join("  ".join(cell.ljust(width) for cell, width in zip(row, widths)).rstrip() + "\n" for row in rows)


def notes_of(tasks, quantum, plan, processors, asked):
    room, has_deadlines = processors * plan.base, any(it.deadline for it in tasks)
    headings = [it for it in HEADINGS if has_deadlines or it != "deadline"]
    rows = [row_of(number, *both, quantum, asked, has_deadlines) for number, both in enumerate(zip(tasks, plan.slots), 1)]
    base = "the least common multiple of the periods" if plan.exact else "each period is rounded down to a divisor of it"
    rest = (f"{cut(room - plan.load, plan.base)} free: fits" if plan.load <= room
            else f"{up(plan.load - room, plan.base)} too much: does not fit")
    return in_columns([headings, *rows]) + (
        f"\nbase {plan.base}: {base}\nwork {up(work_of(tasks), 10**9)}, planned {up(plan.load, plan.base)} of {processors} processors, {rest}\n")


def tried_line(quantum, plan, count, asked):
    """How the quantum was found."""
    how = (" tried none fits; this is the longest with the fewest processors" if not fits(plan, asked)
           else " tried the longest that fits" if asked.processors else " tried the longest with the fewest processors")
    return f"quantum {asked.time(quantum)}: of {count} {'quantum' if count == 1 else 'quanta'}{how}\n"


def in_file(fault):
    """The line of a fault of a plan: that of its base has no place."""
    return f"{FILE}: {fault}" if fault.startswith("no base") else f"{FILE}:{fault}"


def as_script(tasks, asked):
    quanta = quanta_of(tasks, asked)
    if not quanta:
        return "", none_tried(tasks, asked), 1
    answers = [planned(tasks, quantum, asked) for quantum in quanta]
    place = shown_of(quanta, answers, asked)
    quantum, (plan, faults) = quanta[place], answers[place]
    if plan is None:
        more = [f"and {len(faults) - 20} more"] if len(faults) > 20 else []
        return "", "".join(f"{it}\n" for it in [*map(in_file, faults[:20]), *more]), 1
    if asked.processors is None and plan.needed > MOST_PROCESSORS:
        return "", f"{FILE}: {plan.needed} processors are needed, and 64 are the most\n", 1
    processors = asked.processors or plan.needed
    status = 0 if plan.load <= processors * plan.base else 6
    last = "" if asked.quanta else tried_line(quantum, plan, len(quanta), asked)
    return script_text(tasks, quantum, plan, processors), notes_of(tasks, quantum, plan, processors, asked) + last, status


def best_of(quanta, plans, asked):
    """The place of the best quantum, or None."""
    fitting = [place for place, plan in enumerate(plans) if plan and plan.needed <= (asked.processors or MOST_PROCESSORS)]
    if asked.processors is None and fitting:
        fewest = min(plans[place].needed for place in fitting)
        fitting = [place for place in fitting if plans[place].needed == fewest]
    return max(fitting, key=lambda place: quanta[place], default=None)


def fits(plan, asked):
    return plan is not None and plan.needed <= (asked.processors or MOST_PROCESSORS)


def line_of(quantum, plan, work, is_best, asked):
    if plan is None:
        return f"{asked.decimal(quantum)},,,{work},,,,no,\n"
    periods = "exact" if plan.exact else "rounded"
    return (f"{asked.decimal(quantum)},{plan.base},{periods},{work},{plan.load},{up(plan.load, plan.base)},{plan.needed},"
            f"{'yes' if fits(plan, asked) else 'no'},{'best' if is_best else ''}\n")


def object_of(quantum, plan, faults, asked):
    tasks = [{"arrival": (it.period + 1) * quantum, "cost": it.cost, "early": it.early, "join": it.join, "period": it.period,
              "response": it.period * quantum} for it in (plan.slots if plan else [])]
    return {"base": plan and plan.base, "exact": plan and plan.exact, "faults": faults, "fits": fits(plan, asked),
            "load": plan and plan.load, "processors": plan and plan.needed, "quantum": quantum, "tasks": tasks}


def told_of(quantum, faults, asked):
    """The line of a quantum without a plan."""
    more = f", and {len(faults) - 1} more" if len(faults) > 1 else ""
    front, gap, text = ("", "", faults[0]) if faults[0].startswith("no base") else faults[0].partition(": ")
    return f"{FILE}:{front}{gap or ' '}quantum {asked.time(quantum)}: {text}{more}\n"


def as_series(tasks, asked):
    quanta = quanta_of(tasks, asked)
    answers = [planned(tasks, quantum, asked) for quantum in quanta]
    plans = [plan for plan, _ in answers]
    best = best_of(quanta, plans, asked)
    told = [told_of(quantum, faults, asked) for quantum, (_, faults) in zip(quanta, answers) if faults]
    told = [*told[:20], f"and {len(told) - 20} more\n"] if len(told) > 20 else told
    told = "".join(told) if quanta else none_tried(tasks, asked)
    if asked.form == "table":
        work = up(work_of(tasks), 10**9)
        text = "quantum,base,periods,work,load,utilization,processors,fits,best\n" + "".join(
            line_of(quantum, plan, work, place == best, asked) for place, (quantum, plan) in enumerate(zip(quanta, plans)))
    else:
        listed = [{"deadline": it.deadline, "early": it.early, "every": it.every, "first": it.first, "name": it.name, "work": it.work}
                  for it in tasks]
        text = json.dumps({"arrivals": asked.arrivals, "best": best, "processors": asked.processors, "quanta": [
            object_of(quantum, plan, faults, asked) for quantum, (plan, faults) in zip(quanta, answers)], "switch": asked.switch,
            "tasks": listed, "unit": asked.unit, "work": work_of(tasks)}, separators=(",", ":")) + "\n"
    return text, told, 0 if best is not None else 6


def meaning(text, asked):
    """What is written and told for a list on standard input, and the status."""
    tasks = list(tasks_of(text, asked.unit))
    return as_script(tasks, asked) if asked.form == "script" else as_series(tasks, asked)
