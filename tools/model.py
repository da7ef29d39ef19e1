"""What pfair must write for a script, from RULES, SCRIPTS, COMMANDS and TABLES of docs/, in the plainest way.

It reads as the rules do, shares nothing with the program, and is slow: every step, strict edit and report runs its
scenario from slot zero; quanta are counted anew each time; each pair of eligible subtasks is compared. It is made for
scripts of some dozen slots.
"""
import csv
import io
import json
import re
from dataclasses import dataclass, field, replace
from fractions import Fraction
from functools import cache, lru_cache
from itertools import count

import code_model
from pictures import chart, in_use, listed_tasks, picture

# Limits

MOST_PROCESSORS, LARGEST_TASK, LARGEST_BASE, LARGEST_CAP, LARGEST_EVERY = 64, 4_095, 2**30, 2**44, 4_096
LARGEST_EARLY, LARGEST_DELAY, MOST_EVENTS, LARGEST_NUMBER = 2**20, 2**20, 65_535, 1_048_575
HORIZONS = {1: 2**20, 2: 2**22}
LONGEST_SCRIPT, MOST_DRAWN = 16_777_216, 4_096

NAMES = {10: "EventNotFound", 11: "SlotOutOfRange", 12: "TaskOutOfRange", 13: "EarlyOutOfRange", 14: "DelayOutOfRange",
         15: "BadWeight", 16: "JoinTwice", 17: "LeaveTwice", 18: "TooManyEvents", 19: "NumbersSpent",
         20: "OverCapacity", 21: "NotInside", 22: "TooEarly", 23: "Released", 24: "CountOutOfRange",
         30: "AtHorizon", 31: "WouldDeny"}


# Weights, windows, group deadlines

def floor(a, b):
    return a // b


def ceil(a, b):
    return -(-a // b)


@dataclass(frozen=True)
class Weight:
    """The weight e/p."""
    e: int
    p: int

    def units(self, base):
        return self.e * (base // self.p)

    def is_heavy(self):
        return 2 * self.e >= self.p

    def release(self, i):
        return floor((i - 1) * self.p, self.e)

    def deadline(self, i):
        return ceil(i * self.p, self.e)

    def bit(self, i):
        return ceil(i * self.p, self.e) - floor(i * self.p, self.e)

    def is_group_deadline(self, t, first):
        """Whether t is one, by a subtask from `first` on. None later than t + 1 can make it one, as d(k) >= k."""
        return any((t == self.deadline(k) and self.bit(k) == 0)
                   or (t + 1 == self.deadline(k) and self.deadline(k) - self.release(k) == 3)
                   for k in range(first, t + 2))

    def group_by_rule(self, i):
        """The least group deadline at or after d(i). An earlier subtask than i makes only earlier ones."""
        return next(t for t in count(self.deadline(i)) if self.is_group_deadline(t, i))

    def group_by_formula(self, i):
        if self.e == self.p:
            return self.deadline(i)
        return ceil(ceil(self.deadline(i) * (self.p - self.e), self.p) * self.p, self.p - self.e)


# The longest period for which group deadlines are found by the rule, whose search is as long.
LONGEST_SEARCHED = 100


@cache
def group(weight, i):
    if not weight.is_heavy():
        return 0
    return weight.group_by_rule(i) if weight.p <= LONGEST_SEARCHED else weight.group_by_formula(i)


# Events

@dataclass(frozen=True)
class Event:
    kind: str
    slot: int
    task: int = 0
    cost: int = 0
    period: int = 0
    early: int = 0
    by: int = 0
    count: int = 0
    number: int = 0

    def run_order(self):
        return (self.slot, ("limit", "leave", "join", "delay").index(self.kind), self.task, self.number)

    def weight(self):
        return Weight(self.cost, self.period)


@dataclass(frozen=True)
class Settings:
    processors: int
    base: int
    cap: int
    every: int
    horizon: int


@dataclass(frozen=True, eq=False)
class Scenario:
    """Settings, the events held, by number, and the next number. Nothing changes it."""
    settings: Settings
    events: dict = field(default_factory=dict)
    next_number: int = 1

    def of_slot(self, t):
        return sorted((event for event in self.events.values() if event.slot == t), key=Event.run_order)

    def changed(self, change):
        """The scenario after a change that has no fault, and the number of the event concerned."""
        number = change.number if change.verb != "insert" else self.next_number
        events = {held: event for held, event in self.events.items() if held != number}
        if change.verb != "strike":
            events[number] = replace(change.event, number=number)
        return replace(self, events=events, next_number=self.next_number + (change.verb == "insert")), number


@dataclass(frozen=True)
class Change:
    verb: str
    number: int = 0
    event: Event = None
    strict: bool = False


def weight_fault(base, cost, period):
    if cost == 0:
        return 2
    if cost > period:
        return 3
    return 4 if base % period != 0 else None


def edit_fault(scenario, change):
    """The first reason to refuse the change, as a reply, or None."""
    if change.verb != "insert" and change.number not in scenario.events:
        return refusal(10)
    if change.verb == "strike":
        return None
    fault = event_fault(scenario.settings, change.event)
    if fault:
        return fault
    others = [event for number, event in scenario.events.items()
              if not (change.verb == "alter" and number == change.number)]
    for kind, twice in (("join", 16), ("leave", 17)):
        if change.event.kind == kind and any((x.kind, x.task) == (kind, change.event.task) for x in others):
            return refusal(twice)
    if change.verb == "insert" and len(scenario.events) >= MOST_EVENTS:
        return refusal(18)
    return refusal(19) if change.verb == "insert" and scenario.next_number > LARGEST_NUMBER else None


def event_fault(settings, event):
    if event.slot >= settings.horizon:
        return refusal(11)
    if event.kind != "limit" and not 1 <= event.task <= LARGEST_TASK:
        return refusal(12)
    if event.kind == "join" and event.early > LARGEST_EARLY:
        return refusal(13)
    if event.kind == "delay" and not 1 <= event.by <= LARGEST_DELAY:
        return refusal(14)
    if event.kind == "limit" and not 1 <= event.count <= settings.processors:
        return refusal(24)
    bad = weight_fault(settings.base, event.cost, event.period) if event.kind == "join" else None
    return f"{refusal(15)} {bad}" if bad else None


def refusal(fault):
    return f"refused {fault} {NAMES[fault]}"


# A run: the picks of each slot, in their order, as (task, sub), the denials, and the events that were not denied

@dataclass
class Run:
    scenario: Scenario
    picks: list = field(default_factory=list)
    denials: list = field(default_factory=list)
    in_force: list = field(default_factory=list)

    def join_of(self, task):
        return next((event for event in self.in_force if (event.kind, event.task) == ("join", task)), None)

    def leave_of(self, task):
        return next((event for event in self.in_force if (event.kind, event.task) == ("leave", task)), None)

    def delays_of(self, task):
        return [event for event in self.in_force if (event.kind, event.task) == ("delay", task)]

    def joined(self):
        return sorted(event.task for event in self.in_force if event.kind == "join")

    def is_inside(self, task):
        return self.join_of(task) is not None and self.leave_of(task) is None

    def inside(self):
        return [task for task in self.joined() if self.is_inside(task)]

    def load(self):
        base = self.scenario.settings.base
        return sum(self.join_of(task).weight().units(base) for task in self.inside())

    def count(self):
        """How many processors are in use after the events taken so far."""
        limits = [event.count for event in self.in_force if event.kind == "limit"]
        return limits[-1] if limits else self.scenario.settings.processors

    def done(self, task, t):
        """How many quanta the task received in slots before t."""
        return sum(1 for picks in self.picks[:t] for picked, _ in picks if picked == task)

    def slot_of(self, task, sub):
        return next((t for t, picks in enumerate(self.picks) if (task, sub) in picks), None)

    def shift(self, task, i):
        held_back = [event.by for event in self.delays_of(task) if self.done(task, event.slot) + 1 <= i]
        return self.join_of(task).slot + sum(held_back)

    def release(self, task, i):
        return self.join_of(task).weight().release(i) + self.shift(task, i)

    def deadline(self, task, i):
        return self.join_of(task).weight().deadline(i) + self.shift(task, i)

    def bit(self, task, i):
        return self.join_of(task).weight().bit(i)

    def group(self, task, i):
        weight = self.join_of(task).weight()
        return group(weight, i) + self.shift(task, i) if weight.is_heavy() else 0

    # Admission

    def denial_of(self, event):
        """Why the event is denied at this point of the run order, or None."""
        if event.kind == "join":
            settings = self.scenario.settings
            return 20 if self.load() + event.weight().units(settings.base) > settings.cap else None
        if event.kind == "limit":
            return None
        if not self.is_inside(event.task):
            return 21
        if event.kind == "leave":
            return 22 if event.slot < self.free_from(event.task, event.slot) else None
        return 23 if self.release(event.task, self.done(event.task, event.slot) + 1) < event.slot else None

    def free_from(self, task, t):
        """The first slot in which the task may leave."""
        last = self.done(task, t)
        if last == 0:
            return 0
        is_heavy = self.join_of(task).weight().is_heavy()
        return (self.group(task, last) if is_heavy else self.deadline(task, last)) + self.bit(task, last)

    # The choice of a slot

    def eligible(self, t):
        """The subtasks that may run in slot t, the next of the tasks inside, each with its place in the order."""
        for task in self.inside():
            i = self.done(task, t) + 1
            join = self.join_of(task)
            if max(join.slot, self.release(task, i) - join.early) <= t:
                yield Subtask(task, i, self.deadline(task, i), self.bit(task, i), self.group(task, i))

    def choice(self, t):
        eligible = list(self.eligible(t))
        ahead = {x: sum(1 for y in eligible if y.precedes(x)) for x in eligible}
        picked = [x for x in eligible if ahead[x] < self.count()]
        return [(x.task, x.i) for x in sorted(picked, key=ahead.get)]


@dataclass(frozen=True)
class Subtask:
    """A subtask with its shifted deadline and group deadline, and its bit."""
    task: int
    i: int
    deadline: int
    bit: int
    group: int

    def precedes(self, other):
        if self.deadline != other.deadline:
            return self.deadline < other.deadline
        if self.bit != other.bit:
            return self.bit > other.bit
        if self.bit == 1 and self.group != other.group:
            return self.group > other.group
        return self.task < other.task


@dataclass(eq=False)
class Placed:
    """A run, and what follows from it: rows of processors, and the stops of clocks as (task, from, up to, the delay's number)."""
    run: Run
    rows: list
    stops: list


@lru_cache(maxsize=8)
def run_of(scenario, slots):
    """The run from slot zero over so many slots. Each view asks for the same few."""
    run, rows, stops = Run(scenario), [], []
    for t in range(slots):
        for event in scenario.of_slot(t):
            denial = run.denial_of(event)
            if denial:
                run.denials.append((t, event.number, denial))
                continue
            if event.kind == "delay":
                stop = run.release(event.task, run.done(event.task, t) + 1)
                stops.append((event.task, stop, stop + event.by, event.number))
            run.in_force.append(event)
        run.picks.append(run.choice(t))
        rows.append(row_of(scenario.settings.processors, run.count(), rows[-1] if rows else [], run.picks[-1]))
    return Placed(run, rows, stops)


def row_of(processors, in_use, before, picks):
    """The subtask on each processor, or None."""
    row = [None] * processors
    where = {placed[0]: place for place, placed in enumerate(before) if placed and place < in_use}
    for task, i in picks:
        if task in where:
            row[where[task]] = (task, i)
    for task, i in picks:
        if task not in where:
            row[next(place for place in range(in_use) if row[place] is None)] = (task, i)
    return row


def lags(placed):
    """(task, cost, period, received, lag) of the tasks inside."""
    run, now = placed.run, len(placed.rows)
    for task in run.inside():
        join, received = run.join_of(task), run.done(task, now)
        clock = sum(1 for t in range(join.slot, now)
                    if not any(stopped == task and first <= t < end for stopped, first, end, _ in placed.stops))
        yield task, join.cost, join.period, received, join.cost * clock - join.period * received


def misses(placed):
    """(task, sub, deadline, the slot in which it ran or None) of the windows missed, by deadline, then by task."""
    run, now = placed.run, len(placed.rows)
    found = []
    for task in run.joined():
        leave = run.leave_of(task)
        end = min(now, leave.slot) if leave else now
        for i in count(1):
            deadline = run.deadline(task, i)
            if deadline > end:
                break
            ran = run.slot_of(task, i)
            if ran is None or ran >= deadline:
                found.append((task, i, deadline, ran))
    return sorted(found, key=lambda miss: (miss[2], miss[0]))


# Scripts

class BadRecord(Exception):
    """A record that is none of the script's."""


def lined_records(script):
    """The records of a script, each with the line on which it begins, as lists of fields. A character stands for a byte."""
    csv.field_size_limit(LONGEST_SCRIPT)
    text = script.removeprefix(b"\xef\xbb\xbf").decode("latin-1")
    reader, line = csv.reader(io.StringIO(text, newline=""), strict=False), 1
    for record in reader:
        if record:
            yield line, record
        line = reader.line_num + 1


def records(script):
    """The records alone."""
    return [record for _, record in lined_records(script)]


def number(text):
    if not re.fullmatch("[0-9]{1,15}", text):
        raise BadRecord
    return int(text)


EVENTS = {"join": ("slot", "task", "cost", "period", "early"), "leave": ("slot", "task"),
          "delay": ("slot", "task", "by"), "limit": ("slot", "count")}


def event_of(fields, version):
    kind, *values = fields or [""]
    names = EVENTS.get(kind)
    if names is None or len(names) != len(values) or (kind == "limit" and version == 1):
        raise BadRecord
    return Event(kind, **dict(zip(names, map(number, values))))


def change_of(fields, version):
    if fields[0] == "alter" and len(fields) > 1:
        return Change("alter", number(fields[1]), event_of(fields[2:], version))
    if fields[0] == "strike" and len(fields) == 2:
        return Change("strike", number(fields[1]))
    return Change("insert", event=event_of(fields, version))


def command_of(fields, version):
    """A change, or a number of steps."""
    if fields == ["step"]:
        return 1
    if fields[0] == "step" and len(fields) == 2:
        steps = number(fields[1])
        if not 1 <= steps <= HORIZONS[version]:
            raise BadRecord
        return steps
    if fields[0] == "strict" and len(fields) > 1:
        return replace(change_of(fields[1:], version), strict=True)
    return change_of(fields, version)


def settings_of(fields, version):
    if fields[0] != "settings" or len(fields) != 5:
        raise BadRecord
    values = [number(value) for value in fields[1:]]
    most = (MOST_PROCESSORS, LARGEST_BASE, LARGEST_CAP, LARGEST_EVERY)
    if not all(1 <= value <= limit for value, limit in zip(values, most)):
        raise BadRecord
    return Settings(*values, HORIZONS[version])


# The desk

@dataclass(frozen=True)
class Answered:
    """A command that was answered: the number of its record, the scenario before it, and its replies."""
    record: int
    command: Change | int
    before: Scenario
    replies: list


class Desk:
    """A scenario, the slots stepped, the commands answered, and the quanta of each slot as its step told them."""

    def __init__(self, settings):
        self.scenario, self.now, self.entries, self.taken, self.history = Scenario(settings), 0, 0, [], []

    def replies(self, command, record):
        """The replies to the command that this record gives."""
        before = self.scenario
        self.entries += 1 if isinstance(command, Change) else command
        replies = [self.edit(command)] if isinstance(command, Change) else self.step(command)
        self.history.append(Answered(record, command, before, replies))
        return replies

    def edit(self, change):
        fault = edit_fault(self.scenario, change)
        if fault:
            return fault
        changed, concerned = self.scenario.changed(change)
        denials = run_of(changed, self.now).run.denials if change.strict else []
        if denials:
            _, event, denial = denials[0]
            return f"{refusal(31)} {event} {denial} {NAMES[denial]}"
        self.scenario = changed
        return f"event {concerned}"

    def step(self, steps):
        before, self.now = self.now, min(self.now + steps, self.scenario.settings.horizon)
        rows = run_of(self.scenario, self.now).rows
        self.taken += [(t, p, *place) for t in range(before, self.now) for p, place in enumerate(rows[t]) if place]
        lines = [f"slot {t}: " + " ".join(name(place) or "-" for place in rows[t]) for t in range(before, self.now)]
        return lines + [refusal(30)] * (steps - len(lines))

    def report(self, view):
        placed = run_of(self.scenario, self.now)
        first, end = view.range(self.now)
        reports = {
            "schedule": lambda: schedule(placed, first, end),
            "tables": lambda: tables(placed),
            "json": lambda: json_report(placed, self.entries),
            "report": lambda: json_report(placed, self.entries),
            "replies": lambda: "",
            "lags": lambda: lags_table(placed),
            "misses": lambda: misses_table(placed),
            "denials": lambda: denials_table(placed),
            "events": lambda: events_table(self.scenario),
            "script": lambda: script(self),
            "stats": lambda: stats_table(placed),
            "processors": lambda: processors_table(placed),
            "chart": lambda: chart(placed, NAMES, first, end),
            "svg": lambda: picture(placed, NAMES, len(misses(placed)), first, end, view.cell(), view.wrap(), view.style()),
            "windows": lambda: windows_table(placed, first, end),
            "jobs": lambda: jobs_table(placed),
            "load": lambda: load_table(placed, first, end),
            "quanta": lambda: quanta_table(placed, first, end),
            "c": lambda: c_table(placed),
            "drill": lambda: "schedule\n" + schedule(placed, first, end) + "taken\n" + taken_table(self.taken),
        }
        return reports[view.form]()


@dataclass(frozen=True)
class View:
    """A format, `diff` or `drill`, and whether a part is asked for: some of the slots, or more records than the last one."""
    form: str
    is_part: bool = False

    def range(self, now):
        return (now // 3, now - now // 4) if self.is_part else (0, now)

    def cell(self):
        return 9 if self.is_part else 20

    def wrap(self):
        return 7 if self.is_part else None

    def style(self):
        return "stairs" if self.is_part else "strips"

    def since(self, records):
        """The record from which on a diff tells what changed: of a part one in the middle, else the last one."""
        return max(1, len(records) // 2) if self.is_part else len(records)

    def has_replies(self):
        return self.form in ("tables", "json", "replies")

    def words(self, script):
        """The words that ask for it."""
        if self.form == "drill":
            return ["drill"]
        if self.form == "diff":
            flags = ["--summary", "--exit-code"]
            return ["diff", *flags, "--since", str(self.since(records(script)))] if self.is_part else ["diff"]
        told, _ = answers(script)
        first, end = self.range(told.now if isinstance(told, Desk) else 0)
        part = ["--from", str(first), "--to", str(end)] if self.is_part else []
        return ["run", "--format", self.form, *part, *(self.look() if self.is_part and self.form == "svg" else [])]

    def look(self):
        return ["--cell", str(self.cell()), "--wrap", str(self.wrap()), "--style", self.style()]

    def __str__(self):
        return f"{self.form}.part" if self.is_part else self.form


# Reports

def name(place):
    return f"{place[0]}/{place[1]}" if place else ""


def table(heading, lines):
    return "".join(",".join("" if value is None else str(value) for value in line) + "\n" for line in [heading, *lines])


def schedule(placed, first, end):
    processors = range(placed.run.scenario.settings.processors)
    return table(["slot", *(f"p{p}" for p in processors)],
                 ([t, *map(name, placed.rows[t])] for t in range(first, end)))


def quanta_table(placed, first, end):
    return table(("slot", "processor", "task", "sub"),
                 ((t, p, *place) for t in range(first, end) for p, place in enumerate(placed.rows[t]) if place))


@lru_cache(maxsize=4)
def listed(placed):
    return listed_tasks(placed, NAMES)


def admitted_tasks(placed):
    return (task for task in listed(placed) if task.was_admitted)


def windows_table(placed, first, end):
    """The drawn windows of which a slot, before the task's leave, or the quantum is one of these slots."""
    lines = []
    for task in admitted_tasks(placed):
        join = placed.run.join_of(task.number)
        for window in task.windows:
            last = min(window.deadline, task.end, end) if task.has_left else min(window.deadline, end)
            if max(window.release, first) < last or (window.ran is not None and first <= window.ran < end):
                lines.append((task.number, window.i, (window.i - 1) // join.cost + 1, max(join.slot, window.release - join.early),
                              window.release, window.deadline, window.bit, window.group, window.ran, window.on))
    return table(("task", "sub", "job", "eligible", "release", "deadline", "bit", "group", "ran", "processor"), lines)


def jobs_of(task, run):
    """(job, release, deadline, the slot behind its last quantum or None) of the jobs that are finished, or due by the task's end."""
    cost = run.join_of(task.number).cost
    for job in count(1):
        release, deadline = run.release(task.number, (job - 1) * cost + 1), run.deadline(task.number, job * cost)
        ran = run.slot_of(task.number, job * cost)
        if ran is None and deadline > task.end:
            return
        yield job, release, deadline, None if ran is None else ran + 1


def jobs_table(placed):
    return table(("task", "job", "release", "deadline", "finish", "response", "tardiness"),
                 ((task.number, job, release, deadline, *((None,) * 3 if end is None else (end, end - release, max(0, end - deadline))))
                  for task in admitted_tasks(placed) for job, release, deadline, end in jobs_of(task, placed.run)))


def level(run, admitted, t):
    """Load and room of slot t of a run with these tasks."""
    base = run.scenario.settings.base
    inside = (task for task in admitted if task.joined <= t and not (task.has_left and task.end <= t))
    return sum(run.join_of(task.number).weight().units(base) for task in inside), base * in_use(run, t)


def load_table(placed, first, end):
    admitted = list(admitted_tasks(placed))
    levels = [level(placed.run, admitted, t) for t in range(first, end)]
    return table(("slot", "load", "room"),
                 ((t, *now) for t, before, now in zip(range(first, end), [None, *levels], levels) if now != before))


def c_table(placed, names=None, slot=None):
    """The schedule as a table in C."""
    return code_model.table(placed, [placed.run.join_of(task.number) for task in admitted_tasks(placed)], names, slot)


def lags_table(placed):
    return table(("task", "cost", "period", "received", "lag"), lags(placed))


def misses_table(placed):
    return table(("task", "sub", "deadline", "ran"), misses(placed))


def denials_table(placed):
    return table(("slot", "event", "code", "reason"),
                 ((slot, event, code, NAMES[code]) for slot, event, code in placed.run.denials))


def tables(placed):
    return ("schedule\n" + schedule(placed, 0, len(placed.rows)) + "lags\n" + lags_table(placed)
            + "misses\n" + misses_table(placed) + "denials\n" + denials_table(placed))


def taken_table(taken):
    return table(("slot", "processor", "task", "sub"), taken)


def events_table(scenario):
    """The events held, by number, with the fields of their kinds."""
    names = ("task", "cost", "period", "early", "by", "count")
    return table(("event", "slot", "kind", *names),
                 ((number, event.slot, event.kind,
                   *(getattr(event, each) if each in EVENTS[event.kind] else None for each in names))
                  for number, event in sorted(scenario.events.items())))


def script(desk):
    """A script of the desk as it stands: its settings, the events held, by number, and the slots stepped."""
    settings, events = desk.scenario.settings, desk.scenario.events
    lines = [("pfair", 2)] if settings.horizon == HORIZONS[2] else []
    lines.append(("settings", settings.processors, settings.base, settings.cap, settings.every))
    lines += [(event.kind, *(getattr(event, each) for each in EVENTS[event.kind])) for _, event in sorted(events.items())]
    lines += [("step", desk.now)] if desk.now else []
    return table(lines[0], lines[1:])


def found(placed):
    """What three reports of a run have by key: the lags, the misses and the denials."""
    return ({(task,): lag for task, _, _, _, lag in lags(placed)},
            {(task, sub): "never" if ran is None else f"ran {ran}" for task, sub, _, ran in misses(placed)},
            {(event, slot): NAMES[code] for slot, event, code in placed.run.denials})


def differences(before, after):
    """The keys at which two reports differ, with what the one and the other have there."""
    return [(*key, before.get(key), after.get(key)) for key in sorted({**before, **after})
            if before.get(key) != after.get(key)]


def diff(before, after):
    """What differs between two runs: their schedules, as far as both go, their lags, misses and denials."""
    text = "schedule\n" + table(("slot", "processor", "before", "after"), (
        (t, p, name(old), name(new)) for t, rows in enumerate(zip(before.rows, after.rows))
        for p, (old, new) in enumerate(zip(*rows)) if old != new))
    keys = (("lags", "task"), ("misses", "task", "sub"), ("denials", "event", "slot"))
    for (title, *names), old, new in zip(keys, found(before), found(after)):
        text += title + "\n" + table((*names, "before", "after"), differences(old, new))
    return text


def sums(placed):
    """What a run comes to, by the figures of the table of sums."""
    settings = placed.run.scenario.settings
    told = [(task.number, task.join.period, figures(task)) for task in listed(placed) if task.was_admitted]
    missed = misses(placed)
    task, sub, deadline = missed[0][:3] if missed else (None, None, None)
    number, period, worst = max(told, key=lambda one: Fraction(one[2][-1], one[1]), default=(None, None, [None]))
    return {"processors": settings.processors, "base": settings.base, "cap": settings.cap, "slots": len(placed.rows),
            "tasks": len(told), "denials": len(placed.run.denials), "misses": len(missed), "first_miss_task": task,
            "first_miss_sub": sub, "first_miss_deadline": deadline, "worst_lag": worst[-1], "worst_lag_period": period,
            "worst_lag_task": number, "preemptions": sum(one[2][2] for one in told),
            "migrations": sum(one[2][1] for one in told), "cells": None}


def cells(before, after):
    """How many cells of the schedule differ, of those that both have."""
    return sum(1 for rows in zip(before.rows, after.rows) for old, new in zip(*rows) if old != new)


def summary(before, after):
    old, new = sums(before), {**sums(after), "cells": cells(before, after)}
    return "summary\n" + table(("figure", "before", "after"), [(figure, old[figure], new[figure]) for figure in old])


def is_different(before, after):
    """Whether a table of what differs has a line, or the slots, the processors, the base or the cap differ."""
    settings = ("processors", "base", "cap", "slots")
    return (any(sums(before)[it] != sums(after)[it] for it in settings) or cells(before, after) > 0
            or any(old != new for old, new in zip(found(before), found(after))))


def figures(task):
    """The figures of a task that was admitted, behind its number and weight."""
    quanta = [window for window in task.windows if window.ran is not None]
    pairs, cost = list(zip(quanta, quanta[1:])), task.join.cost
    responses = [last.ran + 1 - quanta[last.i - cost].release for last in quanta if last.i % cost == 0]
    late = [window for window in task.windows if window.is_late]
    return (len(quanta), sum(1 for a, b in pairs if a.on != b.on),
            sum(1 for a, b in pairs if b.ran != a.ran + 1 and (b.i - 1) % cost != 0),
            len(responses), min(responses, default=None), max(responses, default=None),
            len(late), max((window.ran + 1 - window.deadline for window in late if window.ran is not None), default=0),
            min(task.lags.values()), max(task.lags.values()))


def stats_table(placed):
    return table(("task", "cost", "period", "quanta", "migrations", "preemptions", "jobs", "response_min", "response_max",
                  "missed", "tardiness_max", "lag_min", "lag_max"),
                 ((task.number, task.join.cost, task.join.period, *figures(task))
                  for task in listed(placed) if task.was_admitted))


def processors_table(placed):
    """Of each processor its quanta, its idle slots, and the slots in which another task is on it, or nobody, than before."""
    lines = []
    for p in range(placed.run.scenario.settings.processors):
        tasks = [row[p] and row[p][0] for row in placed.rows]
        quanta = sum(1 for task in tasks if task)
        lines.append((p, quanta, len(tasks) - quanta, sum(1 for old, new in zip(tasks, tasks[1:]) if old != new)))
    return table(("processor", "quanta", "idle", "changes"), lines)


def json_report(placed, entries):
    report = {
        "denials": [{"slot": slot, "event": event, "code": code, "reason": NAMES[code]}
                    for slot, event, code in placed.run.denials],
        "entries": entries,
        "lags": [dict(zip(("task", "cost", "period", "received", "lag"), line)) for line in lags(placed)],
        "misses": [dict(zip(("task", "sub", "deadline", "ran"), line)) for line in misses(placed)],
        "now": len(placed.rows),
        "schedule": placed.rows,
    }
    return json.dumps(report, sort_keys=True, separators=(",", ":")) + "\n"


# The program

def meaning(script, view):
    """What `pfair` with the view's words writes for the script, what it tells of a fault, and its status."""
    if len(script) > LONGEST_SCRIPT:
        return b"", b"the script is longer than 16777216 bytes\n", 1
    told, lines = answers(script)
    text = "".join(line + "\n" for line in lines) if view.has_replies() else ""
    if isinstance(told, Desk):
        if view.form == "diff":
            runs = runs_since(script, view.since(records(script)))
            if view.is_part:
                return (summary(*runs) + diff(*runs)).encode(), b"", int(is_different(*runs))
            return diff(*runs).encode(), b"", 0
        first, end = view.range(told.now)
        if view.form == "svg" and end - first > MOST_DRAWN:
            return b"", b"range too long\n", 2
        return (text + told.report(view)).encode(), b"", 0
    return text.encode(), f"bad record {told}\n".encode(), 1


def runs_since(script, since):
    """The run of a good script before one of its records, which has its settings at least, and the run at its end."""
    read = records(script)
    version = 2 if read[0] == ["pfair", "2"] else 1
    desks = (replies(read[:max(since - 1, version)], []), replies(read, []))
    return [run_of(desk.scenario, desk.now) for desk in desks]


@lru_cache(maxsize=1)
def answers(script):
    """The desk at the script's end, or the number of the bad record, and the reply lines."""
    lines = []
    told = replies(records(script) if len(script) <= LONGEST_SCRIPT else [], lines)
    return told, lines


def replies(records, lines):
    """Puts the replies behind the lines. Gives the desk at the script's end, or the number of the bad record."""
    version = 2 if records[:1] == [["pfair", "2"]] else 1
    if len(records) < version:
        return version
    try:
        desk = Desk(settings_of(records[version - 1], version))
    except BadRecord:
        return version
    lines.append("ready")
    for nth, fields in enumerate(records[version:], version + 1):
        try:
            command = command_of(fields, version)
        except BadRecord:
            return nth
        lines += desk.replies(command, nth)
    return desk
