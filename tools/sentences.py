"""What pfair must tell of what was refused, denied and missed in a script, from docs/COMMANDS.md, in the plainest way."""
import math
import re
from dataclasses import dataclass
from functools import lru_cache

import model
import plans

# The most messages that a list has, but in `pfair check --run`.
MOST_MESSAGES = 20
# Why an event would be denied.
WOULD_BE_DENIED = {20: "it asks for more than is free", 21: "its task is not inside", 22: "it leaves too early", 23: "its quantum was released already"}


def up(a, b, places):
    """a / b with so many decimals, rounded up."""
    return with_decimals(-(-a * 10**places // b), places)


def cut(a, b, places):
    """a / b with so many decimals, the rest cut off: towards 0, and with a sign only where a digit that is shown is not 0."""
    parts = abs(a) * 10**places // b
    return ("-" if a < 0 and parts else "") + with_decimals(parts, places)


def with_decimals(parts, places):
    return f"{parts // 10**places}.{parts % 10**places:0{places}}"


@dataclass(frozen=True)
class Carried:
    """A script that was carried out: its desk, the run at its end, the line and the column of each record, names by task, and the
    length of a slot, where it was told."""
    desk: model.Desk
    placed: model.Placed
    lines: dict
    columns: dict
    names: dict
    slot: tuple | None

    def task(self, task):
        return self.names.get(task, f"task {task}")

    def place(self, task, i):
        return f"{self.names.get(task, task)}/{i}"

    def events(self):
        """The events held, by number."""
        return self.desk.scenario.events

    def event_of(self, kind, task):
        """The event held that joins the task, or that is its leave."""
        return next((event for event in self.events().values() if (event.kind, event.task) == (kind, task)), None)

    def refused(self):
        """How many commands were refused."""
        return sum(reply.startswith("refused ") for it in self.desk.history for reply in it.replies)

    def denied(self):
        """How many events are denied."""
        return len(self.placed.run.denials)

    def missed(self):
        """How many windows are missed."""
        return len(model.misses(self.placed))

    def makers(self):
        """The number of the record that made each event as it is: its insert, or the last alter of it."""
        return {int(it.replies[0].split()[1]): it.record for it in self.desk.history
                if isinstance(it.command, model.Change) and it.command.verb != "strike" and it.replies[0].startswith("event ")}


@lru_cache(maxsize=1)
def carried(script):
    """The script carried out, or the number of its bad record."""
    if plans.is_plan(script):
        lined, (outcome, _) = plans.lined_rows(script), plans.answers(script)
        desk, told = outcome if isinstance(outcome, tuple) else (outcome, plans.Told())
    else:
        lined, (desk, _), told = model.lined_records(script), model.answers(script), plans.Told()
    if not isinstance(desk, model.Desk):
        return desk
    lines = {number: line for number, (line, _) in enumerate(lined, 1)}
    columns = {number: first_column(script, line) for number, line in lines.items()}
    return Carried(desk, model.run_of(desk.scenario, desk.now), lines, columns, told.names, told.slot)


def first_column(script, line):
    """The column of a line's first byte that is no blank, as a plan's record has them before it."""
    text = re.split(b"\r\n|\r|\n", script.removeprefix(b"\xef\xbb\xbf"))[line - 1]
    return len(text) - len(text.lstrip(b" \t")) + 1


def is_good(script):
    """Whether it has no bad record."""
    return isinstance(carried(script), Carried)


def record_of(event):
    """The event as a record of the format `script`."""
    return ",".join(map(str, [event.kind, *(getattr(event, each) for each in model.EVENTS[event.kind])]))


# Refused commands

@dataclass(frozen=True)
class Refusal:
    """A record of which a command was refused: the fault's number, of a bad weight its number, the event that is named, of a
    strict change the denial's number, of steps how many were refused, and what would be right, where that can be said."""
    record: int
    code: int
    weight: int | None
    event: int | None
    denial: int | None
    steps: int | None
    sentence: str
    hint: str | None


def refusals(script):
    """Those of a script that was carried out."""
    for answered in script.desk.history:
        refused = [it.split() for it in answered.replies if it.startswith("refused ")]
        if refused:
            _, code, _, *more = refused[0]
            yield refusal_of(script, answered, int(code), [int(it) for it in more if it.isdecimal()], len(refused))


def refusal_of(script, answered, code, more, count):
    if code == 30:
        horizon = answered.before.settings.horizon
        sentence = f"{horizon} slots are the horizon, {count} of {answered.command} steps were refused"
        return Refusal(answered.record, code, None, None, None, count, sentence, None)
    change, before = answered.command, answered.before
    if code == 31:
        after, _ = before.changed(change)
        sentence = f"event {more[0]}, {record_of(after.events[more[0]])}, would be denied: {WOULD_BE_DENIED[more[1]]}"
        return Refusal(answered.record, code, None, more[0], more[1], None, sentence, None)
    other = next((number for number, event in before.events.items() if code in (16, 17) and number != change.number
                  and (event.kind, event.task) == (change.event.kind, change.event.task)), None)
    sentence = edit_sentence(script, change, before, code, more, other)
    hint = edit_hint(change, before, code, more, other)
    return Refusal(answered.record, code, more[0] if code == 15 else None, other, None, None, sentence, hint)


def edit_sentence(script, change, before, code, more, other):
    """Why a change has this fault."""
    event, settings, number = change.event, before.settings, change.number
    if code == 10:
        was_given = 1 <= number < before.next_number
        return f"event {number} was struck out" if was_given else f"no event has the number {number}, the next one is {before.next_number}"
    if code == 15:
        return {2: "the cost is 0", 3: f"the cost {event.cost} is above the period {event.period}",
                4: f"the period {event.period} does not divide the base {settings.base}"}[more[0]]
    return {
        11: f"slot {event.slot} is not below the horizon {settings.horizon}",
        12: f"task {event.task} is not within 1 to {model.LARGEST_TASK}",
        13: f"early {event.early} is above {model.LARGEST_EARLY}",
        14: f"by {event.by} is not within 1 to {model.LARGEST_DELAY}",
        24: f"count {event.count} is not within 1 to {settings.processors}",
        16: f"event {other} joins {script.task(event.task)}",
        17: f"event {other} is the leave of {script.task(event.task)}",
        18: f"{model.MOST_EVENTS} events are held",
        19: f"number {model.LARGEST_NUMBER} was given",
    }[code]


def edit_hint(change, before, code, more, other):
    """What would be right, or None."""
    if code in (16, 17):
        word = "join" if code == 16 else "leave"
        return f"alter,{other},{word},.. changes that {word}"
    return period_hint(before.settings.base, change.event.period) if code == 15 and more[0] == 4 else None


def period_hint(base, period):
    """The periods of the base next to one that it has not, and the least base that both divide."""
    divisors = sorted({it for d in range(1, math.isqrt(base) + 1) if base % d == 0 for it in (d, base // d)})
    below, above, common = max(it for it in divisors if it < period), [it for it in divisors if it > period][:1], math.lcm(base, period)
    return f"a period of {' or '.join(map(str, [below, *above]))}" + (f", or the base {common}" if common <= 2**30 else "")


# Denied events

@dataclass(frozen=True)
class Denial:
    """An event that is denied: its event, the denial's number, what the sentence rests on, and what would be right, where that can be
    said."""
    event: model.Event
    code: int
    asked: int | None
    free: int | None
    from_slot: int | None
    released: int | None
    sentence: str
    hint: str | None = None


def denials(script):
    """Those of a script that was carried out, in the order of the table."""
    return [denial_of(script, script.events()[number], code) for _, number, code in script.placed.run.denials]


def run_before(script, event):
    """The run up to the event's point of the run order."""
    run = script.placed.run
    return model.Run(run.scenario, run.picks[:event.slot], [], [it for it in run.in_force if it.run_order() < event.run_order()])


def denial_of(script, event, code):
    settings, point = script.desk.scenario.settings, run_before(script, event)
    if code == 20:
        asked, free = event.weight().units(settings.base), settings.cap - point.load()
        sentence = f"it asks for {up(asked, settings.base, 4)} of a processor, and {cut(free, settings.base, 4)} are free"
        cost = free // (settings.base // event.period)
        return Denial(event, code, asked, free, None, None, sentence, f"a cost of {cost} would be let in" if cost else None)
    if code == 21:
        join = script.event_of("join", event.task)
        is_later = join is not None and join.run_order() > event.run_order()
        return Denial(event, code, None, None, None, None, absence(script, event.task, is_later, event.slot))
    last = point.done(event.task, event.slot)
    if code == 23:
        released = point.release(event.task, last + 1)
        return Denial(event, code, None, None, None, released, f"{script.place(event.task, last + 1)} was released already, in slot {released}")
    later = from_slot(script, event)
    more = f"the next slot in which it may leave is {later}" if later else never_text(script, event)
    sentence = f"{script.place(event.task, last)} ran in slot {script.placed.run.slot_of(event.task, last)}: {more}"
    return Denial(event, code, None, None, later, None, sentence)


def never_text(script, leave):
    """From which slot on a task may leave that may leave in none of those stepped."""
    horizon, bound = script.desk.scenario.settings.horizon, script.placed.run.free_from(leave.task, last_slot(script))
    return f"it may leave in slot {bound} or later, which is not stepped yet" if bound < horizon else f"it may leave in no slot below the horizon {horizon}"


def last_slot(script):
    """The last slot in which a leave is looked for."""
    return min(script.desk.now, script.desk.scenario.settings.horizon - 1)


def from_slot(script, leave):
    """The first slot from the leave's own on in which the run lets the task leave, or None."""
    run = script.placed.run
    return next((t for t in range(leave.slot, last_slot(script) + 1) if run.free_from(leave.task, t) <= t), None)


def absence(script, task, is_later, slot):
    """Why a task is not inside, at a point of this slot, before its join or behind it."""
    join, leave = script.event_of("join", task), script.event_of("leave", task)
    if join is None:
        return f"no join of {script.task(task)} is held"
    if is_later:
        there = "in that slot, and leaves come before joins" if join.slot == slot else f"later, in slot {join.slot}"
        return f"{script.task(task)} joins {there} (event {join.number})"
    if any(number == join.number for _, number, _ in script.placed.run.denials):
        return f"the join of {script.task(task)} in slot {join.slot} (event {join.number}) is denied"
    return f"{script.task(task)} left in slot {leave.slot} (event {leave.number})"


# Missed windows

@dataclass(frozen=True)
class Miss:
    """A task with missed windows: the first of them, and how many it has."""
    task: int
    sub: int
    deadline: int
    ran: int | None
    windows: int


def misses(script):
    """Those of a script that was carried out, in the order of their first lines of the table."""
    found = {}
    for task, sub, deadline, ran in model.misses(script.placed):
        first = found.get(task, Miss(task, sub, deadline, ran, 0))
        found[task] = Miss(task, first.sub, first.deadline, first.ran, first.windows + 1)
    return list(found.values())


# Messages

def told(script):
    """All messages of what was refused, denied and missed, of a script on standard input, each as its lines."""
    makers = script.makers()

    def front(record):
        return f"-:{script.lines[record]}:{script.columns[record]}"

    for it in refusals(script):
        yield [f"{front(it.record)}: refused: {it.sentence}", *hint_lines(it.hint)]
    for it in denials(script):
        event = f"event {it.event.number}, {record_of(it.event)}"
        yield [f"{front(makers[it.event.number])}: denied: {event}: {it.sentence}", *hint_lines(it.hint)]
    for it in misses(script):
        record = makers[script.placed.run.join_of(it.task).number]
        ran = "did not run" if it.ran is None else f"ran in slot {it.ran}"
        yield [f"{front(record)}: missed: {script.place(it.task, it.sub)} had to run before slot {it.deadline} and {ran}; {it.windows} in all"]


def hint_lines(hint):
    return [f"  hint: {hint}"] if hint else []


def in_whole(messages):
    """The lines of all messages."""
    return [line for message in messages for line in message]


def in_short(messages):
    """The lines of the first messages, and how many more there are."""
    more = len(messages) - MOST_MESSAGES
    return in_whole(messages[:MOST_MESSAGES]) + ([f"and {more} more"] if more > 0 else [])
