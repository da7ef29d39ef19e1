"""What `pfair fit` must answer to a script, from docs/COMMANDS.md, in the plainest way: over the run of model.py."""
import json
from dataclasses import dataclass
from fractions import Fraction

import messages_model
import model
import sentences
from pictures import in_use
from sentences import cut, up

KEYS = ("quanta", "migrations", "preemptions", "jobs", "response_min", "response_max", "missed", "tardiness_max", "lag_min", "lag_max")
OVER_CAPACITY = 20  # a denial


@dataclass(frozen=True)
class Level:
    """A slot that was stepped, its load, and the processors in use."""
    slot: int
    load: int
    processors: int
    room: int

    @property
    def free(self):
        return self.room - self.load


@dataclass(frozen=True)
class Figures:
    """A task that was admitted: its join, the figures of `stats`, and the greatest cost that fits, or None."""
    join: model.Event
    figures: dict
    grow: int | None

    def response(self):
        return Fraction(self.figures["response_max"], self.join.period)

    def lag(self):
        return Fraction(self.figures["lag_max"], self.join.period)


class Fit:
    """The answer to a script that was carried out."""

    def __init__(self, script):
        self.script, self.settings, self.now = script, script.desk.scenario.settings, script.desk.now
        listed = [task for task in model.listed(script.placed) if task.was_admitted]
        self.levels = [self.level(listed, t) for t in range(self.now)]
        self.tasks = [Figures(task.join, dict(zip(KEYS, model.figures(task))), self.grow(task)) for task in listed]
        self.refused, self.denied, self.missed = script.refused(), script.denied(), script.missed()
        self.unreached = sum(event.slot >= self.now for event in script.events().values())
        self.over = [it for it in self.levels if it.free < 0]
        self.tightest = min(self.levels, key=lambda it: it.free, default=None)

    def level(self, tasks, t):
        processors = in_use(self.script.placed.run, t)
        load = sum(task.join.weight().units(self.settings.base) for task in tasks if self.is_inside(task, t))
        return Level(t, load, processors, processors * self.settings.base)

    def is_inside(self, task, t):
        """Whether it is inside behind the events of the slot."""
        return task.joined <= t and not (task.has_left and task.end <= t)

    def grow(self, task):
        """The greatest cost with which the load is within room and cap in each slot of the task's stay, or None."""
        join, unit = task.join, self.settings.base // task.join.period
        free = min(min(it.room, self.settings.cap) - it.load for it in self.levels if self.is_inside(task, it.slot))
        most = min(join.period, join.cost + model.floor(free, unit))
        return most if most >= 1 else None

    def verdict(self):
        if self.refused or self.denied or self.missed:
            return "does not fit"
        return "fits so far" if self.over or self.unreached else "fits"

    def is_proved_so_far(self):
        return bool(self.levels) and not self.over

    def is_proved_for_later(self):
        counts = [self.settings.processors, *(event.count for event in self.script.events().values() if event.kind == "limit")]
        return all(self.settings.cap <= count * self.settings.base for count in counts)

    def overload(self):
        """The slots with an overload, the first of them, the units in all, and by how many slots a window can be late for them."""
        units = -sum(it.free for it in self.over)
        return {"first": self.over[0].slot, "late": units // self.settings.base, "slots": len(self.over), "units": units} if self.over else None

    def joins(self):
        """The units of all joins held, where one is denied as it asks for more than the cap leaves, or None."""
        if not any(it.code == OVER_CAPACITY for it in sentences.denials(self.script)):
            return None
        return sum(event.weight().units(self.settings.base) for event in self.script.events().values() if event.kind == "join")

    def worst(self):
        """The tasks with the greatest response and lag, as parts of their periods, and the sums of preemptions and migrations."""
        if not self.tasks:
            return None
        done = [it for it in self.tasks if it.figures["jobs"]]
        response = max(done, key=Figures.response, default=None)
        return {"lag": max(self.tasks, key=Figures.lag), "response": response,
                **{key: sum(it.figures[key] for it in self.tasks) for key in ("migrations", "preemptions")}}


# Text

def tightest_text(fit):
    it, base = fit.tightest, fit.settings.base
    free = f"{cut(it.free, base, 4)} free" if it.free >= 0 else f"{up(-it.free, base, 4)} too much"
    return f"{up(it.load, base, 4)} of {it.processors} processors in slot {it.slot}, {free}"


def top_lines(fit):
    """The verdict, the tightest slot and the counts."""
    counts = f"in {fit.now} slots: {fit.refused} refused, {fit.denied} denied, {fit.unreached} not reached, {fit.missed} windows missed"
    if fit.tightest is None:
        return [f"{fit.verdict()}: no slot was stepped", counts]
    if fit.verdict() != "does not fit":
        return [f"{fit.verdict()}: {tightest_text(fit)}", counts]
    lines = [f"does not fit: {counts}", f"tightest: {tightest_text(fit)}"]
    if (joins := fit.joins()) is not None:
        lines.append(f"all joins together: {up(joins, fit.settings.base, 4)} of {fit.settings.processors} processors")
    return lines


def cells(fit, it):
    """A line of the table, by heading."""
    join, figures, unit = it.join, it.figures, fit.script.slot
    period, response, jobs = join.period, figures["response_max"], figures["jobs"]
    told = {"task": str(join.task)}
    if any(each.join.task in fit.script.names for each in fit.tasks):
        told["name"] = fit.script.names.get(join.task, "")
    told |= {"weight": f"{join.cost}/{period}", "utilization": up(join.cost, period, 4),
             "response": f"{'-' if response is None else response} of {period}"}
    if unit:
        length, word = unit
        told["time"] = f"{'-' if response is None else f'{response * length}{word}'} of {period * length}{word}"
    return told | {"lag": f"{cut(figures['lag_min'], period, 3)} to {cut(figures['lag_max'], period, 3)}",
                   **{f"{key}/job": up(figures[key], jobs, 2) if jobs else "-" for key in ("preemptions", "migrations")},
                   "fits up to": f"{it.grow}/{period}" if it.grow else "-"}


def in_columns(lines):
    widths = [max(map(len, column)) for column in zip(*lines)]
    return ["  ".join(cell.ljust(width) for cell, width in zip(line, widths)).rstrip() for line in lines]


def worst_text(fit):
    worst = fit.worst()
    response, lag = worst["response"], worst["lag"]
    told = f"{response.figures['response_max']} of {response.join.period} ({fit.script.task(response.join.task)})" if response else "-"
    return (f"worst: response {told}, lag {cut(lag.figures['lag_max'], lag.join.period, 3)} ({fit.script.task(lag.join.task)}); "
            f"{worst['preemptions']} preemptions, {worst['migrations']} migrations")


def text(fit):
    lines = [*top_lines(fit), *sentences.in_short(list(sentences.told(fit.script)))]
    if over := fit.overload():
        lines += [f"overloaded: in {over['slots']} slots the load is above the processors in use, first in slot {over['first']}",
                  f"by theorem: they are asked for {up(over['units'], fit.settings.base, 4)} quanta too many in all, "
                  f"so no window is ever more than {over['late']} slots late in them"]
    if fit.is_proved_so_far():
        lines.append("by theorem: in each slot stepped the load is within the processors in use, so no window is missed in them")
    if fit.is_proved_for_later():
        lines.append("by theorem: the processors in use carry the cap, so no window is missed later either, whatever joins, leaves or is delayed")
    if fit.tasks:
        table = [cells(fit, it) for it in fit.tasks]
        lines += ["", *in_columns([[*table[0]], *([*it.values()] for it in table)]), "", worst_text(fit)]
    return "".join(f"{line}\n" for line in lines)


# JSON

def refused_objects(script):
    return [{"code": it.code, "denial": it.denial, "event": it.event, "line": script.lines[it.record], "reason": model.NAMES[it.code],
             "record": it.record, "steps": it.steps, "weight": it.weight} for it in sentences.refusals(script)]


def denied_objects(script):
    makers = script.makers()
    return [{"asked": it.asked, "code": it.code, "event": it.event.number, "free": it.free, "from": it.from_slot,
             "line": script.lines[makers[it.event.number]], "reason": model.NAMES[it.code], "record": makers[it.event.number],
             "released": it.released, "slot": it.event.slot, "task": it.event.task} for it in sentences.denials(script)]


def missed_objects(script):
    makers = script.makers()
    for it in sentences.misses(script):
        join = script.placed.run.join_of(it.task).number
        yield {"deadline": it.deadline, "event": join, "line": script.lines[makers[join]], "ran": it.ran, "record": makers[join], "sub": it.sub,
               "task": it.task, "windows": it.windows}


def task_object(script, it):
    return {"cost": it.join.cost, "grow": it.grow, "name": script.names.get(it.join.task), "period": it.join.period, "task": it.join.task, **it.figures}


def object_of(fit):
    script, tightest, worst = fit.script, fit.tightest, fit.worst()
    if worst:
        worst |= {"lag": worst["lag"].join.task, "response": worst["response"] and worst["response"].join.task}
    levels = ("free", "load", "processors", "room", "slot")
    return {"base": fit.settings.base, "cap": fit.settings.cap, "commands": script.desk.entries, "denied": denied_objects(script),
            "events": len(script.events()), "missed": list(missed_objects(script)), "now": fit.now, "overloaded": fit.overload(),
            "processors": fit.settings.processors, "proved": {"run": fit.is_proved_so_far(), "settings": fit.is_proved_for_later()},
            "refused": refused_objects(script), "slot": script.slot and {"length": script.slot[0], "unit": script.slot[1]},
            "tasks": [task_object(script, it) for it in fit.tasks],
            "tightest": tightest and {key: getattr(tightest, key) for key in levels}, "unreached": fit.unreached,
            "verdict": fit.verdict(), "worst": worst}


def words(script, as_json):
    """The words that ask for it."""
    return ["fit", "-f", "json" if as_json else "text"]


def meaning(script, as_json):
    """What `pfair fit` writes for the script, what it tells of a fault, and its status."""
    if not sentences.is_good(script):
        return b"", messages_model.first(script), 1
    fit = Fit(sentences.carried(script))
    answer = json.dumps(object_of(fit), sort_keys=True, separators=(",", ":")) + "\n" if as_json else text(fit)
    return answer.encode(), b"", 0 if fit.verdict() == "fits" else 6
