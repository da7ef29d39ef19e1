"""What `pfair why` must tell of a slot, from docs/COMMANDS.md, in the plainest way: over the run of model.py."""
import json
import random
import zlib
from dataclasses import dataclass

import messages_model
import model
import sentences

# A task that scripts seldom have, and how many questions are asked at one desk.
NO_TASK, QUESTIONS = 7, 12
EVENT_KEYS = ("by", "cost", "count", "early", "event", "kind", "period", "slot", "task")


@dataclass(frozen=True)
class Asked:
    """A slot, and the text that `--task` has, if any."""
    slot: int
    task: str | None


def question(script, draw):
    """A slot that was stepped and a task, or none, of a script that was carried out: mostly about an event of some kind, before it or
    behind it, or about the ends of a stop of a clock."""
    now, events, stops = script.desk.now, list(script.events().values()), script.placed.stops
    denied = {number for _, number, _ in script.placed.run.denials}
    kinds = [[event for event in events if event.kind == kind] for kind in model.EVENTS]
    kinds = [kind for kind in (*kinds, [event for event in events if event.number in denied]) if kind]
    event = draw.choice(draw.choice(kinds)) if kinds else model.Event("limit", 0)
    slots = [event.slot, event.slot, event.slot - 1, event.slot + 1, draw.randrange(now)]
    tasks = [event.task or NO_TASK, draw.choice([NO_TASK, *(each.task for each in events if each.task)])]
    if stops and draw.random() < 0.3:
        task, first, end, _ = draw.choice(stops)
        slots, tasks = [first - 1, first, end - 1, end], [task]
    slot, task = draw.choice(slots), draw.choice(tasks)
    told = draw.choice((None, str(task), script.names.get(task, str(task))))
    return Asked(slot if 0 <= slot < now else draw.randrange(now), told)


def asked_of(script, as_json):
    """What is asked of a script, drawn from its bytes: now and then a slot that was not stepped, or a name that no task has."""
    carried, draw = sentences.carried(script), random.Random(zlib.crc32(script) * 2 + as_json)
    if not sentences.is_good(script) or not carried.desk.now:
        return Asked(0, None)
    asked = question(carried, draw)
    if draw.random() < 0.05:
        return draw.choice((Asked(carried.desk.now, asked.task), Asked(asked.slot, "nobody")))
    return asked


def words(script, as_json):
    """The words that ask for it."""
    asked = asked_of(script, as_json)
    return ["why", str(asked.slot), *(["--task", asked.task] if asked.task else []), "-f", "json" if as_json else "text"]


def questions(script):
    """What is asked at a desk that has this script, which is good: drawn from its bytes."""
    carried, draw = sentences.carried(script), random.Random(zlib.crc32(script))
    return [question(carried, draw) for _ in range(QUESTIONS)] if carried.desk.now else []


def lines(script):
    """The lines that ask for it."""
    return "".join(f"why,{it.slot}{f',{it.task}' if it.task else ''}\n" for it in questions(script)).encode()


@dataclass(frozen=True)
class Ranked:
    """A subtask that may run in the slot: its rank, the subtask with its deadlines, its release, and what it does."""
    rank: int
    subtask: model.Subtask
    release: int
    by: str | None
    kept: bool | None
    processor: int | None
    answer: str


class Why:
    """The slot of a script that was carried out. Its run up to the choice of the slot has the events of the slot, and no later ones."""

    def __init__(self, script, slot):
        run = script.placed.run
        self.script, self.slot, self.settings = script, slot, script.desk.scenario.settings
        self.run = model.Run(run.scenario, run.picks[:slot], [], [it for it in run.in_force if it.slot <= slot])
        self.count, self.row = self.run.count(), script.placed.rows[slot]
        self.ranking = list(self.ranked())

    def ranked(self):
        eligible = list(self.run.eligible(self.slot))
        order = sorted(eligible, key=lambda x: sum(1 for y in eligible if y.precedes(x)))
        for rank, it in enumerate(order, 1):
            release = self.run.release(it.task, it.i)
            by = rule(order[rank - 2], it)[0] if rank > 1 else None
            kept, processor, does = self.seat(it) if rank <= self.count else (None, None, self.wait(order[self.count - 1], it))
            early = f"; early by {release - self.slot}" if self.slot < release else ""
            late = f"; late by {self.slot + 1 - it.deadline}" if self.slot >= it.deadline else ""
            yield Ranked(rank, it, release, by, kept, processor, does + early + late)

    def seat(self, it):
        """Whether the task keeps its processor, which it has, and how that is told."""
        processor = self.row.index((it.task, it.i))
        before = self.script.placed.rows[self.slot - 1] if self.slot else []
        ran_on = next((p for p, place in enumerate(before) if place and place[0] == it.task), None)
        if ran_on == processor:
            return True, processor, f"runs on p{processor}, kept"
        out = f", p{ran_on} is out of use" if ran_on is not None and ran_on >= self.count else ""
        return False, processor, f"runs on p{processor}, lowest free{out}"

    def wait(self, last, it):
        return f"waits behind {self.script.place(last.task, last.i)}: {rule(last, it)[1]}"

    def events(self):
        """The events held of the slot, in run order, each with its denial, or None."""
        denied = {it.event.number: it for it in sentences.denials(self.script) if it.event.slot == self.slot}
        return [(event, denied.get(event.number)) for event in self.script.desk.scenario.of_slot(self.slot)]

    def load(self):
        return self.run.load()

    def room(self):
        return self.count * self.settings.base

    def whereabouts(self, task):
        """The rank of the task, if it has one, and the sentence on it."""
        at = next((it for it in self.ranking if it.subtask.task == task), None)
        if at:
            return at.rank, f"{self.script.place(task, at.subtask.i)} has rank {at.rank} of {len(self.ranking)}, {at.answer}"
        if not self.run.is_inside(task):
            join = self.script.event_of("join", task)
            return None, sentences.absence(self.script, task, join is not None and join.slot > self.slot, self.slot)
        return None, self.upcoming(task)

    def upcoming(self, task):
        """Of a task that is inside and may not run: its next subtask."""
        i, join = self.run.done(task, self.slot) + 1, self.run.join_of(task)
        release = self.run.release(task, i)
        first = max(join.slot, release - join.early)
        told = f"{self.script.place(task, i)} is released in slot {release}" + (f" and may run from slot {first} on" if first != release else "")
        for stopped, q, end, number in self.script.placed.stops:
            if stopped == task and self.script.events()[number].slot <= self.slot and q <= self.slot < end:
                told += f"; its clock is stopped from slot {q} to {end} (event {number})"
        return told


def rule(x, y):
    """The rule that puts y behind x, and its sentence."""
    if x.deadline != y.deadline:
        return "deadline", f"deadline {y.deadline} after {x.deadline}"
    if x.bit != y.bit:
        return "bit", f"same deadline, bit {y.bit} after {x.bit}"
    if x.bit == 0:
        return "task", f"same deadline, both bits 0, task {y.task} after {x.task}"
    if x.group != y.group:
        return "group", f"same deadline, both bits 1, group deadline {y.group} after {x.group}"
    return "task", f"same deadline, both bits 1, same group deadline, task {y.task} after {x.task}"


# Text

def ranking_lines(why):
    heading = ("rank", "task/sub", "window", "deadline", "bit", "group", "by", "answer")
    lines = [(str(it.rank), why.script.place(it.subtask.task, it.subtask.i), f"{it.release}..{it.subtask.deadline}", str(it.subtask.deadline),
              str(it.subtask.bit), str(it.subtask.group), it.by or "-", it.answer) for it in why.ranking]
    widths = [max(map(len, column)) for column in zip(heading, *lines)]
    return ["  ".join(cell.ljust(width) for cell, width in zip(line, widths)).rstrip() for line in (heading, *lines)] if lines else []


def event_line(event, denial):
    outcome = f"denied: {denial.sentence}" if denial else "taken"
    return f"event {event.number}, {sentences.record_of(event)}: {outcome}"


def text(why, task):
    script, settings = why.script, why.settings
    lines = [f"slot {why.slot} of {script.desk.now}: processors in use {why.count} of {settings.processors}, base {settings.base}, load {why.load()}, "
             f"room {why.room()}, subtasks that may run {len(why.ranking)}", *(event_line(*it) for it in why.events())]
    for p, place in enumerate(why.row):
        lines.append(f"p{p}: " + (script.place(*place) if place else "idle" if p < why.count else "out of use"))
    lines += ranking_lines(why)
    if task is not None:
        lines.append(f"{script.task(task)}: {why.whereabouts(task)[1]}")
    return "".join(f"{line}\n" for line in lines)


# JSON

def event_object(event, denial):
    has = ("event", "kind", *model.EVENTS[event.kind])
    told = {key: (event.number if key == "event" else getattr(event, key)) if key in has else None for key in EVENT_KEYS}
    return told | {"code": denial and denial.code, "reason": denial and model.NAMES[denial.code], "text": denial and denial.sentence}


def ranking_object(it):
    subtask = it.subtask
    return {"bit": subtask.bit, "by": it.by, "deadline": subtask.deadline, "group": subtask.group, "kept": it.kept, "processor": it.processor,
            "rank": it.rank, "release": it.release, "sub": subtask.i, "task": subtask.task, "text": it.answer}


def object_of(why, task):
    rank, sentence = why.whereabouts(task) if task is not None else (None, None)
    return {"asked": None if task is None else {"rank": rank, "task": task, "text": sentence}, "base": why.settings.base, "count": why.count,
            "events": [event_object(*it) for it in why.events()], "load": why.load(), "now": why.script.desk.now, "processors": why.row,
            "ranking": [ranking_object(it) for it in why.ranking], "room": why.room(), "slot": why.slot}


def stepped(count):
    """Which slots were stepped, of so many."""
    return "none was" if count == 0 else "slot 0 was" if count == 1 else f"slots 0 to {count - 1} were"


def answer(script, asked, as_json):
    """What `pfair why` writes for the script, what it tells of a fault, and its status."""
    if not sentences.is_good(script):
        return b"", messages_model.first(script), 1
    carried, task = sentences.carried(script), asked.task
    if task is not None:
        task = int(task) if task.isdecimal() else next((number for number, name in carried.names.items() if name == task), None)
        if task is None:
            return b"", f'"{asked.task}" names no task\n'.encode(), 2
    if asked.slot >= carried.desk.now:
        return b"", f"slot {asked.slot} was not stepped: {stepped(carried.desk.now)}\n".encode(), 2
    why = Why(carried, asked.slot)
    told = json.dumps(object_of(why, task), sort_keys=True, separators=(",", ":")) + "\n" if as_json else text(why, task)
    return told.encode(), b"", 0


def meaning(script, as_json):
    """The same of what `words` ask for."""
    return answer(script, asked_of(script, as_json), as_json)


def answers(script, plan):
    """What a session that began with the script answers to its `lines`, its records being those of the plan; what it tells, and its status."""
    return b"".join(answer(plan, asked, False)[0] for asked in questions(script)), b"", 0
