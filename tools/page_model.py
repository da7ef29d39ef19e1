"""What a page must show of a script's run: from the run by model.py, the answers of why_model.py, and docs/TABLES.md, never from the page."""
import json
from dataclasses import dataclass, replace

import model
import sentences
import why_model

# The ids of the lists of a page, with the keys of the data that they show.
LISTS = {"tasks": "figures", "misses": "misses", "denials": "denials", "refusals": "refusals", "events": "events"}


@dataclass(frozen=True, eq=False)
class Shown:
    """A script that was carried out, what its page has as data, and which of its slots the page has."""
    carried: sentences.Carried
    data: dict
    first: int
    end: int

    @property
    def now(self):
        return self.carried.desk.now

    @property
    def names(self):
        return self.carried.names

    @property
    def tasks(self):
        """The tasks of which a join, leave or delay has a slot below the slots stepped."""
        return sorted({it.task for it in self.carried.events().values() if it.task and it.slot < self.now})

    def name(self, task):
        return self.carried.task(task)

    def why(self, slot):
        return why_model.Why(self.carried, slot)

    def ranking(self, slot):
        """The table of a slot: rank, name, subtask, window, bit, group deadline, answer."""
        return [[str(it.rank), self.name(it.subtask.task), str(it.subtask.i), f"{it.release} to {it.subtask.deadline}",
                 str(it.subtask.bit), str(it.subtask.group), it.answer] for it in self.why(slot).ranking]

    def misses(self):
        return model.misses(self.carried.placed)

    def verdict(self):
        settings, count = self.data["settings"], len
        slots = sorted({0, *[it.slot for it in self.carried.placed.run.in_force if it.slot < self.now]}) if self.now else []
        levels = [(why.load(), why.count, slot) for slot in slots for why in [self.why(slot)]] or [(0, settings["processors"], 0)]
        load, in_use, slot = max(levels, key=lambda it: (it[0] / it[1], -it[2]))
        return (f"missed windows {count(self.misses())}; denied events {self.carried.denied()}; refused changes "
                f"{count(list(sentences.refusals(self.carried)))}; load {load / settings['base']:.4f} of {in_use} processors in use (slot {slot})")

    def opening(self):
        """The slot that a page has chosen when it opens, or None."""
        due = next((deadline for _, _, deadline, _ in self.misses() if self.first <= deadline <= self.end), None)
        return None if due is None or self.first == self.end else min(due, self.end - 1)

    def columns(self, pixels):
        """The slots of each column of an overview of so many pixels."""
        slots = self.end - self.first
        count = min(pixels, slots)
        return [range(self.first + c * slots // count, self.first + (c + 1) * slots // count) for c in range(count)]

    def busy(self, pixels):
        rows, in_use = self.carried.placed.rows, [self.in_use(slot) for slot in range(self.now)]
        return [100 * sum(1 for slot in column for place in rows[slot] if place) // sum(in_use[slot] for slot in column)
                for column in self.columns(pixels)]

    def in_use(self, slot):
        limits = [it.count for it in self.carried.placed.run.in_force if it.kind == "limit" and it.slot <= slot]
        return limits[-1] if limits else self.data["settings"]["processors"]

    def late(self, pixels):
        late = {slot for _, _, deadline, ran in self.misses() for slot in (deadline, ran)}
        return [c for c, column in enumerate(self.columns(pixels)) if late & set(column)]

    def asked(self, words):
        """The tasks that a search asks for: each word is a number, a range, or a part of names."""
        if not words.strip(" ,"):
            return set(self.tasks)
        found = set()
        for word in words.lower().replace(",", " ").split():
            low, dash, high = word.partition("-")
            is_number = low.isdecimal() and (high.isdecimal() or not dash)
            found |= {it for it in self.tasks if (int(low) <= it <= int(high or low) if is_number else word in self.name(it).lower())}
        return found

    def lines(self, name, asked):
        """How many lines of a list are there, of these tasks and of no task."""
        events = {it["event"]: it for it in self.data["events"]}
        def task_of(it):
            return it["task"] if "task" in it else events[it["event"]]["task"] if "event" in it else None
        return sum(1 for it in self.data[LISTS[name]] if task_of(it) is None or task_of(it) in asked)


def before(carried, first):
    """What a page with a range has of the slots before it."""
    run = carried.placed.run
    delays = [it for it in run.in_force if it.kind == "delay" and it.slot < first]
    ran = [(task, run.done(task, first)) for task in run.joined()]
    row = carried.placed.rows[first - 1] if first else None
    return {"delays": [{"event": it.number, "sub": run.done(it.task, it.slot) + 1} for it in sorted(delays, key=lambda it: it.number)],
            "quanta": [{"quanta": quanta, "task": task} for task, quanta in ran if quanta], "slots": first,
            "row": row and [place and list(place) for place in row]}


def shown(script, full, slots=None, title=None):
    """The page of a script, of which `full` is all that is told of its run: with a title, and with some of its slots alone."""
    carried, data = sentences.carried(script), dict(full)
    first, end = slots or (0, carried.desk.now)
    if title is not None:
        data["title"] = title
    if slots:
        data |= {"schedule": data["schedule"][first:end], "before": before(carried, first)}
    return Shown(carried, data, first, end)


def with_late_deadline(page):
    """The page with a window whose deadline in its data is not that of the run, and which it must say."""
    first, *misses = page.data["misses"]
    return replace(page, data={**page.data, "misses": [{**first, "deadline": first["deadline"] - 1}, *misses]})


def text_of(data):
    """Data as a page has it: on one line, without `<`."""
    return json.dumps(data, sort_keys=True, separators=(",", ":"), ensure_ascii=False).replace("<", "\\u003c")
