"""What pfair must write for a plan, from docs/SCRIPTS.md, in the plainest way: over the desk of model.py."""
import json
import re
from dataclasses import dataclass, field, replace
from functools import lru_cache

import model
import pictures
from model import BadRecord, Change, Event

BLANKS = " \t\n\f\r"
TEXT = re.compile("[A-Za-z][A-Za-z0-9_.+ -]{0,23}")
UNITS, LONGEST_SLOT = ("ns", "us", "ms", "s"), 10**9


def lined_rows(script):
    """The records of a plan, each with the line on which it begins, as lists of fields. A character stands for a byte."""
    text, place = script.removeprefix(b"\xef\xbb\xbf").decode("latin-1"), 0
    while place < len(text):
        if text[place] in "\r\n":
            place += 1
        elif text[place] == "#":
            end = text.find("\n", place)
            place = len(text) if end < 0 else end + 1
        else:
            line = len(re.findall("\r\n|\r|\n", text[:place])) + 1
            fields, place = row_at(text, place)
            fields = [each.strip(BLANKS) for each in fields]
            if fields != [""]:
                yield line, fields


def rows(script):
    """The records alone."""
    return [fields for _, fields in lined_rows(script)]


def row_at(text, place):
    """The record that begins here, and where it ends."""
    fields = [""]
    while True:
        field_text, place = field_at(text, place)
        fields[-1] = field_text
        if place >= len(text) or text[place] != ",":
            return fields, place + 1
        fields.append("")
        place += 1


def field_at(text, place):
    """The field that begins here, and the place of the comma or the end of line behind it."""
    if text[place:place + 1] != '"':
        return plain_field(text, place)
    place, told = place + 1, ""
    while place < len(text):
        if text[place] != '"':
            told, place = told + text[place], place + 1
        elif text[place + 1:place + 2] == '"':
            told, place = told + '"', place + 2
        else:
            rest, place = plain_field(text, place + 1)
            return told + rest, place
    return told, place


def plain_field(text, place):
    end = next((each for each in range(place, len(text)) if text[each] in ",\r\n"), len(text))
    return text[place:end], end


@lru_cache(maxsize=1)
def is_plan(script):
    """Whether the first record begins a plan; its heading may have a fault."""
    return any(fields[0] == "plan" for fields in rows(script)[:1])


@dataclass
class Told:
    """What the records so far told beside the desk: names by task, the length of a slot, labels with the numbers of events."""
    names: dict = field(default_factory=dict)
    slot: tuple = None
    labels: dict = field(default_factory=dict)
    has_begun: bool = False


def is_letter(text):
    return bool(re.match("[A-Za-z]", text))


def text_in(told):
    if not TEXT.fullmatch(told) or told.endswith(" "):
        raise BadRecord
    return told


def within(told, least, most):
    value = model.number(told)
    if not least <= value <= most:
        raise BadRecord
    return value


def settings_of(fields):
    if fields[0] != "settings" or not 3 <= len(fields) <= 5:
        raise BadRecord
    _, processors, base, cap, every = [*fields, "full", "64"][:5] if len(fields) == 3 else [*fields, "64"][:5]
    cap = str(int(processors) * int(base)) if cap == "full" and processors.isdecimal() and base.isdecimal() else cap
    return model.settings_of(["settings", processors, base, cap, every], 2)


def slot_of(fields, told):
    if told.slot or told.has_begun or len(fields) != 3 or fields[2] not in UNITS:
        raise BadRecord
    return within(fields[1], 1, LONGEST_SLOT), fields[2]


def name_of(fields, told):
    if len(fields) != 3:
        raise BadRecord
    task, text = within(fields[1], 1, model.LARGEST_TASK), text_in(fields[2])
    if task in told.names or text in told.names.values():
        raise BadRecord
    return task, text


def task_in(text, told):
    if not is_letter(text):
        return text
    return str(next((task for task, name in told.names.items() if name == text), None) or "x")


def event_of(fields, told):
    """An event, whose task may be told by its name, and whose EARLY may be left out."""
    fields = [*fields, "0"] if fields[:1] == ["join"] and len(fields) == 5 else fields
    if fields[:1] in (["join"], ["leave"], ["delay"]) and len(fields) > 2:
        fields = [*fields[:2], task_in(fields[2], told), *fields[3:]]
    return model.event_of(fields, 2)


def number_in(text, told):
    """The number of an event, which may be told by its label."""
    if not is_letter(text):
        return model.number(text)
    if text not in told.labels:
        raise BadRecord
    return told.labels[text]


def change_of(fields, told):
    """A change, and the label of its event, if it has one."""
    if fields[:1] == ["label"] and len(fields) > 2:
        is_again = fields[2] == "again"
        label, event = text_in(fields[1]), event_of(fields[3 if is_again else 2:], told)
        if (label in told.labels) != is_again:
            raise BadRecord
        return Change("insert", event=event), label
    if fields[:1] == ["alter"] and len(fields) > 1:
        return Change("alter", number_in(fields[1], told), event_of(fields[2:], told)), None
    if fields[:1] == ["strike"] and len(fields) == 2:
        return Change("strike", number_in(fields[1], told)), None
    return Change("insert", event=event_of(fields, told)), None


def command_of(fields, told):
    """A change or a number of steps, and a label."""
    if fields[:1] == ["step"]:
        return model.command_of(fields, 2), None
    if fields[:1] == ["strict"]:
        change, label = change_of(fields[1:], told)
        return replace(change, strict=True), label
    return change_of(fields, told)


def replies(read, lines):
    """Puts the replies behind the lines. Gives the desk at the script's end and what it was told, or the number of the bad
    record."""
    told = Told()
    if read[0] != ["plan", "1"]:
        return 1
    try:
        desk = model.Desk(settings_of(read[1] if len(read) > 1 else [""]))
    except BadRecord:
        return 2
    lines.append("ready")
    for nth, fields in enumerate(read[2:], 3):
        try:
            if fields[0] == "slot":
                told.slot = slot_of(fields, told)
            elif fields[0] == "name":
                task, text = name_of(fields, told)
                told.names[task] = text
            else:
                command, label = command_of(fields, told)
                answered = desk.replies(command, nth)
                told.has_begun = True
                lines += answered
                if label:
                    made = int(answered[0].split()[1]) if answered[0].startswith("event ") else 0
                    told.labels[label] = made or told.labels.get(label, 0)
        except BadRecord:
            return nth
    return desk, told


@lru_cache(maxsize=1)
def answers(script):
    """The desk at the script's end and what it was told, or the number of the bad record, and the reply lines."""
    lines = []
    return replies(rows(script), lines), lines


# Reports

def with_names(text, told):
    """A table of tasks, with the name of each at the end of its line."""
    heading, *lines = text.splitlines()
    return "".join(f"{each}\n" for each in [heading + ",name", *(f"{line},{told.names.get(int(line.split(',')[0]), '')}" for line in lines)])


def tables(placed, told):
    before, behind = model.tables(placed).split("lags\n")[0], "misses\n" + model.tables(placed).split("misses\n")[1]
    return before + "lags\n" + with_names(model.lags_table(placed), told) + behind


def report(placed, entries, told):
    of_version_2 = json.loads(model.json_report(placed, entries))
    names = [{"name": told.names[task], "task": task} for task in sorted(told.names)]
    slot = {"length": told.slot[0], "unit": told.slot[1]} if told.slot else None
    return json.dumps({**of_version_2, "names": names, "slot": slot}, sort_keys=True, separators=(",", ":")) + "\n"


def script(desk, told):
    settings, *behind = model.script(desk).splitlines()[1:]
    slot = ["slot,%d,%s" % told.slot] if told.slot else []
    names = [f"name,{task},{told.names[task]}" for task in sorted(told.names)]
    return "".join(f"{line}\n" for line in ["plan,1", settings, *slot, *names, *behind])


def chart(placed, told, first, end):
    length = "; slot %d%s" % told.slot if told.slot else ""
    return pictures.chart(placed, model.NAMES, first, end, lambda task: told.names.get(task) or pictures.number_label(task), length)


def picture(placed, told, view, first, end):
    missed = len(model.misses(placed))
    return pictures.picture(placed, model.NAMES, missed, first, end, view.cell(), view.wrap(), view.style(), told.names, told.slot)


def told_by(desk, told, view):
    """The report in the view's format."""
    placed = model.run_of(desk.scenario, desk.now)
    first, end = view.range(desk.now)
    own = {
        "tables": lambda: tables(placed, told),
        "json": lambda: report(placed, desk.entries, told),
        "report": lambda: report(placed, desk.entries, told),
        "lags": lambda: with_names(model.lags_table(placed), told),
        "stats": lambda: with_names(model.stats_table(placed), told),
        "windows": lambda: with_names(model.windows_table(placed, first, end), told),
        "jobs": lambda: with_names(model.jobs_table(placed), told),
        "script": lambda: script(desk, told),
        "chart": lambda: chart(placed, told, first, end),
        "svg": lambda: picture(placed, told, view, first, end),
        "c": lambda: model.c_table(placed, told.names, told.slot),
    }
    return own[view.form]() if view.form in own else desk.report(view)


def since_in(view, read):
    return max(1, len(read) // 2) if view.is_part else len(read)


def words(script, view):
    """The words that ask for the view."""
    read = rows(script)
    if view.form == "drill":
        return ["drill"]
    if view.form == "diff":
        return ["diff", "--since", str(since_in(view, read))] if view.is_part else ["diff"]
    outcome, _ = answers(script)
    first, end = view.range(outcome[0].now if isinstance(outcome, tuple) else 0)
    part = ["--from", str(first), "--to", str(end)] if view.is_part else []
    return ["run", "--format", view.form, *part, *(view.look() if view.is_part and view.form == "svg" else [])]


def meaning(script, view):
    """What `pfair` with the view's words writes for the script, what it tells of a fault, and its status."""
    read, (outcome, lines) = rows(script), answers(script)
    text = "".join(line + "\n" for line in lines) if view.has_replies() else ""
    if not isinstance(outcome, tuple):
        return text.encode(), f"bad record {outcome}\n".encode(), 1
    if view.form == "diff":
        before = replies(read[:max(since_in(view, read) - 1, 2)], [])
        runs = [model.run_of(desk.scenario, desk.now) for desk, _ in (before, outcome)]
        return model.diff(*runs).encode(), b"", 0
    return (text + told_by(*outcome, view)).encode(), b"", 0
