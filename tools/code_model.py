"""The table in C of a run, as docs/TABLES.md says it. It shares nothing with the program."""
import math
import re

NANOSECONDS = {"ns": 1, "us": 10**3, "ms": 10**6, "s": 10**9}


def repetition(placed, joins):
    """After how many slots the rows repeat, or None and why that is not known."""
    settings, events = placed.run.scenario.settings, placed.run.scenario.events.values()
    span = math.lcm(*(join.period // math.gcd(join.cost, join.period) for join in joins))
    if any(event.kind != "join" or event.slot or event.early for event in events):
        return None, "more happens than joins in slot 0 without EARLY"
    if not placed.rows:
        return None, "no slot was stepped"
    if sum(join.weight().units(settings.base) for join in joins) > settings.base * settings.processors:
        return None, "the load is above the processors"
    return (span, None) if span <= len(placed.rows) else (None, f"that takes the slots 0 to {span}")


def comments(placed, span, why, slot):
    settings, now = placed.run.scenario.settings, len(placed.rows)
    yield (f"PD2 schedule, slots 0 to {now} of {now}, {settings.processors} processors, base {settings.base}. "
           "A row is a slot, a column a processor; 0 is nobody.")
    yield f"It repeats: the tasks of slot t are those of row t mod {span}, for ever." if span else f"It is not known to repeat: {why}."
    if slot and span:
        yield ("Jobs come a period apart or more; those that come less often drift through the rows. "
               "Each is done within the time told, from its arrival on.")
    elif slot:
        yield ("Jobs are planned at each period. Where convert rounded a period down, jobs come later than planned, "
               "and may end late.")


def symbols(joins, names):
    """The symbol of each task: its name's, or its number where it has none or another's would be alike."""
    own = [re.sub("[^A-Z0-9]", "_", names[it.task].upper()) if it.task in names else str(it.task) for it in joins]
    return [symbol if own.count(symbol) == 1 else str(it.task) for symbol, it in zip(own, joins)]


def remark(join, names, slot, span):
    """What the comment of a task has."""
    text = f"{names[join.task]}: " if join.task in names else ""
    text += f"{join.cost} of {join.period} slots"
    if slot:
        text += f", each {join.period * slot} ns"
        bound = join.period + -(-(join.period - 1) // join.cost) + 1
        text += f", done within {bound * slot} ns" if span else ""
    return text


def lines(placed, joins, names, slot):
    settings, rows = placed.run.scenario.settings, placed.rows
    span, why = repetition(placed, joins)
    yield from (f"/* {it} */" for it in comments(placed, span, why, slot))
    yield from ("#ifndef PFAIR_SCHEDULE_H", "#define PFAIR_SCHEDULE_H", "#include <stdint.h>")
    if slot:
        yield f"#define PFAIR_SLOT_NS UINT64_C({slot})"
    yield (f"enum {{ PFAIR_PROCESSORS = {settings.processors}, PFAIR_FROM = 0, PFAIR_SLOTS = {len(rows)}, "
           f"PFAIR_REPEATS = {span or 0} }};")
    if joins:
        yield "enum {"
        for number, (symbol, join) in enumerate(zip(symbols(joins, names), joins), 1):
            comma = "," if number < len(joins) else ""
            yield f"    PFAIR_TASK_{symbol} = {join.task}{comma} /* {remark(join, names, slot, span)} */"
        yield "};"
    yield f"typedef uint{16 if any(it.task > 255 for it in joins) else 8}_t pfair_task;"
    yield f"static const pfair_task pfair_schedule[{max(1, len(rows))}][{settings.processors}] = {{"
    for row in rows or [[None] * settings.processors]:
        yield "    {" + ", ".join(str(place[0] if place else 0) for place in row) + "},"
    yield from ("};", "#endif")


def table(placed, joins, names=None, told_slot=None):
    """The table of a run with these joins of its admitted tasks, by number, and what a plan told of names and the slot."""
    slot = told_slot[0] * NANOSECONDS[told_slot[1]] if told_slot else None
    return "".join(f"{it}\n" for it in lines(placed, joins, names or {}, slot))
