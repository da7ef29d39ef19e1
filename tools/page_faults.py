"""Faults that are put into a page, one at a time: its looks must see each."""
from dataclasses import dataclass


@dataclass(frozen=True)
class Fault:
    """What is wrong, the text that is replaced and by what, and the looks that see it."""
    what: str
    old: str
    new: str
    looks: str


FAULTS = (
    Fault("late by one too few", "late by ${slot + 1 - w.deadline}", "late by ${slot - w.deadline}", "slots"),
    Fault("kept without the slot before", "placeOf(task, slot - 1)", "placeOf(task, slot)", "slots"),
    Fault("group deadlines turned round", "group deadline ${b.group} after ${a.group}", "group deadline ${a.group} after ${b.group}", "slots"),
    Fault("who waits, behind the first", "last = ranked[inUse - 1]", "last = ranked[0]", "slots"),
    Fault("early is told of nobody", "if (slot < w.release)", "if (slot < 0)", "slots"),
    Fault("quanta before the range count for nothing", "return this.earlier + countWhile", "return countWhile", "slots"),
    Fault("delays before the range hold back nothing", "subOfDelay.get(event) || this", "subOfDelay.has(event) ? 9999 : this", "slots"),
    Fault("the row before the range is forgotten", ": before.row || []", ": []", "slots"),
    Fault("the overview counts processors out of use", "places[k] + stateAt(first + k).inUse", "places[k] + processors", "overview"),
    Fault("late columns are one too far", "columns / length) - 1))]", "columns / length)))]", "overview"),
    Fault("a column for each pixel", "columns = min(wide, length)", "columns = wide", "overview"),
    Fault("a press goes to the left edge", "- room() / 2;\n}", ";\n}", "overview"),
    Fault("a drag does nothing", "if (e.buttons & 1) centre", "if (e.type === 'pointerdown') centre", "overview"),
    Fault("each choice is an entry of the history", "history.replaceState", "history.pushState", "addresses"),
    Fault("a plus in the address is a blank", ".replace(/\\+/g, '%2B')", "", "addresses"),
    Fault("the search is not in the address", "if (words) parts.push", "if (!words) parts.push", "addresses"),
    Fault("a word is a slot", "/^\\d+$/.test(slot)", "/x?/.test(slot)", "addresses"),
    Fault("it opens at no missed window", "if (goal === null && miss) choose(miss.deadline);", "", "opening"),
    Fault("opening is put into the address", "if (goal === null && miss) choose(miss.deadline);", "if (goal === null && miss) go(miss.deadline);", "opening"),
    Fault("a deadline at the end opens nothing", "deadline >= first && deadline <= end)", "deadline > first && deadline < 5)", "opening"),
    Fault("the search cuts no table", "for (const cut of cuts) cut(isAsked);", "", "searches"),
    Fault("denied events are of no task", "event && eventOf.get(event).task", "undefined", "searches"),
    Fault("other tasks keep their colours", "isShown ? colour : ink.stopped", "colour", "searches"),
    Fault("keys only in the picture", "document.onkeydown", "picture.onkeydown", "keys"),
    Fault("keys in fields too", " || e.target.matches('input:not([type=checkbox])')", "", "keys"),
    Fault("a slot outside is a button", " && isHere(value)", "", "lists"),
    Fault("every page is called Schedule", "data.title || 'Schedule'", "'Schedule'", "words"),
    Fault("the empty panel is printed", ", #panel:not([data-slot])", "", "opening"),
    Fault("no difference is told", "(isSame() ? '' :", "(true ? '' :", "difference"),
)
