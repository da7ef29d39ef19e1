"""What pfair must tell of a bad script: each message of `pfair check`, in the plainest way, and the first one, which other commands
tell. It reads records anew and knows their places; what records mean it asks nobody. docs/COMMANDS.md has the texts."""
import re
from dataclasses import dataclass, field
from functools import lru_cache

import plans
from model import HORIZONS, LARGEST_BASE, LARGEST_CAP, LARGEST_EVERY, LARGEST_TASK, MOST_PROCESSORS

MARK = b"\xef\xbb\xbf"
# The version of a plan; another script has 1, or 2 by its heading.
PLAN = 3
NUMBER, TEXT = re.compile("[0-9]{1,15}"), re.compile("[A-Za-z][A-Za-z0-9_.+ -]*")
LONGEST_TEXT, LONGEST_NEAR, MOST_SHOWN, MOST_HINTED = 24, 24, 40, 100
TEXT_RULE = "a letter, then up to 23 letters, digits, spaces, _ - . +"
IN_A_PLAN = "in a plan this is right: let the first line be plan,1"

RECORDS = ("settings", "slot", "name", "join", "leave", "delay", "limit", "label", "alter", "strike", "strict", "step")
CHANGES = ("join", "leave", "delay", "limit", "label", "alter", "strike")
EVENTS = ("join", "leave", "delay", "limit")
# The words that not each version has, with the first that has them.
SINCE = {"limit": 2, "slot": PLAN, "name": PLAN, "label": PLAN}
DESK_WORDS = ("why", "fit", "try", "undo", "redo", "mark", "diff", "save", "write", "help", "quit")

# The fields of each record; those in brackets may be left out.
FIELDS = {"leave": ["SLOT", "TASK"], "delay": ["SLOT", "TASK", "BY"], "limit": ["SLOT", "COUNT"], "strike": ["ID"], "step": ["[N]"],
          "slot": ["LENGTH", "UNIT"], "name": ["TASK", "TEXT"], "pfair": ["VERSION"], "plan": ["VERSION"]}


def fields_of(word, version):
    """The names of the fields behind this word."""
    left_out = "[{}]" if version == PLAN else "{}"
    if word == "settings":
        return ["M", "BASE", left_out.format("CAP"), left_out.format("EVERY")]
    return ["SLOT", "TASK", "COST", "PERIOD", left_out.format("EARLY")] if word == "join" else FIELDS[word]


def form_of(word, version, front=()):
    """The form of a record, as a user may write it."""
    if word in ("pfair", "plan"):
        return f"{word},{2 if word == 'pfair' else 1}"
    names = fields_of(word, version)
    left_out = [it for it in names if it[0] == "["]
    behind = "".join("[," + it.strip("[]") for it in left_out) + "]" * len(left_out)
    return ",".join([*front, word, *names[:len(names) - len(left_out)]]) + behind


def words_in(words, version):
    return [it for it in words if SINCE.get(it, 1) <= version]


# What is read

@dataclass
class Record:
    """A record: its fields with the place of each in the text, whether the input ends within the quotes of each, and its end."""
    fields: list
    places: list
    are_open: list
    end: int


def record_at(text, place, is_plan):
    """The record that begins here, and the place behind its line end."""
    record = Record([], [], [], 0)
    while True:
        shown = place
        while is_plan and text[shown:shown + 1] in (" ", "\t"):
            shown += 1
        told, end = plans.field_at(text, place)
        record.fields.append(told.strip(plans.BLANKS) if is_plan else told)
        record.places.append(shown)
        record.are_open.append(re.fullmatch(r'"([^"]|"")*', text[place:]) is not None)
        if text[end:end + 1] != ",":
            record.end = end
            return record, end + 1
        place = end + 1


def records_in(text, is_plan):
    place = 0
    while place < len(text):
        if text[place] in "\r\n":
            place += 1
        elif is_plan and text[place] == "#":
            place = text.find("\n", place) + 1 or len(text)
        else:
            record, place = record_at(text, place, is_plan)
            if not (is_plan and record.fields == [""]):
                yield record


# What is wrong

@dataclass
class Fault(Exception):
    """What is wrong with a record: the text, the number of the field, of what kind that is, and the words that were right in place
    of a word, or the names in place of a name."""
    text: str
    nth: int
    kind: str
    right: list = field(default_factory=list)


def shown(value):
    return '"' + "".join(it if " " <= it <= "~" and it not in '"\\' else f"\\x{ord(it):02X}" for it in value[:MOST_SHOWN]) + '"'


def distance(a, b):
    """The distance of two words by letters that are put in, left out, changed, or exchanged with the next one, each letter once."""
    @lru_cache(maxsize=None)
    def between(i, j):
        if i == 0 or j == 0:
            return i + j
        ways = [between(i - 1, j) + 1, between(i, j - 1) + 1, between(i - 1, j - 1) + (a[i - 1] != b[j - 1])]
        if i > 1 and j > 1 and a[i - 1] == b[j - 2] and a[i - 2] == b[j - 1]:
            ways.append(between(i - 2, j - 2) + 1)
        return min(ways)
    return between(len(a), len(b))


def small(text):
    return re.sub("[A-Z]", lambda it: it[0].lower(), text)


def near(word, words):
    """The word that may have been meant, or None."""
    if len(word) > LONGEST_NEAR or any(it > "\x7f" for it in word) or not words:
        return None
    most = 1 if len(word) == 2 else len(word) // 3
    far = [distance(small(word), small(it)) for it in words]
    return words[far.index(min(far))] if min(far) <= most else None


class Reading:
    """What the good records so far said."""

    def __init__(self, version):
        self.version, self.names, self.labels = version, {}, []
        self.is_begin, self.has_settings, self.has_slot, self.has_begun = True, False, False, False
        self.number = 0

    def take(self, fields):
        """Reads a record, or raises its Fault."""
        self.number += 1
        if self.may_be_headed(fields):
            self.take_heading(fields)
        else:
            self.take_record(fields)
        self.is_begin = False

    def may_be_headed(self, fields):
        """Whether this record is read as the heading. One of a plan may stand after one with a fault, and else after bad records alone."""
        if not self.is_begin or fields[0] != ("plan" if self.version == PLAN else "pfair"):
            return False
        return self.version != PLAN or self.number == 1 or self.number == 2 and fields == ["plan", "1"]

    def take_heading(self, fields):
        self.count(fields, 0, [])
        right = "1" if self.version == PLAN else "2"
        if fields[1] != right:
            raise Fault(f"{shown(fields[1])} is no version: {right}", 1, "VERSION")
        self.version = max(self.version, 2)

    def take_record(self, fields):
        word = fields[0]
        if word not in words_in(RECORDS, self.version):
            raise Fault(f"{shown(word)} is no record", 0, "word", words_in(RECORDS, self.version))
        if word == "settings" and self.has_settings:
            raise Fault("settings come once, before all changes and steps", 0, "order")
        if word != "settings" and not self.has_settings:
            raise Fault("settings are expected", 0, "settings")
        if word == "slot" and (self.has_slot or self.has_begun):
            raise Fault("slot comes once, before all changes and steps", 0, "order")
        if word == "strict":
            self.take_change(fields, 1, ["strict"])
        elif word in CHANGES:
            self.take_change(fields, 0, [])
        else:
            self.take_counted(fields, 0, [])
        self.note(word, fields)

    def note(self, word, fields):
        """Notes what a good record said."""
        if word == "name":
            self.names[int(fields[1])] = fields[2]
        elif word == "slot":
            self.has_slot = True
        elif word == "settings":
            self.has_settings = True
        else:
            self.has_begun = True
            label = fields[1:] if word == "strict" else fields
            if label[0] == "label" and label[2] != "again":
                self.labels.append(label[1])

    def take_change(self, fields, at, front):
        """The change that begins with this field."""
        self.take_word(fields, at, "change", CHANGES, f"{','.join(front)},CHANGE")
        word = fields[at]
        if word not in ("alter", "label"):
            return self.take_counted(fields, at, front)
        name = "ID" if word == "alter" else "TEXT"
        front = [*front, word, name]
        if at + 1 == len(fields):
            raise Fault(f"{name} is missing: {','.join(front)},EVENT", at + 1, "missing")
        if word == "label" and fields[at + 2:at + 3] == ["again"]:
            self.take_field("again", name, fields[at + 1], at + 1)
            front, at = [*front, "again"], at + 1
        else:
            self.take_field(word, name, fields[at + 1], at + 1)
        self.take_word(fields, at + 2, "event", EVENTS, f"{','.join(front)},EVENT")
        self.take_counted(fields, at + 2, front)

    def take_word(self, fields, at, what, words, form):
        right = words_in(words, self.version)
        if at == len(fields):
            raise Fault(f"{what.upper()} is missing: {form}", at, "missing word", right)
        if fields[at] not in right:
            raise Fault(f"{shown(fields[at])} is no {what}", at, "word", right)

    def count(self, fields, at, front):
        """That there are as many fields as the word has; gives their names."""
        names, form = fields_of(fields[at], self.version), form_of(fields[at], self.version, front)
        given = len(fields) - at - 1
        if given > len(names):
            raise Fault(f"a field too much: {form}", at + 1 + len(names), "much")
        if given < len(names) and names[given][0] != "[":
            raise Fault(f"{names[given]} is missing: {form}", at + 1 + given, "missing")
        return [it.strip("[]") for it in names]

    def take_counted(self, fields, at, front):
        for nth, (name, value) in enumerate(zip(self.count(fields, at, front), fields[at + 1:]), at + 1):
            self.take_field(fields[at], name, value, nth)

    def take_field(self, word, name, value, nth):
        """A field of a record, by its name."""
        wrong = self.wrong_text(word, value) if name == "TEXT" else self.wrong_value(word, name, value)
        if wrong:
            text, right = wrong
            raise Fault(f"{name}: {text}", nth, name, right)

    def wrong_text(self, word, value):
        what = "name" if word == "name" else "label"
        if not TEXT.fullmatch(value) or len(value) > LONGEST_TEXT:
            return f"{shown(value)} is no {what}: {TEXT_RULE}", []
        if word == "name" and value in self.names.values():
            return f"{shown(value)} is the name of task {next(it for it in self.names if self.names[it] == value)} already", []
        if word == "label" and value in self.labels:
            return f"{shown(value)} labels an event already", []
        if word == "again" and value not in self.labels:
            return f"{shown(value)} labels no event so far", ["label", *self.labels]
        return None

    def wrong_value(self, word, name, value):
        if name == "UNIT":
            return None if value in plans.UNITS else (f"{shown(value)} is no unit: ns, us, ms, s", [])
        is_plan, begins = self.version == PLAN, re.match("[A-Za-z]", value)
        if is_plan and begins and name == "ID":
            return None if value in self.labels else (f"{shown(value)} labels no event so far", ["label", *self.labels])
        if is_plan and begins and name == "TASK" and word != "name":
            names = [self.names[it] for it in sorted(self.names)]
            return None if value in names else (f"{shown(value)} names no task so far", ["name", *names])
        if is_plan and name == "CAP" and value == "full":
            return None
        if not NUMBER.fullmatch(value):
            is_cap = is_plan and name == "CAP"
            return f"{shown(value)} is {'neither full nor a' if is_cap else 'no'} number of 1 to 15 digits", []
        return self.wrong_number(word, name, int(value))

    def wrong_number(self, word, name, value):
        most = {("settings", "M"): MOST_PROCESSORS, ("settings", "BASE"): LARGEST_BASE, ("settings", "CAP"): LARGEST_CAP,
                ("settings", "EVERY"): LARGEST_EVERY, ("step", "N"): HORIZONS[min(self.version, 2)], ("name", "TASK"): LARGEST_TASK,
                ("slot", "LENGTH"): plans.LONGEST_SLOT}.get((word, name))
        if most and not 1 <= value <= most:
            return f"{value} is not within 1 to {most}", []
        if (word, name) == ("name", "TASK") and value in self.names:
            return f"task {value} is named {self.names[value]} already", []
        return None


# What would be right

def hint_of(fault, record, version, is_near_looked_for):
    """What would be right, or None."""
    value = record.fields[fault.nth] if fault.nth < len(record.fields) else ""
    is_word, is_of_count = fault.kind == "word", fault.kind in ("missing", "missing word", "much")
    if record.are_open[-1 if is_of_count else fault.nth]:
        return "the quote that begins here is not closed"
    if fault.kind == "much":
        return "a comment has a line of its own" if value.startswith("#") else None
    if fault.kind not in ("word", "order", "settings") and "#" in value:
        return "a comment has a line of its own"
    if version != PLAN and is_right_in_a_plan(fault, value):
        return IN_A_PLAN
    if is_word or fault.kind == "missing word":
        return word_hint(value if is_word else None, fault, is_near_looked_for)
    if fault.kind == "settings":
        return form_of("settings", version)
    return value_hint(fault, value, is_near_looked_for)


def is_right_in_a_plan(fault, value):
    """Whether a plan may have this where another script may not."""
    if fault.kind == "missing":
        return fault.text.startswith(("CAP is", "EVERY is", "EARLY is"))
    bare = value.strip(plans.BLANKS)
    if fault.kind == "word":
        return value.startswith("#") or bare in (*RECORDS, "plan") and (bare != value or bare in SINCE or bare == "plan")
    is_text = len(value) <= LONGEST_TEXT and TEXT.fullmatch(value) and not value.endswith(" ")
    is_told = fault.kind in ("TASK", "ID") and is_text or (fault.kind, value) == ("CAP", "full")
    return fault.kind not in ("order", "settings", "VERSION") and bool(is_told or bare != value and NUMBER.fullmatch(bare))


def word_hint(value, fault, is_near_looked_for):
    """What would be right in place of a word, or where one is missing."""
    among = f"one of {', '.join(fault.right)}"
    if value is None:
        return among
    if ";" in value:
        return "commas separate fields, not semicolons"
    if re.match(f"({'|'.join((*RECORDS, 'plan'))})[ \t]", value):
        return "commas separate fields, not blanks"
    if value in DESK_WORDS:
        return f"{value} is a word of pfair desk"
    return is_near_looked_for and near(value, fault.right) or among


def value_hint(fault, value, is_near_looked_for):
    """What would be right in place of a field."""
    if fault.right:
        what, *known = fault.right
        given = "a name is given by name,TASK,TEXT" if what == "name" else "a label is given by label,TEXT,EVENT"
        return is_near_looked_for and near(value, known) or f"{given}, in a line before"
    if fault.kind == "UNIT":
        return near(value, plans.UNITS) if is_near_looked_for else None
    if fault.kind == "TEXT" and TEXT.fullmatch(value) and len(value) > LONGEST_TEXT:
        return f"it has {len(value)} bytes, and {LONGEST_TEXT} are the most"
    if fault.kind == "TEXT" and any(it > "~" for it in value):
        return "letters are A to Z and a to z"
    return "a plan begins with plan,1" if fault.kind == "VERSION" else None


# What is told

@dataclass
class Message:
    """Where, what is wrong, and what would be right, or None."""
    place: str
    text: str
    hint: str | None

    def lines(self, name="-", more=""):
        return f"{name}:{self.place}: {self.text}{more}\n" + (f"  hint: {self.hint}\n" if self.hint else "")


def place_in(text, place):
    before = re.split("\r\n|\r|\n", text[:place])
    return f"{len(before)}:{len(before[-1]) + 1}"


def of_the_file(script, records):
    """What the file is, where it is no script: a text and a hint, or None."""
    if script.startswith((b"\xff\xfe", b"\xfe\xff")):
        return "it is UTF-16 text", "save it as UTF-8"
    if any(it < 9 or 14 <= it <= 31 for it in script[:1024]):
        return "it is no text", None
    if not script.removeprefix(MARK):
        return "it is empty", None
    return None if records else ("it has no record", None)


class Check:
    """All that is wrong with a script."""

    def __init__(self, script):
        is_plan = plans.is_plan(script)
        self.text = script.removeprefix(MARK).decode("latin-1")
        self.records, self.messages = list(records_in(self.text, is_plan)), []
        self.faults = self.unset = 0
        self.reading = Reading(PLAN if is_plan else 1)
        for nth, record in enumerate(self.records):
            self.look_at(record)
            if nth == 0 and self.messages and self.is_told_of_the_file(script):
                return
        if not self.records and self.is_told_of_the_file(script):
            return
        if not self.messages and not self.reading.has_settings:
            hint = form_of("settings", self.reading.version)
            self.messages.append(Message(place_in(self.text, len(self.text)), "settings are expected", hint))

    def look_at(self, record):
        try:
            self.reading.take(record.fields)
        except Fault as fault:
            self.faults, self.unset = self.faults + 1, self.unset + (fault.kind == "settings")
            if fault.kind != "settings" or self.unset == 1:
                place = record.places[fault.nth] if fault.nth < len(record.places) else record.end
                hint = hint_of(fault, record, self.reading.version, self.faults <= MOST_HINTED)
                self.messages.append(Message(place_in(self.text, place), fault.text, hint))

    def is_told_of_the_file(self, script):
        found = of_the_file(script, self.records)
        if found:
            self.messages = [Message("1:1", *found)]
        return found is not None

    def lines(self):
        """What is told of each fault, on standard input."""
        more = f", by {self.unset - 1} more records too" if self.unset > 1 else ""
        return "".join(it.lines(more=more if it.text == "settings are expected" else "") for it in self.messages)


@lru_cache(maxsize=1)
def check(script):
    return Check(script)


def first(script):
    """What other commands tell of a bad script on standard input: the first message."""
    return check(script).messages[0].lines().encode()


def checked(script, behind=""):
    """What a check writes of a script on standard input, and its status."""
    it = check(script)
    return f"{it.lines()}{len(it.records)} records, {len(it.messages)} faults{behind}\n".encode(), int(bool(it.messages))


def words(_, is_quiet):
    """The words that ask for a check, and for one without hints."""
    return ["check", *["-q"] * is_quiet]


def meaning(script, is_quiet):
    """What is written then, what is told, and the status."""
    written, status = checked(script)
    return re.sub(rb"(?m)^  hint: .*\n", b"", written) if is_quiet else written, b"", status
