"""Random scripts for pfair, and ways to make a script smaller. They are short: the model is slow."""
import random
import re
from dataclasses import dataclass

import model
import plans

# The most slots that a script steps.
MOST_SLOTS = 60

# Numbers at the edges of limits.
EDGES = (0, 1, 2, 3, 63, 64, 65, 4_095, 4_096, 65_535, 2**20 - 1, 2**20, 2**20 + 1, 2**22 - 1, 2**22, 2**24, 2**30,
         2**30 + 1, 2**32, 2**44, 2**44 + 1, 10**15 - 1)

# Bases with many divisors, and some with large ones.
BASES = (1, 2, 3, 4, 6, 12, 12, 24, 60, 77, 120, 462, 840, 2**30, 3**18)

# What is put into a script in place of a part of it, or between two.
HOSTILE = (b"", b"\n", b"\r", b"\r\n", b",", b'"', b'""', b" ", b"\0", b"\xff", b"\xef\xbb\xbf", b"0", b"7", b"+", b"-",
           b"00", b"step", b"strict", b"alter", b"strike", b"limit", b"pfair,2\n", b"settings,1,1,1,1\n", b"\xc3\xa9",
           b"1.0")


@dataclass(frozen=True)
class Profile:
    """How often a script has each kind of record behind its first joins, the most that it has of them, and how often a
    number lies at an edge of limits."""
    kinds: dict
    most_records: int
    at_edges: float = 0.0
    version: int = 1


SMALL = Profile({"leave": 1, "delay": 2, "join": 1, "step": 4}, 10)
EDITS = Profile({"join": 2, "leave": 2, "delay": 3, "alter": 4, "strike": 2, "strict": 5, "step": 5}, 24, 0.01)
LIMITS = Profile({"join": 2, "leave": 2, "delay": 2, "limit": 4, "alter": 2, "strike": 1, "strict": 2, "step": 6}, 24,
                 0.01, version=2)
PLANS = Profile({"join": 2, "leave": 2, "delay": 3, "limit": 1, "alter": 4, "strike": 2, "strict": 3, "name": 2, "step": 5}, 24,
                 0.01, version=3)
CROWD = Profile({"leave": 5, "delay": 4, "limit": 1, "strict": 1, "alter": 1, "step": 3}, 24, version=2)
EDGES_OF_LIMITS = Profile({"join": 4, "leave": 2, "delay": 2, "limit": 2, "alter": 2, "strict": 2, "step": 3}, 12, 0.1,
                          version=2)


class Drawing:
    """The script of a profile, while it is drawn."""

    def __init__(self, draw, profile):
        self.draw, self.profile = draw, profile
        self.base, self.processors = draw.choice(BASES), draw.choice((1, 1, 2, 2, 3, 4))
        self.tasks = draw.randint(1, 2 * self.processors + 2)
        self.periods = [p for p in range(1, 130) if self.base % p == 0] + [self.base]
        self.slots = self.inserts = 0

    def number(self, low, high):
        draw = self.draw
        return draw.choice(EDGES) if draw.random() < self.profile.at_edges else draw.randint(low, high)

    def join(self, task=None):
        period = self.draw.choice(self.periods)
        cost = self.draw.choice((1, (period + 1) // 2, max(period - 1, 1), self.draw.randint(1, period), period))
        slot = self.number(0, self.draw.choice((0, 0, self.slots, self.slots + 3)))
        weight = f"{self.number(cost, cost)},{self.number(period, period)}"
        return f"join,{slot},{task or self.task()},{weight},{self.draw.choice((0, 0, 0, self.number(0, 6)))}"

    def task(self):
        return self.number(1, self.tasks + (self.draw.random() < 0.2))

    def slot(self):
        """Before, at, or soon after the slots stepped."""
        return self.number(*self.draw.choice(((0, self.slots), (self.slots, self.slots + 1), (0, self.slots + 12))))

    def leave(self):
        return f"leave,{self.slot()},{self.task()}"

    def delay(self):
        return f"delay,{self.slot()},{self.task()},{self.number(1, 5)}"

    def limit(self):
        return f"limit,{self.slot()},{self.number(1, self.processors)}"

    def event(self):
        kinds = [kind for kind in ("join", "leave", "delay", "limit") if kind in self.profile.kinds]
        return getattr(self, self.draw.choice(kinds))()

    def held(self):
        return self.number(1, self.inserts + 1)

    def alter(self):
        return f"alter,{self.held()},{self.event()}"

    def strike(self):
        return f"strike,{self.held()}"

    def strict(self):
        return "strict," + self.draw.choice((self.event, self.event, self.alter, self.strike))()

    def step(self):
        steps = min(self.draw.choice((1, 1, 2, 3, self.draw.randint(1, 20))), MOST_SLOTS - self.slots)
        if steps < 1 or self.draw.random() < self.profile.at_edges / 4:
            return self.draw.choice(("step,0", "step,4194305", "step,", "step,1,1"))
        self.slots += steps
        return "step" if steps == 1 and self.draw.random() < 0.5 else f"step,{steps}"

    def settings(self):
        full = self.processors * self.base
        cap = self.draw.choice((full, full, full, full + self.base // 2, 2 * full, self.draw.randint(1, full)))
        return f"settings,{self.processors},{self.base},{min(cap, 2**44)},{self.draw.randint(1, 9)}"

    def records(self):
        if self.profile.version == 2:
            yield "pfair,2"
        yield self.settings()
        for task in self.draw.sample(range(1, self.tasks + 1), self.tasks):
            yield self.join(task)
            self.inserts += 1
        kinds, records = self.profile.kinds, self.draw.randint(1, self.profile.most_records)
        for kind in self.draw.choices(list(kinds), list(kinds.values()), k=records):
            yield getattr(self, kind)()
            self.inserts += kind in ("join", "leave", "delay", "limit")
        yield f"step,{max(1, min(9, MOST_SLOTS - self.slots))}"

    def script(self):
        return "".join(record + "\n" for record in self.records()).encode()


class CrowdDrawing(Drawing):
    """Many tasks on few processors, with a cap above what these have, and many events: lists of what went wrong are long."""

    def __init__(self, draw, profile):
        super().__init__(draw, profile)
        self.processors, self.tasks = draw.choice((1, 2)), draw.randint(8, 26)

    def settings(self):
        return f"settings,{self.processors},{self.base},{min(self.tasks * self.base, 2**44)},{self.draw.randint(1, 9)}"


class PlanDrawing(Drawing):
    """The script of a profile of a plan, while it is drawn: with names, labels, comments and blanks."""

    TEXTS = ("camera", "lidar", "a", "rear left", "abcdefghijklmnopqrstuvwx", "x-1_y.z+", "step", "p0", "task 1")
    FLAWS = ("label,x", "label,no such,again,limit,0,1", "label,x,again", "name,1", "name,1,9x", "slot,0,us", "slot,5,min", "# no record", "alter,no such,leave,0,1", "join,0,nobody,1,1")

    def __init__(self, draw, profile):
        super().__init__(draw, profile)
        self.named, self.labels = {}, []

    def called(self, task):
        return self.named[task] if task in self.named and self.draw.random() < 0.7 else str(task)

    def join(self, task=None):
        task = task or self.task()
        _, slot, _, *weight, early = super().join(task).split(",")
        return ",".join(["join", slot, self.called(task), *weight, *([] if early == "0" and self.draw.random() < 0.8 else [early])])

    def leave(self):
        return f"leave,{self.slot()},{self.called(self.task())}"

    def delay(self):
        return f"delay,{self.slot()},{self.called(self.task())},{self.number(1, 5)}"

    def held(self):
        return self.draw.choice(self.labels) if self.labels and self.draw.random() < 0.6 else super().held()

    def labelled(self, record):
        """The event with a label before it, now and then, or with one that another event had."""
        if self.draw.random() < 0.6:
            return record
        if self.labels and self.draw.random() < 0.2:
            return f"label,{self.draw.choice(self.labels)},again,{record}"
        self.labels.append(f"l{len(self.labels)}")
        return f"label,{self.labels[-1]},{record}"

    def name(self):
        free = [text for text in self.TEXTS if text not in self.named.values()]
        task = self.number(1, self.tasks + 2)
        if not free or task in self.named:
            return "# all have names"
        self.named[task] = self.draw.choice(free)
        return f"name,{task},{self.named[task]}"

    def settings(self):
        _, processors, base, cap, every = super().settings().split(",")
        return self.draw.choice((f"settings,{processors},{base}", f"settings,{processors},{base},{cap}",
                                 f"settings,{processors},{base},full,{every}"))

    def flaw(self):
        return self.draw.choice(self.FLAWS)

    def in_words(self, record):
        """The record with blanks, and with lines behind it that are none."""
        blank = lambda: self.draw.choice(("", "", "", "", " ", "\t"))
        told = record if record.startswith("#") else ",".join(blank() + each + blank() for each in record.split(","))
        return told + self.draw.choice(("", "", "", "", "\n", "\n# a comment, \"", "\n   "))

    def records(self):
        yield self.in_words("plan,1")
        yield self.in_words(self.settings())
        if self.draw.random() < 0.5:
            yield self.in_words(f"slot,{self.number(1, 900)},{self.draw.choice(plans.UNITS)}")
        for _ in range(self.draw.randint(0, self.tasks)):
            yield self.in_words(self.name())
        for task in self.draw.sample(range(1, self.tasks + 1), self.tasks):
            yield self.in_words(self.labelled(self.join(task)))
            self.inserts += 1
        kinds, records = self.profile.kinds, self.draw.randint(1, self.profile.most_records)
        for kind in self.draw.choices(list(kinds), list(kinds.values()), k=records):
            record = getattr(self, kind)()
            yield self.in_words(self.labelled(record) if kind in model.EVENTS else record)
            self.inserts += kind in model.EVENTS
        if self.draw.random() < 0.1:
            yield self.in_words(self.flaw())
        yield f"step,{max(1, min(9, MOST_SLOTS - self.slots))}"


class FitDrawing(PlanDrawing):
    """A plan whose joins have room together, and mostly nothing else: one that fits, or that a few events keep from it."""

    def joins(self):
        """The joins in the room that there is, one after another."""
        free = self.processors * self.base
        for task in range(1, self.tasks + 1):
            periods = [period for period in self.periods if self.base // period <= free]
            if periods:
                period = self.draw.choice(periods)
                unit = self.base // period
                cost = min(self.draw.choice((1, (period + 1) // 2, self.draw.randint(1, period), period)), free // unit)
                free -= cost * unit
                yield f"join,{self.draw.choice((0, 0, 0, self.draw.randint(0, 5)))},{self.called(task)},{cost},{period},{self.draw.choice((0, 0, 0, 3, 9))}"

    def delay(self):
        """In a slot in which it may still be told: at the start, or later by chance."""
        return f"delay,{self.draw.choice((0, 0, self.draw.randint(0, 20)))},{self.called(self.task())},{self.draw.randint(1, 6)}"

    def leave(self):
        return f"leave,{self.draw.randint(0, MOST_SLOTS + 9)},{self.called(self.task())}"

    def limit(self):
        return f"limit,{self.draw.randint(0, 20)},{self.draw.choice((self.processors, self.draw.randint(1, self.processors)))}"

    def records(self):
        yield "plan,1"
        yield self.settings()
        if self.draw.random() < 0.3:
            yield f"slot,{self.draw.randint(1, 900)},{self.draw.choice(plans.UNITS)}"
        for _ in range(self.draw.choice((0, 0, self.tasks))):
            yield self.name()
        yield from self.joins()
        for _ in range(self.draw.choice((0, 0, 1, 2, 4))):
            yield self.draw.choice((self.delay, self.delay, self.leave, self.limit))()
        yield f"step,{self.draw.randint(1, MOST_SLOTS)}"


def one_of_all(draw, known):
    return draw.choice((draw.choice(known), *(Drawing(draw, each).script() for each in (SMALL, EDITS, LIMITS))))


def with_hostile_bytes(draw, known):
    """A script with some parts taken out, and some put in."""
    script = one_of_all(draw, known)
    for _ in range(draw.choice((1, 1, 1, 2, 3, 8))):
        first = draw.randint(0, len(script))
        end = first + draw.choice((0, 0, 1, 1, 2, 9))
        script = script[:first] + draw.choice(HOSTILE) + script[end:]
    return script


def in_other_words(draw, known):
    """A script with other ends of lines, quotes around fields and zeros before numbers."""
    def field(match):
        zeros = b"0" * draw.choice((0, 0, 0, 1, 9)) if match.group().isdigit() and not is_heading else b""
        quote = draw.choice((b"", b"", b"", b'"'))
        return quote + zeros + match.group() + quote

    script = draw.choice((b"", b"", b"\xef\xbb\xbf"))
    for line in one_of_all(draw, known).splitlines():
        is_heading = line.startswith(b"pfair")
        script += re.sub(rb"\w+", field, line) + draw.choice((b"\n", b"\n", b"\r\n", b"\r", b"\n\n", b"\n\r\r"))
    return script.rstrip(b"\r\n") if draw.random() < 0.2 else script


def of_profile(profile, drawing=Drawing):
    return lambda draw, known: drawing(draw, profile).script()


def of_a_plan(draw, known):
    """A plan, now and then with some bytes taken out or put in."""
    script = PlanDrawing(draw, PLANS).script()
    if draw.random() < 0.8:
        return script
    place = draw.randint(len(b"plan,1\n"), len(script))
    return script[:place] + draw.choice(HOSTILE) + script[place + draw.choice((0, 0, 1, 2)):]


TURNS = (*map(of_profile, (SMALL, EDITS, LIMITS, EDGES_OF_LIMITS)), of_profile(CROWD, CrowdDrawing), of_profile(PLANS, FitDrawing), of_a_plan,
         with_hostile_bytes, in_other_words)


def drawn(seed, nth, known):
    """The nth script, of the kind whose turn it is."""
    draw = random.Random(seed)
    while True:
        script = TURNS[nth % len(TURNS)](draw, known)
        if is_short(script):
            return script


def is_short(script):
    """Whether the model answers soon: the numbers of steps are small."""
    read = plans.rows(script) if plans.is_plan(script) else model.records(script)
    steps = [fields[1] for fields in read if fields[0] == "step" and len(fields) > 1]
    return sum(int(each) for each in steps if each.isdecimal() and int(each) <= model.HORIZONS[2]) <= 2 * MOST_SLOTS


def smaller(script):
    """Smaller scripts: records left out, many at once first, then numbers made smaller, then bytes left out."""
    lines = script.splitlines(keepends=True)
    size = len(lines)
    while size > 0:
        for first in range(0, len(lines), size):
            yield b"".join(lines[:first] + lines[first + size:])
        size //= 2
    for match in re.finditer(rb"[0-9]+", script):
        value = int(match.group())
        for less in sorted({0, 1, value // 2, value - 1}):
            if 0 <= less < value:
                yield script[:match.start()] + str(less).encode() + script[match.end():]
    for place in range(len(script)):
        yield script[:place] + script[place + 1:]
