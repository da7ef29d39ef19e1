"""Sessions at `pfair desk`, and how they must go on: by what `pfair` tells of the script so far."""
import json
import os
import select
import subprocess
import tempfile
import time
from pathlib import Path

from programs import run_to_end

LONGEST_ANSWER = 60

SHOWN = ("schedule", "lags", "misses", "denials", "events", "script", "processors", "stats", "chart", "svg", "windows", "jobs", "load",
         "quanta", "report", "full", "trace", "html", "c")
RANGED = ("schedule", "chart", "svg", "windows", "load", "quanta")
VALUES = ("report", "full", "trace")
# lines that are bad after the settings, with what is told of each and what would be right
JOIN = "join,SLOT,TASK,COST,PERIOD[,EARLY]"
BAD = {
    "stepp": ('"stepp" is no record and no word', "step"),
    "plan,1": ('"plan" is no record and no word', "help lists the words"),
    "q": ('"q" is no record and no word', "quit"),
    "join 0 1 2": (f"field 5: PERIOD is missing: {JOIN}", None),
    'join,"0,1': (f"field 3: TASK is missing: {JOIN}", None),
    "delay 0 1 2 3 4": ("field 5: a field too much: delay,SLOT,TASK,BY", None),
    "alter": ("field 2: ID is missing: alter,ID,EVENT", None),
    "alter 1 stop": ('field 3: "stop" is no event', "one of join, leave, delay, limit"),
    "strict undo": ('field 2: "undo" is no change', "undo is a word of pfair desk"),
    "strike x": ('field 2: ID: "x" labels no event so far', "a label is given by label,TEXT,EVENT, in a line before"),
    "leave 0 x": ('field 3: TASK: "x" names no task so far', "a name is given by name,TASK,TEXT, in a line before"),
    "step x": ('field 2: N: "x" is no number of 1 to 15 digits', None),
    "settings 1 2": ("settings come once, before all changes and steps", None),
    "undo 1": ("field 2: a field too much: undo", None),
    "redo 1": ("field 2: a field too much: redo", None),
    "chart 0 1 2": ("field 4: a field too much: chart [F [T]]", None),
    "why": ("field 2: SLOT is missing: why SLOT [TASK]", None),
    "why x": ('field 2: "x" is no number of 1 to 15 digits', None),
    "why 0 5000": ("field 3: 5000 is not within 1 to 4095", None),
    "save": ("field 2: FILE is missing: save FILE", None),
    "step\x1b[D": ("no line editing here: rlwrap pfair desk", None),
}


class Told:
    """What the program tells of a script, asked once for each."""

    def __init__(self, program):
        self.program, self.known = program, {}

    def of(self, script, *words):
        asked = (script, words)
        if asked not in self.known:
            done = run_to_end([self.program, *words], f"desk: {words} {script!r}", input=script.encode())
            self.known[asked] = (done.stdout.decode(), done.stderr.decode(), done.returncode)
        return self.known[asked]

    def text(self, script, *words):
        return self.of(script, *words)[0]


class Plan:
    """A session as it must go on: the script of its good records, and the changes that can be taken back."""

    def __init__(self, told, quiet):
        self.told, self.quiet = told, quiet
        self.script, self.events, self.made, self.undone, self.given = "plan,1\n", {}, [], [], 0

    def replies(self, script):
        return self.told.text(script, "run", "-f", "replies")

    def counts(self, script):
        return [self.told.text(script, "run", "-f", it).count("\n") - 1 for it in ("misses", "denials")]

    def take(self, fields):
        """The answer to a record that is good: its replies, and what changed."""
        before, line = self.script, ",".join(fields) + "\n"
        self.script += line
        reply = self.replies(self.script)[len(self.replies(before)):] if before != "plan,1\n" else self.replies(self.script)
        if reply.startswith("event "):
            number = int(reply.split()[1])
            return number, reply + ("" if self.quiet else self.slots(before, fields) + self.changed(before))
        return None, reply + self.sentence(reply)

    def rows(self, script):
        return self.told.text(script, "run", "-f", "schedule").splitlines()[1:]

    def slots(self, before, fields):
        """Which slots have another row, where the event of a change, or the one that it struck or altered, is of a slot stepped."""
        bare = fields[1:] if fields[0] == "strict" else fields
        event = {"alter": bare[2:], "strike": None}.get(bare[0], bare)
        touched = [int(it[1]) for it in (event, self.events[int(bare[1])] if bare[0] in ("alter", "strike") else None) if it]
        old, new = self.rows(before), self.rows(self.script)
        if min(touched) >= len(old):
            return ""
        others = [slot for slot, (was, is_now) in enumerate(zip(old, new)) if was != is_now]
        if not others:
            return "  no slot changed\n"
        return f"  slots {others[0]} to {others[-1]} changed\n" if others[1:] else f"  slot {others[0]} changed\n"

    def changed(self, before):
        pairs = zip(("misses", "denials"), self.counts(before), self.counts(self.script))
        told = "; ".join(f"{name} {old} -> {new}" for name, old, new in pairs if old != new)
        return f"  {told}\n" if told else ""

    def bad(self, line):
        """The answer to a bad line."""
        text, hint = BAD[line]
        return f"bad line: {text}\n" + (f"  hint: {hint}\n" if hint and not self.quiet else "")

    def sentence(self, reply):
        """The sentence behind a refusal, as `check --run` has it for the last record: it tells of all of them, the notes of 20."""
        if self.quiet or not reply.startswith("refused "):
            return ""
        at = self.script.count("\n")
        front = f"-:{at}:1: refused: "
        lines = self.told.text(self.script, "check", "--run").splitlines()
        return f"  {next(it for it in lines if it.startswith(front)).removeprefix(front)}\n"

    def change(self, fields):
        """The answer to a change, which is kept as long as it may be taken back."""
        bare = fields[1:] if fields[0] == "strict" else fields
        old = self.events.get(int(bare[1])) if bare[0] in ("alter", "strike") else None
        number, answer = self.take(fields)
        if number is not None:
            self.made.append((bare[0], number, old))
            self.undone = []
            self.note(bare, number)
        return answer

    def note(self, bare, number):
        if bare[0] == "strike":
            self.events.pop(number)
        else:
            self.events[number] = bare[2:] if bare[0] == "alter" else bare

    def undo(self):
        return self.take_back(self.made, self.undone) or "nothing to undo\n"

    def redo(self):
        return self.take_back(self.undone, self.made) or "nothing to redo\n"

    def take_back(self, changes, others):
        """The answer where the last of the changes is taken back, which can then be taken back the other way; nothing without one."""
        if not changes:
            return ""
        kind, number, old = changes[-1]
        back = {"alter": ["alter", str(number), *(old or [])], "strike": list(old or [])}.get(kind, ["strike", str(number)])
        was = self.events.get(number)
        given, answer = self.take(back)
        if given is not None:
            changes.pop()
            self.note(back, given)
            if kind == "strike":
                for each in changes, others:
                    each[:] = [(k, given if n == number else n, o) for k, n, o in each]
            others.append((back[0], given, None if kind == "strike" else was))
        return answer

    def show(self, name, *ends):
        words = [it for pair in zip(("--from", "--to"), ends) for it in pair]
        text, _, status = self.told.of(self.script, "run", "-f", name, *words)
        return f"bad line: {self.outside(*map(int, ends))}\n" if status else text

    def outside(self, first, end=None):
        """Why a range is none of the slots stepped."""
        count = len(self.rows(self.script))
        if end is not None and first > end:
            return f"F {first} is above T {end}"
        letter, beyond = ("T", end) if end is not None and end > count else ("F", first)
        return f"{letter} {beyond} is above {count}, the slots stepped"

    def why(self, slot):
        text, fault, status = self.told.of(self.script, "why", str(slot))
        return f"bad line: {fault}" if status else text


def joined(rng, plan):
    return ["join", str(rng.randrange(6)), str(rng.randrange(1, 5)), str(rng.randrange(1, 4)), rng.choice(["2", "3", "4", "6"]),
            str(rng.choice([0, 0, 0, 1]))]


def change(rng, plan):
    """A change, good or refused."""
    kinds = [lambda: joined(rng, plan), lambda: joined(rng, plan), lambda: ["leave", str(rng.randrange(9)), str(rng.randrange(1, 5))],
             lambda: ["delay", str(rng.randrange(9)), str(rng.randrange(1, 5)), str(rng.randrange(1, 4))],
             lambda: ["limit", str(rng.randrange(9)), str(rng.randrange(3))]]
    inner = rng.choice(kinds)()
    kind = rng.random()
    if kind < 0.2:
        inner = ["alter", str(rng.randrange(1, 8)), *inner]
    elif kind < 0.35:
        inner = ["strike", str(rng.randrange(1, 8))]
    return ["strict", *inner] if rng.random() < 0.1 else inner


def spelled(rng, fields):
    """The fields of a record as a line: with commas, or parted by blanks."""
    line = rng.choice([",", " ", "  ", " \t"]).join(fields)
    return rng.choice(["", "", " "]) + line + rng.choice(["", "", " "])


def turn(rng, plan):
    """One more line, and its answer."""
    kind = rng.random()
    if kind < 0.45:
        fields = change(rng, plan)
        return spelled(rng, fields), plan.change(fields)
    if kind < 0.6:
        fields = ["step", str(rng.randrange(1, 4))] if rng.random() < 0.5 else ["step"]
        return spelled(rng, fields), plan.take(fields)[1]
    if kind < 0.7:
        return ("undo", plan.undo()) if rng.random() < 0.6 else ("redo", plan.redo())
    if kind < 0.85:
        return shown(rng, plan)
    if kind < 0.9:
        return rng.choice(["", "# a note", "  ", "\t#x"]), ""
    if kind < 0.95:
        slot = rng.randrange(8)
        return f"why {slot}", plan.why(slot)
    line = rng.choice(list(BAD))
    return line, plan.bad(line)


def shown(rng, plan):
    name = rng.choice(SHOWN)
    ends = [str(rng.randrange(7)) for _ in range(rng.randrange(3))] if name in RANGED else []
    return spelled(rng, [name, *ends]), plan.show(name, *ends)


def begin(rng, plan, first):
    """The lines of a script that comes first, of any version."""
    heading = rng.choice(["", "pfair,2", "plan,1"])
    lines = [heading] * bool(heading) + [",".join(first)]
    plan.take(first)
    for _ in range(rng.randrange(9)):
        fields = ["step"] if rng.random() < 0.3 else change(rng, plan)
        if heading or "limit" not in fields:
            lines.append(",".join(fields))
            plan.take(fields) if fields == ["step"] else plan.change(fields)
    return lines


class Session:
    """A program that sits at a desk, by two pipes; behind the lines of a script, where there are some."""

    def __init__(self, program, words, begun, env=None):
        self.room = tempfile.TemporaryDirectory()
        path = Path(self.room.name) / "begun.csv"
        path.write_text("".join(f"{it}\n" for it in begun))
        self.run = subprocess.Popen([program, "desk", *words, *[str(path)] * bool(begun)], stdin=subprocess.PIPE, stdout=subprocess.PIPE, stderr=subprocess.PIPE, bufsize=0, env=env)
        self.left = b""

    def write(self, data):
        self.run.stdin.write(data)

    def line(self):
        """One more line of an answer; what came by then where none comes in time."""
        end = time.monotonic() + LONGEST_ANSWER
        while b"\n" not in self.left and time.monotonic() < end:
            if not select.select([self.run.stdout], [], [], 1)[0]:
                continue
            more = os.read(self.run.stdout.fileno(), 65_536)
            if not more:
                break
            self.left += more
        line, _, self.left = self.left.partition(b"\n")
        return line.decode(errors="backslashreplace")

    def lines(self, count):
        return [self.line() for _ in range(count)]

    def end(self):
        self.run.stdin.close()
        rest = self.left + self.run.stdout.read()
        self.room.cleanup()
        return rest, self.run.stderr.read(), self.run.wait(LONGEST_ANSWER)


def differs(wanted, given, line):
    """What is wrong with an answer in text."""
    return None if given == wanted.splitlines() else f"{line!r}: {given}, not {wanted.splitlines()}"


def differs_in_json(wanted, given, line):
    """The same of an answer in JSON: one object, whose keys are in order."""
    try:
        told = json.loads(given[0])
    except ValueError:
        return f"{line!r}: {given} is no JSON"
    if json.dumps(told, separators=(",", ":"), sort_keys=True, ensure_ascii=False) != given[0]:
        return f"{line!r}: {given}: its keys are not in order, or it has blanks"
    word = line.split(",")[0].split()[0] if line.strip() else ""
    if wanted.startswith("bad line: "):
        return None if "bad" in told else f"{line!r}: {told}, not a bad line"
    if wanted.startswith("event "):
        return None if told.get("event") == int(wanted.split()[1]) else f"{line!r}: {told}, not {wanted!r}"
    if word in SHOWN or word in ("why", "fit") or wanted in ("nothing to undo\n", "nothing to redo\n"):
        is_same = told.get("value") == json.loads(wanted) if word in VALUES else told.get("text") == wanted.removesuffix("\n" * (word not in SHOWN + ("why", "fit")))
        return None if is_same else f"{line!r}: {told}, not {wanted!r}"
    return None
