"""The charts and pictures that pfair must draw, from docs/TABLES.md, in the plainest way: over the runs of model.py."""
from dataclasses import dataclass
from itertools import count

DIGITS = "0123456789"
SMALL = "abcdefghijklmnopqrstuvwxyz"
TASK_SYMBOLS = DIGITS + SMALL + SMALL.upper()
PROCESSOR_SYMBOLS = TASK_SYMBOLS + "+/"
BLOCK, NARROW_BLOCK = 60, 50
LABEL, WIDE_LABEL = 12, 20

LEGEND = """
processors: a task by its symbol, - idle, # out of use
task: its processor where it runs, . waits, ! waits behind its deadline
windows: [ first slot, ] last, X last and next first, I only slot
lag: = none, + - owed or ahead by less than one quantum, 1-9 * owed, a-z ~ ahead
marks: > joins, < left, ~ clock stopped, ^ runs late, x denied
"""


@dataclass(frozen=True)
class Window:
    """Of a subtask: its window, bit and group deadline, whether it is missed, and where it ran, or None and None."""
    i: int
    release: int
    deadline: int
    bit: int
    group: int
    is_late: bool
    ran: int
    on: int

    def did_not_run_below(self, t):
        return self.ran is None or self.ran >= t


class Task:
    """A listed task of a run: its rank from 1, its join if one is held, and its denied events as (slot, number, name)."""

    def __init__(self, rank, number, placed, names):
        run, self.rank, self.number, self.n = placed.run, rank, number, len(placed.rows)
        held = [event for event in run.scenario.events.values() if event.task == number and event.slot < self.n]
        self.join = next((event for event in held if event.kind == "join"), None)
        self.denied = [(slot, event, names[code]) for slot, event, code in run.denials
                       if run.scenario.events[event].task == number]
        admitted = run.join_of(number)
        self.was_admitted = admitted is not None
        if self.was_admitted:
            self.joined, leave = admitted.slot, run.leave_of(number)
            self.has_left, self.end = leave is not None, leave.slot if leave else self.n
            self.stops = [(first, end) for task, first, end, _ in placed.stops if task == number]
            self.windows = list(self.drawn(placed))
            self.lags = {t: self.lag(run, t) for t in range(self.joined, self.end + 1)}

    def drawn(self, placed):
        run, task = placed.run, self.number
        for i in count(1):
            release, deadline, ran = run.release(task, i), run.deadline(task, i), run.slot_of(task, i)
            if ran is None and release >= self.end:
                return
            is_late = deadline <= self.end and (ran is None or ran >= deadline)
            on = None if ran is None else placed.rows[ran].index((task, i))
            yield Window(i, release, deadline, run.bit(task, i), run.group(task, i), is_late, ran, on)

    def lag(self, run, t):
        clock = sum(1 for u in range(self.joined, t) if not self.is_stopped(u))
        return self.join.cost * clock - self.join.period * run.done(self.number, t)

    def is_stopped(self, t):
        return any(first <= t < end for first, end in self.stops)

    def is_inside(self, t):
        return self.joined <= t < self.end

    def in_window(self, t):
        return [x for x in self.windows if x.release <= t < min(x.deadline, self.end)]

    def running(self, t):
        return next((x for x in self.windows if x.ran == t), None)

    def symbol(self):
        return TASK_SYMBOLS[self.rank] if self.rank < len(TASK_SYMBOLS) else "*"


def listed_tasks(placed, names):
    numbers = sorted({event.task for event in placed.run.scenario.events.values()
                      if event.kind != "limit" and event.slot < len(placed.rows)})
    return [Task(rank, number, placed, names) for rank, number in enumerate(numbers, 1)]


def in_use(run, t):
    """How many processors are in use in slot t."""
    limits = [event.count for event in run.in_force if event.kind == "limit" and event.slot <= t]
    return limits[-1] if limits else run.scenario.settings.processors


# The chart: the cell of a slot in each line

def number_cell(a, t):
    tenth = str(t - t % 10)
    return tenth[t % 10] if t - t % 10 >= a and t % 10 < len(tenth) else " "


def tick_cell(t):
    return "|" if t % 10 == 0 else ":" if t % 5 == 0 else "."


def processor_cell(placed, tasks, p, t):
    if p >= in_use(placed.run, t):
        return "#"
    place = placed.rows[t][p]
    return next(x.symbol() for x in tasks if x.number == place[0]) if place else "-"


def task_cell(task, t):
    ran = task.running(t)
    if ran:
        return PROCESSOR_SYMBOLS[ran.on]
    if task.is_inside(t) and any(x.deadline <= t and x.did_not_run_below(t) for x in task.windows):
        return "!"
    return "." if any(x.did_not_run_below(t + 1) for x in task.in_window(t)) else " "


def window_cell(task, t):
    inside = task.in_window(t)
    if not inside:
        return " "
    if len(inside) > 1:
        return "X"
    first, last = inside[0].release == t, inside[0].deadline == t + 1
    return "I" if first and last else "[" if first else "]" if last else "-"


def lag_cell(task, t):
    if not task.is_inside(t):
        return " "
    lag = task.lags[t]
    whole = abs(lag) // task.join.period
    if lag == 0:
        return "="
    if lag > 0:
        return "+" if whole == 0 else DIGITS[whole] if whole <= 9 else "*"
    return "-" if whole == 0 else SMALL[whole - 1] if whole <= 26 else "~"


def mark_cell(task, t):
    if any(slot == t for slot, _, _ in task.denied):
        return "x"
    if not task.was_admitted:
        return " "
    ran = task.running(t)
    if ran and ran.is_late:
        return "^"
    if t == task.joined:
        return ">"
    if task.has_left and t == task.end:
        return "<"
    return "~" if task.is_stopped(t) else " "


def line(label, cells, width=LABEL):
    return (label.ljust(width) + "".join(cells)).rstrip(" ") + "\n"


def number_label(number):
    return f"task {number}"


def task_lines(task, slots, label_of, width):
    cells = [[cell(task, t) if task.was_admitted or cell is mark_cell else " " for t in slots]
             for cell in (task_cell, window_cell, lag_cell, mark_cell)]
    if all(set(each) <= {" "} for each in cells):
        return ""
    labels = ("  windows", "  lag", "  marks")
    return line(f"{task.symbol()} {label_of(task.number)}", cells[0], width) + "".join(
        line(label, each, width) for label, each in zip(labels, cells[1:]) if set(each) - {" "})


def head(placed, first, end):
    settings = placed.run.scenario.settings
    return (f"slots {first} to {end} of {len(placed.rows)}; processors {settings.processors}; "
            f"base {settings.base}; cap {settings.cap}")


def chart(placed, names, first, end, label_of=number_label, told=""):
    """The chart of the slots from `first` on and below `end`, where tasks are called so, and this is told in its head."""
    tasks, text = listed_tasks(placed, names), head(placed, first, end) + told + "\n"
    width = max([LABEL, *(len(f"1 {label_of(task.number)}") + 1 for task in tasks)])
    block = BLOCK if width <= WIDE_LABEL else NARROW_BLOCK
    for a in range(first, end, block):
        slots = range(a, min(a + block, end))
        text += "\n" + line("", [number_cell(a, t) for t in slots], width) + line("", map(tick_cell, slots), width)
        for p in range(placed.run.scenario.settings.processors):
            text += line(f"p{p}", [processor_cell(placed, tasks, p, t) for t in slots], width)
        text += "".join(task_lines(task, slots, label_of, width) for task in tasks)
    return text + LEGEND


# The picture

STYLE = ("text{font:10px monospace;fill:#222}.n{text-anchor:middle;fill:#000}.i{fill:#fff}.a{text-anchor:middle;fill:#555}"
         ".m{text-anchor:end}.f{fill:#fff}.g{stroke:#eee}.h{stroke:#bbb}.w{fill:none;stroke:#456}"
         ".v{fill:none;stroke:#c00;stroke-width:2}.e{stroke:#456;stroke-dasharray:2 2}.q{stroke:#456}"
         ".t{stroke:#c00;stroke-width:2}.o{stroke:#c00;stroke-dasharray:1 1}.d{fill:#456}"
         ".l{stroke:#456;stroke-dasharray:4 2}.b{fill:#cde}.s,.y{fill:#ddd}.u{fill:#888}"
         ".z{stroke:#999;stroke-dasharray:1 2}.k{fill:none;stroke:#06c}.x{fill:none;stroke:#c00;stroke-width:2}"
         ".r{fill:#b00}.j{fill:#080}.c0{fill:#fdb}.c1{fill:#755}.c2{fill:#3b3}.c3{fill:#00d}.c4{fill:#b99}"
         ".c5{fill:#035}.c6{fill:#b9f}.c7{fill:#570}.c8{fill:#ddf}.c9{fill:#37b}.c10{fill:#bf0}.c11{fill:#330}"
         "@media screen and (prefers-color-scheme:dark){text{fill:#ddd}.a{fill:#aaa}.f{fill:#16181d}"
         ".g{stroke:#26292f}.h{stroke:#50555d}.w,.e,.q,.l{stroke:#9ab}.d{fill:#9ab}.b{fill:#354a63}"
         ".s{fill:#3a3d44}.u{fill:#666}.z{stroke:#777}.k{stroke:#6bf}.v,.t,.o,.x{stroke:#f66}.r{fill:#f88}"
         ".j{fill:#5c5}}@media print{svg{max-width:100%;height:auto}}")
BRACKET = "M1 1V11H21V1"
TRIANGLE = '<path class="d" d="M11 3l-3 5h6z"/>'
SIGNS = [('<rect class="q c0" x="1" y="1" width="20" height="10"/><text class="n" x="11" y="10">0</text>',
          "quantum, its processor"),
         (f'<path class="w" d="{BRACKET}"/>', "window"), ('<path class="e" d="M1 11H21"/>', "may run before it"),
         (f'<path class="v" d="{BRACKET}"/>', "missed window"), ('<path class="o" d="M1 6H21"/>', "late, until it ran"),
         None, None, ('<rect class="s" x="1" width="20" height="12"/>', "clock stopped"),
         ('<rect class="u" x="1" width="20" height="12"/>', "processor out of use"),
         ('<path class="j" d="M8 3l6 3l-6 3z"/>', "joins"), ('<path class="j" d="M14 3l-6 3l6 3z"/>', "left"),
         ('<path class="x" d="M8 3l6 6m0-6l-6 6"/>', "event denied")]
OWN_SIGNS = {
    "strips": [(TRIANGLE, "group deadline"),
               ('<path class="z" d="M1 8H21"/><path class="k" d="M1 8H8V3H14V10H21"/>', "lag, up where owed")],
    "stairs": [('<path class="l" d="M11 0V12"/>' + TRIANGLE, "group deadline"),
               ('<rect class="b" x="1" width="20" height="12"/>', "in two windows")]}


def rounded_up(a, b):
    return -(-a // b)


class Picture:
    """A picture of the slots from `first` on and below `end`, in cells of this width, in blocks of so many slots, or in one,
    and in a style; of tasks with these names, where a slot is so long."""

    def __init__(self, placed, names, missed, first, end, cell, wrap=None, style="strips", called=None, slot=None):
        self.placed, self.first, self.end, self.cell, self.style = placed, first, end, cell, style
        self.called, self.slot = called or {}, slot
        self.tasks, self.settings = listed_tasks(placed, names), placed.run.scenario.settings
        self.missed, self.denied = missed, len(placed.run.denials)
        self.wrap = wrap or max(1, end - first)
        self.strips = max([1, *(rounded_up(abs(lag), task.join.period) for task in self.tasks if task.was_admitted
                                for t, lag in task.lags.items() if first <= t <= end)])
        widths = [16 + 6 * len(words) for task in self.tasks for words in self.words(task)]
        self.gutter = max([96, *widths])
        self.width = max(self.gutter + 16 + cell * min(self.wrap, end - first), 400)
        self.step = next(s for s in (5, 10, 20, 50, 100) if s * cell >= max(40, 6 * len(str(self.time(end))) + 6))

    def time(self, t):
        return t * self.slot[0] if self.slot else t

    def label(self, task):
        return self.called.get(task.number) or number_label(task.number)

    def words(self, task):
        label, weight = self.label(task), f"{task.join.cost}/{task.join.period}" if task.join else "-"
        weight = f"{task.number}: {weight}" if task.number in self.called else weight
        return [label, weight] if self.style == "strips" else [f"{label}, {weight}"]

    def text(self):
        blocks, below = [], 24
        for a in range(self.first, max(self.end, self.first + 1), self.wrap):
            block = Block(self, a, min(a + self.wrap, self.end))
            blocks += [f'<g transform="translate(0 {below})">', *block.lines(), "</g>"]
            below += block.height
        return "".join(line + "\n" for line in [*self.front(below), *blocks, *self.legend(below), "</svg>"])

    def columns(self):
        return (self.width - 16) // 172

    def front(self, below):
        settings, many, b = self.settings, len(self.tasks), self.width
        h = below + 44 + 16 * rounded_up(12, self.columns())
        slots = f"slots {self.first} to {self.end} of {len(self.placed.rows)}"
        yield (f'<svg xmlns="http://www.w3.org/2000/svg" lang="en" role="img" viewBox="0 0 {b} {h}" '
               f'width="{b}" height="{h}">')
        yield f"<title>PD2 schedule, {slots}</title>"
        yield (f"<desc>Tasks {many} of {many}; processors {settings.processors}; base {settings.base}; "
               f"cap {settings.cap}; missed windows {self.missed}; denied events {self.denied}.</desc>")
        yield f"<style>{STYLE}</style>"
        yield f'<rect class="f" width="{b}" height="{h}"/>'
        strips = f"; lag strips {self.strips}" if self.style == "strips" else ""
        each = ", %d %s each" % self.slot if self.slot else ""
        for y, words in ((16, f"{slots}{each}; processors {settings.processors}"),
                         (30, f"base {settings.base}; cap {settings.cap}{strips}"),
                         (44, f"tasks {many} of {many}; missed windows {self.missed}; denied events {self.denied}")):
            yield f'<text x="8" y="{y}">{words}</text>'

    def legend(self, below):
        for k, sign in enumerate(SIGNS):
            drawn, words = sign or OWN_SIGNS[self.style][k - 5]
            x, y = 8 + 172 * (k % self.columns()), below + 36 + 16 * (k // self.columns())
            yield f'<g transform="translate({x} {y})">{drawn}<text x="28" y="10">{words}</text></g>'


class Block:
    """A block of a picture: its slots from a on and below b."""

    def __init__(self, picture, a, b):
        self.picture, self.a, self.b = picture, a, b
        self.cell, self.style, self.processors = picture.cell, picture.style, picture.settings.processors
        self.heights = [72 if self.style == "strips" else 28 + 14 * len(self.rows(task)) for task in picture.tasks]
        self.height = 48 + 20 * self.processors + sum(self.heights)

    def rows(self, task):
        if not task.was_admitted:
            return []
        return [x for x in task.windows if max(x.release, self.a) < min(x.deadline, task.end, self.b)
                or x.ran is not None and self.a <= x.ran < self.b]

    def x(self, t):
        return self.picture.gutter + self.cell * (t - self.a)

    def lines(self):
        yield f'<text x="8" y="36">{self.picture.slot[1] if self.picture.slot else "slot"}</text>'
        for t in range(self.a, self.b + 1):
            numbered = t % self.picture.step == 0
            yield f'<path class="{"h" if numbered else "g"}" d="M{self.x(t)} 40V{self.height + 8}"/>'
            if numbered:
                yield f'<text class="a" x="{self.x(t)}" y="36">{self.picture.time(t)}</text>'
        for p in range(self.processors):
            yield from self.processor(p)
        y = 56 + 20 * self.processors
        for task, height in zip(self.picture.tasks, self.heights):
            yield from self.task(task, y)
            y += height

    def processor(self, p):
        y, placed = 44 + 20 * p, self.picture.placed
        yield f'<text x="8" y="{y + 12}">p{p}</text>'
        for t in range(self.a, self.b):
            place = placed.rows[t][p]
            if p >= in_use(placed.run, t):
                yield f'<rect class="u" x="{self.x(t)}" y="{y}" width="{self.cell}" height="16"/>'
            elif place:
                task = next(x for x in self.picture.tasks if x.number == place[0])
                yield self.box(task, task.running(t), self.x(t) + 1, y, self.cell - 2, 16)
                yield from self.digits(task, task.number, self.cell - 2, self.x(t) + self.cell // 2, y + 12)

    def box(self, task, window, x, y, width, height):
        group = f", group deadline {window.group}" if window.group else ""
        late = f", late by {window.ran + 1 - window.deadline}" if window.is_late else ""
        told = (f"slot {window.ran}, p{window.on}: {self.picture.label(task)}, subtask {window.i}, "
                f"window {window.release} to {window.deadline}{group}{late}")
        return (f'<rect class="q{" t" if late else ""} c{(task.rank - 1) % 12}" x="{x}" y="{y}" width="{width}" '
                f'height="{height}"><title>{told}</title></rect>')

    @staticmethod
    def digits(task, number, room, x, y):
        if 6 * len(str(number)) <= room:
            yield f'<text class="{"n" if task.rank % 2 else "n i"}" x="{x}" y="{y}">{number}</text>'

    def task(self, task, y):
        yield f'<path class="h" d="M0 {y - 4}H{self.picture.width}"/>'
        for k, words in enumerate(self.picture.words(task)):
            yield f'<text x="8" y="{y + 12 + 14 * k}">{words}</text>'
        level = y + 29 if self.style == "strips" else y + 6
        if task.was_admitted:
            yield from (self.strip if self.style == "strips" else self.stairs)(task, y)
            if self.a <= task.joined < self.b:
                yield f'<path class="j" d="M{self.x(task.joined)} {level}l6 3l-6 3z"/>'
            if task.has_left and self.a < task.end <= self.b:
                yield f'<path class="j" d="M{self.x(task.end)} {level}l-6 3l6 3z"/>'
        for slot, number, name in task.denied:
            if self.a <= slot < self.b:
                second = 2 * (slot - self.a) >= self.b - self.a
                style, x = ("r m", self.x(slot) - 6) if second else ("r", self.x(slot) + 6)
                yield f'<path class="x" d="M{self.x(slot) - 3} {level}l6 6m0-6l-6 6"/>'
                yield f'<text class="{style}" x="{x}" y="{level + 7}">event {number} {name}</text>'

    def stops(self, task, y, height):
        for first, end in task.stops:
            f, g = max(first, task.joined, self.a), min(end, task.end, self.b)
            if f < g:
                yield f'<rect class="s" x="{self.x(f)}" y="{y}" width="{self.cell * (g - f)}" height="{height}"/>'

    def groups(self, task):
        last = 0
        for window in task.windows:
            if window.bit == 1 and window.group not in (0, last):
                last = window.group
                if max(task.joined, self.a) < last <= min(task.end, self.b):
                    yield self.x(last)

    def strip(self, task, y):
        if task.joined <= self.b <= task.end:
            yield f'<text x="8" y="{y + 54}">lag {task.lags[self.b]}</text>'
        yield from self.stops(task, y, 64)
        for window in task.windows:
            yield from self.window(task, window, y + 2 + 14 * ((window.i - 1) % 2))
        for x in self.groups(task):
            yield f'<path class="d" d="M{x} {y + 29}l-3 5h6z"/>'
        low, high, middle = max(task.joined, self.a), min(task.end, self.b), y + 50
        if low < high:
            level = {t: middle - 14 * task.lags[t] // (task.join.period * self.picture.strips) for t in range(low, high + 1)}
            steps = "".join(f"H{self.x(t)}V{level[t]}" for t in range(low + 1, high + 1))
            yield f'<path class="z" d="M{self.x(low)} {middle}H{self.x(high)}"/>'
            yield f'<path class="k" d="M{self.x(low)} {level[low]}{steps}"/>'

    def stairs(self, task, y):
        rows = self.rows(task)
        end = y + 20 + 14 * len(rows)
        yield from self.stops(task, y, 20 + 14 * len(rows))
        for k, (window, following) in enumerate(zip(rows, rows[1:])):
            f, g = max(following.release, self.a), min(window.deadline, task.end, self.b)
            if f < g:
                yield (f'<rect class="b" x="{self.x(f)}" y="{y + 20 + 14 * k}" width="{self.cell * (g - f)}" '
                       'height="26"/>')
        for x in self.groups(task):
            yield f'<path class="l" d="M{x} {y + 13}V{end}"/>'
            yield f'<path class="d" d="M{x} {y + 8}l-3 5h6z"/>'
        for k, window in enumerate(rows):
            z, eligible = y + 20 + 14 * k, max(task.joined, window.release - task.join.early)
            yield f'<text class="m" x="{self.x(max(eligible, self.a)) - 3}" y="{z + 10}">T{window.i}</text>'
            yield from self.window(task, window, z)

    def window(self, task, window, z):
        a, b, r, d = self.a, self.b, window.release, window.deadline
        eligible = max(task.joined, r - task.join.early)
        if eligible < r and a < r and eligible < b:
            yield f'<path class="e" d="M{self.x(max(eligible, a))} {z + 12}H{self.x(min(r, b))}"/>'
        f, g = max(r, a), min(d, task.end, b)
        if f < g:
            up, over = z if r >= a else z + 12, z if g == d else z + 12
            style = "v" if window.is_late else "w"
            yield f'<path class="{style}" d="M{self.x(f) + 2} {up}V{z + 12}H{self.x(g) - 2}V{over}"/>'
        until = min(task.end if window.ran is None else window.ran, b)
        if window.is_late and max(d, a) < until:
            yield f'<path class="o" d="M{self.x(max(d, a))} {z + 5}H{self.x(until)}"/>'
        if window.ran is not None and a <= window.ran < b:
            inset = self.cell // 5
            room, x = self.cell - 2 * inset, self.x(window.ran)
            yield self.box(task, window, x + inset, z, room, 10)
            yield from self.digits(task, window.on, room, x + self.cell // 2, z + 9)


def picture(placed, names, missed, first, end, cell, wrap=None, style="strips", called=None, slot=None):
    """The picture of a run in which so many windows are missed, of tasks with these names, where a slot is so long."""
    return Picture(placed, names, missed, first, end, cell, wrap, style, called, slot).text()


# A chart, read back

def schedule_read(text):
    """The schedule table that the lines of processors of a chart of all slots tell: the quanta of a task are its subtasks in
    order. None where two tasks may share a symbol."""
    _, *blocks = text.split("\n\n")
    columns, names = {}, {}
    for block in blocks[:-1]:
        for each in block.split("\n"):
            label, cells = each[:LABEL].split(), each[LABEL:]
            if len(label) == 3 and label[1] == "task":
                names[label[0]] = label[2]
            elif label and label[0].startswith("p") and label[0][1:].isdecimal():
                columns.setdefault(int(label[0][1:]), []).extend(cells)
    if "*" in names:
        return None
    rows, done = list(zip(*(columns[p] for p in sorted(columns)))), {}
    lines = [",".join(["slot", *(f"p{p}" for p in sorted(columns))])]
    for t, row in enumerate(rows):
        for symbol in row:
            done[symbol] = done.get(symbol, 0) + 1
        lines.append(",".join([str(t), *("" if each in "-#" else f"{names[each]}/{done[each]}" for each in row)]))
    return "".join(line + "\n" for line in lines)
