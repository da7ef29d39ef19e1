"""Looks at an open page: what it shows and does, beside what it must (page_model.py)."""
import json
import re
import urllib.parse

import page_model

TABLE = """const rows = arguments[0].querySelectorAll('tbody tr');
return [...rows].map(row => [...row.cells].map(cell => cell.textContent));"""
CONTROL, SHIFT, LEFT, RIGHT, HOME, END = "\ue009", "\ue008", "\ue012", "\ue014", "\ue011", "\ue010"

# The colours of boxes on the first processor, a third of a slot wide off their left edges, in these slots.
BOXES = """const [slots, first] = arguments, { cell, gutter } = picture.dataset, scale = devicePixelRatio;
const pen = picture.querySelector('canvas').getContext('2d');
return slots.map(slot => [...pen.getImageData((+gutter + cell * (slot - first) + 3) * scale, 29 * scale, 1, 1).data].slice(0, 3));"""


class Looks:
    """The looks at one page, of which `run` is what it must show."""

    def __init__(self, browser, name, run, is_quiet=False):
        self.browser, self.name, self.run, self.count, self.faults, self.is_quiet = browser, name, run, 0, 0, is_quiet

    def look(self, what, seen, wanted=True):
        self.count += 1
        if seen == wanted:
            return
        self.faults += 1
        if not self.is_quiet:
            print(f"{self.name}: {what}: {json.dumps(seen)[:300]}, and not {json.dumps(wanted)[:300]}")

    def js(self, script, *arguments):
        return self.browser.run(script, *arguments)

    def of(self, name, script):
        """What a script says of the element `it` with this id."""
        return self.js(f"const it = document.getElementById({json.dumps(name)}); return {script};")

    def do(self, name, script):
        self.of(name, f"({script}, null)")
        self.browser.settle()

    def table(self, name):
        return self.js("const place = document.getElementById(arguments[0]);" + TABLE.replace("arguments[0]", "place"), name)

    def chosen(self):
        """The slot that the panel tells, or None."""
        slot = self.of("panel", "it.dataset.slot")
        return None if slot is None else int(slot)

    def view(self):
        return [int(self.of("picture", f"it.dataset.{key}")) for key in ("from", "to")]

    def choose(self, slot):
        self.do("slot", f"it.value = {slot}, it.dispatchEvent(new Event('change'))")

    def search(self, words):
        self.do("filter", f"it.value = {json.dumps(words)}, it.dispatchEvent(new Event('input'))")

    def go(self, address):
        self.js("location.hash = arguments[0]", address)
        self.browser.settle()

    # What it shows

    def whole(self, console):
        self.look("the console is quiet", [it for it in console if it["level"] == "SEVERE"], [])
        self.look("the data is the run's", self.of("data", "JSON.parse(it.textContent)"), self.run.data)
        self.look("the verdict", self.of("verdict", "it.textContent").split(": ", 1)[-1], self.run.verdict())
        self.look("nothing is said of what is drawn", "drawn" in self.of("facts", "it.textContent"), False)
        self.look("a language", self.js("return document.documentElement.lang"), "en")
        self.look("no scrolling sideways", self.js("return document.documentElement.scrollWidth <= innerWidth"))
        self.look("one canvas, no wider than its place", self.of("picture", "it.querySelectorAll('canvas').length === 1 "
            "&& it.querySelector('canvas').clientWidth <= it.clientWidth"))

    def words(self):
        title = self.run.data.get("title") or "Schedule"
        self.look("the heading", self.of("title", "[it.tagName, it.textContent]"), ["H1", title])
        self.look("the document's title", self.js("return document.title"), re.sub(r"[ \t\n\f\r]+", " ", f"{title} - pfair").strip())
        self.look("the note without script", self.of("title", "it.nextElementSibling.tagName"), "NOSCRIPT")
        self.look("the word of zoom-fit", self.of("zoom-fit", "it.textContent"), "as much as fits")
        self.look("the word of show-late", self.of("show-late", "it.parentElement.textContent.trim()"), "only late tasks")

    def opening(self):
        """Right after it is opened."""
        slot, (first, end) = self.run.opening(), self.view()
        self.look("the slot that is chosen", self.chosen(), slot)
        self.look("it is in view", slot is None or first <= slot < end)
        self.look("no address yet", self.js("return location.hash"), "")
        if slot is None:
            self.look("the empty panel", self.of("panel", "[...it.children].map(it => it.textContent)"),
                      ["No slot is chosen", "Click a slot, or press an arrow key."])
            self.browser.chrome("Emulation.setEmulatedMedia", media="print")
            self.look("no empty panel on paper", self.of("panel", "getComputedStyle(it).display"), "none")
            self.browser.chrome("Emulation.setEmulatedMedia", media="")

    def lists(self):
        for name, key in page_model.LISTS.items():
            lines = self.run.data[key]
            self.look(f"heading of {name}", self.of(name, "it.previousElementSibling.textContent").endswith(f" ({len(lines)})"))
            self.look(f"lines of {name}", len(self.table(name)), min(500, len(lines)))
        goals = self.js("return [...document.querySelectorAll('.list [data-goal]')].map(it => +it.dataset.goal)")
        told = [line[key] for name in ("misses", "denials", "events") for line in self.run.data[name][:500]
                for key in ("deadline", "ran", "slot") if line.get(key) is not None]
        self.look("buttons of slots", sorted(goals), sorted(it for it in told if self.run.first <= it < self.run.end))
        if self.run.data["figures"]:
            self.tasks_sorted()

    def tasks_sorted(self):
        wanted = [self.run.name(it["task"]) for it in self.run.data["figures"]]
        self.look("the tasks by name", [row[0] for row in self.table("tasks")], wanted)
        self.do("tasks", "it.querySelectorAll('th button')[3].click()")
        quanta = [int(row[3]) for row in self.table("tasks")]
        self.look("sorted by quanta", quanta, sorted(quanta))
        self.look("and so told", self.of("tasks", "it.querySelectorAll('th')[3].ariaSort"), "ascending")
        self.do("tasks", "it.querySelectorAll('th button')[3].click()")
        self.look("turned round", [int(row[3]) for row in self.table("tasks")], sorted(quanta, reverse=True))

    def slots(self):
        first, end, settings = self.run.first, self.run.end, self.run.data["settings"]
        spread = [first + (end - first) * k // 5 for k in range(5)] if first < end else []
        for slot in [*range(first, min(first + 30, end)), *spread]:
            self.choose(slot)
            why, text = self.run.why(slot), self.of("panel", "it.textContent")
            self.look(f"slot {slot}: chosen", self.chosen(), slot)
            self.look(f"slot {slot}: processors", f"processors in use {why.count} of {settings['processors']}" in text)
            self.look(f"slot {slot}: load", f"load {why.load() / settings['base']:.4f}" in text)
            self.look(f"slot {slot}: the ranking", self.table("panel"), self.run.ranking(slot))

    def overview(self):
        pixels = self.of("overview", "it.clientWidth")
        if self.run.first < self.run.end:
            for what, wanted in (("columns", len(self.run.columns(pixels))), ("busy", self.run.busy(pixels)), ("late", self.run.late(pixels))):
                text = ",".join(map(str, wanted)) if isinstance(wanted, list) else str(wanted)
                self.look(f"overview: {what}", self.of("overview", f"it.dataset.{what}"), text)
        for _ in range(8):
            self.do("zoom-in", "it.click()")
        self.pressed(pixels)
        self.do("zoom-fit", "it.click()")
        first, end = self.view()
        self.look("the slots in view in words", self.of("view-slots", "it.textContent"), f"Slots {first} to {end} of {self.run.now}")
        self.look("all slots", [first, end] == [self.run.first, self.run.end] or int(self.of("picture", "it.dataset.cell")) == 2)

    def pressed(self, pixels):
        """A press, and a drag from there, each bring the slot there into the middle, as far as the picture goes."""
        left, top = self.js("const it = document.getElementById('overview'); it.scrollIntoView(); const box = it.getBoundingClientRect(); return [box.left, box.top];")
        slots = self.run.end - self.run.first
        for what, places in (("press", (0.7,)), ("drag", (0.2, 0.9, 0.4))):
            self.do("picture", "it.scrollLeft = 0")
            self.browser.drag([(left + pixels * it, top + 9) for it in places])
            cell, gutter, wide, most = self.of("picture", "[+it.dataset.cell, +it.dataset.gutter, it.clientWidth, it.scrollWidth - it.clientWidth]")
            middle = (int(pixels * places[-1]) * slots // pixels + 0.5) * cell - (wide - gutter) / 2
            off = abs(self.of("picture", "it.scrollLeft") - min(max(middle, 0), most))
            self.look(f"{what} on the overview", off <= cell * (1 + slots / pixels))

    # What the reader does

    def keys(self):
        first, end = self.run.first, self.run.end
        if end - first < 12:
            return
        for place in ("document.body", "document.getElementById('zoom-in')", "document.getElementById('show-lag')"):
            self.js(f"document.activeElement.blur(); {place}.focus()")
            for keys, slot in [((HOME,), first), ((RIGHT,), first + 1), ((SHIFT, RIGHT), first + 11), ((LEFT,), first + 10),
                               ((END,), end - 1), ((SHIFT, LEFT), end - 11)]:
                self.browser.press(*keys)
                self.look(f"keys in {place} to slot {slot}", self.chosen(), slot)
        self.browser.press(CONTROL, LEFT)
        self.look("no key with Ctrl", self.chosen(), end - 11)
        cell = int(self.of("picture", "it.dataset.cell"))
        self.browser.press("+")
        self.look("wider by +", int(self.of("picture", "it.dataset.cell")) > cell)
        self.browser.press("-")
        self.browser.press("/")
        self.look("/ goes to the search", self.js("return document.activeElement.id"), "filter")
        self.browser.press(HOME)
        self.look("no key in a field", self.chosen(), end - 11)

    def pointer(self):
        first, end = self.run.first, self.run.end
        if first == end:
            return
        self.do("picture", "it.scrollLeft = 0, it.scrollIntoView({ block: 'start' })")
        left, top, width, height = self.js("const box = document.getElementById('picture').getBoundingClientRect(); return [box.left, box.top, box.width, box.height];")
        cell, gutter = int(self.of("picture", "it.dataset.cell")), int(self.of("picture", "it.dataset.gutter"))
        slot = min(first + 3, end - 1)
        for y in (top + 34, top + height / 2):
            self.choose(end - 1)
            self.do("picture", "it.scrollLeft = 0")
            self.browser.click(left + 1 + gutter + cell * (slot - first) + cell / 2, y)
            self.look("a click chooses", self.chosen(), slot)
        for name, wider in (("zoom-in", True), ("zoom-out", False)):
            was = int(self.of("picture", "it.dataset.cell"))
            self.do(name, "it.click()")
            self.look(name, (int(self.of("picture", "it.dataset.cell")) > was) is wider)

    def searches(self):
        tasks = self.run.tasks
        for words in ("", "1", "2-3", "TASK", ", ".join(["3", *(self.run.name(it) for it in tasks[-1:])])):
            self.search(words)
            self.look(f"search {words!r}", int(self.of("picture", "it.dataset.tasks")), len(self.run.asked(words)))
        for task in tasks[:2]:
            self.search(str(task))
            self.cut_to(task)
        self.search("")
        late = {task for task, *_ in self.run.misses()}
        self.do("show-late", "it.click()")
        self.look("late tasks alone", int(self.of("picture", "it.dataset.tasks")), len(late))
        self.do("show-late", "it.click()")
        self.toggles()

    def cut_to(self, task):
        """The tables, and the rows of processors, where one task is asked for."""
        for name, key in page_model.LISTS.items():
            kept, count = self.run.lines(name, [task]), len(self.run.data[key])
            number = f" ({kept} of {count})" if kept < count else f" ({count})"
            self.look(f"heading of {name}, task {task}", self.of(name, "it.previousElementSibling.textContent").endswith(number))
            self.look(f"lines of {name}, task {task}", len(self.table(name)), min(500, kept))
        self.do("picture", "it.scrollLeft = 0, it.scrollTop = 0")
        slots = range(self.run.first, min(self.run.end, self.run.first + 12))
        row = [(slot, place[0]) for slot in slots for place in self.run.carried.placed.rows[slot][:1] if place]
        boxes = self.js(BOXES, [slot for slot, _ in row], self.run.first)
        self.look(f"boxes of other tasks are grey, task {task}", [len(set(it)) == 1 for it in boxes], [runs != task for _, runs in row])

    def toggles(self):
        pixels = "it.querySelector('canvas').toDataURL()"
        before = self.of("picture", pixels)
        for name in ("show-windows", "show-lag", "show-groups"):
            self.do(name, "it.click()")
            self.do(name, "it.click()")
        self.look("toggles there and back", self.of("picture", pixels) == before)

    def addresses(self):
        """The address: what is put into it, and where it goes."""
        first, end, tasks = self.run.first, self.run.end, self.run.tasks
        if first == end or not tasks:
            return
        entries = self.js("return history.length")
        words = self.run.name(tasks[-1])
        self.choose(end - 1)
        self.search(words)
        self.look("the address of both", self.js("return location.hash"), f"#slot={end - 1}&task={urllib.parse.quote(words, safe='')}")
        self.search("")
        self.look("the address of a slot", self.js("return location.hash"), f"#slot={end - 1}")
        self.look("no entry of the history", self.js("return history.length"), entries)
        self.go(f"slot={first}&task={words.replace(' ', '%20')}")
        self.look("an address goes to its slot", self.chosen(), first)
        self.look("an address goes to the search", self.of("filter", "it.value"), words)
        self.look("an address searches", int(self.of("picture", "it.dataset.tasks")), len(self.run.asked(words)))
        self.go("slot=x&task=1,99-100")
        self.look("no number counts for nothing", self.chosen(), first)
        self.look("an address of tasks alone", self.of("filter", "it.value"), "1,99-100")
        self.go(f"slot={end + 7}")
        self.look("a slot outside is the nearest", self.chosen(), end - 1)

    def difference(self):
        """Of a page whose data tell another run."""
        self.look("it says that it differs", self.of("facts", "it.textContent").endswith("what is drawn DIFFERS from the data"))

    def policy(self):
        tried = self.browser.tell("/execute/async", {"script": "const done = arguments[0]; fetch('https://example.org/').then(() => done('fetched'), () => done('refused'));", "args": []})
        self.look("a fetch is refused", tried, "refused")
        self.js("const made = document.createElement('script'); made.textContent = 'window.intruder = true'; document.body.append(made);")
        self.look("an added script is refused", self.js("return window.intruder === undefined"))
        self.browser.console()      # what it said of these two, which the next page did not

    def colours(self):
        back = "return getComputedStyle(document.body).backgroundColor"
        light = self.js(back)
        self.browser.chrome("Emulation.setEmulatedMedia", features=[{"name": "prefers-color-scheme", "value": "dark"}])
        self.look("dark where it is asked for", self.js(back) != light)
        self.browser.chrome("Emulation.setEmulatedMedia", features=[])
