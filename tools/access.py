"""What a page and a picture are to a reader who hears them, uses no mouse, sees little colour, or has them on paper.

Each takes the looks at an open page (tools/try-page) and adds its own: names as Chromium tells them to a screen reader,
contrasts of computed colours, keys alone, nothing that moves, and paper.
"""
NAMED = {"button", "checkbox", "searchbox", "spinbutton", "image", "group", "toolbar", "table", "complementary", "heading", "columnheader"}
TAB, ENTER, SPACE = "\ue004", "\ue007", " "
TOOLS = ["filter", "slot", "zoom-out", "zoom-in", "zoom-fit", "show-windows", "show-lag", "show-groups", "show-late", "picture"]

# The contrast of two colours by WCAG 2, and the colour behind an element.
COLOURS = """
const parts = colour => colour.match(/[\\d.]+/g).map(Number);
const linear = v => (v /= 255) <= 0.04045 ? v / 12.92 : ((v + 0.055) / 1.055) ** 2.4;
const light = ([r, g, b]) => 0.2126 * linear(r) + 0.7152 * linear(g) + 0.0722 * linear(b);
const contrast = (a, b) => {
  const [less, more] = [light(parts(a)), light(parts(b))].sort((x, y) => x - y);
  return (more + 0.05) / (less + 0.05);
};
const styleOf = (it, part) => getComputedStyle(it, part);
const behind = it => parts(styleOf(it).backgroundColor)[3] === 0 && it.parentElement ? behind(it.parentElement) : styleOf(it).backgroundColor;
const faint = [];
const look = (what, colour, back) => { if (contrast(colour, back) < 4.5) faint.push([what, colour, back, contrast(colour, back).toFixed(2)]); };
"""

# Texts of the page that stand at less than 4.5 to 1: those of elements, of fields, of the canvas, and of its boxes, whose tasks
# have these names by rank.
FAINT_ON_A_PAGE = COLOURS + """
for (const it of document.querySelectorAll('body *:not(script, noscript, noscript *)')) {
  const text = [...it.childNodes].some(node => node.nodeType === Node.TEXT_NODE && node.textContent.trim());
  if (text || it.tagName === 'INPUT') look(it.tagName + ' ' + it.className, styleOf(it).color, behind(it));
  if (it.placeholder) look('placeholder', styleOf(it, '::placeholder').color, behind(it));
}
for (const name of ['text', 'soft', 'missed', 'fine', 'window']) {
  const probe = document.body.appendChild(document.createElement('p'));
  probe.style.color = `var(--${name})`;
  look('--' + name, styleOf(probe).color, behind(probe));
  probe.remove();
}
for (const it of document.querySelectorAll('#tasks tbody td.task')) {
  const rank = arguments[0].indexOf(it.textContent);
  look('box of rank ' + rank, rank % 2 ? 'rgb(255, 255, 255)' : 'rgb(0, 0, 0)', styleOf(it).borderLeftColor);
}
return faint;"""

# Those of a picture, of which digits stand on the box before them and other words on the ground.
FAINT_IN_A_PICTURE = COLOURS + """
const ground = styleOf(document.querySelector('.f')).fill;
for (const it of document.querySelectorAll('text')) {
  const box = it.classList.contains('n') ? styleOf(it.previousElementSibling).fill : ground;
  look(it.textContent, styleOf(it).fill, box);
}
return faint;"""

MOVING = """return [...document.querySelectorAll('*')].filter(it => {
  const style = getComputedStyle(it);
  return style.animationName !== 'none' || parseFloat(style.transitionDuration) > 0 || style.scrollBehavior !== 'auto';
}).length;"""


def media(browser, paper=False, dark=False):
    """As on paper or on a screen, for a reader who asks for dark or for light."""
    scheme = [{"name": "prefers-color-scheme", "value": "dark" if dark else "light"}]
    browser.chrome("Emulation.setEmulatedMedia", media="print" if paper else "", features=scheme)
    browser.settle()


def nameless(browser):
    """The roles of what a screen reader would tell without a name."""
    nodes = browser.chrome("Accessibility.getFullAXTree")["nodes"]
    told = [(it["role"]["value"], it.get("name", {}).get("value", "").strip()) for it in nodes if not it["ignored"]]
    return sorted(role for role, name in told if role in NAMED and not name)


def page_by_sound(it):
    it.look("all is told by a name", nameless(it.browser), [])
    it.look("late rows are bold too", it.js("return [...document.querySelectorAll('.late td')].filter(cell => "
        "getComputedStyle(cell).fontWeight < 600).length"), 0)


def page_by_colours(it):
    for dark in (False, True):
        media(it.browser, dark=dark)
        it.look(f"no faint text, {'dark' if dark else 'light'}", it.js(FAINT_ON_A_PAGE, [it.run.name(task) for task in it.run.tasks]), [])
    media(it.browser)
    it.look("nothing moves by itself", it.js(MOVING), 0)


def page_by_keys(it):
    """All that a pointer does, without one."""
    it.js("document.activeElement.blur(); getSelection().removeAllRanges(); scrollTo(0, 0)")
    it.do("filter", "it.focus()")
    reached, outlined = [], True
    for _ in TOOLS:
        reached.append(it.js("return document.activeElement.id"))
        outlined = outlined and it.js("return getComputedStyle(document.activeElement).outlineStyle !== 'none'")
        it.browser.press(TAB)
    it.look("the tools and the picture by Tab", reached, TOOLS)
    it.look("with a frame round each", outlined)
    it.do("zoom-out", "it.click()")
    for name, key, state in (("zoom-in", ENTER, "document.getElementById('picture').dataset.cell"), ("show-lag", SPACE, "it.checked")):
        before = it.of(name, state)
        it.do(name, "it.focus()")
        it.browser.press(key)
        it.look(f"{name} by a key", it.of(name, state) != before)
    it.do("show-lag", "it.click()")
    if it.js("return document.querySelector('[data-goal]') !== null"):
        slot = it.js("const goal = document.querySelector('.list [data-goal]'); goal.focus(); return goal.dataset.goal")
        it.browser.press(ENTER)
        it.look("a slot of a table by Enter", it.of("panel", "it.dataset.slot"), slot)


def page_on_paper(it):
    """On a sheet of A4 or Letter, which a browser lays out a third wider than it is and then draws smaller."""
    media(it.browser, paper=True, dark=True)
    it.browser.chrome("Emulation.setDeviceMetricsOverride", width=957, height=1000, deviceScaleFactor=1, mobile=False)
    it.look("light on paper", it.js("return getComputedStyle(document.body).backgroundColor"), "rgb(255, 255, 255)")
    it.look("no tools on paper", it.of("tools", "getComputedStyle(it).display"), "none")
    it.look("whole tables on paper", it.js("return [...document.querySelectorAll('.list')].filter(it => it.scrollWidth > innerWidth).length"), 0)
    it.browser.chrome("Emulation.clearDeviceMetricsOverride")
    media(it.browser)


def page_in_a_narrow_window(it):
    it.browser.chrome("Emulation.setDeviceMetricsOverride", width=400, height=800, deviceScaleFactor=1, mobile=False)
    it.browser.settle()
    it.look("no scrolling sideways in a narrow window", it.js("return document.documentElement.scrollWidth <= innerWidth"))
    it.browser.chrome("Emulation.clearDeviceMetricsOverride")
    it.browser.settle()


def page_for_all(it):
    for what in (page_by_sound, page_by_colours, page_by_keys, page_in_a_narrow_window, page_on_paper):
        what(it)


def picture_for_all(it):
    """A picture of the format svg: it and each quantum tell themselves, and no text is faint."""
    it.look("a title and a description", it.js("const it = document.documentElement; "
        "return ['title', 'desc'].every(name => it.querySelector(`:scope > ${name}`)?.textContent)"))
    it.look("told as one image", it.js("const it = document.documentElement; return [it.lang || it.getAttribute('lang'), it.getAttribute('role')]"), ["en", "img"])
    it.look("a title of each quantum", it.js("return [...document.querySelectorAll('rect.q:not([width=\"20\"][height=\"10\"][x=\"1\"])')].filter(box => "
        "!/^slot \\d+, p\\d+: /.test(box.querySelector('title')?.textContent ?? '')).length"), 0)
    for dark in (False, True):
        media(it.browser, dark=dark)
        it.look(f"no faint text, {'dark' if dark else 'light'}", it.js(FAINT_IN_A_PICTURE), [])
    media(it.browser)
