"""A session of more than 100,000 slots at `pfair desk`: what it shows behind changes of slots long past, and what is taken back.

Each answer is held against what `pfair` tells of the script so far. That script makes the same changes in the same order; so what
names no event is held too against a script of the desk as it stands, in which nothing is changed behind a step.
"""
from desks import Plan, Session, differs

SLOTS = 100_100
MORE_SLOTS = 500
FRONT = ("plan,1", "settings,3,12,36,256", "name,2,camera", "join,0,1,2,3,0", "join,0,2,3,4,2", "join,0,3,1,2,0", "join,5,4,1,6,0",
         "join,9,5,5,12,1", f"limit,{SLOTS - 900},2", f"step,{SLOTS}")
# What names no event, of the whole run and of a range.
OF_THE_RUN = ("lags", "misses", "stats", "processors")
OF_A_RANGE = ("schedule", "quanta", "windows", "load", "chart", "svg")
NAMING_EVENTS = ("denials", "events", "script", "fit")


def changes(rng):
    """Changes of slots at the start, in the middle and near the end, and records that are no change of the past."""
    early, middle, late = rng.randrange(40), SLOTS // 2 + rng.randrange(5_000), SLOTS - rng.randrange(300, 800)
    yield ["delay", str(early), str(rng.randrange(1, 4)), str(rng.randrange(1, 5))]
    yield ["limit", str(middle), "1"]
    yield None
    yield ["leave", str(middle + rng.randrange(9)), "3"]
    yield ["step", str(MORE_SLOTS)]
    yield rng.choice((["strike", str(rng.choice([1, 4]))], ["alter", "6", "limit", str(late), "1"]))
    yield ["strict", "join", str(late), "6", "1", "12", "0"]
    yield None


def looks(rng):
    """What is asked for behind a change: some slots, one slot, and something of the whole run."""
    first = rng.choice((rng.randrange(60), SLOTS // 2 + rng.randrange(5_000), SLOTS - rng.randrange(20, 900)))
    yield [rng.choice(OF_A_RANGE), str(first), str(first + rng.randrange(1, 40))]
    yield ["why", str(first), *rng.choice(([], [str(rng.randrange(1, 7))], ["camera"]))]
    yield [rng.choice((*OF_THE_RUN, *NAMING_EVENTS, "fit", "fit"))]


def wanted(plan, fields):
    """What must be shown."""
    word, *ends = fields
    if word == "fit":
        return plan.told.text(plan.script, "fit")
    if word == "why":
        slot, *task = ends
        return plan.told.text(plan.script, "why", slot, *(["--task", *task] if task else []))
    return plan.show(word, *ends)


def changed(plan, fields):
    """The line of a change, or of an `undo`, and its answer."""
    if fields is None:
        return "undo", plan.undo()
    return ",".join(fields), plan.take(fields)[1] if fields[0] == "step" else plan.change(fields)


def as_it_stands(plan, name, *ends):
    """What `pfair` tells of a script of the desk as it stands."""
    words = [it for pair in zip(("--from", "--to"), ends) for it in pair]
    return plan.told.text(plan.told.text(plan.script, "run", "-f", "script"), "run", "-f", name, *words)


def answers(rng, plan):
    """The lines of the session, each with its answer."""
    for fields in changes(rng):
        yield changed(plan, fields)
        for look in looks(rng):
            yield " ".join(look), wanted(plan, look)
    for name in OF_THE_RUN:
        yield name, as_it_stands(plan, name)
    ends = str(SLOTS // 2), str(SLOTS // 2 + 5_000)
    yield " ".join(["windows", *ends]), as_it_stands(plan, "windows", *ends)
    yield "html", f"bad line: a page shows at most 65536 slots, and {SLOTS + MORE_SLOTS} are asked for\n"


def far_session(rng, told, program):
    """What is wrong with such a session, or None."""
    plan = Plan(told, False)
    plan.script = "".join(f"{it}\n" for it in FRONT)
    plan.events = {number: record.split(",") for number, record in enumerate(FRONT[3:9], 1)}
    session = Session(program, [], FRONT)
    for line, answer in answers(rng, plan):
        session.write(f"{line}\n".encode())
        given = session.lines(len(answer.splitlines()))
        if wrong := differs(answer, given, line):
            session.run.kill()
            return f"a session of {SLOTS} slots behind {plan.script!r}: {wrong[:5_000]}"
    rest, faults, status = session.end()
    return None if (rest, faults, status) == (b"", b"", 1) else f"a session of {SLOTS} slots ended with {rest[:500]!r}, {faults!r}, {status}"
