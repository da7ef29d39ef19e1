"""Scripts of a size: of each kind of record so many, after settings and the few tasks that they are of. Lists of tasks, and what
only a session has."""
import itertools

# Each of these periods divides it.
BASE = 4_096
NEAR = 5


def opened(processors, records, cap=None):
    """Settings, and these records."""
    return [f"settings,{processors},{BASE},{cap or processors * BASE},64", *records]


def join(task, cost, period, slot=0):
    return f"join,{slot},{task},{cost},{period},0"


# Tasks that fill two processors, and those that have room on them to be delayed.
FULL = [join(1, 1, 2), join(2, 3, 8), join(3, 1, 4), join(4, 7, 8)]
LIGHT = [join(task, 1, 8) for task in range(1, 5)]


def alternating(*lists):
    """The first of each list, then the second of each."""
    return itertools.chain.from_iterable(zip(*lists))


def delays(size, ahead=0):
    return [f"delay,{ahead + at},{at % 4 + 1},1" for at in range(size)]


def single_steps(size):
    return opened(2, [*FULL, *["step"] * size])


def slots(size):
    return opened(2, [*FULL, f"step,{size}"])


def tasks(size):
    """All at once, for a few slots."""
    return opened(64, [*(join(task, 1, 64) for task in range(1, size + 1)), "step,8"])


def joins(size):
    """A task more in each slot."""
    return opened(64, [*(join(task, 1, 4_096, task - 1) for task in range(1, size + 1)), f"step,{size}"])


def leaves(size):
    """A task more in each slot, which leaves eight slots later."""
    pairs = ((join(task, 1, 2, task - 1), f"leave,{task + 7},{task}") for task in range(1, size + 1))
    return opened(8, [*itertools.chain.from_iterable(pairs), f"step,{size}"])


def delays_in_slots(size):
    return opened(2, [*LIGHT, *delays(size), f"step,{size}"])


def limits(size):
    return opened(2, [*LIGHT, *(f"limit,{at},{at % 2 + 1}" for at in range(size)), f"step,{size}"])


def alters(size):
    """Each of an event that is still to come."""
    altered = (f"alter,{event},delay,{2_000 + event},1,2" for event in range(5, 5 + size))
    return opened(2, [*LIGHT, *delays(size, 1_000), *altered, "step"])


def strikes(size):
    return opened(2, [*LIGHT, *delays(size, 1_000), *(f"strike,{event}" for event in range(5, 5 + size)), "step"])


def near_edits(size):
    """An edit of the slots just stepped after each step."""
    return opened(2, [*LIGHT, *alternating(["step"] * size, (f"limit,{max(0, at - NEAR)},2" for at in range(size)))])


def far_edits(size):
    """Edits in a row of a few slots long stepped."""
    return opened(2, [*LIGHT, "step,100", *(f"limit,{at % 100},2" for at in range(size)), "step"])


def strict_edits(size):
    """Strict edits of what is still to come."""
    return opened(2, [*LIGHT, "step", *(f"strict,{delay}" for delay in delays(size, 1_000)), "step"])


def refused(size):
    """Four reasons in turn."""
    reasons = ("strike,900000", "join,0,9,0,8,0", "delay,0,5000,1", "join,5,1,1,8,0")
    return opened(2, [*LIGHT, *(reasons[at % 4] for at in range(size)), "step"])


def denied(size):
    return opened(2, [*LIGHT, *(f"delay,{at},9,1" for at in range(size)), f"step,{size}"])


def missed(size):
    """Two tasks that need a processor each, and have one."""
    return opened(1, [join(1, 1, 1), join(2, 1, 1), f"step,{size}"], cap=2 * BASE)


def names(size):
    """So many names, and a join by each."""
    named = (f"name,{task},task {task}" for task in range(1, size + 1))
    return opened(64, [*named, *(join(f"task {task}", 1, 64) for task in range(1, size + 1)), "step,8"])


def labels(size):
    """So many labels, and an alter by each."""
    labelled = (f"label,d{at},{delay}" for at, delay in enumerate(delays(size, 1_000)))
    return opened(2, [*LIGHT, *labelled, *(f"alter,d{at},delay,{2_000 + at},1,2" for at in range(size)), "step"])


def labels_again(size):
    """So many labels, each of which goes on to another event."""
    given = [f"label,d{at},{delay}" for at, delay in enumerate(delays(size, 1_000))]
    again = [f"label,d{at},again,{delay}" for at, delay in enumerate(delays(size, 2_000))]
    return opened(2, [*LIGHT, *given, *again, "step"])


def times(size):
    """Slots of a plan that says how long they are."""
    return opened(2, ["slot,500,us", "name,1,camera", *FULL, f"step,{size}"])


def comments(size):
    """Comments and blanks."""
    return opened(2, [*LIGHT, *alternating(["# a comment"] * size, ["  "] * size), "step"])


def bad_records(size):
    return opened(2, [*LIGHT, *["stop"] * size, "step"])


def fields(size):
    """One record, of so many fields."""
    return opened(2, [*LIGHT, ",".join(["step", *["1"] * size])])


def quotes(size):
    """One field, of so many quotes."""
    return opened(2, [*LIGHT, f'step,"{size * chr(34) * 2}"'])


def undos(size):
    """So many changes, each taken back at the end."""
    return opened(2, [*LIGHT, *delays(size, 1_000), *["undo"] * size])


def questions(size):
    return opened(2, [*LIGHT, "step,8", *["why 0"] * size])


def rows(size):
    """A list of so many tasks."""
    every = (500, 750, 1_000, 1_500, 1_800)
    return ["name,work,every,first", *(f"t{at},{1 + at % 7},{every[at % 5]},{at % 40}" for at in range(size))]


def bad_rows(size):
    """Tasks whose work is no time."""
    return ["name,work,every,first", *(f"t{at},much,100,0" for at in range(size))]
