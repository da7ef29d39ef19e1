"""Scripts whose runs are measured. They are drawn by chance, and the same wherever they are drawn."""
import math
import random
from dataclasses import dataclass
from typing import Callable

# It has 240 divisors.
BASE = 720_720
PERIODS = [period for period in range(2, 10_081) if BASE % period == 0]
LIGHT = (24, 30, 36, 48, 60, 72, 84, 120, 240, 720)


class Draw(random.Random):
    """Numbers drawn by `random` alone, which gives the same ones in each version of Python."""

    def below(self, bound):
        return int(self.random() * bound)

    def one_of(self, items):
        return items[self.below(len(items))]


@dataclass
class Workload:
    """A kind of script by its size, with the size that is timed and the one whose instructions are counted."""
    name: str
    what: str
    unit: str
    timed: int
    counted: int
    script: Callable[[int], bytes]
    units: Callable[[int], int]


def weight_near(draw, units):
    """A weight of about so many units, whose period is long enough for it and now and then much longer."""
    least = next(k for k, period in enumerate(PERIODS) if period * units >= BASE)
    period = draw.one_of(PERIODS[least:least + 24])
    return max(1, min(period, round(units * period / BASE))), period


def full_load(draw, processors, tasks):
    """So many weights, a fifth of them heavy where there is room, which fill the processors exactly."""
    while True:
        weights, left = [], processors * BASE
        for behind in range(tasks - 1, 0, -1):
            is_heavy = draw.below(5) == 0 and left > (behind + 1) * BASE // 5
            mean = left / (behind + 1)
            part = 0.5 + 0.49 * draw.random() if is_heavy else min(0.99, mean / BASE * (0.4 + draw.random()))
            cost, period = weight_near(draw, part * BASE)
            weights.append((cost, period))
            left -= cost * (BASE // period)
        if 1 <= left <= BASE:
            shared = math.gcd(left, BASE)
            return [*weights, (left // shared, BASE // shared)]


def draw_out(draw, items):
    """Takes one of the items out of the list, whose order it changes."""
    at = draw.below(len(items))
    items[at], items[-1] = items[-1], items[at]
    return items.pop()


def text_of(records):
    return "".join(f"{record}\n" for record in records).encode()


def opening(processors, every):
    return f"settings,{processors},{BASE},{processors * BASE},{every}"


def full(processors, tasks, slots):
    """The records of tasks that fill the processors, and of so many slots."""
    weights = full_load(Draw(1), processors, tasks)
    joins = (f"join,0,{task},{cost},{period},0" for task, (cost, period) in enumerate(weights, 1))
    return [opening(processors, 1_024), *joins, f"step,{slots}"]


def past_edits(count, back, slots):
    """A full load of 8 processors, and then so many strict edits, each of the slot so many before now."""
    records = ["pfair,2", *full(8, 32, slots)]
    for number in range(count // 2):
        records += [f"strict,limit,{slots - back},8", f"strict,strike,{33 + number}"]
    return records


def edits(count):
    """A thousand slots with room left, and so many plain edits of them in a row."""
    draw, records = Draw(2), [opening(8, 64)]
    records += [f"join,0,{task},1,{draw.one_of(LIGHT) // 6},0" for task in range(1, 33)]
    records.append("step,1000")
    held, next_number = [], 33
    for _ in range(count):
        slot, task = draw.below(1_000), 1 + draw.below(32)
        if draw.below(10) < 5 or len(held) < 8:
            records.append(f"delay,{slot},{task},{1 + draw.below(20)}")
            held.append(next_number)
            next_number += 1
        elif draw.below(5) < 2:
            records.append(f"alter,{draw.one_of(held)},delay,{slot},{task},{1 + draw.below(20)}")
        else:
            records.append(f"strike,{draw_out(draw, held)}")
    return [*records, "step,10"]


def churn(slots):
    """Joins, leaves and delays at and after now, five slots at a time, of some 64 tasks on 8 processors."""
    draw, records, inside, task = Draw(3), [opening(8, 256)], [], 0
    for now in range(0, slots, 5):
        while len(inside) < 64 and task < 4_095:
            task += 1
            period = draw.one_of(LIGHT)
            cost = period // 24 + 1 + draw.below(period // 12)
            records.append(f"join,{now},{task},{cost},{period},{draw.below(4)}")
            inside.append(task)
        if task < 4_095:
            gone = inside.pop(0)
            records += [f"delay,{now},{gone},80", f"leave,{now + 60},{gone}"]
        records += [f"delay,{now + draw.below(5)},{draw.one_of(inside)},{1 + draw.below(6)}" for _ in range(10)]
        records.append("step,5")
    return records


def parsed(count):
    """So many short records of all kinds ahead of now, a fifth of them refused."""
    draw, records, held, next_number = Draw(4), [opening(4, 64)], [], 1
    while len(records) < count - 1:
        slot, task, kind = 10 + draw.below(1_000_000), 1 + draw.below(4_095), draw.below(10)
        if kind == 0:
            records.append(f"join,{slot},{task},0,5,0")
        elif kind == 1:
            records.append(f"strict,delay,{slot},{task},0")
        elif kind < 6:
            records.append(f"delay,{slot},{task},{1 + draw.below(9)}")
            held.append(next_number)
            next_number += 1
        elif kind < 8 and held:
            records.append(f"alter,{draw.one_of(held)},delay,{slot},{task},3")
        elif held:
            records.append(f"strike,{draw_out(draw, held)}")
    return [*records, "step,10"]


def of_records(records, units=lambda size: size):
    return {"script": lambda size: text_of(records(size)), "units": units}


WORKLOADS = (
    Workload("steady", "32 tasks fill 8 processors: slots", "quantum", 100_000, 20_000,
             **of_records(lambda slots: full(8, 32, slots), lambda slots: 8 * slots)),
    Workload("wide", "4,095 tasks fill 64: slots", "quantum", 2_000, 500,
             **of_records(lambda slots: full(64, 4_095, slots), lambda slots: 64 * slots)),
    Workload("churn", "changes in every slot: slots", "slot", 20_000, 4_000, **of_records(churn)),
    Workload("parse", "short records", "record", 100_000, 25_000, **of_records(parsed)),
    Workload("edits", "edits of the past in a row", "edit", 2_000, 2_000, **of_records(edits)),
)
MILLION = full(8, 32, 1_000_000)
