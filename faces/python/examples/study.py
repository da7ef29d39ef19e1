"""A what-if study: which of some changes could a running plan take?

Two processors serve three tasks of 1/2, 2/3 and 1/4, and twelve slots are done. Each change is tried at slot 4, in the
past, and none is made.
"""
from pfair import Desk, Event, Join, Leave, Limit, Refused

PLAN = "join,0,1,1,2,0\njoin,0,2,2,3,0\njoin,0,3,1,4,0\nstep,12\n"

TRIALS = {
    "join 4 of 1/3": Join(slot=4, task=4, cost=1, period=3),
    "join 4 of 2/3": Join(slot=4, task=4, cost=2, period=3),
    "join 4 of 2/5": Join(slot=4, task=4, cost=2, period=5),
    "leave 1": Leave(slot=4, task=1),
    "limit 1": Limit(slot=4, count=1),
}


def outcome(desk: Desk, event: Event) -> str:
    """What would come of an insert: how many windows would be missed, or why the desk would refuse it."""
    try:
        table = desk.if_inserted(event, "misses", strict=True)
    except Refused as refused:
        return refused.sentence
    return f"{len(table.splitlines()) - 1} windows missed"


with Desk(processors=2, base=60, caller=1) as desk:
    desk.run(PLAN)
    for name, event in TRIALS.items():
        print(f"{name}: {outcome(desk, event)}")
    print("as it stands the plan can", "never miss a window" if desk.never_misses() else "miss windows")
