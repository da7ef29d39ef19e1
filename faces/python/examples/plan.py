"""Three tasks that each ask for two quanta in three slots, on two processors."""
from pfair import Desk, Join

with Desk(processors=2, base=3) as desk:
    for task in (1, 2, 3):
        desk.insert(Join(slot=0, task=task, cost=2, period=3))
    desk.advance(3)
    for slot, row in enumerate(desk.rows()):
        print(f"slot {slot}:", *("-" if it is None else f"{it.task}/{it.sub}" for it in row))
