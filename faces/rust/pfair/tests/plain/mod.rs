//! A plain scheduler, written from docs/RULES.md alone: each change runs the whole plan anew from slot 0. It shares no code
//! with the library.

mod fit;
mod report;
mod task;

use pfair::{Change, DenialReason, Event, Refusal, WeightFault};
use std::collections::BTreeMap;
pub use task::Task;

/// What is planned.
#[derive(Clone)]
pub struct Plan {
    pub processors: u64,
    pub base: u64,
    pub cap: u64,
    pub horizon: u64,
    pub events: BTreeMap<u64, Event>,
    pub next: u64,
}

/// The processor's pick, by processor: task and subtask.
pub type Places = Vec<Option<(u64, u64)>>;

/// A denied event: its slot, its number, and why.
pub type Denied = (u64, u64, DenialReason);

/// The run of a plan over some slots.
#[derive(Clone, Default)]
pub struct Run {
    pub rows: Vec<Places>,
    pub denials: Vec<Denied>,
    pub tasks: BTreeMap<u64, Task>,
    /// What the tasks inside ask of each slot, and what its processors in use have, in units.
    loads: Vec<(u64, u64)>,
    count: Option<u64>,
}

/// A plain desk.
pub struct PlainDesk {
    plan: Plan,
    run: Run,
    entries: u64,
}

fn slot_of(event: &Event) -> u64 {
    match *event {
        Event::Join { slot, .. }
        | Event::Leave { slot, .. }
        | Event::Delay { slot, .. }
        | Event::Limit { slot, .. } => slot,
        _ => unreachable!("another kind"),
    }
}

/// The place of an event in the order of its slot: limits, leaves, joins, delays; limits by number, the others by task.
fn place_of(id: u64, event: &Event) -> (u64, u64, u64) {
    match *event {
        Event::Limit { .. } => (0, 0, id),
        Event::Leave { task, .. } => (1, task, id),
        Event::Join { task, .. } => (2, task, id),
        Event::Delay { task, .. } => (3, task, id),
        _ => unreachable!("another kind"),
    }
}

impl Plan {
    /// Why a change is refused: the first in the order of the table of refusals.
    fn fault(&self, change: &Change) -> Option<Refusal> {
        let (event, replaced) = match change {
            Change::Insert(event) => (event, None),
            Change::Alter(id, _) | Change::Strike(id) if !self.events.contains_key(id) => {
                return Some(Refusal::EventNotFound);
            }
            Change::Alter(id, event) => (event, Some(*id)),
            Change::Strike(_) => return None,
            _ => unreachable!("another kind"),
        };
        self.event_fault(event, replaced).or_else(|| match replaced {
            None if self.events.len() >= 65_535 => Some(Refusal::TooManyEvents),
            None if self.next > 1_048_575 => Some(Refusal::NumbersSpent),
            _ => None,
        })
    }

    fn event_fault(&self, event: &Event, replaced: Option<u64>) -> Option<Refusal> {
        if slot_of(event) >= self.horizon {
            return Some(Refusal::SlotOutOfRange);
        }
        if let Event::Join { task, .. } | Event::Leave { task, .. } | Event::Delay { task, .. } = *event {
            if !(1..=4_095).contains(&task) {
                return Some(Refusal::TaskOutOfRange);
            }
        }
        let others = || self.events.iter().filter(|(id, _)| Some(**id) != replaced).map(|(_, event)| event);
        match *event {
            Event::Join { early, .. } if early > 1 << 20 => Some(Refusal::EarlyOutOfRange),
            Event::Delay { by, .. } if !(1..=1 << 20).contains(&by) => Some(Refusal::DelayOutOfRange),
            Event::Limit { count, .. } if !(1..=self.processors).contains(&count) => Some(Refusal::CountOutOfRange),
            Event::Join { cost, period, task, .. } => match self.weight_fault(cost, period) {
                Some(fault) => Some(Refusal::BadWeight(fault)),
                None => others()
                    .any(|it| matches!(*it, Event::Join { task: other, .. } if other == task))
                    .then_some(Refusal::JoinTwice),
            },
            Event::Leave { task, .. } => others()
                .any(|it| matches!(*it, Event::Leave { task: other, .. } if other == task))
                .then_some(Refusal::LeaveTwice),
            _ => None,
        }
    }

    fn units(&self, cost: u64, period: u64) -> u64 {
        cost * (self.base / period)
    }

    fn weight_fault(&self, cost: u64, period: u64) -> Option<WeightFault> {
        if cost == 0 {
            Some(WeightFault::ZeroCost)
        } else if cost > period {
            Some(WeightFault::CostAbovePeriod)
        } else if self.base % period != 0 {
            Some(WeightFault::PeriodNotInBase)
        } else {
            None
        }
    }

    /// The number of the event concerned, and the plan with the change.
    fn changed(&self, change: &Change) -> (u64, Plan) {
        let mut plan = self.clone();
        let id = match *change {
            Change::Insert(event) => {
                plan.next += 1;
                plan.events.insert(self.next, event);
                self.next
            }
            Change::Alter(id, event) => {
                plan.events.insert(id, event);
                id
            }
            Change::Strike(id) => {
                plan.events.remove(&id);
                id
            }
            _ => unreachable!("another kind"),
        };
        (id, plan)
    }

    fn run(&self, slots: u64) -> Run {
        let mut run = Run::default();
        for slot in 0..slots {
            run.step(self, slot);
        }
        run
    }
}

impl Run {
    fn step(&mut self, plan: &Plan, slot: u64) {
        let mut events: Vec<(u64, Event)> =
            plan.events.iter().filter(|(_, it)| slot_of(it) == slot).map(|(id, it)| (*id, *it)).collect();
        events.sort_by_key(|(id, event)| place_of(*id, event));
        for (id, event) in events {
            if let Err(reason) = self.take(plan, &event) {
                self.denials.push((slot, id, reason));
            }
        }
        let count = self.count.unwrap_or(plan.processors) as usize;
        self.loads.push((self.load(plan), plan.base * count as u64));
        let mut ready: Vec<u64> =
            self.tasks.iter().filter(|(_, it)| it.is_ready(slot)).map(|(number, _)| *number).collect();
        ready.sort_by_key(|number| self.tasks[number].key(*number));
        ready.truncate(count);
        self.place(plan, count, &ready);
        for number in ready {
            self.tasks.get_mut(&number).expect("it is ready").ran.push(slot);
        }
    }

    /// What the tasks inside ask of a slot.
    fn load(&self, plan: &Plan) -> u64 {
        self.tasks.values().filter(|it| it.is_inside()).map(|it| plan.units(it.cost, it.period)).sum()
    }

    /// Takes an event, or tells why it is denied.
    fn take(&mut self, plan: &Plan, event: &Event) -> Result<(), DenialReason> {
        match *event {
            Event::Limit { count, .. } => self.count = Some(count),
            Event::Join { slot, task, cost, period, early } => {
                if self.load(plan) + plan.units(cost, period) > plan.cap {
                    return Err(DenialReason::OverCapacity);
                }
                self.tasks.insert(task, Task::new(slot, cost, period, early));
            }
            Event::Leave { slot, task } => self.inside(task)?.leave(slot)?,
            Event::Delay { slot, task, by } => self.inside(task)?.delay(slot, by)?,
            _ => unreachable!("another kind"),
        }
        Ok(())
    }

    fn inside(&mut self, task: u64) -> Result<&mut Task, DenialReason> {
        self.tasks.get_mut(&task).filter(|it| it.is_inside()).ok_or(DenialReason::NotInside)
    }

    /// A task that ran in the slot before keeps its processor, where that is in use; the others take the lowest free ones.
    fn place(&mut self, plan: &Plan, count: usize, picks: &[u64]) {
        let mut row: Places = vec![None; plan.processors as usize];
        let before = self.rows.last().cloned().unwrap_or_default();
        let kept = |number: u64| before.iter().take(count).position(|it| it.is_some_and(|(task, _)| task == number));
        let quantum = |number: u64| Some((number, self.tasks[&number].ran.len() as u64 + 1));
        for number in picks {
            if let Some(processor) = kept(*number) {
                row[processor] = quantum(*number);
            }
        }
        for number in picks.iter().filter(|it| kept(**it).is_none()) {
            let free = row.iter().position(Option::is_none).expect("there are no more picks than processors");
            row[free] = quantum(*number);
        }
        self.rows.push(row);
    }
}

impl PlainDesk {
    pub fn open(processors: u64, base: u64, cap: u64) -> Self {
        let plan = Plan { processors, base, cap, horizon: 1 << 20, events: BTreeMap::new(), next: 1 };
        PlainDesk { plan, run: Run::default(), entries: 0 }
    }

    pub fn now(&self) -> u64 {
        self.run.rows.len() as u64
    }

    pub fn run(&self) -> &Run {
        &self.run
    }

    pub fn edit(&mut self, change: &Change, strict: bool) -> Result<u64, Refusal> {
        self.entries += 1;
        if let Some(fault) = self.plan.fault(change) {
            return Err(fault);
        }
        let (id, plan) = self.plan.changed(change);
        let run = plan.run(self.now());
        if let (true, Some((_, event, reason))) = (strict, run.denials.first()) {
            return Err(Refusal::WouldDeny { event: *event, reason: *reason });
        }
        (self.plan, self.run) = (plan, run);
        Ok(id)
    }

    pub fn step(&mut self) {
        self.entries += 1;
        self.run.step(&self.plan, self.now());
    }
}
