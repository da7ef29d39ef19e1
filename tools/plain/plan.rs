use crate::words::{Change, Event, Refusal, WeightFault};
use std::collections::{BTreeMap, BTreeSet};

const MOST_EVENTS: usize = 65_535;
const LAST_NUMBER: u64 = 1_048_575;
const LONGEST: u64 = 1 << 20;

#[derive(Clone, Copy)]
pub struct Settings {
    pub processors: u64,
    pub base: u64,
    pub cap: u64,
    pub horizon: u64,
}

/// Where an event stands in the run order: its slot, its kind, its task and its number.
type Place = (u64, u64, u64, u64);

fn place_of(id: u64, event: &Event) -> Place {
    (event.slot(), event.kind(), event.task().unwrap_or(0), id)
}

/// The events held, by number and in the run order.
pub struct Plan {
    pub settings: Settings,
    events: BTreeMap<u64, Event>,
    order: BTreeSet<Place>,
    joins: BTreeMap<u64, u64>,
    leaves: BTreeMap<u64, u64>,
    next: u64,
}

impl Plan {
    pub fn new(settings: Settings) -> Self {
        let (joins, leaves) = (BTreeMap::new(), BTreeMap::new());
        Plan { settings, events: BTreeMap::new(), order: BTreeSet::new(), joins, leaves, next: 1 }
    }

    /// The units of a weight, counted in parts of the base.
    pub fn units(&self, cost: u64, period: u64) -> u64 {
        cost * (self.settings.base / period)
    }

    /// The events of a slot in the run order.
    pub fn of_slot(&self, slot: u64) -> impl Iterator<Item = (u64, Event)> + '_ {
        self.order.range((slot, 0, 0, 0)..(slot + 1, 0, 0, 0)).map(|(.., id)| (*id, self.events[id]))
    }

    /// Why a change is refused: the first in the order of the table of refusals.
    pub fn fault(&self, change: &Change) -> Option<Refusal> {
        match change {
            Change::Alter(id, _) | Change::Strike(id) if !self.events.contains_key(id) => Some(Refusal::EventNotFound),
            Change::Strike(_) => None,
            Change::Alter(id, event) => self.event_fault(event, Some(*id)),
            Change::Insert(event) => self.event_fault(event, None).or_else(|| match self.next {
                _ if self.events.len() >= MOST_EVENTS => Some(Refusal::TooManyEvents),
                next if next > LAST_NUMBER => Some(Refusal::NumbersSpent),
                _ => None,
            }),
        }
    }

    fn event_fault(&self, event: &Event, replaced: Option<u64>) -> Option<Refusal> {
        let is_taken = |by: &BTreeMap<u64, u64>, task| by.get(task).is_some_and(|id| Some(*id) != replaced);
        match event {
            it if it.slot() >= self.settings.horizon => Some(Refusal::SlotOutOfRange),
            it if it.task().is_some_and(|task| !(1..=4_095).contains(&task)) => Some(Refusal::TaskOutOfRange),
            Event::Join { early, .. } if *early > LONGEST => Some(Refusal::EarlyOutOfRange),
            Event::Delay { by, .. } if !(1..=LONGEST).contains(by) => Some(Refusal::DelayOutOfRange),
            Event::Limit { count, .. } if !(1..=self.settings.processors).contains(count) => {
                Some(Refusal::CountOutOfRange)
            }
            Event::Join { task, cost, period, .. } => match self.weight_fault(*cost, *period) {
                Some(fault) => Some(Refusal::BadWeight(fault)),
                None => is_taken(&self.joins, task).then_some(Refusal::JoinTwice),
            },
            Event::Leave { task, .. } => is_taken(&self.leaves, task).then_some(Refusal::LeaveTwice),
            _ => None,
        }
    }

    fn weight_fault(&self, cost: u64, period: u64) -> Option<WeightFault> {
        match cost {
            0 => Some(WeightFault::ZeroCost),
            _ if cost > period => Some(WeightFault::CostAbovePeriod),
            _ if self.settings.base % period != 0 => Some(WeightFault::PeriodNotInBase),
            _ => None,
        }
    }

    /// Makes a change that has no fault: the number concerned, the event that it had, and the first slot that may change.
    pub fn make(&mut self, change: &Change) -> (u64, Option<Event>, u64) {
        let (id, event) = match *change {
            Change::Insert(event) => {
                self.next += 1;
                (self.next - 1, Some(event))
            }
            Change::Alter(id, event) => (id, Some(event)),
            Change::Strike(id) => (id, None),
        };
        let before = self.put(id, event);
        let slots = before.iter().chain(&event).map(Event::slot);
        (id, before, slots.min().expect("one of them is held"))
    }

    /// Takes back the change that was made last.
    pub fn take_back(&mut self, change: &Change, id: u64, before: Option<Event>) {
        self.put(id, before);
        if let Change::Insert(_) = change {
            self.next -= 1;
        }
    }

    /// From now on the number has this event. The answer is the one that it had.
    fn put(&mut self, id: u64, event: Option<Event>) -> Option<Event> {
        let before = self.events.remove(&id);
        if let Some(event) = &before {
            self.order.remove(&place_of(id, event));
            self.tasks_of(event).map(|(tasks, task)| tasks.remove(&task));
        }
        if let Some(event) = event {
            self.order.insert(place_of(id, &event));
            self.tasks_of(&event).map(|(tasks, task)| tasks.insert(task, id));
            self.events.insert(id, event);
        }
        before
    }

    /// The table of tasks in which such an event stands, and its task.
    fn tasks_of(&mut self, event: &Event) -> Option<(&mut BTreeMap<u64, u64>, u64)> {
        match *event {
            Event::Join { task, .. } => Some((&mut self.joins, task)),
            Event::Leave { task, .. } => Some((&mut self.leaves, task)),
            _ => None,
        }
    }
}
