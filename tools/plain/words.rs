//! What is planned and why it is refused, by the names that the library's crate has for them.

/// Something that happens in a slot.
#[derive(Clone, Copy)]
pub enum Event {
    Join { slot: u64, task: u64, cost: u64, period: u64, early: u64 },
    Leave { slot: u64, task: u64 },
    Delay { slot: u64, task: u64, by: u64 },
    Limit { slot: u64, count: u64 },
}

/// A change of the plan.
#[derive(Clone, Copy)]
pub enum Change {
    Insert(Event),
    Alter(u64, Event),
    Strike(u64),
}

#[derive(Clone, Copy)]
pub enum DenialReason {
    OverCapacity,
    NotInside,
    TooEarly,
    Released,
}

#[derive(Clone, Copy)]
pub enum WeightFault {
    ZeroCost,
    CostAbovePeriod,
    PeriodNotInBase,
}

#[derive(Clone, Copy)]
pub enum Refusal {
    EventNotFound,
    SlotOutOfRange,
    TaskOutOfRange,
    EarlyOutOfRange,
    DelayOutOfRange,
    CountOutOfRange,
    BadWeight(WeightFault),
    JoinTwice,
    LeaveTwice,
    TooManyEvents,
    NumbersSpent,
    AtHorizon,
    WouldDeny { event: u64, reason: DenialReason },
}

impl Event {
    pub fn slot(&self) -> u64 {
        match *self {
            Event::Join { slot, .. }
            | Event::Leave { slot, .. }
            | Event::Delay { slot, .. }
            | Event::Limit { slot, .. } => slot,
        }
    }

    /// Its task; a limit has none.
    pub fn task(&self) -> Option<u64> {
        match *self {
            Event::Join { task, .. } | Event::Leave { task, .. } | Event::Delay { task, .. } => Some(task),
            Event::Limit { .. } => None,
        }
    }

    /// Its place among the kinds of a slot: limits, leaves, joins, delays.
    pub fn kind(&self) -> u64 {
        match self {
            Event::Limit { .. } => 0,
            Event::Leave { .. } => 1,
            Event::Join { .. } => 2,
            Event::Delay { .. } => 3,
        }
    }
}
