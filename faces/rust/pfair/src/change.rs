use crate::ParseError;
use pfair_sys as sys;
use pfair_sys::raw::{pfair_change, pfair_event};
use std::fmt;
use std::str::FromStr;

/// Something that happens in a slot of the plan. As a text it is the record of a script of version 2.
///
/// ```
/// # use pfair::Event;
/// let join: Event = "join,0,7,2,3,0".parse()?;
/// assert_eq!(join, Event::join(0, 7, 2, 3));
/// assert_eq!(join.to_string(), "join,0,7,2,3,0");
/// let fault = "join,0,camera,2,3,0".parse::<Event>().unwrap_err();
/// assert_eq!(fault.to_string(), "\"join,0,camera,2,3,0\" is no event");
/// # Ok::<(), pfair::ParseError>(())
/// ```
#[derive(Clone, Copy, Debug, PartialEq, Eq, Hash)]
#[non_exhaustive]
pub enum Event {
    /// The task joins with the weight cost/period. A subtask may run up to `early` slots before its release.
    Join {
        /// In slots.
        slot: u64,
        /// 1 to 4,095.
        task: u64,
        /// In quanta, 1 to the period.
        cost: u64,
        /// In slots; it divides the base.
        period: u64,
        /// In slots, 0 to 2^20.
        early: u64,
    },
    /// The task leaves.
    Leave {
        /// In slots.
        slot: u64,
        /// 1 to 4,095.
        task: u64,
    },
    /// The task's subtasks that did not run are held back.
    Delay {
        /// In slots.
        slot: u64,
        /// 1 to 4,095.
        task: u64,
        /// In slots, 1 to 2^20.
        by: u64,
    },
    /// From the slot on the processors below `count` are in use, until the next limit.
    Limit {
        /// In slots.
        slot: u64,
        /// 1 to the number of processors.
        count: u64,
    },
}

impl Event {
    /// A join of a task that does not run before its releases.
    pub const fn join(slot: u64, task: u64, cost: u64, period: u64) -> Self {
        Event::Join { slot, task, cost, period, early: 0 }
    }

    pub(crate) fn of_raw(raw: pfair_event) -> Self {
        let pfair_event { kind, slot, task, cost, period, early, by, count } = raw;
        match u32::try_from(kind) {
            Ok(sys::PFAIR_LIMIT) => Event::Limit { slot, count },
            Ok(sys::PFAIR_LEAVE) => Event::Leave { slot, task },
            Ok(sys::PFAIR_JOIN) => Event::Join { slot, task, cost, period, early },
            Ok(sys::PFAIR_DELAY) => Event::Delay { slot, task, by },
            _ => unreachable!("the library of another version gave an event of the kind {kind}"),
        }
    }

    pub(crate) fn to_raw(self) -> pfair_event {
        let none = pfair_event::default();
        match self {
            Event::Limit { slot, count } => pfair_event { kind: sys::PFAIR_LIMIT.into(), slot, count, ..none },
            Event::Leave { slot, task } => pfair_event { kind: sys::PFAIR_LEAVE.into(), slot, task, ..none },
            Event::Join { slot, task, cost, period, early } => {
                pfair_event { kind: sys::PFAIR_JOIN.into(), slot, task, cost, period, early, ..none }
            }
            Event::Delay { slot, task, by } => pfair_event { kind: sys::PFAIR_DELAY.into(), slot, task, by, ..none },
        }
    }
}

/// A change of the plan. As a text it is the record of a script of version 2: an insert is the event alone, and the others are
/// `alter,3,leave,5,7` and `strike,3`.
#[derive(Clone, Copy, Debug, PartialEq, Eq, Hash)]
#[non_exhaustive]
pub enum Change {
    /// A new event, which gets the next number.
    Insert(Event),
    /// The event takes the place of the one of this number.
    Alter(u64, Event),
    /// The event of this number is taken out.
    Strike(u64),
}

impl Change {
    pub(crate) fn to_raw(self) -> pfair_change {
        let none = pfair_event::default();
        match self {
            Change::Insert(event) => pfair_change { kind: sys::PFAIR_INSERT.into(), id: 0, event: event.to_raw() },
            Change::Alter(id, event) => pfair_change { kind: sys::PFAIR_ALTER.into(), id, event: event.to_raw() },
            Change::Strike(id) => pfair_change { kind: sys::PFAIR_STRIKE.into(), id, event: none },
        }
    }
}

/// Digits alone, of a number of 64 bits.
fn number(field: &str) -> Option<u64> {
    if field.bytes().all(|it| it.is_ascii_digit()) {
        field.parse().ok()
    } else {
        None
    }
}

/// The event of a record's fields.
fn event_of(kind: &str, numbers: &[u64]) -> Option<Event> {
    match (kind, numbers) {
        ("join", &[slot, task, cost, period, early]) => Some(Event::Join { slot, task, cost, period, early }),
        ("leave", &[slot, task]) => Some(Event::Leave { slot, task }),
        ("delay", &[slot, task, by]) => Some(Event::Delay { slot, task, by }),
        ("limit", &[slot, count]) => Some(Event::Limit { slot, count }),
        _ => None,
    }
}

fn event_in(record: &str) -> Option<Event> {
    let mut fields = record.split(',');
    let kind = fields.next()?;
    event_of(kind, &fields.map(number).collect::<Option<Vec<u64>>>()?)
}

fn change_in(record: &str) -> Option<Change> {
    if let Some(id) = record.strip_prefix("strike,") {
        return number(id).map(Change::Strike);
    }
    let Some(altered) = record.strip_prefix("alter,") else {
        return event_in(record).map(Change::Insert);
    };
    let (id, event) = altered.split_once(',')?;
    Some(Change::Alter(number(id)?, event_in(event)?))
}

impl FromStr for Event {
    type Err = ParseError;

    fn from_str(record: &str) -> Result<Self, ParseError> {
        event_in(record).ok_or_else(|| ParseError::new(record, "event"))
    }
}

impl FromStr for Change {
    type Err = ParseError;

    fn from_str(record: &str) -> Result<Self, ParseError> {
        change_in(record).ok_or_else(|| ParseError::new(record, "change"))
    }
}

impl fmt::Display for Event {
    fn fmt(&self, f: &mut fmt::Formatter<'_>) -> fmt::Result {
        match self {
            Event::Join { slot, task, cost, period, early } => write!(f, "join,{slot},{task},{cost},{period},{early}"),
            Event::Leave { slot, task } => write!(f, "leave,{slot},{task}"),
            Event::Delay { slot, task, by } => write!(f, "delay,{slot},{task},{by}"),
            Event::Limit { slot, count } => write!(f, "limit,{slot},{count}"),
        }
    }
}

impl fmt::Display for Change {
    fn fmt(&self, f: &mut fmt::Formatter<'_>) -> fmt::Result {
        match self {
            Change::Insert(event) => write!(f, "{event}"),
            Change::Alter(id, event) => write!(f, "alter,{id},{event}"),
            Change::Strike(id) => write!(f, "strike,{id}"),
        }
    }
}
