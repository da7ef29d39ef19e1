use crate::library::sentence;
use pfair_sys as sys;
use pfair_sys::raw::{pfair_bad_record, pfair_reply};
use std::fmt;

/// Why a call gave nothing.
#[derive(Clone, Debug, PartialEq, Eq, Hash)]
#[non_exhaustive]
pub enum Error {
    /// A number of the settings is out of its limits.
    BadSettings,
    /// Memory was refused: the desk is as before the call.
    NoMemory,
    /// A slot that was not stepped, or slots or a look that cannot be shown.
    OutOfRange,
    /// The desk refused the command: nothing changed but its history.
    Refused(Refusal),
    /// A record is none of a script's.
    BadRecord(BadRecord),
    /// Another caller is at the shared desk, or there is nothing to read just now: nothing was done, and one may try again.
    Busy,
    /// A quantum was not taken yet, so no step was taken: this is the lowest processor on which one lies.
    Pending {
        /// The processor.
        processor: u32,
    },
    /// The slot is not stepped yet: nothing was taken.
    NotYet,
    /// Each caller, or each reader, of the shared desk was opened.
    NoPlace,
}

/// A record that is none of a script's: where it is, counted from 1, and why.
#[derive(Clone, Debug, PartialEq, Eq, Hash)]
pub struct BadRecord {
    /// Its number.
    pub number: u64,
    /// The line on which it begins.
    pub line: u64,
    /// Its field at fault; the first one names the record.
    pub field: u64,
    /// The line that the program's `check` writes of it.
    pub text: String,
}

/// Why the desk refused a command.
#[derive(Clone, Copy, Debug, PartialEq, Eq, Hash)]
#[non_exhaustive]
pub enum Refusal {
    /// No event has this number.
    EventNotFound,
    /// The slot is not below the horizon.
    SlotOutOfRange,
    /// The task is not 1 to 4,095.
    TaskOutOfRange,
    /// A join with early above 2^20.
    EarlyOutOfRange,
    /// A delay that is not by 1 to 2^20 slots.
    DelayOutOfRange,
    /// A limit whose count is not 1 to the number of processors.
    CountOutOfRange,
    /// A join whose cost and period are no weight.
    BadWeight(WeightFault),
    /// Another event joins the task.
    JoinTwice,
    /// Another event leaves the task.
    LeaveTwice,
    /// 65,535 events are held.
    TooManyEvents,
    /// The event number 1,048,575 was given.
    NumbersSpent,
    /// A step with no slot left.
    AtHorizon,
    /// A strict change would leave a denial: the first one.
    WouldDeny {
        /// The number of the event that would be denied.
        event: u64,
        /// Why.
        reason: DenialReason,
    },
}

/// An enum whose values are numbers of the header.
macro_rules! numbered {
    ($(#[$about:meta])* $name:ident { $($(#[$meaning:meta])* $value:ident = $number:ident,)* }) => {
        $(#[$about])*
        #[derive(Clone, Copy, Debug, PartialEq, Eq, Hash)]
        #[non_exhaustive]
        #[repr(u32)]
        pub enum $name {
            $($(#[$meaning])* $value = sys::$number,)*
        }

        impl $name {
            /// Its number in the table of refusals.
            pub const fn number(self) -> u32 {
                self as u32
            }

            pub(crate) fn numbered(number: u64) -> Self {
                match u32::try_from(number) {
                    $(Ok(sys::$number) => $name::$value,)*
                    _ => impossible(number),
                }
            }
        }

        impl fmt::Display for $name {
            fn fmt(&self, f: &mut fmt::Formatter<'_>) -> fmt::Result {
                f.write_str(&sentence(self.number()).expect("it has a number"))
            }
        }
    };
}

numbered! {
    /// Why cost and period are no weight.
    WeightFault {
        /// The cost is 0.
        ZeroCost = PFAIR_ZERO_COST,
        /// The cost is above the period.
        CostAbovePeriod = PFAIR_COST_ABOVE_PERIOD,
        /// The period does not divide the base.
        PeriodNotInBase = PFAIR_PERIOD_NOT_IN_BASE,
    }
}

numbered! {
    /// Why an event of the plan is denied in a run.
    DenialReason {
        /// The load would be above the cap.
        OverCapacity = PFAIR_OVER_CAPACITY,
        /// The task is not inside.
        NotInside = PFAIR_NOT_INSIDE,
        /// The task leaves before its share is free.
        TooEarly = PFAIR_TOO_EARLY,
        /// The subtask was released already.
        Released = PFAIR_RELEASED,
    }
}

/// A number that no call of the library gives here, as it is proved.
fn impossible(number: u64) -> ! {
    unreachable!("the library of another version gave {number}")
}

impl Refusal {
    /// Its number in the table of refusals.
    pub const fn number(self) -> u32 {
        match self {
            Refusal::EventNotFound => sys::PFAIR_EVENT_NOT_FOUND,
            Refusal::SlotOutOfRange => sys::PFAIR_SLOT_OUT_OF_RANGE,
            Refusal::TaskOutOfRange => sys::PFAIR_TASK_OUT_OF_RANGE,
            Refusal::EarlyOutOfRange => sys::PFAIR_EARLY_OUT_OF_RANGE,
            Refusal::DelayOutOfRange => sys::PFAIR_DELAY_OUT_OF_RANGE,
            Refusal::CountOutOfRange => sys::PFAIR_COUNT_OUT_OF_RANGE,
            Refusal::BadWeight(_) => sys::PFAIR_BAD_WEIGHT,
            Refusal::JoinTwice => sys::PFAIR_JOIN_TWICE,
            Refusal::LeaveTwice => sys::PFAIR_LEAVE_TWICE,
            Refusal::TooManyEvents => sys::PFAIR_TOO_MANY_EVENTS,
            Refusal::NumbersSpent => sys::PFAIR_NUMBERS_SPENT,
            Refusal::AtHorizon => sys::PFAIR_AT_HORIZON,
            Refusal::WouldDeny { .. } => sys::PFAIR_WOULD_DENY,
        }
    }

    fn of(status: u32, reply: pfair_reply) -> Self {
        match status {
            sys::PFAIR_EVENT_NOT_FOUND => Refusal::EventNotFound,
            sys::PFAIR_SLOT_OUT_OF_RANGE => Refusal::SlotOutOfRange,
            sys::PFAIR_TASK_OUT_OF_RANGE => Refusal::TaskOutOfRange,
            sys::PFAIR_EARLY_OUT_OF_RANGE => Refusal::EarlyOutOfRange,
            sys::PFAIR_DELAY_OUT_OF_RANGE => Refusal::DelayOutOfRange,
            sys::PFAIR_COUNT_OUT_OF_RANGE => Refusal::CountOutOfRange,
            sys::PFAIR_BAD_WEIGHT => Refusal::BadWeight(WeightFault::numbered(reply.reason)),
            sys::PFAIR_JOIN_TWICE => Refusal::JoinTwice,
            sys::PFAIR_LEAVE_TWICE => Refusal::LeaveTwice,
            sys::PFAIR_TOO_MANY_EVENTS => Refusal::TooManyEvents,
            sys::PFAIR_NUMBERS_SPENT => Refusal::NumbersSpent,
            sys::PFAIR_AT_HORIZON => Refusal::AtHorizon,
            sys::PFAIR_WOULD_DENY => {
                Refusal::WouldDeny { event: reply.event, reason: DenialReason::numbered(reply.reason) }
            }
            other => impossible(other.into()),
        }
    }
}

/// What a status says of a call at an open desk.
pub(crate) fn answer(status: u32, reply: pfair_reply) -> Result<(), Error> {
    match status {
        sys::PFAIR_OK => Ok(()),
        sys::PFAIR_BAD_SETTINGS => Err(Error::BadSettings),
        sys::PFAIR_NO_MEMORY => Err(Error::NoMemory),
        sys::PFAIR_OUT_OF_RANGE => Err(Error::OutOfRange),
        sys::PFAIR_BUSY => Err(Error::Busy),
        sys::PFAIR_NOT_YET => Err(Error::NotYet),
        sys::PFAIR_NO_PLACE => Err(Error::NoPlace),
        refusal => Err(Error::Refused(Refusal::of(refusal, reply))),
    }
}

/// What a status says of records with these faults.
pub(crate) fn answer_records(
    status: u32,
    bad: pfair_bad_record,
    faults: impl FnOnce() -> Result<Vec<String>, Error>,
) -> Result<(), Error> {
    match status {
        sys::PFAIR_BAD_RECORD => {
            let pfair_bad_record { number, line, field } = bad;
            let text = faults()?.swap_remove(0);
            Err(Error::BadRecord(BadRecord { number, line, field, text }))
        }
        status => answer(status, pfair_reply::default()),
    }
}

impl fmt::Display for Error {
    fn fmt(&self, f: &mut fmt::Formatter<'_>) -> fmt::Result {
        let status = match self {
            Error::BadSettings => sys::PFAIR_BAD_SETTINGS,
            Error::NoMemory => sys::PFAIR_NO_MEMORY,
            Error::OutOfRange => sys::PFAIR_OUT_OF_RANGE,
            Error::Busy => sys::PFAIR_BUSY,
            Error::Pending { .. } => sys::PFAIR_PENDING,
            Error::NotYet => sys::PFAIR_NOT_YET,
            Error::NoPlace => sys::PFAIR_NO_PLACE,
            Error::Refused(refusal) => return write!(f, "refused: {refusal}"),
            Error::BadRecord(bad) => return write!(f, "{bad}"),
        };
        f.write_str(&sentence(status).expect("it is a status"))
    }
}

impl fmt::Display for BadRecord {
    fn fmt(&self, f: &mut fmt::Formatter<'_>) -> fmt::Result {
        f.write_str(&self.text)
    }
}

impl fmt::Display for Refusal {
    fn fmt(&self, f: &mut fmt::Formatter<'_>) -> fmt::Result {
        match self {
            Refusal::BadWeight(fault) => write!(f, "{fault}"),
            Refusal::WouldDeny { event, reason } => write!(f, "event {event} would be denied: {reason}"),
            refusal => f.write_str(&sentence(refusal.number()).expect("it has a number")),
        }
    }
}

impl std::error::Error for Error {}
