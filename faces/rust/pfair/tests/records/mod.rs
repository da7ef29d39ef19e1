//! Changes as records of a script, and replies as their lines, as docs/SCRIPTS.md and docs/COMMANDS.md have them.

use pfair::{Change, DenialReason, Event, Refusal, WeightFault};

fn event_record(event: &Event) -> String {
    match event {
        Event::Join { slot, task, cost, period, early } => format!("join,{slot},{task},{cost},{period},{early}"),
        Event::Leave { slot, task } => format!("leave,{slot},{task}"),
        Event::Delay { slot, task, by } => format!("delay,{slot},{task},{by}"),
        Event::Limit { slot, count } => format!("limit,{slot},{count}"),
        _ => unreachable!("another kind"),
    }
}

/// The record of a change, with its end of line.
pub fn record(change: &Change, strict: bool) -> String {
    let change = match change {
        Change::Insert(event) => event_record(event),
        Change::Alter(id, event) => format!("alter,{id},{}", event_record(event)),
        Change::Strike(id) => format!("strike,{id}"),
        _ => unreachable!("another kind"),
    };
    format!("{}{change}\n", if strict { "strict," } else { "" })
}

/// The number and the name of a reason.
pub fn denial(reason: DenialReason) -> &'static str {
    match reason {
        DenialReason::OverCapacity => "20 OverCapacity",
        DenialReason::NotInside => "21 NotInside",
        DenialReason::TooEarly => "22 TooEarly",
        DenialReason::Released => "23 Released",
        _ => unreachable!("another kind"),
    }
}

fn refusal_text(refusal: Refusal) -> String {
    let text = match refusal {
        Refusal::EventNotFound => "10 EventNotFound",
        Refusal::SlotOutOfRange => "11 SlotOutOfRange",
        Refusal::TaskOutOfRange => "12 TaskOutOfRange",
        Refusal::EarlyOutOfRange => "13 EarlyOutOfRange",
        Refusal::DelayOutOfRange => "14 DelayOutOfRange",
        Refusal::BadWeight(WeightFault::ZeroCost) => "15 BadWeight 2",
        Refusal::BadWeight(WeightFault::CostAbovePeriod) => "15 BadWeight 3",
        Refusal::BadWeight(WeightFault::PeriodNotInBase) => "15 BadWeight 4",
        Refusal::JoinTwice => "16 JoinTwice",
        Refusal::LeaveTwice => "17 LeaveTwice",
        Refusal::TooManyEvents => "18 TooManyEvents",
        Refusal::NumbersSpent => "19 NumbersSpent",
        Refusal::CountOutOfRange => "24 CountOutOfRange",
        Refusal::AtHorizon => "30 AtHorizon",
        Refusal::WouldDeny { event, reason } => return format!("31 WouldDeny {event} {}", denial(reason)),
        _ => unreachable!("another kind"),
    };
    text.to_string()
}

/// The line of the reply to a change.
pub fn reply_line(reply: Result<u64, Refusal>) -> String {
    match reply {
        Ok(event) => format!("event {event}\n"),
        Err(refusal) => format!("refused {}\n", refusal_text(refusal)),
    }
}

/// The line of the reply to a step, by processor.
pub fn slot_line(slot: u64, row: &[Option<(u64, u64)>]) -> String {
    let place = |it: &Option<(u64, u64)>| it.map_or(" -".to_string(), |(task, sub)| format!(" {task}/{sub}"));
    format!("slot {slot}:{}\n", row.iter().map(place).collect::<String>())
}
