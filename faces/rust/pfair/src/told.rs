use crate::DenialReason;
use pfair_sys::raw::{pfair_denial, pfair_fit, pfair_lag, pfair_miss, pfair_task_figures};

/// How far a task is from its fair share.
#[derive(Clone, Copy, Debug, PartialEq, Eq, Hash)]
pub struct Lag {
    /// The task's number.
    pub task: u64,
    /// In quanta.
    pub cost: u64,
    /// In slots.
    pub period: u64,
    /// In quanta.
    pub received: u64,
    /// The lag times the period; above 0 the task is behind its share.
    pub scaled: i64,
}

/// A missed window: the subtask did not run before its deadline.
#[derive(Clone, Copy, Debug, PartialEq, Eq, Hash)]
pub struct Miss {
    /// The task's number.
    pub task: u64,
    /// The subtask's number.
    pub sub: u64,
    /// In slots.
    pub deadline: u64,
    /// The slot in which it ran late, if it did.
    pub ran: Option<u64>,
}

/// An event of the plan that has no effect, since a rule of admission fails in its slot.
#[derive(Clone, Copy, Debug, PartialEq, Eq, Hash)]
pub struct Denial {
    /// In slots.
    pub slot: u64,
    /// The event's number.
    pub event: u64,
    /// Why.
    pub reason: DenialReason,
}

/// What every simulator tells of a task.
#[derive(Clone, Copy, Debug, PartialEq, Eq, Hash)]
pub struct Figures {
    /// The task's number.
    pub task: u64,
    /// In quanta.
    pub cost: u64,
    /// In slots.
    pub period: u64,
    /// The quanta that it received.
    pub quanta: u64,
    /// Quanta on another processor than the quantum before.
    pub migrations: u64,
    /// Quanta after a pause inside a job.
    pub preemptions: u64,
    /// The jobs that were done, of `cost` quanta each.
    pub jobs: u64,
    /// The least and the greatest response of a job, from its release, in slots; `None` where no job was done.
    pub response: Option<(i64, i64)>,
    /// The missed windows.
    pub missed: u64,
    /// The most slots by which a missed subtask ran late.
    pub tardiness: u64,
    /// The least and the greatest lag times the period, while the task was inside.
    pub scaled: (i64, i64),
}

/// Whether the loads of the slots stepped were within the processors in use.
#[derive(Clone, Copy, Debug, PartialEq, Eq, Hash)]
pub struct Fit {
    /// The first slot whose load was above the processors in use. `None` where there was none: then no window was missed.
    pub first: Option<u64>,
    /// The loads above them of all slots together, in 1/base. The base times a task's tardiness is at most that.
    pub overload: u128,
}

impl From<pfair_fit> for Fit {
    fn from(raw: pfair_fit) -> Self {
        let first = (raw.first != u64::MAX).then_some(raw.first);
        Fit { first, overload: u128::from(raw.overload_high) << 64 | u128::from(raw.overload_low) }
    }
}

impl From<pfair_task_figures> for Figures {
    fn from(raw: pfair_task_figures) -> Self {
        Figures {
            task: raw.task,
            cost: raw.cost,
            period: raw.period,
            quanta: raw.quanta,
            migrations: raw.migrations,
            preemptions: raw.preemptions,
            jobs: raw.jobs,
            response: (raw.jobs != 0).then_some((raw.response_least, raw.response_greatest)),
            missed: raw.missed,
            tardiness: raw.tardiness,
            scaled: (raw.scaled_least, raw.scaled_greatest),
        }
    }
}

impl From<pfair_lag> for Lag {
    fn from(raw: pfair_lag) -> Self {
        let pfair_lag { task, cost, period, received, scaled } = raw;
        Lag { task, cost, period, received, scaled }
    }
}

impl From<pfair_miss> for Miss {
    fn from(raw: pfair_miss) -> Self {
        let ran = (raw.ran != u64::MAX).then_some(raw.ran);
        Miss { task: raw.task, sub: raw.sub, deadline: raw.deadline, ran }
    }
}

impl From<pfair_denial> for Denial {
    fn from(raw: pfair_denial) -> Self {
        Denial { slot: raw.slot, event: raw.event, reason: DenialReason::numbered(raw.reason) }
    }
}
