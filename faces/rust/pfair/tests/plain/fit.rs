use super::{PlainDesk, Task};
use pfair::{Event, Fit};

impl PlainDesk {
    /// Slot by slot, what was asked for above the units of the processors in use.
    pub fn fit(&self) -> Fit {
        let loads = &self.run.loads;
        let first = loads.iter().position(|(load, room)| load > room).map(|slot| slot as u64);
        Fit { first, overload: loads.iter().map(|(load, room)| u128::from(load.saturating_sub(*room))).sum() }
    }

    /// Whether the processors carry the cap, and with each limit held those that it leaves in use do.
    pub fn carries_the_cap(&self) -> bool {
        let carries = |count: u64| self.plan.cap <= self.plan.base * count;
        let mut limits = self.plan.events.values().filter_map(|it| match it {
            Event::Limit { count, .. } => Some(*count),
            _ => None,
        });
        carries(self.plan.processors) && limits.all(carries)
    }

    /// Of each task admitted, the most slots by which a subtask ran behind the last slot of its window.
    pub fn tardiness(&self) -> Vec<(u64, u64)> {
        let now = self.now();
        let late = |(_, deadline, ran): (u64, u64, Option<u64>)| ran.map_or(0, |slot| slot + 1 - deadline);
        let most = |it: &Task| it.misses(now).into_iter().map(late).max().unwrap_or(0);
        self.run.tasks.iter().map(|(task, it)| (*task, most(it))).collect()
    }
}
