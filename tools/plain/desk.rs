use crate::plan::{Plan, Settings};
use crate::run::{Pick, Run};
use crate::words::{Change, Refusal};

/// A plan and its run. After a change of the past the run is made anew from slot 0, once something asks for it.
pub struct Desk {
    plan: Plan,
    run: Run,
    now: u64,
}

impl Desk {
    pub fn new(settings: Settings) -> Self {
        Desk { plan: Plan::new(settings), run: Run::new(), now: 0 }
    }

    /// Makes a change: the number of the event concerned.
    pub fn edit(&mut self, change: &Change, is_strict: bool) -> Result<u64, Refusal> {
        if let Some(fault) = self.plan.fault(change) {
            return Err(fault);
        }
        let (id, before, first) = self.plan.make(change);
        if first < self.run.now {
            self.run = Run::new();
        }
        if is_strict {
            if let Some((_, event, reason)) = self.run().denials.first().copied() {
                self.plan.take_back(change, id, before);
                if first < self.now {
                    self.run = Run::new();
                }
                return Err(Refusal::WouldDeny { event, reason });
            }
        }
        Ok(id)
    }

    /// Takes the next slot: its number and its row.
    pub fn step(&mut self) -> Result<(u64, &[Pick]), Refusal> {
        let slot = self.now;
        if slot >= self.plan.settings.horizon {
            return Err(Refusal::AtHorizon);
        }
        self.now += 1;
        let processors = self.plan.settings.processors as usize;
        let picks = &self.run().picks;
        Ok((slot, &picks[picks.len() - processors..]))
    }

    /// The run of the plan over the slots so far.
    pub fn run(&mut self) -> &Run {
        while self.run.now < self.now {
            self.run.step(&self.plan);
        }
        &self.run
    }
}
