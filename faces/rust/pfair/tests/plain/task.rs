use pfair::DenialReason;
use std::cmp::Reverse;

/// A delay that was not denied: it holds back the subtasks from this one on, and stops the clock from a slot on.
#[derive(Clone)]
struct HoldBack {
    from: u64,
    by: u64,
    stopped: u64,
}

/// A task that was admitted, and what became of it.
#[derive(Clone)]
pub struct Task {
    pub joined: u64,
    pub cost: u64,
    pub period: u64,
    early: u64,
    pub left: Option<u64>,
    /// The slots in which its subtasks ran, in their order.
    pub ran: Vec<u64>,
    delays: Vec<HoldBack>,
}

/// What orders subtasks: earlier deadlines, then bit 1, then of these later group deadlines, then lower tasks.
pub type Key = (u64, Reverse<u64>, Reverse<u64>, u64);

impl Task {
    pub fn new(joined: u64, cost: u64, period: u64, early: u64) -> Self {
        Task { joined, cost, period, early, left: None, ran: Vec::new(), delays: Vec::new() }
    }

    pub fn is_inside(&self) -> bool {
        self.left.is_none()
    }

    fn next(&self) -> u64 {
        self.ran.len() as u64 + 1
    }

    fn shift(&self, sub: u64) -> u64 {
        self.joined + self.delays.iter().filter(|it| it.from <= sub).map(|it| it.by).sum::<u64>()
    }

    fn release(&self, sub: u64) -> u64 {
        self.shift(sub) + (sub - 1) * self.period / self.cost
    }

    pub fn deadline(&self, sub: u64) -> u64 {
        self.shift(sub) + (sub * self.period).div_ceil(self.cost)
    }

    /// 1 where the window shares a slot with the next one.
    fn bit(&self, sub: u64) -> u64 {
        u64::from(sub * self.period % self.cost != 0)
    }

    fn is_heavy(&self) -> bool {
        2 * self.cost >= self.period
    }

    /// The first time at or after the deadline at which a window ends with bit 0, or the middle of a window of three slots
    /// ends; of a light task 0.
    fn group(&self, sub: u64) -> u64 {
        if !self.is_heavy() {
            return 0;
        }
        let ends = |k: u64| (k * self.period).div_ceil(self.cost);
        let mut k = sub;
        loop {
            let length = ends(k) - (k - 1) * self.period / self.cost;
            if k > sub && length == 3 {
                return self.shift(sub) + ends(k) - 1;
            }
            if self.bit(k) == 0 {
                return self.shift(sub) + ends(k);
            }
            k += 1;
        }
    }

    /// The first slot in which the next subtask may run, where the one before it did.
    pub fn ready_from(&self) -> u64 {
        self.release(self.next()).saturating_sub(self.early).max(self.joined)
    }

    pub fn is_ready(&self, slot: u64) -> bool {
        self.is_inside() && self.ready_from() <= slot
    }

    pub fn key(&self, number: u64) -> Key {
        let sub = self.next();
        let group = if self.bit(sub) == 1 { self.group(sub) } else { 0 };
        (self.deadline(sub), Reverse(self.bit(sub)), Reverse(group), number)
    }

    pub fn leave(&mut self, slot: u64) -> Result<(), DenialReason> {
        let last = self.ran.len() as u64;
        if last > 0 {
            let free = if self.is_heavy() { self.group(last) } else { self.deadline(last) };
            if slot < free + self.bit(last) {
                return Err(DenialReason::TooEarly);
            }
        }
        self.left = Some(slot);
        Ok(())
    }

    pub fn delay(&mut self, slot: u64, by: u64) -> Result<(), DenialReason> {
        let (from, stopped) = (self.next(), self.release(self.next()));
        if stopped < slot {
            return Err(DenialReason::Released);
        }
        self.delays.push(HoldBack { from, by, stopped });
        Ok(())
    }

    /// The lag times the period after so many slots.
    pub fn lag(&self, slots: u64) -> i64 {
        let stops = |slot: u64| self.delays.iter().any(|it| it.stopped <= slot && slot < it.stopped + it.by);
        let clock = (self.joined..slots).filter(|slot| !stops(*slot)).count() as i64;
        self.cost as i64 * clock - self.period as i64 * self.ran.len() as i64
    }

    /// The subtasks whose windows are missed after so many slots: number, deadline, and the slot in which each ran late.
    pub fn misses(&self, slots: u64) -> Vec<(u64, u64, Option<u64>)> {
        let end = self.left.unwrap_or(slots).min(slots);
        let due = (1..).map(|sub| (sub, self.deadline(sub))).take_while(|(_, deadline)| *deadline <= end);
        let ran = due.map(|(sub, deadline)| (sub, deadline, self.ran.get(sub as usize - 1).copied()));
        ran.filter(|(_, deadline, ran)| ran.map_or(true, |slot| slot >= *deadline)).collect()
    }
}
