use crate::plan::Plan;
use crate::task::{Key, Task};
use crate::words::{DenialReason, Event};
use std::cmp::Reverse;
use std::collections::{BTreeMap, BinaryHeap};

const LARGEST_TASK: u64 = 4_095;

/// A task in a slot on its processor, with its subtask; nobody is task 0.
pub type Pick = (u32, u32);

/// A task that was admitted, where it ran last, and how often its next subtask was put in a queue: what was put before counts
/// no more.
struct Member {
    task: Task,
    seat: Option<(u64, usize)>,
    queued: u64,
}

/// A subtask that is ready: its key, and which putting of its task it is of.
type Ready = Reverse<(Key, u64)>;

/// The run of a plan over some slots.
pub struct Run {
    pub now: u64,
    /// The rows, one behind the other.
    pub picks: Vec<Pick>,
    /// Slot, event and reason.
    pub denials: Vec<(u64, u64, DenialReason)>,
    /// By task number.
    members: Vec<Option<Member>>,
    waiting: BTreeMap<u64, Vec<(u64, u64)>>,
    ready: BinaryHeap<Ready>,
    load: u64,
    count: Option<u64>,
}

impl Run {
    pub fn new() -> Self {
        let members = (0..=LARGEST_TASK).map(|_| None).collect();
        let (waiting, ready) = (BTreeMap::new(), BinaryHeap::new());
        Run { now: 0, picks: Vec::new(), denials: Vec::new(), members, waiting, ready, load: 0, count: None }
    }

    /// The tasks admitted, by number.
    pub fn tasks(&self) -> impl Iterator<Item = (u64, &Task)> {
        self.members.iter().enumerate().filter_map(|(number, it)| Some((number as u64, &it.as_ref()?.task)))
    }

    /// A task that was admitted.
    fn member(&mut self, number: u64) -> &mut Member {
        self.members[number as usize].as_mut().expect("it was admitted")
    }

    /// Takes the next slot.
    pub fn step(&mut self, plan: &Plan) {
        let slot = self.now;
        for (id, event) in plan.of_slot(slot) {
            if let Err(reason) = self.take(plan, &event) {
                self.denials.push((slot, id, reason));
            }
        }
        for (number, queued) in self.waiting.remove(&slot).unwrap_or_default() {
            let member = self.member(number);
            if member.queued == queued {
                let key = member.task.key(number);
                self.ready.push(Reverse((key, queued)));
            }
        }
        let count = self.count.unwrap_or(plan.settings.processors) as usize;
        let picked = self.choose(count);
        self.place(&picked, count, plan.settings.processors as usize);
        for number in picked {
            self.member(number).task.ran.push(slot);
            self.queue(number, slot + 1);
        }
        self.now += 1;
    }

    /// Takes an event, or tells why it is denied.
    fn take(&mut self, plan: &Plan, event: &Event) -> Result<(), DenialReason> {
        match *event {
            Event::Limit { count, .. } => self.count = Some(count),
            Event::Join { slot, task: number, cost, period, early } => {
                let units = plan.units(cost, period);
                if self.load + units > plan.settings.cap {
                    return Err(DenialReason::OverCapacity);
                }
                self.load += units;
                let task = Task::new(slot, cost, period, early);
                self.members[number as usize] = Some(Member { task, seat: None, queued: 0 });
                self.queue(number, slot);
            }
            Event::Leave { slot, task } => {
                let member = self.inside(task)?;
                member.task.leave(slot)?;
                member.queued += 1;
                let (cost, period) = (member.task.cost, member.task.period);
                self.load -= plan.units(cost, period);
            }
            Event::Delay { slot, task, by } => {
                self.inside(task)?.task.delay(slot, by)?;
                self.queue(task, slot);
            }
        }
        Ok(())
    }

    fn inside(&mut self, task: u64) -> Result<&mut Member, DenialReason> {
        let member = self.members[task as usize].as_mut();
        member.filter(|it| it.task.is_inside()).ok_or(DenialReason::NotInside)
    }

    /// Puts the next subtask of a task where it waits, or is ready, from this slot on.
    fn queue(&mut self, number: u64, least: u64) {
        let now = self.now;
        let member = self.member(number);
        member.queued += 1;
        let (queued, from) = (member.queued, member.task.ready_from().max(least));
        if from <= now {
            let key = member.task.key(number);
            self.ready.push(Reverse((key, queued)));
        } else {
            self.waiting.entry(from).or_default().push((number, queued));
        }
    }

    /// The first so many of the ready tasks, in the order.
    fn choose(&mut self, count: usize) -> Vec<u64> {
        let mut picked = Vec::with_capacity(count);
        while picked.len() < count {
            let Some(Reverse(((.., number), queued))) = self.ready.pop() else { break };
            if self.member(number).queued == queued {
                picked.push(number);
            }
        }
        picked
    }

    /// A task that ran in the slot before keeps its processor, where that is in use; the others take the lowest free ones.
    fn place(&mut self, picked: &[u64], count: usize, processors: usize) {
        let (now, row) = (self.now, self.picks.len());
        self.picks.resize(row + processors, (0, 0));
        let mut others = Vec::new();
        for number in picked {
            match self.member(*number).seat {
                Some((slot, seat)) if slot + 1 == now && seat < count => self.sit(*number, row, seat),
                _ => others.push(*number),
            }
        }
        let mut seat = 0;
        for number in others {
            while self.picks[row + seat].0 != 0 {
                seat += 1;
            }
            self.sit(number, row, seat);
        }
    }

    fn sit(&mut self, number: u64, row: usize, seat: usize) {
        let now = self.now;
        let member = self.member(number);
        member.seat = Some((now, seat));
        let sub = member.task.ran.len() as u32 + 1;
        self.picks[row + seat] = (number as u32, sub);
    }
}
