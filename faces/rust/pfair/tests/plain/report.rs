use super::PlainDesk;
use pfair::{Denial, DenialReason, Event, Lag, Miss};
use std::fmt::Write;
use std::ops::Range;

fn code(reason: DenialReason) -> u64 {
    match reason {
        DenialReason::OverCapacity => 20,
        DenialReason::NotInside => 21,
        DenialReason::TooEarly => 22,
        DenialReason::Released => 23,
        _ => unreachable!("another kind"),
    }
}

fn list(items: impl Iterator<Item = String>) -> String {
    format!("[{}]", items.collect::<Vec<_>>().join(","))
}

impl PlainDesk {
    pub fn lags(&self) -> Vec<Lag> {
        let inside = self.run.tasks.iter().filter(|(_, it)| it.is_inside());
        let lag = |(task, it): (&u64, &super::Task)| Lag {
            task: *task,
            cost: it.cost,
            period: it.period,
            received: it.ran.len() as u64,
            scaled: it.lag(self.now()),
        };
        inside.map(lag).collect()
    }

    pub fn misses(&self) -> Vec<Miss> {
        let of_task = |(task, it): (&u64, &super::Task)| {
            let task = *task;
            it.misses(self.now()).into_iter().map(move |(sub, deadline, ran)| Miss { task, sub, deadline, ran })
        };
        let mut misses: Vec<Miss> = self.run.tasks.iter().flat_map(of_task).collect();
        misses.sort_by_key(|it| (it.deadline, it.task));
        misses
    }

    pub fn denials(&self) -> Vec<Denial> {
        self.run
            .denials
            .iter()
            .map(|(slot, event, reason)| Denial { slot: *slot, event: *event, reason: *reason })
            .collect()
    }

    pub fn events(&self) -> Vec<(u64, Event)> {
        self.plan.events.iter().map(|(id, event)| (*id, *event)).collect()
    }

    /// The report as docs/TABLES.md has it.
    pub fn json(&self) -> String {
        let denials = list(self.denials().iter().map(|it| {
            let (code, reason) = (code(it.reason), it.reason);
            format!(r#"{{"code":{code},"event":{},"reason":"{reason:?}","slot":{}}}"#, it.event, it.slot)
        }));
        let lags = list(self.lags().iter().map(|it| {
            let Lag { task, cost, period, received, scaled } = it;
            format!(r#"{{"cost":{cost},"lag":{scaled},"period":{period},"received":{received},"task":{task}}}"#)
        }));
        let misses = list(self.misses().iter().map(|it| {
            let ran = it.ran.map_or("null".to_string(), |slot| slot.to_string());
            format!(r#"{{"deadline":{},"ran":{ran},"sub":{},"task":{}}}"#, it.deadline, it.sub, it.task)
        }));
        let schedule = list(self.run.rows.iter().map(|row| {
            list(row.iter().map(|it| it.map_or("null".to_string(), |(task, sub)| format!("[{task},{sub}]"))))
        }));
        let (entries, now) = (self.entries, self.now());
        format!(
            r#"{{"denials":{denials},"entries":{entries},"lags":{lags},"misses":{misses},"now":{now},"schedule":{schedule}}}"#
        )
    }

    /// The table of the quanta of these slots.
    pub fn quanta(&self, slots: Range<u64>) -> String {
        let mut text = String::from("slot,processor,task,sub\n");
        for slot in slots {
            for (processor, pick) in self.run.rows[slot as usize].iter().enumerate() {
                if let Some((task, sub)) = pick {
                    writeln!(text, "{slot},{processor},{task},{sub}").expect("it is a string");
                }
            }
        }
        text
    }

    /// The table of load and room of these slots, where one of them changes.
    pub fn load(&self, slots: Range<u64>) -> String {
        let mut text = String::from("slot,load,room\n");
        let mut before = None;
        for slot in slots {
            let (load, room) = self.run.loads[slot as usize];
            if before != Some((load, room)) {
                writeln!(text, "{slot},{load},{room}").expect("it is a string");
            }
            before = Some((load, room));
        }
        text
    }
}
