use pfair_sys::raw::pfair_pick;
use std::fmt;

/// A quantum that a processor gives: to this subtask of this task.
#[derive(Clone, Copy, Debug, PartialEq, Eq, Hash)]
pub struct Pick {
    /// The task's number, 1 to 4,095.
    pub task: u32,
    /// The subtask's number, from 1: subtask i is the task's i-th quantum.
    pub sub: u32,
}

/// Who runs on each processor in a slot; `None` where it is idle or out of use.
#[derive(Clone, Debug, PartialEq, Eq, Hash)]
pub struct Row {
    /// The slot.
    pub slot: u64,
    /// By processor.
    pub picks: Vec<Option<Pick>>,
}

impl Row {
    pub(crate) fn new(slot: u64, room: &[pfair_pick]) -> Self {
        let pick = |it: &pfair_pick| (it.task != 0).then_some(Pick { task: it.task, sub: it.sub });
        Row { slot, picks: room.iter().map(pick).collect() }
    }
}

/// As in reply lines: `task/sub` or `-` for each processor.
impl fmt::Display for Row {
    fn fmt(&self, f: &mut fmt::Formatter<'_>) -> fmt::Result {
        for (k, pick) in self.picks.iter().enumerate() {
            f.write_str(if k == 0 { "" } else { " " })?;
            match pick {
                Some(Pick { task, sub }) => write!(f, "{task}/{sub}")?,
                None => f.write_str("-")?,
            }
        }
        Ok(())
    }
}
