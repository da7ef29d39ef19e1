use pfair_sys::raw::pfair_quantum;

/// One slot of one processor, for one subtask.
#[derive(Clone, Copy, Debug, PartialEq, Eq, Hash)]
pub struct Quantum {
    /// The slot.
    pub slot: u64,
    /// The processor, from 0.
    pub processor: u32,
    /// The task's number, 1 to 4,095.
    pub task: u32,
    /// The subtask's number, from 1.
    pub sub: u64,
}

impl From<pfair_quantum> for Quantum {
    fn from(raw: pfair_quantum) -> Self {
        let pfair_quantum { slot, processor, task, sub } = raw;
        Quantum { slot, processor, task, sub }
    }
}
