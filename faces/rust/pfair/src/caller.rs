use crate::desk::NOTHING;
use crate::error::answer;
use crate::{Change, Error, Event, Quantum, Row};
use pfair_sys as sys;
use pfair_sys::raw::{pfair_pick, pfair_quantum};
use pfair_sys::CallerHandle;
use std::fmt;

/// A caller of a shared desk: a planner, a dispatcher, or both. It is `Send`, and one thread at a time has it.
pub struct Caller {
    handle: CallerHandle,
    processors: usize,
}

impl Caller {
    pub(crate) fn new(handle: CallerHandle, processors: usize) -> Self {
        Caller { handle, processors }
    }

    /// Inserts an event: its number.
    ///
    /// # Errors
    ///
    /// As `edit`.
    pub fn insert(&mut self, event: Event) -> Result<u64, Error> {
        self.edit(Change::Insert(event))
    }

    /// Makes a change: the number of the event concerned. The answer is an entry of the one history.
    ///
    /// # Errors
    ///
    /// `Refused`, which is an entry too; `Busy` and `NoMemory`: there is no entry, and all is as before.
    pub fn edit(&mut self, change: Change) -> Result<u64, Error> {
        self.change(change, false)
    }

    /// The same, but refused where the slots stepped so far would then have any denial, old or new.
    ///
    /// # Errors
    ///
    /// As `edit`, with `WouldDeny` too.
    pub fn edit_strictly(&mut self, change: Change) -> Result<u64, Error> {
        self.change(change, true)
    }

    fn change(&mut self, change: Change, strict: bool) -> Result<u64, Error> {
        let mut reply = NOTHING;
        let status = self.handle.edit(&change.to_raw(), strict, &mut reply);
        answer(status, reply)?;
        Ok(reply.event)
    }

    /// Takes the next slot: who runs where in it. Its quanta lie on the processors then, each for one caller to take.
    ///
    /// # Errors
    ///
    /// `Pending` where a quantum was not taken yet, `Busy`, `NoMemory`: there is no entry. `Refused` at the horizon.
    pub fn step(&mut self) -> Result<Row, Error> {
        let (mut slot, mut processor, mut room) = (0, 0, vec![pfair_pick::default(); self.processors]);
        match self.handle.step(&mut slot, &mut processor, &mut room) {
            sys::PFAIR_PENDING => Err(Error::Pending { processor }),
            status => answer(status, NOTHING).map(|()| Row::new(slot, &room)),
        }
    }

    /// Takes the quantum that lies on a processor, which is then this caller's and no other's; none where none lies there.
    ///
    /// # Errors
    ///
    /// `OutOfRange` where there is no such processor.
    pub fn take(&mut self, processor: u32) -> Result<Option<Quantum>, Error> {
        let mut quantum = pfair_quantum::default();
        got(self.handle.take(processor, &mut quantum), quantum)
    }

    /// The same where the slot is the last one that was stepped. None where the processor is idle in it, or a later slot is
    /// stepped already. Where several callers take from one processor it may be a quantum of a later slot.
    ///
    /// # Errors
    ///
    /// `NotYet` where the slot is not stepped yet; `OutOfRange` where there is no such processor.
    pub fn take_in(&mut self, processor: u32, slot: u64) -> Result<Option<Quantum>, Error> {
        let mut quantum = pfair_quantum::default();
        got(self.handle.take_in(processor, slot, &mut quantum), quantum)
    }

    /// How many slots were stepped.
    pub fn stepped(&self) -> u64 {
        let mut slots = 0;
        let status = self.handle.stepped(&mut slots);
        debug_assert_eq!(status, sys::PFAIR_OK, "an open caller tells");
        slots
    }

    /// How many entries the history has: changes and steps, refused ones too.
    pub fn entries(&mut self) -> u64 {
        let mut entries = 0;
        let status = self.handle.look(&mut entries);
        debug_assert_eq!(status, sys::PFAIR_OK, "an open caller tells");
        entries
    }
}

/// What a take got.
fn got(status: u32, quantum: pfair_quantum) -> Result<Option<Quantum>, Error> {
    match status {
        sys::PFAIR_NOTHING => Ok(None),
        status => answer(status, NOTHING).map(|()| Some(Quantum::from(quantum))),
    }
}

impl fmt::Debug for Caller {
    fn fmt(&self, f: &mut fmt::Formatter<'_>) -> fmt::Result {
        f.debug_struct("Caller").field("stepped", &self.stepped()).finish_non_exhaustive()
    }
}
