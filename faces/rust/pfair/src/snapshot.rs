use crate::desk::NOTHING;
use crate::error::answer;
use crate::{Error, Row};
use pfair_sys as sys;
use pfair_sys::raw::pfair_pick;
use pfair_sys::SnapshotHandle;
use std::fmt;
use std::ops::Range;

/// A shared desk as it stood, which never changes. It is `Send`, and a clone of it takes no more than a handle.
pub struct Snapshot {
    handle: SnapshotHandle,
    processors: usize,
}

impl Snapshot {
    pub(crate) fn new(handle: SnapshotHandle, processors: usize) -> Self {
        Snapshot { handle, processors }
    }

    /// How many entries the history had, and how many slots were stepped.
    fn numbers(&self) -> (u64, u64) {
        let (mut entries, mut slots) = (0, 0);
        let status = self.handle.now(&mut entries, &mut slots);
        debug_assert_eq!(status, sys::PFAIR_OK, "a snapshot tells");
        (entries, slots)
    }

    /// How many entries the history had.
    pub fn entries(&self) -> u64 {
        self.numbers().0
    }

    /// How many slots were stepped.
    pub fn now(&self) -> u64 {
        self.numbers().1
    }

    /// Who runs on each processor in a slot.
    ///
    /// # Errors
    ///
    /// `OutOfRange` where the slot was not stepped.
    pub fn row(&self, slot: u64) -> Result<Row, Error> {
        let mut room = vec![pfair_pick::default(); self.processors];
        answer(self.handle.row(slot, &mut room), NOTHING)?;
        Ok(Row::new(slot, &room))
    }

    /// Who runs on each processor in each of these slots.
    ///
    /// # Errors
    ///
    /// `OutOfRange` where they were not all stepped.
    pub fn rows(&self, slots: Range<u64>) -> Result<Vec<Row>, Error> {
        // No slot at or above now has a row, so the room is as long as what there is to tell at most.
        let count = slots.end.min(self.now()).saturating_sub(slots.start) as usize;
        let mut room = vec![pfair_pick::default(); count * self.processors];
        answer(self.handle.rows(slots.start, slots.end, &mut room), NOTHING)?;
        Ok(slots.zip(room.chunks(self.processors)).map(|(slot, row)| Row::new(slot, row)).collect())
    }

    /// The same snapshot once more.
    ///
    /// # Errors
    ///
    /// `NoMemory`.
    pub fn try_clone(&self) -> Result<Self, Error> {
        let mut handle = SnapshotHandle::closed();
        answer(self.handle.again(&mut handle), NOTHING)?;
        Ok(Snapshot { handle, processors: self.processors })
    }
}

/// Panics where memory is refused, as a clone of a `Vec` aborts.
impl Clone for Snapshot {
    fn clone(&self) -> Self {
        self.try_clone().expect("a handle takes little memory")
    }
}

impl fmt::Debug for Snapshot {
    fn fmt(&self, f: &mut fmt::Formatter<'_>) -> fmt::Result {
        let (entries, now) = self.numbers();
        f.debug_struct("Snapshot").field("entries", &entries).field("now", &now).finish_non_exhaustive()
    }
}
