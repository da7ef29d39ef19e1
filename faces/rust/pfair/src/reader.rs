use crate::desk::NOTHING;
use crate::error::answer;
use crate::{Error, Snapshot};
use pfair_sys::{ReaderHandle, SnapshotHandle};
use std::fmt;

/// A reader of a shared desk. It is `Send`, and one thread at a time has it.
pub struct Reader {
    handle: ReaderHandle,
    processors: usize,
}

impl Reader {
    pub(crate) fn new(handle: ReaderHandle, processors: usize) -> Self {
        Reader { handle, processors }
    }

    /// The desk as it stands: its history is no shorter than the one that was read last.
    ///
    /// # Errors
    ///
    /// `Busy` where it was changed under each of many tries, `NoMemory`.
    pub fn read(&mut self) -> Result<Snapshot, Error> {
        let mut handle = SnapshotHandle::closed();
        answer(self.handle.read(&mut handle), NOTHING)?;
        Ok(Snapshot::new(handle, self.processors))
    }
}

impl fmt::Debug for Reader {
    fn fmt(&self, f: &mut fmt::Formatter<'_>) -> fmt::Result {
        f.debug_struct("Reader").finish_non_exhaustive()
    }
}
