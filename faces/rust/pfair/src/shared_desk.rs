use crate::desk::{check_library, NOTHING};
use crate::error::answer;
use crate::{Caller, Error, Reader, Settings};
use pfair_sys::{CallerHandle, ReaderHandle, SharedHandle};
use std::fmt;

/// One desk for many threads: its callers, which are planners and dispatchers, and its readers, until they are opened. Each of
/// them keeps the desk, and goes to a thread of its own. None of their calls waits for another: where a caller is at the
/// desk, an edit or a step of another answers [`Error::Busy`].
///
/// ```
/// use pfair::{Error, Event, Settings, SharedDesk};
/// use std::thread;
///
/// # fn main() -> Result<(), Error> {
/// // Three tasks that fill two processors: 100 slots have 200 quanta.
/// let mut desk = SharedDesk::open(Settings::new(2, 3), 3, 0)?;
/// let mut clock = desk.caller()?;
/// for task in 1..=3 {
///     clock.insert(Event::join(0, task, 2, 3))?;
/// }
/// let workers = [desk.caller()?, desk.caller()?];
/// thread::scope(|scope| {
///     for (processor, mut worker) in (0..).zip(workers) {
///         scope.spawn(move || {
///             for slot in 0..100 {
///                 let quantum = loop {
///                     match worker.take_in(processor, slot) {
///                         Err(Error::NotYet) => thread::yield_now(),
///                         taken => break taken.unwrap(),
///                     }
///                 };
///                 assert_eq!(quantum.unwrap().slot, slot);
///             }
///         });
///     }
///     while clock.stepped() < 100 {
///         match clock.step() {
///             Ok(_) => {}
///             Err(Error::Pending { .. }) => thread::yield_now(),
///             Err(error) => panic!("{error}"),
///         }
///     }
/// });
/// # Ok(())
/// # }
/// ```
pub struct SharedDesk {
    handle: SharedHandle,
    settings: Settings,
}

impl SharedDesk {
    /// Opens a desk with an empty plan and no slot stepped, for 1 to 128 callers and at most 64 readers. It has 2^22 slots,
    /// whatever the settings say of it.
    ///
    /// # Errors
    ///
    /// `BadSettings`, `NoMemory`.
    pub fn open(settings: Settings, callers: u64, readers: u64) -> Result<Self, Error> {
        check_library();
        let settings = Settings { wide: true, ..settings };
        let Settings { processors, base, cap, every, wide: _ } = settings;
        let mut handle = SharedHandle::closed();
        answer(handle.open(processors, base, cap, every, callers, readers), NOTHING)?;
        Ok(SharedDesk { handle, settings })
    }

    /// What the desk was opened with.
    pub fn settings(&self) -> Settings {
        self.settings
    }

    /// Opens the next caller. The history keeps its commands under its number, 0 for the first.
    ///
    /// # Errors
    ///
    /// `NoPlace` where each was opened, `NoMemory`.
    pub fn caller(&mut self) -> Result<Caller, Error> {
        let mut caller = CallerHandle::closed();
        answer(self.handle.open_caller(&mut caller), NOTHING)?;
        Ok(Caller::new(caller, self.settings.processors as usize))
    }

    /// Opens the next reader.
    ///
    /// # Errors
    ///
    /// `NoPlace` where each was opened, `NoMemory`.
    pub fn reader(&mut self) -> Result<Reader, Error> {
        let mut reader = ReaderHandle::closed();
        answer(self.handle.open_reader(&mut reader), NOTHING)?;
        Ok(Reader::new(reader, self.settings.processors as usize))
    }
}

impl fmt::Debug for SharedDesk {
    fn fmt(&self, f: &mut fmt::Formatter<'_>) -> fmt::Result {
        f.debug_struct("SharedDesk").field("settings", &self.settings).finish_non_exhaustive()
    }
}
