use crate::error::{answer, answer_records};
use crate::{record_faults, script_faults};
use crate::{Change, Denial, Error, Event, Figures, Fit, Lag, Look, Miss, Part, Row, Settings, Text};
use pfair_sys as sys;
use pfair_sys::raw::{pfair_bad_record, pfair_fit, pfair_pick, pfair_reply, pfair_setup};
use pfair_sys::Handle;
use std::fmt;
use std::ops::Range;

/// A planner's desk. It is `Send`, and drops its memory when it goes.
///
/// ```
/// # use pfair::{Desk, Settings};
/// let desk = Desk::open(Settings::new(2, 12))?;
/// let slots = std::thread::spawn(move || desk.now()).join().unwrap();
/// assert_eq!(slots, 0);
/// # Ok::<(), pfair::Error>(())
/// ```
pub struct Desk {
    handle: Handle,
    settings: Settings,
    caller: u32,
}

/// What is told of a call that has no reply.
pub(crate) const NOTHING: pfair_reply = pfair_reply { event: 0, reason: 0 };

impl Desk {
    /// Opens a desk with an empty plan and no slot stepped.
    ///
    /// # Errors
    ///
    /// `BadSettings`, `NoMemory`.
    pub fn open(settings: Settings) -> Result<Self, Error> {
        let Settings { processors, base, cap, every, wide } = settings;
        let mut handle = closed();
        answer(handle.open(wide, processors, base, cap, every), NOTHING)?;
        Ok(Desk { handle, settings, caller: 0 })
    }

    /// Opens a desk with the settings of a whole script of any version, and carries out the records behind them. The texts of a
    /// desk that a plan opened tell the names of its tasks and how long a slot is.
    ///
    /// # Errors
    ///
    /// `BadRecord` at the first record that is bad, `NoMemory`.
    ///
    /// ```
    /// # use pfair::{Desk, Error, Settings};
    /// let desk = Desk::open_script("settings,1,4,4,64\njoin,0,1,3,4,0\nstep,2\n")?;
    /// assert_eq!((desk.settings(), desk.now()), (Settings::new(1, 4), 2));
    /// assert_eq!(desk.replies(1)?, "slot 0: 1/1\nslot 1: 1/2\n");
    /// # Ok::<(), Error>(())
    /// ```
    pub fn open_script(script: &str) -> Result<Self, Error> {
        let (mut handle, caller) = (closed(), 0);
        let mut bad = pfair_bad_record::default();
        answer_records(handle.open_script(caller, script.as_bytes(), &mut bad), bad, || script_faults(script))?;
        let mut setup = pfair_setup::default();
        answer(handle.settings(&mut setup), NOTHING)?;
        Ok(Desk { handle, settings: setup.into(), caller })
    }

    /// What the desk was opened with.
    pub fn settings(&self) -> Settings {
        self.settings
    }

    /// Enters what is asked from here on under this caller's number. It begins as 0.
    pub fn set_caller(&mut self, caller: u32) {
        self.caller = caller;
    }

    /// Inserts an event: its number.
    ///
    /// # Errors
    ///
    /// `Refused`, `NoMemory`.
    pub fn insert(&mut self, event: Event) -> Result<u64, Error> {
        self.edit(Change::Insert(event))
    }

    /// Makes a change: the number of the event concerned. What was stepped is as though it had always stood there.
    ///
    /// # Errors
    ///
    /// `Refused`, `NoMemory`.
    ///
    /// ```
    /// # use pfair::{Change, Desk, Error, Event, Refusal, Settings};
    /// let mut desk = Desk::open(Settings::new(1, 4))?;
    /// desk.insert(Event::join(0, 1, 3, 4))?;
    /// desk.advance(2)?;
    /// // Slot 1 is past: it is replayed.
    /// desk.edit(Change::Alter(1, Event::join(1, 1, 3, 4)))?;
    /// assert_eq!(desk.row(0)?.to_string(), "-");
    /// assert_eq!(desk.edit(Change::Strike(7)), Err(Error::Refused(Refusal::EventNotFound)));
    /// # Ok::<(), Error>(())
    /// ```
    pub fn edit(&mut self, change: Change) -> Result<u64, Error> {
        self.change(change, false)
    }

    /// The same, but refused where the slots stepped so far would then have any denial, old or new.
    ///
    /// # Errors
    ///
    /// `Refused`, with `WouldDeny` too; `NoMemory`.
    pub fn edit_strictly(&mut self, change: Change) -> Result<u64, Error> {
        self.change(change, true)
    }

    /// A text of the desk as it would be after a change, which is not made.
    ///
    /// # Errors
    ///
    /// `Refused` as the change would be, `NoMemory`.
    ///
    /// ```
    /// # use pfair::{Change, Desk, Event, Settings, Text};
    /// let mut desk = Desk::open(Settings::new(1, 2))?;
    /// desk.insert(Event::join(0, 1, 1, 2))?;
    /// desk.advance(2)?;
    /// assert_eq!(desk.what_if(Change::Strike(1), Text::Schedule)?, "slot,p0\n0,\n1,\n");
    /// assert_eq!(desk.text(Text::Schedule)?, "slot,p0\n0,1/1\n1,\n");
    /// # Ok::<(), pfair::Error>(())
    /// ```
    pub fn what_if(&mut self, change: Change, kind: Text) -> Result<String, Error> {
        self.suppose(change, false, kind)
    }

    /// The same of a change that would be made strictly.
    ///
    /// # Errors
    ///
    /// As `what_if`, with `WouldDeny` too.
    pub fn what_if_strict(&mut self, change: Change, kind: Text) -> Result<String, Error> {
        self.suppose(change, true, kind)
    }

    fn suppose(&mut self, change: Change, strict: bool, kind: Text) -> Result<String, Error> {
        let (change, kind, mut reply, mut room) = (change.to_raw(), kind.number(), NOTHING, Vec::new());
        loop {
            let mut count = 0;
            match self.handle.what_if(self.caller, &change, strict, &mut reply, kind, &mut room, &mut count) {
                sys::PFAIR_TOO_SHORT => room.resize(count, 0),
                status => {
                    answer(status, reply)?;
                    return Ok(String::from_utf8(room).expect("the library's texts are ASCII"));
                }
            }
        }
    }

    fn change(&mut self, change: Change, strict: bool) -> Result<u64, Error> {
        let mut reply = NOTHING;
        let status = self.handle.edit(self.caller, &change.to_raw(), strict, &mut reply);
        answer(status, reply)?;
        Ok(reply.event)
    }

    /// Asks for what records say, one after another, as they stand behind the settings in a script of version 2, without names
    /// and labels: the reply lines. A command that is refused is no error here.
    ///
    /// # Errors
    ///
    /// `BadRecord` at the first record that is none: those before it were carried out, and `replies` has what they were
    /// answered. `NoMemory`: the desk answered the first commands.
    ///
    /// ```
    /// # use pfair::{Desk, Error, Settings};
    /// let mut desk = Desk::open(Settings::new(1, 4))?;
    /// assert_eq!(desk.run("join,0,1,3,4,0\nstep,2\n")?, "event 1\nslot 0: 1/1\nslot 1: 1/2\n");
    /// let Err(Error::BadRecord(bad)) = desk.run("step\nstep,none\n") else { unreachable!() };
    /// assert_eq!((bad.number, bad.line, bad.field), (2, 2, 2));
    /// assert_eq!(bad.to_string(), "line 2, record 2, field 2: \"none\" is no number of 1 to 15 digits");
    /// assert_eq!(desk.replies(3)?, "slot 2: 1/3\n");
    /// # Ok::<(), Error>(())
    /// ```
    pub fn run(&mut self, records: &str) -> Result<String, Error> {
        let first = self.entries();
        let mut bad = pfair_bad_record::default();
        let status = self.handle.run(self.caller, records.as_bytes(), &mut bad);
        answer_records(status, bad, || record_faults(records))?;
        self.replies(first)
    }

    /// Takes the next slot.
    ///
    /// # Errors
    ///
    /// `Refused` at the horizon, `NoMemory`.
    pub fn step(&mut self) -> Result<(), Error> {
        answer(self.handle.step(self.caller), NOTHING)
    }

    /// Takes slots until `count` were taken or none is left: how many were taken.
    ///
    /// # Errors
    ///
    /// `NoMemory`: `now` tells how many slots were taken.
    pub fn advance(&mut self, count: u64) -> Result<u64, Error> {
        let mut taken = 0;
        match self.handle.advance(self.caller, count, &mut taken) {
            sys::PFAIR_AT_HORIZON => Ok(taken),
            status => answer(status, NOTHING).map(|()| taken),
        }
    }

    /// How many commands the desk has answered: changes and steps, refused ones too.
    pub fn entries(&self) -> usize {
        let mut count = 0;
        let status = self.handle.entries(&mut count);
        debug_assert_eq!(status, sys::PFAIR_OK, "an open desk tells");
        count
    }

    /// The reply lines of the commands that the desk has answered, from the `first` on, counted from 0.
    ///
    /// # Errors
    ///
    /// `NoMemory`.
    pub fn replies(&self, first: usize) -> Result<String, Error> {
        text(|room, count| self.handle.replies(first, room, count))
    }

    /// How many slots were stepped.
    pub fn now(&self) -> u64 {
        let mut now = 0;
        let status = self.handle.now(&mut now);
        debug_assert_eq!(status, sys::PFAIR_OK, "an open desk tells");
        now
    }

    /// Who runs on each processor in a slot.
    ///
    /// # Errors
    ///
    /// `OutOfRange` where the slot was not stepped.
    pub fn row(&self, slot: u64) -> Result<Row, Error> {
        let mut room = vec![pfair_pick::default(); self.settings.processors as usize];
        answer(self.handle.row(slot, &mut room), NOTHING)?;
        Ok(Row::new(slot, &room))
    }

    /// The rows of all slots stepped.
    pub fn rows(&self) -> Rows<'_> {
        Rows { desk: self, slot: 0, now: self.now() }
    }

    /// How far each task inside is from its fair share, by task.
    ///
    /// # Errors
    ///
    /// `NoMemory`.
    pub fn lags(&self) -> Result<Vec<Lag>, Error> {
        Ok(all(|room, count| self.handle.lags(room, count))?.into_iter().map(Lag::from).collect())
    }

    /// The missed windows, by deadline, then by task.
    ///
    /// # Errors
    ///
    /// `NoMemory`.
    pub fn misses(&self) -> Result<Vec<Miss>, Error> {
        Ok(all(|room, count| self.handle.misses(room, count))?.into_iter().map(Miss::from).collect())
    }

    /// The denials of the slots stepped, in the order in which the events were taken.
    ///
    /// # Errors
    ///
    /// None; a `Result` as for the others.
    pub fn denials(&self) -> Result<Vec<Denial>, Error> {
        Ok(all(|room, count| self.handle.denials(room, count))?.into_iter().map(Denial::from).collect())
    }

    /// The figures of each task admitted in a slot stepped, by task.
    ///
    /// # Errors
    ///
    /// `NoMemory`.
    pub fn figures(&self) -> Result<Vec<Figures>, Error> {
        Ok(all(|room, count| self.handle.figures(room, count))?.into_iter().map(Figures::from).collect())
    }

    /// Whether no window can ever be missed, whatever joins, leaves, is delayed and runs early, until a limit comes that
    /// leaves too few processors in use.
    pub fn never_misses(&self) -> bool {
        let mut never = false;
        let status = self.handle.never_misses(&mut never);
        debug_assert_eq!(status, sys::PFAIR_OK, "an open desk tells");
        never
    }

    /// Whether the loads of the slots stepped were within the processors in use, and if not, from which slot on and by how
    /// much.
    ///
    /// # Errors
    ///
    /// `NoMemory`.
    pub fn fits(&self) -> Result<Fit, Error> {
        let mut fit = pfair_fit::default();
        answer(self.handle.fits(&mut fit), NOTHING)?;
        Ok(Fit::from(fit))
    }

    /// The events held, by number.
    ///
    /// # Errors
    ///
    /// `NoMemory`.
    pub fn events(&self) -> Result<Vec<(u64, Event)>, Error> {
        let raw = all(|room, count| self.handle.events(room, count))?;
        Ok(raw.into_iter().map(|it| (it.id, Event::of_raw(it.event))).collect())
    }

    /// A text of the desk.
    ///
    /// # Errors
    ///
    /// `OutOfRange` where it is a page of more than 65,536 slots; `NoMemory`.
    ///
    /// ```
    /// # use pfair::{Desk, Event, Settings, Text};
    /// let mut desk = Desk::open(Settings::new(1, 2))?;
    /// desk.insert(Event::join(0, 1, 1, 2))?;
    /// desk.advance(2)?;
    /// assert_eq!(desk.text(Text::Schedule)?, "slot,p0\n0,1/1\n1,\n");
    /// # Ok::<(), pfair::Error>(())
    /// ```
    pub fn text(&self, kind: Text) -> Result<String, Error> {
        text(|room, count| self.handle.text(kind.number(), room, count))
    }
}

/// Texts of a range of the slots stepped.
impl Desk {
    /// The part of a text that has these slots.
    ///
    /// # Errors
    ///
    /// `OutOfRange` where they were not all stepped, `NoMemory`.
    ///
    /// ```
    /// # use pfair::{Desk, Event, Part, Settings};
    /// let mut desk = Desk::open(Settings::new(1, 2))?;
    /// desk.insert(Event::join(0, 1, 1, 2))?;
    /// desk.advance(4)?;
    /// assert_eq!(desk.part(Part::Quanta, 2..4)?, "slot,processor,task,sub\n2,0,1,2\n");
    /// # Ok::<(), pfair::Error>(())
    /// ```
    pub fn part(&self, kind: Part, slots: Range<u64>) -> Result<String, Error> {
        text(|room, count| self.handle.part(kind.number(), slots.start, slots.end, room, count))
    }

    /// A picture of these slots, at most 4,096, as SVG.
    ///
    /// # Errors
    ///
    /// `OutOfRange` where they were not all stepped, for more slots, and where a number of the look is out of its limits;
    /// `NoMemory`.
    pub fn svg(&self, slots: Range<u64>, look: Look) -> Result<String, Error> {
        let look = look.into();
        text(|room, count| self.handle.svg(slots.start, slots.end, &look, room, count))
    }
}

/// A handle of the library.
fn closed() -> Handle {
    check_library();
    Handle::closed()
}

/// That the library goes with the header that this crate was compiled with.
pub(crate) fn check_library() {
    assert_eq!(sys::abi(), sys::PFAIR_ABI, "libpfair.a does not go with pfair.h: its PFAIR_ABI is the first of these");
}

/// All that a call fills, in a room that is made as long as the call asks for.
pub(crate) fn all<T: Clone + Default>(mut call: impl FnMut(&mut [T], &mut usize) -> u32) -> Result<Vec<T>, Error> {
    let mut room = Vec::new();
    loop {
        let mut count = 0;
        match call(&mut room, &mut count) {
            sys::PFAIR_TOO_SHORT => room.resize(count, T::default()),
            status => {
                answer(status, NOTHING)?;
                room.truncate(count);
                return Ok(room);
            }
        }
    }
}

/// The same of a text.
pub(crate) fn text(call: impl FnMut(&mut [u8], &mut usize) -> u32) -> Result<String, Error> {
    Ok(String::from_utf8(all(call)?).expect("the library's texts are ASCII"))
}

/// The desk as a whole is told by its settings and by how far it went.
impl fmt::Debug for Desk {
    fn fmt(&self, f: &mut fmt::Formatter<'_>) -> fmt::Result {
        let mut told = f.debug_struct("Desk");
        told.field("settings", &self.settings).field("caller", &self.caller);
        told.field("now", &self.now()).field("entries", &self.entries()).finish_non_exhaustive()
    }
}

/// The rows of the slots stepped, in their order.
impl<'a> IntoIterator for &'a Desk {
    type Item = Row;
    type IntoIter = Rows<'a>;

    fn into_iter(self) -> Rows<'a> {
        self.rows()
    }
}

/// The rows of the slots stepped, in their order.
#[derive(Clone, Debug)]
pub struct Rows<'a> {
    desk: &'a Desk,
    slot: u64,
    now: u64,
}

impl Iterator for Rows<'_> {
    type Item = Row;

    fn next(&mut self) -> Option<Row> {
        if self.slot == self.now {
            return None;
        }
        let row = self.desk.row(self.slot).ok();
        self.slot += 1;
        row
    }

    fn size_hint(&self) -> (usize, Option<usize>) {
        let left = (self.now - self.slot) as usize;
        (left, Some(left))
    }
}

impl ExactSizeIterator for Rows<'_> {}
