use crate::raw::*;
use core::cell::UnsafeCell;
use core::ptr;

/// A handle of `pfair.h` whose calls are safe: each takes what the call of its name takes and answers its status.
///
/// How the types keep the four duties. Pointers come from references and slices, which are never null. A handle begins as
/// null, is not `Clone` and is closed when dropped. It is not `Sync`, and no call calls back, so it is in one call at a
/// time, by `&self` too; that it may go to another thread is proved of the library (`handle_crosses` of pf_c_api). Signal
/// handlers and forks are the program's own, as they are for any allocation.
pub struct Handle {
    raw: UnsafeCell<pfair_desk>,
}

// SAFETY: the library's handle is proved to be `Send`, and whoever has `self` orders its calls.
unsafe impl Send for Handle {}

/// The calls that fill a room, all of one shape.
type Filling<T> = unsafe extern "C" fn(*mut pfair_desk, *mut T, usize, *mut usize) -> u32;

impl Handle {
    /// A handle without a desk.
    pub const fn closed() -> Self {
        let raw = UnsafeCell::new(pfair_desk { inner: ptr::null_mut() });
        Handle { raw }
    }

    /// `pfair_open`, or `pfair_open_wide`.
    pub fn open(&mut self, wide: bool, processors: u64, base: u64, cap: u64, every: u64) -> u32 {
        let call = if wide { pfair_open_wide } else { pfair_open };
        // SAFETY: the pointer is that of a handle which no other call has.
        unsafe { call(self.raw.get(), processors, base, cap, every) }
    }

    /// `pfair_open_script`.
    pub fn open_script(&mut self, caller: u32, script: &[u8], bad: &mut pfair_bad_record) -> u32 {
        // SAFETY: as in `run`.
        unsafe { pfair_open_script(self.raw.get(), caller, script.as_ptr().cast(), script.len(), bad) }
    }

    /// `pfair_close`.
    pub fn close(&mut self) {
        // SAFETY: as in `open`.
        unsafe { pfair_close(self.raw.get()) }
    }

    /// `pfair_edit`.
    pub fn edit(&mut self, caller: u32, change: &pfair_change, strict: bool, reply: &mut pfair_reply) -> u32 {
        // SAFETY: as in `open`; the others are references to initialized values.
        unsafe { pfair_edit(self.raw.get(), caller, change, strict, reply) }
    }

    /// `pfair_what_if`.
    #[allow(clippy::too_many_arguments)]
    pub fn what_if(
        &mut self,
        caller: u32,
        change: &pfair_change,
        strict: bool,
        reply: &mut pfair_reply,
        kind: u64,
        room: &mut [u8],
        count: &mut usize,
    ) -> u32 {
        let (at, length) = (room.as_mut_ptr().cast(), room.len());
        // SAFETY: as in `edit`; the slice has `len` initialized bytes.
        unsafe { pfair_what_if(self.raw.get(), caller, change, strict, reply, kind, at, length, count) }
    }

    /// `pfair_run`.
    pub fn run(&mut self, caller: u32, records: &[u8], bad: &mut pfair_bad_record) -> u32 {
        // SAFETY: as in `edit`; the slice has `len` initialized bytes.
        unsafe { pfair_run(self.raw.get(), caller, records.as_ptr().cast(), records.len(), bad) }
    }

    /// `pfair_step`.
    pub fn step(&mut self, caller: u32) -> u32 {
        // SAFETY: as in `open`.
        unsafe { pfair_step(self.raw.get(), caller) }
    }

    /// `pfair_advance`.
    pub fn advance(&mut self, caller: u32, count: u64, taken: &mut u64) -> u32 {
        // SAFETY: as in `edit`.
        unsafe { pfair_advance(self.raw.get(), caller, count, taken) }
    }

    /// `pfair_settings`.
    pub fn settings(&self, setup: &mut pfair_setup) -> u32 {
        // SAFETY: as in `now`.
        unsafe { pfair_settings(self.raw.get(), setup) }
    }

    /// `pfair_entries`.
    pub fn entries(&self, count: &mut usize) -> u32 {
        // SAFETY: as in `now`.
        unsafe { pfair_entries(self.raw.get(), count) }
    }

    /// `pfair_replies`.
    pub fn replies(&self, first: usize, room: &mut [u8], count: &mut usize) -> u32 {
        // SAFETY: as in `row`.
        unsafe { pfair_replies(self.raw.get(), first, room.as_mut_ptr().cast(), room.len(), count) }
    }

    /// `pfair_now`.
    pub fn now(&self, now: &mut u64) -> u32 {
        // SAFETY: as in `edit`; the handle is not `Sync`, so no other call has it.
        unsafe { pfair_now(self.raw.get(), now) }
    }

    /// `pfair_row`.
    pub fn row(&self, slot: u64, room: &mut [pfair_pick]) -> u32 {
        // SAFETY: as in `now`; the slice has `len` initialized elements.
        unsafe { pfair_row(self.raw.get(), slot, room.as_mut_ptr(), room.len()) }
    }

    /// `pfair_lags`.
    pub fn lags(&self, room: &mut [pfair_lag], count: &mut usize) -> u32 {
        self.fill(pfair_lags, room, count)
    }

    /// `pfair_misses`.
    pub fn misses(&self, room: &mut [pfair_miss], count: &mut usize) -> u32 {
        self.fill(pfair_misses, room, count)
    }

    /// `pfair_denials`.
    pub fn denials(&self, room: &mut [pfair_denial], count: &mut usize) -> u32 {
        self.fill(pfair_denials, room, count)
    }

    /// `pfair_figures`.
    pub fn figures(&self, room: &mut [pfair_task_figures], count: &mut usize) -> u32 {
        self.fill(pfair_figures, room, count)
    }

    /// `pfair_events`.
    pub fn events(&self, room: &mut [pfair_numbered], count: &mut usize) -> u32 {
        self.fill(pfair_events, room, count)
    }

    /// `pfair_never_misses`.
    pub fn never_misses(&self, never: &mut bool) -> u32 {
        // SAFETY: as in `now`.
        unsafe { pfair_never_misses(self.raw.get(), never) }
    }

    /// `pfair_fits`.
    pub fn fits(&self, fit: &mut pfair_fit) -> u32 {
        // SAFETY: as in `now`.
        unsafe { pfair_fits(self.raw.get(), fit) }
    }

    /// `pfair_text`.
    pub fn text(&self, kind: u64, room: &mut [u8], count: &mut usize) -> u32 {
        // SAFETY: as in `row`.
        unsafe { pfair_text(self.raw.get(), kind, room.as_mut_ptr().cast(), room.len(), count) }
    }

    /// `pfair_part`.
    pub fn part(&self, kind: u64, from: u64, to: u64, room: &mut [u8], count: &mut usize) -> u32 {
        // SAFETY: as in `row`.
        unsafe { pfair_part(self.raw.get(), kind, from, to, room.as_mut_ptr().cast(), room.len(), count) }
    }

    /// `pfair_svg`.
    pub fn svg(&self, from: u64, to: u64, look: &pfair_picture_look, room: &mut [u8], count: &mut usize) -> u32 {
        // SAFETY: as in `row`; the look is a reference.
        unsafe { pfair_svg(self.raw.get(), from, to, look, room.as_mut_ptr().cast(), room.len(), count) }
    }

    fn fill<T>(&self, call: Filling<T>, room: &mut [T], count: &mut usize) -> u32 {
        // SAFETY: as in `row`; the calls passed are those of this shape in `pfair.h`.
        unsafe { call(self.raw.get(), room.as_mut_ptr(), room.len(), count) }
    }
}

/// `pfair_script_faults`.
pub fn script_faults(script: &[u8], room: &mut [u8], count: &mut usize) -> u32 {
    // SAFETY: as in `version`; the script is a slice too, and no two of them overlap.
    unsafe { pfair_script_faults(script.as_ptr().cast(), script.len(), room.as_mut_ptr().cast(), room.len(), count) }
}

/// `pfair_record_faults`.
pub fn record_faults(records: &[u8], room: &mut [u8], count: &mut usize) -> u32 {
    // SAFETY: as in `script_faults`.
    unsafe { pfair_record_faults(records.as_ptr().cast(), records.len(), room.as_mut_ptr().cast(), room.len(), count) }
}

/// `pfair_abi`.
pub fn abi() -> u32 {
    // SAFETY: it takes nothing.
    unsafe { pfair_abi() }
}

/// `pfair_version`.
pub fn version(room: &mut [u8], count: &mut usize) -> u32 {
    // SAFETY: the slice has `len` initialized bytes, and the count is a reference.
    unsafe { pfair_version(room.as_mut_ptr().cast(), room.len(), count) }
}

/// `pfair_name`.
pub fn name(number: u32, room: &mut [u8], count: &mut usize) -> u32 {
    // SAFETY: as in `version`.
    unsafe { pfair_name(number, room.as_mut_ptr().cast(), room.len(), count) }
}

/// `pfair_sentence`.
pub fn sentence(number: u32, room: &mut [u8], count: &mut usize) -> u32 {
    // SAFETY: as in `version`.
    unsafe { pfair_sentence(number, room.as_mut_ptr().cast(), room.len(), count) }
}

impl Drop for Handle {
    fn drop(&mut self) {
        self.close();
    }
}
