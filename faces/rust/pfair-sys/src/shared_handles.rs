use crate::raw::*;
use core::cell::UnsafeCell;
use core::ptr;

/// A handle of `pfair_shared.h`, which keeps the four duties as [`Handle`](crate::Handle) does: it begins as null, is not
/// `Clone`, is closed when dropped, and is `Send` and not `Sync`. That it may go to another thread is proved of the library
/// (`handle_crosses` of pf_shared_c_api).
macro_rules! handle {
    ($(#[$about:meta])* $name:ident, $raw:ident, $close:ident) => {
        $(#[$about])*
        pub struct $name {
            raw: UnsafeCell<$raw>,
        }

        // SAFETY: the library's handle is proved to be `Send`, and whoever has `self` orders its calls.
        unsafe impl Send for $name {}

        impl $name {
            /// A handle that has nothing.
            pub const fn closed() -> Self {
                $name { raw: UnsafeCell::new($raw { inner: ptr::null_mut() }) }
            }
        }

        impl Drop for $name {
            fn drop(&mut self) {
                // SAFETY: the pointer is that of a handle which no other call has.
                unsafe { $close(self.raw.get()) }
            }
        }
    };
}

handle! {
    /// A shared desk: the callers and readers that were not opened yet.
    SharedHandle, pfair_shared, pfair_shared_close
}

handle! {
    /// A caller of a shared desk.
    CallerHandle, pfair_caller, pfair_caller_close
}

handle! {
    /// A reader of a shared desk.
    ReaderHandle, pfair_reader, pfair_reader_close
}

handle! {
    /// A snapshot of a shared desk.
    SnapshotHandle, pfair_snapshot, pfair_snapshot_close
}

impl SharedHandle {
    /// `pfair_shared_open`.
    pub fn open(&mut self, processors: u64, base: u64, cap: u64, every: u64, callers: u64, readers: u64) -> u32 {
        // SAFETY: the pointer is that of a handle which no other call has.
        unsafe { pfair_shared_open(self.raw.get(), processors, base, cap, every, callers, readers) }
    }

    /// `pfair_caller_open`.
    pub fn open_caller(&mut self, caller: &mut CallerHandle) -> u32 {
        // SAFETY: as in `open`, of both handles.
        unsafe { pfair_caller_open(self.raw.get(), caller.raw.get()) }
    }

    /// `pfair_reader_open`.
    pub fn open_reader(&mut self, reader: &mut ReaderHandle) -> u32 {
        // SAFETY: as in `open`, of both handles.
        unsafe { pfair_reader_open(self.raw.get(), reader.raw.get()) }
    }
}

impl CallerHandle {
    /// `pfair_caller_edit`.
    pub fn edit(&mut self, change: &pfair_change, strict: bool, reply: &mut pfair_reply) -> u32 {
        // SAFETY: the pointer is that of a handle which no other call has; the others are references to initialized values.
        unsafe { pfair_caller_edit(self.raw.get(), change, strict, reply) }
    }

    /// `pfair_caller_step`.
    pub fn step(&mut self, slot: &mut u64, processor: &mut u32, room: &mut [pfair_pick]) -> u32 {
        // SAFETY: as in `edit`; the slice has `len` initialized elements.
        unsafe { pfair_caller_step(self.raw.get(), slot, processor, room.as_mut_ptr(), room.len()) }
    }

    /// `pfair_caller_take`.
    pub fn take(&mut self, processor: u32, quantum: &mut pfair_quantum) -> u32 {
        // SAFETY: as in `edit`.
        unsafe { pfair_caller_take(self.raw.get(), processor, quantum) }
    }

    /// `pfair_caller_take_in`.
    pub fn take_in(&mut self, processor: u32, slot: u64, quantum: &mut pfair_quantum) -> u32 {
        // SAFETY: as in `edit`.
        unsafe { pfair_caller_take_in(self.raw.get(), processor, slot, quantum) }
    }

    /// `pfair_caller_stepped`.
    pub fn stepped(&self, slots: &mut u64) -> u32 {
        // SAFETY: as in `edit`; the handle is not `Sync`, so no other call has it.
        unsafe { pfair_caller_stepped(self.raw.get(), slots) }
    }

    /// `pfair_caller_look`.
    pub fn look(&mut self, entries: &mut u64) -> u32 {
        // SAFETY: as in `edit`.
        unsafe { pfair_caller_look(self.raw.get(), entries) }
    }
}

impl ReaderHandle {
    /// `pfair_reader_read`.
    pub fn read(&mut self, snapshot: &mut SnapshotHandle) -> u32 {
        // SAFETY: the pointers are those of handles which no other call has.
        unsafe { pfair_reader_read(self.raw.get(), snapshot.raw.get()) }
    }
}

impl SnapshotHandle {
    /// `pfair_snapshot_again`.
    pub fn again(&self, again: &mut SnapshotHandle) -> u32 {
        // SAFETY: as in `read`; the handle is not `Sync`, so no other call has it.
        unsafe { pfair_snapshot_again(self.raw.get(), again.raw.get()) }
    }

    /// `pfair_snapshot_now`.
    pub fn now(&self, entries: &mut u64, slots: &mut u64) -> u32 {
        // SAFETY: as in `again`; the others are references to initialized values.
        unsafe { pfair_snapshot_now(self.raw.get(), entries, slots) }
    }

    /// `pfair_snapshot_row`.
    pub fn row(&self, slot: u64, room: &mut [pfair_pick]) -> u32 {
        // SAFETY: as in `again`; the slice has `len` initialized elements.
        unsafe { pfair_snapshot_row(self.raw.get(), slot, room.as_mut_ptr(), room.len()) }
    }

    /// `pfair_snapshot_rows`.
    pub fn rows(&self, from: u64, to: u64, room: &mut [pfair_pick]) -> u32 {
        // SAFETY: as in `row`.
        unsafe { pfair_snapshot_rows(self.raw.get(), from, to, room.as_mut_ptr(), room.len()) }
    }
}
