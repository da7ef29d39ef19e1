//! The calls of `pfair.h` and `pfair_shared.h` as they are ([`raw`]), their numbers, and handles that keep the four duties of a
//! caller: [`Handle`], and those of a shared desk. The crate `pfair` is what a program wants.
#![no_std]

mod handle;
mod shared_handles;

/// The calls and structs of the headers, which document them.
#[allow(non_camel_case_types, missing_docs)]
pub mod raw {
    include!(concat!(env!("OUT_DIR"), "/raw.rs"));
}

pub use handle::{abi, name, record_faults, script_faults, sentence, version, Handle};
pub use shared_handles::{CallerHandle, ReaderHandle, SharedHandle, SnapshotHandle};

include!(concat!(env!("OUT_DIR"), "/numbers.rs"));
