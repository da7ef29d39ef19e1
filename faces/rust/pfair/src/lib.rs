//! The planner's desk of Zuthlemyr: a plan of periodic tasks on one to 64 processors, its schedule by the rules of PD2, and
//! changes to the plan at any time, in the past too. What the desk answers is proved; this crate hands it over.
//!
//! ```
//! use pfair::{Desk, Event, Settings};
//!
//! # fn main() -> Result<(), pfair::Error> {
//! // Two processors, and three tasks that each ask for two quanta in three slots.
//! let mut desk = Desk::open(Settings::new(2, 3))?;
//! for task in 1..=3 {
//!     desk.insert(Event::join(0, task, 2, 3))?;
//! }
//! assert_eq!(desk.advance(3)?, 3);
//! let rows: Vec<String> = desk.rows().map(|row| row.to_string()).collect();
//! assert_eq!(rows, ["1/1 2/1", "1/2 3/1", "2/2 3/2"]);
//! # Ok(())
//! # }
//! ```
//!
//! Slots, periods and deadlines are counted in slots from 0, costs in quanta of one slot. A weight cost/period is a part of
//! one processor; each period divides the base of the settings.
//!
//! A [`Desk`] is one thread's at a time. A [`SharedDesk`] is for many threads: planners, dispatchers and readers at one plan.
#![forbid(unsafe_code)]
#![warn(missing_docs)]

mod caller;
mod change;
mod desk;
mod error;
mod library;
mod look;
mod parse_error;
mod quantum;
mod reader;
mod row;
mod settings;
mod shared_desk;
mod snapshot;
mod text;
mod told;

pub use caller::Caller;
pub use change::{Change, Event};
pub use desk::{Desk, Rows};
pub use error::{BadRecord, DenialReason, Error, Refusal, WeightFault};
pub use library::{name, record_faults, script_faults, sentence, version};
pub use look::{Look, Style};
pub use parse_error::ParseError;
pub use quantum::Quantum;
pub use reader::Reader;
pub use row::{Pick, Row};
pub use settings::Settings;
pub use shared_desk::SharedDesk;
pub use snapshot::Snapshot;
pub use text::{Part, Text};
pub use told::{Denial, Figures, Fit, Lag, Miss};
