//! The proved library of group membership, in safe Rust.
//!
//! A [`System`] is up to eight processes and the channels between them. It is kept as the image that
//! the library works on. A step is an [`Action`], whole or cut; it is done, or refused with a
//! [`Refusal`], and then the system is as it was, byte for byte.
//!
//! ```
//! use lobstercreel::{Action, GroupIndex, ProcessId, Refusal, System, View};
//!
//! let (p, q) = (ProcessId(1), ProcessId(2));
//! let mut system = System::fresh(2)?;
//! system.perform(Action::Report { p, view: View::from([p, q]) })?;
//! system.perform(Action::Receive { from: p, at: q })?;
//! system.perform(Action::Respond { p: q, to: p })?;
//!
//! let process = system.process(q).expect("one of two");
//! assert_eq!(process.next, GroupIndex(3));
//! assert_eq!(system.perform(Action::Respond { p: q, to: p }), Err(Refusal::NoRecord));
//!
//! // The rest of the agreement by itself.
//! let settling = system.settle()?;
//! assert_eq!(settling.steps, 6);
//! assert_eq!(system.entry(q, GroupIndex(2)), Some(View::first(2)));
//! # Ok::<(), Refusal>(())
//! ```
//!
//! # Words
//!
//! The names are the field's. A process is what the papers and the C header call a unit, a group
//! index a position, a channel a line, a system a table; to receive is to take, to respond to answer,
//! to crash to stop.
//!
//! # Numbers of their own kinds
//!
//! A process, a group index and a view are three types, so that they cannot be mixed up:
//!
//! ```
//! # use lobstercreel::{GroupIndex, ProcessId, System};
//! # let system = System::fresh(2).unwrap();
//! system.entry(ProcessId(2), GroupIndex(1));
//! ```
//!
//! ```compile_fail,E0308
//! # use lobstercreel::{GroupIndex, ProcessId, System};
//! # let system = System::fresh(2).unwrap();
//! system.entry(GroupIndex(1), ProcessId(2));
//! ```
//!
//! ```compile_fail,E0308
//! # use lobstercreel::System;
//! # let system = System::fresh(2).unwrap();
//! system.entry(2, 1);
//! ```
//!
//! ```compile_fail,E0308
//! # use lobstercreel::{Action, ProcessId, View};
//! Action::Report { p: View::first(2), view: ProcessId(1) };
//! ```
//!
//! Each kind takes every number, as the library does: nothing has to be tested before a call.
//!
//! # Damaged images
//!
//! Any 2,105 bytes are a system ([`System::from_image`]). Reading it never panics. If it is not
//! sound, each step is refused with [`Refusal::Unsound`].
//!
//! # The functions of the C header
//!
//! | header | here |
//! |---|---|
//! | `lobstercreel_fresh` | [`System::fresh`], [`System::renew`] |
//! | `lobstercreel_report`, `_receive`, `_respond`, `_crash` | [`System::perform`] of an [`Action`] |
//! | `lobstercreel_report_cut`, `_receive_cut`, `_respond_cut` | [`System::perform`] of an [`Action::cut_after`] |
//! | `lobstercreel_steps` | [`System::perform_into`], `System::perform_all` |
//! | `lobstercreel_settle` | [`System::settle`] |
//! | `lobstercreel_run` | [`run_sheet_into`], `run_sheet` |
//!
//! [`raw`] has them all as they are in C: slices for pointers, numbers for the rest.
//!
//! # Without std
//!
//! The crate is `no_std`. The feature `alloc`, on by default, has what returns a `Vec` or a `String`:
//! `System::perform_all` and `run_sheet`.
//!
//! The library is linked from target/staticlib/libcapi.a, which `bash tools/build library` makes at
//! the repository's root.

#![no_std]
#![deny(missing_docs, unsafe_code)]

#[cfg(feature = "alloc")]
extern crate alloc;

mod layout;
mod message;
mod process;
pub mod raw;
mod refusal;
mod settling;
mod sheet;
mod step;
mod system;
mod view;

pub use message::{Channel, Message, Proposal};
pub use process::{History, Process};
pub use refusal::{Answer, Refusal};
pub use settling::{Ending, Settling};
#[cfg(feature = "alloc")]
pub use sheet::run_sheet;
pub use sheet::run_sheet_into;
pub use step::{Action, Step};
pub use system::{System, WrongSize};
pub use view::{GroupIndex, Members, ProcessId, View};

/// The length of an image (docs/IMAGE.md).
pub const IMAGE: usize = 2_105;

/// The most messages that a channel holds.
pub const CAPACITY: usize = 8;

/// A settling run does no more steps than these.
pub const MOST_STEPS: u16 = 7_936;

/// No sheet prints more bytes than these.
pub const OUTPUT: usize = 603_400;
