//! Where things are in an image (docs/IMAGE.md).

use crate::{CAPACITY, IMAGE};

/// The eight processes.
pub(crate) const PROCESSES: usize = 1;
pub(crate) const PROCESS: usize = RECORDS + 8 * RECORD + HISTORY;

/// In a process: six variables, what is recorded from each of eight, and the history.
pub(crate) const RECORDS: usize = 6;
pub(crate) const RECORD: usize = 3;
pub(crate) const ENTRIES: usize = RECORDS + 8 * RECORD;
pub(crate) const HISTORY: usize = 32;

/// The sixty-four channels, those from process 1 first.
pub(crate) const CHANNELS: usize = PROCESSES + 8 * PROCESS;
pub(crate) const CHANNEL: usize = LENGTH + 1;

/// In a channel: eight slots and the length.
pub(crate) const SLOT: usize = 3;
pub(crate) const LENGTH: usize = CAPACITY * SLOT;

/// For each process, those that it may trust again.
pub(crate) const TRUST: usize = CHANNELS + 64 * CHANNEL;

const _: () = assert!(TRUST + 8 == IMAGE);
