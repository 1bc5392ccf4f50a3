//! The group membership algorithm of Franceschetti and Bruck (Figure 3), on
//! channels of eight messages and histories of thirty-two positions: an
//! oracle, written from the papers alone, sentence by sentence. Where a
//! sentence of document 01 says what a line does, it stands beside it.
//!
//! The words here are the paper's. Document 01 says unit for process, line
//! for channel, position for group index, table for system; take for
//! receive, answer for respond, stop for crash.

pub mod image;

mod class;
mod message;
mod process;
mod refusal;
mod settle;
mod sheet;
mod soundness;
mod step;
mod system;
mod tally;
mod view;
mod walk;

pub use class::{class_output, read_sheet, NAMES_LIMIT, NAME_LIMIT};
pub use message::{GroupIndex, Message, Proposal, LAST_INDEX};
pub use process::{Process, POSITIONS};
pub use refusal::{number, Outcome, Refusal};
pub use settle::{at_rest, settle, settle_told, settle_within, Ending, Settling, BUDGET};
pub use sheet::{run_sheet, SHEET_LIMIT};
pub use soundness::sound;
pub use step::{crash, receive, report, respond, Action, Event, Step};
pub use system::{fresh, Channel, System, CAPACITY, MAX_PROCESSES};
pub use tally::{tally_sheet, Tally};
pub use view::{ProcessId, View};
pub use walk::{print_walk, walk, Walk};
