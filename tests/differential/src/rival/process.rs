//! The state of one process (document 01: unit); Table 2 of the paper.

use super::message::{GroupIndex, Proposal};
use super::system::MAX_PROCESSES;
use super::view::View;

/// Positions in a history.
pub const POSITIONS: usize = 32;

#[derive(Clone, Copy, Debug, PartialEq, Eq)]
pub struct Process {
    /// Has it stopped for good?
    pub crashed: bool,
    /// The local view.
    pub view: View,
    /// The first position not yet accepted for: 2 to 33.
    pub next: GroupIndex,
    /// Index of the latest proposal sent: 1 to 32.
    pub propout: GroupIndex,
    /// v*, the last proposed view.
    pub proposal: View,
    /// Who has acknowledged that proposal.
    pub acks: View,
    /// The recorded proposal of each process, if any.
    pub recorded: [Option<Proposal>; MAX_PROCESSES],
    /// The global views; an empty view is an empty position.
    pub history: [View; POSITIONS],
}

impl Process {
    /// A process that starts in the given view.
    pub fn initial(view: View) -> Process {
        let mut history = [View::EMPTY; POSITIONS];
        history[0] = view;
        Process {
            crashed: false,
            view,
            next: GroupIndex(2),
            propout: GroupIndex(1),
            proposal: View::EMPTY,
            acks: View::EMPTY,
            recorded: [None; MAX_PROCESSES],
            history,
        }
    }
}
