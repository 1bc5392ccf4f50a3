//! The state of one process (document 01: unit); Table 2 of the paper.

use crate::message::{GroupIndex, Proposal};
use crate::system::MAX_PROCESSES;
use crate::view::{ProcessId, View};

/// Positions in a history.
pub const POSITIONS: usize = 32;

#[derive(Clone, Copy, Debug, PartialEq, Eq)]
pub struct Process {
    /// Has it stopped for good?
    pub crashed: bool,
    /// The local view.
    pub view: View,
    /// The first position not yet accepted for: 2 to 33.
    pub next: GroupIndex,
    /// Index of the latest proposal sent: 1 to 32.
    pub propout: GroupIndex,
    /// v*, the last proposed view.
    pub proposal: View,
    /// Who has acknowledged that proposal.
    pub acks: View,
    recorded: [Option<Proposal>; MAX_PROCESSES],
    history: [View; POSITIONS],
}

impl Process {
    /// "every local view and every entry at position 1 is the set of all n;
    /// other positions are empty; Next is 2, PropOut 1, the last proposed
    /// view empty; no acknowledgement, recorded proposal or message."
    pub fn initial(everyone: View) -> Process {
        let mut process = Process {
            crashed: false,
            view: everyone,
            next: GroupIndex(2),
            propout: GroupIndex(1),
            proposal: View::EMPTY,
            acks: View::EMPTY,
            recorded: [None; MAX_PROCESSES],
            history: [View::EMPTY; POSITIONS],
        };
        process.set_entry(GroupIndex(1), everyone);
        process
    }

    /// The proposal recorded from q, 1 to 8, if there is one.
    pub fn recorded(&self, q: ProcessId) -> Option<Proposal> {
        self.recorded[usize::from(q.0) - 1]
    }

    pub fn set_recorded(&mut self, q: ProcessId, proposal: Option<Proposal>) {
        self.recorded[usize::from(q.0) - 1] = proposal;
    }

    /// The global view at index i, 1 to 32; the empty view is the empty
    /// position.
    pub fn entry(&self, i: GroupIndex) -> View {
        self.history[usize::from(i.0) - 1]
    }

    pub fn set_entry(&mut self, i: GroupIndex, view: View) {
        self.history[usize::from(i.0) - 1] = view;
    }

    /// The positions 1 to 32 with what stands there.
    pub fn entries(&self) -> impl Iterator<Item = (GroupIndex, View)> + '_ {
        (1..=POSITIONS as u8).map(GroupIndex).map(|i| (i, self.entry(i)))
    }
}
