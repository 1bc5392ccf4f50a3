//! Group indices and what processes send each other.

use super::view::View;

/// The last position of a history.
pub const LAST_INDEX: u8 = 32;

/// A position in a history (document 01: position), the first being 1.
#[derive(Clone, Copy, Debug, PartialEq, Eq, PartialOrd, Ord)]
pub struct GroupIndex(pub u8);

impl GroupIndex {
    /// The place in an array of positions. Only for indices from 1 on.
    pub(super) fn slot(self) -> usize {
        usize::from(self.0) - 1
    }

    /// The index after this one. Only for indices up to 254.
    pub(super) fn successor(self) -> GroupIndex {
        GroupIndex(self.0 + 1)
    }
}

/// A view proposed at a group index.
#[derive(Clone, Copy, Debug, PartialEq, Eq)]
pub struct Proposal {
    pub view: View,
    pub index: GroupIndex,
}

#[derive(Clone, Copy, Debug, PartialEq, Eq)]
pub enum Message {
    Propose(Proposal),
    Retry { old: GroupIndex, new: GroupIndex },
    Acc(GroupIndex),
    Commit(Proposal),
}

impl Message {
    /// What stands in a channel's unused slots.
    pub const BLANK: Message =
        Message::Propose(Proposal { view: View::EMPTY, index: GroupIndex(0) });
}
