//! Group indices and what processes send each other.

use crate::view::View;

/// The last position of a history.
pub const LAST_INDEX: u8 = 32;

/// A position in a history (document 01: position), the first being 1.
#[derive(Clone, Copy, Debug, PartialEq, Eq, PartialOrd, Ord, Hash)]
pub struct GroupIndex(pub u8);

/// A view proposed at a group index.
#[derive(Clone, Copy, Debug, PartialEq, Eq)]
pub struct Proposal {
    pub view: View,
    pub index: GroupIndex,
}

#[derive(Clone, Copy, Debug, PartialEq, Eq)]
pub enum Message {
    Propose(Proposal),
    Retry { old: GroupIndex, new: GroupIndex },
    Acc(GroupIndex),
    Commit(Proposal),
}
