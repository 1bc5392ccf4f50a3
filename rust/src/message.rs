//! Messages, and the channels in which they wait.

use crate::layout::{CHANNEL, CHANNELS, LENGTH, SLOT};
use crate::view::{GroupIndex, ProcessId, View};
use crate::{CAPACITY, IMAGE};
use core::fmt::{self, Formatter};
use core::slice;

/// A view proposed, or committed, at a group index.
#[derive(Clone, Copy, Debug, PartialEq, Eq, Hash)]
pub struct Proposal {
    /// The view.
    pub view: View,
    /// The group index.
    pub index: GroupIndex,
}

impl Proposal {
    pub(crate) fn read(view: u8, index: u8) -> Proposal {
        Proposal { view: View::from_bits(view), index: GroupIndex(index) }
    }
}

/// What processes send each other.
///
/// In a damaged image a tag may stand for nothing. It is read as an Acc at index 0, which is not sound.
#[derive(Clone, Copy, Debug, PartialEq, Eq, Hash)]
pub enum Message {
    /// A view is proposed at an index.
    Propose(Proposal),
    /// A proposal comes too late: its index, and the first one that is still accepted.
    Retry {
        /// The index of the proposal.
        old: GroupIndex,
        /// The index at which to propose anew.
        new: GroupIndex,
    },
    /// The proposal at this index is accepted.
    Acc(GroupIndex),
    /// A view is agreed upon at an index.
    Commit(Proposal),
}

impl Message {
    const NONSENSE: Message = Message::Acc(GroupIndex(0));

    fn read(slot: &[u8]) -> Message {
        match *slot {
            [0, view, index] => Message::Propose(Proposal::read(view, index)),
            [1, old, new] => Message::Retry { old: GroupIndex(old), new: GroupIndex(new) },
            [2, index, _] => Message::Acc(GroupIndex(index)),
            [3, view, index] => Message::Commit(Proposal::read(view, index)),
            _ => Message::NONSENSE,
        }
    }
}

/// The channel from one process to another (the papers: line), as it was when it was read.
///
/// ```
/// use lobstercreel::{Action, GroupIndex, Message, ProcessId, Proposal, Refusal, System, View};
///
/// let (p, q) = (ProcessId(1), ProcessId(2));
/// let mut system = System::fresh(2)?;
/// system.perform(Action::Report { p, view: View::first(2) })?;
/// let channel = system.channel(p, q).expect("one of four");
/// let proposal = Proposal { view: View::first(2), index: GroupIndex(2) };
/// assert_eq!(channel.messages(), [Message::Propose(proposal)]);
/// // One Propose goes to each of the view, the sender too.
/// assert!(system.channels().all(|channel| channel.messages().len() == usize::from(channel.from == p)));
/// # Ok::<(), Refusal>(())
/// ```
#[derive(Clone, Copy, PartialEq, Eq, Hash)]
#[non_exhaustive]
pub struct Channel {
    /// The process that sends.
    pub from: ProcessId,
    /// The process at which the messages wait.
    pub at: ProcessId,
    /// Past the length they are all alike, so that two channels are equal if they say the same.
    slots: [Message; CAPACITY],
    length: u8,
}

impl Channel {
    /// Both are 1 to 8.
    pub(crate) fn read(image: &[u8; IMAGE], from: ProcessId, at: ProcessId) -> Channel {
        let number = 8 * (usize::from(from.0) - 1) + usize::from(at.0) - 1;
        let bytes = &image[CHANNELS + CHANNEL * number..][..CHANNEL];
        let length = bytes[LENGTH];
        let mut slots = [Message::NONSENSE; CAPACITY];
        let waiting = slots.iter_mut().take(length.into());
        waiting.zip(bytes.chunks(SLOT)).for_each(|(slot, bytes)| *slot = Message::read(bytes));
        Channel { from, at, slots, length }
    }

    /// The messages that wait, oldest first.
    pub fn messages(&self) -> &[Message] {
        &self.slots[..CAPACITY.min(self.length.into())]
    }

    /// The same, one after the other.
    pub fn iter(&self) -> slice::Iter<'_, Message> {
        self.messages().iter()
    }

    /// How many messages wait. In a damaged image it may say more than the 8 there can be.
    pub fn length(&self) -> u8 {
        self.length
    }
}

/// The messages, oldest first.
impl<'a> IntoIterator for &'a Channel {
    type Item = &'a Message;
    type IntoIter = slice::Iter<'a, Message>;

    fn into_iter(self) -> slice::Iter<'a, Message> {
        self.iter()
    }
}

impl fmt::Debug for Channel {
    fn fmt(&self, f: &mut Formatter<'_>) -> fmt::Result {
        let mut fields = f.debug_struct("Channel");
        fields.field("from", &self.from.0).field("at", &self.at.0);
        if usize::from(self.length) > CAPACITY {
            fields.field("length", &self.length);
        }
        fields.field("messages", &self.messages()).finish()
    }
}
