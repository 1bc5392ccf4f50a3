//! A channel (document 01: line): first in, first out, eight messages.

use super::message::Message;

/// How many messages a channel holds.
pub const CAPACITY: usize = 8;

/// The oldest message is in slot 0. Slots from `len` on mean nothing, but
/// are part of the image. A handed-in `len` may be above the capacity.
#[derive(Clone, Copy, Debug, PartialEq, Eq)]
pub struct Channel {
    pub slots: [Message; CAPACITY],
    pub len: u8,
}

impl Channel {
    pub const EMPTY: Channel = Channel { slots: [Message::BLANK; CAPACITY], len: 0 };

    pub fn is_full(&self) -> bool {
        usize::from(self.len) >= CAPACITY
    }

    /// The waiting messages, oldest first; None if `len` is out of range.
    pub fn waiting(&self) -> Option<&[Message]> {
        self.slots.get(..usize::from(self.len))
    }

    /// The oldest message, left where it is.
    pub fn front(&self) -> Option<Message> {
        (self.len > 0).then_some(self.slots[0])
    }

    /// Takes the oldest message off; the others move up, and the last slot
    /// keeps what it had. Not for an empty channel.
    pub(super) fn drop_front(&mut self) {
        self.slots.copy_within(1.., 0);
        self.len -= 1;
    }

    /// Appends a message. Not for a full channel.
    pub(super) fn push(&mut self, message: Message) {
        self.slots[usize::from(self.len)] = message;
        self.len += 1;
    }
}
