//! A system as a fixed run of bytes (docs/IMAGE.md has the layout). Bytes
//! that mean nothing, such as those past the number of processes or past a
//! channel's length, are not read, and are written as 0.

use crate::message::{GroupIndex, Message, Proposal};
use crate::process::Process;
use crate::system::{System, CAPACITY};
use crate::view::{ProcessId, View};

/// The size of an image.
pub const SIZE: usize = 2105;

pub type Image = [u8; SIZE];

pub const PROCESS_BYTES: usize = 62;
pub const CHANNEL_BYTES: usize = 25;

/// Where process p begins, 1 to 8.
pub fn process_at(p: ProcessId) -> usize {
    1 + 62 * (usize::from(p.0) - 1)
}

/// Where, in a process, the proposal recorded from q is.
pub fn record_in(q: ProcessId) -> usize {
    6 + 3 * (usize::from(q.0) - 1)
}

/// Where, in a process, the entry at index i is.
pub fn entry_in(i: GroupIndex) -> usize {
    30 + (usize::from(i.0) - 1)
}

/// Where the channel from q to p begins.
pub fn channel_at(q: ProcessId, p: ProcessId) -> usize {
    497 + 200 * (usize::from(q.0) - 1) + 25 * (usize::from(p.0) - 1)
}

/// Where the marks of p are: bit q - 1 is that of (p, q).
pub fn marks_at(p: ProcessId) -> usize {
    2097 + (usize::from(p.0) - 1)
}

/// Where, in a channel, its length is.
pub const LENGTH_IN: usize = 24;

/// Reads the system that an image holds. Any bytes hold one; where a byte of
/// it stands for nothing, it is unreadable and so not sound.
pub fn decode(image: &Image) -> System {
    let n = image[0];
    let mut system = System::initial(if n <= 8 { n } else { 0 });
    system.n = n;
    if n > 8 {
        return system;
    }
    for p in system.everyone().members() {
        match decode_process(&image[process_at(p)..][..PROCESS_BYTES], n) {
            Some(process) => *system.process_mut(p) = process,
            None => system.unreadable = true,
        }
    }
    for (q, p) in system.pairs() {
        match decode_channel(&image[channel_at(q, p)..][..CHANNEL_BYTES]) {
            Some(channel) => *system.channel_mut(q, p) = channel,
            None => system.unreadable = true,
        }
    }
    for (p, q) in system.pairs() {
        system.set_mark(p, q, View(image[marks_at(p)]).contains(q));
    }
    system
}

/// Writes a system of at most eight processes, with channels of at most eight
/// messages.
pub fn encode(system: &System) -> Image {
    let mut image = [0; SIZE];
    image[0] = system.n;
    for p in system.everyone().members() {
        encode_process(system.process(p), &mut image[process_at(p)..][..PROCESS_BYTES]);
    }
    for (q, p) in system.pairs() {
        encode_channel(system.channel(q, p), &mut image[channel_at(q, p)..][..CHANNEL_BYTES]);
    }
    for p in system.everyone().members() {
        let marked = system.everyone().members().filter(|&q| system.mark(p, q));
        image[marks_at(p)] = marked.fold(View::EMPTY, View::with).0;
    }
    image
}

fn decode_process(bytes: &[u8], n: u8) -> Option<Process> {
    let mut process = Process::initial(View::EMPTY);
    process.crashed = match bytes[0] {
        0 => false,
        1 => true,
        _ => return None,
    };
    process.view = View(bytes[1]);
    process.next = GroupIndex(bytes[2]);
    process.propout = GroupIndex(bytes[3]);
    process.proposal = View(bytes[4]);
    process.acks = View(bytes[5]);
    for q in (1..=n).map(ProcessId) {
        let record = &bytes[record_in(q)..][..3];
        process.set_recorded(
            q,
            match record[0] {
                0 => None,
                1 => Some(proposal(record[1], record[2])),
                _ => return None,
            },
        );
    }
    for i in (1..=32).map(GroupIndex) {
        process.set_entry(i, View(bytes[entry_in(i)]));
    }
    Some(process)
}

fn encode_process(process: &Process, bytes: &mut [u8]) {
    bytes[0] = if process.crashed { 1 } else { 0 };
    bytes[1] = process.view.0;
    bytes[2] = process.next.0;
    bytes[3] = process.propout.0;
    bytes[4] = process.proposal.0;
    bytes[5] = process.acks.0;
    for q in (1..=8).map(ProcessId) {
        if let Some(Proposal { view, index }) = process.recorded(q) {
            bytes[record_in(q)..][..3].copy_from_slice(&[1, view.0, index.0]);
        }
    }
    for (i, view) in process.entries() {
        bytes[entry_in(i)] = view.0;
    }
}

/// None also for a channel that says it holds more than it has room for.
fn decode_channel(bytes: &[u8]) -> Option<Vec<Message>> {
    let length = usize::from(bytes[LENGTH_IN]);
    if length > CAPACITY {
        return None;
    }
    let slots = bytes.chunks(3).take(length);
    slots.map(|slot| decode_message(slot[0], slot[1], slot[2])).collect()
}

fn decode_message(tag: u8, first: u8, second: u8) -> Option<Message> {
    match tag {
        0 => Some(Message::Propose(proposal(first, second))),
        1 => Some(Message::Retry { old: GroupIndex(first), new: GroupIndex(second) }),
        2 => Some(Message::Acc(GroupIndex(first))),
        3 => Some(Message::Commit(proposal(first, second))),
        _ => None,
    }
}

fn encode_channel(channel: &[Message], bytes: &mut [u8]) {
    bytes[LENGTH_IN] = channel.len() as u8;
    for (message, slot) in channel.iter().zip(bytes.chunks_mut(3)) {
        slot.copy_from_slice(&match *message {
            Message::Propose(Proposal { view, index }) => [0, view.0, index.0],
            Message::Retry { old, new } => [1, old.0, new.0],
            Message::Acc(index) => [2, index.0, 0],
            Message::Commit(Proposal { view, index }) => [3, view.0, index.0],
        });
    }
}

fn proposal(view: u8, index: u8) -> Proposal {
    Proposal { view: View(view), index: GroupIndex(index) }
}
