//! A system as a fixed run of bytes: n, eight processes, sixty-four channels, eight sets of trust.

use super::channel::{Channel, CAPACITY};
use super::message::{GroupIndex, Message, Proposal};
use super::process::{Process, POSITIONS};
use super::system::{System, MAX_PROCESSES};
use super::view::View;

const PROPOSAL_BYTES: usize = 3;
const MESSAGE_BYTES: usize = 3;
const RECORDED: usize = 6;
const HISTORY: usize = RECORDED + MAX_PROCESSES * PROPOSAL_BYTES;
const PROCESS_BYTES: usize = HISTORY + POSITIONS;
const LENGTH: usize = CAPACITY * MESSAGE_BYTES;
const CHANNEL_BYTES: usize = LENGTH + 1;
const CHANNELS: usize = 1 + MAX_PROCESSES * PROCESS_BYTES;

const TRUSTED: usize = CHANNELS + MAX_PROCESSES * MAX_PROCESSES * CHANNEL_BYTES;

/// The size of an image: 2,105 bytes.
pub const SIZE: usize = TRUSTED + MAX_PROCESSES;

pub type Image = [u8; SIZE];

/// Reads the table of an image, and nothing else of it; None if there is no
/// such table. What is read need not be sound.
pub fn decode(image: &Image) -> Option<System> {
    let mut system = System::initial(0);
    let n = usize::from(image[0]);
    if n > MAX_PROCESSES {
        return None;
    }
    system.n = image[0];
    let processes = image[1..CHANNELS].chunks_exact(PROCESS_BYTES);
    for (process, bytes) in system.processes.iter_mut().zip(processes).take(n) {
        decode_process(process, bytes, n)?;
    }
    let rows = image[CHANNELS..TRUSTED].chunks_exact(MAX_PROCESSES * CHANNEL_BYTES);
    for (row, bytes) in system.channels.iter_mut().zip(rows).take(n) {
        for (channel, bytes) in row.iter_mut().zip(bytes.chunks_exact(CHANNEL_BYTES)).take(n) {
            decode_channel(channel, bytes)?;
        }
    }
    for (trusted, &byte) in system.trusted.iter_mut().zip(&image[TRUSTED..]).take(n) {
        *trusted = View(byte);
    }
    Some(system)
}

/// Writes a system.
pub fn encode(system: &System) -> Image {
    let mut image = [0; SIZE];
    image[0] = system.n;
    let processes = image[1..CHANNELS].chunks_exact_mut(PROCESS_BYTES);
    for (process, bytes) in system.processes.iter().zip(processes) {
        encode_process(process, bytes);
    }
    let channels = image[CHANNELS..TRUSTED].chunks_exact_mut(CHANNEL_BYTES);
    for (channel, bytes) in system.channels.iter().flatten().zip(channels) {
        encode_channel(channel, bytes);
    }
    for (trusted, byte) in system.trusted.iter().zip(&mut image[TRUSTED..]) {
        *byte = trusted.0;
    }
    image
}

fn decode_process(process: &mut Process, bytes: &[u8], n: usize) -> Option<()> {
    process.crashed = match bytes[0] {
        0 => false,
        1 => true,
        _ => return None,
    };
    process.view = View(bytes[1]);
    process.next = GroupIndex(bytes[2]);
    process.propout = GroupIndex(bytes[3]);
    process.proposal = View(bytes[4]);
    process.acks = View(bytes[5]);
    let recorded = bytes[RECORDED..HISTORY].chunks_exact(PROPOSAL_BYTES);
    for (recorded, bytes) in process.recorded.iter_mut().zip(recorded).take(n) {
        *recorded = match bytes[0] {
            0 => None,
            1 => Some(proposal(bytes[1], bytes[2])),
            _ => return None,
        };
    }
    for (view, &byte) in process.history.iter_mut().zip(&bytes[HISTORY..]) {
        *view = View(byte);
    }
    Some(())
}

fn encode_process(process: &Process, bytes: &mut [u8]) {
    bytes[0] = process.crashed.into();
    bytes[1] = process.view.0;
    bytes[2] = process.next.0;
    bytes[3] = process.propout.0;
    bytes[4] = process.proposal.0;
    bytes[5] = process.acks.0;
    let recorded = bytes[RECORDED..HISTORY].chunks_exact_mut(PROPOSAL_BYTES);
    for (recorded, bytes) in process.recorded.iter().zip(recorded) {
        bytes.copy_from_slice(&match recorded {
            None => [0, 0, 0],
            Some(proposal) => [1, proposal.view.0, proposal.index.0],
        });
    }
    for (view, byte) in process.history.iter().zip(&mut bytes[HISTORY..]) {
        *byte = view.0;
    }
}

fn decode_channel(channel: &mut Channel, bytes: &[u8]) -> Option<()> {
    channel.len = bytes[LENGTH];
    let slots = channel.slots.get_mut(..usize::from(channel.len))?;
    for (slot, bytes) in slots.iter_mut().zip(bytes.chunks_exact(MESSAGE_BYTES)) {
        let (first, second) = (bytes[1], bytes[2]);
        *slot = match bytes[0] {
            0 => Message::Propose(proposal(first, second)),
            1 => Message::Retry { old: GroupIndex(first), new: GroupIndex(second) },
            2 => Message::Acc(GroupIndex(first)),
            3 => Message::Commit(proposal(first, second)),
            _ => return None,
        };
    }
    Some(())
}

fn encode_channel(channel: &Channel, bytes: &mut [u8]) {
    let slots = bytes[..LENGTH].chunks_exact_mut(MESSAGE_BYTES);
    for (slot, bytes) in channel.slots.iter().zip(slots) {
        bytes.copy_from_slice(&match *slot {
            Message::Propose(proposal) => [0, proposal.view.0, proposal.index.0],
            Message::Retry { old, new } => [1, old.0, new.0],
            Message::Acc(index) => [2, index.0, 0],
            Message::Commit(proposal) => [3, proposal.view.0, proposal.index.0],
        });
    }
    bytes[LENGTH] = channel.len;
}

fn proposal(view: u8, index: u8) -> Proposal {
    Proposal { view: View(view), index: GroupIndex(index) }
}
