//! What document 01 asks of a table before a step may be taken on it.

use crate::message::{GroupIndex, Message, Proposal};
use crate::process::Process;
use crate::system::{System, CAPACITY};
use crate::view::{ProcessId, View};

/// "A table is sound when n and all fields are in the ranges above .."
pub fn sound(system: &System) -> bool {
    (1..=8).contains(&system.n)
        && !system.unreadable
        && system.everyone().members().all(|p| {
            let process = system.process(p);
            ranges(process)
                && views_name_only(process, system.everyone())
                && process_sound(process, p)
                && system.everyone().members().all(|q| match process.recorded(q) {
                    Some(proposal) => proposal_sound(proposal, q, p, system.everyone()),
                    None => true,
                })
        })
        && system.pairs().all(|(q, p)| channel_sound(system, q, p))
}

/// "Next (2 to 33); PropOut (1 to 32)"
fn ranges(process: &Process) -> bool {
    (2..=33).contains(&process.next.0) && (1..=32).contains(&process.propout.0)
}

/// "every view names only units 1 to n": the set of those that acknowledged
/// is a view too.
fn views_name_only(process: &Process, everyone: View) -> bool {
    process.view.is_subset(everyone)
        && process.proposal.is_subset(everyone)
        && process.acks.is_subset(everyone)
        && process.entries().all(|(_, view)| view.is_subset(everyone))
}

fn process_sound(process: &Process, p: ProcessId) -> bool {
    // "position 1 holds a non-empty view at each unit"
    !process.entry(GroupIndex(1)).is_empty()
        // "each local view contains its own unit"
        && process.view.contains(p)
        // "the last proposed view is empty if PropOut is 1 and otherwise
        // contains its own unit"
        && match process.propout {
            GroupIndex(1) => process.proposal.is_empty(),
            _ => process.proposal.contains(p),
        }
}

fn channel_sound(system: &System, q: ProcessId, p: ProcessId) -> bool {
    let channel = system.channel(q, p);
    // "It holds 0 to 8 messages"
    channel.len() <= CAPACITY
        // "every line towards a stopped unit is empty"
        && (!system.process(p).crashed || channel.is_empty())
        && channel.iter().all(|message| message_sound(*message, q, p, system.everyone()))
}

fn message_sound(message: Message, q: ProcessId, p: ProcessId, everyone: View) -> bool {
    match message {
        Message::Propose(proposal) => proposal_sound(proposal, q, p, everyone),
        Message::Commit(proposal) => proposal_sound(proposal, q, p, everyone),
        // "Acc carries a position from 2 to 32"
        Message::Acc(index) => (2..=32).contains(&index.0),
        // "Retry carries old from 2 to 32 and new from old + 1 to 33"
        Message::Retry { old, new } => {
            (2..=32).contains(&old.0) && (old.0 + 1..=33).contains(&new.0)
        }
    }
}

/// "Propose and Commit carry a position from 2 to 32 and a view with both
/// sender and receiver in it, and so does a recorded proposal"
fn proposal_sound(proposal: Proposal, q: ProcessId, p: ProcessId, everyone: View) -> bool {
    (2..=32).contains(&proposal.index.0)
        && proposal.view.contains(q)
        && proposal.view.contains(p)
        && proposal.view.is_subset(everyone)
}
