//! What document 01 asks of a table before a step may be taken on it.
//! Processes past n, channels at them and unused slots may hold anything.

use super::channel::Channel;
use super::message::{GroupIndex, Message, Proposal, LAST_INDEX};
use super::process::Process;
use super::system::{System, MAX_PROCESSES};
use super::view::{ProcessId, View};

/// Is the system sound?
pub fn sound(system: &System) -> bool {
    if !(1..=MAX_PROCESSES).contains(&usize::from(system.n)) {
        return false;
    }
    let everyone = system.everyone();
    everyone.members().all(|p| {
        process_sound(system.process(p), p, everyone)
            && everyone.members().all(|q| {
                let channel = system.channel(q, p);
                channel_sound(channel, View::only(q).with(p), everyone)
                    && !(system.process(p).crashed && channel.len > 0)
            })
    })
}

fn process_sound(process: &Process, p: ProcessId, everyone: View) -> bool {
    let ranges = (2..=LAST_INDEX + 1).contains(&process.next.0)
        && (1..=LAST_INDEX).contains(&process.propout.0);
    let views = process.view.is_subset(everyone)
        && process.view.contains(p)
        && process.acks.is_subset(everyone);
    let proposal = if process.propout == GroupIndex(1) {
        process.proposal.is_empty()
    } else {
        process.proposal.is_subset(everyone) && process.proposal.contains(p)
    };
    let recorded = everyone.members().all(|q| match process.recorded[q.slot()] {
        Some(proposal) => proposal_sound(proposal, View::only(p).with(q), everyone),
        None => true,
    });
    let written = process.history.iter().fold(View::EMPTY, |all, view| all.union(*view));
    let history = !process.history[0].is_empty() && written.is_subset(everyone);
    ranges && views && proposal && recorded && history
}

/// `ends` is the channel's sender and receiver.
fn channel_sound(channel: &Channel, ends: View, everyone: View) -> bool {
    match channel.waiting() {
        Some(messages) => messages.iter().all(|&m| message_sound(m, ends, everyone)),
        None => false,
    }
}

fn message_sound(message: Message, ends: View, everyone: View) -> bool {
    match message {
        Message::Propose(proposal) | Message::Commit(proposal) => {
            proposal_sound(proposal, ends, everyone)
        }
        Message::Retry { old, new } => can_propose_at(old) && old < new && new.0 <= LAST_INDEX + 1,
        Message::Acc(index) => can_propose_at(index),
    }
}

fn proposal_sound(proposal: Proposal, ends: View, everyone: View) -> bool {
    can_propose_at(proposal.index)
        && proposal.view.is_subset(everyone)
        && ends.is_subset(proposal.view)
}

fn can_propose_at(index: GroupIndex) -> bool {
    (2..=LAST_INDEX).contains(&index.0)
}
