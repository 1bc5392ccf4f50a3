//! The guarded commands of Figure 3, whole or cut, with refusals 2 to 13. The system must
//! be sound: nothing here tests it, and on another a step may panic. A
//! refused step leaves the system as it was.

use super::channel::Channel;
use super::message::{GroupIndex, Message, Proposal, LAST_INDEX};
use super::refusal::{Outcome, Refusal};
use super::system::System;
use super::view::{ProcessId, View};

/// Process p is told its local view.
pub fn report(system: &mut System, p: ProcessId, view: View, cut: Option<u8>) -> Outcome {
    require_known(system, p)?;
    require_live(system, p)?;
    if !view.is_subset(system.everyone()) || !view.contains(p) {
        return Err(Refusal::OddView);
    }
    let old = system.process(p).view;
    if !view.is_subset(old.union(system.trusted[p.slot()])) {
        return Err(Refusal::EarlyTrust);
    }
    if view.min() == Some(p) {
        let propout = system.process(p).propout;
        if propout.0 >= LAST_INDEX {
            return Err(Refusal::HistoryFull);
        }
        let to = told(view, cut)?;
        system.require_room(p, to)?;
        system.process_mut(p).proposal = view;
        propose(system, p, view, to, propout.successor());
    } else {
        require_whole(cut)?;
    }
    suspect(system, p, View(system.everyone().0 & !view.0));
    system.process_mut(p).view = view;
    stop_if(system, p, cut);
    Ok(())
}

/// Process p, whose view is still the old one, is to lack these processes: each may trust p again, and
/// p those that it had and that already lack p.
fn suspect(system: &mut System, p: ProcessId, lacked: View) {
    let old = system.process(p).view;
    for q in lacked.members() {
        system.trusted[q.slot()] = system.trusted[q.slot()].with(p);
        if old.contains(q) {
            let mine = system.trusted[p.slot()];
            let doubts = !system.process(q).view.contains(p);
            system.trusted[p.slot()] = if doubts { mine.with(q) } else { mine.without(q) };
        }
    }
}

/// Process p receives the oldest message from q (document 01: take).
pub fn receive(system: &mut System, q: ProcessId, p: ProcessId, cut: Option<u8>) -> Outcome {
    require_known(system, q)?;
    require_known(system, p)?;
    require_live(system, p)?;
    let message = system.channel(q, p).front().ok_or(Refusal::NothingThere)?;
    match message {
        Message::Propose(proposal) => {
            require_whole(cut)?;
            system.channel_mut(q, p).drop_front();
            system.process_mut(p).recorded[q.slot()] = Some(proposal);
            Ok(())
        }
        Message::Retry { old, new } => receive_retry(system, q, p, (old, new), cut),
        Message::Acc(index) => receive_acc(system, q, p, index, cut),
        Message::Commit(Proposal { view, index }) => {
            require_whole(cut)?;
            system.channel_mut(q, p).drop_front();
            system.process_mut(p).history[index.slot()] = view;
            Ok(())
        }
    }
}

fn receive_retry(
    system: &mut System,
    q: ProcessId,
    p: ProcessId,
    (old, new): (GroupIndex, GroupIndex),
    cut: Option<u8>,
) -> Outcome {
    let process = system.process(p);
    let view = process.view;
    if process.propout != old || view.min() != Some(p) {
        require_whole(cut)?;
        system.channel_mut(q, p).drop_front();
        return Ok(());
    }
    if new.0 > LAST_INDEX {
        return Err(Refusal::HistoryFull);
    }
    let to = told(view, cut)?;
    system.require_room(p, contended(to, q, p))?;
    system.channel_mut(q, p).drop_front();
    propose(system, p, view, to, new);
    stop_if(system, p, cut);
    Ok(())
}

fn receive_acc(
    system: &mut System,
    q: ProcessId,
    p: ProcessId,
    index: GroupIndex,
    cut: Option<u8>,
) -> Outcome {
    let process = system.process(p);
    let (view, propout) = (process.proposal, process.propout);
    let acks = if index == propout { process.acks.with(q) } else { process.acks };
    // The departure from the figure: an empty last proposed view is never
    // complete.
    if view.is_empty() || !view.is_subset(acks) {
        require_whole(cut)?;
        system.channel_mut(q, p).drop_front();
        system.process_mut(p).acks = acks;
        return Ok(());
    }
    let to = told(view, cut)?;
    system.require_room(p, contended(to, q, p))?;
    system.channel_mut(q, p).drop_front();
    system.process_mut(p).acks = View::EMPTY;
    system.broadcast(p, to, Message::Commit(Proposal { view, index: propout }));
    stop_if(system, p, cut);
    Ok(())
}

/// Process p responds to the recorded proposal of q (document 01: answer).
pub fn respond(system: &mut System, p: ProcessId, q: ProcessId, cut: Option<u8>) -> Outcome {
    require_known(system, p)?;
    require_known(system, q)?;
    require_live(system, p)?;
    let process = system.process(p);
    let index = match process.recorded[q.slot()] {
        Some(proposal) if proposal.view == process.view => proposal.index,
        Some(_) => return Err(Refusal::OtherView),
        None => return Err(Refusal::NoRecord),
    };
    let to = told(View::only(q), cut)?;
    system.require_room(p, to)?;
    let process = system.process_mut(p);
    process.recorded[q.slot()] = None;
    let reply = if index < process.next {
        Message::Retry { old: index, new: process.next }
    } else {
        process.next = index.successor();
        Message::Acc(index)
    };
    system.broadcast(p, to, reply);
    stop_if(system, p, cut);
    Ok(())
}

/// Process p stops for good (document 01: stop).
pub fn crash(system: &mut System, p: ProcessId, cut: Option<u8>) -> Outcome {
    require_known(system, p)?;
    require_live(system, p)?;
    require_whole(cut)?;
    stop(system, p);
    Ok(())
}

fn stop(system: &mut System, p: ProcessId) {
    system.process_mut(p).crashed = true;
    for row in &mut system.channels {
        row[p.slot()] = Channel::EMPTY;
    }
}

/// After a cut the process stops.
fn stop_if(system: &mut System, p: ProcessId, cut: Option<u8>) {
    if cut.is_some() {
        stop(system, p);
    }
}

/// A step that sends nothing is never cut.
fn require_whole(cut: Option<u8>) -> Outcome {
    match cut {
        None => Ok(()),
        Some(_) => Err(Refusal::CutTooLate),
    }
}

/// Those of the addressees to whom the message goes.
fn told(to: View, cut: Option<u8>) -> Result<View, Refusal> {
    match cut {
        None => Ok(to),
        Some(k) if k < to.0.count_ones() as u8 => {
            Ok(to.members().take(k.into()).fold(View::EMPTY, View::with))
        }
        Some(_) => Err(Refusal::CutTooLate),
    }
}

/// Proposes a view at an index to some of it; there must be room.
fn propose(system: &mut System, p: ProcessId, view: View, to: View, index: GroupIndex) {
    let process = system.process_mut(p);
    process.propout = index;
    process.acks = View::EMPTY;
    system.broadcast(p, to, Message::Propose(Proposal { view, index }));
}

/// Those for whom room must be asked when p sends to a view upon a message
/// from q: a message from p itself frees the slot that p's own copy needs.
fn contended(view: View, q: ProcessId, p: ProcessId) -> View {
    if q == p {
        view.without(p)
    } else {
        view
    }
}

fn require_known(system: &System, p: ProcessId) -> Outcome {
    if (1..=system.n).contains(&p.0) {
        Ok(())
    } else {
        Err(Refusal::Stranger)
    }
}

fn require_live(system: &System, p: ProcessId) -> Outcome {
    if system.process(p).crashed {
        Err(Refusal::Crashed)
    } else {
        Ok(())
    }
}
