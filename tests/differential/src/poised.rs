//! Systems that no run has left: changed here and there, or poised so that a certain step is due.

use crate::dice::Dice;
use reference::{
    Action, Channel, GroupIndex, Message, ProcessId, Proposal, Step, System, View, CAPACITY,
};

/// A change that often leaves the system sound, and that no step makes.
pub fn disturb(dice: &mut Dice, system: &mut System) {
    let n = system.n;
    let (p, q) = (dice.one_of(n), dice.one_of(n));
    let index = dice.index();
    let both = dice.some_of(n).with(p).with(q);
    let proposal = Proposal { view: both, index };
    let process = system.process_mut(p);
    match dice.roll(7) {
        6 => system.set_mark(p, q, dice.one_in(2)),
        0 => process.propout = if dice.one_in(2) { GroupIndex(32) } else { index },
        1 => process.next = GroupIndex(index.0 + 1),
        2 => process.acks = both,
        3 => process.set_recorded(q, Some(proposal)),
        4 => {
            process.propout = index;
            process.proposal = both;
        }
        _ => {
            let old = process.propout;
            let new = if dice.one_in(2) { GroupIndex(33) } else { GroupIndex(old.0.max(2) + 1) };
            let message = dice.pick(&[
                Message::Propose(proposal),
                Message::Acc(index),
                Message::Acc(old),
                Message::Retry { old, new },
                Message::Commit(proposal),
            ]);
            let full = dice.one_in(3);
            put(dice, system.channel_mut(q, p), message);
            if full {
                fill(system.channel_mut(q, p), message);
            }
        }
    }
}

/// Changes the system so that the step that is answered is due, often over full lines.
pub fn poise(dice: &mut Dice, system: &mut System) -> Step {
    let n = system.n;
    let (p, q) = (dice.one_of(n), dice.one_of(n));
    let index = dice.index();
    let view = dice.some_of(n).with(p).with(q);
    let process = system.process_mut(p);
    process.crashed = false;
    let action = match dice.roll(3) {
        0 => {
            process.propout = index;
            process.proposal = view;
            let stale = dice.one_in(4);
            process.acks = if stale { view } else { view.without(q) };
            let acc = Message::Acc(if stale { dice.index() } else { index });
            set_first(system.channel_mut(q, p), acc);
            Action::Receive { from: q, at: p }
        }
        1 => {
            process.propout = index;
            process.proposal = view;
            process.view = View(view.0 >> (p.0 - 1) << (p.0 - 1));
            let new = GroupIndex(index.0 + 1 + dice.roll(33 - usize::from(index.0)) as u8);
            set_first(system.channel_mut(q, p), Message::Retry { old: index, new });
            Action::Receive { from: q, at: p }
        }
        _ => {
            process.view = view;
            process.next = GroupIndex(dice.index().0 + 1);
            process.set_recorded(q, Some(Proposal { view, index }));
            Action::Respond { p, to: q }
        }
    };
    if dice.one_in(2) {
        crowd(dice, system, p);
    }
    dice.cut(action, 3)
}

/// Fills some lines from p.
fn crowd(dice: &mut Dice, system: &mut System, p: ProcessId) {
    for to in system.everyone().members() {
        if !system.process(to).crashed && dice.one_in(2) {
            fill(system.channel_mut(p, to), Message::Acc(dice.index()));
        }
    }
}

/// Fills a line with a message.
pub fn fill(channel: &mut Channel, message: Message) {
    channel.resize(CAPACITY, message);
}

fn set_first(channel: &mut Channel, message: Message) {
    channel.splice(..channel.len().min(1), [message]);
}

/// Puts the message last, or in the place of one that waits.
pub fn put(dice: &mut Dice, channel: &mut Channel, message: Message) {
    if !channel.is_empty() && (channel.len() >= CAPACITY || dice.one_in(2)) {
        let place = dice.roll(channel.len());
        channel[place] = message;
    } else {
        channel.push(message);
    }
}
