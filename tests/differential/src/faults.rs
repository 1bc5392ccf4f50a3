//! Each sentence of the soundness paragraph, broken on purpose and alone in a sound system or in its
//! image.

use crate::dice::Dice;
use crate::poised::put;
use reference::image::{channel_at, process_at, record_in, Image, LENGTH_IN};
use reference::Message::{Acc, Commit, Propose, Retry};
use reference::{GroupIndex, Message, ProcessId, Proposal, System, View};

/// Breaks a sentence for process p, which has not stopped, or on the line from q to p.
type Fault = fn(&mut Dice, &mut System, ProcessId, ProcessId);

pub const FAULTS: &[(&str, Fault)] = &[
    ("1 Next", |d, s, p, _| s.process_mut(p).next = GroupIndex(d.pick(&[0, 1, 34, 255]))),
    ("1 PropOut", |d, s, p, _| propose(s, p, d.pick(&[0, 33, 34, 255]), View::only(p))),
    ("1 local view beyond n", |d, s, p, _| s.process_mut(p).view = beyond(d, s.n, p)),
    ("1 entry beyond n", |d, s, p, _| {
        let view = beyond(d, s.n, p);
        s.process_mut(p).set_entry(any_index(d), view);
    }),
    ("1 last proposed view beyond n", |d, s, p, _| propose(s, p, d.index().0, beyond(d, s.n, p))),
    ("1 acknowledged beyond n", |d, s, p, _| s.process_mut(p).acks = beyond(d, s.n, p)),
    ("1 position 1 empty", |_, s, p, _| s.process_mut(p).set_entry(GroupIndex(1), View::EMPTY)),
    ("1 local view lacks its own", |d, s, p, _| s.process_mut(p).view = d.some_of(s.n).without(p)),
    ("1 last proposed view at PropOut 1", |d, s, p, _| propose(s, p, 1, d.some_of(s.n).with(p))),
    ("1 last proposed view lacks its own", |d, s, p, _| {
        propose(s, p, d.index().0, d.some_of(s.n).without(p))
    }),
    ("1 line towards a stopped unit", |d, s, p, q| {
        s.process_mut(p).crashed = true;
        s.everyone().members().for_each(|from| s.channel_mut(from, p).clear());
        send(Acc(GroupIndex(2)), d, s, q, p);
    }),
    ("1 Propose, position", |d, s, p, q| send(Propose(misplaced(d, s.n, p, q)), d, s, q, p)),
    ("1 Propose, beyond n", |d, s, p, q| send(Propose(too_wide(d, s.n, p, q)), d, s, q, p)),
    ("1 Propose, lacks sender", |d, s, p, q| send(Propose(lacking(d, s.n, q, p)), d, s, q, p)),
    ("1 Propose, lacks receiver", |d, s, p, q| send(Propose(lacking(d, s.n, p, q)), d, s, q, p)),
    ("1 Commit, position", |d, s, p, q| send(Commit(misplaced(d, s.n, p, q)), d, s, q, p)),
    ("1 Commit, beyond n", |d, s, p, q| send(Commit(too_wide(d, s.n, p, q)), d, s, q, p)),
    ("1 Commit, lacks sender", |d, s, p, q| send(Commit(lacking(d, s.n, q, p)), d, s, q, p)),
    ("1 Commit, lacks receiver", |d, s, p, q| send(Commit(lacking(d, s.n, p, q)), d, s, q, p)),
    ("1 record, position", |d, s, p, q| record(misplaced(d, s.n, p, q), s, q, p)),
    ("1 record, beyond n", |d, s, p, q| record(too_wide(d, s.n, p, q), s, q, p)),
    ("1 record, lacks sender", |d, s, p, q| record(lacking(d, s.n, q, p), s, q, p)),
    ("1 record, lacks its own", |d, s, p, q| record(lacking(d, s.n, p, q), s, q, p)),
    ("1 Acc, position", |d, s, p, q| send(Acc(wrong_index(d)), d, s, q, p)),
    ("1 Retry, old below 2", |d, s, p, q| send(retry(d.roll(2), d.index().0), d, s, q, p)),
    ("1 Retry, old above 32", |d, s, p, q| send(retry(33, d.pick(&[33, 34])), d, s, q, p)),
    ("1 Retry, new not above old", |d, s, p, q| {
        let old = d.index().0;
        send(retry(old.into(), old - d.roll(3) as u8), d, s, q, p)
    }),
    ("1 Retry, new above 33", |d, s, p, q| {
        send(retry(d.index().0.into(), d.pick(&[34, 35, 255])), d, s, q, p)
    }),
];

/// Changes the image of a system in a place for process p, or on the line from q to p.
type Damage = fn(&mut Dice, &mut Image, ProcessId, ProcessId);

/// What no system can hold: bytes that stand for nothing, or for too much.
pub const DAMAGES: &[(&str, Damage)] = &[
    ("1 n", |d, image, _, _| image[0] = d.pick(&[0, 9, 10, 128, 255])),
    ("1 line of more than 8", |d, image, p, q| {
        image[channel_at(q, p) + LENGTH_IN] = d.pick(&[9, 10, 128, 255])
    }),
    ("1 stopped byte", |d, image, p, _| image[process_at(p)] = d.pick(&[2, 3, 128, 255])),
    ("1 record tag", |d, image, p, q| {
        image[process_at(p) + record_in(q)] = d.pick(&[2, 3, 128, 255])
    }),
    ("1 message tag", |d, image, p, q| {
        let channel = &mut image[channel_at(q, p)..][..25];
        channel[LENGTH_IN] = channel[LENGTH_IN].max(1);
        channel[3 * d.roll(channel[LENGTH_IN].into())] = d.pick(&[4, 5, 128, 255]);
    }),
];

/// p and one or more beyond n; p alone if there is nobody beyond.
fn beyond(dice: &mut Dice, n: u8, p: ProcessId) -> View {
    let one = ProcessId(n + dice.one_of((8 - n).max(1)).0);
    View(dice.byte() & !View::first(n).0).with(one).with(p)
}

fn any_index(dice: &mut Dice) -> GroupIndex {
    GroupIndex(1 + dice.roll(32) as u8)
}

fn wrong_index(dice: &mut Dice) -> GroupIndex {
    GroupIndex(dice.pick(&[0, 1, 33, 34, 255]))
}

fn misplaced(dice: &mut Dice, n: u8, p: ProcessId, q: ProcessId) -> Proposal {
    Proposal { view: dice.some_of(n).with(p).with(q), index: wrong_index(dice) }
}

fn too_wide(dice: &mut Dice, n: u8, p: ProcessId, q: ProcessId) -> Proposal {
    Proposal { view: beyond(dice, n, p).with(q), index: dice.index() }
}

fn lacking(dice: &mut Dice, n: u8, absent: ProcessId, present: ProcessId) -> Proposal {
    Proposal { view: dice.some_of(n).with(present).without(absent), index: dice.index() }
}

fn retry(old: usize, new: u8) -> Message {
    Retry { old: GroupIndex(old as u8), new: GroupIndex(new) }
}

fn propose(system: &mut System, p: ProcessId, index: u8, view: View) {
    system.process_mut(p).propout = GroupIndex(index);
    system.process_mut(p).proposal = view;
}

fn send(message: Message, dice: &mut Dice, system: &mut System, q: ProcessId, p: ProcessId) {
    put(dice, system.channel_mut(q, p), message);
}

fn record(proposal: Proposal, system: &mut System, q: ProcessId, p: ProcessId) {
    system.process_mut(p).set_recorded(q, Some(proposal));
}
