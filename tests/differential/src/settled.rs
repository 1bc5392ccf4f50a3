//! Settling runs: how one came to its end, and systems in which it shows.

use crate::dice::Dice;
use crate::poised::fill;
use reference::{
    Action, Ending, GroupIndex, Message, ProcessId, Proposal, Refusal, Settling, Step, System, View,
};

/// A run from a fresh system is of steps and settling runs.
pub enum Turn {
    Step(Step),
    Settle,
}

/// Another order of a round than the papers'. (Answers of different units do not touch each other, so
/// that only the order of the addressees of one unit can be seen.)
#[derive(Clone, Copy, PartialEq, Eq)]
enum Order {
    /// Takes by rising sender, then receiver.
    SendersFirst,
    /// Takes by rising receiver, then falling sender.
    SendersFalling,
    /// Answers by rising unit, then falling addressee.
    AddresseesFalling,
}

/// The way by which a settling run of a sound system came to its end.
pub fn settling_way(before: &System, settling: Settling, after: &System) -> &'static str {
    if settling.ending == Ending::Held {
        return match (held_by_6(after), could_answer(after)) {
            (true, _) => "settling, held by 6",
            (false, true) => "settling, held by 7 alone, an answer too",
            (false, false) => "settling, held by 7 alone",
        };
    }
    let seen = |order| otherwise(before, order) != (settling.steps, after.clone());
    match settling {
        _ if settling.ending == Ending::Budget => "settling, the budget used up",
        _ if settling.steps == 0 => "settling, nothing to do",
        _ if seen(Order::AddresseesFalling) => "settling, addressees rise, seen",
        _ if seen(Order::SendersFirst) => "settling, receivers before senders, seen",
        _ if seen(Order::SendersFalling) => "settling, senders rise, seen",
        _ if settling.steps >= 100 => "settling, a hundred steps and more",
        _ if before.everyone().members().any(|p| before.process(p).crashed) => {
            "settling, a stopped unit"
        }
        _ => "settling, at rest",
    }
}

/// Is there a Retry that would be acted on, to a position that there is not?
fn held_by_6(system: &System) -> bool {
    system.pairs().any(|(q, p)| {
        Step::from(Action::Receive { from: q, at: p }).next(system) == Err(Refusal::HistoryFull)
    })
}

fn could_answer(system: &System) -> bool {
    system.pairs().any(|(p, q)| {
        let process = system.process(p);
        !process.crashed && process.recorded(q).is_some_and(|kept| kept.view == process.view)
    })
}

/// What would be done if a round went in the other order: the steps and the system.
fn otherwise(system: &System, order: Order) -> (usize, System) {
    let (mut system, mut steps) = (system.clone(), 0);
    let falling = |q: ProcessId| ProcessId(system.n + 1 - q.0);
    let mut round: Vec<Action> = Vec::new();
    round.extend(system.pairs().map(|(first, second)| match order {
        Order::SendersFirst => Action::Receive { from: first, at: second },
        Order::SendersFalling => Action::Receive { from: falling(second), at: first },
        Order::AddresseesFalling => Action::Receive { from: second, at: first },
    }));
    round.extend(system.pairs().map(|(first, second)| match order {
        Order::AddresseesFalling => Action::Respond { p: first, to: falling(second) },
        _ => Action::Respond { p: first, to: second },
    }));
    loop {
        let done = round.iter().filter(|action| action.run(&mut system).is_ok()).count();
        if done == 0 {
            return (steps, system);
        }
        steps += done;
    }
}

/// Turns from a fresh system after which, in a settling run, units answer one proposal with Retries to
/// different positions, and it matters which is taken first. Each unit goes alone, so that it may be
/// trusted again, and some of them further than others; then all come together, the first one last.
pub fn race(dice: &mut Dice, n: u8) -> Vec<Turn> {
    let mut turns = Vec::new();
    let mut add = |action: Action| turns.push(Turn::Step(action.into()));
    let everyone = View::first(n);
    let one = ProcessId(1);
    let alone = |p| Action::Report { p, view: View::only(p) };
    let together = |p| Action::Report { p, view: everyone };
    add(alone(one));
    for p in everyone.members().skip(1) {
        for _ in 0..1 + dice.roll(4) {
            add(alone(p));
        }
    }
    turns.push(Turn::Settle);
    let mut add = |action: Action| turns.push(Turn::Step(action.into()));
    everyone.members().skip(1).for_each(|p| add(together(p)));
    for _ in 0..1 + dice.roll(2) {
        add(together(one));
    }
    for _ in 0..2 {
        for p in everyone.members().skip(1) {
            if dice.one_in(2) {
                add(Action::Receive { from: one, at: p });
                if dice.one_in(2) {
                    add(Action::Respond { p, to: one });
                }
            }
        }
    }
    turns
}

/// Reports from a fresh system that leave much to do: each unit proposes a view of all that are not
/// below it, again and again.
pub fn crowd(dice: &mut Dice, n: u8) -> Vec<Turn> {
    let mut turns = Vec::new();
    let mut view = View::first(n);
    for p in View::first(n).members() {
        for _ in 0..dice.roll(9) {
            turns.push(Turn::Step(Action::Report { p, view }.into()));
        }
        view = view.without(p);
    }
    turns
}

/// Two units wait for room on the line of the other, and now and then for an answer too. There must be
/// two.
pub fn jam(dice: &mut Dice, system: &mut System) {
    let n = system.n;
    let p = dice.one_of(n);
    let q = ProcessId(1 + (p.0 + dice.roll(usize::from(n) - 1) as u8) % n);
    let index = dice.index();
    let view = dice.some_of(n).with(p).with(q);
    for (p, q) in [(p, q), (q, p)] {
        let process = system.process_mut(p);
        process.crashed = false;
        process.propout = index;
        process.proposal = view;
        process.acks = view.without(q);
        if dice.one_in(3) {
            let record = Proposal { view: process.view.with(q), index: dice.index() };
            process.view = record.view;
            process.set_recorded(q, Some(record));
        }
        let channel = system.channel_mut(q, p);
        channel.clear();
        channel.push(Message::Acc(index));
        let next = dice.pick(&[Message::Acc(index), Message::Commit(Proposal { view, index })]);
        fill(channel, next);
    }
}

/// Two proposals recorded at one unit, both of its view, at positions of which one is below the other.
pub fn rivals(dice: &mut Dice, system: &mut System) {
    let n = system.n;
    let p = dice.one_of(n);
    let view = View::first(n);
    let process = system.process_mut(p);
    process.crashed = false;
    process.view = view;
    process.next = GroupIndex(2 + dice.roll(5) as u8);
    for q in view.members() {
        if dice.one_in(2) {
            process.set_recorded(q, Some(Proposal { view, index: dice.index() }));
        }
    }
}
