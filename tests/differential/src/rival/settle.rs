//! The settling run. Lines that are empty and records that there are not are passed over without a try.

use super::algorithm::{receive, respond};
use super::system::System;
use super::view::ProcessId;

/// The most steps of a settling run.
const BUDGET: u16 = 7_936;

#[derive(Clone, Copy, Debug, PartialEq, Eq)]
pub enum Ending {
    Rest,
    Held,
    Budget,
}

/// Settles a sound system; answers the steps done and how it ended.
pub fn settle(system: &mut System) -> (u16, Ending) {
    let mut steps = 0;
    loop {
        let before = steps;
        for p in 1..=system.n {
            for q in 1..=system.n {
                steps += u16::from(steps < BUDGET && take(system, ProcessId(q), ProcessId(p)));
            }
        }
        for p in 1..=system.n {
            for q in 1..=system.n {
                steps += u16::from(steps < BUDGET && answer(system, ProcessId(p), ProcessId(q)));
            }
        }
        if steps == before {
            return (steps, ending(system, steps));
        }
    }
}

fn take(system: &mut System, q: ProcessId, p: ProcessId) -> bool {
    system.channel(q, p).len > 0 && receive(system, q, p, None).is_ok()
}

fn answer(system: &mut System, p: ProcessId, q: ProcessId) -> bool {
    could_answer(system, p, q) && respond(system, p, q, None).is_ok()
}

/// Has p a record to answer, whether there is room for the reply or not?
fn could_answer(system: &System, p: ProcessId, q: ProcessId) -> bool {
    let process = system.process(p);
    !process.crashed && process.recorded[q.slot()].is_some_and(|kept| kept.view == process.view)
}

fn ending(system: &System, steps: u16) -> Ending {
    let everyone = system.everyone();
    let pairs = || everyone.members().flat_map(|p| everyone.members().map(move |q| (p, q)));
    let further = |(p, q)| take(&mut system.clone(), q, p) || answer(&mut system.clone(), p, q);
    let resting = |(p, q)| system.channel(q, p).len == 0 && !could_answer(system, p, q);
    if steps == BUDGET && pairs().any(further) {
        Ending::Budget
    } else if pairs().all(resting) {
        Ending::Rest
    } else {
        Ending::Held
    }
}
