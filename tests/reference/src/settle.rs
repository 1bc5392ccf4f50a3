//! S-4, the settling run: "Add a settling run: in rounds, one take tried on
//! every line by rising receiver then sender, then one answer tried for every
//! unit and addressee, rising in that order, refused ones passed over, until a
//! whole round does nothing. It returns the table, the steps done, and at rest,
//! held up or budget."

use crate::refusal::{Outcome, Refusal};
use crate::soundness::sound;
use crate::step::{Action, Event, Step};
use crate::system::System;

/// "On any sound table it stops after 7,936 steps done at the latest".
pub const BUDGET: usize = 7_936;

/// How a settling run ended.
#[derive(Clone, Copy, Debug, PartialEq, Eq)]
pub enum Ending {
    /// At rest.
    Rest,
    /// Held up.
    Held,
    Budget,
}

/// What a settling run returns, beside the system.
#[derive(Clone, Copy, Debug, PartialEq, Eq)]
pub struct Settling {
    pub outcome: Outcome,
    pub steps: usize,
    pub ending: Ending,
}

/// The settling run.
pub fn settle(system: &mut System) -> Settling {
    settle_within(system, BUDGET)
}

/// The same with another budget, since no sound system is known that uses up
/// the papers' one.
pub fn settle_within(system: &mut System, budget: usize) -> Settling {
    settle_told(system, budget, &mut Vec::new())
}

/// The same; what its steps do comes after what was told before.
pub fn settle_told(system: &mut System, budget: usize, told: &mut Vec<Event>) -> Settling {
    // "An unsound table gives 1 and 0 steps." The papers leave the third answer
    // free there; "held up is everything else".
    if !sound(system) {
        return Settling { outcome: Err(Refusal::Unsound), steps: 0, ending: Ending::Held };
    }
    let mut steps = 0;
    loop {
        let before = steps;
        for action in round(system) {
            if steps < budget && Step::from(action).run_told(system, told).is_ok() {
                steps += 1;
            }
        }
        if steps == before {
            break;
        }
    }
    // "with budget if a further take or answer would then be done"
    let further = round(system).into_iter().any(|action| Step::from(action).next(system).is_ok());
    let ending = if steps == budget && further {
        Ending::Budget
    } else if at_rest(system) {
        Ending::Rest
    } else {
        Ending::Held
    };
    Settling { outcome: Ok(()), steps, ending }
}

/// What is tried in a round.
fn round(system: &System) -> Vec<Action> {
    let mut tried = Vec::new();
    // "one take tried on every line by rising receiver then sender"
    for receiver in system.everyone().members() {
        for sender in system.everyone().members() {
            tried.push(Action::Receive { from: sender, at: receiver });
        }
    }
    // "then one answer tried for every unit and addressee, rising in that order"
    for p in system.everyone().members() {
        for addressee in system.everyone().members() {
            tried.push(Action::Respond { p, to: addressee });
        }
    }
    tried
}

/// "At rest means no waiting message and no answer that could be given": a
/// process that has not stopped, with a recorded proposal whose view is its
/// local view. Room is not asked; where it lacks, messages wait.
pub fn at_rest(system: &System) -> bool {
    system.pairs().all(|(q, p)| {
        let process = system.process(p);
        let answerable = !process.crashed
            && process.recorded(q).is_some_and(|proposal| proposal.view == process.view);
        system.channel(q, p).is_empty() && !answerable
    })
}
