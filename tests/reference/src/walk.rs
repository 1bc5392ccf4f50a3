//! S-8, all orders up to a depth: "For a fresh table of at most 2 units and a
//! depth of at most 8, walk every run in which the link and the units move in
//! turn, link first." Turn by turn, with all runs so far side by side.

use crate::message::GroupIndex;
use crate::process::POSITIONS;
use crate::refusal::{number, refuse_if, Refusal};
use crate::step::{Action, Step};
use crate::system::{fresh, System};
use crate::view::View;

/// "the number of runs of exactly that depth, and how many end with an entry
/// beyond position 1"
#[derive(Clone, Copy, Debug, PartialEq, Eq)]
pub struct Walk {
    pub runs: usize,
    pub with_entry: usize,
}

/// The walk. "14 too deep, for depth above 8 or more than 2 units, after 2".
pub fn walk(n: u8, depth: u8) -> Result<Walk, Refusal> {
    let (outcome, system) = fresh(n);
    outcome?;
    refuse_if(depth > 8 || n > 2, Refusal::TooDeep)?;
    let mut ends = vec![system];
    for turn in 1..=depth {
        // "link first", and "the turn goes back"
        let moves = if turn % 2 == 1 { link_moves } else { process_moves };
        ends = ends.iter().flat_map(|system| choices(system, &moves(system))).collect();
    }
    let with_entry = ends.iter().filter(|system| has_new_entry(system)).count();
    Ok(Walk { runs: ends.len(), with_entry })
}

/// What a system may become in one turn: "or pass", and "Refused moves are not
/// choices".
fn choices(system: &System, moves: &[Action]) -> Vec<System> {
    let mut after = vec![system.clone()];
    after.extend(moves.iter().filter_map(|action| Step::from(*action).next(system).ok()));
    after
}

/// "The link may report any allowed view at one unit, stop one": every byte is
/// tried as a view.
fn link_moves(system: &System) -> Vec<Action> {
    let mut moves = Vec::new();
    for p in system.everyone().members() {
        moves.extend((0..=255).map(|byte| Action::Report { p, view: View(byte) }));
        moves.push(Action::Crash { p });
    }
    moves
}

/// "Then the units may take one message, answer once".
fn process_moves(system: &System) -> Vec<Action> {
    let takes = system.pairs().map(|(from, at)| Action::Receive { from, at });
    let answers = system.pairs().map(|(p, to)| Action::Respond { p, to });
    takes.chain(answers).collect()
}

/// "an entry beyond position 1", at any unit.
fn has_new_entry(system: &System) -> bool {
    let beyond = || (2..=POSITIONS as u8).map(GroupIndex);
    system.everyone().members().any(|p| beyond().any(|i| !system.process(p).entry(i).is_empty()))
}

/// What the program prints: "one input line `N DEPTH`, one digit each; output
/// the two counts with a space between, or the refusal number alone, 8 for any
/// other input". "Lines end with a line feed, which the last may lack."
pub fn print_walk(input: &[u8]) -> Vec<u8> {
    let line = input.strip_suffix(b"\n").unwrap_or(input);
    let digit = |byte: u8| byte.is_ascii_digit().then(|| byte - b'0');
    let walked = match line {
        [n, b' ', depth] => match (digit(*n), digit(*depth)) {
            (Some(n), Some(depth)) => walk(n, depth),
            _ => Err(Refusal::BadLine),
        },
        _ => Err(Refusal::BadLine),
    };
    match walked {
        Ok(Walk { runs, with_entry }) => format!("{runs} {with_entry}\n"),
        Err(refusal) => format!("{}\n", number(Err(refusal))),
    }
    .into_bytes()
}
