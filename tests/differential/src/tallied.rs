//! The ways by which a sheet comes to its counts, met by chance and counted.

use crate::classes;
use crate::settled::Turn;
use crate::sheets::Sheet;
use crate::ways::AT_LEAST;
use reference::{
    fresh, settle_told, tally_sheet, Event, Message, Step, System, BUDGET, SHEET_LIMIT,
};
use std::collections::BTreeMap;

/// The ways of steps and of sheets.
const WAYS: &[&str] = &[
    "sent, Propose of a report",
    "sent, Propose of a Retry",
    "sent, Acc",
    "sent, Retry",
    "sent, Commit",
    "sent by a cut step",
    "taken, Propose",
    "taken, Retry acted on",
    "taken, Retry ignored",
    "taken, Acc",
    "taken, Commit",
    "taken by a cut step",
    "taken from a stopped unit",
    "lost, Propose of a report to a stopped unit",
    "lost, Propose of a Retry to a stopped unit",
    "lost, Acc to a stopped unit",
    "lost, Retry to a stopped unit",
    "lost, Commit to a stopped unit",
    "lost, to a stopped unit by a cut step",
    "lost, Propose cleared by a stop",
    "lost, Acc cleared by a stop",
    "lost, Retry cleared by a stop",
    "lost, Commit cleared by a stop",
    "lost, cleared by the stop of a cut step",
    "lost, sent to itself by a cut step",
    "proposal, report",
    "proposal, Retry",
    "proposal, cut report",
    "proposal, cut Retry",
    "proposal, cut before the first message",
    "committed",
    "committed by a cut step",
    "not committed, cut before the first Commit",
    "cut answer",
    "refused",
    "settling, sent",
    "settling, taken",
    "settling, lost, Propose",
    "settling, lost, answer",
    "settling, lost, Commit",
    "settling, proposal",
    "settling, committed",
    "sheet, no line at all",
    "sheet, first line bad",
    "sheet, 60,000 bytes",
    "sheet, one byte too many",
    "sheet, many bytes too many",
    "sheet, some wait",
    "sheet, none waits",
    "share, no proposals",
    "share, none committed",
    "share, all committed",
    "share, divided",
    "share, not to be divided",
];

/// How often each way was met.
#[derive(Default)]
pub struct Met(BTreeMap<&'static str, u64>);

impl Met {
    pub fn count(&mut self, way: &'static str) {
        *self.0.entry(way).or_default() += 1;
    }

    pub fn add(&mut self, other: Met) {
        for (way, times) in other.0 {
            *self.0.entry(way).or_default() += times;
        }
    }

    /// Prints each way with its count; answers whether all were met often enough.
    pub fn all_met(&self) -> bool {
        let listed = || WAYS.iter().chain(classes::WAYS);
        for way in self.0.keys() {
            assert!(listed().any(|listed| listed == way), "{way} is not listed");
        }
        let times = |way: &str| self.0.get(way).copied().unwrap_or(0);
        for way in listed() {
            println!("{:>8}  {way}", times(way));
        }
        listed().all(|way| times(way) >= AT_LEAST)
    }
}

/// Counts the ways of a sheet and of its steps.
pub fn sheet_ways(sheet: &Sheet, met: &mut Met) {
    match sheet.text.len() {
        0 => return met.count("sheet, no line at all"),
        length if length > SHEET_LIMIT => {
            let one = length == SHEET_LIMIT + 1;
            let way = if one { "sheet, one byte too many" } else { "sheet, many bytes too many" };
            return met.count(way);
        }
        SHEET_LIMIT => met.count("sheet, 60,000 bytes"),
        _ => (),
    }
    let Some(n) = sheet.n else {
        return met.count("sheet, first line bad");
    };
    let mut system = fresh(n).1;
    for turn in &sheet.turns {
        let mut told = Vec::new();
        match *turn {
            Turn::Step(step) => {
                let before = system.clone();
                match step.run_told(&mut system, &mut told) {
                    Ok(()) => step_ways(&before, step, &told, met),
                    Err(_) => met.count("refused"),
                }
            }
            Turn::Settle => {
                settle_told(&mut system, BUDGET, &mut told);
                settling_ways(&told, met);
            }
        }
    }
    let tally = tally_sheet(&sheet.text).expect("a sheet that is not too long");
    met.count(if tally.waiting > 0 { "sheet, some wait" } else { "sheet, none waits" });
    met.count(match (tally.committed, tally.proposals) {
        (_, 0) => "share, no proposals",
        (0, _) => "share, none committed",
        (all, proposals) if all == proposals => "share, all committed",
        terms if terms == tally.share() => "share, not to be divided",
        _ => "share, divided",
    });
}

/// The ways of a step done.
fn step_ways(before: &System, step: Step, told: &[Event], met: &mut Met) {
    let cut = step.cut.is_some();
    let retried = matches!(told.first(), Some(Event::Taken { message: Message::Retry { .. }, .. }));
    let proposes = told.iter().any(|event| matches!(event, Event::Proposed { .. }));
    let sends = told.iter().any(|event| matches!(event, Event::Sent { .. }));
    for event in told {
        met.count(match *event {
            Event::Proposed { .. } => match (retried, cut) {
                (false, false) => "proposal, report",
                (true, false) => "proposal, Retry",
                (false, true) => "proposal, cut report",
                (true, true) => "proposal, cut Retry",
            },
            Event::Taken { .. } if cut => "taken by a cut step",
            Event::Taken { from, .. } if before.process(from).crashed => {
                "taken from a stopped unit"
            }
            Event::Taken { message, .. } => match message {
                Message::Propose(_) => "taken, Propose",
                Message::Retry { .. } if proposes => "taken, Retry acted on",
                Message::Retry { .. } => "taken, Retry ignored",
                Message::Acc(_) => "taken, Acc",
                Message::Commit(_) => "taken, Commit",
            },
            Event::Sent { vanishes: true, .. } if cut => "lost, to a stopped unit by a cut step",
            Event::Sent { vanishes: true, message, .. } => match message {
                Message::Propose(_) if retried => "lost, Propose of a Retry to a stopped unit",
                Message::Propose(_) => "lost, Propose of a report to a stopped unit",
                Message::Retry { .. } => "lost, Retry to a stopped unit",
                Message::Acc(_) => "lost, Acc to a stopped unit",
                Message::Commit(_) => "lost, Commit to a stopped unit",
            },
            Event::Sent { .. } if cut => "sent by a cut step",
            Event::Sent { message, .. } => match message {
                Message::Propose(_) if retried => "sent, Propose of a Retry",
                Message::Propose(_) => "sent, Propose of a report",
                Message::Retry { .. } => "sent, Retry",
                Message::Acc(_) => "sent, Acc",
                Message::Commit(_) => "sent, Commit",
            },
            Event::Cleared { from, at, message } if cut => {
                let own = Event::Sent { from, to: at, message, vanishes: false };
                match from == at && told.contains(&own) {
                    true => "lost, sent to itself by a cut step",
                    false => "lost, cleared by the stop of a cut step",
                }
            }
            Event::Cleared { message, .. } => match message {
                Message::Propose(_) => "lost, Propose cleared by a stop",
                Message::Retry { .. } => "lost, Retry cleared by a stop",
                Message::Acc(_) => "lost, Acc cleared by a stop",
                Message::Commit(_) => "lost, Commit cleared by a stop",
            },
        });
    }
    let commits = told.iter().any(is_commit_sent);
    if commits {
        met.count(if cut { "committed by a cut step" } else { "committed" });
    }
    if cut && !sends {
        met.count(match told.first() {
            Some(Event::Proposed { .. }) => "proposal, cut before the first message",
            Some(Event::Taken { .. }) if proposes => "proposal, cut before the first message",
            Some(Event::Taken { .. }) => "not committed, cut before the first Commit",
            _ => "cut answer",
        });
    }
}

fn is_commit_sent(event: &Event) -> bool {
    matches!(event, Event::Sent { message: Message::Commit(_), .. })
}

/// The ways of the steps of a settling run.
fn settling_ways(told: &[Event], met: &mut Met) {
    let mut committing = false;
    for event in told {
        let commit = is_commit_sent(event);
        if commit && !committing {
            met.count("settling, committed");
        }
        committing = commit;
        met.count(match event {
            Event::Proposed { .. } => "settling, proposal",
            Event::Taken { .. } => "settling, taken",
            Event::Sent { vanishes: true, message, .. } => match message {
                Message::Propose(_) => "settling, lost, Propose",
                Message::Commit(_) => "settling, lost, Commit",
                _ => "settling, lost, answer",
            },
            Event::Sent { .. } => "settling, sent",
            Event::Cleared { .. } => panic!("a settling run stops nobody"),
        });
    }
}
