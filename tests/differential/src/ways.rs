//! The ways to each number, counted, so that the test sees that it has met them all.

use crate::faults::{DAMAGES, FAULTS};
use crate::lines::{FIRST, LATER};
use reference::{Action, Message, Process, ProcessId, Step, System, View, CAPACITY, LAST_INDEX};
use std::collections::{BTreeMap, BTreeSet};

/// Each way is met at least so often, where it can be met at all.
pub const AT_LEAST: u64 = 20;

/// How a step on a sound system comes to its number, by images and by sheets. Where a way's end is
/// the case of a higher number, it shows that the lowest is given.
const STEPS: &[&str] = &[
    "0 report, proposing",
    "0 report, not least",
    "0 report, bringing back",
    "0 report, beginning a suspicion",
    "0 report, going on with one",
    "0 take, Propose",
    "0 take, Retry acted on",
    "0 take, Retry ignored",
    "0 take, Acc completing",
    "0 take, Acc not completing",
    "0 take, stale Acc",
    "0 take, Commit",
    "0 take, from a stopped sender",
    "0 answer, Acc",
    "0 answer, Retry",
    "0 answer, to a stopped unit",
    "0 stop",
    "2 report",
    "2 take, sender",
    "2 take, sender, receiver stopped",
    "2 take, receiver",
    "2 answer, who answers",
    "2 answer, to whom",
    "2 answer, to whom, who answers stopped",
    "2 stop",
    "3 report",
    "3 report, odd view",
    "3 take",
    "3 answer",
    "3 stop",
    "4 beyond n",
    "4 lacks its own",
    "4 both",
    "5 empty line",
    "6 report",
    "6 report, its line full",
    "6 Retry",
    "6 Retry, its line full",
    "7 report",
    "7 Retry",
    "7 answer, Acc",
    "7 answer, Retry",
    "10 no record",
    "10 no record, the line full",
    "11 record of another view",
    "11 record of another view, the line full",
    "0 report, cut",
    "0 take, Retry acted on, cut",
    "0 take, Acc completing, cut",
    "0 answer, cut",
    "0 cut with a stopped unit among those told",
    "2 cut",
    "3 cut",
    "4 cut",
    "5 cut",
    "6 cut",
    "7 cut",
    "10 cut",
    "11 cut",
    "12 report, too many",
    "12 report, not least",
    "12 take, too many",
    "12 take, nothing sent",
    "12 answer",
    "12 and a line full",
    "13 report",
    "13 report, of several one",
    "13 report, of a stopped unit",
    "13 report, history full",
    "13 report, a line full",
    "13 cut",
    "13 cut, too many",
];

/// How a settling run of a sound system comes to its end, by images and by sheets. No system is known
/// that uses up the budget, so that this way is not listed.
const SETTLING: &[&str] = &[
    "settling, nothing to do",
    "settling, at rest",
    "settling, a stopped unit",
    "settling, a hundred steps and more",
    "settling, receivers before senders, seen",
    "settling, senders rise, seen",
    "settling, held by 6",
];

/// The same, but only on systems that no run reaches.
const HANDED_IN: &[&str] = &[
    "0 take, stale Acc completing",
    "0 take, Acc with nothing proposed",
    "7 Commit",
    "settling, addressees rise, seen",
    "settling, held by 7 alone",
    "settling, held by 7 alone, an answer too",
];

/// What images alone can show; FAULTS and DAMAGES too.
const IMAGES: &[&str] = &[
    "0 among stray bytes",
    "refused among stray bytes",
    "1 wrong length",
    "1 any bytes",
    "1 settling",
    "settling among stray bytes",
    "2 fresh",
    "list of steps",
    "list with too few places",
    "8 unknown kind in a list",
    "8 list that breaks off",
    "12 stop",
];

/// What sheets alone can show; FIRST and LATER too.
const SHEETS: &[&str] = &[
    "8 any bytes",
    "8 after a bad first line",
    "8 good first line too late",
    "9 one byte too many",
    "9 many bytes too many",
    "no line at all",
    "40,000 bytes and more",
    "60,000 bytes",
    "no line feed at the end",
    "buffer too short",
    "buffer just long enough",
    "buffer longer than needed",
    "buffer of no bytes",
];

/// Where a way is met.
#[derive(Clone, Copy, PartialEq, Eq, PartialOrd, Ord)]
pub enum By {
    Image,
    Sheet,
}

/// The ways that have to be met.
fn listed(by: By) -> BTreeSet<&'static str> {
    let steps = STEPS.iter().chain(SETTLING).copied();
    match by {
        By::Image => steps
            .chain([HANDED_IN, IMAGES].concat())
            .chain(FAULTS.iter().map(|fault| fault.0))
            .chain(DAMAGES.iter().map(|damage| damage.0))
            .collect(),
        By::Sheet => steps
            .chain(SHEETS.iter().copied())
            .chain(FIRST.iter().chain(LATER).map(|kind| kind.0))
            .collect(),
    }
}

#[derive(Default)]
pub struct Ways(BTreeMap<(By, &'static str), u64>);

impl Ways {
    pub fn count(&mut self, by: By, way: &'static str) {
        *self.0.entry((by, way)).or_default() += 1;
    }

    pub fn add(&mut self, other: Ways) {
        for (met, times) in other.0 {
            *self.0.entry(met).or_default() += times;
        }
    }

    fn times(&self, by: By, way: &'static str) -> u64 {
        self.0.get(&(by, way)).copied().unwrap_or(0)
    }

    /// Prints each way with its counts; answers whether all were met often enough.
    pub fn all_met(&self) -> bool {
        let (images, sheets) = (listed(By::Image), listed(By::Sheet));
        for (by, way) in self.0.keys() {
            assert!(listed(*by).contains(way), "{way} is not listed");
        }
        println!("by image  by sheet  way");
        for way in images.union(&sheets) {
            let [image, sheet] = [(By::Image, &images), (By::Sheet, &sheets)].map(|(by, ways)| {
                match ways.contains(way) {
                    true => self.times(by, way).to_string(),
                    false => "-".into(),
                }
            });
            println!("{image:>8}  {sheet:>8}  {way}");
        }
        images.iter().all(|way| self.times(By::Image, way) >= AT_LEAST)
            && sheets.iter().all(|way| self.times(By::Sheet, way) >= AT_LEAST)
    }
}

/// The way by which a step on a sound system came to its number.
pub fn way(before: &System, step: Step, number: u8) -> &'static str {
    if let Some(k) = step.cut {
        return cut_way(before, step.action, k, number);
    }
    match (step.action, number) {
        (Action::Report { p, view }, 0) if !back(before, p, view).is_empty() => {
            "0 report, bringing back"
        }
        (Action::Report { p, view }, 0) if !before.process(p).view.is_subset(view) => {
            "0 report, beginning a suspicion"
        }
        (Action::Report { view, .. }, 0) if view != before.everyone() => {
            "0 report, going on with one"
        }
        (Action::Report { p, view }, 0) if least(view) == p => "0 report, proposing",
        (Action::Report { .. }, 0) => "0 report, not least",
        (Action::Receive { from, at }, 0) => taken(before, from, at),
        (Action::Respond { to, .. }, 0) if before.process(to).crashed => {
            "0 answer, to a stopped unit"
        }
        (Action::Respond { p, to }, 0) => match accepts(before, p, to) {
            true => "0 answer, Acc",
            false => "0 answer, Retry",
        },
        (Action::Crash { .. }, 0) => "0 stop",
        (Action::Report { .. }, 2) => "2 report",
        (Action::Receive { from, at }, 2) if stranger(before, from) => match stopped(before, at) {
            true => "2 take, sender, receiver stopped",
            false => "2 take, sender",
        },
        (Action::Receive { .. }, 2) => "2 take, receiver",
        (Action::Respond { p, .. }, 2) if stranger(before, p) => "2 answer, who answers",
        (Action::Respond { p, .. }, 2) => match stopped(before, p) {
            true => "2 answer, to whom, who answers stopped",
            false => "2 answer, to whom",
        },
        (Action::Crash { .. }, 2) => "2 stop",
        (Action::Report { p, view }, 3) => match odd(before, p, view) {
            true => "3 report, odd view",
            false => "3 report",
        },
        (Action::Receive { .. }, 3) => "3 take",
        (Action::Respond { .. }, 3) => "3 answer",
        (Action::Crash { .. }, 3) => "3 stop",
        (Action::Report { p, view }, 4) => {
            match (view.is_subset(before.everyone()), view.contains(p)) {
                (false, true) => "4 beyond n",
                (true, _) => "4 lacks its own",
                (false, false) => "4 both",
            }
        }
        (Action::Receive { .. }, 5) => "5 empty line",
        (Action::Respond { p, to }, 10) => match is_full(before, p, to) {
            true => "10 no record, the line full",
            false => "10 no record",
        },
        (Action::Respond { p, to }, 11) => match is_full(before, p, to) {
            true => "11 record of another view, the line full",
            false => "11 record of another view",
        },
        (Action::Report { p, .. }, 6) => match is_full(before, p, p) {
            true => "6 report, its line full",
            false => "6 report",
        },
        (Action::Receive { from, at }, 6) => match from != at && is_full(before, at, at) {
            true => "6 Retry, its line full",
            false => "6 Retry",
        },
        (Action::Report { .. }, 7) => "7 report",
        (Action::Report { p, view }, 13) => early(before, p, view),
        (Action::Receive { from, at }, 7) => match before.channel(from, at).first() {
            Some(Message::Retry { .. }) => "7 Retry",
            _ => "7 Commit",
        },
        (Action::Respond { p, to }, 7) => match accepts(before, p, to) {
            true => "7 answer, Acc",
            false => "7 answer, Retry",
        },
        (_, other) => panic!("{step:?} gave {other}"),
    }
}

/// Those whom a report brings back.
fn back(before: &System, p: ProcessId, view: View) -> Vec<ProcessId> {
    view.members().filter(|&q| !before.process(p).view.contains(q)).collect()
}

/// How a report comes to be too early.
fn early(before: &System, p: ProcessId, view: View) -> &'static str {
    let proposes = least(view) == p;
    let full = |q: ProcessId| !before.process(q).crashed && is_full(before, p, q);
    let (trusted, others): (Vec<ProcessId>, Vec<ProcessId>) =
        back(before, p, view).into_iter().partition(|&q| before.mark(p, q));
    if proposes && before.process(p).propout.0 == LAST_INDEX {
        "13 report, history full"
    } else if proposes && view.members().any(full) {
        "13 report, a line full"
    } else if others.iter().any(|&q| before.process(q).crashed) {
        "13 report, of a stopped unit"
    } else if trusted.is_empty() {
        "13 report"
    } else {
        "13 report, of several one"
    }
}

/// The same, of a step that is cut after k messages.
fn cut_way(before: &System, action: Action, k: u8, number: u8) -> &'static str {
    let (actor, to) = addressees(before, action);
    let full = |q: ProcessId| !before.process(q).crashed && is_full(before, actor, q);
    match (action, number) {
        (_, 0) if to.iter().take(k.into()).any(|&q| before.process(q).crashed) => {
            "0 cut with a stopped unit among those told"
        }
        (Action::Report { .. }, 0) => "0 report, cut",
        (Action::Receive { from, at }, 0) => match before.channel(from, at).first() {
            Some(Message::Retry { .. }) => "0 take, Retry acted on, cut",
            _ => "0 take, Acc completing, cut",
        },
        (Action::Respond { .. }, 0) => "0 answer, cut",
        (_, 2) => "2 cut",
        (_, 3) => "3 cut",
        (_, 4) => "4 cut",
        (_, 5) => "5 cut",
        (_, 6) => "6 cut",
        (_, 7) => "7 cut",
        (_, 10) => "10 cut",
        (_, 11) => "11 cut",
        (Action::Crash { .. }, 12) => "12 stop",
        (Action::Report { .. }, 12) if to.is_empty() => "12 report, not least",
        (Action::Receive { .. }, 12) if to.is_empty() => "12 take, nothing sent",
        (_, 12) if to.iter().any(|&q| full(q)) => "12 and a line full",
        (Action::Report { .. }, 12) => "12 report, too many",
        (Action::Receive { .. }, 12) => "12 take, too many",
        (Action::Respond { .. }, 12) => "12 answer",
        (_, 13) if usize::from(k) >= to.len() => "13 cut, too many",
        (_, 13) => "13 cut",
        (_, other) => panic!("{action:?} cut after {k} gave {other}"),
    }
}

/// Who acts, and those to whom the whole step would send, where it is done or refused for its cut.
fn addressees(before: &System, action: Action) -> (ProcessId, Vec<ProcessId>) {
    let known = |p: ProcessId| !stranger(before, p);
    let of = |view: View| view.members().collect();
    match action {
        Action::Report { p, view } if least(view) == p => (p, of(view)),
        Action::Report { p, .. } | Action::Crash { p } => (p, Vec::new()),
        Action::Respond { p, to } => (p, vec![to]),
        Action::Receive { from, at } if known(from) && known(at) => {
            let process: &Process = before.process(at);
            let to = match before.channel(from, at).first() {
                Some(Message::Retry { old, .. })
                    if *old == process.propout && least(process.view) == at =>
                {
                    of(process.view)
                }
                Some(Message::Acc(index)) => {
                    let marked = match *index == process.propout {
                        true => process.acks.with(from),
                        false => process.acks,
                    };
                    let complete = process.proposal.is_subset(marked);
                    if complete {
                        of(process.proposal)
                    } else {
                        Vec::new()
                    }
                }
                _ => Vec::new(),
            };
            (at, to)
        }
        Action::Receive { at, .. } => (at, Vec::new()),
    }
}

fn stranger(system: &System, p: ProcessId) -> bool {
    !(1..=system.n).contains(&p.0)
}

fn is_full(system: &System, from: ProcessId, to: ProcessId) -> bool {
    system.channel(from, to).len() == CAPACITY
}

fn stopped(system: &System, p: ProcessId) -> bool {
    !stranger(system, p) && system.process(p).crashed
}

fn odd(system: &System, p: ProcessId, view: View) -> bool {
    !view.is_subset(system.everyone()) || !view.contains(p)
}

fn least(view: View) -> ProcessId {
    view.min().unwrap_or(ProcessId(0))
}

fn record(system: &System, p: ProcessId, from: ProcessId) -> Option<reference::Proposal> {
    system.process(p).recorded(from)
}

fn accepts(system: &System, p: ProcessId, from: ProcessId) -> bool {
    record(system, p, from).is_some_and(|record| record.index >= system.process(p).next)
}

fn taken(before: &System, from: ProcessId, at: ProcessId) -> &'static str {
    let process: &Process = before.process(at);
    let complete = |marked: View| process.proposal.is_subset(marked);
    match *before.channel(from, at).first().expect("a message") {
        _ if before.process(from).crashed => "0 take, from a stopped sender",
        Message::Propose(_) => "0 take, Propose",
        Message::Retry { old, .. } if old == process.propout && least(process.view) == at => {
            "0 take, Retry acted on"
        }
        Message::Retry { .. } => "0 take, Retry ignored",
        Message::Acc(_) if process.proposal.is_empty() => "0 take, Acc with nothing proposed",
        Message::Acc(index) if index != process.propout => match complete(process.acks) {
            true => "0 take, stale Acc completing",
            false => "0 take, stale Acc",
        },
        Message::Acc(_) => match complete(process.acks.with(from)) {
            true => "0 take, Acc completing",
            false => "0 take, Acc not completing",
        },
        Message::Commit(_) => "0 take, Commit",
    }
}
