//! Helpers for the tests. Sheets are written on one line, parted by "; ".

#![allow(dead_code)]

use reference::{fresh, number, run_sheet, GroupIndex, Message, ProcessId, Proposal, System, View};

/// The sheet's text.
pub fn sheet(short: &str) -> String {
    short.replace("; ", "\n")
}

/// Runs a sheet with a good first line. `outcomes` has a digit for each line
/// after it, blanks apart; `units` the unit lines, written like a sheet.
pub fn check(short: &str, outcomes: &str, units: &str) {
    let mut expected = String::new();
    let numbers = outcomes.chars().filter_map(|c| c.to_digit(16));
    for (line_number, number) in (2..).zip(numbers) {
        expected += &format!("{line_number} {number}\n");
    }
    expected += &sheet(units);
    expected += "\n";
    assert_eq!(printed(&sheet(short)), expected, "for {short}");
}

pub fn printed(text: &str) -> String {
    String::from_utf8(run_sheet(text.as_bytes())).unwrap()
}

/// A fresh system of a good size.
pub fn system(n: u8) -> System {
    let (outcome, system) = fresh(n);
    assert_eq!(number(outcome), 0);
    system
}

pub fn id(p: u8) -> ProcessId {
    ProcessId(p)
}

pub fn index(i: u8) -> GroupIndex {
    GroupIndex(i)
}

pub fn at(view: u8, i: u8) -> Proposal {
    Proposal { view: View(view), index: index(i) }
}

pub fn propose(view: u8, i: u8) -> Message {
    Message::Propose(at(view, i))
}

pub fn commit(view: u8, i: u8) -> Message {
    Message::Commit(at(view, i))
}

pub fn retry(old: u8, new: u8) -> Message {
    Message::Retry { old: index(old), new: index(new) }
}

pub fn acc(i: u8) -> Message {
    Message::Acc(index(i))
}

/// Puts messages on the channel from q to p, and nothing else.
pub fn put(system: &mut System, q: u8, p: u8, messages: &[Message]) {
    *system.channel_mut(id(q), id(p)) = messages.to_vec();
}

/// What waits on the channel from q to p.
pub fn waiting(system: &System, q: u8, p: u8) -> &[Message] {
    system.channel(id(q), id(p))
}

/// Gives process p a proposal that it has sent.
pub fn proposed(system: &mut System, p: u8, view: u8, i: u8) {
    let process = system.process_mut(id(p));
    process.proposal = View(view);
    process.propout = index(i);
}
