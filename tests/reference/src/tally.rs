//! S-7: the counts of one sheet. "It prints .. messages sent, taken, waiting,
//! and lost to a stop (cleared by it, or sent to a stopped unit) .. Each count
//! is defined from the steps done".

use crate::message::{GroupIndex, Message, Proposal};
use crate::sheet::{run, SHEET_LIMIT};
use crate::step::Event;
use crate::system::System;
use crate::view::ProcessId;
use std::collections::BTreeSet;

#[derive(Clone, Copy, Debug, Default, PartialEq, Eq)]
pub struct Tally {
    pub sent: usize,
    pub taken: usize,
    pub waiting: usize,
    pub lost: usize,
    pub proposals: usize,
    /// Those of the proposals for which a Commit was sent.
    pub committed: usize,
}

/// The counts of a sheet; None for one that is too long.
pub fn tally_sheet(sheet: &[u8]) -> Option<Tally> {
    let run = run(sheet);
    (sheet.len() <= SHEET_LIMIT).then(|| Tally::of(&run.told, run.system.as_ref()))
}

impl Tally {
    /// The counts of steps from a fresh system, told one after another, and of
    /// what waits in the system that they leave. With no system there is none.
    pub fn of(told: &[Event], left: Option<&System>) -> Tally {
        let count = |counted: fn(&Event) -> bool| told.iter().filter(|e| counted(e)).count();
        let cleared = count(|event| matches!(event, Event::Cleared { .. }));
        let vanished = count(|event| matches!(event, Event::Sent { vanishes: true, .. }));
        // "A proposal is a rise of PropOut, cut or not, committed if any Commit
        // was sent." One process never proposes at an index twice.
        let proposals: Vec<(ProcessId, GroupIndex)> =
            told.iter().filter_map(|event| proposed(*event)).collect();
        let commits: BTreeSet<(ProcessId, GroupIndex)> =
            told.iter().filter_map(|event| commit_sent(*event)).collect();
        Tally {
            sent: count(|event| matches!(event, Event::Sent { .. })),
            taken: count(|event| matches!(event, Event::Taken { .. })),
            waiting: left.map_or(0, waiting),
            lost: cleared + vanished,
            proposals: proposals.len(),
            committed: proposals.iter().filter(|proposal| commits.contains(proposal)).count(),
        }
    }

    /// "The class tally is one small record that each sheet adds to".
    pub fn add(&mut self, sheet: Tally) {
        self.sent += sheet.sent;
        self.taken += sheet.taken;
        self.waiting += sheet.waiting;
        self.lost += sheet.lost;
        self.proposals += sheet.proposals;
        self.committed += sheet.committed;
    }

    /// "the share of proposals for which a Commit was sent"; "The share is in
    /// lowest terms, 0/1 without proposals." Divided by the greatest number
    /// that goes into both.
    pub fn share(&self) -> (usize, usize) {
        let into_both = |by: &usize| self.committed % by == 0 && self.proposals % by == 0;
        match (1..=self.proposals).rev().find(into_both) {
            Some(by) => (self.committed / by, self.proposals / by),
            None => (0, 1),
        }
    }

    /// "`NAME sent A taken B waiting C lost D share E/F`", without the name.
    pub(crate) fn text(&self) -> String {
        let Tally { sent, taken, waiting, lost, .. } = self;
        let (committed, proposals) = self.share();
        format!(
            "sent {sent} taken {taken} waiting {waiting} lost {lost} share {committed}/{proposals}"
        )
    }
}

fn proposed(event: Event) -> Option<(ProcessId, GroupIndex)> {
    match event {
        Event::Proposed { p, index } => Some((p, index)),
        _ => None,
    }
}

/// The proposal for which a Commit is sent.
fn commit_sent(event: Event) -> Option<(ProcessId, GroupIndex)> {
    match event {
        Event::Sent { from, message: Message::Commit(Proposal { index, .. }), .. } => {
            Some((from, index))
        }
        _ => None,
    }
}

/// The messages on all channels.
fn waiting(system: &System) -> usize {
    system.pairs().map(|(q, p)| system.channel(q, p).len()).sum()
}
