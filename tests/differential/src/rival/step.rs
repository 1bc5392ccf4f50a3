//! A step on any system, and on one known to be sound.

use super::algorithm;
use super::refusal::{Outcome, Refusal};
use super::soundness::sound;
use super::system::System;
use super::view::{ProcessId, View};

/// A step: an action, whole or cut.
#[derive(Clone, Copy, Debug, PartialEq, Eq)]
pub struct Step {
    pub action: Action,
    pub cut: Option<u8>,
}

#[derive(Clone, Copy, Debug, PartialEq, Eq)]
pub enum Action {
    Report {
        p: ProcessId,
        view: View,
    },
    /// Document 01: take.
    Receive {
        from: ProcessId,
        at: ProcessId,
    },
    /// Document 01: answer.
    Respond {
        p: ProcessId,
        to: ProcessId,
    },
    /// Document 01: stop.
    Crash {
        p: ProcessId,
    },
}

impl Step {
    /// Does the step on any system.
    pub fn run(self, system: &mut System) -> Outcome {
        if !sound(system) {
            return Err(Refusal::Unsound);
        }
        self.run_on_sound(system)
    }

    /// Does the step on a system known to be sound.
    pub fn run_on_sound(self, system: &mut System) -> Outcome {
        match self.action {
            Action::Report { p, view } => algorithm::report(system, p, view, self.cut),
            Action::Receive { from, at } => algorithm::receive(system, from, at, self.cut),
            Action::Respond { p, to } => algorithm::respond(system, p, to, self.cut),
            Action::Crash { p } => algorithm::crash(system, p, self.cut),
        }
    }
}
