//! What a step can be.

use crate::raw;
use crate::view::{ProcessId, View};

/// What a process does.
#[derive(Clone, Copy, Debug, PartialEq, Eq, Hash)]
#[non_exhaustive]
pub enum Action {
    /// Process p is told its view.
    Report {
        /// The process.
        p: ProcessId,
        /// Its view.
        view: View,
    },
    /// A process receives the oldest message of another (the papers: take).
    Receive {
        /// The process that sent it.
        from: ProcessId,
        /// The process that receives it.
        at: ProcessId,
    },
    /// Process p responds to the proposal that it recorded from another (the papers: answer).
    Respond {
        /// The process that responds.
        p: ProcessId,
        /// The process that proposed.
        to: ProcessId,
    },
    /// Process p crashes, for good (the papers: stop).
    Crash {
        /// The process.
        p: ProcessId,
    },
}

impl Action {
    /// The step cut after its first k messages, in rising order of those they go to: the fields of the
    /// process change as in the whole step, those k are sent, and the process crashes.
    ///
    /// It is refused with [`Refusal::CutTooLate`](crate::Refusal::CutTooLate) if the whole step would
    /// not send more than k.
    ///
    /// ```
    /// use lobstercreel::{Action, ProcessId, Refusal, System, View};
    ///
    /// let p = ProcessId(1);
    /// let report = Action::Report { p, view: View::first(3) };
    /// let mut system = System::fresh(3)?;
    /// assert_eq!(system.perform(report.cut_after(3)), Err(Refusal::CutTooLate));
    /// system.perform(report.cut_after(2))?;
    /// let sent = |q| !system.channel(p, ProcessId(q)).unwrap().messages().is_empty();
    /// // What went to process 1 is lost, since that has crashed.
    /// assert_eq!([1, 2, 3].map(sent), [false, true, false]);
    /// # Ok::<(), Refusal>(())
    /// ```
    pub const fn cut_after(self, k: u8) -> Step {
        Step { action: self, cut: Some(k) }
    }

    /// The whole step.
    pub const fn whole(self) -> Step {
        Step { action: self, cut: None }
    }
}

/// An action, whole or cut: see [`Action::whole`] and [`Action::cut_after`].
#[derive(Clone, Copy, Debug, PartialEq, Eq, Hash)]
#[non_exhaustive]
pub struct Step {
    /// What is done.
    pub action: Action,
    /// After how many messages it is cut, if it is.
    pub cut: Option<u8>,
}

impl From<Action> for Step {
    fn from(action: Action) -> Step {
        action.whole()
    }
}

impl Step {
    /// The step as it is in a list of steps ([`raw::steps`]).
    ///
    /// No step sends more than 8 messages, so a count of 255, for which a list has no byte, is written
    /// as 254.
    pub const fn to_bytes(self) -> [u8; 4] {
        let cut = match self.cut {
            None => raw::WHOLE,
            Some(u8::MAX) => u8::MAX - 1,
            Some(k) => k,
        };
        match self.action {
            Action::Report { p, view } => [0, p.0, view.bits(), cut],
            Action::Receive { from, at } => [1, from.0, at.0, cut],
            Action::Respond { p, to } => [2, p.0, to.0, cut],
            Action::Crash { p } => [3, p.0, 0, cut],
        }
    }
}
