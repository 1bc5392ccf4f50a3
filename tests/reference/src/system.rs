//! The whole system (document 01: table).

use crate::message::Message;
use crate::process::Process;
use crate::refusal::{Outcome, Refusal};
use crate::view::{ProcessId, View};

/// The most processes a system can have.
pub const MAX_PROCESSES: usize = 8;

/// How many messages a channel holds.
pub const CAPACITY: usize = 8;

/// The messages that wait, the oldest first.
pub type Channel = Vec<Message>;

#[derive(Clone, Debug, PartialEq, Eq)]
pub struct System {
    /// The number of processes.
    pub n: u8,
    /// Was it read from an image with a byte, within the table, that stands
    /// for nothing?
    pub unreadable: bool,
    /// Process p is at p - 1; there are n of them.
    processes: Vec<Process>,
    /// The channel from q to p is at q - 1, and there at p - 1.
    channels: Vec<Vec<Channel>>,
    /// S-5: "The table keeps one mark per ordered pair". That of (p, q) is at
    /// p - 1, and there at q - 1.
    marks: Vec<Vec<bool>>,
}

/// "A request for n outside 1 to 8 gives refusal 2 and a table of zero
/// units."
pub fn fresh(n: u8) -> (Outcome, System) {
    match n {
        1..=8 => (Ok(()), System::initial(n)),
        _ => (Err(Refusal::Stranger), System::initial(0)),
    }
}

impl System {
    /// The first state of n processes, n being at most 8.
    pub(crate) fn initial(n: u8) -> System {
        let there = usize::from(n);
        System {
            n,
            unreadable: false,
            processes: vec![Process::initial(View::first(n)); there],
            channels: vec![vec![Channel::new(); there]; there],
            marks: vec![vec![false; there]; there],
        }
    }

    /// The set of all n processes.
    pub fn everyone(&self) -> View {
        View::first(self.n)
    }

    /// Every ordered pair of processes, one and itself included.
    pub fn pairs(&self) -> impl Iterator<Item = (ProcessId, ProcessId)> {
        let everyone = self.everyone();
        everyone.members().flat_map(move |q| everyone.members().map(move |p| (q, p)))
    }

    /// The state of a process from 1 to n; panics for any other number.
    pub fn process(&self, p: ProcessId) -> &Process {
        &self.processes[usize::from(p.0) - 1]
    }

    pub fn process_mut(&mut self, p: ProcessId) -> &mut Process {
        &mut self.processes[usize::from(p.0) - 1]
    }

    /// The channel between two processes from 1 to n; panics for others.
    pub fn channel(&self, from: ProcessId, to: ProcessId) -> &Channel {
        &self.channels[usize::from(from.0) - 1][usize::from(to.0) - 1]
    }

    pub fn channel_mut(&mut self, from: ProcessId, to: ProcessId) -> &mut Channel {
        &mut self.channels[usize::from(from.0) - 1][usize::from(to.0) - 1]
    }

    /// The mark of two processes from 1 to n, in this order; panics for others.
    pub fn mark(&self, p: ProcessId, q: ProcessId) -> bool {
        self.marks[usize::from(p.0) - 1][usize::from(q.0) - 1]
    }

    pub fn set_mark(&mut self, p: ProcessId, q: ProcessId, on: bool) {
        self.marks[usize::from(p.0) - 1][usize::from(q.0) - 1] = on;
    }
}
