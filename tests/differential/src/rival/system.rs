//! The whole system (document 01: table), and sending within it.

use super::channel::Channel;
use super::message::Message;
use super::process::Process;
use super::refusal::{Outcome, Refusal};
use super::view::{ProcessId, View};

/// The most processes a system can have.
pub const MAX_PROCESSES: usize = 8;

#[derive(Clone, Debug, PartialEq, Eq)]
pub struct System {
    /// The number of processes.
    pub n: u8,
    /// Process p is in slot p - 1. Those past n play no part.
    pub processes: [Process; MAX_PROCESSES],
    /// The channel from p to q is `channels[p - 1][q - 1]`.
    pub channels: [[Channel; MAX_PROCESSES]; MAX_PROCESSES],
    /// Whom process p may trust again, in slot p - 1.
    pub trusted: [View; MAX_PROCESSES],
}

impl System {
    /// The first state of n processes, all eight slots filled alike.
    pub(super) fn initial(n: u8) -> System {
        System {
            n,
            processes: [Process::initial(View::first(n)); MAX_PROCESSES],
            channels: [[Channel::EMPTY; MAX_PROCESSES]; MAX_PROCESSES],
            trusted: [View::EMPTY; MAX_PROCESSES],
        }
    }

    /// The set of all n processes.
    pub fn everyone(&self) -> View {
        View::first(self.n)
    }

    /// The state of a process from 1 to 8; panics for any other number.
    pub fn process(&self, p: ProcessId) -> &Process {
        &self.processes[p.slot()]
    }

    pub fn process_mut(&mut self, p: ProcessId) -> &mut Process {
        &mut self.processes[p.slot()]
    }

    /// The channel between two processes from 1 to 8; panics for others.
    pub fn channel(&self, from: ProcessId, to: ProcessId) -> &Channel {
        &self.channels[from.slot()][to.slot()]
    }

    pub fn channel_mut(&mut self, from: ProcessId, to: ProcessId) -> &mut Channel {
        &mut self.channels[from.slot()][to.slot()]
    }

    /// Is there room for one message to each process of the view? A crashed
    /// one needs none.
    pub(super) fn require_room(&self, from: ProcessId, to: View) -> Outcome {
        let blocked = |q: ProcessId| !self.process(q).crashed && self.channel(from, q).is_full();
        if to.members().any(blocked) {
            return Err(Refusal::ChannelFull);
        }
        Ok(())
    }

    /// Sends a message to each process of the view, where there is room. To
    /// a crashed process it vanishes.
    pub(super) fn broadcast(&mut self, from: ProcessId, to: View, message: Message) {
        for q in to.members() {
            if !self.process(q).crashed {
                self.channel_mut(from, q).push(message);
            }
        }
    }
}
