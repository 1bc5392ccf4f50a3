//! The steps, whole or cut. Each makes the next system from the one handed
//! over, in the order of document 01's sentences, or is refused.

use crate::message::{GroupIndex, Message, Proposal, LAST_INDEX};
use crate::refusal::{refuse_if, Outcome, Refusal};
use crate::soundness::sound;
use crate::system::{System, CAPACITY};
use crate::view::{ProcessId, View};

/// One of the four things that a step can be.
#[derive(Clone, Copy, Debug, PartialEq, Eq)]
pub enum Action {
    Report {
        p: ProcessId,
        view: View,
    },
    /// Document 01: take.
    Receive {
        from: ProcessId,
        at: ProcessId,
    },
    /// Document 01: answer.
    Respond {
        p: ProcessId,
        to: ProcessId,
    },
    /// Document 01: stop.
    Crash {
        p: ProcessId,
    },
}

/// Process p is told its local view.
pub fn report(system: &mut System, p: ProcessId, view: View) -> Outcome {
    Action::Report { p, view }.run(system)
}

/// Process `at` receives the oldest message of `from`.
pub fn receive(system: &mut System, from: ProcessId, at: ProcessId) -> Outcome {
    Action::Receive { from, at }.run(system)
}

/// Process p responds to the recorded proposal of `to`.
pub fn respond(system: &mut System, p: ProcessId, to: ProcessId) -> Outcome {
    Action::Respond { p, to }.run(system)
}

/// Process p stops for good.
pub fn crash(system: &mut System, p: ProcessId) -> Outcome {
    Action::Crash { p }.run(system)
}

/// A step: an action, whole or cut. S-2: "A report, take or answer may now be
/// cut after its first k messages".
#[derive(Clone, Copy, Debug, PartialEq, Eq)]
pub struct Step {
    pub action: Action,
    pub cut: Option<u8>,
}

impl From<Action> for Step {
    fn from(action: Action) -> Step {
        Step { action, cut: None }
    }
}

impl Action {
    /// The step that is cut after its first k messages.
    pub fn cut(self, k: u8) -> Step {
        Step { action: self, cut: Some(k) }
    }

    /// Does the whole step.
    pub fn run(self, system: &mut System) -> Outcome {
        Step::from(self).run(system)
    }
}

/// What a step done does to PropOut and to messages, one thing after another;
/// S-7 counts from these.
#[derive(Clone, Copy, Debug, PartialEq, Eq)]
pub enum Event {
    /// PropOut of p rises to this index.
    Proposed { p: ProcessId, index: GroupIndex },
    /// A message goes to a process; if that has crashed, it vanishes.
    Sent { from: ProcessId, to: ProcessId, message: Message, vanishes: bool },
    /// A message is received.
    Taken { from: ProcessId, at: ProcessId, message: Message },
    /// A message that waited is cleared, since its receiver stops.
    Cleared { from: ProcessId, at: ProcessId, message: Message },
}

impl Step {
    /// Does the step. "A refused step returns the table it was handed."
    pub fn run(self, system: &mut System) -> Outcome {
        self.run_told(system, &mut Vec::new())
    }

    /// The same; what it does comes after what was told before. A refused
    /// step tells nothing.
    pub fn run_told(self, system: &mut System, told: &mut Vec<Event>) -> Outcome {
        let (after, events) = self.next_told(system)?;
        *system = after;
        told.extend(events);
        Ok(())
    }

    /// The next system; or "the lowest number that applies".
    pub fn next(self, system: &System) -> Result<System, Refusal> {
        self.next_told(system).map(|(after, _)| after)
    }

    /// The next system, and what the step does.
    fn next_told(self, system: &System) -> Result<(System, Vec<Event>), Refusal> {
        let Step { action, cut } = self;
        let (actor, other) = match action {
            Action::Report { p, .. } | Action::Crash { p } => (p, p),
            Action::Receive { from, at } => (at, from),
            Action::Respond { p, to } => (p, to),
        };
        let known = |p: ProcessId| (1..=system.n).contains(&p.0);
        refuse_if(!sound(system), Refusal::Unsound)?;
        refuse_if(!known(actor) || !known(other), Refusal::Stranger)?;
        refuse_if(system.process(actor).crashed, Refusal::Crashed)?;
        let (after, mut told) = (system.clone(), Vec::new());
        let after = match action {
            Action::Report { p, view } => reported(after, p, view, cut, &mut told),
            Action::Receive { from, at } => received(after, from, at, cut, &mut told),
            Action::Respond { p, to } => responded(after, p, to, cut, &mut told),
            Action::Crash { p } => silent(crashed(after, p, &mut told), cut),
        }?;
        Ok((after, told))
    }
}

/// A step that sends nothing: no count is below the number that it would send.
fn silent(after: System, cut: Option<u8>) -> Result<System, Refusal> {
    refuse_if(cut.is_some(), Refusal::CutTooLate)?;
    Ok(after)
}

fn reported(
    mut after: System,
    p: ProcessId,
    view: View,
    cut: Option<u8>,
    told: &mut Vec<Event>,
) -> Result<System, Refusal> {
    let odd = !view.is_subset(after.everyone()) || !view.contains(p);
    refuse_if(odd, Refusal::OddView)?;
    // S-5: "a report that brings back a unit q is refused unless, at some
    // moment since p's latest suspicion of q (that moment counted), q's local
    // view lacked p .. The table keeps one mark per ordered pair, which alone
    // decides". "13 early trust, after 4 and before 5".
    let old = after.process(p).view;
    let early = view.members().any(|q| !old.contains(q) && !after.mark(p, q));
    refuse_if(early, Refusal::EarlyTrust)?;
    for q in after.everyone().members() {
        // "A suspicion begins when q leaves p's local view": "a beginning
        // suspicion sets it by q's view at that moment"
        if old.contains(q) && !view.contains(q) {
            let lacks = !after.process(q).view.contains(p);
            after.set_mark(p, q, lacks);
        }
        // "and each new view of q without p turns it on": here p has the new
        // view, and q is the one without whom it is.
        if !view.contains(q) {
            after.set_mark(q, p, true);
        }
    }
    let process = after.process_mut(p);
    // "The local view becomes this view."
    process.view = view;
    // "If p is its least unit: .. Otherwise nothing else changes."
    if view.min() != Some(p) {
        return silent(after, cut);
    }
    refuse_if(process.propout.0 == LAST_INDEX, Refusal::HistoryFull)?;
    // "PropOut rises by 1, the last proposed view becomes this view, the
    // acknowledgements are cleared, and Propose(view, PropOut) goes to every
    // unit of the view, p too."
    let index = GroupIndex(process.propout.0 + 1);
    process.propout = index;
    process.proposal = view;
    process.acks = View::EMPTY;
    told.push(Event::Proposed { p, index });
    sent(after, p, view, Message::Propose(Proposal { view, index }), cut, told)
}

fn received(
    mut after: System,
    q: ProcessId,
    p: ProcessId,
    cut: Option<u8>,
    told: &mut Vec<Event>,
) -> Result<System, Refusal> {
    refuse_if(after.channel(q, p).is_empty(), Refusal::NothingThere)?;
    // "The oldest message on the line from q to p comes off."
    let message = after.channel_mut(q, p).remove(0);
    told.push(Event::Taken { from: q, at: p, message });
    let process = after.process_mut(p);
    match message {
        // "recorded as q's proposal in place of any earlier one from q"
        Message::Propose(proposal) => {
            process.set_recorded(q, Some(proposal));
            silent(after, cut)
        }
        // "if old is PropOut and p is the least unit of its local view,
        // PropOut becomes new, acknowledgements are cleared, Propose(local
        // view, new) goes to every unit of the local view. The last proposed
        // view is not touched .. Otherwise ignored."
        Message::Retry { old, new } => {
            if old != process.propout || process.view.min() != Some(p) {
                return silent(after, cut);
            }
            refuse_if(new.0 == LAST_INDEX + 1, Refusal::HistoryFull)?;
            process.propout = new;
            process.acks = View::EMPTY;
            let view = process.view;
            told.push(Event::Proposed { p, index: new });
            sent(after, p, view, Message::Propose(Proposal { view, index: new }), cut, told)
        }
        // "if i is PropOut, q is marked as acknowledged. Then, stale or not,
        // if the last proposed view is not empty and all its units are
        // marked, Commit(that view, PropOut) goes to each of them and the
        // marks are cleared."
        Message::Acc(i) => {
            if i == process.propout {
                process.acks = process.acks.with(q);
            }
            let (view, index) = (process.proposal, process.propout);
            if view.is_empty() || !view.is_subset(process.acks) {
                return silent(after, cut);
            }
            process.acks = View::EMPTY;
            sent(after, p, view, Message::Commit(Proposal { view, index }), cut, told)
        }
        // "position i at p becomes that view"
        Message::Commit(Proposal { view, index }) => {
            process.set_entry(index, view);
            silent(after, cut)
        }
    }
}

fn responded(
    mut after: System,
    p: ProcessId,
    q: ProcessId,
    cut: Option<u8>,
    told: &mut Vec<Event>,
) -> Result<System, Refusal> {
    let process = after.process_mut(p);
    // "p has a recorded proposal from q whose view equals p's local view." S-1:
    // "An answer with no record gets its own number, and so does one whose
    // recorded view is not the local view."
    let Some(Proposal { view, index }) = process.recorded(q) else {
        return Err(Refusal::NoRecord);
    };
    refuse_if(view != process.view, Refusal::OtherView)?;
    // "The record is cleared."
    process.set_recorded(q, None);
    // "If its position is below Next, Retry(that position, Next) goes to q.
    // Otherwise Next becomes that position + 1 and Acc(that position) goes
    // to q"
    let reply = if index < process.next {
        Message::Retry { old: index, new: process.next }
    } else {
        process.next = GroupIndex(index.0 + 1);
        Message::Acc(index)
    };
    sent(after, p, View::only(q), reply, cut, told)
}

/// "p is stopped for good. Every line towards p is emptied; lines from p
/// keep their messages."
fn crashed(mut after: System, p: ProcessId, told: &mut Vec<Event>) -> System {
    after.process_mut(p).crashed = true;
    for q in after.everyone().members() {
        for message in after.channel_mut(q, p).drain(..) {
            told.push(Event::Cleared { from: q, at: p, message });
        }
    }
    after
}

/// The message goes from p to each process of the view. "A message sent to a
/// stopped unit vanishes and needs no room." All that the step takes off a
/// channel has come off: "Room is counted after the taken message has come
/// off."
///
/// A cut: "in rising order of addressee, k at least 0 and below the number it
/// would send. The unit's own fields change as in the full step, those k
/// messages are placed, and the unit stops as by Stop. Room is tested for those
/// k only. A message to a stopped unit counts among those it would send."
fn sent(
    mut after: System,
    p: ProcessId,
    to: View,
    message: Message,
    cut: Option<u8>,
    told: &mut Vec<Event>,
) -> Result<System, Refusal> {
    let mut addressees: Vec<ProcessId> = to.members().collect();
    if let Some(k) = cut.map(usize::from) {
        refuse_if(k >= addressees.len(), Refusal::CutTooLate)?;
        addressees.truncate(k);
    }
    for q in addressees {
        let vanishes = after.process(q).crashed;
        told.push(Event::Sent { from: p, to: q, message, vanishes });
        if !vanishes {
            refuse_if(after.channel(p, q).len() == CAPACITY, Refusal::ChannelFull)?;
            after.channel_mut(p, q).push(message);
        }
    }
    Ok(if cut.is_some() { crashed(after, p, told) } else { after })
}
