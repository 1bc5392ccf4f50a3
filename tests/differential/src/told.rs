//! What the wrapper's readers tell of an image, beside what the reference reads there.

use lobstercreel as ours;
use reference::image::{decode, Image};
use reference::{GroupIndex, Message, Process, ProcessId, Proposal, System, View};

/// The wrapper tells of the image what the reference reads there, if that can read it.
pub fn tells(image: &Image, seed: u64) {
    let (system, wanted) = (ours::System::from_image(*image), decode(image));
    assert_eq!(system.n(), wanted.n, "seed {seed}");
    assert_eq!(system.is_sound(), reference::sound(&wanted), "seed {seed}");
    if readable(&wanted) {
        assert!(told(&system) == wanted, "seed {seed}: the wrapper tells another system");
    }
}

/// The wrapper's systems are equal just if the reference's are, if that can read both.
pub fn alike(a: &Image, b: &Image, seed: u64) {
    let (one, other) = (decode(a), decode(b));
    if readable(&one) && readable(&other) {
        let ours = ours::System::from_image(*a) == ours::System::from_image(*b);
        assert_eq!(ours, one == other, "seed {seed}: equal or not");
    }
}

fn readable(system: &System) -> bool {
    !system.unreadable && system.n <= 8
}

/// The system that the readers tell.
fn told(system: &ours::System) -> System {
    let mut told = reference::fresh(system.n()).1;
    for process in system.processes() {
        *told.process_mut(ProcessId(process.id.0)) = told_process(&process);
        for q in told.everyone().members() {
            let mark = process.trust.contains(ours::ProcessId(q.0));
            told.set_mark(ProcessId(process.id.0), q, mark);
        }
    }
    for channel in system.channels() {
        let messages = told.channel_mut(ProcessId(channel.from.0), ProcessId(channel.at.0));
        *messages = channel.iter().map(|&message| told_message(message)).collect();
    }
    told
}

fn told_process(process: &ours::Process) -> Process {
    let mut told = Process::initial(View::EMPTY);
    told.crashed = process.crashed;
    told.view = View(process.view.bits());
    told.next = GroupIndex(process.next.0);
    told.propout = GroupIndex(process.propout.0);
    told.proposal = View(process.proposal.bits());
    told.acks = View(process.acks.bits());
    for (q, proposal) in process.records() {
        told.set_recorded(ProcessId(q.0), Some(told_proposal(proposal)));
    }
    for (i, view) in process.history.iter() {
        told.set_entry(GroupIndex(i.0), View(view.bits()));
    }
    told
}

fn told_message(message: ours::Message) -> Message {
    match message {
        ours::Message::Propose(proposal) => Message::Propose(told_proposal(proposal)),
        ours::Message::Retry { old, new } => {
            Message::Retry { old: GroupIndex(old.0), new: GroupIndex(new.0) }
        }
        ours::Message::Acc(i) => Message::Acc(GroupIndex(i.0)),
        ours::Message::Commit(proposal) => Message::Commit(told_proposal(proposal)),
    }
}

fn told_proposal(proposal: ours::Proposal) -> Proposal {
    Proposal { view: View(proposal.view.bits()), index: GroupIndex(proposal.index.0) }
}
