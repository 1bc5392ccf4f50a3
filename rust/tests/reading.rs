//! Each reader beside the bytes of docs/IMAGE.md.

mod common;

use common::*;
use lobstercreel::{
    Action, Channel, GroupIndex, Message, Process, ProcessId, Proposal, System, View,
};

fn process(bytes: &Image, p: u8) -> Process {
    System::from_image(*bytes).process(ProcessId(p)).unwrap()
}

fn channel(bytes: &Image, from: u8, at: u8) -> Channel {
    System::from_image(*bytes).channel(ProcessId(from), ProcessId(at)).unwrap()
}

fn proposal(view: u8, index: u8) -> Proposal {
    Proposal { view: View::from_bits(view), index: GroupIndex(index) }
}

/// All that a reader tells of a process, in the order of docs/IMAGE.md, the trust last.
fn told(process: &Process) -> Vec<u8> {
    let mut told = vec![
        process.crashed.into(),
        process.view.bits(),
        process.next.0,
        process.propout.0,
        process.proposal.bits(),
        process.acks.bits(),
    ];
    for q in (1..=8).map(ProcessId) {
        let record = process.recorded(q).map(|known| [1, known.view.bits(), known.index.0]);
        told.extend(record.unwrap_or([0; 3]));
    }
    let entry = |i| process.history.get(GroupIndex(i)).map_or(0, View::bits);
    told.extend((1..=32).map(entry));
    told.push(process.trust.bits());
    told
}

/// Eight processes of which every byte differs from its neighbours: each is told where it belongs.
#[test]
fn every_field() {
    let mut bytes = image(8);
    for p in 1..=8 {
        let at = process_at(p);
        (1..62).for_each(|k| bytes[at + k] = 1 + ((7 * usize::from(p) + k) % 255) as u8);
        bytes[at] = p % 2;
        (1..=8).for_each(|q| bytes[record_at(p, q)] = (p + q) % 2);
        (1..=8)
            .filter(|q| (p + q) % 2 == 0)
            .for_each(|q| bytes[record_at(p, q) + 1..][..2].fill(0));
        bytes[trust_at(p)] = 200 + p;
    }
    let system = System::from_image(bytes);
    assert!(system.processes().map(|process| process.id).eq((1..=8).map(ProcessId)));
    for (process, p) in system.processes().zip(1..) {
        let wanted = [&bytes[process_at(p)..][..62], &bytes[trust_at(p)..][..1]].concat();
        assert_eq!(told(&process), wanted, "{p}");
        assert_eq!(system.process(ProcessId(p)), Some(process));
        let records: Vec<_> = process.records().collect();
        let known = (1..=8).map(ProcessId).filter_map(|q| Some((q, process.recorded(q)?)));
        assert!(records.iter().copied().eq(known) && records.len() == 4);
        for i in 0..=u8::MAX {
            let entry = process.history.get(GroupIndex(i));
            assert_eq!(entry, system.entry(ProcessId(p), GroupIndex(i)));
            assert_eq!(entry.is_some(), (1..=32).contains(&i));
        }
        assert!(ids().all(|q| process.recorded(q).is_none() || (1..=8).contains(&q.0)));
    }
}

/// A history: the written entries alone, from either end.
#[test]
fn histories() {
    let mut bytes = image(3);
    bytes[entry_at(2, 5)] = 6;
    bytes[entry_at(2, 32)] = 2;
    let history = process(&bytes, 2).history;
    let wanted = [(1, 7), (5, 6), (32, 2)].map(|(i, view)| (GroupIndex(i), View::from_bits(view)));
    assert!(history.iter().eq(wanted));
    assert!(history.iter().rev().eq(wanted.into_iter().rev()));
    assert_eq!(history.last(), Some(wanted[2]));
    assert_eq!(process(&bytes, 2).to_string(), "unit 2 live next 2 1=123 5=23 32=2");
    bytes[entry_at(2, 1)..][..32].fill(0);
    assert_eq!(process(&bytes, 2).history.last(), None);
    assert_eq!(process(&bytes, 2).to_string(), "unit 2 live next 2");
}

/// Each channel with its messages, of every kind, oldest first.
#[test]
fn channels() {
    for (q, p) in pairs(8) {
        let mut bytes = image(8);
        // What lies next to the channel is not 0 either.
        bytes[channel_at(q, p) + LENGTH + 1] = 77;
        let slots = [[PROPOSE, 3, 4], [RETRY, 5, 6], [ACC, 7, 8], [COMMIT, 9, 10]];
        let wanted = [
            Message::Propose(proposal(3, 4)),
            Message::Retry { old: GroupIndex(5), new: GroupIndex(6) },
            Message::Acc(GroupIndex(7)),
            Message::Commit(proposal(9, 10)),
        ];
        let wanted: Vec<Message> = wanted.into_iter().cycle().take(8).collect();
        for (count, slot) in (0..).zip(slots.into_iter().cycle().take(8)) {
            assert_eq!(channel(&bytes, q, p).messages(), &wanted[..count]);
            send(&mut bytes, q, p, slot);
        }
        assert_eq!(channel(&bytes, q, p).messages(), wanted);
        assert!(channel(&bytes, q, p).iter().eq(&wanted));
        assert!(channel(&bytes, q, p).into_iter().eq(&wanted));
        assert_eq!(channel(&bytes, q, p).length(), 8);
        for other in System::from_image(bytes).channels() {
            let this = (other.from, other.at) == (ProcessId(q), ProcessId(p));
            assert_eq!(other.messages().is_empty(), !this);
        }
    }
}

/// All pairs of processes have a channel, and no others; `channels` goes by sender and receiver.
#[test]
fn every_channel() {
    for n in 0..=9 {
        let mut bytes = image(8);
        bytes[0] = n;
        let system = System::from_image(bytes);
        let known = n.min(8);
        let all: Vec<_> = system.channels().map(|one| (one.from.0, one.at.0)).collect();
        assert_eq!(all, pairs(known).collect::<Vec<_>>());
        for (q, p) in ids().flat_map(|q| ids().map(move |p| (q, p))) {
            let both = [q, p].iter().all(|id| (1..=known).contains(&id.0));
            assert_eq!(system.channel(q, p).is_some(), both);
        }
    }
}

/// There is no process past n, whatever its bytes are; and none past the eighth.
#[test]
fn no_process_past_n() {
    let mut bytes = image(8);
    for n in 0..=u8::MAX {
        bytes[0] = n;
        let system = System::from_image(bytes);
        assert_eq!(system.n(), n);
        assert_eq!(system.everyone(), View::first(n));
        assert_eq!(system.processes().len(), n.min(8).into());
        for p in ids() {
            let there = (1..=n.min(8)).contains(&p.0);
            assert_eq!(system.process(p).is_some(), there, "{p} of {n}");
            assert_eq!(system.entry(p, GroupIndex::FIRST).is_some(), there, "{p} of {n}");
        }
    }
}

/// Nor is anything recorded from one past n, or a mark of it.
#[test]
fn nothing_of_those_past_n() {
    let mut bytes = image(3);
    (1..=8).for_each(|q| bytes[record_at(2, q)..][..3].copy_from_slice(&[1, 7, q]));
    bytes[trust_at(2)] = 255;
    let process = process(&bytes, 2);
    let records = [1, 2, 3].map(|q| (ProcessId(q), proposal(7, q)));
    assert!(process.records().eq(records));
    assert_eq!(process.trust, View::first(3));
}

/// Tags that stand for nothing are read as docs/IMAGE.md says, as what is not sound.
#[test]
fn tags_of_nothing() {
    for tag in 2..=u8::MAX {
        let mut bytes = image(2);
        bytes[process_at(2)] = tag;
        bytes[record_at(2, 1)..][..3].copy_from_slice(&[tag, 3, 2]);
        let read = process(&bytes, 2);
        assert_eq!((read.crashed, read.next), (false, GroupIndex(0)));
        assert_eq!(read.recorded(ProcessId(1)), Some(proposal(0, 0)));
        assert!(!System::from_image(bytes).is_sound());
    }
    for tag in 4..=u8::MAX {
        let mut bytes = image(2);
        send(&mut bytes, 1, 2, [ACC, 2, 0]);
        send(&mut bytes, 1, 2, [tag, 3, 2]);
        let wanted = [2, 0].map(|index| Message::Acc(GroupIndex(index)));
        assert_eq!(channel(&bytes, 1, 2).messages(), wanted);
        assert!(!System::from_image(bytes).is_sound());
    }
}

/// A channel that says it holds more than 8 has all 8 slots, and its length is told.
#[test]
fn too_long_a_channel() {
    for length in 0..=u8::MAX {
        let mut bytes = image(2);
        bytes[channel_at(2, 1)..][..24].copy_from_slice(&[ACC, 2, 0].repeat(8));
        bytes[channel_at(2, 1) + LENGTH] = length;
        let read = channel(&bytes, 2, 1);
        assert_eq!(read.length(), length);
        assert_eq!(read.messages(), vec![Message::Acc(GroupIndex(2)); length.min(8).into()]);
        assert_eq!(System::from_image(bytes).is_sound(), length <= 8);
    }
}

/// The marks of S-5: who left the view may be trusted again once it has lacked this process too.
#[test]
fn trust() {
    let (p, q) = (ProcessId(1), ProcessId(2));
    let mut system = System::fresh(2).unwrap();
    let trust = |system: &System, p| system.process(p).unwrap().trust;
    assert_eq!(trust(&system, p), View::EMPTY);
    system.perform(Action::Report { p, view: View::only(p) }).unwrap();
    assert_eq!(trust(&system, p), View::EMPTY);
    system.perform(Action::Report { p: q, view: View::only(q) }).unwrap();
    assert_eq!((trust(&system, p), trust(&system, q)), (View::only(q), View::only(p)));
}

/// `Debug` says what there is and no more; `Display` of each process is what a sheet prints.
#[test]
fn words() {
    let mut system = System::fresh(2).unwrap();
    let (p, q) = (ProcessId(1), ProcessId(2));
    system.perform(Action::Report { p, view: View::first(2) }).unwrap();
    system.perform(Action::Receive { from: p, at: p }).unwrap();
    let wanted = "System { n: 2, processes: [\
        Process { id: 1, crashed: false, view: {1, 2}, next: 2, propout: 2, proposal: {1, 2}, \
        acks: {}, trust: {}, records: {1: Proposal { view: {1, 2}, index: GroupIndex(2) }}, \
        history: {1: {1, 2}} }, \
        Process { id: 2, crashed: false, view: {1, 2}, next: 2, propout: 1, proposal: {}, \
        acks: {}, trust: {}, records: {}, history: {1: {1, 2}} }], \
        channels: [Channel { from: 1, at: 2, messages: \
        [Propose(Proposal { view: {1, 2}, index: GroupIndex(2) })] }] }";
    assert_eq!(format!("{system:?}"), wanted);
    system.perform(Action::Crash { p: q }).unwrap();
    let lines: String = system.processes().map(|process| format!("{process}\n")).collect();
    let mut out = [0; 200];
    let printed = lobstercreel::run_sheet_into("u 2\nr 1 12\nt 1 1\ns 2\n", &mut out);
    assert_eq!(format!("2 0\n3 0\n4 0\n{lines}").as_bytes(), printed);
    let mut bytes = image(1);
    bytes[channel_at(1, 1) + LENGTH] = 9;
    let said = format!("{:?}", channel(&bytes, 1, 1));
    assert!(said.starts_with("Channel { from: 1, at: 1, length: 9, messages: [Propose"), "{said}");
}
