//! What only a handed-in system can show, and what becomes of messages.

mod common;

use common::*;
use reference::*;

#[test]
fn stale_acc_completes() {
    let mut system = system(3);
    proposed(&mut system, 1, 3, 5);
    system.process_mut(id(1)).acks = View(7);
    put(&mut system, 3, 1, &[acc(4)]);
    assert_eq!(receive(&mut system, id(3), id(1)), Ok(()));
    assert_eq!(system.process(id(1)).acks, View::EMPTY);
    assert_eq!(waiting(&system, 1, 1), [commit(3, 5)]);
    assert_eq!(waiting(&system, 1, 2), [commit(3, 5)]);
    assert_eq!(waiting(&system, 1, 3), []);
    assert_eq!(waiting(&system, 3, 1), []);
}

#[test]
fn stale_acc_marks_nothing() {
    let mut system = system(2);
    proposed(&mut system, 1, 3, 5);
    put(&mut system, 2, 1, &[acc(4), acc(5)]);
    assert_eq!(receive(&mut system, id(2), id(1)), Ok(()));
    assert_eq!(system.process(id(1)).acks, View::EMPTY);
    assert_eq!(receive(&mut system, id(2), id(1)), Ok(()));
    assert_eq!(system.process(id(1)).acks, View(2));
}

#[test]
fn acc_without_a_proposal() {
    let mut system = system(2);
    system.process_mut(id(1)).acks = View(3);
    put(&mut system, 2, 1, &[acc(2)]);
    assert_eq!(receive(&mut system, id(2), id(1)), Ok(()));
    assert_eq!(system.process(id(1)).acks, View(3));
    assert_eq!(waiting(&system, 1, 1), []);
}

#[test]
fn own_acc_on_a_full_channel_commits() {
    let mut system = system(1);
    proposed(&mut system, 1, 1, 2);
    put(&mut system, 1, 1, &[acc(2); 8]);
    assert_eq!(receive(&mut system, id(1), id(1)), Ok(()));
    assert_eq!(waiting(&system, 1, 1)[..7], [acc(2); 7]);
    assert_eq!(waiting(&system, 1, 1)[7], commit(1, 2));
}

#[test]
fn retry_sends_the_local_view() {
    let mut system = system(2);
    proposed(&mut system, 1, 1, 5);
    system.process_mut(id(1)).acks = View(2);
    put(&mut system, 2, 1, &[retry(5, 9)]);
    assert_eq!(receive(&mut system, id(2), id(1)), Ok(()));
    let process = system.process(id(1));
    assert_eq!((process.proposal, process.acks), (View(1), View::EMPTY));
    assert_eq!(process.propout, index(9));
    assert_eq!(waiting(&system, 1, 1), [propose(3, 9)]);
    assert_eq!(waiting(&system, 1, 2), [propose(3, 9)]);
}

#[test]
fn commit_carries_the_last_proposed_view() {
    let mut system = system(3);
    assert_eq!(report(&mut system, id(2), View(6)), Ok(()));
    system.set_mark(id(2), id(1), true);
    assert_eq!(report(&mut system, id(2), View(7)), Ok(()));
    put(&mut system, 2, 2, &[acc(2)]);
    put(&mut system, 3, 2, &[acc(2)]);
    assert_eq!(receive(&mut system, id(2), id(2)), Ok(()));
    assert_eq!(receive(&mut system, id(3), id(2)), Ok(()));
    assert_eq!(waiting(&system, 2, 2), [commit(6, 2)]);
    assert_eq!(waiting(&system, 2, 3), [propose(6, 2), commit(6, 2)]);
}

#[test]
fn commit_overwrites() {
    let mut system = system(2);
    system.process_mut(id(1)).set_entry(index(4), View(1));
    put(&mut system, 2, 1, &[commit(3, 4)]);
    assert_eq!(receive(&mut system, id(2), id(1)), Ok(()));
    assert_eq!(system.process(id(1)).entry(index(4)), View(3));
}

#[test]
fn newer_proposal_replaces_older() {
    let mut system = system(2);
    put(&mut system, 1, 2, &[propose(3, 2), propose(3, 3)]);
    assert_eq!(receive(&mut system, id(1), id(2)), Ok(()));
    assert_eq!(receive(&mut system, id(1), id(2)), Ok(()));
    assert_eq!(respond(&mut system, id(2), id(1)), Ok(()));
    assert_eq!(waiting(&system, 2, 1), [acc(3)]);
    assert_eq!(system.process(id(2)).next, index(4));
    assert_eq!(system.process(id(2)).recorded(id(1)), None);
}

#[test]
fn crash_empties_towards_only() {
    let mut system = system(2);
    put(&mut system, 1, 2, &[propose(3, 2)]);
    put(&mut system, 2, 1, &[acc(2)]);
    assert_eq!(crash(&mut system, id(2)), Ok(()));
    assert_eq!(waiting(&system, 1, 2), []);
    assert_eq!(waiting(&system, 2, 1), [acc(2)]);
    // A message of a crashed process is still received.
    assert_eq!(receive(&mut system, id(2), id(1)), Ok(()));
}

#[test]
fn messages_to_the_crashed_vanish() {
    let mut system = system(2);
    system.process_mut(id(1)).set_recorded(id(2), Some(at(3, 4)));
    assert_eq!(crash(&mut system, id(2)), Ok(()));
    assert_eq!(respond(&mut system, id(1), id(2)), Ok(()));
    assert_eq!(system.process(id(1)).next, index(5));
    assert_eq!(system.process(id(1)).recorded(id(2)), None);
    assert_eq!(report(&mut system, id(1), View(3)), Ok(()));
    assert_eq!(waiting(&system, 1, 1), [propose(3, 2)]);
    assert_eq!(waiting(&system, 1, 2), []);
}
