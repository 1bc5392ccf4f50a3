//! Each clause of soundness, broken and kept.

mod common;

use common::*;
use reference::*;

/// A change to a fresh system of three.
type Change = fn(&mut System);

fn first(system: &mut System) -> &mut Process {
    system.process_mut(id(1))
}

const UNSOUND: &[Change] = &[
    |s| s.n = 0,
    |s| s.n = 9,
    |s| s.n = 2,
    |s| first(s).next = index(1),
    |s| first(s).next = index(34),
    |s| first(s).propout = index(0),
    |s| proposed(s, 1, 1, 33),
    |s| first(s).view = View(6),
    |s| first(s).view = View(9),
    |s| first(s).proposal = View(1),
    |s| proposed(s, 1, 0, 2),
    |s| proposed(s, 1, 6, 2),
    |s| proposed(s, 1, 9, 2),
    |s| first(s).acks = View(8),
    |s| first(s).set_entry(index(1), View(0)),
    |s| first(s).set_entry(index(1), View(8)),
    |s| first(s).set_entry(index(32), View(128)),
    |s| first(s).set_recorded(id(2), Some(at(3, 1))),
    |s| first(s).set_recorded(id(2), Some(at(3, 33))),
    |s| first(s).set_recorded(id(2), Some(at(2, 2))),
    |s| first(s).set_recorded(id(2), Some(at(1, 2))),
    |s| first(s).set_recorded(id(2), Some(at(11, 2))),
    |s| put(s, 1, 2, &[acc(1)]),
    |s| put(s, 1, 2, &[acc(33)]),
    |s| put(s, 1, 2, &[acc(2), retry(1, 2)]),
    |s| put(s, 1, 2, &[retry(2, 2)]),
    |s| put(s, 1, 2, &[retry(32, 34)]),
    |s| put(s, 1, 2, &[retry(33, 34)]),
    |s| put(s, 1, 2, &[propose(3, 1)]),
    |s| put(s, 1, 2, &[propose(1, 2)]),
    |s| put(s, 1, 2, &[propose(6, 2)]),
    |s| put(s, 1, 2, &[commit(3, 33)]),
    |s| put(s, 1, 2, &[commit(2, 2)]),
    |s| put(s, 1, 2, &[commit(19, 2)]),
    |s| put(s, 1, 2, &[acc(2); 9]),
    |s| s.unreadable = true,
    |s| {
        first(s).crashed = true;
        put(s, 2, 1, &[acc(2)]);
    },
];

const SOUND: &[Change] = &[
    |_| (),
    |s| first(s).next = index(33),
    |s| proposed(s, 1, 7, 32),
    // It need not be the least of what it proposed last.
    |s| proposed(s, 2, 3, 2),
    |s| first(s).set_entry(index(2), View(6)),
    |s| first(s).acks = View(7),
    |s| first(s).set_recorded(id(2), Some(at(3, 32))),
    |s| put(s, 1, 2, &[retry(32, 33), acc(32), commit(7, 32), propose(3, 2)]),
    |s| put(s, 1, 2, &[acc(2); 8]),
    |s| {
        first(s).crashed = true;
        put(s, 1, 2, &[acc(2)]);
    },
];

#[test]
fn unsound() {
    for (case, change) in UNSOUND.iter().enumerate() {
        let mut system = system(3);
        change(&mut system);
        assert!(!sound(&system), "case {case}");
    }
}

#[test]
fn still_sound() {
    for (case, change) in SOUND.iter().enumerate() {
        let mut system = system(3);
        change(&mut system);
        assert!(sound(&system), "case {case}");
    }
}

#[test]
fn fresh_is_sound() {
    for n in 1..=8 {
        assert!(sound(&system(n)));
    }
}
