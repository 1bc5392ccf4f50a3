//! S-5, sentence by sentence.

mod common;

use common::*;
use reference::*;

/// The system after reports that are all done.
fn reported(n: u8, reports: &[(u8, u8)]) -> System {
    let mut system = system(n);
    for &(p, view) in reports {
        assert_eq!(report(&mut system, id(p), View(view)), Ok(()), "{p} {view}");
    }
    system
}

fn early(system: &System, p: u8, view: u8) {
    let mut after = system.clone();
    assert_eq!(report(&mut after, id(p), View(view)), Err(Refusal::EarlyTrust));
    assert_eq!(&after, system);
}

fn trusted(system: &System, p: u8, view: u8) {
    assert_eq!(report(&mut system.clone(), id(p), View(view)), Ok(()));
}

/// "a report that brings back a unit q is refused unless .. q's local view
/// lacked p"
#[test]
fn brings_back() {
    let alone = reported(2, &[(1, 1)]);
    early(&alone, 1, 3);
    trusted(&reported(2, &[(1, 1), (2, 2)]), 1, 3);
    // 1 has lacked 2, so that 2 may trust it.
    trusted(&reported(2, &[(1, 1), (2, 2)]), 2, 3);
    // All that come back must have.
    let two_back = reported(3, &[(1, 1), (2, 6)]);
    early(&two_back, 1, 7);
    trusted(&two_back, 1, 3);
    early(&two_back, 1, 5);
}

/// "at some moment since p's latest suspicion of q": it need not last.
#[test]
fn some_moment() {
    let back_again = reported(2, &[(1, 1), (2, 2), (2, 3)]);
    trusted(&back_again, 1, 3);
    // A later suspicion starts over.
    let later = reported(2, &[(1, 1), (2, 2), (2, 3), (1, 3), (1, 1)]);
    early(&later, 1, 3);
}

/// "(that moment counted)"
#[test]
fn that_moment() {
    trusted(&reported(2, &[(2, 2), (1, 1)]), 1, 3);
}

/// "A suspicion begins when q leaves p's local view": once more without q
/// begins none.
#[test]
fn goes_on() {
    trusted(&reported(2, &[(1, 1), (2, 2), (2, 3), (1, 1)]), 1, 3);
}

/// "a stopped unit begins none": its view stands as it was.
#[test]
fn stopped() {
    let mut with = reported(2, &[(1, 1)]);
    assert_eq!(crash(&mut with, id(2)), Ok(()));
    early(&with, 1, 3);
    let mut without = reported(2, &[(2, 2)]);
    assert_eq!(crash(&mut without, id(2)), Ok(()));
    assert_eq!(report(&mut without, id(1), View(1)), Ok(()));
    trusted(&without, 1, 3);
}

/// A cut report is a new view; a refused one is none.
#[test]
fn cut_and_refused() {
    let mut cut = reported(2, &[(1, 1)]);
    let alone = Action::Report { p: id(2), view: View(2) };
    assert_eq!(number(alone.cut(1).run(&mut cut)), 12);
    early(&cut, 1, 3);
    assert_eq!(number(alone.cut(0).run(&mut cut)), 0);
    trusted(&cut, 1, 3);
}

/// "after 4 and before 5": so before 6, 12 and 7.
#[test]
fn order() {
    let mut system = reported(2, &[(1, 1)]);
    assert_eq!(report(&mut system, id(1), View(7)), Err(Refusal::OddView));
    assert_eq!(report(&mut system, id(1), View(2)), Err(Refusal::OddView));
    proposed(&mut system, 1, 1, 32);
    put(&mut system, 1, 1, &[acc(2); 8]);
    early(&system, 1, 3);
    let both = Action::Report { p: id(1), view: View(3) };
    assert_eq!(number(both.cut(9).run(&mut system)), 13);
    system.set_mark(id(1), id(2), true);
    assert_eq!(number(both.cut(9).run(&mut system)), 6);
}

/// "The table keeps one mark per ordered pair, which alone decides"; "either
/// value is sound".
#[test]
fn the_mark_decides() {
    for on in [false, true] {
        let mut system = reported(3, &[(2, 2)]);
        for (p, q) in system.pairs() {
            system.set_mark(p, q, on);
        }
        assert!(sound(&system));
        let outcome = report(&mut system, id(2), View(7));
        assert_eq!(outcome, if on { Ok(()) } else { Err(Refusal::EarlyTrust) });
    }
}
