//! S-4: the settling run, on sheets and on systems handed over.

mod common;

use common::*;
use reference::*;

/// What a run returns that was not refused.
fn ended(steps: usize, ending: Ending) -> Settling {
    Settling { outcome: Ok(()), steps, ending }
}

/// The system after the lines of a sheet, written on one line, `u N` first; no `q` among them.
fn after(short: &str) -> System {
    let text = sheet(short);
    let mut lines = text.lines();
    let n = lines.next().unwrap()[2..].parse().unwrap();
    let mut system = system(n);
    for line in lines {
        let fields: Vec<&str> = line.split(' ').collect();
        let of = |field: &str| id(field.parse().unwrap());
        let view = |field: &str| {
            field.bytes().fold(View::EMPTY, |view, digit| view.with(id(digit - b'0')))
        };
        let action = match fields[..] {
            ["r", p, members] => Action::Report { p: of(p), view: view(members) },
            ["t", q, p] => Action::Receive { from: of(q), at: of(p) },
            ["a", p, q] => Action::Respond { p: of(p), to: of(q) },
            ["s", p] => Action::Crash { p: of(p) },
            _ => panic!("{line}"),
        };
        assert_eq!(action.run(&mut system), Ok(()), "{line}");
    }
    system
}

/// The reports of the example of section 6.6, then one `q`. Thirteen Proposes of unit 1 and five of
/// unit 2 are taken; all four accept the last one: 18 + 4 + 4 + 4.
#[test]
fn reports_of_section_6_6() {
    let text = "u 4; r 1 134; r 2 234; r 1 14; r 3 234; r 4 234; r 1 1; r 2 23; r 4 34; r 3 1234; \
                r 1 134; r 4 134; r 1 1234; r 2 1234; r 4 1234; q";
    let out = printed(&sheet(text));
    let numbers: String = (2..=15).map(|line| format!("{line} 0\n")).collect();
    let units: String = (1..=4).map(|p| format!("unit {p} live next 7 1=1234 6=1234\n")).collect();
    assert_eq!(out, format!("{numbers}16 0 30 rest\n{units}"));
}

/// A fresh system is at rest, and a settled one stays as it is.
#[test]
fn nothing_to_do() {
    for n in 1..=8 {
        let mut fresh = system(n);
        assert_eq!(settle(&mut fresh), ended(0, Ending::Rest));
        assert_eq!(fresh, system(n));
    }
    assert_eq!(
        printed(&sheet("u 2; r 1 12; q; q")),
        sheet("2 0; 3 0 8 rest; 4 0 0 rest; unit 1 live next 3 1=12 2=12; ")
            + "unit 2 live next 3 1=12 2=12\n"
    );
}

/// The shortest natural way from a fresh system to one that is held up: a Retry to 33 waits.
#[test]
fn held_by_a_full_history() {
    let alone = "; r 2 2; t 2 2".repeat(31);
    let mut system = after(&format!("u 2{alone}; a 2 2"));
    assert_eq!(settle(&mut system), ended(2, Ending::Rest));
    for (p, view) in [(1, 1), (2, 3), (1, 3)] {
        assert_eq!(report(&mut system, id(p), View(view)), Ok(()));
    }
    assert_eq!(settle(&mut system), ended(6, Ending::Held));
    assert_eq!(waiting(&system, 2, 1), [retry(3, 33)]);
    assert_eq!(receive(&mut system, id(2), id(1)), Err(Refusal::HistoryFull));
    let before = system.clone();
    assert_eq!(settle(&mut system), ended(0, Ending::Held));
    assert_eq!(system, before);
    // With another proposal the old Retry is ignored.
    assert_eq!(report(&mut system, id(1), View(1)), Ok(()));
    assert_eq!(settle(&mut system).ending, Ending::Rest);
}

/// Both wait for room on the line of the other: only a handed-in system is held up by 7 alone.
#[test]
fn held_by_full_channels() {
    let mut system = system(2);
    for p in [1, 2] {
        proposed(&mut system, p, 3, 2);
        system.process_mut(id(p)).acks = View::only(id(p));
        put(&mut system, p, 3 - p, &[acc(2); 8]);
    }
    assert!(sound(&system));
    let before = system.clone();
    for (q, p) in [(1, 2), (2, 1)] {
        assert_eq!(receive(&mut system, id(q), id(p)), Err(Refusal::ChannelFull));
    }
    assert_eq!(settle(&mut system), ended(0, Ending::Held));
    assert_eq!(system, before);
    // An answer that finds no room could be given.
    system.process_mut(id(1)).set_recorded(id(2), Some(at(3, 2)));
    assert_eq!(settle(&mut system), ended(0, Ending::Held));
}

/// No message waits: one answer that could be given is enough not to be at rest, and a record of
/// another view, or at a stopped process, is none.
#[test]
fn rest() {
    let mut system = system(2);
    assert!(at_rest(&system));
    system.process_mut(id(2)).set_recorded(id(1), Some(at(3, 2)));
    assert!(!at_rest(&system));
    system.process_mut(id(2)).view = View(2);
    assert!(at_rest(&system));
    assert_eq!(settle(&mut system.clone()), ended(0, Ending::Rest));
    system.process_mut(id(2)).view = View(3);
    system.process_mut(id(2)).crashed = true;
    assert!(at_rest(&system));
    assert_eq!(settle(&mut system.clone()), ended(0, Ending::Rest));
    put(&mut system, 2, 1, &[acc(2)]);
    assert!(!at_rest(&system));
    assert_eq!(settle(&mut system), ended(1, Ending::Rest));
}

/// With a budget of each size below the 12 steps that are due: so many are done, those of the run
/// without it, and a further one would be.
#[test]
fn budget() {
    let start = after("u 3; r 1 123");
    let mut states: Vec<System> = Vec::new();
    for budget in 0..=14 {
        let mut system = start.clone();
        let ending = if budget < 12 { Ending::Budget } else { Ending::Rest };
        assert_eq!(settle_within(&mut system, budget), ended(budget.min(12), ending), "{budget}");
        if budget > 0 {
            let last = &states[budget - 1];
            let next = |action: Action| Step::from(action).next(last);
            let one = last.pairs().any(|(q, p)| {
                next(Action::Receive { from: q, at: p }) == Ok(system.clone())
                    || next(Action::Respond { p, to: q }) == Ok(system.clone())
            });
            assert_eq!(one, budget <= 12, "{budget}");
        }
        states.push(system.clone());
        // What is left is done by a second run.
        let rest = settle(&mut system);
        assert_eq!(rest, ended(12 - budget.min(12), Ending::Rest), "{budget}");
    }
    // Just used up, and nothing further can be done: rest or held up, and not budget.
    let alone = "; r 2 2; t 2 2".repeat(31);
    let mut held = after(&format!("u 2{alone}; a 2 2; r 1 1; r 2 12; r 1 12"));
    let steps = settle(&mut held.clone()).steps;
    assert_eq!(settle_within(&mut held.clone(), steps - 1), ended(steps - 1, Ending::Budget));
    assert_eq!(settle_within(&mut held.clone(), steps), ended(steps, Ending::Held));
    assert_eq!(settle_within(&mut system(2), 0), ended(0, Ending::Rest));
    assert_eq!(settle_within(&mut held, 0), ended(0, Ending::Budget));
}

/// "a further take or answer" is any: the rest of the round would do nothing, but the next would.
#[test]
fn budget_at_the_end_of_a_round() {
    let mut system = after("u 1; r 1 1");
    assert_eq!(settle_within(&mut system, 2), ended(2, Ending::Budget));
    assert_eq!(waiting(&system, 1, 1), [acc(2)]);
}

/// The second `q` does 17 steps, since unit 3 takes a proposal in the round in which it is sent, over
/// the one that it has not answered yet; by rising sender and then receiver there would be 19.
#[test]
fn order_of_a_round() {
    let start = "u 3; r 2 2; r 2 2";
    let later = "r 1 13; r 3 13; r 2 123; r 3 123; r 1 123; t 1 2; a 2 1; t 1 3; t 1 3";
    let out = printed(&sheet(&format!("{start}; q; {later}; q")));
    assert!(out.contains("\n4 0 7 rest\n") && out.contains("\n14 0 17 rest\n"), "{out}");
    // The first round of it, with the first `q` written out.
    let first = "t 2 2; a 2 2; t 2 2; a 2 2; t 2 2; t 2 2; t 2 2";
    let mut system = after(&format!("{start}; {first}; {later}"));
    assert_eq!(settle_within(&mut system, 6), ended(6, Ending::Budget));
    assert_eq!(system.process(id(3)).recorded(id(1)), None);
    assert_eq!(waiting(&system, 3, 1), [acc(4)]);
    assert_eq!(waiting(&system, 1, 2), []);
}

/// "An unsound table gives 1 and 0 steps", and is returned.
#[test]
fn unsound() {
    let mut none = fresh(0).1;
    let refused = Settling { outcome: Err(Refusal::Unsound), steps: 0, ending: Ending::Held };
    assert_eq!(settle(&mut none), refused);
    let mut system = after("u 2; r 1 12");
    system.process_mut(id(2)).next = index(1);
    let before = system.clone();
    assert_eq!(settle(&mut system), refused);
    assert_eq!(system, before);
}

/// From a fresh system of n, at most 124 n n takes and answers, and never budget.
#[test]
fn many_reports() {
    for n in 1..=8u8 {
        let (mut system, mut steps) = (system(n), 0);
        for view in (1..=255u8).rev() {
            let view = View(view & View::first(n).0);
            for p in view.members() {
                let _ = report(&mut system, p, view);
            }
            if view.0 % 7 == 0 {
                let settling = settle(&mut system);
                assert!(settling.ending != Ending::Budget);
                steps += settling.steps;
            }
        }
        let bound = 124 * usize::from(n) * usize::from(n);
        assert!(steps > 0 && steps <= bound, "{n}: {steps} of {bound}");
    }
}
