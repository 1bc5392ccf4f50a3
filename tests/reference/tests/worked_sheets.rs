//! Every stored sheet, those of document 01 and the example of section 6.6 among them; and the cases that
//! start from a system handed over.

mod common;

use common::*;
use reference::*;

#[test]
fn k4_handed_in() {
    let mut system = system(1);
    proposed(&mut system, 1, 1, 31);
    assert_eq!(report(&mut system, id(1), View(1)), Ok(()));
    assert_eq!(waiting(&system, 1, 1), [propose(1, 32)]);
    let before = system.clone();
    assert_eq!(report(&mut system, id(1), View(1)), Err(Refusal::HistoryFull));
    assert_eq!(system, before);
    put(&mut system, 1, 1, &[propose(1, 32); 8]);
    assert_eq!(report(&mut system, id(1), View(1)), Err(Refusal::HistoryFull));
}

#[test]
fn k6_own_slot_freed() {
    let mut system = system(1);
    proposed(&mut system, 1, 1, 2);
    let mut messages = [acc(2); 8];
    messages[0] = retry(2, 5);
    put(&mut system, 1, 1, &messages);
    assert_eq!(receive(&mut system, id(1), id(1)), Ok(()));
    assert_eq!(system.process(id(1)).propout, index(5));
    assert_eq!(waiting(&system, 1, 1)[..7], [acc(2); 7]);
    assert_eq!(waiting(&system, 1, 1)[7], propose(1, 5));
}

#[test]
fn k8_no_processes() {
    for n in [0, 9, 255] {
        let (outcome, mut system) = fresh(n);
        assert_eq!(outcome, Err(Refusal::Stranger));
        assert_eq!(system.n, 0);
        let before = system.clone();
        for p in [0, 1, 9] {
            assert_eq!(report(&mut system, id(p), View(1)), Err(Refusal::Unsound));
            assert_eq!(receive(&mut system, id(p), id(1)), Err(Refusal::Unsound));
            assert_eq!(respond(&mut system, id(p), id(1)), Err(Refusal::Unsound));
            assert_eq!(crash(&mut system, id(p)), Err(Refusal::Unsound));
        }
        assert_eq!(system, before);
    }
}

/// Every sheet that the programs' tests run, with the output beside it.
#[test]
fn stored_sheets() {
    let folder = concat!(env!("CARGO_MANIFEST_DIR"), "/../../crates/sheets/data");
    let mut count = 0;
    for file in std::fs::read_dir(folder).unwrap() {
        let path = file.unwrap().path();
        if path.extension().is_some_and(|ending| ending == "sheet") {
            let wanted = std::fs::read(path.with_extension("out")).unwrap();
            assert!(run_sheet(&std::fs::read(&path).unwrap()) == wanted, "{}", path.display());
            count += 1;
        }
    }
    assert!(count > 50, "{count}");
}

/// What stays while steps go on.
#[test]
fn what_survives() {
    // A record waits through other views, refused answers and its proposer's
    // stop; the answer clears it.
    check(
        "u 2; r 1 12; t 1 2; r 2 2; a 2 1; r 1 1; s 1; a 2 1; r 2 12; a 2 1; a 2 1",
        "00 0 b 00 b 0 0 a",
        "unit 1 stopped next 2 1=12; unit 2 live next 3 1=12",
    );
    // A mark outlives the unit that acknowledged.
    check(
        "u 3; r 1 123; t 1 2; a 2 1; t 2 1; s 2; t 1 1; a 1 1; t 1 1; t 1 3; a 3 1; t 3 1; \
         t 1 1; t 1 3",
        "0000 0 000 000 00",
        "unit 1 live next 3 1=123 2=123; unit 2 stopped next 3 1=123; \
         unit 3 live next 3 1=123 2=123",
    );
    // A report by another than the least leaves the proposal and its marks.
    check(
        "u 2; r 2 2; t 2 2; a 2 2; r 1 1; r 2 12; t 2 2; t 2 2",
        "000 00 00",
        "unit 1 live next 2 1=12; unit 2 live next 3 1=12 2=2",
    );
    // An equal view is proposed again, one position higher.
    check(
        "u 1; r 1 1; r 1 1; t 1 1; t 1 1; a 1 1; t 1 1; t 1 1",
        "00 00 0 00",
        "unit 1 live next 4 1=1 3=1",
    );
}
