//! S-7: the counts of a sheet and of a class, worked out by hand from the papers.

mod common;

use common::*;
use reference::*;

/// sent, taken, waiting, lost; proposals and those committed.
fn counts(text: &str) -> ([usize; 4], [usize; 2]) {
    let tally = tally_sheet(text.as_bytes()).unwrap();
    let Tally { sent, taken, waiting, lost, proposals, committed } = tally;
    ([sent, taken, waiting, lost], [proposals, committed])
}

fn check_counts(short: &str, messages: [usize; 4], proposals: [usize; 2]) {
    assert_eq!(counts(&sheet(short)), (messages, proposals), "for {short}");
}

/// Propose, Acc and Commit, each sent to unit 1 and taken; the last line is refused.
#[test]
fn k1() {
    check_counts("u 2; r 1 1; t 1 1; a 1 1; t 1 1; t 1 1; r 2 1", [3, 3, 0, 0], [1, 1]);
}

#[test]
fn nothing_done() {
    for short in ["", "u 3", "x", "x; u 1; r 1 1", "u 2; r 1 2; t 1 1; a 1 2; zzz; s 3; q"] {
        check_counts(short, [0; 4], [0; 2]);
    }
    // A unit that is not the least of its view sends nothing and proposes nothing.
    check_counts("u 2; r 2 12", [0; 4], [0; 2]);
}

#[test]
fn every_message_waits() {
    check_counts("u 3; r 1 123; r 2 23", [5, 0, 5, 0], [2, 0]);
    // Eight wait on the line; the ninth report is refused, and counts nothing.
    check_counts(&format!("u 1{}", "; r 1 1".repeat(9)), [8, 0, 8, 0], [8, 0]);
    // The second answer is refused: there is no record any more.
    check_counts("u 2; r 1 12; t 1 2; a 2 1; a 2 1", [3, 1, 2, 0], [1, 0]);
}

/// A refused step that had begun to send: the line to 2 is full, the own one is not.
#[test]
fn refused_midway() {
    let eight = "; r 1 12; t 1 1".repeat(8);
    check_counts(&format!("u 2{eight}; r 1 12"), [16, 8, 8, 0], [8, 0]);
    check_counts(&format!("u 2{eight}; r 1 12; r 1 12 cut 1"), [17, 8, 8, 1], [9, 0]);
}

#[test]
fn stops() {
    // Of two messages on the line to 2 one is taken, the other cleared.
    check_counts("u 2; r 1 12; r 1 12; t 1 2; s 2; t 1 1", [4, 2, 1, 1], [2, 0]);
    // Lines from the stopped unit keep theirs.
    check_counts("u 2; r 1 12; s 1", [2, 0, 1, 1], [1, 0]);
    check_counts("u 2; r 1 12; s 1; t 1 2", [2, 1, 0, 1], [1, 0]);
    // Lines of several senders towards the one that stops: Proposes of 1, 2 and 3.
    check_counts("u 3; r 1 123; r 2 23; r 3 3; s 3", [6, 0, 3, 3], [3, 0]);
    // A second stop is refused.
    check_counts("u 2; r 1 12; s 2; s 2; s 1; s 1", [2, 0, 0, 2], [1, 0]);
}

#[test]
fn sent_to_a_stopped_unit() {
    // The Propose to 3 vanishes, that to itself is cleared, and the Acc to 1 vanishes.
    check_counts("u 3; s 3; r 1 123; t 1 2; s 1; a 2 1", [4, 1, 0, 3], [1, 0]);
    // A Commit to a stopped unit: 3 has acknowledged and then stops.
    check_counts(
        "u 3; r 1 123; t 1 1; t 1 2; t 1 3; a 1 1; a 2 1; a 3 1; s 3; t 1 1; t 2 1; t 3 1",
        [9, 6, 2, 1],
        [1, 1],
    );
    // An Acc to a stopped unit: 2 is at Next 3, and 1, proposing at 2 and at 3, has stopped.
    check_counts(
        "u 2; r 2 2; t 2 2; a 2 2; r 1 1; r 2 12; r 1 12; t 1 2; s 1; a 2 1",
        // A Propose, an Acc, a Propose, two Proposes, an Acc. Taken: two. The first Acc waits. Lost:
        // two Proposes at 1, and the second Acc.
        [6, 2, 1, 3],
        [3, 0],
    );
    // A Retry to a stopped unit: 2 is at Next 4.
    check_counts(
        "u 2; r 2 2; r 2 2; t 2 2; t 2 2; a 2 2; r 1 1; r 2 12; r 1 12; t 1 2; s 1; a 2 1",
        // Two Proposes, an Acc, a Propose, two Proposes, a Retry(3, 4). Taken: three. The Acc waits.
        // Lost: two Proposes at 1, and the Retry.
        [7, 3, 1, 3],
        [4, 0],
    );
}

#[test]
fn cut_steps() {
    // Two of three are sent; the one to itself is cleared as it stops.
    check_counts("u 3; r 1 123 cut 2", [2, 0, 1, 1], [1, 0]);
    // None is sent, and yet PropOut has risen.
    check_counts("u 3; r 1 123 cut 0", [0, 0, 0, 0], [1, 0]);
    // A stopped unit is among the first two.
    check_counts("u 3; s 2; r 1 123 cut 2", [2, 0, 0, 2], [1, 0]);
    // What waited at the unit is cleared as well.
    check_counts("u 2; r 1 12; r 1 12 cut 1", [3, 0, 1, 2], [2, 0]);
    // Cut too late: refused.
    check_counts("u 2; r 1 12 cut 2; t 1 1 cut 0", [0; 4], [0; 2]);
    // A cut answer sends nothing.
    check_counts("u 1; r 1 1; t 1 1; a 1 1 cut 0", [1, 1, 0, 0], [1, 0]);
    // The Acc of a cut take is taken. No Commit is sent: not committed.
    check_counts("u 1; r 1 1; t 1 1; a 1 1; t 1 1 cut 0", [2, 2, 0, 0], [1, 0]);
    // One Commit of two, to itself, and lost: committed.
    let agreed = "u 2; r 1 12; t 1 1; a 1 1; t 1 2; a 2 1; t 1 1";
    check_counts(&format!("{agreed}; t 2 1 cut 1"), [5, 4, 0, 1], [1, 1]);
    check_counts(&format!("{agreed}; t 2 1 cut 0"), [4, 4, 0, 0], [1, 0]);
    check_counts(&format!("{agreed}; t 2 1"), [6, 4, 2, 0], [1, 1]);
}

/// 2 goes ahead alone to position 3, 1 proposes at 2 and at 3, and 2 answers with a Retry to 4.
#[test]
fn retries() {
    let ahead = "u 2; r 2 2; r 2 2; t 2 2; t 2 2; a 2 2; t 2 2; t 2 2";
    // Two Proposes, an Acc, a Commit; all taken.
    check_counts(ahead, [4, 4, 0, 0], [2, 1]);
    let asked = format!("{ahead}; r 1 1; r 2 12; r 1 12; t 1 1; t 1 1; a 1 1; t 1 2; a 2 1");
    // A Propose, two Proposes, an Acc, the Retry; three taken.
    check_counts(&asked, [9, 7, 2, 0], [4, 1]);
    // Acted on: a proposal, whatever PropOut rises by.
    check_counts(&format!("{asked}; t 2 1"), [11, 8, 3, 0], [5, 1]);
    check_counts(&format!("{asked}; t 2 1 cut 1"), [10, 8, 0, 2], [5, 1]);
    check_counts(&format!("{asked}; t 2 1 cut 0"), [9, 8, 0, 1], [5, 1]);
    // Not acted on after another report: taken, and nothing more.
    check_counts(&format!("{asked}; r 1 12; t 2 1"), [11, 8, 3, 0], [5, 1]);
    // To the end: two Accs and two Commits.
    let rest = "t 1 1; t 2 1; t 1 1; a 1 1; t 1 2; a 2 1; t 1 1; t 2 1; t 1 1; t 1 2";
    check_counts(&format!("{asked}; {rest}"), [15, 15, 0, 0], [5, 2]);
}

#[test]
fn settling() {
    // Two Proposes, two Accs, two Commits.
    check_counts("u 2; r 1 12; q", [6, 6, 0, 0], [1, 1]);
    check_counts("u 2; q; r 1 12; q; q", [6, 6, 0, 0], [1, 1]);
    // 3 has stopped: its Propose is cleared, and two Accs are not enough.
    check_counts("u 3; r 1 123; s 3; q", [5, 4, 0, 1], [1, 0]);
    // 1 has stopped: its own Propose is cleared, and the Acc of 2 vanishes in the q.
    check_counts("u 2; r 1 12; s 1; q", [3, 1, 0, 2], [1, 0]);
    // A Commit vanishes in the q: 3 stops after its Acc.
    check_counts("u 3; r 1 123; t 1 3; a 3 1; s 3; q", [9, 8, 0, 1], [1, 1]);
    // The Retry of the test above is acted on in the q: 5 proposals, 2 committed.
    check_counts(
        "u 2; r 2 2; r 2 2; q; r 1 1; r 2 12; r 1 12; q",
        // Alone, 2 takes and answers its first proposal and then its second: two Proposes, two Accs,
        // a Commit. Then a Propose and two; the Acc of 1 for position 3 and the Retry of 2; two
        // Proposes, two Accs, two Commits: 5 + 3 + 2 + 6.
        [16, 16, 0, 0],
        [5, 2],
    );
}

/// Waiting is counted in the end only, and a Retry to 33 waits for good.
#[test]
fn held_up() {
    let alone = "; r 2 2; t 2 2".repeat(31);
    let text = format!("u 2{alone}; a 2 2; q; r 1 1; r 2 12; r 1 12; q");
    // 31 Proposes, an Acc, a Commit; one Propose and two; the Acc of 1 and the Retry(3, 33).
    check_counts(&text, [38, 37, 1, 0], [33, 1]);
}

#[test]
fn shares() {
    let share = |committed, proposals| Tally { proposals, committed, ..Tally::default() }.share();
    for (committed, proposals, lowest) in [
        (0, 0, (0, 1)),
        (0, 1, (0, 1)),
        (0, 248, (0, 1)),
        (1, 1, (1, 1)),
        (7, 7, (1, 1)),
        (2, 5, (2, 5)),
        (2, 4, (1, 2)),
        (6, 9, (2, 3)),
        (12, 18, (2, 3)),
        (31, 248, (1, 8)),
        (35, 36, (35, 36)),
    ] {
        assert_eq!(share(committed, proposals), lowest, "{committed}/{proposals}");
    }
}

/// The class's output, where these sheets can be opened, and no other name.
fn class(names: &str, sheets: &[(&str, &str)]) -> String {
    let open = |name: &[u8]| {
        let sheet = sheets.iter().find(|sheet| sheet.0.as_bytes() == name)?;
        Some(sheet.1.replace("; ", "\n").into_bytes())
    };
    String::from_utf8(class_output(names.as_bytes(), open)).unwrap()
}

const NONE: &str = "sent 0 taken 0 waiting 0 lost 0 share 0/1";

#[test]
fn class_of_several() {
    let long = "\n".repeat(SHEET_LIMIT + 1);
    let limit = format!("u 1\nr 1 1\n{}", "\n".repeat(SHEET_LIMIT - 10));
    let sheets = [
        ("a", "u 1; r 1 1; q"),
        ("b", "u 2; r 1 12; r 1 12; r 1 12; s 2"),
        ("bad", "u 9; r 1 1"),
        ("empty", ""),
        ("long", &long),
        ("limit", &limit),
        (" two words ", "u 1"),
    ];
    assert_eq!(
        class("a\nb\nbad\nno\nempty\nlong\n\nlimit\na\n two words \nA\n", &sheets),
        format!(
            "a sent 3 taken 3 waiting 0 lost 0 share 1/1\n\
             b sent 6 taken 0 waiting 3 lost 3 share 0/1\n\
             bad {NONE}\n\
             no unopened\n\
             empty {NONE}\n\
             long long\n \
             unopened\n\
             limit sent 1 taken 0 waiting 1 lost 0 share 0/1\n\
             a sent 3 taken 3 waiting 0 lost 0 share 1/1\n \
             two words  {NONE}\n\
             A unopened\n\
             all sent 13 taken 6 waiting 4 lost 3 share 1/3\n"
        )
    );
}

#[test]
fn names() {
    let all = |told: &str| format!("{told}all {NONE}\n");
    let none = [("", "u 1"), ("a", "u 1")];
    assert_eq!(class("", &[]), all(""));
    assert_eq!(class("\n", &[]), all(" unopened\n"));
    assert_eq!(class("a", &none), all(&format!("a {NONE}\n")));
    assert_eq!(class("a\n", &none), all(&format!("a {NONE}\n")));
    assert_eq!(class("a\n\n", &[]), all("a unopened\n unopened\n"));
    // Just 64 names are read, whatever becomes of them.
    let read = format!("no unopened\n{}", format!("a {NONE}\n").repeat(63));
    for past in ["", "\n", "\na", "\na\na\n", "\n\n\n"] {
        let names = format!("no{}{past}", "\na".repeat(63));
        assert_eq!(class(&names, &none), all(&read), "{past:?}");
    }
    // 255 bytes are tried, 256 are not.
    let (just, over) = ("x".repeat(255), "x".repeat(256));
    let sheets = [(&just[..], "u 1; r 1 1; q"), (&over[..], "u 1; r 1 1; q")];
    assert_eq!(
        class(&format!("{just}\n{over}\n"), &sheets),
        format!(
            "{just} sent 3 taken 3 waiting 0 lost 0 share 1/1\n{just} unopened\n\
             all sent 3 taken 3 waiting 0 lost 0 share 1/1\n"
        )
    );
}

/// The class that the gate has `tally` run on, its output worked out by hand; names are from the
/// repository's root.
#[test]
fn stored_class() {
    let root = concat!(env!("CARGO_MANIFEST_DIR"), "/../../");
    let stored = |name: &str| std::fs::read(format!("{root}tests/class/{name}")).unwrap();
    let open = |name: &[u8]| read_sheet(&[root.as_bytes(), name].concat());
    assert!(class_output(&stored("names.txt"), open) == stored("expected.txt"));
}
