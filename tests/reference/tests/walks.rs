//! S-8: all orders up to a depth.

use reference::*;

fn counts(n: u8, depth: u8) -> (usize, usize) {
    let Walk { runs, with_entry } = walk(n, depth).unwrap();
    (runs, with_entry)
}

fn printed(input: &str) -> String {
    String::from_utf8(print_walk(input.as_bytes())).unwrap()
}

/// "One unit gives 3 runs at depth 1 and 4 at depth 2, none with a new entry;
/// at depth 8 exactly two of its runs end with one."
#[test]
fn one_process() {
    assert_eq!(counts(1, 1), (3, 0));
    assert_eq!(counts(1, 2), (4, 0));
    assert_eq!(counts(1, 8).1, 2);
}

/// By hand: at depth 1 the link reports {1}, stops 1 or passes. Only after the
/// report is there a message to take, at depth 2. At depth 3 the link has three
/// choices after each of the three runs in which 1 is live, and one, to pass,
/// after the other.
#[test]
fn by_hand() {
    assert_eq!(counts(1, 0), (1, 0));
    assert_eq!(counts(1, 3), (3 * 3 + 1, 0));
    // Process 1 reports {1} or {1, 2}, process 2 {2} or {1, 2}; either stops;
    // or the link passes.
    assert_eq!(counts(2, 1), (7, 0));
    // Each of the three reports by the least process of its view puts a message
    // on its channel to itself, and one of them one on the other channel too.
    assert_eq!(counts(2, 2), (7 + 4, 0));
}

/// The figures of a third walk, made before this one.
#[test]
fn every_depth() {
    let runs = |n| (0..=8).map(|depth| counts(n, depth).0).collect::<Vec<_>>();
    let with_entry = |n| (0..=8).map(|depth| counts(n, depth).1).collect::<Vec<_>>();
    assert_eq!(runs(1), [1, 3, 4, 10, 16, 40, 71, 181, 335]);
    assert_eq!(with_entry(1), [0, 0, 0, 0, 0, 0, 0, 0, 2]);
    assert_eq!(runs(2), [1, 7, 11, 67, 148, 843, 2231, 12510, 36461]);
    assert_eq!(with_entry(2), [0, 0, 0, 0, 0, 0, 0, 0, 124]);
}

/// "14 too deep, for depth above 8 or more than 2 units, after 2".
#[test]
fn refusals() {
    for n in 0..=255 {
        for depth in [0, 8, 9, 255] {
            let expected = match (n, depth) {
                (0 | 9.., _) => Err(Refusal::Stranger),
                (3..=8, _) | (_, 9..) => Err(Refusal::TooDeep),
                _ => continue,
            };
            assert_eq!(walk(n, depth), expected, "{n} {depth}");
        }
    }
}

/// "one digit each", "8 for any other input".
#[test]
fn input_lines() {
    assert_eq!(printed("1 8\n"), "335 2\n");
    assert_eq!(printed("1 8"), "335 2\n");
    assert_eq!(printed("0 9"), "2\n");
    assert_eq!(printed("9 9\n"), "2\n");
    assert_eq!(printed("3 1"), "14\n");
    assert_eq!(printed("1 9"), "14\n");
    for bad in [
        "", "\n", "1", "1 ", "1 8 ", "1 8\n\n", "1 8\r\n", "1 10", "01 1", "1  8", "1\t8", " 1 8",
        "x 8", "1 x",
    ] {
        assert_eq!(printed(bad), "8\n", "{bad:?}");
    }
}
