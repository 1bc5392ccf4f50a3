//! What a sheet line may look like, and what is printed for the others.

mod common;

use common::*;
use reference::{run_sheet, SHEET_LIMIT};

#[test]
fn empty_and_missing_lines() {
    assert_eq!(printed(""), "");
    assert_eq!(printed("\n"), "1 8 1\n");
    assert_eq!(printed("u 1"), "unit 1 live next 2 1=1\n");
    assert_eq!(printed("u 1\n"), "unit 1 live next 2 1=1\n");
    assert_eq!(printed("u 1\n\n"), "2 8 1\nunit 1 live next 2 1=1\n");
}

/// Each bad line stands with its column.
#[test]
fn bad_first_line() {
    for (first, column) in [
        ("u 0", 3),
        ("u 9", 3),
        ("u 12", 4),
        ("u", 2),
        ("u ", 3),
        ("u 1 ", 4),
        ("u 1 cut 0", 4),
        (" u 1", 1),
        ("u  1", 3),
        ("U 1", 1),
        ("r 1 1", 1),
        ("q", 1),
        ("", 1),
    ] {
        let text = format!("{first}\nu 1\nr 1 1\n");
        assert_eq!(printed(&text), format!("1 8 {column}\n2 8 0\n3 8 0\n"), "for {first:?}");
    }
}

#[test]
fn bad_later_lines() {
    let bad: &[(usize, &[&str])] = &[
        (1, &["u 1", "u 2", "u", "", " s 1", " q", "Q"]),
        (2, &["r", "s", "s\t1", "q ", "q cut 0", "qq", "q 1", "q\r", "q\0"]),
        (3, &["s ", "s x", "s é", "r  1 1", "r x 1", "t x 1"]),
        (4, &["s 1 cut 0", "r 1", "r 12 1", "t 1", "a 1", "s 12", "s 1 ", "s 1\r", "s 1\0"]),
        (5, &["r 1 ", "r 1 0", "r 1 9", "t 1  1", "a 1 x"]),
        (6, &["r 1 11", "r 1 21", "r 1 -1", "t 1 11", "t 1 1cut 0"]),
        (7, &["r 1 1 ", "t 1 1 ", "a 1 1 1", "t 1 1  cut 0", "a 1 1 Cut 0"]),
        (10, &["t 1 1 cut", "a 1 1 cut\t0"]),
        (11, &["r 1 - cut ", "t 1 1 cut x"]),
        (12, &["r 1 1234567\r", "r 1 12345677", "a 1 1 cut 10"]),
        (13, &["r 1 123456789", "r 1 12 cut 3 "]),
        (14, &["r 1 12345678 "]),
    ];
    for (column, lines) in bad {
        for line in *lines {
            let text = format!("u 2\n{line}\n");
            let units = "unit 1 live next 2 1=12\nunit 2 live next 2 1=12\n";
            assert_eq!(printed(&text), format!("2 8 {column}\n{units}"), "for {line:?}");
        }
    }
}

#[test]
fn views() {
    check(
        "u 3; r 1 -; r 1 2; r 1 14; r 1 12345678; r 2 123; r 2 23; r 4 4",
        "4444 00 2",
        "unit 1 live next 2 1=123; unit 2 live next 2 1=123; unit 3 live next 2 1=123",
    );
    check(
        "u 8; r 2 12345678; s 8",
        "00",
        "unit 1 live next 2 1=12345678; unit 2 live next 2 1=12345678; \
         unit 3 live next 2 1=12345678; unit 4 live next 2 1=12345678; \
         unit 5 live next 2 1=12345678; unit 6 live next 2 1=12345678; \
         unit 7 live next 2 1=12345678; unit 8 stopped next 2 1=12345678",
    );
}

#[test]
fn long_sheet() {
    let mut text = b"u 1\n".to_vec();
    text.resize(SHEET_LIMIT, b'\n');
    let out = run_sheet(&text);
    // Line 1 has four bytes, the other 59,996 lines one each.
    assert!(out.starts_with(b"2 8 1\n3 8 1\n"));
    assert!(out.ends_with(b"\n59997 8 1\nunit 1 live next 2 1=1\n"));
    text.push(b'\n');
    assert_eq!(run_sheet(&text), b"0 9\n");
    assert_eq!(run_sheet(&vec![b'x'; SHEET_LIMIT]), b"1 8 1\n");
    assert_eq!(run_sheet(&vec![b'x'; SHEET_LIMIT + 1]), b"0 9\n");
}
