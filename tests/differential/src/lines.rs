//! Lines of sheets: those of steps, and those of no form, kind by kind.

use crate::dice::Dice;
use reference::{Action, Step};

/// The step as a line of a sheet.
pub fn line(step: Step) -> String {
    let action = match step.action {
        Action::Report { p, view } => {
            let digits: String = view.members().map(|q| char::from(b'0' + q.0)).collect();
            format!("r {} {}", p.0, if digits.is_empty() { "-".into() } else { digits })
        }
        Action::Receive { from, at } => format!("t {} {}", from.0, at.0),
        Action::Respond { p, to } => format!("a {} {}", p.0, to.0),
        Action::Crash { p } => format!("s {}", p.0),
    };
    match step.cut {
        Some(k) => format!("{action} cut {k}"),
        None => action,
    }
}

/// A bad line and its column, counted by hand; `#` is any digit.
type Bad = (&'static [u8], usize);

/// A kind of bad line, with lines of it.
type Kind = (&'static str, &'static [Bad]);

/// Bad after a good first line.
pub const LATER: &[Kind] = &[
    ("8 empty line", &[(b"", 1)]),
    ("8 size once more", &[(b"u #", 1), (b"u 2", 1)]),
    (
        "8 no such letter",
        &[(b"x # #", 1), (b"R # 1", 1), (b"T # #", 1), (b"Q", 1), (b"# # #", 1), (b"- 1", 1)],
    ),
    ("8 breaks off in a report", &[(b"r", 2), (b"r ", 3), (b"r #", 4), (b"r # ", 5)]),
    ("8 breaks off in a take", &[(b"t", 2), (b"t ", 3), (b"t #", 4), (b"t # ", 5)]),
    ("8 breaks off in an answer", &[(b"a", 2), (b"a ", 3), (b"a #", 4), (b"a # ", 5)]),
    ("8 breaks off in a stop", &[(b"s", 2), (b"s ", 3)]),
    (
        "8 more after a report",
        &[
            (b"r # 1 ", 7),
            (b"r # - ", 7),
            (b"r # 1 2", 7),
            (b"r # -1", 6),
            (b"r # 1-", 6),
            (b"r # --", 6),
            (b"r # 138 1", 9),
        ],
    ),
    ("8 more after a take", &[(b"t # # ", 7), (b"t # ##", 6), (b"t # # #", 7)]),
    ("8 more after an answer", &[(b"a # # ", 7), (b"a # ##", 6), (b"a # # #", 7)]),
    ("8 more after a stop", &[(b"s # ", 4), (b"s ##", 4), (b"s # #", 4)]),
    ("8 first number of two digits", &[(b"r ## 1", 4), (b"t ## #", 4), (b"a ## #", 4)]),
    (
        "8 number that is no digit",
        &[(b"r x 1", 3), (b"t x #", 3), (b"t # x", 5), (b"a - #", 3), (b"a # /", 5), (b"s :", 3)],
    ),
    (
        "8 space too many",
        &[(b" s #", 1), (b"s  #", 3), (b"r #  1", 5), (b"t  # #", 3), (b"a #  #", 5), (b" ", 1)],
    ),
    (
        "8 fields parted otherwise",
        &[(b"t\t# #", 2), (b"t #\t#", 4), (b"a #,#", 4), (b"r #-1", 4), (b"r#1", 2), (b"s#", 2)],
    ),
    (
        "8 view that does not rise",
        &[(b"r # 21", 6), (b"r # 11", 6), (b"r # 132", 7), (b"r # 1223", 7)],
    ),
    (
        "8 view with 0 or 9",
        &[(b"r # 0", 5), (b"r # 9", 5), (b"r # 01", 5), (b"r # 129", 7), (b"r # 123456789", 13)],
    ),
    (
        "8 carriage return",
        &[(b"r # 1\r", 6), (b"t # #\r", 6), (b"a # #\r", 6), (b"s #\r", 4), (b"\r", 1)],
    ),
    (
        "8 other bytes",
        &[
            (b"s #\0", 4),
            (b"\0", 1),
            (b"s \xb1", 3),
            (b"r # \x80", 5),
            (b"\xff\xfe", 1),
            (b"t # \xd9\xa1", 5),
        ],
    ),
    (
        "8 breaks off in a cut",
        &[
            (b"r # 1 c", 8),
            (b"t # # cu", 9),
            (b"a # # cut", 10),
            (b"r # - cut ", 11),
            (b"t # # cut ", 11),
        ],
    ),
    (
        "8 count that is no digit",
        &[(b"t # # cut x", 11), (b"a # # cut -", 11), (b"r # 12 cut /", 12)],
    ),
    (
        "8 count of two digits",
        &[(b"t # # cut ##", 12), (b"r # - cut ##", 12), (b"a # # cut # ", 12)],
    ),
    ("8 cut of a stop", &[(b"s # cut #", 4)]),
    (
        "8 more after a settling run",
        &[(b"q ", 2), (b"q #", 2), (b"q # #", 2), (b"qq", 2), (b"q\r", 2), (b"q\t", 2), (b"q#", 2)],
    ),
    ("8 cut of a settling run", &[(b"q cut #", 2), (b"qcut #", 2)]),
    ("8 space before a settling run", &[(b" q", 1)]),
    (
        "8 cut parted otherwise",
        &[
            (b"t # #  cut #", 7),
            (b"t # # Cut #", 7),
            (b"a # # cut  #", 11),
            (b"t # #cut #", 6),
            (b"r # 12cut #", 7),
        ],
    ),
];

/// Bad as the first line.
pub const FIRST: &[Kind] = &[
    ("8 first line empty", &[(b"", 1)]),
    ("8 first line, wrong size", &[(b"u 0", 3), (b"u 9", 3)]),
    ("8 first line breaks off", &[(b"u", 2), (b"u ", 3)]),
    (
        "8 first line, more after it",
        &[(b"u 2 cut #", 4), (b"u 2 ", 4), (b"u 2#", 4), (b"u 2 #", 4), (b"u 2\r", 4)],
    ),
    ("8 first line, a step", &[(b"r # 1", 1), (b"t # #", 1), (b"a # #", 1), (b"s #", 1)]),
    ("8 first line, a settling run", &[(b"q", 1)]),
    (
        "8 first line, no form",
        &[
            (b"U 2", 1),
            (b" u 2", 1),
            (b"u  2", 3),
            (b"u\t2", 2),
            (b"u2", 2),
            (b"u x", 3),
            (b"u /", 3),
            (b"u :", 3),
        ],
    ),
];

/// A bad line of one of these kinds, with the kind's name and the line's column.
pub fn bad(dice: &mut Dice, kinds: &[Kind]) -> (&'static str, Vec<u8>, usize) {
    let (name, lines) = dice.pick(kinds);
    let (line, column) = dice.pick(lines);
    let mut line = line.to_vec();
    for byte in line.iter_mut().filter(|byte| **byte == b'#') {
        *byte = b'0' + dice.roll(10) as u8;
    }
    (name, line, column)
}

/// Any bytes but line feeds: hardly ever a line of some form, and never the shortest, `q`.
pub fn any_bytes(dice: &mut Dice) -> Vec<u8> {
    let mut bytes: Vec<u8> =
        (0..dice.roll(12)).map(|_| dice.byte()).filter(|&byte| byte != b'\n').collect();
    if bytes == b"q" {
        bytes.push(dice.byte() | 0x80);
    }
    bytes
}
