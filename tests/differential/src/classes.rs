//! Classes by chance: names, and the sheets that are found by them.

use crate::dice::Dice;
use crate::settled::{race, Turn};
use crate::sheets::{of_turns, written, Sheet};
use crate::tallied::{sheet_ways, Met};
use reference::{Action, ProcessId, View, NAMES_LIMIT, NAME_LIMIT, SHEET_LIMIT};
use std::collections::BTreeMap;

/// The names, as the program reads them; the files of the folder it is run in; and a directory there.
pub struct Class {
    pub names: Vec<u8>,
    pub sheets: BTreeMap<String, Sheet>,
}

/// Every class has this directory.
pub const DIRECTORY: &str = "folder";

/// The ways of classes and their names.
pub const WAYS: &[&str] = &[
    "class, no names",
    "class, 64 names",
    "class, more than 64 names",
    "class, no line feed at the end",
    "name of a sheet",
    "name of a sheet once more",
    "name of nothing",
    "name of a directory",
    "name of a file, and more after it",
    "name, empty",
    "name with a zero byte",
    "name of 255 bytes",
    "name of 256 bytes",
    "name far too long",
];

impl Class {
    pub fn by_chance(dice: &mut Dice, met: &mut Met) -> Class {
        let mut sheets = BTreeMap::new();
        for number in 0..1 + dice.roll(12) {
            sheets.insert(format!("{number}.sheet"), sized(dice));
        }
        let mut class = Class { names: Vec::new(), sheets };
        let count = match dice.roll(20) {
            0 | 1 => 0,
            2 | 3 => NAMES_LIMIT,
            4 => NAMES_LIMIT + 1,
            5 => NAMES_LIMIT + 2 + dice.roll(200),
            _ => 1 + dice.roll(20),
        };
        match count {
            0 => met.count("class, no names"),
            NAMES_LIMIT => met.count("class, 64 names"),
            _ if count > NAMES_LIMIT => met.count("class, more than 64 names"),
            _ => (),
        }
        let mut seen: Vec<String> = Vec::new();
        for at in 0..count {
            let file = format!("{}.sheet", dice.roll(class.sheets.len()));
            let (way, mut name) = named(dice, &file);
            let tried = way == "name of a sheet" || way == "name of 255 bytes";
            if at < NAMES_LIMIT {
                let again = way == "name of a sheet" && seen.contains(&file);
                met.count(if again { "name of a sheet once more" } else { way });
                if tried && !seen.contains(&file) {
                    sheet_ways(&class.sheets[&file], met);
                    seen.push(file);
                }
            }
            name.push(b'\n');
            class.names.extend(name);
        }
        // An empty name is one only with its line feed.
        if dice.one_in(4) && count > 0 && !class.names.ends_with(b"\n\n") && class.names != b"\n" {
            class.names.pop();
            met.count("class, no line feed at the end");
        }
        class
    }
}

/// A sheet by chance, now and then of no bytes, of as many as are allowed, or of more.
fn sized(dice: &mut Dice) -> Sheet {
    let n = dice.one_of(8).0;
    let mut sheet = match dice.roll(25) {
        0 => Sheet::default(),
        1 => of_turns(n, vec![Turn::Settle]),
        2..=10 => of_turns(n, parting(dice, n)),
        _ => written(dice, n),
    };
    if dice.one_in(12) && !sheet.text.is_empty() && sheet.text.len() < SHEET_LIMIT {
        sheet.text.resize(SHEET_LIMIT + dice.pick(&[0, 0, 1, 1, 2, 100_000]), b'\n');
    }
    sheet
}

/// Turns that chance hardly ever makes: unit 1 proposes to all, all answer, and at each pause some units
/// stop; some takes and answers are cut.
fn parting(dice: &mut Dice, n: u8) -> Vec<Turn> {
    let (everyone, one) = (View::first(n), ProcessId(1));
    let mut turns = match dice.one_in(2) {
        true => race(dice, n),
        false => vec![Turn::Step(Action::Report { p: one, view: everyone }.into())],
    };
    for p in everyone.members() {
        for _ in 0..1 + dice.roll(4) {
            turns.push(Turn::Step(Action::Receive { from: one, at: p }.into()));
        }
    }
    let any = dice.one_of(n);
    pause(dice, any, &mut turns);
    for p in everyone.members() {
        let answer = Action::Respond { p, to: one };
        turns.push(Turn::Step(if dice.one_in(40) { answer.cut(0) } else { answer.into() }));
    }
    // Now others may go, and what 1 sends them is lost.
    for _ in 0..if n > 1 { dice.roll(5) } else { 0 } {
        let other = ProcessId(1 + dice.one_of(n - 1).0);
        pause(dice, other, &mut turns);
    }
    if dice.one_in(3) {
        turns.push(Turn::Settle);
    }
    for p in everyone.members() {
        let take = Action::Receive { from: p, at: one };
        if dice.one_in(2) {
            turns.push(Turn::Step(take.cut(dice.roll(n.into()) as u8)));
        }
        turns.push(Turn::Step(take.into()));
    }
    let any = dice.one_of(n);
    pause(dice, any, &mut turns);
    if dice.one_in(3) {
        turns.push(Turn::Settle);
    }
    turns
}

/// The unit stops, or not.
fn pause(dice: &mut Dice, p: ProcessId, turns: &mut Vec<Turn>) {
    if dice.one_in(2) {
        turns.push(Turn::Step(Action::Crash { p }.into()));
    }
}

/// A name, often of this file.
fn named(dice: &mut Dice, file: &str) -> (&'static str, Vec<u8>) {
    match dice.roll(32) {
        0 => {
            ("name of nothing", dice.pick(&["none", "SHEET", " ", "all", "1.sheet ", "\r"]).into())
        }
        1 => ("name of a directory", dice.pick(&[".", "..", DIRECTORY, "folder/", "/"]).into()),
        2 => ("name of a file, and more after it", format!("{file}/").into()),
        3 => ("name, empty", Vec::new()),
        4 => {
            // What stands before the zero can be opened.
            let after = dice.pick(&["\0", "\0\0", "\0x", "\0/", "\0 unopened"]);
            ("name with a zero byte", format!("{file}{after}").into())
        }
        5 => ("name of 255 bytes", of_length(NAME_LIMIT, file).into()),
        6 => ("name of 256 bytes", of_length(NAME_LIMIT + 1, file).into()),
        7 => {
            // What is printed of it can be opened.
            let more = dice.pick(&["x", "xyz", "/.", " "]).repeat(dice.pick(&[1, 30, 5_000]));
            ("name far too long", (of_length(NAME_LIMIT, file) + &more).into())
        }
        roll => {
            let before = if roll < 12 { dice.pick(&["./", "folder/../", ".//./"]) } else { "" };
            ("name of a sheet", format!("{before}{file}").into())
        }
    }
}

/// A name of so many bytes that the file can be opened by.
fn of_length(length: usize, file: &str) -> String {
    let before = length - file.len();
    let odd = if before % 2 == 1 { "/" } else { "" };
    format!(".{odd}/{}{file}", "./".repeat(before / 2 - 1))
}
