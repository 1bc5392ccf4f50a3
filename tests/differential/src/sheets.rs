//! Whole sheets by chance.

use crate::dice::Dice;
use crate::lines::{any_bytes, bad, line, FIRST, LATER};
use crate::settled::{crowd, race, settling_way, Turn};
use crate::ways::way;
use reference::{number, Action, Ending, Step, System, SHEET_LIMIT};

/// A sheet; its processes, if its first line is good; and each line's way and what is printed after the
/// line's number.
#[derive(Default)]
pub struct Sheet {
    pub text: Vec<u8>,
    pub n: Option<u8>,
    pub lines: Vec<(&'static str, String)>,
    /// The steps and settling runs that it asks for, refused ones too.
    pub turns: Vec<Turn>,
}

impl Sheet {
    /// With a good first line, which is not printed, so that its way is not counted.
    fn headed(n: u8) -> Sheet {
        let mut sheet = Sheet { n: Some(n), ..Sheet::default() };
        sheet.add(format!("u {n}").as_bytes(), "", String::new());
        sheet
    }

    fn add(&mut self, line: &[u8], way: &'static str, told: String) {
        self.text.extend(line);
        self.text.push(b'\n');
        self.lines.push((way, told));
    }

    /// A bad line with its column.
    fn add_bad(&mut self, line: &[u8], way: &'static str, column: usize) {
        self.add(line, way, format!("8 {column}"));
    }

    fn add_turn(&mut self, turn: Turn, system: &mut System) {
        match turn {
            Turn::Step(step) => self.add_step(step, system),
            Turn::Settle => self.add_settling(system),
        }
    }

    /// The line of a settling run, which the system makes too.
    fn add_settling(&mut self, system: &mut System) {
        let before = system.clone();
        let settling = reference::settle(system);
        let word = match settling.ending {
            Ending::Rest => "rest",
            Ending::Held => "held",
            Ending::Budget => "budget",
        };
        let told = format!("{} {} {word}", number(settling.outcome), settling.steps);
        self.turns.push(Turn::Settle);
        self.add(b"q", settling_way(&before, settling, system), told);
    }

    /// The line of a step, which the system makes too.
    fn add_step(&mut self, step: Step, system: &mut System) {
        let before = system.clone();
        let number = number(step.run(system));
        self.turns.push(Turn::Step(step));
        self.add(line(step).as_bytes(), way(&before, step, number), number.to_string());
    }
}

/// A sheet of these turns, from a fresh system of n processes.
pub fn of_turns(n: u8, turns: Vec<Turn>) -> Sheet {
    let mut sheet = Sheet::headed(n);
    let mut system = reference::fresh(n).1;
    for turn in turns {
        sheet.add_turn(turn, &mut system);
    }
    sheet
}

/// No line says that a stop is cut.
fn on_a_sheet(step: Step) -> Step {
    match step.action {
        Action::Crash { .. } => step.action.into(),
        _ => step,
    }
}

/// A sheet by chance, of mostly good lines, for n processes.
pub fn written(dice: &mut Dice, n: u8) -> Sheet {
    let mut sheet = Sheet::default();
    let lines = if dice.one_in(100) { 6_000 + dice.roll(5_000) } else { dice.roll(300) };
    if dice.one_in(12) {
        let (kind, first, column) = bad(dice, FIRST);
        sheet.add_bad(&first, kind, column);
        if dice.one_in(2) {
            sheet.add_bad(format!("u {n}").as_bytes(), "8 good first line too late", 0);
        }
        for _ in 0..lines {
            let step = dice.any_step(n);
            sheet.add_bad(line(step).as_bytes(), "8 after a bad first line", 0);
        }
    } else {
        sheet = Sheet::headed(n);
        let mut system = reference::fresh(n).1;
        if dice.one_in(4) {
            for step in dice.opening(n) {
                sheet.add_step(step, &mut system);
            }
        }
        // One sheet of three has settling runs.
        let settles = dice.one_in(3) && lines < 6_000;
        if settles && dice.one_in(2) {
            let turns = if dice.one_in(3) { crowd(dice, n) } else { race(dice, n) };
            for turn in turns.into_iter().chain([Turn::Settle]) {
                sheet.add_turn(turn, &mut system);
            }
        }
        let mix = dice.mix(n);
        for _ in 0..lines {
            if settles && dice.one_in(30) {
                sheet.add_settling(&mut system);
                continue;
            }
            match dice.roll(120) {
                // Their column is not known here, but the reference's.
                0 => sheet.add(&any_bytes(dice), "8 any bytes", "8 ?".into()),
                1..=4 => {
                    let (kind, line, column) = bad(dice, LATER);
                    sheet.add_bad(&line, kind, column);
                }
                _ => sheet.add_step(on_a_sheet(dice.likely_step(&system, mix)), &mut system),
            }
        }
    }
    if dice.one_in(4) && !sheet.text.ends_with(b"\n\n") && sheet.text != b"\n" {
        sheet.text.pop();
    }
    if dice.one_in(60) && sheet.text.len() < SHEET_LIMIT {
        sheet.text.resize(SHEET_LIMIT + dice.pick(&[0, 1, 2, 100_000]), b'\n');
        let empty = match sheet.n {
            Some(_) => ("8 empty line", "8 1".into()),
            None => ("8 after a bad first line", "8 0".into()),
        };
        sheet.lines.resize(line_count(&sheet.text), empty);
    }
    if dice.one_in(200) {
        sheet = Sheet::default();
    }
    sheet
}

/// How many lines a text has, the last of which may lack its line feed.
pub fn line_count(text: &[u8]) -> usize {
    let ended = text.iter().filter(|byte| **byte == b'\n').count();
    ended + usize::from(text.last().is_some_and(|byte| *byte != b'\n'))
}
