//! The trainee's sheet: its lines, its run and what is printed.

use crate::refusal::{number, Outcome, Refusal};
use crate::settle::{settle_told, Ending, Settling, BUDGET};
use crate::step::{Action, Event, Step};
use crate::system::{fresh, System};
use crate::view::{ProcessId, View};
use std::collections::BTreeMap;
use std::sync::OnceLock;

/// "a sheet of more than 60,000 bytes" is a long one.
pub const SHEET_LIMIT: usize = 60_000;

/// Runs a sheet and gives what is printed for it.
pub fn run_sheet(sheet: &[u8]) -> Vec<u8> {
    run(sheet).printed.into_bytes()
}

/// The run of a sheet.
pub(crate) struct Run {
    /// What is printed for it.
    pub printed: String,
    /// The system after the last line, if there is one.
    pub system: Option<System>,
    /// What its steps did, those of settling runs too.
    pub told: Vec<Event>,
}

/// Runs a sheet.
pub(crate) fn run(sheet: &[u8]) -> Run {
    let mut run = Run { printed: String::new(), system: None, told: Vec::new() };
    // "A long sheet prints the single line `0 9`."
    if sheet.len() > SHEET_LIMIT {
        run.printed = outcome_line(0, Err(Refusal::LongSheet));
        return run;
    }
    let lines = lines(sheet);
    // "an empty sheet prints nothing"
    let Some(first) = lines.first() else {
        return run;
    };
    match first_lines().get(*first) {
        Some(n) => {
            let (_, mut system) = fresh(*n);
            let told = &mut run.told;
            for (line, line_number) in lines.iter().zip(1..).skip(1) {
                run.printed += &match later_lines().get(*line) {
                    Some(Later::Step(step)) => {
                        outcome_line(line_number, step.run_told(&mut system, told))
                    }
                    Some(Later::Settle) => {
                        settling_line(line_number, settle_told(&mut system, BUDGET, told))
                    }
                    None => bad_line(line_number, column(later_lines(), line)),
                };
            }
            for p in system.everyone().members() {
                run.printed += &process_line(&system, p);
            }
            run.system = Some(system);
        }
        // "Anything else, an empty line too, is refusal 8; if the first line
        // is, so is every line after it." S-1: "Each line after a bad first
        // line has column 0."
        None => {
            run.printed += &bad_line(1, column(first_lines(), first));
            for line_number in 2..=lines.len() {
                run.printed += &bad_line(line_number, 0);
            }
        }
    }
    run
}

/// "Lines end with a line feed, which the last may lack."
pub(crate) fn lines(text: &[u8]) -> Vec<&[u8]> {
    let mut lines: Vec<&[u8]> = text.split(|byte| *byte == b'\n').collect();
    if lines.last().is_some_and(|last| last.is_empty()) {
        lines.pop();
    }
    lines
}

/// Every line that is allowed first: "`u N` first and only first, N 1 to 8".
fn first_lines() -> &'static BTreeMap<Vec<u8>, u8> {
    static LINES: OnceLock<BTreeMap<Vec<u8>, u8>> = OnceLock::new();
    LINES.get_or_init(|| (1..=8).map(|n| (format!("u {n}").into_bytes(), n)).collect())
}

/// What a line after the first says.
enum Later {
    Step(Step),
    Settle,
}

/// Every line that is allowed later: "`r P VIEW`; `t Q P` (take, from Q at P);
/// `a P Q` (P answers Q); `s P`. P and Q are one digit." S-2: "` cut K` follows
/// the step, K one digit; after `u` or `s` it is a bad line." "Settling (S-4):
/// the sheet line `q`", with nothing after it.
fn later_lines() -> &'static BTreeMap<Vec<u8>, Later> {
    static LINES: OnceLock<BTreeMap<Vec<u8>, Later>> = OnceLock::new();
    LINES.get_or_init(|| {
        let mut lines = BTreeMap::from([(b"q".to_vec(), Later::Settle)]);
        let mut allow = |line: String, action: Action| {
            if !matches!(action, Action::Crash { .. }) {
                for k in 0..=9 {
                    let cut = Later::Step(action.cut(k));
                    lines.insert(format!("{line} cut {k}").into_bytes(), cut);
                }
            }
            lines.insert(line.into_bytes(), Later::Step(action.into()));
        };
        for p in (0..=9).map(ProcessId) {
            for view in (0..=u8::MAX).map(View) {
                allow(format!("r {} {}", p.0, view_text(view)), Action::Report { p, view });
            }
            for q in (0..=9).map(ProcessId) {
                allow(format!("t {} {}", q.0, p.0), Action::Receive { from: q, at: p });
                allow(format!("a {} {}", p.0, q.0), Action::Respond { p, to: q });
            }
            allow(format!("s {}", p.0), Action::Crash { p });
        }
        lines
    })
}

/// "VIEW is `-` for the empty set, else digits 1 to 8 strictly rising."
fn view_text(view: View) -> String {
    let digits: String = view.members().map(|p| p.0.to_string()).collect();
    if digits.is_empty() {
        "-".into()
    } else {
        digits
    }
}

/// S-1: "the column, counted from 1, of the first byte with which the line so
/// far begins no line allowed there; for a line that merely breaks off, that is
/// its length plus 1"
fn column<T>(allowed: &BTreeMap<Vec<u8>, T>, line: &[u8]) -> usize {
    let begins = |so_far: &[u8]| {
        let mut from_here = allowed.range(so_far.to_vec()..);
        from_here.next().is_some_and(|(line, _)| line.starts_with(so_far))
    };
    (1..=line.len()).find(|&length| !begins(&line[..length])).unwrap_or(line.len() + 1)
}

/// "its line number in the sheet, a space and the refusal number or 0"
fn outcome_line(line_number: usize, outcome: Outcome) -> String {
    format!("{line_number} {}\n", number(outcome))
}

/// "after its 0 the program prints the steps done and `rest`, `held` or
/// `budget`"
fn settling_line(line_number: usize, settling: Settling) -> String {
    let word = match settling.ending {
        Ending::Rest => "rest",
        Ending::Held => "held",
        Ending::Budget => "budget",
    };
    format!("{line_number} {} {} {word}\n", number(settling.outcome), settling.steps)
}

/// S-1: "The column stands after the 8 and a space."
fn bad_line(line_number: usize, column: usize) -> String {
    format!("{line_number} {} {column}\n", number(Err(Refusal::BadLine)))
}

/// "`unit`, its number, `live` or `stopped`, `next`, Next, and for each
/// non-empty position `position=view`"
fn process_line(system: &System, p: ProcessId) -> String {
    let process = system.process(p);
    let life = if process.crashed { "stopped" } else { "live" };
    let mut line = format!("unit {} {life} next {}", p.0, process.next.0);
    for (i, view) in process.entries().filter(|(_, view)| !view.is_empty()) {
        line += &format!(" {}={}", i.0, view_text(view));
    }
    line + "\n"
}
