//! The trainee's sheet: its lines, its run and what is printed.

use super::refusal::{number, Outcome, Refusal};
use super::settle::{settle, Ending};
use super::step::{Action, Step};
use super::system::System;
use super::view::{ProcessId, View};

/// The most bytes a sheet may have.
pub const SHEET_LIMIT: usize = 60_000;

/// Runs a sheet and appends what is printed for it to what `out` has.
pub fn run_sheet_onto(out: &mut Vec<u8>, sheet: &[u8]) {
    if sheet.len() > SHEET_LIMIT {
        print_outcome(out, 0, Err(Refusal::LongSheet));
        return;
    }
    let mut lines = lines(sheet).zip(1..);
    let Some((first, _)) = lines.next() else {
        return;
    };
    match parse_size(first) {
        Some(n) => {
            // A fresh system is sound and steps keep it so.
            let mut system = System::initial(n);
            for (line, line_number) in lines {
                match parse_step(line) {
                    Some(step) => print_outcome(out, line_number, step.run_on_sound(&mut system)),
                    None if line == b"q" => {
                        print_settled(out, line_number, settle(&mut system));
                    }
                    None => print_bad(out, line_number, column(line)),
                }
            }
            print_processes(out, &system);
        }
        None => {
            print_bad(out, 1, 1 + fitting(first, b"u N"));
            for (_, line_number) in lines {
                print_bad(out, line_number, 0);
            }
        }
    }
}

/// The lines, without their line feeds; the last may lack its own.
fn lines(sheet: &[u8]) -> impl Iterator<Item = &[u8]> {
    sheet
        .split_inclusive(|&byte| byte == b'\n')
        .map(|line| line.strip_suffix(b"\n").unwrap_or(line))
}

/// The first line, `u N`.
fn parse_size(line: &[u8]) -> Option<u8> {
    match line {
        &[b'u', b' ', n @ b'1'..=b'8'] => Some(n - b'0'),
        _ => None,
    }
}

/// Any later line: an action, and a cut after it or not.
fn parse_step(line: &[u8]) -> Option<Step> {
    if let Some(action) = parse_action(line) {
        return Some(Step { action, cut: None });
    }
    match line {
        [b'r' | b't' | b'a', .., b' ', b'c', b'u', b't', b' ', k @ b'0'..=b'9'] => {
            let action = parse_action(&line[..line.len() - 6])?;
            Some(Step { action, cut: Some(k - b'0') })
        }
        _ => None,
    }
}

fn parse_action(line: &[u8]) -> Option<Action> {
    match *line {
        [b'r', b' ', p, b' ', ref view @ ..] => {
            Some(Action::Report { p: parse_process(p)?, view: parse_view(view)? })
        }
        [b't', b' ', q, b' ', p] => {
            Some(Action::Receive { from: parse_process(q)?, at: parse_process(p)? })
        }
        [b'a', b' ', p, b' ', q] => {
            Some(Action::Respond { p: parse_process(p)?, to: parse_process(q)? })
        }
        [b's', b' ', p] => Some(Action::Crash { p: parse_process(p)? }),
        _ => None,
    }
}

/// Any digit; one that names nobody is the step's own affair.
fn parse_process(byte: u8) -> Option<ProcessId> {
    byte.is_ascii_digit().then(|| ProcessId(byte - b'0'))
}

/// `-`, or digits 1 to 8 strictly rising.
fn parse_view(field: &[u8]) -> Option<View> {
    if field == b"-" {
        return Some(View::EMPTY);
    }
    let (mut view, mut last) = (View::EMPTY, b'0');
    for &digit in field {
        if digit <= last || digit > b'8' {
            return None;
        }
        view = view.with(ProcessId(digit - b'0'));
        last = digit;
    }
    (!view.is_empty()).then_some(view)
}

/// How many bytes of the line are as a form has them: N is 1 to 8, P any digit, other bytes themselves.
fn fitting(line: &[u8], form: &[u8]) -> u32 {
    let fits = |(byte, form): &(&u8, &u8)| match form {
        b'N' => (b'1'..=b'8').contains(byte),
        b'P' => byte.is_ascii_digit(),
        _ => byte == form,
    };
    line.iter().zip(form).take_while(fits).count() as u32
}

/// The column of a bad line after the first.
fn column(line: &[u8]) -> u32 {
    let (form, cut): (&[u8], &[u8]) = match line.first() {
        Some(b'r') => (b"r P ", b" cut P"),
        Some(b't') => (b"t P P", b" cut P"),
        Some(b'a') => (b"a P P", b" cut P"),
        Some(b's') => (b"s P", b""),
        Some(b'q') => (b"q", b""),
        _ => return 1,
    };
    let mut at = fitting(line, form) as usize;
    if at < form.len() {
        return 1 + at as u32;
    }
    if line[0] == b'r' {
        at += view_length(&line[at..]);
        if at == form.len() {
            return 1 + at as u32;
        }
    }
    1 + at as u32 + fitting(&line[at..], cut)
}

/// How many bytes of a view stand first.
fn view_length(field: &[u8]) -> usize {
    if field.first() == Some(&b'-') {
        return 1;
    }
    let rising = field.iter().scan(b'0', |last, &digit| {
        let rises = *last < digit && digit <= b'8';
        *last = digit;
        rises.then_some(())
    });
    rising.count()
}

fn print_outcome(out: &mut Vec<u8>, line_number: u32, outcome: Outcome) {
    print_number(out, line_number);
    out.push(b' ');
    print_number(out, number(outcome).into());
    out.push(b'\n');
}

fn print_settled(out: &mut Vec<u8>, line_number: u32, (steps, ending): (u16, Ending)) {
    print_number(out, line_number);
    out.extend(b" 0 ");
    print_number(out, steps.into());
    out.extend_from_slice(match ending {
        Ending::Rest => b" rest\n",
        Ending::Held => b" held\n",
        Ending::Budget => b" budget\n",
    });
}

fn print_bad(out: &mut Vec<u8>, line_number: u32, column: u32) {
    print_number(out, line_number);
    out.extend(b" 8 ");
    print_number(out, column);
    out.push(b'\n');
}

fn print_processes(out: &mut Vec<u8>, system: &System) {
    for p in system.everyone().members() {
        let process = system.process(p);
        out.extend_from_slice(b"unit ");
        print_number(out, p.0.into());
        out.extend_from_slice(if process.crashed { b" stopped next " } else { b" live next " });
        print_number(out, process.next.0.into());
        for (&view, index) in process.history.iter().zip(1..) {
            if !view.is_empty() {
                out.push(b' ');
                print_number(out, index);
                out.push(b'=');
                out.extend(view.members().map(|q| b'0' + q.0));
            }
        }
        out.push(b'\n');
    }
}

/// A number in decimal.
fn print_number(out: &mut Vec<u8>, number: u32) {
    if number >= 10 {
        print_number(out, number / 10);
    }
    out.push(b'0' + (number % 10) as u8);
}
