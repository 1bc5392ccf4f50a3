//! include/lobstercreel.h beside the wrapper: each number of the header, and each function.

use lobstercreel::{raw, Refusal, CAPACITY, IMAGE, MOST_STEPS, OUTPUT};
use std::collections::{BTreeMap, BTreeSet};

const HEADER: &str = include_str!("../../include/lobstercreel.h");

/// The header without its comments.
fn code() -> String {
    let mut code = String::new();
    for part in HEADER.split("/*") {
        code += part.split_once("*/").map_or(part, |(_, rest)| rest);
    }
    code
}

/// The header's constants: `#define NAME number`, and those of its enums.
fn constants() -> BTreeMap<String, usize> {
    let code = code();
    let mut constants = BTreeMap::new();
    for line in code.lines().filter_map(|line| line.strip_prefix("#define LOBSTERCREEL_")) {
        let (name, value) = line.split_once(' ').unwrap_or((line, ""));
        if let Ok(value) = value.trim().parse() {
            constants.insert(name.to_string(), value);
        }
    }
    for body in code.split("enum {").skip(1) {
        let (body, _) = body.split_once('}').unwrap();
        let mut next = 0;
        for item in body.split(',') {
            let (name, value) = item.split_once('=').unwrap_or((item, ""));
            let name = name.trim().strip_prefix("LOBSTERCREEL_").unwrap();
            let value = value.trim().parse().unwrap_or(next);
            constants.insert(name.to_string(), value);
            next = value + 1;
        }
    }
    constants
}

/// The names of the header's functions.
fn functions() -> BTreeSet<String> {
    let code = code();
    let prefix = "lobstercreel_";
    let ends = code.match_indices(prefix).map(|(at, _)| &code[at + prefix.len()..]);
    ends.filter_map(|rest| rest.split_once('(')).map(|(name, _)| name.to_string()).collect()
}

/// The refusals under the header's names, which are the papers'.
fn header_name(refusal: Refusal) -> String {
    refusal.word().replace(' ', "_").to_uppercase()
}

#[test]
fn constants_are_the_headers() {
    let mut wanted: BTreeMap<String, usize> = Refusal::ALL
        .iter()
        .map(|&refusal| (header_name(refusal), usize::from(refusal.number())))
        .collect();
    for (name, value) in [
        ("DONE", 0),
        ("IMAGE", IMAGE),
        ("OUTPUT", OUTPUT),
        ("MOST_STEPS", MOST_STEPS.into()),
        ("WHOLE", raw::WHOLE.into()),
        // The tests of reading, of lists and of settling runs have these.
        ("STEP", 4),
        ("N", 0),
        ("CRASHED", 0),
        ("VIEW", 1),
        ("NEXT", 2),
        ("PROPOUT", 3),
        ("PROPOSAL", 4),
        ("ACKS", 5),
        ("LENGTH", 3 * CAPACITY),
        ("NOTHING", 0),
        ("PROPOSED", 1),
        ("PROPOSE", 0),
        ("RETRY", 1),
        ("ACC", 2),
        ("COMMIT", 3),
        ("REPORT", 0),
        ("RECEIVE", 1),
        ("RESPOND", 2),
        ("CRASH", 3),
        ("REST", 0),
        ("HELD", 1),
        ("BUDGET", 2),
    ] {
        wanted.insert(name.to_string(), value);
    }
    assert_eq!(constants(), wanted);
}

/// Each function of the header has one of that name in `raw`, of the header's numbers.
#[test]
fn functions_are_the_headers() {
    let _: fn(&mut [u8], u8) -> u8 = raw::fresh;
    let _: fn(&mut [u8], u8, u8) -> u8 = raw::report;
    let _: fn(&mut [u8], u8, u8) -> u8 = raw::receive;
    let _: fn(&mut [u8], u8, u8) -> u8 = raw::respond;
    let _: fn(&mut [u8], u8) -> u8 = raw::crash;
    let _: fn(&mut [u8], u8, u8, u8) -> u8 = raw::report_cut;
    let _: fn(&mut [u8], u8, u8, u8) -> u8 = raw::receive_cut;
    let _: fn(&mut [u8], u8, u8, u8) -> u8 = raw::respond_cut;
    let _: fn(&mut [u8], &[u8], &mut [u8]) -> usize = raw::steps;
    let _: fn(&mut [u8], &mut [u16; 2]) -> u8 = raw::settle;
    let _: fn(&[u8], &mut [u8]) -> usize = raw::run;
    let wanted =
        "fresh report receive respond crash report_cut receive_cut respond_cut steps settle run";
    assert_eq!(functions(), wanted.split(' ').map(String::from).collect());
}
