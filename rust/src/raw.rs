//! The functions of include/lobstercreel.h as they are there, with plain numbers: for tests, and for
//! images that are kept elsewhere. A pointer and a length are a slice; all else is the same.
//!
//! Any bytes may be handed over. What is no image of a sound system is refused with 1, and a step that
//! is refused changes no byte. Elsewhere the types of this crate say the same and cannot be mixed up.

#![allow(unsafe_code)]

use crate::step::{Action, Step};
use core::slice;

// A Rust slice goes as its pointer and its length. An empty one has a pointer too, which is not null.
extern "C" {
    fn lobstercreel_fresh(image: *mut u8, length: usize, n: u8) -> u8;
    fn lobstercreel_report(image: *mut u8, length: usize, p: u8, view: u8) -> u8;
    fn lobstercreel_receive(image: *mut u8, length: usize, q: u8, p: u8) -> u8;
    fn lobstercreel_respond(image: *mut u8, length: usize, p: u8, q: u8) -> u8;
    fn lobstercreel_crash(image: *mut u8, length: usize, p: u8) -> u8;
    fn lobstercreel_report_cut(image: *mut u8, length: usize, p: u8, view: u8, k: u8) -> u8;
    fn lobstercreel_receive_cut(image: *mut u8, length: usize, q: u8, p: u8, k: u8) -> u8;
    fn lobstercreel_respond_cut(image: *mut u8, length: usize, p: u8, q: u8, k: u8) -> u8;
    fn lobstercreel_steps(
        image: *mut u8,
        length: usize,
        list: *const u8,
        list_length: usize,
        numbers: *mut u8,
        places: usize,
    ) -> usize;
    fn lobstercreel_settle(image: *mut u8, length: usize, told: *mut [u16; 2]) -> u8;
    fn lobstercreel_run(sheet: *const u8, length: usize, out: *mut u8, room: usize) -> usize;
}

/// In a list of steps, the count of a step that is not cut.
pub const WHOLE: u8 = 255;

/// Writes the image of the fresh system of n processes: 0; or 2 for a wrong n, and then it is that of
/// a system of none; or 1 for a wrong length, and then nothing is written.
pub fn fresh(image: &mut [u8], n: u8) -> u8 {
    // SAFETY: the pointer and the length are those of one slice, which is lent for the call alone.
    unsafe { lobstercreel_fresh(image.as_mut_ptr(), image.len(), n) }
}

/// Process p is told its view.
pub fn report(image: &mut [u8], p: u8, view: u8) -> u8 {
    // SAFETY: as in `fresh`.
    unsafe { lobstercreel_report(image.as_mut_ptr(), image.len(), p, view) }
}

/// Process p receives the oldest message from process q.
pub fn receive(image: &mut [u8], q: u8, p: u8) -> u8 {
    // SAFETY: as in `fresh`.
    unsafe { lobstercreel_receive(image.as_mut_ptr(), image.len(), q, p) }
}

/// Process p responds to what it recorded from process q.
pub fn respond(image: &mut [u8], p: u8, q: u8) -> u8 {
    // SAFETY: as in `fresh`.
    unsafe { lobstercreel_respond(image.as_mut_ptr(), image.len(), p, q) }
}

/// Process p crashes.
pub fn crash(image: &mut [u8], p: u8) -> u8 {
    // SAFETY: as in `fresh`.
    unsafe { lobstercreel_crash(image.as_mut_ptr(), image.len(), p) }
}

/// A report, cut after its first k messages.
pub fn report_cut(image: &mut [u8], p: u8, view: u8, k: u8) -> u8 {
    // SAFETY: as in `fresh`.
    unsafe { lobstercreel_report_cut(image.as_mut_ptr(), image.len(), p, view, k) }
}

/// A receive, cut after its first k messages.
pub fn receive_cut(image: &mut [u8], q: u8, p: u8, k: u8) -> u8 {
    // SAFETY: as in `fresh`.
    unsafe { lobstercreel_receive_cut(image.as_mut_ptr(), image.len(), q, p, k) }
}

/// A response, cut after its first k messages.
pub fn respond_cut(image: &mut [u8], p: u8, q: u8, k: u8) -> u8 {
    // SAFETY: as in `fresh`.
    unsafe { lobstercreel_respond_cut(image.as_mut_ptr(), image.len(), p, q, k) }
}

/// Does a list of steps, four bytes each, and writes their numbers: as many steps are done as there
/// are places. Answers how many.
pub fn steps(image: &mut [u8], list: &[u8], numbers: &mut [u8]) -> usize {
    // SAFETY: three slices, two of them lent alone, so they do not overlap.
    unsafe {
        lobstercreel_steps(
            image.as_mut_ptr(),
            image.len(),
            list.as_ptr(),
            list.len(),
            numbers.as_mut_ptr(),
            numbers.len(),
        )
    }
}

/// The settling run. The first number told is the steps done, the second how it ended: 0 at rest, 1
/// held up, 2 budget. With 1 for an answer they are 0 and 1.
pub fn settle(image: &mut [u8], told: &mut [u16; 2]) -> u8 {
    // SAFETY: as in `fresh`; the two numbers are lent alone too, so they do not overlap.
    unsafe { lobstercreel_settle(image.as_mut_ptr(), image.len(), told) }
}

/// Runs a sheet and writes what the bench program prints, as far as there is room. Answers how many
/// bytes were written.
pub fn run(sheet: &[u8], out: &mut [u8]) -> usize {
    // SAFETY: two slices, one of them lent alone, so they do not overlap.
    unsafe { lobstercreel_run(sheet.as_ptr(), sheet.len(), out.as_mut_ptr(), out.len()) }
}

/// Does any step by the function that it names.
pub fn perform(image: &mut [u8], step: impl Into<Step>) -> u8 {
    let step = step.into();
    match (step.action, step.cut) {
        (Action::Report { p, view }, None) => report(image, p.0, view.bits()),
        (Action::Receive { from, at }, None) => receive(image, from.0, at.0),
        (Action::Respond { p, to }, None) => respond(image, p.0, to.0),
        (Action::Crash { p }, None) => crash(image, p.0),
        (Action::Report { p, view }, Some(k)) => report_cut(image, p.0, view.bits(), k),
        (Action::Receive { from, at }, Some(k)) => receive_cut(image, from.0, at.0, k),
        (Action::Respond { p, to }, Some(k)) => respond_cut(image, p.0, to.0, k),
        // There is no function for it, but it may be in a list.
        (Action::Crash { .. }, Some(_)) => {
            let mut number = 0;
            steps(image, &step.to_bytes(), slice::from_mut(&mut number));
            number
        }
    }
}
