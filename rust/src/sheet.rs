//! A whole sheet.

use crate::raw;
#[cfg(feature = "alloc")]
use alloc::{string::String, vec};

/// What the bench program prints for a sheet. Any bytes are a sheet.
///
/// ```
/// let printed = lobstercreel::run_sheet("u 2\nr 1 12\nq\n");
/// assert_eq!(printed, "2 0\n3 0 8 rest\nunit 1 live next 3 1=12 2=12\nunit 2 live next 3 1=12 2=12\n");
/// ```
#[cfg(feature = "alloc")]
pub fn run_sheet(sheet: impl AsRef<[u8]>) -> String {
    let mut out = vec![0; crate::OUTPUT];
    let written = raw::run(sheet.as_ref(), &mut out);
    out.truncate(written);
    out.shrink_to_fit();
    String::from_utf8(out).expect("numbers and words")
}

/// The same as far as the buffer has room: what was written into it. Less than the whole buffer is
/// the whole output; [`OUTPUT`](crate::OUTPUT) bytes are room for every sheet.
///
/// ```
/// let mut buffer = [0; 80];
/// assert_eq!(lobstercreel::run_sheet_into("u 1\ns 1\n", &mut buffer), b"2 0\nunit 1 stopped next 2 1=1\n");
/// ```
pub fn run_sheet_into(sheet: impl AsRef<[u8]>, out: &mut [u8]) -> &[u8] {
    let written = raw::run(sheet.as_ref(), out);
    &out[..written]
}
