//! S-7: the tally over a class.

use crate::sheet::{lines, SHEET_LIMIT};
use crate::tally::{tally_sheet, Tally};
use std::ffi::OsStr;
use std::fs::File;
use std::io::Read;
use std::os::unix::ffi::OsStrExt;

/// "Names past the 64th are not read".
pub const NAMES_LIMIT: usize = 64;

/// "a name over 255 bytes is unopened, its first 255 printed"
pub const NAME_LIMIT: usize = 255;

/// What is printed for these names, "one to a line", and for what opening each
/// of them gives: the sheet, or nothing where it "cannot be opened or read".
pub fn class_output(names: &[u8], mut open: impl FnMut(&[u8]) -> Option<Vec<u8>>) -> Vec<u8> {
    let mut out = Vec::new();
    let mut print = |name: &[u8], told: &str| {
        out.extend([name, b" ", told.as_bytes(), b"\n"].concat());
    };
    let mut all = Tally::default();
    for name in lines(names).into_iter().take(NAMES_LIMIT) {
        if name.len() > NAME_LIMIT {
            print(&name[..NAME_LIMIT], "unopened");
            continue;
        }
        // "a sheet that cannot be opened or read (`unopened`) or is too long is
        // named as such and adds nothing"
        match open(name).map(|sheet| tally_sheet(&sheet)) {
            None => print(name, "unopened"),
            Some(None) => print(name, "long"),
            Some(Some(tally)) => {
                print(name, &tally.text());
                all.add(tally);
            }
        }
    }
    // "at the end `all` for a name"
    print(b"all", &all.text());
    out
}

/// The bytes of a file, if it can be opened and read. Of one that is too long
/// no more is read than shows it.
pub fn read_sheet(name: &[u8]) -> Option<Vec<u8>> {
    let mut sheet = Vec::new();
    let file = File::open(OsStr::from_bytes(name)).ok()?;
    file.take(SHEET_LIMIT as u64 + 1).read_to_end(&mut sheet).ok()?;
    Some(sheet)
}
