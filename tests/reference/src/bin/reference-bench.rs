//! The bench program: a sheet on standard input, its outcome on standard
//! output.

use std::io::{self, Read, Write};

fn main() -> io::Result<()> {
    let mut sheet = Vec::new();
    io::stdin().lock().read_to_end(&mut sheet)?;
    let mut stdout = io::stdout().lock();
    stdout.write_all(&reference::run_sheet(&sheet))?;
    stdout.flush()
}
