//! The tally program: names of sheets on standard input, the class's counts on
//! standard output.

use std::io::{self, Read, Write};

fn main() -> io::Result<()> {
    let mut names = Vec::new();
    io::stdin().lock().read_to_end(&mut names)?;
    let mut stdout = io::stdout().lock();
    stdout.write_all(&reference::class_output(&names, reference::read_sheet))?;
    stdout.flush()
}
