//! The program `runs`: a line on standard input, the two counts or a refusal
//! number on standard output.

use std::io::{self, Read, Write};

fn main() -> io::Result<()> {
    let mut input = Vec::new();
    io::stdin().lock().read_to_end(&mut input)?;
    let mut stdout = io::stdout().lock();
    stdout.write_all(&reference::print_walk(&input))?;
    stdout.flush()
}
