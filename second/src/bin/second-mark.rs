//! The program `mark` by the second program: standard input to standard output.

use std::io::{self, Read, Write};

fn main() -> io::Result<()> {
    let mut file = Vec::new();
    io::stdin().lock().read_to_end(&mut file)?;
    io::stdout().write_all(second::program::mark_text(&file).as_bytes())
}
