//! Answers questions to the Rust, one a line, from standard input to standard output.

use std::io::{self, BufRead, Write};

fn main() -> io::Result<()> {
    oracle::silence_panics();
    let mut out = io::stdout().lock();
    for line in io::stdin().lock().lines() {
        writeln!(out, "{}", oracle::protocol::answer(&line?))?;
        out.flush()?;
    }
    Ok(())
}
