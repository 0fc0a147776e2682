//! hypot by the rule of SCOPE 1, of many pairs: two f64 of each on standard input, its answer on standard
//! output, 8 bytes each, the lowest first. Input that ends within a pair is told on standard error,
//! with status 2.

use std::io::{self, BufReader, BufWriter, Read, Write};
use std::process::ExitCode;

/// The bytes of an f64.
const NUMBER: usize = 8;

fn main() -> ExitCode {
    match answer_all() {
        Ok(0) => ExitCode::SUCCESS,
        Ok(over) => {
            eprintln!("ruled_hypots: the input ends within a pair, {over} bytes over");
            ExitCode::from(2)
        }
        Err(why) => {
            eprintln!("ruled_hypots: {why}");
            ExitCode::from(2)
        }
    }
}

/// Answers every pair, and gives the number of bytes that are left over.
fn answer_all() -> io::Result<usize> {
    let mut input = BufReader::with_capacity(1 << 16, io::stdin().lock());
    let mut out = BufWriter::with_capacity(1 << 16, io::stdout().lock());
    loop {
        let mut pair = Vec::with_capacity(2 * NUMBER);
        input
            .by_ref()
            .take(2 * NUMBER as u64)
            .read_to_end(&mut pair)?;
        if pair.len() < 2 * NUMBER {
            out.flush()?;
            return Ok(pair.len());
        }
        let [x, y] = [0, NUMBER].map(|at| number(&pair[at..at + NUMBER]));
        out.write_all(&oracle::hypot(x, y).to_le_bytes())?;
    }
}

fn number(bytes: &[u8]) -> f64 {
    f64::from_le_bytes(bytes.try_into().expect("eight bytes"))
}
