//! Writes a mixed history of replay lines, as a ward's log would have them:
//! history LINES SEED.
//!
//! It keeps a port of its own, so that most lines mean something in the state
//! that the lines before them made.

mod random;
mod ward;

use std::io::{self, BufWriter, ErrorKind, Write};
use std::process::ExitCode;

use ward::Ward;

fn main() -> ExitCode {
    let words = std::env::args().skip(1);
    let options: Result<Vec<u64>, _> = words.map(|word| word.parse()).collect();
    let Ok(&[lines, seed]) = options.as_deref() else {
        eprintln!("usage: history LINES SEED (two whole numbers)");
        return ExitCode::from(2);
    };
    match write(lines, seed) {
        Ok(()) => ExitCode::SUCCESS,
        // Nobody reads the lines any more: there is nothing left to do.
        Err(error) if error.kind() == ErrorKind::BrokenPipe => ExitCode::SUCCESS,
        Err(error) => {
            eprintln!("history: cannot write standard output: {error}");
            ExitCode::FAILURE
        }
    }
}

fn write(lines: u64, seed: u64) -> io::Result<()> {
    let mut output = BufWriter::with_capacity(64 * 1024, io::stdout().lock());
    let mut ward = Ward::new(seed);
    let mut line = Vec::new();
    for _ in 0..lines {
        line.clear();
        ward.write_line(&mut line);
        line.push(b'\n');
        output.write_all(&line)?;
    }
    output.flush()
}
