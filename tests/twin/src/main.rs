//! Replays standard input to standard output: twin [--trusting].

use std::fs::File;
use std::io::{self, ErrorKind, Read, Write};
use std::os::fd::AsFd;
use std::process::ExitCode;

use twin::Replay;

const USAGE: &str = "\
usage: twin [--trusting]
Reads lines from standard input and writes an answer to each. Every ask, tick,
packet and drop tests whether the state is sound; with --trusting none does once
a fresh was accepted.";

fn main() -> ExitCode {
    let words: Vec<_> = std::env::args_os().skip(1).collect();
    let replay = match words.as_slice() {
        [] => Replay::new(),
        [word] if word == "--trusting" => Replay::trusting(),
        _ => {
            eprintln!("{USAGE}");
            return ExitCode::from(2);
        }
    };
    match run(replay) {
        Ok(()) => ExitCode::SUCCESS,
        // Nobody reads the answers any more: there is nothing left to do.
        Err(error) if error.kind() == ErrorKind::BrokenPipe => ExitCode::SUCCESS,
        Err(error) => {
            eprintln!("twin: {error}");
            ExitCode::FAILURE
        }
    }
}

/// Replays over the bare handles, without the standard library's buffers.
fn run(replay: Replay) -> io::Result<()> {
    twin::replay_with(
        replay,
        Input(bare(io::stdin())?),
        Output(bare(io::stdout())?),
    )
}

/// Standard input, whose errors say so.
struct Input(File);

impl Read for Input {
    fn read(&mut self, bytes: &mut [u8]) -> io::Result<usize> {
        let read = self.0.read(bytes);
        read.map_err(|error| told("cannot read standard input", &error))
    }
}

/// Standard output, whose errors say so.
struct Output(File);

impl Write for Output {
    fn write(&mut self, bytes: &[u8]) -> io::Result<usize> {
        let written = self.0.write(bytes);
        written.map_err(|error| told("cannot write standard output", &error))
    }

    fn flush(&mut self) -> io::Result<()> {
        Ok(())
    }
}

fn told(what: &str, error: &io::Error) -> io::Error {
    io::Error::new(error.kind(), format!("{what}: {error}"))
}

fn bare(stream: impl AsFd) -> io::Result<File> {
    Ok(File::from(stream.as_fd().try_clone_to_owned()?))
}
