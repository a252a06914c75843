//! A replay program under test.

use std::io::{self, Read, Write};
use std::os::fd::OwnedFd;
use std::os::unix::net::UnixDatagram;
use std::path::PathBuf;
use std::process::{self, Child, Command, Stdio};
use std::sync::mpsc;
use std::thread;
use std::time::{Duration, Instant};

/// A program that takes longer than this for one batch hangs.
pub const PATIENCE: Duration = Duration::from_secs(20);

/// The same while a difference is shrunk.
pub const SHORT_PATIENCE: Duration = Duration::from_secs(2);

/// What each piece may take besides.
const PIECE_TIME: Duration = Duration::from_micros(50);

/// No piece is longer: a program with a smaller buffer would lose bytes.
pub const PIECE_MOST: usize = 32_768;

/// What a program did with an input.
#[derive(Clone, Debug, Default, PartialEq, Eq)]
pub struct Outcome {
    pub output: Vec<u8>,
    /// Empty if it ended by itself with status 0; else what happened.
    pub trouble: String,
    pub errors: Vec<u8>,
}

pub trait Program: Sync {
    /// Feeds the input in pieces of these lengths, or at once if there are
    /// none, and waits this long for the end.
    fn run(&self, input: &[u8], pieces: &[usize], patience: Duration) -> Outcome;
}

/// A program on disk, run as a child process.
pub struct OnDisk {
    pub program: PathBuf,
}

impl Program for OnDisk {
    fn run(&self, input: &[u8], pieces: &[usize], patience: Duration) -> Outcome {
        let patience = patience + PIECE_TIME * pieces.len() as u32;
        let outcome = if pieces.is_empty() {
            self.at_once(input, patience)
        } else {
            self.in_pieces(input, pieces, patience)
        };
        outcome.unwrap_or_else(|error| self.not_started(&error))
    }
}

impl OnDisk {
    /// Through a pipe.
    fn at_once(&self, input: &[u8], patience: Duration) -> io::Result<Outcome> {
        let mut child = self.start(Stdio::piped())?;
        let stdin = child.stdin.take();
        let feed = || {
            if let Some(mut pipe) = stdin {
                // A program that has gone is noticed elsewhere.
                let _ = pipe.write_all(input);
            }
        };
        Ok(talk(child, feed, patience))
    }

    /// Through a socket that keeps each piece apart: one read gets one piece.
    fn in_pieces(&self, input: &[u8], pieces: &[usize], patience: Duration) -> io::Result<Outcome> {
        let (ours, theirs) = UnixDatagram::pair()?;
        ours.set_write_timeout(Some(patience))?;
        let child = self.start(Stdio::from(OwnedFd::from(theirs)))?;
        let feed = || {
            let _ = send(&ours, input, pieces);
        };
        Ok(talk(child, feed, patience))
    }

    fn start(&self, stdin: Stdio) -> io::Result<Child> {
        Command::new(&self.program)
            .stdin(stdin)
            .stdout(Stdio::piped())
            .stderr(Stdio::piped())
            .spawn()
    }

    /// Ends the fuzzer: that a program can't be started is no difference.
    fn not_started(&self, error: &io::Error) -> ! {
        let program = self.program.display();
        // Written past eprintln, whose words a test would lose here.
        let _ = writeln!(
            io::stderr(),
            "The program {program} could not be started: {error}"
        );
        process::exit(2)
    }
}

/// Sends each piece by itself, then an empty one: the end of the input.
fn send(socket: &UnixDatagram, input: &[u8], pieces: &[usize]) -> io::Result<()> {
    let mut rest = input;
    for piece in pieces {
        let (now, later) = rest.split_at((*piece).min(rest.len()));
        for part in now.chunks(PIECE_MOST) {
            socket.send(part)?;
        }
        rest = later;
    }
    for part in rest.chunks(PIECE_MOST) {
        socket.send(part)?;
    }
    socket.send(&[])?;
    Ok(())
}

/// Writes and reads at the same time, so that neither side waits for ever.
fn talk(mut child: Child, feed: impl FnOnce() + Send, patience: Duration) -> Outcome {
    let stdout = child.stdout.take();
    let stderr = child.stderr.take();
    thread::scope(|scope| {
        scope.spawn(feed);
        let (ended, end) = mpsc::channel();
        let output = scope.spawn(move || {
            let bytes = read(stdout);
            let _ = ended.send(());
            bytes
        });
        let errors = scope.spawn(move || read(stderr));
        let _ = end.recv_timeout(patience);
        let trouble = finish(&mut child, patience);
        let output = output.join().unwrap_or_default();
        let errors = errors.join().unwrap_or_default();
        Outcome {
            output,
            trouble,
            errors,
        }
    })
}

fn read(pipe: Option<impl Read>) -> Vec<u8> {
    let mut bytes = Vec::new();
    if let Some(mut pipe) = pipe {
        let _ = pipe.read_to_end(&mut bytes);
    }
    bytes
}

/// Waits for the end, or ends a child that hangs; says what was wrong.
fn finish(child: &mut Child, patience: Duration) -> String {
    let until = Instant::now() + patience.min(Duration::from_secs(1));
    loop {
        match child.try_wait() {
            Ok(Some(status)) if status.success() => return String::new(),
            Ok(Some(status)) => return format!("ended with {status}"),
            Ok(None) if Instant::now() < until => thread::sleep(Duration::from_micros(50)),
            Ok(None) => break,
            Err(error) => return format!("was lost: {error}"),
        }
    }
    let _ = child.kill();
    let _ = child.wait();
    format!("did not end within {patience:?}")
}
