//! Replays made of the twin, wrong in one way each.

use std::time::Duration;

use fuzz::batch::Batch;
use fuzz::compare::differ;
use fuzz::fuzz::{Bounds, Run, run};
use fuzz::program::{Outcome, PATIENCE, Program};
use fuzz::report::Finding;
use twin::Replay;

/// Changes the answer to a line.
pub type Change = Box<dyn FnMut(&[u8], &mut String)>;

/// The twin, but each answer goes through a change, made anew for each input.
pub struct Wrong(pub fn() -> Change);

impl Program for Wrong {
    fn run(&self, input: &[u8], _pieces: &[usize], _patience: Duration) -> Outcome {
        let mut change = (self.0)();
        let mut replay = Replay::new();
        let mut output = Vec::new();
        for line in input.split_inclusive(|byte| *byte == b'\n') {
            let mut answer = answer(&mut replay, line);
            change(line, &mut answer);
            output.extend_from_slice(answer.as_bytes());
        }
        Outcome {
            output,
            ..Outcome::default()
        }
    }
}

fn answer(replay: &mut Replay, line: &[u8]) -> String {
    let mut answer = Vec::new();
    match line.strip_suffix(b"\n") {
        Some(line) => replay.answer(line, &mut answer),
        None => answer.extend_from_slice(b"refused\t14\n"),
    }
    String::from_utf8(answer).expect("answers are text")
}

/// The twin itself, or a change of the whole outcome.
pub struct Whole(pub fn(&[u8], &[usize], &mut Outcome));

impl Program for Whole {
    fn run(&self, input: &[u8], pieces: &[usize], _patience: Duration) -> Outcome {
        let output = fuzz::compare::expected(input);
        let mut outcome = Outcome {
            output,
            ..Outcome::default()
        };
        (self.0)(input, pieces, &mut outcome);
        outcome
    }
}

pub fn fuzz(program: &dyn Program, lines: u64) -> Run {
    let time = Duration::from_secs(60);
    let seed = 5227;
    run(program, &Bounds { seed, time, lines })
}

/// The finding that a wrong program has to give.
pub fn find(program: &dyn Program) -> Finding {
    fuzz(program, 300_000)
        .finding
        .expect("the wrong program is found out")
}

/// Whether a wrong program is found out, without shrinking.
pub fn is_found(program: &dyn Program) -> bool {
    let mut lines = 0;
    for number in 0.. {
        let batch = Batch::new(5227, number);
        if differ(program, &batch.input, &batch.pieces, PATIENCE).is_some() {
            return true;
        }
        lines += batch.lines;
        if lines > 300_000 {
            break;
        }
    }
    false
}

/// The lines of a finding's input.
pub fn lines(finding: &Finding) -> Vec<&[u8]> {
    finding
        .input
        .split_inclusive(|byte| *byte == b'\n')
        .collect()
}
