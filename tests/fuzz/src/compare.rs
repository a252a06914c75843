//! The comparison of a program with the twin.

use std::time::Duration;

use crate::program::{Outcome, Program};

/// The first place where a program and the twin part.
#[derive(Clone, Debug, PartialEq, Eq)]
pub struct Difference {
    /// The number of the answer, from 0.
    pub line: usize,
    pub twin: Vec<u8>,
    pub program: Vec<u8>,
    /// A bad end or a word on standard error; empty if there was none.
    pub trouble: String,
}

/// What the twin writes.
pub fn expected(input: &[u8]) -> Vec<u8> {
    let mut output = Vec::with_capacity(input.len());
    twin::replay(input, &mut output).expect("memory takes all");
    output
}

/// Runs both on the same input at the same time.
pub fn differ(
    program: &dyn Program,
    input: &[u8],
    pieces: &[usize],
    patience: Duration,
) -> Option<Difference> {
    let (twin, outcome) = std::thread::scope(|scope| {
        let running = scope.spawn(|| program.run(input, pieces, patience));
        let twin = expected(input);
        (twin, running.join().expect("the runner doesn't fail"))
    });
    compare(&twin, &outcome)
}

pub fn compare(twin: &[u8], outcome: &Outcome) -> Option<Difference> {
    let trouble = trouble(outcome);
    if twin == outcome.output && trouble.is_empty() {
        return None;
    }
    let mut ours = twin.split_inclusive(|byte| *byte == b'\n');
    let mut theirs = outcome.output.split_inclusive(|byte| *byte == b'\n');
    let mut line = 0;
    loop {
        let (mine, other) = (ours.next(), theirs.next());
        if mine != other || mine.is_none() {
            let text = |answer: Option<&[u8]>| answer.unwrap_or_default().to_vec();
            return Some(Difference {
                line,
                twin: text(mine),
                program: text(other),
                trouble,
            });
        }
        line += 1;
    }
}

fn trouble(outcome: &Outcome) -> String {
    let mut text = outcome.trouble.clone();
    if !outcome.errors.is_empty() {
        text.push_str(" standard error: ");
        text.push_str(&outcome.errors.escape_ascii().to_string());
    }
    text
}
