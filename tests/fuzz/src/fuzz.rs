//! A run: batch after batch until a bound is met or a difference is found.

use std::thread;
use std::time::{Duration, Instant};

use crate::batch::Batch;
use crate::compare::{Difference, differ};
use crate::coverage::Coverage;
use crate::cuts;
use crate::program::{PATIENCE, Program};
use crate::report::{Finding, find_shortest};

/// A run of at least this many lines has to reach every place.
pub const LINES_FOR_ALL_PLACES: u64 = 200_000;

/// How long a difference is shrunk.
const SHRINKING: Duration = Duration::from_secs(30);

pub struct Bounds {
    pub seed: u64,
    pub time: Duration,
    pub lines: u64,
}

#[derive(Default)]
pub struct Run {
    pub lines: u64,
    pub bytes: u64,
    pub batches: u64,
    pub elapsed: Duration,
    pub coverage: Coverage,
    pub finding: Option<Finding>,
}

impl Run {
    /// The places that a run of this length should have reached.
    pub fn missed(&self) -> Vec<String> {
        if self.lines < LINES_FOR_ALL_PLACES || self.finding.is_some() {
            return Vec::new();
        }
        self.coverage.missed()
    }
}

pub fn run(program: &dyn Program, bounds: &Bounds) -> Run {
    let start = Instant::now();
    let mut run = Run::default();
    let mut batch = Batch::new(bounds.seed, 0);
    while run.finding.is_none() && run.lines < bounds.lines && start.elapsed() < bounds.time {
        let next = whole(&mut run, program, &batch, bounds.seed);
        if run.batches % 40 == 3 && run.finding.is_none() {
            endings(&mut run, program, bounds.seed);
        }
        run.batches += 1;
        batch = next;
    }
    run.elapsed = start.elapsed();
    run
}

/// Compares one batch, and makes the next one meanwhile.
fn whole(run: &mut Run, program: &dyn Program, batch: &Batch, seed: u64) -> Batch {
    let number = run.batches + 1;
    let (next, found) = thread::scope(|scope| {
        let next = scope.spawn(move || Batch::new(seed, number));
        let found = differ(program, &batch.input, &batch.pieces, PATIENCE);
        (next.join().expect("a batch can be made"), found)
    });
    if let Some(difference) = found {
        run.finding = Some(shortest(program, &batch.input, &batch.pieces, difference));
    }
    run.lines += batch.lines;
    run.bytes += batch.input.len() as u64;
    run.coverage.merge(&batch.coverage);
    next
}

/// A short history, ended after each byte and cut in two there.
fn endings(run: &mut Run, program: &dyn Program, seed: u64) {
    let input = cuts::short_history(seed, run.batches / 40);
    if let Some(cut) = cuts::at_each_byte(program, &input, &mut run.coverage) {
        let found = shortest(program, cut.input, &cut.pieces, cut.difference);
        run.finding = Some(found);
    }
}

fn shortest(program: &dyn Program, input: &[u8], pieces: &[usize], found: Difference) -> Finding {
    find_shortest(program, input, pieces, found, SHRINKING)
}
