//! A fixed set of lines for the gate: few, but chosen so that they reach as
//! many places as that number permits.

use twin::{Address, Hardware, Time};

use crate::Call;
use crate::compare::expected;
use crate::coverage::Coverage;
use crate::generator::Generator;
use crate::places::Part;
use crate::random::Random;

pub const SEED: u64 = 5227;
pub const LINES: u64 = 4000;

/// Histories to choose from.
const POOL: u64 = 6000;

/// Lines before the first fresh, and how many such beginnings to choose from.
const UNBORN: u64 = 100;
const FIRSTS: u64 = 50;

/// Conflicts in one history of many.
const QUARREL: u64 = 260;

/// A history and the places that it reaches.
struct Candidate {
    input: Vec<u8>,
    lines: u64,
    coverage: Coverage,
    /// The numbers of the places reached.
    places: Vec<usize>,
}

impl Candidate {
    /// How many of the pairs of refusals it reaches.
    fn pairs(&self) -> usize {
        let counts = &self.coverage.tables[Part::Pairs as usize].counts;
        counts.iter().filter(|count| **count > 0).count()
    }
}

pub struct Fixed {
    pub input: Vec<u8>,
    pub lines: u64,
    pub coverage: Coverage,
}

impl Fixed {
    /// About `lines` lines, the last of them unended.
    pub fn new(lines: u64) -> Fixed {
        let first = (0..FIRSTS)
            .map(unborn)
            .max_by_key(|first| (first.pairs(), first.places.len()));
        let mut fixed = Fixed {
            input: Vec::new(),
            lines: 0,
            coverage: Coverage::new(),
        };
        first.into_iter().for_each(|first| fixed.take(first));
        fixed.take(quarrel());
        let mut pool: Vec<Candidate> = (0..POOL).map(history).collect();
        while fixed.lines < lines {
            let Some(best) = fixed.best(&pool, lines - fixed.lines) else {
                break;
            };
            fixed.take(pool.swap_remove(best));
        }
        fixed.end();
        fixed
    }

    /// The first two calls of the whole case, the second unended.
    fn end(&mut self) {
        let hardware = Hardware(0x0200_0000_000a);
        Call::Fresh { hardware }.write(&mut self.input);
        self.input.push(b'\n');
        let ask = Call::Ask {
            time: Time(100),
            address: Address::from_bytes([192, 0, 2, 7]),
            policy: 2,
            draw: 500,
        };
        ask.write(&mut self.input);
        self.lines += 2;
    }

    /// The twin's answers.
    pub fn answers(&self) -> Vec<u8> {
        expected(&self.input)
    }

    /// The places not reached, cuts aside: one input has none.
    pub fn missed(&self) -> Vec<String> {
        let mut missed = self.coverage.missed();
        missed.retain(|place| !place.starts_with("Cuts"));
        missed
    }

    /// The history that gains most for its length.
    fn best(&self, pool: &[Candidate], room: u64) -> Option<usize> {
        let counts: Vec<u64> = self.coverage.counts().collect();
        let gain = |candidate: &Candidate| {
            let value = |place: &usize| match counts[*place] {
                0 => 50_000_000,
                count => 1_000_000u64 >> (4 * count).min(20),
            };
            let sum: u64 = candidate.places.iter().map(value).sum();
            sum / (candidate.lines * 60 + candidate.input.len() as u64)
        };
        let fitting = pool
            .iter()
            .enumerate()
            .filter(|(_, candidate)| candidate.lines <= room);
        fitting
            .max_by_key(|(place, candidate)| (gain(candidate), usize::MAX - place))
            .map(|(place, _)| place)
    }

    fn take(&mut self, candidate: Candidate) {
        self.input.extend_from_slice(&candidate.input);
        self.lines += candidate.lines;
        self.coverage.merge(&candidate.coverage);
    }
}

/// Lines before the first fresh.
fn unborn(number: u64) -> Candidate {
    let mut generator = Generator::new(Random::part(!SEED, number));
    generator.unborn(UNBORN);
    candidate(generator)
}

/// A history in which a count of 8 bits would begin anew.
fn quarrel() -> Candidate {
    let mut generator = Generator::new(Random::new(SEED));
    generator.quarrel(QUARREL);
    candidate(generator)
}

fn history(number: u64) -> Candidate {
    let mut generator = Generator::new(Random::part(SEED, number));
    let lines = generator.random.between(6, 150);
    generator.history(lines);
    candidate(generator)
}

fn candidate(generator: Generator) -> Candidate {
    let Generator {
        input,
        lines,
        coverage,
        ..
    } = generator;
    let places = coverage
        .counts()
        .enumerate()
        .filter(|(_, count)| *count > 0);
    let places = places.map(|(place, _)| place).collect();
    Candidate {
        input,
        lines,
        coverage,
        places,
    }
}
