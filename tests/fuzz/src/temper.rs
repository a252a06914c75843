//! What a history is bent on. Histories of one temper alone would miss most
//! of the places that take many lines to reach.

use std::ops::RangeInclusive;

use twin::Time;

use crate::book::{ANNOUNCED, SETTLED};
use crate::random::Random;
use crate::values::WRAP;

/// The sorts of lines, in the order of `Temper::weights`.
#[derive(Clone, Copy, PartialEq, Eq)]
pub enum Sort {
    Ask,
    Tick,
    Meet,
    Drop,
    Fresh,
    Flawed,
    Broken,
}

const SORTS: [Sort; 7] = [
    Sort::Ask,
    Sort::Tick,
    Sort::Meet,
    Sort::Drop,
    Sort::Fresh,
    Sort::Flawed,
    Sort::Broken,
];

const PLAIN: [u32; 7] = [14, 50, 22, 2, 1, 5, 6];
const QUARREL: [u32; 7] = [12, 30, 48, 1, 0, 4, 5];
const CROWD: [u32; 7] = [25, 60, 5, 1, 0, 5, 4];
const WRONG: [u32; 7] = [15, 30, 15, 5, 4, 26, 5];
const BROKEN: [u32; 7] = [10, 30, 10, 3, 1, 6, 40];

#[derive(Clone)]
pub struct Temper {
    pub weights: [u32; 7],
    /// The policy most asked for.
    pub policy: Option<u64>,
    /// The stages in which packets are sent.
    pub stages: RangeInclusive<usize>,
    /// The time at which the history begins.
    pub start: Time,
    pub opening: Opening,
}

/// What a history does first.
#[derive(Clone, Copy, PartialEq, Eq)]
pub enum Opening {
    Tick,
    /// Ten claims, each lost at once.
    Losses,
    /// A claim in use that meets this many conflicts.
    Conflicts(u64),
}

impl Temper {
    pub fn new(random: &mut Random) -> Temper {
        let weights = random.pick(&[
            PLAIN, PLAIN, QUARREL, QUARREL, QUARREL, CROWD, WRONG, BROKEN,
        ]);
        let policy = if random.once_in(2) {
            Some(random.between(1, 3))
        } else {
            None
        };
        let stages = match random.index(12) {
            stage @ 0..=SETTLED => stage..=stage,
            6..=8 => 0..=SETTLED,
            _ => ANNOUNCED..=SETTLED,
        };
        let opening = match random.below(200) {
            0 => Opening::Conflicts(256 * random.between(1, 3) + random.below(10)),
            1..=16 => Opening::Losses,
            _ => Opening::Tick,
        };
        let start = Time(match random.below(20) {
            0 | 1 => Time::LAST.0 - random.below(150_000),
            2 => Time::LAST.0 - random.below(400),
            3..=5 => random.word() >> random.between(16, 63),
            6 => (1 << 31) - random.below(20_000),
            7 => WRAP - random.below(20_000),
            8 => WRAP * random.between(2, 65_535) - random.below(20_000),
            9..=11 => 0,
            _ => random.below(5000),
        });
        Temper {
            weights,
            policy,
            stages,
            start,
            opening,
        }
    }

    pub fn sort(&self, random: &mut Random) -> Sort {
        SORTS[random.weighted(self.weights.iter().copied())]
    }
}
