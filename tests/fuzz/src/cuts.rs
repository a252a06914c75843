//! Short histories, ended after each single byte, or cut in two there.

use crate::compare::{Difference, differ};
use crate::coverage::Coverage;
use crate::generator::Generator;
use crate::places::Part;
use crate::program::{PATIENCE, Program};
use crate::random::Random;

/// A history of a few hundred bytes.
pub fn short_history(seed: u64, number: u64) -> Vec<u8> {
    let mut generator = Generator::new(Random::part(!seed, number));
    if number.is_multiple_of(4) {
        generator.unborn(2);
    }
    generator.history(4);
    let mut input = generator.input;
    input.truncate(400);
    input
}

/// An input, the pieces in which it arrives, and what came of it.
pub struct Cut<'a> {
    pub input: &'a [u8],
    pub pieces: Vec<usize>,
    pub difference: Difference,
}

/// The first cut of the input on which the program and the twin differ.
pub fn at_each_byte<'a>(
    program: &dyn Program,
    input: &'a [u8],
    coverage: &mut Coverage,
) -> Option<Cut<'a>> {
    coverage.meet(Part::Cuts, "empty inputs");
    for length in 0..=input.len() {
        let found = cut(program, &input[..length], Vec::new());
        if found.is_some() {
            return found;
        }
        coverage.meet(Part::Cuts, "inputs ended after a byte");
    }
    for first in 1..input.len() {
        let found = cut(program, input, vec![first, input.len() - first]);
        if found.is_some() {
            return found;
        }
        coverage.meet(Part::Cuts, "inputs in two pieces, cut at a byte");
    }
    None
}

fn cut<'a>(program: &dyn Program, input: &'a [u8], pieces: Vec<usize>) -> Option<Cut<'a>> {
    let difference = differ(program, input, &pieces, PATIENCE)?;
    Some(Cut {
        input,
        pieces,
        difference,
    })
}
