//! One input for both programs: several histories, and how it arrives.

use twin::{LINE_MAX, Refusal};

use crate::coverage::Coverage;
use crate::generator::Generator;
use crate::places::Part;
use crate::program::PIECE_MOST;
use crate::random::Random;

pub struct Batch {
    pub input: Vec<u8>,
    /// The lengths in which the input is written; none for all at once.
    pub pieces: Vec<usize>,
    pub lines: u64,
    pub coverage: Coverage,
}

impl Batch {
    /// Batch `number` of a run with this seed.
    pub fn new(seed: u64, number: u64) -> Batch {
        let mut generator = Generator::new(Random::part(seed, number));
        if number % 40 == 5 {
            generator.unborn(2000);
        } else if number % 20 == 4 {
            generator.history(200);
            generator.short_lines();
            generator.history(200);
        } else {
            fill(&mut generator);
        }
        end(&mut generator, number);
        let Generator {
            mut random,
            input,
            lines,
            mut coverage,
            ..
        } = generator;
        let pieces = if number % 40 == 4 {
            vec![PIECE_MOST; input.len().div_ceil(PIECE_MOST)]
        } else if number % 2 == 1 {
            pieces(&mut random, input.len())
        } else {
            Vec::new()
        };
        count_pieces(&mut coverage, &pieces);
        let many = many_answers(&input, &pieces);
        let name = "over 262,144 bytes of answers to 69,632 bytes of input";
        coverage.add(Part::Cuts, name, many);
        Batch {
            input,
            pieces,
            lines,
            coverage,
        }
    }
}

fn fill(generator: &mut Generator) {
    let wanted = generator.random.between(10_000, 30_000);
    if generator.random.once_in(2) {
        let lines = generator.random.between(1, 60);
        generator.unborn(lines);
    }
    let conflicts = 256 * generator.random.between(1, 3) + generator.random.below(10);
    generator.quarrel(conflicts);
    while generator.lines < wanted {
        let lines = generator.random.between(5, 400);
        generator.history(lines);
    }
}

/// The last line: ended, or unended and in the form, or not, or too long.
fn end(generator: &mut Generator, number: u64) {
    let malformed = number % 3 == 2;
    while (generator.answer == Err(Refusal::LineNotInForm)) != malformed {
        if malformed {
            generator.broken_line();
        } else {
            generator.line();
        }
    }
    let name = match number % 6 {
        0 | 3 => return generator.coverage.meet(Part::Cuts, "last lines ended"),
        1 | 4 => "last lines unended, in the form",
        2 => "last lines unended, malformed",
        _ => "last lines unended, too long",
    };
    generator.coverage.meet(Part::Cuts, name);
    generator.input.pop();
    if number % 6 == 5 {
        let length = generator.random.between(LINE_MAX as u64 + 1, 70_000) as usize;
        generator.input.extend(std::iter::repeat_n(b'7', length));
    }
}

/// How many pieces, or reads of 69,632 bytes, end so many lines that their
/// answers, of at least 10 bytes each, take over 262,144 bytes.
pub fn many_answers(input: &[u8], pieces: &[usize]) -> u64 {
    let length = match pieces {
        [] => 69_632,
        [PIECE_MOST, ..] => PIECE_MOST,
        _ => return 0,
    };
    let many = |part: &&[u8]| part.iter().filter(|byte| **byte == b'\n').count() > 26_214;
    input.chunks(length).filter(many).count() as u64
}

/// Lengths from 1 byte to 32 KiB, each order of size as likely as the others,
/// now and then a run of single bytes.
pub fn pieces(random: &mut Random, length: usize) -> Vec<usize> {
    let mut pieces = Vec::new();
    let mut left = length;
    while left > 0 {
        let most = 1 << random.below(16);
        let times = if most == 1 { random.between(1, 60) } else { 1 };
        for _ in 0..times {
            let piece = (random.between(1, most) as usize).min(left);
            if piece > 0 {
                pieces.push(piece);
            }
            left -= piece;
        }
    }
    pieces
}

fn count_pieces(coverage: &mut Coverage, pieces: &[usize]) {
    if pieces.is_empty() {
        return;
    }
    coverage.meet(Part::Cuts, "inputs in pieces");
    coverage.add(Part::Cuts, "pieces", pieces.len() as u64);
    let single = pieces.iter().filter(|piece| **piece == 1).count();
    coverage.add(Part::Cuts, "pieces of 1 byte", single as u64);
}
