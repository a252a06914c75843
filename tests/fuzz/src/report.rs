//! A difference made readable.

use std::fmt::Write;
use std::time::{Duration, Instant};

use crate::compare::{Difference, differ};
use crate::program::{Program, SHORT_PATIENCE};
use crate::shrink::shrink;

/// A difference and the shortest input found that shows it.
#[derive(Debug)]
pub struct Finding {
    pub input: Vec<u8>,
    /// The lengths in which the input has to be written; none for all at once.
    pub pieces: Vec<usize>,
    pub difference: Difference,
    /// False if it didn't show again.
    pub shown_again: bool,
}

/// Shrinks the input for at most this long.
pub fn find_shortest(
    program: &dyn Program,
    input: &[u8],
    pieces: &[usize],
    difference: Difference,
    time: Duration,
) -> Finding {
    let until = Instant::now() + time;
    let differs = |pieces: &[usize]| differ(program, input, pieces, SHORT_PATIENCE).is_some();
    if differs(&[]) {
        return shortest(program, input, until, difference, |_| Vec::new());
    }
    if differs(&vec![1; input.len()]) {
        return shortest(program, input, until, difference, |length| vec![1; length]);
    }
    let shown_again = differs(pieces);
    Finding {
        input: input.to_vec(),
        pieces: pieces.to_vec(),
        difference,
        shown_again,
    }
}

fn shortest(
    program: &dyn Program,
    input: &[u8],
    until: Instant,
    difference: Difference,
    pieces: fn(usize) -> Vec<usize>,
) -> Finding {
    let again = |input: &[u8]| differ(program, input, &pieces(input.len()), SHORT_PATIENCE);
    let mut differs = |input: &[u8]| again(input).is_some();
    let start = up_to_line(input, difference.line);
    let start = if differs(start) { start } else { input };
    let input = shrink(start, &mut differs, until);
    let again = again(&input);
    let pieces = pieces(input.len());
    let shown_again = again.is_some();
    Finding {
        input,
        pieces,
        difference: again.unwrap_or(difference),
        shown_again,
    }
}

/// The input up to and with this line.
fn up_to_line(input: &[u8], line: usize) -> &[u8] {
    let ends = input.iter().enumerate().filter(|(_, byte)| **byte == b'\n');
    match ends.map(|(place, _)| place + 1).nth(line) {
        Some(end) => &input[..end],
        None => input,
    }
}

/// What is printed.
pub fn text(finding: &Finding, seed: u64, file: &str) -> String {
    let Finding {
        input,
        pieces,
        difference,
        shown_again,
    } = finding;
    let mut text = String::new();
    let _ = writeln!(
        text,
        "A DIFFERENCE, seed {seed}. Shortest history found, saved as {file}; \
         its difference may be another than the one met first:"
    );
    for line in input.split_inclusive(|byte| *byte == b'\n') {
        let _ = writeln!(text, "    {}", escaped(line));
    }
    let _ = writeln!(text, "Answer {}:", difference.line + 1);
    let _ = writeln!(text, "    twin    {}", escaped(&difference.twin));
    let _ = writeln!(text, "    program {}", escaped(&difference.program));
    if !difference.trouble.is_empty() {
        let _ = writeln!(text, "The program {}", difference.trouble);
    }
    if !pieces.is_empty() {
        let _ = writeln!(
            text,
            "Written in pieces of these lengths: {}",
            lengths(pieces)
        );
    }
    if !shown_again {
        let _ = writeln!(
            text,
            "It didn't show again when the same input was fed once more."
        );
    }
    text
}

fn lengths(pieces: &[usize]) -> String {
    if pieces.iter().all(|piece| *piece == 1) {
        return "1 each".into();
    }
    let shown: Vec<String> = pieces.iter().take(200).map(usize::to_string).collect();
    shown.join(" ")
}

/// Bytes as text that can be pasted: `\t`, `\n`, `\\`, `\xNN`, the rest plain.
pub fn escaped(bytes: &[u8]) -> String {
    let mut text = String::new();
    for byte in bytes {
        match byte {
            b'\t' => text.push_str("\\t"),
            b'\n' => text.push_str("\\n"),
            b'\\' => text.push_str("\\\\"),
            32..=126 => text.push(char::from(*byte)),
            _ => {
                let _ = write!(text, "\\x{byte:02x}");
            }
        }
    }
    text
}
