//! The ways in which a line can be changed.

use std::ops::Range;

use crate::random::Random;

/// Any byte but 10, which would end the line.
pub fn any_byte(random: &mut Random) -> u8 {
    let byte = match random.below(3) {
        0 => random.byte(),
        1 => random.pick(b"\t\t .-+0123456789abcdefx"),
        _ => random.between(32, 126) as u8,
    };
    if byte == b'\n' { 11 } else { byte }
}

/// A byte that a careless test takes for a digit.
pub fn like_digit(random: &mut Random, digit: u8) -> u8 {
    random.pick(&[
        b'/',
        b':',
        digit - b'0',
        digit | 0x80,
        digit ^ 0x10,
        digit ^ 0x40,
    ])
}

/// Puts bytes somewhere into the line; none given, one by chance.
pub fn insert(random: &mut Random, line: &mut Vec<u8>, bytes: &[u8]) {
    let place = random.index(line.len() + 1);
    let chance = [any_byte(random)];
    let bytes = if bytes.is_empty() { &chance } else { bytes };
    line.splice(place..place, bytes.iter().copied());
}

/// Where each field stands, the word included.
pub fn fields(line: &[u8]) -> Vec<Range<usize>> {
    let mut start = 0;
    let mut found = Vec::new();
    for field in line.split(|byte| *byte == b'\t') {
        found.push(start..start + field.len());
        start += field.len() + 1;
    }
    found
}

/// A field that is not the word.
pub fn any_field(random: &mut Random, line: &[u8]) -> Range<usize> {
    let all = fields(line);
    all[1 + random.index(all.len() - 1)].clone()
}

pub fn any_tab(random: &mut Random, line: &[u8]) -> usize {
    any_field(random, line).start - 1
}

pub fn any_dot(random: &mut Random, line: &[u8]) -> usize {
    let dots: Vec<usize> = (0..line.len())
        .filter(|place| line[*place] == b'.')
        .collect();
    random.pick(&dots)
}

pub fn set_word(line: &mut Vec<u8>, word: &str) {
    let place = fields(line)[0].clone();
    line.splice(place, word.bytes());
}

pub fn set_field(line: &mut Vec<u8>, field: usize, text: &str) {
    let place = fields(line)[field].clone();
    line.splice(place, text.bytes());
}

pub fn set_last(line: &mut Vec<u8>, text: &str) {
    let last = fields(line).len() - 1;
    set_field(line, last, text);
}

pub fn before_field(random: &mut Random, line: &mut Vec<u8>, byte: u8) {
    let place = any_field(random, line).start;
    line.insert(place, byte);
}

/// Changes one of the four parts of an ask's address.
pub fn change_part(random: &mut Random, line: &mut Vec<u8>, change: fn(&str) -> String) {
    let place = fields(line)[2].clone();
    let text = String::from_utf8_lossy(&line[place]).into_owned();
    let mut parts: Vec<String> = text.split('.').map(String::from).collect();
    let chosen = random.index(parts.len());
    parts[chosen] = change(&parts[chosen]);
    set_field(line, 2, &parts.join("."));
}

pub fn digits(random: &mut Random, count: usize) -> String {
    let first = char::from(random.pick(b"123456789"));
    let rest = (1..count).map(|_| char::from(random.pick(b"0123456789")));
    std::iter::once(first).chain(rest).collect()
}

/// Brings the last field back to its count of digits.
pub fn pad_hex(line: &mut Vec<u8>, start: usize, count: usize) {
    line.resize(start + count, b'0');
}

/// Lengthens a packet's bytes to this many digits.
pub fn hex_digits(random: &mut Random, line: &mut Vec<u8>, count: usize) {
    let start = fields(line).pop().map_or(0, |field| field.start);
    line.truncate(start + count);
    while line.len() < start + count {
        line.push(random.pick(b"0123456789abcdef"));
    }
}

/// Lengthens a line by bytes put before it, so that its end, taken for a line
/// by itself, would be in the form.
pub fn fill(line: &mut Vec<u8>, length: usize) {
    let missing = length.saturating_sub(line.len());
    line.splice(0..0, std::iter::repeat_n(b'1', missing));
}
