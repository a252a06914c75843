//! "Replay lines": the forms of a record and of its fields.

use std::fmt::Arguments;
use std::io::Write;

use crate::hex;
use crate::numbers::{Address, Hardware, Time};

/// "At most 4,096 bytes before" byte 10.
pub const LINE_MAX: usize = 4_096;
/// "An even count of digits from 0 to 3,000."
pub const DIGITS_MAX: usize = 3_000;
/// "Hardware exactly 12 digits."
const HARDWARE_DIGITS: usize = 12;
const TAB: u8 = b'\t';

/// The words that lines begin with.
pub const WORDS: [&str; 5] = ["fresh", "ask", "tick", "packet", "drop"];

/// A call and its arguments, as a line gives them. `B` is what a packet's bytes
/// are kept as.
#[derive(Clone, Copy, Debug, PartialEq, Eq)]
pub enum Call<B> {
    Fresh {
        hardware: Hardware,
    },
    Ask {
        time: Time,
        address: Address,
        policy: u64,
        draw: u32,
    },
    Tick {
        time: Time,
        draw: u32,
    },
    Packet {
        time: Time,
        bytes: B,
    },
    Drop {
        time: Time,
        slot: u64,
    },
}

/// A packet's digits, a part of the line, tested but not yet decoded.
#[derive(Clone, Copy, Debug, PartialEq, Eq)]
pub struct Digits<'a>(pub(crate) &'a [u8]);

impl<B> Call<B> {
    /// What its line begins with.
    pub fn word(&self) -> &'static str {
        let place = match self {
            Call::Fresh { .. } => 0,
            Call::Ask { .. } => 1,
            Call::Tick { .. } => 2,
            Call::Packet { .. } => 3,
            Call::Drop { .. } => 4,
        };
        WORDS[place]
    }

    /// Its time; a fresh has none.
    pub fn time(&self) -> Option<Time> {
        match *self {
            Call::Fresh { .. } => None,
            Call::Ask { time, .. }
            | Call::Tick { time, .. }
            | Call::Packet { time, .. }
            | Call::Drop { time, .. } => Some(time),
        }
    }

    /// The same, to be changed.
    pub fn time_mut(&mut self) -> Option<&mut Time> {
        match self {
            Call::Fresh { .. } => None,
            Call::Ask { time, .. }
            | Call::Tick { time, .. }
            | Call::Packet { time, .. }
            | Call::Drop { time, .. } => Some(time),
        }
    }
}

impl<B: AsRef<[u8]>> Call<B> {
    /// Appends the line, without its byte 10.
    pub fn write(&self, line: &mut Vec<u8>) {
        line.extend_from_slice(self.word().as_bytes());
        if let Some(Time(time)) = self.time() {
            put(line, format_args!("\t{time}"));
        }
        match self {
            Call::Fresh { hardware } => put(line, format_args!("\t{hardware}")),
            Call::Ask {
                address,
                policy,
                draw,
                ..
            } => put(line, format_args!("\t{address}\t{policy}\t{draw}")),
            Call::Tick { draw, .. } => put(line, format_args!("\t{draw}")),
            Call::Packet { bytes, .. } => {
                line.push(TAB);
                hex::write(bytes.as_ref(), line);
            }
            Call::Drop { slot, .. } => put(line, format_args!("\t{slot}")),
        }
    }
}

impl<'a> Call<Digits<'a>> {
    /// Reads a line without its byte 10. None: not in the form.
    #[inline]
    pub fn read(line: &'a [u8]) -> Option<Self> {
        if line.len() > LINE_MAX {
            return None;
        }
        match line {
            [b't', b'i', b'c', b'k', TAB, fields @ ..] => tick(line, fields),
            [b'p', b'a', b'c', b'k', b'e', b't', TAB, fields @ ..] => packet(fields),
            [b'a', b's', b'k', TAB, fields @ ..] => ask(line, fields),
            [b'd', b'r', b'o', b'p', TAB, fields @ ..] => drop(line, fields),
            [b'f', b'r', b'e', b's', b'h', TAB, fields @ ..] => fresh(fields),
            _ => None,
        }
    }
}

fn put(line: &mut Vec<u8>, fields: Arguments) {
    line.write_fmt(fields).expect("memory takes all");
}

#[inline]
fn fresh<'a>(fields: &[u8]) -> Option<Call<Digits<'a>>> {
    let in_form = fields.len() == HARDWARE_DIGITS && hex::is_hex(fields);
    in_form.then(|| Call::Fresh {
        hardware: Hardware(hex::number(fields)),
    })
}

#[inline]
fn ask<'a>(line: &[u8], fields: &[u8]) -> Option<Call<Digits<'a>>> {
    let (time, fields) = number_before(TAB, fields)?;
    let (address, fields) = address_before_tab(fields)?;
    let (policy, fields) = number_before(TAB, fields)?;
    Some(Call::Ask {
        time: Time(time),
        address,
        policy,
        draw: last_draw(line, fields)?,
    })
}

#[inline]
fn tick<'a>(line: &[u8], fields: &[u8]) -> Option<Call<Digits<'a>>> {
    let (time, fields) = number_before(TAB, fields)?;
    Some(Call::Tick {
        time: Time(time),
        draw: last_draw(line, fields)?,
    })
}

#[inline]
fn packet(fields: &[u8]) -> Option<Call<Digits<'_>>> {
    let (time, digits) = number_before(TAB, fields)?;
    let in_form =
        digits.len() <= DIGITS_MAX && digits.len().is_multiple_of(2) && hex::is_hex(digits);
    in_form.then_some(Call::Packet {
        time: Time(time),
        bytes: Digits(digits),
    })
}

#[inline]
fn drop<'a>(line: &[u8], fields: &[u8]) -> Option<Call<Digits<'a>>> {
    let (time, fields) = number_before(TAB, fields)?;
    Some(Call::Drop {
        time: Time(time),
        slot: last_number(line, fields)?,
    })
}

/// "Draws up to 2^32 - 1."
#[inline]
fn last_draw(line: &[u8], text: &[u8]) -> Option<u32> {
    u32::try_from(last_number(line, text)?).ok()
}

/// "Four such numbers up to 255, parted by dots."
#[inline]
fn address_before_tab(text: &[u8]) -> Option<(Address, &[u8])> {
    let (first, text) = part_before(b'.', text)?;
    let (second, text) = part_before(b'.', text)?;
    let (third, text) = part_before(b'.', text)?;
    let (fourth, text) = part_before(TAB, text)?;
    Some((Address::from_bytes([first, second, third, fourth]), text))
}

#[inline]
fn part_before(end: u8, text: &[u8]) -> Option<(u8, &[u8])> {
    let (number, rest) = number_before(end, text)?;
    Some((u8::try_from(number).ok()?, rest))
}

/// The number that reaches up to the byte `end`, and the text after it.
#[inline]
fn number_before(end: u8, text: &[u8]) -> Option<(u64, &[u8])> {
    match leading_number(text)? {
        (number, [byte, rest @ ..]) if *byte == end => Some((number, rest)),
        _ => None,
    }
}

/// The number in `text`, the last field of `line`.
#[inline]
fn last_number(line: &[u8], text: &[u8]) -> Option<u64> {
    if let (Some(tail), 1..=16) = (line.last_chunk(), text.len()) {
        return number_at_end(tail, text);
    }
    match leading_number(text)? {
        (number, []) => Some(number),
        _ => None,
    }
}

/// The number in `text`, the last 1 to 16 bytes of `tail`, all at once.
#[inline]
fn number_at_end(tail: &[u8; 16], text: &[u8]) -> Option<u64> {
    let before = 8 * (16 - text.len());
    let values = (digit_values(u128::from_le_bytes(*tail)) >> before) << before;
    let (first, second) = (values as u64, (values >> 64) as u64);
    let in_form =
        foreign_bytes(first) | foreign_bytes(second) == 0 && (text.len() == 1 || text[0] != b'0');
    in_form.then(|| eight_digits(first) * 100_000_000 + eight_digits(second))
}

/// Any number of this many digits is below 2^64.
const SAFE_DIGITS: usize = 19;

/// The number that the text begins with, up to its first foreign byte, and the
/// rest from there: "digits 0 to 9 only, no leading zero except for 0 itself",
/// up to 2^64 - 1.
#[inline]
fn leading_number(text: &[u8]) -> Option<(u64, &[u8])> {
    let (mut number, mut count) = text.first_chunk().map_or((0, 0), up_to_eight_digits);
    while let Some(digit) = digit_at(text, count) {
        number = if count < SAFE_DIGITS {
            number * 10 + digit
        } else {
            number.checked_mul(10)?.checked_add(digit)?
        };
        count += 1;
    }
    let is_number = count == 1 || (count > 1 && text[0] != b'0');
    is_number.then(|| (number, &text[count..]))
}

/// The number that eight bytes begin with, and the count of its digits.
#[inline]
fn up_to_eight_digits(text: &[u8; 8]) -> (u64, usize) {
    let values = digit_values(u128::from(u64::from_le_bytes(*text))) as u64;
    let count = foreign_bytes(values).trailing_zeros() as usize / 8;
    if count == 0 {
        return (0, 0);
    }
    (eight_digits(values << (64 - 8 * count)), count)
}

const EACH: u64 = 0x0101_0101_0101_0101;

/// Turns the bytes of digits into their values, and others into no values.
#[inline]
fn digit_values(text: u128) -> u128 {
    text ^ u128::from_le_bytes([b'0'; 16])
}

/// Zero if every byte is a digit's value; else the lowest bit set belongs to
/// the lowest byte that is not.
#[inline]
fn foreign_bytes(values: u64) -> u64 {
    (values.wrapping_add(EACH * 0x76) | values) & (EACH << 7)
}

/// The number of eight digits' values, the first in the lowest byte: pairs,
/// then fours, then all eight.
#[inline]
fn eight_digits(values: u64) -> u64 {
    let pairs = (values.wrapping_mul(10 << 8 | 1) >> 8) & 0x00ff_00ff_00ff_00ff;
    let fours = (pairs.wrapping_mul(100 << 16 | 1) >> 16) & 0x0000_ffff_0000_ffff;
    // The first four lie low, the last four high.
    fours.wrapping_mul(10_000 << 32 | 1) >> 32
}

#[inline]
fn digit_at(text: &[u8], at: usize) -> Option<u64> {
    let digit = text.get(at)?.wrapping_sub(b'0');
    (digit <= 9).then_some(u64::from(digit))
}
