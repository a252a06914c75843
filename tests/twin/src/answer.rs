//! "Output per line": an answer as text, fields parted by tabs.

use crate::calls::{Answer, Kind};
use crate::frame::FRAME_LEN;
use crate::hex;
use crate::numbers::Time;
use crate::refusal::Refusal;

/// Longer than any answer: `ok`, the longest kind, a slot, 15 digits (written
/// as 16 bytes) and a frame.
const ANSWER_ROOM: usize = 96;

/// Appends `refused`, the number and byte 10.
#[inline]
pub(crate) fn write_refusal(refusal: Refusal, out: &mut Vec<u8>) {
    let number = refusal.number();
    let (tens, ones) = (b'0' + number / 10, b'0' + number % 10);
    match number {
        10.. => out.extend_from_slice(&[
            b'r', b'e', b'f', b'u', b's', b'e', b'd', b'\t', tens, ones, b'\n',
        ]),
        _ => out.extend_from_slice(&[b'r', b'e', b'f', b'u', b's', b'e', b'd', b'\t', ones, b'\n']),
    }
}

/// Appends `ok`, kind, slot, next deadline, frame in hex, and byte 10, "with
/// `-` for none".
#[inline]
pub(crate) fn write_answer(answer: &Answer, frame: &[u8; FRAME_LEN], out: &mut Vec<u8>) {
    let mut text = Text::new();
    let (words, count) = opening(answer.kind);
    text.put_first(words, count);
    text.put(&[slot_digit(answer.slot), b'\t']);
    text.put_deadline(answer.next);
    if answer.kind.has_frame() {
        text.put(b"\t");
        text.put(&hex::encode(frame));
        text.put(b"\n");
    } else {
        text.put(b"\t-\n");
    }
    out.extend_from_slice(text.as_bytes());
}

impl Kind {
    /// The kind in an answer's text.
    pub fn word(self) -> &'static str {
        let (words, count) = opening(self);
        str::from_utf8(&words[3..count - 1]).expect("a kind is a word")
    }
}

/// `ok`, the kind and their tabs, filled up to a fixed width, and their count.
#[inline]
fn opening(kind: Kind) -> (&'static [u8; 12], usize) {
    match kind {
        Kind::Fresh => (b"ok\tfresh\t...", 9),
        Kind::Taken => (b"ok\ttaken\t...", 9),
        Kind::Nothing => (b"ok\tnone\t....", 8),
        Kind::Probe => (b"ok\tprobe\t...", 9),
        Kind::Announce => (b"ok\tannounce\t", 12),
        Kind::Defend => (b"ok\tdefend\t..", 10),
        Kind::Lost => (b"ok\tlost\t....", 8),
        Kind::Kept => (b"ok\tkept\t....", 8),
        Kind::Dropped => (b"ok\tdropped\t.", 11),
    }
}

#[inline]
fn slot_digit(slot: Option<usize>) -> u8 {
    match slot {
        Some(slot) => b'0' + slot as u8,
        None => b'-',
    }
}

/// An answer in the making.
struct Text {
    bytes: [u8; ANSWER_ROOM],
    len: usize,
}

impl Text {
    #[inline]
    fn new() -> Text {
        Text {
            bytes: [0; ANSWER_ROOM],
            len: 0,
        }
    }

    #[inline]
    fn put(&mut self, part: &[u8]) {
        self.bytes[self.len..self.len + part.len()].copy_from_slice(part);
        self.len += part.len();
    }

    /// Puts the first `count` bytes of a part, by a copy of fixed width.
    #[inline]
    fn put_first<const WIDTH: usize>(&mut self, part: &[u8; WIDTH], count: usize) {
        self.bytes[self.len..self.len + WIDTH].copy_from_slice(part);
        self.len += count;
    }

    #[inline]
    fn put_deadline(&mut self, deadline: Option<Time>) {
        match deadline {
            None => self.put(b"-"),
            Some(Time(ms)) => {
                let (digits, count) = decimal(ms);
                self.put_first(&digits, count);
            }
        }
    }

    #[inline]
    fn as_bytes(&self) -> &[u8] {
        &self.bytes[..self.len]
    }
}

const HALF: u64 = 100_000_000;

/// The decimal digits of a number below 10^16 (a deadline is at most the
/// range's end plus 2,000) at the start of the array, and their count.
#[inline]
fn decimal(number: u64) -> ([u8; 16], usize) {
    debug_assert!(number < HALF * HALF);
    let high = u128::from(eight_digits(number / HALF));
    let low = u128::from(eight_digits(number % HALF));
    // The first digit lies in the lowest byte.
    let digits = high | low << 64;
    let leading_zeros = (digits.trailing_zeros() / 8).min(15);
    let text = digits | u128::from_le_bytes([b'0'; 16]);
    let count = 16 - leading_zeros as usize;
    ((text >> (8 * leading_zeros)).to_le_bytes(), count)
}

/// The eight digits of a number below 10^8 as values, the first in the lowest
/// byte: halves, then pairs, then single digits, each by one division for all.
#[inline]
fn eight_digits(number: u64) -> u64 {
    let fours = (number / 10_000) | ((number % 10_000) << 32);
    let hundreds = ((fours * 10_486) >> 20) & 0x0000_007f_0000_007f;
    let pairs = hundreds | (fours - hundreds * 100) << 16;
    let tens = ((pairs * 103) >> 10) & 0x000f_000f_000f_000f;
    tens | (pairs - tens * 10) << 8
}

#[cfg(test)]
mod tests {
    use super::*;

    fn written(number: u64) -> String {
        let (digits, count) = decimal(number);
        String::from_utf8(digits[..count].to_vec()).unwrap()
    }

    #[test]
    fn every_four_digits_in_each_place() {
        for four in 0..10_000 {
            for power in [1, 10_000, 100_000_000, 1_000_000_000_000] {
                let number = four * power;
                assert_eq!(written(number), number.to_string());
                assert_eq!(
                    written(number + power - 1),
                    (number + power - 1).to_string()
                );
            }
        }
    }

    #[test]
    fn the_last_deadline() {
        assert_eq!(written(281_474_976_712_655), "281474976712655");
    }
}
