//! Lower-case hex, eight digits at a time in the bytes of one number.

use crate::frame::FRAME_LEN;

/// The digits of a frame.
pub(crate) const FRAME_DIGITS: usize = 2 * FRAME_LEN;

const EACH: u64 = 0x0101_0101_0101_0101;

/// Whether every byte is a digit 0 to 9 or a letter a to f.
#[inline]
pub(crate) fn is_hex(text: &[u8]) -> bool {
    let mut blocks = text.chunks_exact(16);
    let all = |block: &[u8]| block.iter().fold(true, |all, &byte| all & is_digit(byte));
    blocks.by_ref().all(all) && all(blocks.remainder())
}

#[inline]
fn is_digit(byte: u8) -> bool {
    (byte.wrapping_sub(b'0') < 10) | (byte.wrapping_sub(b'a') < 6)
}

/// The number of a hardware field: 12 hex digits.
#[inline]
pub(crate) fn number(digits: &[u8]) -> u64 {
    digits
        .iter()
        .fold(0, |number, &digit| number << 4 | u64::from(value(digit)))
}

#[inline]
fn value(digit: u8) -> u8 {
    (digit & 0x0f) + 9 * (digit >> 6)
}

/// Reads the bytes that an even count of hex digits stands for, at most the
/// first 28: no call reads further.
#[inline]
pub(crate) fn decode_head<'a>(digits: &[u8], bytes: &'a mut [u8; FRAME_LEN]) -> &'a [u8] {
    if let Some(head) = digits.first_chunk::<FRAME_DIGITS>() {
        for (four, eight) in bytes.as_chunks_mut().0.iter_mut().zip(head.as_chunks().0) {
            *four = decode_eight(*eight);
        }
        return bytes;
    }
    let count = digits.len() / 2;
    for (byte, pair) in bytes.iter_mut().zip(digits.as_chunks::<2>().0) {
        *byte = value(pair[0]) << 4 | value(pair[1]);
    }
    &bytes[..count]
}

/// Eight digits to four bytes: values first, then pairs, fours and eights.
#[inline]
fn decode_eight(digits: [u8; 8]) -> [u8; 4] {
    let text = u64::from_be_bytes(digits);
    let nibbles = (text & (EACH * 0x0f)) + ((text >> 6) & EACH) * 9;
    let pairs = (nibbles | nibbles >> 4) & 0x00ff_00ff_00ff_00ff;
    let fours = (pairs | pairs >> 8) & 0x0000_ffff_0000_ffff;
    ((fours | fours >> 16) as u32).to_be_bytes()
}

/// The 56 digits of a frame.
#[inline]
pub(crate) fn encode(frame: &[u8; FRAME_LEN]) -> [u8; FRAME_DIGITS] {
    let mut digits = [0; FRAME_DIGITS];
    for (eight, four) in digits.as_chunks_mut().0.iter_mut().zip(frame.as_chunks().0) {
        *eight = encode_four(*four);
    }
    digits
}

/// Appends two digits for each byte.
pub(crate) fn write(bytes: &[u8], text: &mut Vec<u8>) {
    let (fours, rest) = bytes.as_chunks();
    for four in fours {
        text.extend_from_slice(&encode_four(*four));
    }
    for byte in rest {
        text.extend_from_slice(&encode_four([*byte, 0, 0, 0])[..2]);
    }
}

/// Four bytes to eight digits: spread to nibbles, then to text.
#[inline]
fn encode_four(bytes: [u8; 4]) -> [u8; 8] {
    let eights = u64::from(u32::from_be_bytes(bytes));
    let fours = (eights | eights << 16) & 0x0000_ffff_0000_ffff;
    let pairs = (fours | fours << 8) & 0x00ff_00ff_00ff_00ff;
    let nibbles = (pairs | pairs << 4) & (EACH * 0x0f);
    let letters = ((nibbles + EACH * 6) >> 4) & EACH;
    let to_letter = u64::from(b'a' - b'0' - 10);
    (nibbles + EACH * u64::from(b'0') + letters * to_letter).to_be_bytes()
}
