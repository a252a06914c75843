//! The search for byte 10.

const BLOCK: usize = 32;
const EACH: u64 = 0x0101_0101_0101_0101;

/// The place of the first byte 10.
#[inline]
pub(crate) fn find_line_end(bytes: &[u8]) -> Option<usize> {
    let (blocks, rest) = bytes.as_chunks::<BLOCK>();
    for (number, block) in blocks.iter().enumerate() {
        if has_line_end(block) {
            return find_in_words(block).map(|place| number * BLOCK + place);
        }
    }
    find_in_words(rest).map(|place| blocks.len() * BLOCK + place)
}

#[inline]
fn has_line_end(block: &[u8; BLOCK]) -> bool {
    block
        .iter()
        .fold(false, |found, &byte| found | (byte == b'\n'))
}

/// Eight bytes at a time in one number.
#[inline]
fn find_in_words(bytes: &[u8]) -> Option<usize> {
    let (words, rest) = bytes.as_chunks::<8>();
    for (number, word) in words.iter().enumerate() {
        let others = u64::from_le_bytes(*word) ^ (EACH * u64::from(b'\n'));
        // The lowest bit 7 set here is that of the first byte 10.
        let found = others.wrapping_sub(EACH) & !others & (EACH << 7);
        if found != 0 {
            return Some(number * 8 + found.trailing_zeros() as usize / 8);
        }
    }
    let place = rest.iter().position(|&byte| byte == b'\n')?;
    Some(words.len() * 8 + place)
}

#[cfg(test)]
mod tests {
    use super::*;

    #[test]
    fn finds_the_first_at_every_place() {
        for len in 0..150 {
            assert_eq!(find_line_end(&vec![0x0b; len]), None);
            for place in 0..len {
                let mut bytes = vec![0x0b; len];
                bytes[place..].fill(b'\n');
                assert_eq!(find_line_end(&bytes), Some(place));
            }
        }
    }
}
