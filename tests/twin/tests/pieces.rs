//! Input in pieces gives the same output as whole; memory is bounded.

mod common;

use std::io::{self, Read, Write};

/// Gives at most `size` bytes a read, and an interruption before each.
struct Pieces<'a> {
    bytes: &'a [u8],
    size: usize,
    interrupt: bool,
}

impl Read for Pieces<'_> {
    fn read(&mut self, buffer: &mut [u8]) -> io::Result<usize> {
        self.interrupt = !self.interrupt;
        if self.interrupt {
            return Err(io::ErrorKind::Interrupted.into());
        }
        let count = self.size.min(self.bytes.len()).min(buffer.len());
        buffer[..count].copy_from_slice(&self.bytes[..count]);
        self.bytes = &self.bytes[count..];
        Ok(count)
    }
}

fn in_pieces(bytes: &[u8], size: usize) -> Vec<u8> {
    let mut output = Vec::new();
    let pieces = Pieces {
        bytes,
        size,
        interrupt: false,
    };
    twin::replay(pieces, &mut output).unwrap();
    output
}

fn input() -> Vec<u8> {
    let mut input = b"fresh\t02000000000a\nask\t100\t192.0.2.7\t2\t500\n\n".to_vec();
    input.extend(vec![b'x'; 4_097]);
    input.extend(b"\ntick\t600\t0\n");
    input.extend(format!("packet\t601\t{}\n", "0".repeat(3_000)).bytes());
    input.extend(vec![b'\t'; 4_096]);
    input.extend(b"\ntick\t1600\t1000\n\n\ntick\t3600\t0\ntick\t5600\t0");
    input
}

#[test]
fn one_byte_at_a_time() {
    assert_eq!(in_pieces(&input(), 1), common::replay(&input()));
}

#[test]
fn in_pieces_of_every_small_size() {
    let whole = common::replay(&input());
    for size in 2..200 {
        assert_eq!(in_pieces(&input(), size), whole);
    }
}

#[test]
fn cut_at_every_place() {
    let input = input();
    let whole = common::replay(&input);
    for place in 0..=input.len() {
        let mut output = Vec::new();
        let (head, tail) = input.split_at(place);
        // An empty head would end the input, so chain skips it.
        twin::replay(head.chain(tail), &mut output).unwrap();
        assert_eq!(output, whole, "cut at {place}");
    }
}

#[test]
fn many_lines_over_many_buffers() {
    let mut input = b"fresh\t02000000000a\n".to_vec();
    let mut expected = b"ok\tfresh\t-\t-\t-\n".to_vec();
    for time in 0..100_000 {
        input.extend(format!("tick\t{time}\t0\n").bytes());
        expected.extend(b"ok\tnone\t-\t-\t-\n");
    }
    assert!(common::replay(&input) == expected);
    assert!(in_pieces(&input, 65_537) == expected);
}

/// A line of `left` bytes with no end, then what follows.
#[test]
fn lines_of_many_lengths_over_many_buffers() {
    let mut input = Vec::new();
    let mut count = 0;
    for len in (0..5_761).step_by(13) {
        input.extend(std::iter::repeat_n(b'x', len));
        input.extend(b"\nfresh\t02000000000a\n");
        count += 1;
    }
    let expected = b"refused\t14\nok\tfresh\t-\t-\t-\n".repeat(count);
    for size in [7, 4_096, 4_097, 65_535] {
        assert_eq!(in_pieces(&input, size), expected, "pieces of {size}");
    }
}

fn long_line(len: u64, rest: &[u8]) -> impl Read {
    io::repeat(b'7').take(len).chain(rest)
}

#[test]
fn a_line_of_500_megabytes_is_one_refusal() {
    let rest = b"\nfresh\t02000000000a\n";
    let mut output = Vec::new();
    twin::replay(long_line(500_000_000, rest), &mut output).unwrap();
    assert_eq!(output, b"refused\t14\nok\tfresh\t-\t-\t-\n");
}

#[test]
fn an_unended_long_line_is_one_refusal() {
    for len in [4_095, 4_096, 4_097, 262_144, 266_240, 266_241, 1_000_000] {
        let mut output = Vec::new();
        twin::replay(long_line(len, b""), &mut output).unwrap();
        assert_eq!(output, b"refused\t14\n");
    }
}

#[test]
fn a_long_line_ends_at_any_place_about_the_buffers() {
    for len in (4_090..4_105)
        .chain(262_130..262_160)
        .chain(266_230..266_250)
    {
        let mut output = Vec::new();
        twin::replay(long_line(len, b"\ntick\t0\t0\n"), &mut output).unwrap();
        assert_eq!(output, b"refused\t14\nrefused\t1\n", "length {len}");
    }
}

#[test]
fn the_tail_of_a_long_line_is_no_record() {
    let mut input = vec![b'x'; 300_000];
    input.extend(b"fresh\t02000000000a\ntick\t0\t0\n");
    assert_eq!(common::replay(&input), b"refused\t14\nrefused\t1\n");
}

struct Broken;

impl Read for Broken {
    fn read(&mut self, _: &mut [u8]) -> io::Result<usize> {
        Err(io::ErrorKind::ConnectionReset.into())
    }
}

impl Write for Broken {
    fn write(&mut self, _: &[u8]) -> io::Result<usize> {
        Err(io::ErrorKind::BrokenPipe.into())
    }

    fn flush(&mut self) -> io::Result<()> {
        Ok(())
    }
}

#[test]
fn a_read_error_is_handed_on_after_the_answers() {
    let mut output = Vec::new();
    let input = (&b"fresh\t02000000000a\n"[..]).chain(Broken);
    let error = twin::replay(input, &mut output).unwrap_err();
    assert_eq!(error.kind(), io::ErrorKind::ConnectionReset);
    assert_eq!(output, b"ok\tfresh\t-\t-\t-\n");
}

#[test]
fn a_write_error_is_handed_on() {
    let error = twin::replay(&b"\n"[..], Broken).unwrap_err();
    assert_eq!(error.kind(), io::ErrorKind::BrokenPipe);
}
