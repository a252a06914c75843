//! Programs that treat their input or their end wrongly are found out.

use std::os::unix::fs::PermissionsExt;
use std::path::PathBuf;
use std::time::Duration;
use std::{env, fs};

use crate::common::{Whole, find, lines};
use fuzz::batch::{Batch, many_answers};
use fuzz::compare::differ;
use fuzz::program::{OnDisk, PATIENCE, Program};

#[test]
fn unended_last_line_missed() {
    let finding = find(&Whole(|input, _, outcome| {
        if !input.ends_with(b"\n") && !input.is_empty() {
            outcome.output.truncate(outcome.output.len() - 11);
        }
    }));
    assert_eq!(finding.input.len(), 1, "one byte that isn't 10");
    assert_eq!(finding.difference.program, b"");
}

#[test]
fn over_long_line_taken_for_two() {
    let finding = find(&Whole(|input, _, outcome| {
        let mut lines = input.split_inclusive(|byte| *byte == b'\n');
        if lines.any(|line| line.len() > 4097) {
            outcome.output.extend_from_slice(b"refused\t14\n");
        }
    }));
    assert_eq!(finding.input.len(), 4098);
    assert_eq!(lines(&finding).len(), 1);
}

#[test]
fn input_in_pieces_misread() {
    let finding = find(&Whole(|_, pieces, outcome| {
        if pieces.contains(&1) {
            outcome.output.clear();
        }
    }));
    assert_eq!(finding.pieces, [1]);
    assert_eq!(finding.input.len(), 1);
}

#[test]
fn cut_at_a_byte_misread() {
    let finding = find(&Whole(|_, pieces, outcome| {
        if let [11, _] = pieces {
            outcome.output.clear();
        }
    }));
    assert_eq!(finding.pieces[0], 11);
    assert_eq!(finding.pieces.len(), 2);
}

#[test]
fn answers_over_the_out_buffer_lost() {
    let program = Whole(|input, pieces, outcome| {
        if many_answers(input, pieces) > 0 {
            outcome.output.truncate(262_144);
        }
    });
    let differs = |number| {
        let Batch { input, pieces, .. } = Batch::new(5227, number);
        differ(&program, &input, &pieces, PATIENCE).is_some()
    };
    assert!(differs(4), "in pieces");
    assert!(differs(24), "at once");
    assert!(!differs(3), "another sort");
}

#[test]
fn bad_end() {
    let finding = find(&Whole(|_, _, outcome| {
        outcome.trouble = "ended with 1".into()
    }));
    assert_eq!(finding.input, b"");
    assert_eq!(finding.difference.trouble, "ended with 1");
}

#[test]
fn word_on_standard_error() {
    let finding = find(&Whole(|_, _, outcome| outcome.errors = b"oh".to_vec()));
    assert_eq!(finding.difference.trouble.trim(), "standard error: oh");
}

/// A shell script as a program on disk.
fn script(name: &str, text: &str) -> OnDisk {
    let file = format!("fuzz-{}-{name}", std::process::id());
    let program: PathBuf = env::temp_dir().join(file);
    fs::write(&program, format!("#!/bin/sh\n{text}\n")).expect("a file can be made");
    fs::set_permissions(&program, fs::Permissions::from_mode(0o755)).expect("and started");
    OnDisk { program }
}

/// What is noticed of a script that ends by itself and gets this input.
fn trouble(name: &str, text: &str, input: &[u8], pieces: &[usize]) -> String {
    trouble_within(PATIENCE, name, text, input, pieces)
}

/// The same of a script that hangs.
fn trouble_of_hanging(name: &str, input: &[u8], pieces: &[usize]) -> String {
    trouble_within(
        Duration::from_millis(500),
        name,
        "exec sleep 30",
        input,
        pieces,
    )
}

fn trouble_within(
    patience: Duration,
    name: &str,
    text: &str,
    input: &[u8],
    pieces: &[usize],
) -> String {
    let program = script(name, text);
    let difference = differ(&program, input, pieces, patience).expect("a wrong script differs");
    fs::remove_file(&program.program).expect("the script was there");
    difference.trouble
}

#[test]
fn scripts_that_hang_fail_or_die() {
    let hangs = trouble_of_hanging("hangs", b"\n", &[]);
    assert!(hangs.starts_with("did not end"), "{hangs}");
    let fails = trouble(
        "fails",
        "cat > /dev/null; echo 'refused\t14'; exit 3",
        b"\n",
        &[],
    );
    assert_eq!(fails, "ended with exit status: 3");
    let dies = trouble("dies", "kill -9 $$", &[b'\n'; 200_000], &[]);
    assert!(dies.contains("signal: 9"), "{dies}");
    let quiet = trouble("quiet", "exec > /dev/null; cat", b"x\n", &[]);
    assert_eq!(quiet, "", "only its answers are missing");
}

#[test]
fn scripts_that_hang_or_die_with_pieces_left() {
    let (input, pieces) = ([b'\n'; 3000], [1; 3000]);
    let hangs = trouble_of_hanging("hangs-in-pieces", &input, &pieces);
    assert!(hangs.starts_with("did not end"), "{hangs}");
    let dies = trouble("dies-in-pieces", "kill -9 $$", &input, &pieces);
    assert!(dies.contains("signal: 9"), "{dies}");
}

/// Answers each read of up to 65,536 bytes with its length.
#[test]
fn each_piece_is_one_read() {
    let text = "while piece=$(dd bs=65536 count=1 2>/dev/null | wc -c); [ $piece -gt 0 ]; \
                do echo $piece; done";
    let program = script("lengths", text);
    let (input, pieces) = ([b'x'; 40_000], [1, 32_768, 1, 7, 7_223]);
    let outcome = program.run(&input, &pieces, PATIENCE);
    fs::remove_file(&program.program).expect("the script was there");
    assert_eq!(outcome.output, b"1\n32768\n1\n7\n7223\n");
}
