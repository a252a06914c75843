//! A replay that trusts its own states gives the same answers.

mod common;

use std::io::Write;
use std::process::{Command, Output, Stdio};

use common::*;
use twin::Replay;

fn trusting(input: &[u8]) -> Vec<u8> {
    let mut output = Vec::new();
    twin::replay_with(Replay::trusting(), input, &mut output).unwrap();
    output
}

/// Calls before the first accepted fresh, then asks, ticks, conflicts, drops,
/// refusals, malformed lines and a fresh now and then.
fn mixed() -> Vec<u8> {
    let mut lines = vec![
        "tick_5_0".to_string(),
        "fresh_03000000000a".to_string(),
        "drop_5_0".to_string(),
    ];
    for turn in 0..20_000 {
        let (time, last) = (turn * 97, 1 + turn / 23 % 5);
        let taken = frame_text(2, OTHER_TEXT, address(last as u8).0, SEVEN.0);
        lines.push(match turn % 23 {
            0 if turn % 2_300 == 0 => format!("fresh_{OWN_TEXT}"),
            0 => "fresh_000000000000".to_string(),
            1 | 12 => format!("ask_{time}_192.0.2.{last}_{}_{turn}", turn % 4),
            7 | 8 if turn / 23 % 3 == 0 => packet(time, &taken),
            9 => packet(time, &probe_text(address(last as u8))),
            15 if turn % 7 == 0 => format!("drop_{time}_{}", turn % 6),
            19 => format!("tick_{}_0", time.saturating_sub(98)),
            21 => format!("tick_0{time}_0"),
            _ => format!("tick_{time}_{turn}"),
        });
    }
    tabbed(&(lines.join("\n") + "\n")).into_bytes()
}

#[test]
fn same_answers() {
    let answers = trusting(&mixed());
    assert!(answers == replay(&mixed()));
    let answers = String::from_utf8(answers).unwrap();
    for part in [
        "taken", "none", "probe", "announce", "defend", "lost", "kept", "dropped",
    ] {
        assert!(answers.contains(&format!("ok\t{part}\t")), "no {part}");
    }
}

#[test]
fn refusal_1_until_a_fresh_is_accepted() {
    let calls = "ask_1_192.0.2.7_1_0\ntick_1_0\npacket_1_00\ndrop_1_0\n";
    let lines = tabbed(&format!("{calls}fresh_03000000000a\n{calls}"));
    let refused = "refused\t1\n".repeat(4);
    let expected = format!("{refused}refused\t2\n{refused}");
    assert_eq!(trusting(lines.as_bytes()), expected.as_bytes());
}

fn run(words: &[&str], input: &[u8]) -> Output {
    let mut child = Command::new(env!("CARGO_BIN_EXE_twin"))
        .args(words)
        .stdin(Stdio::piped())
        .stdout(Stdio::piped())
        .stderr(Stdio::piped())
        .spawn()
        .unwrap();
    // A program that refuses its arguments reads nothing.
    let _ = child.stdin.take().unwrap().write_all(input);
    child.wait_with_output().unwrap()
}

#[test]
fn the_program_takes_one_argument() {
    let input = b"tick\t0\t0\nfresh\t02000000000a\ntick\t0\t0\n";
    for words in [&[][..], &["--trusting"]] {
        let done = run(words, input);
        assert_eq!(done.status.code(), Some(0));
        assert_eq!(done.stdout, replay(input));
    }
    for words in [&["--trust"][..], &[""], &["--trusting", "--trusting"]] {
        let done = run(words, input);
        assert_eq!(done.status.code(), Some(2));
        assert!(done.stdout.is_empty());
        assert!(done.stderr.starts_with(b"usage: twin [--trusting]\n"));
    }
}
