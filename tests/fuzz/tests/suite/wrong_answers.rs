//! Replays that answer wrongly are found out, and shrunk to a few lines.

use crate::common::{Change, Wrong, find, is_found, lines};

/// Puts one text in the place of another in every answer.
fn replacing(from: &'static str, to: &'static str) -> Change {
    Box::new(move |_, answer| *answer = answer.replace(from, to))
}

fn field(text: &str, number: usize) -> &str {
    text.trim_end().split('\t').nth(number).unwrap_or("")
}

fn time(line: &[u8]) -> u64 {
    let text = String::from_utf8_lossy(line);
    field(&text, 1).parse().unwrap_or(0)
}

#[test]
fn kept_for_lost() {
    let finding = find(&Wrong(|| replacing("\tlost\t", "\tkept\t")));
    assert_eq!(lines(&finding).len(), 3, "fresh, ask, packet");
    assert_eq!(finding.difference.twin, b"ok\tlost\t0\t-\t-\n");
    assert_eq!(finding.difference.program, b"ok\tkept\t0\t-\t-\n");
}

/// Says `defend` where the claim was lost 9,999 ms after its last defence.
fn defending_early() -> Change {
    let mut last = [0; 4];
    Box::new(move |line, answer| {
        let slot: usize = field(answer, 2).parse().unwrap_or(0);
        match field(answer, 1) {
            "defend" => last[slot] = time(line),
            "lost" if last[slot] + 9_999 == time(line) => {
                *answer = answer.replace("lost", "defend")
            }
            _ => {}
        }
    })
}

#[test]
fn defence_after_9999_ms() {
    let finding = find(&Wrong(defending_early));
    assert!(lines(&finding).len() <= 8, "{finding:?}");
}

/// Adds 1 to the deadline after a frame of this kind.
fn later_after(kind: &'static str) -> Change {
    Box::new(move |_, answer| {
        let deadline = field(answer, 3).to_string();
        if let (true, Ok(number)) = (field(answer, 1) == kind, deadline.parse::<u64>()) {
            *answer = answer.replace(&format!("\t{deadline}\t"), &format!("\t{}\t", number + 1));
        }
    })
}

#[test]
fn deadline_after_the_first_announcement() {
    let finding = find(&Wrong(|| later_after("announce")));
    assert_eq!(lines(&finding).len(), 6, "fresh, ask, four ticks");
}

#[test]
fn deadline_above_the_range_cut_off() {
    let cut = || replacing("\t281474976710656\t", "\t281474976710655\t");
    let finding = find(&Wrong(cut));
    assert!(lines(&finding).len() <= 3, "{finding:?}");
}

#[test]
fn refusal_11_for_10() {
    let finding = find(&Wrong(|| replacing("refused\t10\n", "refused\t11\n")));
    assert_eq!(lines(&finding).len(), 3, "fresh, ask, ask");
}

#[test]
fn refusal_7_before_6() {
    let finding = find(&Wrong(|| replacing("refused\t6\n", "refused\t7\n")));
    assert_eq!(lines(&finding).len(), 2, "fresh, packet");
}

#[test]
fn refusal_12_forgotten() {
    let finding = find(&Wrong(|| {
        replacing("refused\t12\n", "ok\ttaken\t0\t0\t-\n")
    }));
    let count = lines(&finding).len();
    assert!(count <= 45, "ten conflicts and their claims, not {count}");
}

/// Counts the ask after the tenth conflict as one 60,000 ms later.
fn waiting_too_long() -> Change {
    let mut request = 0;
    Box::new(move |line, answer| {
        if field(answer, 1) == "taken" {
            if time(line) == request + 60_000 {
                *answer = "refused\t12\n".into();
            }
            request = time(line);
        }
    })
}

#[test]
fn refusal_12_at_60000_ms() {
    let finding = find(&Wrong(waiting_too_long));
    assert!(lines(&finding).len() <= 4, "{finding:?}");
}

const WRAP: u64 = 1 << 32;

/// What a wrong count or time is made of.
#[derive(Default)]
struct Memory {
    conflicts: u64,
    request: u64,
    last: [Option<u64>; 4],
}

impl Memory {
    fn note(&mut self, line: &[u8], answer: &str) {
        let slot: usize = field(answer, 2).parse().unwrap_or(0);
        match field(answer, 1) {
            "fresh" => *self = Memory::default(),
            "taken" => {
                self.request = time(line);
                self.last[slot] = None;
            }
            "defend" | "kept" | "lost" => {
                self.conflicts += 1;
                self.last[slot] = Some(time(line));
            }
            _ => {}
        }
    }
}

/// Changes answers by what came before them.
fn remembering(change: fn(&Memory, &[u8], &mut String)) -> Change {
    let mut memory = Memory::default();
    Box::new(move |line, answer| {
        let right = answer.clone();
        change(&memory, line, answer);
        memory.note(line, &right);
    })
}

#[test]
fn defence_interval_in_32_bits() {
    let wrong = || {
        remembering(|memory, line, answer| {
            let slot: usize = field(answer, 2).parse().unwrap_or(0);
            let soon = |last: u64| (time(line).wrapping_sub(last) as u32) < 10_000;
            if field(answer, 1) == "defend" && memory.last[slot].is_some_and(soon) {
                *answer = answer.replace("defend", "kept");
            }
        })
    };
    let finding = find(&Wrong(wrong));
    assert!(lines(&finding).len() <= 8, "{finding:?}");
}

#[test]
fn request_interval_in_32_bits() {
    let wrong = || {
        remembering(|memory, line, answer| {
            let soon = (time(line).wrapping_sub(memory.request) as u32) < 60_000;
            if field(answer, 1) == "taken" && memory.conflicts >= 10 && soon {
                *answer = "refused\t12\n".into();
            }
        })
    };
    assert!(is_found(&Wrong(wrong)));
}

#[test]
fn conflict_count_in_8_bits() {
    let wrong = || {
        remembering(|memory, _, answer| {
            if answer == "refused\t12\n" && (memory.conflicts as u8) < 10 {
                *answer = "ok\ttaken\t0\t0\t-\n".into();
            }
        })
    };
    assert!(is_found(&Wrong(wrong)));
}

#[test]
fn request_at_time_0_taken_for_none() {
    let wrong = || {
        remembering(|memory, _, answer| {
            if answer == "refused\t12\n" && memory.request == 0 {
                *answer = "ok\ttaken\t0\t0\t-\n".into();
            }
        })
    };
    assert!(is_found(&Wrong(wrong)));
}

#[test]
fn deadline_in_32_bits() {
    let wrong = || -> Change {
        Box::new(|_, answer| {
            if let Ok(deadline) = field(answer, 3).parse::<u64>() {
                let low = deadline % WRAP;
                *answer = answer.replace(&format!("\t{deadline}\t"), &format!("\t{low}\t"));
            }
        })
    };
    let finding = find(&Wrong(wrong));
    assert!(lines(&finding).len() <= 2, "{finding:?}");
}

/// Takes each operation of this text for a known one.
fn taking(operation: &'static [u8]) -> Change {
    Box::new(move |line, answer| {
        let packet = line.splitn(3, |byte| *byte == b'\t').nth(2);
        let known = packet.is_some_and(|hex| hex.get(12..16) == Some(operation));
        if answer == "refused\t7\n" && known {
            *answer = "ok\tnone\t-\t-\t-\n".into();
        }
    })
}

#[test]
fn operation_4_taken() {
    let finding = find(&Wrong(|| taking(b"0004")));
    assert_eq!(lines(&finding).len(), 2, "fresh, packet");
}

/// Takes a carriage return before the line's end for nothing.
fn forgiving() -> Change {
    Box::new(|line, answer| {
        if line.starts_with(b"tick\t") && line.ends_with(b"\r\n") {
            *answer = "refused\t1\n".into();
        }
    })
}

#[test]
fn carriage_return_forgiven() {
    let finding = find(&Wrong(forgiving));
    assert_eq!(finding.input, b"tick\t\r\n");
}
