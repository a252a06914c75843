//! "Errors a tired programmer makes" and "Programs to try": each of these
//! programs fails the test that bears its name.

mod common;

use common::*;
use twin::{Address, Kind, Time};

const WAY_TO_USE: [(&str, &str); 7] = [
    ("fresh_02000000000a", "ok_fresh_-_-_-"),
    ("ask_0_192.0.2.7_2_0", "ok_taken_0_0_-"),
    ("tick_0_0", "ok_probe_0_1000_probe:7"),
    ("tick_1000_0", "ok_probe_0_2000_probe:7"),
    ("tick_2000_0", "ok_probe_0_4000_probe:7"),
    ("tick_4000_0", "ok_announce_0_6000_claim:7"),
    ("tick_6000_0", "ok_announce_0_-_claim:7"),
];

#[test]
fn counting_the_gap_from_the_old_deadline() {
    check(&[
        ("fresh_02000000000a", "ok_fresh_-_-_-"),
        ("ask_0_192.0.2.7_2_0", "ok_taken_0_0_-"),
        ("tick_5000_0", "ok_probe_0_6000_probe:7"),
        ("tick_5001_0", "ok_none_-_6000_-"),
        ("tick_9000_0", "ok_probe_0_10000_probe:7"),
        ("tick_9001_0", "ok_none_-_10000_-"),
        ("tick_30000_0", "ok_probe_0_32000_probe:7"),
        ("tick_50000_0", "ok_announce_0_52000_claim:7"),
        ("tick_50001_0", "ok_none_-_52000_-"),
    ]);
}

#[test]
fn updating_the_last_conflict_only_with_a_defence() {
    let mut state = holding(0, SEVEN, 3, settled(None));
    let claim = frame(1, OTHER_TEXT, SEVEN, SEVEN);
    for (time, kind) in [
        (20_000, Kind::Defend),
        (29_999, Kind::Kept),
        (35_000, Kind::Kept),
        (44_999, Kind::Kept),
        (54_999, Kind::Defend),
    ] {
        let got = state.packet(Time(time), &claim, &mut [0; 28]);
        assert_eq!(got.unwrap().kind, kind, "at {time}");
        assert_eq!(state.slots[0].stage, settled(Some(time)));
    }
}

#[test]
fn testing_the_hardware_for_a_probing_records_sender_ip() {
    for operation in [1, 2] {
        let mut state = holding(0, SEVEN, 3, probing(2, 9));
        let ours = frame(operation, OWN_TEXT, SEVEN, SEVEN);
        let got = state.packet(Time(0), &ours, &mut [0; 28]);
        assert_eq!(got, Ok(answer(Kind::Lost, Some(0), None)));
        assert_eq!(state.conflicts, 1);
    }
}

#[test]
fn stopping_a_number_at_its_first_foreign_byte() {
    check(&[
        ("fresh_02000000000a", "ok_fresh_-_-_-"),
        ("tick_1 000_0", "refused_14"),
        ("tick_1\u{a0}000_0", "refused_14"),
        ("tick_5_0x", "refused_14"),
        ("drop_5_0.", "refused_14"),
        ("ask_5_192.0.2.7x_1_0", "refused_14"),
        ("tick_0_0", "ok_none_-_-_-"),
    ]);
}

#[test]
fn never_filling_a_slot_again_after_a_loss() {
    let mut state = interface(0);
    for round in 1..=9u64 {
        for last in 1..=4 {
            let got = state.ask(Time(round), address(last), 1, 0).unwrap();
            assert_eq!(got.slot, Some(usize::from(last) - 1));
        }
        for last in 1..=4 {
            let other = frame(2, OTHER_TEXT, address(last), Address(0));
            let got = state.packet(Time(round), &other, &mut [0; 28]).unwrap();
            assert_eq!(
                (got.kind, got.slot),
                (Kind::Lost, Some(usize::from(last) - 1))
            );
        }
        state.conflicts = 0;
    }
}

#[test]
fn a_program_that_refuses_all() {
    check(&WAY_TO_USE);
}

#[test]
fn a_program_that_says_none_for_ever() {
    check(&WAY_TO_USE[..3]);
}

#[test]
fn a_program_that_changes_nothing() {
    check(&[
        ("fresh_02000000000a", "ok_fresh_-_-_-"),
        ("tick_10_0", "ok_none_-_-_-"),
        ("tick_9_0", "refused_4"),
        ("ask_10_192.0.2.7_1_0", "ok_taken_0_10_-"),
        ("ask_10_192.0.2.7_1_0", "refused_10"),
        ("drop_10_0", "ok_dropped_0_-_-"),
        ("drop_10_0", "refused_13"),
    ]);
}

#[test]
fn a_program_that_serves_slot_0_only() {
    check(&[
        ("fresh_02000000000a", "ok_fresh_-_-_-"),
        ("ask_0_192.0.2.7_1_0", "ok_taken_0_0_-"),
        ("ask_0_192.0.2.8_1_0", "ok_taken_1_0_-"),
        ("tick_0_0", "ok_probe_0_0_probe:7"),
        ("tick_0_0", "ok_probe_1_1000_probe:8"),
    ]);
}

#[test]
fn a_program_that_sends_one_true_probe_and_feigns_the_rest() {
    let mut state = holding(0, SEVEN, 2, probing(0, 0));
    for (time, text) in [
        (0, probe_text(SEVEN)),
        (2_000, probe_text(SEVEN)),
        (4_000, probe_text(SEVEN)),
        (6_000, claim_text(SEVEN)),
        (8_000, claim_text(SEVEN)),
    ] {
        let mut out = [0xee; 28];
        state.tick(Time(time), 0, &mut out).unwrap();
        assert_eq!(out[..], bytes(&text));
    }
}

#[test]
fn a_program_that_reports_a_conflict_count_of_its_own() {
    let claim = packet(0, &frame_text(2, OTHER_TEXT, SEVEN.0, 0));
    for conflicts in [9, 10] {
        let mut lines = vec![("fresh_02000000000a", "ok_fresh_-_-_-")];
        for _ in 0..conflicts {
            lines.push(("ask_0_192.0.2.7_1_0", "ok_taken_0_0_-"));
            lines.push((&claim, "ok_lost_0_-_-"));
        }
        if conflicts == 9 {
            lines.push(("ask_59999_192.0.2.7_1_0", "ok_taken_0_59999_-"));
        } else {
            lines.push(("ask_59999_192.0.2.7_1_0", "refused_12"));
            lines.push(("ask_60000_192.0.2.7_1_0", "ok_taken_0_60000_-"));
        }
        check(&lines);
    }
}
