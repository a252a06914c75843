//! Every stage by policy by frame: what a packet leads to.

mod common;

use common::*;
use twin::{Address, Interface, Kind, Record, Stage, Time};

const NOW: u64 = 100_000;
const LOST: Kind = Kind::Lost;
const KEPT: Kind = Kind::Kept;
const DEFEND: Kind = Kind::Defend;
const NONE: Kind = Kind::Nothing;

/// Frames about the address, four of each: (another's, op 1), (another's,
/// op 2), (ours, op 1), (ours, op 2).
fn four(sender_ip: Address, target_ip: Address) -> [Vec<u8>; 4] {
    [
        frame(1, OTHER_TEXT, sender_ip, target_ip),
        frame(2, OTHER_TEXT, sender_ip, target_ip),
        frame(1, OWN_TEXT, sender_ip, target_ip),
        frame(2, OWN_TEXT, sender_ip, target_ip),
    ]
}

fn after(stage: Stage, kind: Kind) -> Stage {
    match (kind, stage) {
        (Kind::Nothing, stage) => stage,
        (Kind::Lost, _) => Stage::Free,
        (_, Stage::Announced { deadline, .. }) => announced(deadline.0, Some(NOW)),
        (_, _) => settled(Some(NOW)),
    }
}

/// Checks answer, state and frame in each of the four slots.
#[track_caller]
fn meets(policy: u8, stage: Stage, bytes: &[u8], kind: Kind) {
    for slot in 0..4 {
        let mut state = interface(NOW);
        state.conflicts = 4;
        let record = Record {
            address: SEVEN,
            policy,
            stage,
        };
        state.slots[slot] = record;
        let mut out = [0xee; 30];
        let got = state.packet(Time(NOW), bytes, &mut out).unwrap();

        let mut expected = interface(NOW);
        expected.conflicts = if kind == NONE { 4 } else { 5 };
        if kind != LOST {
            expected.slots[slot] = Record {
                stage: after(stage, kind),
                ..record
            };
        }
        assert_eq!(state, expected);
        let next = expected.slots[slot].stage.deadline().map(|time| time.0);
        let concerned = (kind != NONE).then_some(slot);
        assert_eq!(got, answer(kind, concerned, next));
        match kind {
            Kind::Defend => assert_eq!(out[..28], common::bytes(&claim_text(SEVEN))),
            _ => assert_eq!(out, [0xee; 30]),
        }
    }
}

/// One row: sender IP ours (four frames), then a probe for it (four frames).
#[track_caller]
fn row(policy: u8, stage: Stage, claims: [Kind; 4], probes: [Kind; 4]) {
    for target in [SEVEN, EIGHT, Address(0)] {
        for (bytes, kind) in four(SEVEN, target).iter().zip(claims) {
            meets(policy, stage, bytes, kind);
        }
    }
    for (bytes, kind) in four(Address(0), SEVEN).iter().zip(probes) {
        meets(policy, stage, bytes, kind);
    }
    for sender in [EIGHT, Address(0)] {
        for bytes in four(sender, EIGHT) {
            meets(policy, stage, &bytes, NONE);
        }
    }
    // Another's question for the address, with a sender IP, is no conflict.
    for bytes in four(EIGHT, SEVEN) {
        meets(policy, stage, &bytes, NONE);
    }
}

#[test]
fn a_free_slot_meets_none() {
    for sender in [SEVEN, Address(0)] {
        for bytes in four(sender, SEVEN) {
            let mut state = interface(0);
            let got = state.packet(Time(3), &bytes, &mut [0; 28]);
            assert_eq!(got, Ok(answer(NONE, None, None)));
            assert_eq!(state, interface(3));
        }
    }
}

#[test]
fn a_free_slot_with_leftovers_meets_none() {
    for (sender, target) in [(SEVEN, SEVEN), (Address(0), Address(0))] {
        for bytes in four(sender, target) {
            let mut state = interface(0);
            state.slots[1].address = sender;
            let got = state.packet(Time(3), &bytes, &mut [0; 28]);
            assert_eq!(got, Ok(answer(NONE, None, None)));
        }
    }
}

#[test]
fn probing_under_each_policy() {
    for policy in 1..=3 {
        for sent in 0..=3 {
            for deadline in [NOW - 5_000, NOW, NOW + 1_000] {
                let stage = probing(sent, deadline);
                row(policy, stage, [LOST; 4], [LOST, NONE, NONE, NONE]);
            }
        }
    }
}

fn usable(policy: u8, conflict: Option<u64>, kind: Kind) {
    for stage in [
        announced(NOW - 1, conflict),
        announced(NOW + 2_000, conflict),
        settled(conflict),
    ] {
        row(policy, stage, [kind, kind, NONE, NONE], [NONE; 4]);
    }
}

#[test]
fn usable_under_policy_1() {
    usable(1, None, LOST);
    usable(1, Some(NOW - 10_000), LOST);
    usable(1, Some(NOW), LOST);
}

#[test]
fn usable_under_policy_2() {
    usable(2, None, DEFEND);
    usable(2, Some(0), DEFEND);
    usable(2, Some(NOW - 10_000), DEFEND);
    usable(2, Some(NOW - 9_999), LOST);
    usable(2, Some(NOW), LOST);
}

#[test]
fn usable_under_policy_3() {
    usable(3, None, DEFEND);
    usable(3, Some(0), DEFEND);
    usable(3, Some(NOW - 10_000), DEFEND);
    usable(3, Some(NOW - 9_999), KEPT);
    usable(3, Some(NOW), KEPT);
}

#[test]
fn target_hardware_decides_nothing() {
    let mut bytes = frame(2, OTHER_TEXT, SEVEN, EIGHT);
    bytes[18..24].copy_from_slice(&common::bytes(OWN_TEXT));
    meets(2, settled(None), &bytes, DEFEND);
    bytes[18..24].fill(0xff);
    meets(1, probing(1, NOW), &bytes, LOST);
}

#[test]
fn one_byte_of_hardware_makes_it_anothers() {
    for at in 8..14 {
        let mut bytes = frame(1, OWN_TEXT, SEVEN, SEVEN);
        bytes[at] ^= 0x80;
        meets(2, settled(None), &bytes, DEFEND);
    }
}

#[test]
fn a_conflict_at_time_0_counts_as_seen() {
    let mut state = holding(0, SEVEN, 2, settled(Some(0)));
    let claim = frame(1, OTHER_TEXT, SEVEN, SEVEN);
    let got = state.packet(Time(9_999), &claim, &mut [0; 28]);
    assert_eq!(got.unwrap().kind, LOST);
}

#[test]
fn only_the_concerned_record_changes() {
    let mut state = interface(NOW);
    for slot in 0..4 {
        state.slots[slot] = Record {
            address: address(slot as u8 + 1),
            policy: 3,
            stage: announced(NOW + slot as u64, None),
        };
    }
    let mut expected = state;
    expected.conflicts = 1;
    expected.slots[2].stage = announced(NOW + 2, Some(NOW));
    let claim = frame(1, OTHER_TEXT, address(3), address(1));
    let got = state.packet(Time(NOW), &claim, &mut [0; 28]);
    assert_eq!(got, Ok(answer(DEFEND, Some(2), Some(NOW))));
    assert_eq!(state, expected);
}

#[test]
fn the_count_stops_at_10() {
    let mut state: Interface = holding(0, SEVEN, 3, settled(None));
    let claim = frame(1, OTHER_TEXT, SEVEN, SEVEN);
    for time in 1..=25u64 {
        state.packet(Time(time), &claim, &mut [0; 28]).unwrap();
        assert_eq!(u64::from(state.conflicts), time.min(10));
    }
}

#[test]
fn a_new_use_has_seen_no_conflict() {
    let mut lines = vec![
        ("fresh_02000000000a".to_string(), "ok_fresh_-_-_-"),
        ("ask_0_192.0.2.7_2_0".to_string(), "ok_taken_0_0_-"),
    ];
    let claim = frame_text(2, OTHER_TEXT, SEVEN.0, 0);
    for (line, expected) in [
        ("tick_0_0", "ok_probe_0_1000_probe:7"),
        ("tick_1000_0", "ok_probe_0_2000_probe:7"),
        ("tick_2000_0", "ok_probe_0_4000_probe:7"),
        ("tick_4000_0", "ok_announce_0_6000_claim:7"),
        ("PACKET 4000", "ok_defend_0_6000_claim:7"),
        ("PACKET 4001", "ok_lost_0_-_-"),
        ("ask_4001_192.0.2.7_2_0", "ok_taken_0_4001_-"),
        ("tick_4001_0", "ok_probe_0_5001_probe:7"),
        ("tick_5001_0", "ok_probe_0_6001_probe:7"),
        ("tick_6001_0", "ok_probe_0_8001_probe:7"),
        ("tick_8001_0", "ok_announce_0_10001_claim:7"),
        ("PACKET 8001", "ok_defend_0_10001_claim:7"),
    ] {
        let line = match line.split_once(' ') {
            Some((_, time)) => packet(time.parse().unwrap(), &claim),
            None => line.to_string(),
        };
        lines.push((line, expected));
    }
    let lines: Vec<(&str, &str)> = lines.iter().map(|(a, b)| (a.as_str(), *b)).collect();
    check(&lines);
}

/// The time between two conflicts is compared whole: 2^32 + 5 is no 5.
#[test]
fn conflicts_2_to_the_32_and_5_ms_apart() {
    let way = [
        ("fresh_02000000000a", "ok_fresh_-_-_-"),
        ("ask_0_192.0.2.7_2_0", "ok_taken_0_0_-"),
        ("tick_0_0", "ok_probe_0_1000_probe:7"),
        ("tick_1000_0", "ok_probe_0_2000_probe:7"),
        ("tick_2000_0", "ok_probe_0_4000_probe:7"),
        ("tick_4000_0", "ok_announce_0_6000_claim:7"),
        ("tick_6000_0", "ok_announce_0_-_claim:7"),
    ];
    let claim = frame_text(2, OTHER_TEXT, SEVEN.0, 0);
    let first = packet(6_000, &claim);
    let second = packet(6_000 + (1 << 32) + 5, &claim);
    let mut lines = way.to_vec();
    lines.push((&first, "ok_defend_0_-_claim:7"));
    lines.push((&second, "ok_defend_0_-_claim:7"));
    check(&lines);
}
