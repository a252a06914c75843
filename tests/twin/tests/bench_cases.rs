//! W1 to W12.

mod common;

use common::*;
use twin::{Kind, Time, widen};

#[test]
fn w1_draws_1000_and_1001() {
    check(&[
        ("fresh_02000000000a", "ok_fresh_-_-_-"),
        ("ask_5_192.0.2.7_1_1000", "ok_taken_0_1005_-"),
        ("drop_5_0", "ok_dropped_0_-_-"),
        ("ask_5_192.0.2.7_1_1001", "ok_taken_0_5_-"),
    ]);
}

#[test]
fn w2_the_largest_draw() {
    check(&[
        ("fresh_02000000000a", "ok_fresh_-_-_-"),
        ("ask_0_192.0.2.7_1_4294967295", "ok_taken_0_619_-"),
        ("tick_619_4294967295", "ok_probe_0_2238_probe:7"),
    ]);
}

#[test]
fn w3_clock_rolls_over() {
    let widened = widen(Time(4_294_967_290), 4);
    assert_eq!(widened.step, 10);
    assert_eq!(widened.time, Ok(Time(4_294_967_300)));
}

#[test]
fn w4_clock_goes_back() {
    let widened = widen(Time(5), 3);
    assert_eq!(widened.step, -2);
    assert_eq!(widened.time.map_err(|refusal| refusal.number()), Err(4));
}

#[test]
fn w5_clock_half_way_round() {
    let widened = widen(Time(0), 2_147_483_648);
    assert_eq!(widened.step, -2_147_483_648);
    assert_eq!(widened.time.map_err(|refusal| refusal.number()), Err(4));
}

fn conflicts(policy: u8, at: &[(u64, Kind)]) {
    let mut state = holding(10_000, SEVEN, policy, settled(None));
    for &(time, kind) in at {
        let mut out = [0; 28];
        let got = state.packet(Time(time), &frame(2, OTHER_TEXT, SEVEN, EIGHT), &mut out);
        assert_eq!(got, Ok(answer(kind, Some(0), None)), "at {time}");
    }
}

#[test]
fn w6_policy_2_a_moment_too_early() {
    conflicts(2, &[(20_000, Kind::Defend), (29_999, Kind::Lost)]);
}

#[test]
fn w7_policy_2_late_enough() {
    conflicts(2, &[(20_000, Kind::Defend), (30_000, Kind::Defend)]);
}

#[test]
fn w8_policy_3() {
    conflicts(
        3,
        &[
            (20_000, Kind::Defend),
            (29_999, Kind::Kept),
            (35_000, Kind::Kept),
            (45_000, Kind::Defend),
        ],
    );
}

#[test]
fn w9_the_eleventh_claim_waits() {
    let mut state = interface(100_000);
    state.conflicts = 10;
    state.request = Some(Time(100_000));
    refuses(&state, 12, |state, _| state.ask(Time(159_999), SEVEN, 1, 0));
    assert_eq!(
        state.ask(Time(160_000), SEVEN, 1, 0),
        Ok(answer(Kind::Taken, Some(0), Some(160_000)))
    );
}

/// W9 from its history: ten asks, each lost to another's probe.
#[test]
fn w9_from_ten_conflicts() {
    let probe = frame_text(1, OTHER_TEXT, 0, SEVEN.0);
    let mut lines = vec![format!("fresh_{OWN_TEXT}")];
    for time in (91_000..=100_000).step_by(1_000) {
        lines.push(format!("ask_{time}_192.0.2.7_1_0"));
        lines.push(packet(time + 1, &probe));
    }
    lines.push("ask_159999_192.0.2.7_1_0".into());
    lines.push("ask_160000_192.0.2.7_1_0".into());
    let text: String = lines.iter().map(|line| tabbed(line) + "\n").collect();
    let output = String::from_utf8(replay(text.as_bytes())).unwrap();
    let got: Vec<&str> = output.lines().collect();
    assert!(got[2..21].iter().step_by(2).all(|got| got.contains("lost")));
    assert_eq!(got[21..], ["refused\t12", "ok\ttaken\t0\t160000\t-"]);
}

#[test]
fn w10_our_own_echoed_probe() {
    let mut state = holding(500, SEVEN, 2, probing(1, 1_500));
    let echo = frame(1, OWN_TEXT, twin::Address(0), SEVEN);
    let got = state.packet(Time(600), &echo, &mut [0; 28]);
    assert_eq!(got, Ok(answer(Kind::Nothing, None, Some(1_500))));
    assert_eq!(state.conflicts, 0);
}

#[test]
fn w11_anothers_probe_for_a_settled_address() {
    let mut state = holding(500, SEVEN, 1, settled(None));
    let probe = frame(1, OTHER_TEXT, twin::Address(0), SEVEN);
    let got = state.packet(Time(600), &probe, &mut [0; 28]);
    assert_eq!(got, Ok(answer(Kind::Nothing, None, None)));
    assert_eq!(state.conflicts, 0);
}

#[test]
fn w12_the_last_allowed_address() {
    check(&[
        ("fresh_02000000000a", "ok_fresh_-_-_-"),
        ("ask_0_224.0.0.0_1_0", "refused_8"),
        ("ask_0_223.255.255.255_1_0", "ok_taken_0_0_-"),
    ]);
}
