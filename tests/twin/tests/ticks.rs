//! Ask, tick and drop: slots, stages and deadlines.

mod common;

use common::*;
use twin::{Interface, Kind, Record, Stage, Time};

fn ticks(state: &mut Interface, time: u64, draw: u32) -> twin::Answer {
    state.tick(Time(time), draw, &mut [0; 28]).unwrap()
}

/// Four probing records with these deadlines.
fn four(deadlines: [u64; 4]) -> Interface {
    let mut state = interface(5_000);
    for (slot, deadline) in deadlines.into_iter().enumerate() {
        state.slots[slot] = Record {
            address: address(slot as u8 + 1),
            policy: 1,
            stage: probing(0, deadline),
        };
    }
    state
}

#[test]
fn ask_writes_the_whole_record() {
    let mut state = interface(40);
    state.ask(Time(50), SEVEN, 3, 2_002 + 7).unwrap();
    let mut expected = holding(50, SEVEN, 3, probing(0, 57));
    expected.request = Some(Time(50));
    assert_eq!(state, expected);
}

#[test]
fn ask_takes_the_lowest_free_slot() {
    let mut state = interface(0);
    for last in 1..=4 {
        let got = state.ask(Time(0), address(last), 1, 0).unwrap();
        assert_eq!(got.slot, Some(usize::from(last) - 1));
    }
    state.drop(Time(0), 2).unwrap();
    state.drop(Time(0), 1).unwrap();
    assert_eq!(state.ask(Time(0), SEVEN, 1, 0).unwrap().slot, Some(1));
    assert_eq!(state.ask(Time(0), EIGHT, 1, 0).unwrap().slot, Some(2));
}

#[test]
fn the_earliest_deadline_is_served() {
    let mut state = four([4_000, 3_000, 2_000, 3_500]);
    let order: Vec<_> = (0..4).map(|_| ticks(&mut state, 5_000, 0).slot).collect();
    assert_eq!(order, [Some(2), Some(1), Some(3), Some(0)]);
}

#[test]
fn the_lowest_slot_on_a_tie() {
    let mut state = four([4_000; 4]);
    let order: Vec<_> = (0..5).map(|_| ticks(&mut state, 5_000, 0).slot).collect();
    assert_eq!(order, [Some(0), Some(1), Some(2), Some(3), None]);
}

#[test]
fn a_later_slot_due_while_an_earlier_waits() {
    let mut state = four([6_000, 7_000, 7_000, 5_000]);
    assert_eq!(
        ticks(&mut state, 5_000, 0),
        answer(Kind::Probe, Some(3), Some(6_000))
    );
}

#[test]
fn a_deadline_is_due_at_its_own_time() {
    let mut state = four([5_001; 4]);
    assert_eq!(
        ticks(&mut state, 5_000, 0),
        answer(Kind::Nothing, None, Some(5_001))
    );
    assert_eq!(ticks(&mut state, 5_001, 0).kind, Kind::Probe);
}

#[test]
fn every_stage_steps_from_the_time_of_the_call() {
    for (before, draw, after) in [
        (probing(0, 10), 1_000, probing(1, 9_000)),
        (probing(1, 10), 1_001, probing(2, 8_000)),
        (probing(1, 10), u32::MAX, probing(2, 8_619)),
        (probing(2, 10), 1_000, probing(3, 9_000)),
        (probing(2, 10), 0, probing(3, 9_000)),
        (probing(3, 10), 1_000, announced(9_000, None)),
        (announced(10, None), 1_000, settled(None)),
        (announced(10, Some(3)), 0, settled(Some(3))),
    ] {
        let mut state = holding(20, SEVEN, 2, before);
        ticks(&mut state, 7_000, draw);
        assert_eq!(state, holding(7_000, SEVEN, 2, after));
    }
}

#[test]
fn with_nothing_due_only_the_latest_time_changes() {
    let mut state = holding(20, SEVEN, 2, announced(2_020, Some(4)));
    ticks(&mut state, 2_019, 77);
    assert_eq!(state, holding(2_019, SEVEN, 2, announced(2_020, Some(4))));
}

#[test]
fn a_settled_record_is_never_served() {
    let mut state = holding(20, SEVEN, 2, settled(Some(4)));
    let got = ticks(&mut state, LAST_TIME, 0);
    assert_eq!(got, answer(Kind::Nothing, None, None));
}

#[test]
fn a_tick_keeps_count_and_request() {
    let mut state = holding(20, SEVEN, 2, probing(0, 20));
    state.conflicts = 7;
    state.request = Some(Time(3));
    ticks(&mut state, 30, 0);
    assert_eq!((state.conflicts, state.request), (7, Some(Time(3))));
}

#[test]
fn drop_frees_each_stage_and_slot() {
    for slot in 0..4 {
        for stage in [probing(2, 5_001), announced(5_002, None), settled(None)] {
            let mut state = four([6_000; 4]);
            state.slots[slot].stage = stage;
            let mut expected = state;
            expected.latest = Time(5_000);
            expected.slots[slot] = Record::FREE;
            let got = state.drop(Time(5_000), slot as u64);
            assert_eq!(got, Ok(answer(Kind::Dropped, Some(slot), Some(6_000))));
            assert_eq!(state, expected);
            assert_eq!(state.slots[slot].stage, Stage::Free);
        }
    }
}

#[test]
fn four_records_side_by_side() {
    check(&[
        ("fresh_02000000000a", "ok_fresh_-_-_-"),
        ("ask_0_192.0.2.1_1_900", "ok_taken_0_900_-"),
        ("ask_0_192.0.2.2_2_100", "ok_taken_1_100_-"),
        ("ask_0_192.0.2.3_3_1000", "ok_taken_2_100_-"),
        ("ask_0_192.0.2.4_1_100", "ok_taken_3_100_-"),
        ("ask_0_192.0.2.5_1_0", "refused_11"),
        ("tick_100_0", "ok_probe_1_100_probe:2"),
        ("tick_100_0", "ok_probe_3_900_probe:4"),
        ("tick_1000_0", "ok_probe_0_1000_probe:1"),
        ("tick_1000_0", "ok_probe_2_1100_probe:3"),
        ("drop_1000_1", "ok_dropped_1_1100_-"),
        ("tick_1100_500", "ok_probe_3_2000_probe:4"),
    ]);
}
