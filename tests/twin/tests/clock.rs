//! "The board's clock."

mod common;

use common::LAST_TIME;
use twin::{Time, widen};

#[track_caller]
fn widens(latest: u64, reading: u32, step: i32, time: Result<u64, u8>) {
    let got = widen(Time(latest), reading);
    assert_eq!(got.step, step);
    let got = got
        .time
        .map(|time| time.0)
        .map_err(|refusal| refusal.number());
    assert_eq!(got, time);
}

#[test]
fn no_step() {
    widens(0, 0, 0, Ok(0));
    widens(1 << 32, 0, 0, Ok(1 << 32));
}

#[test]
fn the_longest_step_forward() {
    widens(0, 2_147_483_647, 2_147_483_647, Ok(2_147_483_647));
    widens(
        4_294_967_295,
        2_147_483_646,
        2_147_483_647,
        Ok(6_442_450_942),
    );
}

#[test]
fn the_shortest_and_longest_steps_back() {
    widens(1, 0, -1, Err(4));
    widens(0, u32::MAX, -1, Err(4));
    widens(5, 2_147_483_653, -2_147_483_648, Err(4));
}

#[test]
fn backward_just_after_a_rollover() {
    widens(4_294_967_300, 4_294_967_290, -10, Err(4));
}

#[test]
fn up_to_the_end_of_the_range() {
    widens(LAST_TIME - 1, u32::MAX, 1, Ok(LAST_TIME));
    widens(LAST_TIME, u32::MAX, 0, Ok(LAST_TIME));
}

#[test]
fn above_the_range_reports_the_step() {
    widens(LAST_TIME, 0, 1, Err(3));
    widens(LAST_TIME, 2_147_483_646, 2_147_483_647, Err(3));
}

/// (reading clock-order)
#[test]
fn backward_at_the_end_of_the_range() {
    widens(LAST_TIME, u32::MAX - 1, -1, Err(4));
}

#[test]
fn a_latest_time_above_the_range() {
    for reading in [0, 1, 0x7fff_ffff, 0x8000_0000, u32::MAX] {
        widens(LAST_TIME + 1, reading, 0, Err(3));
        widens(u64::MAX, reading, 0, Err(3));
    }
}
