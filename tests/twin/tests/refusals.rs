//! Every refusal number in every call that gives it, and the lowest of two.

mod common;

use common::*;
use twin::{Address, Frame, Hardware, Interface, Kind, Record, Refusal, Time};

const ABOVE: Time = Time(LAST_TIME + 1);

fn unsound() -> Interface {
    let mut state = interface(1_000);
    state.conflicts = 11;
    state
}

fn full(latest: u64) -> Interface {
    let mut state = interface(latest);
    for slot in 0..4 {
        state.slots[slot] = Record {
            address: address(slot as u8 + 1),
            policy: 1,
            stage: settled(None),
        };
    }
    state
}

/// Full, count 10, and a request a moment ago.
fn limited(latest: u64) -> Interface {
    let mut state = full(latest);
    state.conflicts = 10;
    state.request = Some(Time(latest));
    state
}

fn good() -> Vec<u8> {
    frame(1, OTHER_TEXT, EIGHT, SEVEN)
}

#[track_caller]
fn fresh_is(hardware: u64, number: Option<u8>) {
    let got = Interface::fresh(Hardware(hardware)).map(|_| ());
    assert_eq!(got.err().map(Refusal::number), number);
}

#[track_caller]
fn ask_is(state: &Interface, time: Time, address: Address, policy: u64, number: u8) {
    refuses(state, number, |state, _| {
        state.ask(time, address, policy, 0)
    });
}

#[track_caller]
fn tick_is(state: &Interface, time: Time, room: usize, number: u8) {
    refuses(state, number, |state, out| {
        state.tick(time, 0, &mut out[..room])
    });
}

#[track_caller]
fn packet_is(state: &Interface, time: Time, bytes: &[u8], room: usize, number: u8) {
    refuses(state, number, |state, out| {
        state.packet(time, bytes, &mut out[..room])
    });
}

#[track_caller]
fn drop_is(state: &Interface, time: Time, slot: u64, number: u8) {
    refuses(state, number, |state, _| state.drop(time, slot));
}

#[test]
fn no_1_ask() {
    ask_is(&unsound(), Time(1_000), SEVEN, 1, 1);
}

#[test]
fn no_1_tick() {
    tick_is(&unsound(), Time(1_000), 28, 1);
}

#[test]
fn no_1_packet() {
    packet_is(&unsound(), Time(1_000), &good(), 28, 1);
}

#[test]
fn no_1_drop() {
    drop_is(&unsound(), Time(1_000), 0, 1);
}

#[test]
fn no_1_before_3_in_every_call() {
    ask_is(&unsound(), ABOVE, SEVEN, 1, 1);
    tick_is(&unsound(), ABOVE, 28, 1);
    packet_is(&unsound(), ABOVE, &good(), 28, 1);
    drop_is(&unsound(), ABOVE, 0, 1);
}

#[test]
fn no_1_before_4_in_every_call() {
    ask_is(&unsound(), Time(0), SEVEN, 1, 1);
    tick_is(&unsound(), Time(0), 28, 1);
    packet_is(&unsound(), Time(0), &good(), 28, 1);
    drop_is(&unsound(), Time(0), 0, 1);
}

#[test]
fn no_1_before_all_the_rest() {
    ask_is(&unsound(), ABOVE, Address(0), 0, 1);
    tick_is(&unsound(), ABOVE, 0, 1);
    packet_is(&unsound(), ABOVE, &[], 0, 1);
    drop_is(&unsound(), ABOVE, 4, 1);
}

#[test]
fn no_2_fresh_with_zero_hardware() {
    fresh_is(0, Some(2));
}

#[test]
fn no_2_fresh_with_an_odd_first_byte() {
    fresh_is(0x0100_0000_0000, Some(2));
    fresh_is(0xffff_ffff_ffff, Some(2));
}

#[test]
fn no_2_is_not_given_for_other_odd_bytes() {
    fresh_is(0x0001_0101_0101, None);
    fresh_is(1, None);
    fresh_is(0xfeff_ffff_ffff, None);
}

#[test]
fn no_2_a_refused_fresh_keeps_the_replays_state() {
    check(&[
        ("fresh_02000000000a", "ok_fresh_-_-_-"),
        ("ask_9_192.0.2.7_1_1", "ok_taken_0_10_-"),
        ("fresh_01000000000a", "refused_2"),
        ("fresh_000000000000", "refused_2"),
        ("tick_9_0", "ok_none_-_10_-"),
    ]);
}

#[test]
fn no_3_in_every_call() {
    let state = full(1_000);
    ask_is(&interface(0), ABOVE, SEVEN, 1, 3);
    tick_is(&state, ABOVE, 28, 3);
    packet_is(&state, ABOVE, &good(), 28, 3);
    drop_is(&state, ABOVE, 0, 3);
    drop_is(&state, Time(u64::MAX), 0, 3);
}

#[test]
fn no_3_is_not_given_for_the_last_time() {
    let mut state = full(LAST_TIME);
    let got = state.drop(Time(LAST_TIME), 0);
    assert_eq!(got, Ok(answer(Kind::Dropped, Some(0), None)));
}

#[test]
fn no_3_before_5_6_8_and_13() {
    let state = interface(1_000);
    tick_is(&state, ABOVE, 27, 3);
    packet_is(&state, ABOVE, &[], 0, 3);
    packet_is(&state, ABOVE, &[], 28, 3);
    ask_is(&state, ABOVE, Address(0), 0, 3);
    drop_is(&state, ABOVE, 4, 3);
}

#[test]
fn no_4_in_every_call() {
    let state = full(1_000);
    ask_is(&interface(1_000), Time(999), SEVEN, 1, 4);
    tick_is(&state, Time(999), 28, 4);
    packet_is(&state, Time(999), &good(), 28, 4);
    drop_is(&state, Time(999), 0, 4);
}

#[test]
fn no_4_is_not_given_for_the_same_time() {
    let mut state = full(1_000);
    assert!(state.tick(Time(1_000), 0, &mut [0; 28]).is_ok());
    assert!(state.packet(Time(1_000), &good(), &mut [0; 28]).is_ok());
    assert!(state.drop(Time(1_000), 0).is_ok());
    assert!(state.ask(Time(1_000), SEVEN, 1, 0).is_ok());
}

#[test]
fn no_4_before_5_8_and_13() {
    let state = interface(1_000);
    tick_is(&state, Time(0), 27, 4);
    packet_is(&state, Time(0), &[], 27, 4);
    ask_is(&state, Time(0), Address(0), 0, 4);
    drop_is(&state, Time(0), 4, 4);
}

/// (reading room-by-length)
#[test]
fn no_5_tick_with_and_without_a_frame_due() {
    tick_is(&interface(0), Time(0), 27, 5);
    tick_is(&interface(0), Time(0), 0, 5);
    tick_is(&holding(0, SEVEN, 1, probing(0, 0)), Time(0), 27, 5);
}

/// (reading room-by-length)
#[test]
fn no_5_packet_with_and_without_a_conflict() {
    packet_is(&interface(0), Time(0), &good(), 27, 5);
    let state = holding(0, EIGHT, 2, settled(None));
    packet_is(&state, Time(0), &good(), 27, 5);
}

#[test]
fn no_5_write() {
    let mut out = [0xee; 27];
    let probe = Frame::probe(OWN, SEVEN);
    assert_eq!(probe.write(&mut out), Err(Refusal::OutTooShort));
    assert_eq!(out, [0xee; 27]);
}

/// (reading lowest-number)
#[test]
fn no_5_before_6_and_7() {
    packet_is(&interface(0), Time(0), &[], 27, 5);
    packet_is(&interface(0), Time(0), &[0; 28], 27, 5);
    let wrong = Frame {
        operation: 3,
        ..Frame::probe(OWN, SEVEN)
    };
    assert_eq!(wrong.write(&mut [0; 27]), Err(Refusal::OutTooShort));
}

#[test]
fn no_6_packet_and_read() {
    for len in 0..28 {
        packet_is(&interface(0), Time(0), &good()[..len], 28, 6);
        assert_eq!(Frame::read(&good()[..len]), Err(Refusal::PacketTooShort));
    }
}

#[test]
fn no_6_before_7() {
    packet_is(&interface(0), Time(0), &[0xff; 27], 28, 6);
    assert_eq!(Frame::read(&[0xff; 27]), Err(Refusal::PacketTooShort));
}

#[test]
fn no_7_for_each_of_the_first_six_bytes() {
    for at in 0..6 {
        for bit in 0..8 {
            let mut bytes = good();
            bytes[at] ^= 1 << bit;
            packet_is(&interface(0), Time(0), &bytes, 28, 7);
            assert_eq!(Frame::read(&bytes), Err(Refusal::NotOurFrame));
        }
    }
}

#[test]
fn no_7_for_other_operations() {
    for operation in [0u16, 3, 4, 0x0100, 0x0101, 0x0102, 0x0201, 0xffff] {
        let mut bytes = good();
        bytes[6..8].copy_from_slice(&operation.to_be_bytes());
        packet_is(&interface(0), Time(0), &bytes, 28, 7);
        assert_eq!(Frame::read(&bytes), Err(Refusal::NotOurFrame));
        let wrong = Frame {
            operation,
            ..Frame::probe(OWN, SEVEN)
        };
        let mut out = [0xee; 40];
        assert_eq!(wrong.write(&mut out), Err(Refusal::NotOurFrame));
        assert_eq!(out, [0xee; 40]);
    }
}

#[test]
fn no_8_every_first_byte() {
    for first in 0..=255u32 {
        let allowed = (1..=223).contains(&first) && first != 127;
        for rest in [0, 0x00ff_ffff] {
            let address = Address(first << 24 | rest);
            assert_eq!(address.is_allowed(), allowed);
            if !allowed {
                ask_is(&interface(0), Time(0), address, 1, 8);
            }
        }
    }
}

#[test]
fn no_8_before_9_11_and_12() {
    ask_is(&interface(0), Time(0), Address(0x7f00_0001), 4, 8);
    ask_is(&limited(0), Time(0), Address(0x7f00_0001), 1, 8);
}

#[test]
fn no_9_every_other_policy() {
    for policy in [0, 4, 255, 256, 257, 258, 259, 1 << 32 | 1, u64::MAX] {
        ask_is(&interface(0), Time(0), SEVEN, policy, 9);
    }
}

#[test]
fn no_9_before_10_11_and_12() {
    ask_is(&full(0), Time(0), address(1), 0, 9);
    ask_is(&limited(0), Time(0), SEVEN, 0, 9);
}

#[test]
fn no_10_in_each_slot_and_stage() {
    for slot in 0..4 {
        for stage in [
            probing(0, 0),
            probing(3, 9),
            announced(9, None),
            settled(None),
        ] {
            let mut state = full(0);
            state.slots[slot].stage = stage;
            ask_is(&state, Time(0), address(slot as u8 + 1), 1, 10);
        }
    }
}

#[test]
fn no_10_before_11_and_12() {
    ask_is(&full(0), Time(0), address(4), 1, 10);
    ask_is(&limited(0), Time(0), address(4), 1, 10);
}

#[test]
fn no_10_before_12_with_a_free_slot() {
    let mut state = limited(0);
    state.slots[0] = Record::FREE;
    ask_is(&state, Time(0), address(4), 1, 10);
}

#[test]
fn no_11_with_four_held() {
    ask_is(&full(0), Time(0), SEVEN, 1, 11);
}

#[test]
fn no_11_before_12() {
    ask_is(&limited(0), Time(0), SEVEN, 1, 11);
}

#[test]
fn no_12_needs_count_10() {
    let mut state = limited(0);
    state.slots[2] = Record::FREE;
    ask_is(&state, Time(59_999), SEVEN, 1, 12);
    state.conflicts = 9;
    let got = state.ask(Time(59_999), SEVEN, 1, 0);
    assert_eq!(got, Ok(answer(Kind::Taken, Some(2), Some(59_999))));
}

#[test]
fn no_12_keeps_the_request_time() {
    let mut state = interface(0);
    state.conflicts = 10;
    state.request = Some(Time(0));
    ask_is(&state, Time(59_999), SEVEN, 1, 12);
    assert!(state.ask(Time(60_000), SEVEN, 1, 0).is_ok());
    assert_eq!(state.request, Some(Time(60_000)));
    ask_is(&state, Time(119_999), EIGHT, 1, 12);
}

#[test]
fn no_13_slots_above_3() {
    for slot in [4, 5, 255, 256, 1 << 32, u64::MAX] {
        drop_is(&full(0), Time(0), slot, 13);
    }
}

#[test]
fn no_13_a_free_slot() {
    for slot in 0..4 {
        let mut state = full(0);
        state.slots[slot] = Record::FREE;
        drop_is(&state, Time(0), slot as u64, 13);
    }
}

#[test]
fn no_13_twice_dropped() {
    check(&[
        ("fresh_02000000000a", "ok_fresh_-_-_-"),
        ("ask_1_192.0.2.7_1_0", "ok_taken_0_1_-"),
        ("drop_2_0", "ok_dropped_0_-_-"),
        ("drop_3_0", "refused_13"),
        ("drop_2_1", "refused_13"),
    ]);
}

#[test]
fn no_14_before_every_other() {
    check(&[
        ("tick_281474976710656_x", "refused_14"),
        ("fresh_00000000000", "refused_14"),
        ("fresh_02000000000a", "ok_fresh_-_-_-"),
        ("ask_281474976710656_0.0.0.0_0_4294967296", "refused_14"),
    ]);
}

#[test]
fn refusals_change_no_latest_time() {
    check(&[
        ("fresh_02000000000a", "ok_fresh_-_-_-"),
        ("ask_500_0.0.0.0_1_0", "refused_8"),
        ("packet_400_00", "refused_6"),
        ("drop_300_0", "refused_13"),
        ("tick_0_0", "ok_none_-_-_-"),
    ]);
}

/// The time since the request is compared whole: 2^32 + 5 is no 5.
#[test]
fn no_12_is_over_2_to_the_32_and_5_ms_later() {
    let conflict = packet(0, &frame_text(1, OTHER_TEXT, SEVEN.0, 0));
    let mut lines = vec![("fresh_02000000000a", "ok_fresh_-_-_-")];
    for _ in 0..10 {
        lines.push(("ask_0_192.0.2.7_1_0", "ok_taken_0_0_-"));
        lines.push((&conflict, "ok_lost_0_-_-"));
    }
    lines.push(("ask_59999_192.0.2.7_1_0", "refused_12"));
    lines.push(("ask_4294967301_192.0.2.7_1_0", "ok_taken_0_4294967301_-"));
    check(&lines);
}

/// A count of 8 bits would be 0 again after 256 conflicts.
#[test]
fn no_12_after_256_conflicts() {
    let mut state = holding(0, SEVEN, 3, settled(None));
    state.request = Some(Time(0));
    let claim = frame(1, OTHER_TEXT, SEVEN, SEVEN);
    for count in 1..=700u32 {
        assert!(state.packet(Time(0), &claim, &mut [0; 28]).is_ok());
        assert_eq!(u32::from(state.conflicts), count.min(10));
    }
    ask_is(&state, Time(59_999), EIGHT, 1, 12);
}
