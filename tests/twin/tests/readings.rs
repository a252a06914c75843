//! Places of document 01 with two readings: the one taken, by its name in
//! docs/DECISIONS.md.

mod common;

use common::*;
use twin::{Address, Frame, Hardware, Interface, Kind, Record, Refusal, Stage, Time, widen};

fn met(state: &mut Interface, time: u64, bytes: &[u8]) -> twin::Answer {
    state.packet(Time(time), bytes, &mut [0; 28]).unwrap()
}

/// (reading none-has-no-slot)
#[test]
fn kind_none_names_no_slot() {
    let mut state = holding(5, SEVEN, 2, settled(None));
    let echo = frame(1, OWN_TEXT, SEVEN, SEVEN);
    assert_eq!(met(&mut state, 5, &echo), answer(Kind::Nothing, None, None));
    let probe = frame(1, OTHER_TEXT, Address(0), SEVEN);
    assert_eq!(
        met(&mut state, 5, &probe),
        answer(Kind::Nothing, None, None)
    );
}

/// (reading malformed-makes-no-call)
#[test]
fn a_line_not_in_the_form_is_14_before_fresh() {
    check(&[("tick_1_x", "refused_14"), ("tick_1_0", "refused_1")]);
}

/// (reading deadline-above-range)
#[test]
fn a_deadline_above_the_range() {
    check(&[
        ("fresh_02000000000a", "ok_fresh_-_-_-"),
        (
            "ask_281474976710655_192.0.2.7_1_1000",
            "ok_taken_0_281474976711655_-",
        ),
        ("tick_281474976710655_0", "ok_none_-_281474976711655_-"),
        ("tick_281474976711655_0", "refused_3"),
        (
            "ask_281474976710655_192.0.2.8_1_0",
            "ok_taken_1_281474976710655_-",
        ),
        (
            "tick_281474976710655_1000",
            "ok_probe_1_281474976711655_probe:8",
        ),
    ]);
    let mut state = holding(LAST_TIME, SEVEN, 1, probing(3, LAST_TIME));
    let got = state.tick(Time(LAST_TIME), 0, &mut [0; 28]);
    assert_eq!(
        got,
        Ok(answer(Kind::Announce, Some(0), Some(LAST_TIME + 2_000)))
    );
    assert!(state.is_sound());
}

/// (reading empty-packet-field)
#[test]
fn an_empty_packet_field_is_in_the_form() {
    check(&[
        ("fresh_02000000000a", "ok_fresh_-_-_-"),
        ("packet_0_", "refused_6"),
        ("packet_0", "refused_14"),
    ]);
}

/// (reading next-of-all-slots)
#[test]
fn overdue_deadlines_are_reported_too() {
    check(&[
        ("fresh_02000000000a", "ok_fresh_-_-_-"),
        ("ask_0_192.0.2.7_1_0", "ok_taken_0_0_-"),
        ("ask_900_192.0.2.8_1_5", "ok_taken_1_0_-"),
        ("drop_900_1", "ok_dropped_1_0_-"),
    ]);
}

/// (reading defence-keeps-deadline)
#[test]
fn a_defence_changes_neither_stage_nor_deadline() {
    let mut state = holding(100, SEVEN, 2, announced(2_000, None));
    let claim = frame(2, OTHER_TEXT, SEVEN, SEVEN);
    let got = met(&mut state, 200, &claim);
    assert_eq!(got, answer(Kind::Defend, Some(0), Some(2_000)));
    assert_eq!(state.slots[0].stage, announced(2_000, Some(200)));
    state.tick(Time(2_000), 0, &mut [0; 28]).unwrap();
    assert_eq!(state.slots[0].stage, settled(Some(200)));
    assert_eq!(met(&mut state, 10_199, &claim).kind, Kind::Lost);
}

/// (reading count-never-falls)
#[test]
fn the_count_falls_only_with_fresh() {
    let mut state = interface(0);
    state.conflicts = 10;
    state.request = Some(Time(0));
    state.ask(Time(600_000), SEVEN, 1, 0).unwrap();
    state.drop(Time(600_000), 0).unwrap();
    assert_eq!(state.conflicts, 10);
    refuses(&state, 12, |state, _| state.ask(Time(600_001), SEVEN, 1, 0));
    let claim = packet(0, &frame_text(2, OTHER_TEXT, SEVEN.0, 0));
    let mut lines = vec![("fresh_02000000000a", "ok_fresh_-_-_-")];
    for _ in 0..10 {
        lines.push(("ask_0_192.0.2.7_1_0", "ok_taken_0_0_-"));
        lines.push((&claim, "ok_lost_0_-_-"));
    }
    lines.push(("ask_0_192.0.2.7_1_0", "refused_12"));
    lines.push(("fresh_02000000000a", "ok_fresh_-_-_-"));
    lines.push(("ask_0_192.0.2.7_1_0", "ok_taken_0_0_-"));
    check(&lines);
}

/// (reading request-is-an-ask)
#[test]
fn a_request_is_an_accepted_ask() {
    let mut state = holding(0, SEVEN, 3, probing(0, 0));
    state.request = Some(Time(0));
    state.conflicts = 10;
    state.tick(Time(59_000), 0, &mut [0; 28]).unwrap();
    assert_eq!(state.request, Some(Time(0)));
    refuses(&state, 12, |state, _| state.ask(Time(59_999), EIGHT, 1, 0));
    assert!(state.ask(Time(60_000), EIGHT, 1, 0).is_ok());
}

/// (reading both-announce)
#[test]
fn both_announcements_have_the_kind_announce() {
    for stage in [probing(3, 0), announced(0, None)] {
        let mut state = holding(0, SEVEN, 1, stage);
        let got = state.tick(Time(0), 0, &mut [0; 28]).unwrap();
        assert_eq!(got.kind, Kind::Announce);
    }
}

/// (reading accepted-sets-time)
#[test]
fn every_accepted_call_sets_the_latest_time() {
    let none = packet(20, &frame_text(1, OTHER_TEXT, EIGHT.0, 0));
    let lost = packet(40, &frame_text(1, OTHER_TEXT, SEVEN.0, 0));
    check(&[
        ("fresh_02000000000a", "ok_fresh_-_-_-"),
        (&none, "ok_none_-_-_-"),
        ("tick_19_0", "refused_4"),
        ("ask_30_192.0.2.7_1_9", "ok_taken_0_39_-"),
        ("tick_29_0", "refused_4"),
        (&lost, "ok_lost_0_-_-"),
        ("tick_39_0", "refused_4"),
        ("ask_40_192.0.2.7_1_9", "ok_taken_0_49_-"),
        ("drop_50_0", "ok_dropped_0_-_-"),
        ("tick_49_0", "refused_4"),
        ("drop_60_0", "refused_13"),
        ("tick_51_0", "ok_none_-_-_-"),
        ("fresh_02000000000a", "ok_fresh_-_-_-"),
        ("tick_0_0", "ok_none_-_-_-"),
    ]);
}

/// (reading unended-line)
#[test]
fn an_unended_line_is_14_and_its_answer_ends() {
    assert_eq!(replay(b"\n"), b"refused\t14\n");
    assert_eq!(replay(b"fresh\t02000000000a"), b"refused\t14\n");
}

/// (reading whole-numbers)
#[test]
fn numbers_are_compared_whole() {
    check(&[
        ("fresh_02000000000a", "ok_fresh_-_-_-"),
        ("ask_0_192.0.2.7_257_0", "refused_9"),
        ("ask_0_192.0.2.7_4294967297_0", "refused_9"),
        ("ask_0_192.0.2.7_1_9", "ok_taken_0_9_-"),
        ("drop_0_256", "refused_13"),
        ("drop_0_4294967296", "refused_13"),
        ("tick_281474976710656_0", "refused_3"),
        ("tick_18446744073709551616_0", "refused_14"),
        ("drop_0_18446744073709551616", "refused_14"),
        ("ask_0_192.0.2.8_18446744073709551616_0", "refused_14"),
    ]);
}

/// (readings addresses-in-form, carriage-return)
#[test]
fn addresses_in_the_form_and_not() {
    check(&[
        ("fresh_02000000000a", "ok_fresh_-_-_-"),
        ("ask_0_0.0.0.0_1_0", "refused_8"),
        ("ask_0_255.255.255.255_1_0", "refused_8"),
        ("ask_0_192.0.2.256_1_0", "refused_14"),
        ("ask_0_192.0.2.01_1_0", "refused_14"),
        ("tick_0_0\r", "refused_14"),
    ]);
}

/// (reading late-echo)
#[test]
fn a_late_echo_of_our_announcement_is_a_conflict() {
    let mut state = holding(0, SEVEN, 3, probing(0, 500));
    let echo = frame(1, OWN_TEXT, SEVEN, SEVEN);
    assert_eq!(met(&mut state, 1, &echo), answer(Kind::Lost, Some(0), None));
}

/// (reading lowest-number)
#[test]
fn the_lowest_number_that_applies() {
    let mut state = interface(10);
    state.conflicts = 11;
    refuses(&state, 1, |state, out| {
        state.packet(Time(0), &[], &mut out[..3])
    });
    state.conflicts = 10;
    refuses(&state, 4, |state, out| {
        state.packet(Time(0), &[], &mut out[..3])
    });
    refuses(&state, 5, |state, out| {
        state.packet(Time(10), &[], &mut out[..3])
    });
    refuses(&state, 6, |state, out| state.packet(Time(10), &[], out));
}

/// (reading hardware-48-bits)
#[test]
fn hardware_is_a_48_bit_number() {
    let wide = Hardware(1 << 48 | 2 << 40);
    assert_eq!(Interface::fresh(wide).err(), Some(Refusal::OwnHardware));
    let mut state = interface(0);
    state.hardware = wide;
    refuses(&state, 1, |state, out| state.tick(Time(0), 0, out));
    let got = Frame::probe(wide, SEVEN).write(&mut [0; 28]);
    assert_eq!(got, Err(Refusal::NotOurFrame));
    assert!(
        Frame::probe(Hardware((1 << 48) - 1), SEVEN)
            .write(&mut [0; 28])
            .is_ok()
    );
}

/// (reading free-is-a-stage)
#[test]
fn a_freed_record_is_zero() {
    let mut state = holding(0, SEVEN, 3, settled(None));
    state.drop(Time(0), 0).unwrap();
    assert_eq!(state.slots[0].address, Address(0));
    assert_eq!(state.slots[0].policy, 0);
    assert_eq!(state.slots[0].stage, Stage::Free);
    let mut state = holding(0, SEVEN, 1, settled(None));
    met(&mut state, 0, &frame(1, OTHER_TEXT, SEVEN, SEVEN));
    assert_eq!(state.slots[0], Record::FREE);
}

/// (reading any-record)
#[test]
fn any_record_can_be_handed_in_and_refused() {
    for (policy, sent) in [(0, 0), (255, 0), (1, 255)] {
        let state = holding(0, SEVEN, policy, probing(sent, 0));
        refuses(&state, 1, |state, out| state.tick(Time(0), 0, out));
    }
}

/// (reading room-by-length)
#[test]
fn refusal_5_without_a_frame_to_write() {
    let state = interface(0);
    refuses(&state, 5, |state, out| {
        state.tick(Time(0), 0, &mut out[..27])
    });
    let bytes = frame(1, OTHER_TEXT, EIGHT, EIGHT);
    refuses(&state, 5, |state, out| {
        state.packet(Time(0), &bytes, &mut out[..27])
    });
}

/// (reading ten-conflicts-no-ask)
#[test]
fn count_10_with_no_request() {
    let mut state = interface(0);
    state.conflicts = 10;
    assert!(state.is_sound());
    let got = state.ask(Time(0), SEVEN, 1, 0);
    assert_eq!(got, Ok(answer(Kind::Taken, Some(0), Some(0))));
}

/// (reading clock-order)
#[test]
fn a_latest_time_above_the_range() {
    for reading in [0, 0x8000_0000, u32::MAX] {
        let widened = widen(Time(LAST_TIME + 1), reading);
        assert_eq!(widened.step, 0);
        assert_eq!(widened.time, Err(Refusal::TimeAboveRange));
    }
}

/// (reading sound-exactly-if)
#[test]
fn sound_exactly_if() {
    // A passed deadline, a conflict before the request: nothing else is asked.
    let mut state = holding(90_000, SEVEN, 1, announced(0, Some(1)));
    state.request = Some(Time(80_000));
    assert!(state.is_sound());
}

/// (reading both-losses-surrender)
#[test]
fn both_ways_of_losing_an_address_in_use() {
    let claim = frame(1, OTHER_TEXT, SEVEN, SEVEN);
    let mut first = holding(0, SEVEN, 1, settled(None));
    assert_eq!(met(&mut first, 0, &claim).kind, Kind::Lost);
    let mut second = holding(0, SEVEN, 2, settled(Some(0)));
    assert_eq!(met(&mut second, 0, &claim).kind, Kind::Lost);
    assert_eq!(first, second);
}

/// (reading refused-fresh)
#[test]
fn a_refused_fresh_changes_nothing() {
    check(&[
        ("fresh_02000000000a", "ok_fresh_-_-_-"),
        ("ask_7_192.0.2.7_1_3", "ok_taken_0_10_-"),
        ("fresh_03000000000a", "refused_2"),
        ("tick_6_0", "refused_4"),
        ("tick_10_0", "ok_probe_0_1010_probe:7"),
    ]);
}

/// (reading document-01-decides)
#[test]
fn document_01_decides_over_rfc_5227() {
    // Defended conflicts count too, over all records, and the interval runs
    // from the latest ask.
    let mut state = holding(0, SEVEN, 3, settled(None));
    let claim = frame(1, OTHER_TEXT, SEVEN, SEVEN);
    for time in 0..10 {
        met(&mut state, time, &claim);
    }
    state.request = Some(Time(5));
    refuses(&state, 12, |state, _| state.ask(Time(60_004), EIGHT, 1, 0));
    assert!(state.ask(Time(60_005), EIGHT, 1, 0).is_ok());
}
