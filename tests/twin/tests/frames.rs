//! "The frame", the read and write calls, and the bytes lent to calls.

mod common;

use common::*;
use twin::{Address, Frame, Hardware, Kind, Refusal, Time};

const ANY: Frame = Frame {
    operation: 2,
    sender_hardware: Hardware(0x0102_0304_0506),
    sender_ip: Address(0x0708_090a),
    target_hardware: Hardware(0x0b0c_0d0e_0f10),
    target_ip: Address(0x1112_1314),
};

const ANY_TEXT: &str = "00010800060400020102030405060708090a0b0c0d0e0f1011121314";

#[test]
fn read_takes_every_field_in_its_place() {
    assert_eq!(Frame::read(&bytes(ANY_TEXT)), Ok(ANY));
}

#[test]
fn read_ignores_bytes_after_the_28th() {
    let mut long = bytes(ANY_TEXT);
    long.extend([0xff; 1_472]);
    assert_eq!(Frame::read(&long), Ok(ANY));
}

/// (reading any-addresses)
#[test]
fn read_takes_any_addresses_at_all() {
    let mut ones = bytes(ANY_TEXT);
    ones[8..].fill(0xff);
    let read = Frame::read(&ones).unwrap();
    assert_eq!(read.sender_hardware, Hardware(0xffff_ffff_ffff));
    assert_eq!(read.target_ip, Address(0xffff_ffff));
    let mut zeros = bytes(ANY_TEXT);
    zeros[8..].fill(0);
    assert!(Frame::read(&zeros).is_ok());
}

#[test]
fn write_spells_every_field_and_leaves_the_rest() {
    let mut out = [0xee; 60];
    assert_eq!(ANY.write(&mut out), Ok(()));
    assert_eq!(out[..28], bytes(ANY_TEXT));
    assert_eq!(out[28..], [0xee; 32]);
}

#[test]
fn write_into_exactly_28_bytes() {
    let mut out = [0xee; 28];
    assert_eq!(ANY.write(&mut out), Ok(()));
    assert_eq!(out[..], bytes(ANY_TEXT));
}

/// (reading hardware-48-bits)
#[test]
fn write_refuses_hardware_of_49_bits() {
    for wrong in [
        Frame {
            sender_hardware: Hardware(1 << 48),
            ..ANY
        },
        Frame {
            target_hardware: Hardware(1 << 48),
            ..ANY
        },
    ] {
        let mut out = [0xee; 28];
        assert_eq!(wrong.write(&mut out), Err(Refusal::NotOurFrame));
        assert_eq!(out, [0xee; 28]);
    }
}

#[test]
fn a_probes_bytes() {
    let mut out = [0xee; 28];
    Frame::probe(OWN, SEVEN).write(&mut out).unwrap();
    assert_eq!(out[..], bytes(&probe_text(SEVEN)));
}

#[test]
fn an_announcements_bytes() {
    let mut out = [0xee; 28];
    Frame::announcement(OWN, SEVEN).write(&mut out).unwrap();
    assert_eq!(out[..], bytes(&claim_text(SEVEN)));
}

#[test]
fn a_ticks_frame_leaves_the_rest_untouched() {
    for (stage, kind, text) in [
        (probing(0, 5), Kind::Probe, probe_text(SEVEN)),
        (probing(1, 5), Kind::Probe, probe_text(SEVEN)),
        (probing(2, 5), Kind::Probe, probe_text(SEVEN)),
        (probing(3, 5), Kind::Announce, claim_text(SEVEN)),
        (announced(5, None), Kind::Announce, claim_text(SEVEN)),
    ] {
        let mut state = holding(5, SEVEN, 1, stage);
        let mut out = [0xee; 64];
        assert_eq!(state.tick(Time(5), 0, &mut out).unwrap().kind, kind);
        assert_eq!(out[..28], bytes(&text));
        assert_eq!(out[28..], [0xee; 36]);
    }
}

#[test]
fn a_tick_without_a_frame_touches_nothing() {
    let mut state = holding(5, SEVEN, 1, probing(0, 6));
    let mut out = [0xee; 64];
    assert_eq!(
        state.tick(Time(5), 0, &mut out).unwrap().kind,
        Kind::Nothing
    );
    assert_eq!(out, [0xee; 64]);
}

#[test]
fn a_defences_frame_leaves_the_rest_untouched() {
    let mut state = holding(5, SEVEN, 2, settled(None));
    let mut out = [0xee; 64];
    let claim = frame(2, OTHER_TEXT, SEVEN, EIGHT);
    let got = state.packet(Time(5), &claim, &mut out).unwrap();
    assert_eq!(got.kind, Kind::Defend);
    assert_eq!(out[..28], bytes(&claim_text(SEVEN)));
    assert_eq!(out[28..], [0xee; 36]);
}

#[test]
fn packets_without_a_frame_touch_nothing() {
    let claim = frame(2, OTHER_TEXT, SEVEN, EIGHT);
    for (policy, stage, kind) in [
        (1, settled(None), Kind::Lost),
        (2, settled(Some(5)), Kind::Lost),
        (3, settled(Some(5)), Kind::Kept),
        (3, probing(0, 5), Kind::Lost),
    ] {
        let mut state = holding(5, SEVEN, policy, stage);
        let mut out = [0xee; 64];
        assert_eq!(state.packet(Time(5), &claim, &mut out).unwrap().kind, kind);
        assert_eq!(out, [0xee; 64]);
    }
    let mut out = [0xee; 64];
    let got = interface(5).packet(Time(5), &claim, &mut out).unwrap();
    assert_eq!(got.kind, Kind::Nothing);
    assert_eq!(out, [0xee; 64]);
}

#[test]
fn every_byte_of_hardware_and_address_is_written_in_hex() {
    check(&[
        ("fresh_fedcba987654", "ok_fresh_-_-_-"),
        ("ask_0_171.205.239.9_1_0", "ok_taken_0_0_-"),
        (
            "tick_0_0",
            "ok_probe_0_1000_0001080006040001fedcba98765400000000000000000000abcdef09",
        ),
    ]);
}
