//! "A state is sound if": each clause broken alone gives 1, its edge does not.

mod common;

use common::*;
use twin::{Address, Hardware, Interface, Record, Stage, Time};

const LATEST: u64 = 50_000;

/// A sound state with one record of every stage.
fn sound() -> Interface {
    let mut state = interface(LATEST);
    state.request = Some(Time(LATEST));
    state.conflicts = 10;
    for (slot, stage) in [
        probing(3, LATEST + 2_000),
        announced(LATEST + 2_000, Some(LATEST)),
        settled(Some(LATEST)),
        settled(None),
    ]
    .into_iter()
    .enumerate()
    {
        state.slots[slot] = Record {
            address: address(slot as u8 + 1),
            policy: slot as u8 % 3 + 1,
            stage,
        };
    }
    state
}

#[track_caller]
fn breaks(change: impl Fn(&mut Interface)) {
    let mut state = sound();
    change(&mut state);
    assert!(!state.is_sound());
    let bytes = frame(1, OTHER_TEXT, EIGHT, EIGHT);
    let now = Time(60_000);
    refuses(&state, 1, |state, _| state.ask(now, EIGHT, 1, 0));
    refuses(&state, 1, |state, out| state.tick(now, 0, out));
    refuses(&state, 1, |state, out| state.packet(now, &bytes, out));
    refuses(&state, 1, |state, _| state.drop(now, 0));
}

#[track_caller]
fn keeps(change: impl Fn(&mut Interface)) {
    let mut state = sound();
    change(&mut state);
    assert!(state.is_sound());
    assert!(state.tick(Time(LAST_TIME), 0, &mut [0; 28]).is_ok());
}

#[test]
fn at_all_edges_at_once() {
    keeps(|_| {});
}

#[test]
fn own_hardware_zero() {
    breaks(|state| state.hardware = Hardware(0));
}

#[test]
fn own_hardware_odd_first_byte() {
    breaks(|state| state.hardware = Hardware(0x0300_0000_000a));
}

/// (reading hardware-48-bits)
#[test]
fn own_hardware_of_49_bits() {
    breaks(|state| state.hardware = Hardware(1 << 48 | 0x0200_0000_000a));
    breaks(|state| state.hardware = Hardware(u64::MAX));
}

#[test]
fn latest_time_above_the_range() {
    breaks(|state| state.latest = Time(LAST_TIME + 1));
    breaks(|state| state.latest = Time(u64::MAX));
    keeps(|state| state.latest = Time(LAST_TIME));
}

#[test]
fn count_above_10() {
    breaks(|state| state.conflicts = 11);
    breaks(|state| state.conflicts = 255);
}

#[test]
fn more_than_3_probes_sent() {
    for slot in 0..4 {
        breaks(|state| state.slots[slot].stage = probing(4, LATEST));
        breaks(|state| state.slots[slot].stage = probing(255, LATEST));
        keeps(|state| state.slots[slot].stage = probing(3, LATEST));
    }
}

#[test]
fn request_after_the_latest_time() {
    breaks(|state| state.request = Some(Time(LATEST + 1)));
    breaks(|state| state.request = Some(Time(u64::MAX)));
    keeps(|state| state.request = None);
}

#[test]
fn conflict_after_the_latest_time() {
    for slot in 0..4 {
        breaks(|state| state.slots[slot].stage = announced(LATEST, Some(LATEST + 1)));
        breaks(|state| state.slots[slot].stage = settled(Some(LATEST + 1)));
        breaks(|state| state.slots[slot].stage = settled(Some(u64::MAX)));
        keeps(|state| state.slots[slot].stage = settled(Some(LATEST)));
    }
}

#[test]
fn deadline_too_far_ahead() {
    for slot in 0..4 {
        breaks(|state| state.slots[slot].stage = probing(0, LATEST + 2_001));
        breaks(|state| state.slots[slot].stage = announced(LATEST + 2_001, None));
        breaks(|state| state.slots[slot].stage = announced(u64::MAX, None));
        keeps(|state| state.slots[slot].stage = announced(LATEST + 2_000, None));
        keeps(|state| state.slots[slot].stage = probing(0, 0));
    }
}

#[test]
fn held_address_not_allowed() {
    for slot in 0..4 {
        for address in [0, 0x00ff_ffff, 0x7f00_0001, 0xe000_0000, 0xffff_ffff] {
            breaks(|state| state.slots[slot].address = Address(address));
        }
        keeps(|state| state.slots[slot].address = Address(0x0100_0000));
        keeps(|state| state.slots[slot].address = Address(0xdfff_ffff));
    }
}

#[test]
fn policy_not_1_2_3() {
    for slot in 0..4 {
        for policy in [0, 4, 255] {
            breaks(|state| state.slots[slot].policy = policy);
        }
        for policy in 1..=3 {
            keeps(|state| state.slots[slot].policy = policy);
        }
    }
}

#[test]
fn an_address_held_twice() {
    for one in 0..4 {
        for other in (0..4).filter(|other| *other != one) {
            breaks(|state| state.slots[one].address = state.slots[other].address);
        }
    }
}

/// (reading free-is-a-stage)
#[test]
fn a_free_slots_address_and_policy_mean_nothing() {
    for slot in 0..4 {
        for address in [0, 0xffff_ffff, sound().slots[(slot + 1) % 4].address.0] {
            keeps(|state| {
                state.slots[slot] = Record {
                    address: Address(address),
                    policy: 200,
                    stage: Stage::Free,
                }
            });
        }
    }
    let mut state = sound();
    for slot in 0..4 {
        state.slots[slot].stage = Stage::Free;
        state.slots[slot].address = SEVEN;
    }
    assert!(state.is_sound());
    state.conflicts = 0;
    assert!(state.ask(Time(LATEST), SEVEN, 1, 0).is_ok());
}

#[test]
fn all_zeros_is_unsound() {
    assert!(!Interface::ZERO.is_sound());
}

#[test]
fn a_fresh_state_is_sound_and_written_out() {
    let (state, report) = Interface::fresh(OWN).unwrap();
    assert!(state.is_sound());
    assert_eq!(state.hardware, OWN);
    assert_eq!(state.latest, Time(0));
    assert_eq!(state.request, None);
    assert_eq!(state.conflicts, 0);
    assert_eq!(state.slots, [Record::FREE; 4]);
    assert_eq!(report, answer(twin::Kind::Fresh, None, None));
}
