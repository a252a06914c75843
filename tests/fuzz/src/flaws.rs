//! Calls in the form that have one or two reasons to be refused.

use twin::{FRAME_LEN, SLOTS, Time};

use crate::Call;
use crate::book::Book;
use crate::random::Random;
use crate::values;

/// Spoils a good call. What the state adds, such as "no slot is free", may
/// make it two or three reasons.
pub fn spoil(random: &mut Random, book: &Book, call: &mut Call) {
    let times = if random.once_in(3) { 2 } else { 1 };
    for _ in 0..times {
        spoil_once(random, book, call);
    }
}

fn spoil_once(random: &mut Random, book: &Book, call: &mut Call) {
    if random.once_in(3) {
        return spoil_time(random, book, call);
    }
    match call {
        Call::Fresh { hardware } => *hardware = values::refused_hardware(random),
        Call::Ask {
            address, policy, ..
        } => match random.below(3) {
            0 => *address = values::refused_address(random),
            1 => *policy = wrong_policy(random, *policy),
            _ => {
                if let Some(record) = book.state.records().last() {
                    *address = record.address;
                }
            }
        },
        Call::Tick { .. } => spoil_time(random, book, call),
        Call::Packet { bytes, .. } => {
            if random.once_in(2) {
                spoil_length(random, bytes);
            } else {
                spoil_header(random, bytes);
            }
        }
        Call::Drop { slot, .. } => {
            *slot = if random.once_in(3) {
                random.below(SLOTS as u64)
            } else {
                values::wrong_number(random, *slot)
            }
        }
    }
}

fn spoil_time(random: &mut Random, book: &Book, call: &mut Call) {
    let latest = book.state.latest;
    let wrong = if latest > Time(0) && random.once_in(2) {
        values::early_time(random, latest)
    } else {
        values::late_time(random, latest)
    };
    if let Some(time) = call.time_mut() {
        *time = wrong;
    }
}

fn wrong_policy(random: &mut Random, policy: u64) -> u64 {
    if random.once_in(4) {
        0
    } else {
        values::wrong_number(random, policy)
    }
}

fn spoil_length(random: &mut Random, bytes: &mut Vec<u8>) {
    let length = match random.below(4) {
        0 => 0,
        1 => random.index(FRAME_LEN - 1),
        _ => FRAME_LEN - 1,
    };
    bytes.truncate(length);
}

/// Changes one of the eight bytes that a packet begins with, or the last two.
fn spoil_header(random: &mut Random, bytes: &mut [u8]) {
    let place = random.index(12);
    let Some(byte) = bytes.get_mut(place.min(7)) else {
        return;
    };
    *byte = match place {
        7 => 0,
        8 => 3,
        9 => random.pick(&[4, 5, 6, 8, 9, 129, 130, 255]),
        10 | 11 => random.byte(),
        _ => *byte ^ (1 << random.below(8)),
    };
    if place == 6 || place == 11 {
        bytes[6] = random.byte();
    }
}
