//! The values on which a rule turns, and ordinary ones.

use twin::{Address, DEFEND_INTERVAL, Hardware, RATE_LIMIT_INTERVAL, SPREAD, Time};

use crate::random::Random;

/// A number of 32 bits wraps here.
pub const WRAP: u64 = 1 << 32;

pub const DRAWS: [u32; 4] = [0, SPREAD - 1, SPREAD, u32::MAX];

/// Conflicts so far apart: none, and about the interval of defences.
pub const APART: [u64; 4] = [0, DEFEND_INTERVAL - 1, DEFEND_INTERVAL, DEFEND_INTERVAL + 1];

/// After ten conflicts, asks so long after the latest accepted one.
pub const WAITED: [u64; 3] = [
    RATE_LIMIT_INTERVAL - 1,
    RATE_LIMIT_INTERVAL,
    RATE_LIMIT_INTERVAL + 1,
];

/// The edges of "allowed", on both sides.
pub const ADDRESSES: [Address; 12] = [
    Address(0x0000_0000),
    Address(0x00ff_ffff),
    Address(0x0100_0000),
    Address(0x7eff_ffff),
    Address(0x7f00_0000),
    Address(0x7f00_0001),
    Address(0x7fff_ffff),
    Address(0x8000_0000),
    Address(0xdfff_ffff),
    Address(0xe000_0000),
    Address(0xefff_ffff),
    Address(0xffff_ffff),
];

pub const BROADCAST: Hardware = Hardware(0xffff_ffff_ffff);

/// The edges of "own hardware": the first three are refused.
pub const HARDWARE: [Hardware; 5] = [
    Hardware::ZERO,
    Hardware(0x0100_0000_0000),
    BROADCAST,
    Hardware(0x0000_0000_0001),
    Hardware(0xfeff_ffff_ffff),
];

pub fn draw(random: &mut Random) -> u32 {
    if random.once_in(3) {
        random.pick(&DRAWS)
    } else {
        random.word() as u32
    }
}

/// An allowed address: mostly one of few, so that it is asked for again.
pub fn address(random: &mut Random) -> Address {
    loop {
        let address = match random.below(8) {
            0 => random.pick(&ADDRESSES),
            1 => random.address(),
            _ => Address::from_bytes([192, 0, 2, random.between(1, 7) as u8]),
        };
        if address.is_allowed() {
            return address;
        }
    }
}

pub fn refused_address(random: &mut Random) -> Address {
    loop {
        let mut address = random.pick(&ADDRESSES);
        if random.once_in(4) {
            address = random.address();
        }
        if !address.is_allowed() {
            return address;
        }
    }
}

/// Hardware that a fresh takes.
pub fn own_hardware(random: &mut Random) -> Hardware {
    loop {
        let hardware = match random.below(8) {
            0 => random.pick(&HARDWARE),
            _ => random.hardware(),
        };
        if hardware.can_be_own() {
            return hardware;
        }
    }
}

/// Hardware that a fresh refuses.
pub fn refused_hardware(random: &mut Random) -> Hardware {
    match random.below(4) {
        3 => Hardware(random.hardware().0 | 1 << 40),
        edge => HARDWARE[edge as usize],
    }
}

/// Another machine's hardware: any but `own`, at times one bit away from it.
pub fn other_hardware(random: &mut Random, own: Hardware) -> Hardware {
    let hardware = match random.below(4) {
        0 => random.pick(&HARDWARE),
        1 => {
            let mut near = own.bytes();
            near[random.index(6)] ^= 1 << random.below(8);
            Hardware::from_bytes(near)
        }
        _ => random.hardware(),
    };
    if hardware == own {
        return Hardware(own.0 ^ 1);
    }
    hardware
}

/// A time above the range.
pub fn late_time(random: &mut Random, latest: Time) -> Time {
    let first = Time::LAST.0 + 1;
    Time(match random.below(6) {
        0 | 1 => first,
        2 => u64::MAX,
        3 => first + latest.0,
        4 => (1 << 63) + latest.0,
        _ => random.between(first, u64::MAX),
    })
}

/// A time below `latest`, which is not 0.
pub fn early_time(random: &mut Random, latest: Time) -> Time {
    Time(match random.below(4) {
        0 | 1 => latest.0 - 1,
        2 => 0,
        _ => random.below(latest.0),
    })
}

/// A time not long after `latest`, in range; seldom one long after it.
pub fn later(random: &mut Random, latest: Time) -> Time {
    let step = match random.below(120) {
        0 => wrapping_step(random),
        1..=59 => 0,
        60..=79 => 1,
        80..=99 => random.below(50),
        100..=109 => random.below(1000),
        _ => random.below(4000),
    };
    latest.plus(step).min(Time::LAST)
}

/// A step that looks short or negative if its upper bits are lost.
pub fn wrapping_step(random: &mut Random) -> u64 {
    let long = match random.below(8) {
        0 => 1 << 16,
        1 => 1 << 31,
        2 => WRAP * random.between(2, 9),
        _ => WRAP,
    };
    long + random.pick(&[0, 5, APART[1], APART[2], WAITED[0], WAITED[1]])
}

/// An address one bit or one byte away.
pub fn near(random: &mut Random, address: Address) -> Address {
    let mut parts = address.bytes();
    let part = &mut parts[random.index(4)];
    *part = if random.once_in(2) {
        *part ^ (1 << random.below(8))
    } else {
        random.byte()
    };
    Address::from_bytes(parts)
}

/// A policy or a slot that is none, at times one whose low bits are `near`.
pub fn wrong_number(random: &mut Random, near: u64) -> u64 {
    let near = near & 3;
    match random.below(6) {
        0 => 4,
        1 => (1 << 8) + near,
        2 => (1 << 32) + near,
        3 => u64::MAX,
        4 => (1 << 63) + near,
        _ => random.between(4, u64::MAX),
    }
}
