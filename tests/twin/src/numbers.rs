//! "An IPv4 address, a time and a hardware address are never interchangeable."

use std::fmt;

/// An IPv4 address, its first byte the most significant.
#[derive(Clone, Copy, Debug, PartialEq, Eq, PartialOrd, Ord, Default)]
pub struct Address(pub u32);

/// A time in milliseconds. Any number can be handed in; see [`Time::in_range`].
#[derive(Clone, Copy, Debug, PartialEq, Eq, PartialOrd, Ord, Default)]
pub struct Time(pub u64);

/// A hardware address, its first byte the most significant of 48 bits.
/// A number of 2^48 or more stands for no hardware address.
#[derive(Clone, Copy, Debug, PartialEq, Eq, PartialOrd, Ord, Default)]
pub struct Hardware(pub u64);

impl Address {
    pub const ZERO: Address = Address(0);

    #[inline]
    pub fn from_bytes(bytes: [u8; 4]) -> Address {
        Address(u32::from_be_bytes(bytes))
    }

    #[inline]
    pub fn bytes(self) -> [u8; 4] {
        self.0.to_be_bytes()
    }

    /// "An allowed address has a first byte from 1 to 223, 127 excepted."
    #[inline]
    pub fn is_allowed(self) -> bool {
        let first = self.0 >> 24;
        (1..=223).contains(&first) && first != 127
    }
}

impl Time {
    /// "Times run from 0 to 281,474,976,710,655."
    pub const LAST: Time = Time(281_474_976_710_655);

    #[inline]
    pub fn in_range(self) -> bool {
        self <= Time::LAST
    }

    /// The time `ms` later. It may lie above the range, as a deadline can.
    #[inline]
    pub fn plus(self, ms: u64) -> Time {
        Time(self.0 + ms)
    }

    /// Milliseconds since `earlier`, which is no later than this time.
    #[inline]
    pub fn since(self, earlier: Time) -> u64 {
        self.0 - earlier.0
    }
}

impl Hardware {
    pub const ZERO: Hardware = Hardware(0);

    #[inline]
    pub fn from_bytes([a, b, c, d, e, f]: [u8; 6]) -> Hardware {
        Hardware(u64::from_be_bytes([0, 0, a, b, c, d, e, f]))
    }

    /// The bytes of its 48 bits.
    #[inline]
    pub fn bytes(self) -> [u8; 6] {
        let [_, _, bytes @ ..] = self.0.to_be_bytes();
        bytes
    }

    /// Whether this number is a hardware address at all: 48 bits.
    #[inline]
    pub fn is_48_bits(self) -> bool {
        self.0 >> 48 == 0
    }

    /// "The own hardware address isn't zero and its first byte is even."
    #[inline]
    pub fn can_be_own(self) -> bool {
        self.is_48_bits() && self.0 != 0 && (self.0 >> 40) & 1 == 0
    }
}

/// "Four such numbers up to 255, parted by dots."
impl fmt::Display for Address {
    fn fmt(&self, text: &mut fmt::Formatter) -> fmt::Result {
        let [first, second, third, fourth] = self.bytes();
        write!(text, "{first}.{second}.{third}.{fourth}")
    }
}

/// "Hardware exactly 12 digits."
impl fmt::Display for Hardware {
    fn fmt(&self, text: &mut fmt::Formatter) -> fmt::Result {
        write!(text, "{:012x}", self.0)
    }
}
