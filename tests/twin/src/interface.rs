//! "The interface and its four records", and when a state is sound.

use crate::numbers::{Address, Hardware, Time};

/// "Four slots numbered 0 to 3."
pub const SLOTS: usize = 4;

/// MAX_CONFLICTS, the highest conflict count.
pub const MAX_CONFLICTS: u8 = 10;
/// PROBE_NUM, the most probes a record has sent.
pub(crate) const PROBE_NUM: u8 = 3;
/// No deadline is ever set further ahead than this many milliseconds.
const LONGEST_WAIT: u64 = 2_000;
/// Later than every deadline of a sound state.
const NO_DEADLINE: Time = Time(u64::MAX);

/// One network port. Its fields are open, so that any contents, unsound ones
/// too, can be handed to a call.
#[derive(Clone, Copy, Debug, PartialEq, Eq)]
pub struct Interface {
    pub hardware: Hardware,
    /// The latest accepted time.
    pub latest: Time,
    /// The time of the latest accepted request (an ask), or none.
    pub request: Option<Time>,
    pub conflicts: u8,
    pub slots: [Record; SLOTS],
}

/// A slot. In a free one address and policy are zero and mean nothing.
#[derive(Clone, Copy, Debug, PartialEq, Eq)]
pub struct Record {
    pub address: Address,
    pub policy: u8,
    pub stage: Stage,
}

/// The stage of a slot. The last two are usable and carry the time of the
/// last conflict seen, or none.
#[derive(Clone, Copy, Debug, PartialEq, Eq)]
pub enum Stage {
    Free,
    Probing {
        sent: u8,
        deadline: Time,
    },
    Announced {
        deadline: Time,
        conflict: Option<Time>,
    },
    Settled {
        conflict: Option<Time>,
    },
}

impl Interface {
    /// "Before the first `fresh` is accepted the state is all zeros."
    pub const ZERO: Interface = Interface {
        hardware: Hardware::ZERO,
        latest: Time(0),
        request: None,
        conflicts: 0,
        slots: [Record::FREE; SLOTS],
    };

    /// "A state is sound if": exactly if all of these hold.
    #[inline]
    pub fn is_sound(&self) -> bool {
        self.hardware.can_be_own()
            && self.latest.in_range()
            && self.conflicts <= MAX_CONFLICTS
            && is_no_later(self.request, self.latest)
            && self
                .slots
                .iter()
                .fold(true, |sound, slot| sound & slot.is_sound(self.latest))
            && self.holds_none_twice()
    }

    /// "No address is held twice."
    #[inline]
    fn holds_none_twice(&self) -> bool {
        // A free slot has a number of its own above all addresses.
        let held: [u64; SLOTS] = std::array::from_fn(|slot| match self.slots[slot].held() {
            Some(address) => u64::from(address.0),
            None => u64::MAX - slot as u64,
        });
        let differ = |one: usize, other: usize| held[one] != held[other];
        differ(0, 1) & differ(0, 2) & differ(0, 3) & differ(1, 2) & differ(1, 3) & differ(2, 3)
    }

    /// The records that are not free.
    #[inline]
    pub fn records(&self) -> impl Iterator<Item = &Record> {
        self.slots.iter().filter(|slot| slot.is_held())
    }

    /// Whether some slot holds the address.
    #[inline]
    pub fn holds(&self, address: Address) -> bool {
        self.slots.iter().any(|slot| slot.held() == Some(address))
    }

    #[inline]
    pub fn lowest_free_slot(&self) -> Option<usize> {
        self.slots.iter().position(|slot| !slot.is_held())
    }

    /// The deadlines, in the order of the slots.
    #[inline]
    pub fn deadlines(&self) -> impl Iterator<Item = Time> {
        self.slots.iter().filter_map(|slot| slot.stage.deadline())
    }

    /// The slot with the earliest deadline of a sound state, the lowest on a
    /// tie.
    #[inline]
    pub fn earliest(&self) -> Option<(usize, Time)> {
        let mut least = (0, NO_DEADLINE);
        for (slot, record) in self.slots.iter().enumerate() {
            let deadline = record.stage.deadline().unwrap_or(NO_DEADLINE);
            if deadline < least.1 {
                least = (slot, deadline);
            }
        }
        (least.1 != NO_DEADLINE).then_some(least)
    }

    /// "The smallest deadline left or none."
    #[inline]
    pub fn next_deadline(&self) -> Option<Time> {
        self.earliest().map(|(_, deadline)| deadline)
    }
}

impl Record {
    pub const FREE: Record = Record {
        address: Address::ZERO,
        policy: 0,
        stage: Stage::Free,
    };

    #[inline]
    pub fn is_held(&self) -> bool {
        self.stage != Stage::Free
    }

    /// The address held, or none in a free slot.
    #[inline]
    fn held(&self) -> Option<Address> {
        self.is_held().then_some(self.address)
    }

    #[inline]
    fn is_sound(&self, latest: Time) -> bool {
        !self.is_held()
            | (self.address.is_allowed()
                & (1..=3).contains(&self.policy)
                & self.stage.is_sound(latest))
    }
}

impl Stage {
    #[inline]
    pub fn deadline(&self) -> Option<Time> {
        match *self {
            Stage::Probing { deadline, .. } | Stage::Announced { deadline, .. } => Some(deadline),
            Stage::Free | Stage::Settled { .. } => None,
        }
    }

    /// "The last two stages are *usable*."
    #[inline]
    pub fn is_usable(&self) -> bool {
        matches!(self, Stage::Announced { .. } | Stage::Settled { .. })
    }

    /// The time of the last conflict seen in use.
    #[inline]
    pub fn conflict(&self) -> Option<Time> {
        match *self {
            Stage::Announced { conflict, .. } | Stage::Settled { conflict } => conflict,
            Stage::Free | Stage::Probing { .. } => None,
        }
    }

    #[inline]
    fn is_sound(&self, latest: Time) -> bool {
        let last_deadline = latest.plus(LONGEST_WAIT);
        match *self {
            Stage::Free => true,
            Stage::Probing { sent, deadline } => sent <= PROBE_NUM && deadline <= last_deadline,
            Stage::Announced { deadline, conflict } => {
                deadline <= last_deadline && is_no_later(conflict, latest)
            }
            Stage::Settled { conflict } => is_no_later(conflict, latest),
        }
    }
}

/// "A request time and every conflict time are no later than the latest time."
#[inline]
fn is_no_later(time: Option<Time>, latest: Time) -> bool {
    time.is_none_or(|time| time <= latest)
}
