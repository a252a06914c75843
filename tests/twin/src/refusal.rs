//! "Refusal numbers": the table of document 01.

/// Why a call is refused. The lowest number that applies is given.
#[derive(Clone, Copy, Debug, PartialEq, Eq, PartialOrd, Ord)]
#[repr(u8)]
pub enum Refusal {
    StateNotSound = 1,
    OwnHardware = 2,
    TimeAboveRange = 3,
    TimeBelowLatest = 4,
    OutTooShort = 5,
    PacketTooShort = 6,
    NotOurFrame = 7,
    AddressNotAllowed = 8,
    PolicyUnknown = 9,
    AddressHeld = 10,
    NoSlotFree = 11,
    TooManyConflicts = 12,
    SlotNotHeld = 13,
    LineNotInForm = 14,
}

impl Refusal {
    /// The rows of the table.
    pub const ALL: [Refusal; 14] = [
        Refusal::StateNotSound,
        Refusal::OwnHardware,
        Refusal::TimeAboveRange,
        Refusal::TimeBelowLatest,
        Refusal::OutTooShort,
        Refusal::PacketTooShort,
        Refusal::NotOurFrame,
        Refusal::AddressNotAllowed,
        Refusal::PolicyUnknown,
        Refusal::AddressHeld,
        Refusal::NoSlotFree,
        Refusal::TooManyConflicts,
        Refusal::SlotNotHeld,
        Refusal::LineNotInForm,
    ];

    /// The number of the table.
    #[inline]
    pub fn number(self) -> u8 {
        self as u8
    }
}
