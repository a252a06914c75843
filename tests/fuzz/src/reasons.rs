//! Which refusals apply to a call, all of them and not the lowest alone, so
//! that the pairs that were met can be counted.

use twin::{FRAME_LEN, Frame, Interface, Refusal, known_policy};

use crate::Call;

/// The calls with a time, and the numbers of the refusals that a replay can
/// show for each.
pub const CALLS: [(&str, &[u8]); 4] = [
    ("ask", &[1, 3, 4, 8, 9, 10, 11, 12]),
    ("tick", &[1, 3, 4]),
    ("packet", &[1, 3, 4, 6, 7]),
    ("drop", &[1, 3, 4, 13]),
];

/// No call meets these two at once: before the first fresh all is zero, the
/// latest time is in range, and a held address is allowed.
const NEVER: [(u8, u8); 6] = [(1, 4), (1, 10), (1, 11), (1, 12), (3, 4), (8, 10)];

/// The names of the pairs that one call can meet.
pub fn pairs() -> Vec<String> {
    let mut names = Vec::new();
    for (word, numbers) in CALLS {
        for (place, one) in numbers.iter().enumerate() {
            let later = numbers[place + 1..].iter();
            let met = later.filter(|two| !NEVER.contains(&(*one, **two)));
            names.extend(met.map(|two| pair(word, *one, *two)));
        }
    }
    names
}

/// The name of a pair that a call with this word meets.
pub fn pair(word: &str, one: u8, two: u8) -> String {
    format!("{word} {one} and {two}")
}

/// The refusals that apply, the one to be given first.
pub fn reasons(state: &Interface, call: &Call) -> Vec<Refusal> {
    let mut found = Vec::new();
    let mut add = |refusal: Refusal, applies: bool| found.extend(applies.then_some(refusal));
    if let Some(time) = call.time() {
        add(Refusal::StateNotSound, !state.is_sound());
        add(Refusal::TimeAboveRange, !time.in_range());
        add(Refusal::TimeBelowLatest, time < state.latest);
    }
    match call {
        Call::Fresh { hardware } => add(Refusal::OwnHardware, !hardware.can_be_own()),
        Call::Ask {
            time,
            address,
            policy,
            ..
        } => {
            add(Refusal::AddressNotAllowed, !address.is_allowed());
            add(Refusal::PolicyUnknown, known_policy(*policy).is_none());
            add(Refusal::AddressHeld, state.holds(*address));
            add(Refusal::NoSlotFree, state.lowest_free_slot().is_none());
            add(Refusal::TooManyConflicts, state.is_rate_limited(*time));
        }
        Call::Tick { .. } => {}
        Call::Packet { bytes, .. } => {
            add(Refusal::PacketTooShort, bytes.len() < FRAME_LEN);
            add(Refusal::NotOurFrame, Frame::read(&filled(bytes)).is_err());
        }
        Call::Drop { slot, .. } => add(Refusal::SlotNotHeld, state.held_slot(*slot).is_none()),
    }
    found
}

/// The first 28 bytes of a packet, zero where it has none.
fn filled(bytes: &[u8]) -> [u8; FRAME_LEN] {
    let mut filled = [0; FRAME_LEN];
    filled
        .iter_mut()
        .zip(bytes)
        .for_each(|(to, from)| *to = *from);
    filled
}
