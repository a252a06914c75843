//! The places that a run is meant to reach.

use std::fmt::Display;

use twin::{Kind, Refusal, SLOTS};

use crate::book::{ANNOUNCED, STAGES};
use crate::meeting::Meeting;
use crate::mutate::MUTATIONS;
use crate::reasons::{CALLS, pairs};
use crate::values::{ADDRESSES, DRAWS};

/// The tables of places, in the order of `tables`.
#[derive(Clone, Copy)]
pub enum Part {
    Kinds,
    Refusals,
    Pairs,
    Meetings,
    Intervals,
    Passed,
    Rate,
    Ticks,
    Overdue,
    InUse,
    Times,
    Draws,
    Addresses,
    Packets,
    Freshes,
    Before,
    Broken,
    Cuts,
}

/// The titles of the tables and the names of their places.
pub fn tables() -> [(&'static str, Vec<String>); 18] {
    let calls = CALLS.map(|(word, _)| word);
    let meetings = cross(&POLICIES, &Meeting::ALL.map(|(_, name)| name));
    let stages = &STAGES[..=ANNOUNCED];
    [
        ("Kinds", names(Kind::ALL.map(Kind::word))),
        (
            "Refusals (5 can't be seen: the replay lends 28 bytes)",
            names(shown_refusals().map(Refusal::number)),
        ),
        ("Two refusals at once", pairs()),
        (
            "Packets by policy, meaning and stage",
            cross(&meetings, &STAGES),
        ),
        ("Conflicts apart, in ms", intervals()),
        (
            "Conflicts after the deadline, without a tick",
            names(stages),
        ),
        ("Ten conflicts", names(RATE)),
        ("Ticks by stage", cross(stages, &LATENESS)),
        ("Ticks with several deadlines", names(OVERDUE)),
        ("Slots in use at an accepted call", names(0..=SLOTS)),
        ("Times", times(&calls)),
        ("Draws", cross(&["ask", "tick"], &DRAWS)),
        ("Addresses asked for", names(ADDRESSES)),
        ("Packets", names(PACKETS)),
        ("Freshes", names(FRESHES)),
        (
            "Before the first fresh",
            names(["malformed"].into_iter().chain(calls)),
        ),
        (
            "Changed lines",
            names(MUTATIONS.iter().map(|mutation| mutation.name)),
        ),
        ("Cuts", names(CUTS)),
    ]
}

/// The refusals that a replay can show. It lends 28 bytes to each call, so 5
/// (out buffer under 28 bytes) can't be seen in its output.
pub fn shown_refusals() -> impl Iterator<Item = Refusal> {
    let shown = |refusal: &Refusal| *refusal != Refusal::OutTooShort;
    Refusal::ALL.into_iter().filter(shown)
}

fn intervals() -> Vec<String> {
    let mut all = cross(&BEFORE_INTERVALS, &INTERVALS);
    all.extend(names(SETTLED_SINCE));
    all.extend(names(NEW_USE));
    all.extend(names(WRAPPED));
    all
}

fn times(calls: &[&str]) -> Vec<String> {
    let mut all = cross(calls, &TIMES);
    all.extend(names(DEADLINES));
    all.extend(names(CLOCK));
    all
}

fn names<T: ToString>(items: impl IntoIterator<Item = T>) -> Vec<String> {
    items.into_iter().map(|item| item.to_string()).collect()
}

/// Each of the first with each of the second.
fn cross<A: Display, B: Display>(first: &[A], second: &[B]) -> Vec<String> {
    let row = |a| second.iter().map(move |b| format!("{a} {b}"));
    first.iter().flat_map(row).collect()
}

pub const DEADLINES: [&str; 3] = ["deadline 2^48 - 1", "deadline 2^48", "deadline above that"];
const POLICIES: [&str; 3] = ["policy 1:", "policy 2:", "policy 3:"];
const INTERVALS: [&str; 4] = ["0", "9,999", "10,000", "10,001"];
const BEFORE_INTERVALS: [&str; 3] = [
    "policy 2 after defend,",
    "policy 3 after defend,",
    "policy 3 after kept,",
];
pub const SETTLED_SINCE: [&str; 4] = [
    "announced, then settled, under 9,999",
    "announced, then settled, 9,999",
    "announced, then settled, 10,000",
    "announced, then settled, 10,001",
];
/// By policy.
pub const NEW_USE: [&str; 3] = [
    "under 10,000 from the slot's use before, policy 1",
    "the same, policy 2",
    "the same, policy 3",
];
/// By policy, from 2 on.
pub const WRAPPED: [&str; 2] = [
    "2^32 and under 10,000 apart, policy 2",
    "2^32 and under 10,000 apart, policy 3",
];
const RATE: [&str; 12] = [
    "tenth conflict lost",
    "tenth conflict defend",
    "tenth conflict kept",
    "conflict after the tenth",
    "ask 59,999 ms after the request",
    "ask 60,000 ms after",
    "ask 60,001 ms after",
    "ask 0 ms after",
    "ask soon after the request with 9 conflicts",
    "ask 2^32 and under 60,000 ms after the request",
    "refused after 256 conflicts or more",
    "refused with the request at time 0",
];
pub const LATENESS: [&str; 4] = [
    "one before the deadline",
    "on it",
    "one after",
    "10,000 or more after",
];
const OVERDUE: [&str; 7] = [
    "two overdue",
    "three overdue",
    "four overdue",
    "tie of two",
    "tie of three",
    "a higher slot served first",
    "nothing waited for",
];
const TIMES: [&str; 4] = ["2^48 - 1", "2^48", "2^64 - 1", "one before the latest"];
const CLOCK: [&str; 4] = [
    "clock passes 2^31",
    "clock passes 2^32",
    "clock passes another multiple of 2^32",
    "2^32 and more in one step",
];
const PACKETS: [&str; 20] = [
    "0 bytes",
    "1 to 26 bytes",
    "27 bytes",
    "28 bytes",
    "29 bytes",
    "30 to 1,499 bytes",
    "1,500 bytes",
    "byte 0 wrong",
    "byte 1 wrong",
    "byte 2 wrong",
    "byte 3 wrong",
    "byte 4 wrong",
    "byte 5 wrong",
    "byte 6 wrong",
    "operation 0",
    "operation 3",
    "operation 1 or 2",
    "operation 4 to 255",
    "sender IP one bit from a claimed one",
    "target IP one bit from a claimed one",
];
const FRESHES: [&str; 10] = [
    "hardware zero",
    "hardware 010000000000",
    "hardware ffffffffffff",
    "hardware 000000000001",
    "hardware feffffffffff",
    "accepted with nothing held",
    "accepted with a claim open",
    "refused before the first",
    "refused with nothing held",
    "refused with a claim open",
];
const CUTS: [&str; 11] = [
    "inputs in pieces",
    "pieces",
    "pieces of 1 byte",
    "inputs ended after a byte",
    "empty inputs",
    "last lines ended",
    "last lines unended, in the form",
    "last lines unended, malformed",
    "last lines unended, too long",
    "inputs in two pieces, cut at a byte",
    "over 262,144 bytes of answers to 69,632 bytes of input",
];
