//! Counts the places that an answered call met. The book is the one before
//! the call.

use twin::{
    Address, Answer, DEFEND_INTERVAL, FRAME_LEN, Frame, Hardware, Kind, MAX_CONFLICTS,
    RATE_LIMIT_INTERVAL, REQUEST, Refusal, Time,
};

use crate::Call;
use crate::book::{Book, Claim, Conflict, STAGES, stage_number};
use crate::choose::Met;
use crate::coverage::Coverage;
use crate::meeting::Meeting;
use crate::places::{DEADLINES, LATENESS, NEW_USE, Part, SETTLED_SINCE, WRAPPED, shown_refusals};
use crate::reasons::{pair, reasons};
use crate::values::{ADDRESSES, APART, DRAWS, HARDWARE, WAITED, WRAP};

const LAST_BUT_ONE: u8 = MAX_CONFLICTS - 1;

pub fn answer(coverage: &mut Coverage, answer: Result<Answer, Refusal>) {
    match answer {
        Ok(Answer { kind, next, .. }) => {
            coverage.hit(Part::Kinds, kind as usize);
            if let Some(deadline) = next.filter(|deadline| *deadline >= Time::LAST) {
                let above = deadline.since(Time::LAST).min(2);
                coverage.meet(Part::Times, DEADLINES[above as usize]);
            }
        }
        Err(refusal) => {
            if let Some(row) = shown_refusals().position(|shown| shown == refusal) {
                coverage.hit(Part::Refusals, row);
            }
        }
    }
}

pub fn call(coverage: &mut Coverage, book: &Book, call: &Call, answer: Result<Answer, Refusal>) {
    apply(coverage, book, call, answer.err());
    if let Some(time) = call.time() {
        timed(coverage, book, call.word(), time);
    }
    match call {
        Call::Fresh { hardware } => fresh(coverage, book, *hardware, answer.is_ok()),
        Call::Ask {
            time,
            address,
            draw,
            ..
        } => {
            ask(coverage, book, *time, *address);
            if answer == Err(Refusal::TooManyConflicts) {
                too_many_conflicts(coverage, book);
            }
            if answer.is_ok() {
                drawn(coverage, call.word(), *draw);
            }
        }
        Call::Tick { time, draw } => {
            if let Ok(answer) = answer {
                tick(coverage, book, *time);
                if answer.kind == Kind::Probe {
                    drawn(coverage, call.word(), *draw);
                }
            }
        }
        Call::Packet { bytes, .. } => packet(coverage, book, bytes),
        Call::Drop { .. } => {}
    }
    if answer.is_ok() {
        coverage.hit(Part::InUse, book.state.records().count());
        clock(coverage, book, call);
    }
}

/// Counts the pairs of refusals that apply.
fn apply(coverage: &mut Coverage, book: &Book, call: &Call, refusal: Option<Refusal>) {
    let reasons = reasons(&book.state, call);
    debug_assert_eq!(reasons.first().copied(), refusal, "the first is given");
    for (place, one) in reasons.iter().enumerate() {
        for two in &reasons[place + 1..] {
            let name = pair(call.word(), one.number(), two.number());
            coverage.meet(Part::Pairs, &name);
        }
    }
}

/// Counts the time of a call with this word.
fn timed(coverage: &mut Coverage, book: &Book, word: &str, time: Time) {
    if !book.has_begun() {
        coverage.meet(Part::Before, word);
    }
    let name = match time {
        Time::LAST => "2^48 - 1",
        Time(ms) if ms == Time::LAST.0 + 1 => "2^48",
        Time(u64::MAX) => "2^64 - 1",
        _ if time.plus(1) == book.state.latest => "one before the latest",
        _ => return,
    };
    coverage.meet(Part::Times, &format!("{word} {name}"));
}

/// An accepted call's step over a power of two on which a clock may wrap.
fn clock(coverage: &mut Coverage, book: &Book, call: &Call) {
    let Some(Time(time)) = call.time() else {
        return;
    };
    let Time(latest) = book.state.latest;
    let passes = |edge: u64| latest < edge && edge <= time;
    if time - latest >= WRAP {
        coverage.meet(Part::Times, "2^32 and more in one step");
    } else if passes(1 << 31) {
        coverage.meet(Part::Times, "clock passes 2^31");
    } else if passes(WRAP) {
        coverage.meet(Part::Times, "clock passes 2^32");
    } else if latest / WRAP != time / WRAP {
        coverage.meet(Part::Times, "clock passes another multiple of 2^32");
    }
}

fn fresh(coverage: &mut Coverage, book: &Book, hardware: Hardware, accepted: bool) {
    if let Some(row) = HARDWARE.iter().position(|known| *known == hardware) {
        coverage.hit(Part::Freshes, row);
    }
    let claims = book.state.records().next().is_some();
    let name = match (accepted, claims) {
        (true, false) => "accepted with nothing held",
        (true, true) => "accepted with a claim open",
        (false, false) if !book.has_begun() => "refused before the first",
        (false, false) => "refused with nothing held",
        (false, true) => "refused with a claim open",
    };
    coverage.meet(Part::Freshes, name);
}

fn ask(coverage: &mut Coverage, book: &Book, time: Time, address: Address) {
    if let Some(row) = ADDRESSES.iter().position(|known| *known == address) {
        coverage.hit(Part::Addresses, row);
    }
    let Some(asked) = book.state.request.filter(|asked| *asked <= time) else {
        return;
    };
    let after = time.since(asked);
    match book.state.conflicts {
        MAX_CONFLICTS => after_ten(coverage, after),
        LAST_BUT_ONE if after < RATE_LIMIT_INTERVAL => {
            coverage.meet(Part::Rate, "ask soon after the request with 9 conflicts")
        }
        _ => {}
    }
}

/// Counts an ask this long after the latest accepted one, after ten conflicts.
fn after_ten(coverage: &mut Coverage, after: u64) {
    const WRAPPED_LIMIT: u64 = WRAP + RATE_LIMIT_INTERVAL;
    let name = match after {
        0 => "ask 0 ms after",
        _ if after == WAITED[0] => "ask 59,999 ms after the request",
        _ if after == WAITED[1] => "ask 60,000 ms after",
        _ if after == WAITED[2] => "ask 60,001 ms after",
        WRAP..WRAPPED_LIMIT => "ask 2^32 and under 60,000 ms after the request",
        _ => return,
    };
    coverage.meet(Part::Rate, name);
}

fn too_many_conflicts(coverage: &mut Coverage, book: &Book) {
    if book.conflicts >= 256 {
        coverage.meet(Part::Rate, "refused after 256 conflicts or more");
    }
    if book.state.request == Some(Time(0)) {
        coverage.meet(Part::Rate, "refused with the request at time 0");
    }
}

fn drawn(coverage: &mut Coverage, word: &str, draw: u32) {
    if DRAWS.contains(&draw) {
        coverage.meet(Part::Draws, &format!("{word} {draw}"));
    }
}

fn tick(coverage: &mut Coverage, book: &Book, time: Time) {
    let Some((slot, deadline)) = book.state.earliest() else {
        return coverage.meet(Part::Overdue, "nothing waited for");
    };
    let lateness = match time.0.wrapping_sub(deadline.0) {
        u64::MAX => Some(0),
        0 => Some(1),
        1 => Some(2),
        late if late >= 10_000 && time > deadline => Some(3),
        _ => None,
    };
    if let Some(row) = lateness {
        let stage = stage_number(book.state.slots[slot].stage);
        coverage.hit(Part::Ticks, stage * LATENESS.len() + row);
    }
    several_due(coverage, book, time, deadline);
}

fn several_due(coverage: &mut Coverage, book: &Book, time: Time, earliest: Time) {
    let deadlines = || book.state.deadlines();
    let overdue = deadlines().filter(|deadline| *deadline <= time).count();
    if overdue < 2 {
        return;
    }
    coverage.hit(Part::Overdue, overdue - 2);
    match deadlines().filter(|deadline| *deadline == earliest).count() {
        1 => {}
        2 => coverage.meet(Part::Overdue, "tie of two"),
        _ => coverage.meet(Part::Overdue, "tie of three"),
    }
    let lowest = deadlines().find(|deadline| *deadline <= time);
    if lowest != Some(earliest) {
        coverage.meet(Part::Overdue, "a higher slot served first");
    }
}

fn packet(coverage: &mut Coverage, book: &Book, bytes: &[u8]) {
    let length = match bytes.len() {
        0 => "0 bytes",
        1..=26 => "1 to 26 bytes",
        27 => "27 bytes",
        28 => "28 bytes",
        29 => "29 bytes",
        30..=1499 => "30 to 1,499 bytes",
        _ => "1,500 bytes",
    };
    coverage.meet(Part::Packets, length);
    if bytes.len() >= FRAME_LEN {
        header(coverage, bytes);
    }
    if let Ok(frame) = Frame::read(bytes) {
        let sender = "sender IP one bit from a claimed one";
        near(coverage, book, frame.sender_ip, sender);
        let target = "target IP one bit from a claimed one";
        near(coverage, book, frame.target_ip, target);
    }
}

/// Counts the first byte that is wrong, or the operation.
fn header(coverage: &mut Coverage, bytes: &[u8]) {
    if let Some(place) = (0..7).find(|place| bytes[*place] != REQUEST[*place]) {
        return coverage.meet(Part::Packets, &format!("byte {place} wrong"));
    }
    let operation = match bytes[7] {
        0 => "operation 0",
        1 | 2 => "operation 1 or 2",
        3 => "operation 3",
        _ => "operation 4 to 255",
    };
    coverage.meet(Part::Packets, operation);
}

/// Counts an IP of which one bit is other than a claim's.
fn near(coverage: &mut Coverage, book: &Book, ip: Address, name: &str) {
    let bits = |address: Address| (address.0 ^ ip.0).count_ones();
    if book.state.records().any(|record| bits(record.address) == 1) {
        coverage.meet(Part::Packets, name);
    }
}

/// Counts what an accepted packet was to the claim that it is about.
pub fn meeting(coverage: &mut Coverage, book: &Book, met: &Met, time: Time, kind: Kind) {
    let Met { claim, meeting } = met;
    let stage = stage_number(claim.record.stage);
    let policy = usize::from(claim.record.policy);
    let row = (policy - 1) * Meeting::ALL.len() + *meeting as usize;
    coverage.hit(Part::Meetings, row * STAGES.len() + stage);
    if !kind.is_conflict() {
        return;
    }
    interval(coverage, claim, time);
    new_use(coverage, book, claim, time);
    let deadline = claim.record.stage.deadline();
    if deadline.is_some_and(|deadline| deadline < time) {
        coverage.hit(Part::Passed, stage);
    }
    match book.state.conflicts {
        LAST_BUT_ONE => coverage.meet(Part::Rate, &format!("tenth conflict {}", kind.word())),
        MAX_CONFLICTS => coverage.meet(Part::Rate, "conflict after the tenth"),
        _ => {}
    }
}

fn interval(coverage: &mut Coverage, claim: &Claim, time: Time) {
    let Some(last) = claim.conflict else {
        return;
    };
    let policy = usize::from(claim.record.policy);
    let before = match (policy, last.kind) {
        (2, _) => 0,
        (3, Kind::Defend) => 1,
        _ => 2,
    };
    let apart = time.since(last.time);
    let exact = APART.iter().position(|known| *known == apart);
    if let Some(row) = exact {
        coverage.hit(Part::Intervals, before * APART.len() + row);
    }
    if (WRAP..WRAP + DEFEND_INTERVAL).contains(&apart) && policy >= 2 {
        coverage.meet(Part::Intervals, WRAPPED[policy - 2]);
    }
    let row = if apart < APART[1] { Some(0) } else { exact };
    if let (Some(row), true) = (row, last.stage != stage_number(claim.record.stage)) {
        coverage.meet(Part::Intervals, SETTLED_SINCE[row]);
    }
}

/// The first conflict of a use, soon after one in the slot's use before.
fn new_use(coverage: &mut Coverage, book: &Book, claim: &Claim, time: Time) {
    let Claim { slot, record, .. } = claim;
    let soon = |before: Conflict| time.since(before.time) < DEFEND_INTERVAL;
    let first = record.stage.is_usable() && record.stage.conflict().is_none();
    if first && book.last[*slot].is_some_and(soon) {
        coverage.meet(Part::Intervals, NEW_USE[usize::from(record.policy) - 1]);
    }
}
