//! Calls that fit the state, chosen with the book in hand.

use twin::{Address, Hardware, MAX_CONFLICTS, PROBE_MIN, SLOTS, SPREAD, Time};

use crate::Call;
use crate::book::{Book, Claim, stage_number};
use crate::meeting::{Around, Meeting, packet_bytes};
use crate::random::Random;
use crate::temper::Temper;
use crate::values::{self, APART, BROADCAST, WAITED};

/// A packet's meaning: the claim that it is about and what it is to it.
#[derive(Clone, Copy)]
pub struct Met {
    pub claim: Claim,
    pub meeting: Meeting,
}

pub fn fresh(random: &mut Random) -> Call {
    let refused = random.once_in(2);
    let hardware = if refused {
        values::refused_hardware(random)
    } else {
        values::own_hardware(random)
    };
    Call::Fresh { hardware }
}

pub fn ask(random: &mut Random, book: &Book, temper: &Temper) -> Call {
    let time = asking_time(random, book);
    let mut address = values::address(random);
    for _ in 0..3 {
        if book.state.holds(address) {
            address = values::address(random);
        }
    }
    let policy = match temper.policy {
        Some(policy) if !random.once_in(4) => policy,
        _ => random.between(1, 3),
    };
    let draw = drawing(random, book, time);
    Call::Ask {
        time,
        address,
        policy,
        draw,
    }
}

/// After ten conflicts, a time about 60,000 ms after the latest accepted ask,
/// also with 2^32 ms between.
fn asking_time(random: &mut Random, book: &Book) -> Time {
    let state = &book.state;
    if let (MAX_CONFLICTS, Some(asked), true) = (state.conflicts, state.request, random.once_in(2))
    {
        let time = asked.plus(interval(random, &WAITED));
        if time >= state.latest {
            return time;
        }
    }
    values::later(random, state.latest)
}

/// One of these, at times a far longer one.
fn interval(random: &mut Random, known: &[u64]) -> u64 {
    if random.once_in(10) {
        values::wrapping_step(random)
    } else {
        random.pick(known)
    }
}

pub fn tick(random: &mut Random, book: &Book) -> Call {
    let time = ticking_time(random, book);
    let draw = drawing(random, book, time.plus(PROBE_MIN));
    Call::Tick { time, draw }
}

fn ticking_time(random: &mut Random, book: &Book) -> Time {
    let latest = book.state.latest;
    let Some(deadline) = book.state.next_deadline() else {
        return values::later(random, latest);
    };
    let time = match random.below(128) {
        0..=11 => Time(deadline.0.saturating_sub(1)),
        12..=23 => deadline.plus(1),
        24..=27 => deadline.plus(random.between(10_000, 1_000_000)),
        28..=39 => deadline.plus(random.below(3000)),
        40..=43 => latest,
        44 => deadline.plus(values::wrapping_step(random)),
        _ => deadline,
    };
    time.max(latest).min(Time::LAST)
}

/// A draw, at times one that ties the new deadline with an older one or puts
/// it at the range's end. The shortest wait would end at `least`.
fn drawing(random: &mut Random, book: &Book, least: Time) -> u32 {
    let spread = u64::from(SPREAD);
    if random.once_in(3) {
        let ties = |deadline: &Time| (least..least.plus(spread)).contains(deadline);
        let edge = Time::LAST.plus(random.below(2));
        if let Some(deadline) = book.state.deadlines().chain([edge]).find(ties) {
            let rest = deadline.since(least);
            return (rest + spread * random.below((u64::from(u32::MAX) - rest) / spread)) as u32;
        }
    }
    values::draw(random)
}

/// A packet about one of the claims, or nothing if there is none to choose.
pub fn packet(random: &mut Random, book: &Book, temper: &Temper) -> Option<(Call, Met)> {
    let own = book.state.hardware;
    let claim = claim(random, book, temper)?;
    let meeting = meeting(random, &claim);
    let address = claim.record.address;
    let elsewhere = elsewhere(random, book, address);
    let target = match random.below(4) {
        0 => elsewhere,
        1 => values::address(random),
        2 => address,
        _ => {
            let last = book.state.records().last();
            last.map_or(Address::ZERO, |record| record.address)
        }
    };
    let other = values::other_hardware(random, own);
    let target_hardware = random.pick(&[Hardware::ZERO, BROADCAST, own, other]);
    let around = Around {
        own,
        other,
        elsewhere,
        target,
        target_hardware,
    };
    let mut bytes = packet_bytes(meeting, address, &around);
    lengthen(random, &mut bytes);
    let time = meeting_time(random, book, &claim);
    Some((Call::Packet { time, bytes }, Met { claim, meeting }))
}

/// An address that nobody claims, half of the time near to this one.
fn elsewhere(random: &mut Random, book: &Book, address: Address) -> Address {
    let near = values::near(random, address);
    let free = near != Address::ZERO && near != address && !book.state.holds(near);
    if free && random.once_in(2) {
        near
    } else {
        Address::from_bytes([10, 255, random.byte(), random.byte()])
    }
}

/// A packet of another machine that has this address as its own.
pub fn claimed(random: &mut Random, book: &Book, claim: Claim) -> (Call, Met) {
    let own = book.state.hardware;
    let address = claim.record.address;
    let around = Around {
        own,
        other: values::other_hardware(random, own),
        elsewhere: Address::ZERO,
        target: address,
        target_hardware: Hardware::ZERO,
    };
    let meeting = Meeting::OtherRequest;
    let bytes = packet_bytes(meeting, address, &around);
    let time = book.state.latest;
    (Call::Packet { time, bytes }, Met { claim, meeting })
}

/// The claim that the next packet is about: one in the temper's stage, or any.
fn claim(random: &mut Random, book: &Book, temper: &Temper) -> Option<Claim> {
    if !book.has_begun() {
        return None;
    }
    if random.once_in(10) {
        return book
            .ended
            .filter(|ended| !book.state.holds(ended.record.address));
    }
    let wanted = |claim: &Claim| temper.stages.contains(&stage_number(claim.record.stage));
    let count = book.claims().filter(wanted).count();
    if count == 0 {
        return None;
    }
    book.claims().filter(wanted).nth(random.index(count))
}

/// Any meaning; for a claim in use, more often a conflict.
fn meeting(random: &mut Random, claim: &Claim) -> Meeting {
    if claim.record.stage.is_usable() && random.once_in(2) {
        return random.pick(&[Meeting::OtherRequest, Meeting::OtherReply]);
    }
    random.pick(&Meeting::ALL).0
}

/// A time about 10,000 ms after the claim's last conflict, also with 2^32 ms
/// between, or soon.
fn meeting_time(random: &mut Random, book: &Book, claim: &Claim) -> Time {
    let latest = book.state.latest;
    if let (Some(conflict), false) = (claim.conflict, random.once_in(4)) {
        let time = conflict.time.plus(interval(random, &APART));
        if (latest..=Time::LAST).contains(&time) {
            return time;
        }
    }
    values::later(random, latest)
}

/// Bytes after the 28th, now and then: the reader ignores them.
fn lengthen(random: &mut Random, bytes: &mut Vec<u8>) {
    let more = match random.below(256) {
        0..=7 => 1,
        8..=15 => 18,
        16 => random.below(200),
        17 => 1472,
        _ => 0,
    };
    for _ in 0..more {
        bytes.push(random.byte());
    }
}

pub fn drop(random: &mut Random, book: &Book) -> Call {
    let time = values::later(random, book.state.latest);
    let slots = SLOTS as u64;
    let first = random.below(slots);
    let held = |slot: &u64| book.state.held_slot(*slot).is_some();
    let slot = (first..slots).chain(0..first).find(held).unwrap_or(first);
    Call::Drop { time, slot }
}

/// Any packet in the right form, for a time without claims.
pub fn stray_packet(random: &mut Random, book: &Book) -> Call {
    let around = Around {
        own: book.state.hardware,
        other: random.hardware(),
        elsewhere: random.address(),
        target: random.address(),
        target_hardware: random.hardware(),
    };
    let meeting = random.pick(&Meeting::ALL).0;
    let bytes = packet_bytes(meeting, values::address(random), &around);
    let time = values::later(random, book.state.latest);
    Call::Packet { time, bytes }
}
