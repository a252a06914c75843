//! "Calls": fresh, ask, tick, packet and drop.
//!
//! A refusal leaves the state and the out buffer as they were: each call makes
//! all its tests, in the order of their numbers, before it writes anything.
//!
//! The public calls test any state for soundness; those named `..._with` only
//! one that isn't known to be sound.

use crate::frame::{FRAME_LEN, Frame};
use crate::interface::{Interface, MAX_CONFLICTS, PROBE_NUM, Record, Stage};
use crate::numbers::{Address, Hardware, Time};
use crate::refusal::Refusal;

pub const PROBE_MIN: u64 = 1_000;
const ANNOUNCE_WAIT: u64 = 2_000;
const ANNOUNCE_INTERVAL: u64 = 2_000;
pub const RATE_LIMIT_INTERVAL: u64 = 60_000;
pub const DEFEND_INTERVAL: u64 = 10_000;
/// The first wait runs over 0..=PROBE_WAIT and a probe gap over
/// PROBE_MIN..=PROBE_MAX: 1,001 values each.
pub const SPREAD: u32 = 1_001;

/// What an accepted call did.
#[derive(Clone, Copy, Debug, PartialEq, Eq)]
pub enum Kind {
    Fresh,
    Taken,
    /// Written `none`.
    Nothing,
    Probe,
    Announce,
    Defend,
    Lost,
    Kept,
    Dropped,
}

/// "Every accepted call reports a kind, the slot concerned or none, and the
/// smallest deadline left or none."
#[derive(Clone, Copy, Debug, PartialEq, Eq)]
pub struct Answer {
    pub kind: Kind,
    pub slot: Option<usize>,
    pub next: Option<Time>,
}

/// What is known beforehand of the state that a call is handed.
#[derive(Clone, Copy, Debug, PartialEq, Eq)]
pub(crate) enum Known {
    Nothing,
    /// It is sound: an accepted fresh made it, or a call that was handed a
    /// sound one.
    Sound,
}

impl Kind {
    pub const ALL: [Kind; 9] = [
        Kind::Fresh,
        Kind::Taken,
        Kind::Nothing,
        Kind::Probe,
        Kind::Announce,
        Kind::Defend,
        Kind::Lost,
        Kind::Kept,
        Kind::Dropped,
    ];

    /// Whether the call wrote a frame to the out buffer.
    #[inline]
    pub fn has_frame(self) -> bool {
        matches!(self, Kind::Probe | Kind::Announce | Kind::Defend)
    }

    /// Whether the call, a packet, was a conflict.
    #[inline]
    pub fn is_conflict(self) -> bool {
        matches!(self, Kind::Defend | Kind::Lost | Kind::Kept)
    }
}

impl Interface {
    /// Fresh: "time 0, count 0, no request, four free slots."
    pub fn fresh(hardware: Hardware) -> Result<(Interface, Answer), Refusal> {
        if !hardware.can_be_own() {
            return Err(Refusal::OwnHardware);
        }
        let interface = Interface {
            hardware,
            ..Interface::ZERO
        };
        Ok((interface, interface.report(Kind::Fresh, None)))
    }

    /// Ask: "takes the lowest free slot, probing with none sent, deadline time
    /// + draw mod 1,001."
    #[inline]
    pub fn ask(
        &mut self,
        time: Time,
        address: Address,
        policy: u64,
        draw: u32,
    ) -> Result<Answer, Refusal> {
        self.ask_with(Known::Nothing, time, address, policy, draw)
    }

    #[inline]
    pub(crate) fn ask_with(
        &mut self,
        known: Known,
        time: Time,
        address: Address,
        policy: u64,
        draw: u32,
    ) -> Result<Answer, Refusal> {
        self.admit(known, time)?;
        if !address.is_allowed() {
            return Err(Refusal::AddressNotAllowed);
        }
        let policy = known_policy(policy).ok_or(Refusal::PolicyUnknown)?;
        if self.holds(address) {
            return Err(Refusal::AddressHeld);
        }
        let slot = self.lowest_free_slot().ok_or(Refusal::NoSlotFree)?;
        if self.is_rate_limited(time) {
            return Err(Refusal::TooManyConflicts);
        }
        self.latest = time;
        self.request = Some(time);
        self.slots[slot] = Record {
            address,
            policy,
            stage: Stage::Probing {
                sent: 0,
                deadline: time.plus(first_wait(draw)),
            },
        };
        Ok(self.report(Kind::Taken, Some(slot)))
    }

    /// Tick: "among deadlines not later than the time, serve the earliest, the
    /// lowest slot on a tie; one frame a call."
    #[inline]
    pub fn tick(&mut self, time: Time, draw: u32, out: &mut [u8]) -> Result<Answer, Refusal> {
        self.tick_with(Known::Nothing, time, draw, out)
    }

    #[inline]
    pub(crate) fn tick_with(
        &mut self,
        known: Known,
        time: Time,
        draw: u32,
        out: &mut [u8],
    ) -> Result<Answer, Refusal> {
        self.admit(known, time)?;
        let out = room(out)?;
        self.latest = time;
        match self.earliest() {
            Some((slot, deadline)) if deadline <= time => Ok(self.serve(slot, time, draw, out)),
            _ => Ok(self.report(Kind::Nothing, None)),
        }
    }

    /// Packet: "at most one record can be concerned."
    #[inline]
    pub fn packet(&mut self, time: Time, bytes: &[u8], out: &mut [u8]) -> Result<Answer, Refusal> {
        self.packet_with(Known::Nothing, time, bytes, out)
    }

    #[inline]
    pub(crate) fn packet_with(
        &mut self,
        known: Known,
        time: Time,
        bytes: &[u8],
        out: &mut [u8],
    ) -> Result<Answer, Refusal> {
        self.admit(known, time)?;
        let out = room(out)?;
        let frame = Frame::read(bytes)?;
        self.latest = time;
        match self.slot_in_conflict(&frame) {
            Some(slot) => Ok(self.meet_conflict(slot, time, out)),
            None => Ok(self.report(Kind::Nothing, None)),
        }
    }

    /// Drop: "frees it."
    #[inline]
    pub fn drop(&mut self, time: Time, slot: u64) -> Result<Answer, Refusal> {
        self.drop_with(Known::Nothing, time, slot)
    }

    #[inline]
    pub(crate) fn drop_with(
        &mut self,
        known: Known,
        time: Time,
        slot: u64,
    ) -> Result<Answer, Refusal> {
        self.admit(known, time)?;
        let slot = self.held_slot(slot).ok_or(Refusal::SlotNotHeld)?;
        self.latest = time;
        self.slots[slot] = Record::FREE;
        Ok(self.report(Kind::Dropped, Some(slot)))
    }

    /// The tests that all calls with a state and a time share: 1, 3 and 4.
    #[inline]
    fn admit(&self, known: Known, time: Time) -> Result<(), Refusal> {
        if known != Known::Sound && !self.is_sound() {
            Err(Refusal::StateNotSound)
        } else if !time.in_range() {
            Err(Refusal::TimeAboveRange)
        } else if time < self.latest {
            Err(Refusal::TimeBelowLatest)
        } else {
            Ok(())
        }
    }

    #[inline]
    fn report(&self, kind: Kind, slot: Option<usize>) -> Answer {
        Answer {
            kind,
            slot,
            next: self.next_deadline(),
        }
    }

    /// "Count is 10, and a request was accepted less than 60,000 ms ago."
    #[inline]
    pub fn is_rate_limited(&self, time: Time) -> bool {
        self.conflicts == MAX_CONFLICTS
            && self
                .request
                .is_some_and(|request| time < request.plus(RATE_LIMIT_INTERVAL))
    }

    /// Sends the frame that a due slot's stage calls for. Every next deadline
    /// is "counted from the time of the call".
    #[inline]
    fn serve(&mut self, slot: usize, time: Time, draw: u32, out: &mut [u8; FRAME_LEN]) -> Answer {
        let own = self.hardware;
        let record = &mut self.slots[slot];
        let (kind, stage) = match record.stage {
            Stage::Probing { sent, .. } if sent < PROBE_NUM => {
                (Kind::Probe, after_probe(sent + 1, time, draw))
            }
            Stage::Probing { .. } => (Kind::Announce, after_first_announcement(time)),
            Stage::Announced { conflict, .. } => (Kind::Announce, Stage::Settled { conflict }),
            // Neither has a deadline, so neither is ever due.
            stage @ (Stage::Free | Stage::Settled { .. }) => (Kind::Nothing, stage),
        };
        match kind {
            Kind::Probe => Frame::probe(own, record.address).put(out),
            Kind::Announce => Frame::announcement(own, record.address).put(out),
            _ => {}
        }
        record.stage = stage;
        self.report(kind, Some(slot))
    }

    /// The record that the frame is a conflict for, if any.
    #[inline]
    fn slot_in_conflict(&self, frame: &Frame) -> Option<usize> {
        let is_ours = frame.sender_hardware == self.hardware;
        self.slots
            .iter()
            .position(|record| record.is_conflict(frame, is_ours))
    }

    /// "A conflict adds one to the count unless it is 10."
    #[inline]
    fn meet_conflict(&mut self, slot: usize, time: Time, out: &mut [u8; FRAME_LEN]) -> Answer {
        self.conflicts = (self.conflicts + 1).min(MAX_CONFLICTS);
        let own = self.hardware;
        let record = &mut self.slots[slot];
        let kind = record.verdict(time);
        match kind {
            Kind::Lost => *record = Record::FREE,
            _ => record.stage.note_conflict(time),
        }
        if kind == Kind::Defend {
            Frame::announcement(own, record.address).put(out);
        }
        self.report(kind, Some(slot))
    }

    /// The slot of that number, if there is one and it is not free.
    #[inline]
    pub fn held_slot(&self, number: u64) -> Option<usize> {
        let slot = usize::try_from(number).ok()?;
        self.slots.get(slot)?.is_held().then_some(slot)
    }
}

impl Record {
    /// "It's a conflict if": the three cases. `is_ours` tells whether the
    /// sender hardware is ours.
    #[inline]
    fn is_conflict(&self, frame: &Frame, is_ours: bool) -> bool {
        let claims_it = frame.sender_ip == self.address;
        let probes_for_it = frame.operation == 1
            && frame.sender_ip == Address::ZERO
            && frame.target_ip == self.address;
        match self.stage {
            Stage::Free => false,
            Stage::Probing { .. } => claims_it || (probes_for_it && !is_ours),
            Stage::Announced { .. } | Stage::Settled { .. } => claims_it && !is_ours,
        }
    }

    /// What a conflict at `time` leads to: "a probing record is lost", "a
    /// usable one goes by policy".
    #[inline]
    fn verdict(&self, time: Time) -> Kind {
        let (Stage::Announced { conflict, .. } | Stage::Settled { conflict }) = self.stage else {
            return Kind::Lost;
        };
        let may_defend = conflict.is_none_or(|last| time.since(last) >= DEFEND_INTERVAL);
        match self.policy {
            1 => Kind::Lost,
            _ if may_defend => Kind::Defend,
            2 => Kind::Lost,
            _ => Kind::Kept,
        }
    }
}

impl Stage {
    /// "Each conflict seen, answered or not, becomes the last one seen."
    #[inline]
    fn note_conflict(&mut self, time: Time) {
        if let Stage::Announced { conflict, .. } | Stage::Settled { conflict } = self {
            *conflict = Some(time);
        }
    }
}

/// The first 28 bytes of the out buffer, or refusal 5.
#[inline]
fn room(out: &mut [u8]) -> Result<&mut [u8; FRAME_LEN], Refusal> {
    out.first_chunk_mut().ok_or(Refusal::OutTooShort)
}

/// A policy number compared whole: 1, 2 or 3.
#[inline]
pub fn known_policy(policy: u64) -> Option<u8> {
    (1..=3).contains(&policy).then_some(policy as u8)
}

/// "The first wait is draw mod 1,001."
#[inline]
fn first_wait(draw: u32) -> u64 {
    u64::from(draw % SPREAD)
}

/// "First or second probe: next deadline time + gap. Third: time + 2,000."
#[inline]
fn after_probe(sent: u8, time: Time, draw: u32) -> Stage {
    let wait = if sent < PROBE_NUM {
        PROBE_MIN + u64::from(draw % SPREAD)
    } else {
        ANNOUNCE_WAIT
    };
    Stage::Probing {
        sent,
        deadline: time.plus(wait),
    }
}

/// "Then the first announcement, deadline time + 2,000."
#[inline]
fn after_first_announcement(time: Time) -> Stage {
    Stage::Announced {
        deadline: time.plus(ANNOUNCE_INTERVAL),
        conflict: None,
    }
}
