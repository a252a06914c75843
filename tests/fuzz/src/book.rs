//! How far a history has come: the twin's state, and what the state doesn't
//! keep of the conflicts before it. It steers and counts; no answer is judged
//! by it.

use twin::{Answer, Interface, Kind, Record, SLOTS, Stage, Time};

/// The stages; one that probes stands at the number of probes sent.
pub const STAGES: [&str; 7] = [
    "probing 0",
    "probing 1",
    "probing 2",
    "probing 3",
    "announced",
    "settled",
    "freed",
];
pub const ANNOUNCED: usize = 4;
pub const SETTLED: usize = 5;

/// Where the stage stands in `STAGES`.
pub fn stage_number(stage: Stage) -> usize {
    match stage {
        Stage::Probing { sent, .. } => usize::from(sent),
        Stage::Announced { .. } => ANNOUNCED,
        Stage::Settled { .. } => SETTLED,
        Stage::Free => 6,
    }
}

/// A claim that a packet can be about.
#[derive(Clone, Copy, Debug)]
pub struct Claim {
    pub slot: usize,
    /// Once the claim has ended its stage is free; the rest stays.
    pub record: Record,
    /// The last conflict in use that did not end it.
    pub conflict: Option<Conflict>,
}

#[derive(Clone, Copy, Debug)]
pub struct Conflict {
    pub time: Time,
    /// What was answered.
    pub kind: Kind,
    /// The number of the stage in which it came.
    pub stage: usize,
}

#[derive(Clone, Debug)]
pub struct Book {
    /// All zeros before the first accepted fresh.
    pub state: Interface,
    /// The conflicts since the fresh, without an end at 10.
    pub conflicts: u64,
    /// The last conflict in each slot, also in an earlier use.
    pub last: [Option<Conflict>; SLOTS],
    /// The claim that ended last.
    pub ended: Option<Claim>,
}

impl Book {
    pub fn new(state: Interface) -> Book {
        Book {
            state,
            conflicts: 0,
            last: [None; SLOTS],
            ended: None,
        }
    }

    /// Whether a fresh was accepted.
    pub fn has_begun(&self) -> bool {
        self.state.is_sound()
    }

    /// The claims that are open.
    pub fn claims(&self) -> impl Iterator<Item = Claim> {
        let held = |slot: &usize| self.state.slots[*slot].is_held();
        (0..SLOTS).filter(held).map(|slot| self.claim(slot))
    }

    fn claim(&self, slot: usize) -> Claim {
        let record = self.state.slots[slot];
        let seen = record.stage.conflict().is_some();
        Claim {
            slot,
            record,
            conflict: self.last[slot].filter(|_| seen),
        }
    }

    /// Takes down an accepted call and the state that it made.
    pub fn note(&mut self, answer: Answer, state: &Interface) {
        if answer.kind == Kind::Fresh {
            *self = Book::new(*state);
            return;
        }
        if let Some(slot) = answer.slot {
            self.note_slot(answer.kind, slot, state.latest);
        }
        self.state = *state;
    }

    /// The state is still the one before the call.
    fn note_slot(&mut self, kind: Kind, slot: usize, time: Time) {
        let claim = self.claim(slot);
        if kind.is_conflict() {
            let stage = stage_number(claim.record.stage);
            self.last[slot] = Some(Conflict { time, kind, stage });
            self.conflicts += 1;
        }
        if matches!(kind, Kind::Lost | Kind::Dropped) {
            let stage = Stage::Free;
            let record = Record {
                stage,
                ..claim.record
            };
            self.ended = Some(Claim { record, ..claim });
        }
    }
}
