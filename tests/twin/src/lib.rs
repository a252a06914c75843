//! Address claims on a cabinet's port, as document 01 writes them: the ARP
//! frame reader and writer, the interface with its four records, the widening
//! of the board's clock, and a replay over text lines.
//!
//! Comments quote the sentence of document 01 that a piece of code follows.

mod answer;
mod calls;
mod clock;
mod frame;
mod hex;
mod interface;
mod line;
mod numbers;
mod refusal;
mod replay;
mod scan;

pub use calls::{
    Answer, DEFEND_INTERVAL, Kind, PROBE_MIN, RATE_LIMIT_INTERVAL, SPREAD, known_policy,
};
pub use clock::{Widened, widen};
pub use frame::{FRAME_LEN, Frame, REQUEST};
pub use interface::{Interface, MAX_CONFLICTS, Record, SLOTS, Stage};
pub use line::{Call, DIGITS_MAX, Digits, LINE_MAX, WORDS};
pub use numbers::{Address, Hardware, Time};
pub use refusal::Refusal;
pub use replay::{Replay, replay, replay_with};
