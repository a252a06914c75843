//! "The board's clock": 32-bit readings widened to times.

use crate::numbers::Time;
use crate::refusal::Refusal;

/// The answer to a reading: "The step is reported in all these cases."
#[derive(Clone, Copy, Debug, PartialEq, Eq)]
pub struct Widened {
    pub step: i32,
    pub time: Result<Time, Refusal>,
}

/// Widens a reading of the board's clock, given the latest time.
pub fn widen(latest: Time, reading: u32) -> Widened {
    // "A latest time already above the range is refusal 3 with step 0."
    if !latest.in_range() {
        return Widened {
            step: 0,
            time: Err(Refusal::TimeAboveRange),
        };
    }
    let step = step_from(latest, reading);
    Widened {
        step,
        time: advance(latest, step),
    }
}

/// "The wrapped difference of the reading and the latest time mod 2^32, read
/// as a signed number."
fn step_from(latest: Time, reading: u32) -> i32 {
    let latest_reading = (latest.0 % (1 << 32)) as u32;
    reading.wrapping_sub(latest_reading) as i32
}

/// "Negative: refusal 4. Else the new time is the latest plus the step, or
/// refusal 3 if above the range."
fn advance(latest: Time, step: i32) -> Result<Time, Refusal> {
    let forward = u64::try_from(step).map_err(|_| Refusal::TimeBelowLatest)?;
    let time = latest.plus(forward);
    if time.in_range() {
        Ok(time)
    } else {
        Err(Refusal::TimeAboveRange)
    }
}
