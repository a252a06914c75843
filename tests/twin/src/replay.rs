//! The replay: records in, answers out.

use std::io::{ErrorKind, Read, Result, Write};

use crate::answer;
use crate::calls::{Answer, Known};
use crate::frame::FRAME_LEN;
use crate::hex;
use crate::interface::Interface;
use crate::line::{Call, LINE_MAX};
use crate::refusal::Refusal;
use crate::scan::find_line_end;

/// How much is read at once.
const READ_ROOM: usize = 256 * 1024;
/// Answers are written out once there are this many bytes of them.
const WRITE_AT: usize = 128 * 1024;

/// A replay between two lines.
#[derive(Clone, Debug)]
pub struct Replay {
    interface: Interface,
    known: Known,
    trusting: bool,
}

impl Default for Replay {
    fn default() -> Self {
        Self::new()
    }
}

impl Replay {
    /// "Before the first `fresh` is accepted the state is all zeros."
    pub fn new() -> Self {
        Replay {
            interface: Interface::ZERO,
            known: Known::Nothing,
            trusting: false,
        }
    }

    /// One that takes its own states for sound once a fresh was accepted, and
    /// tests them no more. Its answers are the same.
    pub fn trusting() -> Self {
        Replay {
            trusting: true,
            ..Self::new()
        }
    }

    /// Appends the answer to one ended record, handed in without its byte 10.
    #[inline]
    pub fn answer(&mut self, line: &[u8], out: &mut Vec<u8>) {
        let mut frame = [0; FRAME_LEN];
        match self.call(line, &mut frame) {
            Ok(answer) => answer::write_answer(&answer, &frame, out),
            Err(refusal) => answer::write_refusal(refusal, out),
        }
    }

    /// The state that the lines so far have made.
    pub fn interface(&self) -> &Interface {
        &self.interface
    }

    /// Makes the call that the line asks for.
    #[inline]
    pub fn call(
        &mut self,
        line: &[u8],
        out: &mut [u8; FRAME_LEN],
    ) -> std::result::Result<Answer, Refusal> {
        let interface = &mut self.interface;
        match Call::read(line).ok_or(Refusal::LineNotInForm)? {
            Call::Fresh { hardware } => {
                let (fresh, answer) = Interface::fresh(hardware)?;
                *interface = fresh;
                if self.trusting {
                    self.known = Known::Sound;
                }
                Ok(answer)
            }
            Call::Ask {
                time,
                address,
                policy,
                draw,
            } => interface.ask_with(self.known, time, address, policy, draw),
            Call::Tick { time, draw } => interface.tick_with(self.known, time, draw, out),
            Call::Packet { time, bytes } => {
                let mut head = [0; FRAME_LEN];
                interface.packet_with(self.known, time, hex::decode_head(bytes.0, &mut head), out)
            }
            Call::Drop { time, slot } => interface.drop_with(self.known, time, slot),
        }
    }
}

/// The whole program: answers every record of the input. Its memory does not
/// grow with the input, nor with a line.
pub fn replay(input: impl Read, output: impl Write) -> Result<()> {
    replay_with(Replay::new(), input, output)
}

/// The same, begun with this replay.
pub fn replay_with(replay: Replay, mut input: impl Read, output: impl Write) -> Result<()> {
    let mut records = Records::new(replay, output);
    // The start of an unended line, then room to read.
    let mut bytes = vec![0; LINE_MAX + READ_ROOM];
    let mut begun = 0;
    loop {
        match input.read(&mut bytes[begun..]) {
            Ok(0) => return records.finish(begun),
            Ok(count) => begun = records.take(&mut bytes[..begun + count], begun)?,
            Err(error) if error.kind() == ErrorKind::Interrupted => {}
            Err(error) => return Err(error),
        }
    }
}

/// The replay with its output and what is known of the line being read.
struct Records<W> {
    replay: Replay,
    answers: Vec<u8>,
    output: W,
    /// The line being read is too long already; its bytes are no longer kept.
    too_long: bool,
}

impl<W: Write> Records<W> {
    fn new(replay: Replay, output: W) -> Self {
        Records {
            replay,
            answers: Vec::with_capacity(2 * WRITE_AT),
            output,
            too_long: false,
        }
    }

    /// Answers the records that end in `bytes`, whose first `begun` bytes hold
    /// no byte 10. Moves an unended rest to the start and returns its length.
    fn take(&mut self, bytes: &mut [u8], begun: usize) -> Result<usize> {
        let mut start = 0;
        let mut searched = begun;
        while let Some(place) = find_line_end(&bytes[searched..]) {
            let end = searched + place;
            self.answer(&bytes[start..end])?;
            start = end + 1;
            searched = start;
        }
        self.write_out()?;
        Ok(self.keep(bytes, start))
    }

    fn answer(&mut self, line: &[u8]) -> Result<()> {
        if self.too_long {
            // "A line that is too long is one record up to its byte 10 and
            // gives one refusal."
            self.refuse();
            self.too_long = false;
        } else {
            self.replay.answer(line, &mut self.answers);
        }
        if self.answers.len() >= WRITE_AT {
            self.write_out()?;
        }
        Ok(())
    }

    fn refuse(&mut self) {
        answer::write_refusal(Refusal::LineNotInForm, &mut self.answers);
    }

    /// Keeps the unended line from `start` on, unless it is too long.
    fn keep(&mut self, bytes: &mut [u8], start: usize) -> usize {
        let len = bytes.len() - start;
        if self.too_long || len > LINE_MAX {
            self.too_long = true;
            return 0;
        }
        bytes.copy_within(start.., 0);
        len
    }

    /// At the end of the input, "an unended last line" is 14.
    fn finish(mut self, begun: usize) -> Result<()> {
        if self.too_long || begun > 0 {
            self.refuse();
        }
        self.write_out()?;
        self.output.flush()
    }

    fn write_out(&mut self) -> Result<()> {
        self.output.write_all(&self.answers)?;
        self.answers.clear();
        Ok(())
    }
}
