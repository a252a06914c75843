//! Writes histories line by line. Each line is answered by the twin as it is
//! written, so that the next one can fit the state.

use twin::{Answer, FRAME_LEN, Interface, MAX_CONFLICTS, Refusal, Replay, Time};

use crate::Call;
use crate::book::Book;
use crate::choose::{self, Met};
use crate::coverage::Coverage;
use crate::flaws;
use crate::mutate::{MUTATIONS, Need};
use crate::observe;
use crate::places::Part;
use crate::random::Random;
use crate::temper::{Opening, Sort, Temper};
use crate::values;

pub struct Generator {
    pub random: Random,
    /// All lines so far, each with its byte 10.
    pub input: Vec<u8>,
    pub lines: u64,
    /// The twin's answer to the last.
    pub answer: Result<Answer, Refusal>,
    pub coverage: Coverage,
    replay: Replay,
    book: Book,
    temper: Temper,
}

impl Generator {
    pub fn new(mut random: Random) -> Generator {
        let temper = Temper::new(&mut random);
        Generator {
            random,
            input: Vec::new(),
            lines: 0,
            answer: Err(Refusal::LineNotInForm),
            coverage: Coverage::new(),
            replay: Replay::new(),
            book: Book::new(Interface::ZERO),
            temper,
        }
    }

    /// An accepted fresh and this many lines after it.
    pub fn history(&mut self, lines: u64) {
        let temper = Temper::new(&mut self.random);
        self.begin(temper);
        for _ in 0..lines {
            self.line();
            if self.book.state.latest == Time::LAST && self.random.once_in(40) {
                return;
            }
        }
    }

    /// A history whose first claim meets this many conflicts in use.
    pub fn quarrel(&mut self, conflicts: u64) {
        let mut temper = Temper::new(&mut self.random);
        temper.start = Time(0);
        temper.opening = Opening::Conflicts(conflicts);
        self.begin(temper);
    }

    /// An accepted fresh, and what the temper does first.
    fn begin(&mut self, temper: Temper) {
        self.temper = temper;
        let hardware = values::own_hardware(&mut self.random);
        self.say(&Call::Fresh { hardware }, None);
        let time = self.temper.start;
        match self.temper.opening {
            Opening::Tick => self.say(&Call::Tick { time, draw: 0 }, None),
            Opening::Losses => {
                for _ in 0..MAX_CONFLICTS {
                    self.claim(time, 1);
                    self.conflict();
                }
            }
            Opening::Conflicts(count) => {
                self.claim(time, 3);
                while let Some(time) = self.next_tick() {
                    self.say(&Call::Tick { time, draw: 0 }, None);
                }
                for _ in 0..count {
                    self.conflict();
                }
                self.claim(self.book.state.latest, 3);
            }
        }
    }

    /// The next deadline, if a tick can serve it.
    fn next_tick(&self) -> Option<Time> {
        self.book
            .state
            .next_deadline()
            .filter(|time| time.in_range())
    }

    fn claim(&mut self, time: Time, policy: u64) {
        let address = values::address(&mut self.random);
        let call = Call::Ask {
            time,
            address,
            policy,
            draw: 0,
        };
        self.say(&call, None);
    }

    /// A conflict for the record in the lowest slot.
    fn conflict(&mut self) {
        let first = self.book.claims().next();
        if let Some(claim) = first {
            let (call, met) = choose::claimed(&mut self.random, &self.book, claim);
            self.say(&call, Some(met));
        }
    }

    /// At least 70,000 lines of 0 to 3 bytes, the first 60,000 of them empty: so
    /// many that one piece of 32 KiB is nearly all of them.
    pub fn short_lines(&mut self) {
        let wanted = self.lines + self.random.between(70_000, 90_000);
        let mut most = 0;
        let mut left = 60_000;
        while self.lines < wanted {
            if left == 0 {
                most = self.random.below(4);
                left = self.random.between(1, 10_000);
            }
            left -= 1;
            let start = self.input.len();
            for _ in 0..self.random.between(0, most) {
                let byte = self.random.pick(b"\t\r 0123456789abcdefkpst\x00\xff");
                self.input.push(byte);
            }
            self.answer_from(start);
        }
    }

    /// Lines without an accepted fresh, for the state before the first.
    pub fn unborn(&mut self, lines: u64) {
        for _ in 0..lines {
            let mut call = self.any_call();
            if let Call::Fresh { hardware } = &mut call {
                *hardware = values::refused_hardware(&mut self.random);
            }
            match self.random.below(4) {
                0 => flaws::spoil(&mut self.random, &self.book, &mut call),
                1 if !matches!(call, Call::Fresh { .. }) => {
                    self.broken(&call);
                    continue;
                }
                _ => {}
            }
            self.say(&call, None);
        }
    }

    /// One line of the sort that the temper gives.
    pub fn line(&mut self) {
        let sort = self.sort();
        let random = &mut self.random;
        match sort {
            Sort::Ask => {
                let call = choose::ask(random, &self.book, &self.temper);
                self.say(&call, None);
            }
            Sort::Tick => self.tick(),
            Sort::Meet => match choose::packet(random, &self.book, &self.temper) {
                Some((call, met)) => self.say(&call, Some(met)),
                None => self.tick(),
            },
            Sort::Drop => {
                let call = choose::drop(random, &self.book);
                self.say(&call, None);
            }
            Sort::Fresh => {
                let call = choose::fresh(random);
                self.say(&call, None);
            }
            Sort::Flawed => {
                let mut call = self.any_call();
                flaws::spoil(&mut self.random, &self.book, &mut call);
                self.say(&call, None);
            }
            Sort::Broken => self.broken_line(),
        }
    }

    /// The temper's sort, or another where that one would change nothing:
    /// seldom a tick with nothing to wait for, or an ask without a free slot.
    fn sort(&mut self) -> Sort {
        let sort = self.temper.sort(&mut self.random);
        let full = self.book.state.lowest_free_slot().is_none();
        let waiting = self.next_tick().is_some();
        match sort {
            _ if self.random.once_in(6) => sort,
            Sort::Tick if !waiting && !full => Sort::Ask,
            Sort::Tick if !waiting => Sort::Drop,
            Sort::Ask if full && waiting => Sort::Tick,
            Sort::Ask if full => Sort::Meet,
            _ => sort,
        }
    }

    fn tick(&mut self) {
        let call = choose::tick(&mut self.random, &self.book);
        self.say(&call, None);
    }

    /// Any call that fits the state.
    fn any_call(&mut self) -> Call {
        let random = &mut self.random;
        match random.below(8) {
            0 => Call::Fresh {
                hardware: values::own_hardware(random),
            },
            1 => choose::tick(random, &self.book),
            2 => choose::drop(random, &self.book),
            3 | 4 => self.any_packet(),
            _ => choose::ask(random, &self.book, &self.temper),
        }
    }

    fn any_packet(&mut self) -> Call {
        match choose::packet(&mut self.random, &self.book, &self.temper) {
            Some((call, _)) => call,
            None => choose::stray_packet(&mut self.random, &self.book),
        }
    }

    /// Writes a call's line and takes down what was answered.
    fn say(&mut self, call: &Call, met: Option<Met>) {
        let start = self.input.len();
        call.write(&mut self.input);
        self.answer_from(start);
        observe::call(&mut self.coverage, &self.book, call, self.answer);
        if let (Some(met), Some(time), Ok(answer)) = (met, call.time(), self.answer) {
            observe::meeting(&mut self.coverage, &self.book, &met, time, answer.kind);
        }
        self.note();
    }

    /// A line out of the form, or only just in it.
    pub fn broken_line(&mut self) {
        let call = self.any_call();
        self.broken(&call);
    }

    /// Changes a call's line, writes that, and takes down what was answered.
    fn broken(&mut self, call: &Call) {
        let chosen = self
            .random
            .weighted(MUTATIONS.iter().map(|mutation| mutation.weight));
        let mutation = &MUTATIONS[chosen];
        let mut line = Vec::new();
        self.call_for(mutation.need, call).write(&mut line);
        (mutation.change)(&mut self.random, &mut line);
        let start = self.input.len();
        self.input.extend_from_slice(&line);
        self.answer_from(start);
        self.coverage.hit(Part::Broken, chosen);
        if !self.book.has_begun() && self.answer == Err(Refusal::LineNotInForm) {
            self.coverage.meet(Part::Before, "malformed");
        }
        self.note();
    }

    /// The call itself if it has what is needed, else another that has.
    fn call_for(&mut self, need: Need, call: &Call) -> Call {
        let random = &mut self.random;
        match (need, call) {
            (Need::Anything, _)
            | (Need::Address | Need::Draw, Call::Ask { .. })
            | (Need::Draw, Call::Tick { .. })
            | (Need::Hex, Call::Fresh { .. } | Call::Packet { .. })
            | (Need::Packet, Call::Packet { .. }) => call.clone(),
            (Need::Time, _) if call.time().is_some() => call.clone(),
            (Need::Time | Need::Draw, _) => choose::tick(random, &self.book),
            (Need::Address, _) => choose::ask(random, &self.book, &self.temper),
            (Need::Hex | Need::Packet, _) => self.any_packet(),
        }
    }

    /// Ends the line that begins at `start` and has it answered.
    fn answer_from(&mut self, start: usize) {
        let line = &self.input[start..];
        self.answer = self.replay.call(line, &mut [0; FRAME_LEN]);
        self.input.push(b'\n');
        self.lines += 1;
        observe::answer(&mut self.coverage, self.answer);
    }

    /// Takes down the last answer, if its call was accepted.
    fn note(&mut self) {
        if let Ok(answer) = self.answer {
            self.book.note(answer, self.replay.interface());
        }
    }
}
