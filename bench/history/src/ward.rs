//! A cabinet's port, the ward's other machines, and the time.

use std::fmt::Arguments;
use std::io::Write;
use std::net::Ipv4Addr;

use twin::{Address, FRAME_LEN, Frame, Hardware, Interface, Record, Stage, Time};

use crate::random::Random;

const REQUEST: u16 = 1;
const REPLY: u16 = 2;

pub struct Ward {
    random: Random,
    /// All zeros before the first line.
    port: Interface,
    now: u64,
    /// The frame that the port sent last: the network may echo it.
    sent: Option<[u8; FRAME_LEN]>,
    /// The last frame of a machine that uses an address of ours: it may come
    /// again soon.
    conflict: Option<[u8; FRAME_LEN]>,
}

impl Ward {
    pub fn new(seed: u64) -> Ward {
        Ward {
            random: Random(seed),
            port: Interface::ZERO,
            now: 0,
            sent: None,
            conflict: None,
        }
    }

    /// Appends the next line, without its byte 10.
    pub fn write_line(&mut self, line: &mut Vec<u8>) {
        if self.port == Interface::ZERO {
            return self.fresh(line);
        }
        match self.random.below(10_000) {
            // A restart, with long histories between two.
            0..=1 => self.fresh(line),
            2..=299 => self.refused(line),
            300..=499 => self.malformed(line),
            500..=699 => self.drop(line),
            700..=1_699 => self.ask(line),
            1_700..=5_499 => self.tick(line),
            _ => self.packet(line),
        }
    }

    fn fresh(&mut self, line: &mut Vec<u8>) {
        let hardware = Hardware(0x0200_5e10_0000 | self.random.below(256));
        if let Ok((port, _)) = Interface::fresh(hardware) {
            self.port = port;
        }
        self.sent = None;
        self.conflict = None;
        text(line, format_args!("fresh\t{:012x}", hardware.0));
    }

    /// A few ms later, as traffic comes.
    fn pass(&mut self, most: u64) -> u64 {
        self.now += self.random.below(most + 1);
        self.now
    }

    /// One of the ward's addresses: more than a port has slots, so that a lost
    /// one is replaced.
    fn address(&mut self) -> Address {
        let (third, fourth) = (self.random.below(2), 1 + self.random.below(12));
        address(third, fourth)
    }

    fn ask(&mut self, line: &mut Vec<u8>) {
        let time = self.pass(50);
        let (address, policy) = (self.address(), 1 + self.random.below(3));
        let draw = self.random.draw();
        let asked = self.port.ask(Time(time), address, policy, draw);
        if asked.is_err() && self.random.below(5) != 0 {
            // A full port is seldom asked, nor is one that has seen ten
            // conflicts and been asked in the last minute.
            return self.tick(line);
        }
        let address = dotted(address);
        text(
            line,
            format_args!("ask\t{time}\t{address}\t{policy}\t{draw}"),
        );
    }

    /// Most ticks come early or at the deadline; some late.
    fn tick(&mut self, line: &mut Vec<u8>) {
        let idle = self.now + self.random.below(20_000);
        let deadlines = self.port.slots.iter().map(|record| record.stage.deadline());
        let deadline = match deadlines.flatten().min() {
            Some(Time(deadline)) => deadline.max(self.now),
            None => idle,
        };
        let ahead = deadline - self.now;
        let time = match self.random.below(10) {
            0..=3 => self.now + self.random.below(ahead + 1),
            4..=8 => deadline,
            _ => deadline + self.random.below(3_000),
        };
        self.now = time;
        let draw = self.random.draw();
        text(line, format_args!("tick\t{time}\t{draw}"));
        let mut out = [0; FRAME_LEN];
        let answer = self.port.tick(Time(time), draw, &mut out);
        if answer.is_ok_and(|answer| answer.kind.has_frame()) {
            self.sent = Some(out);
        }
    }

    fn packet(&mut self, line: &mut Vec<u8>) {
        let bytes = self.heard();
        // 28 bytes, or padded to an Ethernet frame with or without its header.
        let padding = self.random.pick(&[0, 0, 18, 18, 32]);
        let time = self.pass(40);
        text(line, format_args!("packet\t{time}\t"));
        for byte in bytes {
            text(line, format_args!("{byte:02x}"));
        }
        line.resize(line.len() + 2 * padding, b'0');
        let _ = self.port.packet(Time(time), &bytes, &mut [0; FRAME_LEN]);
    }

    /// A frame that reaches the port.
    fn heard(&mut self) -> [u8; FRAME_LEN] {
        let own = self.port.hardware;
        let held: Vec<Record> = self.held().collect();
        match self.random.below(1_000) {
            // Our own frame, echoed by a bridge.
            0..=149 => match self.sent {
                Some(bytes) => bytes,
                None => bytes(Frame::probe(own, address(0, 1))),
            },
            // Another machine probes for an address of ours: a conflict while
            // we probe, none later.
            150..=249 if !held.is_empty() => {
                let record = self.random.pick(&held);
                let others = is_usable(record) || self.random.below(25) == 0;
                let hardware = if others { self.other() } else { own };
                bytes(Frame::probe(hardware, record.address))
            }
            // Another machine uses it.
            250..=279 if !held.is_empty() => {
                let record = self.random.pick(&held);
                if !is_usable(record) && self.random.below(10) != 0 {
                    return self.traffic();
                }
                let bytes = self.users_frame(record.address);
                self.conflict = Some(bytes);
                bytes
            }
            // And goes on using it.
            280..=339 => match self.conflict {
                Some(bytes) => bytes,
                None => self.traffic(),
            },
            _ => self.traffic(),
        }
    }

    /// The port's records that are not free.
    fn held(&self) -> impl Iterator<Item = Record> {
        self.port.slots.into_iter().filter(Record::is_held)
    }

    /// An announcement, a request or a reply of a machine that uses the
    /// address.
    fn users_frame(&mut self, address: Address) -> [u8; FRAME_LEN] {
        let hardware = self.other();
        let target = self.address();
        bytes(match self.random.below(3) {
            0 => Frame::announcement(hardware, address),
            1 => frame(REQUEST, hardware, address, Hardware::ZERO, target),
            _ => frame(REPLY, hardware, address, self.other(), target),
        })
    }

    /// What the ward's other machines say to each other.
    fn traffic(&mut self) -> [u8; FRAME_LEN] {
        let (hardware, peer) = (self.other(), self.other());
        let sender = address(4, self.random.below(250));
        let target = address(4, self.random.below(250));
        bytes(match self.random.below(4) {
            0 => Frame::probe(hardware, sender),
            1 => frame(REPLY, hardware, sender, peer, target),
            // A question about one of the addresses that a port may hold: no
            // conflict.
            2 => frame(REQUEST, hardware, sender, Hardware::ZERO, self.address()),
            _ => frame(REQUEST, hardware, sender, Hardware::ZERO, target),
        })
    }

    /// The hardware address of another machine.
    fn other(&mut self) -> Hardware {
        let (fifth, sixth) = (self.random.below(4), self.random.below(256));
        Hardware(0x0200_5e20_0000 | fifth << 8 | sixth)
    }

    fn drop(&mut self, line: &mut Vec<u8>) {
        let time = self.pass(20);
        let slot = self.random.below(4);
        let held = self.port.slots[slot as usize].is_held();
        // A free slot is dropped now and then by mistake.
        if !held && self.random.below(4) != 0 {
            return self.tick(line);
        }
        text(line, format_args!("drop\t{time}\t{slot}"));
        let _ = self.port.drop(Time(time), slot);
    }

    /// Calls in the form that the port refuses. They leave it as it is.
    fn refused(&mut self, line: &mut Vec<u8>) {
        let now = self.now;
        let draw = self.random.draw();
        let address = self.address();
        let ask = |line: &mut Vec<u8>, address: Ipv4Addr, policy: u32| {
            text(
                line,
                format_args!("ask\t{now}\t{address}\t{policy}\t{draw}"),
            );
        };
        match self.random.below(10) {
            0 => text(line, format_args!("fresh\t03005e100001")),
            1 => text(line, format_args!("tick\t{}\t{draw}", (1u64 << 48) + now)),
            2 => {
                let before = now.saturating_sub(70_000);
                text(line, format_args!("tick\t{before}\t{draw}"));
            }
            3 => text(
                line,
                format_args!("packet\t{now}\t000108000604000102005e20"),
            ),
            4 => text(
                line,
                format_args!("packet\t{now}\t0001080006040003{draw:040x}"),
            ),
            5 => ask(line, Ipv4Addr::new(224, 0, 0, draw as u8), 1),
            6 => ask(line, dotted(address), 4 + draw % 300),
            7 => {
                let held = self.held().next();
                let held = held.map_or(Ipv4Addr::BROADCAST, |record| dotted(record.address));
                ask(line, held, 2);
            }
            8 => text(line, format_args!("drop\t{now}\t{}", 4 + u64::from(draw))),
            // Refused after ten conflicts or by a full port, else taken.
            _ => {
                ask(line, dotted(address), 3);
                let _ = self.port.ask(Time(now), address, 3, draw);
            }
        }
    }

    /// Lines that are not in the form.
    fn malformed(&mut self, line: &mut Vec<u8>) {
        let now = self.now;
        let draw = self.random.draw();
        match self.random.below(200) {
            0 => line.resize(4_000 + self.random.below(200) as usize, b'0'),
            1..=19 => {}
            20..=39 => text(line, format_args!("tick\t0{now}\t{draw}")),
            40..=59 => text(line, format_args!("tick\t{now}")),
            60..=79 => {
                let large = u64::from(draw) + (1 << 32);
                text(line, format_args!("tick\t{now}\t{large}"));
            }
            80..=99 => text(line, format_args!("packet\t{now}\t0001080006040001ABCDEF")),
            100..=119 => text(line, format_args!("packet\t{now}\t000108000604000")),
            120..=139 => text(line, format_args!("ask\t{now}\t10.20.256.1\t2\t{draw}")),
            140..=159 => text(line, format_args!("ask\t{now}\t10.20.0\t2\t{draw}")),
            160..=179 => text(line, format_args!("# restarted by the night shift")),
            _ => text(line, format_args!("drop\t{now}\t1\r")),
        }
    }
}

/// An address of the ward's network.
fn address(third: u64, fourth: u64) -> Address {
    Address(10 << 24 | 20 << 16 | (third as u32) << 8 | fourth as u32)
}

/// An address, to be written as four numbers.
fn dotted(address: Address) -> Ipv4Addr {
    Ipv4Addr::from(address.0)
}

/// Whether a held address may be used.
fn is_usable(record: Record) -> bool {
    !matches!(record.stage, Stage::Probing { .. })
}

fn frame(operation: u16, from: Hardware, sender: Address, to: Hardware, target: Address) -> Frame {
    Frame {
        operation,
        sender_hardware: from,
        sender_ip: sender,
        target_hardware: to,
        target_ip: target,
    }
}

fn bytes(frame: Frame) -> [u8; FRAME_LEN] {
    let mut bytes = [0; FRAME_LEN];
    // Operation and hardware are in order, and there is room.
    let _ = frame.write(&mut bytes);
    bytes
}

fn text(line: &mut Vec<u8>, text: Arguments) {
    // Writing to a vector does not fail.
    let _ = line.write_fmt(text);
}
