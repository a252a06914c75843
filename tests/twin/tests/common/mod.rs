//! Helpers that several tests share. Frames are spelled out here on their own,
//! without the library's writer.
#![allow(dead_code)]

use twin::{Address, Answer, Hardware, Interface, Kind, Record, Refusal, Stage, Time};

pub const OWN: Hardware = Hardware(0x0200_0000_000a);
pub const OWN_TEXT: &str = "02000000000a";
pub const OTHER: Hardware = Hardware(0x0200_0000_000b);
pub const OTHER_TEXT: &str = "02000000000b";
pub const SEVEN: Address = Address(0xc000_0207);
pub const EIGHT: Address = Address(0xc000_0208);
pub const LAST_TIME: u64 = 281_474_976_710_655;

/// 192.0.2.`last`
pub fn address(last: u8) -> Address {
    Address(0xc000_0200 + u32::from(last))
}

/// The hex of a frame with zero target hardware.
pub fn frame_text(operation: u8, hardware: &str, sender_ip: u32, target_ip: u32) -> String {
    format!("00010800060400{operation:02x}{hardware}{sender_ip:08x}000000000000{target_ip:08x}")
}

pub fn frame(operation: u8, hardware: &str, sender_ip: Address, target_ip: Address) -> Vec<u8> {
    bytes(&frame_text(operation, hardware, sender_ip.0, target_ip.0))
}

pub fn bytes(text: &str) -> Vec<u8> {
    (0..text.len() / 2)
        .map(|at| u8::from_str_radix(&text[2 * at..2 * at + 2], 16).unwrap())
        .collect()
}

pub fn probe_text(address: Address) -> String {
    frame_text(1, OWN_TEXT, 0, address.0)
}

pub fn claim_text(address: Address) -> String {
    frame_text(1, OWN_TEXT, address.0, address.0)
}

/// A fresh interface, at the given latest time.
pub fn interface(latest: u64) -> Interface {
    let (mut interface, _) = Interface::fresh(OWN).unwrap();
    interface.latest = Time(latest);
    interface
}

/// An interface at the given latest time with one record in slot 0.
pub fn holding(latest: u64, address: Address, policy: u8, stage: Stage) -> Interface {
    let mut interface = interface(latest);
    interface.slots[0] = Record {
        address,
        policy,
        stage,
    };
    interface
}

pub fn probing(sent: u8, deadline: u64) -> Stage {
    Stage::Probing {
        sent,
        deadline: Time(deadline),
    }
}

pub fn announced(deadline: u64, conflict: Option<u64>) -> Stage {
    Stage::Announced {
        deadline: Time(deadline),
        conflict: conflict.map(Time),
    }
}

pub fn settled(conflict: Option<u64>) -> Stage {
    Stage::Settled {
        conflict: conflict.map(Time),
    }
}

pub fn answer(kind: Kind, slot: Option<usize>, next: Option<u64>) -> Answer {
    Answer {
        kind,
        slot,
        next: next.map(Time),
    }
}

/// A refused call leaves state and out buffer alone.
#[track_caller]
pub fn refuses(
    interface: &Interface,
    number: u8,
    call: impl Fn(&mut Interface, &mut [u8]) -> Result<Answer, Refusal>,
) {
    let mut state = *interface;
    let mut out = [0xee; 40];
    let got = call(&mut state, &mut out);
    assert_eq!(got.map_err(Refusal::number), Err(number));
    assert_eq!(state, *interface);
    assert_eq!(out, [0xee; 40]);
}

pub fn replay(input: &[u8]) -> Vec<u8> {
    let mut output = Vec::new();
    twin::replay(input, &mut output).unwrap();
    output
}

/// Runs lines written with `_` for a tab against their expected answers, in
/// which `probe:N` and `claim:N` stand for frames about 192.0.2.N.
#[track_caller]
pub fn check(lines: &[(&str, &str)]) {
    let input: String = lines.iter().map(|(line, _)| tabbed(line) + "\n").collect();
    let output = String::from_utf8(replay(input.as_bytes())).unwrap();
    let got: Vec<&str> = output.split_terminator('\n').collect();
    assert_eq!(got.len(), lines.len());
    for (got, (line, expected)) in got.iter().zip(lines) {
        assert_eq!(*got, tabbed(&with_frames(expected)), "after {line}");
    }
}

pub fn tabbed(text: &str) -> String {
    text.replace('_', "\t")
}

fn with_frames(text: &str) -> String {
    let parts: Vec<String> = text
        .split('_')
        .map(|part| match part.split_once(':') {
            Some(("probe", last)) => probe_text(address(last.parse().unwrap())),
            Some(("claim", last)) => claim_text(address(last.parse().unwrap())),
            _ => part.to_string(),
        })
        .collect();
    parts.join("_")
}

/// A packet line, with `_` for tabs.
pub fn packet(time: u64, frame: &str) -> String {
    format!("packet_{time}_{frame}")
}
