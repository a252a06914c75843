//! "The frame": 28 bytes, most significant first.

use crate::numbers::{Address, Hardware};
use crate::refusal::Refusal;

/// The length of an ARP frame for Ethernet and IPv4.
pub const FRAME_LEN: usize = 28;

/// "A request of ours always begins with the eight bytes."
pub const REQUEST: [u8; 8] = [0x00, 0x01, 0x08, 0x00, 0x06, 0x04, 0x00, 0x01];

/// How many of these are the same in every frame: types and lengths.
const COMMON: usize = 6;

/// An operation and four addresses; any addresses at all.
#[derive(Clone, Copy, Debug, PartialEq, Eq)]
pub struct Frame {
    pub operation: u16,
    pub sender_hardware: Hardware,
    pub sender_ip: Address,
    pub target_hardware: Hardware,
    pub target_ip: Address,
}

impl Frame {
    /// "Probe: operation 1, our hardware, sender IP zero, target hardware
    /// zero, target IP the address."
    #[inline]
    pub fn probe(own: Hardware, address: Address) -> Frame {
        Frame {
            operation: 1,
            sender_hardware: own,
            sender_ip: Address::ZERO,
            target_hardware: Hardware::ZERO,
            target_ip: address,
        }
    }

    /// "Announcement: the same with sender IP the address. A defence is the
    /// same bytes."
    #[inline]
    pub fn announcement(own: Hardware, address: Address) -> Frame {
        Frame {
            sender_ip: address,
            ..Frame::probe(own, address)
        }
    }

    /// The read call: refusals 6 and 7. Ignores bytes after the 28th.
    #[inline]
    pub fn read(bytes: &[u8]) -> Result<Frame, Refusal> {
        let Some(frame) = bytes.first_chunk::<FRAME_LEN>() else {
            return Err(Refusal::PacketTooShort);
        };
        let operation = u16::from_be_bytes([frame[6], frame[7]]);
        if frame[..COMMON] != REQUEST[..COMMON] || !is_operation(operation) {
            return Err(Refusal::NotOurFrame);
        }
        Ok(Frame {
            operation,
            sender_hardware: hardware_at(frame, 8),
            sender_ip: address_at(frame, 14),
            target_hardware: hardware_at(frame, 18),
            target_ip: address_at(frame, 24),
        })
    }

    /// The write call: refusals 5 and 7. Writes the first 28 bytes of `out`.
    pub fn write(&self, out: &mut [u8]) -> Result<(), Refusal> {
        let Some(out) = out.first_chunk_mut::<FRAME_LEN>() else {
            return Err(Refusal::OutTooShort);
        };
        if !self.is_writable() {
            return Err(Refusal::NotOurFrame);
        }
        self.put(out);
        Ok(())
    }

    fn is_writable(&self) -> bool {
        is_operation(self.operation)
            && self.sender_hardware.is_48_bits()
            && self.target_hardware.is_48_bits()
    }

    /// Writes a frame whose fields are known to be in order.
    #[inline]
    pub(crate) fn put(&self, out: &mut [u8; FRAME_LEN]) {
        out[..COMMON].copy_from_slice(&REQUEST[..COMMON]);
        out[6..8].copy_from_slice(&self.operation.to_be_bytes());
        out[8..14].copy_from_slice(&self.sender_hardware.bytes());
        out[14..18].copy_from_slice(&self.sender_ip.bytes());
        out[18..24].copy_from_slice(&self.target_hardware.bytes());
        out[24..28].copy_from_slice(&self.target_ip.bytes());
    }
}

/// "The reader takes operation 1 or 2."
#[inline]
fn is_operation(operation: u16) -> bool {
    operation == 1 || operation == 2
}

#[inline]
fn hardware_at(frame: &[u8; FRAME_LEN], at: usize) -> Hardware {
    let mut bytes = [0; 6];
    bytes.copy_from_slice(&frame[at..at + 6]);
    Hardware::from_bytes(bytes)
}

#[inline]
fn address_at(frame: &[u8; FRAME_LEN], at: usize) -> Address {
    let mut bytes = [0; 4];
    bytes.copy_from_slice(&frame[at..at + 4]);
    Address::from_bytes(bytes)
}
