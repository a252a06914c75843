//! The packets that a claim can meet on the wire.

use twin::{Address, FRAME_LEN, Frame, Hardware};

#[derive(Clone, Copy, Debug, PartialEq, Eq)]
pub enum Meeting {
    OtherRequest,
    OtherReply,
    OurRequest,
    OurReply,
    OtherProbe,
    OtherProbeAsReply,
    EchoedProbe,
    EchoedAnnouncement,
    TargetOnly,
    ZeroAddresses,
    Unrelated,
    ProbeElsewhere,
}

impl Meeting {
    pub const ALL: [(Meeting, &'static str); 12] = [
        (Meeting::OtherRequest, "sender IP, other's hardware, op 1"),
        (Meeting::OtherReply, "sender IP, other's hardware, op 2"),
        (Meeting::OurRequest, "sender IP, our hardware, op 1"),
        (Meeting::OurReply, "sender IP, our hardware, op 2"),
        (Meeting::OtherProbe, "other's probe"),
        (Meeting::OtherProbeAsReply, "other's probe, but op 2"),
        (Meeting::EchoedProbe, "our probe echoed"),
        (Meeting::EchoedAnnouncement, "our announcement echoed"),
        (Meeting::TargetOnly, "target IP only"),
        (Meeting::ZeroAddresses, "both IPs zero"),
        (Meeting::Unrelated, "unrelated"),
        (Meeting::ProbeElsewhere, "other's probe elsewhere"),
    ];
}

/// What a frame is made of besides the claim's address.
pub struct Around {
    pub own: Hardware,
    pub other: Hardware,
    /// An address that nobody claims here, maybe near to a claimed one.
    pub elsewhere: Address,
    /// A target, held or not.
    pub target: Address,
    pub target_hardware: Hardware,
}

/// The 28 bytes of such a packet about `address`.
pub fn packet_bytes(meeting: Meeting, address: Address, around: &Around) -> Vec<u8> {
    let mut bytes = vec![0; FRAME_LEN];
    let written = frame(meeting, address, around).write(&mut bytes);
    written.expect("operation 1 or 2, and hardware of 48 bits");
    bytes
}

fn frame(meeting: Meeting, address: Address, around: &Around) -> Frame {
    let Around {
        own,
        other,
        elsewhere,
        target,
        target_hardware,
    } = *around;
    let from = |operation, sender_hardware, sender_ip, target_ip| Frame {
        operation,
        sender_hardware,
        sender_ip,
        target_hardware,
        target_ip,
    };
    let zero = Address::ZERO;
    match meeting {
        Meeting::OtherRequest => from(1, other, address, target),
        Meeting::OtherReply => from(2, other, address, target),
        Meeting::OurRequest => from(1, own, address, target),
        Meeting::OurReply => from(2, own, address, target),
        Meeting::OtherProbe => from(1, other, zero, address),
        Meeting::OtherProbeAsReply => from(2, other, zero, address),
        Meeting::EchoedProbe => Frame::probe(own, address),
        Meeting::EchoedAnnouncement => Frame::announcement(own, address),
        Meeting::TargetOnly => from(1, other, elsewhere, address),
        Meeting::ZeroAddresses => from(1, other, zero, zero),
        Meeting::Unrelated => from(2, other, elsewhere, elsewhere),
        Meeting::ProbeElsewhere => from(1, other, zero, elsewhere),
    }
}
