//! Calls written as lines, and the words and numbers of the tables.

use twin::{Address, Call, Hardware, Interface, Kind, Refusal, Replay, Time};

#[track_caller]
fn is_written(call: Call<&[u8]>, expected: &str) {
    let mut line = Vec::new();
    call.write(&mut line);
    assert_eq!(str::from_utf8(&line), Ok(expected));
    let read = Call::read(&line).expect("what is written is in the form");
    assert_eq!((read.word(), read.time()), (call.word(), call.time()));
}

#[test]
fn calls_as_lines() {
    let hardware = Hardware(0xa);
    is_written(Call::Fresh { hardware }, "fresh\t00000000000a");
    let ask = Call::Ask {
        time: Time(100),
        address: Address(0xc000_0207),
        policy: 2,
        draw: 500,
    };
    is_written(ask, "ask\t100\t192.0.2.7\t2\t500");
    let (time, draw) = (Time(u64::MAX), u32::MAX);
    is_written(
        Call::Tick { time, draw },
        "tick\t18446744073709551615\t4294967295",
    );
    let (time, slot) = (Time(0), u64::MAX);
    is_written(Call::Drop { time, slot }, "drop\t0\t18446744073709551615");
}

#[test]
fn packets_as_lines() {
    let bytes: Vec<u8> = (0..=255).collect();
    let digits: String = bytes.iter().map(|byte| format!("{byte:02x}")).collect();
    for count in 0..=256 {
        let (time, bytes) = (Time(7), &bytes[..count]);
        let line = format!("packet\t7\t{}", &digits[..2 * count]);
        is_written(Call::Packet { time, bytes }, &line);
    }
}

#[test]
fn the_time_of_a_call_can_be_changed() {
    let (time, slot) = (Time(1), 3);
    let mut call = Call::<&[u8]>::Drop { time, slot };
    *call.time_mut().expect("a drop has a time") = Time(2);
    is_written(call, "drop\t2\t3");
}

#[test]
fn addresses_and_their_bytes() {
    let address = Address::from_bytes([192, 0, 2, 7]);
    assert_eq!(address, Address(0xc000_0207));
    assert_eq!(address.bytes(), [192, 0, 2, 7]);
    let hardware = Hardware::from_bytes([2, 0, 0, 0, 0, 10]);
    assert_eq!(hardware, Hardware(0x0200_0000_000a));
    assert_eq!(hardware.bytes(), [2, 0, 0, 0, 0, 10]);
}

#[test]
fn kinds_and_refusals_in_order() {
    let words = "fresh, taken, none, probe, announce, defend, lost, kept, dropped";
    assert_eq!(Kind::ALL.map(Kind::word).join(", "), words);
    assert_eq!(
        Kind::ALL.map(|kind| kind as u8),
        std::array::from_fn(|place| place as u8)
    );
    let numbers: Vec<u8> = (1..=14).collect();
    assert_eq!(Refusal::ALL.map(Refusal::number).to_vec(), numbers);
}

#[test]
fn the_state_that_lines_have_made() {
    let mut replay = Replay::new();
    assert_eq!(*replay.interface(), Interface::ZERO);
    replay.answer(b"fresh\t02000000000a", &mut Vec::new());
    let (fresh, _) = Interface::fresh(Hardware(0x0200_0000_000a)).unwrap();
    assert_eq!(*replay.interface(), fresh);
    replay.answer(b"tick\t5\t0", &mut Vec::new());
    let latest = Time(5);
    assert_eq!(*replay.interface(), Interface { latest, ..fresh });
}
