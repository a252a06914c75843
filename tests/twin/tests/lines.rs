//! "Replay lines": what is in the form and what is not.

mod common;

use common::*;

/// The answer to one line after an accepted fresh.
fn answer_to(line: &[u8]) -> String {
    let mut replay = twin::Replay::new();
    replay.answer(b"fresh\t02000000000a", &mut Vec::new());
    let mut output = Vec::new();
    replay.answer(line, &mut output);
    String::from_utf8(output).unwrap()
}

#[track_caller]
fn gives(line: &str, expected: &str) {
    assert_eq!(answer_to(tabbed(line).as_bytes()), tabbed(expected) + "\n");
}

#[track_caller]
fn not_in_form(lines: &[&str]) {
    for line in lines {
        let got = answer_to(tabbed(line).as_bytes());
        assert_eq!(got, "refused\t14\n", "{line:?}");
    }
}

#[test]
fn missing_fields() {
    not_in_form(&["fresh", "ask", "tick", "packet", "drop"]);
    not_in_form(&["ask_1", "ask_1_1.2.3.4", "ask_1_1.2.3.4_1", "ask_1_1_0"]);
    not_in_form(&["tick_1", "packet_1", "drop_1"]);
}

#[test]
fn empty_fields() {
    not_in_form(&["fresh_", "tick__0", "tick_1_", "tick__", "packet__"]);
    not_in_form(&["drop_1_", "drop__1", "ask_1__1_0", "ask_1_1.2.3.4__0"]);
    not_in_form(&["ask__1.2.3.4_1_0", "ask_1_1.2.3.4_1_"]);
}

#[test]
fn extra_fields() {
    not_in_form(&["fresh_02000000000a_1", "ask_1_1.2.3.4_1_0_0", "tick_1_0_0"]);
    not_in_form(&["packet_1__", "packet_1_00_00", "drop_1_0_0"]);
}

#[test]
fn double_tabs() {
    not_in_form(&["fresh__02000000000a", "ask_1__1.2.3.4_1_0", "tick__1_0"]);
    not_in_form(&["tick_1__0", "packet__1_00", "packet_1__00", "drop_1__0"]);
}

#[test]
fn a_tab_at_the_end() {
    not_in_form(&["fresh_02000000000a_", "ask_1_1.2.3.4_1_0_", "tick_1_0_"]);
    not_in_form(&["packet_1_00_", "packet_1__", "drop_1_0_"]);
}

#[test]
fn a_tab_at_the_start() {
    not_in_form(&["_fresh_02000000000a", "_tick_1_0", "_"]);
}

#[test]
fn unknown_words() {
    not_in_form(&["Tick_1_0", "TICK_1_0", "ticks_1_0", "tic_1_0", "tick 1_0"]);
    not_in_form(&[
        "read_00",
        "write_1",
        "none",
        "drop1_0",
        "asks_1_1.2.3.4_1_0",
    ]);
}

#[test]
fn an_empty_line() {
    gives("", "refused_14");
    assert_eq!(replay(b"\n\n"), b"refused\t14\nrefused\t14\n");
}

#[test]
fn leading_zeros() {
    not_in_form(&["tick_00_0", "tick_01_0", "tick_1_00", "tick_1_01"]);
    not_in_form(&["drop_1_00", "drop_1_01", "packet_01_00", "drop_01_0"]);
    not_in_form(&["ask_1_1.2.3.4_01_0", "ask_1_1.2.3.4_1_00"]);
    not_in_form(&["ask_1_01.2.3.4_1_0", "ask_1_1.2.3.00_1_0"]);
    gives("tick_0_0", "ok_none_-_-_-");
}

#[test]
fn the_largest_numbers() {
    gives("tick_18446744073709551615_4294967295", "refused_3");
    gives("packet_18446744073709551615_", "refused_3");
    gives("drop_18446744073709551615_0", "refused_3");
    gives("drop_0_18446744073709551615", "refused_13");
    gives("ask_18446744073709551615_1.2.3.4_1_0", "refused_3");
    gives("ask_0_1.2.3.4_18446744073709551615_0", "refused_9");
    gives("tick_0_4294967295", "ok_none_-_-_-");
}

#[test]
fn numbers_past_the_largest() {
    for number in [
        "18446744073709551616",
        "18446744073709551620",
        "18446744073709551625",
        "20000000000000000000",
        "99999999999999999999",
        "100000000000000000000",
        "184467440737095516150",
        "340282366920938463463374607431768211456",
    ] {
        not_in_form(&[
            &format!("tick_{number}_0"),
            &format!("tick_0_{number}"),
            &format!("packet_{number}_00"),
            &format!("drop_{number}_0"),
            &format!("drop_0_{number}"),
            &format!("ask_{number}_1.2.3.4_1_0"),
            &format!("ask_0_1.2.3.4_{number}_0"),
            &format!("ask_0_1.2.3.4_1_{number}"),
            &format!("ask_0_{number}.2.3.4_1_0"),
        ]);
    }
}

#[test]
fn numbers_of_every_length_up_to_the_range() {
    for len in 1..=20 {
        let number = &"12345678901234567890"[..len];
        let in_range = number.parse::<u64>().unwrap() <= LAST_TIME;
        let expected = if in_range {
            "ok_none_-_-_-"
        } else {
            "refused_3"
        };
        gives(&format!("tick_{number}_0"), expected);
    }
}

#[test]
fn numbers_are_read_in_full() {
    check(&[
        ("fresh_02000000000a", "ok_fresh_-_-_-"),
        ("tick_281474976710655_0", "ok_none_-_-_-"),
        ("tick_281474976710654_0", "refused_4"),
        ("tick_281474976710656_0", "refused_3"),
    ]);
}

/// (reading unused-draw)
#[test]
fn draws_past_the_largest() {
    not_in_form(&["tick_0_4294967296", "ask_0_1.2.3.4_1_4294967296"]);
    not_in_form(&["tick_0_18446744073709551615"]);
}

#[test]
fn foreign_bytes_in_numbers() {
    for foreign in ["+", "-", " ", "a", "x", ".", ",", "/", ":", "\0", "\u{a0}"] {
        for place in [
            "1F_0", "F1_0", "1F1_0", "1_0F", "1_F0", "1_1F1", "F_0", "1_F",
        ] {
            not_in_form(&[&format!("tick_{}", place.replace('F', foreign))]);
        }
    }
}

#[test]
fn every_foreign_byte_after_a_number() {
    for byte in (0..=255u8).filter(|byte| !byte.is_ascii_digit() && *byte != b'\t') {
        for line in [&b"tick\t1?\t0"[..], b"tick\t1\t1?", b"tick\t1?0"] {
            let line: Vec<u8> = line
                .iter()
                .map(|&b| if b == b'?' { byte } else { b })
                .collect();
            assert_eq!(answer_to(&line), "refused\t14\n");
        }
    }
}

#[test]
fn addresses_not_in_the_form() {
    for address in [
        "256.0.0.0",
        "1.2.3.256",
        "1.2.3.999",
        "1.2.3",
        "1.2.3.4.5",
        "1.2.3.4.",
        ".1.2.3.4",
        "1..2.3",
        "1.2.3.",
        "1 .2.3.4",
        "16909060",
        "1.2.3.0x4",
        "-1.2.3.4",
    ] {
        not_in_form(&[&format!("ask_0_{address}_1_0")]);
    }
}

/// (reading addresses-in-form)
#[test]
fn addresses_in_the_form() {
    gives("ask_0_1.2.3.4_1_0", "ok_taken_0_0_-");
    gives("ask_0_10.0.255.255_1_0", "ok_taken_0_0_-");
    gives("ask_0_255.255.255.255_1_0", "refused_8");
}

#[test]
fn asks_at_the_edges_of_the_allowed_addresses() {
    for (address, answer) in [
        ("0.255.255.255", "refused_8"),
        ("1.0.0.0", "ok_taken_0_0_-"),
        ("126.255.255.255", "ok_taken_0_0_-"),
        ("127.0.0.0", "refused_8"),
        ("127.255.255.255", "refused_8"),
        ("128.0.0.0", "ok_taken_0_0_-"),
        ("223.255.255.255", "ok_taken_0_0_-"),
        ("224.0.0.0", "refused_8"),
    ] {
        let ask = format!("ask_0_{address}_1_0");
        check(&[("fresh_02000000000a", "ok_fresh_-_-_-"), (&ask, answer)]);
    }
}

#[test]
fn hardware_not_in_the_form() {
    not_in_form(&[
        "fresh_02000000000",
        "fresh_02000000000aa",
        "fresh_0200000000",
    ]);
    not_in_form(&[
        "fresh_02000000000A",
        "fresh_02000000000g",
        "fresh_02:00:00:00",
    ]);
    not_in_form(&[
        "fresh_02000000000 ",
        "fresh_02000000000a00",
        "fresh_0x0000000002",
    ]);
}

#[test]
fn upper_case_hex() {
    for letter in 'A'..='F' {
        not_in_form(&[&format!("packet_0_0{letter}")]);
        let long = format!("packet_0_{}{letter}0", "0".repeat(100));
        not_in_form(&[&long]);
    }
}

#[test]
fn every_byte_at_every_place_of_a_frame() {
    for place in 0..80 {
        for byte in (0..=255u8).filter(|byte| *byte != b'\n') {
            let mut line = b"packet\t0\t".to_vec();
            let start = line.len();
            line.extend([b'0'; 80]);
            line[start + place] = byte;
            let is_hex = matches!(byte, b'0'..=b'9' | b'a'..=b'f');
            let expected = if is_hex {
                "refused\t7\n"
            } else {
                "refused\t14\n"
            };
            assert_eq!(answer_to(&line), expected);
        }
    }
}

#[test]
fn every_hex_pair_is_read() {
    for byte in 0..=255u8 {
        let text = frame_text(1, OTHER_TEXT, 0xc000_0200 + u32::from(byte), 0);
        let line = format!("packet_0_{text}");
        let mut replay = twin::Replay::new();
        let mut output = Vec::new();
        replay.answer(b"fresh\t02000000000a", &mut output);
        let ask = tabbed(&format!("ask_0_192.0.2.{byte}_1_0"));
        replay.answer(ask.as_bytes(), &mut output);
        output.clear();
        replay.answer(tabbed(&line).as_bytes(), &mut output);
        assert_eq!(output, b"ok\tlost\t0\t-\t-\n");
    }
}

#[test]
fn odd_counts_of_digits() {
    not_in_form(&["packet_0_0", "packet_0_000"]);
    not_in_form(&[&format!("packet_0_{}", "0".repeat(57))]);
    not_in_form(&[&format!("packet_0_{}", "0".repeat(2_999))]);
}

#[test]
fn three_thousand_digits_and_more() {
    let good = frame_text(1, OTHER_TEXT, 0, SEVEN.0);
    let filled = |count| format!("packet_0_{good}{}", "f".repeat(count - good.len()));
    gives(&filled(3_000), "ok_none_-_-_-");
    gives(&filled(3_002), "refused_14");
    gives(&filled(3_001), "refused_14");
    gives(&filled(4_000), "refused_14");
}

/// (reading line-limit)
#[test]
fn the_longest_line_and_one_byte_more() {
    // No line in the form has 4,096 bytes, so both are 14, and each is one.
    for len in [4_095, 4_096, 4_097, 8_193] {
        let mut input = vec![b'0'; len];
        input.extend(b"\nfresh\t02000000000a\n");
        assert_eq!(replay(&input), b"refused\t14\nok\tfresh\t-\t-\t-\n");
        assert_eq!(answer_to(&input[..len]), "refused\t14\n");
    }
}

#[test]
fn a_good_start_does_not_save_a_long_line() {
    let mut line = b"tick\t1\t0\t".to_vec();
    line.resize(5_000, b'0');
    assert_eq!(answer_to(&line), "refused\t14\n");
}

/// (reading carriage-return)
#[test]
fn carriage_returns() {
    not_in_form(&["tick_1_0\r", "fresh_02000000000a\r", "packet_0_\r", "\r"]);
    not_in_form(&["packet_0_00\r", "drop_0_0\r", "tick_1\r_0"]);
}

#[test]
fn a_no_break_space() {
    not_in_form(&["tick_1\u{a0}000_0", "tick\u{a0}1_0", "tick_1_0\u{a0}"]);
    assert!("\u{a0}".as_bytes() == [0xc2, 0xa0]);
}

#[test]
fn a_byte_10_inside_is_foreign() {
    assert_eq!(answer_to(b"tick\t1\t0\n"), "refused\t14\n");
    assert_eq!(answer_to(b"packet\t1\t00\n"), "refused\t14\n");
}

/// (reading unended-line)
#[test]
fn an_unended_last_line() {
    assert_eq!(replay(b"fresh\t02000000000a"), b"refused\t14\n");
    assert_eq!(
        replay(b"fresh\t02000000000a\ntick\t0\t0"),
        b"ok\tfresh\t-\t-\t-\nrefused\t14\n"
    );
    assert_eq!(replay(b"\t"), b"refused\t14\n");
}

#[test]
fn before_the_first_fresh() {
    check(&[
        ("ask_0_192.0.2.7_1_0", "refused_1"),
        ("tick_0_0", "refused_1"),
        ("packet_0_", "refused_1"),
        ("drop_0_0", "refused_1"),
        ("fresh_010000000000", "refused_2"),
        ("tick_0_0", "refused_1"),
        ("fresh_02000000000a", "ok_fresh_-_-_-"),
        ("tick_0_0", "ok_none_-_-_-"),
    ]);
}
