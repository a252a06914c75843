//! The whole case of document 01, byte for byte.

mod common;

const INPUT: &str = "fresh\t02000000000a
ask\t100\t192.0.2.7\t2\t500
tick\t599\t0
tick\t600\t0
tick\t1600\t1000
tick\t1\u{a0}000\t0
tick\t3600\t5
tick\t5600\t0
";

const OUTPUT: &str = "ok\tfresh\t-\t-\t-
ok\ttaken\t0\t600\t-
ok\tnone\t-\t600\t-
ok\tprobe\t0\t1600\t000108000604000102000000000a00000000000000000000c0000207
ok\tprobe\t0\t3600\t000108000604000102000000000a00000000000000000000c0000207
refused\t14
ok\tprobe\t0\t5600\t000108000604000102000000000a00000000000000000000c0000207
ok\tannounce\t0\t7600\t000108000604000102000000000ac0000207000000000000c0000207
";

#[test]
fn as_written() {
    assert!(INPUT.as_bytes().windows(2).any(|two| two == [0xc2, 0xa0]));
    assert_eq!(common::replay(INPUT.as_bytes()), OUTPUT.as_bytes());
}

#[test]
fn a_plain_space_gives_the_same() {
    let input = INPUT.replace('\u{a0}', " ");
    assert_eq!(common::replay(input.as_bytes()), OUTPUT.as_bytes());
}

#[test]
fn then_the_second_announcement_settles() {
    let input = format!("{INPUT}tick\t7600\t0\ntick\t9999999\t0\n");
    let output = format!(
        "{OUTPUT}ok\tannounce\t0\t-\t000108000604000102000000000ac0000207000000000000c0000207\n\
         ok\tnone\t-\t-\t-\n"
    );
    assert_eq!(common::replay(input.as_bytes()), output.as_bytes());
}

#[test]
fn empty_input_gives_empty_output() {
    assert_eq!(common::replay(b""), b"");
}

#[test]
fn line_by_line_gives_the_same() {
    let mut replay = twin::Replay::new();
    let mut output = Vec::new();
    for line in INPUT.split_terminator('\n') {
        replay.answer(line.as_bytes(), &mut output);
    }
    assert_eq!(output, OUTPUT.as_bytes());
}
