//! Lines that are out of the form, or only just in it.

use twin::{DIGITS_MAX, LINE_MAX, WORDS};

use crate::edit::{
    any_byte, any_dot, any_field, any_tab, before_field, change_part, digits, fields, fill,
    hex_digits, insert, like_digit, pad_hex, set_field, set_last, set_word,
};
use crate::random::Random;

/// What a line must have for the change to make sense.
#[derive(Clone, Copy, PartialEq, Eq)]
pub enum Need {
    Anything,
    Time,
    Draw,
    Address,
    Hex,
    Packet,
}

pub struct Mutation {
    pub name: &'static str,
    pub weight: u32,
    pub need: Need,
    pub change: fn(&mut Random, &mut Vec<u8>),
}

const fn often(name: &'static str, need: Need, change: fn(&mut Random, &mut Vec<u8>)) -> Mutation {
    Mutation {
        name,
        weight: 200,
        need,
        change,
    }
}

const fn seldom(
    weight: u32,
    name: &'static str,
    need: Need,
    change: fn(&mut Random, &mut Vec<u8>),
) -> Mutation {
    Mutation {
        name,
        weight,
        need,
        change,
    }
}

use Need::{Address, Anything, Draw, Hex, Packet, Time};

pub const MUTATIONS: &[Mutation] = &[
    often("byte deleted", Anything, |random, line| {
        let place = random.index(line.len());
        line.remove(place);
    }),
    often("byte inserted", Anything, |random, line| {
        insert(random, line, &[])
    }),
    often("byte replaced", Anything, |random, line| {
        let place = random.index(line.len());
        line[place] = any_byte(random);
    }),
    often("byte doubled", Anything, |random, line| {
        let place = random.index(line.len());
        line.insert(place, line[place]);
    }),
    often("line cut short", Anything, |random, line| {
        let length = random.index(line.len());
        line.truncate(length);
    }),
    often("empty line", Anything, |_, line| line.clear()),
    often("tab made a space", Anything, |random, line| {
        let tab = any_tab(random, line);
        line[tab] = b' ';
    }),
    often("tab doubled", Anything, |random, line| {
        let tab = any_tab(random, line);
        line.insert(tab, b'\t');
    }),
    often("trailing tab", Anything, |_, line| line.push(b'\t')),
    often("leading tab", Anything, |_, line| line.insert(0, b'\t')),
    often("trailing space", Anything, |_, line| line.push(b' ')),
    often("field dropped", Anything, |random, line| {
        let field = any_field(random, line);
        line.drain(field.start - 1..field.end);
    }),
    often("field added", Anything, |random, line| {
        let field = any_field(random, line);
        let copy = line[field.start - 1..field.end].to_vec();
        line.splice(field.end..field.end, copy);
    }),
    often("field emptied", Anything, |random, line| {
        let field = any_field(random, line);
        line.drain(field);
    }),
    often("last field emptied", Packet, |_, line| {
        let field = fields(line).pop().unwrap_or(0..0);
        line.drain(field);
    }),
    often("unknown word", Anything, |random, line| {
        set_word(
            line,
            random.pick(&["tock", "clock", "read", "write", "freshen", "as", "-"]),
        );
    }),
    often("word in the wrong case", Anything, |random, line| {
        let place = random.index(fields(line)[0].len());
        line[place] = line[place].to_ascii_uppercase();
    }),
    often("other word", Anything, |random, line| {
        set_word(line, random.pick(&WORDS));
    }),
    often("leading zero", Time, |random, line| {
        before_field(random, line, b'0')
    }),
    often("plus sign", Time, |random, line| {
        before_field(random, line, b'+')
    }),
    often("minus sign", Time, |random, line| {
        before_field(random, line, b'-')
    }),
    often("leading space", Time, |random, line| {
        before_field(random, line, b' ')
    }),
    often("time 2^64 - 1", Time, |_, line| {
        set_field(line, 1, "18446744073709551615")
    }),
    often("time 2^64", Time, |_, line| {
        set_field(line, 1, "18446744073709551616")
    }),
    often("time of 20 digits", Time, |random, line| {
        let digits = digits(random, 20);
        set_field(line, 1, &digits);
    }),
    often("time of 21 digits", Time, |random, line| {
        let digits = digits(random, 21);
        set_field(line, 1, &digits);
    }),
    often("last number 2^64", Draw, |_, line| {
        set_last(line, "18446744073709551616")
    }),
    often("draw 2^32 - 1", Draw, |_, line| {
        set_last(line, "4294967295")
    }),
    often("draw 2^32", Draw, |_, line| set_last(line, "4294967296")),
    often("draw of 11 digits", Draw, |random, line| {
        let digits = digits(random, 11);
        set_last(line, &digits);
    }),
    often("number of 1 to 24 digits", Time, |random, line| {
        let count = random.between(1, 24) as usize;
        let digits = digits(random, count);
        let field = any_field(random, line);
        line.splice(field, digits.bytes());
    }),
    often("digit made a byte like it", Time, |random, line| {
        let places: Vec<usize> = (0..line.len())
            .filter(|place| line[*place].is_ascii_digit())
            .collect();
        let place = random.pick(&places);
        line[place] = like_digit(random, line[place]);
    }),
    often("dot missing", Address, |random, line| {
        let dot = any_dot(random, line);
        line.remove(dot);
    }),
    often("dot doubled", Address, |random, line| {
        let dot = any_dot(random, line);
        line.insert(dot, b'.');
    }),
    often("dot made another byte", Address, |random, line| {
        let dot = any_dot(random, line);
        line[dot] = random.pick(b",:/ \t");
    }),
    often("address part 256", Address, |random, line| {
        change_part(random, line, |_| "256".into())
    }),
    often("address part 255", Address, |random, line| {
        change_part(random, line, |_| "255".into())
    }),
    often("address part empty", Address, |random, line| {
        change_part(random, line, |_| "".into())
    }),
    often(
        "address part with a zero before",
        Address,
        |random, line| {
            change_part(random, line, |part| format!("0{part}"));
        },
    ),
    often("address of five parts", Address, |random, line| {
        change_part(random, line, |part| format!("{part}.{part}"));
    }),
    often("upper-case hex", Hex, |random, line| {
        let field = fields(line).pop().unwrap_or(0..0);
        let place = field.start + random.index(field.len().max(1));
        line.truncate(place);
        line.extend_from_slice(random.pick(&[&b"A"[..], b"aB", b"F0", b"0C"]));
        pad_hex(line, field.start, field.len());
    }),
    often("hex digit g", Hex, |random, line| {
        let field = fields(line).pop().unwrap_or(0..0);
        let place = field.start + random.index(field.len().max(1));
        line.truncate(place);
        line.push(random.pick(b"gG`/:@x"));
        pad_hex(line, field.start, field.len());
    }),
    often("odd count of digits", Hex, |_, line| {
        line.pop();
    }),
    often("two digits fewer", Hex, |_, line| {
        line.truncate(line.len() - 2)
    }),
    often("two digits more", Hex, |_, line| {
        line.extend_from_slice(b"00")
    }),
    often("byte 0", Anything, |random, line| {
        insert(random, line, &[0])
    }),
    often("byte 0 at the end", Anything, |_, line| line.push(0)),
    often("carriage return at the end", Anything, |_, line| {
        line.push(b'\r')
    }),
    often("high byte", Anything, |random, line| {
        let byte = random.byte() | 0x80;
        insert(random, line, &[byte]);
    }),
    often("bytes C2 A0", Anything, |random, line| {
        insert(random, line, &[0xc2, 0xa0])
    }),
    seldom(25, "2,998 digits", Packet, |random, line| {
        hex_digits(random, line, DIGITS_MAX - 2)
    }),
    seldom(25, "3,000 digits", Packet, |random, line| {
        hex_digits(random, line, DIGITS_MAX)
    }),
    seldom(25, "3,001 digits", Packet, |random, line| {
        hex_digits(random, line, DIGITS_MAX + 1)
    }),
    seldom(25, "3,002 digits", Packet, |random, line| {
        hex_digits(random, line, DIGITS_MAX + 2)
    }),
    seldom(20, "4,095 bytes", Anything, |_, line| {
        fill(line, LINE_MAX - 1)
    }),
    seldom(20, "4,096 bytes", Anything, |_, line| fill(line, LINE_MAX)),
    seldom(20, "4,097 bytes", Anything, |_, line| {
        fill(line, LINE_MAX + 1)
    }),
    seldom(10, "4,096 bytes and a good line", Anything, |_, line| {
        fill(line, LINE_MAX + line.len())
    }),
    seldom(10, "4,097 bytes and a good line", Anything, |_, line| {
        fill(line, LINE_MAX + 1 + line.len())
    }),
    seldom(12, "8,191 to 8,194 bytes", Anything, |random, line| {
        fill(line, 2 * LINE_MAX - 1 + random.index(4));
    }),
    seldom(10, "about 65,536 bytes", Anything, |random, line| {
        fill(line, random.between(65_530, 65_542) as usize);
    }),
    seldom(10, "100,000 bytes", Anything, |_, line| fill(line, 100_000)),
];
