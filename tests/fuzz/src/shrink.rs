//! Makes an input that shows a difference as short as can be found.

use std::time::Instant;

use twin::{Call, FRAME_LEN};

/// A frame's hex digits.
const FRAME_DIGITS: usize = 2 * FRAME_LEN;

/// Whether an input still shows the difference.
pub type Differs<'a> = dyn FnMut(&[u8]) -> bool + 'a;

/// Fewer lines first, then simpler ones, again and again until nothing more
/// can go or the time is up.
pub fn shrink(input: &[u8], differs: &mut Differs, until: Instant) -> Vec<u8> {
    let mut lines: Vec<Vec<u8>> = input
        .split_inclusive(|byte| *byte == b'\n')
        .map(<[u8]>::to_vec)
        .collect();
    loop {
        let before = lines.concat();
        fewer(&mut lines, until, &mut |some| differs(&some.concat()));
        pairs(&mut lines, differs, until);
        earlier(&mut lines, differs);
        for number in 0..lines.len() {
            if Instant::now() > until {
                break;
            }
            simpler_line(&mut lines, number, differs, until);
        }
        if lines.concat() == before || Instant::now() > until {
            return lines.concat();
        }
    }
}

/// Takes out runs of items, long runs first, as long as `good` holds.
fn fewer<T: Clone>(items: &mut Vec<T>, until: Instant, good: &mut dyn FnMut(&[T]) -> bool) {
    let mut run = items.len();
    while run > 0 {
        let mut start = items.len();
        while start > 0 && Instant::now() < until {
            let end = start;
            start = end.saturating_sub(run);
            let mut rest = items[..start].to_vec();
            rest.extend_from_slice(&items[end..]);
            if good(&rest) {
                *items = rest;
            }
        }
        run = if run == 1 { 0 } else { run.div_ceil(2) };
    }
}

/// Takes out two lines at once, such as a claim and its loss.
fn pairs(lines: &mut Vec<Vec<u8>>, differs: &mut Differs, until: Instant) {
    let mut first = 0;
    while first < lines.len() && lines.len() <= 40 && Instant::now() < until {
        let without = |second: usize| {
            let mut rest = lines.clone();
            rest.remove(second);
            rest.remove(first);
            rest
        };
        let shorter = (first + 1..lines.len())
            .map(without)
            .find(|rest| differs(&rest.concat()));
        match shorter {
            Some(shorter) => *lines = shorter,
            None => first += 1,
        }
    }
}

/// Moves all times towards 0 by the same step.
fn earlier(lines: &mut Vec<Vec<u8>>, differs: &mut Differs) {
    let Some(first) = lines
        .iter()
        .filter_map(|line| time(line))
        .filter(|time| *time > 0)
        .min()
    else {
        return;
    };
    let moved: Vec<Vec<u8>> = lines
        .iter()
        .map(|line| with_earlier_time(line, first))
        .collect();
    if differs(&moved.concat()) {
        *lines = moved;
    }
}

fn time(line: &[u8]) -> Option<u64> {
    let time = number_in(split(line).get(1)?);
    time.filter(|_| !line.starts_with(b"fresh"))
}

fn with_earlier_time(line: &[u8], step: u64) -> Vec<u8> {
    match time(line) {
        Some(time) if time >= step => with_field(line, 1, (time - step).to_string().as_bytes()),
        _ => line.to_vec(),
    }
}

/// Simplifies the fields of a line, and takes out bytes where that is likely
/// to do: from a line out of the form, or where few lines are left.
fn simpler_line(lines: &mut [Vec<u8>], number: usize, differs: &mut Differs, until: Instant) {
    let few = lines.len() <= 3;
    let (before, rest) = lines.split_at_mut(number);
    let Some((line, after)) = rest.split_first_mut() else {
        return;
    };
    let (before, after) = (before.concat(), after.concat());
    let ended = line.ends_with(b"\n");
    line.truncate(line.len() - usize::from(ended));
    let end: &[u8] = if ended { b"\n" } else { b"" };
    let mut good =
        |line: &[u8]| Instant::now() < until && differs(&[&before, line, end, &after].concat());
    for field in 0..split(line).len() {
        smaller_number(line, field, &mut good);
        simpler_hex(line, field, &mut good);
    }
    if few || Call::read(line).is_none() {
        fewer(line, until, &mut good);
    }
    line.extend_from_slice(end);
}

fn split(line: &[u8]) -> Vec<&[u8]> {
    line.split(|byte| *byte == b'\t').collect()
}

fn with_field(line: &[u8], field: usize, text: &[u8]) -> Vec<u8> {
    let mut fields = split(line);
    fields[field] = text;
    fields.join(&b'\t')
}

/// Makes a number smaller as long as that will do.
fn smaller_number(line: &mut Vec<u8>, field: usize, good: &mut dyn FnMut(&[u8]) -> bool) {
    while let Some(number) = number_in(split(line)[field]) {
        let lines = smaller(number)
            .map(|number| with_field(line, field, number.to_string().as_bytes()))
            .find(|line| good(line));
        match lines {
            Some(better) => *line = better,
            None => return,
        }
    }
}

fn number_in(text: &[u8]) -> Option<u64> {
    std::str::from_utf8(text).ok()?.parse().ok()
}

/// 0, then numbers ever closer to the given one.
fn smaller(number: u64) -> impl Iterator<Item = u64> {
    let steps = (0..64).map(move |shift| number >> shift);
    let steps = steps.take_while(|step| *step > 0);
    steps.map(move |step| number - step)
}

/// Takes away bytes after the 28th, then makes one byte after the other zero.
fn simpler_hex(line: &mut Vec<u8>, field: usize, good: &mut dyn FnMut(&[u8]) -> bool) {
    let digits = split(line)[field].to_vec();
    if digits.len() < 12 || !digits.iter().all(u8::is_ascii_hexdigit) {
        return;
    }
    let mut keep = |digits: &[u8]| {
        let simpler = with_field(line, field, digits);
        let good = simpler != *line && good(&simpler);
        if good {
            *line = simpler;
        }
        good
    };
    let mut digits = digits;
    if digits.len() > FRAME_DIGITS && keep(&digits[..FRAME_DIGITS]) {
        digits.truncate(FRAME_DIGITS);
    }
    for place in (0..digits.len().min(FRAME_DIGITS) - 1).step_by(2) {
        let mut simpler = digits.clone();
        simpler[place..place + 2].fill(b'0');
        if keep(&simpler) {
            digits = simpler;
        }
    }
}
