//! Damage to texts.

use std::ops::Range;

use super::rng::Rng;

const BYTES: &[u8] = b"0123456789,,,===:::***---+\n\n\r \0aetZ.;_\xff";

/// A short text of odd bytes.
pub fn noise(rng: &mut Rng) -> Vec<u8> {
    (0..rng.below(40)).map(|_| *rng.pick(BYTES)).collect()
}

/// Damages a text at one point.
pub fn damage(rng: &mut Rng, text: &mut Vec<u8>) {
    if text.is_empty() {
        text.push(*rng.pick(BYTES));
        return;
    }
    match rng.below(26) {
        0 => {
            let at = rng.below(text.len());
            text[at] = *rng.pick(BYTES);
        }
        1 => text.insert(rng.below(text.len() + 1), *rng.pick(BYTES)),
        2 => drop(text.remove(rng.below(text.len()))),
        3 => text.truncate(rng.below(text.len())),
        4 => drop(text.pop()),
        5 => append(rng, text),
        6..=9 => change_line(rng, text),
        10..=13 => change_number(rng, text),
        14..=17 => change_short_line(rng, text),
        18..=21 => change_list(rng, text),
        22 => change_key(rng, text),
        23 | 24 => change_times(rng, text),
        _ => {
            let line = some_line(rng, text);
            text.insert(line.end - 1, b'\r');
        }
    }
}

fn append(rng: &mut Rng, text: &mut Vec<u8>) {
    const MORE: &[&[u8]] = &[b"\n", b"x", b"token=1:\n", b"sync=0\n", b"fire=1\n", b"\r\n", b"\0", b" "];
    let more: &&[u8] = rng.pick(MORE);
    text.extend_from_slice(more);
}

/// The lines of a text, each with its LF, the last one perhaps without.
pub fn lines(text: &[u8]) -> Vec<Range<usize>> {
    let mut first = 0;
    let mut lines = Vec::new();
    for line in text.split_inclusive(|&byte| byte == b'\n') {
        lines.push(first..first + line.len());
        first += line.len();
    }
    lines
}

fn some_line(rng: &mut Rng, text: &[u8]) -> Range<usize> {
    rng.pick(&lines(text)).clone()
}

/// Removes, repeats or swaps whole lines.
fn change_line(rng: &mut Rng, text: &mut Vec<u8>) {
    let line = some_line(rng, text);
    let other = some_line(rng, text);
    let copy = text[other.clone()].to_vec();
    match rng.below(4) {
        0 => drop(text.drain(line)),
        1 => {
            text.splice(line.start..line.start, copy);
        }
        2 => {
            text.splice(line, copy);
        }
        _ => drop(text.drain(line.start..)),
    }
}

/// Changes a number, wherever it stands.
fn change_number(rng: &mut Rng, text: &mut Vec<u8>) {
    let from = rng.below(text.len());
    change_number_from(rng, text, from);
}

/// Changes the number of a short line, such as `nets` or `take`.
fn change_short_line(rng: &mut Rng, text: &mut Vec<u8>) {
    let listed = |line: &Range<usize>| text[line.clone()].iter().any(|byte| b",:".contains(byte));
    let short: Vec<Range<usize>> = lines(text).into_iter().filter(|line| !listed(line)).collect();
    if !short.is_empty() {
        let from = rng.pick(&short).start;
        change_number_from(rng, text, from);
    }
}

fn change_number_from(rng: &mut Rng, text: &mut Vec<u8>, from: usize) {
    let Some(first) = (from..text.len()).find(|&at| text[at].is_ascii_digit()) else {
        return;
    };
    let end = (first..text.len()).find(|&at| !text[at].is_ascii_digit()).unwrap_or(text.len());
    let number = odd_number(rng, &String::from_utf8_lossy(&text[first..end]));
    text.splice(first..end, number.into_bytes());
}

/// Numbers at or past a limit, and what is no number.
#[rustfmt::skip]
const NUMBERS: &[&str] = &[
    "0", "1", "2", "8", "9", "31", "32", "33", "64", "65", "255", "256", "257", "1000", "1001",
    "65535", "65536", "4294967296", "18446744073709551616", "123456789012345678901234567890",
    "-1000", "-1001", "-0", "-01", "00", "", "0x1", "1e3",
];

/// One of these numbers, or one made of the old one; some wrap to it.
fn odd_number(rng: &mut Rng, old: &str) -> String {
    let value: u128 = old.parse().unwrap_or(0);
    match rng.below(14) {
        0 => format!("0{old}"),
        1 => format!("-{old}"),
        2 => format!("+{old}"),
        3 => (value + 1).to_string(),
        4 => value.saturating_sub(1).to_string(),
        5 => (value + (1 << *rng.pick(&[8, 16, 32, 64]))).to_string(),
        6 => format!("{old}{}", "0".repeat(rng.between(1, 40))),
        7 => format!("{old} "),
        _ => rng.pick(NUMBERS).to_string(),
    }
}

/// Changes the length of a list, with numbers in or out of range.
fn change_list(rng: &mut Rng, text: &mut Vec<u8>) {
    let listed = |line: &Range<usize>| text[line.clone()].iter().any(|byte| b",:".contains(byte));
    let lists: Vec<Range<usize>> = lines(text).into_iter().filter(listed).collect();
    if lists.is_empty() {
        return;
    }
    let line = rng.pick(&lists).clone();
    let end = if text[line.end - 1] == b'\n' { line.end - 1 } else { line.end };
    let comma = (line.start..end).rev().find(|&at| b",:=".contains(&text[at]));
    match (rng.below(8), comma) {
        (0, _) => drop(text.splice(end..end, *b",0")),
        (1, _) => drop(text.splice(end..end, *b",999999")),
        (2, _) => drop(text.splice(end..end, *b",")),
        (3, Some(comma)) => drop(text.drain(comma..end)),
        (4, Some(comma)) => drop(text.drain(comma + 1..end)),
        (5, Some(comma)) => drop(text.splice(comma + 1..end, *b"70000,1")),
        (6, Some(comma)) => drop(text.splice(comma..comma, *b",0")),
        _ => change_number_from(rng, text, line.start),
    }
}

/// What stands behind a token line's counts: right, out of range, and of no sense.
#[rustfmt::skip]
pub const TIMES: &[&str] = &[
    "", "*2", "*10", "*65534", "*65535", "*65536", "*65537", "*131072", "*4294967298", "*18446744073709551618",
    "*99999999999999999999999", "*0", "*1", "*01", "*02", "*00", "*", "**2", "*2*2", "*2x", "*x", "*-2", "*+2", "* 2",
    "*2 ", "*2,0", ",*2", "*2:", "*1*2",
];

/// Puts other likes behind a token line's counts.
fn change_times(rng: &mut Rng, text: &mut Vec<u8>) {
    let tokens = |line: &Range<usize>| text[line.clone()].starts_with(b"token=");
    let tokens: Vec<Range<usize>> = lines(text).into_iter().filter(tokens).collect();
    if tokens.is_empty() {
        return;
    }
    let line = rng.pick(&tokens).clone();
    let end = if text[line.end - 1] == b'\n' { line.end - 1 } else { line.end };
    let sign = line.clone().find(|&at| text[at] == b'*').unwrap_or(end).min(end);
    text.splice(sign..end, rng.pick(TIMES).bytes());
}

/// Changes a key.
fn change_key(rng: &mut Rng, text: &mut Vec<u8>) {
    #[rustfmt::skip]
    const KEYS: &[&[u8]] = &[
        b"pre", b"post", b"event", b"idle", b"alone", b"sync", b"token", b"start", b"inner", b"steps", b"take",
        b"give", b"fire", b"", b"Token", b"outer",
    ];
    let line = some_line(rng, text);
    if let Some(sign) = line.clone().find(|&at| text[at] == b'=') {
        text.splice(line.start..sign, rng.pick(KEYS).iter().copied());
    }
}
