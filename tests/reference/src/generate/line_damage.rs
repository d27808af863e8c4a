//! Damage to one line of a text: so drawn that every kind of line is met at every kind of byte, or at each byte in turn.

use std::ops::Range;

use super::damage::lines;
use super::rng::Rng;

/// What is put in a byte's place or before it.
const BYTES: &[u8] = b"0123456789,,,==::--**\n\n\r eivdtxaln+. \0\xff";

/// Damages one line of a text.
pub fn damage_line(rng: &mut Rng, text: &mut Vec<u8>) {
    let Some(line) = some_line(rng, text) else {
        return text.push(*rng.pick(BYTES));
    };
    match rng.below(20) {
        0..=3 => {
            let at = some_byte(rng, text, &line);
            text[at] = *rng.pick(BYTES);
        }
        4..=6 => {
            let at = some_byte(rng, text, &line);
            text.insert(at, *rng.pick(BYTES));
        }
        7 | 8 => drop(text.remove(some_byte(rng, text, &line))),
        9 | 10 => text.truncate(some_byte(rng, text, &line)),
        11 => text.truncate(line.end - 1),
        12 => text.truncate(line.start),
        13 => text.extend_from_slice(some(rng, &[b"\n", b"x", b"=", b"token=1:\n", b"\0\0"])),
        14 => lengthen(rng, text, &line),
        15 => shorten(rng, text, &line),
        16 => put_before(rng, text, &line, b"0"),
        17 => put_before(rng, text, &line, b"-"),
        _ => overdo(rng, text, &line),
    }
}

/// One of these texts.
fn some<'t>(rng: &mut Rng, texts: &[&'t [u8]]) -> &'t [u8] {
    texts[rng.below(texts.len())]
}

/// What each byte of a text is replaced by, and what is put before it, in turn.
const IN_TURN: &[u8] = b"01239,:=-*\neia\xff";

/// Every text that comes of a byte replaced, put in or taken out, or of a cut, at each byte.
pub fn damaged_everywhere(text: &[u8]) -> impl Iterator<Item = Vec<u8>> + '_ {
    (0..=text.len()).flat_map(move |at| {
        let (before, behind) = text.split_at(at);
        let rest = behind.get(1..).unwrap_or_default();
        let put = move |byte: u8, behind: &[u8]| [before, &[byte], behind].concat();
        let changed = IN_TURN.iter().flat_map(move |&byte| [put(byte, behind), put(byte, rest)]);
        changed.chain([[before, rest].concat(), before.to_vec()])
    })
}

/// A line with its LF: each key of the text is as likely as any other.
fn some_line(rng: &mut Rng, text: &[u8]) -> Option<Range<usize>> {
    let lines = lines(text);
    let mut keys: Vec<&[u8]> = Vec::new();
    for line in &lines {
        let key = key_of(text, line);
        if !keys.contains(&key) {
            keys.push(key);
        }
    }
    let key = rng.pick_some(&keys)?;
    let of_key: Vec<Range<usize>> = lines.into_iter().filter(|line| key_of(text, line) == key).collect();
    Some(rng.pick(&of_key).clone())
}

fn key_of<'t>(text: &'t [u8], line: &Range<usize>) -> &'t [u8] {
    text[line.clone()].split(|&byte| byte == b'=').next().unwrap_or_default()
}

/// The kind of a line's byte: its first, one of its key, a digit, or one of the others, each of which is a kind by itself.
pub fn kind_of_byte(line: &[u8], at: usize) -> u8 {
    match line[at] {
        _ if at == 0 => b'^',
        byte if byte.is_ascii_digit() => b'0',
        byte if byte.is_ascii_lowercase() => b'a',
        byte => byte,
    }
}

/// A byte of a line: each kind of byte is as likely as any other.
fn some_byte(rng: &mut Rng, text: &[u8], line: &Range<usize>) -> usize {
    let bytes = &text[line.clone()];
    let mut kinds: Vec<u8> = (0..bytes.len()).map(|at| kind_of_byte(bytes, at)).collect();
    let all = kinds.clone();
    kinds.sort();
    kinds.dedup();
    let kind = *rng.pick(&kinds);
    let of_kind: Vec<usize> = (0..all.len()).filter(|&at| all[at] == kind).collect();
    line.start + rng.pick(&of_kind)
}

/// The numbers of a line, each with its sign.
fn numbers(text: &[u8], line: &Range<usize>) -> Vec<Range<usize>> {
    let number = |at: &usize| text[*at].is_ascii_digit() || text[*at] == b'-';
    let mut found: Vec<Range<usize>> = Vec::new();
    for at in line.clone().filter(number) {
        match found.last_mut() {
            Some(last) if last.end == at => last.end = at + 1,
            _ => found.push(at..at + 1),
        }
    }
    found
}

/// Where a line ends but for its LF.
fn end_of(text: &[u8], line: &Range<usize>) -> usize {
    line.end - usize::from(text[line.end - 1] == b'\n')
}

/// Adds a number, behind a comma, at the end of a line or before another number.
fn lengthen(rng: &mut Rng, text: &mut Vec<u8>, line: &Range<usize>) {
    let more = some(rng, &[b",0", b",", b",99999", b",01", b",-1", b",x", b"*2", b"*1"]);
    let end = end_of(text, line);
    let behind = numbers(text, line).iter().map(|number| number.end).collect::<Vec<_>>();
    let at = if rng.percent(60) { end } else { rng.pick_some(&behind).unwrap_or(end) };
    text.splice(at..at, more.iter().copied());
}

/// Takes a number from a list, the last one with its comma or any without.
fn shorten(rng: &mut Rng, text: &mut Vec<u8>, line: &Range<usize>) {
    let end = end_of(text, line);
    let comma = line.clone().rev().find(|&at| b",:=".contains(&text[at])).unwrap_or(line.start);
    let number = rng.pick_some_of(numbers(text, line));
    match (rng.below(3), number) {
        (0, Some(number)) => drop(text.drain(number)),
        (1, _) => drop(text.drain((comma + 1).min(end)..end)),
        _ => drop(text.drain(comma..end)),
    }
}

fn put_before(rng: &mut Rng, text: &mut Vec<u8>, line: &Range<usize>, sign: &[u8]) {
    if let Some(number) = rng.pick_some_of(numbers(text, line)) {
        text.splice(number.start..number.start, sign.iter().copied());
    }
}

/// Puts one or two numbers out of range, now and then with a fault of another kind behind them.
fn overdo(rng: &mut Rng, text: &mut Vec<u8>, line: &Range<usize>) {
    let key = key_of(text, line).to_vec();
    let mut end = end_of(text, line);
    for _ in 0..*rng.pick(&[1, 1, 2, 3]) {
        let Some(number) = rng.pick_some_of(numbers(text, &(line.start..end))) else {
            return;
        };
        let beyond = beyond(rng, &key);
        end = end - number.len() + beyond.len();
        text.splice(number, beyond);
    }
    match rng.below(10) {
        0 => drop(text.splice(end..end, *b",0")),
        1 => drop(text.splice(end..end, *b",")),
        2 => text.insert(end, b'x'),
        3 => text.truncate(end),
        _ => {}
    }
}

/// A number out of the range of some number behind this key.
fn beyond(rng: &mut Rng, key: &[u8]) -> Vec<u8> {
    #[rustfmt::skip]
    let near: &[&str] = match key {
        b"eos" => &["3", "12"],
        b"nets" | b"type" => &["9", "10"],
        b"alone" => &["0", "9"],
        b"places" | b"steps" | b"moves" | b"event" | b"idle" => &["0", "33"],
        b"pre" | b"post" | b"sync" => &["256", "257"],
        b"events" | b"fire" => &["0", "65"],
        b"start" | b"take" | b"give" => &["257", "258"],
        b"inner" | b"outer" => &["0", "33", "1001", "-1001"],
        _ => &["0", "33", "65536", "65537"],
    };
    const FAR: &[&str] = &["4294967296", "4294967297", "18446744073709551617", "99999999999999999999999"];
    let numbers = if rng.percent(80) { near } else { FAR };
    rng.pick(numbers).as_bytes().to_vec()
}

#[cfg(test)]
mod tests {
    use super::*;
    use std::collections::BTreeSet;

    const TEXT: &[u8] = b"eos=1\ntype=10,2\ntoken=1:10,0\nouter=-2,0\nsync=\n";

    #[test]
    fn a_text_is_damaged_at_each_byte() {
        let texts: BTreeSet<Vec<u8>> = damaged_everywhere(b"a\n").collect();
        let expected: [&[u8]; 7] = [b"", b"\n", b"a", b"\n\n", b"0a\n", b"a0\n", b"a\n,"];
        assert!(expected.iter().all(|&text| texts.contains(text)) && !texts.contains(&b"b\n"[..]));
    }

    #[test]
    fn every_kind_of_byte_of_every_line_is_drawn() {
        let mut rng = Rng::new(1, 1);
        let mut drawn = BTreeSet::new();
        for _ in 0..2_000 {
            let line = some_line(&mut rng, TEXT).unwrap();
            drawn.insert(some_byte(&mut rng, TEXT, &line));
        }
        assert_eq!(drawn.len(), TEXT.len());
    }
}
