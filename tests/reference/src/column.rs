//! The column of a refusal: the byte of its line, counted from 1.
//!
//! For 2 the right lines that can stand there are one pattern. What may follow is worked out byte by byte; where nothing
//! may, that byte is at fault. For 3 the numbers of a right line are counted by the signs before them.

use crate::broken::{broken, Broken};
use crate::model::Model;
use crate::pattern::Pattern;

/// The right lines at a place of a text.
#[derive(Clone, Copy)]
pub enum Right<'a> {
    /// A key and one of these numbers.
    Header(&'a str, &'a [&'a str]),
    /// One of these keys and a number.
    Number(&'a [&'a str]),
    /// A key and a list of so many numbers.
    List(&'a str, usize),
    /// A key and a list of so many weights.
    Weights(&'a str, usize),
    /// A net-token, and perhaps how many times: a place of the model with a list as long as its net has inner places, or another
    /// place with any list.
    Token(&'a Model),
}

impl Right<'_> {
    /// The right lines, each with its LF. Of a token line the text is asked for its place.
    pub fn pattern(self, line: &[u8]) -> Pattern {
        let lines = match self {
            Right::Header(key, numbers) => {
                let one_of = |found: Pattern, number: &&str| found.or(Pattern::bytes(number.as_bytes()));
                of_key(key, numbers.iter().fold(Pattern::Nothing, one_of))
            }
            Right::Number(keys) => {
                let tried = if broken(Broken::SecondKeyNotTried) { &keys[..1] } else { keys };
                let of = |lines: Pattern, key: &&str| lines.or(of_key(key, number()));
                tried.iter().fold(Pattern::Nothing, of)
            }
            Right::List(key, length) => of_key(key, list(number(), length)),
            Right::Weights(key, length) => of_key(key, list(weight(), length)),
            Right::Token(model) => {
                let colon = Pattern::bytes(b":");
                of_key("token", number().then(colon).then(token(model, place_of(line))))
            }
        };
        lines.then(Pattern::bytes(b"\n"))
    }
}

fn of_key(key: &str, value: Pattern) -> Pattern {
    Pattern::bytes(key.as_bytes()).then(Pattern::bytes(b"=")).then(value)
}

/// A number that is not 0.
fn not_zero() -> Pattern {
    Pattern::Byte(b'1', b'9').then(Pattern::Byte(b'0', b'9').many())
}

fn number() -> Pattern {
    Pattern::bytes(b"0").or(not_zero())
}

fn weight() -> Pattern {
    number().or(Pattern::bytes(b"-").then(not_zero()))
}

/// So many of these, joined by commas.
fn list(one: Pattern, length: usize) -> Pattern {
    let comma = || Pattern::bytes(b",");
    let more = (1..length).fold(Pattern::Empty, |more, _| comma().then(one.clone()).then(more));
    match length {
        0 => Pattern::Empty,
        _ if broken(Broken::ExtraNumberAfterComma) => one.then(more).then(comma().or(Pattern::Empty)),
        _ => one.then(more),
    }
}

/// A list of any length.
fn any_list(one: Pattern) -> Pattern {
    let more = Pattern::bytes(b",").then(one.clone()).many();
    Pattern::Empty.or(one.then(more))
}

/// The digits of a token line's place: what stands before the colon, behind the sign.
fn place_of(line: &[u8]) -> &[u8] {
    let before = line.split(|&byte| byte == b':').next().unwrap_or_default();
    before.strip_prefix(b"token=").unwrap_or_default()
}

/// What stands behind the place with these digits.
fn token(model: &Model, digits: &[u8]) -> Pattern {
    match (1..=model.places()).find(|place| place.to_string().as_bytes() == digits) {
        Some(place) => list(number(), model.inner_places(place - 1)).then(times()),
        None if broken(Broken::UnknownPlaceOnce) => any_list(number()),
        None if broken(Broken::UnknownPlaceIsBlack) => times(),
        None => any_list(number()).then(times()),
    }
}

/// Nothing, or a sign and a number from 2 on.
fn times() -> Pattern {
    let digit = || Pattern::Byte(b'0', b'9');
    let ten_or_more = Pattern::bytes(b"1").then(digit());
    let several = Pattern::Byte(b'2', b'9').or(ten_or_more).then(digit().many());
    Pattern::Empty.or(Pattern::bytes(b"*").then(several))
}

/// The column of a 2: the first byte where no right line could go on, at an early end the one after the last. The line has
/// its LF, if it is ended; a missing line is empty.
pub fn of_syntax(right: Right, line: &[u8]) -> usize {
    let mut rest = right.pattern(line);
    let dies = |&byte: &u8| {
        rest = rest.after(byte);
        rest.is_nothing()
    };
    let column = 1 + line.iter().position(dies).unwrap_or(line.len());
    misplaced_syntax(right, line, column)
}

/// The column of a 3: the first digit or sign of a number of a right line, counted from 0. Each number stands behind a
/// sign `=` or `*`, a colon or a comma; behind a colon there may be none.
pub fn of_number(line: &[u8], index: usize) -> usize {
    let begins = |&(_, pair): &(usize, &[u8])| b"=:,*".contains(&pair[0]) && pair[1] != b'*';
    let column =
        (2..).zip(line.windows(2)).filter(begins).map(|(column, _)| column).nth(index).unwrap_or_default();
    misplaced_number(line, column)
}

/// Broken: other columns of a 2.
fn misplaced_syntax(right: Right, line: &[u8], column: usize) -> usize {
    let [before, at] = [2, 1].map(|less| column.checked_sub(less).and_then(|at| line.get(at)).copied());
    let value = 2 + line.iter().position(|&byte| byte == b'=').unwrap_or(line.len());
    let last_number = 2 + line.iter().rposition(|byte| b"=:,*".contains(byte)).unwrap_or_default();
    let several = column.checked_sub(3).and_then(|at| line.get(at)) == Some(&b'*');
    let follows = |first: u8, second: u8| (before, at) == (Some(first), Some(second));
    let digit = at.is_some_and(|byte| byte.is_ascii_digit());
    if line.is_empty() && broken(Broken::MissingLineAtZero) {
        0
    } else if several && before == Some(b'1') && broken(Broken::TimesOneAtItself) {
        column - 1
    } else if follows(b'*', b'0') && broken(Broken::TimesZeroBehindIt) {
        column + 1
    } else if at.is_none() && broken(Broken::UnendedAtItsLast) {
        line.len().max(1)
    } else if column < value && broken(Broken::WrongKeyAtItsFirst) {
        1
    } else if matches!(right, Right::Header(..)) && column > value && broken(Broken::HeaderAtItsNumber) {
        value
    } else if at == Some(b'\n') && column > value && broken(Broken::ShortListAtItsNumber) {
        last_number
    } else if before == Some(b'0') && digit && broken(Broken::LeadingZeroAtItself)
        || follows(b'-', b'0') && broken(Broken::MinusZeroAtItsSign)
    {
        column - 1
    } else {
        column
    }
}

/// Broken: other columns of a 3.
fn misplaced_number(line: &[u8], column: usize) -> usize {
    let number = || line.iter().skip(column - 1).take_while(|byte| !b",:*\n".contains(byte));
    if broken(Broken::KeyNotCounted) {
        column - 1 - line.iter().position(|&byte| byte == b'=').unwrap_or_default()
    } else if broken(Broken::RangeAtItsLastDigit) {
        column + number().count() - 1
    } else if broken(Broken::SignNotCounted) {
        column + usize::from(number().next() == Some(&b'-'))
    } else {
        column
    }
}
