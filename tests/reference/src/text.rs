//! Texts: lines of `key=value`, each ended by one LF.

use crate::broken::{broken, Broken};
use crate::cause::{Refusal, IDLING, RANGE, SYNTAX};
use crate::column::{of_number, of_syntax, Right};

/// Every range ends below this; a larger number is kept as this one.
const BEYOND: u32 = 1_000_000;

/// A reader of lines: the lent bytes, the place it has reached, and the line read last with its number and its numbers, of a
/// token line also how many times it is meant.
pub struct Reader<'a> {
    bytes: &'a [u8],
    at: usize,
    line: usize,
    last: &'a [u8],
    numbers: Vec<u32>,
    times: u32,
}

impl<'a> Reader<'a> {
    pub fn new(bytes: &'a [u8]) -> Reader<'a> {
        Reader { bytes, at: 0, line: 0, last: &[], numbers: Vec::new(), times: 1 }
    }

    /// The bytes read so far.
    pub fn used(&self) -> usize {
        self.at
    }

    /// The numbers of the list read last.
    pub fn numbers(&self) -> &[u32] {
        &self.numbers
    }

    /// How many times the token line read last is meant.
    pub fn times(&self) -> u32 {
        self.times
    }

    /// A refusal beside the line read last, for what it says.
    pub fn refuse(&self, number: usize) -> Refusal {
        if number == IDLING && broken(Broken::ColumnOfIdling) {
            return Refusal::at(number, self.line, of_number(self.last, 0));
        }
        Refusal::new(number, self.line)
    }

    /// A refusal of the line read last, where right lines are these.
    pub fn refuse_syntax(&self, right: Right) -> Refusal {
        self.refuse_at(SYNTAX, of_syntax(right, self.last))
    }

    /// A refusal of a number of the line read last, counted from 0.
    pub fn refuse_range(&self, index: usize) -> Refusal {
        self.refuse_at(RANGE, of_number(self.last, index))
    }

    fn refuse_at(&self, number: usize, column: usize) -> Refusal {
        let column = if broken(Broken::ColumnsFromZero) {
            column.wrapping_sub(1)
        } else if broken(Broken::ColumnOfTheLineEnd) {
            self.last.len()
        } else if broken(Broken::ColumnsOfTheText) {
            self.at - self.last.len() + column
        } else if broken(Broken::ColumnsIn16Bits) {
            usize::from(column as u16)
        } else {
            column
        };
        Refusal::at(number, self.line, column)
    }

    /// The next line without its LF. A missing or unended line is refused at its own number.
    pub fn line(&mut self, right: Right) -> Result<&'a [u8], Refusal> {
        let rest = &self.bytes[self.at..];
        if !(rest.is_empty() && broken(Broken::MissingLineIsTheLast)) {
            self.line += 1;
        }
        let end = rest.iter().position(|&byte| byte == b'\n');
        self.last = &rest[..end.map_or(rest.len(), |end| end + 1)];
        self.at += self.last.len();
        match end {
            Some(end) => Ok(&rest[..end]),
            None if !rest.is_empty() && reads_unended() => Ok(rest),
            None => Err(self.refuse_syntax(right)),
        }
    }

    /// The value of the next line, whose key must be `key`.
    fn value(&mut self, key: &str, right: Right) -> Result<&'a [u8], Refusal> {
        let line = self.line(right)?;
        value_of(line, key).ok_or_else(|| self.refuse_syntax(right))
    }

    /// Broken: an unended line that is right but for its end is refused now.
    pub fn ended(&self, right: Right) -> Result<(), Refusal> {
        if broken(Broken::RangeBeforeEnd) && !self.last.ends_with(b"\n") {
            return Err(self.refuse_syntax(right));
        }
        Ok(())
    }

    /// A first line with one of these numbers; which, counted from 0.
    pub fn header(&mut self, key: &str, numbers: &[&str]) -> Result<usize, Refusal> {
        let right = Right::Header(key, numbers);
        let value = self.value(key, right)?;
        let Some(index) = numbers.iter().position(|number| number.as_bytes() == value) else {
            let range = broken(Broken::OtherHeaderOutOfRange) && natural(value).is_some();
            return Err(if range { self.refuse_range(0) } else { self.refuse_syntax(right) });
        };
        self.ended(right)?;
        Ok(index)
    }

    /// The next line, a number from `least` to `most`.
    pub fn number(&mut self, key: &str, least: usize, most: usize) -> Result<usize, Refusal> {
        let keys = [key];
        let right = Right::Number(&keys);
        let value = self.value(key, right)?;
        self.in_range(value, right, least, most)
    }

    /// A value that is a number from `least` to `most`.
    pub fn in_range(&self, value: &[u8], right: Right, least: usize, most: usize) -> Result<usize, Refusal> {
        let number = natural(value).ok_or_else(|| self.refuse_syntax(right))? as usize;
        if number < least || number > most {
            return Err(self.refuse_range(0));
        }
        self.ended(right)?;
        Ok(number)
    }

    /// The next line, a list of `length` numbers from 0 to `most`, which is at most 255.
    pub fn list(&mut self, key: &str, length: usize, most: usize) -> Result<Vec<u8>, Refusal> {
        let right = Right::List(key, length);
        let value = self.value(key, right)?;
        if let Some(index) = hasty(value, most) {
            return Err(self.refuse_range(index));
        }
        self.read_numbers(value, right)?;
        let too_large = first_over(&self.numbers, most);
        if self.numbers.len() != length && !(too_large.is_some() && broken(Broken::RangeBeforeLength)) {
            return Err(self.refuse_syntax(right));
        }
        if let Some(index) = too_large {
            return Err(self.refuse_range(index));
        }
        self.ended(right)?;
        Ok(self.numbers.iter().map(|&number| number as u8).collect())
    }

    /// The next line, a token line: its place's number; its counts are then the numbers. Behind them there may be a sign and
    /// how many times the line is meant, from 2 on; else it is meant once.
    pub fn token(&mut self, right: Right) -> Result<usize, Refusal> {
        let value = self.value("token", right)?;
        let syntax = || self.refuse_syntax(right);
        let colon = value.iter().position(|&byte| byte == b':').ok_or_else(syntax)?;
        let place = natural(&value[..colon]).ok_or_else(syntax)?;
        let mut parts = value[colon + 1..].splitn(2, |&byte| byte == b'*');
        let counts = parts.next().unwrap_or_default();
        let times = parts.next().map_or(Some(1), several).ok_or_else(syntax)?;
        self.read_numbers(counts, right)?;
        self.times = times;
        Ok(place as usize)
    }

    /// Reads the numbers of a list; a list of length 0 is nothing.
    fn read_numbers(&mut self, value: &[u8], right: Right) -> Result<(), Refusal> {
        self.numbers.clear();
        if !value.is_empty() {
            for digits in value.split(|&byte| byte == b',') {
                let number = natural(digits).ok_or_else(|| self.refuse_syntax(right))?;
                self.numbers.push(number);
            }
        }
        Ok(())
    }

    /// The next line, a list of `length` weights from −`most` to `most`.
    pub fn weights(&mut self, key: &str, length: usize, most: u32) -> Result<Vec<i64>, Refusal> {
        let right = Right::Weights(key, length);
        let value = self.value(key, right)?;
        let weights: Option<Vec<i64>> = match value {
            [] => Some(Vec::new()),
            _ => value.split(|&byte| byte == b',').map(weight).collect(),
        };
        let weights = weights.filter(|weights| weights.len() == length);
        let weights = weights.ok_or_else(|| self.refuse_syntax(right))?;
        let sizes: Vec<u32> = weights.iter().map(|weight| weight.unsigned_abs() as u32).collect();
        if let Some(index) = first_over(&sizes, most as usize) {
            return Err(self.refuse_range(index));
        }
        self.ended(right)?;
        Ok(weights)
    }

    /// Refuses bytes after the last line, where no line could begin.
    pub fn end(&self) -> Result<(), Refusal> {
        if self.at < self.bytes.len() && !broken(Broken::BytesAfterTheLastLine) {
            let column = usize::from(!broken(Broken::BytesAfterAtZero));
            return Err(Refusal::at(SYNTAX, self.line + 1, column));
        }
        Ok(())
    }
}

/// Broken: whether an unended line is read.
fn reads_unended() -> bool {
    broken(Broken::UnendedLine) || broken(Broken::RangeBeforeEnd)
}

/// Which number, counted from 0, is the first one that is more than `most`.
pub fn first_over(numbers: &[u32], most: usize) -> Option<usize> {
    if broken(Broken::LastOutOfRange) {
        return numbers.iter().rposition(|&number| number as usize > most);
    }
    numbers.iter().position(|&number| number as usize > most)
}

/// Broken: which number of a list, perhaps no right one, is the first one that is more than `most`.
fn hasty(value: &[u8], most: usize) -> Option<usize> {
    let read = value.split(|&byte| byte == b',').map_while(natural);
    let over = |number: u32| number as usize > most;
    if broken(Broken::RangeBeforeSyntax) {
        read.map(over).position(|over| over)
    } else {
        None
    }
}

/// What follows the key and the sign of a line.
pub fn value_of<'a>(line: &'a [u8], key: &str) -> Option<&'a [u8]> {
    let value = line.strip_prefix(key.as_bytes())?.strip_prefix(b"=")?;
    if broken(Broken::CarriageReturn) {
        return Some(value.strip_suffix(b"\r").unwrap_or(value));
    }
    Some(value)
}

/// A number from 2 on.
fn several(digits: &[u8]) -> Option<u32> {
    let one = |number: u32| number == 1 && broken(Broken::TimesOneRead);
    let zero = |number: u32| number == 0 && broken(Broken::TimesZeroRead);
    natural(digits).filter(|&number| number > 1 || one(number) || zero(number))
}

/// A decimal number without leading zeros.
fn natural(digits: &[u8]) -> Option<u32> {
    let leading_zero = digits.len() > 1 && digits[0] == b'0';
    if digits.is_empty() || (leading_zero && !broken(Broken::LeadingZeros)) {
        return None;
    }
    let mut number: u32 = 0;
    for &digit in digits {
        if !digit.is_ascii_digit() {
            return None;
        }
        number = next_digit(number, digit - b'0');
    }
    Some(number)
}

fn next_digit(number: u32, digit: u8) -> u32 {
    if broken(Broken::NumbersWrap) {
        return number.wrapping_mul(10).wrapping_add(u32::from(digit));
    }
    (number * 10 + u32::from(digit)).min(BEYOND)
}

/// A weight: a number, or a minus sign and a number that is not 0.
fn weight(text: &[u8]) -> Option<i64> {
    match text.strip_prefix(b"-") {
        None => natural(text).map(i64::from),
        Some(b"0") if !broken(Broken::MinusZero) => None,
        Some(digits) => natural(digits).map(|number| -i64::from(number)),
    }
}

/// Appends a number in decimal.
pub fn push_number(out: &mut Vec<u8>, mut number: usize) {
    let mut digits = [0; 20];
    let mut at = digits.len();
    loop {
        at -= 1;
        digits[at] = b'0' + (number % 10) as u8;
        number /= 10;
        if number == 0 {
            break;
        }
    }
    out.extend_from_slice(&digits[at..]);
}

/// Appends a line `key=number`.
pub fn push_line(out: &mut Vec<u8>, key: &str, number: usize) {
    out.extend_from_slice(key.as_bytes());
    out.push(b'=');
    push_number(out, number);
    out.push(b'\n');
}

/// Appends numbers joined by commas.
pub fn push_list(out: &mut Vec<u8>, numbers: impl Iterator<Item = usize>) {
    for (at, number) in numbers.enumerate() {
        if at > 0 {
            out.push(b',');
        }
        push_number(out, number);
    }
}
