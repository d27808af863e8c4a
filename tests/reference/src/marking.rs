//! Markings: bags of net-tokens, their projections, their reading and writing.

use std::borrow::Cow;
use std::collections::BTreeMap;
use std::ops::RangeInclusive;

use crate::broken::{broken, Broken};
use crate::cause::{Refusal, NO_ROOM, RANGE};
use crate::column::Right;
use crate::model::{within_slice, Model, COUNT, INNER, LIKES, LINES, NETS, PLACES};
use crate::text::{first_over, push_line, push_list, push_number, Reader};

/// A net-token: its place's number, from 1, and its counts; 0 past the net's inner places.
/// The order of rows is the order of markings.
pub type Row = [u16; 1 + INNER];

/// Net-tokens, each with the number of times that it is there.
pub type Bag = BTreeMap<Row, u64>;

/// A net-token, and how many times it is meant: a token line, or what a marking holds of its likes.
#[derive(Clone, Copy, Debug, PartialEq, Eq)]
pub struct Line {
    pub row: Row,
    pub times: u64,
}

impl Line {
    pub fn new(row: Row, times: u64) -> Line {
        Line { row, times }
    }

    /// Its place, counted from 0.
    pub fn place(&self) -> usize {
        usize::from(self.row[0]) - 1
    }

    /// Its counts.
    pub fn inside(&self) -> &[u16] {
        &self.row[1..]
    }
}

/// A marking: how often each of its net-tokens is there.
#[derive(Clone, Debug, Default, PartialEq, Eq)]
pub struct Marking {
    bag: Bag,
    /// Broken: net-tokens that stand behind the others, in this order.
    last: Vec<Row>,
}

impl Marking {
    /// The marking of these lines, given in any order.
    pub fn new(lines: &[Line]) -> Marking {
        let mut bag = Bag::new();
        for line in lines {
            let likes = bag.entry(line.row).or_default();
            if *likes == 0 || !broken(Broken::EqualTokensOnce) {
                *likes += line.times;
            }
        }
        let unsorted = broken(Broken::MarkingUnsorted);
        let last = if unsorted { lines.iter().map(|line| line.row).collect() } else { Vec::new() };
        Marking { bag, last }
    }

    pub fn bag(&self) -> &Bag {
        &self.bag
    }

    /// Puts these numbers of net-tokens in the place of the old ones, after a step that gave these lines.
    pub fn replace(&mut self, after: Bag, given: &[Line]) {
        if broken(Broken::StepUnsorted) {
            let new = given.iter().filter(|line| !self.bag.contains_key(&line.row));
            self.last.extend(new.map(|line| line.row));
        }
        for (row, likes) in after {
            match likes {
                0 => drop(self.bag.remove(&row)),
                _ => drop(self.bag.insert(row, likes)),
            }
        }
    }

    /// Its unlike net-tokens, ascending.
    pub fn lines(&self) -> Vec<Line> {
        let mut lines: Vec<Line> = self.bag.iter().map(|(&row, &times)| Line { row, times }).collect();
        if broken(Broken::TimesBeforeInside) {
            lines.sort_by_key(|line| (line.row[0], line.times));
        }
        if !self.last.is_empty() {
            lines.sort_by_key(|line| self.last.iter().position(|row| *row == line.row));
        }
        lines
    }
}

/// How often each net-token of these lines is there when some are taken and some given; 0 of what is gone.
pub fn changed(bag: &Bag, taken: &[Line], given: &[Line]) -> Bag {
    let mut after = Bag::new();
    let there = |line: &Line| bag.get(&line.row).copied().unwrap_or(0);
    for line in taken {
        let likes = after.entry(line.row).or_insert(there(line));
        *likes = likes.saturating_sub(line.times);
    }
    for line in given {
        *after.entry(line.row).or_insert(there(line)) += line.times;
    }
    after
}

/// The net-tokens that a step takes: those of its lines. In a broken copy, what there is at their places.
pub fn found<'l>(bag: &Bag, lines: &'l [Line]) -> Cow<'l, [Line]> {
    if !broken(Broken::InsidesNotCompared) {
        return Cow::Borrowed(lines);
    }
    let mut rest = bag.clone();
    let mut found = Vec::new();
    for line in lines {
        let mut missing = line.times;
        for (&row, likes) in rest.range_mut(likes_of(&line.row)) {
            let times = missing.min(*likes);
            *likes -= times;
            missing -= times;
            found.push(Line { row, times });
        }
    }
    Cow::Owned(found)
}

/// How many likes of a net-token there are.
pub fn likes_in(bag: &Bag, row: &Row) -> u64 {
    bag.range(likes_of(row)).map(|(_, likes)| likes).sum()
}

/// The net-token's likes: itself alone; in a broken copy all at its place.
fn likes_of(row: &Row) -> RangeInclusive<Row> {
    if broken(Broken::InsidesNotCompared) {
        let [mut first, mut last] = [[0; 1 + INNER], [u16::MAX; 1 + INNER]];
        (first[0], last[0]) = (row[0], row[0]);
        return first..=last;
    }
    *row..=*row
}

/// For each place, the number of its net-tokens.
pub type OuterSums = [u64; PLACES];
/// For each place of an object net, the number of its tokens in all its net-tokens.
pub type InnerSums = [u64; INNER];

/// The net-tokens of each place.
pub fn outer_projection(lines: &[Line]) -> OuterSums {
    let mut counts = [0; PLACES];
    for line in lines {
        counts[line.place()] += if broken(Broken::LineOnceInOuter) { 1 } else { line.times };
    }
    if broken(Broken::LikesIn16Bits) {
        return counts.map(|count| count & 0xffff);
    }
    counts
}

/// For each net, the insides of all its net-tokens added up.
pub fn inner_projection(model: &Model, lines: &[Line]) -> [InnerSums; NETS] {
    let mut sums = [[0; INNER]; NETS];
    for line in lines {
        if let Some(net) = model.net_of(line.place()) {
            let times = if broken(Broken::LineOnceInInner) { 1 } else { line.times };
            for (sum, &count) in sums[net].iter_mut().zip(line.inside()) {
                *sum += times * u64::from(count);
            }
        }
    }
    if broken(Broken::InnerIn32Bits) {
        return sums.map(|sums| sums.map(|sum| sum & 0xffff_ffff));
    }
    sums
}

/// Reads a marking as a file of its own.
pub fn read_marking(model: &Model, text: &[u8]) -> Result<Marking, Refusal> {
    within_slice(text)?;
    let mut reader = Reader::new(text);
    let marking = read_start(&mut reader, model)?;
    reader.end()?;
    Ok(marking)
}

/// Reads the `start` part of a model.
pub fn read_start(reader: &mut Reader, model: &Model) -> Result<Marking, Refusal> {
    let most = LINES - usize::from(broken(Broken::TokensOneFewer));
    let number = reader.number("start", 0, most)?;
    let mut likes = Bag::new();
    let mut lines = Vec::with_capacity(number);
    let mut late = Ok(());
    for _ in 0..number {
        let line = read_token(reader, model).map_err(|refusal| hasty(reader, refusal))?;
        let alike = likes.entry(line.row).or_default();
        *alike += line.times;
        let many = *alike > LIKES;
        let racks = broken(Broken::StartByRacks) && likes.values().sum::<u64>() > LINES as u64;
        if (many || racks) && late.is_ok() {
            late = too_many_alike(reader);
            if !broken(Broken::StartLikesAfterAll) {
                late?;
            }
        }
        lines.push(line);
    }
    late.map(|()| Marking::new(&lines))
}

/// Refuses the likes of a start that have become too many with the line read last.
fn too_many_alike(reader: &Reader) -> Result<(), Refusal> {
    if broken(Broken::StartLikesNotTested) {
        return Ok(());
    }
    let mut refusal = reader.refuse(NO_ROOM);
    refusal.beside += usize::from(broken(Broken::StartLikesLineAfter));
    refusal.column += usize::from(broken(Broken::StartLikesColumn));
    Err(refusal)
}

/// Broken: a line of a start with too many likes is refused for them before its numbers are judged.
fn hasty(reader: &Reader, refusal: Refusal) -> Refusal {
    let many = u64::from(reader.times()) > LIKES;
    if refusal.number == RANGE && many && broken(Broken::StartLikesBeforeRange) {
        return reader.refuse(NO_ROOM);
    }
    refusal
}

/// Reads a line with a number of token lines, and so many of them.
pub fn read_block(reader: &mut Reader, model: &Model, key: &str) -> Result<Vec<Line>, Refusal> {
    let number = reader.number(key, 0, LINES)?;
    let mut lines: Vec<Line> = Vec::with_capacity(number);
    for _ in 0..number {
        let line = read_token(reader, model)?;
        lines.push(line);
        let alike =
            || lines.iter().filter(|other| other.row == line.row).map(|other| other.times).sum::<u64>();
        if broken(Broken::BlockLikesTested) && alike() > LIKES {
            return Err(reader.refuse(NO_ROOM));
        }
    }
    Ok(lines)
}

fn read_token(reader: &mut Reader, model: &Model) -> Result<Line, Refusal> {
    let right = Right::Token(model);
    let place = reader.token(right)?;
    if place == 0 || place > model.places() {
        let syntax =
            broken(Broken::PlaceOutOfRangeIsSyntax) || broken(Broken::UnknownPlaceOnce) && reader.times() > 1;
        return Err(if syntax { reader.refuse_syntax(right) } else { reader.refuse_range(0) });
    }
    let counts = reader.numbers();
    if counts.len() != model.inner_places(place - 1) {
        return Err(reader.refuse_syntax(right));
    }
    let times_first = broken(Broken::TimesBeforeCounts);
    if times_first {
        test_times(reader)?;
    }
    let most = COUNT - usize::from(broken(Broken::CountsOneFewer));
    if let Some(index) = first_over(counts, most) {
        let place_first = usize::from(!broken(Broken::RangeAtThePlace));
        return Err(reader.refuse_range((1 + index) * place_first));
    }
    test_times(reader)?;
    reader.ended(right)?;
    let kept = if broken(Broken::StagesAbove16Lost) { 16 } else { INNER };
    let mut row = [0; 1 + INNER];
    row[0] = place as u16;
    for (cell, &count) in row[1..=kept].iter_mut().zip(reader.numbers()) {
        *cell = count as u16;
    }
    Ok(Line { row, times: u64::from(reader.times()) })
}

/// Refuses a number of likes that no line may have.
fn test_times(reader: &Reader) -> Result<(), Refusal> {
    let most = LIKES - u64::from(broken(Broken::TimesOneFewer));
    if u64::from(reader.times()) > most {
        return Err(reader.refuse_range(1 + reader.numbers().len()));
    }
    Ok(())
}

/// Writes a marking: `start` and its token lines.
pub fn write_marking(model: &Model, marking: &Marking) -> Vec<u8> {
    let mut out = Vec::new();
    push_marking(&mut out, model, "start", marking);
    out
}

/// Appends a line with the number of a marking's token lines, and these.
pub fn push_marking(out: &mut Vec<u8>, model: &Model, key: &str, marking: &Marking) {
    let lines = split(marking.lines());
    let racks = lines.iter().map(|line| line.times as usize).sum();
    push_line(out, key, if broken(Broken::RacksWritten) { racks } else { lines.len() });
    push_tokens(out, model, &lines);
}

/// Appends token lines.
pub fn push_tokens(out: &mut Vec<u8>, model: &Model, lines: &[Line]) {
    for line in lines {
        let places = model.inner_places(line.place());
        out.extend_from_slice(b"token=");
        push_number(out, usize::from(line.row[0]));
        out.push(b':');
        push_list(out, line.row[1..=places].iter().map(|&count| usize::from(count)));
        if line.times > 1 || broken(Broken::TimesOneWritten) {
            out.push(b'*');
            push_number(out, line.times as usize);
        }
        out.push(b'\n');
    }
}

/// Broken: likes stand in two lines.
fn split(lines: Vec<Line>) -> Vec<Line> {
    if !broken(Broken::LikesInTwoLines) {
        return lines;
    }
    let parts = |line: Line| match line.times {
        0 | 1 => vec![line],
        times => vec![Line { times: times - 1, ..line }, Line { times: 1, ..line }],
    };
    lines.into_iter().flat_map(parts).collect()
}
