//! Steps that fire by construction, and steps spoiled in one point.

use std::collections::BTreeMap;

use crate::marking::{Line, Row};
use crate::model::{Event, InnerCounts, Mode, Model, COUNT, INNER, LIKES, LINES, TOKENS};

use super::rng::Rng;

/// A token line as it is written, its numbers of any size; while a step is made, a line for each net-token.
#[derive(Clone, Debug, PartialEq, Eq)]
pub struct Token {
    pub place: u64,
    pub inside: Vec<u64>,
    pub times: u64,
}

/// A step as it is written: an event, counted from 1, and net-tokens.
#[derive(Clone, Debug, PartialEq, Eq)]
pub struct StepPlan {
    pub event: usize,
    pub taken: Vec<Token>,
    pub given: Vec<Token>,
}

impl StepPlan {
    /// The marking after a step that the rule allows, if the step is within the limits of reading, and the marking within its
    /// own.
    pub fn next(&self, held: &[Line]) -> Option<Vec<Line>> {
        let small =
            |token: &Token| token.times <= LIKES && token.inside.iter().all(|&count| count <= COUNT as u64);
        let blocks = [&self.taken, &self.given];
        if !blocks.iter().all(|block| block.len() <= LINES && block.iter().all(small)) {
            return None;
        }
        let mut likes: BTreeMap<Row, i64> = BTreeMap::new();
        let there = held.iter().map(|line| (line.row, line.times as i64));
        let taken = self.taken.iter().map(|token| (row_of(token), -(token.times as i64)));
        let given = self.given.iter().map(|token| (row_of(token), token.times as i64));
        there.chain(taken).chain(given).for_each(|(row, times)| *likes.entry(row).or_default() += times);
        likes.retain(|_, times| *times != 0);
        let room = likes.len() <= TOKENS && likes.values().all(|times| (1..=LIKES as i64).contains(times));
        room.then(|| likes.into_iter().map(|(row, times)| Line::new(row, times as u64)).collect())
    }
}

fn row_of(token: &Token) -> Row {
    let mut row = [0; 1 + INNER];
    row[0] = token.place as u16;
    row[1..].iter_mut().zip(&token.inside).for_each(|(cell, &count)| *cell = count as u16);
    row
}

/// Writes likes together, all of them, some or none; of a block with more net-tokens than lines, mostly all.
pub fn fold(rng: &mut Rng, step: &mut StepPlan) {
    for block in [&mut step.taken, &mut step.given] {
        let many = block.len() > LINES && rng.percent(90);
        let percent = if many { 100 } else { *rng.pick(&[100, 100, 0, 50]) };
        let mut lines: Vec<Token> = Vec::new();
        for token in block.drain(..) {
            let like = |line: &&mut Token| line.place == token.place && line.inside == token.inside;
            match lines.iter_mut().rev().find(like).filter(|_| rng.percent(percent)) {
                Some(line) => line.times += token.times,
                None => lines.push(token),
            }
        }
        rng.shuffle(&mut lines);
        *block = lines;
    }
}

/// A step that the rule allows on this marking, if some tries find one.
pub fn firing_step(rng: &mut Rng, model: &Model, marking: &[Line]) -> Option<StepPlan> {
    (0..12).find_map(|_| {
        let event = rng.below(model.events.len().max(1));
        attempt(rng, model, marking, event, true)
    })
}

/// A step whose taken racks may hold too little.
pub fn poor_step(rng: &mut Rng, model: &Model, marking: &[Line]) -> Option<StepPlan> {
    (0..6).find_map(|_| {
        let event = rng.below(model.events.len().max(1));
        attempt(rng, model, marking, event, false)
    })
}

fn attempt(rng: &mut Rng, model: &Model, marking: &[Line], index: usize, enough: bool) -> Option<StepPlan> {
    let event = model.events.get(index)?;
    let racks = choose_racks(rng, model, marking, event)?;
    let mut taken: Vec<Token> = racks.iter().map(|row| token_of(model, row)).collect();
    let empty = |place: usize| Token {
        place: place as u64 + 1,
        inside: vec![0; model.inner_places(place)],
        times: 1,
    };
    let mut given: Vec<Token> = places_given(event, &racks).into_iter().map(empty).collect();
    for net in 0..model.nets.len() {
        let sums = sums_of(model, &taken, net);
        if enough && below(&sums, &event.inner_pre[net]) {
            return None;
        }
        let after = after(&sums, event, net);
        let receivers: Vec<usize> = (0..given.len()).filter(|&at| is_of(model, &given[at], net)).collect();
        if enough && receivers.is_empty() && after.iter().any(|&count| count > 0) {
            return None;
        }
        share_out(rng, &mut given, &receivers, &after);
    }
    rng.shuffle(&mut taken);
    rng.shuffle(&mut given);
    Some(StepPlan { event: index + 1, taken, given })
}

/// Racks of the marking that the event takes in the system net; the fuller ones in some cases.
fn choose_racks(rng: &mut Rng, model: &Model, marking: &[Line], event: &Event) -> Option<Vec<Row>> {
    let fuller = rng.percent(40);
    if let Mode::Alone(net) = event.mode {
        return choose(rng, marking, |place| model.net_of(place) == Some(net), 1, fuller);
    }
    let mut racks = Vec::new();
    for (place, &number) in event.outer_pre.iter().enumerate().filter(|(_, &number)| number > 0) {
        racks.extend(choose(rng, marking, |other| other == place, number as usize, fuller)?);
    }
    Some(racks)
}

/// So many racks of the marking that stand at such places.
fn choose(
    rng: &mut Rng,
    marking: &[Line],
    stands: impl Fn(usize) -> bool,
    number: usize,
    fuller: bool,
) -> Option<Vec<Row>> {
    let there = marking.iter().filter(|line| stands(line.place()));
    let likes = |line: &Line| std::iter::repeat_n(line.row, line.times.min(number as u64) as usize);
    let mut racks: Vec<Row> = there.flat_map(likes).collect();
    rng.shuffle(&mut racks);
    if fuller {
        racks.sort_by_key(|row| {
            std::cmp::Reverse(row[1..].iter().map(|&count| u64::from(count)).sum::<u64>())
        });
    }
    racks.truncate(number);
    (racks.len() == number).then_some(racks)
}

/// The places, counted from 0, of the net-tokens that an event gives where these racks are taken.
fn places_given(event: &Event, racks: &[Row]) -> Vec<usize> {
    if let Mode::Alone(_) = event.mode {
        return racks.iter().map(|row| usize::from(row[0]) - 1).collect();
    }
    let post = event.outer_post.iter().enumerate();
    post.flat_map(|(place, &number)| std::iter::repeat_n(place, number as usize)).collect()
}

pub fn token_of(model: &Model, row: &Row) -> Token {
    let places = model.inner_places(usize::from(row[0]) - 1);
    let inside = row[1..=places].iter().map(|&count| u64::from(count)).collect();
    Token { place: u64::from(row[0]), inside, times: 1 }
}

fn is_of(model: &Model, token: &Token, net: usize) -> bool {
    (1..=model.places() as u64).contains(&token.place) && model.net_of(token.place as usize - 1) == Some(net)
}

fn sums_of(model: &Model, tokens: &[Token], net: usize) -> [u64; INNER] {
    let mut sums = [0; INNER];
    for token in tokens.iter().filter(|token| is_of(model, token, net)) {
        for (sum, &count) in sums.iter_mut().zip(&token.inside) {
            *sum += token.times * count;
        }
    }
    sums
}

fn below(sums: &[u64; INNER], pre: &InnerCounts) -> bool {
    sums.iter().zip(pre).any(|(&sum, &pre)| sum < u64::from(pre))
}

fn after(sums: &[u64; INNER], event: &Event, net: usize) -> Vec<u64> {
    let arcs = event.inner_pre[net].iter().zip(&event.inner_post[net]);
    let places = sums.iter().zip(arcs);
    places.map(|(&sum, (&pre, &post))| sum.saturating_sub(u64::from(pre)) + u64::from(post)).collect()
}

/// Shares the tokens of each inner place among the receiving racks.
fn share_out(rng: &mut Rng, given: &mut [Token], receivers: &[usize], tokens: &[u64]) {
    let Some(&last) = receivers.last() else {
        return;
    };
    let way = rng.below(4);
    for (inner, &number) in tokens.iter().enumerate().filter(|(_, &number)| number > 0) {
        let mut left = number;
        for &receiver in &receivers[..receivers.len() - 1] {
            let share = match way {
                0 => left.min(COUNT as u64),
                1 => number / receivers.len() as u64,
                2 => 0,
                _ => rng.below(left as usize + 1) as u64,
            };
            given[receiver].inside[inner] = share;
            left -= share;
        }
        given[last].inside[inner] = left;
    }
}

/// Spoils a step in one point; now and then it still fires.
pub fn spoil(rng: &mut Rng, model: &Model, step: &mut StepPlan) {
    let StepPlan { event, taken, given } = step;
    match rng.below(20) {
        0 => drop_one(rng, taken),
        1 => drop_one(rng, given),
        2 => repeat_one(rng, taken),
        3 => repeat_one(rng, given),
        4 => place_elsewhere(rng, model, taken),
        5 => place_elsewhere(rng, model, given),
        6 => add_one(rng, taken),
        7 | 8 => add_one(rng, given),
        9 => remove_one(rng, taken),
        10 => remove_one(rng, given),
        11..=13 => add_alike(rng, model, taken, given),
        14 | 15 => exchange(rng, model, taken),
        16 => exchange(rng, model, given),
        17 | 18 => liken_two(rng, taken, given),
        _ => *event = rng.between(0, model.events.len() + 1),
    }
}

/// Spoils a step in a number that is out of range or at its limit.
pub fn overdo(rng: &mut Rng, model: &Model, step: &mut StepPlan) {
    let tokens = if rng.percent(50) { &mut step.taken } else { &mut step.given };
    if tokens.is_empty() {
        tokens.push(Token { place: 1, inside: vec![0; model.inner_places(0)], times: 1 });
    }
    let at = rng.below(tokens.len());
    match rng.below(6) {
        4 => tokens[at].times = *rng.pick(&[65_535, 65_536, 65_537, 65_538, (1 << 32) + 2, u64::MAX]),
        5 => {
            let mut token = tokens[at].clone();
            token.times = *rng.pick(&[2, 255, 65_535, 65_534]);
            tokens.push(token);
        }
        0 => tokens[at].place = *rng.pick(&[0, model.places() as u64 + 1, 33, 65_537]),
        1 | 2 => {
            let number = *rng.pick(&[65_535, 65_536, 65_537, 1 << 32, (1 << 32) + 1, u64::MAX]);
            let inner = rng.below(tokens[at].inside.len().max(1));
            if let Some(count) = tokens[at].inside.get_mut(inner) {
                *count = number;
            }
        }
        _ => {
            let token = tokens[at].clone();
            let number = *rng.pick(&[255, 256, 257, 300]);
            tokens.resize(number, token);
        }
    }
}

fn drop_one(rng: &mut Rng, tokens: &mut Vec<Token>) {
    if !tokens.is_empty() {
        tokens.remove(rng.below(tokens.len()));
    }
}

fn repeat_one(rng: &mut Rng, tokens: &mut Vec<Token>) {
    if !tokens.is_empty() {
        tokens.push(rng.pick(tokens).clone());
    }
}

fn place_elsewhere(rng: &mut Rng, model: &Model, tokens: &mut [Token]) {
    if !tokens.is_empty() {
        let at = rng.below(tokens.len());
        let place = rng.below(model.places());
        tokens[at].place = place as u64 + 1;
        tokens[at].inside.resize(model.inner_places(place), 0);
    }
}

fn some_count<'t>(rng: &mut Rng, tokens: &'t mut [Token]) -> Option<&'t mut u64> {
    let typed: Vec<usize> = (0..tokens.len()).filter(|&at| !tokens[at].inside.is_empty()).collect();
    let at = rng.pick_some(&typed)?;
    let inner = rng.below(tokens[at].inside.len());
    tokens[at].inside.get_mut(inner)
}

fn add_one(rng: &mut Rng, tokens: &mut [Token]) {
    if let Some(count) = some_count(rng, tokens) {
        *count += 1;
    }
}

fn remove_one(rng: &mut Rng, tokens: &mut [Token]) {
    if let Some(count) = some_count(rng, tokens) {
        *count = count.saturating_sub(1);
    }
}

/// Adds a token to a taken and to a given rack of one net, at one inner place.
fn add_alike(rng: &mut Rng, model: &Model, taken: &mut [Token], given: &mut [Token]) {
    let net = rng.below(model.nets.len().max(1));
    let racks = |tokens: &[Token]| -> Vec<usize> {
        (0..tokens.len()).filter(|&at| is_of(model, &tokens[at], net)).collect()
    };
    let (from, to) = (rng.pick_some(&racks(taken)), rng.pick_some(&racks(given)));
    if let (Some(from), Some(to)) = (from, to) {
        let inner = rng.below(model.nets[net].places);
        taken[from].inside[inner] += 1;
        given[to].inside[inner] += 1;
    }
}

/// Moves a token from one rack to another of the same net.
fn exchange(rng: &mut Rng, model: &Model, tokens: &mut [Token]) {
    let net = rng.below(model.nets.len().max(1));
    let racks: Vec<usize> = (0..tokens.len()).filter(|&at| is_of(model, &tokens[at], net)).collect();
    let (Some(from), Some(to)) = (rng.pick_some(&racks), rng.pick_some(&racks)) else {
        return;
    };
    let full: Vec<usize> = (0..tokens[from].inside.len()).filter(|&at| tokens[from].inside[at] > 0).collect();
    if let Some(inner) = rng.pick_some(&full) {
        tokens[from].inside[inner] -= 1;
        tokens[to].inside[inner] += 1;
    }
}

/// Makes two taken racks of a place alike, and lets the given racks follow.
fn liken_two(rng: &mut Rng, taken: &mut [Token], given: &mut [Token]) {
    if taken.len() < 2 {
        return;
    }
    let (a, b) = (rng.below(taken.len()), rng.below(taken.len()));
    let (model_token, other) = (taken[a].clone(), taken[b].clone());
    if model_token.place != other.place {
        return;
    }
    taken[b] = model_token.clone();
    let receiver = given.iter_mut().find(|token| token.inside.len() == other.inside.len());
    if let Some(receiver) = receiver {
        for (at, count) in receiver.inside.iter_mut().enumerate() {
            *count = (*count + model_token.inside[at]).saturating_sub(other.inside[at]);
        }
    }
}
