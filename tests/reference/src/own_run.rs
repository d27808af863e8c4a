//! The rule's own run: the firing rule alone, with numbers of any size and no limits.
//!
//! It is written apart from `step`: a marking is a multiset of net-tokens with naturals inside.

use std::collections::BTreeMap;

use crate::big::Natural;
use crate::marking::{Line, Marking, Row};
use crate::model::{Event, Mode, Model, ObjectNet, Transition, INNER, SLICE};

/// A net-token: its place, counted from 1, and the marking of its object net.
#[derive(Clone, Debug, PartialEq, Eq, PartialOrd, Ord)]
pub struct NetToken {
    pub place: usize,
    pub inside: Vec<Natural>,
}

/// How often each net-token is there.
pub type Multiset = BTreeMap<NetToken, Natural>;

struct Step<'a> {
    event: &'a Event,
    taken: Multiset,
    given: Multiset,
}

/// A run: its model, and its state, at first the marking of the start.
pub struct OwnRun<'a> {
    model: &'a Model,
    state: Multiset,
}

impl<'a> OwnRun<'a> {
    pub fn new(model: &'a Model, start: &Marking) -> OwnRun<'a> {
        let of_row = |(row, &likes): (&Row, &u64)| (net_token(model, row), Natural::from(likes));
        OwnRun { model, state: start.bag().iter().map(of_row).collect() }
    }

    /// Takes the text of a step call; says whether it brought a step that fired.
    pub fn feed(&mut self, text: &[u8]) -> bool {
        let Some(step) = bring(self.model, text) else {
            return false;
        };
        let Some(mut rest) = without(&self.state, &step.taken) else {
            return false;
        };
        if !predicate(self.model, &step) {
            return false;
        }
        step.given.into_iter().for_each(|(token, likes)| add(&mut rest, token, &likes));
        self.state = rest;
        true
    }

    pub fn state(&self) -> &Multiset {
        &self.state
    }

    /// The state as lines in ascending order, where each number has the size that a marking keeps.
    pub fn lines(&self) -> Option<Vec<Line>> {
        let small = |number: &Natural| u16::try_from(number.to_u64()?).ok();
        let line =
            |(token, likes): (&NetToken, &Natural)| Some(Line::new(row_of(token)?, u64::from(small(likes)?)));
        self.state.iter().map(line).collect()
    }
}

/// Adds so many likes of a net-token.
fn add(tokens: &mut Multiset, token: NetToken, likes: &Natural) {
    let there = tokens.entry(token).or_default();
    *there = there.plus(likes);
}

/// What is left of a multiset, if it has all these.
fn without(tokens: &Multiset, taken: &Multiset) -> Option<Multiset> {
    let mut rest = tokens.clone();
    for (token, likes) in taken {
        let left = rest.get(token)?.minus(likes)?;
        rest.insert(token.clone(), left);
    }
    rest.retain(|_, likes| !likes.is_zero());
    Some(rest)
}

fn net_token(model: &Model, row: &Row) -> NetToken {
    let place = usize::from(row[0]);
    let counts = &row[1..=model.inner_places(place - 1)];
    let inside = counts.iter().map(|&count| Natural::from(u64::from(count))).collect();
    NetToken { place, inside }
}

fn row_of(token: &NetToken) -> Option<Row> {
    let mut row = [0; 1 + INNER];
    row[0] = token.place as u16;
    for (cell, count) in row[1..].iter_mut().zip(&token.inside) {
        *cell = u16::try_from(count.to_u64()?).ok()?;
    }
    Some(row)
}

/// The step that a text brings, if it brings one.
fn bring<'a>(model: &'a Model, text: &[u8]) -> Option<Step<'a>> {
    if text.len() > SLICE {
        return None;
    }
    let mut rest = text;
    let number = Natural::parse(take_value(&mut rest, b"fire=")?)?.to_u64()?;
    let event = model.events.get(usize::try_from(number).ok()?.checked_sub(1)?)?;
    let taken = take_tokens(model, &mut rest, b"take=")?;
    let given = take_tokens(model, &mut rest, b"give=")?;
    Some(Step { event, taken, given })
}

/// Takes the next line from the text; gives what follows its key.
fn take_value<'t>(rest: &mut &'t [u8], key: &[u8]) -> Option<&'t [u8]> {
    let length = rest.iter().position(|&byte| byte == b'\n')?;
    let line = &rest[..length];
    *rest = &rest[length + 1..];
    line.strip_prefix(key)
}

fn take_tokens(model: &Model, rest: &mut &[u8], key: &[u8]) -> Option<Multiset> {
    let mut missing = Natural::parse(take_value(rest, key)?)?;
    let one = Natural::from(1);
    let mut tokens = Multiset::new();
    while let Some(fewer) = missing.minus(&one) {
        let (token, likes) = token(model, take_value(rest, b"token=")?)?;
        add(&mut tokens, token, &likes);
        missing = fewer;
    }
    Some(tokens)
}

/// A net-token at a place of the model, its list as long as the place's net has inner places, and how many times the line
/// means it: once, or a number from 2 on behind its sign.
fn token(model: &Model, value: &[u8]) -> Option<(NetToken, Natural)> {
    let colon = value.iter().position(|&byte| byte == b':')?;
    let place = usize::try_from(Natural::parse(&value[..colon])?.to_u64()?).ok()?;
    let behind = &value[colon + 1..];
    let one = Natural::from(1);
    let (list, likes) = match behind.iter().rposition(|&byte| byte == b'*') {
        Some(sign) => (&behind[..sign], Natural::parse(&behind[sign + 1..]).filter(|likes| *likes > one)?),
        None => (behind, one),
    };
    let inside: Vec<Natural> = match list {
        [] => Vec::new(),
        _ => list.split(|&byte| byte == b',').map(Natural::parse).collect::<Option<_>>()?,
    };
    let known = (1..=model.places()).contains(&place);
    (known && inside.len() == model.inner_places(place - 1)).then_some((NetToken { place, inside }, likes))
}

/// The firing predicate (000, equation 5).
fn predicate(model: &Model, step: &Step) -> bool {
    let projections = (outer(model, &step.taken), outer(model, &step.given));
    outer_arcs(model, step.event).contains(&projections)
        && (0..model.nets.len()).all(|net| {
            let pre = inner_arcs(model, step.event, net, |transition| &transition.pre);
            let post = inner_arcs(model, step.event, net, |transition| &transition.post);
            let left = less(&inner(model, &step.taken, net), &pre);
            left.is_some_and(|left| plus(&left, &post) == inner(model, &step.given, net))
        })
}

/// The outer projection.
pub fn outer(model: &Model, tokens: &Multiset) -> Vec<Natural> {
    let mut sums = vec![Natural::zero(); model.places()];
    for (token, likes) in tokens {
        sums[token.place - 1] = sums[token.place - 1].plus(likes);
    }
    sums
}

/// The inner projection on a net.
pub fn inner(model: &Model, tokens: &Multiset, net: usize) -> Vec<Natural> {
    let mut sums = vec![Natural::zero(); model.nets[net].places];
    for (token, likes) in tokens {
        if model.net_of(token.place - 1) == Some(net) {
            let all: Vec<Natural> = token.inside.iter().map(|count| count.times(likes)).collect();
            sums = plus(&sums, &all);
        }
    }
    sums
}

/// The outer projections that an event may take and give: a move's pre and post, one token at the place that idles, or one
/// at some place of the net that is alone.
fn outer_arcs(model: &Model, event: &Event) -> Vec<(Vec<Natural>, Vec<Natural>)> {
    let places = || 0..model.places();
    let idling = |idle: usize| {
        let one: Vec<Natural> = places().map(|place| Natural::from(u64::from(place == idle))).collect();
        (one.clone(), one)
    };
    match event.mode {
        Mode::Move(index) => {
            let arcs = |arcs: &[u8]| arcs.iter().map(|&arc| Natural::from(u64::from(arc))).collect();
            vec![(arcs(&model.moves[index].pre), arcs(&model.moves[index].post))]
        }
        Mode::Idle(place) => vec![idling(place)],
        Mode::Alone(net) => places().filter(|&place| model.net_of(place) == Some(net)).map(idling).collect(),
    }
}

/// The summed arcs of a net's transitions, each as often as the event counts it.
fn inner_arcs(model: &Model, event: &Event, net: usize, arcs: fn(&Transition) -> &Vec<u8>) -> Vec<Natural> {
    let ObjectNet { places, transitions } = &model.nets[net];
    let sum = |place: usize| {
        let counted = transitions.iter().zip(&event.sync[net]);
        counted.map(|(transition, &count)| u64::from(count) * u64::from(arcs(transition)[place])).sum::<u64>()
    };
    (0..*places).map(|place| Natural::from(sum(place))).collect()
}

fn less(sums: &[Natural], counts: &[Natural]) -> Option<Vec<Natural>> {
    sums.iter().zip(counts).map(|(sum, count)| sum.minus(count)).collect()
}

fn plus(sums: &[Natural], counts: &[Natural]) -> Vec<Natural> {
    sums.iter().zip(counts).map(|(sum, count)| sum.plus(count)).collect()
}
