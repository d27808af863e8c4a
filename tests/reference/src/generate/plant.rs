//! Plants: a model, a start, and weights. Most are balanced by construction, and many of these are covered.

use crate::marking::{Bag, Line, Marking, Row};
use crate::model::{
    Event, Mode, Model, COUNT, EVENTS, INNER, LIKES, LINES, MOVES, NETS, PLACES, TRANSITIONS,
};
use crate::weights::{Weights, WEIGHT};

use super::maker::Maker;
use super::rng::Rng;
use super::special::{alike, crowded, edge, idling, leaving};

/// What a plant is made for.
#[derive(Clone, Copy, Debug, PartialEq, Eq)]
pub enum Kind {
    /// Weights that pass and cover.
    Covered,
    /// Weights that pass, 0 on the places of a net whose racks moves may make.
    Fresh,
    /// Any moves and events; the weights seldom pass.
    Free,
    /// Nearly 256 unlike net-tokens, and moves that add some.
    Crowded,
    /// Nearly 65,535 alike, and moves that add some.
    Alike,
    /// Large counts, many likes, and large weights that pass.
    Heavy,
    /// A sum at the edge of covering.
    Edge,
    /// Moves that take racks of a net and give none.
    Leaving,
    /// Racks that idle, at all places of their nets or at all but one.
    Idling,
}

/// A plant, its start of these lines; `separate` where moves and transitions are balanced each for itself.
pub struct Plant {
    pub kind: Kind,
    pub model: Model,
    pub start: Vec<Line>,
    pub weights: Weights,
    pub separate: bool,
}

/// How large the parts of a plant are. An object net has as many places and transitions as are said here, or,
/// where `exact` is false, at most so many.
#[derive(Clone, Copy)]
pub struct Sizes {
    pub nets: usize,
    pub places: usize,
    pub moves: usize,
    pub inner: usize,
    pub transitions: usize,
    pub events: usize,
    pub lines: usize,
    pub exact: bool,
}

pub fn plant(rng: &mut Rng) -> Plant {
    let kind = match rng.below(100) {
        0..=39 => Kind::Covered,
        40..=53 => Kind::Fresh,
        54..=66 => Kind::Free,
        67..=71 => Kind::Crowded,
        72..=74 => Kind::Alike,
        75..=78 => Kind::Heavy,
        79..=83 => Kind::Edge,
        84..=89 => Kind::Leaving,
        _ => Kind::Idling,
    };
    match kind {
        Kind::Edge => edge(rng),
        Kind::Leaving => leaving(rng),
        Kind::Crowded => crowded(rng),
        Kind::Alike => alike(rng),
        Kind::Idling => idling(rng),
        _ => balanced_or_free(rng, kind),
    }
}

fn sizes(rng: &mut Rng) -> Sizes {
    match rng.below(100) {
        0..=56 => small(rng),
        57..=86 => middle(rng),
        87..=97 => wide(rng),
        _ => full(rng),
    }
}

fn small(rng: &mut Rng) -> Sizes {
    Sizes {
        nets: *rng.pick(&[0, 1, 1, 1, 2, 2, 3]),
        places: rng.between(1, 4),
        moves: *rng.pick(&[0, 1, 2, 3, 4, 5]),
        inner: rng.between(1, 4),
        transitions: *rng.pick(&[0, 1, 2, 3, 3]),
        events: *rng.pick(&[0, 1, 2, 3, 4, 5, 6, 7, 8]),
        lines: rng.between(0, 10),
        exact: false,
    }
}

fn middle(rng: &mut Rng) -> Sizes {
    Sizes {
        nets: rng.between(0, 5),
        places: rng.between(1, 10),
        moves: rng.between(1, 10),
        inner: rng.between(1, 32),
        transitions: rng.between(0, 6),
        events: rng.between(1, 16),
        lines: rng.between(0, 40),
        exact: rng.percent(30),
    }
}

/// Small but for two parts at their limits.
fn wide(rng: &mut Rng) -> Sizes {
    let mut sizes = small(rng);
    for _ in 0..2 {
        match rng.below(7) {
            0 => sizes.nets = NETS,
            1 => sizes.places = PLACES,
            2 => sizes.moves = MOVES,
            3 => sizes.inner = *rng.pick(&[17, 25, INNER]),
            4 => sizes.transitions = TRANSITIONS,
            5 => sizes.events = EVENTS,
            _ => sizes.lines = rng.between(LINES - 1, LINES),
        }
    }
    sizes.exact = true;
    sizes
}

fn full(rng: &mut Rng) -> Sizes {
    Sizes {
        nets: NETS,
        places: PLACES,
        moves: MOVES,
        inner: INNER,
        transitions: TRANSITIONS,
        events: EVENTS,
        lines: rng.between(LINES - 1, LINES),
        exact: true,
    }
}

fn balanced_or_free(rng: &mut Rng, kind: Kind) -> Plant {
    let sizes = sizes(rng);
    let types: Vec<u8> = (0..sizes.places).map(|_| some_type(rng, sizes.nets)).collect();
    let (model, weights, separate) = Maker::new(rng, kind, sizes, &types).make_model(types);
    let start = start(rng, &model, kind, sizes.lines);
    let mut plant = Plant { kind, model, start, weights, separate };
    match kind {
        Kind::Covered => make_covered(rng, &mut plant),
        Kind::Heavy => make_heavy(rng, &mut plant),
        _ => {}
    }
    plant
}

fn some_type(rng: &mut Rng, nets: usize) -> u8 {
    if rng.percent(20) {
        return 0;
    }
    rng.between(usize::from(nets > 0), nets) as u8
}

/// So many lines of net-tokens, more often where events take them, some of them like others; fewer lines where there would be
/// too many alike.
pub fn start(rng: &mut Rng, model: &Model, kind: Kind, lines: usize) -> Vec<Line> {
    let takes = |event: &Event, place: usize| match event.mode {
        Mode::Alone(net) => model.net_of(place) == Some(net),
        Mode::Move(_) | Mode::Idle(_) => event.outer_pre[place] > 0,
    };
    let wanted: Vec<usize> =
        (0..model.places()).filter(|&place| model.events.iter().any(|event| takes(event, place))).collect();
    let mut rows: Vec<Row> = Vec::with_capacity(lines);
    for _ in 0..lines {
        let like = rng.pick_some(&rows).filter(|_| rng.percent(15));
        let anywhere = rng.below(model.places());
        let place = rng.pick_some(&wanted).filter(|_| rng.percent(75)).unwrap_or(anywhere);
        rows.push(like.unwrap_or_else(|| some_row(rng, model, kind, place)));
    }
    let mut likes = Bag::new();
    let lines = rows.into_iter().map(|row| Line::new(row, some_times(rng, kind)));
    let fits = |line: &Line| {
        let there = likes.entry(line.row).or_default();
        *there += line.times;
        *there <= LIKES
    };
    lines.filter(fits).collect()
}

/// How many times a line is meant, mostly once.
fn some_times(rng: &mut Rng, kind: Kind) -> u64 {
    match (kind, rng.below(20)) {
        (Kind::Heavy, 0..=9) => *rng.pick(&[LIKES, LIKES, LIKES - 1, 60_000]),
        (_, 0..=13) => 1,
        (_, 14..=18) => rng.between(2, 5) as u64,
        (Kind::Free, _) => *rng.pick(&[255, 256, 1_000, LIKES - 1, LIKES]),
        _ => rng.between(2, 60) as u64,
    }
}

fn some_row(rng: &mut Rng, model: &Model, kind: Kind, place: usize) -> Row {
    let mut row = [0; 1 + INNER];
    row[0] = place as u16 + 1;
    let filling = rng.below(10);
    for count in &mut row[1..=model.inner_places(place)] {
        *count = match (kind, filling) {
            (Kind::Heavy, 0..=6) => *rng.pick(&[COUNT as u16, COUNT as u16, 60_000, 1]),
            (_, 0) => 0,
            (_, 1..=6) => rng.below(4) as u16,
            (_, 7..=8) => rng.below(2) as u16,
            (Kind::Covered, _) => rng.below(30) as u16,
            _ => *rng.pick(&[0, 1, 255, 256, 65_535, 65_534]),
        };
    }
    row
}

/// Raises the outer weights, or takes insides and net-tokens away, until the weights cover.
fn make_covered(rng: &mut Rng, plant: &mut Plant) {
    let greatest = plant.weights.outer.iter().copied().max().unwrap_or(1);
    let most = if plant.separate { i64::from(WEIGHT) / greatest } else { 1 };
    let factor = [1, 2, 5, 20, 100, 1_000].into_iter().filter(|&factor| factor <= most).find(|factor| {
        let mut raised = plant.weights.clone();
        raised.outer.iter_mut().for_each(|weight| *weight *= factor);
        covers(&plant.model, &plant.start, &raised)
    });
    let factor = factor.unwrap_or(1);
    plant.weights.outer.iter_mut().for_each(|weight| *weight *= factor);
    while !covers(&plant.model, &plant.start, &plant.weights) {
        let filled = plant.start.iter().any(|line| line.inside().iter().any(|&count| count > 0));
        if rng.percent(50) && filled {
            plant.start.iter_mut().flat_map(|line| &mut line.row[1..]).for_each(|count| *count /= 2);
        } else if rng.percent(50) && plant.start.iter().any(|line| line.times > 1) {
            plant.start.iter_mut().for_each(|line| line.times = line.times.div_ceil(2));
        } else {
            plant.start.truncate(plant.start.len() * 3 / 4);
        }
    }
}

fn covers(model: &Model, start: &[Line], weights: &Weights) -> bool {
    weights.cover(weights.sum_of(model, &Marking::new(start)))
}

/// Raises all weights as far as they go.
fn make_heavy(rng: &mut Rng, plant: &mut Plant) {
    let all = || plant.weights.outer.iter().chain(plant.weights.inner.iter().flatten());
    let factor = i64::from(WEIGHT) / all().copied().max().unwrap_or(1);
    let sign = *rng.pick(&[1, 1, -1]);
    let weights = &mut plant.weights;
    let all = weights.outer.iter_mut().chain(weights.inner.iter_mut().flatten());
    all.for_each(|weight| *weight *= factor * sign);
}
