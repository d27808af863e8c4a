//! Weights: whether they balance every event, the weighted sum, and whether they cover the plant.

use crate::broken::{broken, Broken};
use crate::cause::{Refusal, ALL_ZERO, EFFECT};
use crate::marking::{inner_projection, outer_projection, Marking};
use crate::model::{within_slice, Event, Mode, Model, COUNT, INNER, LIKES};
use crate::text::Reader;

/// The largest weight, either side of 0.
pub const WEIGHT: u32 = 1_000;

/// The most racks, black ones too, that covering weights let there be.
pub const RACKS: u64 = 256;

/// A weight for each place and for each inner place of each net.
#[derive(Clone, Debug, PartialEq, Eq)]
pub struct Weights {
    pub outer: Vec<i64>,
    pub inner: Vec<Vec<i64>>,
}

/// Weights that passed: the weighted sum of the marking, and whether they cover.
#[derive(Clone, Copy, Debug, PartialEq, Eq)]
pub struct Passed {
    pub sum: i64,
    pub cover: bool,
}

impl Weights {
    fn all(&self) -> impl Iterator<Item = i64> + '_ {
        self.outer.iter().chain(self.inner.iter().flatten()).copied()
    }

    pub fn all_zero(&self) -> bool {
        self.all().all(|weight| weight == 0)
    }

    /// Outer weights times an outer projection, plus, for each net, inner weights times its inner projection.
    fn sum<C: Copy + Into<u64>>(&self, outer: &[C], inner: &[[C; INNER]]) -> i64 {
        let nets = self.inner.iter().zip(inner);
        times(&self.outer, outer) + nets.map(|(weights, counts)| times(weights, counts)).sum::<i64>()
    }

    /// The weighted sum of a marking; it lies within 35,183,315,132,160,000 either side of 0.
    pub fn sum_of(&self, model: &Model, marking: &Marking) -> i64 {
        let mut lines = marking.lines();
        if broken(Broken::SumOfUnlike) {
            lines.iter_mut().for_each(|line| line.times = 1);
        }
        self.sum(&outer_projection(&lines), &inner_projection(model, &lines))
    }

    /// The weighted sum over an event's post less that over its pre.
    pub fn effect(&self, event: &Event) -> i64 {
        if broken(Broken::OuterWeightsOnly) {
            return times(&self.outer, &event.outer_post) - times(&self.outer, &event.outer_pre);
        }
        let before = self.sum(&event.outer_pre, &event.inner_pre);
        self.sum(&event.outer_post, &event.inner_post) - before
    }

    /// Whether these weights, with this sum of the start, bound every place within the limits.
    pub fn cover(&self, sum: i64) -> bool {
        let positive = self.all().all(|weight| weight >= 1);
        let outer = self.outer.iter().copied();
        let dividing = if broken(Broken::CoverByGreatestOuter) { outer.max() } else { outer.min() };
        let inner_bound = |&weight: &i64| quotient(sum, weight) <= COUNT as i64;
        let racks = if broken(Broken::CoverOfLikes) { RACKS * LIKES } else { RACKS } as i64;
        positive
            && dividing.is_some_and(|weight| quotient(sum, weight) <= racks)
            && (self.inner.iter().flatten().all(inner_bound) || broken(Broken::CoverWithoutInner))
    }
}

/// A sum divided by a weight that is at least 1, rounded down.
fn quotient(sum: i64, weight: i64) -> i64 {
    let more = if broken(Broken::CoverRoundsUp) { weight - 1 } else { 0 };
    (sum + more) / weight
}

fn times<C: Copy + Into<u64>>(weights: &[i64], counts: &[C]) -> i64 {
    weights.iter().zip(counts).map(|(&weight, &count)| weight * count.into() as i64).sum()
}

/// Checks the weights of a text for a model and a marking.
pub fn check_weights(model: &Model, marking: &Marking, text: &[u8]) -> Result<Passed, Refusal> {
    within_slice(text)?;
    let weights = read_weights(model, text)?;
    if weights.all_zero() && !broken(Broken::WeightsAllPass) {
        return Err(Refusal::new(ALL_ZERO, 2 + model.nets.len()));
    }
    if let Some(event) = unbalanced(model, &weights) {
        return Err(Refusal::new(EFFECT, event + 1));
    }
    let sum = kept(weights.sum_of(model, marking), marking);
    let cover = (weights.cover(sum) || broken(Broken::CoverInvented)) && !broken(Broken::CoverNever);
    Ok(Passed { sum, cover })
}

/// The sum as broken copies keep it.
fn kept(sum: i64, marking: &Marking) -> i64 {
    if broken(Broken::SumIn16Bits) {
        i64::from(sum as i16)
    } else if broken(Broken::SumIn32Bits) {
        i64::from(sum as i32)
    } else if broken(Broken::SumWithoutSign) {
        sum.abs()
    } else if broken(Broken::SumInvented) {
        marking.bag().len() as i64
    } else {
        sum
    }
}

/// Reads a weight file.
pub fn read_weights(model: &Model, text: &[u8]) -> Result<Weights, Refusal> {
    let mut reader = Reader::new(text);
    reader.header("inv", &["1"])?;
    let outer = reader.weights("outer", model.places(), WEIGHT)?;
    let mut inner = Vec::with_capacity(model.nets.len());
    for net in &model.nets {
        inner.push(reader.weights("inner", net.places, WEIGHT)?);
    }
    let weights = Weights { outer, inner };
    if weights.all_zero() && broken(Broken::ZeroBeforeBytesAfter) {
        return Err(reader.refuse(ALL_ZERO));
    }
    reader.end()?;
    Ok(weights)
}

/// The least event, counted from 0, whose effect is not 0.
fn unbalanced(model: &Model, weights: &Weights) -> Option<usize> {
    if broken(Broken::WeightsAllPass) {
        return None;
    }
    if broken(Broken::WeightsAllRefused) {
        return Some(0);
    }
    let free = |event: &Event| match event.mode {
        Mode::Move(_) => false,
        Mode::Idle(_) => broken(Broken::IdlingNotBalanced),
        Mode::Alone(_) => broken(Broken::AloneNotBalanced),
    };
    let effect = |event: &Event| weights.effect(event) + outer_of_alone(model, weights, event);
    let at_fault = |event: &Event| effect(event) != 0 && !free(event);
    if broken(Broken::GreatestEvent) {
        return model.events.iter().rposition(at_fault);
    }
    model.events.iter().position(at_fault)
}

/// Broken: what the outer weights at the places of its net add to the effect of an `alone` event.
fn outer_of_alone(model: &Model, weights: &Weights, event: &Event) -> i64 {
    let Mode::Alone(net) = event.mode else {
        return 0;
    };
    let of_net = (0..model.places()).filter(|&place| model.net_of(place) == Some(net));
    let outer: Vec<i64> = of_net.map(|place| weights.outer[place]).collect();
    let first = outer.first().copied().unwrap_or_default();
    if broken(Broken::AloneRackWeighed) {
        first
    } else if broken(Broken::AloneHallsAlike) {
        outer.iter().map(|weight| (weight - first).abs()).sum()
    } else {
        0
    }
}
