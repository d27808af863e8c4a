//! The converter: idling at every place of a net becomes one `alone` of that net.

use std::collections::{BTreeMap, BTreeSet};

use crate::broken::{broken, Broken};
use crate::cause::{Refusal, NOT_EVERYWHERE};
use crate::model::{Event, Header, Mode, Model};

/// A model of header 2, and for each event of the old model its new number, counted from 1.
pub struct Converted {
    pub model: Model,
    pub numbers: Vec<usize>,
}

/// What like events have in common: the net of their places, and their counts.
type Likeness<'m> = (usize, &'m [Vec<u8>]);

/// Like events, in their order, and the places at which they idle.
#[derive(Default)]
struct Group {
    events: Vec<usize>,
    places: BTreeSet<usize>,
}

/// Replaces like idle events by one `alone` where the first of them stands. Refuses beside the least one that has no like
/// at some place of its net.
pub fn convert(model: &Model) -> Result<Converted, Refusal> {
    let groups = groups(model);
    if let Some(event) = not_everywhere(model, &groups) {
        return Err(Refusal::new(NOT_EVERYWHERE, event + 1));
    }
    let stands_for = |event: usize| {
        let group = likeness(model, event).map(|likeness| &groups[&likeness]);
        group.map_or(event, |group| group.stands_for(model, event))
    };
    let kept: Vec<usize> = (0..model.events.len()).filter(|&event| stands_for(event) == event).collect();
    let numbers = (0..model.events.len()).map(|event| {
        let number = 1 + kept.partition_point(|&other| other < stands_for(event));
        misnumbered(model, event, number)
    });
    let header = if broken(Broken::HeaderKept) && groups.is_empty() { model.header } else { Header::Two };
    let events = kept.iter().map(|&event| converted(model, event)).collect();
    let numbers = numbers.collect();
    Ok(Converted { model: Model { header, events, ..model.clone() }, numbers })
}

/// An event that is kept: idling has become `alone`.
fn converted(model: &Model, event: usize) -> Event {
    let event = &model.events[event];
    match event.mode {
        Mode::Idle(place) => model.event(Mode::Alone(idle_net(model, place)), event.sync.clone()),
        Mode::Move(_) | Mode::Alone(_) => event.clone(),
    }
}

/// The net of a place that idles.
fn idle_net(model: &Model, place: usize) -> usize {
    model.net_of(place).expect("idling at a place of a net")
}

fn likeness(model: &Model, event: usize) -> Option<Likeness<'_>> {
    let Event { mode, sync, .. } = &model.events[event];
    let counts = if broken(Broken::LikeWhateverCounts) { &[] } else { &sync[..] };
    match *mode {
        Mode::Idle(place) => Some((idle_net(model, place), counts)),
        Mode::Alone(net) if broken(Broken::AloneMerged) => Some((net, counts)),
        Mode::Move(_) | Mode::Alone(_) => None,
    }
}

fn groups(model: &Model) -> BTreeMap<Likeness<'_>, Group> {
    let mut groups: BTreeMap<Likeness, Group> = BTreeMap::new();
    for (event, Event { mode, .. }) in model.events.iter().enumerate() {
        if let Some(likeness) = likeness(model, event) {
            let group = groups.entry(likeness).or_default();
            group.events.push(event);
            match *mode {
                Mode::Idle(place) => drop(group.places.insert(place)),
                Mode::Move(_) | Mode::Alone(_) => {}
            }
        }
    }
    groups
}

/// The least idle event, counted from 0, without a like at some place of its net.
fn not_everywhere(model: &Model, groups: &BTreeMap<Likeness, Group>) -> Option<usize> {
    if broken(Broken::PlaceMissedReplaced) {
        return None;
    }
    let misses = |&event: &usize| match (model.events[event].mode, likeness(model, event)) {
        (Mode::Idle(_), Some(likeness)) => groups[&likeness].misses_a_place(model, likeness.0),
        _ => false,
    };
    let mut events = 0..model.events.len();
    if broken(Broken::GreatestIdle) {
        return events.rfind(misses);
    }
    events.find(misses)
}

impl Group {
    /// Whether none of them idles at some place of the net.
    fn misses_a_place(&self, model: &Model, net: usize) -> bool {
        let mut of_net = (0..model.places()).filter(|&place| model.net_of(place) == Some(net));
        if broken(Broken::RepeatedIdleCounts) {
            return of_net.count() > self.events.len();
        }
        !of_net.all(|place| self.places.contains(&place))
    }

    /// Which of them stands for this one.
    fn stands_for(&self, model: &Model, event: usize) -> usize {
        let earlier = || self.events.iter().take_while(|&&other| other < event);
        let repeated = || earlier().any(|&other| model.events[other] == model.events[event]);
        if broken(Broken::RepeatedIdleKept) && repeated() {
            return event;
        }
        self.events[if broken(Broken::AloneAtTheLast) { self.events.len() - 1 } else { 0 }]
    }
}

/// The new number of an event as broken copies give it.
fn misnumbered(model: &Model, event: usize, number: usize) -> usize {
    if broken(Broken::NumbersNotMovedUp) {
        return event + 1;
    }
    let last = event + 1 == model.events.len();
    number + usize::from(last && broken(Broken::NumberOneOff))
}
