//! Makes models that given weights balance.

use crate::model::{Header, Mode, Model, ObjectNet, Transition, ARC, EVENTS};
use crate::weights::Weights;

use super::alone::remove_idle;
use super::plant::{Kind, Sizes};
use super::rng::Rng;

/// At which places of a net its idle events are.
#[derive(Clone, Copy, PartialEq, Eq)]
enum Idling {
    /// Each event at some place.
    Somewhere,
    /// Like events at each place.
    Everywhere,
    /// So, but for one event.
    ButOne,
}

/// Makes the parts of a model so that the weights balance them.
pub struct Maker<'r> {
    rng: &'r mut Rng,
    kind: Kind,
    sizes: Sizes,
    weights: Weights,
    separate: bool,
    header: Header,
    idling: Idling,
}

impl<'r> Maker<'r> {
    pub fn new(rng: &'r mut Rng, kind: Kind, sizes: Sizes, types: &[u8]) -> Maker<'r> {
        let most = *rng.pick(&[1, 1, 1, 3, 10]);
        let mut outer = weights(rng, sizes.places, most);
        if kind == Kind::Fresh && sizes.nets > 0 {
            let fresh = rng.between(1, sizes.nets) as u8;
            let places = outer.iter_mut().zip(types);
            places.filter(|(_, &net)| net == fresh).for_each(|(weight, _)| *weight = 0);
        }
        let inner = (0..sizes.nets).map(|_| {
            let least = if sizes.exact { sizes.inner } else { 1 };
            let places = rng.between(least, sizes.inner);
            weights(rng, places, most)
        });
        let inner = inner.collect();
        let separate = rng.percent(60);
        let header = *rng.pick(&Header::ALL);
        let idling = *rng.pick(&[Idling::Somewhere, Idling::Everywhere, Idling::Everywhere, Idling::ButOne]);
        Maker { rng, kind, sizes, weights: Weights { outer, inner }, separate, header, idling }
    }

    /// The model, its weights, and whether moves and transitions are balanced each for itself.
    pub fn make_model(mut self, types: Vec<u8>) -> (Model, Weights, bool) {
        let moves = (0..self.sizes.moves).map(|_| self.make_move(&types)).collect();
        let nets = (0..self.sizes.nets).map(|net| self.make_net(net)).collect();
        let mut model = Model { header: self.header, types, moves, nets, events: Vec::new() };
        self.add_events(&mut model, self.sizes.events);
        (model, self.weights, self.separate)
    }

    /// What a move or transition adds to the weighted sum.
    fn some_effect(&mut self) -> i64 {
        if self.separate {
            return 0;
        }
        *self.rng.pick(&[0, 0, 0, 0, 1, 1, -1, -1, 2, -2])
    }

    fn make_move(&mut self, types: &[u8]) -> Transition {
        let size = *self.rng.pick(&[0, 1, 1, 1, 1, 2, 2, 2, 3, 3, 4, 6, 60]);
        let size = if size == 60 && self.rng.percent(90) { 1 } else { size };
        let pre = some_arcs(self.rng, types.len(), size);
        let reserved = self.kept_nets(types, &pre);
        if self.kind == Kind::Free {
            let size = self.rng.between(0, 4);
            let post = some_arcs(self.rng, types.len(), size);
            return Transition { pre, post: plus(&post, &reserved) };
        }
        let effect = self.some_effect();
        let outer = &self.weights.outer;
        let missing = total(outer, &pre) + effect - total(outer, &reserved);
        let post = fill(self.rng, outer, reserved, missing).unwrap_or_else(|| pre.clone());
        let post = self.with_free_racks(post);
        Transition { pre, post }
    }

    /// For each net that types a place of pre, or each but one, or none, a place of that net with no more weight.
    fn kept_nets(&mut self, types: &[u8], pre: &[u8]) -> Vec<u8> {
        let mut arcs = vec![0; types.len()];
        let nets = self.sizes.nets as u8;
        let kept = self.rng.below(10);
        let lost = self.rng.between(1, usize::from(nets.max(1))) as u8;
        for net in (1..=nets).filter(|&net| kept > 2 || (kept > 0 && net != lost)) {
            let Some(first) = (0..types.len()).find(|&p| types[p] == net && pre[p] > 0) else {
                continue;
            };
            let outer = &self.weights.outer;
            let light = |&p: &usize| types[p] == net && outer[p] <= outer[first];
            let places: Vec<usize> = (0..types.len()).filter(light).collect();
            arcs[*self.rng.pick(&places)] += 1;
        }
        arcs
    }

    /// Adds racks on places of weight 0.
    fn with_free_racks(&mut self, mut post: Vec<u8>) -> Vec<u8> {
        let outer = &self.weights.outer;
        let free: Vec<usize> = (0..outer.len()).filter(|&place| outer[place] == 0).collect();
        if let Some(place) = self.rng.pick_some(&free) {
            post[place] = post[place].saturating_add(self.rng.below(3) as u8);
        }
        post
    }

    fn make_net(&mut self, net: usize) -> ObjectNet {
        let least = if self.sizes.exact { self.sizes.transitions } else { 0 };
        let number = self.rng.between(least, self.sizes.transitions);
        let transitions = (0..number).map(|_| self.make_transition(net)).collect();
        ObjectNet { places: self.weights.inner[net].len(), transitions }
    }

    fn make_transition(&mut self, net: usize) -> Transition {
        let places = self.weights.inner[net].len();
        let size = *self.rng.pick(&[0, 1, 1, 1, 2, 2, 3, 5]);
        let pre = some_arcs(self.rng, places, size);
        if self.kind == Kind::Free {
            let size = self.rng.between(0, 3);
            return Transition { pre, post: some_arcs(self.rng, places, size) };
        }
        let effect = self.some_effect();
        let inner = &self.weights.inner[net];
        let missing = total(inner, &pre) + effect;
        let post = fill(self.rng, inner, vec![0; places], missing).unwrap_or_else(|| pre.clone());
        Transition { pre, post }
    }

    fn add_events(&mut self, model: &mut Model, number: usize) {
        for _ in 0..number * 4 {
            if model.events.len() >= number {
                break;
            }
            if let Some((mode, sync)) = self.some_event(model) {
                let modes = self.like_modes(model, mode);
                if model.events.len() + modes.len() <= EVENTS {
                    let events = modes.into_iter().map(|mode| model.event(mode, sync.clone()));
                    model.events.extend(events.collect::<Vec<_>>());
                }
            }
        }
        self.rng.shuffle(&mut model.events);
        if self.idling == Idling::ButOne {
            remove_idle(self.rng, model);
        }
    }

    /// The modes of events that are like one of this mode; now and then one of them twice.
    fn like_modes(&mut self, model: &Model, mode: Mode) -> Vec<Mode> {
        let mut modes = match mode {
            Mode::Idle(place) if self.idling != Idling::Somewhere => {
                let like = |&other: &usize| model.types[other] == model.types[place];
                (0..model.places()).filter(like).map(Mode::Idle).collect()
            }
            _ => vec![mode],
        };
        if !matches!(mode, Mode::Move(_)) && self.rng.percent(15) {
            modes.push(*self.rng.pick(&modes));
        }
        modes
    }

    fn some_event(&mut self, model: &Model) -> Option<(Mode, Vec<Vec<u8>>)> {
        let typed: Vec<usize> = (0..model.places()).filter(|&p| model.net_of(p).is_some()).collect();
        if model.moves.is_empty() || (!typed.is_empty() && self.rng.percent(25)) {
            let (net, mode) = self.some_idling(model, &typed)?;
            let sync = self.some_sync(model, &[net], 0)?;
            let engaged = sync[net].iter().any(|&count| count > 0);
            return engaged.then_some((mode, sync));
        }
        let index = self.rng.below(model.moves.len());
        let pre = &model.moves[index].pre;
        let effect = effect_of(&self.weights.outer, &model.moves[index]);
        let touched = typed.iter().filter(|&&place| pre[place] > 0);
        let mut nets: Vec<usize> = touched.filter_map(|&place| model.net_of(place)).collect();
        if !model.nets.is_empty() && self.rng.percent(8) {
            nets.push(self.rng.below(model.nets.len()));
        }
        let sync = self.some_sync(model, &nets, effect)?;
        Some((Mode::Move(index), sync))
    }

    /// A net with the mode of an event in which it idles or is alone; now and then a net that perhaps types no place.
    fn some_idling(&mut self, model: &Model, typed: &[usize]) -> Option<(usize, Mode)> {
        let any: Vec<usize> = (0..model.nets.len()).collect();
        if self.header == Header::Two && self.rng.percent(15) {
            return self.rng.pick_some(&any).map(|net| (net, Mode::Alone(net)));
        }
        let place = self.rng.pick_some(typed)?;
        let net = model.net_of(place)?;
        Some((net, if self.header == Header::One { Mode::Idle(place) } else { Mode::Alone(net) }))
    }

    /// Counts for transitions of these nets whose effect undoes the move's.
    fn some_sync(&mut self, model: &Model, nets: &[usize], effect: i64) -> Option<Vec<Vec<u8>>> {
        let mut sync: Vec<Vec<u8>> = model.nets.iter().map(|net| vec![0; net.transitions.len()]).collect();
        let free = self.kind == Kind::Free;
        let mut missing = -effect;
        for &net in nets {
            for (at, transition) in model.nets[net].transitions.iter().enumerate() {
                let effect = effect_of(&self.weights.inner[net], transition);
                if effect == 0 || free {
                    sync[net][at] = *self.rng.pick(&[0, 0, 0, 0, 0, 1, 1, 1, 2]);
                } else if missing % effect == 0 && (1..=255).contains(&(missing / effect)) {
                    sync[net][at] = (missing / effect) as u8;
                    missing = 0;
                }
            }
        }
        if self.rng.percent(1) && free {
            nets.iter().for_each(|&net| sync[net].fill(ARC as u8));
        }
        (missing == 0 || free).then_some(sync)
    }
}

fn weights(rng: &mut Rng, number: usize, most: usize) -> Vec<i64> {
    let mut weights: Vec<i64> = (0..number).map(|_| rng.between(1, most) as i64).collect();
    let light = rng.below(number);
    weights[light] = 1;
    weights
}

fn total(weights: &[i64], arcs: &[u8]) -> i64 {
    weights.iter().zip(arcs).map(|(&weight, &arc)| weight * i64::from(arc)).sum()
}

fn effect_of(weights: &[i64], transition: &Transition) -> i64 {
    total(weights, &transition.post) - total(weights, &transition.pre)
}

fn plus(a: &[u8], b: &[u8]) -> Vec<u8> {
    a.iter().zip(b).map(|(&a, &b)| a.saturating_add(b)).collect()
}

fn some_arcs(rng: &mut Rng, places: usize, size: usize) -> Vec<u8> {
    let mut arcs = vec![0u8; places];
    let narrow = rng.percent(30);
    let place = rng.below(places);
    for _ in 0..size {
        let at = if narrow { place } else { rng.below(places) };
        arcs[at] = arcs[at].saturating_add(1);
    }
    if rng.percent(1) {
        arcs[place] = ARC as u8;
    }
    arcs
}

/// Adds tokens of the missing weight.
fn fill(rng: &mut Rng, weights: &[i64], mut arcs: Vec<u8>, mut missing: i64) -> Option<Vec<u8>> {
    while missing > 0 {
        let fits = |&place: &usize| weights[place] > 0 && weights[place] <= missing;
        let places: Vec<usize> = (0..weights.len()).filter(fits).collect();
        let place = rng.pick_some(&places)?;
        arcs[place] = arcs[place].checked_add(1)?;
        missing -= weights[place];
    }
    (missing == 0).then_some(arcs)
}
