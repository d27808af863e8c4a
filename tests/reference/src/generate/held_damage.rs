//! Damage to held models and markings.

use crate::held::{HeldMarking, HeldModel};
use crate::model::{EVENTS, INNER, MOVES, NETS, PLACES, TOKENS, TRANSITIONS};

use super::rng::Rng;

/// A size near the old one, near a limit, or of no sense at all.
fn odd_size(rng: &mut Rng, old: usize, limit: usize) -> usize {
    let near = [old.wrapping_sub(1), old + 1, old + (1 << 8), old + (1 << 32)];
    *rng.pick(&[near[0], near[1], near[2], near[3], 0, limit, limit + 1, usize::MAX])
}

fn odd_byte(rng: &mut Rng) -> u8 {
    *rng.pick(&[0, 1, 1, 2, 3, 9, 33, 255])
}

/// Damages a held model at one point; now and then it stays right.
pub fn damage_model(rng: &mut Rng, held: &mut HeldModel) {
    match rng.below(19) {
        0 => held.nets = odd_size(rng, held.nets, NETS),
        1 => held.places = odd_size(rng, held.places, PLACES),
        2 => held.moves = odd_size(rng, held.moves, MOVES),
        3 => held.listed = odd_size(rng, held.listed, EVENTS),
        4 => held.types[rng.below(PLACES)] = odd_byte(rng),
        5 => {
            let place = rng.below(held.places.clamp(1, PLACES));
            held.types[place] = odd_byte(rng);
        }
        6 => damage_arcs(rng, &mut held.pre, held.moves, held.places),
        7 => damage_arcs(rng, &mut held.post, held.moves, held.places),
        8..=10 => damage_object(rng, held),
        11..=13 => damage_event(rng, held),
        14 => *held = HeldModel::empty(),
        15 | 16 => {
            held.header = *rng.pick(&[0, 1, 2, 3, 3_usize.wrapping_sub(held.header), 1 << 32, usize::MAX])
        }
        17 => damage_kind(rng, held),
        _ => {
            let bytes = held.bytes_mut();
            bytes[rng.below(bytes.len())] = odd_byte(rng);
        }
    }
}

/// Changes an arc, or a number in the room between and after them.
fn damage_arcs(rng: &mut Rng, arcs: &mut [u8; 1024], transitions: usize, places: usize) {
    let transition = match rng.below(3) {
        0 => rng.below(32),
        _ => rng.below(transitions.clamp(1, 32)),
    };
    let place = match rng.below(3) {
        0 => rng.below(32),
        1 => places.min(31),
        _ => rng.below(places.clamp(1, 32)),
    };
    arcs[transition * 32 + place] = odd_byte(rng);
}

fn damage_object(rng: &mut Rng, held: &mut HeldModel) {
    let used = rng.below(held.nets.clamp(1, NETS));
    let net = if rng.percent(25) { rng.below(NETS) } else { used };
    let object = &mut held.objects[net];
    match rng.below(4) {
        0 => object.places = odd_size(rng, object.places, INNER),
        1 => object.transitions = odd_size(rng, object.transitions, TRANSITIONS),
        2 => damage_arcs(rng, &mut object.pre, object.transitions, object.places),
        _ => damage_arcs(rng, &mut object.post, object.transitions, object.places),
    }
}

fn damage_event(rng: &mut Rng, held: &mut HeldModel) {
    let used = rng.below(held.listed.clamp(1, EVENTS));
    let at = if rng.percent(25) { rng.below(EVENTS) } else { used };
    let net = rng.below(held.nets.clamp(1, NETS));
    let event = &mut held.events[at];
    match rng.below(5) {
        0 => event.kind = odd_byte(rng),
        1 => event.index = odd_byte(rng),
        2 => event.sync[rng.below(NETS * TRANSITIONS)] = odd_byte(rng),
        3 => event.sync[net * TRANSITIONS..][..TRANSITIONS].fill(0),
        _ => event.sync[net * TRANSITIONS + rng.below(3)] = odd_byte(rng),
    }
}

/// Makes an idle event one of `alone`, or the other way round, or its net or place one that is not there.
fn damage_kind(rng: &mut Rng, held: &mut HeldModel) {
    let used = held.listed.min(EVENTS);
    let idling = |&event: &usize| [2, 3].contains(&held.events[event].kind);
    let events: Vec<usize> = (0..used).filter(idling).collect();
    let Some(event) = rng.pick_some(&events) else {
        return;
    };
    let most = if held.events[event].kind == 3 { held.nets } else { held.places };
    let event = &mut held.events[event];
    match rng.below(3) {
        0 => event.kind = 5 - event.kind,
        1 => event.index = 0,
        _ => event.index = (most as u8).wrapping_add(1),
    }
}

/// Damages a held marking at one point; now and then it stays right.
pub fn damage_marking(rng: &mut Rng, held: &mut HeldMarking) {
    let len = held.len.clamp(1, TOKENS);
    let at = rng.below(len);
    let behind = rng.between(len.min(TOKENS - 1), TOKENS - 1);
    match rng.below(14) {
        0 => held.len = odd_size(rng, held.len, TOKENS),
        1 => held.entries[at].token.place = *rng.pick(&[0, 1, 2, 32, 33, 255, 256, 65_535]),
        2 => held.entries.swap(at, rng.below(len)),
        3 => held.entries[at] = held.entries[rng.below(len)],
        4 => held.entries[at].token.counts[rng.below(INNER)] = *rng.pick(&[0, 1, 2, 65_535]),
        5 => held.entries[behind].token.counts[rng.below(INNER)] = 1,
        6 => held.entries[at].token.counts[INNER - 1] = 1,
        7 => held.entries[..len].rotate_left(at),
        8 => held.entries[behind].times = *rng.pick(&[1, 65_535]),
        9 => held.entries[at].times = 0,
        10 => held.entries[at].times = *rng.pick(&[1, 2, 255, 256, 65_535]),
        11 | 12 => repeat(rng, held, at),
        _ => {
            let bytes = held.bytes_mut();
            bytes[rng.below(bytes.len())] = odd_byte(rng);
        }
    }
}

/// Puts a net-token beside itself, there once or a few times more.
fn repeat(rng: &mut Rng, held: &mut HeldMarking, at: usize) {
    if held.len < TOKENS {
        held.entries[at..].rotate_right(1);
        held.entries[at] = held.entries[at + 1];
        held.len += 1;
    } else if at > 0 {
        held.entries[at].token = held.entries[at - 1].token;
    }
    held.entries[at].times = held.entries[at].times.saturating_add(*rng.pick(&[0, 0, 1, 2]));
}
