//! Racks that idle or are alone: idle events changed, steps spoiled in one point, and cases that need no made-up plant.

use crate::held::HeldModel;
use crate::marking::Line;
use crate::model::{Event, Mode, Model, EVENTS};

use super::rng::Rng;
use super::steps::{token_of, StepPlan, Token};
use super::texts::step_of;

/// The idle events of a model, counted from 0.
fn idles(model: &Model) -> Vec<usize> {
    let idle = |&event: &usize| matches!(model.events[event].mode, Mode::Idle(_));
    (0..model.events.len()).filter(idle).collect()
}

/// Takes an idle event away, if there is one.
pub fn remove_idle(rng: &mut Rng, model: &mut Model) {
    if let Some(event) = rng.pick_some(&idles(model)) {
        model.events.remove(event);
    }
}

/// Changes the idle events of a model: one less, one twice, one at another place of its net, or likes at every place.
pub fn change_idling(rng: &mut Rng, model: &mut Model) {
    let Some(event) = rng.pick_some(&idles(model)) else {
        return;
    };
    let likes = likes_of(model, event);
    match rng.below(6) {
        0 => drop(model.events.remove(event)),
        1 => insert(rng, model, model.events[event].clone()),
        2 => model.events[event] = rng.pick(&likes).clone(),
        _ => likes.into_iter().for_each(|like| insert(rng, model, like)),
    }
}

/// Events like an idle one, at each place of its net.
fn likes_of(model: &Model, event: usize) -> Vec<Event> {
    let Event { mode: Mode::Idle(place), sync, .. } = &model.events[event] else {
        return Vec::new();
    };
    let like = |&other: &usize| model.types[other] == model.types[*place];
    (0..model.places()).filter(like).map(|place| model.event(Mode::Idle(place), sync.clone())).collect()
}

/// Puts an event somewhere, if there is room.
fn insert(rng: &mut Rng, model: &mut Model, event: Event) {
    if model.events.len() < EVENTS {
        let at = rng.below(model.events.len() + 1);
        model.events.insert(at, event);
    }
}

/// Spoils a step of an event in which a rack of the net is alone; insides still fit where racks are given.
pub fn spoil_alone(rng: &mut Rng, model: &Model, lines: &[Line], net: usize, step: &mut StepPlan) {
    match rng.below(9) {
        0 => add_idler(rng, model, lines, step, |of| of == Some(net)),
        1 => add_idler(rng, model, lines, step, |of| of != Some(net)),
        2 => {
            take_none(step);
            add_idler(rng, model, lines, step, |of| of.is_some_and(|other| other != net));
        }
        3 => {
            take_none(step);
            add_idler(rng, model, lines, step, |of| of.is_none());
        }
        4 => take_none(step),
        5 => {
            let empty = |rack: &Token| Token { inside: vec![0; rack.inside.len()], ..*rack };
            step.given.extend(step.given.first().map(empty));
        }
        6 => step.given.clear(),
        7 => {
            let blocks = [&mut step.taken, &mut step.given].into_iter().skip(rng.below(2));
            blocks.flatten().for_each(|token| token.times = 2);
        }
        _ => give_elsewhere(rng, model, net, step),
    }
}

fn take_none(step: &mut StepPlan) {
    step.taken.clear();
    step.given.clear();
}

/// Takes one more net-token of a place of such a net, and gives it as it was.
fn add_idler(
    rng: &mut Rng,
    model: &Model,
    lines: &[Line],
    step: &mut StepPlan,
    stands: impl Fn(Option<usize>) -> bool,
) {
    let there = |line: &&Line| stands(model.net_of(line.place()));
    let racks: Vec<Line> = lines.iter().filter(there).copied().collect();
    if let Some(line) = rng.pick_some(&racks) {
        let rack = token_of(model, &line.row);
        step.taken.push(rack.clone());
        step.given.push(rack);
    }
}

fn give_elsewhere(rng: &mut Rng, model: &Model, net: usize, step: &mut StepPlan) {
    let halls = (0..model.places()).filter(|&place| model.net_of(place) == Some(net));
    let places: Vec<u64> = halls.map(|place| place as u64 + 1).collect();
    if let (Some(rack), Some(place)) = (step.given.first_mut(), rng.pick_some(&places)) {
        rack.place = place;
    }
}

/// Halls of two nets with as many inner places, a black one, and a net that types no place. Two alone events are equal, and
/// one does nothing.
pub const ALONE: &[u8] =
    b"eos=2\nnets=3\nplaces=4\ntype=2,1,2,0\nmoves=1\npre=0,0,0,1\npost=0,0,0,1\ninner=2\nsteps=2\n\
    pre=1,0\npost=0,1\npre=0,0\npost=0,0\ninner=2\nsteps=2\npre=1,0\npost=0,1\npre=0,0\npost=0,0\ninner=1\n\
    steps=1\npre=1\npost=1\nevents=6\nalone=2\nsync=0,0\nsync=1,0\nsync=0\nalone=2\nsync=0,0\nsync=0,1\n\
    sync=0\nevent=1\nsync=0,0\nsync=0,0\nsync=0\nalone=2\nsync=0,0\nsync=0,1\nsync=0\nalone=3\nsync=0,0\n\
    sync=0,0\nsync=1\nalone=1\nsync=1,0\nsync=0,0\nsync=0\nstart=5\ntoken=1:1,0*2\ntoken=1:2,0\ntoken=2:1,0\n\
    token=3:1,0*3\ntoken=4:\n";

/// Weights that pass for it, its halls weighing differently, and weights that do not balance its first event.
pub const ALONE_WEIGHTS: [&[u8]; 2] = [
    b"inv=1\nouter=1,2,3,4\ninner=1,1\ninner=1,1\ninner=1\n",
    b"inv=1\nouter=1,1,1,1\ninner=1,1\ninner=1,2\ninner=1\n",
];

/// Events of it with net-tokens taken and given: each as it fires, then off by one thing.
#[rustfmt::skip]
const STEPS: &[(usize, &[&str], &[&str])] = &[
    (1, &["1:1,0"], &["1:0,1"]),
    (1, &["3:1,0"], &["3:0,1"]),
    (2, &["1:2,0"], &["1:2,0"]),
    (6, &["2:1,0"], &["2:0,1"]),
    (3, &["4:"], &["4:"]),
    // Two racks, or none.
    (1, &["1:1,0", "1:2,0"], &["1:0,1", "1:2,0"]),
    (1, &["1:1,0", "3:1,0"], &["1:0,1", "3:1,0"]),
    (2, &["1:1,0", "1:2,0"], &["1:3,0"]),
    (2, &["1:1,0"], &["1:1,0", "1:0,0"]),
    (2, &["1:1,0"], &[]),
    (2, &[], &["1:0,0"]),
    (2, &[], &[]),
    // Likes.
    (2, &["1:1,0*2"], &["1:1,0*2"]),
    (2, &["1:1,0", "1:1,0"], &["1:1,0*2"]),
    (1, &["1:1,0*2"], &["1:1,0", "1:0,1"]),
    (2, &["1:1,0"], &["1:1,0*2"]),
    (2, &["3:1,0"], &["3:1,0*65536"]),
    (2, &["3:1,0*65535"], &["3:1,0*65535"]),
    // Another place.
    (1, &["1:1,0"], &["3:0,1"]),
    (2, &["1:1,0"], &["2:1,0"]),
    (2, &["1:1,0"], &["4:"]),
    // Another net, black tokens.
    (2, &["2:1,0"], &["2:1,0"]),
    (2, &["4:"], &["4:"]),
    (2, &["1:1,0", "4:"], &["1:1,0", "4:"]),
    (5, &["1:1,0"], &["1:1,0"]),
    // Insides, and the marking.
    (1, &["1:1,0"], &["1:1,0"]),
    (1, &["1:0,1"], &["1:0,1"]),
    (1, &["1:3,0"], &["1:2,1"]),
];

/// Texts of steps of `ALONE`.
pub fn alone_steps() -> impl Iterator<Item = Vec<u8>> {
    STEPS.iter().map(|(event, taken, given)| step_of(*event, taken, given))
}

/// Events of a plant whose first two places are of net 1, with two transitions, and whose third is of net 2, with one:
/// the first line and the counts of net 1, then of net 2.
#[rustfmt::skip]
const IDLERS: &[&[(&str, &str, &str)]] = &[
    &[],
    &[("event=1", "0,0", "0")],
    &[("idle=3", "0,0", "1")],
    // At all places, one of them twice, with moves between and behind.
    &[("event=1", "0,0", "0"), ("idle=2", "1,0", "0"), ("event=1", "0,0", "1"), ("idle=1", "1,0", "0"),
        ("idle=3", "0,0", "1"), ("idle=2", "1,0", "0"), ("event=1", "1,0", "0")],
    &[("idle=3", "0,0", "2"), ("idle=1", "0,3", "0"), ("idle=2", "0,3", "0"), ("idle=3", "0,0", "2")],
    // One is missing.
    &[("event=1", "0,0", "0"), ("idle=1", "1,0", "0")],
    &[("idle=1", "1,0", "0"), ("idle=1", "1,0", "0")],
    &[("idle=1", "1,0", "0"), ("idle=2", "0,1", "0")],
    &[("idle=3", "0,0", "1"), ("idle=2", "1,1", "0"), ("idle=1", "1,2", "0"), ("event=1", "0,0", "0")],
    &[("idle=1", "1,0", "0"), ("idle=2", "1,0", "0"), ("idle=2", "0,1", "0")],
];

/// Texts of models with idle events, each at all places of its net or not.
pub fn idlers() -> impl Iterator<Item = Vec<u8>> {
    let head = "eos=1\nnets=2\nplaces=3\ntype=1,1,2\nmoves=1\npre=1,0,0\npost=0,1,0\ninner=1\nsteps=2\npre=1\npost=0\n\
        pre=0\npost=1\ninner=1\nsteps=1\npre=1\npost=1\n";
    IDLERS.iter().map(move |events| {
        let event = |(first, one, other): &(&str, &str, &str)| format!("{first}\nsync={one}\nsync={other}\n");
        let lines: Vec<String> = events.iter().map(event).collect();
        format!("{head}events={}\n{}start=1\ntoken=2:3\n", events.len(), lines.concat()).into_bytes()
    })
}

/// First lines of a model, right and wrong.
#[rustfmt::skip]
pub const HEADERS: &[&str] = &[
    "eos=1\n", "eos=2\n", "eos=3\n", "eos=12\n", "eos=21\n", "eos=0\n", "eos=02\n", "eos=\n", "eos=2", "inv=2\n",
];

/// First lines of an event, known and unknown under either header.
#[rustfmt::skip]
pub const EVENT_LINES: &[&str] = &[
    "event=1\n", "idle=1\n", "idle=3\n", "alone=0\n", "alone=1\n", "alone=2\n", "alone=3\n", "alone=4\n", "alone=5\n",
    "alone=01\n", "alone=-1\n", "alone=\n", "alon=1\n", "aidle=1\n", "ealone=1\n", "alones=1\n", "alone=1",
];

/// A text with its first line put otherwise.
pub fn with_first_line(text: &[u8], line: &str) -> Vec<u8> {
    let rest = text.iter().position(|&byte| byte == b'\n').map_or(text.len(), |end| end + 1);
    [line.as_bytes(), &text[rest..]].concat()
}

/// A text with its first line of this beginning put otherwise.
pub fn with_line(text: &[u8], beginning: &str, line: &str) -> Vec<u8> {
    let lines = text.split_inclusive(|&byte| byte == b'\n');
    let before: usize =
        lines.take_while(|line| !line.starts_with(beginning.as_bytes())).map(<[u8]>::len).sum();
    [&text[..before], &with_first_line(&text[before..], line)].concat()
}

/// Held models whose header, or whose first event, is put otherwise.
pub fn held_otherwise(held: &HeldModel) -> impl Iterator<Item = HeldModel> + '_ {
    let headers = [0, 1, 2, 3, 1 << 32 | 1, usize::MAX].map(|header| {
        let mut other = held.clone();
        other.header = header;
        other
    });
    let nets = held.nets as u8;
    let kinds = (0..5).flat_map(move |kind| [0, 1, nets, nets + 1].map(|index| (kind, index)));
    let events = kinds.map(|(kind, index)| {
        let mut other = held.clone();
        (other.events[0].kind, other.events[0].index) = (kind, index);
        other
    });
    headers.into_iter().chain(events)
}
