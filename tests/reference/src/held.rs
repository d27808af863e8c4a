//! The held model and the held marking, laid out as the C header has them.

use std::mem::size_of;

use crate::broken::{broken, Broken};
use crate::marking::{Line, Marking, Row};
use crate::model::{
    loses_a_net, Header, Mode, Model, ObjectNet, Transition, EVENTS, INNER, MOVES, NETS, PLACES, TOKENS,
    TRANSITIONS,
};

const ARCS: usize = 32 * 32;

/// An object net; arcs at transition * 32 + place.
#[repr(C)]
#[derive(Clone, Debug, PartialEq, Eq)]
pub struct HeldObjectNet {
    pub places: usize,
    pub transitions: usize,
    pub pre: [u8; ARCS],
    pub post: [u8; ARCS],
}

/// An event: kind 1 a move, kind 2 idling, kind 3 alone; counts at net * 32 + transition.
#[repr(C)]
#[derive(Clone, Debug, PartialEq, Eq)]
pub struct HeldEvent {
    pub kind: u8,
    pub index: u8,
    pub sync: [u8; NETS * TRANSITIONS],
}

/// A held model; arcs at move * 32 + place. Unused room is 0.
#[repr(C)]
#[derive(Clone, Debug, PartialEq, Eq)]
pub struct HeldModel {
    pub header: usize,
    pub nets: usize,
    pub places: usize,
    pub moves: usize,
    pub listed: usize,
    pub types: [u8; PLACES],
    pub pre: [u8; ARCS],
    pub post: [u8; ARCS],
    pub objects: [HeldObjectNet; NETS],
    pub events: [HeldEvent; EVENTS],
}

/// A net-token: its place's number, from 1, and its counts.
#[repr(C)]
#[derive(Clone, Copy, Debug, Default, PartialEq, Eq)]
pub struct HeldToken {
    pub place: u16,
    pub counts: [u16; INNER],
}

/// A net-token, and how many times it is there.
#[repr(C)]
#[derive(Clone, Copy, Debug, Default, PartialEq, Eq)]
pub struct HeldEntry {
    pub token: HeldToken,
    pub times: u16,
}

/// A held marking: `len` entries in ascending order of their net-tokens. Unused room is 0.
#[repr(C)]
#[derive(Clone, Debug, PartialEq, Eq)]
pub struct HeldMarking {
    pub len: usize,
    pub entries: [HeldEntry; TOKENS],
}

// Neither struct has padding, so that equal fields are equal bytes.
const _: () = assert!(size_of::<HeldModel>() == 5 * size_of::<usize>() + 35_104);
const _: () = assert!(size_of::<HeldMarking>() == size_of::<usize>() + 17_408);

impl HeldModel {
    /// The empty model: no places, and no header.
    pub fn empty() -> HeldModel {
        let object = HeldObjectNet { places: 0, transitions: 0, pre: [0; ARCS], post: [0; ARCS] };
        let event = HeldEvent { kind: 0, index: 0, sync: [0; NETS * TRANSITIONS] };
        HeldModel {
            header: 0,
            nets: 0,
            places: 0,
            moves: 0,
            listed: 0,
            types: [0; PLACES],
            pre: [0; ARCS],
            post: [0; ARCS],
            objects: std::array::from_fn(|_| object.clone()),
            events: std::array::from_fn(|_| event.clone()),
        }
    }
}

impl HeldEntry {
    /// Holds a line.
    pub fn new(line: &Line) -> HeldEntry {
        let mut counts = [0; INNER];
        counts.copy_from_slice(line.inside());
        HeldEntry { token: HeldToken { place: line.row[0], counts }, times: line.times as u16 }
    }

    /// The line that is held.
    pub fn line(&self) -> Line {
        let mut row: Row = [0; 1 + INNER];
        row[0] = self.token.place;
        row[1..].copy_from_slice(&self.token.counts);
        Line::new(row, u64::from(self.times))
    }
}

impl HeldMarking {
    /// No net-token.
    pub fn empty() -> HeldMarking {
        HeldMarking { len: 0, entries: [HeldEntry::default(); TOKENS] }
    }

    /// Its entries as lines; its length is one that a reading gives.
    pub fn lines(&self) -> Vec<Line> {
        self.entries[..self.len].iter().map(HeldEntry::line).collect()
    }
}

/// Holds a model.
pub fn hold_model(model: &Model) -> HeldModel {
    let mut held = HeldModel::empty();
    held.header = model.header.number();
    held.nets = model.nets.len();
    held.places = model.places();
    held.moves = model.moves.len();
    held.listed = model.events.len();
    held.types[..model.places()].copy_from_slice(&model.types);
    hold_arcs(&mut held.pre, &mut held.post, &model.moves);
    for (object, net) in held.objects.iter_mut().zip(&model.nets) {
        object.places = net.places;
        object.transitions = net.transitions.len();
        hold_arcs(&mut object.pre, &mut object.post, &net.transitions);
    }
    for (held_event, event) in held.events.iter_mut().zip(&model.events) {
        (held_event.kind, held_event.index) = match event.mode {
            Mode::Move(index) => (1, index as u8 + 1),
            Mode::Idle(place) => (2, place as u8 + 1),
            Mode::Alone(net) => (3, net as u8 + 1),
        };
        for (counts, net) in event.sync.iter().zip(held_event.sync.chunks_mut(TRANSITIONS)) {
            net[..counts.len()].copy_from_slice(counts);
        }
    }
    held
}

fn hold_arcs(pre: &mut [u8; ARCS], post: &mut [u8; ARCS], transitions: &[Transition]) {
    for (at, transition) in transitions.iter().enumerate() {
        let row = at * 32..at * 32 + transition.pre.len();
        pre[row.clone()].copy_from_slice(&transition.pre);
        post[row].copy_from_slice(&transition.post);
    }
}

/// Holds a marking.
pub fn hold_marking(marking: &Marking) -> HeldMarking {
    let lines = marking.lines();
    let mut held = HeldMarking::empty();
    held.len = lines.len();
    held.entries.iter_mut().zip(&lines).for_each(|(entry, line)| *entry = HeldEntry::new(line));
    held
}

/// The model that an accepted reading holds like this, if there is one: the parts are taken out,
/// judged by the rules of reading, and held again.
pub fn model_of(held: &HeldModel) -> Option<Model> {
    let sizes = held.nets <= NETS && held.moves <= MOVES && held.listed <= EVENTS;
    if !sizes || !(1..=PLACES).contains(&held.places) {
        return None;
    }
    let types = held.types[..held.places].to_vec();
    if types.iter().any(|&net| usize::from(net) > held.nets) {
        return None;
    }
    let header = header_of(held)?;
    let moves = transitions(&held.pre, &held.post, held.moves, held.places);
    let nets = held.objects[..held.nets].iter().map(object_net).collect::<Option<_>>()?;
    let mut model = Model { header, types, moves, nets, events: Vec::new() };
    if broken(Broken::LeavingMovesNotHeld) && model.moves.iter().any(|each| loses_a_net(&model.types, each)) {
        return None;
    }
    for event in &held.events[..held.listed] {
        let mode = mode_of(&model, event)?;
        let sync = sync_of(&model, event, mode)?;
        model.events.push(model.event(mode, sync));
    }
    let mut again = hold_model(&model);
    if broken(Broken::HeaderThreeHeld) {
        again.header = held.header;
    }
    (broken(Broken::UnusedRoomOfModel) || again == *held).then_some(model)
}

fn header_of(held: &HeldModel) -> Option<Header> {
    if held.header == 3 && broken(Broken::HeaderThreeHeld) {
        return Some(Header::Two);
    }
    Header::ALL.into_iter().find(|header| header.number() == held.header)
}

fn transitions(pre: &[u8; ARCS], post: &[u8; ARCS], number: usize, places: usize) -> Vec<Transition> {
    let row = |arcs: &[u8; ARCS], at: usize| arcs[at * 32..at * 32 + places].to_vec();
    (0..number).map(|at| Transition { pre: row(pre, at), post: row(post, at) }).collect()
}

fn object_net(held: &HeldObjectNet) -> Option<ObjectNet> {
    if !(1..=INNER).contains(&held.places) || held.transitions > TRANSITIONS {
        return None;
    }
    let transitions = transitions(&held.pre, &held.post, held.transitions, held.places);
    Some(ObjectNet { places: held.places, transitions })
}

fn mode_of(model: &Model, event: &HeldEvent) -> Option<Mode> {
    let index = usize::from(event.index).checked_sub(1)?;
    let (mode, number) = match event.kind {
        1 => (Mode::Move(index), model.moves.len()),
        2 => (Mode::Idle(index), model.places()),
        3 => (Mode::Alone(index), model.nets.len()),
        _ => return None,
    };
    let of_header = model.header.has(mode) || broken(Broken::KindsOfEitherHeader);
    (of_header && index < number && !model.place_fault(mode)).then_some(mode)
}

fn sync_of(model: &Model, event: &HeldEvent, mode: Mode) -> Option<Vec<Vec<u8>>> {
    let mut sync = Vec::with_capacity(model.nets.len());
    for (net, object) in model.nets.iter().enumerate() {
        let first = net * TRANSITIONS;
        let counts = event.sync[first..first + object.transitions.len()].to_vec();
        if model.idling_fault(mode, net, &counts) {
            return None;
        }
        sync.push(counts);
    }
    Some(sync)
}

/// The marking of the model that an accepted reading holds like this, if there is one.
pub fn marking_of(model: &Model, held: &HeldMarking) -> Option<Marking> {
    let entries = held.entries.get(..held.len)?;
    if !entries.iter().all(|entry| fits(model, entry)) || !ascending(entries) {
        return None;
    }
    if !held.entries[held.len..].iter().all(unused) {
        return None;
    }
    Some(Marking::new(&held.lines()))
}

/// Whether an entry's net-token is one of the model, and is there.
fn fits(model: &Model, entry: &HeldEntry) -> bool {
    let HeldToken { place, counts } = &entry.token;
    let place = usize::from(*place);
    if !(1..=model.places()).contains(&place) {
        return false;
    }
    let mut behind = counts[model.inner_places(place - 1)..].iter();
    (behind.all(|&count| count == 0) || broken(Broken::InsideRoomNotTested))
        && (entry.times > 0 || broken(Broken::TimesZeroHeld))
}

/// Whether the net-tokens of the entries ascend, each unlike the one before.
fn ascending(entries: &[HeldEntry]) -> bool {
    let in_order = |pair: &[HeldEntry]| {
        let [before, behind] = [pair[0], pair[1]].map(|entry| entry.line());
        let equal = before.row == behind.row;
        let misordered = broken(Broken::TimesBeforeInside) && before.row[0] == behind.row[0];
        before.row < behind.row
            || misordered
            || equal && broken(Broken::EqualNeighboursHeld)
            || equal && before.times < behind.times && broken(Broken::TimesInOrder)
    };
    let any_order = broken(Broken::OrderNotTested) || broken(Broken::MarkingUnsorted);
    any_order || entries.windows(2).all(in_order)
}

/// Whether an entry behind the last is 0.
fn unused(entry: &HeldEntry) -> bool {
    let HeldEntry { token, times } = entry;
    (*token == HeldToken::default() || broken(Broken::UnusedRoomOfMarking))
        && (*times == 0 || broken(Broken::UnusedRoomOfMarking) || broken(Broken::UnusedTimesNotTested))
}

macro_rules! bytes_of {
    ($held:ty) => {
        impl $held {
            /// All its bytes; any bytes are numbers.
            pub fn bytes_mut(&mut self) -> &mut [u8] {
                let first = (self as *mut $held).cast::<u8>();
                // The struct has no padding, and each of its fields takes any bytes.
                unsafe { std::slice::from_raw_parts_mut(first, size_of::<$held>()) }
            }
        }
    };
}

bytes_of!(HeldModel);
bytes_of!(HeldMarking);
