//! Models: the system net, the object nets, the events, and their reading.

use crate::broken::{broken, Broken};
use crate::cause::{within, Refusal, IDLING, RETIRED};
use crate::column::Right;
use crate::marking::{read_start, Marking};
use crate::text::{value_of, Reader};

pub const NETS: usize = 8;
pub const PLACES: usize = 32;
pub const MOVES: usize = 32;
/// Places of an object net.
pub const INNER: usize = 32;
/// Transitions of an object net.
pub const TRANSITIONS: usize = 32;
pub const EVENTS: usize = 64;
/// Unlike net-tokens of a marking.
pub const TOKENS: usize = 256;
/// Likes of a net-token, in a marking and in a line.
pub const LIKES: u64 = 65_535;
/// Token lines of a start, of a take, and of a give.
pub const LINES: usize = 256;
/// Tokens on an inner place of one net-token.
pub const COUNT: usize = 65_535;
/// The weight of an arc, and the count of a transition in an event.
pub const ARC: usize = 255;
/// Bytes of a lent text.
pub const SLICE: usize = 1_048_576;

/// An arc's number for each place of the system net, 0 where there is no such place.
pub type OuterCounts = [u32; PLACES];
/// Summed arcs for each place of an object net, 0 where there is no such place.
pub type InnerCounts = [u32; INNER];

/// A transition of the system net or of an object net: a number of tokens for each place.
#[derive(Clone, Debug, PartialEq, Eq)]
pub struct Transition {
    pub pre: Vec<u8>,
    pub post: Vec<u8>,
}

#[derive(Clone, Debug, PartialEq, Eq)]
pub struct ObjectNet {
    pub places: usize,
    pub transitions: Vec<Transition>,
}

/// The header of a model's file. Beside moves, `eos=1` has idling at a place, and `eos=2` any one rack of a net alone.
#[derive(Clone, Copy, Debug, PartialEq, Eq)]
pub enum Header {
    One,
    Two,
}

impl Header {
    pub const ALL: [Header; 2] = [Header::One, Header::Two];

    pub fn number(self) -> usize {
        match self {
            Header::One => 1,
            Header::Two => 2,
        }
    }

    /// Whether its files have events of this mode.
    pub fn has(self, mode: Mode) -> bool {
        match mode {
            Mode::Move(_) => true,
            Mode::Idle(_) => self == Header::One,
            Mode::Alone(_) => self == Header::Two,
        }
    }
}

/// What an event does in the system net: a move, idling at a place, or idling of any one rack of a net, wherever it
/// stands; each counted from 0.
#[derive(Clone, Copy, Debug, PartialEq, Eq)]
pub enum Mode {
    Move(usize),
    Idle(usize),
    Alone(usize),
}

/// An event: its mode, a count for each transition of each object net, and what these add up to. An `alone` event has no
/// outer part: its rack may stand at any place of the net.
#[derive(Clone, Debug, PartialEq, Eq)]
pub struct Event {
    pub mode: Mode,
    pub sync: Vec<Vec<u8>>,
    pub outer_pre: OuterCounts,
    pub outer_post: OuterCounts,
    pub inner_pre: Vec<InnerCounts>,
    pub inner_post: Vec<InnerCounts>,
}

/// An elementary object system; `types` has a net's number, from 1, or 0 for each place.
#[derive(Clone, Debug, PartialEq, Eq)]
pub struct Model {
    pub header: Header,
    pub types: Vec<u8>,
    pub moves: Vec<Transition>,
    pub nets: Vec<ObjectNet>,
    pub events: Vec<Event>,
}

impl Model {
    pub fn places(&self) -> usize {
        self.types.len()
    }

    /// The net that types a place, counted from 0; none for black tokens.
    pub fn net_of(&self, place: usize) -> Option<usize> {
        usize::from(self.types[place]).checked_sub(1)
    }

    /// Whether a net types some place.
    pub fn types_a_place(&self, net: usize) -> bool {
        (0..self.places()).any(|place| self.net_of(place) == Some(net))
    }

    /// The number of inner places of a net-token at a place.
    pub fn inner_places(&self, place: usize) -> usize {
        self.net_of(place).map_or(0, |net| self.nets[net].places)
    }

    /// An event of this model, with its sums worked out.
    pub fn event(&self, mode: Mode, sync: Vec<Vec<u8>>) -> Event {
        let (outer_pre, outer_post) = match mode {
            Mode::Move(index) => {
                let Transition { pre, post } = &self.moves[index];
                (outer_counts(pre), outer_counts(post))
            }
            Mode::Idle(place) => (one_at(place), one_at(place)),
            Mode::Alone(_) => ([0; PLACES], [0; PLACES]),
        };
        let nets = || self.nets.iter().zip(&sync);
        let inner_pre = nets().map(|(net, counts)| summed(net, counts, |t| &t.pre)).collect();
        let inner_post = nets().map(|(net, counts)| summed(net, counts, |t| &t.post)).collect();
        Event { mode, sync, outer_pre, outer_post, inner_pre, inner_post }
    }

    /// Whether an event of this mode idles at a place that no net types.
    pub fn place_fault(&self, mode: Mode) -> bool {
        match mode {
            Mode::Move(_) => false,
            Mode::Idle(place) => self.net_of(place).is_none() && !broken(Broken::IdlingAtBlackPlaces),
            Mode::Alone(net) => broken(Broken::AloneNeedsAPlace) && !self.types_a_place(net),
        }
    }

    /// Whether these counts of a net cannot stand in an event of this mode: a net that idles or is alone engages itself,
    /// and no other.
    pub fn idling_fault(&self, mode: Mode, net: usize, counts: &[u8]) -> bool {
        let own = match mode {
            Mode::Move(_) => return false,
            Mode::Idle(place) => self.net_of(place),
            Mode::Alone(net) => Some(net),
        };
        let none = counts.iter().all(|&count| count == 0);
        if own == Some(net) {
            none && !broken(Broken::IdlingWithoutTransitions)
        } else {
            !none && !broken(Broken::IdlingWithAnotherNet)
        }
    }
}

fn outer_counts(arcs: &[u8]) -> OuterCounts {
    let mut counts = [0; PLACES];
    for (count, &arc) in counts.iter_mut().zip(arcs) {
        *count = u32::from(arc);
    }
    counts
}

fn one_at(place: usize) -> OuterCounts {
    let mut counts = [0; PLACES];
    counts[place] = 1;
    counts
}

/// Arcs of a net's transitions, each as often as its count says.
fn summed(net: &ObjectNet, counts: &[u8], arcs: fn(&Transition) -> &Vec<u8>) -> InnerCounts {
    let mut sums = [0; INNER];
    for (transition, &count) in net.transitions.iter().zip(counts) {
        let count = if broken(Broken::SyncOnce) { count.min(1) } else { count };
        if count > 0 {
            for (sum, &arc) in sums.iter_mut().zip(arcs(transition)) {
                *sum += u32::from(count) * u32::from(arc);
            }
        }
    }
    sums
}

/// Broken: whether a net types a place of pre and none of post.
pub fn loses_a_net(types: &[u8], Transition { pre, post }: &Transition) -> bool {
    let has = |arcs: &[u8], net: u8| types.iter().zip(arcs).any(|(&t, &arc)| t == net && arc > 0);
    types.iter().any(|&net| net != 0 && has(pre, net) && !has(post, net))
}

/// Refuses a lent text that is too long.
pub fn within_slice(text: &[u8]) -> Result<(), Refusal> {
    if broken(Broken::SliceOneShorter) {
        return within(SLICE - 1, text);
    }
    within(SLICE + usize::from(broken(Broken::SliceOneLonger)), text)
}

/// Reads a model and its start.
pub fn read_model(text: &[u8]) -> Result<(Model, Marking), Refusal> {
    within_slice(text)?;
    let mut reader = Reader::new(text);
    let mut model = read_nets(&mut reader)?;
    read_events(&mut reader, &mut model)?;
    let start = read_start(&mut reader, &model)?;
    reader.end()?;
    Ok((model, start))
}

fn read_nets(reader: &mut Reader) -> Result<Model, Refusal> {
    let header = read_header(reader)?;
    let nets = reader.number("nets", 0, NETS)?;
    let most = PLACES - usize::from(broken(Broken::PlacesOneFewer));
    let places = reader.number("places", 1, most)?;
    let types = reader.list("type", places, nets)?;
    let moves = read_moves(reader, &types)?;
    let nets = (0..nets).map(|_| read_object_net(reader)).collect::<Result<_, _>>()?;
    Ok(Model { header, types, moves, nets, events: Vec::new() })
}

fn read_header(reader: &mut Reader) -> Result<Header, Refusal> {
    let numbers = if broken(Broken::HeaderThreeRead) { ["1", "2", "3"].as_slice() } else { &["1", "2"] };
    let index = reader.header("eos", numbers)?;
    Ok(if index == 0 { Header::One } else { Header::Two })
}

fn read_moves(reader: &mut Reader, types: &[u8]) -> Result<Vec<Transition>, Refusal> {
    let number = reader.number("moves", 0, MOVES)?;
    let mut moves = Vec::with_capacity(number);
    for _ in 0..number {
        let transition = read_transition(reader, types.len())?;
        if broken(Broken::LeavingMovesAreFour) && loses_a_net(types, &transition) {
            return Err(reader.refuse(RETIRED));
        }
        moves.push(transition);
    }
    Ok(moves)
}

fn read_transition(reader: &mut Reader, places: usize) -> Result<Transition, Refusal> {
    let pre = reader.list("pre", places, ARC)?;
    let post = reader.list("post", places, ARC)?;
    Ok(Transition { pre, post })
}

fn read_object_net(reader: &mut Reader) -> Result<ObjectNet, Refusal> {
    let places = reader.number("inner", 1, INNER)?;
    let number = reader.number("steps", 0, TRANSITIONS)?;
    let transitions = (0..number).map(|_| read_transition(reader, places)).collect::<Result<_, _>>()?;
    Ok(ObjectNet { places, transitions })
}

fn read_events(reader: &mut Reader, model: &mut Model) -> Result<(), Refusal> {
    let most = EVENTS - usize::from(broken(Broken::EventsOneFewer));
    let number = reader.number("events", 0, most)?;
    for _ in 0..number {
        let mode = read_mode(reader, model)?;
        let sync = read_sync(reader, model, mode)?;
        model.events.push(model.event(mode, sync));
    }
    Ok(())
}

fn read_mode(reader: &mut Reader, model: &Model) -> Result<Mode, Refusal> {
    let keys = event_keys(model.header);
    let right = Right::Number(keys);
    let line = reader.line(right)?;
    let known = keys.iter().find_map(|&key| Some((key, value_of(line, key)?)));
    let (key, value) = known.ok_or_else(|| reader.refuse_syntax(right))?;
    let index = |most: usize| Ok(reader.in_range(value, right, 1, most)? - 1);
    let mode = match key {
        "event" => Mode::Move(index(model.moves.len())?),
        "idle" => Mode::Idle(index(model.places())?),
        _ if broken(Broken::AloneCountsPlaces) => Mode::Alone(index(model.places())?),
        _ => Mode::Alone(index(model.nets.len())?),
    };
    if model.place_fault(mode) {
        return Err(reader.refuse(IDLING));
    }
    Ok(mode)
}

/// The keys of an event's first line.
fn event_keys(header: Header) -> &'static [&'static str] {
    match header {
        Header::One if broken(Broken::AloneUnderOne) => &["event", "idle", "alone"],
        Header::One => &["event", "idle"],
        Header::Two if broken(Broken::IdleUnderTwo) => &["event", "alone", "idle"],
        Header::Two => &["event", "alone"],
    }
}

fn read_sync(reader: &mut Reader, model: &Model, mode: Mode) -> Result<Vec<Vec<u8>>, Refusal> {
    let mut sync = Vec::with_capacity(model.nets.len());
    for (net, object) in model.nets.iter().enumerate() {
        let counts = reader.list("sync", object.transitions.len(), ARC)?;
        if model.idling_fault(mode, net, &counts) {
            return Err(reader.refuse(IDLING));
        }
        sync.push(counts);
    }
    Ok(sync)
}
