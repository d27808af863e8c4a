//! Texts of exact lengths, accepted ones among them, and those of a plant that has every kind of line.

use crate::marking::Line;
use crate::model::{Header, Mode, Model, ObjectNet, Transition, INNER, LINES, NETS, TRANSITIONS};

use super::steps::{StepPlan, Token};
use super::texts::{model_text, step_text, trace_text, weights_text};
use crate::weights::Weights;

/// A text followed by `fill` up to a length.
pub fn padded(text: &[u8], length: usize, fill: u8) -> Vec<u8> {
    let mut padded = text.to_vec();
    padded.resize(length.max(text.len()), fill);
    padded
}

/// A right model of 256 lines of racks with a text of exactly `length` bytes, from about 54,000 to about 86,000.
pub fn model_of_length(length: usize) -> Vec<u8> {
    let none = Transition { pre: vec![0; INNER], post: vec![0; INNER] };
    let net = ObjectNet { places: INNER, transitions: vec![none; TRANSITIONS] };
    let nets = vec![net; NETS];
    let model = Model { header: Header::Two, types: vec![1], moves: Vec::new(), nets, events: Vec::new() };
    let mut start = vec![Line::new([1; 1 + INNER], 1); LINES];
    let missing = length - model_text(&model, &start).len();
    for more in 0..missing {
        let cell = more % (LINES * INNER);
        start[cell / INNER].row[1 + cell % INNER] *= 10;
    }
    model_text(&model, &start)
}

/// Weights that pass for `model_of_length`.
pub fn weights_of_length() -> Vec<u8> {
    weights_text(&Weights { outer: vec![1], inner: vec![vec![1; INNER]; NETS] })
}

/// A black hall with one token and ten like events that move it to where it was.
pub fn round_trip() -> Vec<u8> {
    let moves = vec![Transition { pre: vec![1], post: vec![1] }];
    let header = Header::One;
    let mut model = Model { header, types: vec![0], moves, nets: Vec::new(), events: Vec::new() };
    model.events = (0..10).map(|_| model.event(Mode::Move(0), Vec::new())).collect();
    let mut token = [0; 1 + INNER];
    token[0] = 1;
    model_text(&model, &[Line::new(token, 1)])
}

/// A hall with 256 racks, one of which has a token, and no events.
pub fn weighed_hall() -> Vec<u8> {
    let head =
        b"eos=1\nnets=1\nplaces=1\ntype=1\nmoves=0\ninner=1\nsteps=0\nevents=0\nstart=256\ntoken=1:1\n";
    [&head[..], &b"token=1:0\n".repeat(LINES - 1)].concat()
}

/// Its weights: the sum is just too large to cover, and just not.
pub const HALL_WEIGHTS: [&[u8]; 2] = [b"inv=1\nouter=1\ninner=1\n", b"inv=1\nouter=2\ninner=1\n"];

/// A hall with 256 unlike racks, and a move that gives one more than it takes.
pub fn full_hall() -> Vec<u8> {
    let head = b"eos=1\nnets=1\nplaces=1\ntype=1\nmoves=1\npre=1\npost=2\ninner=1\nsteps=0\nevents=1\nevent=1\nsync=\n";
    let racks: String = (0..LINES).map(|count| format!("token=1:{}\n", 10 * count)).collect();
    [head, &b"start=256\n"[..], racks.as_bytes()].concat()
}

/// Its step that takes a rack which is not there, and one that takes one which is; there is no room for either. And two for
/// which there is room.
pub const FULL_STEPS: [&[u8]; 4] = [
    b"fire=1\ntake=1\ntoken=1:1\ngive=2\ntoken=1:0\ntoken=1:1\n",
    b"fire=1\ntake=1\ntoken=1:30\ngive=2\ntoken=1:1\ntoken=1:29\n",
    b"fire=1\ntake=1\ntoken=1:30\ngive=2\ntoken=1:0\ntoken=1:30\n",
    b"fire=1\ntake=1\ntoken=1:30\ngive=1\ntoken=1:15*2\n",
];

/// A trace of exactly `length` bytes whose steps all fire in `round_trip`.
pub fn trace_of_length(length: usize) -> Vec<u8> {
    let step = |event: usize| {
        let token = Token { place: 1, inside: Vec::new(), times: 1 };
        step_text(&StepPlan { event, taken: vec![token.clone()], given: vec![token] })
    };
    let (short, long) = (step(1), step(10));
    let missing = length - trace_text(&[]).len();
    let longer = missing % short.len();
    let shorter = (missing - longer * long.len()) / short.len();
    let mut steps = vec![short; shorter];
    steps.resize(shorter + longer, long);
    trace_text(&steps)
}

/// A plant with every kind of line of `eos=1`, its places of one digit and of two, and lists of length 0.
pub const EVERY_LINE: &[u8] =
    b"eos=1\nnets=2\nplaces=12\ntype=1,0,2,1,1,1,1,1,1,1,1,1\nmoves=1\npre=1,12,0,0,0,0,0,0,0,0,0,0\n\
    post=0,12,0,0,0,0,0,0,0,0,0,1\ninner=2\nsteps=1\npre=1,0\npost=0,10\ninner=1\nsteps=0\nevents=2\n\
    event=1\nsync=1\nsync=\nidle=12\nsync=255\nsync=\nstart=3\ntoken=1:10,0*2\ntoken=2:*20\ntoken=12:0,65535\n";

/// One under `eos=2` with its own kinds of line; a net types no place.
pub const EVERY_ALONE: &[u8] = b"eos=2\nnets=2\nplaces=2\ntype=1,0\nmoves=1\npre=0,1\npost=0,1\ninner=1\nsteps=1\npre=1\n\
    post=1\ninner=1\nsteps=1\npre=0\npost=0\nevents=3\nalone=1\nsync=10\nsync=0\nevent=1\nsync=0\nsync=0\nalone=2\n\
    sync=0\nsync=1\nstart=1\ntoken=1:10*65535\n";

/// The weights of the first.
pub const EVERY_WEIGHT: &[u8] = b"inv=1\nouter=-10,0,1,1,1,1,1,1,1,1,1,1\ninner=-1000,1\ninner=0\n";

/// A step of it.
pub const EVERY_STEP: &[u8] = b"fire=1\ntake=3\ntoken=2:*10\ntoken=1:10,0\ntoken=2:*2\n\
    give=3\ntoken=12:9,10\ntoken=2:*11\ntoken=2:\n";
