//! Plants made for an edge: nearly full ones, sums that just cover, racks that leave, and racks that idle.

use crate::marking::{Line, Row};
use crate::model::{Header, Mode, Model, ObjectNet, Transition, COUNT, INNER, LIKES, LINES, TOKENS};
use crate::weights::{Weights, RACKS};

use super::alone::remove_idle;
use super::plant::{start, Kind, Plant};
use super::rng::Rng;

/// Two halls of one net and a black one, with moves that change the number of net-tokens.
fn changing(rng: &mut Rng, arcs: &[([u8; 3], [u8; 3])]) -> Model {
    let moves: Vec<Transition> =
        arcs.iter().map(|(pre, post)| Transition { pre: pre.to_vec(), post: post.to_vec() }).collect();
    let transitions = vec![Transition { pre: vec![1, 0], post: vec![0, 1] }];
    let nets = vec![ObjectNet { places: 2, transitions }];
    let header = *rng.pick(&Header::ALL);
    let mut model = Model { header, types: vec![1, 1, 0], moves, nets, events: Vec::new() };
    for index in 0..model.moves.len() {
        let sync = vec![vec![u8::from(index == 1)]];
        model.events.push(model.event(Mode::Move(index), sync));
    }
    model
}

/// Nearly as many unlike net-tokens as can be held; a few are there several times.
pub fn crowded(rng: &mut Rng) -> Plant {
    let model = changing(
        rng,
        &[
            ([1, 0, 0], [1, 1, 0]),
            ([1, 0, 0], [0, 1, 0]),
            ([1, 1, 0], [0, 1, 0]),
            ([0, 0, 1], [0, 0, 3]),
            ([0, 0, 0], [1, 0, 0]),
            ([0, 0, 2], [0, 0, 1]),
            ([0, 0, 0], [0, 0, 0]),
        ],
    );
    let mut rows: Vec<Row> = (0..1_200).map(|at| row(1 + at % 2, [at / 2 % 20, at / 40])).collect();
    rng.shuffle(&mut rows);
    rows.truncate(rng.between(TOKENS - 3, TOKENS - 1));
    rows.push(row(3, [0, 0]));
    rng.shuffle(&mut rows);
    let times = |rng: &mut Rng| *rng.pick(&[1, 1, 1, 1, 2, 3]);
    let start = rows.into_iter().map(|row| Line::new(row, times(rng))).collect();
    let weights = Weights { outer: vec![0, 0, 0], inner: vec![vec![1, 1]] };
    Plant { kind: Kind::Crowded, model, start, weights, separate: true }
}

fn row(place: u16, inside: [u16; 2]) -> Row {
    let mut row = [0; 1 + INNER];
    row[0] = place;
    row[1..=2].copy_from_slice(&inside);
    row
}

/// Nearly as many likes as can be held, in one line or in some, and moves of up to 255 of them.
pub fn alike(rng: &mut Rng) -> Plant {
    let model = changing(
        rng,
        &[
            ([0, 0, 0], [1, 0, 0]),
            ([1, 0, 0], [0, 1, 0]),
            ([0, 1, 0], [1, 0, 0]),
            ([2, 0, 0], [3, 0, 0]),
            ([0, 0, 1], [0, 0, 2]),
            ([0, 0, 2], [0, 0, 1]),
            ([0, 0, 3], [0, 0, 255]),
            ([200, 0, 255], [201, 1, 250]),
        ],
    );
    let mut start = Vec::new();
    for (place, inside) in [(1, [0, 0]), (1, [1, 0]), (2, [0, 0]), (2, [0, 1]), (3, [0, 0])] {
        let near = rng.between(0, 3) as u64;
        let likes = *rng.pick(&[LIKES, LIKES - near, LIKES - 252 - near, LIKES / 2, 3]);
        start.extend(lines_of(rng, row(place, inside), likes));
    }
    rng.shuffle(&mut start);
    let weights = Weights { outer: vec![0, 0, 0], inner: vec![vec![1, 1]] };
    Plant { kind: Kind::Alike, model, start, weights, separate: true }
}

/// So many likes in one line, or in a few.
fn lines_of(rng: &mut Rng, row: Row, mut likes: u64) -> Vec<Line> {
    let mut lines = Vec::new();
    while likes > 1 && lines.len() < 3 && rng.percent(40) {
        let some = rng.between(1, likes as usize - 1) as u64;
        let part = *rng.pick(&[1, likes - 1, some]);
        lines.push(Line::new(row, part));
        likes -= part;
    }
    lines.push(Line::new(row, likes));
    lines
}

/// A move's pre and post, and which transition of each net goes with it.
type Shape = ([u8; 5], [u8; 5], [Option<usize>; 2]);

/// Halls of two nets and a black one, with moves that give none of one net, of both, and of neither. The black tokens
/// that such a move gives weigh what has left.
pub fn leaving(rng: &mut Rng) -> Plant {
    let types = vec![1, 2, 1, 2, 0];
    let arcs: [[u8; 2]; 4] = std::array::from_fn(|_| [rng.below(4) as u8, rng.below(2) as u8]);
    let total = |arcs: [u8; 2]| arcs.iter().sum::<u8>();
    let emptied = |pre: [u8; 2]| Transition { pre: pre.to_vec(), post: vec![0, 0] };
    let net = |pres: [[u8; 2]; 2]| {
        let moved = Transition { pre: vec![1, 0], post: vec![0, 1] };
        let transitions = pres.into_iter().map(emptied).chain([moved]).collect();
        ObjectNet { places: 2, transitions }
    };
    let nets = vec![net([arcs[0], arcs[1]]), net([arcs[2], arcs[3]])];
    let shapes: [Shape; 7] = [
        ([1, 0, 0, 0, 0], [0, 0, 0, 0, 1], [Some(0), None]),
        ([1, 0, 1, 0, 0], [0, 0, 0, 0, 2], [Some(1), None]),
        ([1, 1, 0, 0, 0], [0, 0, 0, 1, 1], [Some(0), Some(2)]),
        ([1, 1, 0, 0, 0], [0, 0, 1, 0, 1], [Some(2), Some(0)]),
        ([1, 1, 0, 0, 0], [0, 0, 0, 0, 2], [Some(1), Some(1)]),
        ([1, 1, 0, 0, 0], [0, 0, 1, 1, 0], [Some(2), Some(2)]),
        ([0, 0, 1, 1, 0], [1, 1, 0, 0, 0], [None, Some(2)]),
    ];
    let header = *rng.pick(&Header::ALL);
    let mut model = Model { header, types, moves: Vec::new(), nets, events: Vec::new() };
    for (at, (pre, mut post, counted)) in shapes.into_iter().enumerate() {
        for (net, transition) in counted.iter().enumerate() {
            let emptied = transition.filter(|&transition| transition < 2);
            post[4] += emptied.map_or(0, |transition| total(arcs[net * 2 + transition]));
        }
        model.moves.push(Transition { pre: pre.to_vec(), post: post.to_vec() });
        let sync = counted.map(|one| (0..3).map(|transition| u8::from(one == Some(transition))).collect());
        let event = model.event(Mode::Move(at), sync.to_vec());
        model.events.push(event);
    }
    let lines = rng.between(1, 12);
    let start = (0..lines).map(|_| Line::new(scrap(rng, &arcs), *rng.pick(&[1, 1, 1, 2, 3]))).collect();
    let weights = Weights { outer: vec![20; 5], inner: vec![vec![20; 2]; 2] };
    Plant { kind: Kind::Leaving, model, start, weights, separate: false }
}

/// A rack with just what a transition takes, or with a token more or less, or empty.
fn scrap(rng: &mut Rng, arcs: &[[u8; 2]; 4]) -> Row {
    let mut row = [0; 1 + INNER];
    let net = rng.below(2);
    row[0] = (net + 1 + 2 * rng.below(2)) as u16;
    let pre = arcs[net * 2 + rng.below(2)];
    for (count, arc) in row[1..].iter_mut().zip(pre) {
        *count = u16::from(arc) * u16::from(rng.percent(90));
    }
    let at = 1 + rng.below(2);
    row[at] = match rng.below(6) {
        0 => row[at] + 1,
        1 => row[at].saturating_sub(1),
        _ => row[at],
    };
    row
}

/// Halls of two nets with as many inner places, a black one, and a net without halls. Racks of each net idle, or are alone,
/// in some ways; the halls do not weigh alike.
pub fn idling(rng: &mut Rng) -> Plant {
    let mut types = vec![1, 1, 2, 2, 0];
    types.extend((0..rng.below(3)).map(|_| 1));
    rng.shuffle(&mut types);
    let stays = |place: usize| {
        let one: Vec<u8> = (0..types.len()).map(|other| u8::from(other == place)).collect();
        Transition { pre: one.clone(), post: one }
    };
    let moves = (0..2).map(|_| stays(rng.below(types.len()))).collect();
    let arcs = [([1, 0], [0, 1]), ([0, 2], [2, 0]), ([0, 0], [0, 0])];
    let transitions = arcs.map(|(pre, post)| Transition { pre: pre.to_vec(), post: post.to_vec() }).to_vec();
    let nets = vec![ObjectNet { places: 2, transitions }; 3];
    let mut model = Model { header: *rng.pick(&Header::ALL), types, moves, nets, events: Vec::new() };
    add_idling(rng, &mut model);
    let lines = rng.between(1, 12);
    let start = start(rng, &model, Kind::Idling, lines);
    let outer = (0..model.places()).map(|_| rng.between(1, 5) as i64).collect();
    let weights = Weights { outer, inner: vec![vec![1; 2]; 3] };
    Plant { kind: Kind::Idling, model, start, weights, separate: true }
}

/// Adds like events for some counts, a repeated one, and moves; now and then an idle one is missing.
fn add_idling(rng: &mut Rng, model: &mut Model) {
    let no_counts = vec![vec![0; 3]; 3];
    for _ in 0..rng.between(1, 4) {
        let net = rng.below(3);
        let mut sync = no_counts.clone();
        sync[net] = rng.pick(&[vec![1, 0, 0], vec![0, 1, 0], vec![0, 0, 1], vec![1, 0, 1]]).clone();
        let halls = (0..model.places()).filter(|&place| model.net_of(place) == Some(net));
        let modes = match model.header {
            Header::One => halls.map(Mode::Idle).collect(),
            Header::Two => vec![Mode::Alone(net)],
        };
        model
            .events
            .extend(modes.into_iter().map(|mode| model.event(mode, sync.clone())).collect::<Vec<_>>());
    }
    if let Some(event) = rng.pick_some_of(model.events.clone()).filter(|_| rng.percent(30)) {
        model.events.push(event);
    }
    model.events.extend([0, 1].map(|index| model.event(Mode::Move(index), no_counts.clone())));
    rng.shuffle(&mut model.events);
    if rng.percent(40) {
        remove_idle(rng, model);
    }
}

/// One hall whose sum is at the edge of covering, by its racks or by their insides.
pub fn edge(rng: &mut Rng) -> Plant {
    let by_racks = rng.percent(50);
    let outer = if by_racks { *rng.pick(&[1, 2, 3, 7]) } else { *rng.pick(&[997, 998, 1_000]) };
    let inner = if by_racks { 1 } else { *rng.pick(&[1, 2, 3]) };
    let bound = if by_racks { RACKS as i64 * outer } else { COUNT as i64 * inner };
    let step = if by_racks { outer } else { inner };
    let sum = bound + *rng.pick(&[-1, 0, step - 1, step, step + 1]);
    let racks = rng.between(1, (sum / outer) as usize);
    let tokens = (sum - racks as i64 * outer) / inner;
    let mut start: Vec<Line> = Vec::new();
    let fold = racks > LINES || rng.percent(50);
    for count in shares(tokens as usize, racks) {
        let like = |line: &&mut Line| line.row[1] == count;
        match start.last_mut().filter(like).filter(|_| fold) {
            Some(line) => line.times += 1,
            None => start.push(Line::new(row(1, [count, 0]), 1)),
        }
    }
    rng.shuffle(&mut start);
    let nets = vec![ObjectNet { places: 1, transitions: vec![Transition { pre: vec![1], post: vec![1] }] }];
    let moves = vec![Transition { pre: vec![1], post: vec![1] }];
    let header = *rng.pick(&Header::ALL);
    let mut model = Model { header, types: vec![1], moves, nets, events: Vec::new() };
    let idling = if header == Header::One { Mode::Idle(0) } else { Mode::Alone(0) };
    model.events = [Mode::Move(0), idling].map(|mode| model.event(mode, vec![vec![1]])).to_vec();
    let weights = Weights { outer: vec![outer], inner: vec![vec![inner]] };
    Plant { kind: Kind::Edge, model, start, weights, separate: true }
}

/// Fills the first racks to the limit of a count.
fn shares(mut tokens: usize, racks: usize) -> Vec<u16> {
    let share = |_| {
        let count = tokens.min(COUNT);
        tokens -= count;
        count as u16
    };
    (0..racks).map(share).collect()
}
