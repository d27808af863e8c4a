//! Plants to measure on, as texts: a model, weights that pass, and a trace of which every step fires.

use std::fmt::Write;

pub struct Plant {
    pub name: &'static str,
    pub model: Vec<u8>,
    pub weights: Vec<u8>,
    pub trace: Vec<u8>,
    pub steps: usize,
}

impl Plant {
    /// The trace from its first step on.
    pub fn first_step(&self) -> &[u8] {
        &self.trace["run=1\n".len()..]
    }
}

fn list(values: impl IntoIterator<Item = usize>) -> String {
    let values: Vec<String> = values.into_iter().map(|v| v.to_string()).collect();
    values.join(",")
}

/// A vector of n places with so many at place p, from 0.
fn only(n: usize, p: usize, many: usize) -> String {
    list((0..n).map(|i| many * usize::from(i == p)))
}

/// How large a plant is. Racks go round its places; each place has as many of them at the start. Where a rack has likes, it is
/// there so many times, and each place has the same racks; so many of the likes go at once. A plant with full arcs has the largest
/// number at every arc and count, and is read and weighed only.
#[derive(Clone, Copy)]
pub struct Size {
    pub full: bool,
    pub nets: usize,
    pub places: usize,
    pub inner: usize,
    pub transitions: usize,
    pub events: usize,
    pub racks: usize,
    pub times: usize,
    pub at_once: usize,
    pub steps: usize,
}

/// What a token line ends in.
fn times(n: usize) -> String {
    if n == 1 {
        String::new()
    } else {
        format!("*{n}")
    }
}

/// The counts of rack i.
fn inside(size: &Size, i: usize) -> String {
    let i = if size.times > 1 { i / size.places } else { i };
    list((0..size.inner).map(|k| 60_000 * usize::from(size.inner == 32) + (i * 7 + k) % 5_000))
}

/// The place that racks go to from p: the next one of the same net.
fn next(size: &Size, p: usize) -> usize {
    (p + size.nets) % size.places
}

/// The two sides of the move from p.
fn sides(size: &Size, p: usize) -> (String, String) {
    if size.full {
        let all = list((0..size.places).map(|_| 255));
        return (all.clone(), all);
    }
    let arcs = |p: usize| only(size.places, p, size.at_once);
    (arcs(p), arcs(next(size, p)))
}

fn model(size: &Size) -> String {
    let Size {
        full,
        nets,
        places,
        inner,
        transitions,
        events,
        racks,
        ..
    } = *size;
    let mut s = format!(
        "eos=1\nnets={nets}\nplaces={places}\ntype={}\n",
        list((0..places).map(|p| p % nets + 1))
    );
    writeln!(s, "moves={places}").unwrap();
    for p in 0..places {
        let (pre, post) = sides(size, p);
        write!(s, "pre={pre}\npost={post}\n").unwrap();
    }
    for _ in 0..nets {
        write!(s, "inner={inner}\nsteps={transitions}\n").unwrap();
        for t in 0..transitions {
            let arcs = list((0..inner).map(|i| 254 + (i + t) % 2));
            write!(s, "pre={arcs}\npost={arcs}\n").unwrap();
        }
    }
    writeln!(s, "events={events}").unwrap();
    for e in 0..events {
        writeln!(s, "event={}", e % places + 1).unwrap();
        for _ in 0..nets {
            let count = if e < places && !full { 0 } else { 255 };
            writeln!(s, "sync={}", list((0..transitions).map(|_| count))).unwrap();
        }
    }
    writeln!(s, "start={racks}").unwrap();
    for i in 0..racks {
        writeln!(s, "token={}:{}{}", i % places + 1, inside(size, i), times(size.times)).unwrap();
    }
    s
}

fn weights(size: &Size) -> String {
    let mut s = format!("inv=1\nouter={}\n", list((0..size.places).map(|_| 1)));
    for _ in 0..size.nets {
        writeln!(s, "inner={}", list((0..size.inner).map(|_| 1))).unwrap();
    }
    s
}

/// Each rack in turn goes on to its next place, with so many of its likes.
fn trace(size: &Size) -> String {
    let mut places: Vec<usize> = (0..size.racks).map(|i| i % size.places).collect();
    let mut s = String::from("run=1\n");
    for step in 0..size.steps {
        let i = step % size.racks;
        let (p, q) = (places[i], next(size, places[i]));
        let rack = inside(size, i) + &times(size.at_once);
        write!(
            s,
            "fire={0}\ntake=1\ntoken={0}:{rack}\ngive=1\ntoken={1}:{rack}\n",
            p + 1,
            q + 1
        )
        .unwrap();
        places[i] = q;
    }
    s
}

pub fn plant(name: &'static str, size: Size) -> Plant {
    Plant {
        name,
        model: model(&size).into_bytes(),
        weights: weights(&size).into_bytes(),
        trace: trace(&size).into_bytes(),
        steps: size.steps,
    }
}

const SMALL: Size = Size {
    full: false,
    nets: 1,
    places: 2,
    inner: 2,
    transitions: 1,
    events: 2,
    racks: 16,
    times: 1,
    at_once: 1,
    steps: 10_000,
};
const TYPICAL: Size = Size {
    full: false,
    nets: 2,
    places: 8,
    inner: 25,
    transitions: 24,
    events: 32,
    racks: 40,
    times: 1,
    at_once: 1,
    steps: 3_000,
};
const MAXIMAL: Size = Size {
    full: false,
    nets: 8,
    places: 32,
    inner: 32,
    transitions: 32,
    events: 64,
    racks: 256,
    times: 1,
    at_once: 1,
    steps: 2_000,
};

/// Racks with likes, of which one goes at a time.
const COUNTED: Size = Size { times: 60_000, ..SMALL };
/// The same, and as many of the likes as an arc can have go at once.
const AT_ONCE: Size = Size {
    at_once: 255,
    ..COUNTED
};

/// The size with as many unlike racks as can be.
fn most(size: Size) -> Size {
    Size { racks: 256, ..size }
}

/// A step on that plant that takes all the likes of a rack, for which there is no arc.
pub fn all_at_once() -> (Plant, Vec<u8>) {
    let rack = inside(&AT_ONCE, 0) + &times(AT_ONCE.times);
    let step = format!("fire=1\ntake=1\ntoken=1:{rack}\ngive=1\ntoken=2:{rack}\n");
    (plant("16 racks, all of 60,000 alike", AT_ONCE), step.into_bytes())
}

pub fn measured() -> Vec<Plant> {
    vec![
        plant("small, 16 racks", SMALL),
        plant("small, 256 racks", most(SMALL)),
        plant("16 racks, 1 of 60,000 alike", COUNTED),
        plant("16 racks, 255 of 60,000 alike", AT_ONCE),
        plant("256 racks, 1 of 60,000 alike", most(COUNTED)),
        plant("256 racks, 255 of 60,000 alike", most(AT_ONCE)),
        plant("typical, 40 racks", TYPICAL),
        plant("maximal, 256 racks", MAXIMAL),
        plant(
            "maximal and full, 256 racks",
            Size {
                full: true,
                steps: 0,
                ..MAXIMAL
            },
        ),
    ]
}

pub fn growing() -> Vec<Plant> {
    vec![
        plant("16 racks", SMALL),
        plant("64 racks", Size { racks: 64, ..SMALL }),
        plant("256 racks", most(SMALL)),
        plant("16 racks, 1 of 60,000 alike", COUNTED),
        plant("16 racks, 255 of 60,000 alike", AT_ONCE),
        plant("256 racks, 1 of 60,000 alike", most(COUNTED)),
        plant("256 racks, 255 of 60,000 alike", most(AT_ONCE)),
        plant(
            "8 places, 16 racks",
            Size {
                places: 8,
                events: 8,
                ..SMALL
            },
        ),
        plant(
            "32 places, 16 racks",
            Size {
                places: 32,
                events: 32,
                steps: 5_000,
                ..SMALL
            },
        ),
        plant("2 places, 64 events, 16 racks", Size { events: 64, ..SMALL }),
        plant("8 nets of 32 places, 16 racks", Size { racks: 16, ..MAXIMAL }),
    ]
}
