//! Both engines on the same inputs, in one run: a table of ratios, proved engine to separate engine, and how the proved
//! engine's times grow. A ratio is that of the medians of many rounds, in which the two engines take turns.

mod measure;
mod plants;

use measure::{median, Row};
use plants::Plant;
use reference::engine::{Engine, Reference};
use reference::ffi::Proved;
use reference::held::{HeldMarking, HeldModel};
use reference::spread::{MOST_RACKS, MOST_TOKENS};
use std::hint::black_box;

/// A plant as it was read.
struct Read {
    model: HeldModel,
    start: HeldMarking,
}

fn read(plant: &Plant) -> Read {
    let mut read = Read {
        model: HeldModel::empty(),
        start: HeldMarking::empty(),
    };
    let answer = Proved.read_model(&plant.model, &mut read.model, &mut read.start);
    assert_eq!(answer.number, 0, "{}: the model is read", plant.name);
    let weighed = Proved.check_weights(&read.model, &read.start, &plant.weights);
    assert_eq!(weighed.number, 0, "{}: the weights pass", plant.name);
    read
}

fn read_model(engine: &dyn Engine, plant: &Plant) {
    let mut model = HeldModel::empty();
    let mut start = HeldMarking::empty();
    black_box(engine.read_model(black_box(&plant.model), &mut model, &mut start));
    black_box((&model, &start));
}

fn check_weights(engine: &dyn Engine, plant: &Plant, at: &Read) {
    black_box(engine.check_weights(&at.model, &at.start, black_box(&plant.weights)));
}

fn run(engine: &dyn Engine, plant: &Plant, at: &Read) -> usize {
    let mut marking = at.start.clone();
    let ran = engine.run(&at.model, &mut marking, black_box(&plant.trace));
    black_box(&marking);
    ran.fired
}

fn step(engine: &dyn Engine, text: &[u8], at: &Read) -> usize {
    let mut marking = at.start.clone();
    let stepped = black_box(engine.step(&at.model, &mut marking, black_box(text)));
    black_box(&marking);
    stepped.number
}

fn convert(engine: &dyn Engine, at: &Read) {
    black_box(engine.convert(black_box(&at.model)));
}

fn write_marking(engine: &dyn Engine, at: &Read, out: &mut [u8]) {
    black_box(engine.write_marking(&at.model, &at.start, out));
    black_box(&out);
}

/// Every spread in range, a call each.
fn ways(engine: &dyn Engine) {
    for tokens in 0..=MOST_TOKENS {
        for racks in 0..=MOST_RACKS {
            black_box(engine.ways(black_box(tokens), black_box(racks)));
        }
    }
}

/// The two engines' times for a call, and their ratio.
fn row(what: &str, on: &'static str, times: usize, call: impl Fn(&dyn Engine)) -> Row {
    let reference = Reference::new();
    measure::row(what, on, times, || call(&Proved), || call(&reference))
}

fn calls(plant: &Plant) -> Vec<Row> {
    let at = read(plant);
    let out = std::cell::RefCell::new(vec![0u8; 65_536]);
    let fired = (run(&Proved, plant, &at), run(&Reference::new(), plant, &at));
    assert_eq!(fired, (plant.steps, plant.steps), "{}: every step fires", plant.name);
    let mut rows = vec![
        row("read_model", plant.name, 10, |e| read_model(e, plant)),
        row("check_weights", plant.name, 10, |e| check_weights(e, plant, &at)),
        row("convert", plant.name, 10, |e| convert(e, &at)),
        row("write_marking", plant.name, 10, |e| {
            write_marking(e, &at, &mut out.borrow_mut())
        }),
    ];
    if plant.steps > 0 {
        rows.push(row("step", plant.name, 20, |e| {
            step(e, plant.first_step(), &at);
        }));
        rows.push(row("run", plant.name, 1, |e| {
            run(e, plant, &at);
        }));
    }
    rows
}

/// A step that takes more likes than any arc has; it is turned down.
fn turned_down() -> Row {
    let (plant, text) = plants::all_at_once();
    let at = read(&plant);
    assert_eq!(step(&Proved, &text, &at), 8, "{}: turned down", plant.name);
    row("step, refused", plant.name, 20, |e| {
        step(e, &text, &at);
    })
}

/// How the proved engine's time for one step of a run grows.
fn growth(plants: &[Plant]) {
    println!("\ntime of one step of a run, proved engine");
    for plant in plants {
        let at = read(plant);
        let time = median(|| {
            run(&Proved, plant, &at);
        });
        println!("{:34} {:8.2} µs", plant.name, time * 1e6 / plant.steps as f64);
    }
}

fn main() {
    println!(
        "{:16}{:36}{:>12}{:>12}{:>8}",
        "call", "on", "proved µs", "separate µs", "ratio"
    );
    for plant in plants::measured() {
        println!(
            "{}: a model of {} bytes, {} steps",
            plant.name,
            plant.model.len(),
            plant.steps
        );
        for row in calls(&plant) {
            println!("{row}");
        }
    }
    println!("{}", turned_down());
    println!("{}", row("ways", "each of the 544 spreads", 10, ways));
    growth(&plants::growing());
}
