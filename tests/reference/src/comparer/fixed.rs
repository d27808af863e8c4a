//! Calls that need no made-up plant.

use crate::generate::alone::{
    alone_steps, held_otherwise, idlers, with_first_line, with_line, ALONE, ALONE_WEIGHTS, EVENT_LINES,
    HEADERS,
};
use crate::generate::counted;
use crate::generate::limits;
use crate::generate::line_damage::damaged_everywhere;
use crate::held::{HeldMarking, HeldModel};
use crate::listing::FILE;
use crate::model::SLICE;

use super::whole_list::WholeList;
use super::{Compared, Comparer};

/// Every spread, accepted texts of exact lengths, damage at every byte, racks that are alone, and likes.
pub fn fixed(comparer: &mut Comparer) -> Compared {
    for tokens in 0..=33 {
        for racks in 0..=18 {
            comparer.ways(tokens, racks)?;
        }
    }
    let weights = limits::weights_of_length();
    for length in [FILE - 1, FILE, FILE + 1] {
        let model = limits::model_of_length(length);
        comparer.read_model(&model)?;
        comparer.listing([&model, &weights, b"run=1\n"], 1 << 17)?;
    }
    let plant = limits::round_trip();
    let Some((model, start)) = comparer.read_model(&plant)? else {
        return Ok(());
    };
    for length in [FILE - 1, FILE, FILE + 1] {
        let trace = limits::trace_of_length(length);
        comparer.run(&model, &start, &trace)?;
        comparer.listing([&plant, b"inv=1\nouter=1\n", &trace], 1 << 17)?;
    }
    for length in [SLICE, SLICE + 1] {
        comparer.run(&model, &start, &limits::trace_of_length(length))?;
    }
    long_lines(comparer, &model, &start)?;
    full_halls(comparer)?;
    every_byte(comparer)?;
    alone(comparer)?;
    likes(comparer)
}

/// Lines as long as a slice, unended, ended, and at fault in the last byte.
fn long_lines(comparer: &mut Comparer, model: &HeldModel, start: &HeldMarking) -> Compared {
    for behind in [&b""[..], b"\n", b",", b"x\n"] {
        let line = |key: &str| {
            let mut line = limits::padded(key.as_bytes(), SLICE - behind.len(), b'1');
            line.extend_from_slice(behind);
            line
        };
        comparer.step(model, &mut start.clone(), &line("fire="))?;
        comparer.run(model, start, &line("run=1\nfire="))?;
        comparer.read_marking(model, &line("start="))?;
        comparer.check_weights(model, start, &line("inv=1\nouter=-"))?;
        comparer.read_model(&line("eos=1\nnets="))?;
    }
    Ok(())
}

/// Sums at the edge of covering, and steps for which there is no room.
fn full_halls(comparer: &mut Comparer) -> Compared {
    if let Some((model, start)) = comparer.read_model(&limits::weighed_hall())? {
        for weights in limits::HALL_WEIGHTS {
            comparer.check_weights(&model, &start, weights)?;
        }
    }
    if let Some((model, start)) = comparer.read_model(&limits::full_hall())? {
        for step in limits::FULL_STEPS {
            comparer.step(&model, &mut start.clone(), step)?;
        }
    }
    Ok(())
}

/// The texts of a small plant, damaged at every byte.
fn every_byte(comparer: &mut Comparer) -> Compared {
    let Some((model, start)) = comparer.read_model(limits::EVERY_LINE)? else {
        return Ok(());
    };
    for text in damaged_everywhere(limits::EVERY_LINE).chain(damaged_everywhere(limits::EVERY_ALONE)) {
        comparer.read_model(&text)?;
    }
    for text in damaged_everywhere(limits::EVERY_WEIGHT) {
        comparer.check_weights(&model, &start, &text)?;
    }
    let first = limits::EVERY_LINE.windows(6).position(|bytes| bytes == b"start=").unwrap_or_default();
    for text in damaged_everywhere(&limits::EVERY_LINE[first..]) {
        comparer.read_marking(&model, &text)?;
    }
    for text in damaged_everywhere(limits::EVERY_STEP) {
        comparer.step(&model, &mut start.clone(), &text)?;
        comparer.run(&model, &start, &[b"run=1\n", &text[..]].concat())?;
    }
    for text in damaged_everywhere(b"run=1\n") {
        comparer.run(&model, &start, &text)?;
    }
    Ok(())
}

/// Headers, events and held models that are right and wrong, conversions, and steps and weights of racks that are alone.
pub fn alone(comparer: &mut Comparer) -> Compared {
    headers_and_kinds(comparer)?;
    event_lines(comparer)?;
    alone_racks(comparer)
}

fn headers_and_kinds(comparer: &mut Comparer) -> Compared {
    for text in [ALONE.to_vec(), limits::EVERY_LINE.to_vec()].into_iter().chain(idlers()) {
        for header in HEADERS {
            comparer.read_model(&with_first_line(&text, header))?;
        }
        let Some((model, start)) = comparer.read_model(&text)? else {
            continue;
        };
        comparer.convert(&model)?;
        for other in held_otherwise(&model) {
            comparer.test_model(&other)?;
            comparer.test_marking(&other, &start)?;
            comparer.convert(&other)?;
        }
    }
    comparer.convert(&HeldModel::empty())?;
    Ok(())
}

/// The first event of each key put otherwise, under either header and without nets.
fn event_lines(comparer: &mut Comparer) -> Compared {
    let no_net = with_first_line(&limits::round_trip(), "eos=2\n");
    let texts = [(ALONE, "alone="), (ALONE, "event="), (limits::EVERY_LINE, "idle="), (&no_net, "event=")];
    for (text, key) in texts {
        for line in EVENT_LINES {
            comparer.read_model(&with_line(text, key, line))?;
        }
    }
    Ok(())
}

fn alone_racks(comparer: &mut Comparer) -> Compared {
    let Some((model, start)) = comparer.read_model(ALONE)? else {
        return Ok(());
    };
    for weights in ALONE_WEIGHTS {
        comparer.check_weights(&model, &start, weights)?;
    }
    for step in alone_steps() {
        comparer.step(&model, &mut start.clone(), &step)?;
        comparer.run(&model, &start, &[b"run=1\n", &step[..], &step].concat())?;
    }
    Ok(())
}

/// Likes: in starts and steps, in held markings, weighed, and in a list of step calls.
pub fn likes(comparer: &mut Comparer) -> Compared {
    starts(comparer)?;
    for start in [counted::full_of_likes(), counted::full_of_unlike(), counted::few()] {
        steps_on(comparer, &counted::with_start(&start))?;
    }
    for (model, weights) in counted::weighed() {
        let Some((held, start)) = comparer.read_model(&model)? else {
            continue;
        };
        for weights in weights {
            comparer.check_weights(&held, &start, &weights)?;
            comparer.listing([&model, &weights, b"run=1\n"], 1 << 17)?;
        }
    }
    let [model, weights] = counted::COVERED;
    comparer.whole_list(&WholeList { model, weights, steps: &counted::listed() })
}

/// Starts of likes, read with the model and alone, and written again.
fn starts(comparer: &mut Comparer) -> Compared {
    let Some((model, _)) = comparer.read_model(&counted::with_start(b"start=0\n"))? else {
        return Ok(());
    };
    for text in counted::starts() {
        comparer.read_marking(&model, &text)?;
        let whole = counted::with_start(&text);
        comparer.listing([&whole, b"inv=1\nouter=0,0,0\ninner=0,0\n", b"run=1\n"], 1 << 17)?;
        if let Some((model, start)) = comparer.read_model(&whole)? {
            comparer.write_marking(&model, &start, 1 << 17)?;
            held_markings(comparer, &model, &start)?;
        }
    }
    Ok(())
}

/// A held marking, and what comes of it by one change; each is tested, and lent to each call.
fn held_markings(comparer: &mut Comparer, model: &HeldModel, start: &HeldMarking) -> Compared {
    for other in &counted::held_otherwise(start) {
        if comparer.test_marking(model, other)? {
            comparer.write_marking(model, other, 1 << 17)?;
            comparer.check_weights(model, other, b"inv=1\nouter=0,0,1\ninner=0,0\n")?;
        }
        comparer.step(model, &mut other.clone(), b"fire=4\ntake=0\ngive=1\ntoken=3:\n")?;
        comparer.run(model, other, b"run=1\n")?;
    }
    Ok(())
}

/// Steps on a start of likes, each by itself and in a run, and one after the other.
fn steps_on(comparer: &mut Comparer, model: &[u8]) -> Compared {
    let weights = b"inv=1\nouter=0,0,0\ninner=0,1\n";
    let Some((held, start)) = comparer.read_model(model)? else {
        return Ok(());
    };
    held_markings(comparer, &held, &start)?;
    for step in counted::steps() {
        comparer.step(&held, &mut start.clone(), &step)?;
        let trace = [b"run=1\n", &step[..], &step].concat();
        comparer.run(&held, &start, &trace)?;
        comparer.listing([model, weights, &trace], 1 << 17)?;
    }
    let mut marking = start.clone();
    for step in counted::filling().iter().cloned().chain(counted::steps()) {
        comparer.step(&held, &mut marking, &step)?;
        comparer.write_marking(&held, &marking, 1 << 17)?;
    }
    Ok(())
}
