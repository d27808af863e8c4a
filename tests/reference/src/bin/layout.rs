//! The sizes and offsets of the structs that cross the C boundary, and a model as the reference reads it. The C program
//! of the same name prints the same lines from the header and the proved engine's library.

use reference::calls::{read_model, Converted, Spread, Weighed, Written};
use reference::ffi::{MarkingRead, ModelRead, RunDone, StepDone};
use reference::held::{HeldEntry, HeldEvent, HeldMarking, HeldModel, HeldObjectNet, HeldToken};
use std::mem::{offset_of, size_of};

macro_rules! size {
    ($name:literal, $t:ty) => {
        println!("{} {}", $name, size_of::<$t>())
    };
}

/// A field by the header's names; its size is that of a value of its type.
macro_rules! field {
    ($name:literal, $t:ty, $($f:ident).+, $u:ty) => {
        println!("{} {} {}", $name, offset_of!($t, $($f).+), size_of::<$u>())
    };
}

fn structs() {
    size!("fp_object_net", HeldObjectNet);
    field!("fp_object_net.places", HeldObjectNet, places, usize);
    field!("fp_object_net.transitions", HeldObjectNet, transitions, usize);
    field!("fp_object_net.pre", HeldObjectNet, pre, [u8; 1024]);
    field!("fp_object_net.post", HeldObjectNet, post, [u8; 1024]);
    size!("fp_event", HeldEvent);
    field!("fp_event.kind", HeldEvent, kind, u8);
    field!("fp_event.index", HeldEvent, index, u8);
    field!("fp_event.sync", HeldEvent, sync, [u8; 256]);
    size!("fp_model", HeldModel);
    field!("fp_model.header", HeldModel, header, usize);
    field!("fp_model.nets", HeldModel, nets, usize);
    field!("fp_model.places", HeldModel, places, usize);
    field!("fp_model.moves", HeldModel, moves, usize);
    field!("fp_model.listed", HeldModel, listed, usize);
    field!("fp_model.types", HeldModel, types, [u8; 32]);
    field!("fp_model.pre", HeldModel, pre, [u8; 1024]);
    field!("fp_model.post", HeldModel, post, [u8; 1024]);
    field!("fp_model.objects", HeldModel, objects, [HeldObjectNet; 8]);
    field!("fp_model.events", HeldModel, events, [HeldEvent; 64]);
    size!("fp_token", HeldToken);
    field!("fp_token.place", HeldToken, place, u16);
    field!("fp_token.counts", HeldToken, counts, [u16; 32]);
    size!("fp_entry", HeldEntry);
    field!("fp_entry.token", HeldEntry, token, HeldToken);
    field!("fp_entry.times", HeldEntry, times, u16);
    size!("fp_marking", HeldMarking);
    field!("fp_marking.len", HeldMarking, len, usize);
    field!("fp_marking.entries", HeldMarking, entries, [HeldEntry; 256]);
}

fn answers() {
    size!("fp_read_model_answer", ModelRead);
    field!("fp_read_model_answer.number", ModelRead, answer.number, usize);
    field!("fp_read_model_answer.beside", ModelRead, answer.beside, usize);
    field!("fp_read_model_answer.column", ModelRead, answer.column, usize);
    field!("fp_read_model_answer.model", ModelRead, model, HeldModel);
    field!("fp_read_model_answer.start", ModelRead, start, HeldMarking);
    size!("fp_read_marking_answer", MarkingRead);
    field!("fp_read_marking_answer.column", MarkingRead, answer.column, usize);
    field!("fp_read_marking_answer.marking", MarkingRead, marking, HeldMarking);
    size!("fp_written", Written);
    field!("fp_written.column", Written, column, usize);
    field!("fp_written.bytes", Written, bytes, usize);
    size!("fp_weighed", Weighed);
    field!("fp_weighed.column", Weighed, column, usize);
    field!("fp_weighed.above", Weighed, above, u64);
    field!("fp_weighed.below", Weighed, below, u64);
    field!("fp_weighed.cover", Weighed, cover, usize);
    size!("fp_stepped", StepDone);
    field!("fp_stepped.column", StepDone, step.column, usize);
    field!("fp_stepped.used", StepDone, step.used, usize);
    field!("fp_stepped.marking", StepDone, marking, HeldMarking);
    size!("fp_ran", RunDone);
    field!("fp_ran.column", RunDone, run.column, usize);
    field!("fp_ran.fired", RunDone, run.fired, usize);
    field!("fp_ran.at", RunDone, run.at, usize);
    field!("fp_ran.marking", RunDone, marking, HeldMarking);
    size!("fp_spread", Spread);
    field!("fp_spread.column", Spread, column, usize);
    field!("fp_spread.ways", Spread, ways, u64);
    size!("fp_converted", Converted);
    field!("fp_converted.number", Converted, answer.number, usize);
    field!("fp_converted.beside", Converted, answer.beside, usize);
    field!("fp_converted.column", Converted, answer.column, usize);
    field!("fp_converted.model", Converted, model, HeldModel);
    field!("fp_converted.numbers", Converted, numbers, [u8; 64]);
}

/// Each part of the model by a sum in which every place counts differently.
fn mixed<T: Copy + Into<usize>>(v: &[T]) -> usize {
    v.iter().fold(0, |sum: usize, &number| sum.wrapping_mul(31).wrapping_add(number.into()))
}

fn model(path: &str) {
    let text = std::fs::read(path).unwrap_or_default();
    let read = read_model(&text);
    let m = &read.model;
    println!("read {} {} {}", read.answer.number, read.answer.beside, read.answer.column);
    println!("model {} {} {} {} {}", m.header, m.nets, m.places, m.moves, m.listed);
    println!("types {} pre {} post {}", mixed(&m.types), mixed(&m.pre), mixed(&m.post));
    for net in &m.objects {
        println!("net {} {} {} {}", net.places, net.transitions, mixed(&net.pre), mixed(&net.post));
    }
    for event in &m.events {
        println!("event {} {} {}", event.kind, event.index, mixed(&event.sync));
    }
    println!("start {}", read.start.len);
    for HeldEntry { token, times } in &read.start.entries {
        println!("entry {} {} {times}", token.place, mixed(&token.counts));
    }
}

fn main() {
    structs();
    answers();
    if let Some(path) = std::env::args().nth(1) {
        model(&path);
    }
}
