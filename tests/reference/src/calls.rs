//! The calls of the C header as plain functions over held models and markings, with the header's answers.

use crate::broken::{broken, note_read, Broken};
use crate::cause::{Refusal, BUFFER, HELD};
use crate::convert;
use crate::held::{hold_marking, hold_model, marking_of, model_of, HeldMarking, HeldModel};
use crate::marking::{self, Marking};
use crate::model::{self, within_slice, Header, Model, EVENTS};
use crate::weights::Passed;
use crate::{listing, spread, step, weights};

/// A number of the table, what stands beside it, and the column.
#[repr(C)]
#[derive(Clone, Copy, Debug, Default, PartialEq, Eq)]
pub struct Answer {
    pub number: usize,
    pub beside: usize,
    pub column: usize,
}

/// A step: the bytes that it used; 0 where it was turned down.
#[repr(C)]
#[derive(Clone, Copy, Debug, Default, PartialEq, Eq)]
pub struct Stepped {
    pub number: usize,
    pub beside: usize,
    pub column: usize,
    pub used: usize,
}

/// A run: the steps fired before the stop, and the byte of the trace where it stopped.
#[repr(C)]
#[derive(Clone, Copy, Debug, Default, PartialEq, Eq)]
pub struct Ran {
    pub number: usize,
    pub beside: usize,
    pub column: usize,
    pub fired: usize,
    pub at: usize,
}

/// A text written: its bytes; 0 where none was.
#[repr(C)]
#[derive(Clone, Copy, Debug, Default, PartialEq, Eq)]
pub struct Written {
    pub number: usize,
    pub beside: usize,
    pub column: usize,
    pub bytes: usize,
}

/// Weights checked: the sum as its part above 0 and its part below 0, and cover 1 or 0.
#[repr(C)]
#[derive(Clone, Copy, Debug, Default, PartialEq, Eq)]
pub struct Weighed {
    pub number: usize,
    pub beside: usize,
    pub column: usize,
    pub above: u64,
    pub below: u64,
    pub cover: usize,
}

/// The spread.
#[repr(C)]
#[derive(Clone, Copy, Debug, Default, PartialEq, Eq)]
pub struct Spread {
    pub number: usize,
    pub beside: usize,
    pub column: usize,
    pub ways: u64,
}

/// A model converted: the held model of header 2, and the new number of each event, 0 past them. A refused conversion gives
/// the empty model and no number.
#[repr(C)]
#[derive(Clone, Debug, PartialEq, Eq)]
pub struct Converted {
    pub answer: Answer,
    pub model: HeldModel,
    pub numbers: [u8; EVENTS],
}

// It has no padding either.
const _: () = assert!(size_of::<Converted>() == 3 * size_of::<usize>() + size_of::<HeldModel>() + EVENTS);

impl Answer {
    fn of<T>(result: &Result<T, Refusal>) -> Answer {
        match result.as_ref().err() {
            None => Answer::default(),
            Some(&Refusal { number, beside, column }) => Answer { number, beside, column },
        }
    }
}

/// A model reading: the answer, the held model and its start. A refused one gives the empty model and no
/// net-token.
pub struct ModelRead {
    pub answer: Answer,
    pub model: HeldModel,
    pub start: HeldMarking,
}

/// A marking reading: the answer, and the held marking; no net-token where it was refused.
pub struct MarkingRead {
    pub answer: Answer,
    pub marking: HeldMarking,
}

pub fn read_model(text: &[u8]) -> ModelRead {
    note_read();
    let read = model::read_model(text);
    let answer = Answer::of(&read);
    match read {
        Ok((model, start)) => ModelRead { answer, model: hold_model(&model), start: hold_marking(&start) },
        Err(_) => ModelRead { answer, model: HeldModel::empty(), start: HeldMarking::empty() },
    }
}

pub fn read_marking(model: &HeldModel, text: &[u8]) -> MarkingRead {
    let read = judged_model(model, text).and_then(|model| marking::read_marking(&model, text));
    let marking = read.as_ref().map_or_else(|_| HeldMarking::empty(), hold_marking);
    MarkingRead { answer: Answer::of(&read), marking }
}

/// Whether some accepted reading gives this held model.
pub fn test_model(model: &HeldModel) -> bool {
    right_model(model).is_some()
}

/// Whether some accepted reading gives this held model together with this held marking.
pub fn test_marking(model: &HeldModel, marking: &HeldMarking) -> bool {
    judged_marking(model, marking, &[]).is_ok()
}

pub fn write_marking(model: &HeldModel, marking: &HeldMarking, out: &mut [u8]) -> Written {
    match judged_marking(model, marking, &[]) {
        Ok((model, marking)) => lend_out(&marking::write_marking(&model, &marking), out),
        Err(Refusal { number, beside, column }) => Written { number, beside, column, bytes: 0 },
    }
}

pub fn check_weights(model: &HeldModel, marking: &HeldMarking, text: &[u8]) -> Weighed {
    let checked = judged_marking(model, marking, text)
        .and_then(|(model, marking)| weights::check_weights(&model, &marking, text));
    let Answer { number, beside, column } = Answer::of(&checked);
    let Passed { sum, cover } = checked.unwrap_or(Passed { sum: 0, cover: false });
    let above = sum.max(0).unsigned_abs();
    let below = sum.min(0).unsigned_abs();
    Weighed { number, beside, column, above, below, cover: usize::from(cover) }
}

pub fn step(held_model: &HeldModel, held: &mut HeldMarking, text: &[u8]) -> Stepped {
    let stepped = judged_marking(held_model, held, text).and_then(|(model, mut marking)| {
        let stepped = step::step(&model, &mut marking, text);
        if stepped.is_ok() || broken(Broken::RefusedStepMoves) {
            hold_again(held, &marking);
        }
        stepped
    });
    let Answer { number, mut beside, column } = Answer::of(&stepped);
    let beside_a_line = stepped.is_err_and(|refusal| refusal.beside_a_line());
    if beside_a_line && broken(Broken::LinesFromZero) {
        beside -= 1;
    }
    let used = match stepped {
        Ok(_) if broken(Broken::UsedIsTheText) => text.len(),
        Err(_) if broken(Broken::UsedWhenRefused) => text.len(),
        _ => stepped.unwrap_or(0),
    };
    Stepped { number, beside, column, used }
}

pub fn run(held_model: &HeldModel, held: &mut HeldMarking, text: &[u8]) -> Ran {
    let (model, mut marking) = match judged_marking(held_model, held, text) {
        Ok(parts) => parts,
        Err(Refusal { number, beside, column }) => return Ran { number, beside, column, fired: 0, at: 0 },
    };
    let ran = step::run(&model, &mut marking, text);
    hold_again(held, &marking);
    let Answer { number, beside, column } = Answer::of(&ran.stop);
    let column = if broken(Broken::RunWithoutColumn) { 0 } else { column };
    Ran { number, beside, column, fired: ran.fired, at: ran.at }
}

pub fn ways(tokens: usize, racks: usize) -> Spread {
    let ways = spread::ways(tokens, racks);
    let Answer { number, beside, column } = Answer::of(&ways);
    Spread { number, beside, column, ways: ways.unwrap_or(0) }
}

pub fn listing(model: &[u8], weights: &[u8], trace: &[u8], out: &mut [u8]) -> Written {
    lend_out(&listing::listing(model, weights, trace), out)
}

pub fn convert(held: &HeldModel) -> Box<Converted> {
    let converted = judged_model(held, &[]).and_then(|model| convert::convert(&model));
    let answer = Answer::of(&converted);
    let mut answered = Box::new(Converted { answer, model: HeldModel::empty(), numbers: [0; EVENTS] });
    match converted {
        Ok(convert::Converted { model, numbers }) => {
            answered.model = hold_model(&model);
            answered.numbers.iter_mut().zip(numbers).for_each(|(cell, number)| *cell = number as u8);
        }
        Err(_) if broken(Broken::RefusedConverted) => answered.model = held.clone(),
        Err(_) => {}
    }
    answered
}

/// Judges a text's length, then the held model.
fn judged_model(model: &HeldModel, text: &[u8]) -> Result<Model, Refusal> {
    if !broken(Broken::HeldBeforeSlice) {
        within_slice(text)?;
    }
    right_model(model).ok_or(Refusal::new(HELD, 0))
}

/// Judges a text's length, then the held model and marking.
fn judged_marking(model: &HeldModel, held: &HeldMarking, text: &[u8]) -> Result<(Model, Marking), Refusal> {
    let model = judged_model(model, text)?;
    let marking = marking_of(&model, held).ok_or(Refusal::new(HELD, 0))?;
    Ok((model, marking))
}

fn right_model(held: &HeldModel) -> Option<Model> {
    if broken(Broken::ModelsAllWrong) {
        return None;
    }
    if broken(Broken::ModelsAllRight) {
        return model_of(held).or(Some(model_of_one_place()));
    }
    model_of(held)
}

/// Broken: what stands in for a wrong model.
fn model_of_one_place() -> Model {
    Model { header: Header::One, types: vec![0], moves: Vec::new(), nets: Vec::new(), events: Vec::new() }
}

/// Holds the marking after a step.
fn hold_again(held: &mut HeldMarking, marking: &Marking) {
    let after = hold_marking(marking);
    if broken(Broken::OldRacksKept) {
        held.len = after.len;
        held.entries[..after.len].copy_from_slice(&after.entries[..after.len]);
    } else {
        *held = after;
    }
}

/// Writes a text to the lent bytes if it fits.
fn lend_out(text: &[u8], out: &mut [u8]) -> Written {
    let needed = text.len();
    if needed > out.len() {
        if broken(Broken::WrittenInPart) {
            out.copy_from_slice(&text[..out.len()]);
        }
        let beside = needed - usize::from(broken(Broken::NeededOneFewer));
        return Written { number: BUFFER, beside, ..Written::default() };
    }
    out[..needed].copy_from_slice(text);
    if broken(Broken::RoomAfterTextCleared) {
        out[needed..].fill(0);
    }
    Written { bytes: needed, ..Written::default() }
}
