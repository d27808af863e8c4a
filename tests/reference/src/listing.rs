//! The listing of the program `rackrun`.

use crate::broken::{broken, Broken};
use crate::cause::{within, Refusal};
use crate::marking::{push_marking, Marking};
use crate::model::{read_model, Model, SLICE};
use crate::step::{run, Run};
use crate::text::{push_line, push_list, push_number};
use crate::weights::{check_weights, Passed};

/// Bytes of a file that the program reads.
pub const FILE: usize = 65_536;

fn within_file(text: &[u8]) -> Result<(), Refusal> {
    let limit = if broken(Broken::FilesAsLongAsSlices) { SLICE } else { FILE };
    within(limit - usize::from(broken(Broken::FilesOneShorter)), text)
}

/// What the program prints for its three files.
pub fn listing(model: &[u8], weights: &[u8], trace: &[u8]) -> Vec<u8> {
    let mut out = Vec::new();
    let read = within_file(model).and_then(|()| read_model(model));
    push_answer(&mut out, "model", read.as_ref().err());
    let Ok((model, start)) = read else {
        return out;
    };
    let checked = within_file(weights).and_then(|()| check_weights(&model, &start, weights));
    push_answer(&mut out, "weights", checked.as_ref().err());
    match checked {
        Ok(passed) => push_run(&mut out, &model, start, passed, trace),
        Err(_) if broken(Broken::ListingGoesOn) => {
            push_run(&mut out, &model, start, Passed { sum: 0, cover: false }, trace);
        }
        Err(_) => {}
    }
    out
}

fn push_run(out: &mut Vec<u8>, model: &Model, mut marking: Marking, passed: Passed, trace: &[u8]) {
    push_sum(out, passed.sum);
    push_line(out, "cover", usize::from(passed.cover));
    let start = marking.clone();
    let Run { stop, fired, .. } = match within_file(trace) {
        Ok(()) => run(model, &mut marking, trace),
        Err(refusal) => Run { stop: Err(refusal), fired: 0, at: 0 },
    };
    push_line(out, "fired", if broken(Broken::FiredInvented) { steps_of(trace) } else { fired });
    push_answer(out, "stop", stop.as_ref().err());
    let held = if broken(Broken::HeldInvented) { start } else { marking };
    push_marking(out, model, "held", &held);
}

/// Broken: the steps that a trace holds.
fn steps_of(trace: &[u8]) -> usize {
    trace.windows(5).filter(|window| window == b"fire=").count()
}

fn push_sum(out: &mut Vec<u8>, sum: i64) {
    out.extend_from_slice(b"sum=");
    if sum < 0 {
        out.push(b'-');
    }
    push_number(out, sum.unsigned_abs() as usize);
    out.push(b'\n');
}

fn push_answer(out: &mut Vec<u8>, key: &str, refusal: Option<&Refusal>) {
    let answer = refusal.map_or([0; 3], |&Refusal { number, beside, column }| [number, beside, column]);
    let printed = if broken(Broken::ListingWithoutColumns) { 2 } else { 3 };
    out.extend_from_slice(key.as_bytes());
    out.push(b'=');
    push_list(out, answer.into_iter().take(printed));
    out.push(b'\n');
}
