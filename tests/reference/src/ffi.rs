//! The proved engine, linked through its C header.

use crate::calls::{Answer, Converted, Ran, Spread, Stepped, Weighed, Written};
use crate::engine::Engine;
use crate::held::{HeldMarking, HeldModel};

/// A model read: its answer, the model and its start.
#[repr(C)]
pub struct ModelRead {
    pub answer: Answer,
    pub model: HeldModel,
    pub start: HeldMarking,
}

/// A marking read.
#[repr(C)]
pub struct MarkingRead {
    pub answer: Answer,
    pub marking: HeldMarking,
}

/// A step, and the marking after it.
#[repr(C)]
pub struct StepDone {
    pub step: Stepped,
    pub marking: HeldMarking,
}

/// A run, and the marking then.
#[repr(C)]
pub struct RunDone {
    pub run: Ran,
    pub marking: HeldMarking,
}

extern "C" {
    fn fp_read_model(text: *const u8, len: usize) -> ModelRead;
    fn fp_read_marking(model: HeldModel, text: *const u8, len: usize) -> MarkingRead;
    fn fp_test_model(model: HeldModel) -> bool;
    fn fp_test_marking(model: HeldModel, marking: HeldMarking) -> bool;
    fn fp_write_marking(model: HeldModel, marking: HeldMarking, out: *mut u8, room: usize) -> Written;
    fn fp_check_weights(model: HeldModel, marking: HeldMarking, text: *const u8, len: usize) -> Weighed;
    fn fp_step(model: HeldModel, marking: HeldMarking, text: *const u8, len: usize) -> StepDone;
    fn fp_run(model: HeldModel, marking: HeldMarking, text: *const u8, len: usize) -> RunDone;
    fn fp_ways(tokens: usize, racks: usize) -> Spread;
    fn fp_convert(model: HeldModel) -> Converted;
    fn fp_listing(
        model: *const u8,
        model_len: usize,
        weights: *const u8,
        weights_len: usize,
        trace: *const u8,
        trace_len: usize,
        out: *mut u8,
        room: usize,
    ) -> Written;
}

/// The proved engine.
#[derive(Clone, Copy, Debug, Default)]
pub struct Proved;

// Each call lends slices that live until it returns, with their true lengths.
impl Engine for Proved {
    fn read_model(&self, text: &[u8], model: &mut HeldModel, start: &mut HeldMarking) -> Answer {
        let read = unsafe { fp_read_model(text.as_ptr(), text.len()) };
        *model = read.model;
        *start = read.start;
        read.answer
    }

    fn read_marking(&self, model: &HeldModel, text: &[u8], marking: &mut HeldMarking) -> Answer {
        let read = unsafe { fp_read_marking(model.clone(), text.as_ptr(), text.len()) };
        *marking = read.marking;
        read.answer
    }

    fn test_model(&self, model: &HeldModel) -> bool {
        unsafe { fp_test_model(model.clone()) }
    }

    fn test_marking(&self, model: &HeldModel, marking: &HeldMarking) -> bool {
        unsafe { fp_test_marking(model.clone(), marking.clone()) }
    }

    fn write_marking(&self, model: &HeldModel, marking: &HeldMarking, out: &mut [u8]) -> Written {
        unsafe { fp_write_marking(model.clone(), marking.clone(), out.as_mut_ptr(), out.len()) }
    }

    fn check_weights(&self, model: &HeldModel, marking: &HeldMarking, text: &[u8]) -> Weighed {
        unsafe { fp_check_weights(model.clone(), marking.clone(), text.as_ptr(), text.len()) }
    }

    fn step(&self, model: &HeldModel, marking: &mut HeldMarking, text: &[u8]) -> Stepped {
        let done = unsafe { fp_step(model.clone(), marking.clone(), text.as_ptr(), text.len()) };
        *marking = done.marking;
        done.step
    }

    fn run(&self, model: &HeldModel, marking: &mut HeldMarking, text: &[u8]) -> Ran {
        let done = unsafe { fp_run(model.clone(), marking.clone(), text.as_ptr(), text.len()) };
        *marking = done.marking;
        done.run
    }

    fn ways(&self, tokens: usize, racks: usize) -> Spread {
        unsafe { fp_ways(tokens, racks) }
    }

    fn convert(&self, model: &HeldModel) -> Box<Converted> {
        Box::new(unsafe { fp_convert(model.clone()) })
    }

    fn listing(&self, model: &[u8], weights: &[u8], trace: &[u8], out: &mut [u8]) -> Written {
        unsafe {
            fp_listing(
                model.as_ptr(),
                model.len(),
                weights.as_ptr(),
                weights.len(),
                trace.as_ptr(),
                trace.len(),
                out.as_mut_ptr(),
                out.len(),
            )
        }
    }
}
