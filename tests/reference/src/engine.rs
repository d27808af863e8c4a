//! An engine behind the C header, and the reference as one.

use crate::broken::{broken, with_deviation, Broken};
use crate::calls::{self, Answer, Converted, Ran, Spread, Stepped, Weighed, Written};
use crate::held::{HeldMarking, HeldModel};

/// The calls of the C header; a lent text or buffer is a slice, and what a call returns of a model or a marking is stored.
pub trait Engine {
    fn read_model(&self, text: &[u8], model: &mut HeldModel, start: &mut HeldMarking) -> Answer;
    fn read_marking(&self, model: &HeldModel, text: &[u8], marking: &mut HeldMarking) -> Answer;
    fn test_model(&self, model: &HeldModel) -> bool;
    fn test_marking(&self, model: &HeldModel, marking: &HeldMarking) -> bool;
    fn write_marking(&self, model: &HeldModel, marking: &HeldMarking, out: &mut [u8]) -> Written;
    fn check_weights(&self, model: &HeldModel, marking: &HeldMarking, text: &[u8]) -> Weighed;
    fn step(&self, model: &HeldModel, marking: &mut HeldMarking, text: &[u8]) -> Stepped;
    fn run(&self, model: &HeldModel, marking: &mut HeldMarking, text: &[u8]) -> Ran;
    fn ways(&self, tokens: usize, racks: usize) -> Spread;
    fn convert(&self, model: &HeldModel) -> Box<Converted>;
    fn listing(&self, model: &[u8], weights: &[u8], trace: &[u8], out: &mut [u8]) -> Written;
}

/// The reference, or a broken copy of it.
#[derive(Clone, Copy, Debug, Default)]
pub struct Reference {
    deviation: Option<Broken>,
}

impl Reference {
    pub fn new() -> Reference {
        Reference::default()
    }

    /// The copy with this deviation.
    pub fn broken(deviation: Broken) -> Reference {
        Reference { deviation: Some(deviation) }
    }

    fn call<T>(&self, call: impl FnOnce() -> T) -> T {
        with_deviation(self.deviation, call)
    }
}

/// Whether a reading with this answer gives its result: a refused one gives the empty model and no net-token.
fn stores(answer: Answer) -> bool {
    answer.number == 0 || !broken(Broken::RefusedReadingGivesNothing)
}

impl Engine for Reference {
    fn read_model(&self, text: &[u8], model: &mut HeldModel, start: &mut HeldMarking) -> Answer {
        self.call(|| {
            let read = calls::read_model(text);
            if stores(read.answer) {
                *model = read.model;
                *start = read.start;
            }
            read.answer
        })
    }

    fn read_marking(&self, model: &HeldModel, text: &[u8], marking: &mut HeldMarking) -> Answer {
        self.call(|| {
            let read = calls::read_marking(model, text);
            if stores(read.answer) {
                *marking = read.marking;
            }
            read.answer
        })
    }

    fn test_model(&self, model: &HeldModel) -> bool {
        self.call(|| calls::test_model(model))
    }

    fn test_marking(&self, model: &HeldModel, marking: &HeldMarking) -> bool {
        self.call(|| calls::test_marking(model, marking))
    }

    fn write_marking(&self, model: &HeldModel, marking: &HeldMarking, out: &mut [u8]) -> Written {
        self.call(|| calls::write_marking(model, marking, out))
    }

    fn check_weights(&self, model: &HeldModel, marking: &HeldMarking, text: &[u8]) -> Weighed {
        self.call(|| calls::check_weights(model, marking, text))
    }

    fn step(&self, model: &HeldModel, marking: &mut HeldMarking, text: &[u8]) -> Stepped {
        self.call(|| calls::step(model, marking, text))
    }

    fn run(&self, model: &HeldModel, marking: &mut HeldMarking, text: &[u8]) -> Ran {
        self.call(|| calls::run(model, marking, text))
    }

    fn ways(&self, tokens: usize, racks: usize) -> Spread {
        self.call(|| calls::ways(tokens, racks))
    }

    fn convert(&self, model: &HeldModel) -> Box<Converted> {
        self.call(|| calls::convert(model))
    }

    fn listing(&self, model: &[u8], weights: &[u8], trace: &[u8], out: &mut [u8]) -> Written {
        self.call(|| calls::listing(model, weights, trace, out))
    }
}
