//! A batch's model beside what it is converted to.

use crate::calls::{Stepped, Weighed};
use crate::cause::EFFECT;
use crate::generate::alone::{change_idling, with_first_line};
use crate::generate::texts::model_text;
use crate::held::{hold_model, model_of, HeldMarking};

use super::batch::Batch;
use super::{Compared, Context};

impl Batch<'_, '_> {
    /// Converts damaged models, the batch's model with its idle events changed, and what it is converted to.
    pub(super) fn conversions(&mut self) -> Compared {
        for _ in 0..3 {
            let other = self.damaged_model();
            self.comparer.convert(&other)?;
        }
        let mut model = self.plant.model.clone();
        for _ in 0..3 {
            change_idling(&mut self.rng, &mut model);
            self.comparer.convert(&hold_model(&model))?;
        }
        let Some(converted) = &self.converted else {
            return Ok(());
        };
        let context = Context { call: "convert", texts: &[] };
        self.comparer.convert(&converted.model)?;
        let held = self.comparer.test_model(&converted.model)?;
        context.same("a converted model is one that a reading gives", &held, &true)?;
        let model = model_of(&converted.model).expect("a right model");
        let read = self.comparer.read_model(&model_text(&model, &self.plant.start))?;
        let same = read.is_some_and(|(model, start)| *model == converted.model && start == self.start);
        context.same("the text of a converted model reads as it", &same, &true)
    }

    /// Compares the test of a marking; one that is held for the model is held for what it is converted to.
    pub(super) fn test_marking(&mut self, marking: &HeldMarking) -> Compared {
        let held = self.comparer.test_marking(&self.model, marking)?;
        let Some(converted) = &self.converted else {
            return Ok(());
        };
        let held_too = self.comparer.test_marking(&converted.model, marking)?;
        Context { call: "test_marking", texts: &[] }.same("held for the converted model", &held_too, &held)
    }

    /// Compares a weight check; of the converted model it says the same, of an event its new number.
    pub(super) fn check_weights(&mut self, text: &[u8]) -> Compared<Weighed> {
        let weighed = self.comparer.check_weights(&self.model, &self.start, text)?;
        let Some(converted) = &self.converted else {
            return Ok(weighed);
        };
        let beside = match weighed.number {
            EFFECT => usize::from(converted.numbers[weighed.beside - 1]),
            _ => weighed.beside,
        };
        let weighed_too = self.comparer.check_weights(&converted.model, &self.start, text)?;
        let context = Context { call: "check_weights", texts: &[text] };
        context.same("weighed for the converted model", &weighed_too, &Weighed { beside, ..weighed })?;
        Ok(weighed)
    }

    /// Compares a step, and its like in the converted model.
    pub(super) fn step(&mut self, marking: &mut HeldMarking, text: &[u8]) -> Compared<Stepped> {
        self.converted_step(marking, text)?;
        self.comparer.step(&self.model, marking, text)
    }

    /// The converted model fires a step exactly where the model fires it under some number that has become the new one, with
    /// the same marking after it.
    fn converted_step(&mut self, marking: &HeldMarking, text: &[u8]) -> Compared {
        let Some(converted) = &self.converted else {
            return Ok(());
        };
        let events = &converted.numbers[..self.model.listed];
        let Some(&number) = event_of(text).and_then(|event| events.get(event.checked_sub(1)?)) else {
            return Ok(());
        };
        let context = Context { call: "step", texts: &[text] };
        let mut after = Box::new(marking.clone());
        let stepped =
            self.comparer.step(&converted.model, &mut after, &with_event(text, usize::from(number)))?;
        let mut fired = None;
        for (event, _) in events.iter().enumerate().filter(|(_, &other)| other == number) {
            let mut after = Box::new(marking.clone());
            let stepped = self.comparer.step(&self.model, &mut after, &with_event(text, event + 1))?;
            if stepped.number == 0 {
                fired = Some(after);
            }
        }
        let mut same = context.same("fires in the converted model", &(stepped.number == 0), &fired.is_some());
        if let Some(fired) = fired {
            same = same.and(context.same_marking("marking in the converted model", &after, &fired));
        }
        same.map_err(|difference| difference.on(marking))
    }
}

/// The number of the event that a step names.
fn event_of(text: &[u8]) -> Option<usize> {
    let line = text.strip_prefix(b"fire=")?.split(|&byte| byte == b'\n').next()?;
    std::str::from_utf8(line).ok()?.parse().ok()
}

/// The step with another event.
fn with_event(text: &[u8], event: usize) -> Vec<u8> {
    with_first_line(text, &format!("fire={event}\n"))
}
