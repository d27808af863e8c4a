//! Demand 3 by testing: a list of step calls on a covered plant, against the rule's own run.

use crate::calls::Weighed;
use crate::engine::Engine;
use crate::held::{HeldEntry, HeldMarking, HeldModel};
use crate::marking::{inner_projection, outer_projection, Marking};
use crate::model::{read_model, Model, COUNT};
use crate::own_run::OwnRun;
use crate::weights::{read_weights, Weights};

use super::{patterned_marking, patterned_model, Compared, Comparer, Context, Difference, Lent};

/// A covered plant's texts, and the texts lent to the step calls.
pub struct WholeList<'a> {
    pub model: &'a [u8],
    pub weights: &'a [u8],
    pub steps: &'a [Vec<u8>],
}

impl WholeList<'_> {
    fn fault(&self, at: usize, what: &'static str, left: String, right: String) -> Box<Difference> {
        let lent = &self.steps[..self.steps.len().min(at + 1)];
        let mut texts = vec![self.model.to_vec(), self.weights.to_vec()];
        texts.extend_from_slice(lent);
        Box::new(Difference { call: "list of step calls", what, left, right, texts })
    }
}

impl Comparer<'_> {
    /// Makes the calls of the list on each engine, beside the rule's own run.
    pub fn whole_list(&mut self, list: &WholeList) -> Compared {
        self.tally.fired += follow(self.left, list)?;
        follow(self.right, list)?;
        self.tally.comparisons += list.steps.len() as u64 + 1;
        self.tally.lists += 1;
        Ok(())
    }
}

/// Makes the calls on one engine; gives the number of steps that fired.
fn follow(engine: &dyn Engine, list: &WholeList) -> Compared<u64> {
    let context = Context { call: "list of step calls", texts: &[list.model, list.weights] };
    let (model, start) = read_model(list.model).expect("a right model");
    let weights = read_weights(&model, list.weights).expect("right weights");
    let (mut held_model, mut held) = (patterned_model(), patterned_marking());
    let answer = engine.read_model(list.model, &mut held_model, &mut held);
    context.same("model reading", &answer.number, &0)?;
    let weighed = engine.check_weights(&held_model, &held, list.weights);
    context.same("weights pass and cover", &(weighed.number, weighed.cover), &(0, 1))?;
    let mut run = OwnRun::new(&model, &start);
    let mut fired = 0;
    for (at, text) in list.steps.iter().enumerate() {
        fired += u64::from(follow_call(engine, list, at, text, (&held_model, &mut held), &mut run)?);
    }
    bounded(list, &model, &weights, &weighed, &held)?;
    Ok(fired)
}

/// One call: it says fired exactly when the run fires, and leaves the run's marking.
fn follow_call(
    engine: &dyn Engine,
    list: &WholeList,
    at: usize,
    text: &[u8],
    (model, held): (&HeldModel, &mut HeldMarking),
    run: &mut OwnRun,
) -> Compared<bool> {
    let lent = Lent::new(text);
    let stepped = engine.step(model, held, lent.text());
    let fired = run.feed(text);
    if (stepped.number == 0) != fired {
        return Err(list.fault(at, "fired", format!("{stepped:?}"), format!("the rule: {fired}")));
    }
    let lines = run.lines().unwrap_or_default();
    let mut expected = Box::new(HeldMarking::empty());
    expected.len = run.state().len();
    expected.entries.iter_mut().zip(&lines).for_each(|(entry, line)| *entry = HeldEntry::new(line));
    if *held != *expected {
        let words = |m: &HeldMarking| format!("{:?}", m.entries.get(..m.len));
        return Err(list.fault(at, "the run's marking", words(held), words(&expected)));
    }
    Ok(fired)
}

/// The sum is the one reported, and bounds every hall and every inner place.
fn bounded(
    list: &WholeList,
    model: &Model,
    weights: &Weights,
    weighed: &Weighed,
    held: &HeldMarking,
) -> Compared {
    let end = list.steps.len();
    let fault = |what, words: String| Err(list.fault(end, what, words, format!("{weighed:?}")));
    let marking = Marking::new(&held.lines());
    let sum = weights.sum_of(model, &marking);
    if weighed.below != 0 || i128::from(sum) != i128::from(weighed.above) {
        return fault("the sum", sum.to_string());
    }
    let within = |count: u64, weight: i64| count as i64 <= sum / weight;
    let lines = marking.lines();
    let outer = outer_projection(&lines);
    if !weights.outer.iter().zip(outer).all(|(&weight, count)| within(count, weight)) {
        return fault("a hall's bound", format!("{outer:?}"));
    }
    let inner = inner_projection(model, &lines);
    for (weights, counts) in weights.inner.iter().zip(inner) {
        let bound = |(&weight, count): (&i64, u64)| within(count, weight) && count as usize <= COUNT;
        if !weights.iter().zip(counts).all(bound) {
            return fault("an inner place's bound", format!("{counts:?}"));
        }
    }
    Ok(())
}
