//! A batch: all calls around one made-up plant.

use crate::calls::Converted;
use crate::generate::alone::{spoil_alone, with_first_line, HEADERS};
use crate::generate::damage::{damage, noise};
use crate::generate::held_damage::{damage_marking, damage_model};
use crate::generate::limits;
use crate::generate::line_damage::damage_line;
use crate::generate::plant::{plant, Kind, Plant};
use crate::generate::rng::Rng;
use crate::generate::steps::{firing_step, fold, overdo, poor_step, spoil, token_of, StepPlan, Token};
use crate::generate::texts::{marking_text, model_text, step_text, trace_text, weights_text};
use crate::held::{HeldMarking, HeldModel};
use crate::listing::FILE;
use crate::marking::{Line, Marking};
use crate::model::{Header, Mode, Model, LIKES, LINES, SLICE};
use crate::weights::{check_weights, Weights, WEIGHT};

use super::whole_list::WholeList;
use super::{Compared, Comparer, Context};

/// A batch's plant with its texts, what is held of it, and what a model of header 1 is converted to.
pub(super) struct Batch<'b, 'e> {
    pub(super) comparer: &'b mut Comparer<'e>,
    pub(super) rng: Rng,
    pub(super) plant: Plant,
    model_text: Vec<u8>,
    weights_text: Vec<u8>,
    pub(super) model: Box<HeldModel>,
    pub(super) start: Box<HeldMarking>,
    pub(super) converted: Option<Box<Converted>>,
}

/// Makes all calls of a seed's batch; ends at the first difference.
pub fn batch(comparer: &mut Comparer, seed: u64, number: u64) -> Compared {
    let mut rng = Rng::new(seed, number);
    let plant = plant(&mut rng);
    let model_text = model_text(&plant.model, &plant.start);
    let weights_text = weights_text(&plant.weights);
    let context = Context { call: "read_model", texts: &[&model_text] };
    let Some((model, start)) = comparer.read_model(&model_text)? else {
        return context.same("a right model is accepted", &false, &true);
    };
    let converted = comparer.convert(&model).map_err(|difference| difference.of_model(&model_text))?;
    let converted = converted.filter(|_| plant.model.header == Header::One);
    let mut batch = Batch { comparer, rng, plant, model_text, weights_text, model, start, converted };
    let compared = batch.calls(number);
    compared.map_err(|difference| difference.of_model(&batch.model_text))
}

impl Batch<'_, '_> {
    fn calls(&mut self, number: u64) -> Compared {
        self.models()?;
        self.conversions()?;
        self.markings()?;
        self.held()?;
        self.weights()?;
        self.steps()?;
        self.runs()?;
        self.listings()?;
        self.spreads()?;
        self.lines()?;
        self.whole_lists()?;
        if number.is_multiple_of(4) {
            self.long_texts()?;
        }
        if number.is_multiple_of(16) {
            self.long_run()?;
        }
        Ok(())
    }

    fn damaged(&mut self, text: &[u8]) -> Vec<u8> {
        if self.rng.percent(3) {
            return noise(&mut self.rng);
        }
        let mut text = text.to_vec();
        for _ in 0..*self.rng.pick(&[1, 1, 1, 1, 2, 3]) {
            damage(&mut self.rng, &mut text);
        }
        text
    }

    pub(super) fn damaged_model(&mut self) -> Box<HeldModel> {
        let mut model = self.model.clone();
        damage_model(&mut self.rng, &mut model);
        model
    }

    fn damaged_marking(&mut self, marking: &HeldMarking) -> Box<HeldMarking> {
        let mut marking = Box::new(marking.clone());
        damage_marking(&mut self.rng, &mut marking);
        marking
    }

    fn models(&mut self) -> Compared {
        for _ in 0..9 {
            let text = self.damaged(&self.model_text.clone());
            self.comparer.read_model(&text)?;
        }
        for _ in 0..3 {
            let text = self.changed_model();
            self.comparer.read_model(&text)?;
            let header = *self.rng.pick(HEADERS);
            self.comparer.read_model(&with_first_line(&self.model_text, header))?;
        }
        Ok(())
    }

    /// The text of the model with a move that gives none of a net that it takes, or with idling or an alone net that is none
    /// or not of its header.
    fn changed_model(&mut self) -> Vec<u8> {
        let mut model = self.plant.model.clone();
        let place = self.rng.below(model.places());
        if self.rng.percent(40) && !model.moves.is_empty() {
            let index = self.rng.below(model.moves.len());
            model.moves[index].pre[place] = 1;
            let net = model.types[place];
            let places = model.moves[index].post.iter_mut().zip(&model.types);
            places.filter(|(_, &other)| other == net).for_each(|(arc, _)| *arc = 0);
        } else if !model.events.is_empty() {
            let at = self.rng.below(model.events.len());
            let net = self.rng.below(model.nets.len() + 1);
            let idles = (model.header == Header::One) == self.rng.percent(70);
            let (mode, own) = match idles {
                true => (Mode::Idle(place), model.net_of(place)),
                false => (Mode::Alone(net), Some(net)),
            };
            model.events[at].mode = mode;
            let [keep_own, keep_others] = *self.rng.pick(&[[true, true], [true, false], [false, false]]);
            for (net, counts) in model.events[at].sync.iter_mut().enumerate() {
                let keep = if Some(net) == own { keep_own } else { keep_others };
                counts.iter_mut().for_each(|count| *count = if keep { (*count).max(1) } else { 0 });
            }
        }
        model_text(&model, &self.plant.start)
    }

    fn markings(&mut self) -> Compared {
        let mut lines = self.plant.start.clone();
        self.rng.shuffle(&mut lines);
        let text = marking_text(&self.plant.model, &lines);
        self.comparer.read_marking(&self.model, &text)?;
        for _ in 0..5 {
            let text = self.damaged(&text);
            self.comparer.read_marking(&self.model, &text)?;
        }
        let wrong = self.damaged_model();
        self.comparer.read_marking(&wrong, &text)?;
        self.too_many_alike()?;
        let room = marking_text(&self.plant.model, &self.start.lines()).len();
        for room in [room, room - 1, room + 7, 0] {
            self.comparer.write_marking(&self.model, &self.start, room)?;
        }
        let wrong = self.damaged_marking(&self.start.clone());
        self.comparer.write_marking(&self.model, &wrong, room)?;
        Ok(())
    }

    /// Markings with many likes of a net-token in one line or in some, just as many as can be or too many, now and then with a
    /// damaged line.
    fn too_many_alike(&mut self) -> Compared {
        let mut lines = self.plant.start.clone();
        let Some(row) = self.rng.pick_some(&lines).map(|line| line.row) else {
            return Ok(());
        };
        lines.truncate(LINES - 2);
        let there: u64 = lines.iter().filter(|line| line.row == row).map(|line| line.times).sum();
        for _ in 0..2 {
            let more = LIKES.saturating_sub(there) + *self.rng.pick(&[0, 0, 1, 1, 2]);
            let part = self.rng.below(more as usize + 1) as u64;
            let mut lines = lines.clone();
            let parts = [part, more - part].into_iter().filter(|&times| times > 0);
            lines.extend(parts.map(|times| Line::new(row, times)));
            self.rng.shuffle(&mut lines);
            let text = marking_text(&self.plant.model, &lines);
            self.comparer.read_marking(&self.model, &text)?;
            let text = self.damaged(&text);
            self.comparer.read_marking(&self.model, &text)?;
            let model = model_text(&self.plant.model, &lines);
            self.comparer.read_model(&model)?;
        }
        Ok(())
    }

    fn held(&mut self) -> Compared {
        self.comparer.test_model(&self.model)?;
        self.test_marking(&self.start.clone())?;
        for _ in 0..6 {
            let wrong = self.damaged_model();
            self.comparer.test_model(&wrong)?;
            let wrong = self.damaged_marking(&self.start.clone());
            self.test_marking(&wrong)?;
        }
        let (model, marking) = (self.damaged_model(), self.damaged_marking(&self.start.clone()));
        self.comparer.test_marking(&model, &self.start)?;
        let weights = self.weights_text.clone();
        self.comparer.check_weights(&model, &self.start, &weights)?;
        self.comparer.check_weights(&self.model, &marking, &weights)?;
        let mut start = self.start.clone();
        self.comparer.step(&model, &mut start, b"fire=1\ntake=0\ngive=0\n")?;
        self.comparer.run(&self.model, &marking, b"run=1\n")?;
        Ok(())
    }

    fn weights(&mut self) -> Compared {
        let text = self.weights_text.clone();
        let weighed = self.check_weights(&text)?;
        let context = Context { call: "check_weights", texts: &[&self.model_text, &text] };
        if self.plant.kind != Kind::Free && !self.plant.weights.all_zero() {
            context.same("balanced weights pass", &weighed.number, &0)?;
        }
        for way in 0..7 {
            let mut text = weights_text(&self.other_weights(way));
            self.check_weights(&text)?;
            if self.rng.percent(20) {
                text.push(*self.rng.pick(b"\n0x"));
                self.check_weights(&text)?;
            }
        }
        for _ in 0..4 {
            let text = self.damaged(&text);
            self.check_weights(&text)?;
        }
        Ok(())
    }

    /// Weights made of the plant's: multiplied, changed in one point, right outside only, or drawn anew.
    fn other_weights(&mut self, way: usize) -> Weights {
        let mut weights = self.plant.weights.clone();
        let rng = &mut self.rng;
        let limit = i64::from(WEIGHT);
        let mut all: Vec<&mut i64> =
            weights.outer.iter_mut().chain(weights.inner.iter_mut().flatten()).collect();
        let factor = *rng.pick(&[-1, 1, 2, 3, -7, 100, 0]);
        let any = |rng: &mut Rng| rng.between(0, 2 * WEIGHT as usize) as i64 - limit;
        match way {
            0 | 1 => all.iter_mut().for_each(|weight| **weight = (**weight * factor).clamp(-limit, limit)),
            2 => {
                let at = rng.below(all.len());
                *all[at] += *rng.pick(&[1, -1]);
            }
            3 => all.iter_mut().for_each(|weight| **weight = 0),
            4 => weights.inner.iter_mut().flatten().for_each(|weight| *weight = any(rng)),
            5 => all.iter_mut().for_each(|weight| **weight = any(rng)),
            _ => {
                weights.outer.iter_mut().for_each(|weight| *weight = (*weight * factor).clamp(-limit, limit))
            }
        }
        weights
    }

    fn steps(&mut self) -> Compared {
        let mut marking = self.start.clone();
        for _ in 0..6 {
            for _ in 0..3 {
                let text = self.some_step(&marking.lines());
                self.step(&mut marking, &text)?;
            }
            self.fire(&mut marking)?;
        }
        let wrong = self.damaged_marking(&marking);
        let text = self.some_step(&marking.lines());
        self.comparer.step(&self.model, &mut wrong.clone(), &text)?;
        self.comparer.run(&self.model, &wrong, &trace_text(&[text]))?;
        Ok(())
    }

    /// A step that fires by construction, where there is one, with bytes behind it.
    fn fire(&mut self, marking: &mut HeldMarking) -> Compared {
        let lines = marking.lines();
        let Some(mut plan) = firing_step(&mut self.rng, &self.plant.model, &lines) else {
            return Ok(());
        };
        fold(&mut self.rng, &mut plan);
        let mut text = step_text(&plan);
        let used = text.len();
        if self.rng.percent(30) {
            text.extend_from_slice(b"what follows");
        }
        let stepped = self.step(marking, &text)?;
        let context = Context { call: "step", texts: &[&self.model_text, &text] };
        if let Some(next) = plan.next(&lines) {
            context.same("a step that the rule allows fires", &(stepped.number, stepped.used), &(0, used))?;
            context.same("the marking after it", &marking.lines(), &next)?;
        }
        Ok(())
    }

    /// The text of a step that fires or does not.
    fn some_step(&mut self, lines: &[Line]) -> Vec<u8> {
        let rng = &mut self.rng;
        let model = &self.plant.model;
        let poor = rng.percent(20);
        let firing = if poor { None } else { firing_step(rng, model, lines) };
        let plan = firing.or_else(|| poor_step(rng, model, lines));
        let mut plan = plan.unwrap_or_else(|| any_step(rng, model, lines));
        let way = rng.below(10);
        if let Some(net) = alone_net(model, &plan).filter(|_| rng.percent(40)) {
            spoil_alone(rng, model, lines, net, &mut plan);
            fold(rng, &mut plan);
            return step_text(&plan);
        }
        for _ in 0..[1, 1, 1, 1, 1, 1, 0, 2, 0, 0][way] {
            spoil(rng, model, &mut plan);
        }
        fold(rng, &mut plan);
        if way == 6 {
            overdo(rng, model, &mut plan);
        }
        let text = step_text(&plan);
        if way == 8 {
            return self.damaged(&text);
        }
        text
    }

    /// Texts of steps that follow one another, most of which fire.
    fn some_steps(&mut self, most: usize, refused: usize) -> Vec<Vec<u8>> {
        let mut lines = self.start.lines();
        let mut steps = Vec::new();
        for _ in 0..self.rng.between(0, most) {
            if self.rng.percent(refused) {
                steps.push(self.some_step(&lines));
            } else if let Some(mut plan) = firing_step(&mut self.rng, &self.plant.model, &lines) {
                fold(&mut self.rng, &mut plan);
                lines = plan.next(&lines).unwrap_or(lines);
                steps.push(step_text(&plan));
            }
        }
        steps
    }

    fn runs(&mut self) -> Compared {
        for (most, refused) in [(12, 0), (12, 15), (40, 2)] {
            let trace = trace_text(&self.some_steps(most, refused));
            self.comparer.run(&self.model, &self.start, &trace)?;
            let trace = self.damaged(&trace);
            self.comparer.run(&self.model, &self.start, &trace)?;
        }
        Ok(())
    }

    /// A trace of many steps, all of which fire, and a step with a line of more than 65,536 bytes.
    fn long_run(&mut self) -> Compared {
        let trace = trace_text(&self.some_steps(400, 0));
        self.comparer.run(&self.model, &self.start, &trace)?;
        let long_line = limits::padded(b"fire=1", (1 << 16) + self.rng.below(9), b'1');
        self.comparer.step(&self.model, &mut self.start.clone(), &long_line)?;
        Ok(())
    }

    fn listings(&mut self) -> Compared {
        let trace = trace_text(&self.some_steps(10, 10));
        let (model, weights) = (self.model_text.clone(), self.weights_text.clone());
        let [bad_model, bad_weights, bad_trace] = [&model, &weights, &trace].map(|text| self.damaged(text));
        let long_trace = limits::padded(&trace, FILE + self.rng.below(2), b'\n');
        let listings: [[&[u8]; 3]; 5] = [
            [&model, &weights, &trace],
            [&model, &weights, &bad_trace],
            [&model, &bad_weights, &trace],
            [&bad_model, &weights, &trace],
            [&model, &weights, &long_trace],
        ];
        let plenty = 1 << 17;
        for files in listings {
            let written = self.comparer.listing(files, plenty)?;
            let room = (written.bytes + 1).saturating_sub(self.rng.between(1, 3));
            self.comparer.listing(files, room)?;
        }
        Ok(())
    }

    /// A text of each kind with one line damaged, several times.
    fn lines(&mut self) -> Compared {
        let start = self.start.clone();
        let held = start.lines();
        let marking = marking_text(&self.plant.model, &held);
        let step = firing_step(&mut self.rng, &self.plant.model, &held);
        let mut step = step.unwrap_or_else(|| any_step(&mut self.rng, &self.plant.model, &held));
        fold(&mut self.rng, &mut step);
        let step = step_text(&step);
        let [model, weights] = [self.model_text.clone(), self.weights_text.clone()];
        for _ in 0..3 {
            let text = self.damaged_line(&model);
            self.comparer.read_model(&text)?;
            let text = self.damaged_line(&marking);
            self.comparer.read_marking(&self.model, &text)?;
            let text = self.damaged_line(&weights);
            self.comparer.check_weights(&self.model, &start, &text)?;
            let text = self.damaged_line(&step);
            self.comparer.step(&self.model, &mut start.clone(), &text)?;
            let before = if self.rng.percent(50) { vec![step.clone()] } else { Vec::new() };
            let trace = [&trace_text(&before)[..], &text].concat();
            let trace = if self.rng.percent(50) { trace } else { self.damaged_line(&trace_text(&before)) };
            self.comparer.run(&self.model, &start, &trace)?;
        }
        Ok(())
    }

    fn damaged_line(&mut self, text: &[u8]) -> Vec<u8> {
        let mut text = text.to_vec();
        damage_line(&mut self.rng, &mut text);
        text
    }

    fn spreads(&mut self) -> Compared {
        for _ in 0..3 {
            let tokens = self.rng.below(34);
            let racks = self.rng.below(19);
            self.comparer.ways(tokens, racks)?;
        }
        let huge = [usize::MAX, 1 << 32, (1 << 32) + 1, 256, 31, 16, 0];
        let (tokens, racks) = (*self.rng.pick(&huge), *self.rng.pick(&huge));
        self.comparer.ways(tokens, racks)?;
        Ok(())
    }

    /// Lists of step calls with any texts, where the weights cover.
    fn whole_lists(&mut self) -> Compared {
        let start = Marking::new(&self.plant.start);
        let checked = check_weights(&self.plant.model, &start, &self.weights_text);
        if !checked.is_ok_and(|passed| passed.cover) {
            return Ok(());
        }
        let mut steps = self.some_steps(24, 35);
        let none = self.rng.percent(4);
        if self.rng.percent(10) {
            let at = self.rng.below(steps.len() + 1);
            let step = steps.first().cloned().unwrap_or_default();
            steps.insert(at, limits::padded(&step, SLICE + self.rng.below(2), b'x'));
        }
        let at = self.rng.below(steps.len() + 1);
        steps.insert(at, self.rng.pick(&[&b""[..], b"\n", b"fire=1\n", b"run=1\n"]).to_vec());
        if none {
            steps.clear();
        }
        let list = WholeList { model: &self.model_text, weights: &self.weights_text, steps: &steps };
        self.comparer.whole_list(&list)
    }

    /// Texts at the limit of a slice and one byte longer, now and then with a wrong model.
    fn long_texts(&mut self) -> Compared {
        let fill = *self.rng.pick(b"\nx0\0");
        let length = SLICE + self.rng.between(0, 2).min(1);
        let step = self.some_steps(1, 0).pop().unwrap_or(b"fire=1\n".to_vec());
        let trace = trace_text(std::slice::from_ref(&step));
        let texts = [&self.model_text, &self.weights_text, &trace, &step];
        let [model_text, weights, trace, step] = texts.map(|text| limits::padded(text, length, fill));
        let model = if self.rng.percent(30) { self.damaged_model() } else { self.model.clone() };
        match self.rng.below(4) {
            0 => drop(self.comparer.read_model(&model_text)?),
            1 => drop(self.comparer.check_weights(&model, &self.start, &weights)?),
            2 => drop(self.comparer.run(&model, &self.start, &trace)?),
            _ => drop(self.comparer.read_marking(&model, &model_text)?),
        }
        self.comparer.step(&model, &mut self.start.clone(), &step)?;
        Ok(())
    }
}

/// A step of any event with racks of the marking taken and given.
fn any_step(rng: &mut Rng, model: &Model, lines: &[Line]) -> StepPlan {
    let least = usize::from(rng.percent(90));
    let event = rng.between(least, model.events.len().max(1));
    let mut racks = || -> Vec<Token> {
        let some = (0..rng.below(3)).filter_map(|_| rng.pick_some(lines));
        some.map(|line| token_of(model, &line.row)).collect()
    };
    StepPlan { event, taken: racks(), given: racks() }
}

/// The net of which a step's event takes a rack that is alone.
fn alone_net(model: &Model, plan: &StepPlan) -> Option<usize> {
    match model.events.get(plan.event.checked_sub(1)?)?.mode {
        Mode::Alone(net) => Some(net),
        Mode::Move(_) | Mode::Idle(_) => None,
    }
}
