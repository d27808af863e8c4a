//! Two engines side by side: every call is made on both with the same inputs, and all that they answer and
//! leave in lent memory is compared.

pub mod batch;
mod conversion;
pub mod fixed;
pub mod report;
pub mod whole_list;

use std::collections::BTreeMap;
use std::fmt::Debug;

use crate::calls::{Answer, Converted, Ran, Spread, Stepped, Weighed, Written};
use crate::cause::{HELD, NUMBERS};
use crate::engine::Engine;
use crate::held::{HeldEntry, HeldMarking, HeldModel};

/// What a lent buffer is filled with before a call.
const PATTERN: u8 = 0xa5;
/// Bytes of a lent buffer past its room, and what stands in memory behind a lent text.
const BEHIND_BUFFER: usize = 16;
const BEHIND_TEXT: &[u8] = b"\n0\n,0\n";

/// A difference between two engines, with what is needed to see it again.
#[derive(Debug)]
pub struct Difference {
    pub call: &'static str,
    pub what: &'static str,
    pub left: String,
    pub right: String,
    pub texts: Vec<Vec<u8>>,
}

pub type Compared<T = ()> = Result<T, Box<Difference>>;

impl Difference {
    /// Adds the marking on which a step was called.
    fn on(mut self: Box<Self>, marking: &HeldMarking) -> Box<Difference> {
        self.texts.push(numbers_of(marking).into_bytes());
        self
    }

    /// Adds the text of the plant's model.
    fn of_model(mut self: Box<Self>, model: &[u8]) -> Box<Difference> {
        self.texts.push(model.to_vec());
        self
    }
}

/// How many answers of each cause there were, in the order of the numbers.
pub type Causes = [u64; NUMBERS.len()];

/// How many comparisons there were, in all and by call and cause, and how many steps fired.
#[derive(Clone, Debug, Default)]
pub struct Tally {
    pub comparisons: u64,
    pub calls: BTreeMap<&'static str, Causes>,
    pub fired: u64,
    /// Lists of step calls beside the rule's own run.
    pub lists: u64,
}

impl Tally {
    fn count(&mut self, call: &'static str, number: usize) {
        self.comparisons += 1;
        let causes = self.calls.entry(call).or_default();
        if let Some(cause) = NUMBERS.iter().position(|&cause| cause == number) {
            causes[cause] += 1;
        }
    }

    /// The answers of each cause, over all calls.
    pub fn causes(&self) -> Causes {
        std::array::from_fn(|cause| self.calls.values().map(|causes| causes[cause]).sum())
    }
}

pub struct Comparer<'e> {
    pub left: &'e dyn Engine,
    pub right: &'e dyn Engine,
    pub tally: Tally,
}

/// A text in memory of its own, with other bytes behind it.
struct Lent {
    bytes: Vec<u8>,
    length: usize,
}

impl Lent {
    fn new(text: &[u8]) -> Lent {
        let mut bytes = Vec::with_capacity(text.len() + BEHIND_TEXT.len());
        bytes.extend_from_slice(text);
        bytes.extend_from_slice(BEHIND_TEXT);
        Lent { bytes, length: text.len() }
    }

    fn text(&self) -> &[u8] {
        &self.bytes[..self.length]
    }

    fn untouched(&self, text: &[u8]) -> bool {
        self.text() == text && self.bytes[self.length..] == *BEHIND_TEXT
    }
}

/// A held model of the pattern.
fn patterned_model() -> Box<HeldModel> {
    let mut held = Box::new(HeldModel::empty());
    held.bytes_mut().fill(PATTERN);
    held
}

fn patterned_marking() -> Box<HeldMarking> {
    let mut held = Box::new(HeldMarking::empty());
    held.bytes_mut().fill(PATTERN);
    held
}

/// The call and its texts, for a difference.
struct Context<'a> {
    call: &'static str,
    texts: &'a [&'a [u8]],
}

/// A held marking's entries up to the last that is not 0: the place, the counts up to the last that is not 0, and how often.
fn numbers_of(held: &HeldMarking) -> String {
    let mut words = format!("len {}", held.len);
    let filled = |entry: &HeldEntry| *entry != HeldEntry::default();
    let used = held.entries.iter().rposition(filled).map_or(0, |last| last + 1);
    for HeldEntry { token, times } in &held.entries[..used] {
        let last = token.counts.iter().rposition(|&count| count != 0).map_or(0, |last| last + 1);
        words += &format!(" {}:{:?}*{times}", token.place, &token.counts[..last]);
    }
    words
}

impl Context<'_> {
    fn same<T: PartialEq + Debug>(&self, what: &'static str, left: &T, right: &T) -> Compared {
        if left == right {
            return Ok(());
        }
        Err(self.difference(what, format!("{left:?}"), format!("{right:?}")))
    }

    fn same_model(&self, what: &'static str, left: &HeldModel, right: &HeldModel) -> Compared {
        if left == right {
            return Ok(());
        }
        let sizes = |m: &HeldModel| {
            let kinds: Vec<u8> = m.events.iter().map(|event| event.kind).collect();
            let HeldModel { header, nets, places, moves, listed, .. } = m;
            format!(
                "header {header} nets {nets} places {places} moves {moves} listed {listed} kinds {kinds:?}"
            )
        };
        Err(self.difference(what, sizes(left), sizes(right)))
    }

    fn same_marking(&self, what: &'static str, left: &HeldMarking, right: &HeldMarking) -> Compared {
        if left == right {
            return Ok(());
        }
        Err(self.difference(what, numbers_of(left), numbers_of(right)))
    }

    fn untouched(&self, lent: &Lent, text: &[u8]) -> Compared {
        self.same("a lent text", &lent.untouched(text), &true)
    }

    fn difference(&self, what: &'static str, left: String, right: String) -> Box<Difference> {
        let texts = self.texts.iter().map(|text| text.to_vec()).collect();
        Box::new(Difference { call: self.call, what, left, right, texts })
    }
}

impl<'e> Comparer<'e> {
    pub fn new(left: &'e dyn Engine, right: &'e dyn Engine) -> Comparer<'e> {
        Comparer { left, right, tally: Tally::default() }
    }

    fn engines(&self) -> [&'e dyn Engine; 2] {
        [self.left, self.right]
    }

    /// Compares a model reading; gives what an accepted one holds.
    pub fn read_model(&mut self, text: &[u8]) -> Compared<Option<(Box<HeldModel>, Box<HeldMarking>)>> {
        let context = Context { call: "read_model", texts: &[text] };
        let lent = Lent::new(text);
        let read = self.engines().map(|engine| {
            let (mut model, mut start) = (patterned_model(), patterned_marking());
            let answer = engine.read_model(lent.text(), &mut model, &mut start);
            (answer, model, start)
        });
        let [(answer, model, start), (right_answer, right_model, right_start)] = read;
        self.tally.count(context.call, right_answer.number);
        context.same("answer", &answer, &right_answer)?;
        context.same_model("model", &model, &right_model)?;
        context.same_marking("start", &start, &right_start)?;
        context.untouched(&lent, text)?;
        Ok((answer.number == 0).then_some((model, start)))
    }

    pub fn read_marking(&mut self, model: &HeldModel, text: &[u8]) -> Compared<Answer> {
        let context = Context { call: "read_marking", texts: &[text] };
        let lent = Lent::new(text);
        let lent_model = Box::new(model.clone());
        let [left, right] = self.engines().map(|engine| {
            let mut marking = patterned_marking();
            let answer = engine.read_marking(&lent_model, lent.text(), &mut marking);
            (answer, marking)
        });
        self.tally.count(context.call, right.0.number);
        context.same("answer", &left.0, &right.0)?;
        context.same_marking("marking", &left.1, &right.1)?;
        context.same_model("lent model", &lent_model, model)?;
        context.untouched(&lent, text)?;
        Ok(left.0)
    }

    pub fn test_model(&mut self, model: &HeldModel) -> Compared<bool> {
        let context = Context { call: "test_model", texts: &[] };
        let lent_model = Box::new(model.clone());
        let [left, right] = self.engines().map(|engine| engine.test_model(&lent_model));
        self.tally.count(context.call, if right { 0 } else { HELD });
        context.same("answer", &left, &right)?;
        context.same_model("lent model", &lent_model, model)?;
        Ok(left)
    }

    pub fn test_marking(&mut self, model: &HeldModel, marking: &HeldMarking) -> Compared<bool> {
        let context = Context { call: "test_marking", texts: &[] };
        let (lent_model, lent_marking) = (Box::new(model.clone()), Box::new(marking.clone()));
        let [left, right] = self.engines().map(|engine| engine.test_marking(&lent_model, &lent_marking));
        self.tally.count(context.call, if right { 0 } else { HELD });
        context.same("answer", &left, &right)?;
        context.same_model("lent model", &lent_model, model)?;
        context.same_marking("lent marking", &lent_marking, marking)?;
        Ok(left)
    }

    /// Compares the writing of a marking to a buffer with this room.
    pub fn write_marking(
        &mut self,
        model: &HeldModel,
        marking: &HeldMarking,
        room: usize,
    ) -> Compared<Written> {
        let context = Context { call: "write_marking", texts: &[] };
        let (lent_model, lent_marking) = (Box::new(model.clone()), Box::new(marking.clone()));
        let written = self
            .written(&context, room, |engine, out| engine.write_marking(&lent_model, &lent_marking, out))?;
        context.same_model("lent model", &lent_model, model)?;
        context.same_marking("lent marking", &lent_marking, marking)?;
        Ok(written)
    }

    /// Compares what two engines write to a buffer with this room, and that they leave the rest.
    fn written(
        &mut self,
        context: &Context,
        room: usize,
        write: impl Fn(&dyn Engine, &mut [u8]) -> Written,
    ) -> Compared<Written> {
        let [left, right] = self.engines().map(|engine| {
            let mut out = vec![PATTERN; room + BEHIND_BUFFER];
            (write(engine, &mut out[..room]), out)
        });
        self.tally.count(context.call, right.0.number);
        context.same("answer", &left.0, &right.0)?;
        if left.1 != right.1 {
            let words = |out: &[u8]| String::from_utf8_lossy(out).into_owned();
            return Err(context.difference("written bytes", words(&left.1), words(&right.1)));
        }
        let kept = if left.0.number == 0 { left.0.bytes } else { 0 };
        let rest = left.1[kept..].iter().all(|&byte| byte == PATTERN);
        context.same("bytes past the text untouched", &rest, &true)?;
        Ok(left.0)
    }

    pub fn check_weights(
        &mut self,
        model: &HeldModel,
        marking: &HeldMarking,
        text: &[u8],
    ) -> Compared<Weighed> {
        let context = Context { call: "check_weights", texts: &[text] };
        let lent = Lent::new(text);
        let (lent_model, lent_marking) = (Box::new(model.clone()), Box::new(marking.clone()));
        let check = |engine: &dyn Engine| engine.check_weights(&lent_model, &lent_marking, lent.text());
        let [left, right] = self.engines().map(check);
        self.tally.count(context.call, right.number);
        context.same("answer", &left, &right)?;
        context.same_model("lent model", &lent_model, model)?;
        context.same_marking("lent marking", &lent_marking, marking)?;
        context.untouched(&lent, text)?;
        Ok(left)
    }

    /// Compares a step; the marking becomes the one after it.
    pub fn step(&mut self, model: &HeldModel, marking: &mut HeldMarking, text: &[u8]) -> Compared<Stepped> {
        let stepped = self.step_on(model, marking, text);
        stepped.map_err(|difference| difference.on(marking))
    }

    fn step_on(&mut self, model: &HeldModel, marking: &mut HeldMarking, text: &[u8]) -> Compared<Stepped> {
        let context = Context { call: "step", texts: &[text] };
        let lent = Lent::new(text);
        let lent_model = Box::new(model.clone());
        let [left, right] = self.engines().map(|engine| {
            let mut after = Box::new(marking.clone());
            (engine.step(&lent_model, &mut after, lent.text()), after)
        });
        self.tally.count(context.call, right.0.number);
        context.same("answer", &left.0, &right.0)?;
        context.same_marking("marking", &left.1, &right.1)?;
        context.same("a refused step moves a rack", &(left.0.number != 0 && *left.1 != *marking), &false)?;
        context.same_model("lent model", &lent_model, model)?;
        context.untouched(&lent, text)?;
        self.tally.fired += u64::from(left.0.number == 0);
        *marking = *left.1;
        Ok(left.0)
    }

    /// Compares a run; gives its answer and the marking after it.
    pub fn run(
        &mut self,
        model: &HeldModel,
        marking: &HeldMarking,
        text: &[u8],
    ) -> Compared<(Ran, Box<HeldMarking>)> {
        let context = Context { call: "run", texts: &[text] };
        let lent = Lent::new(text);
        let lent_model = Box::new(model.clone());
        let [left, right] = self.engines().map(|engine| {
            let mut after = Box::new(marking.clone());
            (engine.run(&lent_model, &mut after, lent.text()), after)
        });
        self.tally.count(context.call, right.0.number);
        context.same("answer", &left.0, &right.0)?;
        context.same_marking("marking", &left.1, &right.1)?;
        context.same_model("lent model", &lent_model, model)?;
        context.untouched(&lent, text)?;
        self.tally.fired += left.0.fired as u64;
        Ok(left)
    }

    pub fn ways(&mut self, tokens: usize, racks: usize) -> Compared<Spread> {
        let context = Context { call: "ways", texts: &[] };
        let [left, right] = self.engines().map(|engine| engine.ways(tokens, racks));
        self.tally.count(context.call, right.number);
        context.same("answer", &(tokens, racks, left), &(tokens, racks, right))?;
        Ok(left)
    }

    /// Compares a conversion; gives what an accepted one holds.
    pub fn convert(&mut self, model: &HeldModel) -> Compared<Option<Box<Converted>>> {
        let context = Context { call: "convert", texts: &[] };
        let lent_model = Box::new(model.clone());
        let [left, right] = self.engines().map(|engine| engine.convert(&lent_model));
        self.tally.count(context.call, right.answer.number);
        context.same("answer", &left.answer, &right.answer)?;
        context.same_model("model", &left.model, &right.model)?;
        context.same("numbers", &left.numbers, &right.numbers)?;
        context.same_model("lent model", &lent_model, model)?;
        Ok((left.answer.number == 0).then_some(left))
    }

    /// Compares the listing of three files, written to a buffer with this room.
    pub fn listing(&mut self, files: [&[u8]; 3], room: usize) -> Compared<Written> {
        let context = Context { call: "listing", texts: &files };
        let lent = files.map(Lent::new);
        let written = self.written(&context, room, |engine, out| {
            engine.listing(lent[0].text(), lent[1].text(), lent[2].text(), out)
        })?;
        for (lent, file) in lent.iter().zip(files) {
            context.untouched(lent, file)?;
        }
        Ok(written)
    }
}
