//! Two ways to the same answer, on made-up plants.

use std::collections::BTreeMap;

use reference::convert::convert;
use reference::engine::{Engine, Reference};
use reference::generate::held_damage::{damage_marking, damage_model};
use reference::generate::limits::{model_of_length, round_trip, trace_of_length};
use reference::generate::plant::{plant, Plant};
use reference::generate::rng::Rng;
use reference::generate::steps::{firing_step, fold, poor_step, spoil, StepPlan};
use reference::generate::texts::{model_text, step_text};
use reference::held::{hold_marking, hold_model, HeldEntry, HeldMarking, HeldModel};
use reference::marking::{Line, Marking};
use reference::model::{
    read_model, Header, Mode, Model, EVENTS, INNER, LINES, MOVES, NETS, PLACES, TOKENS, TRANSITIONS,
};
use reference::own_run::OwnRun;
use reference::step::{run, step};

fn list<T: ToString>(numbers: &[T]) -> String {
    numbers.iter().map(T::to_string).collect::<Vec<_>>().join(",")
}

fn arcs(pre: &[u8], post: &[u8], number: usize, places: usize) -> String {
    let row = |arcs: &[u8], at: usize| list(&arcs[at * 32..at * 32 + places]);
    (0..number).map(|at| format!("pre={}\npost={}\n", row(pre, at), row(post, at))).collect()
}

/// A held model and marking as a text, where their sizes allow one.
fn print(held: &HeldModel, marking: &HeldMarking) -> Option<String> {
    let nets = held.objects.get(..held.nets)?;
    if held.places > PLACES || held.moves > MOVES || held.listed > EVENTS || marking.len > TOKENS {
        return None;
    }
    let types = list(&held.types[..held.places]);
    let HeldModel { header, nets: number, places, .. } = held;
    let mut text = format!("eos={header}\nnets={number}\nplaces={places}\ntype={types}\n");
    text += &format!("moves={}\n{}", held.moves, arcs(&held.pre, &held.post, held.moves, held.places));
    for net in nets {
        if net.places > INNER || net.transitions > TRANSITIONS {
            return None;
        }
        let transitions = arcs(&net.pre, &net.post, net.transitions, net.places);
        text += &format!("inner={}\nsteps={}\n{transitions}", net.places, net.transitions);
    }
    text += &format!("events={}\n", held.listed);
    for event in &held.events[..held.listed] {
        let key = ["none", "event", "idle", "alone"].get(usize::from(event.kind)).unwrap_or(&"none");
        text += &format!("{key}={}\n", event.index);
        for (at, net) in nets.iter().enumerate() {
            text += &format!("sync={}\n", list(&event.sync[at * 32..at * 32 + net.transitions]));
        }
    }
    text += &format!("start={}\n", marking.len);
    text.extend(marking.entries[..marking.len].iter().map(|entry| token(held, entry)));
    Some(text)
}

fn token(held: &HeldModel, HeldEntry { token, times }: &HeldEntry) -> String {
    let net = held.types.get(usize::from(token.place).wrapping_sub(1)).map_or(0, |&net| usize::from(net));
    let places = if (1..=held.nets).contains(&net) { held.objects[net - 1].places } else { 0 };
    let likes = if *times == 1 { String::new() } else { format!("*{times}") };
    format!("token={}:{}{likes}\n", token.place, list(&token.counts[..places]))
}

/// Whether printing and reading give the same held model and marking.
fn is_read(model: &HeldModel, marking: &HeldMarking) -> bool {
    let text = print(model, marking).unwrap_or_default();
    let read = read_model(text.as_bytes());
    read.is_ok_and(|(read, start)| hold_model(&read) == *model && hold_marking(&start) == *marking)
}

fn made(case: u64) -> (Rng, Plant) {
    let mut rng = Rng::new(77, case);
    let plant = plant(&mut rng);
    (rng, plant)
}

#[test]
fn held_tests_agree_with_printing_and_reading() {
    let reference = Reference::new();
    let mut right = [0, 0];
    for case in 0..400 {
        let (mut rng, plant) = made(case);
        let model = hold_model(&plant.model);
        let marking = hold_marking(&Marking::new(&plant.start));
        assert!(is_read(&model, &marking) && reference.test_marking(&model, &marking));
        for _ in 0..8 {
            let (mut wrong_model, mut wrong_marking) = (model.clone(), marking.clone());
            damage_model(&mut rng, &mut wrong_model);
            damage_marking(&mut rng, &mut wrong_marking);
            let read = is_read(&wrong_model, &HeldMarking::empty());
            assert_eq!(reference.test_model(&wrong_model), read, "case {case}");
            right[usize::from(read)] += 1;
            assert_eq!(reference.test_marking(&model, &wrong_marking), is_read(&model, &wrong_marking));
            assert_eq!(reference.test_marking(&wrong_model, &marking), is_read(&wrong_model, &marking));
        }
    }
    assert!(right[0] > 200 && right[1] > 200, "{right:?}");
}

#[test]
fn steps_within_the_limits_agree_with_the_own_run() {
    let mut answers = [0, 0];
    for case in 0..1_500 {
        let (mut rng, plant) = made(case);
        let (model, start) = read_model(&model_text(&plant.model, &plant.start)).unwrap();
        for _ in 0..12 {
            let mut marking = start.clone();
            let mut run = OwnRun::new(&model, &start);
            let firing = firing_step(&mut rng, &model, &start.lines());
            let Some(mut plan) = firing.or_else(|| poor_step(&mut rng, &model, &start.lines())) else {
                continue;
            };
            if rng.percent(60) {
                spoil(&mut rng, &model, &mut plan);
            }
            fold(&mut rng, &mut plan);
            let text = step_text(&plan);
            let stepped = step(&model, &mut marking, &text);
            let limited = stepped.is_err_and(|refusal| [3, 12].contains(&refusal.number));
            let fired = run.feed(&text);
            assert!(limited || stepped.is_ok() == fired, "case {case}");
            assert!(limited || run.lines() == Some(marking.lines()), "case {case}");
            answers[usize::from(fired)] += 1;
        }
    }
    assert!(answers[0] > 1_000 && answers[1] > 1_000, "{answers:?}");
}

/// What a step says and leaves, but for a line beside it.
fn answered(model: &Model, start: &Marking, plan: &StepPlan) -> (usize, Option<usize>, Vec<Line>) {
    let mut marking = start.clone();
    let (number, beside) = match step(model, &mut marking, &step_text(plan)) {
        Ok(_) => (0, None),
        Err(refusal) if refusal.beside_a_line() => (refusal.number, None),
        Err(refusal) => (refusal.number, Some(refusal.beside)),
    };
    (number, beside, marking.lines())
}

/// A step whose likes are written together says and leaves what it does net-token by net-token, and so does a start.
#[test]
fn likes_together_or_line_by_line() {
    let mut answers = BTreeMap::new();
    for case in 0..2_000 {
        let (mut rng, plant) = made(case);
        let (model, start) = read_model(&model_text(&plant.model, &plant.start)).unwrap();
        let single = |line: &Line| vec![Line::new(line.row, 1); line.times as usize];
        let racks: u64 = plant.start.iter().map(|line| line.times).sum();
        if racks <= LINES as u64 {
            let lines: Vec<Line> = plant.start.iter().flat_map(single).collect();
            assert_eq!(read_model(&model_text(&plant.model, &lines)).unwrap().1, start);
        }
        for _ in 0..8 {
            let firing = firing_step(&mut rng, &model, &start.lines());
            let Some(mut plan) = firing.or_else(|| poor_step(&mut rng, &model, &start.lines())) else {
                continue;
            };
            if rng.percent(50) {
                spoil(&mut rng, &model, &mut plan);
            }
            let mut together = plan.clone();
            fold(&mut rng, &mut together);
            let lines = |plan: &StepPlan| plan.taken.len() + plan.given.len();
            let few = plan.taken.len().max(plan.given.len()) <= LINES;
            if few && lines(&together) < lines(&plan) {
                let answer = answered(&model, &start, &plan);
                assert_eq!(answered(&model, &start, &together), answer, "case {case}");
                *answers.entry(answer.0).or_insert(0) += 1;
            }
        }
    }
    assert!([0, 8, 9, 10, 11, 12].iter().all(|number| answers.get(number) > Some(&20)), "{answers:?}");
}

#[test]
fn texts_of_exact_lengths_are_right() {
    for length in [65_535, 65_536, 65_537] {
        let text = model_of_length(length);
        assert!(text.len() == length && read_model(&text).is_ok());
    }
    let (model, start) = read_model(&round_trip()).unwrap();
    for length in [65_536, 1_048_576] {
        let trace = trace_of_length(length);
        let ran = run(&model, &mut start.clone(), &trace);
        assert!(trace.len() == length && ran.stop.is_ok() && ran.fired > length / 40);
    }
}

#[test]
fn plants_of_every_size_are_right() {
    let mut most = [0; 4];
    for case in 0..600 {
        let (_, plant) = made(case);
        let text = model_text(&plant.model, &plant.start);
        let (model, start) = read_model(&text).unwrap_or_else(|refusal| panic!("case {case}: {refusal:?}"));
        assert!(model == plant.model && start == Marking::new(&plant.start));
        let sizes = [model.nets.len(), model.places(), model.events.len(), start.lines().len()];
        most = std::array::from_fn(|at| most[at].max(sizes[at]));
    }
    assert_eq!(most, [NETS, PLACES, EVENTS, TOKENS]);
}

/// The text of a model with its idle events as `alone` ones, made line by line, if each stands at every place of its net; of
/// like ones the first is kept.
fn alone_text(model: &Model, start: &[Line]) -> Option<String> {
    let text = String::from_utf8(model_text(model, start)).unwrap();
    let (head, rest) = text.split_once("events=").unwrap();
    let (_, rest) = rest.split_once('\n').unwrap();
    let (events, start) = rest.split_at(rest.find("start=").unwrap());
    let lines: Vec<&str> = events.split_inclusive('\n').collect();
    let events: Vec<String> = lines.chunks(1 + model.nets.len()).map(|lines| lines.concat()).collect();
    let mut kept: Vec<String> = Vec::new();
    for event in &events {
        let Some((place, counts)) = event.strip_prefix("idle=").and_then(|rest| rest.split_once('\n')) else {
            kept.push(event.clone());
            continue;
        };
        let net = model.types[place.parse::<usize>().unwrap() - 1];
        let halls = (1..=model.places()).filter(|&place| model.types[place - 1] == net);
        if !halls.map(|place| format!("idle={place}\n{counts}")).all(|like| events.contains(&like)) {
            return None;
        }
        let alone = format!("alone={net}\n{counts}");
        if !kept.contains(&alone) {
            kept.push(alone);
        }
    }
    let head = head.replacen("eos=1", "eos=2", 1);
    Some(format!("{head}events={}\n{}{start}", kept.len(), kept.concat()))
}

#[test]
fn conversions_agree_with_rewritten_texts() {
    let mut met = [0; 3];
    for case in 0..3_000 {
        let (_, plant) = made(case);
        let model = plant.model;
        if model.header == Header::Two {
            let converted = convert(&model).unwrap();
            assert!(converted.model == model && converted.numbers.into_iter().eq(1..=model.events.len()));
            continue;
        }
        let (text, converted) = (alone_text(&model, &plant.start), convert(&model));
        let read = text.map(|text| read_model(text.as_bytes()).unwrap().0);
        assert_eq!(converted.as_ref().ok().map(|converted| &converted.model), read.as_ref(), "case {case}");
        let Ok(converted) = converted else {
            met[0] += 1;
            continue;
        };
        for (event, &number) in model.events.iter().zip(&converted.numbers) {
            let new = &converted.model.events[number - 1];
            let mode = match event.mode {
                Mode::Idle(place) => Mode::Alone(model.net_of(place).unwrap()),
                other => other,
            };
            assert!(new.mode == mode && new.sync == event.sync);
        }
        met[1 + usize::from(converted.model.events.len() < model.events.len())] += 1;
    }
    assert!(met.iter().all(|&times| times > 50), "{met:?}");
}
