//! The texts of models, weights, steps and traces.

use crate::marking::{push_tokens, Line};
use crate::model::{Event, Mode, Model, Transition};
use crate::text::{push_line, push_list};
use crate::weights::Weights;

use super::steps::{StepPlan, Token};

fn push_bytes(out: &mut Vec<u8>, key: &str, numbers: &[u8]) {
    out.extend_from_slice(key.as_bytes());
    out.push(b'=');
    push_list(out, numbers.iter().map(|&number| usize::from(number)));
    out.push(b'\n');
}

fn push_transitions(out: &mut Vec<u8>, transitions: &[Transition]) {
    for Transition { pre, post } in transitions {
        push_bytes(out, "pre", pre);
        push_bytes(out, "post", post);
    }
}

fn push_event(out: &mut Vec<u8>, event: &Event) {
    match event.mode {
        Mode::Move(index) => push_line(out, "event", index + 1),
        Mode::Idle(place) => push_line(out, "idle", place + 1),
        Mode::Alone(net) => push_line(out, "alone", net + 1),
    }
    for counts in &event.sync {
        push_bytes(out, "sync", counts);
    }
}

/// A model's text, its start of these lines.
pub fn model_text(model: &Model, start: &[Line]) -> Vec<u8> {
    let mut out = Vec::new();
    push_line(&mut out, "eos", model.header.number());
    push_line(&mut out, "nets", model.nets.len());
    push_line(&mut out, "places", model.places());
    push_bytes(&mut out, "type", &model.types);
    push_line(&mut out, "moves", model.moves.len());
    push_transitions(&mut out, &model.moves);
    for net in &model.nets {
        push_line(&mut out, "inner", net.places);
        push_line(&mut out, "steps", net.transitions.len());
        push_transitions(&mut out, &net.transitions);
    }
    push_line(&mut out, "events", model.events.len());
    model.events.iter().for_each(|event| push_event(&mut out, event));
    out.extend(marking_text(model, start));
    out
}

/// A marking's text of these lines.
pub fn marking_text(model: &Model, lines: &[Line]) -> Vec<u8> {
    let mut out = Vec::new();
    push_line(&mut out, "start", lines.len());
    push_tokens(&mut out, model, lines);
    out
}

/// A weight file.
pub fn weights_text(weights: &Weights) -> Vec<u8> {
    let list = |weights: &[i64]| weights.iter().map(i64::to_string).collect::<Vec<_>>().join(",");
    let mut text = format!("inv=1\nouter={}\n", list(&weights.outer));
    for inner in &weights.inner {
        text += &format!("inner={}\n", list(inner));
    }
    text.into_bytes()
}

/// A step's text.
pub fn step_text(step: &StepPlan) -> Vec<u8> {
    let mut out = Vec::new();
    push_line(&mut out, "fire", step.event);
    push_block(&mut out, "take", &step.taken);
    push_block(&mut out, "give", &step.given);
    out
}

fn push_block(out: &mut Vec<u8>, key: &str, tokens: &[Token]) {
    push_line(out, key, tokens.len());
    for token in tokens {
        out.extend_from_slice(format!("token={}:", token.place).as_bytes());
        push_list(out, token.inside.iter().map(|&count| count as usize));
        if token.times > 1 {
            out.extend_from_slice(format!("*{}", token.times).as_bytes());
        }
        out.push(b'\n');
    }
}

/// The text of a step with these token lines, each from behind its sign on.
pub fn step_of(event: usize, taken: &[&str], given: &[&str]) -> Vec<u8> {
    let block = |key: &str, tokens: &[&str]| format!("{key}={}\n{}", tokens.len(), token_lines(tokens));
    format!("fire={event}\n{}{}", block("take", taken), block("give", given)).into_bytes()
}

/// Token lines, each from behind its sign on.
pub fn token_lines(tokens: &[&str]) -> String {
    tokens.iter().map(|token| format!("token={token}\n")).collect()
}

/// A trace of these steps' texts.
pub fn trace_text(steps: &[Vec<u8>]) -> Vec<u8> {
    let mut out = b"run=1\n".to_vec();
    steps.iter().for_each(|step| out.extend_from_slice(step));
    out
}
