//! The column at which a text is refused.

use std::collections::HashSet;

use reference::calls::{self, Answer};
use reference::cause::Refusal;
use reference::column::{of_syntax, Right};
use reference::generate::limits;
use reference::generate::line_damage::{damage_line, kind_of_byte};
use reference::generate::plant::plant;
use reference::generate::rng::Rng;
use reference::generate::texts::model_text;
use reference::held::{HeldMarking, HeldModel};
use reference::marking::read_marking;
use reference::model::{self, Model};
use reference::text::Reader;

/// Two halls of a net with two inner places, one for black tokens, and a net without transitions.
const MODEL: &str = "eos=1\nnets=2\nplaces=3\ntype=1,1,0\nmoves=1\npre=1,0,0\npost=0,1,0\ninner=2\nsteps=2\npre=1,0\n\
    post=0,1\npre=0,0\npost=0,0\ninner=1\nsteps=0\nevents=1\nevent=1\nsync=1,0\nsync=\nstart=1\ntoken=1:1,0\n";
/// The keys of a model.
#[rustfmt::skip]
const KEYS: [&str; 16] = [
    "eos", "nets", "places", "type", "moves", "pre", "post", "inner", "steps", "events", "event", "idle", "alone",
    "sync", "start", "token",
];
const WEIGHTS: &str = "inv=1\nouter=1,1,1\ninner=1,1\ninner=1\n";
const STEP: &str = "fire=1\ntake=1\ntoken=1:1,0\ngive=1\ntoken=2:0,1\n";

fn held() -> (Box<HeldModel>, Box<HeldMarking>) {
    let read = calls::read_model(MODEL.as_bytes());
    assert_eq!(read.answer, Answer::default());
    (Box::new(read.model), Box::new(read.start))
}

/// The answer to the model with its first line `old` put otherwise; lines are put with their LF.
fn model_with(old: &str, new: &str) -> (usize, usize, usize) {
    model_read(&replaced(MODEL, old, new))
}

/// So under `eos=2`.
fn second_with(old: &str, new: &str) -> (usize, usize, usize) {
    model_read(&replaced(&replaced(MODEL, "eos=1\n", "eos=2\n"), old, new))
}

fn model_read(text: &str) -> (usize, usize, usize) {
    let Answer { number, beside, column } = calls::read_model(text.as_bytes()).answer;
    (number, beside, column)
}

fn marking(text: &str) -> (usize, usize, usize) {
    let Answer { number, beside, column } = calls::read_marking(&held().0, text.as_bytes()).answer;
    (number, beside, column)
}

fn weights_with(old: &str, new: &str) -> (usize, usize, usize) {
    let (model, start) = held();
    let weighed = calls::check_weights(&model, &start, replaced(WEIGHTS, old, new).as_bytes());
    (weighed.number, weighed.beside, weighed.column)
}

/// The answer to a step, and to a trace in which it follows one that fires.
fn step_with(old: &str, new: &str) -> (usize, usize, usize) {
    let (model, start) = held();
    let text = replaced(STEP, old, new);
    let stepped = calls::step(&model, &mut start.clone(), text.as_bytes());
    let trace = format!("run=1\n{STEP}{text}");
    let ran = calls::run(&model, &mut start.clone(), trace.as_bytes());
    assert_eq!((ran.number, ran.beside, ran.column), (stepped.number, stepped.beside, stepped.column));
    assert_eq!((ran.fired, ran.at), (1, 6 + STEP.len()));
    (stepped.number, stepped.beside, stepped.column)
}

fn run(text: &str) -> (usize, usize, usize) {
    let (model, mut start) = held();
    let ran = calls::run(&model, &mut start, text.as_bytes());
    (ran.number, ran.beside, ran.column)
}

fn replaced(text: &str, old: &str, new: &str) -> String {
    assert!(text.contains(old), "{old}");
    text.replacen(old, new, 1)
}

#[test]
fn headers() {
    assert_eq!(model_with("eos=1\n", "eos=2\n"), (0, 0, 0));
    assert_eq!(model_with("eos=1\n", "eos=3\n"), (2, 1, 5));
    assert_eq!(model_with("eos=1\n", "eos=0\n"), (2, 1, 5));
    assert_eq!(model_with("eos=1\n", "eos=02\n"), (2, 1, 5));
    assert_eq!(model_with("eos=1\n", "eos=12\n"), (2, 1, 6));
    assert_eq!(model_with("eos=1\n", "eos=21\n"), (2, 1, 6));
    assert_eq!(model_with(MODEL, "eos=2"), (2, 1, 6));
    assert_eq!(model_with(MODEL, "eos="), (2, 1, 5));
    assert_eq!(model_with(MODEL, "eo"), (2, 1, 3));
    assert_eq!(model_with(MODEL, "eos=2\n"), (2, 2, 1));
    assert_eq!(weights_with("inv=1\n", "inv=2\n"), (2, 1, 5));
    assert_eq!(run("run=2\n"), (2, 1, 5));
    assert_eq!(model_with("eos=1\n", "eos=11\n"), (2, 1, 6));
    assert_eq!(model_with("eos=1\n", "eos=\n"), (2, 1, 5));
    assert_eq!(model_with("eos=1\n", "eos1\n"), (2, 1, 4));
    assert_eq!(model_with("eos=1\n", "\n"), (2, 1, 1));
    assert_eq!(weights_with("inv=1\n", "inv=01\n"), (2, 1, 5));
    assert_eq!(run("run=1"), (2, 1, 6));
    assert_eq!(run("run="), (2, 1, 5));
    assert_eq!(run("run=1\r\n"), (2, 1, 6));
    assert_eq!(run(""), (2, 1, 1));
}

#[test]
fn two_keys_at_one_place() {
    assert_eq!(model_with("event=1\n", "ivent=1\n"), (2, 17, 2));
    assert_eq!(model_with("event=1\n", "xvent=1\n"), (2, 17, 1));
    assert_eq!(model_with("event=1\n", "edle=1\n"), (2, 17, 2));
    assert_eq!(model_with("event=1\n", "events=1\n"), (2, 17, 6));
    assert_eq!(model_with("event=1\n", "idles=1\n"), (2, 17, 5));
    assert_eq!(model_with("event=1\n", "idle=4\n"), (3, 17, 6));
    assert_eq!(model_with("event=1\n", "event=2\n"), (3, 17, 7));
    assert_eq!(model_with("event=1\n", "event=0\n"), (3, 17, 7));
    assert_eq!(model_with("event=1\n", "idle=3\n"), (5, 17, 0));
}

/// `idle` is no key of `eos=2`, nor `alone` one of `eos=1`.
#[test]
fn keys_of_either_header() {
    assert_eq!(model_with("event=1\n", "alone=1\n"), (2, 17, 1));
    assert_eq!(model_with("event=1\n", "alone=9\n"), (2, 17, 1));
    assert_eq!(second_with("event=1\n", "idle=1\n"), (2, 17, 1));
    assert_eq!(second_with("event=1\n", "idle=9\n"), (2, 17, 1));
    assert_eq!(second_with("event=1\n", "event=1\n"), (0, 0, 0));
    assert_eq!(second_with("event=1\n", "event=2\n"), (3, 17, 7));
    assert_eq!(second_with("event=1\n", "xvent=1\n"), (2, 17, 1));
    assert_eq!(second_with("event=1\n", "avent=1\n"), (2, 17, 2));
    assert_eq!(second_with("event=1\n", "elone=1\n"), (2, 17, 2));
    assert_eq!(second_with("event=1\n", "alon=1\n"), (2, 17, 5));
    assert_eq!(second_with("event=1\n", "alones=1\n"), (2, 17, 6));
    assert_eq!(second_with("event=1\n", "alone\n"), (2, 17, 6));
    assert_eq!(second_with("event=1\n", "alone=\n"), (2, 17, 7));
    assert_eq!(second_with("event=1\n", "alone=-1\n"), (2, 17, 7));
    assert_eq!(second_with("event=1\n", "alone=01\n"), (2, 17, 8));
    assert_eq!(second_with("event=1\n", "alone=1,1\n"), (2, 17, 8));
    assert_eq!(second_with(&MODEL[MODEL.find("event=").unwrap()..], "alone=1"), (2, 17, 8));
    assert_eq!(second_with(&MODEL[MODEL.find("event=").unwrap()..], "alone=3"), (2, 17, 8));
}

#[test]
fn nets_that_are_alone() {
    assert_eq!(second_with("event=1\n", "alone=1\n"), (0, 0, 0));
    assert_eq!(second_with("event=1\n", "alone=0\n"), (3, 17, 7));
    assert_eq!(second_with("event=1\n", "alone=3\n"), (3, 17, 7));
    assert_eq!(second_with("event=1\n", "alone=18446744073709551617\n"), (3, 17, 7));
    assert_eq!(second_with("event=1\n", "alone=2\n"), (5, 18, 0));
    assert_eq!(second_with("event=1\nsync=1,0\n", "alone=1\nsync=0,0\n"), (5, 18, 0));
    assert_eq!(second_with("event=1\nsync=1,0\n", "alone=2\nsync=0,0\n"), (5, 19, 0));
    assert_eq!(second_with("event=1\nsync=1,0\n", "alone=2\nsync=256,0\n"), (3, 18, 6));
    let no_nets = |line: &str| {
        let head = "eos=2\nnets=0\nplaces=1\ntype=0\nmoves=0\nevents=1\n";
        model_read(&format!("{head}{line}\nstart=0\n"))
    };
    assert_eq!(no_nets("alone=0"), (3, 7, 7));
    assert_eq!(no_nets("alone=1"), (3, 7, 7));
    assert_eq!(no_nets("idle=1"), (2, 7, 1));
}

#[test]
fn lists_too_long_and_too_short() {
    assert_eq!(model_with("type=1,1,0\n", "type=1,1,0,9\n"), (2, 4, 11));
    assert_eq!(model_with("type=1,1,0\n", "type=1,1\n"), (2, 4, 9));
    assert_eq!(model_with("type=1,1,0\n", "type=\n"), (2, 4, 6));
    assert_eq!(model_with("type=1,1,0\n", "type=9,9,\n"), (2, 4, 10));
    assert_eq!(model_with("sync=\n", "sync=0\n"), (2, 19, 6));
    assert_eq!(model_with("sync=\n", "sync=,\n"), (2, 19, 6));
    assert_eq!(model_with("sync=\n", "sync"), (2, 19, 5));
}

#[test]
fn zeros_and_signs() {
    assert_eq!(model_with("nets=2\n", "nets=02\n"), (2, 2, 7));
    assert_eq!(model_with("nets=2\n", "nets=-2\n"), (2, 2, 6));
    assert_eq!(model_with("sync=1,0\n", "sync=1,-0\n"), (2, 18, 8));
    assert_eq!(weights_with("outer=1,1,1\n", "outer=-1,-0,1\n"), (2, 2, 11));
    assert_eq!(weights_with("outer=1,1,1\n", "outer=-,1,1\n"), (2, 2, 8));
    assert_eq!(weights_with("outer=1,1,1\n", "outer=--1,1,1\n"), (2, 2, 8));
    assert_eq!(weights_with("outer=1,1,1\n", "outer=1-,1,1\n"), (2, 2, 8));
    assert_eq!(weights_with("inner=1,1\n", "inner=01,1\n"), (2, 3, 8));
    assert_eq!(weights_with("inner=1\n", "inner=-1000\nx"), (2, 5, 1));
}

#[test]
fn first_number_out_of_range() {
    assert_eq!(model_with("nets=2\n", "nets=99\n"), (3, 2, 6));
    assert_eq!(model_with("nets=2\n", "nets=123456789012345678901234567890\n"), (3, 2, 6));
    assert_eq!(model_with("type=1,1,0\n", "type=1,3,3\n"), (3, 4, 8));
    assert_eq!(model_with("inner=2\n", "inner=0\n"), (3, 8, 7));
    assert_eq!(weights_with("outer=1,1,1\n", "outer=1000,-1001,1001\n"), (3, 2, 12));
    assert_eq!(weights_with("outer=1,1,1\n", "outer=-1001,1,1\n"), (3, 2, 7));
    assert_eq!(step_with("fire=1\n", "fire=0\n"), (3, 1, 6));
    assert_eq!(step_with("take=1\n", "take=257\n"), (3, 2, 6));
    assert_eq!(step_with("token=1:1,0\n", "token=1:65536,65536\n"), (3, 3, 9));
    assert_eq!(step_with("token=2:0,1\n", "token=2:0,65536\n"), (3, 5, 11));
}

/// Ranges are asked of right lines alone.
#[test]
fn syntax_before_range() {
    assert_eq!(model_with(&MODEL[6..], "nets=99"), (2, 2, 8));
    assert_eq!(model_with("type=1,1,0\n", "type=9,9,x\n"), (2, 4, 10));
    assert_eq!(step_with("token=1:1,0\n", "token=1:65536\n"), (2, 3, 14));
    assert_eq!(weights_with("inner=1,1\n", "inner=2000,2000,0\n"), (2, 3, 16));
}

#[test]
fn token_lines() {
    assert_eq!(marking("start=1\ntoken=1:1,0\n"), (0, 0, 0));
    assert_eq!(marking("start=1\ntoken=1:1\n"), (2, 2, 10));
    assert_eq!(marking("start=1\ntoken=1:1,0,0\n"), (2, 2, 12));
    assert_eq!(marking("start=1\ntoken=3:0\n"), (2, 2, 9));
    assert_eq!(marking("start=1\ntoken=1\n"), (2, 2, 8));
    assert_eq!(marking("start=1\ntoken=10\n"), (2, 2, 9));
    assert_eq!(marking("start=1\ntoken=01:1,0\n"), (2, 2, 8));
    assert_eq!(marking("start=1\ntoken=:\n"), (2, 2, 7));
    assert_eq!(marking("start=1\ntoken=-1:\n"), (2, 2, 7));
    assert_eq!(marking("start=1\ntoken=9:1,\n"), (2, 2, 11));
    assert_eq!(marking("start=1\ntoken=9:1,0,0\n"), (3, 2, 7));
    assert_eq!(marking("start=1\ntoken=9:\n"), (3, 2, 7));
    assert_eq!(marking("start=1\ntoken=0:1,70000\n"), (3, 2, 7));
    assert_eq!(marking("start=1\ntoken=12:1:\n"), (2, 2, 11));
    assert_eq!(marking("start=257\n"), (3, 1, 7));
}

#[test]
fn likes_behind_token_lines() {
    assert_eq!(marking("start=1\ntoken=1:1,0*2\n"), (0, 0, 0));
    assert_eq!(marking("start=1\ntoken=1:1,0*10\n"), (0, 0, 0));
    assert_eq!(marking("start=1\ntoken=1:1,0*65535\n"), (0, 0, 0));
    assert_eq!(marking("start=1\ntoken=3:*5\n"), (0, 0, 0));
    assert_eq!(marking("start=1\ntoken=1:1,0*0\n"), (2, 2, 13));
    assert_eq!(marking("start=1\ntoken=1:1,0*1\n"), (2, 2, 14));
    assert_eq!(marking("start=1\ntoken=1:1,0*01\n"), (2, 2, 13));
    assert_eq!(marking("start=1\ntoken=1:1,0*02\n"), (2, 2, 13));
    assert_eq!(marking("start=1\ntoken=1:1,0*\n"), (2, 2, 13));
    assert_eq!(marking("start=1\ntoken=1:1,0*-2\n"), (2, 2, 13));
    assert_eq!(marking("start=1\ntoken=1:1,0**2\n"), (2, 2, 13));
    assert_eq!(marking("start=1\ntoken=1:1,0*2*2\n"), (2, 2, 14));
    assert_eq!(marking("start=1\ntoken=1:1,0*2x\n"), (2, 2, 14));
    assert_eq!(marking("start=1\ntoken=1:1,0*1x\n"), (2, 2, 14));
    assert_eq!(marking("start=1\ntoken=1:1,0*2,0\n"), (2, 2, 14));
    assert_eq!(marking("start=1\ntoken=1:1*2\n"), (2, 2, 10));
    assert_eq!(marking("start=1\ntoken=1:*2\n"), (2, 2, 9));
    assert_eq!(marking("start=1\ntoken=1:1,*2\n"), (2, 2, 11));
    assert_eq!(marking("start=1\ntoken=1:1,0,0*2\n"), (2, 2, 12));
    assert_eq!(marking("start=1\ntoken=3:0*2\n"), (2, 2, 9));
    assert_eq!(marking("start=1\ntoken=1*2:1,0\n"), (2, 2, 8));
    assert_eq!(marking("start=1\ntoken=3:*0\n"), (2, 2, 10));
    assert_eq!(marking("start=1\ntoken=3:*1\n"), (2, 2, 11));
    assert_eq!(marking("start=1*2\ntoken=3:\n"), (2, 1, 8));
}

/// The syntax of a line with an unknown place is tested; then its place comes before its likes.
#[test]
fn likes_of_an_unknown_place() {
    assert_eq!(marking("start=1\ntoken=9:0*1\n"), (2, 2, 12));
    assert_eq!(marking("start=1\ntoken=9:0*0\n"), (2, 2, 11));
    assert_eq!(marking("start=1\ntoken=9:0*\n"), (2, 2, 11));
    assert_eq!(marking("start=1\ntoken=9:*1\n"), (2, 2, 11));
    assert_eq!(marking("start=1\ntoken=9:0,*2\n"), (2, 2, 11));
    assert_eq!(marking("start=1\ntoken=9:0*2\n"), (3, 2, 7));
    assert_eq!(marking("start=1\ntoken=9:*2\n"), (3, 2, 7));
    assert_eq!(marking("start=1\ntoken=9:0,0,70000*70000\n"), (3, 2, 7));
}

#[test]
fn likes_out_of_range() {
    assert_eq!(marking("start=1\ntoken=1:1,0*65536\n"), (3, 2, 13));
    assert_eq!(marking("start=1\ntoken=3:*65536\n"), (3, 2, 10));
    assert_eq!(marking("start=1\ntoken=3:*4294967298\n"), (3, 2, 10));
    assert_eq!(marking("start=1\ntoken=3:*18446744073709551618\n"), (3, 2, 10));
    assert_eq!(marking("start=1\ntoken=1:70000,0*70000\n"), (3, 2, 9));
    assert_eq!(marking("start=1\ntoken=1:0,70000*70000\n"), (3, 2, 11));
    assert_eq!(step_with("token=1:1,0\n", "token=1:1,0*65536\n"), (3, 3, 13));
    assert_eq!(step_with("token=2:0,1\n", "token=2:0,1*65536\n"), (3, 5, 13));
    assert_eq!(step_with("token=1:1,0\n", "token=1:1,0*1\n"), (2, 3, 14));
    assert_eq!(model_with("token=1:1,0\n", "token=1:1,0*65536\n"), (3, 21, 13));
    assert_eq!(model_with("token=1:1,0\n", "token=1:1,0*0\n"), (2, 21, 13));
}

#[test]
fn early_ends() {
    assert_eq!(marking("start=1\ntoken=1:1,0*2"), (2, 2, 14));
    assert_eq!(marking("start=1\ntoken=1:1,0*1"), (2, 2, 14));
    assert_eq!(marking("start=1\ntoken=1:1,0*"), (2, 2, 13));
    assert_eq!(marking("start=1\ntoken=1:1,0*70000"), (2, 2, 18));
    assert_eq!(marking(""), (2, 1, 1));
    assert_eq!(marking("sta"), (2, 1, 4));
    assert_eq!(marking("start=0"), (2, 1, 8));
    assert_eq!(marking("start=1\n"), (2, 2, 1));
    assert_eq!(marking("start=1\ntoken=1:1,0"), (2, 2, 12));
    assert_eq!(marking("start=0\n\n"), (2, 2, 1));
    assert_eq!(marking("start=0\nx"), (2, 2, 1));
    assert_eq!(step_with(&STEP[7..], "take=1\ntoken=1"), (2, 3, 8));
}

#[test]
fn all_else_has_no_column() {
    assert_eq!(step_with("token=1:1,0\n", "token=2:1,0\n"), (8, 2, 0));
    assert_eq!(weights_with("outer=1,1,1\n", "outer=1,2,1\n"), (7, 1, 0));
    assert_eq!(weights_with(WEIGHTS, "inv=1\nouter=0,0,0\ninner=0,0\ninner=0\n"), (6, 4, 0));
    assert_eq!(marking("start=2\ntoken=3:*65535\ntoken=3:\n"), (12, 3, 0));
    assert_eq!(calls::ways(32, 0).column, 0);
    assert_eq!(calls::read_marking(&HeldModel::empty(), b"").answer.column, 0);
}

#[test]
fn a_column_is_as_large_as_a_line() {
    let mut text = b"fire=".to_vec();
    text.resize(1_048_576, b'1');
    let (model, mut start) = held();
    let stepped = calls::step(&model, &mut start, &text);
    assert_eq!((stepped.number, stepped.beside, stepped.column), (2, 1, 1_048_577));
    *text.last_mut().unwrap() = b'\n';
    let stepped = calls::step(&model, &mut start, &text);
    assert_eq!((stepped.number, stepped.beside, stepped.column), (3, 1, 6));
}

/// All texts of these bytes, up to this length, with no byte behind a LF.
fn texts(bytes: &[u8], longest: usize) -> Vec<Vec<u8>> {
    let mut all = vec![Vec::new()];
    let mut longer: Vec<Vec<u8>> = all.clone();
    for _ in 0..longest {
        let unended = longer.iter().filter(|text| text.last() != Some(&b'\n'));
        longer = unended.flat_map(|text| bytes.iter().map(|&byte| [&text[..], &[byte]].concat())).collect();
        all.extend_from_slice(&longer);
    }
    all
}

fn refused_by_2<T>(read: Result<T, Refusal>) -> bool {
    read.is_err_and(|refusal| refusal.number == 2)
}

/// Of each text behind a key the column is asked of all right lines that the reader finds: it stands behind the longest
/// beginning that the text shares with one of them. No beginning needs more than `more` bytes to become a right line.
fn check(key: &str, right: Right, bytes: &[u8], longest: usize, more: usize, wrong: impl Fn(&[u8]) -> bool) {
    let line = |value: &Vec<u8>| [key.as_bytes(), b"=", value].concat();
    let (right_lines, wrong_lines): (Vec<_>, Vec<_>) =
        texts(bytes, longest).iter().map(line).partition(|line| !wrong(line));
    let mut beginnings = HashSet::new();
    for line in &right_lines {
        beginnings.extend((0..=line.len()).map(|end| &line[..end]));
        assert_eq!(of_syntax(right, line), line.len() + 1);
    }
    let least = key.len() + 1;
    for line in wrong_lines.iter().filter(|line| line.len() + more <= least + longest) {
        let shared = (0..=line.len()).rev().find(|&end| beginnings.contains(&line[..end])).unwrap();
        assert_eq!(of_syntax(right, line), shared + 1, "{}", line.escape_ascii());
    }
    assert!(right_lines.len() > 1 && wrong_lines.len() > 1_000);
}

#[test]
fn columns_from_all_right_lines() {
    let (model, _): (Model, _) = model::read_model(MODEL.as_bytes()).unwrap();
    let number = |line: &[u8]| refused_by_2(Reader::new(line).number("take", 0, 9));
    check("take", Right::Number(&["take"]), b"0129-\n", 5, 2, number);
    for length in [1, 2] {
        let list = |line: &[u8]| refused_by_2(Reader::new(line).list("pre", length, 9));
        check("pre", Right::List("pre", length), b"01,-\n", 7, 4, list);
        let weights = |line: &[u8]| refused_by_2(Reader::new(line).weights("outer", length, 9));
        check("outer", Right::Weights("outer", length), b"02,-\n", 7, 4, weights);
    }
    let numbers = ["1", "2"];
    let header = |line: &[u8]| refused_by_2(Reader::new(line).header("eos", &numbers));
    check("eos", Right::Header("eos", &numbers), b"0123,\n", 5, 2, header);
    let token = |line: &[u8]| refused_by_2(read_marking(&model, &[b"start=1\n", line].concat()));
    check("token", Right::Token(&model), b"0139:,\n", 7, 5, token);
    let black = "eos=1\nnets=0\nplaces=1\ntype=0\nmoves=0\nevents=0\nstart=0\n";
    let (black, _) = model::read_model(black.as_bytes()).unwrap();
    let likes = |line: &[u8]| refused_by_2(read_marking(&black, &[b"start=1\n", line].concat()));
    check("token", Right::Token(&black), b"012:*\n", 8, 3, likes);
}

/// The plants that are damaged at every byte have every key, and are right but for the weights.
#[test]
fn the_plants_of_every_line_are_right() {
    assert_eq!(calls::read_model(limits::EVERY_ALONE).answer, Answer::default());
    let read = calls::read_model(limits::EVERY_LINE);
    assert_eq!(read.answer, Answer::default());
    let weighed = calls::check_weights(&read.model, &read.start, limits::EVERY_WEIGHT);
    assert_eq!((weighed.number, weighed.beside), (7, 1));
    let stepped = calls::step(&read.model, &mut read.start.clone(), limits::EVERY_STEP);
    assert_eq!((stepped.number, stepped.used), (0, limits::EVERY_STEP.len()));
    let text = String::from_utf8_lossy(&[limits::EVERY_LINE, limits::EVERY_ALONE].concat()).into_owned();
    assert!(KEYS.iter().all(|key| text.lines().any(|line| line.starts_with(&format!("{key}=")))));
}

/// In damaged lines of each kind 2 is met at each kind of byte, and behind the last one (`$`).
#[test]
fn damage_is_met_at_every_kind_of_byte() {
    let mut met = HashSet::new();
    for case in 0..1_200 {
        let mut rng = Rng::new(5, case);
        let plant = plant(&mut rng);
        let right = model_text(&plant.model, &plant.start);
        for _ in 0..40 {
            let mut text = right.clone();
            damage_line(&mut rng, &mut text);
            let Answer { number, beside, column } = calls::read_model(&text).answer;
            let line = |text: &'_ [u8]| {
                text.split_inclusive(|&byte| byte == b'\n').nth(beside - 1).map(<[u8]>::to_vec)
            };
            if let (2, Some(expected)) = (number, line(&right)) {
                let found = line(&text).unwrap_or_default();
                let kind = if column > found.len() { b'$' } else { kind_of_byte(&found, column - 1) };
                let key = expected.split(|&byte| byte == b'=').next().unwrap_or_default().to_vec();
                met.insert((String::from_utf8(key).unwrap(), kind));
            }
        }
    }
    for key in KEYS {
        for &kind in b"^a0=,:-*\n$" {
            assert!(met.contains(&(key.to_string(), kind)), "{key} {}", kind as char);
        }
    }
}
