//! The listing and the edges of the paper.

use reference::calls::{self, Answer, Converted, Spread, Stepped, Weighed, Written};
use reference::generate::counted::{greatest, start_of, with_start, COUNTED};
use reference::generate::texts::step_of;
use reference::held::{HeldMarking, HeldModel};
use reference::own_run::OwnRun;
use reference::{listing::listing, model};

const MODEL: &str =
    "eos=1\nnets=1\nplaces=2\ntype=1,1\nmoves=1\npre=1,0\npost=0,1\ninner=2\nsteps=1\npre=1,0\n\
    post=0,1\nevents=2\nevent=1\nsync=1\nidle=2\nsync=1\nstart=2\ntoken=1:1,0\ntoken=1:0,0\n";
const WEIGHTS: &str = "inv=1\nouter=1,1\ninner=1,1\n";
const FIRST: &str = "fire=1\ntake=1\ntoken=1:1,0\ngive=1\ntoken=2:0,1\n";
const SECOND: &str = "fire=1\ntake=1\ntoken=1:0,0\ngive=1\ntoken=2:0,0\n";

fn read(text: &str) -> (Box<HeldModel>, Box<HeldMarking>) {
    let read = calls::read_model(text.as_bytes());
    assert_eq!(read.answer, Answer::default(), "{text}");
    (Box::new(read.model), Box::new(read.start))
}

fn refused(text: &str) -> (usize, usize, usize) {
    let read = calls::read_model(text.as_bytes());
    assert!(read.model == HeldModel::empty() && read.start == HeldMarking::empty());
    (read.answer.number, read.answer.beside, read.answer.column)
}

/// The answer to a step on a start that has these token lines.
fn stepped(model: &str, step: &str) -> (usize, usize) {
    let (model, mut marking) = read(model);
    let before = marking.clone();
    let Stepped { number, beside, column, used } = calls::step(&model, &mut marking, step.as_bytes());
    assert_eq!(column > 0, [2, 3].contains(&number));
    if number == 0 {
        assert_eq!((beside, used), (0, step.len()));
    } else {
        assert!(used == 0 && marking == before);
    }
    (number, beside)
}

fn weighed(model: &str, weights: &str) -> Weighed {
    let (model, start) = read(model);
    calls::check_weights(&model, &start, weights.as_bytes())
}

fn passed(sum: u64, cover: usize) -> Weighed {
    Weighed { above: sum, cover, ..Weighed::default() }
}

/// A plant of one black hall with `tokens` tokens, and a move of 1 to `given`.
fn black_hall(tokens: usize, given: usize) -> String {
    let mut text = format!(
        "eos=1\nnets=0\nplaces=1\ntype=0\nmoves=1\npre=1\npost={given}\nevents=1\nevent=1\nstart={tokens}\n"
    );
    text += &"token=1:\n".repeat(tokens);
    text
}

/// One hall with `racks` racks, empty but for one token in the first.
fn full_hall(racks: usize) -> String {
    let mut text = String::from("eos=1\nnets=1\nplaces=1\ntype=1\nmoves=0\ninner=1\nsteps=0\nevents=0\n");
    text += &format!("start={racks}\ntoken=1:1\n");
    text += &"token=1:0\n".repeat(racks - 1);
    text
}

#[test]
fn listing_byte_for_byte() {
    let trace = format!("run=1\n{FIRST}{SECOND}");
    let printed =
        "model=0,0,0\nweights=0,0,0\nsum=3\ncover=1\nfired=1\nstop=9,1,0\nheld=2\ntoken=1:0,0\ntoken=2:0,1\n";
    let out = listing(MODEL.as_bytes(), WEIGHTS.as_bytes(), trace.as_bytes());
    assert_eq!(String::from_utf8(out).unwrap(), printed);
}

#[test]
fn listing_ends_at_the_first_refusal() {
    let list = |model: &str, weights: &str, trace: &str| {
        String::from_utf8(listing(model.as_bytes(), weights.as_bytes(), trace.as_bytes())).unwrap()
    };
    assert_eq!(list("", "", ""), "model=2,1,1\n");
    assert_eq!(list(&MODEL.replace("nets=1", "nets=9"), "", ""), "model=3,2,6\n");
    assert_eq!(list(MODEL, "", ""), "model=0,0,0\nweights=2,1,1\n");
    assert_eq!(list(MODEL, "inv=1\nouter=1,1\ninner=1,-0\n", ""), "model=0,0,0\nweights=2,3,10\n");
    let start = "token=1:0,0\ntoken=1:1,0\n";
    let head = "model=0,0,0\nweights=0,0,0\nsum=3\ncover=1\nfired=0\n";
    let stopped = |stop: &str| format!("{head}stop={stop}\nheld=2\n{start}");
    assert_eq!(list(MODEL, WEIGHTS, ""), stopped("2,1,1"));
    assert_eq!(list(MODEL, WEIGHTS, "run=2\n"), stopped("2,1,5"));
    assert_eq!(list(MODEL, WEIGHTS, "run=1\n"), stopped("0,0,0"));
    assert_eq!(list(MODEL, WEIGHTS, "run=1\nfire=1\ntake=1\ntoken=1:1,70000\n"), stopped("3,3,11"));
    let long = "x".repeat(65_537);
    assert_eq!(list(MODEL, WEIGHTS, &long), stopped("1,0,0"));
    assert_eq!(list(MODEL, WEIGHTS, &long[1..]), stopped("2,1,1"));
    assert_eq!(list(MODEL, &long, ""), "model=0,0,0\nweights=1,0,0\n");
    assert_eq!(list(&long, "", ""), "model=1,0,0\n");
}

#[test]
fn weights_of_the_listing() {
    assert_eq!(weighed(MODEL, WEIGHTS), passed(3, 1));
    let refused = weighed(MODEL, "inv=1\nouter=1,0\ninner=1,1\n");
    assert_eq!(refused, Weighed { number: 7, beside: 1, ..Weighed::default() });
    let zero = weighed(MODEL, "inv=1\nouter=0,0\ninner=0,0\n");
    assert_eq!(zero, Weighed { number: 6, beside: 3, ..Weighed::default() });
    let negative = weighed(MODEL, "inv=1\nouter=-1,-1\ninner=-1,-1\n");
    assert_eq!(negative, Weighed { below: 3, ..Weighed::default() });
}

#[test]
fn steps_of_the_listing() {
    assert_eq!(stepped(MODEL, FIRST), (0, 0));
    assert_eq!(stepped(MODEL, SECOND), (9, 1));
    assert_eq!(stepped(MODEL, &FIRST.replace("2:0,1", "2:1,0")), (10, 1));
    assert_eq!(stepped(&MODEL.replace("token=1:1,0", "token=1:0,1"), FIRST), (11, 3));
    assert_eq!(stepped(MODEL, &FIRST.replace("take=1\ntoken=1", "take=1\ntoken=2")), (8, 2));
    assert_eq!(stepped(MODEL, &FIRST.replace("token=2:0,1", "token=1:0,1")), (8, 4));
}

#[test]
fn inner_pre_over_all_taken_racks() {
    let model =
        "eos=1\nnets=1\nplaces=1\ntype=1\nmoves=1\npre=2\npost=2\ninner=2\nsteps=1\npre=1,1\npost=0,0\n\
        events=1\nevent=1\nsync=1\nstart=2\ntoken=1:1,0\ntoken=1:0,1\n";
    let step = "fire=1\ntake=2\ntoken=1:1,0\ntoken=1:0,1\ngive=2\ntoken=1:0,0\ntoken=1:0,0\n";
    assert_eq!(stepped(model, step), (0, 0));
}

#[test]
fn a_fresh_rack_is_empty() {
    let model = "eos=1\nnets=1\nplaces=1\ntype=1\nmoves=1\npre=0\npost=1\ninner=1\nsteps=1\npre=0\npost=1\n\
        events=2\nevent=1\nsync=0\nevent=1\nsync=1\nstart=0\n";
    assert_eq!(stepped(model, "fire=1\ntake=0\ngive=1\ntoken=1:0\n"), (0, 0));
    assert_eq!(stepped(model, "fire=1\ntake=0\ngive=1\ntoken=1:1\n"), (10, 1));
    assert_eq!(stepped(model, "fire=2\ntake=0\ngive=1\ntoken=1:1\n"), (0, 0));
}

#[test]
fn a_rack_leaves_only_where_it_is_emptied() {
    let model = "eos=1\nnets=2\nplaces=3\ntype=1,2,2\nmoves=1\npre=1,1,0\npost=0,0,1\n\
        inner=2\nsteps=1\npre=1,1\npost=0,0\ninner=1\nsteps=0\nevents=2\nevent=1\nsync=1\nsync=\n\
        event=1\nsync=0\nsync=\nstart=4\ntoken=1:1,1\ntoken=1:1,2\ntoken=1:0,0\ntoken=2:7\n";
    let step = |event: usize, inside: &str, given: usize| {
        format!("fire={event}\ntake=2\ntoken=1:{inside}\ntoken=2:7\ngive=1\ntoken=3:{given}\n")
    };
    assert_eq!(stepped(model, &step(1, "1,1", 7)), (0, 0));
    assert_eq!(stepped(model, &step(1, "1,1", 8)), (10, 2));
    assert_eq!(stepped(model, &step(1, "1,2", 7)), (10, 1));
    assert_eq!(stepped(model, &step(1, "0,0", 7)), (9, 1));
    assert_eq!(stepped(model, &step(2, "0,0", 7)), (0, 0));
    assert_eq!(stepped(model, &step(2, "1,1", 7)), (10, 1));
}

/// One hall with 256 unlike racks, each there once, and a move of 1 to `given`.
fn unlike_racks(given: usize) -> String {
    let mut text = format!(
        "eos=1\nnets=1\nplaces=1\ntype=1\nmoves=1\npre=1\npost={given}\ninner=1\nsteps=0\nevents=1\nevent=1\n\
        sync=\nstart=256\n"
    );
    text.extend((0..256).map(|count| format!("token=1:{}\n", 10 * count)));
    text
}

#[test]
fn room_for_256_unlike() {
    let step = |taken: &str, given: &[&str]| String::from_utf8(step_of(1, &[taken], given)).unwrap();
    assert_eq!(stepped(&unlike_racks(2), &step("1:10", &["1:9", "1:1"])), (12, 4));
    assert_eq!(stepped(&unlike_racks(1), &step("1:10", &["1:10"])), (0, 0));
    // One of the given is there, both are, or they are alike.
    assert_eq!(stepped(&unlike_racks(2), &step("1:30", &["1:29", "1:1"])), (12, 4));
    assert_eq!(stepped(&unlike_racks(2), &step("1:30", &["1:10", "1:20"])), (0, 0));
    assert_eq!(stepped(&unlike_racks(2), &step("1:30", &["1:15", "1:15"])), (0, 0));
    assert_eq!(stepped(&unlike_racks(2), &step("1:30", &["1:15*2"])), (0, 0));
    // The one taken stays, since there was another like it.
    let twice = unlike_racks(1).replacen("token=1:30\n", "token=1:30*2\n", 1);
    assert_eq!(stepped(&twice, &step("1:30", &["1:30"])), (0, 0));
    let joined = unlike_racks(2).replacen("token=1:30\n", "token=1:30*2\n", 1);
    assert_eq!(stepped(&joined, &step("1:30", &["1:20", "1:10"])), (0, 0));
    assert_eq!(stepped(&joined, &step("1:30", &["1:21", "1:9"])), (12, 4));
    assert_eq!(stepped(&joined, &step("1:30", &["1:15*2"])), (12, 4));
    assert_eq!(refused(&black_hall(257, 1)), (3, 10, 7));
}

/// A new rack, unlike all, in the place of one that goes.
#[test]
fn a_new_rack_among_256() {
    let model = unlike_racks(1).replacen("steps=0\n", "steps=1\npre=0\npost=1\n", 1);
    let model = model.replacen("sync=\n", "sync=1\n", 1);
    let step = |taken: &str, given: &str| String::from_utf8(step_of(1, &[taken], &[given])).unwrap();
    assert_eq!(stepped(&model, &step("1:30", "1:31")), (0, 0));
    let twice = model.replacen("token=1:30\n", "token=1:30*2\n", 1);
    assert_eq!(stepped(&twice, &step("1:30", "1:31")), (12, 4));
}

/// The answer to `COUNTED` with this start.
fn counted(tokens: &[&str]) -> (usize, usize, usize) {
    let text = with_start(&start_of(tokens));
    let Answer { number, beside, column } = calls::read_model(&text).answer;
    let (model, _) = read(&String::from_utf8(with_start(b"start=0\n")).unwrap());
    let alone = calls::read_marking(&model, &start_of(tokens)).answer;
    let before = if number == 0 { 0 } else { COUNTED.lines().count() };
    assert_eq!((alone.number, alone.beside + before, alone.column), (number, beside, column));
    (number, alone.beside, column)
}

#[test]
fn likes_of_a_start() {
    assert_eq!(counted(&["3:*65535"]), (0, 0, 0));
    assert_eq!(counted(&["3:*65534", "3:"]), (0, 0, 0));
    assert_eq!(counted(&["3:*65536"]), (3, 2, 10));
    assert_eq!(counted(&["3:*65535", "3:"]), (12, 3, 0));
    assert_eq!(counted(&["3:", "3:*65535"]), (12, 3, 0));
    assert_eq!(counted(&["3:*40000", "1:0,0", "3:*25535"]), (0, 0, 0));
    assert_eq!(counted(&["3:*40000", "1:0,0", "3:*25536"]), (12, 4, 0));
    assert_eq!(counted(&["1:7,0*65535", "1:0,7", "2:7,0"]), (0, 0, 0));
    assert_eq!(counted(&["1:7,0*65535", "1:0,7", "1:7,0"]), (12, 4, 0));
    // After the 2 and 3 of its own line, before those of a later one.
    assert_eq!(counted(&["3:*65535", "3:*65536"]), (3, 3, 10));
    assert_eq!(counted(&["3:*65535", "3:*1"]), (2, 3, 11));
    assert_eq!(counted(&["1:7,0*65535", "1:7,70000"]), (3, 3, 11));
    assert_eq!(counted(&["3:*65535", "3:", "9:"]), (12, 3, 0));
    assert_eq!(counted(&["3:*65535", "3:", "x"]), (12, 3, 0));
    assert_eq!(counted(&["3:*65535", "9:", "3:"]), (3, 3, 7));
    let (model, _) = read(&String::from_utf8(with_start(b"start=0\n")).unwrap());
    for rest in ["", "x", "token=3:\ntoken=3:\ntoken=3:\n"] {
        let text = format!("start=3\ntoken=3:*65535\ntoken=3:\n{rest}");
        let answer = calls::read_marking(&model, text.as_bytes()).answer;
        assert_eq!(answer, Answer { number: 12, beside: 3, column: 0 });
    }
}

/// Lines are counted, whatever they mean.
#[test]
fn lines_of_likes() {
    assert_eq!(counted(&["1:0,0*255"; 256]), (0, 0, 0));
    assert_eq!(counted(&["1:0,0"; 257]), (3, 1, 7));
    assert_eq!(counted(&["1:0,0*257"; 256]), (12, 257, 0));
    let mut lines = vec!["1:0,0*256"; 255];
    assert_eq!(counted(&lines), (0, 0, 0));
    lines.push("1:0,0*255");
    assert_eq!(counted(&lines), (0, 0, 0));
    lines[255] = "1:0,0*256";
    assert_eq!(counted(&lines), (12, 257, 0));
}

/// The answer to a step of `COUNTED` on this start.
fn step_on(start: &[&str], event: usize, taken: &[&str], given: &[&str]) -> (usize, usize) {
    let text = String::from_utf8(with_start(&start_of(start))).unwrap();
    stepped(&text, &String::from_utf8(step_of(event, taken, given)).unwrap())
}

#[test]
fn no_more_than_65_535_alike() {
    assert_eq!(step_on(&["1:0,0*65534"], 2, &[], &["1:0,0"]), (0, 0));
    assert_eq!(step_on(&["1:0,0*65535"], 2, &[], &["1:0,0"]), (12, 3));
    assert_eq!(step_on(&["3:*65535"], 5, &["3:"], &["3:"]), (0, 0));
    assert_eq!(step_on(&["3:*65535"], 4, &[], &["3:"]), (12, 3));
    assert_eq!(step_on(&["3:*65282"], 6, &["3:*2"], &["3:*255"]), (0, 0));
    assert_eq!(step_on(&["3:*65283"], 6, &["3:*2"], &["3:*255"]), (12, 4));
    assert_eq!(step_on(&["3:*65283"], 6, &["3:", "3:"], &["3:*200", "3:*55"]), (12, 5));
    // 11 comes before it.
    assert_eq!(step_on(&["1:1,0*65535"], 7, &["2:1,0"], &["1:1,0"]), (11, 3));
    assert_eq!(step_on(&["1:1,0*65535", "2:1,0"], 7, &["2:1,0"], &["1:1,0"]), (12, 4));
}

#[test]
fn likes_taken() {
    let start = ["1:0,0*3", "1:1,0"];
    assert_eq!(step_on(&start, 3, &["1:0,0*4"], &["2:0,0*4"]), (11, 3));
    assert_eq!(step_on(&start, 3, &["1:0,0*3", "1:0,0"], &["2:0,0*4"]), (11, 4));
    assert_eq!(step_on(&start, 3, &["1:0,0*2", "1:0,0*2"], &["2:0,0*4"]), (11, 4));
    assert_eq!(step_on(&start, 3, &["1:0,0*2", "1:1,0", "1:0,0"], &["2:1,0", "2:0,0*3"]), (0, 0));
    assert_eq!(step_on(&start, 3, &["1:1,0*2", "1:0,0*2"], &["2:1,0*2", "2:0,0*2"]), (11, 3));
    assert_eq!(step_on(&["1:0,0*4"], 3, &["1:0,0", "1:0,0*3"], &["2:0,0*4"]), (0, 0));
    assert_eq!(step_on(&["1:65535,0*4"], 3, &["1:65535,0*4"], &["2:65535,0*4"]), (0, 0));
    assert_eq!(step_on(&["1:65535,0*4"], 3, &["1:65535,0*4"], &["2:65535,0*3", "2:65534,0"]), (10, 1));
}

/// As many as arcs say, all likes counted; `give` stands behind the lines of the take.
#[test]
fn likes_in_projections() {
    let start = ["1:0,0*4", "2:0,0"];
    assert_eq!(step_on(&start, 1, &["1:0,0*2"], &["2:0,0"]), (8, 2));
    assert_eq!(step_on(&start, 1, &["1:0,0"], &["2:0,0*2"]), (8, 4));
    assert_eq!(step_on(&start, 3, &["1:0,0*3", "1:0,0"], &["2:0,0*3"]), (8, 5));
    assert_eq!(step_on(&start, 1, &["1:0,0*65535", "1:0,0*2"], &["2:0,0"]), (8, 2));
    assert_eq!(step_on(&start, 2, &["3:*65535", "3:"], &["1:0,0"]), (8, 2));
    let four = ["1:0,2*4"];
    assert_eq!(step_on(&four, 3, &["1:0,2*4"], &["2:0,4*2", "2:0,0*2"]), (0, 0));
    assert_eq!(step_on(&four, 3, &["1:0,2*4"], &["2:0,2*3", "2:0,3"]), (10, 1));
}

#[test]
fn blocks_of_256_lines() {
    let likes = |lines: usize| vec!["3:"; lines];
    assert_eq!(step_on(&["3:*300"], 6, &["3:*2"], &likes(255)), (0, 0));
    assert_eq!(step_on(&["3:*300"], 6, &["3:*2"], &likes(256)), (8, 4));
    assert_eq!(step_on(&["3:*300"], 6, &["3:*2"], &likes(257)), (3, 4));
    assert_eq!(step_on(&["3:*300"], 5, &likes(256), &["3:"]), (8, 2));
    assert_eq!(step_on(&["3:*300"], 5, &likes(257), &["3:"]), (3, 2));
}

#[test]
fn likes_of_a_rack_that_is_alone() {
    let twice = ALONE.replacen("token=1:1,0\n", "token=1:1,0*2\n", 1);
    let step = |taken: &str, given: &str| {
        stepped(&twice, &format!("fire=2\ntake=1\ntoken={taken}\ngive=1\ntoken={given}\n"))
    };
    assert_eq!(step("1:1,0", "1:1,0"), (0, 0));
    assert_eq!(step("1:1,0*2", "1:1,0*2"), (8, 2));
    assert_eq!(step("1:1,0*2", "1:1,0"), (8, 2));
    assert_eq!(step("1:1,0", "1:1,0*2"), (8, 4));
}

/// The text that is written of a marking of `COUNTED`.
fn written(start: &[&str]) -> String {
    let (model, start) = read(&String::from_utf8(with_start(&start_of(start))).unwrap());
    let mut out = [0; 400];
    let Written { number, bytes, .. } = calls::write_marking(&model, &start, &mut out);
    assert_eq!(number, 0);
    String::from_utf8(out[..bytes].to_vec()).unwrap()
}

#[test]
fn written_lines_do_not_repeat() {
    assert_eq!(written(&["3:", "3:"]), "start=1\ntoken=3:*2\n");
    assert_eq!(written(&["3:*5"]), "start=1\ntoken=3:*5\n");
    assert_eq!(written(&["3:*65534", "3:"]), "start=1\ntoken=3:*65535\n");
    assert_eq!(
        written(&["2:0,0*2", "1:1,0", "1:0,9*7", "3:", "1:0,10", "1:1,0*2"]),
        "start=5\ntoken=1:0,9*7\ntoken=1:0,10\ntoken=1:1,0*3\ntoken=2:0,0*2\ntoken=3:\n"
    );
    let model = String::from_utf8(with_start(&start_of(&["1:0,0*2", "3:", "1:0,0"]))).unwrap();
    let trace = "run=1\nfire=4\ntake=0\ngive=1\ntoken=3:\nfire=1\ntake=1\ntoken=1:0,0\ngive=1\ntoken=2:0,0\n";
    let out = listing(model.as_bytes(), b"inv=1\nouter=0,0,0\ninner=0,0\n", trace.as_bytes());
    assert_eq!(String::from_utf8(out).unwrap(), "model=0,0,0\nweights=6,3,0\n");
    let out = listing(model.as_bytes(), b"inv=1\nouter=1,1,1\ninner=0,0\n", trace.as_bytes());
    assert_eq!(String::from_utf8(out).unwrap(), "model=0,0,0\nweights=7,2,0\n");
}

#[test]
fn likes_in_a_listing() {
    let [model, weights] = two_black_halls();
    let trace = "run=1\nfire=1\ntake=2\ntoken=1:\ntoken=1:*2\ngive=1\ntoken=2:*3\n";
    let trace = format!("{trace}fire=1\ntake=1\ntoken=1:*3\ngive=1\ntoken=2:*3\n");
    let printed = "model=0,0,0\nweights=0,0,0\nsum=65537\ncover=0\nfired=1\nstop=12,4,0\nheld=2\n\
        token=1:*3\ntoken=2:*65534\n";
    let out = listing(model.as_bytes(), weights.as_bytes(), trace.as_bytes());
    assert_eq!(String::from_utf8(out).unwrap(), printed);
}

/// Two black halls with a move of 3 from the one to the other, and weights that count.
fn two_black_halls() -> [String; 2] {
    let model = "eos=1\nnets=0\nplaces=2\ntype=0,0\nmoves=1\npre=3,0\npost=0,3\nevents=1\nevent=1\n\
        start=3\ntoken=2:*65531\ntoken=1:*2\ntoken=1:*4\n";
    [model.to_string(), "inv=1\nouter=1,1\n".to_string()]
}

#[test]
fn held_likes() {
    let (model, start) =
        read(&String::from_utf8(with_start(&start_of(&["1:0,1*9", "1:0,2*3", "3:"]))).unwrap());
    let entry = |at: usize| (start.entries[at].token.place, start.entries[at].times);
    assert_eq!((start.len, [0, 1, 2, 3].map(entry)), (3, [(1, 9), (1, 3), (3, 1), (0, 0)]));
    let test = |change: &dyn Fn(&mut HeldMarking)| {
        let mut held = start.clone();
        change(&mut held);
        calls::test_marking(&model, &held)
    };
    assert!(test(&|_| ()));
    assert!(test(&|held| held.entries[0].times = 65_535));
    assert!(!test(&|held| held.entries[0].times = 0));
    assert!(!test(&|held| held.entries[2].times = 0));
    assert!(!test(&|held| held.entries[3].times = 1));
    assert!(!test(&|held| held.entries[255].times = 65_535));
    assert!(!test(&|held| held.entries.swap(0, 1)));
    for (before, behind) in [(1, 1), (1, 2), (2, 1)] {
        assert!(!test(&|held| {
            held.entries[1].token = held.entries[0].token;
            (held.entries[0].times, held.entries[1].times) = (before, behind);
        }));
        assert!(test(&|held| (held.entries[0].times, held.entries[1].times) = (before, behind)));
    }
    let mut full = HeldMarking::empty();
    full.len = 256;
    for (at, entry) in full.entries.iter_mut().enumerate() {
        (entry.token.place, entry.token.counts[0], entry.times) = (1, at as u16, 65_535);
    }
    assert!(calls::test_marking(&model, &full));
    full.len = 257;
    assert!(!calls::test_marking(&model, &full));
}

#[test]
fn cover_of_256_racks() {
    assert_eq!(weighed(&full_hall(256), "inv=1\nouter=1\ninner=1\n"), passed(257, 0));
    assert_eq!(weighed(&full_hall(256), "inv=1\nouter=2\ninner=1\n"), passed(513, 1));
    assert_eq!(weighed(&full_hall(255), "inv=1\nouter=1\ninner=1\n"), passed(256, 1));
}

/// Racks are bounded as before, whether they are alike or not.
#[test]
fn cover_of_likes() {
    let hall = |start: &str| {
        format!(
            "eos=1\nnets=1\nplaces=1\ntype=1\nmoves=0\ninner=1\nsteps=0\nevents=0\nstart=1\ntoken={start}\n"
        )
    };
    let [one, two] = ["inv=1\nouter=1\ninner=1\n", "inv=1\nouter=2\ninner=1\n"];
    assert_eq!(weighed(&hall("1:0*256"), one), passed(256, 1));
    assert_eq!(weighed(&hall("1:0*257"), one), passed(257, 0));
    assert_eq!(weighed(&hall("1:1*128"), one), passed(256, 1));
    assert_eq!(weighed(&hall("1:1*129"), one), passed(258, 0));
    assert_eq!(weighed(&hall("1:0*256"), two), passed(512, 1));
    assert_eq!(weighed(&hall("1:0*257"), two), passed(514, 0));
    assert_eq!(weighed(&hall("1:65535*65535"), one), passed(65_535 * 65_536, 0));
}

#[test]
fn counts_and_lists() {
    let with = |old: &str, new: &str| MODEL.replacen(old, new, 1);
    read(&with("token=1:1,0", "token=1:65535,0"));
    assert_eq!(refused(&with("token=1:1,0", "token=1:65536,0")), (3, 18, 9));
    assert_eq!(refused(&with("sync=1", "sync=01")), (2, 14, 7));
    assert_eq!(refused(&with("type=1,1", "type=1,1,9")), (2, 4, 9));
    assert_eq!(refused(&with("type=1,1", "type=1,9")), (3, 4, 8));
    assert_eq!(refused(&with("token=1:1,0", "token=3:1")), (3, 18, 7));
    assert_eq!(refused(&with("token=1:1,0", "token=0:")), (3, 18, 7));
    assert_eq!(refused(&with("token=1:1,0", "token=3:,")), (2, 18, 9));
    assert_eq!(refused(&with("token=1:1,0", "token=1:70000")), (2, 18, 14));
    assert_eq!(refused(&with("eos=1", "eos=99999999999999999999")), (2, 1, 5));
    assert_eq!(refused(&with("nets=1", "nets=99999999999999999999")), (3, 2, 6));
    assert_eq!(refused(&with("idle=2\nsync=1", "idle=2\nsync=0")), (5, 16, 0));
    assert_eq!(
        refused(
            &with("type=1,1", "type=1,0").replace("pre=1,0\npost=0,1\ninner", "pre=0,1\npost=0,1\ninner")
        ),
        (5, 15, 0)
    );
    assert_eq!(refused(&format!("{MODEL}\n")), (2, 20, 1));
    assert_eq!(refused(&MODEL[..MODEL.len() - 1]), (2, 19, 12));
    assert_eq!(refused(&with("token=1:0,0\n", "")), (2, 19, 1));
    assert_eq!(refused(""), (2, 1, 1));
}

#[test]
fn stages_17_to_25_are_kept() {
    let stages: Vec<String> = (1..=25).map(|stage| stage.to_string()).collect();
    let token = format!("token=1:{}\n", stages.join(","));
    let text =
        format!("eos=1\nnets=1\nplaces=1\ntype=1\nmoves=0\ninner=25\nsteps=0\nevents=0\nstart=1\n{token}");
    let (model, start) = read(&text);
    let counts = start.entries[0].token.counts;
    assert_eq!(counts[..25], std::array::from_fn::<u16, 25, _>(|stage| stage as u16 + 1));
    let mut out = [0; 200];
    let Written { bytes, .. } = calls::write_marking(&model, &start, &mut out);
    assert_eq!(out[..bytes], *format!("start=1\n{token}").as_bytes());
}

/// No marking has the same full rack 256 times side by side, so the bound itself is not reached.
#[test]
fn sums_near_their_bound() {
    let (model, weights) = greatest();
    let [above, below, ones] = weights.map(|text| {
        let weights = String::from_utf8(text).unwrap();
        weighed(&String::from_utf8(model.clone()).unwrap(), &weights)
    });
    let inside = 256 * 32 * 65_535 - 32 * (1 + 2 + 3 + 4 + 5 + 6 + 7);
    let sum = 65_535 * (256 + inside);
    assert_eq!((above, ones), (passed(1_000 * sum, 0), passed(sum, 0)));
    assert_eq!(below, Weighed { below: 1_000 * sum, ..Weighed::default() });
    assert!(1_000 * sum < 35_183_315_132_160_000 && 1_000 * sum > 35_183_200_000_000_000);
}

#[test]
fn spread() {
    let value = |ways: u64| Spread { ways, ..Spread::default() };
    let refused = |beside: usize| Spread { number: 3, beside, ..Spread::default() };
    assert_eq!(calls::ways(0, 0), value(1));
    assert_eq!(calls::ways(3, 0), value(0));
    assert_eq!(calls::ways(2, 3), value(6));
    assert_eq!(calls::ways(31, 16), value(511_738_760_544));
    assert_eq!(calls::ways(32, 17), refused(1));
    assert_eq!(calls::ways(31, 17), refused(2));
    assert_eq!(calls::ways(usize::MAX, usize::MAX), refused(1));
}

#[test]
fn spread_counts_share_outs() {
    /// Shares to the first rack, then what remains among the others.
    fn shares(tokens: usize, racks: usize) -> u64 {
        match racks {
            0 => u64::from(tokens == 0),
            _ => (0..=tokens).map(|first| shares(tokens - first, racks - 1)).sum(),
        }
    }
    for tokens in 0..8 {
        for racks in 0..6 {
            assert_eq!(calls::ways(tokens, racks).ways, shares(tokens, racks));
        }
    }
}

#[test]
fn slices_at_their_limit() {
    let padded = |text: &str, length: usize| {
        let mut bytes = text.as_bytes().to_vec();
        bytes.resize(length, b'x');
        bytes
    };
    let (model, start) = read(MODEL);
    let stepped = calls::step(&model, &mut start.clone(), &padded(FIRST, 1_048_576));
    assert_eq!(stepped, Stepped { used: FIRST.len(), ..Stepped::default() });
    let stepped = calls::step(&model, &mut start.clone(), &padded(FIRST, 1_048_577));
    assert_eq!(stepped, Stepped { number: 1, ..Stepped::default() });
    let stepped = calls::step(&HeldModel::empty(), &mut start.clone(), &padded(FIRST, 1_048_577));
    assert_eq!(stepped, Stepped { number: 1, ..Stepped::default() });
    let stepped = calls::step(&HeldModel::empty(), &mut start.clone(), FIRST.as_bytes());
    assert_eq!(stepped, Stepped { number: 14, ..Stepped::default() });
    assert_eq!(
        calls::read_model(&padded(MODEL, 1_048_576)).answer,
        Answer { number: 2, beside: 20, column: 1 }
    );
    assert_eq!(
        calls::read_model(&padded(MODEL, 1_048_577)).answer,
        Answer { number: 1, ..Answer::default() }
    );
}

#[test]
fn written_markings_read_back() {
    let (model, start) = read(MODEL);
    let written = b"start=2\ntoken=1:0,0\ntoken=1:1,0\n";
    let mut out = [b'#'; 40];
    assert_eq!(calls::write_marking(&model, &start, &mut out), Written { bytes: 32, ..Written::default() });
    assert!(out.starts_with(written) && out[32..] == [b'#'; 8]);
    let mut short = [b'#'; 31];
    assert_eq!(
        calls::write_marking(&model, &start, &mut short),
        Written { number: 13, beside: 32, ..Written::default() }
    );
    assert_eq!(short, [b'#'; 31]);
    assert!(calls::read_marking(&model, written).marking == *start);
    let late = calls::read_marking(&model, b"start=1\ntoken=1:0,0\n\n").answer;
    assert_eq!(late, Answer { number: 2, beside: 3, column: 1 });
}

#[test]
fn the_rules_own_run() {
    let (model, start) = model::read_model(MODEL.as_bytes()).unwrap();
    let mut run = OwnRun::new(&model, &start);
    assert!(run.feed(format!("{FIRST}what follows").as_bytes()));
    assert!(!run.feed(SECOND.as_bytes()));
    assert!(!run.feed(b""));
    let lines = run.lines().unwrap();
    assert_eq!(lines.iter().map(|line| line.row[..3].to_vec()).collect::<Vec<_>>(), [[1, 0, 0], [2, 0, 1]]);
}

#[test]
fn the_rules_own_run_has_no_limits() {
    let text = "eos=1\nnets=1\nplaces=1\ntype=1\nmoves=1\npre=1\npost=1\ninner=1\nsteps=1\npre=0\npost=1\n\
        events=1\nevent=1\nsync=1\nstart=1\ntoken=1:65535\n";
    let (model, start) = model::read_model(text.as_bytes()).unwrap();
    let mut run = OwnRun::new(&model, &start);
    let beyond = "fire=1\ntake=1\ntoken=1:65535\ngive=1\ntoken=1:65536\n";
    assert_eq!(stepped(text, beyond), (3, 5));
    assert!(run.feed(beyond.as_bytes()));
    assert_eq!(run.lines(), None);
    let (token, likes) = run.state().first_key_value().unwrap();
    assert_eq!([token.inside[0].to_string(), likes.to_string()], ["65536", "1"]);
}

/// The text's number of likes may be of any size from 2 on; the state's, too.
#[test]
fn likes_in_the_rules_own_run() {
    let text = String::from_utf8(with_start(&start_of(&["3:*65535", "1:0,0*2", "1:0,0"]))).unwrap();
    let (model, start) = model::read_model(text.as_bytes()).unwrap();
    let mut run = OwnRun::new(&model, &start);
    assert!(!run.feed(&step_of(5, &["3:*1"], &["3:"])));
    assert!(!run.feed(&step_of(5, &["3:"], &["3:*1"])));
    assert!(!run.feed(&step_of(5, &["3:*0"], &["3:"])));
    assert!(!run.feed(&step_of(5, &["3:*01"], &["3:"])));
    assert!(!run.feed(&step_of(5, &["3:*"], &["3:"])));
    assert!(!run.feed(&step_of(5, &["3:*2*2"], &["3:"])));
    assert!(!run.feed(&step_of(5, &["3:*18446744073709551617"], &["3:"])));
    assert!(!run.feed(&step_of(5, &["3:*2"], &["3:*2"])));
    assert!(!run.feed(&step_of(3, &["1:0,0*4"], &["2:0,0*4"])));
    assert_eq!(run.lines(), Some(start.lines()));
    for _ in 0..3 {
        assert!(run.feed(&step_of(6, &["3:", "3:"], &["3:*254", "3:"])));
    }
    assert_eq!(run.lines(), None);
    let black = run.state().last_key_value().unwrap();
    assert_eq!((black.0.place, black.1.to_string()), (3, (65_535 + 3 * 253).to_string()));
    assert!(run.feed(&step_of(2, &[], &["1:0,0"])));
    assert!(run.feed(&step_of(3, &["1:0,0*2", "1:0,0*2"], &["2:0,0*3", "2:0,0"])));
    assert_eq!(run.state().len(), 2);
}

/// Two halls of a net, one of another with as many inner places, and a black one. The first event moves a token within, the
/// second and third do nothing.
const ALONE: &str = "eos=2\nnets=2\nplaces=4\ntype=1,1,2,0\nmoves=1\npre=0,0,0,1\npost=0,0,0,1\ninner=2\nsteps=2\n\
    pre=1,0\npost=0,1\npre=0,0\npost=0,0\ninner=2\nsteps=1\npre=0,0\npost=0,0\nevents=4\nalone=1\nsync=1,0\nsync=0\n\
    alone=1\nsync=0,1\nsync=0\nalone=2\nsync=0,0\nsync=1\nevent=1\nsync=0,0\nsync=0\nstart=5\ntoken=1:1,0\n\
    token=1:2,0\ntoken=2:1,0\ntoken=3:1,0\ntoken=4:\n";

/// The answer to a step of `ALONE` with these net-tokens taken and given.
fn alone(event: usize, taken: &[&str], given: &[&str]) -> (usize, usize) {
    let block = |key: &str, tokens: &[&str]| {
        let lines: Vec<String> = tokens.iter().map(|token| format!("token={token}\n")).collect();
        format!("{key}={}\n{}", tokens.len(), lines.concat())
    };
    stepped(ALONE, &format!("fire={event}\n{}{}", block("take", taken), block("give", given)))
}

#[test]
fn any_one_rack_of_the_net_is_alone() {
    assert_eq!(alone(1, &["1:1,0"], &["1:0,1"]), (0, 0));
    assert_eq!(alone(1, &["1:2,0"], &["1:1,1"]), (0, 0));
    assert_eq!(alone(1, &["2:1,0"], &["2:0,1"]), (0, 0));
    assert_eq!(alone(2, &["2:1,0"], &["2:1,0"]), (0, 0));
    assert_eq!(alone(3, &["3:1,0"], &["3:1,0"]), (0, 0));
    assert_eq!(alone(4, &["4:"], &["4:"]), (0, 0));
}

#[test]
fn alone_takes_one_rack_of_its_net() {
    assert_eq!(alone(2, &["3:1,0"], &["3:1,0"]), (8, 2));
    assert_eq!(alone(3, &["1:1,0"], &["1:1,0"]), (8, 2));
    assert_eq!(alone(2, &["4:"], &["4:"]), (8, 2));
    assert_eq!(alone(2, &["1:1,0", "1:2,0"], &["1:1,0", "1:2,0"]), (8, 2));
    assert_eq!(alone(2, &["1:1,0", "1:1,0"], &["1:1,0"]), (8, 2));
    assert_eq!(alone(2, &["1:1,0", "2:1,0"], &["1:1,0", "2:1,0"]), (8, 2));
    assert_eq!(alone(2, &["1:1,0", "4:"], &["1:1,0", "4:"]), (8, 2));
    assert_eq!(alone(2, &[], &[]), (8, 2));
    assert_eq!(alone(2, &[], &["1:0,0"]), (8, 2));
}

#[test]
fn alone_gives_where_it_took() {
    assert_eq!(alone(2, &["1:1,0"], &["2:1,0"]), (8, 4));
    assert_eq!(alone(2, &["1:1,0"], &["3:1,0"]), (8, 4));
    assert_eq!(alone(2, &["1:1,0"], &["4:"]), (8, 4));
    assert_eq!(alone(2, &["1:1,0"], &[]), (8, 4));
    assert_eq!(alone(2, &["1:1,0"], &["1:1,0", "1:0,0"]), (8, 4));
    assert_eq!(alone(2, &["1:1,0"], &["1:1,0", "4:"]), (8, 4));
}

#[test]
fn insides_of_alone_racks() {
    assert_eq!(alone(1, &["1:0,1"], &["1:0,1"]), (9, 1));
    assert_eq!(alone(1, &["1:1,0"], &["1:1,0"]), (10, 1));
    assert_eq!(alone(1, &["2:2,0"], &["2:1,1"]), (11, 3));
    assert_eq!(alone(2, &["1:1,0"], &["1:0,1"]), (10, 1));
    assert_eq!(alone(3, &["3:1,0"], &["3:0,0"]), (10, 2));
}

/// A net that types no place may be alone; its event fires on no rack.
#[test]
fn alone_without_a_place() {
    let model =
        "eos=2\nnets=2\nplaces=1\ntype=1\nmoves=0\ninner=1\nsteps=0\ninner=1\nsteps=1\npre=0\npost=0\n\
        events=1\nalone=2\nsync=\nsync=1\nstart=1\ntoken=1:0\n";
    assert_eq!(stepped(model, "fire=1\ntake=1\ntoken=1:0\ngive=1\ntoken=1:0\n"), (8, 2));
    assert_eq!(stepped(model, "fire=1\ntake=0\ngive=0\n"), (8, 2));
    assert_eq!(weighed(model, "inv=1\nouter=1\ninner=1\ninner=1\n"), passed(1, 1));
}

#[test]
fn counts_of_alone_events() {
    let with = |old: &str, new: &str| ALONE.replacen(old, new, 1);
    assert_eq!(refused(&with("sync=1,0\nsync=0\n", "sync=0,0\nsync=0\n")), (5, 20, 0));
    assert_eq!(refused(&with("sync=1,0\nsync=0\n", "sync=1,0\nsync=1\n")), (5, 21, 0));
    assert_eq!(refused(&with("sync=0,0\nsync=1\n", "sync=0,0\nsync=0\n")), (5, 27, 0));
    assert_eq!(refused(&with("sync=0,0\nsync=1\n", "sync=0,1\nsync=1\n")), (5, 26, 0));
    assert_eq!(refused(&with("alone=2\n", "alone=3\n")), (3, 25, 7));
    assert_eq!(refused(&with("alone=2\n", "alone=0\n")), (3, 25, 7));
    assert_eq!(refused(&with("eos=2", "eos=1")), (2, 19, 1));
    assert_eq!(refused(&MODEL.replacen("eos=1", "eos=2", 1)), (2, 15, 1));
}

/// The halls of a net may weigh what they like: its event moves no rack.
#[test]
fn weights_of_alone_events() {
    let with = |outer: &str, inner: &str| format!("inv=1\nouter={outer}\ninner={inner}\ninner=3,4\n");
    assert_eq!(weighed(ALONE, &with("1,5,9,2", "1,1")), passed(25, 1));
    assert_eq!(weighed(ALONE, &with("-1,0,1,0", "0,0")), passed(2, 0));
    let unbalanced = Weighed { number: 7, beside: 1, ..Weighed::default() };
    assert_eq!(weighed(ALONE, &with("1,1,1,1", "1,2")), unbalanced);
}

#[test]
fn held_headers_and_kinds() {
    let test = |held: &HeldModel, change: &dyn Fn(&mut HeldModel)| {
        let mut held = Box::new(held.clone());
        change(&mut held);
        calls::test_model(&held)
    };
    let (first, second) = (read(MODEL).0, read(ALONE).0);
    assert_eq!((first.header, second.header, HeldModel::empty().header), (1, 2, 0));
    assert_eq!((first.events[1].kind, first.events[1].index), (2, 2));
    assert_eq!((second.events[2].kind, second.events[2].index), (3, 2));
    for header in [0, 1, 2, 3, 1 << 32 | 1, usize::MAX] {
        assert_eq!(test(&first, &|held| held.header = header), header == 1);
        assert_eq!(test(&second, &|held| held.header = header), header == 2);
    }
    assert!(!test(&first, &|held| held.events[1].kind = 3));
    assert!(!test(&second, &|held| held.events[0].kind = 2));
    for index in 0..=255 {
        assert_eq!(test(&second, &|held| held.events[0].index = index), index == 1);
    }
}

/// A plant with two halls of a net, one of another, and these events: their first lines and the counts of either net.
fn idlers(header: usize, events: &[(&str, &str, &str)]) -> String {
    let event = |(first, one, other): &(&str, &str, &str)| format!("{first}\nsync={one}\nsync={other}\n");
    let lines: Vec<String> = events.iter().map(event).collect();
    format!(
        "eos={header}\nnets=2\nplaces=3\ntype=1,2,1\nmoves=1\npre=1,0,0\npost=0,0,1\ninner=1\nsteps=2\npre=1\npost=0\n\
        pre=0\npost=1\ninner=1\nsteps=1\npre=1\npost=1\nevents={}\n{}start=1\ntoken=1:3\n",
        events.len(),
        lines.concat()
    )
}

/// Checks that the second events come of the first, with these numbers.
fn becomes(idle: &[(&str, &str, &str)], alone: &[(&str, &str, &str)], numbers: &[u8]) {
    let converted = calls::convert(&read(&idlers(1, idle)).0);
    assert_eq!(converted.answer, Answer::default());
    assert!(converted.model == *read(&idlers(2, alone)).0);
    assert_eq!(converted.numbers[..numbers.len()], *numbers);
    assert!(converted.numbers[numbers.len()..].iter().all(|&number| number == 0));
}

/// The event beside which a conversion is refused.
fn not_everywhere(idle: &[(&str, &str, &str)]) -> usize {
    let converted = calls::convert(&read(&idlers(1, idle)).0);
    let Converted { answer: Answer { number, beside, column }, model, numbers } = *converted;
    assert_eq!((number, column, numbers), (21, 0, [0; 64]));
    assert!(model == HeldModel::empty());
    beside
}

const MOVED: (&str, &str, &str) = ("event=1", "1,0", "0");

#[test]
fn like_idle_events_become_one() {
    let [one, other, third] = [("idle=1", "1,0", "0"), ("idle=3", "1,0", "0"), ("idle=2", "0,0", "1")];
    let [first, second] = [("alone=1", "1,0", "0"), ("alone=2", "0,0", "1")];
    becomes(&[], &[], &[]);
    becomes(&[MOVED], &[MOVED], &[1]);
    becomes(&[third], &[second], &[1]);
    becomes(&[one, other], &[first], &[1, 1]);
    becomes(&[MOVED, other, MOVED, one, MOVED], &[MOVED, first, MOVED, MOVED], &[1, 2, 3, 2, 4]);
    becomes(&[third, one, third, MOVED, other], &[second, first, MOVED], &[1, 2, 1, 3, 2]);
    becomes(&[other, other, MOVED, one], &[first, MOVED], &[1, 1, 2, 1]);
}

/// Like events have the same counts.
#[test]
fn unlike_idle_events_stay_apart() {
    let idle =
        [("idle=1", "1,0", "0"), ("idle=1", "0,1", "0"), ("idle=3", "0,1", "0"), ("idle=3", "1,0", "0")];
    becomes(&idle, &[("alone=1", "1,0", "0"), ("alone=1", "0,1", "0")], &[1, 2, 2, 1]);
    let idle = [("idle=2", "0,0", "1"), ("idle=2", "0,0", "2")];
    becomes(&idle, &[("alone=2", "0,0", "1"), ("alone=2", "0,0", "2")], &[1, 2]);
}

#[test]
fn the_least_idle_event_that_misses_a_place() {
    let [one, other, third] = [("idle=1", "1,0", "0"), ("idle=3", "1,0", "0"), ("idle=2", "0,0", "1")];
    assert_eq!(not_everywhere(&[one]), 1);
    assert_eq!(not_everywhere(&[MOVED, one, one]), 2);
    assert_eq!(not_everywhere(&[third, other, ("idle=1", "0,1", "0")]), 2);
    assert_eq!(not_everywhere(&[one, other, ("idle=1", "1,1", "0"), ("idle=3", "2,0", "0")]), 3);
    assert_eq!(not_everywhere(&[one, ("idle=3", "0,1", "0"), other]), 2);
}

/// A model of header 2 stays as it is, like events too; a held model that no reading gives is 14.
#[test]
fn other_models_converted() {
    let alone = ("alone=1", "1,0", "0");
    let (model, _) = read(&idlers(2, &[alone, MOVED, alone]));
    let converted = calls::convert(&model);
    assert_eq!((converted.answer, converted.numbers[..4].to_vec()), (Answer::default(), vec![1, 2, 3, 0]));
    assert!(converted.model == *model);
    let mut other = model.clone();
    other.header = 1;
    for wrong in [*other, HeldModel::empty()] {
        let Converted { answer, model, numbers } = *calls::convert(&wrong);
        assert_eq!((answer, numbers), (Answer { number: 14, ..Answer::default() }, [0; 64]));
        assert!(model == HeldModel::empty());
    }
}

#[test]
fn as_many_events_as_there_are() {
    let [one, other] = [("idle=1", "1,0", "0"), ("idle=3", "1,0", "0")];
    let idle: Vec<_> = [one, other].into_iter().cycle().take(64).collect();
    becomes(&idle, &[("alone=1", "1,0", "0")], &[1; 64]);
    let moves = [MOVED; 64];
    let numbers: [u8; 64] = std::array::from_fn(|at| at as u8 + 1);
    becomes(&moves, &moves, &numbers);
}
