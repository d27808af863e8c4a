//! Likes: cases that need no made-up plant, on both sides of each limit.

use crate::held::HeldMarking;
use crate::model::{INNER, LIKES, LINES, PLACES, TOKENS};

use super::damage::TIMES;
use super::texts::{step_of, token_lines};

/// Two halls of a net with two inner places, and a black one. Events move one rack, give an empty one, move four, give a black
/// token, put one where it was, put 255 for two, move one back; then give a rack with a token, move one with a step inside, let
/// one idle, and move one back with a token more.
pub const COUNTED: &str =
    "eos=1\nnets=1\nplaces=3\ntype=1,1,0\nmoves=7\npre=1,0,0\npost=0,1,0\npre=0,0,0\npost=1,0,0\npre=4,0,0\n\
    post=0,4,0\npre=0,0,0\npost=0,0,1\npre=0,0,1\npost=0,0,1\npre=0,0,2\npost=0,0,255\npre=0,1,0\npost=1,0,0\n\
    inner=2\nsteps=2\npre=1,0\npost=0,1\npre=0,0\npost=0,1\nevents=11\nevent=1\nsync=0,0\nevent=2\nsync=0,0\n\
    event=3\nsync=0,0\nevent=4\nsync=0,0\nevent=5\nsync=0,0\nevent=6\nsync=0,0\nevent=7\nsync=0,0\nevent=2\n\
    sync=0,1\nevent=1\nsync=1,0\nidle=2\nsync=0,1\nevent=7\nsync=0,1\n";

/// A marking's text of these token lines, each from behind its sign on.
pub fn start_of(tokens: &[&str]) -> Vec<u8> {
    format!("start={}\n{}", tokens.len(), token_lines(tokens)).into_bytes()
}

/// The text of `COUNTED` with this start.
pub fn with_start(start: &[u8]) -> Vec<u8> {
    [COUNTED.as_bytes(), start].concat()
}

/// Token lines of a start: likes at their limit and past it, in one line and in some, with what else can be at fault.
#[rustfmt::skip]
const STARTS: &[&[&str]] = &[
    &[], &["3:"], &["3:*2"], &["3:*65535"], &["3:*65536"], &["1:0,0*65535"], &["1:0,0*65536"],
    &["3:", "3:"], &["3:*2", "3:", "3:*3"], &["1:1,0", "1:0,0*9", "1:1,0*2", "2:0,0", "1:0,0"],
    // Just as many, and one more, the last one in any line.
    &["3:*65534", "3:"], &["3:", "3:*65534"], &["3:*65535", "3:"], &["3:", "3:*65535"], &["3:*65535", "3:*65535"],
    &["3:*40000", "1:0,0", "3:*25535"], &["3:*40000", "1:0,0", "3:*25536"], &["3:*40000", "3:*25536", "1:0,0"],
    &["1:7,0*65535", "1:7,0"], &["1:7,0*65535", "1:0,7"], &["1:7,0*65535", "2:7,0"], &["1:7,0*65535", "1:7,0*65535", "3:"],
    // Faults of the same line, and of a later one.
    &["3:*65535", "3:*65536"], &["3:*65535", "3:*1"], &["3:*65535", "3:0"], &["1:7,0*65535", "1:7,65536"],
    &["1:7,0*65535", "1:7,65536*65536"], &["3:*65535", "4:"], &["3:*65535", "3:", "9:"], &["3:*65535", "3:", "3:x"],
    &["3:*65535", "3:", "3:*1"], &["3:*65535", "3:", "3:*65536"], &["3:*65535", "3:", "1:70000,0"],
    &["3:", "9:", "3:*65535", "3:"],
    // Places and counts out of range before likes; an unknown place with any list.
    &["9:0*5"], &["9:*5"], &["9:0*1"], &["9:0*0"], &["9:*65536"], &["0:1,2,3*65536"], &["9:,*2"], &["1:65536,0*65536"],
    &["1:65536,65536*65536"], &["1:0,0*65536"], &["1:0*65536"], &["1:0*2"], &["1:0,0,0*2"], &["1:*2"], &["3:0*2"],
    // Numbers of an order that their counts do not change.
    &["1:5,0", "1:0,0*9", "1:2,0*2", "2:0,0*65535", "3:*2"], &["2:1,0*3", "2:0,1*4", "2:0,0*5", "1:9,9*65535"],
];

/// Markings as texts: those of `STARTS`, each kind of likes behind a known and an unknown place, and as many lines as can be.
pub fn starts() -> impl Iterator<Item = Vec<u8>> {
    let behind = TIMES.iter().flat_map(|times| {
        let lines = ["3:", "1:0,0", "1:0", "9:", "9:7"].map(|token| format!("{token}{times}"));
        lines.map(|line| start_of(&[&line]))
    });
    let unlike = |lines: usize| (0..lines).map(|at| format!("1:{at},0")).collect::<Vec<_>>();
    let alike = |lines: usize| vec!["1:0,0*255".to_string(); lines];
    let many = [unlike(LINES), unlike(LINES + 1), alike(LINES), alike(LINES + 1), {
        let mut lines = vec!["1:0,0*257".to_string(); LINES - 1];
        lines.push("1:0,0".to_string());
        lines
    }];
    let texts = many.map(|lines| start_of(&lines.iter().map(String::as_str).collect::<Vec<_>>()));
    let cut = [&b"start=3\ntoken=3:*65535\ntoken=3:\n"[..], b"start=2\ntoken=3:*65535\ntoken=3:\nx"];
    let unended = [&b"start=1\ntoken=3:*2"[..], b"start=1\ntoken=3:*1", b"start=1\ntoken=3:*"];
    let plain = STARTS.iter().map(|tokens| start_of(tokens));
    plain.chain(behind).chain(texts).chain(cut.into_iter().chain(unended).map(<[u8]>::to_vec))
}

/// A start with as many likes as can be, or nearly, at each place.
pub fn full_of_likes() -> Vec<u8> {
    start_of(&[
        "1:0,0*65535",
        "2:0,0*65534",
        "1:1,0*65535",
        "1:4,4*65534",
        "2:4,4*3",
        "3:*65535",
        "2:9,0*65535",
    ])
}

/// A start with as many unlike net-tokens as can be, some of them there several times.
pub fn full_of_unlike() -> Vec<u8> {
    let racks = (0..TOKENS - 3).map(|at| format!("1:{at},0"));
    let lines: Vec<String> = racks.chain(["2:0,0*3", "2:5,5*2", "3:*2"].map(str::to_string)).collect();
    start_of(&lines.iter().map(String::as_str).collect::<Vec<_>>())
}

/// A start with few likes.
pub fn few() -> Vec<u8> {
    start_of(&["1:0,0*3", "1:1,0", "1:2,0*4", "1:65535,0*4", "2:3,1*2", "3:*65283", "2:65535,65535*2"])
}

type Case = (usize, &'static [&'static str], &'static [&'static str]);

/// Events with net-tokens taken and given, on any of the three starts: what fires on one of them, and what fails by one.
#[rustfmt::skip]
const STEPS: &[Case] = &[
    // One given more, or as many as are taken.
    (2, &[], &["1:0,0"]), (4, &[], &["3:"]), (5, &["3:"], &["3:"]), (5, &["3:*2"], &["3:*2"]),
    (1, &["1:0,0"], &["2:0,0"]), (1, &["1:4,4"], &["2:4,4"]), (7, &["2:0,0"], &["1:0,0"]), (7, &["2:4,4"], &["1:4,4"]),
    (6, &["3:*2"], &["3:*255"]), (6, &["3:", "3:"], &["3:*200", "3:*55"]), (6, &["3:*2"], &["3:*254"]),
    // Unlike ones: the last of its likes goes or not, what is given is there or not.
    (8, &[], &["1:0,1"]), (8, &[], &["1:0,1*2"]), (1, &["1:5,0"], &["2:5,0"]), (9, &["1:6,0"], &["2:5,1"]),
    (10, &["2:0,0"], &["2:0,1"]), (11, &["2:0,0"], &["1:0,1"]), (7, &["2:5,5"], &["1:5,5"]), (7, &["2:0,0"], &["1:3,0"]),
    // Takes that lack likes, and just enough.
    (3, &["1:0,0*4"], &["2:0,0*4"]), (3, &["1:0,0*3", "1:0,0"], &["2:0,0*4"]), (3, &["1:0,0*2", "1:0,0*2"], &["2:0,0*4"]),
    (3, &["1:0,0*2", "1:1,0", "1:0,0"], &["2:0,0*3", "2:1,0"]), (3, &["1:0,0", "1:1,0", "1:0,0*2"], &["2:1,0", "2:0,0*3"]),
    (3, &["1:1,0*2", "1:0,0*2"], &["2:0,0*2", "2:1,0*2"]), (3, &["1:0,0", "1:1,0", "1:1,0", "1:0,0"], &["2:0,0*3", "2:2,0"]),
    (3, &["1:2,0*4"], &["2:2,0*4"]), (3, &["1:2,0*4"], &["2:4,0*2", "2:0,0*2"]), (3, &["1:2,0*3", "1:2,0"], &["2:8,0", "2:0,0*3"]),
    (3, &["1:2,0*4"], &["2:2,0*3", "2:3,0"]), (3, &["1:65535,0*4"], &["2:65535,0*4"]), (3, &["1:65535,0*4"], &["2:65535,0*3", "2:65534,1"]),
    // Both: not in the marking, and no room.
    (7, &["2:1,0"], &["1:1,0"]), (7, &["2:0,255"], &["1:0,255"]), (1, &["1:0,300"], &["2:0,300"]), (1, &["1:9,0*1"], &["2:9,0"]),
    (1, &["1:9,0"], &["2:9,0"]),
    // More or fewer than the arcs say, also by as many as 16 bits hold.
    (1, &["1:0,0*2"], &["2:0,0*2"]), (1, &["1:0,0*65535", "1:0,0*2"], &["2:0,0"]), (1, &["1:0,0"], &["2:0,0*65535", "2:0,0*2"]),
    (3, &["1:0,0"], &["2:0,0"]), (3, &["1:0,0*4"], &["2:0,0"]), (3, &["1:0,0"], &["2:0,0*4"]), (4, &[], &["3:*65535"]),
    (2, &["3:*65535", "3:"], &["1:0,0"]), (2, &["2:0,0*65535", "2:0,0"], &["1:0,0"]), (10, &["2:0,0*2"], &["2:0,0", "2:0,1"]),
    (10, &["2:0,0*65535", "2:0,0*2"], &["2:0,1"]), (10, &["2:0,0"], &["2:0,1*65535", "2:0,1*2"]),
    // Insides past 32 bits where the projection is wrong anyway.
    (1, &["1:65535,65535*65535", "1:65535,65535*65535"], &["2:65535,65535*65535"]),
    // Numbers of likes out of range, and no numbers.
    (1, &["1:0,0*65536"], &["2:0,0"]), (1, &["1:0,0"], &["2:0,0*65537"]), (1, &["1:0,0*1"], &["2:0,0"]), (1, &["1:0,0*0"], &["2:0,0"]),
    (1, &["1:0,0"], &["2:0,0*1"]), (1, &["1:0,0*01"], &["2:0,0"]), (1, &["1:0,0*"], &["2:0,0"]), (1, &["1:0,0*2x"], &["2:0,0"]),
    (3, &["9:0*5"], &["2:0,0*4"]), (3, &["1:0,0*4"], &["9:0*1"]), (3, &["1:0,70000*65536"], &["2:0,0*4"]),
    (5, &["3:*4294967297"], &["3:"]), (5, &["3:*18446744073709551617"], &["3:"]), (5, &["3:*131073"], &["3:"]),
];

/// Their texts.
pub fn steps() -> impl Iterator<Item = Vec<u8>> {
    let likes = |lines: usize| vec!["3:*2"; lines];
    let many = [LINES, LINES + 1]
        .into_iter()
        .flat_map(move |lines| [step_of(5, &likes(lines), &["3:"]), step_of(5, &["3:"], &likes(lines))]);
    STEPS.iter().map(|(event, taken, given)| step_of(*event, taken, given)).chain(many)
}

/// Texts of steps that follow one another on `full_of_likes`: a place is filled up and left again.
pub fn filling() -> Vec<Vec<u8>> {
    let [there, back] = [step_of(1, &["1:4,4"], &["2:4,4"]), step_of(7, &["2:4,4"], &["1:4,4"])];
    let [fill, no_room] = [step_of(1, &["1:0,0"], &["2:0,0"]), step_of(1, &["1:0,0"], &["2:0,0"])];
    let left = step_of(7, &["2:0,0"], &["1:0,0"]);
    vec![there.clone(), back.clone(), back, there, fill, left, no_room.clone(), no_room.clone(), no_room]
}

/// What a held marking is changed to, one entry at a time, the first, the last and some between: likes of none and of many,
/// neighbours that are equal but for their likes or in all, and numbers in the unused room.
pub fn held_otherwise(held: &HeldMarking) -> Vec<HeldMarking> {
    let mut all = Vec::new();
    let mut with = |change: &dyn Fn(&mut HeldMarking)| {
        let mut other = held.clone();
        change(&mut other);
        all.push(other);
    };
    let mut places: Vec<usize> = [0, 1, held.len / 2, held.len.saturating_sub(1)].to_vec();
    places.sort();
    places.dedup();
    places.retain(|&at| at < held.len);
    for &at in &places {
        [0, 1, 2, 65_535].iter().for_each(|&times| with(&|other| other.entries[at].times = times));
    }
    for at in places.into_iter().filter(|&at| at > 0) {
        with(&|other| other.entries.swap(at - 1, at));
        with(&|other| {
            let times = |at: usize| held.entries[at].times;
            (other.entries[at - 1].times, other.entries[at].times) = (times(at), times(at - 1));
        });
        for (before, behind) in [(1, 1), (1, 2), (2, 1), (65_535, 65_535)] {
            with(&|other| {
                other.entries[at].token = other.entries[at - 1].token;
                (other.entries[at - 1].times, other.entries[at].times) = (before, behind);
            });
        }
    }
    for at in [held.len, TOKENS - 1].into_iter().filter(|&at| (held.len..TOKENS).contains(&at)) {
        with(&|other| other.entries[at].times = 1);
        with(&|other| other.entries[at].token.place = 1);
        with(&|other| other.entries[at].token.counts[INNER - 1] = 1);
    }
    [0, TOKENS, TOKENS + 1, usize::MAX].iter().for_each(|&len| with(&|other| other.len = len));
    all
}

/// Models of halls alone with weights for them: racks and insides at the edge of covering, and sums at their bounds.
pub fn weighed() -> Vec<(Vec<u8>, Vec<Vec<u8>>)> {
    let hall = "eos=1\nnets=1\nplaces=2\ntype=1,0\nmoves=0\ninner=1\nsteps=0\nevents=0\n";
    let weights = [
        "1,1\ninner=1",
        "2,2\ninner=1",
        "2,3\ninner=2",
        "1000,1000\ninner=1",
        "-1,1\ninner=-1000",
        "0,0\ninner=0",
    ];
    let weights: Vec<Vec<u8>> =
        weights.iter().map(|outer| format!("inv=1\nouter={outer}\n").into_bytes()).collect();
    #[rustfmt::skip]
    let starts: [&[&str]; 10] = [
        &["1:0*256"], &["1:0*257"], &["1:0*255", "1:1"], &["1:0*254", "1:1"], &["2:*256"], &["2:*128", "1:0*129"],
        &["1:0*65535", "2:*65535"], &["1:65535*65535"], &["1:1*65535", "1:65535*65535", "1:65534*65535"], &["1:32767*2", "1:1"],
    ];
    let halls = starts.map(|tokens| ([hall.as_bytes(), &start_of(tokens)].concat(), weights.clone()));
    let (model, greatest) = greatest();
    halls.into_iter().chain([(model, greatest.to_vec())]).collect()
}

/// Likes that fill a marking as far as unlike ones can, and the greatest and least weights.
pub fn greatest() -> (Vec<u8>, [Vec<u8>; 3]) {
    let list = |number: &str, length: usize| vec![number; length].join(",");
    let mut model = format!(
        "eos=1\nnets=1\nplaces=32\ntype={}\nmoves=0\ninner=32\nsteps=0\nevents=0\nstart=256\n",
        list("1", PLACES)
    );
    for at in 0..TOKENS {
        let (place, less) = (1 + at % PLACES, at / PLACES);
        model += &format!("token={place}:{},{}*{LIKES}\n", LIKES as usize - less, list("65535", INNER - 1));
    }
    let weights = ["1000", "-1000", "1"].map(|weight| {
        let [outer, inner] = [PLACES, INNER].map(|length| list(weight, length));
        format!("inv=1\nouter={outer}\ninner={inner}\n").into_bytes()
    });
    (model.into_bytes(), weights)
}

/// A covered plant with likes, its weights, and texts for a list of step calls.
pub const COVERED: [&[u8]; 2] = [
    b"eos=1\nnets=1\nplaces=2\ntype=1,1\nmoves=2\npre=2,0\npost=0,2\npre=0,1\npost=1,0\ninner=1\nsteps=1\npre=1\npost=1\n\
    events=3\nevent=1\nsync=0\nevent=2\nsync=0\nidle=1\nsync=1\nstart=3\ntoken=1:2*3\ntoken=1:2\ntoken=2:0*2\n",
    b"inv=1\nouter=1,1\ninner=1\n",
];

#[rustfmt::skip]
const LISTED: &[Case] = &[
    (1, &["1:2*2"], &["2:2*2"]), (1, &["1:2*99999999999999999999"], &["2:2*2"]), (1, &["1:2*0"], &["2:2*2"]),
    (1, &["1:2*1", "1:2"], &["2:2*2"]), (1, &["1:2", "1:2*1"], &["2:2*2"]), (1, &["1:2", "1:2"], &["2:4", "2:0"]),
    (1, &["1:2*2"], &["2:2*2"]), (2, &["2:0"], &["1:0*65536"]), (2, &["2:0"], &["1:0"]), (2, &["2:0*2"], &["1:0*2"]),
    (2, &["2:0"], &["1:0"]), (2, &["2:0"], &["1:0"]), (2, &["2:0"], &["1:0"]), (1, &["1:0*3"], &["2:0*3"]), (1, &["1:0*2"], &["2:0*2"]),
    (2, &["2:4"], &["1:4"]), (2, &["2:2"], &["1:2"]), (1, &["1:4", "1:2"], &["2:3*2"]), (3, &["1:0"], &["1:0"]), (2, &["2:3*01"], &["1:3"]),
    (2, &["2:3"], &["1:3"]), (3, &["1:3"], &["1:3"]), (3, &["1:3*2"], &["1:3*2"]), (1, &["1:3*18446744073709551618"], &["2:3*2"]),
    (2, &["2:3"], &["1:3"]), (1, &["1:3*2"], &["2:0", "2:6"]), (2, &["2:6*"], &["1:6"]), (2, &["9:6*2"], &["1:6"]), (2, &["2:6"], &["1:6"]),
];

/// The texts of that list.
pub fn listed() -> Vec<Vec<u8>> {
    LISTED.iter().map(|(event, taken, given)| step_of(*event, taken, given)).collect()
}
