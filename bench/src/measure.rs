//! Medians of rounds.

use std::fmt;
use std::time::Instant;

const ROUNDS: usize = 31;

/// A call and what it is made on: the seconds that it takes with the proved engine and with the separate one.
pub struct Row {
    what: String,
    on: &'static str,
    proved: f64,
    separate: f64,
}

fn seconds(times: usize, call: &mut impl FnMut()) -> f64 {
    let from = Instant::now();
    for _ in 0..times {
        call();
    }
    from.elapsed().as_secs_f64() / times as f64
}

fn middle(mut times: Vec<f64>) -> f64 {
    times.sort_by(f64::total_cmp);
    times[times.len() / 2]
}

/// The median of rounds of one call.
pub fn median(mut call: impl FnMut()) -> f64 {
    middle((0..ROUNDS).map(|_| seconds(1, &mut call)).collect())
}

/// Rounds in which the two engines take turns.
pub fn row(what: &str, on: &'static str, times: usize, mut proved: impl FnMut(), mut separate: impl FnMut()) -> Row {
    let (mut ours, mut theirs) = (Vec::new(), Vec::new());
    for _ in 0..ROUNDS {
        ours.push(seconds(times, &mut proved));
        theirs.push(seconds(times, &mut separate));
    }
    Row {
        what: what.to_string(),
        on,
        proved: middle(ours),
        separate: middle(theirs),
    }
}

impl fmt::Display for Row {
    fn fmt(&self, f: &mut fmt::Formatter) -> fmt::Result {
        let Row {
            what,
            on,
            proved,
            separate,
        } = self;
        let ratio = proved / separate;
        write!(
            f,
            "{what:16}{on:36}{:12.2}{:12.2}{ratio:8.2}",
            proved * 1e6,
            separate * 1e6
        )
    }
}
