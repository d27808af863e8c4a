//! The whole comparison: batches of a seed, the broken copies, and the report.

use std::time::Instant;

use crate::broken::{Broken, ALL};
use crate::cause::{NUMBERS, RETIRED};
use crate::engine::{Engine, Reference};

use super::batch::batch;
use super::fixed::fixed;
use super::{Causes, Compared, Comparer, Difference, Tally};

/// How much is compared.
#[derive(Clone, Copy, Debug)]
pub struct Plan {
    pub seed: u64,
    /// The first batch, and the number of batches.
    pub first: u64,
    pub batches: u64,
    /// Batches in which a broken copy must be caught.
    pub broken_batches: u64,
    /// How many comparisons there must be, and how often each cause must occur; 4 never does.
    pub least: u64,
    pub least_of_cause: u64,
}

impl Default for Plan {
    fn default() -> Plan {
        Plan {
            seed: 20_260_117,
            first: 0,
            batches: 2_200,
            broken_batches: 600,
            least: 200_000,
            least_of_cause: 200,
        }
    }
}

/// Differences that are printed in full.
const PRINTED: u64 = 5;
/// Bytes of a text that are printed.
const TEXT: usize = 4_000;

#[derive(Default)]
struct Score {
    passed: u64,
    failed: u64,
}

impl Score {
    fn note(&mut self, passed: bool) {
        if passed {
            self.passed += 1;
        } else {
            self.failed += 1;
        }
    }
}

/// Compares an engine with the reference, and with its broken copies; says whether all is well.
pub fn report(engine: &dyn Engine, plan: &Plan) -> bool {
    let mut score = Score::default();
    let tally = compare_batches(engine, plan, &mut score);
    if plan.batches >= Plan::default().batches {
        print_causes(&tally, plan.least_of_cause, &mut score);
        score.note(tally.comparisons >= plan.least);
    }
    if plan.broken_batches > 0 {
        catch_broken(engine, plan, &mut score);
    }
    println!("{} passed, {} failed", score.passed, score.failed);
    score.failed == 0
}

fn compare_batches(engine: &dyn Engine, plan: &Plan, score: &mut Score) -> Tally {
    let began = Instant::now();
    let reference = Reference::new();
    let mut comparer = Comparer::new(engine, &reference);
    let mut differences = 0;
    let mut judge = |name: String, compared: Compared| {
        if let Err(difference) = compared {
            differences += 1;
            if differences <= PRINTED {
                print_difference(&name, &difference);
            }
        }
    };
    judge("fixed".to_string(), fixed(&mut comparer));
    for number in plan.first..plan.first + plan.batches {
        let name = format!("seed {} batch {number}", plan.seed);
        judge(name, batch(&mut comparer, plan.seed, number));
    }
    let seconds = began.elapsed().as_secs_f64();
    let comparisons = comparer.tally.comparisons;
    let rate = comparisons as f64 / seconds;
    println!("{comparisons} comparisons, {differences} differences, {seconds:.1} s, {rate:.0} a second");
    let Tally { fired, lists, .. } = comparer.tally;
    println!("{fired} steps fired; {lists} lists of step calls beside the rule's own run");
    score.passed += comparisons - differences;
    score.failed += differences;
    comparer.tally
}

fn print_difference(name: &str, difference: &Difference) {
    let Difference { call, what, left, right, texts } = difference;
    println!("difference: {name}, {call}, {what}");
    println!("  left:  {}", shortened(left.as_bytes()));
    println!("  right: {}", shortened(right.as_bytes()));
    for text in texts {
        println!("  text of {} bytes: {}", text.len(), shortened(text));
    }
}

fn shortened(text: &[u8]) -> String {
    let shown = text[..text.len().min(TEXT)].escape_ascii();
    if text.len() > TEXT {
        return format!("{shown}...");
    }
    shown.to_string()
}

fn print_causes(tally: &Tally, least: u64, score: &mut Score) {
    let row = |call: &str, causes: &Causes| {
        let times: Vec<String> = causes.iter().map(|times| format!("{times:>7}")).collect();
        println!("{call:<14}{}", times.concat());
    };
    row("cause", &NUMBERS.map(|cause| cause as u64));
    for (call, causes) in &tally.calls {
        row(call, causes);
    }
    let causes = tally.causes();
    row("all", &causes);
    for (cause, times) in NUMBERS.into_iter().zip(causes) {
        let right = if cause == RETIRED { times == 0 } else { times >= least };
        if !right {
            println!("cause {cause} occurred {times} times");
        }
        score.note(right);
    }
}

/// Runs each broken copy against the engine until they differ.
fn catch_broken(engine: &dyn Engine, plan: &Plan, score: &mut Score) {
    let began = Instant::now();
    let mut caught = 0;
    for &deviation in ALL {
        let found = catch(engine, plan, deviation);
        score.note(found.is_some());
        caught += usize::from(found.is_some());
        match found {
            Some((after, Difference { call, what, .. })) => {
                println!("caught: {} (after {after}, {call}, {what})", deviation.words());
            }
            None => println!("NOT caught: {}", deviation.words()),
        }
    }
    let seconds = began.elapsed().as_secs_f64();
    println!("{} broken copies, {caught} caught, {seconds:.1} s", ALL.len());
}

/// The first difference of a broken copy from the engine, and the comparisons before it.
fn catch(engine: &dyn Engine, plan: &Plan, deviation: Broken) -> Option<(u64, Difference)> {
    let copy = Reference::broken(deviation);
    let mut comparer = Comparer::new(engine, &copy);
    for number in 0..plan.broken_batches {
        if let Err(difference) = batch(&mut comparer, plan.seed, number) {
            return Some((comparer.tally.comparisons, *difference));
        }
    }
    let last = fixed(&mut comparer).err()?;
    Some((comparer.tally.comparisons, *last))
}

/// Reads `--seed`, `--batches` and `--batch` from the command line; with the last, that batch is run alone.
pub fn plan_of(arguments: impl Iterator<Item = String>) -> Option<Plan> {
    let mut plan = Plan::default();
    let arguments: Vec<String> = arguments.collect();
    for pair in arguments.chunks(2) {
        let value = pair.get(1)?.parse().ok()?;
        match pair[0].as_str() {
            "--seed" => plan.seed = value,
            "--batches" => plan.batches = value,
            "--batch" => plan = Plan { first: value, batches: 1, broken_batches: 0, ..plan },
            _ => return None,
        }
    }
    Some(plan)
}
