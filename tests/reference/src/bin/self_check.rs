//! Compares the reference with itself, and each broken copy with the reference.

use std::process::ExitCode;

use reference::comparer::report::{plan_of, report};
use reference::engine::Reference;

fn main() -> ExitCode {
    let Some(plan) = plan_of(std::env::args().skip(1)) else {
        eprintln!("self_check [--seed N] [--batches N] [--batch N]");
        return ExitCode::from(2);
    };
    match report(&Reference::new(), &plan) {
        true => ExitCode::SUCCESS,
        false => ExitCode::FAILURE,
    }
}
