//! Compares the proved engine with the reference, and each broken copy of the reference with the engine.

use std::process::ExitCode;

use reference::comparer::report::{plan_of, report};
use reference::ffi::Proved;

fn main() -> ExitCode {
    let Some(plan) = plan_of(std::env::args().skip(1)) else {
        eprintln!("compare [--seed N] [--batches N] [--batch N]");
        return ExitCode::from(2);
    };
    match report(&Proved, &plan) {
        true => ExitCode::SUCCESS,
        false => ExitCode::FAILURE,
    }
}
