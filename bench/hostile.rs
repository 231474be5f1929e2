//! Times the worst inputs known beside honest ones and the original: see bench/hostile.
mod judged;
mod library;
mod worst;

use std::process::ExitCode;
use worst::{clock::take_turns, report};

/// As long as a clock goes on, at most, and how often one is asked again whose figure fails closely.
const ROUNDS: usize = 100;
const AGAIN: usize = 4;

fn main() -> ExitCode {
    let mut rows = worst::rows();
    take_turns(rows.iter_mut(), ROUNDS);
    for _ in 0..AGAIN {
        take_turns(rows.iter_mut().filter(|row| report::fails_closely(row)), ROUNDS);
    }
    report::print(&rows);
    if report::judge(&rows) {
        ExitCode::SUCCESS
    } else {
        ExitCode::FAILURE
    }
}
