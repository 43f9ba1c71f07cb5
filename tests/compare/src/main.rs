//! Compares the product with the second program: every answer and every byte of every buffer.
//!
//! `compare [SEED [COUNT]]`: the random rounds have the seeds SEED to SEED+COUNT-1 (1 and 100,000
//! where none is given); each round follows from its seed alone, so that a failure is repeated
//! with its own seed and a count of 1. The rest of the cases is the same in every run, and left
//! out where a count is given.

mod case;
mod crash;
mod fixed;
mod large;
mod lent;
mod printed;
mod program;
mod rounds;
mod shrink;
mod tally;

use std::process::ExitCode;
use std::time::Instant;
use tally::Tally;

const COUNT: u64 = 100_000;

/// Seed and count from the command line.
fn arguments() -> Result<(u64, Option<u64>), String> {
    let words: Vec<String> = std::env::args().skip(1).collect();
    let number = |word: &String| {
        word.parse::<u64>()
            .map_err(|_| format!("usage: compare [SEED [COUNT]]; {word:?} is no number"))
    };
    let seed = words.first().map_or(Ok(1), number)?;
    let count = words.get(1).map(number).transpose()?;
    Ok((seed, count))
}

/// Runs a stage and says how long it took.
fn stage(name: &str, tally: &mut Tally, run: impl FnOnce(&mut Tally)) {
    if tally.is_over() {
        return;
    }
    println!("{name} ..");
    let start = Instant::now();
    run(tally);
    println!("{name}: {:.1} s", start.elapsed().as_secs_f64());
}

/// All cases, the same in every run but for the random rounds.
fn run_all(seed: u64, tally: &mut Tally) {
    let with_program = printed::is_there(tally);
    stage("bench set", tally, fixed::bench_set);
    if with_program {
        stage("program", tally, printed::inputs);
    }
    stage("random rounds", tally, |tally| {
        rounds::run(seed, COUNT, with_program, tally)
    });
    stage("polygons", tally, large::polygons);
    stage("families", tally, large::families);
    stage("lists at the limits", tally, fixed::lists_at_limits);
    stage("texts at the limits", tally, fixed::texts_at_limits);
    if !tally.is_over() {
        tally.demand_all_codes();
    }
}

fn main() -> ExitCode {
    let (seed, count) = match arguments() {
        Ok(arguments) => arguments,
        Err(message) => {
            eprintln!("{message}");
            return ExitCode::from(2);
        }
    };
    crash::watch();
    let mut tally = Tally::default();
    match count {
        None => run_all(seed, &mut tally),
        Some(count) => rounds::run(seed, count, program::path().exists(), &mut tally),
    }
    println!("seed {seed}");
    if tally.report() {
        ExitCode::SUCCESS
    } else {
        ExitCode::FAILURE
    }
}
