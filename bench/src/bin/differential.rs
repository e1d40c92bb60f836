//! Compares the verified implementation with the model on generated inputs.
//!
//! `differential [runs] [seed] [first run]` ends with 1 at the first
//! difference, and with 2 where something that must occur did not.

use std::path::Path;
use std::process::ExitCode;
use std::time::Instant;

use bench::difference::Difference;
use bench::differential::tally::Tally;
use bench::differential::Outcome;
use bench::differential::{blocks, journals, malformed, malformed_units, records, runs, votes};
use bench::program::{end, Arguments};
use bench::random::Random;

const RUNS: u64 = 120_000;

fn main() -> ExitCode {
    let arguments = Arguments::read(RUNS, "usage: differential [runs] [seed] [first run]");
    let Arguments { amount: runs, seed, .. } = arguments;
    let journal = journals::wanted().then(journals::program);
    let journals = if journal.is_some() { "with journals" } else { "journals skipped" };
    println!("differential, {}: {runs} runs from seed {seed}, {journals}", bench::other_side());
    let start = Instant::now();
    let mut tally = Tally::new(journal.is_some());
    if let Err((run, difference)) = all(arguments, journal.as_deref(), &mut tally) {
        return arguments.differ("run", run, &difference);
    }
    print!("{tally}");
    println!("{runs} runs without a difference in {:.1} s", start.elapsed().as_secs_f64());
    end(&tally.missing())
}

/// All runs; the number of the run comes with a difference.
fn all(
    arguments: Arguments,
    journal: Option<&Path>,
    tally: &mut Tally,
) -> Result<(), (u64, Difference)> {
    let mut random = Random::of_run(arguments.seed, 0);
    records::every_length(&mut random, tally).map_err(|difference| (0, difference))?;
    for (run, mut random) in arguments.inputs() {
        one(run, journal, &mut random, tally).map_err(|difference| (run, difference))?;
    }
    Ok(())
}

/// One run; its sort follows from its number.
fn one(run: u64, journal: Option<&Path>, random: &mut Random, tally: &mut Tally) -> Outcome {
    match run % 100 {
        0 => match journal {
            Some(program) => journals::run(program, random, tally),
            None => runs::run(random, tally),
        },
        1 | 2 => malformed::run(random, tally),
        3..=30 => records::run(random, tally),
        31..=58 => votes::run(random, tally),
        59..=61 => blocks::run(random, tally),
        62 => malformed_units::run(random, tally),
        _ => runs::run(random, tally),
    }
}
