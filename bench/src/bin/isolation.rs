//! Plays pairs of runs that differ in their guests and compares what the owner
//! sees of them.
//!
//! `isolation [pairs] [seed] [first pair]` ends with 1 at the first difference,
//! and with 2 where something that must occur did not.

use std::process::ExitCode;
use std::time::Instant;

use bench::isolation::{check, Counts};
use bench::program::{end, Arguments};

const PAIRS: u64 = 40_000;

fn main() -> ExitCode {
    let arguments = Arguments::read(PAIRS, "usage: isolation [pairs] [seed] [first pair]");
    let Arguments { amount: pairs, seed, .. } = arguments;
    println!("isolation, {}: {pairs} pairs from seed {seed}", bench::other_side());
    let start = Instant::now();
    let mut counts = Counts::default();
    for (number, mut random) in arguments.inputs() {
        if let Err(difference) = check(&mut random, &mut counts) {
            return arguments.differ("pair", number, &difference);
        }
    }
    print!("{counts}");
    let seconds = start.elapsed().as_secs_f64();
    println!("{pairs} pairs without a difference for the owner in {seconds:.1} s");
    end(&counts.missing())
}
