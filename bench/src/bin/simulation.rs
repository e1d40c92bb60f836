//! Simulates whole units with lying replicas and compares what is voted and
//! counted with the register machine.
//!
//! `simulation [units] [seed] [first unit]` ends with 1 at the first difference,
//! and with 2 where something that must occur did not.

use std::process::ExitCode;
use std::time::Instant;

use bench::program::{end, Arguments};
use bench::simulation::{simulate, Counts};

const UNITS: u64 = 20_000;

fn main() -> ExitCode {
    let arguments = Arguments::read(UNITS, "usage: simulation [units] [seed] [first unit]");
    let Arguments { amount: units, seed, .. } = arguments;
    println!("simulation, {}: {units} units from seed {seed}", bench::other_side());
    let start = Instant::now();
    let mut counts = Counts::default();
    for (number, mut random) in arguments.inputs() {
        if let Err(difference) = simulate(&mut random, &mut counts) {
            return arguments.differ("unit", number, &difference);
        }
    }
    print!("{counts}");
    let seconds = start.elapsed().as_secs_f64();
    println!("{units} units as the register machine says in {seconds:.1} s");
    end(&counts.missing())
}
