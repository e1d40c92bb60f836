//! What the programs `differential`, `simulation` and `isolation` have in common:
//! numbered inputs that come from a seed, and how they end.

use std::process::ExitCode;

use crate::difference::Difference;
use crate::random::Random;

const SEED: u64 = 1984;

/// How many inputs there are, their seed, and the number of the first.
#[derive(Clone, Copy, Debug)]
pub struct Arguments {
    pub amount: u64,
    pub seed: u64,
    first: u64,
}

impl Arguments {
    /// The arguments of this program; the amount where none is given.
    pub fn read(amount: u64, usage: &str) -> Arguments {
        let argument = |place, otherwise| match std::env::args().nth(place) {
            Some(text) => text.parse().expect(usage),
            None => otherwise,
        };
        Arguments { amount: argument(1, amount), seed: argument(2, SEED), first: argument(3, 1) }
    }

    /// The number of each input, and what it is generated from.
    pub fn inputs(self) -> impl Iterator<Item = (u64, Random)> {
        let numbers = self.first..self.first.saturating_add(self.amount);
        numbers.map(move |number| (number, Random::of_run(self.seed, number)))
    }

    /// Prints a difference in a numbered run, unit or pair, and ends with 1.
    pub fn differ(self, kind: &str, number: u64, difference: &Difference) -> ExitCode {
        println!("DIFFERENCE in {kind} {number} from seed {}: {}", self.seed, difference.what);
        println!("input: {}", difference.input);
        ExitCode::from(1)
    }
}

/// Prints what had to occur and did not, and ends with 2 if there is any.
pub fn end(missing: &[String]) -> ExitCode {
    for line in missing {
        println!("MISSING: {line}");
    }
    if missing.is_empty() {
        ExitCode::SUCCESS
    } else {
        ExitCode::from(2)
    }
}
