//! The model's journal program, to try the harness on.

use std::io::{self, BufWriter, Write};

#[cfg(not(feature = "mutants"))]
use bench::model::journal::play;
#[cfg(feature = "mutants")]
use bench::mutants::journal::play;

fn main() -> io::Result<()> {
    let mut text = BufWriter::new(io::stdout().lock());
    play(io::stdin().lock(), &mut text)?;
    text.flush()
}
