//! Drives the verified implementation and the model with the same generated
//! inputs and compares all that the rules settle.

pub mod blocks;
pub mod journals;
pub mod lent;
pub mod malformed;
pub mod malformed_units;
pub mod pair;
pub mod records;
pub mod runs;
pub mod tally;
pub mod votes;

use std::fmt::Debug;

use crate::difference::{compare, compare_lists, Difference};

/// Nothing where both sides agree.
pub type Outcome = Result<(), Difference>;

/// Compares one answer. The input is written out only if the answers differ.
pub fn same<T: PartialEq + Debug>(
    what: &str,
    expected: T,
    found: T,
    input: impl FnOnce() -> String,
) -> Outcome {
    compare(what, expected, found).map_err(|what| Difference { what, input: input() })
}

/// The same for each place of two lists.
pub fn same_lists<T: PartialEq + Debug>(
    what: &str,
    expected: &[T],
    found: &[T],
    input: impl FnOnce() -> String,
) -> Outcome {
    compare_lists(what, expected, found).map_err(|what| Difference { what, input: input() })
}
