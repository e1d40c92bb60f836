//! What the model says, and what the other side says.

use std::fmt::Debug;

/// The first thing in which the two sides differ, and the input that shows it.
#[derive(Clone, Debug)]
pub struct Difference {
    pub what: String,
    pub input: String,
}

/// Compares one answer, and says how the sides differ.
pub fn compare<T: PartialEq + Debug>(what: &str, expected: T, found: T) -> Result<(), String> {
    if expected == found {
        return Ok(());
    }
    Err(format!("{what}: the model says {expected:?}, the other side {found:?}"))
}

/// Compares two lists, and names the first place where they differ.
pub fn compare_lists<T: PartialEq + Debug>(
    what: &str,
    expected: &[T],
    found: &[T],
) -> Result<(), String> {
    if expected == found {
        return Ok(());
    }
    match expected.iter().zip(found).position(|(e, f)| e != f) {
        Some(place) => compare(&format!("{what} {place}"), &expected[place], &found[place]),
        None => compare(&format!("{what}s"), expected.len(), found.len()),
    }
}
