//! Bytes lent to a call, with others on both sides that nobody was lent.

use super::{same_lists, Outcome};
use crate::random::Random;

const MARGIN: usize = 64;

/// A lent buffer between two margins, and what stood there before.
pub struct Lent {
    now: Vec<u8>,
    before: Vec<u8>,
}

impl Lent {
    /// A buffer of random bytes.
    pub fn new(length: usize, random: &mut Random) -> Lent {
        let mut before = vec![0; length + 2 * MARGIN];
        random.fill(&mut before);
        Lent { now: before.clone(), before }
    }

    /// The part that is lent.
    pub fn lend(&mut self) -> &mut [u8] {
        let end = self.now.len() - MARGIN;
        &mut self.now[MARGIN..end]
    }

    /// A copy of what the lent part was before.
    pub fn original(&self) -> Vec<u8> {
        self.before[MARGIN..self.before.len() - MARGIN].to_vec()
    }

    /// The lent part must be as expected, the margins as they were.
    pub fn check(&self, expected: &[u8], input: impl Fn() -> String) -> Outcome {
        let end = self.now.len() - MARGIN;
        same_lists("lent byte", expected, &self.now[MARGIN..end], &input)?;
        self.check_margins(input)
    }

    /// The margins must be as they were.
    pub fn check_margins(&self, input: impl Fn() -> String) -> Outcome {
        let end = self.now.len() - MARGIN;
        let (before, now) = (&self.before, &self.now);
        same_lists("not lent, before, byte", &before[..MARGIN], &now[..MARGIN], &input)?;
        same_lists("not lent, behind, byte", &before[end..], &now[end..], &input)
    }
}
