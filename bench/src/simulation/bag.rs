//! The owner's requests of a unit.

use crate::model::record::Request;
use crate::model::Timestamp;
use crate::random::Random;
use crate::traffic::{batch, first_timestamp, Cast, Sort, FREEZING};

/// Batches by rising timestamp: unanimous writes and reads, and in some units
/// one or more that freeze the store.
pub fn some_bag(cast: Cast, random: &mut Random) -> Vec<Vec<Request>> {
    let length = random.pick(&[0, 1, 3, 6, 6, 10, 30]);
    let dissent = random.pick(&[0, 0, 0, 10, 50]);
    let mut timestamp = first_timestamp(random);
    let mut bag = Vec::new();
    for _ in 0..length {
        let sort = some_sort(dissent, random);
        bag.push(batch(cast, cast.owner, sort, Timestamp(timestamp), random));
        match timestamp.checked_add(random.pick(&[1, 1, 2, 1_000])) {
            Some(next) => timestamp = next,
            None => break,
        }
    }
    bag
}

fn some_sort(dissent: u64, random: &mut Random) -> Sort {
    if random.chance(dissent, 100) {
        random.pick(&FREEZING)
    } else {
        random.pick(&[Sort::Unanimous, Sort::Reads])
    }
}
