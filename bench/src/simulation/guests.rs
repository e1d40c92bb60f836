//! What the guests send to a replica.

use super::bus::{Happening, Schedule};
use super::plan::Plan;
use crate::model::record::Request;
use crate::model::{Timestamp, QUEUE_LIMIT};
use crate::random::Random;
use crate::traffic::{batch, Sort};

/// Guests read and write as they like, differently at each replica.
pub fn add_guests(plan: &Plan, end: u64, schedule: &mut Schedule, random: &mut Random) {
    for _ in 0..random.index(12) {
        let Some(guest) = plan.cast.guest(random) else { continue };
        for request in some_batch(plan, guest, random) {
            schedule.push((random.below(end + 1), Happening::Guest(request)));
        }
    }
    if let Some(busy) = plan.busy {
        for _ in 0..random.between(1, 3) {
            add_burst(plan, busy, random.below(end + 1), schedule, random);
        }
    }
}

fn some_batch(plan: &Plan, guest: u8, random: &mut Random) -> Vec<Request> {
    let sort = random.pick(&[Sort::Reads, Sort::Reads, Sort::Unanimous, Sort::Missing]);
    batch(plan.cast, guest, sort, Timestamp(random.below(20)), random)
}

/// More requests of a guest than its queue holds, all at one time, so that no
/// step handles the first before the last arrives.
fn add_burst(plan: &Plan, guest: u8, at: u64, schedule: &mut Schedule, random: &mut Random) {
    let mut burst = Vec::new();
    while burst.len() <= QUEUE_LIMIT + random.index(8) {
        burst.extend(some_batch(plan, guest, random));
    }
    schedule.extend(burst.into_iter().map(|request| (at, Happening::Guest(request))));
}
