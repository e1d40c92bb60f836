//! Pairs in which local time goes back: they show that the comparison can fail,
//! and why the claim supposes that it does not go back.

use super::plan::{Call, Delivery, Plan};
use crate::model::record::{Operation, Request};
use crate::model::{Timestamp, TIME_LIMIT};
use crate::random::Random;
use crate::traffic::read_variable;

/// Adds to one run a guest's read that comes past the local time of the owner's
/// next delivery, and no later than the next step, so that all steps are
/// accepted. False where there is no guest or no such place.
pub fn spoil(plan: &mut Plan, random: &mut Random) -> bool {
    let (places, guests) = (places(&plan.calls), plan.cast.guests());
    if places.is_empty() || guests.is_empty() {
        return false;
    }
    let (place, first, last) = random.pick(&places);
    let read = Request {
        group: random.pick(&guests),
        process: plan.cast.process(random),
        variable: read_variable(random),
        timestamp: Timestamp(random.below(20)),
        operation: Operation::Read,
    };
    let at = random.between(first, last);
    let guests = &mut plan.guests[random.index(2)];
    guests[place].push(Delivery { bytes: read.encode().to_vec(), at });
    plan.in_order = false;
    true
}

/// The places of the owner's deliveries before which a guest can go too far, and
/// the first and the last local time for it.
fn places(calls: &[Call]) -> Vec<(usize, u64, u64)> {
    let mut places = Vec::new();
    for (place, call) in calls.iter().enumerate() {
        let next_step = calls[place..].iter().find(|call| call.delivery().is_none());
        let (first, last) = (call.at().saturating_add(1), next_step.map_or(TIME_LIMIT.0, Call::at));
        if call.delivery().is_some() && first <= last {
            places.push((place, first, last));
        }
    }
    places
}
