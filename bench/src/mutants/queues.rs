//! Question 14 and the queue of a request, as each mutant has them.

use super::list::{chosen, is, Mutant};
use crate::model::record::Request;
use crate::model::replica::{Pending, Replica};
use crate::model::{LocalTime, Refusal, PENDING_LIMIT, QUEUE_LIMIT};

/// A delivery of a request that passed its questions.
pub fn deliver(replica: &mut Replica, request: Request, at: LocalTime) -> Result<(), Refusal> {
    let room = room(replica, request.group);
    let before = replica.clone();
    match (replica.deliver(&request.encode(), at), room) {
        (Ok(()), Some(false)) => {
            *replica = before;
            Err(Refusal::PendingFull)
        }
        (Err(Refusal::PendingFull), Some(true)) => {
            // There is no place for it, so it is lost, or takes another's.
            replica.last = at;
            if is(Mutant::OverwritesNextQueue) {
                overwrite_next_queue(replica, request, at);
            }
            Ok(())
        }
        (result, _) => {
            if result.is_ok() {
                misplace(replica, request.group, before.last);
            }
            result
        }
    }
}

/// What a mutant does with the request that a group just got.
fn misplace(replica: &mut Replica, group: u8, last: LocalTime) {
    match chosen() {
        Some(Mutant::GuestInOwnersQueue) => move_to_owners_queue(replica, group),
        Some(Mutant::GuestMovesArrivals) if group != replica.owner => move_arrivals(replica),
        Some(Mutant::ArrivesAtLastTime) => {
            let arrived = replica.queues[usize::from(group) - 1].last_mut();
            arrived.expect("a request").arrival = last;
        }
        _ => {}
    }
}

/// The answer to question 14, where the mutant has another one.
fn room(replica: &Replica, group: u8) -> Option<bool> {
    let own = replica.queue(group).len();
    let all = replica.pending().count();
    Some(match chosen()? {
        Mutant::SeventeenthAccepted | Mutant::OverwritesNextQueue => own <= QUEUE_LIMIT,
        Mutant::SixteenthRefused => own < QUEUE_LIMIT - 1,
        Mutant::CommonSixtyFour => all < PENDING_LIMIT,
        Mutant::CommonSixteen => all < QUEUE_LIMIT,
        Mutant::PlacesOfGroupsInUse => own < PENDING_LIMIT / usize::from(replica.settings.groups()),
        Mutant::OwnersQueueAsked | Mutant::GuestInOwnersQueue => {
            replica.queue(replica.owner).len() < QUEUE_LIMIT
        }
        _ => return None,
    })
}

/// Moves the request that a group just got to the owner's queue.
fn move_to_owners_queue(replica: &mut Replica, group: u8) {
    let request = replica.queues[usize::from(group) - 1].pop();
    replica.queues[usize::from(replica.owner) - 1].extend(request);
}

/// Has all requests of the owner arrive now.
fn move_arrivals(replica: &mut Replica) {
    let now = replica.last;
    for waiting in &mut replica.queues[usize::from(replica.owner) - 1] {
        waiting.arrival = now;
    }
}

/// Puts a request into the place behind those of its group.
fn overwrite_next_queue(replica: &mut Replica, request: Request, at: LocalTime) {
    let next = replica.queues.get_mut(usize::from(request.group));
    if let Some(place) = next.and_then(|queue| queue.first_mut()) {
        *place = Pending { request, arrival: at };
    }
}
