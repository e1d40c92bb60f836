//! Steps in which guests harm the owner.

use std::mem::take;

use super::steps::{batches, Stepped};
use crate::model::record::{RequestFields, WRITE};
use crate::model::replica::{Pending, Queue, Replica};
use crate::model::{LocalTime, FAILED, QUEUES};
use crate::traffic::is_unanimous;

/// All groups wait in one queue, by their arrival, and the owner's visit handles it.
pub fn one_queue(replica: &mut Replica, at: LocalTime, output: &mut [u8]) -> Stepped {
    let owner = usize::from(replica.owner) - 1;
    let mut other = replica.clone();
    let mut all: Queue = other.queues.iter_mut().flat_map(take).collect();
    all.sort_by_key(|waiting| waiting.arrival);
    other.queues[owner] = all;
    let count = other.step(at, output)?;
    for waiting in take(&mut other.queues[owner]) {
        other.queues[usize::from(waiting.request.group) - 1].push(waiting);
    }
    *replica = other;
    Ok(count)
}

/// The groups behind the first whose queue does not become empty are not visited.
pub fn unstable_ends_step(replica: &mut Replica, at: LocalTime, output: &mut [u8]) -> Stepped {
    let mut right = replica.clone();
    right.step(at, &mut output.to_vec())?;
    let first = right.queues.iter().position(|queue| !queue.is_empty()).unwrap_or(QUEUES);
    let hidden: Vec<Queue> = replica.queues.iter_mut().skip(first + 1).map(take).collect();
    let count = replica.step(at, output)?;
    for (queue, kept) in replica.queues.iter_mut().skip(first + 1).zip(hidden) {
        *queue = kept;
    }
    Ok(count)
}

/// A right step, and then something for each batch of a guest that it handled
/// while the store had not failed.
fn for_guests(
    replica: &mut Replica,
    at: LocalTime,
    output: &mut [u8],
    change: impl Fn(&mut Replica, &[RequestFields]),
) -> Stepped {
    let owner = replica.owner;
    let before = replica.queues.clone();
    let count = replica.step(at, output)?;
    for group in (1..=replica.settings.groups()).filter(|&group| group != owner) {
        let before = &before[usize::from(group) - 1];
        let left = batches(replica.queue(group));
        for timestamp in batches(before).difference(&left) {
            let in_batch = |p: &&Pending| p.request.timestamp == *timestamp;
            let batch: Vec<_> =
                before.iter().filter(in_batch).map(|p| p.request.fields()).collect();
            if !replica.failed() {
                change(replica, &batch);
            }
        }
    }
    Ok(count)
}

/// Guests write as the owner does.
pub fn writing(replica: &mut Replica, at: LocalTime, output: &mut [u8]) -> Stepped {
    for_guests(replica, at, output, |replica, batch| {
        if is_unanimous(replica.settings.k(), batch) {
            replica.variables[usize::from(batch[0].variable)] = batch[0].value;
            replica.writes += 1;
        }
    })
}

/// Guests freeze the store as the owner does, but nobody is told.
pub fn freezing(replica: &mut Replica, at: LocalTime, output: &mut [u8]) -> Stepped {
    for_guests(replica, at, output, |replica, batch| {
        let writes = batch.iter().any(|request| request.kind == WRITE);
        if writes && !is_unanimous(replica.settings.k(), batch) {
            replica.variables[FAILED] = 1;
        }
    })
}
