//! The step of a replica, as each mutant does it.

use std::collections::BTreeSet;

use super::guests;
use super::list::{chosen, is, Mutant};
use crate::convert::from_replica;
use crate::ffi;
use crate::model::record::{Request, HALT};
use crate::model::replica::{Pending, Queue, Replica};
use crate::model::{LocalTime, Refusal, Timestamp};
use crate::model::{FAILED, OUTPUT_SIZE, QUEUES, QUEUE_LIMIT, RECORD_SIZE, TIME_LIMIT};

/// The number of messages that a step sends.
pub type Stepped = Result<usize, Refusal>;

/// Takes one more request out of the places of a group, if it looks like one.
pub fn before_step(model: &mut Replica, replica: &ffi::Replica) {
    if !is(Mutant::FreePlaceTaken) {
        return;
    }
    for place in (0..QUEUES).filter(|&place| replica.counts[place] < QUEUE_LIMIT) {
        let mut longer = *replica;
        longer.counts[place] += 1;
        if let Some(longer) = from_replica(&longer) {
            *model = longer;
        }
    }
}

pub fn step(replica: &mut Replica, at: LocalTime, output: &mut [u8]) -> Stepped {
    match chosen() {
        Some(Mutant::StableAtEquality) => stable_at_equality(replica, at, output),
        Some(Mutant::LatestArrival) => disguised(replica, at, output, take_latest_arrival),
        Some(Mutant::UnstableSkipped) => {
            let delta = replica.delta;
            disguised(replica, at, output, |queue| hide_unstable(queue, delta, at))
        }
        Some(Mutant::OneBatchOnly) => disguised(replica, at, output, hide_later),
        Some(Mutant::SendersIgnored) => disguised(replica, at, output, renumber_senders),
        Some(Mutant::RepeatPasses) => disguised(replica, at, output, drop_repeats),
        Some(Mutant::MixedReadIgnored) => disguised(replica, at, output, drop_mixed_reads),
        Some(Mutant::RepliesReversed) => disguised(replica, at, output, |queue| queue.reverse()),
        Some(Mutant::LastHaltMissing) => without_last_halt(replica, at, output),
        Some(Mutant::RoomBeforeTime) if output.len() < OUTPUT_SIZE => Err(Refusal::TooLittleRoom),
        Some(Mutant::OwnerIsLastGroup) => with_other_owner(replica, at, output),
        Some(Mutant::FailedGoesOn) => forgetting_failure(replica, at, output),
        Some(Mutant::FailedIsSilent) => silent_when_failed(replica, at, output),
        Some(Mutant::SignedTimestamps) => with_signed_timestamps(replica, at, output),
        Some(Mutant::NextQueueVisited) => visiting_next_queue(replica, at, output),
        Some(Mutant::OneQueueForAll) => guests::one_queue(replica, at, output),
        Some(Mutant::UnstableGuestEndsStep) => guests::unstable_ends_step(replica, at, output),
        Some(Mutant::GuestWrites) => guests::writing(replica, at, output),
        Some(Mutant::GuestFreezes) => guests::freezing(replica, at, output),
        Some(Mutant::ThirtyTwoMessages) => cut_off(replica, at, output),
        Some(Mutant::LastTimeRefused) if at == TIME_LIMIT => Err(Refusal::TimeTooLarge),
        _ => spoiled_afterwards(replica, at, output),
    }
}

/// The mutants whose bug comes after a right step.
fn spoiled_afterwards(replica: &mut Replica, at: LocalTime, output: &mut [u8]) -> Stepped {
    let (last, writes) = (replica.last, replica.writes);
    let result = replica.step(at, output);
    match (chosen(), result) {
        (Some(Mutant::CountOffByOne), Ok(count)) => return Ok(count + 1),
        (Some(Mutant::OutputCleared), Ok(count)) => output[count * RECORD_SIZE..].fill(0),
        (Some(Mutant::RefusedStepWrites), Err(_)) => output.fill(0),
        (Some(Mutant::WritesNotCounted), Ok(_)) => replica.writes = writes,
        (Some(Mutant::StepKeepsClock), Ok(_)) => replica.last = last,
        (Some(Mutant::PendingSwapped), Ok(_)) => {
            replica.queues.iter_mut().filter(|queue| queue.len() > 1).for_each(|q| q.swap(0, 1));
        }
        _ => {}
    }
    result
}

fn stable_at_equality(replica: &mut Replica, at: LocalTime, output: &mut [u8]) -> Stepped {
    if at < replica.last || at >= TIME_LIMIT {
        return replica.step(at, output);
    }
    let result = replica.step(LocalTime(at.0 + 1), output);
    if result.is_ok() {
        replica.last = at;
    }
    result
}

fn timestamp_of(pending: &Pending) -> Timestamp {
    pending.request.timestamp
}

/// The timestamps of a queue's batches.
pub fn batches(queue: &Queue) -> BTreeSet<Timestamp> {
    queue.iter().map(timestamp_of).collect()
}

/// The requests of a queue in the batch of one of them.
fn in_batch<'a>(queue: &'a Queue, one: &Pending) -> impl Iterator<Item = &'a Pending> {
    let timestamp = timestamp_of(one);
    queue.iter().filter(move |waiting| timestamp_of(waiting) == timestamp)
}

/// A step with other pending requests. Those that were not handled stay as
/// they were.
fn disguised(
    replica: &mut Replica,
    at: LocalTime,
    output: &mut [u8],
    disguise: impl Fn(&mut Queue),
) -> Stepped {
    let mut other = replica.clone();
    other.queues.iter_mut().for_each(disguise);
    let before = other.queues.each_ref().map(batches);
    let count = other.step(at, output)?;
    for (place, queue) in replica.queues.iter().enumerate() {
        let after = batches(&other.queues[place]);
        let handled = |p: &Pending| {
            before[place].contains(&timestamp_of(p)) && !after.contains(&timestamp_of(p))
        };
        other.queues[place] = queue.iter().copied().filter(|p| !handled(p)).collect();
    }
    *replica = other;
    Ok(count)
}

fn take_latest_arrival(queue: &mut Queue) {
    let original = queue.clone();
    for waiting in queue {
        let latest = in_batch(&original, waiting).map(|p| p.arrival).max();
        waiting.arrival = latest.unwrap_or(waiting.arrival);
    }
}

fn hide_unstable(queue: &mut Queue, delta: u64, at: LocalTime) {
    let original = queue.clone();
    queue.retain(|waiting| in_batch(&original, waiting).any(|p| p.arrival.0 + delta < at.0));
}

fn hide_later(queue: &mut Queue) {
    let first = queue.iter().map(timestamp_of).min();
    queue.retain(|waiting| Some(timestamp_of(waiting)) == first);
}

fn renumber_senders(queue: &mut Queue) {
    let mut seen: Vec<Timestamp> = Vec::new();
    for waiting in queue.iter_mut().filter(|p| !p.request.is_read()) {
        let timestamp = timestamp_of(waiting);
        let earlier = seen.iter().filter(|&&other| other == timestamp).count();
        seen.push(timestamp);
        waiting.request.process = 1 + earlier as u8;
    }
}

fn drop_repeats(queue: &mut Queue) {
    let mut seen: BTreeSet<Request> = BTreeSet::new();
    queue.retain(|p| p.request.is_read() || seen.insert(p.request));
}

fn drop_mixed_reads(queue: &mut Queue) {
    let original = queue.clone();
    queue.retain(|waiting| {
        !waiting.request.is_read() || in_batch(&original, waiting).all(|p| p.request.is_read())
    });
}

fn without_last_halt(replica: &mut Replica, at: LocalTime, output: &mut [u8]) -> Stepped {
    let before = output.to_vec();
    let count = replica.step(at, output)?;
    let last = count.saturating_sub(1) * RECORD_SIZE;
    if count > 0 && output[last] == HALT {
        output[last..].copy_from_slice(&before[last..]);
        return Ok(count - 1);
    }
    Ok(count)
}

/// A step that sends its first 32 messages.
fn cut_off(replica: &mut Replica, at: LocalTime, output: &mut [u8]) -> Stepped {
    let before = output.to_vec();
    let count = replica.step(at, output)?.min(32);
    let end = count * RECORD_SIZE;
    output[end..].copy_from_slice(&before[end..]);
    Ok(count)
}

fn with_other_owner(replica: &mut Replica, at: LocalTime, output: &mut [u8]) -> Stepped {
    let owner = std::mem::replace(&mut replica.owner, replica.settings.groups());
    let result = replica.step(at, output);
    replica.owner = owner;
    result
}

fn forgetting_failure(replica: &mut Replica, at: LocalTime, output: &mut [u8]) -> Stepped {
    let mark = std::mem::replace(&mut replica.variables[FAILED], 0);
    let result = replica.step(at, output);
    replica.variables[FAILED] |= mark;
    result
}

fn silent_when_failed(replica: &mut Replica, at: LocalTime, output: &mut [u8]) -> Stepped {
    if !replica.failed() {
        return replica.step(at, output);
    }
    replica.step(at, &mut output.to_vec()).map(|_| 0)
}

fn turn_signs(replica: &mut Replica) {
    for waiting in replica.queues.iter_mut().flatten() {
        waiting.request.timestamp.0 ^= 1 << 63;
    }
}

fn with_signed_timestamps(replica: &mut Replica, at: LocalTime, output: &mut [u8]) -> Stepped {
    turn_signs(replica);
    let result = replica.step(at, output);
    turn_signs(replica);
    for record in output.chunks_exact_mut(RECORD_SIZE).take(result.unwrap_or(0)) {
        record[8] ^= 0x80;
    }
    result
}

/// Each group's visit finds the queue of the group behind it, the last one's the first.
fn visiting_next_queue(replica: &mut Replica, at: LocalTime, output: &mut [u8]) -> Stepped {
    replica.queues.rotate_left(1);
    let result = replica.step(at, output);
    replica.queues.rotate_right(1);
    result
}
