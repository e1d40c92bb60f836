//! Replicas that no call leaves and lists longer than their array. The
//! interface settles little about them: the call returns, bytes that were
//! not lent stay, a step counts the records that stand in its output, a count
//! past the places means as many as there are, and a request is of the group
//! in whose queue it stands.

use super::lent::Lent;
use super::pair::same_replica;
use super::records::some_request;
use super::tally::{Event, Tally};
use super::{same, same_lists, Outcome};
use crate::convert::{queues, to_list, to_replica};
use crate::difference::Difference;
use crate::ffi;
use crate::model::record::{read_message, MessageFields};
use crate::model::replica::{Pending, Queue, Replica};
use crate::model::{number_of, LocalTime, GROUP_LIMIT, OUTPUT_SIZE};
use crate::model::{QUEUES, QUEUE_LIMIT, RECORD_SIZE};
use crate::random::Random;
use crate::traffic::{Cast, Traffic};

/// A few calls with a malformed replica or list.
pub fn run(random: &mut Random, tally: &mut Tally) -> Outcome {
    tally.event(Event::MalformedRun);
    let mut replica = some_replica(random);
    for _ in 0..4 {
        note(&replica, tally);
        let bytes = some_request(replica.settings.k, replica.settings.groups, random).encode();
        let at = ffi::LocalTime(some_time(&replica, random));
        replica = deliver(replica, &bytes, at)?;
        replica = step(replica, at, random)?;
    }
    tally.events(Event::MalformedCall, 2);
    long_list(random);
    foreign_requests(random, tally)
}

/// What is wrong with a replica that gets a delivery and a step.
fn note(replica: &ffi::Replica, tally: &mut Tally) {
    tally.events(Event::MalformedCall, 2);
    if replica.counts.iter().any(|&count| count > QUEUE_LIMIT) {
        tally.events(Event::CountPastPlaces, 2);
    }
    match replica.settings.groups {
        0 => tally.events(Event::NoGroups, 2),
        1..=GROUP_LIMIT => {}
        _ => tally.events(Event::TooManyGroups, 2),
    }
}

/// A replica whose counts are at most the places.
fn within_places(replica: ffi::Replica) -> ffi::Replica {
    ffi::Replica { counts: replica.counts.map(|count| count.min(QUEUE_LIMIT)), ..replica }
}

/// The same replica, but for counts past the places.
fn same_within_places(
    expected: &ffi::Replica,
    found: &ffi::Replica,
    input: impl Fn() -> String + Copy,
) -> Outcome {
    let figures = |r: &ffi::Replica| (r.settings, r.number, r.last.0, r.writes);
    same("within the places, figures", figures(expected), figures(found), input)?;
    same_lists("within the places, variable", &expected.variables, &found.variables, input)?;
    same_lists("within the places, queue", &queues(expected), &queues(found), input)
}

/// A delivery, also with counts within the places.
fn deliver(
    replica: ffi::Replica,
    bytes: &[u8],
    at: ffi::LocalTime,
) -> Result<ffi::Replica, Difference> {
    let input = || format!("deliver {bytes:?} at {} to a malformed {replica:?}", at.0);
    let expected = ffi::deliver(within_places(replica), bytes, at);
    let found = ffi::deliver(replica, bytes, at);
    same("within the places, refusal", expected.refusal, found.refusal, input)?;
    same_within_places(&expected.replica, &found.replica, input)?;
    Ok(found.replica)
}

/// What a step counts are messages of the replica's unit, from the start of
/// the output; behind them stands what stood there.
fn step(
    replica: ffi::Replica,
    at: ffi::LocalTime,
    random: &mut Random,
) -> Result<ffi::Replica, Difference> {
    let input = || format!("step at {} of a malformed {replica:?}", at.0);
    let mut lent = Lent::new(some_room(random), random);
    let before = lent.original();
    let mut output = before.clone();
    let expected = ffi::step(within_places(replica), at, &mut output);
    let found = ffi::step(replica, at, lent.lend());
    lent.check(&output, input)?;
    same("within the places, refusal", expected.refusal, found.refusal, input)?;
    same("within the places, number of messages", expected.count, found.count, input)?;
    same_within_places(&expected.replica, &found.replica, input)?;
    let size = found.count * RECORD_SIZE;
    same("room for what is counted", true, size <= before.len(), input)?;
    let (records, rest) = output.split_at(size);
    for record in records.chunks(RECORD_SIZE) {
        let read = read_message(replica.settings.k, replica.settings.groups, record);
        same("a counted record's refusal", 0, number_of(&read), input)?;
    }
    same_lists("behind the records, byte", &before[size..], rest, input)?;
    Ok(found.replica)
}

/// A step with requests in the queues of other groups: each is handled as one
/// of the group in whose queue it stands, and answered to the group that it names.
fn foreign_requests(random: &mut Random, tally: &mut Tally) -> Outcome {
    let cast = Cast::random(random);
    let delta = random.below(10);
    let made = Replica::make(cast.k, cast.groups, cast.owner, delta, 1);
    let mut model = made.expect("allowed settings");
    model.queues = std::array::from_fn(|_| some_queue(cast, random));
    model.last = LocalTime(20);
    for (group, queue) in (1..).zip(&model.queues) {
        let foreign = queue.iter().filter(|waiting| waiting.request.group != group);
        tally.events(Event::ForeignRequest, foreign.count() as u64);
    }
    step_as_the_model(model, 20 + random.below(2 * delta + 2), random)
}

/// Requests of any group, at times up to 20.
fn some_queue(cast: Cast, random: &mut Random) -> Queue {
    let mut traffic = Traffic::new(cast, random);
    let mut at = random.below(10);
    let mut queue = Vec::new();
    for _ in 0..random.index(QUEUE_LIMIT + 1) {
        at = (at + random.below(2)).min(20);
        queue.push(Pending { request: traffic.next(random), arrival: LocalTime(at) });
    }
    queue
}

fn step_as_the_model(mut model: Replica, at: u64, random: &mut Random) -> Outcome {
    let replica = to_replica(&model);
    let input = || format!("step at {at} of a malformed {replica:?}");
    let mut lent = Lent::new(OUTPUT_SIZE, random);
    let mut output = lent.original();
    let expected = model.step(LocalTime(at), &mut output);
    let found = ffi::step(replica, ffi::LocalTime(at), lent.lend());
    same("refusal", number_of(&expected), found.refusal, input)?;
    same("number of messages", expected.unwrap_or(0), found.count, input)?;
    lent.check(&output, input)?;
    same_replica(&model, &found.replica, &input)
}

fn some_room(random: &mut Random) -> usize {
    random.pick(&[0, 24, OUTPUT_SIZE - 1, OUTPUT_SIZE, OUTPUT_SIZE, 2_000])
}

fn some_time(replica: &ffi::Replica, random: &mut Random) -> u64 {
    match random.below(4) {
        0 => random.bits(),
        1 => 1 << 62,
        _ => replica.last.0.saturating_add(random.below(100)),
    }
}

/// A new replica with some fields spoiled.
fn some_replica(random: &mut Random) -> ffi::Replica {
    let model = Replica::make(2, 3, 2, 5, 1).expect("allowed settings");
    let mut replica = to_replica(&model);
    replica.counts = std::array::from_fn(|_| random.index(QUEUE_LIMIT + 1));
    for place in &mut replica.pending {
        let request = some_request(2, 3, random).into();
        *place = ffi::Pending { request, arrival: ffi::LocalTime(random.below(50)) };
    }
    for _ in 0..random.between(1, 4) {
        spoil(&mut replica, random);
    }
    replica
}

fn spoil(replica: &mut ffi::Replica, random: &mut Random) {
    let edge = random.pick(&[0, 1, 16, 17, 64, 65, 255, 1 << 62, u64::MAX]);
    match random.below(10) {
        0 => replica.settings.k = random.byte(),
        1 => replica.settings.groups = random.pick(&[0, 5, 200, 255]),
        2 => replica.settings.owner = random.byte(),
        3 => replica.number = random.byte(),
        4 => replica.settings.delta = edge,
        5 => replica.last.0 = edge,
        6 => replica.counts[random.index(QUEUES)] = edge as usize,
        7 => replica.writes = edge,
        8 => replica.variables[0] = edge as u32,
        _ => spoil_pending(&mut replica.pending, edge, random),
    }
}

fn spoil_pending(pending: &mut [ffi::Pending], edge: u64, random: &mut Random) {
    let place = random.index(pending.len());
    let waiting = &mut pending[place];
    match random.below(4) {
        0 => waiting.arrival.0 = edge,
        1 => waiting.request.variable = edge as u16,
        2 => waiting.request.process = edge as u8,
        _ => waiting.request.kind = edge as u8,
    }
}

/// A vote and a halt count over a list that says it is longer than its array.
fn long_list(random: &mut Random) {
    let mut list = to_list(&[], MessageFields::default());
    list.count = random.pick(&[66, 67, 1_000, usize::MAX]);
    ffi::vote(1, 1, ffi::Query::default(), list);
    ffi::count_halts(1, 1, 1, 1, list);
}
