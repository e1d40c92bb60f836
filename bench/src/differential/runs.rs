//! Runs of deliveries and steps on a new replica.

use super::pair::{make, Making, Pair};
use super::tally::{Event, Tally};
use super::Outcome;
use crate::model::record::{Operation, Request};
use crate::model::{Timestamp, DELTA_LIMIT, OUTPUT_SIZE, QUEUE_LIMIT, RECORD_SIZE, TIME_LIMIT};
use crate::random::Random;
use crate::traffic::{self, Cast, Traffic};

/// How a run goes.
#[derive(Clone, Copy)]
struct Style {
    /// The local time of the first call.
    start: u64,
    /// How far local time mostly goes on from call to call.
    pace: u64,
    /// One call in so many is a step.
    steps: u64,
    /// So many calls in a thousand have a damaged request.
    damage: u64,
    /// So many calls in a thousand have a time that is refused.
    bad_times: u64,
    calls: u64,
}

/// One run: a replica is made and gets deliveries and steps.
pub fn run(random: &mut Random, tally: &mut Tally) -> Outcome {
    tally.event(Event::ReplicaRun);
    let making = some_making(random);
    let Some(mut pair) = make(making, tally)? else { return Ok(()) };
    match random.below(16) {
        0 => brim(&mut pair, making, random, tally),
        1 | 2 => flood(&mut pair, making, random, tally),
        _ => ordinary(&mut pair, making, random, tally),
    }
}

fn cast_of(making: Making) -> Cast {
    Cast { k: making.k, groups: making.groups, owner: making.owner }
}

/// Arguments of making, in one case of sixteen perhaps not allowed.
fn some_making(random: &mut Random) -> Making {
    let cast = Cast::random(random);
    let number = random.small(1, cast.replicas());
    let delta = traffic::delta(random);
    let mut making = Making { k: cast.k, groups: cast.groups, owner: cast.owner, delta, number };
    if random.chance(1, 16) {
        spoil(&mut making, random);
    }
    making
}

fn spoil(making: &mut Making, random: &mut Random) {
    for _ in 0..random.between(1, 2) {
        match random.below(5) {
            0 => making.k = random.pick(&[4, 5, 255]),
            1 => making.groups = random.pick(&[0, 5, 255]),
            2 => making.owner = random.pick(&[0, making.groups.wrapping_add(1), 255]),
            3 => making.delta = random.pick(&[DELTA_LIMIT + 1, 1 << 62, u64::MAX]),
            _ => making.number = random.pick(&[0, making.k.wrapping_mul(2).wrapping_add(2), 255]),
        }
    }
}

fn some_style(delta: u64, random: &mut Random) -> Style {
    Style {
        start: traffic::start(delta, random),
        pace: random.pick(&[0, 1, delta / 16, delta / 4, delta, 3 * delta + 2]),
        steps: random.pick(&[3, 8, 8, 20, 60]),
        damage: random.pick(&[0, 20, 120]),
        bad_times: random.pick(&[0, 20, 120]),
        calls: random.between(1, 110),
    }
}

/// Traffic with steps in between, and a last step that handles all.
fn ordinary(pair: &mut Pair, making: Making, random: &mut Random, tally: &mut Tally) -> Outcome {
    let style = some_style(making.delta, random);
    let mut traffic = Traffic::new(cast_of(making), random);
    pair.step(style.start, OUTPUT_SIZE, random, tally)?;
    for _ in 0..style.calls {
        if random.chance(1, 4) {
            pair.scramble(random, tally);
        }
        let at = some_time(pair, style, random);
        if random.chance(1, style.steps) {
            pair.step(at, some_room(random), random, tally)?;
        } else {
            let bytes = some_request_bytes(&mut traffic, style, random);
            pair.deliver(&bytes, at, tally)?;
        }
    }
    last_step(pair, random, tally)
}

/// More requests than there is room for, at about the same time: of all groups,
/// or most of one.
fn flood(pair: &mut Pair, making: Making, random: &mut Random, tally: &mut Tally) -> Outcome {
    let cast = cast_of(making);
    let mut traffic = match random.below(2) {
        0 => Traffic::new(cast, random),
        _ => Traffic::busy(cast, random),
    };
    let mut at = traffic::start(making.delta, random);
    for _ in 0..usize::from(cast.groups) * (QUEUE_LIMIT + 4) {
        at = (at + random.below(2)).min(TIME_LIMIT.0);
        pair.deliver(&traffic.next(random).encode(), at, tally)?;
    }
    let style = Style { start: at, pace: 0, steps: 1, damage: 0, bad_times: 0, calls: 0 };
    let at = some_time(pair, style, random);
    pair.step(at, some_room(random), random, tally)?;
    last_step(pair, random, tally)
}

/// Reads that fill every queue but for one write of one process.
fn brim(pair: &mut Pair, making: Making, random: &mut Random, tally: &mut Tally) -> Outcome {
    let cast = cast_of(making);
    let mut requests = vec![lone_write(cast, random)];
    for group in 1..=cast.groups {
        let reads = QUEUE_LIMIT - usize::from(group == cast.owner);
        requests.extend((0..reads).map(|_| some_read(cast, group, random)));
    }
    random.shuffle(&mut requests);
    let at = random.below(1_000);
    for request in requests {
        pair.deliver(&request.encode(), at, tally)?;
    }
    last_step(pair, random, tally)
}

/// A write whose timestamp no read of `some_read` has.
fn lone_write(cast: Cast, random: &mut Random) -> Request {
    Request {
        group: cast.owner,
        process: cast.process(random),
        variable: traffic::written_variable(random),
        timestamp: Timestamp(random.below(64) * 2 + 1),
        operation: Operation::Write(traffic::value(random)),
    }
}

fn some_read(cast: Cast, group: u8, random: &mut Random) -> Request {
    Request {
        group,
        process: cast.process(random),
        variable: traffic::read_variable(random),
        timestamp: Timestamp(random.below(64) * 2),
        operation: Operation::Read,
    }
}

/// A step after which nothing is pending, if local time allows it.
fn last_step(pair: &mut Pair, random: &mut Random, tally: &mut Tally) -> Outcome {
    let late = pair.model.last.0 + pair.model.delta + 1;
    pair.step(late.min(TIME_LIMIT.0), OUTPUT_SIZE + random.index(50), random, tally)
}

fn some_room(random: &mut Random) -> usize {
    match random.below(16) {
        0 => 0,
        1 => OUTPUT_SIZE - 1,
        2 => random.index(OUTPUT_SIZE),
        3..=9 => OUTPUT_SIZE,
        10 | 11 => OUTPUT_SIZE + 1,
        _ => OUTPUT_SIZE + random.index(3_000),
    }
}

/// The bytes of the next request, now and then damaged.
fn some_request_bytes(traffic: &mut Traffic, style: Style, random: &mut Random) -> Vec<u8> {
    let mut bytes = traffic.next(random).encode().to_vec();
    if random.chance(style.damage, 1_000) {
        match random.below(6) {
            0 => bytes.truncate(random.index(RECORD_SIZE)),
            1 => bytes.extend([0; 3]),
            _ => traffic::damage(&mut bytes, random),
        }
    }
    bytes
}

/// A local time for the next call.
fn some_time(pair: &Pair, style: Style, random: &mut Random) -> u64 {
    let last = pair.model.last.0;
    if random.chance(style.bad_times, 1_000) {
        return bad_time(last, random);
    }
    let time = match random.below(8) {
        0 => last,
        1 | 2 => about_stable(pair, random),
        _ => last + random.below(style.pace + 1),
    };
    time.clamp(last, TIME_LIMIT.0)
}

/// The time at which some pending request is just stable, or just not.
fn about_stable(pair: &Pair, random: &mut Random) -> u64 {
    let arrivals: Vec<u64> = pair.model.pending().map(|waiting| waiting.arrival.0).collect();
    if arrivals.is_empty() {
        return 0;
    }
    random.pick(&arrivals) + pair.model.delta + random.below(2)
}

fn bad_time(last: u64, random: &mut Random) -> u64 {
    match random.below(6) {
        0 => TIME_LIMIT.0 + 1,
        1 => u64::MAX,
        2 => TIME_LIMIT.0 + random.below(1 << 62),
        3 => random.below(last + 1),
        _ => last.saturating_sub(1),
    }
}
