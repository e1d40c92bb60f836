//! The calls that both runs of a pair have: the owner's deliveries and the steps.

use super::plan::{Call, Delivery};
use crate::model::{OUTPUT_SIZE, RECORD_SIZE, TIME_LIMIT};
use crate::random::Random;
use crate::traffic::{damage, start, Cast, Traffic};

/// How the calls go.
#[derive(Clone, Copy)]
struct Style {
    /// How far local time mostly goes on from call to call.
    pace: u64,
    /// One call in so many is a step.
    steps: u64,
    /// So many of a thousand deliveries are damaged.
    damage: u64,
    calls: u64,
}

fn some_style(delta: u64, random: &mut Random) -> Style {
    Style {
        pace: random.pick(&[0, 1, delta / 16, delta / 4, delta, 3 * delta + 2]),
        steps: random.pick(&[3, 6, 8, 20, 60]),
        damage: random.pick(&[0, 20, 120]),
        calls: random.between(1, 50),
    }
}

/// The owner's deliveries as a bus brings them, which need not keep the arrival
/// rule, and steps that are all accepted.
pub fn some_calls(cast: Cast, delta: u64, random: &mut Random) -> Vec<Call> {
    let style = some_style(delta, random);
    let mut traffic = Traffic::of_group(cast, cast.owner, random);
    let mut at = start(delta, random);
    let mut calls = Vec::new();
    for _ in 0..style.calls {
        at = some_time(at, delta, style.pace, &calls, random);
        calls.push(if random.chance(1, style.steps) {
            some_step(at, random)
        } else {
            let bytes = some_bytes(cast.owner, &mut traffic, style.damage, random);
            Call::Owner(Delivery { bytes, at })
        });
    }
    if random.chance(1, 2) {
        calls.push(some_step((at + delta + 1).min(TIME_LIMIT.0), random));
    }
    if random.chance(1, 8) {
        add_too_late(cast.owner, &mut traffic, &mut calls, random);
    }
    calls
}

/// A local time for the next call, also one at which an earlier arrival is just
/// stable or just not.
fn some_time(last: u64, delta: u64, pace: u64, calls: &[Call], random: &mut Random) -> u64 {
    let time = match random.below(8) {
        0 => last,
        1 | 2 if !calls.is_empty() => {
            calls[random.index(calls.len())].at() + delta + random.below(2)
        }
        _ => last + random.below(pace + 1),
    };
    time.clamp(last, TIME_LIMIT.0)
}

fn some_step(at: u64, random: &mut Random) -> Call {
    Call::Step { at, rooms: [(); 2].map(|()| some_room(random)) }
}

fn some_room(random: &mut Random) -> usize {
    match random.below(4) {
        0 | 1 => OUTPUT_SIZE,
        2 => OUTPUT_SIZE + 1,
        _ => OUTPUT_SIZE + random.index(3_000),
    }
}

/// The owner's next request, now and then damaged, shortened or longer. Byte 1
/// stays: other bytes would be a guest's.
fn some_bytes(owner: u8, traffic: &mut Traffic, share: u64, random: &mut Random) -> Vec<u8> {
    let mut bytes = traffic.next(random).encode().to_vec();
    if random.chance(share, 1_000) {
        match random.below(6) {
            0 => bytes.truncate(2 + random.index(RECORD_SIZE - 2)),
            1 => bytes.resize(RECORD_SIZE + 1 + random.index(16), 0),
            _ => damage(&mut bytes, random),
        }
        bytes[1] = owner;
    }
    bytes
}

/// Deliveries past 2^62, behind which no step can be accepted.
fn add_too_late(owner: u8, traffic: &mut Traffic, calls: &mut Vec<Call>, random: &mut Random) {
    let mut at = TIME_LIMIT.0 + 1 + random.pick(&[0, 0, 1, 1 << 60]);
    for _ in 0..random.between(1, 3) {
        let bytes = some_bytes(owner, traffic, 100, random);
        calls.push(Call::Owner(Delivery { bytes, at }));
        at = at.saturating_add(random.pick(&[0, 1, 1 << 60, u64::MAX]));
    }
}
