//! What the guests of a run deliver between the calls that both runs have.

use super::plan::{Call, Delivery, Guests};
use crate::model::{Timestamp, QUEUE_LIMIT, RECORD_SIZE, TIME_LIMIT};
use crate::random::Random;
use crate::traffic::{batch, damage, first_timestamp, Cast, Sort};

/// The lengths of bytes that are no request.
const LENGTHS: [usize; 7] = [0, 1, 2, 23, 24, 25, 40];

const SORTS: [Sort; 9] = [
    Sort::Unanimous,
    Sort::Unanimous,
    Sort::Reads,
    Sort::Reads,
    Sort::Dissent,
    Sort::Missing,
    Sort::Doubled,
    Sort::Surplus,
    Sort::Mixed,
];

/// All deliveries of a run whose byte 1 does not name the owner's group: none,
/// a few or many, at local times between those of the neighbouring calls.
pub fn some_guests(cast: Cast, delta: u64, calls: &[Call], random: &mut Random) -> Guests {
    let timestamps = calls.iter().filter_map(|call| call.delivery()?.timestamp()).collect();
    let sender = Sender { cast, calls, timestamps };
    // How often in 24 they send something, three times before each call.
    let zeal = random.pick(&[0, 1, 4, 12]);
    let mut from = 0;
    let mut guests = Vec::new();
    for place in 0..=calls.len() {
        let to = calls.get(place).map_or_else(|| some_end(from, delta, random), Call::at);
        let mut sent = Vec::new();
        for _ in 0..3 {
            if random.chance(zeal, 24) {
                sent.extend(sender.some(place, random));
            }
        }
        guests.push(deliveries(sent, from, to, random));
        from = to;
    }
    guests
}

/// The latest local time behind the last call.
fn some_end(from: u64, delta: u64, random: &mut Random) -> u64 {
    let end = random.pick(&[from, from.saturating_add(2 * delta + 2), TIME_LIMIT.0, u64::MAX]);
    end.max(from)
}

/// Deliveries at local times from one to another, both included.
fn deliveries(bytes: Vec<Vec<u8>>, from: u64, to: u64, random: &mut Random) -> Vec<Delivery> {
    let mut times: Vec<u64> = bytes
        .iter()
        .map(|_| match random.below(4) {
            0 => from,
            1 => to,
            _ => from + random.below(to - from),
        })
        .collect();
    times.sort();
    bytes.into_iter().zip(times).map(|(bytes, at)| Delivery { bytes, at }).collect()
}

/// What the guests of a run know of: the unit, and what the owner delivers.
struct Sender<'a> {
    cast: Cast,
    calls: &'a [Call],
    timestamps: Vec<Timestamp>,
}

impl Sender<'_> {
    /// What guests send at once, before the call at a place.
    fn some(&self, place: usize, random: &mut Random) -> Vec<Vec<u8>> {
        let group = self.some_group(random);
        let mut sent = match random.below(16) {
            0..=7 => self.some_batch(group, random),
            8..=10 => self.owners(place, group),
            11 => self.burst(group, random),
            12 | 13 => self.damaged(group, random),
            _ => vec![some_garbage(random)],
        };
        sent.iter_mut().for_each(|bytes| self.keep_off(bytes, random));
        sent
    }

    /// One of the guests, now and then any number but the owner's.
    fn some_group(&self, random: &mut Random) -> u8 {
        let guests = self.cast.guests();
        if guests.is_empty() || random.chance(1, 16) {
            return self.cast.owner.wrapping_add(random.small(1, 255));
        }
        random.pick(&guests)
    }

    /// Often a timestamp of the owner's, or one behind it.
    fn some_timestamp(&self, random: &mut Random) -> Timestamp {
        if self.timestamps.is_empty() || random.chance(1, 8) {
            return Timestamp(first_timestamp(random));
        }
        let near = random.pick(&self.timestamps);
        Timestamp(near.0.saturating_add(random.pick(&[0, 0, 0, 1, 5])))
    }

    fn some_batch(&self, group: u8, random: &mut Random) -> Vec<Vec<u8>> {
        let sort = random.pick(&SORTS);
        self.batch(group, sort, random)
    }

    fn batch(&self, group: u8, sort: Sort, random: &mut Random) -> Vec<Vec<u8>> {
        let timestamp = self.some_timestamp(random);
        let batch = batch(self.cast, group, sort, timestamp, random);
        batch.iter().map(|request| request.encode().to_vec()).collect()
    }

    /// The owner's own requests around a place, with byte 1 changed.
    fn owners(&self, place: usize, group: u8) -> Vec<Vec<u8>> {
        let around = place.saturating_sub(4)..(place + 4).min(self.calls.len());
        let owners = self.calls[around].iter().filter_map(Call::delivery);
        let mut sent: Vec<Vec<u8>> = owners.map(|delivery| delivery.bytes.clone()).collect();
        sent.iter_mut().for_each(|bytes| bytes[1] = group);
        sent
    }

    /// More requests of one guest than its queue holds, often all of one sort.
    fn burst(&self, group: u8, random: &mut Random) -> Vec<Vec<u8>> {
        let common = random.chance(1, 2).then(|| random.pick(&SORTS));
        let mut sent = Vec::new();
        while sent.len() <= QUEUE_LIMIT + random.index(8) {
            let sort = common.unwrap_or_else(|| random.pick(&SORTS));
            sent.extend(self.batch(group, sort, random));
        }
        sent
    }

    fn damaged(&self, group: u8, random: &mut Random) -> Vec<Vec<u8>> {
        let mut sent = self.some_batch(group, random);
        sent.iter_mut().for_each(|bytes| damage(bytes, random));
        sent
    }

    /// Bytes that would be the owner's become those of another group.
    fn keep_off(&self, bytes: &mut [u8], random: &mut Random) {
        let owner = self.cast.owner;
        if let Some(group) = bytes.get_mut(1).filter(|group| **group == owner) {
            *group = owner.wrapping_add(random.small(1, 255));
        }
    }
}

/// Bytes of no pattern, or of which the first could begin a request.
fn some_garbage(random: &mut Random) -> Vec<u8> {
    let mut bytes = vec![0; random.pick(&LENGTHS)];
    random.fill(&mut bytes);
    if random.chance(1, 2) {
        let start = [1, random.small(1, 4), 1];
        let rest = [0; RECORD_SIZE - 3];
        for (byte, other) in bytes.iter_mut().zip(start.iter().chain(&rest)) {
            *byte = *other;
        }
    }
    bytes
}
