//! Generated requests: the batches that a unit's processes make, in order,
//! out of order, repeated and late.

use std::collections::BTreeSet;

use crate::model::record::{Operation, Request, RequestFields, WRITE};
use crate::model::{Timestamp, DELTA_LIMIT, GROUP_LIMIT, K_LIMIT, TIME_LIMIT};
use crate::random::Random;

/// Who takes part: k, the number of groups and the owner.
#[derive(Clone, Copy, Debug, PartialEq, Eq)]
pub struct Cast {
    pub k: u8,
    pub groups: u8,
    pub owner: u8,
}

impl Cast {
    pub fn random(random: &mut Random) -> Cast {
        let groups = random.small(1, GROUP_LIMIT);
        Cast { k: random.small(0, K_LIMIT), groups, owner: random.small(1, groups) }
    }

    pub fn processes(self) -> u8 {
        self.k + 1
    }

    pub fn replicas(self) -> u8 {
        2 * self.k + 1
    }

    pub fn process(self, random: &mut Random) -> u8 {
        random.small(1, self.processes())
    }

    pub fn group(self, random: &mut Random) -> u8 {
        random.small(1, self.groups)
    }

    /// A group that is not the owner, if there is one.
    pub fn guest(self, random: &mut Random) -> Option<u8> {
        let group = self.group(random);
        (group != self.owner).then_some(group)
    }

    /// All groups but the owner's.
    pub fn guests(self) -> Vec<u8> {
        (1..=self.groups).filter(|&group| group != self.owner).collect()
    }
}

/// How the requests of one timestamp fit together.
#[derive(Clone, Copy, Debug, PartialEq, Eq)]
pub enum Sort {
    /// The same write from each process.
    Unanimous,
    /// Reads only.
    Reads,
    /// One process writes something else.
    Dissent,
    /// One process does not write.
    Missing,
    /// One process writes for another one.
    Doubled,
    /// All write, and one of them twice.
    Surplus,
    /// A read among the writes.
    Mixed,
}

/// The sorts that freeze a store.
pub const FREEZING: [Sort; 5] =
    [Sort::Dissent, Sort::Missing, Sort::Doubled, Sort::Surplus, Sort::Mixed];

/// A variable that may be written, mostly one of a few.
pub fn written_variable(random: &mut Random) -> u8 {
    match random.below(8) {
        0 => 255,
        1 => random.small(1, 255),
        _ => random.small(1, 5),
    }
}

/// A variable that may be read.
pub fn read_variable(random: &mut Random) -> u8 {
    if random.chance(1, 6) {
        0
    } else {
        written_variable(random)
    }
}

/// A value, mostly one of a few.
pub fn value(random: &mut Random) -> u32 {
    match random.below(8) {
        0 => u32::MAX,
        1 => random.bits() as u32,
        other => other as u32 - 2,
    }
}

/// A timestamp to start from, at both ends too.
pub fn first_timestamp(random: &mut Random) -> u64 {
    match random.below(6) {
        0 => 0,
        1 => (1 << 62) - random.below(4),
        2 => (1 << 63) - random.below(4),
        3 => u64::MAX - random.below(40),
        _ => random.below(1_000_000),
    }
}

/// A local time to start from: 0, any, or near the end.
pub fn start(delta: u64, random: &mut Random) -> u64 {
    match random.below(12) {
        0 => 0,
        1 => TIME_LIMIT.0 - random.below(3),
        2 => TIME_LIMIT.0 - random.below(8 * delta + 8),
        _ => random.below(1_000_000_000),
    }
}

/// A delta that is allowed, at both ends too.
pub fn delta(random: &mut Random) -> u64 {
    match random.below(8) {
        0 => 0,
        1 => 1,
        2 | 3 => 5,
        4 => DELTA_LIMIT,
        5 => random.below(DELTA_LIMIT + 1),
        _ => random.below(100),
    }
}

/// Changes one byte, mostly to a value at some limit.
pub fn damage(bytes: &mut [u8], random: &mut Random) {
    if bytes.is_empty() {
        return;
    }
    let place = random.index(bytes.len());
    bytes[place] = match random.below(4) {
        0 => random.byte(),
        1 => bytes[place] ^ (1 << random.below(8)),
        2 => bytes[place].wrapping_add(1),
        _ => random.pick(&[0, 1, 2, 3, 4, 5, 6, 255]),
    };
}

/// Whether a batch is the same write from each of k + 1 processes.
pub fn is_unanimous(k: u8, batch: &[RequestFields]) -> bool {
    let quorum = usize::from(k) + 1;
    let unsigned = |request: &RequestFields| RequestFields { process: 0, ..*request };
    let processes: BTreeSet<u8> = batch.iter().map(|request| request.process).collect();
    let same = batch.windows(2).all(|two| unsigned(&two[0]) == unsigned(&two[1]));
    let writes = batch.iter().all(|request| request.kind == WRITE);
    writes && same && batch.len() == quorum && processes.len() == quorum
}

/// The requests of a group with one timestamp.
pub fn batch(
    cast: Cast,
    group: u8,
    sort: Sort,
    timestamp: Timestamp,
    random: &mut Random,
) -> Vec<Request> {
    if sort == Sort::Reads {
        return reads(cast, group, timestamp, random);
    }
    let mut batch = same_write(cast, group, timestamp, random);
    spoil(cast, sort, &mut batch, random);
    batch
}

/// The same write from each process of a group.
fn same_write(cast: Cast, group: u8, timestamp: Timestamp, random: &mut Random) -> Vec<Request> {
    let variable = written_variable(random);
    let operation = Operation::Write(value(random));
    (1..=cast.processes())
        .map(|process| Request { group, process, variable, timestamp, operation })
        .collect()
}

/// A read from one process or several, or the same one from all.
fn reads(cast: Cast, group: u8, timestamp: Timestamp, random: &mut Random) -> Vec<Request> {
    let read = |process, variable| Request {
        group,
        process,
        variable,
        timestamp,
        operation: Operation::Read,
    };
    if random.chance(1, 2) {
        let variable = read_variable(random);
        (1..=cast.processes()).map(|process| read(process, variable)).collect()
    } else {
        let number = random.between(1, 4);
        (0..number).map(|_| read(cast.process(random), read_variable(random))).collect()
    }
}

/// Makes a unanimous batch into one of another sort. A single process can
/// neither dissent, be missing nor write for another, so it writes twice.
fn spoil(cast: Cast, sort: Sort, batch: &mut Vec<Request>, random: &mut Random) {
    let one = random.index(batch.len());
    let alone = cast.k == 0;
    match sort {
        Sort::Unanimous | Sort::Reads => {}
        Sort::Dissent if !alone => change(&mut batch[one], random),
        Sort::Missing if !alone => drop(batch.remove(one)),
        Sort::Doubled if !alone => batch[one].process = batch[(one + 1) % batch.len()].process,
        Sort::Mixed => mix(batch, one, random),
        _ => batch.push(batch[one]),
    }
}

fn change(request: &mut Request, random: &mut Random) {
    match request.operation {
        Operation::Write(value) if random.chance(1, 2) => {
            request.operation = Operation::Write(value ^ (1 << random.below(32)));
        }
        _ => request.variable = request.variable % 255 + 1,
    }
}

fn mix(batch: &mut Vec<Request>, one: usize, random: &mut Random) {
    let read = Request { operation: Operation::Read, ..batch[one] };
    if batch.len() > 1 && random.chance(1, 2) {
        batch[one] = read;
    } else {
        batch.push(read);
    }
}

/// A stream of requests as a bus delivers them.
#[derive(Clone, Debug)]
pub struct Traffic {
    cast: Cast,
    clock: u64,
    waiting: Vec<Request>,
    delivered: Vec<Request>,
    /// How many of the waiting requests may overtake the first one.
    overtaking: usize,
    /// How often in a thousand a batch freezes the store.
    dissent: u64,
    /// How often in a thousand a delivered request comes again.
    repeats: u64,
    /// A group that makes more of the batches than the others, and how many of four.
    busy: Option<(u8, u64)>,
}

impl Traffic {
    pub fn new(cast: Cast, random: &mut Random) -> Traffic {
        Traffic {
            cast,
            clock: first_timestamp(random),
            waiting: Vec::new(),
            delivered: Vec::new(),
            overtaking: random.pick(&[1, 1, 4, 8, 64]),
            dissent: random.pick(&[0, 0, 10, 60, 300]),
            repeats: random.pick(&[0, 0, 5, 50]),
            busy: None,
        }
    }

    /// Traffic of which most comes from one group.
    pub fn busy(cast: Cast, random: &mut Random) -> Traffic {
        let busy = Some((cast.group(random), 3));
        Traffic { busy, ..Traffic::new(cast, random) }
    }

    /// Traffic of one group alone.
    pub fn of_group(cast: Cast, group: u8, random: &mut Random) -> Traffic {
        Traffic { busy: Some((group, 4)), ..Traffic::new(cast, random) }
    }

    /// Traffic in order and without dissent or repeats.
    pub fn calm(cast: Cast, clock: u64) -> Traffic {
        Traffic {
            cast,
            clock,
            waiting: Vec::new(),
            delivered: Vec::new(),
            overtaking: 1,
            dissent: 0,
            repeats: 0,
            busy: None,
        }
    }

    /// The next request to deliver.
    pub fn next(&mut self, random: &mut Random) -> Request {
        if !self.delivered.is_empty() && random.chance(self.repeats, 1_000) {
            return random.pick(&self.delivered);
        }
        while self.waiting.len() < self.overtaking {
            self.make_batch(random);
        }
        let place = random.index(self.overtaking);
        let request = self.waiting.remove(place);
        self.remember(request);
        request
    }

    fn remember(&mut self, request: Request) {
        if self.repeats > 0 {
            self.delivered.push(request);
        }
    }

    fn make_batch(&mut self, random: &mut Random) {
        let timestamp = self.next_timestamp(random);
        let group = self.next_group(random);
        let sort = if group == self.cast.owner {
            self.owner_sort(random)
        } else {
            random.pick(&[Sort::Reads, Sort::Reads, Sort::Unanimous])
        };
        self.waiting.extend(batch(self.cast, group, sort, timestamp, random));
    }

    fn next_group(&self, random: &mut Random) -> u8 {
        match self.busy {
            Some((busy, times)) if random.chance(times, 4) => busy,
            _ => self.cast.group(random),
        }
    }

    fn owner_sort(&self, random: &mut Random) -> Sort {
        if random.chance(self.dissent, 1_000) {
            random.pick(&FREEZING)
        } else {
            random.pick(&[Sort::Unanimous, Sort::Unanimous, Sort::Reads])
        }
    }

    /// Mostly a later timestamp; where dissent is wanted, sometimes an
    /// earlier one or the same one again.
    fn next_timestamp(&mut self, random: &mut Random) -> Timestamp {
        self.clock = self.clock.saturating_add(random.between(1, 3));
        let back = if random.chance(self.dissent, 2_000) { random.between(1, 8) } else { 0 };
        Timestamp(self.clock.saturating_sub(back))
    }
}
