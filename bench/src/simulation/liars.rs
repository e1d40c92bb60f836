//! Replicas that lie, each in its own way.

use crate::model::machine::Machine;
use crate::model::record::{Content, Message, MessageFields, Operation, Request};
use crate::model::vote::Query;
use crate::model::Timestamp;
use crate::random::Random;
use crate::traffic::{self, Cast};

/// How a replica lies.
#[derive(Clone, Copy, Debug, PartialEq, Eq)]
pub enum Way {
    /// It sends nothing.
    Silent,
    /// It always replies the same value.
    Constant(u32),
    /// It replies values that were overwritten or not yet written.
    Stale,
    /// All such liars agree on the same wrong value.
    Conspiring,
    /// It replies wrong values in the name of others.
    OtherSenders,
    /// It sends halts, true or not, with any timestamp.
    FalseHalts,
    /// It replies right and wrong values and sends damaged messages.
    Noisy,
}

/// The names of the ways, for counting.
pub const WAYS: [&str; 7] = [
    "silent",
    "constant values",
    "stale values",
    "a common wrong value",
    "other senders' numbers",
    "false halts",
    "noise",
];

impl Way {
    pub fn place(self) -> usize {
        match self {
            Way::Silent => 0,
            Way::Constant(_) => 1,
            Way::Stale => 2,
            Way::Conspiring => 3,
            Way::OtherSenders => 4,
            Way::FalseHalts => 5,
            Way::Noisy => 6,
        }
    }

    fn random(random: &mut Random) -> Way {
        match random.below(WAYS.len() as u64) {
            0 => Way::Silent,
            1 => Way::Constant(traffic::value(random)),
            2 => Way::Stale,
            3 => Way::Conspiring,
            4 => Way::OtherSenders,
            5 => Way::FalseHalts,
            _ => Way::Noisy,
        }
    }
}

/// A faulty replica.
#[derive(Clone, Copy, Debug)]
pub struct Liar {
    pub number: u8,
    pub way: Way,
}

/// Up to k of the replicas, mostly k.
pub fn some_liars(cast: Cast, random: &mut Random) -> Vec<Liar> {
    let number = if random.chance(3, 4) { cast.k } else { random.small(0, cast.k) };
    let common = random.chance(1, 3).then(|| Way::random(random));
    let mut replicas: Vec<u8> = (1..=cast.replicas()).collect();
    random.shuffle(&mut replicas);
    replicas
        .into_iter()
        .take(usize::from(number))
        .map(|number| Liar { number, way: common.unwrap_or_else(|| Way::random(random)) })
        .collect()
}

/// What liars know: all of it.
pub struct Scene<'a> {
    pub cast: Cast,
    pub machine: &'a Machine,
    /// The owner's requests in order of their timestamps.
    pub requests: &'a [Request],
}

impl Liar {
    /// What this replica says about a read whose right value is known.
    pub fn about_read(
        &self,
        scene: &Scene,
        query: &Query,
        right: u32,
        random: &mut Random,
    ) -> Vec<MessageFields> {
        let reply = |value| query.reply(self.number, value);
        match self.way {
            Way::Silent => Vec::new(),
            Way::Constant(value) => vec![reply(value); 1 + random.index(3)],
            Way::Stale => vec![reply(stale(scene, query, random))],
            Way::Conspiring => vec![reply(right ^ 1)],
            Way::OtherSenders => in_other_names(scene, reply(right ^ 1), random),
            Way::FalseHalts => self.halts(scene, random),
            Way::Noisy => noise(scene, reply(right), random),
        }
    }

    /// What it says when halts are counted.
    pub fn about_halts(&self, scene: &Scene, random: &mut Random) -> Vec<MessageFields> {
        match self.way {
            Way::Silent => Vec::new(),
            Way::OtherSenders => self
                .halts(scene, random)
                .into_iter()
                .flat_map(|halt| in_other_names(scene, halt, random))
                .collect(),
            _ => self.halts(scene, random),
        }
    }

    /// Halts to the owner's processes, some of them repeated.
    fn halts(&self, scene: &Scene, random: &mut Random) -> Vec<MessageFields> {
        let mut halts = Vec::new();
        for process in 1..=scene.cast.processes() {
            for _ in 0..random.between(1, 3) {
                let message = Message {
                    group: scene.cast.owner,
                    process,
                    replica: self.number,
                    timestamp: Timestamp(random.pick(&[0, 1, 2, u64::MAX])),
                    content: Content::Halt,
                };
                halts.push(message.fields());
            }
        }
        halts
    }
}

/// A value that the variable had or will have at another time.
fn stale(scene: &Scene, query: &Query, random: &mut Random) -> u32 {
    let mut values = vec![0];
    for request in scene.requests.iter().filter(|r| u16::from(r.variable) == query.variable) {
        if let Operation::Write(value) = request.operation {
            values.push(value);
        }
    }
    if query.variable == 0 {
        values.push(1 - scene.machine.variables[0].min(1));
    }
    random.pick(&values)
}

/// The message under several numbers, of replicas and of none.
fn in_other_names(
    scene: &Scene,
    message: MessageFields,
    random: &mut Random,
) -> Vec<MessageFields> {
    let mut names: Vec<u8> = (0..=scene.cast.replicas() + 1).chain([255]).collect();
    random.shuffle(&mut names);
    names.truncate(1 + random.index(5));
    names.into_iter().map(|replica| MessageFields { replica, ..message }).collect()
}

/// Right, wrong and damaged messages.
fn noise(scene: &Scene, right: MessageFields, random: &mut Random) -> Vec<MessageFields> {
    let mut noise = Vec::new();
    for _ in 0..random.between(1, 4) {
        let mut message = right;
        match random.below(7) {
            0 => message.value ^= 1 << random.below(32),
            1 => message.kind = random.byte(),
            2 => message.group = random.small(0, 5),
            3 => message.process = random.small(0, scene.cast.processes() + 1),
            4 => message.variable = random.bits() as u16,
            5 => message.timestamp.0 = random.bits(),
            _ => {}
        }
        noise.push(message);
    }
    noise
}
