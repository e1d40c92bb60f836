//! The plan of a unit: all that is settled before its replicas run.

use super::bag::some_bag;
use super::liars::{some_liars, Liar};
use crate::model::record::Request;
use crate::random::Random;
use crate::traffic::Cast;

/// What a unit is made of.
#[derive(Debug)]
pub struct Plan {
    pub cast: Cast,
    pub delta: u64,
    pub liars: Vec<Liar>,
    /// A guest that sends more than its queue holds.
    pub busy: Option<u8>,
    /// Whether the owner waits before it sends more than its queue holds.
    pub paced: bool,
    /// The owner's requests, by rising timestamp.
    pub bag: Vec<Vec<Request>>,
}

pub fn some_plan(random: &mut Random) -> Plan {
    let groups = random.small(1, 4);
    let cast = Cast { k: random.small(1, 3), groups, owner: random.small(1, groups) };
    let delta = random.pick(&[0, 1, 2, 5, 17, 1_000, 1_000_000]);
    let liars = some_liars(cast, random);
    let busy = some_busy_guest(cast, random);
    let paced = random.chance(7, 8);
    Plan { cast, delta, liars, busy, paced, bag: some_bag(cast, random) }
}

/// One of the guests, in half of the units that have any.
fn some_busy_guest(cast: Cast, random: &mut Random) -> Option<u8> {
    let guests: Vec<u8> = (1..=cast.groups).filter(|&group| group != cast.owner).collect();
    (!guests.is_empty() && random.chance(1, 2)).then(|| random.pick(&guests))
}

impl Plan {
    /// The numbers of the replicas that do not lie.
    pub fn correct(&self) -> impl Iterator<Item = u8> + '_ {
        (1..=self.cast.replicas()).filter(|&replica| self.is_correct(replica))
    }

    /// The same as a set, and that of all replicas: one bit for each, the lowest
    /// for replica 1.
    pub fn correct_set(&self) -> u8 {
        self.correct().map(|replica| 1 << (replica - 1)).sum()
    }

    pub fn all_set(&self) -> u8 {
        (1..=self.cast.replicas()).map(|replica| 1 << (replica - 1)).sum()
    }

    fn is_correct(&self, replica: u8) -> bool {
        self.liars.iter().all(|liar| liar.number != replica)
    }
}
