//! A pair of runs: all that is settled before they are played.

use std::fmt::{self, Display, Formatter};

use super::guests::some_guests;
use super::owner::some_calls;
use crate::model::Timestamp;
use crate::random::Random;
use crate::traffic::{self, Cast};

/// Lent bytes, and the local time at which they are delivered.
#[derive(Clone, Debug)]
pub struct Delivery {
    pub bytes: Vec<u8>,
    pub at: u64,
}

impl Delivery {
    /// The timestamp, if the bytes are long enough to have one.
    pub fn timestamp(&self) -> Option<Timestamp> {
        let stamp = self.bytes.get(8..16)?;
        Some(Timestamp(u64::from_be_bytes(stamp.try_into().ok()?)))
    }
}

/// A call that both runs have.
#[derive(Clone, Debug)]
pub enum Call {
    /// A delivery of the owner: byte 1 names its group.
    Owner(Delivery),
    /// A step, and how many bytes of output it is lent in each run.
    Step { at: u64, rooms: [usize; 2] },
}

impl Call {
    pub fn at(&self) -> u64 {
        match self {
            Call::Owner(delivery) => delivery.at,
            Call::Step { at, .. } => *at,
        }
    }

    pub fn delivery(&self) -> Option<&Delivery> {
        match self {
            Call::Owner(delivery) => Some(delivery),
            Call::Step { .. } => None,
        }
    }
}

/// The guests' deliveries of a run: those before each call, and those behind the last.
pub type Guests = Vec<Vec<Delivery>>;

/// Two runs of one replica that differ in their guests and in the outputs lent.
#[derive(Clone, Debug)]
pub struct Plan {
    pub cast: Cast,
    pub delta: u64,
    pub number: u8,
    pub calls: Vec<Call>,
    pub guests: [Guests; 2],
    /// Whether local time never goes back, refused calls included.
    pub in_order: bool,
}

pub fn some_plan(random: &mut Random) -> Plan {
    let cast = Cast::random(random);
    let delta = traffic::delta(random);
    let number = random.small(1, cast.replicas());
    let calls = some_calls(cast, delta, random);
    let guests = [(); 2].map(|()| some_guests(cast, delta, &calls, random));
    Plan { cast, delta, number, calls, guests, in_order: true }
}

impl Display for Delivery {
    fn fmt(&self, f: &mut Formatter) -> fmt::Result {
        write!(f, "deliver {:?} at {}", self.bytes, self.at)
    }
}

impl Display for Call {
    fn fmt(&self, f: &mut Formatter) -> fmt::Result {
        match self {
            Call::Owner(delivery) => write!(f, "{delivery}"),
            Call::Step { at, rooms } => write!(f, "step at {at} with {rooms:?} bytes of output"),
        }
    }
}

impl Display for Plan {
    fn fmt(&self, f: &mut Formatter) -> fmt::Result {
        write!(f, "make {:?}, delta {}, number {}", self.cast, self.delta, self.number)?;
        for place in 0..=self.calls.len() {
            for (run, guests) in (1..).zip(&self.guests) {
                guests[place].iter().try_for_each(|guest| write!(f, "\nrun {run}: {guest}"))?;
            }
            if let Some(call) = self.calls.get(place) {
                write!(f, "\nboth, call {}: {call}", place + 1)?;
            }
        }
        Ok(())
    }
}

#[cfg(test)]
mod tests {
    use super::*;
    use crate::isolation::control::spoil;
    use crate::model::{OUTPUT_SIZE, TIME_LIMIT};

    /// The local times of all calls of a run.
    fn times(plan: &Plan, run: usize) -> Vec<u64> {
        let mut times = Vec::new();
        for (place, guests) in plan.guests[run].iter().enumerate() {
            times.extend(guests.iter().map(|guest| guest.at));
            times.extend(plan.calls.get(place).map(Call::at));
        }
        times
    }

    fn goes_back(plan: &Plan) -> bool {
        (0..2).any(|run| times(plan, run).windows(2).any(|two| two[0] > two[1]))
    }

    fn is_allowed(call: &Call, owner: u8) -> bool {
        match call {
            Call::Owner(delivery) => delivery.bytes.get(1) == Some(&owner),
            Call::Step { at, rooms } => {
                *at <= TIME_LIMIT.0 && rooms.iter().all(|&room| room >= OUTPUT_SIZE)
            }
        }
    }

    #[test]
    fn pairs_keep_what_the_claim_supposes_and_controls_do_not() {
        let mut random = Random::new(7);
        let mut spoilt = 0;
        for _ in 0..2_000 {
            let mut plan = some_plan(&mut random);
            let owner = plan.cast.owner;
            assert!(plan.calls.iter().all(|call| is_allowed(call, owner)));
            let mut guests = plan.guests.iter().flatten().flatten();
            assert!(guests.all(|guest| guest.bytes.get(1) != Some(&owner)));
            assert!(!goes_back(&plan));
            if spoil(&mut plan, &mut random) {
                assert!(goes_back(&plan) && !plan.in_order);
                spoilt += 1;
            }
        }
        assert!(spoilt > 500);
    }
}
