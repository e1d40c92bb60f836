//! The arrays that a unit is lent, as the mutants keep its replicas in them. What
//! the library keeps there is its own affair.

use super::list::{is, Mutant};
use crate::convert::{from_replica, to_replica};
use crate::ffi;
use crate::model::journal::{Player, Unit};
use crate::model::replica::Replica;
use crate::model::{Settings, PENDING_LIMIT, QUEUES, VARIABLES};

pub struct Arrays<'a> {
    pub pending: &'a mut [[u64; 4]; ffi::PLACES],
    pub counts: &'a mut [usize; ffi::COUNTS],
    pub variables: &'a mut [u32; ffi::VARIABLES],
    pub writes: &'a mut [u64; ffi::REPLICAS],
    pub lasts: &'a mut [u64; ffi::REPLICAS],
}

impl Arrays<'_> {
    /// The model's player, if a unit that is set up is one that calls leave.
    pub fn load(&self, p: ffi::Player) -> Option<Player> {
        load(p, |u| {
            let last = Settings::new(u.k, u.groups).ok()?.replicas();
            (1..=last).map(|number| from_replica(&self.get(u, number))).collect()
        })
    }

    /// Puts the replicas of a unit back; in a setup all others are new.
    pub fn store(&mut self, unit: &Unit, setup: bool) {
        let kept = *self.writes;
        if setup && !is(Mutant::OthersNotCleared) {
            self.clear();
        }
        if !setup && is(Mutant::OthersChanged) && unit.replicas.len() < ffi::REPLICAS {
            self.writes[ffi::REPLICAS - 1] = 1;
        }
        for replica in &unit.replicas {
            let place = usize::from(replica.number) - 1;
            self.put(replica, place);
            if setup && is(Mutant::WritesNotCleared) {
                self.writes[place] = kept[place];
            }
        }
    }

    /// Makes all replicas new; what is pending no more is free.
    fn clear(&mut self) {
        self.counts.fill(0);
        self.variables.fill(0);
        self.writes.fill(0);
        self.lasts.fill(0);
    }

    fn get(&self, settings: ffi::Settings, number: u8) -> ffi::Replica {
        let place = usize::from(number) - 1;
        ffi::Replica {
            settings,
            number,
            last: ffi::LocalTime(self.lasts[place]),
            variables: std::array::from_fn(|i| self.variables[VARIABLES * place + i]),
            pending: std::array::from_fn(|i| from_row(self.pending[PENDING_LIMIT * place + i])),
            counts: std::array::from_fn(|i| self.counts[QUEUES * place + i]),
            writes: self.writes[place],
        }
    }

    fn put(&mut self, replica: &Replica, place: usize) {
        let fields = to_replica(replica);
        self.lasts[place] = fields.last.0;
        self.writes[place] = fields.writes;
        self.variables[VARIABLES * place..][..VARIABLES].copy_from_slice(&fields.variables);
        self.counts[QUEUES * place..][..QUEUES].copy_from_slice(&fields.counts);
        let rows = &mut self.pending[PENDING_LIMIT * place..][..PENDING_LIMIT];
        rows.copy_from_slice(&fields.pending.map(to_row));
    }
}

/// The model's player with all that its end shows, if the unit has a k.
pub fn load_end(
    p: ffi::Player,
    variables: &[u32; ffi::VARIABLES],
    writes: &[u64; ffi::REPLICAS],
) -> Option<Player> {
    load(p, |u| {
        let replicas = writes.iter().zip(variables.as_chunks().0).zip(1..=2 * u.k.min(99) + 1);
        let replicas = replicas.map(|((&writes, &variables), number)| {
            Some(Replica { writes, variables, ..Replica::make(u.k, 1, 1, 0, number).ok()? })
        });
        replicas.collect()
    })
}

/// The model's player, if a unit that is set up has these replicas.
fn load(
    p: ffi::Player,
    replicas: impl Fn(ffi::Settings) -> Option<Vec<Replica>>,
) -> Option<Player> {
    match p.stage {
        0 => Some(Player::default()),
        1 => {
            let unit = Some(Unit::new(replicas(p.settings)?));
            Some(Player { unit, played: p.place.wrapping_sub(1) })
        }
        _ => Some(Player { unit: None, played: 1 }),
    }
}

fn to_row(pending: ffi::Pending) -> [u64; 4] {
    let ffi::Request { kind, group, process, variable, timestamp, value } = pending.request;
    let [high, low] = variable.to_be_bytes();
    let head = u64::from_be_bytes([0, 0, 0, kind, group, process, high, low]);
    [head, timestamp.0, u64::from(value), pending.arrival.0]
}

fn from_row([head, timestamp, value, arrival]: [u64; 4]) -> ffi::Pending {
    let [_, _, _, kind, group, process, high, low] = head.to_be_bytes();
    let request = ffi::Request {
        kind,
        group,
        process,
        variable: u16::from_be_bytes([high, low]),
        timestamp: ffi::Timestamp(timestamp),
        value: value as u32,
    };
    ffi::Pending { request, arrival: ffi::LocalTime(arrival) }
}
