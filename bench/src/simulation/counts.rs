//! What the generated units made happen.

use std::fmt::{self, Display, Formatter};

use super::liars::WAYS;
use super::plan::Plan;
use crate::model::machine::Machine;
use crate::model::record::Content;

/// The counts of a whole program run.
#[derive(Clone, Debug, Default)]
pub struct Counts {
    pub units: u64,
    pub discarded: u64,
    pub with_k_liars: u64,
    pub units_of_k: [u64; 4],
    pub ways: [u64; WAYS.len()],
    pub busy: u64,
    pub arrivals: u64,
    pub arrivals_beside_full: u64,
    pub owners_without_room: u64,
    pub guest_requests: u64,
    pub guests_without_room: u64,
    pub served_beside_full: u64,
    pub refused_calls: u64,
    pub steps: u64,
    pub frozen: u64,
    pub writes: u64,
    pub replies: u64,
    pub votes: u64,
    pub blamed_other: u64,
    pub blamed_silent: u64,
    pub halt_counts: u64,
    pub lies: u64,
    pub forged: u64,
    pub full_lists: u64,
}

impl Counts {
    pub(super) fn plan(&mut self, plan: &Plan) {
        self.units += 1;
        self.units_of_k[usize::from(plan.cast.k)] += 1;
        self.with_k_liars += u64::from(plan.liars.len() == usize::from(plan.cast.k));
        self.busy += u64::from(plan.busy.is_some());
        for liar in &plan.liars {
            self.ways[liar.way.place()] += 1;
        }
    }

    pub(super) fn machine(&mut self, machine: &Machine) {
        self.frozen += u64::from(machine.failed());
        self.writes += machine.writes;
        let replies = machine.sayings.iter().filter(|saying| saying.content != Content::Halt);
        self.replies += replies.count() as u64;
    }

    /// The counts with their names and whether each must not stay 0.
    fn rows(&self) -> Vec<(u64, String, bool)> {
        let mut rows = vec![(self.units, "units".to_string(), true)];
        for k in 1..=3 {
            rows.push((self.units_of_k[k], format!("units with k = {k}"), true));
        }
        for (times, way) in self.ways.iter().zip(WAYS) {
            rows.push((*times, format!("lying replicas: {way}"), true));
        }
        let more: [(u64, &str, bool); 21] = [
            (self.with_k_liars, "units with k lying replicas", true),
            (self.busy, "units with a guest that sends more than its queue holds", true),
            (self.discarded, "units without room for a request of the owner", true),
            (self.frozen, "units that froze", true),
            (self.units - self.discarded - self.frozen, "units that did not", true),
            (self.writes, "performed writes of the machine", true),
            (self.replies, "replies of the machine", true),
            (self.arrivals, "arrivals of the owner's requests at replicas", true),
            (self.arrivals_beside_full, "such arrivals while a guest's queue was full", true),
            (self.owners_without_room, "deliveries of the owner without room", true),
            (self.guest_requests, "deliveries of guests", true),
            (self.guests_without_room, "deliveries of guests without room", true),
            (self.refused_calls, "calls that had to be refused", true),
            (self.steps, "steps", true),
            (self.served_beside_full, "steps for the owner while a guest's queue was full", true),
            (self.votes, "votes", true),
            (self.blamed_other, "replicas named for another value, all of them liars", true),
            (self.blamed_silent, "replicas named for silence, all of them liars", true),
            (self.halt_counts, "halt counts", true),
            (self.lies, "lies in the lists", true),
            (self.forged, "forged lies kept out", true),
        ];
        rows.extend(more.map(|(times, name, must)| (times, name.to_string(), must)));
        rows.push((self.full_lists, "lists of 64 messages".to_string(), true));
        rows
    }

    /// What had to occur and did not.
    pub fn missing(&self) -> Vec<String> {
        let rows = self.rows().into_iter();
        rows.filter(|row| row.2 && row.0 == 0).map(|row| format!("no {}", row.1)).collect()
    }
}

impl Display for Counts {
    fn fmt(&self, f: &mut Formatter) -> fmt::Result {
        self.rows().iter().try_for_each(|(times, name, _)| writeln!(f, "  {times:>10} {name}"))
    }
}
