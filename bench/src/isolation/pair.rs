//! Two runs that are played side by side, and what the owner sees of them.

use std::fmt::Debug;

use super::batches::{handled, waiting};
use super::counts::Counts;
use super::past::Past;
use super::plan::{Delivery, Plan};
use super::run::Run;
use crate::ffi;
use crate::model::record::{RequestFields, HALT};
use crate::model::{Refusal, FAILED, TIME_LIMIT};
use crate::random::Random;

/// Both runs, as far as they are played.
pub struct Pair<'a> {
    plan: &'a Plan,
    pub runs: [Run; 2],
    /// Whether the last accepted local times were not the same somewhere.
    pub clocks_differed: bool,
    past: Past,
}

/// Compares what both runs have, and says how they differ.
fn same<T: PartialEq + Debug>(what: &str, [one, other]: [T; 2]) -> Result<(), String> {
    if one == other {
        return Ok(());
    }
    Err(format!("{what}: {one:?} in run 1, {other:?} in run 2"))
}

/// The same for lists; the first place where they differ is named.
fn same_lists<T: PartialEq + Debug>(what: &str, [one, other]: [&[T]; 2]) -> Result<(), String> {
    match one.iter().zip(other).position(|(a, b)| a != b) {
        Some(place) => same(&format!("{what} {place}"), [&one[place], &other[place]]),
        None => same(&format!("number of {what}s"), [one.len(), other.len()]),
    }
}

impl<'a> Pair<'a> {
    pub fn make(plan: &'a Plan) -> Result<Pair<'a>, String> {
        let runs = [Run::make(plan)?, Run::make(plan)?];
        Ok(Pair { plan, runs, clocks_differed: false, past: Past::default() })
    }

    fn owner(&self) -> u8 {
        self.plan.cast.owner
    }

    /// Where local time never goes back, nothing is refused with 13.
    fn in_time(&self, refusal: u8) -> Result<(), String> {
        if self.plan.in_order && refusal == Refusal::TimeGoesBack.number() {
            return Err("a delivery answered 13 though local time never went back".to_string());
        }
        Ok(())
    }

    /// What the guests of each run deliver before the call at a place.
    pub fn deliver_guests(&mut self, place: usize, counts: &mut Counts) -> Result<(), String> {
        let plan = self.plan;
        for (run, guests) in plan.guests.iter().enumerate() {
            for delivery in &guests[place] {
                let refusal = self.runs[run].deliver_guests(delivery);
                self.in_time(refusal)?;
                counts.guests.note(refusal);
                self.note_guests(run, delivery, place, refusal, counts);
            }
        }
        Ok(())
    }

    fn note_guests(
        &self,
        run: usize,
        delivery: &Delivery,
        place: usize,
        refusal: u8,
        counts: &mut Counts,
    ) {
        counts.short += u64::from(delivery.bytes.len() < 2);
        let neighbours = [place.checked_sub(1), Some(place)].into_iter().flatten();
        let mut times = neighbours.filter_map(|place| self.plan.calls.get(place)).map(|c| c.at());
        counts.at_the_ends += u64::from(times.any(|at| at == delivery.at));
        if refusal == 0 {
            let shared = self.shares_timestamp(&self.runs[run], delivery);
            counts.shared_timestamps += u64::from(shared);
        }
    }

    /// Whether the owner has a pending request with the timestamp of one that just arrived.
    fn shares_timestamp(&self, run: &Run, arrived: &Delivery) -> bool {
        let group = arrived.bytes.get(1).copied().unwrap_or(0);
        let timestamp = run.queue(group).last().map(|p| p.request.timestamp);
        run.queue(self.owner()).iter().any(|p| Some(p.request.timestamp) == timestamp)
    }

    /// A delivery of the owner to both.
    pub fn deliver_owners(
        &mut self,
        delivery: &Delivery,
        counts: &mut Counts,
    ) -> Result<(), String> {
        let full = self.runs.each_ref().map(Run::a_guest_is_full);
        let answers = self.runs.each_mut().map(|run| run.deliver(delivery));
        same("answer to the owner's delivery", answers)?;
        self.in_time(answers[0])?;
        counts.owner.note(answers[0]);
        if answers[0] == 0 {
            self.past.arrive(delivery, &mut counts.habits);
        }
        counts.beside_full += u64::from(full[0] || full[1]);
        counts.beside_full_in_one += u64::from(full[0] != full[1]);
        Ok(())
    }

    /// A step of both, each with its own output.
    pub fn step(
        &mut self,
        at: u64,
        rooms: [usize; 2],
        random: &mut Random,
        counts: &mut Counts,
    ) -> Result<(), String> {
        let before = self.runs.each_ref().map(waiting);
        let owners = self.runs[0].queue(self.owner()).to_vec();
        let [one, other] = &mut self.runs;
        let messages = [one.step(at, rooms[0], random)?, other.step(at, rooms[1], random)?];
        same_lists("owner's message", messages.each_ref().map(Vec::as_slice))?;
        self.past.handle(&owners, self.runs[0].queue(self.owner()));
        self.note_step(&before, &messages[0], counts);
        counts.last_steps += u64::from(at == TIME_LIMIT.0);
        Ok(())
    }

    fn note_step(
        &self,
        before: &[Vec<Vec<RequestFields>>; 2],
        messages: &[ffi::Message],
        counts: &mut Counts,
    ) {
        counts.steps += 1;
        let halts = messages.iter().filter(|message| message.kind == HALT).count() as u64;
        counts.halts += halts;
        counts.replies += messages.len() as u64 - halts;
        for (before, run) in before.iter().zip(&self.runs) {
            // In a failed store no write does anything, so it would show nothing.
            if run.replica.variables[FAILED] == 0 {
                counts.handled(handled(before, run));
            }
        }
    }

    /// All that must be the same for the owner between two calls.
    pub fn same_for_owner(&mut self) -> Result<(), String> {
        let owner = self.owner();
        let [one, other] = &self.runs;
        let replicas = [&one.replica, &other.replica];
        same_lists("variable", replicas.map(|replica| &replica.variables[..]))?;
        same("performed writes", replicas.map(|replica| replica.writes))?;
        same("count of the owner's queue", replicas.map(|r| r.counts[usize::from(owner) - 1]))?;
        same_lists("owner's pending request", [one.queue(owner), other.queue(owner)])?;
        self.clocks_differed |= one.replica.last != other.replica.last;
        Ok(())
    }
}
