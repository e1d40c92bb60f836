//! What the generated pairs made happen.

use std::fmt::{self, Display, Formatter};

use super::batches::Handled;
use super::pair::Pair;
use super::past::Habits;
use super::plan::{Call, Plan};
use crate::model::FAILED;

/// The refusal numbers that a delivery of the owner can get, and one of a guest.
/// 8 cannot be the owner's, whose group there is; 13 is nobody's, for local time
/// never goes back.
const OWNERS: [u8; 8] = [6, 7, 9, 10, 12, 14, 21, 22];
const GUESTS: [u8; 9] = [6, 7, 8, 9, 10, 12, 14, 21, 22];

/// How often each answer was given to a delivery, 0 for an accepted one.
#[derive(Clone, Debug, Default)]
pub struct Answers([u64; 23]);

impl Answers {
    pub fn note(&mut self, answer: u8) {
        if let Some(times) = self.0.get_mut(usize::from(answer)) {
            *times += 1;
        }
    }

    fn rows(&self, whose: &str, refusals: &[u8]) -> Vec<(u64, String)> {
        let mut rows = vec![(self.0[0], format!("deliveries of {whose} accepted"))];
        for &number in refusals {
            let times = self.0[usize::from(number)];
            rows.push((times, format!("deliveries of {whose} refused with {number}")));
        }
        rows
    }
}

/// The pairs whose runs differed in what they may differ in.
#[derive(Clone, Debug, Default)]
struct Differed {
    deliveries: u64,
    none_in_one: u64,
    queues: u64,
    replies: u64,
    sent: u64,
    clocks: u64,
    without_room: u64,
    outputs: u64,
}

/// The counts of a whole program run.
#[derive(Clone, Debug, Default)]
pub struct Counts {
    pairs: u64,
    pairs_of_k: [u64; 4],
    pairs_of_groups: [u64; 4],
    pub owner: Answers,
    pub habits: Habits,
    pub steps: u64,
    pub last_steps: u64,
    pub replies: u64,
    pub halts: u64,
    writes: u64,
    frozen: u64,
    waiting: u64,
    pub guests: Answers,
    pub short: u64,
    pub at_the_ends: u64,
    pub shared_timestamps: u64,
    pub beside_full: u64,
    pub beside_full_in_one: u64,
    unanimous: u64,
    dissents: u64,
    differed: Differed,
    pub controls: u64,
    pub controls_seen: u64,
}

impl Counts {
    pub(super) fn handled(&mut self, handled: Handled) {
        self.unanimous += handled.unanimous;
        self.dissents += handled.dissents;
    }

    /// A pair that was played to its end.
    pub(super) fn pair(&mut self, plan: &Plan, pair: &Pair) {
        let replica = &pair.runs[0].replica;
        self.pairs += 1;
        self.pairs_of_k[usize::from(plan.cast.k)] += 1;
        self.pairs_of_groups[usize::from(plan.cast.groups) - 1] += 1;
        self.writes += replica.writes;
        self.frozen += u64::from(replica.variables[FAILED] != 0);
        self.waiting += u64::from(!pair.runs[0].queue(plan.cast.owner).is_empty());
        self.differed.note(plan, pair);
    }

    /// The counts of the owner with their names.
    fn rows_of_owner(&self) -> Vec<(u64, String)> {
        let mut rows = vec![(self.pairs, "pairs".to_string())];
        for (k, times) in self.pairs_of_k.iter().enumerate() {
            rows.push((*times, format!("pairs with k = {k}")));
        }
        for (groups, times) in (1..).zip(self.pairs_of_groups) {
            rows.push((times, format!("pairs with N = {groups}")));
        }
        rows.extend(self.owner.rows("the owner", &OWNERS));
        rows.extend(named([
            (self.habits.again, "accepted requests of the owner that came again"),
            (self.habits.out_of_order, "accepted requests of the owner behind a later timestamp"),
            (self.habits.late, "accepted requests of the owner behind a handled later timestamp"),
            (self.steps, "steps that both runs had"),
            (self.last_steps, "steps that both runs had at local time 2^62"),
            (self.replies, "replies to the owner"),
            (self.halts, "halts to the owner"),
            (self.writes, "performed writes"),
            (self.frozen, "pairs that froze"),
            (self.pairs - self.frozen, "pairs that did not"),
            (self.waiting, "pairs with pending requests of the owner at the end"),
        ]));
        rows
    }

    fn rows_of_guests(&self) -> Vec<(u64, String)> {
        let mut rows = self.guests.rows("guests", &GUESTS);
        rows.extend(named([
            (self.short, "deliveries of guests of fewer than two bytes"),
            (self.at_the_ends, "deliveries of guests at the local time of a neighbouring call"),
            (
                self.shared_timestamps,
                "accepted requests of guests with a pending timestamp of the owner",
            ),
            (self.beside_full, "deliveries of the owner while a guest's queue was full"),
            (self.beside_full_in_one, "deliveries of the owner while it was full in one run alone"),
            (self.unanimous, "unanimous writes of guests handled by a store that had not failed"),
            (self.dissents, "dissents of guests handled by a store that had not failed"),
        ]));
        rows
    }

    /// All counts with their names; none may stay 0.
    fn rows(&self) -> Vec<(u64, String)> {
        let controls = named([
            (self.controls, "controls in which a guest goes past the owner's next local time"),
            (self.controls_seen, "controls that the owner saw differently"),
        ]);
        let parts = [self.rows_of_owner(), self.rows_of_guests(), self.differed.rows(), controls];
        parts.concat()
    }

    /// What had to occur and did not.
    pub fn missing(&self) -> Vec<String> {
        let rows = self.rows().into_iter();
        rows.filter(|row| row.0 == 0).map(|row| format!("no {}", row.1)).collect()
    }
}

fn named<const LENGTH: usize>(rows: [(u64, &str); LENGTH]) -> Vec<(u64, String)> {
    rows.map(|(times, name)| (times, name.to_string())).to_vec()
}

impl Differed {
    fn note(&mut self, plan: &Plan, pair: &Pair) {
        let [one, other] = &pair.runs;
        let none_in_one = (one.deliveries == 0) != (other.deliveries == 0);
        let outputs = |call: &Call| matches!(call, Call::Step { rooms: [a, b], .. } if a != b);
        self.deliveries += u64::from(one.deliveries != other.deliveries);
        self.none_in_one += u64::from(none_in_one);
        self.queues += u64::from(one.guests_queues() != other.guests_queues());
        self.replies += u64::from(one.replies != other.replies);
        self.sent += u64::from(one.sent != other.sent);
        self.clocks += u64::from(pair.clocks_differed);
        self.without_room += u64::from(one.without_room != other.without_room);
        self.outputs += u64::from(plan.calls.iter().any(outputs));
    }

    fn rows(&self) -> Vec<(u64, String)> {
        named([
            (self.deliveries, "pairs that differed in the number of guests' deliveries"),
            (self.none_in_one, "pairs with guests in one run alone"),
            (self.queues, "pairs that differed in the guests' queues at the end"),
            (self.replies, "pairs that differed in the replies to guests"),
            (self.sent, "pairs that differed in the number of messages of a step"),
            (self.clocks, "pairs that differed in the last accepted local time"),
            (self.without_room, "pairs that differed in how often guests were refused with 14"),
            (self.outputs, "pairs that differed in the length of an output lent"),
        ])
    }
}

impl Display for Counts {
    fn fmt(&self, f: &mut Formatter) -> fmt::Result {
        self.rows().iter().try_for_each(|(times, name)| writeln!(f, "  {times:>10} {name}"))
    }
}
