//! The bus: when each request reaches a replica.

use super::guests::add_guests;
use super::plan::Plan;
use crate::model::record::Request;
use crate::model::{QUEUE_LIMIT, TIME_LIMIT};
use crate::random::Random;

/// What happens at a replica.
#[derive(Clone, Copy)]
pub enum Happening {
    /// A request of the owner arrives.
    Owner(Request),
    /// A request of another group arrives, if there is room.
    Guest(Request),
    Step,
    /// A call that must be refused.
    Refused(Trouble),
}

/// Why a call must be refused.
#[derive(Clone, Copy)]
pub enum Trouble {
    SpareByte,
    ReadWithValue,
    ShortRequest,
    TimeTooLarge,
    TimeGoesBack,
    NoRoom,
}

/// Happenings with their local times, in order.
pub type Schedule = Vec<(u64, Happening)>;

/// A schedule within the arrival rule, with a closing step.
///
/// The batches get bases that do not fall as the timestamps rise, and each
/// request arrives at most delta after its base. The base of a batch is then
/// no later than the first arrival of this or a later timestamp, so all
/// schedules that the rule allows, and no others, can come out.
pub fn some_schedule(plan: &Plan, random: &mut Random) -> Schedule {
    let mut schedule = owner_arrivals(plan, random);
    let last = schedule.iter().map(|event| event.0).max().unwrap_or(0);
    let closing = last + plan.delta + 1 + random.pick(&[0, 0, 1, plan.delta]);
    let end = closing + random.pick(&[0, 3, 2 * plan.delta]);
    add_steps(plan, end, &mut schedule, random);
    add_guests(plan, end, &mut schedule, random);
    add_troubles(end, &mut schedule, random);
    schedule.push((closing, Happening::Step));
    random.shuffle(&mut schedule);
    schedule.sort_by_key(|event| event.0);
    let start = some_start(end, random);
    schedule.into_iter().map(|(time, event)| (start + time, event)).collect()
}

/// When local time starts: so that the schedule ends at 2^62 at the latest.
fn some_start(end: u64, random: &mut Random) -> u64 {
    match random.below(4) {
        0 => 0,
        1 => TIME_LIMIT.0 - end,
        _ => random.below(1_000_000),
    }
}

/// The owner's arrivals; where it is paced, with a step before there can be
/// more than its queue holds.
fn owner_arrivals(plan: &Plan, random: &mut Random) -> Schedule {
    let delta = plan.delta;
    let gaps = random.pick(&[0, 1, delta / 2, delta, 2 * delta + 2]);
    let (mut base, mut under_way) = (0, 0);
    let mut schedule = Vec::new();
    for batch in &plan.bag {
        if plan.paced && under_way + batch.len() > QUEUE_LIMIT {
            // The last arrived at base + delta at the latest.
            base += 2 * delta + 2;
            schedule.push((base - 1, Happening::Step));
            under_way = 0;
        }
        under_way += batch.len();
        for request in batch {
            let delay = some_delay(delta, random);
            schedule.push((base + delay, Happening::Owner(*request)));
        }
        base += random.below(gaps + 1);
    }
    schedule
}

/// At most delta, often just nothing or just delta.
fn some_delay(delta: u64, random: &mut Random) -> u64 {
    match random.below(4) {
        0 => 0,
        1 => delta,
        _ => random.below(delta + 1),
    }
}

/// Steps at any time, and just when a request is or is not yet stable.
fn add_steps(plan: &Plan, end: u64, schedule: &mut Schedule, random: &mut Random) {
    let number = random.index(2 * plan.bag.len() + 2);
    let arrivals: Vec<u64> = schedule.iter().map(|event| event.0).collect();
    for _ in 0..number {
        let time = if arrivals.is_empty() || random.chance(1, 2) {
            random.below(end + 1)
        } else {
            random.pick(&arrivals) + plan.delta + random.below(2)
        };
        schedule.push((time.min(end), Happening::Step));
    }
}

fn add_troubles(end: u64, schedule: &mut Schedule, random: &mut Random) {
    for _ in 0..random.index(6) {
        let trouble = random.pick(&[
            Trouble::SpareByte,
            Trouble::ReadWithValue,
            Trouble::ShortRequest,
            Trouble::TimeTooLarge,
            Trouble::TimeGoesBack,
            Trouble::NoRoom,
        ]);
        schedule.push((random.below(end + 1), Happening::Refused(trouble)));
    }
}

#[cfg(test)]
mod tests {
    use super::*;
    use crate::model::Timestamp;
    use crate::simulation::plan::some_plan;

    /// The owner's arrivals of a schedule with their local times.
    fn arrivals(schedule: &Schedule) -> Vec<(Timestamp, u64)> {
        let owners = schedule.iter().filter_map(|(time, happening)| match happening {
            Happening::Owner(request) => Some((request.timestamp, *time)),
            _ => None,
        });
        owners.collect()
    }

    /// The arrival rule word by word: when the first request stamped T
    /// arrives at r, all that are stamped T or earlier arrive by r + delta.
    fn obeys_arrival_rule(arrivals: &[(Timestamp, u64)], delta: u64) -> bool {
        arrivals.iter().all(|&(timestamp, _)| {
            let same = arrivals.iter().filter(|other| other.0 == timestamp);
            let first = same.map(|other| other.1).min().unwrap_or(0);
            arrivals.iter().all(|other| other.0 > timestamp || other.1 <= first + delta)
        })
    }

    #[test]
    fn schedules_obey_the_arrival_rule_and_close() {
        let mut random = Random::new(7);
        let mut overtaken = 0;
        for _ in 0..2_000 {
            let plan = some_plan(&mut random);
            let schedule = some_schedule(&plan, &mut random);
            let arrivals = arrivals(&schedule);
            assert!(obeys_arrival_rule(&arrivals, plan.delta));
            assert_eq!(arrivals.len(), plan.bag.concat().len());
            overtaken += usize::from(arrivals.windows(2).any(|two| two[0].0 > two[1].0));
            let last = arrivals.iter().map(|arrival| arrival.1).max().unwrap_or(0);
            assert!(schedule.iter().any(|(time, happening)| {
                matches!(happening, Happening::Step) && *time > last + plan.delta
            }));
            assert!(schedule.iter().all(|(time, _)| *time <= TIME_LIMIT.0));
        }
        assert!(overtaken > 500);
    }
}
