//! Guests leave the owner untouched: two runs of a replica through the C
//! functions, with the same deliveries of the owner and the same steps, and
//! with guests that differ. The owner must see no difference.

mod batches;
mod control;
mod counts;
mod guests;
mod owner;
mod pair;
mod past;
mod plan;
mod run;

pub use counts::Counts;

use crate::difference::Difference;
use crate::random::Random;

use control::spoil;
use pair::Pair;
use plan::{some_plan, Call, Plan};

/// Plays one generated pair; one in eight comes again as a control, where there
/// is a guest and a place for it.
pub fn check(random: &mut Random, counts: &mut Counts) -> Result<(), Difference> {
    let mut plan = some_plan(random);
    let played = play(&plan, random, counts);
    played.map_err(|what| Difference { what, input: plan.to_string() })?;
    if random.chance(1, 8) && spoil(&mut plan, random) {
        counts.controls += 1;
        let seen = play(&plan, random, &mut Counts::default()).is_err();
        counts.controls_seen += u64::from(seen);
    }
    Ok(())
}

/// Plays both runs side by side and compares them after each common call and at
/// the end.
fn play(plan: &Plan, random: &mut Random, counts: &mut Counts) -> Result<(), String> {
    let mut pair = Pair::make(plan)?;
    for (place, call) in plan.calls.iter().enumerate() {
        let played = play_call(&mut pair, place, call, random, counts);
        played.map_err(|what| format!("call {}, {what}", place + 1))?;
    }
    pair.deliver_guests(plan.calls.len(), counts)?;
    pair.same_for_owner().map_err(|what| format!("at the end, {what}"))?;
    counts.pair(plan, &pair);
    Ok(())
}

/// What the guests deliver before a call, and the call.
fn play_call(
    pair: &mut Pair,
    place: usize,
    call: &Call,
    random: &mut Random,
    counts: &mut Counts,
) -> Result<(), String> {
    pair.deliver_guests(place, counts)?;
    match call {
        Call::Owner(delivery) => pair.deliver_owners(delivery, counts)?,
        Call::Step { at, rooms } => pair.step(*at, *rooms, random, counts)?,
    }
    pair.same_for_owner()
}
