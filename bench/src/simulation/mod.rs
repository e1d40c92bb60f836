//! A whole unit: correct replicas run through the C functions, lying ones, a
//! bus that reorders and delays within the arrival rule, and the votes and
//! halt counts of the owner's processes. What comes out must be what the
//! register machine says.

mod bag;
mod bus;
mod counts;
mod guests;
mod liars;
mod lists;
mod plan;
mod player;

pub use counts::Counts;

use crate::convert::{to_halt_result, to_list};
use crate::difference::{compare, compare_lists, Difference};
use crate::ffi;
use crate::model::machine::Machine;
use crate::model::record::{Content, MessageFields, HALT, REPLY};
use crate::model::vote::{count_halts, Query};
use crate::random::Random;
use crate::traffic::Cast;

use bus::some_schedule;
use lists::Lists;
use plan::{some_plan, Plan};
use player::{play, Run};

/// Simulates one generated unit. The plan comes with a difference.
pub fn simulate(random: &mut Random, counts: &mut Counts) -> Result<(), Difference> {
    let plan = some_plan(random);
    counts.plan(&plan);
    let done = carry_out(&plan, random, counts);
    done.map_err(|what| Difference { what, input: format!("{plan:?}") })
}

fn carry_out(plan: &Plan, random: &mut Random, counts: &mut Counts) -> Result<(), String> {
    let runs = run_correct(plan, random, counts)?;
    if runs.iter().any(|run| run.refused) {
        // The bags are not the same, so there is no machine for all.
        counts.discarded += 1;
        return Ok(());
    }
    let machine = Machine::run(plan.cast.k, plan.cast.owner, &plan.bag.concat());
    counts.machine(&machine);
    let lists = Lists::new(plan, &runs, &machine);
    votes(&lists, random, counts)?;
    halts(&lists, random, counts)
}

/// The runs of all correct replicas.
fn run_correct(plan: &Plan, random: &mut Random, counts: &mut Counts) -> Result<Vec<Run>, String> {
    let mut runs = Vec::new();
    for number in plan.correct() {
        let schedule = some_schedule(plan, random);
        let run = play(plan, number, &schedule, random, counts)?;
        compare_with_machine(plan, &run)?;
        runs.push(run);
    }
    Ok(runs)
}

/// A correct replica must hold and have sent what the machine holds and says.
fn compare_with_machine(plan: &Plan, run: &Run) -> Result<(), String> {
    let Cast { k, owner, .. } = plan.cast;
    let machine = Machine::run(k, owner, &run.accepted);
    let number = run.number;
    let variables = &run.replica.variables;
    compare_lists(&format!("replica {number}, variable"), &machine.variables, variables)?;
    compare(&format!("writes of replica {number}"), machine.writes, run.replica.writes)?;
    let messages = run.messages_to(owner);
    compare(&format!("messages of replica {number}"), machine.messages(number), messages)
}

/// The vote on each of the owner's unmixed reads.
fn votes(lists: &Lists, random: &mut Random, counts: &mut Counts) -> Result<(), String> {
    let Cast { k, groups, owner } = lists.plan.cast;
    for saying in &lists.machine.sayings {
        let Content::Reply { variable, value } = saying.content else { continue };
        let query = Query {
            group: owner,
            process: saying.process,
            variable: u16::from(variable),
            timestamp: saying.timestamp,
        };
        let list = lists.for_read(&query, value, random, counts);
        let found = ffi::vote(k, groups, query.into(), to_list(&list, noise(random)));
        counts.votes += 1;
        let what = format!("vote {query:?} over {list:?}");
        compare(&what, (0, value), (found.refusal, found.election.value))?;
        compare_sets(lists.plan, &what, found.election, counts)?;
    }
    Ok(())
}

/// Each replica is in one set, and no correct one is blamed: all of them agreed.
fn compare_sets(
    plan: &Plan,
    what: &str,
    found: ffi::Election,
    counts: &mut Counts,
) -> Result<(), String> {
    let ffi::Election { agreed, other, silent, .. } = found;
    let twice = agreed & other | agreed & silent | other & silent;
    compare(&format!("replicas, {what}"), (plan.all_set(), 0), (agreed | other | silent, twice))?;
    compare(&format!("blamed, {what}"), 0, (other | silent) & plan.correct_set())?;
    counts.blamed_other += u64::from(other.count_ones());
    counts.blamed_silent += u64::from(silent.count_ones());
    Ok(())
}

/// The halt count for each process of the owner.
fn halts(lists: &Lists, random: &mut Random, counts: &mut Counts) -> Result<(), String> {
    let Cast { k, groups, owner } = lists.plan.cast;
    for process in 1..=lists.plan.cast.processes() {
        let list = lists.for_halts(process, random, counts);
        let found = ffi::count_halts(k, groups, owner, process, to_list(&list, noise(random)));
        counts.halt_counts += 1;
        let what = format!("halt count for process {process} over {list:?}");
        compare(&what, to_halt_result(count_halts(k, groups, owner, process, &list)), found)?;
        let failed = lists.machine.failed();
        compare(&format!("must halt, {what}"), failed, found.count.halt)?;
        compare(&format!("k+1 halts, {what}"), failed, found.count.size > k)?;
        let honest = if failed { lists.plan.correct_set() } else { 0 };
        let correct_senders = found.count.senders & lists.plan.correct_set();
        compare(&format!("correct senders, {what}"), honest, correct_senders)?;
    }
    Ok(())
}

/// What stands behind a list and must not count.
fn noise(random: &mut Random) -> MessageFields {
    MessageFields {
        kind: random.small(REPLY, HALT),
        group: 1,
        process: 1,
        ..MessageFields::default()
    }
}
