//! The vote and the halt count, as each mutant does them.

use super::list::{chosen, is, Mutant};
use crate::model::record::{MessageFields, HALT, REPLY};
use crate::model::vote::{self, Election, HaltCount, Query};
use crate::model::{Refusal, LIST_LIMIT, VARIABLES};

pub fn vote(
    k: u8,
    n: u8,
    query: &Query,
    mut list: Vec<MessageFields>,
) -> Result<Election, Refusal> {
    match chosen() {
        Some(Mutant::ReplicaCountedTwice) => spread_replicas(k, query, &mut list),
        Some(Mutant::LastReplyWins) => list.reverse(),
        Some(Mutant::LastMessageIgnored) if list.len() <= LIST_LIMIT => drop(list.pop()),
        Some(Mutant::Sixty5MessagesTaken) => list.truncate(LIST_LIMIT),
        Some(Mutant::VariableIgnored) => ignore_variable(query, &mut list),
        Some(Mutant::ReplicaWraps) => wrap_replicas(k, &mut list),
        _ => {}
    }
    let mut election = vote::vote(k, n, query, &list)?;
    change_sets(k, query, &list, &mut election);
    Ok(election)
}

fn change_sets(k: u8, query: &Query, list: &[MessageFields], election: &mut Election) {
    let Election { agreed, other, silent, value } = *election;
    match chosen() {
        Some(Mutant::LowestBitForNobody) => {
            *election =
                Election { value, agreed: agreed << 1, other: other << 1, silent: silent << 1 }
        }
        Some(Mutant::LaterReplyAgrees) => {
            let moved = (1..=7).filter(|&replica| list.contains(&query.reply(replica, value)));
            let moved = other & moved.map(|replica| 1 << (replica - 1)).sum::<u8>();
            *election = Election { agreed: agreed | moved, other: other & !moved, ..*election }
        }
        Some(Mutant::UpperNotSilent) if k == 3 => election.silent &= 0b1_1111,
        Some(Mutant::BitPastTheReplicas) => election.silent |= 1 << (2 * k + 1),
        Some(Mutant::OtherAndSilent) => {
            *election = Election { other: silent, silent: other, ..*election }
        }
        Some(Mutant::SilentAmongOther) => election.other |= silent,
        _ => {}
    }
}

/// Gives each matching reply the number of another replica.
fn spread_replicas(k: u8, query: &Query, list: &mut [MessageFields]) {
    let matching = |m: &MessageFields| m.kind == REPLY && m.timestamp == query.timestamp;
    for (place, message) in list.iter_mut().filter(|m| matching(m)).enumerate() {
        message.replica = (place % (2 * usize::from(k.min(3)) + 1)) as u8 + 1;
    }
}

fn ignore_variable(query: &Query, list: &mut [MessageFields]) {
    for message in list.iter_mut().filter(|m| m.kind == REPLY && m.variable < VARIABLES as u16) {
        message.variable = query.variable;
    }
}

fn wrap_replicas(k: u8, list: &mut [MessageFields]) {
    let replicas = 2 * k.min(3) + 1;
    for message in list.iter_mut().filter(|m| m.replica > replicas) {
        message.replica = (message.replica - 1) % replicas + 1;
    }
}

pub fn count_halts(
    k: u8,
    n: u8,
    group: u8,
    process: u8,
    mut list: Vec<MessageFields>,
) -> Result<HaltCount, Refusal> {
    if is(Mutant::HaltsOfAnyProcess) {
        list.iter_mut().for_each(|message| message.process = process);
    }
    if is(Mutant::HaltValueIgnored) {
        list.iter_mut().filter(|m| m.kind == HALT).for_each(|message| message.value = 0);
    }
    let mut count = vote::count_halts(k, n, group, process, &list)?;
    match chosen() {
        Some(Mutant::HaltsNotReplicas) => {
            let addressed =
                |m: &&MessageFields| m.kind == HALT && m.group == group && m.process == process;
            count.size = list.iter().filter(addressed).count() as u8;
        }
        Some(Mutant::HaltsAtK) => count.halt = count.size >= k,
        Some(Mutant::SendersShifted) => count.senders <<= 1,
        _ => {}
    }
    Ok(count)
}
