//! Votes and halt counts over lists of messages, forged, repeated and damaged
//! ones among them.

use super::records::{settings, some_message};
use super::tally::{Call, Event, Tally};
use super::{same, Outcome};
use crate::convert::{to_halt_result, to_list, to_vote_result};
use crate::ffi;
use crate::model::record::{MessageFields, HALT};
use crate::model::vote::{count_halts, vote, Election, Query};
use crate::model::{number_of, Settings, Timestamp, LIST_LIMIT};
use crate::random::Random;
use crate::traffic;

/// A vote and a halt count over one list.
#[derive(Clone, Debug)]
struct Case {
    k: u8,
    n: u8,
    query: Query,
    list: Vec<MessageFields>,
}

/// One list, a vote and a halt count over it.
pub fn run(random: &mut Random, tally: &mut Tally) -> Outcome {
    tally.event(Event::VoteRun);
    let case = some_case(random);
    note_list(&case, tally);
    // What stands behind the list would win the vote if it were counted.
    let rest = case.query.reply(1, 77);
    let list = to_list(&case.list, rest);
    compare_votes(&case, list, tally)?;
    compare_halts(&case, list, tally)
}

/// Counts what the list is made of.
fn note_list(case: &Case, tally: &mut Tally) {
    tally.list(case.list.len());
    for (place, message) in case.list.iter().enumerate() {
        if case.list[..place].contains(message) {
            tally.event(Event::RepeatedMessage);
        }
        if Settings::new(case.k, case.n).is_ok_and(|s| s.check_message(message).is_err()) {
            tally.event(Event::DamagedMessage);
        }
    }
}

fn compare_votes(case: &Case, list: ffi::List, tally: &mut Tally) -> Outcome {
    let input = || format!("vote {case:?}");
    let expected = vote(case.k, case.n, &case.query, &case.list);
    let found = ffi::vote(case.k, case.n, case.query.into(), list);
    tally.answer(Call::Vote, number_of(&expected));
    if let Ok(election) = &expected {
        note_sets(case, election, tally);
    }
    same("vote", to_vote_result(expected), found, input)
}

/// Counts what the sets of a vote show.
fn note_sets(case: &Case, election: &Election, tally: &mut Tally) {
    let Election { other, silent, .. } = *election;
    for (seen, event) in [
        (other == 0 && silent == 0, Event::AllAgreed),
        (other != 0, Event::SomeOther),
        (silent != 0, Event::SomeSilent),
        (case.k == 3 && other & 0b100_0000 != 0, Event::SeventhOther),
        (case.k == 3 && silent & 0b100_0000 != 0, Event::SeventhSilent),
    ] {
        tally.events(event, u64::from(seen));
    }
}

fn compare_halts(case: &Case, list: ffi::List, tally: &mut Tally) -> Outcome {
    let input = || format!("count halts {case:?}");
    let Query { group, process, .. } = case.query;
    let expected = count_halts(case.k, case.n, group, process, &case.list);
    let found = ffi::count_halts(case.k, case.n, group, process, list);
    tally.answer(Call::CountHalts, number_of(&expected));
    if let Ok(count) = &expected {
        tally.events(Event::EveryHalt, u64::from(count.halt));
        tally.events(Event::HaltsOfK, u64::from(count.size > 0 && count.size == case.k));
    }
    same("halt count", to_halt_result(expected), found, input)
}

fn some_case(random: &mut Random) -> Case {
    let (k, n) = settings(random);
    let query = some_query(k, n, random);
    let opinions = [(); 8].map(|()| random.pick(&[5, 5, 5, 77, 0]));
    let halting = random.chance(1, 4);
    let mut list = Vec::new();
    for _ in 0..some_length(k, random) {
        let next = some_entry(k, n, &query, &opinions, halting, &list, random);
        list.push(next);
    }
    Case { k, n, query, list }
}

fn some_length(k: u8, random: &mut Random) -> usize {
    let replicas = 2 * usize::from(k.min(3)) + 1;
    match random.below(8) {
        0 => random.index(3),
        1 | 2 => replicas,
        3 | 4 => 2 * replicas,
        5 => LIST_LIMIT - random.index(2),
        6 => LIST_LIMIT + random.index(2),
        _ => random.index(LIST_LIMIT + 1),
    }
}

/// A read that replies can answer, now and then one that no reply can.
fn some_query(k: u8, n: u8, random: &mut Random) -> Query {
    let odd = random.chance(1, 30);
    Query {
        group: if odd { random.byte() } else { random.small(1, n.clamp(1, 4)) },
        process: if odd { random.byte() } else { random.small(1, k.min(3) + 1) },
        variable: if odd { 256 } else { u16::from(traffic::read_variable(random)) },
        timestamp: Timestamp(traffic::first_timestamp(random)),
    }
}

fn halt(query: &Query, replica: u8) -> MessageFields {
    MessageFields { kind: HALT, variable: 0, ..query.reply(replica, 0) }
}

/// The next message of a list.
fn some_entry(
    k: u8,
    n: u8,
    query: &Query,
    opinions: &[u32; 8],
    halting: bool,
    before: &[MessageFields],
    random: &mut Random,
) -> MessageFields {
    let replica = random.small(1, 2 * k.min(3) + 1);
    let value = opinions[usize::from(replica)];
    let fitting = match halting {
        true => halt(query, replica),
        false => query.reply(replica, value),
    };
    match random.below(16) {
        0 => repeat(before, fitting, random),
        1 => MessageFields { value: random.pick(&[5, 77, 1]), ..fitting },
        2 => changed(fitting, random),
        3 => MessageFields { replica: random.pick(&[0, 2 * k.min(3) + 2, 8, 255]), ..fitting },
        4 => some_message(k, n, random),
        5 => halt(query, replica),
        6 => MessageFields { timestamp: Timestamp(random.bits()), ..fitting },
        _ => fitting,
    }
}

/// An earlier message again, perhaps with another value.
fn repeat(before: &[MessageFields], fitting: MessageFields, random: &mut Random) -> MessageFields {
    if before.is_empty() {
        return fitting;
    }
    let mut again = random.pick(before);
    if random.chance(1, 2) {
        again.value ^= 1;
    }
    again
}

/// The message with another kind, group, process, variable or value.
fn changed(mut message: MessageFields, random: &mut Random) -> MessageFields {
    match random.below(6) {
        0 => message.kind = random.pick(&[0, 1, 2, 3, 4, 5]),
        1 => message.group = random.small(0, 5),
        2 => message.process = random.small(0, 5),
        3 => message.variable = random.pick(&[0, 1, 255, 256, message.variable | 0x100]),
        4 => message.value = traffic::value(random),
        _ => message.timestamp.0 ^= 1 << random.below(64),
    }
    message
}
