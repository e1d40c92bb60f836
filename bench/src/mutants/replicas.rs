//! Making a replica and delivery to it, as each mutant does it.

use super::list::{chosen, is, Mutant};
use super::queues;
use super::records::read_request;
use crate::model::replica::Replica;
use crate::model::{LocalTime, Refusal, DELTA_LIMIT, TIME_LIMIT};

pub fn make(k: u8, n: u8, owner: u8, delta: u64, number: u8) -> Result<Replica, Refusal> {
    match Replica::make(k, n, owner, delta, number) {
        Err(Refusal::Owner) if is(Mutant::OwnerNotAsked) => Replica::make(k, n, 1, delta, number),
        Ok(_) if is(Mutant::DeltaLimitRefused) && delta == DELTA_LIMIT => Err(Refusal::Delta),
        result => result,
    }
}

pub fn deliver(replica: &mut Replica, bytes: &[u8], at: LocalTime) -> Result<(), Refusal> {
    if is(Mutant::TimeBeforeRecord) && at > TIME_LIMIT {
        return Err(Refusal::TimeTooLarge);
    }
    let before = replica.clone();
    let settings = replica.settings;
    let result = read_request(settings.k(), settings.groups(), bytes)
        .and_then(|request| queues::deliver(replica, request, at));
    match (chosen(), result) {
        (Some(Mutant::LastTimeRefused), Ok(())) if at == TIME_LIMIT => {
            *replica = before;
            Err(Refusal::TimeTooLarge)
        }
        (Some(Mutant::RefusalMovesClock), Err(_)) if at <= TIME_LIMIT => {
            replica.last = replica.last.max(at);
            result
        }
        _ => result,
    }
}
