//! Between the structs of the C interface and those of the model.

use crate::ffi;
use crate::model::journal::Player;
use crate::model::record::{MessageFields, RequestFields};
use crate::model::replica::{Pending, Replica};
use crate::model::vote::{Election, HaltCount, Query};
use crate::model::{by_value, number_of, LocalTime, Refusal, Settings, Timestamp};
use crate::model::{LIST_LIMIT, PENDING_LIMIT, QUEUES, QUEUE_LIMIT};

/// The by-value replica is compared with the C one, so it is as large.
const _: () = assert!(size_of::<by_value::Replica>() == size_of::<ffi::Replica>());

impl From<RequestFields> for ffi::Request {
    fn from(fields: RequestFields) -> Self {
        ffi::Request {
            kind: fields.kind,
            group: fields.group,
            process: fields.process,
            variable: fields.variable,
            timestamp: ffi::Timestamp(fields.timestamp.0),
            value: fields.value,
        }
    }
}

impl From<ffi::Request> for RequestFields {
    fn from(request: ffi::Request) -> Self {
        RequestFields {
            kind: request.kind,
            group: request.group,
            process: request.process,
            variable: request.variable,
            timestamp: Timestamp(request.timestamp.0),
            value: request.value,
        }
    }
}

impl From<MessageFields> for ffi::Message {
    fn from(fields: MessageFields) -> Self {
        ffi::Message {
            kind: fields.kind,
            group: fields.group,
            process: fields.process,
            replica: fields.replica,
            variable: fields.variable,
            timestamp: ffi::Timestamp(fields.timestamp.0),
            value: fields.value,
        }
    }
}

impl From<ffi::Message> for MessageFields {
    fn from(message: ffi::Message) -> Self {
        MessageFields {
            kind: message.kind,
            group: message.group,
            process: message.process,
            replica: message.replica,
            variable: message.variable,
            timestamp: Timestamp(message.timestamp.0),
            value: message.value,
        }
    }
}

impl From<Query> for ffi::Query {
    fn from(query: Query) -> Self {
        ffi::Query {
            group: query.group,
            process: query.process,
            variable: query.variable,
            timestamp: ffi::Timestamp(query.timestamp.0),
        }
    }
}

impl From<ffi::Query> for Query {
    fn from(query: ffi::Query) -> Self {
        Query {
            group: query.group,
            process: query.process,
            variable: query.variable,
            timestamp: Timestamp(query.timestamp.0),
        }
    }
}

impl From<&Pending> for ffi::Pending {
    fn from(pending: &Pending) -> Self {
        ffi::Pending {
            request: pending.request.fields().into(),
            arrival: ffi::LocalTime(pending.arrival.0),
        }
    }
}

/// A list of at most 65 messages; the places behind it hold `rest`.
pub fn to_list(messages: &[MessageFields], rest: MessageFields) -> ffi::List {
    let mut list = ffi::List { messages: [rest.into(); LIST_LIMIT + 1], count: messages.len() };
    for (place, message) in list.messages.iter_mut().zip(messages) {
        *place = (*message).into();
    }
    list
}

impl From<Election> for ffi::Election {
    fn from(election: Election) -> Self {
        let Election { value, agreed, other, silent } = election;
        ffi::Election { value, agreed, other, silent }
    }
}

impl From<HaltCount> for ffi::HaltCount {
    fn from(count: HaltCount) -> Self {
        ffi::HaltCount { senders: count.senders, size: count.size, halt: count.halt }
    }
}

/// Zeros stand beside a refusal.
pub fn to_vote_result(answer: Result<Election, Refusal>) -> ffi::VoteResult {
    let refusal = number_of(&answer);
    ffi::VoteResult { refusal, election: answer.unwrap_or_default().into() }
}

pub fn to_halt_result(answer: Result<HaltCount, Refusal>) -> ffi::HaltResult {
    let refusal = number_of(&answer);
    ffi::HaltResult { refusal, count: answer.unwrap_or_default().into() }
}

/// What the model's replica was set up with, as the C struct.
pub fn to_settings(model: &Replica) -> ffi::Settings {
    ffi::Settings {
        k: model.settings.k(),
        groups: model.settings.groups(),
        owner: model.owner,
        delta: model.delta,
    }
}

/// The pending requests of each group, as many as there are places for.
pub fn queues(replica: &ffi::Replica) -> [&[ffi::Pending]; QUEUES] {
    std::array::from_fn(|place| {
        let queue = &replica.pending[place * QUEUE_LIMIT..][..QUEUE_LIMIT];
        &queue[..replica.counts[place].min(QUEUE_LIMIT)]
    })
}

/// The C struct of a replica; the free places hold zeros.
pub fn to_replica(model: &Replica) -> ffi::Replica {
    let mut pending = [ffi::Pending::default(); PENDING_LIMIT];
    for (places, queue) in pending.chunks_exact_mut(QUEUE_LIMIT).zip(&model.queues) {
        for (place, waiting) in places.iter_mut().zip(queue) {
            *place = waiting.into();
        }
    }
    ffi::Replica {
        settings: to_settings(model),
        number: model.number,
        last: ffi::LocalTime(model.last.0),
        variables: model.variables,
        pending,
        counts: std::array::from_fn(|place| model.queues[place].len()),
        writes: model.writes,
    }
}

/// The model's replica, if the struct is one that the calls can leave, but for
/// counts past the places and requests in the queue of another group.
pub fn from_replica(replica: &ffi::Replica) -> Option<Replica> {
    let u = replica.settings;
    let settings = Settings::new(u.k, u.groups).ok()?;
    let mut model = Replica::make(u.k, u.groups, u.owner, u.delta, replica.number).ok()?;
    for (queue, places) in model.queues.iter_mut().zip(queues(replica)) {
        for waiting in places {
            let request = settings.check_request(&waiting.request.into()).ok()?;
            queue.push(Pending { request, arrival: LocalTime(waiting.arrival.0) });
        }
    }
    model.last = LocalTime(replica.last.0);
    model.variables = replica.variables;
    model.writes = replica.writes;
    let in_time = model.pending().all(|waiting| waiting.arrival <= model.last);
    in_time.then_some(model)
}

/// What goes by value of the model's player; without a unit the settings are zeros.
pub fn to_player(model: &Player) -> ffi::Player {
    match &model.unit {
        Some(unit) => {
            let settings = to_settings(&unit.replicas[0]);
            ffi::Player { stage: 1, settings, place: model.place() }
        }
        None => {
            let stage = if model.stopped() { 2 } else { 0 };
            ffi::Player { stage, settings: ffi::Settings::default(), place: 0 }
        }
    }
}
