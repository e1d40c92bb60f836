//! The vote on a read and the halt count, over lists of messages.

use super::record::{Content, Message, MessageFields, REPLY};
use super::{ask, Refusal, Settings, Timestamp, LIST_LIMIT};

/// The read that a vote is about.
#[derive(Clone, Copy, Debug, Default, PartialEq, Eq)]
pub struct Query {
    pub group: u8,
    pub process: u8,
    pub variable: u16,
    pub timestamp: Timestamp,
}

impl Query {
    /// A reply to the read.
    pub fn reply(&self, replica: u8, value: u32) -> MessageFields {
        MessageFields {
            kind: REPLY,
            group: self.group,
            process: self.process,
            replica,
            variable: self.variable,
            timestamp: self.timestamp,
            value,
        }
    }
}

/// A value, and the replicas by what they replied: one bit for each, the lowest
/// for replica 1.
#[derive(Clone, Copy, Debug, Default, PartialEq, Eq)]
pub struct Election {
    pub value: u32,
    pub agreed: u8,
    pub other: u8,
    pub silent: u8,
}

/// The replicas that sent a halt, how many they are, and whether they are k+1.
#[derive(Clone, Copy, Debug, Default, PartialEq, Eq)]
pub struct HaltCount {
    pub senders: u8,
    pub size: u8,
    pub halt: bool,
}

/// The value that at least k+1 different replicas replied.
pub fn vote(k: u8, groups: u8, query: &Query, list: &[MessageFields]) -> Result<Election, Refusal> {
    let settings = Settings::new(k, groups)?;
    ask(list.len() <= LIST_LIMIT, Refusal::ListTooLong)?;
    let first = first_values(settings, query, list);
    let supported = |value: &u32| first.iter().filter(|&v| *v == Some(*value)).count();
    let value = first
        .iter()
        .flatten()
        .copied()
        .find(|value| supported(value) >= settings.quorum())
        .ok_or(Refusal::NoMajority)?;
    let mut election = Election { value, ..Election::default() };
    for (place, replied) in first[1..].iter().enumerate() {
        let set = match replied {
            Some(reply) if *reply == value => &mut election.agreed,
            Some(_) => &mut election.other,
            None => &mut election.silent,
        };
        *set += 1 << place;
    }
    Ok(election)
}

/// The different replicas that sent a halt to the process.
pub fn count_halts(
    k: u8,
    groups: u8,
    group: u8,
    process: u8,
    list: &[MessageFields],
) -> Result<HaltCount, Refusal> {
    let settings = Settings::new(k, groups)?;
    ask(list.len() <= LIST_LIMIT, Refusal::ListTooLong)?;
    let mut halted = vec![false; usize::from(settings.replicas()) + 1];
    for message in passing(settings, list) {
        let addressed = message.group == group && message.process == process;
        if addressed && message.content == Content::Halt {
            halted[usize::from(message.replica)] = true;
        }
    }
    let senders = (1..=settings.replicas()).filter(|&replica| halted[usize::from(replica)]);
    let size = senders.clone().count();
    Ok(HaltCount {
        senders: senders.map(|replica| 1 << (replica - 1)).sum(),
        size: size as u8,
        halt: size >= settings.quorum(),
    })
}

/// For each replica number, the value of its first matching reply.
fn first_values(settings: Settings, query: &Query, list: &[MessageFields]) -> Vec<Option<u32>> {
    let mut first = vec![None; usize::from(settings.replicas()) + 1];
    for message in passing(settings, list) {
        if let Some(value) = reply_to(query, &message) {
            first[usize::from(message.replica)].get_or_insert(value);
        }
    }
    first
}

/// The messages of a list that pass the message questions.
fn passing(settings: Settings, list: &[MessageFields]) -> impl Iterator<Item = Message> + '_ {
    list.iter().filter_map(move |fields| settings.check_message(fields).ok())
}

/// The value of a message that answers the query.
fn reply_to(query: &Query, message: &Message) -> Option<u32> {
    match message.content {
        Content::Reply { variable, value }
            if message.group == query.group
                && message.process == query.process
                && message.timestamp == query.timestamp
                && u16::from(variable) == query.variable =>
        {
            Some(value)
        }
        _ => None,
    }
}
