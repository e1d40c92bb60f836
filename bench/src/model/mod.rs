//! The store of document 01, with the queues and the drill sheet of document 02,
//! in ordinary Rust, written from the documents alone.
//!
//! Terms: process = program card, replica = storage card, timestamp = stamp,
//! local time = reading, step = turn, queue = shelf of a group, pending = on a
//! shelf, batch = head, stable = ripe, failed = frozen.

pub mod blocks;
pub mod by_value;
pub mod drill;
pub mod journal;
pub mod machine;
pub mod record;
pub mod replica;
pub mod vote;

#[cfg(test)]
mod examples;

/// The largest number of tolerated failures.
pub const K_LIMIT: u8 = 3;
/// The largest number of groups that share the replicas.
pub const GROUP_LIMIT: u8 = 4;
/// The largest delta, in units of local time.
pub const DELTA_LIMIT: u64 = 1_000_000;
/// The largest local time.
pub const TIME_LIMIT: LocalTime = LocalTime(1 << 62);
/// The bytes of one record.
pub const RECORD_SIZE: usize = 24;
/// The variables of one replica, the failed mark included.
pub const VARIABLES: usize = 256;
/// The variable that holds the failed mark.
pub const FAILED: usize = 0;
/// The queues of a replica: one for each group that there can be.
pub const QUEUES: usize = GROUP_LIMIT as usize;
/// How many pending requests of one group a replica holds.
pub const QUEUE_LIMIT: usize = 16;
/// The places of all queues.
pub const PENDING_LIMIT: usize = QUEUES * QUEUE_LIMIT;
/// How many messages a vote or halt count looks at.
pub const LIST_LIMIT: usize = 64;
/// The most messages that one step sends.
pub const STEP_MESSAGES: usize = 67;
/// The least output of a step, in bytes.
pub const OUTPUT_SIZE: usize = STEP_MESSAGES * RECORD_SIZE;

/// A process's clock when it made a request.
#[derive(Clone, Copy, Debug, Default, PartialEq, Eq, PartialOrd, Ord)]
pub struct Timestamp(pub u64);

/// A replica's clock.
#[derive(Clone, Copy, Debug, Default, PartialEq, Eq, PartialOrd, Ord)]
pub struct LocalTime(pub u64);

/// The question that was answered "no", with its number: document 01's, and from 21 document 02's,
/// which replaces 11 by 21 and 22.
#[derive(Clone, Copy, Debug, PartialEq, Eq)]
#[repr(u8)]
pub enum Refusal {
    K = 1,
    Groups = 2,
    Owner = 3,
    Delta = 4,
    Replica = 5,
    Length = 6,
    Kind = 7,
    Group = 8,
    Process = 9,
    Variable = 10,
    TimeTooLarge = 12,
    TimeGoesBack = 13,
    PendingFull = 14,
    TooLittleRoom = 15,
    ListTooLong = 16,
    NoMajority = 17,
    PartialRecord = 18,
    RecordOrder = 19,
    JournalZero = 20,
    SpareByte = 21,
    Value = 22,
}

impl Refusal {
    pub fn number(self) -> u8 {
        self as u8
    }
}

/// The refusal number of a result, 0 for one that did its work.
pub fn number_of<T>(result: &Result<T, Refusal>) -> u8 {
    result.as_ref().map_or_else(|refusal| refusal.number(), |_| 0)
}

/// Asks one question: `yes`, or the refusal.
pub(crate) fn ask(yes: bool, otherwise: Refusal) -> Result<(), Refusal> {
    if yes {
        Ok(())
    } else {
        Err(otherwise)
    }
}

/// k and the number of groups, once questions 1 and 2 are answered.
#[derive(Clone, Copy, Debug, PartialEq, Eq)]
pub struct Settings {
    k: u8,
    groups: u8,
}

impl Settings {
    /// Questions 1 and 2.
    pub fn new(k: u8, groups: u8) -> Result<Settings, Refusal> {
        ask(k <= K_LIMIT, Refusal::K)?;
        ask((1..=GROUP_LIMIT).contains(&groups), Refusal::Groups)?;
        Ok(Settings { k, groups })
    }

    pub fn k(self) -> u8 {
        self.k
    }

    pub fn groups(self) -> u8 {
        self.groups
    }

    /// How many processes each group has.
    pub fn processes(self) -> u8 {
        self.k + 1
    }

    /// How many replicas there are.
    pub fn replicas(self) -> u8 {
        2 * self.k + 1
    }

    /// How many replicas must agree.
    pub fn quorum(self) -> usize {
        usize::from(self.k) + 1
    }

    pub fn has_group(self, group: u8) -> bool {
        (1..=self.groups).contains(&group)
    }

    pub fn has_process(self, process: u8) -> bool {
        (1..=self.processes()).contains(&process)
    }

    pub fn has_replica(self, replica: u8) -> bool {
        (1..=self.replicas()).contains(&replica)
    }
}
