//! The replica: Figure 1 with the two repairs of document 01, and a queue for
//! each group.

use super::record::{Content, Message, Operation, Request};
use super::{ask, LocalTime, Refusal, Settings, Timestamp};
use super::{DELTA_LIMIT, FAILED, OUTPUT_SIZE, QUEUES, QUEUE_LIMIT, RECORD_SIZE};
use super::{TIME_LIMIT, VARIABLES};

/// An accepted request that is not yet handled.
#[derive(Clone, Copy, Debug, PartialEq, Eq)]
pub struct Pending {
    pub request: Request,
    pub arrival: LocalTime,
}

/// The pending requests of one group, in order of arrival.
pub type Queue = Vec<Pending>;

/// One copy of the store, with a queue for each group, group 1's first.
#[derive(Clone, Debug, PartialEq, Eq)]
pub struct Replica {
    pub settings: Settings,
    pub owner: u8,
    pub number: u8,
    pub delta: u64,
    pub last: LocalTime,
    pub variables: [u32; VARIABLES],
    pub queues: [Queue; QUEUES],
    pub writes: u64,
}

impl Replica {
    /// A new replica. Questions 1 to 5.
    pub fn make(k: u8, groups: u8, owner: u8, delta: u64, number: u8) -> Result<Replica, Refusal> {
        let settings = Settings::new(k, groups)?;
        ask(settings.has_group(owner), Refusal::Owner)?;
        ask(delta <= DELTA_LIMIT, Refusal::Delta)?;
        ask(settings.has_replica(number), Refusal::Replica)?;
        Ok(Replica {
            settings,
            owner,
            number,
            delta,
            last: LocalTime(0),
            variables: [0; VARIABLES],
            queues: std::array::from_fn(|_| Vec::with_capacity(QUEUE_LIMIT)),
            writes: 0,
        })
    }

    /// Whether the store is frozen.
    pub fn failed(&self) -> bool {
        self.variables[FAILED] != 0
    }

    /// The queue of a group.
    pub fn queue(&self, group: u8) -> &Queue {
        &self.queues[usize::from(group) - 1]
    }

    /// All pending requests, group by group.
    pub fn pending(&self) -> impl Iterator<Item = &Pending> {
        self.queues.iter().flatten()
    }

    /// Accepts a request. Questions 6 to 14; the last looks at the sender's
    /// group alone.
    pub fn deliver(&mut self, bytes: &[u8], at: LocalTime) -> Result<(), Refusal> {
        let request = self.settings.read_request(bytes)?;
        self.check_time(at)?;
        let queue = &mut self.queues[usize::from(request.group) - 1];
        ask(queue.len() < QUEUE_LIMIT, Refusal::PendingFull)?;
        queue.push(Pending { request, arrival: at });
        self.last = at;
        Ok(())
    }

    /// Handles every stable batch, writes the messages to the start of the
    /// output and gives their number. Questions 12, 13 and 15.
    pub fn step(&mut self, at: LocalTime, output: &mut [u8]) -> Result<usize, Refusal> {
        self.check_time(at)?;
        ask(output.len() >= OUTPUT_SIZE, Refusal::TooLittleRoom)?;
        self.last = at;
        let (mut batch, mut sent) = (Vec::new(), Vec::new());
        for group in 1..=self.settings.groups() {
            while self.take_stable_batch(group, at, &mut batch) {
                self.handle(group, &batch, &mut sent);
            }
        }
        for (message, place) in sent.iter().zip(output.chunks_exact_mut(RECORD_SIZE)) {
            place.copy_from_slice(&message.encode());
        }
        Ok(sent.len())
    }

    fn check_time(&self, at: LocalTime) -> Result<(), Refusal> {
        ask(at <= TIME_LIMIT, Refusal::TimeTooLarge)?;
        ask(at >= self.last, Refusal::TimeGoesBack)
    }

    /// Takes the group's requests with its least timestamp, if they are stable.
    fn take_stable_batch(&mut self, group: u8, at: LocalTime, batch: &mut Vec<Request>) -> bool {
        let queue = &mut self.queues[usize::from(group) - 1];
        let stable = |first: LocalTime| first.0 + self.delta < at.0;
        let Some((timestamp, _)) = head(queue).filter(|head| stable(head.1)) else { return false };
        batch.clear();
        queue.retain(|waiting| {
            let taken = waiting.request.timestamp == timestamp;
            if taken {
                batch.push(waiting.request);
            }
            !taken
        });
        true
    }

    /// Handles one batch of a group: its requests of one timestamp.
    fn handle(&mut self, group: u8, batch: &[Request], sent: &mut Vec<Message>) {
        if batch.iter().all(Request::is_read) {
            sent.extend(batch.iter().map(|request| self.answer(request)));
        } else if group == self.owner && !self.failed() {
            match self.unanimous_write(batch) {
                Some((variable, value)) => self.perform(variable, value),
                None => self.fail(batch[0].timestamp, sent),
            }
        }
    }

    fn answer(&self, read: &Request) -> Message {
        let value = self.variables[usize::from(read.variable)];
        Message {
            group: read.group,
            process: read.process,
            replica: self.number,
            timestamp: read.timestamp,
            content: Content::Reply { variable: read.variable, value },
        }
    }

    /// The write that each process of the owner asks for exactly once.
    fn unanimous_write(&self, batch: &[Request]) -> Option<(u8, u32)> {
        let first = batch[0];
        let Operation::Write(value) = first.operation else { return None };
        let mut asked = [false; 256];
        for request in batch {
            let same = request.variable == first.variable && request.operation == first.operation;
            let again = std::mem::replace(&mut asked[usize::from(request.process)], true);
            if !same || again {
                return None;
            }
        }
        (batch.len() == self.settings.quorum()).then_some((first.variable, value))
    }

    fn perform(&mut self, variable: u8, value: u32) {
        self.variables[usize::from(variable)] = value;
        self.writes += 1;
    }

    /// Freezes the store and sends a halt to each process of the owner.
    fn fail(&mut self, timestamp: Timestamp, sent: &mut Vec<Message>) {
        self.variables[FAILED] = 1;
        sent.extend((1..=self.settings.processes()).map(|process| Message {
            group: self.owner,
            process,
            replica: self.number,
            timestamp,
            content: Content::Halt,
        }));
    }
}

/// The least timestamp in a queue and the first arrival with it.
fn head(queue: &[Pending]) -> Option<(Timestamp, LocalTime)> {
    queue.iter().map(|waiting| (waiting.request.timestamp, waiting.arrival)).min()
}
