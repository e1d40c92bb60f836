//! The same replica by value: a struct with fixed arrays, as large as the one
//! of the C interface, that goes in and comes out of each call.

use super::record::{Content, Message, RequestFields, READ, WRITE};
use super::{ask, replica, LocalTime, Refusal, Settings, Timestamp, FAILED, OUTPUT_SIZE};
use super::{PENDING_LIMIT, QUEUES, QUEUE_LIMIT, RECORD_SIZE, TIME_LIMIT, VARIABLES};

/// A pending request with plain fields.
#[derive(Clone, Copy, Debug, Default, PartialEq, Eq)]
pub struct Pending {
    pub request: RequestFields,
    pub arrival: LocalTime,
}

/// What the unit was set up with.
#[derive(Clone, Copy, Debug)]
pub struct SetUp {
    pub k: u8,
    pub groups: u8,
    pub owner: u8,
    pub delta: u64,
}

/// One copy of the store. Each group has sixteen places of `pending`, group 1
/// the first ones; the first `counts` of a group's places are taken.
#[derive(Clone, Copy, Debug)]
pub struct Replica {
    pub set_up: SetUp,
    pub number: u8,
    pub last: LocalTime,
    pub variables: [u32; VARIABLES],
    pub pending: [Pending; PENDING_LIMIT],
    pub counts: [usize; QUEUES],
    pub writes: u64,
}

/// What the look at a batch says.
enum Verdict {
    Reads,
    Agreed(u8, u32),
    Dissent,
}

/// The output of a step and the number of messages in it.
struct Sending<'a> {
    output: &'a mut [u8],
    count: usize,
}

impl Sending<'_> {
    fn send(&mut self, message: &Message) {
        let place = &mut self.output[self.count * RECORD_SIZE..][..RECORD_SIZE];
        place.copy_from_slice(&message.encode());
        self.count += 1;
    }
}

impl Replica {
    /// A new replica. Questions 1 to 5.
    pub fn make(k: u8, groups: u8, owner: u8, delta: u64, number: u8) -> Result<Self, Refusal> {
        replica::Replica::make(k, groups, owner, delta, number)?;
        Ok(Replica {
            set_up: SetUp { k, groups, owner, delta },
            number,
            last: LocalTime(0),
            variables: [0; VARIABLES],
            pending: [Pending::default(); PENDING_LIMIT],
            counts: [0; QUEUES],
            writes: 0,
        })
    }

    /// The pending requests of a group.
    pub fn queue(&self, group: u8) -> &[Pending] {
        &self.pending[start(group)..][..self.counts[place(group)]]
    }

    /// Accepts a request. Questions 1, 2 and 6 to 14.
    pub fn deliver(mut self, bytes: &[u8], at: LocalTime) -> (Self, Result<(), Refusal>) {
        let result = self.accept(bytes, at);
        (self, result)
    }

    /// Handles every stable batch. Questions 12, 13 and 15.
    pub fn step(mut self, at: LocalTime, output: &mut [u8]) -> (Self, Result<usize, Refusal>) {
        let result = self.handle_stable(at, output);
        (self, result)
    }

    fn accept(&mut self, bytes: &[u8], at: LocalTime) -> Result<(), Refusal> {
        let request = Settings::new(self.set_up.k, self.set_up.groups)?.read_request(bytes)?;
        self.check_time(at)?;
        let count = &mut self.counts[place(request.group)];
        ask(*count < QUEUE_LIMIT, Refusal::PendingFull)?;
        self.pending[start(request.group) + *count] =
            Pending { request: request.fields(), arrival: at };
        *count += 1;
        self.last = at;
        Ok(())
    }

    fn handle_stable(&mut self, at: LocalTime, output: &mut [u8]) -> Result<usize, Refusal> {
        self.check_time(at)?;
        ask(output.len() >= OUTPUT_SIZE, Refusal::TooLittleRoom)?;
        self.last = at;
        let mut sending = Sending { output, count: 0 };
        let mut batch = [RequestFields::default(); QUEUE_LIMIT];
        for group in 1..=self.set_up.groups {
            while let Some(timestamp) = self.stable_head(group, at) {
                let length = self.take(group, timestamp, &mut batch);
                self.handle(group, &batch[..length], &mut sending);
            }
        }
        Ok(sending.count)
    }

    fn check_time(&self, at: LocalTime) -> Result<(), Refusal> {
        ask(at <= TIME_LIMIT, Refusal::TimeTooLarge)?;
        ask(at >= self.last, Refusal::TimeGoesBack)
    }

    /// The least timestamp of a group, if its batch is stable.
    fn stable_head(&self, group: u8, at: LocalTime) -> Option<Timestamp> {
        let mut head: Option<&Pending> = None;
        for pending in self.queue(group) {
            // Arrivals stand in order, so the first one found is the least.
            if head.is_none_or(|head| pending.request.timestamp < head.request.timestamp) {
                head = Some(pending);
            }
        }
        head.filter(|head| head.arrival.0 + self.set_up.delta < at.0)
            .map(|head| head.request.timestamp)
    }

    /// Moves a batch out and gives its length; the others move up in order.
    fn take(&mut self, group: u8, timestamp: Timestamp, batch: &mut [RequestFields]) -> usize {
        let count = &mut self.counts[place(group)];
        let queue = &mut self.pending[start(group)..][..*count];
        let (mut kept, mut taken) = (0, 0);
        for place in 0..queue.len() {
            let pending = queue[place];
            if pending.request.timestamp == timestamp {
                batch[taken] = pending.request;
                taken += 1;
            } else {
                queue[kept] = pending;
                kept += 1;
            }
        }
        *count = kept;
        taken
    }

    fn handle(&mut self, group: u8, batch: &[RequestFields], sending: &mut Sending) {
        let timestamp = batch[0].timestamp;
        match judge(batch, usize::from(self.set_up.k) + 1) {
            Verdict::Reads => self.answer(batch, sending),
            _ if group != self.set_up.owner || self.variables[FAILED] != 0 => {}
            Verdict::Agreed(variable, value) => {
                self.variables[usize::from(variable)] = value;
                self.writes += 1;
            }
            Verdict::Dissent => self.fail(timestamp, sending),
        }
    }

    fn answer(&self, reads: &[RequestFields], sending: &mut Sending) {
        for read in reads {
            let variable = read.variable as u8;
            let value = self.variables[usize::from(variable)];
            sending.send(&Message {
                group: read.group,
                process: read.process,
                replica: self.number,
                timestamp: read.timestamp,
                content: Content::Reply { variable, value },
            });
        }
    }

    fn fail(&mut self, timestamp: Timestamp, sending: &mut Sending) {
        self.variables[FAILED] = 1;
        for process in 1..=self.set_up.k + 1 {
            sending.send(&Message {
                group: self.set_up.owner,
                process,
                replica: self.number,
                timestamp,
                content: Content::Halt,
            });
        }
    }
}

/// The place of a group's count.
fn place(group: u8) -> usize {
    usize::from(group) - 1
}

/// The first place of a group's queue.
fn start(group: u8) -> usize {
    place(group) * QUEUE_LIMIT
}

/// Looks at the requests of one group and timestamp, all of which passed the
/// questions.
fn judge(batch: &[RequestFields], quorum: usize) -> Verdict {
    if batch.iter().all(|request| request.kind == READ) {
        return Verdict::Reads;
    }
    let first = batch[0];
    let mut processes = 0u32;
    for request in batch {
        let same = request.kind == WRITE
            && request.variable == first.variable
            && request.value == first.value;
        if !same {
            return Verdict::Dissent;
        }
        processes |= 1 << (request.process & 31);
    }
    if batch.len() == quorum && processes.count_ones() as usize == quorum {
        Verdict::Agreed(first.variable as u8, first.value)
    } else {
        Verdict::Dissent
    }
}
