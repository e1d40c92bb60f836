//! The register machine: what the owner's requests mean, without local
//! times, pending requests or steps.

use std::collections::{BTreeMap, BTreeSet};

use super::record::{Content, Message, Operation, Request};
use super::{Timestamp, FAILED, VARIABLES};

/// A message of the machine, which has no number of its own.
#[derive(Clone, Copy, Debug, PartialEq, Eq)]
pub struct Saying {
    pub process: u8,
    pub timestamp: Timestamp,
    pub content: Content,
}

/// What the machine holds and says after all the owner's requests.
#[derive(Clone, Debug)]
pub struct Machine {
    k: u8,
    owner: u8,
    pub variables: [u32; VARIABLES],
    pub writes: u64,
    pub sayings: Vec<Saying>,
}

impl Machine {
    /// Runs the machine on a bag of requests. Those of other groups are not
    /// the owner's and do not count. The order of the bag shows only in the
    /// order of the replies of one timestamp.
    pub fn run(k: u8, owner: u8, bag: &[Request]) -> Machine {
        let variables = [0; VARIABLES];
        let mut machine = Machine { k, owner, variables, writes: 0, sayings: Vec::new() };
        let mut batches: BTreeMap<Timestamp, Vec<Request>> = BTreeMap::new();
        for request in bag.iter().filter(|request| request.group == owner) {
            batches.entry(request.timestamp).or_default().push(*request);
        }
        for (timestamp, batch) in &batches {
            machine.take(*timestamp, batch);
        }
        machine
    }

    /// Whether the machine froze.
    pub fn failed(&self) -> bool {
        self.variables[FAILED] == 1
    }

    /// Its messages as the replica with this number sends them.
    pub fn messages(&self, replica: u8) -> Vec<Message> {
        let group = self.owner;
        let named = |saying: &Saying| Message {
            group,
            process: saying.process,
            replica,
            timestamp: saying.timestamp,
            content: saying.content,
        };
        self.sayings.iter().map(named).collect()
    }

    fn take(&mut self, timestamp: Timestamp, batch: &[Request]) {
        let writes = batch.iter().filter(|request| !request.is_read()).count();
        if writes == 0 {
            self.reply(batch);
        } else if self.failed() {
            // Nothing happens any more.
        } else if self.agreed(batch) {
            self.write(&batch[0]);
        } else {
            self.freeze(timestamp);
        }
    }

    fn reply(&mut self, reads: &[Request]) {
        for read in reads {
            let value = self.variables[usize::from(read.variable)];
            self.sayings.push(Saying {
                process: read.process,
                timestamp: read.timestamp,
                content: Content::Reply { variable: read.variable, value },
            });
        }
    }

    /// Exactly k+1 equal writes, all from different processes.
    fn agreed(&self, batch: &[Request]) -> bool {
        let wanted = usize::from(self.k) + 1;
        let senders: BTreeSet<u8> = batch.iter().map(|request| request.process).collect();
        let contents: BTreeSet<(u8, Operation)> =
            batch.iter().map(|request| (request.variable, request.operation)).collect();
        batch.len() == wanted && senders.len() == wanted && contents.len() == 1
    }

    fn write(&mut self, request: &Request) {
        if let Operation::Write(value) = request.operation {
            self.variables[usize::from(request.variable)] = value;
            self.writes += 1;
        }
    }

    fn freeze(&mut self, timestamp: Timestamp) {
        self.variables[FAILED] = 1;
        for process in 1..=self.k + 1 {
            self.sayings.push(Saying { process, timestamp, content: Content::Halt });
        }
    }
}
