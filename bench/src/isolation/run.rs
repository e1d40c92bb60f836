//! One run of a pair, through the C functions.

use super::plan::{Delivery, Plan};
use crate::convert::queues;
use crate::ffi;
use crate::model::{QUEUE_LIMIT, RECORD_SIZE};
use crate::random::Random;
use crate::traffic::Cast;

/// A replica, and what its guests did and were given.
pub struct Run {
    pub replica: ffi::Replica,
    pub deliveries: u64,
    /// Deliveries that were refused with 14.
    pub without_room: u64,
    pub replies: Vec<ffi::Message>,
    /// The number of messages of each step.
    pub sent: Vec<usize>,
}

impl Run {
    pub fn make(plan: &Plan) -> Result<Run, String> {
        let Cast { k, groups, owner } = plan.cast;
        let settings = ffi::Settings { k, groups, owner, delta: plan.delta };
        let made = ffi::make(settings, plan.number);
        if made.refusal != 0 {
            return Err(format!("make answered {}", made.refusal));
        }
        let (replies, sent) = (Vec::new(), Vec::new());
        Ok(Run { replica: made.replica, deliveries: 0, without_room: 0, replies, sent })
    }

    /// The answer to a delivery.
    pub fn deliver(&mut self, delivery: &Delivery) -> u8 {
        let at = ffi::LocalTime(delivery.at);
        let found = ffi::deliver(self.replica, &delivery.bytes, at);
        self.replica = found.replica;
        found.refusal
    }

    pub fn deliver_guests(&mut self, delivery: &Delivery) -> u8 {
        let refusal = self.deliver(delivery);
        self.deliveries += 1;
        self.without_room += u64::from(refusal == 14);
        refusal
    }

    /// The messages of a step to the owner; those to guests are kept.
    pub fn step(
        &mut self,
        at: u64,
        room: usize,
        random: &mut Random,
    ) -> Result<Vec<ffi::Message>, String> {
        let mut output = vec![0; room];
        random.fill(&mut output);
        let found = ffi::step(self.replica, ffi::LocalTime(at), &mut output);
        if found.refusal != 0 {
            return Err(format!("a step answered {}", found.refusal));
        }
        self.replica = found.replica;
        self.sent.push(found.count);
        let messages = self.read(&output, found.count)?;
        let owner = self.replica.settings.owner;
        let (owners, guests): (Vec<_>, Vec<_>) =
            messages.into_iter().partition(|message| message.group == owner);
        self.replies.extend(guests);
        Ok(owners)
    }

    /// The messages that a step wrote, as the other side itself reads them.
    fn read(&self, output: &[u8], count: usize) -> Result<Vec<ffi::Message>, String> {
        let ffi::Settings { k, groups, .. } = self.replica.settings;
        let mut messages = Vec::new();
        for record in output.chunks_exact(RECORD_SIZE).take(count) {
            let found = ffi::read_message(k, groups, record);
            if found.refusal != 0 {
                return Err(format!("reading a message answered {}", found.refusal));
            }
            messages.push(found.message);
        }
        if messages.len() < count {
            return Err(format!("a step of {count} messages had {} bytes", output.len()));
        }
        Ok(messages)
    }

    /// The pending requests of a group, none where there is no such group.
    pub fn queue(&self, group: u8) -> &[ffi::Pending] {
        let queues = queues(&self.replica);
        queues.get(usize::from(group).wrapping_sub(1)).copied().unwrap_or_default()
    }

    fn guests(&self) -> impl Iterator<Item = u8> {
        let ffi::Settings { groups, owner, .. } = self.replica.settings;
        (1..=groups).filter(move |&group| group != owner)
    }

    pub fn guests_queues(&self) -> Vec<&[ffi::Pending]> {
        self.guests().map(|group| self.queue(group)).collect()
    }

    pub fn a_guest_is_full(&self) -> bool {
        self.guests().any(|group| self.queue(group).len() == QUEUE_LIMIT)
    }
}
