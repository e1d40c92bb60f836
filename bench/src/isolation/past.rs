//! What the owner delivered before, to tell how its requests come.

use std::collections::BTreeSet;

use super::plan::Delivery;
use crate::ffi;
use crate::model::Timestamp;

/// How many requests of the owner were accepted that did not come in order.
#[derive(Clone, Copy, Debug, Default)]
pub struct Habits {
    /// An equal one was accepted before.
    pub again: u64,
    /// One with a later timestamp was accepted before.
    pub out_of_order: u64,
    /// One with a later timestamp was handled before.
    pub late: u64,
}

/// The owner's accepted requests, and the latest timestamps accepted and handled.
#[derive(Default)]
pub struct Past {
    accepted: BTreeSet<Vec<u8>>,
    latest: Option<Timestamp>,
    handled: Option<Timestamp>,
}

impl Past {
    /// An accepted request.
    pub fn arrive(&mut self, delivery: &Delivery, habits: &mut Habits) {
        let timestamp = delivery.timestamp();
        habits.again += u64::from(!self.accepted.insert(delivery.bytes.clone()));
        habits.out_of_order += u64::from(timestamp < self.latest);
        habits.late += u64::from(timestamp < self.handled);
        self.latest = self.latest.max(timestamp);
    }

    /// A step that found one queue of the owner and left another.
    pub fn handle(&mut self, before: &[ffi::Pending], after: &[ffi::Pending]) {
        let gone = before.iter().filter(|waiting| !after.contains(waiting));
        let latest = gone.map(|waiting| Timestamp(waiting.request.timestamp.0)).max();
        self.handled = self.handled.max(latest);
    }
}
