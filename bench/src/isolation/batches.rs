//! The guests' batches with writes that a step handled.

use std::collections::BTreeSet;

use super::run::Run;
use crate::ffi;
use crate::model::record::{RequestFields, READ};
use crate::model::Timestamp;
use crate::traffic::is_unanimous;

/// How many batches of guests were handled.
#[derive(Clone, Copy, Debug, Default)]
pub struct Handled {
    /// The same write from each process.
    pub unanimous: u64,
    /// Another batch with a write.
    pub dissents: u64,
}

/// The fields of each pending request of each guest.
pub fn waiting(run: &Run) -> Vec<Vec<RequestFields>> {
    let fields = |queue: &[ffi::Pending]| queue.iter().map(|p| p.request.into()).collect();
    run.guests_queues().into_iter().map(fields).collect()
}

/// The batches that were waiting before a step and are not any more.
pub fn handled(before: &[Vec<RequestFields>], run: &Run) -> Handled {
    let mut handled = Handled::default();
    for (before, after) in before.iter().zip(waiting(run)) {
        let after = timestamps(&after);
        for timestamp in timestamps(before).difference(&after) {
            let batch = before.iter().filter(|request| request.timestamp == *timestamp);
            note(run.replica.settings.k, &batch.copied().collect::<Vec<_>>(), &mut handled);
        }
    }
    handled
}

fn timestamps(queue: &[RequestFields]) -> BTreeSet<Timestamp> {
    queue.iter().map(|request| request.timestamp).collect()
}

fn note(k: u8, batch: &[RequestFields], handled: &mut Handled) {
    if is_unanimous(k, batch) {
        handled.unanimous += 1;
    } else if batch.iter().any(|request| request.kind != READ) {
        handled.dissents += 1;
    }
}
