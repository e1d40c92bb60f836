//! The run of a correct replica, through the C functions.

use super::bus::{Happening, Schedule, Trouble};
use super::counts::Counts;
use super::plan::Plan;
use crate::convert::queues;
use crate::ffi;
use crate::model::record::{Message, Request};
use crate::model::{Settings, OUTPUT_SIZE, QUEUE_LIMIT, RECORD_SIZE, TIME_LIMIT};
use crate::random::Random;

/// What a correct replica did.
pub struct Run {
    pub number: u8,
    pub replica: ffi::Replica,
    /// The owner's accepted requests in order of arrival.
    pub accepted: Vec<Request>,
    /// Whether there was no room for one of its requests.
    pub refused: bool,
    /// All messages of its accepted steps, in order.
    pub messages: Vec<Message>,
}

impl Run {
    /// What it sent to a group.
    pub fn messages_to(&self, group: u8) -> Vec<Message> {
        self.messages.iter().copied().filter(|message| message.group == group).collect()
    }
}

/// A correct replica while its schedule is played.
struct Player<'a> {
    settings: Settings,
    owner: u8,
    run: Run,
    counts: &'a mut Counts,
}

/// Plays a schedule on a new replica through the C functions.
pub fn play(
    plan: &Plan,
    number: u8,
    schedule: &Schedule,
    random: &mut Random,
    counts: &mut Counts,
) -> Result<Run, String> {
    let cast = plan.cast;
    let settings = Settings::new(cast.k, cast.groups).expect("allowed settings");
    let (k, groups, owner, delta) = (cast.k, cast.groups, cast.owner, plan.delta);
    let made = ffi::make(ffi::Settings { k, groups, owner, delta }, number);
    expect("make", made.refusal == 0, made.refusal)?;
    let (accepted, messages) = (Vec::new(), Vec::new());
    let run = Run { number, replica: made.replica, accepted, refused: false, messages };
    let mut player = Player { settings, owner, run, counts };
    for &(at, happening) in schedule {
        match happening {
            Happening::Owner(request) => player.deliver_owners(request, at)?,
            Happening::Guest(request) => player.deliver_guests(request, at)?,
            Happening::Step => player.step(at)?,
            Happening::Refused(trouble) => player.be_refused(trouble, at, random)?,
        }
    }
    Ok(player.run)
}

fn expect(what: &str, allowed: bool, refusal: u8) -> Result<(), String> {
    if allowed {
        Ok(())
    } else {
        Err(format!("{what} answered {refusal}"))
    }
}

impl Player<'_> {
    fn deliver(&mut self, bytes: &[u8], at: u64) -> u8 {
        let found = ffi::deliver(self.run.replica, bytes, ffi::LocalTime(at));
        self.run.replica = found.replica;
        found.refusal
    }

    /// The number of waiting requests of a group.
    fn waiting(&self, group: u8) -> usize {
        queues(&self.run.replica)[usize::from(group) - 1].len()
    }

    fn is_full(&self, group: u8) -> bool {
        self.waiting(group) == QUEUE_LIMIT
    }

    fn a_guest_is_full(&self) -> bool {
        (1..=self.settings.groups()).any(|group| group != self.owner && self.is_full(group))
    }

    /// Whether there was room: always, but for sixteen waiting requests of the group.
    fn offer(&mut self, request: Request, at: u64) -> Result<bool, String> {
        let full = self.is_full(request.group);
        let refusal = self.deliver(&request.encode(), at);
        let what = if full { "delivery without room" } else { "delivery with room" };
        expect(what, refusal == if full { 14 } else { 0 }, refusal)?;
        Ok(!full)
    }

    fn deliver_owners(&mut self, request: Request, at: u64) -> Result<(), String> {
        if self.offer(request, at)? {
            self.counts.arrivals += 1;
            self.counts.arrivals_beside_full += u64::from(self.a_guest_is_full());
            self.run.accepted.push(request);
        } else {
            self.counts.owners_without_room += 1;
            self.run.refused = true;
        }
        Ok(())
    }

    fn deliver_guests(&mut self, request: Request, at: u64) -> Result<(), String> {
        let room = self.offer(request, at)?;
        self.counts.guest_requests += 1;
        self.counts.guests_without_room += u64::from(!room);
        Ok(())
    }

    fn step(&mut self, at: u64) -> Result<(), String> {
        let (waiting, beside_full) = (self.waiting(self.owner), self.a_guest_is_full());
        let mut output = [0; OUTPUT_SIZE];
        let found = ffi::step(self.run.replica, ffi::LocalTime(at), &mut output);
        expect("step", found.refusal == 0, found.refusal)?;
        self.run.replica = found.replica;
        self.counts.steps += 1;
        let served = self.waiting(self.owner) < waiting;
        self.counts.served_beside_full += u64::from(served && beside_full);
        for record in output.chunks_exact(RECORD_SIZE).take(found.count) {
            let message = self.settings.read_message(record);
            let message = message.map_err(|refusal| format!("a message has {refusal:?}"))?;
            self.run.messages.push(message);
        }
        Ok(())
    }

    /// A call that must be refused, at a time that it must not move.
    fn be_refused(&mut self, trouble: Trouble, at: u64, random: &mut Random) -> Result<(), String> {
        self.counts.refused_calls += 1;
        let mut request = [0; RECORD_SIZE];
        request[..3].copy_from_slice(&[1, 1, 1]);
        let last = self.run.replica.last.0;
        let expected = match trouble {
            Trouble::SpareByte => {
                request[random.pick(&[3, 6, 7, 20, 21, 22, 23])] = random.byte() | 1;
                (self.deliver(&request, at), 21)
            }
            Trouble::ReadWithValue => {
                request[16 + random.index(4)] = random.byte() | 1;
                (self.deliver(&request, at), 22)
            }
            Trouble::ShortRequest => (self.deliver(&request[..random.index(24)], at), 6),
            Trouble::TimeTooLarge => (self.deliver(&request, TIME_LIMIT.0 + 1), 12),
            Trouble::TimeGoesBack if last > 0 => (self.deliver(&request, last - 1), 13),
            Trouble::TimeGoesBack => return Ok(()),
            Trouble::NoRoom => (self.step_without_room(at), 15),
        };
        expect("a call that must be refused", expected.0 == expected.1, expected.0)
    }

    fn step_without_room(&mut self, at: u64) -> u8 {
        let mut output = [0; OUTPUT_SIZE - 1];
        let found = ffi::step(self.run.replica, ffi::LocalTime(at), &mut output);
        self.run.replica = found.replica;
        found.refusal
    }
}
