//! A replica of the model and one of the other side that get the same calls.

use std::collections::BTreeSet;
use std::fmt::{self, Display, Formatter};

use super::lent::Lent;
use super::records::some_request;
use super::tally::{Call, Event, Tally};
use super::{same, same_lists, Outcome};
use crate::convert::{queues, to_settings};
use crate::difference::Difference;
use crate::ffi;
use crate::model::record::{Request, RequestFields, READ, REPLY};
use crate::model::replica::{Pending, Replica};
use crate::model::{number_of, LocalTime, Refusal, Timestamp, OUTPUT_SIZE, PENDING_LIMIT};
use crate::model::{QUEUES, QUEUE_LIMIT, RECORD_SIZE, STEP_MESSAGES, TIME_LIMIT};
use crate::random::Random;

/// The arguments of making a replica.
#[derive(Clone, Copy, Debug)]
pub struct Making {
    pub k: u8,
    pub groups: u8,
    pub owner: u8,
    pub delta: u64,
    pub number: u8,
}

impl Making {
    fn model(self) -> Result<Replica, Refusal> {
        Replica::make(self.k, self.groups, self.owner, self.delta, self.number)
    }

    fn other(self) -> ffi::ReplicaResult {
        let Making { k, groups, owner, delta, number } = self;
        ffi::make(ffi::Settings { k, groups, owner, delta }, number)
    }
}

/// One call of a run, kept to be printed.
enum Action {
    Deliver { bytes: Vec<u8>, at: u64 },
    Step { at: u64, room: usize },
}

impl Display for Action {
    fn fmt(&self, f: &mut Formatter) -> fmt::Result {
        match self {
            Action::Deliver { bytes, at } => write!(f, "deliver {bytes:?} at {at}"),
            Action::Step { at, room } => write!(f, "step at {at} with {room} bytes of output"),
        }
    }
}

/// The groups that there can be.
const GROUPS: [u8; QUEUES] = [1, 2, 3, 4];

/// The event of each group's refusal 14.
const WITHOUT_ROOM: [Event; QUEUES] =
    [Event::WithoutRoom1, Event::WithoutRoom2, Event::WithoutRoom3, Event::WithoutRoom4];

/// Both replicas, and the calls that brought them here.
pub struct Pair {
    pub model: Replica,
    other: ffi::Replica,
    making: Making,
    actions: Vec<Action>,
    past: Past,
}

/// Makes both replicas, or none where both sides refuse.
pub fn make(making: Making, tally: &mut Tally) -> Result<Option<Pair>, Difference> {
    let input = || format!("make {making:?}");
    let expected = making.model();
    let found = making.other();
    tally.answer(Call::Make, number_of(&expected));
    same("refusal", number_of(&expected), found.refusal, input)?;
    let Ok(model) = expected else {
        blank(&found.replica, input)?;
        return Ok(None);
    };
    same_replica(&model, &found.replica, &input)?;
    note_making(making, tally);
    let (actions, past) = (Vec::new(), Past::default());
    Ok(Some(Pair { model, other: found.replica, making, actions, past }))
}

/// Beside the refusal of a making stand zeros. Such a replica accepts no
/// request, not even one of the smallest unit, and a step of it only notes
/// the time.
fn blank(replica: &ffi::Replica, input: impl Fn() -> String + Copy) -> Outcome {
    let zero = ffi::Settings { k: 0, groups: 0, owner: 0, delta: 0 };
    let figures = (replica.settings, replica.number, replica.last.0, replica.writes);
    same("blank", (zero, 0, 0, 0), figures, input)?;
    same_lists("blank variable", &[0; 256], &replica.variables, input)?;
    same("blank counts", [0; QUEUES], replica.counts, input)?;
    let places = [ffi::Pending::default(); PENDING_LIMIT];
    same_lists("blank place", &places, &replica.pending, input)?;
    let request = RequestFields { kind: READ, group: 1, process: 1, ..RequestFields::default() };
    let delivered = ffi::deliver(*replica, &request.encode(), ffi::LocalTime(0));
    same("refusal of a blank replica", 2, delivered.refusal, input)?;
    let mut output = [170; OUTPUT_SIZE];
    let stepped = ffi::step(*replica, ffi::LocalTime(1), &mut output);
    same("step of a blank replica", (0, 0), (stepped.refusal, stepped.count), input)?;
    same_lists("output of a blank replica, byte", &[170; OUTPUT_SIZE], &output, input)
}

fn note_making(making: Making, tally: &mut Tally) {
    let of_k = [Event::K0, Event::K1, Event::K2, Event::K3];
    let of_groups = [Event::OneGroup, Event::TwoGroups, Event::ThreeGroups, Event::FourGroups];
    tally.event(of_k[usize::from(making.k)]);
    tally.event(of_groups[usize::from(making.groups) - 1]);
    match making.delta {
        0..=5 => tally.event(Event::SmallDelta),
        500_000.. => tally.event(Event::LargeDelta),
        _ => {}
    }
}

/// What a replica accepted and handled before, to tell how requests come.
#[derive(Default)]
struct Past {
    accepted: BTreeSet<Request>,
    /// The latest timestamp of each group that was accepted and handled.
    latest: [Option<Timestamp>; 5],
    handled: [Option<Timestamp>; 5],
    /// Whether the queue of each group was full.
    filled: [bool; 5],
}

impl Past {
    fn accept(&mut self, request: Request, tally: &mut Tally) {
        let group = usize::from(request.group);
        let timestamp = Some(request.timestamp);
        if !self.accepted.insert(request) {
            tally.event(Event::Repeated);
        }
        if timestamp < self.latest[group] {
            tally.event(Event::OutOfOrder);
        }
        if timestamp < self.handled[group] {
            tally.event(Event::Late);
        }
        self.latest[group] = self.latest[group].max(timestamp);
    }

    /// A group whose queue now holds so many; what was accepted behind a full
    /// queue has the place of a handled request.
    fn fill(&mut self, group: u8, length: usize, tally: &mut Tally) {
        let filled = &mut self.filled[usize::from(group)];
        if *filled {
            tally.event(Event::FreedPlace);
        }
        if length == QUEUE_LIMIT {
            tally.event(Event::FullQueue);
            *filled = true;
        }
    }

    /// The batches before a step of which nothing is pending afterwards.
    fn handle(&mut self, before: &Replica, after: &Replica) {
        let batch = |p: &Pending| (p.request.group, p.request.timestamp);
        let left: BTreeSet<_> = after.pending().map(batch).collect();
        for (group, timestamp) in before.pending().map(batch).filter(|b| !left.contains(b)) {
            let handled = &mut self.handled[usize::from(group)];
            *handled = (*handled).max(Some(timestamp));
        }
    }
}

impl Pair {
    /// Delivers to both.
    pub fn deliver(&mut self, bytes: &[u8], at: u64, tally: &mut Tally) -> Outcome {
        self.actions.push(Action::Deliver { bytes: bytes.to_vec(), at });
        let expected = self.model.deliver(bytes, LocalTime(at));
        let found = ffi::deliver(self.other, bytes, ffi::LocalTime(at));
        self.other = found.replica;
        tally.answer(Call::Deliver, number_of(&expected));
        same("refusal", number_of(&expected), found.refusal, || self.input())?;
        match expected {
            Ok(()) => self.note_arrival(bytes[1], tally),
            Err(Refusal::PendingFull) => tally.event(WITHOUT_ROOM[usize::from(bytes[1]) - 1]),
            Err(_) => {}
        }
        self.compare(at, tally)
    }

    fn note_arrival(&mut self, group: u8, tally: &mut Tally) {
        let full = GROUPS.map(|other| self.model.queue(other).len() == QUEUE_LIMIT);
        if GROUPS.into_iter().zip(full).any(|(other, full)| full && other != group) {
            tally.event(Event::BesideFull);
        }
        if full == [true; QUEUES] {
            tally.event(Event::AllFull);
        }
        let queue = self.model.queue(group);
        self.past.fill(group, queue.len(), tally);
        if let Some(arrived) = queue.last() {
            self.past.accept(arrived.request, tally);
        }
    }

    /// Steps both, with random bytes in the output.
    pub fn step(
        &mut self,
        at: u64,
        room: usize,
        random: &mut Random,
        tally: &mut Tally,
    ) -> Outcome {
        self.actions.push(Action::Step { at, room });
        self.note_step(at, room, tally);
        let mut lent = Lent::new(room, random);
        let mut output = lent.original();
        let before = self.model.clone();
        let expected = self.model.step(LocalTime(at), &mut output);
        let found = ffi::step(self.other, ffi::LocalTime(at), lent.lend());
        self.other = found.replica;
        tally.answer(Call::Step, number_of(&expected));
        same("refusal", number_of(&expected), found.refusal, || self.input())?;
        let count = expected.unwrap_or(0);
        same("number of messages", count, found.count, || self.input())?;
        note_messages(&output[..count * RECORD_SIZE], tally);
        lent.check(&output, || self.input())?;
        self.note_changes(&before, tally);
        self.compare(at, tally)
    }

    fn note_changes(&mut self, before: &Replica, tally: &mut Tally) {
        if self.model.failed() && !before.failed() {
            tally.event(Event::Freeze);
        }
        tally.events(Event::PerformedWrite, self.model.writes - before.writes);
        self.past.handle(before, &self.model);
    }

    /// Puts something else into the free places of the other side's array.
    pub fn scramble(&mut self, random: &mut Random, tally: &mut Tally) {
        tally.event(Event::ScrambledPlaces);
        let taken = queues(&self.other).concat();
        let places = self.other.pending.chunks_exact_mut(QUEUE_LIMIT);
        for (queue, count) in places.zip(self.other.counts) {
            for place in queue.iter_mut().skip(count) {
                *place = some_pending(&taken, self.making, random);
            }
        }
    }

    fn compare(&self, at: u64, tally: &mut Tally) -> Outcome {
        if at == TIME_LIMIT.0 {
            tally.event(Event::LatestTime);
        }
        same_replica(&self.model, &self.other, &|| self.input())
    }

    fn note_step(&self, at: u64, room: usize, tally: &mut Tally) {
        let delta = self.model.delta;
        if self.model.pending().any(|waiting| waiting.arrival.0 + delta == at) {
            tally.event(Event::ExactlyDelta);
        }
        if let Some(event) = event_of_room(room) {
            tally.event(event);
        }
    }

    /// All calls of the run so far.
    fn input(&self) -> String {
        let mut text = format!("make {:?}", self.making);
        for action in &self.actions {
            text.push_str(&format!("\n{action}"));
        }
        text
    }
}

/// A request that looks like a pending one, or noise.
fn some_pending(taken: &[ffi::Pending], making: Making, random: &mut Random) -> ffi::Pending {
    if !taken.is_empty() && random.chance(1, 2) {
        return random.pick(taken);
    }
    let request = some_request(making.k, making.groups, random).into();
    ffi::Pending { request, arrival: ffi::LocalTime(random.pick(&[0, 1, u64::MAX])) }
}

fn event_of_room(room: usize) -> Option<Event> {
    match room {
        0 => Some(Event::RoomOf0),
        1_607 => Some(Event::RoomOf1607),
        1_608 => Some(Event::RoomOf1608),
        _ => (room > OUTPUT_SIZE).then_some(Event::MoreRoom),
    }
}

fn note_messages(output: &[u8], tally: &mut Tally) {
    for record in output.chunks_exact(RECORD_SIZE) {
        tally.event(if record[0] == REPLY { Event::Reply } else { Event::Halt });
    }
    if output.len() == STEP_MESSAGES * RECORD_SIZE {
        tally.event(Event::FullStep);
    }
}

/// Compares all that the interface settles of a replica.
pub fn same_replica(model: &Replica, other: &ffi::Replica, input: &dyn Fn() -> String) -> Outcome {
    same("settings", to_settings(model), other.settings, input)?;
    same("number", model.number, other.number, input)?;
    same("last local time", model.last.0, other.last.0, input)?;
    same("performed writes", model.writes, other.writes, input)?;
    same_lists("variable", &model.variables, &other.variables, input)?;
    let counts = std::array::from_fn(|place| model.queues[place].len());
    same("number of pending requests of each group", counts, other.counts, input)?;
    for (expected, found) in model.pending().zip(queues(other).into_iter().flatten()) {
        same("pending request", ffi::Pending::from(expected), *found, input)?;
    }
    Ok(())
}
