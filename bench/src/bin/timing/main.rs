//! Benchmarks: the verified implementation against the model, same inputs,
//! best of several runs.

mod journal;

use std::fmt;
use std::hint::black_box;
use std::io;
use std::time::Instant;

use bench::convert::{to_list, to_replica};
use bench::ffi;
use bench::model::record::{self, MessageFields, Operation, Request, HALT};
use bench::model::replica::Replica;
use bench::model::vote::{count_halts, vote, Election, Query};
use bench::model::{
    by_value, LocalTime, Refusal, Timestamp, GROUP_LIMIT, K_LIMIT, LIST_LIMIT, OUTPUT_SIZE,
    QUEUE_LIMIT, RECORD_SIZE,
};

/// The best of so many runs counts, in each of the rounds: both sides come again
/// and again, so that a busy moment of the machine does not fall on one of them.
const BEST_OF: usize = 5;
const ROUNDS: usize = 20;
/// Calls in one run.
const CALLS: usize = 20_000;
/// Copies of a prepared replica, each stepped once in a run.
const COPIES: usize = 500;

const K: u8 = 1;
const GROUPS: u8 = 2;
const OWNER: u8 = 1;
const DELTA: u64 = 5;

const SETTINGS: ffi::Settings = ffi::Settings { k: K, groups: GROUPS, owner: OWNER, delta: DELTA };
/// Where all queues are wanted, and where a write is of the most processes.
const ALL_GROUPS: ffi::Settings = ffi::Settings { groups: GROUP_LIMIT, ..SETTINGS };
const ALL_PROCESSES: ffi::Settings = ffi::Settings { k: K_LIMIT, ..SETTINGS };
/// What votes are on.
const QUERY: Query = Query { group: OWNER, process: 1, variable: 4, timestamp: Timestamp(10) };

fn main() -> io::Result<()> {
    println!("timing, {}: best of {}, in ns for one call", bench::other_side(), BEST_OF * ROUNDS);
    let mut table = Table::default();
    for _ in 0..ROUNDS {
        records(&mut table);
        delivery(&mut table);
        steps(&mut table);
        votes(&mut table);
    }
    print!("{table}");
    journal::run()
}

/// The best times of the two sides for each row.
#[derive(Default)]
struct Table {
    rows: Vec<(String, f64, f64)>,
}

impl Table {
    fn note(&mut self, what: &str, verified: f64, model: f64) {
        match self.rows.iter_mut().find(|row| row.0 == what) {
            Some(row) => *row = (what.to_owned(), row.1.min(verified), row.2.min(model)),
            None => self.rows.push((what.to_owned(), verified, model)),
        }
    }
}

impl fmt::Display for Table {
    fn fmt(&self, f: &mut fmt::Formatter<'_>) -> fmt::Result {
        writeln!(f, "{:<50} {:>9} {:>9} {:>7}", "", "verified", "model", "ratio")?;
        for (what, verified, model) in &self.rows {
            writeln!(f, "{what:<50} {verified:>9.1} {model:>9.1} {:>7.2}", verified / model)?;
        }
        Ok(())
    }
}

/// The best time of one call in ns, where `work` makes `calls` of them.
fn best(calls: usize, mut work: impl FnMut()) -> f64 {
    best_prepared(calls, || (), |()| work())
}

/// The same with a preparation that is not timed.
fn best_prepared<T>(calls: usize, prepare: impl Fn() -> T, mut work: impl FnMut(T)) -> f64 {
    let mut least = f64::INFINITY;
    for _ in 0..BEST_OF {
        let prepared = prepare();
        let start = Instant::now();
        work(prepared);
        least = least.min(start.elapsed().as_nanos() as f64);
    }
    least / calls as f64
}

fn request(process: u8, stamp: u64, operation: Operation) -> Request {
    Request { group: OWNER, process, variable: 4, timestamp: Timestamp(stamp), operation }
}

fn records(table: &mut Table) {
    let requests: Vec<Request> =
        (0..64).map(|i| request(1 + (i & 1) as u8, i, Operation::Write(i as u32))).collect();
    let messages: Vec<_> = (0..64).map(|i| QUERY.reply(1 + (i % 3) as u8, i)).collect();
    read_requests(table, &requests);
    read_messages(table, &messages);
    write_requests(table, &requests);
    write_messages(table, &messages);
}

/// Lets nobody leave a result out.
fn see<T>(result: &T) {
    black_box(result);
}

/// The best time of a call, made with each of the items in turn.
fn best_in_turn<T>(items: &[T], mut work: impl FnMut(&T)) -> f64 {
    best(CALLS, || {
        for item in items.iter().cycle().take(CALLS) {
            work(black_box(item));
        }
    })
}

fn read_requests(table: &mut Table, requests: &[Request]) {
    let bytes: Vec<_> = requests.iter().map(Request::encode).collect();
    let verified = best_in_turn(&bytes, |b| see(&ffi::read_request(K, GROUPS, b)));
    let model = best_in_turn(&bytes, |b| see(&record::read_request(K, GROUPS, b)));
    table.note("read a request", verified, model);
}

fn read_messages(table: &mut Table, messages: &[MessageFields]) {
    let bytes: Vec<_> = messages.iter().map(MessageFields::encode).collect();
    let verified = best_in_turn(&bytes, |b| see(&ffi::read_message(K, GROUPS, b)));
    let model = best_in_turn(&bytes, |b| see(&record::read_message(K, GROUPS, b)));
    table.note("read a message", verified, model);
}

fn write_requests(table: &mut Table, requests: &[Request]) {
    let mut place = [0; RECORD_SIZE];
    let fields: Vec<_> = requests.iter().map(Request::fields).collect();
    let structs: Vec<ffi::Request> = fields.iter().map(|f| (*f).into()).collect();
    let verified = best_in_turn(&structs, |r| {
        see(&ffi::write_request(K, GROUPS, *r, black_box(&mut place)));
    });
    let model = best_in_turn(&fields, |f| {
        see(&record::write_request(K, GROUPS, f, black_box(&mut place)));
    });
    table.note("write a request", verified, model);
}

fn write_messages(table: &mut Table, messages: &[MessageFields]) {
    let mut place = [0; RECORD_SIZE];
    let structs: Vec<ffi::Message> = messages.iter().map(|f| (*f).into()).collect();
    let verified = best_in_turn(&structs, |m| {
        see(&ffi::write_message(K, GROUPS, *m, black_box(&mut place)));
    });
    let model = best_in_turn(messages, |f| {
        see(&record::write_message(K, GROUPS, f, black_box(&mut place)));
    });
    table.note("write a message", verified, model);
}

fn new_model(u: ffi::Settings) -> Replica {
    Replica::make(u.k, u.groups, u.owner, u.delta, 1).expect("allowed settings")
}

fn new_by_value(u: ffi::Settings) -> by_value::Replica {
    by_value::Replica::make(u.k, u.groups, u.owner, u.delta, 1).expect("allowed settings")
}

/// Reads that fill the queues of the groups up to a last one, each a batch.
fn reads_up_to(last: u8) -> Vec<Request> {
    let mut reads = Vec::new();
    for group in 1..=last {
        let stamps = 0..QUEUE_LIMIT as u64;
        reads.extend(stamps.map(|i| Request { group, ..request(1, i, Operation::Read) }));
    }
    reads
}

/// Fills a new replica, again and again.
fn delivery(table: &mut Table) {
    let bytes: Vec<_> = reads_up_to(GROUP_LIMIT).iter().map(Request::encode).collect();
    let rounds = CALLS / bytes.len();
    let calls = rounds * bytes.len();
    let verified = best(calls, || (0..rounds).for_each(|_| fill_verified(&bytes)));
    let by_reference = best(calls, || (0..rounds).for_each(|_| fill_model(&bytes)));
    let by_value = best(calls, || (0..rounds).for_each(|_| fill_by_value(&bytes)));
    table.note("deliver (model: &mut)", verified, by_reference);
    table.note("deliver (model: by value)", verified, by_value);
}

fn fill_verified(bytes: &[[u8; RECORD_SIZE]]) {
    let mut replica = ffi::make(ALL_GROUPS, 1).replica;
    for request in bytes {
        let found = ffi::deliver(replica, black_box(request), ffi::LocalTime(100));
        replica = found.replica;
        see(&found.refusal);
    }
    see(&replica);
}

fn fill_model(bytes: &[[u8; RECORD_SIZE]]) {
    let mut replica = new_model(ALL_GROUPS);
    for request in bytes {
        see(&replica.deliver(black_box(request), LocalTime(100)));
    }
    see(&replica);
}

fn fill_by_value(bytes: &[[u8; RECORD_SIZE]]) {
    let mut replica = new_by_value(ALL_GROUPS);
    for request in bytes {
        let (next, result) = replica.deliver(black_box(request), LocalTime(100));
        replica = next;
        see(&result);
    }
    see(&replica);
}

fn steps(table: &mut Table) {
    let one_queue = reads_up_to(OWNER);
    let all_queues = reads_up_to(GROUP_LIMIT);
    let one_batch: Vec<Request> = (0..16).map(|_| request(1, 10, Operation::Read)).collect();
    let writes: Vec<Request> =
        (1..=K_LIMIT + 1).map(|process| request(process, 10, Operation::Write(7))).collect();
    step(table, "step, nothing pending", SETTINGS, &[], 106);
    step(table, "step, 16 pending, none stable", SETTINGS, &one_queue, 105);
    step(table, "step, one batch of 16 reads", SETTINGS, &one_batch, 106);
    step(table, "step, one group of 16 batches of one read", SETTINGS, &one_queue, 106);
    step(table, "step, 64 batches of one read", ALL_GROUPS, &all_queues, 106);
    step(table, "step, a batch of k + 1 unanimous writes", ALL_PROCESSES, &writes, 106);
}

/// A step of replicas that got the requests at 100.
fn step(table: &mut Table, what: &str, u: ffi::Settings, requests: &[Request], at: u64) {
    let mut model = new_model(u);
    let mut fixed = new_by_value(u);
    for request in requests {
        model.deliver(&request.encode(), LocalTime(100)).expect("an allowed delivery");
        fixed = fixed.deliver(&request.encode(), LocalTime(100)).0;
    }
    let verified = step_verified(to_replica(&model), at);
    let by_reference = step_model(&model, at);
    let by_value = step_by_value(fixed, at);
    table.note(&format!("{what} (&mut)"), verified, by_reference);
    table.note(&format!("{what} (value)"), verified, by_value);
}

fn step_verified(replica: ffi::Replica, at: u64) -> f64 {
    let mut output = [0; OUTPUT_SIZE];
    let copies = || vec![replica; COPIES];
    best_prepared(COPIES, copies, |mut copies| {
        for copy in &mut copies {
            let found = ffi::step(*copy, ffi::LocalTime(black_box(at)), &mut output);
            *copy = found.replica;
            see(&found.count);
        }
        see(&output);
    })
}

fn step_model(replica: &Replica, at: u64) -> f64 {
    let mut output = [0; OUTPUT_SIZE];
    let copies = || vec![replica.clone(); COPIES];
    best_prepared(COPIES, copies, |mut copies| {
        for copy in &mut copies {
            see(&copy.step(LocalTime(black_box(at)), &mut output));
        }
        see(&output);
    })
}

fn step_by_value(replica: by_value::Replica, at: u64) -> f64 {
    let mut output = [0; OUTPUT_SIZE];
    let copies = || vec![replica; COPIES];
    best_prepared(COPIES, copies, |mut copies| {
        for copy in &mut copies {
            let (next, result) = copy.step(LocalTime(black_box(at)), &mut output);
            *copy = next;
            see(&result);
        }
        see(&output);
    })
}

/// The best time of a call over a list of messages, which is made fewer times.
fn best_over_list(mut work: impl FnMut()) -> f64 {
    let calls = CALLS / 10;
    best(calls, || (0..calls).for_each(|_| work()))
}

/// A vote and a halt count over 64 messages.
fn votes(table: &mut Table) {
    let messages: Vec<_> = (0..LIST_LIMIT).map(|i| QUERY.reply(1 + (i % 3) as u8, 7)).collect();
    let list = to_list(&messages, MessageFields::default());
    let fixed: [MessageFields; LIST_LIMIT] = std::array::from_fn(|i| messages[i]);
    let verified = best_over_list(|| {
        see(&ffi::vote(K, GROUPS, QUERY.into(), *black_box(&list)));
    });
    let by_reference = best_over_list(|| see(&vote(K, GROUPS, &QUERY, black_box(&messages))));
    let by_value = best_over_list(|| see(&vote_by_value(&QUERY, *black_box(&fixed))));
    table.note("vote over 64 messages (&)", verified, by_reference);
    table.note("vote over 64 messages (value)", verified, by_value);
    halts(table, &messages);
}

#[inline(never)]
fn vote_by_value(query: &Query, list: [MessageFields; LIST_LIMIT]) -> Result<Election, Refusal> {
    vote(K, GROUPS, query, black_box(&list))
}

fn halts(table: &mut Table, replies: &[MessageFields]) {
    let halt = |m: &MessageFields| MessageFields { kind: HALT, variable: 0, value: 0, ..*m };
    let messages: Vec<_> = replies.iter().map(halt).collect();
    let list = to_list(&messages, MessageFields::default());
    let verified = best_over_list(|| {
        see(&ffi::count_halts(K, GROUPS, OWNER, 1, *black_box(&list)));
    });
    let model = best_over_list(|| {
        see(&count_halts(K, GROUPS, OWNER, 1, black_box(&messages)));
    });
    table.note("halt count over 64 messages", verified, model);
}
