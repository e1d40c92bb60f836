//! Writes the journals of crates/journal/data into a folder, one file each:
//! `journals FOLDER`. What each shows stands above it.

use std::path::Path;
use std::{env, fs, io};

use bench::model::journal::{delivery_entry, setup_entry, step_entry, ENTRY_SIZE};
use bench::model::record::{RequestFields, READ, WRITE};
use bench::model::{Timestamp, RECORD_SIZE, TIME_LIMIT};
use bench::random::Random;

type Entry = [u8; ENTRY_SIZE];
type Request = [u8; RECORD_SIZE];

const LAST_TIME: u64 = TIME_LIMIT.0;

fn request(kind: u8, group: u8, process: u8, variable: u16, stamp: u64, value: u32) -> Request {
    let timestamp = Timestamp(stamp);
    RequestFields { kind, group, process, variable, timestamp, value }.encode()
}

/// A read by group 1.
fn read(process: u8, variable: u16, stamp: u64) -> Request {
    request(READ, 1, process, variable, stamp, 0)
}

/// A write by group 1.
fn write(process: u8, variable: u16, stamp: u64, value: u32) -> Request {
    request(WRITE, 1, process, variable, stamp, value)
}

/// The bytes with one of them changed.
fn with<const N: usize>(mut bytes: [u8; N], at: usize, byte: u8) -> [u8; N] {
    bytes[at] = byte;
    bytes
}

/// Requests delivered to a card at one time.
fn all(card: u8, at: u64, requests: &[Request]) -> Vec<Entry> {
    requests.iter().map(|request| delivery_entry(card, at, request)).collect()
}

/// A unit with k = 1, N = 2, owner 1, δ = 5, as in document 01's examples.
fn example(entries: &[Entry]) -> Vec<u8> {
    [&[setup_entry(1, 2, 1, 5)], entries].concat().concat()
}

/// Requests delivered to card 1 at 100, and a turn of it at 106.
fn handled(requests: &[Request]) -> Vec<u8> {
    example(&[all(1, 100, requests), vec![step_entry(1, 106)]].concat())
}

fn whole_run() -> Vec<u8> {
    [
        setup_entry(0, 1, 1, 5),
        delivery_entry(1, 100, &write(1, 3, 50, 9)),
        delivery_entry(1, 102, &read(1, 3, 51)),
        step_entry(1, 105),
        step_entry(1, 106),
        step_entry(1, 108),
    ]
    .concat()
}

fn main() -> io::Result<()> {
    let Some(folder) = env::args_os().nth(1) else {
        eprintln!("usage: journals FOLDER");
        std::process::exit(64);
    };
    let folder = Path::new(&folder);
    let refused = [refused_first(), refused_requests(), refused_times(), refused_records()];
    let units = [examples(), units(), runs(), guests(), ends()];
    let others = [plain(), queues(), random(), long()];
    for (name, bytes) in [refused.concat(), units.concat(), others.concat()].concat() {
        fs::write(folder.join(name), bytes)?;
    }
    Ok(())
}

type Journals = Vec<(&'static str, Vec<u8>)>;

fn plain() -> Journals {
    vec![
        // Document 01's whole run.
        ("whole-run", whole_run()),
        // Nothing is printed.
        ("empty", vec![]),
        // A part of a first record, and of a last one: 18.
        ("partial-first", vec![1]),
        ("partial-last", [&whole_run()[..], &step_entry(1, 109)[..39]].concat()),
    ]
}

/// A first record that is refused, and a whole run behind it: only the refusal is printed.
fn refused_first() -> Journals {
    let first = |entry: Entry| [&entry[..], &whole_run()].concat();
    vec![
        // k = 4; N = 0; N = 5; owner 0; owner past N; δ = 1,000,001.
        ("refused-first-01", first(setup_entry(4, 1, 1, 5))),
        ("refused-first-02", first(setup_entry(0, 0, 0, 5))),
        ("refused-first-02-above", first(setup_entry(0, 5, 1, 5))),
        ("refused-first-03", first(setup_entry(0, 1, 0, 5))),
        ("refused-first-03-above", first(setup_entry(0, 2, 3, 5))),
        ("refused-first-04", first(setup_entry(0, 1, 1, 1_000_001))),
        // A storage card in a setup.
        ("refused-first-05", first(with(setup_entry(0, 1, 1, 5), 1, 1))),
        // 39 bytes.
        ("refused-first-18", setup_entry(0, 1, 1, 5)[..39].to_vec()),
        // A delivery, a turn, and a kind that there is not.
        ("refused-first-19", first(delivery_entry(1, 100, &read(1, 3, 51)))),
        ("refused-first-19-turn", first(step_entry(1, 100))),
        ("refused-first-19-zero", first([0; ENTRY_SIZE])),
        // Byte 2; the first and the last byte behind the owner.
        ("refused-first-20", first(with(setup_entry(0, 1, 1, 5), 2, 1))),
        ("refused-first-20-at-19", first(with(setup_entry(0, 1, 1, 5), 19, 1))),
        ("refused-first-20-at-39", first(with(setup_entry(0, 1, 1, 5), 39, 1))),
        // k = 4, a storage card and a byte that must be zero: the questions of the record come first.
        ("refused-first-order", first(with(with(setup_entry(4, 1, 1, 5), 1, 1), 2, 1))),
    ]
}

/// A unit in which later records are refused; the last record is a turn that shows that nothing
/// changed.
fn unchanged(entries: &[Entry]) -> Vec<u8> {
    example(&[entries, &[step_entry(1, LAST_TIME)]].concat())
}

/// Requests that are refused, all of a journal for one reason.
fn refused_requests() -> Journals {
    let requests = |list: &[Request]| unchanged(&all(1, 100, list));
    let spoiled = |places: &[usize]| -> Vec<Request> {
        places.iter().map(|&at| with(read(1, 3, 51), at, 1)).collect()
    };
    vec![
        // Kinds 0, 3, 4 and 255.
        ("no-07", requests(&[0, 3, 4, 255].map(|kind| request(kind, 1, 1, 3, 51, 0)))),
        // Groups 0 and 3 of two; program cards 0 and 3 of two.
        ("no-08", requests(&[0, 3].map(|group| request(READ, group, 1, 3, 51, 0)))),
        ("no-09", requests(&[0, 3].map(|process| read(process, 3, 51)))),
        // A write of variable 0; variable 256. A read of variable 0 is accepted.
        (
            "no-10",
            requests(&[write(1, 0, 51, 9), write(1, 256, 51, 9), read(1, 256, 51), read(1, 0, 52)]),
        ),
        // Each byte outside the value that must be zero, then each byte of a read's value.
        ("no-21", requests(&spoiled(&[3, 6, 7, 20, 21, 22, 23]))),
        ("no-22", requests(&spoiled(&[16, 17, 18, 19]))),
    ]
}

/// Times that are refused.
fn refused_times() -> Journals {
    let at = |time, stamp| delivery_entry(1, time, &read(1, 3, stamp));
    // Past 2^62, delivery and turn; at 2^62 both are accepted, and the next turn is not ripe.
    let too_late = [
        at(LAST_TIME + 1, 51),
        at(u64::MAX, 51),
        step_entry(1, LAST_TIME + 1),
        step_entry(1, u64::MAX),
        at(LAST_TIME, 51),
    ];
    // Below the last accepted reading, of a delivery and of a turn; an equal one is accepted, a
    // refused one does not count, and each card has its own.
    let backwards = [
        at(100, 51),
        at(99, 51),
        step_entry(1, 99),
        at(100, 51),
        step_entry(1, 103),
        at(102, 52),
        step_entry(2, 1),
        step_entry(1, 103),
    ];
    vec![("no-12", unchanged(&too_late)), ("no-13", unchanged(&backwards))]
}

/// A read of variable 3 by the first program card of a group.
fn read_of(group: u8, stamp: u64) -> Request {
    request(READ, group, 1, 3, stamp, 0)
}

/// Deliveries without room: each group has a shelf of sixteen.
fn queues() -> Journals {
    let at = |time, stamp| delivery_entry(1, time, &read(1, 3, stamp));
    let mut full = all(1, 100, &[read(1, 3, 51); 17]);
    full.extend([step_entry(1, 106), at(107, 52)]);
    // Without room, a request that is wrong gets 21 or 22 whatever its time; one that is right gets
    // 12, 13 or 14 by its time.
    let mut ordered = all(1, 100, &[read(1, 3, 51); 16]);
    for place in [23, 19] {
        let wrong = with(read(1, 3, 51), place, 1);
        ordered.extend([LAST_TIME + 1, 99, 100].map(|time| delivery_entry(1, time, &wrong)));
    }
    ordered.extend([LAST_TIME + 1, 99, 100].map(|time| at(time, 51)));
    vec![
        // "Also run": the 16th delivery is accepted, the 17th not; a turn makes room again.
        ("no-14", unchanged(&full)),
        ("no-14-in-order", unchanged(&ordered)),
        ("no-14-busy-guest", unchanged(&busy_guest())),
        ("no-14-four-groups", four_full_groups()),
        ("no-14-freed-place", unchanged(&freed_place())),
    ]
}

/// A guest sends more than its shelf holds, before and after the owner's requests and after a turn
/// that serves the owner alone, for the guest's came later. The owner is never turned away.
fn busy_guest() -> Vec<Entry> {
    let guests: Vec<Request> = (1..=17).map(|stamp| read_of(2, stamp)).collect();
    let owners = [write(1, 3, 10, 7), write(2, 3, 10, 7), read(1, 3, 11)];
    let mut list = all(1, 100, &owners);
    list.extend(all(1, 103, &guests));
    list.extend(all(1, 104, &[read(2, 3, 20), read_of(2, 20), read(1, 3, 21)]));
    list.extend([step_entry(1, 106), delivery_entry(1, 106, &read_of(2, 20))]);
    list.extend(all(1, 107, &[read(2, 3, 30), read_of(2, 20)]));
    list
}

/// Sixteen requests of each of four groups are accepted, one of each at a time, and a 17th of each
/// is not.
fn four_full_groups() -> Vec<u8> {
    let mut list = vec![setup_entry(0, 4, 3, 5)];
    for stamp in 1..=17 {
        list.extend(all(1, 100, &[4, 3, 2, 1].map(|group| read_of(group, stamp))));
    }
    list.push(step_entry(1, 106));
    list.concat()
}

/// A turn handles one head, of two of the sixteen: two more are accepted, and a third is not. The
/// other group's shelf, on which nothing was ripe, is as full as before.
fn freed_place() -> Vec<Entry> {
    let rest: Vec<Request> = (2..=15).map(|stamp| read(1, 3, stamp)).collect();
    let guests: Vec<Request> = (1..=16).map(|stamp| read_of(2, stamp)).collect();
    let mut list = all(1, 100, &[read(1, 3, 1), read(2, 3, 1)]);
    list.extend([all(1, 102, &rest), all(1, 102, &guests)].concat());
    list.extend(all(1, 103, &[read(1, 3, 20), read_of(2, 20)]));
    list.push(step_entry(1, 106));
    list.extend(all(1, 106, &[read(1, 3, 20), read_of(2, 20), read(1, 3, 21), read(1, 3, 22)]));
    list
}

/// Records of the journal that are refused, all for one reason but for the last journal.
fn refused_records() -> Journals {
    let turn = step_entry(1, 100);
    let delivery = delivery_entry(1, 100, &read(1, 3, 51));
    let unused = (2..40).filter(|at| !(8..16).contains(at));
    let kinds = [0, 4, 255].map(|kind| with(turn, 0, kind));
    vec![
        // Cards 0, 4 and 255 of three.
        ("no-05", unchanged(&[0, 4, 255].map(|card| with(delivery, 1, card)))),
        ("no-05-turn", unchanged(&[0, 4, 255].map(|card| with(turn, 1, card)))),
        // A setup in the middle, and kinds that there are not.
        ("no-19", unchanged(&[&[setup_entry(1, 2, 1, 5)], &kinds[..]].concat())),
        // Bytes 2–7 of a delivery.
        ("no-20", unchanged(&[2, 3, 4, 5, 6, 7].map(|at| with(delivery, at, 1)))),
        // Bytes 2–7 and 16–39 of a turn.
        ("no-20-turn", unchanged(&unused.map(|at| with(turn, at, 1)).collect::<Vec<_>>())),
        // Everything is wrong; then one thing after the other is put right, in the order of the
        // questions: 19, 5, 20, 7, 8, 9, 10, 21, 22, 12, 13.
        ("questions-in-order", unchanged(&put_right())),
    ]
}

fn put_right() -> Vec<Entry> {
    let mut request = request(0, 0, 0, 256, 51, 9);
    request[6] = 1;
    let mut entry = with(with(delivery_entry(9, LAST_TIME + 1, &request), 0, 4), 2, 1);
    let right: [(usize, u8); 8] =
        [(0, 2), (1, 1), (2, 0), (16, READ), (17, 1), (18, 1), (20, 0), (22, 0)];
    let mut list = vec![delivery_entry(1, 100, &read(1, 3, 51)), entry];
    for (at, byte) in right {
        entry = with(entry, at, byte);
        list.push(entry);
    }
    // The value of a read, then a time that is too late, then one that is too early.
    entry[32..36].fill(0);
    list.push(entry);
    list.push(delivery_entry(1, 99, &read(1, 0, 51)));
    list
}

/// Document 01's examples 1 to 11, on card 1.
fn examples() -> Journals {
    let both = [write(1, 4, 10, 7), write(2, 4, 10, 7)];
    let at = |time, request| delivery_entry(1, time, &request);
    vec![
        ("example-01", example(&[at(100, read(1, 4, 10)), step_entry(1, 105), step_entry(1, 106)])),
        ("example-02", handled(&[both[0], both[1], read(1, 4, 11)])),
        ("example-03", handled(&[both[0], write(2, 4, 10, 8)])),
        ("example-04", handled(&[both[0]])),
        ("example-05", handled(&[both[0], both[0]])),
        ("example-06", handled(&[both[0], both[0], both[1]])),
        ("example-07", handled(&[both[0], read(1, 4, 10), both[1]])),
        ("example-08", handled(&[read(1, 4, 10)])),
        ("example-09", handled(&[1, 2].map(|process| request(WRITE, 2, process, 4, 10, 7)))),
        (
            "example-10",
            handled(&[
                both[0],
                write(1, 4, 20, 7),
                write(2, 4, 20, 7),
                read(1, 0, 30),
                read(1, 4, 31),
            ]),
        ),
        (
            "example-11",
            example(&[
                at(100, read(1, 4, 20)),
                at(104, read(1, 4, 10)),
                step_entry(1, 106),
                step_entry(1, 110),
            ]),
        ),
    ]
}

fn units() -> Journals {
    let write_by = |group, process| request(WRITE, group, process, 9, 10, 5);
    // k = 3: all seven cards perform one write and answer a read; card 7 misses a write and fails.
    let mut seven = vec![setup_entry(3, 1, 1, 0)];
    for card in 1..=7 {
        let writes = if card == 7 { 1..=3 } else { 1..=4 };
        seven.extend(writes.map(|process| delivery_entry(card, 10, &write_by(1, process))));
        seven.push(delivery_entry(card, 11, &read(2, 9, 11)));
        seven.push(step_entry(card, 12));
    }
    // k = 2: four of five cards perform one write, and answer the last program card's read of it; card
    // 5, the last, gets another value from that program card and fails.
    let mut five = vec![setup_entry(2, 1, 1, 0)];
    for card in 1..=5 {
        let value = if card == 5 { 6 } else { 5 };
        five.extend(all(card, 10, &[write_by(1, 1), write_by(1, 2), write(3, 9, 10, value)]));
        five.push(delivery_entry(card, 11, &read(3, 9, 11)));
        five.push(step_entry(card, 12));
    }
    // N = 4, owner 2: the groups are visited from 1 to 4; writes of guests do nothing.
    let mut four = vec![setup_entry(0, 4, 2, 0)];
    for group in [4, 3, 2, 1] {
        four.push(delivery_entry(1, 10, &write_by(group, 1)));
        four.push(delivery_entry(1, 10, &request(READ, group, 1, 9, 11, 0)));
    }
    four.push(step_entry(1, 11));
    // k = 3: a dissent, four halts to the owner's program cards, ascending.
    let mut freeze = vec![setup_entry(3, 2, 2, 0)];
    for (process, value) in [(4, 5), (3, 5), (2, 5), (1, 6)] {
        freeze.push(delivery_entry(5, 10, &request(WRITE, 2, process, 9, 10, value)));
    }
    freeze.push(step_entry(5, 11));
    // 67 messages in one turn: 48 replies to guests and 15 to the owner, then a freeze with four
    // halts.
    let mut most = vec![setup_entry(3, 4, 4, 0)];
    for stamp in 1..=15 {
        most.extend(all(1, 10, &[1, 2, 3, 4].map(|group| request(READ, group, 1, 9, stamp, 0))));
    }
    most.extend(all(1, 10, &[1, 2, 3].map(|group| request(READ, group, 1, 9, 16, 0))));
    most.push(delivery_entry(1, 10, &request(WRITE, 4, 1, 9, 16, 5)));
    most.push(step_entry(1, 11));
    vec![
        ("seven-cards", seven.concat()),
        ("five-cards", five.concat()),
        ("four-groups", four.concat()),
        ("freeze-four-halts", freeze.concat()),
        ("most-messages", most.concat()),
    ]
}

/// Longer runs of a unit as in document 01's examples.
fn runs() -> Journals {
    let both =
        |variable, stamp, value| [1, 2].map(|process| write(process, variable, stamp, value));
    let guest = |process, variable, stamp| request(READ, 2, process, variable, stamp, 0);
    // Six unanimous writes, among them a value again, a 0 and a value that was there before, and a read
    // of what each left. Card 1 gets them one after the other, with a turn for each; card 2 three at a
    // time, the first three at reading 0, the last first, with a turn for each three.
    let values = [(4, 7), (4, 7), (4, 0), (3, 5), (4, 9), (4, 7)];
    let mut writes = Vec::new();
    for (stamp, (variable, value)) in (10..).step_by(10).zip(values) {
        writes.push([&both(variable, stamp, value)[..], &[read(1, variable, stamp + 1)]].concat());
    }
    let mut six = Vec::new();
    for (time, requests) in (100..).step_by(10).zip(&writes) {
        six.extend(all(1, time, requests));
        six.push(step_entry(1, time + 6));
    }
    for (time, three) in (0..).step_by(6).zip(writes.chunks_mut(3)) {
        three.reverse();
        six.extend(all(2, time, &three.concat()));
        six.push(step_entry(2, time + 6));
    }
    // The first and the last variable that can be written, and their neighbours, which stay 0.
    let (last, first) = (both(255, 10, 7), both(1, 20, 8));
    let reads = [255, 254, 0, 1, 2].map(|variable| read(1, variable, 30));
    // A dissent; then reads of the owner and of a guest, two of each in one group, the program cards
    // in falling order, of variable 0 and of what was written before; a write among reads, which
    // halts nobody again.
    let dissent = [write(1, 4, 20, 8), write(2, 4, 20, 9)];
    let owners = [read(2, 0, 30), read(1, 4, 30), read(1, 4, 40), write(2, 4, 40, 7)];
    let guests = [guest(2, 4, 5), guest(1, 0, 5)];
    let mut after = [all(1, 100, &both(4, 10, 7)), all(1, 101, &dissent)].concat();
    after.push(step_entry(1, 107));
    after.extend([all(1, 108, &owners), all(1, 108, &guests)].concat());
    after.push(step_entry(1, 114));
    // Requests at first + δ, behind a turn at that very reading. Card 1 has the read first, and the
    // writes that come before it δ later; card 2 has the second write δ after the first. On card 3 it
    // comes one later, against the arrival rule, and behind a turn: the card fails.
    let [one, two] = both(4, 10, 7);
    let mut edge = vec![delivery_entry(1, 100, &read(1, 4, 20)), step_entry(1, 105)];
    edge.extend(all(1, 105, &[one, two]));
    edge.extend([110, 111].map(|time| step_entry(1, time)));
    for (card, late) in [(2, 105), (3, 106)] {
        edge.extend([delivery_entry(card, 100, &one), step_entry(card, late)]);
        edge.extend(all(card, late, &[two, read(1, 4, 20)]));
        edge.extend([late + 5, late + 6].map(|time| step_entry(card, time)));
    }
    vec![
        ("six-writes", example(&six)),
        ("ends-of-variables", handled(&[&last[..], &first, &reads].concat())),
        ("reads-after-freeze", example(&after)),
        ("arrival-at-delta", example(&edge)),
    ]
}

/// Two journals that differ in their guests alone, of a unit with k = 1, N = 3, owner 2 and δ = 5.
/// Each of the three cards gets the same: the owner writes and reads it back; it fills its shelf; it
/// dissents, and reads on. A guest is visited before it and one after it.
fn guests() -> Journals {
    let acts =
        |card| [guests_at_writes(card), guests_at_full_queues(card), guests_at_dissent(card)];
    let cards: Vec<Pair> = (1..=3).flat_map(|card| acts(card).concat()).collect();
    let journal = |which: usize| {
        let entries: Vec<Entry> = cards.iter().map(|pair| pair[which]).collect();
        [&[setup_entry(1, 3, 2, 5)], &entries[..]].concat().concat()
    };
    vec![("guests-quiet", journal(0)), ("guests-loud", journal(1))]
}

/// A record of the quiet journal, and the one at its place in the loud journal.
type Pair = [Entry; 2];

/// What is no request, and refused with 7.
const NOTHING: Request = [0; RECORD_SIZE];
const NOISE: Request = [255; RECORD_SIZE];

/// A guest's delivery, or what is none: the time of the quiet one, of the loud one, and their bytes.
fn guest(card: u8, times: [u64; 2], quiet: Request, loud: Request) -> Pair {
    [delivery_entry(card, times[0], &quiet), delivery_entry(card, times[1], &loud)]
}

fn owner(card: u8, at: u64, kind: u8, process: u8, variable: u16, stamp: u64, value: u32) -> Pair {
    [delivery_entry(card, at, &request(kind, 2, process, variable, stamp, value)); 2]
}

/// The owner writes unanimously, reads it back, and is refused with 10. The loud guests write with
/// its stamp: group 1 unanimously, group 3 not. A read of group 3 is handled at this turn in the
/// quiet one alone, for in the loud one it comes later.
fn guests_at_writes(card: u8) -> Vec<Pair> {
    let write = |group, process, value| request(WRITE, group, process, 4, 10, value);
    let read = |group, process, stamp| request(READ, group, process, 4, stamp, 0);
    vec![
        guest(card, [100, 100], read(1, 1, 1), write(1, 1, 99)),
        owner(card, 100, WRITE, 1, 4, 10, 7),
        guest(card, [100, 101], NOTHING, write(1, 2, 99)),
        owner(card, 101, WRITE, 2, 4, 10, 7),
        guest(card, [101, 102], NOTHING, write(3, 1, 1)),
        owner(card, 102, READ, 1, 4, 11, 0),
        guest(card, [103, 102], read(3, 2, 10), write(3, 2, 2)),
        owner(card, 103, WRITE, 1, 0, 12, 9),
        guest(card, [103, 105], NOTHING, NOISE),
        guest(card, [104, 106], read(3, 1, 12), read(3, 1, 12)),
        [step_entry(card, 110); 2],
    ]
}

/// Seventeen reads of the owner, the last of which gets 14. The loud guest does the same.
fn guests_at_full_queues(card: u8) -> Vec<Pair> {
    let mut list = Vec::new();
    for (place, stamp) in (0..17).zip(40..) {
        let process = 1 + place % 2;
        let loud = request(READ, 1, process, 4, stamp, 0);
        list.push(guest(card, [120, 120], NOTHING, loud));
        list.push(owner(card, 120, READ, process, 4, 20 + u64::from(place / 2), 0));
    }
    list.push([step_entry(card, 126); 2]);
    list
}

/// The owner dissents, and reads variable 0 and what it wrote. The loud guests dissent, too, and write
/// what the owner writes, with its stamp.
fn guests_at_dissent(card: u8) -> Vec<Pair> {
    let read = |group, stamp| request(READ, group, 1, 0, stamp, 0);
    let write =
        |group, process, variable, value| request(WRITE, group, process, variable, 50, value);
    vec![
        guest(card, [130, 130], read(1, 50), write(1, 1, 9, 5)),
        owner(card, 130, WRITE, 1, 4, 50, 8),
        guest(card, [131, 130], NOTHING, write(1, 2, 9, 6)),
        owner(card, 131, WRITE, 2, 4, 50, 9),
        guest(card, [131, 131], NOTHING, write(3, 1, 4, 8)),
        owner(card, 132, READ, 2, 0, 51, 0),
        owner(card, 132, READ, 1, 4, 52, 0),
        guest(card, [132, 133], read(3, 60), read(3, 60)),
        [step_entry(card, 140); 2],
    ]
}

/// Stamps, values, variables, readings and δ at their upper ends.
fn ends() -> Journals {
    let first = LAST_TIME - 1_000_001;
    let write = |process| request(WRITE, 4, process, 255, u64::MAX - 1, u32::MAX);
    let mut list = vec![
        setup_entry(3, 4, 4, 1_000_000),
        delivery_entry(7, first, &request(READ, 4, 4, 255, u64::MAX, 0)),
    ];
    list.extend((1..=4).map(|process| delivery_entry(7, first, &write(process))));
    list.extend([step_entry(7, LAST_TIME - 1), step_entry(7, LAST_TIME)]);
    vec![("upper-ends", list.concat())]
}

fn random() -> Journals {
    let mut random = Random::new(1984);
    let mut bytes = |count| (0..count).map(|_| random.bits() as u8).collect::<Vec<u8>>();
    let unset = bytes(1001);
    let set = [&setup_entry(1, 2, 1, 5)[..], &bytes(2017)].concat();
    // Requests that are mostly right, a few timestamps, and readings that mostly rise.
    let mut mixed = vec![setup_entry(1, 2, 1, 5)];
    let mut time = 0;
    for _ in 0..400 {
        time += random.below(4);
        let at = if random.below(20) == 0 { time / 2 } else { time };
        let card = random.small(1, 3);
        mixed.push(if random.below(6) == 0 {
            step_entry(card, at)
        } else {
            let kind = random.small(1, 2);
            let value = if kind == WRITE { random.below(2) as u32 } else { 0 };
            let (group, process) = (random.small(1, 2), random.small(1, 2));
            let stamp = time / 8 + random.below(3);
            delivery_entry(
                card,
                at,
                &request(kind, group, process, random.below(4) as u16, stamp, value),
            )
        });
    }
    vec![
        // Bytes of no pattern, from the start and behind a setup.
        ("random-bytes", unset),
        ("random-after-setup", set),
        ("random-unit", mixed.concat()),
    ]
}

/// Journals that fill the program's blocks of 64,000 bytes of input and 65,536 of output: just one
/// block of input, and more than one of each.
fn long() -> Journals {
    let mut one = vec![setup_entry(0, 1, 1, 5)];
    one.extend((1..1600).map(|time| step_entry(1, time)));
    let mut two = vec![setup_entry(3, 4, 4, 5)];
    for step in 0..120 {
        let time = 10 * step + 1;
        two.extend((0..15).map(|i| {
            delivery_entry(7, time, &request(READ, 4, 4, 255, u64::MAX - 2000 + 15 * step + i, 0))
        }));
        two.push(step_entry(7, time + 6));
    }
    vec![("one-block", one.concat()), ("two-blocks", two.concat())]
}
