//! The examples and figures of document 01, those of the queues as document 02
//! has them.

use super::journal::{delivery_entry, play_bytes, setup_entry, step_entry};
use super::machine::Machine;
use super::record::{read_message, read_request, write_message, write_request};
use super::record::{Content, Message, MessageFields, Operation, Request, RequestFields};
use super::replica::Replica;
use super::vote::{count_halts, vote, Election, HaltCount, Query};
use super::{number_of, LocalTime, Refusal, Timestamp, OUTPUT_SIZE, QUEUE_LIMIT, TIME_LIMIT};

const OWNER: u8 = 1;
const GUEST: u8 = 2;

/// The replica of the examples: k=1, N=2, owner 1, delta=5.
fn example() -> Replica {
    Replica::make(1, 2, OWNER, 5, 1).expect("allowed settings")
}

fn write(group: u8, process: u8, stamp: u64, variable: u8, value: u32) -> Request {
    let operation = Operation::Write(value);
    Request { group, process, variable, timestamp: Timestamp(stamp), operation }
}

fn read(group: u8, process: u8, stamp: u64, variable: u8) -> Request {
    Request { group, process, variable, timestamp: Timestamp(stamp), operation: Operation::Read }
}

fn deliver(replica: &mut Replica, request: Request, at: u64) {
    replica.deliver(&request.encode(), LocalTime(at)).expect("an allowed delivery");
}

/// Delivers all at 100.
fn deliver_all(replica: &mut Replica, requests: &[Request]) {
    for request in requests {
        deliver(replica, *request, 100);
    }
}

fn step(replica: &mut Replica, at: u64) -> Vec<Message> {
    let mut output = [0xa5; OUTPUT_SIZE + 10];
    let count = replica.step(LocalTime(at), &mut output).expect("an allowed step");
    let (used, rest) = output.split_at(count * 24);
    assert!(rest.iter().all(|&byte| byte == 0xa5));
    used.chunks(24)
        .map(|record| replica.settings.read_message(record).expect("an allowed message"))
        .collect()
}

fn halts(stamp: u64) -> Vec<Message> {
    let halt = |process| Message {
        group: OWNER,
        process,
        replica: 1,
        timestamp: Timestamp(stamp),
        content: Content::Halt,
    };
    vec![halt(1), halt(2)]
}

fn reply_to(read: Request, value: u32) -> Message {
    Message {
        group: read.group,
        process: read.process,
        replica: 1,
        timestamp: read.timestamp,
        content: Content::Reply { variable: read.variable, value },
    }
}

/// Delivers at 100, steps at 106: the replica and its messages.
fn handled(requests: &[Request]) -> (Replica, Vec<Message>) {
    let mut replica = example();
    deliver_all(&mut replica, requests);
    let messages = step(&mut replica, 106);
    assert_eq!(replica.pending().count(), 0);
    (replica, messages)
}

fn freezes(requests: &[Request]) {
    let (replica, messages) = handled(requests);
    assert!(replica.failed());
    assert_eq!(replica.writes, 0);
    assert_eq!(messages, halts(10));
}

#[test]
fn example_1_stable_only_after_delta() {
    let mut replica = example();
    deliver_all(&mut replica, &[write(OWNER, 1, 10, 4, 7), write(OWNER, 2, 10, 4, 7)]);
    assert_eq!(step(&mut replica, 105), []);
    assert_eq!(replica.queue(OWNER).len(), 2);
    assert_eq!(step(&mut replica, 106), []);
    assert_eq!(replica.queue(OWNER).len(), 0);
    assert_eq!(replica.variables[4], 7);
}

#[test]
fn example_2_unanimous_write() {
    let (replica, messages) = handled(&[write(OWNER, 1, 10, 4, 7), write(OWNER, 2, 10, 4, 7)]);
    assert_eq!(replica.variables[4], 7);
    assert_eq!(replica.writes, 1);
    assert!(!replica.failed());
    assert_eq!(messages, []);
}

#[test]
fn example_3_two_values() {
    freezes(&[write(OWNER, 1, 10, 4, 7), write(OWNER, 2, 10, 4, 8)]);
}

#[test]
fn example_4_only_one_writes() {
    freezes(&[write(OWNER, 1, 10, 4, 7)]);
}

#[test]
fn example_5_one_writes_for_both() {
    freezes(&[write(OWNER, 1, 10, 4, 7), write(OWNER, 1, 10, 4, 7)]);
}

#[test]
fn example_6_a_repeat() {
    let (one, two) = (write(OWNER, 1, 10, 4, 7), write(OWNER, 2, 10, 4, 7));
    freezes(&[one, one, two]);
}

#[test]
fn example_7_a_read_among_writes() {
    let (one, two) = (write(OWNER, 1, 10, 4, 7), write(OWNER, 2, 10, 4, 7));
    freezes(&[one, read(OWNER, 1, 10, 4), two]);
}

#[test]
fn example_8_one_read() {
    let request = read(OWNER, 1, 10, 4);
    let (replica, messages) = handled(&[request]);
    assert!(!replica.failed());
    assert_eq!(messages, [reply_to(request, 0)]);
}

#[test]
fn example_9_a_guest_writes() {
    let (replica, messages) = handled(&[write(GUEST, 1, 10, 4, 7), write(GUEST, 2, 10, 4, 7)]);
    assert_eq!(replica.variables, [0; 256]);
    assert_eq!(replica.writes, 0);
    assert_eq!(messages, []);
}

#[test]
fn example_10_after_a_freeze() {
    let (mut replica, _) = handled(&[write(OWNER, 1, 10, 4, 7)]);
    deliver(&mut replica, write(OWNER, 1, 20, 4, 9), 110);
    deliver(&mut replica, write(OWNER, 2, 20, 4, 9), 110);
    let mark = read(GUEST, 1, 30, 0);
    deliver(&mut replica, mark, 110);
    assert_eq!(step(&mut replica, 120), [reply_to(mark, 1)]);
    assert_eq!((replica.variables[4], replica.writes), (0, 0));
}

#[test]
fn example_11_an_unstable_batch_holds_back_later_ones() {
    let mut replica = example();
    let (late, early) = (read(OWNER, 1, 20, 4), read(OWNER, 2, 10, 4));
    deliver(&mut replica, late, 100);
    deliver(&mut replica, early, 104);
    assert_eq!(step(&mut replica, 106), []);
    assert_eq!(step(&mut replica, 110), [reply_to(early, 0), reply_to(late, 0)]);
}

#[test]
fn example_12_votes() {
    let query = Query { group: OWNER, process: 1, variable: 4, timestamp: Timestamp(10) };
    let reply = |(replica, value)| {
        let content = Content::Reply { variable: 4, value };
        let timestamp = Timestamp(10);
        Message { group: OWNER, process: 1, replica, timestamp, content }.fields()
    };
    let list = [(1, 7), (2, 9), (3, 7)].map(reply);
    let election = Election { value: 7, agreed: 0b101, other: 0b010, silent: 0 };
    assert_eq!(vote(1, 2, &query, &list), Ok(election));
    let list = [(3, 9), (3, 9), (1, 7)].map(reply);
    assert_eq!(vote(1, 2, &query, &list), Err(Refusal::NoMajority));
}

#[test]
fn the_whole_run() {
    let journal = [
        setup_entry(0, 1, 1, 5),
        delivery_entry(1, 100, &write(1, 1, 50, 3, 9).encode()),
        delivery_entry(1, 102, &read(1, 1, 51, 3).encode()),
        step_entry(1, 105),
        step_entry(1, 106),
        step_entry(1, 108),
    ]
    .concat();
    assert_eq!(text(&journal), "reply 1 1 1 51 3 9\ncard 1 0 1\n");
}

fn text(journal: &[u8]) -> String {
    String::from_utf8(play_bytes(journal)).expect("plain text")
}

#[test]
fn journals_that_are_refused() {
    assert_eq!(text(&[]), "");
    assert_eq!(text(&[1]), "no 1 18\n");
    assert_eq!(text(&[step_entry(1, 1), step_entry(1, 2)].concat()), "no 1 19\n");
    assert_eq!(text(&setup_entry(4, 1, 1, 5)), "no 1 1\n");
    assert_eq!(text(&setup_entry(0, 5, 1, 5)), "no 1 2\n");
    assert_eq!(text(&setup_entry(0, 1, 2, 5)), "no 1 3\n");
    assert_eq!(text(&setup_entry(0, 1, 1, 1_000_001)), "no 1 4\n");
    let mut setup = setup_entry(0, 1, 1, 5);
    setup[19] = 1;
    assert_eq!(text(&setup), "no 1 20\n");
    setup[1] = 1;
    assert_eq!(text(&setup), "no 1 5\n");
}

#[test]
fn later_records_that_are_refused() {
    let setup = setup_entry(0, 1, 1, 5);
    let mut step = step_entry(1, 7);
    step[39] = 1;
    let mut journal = [setup, setup, step_entry(2, 7), step, step_entry(1, 7)].concat();
    journal.extend(delivery_entry(1, 6, &read(1, 1, 50, 3).encode()));
    journal.extend(delivery_entry(1, 7, &read(2, 1, 50, 3).encode()));
    journal.push(0);
    let expected = "no 2 19\nno 3 5\nno 4 20\nno 6 13\nno 7 8\nno 8 18\ncard 1 0 0\n";
    assert_eq!(text(&journal), expected);
}

/// Reads of a group until its queue is full.
fn fill(replica: &mut Replica, group: u8, at: u64) {
    for stamp in replica.queue(group).len()..QUEUE_LIMIT {
        deliver(replica, read(group, 1, stamp as u64, 4), at);
    }
}

/// Another request of the group gets 14, and nothing changes.
fn is_full(replica: &mut Replica, group: u8, at: u64) {
    let full = replica.clone();
    let refused = replica.deliver(&read(group, 1, 16, 4).encode(), LocalTime(at));
    assert_eq!(refused, Err(Refusal::PendingFull));
    assert_eq!(*replica, full);
}

#[test]
fn the_17th_delivery_of_a_group_is_refused() {
    let mut replica = example();
    fill(&mut replica, OWNER, 100);
    assert_eq!(replica.queue(OWNER).len(), 16);
    is_full(&mut replica, OWNER, 101);
}

#[test]
fn a_unit_of_one_group_has_sixteen_places() {
    let mut replica = Replica::make(0, 1, 1, 5, 1).expect("allowed settings");
    fill(&mut replica, 1, 100);
    assert_eq!(replica.queue(1).len(), 16);
    is_full(&mut replica, 1, 100);
}

#[test]
fn a_busy_guest_takes_no_place_of_the_owner() {
    let mut replica = example();
    fill(&mut replica, GUEST, 100);
    is_full(&mut replica, GUEST, 101);
    deliver(&mut replica, write(OWNER, 1, 10, 4, 7), 101);
    deliver(&mut replica, write(OWNER, 2, 10, 4, 7), 101);
    is_full(&mut replica, GUEST, 101);
    assert_eq!(step(&mut replica, 107).len(), 16);
    assert_eq!(replica.variables[4], 7);
}

#[test]
fn each_of_four_groups_has_sixteen_places() {
    let mut replica = Replica::make(0, 4, 3, 5, 1).expect("allowed settings");
    (1..=4).for_each(|group| fill(&mut replica, group, 100));
    assert_eq!(replica.pending().count(), 64);
    (1..=4).for_each(|group| is_full(&mut replica, group, 100));
}

#[test]
fn handling_frees_places_of_its_group_alone() {
    let mut replica = example();
    deliver(&mut replica, read(OWNER, 1, 0, 4), 100);
    fill(&mut replica, OWNER, 103);
    fill(&mut replica, GUEST, 103);
    assert_eq!(step(&mut replica, 106).len(), 1);
    deliver(&mut replica, read(OWNER, 1, 16, 4), 106);
    is_full(&mut replica, OWNER, 106);
    is_full(&mut replica, GUEST, 106);
}

#[test]
fn writing_variable_0_is_refused() {
    let mut replica = example();
    let request = write(OWNER, 1, 10, 0, 7);
    let refused = replica.deliver(&request.encode(), LocalTime(100));
    assert_eq!(refused, Err(Refusal::Variable));
    let written = write_request(1, 2, &request.fields(), &mut [0; 24]);
    assert_eq!(written, Err(Refusal::Variable));
}

#[test]
fn a_step_sends_at_most_67_messages() {
    let mut replica = Replica::make(3, 4, OWNER, 0, 7).expect("allowed settings");
    for stamp in 0..15 {
        (1..=4).for_each(|group| deliver(&mut replica, read(group, 4, stamp, 4), 0));
    }
    (2..=4).for_each(|group| deliver(&mut replica, read(group, 4, 15, 4), 0));
    deliver(&mut replica, write(OWNER, 1, 15, 4, 1), 0);
    assert_eq!(step(&mut replica, 1).len(), 67);
}

#[test]
fn times_and_room_of_a_step() {
    let mut replica = example();
    let mut short = [0; OUTPUT_SIZE - 1];
    let before = replica.clone();
    let late = LocalTime(TIME_LIMIT.0 + 1);
    assert_eq!(replica.step(late, &mut short), Err(Refusal::TimeTooLarge));
    assert_eq!(replica.step(TIME_LIMIT, &mut short), Err(Refusal::TooLittleRoom));
    assert_eq!(replica, before);
    assert_eq!(step(&mut replica, TIME_LIMIT.0), []);
    assert_eq!(replica.step(LocalTime(0), &mut short), Err(Refusal::TimeGoesBack));
    assert_eq!(replica.last, TIME_LIMIT);
}

#[test]
fn questions_of_making() {
    let refusal = |k, groups, owner, delta, number| {
        number_of(&Replica::make(k, groups, owner, delta, number))
    };
    assert_eq!(refusal(4, 0, 0, u64::MAX, 0), 1);
    assert_eq!(refusal(3, 0, 0, u64::MAX, 0), 2);
    assert_eq!(refusal(3, 4, 5, u64::MAX, 0), 3);
    assert_eq!(refusal(3, 4, 4, 1_000_001, 0), 4);
    assert_eq!(refusal(3, 4, 4, 1_000_000, 8), 5);
    assert_eq!(refusal(3, 4, 4, 1_000_000, 7), 0);
}

/// Document 02, A5: the last bytes to be mended, each with the number until then.
const SPARES_THEN_VALUE: [(usize, u8); 8] =
    [(20, 21), (21, 21), (22, 21), (23, 21), (16, 22), (17, 22), (18, 22), (19, 22)];

/// Mends the first spoiled question of a read, again and again.
#[test]
fn questions_of_requests_in_order() {
    let mut bytes = [9; 25];
    assert_eq!(number_of(&read_request(4, 0, &bytes)), 1);
    assert_eq!(number_of(&read_request(1, 0, &bytes)), 2);
    assert_eq!(number_of(&read_request(1, 2, &bytes)), 6);
    let mends: [(usize, u8, u8); 7] =
        [(0, 1, 7), (1, 2, 8), (2, 2, 9), (4, 0, 10), (3, 0, 21), (6, 0, 21), (7, 0, 21)];
    for (place, mend, refusal) in mends {
        assert_eq!(number_of(&read_request(1, 2, &bytes[..24])), refusal);
        bytes[place] = mend;
    }
    for (place, refusal) in SPARES_THEN_VALUE {
        assert_eq!(number_of(&read_request(1, 2, &bytes[..24])), refusal);
        bytes[place] = 0;
    }
    let request = read_request(1, 2, &bytes[..24]).expect("all mended");
    assert_eq!(request.encode(), bytes[..24]);
}

/// The same for a halt.
#[test]
fn questions_of_messages_in_order() {
    let mut bytes = [9; 24];
    let mends: [(usize, u8, u8); 8] = [
        (0, 4, 7),
        (1, 2, 8),
        (2, 2, 9),
        (3, 3, 5),
        (4, 0, 10),
        (5, 0, 10),
        (6, 0, 21),
        (7, 0, 21),
    ];
    for (place, mend, refusal) in mends {
        assert_eq!(number_of(&read_message(1, 2, &bytes)), refusal);
        bytes[place] = mend;
    }
    for (place, refusal) in SPARES_THEN_VALUE {
        assert_eq!(number_of(&read_message(1, 2, &bytes)), refusal);
        bytes[place] = 0;
    }
    let message = read_message(1, 2, &bytes).expect("all mended");
    assert_eq!(message.encode(), bytes);
}

#[test]
fn questions_of_writing() {
    let reading = RequestFields { kind: 1, group: 1, process: 1, ..RequestFields::default() };
    assert_eq!(number_of(&write_request(0, 1, &reading, &mut [0; 24])), 0);
    assert_eq!(number_of(&write_request(0, 1, &reading, &mut [0; 23])), 15);
    let valued = RequestFields { value: 1, ..reading };
    assert_eq!(number_of(&write_request(0, 1, &valued, &mut [0; 23])), 22);
    let halt = MessageFields { kind: 4, group: 1, process: 1, ..MessageFields::default() };
    assert_eq!(number_of(&write_message(0, 1, &halt, &mut [0; 23])), 5);
    let named = MessageFields { replica: 1, ..halt };
    assert_eq!(number_of(&write_message(0, 1, &named, &mut [0; 23])), 15);
    let valued = MessageFields { value: 1, ..named };
    assert_eq!(number_of(&write_message(0, 1, &valued, &mut [0; 23])), 22);
    let odd = MessageFields { variable: 1, ..valued };
    assert_eq!(number_of(&write_message(0, 1, &odd, &mut [0; 23])), 10);
}

#[test]
fn halts_count_replicas_once() {
    let halt = |replica, process, stamp| Message {
        group: OWNER,
        process,
        replica,
        timestamp: Timestamp(stamp),
        content: Content::Halt,
    };
    let list = [halt(1, 1, 10), halt(1, 1, 11), halt(3, 1, 12), halt(2, 2, 10), halt(9, 1, 10)]
        .map(|message| message.fields());
    let count = |senders, size, halt| Ok(HaltCount { senders, size, halt });
    assert_eq!(count_halts(1, 2, OWNER, 1, &list), count(0b101, 2, true));
    assert_eq!(count_halts(1, 2, OWNER, 2, &list), count(0b010, 1, false));
    assert_eq!(count_halts(1, 2, GUEST, 1, &list), count(0, 0, false));
}

#[test]
fn the_machine_takes_batches_by_timestamp() {
    let bag = [
        write(OWNER, 2, 30, 4, 8),
        read(OWNER, 2, 20, 4),
        read(OWNER, 1, 20, 4),
        write(OWNER, 2, 10, 4, 7),
        write(GUEST, 2, 15, 4, 9),
        write(OWNER, 1, 10, 4, 7),
        read(OWNER, 1, 40, 0),
    ];
    let machine = Machine::run(1, OWNER, &bag);
    assert_eq!((machine.variables[4], machine.writes, machine.failed()), (7, 1, true));
    let mut expected = vec![reply_to(bag[1], 7), reply_to(bag[2], 7)];
    expected.extend(halts(30));
    expected.push(reply_to(bag[6], 1));
    assert_eq!(machine.messages(1), expected);
}
