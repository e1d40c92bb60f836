//! The C functions over the mutants, in the place of those of libexport.a.

#![allow(unsafe_code)]

use std::slice::{from_raw_parts, from_raw_parts_mut};

use super::arrays::Arrays;
use super::{blocks, records, replicas, steps, votes};
use crate::convert::{from_replica, to_halt_result, to_replica, to_vote_result};
use crate::ffi;
use crate::model::record::MessageFields;
use crate::model::replica::Replica;
use crate::model::{number_of, LocalTime, Refusal, Settings, LIST_LIMIT};

// Each of them must be lent `length` bytes at its pointer, as `ffi` does.

#[no_mangle]
unsafe extern "C" fn failstop_read_request(
    k: u8,
    n: u8,
    bytes: *const u8,
    length: usize,
) -> ffi::RequestResult {
    let result = records::read_request(k, n, from_raw_parts(bytes, length));
    let fields = result.map(|request| request.fields()).unwrap_or_default();
    ffi::RequestResult { refusal: number_of(&result), request: fields.into() }
}

#[no_mangle]
unsafe extern "C" fn failstop_read_message(
    k: u8,
    n: u8,
    bytes: *const u8,
    length: usize,
) -> ffi::MessageResult {
    let result = records::read_message(k, n, from_raw_parts(bytes, length));
    let fields = result.map(|message| message.fields()).unwrap_or_default();
    ffi::MessageResult { refusal: number_of(&result), message: fields.into() }
}

#[no_mangle]
unsafe extern "C" fn failstop_write_request(
    k: u8,
    n: u8,
    r: ffi::Request,
    bytes: *mut u8,
    length: usize,
) -> u8 {
    number_of(&records::write_request(k, n, &r.into(), from_raw_parts_mut(bytes, length)))
}

#[no_mangle]
unsafe extern "C" fn failstop_write_message(
    k: u8,
    n: u8,
    m: ffi::Message,
    bytes: *mut u8,
    length: usize,
) -> u8 {
    number_of(&records::write_message(k, n, &m.into(), from_raw_parts_mut(bytes, length)))
}

#[no_mangle]
extern "C" fn failstop_make(u: ffi::Settings, number: u8) -> ffi::ReplicaResult {
    let result = replicas::make(u.k, u.groups, u.owner, u.delta, number);
    let replica = result.as_ref().map_or_else(|_| blank(), to_replica);
    ffi::ReplicaResult { refusal: number_of(&result), replica }
}

/// What stands beside a refused making: zeros.
fn blank() -> ffi::Replica {
    let model = Replica::make(0, 1, 1, 0, 1).expect("allowed");
    let settings = ffi::Settings { k: 0, groups: 0, owner: 0, delta: 0 };
    ffi::Replica { settings, number: 0, ..to_replica(&model) }
}

#[no_mangle]
unsafe extern "C" fn failstop_deliver(
    r: ffi::Replica,
    bytes: *const u8,
    length: usize,
    at: ffi::LocalTime,
) -> ffi::ReplicaResult {
    let Some(mut model) = from_replica(&r) else {
        return ffi::ReplicaResult { refusal: refusal_of_malformed(r.settings), replica: r };
    };
    let bytes = from_raw_parts(bytes, length);
    let refusal = number_of(&replicas::deliver(&mut model, bytes, LocalTime(at.0)));
    ffi::ReplicaResult { refusal, replica: to_replica(&model) }
}

/// A replica that no call leaves accepts nothing; of the blank one question 2 says so.
fn refusal_of_malformed(u: ffi::Settings) -> u8 {
    Settings::new(u.k, u.groups).err().unwrap_or(Refusal::K).number()
}

/// A step of a replica that no call leaves only notes the time, as that of the blank one does.
#[no_mangle]
unsafe extern "C" fn failstop_step(
    r: ffi::Replica,
    at: ffi::LocalTime,
    output: *mut u8,
    length: usize,
) -> ffi::StepResult {
    let Some(mut model) = from_replica(&r) else {
        return ffi::StepResult { refusal: 0, count: 0, replica: ffi::Replica { last: at, ..r } };
    };
    steps::before_step(&mut model, &r);
    let output = from_raw_parts_mut(output, length);
    let result = steps::step(&mut model, LocalTime(at.0), output);
    let refusal = number_of(&result);
    ffi::StepResult { refusal, count: result.unwrap_or(0), replica: to_replica(&model) }
}

#[no_mangle]
extern "C" fn failstop_vote(k: u8, n: u8, q: ffi::Query, list: ffi::List) -> ffi::VoteResult {
    to_vote_result(votes::vote(k, n, &q.into(), messages(&list)))
}

#[no_mangle]
extern "C" fn failstop_count_halts(
    k: u8,
    n: u8,
    group: u8,
    process: u8,
    list: ffi::List,
) -> ffi::HaltResult {
    to_halt_result(votes::count_halts(k, n, group, process, messages(&list)))
}

#[no_mangle]
unsafe extern "C" fn failstop_play_block(
    p: ffi::Player,
    block: *const u8,
    length: usize,
    pending: &mut [[u64; 4]; ffi::PLACES],
    counts: &mut [usize; ffi::COUNTS],
    variables: &mut [u32; ffi::VARIABLES],
    writes: &mut [u64; ffi::REPLICAS],
    lasts: &mut [u64; ffi::REPLICAS],
    text: *mut u8,
    room: usize,
) -> ffi::BlockResult {
    let arrays = Arrays { pending, counts, variables, writes, lasts };
    let (block, text) = (from_raw_parts(block, length), from_raw_parts_mut(text, room));
    blocks::play_block(p, block, arrays, text)
}

#[no_mangle]
unsafe extern "C" fn failstop_play_end(
    p: ffi::Player,
    rest: *const u8,
    length: usize,
    variables: &[u32; ffi::VARIABLES],
    writes: &[u64; ffi::REPLICAS],
    text: *mut u8,
    room: usize,
) -> usize {
    let (rest, text) = (from_raw_parts(rest, length), from_raw_parts_mut(text, room));
    blocks::play_end(p, rest, variables, writes, text)
}

/// The messages of a list, of one that is too long as many as there are.
fn messages(list: &ffi::List) -> Vec<MessageFields> {
    let count = list.count.min(LIST_LIMIT + 1);
    list.messages[..count].iter().map(|message| (*message).into()).collect()
}
