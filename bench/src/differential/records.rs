//! Records: bytes of every length, valid and damaged, read by both sides, and
//! fields, allowed or not, written by both sides.

use std::fmt::Debug;

use super::lent::Lent;
use super::tally::{Call, Event, Tally};
use super::{same, same_lists, Outcome};
use crate::ffi;
use crate::model::record::{self, MessageFields, RequestFields};
use crate::model::{number_of, Refusal, Timestamp, RECORD_SIZE};
use crate::random::Random;
use crate::traffic;

/// The longest record and destination that are tried.
pub const LONGEST: usize = 40;

/// One record of each sort in each direction.
pub fn run(random: &mut Random, tally: &mut Tally) -> Outcome {
    tally.event(Event::RecordRun);
    let length = some_length(random);
    one_of_each(length, random, tally)
}

/// Records of every length, some of each.
pub fn every_length(random: &mut Random, tally: &mut Tally) -> Outcome {
    for length in 0..=LONGEST {
        for _ in 0..8 {
            one_of_each(length, random, tally)?;
        }
    }
    Ok(())
}

fn some_length(random: &mut Random) -> usize {
    if random.chance(3, 4) {
        RECORD_SIZE
    } else {
        random.index(LONGEST + 1)
    }
}

fn one_of_each(length: usize, random: &mut Random, tally: &mut Tally) -> Outcome {
    tally.record(length);
    let (k, n) = settings(random);
    let request = some_request(k, n, random);
    let message = some_message(k, n, random);
    read_request(k, n, &some_bytes(request.encode(), length, random), tally)?;
    read_message(k, n, &some_bytes(message.encode(), length, random), tally)?;
    write_request(k, n, request, Lent::new(length, random), tally)?;
    write_message(k, n, message, Lent::new(length, random), tally)
}

/// k and n, now and then not allowed.
pub fn settings(random: &mut Random) -> (u8, u8) {
    let k = if random.chance(1, 40) { random.pick(&[4, 5, 128, 255]) } else { random.small(0, 3) };
    let n = if random.chance(1, 40) { random.pick(&[0, 5, 6, 255]) } else { random.small(1, 4) };
    (k, n)
}

/// A number within 1 to the limit, now and then not.
fn about(limit: u8, random: &mut Random) -> u8 {
    if random.chance(1, 16) {
        random.pick(&[0, limit.wrapping_add(1), 255, 128])
    } else {
        random.small(1, limit.max(1))
    }
}

fn some_variable(random: &mut Random) -> u16 {
    match random.below(24) {
        0 => 256,
        1 => random.bits() as u16,
        2 | 3 => 0,
        _ => u16::from(traffic::read_variable(random)),
    }
}

fn some_timestamp(random: &mut Random) -> Timestamp {
    Timestamp(traffic::first_timestamp(random))
}

/// Fields of a request, mostly allowed ones.
pub fn some_request(k: u8, n: u8, random: &mut Random) -> RequestFields {
    let kind = random.pick(&[1, 1, 1, 1, 2, 2, 2, 2, 2, 0, 3, 4, 5, 255]);
    let variable = some_variable(random);
    let valued = kind == 2 || random.chance(1, 12);
    RequestFields {
        kind,
        group: about(n, random),
        process: about(k.saturating_add(1), random),
        variable,
        timestamp: some_timestamp(random),
        value: if valued { traffic::value(random) } else { 0 },
    }
}

/// Fields of a message, mostly allowed ones.
pub fn some_message(k: u8, n: u8, random: &mut Random) -> MessageFields {
    let kind = random.pick(&[3, 3, 3, 3, 4, 4, 4, 4, 4, 1, 2, 5, 0, 255]);
    let halt = kind == 4 && random.chance(11, 12);
    MessageFields {
        kind,
        group: about(n, random),
        process: about(k.saturating_add(1), random),
        replica: about(k.saturating_mul(2).saturating_add(1), random),
        variable: if halt { 0 } else { some_variable(random) },
        timestamp: some_timestamp(random),
        value: if halt && random.chance(11, 12) { 0 } else { traffic::value(random) },
    }
}

/// The record with another length, damaged in some cases.
fn some_bytes(record: [u8; RECORD_SIZE], length: usize, random: &mut Random) -> Vec<u8> {
    let mut bytes = vec![0; length];
    let common = length.min(RECORD_SIZE);
    bytes[..common].copy_from_slice(&record[..common]);
    if random.chance(1, 3) {
        traffic::damage(&mut bytes, random);
    }
    bytes
}

/// A record that gets 21 and would get 22 next: its kind has no value.
fn note_both<T>(answer: &Result<T, Refusal>, kind: u8, bytes: &[u8], tally: &mut Tally) {
    if matches!(answer, Err(Refusal::SpareByte)) && bytes[0] == kind && bytes[16..20] != [0; 4] {
        tally.event(Event::SpareAndValue);
    }
}

fn read_request(k: u8, n: u8, bytes: &[u8], tally: &mut Tally) -> Outcome {
    let input = || format!("read request, k {k}, n {n}, bytes {bytes:?}");
    let expected = record::read_request(k, n, bytes).map(|request| request.fields());
    let found = ffi::read_request(k, n, bytes);
    tally.answer(Call::ReadRequest, number_of(&expected));
    note_both(&expected, record::READ, bytes, tally);
    same_reading(expected, (found.refusal, found.request.into()), input)?;
    let write = |place: &mut [u8]| ffi::write_request(k, n, found.request, place);
    written_again(found.refusal, bytes, write, input)
}

fn read_message(k: u8, n: u8, bytes: &[u8], tally: &mut Tally) -> Outcome {
    let input = || format!("read message, k {k}, n {n}, bytes {bytes:?}");
    let expected = record::read_message(k, n, bytes).map(|message| message.fields());
    let found = ffi::read_message(k, n, bytes);
    tally.answer(Call::ReadMessage, number_of(&expected));
    note_both(&expected, record::HALT, bytes, tally);
    same_reading(expected, (found.refusal, found.message.into()), input)?;
    let write = |place: &mut [u8]| ffi::write_message(k, n, found.message, place);
    written_again(found.refusal, bytes, write, input)
}

/// Compares the refusal and the fields, which are zero beside a refusal.
fn same_reading<F: Debug + Default + PartialEq>(
    expected: Result<F, Refusal>,
    found: (u8, F),
    input: impl Fn() -> String,
) -> Outcome {
    same("refusal", number_of(&expected), found.0, &input)?;
    same("fields", expected.unwrap_or_default(), found.1, &input)
}

/// What was read must be written in the same form.
fn written_again(
    refusal: u8,
    bytes: &[u8],
    write: impl Fn(&mut [u8]) -> u8,
    input: impl Fn() -> String,
) -> Outcome {
    if refusal != 0 {
        return Ok(());
    }
    let mut destination = [0xff; RECORD_SIZE];
    same("refusal to write it again", 0, write(&mut destination), &input)?;
    same_lists("byte written again, at", bytes, &destination, &input)
}

fn write_request(k: u8, n: u8, fields: RequestFields, lent: Lent, tally: &mut Tally) -> Outcome {
    let input = || format!("write request, k {k}, n {n}, {fields:?}");
    let expected = |place: &mut [u8]| record::write_request(k, n, &fields, place);
    let found = |place: &mut [u8]| ffi::write_request(k, n, fields.into(), place);
    same_writing(Call::WriteRequest, expected, found, lent, tally, input)
}

fn write_message(k: u8, n: u8, fields: MessageFields, lent: Lent, tally: &mut Tally) -> Outcome {
    let input = || format!("write message, k {k}, n {n}, {fields:?}");
    let expected = |place: &mut [u8]| record::write_message(k, n, &fields, place);
    let found = |place: &mut [u8]| ffi::write_message(k, n, fields.into(), place);
    same_writing(Call::WriteMessage, expected, found, lent, tally, input)
}

/// Has both sides write to equal bytes.
fn same_writing(
    call: Call,
    expected: impl Fn(&mut [u8]) -> Result<(), Refusal>,
    found: impl Fn(&mut [u8]) -> u8,
    mut lent: Lent,
    tally: &mut Tally,
    input: impl Fn() -> String,
) -> Outcome {
    let mut bytes = lent.original();
    let length = bytes.len();
    let input = || format!("{} to {length} bytes", input());
    let expected = expected(&mut bytes);
    tally.answer(call, number_of(&expected));
    same("refusal", number_of(&expected), found(lent.lend()), input)?;
    lent.check(&bytes, input)
}
