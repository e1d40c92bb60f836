//! Reading and writing of records, as each mutant does it.

use super::list::{is, Mutant};
use crate::model::record::{self, Message, MessageFields, Request, RequestFields};
use crate::model::{Refusal, RECORD_SIZE};

pub fn read_request(k: u8, n: u8, bytes: &[u8]) -> Result<Request, Refusal> {
    let mut record = bytes.to_vec();
    if is(Mutant::LongRecordRead) && record.len() == RECORD_SIZE + 1 {
        record.pop();
    }
    if is(Mutant::ReplicaByteIgnored) && record.len() == RECORD_SIZE {
        record[3] = 0;
    }
    match record::read_request(k, n, &record) {
        Err(Refusal::Group)
            if is(Mutant::ProcessBeforeGroup) && !(1..=k + 1).contains(&record[2]) =>
        {
            Err(Refusal::Process)
        }
        Err(Refusal::SpareByte)
            if is(Mutant::ReplicaByteGets22)
                && record[6..8].iter().chain(&record[20..]).all(|&byte| byte == 0) =>
        {
            Err(Refusal::Value)
        }
        result => value_first(result, record::READ, &record),
    }
}

/// A record of a kind without a value gets 22 before 21.
fn value_first<T>(result: Result<T, Refusal>, kind: u8, record: &[u8]) -> Result<T, Refusal> {
    let both_wrong = |record: &[u8]| record[0] == kind && record[16..20] != [0; 4];
    match result {
        Err(Refusal::SpareByte) if is(Mutant::ValueBeforeSpares) && both_wrong(record) => {
            Err(Refusal::Value)
        }
        result => result,
    }
}

pub fn read_message(k: u8, n: u8, bytes: &[u8]) -> Result<Message, Refusal> {
    let mut record = bytes.to_vec();
    if is(Mutant::LastByteIgnored) && record.len() == RECORD_SIZE {
        record[23] = 0;
    }
    if is(Mutant::ValueOfHaltIgnored) && record.len() == RECORD_SIZE && record[0] == record::HALT {
        record[16..20].fill(0);
    }
    value_first(record::read_message(k, n, &record), record::HALT, &record)
}

pub fn write_request(
    k: u8,
    n: u8,
    fields: &RequestFields,
    destination: &mut [u8],
) -> Result<(), Refusal> {
    let result = record::write_request(k, n, fields, destination);
    if is(Mutant::WriteBeyond24) && result.is_ok() {
        destination[RECORD_SIZE..].fill(0);
    }
    result
}

pub fn write_message(
    k: u8,
    n: u8,
    fields: &MessageFields,
    destination: &mut [u8],
) -> Result<(), Refusal> {
    let result = record::write_message(k, n, fields, destination);
    if is(Mutant::RefusedWriteSpoils) && result.is_err() {
        destination.iter_mut().take(1).for_each(|byte| *byte ^= 1);
    }
    result
}
