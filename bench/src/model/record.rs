//! Records of 24 bytes: requests and messages, read and written.

use super::{ask, Refusal, Settings, Timestamp, RECORD_SIZE};

/// The kinds of records.
pub const READ: u8 = 1;
pub const WRITE: u8 = 2;
pub const REPLY: u8 = 3;
pub const HALT: u8 = 4;

/// The fields of a request before any question is asked.
#[derive(Clone, Copy, Debug, Default, PartialEq, Eq)]
pub struct RequestFields {
    pub kind: u8,
    pub group: u8,
    pub process: u8,
    pub variable: u16,
    pub timestamp: Timestamp,
    pub value: u32,
}

/// The fields of a message before any question is asked.
#[derive(Clone, Copy, Debug, Default, PartialEq, Eq)]
pub struct MessageFields {
    pub kind: u8,
    pub group: u8,
    pub process: u8,
    pub replica: u8,
    pub variable: u16,
    pub timestamp: Timestamp,
    pub value: u32,
}

/// What a request asks for.
#[derive(Clone, Copy, Debug, PartialEq, Eq, PartialOrd, Ord)]
pub enum Operation {
    Read,
    Write(u32),
}

/// A request that passed its questions.
#[derive(Clone, Copy, Debug, PartialEq, Eq, PartialOrd, Ord)]
pub struct Request {
    pub group: u8,
    pub process: u8,
    pub variable: u8,
    pub timestamp: Timestamp,
    pub operation: Operation,
}

/// What a message says.
#[derive(Clone, Copy, Debug, PartialEq, Eq)]
pub enum Content {
    Reply { variable: u8, value: u32 },
    Halt,
}

/// A message that passed its questions.
#[derive(Clone, Copy, Debug, PartialEq, Eq)]
pub struct Message {
    pub group: u8,
    pub process: u8,
    pub replica: u8,
    pub timestamp: Timestamp,
    pub content: Content,
}

impl Request {
    pub fn is_read(&self) -> bool {
        self.operation == Operation::Read
    }

    pub fn fields(&self) -> RequestFields {
        let (kind, value) = match self.operation {
            Operation::Read => (READ, 0),
            Operation::Write(value) => (WRITE, value),
        };
        RequestFields {
            kind,
            group: self.group,
            process: self.process,
            variable: u16::from(self.variable),
            timestamp: self.timestamp,
            value,
        }
    }

    pub fn encode(&self) -> [u8; RECORD_SIZE] {
        self.fields().encode()
    }
}

impl Message {
    pub fn fields(&self) -> MessageFields {
        let (kind, variable, value) = match self.content {
            Content::Reply { variable, value } => (REPLY, variable, value),
            Content::Halt => (HALT, 0, 0),
        };
        MessageFields {
            kind,
            group: self.group,
            process: self.process,
            replica: self.replica,
            variable: u16::from(variable),
            timestamp: self.timestamp,
            value,
        }
    }

    pub fn encode(&self) -> [u8; RECORD_SIZE] {
        self.fields().encode()
    }
}

impl RequestFields {
    /// The bytes of these fields, allowed or not.
    pub fn encode(&self) -> [u8; RECORD_SIZE] {
        self.with_replica(0).encode()
    }

    fn with_replica(&self, replica: u8) -> MessageFields {
        MessageFields {
            kind: self.kind,
            group: self.group,
            process: self.process,
            replica,
            variable: self.variable,
            timestamp: self.timestamp,
            value: self.value,
        }
    }
}

impl MessageFields {
    /// The bytes of these fields, allowed or not.
    pub fn encode(&self) -> [u8; RECORD_SIZE] {
        let mut bytes = [0; RECORD_SIZE];
        bytes[0] = self.kind;
        bytes[1] = self.group;
        bytes[2] = self.process;
        bytes[3] = self.replica;
        bytes[4..6].copy_from_slice(&self.variable.to_be_bytes());
        bytes[8..16].copy_from_slice(&self.timestamp.0.to_be_bytes());
        bytes[16..20].copy_from_slice(&self.value.to_be_bytes());
        bytes
    }

    fn decode(b: &[u8; RECORD_SIZE]) -> MessageFields {
        MessageFields {
            kind: b[0],
            group: b[1],
            process: b[2],
            replica: b[3],
            variable: u16::from_be_bytes([b[4], b[5]]),
            timestamp: Timestamp(u64::from_be_bytes([
                b[8], b[9], b[10], b[11], b[12], b[13], b[14], b[15],
            ])),
            value: u32::from_be_bytes([b[16], b[17], b[18], b[19]]),
        }
    }

    fn without_replica(&self) -> RequestFields {
        RequestFields {
            kind: self.kind,
            group: self.group,
            process: self.process,
            variable: self.variable,
            timestamp: self.timestamp,
            value: self.value,
        }
    }
}

impl Settings {
    /// The questions of a request's fields alone: a writer's spare bytes are zero.
    pub fn check_request(self, fields: &RequestFields) -> Result<Request, Refusal> {
        self.request_of(fields, true)
    }

    /// Questions 7, 8, 9, 10, 21 and 22 of a request.
    fn request_of(self, fields: &RequestFields, spares_zero: bool) -> Result<Request, Refusal> {
        ask(matches!(fields.kind, READ | WRITE), Refusal::Kind)?;
        ask(self.has_group(fields.group), Refusal::Group)?;
        ask(self.has_process(fields.process), Refusal::Process)?;
        let variable = u8::try_from(fields.variable).map_err(|_| Refusal::Variable)?;
        let write = fields.kind == WRITE;
        ask(!write || variable != 0, Refusal::Variable)?;
        ask(spares_zero, Refusal::SpareByte)?;
        ask(write || fields.value == 0, Refusal::Value)?;
        let operation = if write { Operation::Write(fields.value) } else { Operation::Read };
        Ok(Request {
            group: fields.group,
            process: fields.process,
            variable,
            timestamp: fields.timestamp,
            operation,
        })
    }

    /// The questions of a message's fields alone: a writer's spare bytes are zero.
    pub fn check_message(self, fields: &MessageFields) -> Result<Message, Refusal> {
        self.message_of(fields, true)
    }

    /// Questions 7, 8, 9, 5, 10, 21 and 22 of a message.
    fn message_of(self, fields: &MessageFields, spares_zero: bool) -> Result<Message, Refusal> {
        ask(matches!(fields.kind, REPLY | HALT), Refusal::Kind)?;
        ask(self.has_group(fields.group), Refusal::Group)?;
        ask(self.has_process(fields.process), Refusal::Process)?;
        ask(self.has_replica(fields.replica), Refusal::Replica)?;
        let variable = u8::try_from(fields.variable).map_err(|_| Refusal::Variable)?;
        let reply = fields.kind == REPLY;
        ask(reply || variable == 0, Refusal::Variable)?;
        ask(spares_zero, Refusal::SpareByte)?;
        ask(reply || fields.value == 0, Refusal::Value)?;
        let value = fields.value;
        let content = if reply { Content::Reply { variable, value } } else { Content::Halt };
        Ok(Message {
            group: fields.group,
            process: fields.process,
            replica: fields.replica,
            timestamp: fields.timestamp,
            content,
        })
    }

    /// Question 6 and the following ones of a request.
    pub fn read_request(self, bytes: &[u8]) -> Result<Request, Refusal> {
        let record = whole(bytes)?;
        let fields = MessageFields::decode(record);
        let spares_zero = fields.replica == 0 && padding_is_zero(record);
        self.request_of(&fields.without_replica(), spares_zero)
    }

    /// Question 6 and the following ones of a message.
    pub fn read_message(self, bytes: &[u8]) -> Result<Message, Refusal> {
        let record = whole(bytes)?;
        self.message_of(&MessageFields::decode(record), padding_is_zero(record))
    }
}

/// Reads a request.
pub fn read_request(k: u8, groups: u8, bytes: &[u8]) -> Result<Request, Refusal> {
    Settings::new(k, groups)?.read_request(bytes)
}

/// Reads a message.
pub fn read_message(k: u8, groups: u8, bytes: &[u8]) -> Result<Message, Refusal> {
    Settings::new(k, groups)?.read_message(bytes)
}

/// Writes a request to the first 24 bytes of the destination.
pub fn write_request(
    k: u8,
    groups: u8,
    fields: &RequestFields,
    destination: &mut [u8],
) -> Result<(), Refusal> {
    let request = Settings::new(k, groups)?.check_request(fields)?;
    write(&request.encode(), destination)
}

/// Writes a message to the first 24 bytes of the destination.
pub fn write_message(
    k: u8,
    groups: u8,
    fields: &MessageFields,
    destination: &mut [u8],
) -> Result<(), Refusal> {
    let message = Settings::new(k, groups)?.check_message(fields)?;
    write(&message.encode(), destination)
}

fn write(record: &[u8; RECORD_SIZE], destination: &mut [u8]) -> Result<(), Refusal> {
    let place = destination.get_mut(..RECORD_SIZE).ok_or(Refusal::TooLittleRoom)?;
    place.copy_from_slice(record);
    Ok(())
}

fn whole(bytes: &[u8]) -> Result<&[u8; RECORD_SIZE], Refusal> {
    bytes.try_into().map_err(|_| Refusal::Length)
}

fn padding_is_zero(record: &[u8; RECORD_SIZE]) -> bool {
    record[6..8].iter().chain(&record[20..24]).all(|&byte| byte == 0)
}
