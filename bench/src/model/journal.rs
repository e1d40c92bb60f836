//! The journal program: 40-byte records in, text out.

use std::io::{self, BufReader, Read, Write};

use super::record::{Content, Message};
use super::replica::Replica;
use super::{ask, LocalTime, Refusal, Settings, FAILED, OUTPUT_SIZE, RECORD_SIZE};

/// The bytes of one record of a journal.
pub const ENTRY_SIZE: usize = 40;

/// Why reading and writing in memory does not fail.
pub(super) const MEMORY: &str = "memory neither fails to read nor to write";

/// First byte of the record that sets the unit up.
pub const SETUP: u8 = 1;
/// First byte of a delivery.
pub const DELIVERY: u8 = 2;
/// First byte of a step.
pub const STEP: u8 = 3;

/// One record of a journal.
#[derive(Clone, Copy)]
struct Entry<'a>(&'a [u8; ENTRY_SIZE]);

impl Entry<'_> {
    /// Question 18.
    fn read(record: &[u8]) -> Result<Entry<'_>, Refusal> {
        record.try_into().map(Entry).map_err(|_| Refusal::PartialRecord)
    }

    fn kind(&self) -> u8 {
        self.0[0]
    }

    fn replica(&self) -> u8 {
        self.0[1]
    }

    fn number(&self) -> u64 {
        u64::from_be_bytes(self.0[8..16].try_into().expect("eight bytes"))
    }

    fn body(&self) -> &[u8] {
        &self.0[16..ENTRY_SIZE]
    }

    fn is_zero(&self, from: usize, to: usize) -> bool {
        self.0[from..to].iter().all(|&byte| byte == 0)
    }
}

/// The replicas of a unit while its journal is played.
#[derive(Clone)]
pub struct Unit {
    pub replicas: Vec<Replica>,
    output: [u8; OUTPUT_SIZE],
}

impl Unit {
    pub fn new(replicas: Vec<Replica>) -> Unit {
        Unit { replicas, output: [0; OUTPUT_SIZE] }
    }

    /// Questions 19, 5, 20 and those of making a replica.
    fn set_up(entry: Entry) -> Result<Unit, Refusal> {
        ask(entry.kind() == SETUP, Refusal::RecordOrder)?;
        ask(entry.replica() == 0, Refusal::Replica)?;
        ask(entry.is_zero(2, 8) && entry.is_zero(19, ENTRY_SIZE), Refusal::JournalZero)?;
        let (k, groups, owner) = (entry.body()[0], entry.body()[1], entry.body()[2]);
        let make = |number| Replica::make(k, groups, owner, entry.number(), number);
        let first = make(1)?;
        let last = first.settings.replicas();
        (1..=last).map(make).collect::<Result<_, _>>().map(Unit::new)
    }

    fn settings(&self) -> Settings {
        self.replicas[0].settings
    }

    /// Plays one record after the first and gives the number of messages that
    /// then stand in the output.
    fn play(&mut self, entry: Entry) -> Result<usize, Refusal> {
        let step = match entry.kind() {
            DELIVERY => false,
            STEP => true,
            _ => return Err(Refusal::RecordOrder),
        };
        ask(self.settings().has_replica(entry.replica()), Refusal::Replica)?;
        let body_is_zero = entry.is_zero(16, ENTRY_SIZE);
        ask(entry.is_zero(2, 8) && (!step || body_is_zero), Refusal::JournalZero)?;
        let replica = &mut self.replicas[usize::from(entry.replica()) - 1];
        let at = LocalTime(entry.number());
        if step {
            replica.step(at, &mut self.output)
        } else {
            replica.deliver(entry.body(), at).map(|()| 0)
        }
    }

    fn print_messages<W: Write>(&self, count: usize, text: &mut W) -> io::Result<()> {
        for record in self.output.chunks_exact(RECORD_SIZE).take(count) {
            let message = self.settings().read_message(record);
            print_message(&message.expect("a step writes messages that pass"), text)?;
        }
        Ok(())
    }

    fn print_replicas<W: Write>(&self, text: &mut W) -> io::Result<()> {
        for replica in &self.replicas {
            let mark = replica.variables[FAILED];
            writeln!(text, "card {} {mark} {}", replica.number, replica.writes)?;
        }
        Ok(())
    }
}

fn print_message<W: Write>(message: &Message, text: &mut W) -> io::Result<()> {
    let Message { group, process, replica, timestamp, content } = message;
    let stamp = timestamp.0;
    match content {
        Content::Reply { variable, value } => {
            writeln!(text, "reply {replica} {group} {process} {stamp} {variable} {value}")
        }
        Content::Halt => writeln!(text, "halt {replica} {group} {process} {stamp}"),
    }
}

/// A journal while it is played, record after record.
#[derive(Clone, Default)]
pub struct Player {
    /// None before the setup, and where that was refused.
    pub unit: Option<Unit>,
    /// How many records were played.
    pub played: u64,
}

impl Player {
    /// Whether the first record was refused: then no other is played.
    pub fn stopped(&self) -> bool {
        self.unit.is_none() && self.played > 0
    }

    /// Plays the next record; a part of one is refused.
    pub fn play<W: Write>(&mut self, record: &[u8], text: &mut W) -> io::Result<()> {
        self.played = self.place();
        match (self.answer(record), &self.unit) {
            (Ok(count), Some(unit)) => unit.print_messages(count, text),
            (Ok(_), None) => Ok(()),
            (Err(refusal), _) => writeln!(text, "no {} {}", self.played, refusal.number()),
        }
    }

    /// How many messages then stand in the output.
    fn answer(&mut self, record: &[u8]) -> Result<usize, Refusal> {
        let entry = Entry::read(record)?;
        if let Some(unit) = &mut self.unit {
            return unit.play(entry);
        }
        self.unit = Some(Unit::set_up(entry)?);
        Ok(0)
    }

    /// A line for each replica, if there is a unit.
    pub fn print_replicas<W: Write>(&self, text: &mut W) -> io::Result<()> {
        self.unit.iter().try_for_each(|unit| unit.print_replicas(text))
    }
}

/// Reads the next record; how much of it there is.
fn read_record<R: Read>(input: &mut R, record: &mut [u8; ENTRY_SIZE]) -> io::Result<usize> {
    let mut length = 0;
    while length < ENTRY_SIZE {
        match input.read(&mut record[length..]) {
            Ok(0) => break,
            Ok(read) => length += read,
            Err(error) if error.kind() == io::ErrorKind::Interrupted => {}
            Err(error) => return Err(error),
        }
    }
    Ok(length)
}

/// Plays a whole journal.
pub fn play<R: Read, W: Write>(input: R, mut text: W) -> io::Result<()> {
    let mut input = BufReader::with_capacity(1 << 16, input);
    let mut player = Player::default();
    let mut record = [0; ENTRY_SIZE];
    while !player.stopped() {
        let length = read_record(&mut input, &mut record)?;
        if length == 0 {
            break;
        }
        player.play(&record[..length], &mut text)?;
    }
    player.print_replicas(&mut text)
}

/// Plays a journal that stands in memory.
pub fn play_bytes(bytes: &[u8]) -> Vec<u8> {
    let mut text = Vec::new();
    play(bytes, &mut text).expect(MEMORY);
    text
}

/// The record that sets a unit up.
pub fn setup_entry(k: u8, groups: u8, owner: u8, delta: u64) -> [u8; ENTRY_SIZE] {
    let mut body = [0; RECORD_SIZE];
    body[..3].copy_from_slice(&[k, groups, owner]);
    entry(SETUP, 0, delta, &body)
}

/// The record of a delivery.
pub fn delivery_entry(replica: u8, at: u64, request: &[u8; RECORD_SIZE]) -> [u8; ENTRY_SIZE] {
    entry(DELIVERY, replica, at, request)
}

/// The record of a step.
pub fn step_entry(replica: u8, at: u64) -> [u8; ENTRY_SIZE] {
    entry(STEP, replica, at, &[0; RECORD_SIZE])
}

fn entry(kind: u8, replica: u8, number: u64, body: &[u8; RECORD_SIZE]) -> [u8; ENTRY_SIZE] {
    let mut bytes = [0; ENTRY_SIZE];
    bytes[0] = kind;
    bytes[1] = replica;
    bytes[8..16].copy_from_slice(&number.to_be_bytes());
    bytes[16..].copy_from_slice(body);
    bytes
}
