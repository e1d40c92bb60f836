//! What the generated inputs made happen.

use std::fmt::{self, Display, Formatter};

/// The calls whose answers are counted.
#[derive(Clone, Copy, Debug, PartialEq, Eq)]
pub enum Call {
    ReadRequest,
    ReadMessage,
    WriteRequest,
    WriteMessage,
    Make,
    Deliver,
    Step,
    Vote,
    CountHalts,
    Play,
    Journal,
}

/// For each call its name and the answers that must occur, 0 for work done.
/// They are all that documents 01 and 02 allow for well-formed replicas.
const CALLS: [(Call, &str, &[u8]); 11] = [
    (Call::ReadRequest, "read request", &[0, 1, 2, 6, 7, 8, 9, 10, 21, 22]),
    (Call::ReadMessage, "read message", &[0, 1, 2, 5, 6, 7, 8, 9, 10, 21, 22]),
    (Call::WriteRequest, "write request", &[0, 1, 2, 7, 8, 9, 10, 15, 22]),
    (Call::WriteMessage, "write message", &[0, 1, 2, 5, 7, 8, 9, 10, 15, 22]),
    (Call::Make, "make", &[0, 1, 2, 3, 4, 5]),
    (Call::Deliver, "deliver", &[0, 6, 7, 8, 9, 10, 12, 13, 14, 21, 22]),
    (Call::Step, "step", &[0, 12, 13, 15]),
    (Call::Vote, "vote", &[0, 1, 2, 16, 17]),
    (Call::CountHalts, "count halts", &[0, 1, 2, 16]),
    (Call::Play, "play in blocks", &JOURNAL_ANSWERS),
    (Call::Journal, "journal", &JOURNAL_ANSWERS),
];

/// What records of a journal are refused with.
const JOURNAL_ANSWERS: [u8; 17] = [1, 2, 3, 4, 5, 7, 8, 9, 10, 12, 13, 14, 18, 19, 20, 21, 22];

/// Refusal numbers go up to 22.
const ANSWERS: usize = 23;

/// What else is counted.
#[derive(Clone, Copy, Debug, PartialEq, Eq)]
pub enum Event {
    RecordRun,
    SpareAndValue,
    ReplicaRun,
    MalformedRun,
    VoteRun,
    BlockRun,
    MalformedUnitRun,
    JournalRun,
    K0,
    K1,
    K2,
    K3,
    OneGroup,
    TwoGroups,
    ThreeGroups,
    FourGroups,
    SmallDelta,
    LargeDelta,
    OutOfOrder,
    Repeated,
    Late,
    Reply,
    Halt,
    Freeze,
    PerformedWrite,
    FullQueue,
    AllFull,
    WithoutRoom1,
    WithoutRoom2,
    WithoutRoom3,
    WithoutRoom4,
    BesideFull,
    FreedPlace,
    FullStep,
    ExactlyDelta,
    LatestTime,
    RoomOf0,
    RoomOf1607,
    RoomOf1608,
    MoreRoom,
    ScrambledPlaces,
    DamagedMessage,
    RepeatedMessage,
    AllAgreed,
    SomeOther,
    SomeSilent,
    SeventhOther,
    SeventhSilent,
    EveryHalt,
    HaltsOfK,
    MalformedCall,
    CountPastPlaces,
    NoGroups,
    TooManyGroups,
    ForeignRequest,
    BlockRecord,
    BlockWithoutBytes,
    BlockWithoutRoom,
    BlockLeft,
    BlockAfterStop,
    StoppedUnit,
    PartialLast,
    RecordLeft,
    EmptyInput,
    ShortEnd,
    LastPlace,
    MalformedUnitCall,
    MalformedAtLastPlace,
    MalformedStage,
    MalformedK,
    JournalWhole,
    JournalCut,
    JournalNoise,
    JournalLong,
}

/// For each event its name; each must occur.
const EVENTS: [(Event, &str); 74] = [
    (Event::RecordRun, "runs with records"),
    (Event::SpareAndValue, "reads and halts with a spare byte and a value"),
    (Event::ReplicaRun, "runs with replicas"),
    (Event::MalformedRun, "runs with malformed arguments"),
    (Event::VoteRun, "runs with votes"),
    (Event::BlockRun, "runs with journals in blocks"),
    (Event::MalformedUnitRun, "runs with malformed units"),
    (Event::JournalRun, "runs with journals"),
    (Event::K0, "replicas with k = 0"),
    (Event::K1, "replicas with k = 1"),
    (Event::K2, "replicas with k = 2"),
    (Event::K3, "replicas with k = 3"),
    (Event::OneGroup, "replicas with one group"),
    (Event::TwoGroups, "replicas with two groups"),
    (Event::ThreeGroups, "replicas with three groups"),
    (Event::FourGroups, "replicas with four groups"),
    (Event::SmallDelta, "replicas with delta up to 5"),
    (Event::LargeDelta, "replicas with delta from 500,000"),
    (Event::OutOfOrder, "requests accepted after a later one of their group"),
    (Event::Repeated, "requests accepted again"),
    (Event::Late, "requests accepted after a later one was handled"),
    (Event::Reply, "replies sent"),
    (Event::Halt, "halts sent"),
    (Event::Freeze, "freezes"),
    (Event::PerformedWrite, "performed writes"),
    (Event::FullQueue, "queues filled"),
    (Event::AllFull, "all four queues full"),
    (Event::WithoutRoom1, "deliveries of group 1 refused with 14"),
    (Event::WithoutRoom2, "deliveries of group 2 refused with 14"),
    (Event::WithoutRoom3, "deliveries of group 3 refused with 14"),
    (Event::WithoutRoom4, "deliveries of group 4 refused with 14"),
    (Event::BesideFull, "requests accepted while the queue of another group was full"),
    (Event::FreedPlace, "requests accepted into a queue that had been full"),
    (Event::FullStep, "steps with 67 messages"),
    (Event::ExactlyDelta, "steps exactly delta after an arrival"),
    (Event::LatestTime, "calls at local time 2^62"),
    (Event::RoomOf0, "steps with 0 bytes of output"),
    (Event::RoomOf1607, "steps with 1,607 bytes of output"),
    (Event::RoomOf1608, "steps with 1,608 bytes of output"),
    (Event::MoreRoom, "steps with more output"),
    (Event::ScrambledPlaces, "calls with scrambled free places"),
    (Event::DamagedMessage, "damaged or forged messages in lists"),
    (Event::RepeatedMessage, "repeated messages in lists"),
    (Event::AllAgreed, "votes in which all agreed"),
    (Event::SomeOther, "votes with another value"),
    (Event::SomeSilent, "votes with a silent replica"),
    (Event::SeventhOther, "votes in which replica 7 gave another value"),
    (Event::SeventhSilent, "votes in which replica 7 was silent"),
    (Event::EveryHalt, "halt counts of k+1 or more"),
    (Event::HaltsOfK, "halt counts of k, and k not 0"),
    (Event::MalformedCall, "calls with malformed arguments"),
    (Event::CountPastPlaces, "calls with a count past the places of a group"),
    (Event::NoGroups, "calls with a replica of no groups"),
    (Event::TooManyGroups, "calls with a replica of more than four groups"),
    (Event::ForeignRequest, "requests that stood in the queue of another group"),
    (Event::BlockRecord, "records played in blocks"),
    (Event::BlockWithoutBytes, "blocks of which nothing was taken for want of bytes"),
    (Event::BlockWithoutRoom, "blocks of which nothing was taken for want of room"),
    (Event::BlockLeft, "blocks of which some records were taken, and others not for want of room"),
    (Event::BlockAfterStop, "blocks lent to a unit that had stopped"),
    (Event::StoppedUnit, "units that stopped"),
    (Event::PartialLast, "partial last records"),
    (Event::RecordLeft, "ends with whole records left"),
    (Event::EmptyInput, "empty inputs"),
    (Event::ShortEnd, "ends with less room than text"),
    (Event::LastPlace, "blocks that ended at the last place"),
    (Event::MalformedUnitCall, "calls with malformed units"),
    (Event::MalformedAtLastPlace, "blocks lent to a malformed unit at the last place"),
    (Event::MalformedStage, "blocks lent to a unit in a stage past 2"),
    (Event::MalformedK, "blocks lent to a unit of a k past 3"),
    (Event::JournalWhole, "journals of whole records"),
    (Event::JournalCut, "journals cut off"),
    (Event::JournalNoise, "journals of random bytes"),
    (Event::JournalLong, "journals of over 64 KiB"),
];

/// Lists of 0 to 65 messages occur, and records of 0 to 40 bytes.
const LIST_LENGTHS: usize = 66;
const RECORD_LENGTHS: usize = 41;

/// The counts of a whole program run.
#[derive(Clone, Debug)]
pub struct Tally {
    answers: [[u64; ANSWERS]; CALLS.len()],
    events: [u64; EVENTS.len()],
    lists: [u64; LIST_LENGTHS],
    records: [u64; RECORD_LENGTHS],
    with_journals: bool,
}

impl Tally {
    pub fn new(with_journals: bool) -> Tally {
        Tally {
            answers: [[0; ANSWERS]; CALLS.len()],
            events: [0; EVENTS.len()],
            lists: [0; LIST_LENGTHS],
            records: [0; RECORD_LENGTHS],
            with_journals,
        }
    }

    pub fn answer(&mut self, call: Call, refusal: u8) {
        self.answers[call as usize][usize::from(refusal)] += 1;
    }

    pub fn event(&mut self, event: Event) {
        self.events(event, 1);
    }

    pub fn events(&mut self, event: Event, times: u64) {
        self.events[event as usize] += times;
    }

    /// A list of so many messages.
    pub fn list(&mut self, length: usize) {
        self.lists[length] += 1;
    }

    /// A record or a destination of so many bytes.
    pub fn record(&mut self, length: usize) {
        self.records[length] += 1;
    }

    pub fn times(&self, event: Event) -> u64 {
        self.events[event as usize]
    }

    /// What had to occur and did not.
    pub fn missing(&self) -> Vec<String> {
        let mut missing = Vec::new();
        for (call, name, wanted) in CALLS.iter().filter(|row| self.wants_call(row.0)) {
            for answer in wanted.iter().filter(|&&answer| self.count(*call, answer) == 0) {
                missing.push(format!("{name} never answered {answer}"));
            }
        }
        for (event, name) in EVENTS.iter().filter(|row| self.wants_event(row.0)) {
            if self.times(*event) == 0 {
                missing.push(format!("no {name}"));
            }
        }
        missing.extend(missing_length("list", &self.lists));
        missing.extend(missing_length("record", &self.records));
        missing
    }

    fn count(&self, call: Call, answer: u8) -> u64 {
        self.answers[call as usize][usize::from(answer)]
    }

    fn wants_call(&self, call: Call) -> bool {
        self.with_journals || call != Call::Journal
    }

    fn wants_event(&self, event: Event) -> bool {
        let of_journals = matches!(
            event,
            Event::JournalRun
                | Event::JournalWhole
                | Event::JournalCut
                | Event::JournalNoise
                | Event::JournalLong
        );
        self.with_journals || !of_journals
    }

    fn write_answers(&self, f: &mut Formatter) -> fmt::Result {
        writeln!(f, "answers of each call (0: it did its work; otherwise the refusal number)")?;
        for (call, name, _) in CALLS.iter().filter(|row| self.wants_call(row.0)) {
            write!(f, "  {name:<14}")?;
            for answer in (0..ANSWERS as u8).filter(|&answer| self.count(*call, answer) > 0) {
                write!(f, " {answer}:{}", self.count(*call, answer))?;
            }
            writeln!(f)?;
        }
        Ok(())
    }
}

/// The first length that did not occur.
fn missing_length(of_what: &str, times: &[u64]) -> Option<String> {
    let length = times.iter().position(|&times| times == 0)?;
    Some(format!("no {of_what} of length {length}"))
}

fn write_lengths(of_what: &str, times: &[u64], f: &mut Formatter) -> fmt::Result {
    let least = times.iter().min().copied().unwrap_or(0);
    let longest = times.len() - 1;
    writeln!(f, "  {least:>10} {of_what} of each length from 0 to {longest}, at least")
}

impl Display for Tally {
    fn fmt(&self, f: &mut Formatter) -> fmt::Result {
        self.write_answers(f)?;
        writeln!(f, "what occurred")?;
        for (event, name) in EVENTS.iter().filter(|row| self.wants_event(row.0)) {
            writeln!(f, "  {:>10} {name}", self.times(*event))?;
        }
        write_lengths("records and destinations", &self.records, f)?;
        write_lengths("lists", &self.lists, f)
    }
}

#[cfg(test)]
mod tests {
    use super::*;

    #[test]
    fn the_tables_stand_in_the_order_of_the_names() {
        assert!(CALLS.iter().enumerate().all(|(place, row)| row.0 as usize == place));
        assert!(EVENTS.iter().enumerate().all(|(place, row)| row.0 as usize == place));
    }
}
