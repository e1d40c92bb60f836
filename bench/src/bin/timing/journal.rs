//! The journal program against the model's, each a process that reads a file, on
//! journals of several kinds.

use std::fs::{self, File};
use std::io;
use std::path::{Path, PathBuf};
use std::process::{Command, Stdio};
use std::time::Instant;

use bench::differential::journals;
use bench::model::journal::{delivery_entry, setup_entry, step_entry, ENTRY_SIZE};
use bench::model::record::{Request, RequestFields, READ};
use bench::model::Timestamp;
use bench::random::Random;
use bench::traffic::{batch, Cast, Sort};

use crate::{Table, DELTA, OWNER};

/// Records of each journal; the best of so many runs of each program counts.
const RECORDS: usize = 600_000;
const BEST_OF: usize = 10;

/// A kind of journal.
#[derive(Clone, Copy)]
struct Kind {
    name: &'static str,
    cast: Cast,
    /// Reads, one at each timestamp, or unanimous writes.
    sort: Sort,
    /// One record in so many is a step, of each replica in turn.
    steps: u64,
    /// Whether the first write freezes the store.
    failed: bool,
    /// So many refused records follow each that is not meant to be.
    refused: u64,
}

const READS: Kind = Kind {
    name: "reads, a step at every 12th",
    cast: Cast { k: 1, groups: 2, owner: OWNER },
    sort: Sort::Reads,
    steps: 12,
    failed: false,
    refused: 0,
};
const WRITES: Kind = Kind {
    name: "writes, a step at every 12th",
    cast: Cast { groups: 1, ..READS.cast },
    sort: Sort::Unanimous,
    ..READS
};
const ONE: Cast = Cast { k: 0, ..WRITES.cast };
const SEVEN: Cast = Cast { k: 3, ..READS.cast };

const KINDS: [Kind; 11] = [
    READS,
    Kind { name: "reads, a step at every 32nd", steps: 32, ..READS },
    WRITES,
    Kind { name: "writes, a step at every 32nd", steps: 32, ..WRITES },
    Kind { name: "reads, one replica", cast: ONE, ..READS },
    Kind { name: "writes, one replica", cast: ONE, ..WRITES },
    Kind { name: "reads, seven replicas", cast: SEVEN, ..READS },
    Kind { name: "writes, seven replicas", cast: Cast { groups: 1, ..SEVEN }, ..WRITES },
    Kind { name: "writes, the store has failed", failed: true, ..WRITES },
    Kind { name: "reads, the store has failed", failed: true, ..READS },
    Kind { name: "nine records in ten are refused", refused: 9, ..READS },
];

/// The two programs.
struct Programs {
    verified: PathBuf,
    model: PathBuf,
}

/// Each kind of journal through both programs.
pub fn run() -> io::Result<()> {
    if !journals::wanted() {
        println!("the journals are skipped");
        return Ok(());
    }
    let model = std::env::current_exe()?.with_file_name("model_journal");
    let programs = Programs { verified: journals::program(), model };
    let path = std::env::temp_dir().join(format!("journal-{}.bin", std::process::id()));
    println!("journals of {RECORDS} records: best of {BEST_OF}, in ns for one record");
    let mut table = Table::default();
    let result = KINDS.iter().try_for_each(|kind| measure(kind, &programs, &path, &mut table));
    fs::remove_file(&path)?;
    print!("{table}");
    result
}

/// Both programs by turns, so that a busy moment does not fall on one of them.
fn measure(kind: &Kind, programs: &Programs, path: &Path, table: &mut Table) -> io::Result<()> {
    fs::write(path, write(kind))?;
    compare_texts(kind, programs, path)?;
    for _ in 0..BEST_OF {
        let verified = time_of_record(&programs.verified, path)?;
        let model = time_of_record(&programs.model, path)?;
        table.note(kind.name, verified, model);
    }
    Ok(())
}

/// Both must print the same; what it is tells what the journal does.
fn compare_texts(kind: &Kind, programs: &Programs, path: &Path) -> io::Result<()> {
    let text = |program| -> io::Result<_> {
        Ok(Command::new(program).stdin(File::open(path)?).output()?.stdout)
    };
    let (verified, model) = (text(&programs.verified)?, text(&programs.model)?);
    if verified != model {
        return Err(io::Error::other(format!("the programs differ on: {}", kind.name)));
    }
    let text = String::from_utf8_lossy(&model);
    let lines = |word| text.lines().filter(move |line| line.starts_with(word));
    println!(
        "  {}: {} replies, {} refused, {}",
        kind.name,
        lines("reply").count(),
        lines("no").count(),
        lines("card").next().unwrap_or("no unit")
    );
    Ok(())
}

/// The time of a run in ns for one record.
fn time_of_record(program: &Path, path: &Path) -> io::Result<f64> {
    let mut command = Command::new(program);
    let start = Instant::now();
    let status = command.stdin(File::open(path)?).stdout(Stdio::null()).status()?;
    let time = start.elapsed().as_nanos() as f64;
    match status.code() {
        Some(_) => Ok(time / RECORDS as f64),
        None => Err(io::Error::other("a journal program was ended from outside")),
    }
}

/// A journal of a kind, in memory.
fn write(kind: &Kind) -> Vec<u8> {
    let Cast { k, groups, owner } = kind.cast;
    let journal = setup_entry(k, groups, owner, DELTA).to_vec();
    let mut writer = Writer { kind, journal, time: 1, steps: 0 };
    let mut random = Random::new(1);
    let mut timestamp = 0;
    while writer.journal.len() < RECORDS * ENTRY_SIZE {
        writer.deliver(&requests(kind, timestamp, &mut random));
        timestamp += 1;
    }
    writer.journal.truncate(RECORDS * ENTRY_SIZE);
    writer.journal
}

/// The requests of a timestamp, from 0; those of the first are the owner's.
fn requests(kind: &Kind, timestamp: u64, random: &mut Random) -> Vec<Request> {
    let group = OWNER + (timestamp % u64::from(kind.cast.groups)) as u8;
    let sort = if kind.failed && timestamp == 0 { Sort::Missing } else { kind.sort };
    let mut requests = batch(kind.cast, group, sort, Timestamp(timestamp), random);
    if sort == Sort::Reads {
        requests.truncate(1);
    }
    requests
}

/// A journal while it is written.
struct Writer<'a> {
    kind: &'a Kind,
    journal: Vec<u8>,
    /// The local time of all replicas: one more with each record that is not
    /// meant to be refused.
    time: u64,
    steps: u64,
}

impl Writer<'_> {
    /// Delivers a batch to each replica. No step stands within a batch, since a
    /// full queue would then have room for a part of it, which freezes the store.
    fn deliver(&mut self, batch: &[Request]) {
        let replicas = self.kind.cast.replicas();
        for replica in 1..=replicas {
            for request in batch {
                self.put(delivery_entry(replica, self.time, &request.encode()));
            }
            if self.time / self.kind.steps > self.steps {
                let turn = (self.steps % u64::from(replicas)) as u8;
                self.steps += 1;
                self.put(step_entry(1 + turn, self.time));
            }
        }
    }

    fn put(&mut self, record: [u8; ENTRY_SIZE]) {
        self.time += 1;
        self.journal.extend(record);
        for place in 0..self.kind.refused {
            self.journal.extend(self.refused(place));
        }
    }

    /// A record that is refused, in one of four ways: with 19, 5, 8 or 13.
    fn refused(&self, place: u64) -> [u8; ENTRY_SIZE] {
        let stranger = RequestFields { kind: READ, group: 9, process: 1, ..Default::default() };
        match place % 4 {
            0 => [7; ENTRY_SIZE],
            1 => step_entry(self.kind.cast.replicas() + 1, self.time),
            2 => delivery_entry(1, self.time, &stranger.encode()),
            _ => step_entry(1, 0),
        }
    }
}
