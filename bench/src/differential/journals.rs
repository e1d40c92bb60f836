//! Whole journals through the journal program and through the model.

use std::io::{self, Read, Write};
use std::path::{Path, PathBuf};
use std::process::{Child, Command, ExitStatus, Stdio};
use std::thread;

use super::tally::{Call, Event, Tally};
use super::{same, Outcome};
use crate::difference::Difference;
use crate::model::journal::{delivery_entry, play_bytes, setup_entry, step_entry, ENTRY_SIZE};
use crate::model::{DELTA_LIMIT, PENDING_LIMIT, RECORD_SIZE, TIME_LIMIT};
use crate::random::Random;
use crate::traffic::{damage, Cast, Traffic};

/// Where the journal program stands: the variable JOURNAL, or the place where
/// the build puts it.
pub fn program() -> PathBuf {
    match std::env::var_os("JOURNAL") {
        Some(path) => path.into(),
        None => Path::new(env!("CARGO_MANIFEST_DIR")).join("../crates/journal/out/journal"),
    }
}

/// Whether journals are compared: not with the mutants, unless a program is named.
pub fn wanted() -> bool {
    !cfg!(feature = "mutants") || std::env::var_os("JOURNAL").is_some()
}

/// One journal, fed in odd pieces.
pub fn run(program: &Path, random: &mut Random, tally: &mut Tally) -> Outcome {
    tally.event(Event::JournalRun);
    let (journal, sort) = some_journal(random);
    tally.event(sort);
    if journal.len() > 1 << 16 {
        tally.event(Event::JournalLong);
    }
    let expected = play_bytes(&journal);
    note_refusals(Call::Journal, &expected, tally);
    let input = || describe(&journal);
    let (text, status) = play_outside(program, &journal, random).map_err(|error| Difference {
        what: format!("{} cannot be used: {error}", program.display()),
        input: input(),
    })?;
    same("ended by itself", true, status.code().is_some(), input)?;
    same_text(&expected, &text, input)
}

/// Compares texts and names the first line in which they differ.
pub fn same_text(expected: &[u8], found: &[u8], input: impl Fn() -> String) -> Outcome {
    let (expected, found) = (as_text(expected), as_text(found));
    let (mut expected_lines, mut found_lines) = (expected.lines(), found.lines());
    for number in 1.. {
        let lines = (expected_lines.next(), found_lines.next());
        same(&format!("line {number}"), lines.0, lines.1, &input)?;
        if lines == (None, None) {
            break;
        }
    }
    same("length of the text", expected.len(), found.len(), input)
}

fn as_text(bytes: &[u8]) -> String {
    String::from_utf8_lossy(bytes).into_owned()
}

/// The records of a journal, one on a line.
pub fn describe(journal: &[u8]) -> String {
    let lines: Vec<String> = journal.chunks(ENTRY_SIZE).map(|part| format!("{part:?}")).collect();
    format!("journal of {} bytes\n{}", journal.len(), lines.join("\n"))
}

/// Counts the refusals that the text tells as answers of a call.
pub fn note_refusals(call: Call, text: &[u8], tally: &mut Tally) {
    for line in as_text(text).lines().filter(|line| line.starts_with("no ")) {
        if let Some(number) = line.rsplit(' ').next().and_then(|word| word.parse().ok()) {
            tally.answer(call, number);
        }
    }
}

fn play_outside(
    program: &Path,
    journal: &[u8],
    random: &mut Random,
) -> io::Result<(Vec<u8>, ExitStatus)> {
    let mut child = Command::new(program).stdin(Stdio::piped()).stdout(Stdio::piped()).spawn()?;
    let pieces = some_pieces(journal.len(), random);
    thread::scope(|scope| {
        let stdin = child.stdin.take();
        let feeding = scope.spawn(|| stdin.map_or(Ok(()), |stdin| feed(stdin, journal, &pieces)));
        let text = read_all(&mut child);
        feeding.join().expect("the feeding thread does not panic")?;
        Ok((text?, child.wait()?))
    })
}

fn read_all(child: &mut Child) -> io::Result<Vec<u8>> {
    let mut text = Vec::new();
    if let Some(stdout) = child.stdout.as_mut() {
        stdout.read_to_end(&mut text)?;
    }
    Ok(text)
}

/// Writes the journal in pieces. A program that stops early is all right.
fn feed(mut stdin: impl Write, journal: &[u8], pieces: &[usize]) -> io::Result<()> {
    let mut rest = journal;
    for &piece in pieces {
        let (now, later) = rest.split_at(piece);
        match stdin.write_all(now) {
            Err(error) if error.kind() == io::ErrorKind::BrokenPipe => return Ok(()),
            result => result?,
        }
        rest = later;
    }
    Ok(())
}

/// The lengths of the pieces, which add up to the whole.
fn some_pieces(mut length: usize, random: &mut Random) -> Vec<usize> {
    let longest = random.pick(&[7, 39, 41, 100, 5_000, 100_000]);
    let longest = longest.max(length / 500);
    let mut pieces = Vec::new();
    while length > 0 {
        let piece = (random.index(longest) + 1).min(length);
        pieces.push(piece);
        length -= piece;
    }
    pieces
}

/// A journal: valid, spoiled, cut off, or noise; and the event that tells which.
pub fn some_journal(random: &mut Random) -> (Vec<u8>, Event) {
    if random.chance(1, 12) {
        return (noise(random), Event::JournalNoise);
    }
    let mut journal = some_records(random);
    if random.chance(1, 6) {
        journal.truncate(random.index(journal.len() + 1));
        return (journal, Event::JournalCut);
    }
    (journal, Event::JournalWhole)
}

/// Random bytes, in half of the cases after a setup.
fn noise(random: &mut Random) -> Vec<u8> {
    let mut bytes = vec![0; random.index(400)];
    random.fill(&mut bytes);
    if random.chance(1, 2) {
        bytes.splice(..0, setup_entry(1, 2, 1, 5));
    }
    bytes
}

/// The local time of each replica of a journal.
struct Clocks {
    times: Vec<u64>,
    pace: u64,
}

impl Clocks {
    fn new(replicas: u8, delta: u64, random: &mut Random) -> Clocks {
        let start = random.pick(&[0, 100, TIME_LIMIT.0 - 5 * delta - 5]);
        let pace = random.pick(&[0, 1, delta / 8, delta, 2 * delta + 2]);
        Clocks { times: vec![start; usize::from(replicas) + 1], pace }
    }

    /// Goes on and gives the time, now and then one that is refused.
    fn next(&mut self, replica: u8, random: &mut Random) -> u64 {
        let time = &mut self.times[usize::from(replica)];
        *time = (*time + random.below(self.pace + 1)).min(TIME_LIMIT.0);
        match random.below(60) {
            0 => TIME_LIMIT.0 + 1,
            1 => random.below(*time + 1),
            _ => *time,
        }
    }
}

/// A setup and the records of a unit, some of them spoiled.
pub fn some_records(random: &mut Random) -> Vec<u8> {
    let cast = Cast::random(random);
    let delta = random.pick(&[0, 1, 5, 5, 40, DELTA_LIMIT]);
    let spoiling = random.pick(&[0, 0, 30, 200]);
    let steps = random.pick(&[3, 8, 30, 300]);
    let size = some_size(random) * ENTRY_SIZE;
    let mut clocks = Clocks::new(cast.replicas(), delta, random);
    let mut traffic = Traffic::new(cast, random);
    let mut journal = some_setup(cast, delta, random).to_vec();
    while journal.len() < size {
        let mut records = if random.chance(1, steps) {
            steps_of_all(cast, &mut clocks, random)
        } else {
            deliveries_to_all(cast, traffic.next(random).encode(), &mut clocks, random)
        };
        if random.chance(spoiling, 1_000) {
            spoil(cast, &mut records, random);
        }
        journal.extend(records);
    }
    journal
}

/// About how many records a journal has.
fn some_size(random: &mut Random) -> usize {
    match random.below(40) {
        0 => 2_000 + random.index(1_000),
        1..=5 => 8 * PENDING_LIMIT,
        _ => random.index(150),
    }
}

fn some_setup(cast: Cast, delta: u64, random: &mut Random) -> [u8; ENTRY_SIZE] {
    let mut setup = setup_entry(cast.k, cast.groups, cast.owner, delta);
    match random.below(40) {
        0 => setup[16] = 4,
        1 => setup[17] = random.pick(&[0, 5]),
        2 => setup[18] = random.pick(&[0, cast.groups + 1]),
        3 => setup = setup_entry(cast.k, cast.groups, cast.owner, DELTA_LIMIT + 1),
        4 => setup[1] = 1,
        5 => setup[0] = random.pick(&[0, 2, 3, 4]),
        6 => setup[2 + random.index(6)] = 1,
        7 => setup[19 + random.index(21)] = 1,
        _ => {}
    }
    setup
}

/// One request to each replica, in any order.
fn deliveries_to_all(
    cast: Cast,
    request: [u8; RECORD_SIZE],
    clocks: &mut Clocks,
    random: &mut Random,
) -> Vec<u8> {
    let mut replicas: Vec<u8> = (1..=cast.replicas()).collect();
    random.shuffle(&mut replicas);
    replicas
        .into_iter()
        .flat_map(|replica| delivery_entry(replica, clocks.next(replica, random), &request))
        .collect()
}

fn steps_of_all(cast: Cast, clocks: &mut Clocks, random: &mut Random) -> Vec<u8> {
    (1..=cast.replicas())
        .flat_map(|replica| step_entry(replica, clocks.next(replica, random)))
        .collect()
}

/// Spoils one of some records.
fn spoil(cast: Cast, records: &mut [u8], random: &mut Random) {
    let start = random.index(records.len() / ENTRY_SIZE) * ENTRY_SIZE;
    let record = &mut records[start..start + ENTRY_SIZE];
    match random.below(8) {
        0 => record[0] = random.pick(&[0, 1, 4, 255]),
        1 => record[1] = random.pick(&[0, cast.replicas() + 1, 255]),
        2 => record[2 + random.index(6)] = 1,
        3 => record[16 + random.index(6)] = random.pick(&[0, 5, 255]),
        4 => damage(&mut record[16..], random),
        5 => damage(&mut record[8..16], random),
        6 => record.copy_from_slice(&setup_entry(cast.k, cast.groups, cast.owner, 5)),
        _ => damage(record, random),
    }
}
