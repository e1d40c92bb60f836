//! The journal program over the model; where JOURNAL_MUTANT is a number, the
//! mutant of that number.

use std::io::{self, Read, Write};

use crate::model::journal::{play_bytes, ENTRY_SIZE};

/// The bug of each mutant, by its number from 1.
pub const MUTANTS: [&str; 8] = [
    "a short read is taken for the end of the input",
    "a part of a record at the end is dropped",
    "places count from 0",
    "the program goes on after a refused first record",
    "replicas without a performed write have no line",
    "records in wrong order are refused without a word",
    "bytes 2 to 7 are not looked at",
    "only the first 64 KiB are read",
];

/// Plays a whole journal.
pub fn play<R: Read, W: Write>(mut input: R, mut text: W) -> io::Result<()> {
    let mutant = chosen();
    let mut journal = read(&mut input, mutant)?;
    match mutant {
        2 => journal.truncate(journal.len() / ENTRY_SIZE * ENTRY_SIZE),
        7 => clear_unused(&mut journal),
        8 => journal.truncate(1 << 16),
        _ => {}
    }
    text.write_all(&spoiled(&journal, mutant))
}

fn chosen() -> usize {
    std::env::var("JOURNAL_MUTANT").ok().and_then(|number| number.parse().ok()).unwrap_or(0)
}

fn read<R: Read>(input: &mut R, mutant: usize) -> io::Result<Vec<u8>> {
    let mut journal = Vec::new();
    if mutant != 1 {
        input.read_to_end(&mut journal)?;
        return Ok(journal);
    }
    let mut part = [0; ENTRY_SIZE];
    loop {
        let length = input.read(&mut part)?;
        journal.extend(&part[..length]);
        if length < ENTRY_SIZE {
            return Ok(journal);
        }
    }
}

fn clear_unused(journal: &mut [u8]) {
    for record in journal.chunks_exact_mut(ENTRY_SIZE) {
        record[2..8].fill(0);
    }
}

fn spoiled(journal: &[u8], mutant: usize) -> Vec<u8> {
    let text = play_bytes(journal);
    match mutant {
        3 => edit(&text, |line| Some(from_0(line))),
        4 if text.starts_with(b"no 1 ") && journal.len() > ENTRY_SIZE => {
            [text, play_bytes(&journal[ENTRY_SIZE..])].concat()
        }
        5 => edit(&text, |line| keep(line, !(line.starts_with("card") && line.ends_with(" 0")))),
        6 => edit(&text, |line| keep(line, !(line.starts_with("no ") && line.ends_with(" 19")))),
        _ => text,
    }
}

/// The text with each line changed or left out.
fn edit(text: &[u8], change: impl Fn(&str) -> Option<String>) -> Vec<u8> {
    let text = String::from_utf8_lossy(text);
    let lines = text.lines().filter_map(change);
    lines.flat_map(|line| (line + "\n").into_bytes()).collect()
}

fn keep(line: &str, yes: bool) -> Option<String> {
    yes.then(|| line.to_string())
}

/// A refusal with its place counted from 0.
fn from_0(line: &str) -> String {
    let mut words: Vec<String> = line.split(' ').map(str::to_string).collect();
    if words[0] == "no" {
        let place: u64 = words[1].parse().unwrap_or(1);
        words[1] = (place - 1).to_string();
    }
    words.join(" ")
}
