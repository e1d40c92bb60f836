//! The journals guests-quiet and guests-loud differ in their guests alone, and so do their texts.

use std::fs;
use std::path::PathBuf;

use bench::model::journal::{DELIVERY, ENTRY_SIZE, STEP};

const JOURNALS: [&str; 2] = ["guests-quiet", "guests-loud"];

fn file(name: &str) -> Vec<u8> {
    let path = PathBuf::from(env!("CARGO_MANIFEST_DIR")).join("../crates/journal").join(name);
    fs::read(&path).unwrap_or_else(|error| panic!("{}: {error}", path.display()))
}

/// The records of a journal and the lines that are expected of it.
struct Case {
    records: Vec<[u8; ENTRY_SIZE]>,
    lines: Vec<String>,
}

impl Case {
    fn of(name: &str) -> Case {
        let bytes = file(&format!("data/{name}"));
        assert_eq!(bytes.len() % ENTRY_SIZE, 0);
        let records = bytes.chunks(ENTRY_SIZE).map(|record| record.try_into().expect("a record"));
        let text = String::from_utf8(file("stdout")).expect("text");
        let title = format!("== {name}");
        let behind = text.lines().skip_while(|line| *line != title).skip(1);
        let lines = behind.take_while(|line| !line.starts_with("==")).map(str::to_string);
        Case { records: records.collect(), lines: lines.collect() }
    }

    fn owner(&self) -> u8 {
        self.records[0][18]
    }

    fn is_guests(&self, record: &[u8; ENTRY_SIZE]) -> bool {
        record[0] == DELIVERY && record[17] != self.owner()
    }

    /// Whether a line says something to the owner or of it.
    fn is_owners(&self, line: &str) -> bool {
        let words: Vec<&str> = line.split(' ').collect();
        match words[0] {
            "reply" | "halt" => words[2] == self.owner().to_string(),
            "no" => {
                let place: usize = words[1].parse().expect("a place");
                !self.is_guests(&self.records[place - 1])
            }
            "card" => true,
            word => panic!("no such line: {word}"),
        }
    }

    /// The owner's lines, and those of the guests.
    fn parts(&self) -> (Vec<&String>, Vec<&String>) {
        self.lines.iter().partition(|line| self.is_owners(line))
    }

    /// Whether a record at a place was refused.
    fn is_refused(&self, place: usize) -> bool {
        self.lines.iter().any(|line| line.starts_with(&format!("no {place} ")))
    }

    /// The local times of a replica's records, in their order.
    fn times(&self, replica: u8) -> Vec<u64> {
        let records = self.records.iter().skip(1).filter(|record| record[1] == replica);
        let time = |record: &[u8; ENTRY_SIZE]| {
            u64::from_be_bytes(record[8..16].try_into().expect("eight bytes"))
        };
        records.map(time).collect()
    }
}

#[test]
fn the_records_differ_in_guests_alone() {
    let [quiet, loud] = JOURNALS.map(Case::of);
    assert_eq!(quiet.records.len(), loud.records.len());
    let mut different = 0;
    for (one, other) in quiet.records.iter().zip(&loud.records) {
        let guests = quiet.is_guests(one) && quiet.is_guests(other) && one[1] == other[1];
        assert!(one == other || guests);
        different += usize::from(one != other);
    }
    assert!(different > 0);
}

#[test]
fn no_reading_goes_back_and_all_turns_are_accepted() {
    for case in JOURNALS.map(Case::of) {
        for replica in 1..=3 {
            let times = case.times(replica);
            assert!(!times.is_empty() && times.is_sorted());
        }
        for (place, record) in (1..).zip(&case.records) {
            assert!(record[0] != STEP || !case.is_refused(place));
        }
    }
}

#[test]
fn the_owners_lines_are_the_same_and_the_guests_are_not() {
    let [quiet, loud] = JOURNALS.map(Case::of);
    let ((owners, guests), (same_owners, other_guests)) = (quiet.parts(), loud.parts());
    assert_eq!(owners, same_owners);
    assert_ne!(guests, other_guests);
    assert!(!guests.is_empty() && !other_guests.is_empty());
    for wanted in ["reply ", "halt ", "card "] {
        assert!(owners.iter().any(|line| line.starts_with(wanted)), "no line {wanted}");
    }
    for wanted in [" 10", " 14"] {
        let refused = |line: &&&String| line.starts_with("no ") && line.ends_with(wanted);
        assert!(owners.iter().any(|line| refused(&line)), "no refusal{wanted}");
    }
}
