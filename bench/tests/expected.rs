//! The expected texts of crates/cases, crates/journal and crates/drill are what the model says.

use std::fmt::Write;
use std::fs;
use std::path::PathBuf;

use bench::model::drill::sheet;
use bench::model::journal::play_bytes;
use bench::model::record::{
    read_message, read_request, write_message, write_request, MessageFields, RequestFields,
};
use bench::model::replica::Replica;
use bench::model::vote::{count_halts, vote, Election, HaltCount, Query};
use bench::model::{LocalTime, Refusal, Timestamp, RECORD_SIZE};

/// What a lent destination or output holds before a call.
const BEFORE: u8 = 170;

fn file(name: &str) -> Vec<u8> {
    let path = PathBuf::from(env!("CARGO_MANIFEST_DIR")).join("../crates").join(name);
    fs::read(&path).unwrap_or_else(|error| panic!("{}: {error}", path.display()))
}

fn text(name: &str) -> String {
    String::from_utf8(file(name)).expect("text")
}

/// The decimal numbers of a line.
struct Numbers(Vec<u64>);

impl Numbers {
    fn of(line: &str) -> Numbers {
        let digits = line.split(|c: char| !c.is_ascii_digit()).filter(|part| !part.is_empty());
        Numbers(digits.map(|part| part.parse().expect("64 bits")).collect())
    }

    fn long(&self, i: usize) -> u64 {
        self.0[i]
    }

    fn byte(&self, i: usize) -> u8 {
        self.0[i].try_into().expect("a byte")
    }

    fn bytes(&self, from: usize) -> Vec<u8> {
        (from..self.0.len()).map(|i| self.byte(i)).collect()
    }

    fn request(&self, from: usize) -> RequestFields {
        RequestFields {
            kind: self.byte(from),
            group: self.byte(from + 1),
            process: self.byte(from + 2),
            variable: self.long(from + 3).try_into().expect("16 bits"),
            timestamp: Timestamp(self.long(from + 4)),
            value: self.long(from + 5).try_into().expect("32 bits"),
        }
    }

    fn message(&self, from: usize) -> MessageFields {
        MessageFields {
            kind: self.byte(from),
            group: self.byte(from + 1),
            process: self.byte(from + 2),
            replica: self.byte(from + 3),
            variable: self.long(from + 4).try_into().expect("16 bits"),
            timestamp: Timestamp(self.long(from + 5)),
            value: self.long(from + 6).try_into().expect("32 bits"),
        }
    }
}

fn show_request(r: &RequestFields) -> String {
    let (variable, timestamp, value) = (r.variable, r.timestamp.0, r.value);
    format!(" {} {} {} {variable} {timestamp} {value}", r.kind, r.group, r.process)
}

fn show_message(m: &MessageFields) -> String {
    let (variable, timestamp, value) = (m.variable, m.timestamp.0, m.value);
    format!(" {} {} {} {} {variable} {timestamp} {value}", m.kind, m.group, m.process, m.replica)
}

fn show_bytes(bytes: &[u8]) -> String {
    bytes.iter().fold(" :".to_string(), |mut text, byte| {
        write!(text, " {byte}").expect("a string");
        text
    })
}

fn answer<T>(result: Result<T, Refusal>, show: impl FnOnce(T) -> String) -> String {
    match result {
        Ok(given) => format!(" -> {}", show(given)),
        Err(refusal) => format!(" -> refused {}", refusal.number()),
    }
}

/// What is kept from line to line. Where no call makes the replica, there is none.
struct Script {
    replica: Option<Replica>,
    heard: Vec<MessageFields>,
}

impl Script {
    /// What stands behind a line; nothing is said where there is no replica.
    fn play(&mut self, line: &str) -> Option<String> {
        let n = Numbers::of(line);
        Some(match line.split(' ').next().expect("a word") {
            "read_request" => answer(read_request(n.byte(0), n.byte(1), &n.bytes(2)), |r| {
                format!("accepted{}", show_request(&r.fields()))
            }),
            "read_message" => answer(read_message(n.byte(0), n.byte(1), &n.bytes(2)), |m| {
                format!("accepted{}", show_message(&m.fields()))
            }),
            "write_request" => write_into(n.byte(2), |destination| {
                write_request(n.byte(0), n.byte(1), &n.request(3), destination)
            }),
            "write_message" => write_into(n.byte(2), |destination| {
                write_message(n.byte(0), n.byte(1), &n.message(3), destination)
            }),
            "make" => self.make(&n),
            "spoil" => {
                self.replica = None;
                return None;
            }
            "deliver" => self.deliver(&n)?,
            "step" => self.step(&n)?,
            "clear" => {
                self.heard.clear();
                String::new()
            }
            "hear" => {
                self.heard.push(n.message(0));
                String::new()
            }
            "vote" => self.vote(&n),
            "halts" => self.halts(&n),
            word => {
                assert!(word.starts_with('#'), "no such line: {line}");
                String::new()
            }
        })
    }

    fn make(&mut self, n: &Numbers) -> String {
        let made = Replica::make(n.byte(0), n.byte(1), n.byte(2), n.long(3), n.byte(4));
        self.replica = None;
        answer(made, |replica| {
            self.replica = Some(replica);
            "done".to_string()
        })
    }

    fn deliver(&mut self, n: &Numbers) -> Option<String> {
        let replica = self.replica.as_mut()?;
        let said = answer(replica.deliver(&n.bytes(1), LocalTime(n.long(0))), |()| "done".into());
        Some(said + &figures(replica))
    }

    fn step(&mut self, n: &Numbers) -> Option<String> {
        let replica = self.replica.as_mut()?;
        let mut output = vec![BEFORE; n.long(1).try_into().expect("a length")];
        let stepped = replica.step(LocalTime(n.long(0)), &mut output);
        let (k, groups) = (replica.settings.k(), replica.settings.groups());
        let said = answer(stepped, |count| {
            output.chunks(RECORD_SIZE).take(count).fold(format!("sent {count}"), |said, record| {
                let message = read_message(k, groups, record).expect("a message");
                format!("{said} :{}", show_message(&message.fields()))
            })
        });
        let kept = output.iter().rev().take_while(|&&byte| byte == BEFORE).count();
        Some(format!("{said} kept {kept}{}", figures(replica)))
    }

    fn vote(&self, n: &Numbers) -> String {
        let query = Query {
            group: n.byte(2),
            process: n.byte(3),
            variable: n.long(4).try_into().expect("16 bits"),
            timestamp: Timestamp(n.long(5)),
        };
        answer(vote(n.byte(0), n.byte(1), &query, &self.heard), |election| {
            let Election { value, agreed, other, silent } = election;
            format!("value {value} agreed {agreed} other {other} silent {silent}")
        })
    }

    fn halts(&self, n: &Numbers) -> String {
        let counted = count_halts(n.byte(0), n.byte(1), n.byte(2), n.byte(3), &self.heard);
        answer(counted, |HaltCount { senders, size, halt }| {
            format!("count {size} senders {senders}{}", if halt { " halt" } else { "" })
        })
    }
}

fn write_into(room: u8, write: impl Fn(&mut [u8]) -> Result<(), Refusal>) -> String {
    let mut destination = vec![BEFORE; room.into()];
    answer(write(&mut destination), |()| "done".into()) + &show_bytes(&destination)
}

/// Variables 0 and 4, the writes, the pending requests of each group and the last local time.
fn figures(r: &Replica) -> String {
    let (failed, four, writes, last) = (r.variables[0], r.variables[4], r.writes, r.last.0);
    let [one, two, three, fourth] = r.queues.each_ref().map(Vec::len);
    format!(" ; {failed} {four} {writes} {one} {two} {three} {fourth} {last}")
}

#[test]
fn cases_are_the_models() {
    let (script, expected) = (text("cases/stdin"), text("cases/stdout"));
    assert_eq!(script.lines().count(), expected.lines().count());
    let mut state = Script { replica: None, heard: Vec::new() };
    let mut compared = 0;
    for (line, stands) in script.lines().zip(expected.lines()) {
        if let Some(said) = state.play(line) {
            assert_eq!(format!("{line}{said}"), stands);
            compared += 1;
        }
    }
    println!("{compared} lines of {} compared", script.lines().count());
    assert!(compared > 1000);
}

#[test]
fn journals_are_the_models() {
    let mut said = Vec::new();
    for name in text("journal/args").lines() {
        said.extend(format!("== {name}\n").bytes());
        let input = if name == "-" { "stdin".into() } else { format!("data/{name}") };
        said.extend(play_bytes(&file(&format!("journal/{input}"))));
    }
    assert!(said == file("journal/stdout"), "crates/journal/stdout is not the model's");
}

#[test]
fn drill_sheet_is_the_models() {
    let expected = text("drill/stdout");
    for (line, stands) in sheet().lines().zip(expected.lines()) {
        assert_eq!(line, stands);
    }
    assert_eq!(sheet(), expected);
}
