//! The drill sheet of document 02, A1: every small session, with the figures
//! of the register machine.

use std::fmt::Write;

use super::machine::Machine;
use super::record::{Operation, Request};
use super::{Timestamp, FAILED};

/// What each process chose at each timestamp, as the sheet prints it.
pub type Choices = [u8; 4];

/// The process and the timestamp of each digit.
const CHOOSERS: [(u8, u64); 4] = [(1, 1), (2, 1), (1, 2), (2, 2)];

/// The variable that a session reads and writes.
const VARIABLE: u8 = 1;

/// All sessions, counted from 0000 up.
pub fn sessions() -> Vec<Choices> {
    let mut all = vec![[0; 4]];
    while let Some(next) = successor(all[all.len() - 1]) {
        all.push(next);
    }
    all
}

/// One more, with a carry to the left.
fn successor(mut choices: Choices) -> Option<Choices> {
    for digit in choices.iter_mut().rev() {
        if *digit < 3 {
            *digit += 1;
            return Some(choices);
        }
        *digit = 0;
    }
    None
}

/// The requests of a session, in the order of its digits.
pub fn requests(choices: &Choices) -> Vec<Request> {
    let mut asked = Vec::new();
    for (&choice, &(process, timestamp)) in choices.iter().zip(&CHOOSERS) {
        let operation = match choice {
            0 => continue,
            1 => Operation::Read,
            2 => Operation::Write(1),
            3 => Operation::Write(2),
            _ => panic!("no such choice: {choice}"),
        };
        let timestamp = Timestamp(timestamp);
        asked.push(Request { group: 1, process, variable: VARIABLE, timestamp, operation });
    }
    asked
}

/// Every order of some requests.
pub fn orders(requests: &[Request]) -> Vec<Vec<Request>> {
    if requests.is_empty() {
        return vec![Vec::new()];
    }
    let mut all = Vec::new();
    for first in 0..requests.len() {
        let mut rest = requests.to_vec();
        let request = rest.remove(first);
        for mut order in orders(&rest) {
            order.insert(0, request);
            all.push(order);
        }
    }
    all
}

/// The frozen mark, variable 1 and the writes performed.
#[derive(Clone, Copy, Debug, PartialEq, Eq)]
pub struct Figures {
    pub failed: u32,
    pub value: u32,
    pub writes: u64,
}

/// What a session leaves, by the register machine.
pub fn figures(choices: &Choices) -> Figures {
    let machine = Machine::run(1, 1, &requests(choices));
    Figures {
        failed: machine.variables[FAILED],
        value: machine.variables[usize::from(VARIABLE)],
        writes: machine.writes,
    }
}

/// The sheet.
pub fn sheet() -> String {
    let mut text = String::new();
    for (place, choices) in sessions().iter().enumerate() {
        let digits: String = choices.iter().map(|&choice| char::from(b'0' + choice)).collect();
        let Figures { failed, value, writes } = figures(choices);
        writeln!(text, "{place} {digits} {failed} {value} {writes}").expect("a string");
    }
    text
}

#[cfg(test)]
mod tests {
    use super::super::replica::Replica;
    use super::super::{LocalTime, OUTPUT_SIZE};
    use super::*;

    const DELTA: u64 = 5;

    #[test]
    fn there_are_256_lines() {
        let text = sheet();
        assert_eq!(text.lines().count(), 256);
        assert_eq!(text.lines().next(), Some("0 0000 0 0 0"));
        assert_eq!(text.lines().nth(128), Some("128 2000 1 0 0"));
        assert_eq!(text.lines().nth(160), Some("160 2200 0 1 1"));
        assert_eq!(text.lines().last(), Some("255 3333 0 2 2"));
    }

    /// A replica that gets the requests one time unit apart, and is closed by a step.
    fn fed(number: u8, order: &[Request]) -> Replica {
        let mut replica = Replica::make(1, 1, 1, DELTA, number).expect("a replica");
        let mut now = 100;
        for request in order {
            now += 1;
            replica.deliver(&request.encode(), LocalTime(now)).expect("accepted");
        }
        replica.step(LocalTime(now + DELTA + 1), &mut [0; OUTPUT_SIZE]).expect("accepted");
        replica
    }

    #[test]
    fn the_models_replica_reaches_them_in_every_order() {
        for choices in sessions() {
            for order in orders(&requests(&choices)) {
                for number in 1..=3 {
                    let r = fed(number, &order);
                    let (failed, value) = (r.variables[FAILED], r.variables[1]);
                    let reached = Figures { failed, value, writes: r.writes };
                    assert_eq!(reached, figures(&choices), "{choices:?} as {order:?}");
                }
            }
        }
    }
}
