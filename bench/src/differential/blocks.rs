//! Journals in blocks of any length, with text of any room: through the C
//! functions and through the model.

use super::journals::{describe, note_refusals, same_text, some_journal, some_records};
use super::lent::Lent;
use super::tally::{Call, Event, Tally};
use super::{same, Outcome};
use crate::convert::to_player;
use crate::difference::Difference;
use crate::ffi;
use crate::model::blocks::{LAST_PLACE, TEXT_ROOM};
use crate::model::journal::{play_bytes, Player, ENTRY_SIZE};
use crate::model::{PENDING_LIMIT, QUEUES, QUEUE_LIMIT, VARIABLES};
use crate::random::Random;

/// More room than any call needs.
const MOST_ROOM: usize = 70_000;

/// The two sides while they play one journal.
struct Pair<'a> {
    journal: &'a [u8],
    model: Player,
    other: ffi::Unit,
    /// The text of the other side, and the bytes and the room of its calls.
    text: Vec<u8>,
    calls: Vec<(usize, usize)>,
}

/// One journal from its first record to its end.
pub fn run(random: &mut Random, tally: &mut Tally) -> Outcome {
    tally.event(Event::BlockRun);
    if random.chance(1, 16) {
        return last_places(random, tally);
    }
    let journal = if random.chance(1, 40) { Vec::new() } else { some_journal(random).0 };
    let expected = play_bytes(&journal);
    note_refusals(Call::Play, &expected, tally);
    let mut pair = Pair::new(&journal, random);
    let rest = pair.all_blocks(random, tally)?;
    pair.end(rest, random, tally)?;
    same_text(&expected, &pair.text, || pair.input())
}

/// The last places that there are: at the very last one nothing is played.
fn last_places(random: &mut Random, tally: &mut Tally) -> Outcome {
    let journal = some_records(random);
    let mut pair = Pair::new(&journal, random);
    let (setup, records) = journal.split_at(ENTRY_SIZE);
    pair.block(setup, MOST_ROOM, random, tally)?;
    if pair.model.stopped() {
        return Ok(());
    }
    let place = LAST_PLACE - random.below(4);
    pair.model.played = place - 1;
    pair.other.player.place = place;
    for _ in 0..3 {
        let length = some_length(records.len(), random);
        pair.block(&records[..length], some_room(random), random, tally)?;
    }
    let length = some_length(records.len(), random);
    pair.end(&records[..length], random, tally)
}

impl<'a> Pair<'a> {
    /// Both sides before the first record, with anything in the arrays.
    fn new(journal: &'a [u8], random: &mut Random) -> Pair<'a> {
        let other = ffi::Unit::new(|| random.bits());
        Pair { journal, model: Player::default(), other, text: Vec::new(), calls: Vec::new() }
    }

    /// Plays all whole records, unless the unit stops, and lends one block more,
    /// of which nothing can be taken. What is left comes back.
    fn all_blocks(
        &mut self,
        random: &mut Random,
        tally: &mut Tally,
    ) -> Result<&'a [u8], Difference> {
        let mut rest = self.journal;
        loop {
            let last = rest.len() < ENTRY_SIZE || self.model.stopped();
            let block = &rest[..some_length(rest.len(), random)];
            let taken = self.block(block, some_room(random), random, tally)?;
            rest = &rest[taken..];
            if last {
                return Ok(rest);
            }
        }
    }

    /// One block on both sides; how much of it they took.
    fn block(
        &mut self,
        block: &[u8],
        room: usize,
        random: &mut Random,
        tally: &mut Tally,
    ) -> Result<usize, Difference> {
        self.calls.push((block.len(), room));
        let stopped = self.model.stopped();
        let mut text = Vec::new();
        let taken = self.model.play_block(block, room, &mut text);
        self.note(stopped, block.len() - taken, taken, tally);
        let before = self.other.clone();
        let mut lent = Lent::new(room, random);
        let found = self.other.play_block(block, lent.lend());
        same("bytes taken", taken, found.0, || self.input())?;
        same_lines(&text, found.1, &mut lent, || self.input())?;
        self.same_player()?;
        if taken == 0 {
            same("nothing taken, nothing changed", true, before == self.other, || self.input())?;
        }
        self.same_beyond(&before)?;
        self.text.extend(text);
        Ok(taken)
    }

    /// The player, and the margins of the arrays.
    fn same_player(&self) -> Outcome {
        same("player", to_player(&self.model), self.other.player, || self.input())?;
        same("beside the arrays", true, self.other.keeps_margins(), || self.input())
    }

    /// Where no unit is set up the arrays are as they were; else the replicas past
    /// the unit's are, or new after the setup. What is pending no more is free.
    fn same_beyond(&self, before: &ffi::Unit) -> Outcome {
        let now = &self.other;
        if now.player.stage != 1 {
            let kept = now.same_arrays(before);
            return same("no unit, the arrays stay", true, kept, || self.input());
        }
        let setup = before.player.stage == 0;
        for place in 2 * usize::from(now.player.settings.k) + 1..ffi::REPLICAS {
            let new = of_replica(now, place).iter().all(|number| *number == 0);
            let kept = of_replica(now, place) == of_replica(before, place);
            same("past the unit", true, if setup { new } else { kept }, || self.input())?;
        }
        Ok(())
    }

    /// Counts what was played, and why no more.
    fn note(&self, stopped: bool, left: usize, taken: usize, tally: &mut Tally) {
        tally.events(Event::BlockRecord, (taken / ENTRY_SIZE) as u64);
        let event = match (taken > 0, left >= ENTRY_SIZE) {
            _ if stopped => Event::BlockAfterStop,
            _ if self.model.stopped() => Event::StoppedUnit,
            _ if self.model.place() == LAST_PLACE => Event::LastPlace,
            (true, true) => Event::BlockLeft,
            (false, true) => Event::BlockWithoutRoom,
            (false, false) => Event::BlockWithoutBytes,
            (true, false) => return,
        };
        tally.event(event);
    }

    /// The end of the input on both sides, with less room than its text and with enough.
    fn end(&mut self, rest: &[u8], random: &mut Random, tally: &mut Tally) -> Outcome {
        if self.journal.is_empty() {
            tally.event(Event::EmptyInput);
        }
        if !rest.is_empty() && !self.model.stopped() {
            let whole = rest.len() >= ENTRY_SIZE;
            tally.event(if whole { Event::RecordLeft } else { Event::PartialLast });
        }
        let expected = self.model.play_end(rest);
        if !expected.is_empty() {
            tally.event(Event::ShortEnd);
            let room = random.index(expected.len());
            self.end_with(rest, &expected[..room], room, random)?;
        }
        self.end_with(rest, &expected, expected.len() + random.index(99), random)?;
        self.text.extend(expected);
        Ok(())
    }

    /// The end as a copy of the other side's unit has it.
    fn end_with(&self, rest: &[u8], text: &[u8], room: usize, random: &mut Random) -> Outcome {
        let input = || format!("{}\nend with {} bytes, room {room}", self.input(), rest.len());
        let unit = self.other.clone();
        let mut lent = Lent::new(room, random);
        let used = unit.play_end(rest, lent.lend());
        same_lines(text, used, &mut lent, input)?;
        same("the end changes nothing", true, unit == self.other, input)
    }

    /// The journal, and the calls so far.
    fn input(&self) -> String {
        format!("{}\nbytes and room of each block: {:?}", describe(self.journal), self.calls)
    }
}

/// What stands of a replica in the arrays, but for rows that are free: a count past
/// the places means all of them.
fn of_replica(unit: &ffi::Unit, place: usize) -> Vec<u64> {
    let counts = &unit.counts.cells()[QUEUES * place..][..QUEUES];
    let rows = unit.pending.cells()[PENDING_LIMIT * place..].chunks_exact(QUEUE_LIMIT).zip(counts);
    let pending = rows.flat_map(|(rows, &count)| rows[..count.min(QUEUE_LIMIT)].as_flattened());
    let variables = &unit.variables.cells()[VARIABLES * place..][..VARIABLES];
    let numbers = counts.iter().map(|&count| count as u64).chain(pending.copied());
    let numbers = numbers.chain(variables.iter().map(|&value| value.into()));
    numbers.chain([unit.writes.cells()[place], unit.lasts.cells()[place]]).collect()
}

/// The used bytes must be the text, the others as they were.
fn same_lines(
    text: &[u8],
    used: usize,
    lent: &mut Lent,
    input: impl Fn() -> String + Copy,
) -> Outcome {
    let room = lent.lend().len();
    same("used within the room", true, used <= room, input)?;
    same_text(text, &lent.lend()[..used], input)?;
    let mut bytes = lent.original();
    bytes[..used].copy_from_slice(text);
    lent.check(&bytes, input)
}

/// How many of the bytes that are left a block has.
pub fn some_length(left: usize, random: &mut Random) -> usize {
    let length = match random.below(8) {
        0 => random.pick(&[0, 1]),
        1 => ENTRY_SIZE - 1,
        2 => ENTRY_SIZE,
        3 => ENTRY_SIZE + 1,
        4 => random.index(400),
        5 => random.index(8_000),
        _ => left,
    };
    length.min(left)
}

/// The room of a text, often just enough for one record or just not.
pub fn some_room(random: &mut Random) -> usize {
    match random.below(10) {
        0 => 0,
        1 => TEXT_ROOM - 1,
        2 | 3 => TEXT_ROOM,
        4 => TEXT_ROOM + 1,
        5 => 9_000,
        6 => random.index(TEXT_ROOM),
        _ => random.between(TEXT_ROOM as u64, MOST_ROOM as u64) as usize,
    }
}
