//! Units that no call leaves, played in blocks. Where the stage is 0 nothing else
//! matters. Of the others the interface settles less: what the calls take and what
//! becomes of the player, but not the lines of the records; and the whole end.

use super::blocks::{some_length, some_room};
use super::journals::{same_text, some_records};
use super::lent::Lent;
use super::tally::{Event, Tally};
use super::{same, same_lists, Outcome};
use crate::convert::to_player;
use crate::ffi;
use crate::model::blocks::{LAST_PLACE, TEXT_ROOM};
use crate::model::journal::{Player, ENTRY_SIZE};
use crate::model::{FAILED, K_LIMIT, VARIABLES};
use crate::random::Random;
use crate::traffic::Cast;

/// A few blocks and the end with a malformed unit.
pub fn run(random: &mut Random, tally: &mut Tally) -> Outcome {
    tally.event(Event::MalformedUnitRun);
    let journal = some_records(random);
    let mut unit = some_unit(&journal, random);
    for _ in 0..4 {
        let start = random.index(journal.len() / ENTRY_SIZE) * ENTRY_SIZE;
        let length = some_length(journal.len() - start, random);
        block(&mut unit, &journal[start..][..length], random, tally)?;
    }
    // More than a part of a record, too.
    let rest = random.pick(&[0, 1, 39, 40, 41, 400]).min(journal.len());
    end(&unit, &journal[..rest], random, tally)
}

/// A unit before its first record, one that was set up, or one with anything
/// pending; and then spoiled.
fn some_unit(journal: &[u8], random: &mut Random) -> ffi::Unit {
    let mut unit = ffi::Unit::new(|| random.bits());
    match random.below(3) {
        0 => {}
        1 => {
            unit.play_block(&journal[..ENTRY_SIZE], &mut [0; TEXT_ROOM]);
        }
        _ => fill(&mut unit, random),
    }
    for _ in 0..random.between(1, 4) {
        spoil(&mut unit, random);
    }
    unit
}

/// Makes it a unit of which any rows are pending, with some small numbers among
/// them, and whose steps are accepted.
fn fill(unit: &mut ffi::Unit, random: &mut Random) {
    let Cast { k, groups, owner } = Cast::random(random);
    let settings = ffi::Settings { k, groups, owner, delta: 5 };
    unit.player = ffi::Player { stage: 1, settings, place: 2 };
    unit.lasts.lend().fill(0);
    for number in unit.pending.lend().as_flattened_mut() {
        *number >>= random.pick(&[0, 61]);
    }
    for count in unit.counts.lend() {
        *count = random.index(18);
    }
}

fn spoil(unit: &mut ffi::Unit, random: &mut Random) {
    let edge = random.pick(&[0, 1, 16, 17, 64, 255, 1 << 62, LAST_PLACE]);
    let ffi::Player { stage, settings, place } = &mut unit.player;
    match random.below(12) {
        0 | 1 => *stage = random.pick(&[0, 1, 1, 2, 3, 7, 255]),
        2 => settings.k = random.pick(&[0, 3, 4, 200, 255]),
        3 => settings.groups = random.pick(&[0, 1, 4, 5, 255]),
        4 => settings.owner = random.byte(),
        5 => settings.delta = edge,
        6 => *place = edge,
        7 => *place = LAST_PLACE,
        8 => random_cell(unit.counts.lend(), edge as usize, random),
        9 => random_cell(unit.variables.lend(), edge as u32, random),
        10 => random_cell(unit.writes.lend(), edge, random),
        _ => random_cell(unit.lasts.lend(), edge, random),
    }
}

/// Puts something into one cell of an array.
fn random_cell<T>(array: &mut [T], edge: T, random: &mut Random) {
    array[random.index(array.len())] = edge;
}

fn block(unit: &mut ffi::Unit, block: &[u8], random: &mut Random, tally: &mut Tally) -> Outcome {
    let before = unit.clone();
    let p = before.player;
    note(p, tally);
    let room = some_room(random);
    let mut lent = Lent::new(room, random);
    let (taken, used) = unit.play_block(block, lent.lend());
    let input = || format!("a block of {} bytes, room {room}, malformed {p:?}", block.len());
    within(&mut lent, used, unit, input)?;
    same("whole records taken", 0, taken % ENTRY_SIZE, input)?;
    same("taken out of the block", true, taken <= block.len(), input)?;
    let plays = goes_on(p) && block.len() >= ENTRY_SIZE && room >= TEXT_ROOM;
    same("something taken", plays, taken > 0, input)?;
    if !plays {
        same("nothing used", 0, used, input)?;
        same("the arrays stay", true, unit.same_arrays(&before), input)?;
    }
    let records = (taken / ENTRY_SIZE) as u64;
    let expected = match p.stage {
        0 => {
            let (mut model, mut text) = (Player::default(), Vec::new());
            same("bytes taken", model.play_block(block, room, &mut text), taken, input)?;
            same_text(&text, &lent.lend()[..used], input)?;
            to_player(&model)
        }
        1 => ffi::Player { place: p.place.wrapping_add(records), ..p },
        _ => ffi::Player { stage: 2, ..ffi::Player::default() },
    };
    same("player", expected, unit.player, input)
}

/// Counts what is wrong with a player.
fn note(p: ffi::Player, tally: &mut Tally) {
    tally.event(Event::MalformedUnitCall);
    if p.stage > 2 {
        tally.event(Event::MalformedStage);
    }
    if p.stage == 1 && p.settings.k > K_LIMIT {
        tally.event(Event::MalformedK);
    }
    if p.stage == 1 && p.place == LAST_PLACE {
        tally.event(Event::MalformedAtLastPlace);
    }
}

/// Whether a record would be played.
fn goes_on(p: ffi::Player) -> bool {
    p.stage == 0 || p.stage == 1 && p.settings.k <= K_LIMIT && p.place < LAST_PLACE
}

fn end(unit: &ffi::Unit, rest: &[u8], random: &mut Random, tally: &mut Tally) -> Outcome {
    tally.event(Event::MalformedUnitCall);
    let before = unit.clone();
    let mut expected = end_text(unit, rest).into_bytes();
    let room = random.index(2 * expected.len() + 9);
    let mut lent = Lent::new(room, random);
    let used = unit.play_end(rest, lent.lend());
    let p = unit.player;
    let input = || format!("an end with {} bytes left, room {room}, malformed {p:?}", rest.len());
    within(&mut lent, used, unit, input)?;
    expected.truncate(room);
    same_text(&expected, &lent.lend()[..used], input)?;
    same("the end changes nothing", true, before == *unit, input)
}

/// What is left is refused, and there is a line for each replica. Without a unit
/// there is none, and a unit that stopped, or of a k past 3, has no text.
fn end_text(unit: &ffi::Unit, rest: &[u8]) -> String {
    let (place, replicas) = match unit.player {
        ffi::Player { stage: 0, .. } => (1, 0),
        ffi::Player { stage: 1, settings, place } if settings.k <= K_LIMIT => {
            (place, 2 * usize::from(settings.k) + 1)
        }
        _ => return String::new(),
    };
    let refusal = if rest.is_empty() { String::new() } else { format!("no {place} 18\n") };
    let writes = unit.writes.cells().iter().take(replicas);
    let lines = writes.enumerate().map(|(replica, writes)| {
        let mark = unit.variables.cells()[replica * VARIABLES + FAILED];
        format!("card {} {mark} {writes}\n", replica + 1)
    });
    refusal + &lines.collect::<String>()
}

/// What was used is in the text, and nothing else has changed.
fn within(
    lent: &mut Lent,
    used: usize,
    unit: &ffi::Unit,
    input: impl Fn() -> String + Copy,
) -> Outcome {
    let (before, now) = (lent.original(), lent.lend().to_vec());
    same("used out of the text", true, used <= now.len(), input)?;
    same_lists("behind what is used, byte", &before[used..], &now[used..], input)?;
    lent.check_margins(input)?;
    same("beside the arrays", true, unit.keeps_margins(), input)
}
