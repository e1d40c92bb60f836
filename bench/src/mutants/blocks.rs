//! A journal in blocks, as each mutant plays it.

use std::mem::replace;

use super::arrays::{load_end, Arrays};
use super::list::{chosen, is, Mutant};
use crate::convert::to_player;
use crate::ffi;
use crate::model::blocks::{LAST_PLACE, TEXT_ROOM};
use crate::model::journal::{Player, ENTRY_SIZE};
use crate::model::replica::Replica;
use crate::model::K_LIMIT;

pub fn play_block(
    p: ffi::Player,
    block: &[u8],
    mut arrays: Arrays,
    text: &mut [u8],
) -> ffi::BlockResult {
    let Some(mut player) = load(p, &arrays) else { return skip(p, block, text.len()) };
    let mut lines = Vec::new();
    let taken = play_records(&mut player, block, text.len(), &mut lines);
    if let (true, Some(unit)) = (taken > 0 || !lines.is_empty(), &player.unit) {
        arrays.store(unit, p.stage == 0);
    }
    lines.truncate(text.len());
    text[..lines.len()].copy_from_slice(&lines);
    if is(Mutant::TextBehindCleared) {
        text[lines.len()..].fill(0);
    }
    if is(Mutant::RefusedSetupClears) && p.stage == 0 && player.stopped() {
        arrays.writes.fill(0);
    }
    let mut after = to_player(&player);
    if is(Mutant::SettingsKept) && after.stage == 2 {
        after.settings = p.settings;
    }
    ffi::BlockResult { player: after, taken, used: lines.len() }
}

/// The model's player, if the unit is one that calls leave.
fn load(p: ffi::Player, arrays: &Arrays) -> Option<Player> {
    let known = p.stage <= 2 || !is(Mutant::StageSetUp);
    arrays.load(if known { p } else { ffi::Player { stage: 1, ..p } })
}

/// Of a unit that no call leaves the records are taken without a line, unless its k
/// is past 3.
fn skip(p: ffi::Player, block: &[u8], room: usize) -> ffi::BlockResult {
    let plays = (p.settings.k <= K_LIMIT || is(Mutant::AnyK)) && room >= least_room();
    let whole = if plays { (block.len() / ENTRY_SIZE) as u64 } else { 0 };
    let records = whole.min(LAST_PLACE - p.place);
    let player = ffi::Player { place: p.place + records, ..p };
    ffi::BlockResult { player, taken: records as usize * ENTRY_SIZE, used: 0 }
}

/// The end of a unit without a k has no text.
pub fn play_end(
    p: ffi::Player,
    rest: &[u8],
    variables: &[u32; ffi::VARIABLES],
    writes: &[u64; ffi::REPLICAS],
    text: &mut [u8],
) -> usize {
    let Some(mut player) = load_end(p, variables, writes) else { return 0 };
    let mut lines = Vec::new();
    let mut rest = rest;
    if is(Mutant::RecordLeftPlayed) {
        let taken = play_records(&mut player, rest, TEXT_ROOM, &mut lines);
        rest = &rest[taken..];
    }
    lines.extend(player.clone().play_end(rest));
    if is(Mutant::ReplicasBeforeLastRecord) {
        let replicas = player.play_end(&[]);
        let last = lines.len() - replicas.len();
        lines.rotate_left(last);
    }
    let used = lines.len().min(text.len());
    text[..used].copy_from_slice(&lines[..used]);
    if is(Mutant::CutOffCounted) {
        return lines.len();
    }
    used
}

/// Plays the records of a block; how many bytes of it were taken.
fn play_records(player: &mut Player, block: &[u8], room: usize, lines: &mut Vec<u8>) -> usize {
    let mut taken = 0;
    let least = least_room();
    for record in block.chunks_exact(ENTRY_SIZE) {
        if room.saturating_sub(lines.len()) < least || !goes_on(player) {
            return taken;
        }
        play(player, record, lines);
        taken += ENTRY_SIZE;
    }
    let (whole, part) = block.split_at(taken);
    if is(Mutant::LastOfBlockTwice) && taken > 0 {
        play(player, &whole[taken - ENTRY_SIZE..], lines);
    }
    if is(Mutant::PartOfBlockPlayed) && !part.is_empty() && room >= TEXT_ROOM && goes_on(player) {
        play(player, part, lines);
    }
    taken
}

/// How many bytes of the text must be free for a record.
fn least_room() -> usize {
    if is(Mutant::TextCut) {
        1
    } else {
        TEXT_ROOM - usize::from(is(Mutant::RoomOfOneLess))
    }
}

fn goes_on(player: &Player) -> bool {
    let last = LAST_PLACE - u64::from(is(Mutant::PlaceBeforeLastRefused));
    (!player.stopped() || is(Mutant::StoppedGoesOn)) && player.place() < last
}

/// Plays one record, or a part of one.
fn play(player: &mut Player, record: &[u8], lines: &mut Vec<u8>) {
    match chosen() {
        Some(Mutant::SecondSetupAccepted) if set_up_again(player, record) => {}
        Some(Mutant::ReplicaPutBackElsewhere) => put_back_elsewhere(player, record, lines),
        Some(Mutant::PlacesFromZero) if player.unit.is_none() => {
            play_as_model(player, record, lines);
            player.played -= u64::from(player.unit.is_some());
        }
        _ => play_as_model(player, record, lines),
    }
}

fn play_as_model(player: &mut Player, record: &[u8], lines: &mut Vec<u8>) {
    player.play(record, lines).expect("memory does not fail to be written");
}

/// Makes a new unit, if the record is an allowed setup.
fn set_up_again(player: &mut Player, record: &[u8]) -> bool {
    let mut new = Player { unit: None, played: player.played };
    play_as_model(&mut new, record, &mut Vec::new());
    let accepted = new.unit.is_some();
    if accepted {
        *player = new;
    }
    accepted
}

/// The replica that a record changes takes the place of the next one, not its own.
fn put_back_elsewhere(player: &mut Player, record: &[u8], lines: &mut Vec<u8>) {
    let before = player.unit.clone();
    play_as_model(player, record, lines);
    let (Some(before), Some(unit)) = (before, &mut player.unit) else { return };
    let mut replicas = before.replicas.iter().zip(&unit.replicas);
    if let Some(place) = replicas.position(|(before, now)| before != now) {
        let changed = replace(&mut unit.replicas[place], before.replicas[place].clone());
        let next = (place + 1) % unit.replicas.len();
        let number = unit.replicas[next].number;
        unit.replicas[next] = Replica { number, ..changed };
    }
}
