//! A journal that comes in blocks, as the C functions play it.

use super::journal::{Player, ENTRY_SIZE, MEMORY};

/// The text that must be free for a record to be played: the lines of the most
/// messages of a step, were each of their numbers the longest.
pub const TEXT_ROOM: usize = 8_844;
/// The place that no record is played at.
pub const LAST_PLACE: u64 = u64::MAX;

impl Player {
    /// The place of the next record, from 1; a unit may be lent with the place 0.
    pub fn place(&self) -> u64 {
        self.played.wrapping_add(1)
    }

    /// Plays the whole records of a block while there is room for their lines,
    /// and gives how many bytes of it were played.
    pub fn play_block(&mut self, block: &[u8], room: usize, text: &mut Vec<u8>) -> usize {
        let mut taken = 0;
        for record in block.chunks_exact(ENTRY_SIZE) {
            let free = room - text.len();
            if free < TEXT_ROOM || self.stopped() || self.place() == LAST_PLACE {
                break;
            }
            self.play(record, text).expect(MEMORY);
            taken += ENTRY_SIZE;
        }
        taken
    }

    /// The end of the input: the text of what is left of it, which is refused as a
    /// part of a record whatever its length, and of the replicas.
    pub fn play_end(&mut self, rest: &[u8]) -> Vec<u8> {
        let mut text = Vec::new();
        if !rest.is_empty() && !self.stopped() {
            self.play(&rest[..rest.len().min(ENTRY_SIZE - 1)], &mut text).expect(MEMORY);
        }
        self.print_replicas(&mut text).expect(MEMORY);
        text
    }
}

#[cfg(test)]
mod tests {
    use super::super::journal::{delivery_entry, play_bytes, setup_entry, step_entry};
    use super::super::record::{RequestFields, READ};
    use super::*;

    /// A unit that replies, refuses a second setup and gets a part of a record last.
    fn journal() -> Vec<u8> {
        let read = RequestFields { kind: READ, group: 1, process: 1, ..Default::default() };
        let setup = setup_entry(0, 1, 1, 5);
        let records = [setup, delivery_entry(1, 100, &read.encode()), setup, step_entry(1, 106)];
        [&records.concat()[..], &[0]].concat()
    }

    /// The whole journal in blocks of one length.
    fn in_blocks(journal: &[u8], length: usize) -> Vec<u8> {
        let (mut player, mut rest, mut whole) = (Player::default(), journal, Vec::new());
        while rest.len() >= ENTRY_SIZE && !player.stopped() {
            let mut text = Vec::new();
            let block = &rest[..length.min(rest.len())];
            let taken = player.play_block(block, TEXT_ROOM, &mut text);
            assert!(taken > 0);
            rest = &rest[taken..];
            whole.extend(text);
        }
        whole.extend(player.play_end(rest));
        whole
    }

    #[test]
    fn blocks_of_any_length_have_the_text_of_the_whole() {
        let journal = journal();
        assert_eq!(play_bytes(&journal), b"no 3 19\nreply 1 1 1 0 0 0\nno 5 18\ncard 1 0 0\n");
        for journal in [&journal[..], &journal[ENTRY_SIZE..], &journal[..7], &[]] {
            for length in ENTRY_SIZE..=journal.len().max(ENTRY_SIZE) {
                assert_eq!(in_blocks(journal, length), play_bytes(journal));
            }
        }
    }

    #[test]
    fn what_is_left_at_the_end_is_refused_whatever_its_length() {
        let journal = journal();
        for length in 1..=journal.len() {
            assert_eq!(Player::default().play_end(&journal[..length]), b"no 1 18\n");
        }
        let mut player = Player::default();
        player.play_block(&journal[..ENTRY_SIZE], TEXT_ROOM, &mut Vec::new());
        assert_eq!(player.play_end(&journal[ENTRY_SIZE..]), b"no 2 18\ncard 1 0 0\n");
    }

    #[test]
    fn nothing_is_played_without_a_whole_record_room_or_a_place() {
        let journal = journal();
        let taken = |player: &mut Player, length: usize, room| {
            player.play_block(&journal[..length], room, &mut Vec::new())
        };
        let mut player = Player::default();
        assert_eq!(taken(&mut player, ENTRY_SIZE - 1, TEXT_ROOM), 0);
        assert_eq!(taken(&mut player, ENTRY_SIZE, TEXT_ROOM - 1), 0);
        assert_eq!(player.played, 0);
        assert_eq!(taken(&mut player, ENTRY_SIZE, TEXT_ROOM), ENTRY_SIZE);
        player.played = LAST_PLACE - 2;
        assert_eq!(taken(&mut player, 3 * ENTRY_SIZE, 3 * TEXT_ROOM), ENTRY_SIZE);
        assert_eq!(player.place(), LAST_PLACE);
    }
}
