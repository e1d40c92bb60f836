//! The C functions of libexport.a, as crates/export/failstop.h declares them,
//! and a safe function for each of them.

#![allow(unsafe_code)]

use std::iter::repeat_with;

/// A process's clock.
#[repr(C)]
#[derive(Clone, Copy, Debug, Default, PartialEq, Eq)]
pub struct Timestamp(pub u64);

/// A replica's clock.
#[repr(C)]
#[derive(Clone, Copy, Debug, Default, PartialEq, Eq)]
pub struct LocalTime(pub u64);

#[repr(C)]
#[derive(Clone, Copy, Debug, Default, PartialEq, Eq)]
pub struct Request {
    pub kind: u8,
    pub group: u8,
    pub process: u8,
    pub variable: u16,
    pub timestamp: Timestamp,
    pub value: u32,
}

#[repr(C)]
#[derive(Clone, Copy, Debug, Default, PartialEq, Eq)]
pub struct Message {
    pub kind: u8,
    pub group: u8,
    pub process: u8,
    pub replica: u8,
    pub variable: u16,
    pub timestamp: Timestamp,
    pub value: u32,
}

#[repr(C)]
#[derive(Clone, Copy, Debug, Default, PartialEq, Eq)]
pub struct Pending {
    pub request: Request,
    pub arrival: LocalTime,
}

/// What a unit is set up with.
#[repr(C)]
#[derive(Clone, Copy, Debug, Default, PartialEq, Eq)]
pub struct Settings {
    pub k: u8,
    pub groups: u8,
    pub owner: u8,
    pub delta: u64,
}

#[repr(C)]
#[derive(Clone, Copy, Debug)]
pub struct Replica {
    pub settings: Settings,
    pub number: u8,
    pub last: LocalTime,
    pub variables: [u32; 256],
    /// Sixteen places for each group, group 1's first; of a group the first
    /// `counts` are pending, the others free.
    pub pending: [Pending; 64],
    pub counts: [usize; 4],
    pub writes: u64,
}

#[repr(C)]
#[derive(Clone, Copy, Debug, Default, PartialEq, Eq)]
pub struct Query {
    pub group: u8,
    pub process: u8,
    pub variable: u16,
    pub timestamp: Timestamp,
}

/// The first `count` messages are the list.
#[repr(C)]
#[derive(Clone, Copy, Debug)]
pub struct List {
    pub messages: [Message; 65],
    pub count: usize,
}

#[repr(C)]
#[derive(Clone, Copy, Debug)]
pub struct RequestResult {
    pub refusal: u8,
    pub request: Request,
}

#[repr(C)]
#[derive(Clone, Copy, Debug)]
pub struct MessageResult {
    pub refusal: u8,
    pub message: Message,
}

#[repr(C)]
#[derive(Clone, Copy, Debug)]
pub struct ReplicaResult {
    pub refusal: u8,
    pub replica: Replica,
}

#[repr(C)]
#[derive(Clone, Copy, Debug)]
pub struct StepResult {
    pub refusal: u8,
    pub count: usize,
    pub replica: Replica,
}

/// A value, and sets of replicas, the lowest bit for replica 1.
#[repr(C)]
#[derive(Clone, Copy, Debug, PartialEq, Eq)]
pub struct Election {
    pub value: u32,
    pub agreed: u8,
    pub other: u8,
    pub silent: u8,
}

#[repr(C)]
#[derive(Clone, Copy, Debug, PartialEq, Eq)]
pub struct VoteResult {
    pub refusal: u8,
    pub election: Election,
}

#[repr(C)]
#[derive(Clone, Copy, Debug, PartialEq, Eq)]
pub struct HaltCount {
    pub senders: u8,
    pub size: u8,
    pub halt: bool,
}

#[repr(C)]
#[derive(Clone, Copy, Debug, PartialEq, Eq)]
pub struct HaltResult {
    pub refusal: u8,
    pub count: HaltCount,
}

/// What goes by value of a unit whose journal is played in blocks.
#[repr(C)]
#[derive(Clone, Copy, Debug, Default, PartialEq, Eq)]
pub struct Player {
    /// 0 before the first record, 1 set up; any other number counts as stopped.
    pub stage: u8,
    pub settings: Settings,
    /// That of the next record; like the settings 0 in the other stages.
    pub place: u64,
}

/// The lines of the first `taken` bytes of a block are the first `used` of the text.
#[repr(C)]
#[derive(Clone, Copy, Debug)]
pub struct BlockResult {
    pub player: Player,
    pub taken: usize,
    pub used: usize,
}

/// The lengths of the arrays of a unit, which are for the seven replicas that it
/// has at most: sixteen places for each of four groups, and how many of each group
/// are pending; 256 variables; and the number of writes and the last local time.
pub const REPLICAS: usize = 7;
pub const PLACES: usize = REPLICAS * 64;
pub const COUNTS: usize = REPLICAS * 4;
pub const VARIABLES: usize = REPLICAS * 256;

extern "C" {
    fn failstop_read_request(k: u8, n: u8, bytes: *const u8, length: usize) -> RequestResult;
    fn failstop_read_message(k: u8, n: u8, bytes: *const u8, length: usize) -> MessageResult;
    fn failstop_write_request(k: u8, n: u8, r: Request, bytes: *mut u8, length: usize) -> u8;
    fn failstop_write_message(k: u8, n: u8, m: Message, bytes: *mut u8, length: usize) -> u8;
    fn failstop_make(u: Settings, number: u8) -> ReplicaResult;
    fn failstop_deliver(
        r: Replica,
        bytes: *const u8,
        length: usize,
        at: LocalTime,
    ) -> ReplicaResult;
    fn failstop_step(r: Replica, at: LocalTime, output: *mut u8, length: usize) -> StepResult;
    fn failstop_vote(k: u8, n: u8, q: Query, list: List) -> VoteResult;
    fn failstop_count_halts(k: u8, n: u8, group: u8, process: u8, list: List) -> HaltResult;
    fn failstop_play_block(
        p: Player,
        block: *const u8,
        length: usize,
        pending: &mut [[u64; 4]; PLACES],
        counts: &mut [usize; COUNTS],
        variables: &mut [u32; VARIABLES],
        writes: &mut [u64; REPLICAS],
        lasts: &mut [u64; REPLICAS],
        text: *mut u8,
        room: usize,
    ) -> BlockResult;
    fn failstop_play_end(
        p: Player,
        rest: *const u8,
        length: usize,
        variables: &[u32; VARIABLES],
        writes: &[u64; REPLICAS],
        text: *mut u8,
        room: usize,
    ) -> usize;
}

// Each call lends a whole slice and passes plain numbers, of which all values
// are allowed, so nothing is asked of the caller.

#[inline]
pub fn read_request(k: u8, n: u8, bytes: &[u8]) -> RequestResult {
    unsafe { failstop_read_request(k, n, bytes.as_ptr(), bytes.len()) }
}

#[inline]
pub fn read_message(k: u8, n: u8, bytes: &[u8]) -> MessageResult {
    unsafe { failstop_read_message(k, n, bytes.as_ptr(), bytes.len()) }
}

#[inline]
pub fn write_request(k: u8, n: u8, request: Request, destination: &mut [u8]) -> u8 {
    unsafe { failstop_write_request(k, n, request, destination.as_mut_ptr(), destination.len()) }
}

#[inline]
pub fn write_message(k: u8, n: u8, message: Message, destination: &mut [u8]) -> u8 {
    unsafe { failstop_write_message(k, n, message, destination.as_mut_ptr(), destination.len()) }
}

#[inline]
pub fn make(u: Settings, number: u8) -> ReplicaResult {
    unsafe { failstop_make(u, number) }
}

#[inline]
pub fn deliver(replica: Replica, bytes: &[u8], at: LocalTime) -> ReplicaResult {
    unsafe { failstop_deliver(replica, bytes.as_ptr(), bytes.len(), at) }
}

#[inline]
pub fn step(replica: Replica, at: LocalTime, output: &mut [u8]) -> StepResult {
    unsafe { failstop_step(replica, at, output.as_mut_ptr(), output.len()) }
}

#[inline]
pub fn vote(k: u8, n: u8, query: Query, list: List) -> VoteResult {
    unsafe { failstop_vote(k, n, query, list) }
}

#[inline]
pub fn count_halts(k: u8, n: u8, group: u8, process: u8, list: List) -> HaltResult {
    unsafe { failstop_count_halts(k, n, group, process, list) }
}

/// An array that is lent, on the heap between two margins that are not.
#[derive(Clone, Debug, PartialEq, Eq)]
pub struct Array<T, const N: usize> {
    cells: Vec<T>,
    margin: T,
}

const MARGIN: usize = 8;

/// Why there are as many cells as are lent.
const BETWEEN: &str = "between the margins stand N";

impl<T: Copy + PartialEq, const N: usize> Array<T, N> {
    fn new(mut any: impl FnMut() -> T) -> Self {
        let margin = any();
        let mut cells = vec![margin; MARGIN];
        cells.extend(repeat_with(any).take(N));
        cells.extend([margin; MARGIN]);
        Array { cells, margin }
    }

    /// The part that is lent.
    pub fn lend(&mut self) -> &mut [T; N] {
        self.cells[MARGIN..].first_chunk_mut().expect(BETWEEN)
    }

    /// The same, to be read.
    pub fn cells(&self) -> &[T; N] {
        self.cells[MARGIN..].first_chunk().expect(BETWEEN)
    }

    fn keeps_margins(&self) -> bool {
        let (before, rest) = self.cells.split_at(MARGIN);
        before.iter().chain(&rest[N..]).all(|cell| *cell == self.margin)
    }
}

/// A unit whose journal is played in blocks.
#[derive(Clone, Debug, PartialEq, Eq)]
pub struct Unit {
    pub player: Player,
    pub pending: Array<[u64; 4], PLACES>,
    pub counts: Array<usize, COUNTS>,
    pub variables: Array<u32, VARIABLES>,
    pub writes: Array<u64, REPLICAS>,
    pub lasts: Array<u64, REPLICAS>,
}

impl Unit {
    /// A unit before its first record; its arrays may hold anything.
    pub fn new(mut any: impl FnMut() -> u64) -> Unit {
        Unit {
            player: Player::default(),
            pending: Array::new(|| [any(), any(), any(), any()]),
            counts: Array::new(|| any() as usize),
            variables: Array::new(|| any() as u32),
            writes: Array::new(&mut any),
            lasts: Array::new(&mut any),
        }
    }

    /// Plays a block; how many bytes of it were taken, and how many of the text used.
    pub fn play_block(&mut self, block: &[u8], text: &mut [u8]) -> (usize, usize) {
        let found = unsafe {
            failstop_play_block(
                self.player,
                block.as_ptr(),
                block.len(),
                self.pending.lend(),
                self.counts.lend(),
                self.variables.lend(),
                self.writes.lend(),
                self.lasts.lend(),
                text.as_mut_ptr(),
                text.len(),
            )
        };
        self.player = found.player;
        (found.taken, found.used)
    }

    /// The end of the input, of which `rest` is left; how many bytes of the text were used.
    pub fn play_end(&self, rest: &[u8], text: &mut [u8]) -> usize {
        unsafe {
            failstop_play_end(
                self.player,
                rest.as_ptr(),
                rest.len(),
                self.variables.cells(),
                self.writes.cells(),
                text.as_mut_ptr(),
                text.len(),
            )
        }
    }

    /// Whether the arrays hold what those of another unit hold.
    pub fn same_arrays(&self, other: &Unit) -> bool {
        *self == Unit { player: self.player, ..other.clone() }
    }

    /// Whether all that stands beside the arrays is as it was.
    pub fn keeps_margins(&self) -> bool {
        self.pending.keeps_margins()
            && self.counts.keeps_margins()
            && self.variables.keeps_margins()
            && self.writes.keeps_margins()
            && self.lasts.keeps_margins()
    }
}
