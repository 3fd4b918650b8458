//! The calls of `nekchhaul.h`, and its types.
use std::os::raw::{c_char, c_ulong};

/// A handle, as the library has it.
#[repr(C)]
pub(crate) struct Handle {
    tag: u64,
    at: *mut u8,
}

impl Handle {
    pub(crate) const NONE: Handle = Handle { tag: 0, at: std::ptr::null_mut() };
}

/// The sizes of a memory, as in `nekchhaul.h`.
#[repr(C)]
#[derive(Clone, Copy, Debug, PartialEq, Eq)]
pub struct Sizes {
    /// 1 to 4,294,967,296; with more than 1,048,576, or more than 62 callers, a multiple of 8,192.
    pub words: usize,
    /// Ownership records, 1 to 16,777,216.
    pub records: usize,
    /// Ring slots, 2 to 4,096.
    pub ring: usize,
    /// A read log's length, 1 to 1,048,576.
    pub reads: usize,
    /// A write log's length, 1 to 1,048,576.
    pub writes: usize,
    /// 0, or the clock of a memory that went before.
    pub clock: u64,
}

#[repr(C)]
#[derive(Default)]
pub(crate) struct State {
    pub(crate) marks: usize,
    pub(crate) stand: u32,
    pub(crate) algorithm: u32,
    pub(crate) irrevocable: u32,
    pub(crate) range: u32,
}

/// How often the calls of a caller came to what, as in `nekchhaul.h`.
#[repr(C)]
#[derive(Clone, Copy, Debug, Default, PartialEq, Eq)]
pub struct Counts {
    /// Attempts that began.
    pub begun: u64,
    /// Attempts that committed what they wrote.
    pub committed: u64,
    /// Attempts that committed, and wrote nothing.
    pub read_only: u64,
    /// Attempts that became irrevocable by a call.
    pub promoted: u64,
    /// Attempts that ended at a full log.
    pub full_logs: u64,
    /// Answers that ask to wait.
    pub waits: u64,
    /// Attempts that ended since the clock had moved.
    pub clock_conflicts: u64,
    /// Since a record was locked, or newer than the start.
    pub record_conflicts: u64,
    /// Since a record moved meanwhile.
    pub moved_conflicts: u64,
    /// Since an entry of the ring met the reads.
    pub filter_conflicts: u64,
    /// Since the ring no longer reached back to the start.
    pub overrun_conflicts: u64,
}

#[repr(C)]
#[derive(Default)]
pub(crate) struct Why {
    pub(crate) status: u32,
    pub(crate) kind: u32,
    pub(crate) first: u64,
    pub(crate) second: u64,
    pub(crate) third: u64,
}

/// A table of handles.
#[repr(C)]
pub(crate) struct Table {
    callers: *mut Handle,
    places: usize,
    free: usize,
    memory: *const u64,
    lock: u32,
}

impl Table {
    pub(crate) const NONE: Table = Table { callers: std::ptr::null_mut(), places: 0, free: 0, memory: std::ptr::null(), lock: 0 };
}

/// How long to pause.
#[repr(C)]
pub(crate) struct Pause {
    times: u32,
    seen: u32,
    at: *const u64,
}

impl Pause {
    pub(crate) const NONE: Pause = Pause { times: 0, seen: 0, at: std::ptr::null() };
}

extern "C" {
    pub(crate) fn nekchhaul_version() -> u32;
    pub(crate) fn nekchhaul_open(sizes: *const Sizes, algorithm: u32, callers: *mut Handle, count: usize) -> u32;
    pub(crate) fn nekchhaul_begin(caller: *mut Handle) -> u32;
    pub(crate) fn nekchhaul_read(caller: *mut Handle, address: usize, value: *mut u64) -> u32;
    pub(crate) fn nekchhaul_peek(caller: *mut Handle, address: usize, value: *mut u64) -> u32;
    pub(crate) fn nekchhaul_read_many(caller: *mut Handle, addresses: *const usize, count: usize, values: *mut u64, places: usize) -> u32;
    pub(crate) fn nekchhaul_write(caller: *mut Handle, address: usize, value: u64) -> u32;
    pub(crate) fn nekchhaul_write_many(caller: *mut Handle, addresses: *const usize, count: usize, values: *const u64, places: usize, taken: *mut usize) -> u32;
    pub(crate) fn nekchhaul_commit(caller: *mut Handle) -> u32;
    pub(crate) fn nekchhaul_become_irrevocable(caller: *mut Handle) -> u32;
    pub(crate) fn nekchhaul_enter(caller: *mut Handle, pause: *mut Pause) -> u32;
    pub(crate) fn nekchhaul_leave(caller: *mut Handle, how: u32, pause: *mut Pause) -> u32;
    pub(crate) fn nekchhaul_reopen(caller: *mut Handle) -> u32;
    pub(crate) fn nekchhaul_checkpoint(caller: *mut Handle, depth: *mut usize) -> u32;
    pub(crate) fn nekchhaul_roll_to(caller: *mut Handle, depth: usize) -> u32;
    pub(crate) fn nekchhaul_drop_marks(caller: *mut Handle, depth: usize) -> u32;
    pub(crate) fn nekchhaul_direct_read(caller: *mut Handle, address: usize, value: *mut u64) -> u32;
    pub(crate) fn nekchhaul_direct_write(caller: *mut Handle, address: usize, value: u64) -> u32;
    pub(crate) fn nekchhaul_reserve(caller: *mut Handle, reads: usize, writes: usize) -> u32;
    pub(crate) fn nekchhaul_state(caller: *mut Handle, state: *mut State) -> u32;
    pub(crate) fn nekchhaul_why(caller: *mut Handle, why: *mut Why) -> u32;
    pub(crate) fn nekchhaul_counts(caller: *mut Handle, counts: *mut Counts) -> u32;
    pub(crate) fn nekchhaul_release(caller: *mut Handle) -> u32;
}

// What the header has in C; the library has it too.
extern "C" {
    pub(crate) fn nekchhaul_status_name(status: u32) -> *const c_char;
    pub(crate) fn nekchhaul_sizes_of(words: usize) -> Sizes;
    pub(crate) fn nekchhaul_learn(to: *mut Handle, from: *mut Handle) -> u32;
    pub(crate) fn nekchhaul_abandon(caller: *mut Handle) -> u32;
    pub(crate) fn nekchhaul_pause(pause: *const Pause);
    pub(crate) fn nekchhaul_wait(caller: *mut Handle) -> u32;
    pub(crate) fn nekchhaul_wake(caller: *mut Handle) -> u32;
    pub(crate) fn nekchhaul_share(table: *mut Table, callers: *mut Handle, count: usize) -> u32;
    pub(crate) fn nekchhaul_join(table: *mut Table, caller: *mut Handle) -> u32;
    pub(crate) fn nekchhaul_part(table: *mut Table, caller: *mut Handle) -> u32;
    pub(crate) fn nekchhaul_part_for_dead(table: *mut Table, caller: *mut Handle) -> u32;
    pub(crate) fn nekchhaul_install_within(caller: *mut Handle, algorithm: u32, tries: c_ulong) -> u32;
    pub(crate) fn nekchhaul_take_range_within(caller: *mut Handle, from: usize, count: usize, tries: c_ulong) -> u32;
    pub(crate) fn nekchhaul_return_range_within(caller: *mut Handle, tries: c_ulong) -> u32;
    pub(crate) fn nekchhaul_end_within(caller: *mut Handle, words: *mut u64, count: usize, tries: c_ulong) -> u32;
}
