//! Safe bindings to Nekchhaul, a verified software transactional memory. Not proved; the calls of the archive are.
//!
//! [`open`] makes a memory of words and as many callers as there are to be threads. A [`Caller`] may go to another thread,
//! and is used through `&mut` alone. [`Caller::atomically`] runs a transaction until it commits, or leaves nothing. A body is a
//! closure that may run more than once, and hands each `Err` of a call on.
//!
//! ```
//! use nekchhaul::{open, Algorithm, Layout, Sizes};
//! let mut layout = Layout::new();
//! let (count, mean) = (layout.place::<u32>(), layout.place::<f64>());
//! let mut callers = open(&Sizes::of(layout.words()), Algorithm::OrecLazy, 2)?;
//! let now = callers[0].atomically(|t| {
//!     let n = t.get(count)? + 1;
//!     t.set(count, n)?;
//!     t.set(mean, 0.5)?;
//!     Ok(n)
//! })?;
//! assert_eq!(now, 1);
//! # Ok::<(), nekchhaul::Status>(())
//! ```
//!
//! Alternatives, and waiting for others: the first body that has something to take.
//!
//! ```
//! # use nekchhaul::{open, Algorithm, Attempt, Sizes, Status};
//! # let mut callers = open(&Sizes::of(2), Algorithm::OrecLazy, 1)?;
//! # callers[0].atomically(|t| t.write(1, 5))?;
//! fn take(t: &mut Attempt<'_>, from: usize) -> Result<u64, Status> {
//!     match t.read(from)? {
//!         0 => t.retry(),
//!         there => t.write(from, there - 1).map(|()| there),
//!     }
//! }
//! let taken = callers[0].atomically(|t| t.or_else(|t| take(t, 0), |t| take(t, 1)))?;
//! assert_eq!(taken, 5);
//! # Ok::<(), Status>(())
//! ```
#![warn(missing_docs, unsafe_op_in_unsafe_fn)]

mod attempt;
mod raw;
mod status;
mod table;
mod word;

pub use attempt::{Attempt, Begun, Hooks};
pub use raw::{Counts, Sizes};
pub use status::Status;
pub use table::Table;
pub use word::{Layout, Value, Word, Words};

use raw::Handle;
use status::told;
use std::os::raw::c_ulong;

impl Sizes {
    /// Sizes to begin with, for so many words.
    pub fn of(words: usize) -> Sizes {
        // SAFETY: it takes a number and gives numbers.
        unsafe { raw::nekchhaul_sizes_of(words) }
    }
}

/// The library's version, 65,536 times the major number, and the minor one; and whether it is proved.
pub fn version() -> (u32, bool) {
    // SAFETY: it takes nothing and gives a number.
    let number = unsafe { raw::nekchhaul_version() };
    (number & 0x7fff_ffff, number & 0x8000_0000 == 0)
}

/// An algorithm.
#[derive(Clone, Copy, Debug, PartialEq, Eq, Hash)]
#[repr(u32)]
#[allow(missing_docs)]
pub enum Algorithm {
    Cgl = 0,
    Tml = 1,
    OrecLazy = 2,
    OrecEager = 3,
    RingSw = 4,
    Serial = 5,
}

impl Algorithm {
    /// Each of them.
    pub const ALL: [Algorithm; 6] =
        [Algorithm::Cgl, Algorithm::Tml, Algorithm::OrecLazy, Algorithm::OrecEager, Algorithm::RingSw, Algorithm::Serial];
}

/// Where a caller stands.
#[derive(Clone, Copy, Debug, PartialEq, Eq)]
pub struct State {
    /// How many marks stand.
    pub marks: usize,
    /// The algorithm of the attempt that it is in.
    pub algorithm: Option<Algorithm>,
    /// Whether that can only be committed.
    pub irrevocable: bool,
    /// Whether it has a range out of the transactions.
    pub has_range: bool,
    /// Whether a range was out as its attempt began.
    pub is_beside_range: bool,
}

impl State {
    fn of(handle: &mut Handle) -> Result<State, Status> {
        let mut at = raw::State::default();
        // SAFETY: both lead to objects of their own.
        told(unsafe { raw::nekchhaul_state(handle, &mut at) })?;
        let in_attempt = at.stand == 1 || at.stand == 2;
        Ok(State {
            marks: at.marks,
            algorithm: Algorithm::ALL.get(at.algorithm as usize).copied().filter(|_| in_attempt),
            irrevocable: at.irrevocable == 1,
            has_range: at.range & 1 != 0,
            is_beside_range: at.range & 2 != 0,
        })
    }
}

/// What came in the way of a caller last; `nekchhaul.h` says what the numbers are.
#[derive(Clone, Copy, Debug, PartialEq, Eq)]
#[allow(missing_docs)]
pub struct Cause {
    pub status: Status,
    pub kind: u32,
    pub first: u64,
    pub second: u64,
    pub third: u64,
}

/// A caller of a memory. When it is dropped it cancels an attempt that was left open, gives a range back, and lets itself go.
pub struct Caller {
    handle: Handle,
    /// Whether a [`Begun`] has been left without being dropped.
    is_open: bool,
}

// SAFETY: a caller may go to another thread, which orders the two; it is used through `&mut` alone, so it isn't `Sync` by
// anything that it offers.
unsafe impl Send for Caller {}

/// Opens a memory of zeros with so many callers.
pub fn open(sizes: &Sizes, algorithm: Algorithm, count: usize) -> Result<Vec<Caller>, Status> {
    let mut handles: Vec<Handle> = (0..count).map(|_| Handle::NONE).collect();
    // SAFETY: the slice is the handles' own.
    let answer = unsafe { raw::nekchhaul_open(sizes, algorithm as u32, handles.as_mut_ptr(), count) };
    // made first, so that what a BUSY has opened goes with them
    let callers = handles.into_iter().map(Caller::of).collect();
    told(answer)?;
    Ok(callers)
}

impl Caller {
    /// Runs a transaction until it commits, and answers what it does. It may stop, under each algorithm: by [`Status::stop`], by a
    /// panic, or by what a call that doesn't fit gave it. Then it has left nothing; but `IRREVOCABLE` says that the body had
    /// made the attempt so, and what it wrote stands. A full log is made longer, up to 1,048,576 items, and then answered as
    /// `LOG_FULL`. Where a body meets another caller's range it is run again once that is back.
    pub fn atomically<T>(&mut self, mut body: impl FnMut(&mut Attempt<'_>) -> Result<T, Status>) -> Result<T, Status> {
        self.atomically_with(&mut (), |t, ()| body(t))
    }

    /// The same with hooks, which the body has too: after each run of the body one of the two is called.
    pub fn atomically_with<T, H: Hooks>(
        &mut self,
        hooks: &mut H,
        body: impl FnMut(&mut Attempt<'_>, &mut H) -> Result<T, Status>,
    ) -> Result<T, Status> {
        self.let_go();
        attempt::run(&mut self.handle, hooks, body)
    }

    /// Begins an attempt by hand, if it can be begun at once. It may go on beside a range that is out.
    pub fn begin(&mut self) -> Result<Begun<'_>, Status> {
        self.let_go();
        Begun::new(&mut self.handle, &mut self.is_open)
    }

    /// With that handle.
    fn of(handle: Handle) -> Caller {
        Caller { handle, is_open: false }
    }

    fn handle_mut(&mut self) -> &mut Handle {
        &mut self.handle
    }

    /// Its handle, which isn't released with it.
    fn into_handle(mut self) -> Handle {
        self.let_go();
        std::mem::replace(&mut self.handle, Handle::NONE)
    }

    /// Ends an attempt whose [`Begun`] was forgotten, so that nothing joins it.
    fn let_go(&mut self) {
        if self.is_open {
            // SAFETY: the handle is this caller's alone.
            unsafe { raw::nekchhaul_abandon(&mut self.handle) };
            self.is_open = false;
        }
    }

    /// One word outside attempts, as it was at one moment. It waits where another is in the way.
    pub fn peek(&mut self, address: usize) -> Result<u64, Status> {
        self.let_go();
        let mut value = 0;
        loop {
            // SAFETY: both lead to objects of their own.
            match told(unsafe { raw::nekchhaul_peek(&mut self.handle, address, &mut value) }) {
                Err(Status::CONFLICT | Status::GATE_CLOSED | Status::HELD) => std::thread::yield_now(),
                answer => return answer.map(|()| value),
            }
        }
    }

    /// After an attempt of [`Caller::begin`] that committed, wrote nothing, and found that it has to wait: returns soon, or once
    /// another caller has committed a write of a word that it read; then look again.
    pub fn wait(&mut self) -> Result<(), Status> {
        // SAFETY: the handle is this caller's alone, here and below.
        told(unsafe { raw::nekchhaul_wait(&mut self.handle) })
    }

    /// Wakes all who sleep by [`Caller::wait`] or in a loop, in its memory.
    pub fn wake(&mut self) -> Result<(), Status> {
        // SAFETY: as above.
        told(unsafe { raw::nekchhaul_wake(&mut self.handle) })
    }

    /// Installs an algorithm, once the others' attempts have ended.
    pub fn install(&mut self, algorithm: Algorithm) -> Result<(), Status> {
        self.install_within(algorithm, 0)
    }

    /// The same in so many tries, 0 for no end of them: `BUSY` or `GATE_CLOSED` after the last.
    pub fn install_within(&mut self, algorithm: Algorithm, tries: c_ulong) -> Result<(), Status> {
        // SAFETY: the handle is this caller's alone, here and below.
        told(unsafe { raw::nekchhaul_install_within(&mut self.handle, algorithm as u32, tries) })
    }

    /// Takes words out of the transactions, once the others' attempts have ended, for this caller alone.
    pub fn take_range(&mut self, from: usize, count: usize) -> Result<(), Status> {
        self.take_range_within(from, count, 0)
    }

    /// The same in so many tries, as [`Caller::install_within`].
    pub fn take_range_within(&mut self, from: usize, count: usize, tries: c_ulong) -> Result<(), Status> {
        // SAFETY: as above.
        told(unsafe { raw::nekchhaul_take_range_within(&mut self.handle, from, count, tries) })
    }

    /// Gives its range back, once the others' attempts have ended.
    pub fn return_range(&mut self) -> Result<(), Status> {
        self.return_range_within(0)
    }

    /// The same in so many tries, as [`Caller::install_within`].
    pub fn return_range_within(&mut self, tries: c_ulong) -> Result<(), Status> {
        // SAFETY: as above.
        told(unsafe { raw::nekchhaul_return_range_within(&mut self.handle, tries) })
    }

    /// Ends the memory, which has so many words, once the others' attempts have ended: they are the memory after all that
    /// was committed. From then on nothing is run.
    pub fn close(&mut self, words: usize) -> Result<Vec<u64>, Status> {
        self.close_within(words, 0)
    }

    /// The same in so many tries, as [`Caller::install_within`].
    pub fn close_within(&mut self, words: usize, tries: c_ulong) -> Result<Vec<u64>, Status> {
        let mut out = vec![0; words];
        // SAFETY: the slice is the vector's own.
        told(unsafe { raw::nekchhaul_end_within(&mut self.handle, out.as_mut_ptr(), words, tries) })?;
        Ok(out)
    }

    /// Reads a word of its range.
    pub fn direct_read(&mut self, address: usize) -> Result<u64, Status> {
        let mut value = 0;
        // SAFETY: both lead to objects of their own.
        told(unsafe { raw::nekchhaul_direct_read(&mut self.handle, address, &mut value) })?;
        Ok(value)
    }

    /// Writes a word of its range.
    pub fn direct_write(&mut self, address: usize, value: u64) -> Result<(), Status> {
        // SAFETY: as above.
        told(unsafe { raw::nekchhaul_direct_write(&mut self.handle, address, value) })
    }

    /// Reads a typed word of its range.
    pub fn direct_get<T: Value>(&mut self, word: Word<T>) -> Result<T, Status> {
        self.direct_read(word.address()).map(T::of_bits)
    }

    /// Writes a typed word of its range.
    pub fn direct_set<T: Value>(&mut self, word: Word<T>, value: T) -> Result<(), Status> {
        self.direct_write(word.address(), value.into_bits())
    }

    /// Makes its logs longer, each 1 to 1,048,576.
    pub fn reserve(&mut self, reads: usize, writes: usize) -> Result<(), Status> {
        // SAFETY: as above.
        told(unsafe { raw::nekchhaul_reserve(&mut self.handle, reads, writes) })
    }

    /// Takes in what another caller of the same memory has seen.
    pub fn learn(&mut self, from: &mut Caller) -> Result<(), Status> {
        // SAFETY: the two handles are these callers' alone.
        told(unsafe { raw::nekchhaul_learn(&mut self.handle, &mut from.handle) })
    }

    /// Where it stands.
    pub fn state(&mut self) -> Result<State, Status> {
        State::of(&mut self.handle)
    }

    /// What its calls came to, counted.
    pub fn counts(&mut self) -> Result<Counts, Status> {
        let mut counts = Counts::default();
        // SAFETY: both lead to objects of their own.
        told(unsafe { raw::nekchhaul_counts(&mut self.handle, &mut counts) })?;
        Ok(counts)
    }

    /// What came in its way last.
    pub fn why(&mut self) -> Result<Option<Cause>, Status> {
        let mut why = raw::Why::default();
        // SAFETY: both lead to objects of their own.
        told(unsafe { raw::nekchhaul_why(&mut self.handle, &mut why) })?;
        let raw::Why { status, kind, first, second, third } = why;
        Ok(told(status).err().map(|status| Cause { status, kind, first, second, third }))
    }
}

impl Drop for Caller {
    fn drop(&mut self) {
        // SAFETY: the handle is this caller's alone, and no caller from here on.
        unsafe {
            raw::nekchhaul_abandon(&mut self.handle);
            raw::nekchhaul_reopen(&mut self.handle);
            raw::nekchhaul_return_range_within(&mut self.handle, 1000);
            raw::nekchhaul_release(&mut self.handle);
        }
    }
}
