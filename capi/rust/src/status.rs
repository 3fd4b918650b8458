//! What a call came to.
use crate::raw;
use std::ffi::CStr;
use std::fmt;
use std::num::NonZeroU32;

/// What came in the way of a call, by the numbers of `nekchhaul.h`. A body gives it back by `?`, and the loop that runs it
/// decides.
#[derive(Clone, Copy, PartialEq, Eq, Hash)]
pub struct Status(NonZeroU32);

macro_rules! statuses {
    ($($(#[$about:meta])* $name:ident = $number:literal;)*) => {
        impl Status {
            $($(#[$about])* pub const $name: Status = Status::numbered($number);)*
        }
    };
}

statuses! {
    /// Another transaction came in between.
    CONFLICT = 1;
    /// Another caller holds the gate.
    GATE_CLOSED = 2;
    /// Another attempt has the lock.
    HELD = 3;
    /// Others are in attempts.
    BUSY = 4;
    /// Another commit was faster.
    AGAIN = 5;
    /// A log of 1,048,576 items is full.
    LOG_FULL = 6;
    /// The clock is at its limit: nothing more is committed to this memory.
    CLOCK_FULL = 7;
    /// The attempt can only be committed: what a body wrote that made it so, and then stopped, stands.
    IRREVOCABLE = 8;
    /// Eight marks stand.
    DEEP = 9;
    /// A range is out of the transactions already.
    RANGE_TAKEN = 10;
    /// No attempt is open.
    NO_ATTEMPT = 17;
    /// There is no such word, or no such range.
    ADDRESS = 20;
    /// `malloc` refused.
    MEMORY = 23;
    /// The word was out of the transactions as the attempt began. A body hands it on, and is run again until the range is
    /// back; a loop answers it where the caller has a range itself, or all words are out, as in a closed memory.
    FENCED = 25;
    /// The caller has a range.
    HOLDS_RANGE = 26;
    /// The caller has no range, or the word isn't in it.
    NO_RANGE = 28;
    /// No such mark stands.
    DEPTH = 30;
    /// A log's length isn't 1 to 1,048,576.
    LOGS = 31;
    /// There are fewer places than words or addresses.
    ROOM = 32;
    /// The callers are not of one memory.
    STRANGER = 39;
    /// Of a body: it is to be run again once others have come further.
    RETRY = 49;
    /// Of `learn`: the two handles are one.
    ONE_CALLER = 50;
    /// Of `join`: each caller is with a thread.
    NONE_FREE = 53;
}

/// The least number of a body's own.
const STOP: u32 = 256;

impl Status {
    /// Of the loop's calls, and not for its user: an attempt is open; pause, and enter.
    pub(crate) const RUN: u32 = 51;
    pub(crate) const PAUSE: u32 = 52;

    const fn numbered(number: u32) -> Status {
        match NonZeroU32::new(number) {
            Some(number) => Status(number),
            None => panic!("0 is no status: the call was done"),
        }
    }

    /// A body's own: the transaction is cancelled, and that is answered. `n` is at most 2^31.
    pub const fn stop(n: u32) -> Status {
        assert!(n <= 1 << 31, "a body's own number is at most 2^31");
        Status::numbered(STOP + n)
    }

    /// The `n` of a body's own.
    pub fn stopped(self) -> Option<u32> {
        self.number().checked_sub(STOP)
    }

    /// The number in `nekchhaul.h`.
    pub const fn number(self) -> u32 {
        self.0.get()
    }

    /// The name in `nekchhaul.h`, without its first word.
    pub fn name(self) -> &'static str {
        // SAFETY: each answer leads to a text of the library's that ends with 0 and is never changed.
        unsafe { CStr::from_ptr(raw::nekchhaul_status_name(self.number())) }.to_str().unwrap_or("UNKNOWN")
    }
}

/// The answer of a call of the library's.
pub(crate) fn told(status: u32) -> Result<(), Status> {
    NonZeroU32::new(status).map_or(Ok(()), |number| Err(Status(number)))
}

impl fmt::Display for Status {
    fn fmt(&self, f: &mut fmt::Formatter<'_>) -> fmt::Result {
        match self.stopped() {
            Some(n) => write!(f, "nekchhaul: STOP + {n}"),
            None => write!(f, "nekchhaul: {}", self.name()),
        }
    }
}

impl fmt::Debug for Status {
    fn fmt(&self, f: &mut fmt::Formatter<'_>) -> fmt::Result {
        fmt::Display::fmt(self, f)
    }
}

impl std::error::Error for Status {}
