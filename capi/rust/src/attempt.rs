//! Attempts, and the bodies that run in them.
use crate::raw::{self, Handle, Pause};
use crate::status::told;
use crate::{State, Status, Value, Word};
use std::mem::{forget, replace};
use std::ops::{Deref, DerefMut};
use std::thread;

/// A running attempt. A body hands each `Err` that a call gives on, by `?`.
pub struct Attempt<'a>(&'a mut Handle);

impl Attempt<'_> {
    /// Reads a word.
    pub fn read(&mut self, address: usize) -> Result<u64, Status> {
        let mut value = 0;
        // SAFETY: both lead to objects of their own, and the handle is this attempt's alone, here and below.
        told(unsafe { raw::nekchhaul_read(self.0, address, &mut value) })?;
        Ok(value)
    }

    /// Reads many words in one call, into the first places of as many values or more.
    pub fn read_many(&mut self, addresses: &[usize], values: &mut [u64]) -> Result<(), Status> {
        // SAFETY: both slices are the caller's.
        told(unsafe { raw::nekchhaul_read_many(self.0, addresses.as_ptr(), addresses.len(), values.as_mut_ptr(), values.len()) })
    }

    /// Writes a word.
    pub fn write(&mut self, address: usize, value: u64) -> Result<(), Status> {
        // SAFETY: as above.
        told(unsafe { raw::nekchhaul_write(self.0, address, value) })
    }

    /// Writes the values to these addresses, in turn, in one call. Where one is refused, none after it is written.
    pub fn write_many(&mut self, addresses: &[usize], values: &[u64]) -> Result<(), Status> {
        let mut taken = 0;
        // SAFETY: both slices are the caller's.
        told(unsafe { raw::nekchhaul_write_many(self.0, addresses.as_ptr(), addresses.len(), values.as_ptr(), values.len(), &mut taken) })
    }

    /// Reads a typed word.
    pub fn get<T: Value>(&mut self, word: Word<T>) -> Result<T, Status> {
        self.read(word.address()).map(T::of_bits)
    }

    /// Writes a typed word.
    pub fn set<T: Value>(&mut self, word: Word<T>, value: T) -> Result<(), Status> {
        self.write(word.address(), value.into_bits())
    }

    /// Marks what it has written, and answers how many marks stand.
    pub fn checkpoint(&mut self) -> Result<usize, Status> {
        let mut depth = 0;
        // SAFETY: as above.
        told(unsafe { raw::nekchhaul_checkpoint(self.0, &mut depth) })?;
        Ok(depth)
    }

    /// Rolls back to a mark, which stands on.
    pub fn roll_to(&mut self, depth: usize) -> Result<(), Status> {
        // SAFETY: as above.
        told(unsafe { raw::nekchhaul_roll_to(self.0, depth) })
    }

    /// Drops the marks from one on, and keeps what was written.
    pub fn drop_marks(&mut self, depth: usize) -> Result<(), Status> {
        // SAFETY: as above.
        told(unsafe { raw::nekchhaul_drop_marks(self.0, depth) })
    }

    /// Waits for the attempts of others; from then on this one can only be committed.
    pub fn become_irrevocable(&mut self) -> Result<(), Status> {
        loop {
            // SAFETY: as above.
            match told(unsafe { raw::nekchhaul_become_irrevocable(self.0) }) {
                Err(Status::BUSY) => thread::yield_now(),
                answer => return answer,
            }
        }
    }

    /// Where it stands.
    pub fn state(&mut self) -> Result<State, Status> {
        State::of(self.0)
    }

    /// Has the body run again once others have come further: `return t.retry()`.
    pub fn retry<T>(&mut self) -> Result<T, Status> {
        Err(Status::RETRY)
    }

    /// As [`Attempt::nested`].
    pub fn atomically<T>(&mut self, body: impl FnMut(&mut Attempt<'_>) -> Result<T, Status>) -> Result<T, Status> {
        self.nested(body)
    }

    /// Runs another body, of which nothing is left where it answers an `Err` or panics; where that is `RETRY`, its own stop or a
    /// misuse, the attempt may go on without it. It isn't run, and the answer is `DEEP`, where 8 marks stand. `IRREVOCABLE` where
    /// it couldn't be rolled back.
    pub fn nested<T>(&mut self, mut body: impl FnMut(&mut Attempt<'_>) -> Result<T, Status>) -> Result<T, Status> {
        let depth = self.checkpoint()?;
        let mut part = Part { attempt: self, depth };
        let answer = body(part.attempt);
        if answer.is_err() {
            return part.roll_back().and(answer);
        }
        forget(part);
        self.drop_marks(depth).and(answer)
    }

    /// Runs the first body, and where that is to be retried the second in its place.
    pub fn or_else<T>(
        &mut self,
        first: impl FnMut(&mut Attempt<'_>) -> Result<T, Status>,
        second: impl FnMut(&mut Attempt<'_>) -> Result<T, Status>,
    ) -> Result<T, Status> {
        match self.nested(first) {
            Err(Status::RETRY) => self.nested(second),
            answer => answer,
        }
    }
}

/// An attempt that was begun by [`crate::Caller::begin`]: it goes on beside a range. Where it is dropped it leaves no trace, unless it
/// can only be committed; then it is.
pub struct Begun<'a> {
    attempt: Attempt<'a>,
    is_open: &'a mut bool,
}

impl<'a> Begun<'a> {
    pub(crate) fn new(handle: &'a mut Handle, is_open: &'a mut bool) -> Result<Begun<'a>, Status> {
        // SAFETY: the handle is this caller's alone.
        told(unsafe { raw::nekchhaul_begin(handle) })?;
        *is_open = true;
        Ok(Begun { attempt: Attempt(handle), is_open })
    }

    /// Commits: with `Ok` it took effect at one moment.
    pub fn commit(self) -> Result<(), Status> {
        loop {
            // SAFETY: the handle is this attempt's alone.
            match told(unsafe { raw::nekchhaul_commit(self.attempt.0) }) {
                Err(Status::AGAIN) => thread::yield_now(),
                answer => return answer,
            }
        }
    }

    /// Ends it without a trace. `IRREVOCABLE` where it could only be committed: what it wrote stands.
    pub fn cancel(self) -> Result<(), Status> {
        // SAFETY: the handle is this attempt's alone.
        told(unsafe { raw::nekchhaul_abandon(self.attempt.0) })
    }
}

impl<'a> Deref for Begun<'a> {
    type Target = Attempt<'a>;

    fn deref(&self) -> &Attempt<'a> {
        &self.attempt
    }
}

impl<'a> DerefMut for Begun<'a> {
    fn deref_mut(&mut self) -> &mut Attempt<'a> {
        &mut self.attempt
    }
}

impl Drop for Begun<'_> {
    fn drop(&mut self) {
        // SAFETY: the handle is this attempt's alone. Where it has ended this is refused.
        unsafe { raw::nekchhaul_abandon(self.attempt.0) };
        *self.is_open = false;
    }
}

/// A body inside a body, which is rolled back where it is dropped: by a panic of its own.
struct Part<'a, 'b> {
    attempt: &'a mut Attempt<'b>,
    depth: usize,
}

impl Part<'_, '_> {
    /// `IRREVOCABLE` where what it wrote stands; any other refusal is of an attempt that has ended.
    fn roll_back(&mut self) -> Result<(), Status> {
        match self.attempt.roll_to(self.depth) {
            Err(Status::IRREVOCABLE) => Err(Status::IRREVOCABLE),
            _ => Ok(()),
        }
    }
}

impl Drop for Part<'_, '_> {
    fn drop(&mut self) {
        // (what is refused here is so to whoever goes on after the panic)
        let _ = self.attempt.roll_to(self.depth).and_then(|()| self.attempt.drop_marks(self.depth));
    }
}

/// What is to be done outside of the memory, as by an allocator: for each run of a body one of the two, once. Neither panics.
pub trait Hooks {
    /// What the run wrote stands.
    fn committed(&mut self);
    /// Nothing of it is left; before the next run.
    fn aborted(&mut self);
}

/// None.
impl Hooks for () {
    fn committed(&mut self) {}
    fn aborted(&mut self) {}
}

fn told_hooks(hooks: &mut impl Hooks, status: u32) {
    if status == 0 || status == Status::IRREVOCABLE.number() {
        hooks.committed();
    } else {
        hooks.aborted();
    }
}

/// An attempt of the loop, which leaves nothing where it is dropped: by a panic of the body.
struct Entered<'a, H: Hooks> {
    handle: &'a mut Handle,
    hooks: &'a mut H,
}

impl<H: Hooks> Entered<'_, H> {
    fn leave(self, how: u32, pause: &mut Pause) -> u32 {
        // SAFETY: both lead to objects of their own, and the handle is this attempt's alone, here and below.
        let status = unsafe { raw::nekchhaul_leave(self.handle, how, pause) };
        forget(self);
        status
    }
}

impl<H: Hooks> Drop for Entered<'_, H> {
    fn drop(&mut self) {
        let mut pause = Pause::NONE;
        // SAFETY: as above.
        let status = unsafe { raw::nekchhaul_leave(self.handle, Status::stop(0).number(), &mut pause) };
        told_hooks(self.hooks, status);
    }
}

/// The loop of `nekchhaul.h`.
pub(crate) fn run<T, H: Hooks>(
    handle: &mut Handle,
    hooks: &mut H,
    mut body: impl FnMut(&mut Attempt<'_>, &mut H) -> Result<T, Status>,
) -> Result<T, Status> {
    let (mut pause, mut answer, mut ran) = (Pause::NONE, None, false);
    loop {
        // SAFETY: both lead to objects of their own, and the handle is this loop's alone.
        let mut status = unsafe { raw::nekchhaul_enter(handle, &mut pause) };
        if status == Status::RUN {
            if replace(&mut ran, true) {
                hooks.aborted();
            }
            let entered = Entered { handle, hooks };
            let how = body(&mut Attempt(entered.handle), entered.hooks).map(|given| answer = Some(given));
            status = entered.leave(how.map_or_else(Status::number, |()| 0), &mut pause);
        }
        if status != Status::PAUSE {
            if ran {
                told_hooks(hooks, status);
            }
            return told(status).map(|()| answer.expect("a body that was run to its end has answered"));
        }
        // SAFETY: the memory, by which it may sleep, stays while its caller does.
        unsafe { raw::nekchhaul_pause(&pause) };
    }
}
