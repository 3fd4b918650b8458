//! Callers for threads that come and go.
use crate::raw::{self, Handle};
use crate::status::told;
use crate::{Caller, Status};
use std::cell::UnsafeCell;

/// Callers of one memory for threads that come and go: any thread joins at any time, and has a caller to itself until it parts.
pub struct Table {
    table: UnsafeCell<raw::Table>,
    places: UnsafeCell<Box<[Handle]>>,
}

// SAFETY: what it has is used under the table's own lock, and by whoever owns it alone.
unsafe impl Send for Table {}
unsafe impl Sync for Table {}

impl Table {
    /// Of these callers, which are of one memory and in no attempt. Where they aren't they go.
    pub fn new(callers: Vec<Caller>) -> Result<Table, Status> {
        let mut places: Box<[Handle]> = callers.into_iter().map(Caller::into_handle).collect();
        let mut table = raw::Table::NONE;
        // SAFETY: both are this function's, and the places stay where they are.
        let answer = told(unsafe { raw::nekchhaul_share(&mut table, places.as_mut_ptr(), places.len()) });
        let made = Table { table: UnsafeCell::new(table), places: UnsafeCell::new(places) };
        answer.map(|()| made)
    }

    /// A caller for this thread; `NONE_FREE` where each is with another.
    pub fn join(&self) -> Result<Caller, Status> {
        let mut handle = Handle::NONE;
        // SAFETY: the table is used under its lock, here and below.
        told(unsafe { raw::nekchhaul_join(self.table.get(), &mut handle) })?;
        Ok(Caller::of(handle))
    }

    /// Puts it back. Where it is refused the caller stays with its thread.
    pub fn part(&self, caller: &mut Caller) -> Result<(), Status> {
        caller.let_go();
        // SAFETY: the handle is that caller's alone.
        told(unsafe { raw::nekchhaul_part(self.table.get(), caller.handle_mut()) })
    }

    /// The same for a thread that is no more: what it left open is ended.
    pub fn part_for_dead(&self, caller: &mut Caller) -> Result<(), Status> {
        // SAFETY: as above.
        told(unsafe { raw::nekchhaul_part_for_dead(self.table.get(), caller.handle_mut()) })
    }
}

impl Drop for Table {
    fn drop(&mut self) {
        for place in self.places.get_mut().iter_mut() {
            drop(Caller::of(std::mem::replace(place, Handle::NONE)));
        }
    }
}
