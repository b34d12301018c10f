use crate::{Error, Operation, Plan, Reply, Request};
use std::sync::Arc;
use yeqorwas_sys as sys;

/// One caller's place at a coordinator without end that several callers share. Its requests have two steps. It may be moved to
/// another thread; no lock is needed.
pub struct Endless {
    raw: sys::yeq_endless,
    /// One for all seats of a coordinator.
    coordinator: Arc<()>,
}

// SAFETY: a handle owns what it points to, and the coordinator behind it may be called from several threads.
unsafe impl Send for Endless {}

impl Endless {
    /// The first seat of a new coordinator, with all 65,536 parts. Gives also the operations at the start, which are done before
    /// the first request.
    pub fn open(plan: &mut Plan) -> Result<(Endless, Vec<Operation>), Error> {
        let mut seat = Endless { raw: sys::yeq_endless::CLOSED, coordinator: Arc::new(()) };
        // SAFETY: both handles are in no other call.
        Error::unless_done(unsafe { sys::yeq_endless_open(&mut seat.raw, &mut plan.raw) })?;
        let operations = seat.operations()?;
        Ok((seat, operations))
    }

    /// A new seat with so many parts of this one's: one at least, and fewer than it has.
    pub fn split(&mut self, parts: u32) -> Result<Endless, Error> {
        let mut other = Endless { raw: sys::yeq_endless::CLOSED, coordinator: self.coordinator.clone() };
        // SAFETY: both handles are in no other call.
        Error::unless_done(unsafe { sys::yeq_endless_split(&mut self.raw, &mut other.raw, parts) })?;
        Ok(other)
    }

    /// Begins a request, or fails with `Busy` where another seat has what it needs or has begun one. It never waits.
    pub fn begin(&mut self, request: Request) -> Result<Begun<'_>, Error> {
        let mut reply = sys::yeq_reply::default();
        // SAFETY: the pointers are to values of their types.
        Error::unless_done(unsafe { sys::yeq_endless_begin(&mut self.raw, &request.raw(), &mut reply) })?;
        let mut begun = Begun { reply: Reply::of(reply), operations: Vec::new(), seat: self };
        begun.operations = begun.seat.operations()?;
        Ok(begun)
    }

    fn operations(&mut self) -> Result<Vec<Operation>, Error> {
        Operation::list(|ops, room, count| {
            // SAFETY: the room is that of the list.
            unsafe { sys::yeq_endless_ops(&mut self.raw, ops, room, count) }
        })
    }

    /// Its parts, and how many entries of the history it has seen.
    pub fn facts(&mut self) -> Result<(u32, u64), Error> {
        let mut facts = sys::yeq_seat_facts::default();
        // SAFETY: the pointers are to values of their types.
        Error::unless_done(unsafe { sys::yeq_endless_tell(&mut self.raw, &mut facts) })?;
        Ok((facts.parts, facts.seen))
    }

    /// Takes another seat of the same coordinator in. Gives it back where it is of another one.
    pub fn join(&mut self, mut other: Endless) -> Result<(), (Error, Endless)> {
        if !Arc::ptr_eq(&self.coordinator, &other.coordinator) {
            return Err((Error::Others, other));
        }
        // SAFETY: both handles are seats of one coordinator, and in no other call.
        match Error::unless_done(unsafe { sys::yeq_endless_join(&mut self.raw, &mut other.raw) }) {
            Ok(()) => Ok(()),
            Err(error) => Err((error, other)),
        }
    }
}

impl Drop for Endless {
    fn drop(&mut self) {
        // SAFETY: closing a handle twice is a status, and so is closing one that has begun a request.
        unsafe { sys::yeq_endless_close(&mut self.raw) };
    }
}

/// A request that has begun: its operations are the caller's to do, and until it is finished no other seat begins one. Where it
/// is dropped and not finished, none of them was done: then the history ends with it, if it has any.
pub struct Begun<'a> {
    /// What it is answered if all are done.
    pub reply: Reply,
    /// In order.
    pub operations: Vec<Operation>,
    seat: &'a mut Endless,
}

impl Begun<'_> {
    /// Finishes it, of whose operations so many were done. Where these are fewer than it has, a register failed at the next one,
    /// and the history has ended; where they are more it fails with `Range`, and is dropped.
    pub fn finish(self, done: u32) -> Result<(), Error> {
        // SAFETY: the handle is in no other call.
        Error::unless_done(unsafe { sys::yeq_endless_finish(&mut self.seat.raw, done) })
    }
}

impl Drop for Begun<'_> {
    fn drop(&mut self) {
        // SAFETY: finishing a request twice is a status.
        unsafe { sys::yeq_endless_finish(&mut self.seat.raw, 0) };
    }
}
