use crate::{Error, Operation, Plan, Reply, Request};
use std::sync::Arc;
use yeqorwas_sys as sys;

/// One caller's place at a coordinator that several callers share. It may be moved to another thread; no lock is needed.
pub struct Seat {
    raw: sys::yeq_seat,
    /// One for all seats of a coordinator.
    coordinator: Arc<()>,
}

// SAFETY: a handle owns what it points to, and the coordinator behind it may be called from several threads.
unsafe impl Send for Seat {}

/// What came of a request of a seat.
#[derive(Clone, Debug, PartialEq, Eq)]
pub struct Answer {
    pub reply: Reply,
    /// What the caller does. Callers of one coordinator do theirs in the order of the numbers.
    pub operations: Vec<Operation>,
    /// The request's number in the history, from 1.
    pub number: u64,
}

impl Seat {
    /// The first seat of a new coordinator, with all 65,536 parts. Its history has room for so many entries, 65,536 at most.
    /// Gives also the operations at the start.
    pub fn open(plan: &mut Plan, entries: u32) -> Result<(Seat, Vec<Operation>), Error> {
        let mut seat = Seat { raw: sys::yeq_seat::CLOSED, coordinator: Arc::new(()) };
        // SAFETY: both handles are in no other call.
        Error::unless_done(unsafe { sys::yeq_seat_open(&mut seat.raw, &mut plan.raw, entries) })?;
        let (operations, _) = seat.operations()?;
        Ok((seat, operations))
    }

    /// A new seat with so many parts of this one's: one at least, and fewer than it has.
    pub fn split(&mut self, parts: u32) -> Result<Seat, Error> {
        let mut other = Seat { raw: sys::yeq_seat::CLOSED, coordinator: self.coordinator.clone() };
        // SAFETY: both handles are in no other call.
        Error::unless_done(unsafe { sys::yeq_seat_split(&mut self.raw, &mut other.raw, parts) })?;
        Ok(other)
    }

    /// Makes a request, or fails with `Busy` where another seat has what it needs. It never waits.
    pub fn ask(&mut self, request: Request) -> Result<Answer, Error> {
        let mut reply = sys::yeq_reply::default();
        // SAFETY: the pointers are to values of their types.
        Error::unless_done(unsafe { sys::yeq_seat_ask(&mut self.raw, &request.raw(), &mut reply) })?;
        let (operations, number) = self.operations()?;
        Ok(Answer { reply: Reply::of(reply), operations, number })
    }

    fn operations(&mut self) -> Result<(Vec<Operation>, u64), Error> {
        let mut number = 0;
        let list = Operation::list(|ops, room, count| {
            // SAFETY: the room is that of the list.
            unsafe { sys::yeq_seat_ops(&mut self.raw, ops, room, count, &mut number) }
        })?;
        Ok((list, number))
    }

    /// How many parts it has.
    pub fn parts(&mut self) -> Result<u32, Error> {
        let mut facts = sys::yeq_seat_facts::default();
        // SAFETY: the pointers are to values of their types.
        Error::unless_done(unsafe { sys::yeq_seat_tell(&mut self.raw, &mut facts) })?;
        Ok(facts.parts)
    }

    /// Takes another seat of the same coordinator in. Gives it back where it is of another one.
    pub fn join(&mut self, mut other: Seat) -> Result<(), (Error, Seat)> {
        if !Arc::ptr_eq(&self.coordinator, &other.coordinator) {
            return Err((Error::Others, other));
        }
        // SAFETY: both handles are seats of one coordinator, and in no other call.
        match Error::unless_done(unsafe { sys::yeq_seat_join(&mut self.raw, &mut other.raw) }) {
            Ok(()) => Ok(()),
            Err(error) => Err((error, other)),
        }
    }

    /// Ends the coordinator of a seat that has all parts. Gives the seat back where others are out.
    pub fn seal(mut self) -> Result<History, (Error, Seat)> {
        // SAFETY: the handle is in no other call.
        match Error::unless_done(unsafe { sys::yeq_seat_seal(&mut self.raw) }) {
            Ok(()) => Ok(History { seat: self }),
            Err(error) => Err((error, self)),
        }
    }
}

impl Drop for Seat {
    fn drop(&mut self) {
        // SAFETY: closing a handle twice is a status.
        unsafe { sys::yeq_seat_close(&mut self.raw) };
    }
}

/// A request that was made, and the number of the seat that made it.
#[derive(Clone, Copy, Debug, PartialEq, Eq)]
pub struct Entry {
    pub seat: u32,
    pub request: Request,
}

/// What a coordinator left.
pub struct History {
    seat: Seat,
}

impl History {
    /// Its entries, in their order.
    pub fn entries(&mut self) -> Result<Vec<Entry>, Error> {
        let mut count = 0;
        // SAFETY: the pointers are to values of their types.
        Error::unless_done(unsafe { sys::yeq_seat_entries(&mut self.seat.raw, &mut count) })?;
        let entry = |index| {
            let mut raw = sys::yeq_entry::default();
            Error::unless_done(unsafe { sys::yeq_seat_entry(&mut self.seat.raw, index, &mut raw) })?;
            Ok(Entry { seat: raw.seat, request: Request::of(raw.request) })
        };
        (0..count).map(entry).collect()
    }
}
