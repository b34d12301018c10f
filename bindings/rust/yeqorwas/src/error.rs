use std::fmt;
use yeqorwas_sys as sys;

/// Why a call did nothing.
#[derive(Clone, Copy, Debug, PartialEq, Eq)]
pub enum Error {
    /// There was no memory.
    Memory,
    /// A number is out of range: of a processor, of parts, of entries.
    Range,
    /// Another seat has what the request needs: ask again.
    Busy,
    /// The history has as many entries as it may have.
    Full,
    /// The history ended at a register that failed.
    Stopped,
    /// Other seats of the coordinator are out.
    Seats,
    /// There is no number for one more seat.
    Numbers,
    /// The seats are of different coordinators.
    Others,
    /// Another status, which these types don't lead to.
    Status(i32),
}

impl Error {
    /// What a status says that isn't `YEQ_DONE`.
    pub(crate) fn of(status: sys::yeq_status) -> Error {
        match status {
            sys::YEQ_NO_MEMORY => Error::Memory,
            sys::YEQ_RANGE => Error::Range,
            sys::YEQ_BUSY => Error::Busy,
            sys::YEQ_FULL => Error::Full,
            sys::YEQ_STOPPED => Error::Stopped,
            sys::YEQ_SEATS => Error::Seats,
            sys::YEQ_NUMBERS => Error::Numbers,
            other => Error::Status(other),
        }
    }

    pub(crate) fn unless_done(status: sys::yeq_status) -> Result<(), Error> {
        match status {
            sys::YEQ_DONE => Ok(()),
            other => Err(Error::of(other)),
        }
    }
}

impl fmt::Display for Error {
    fn fmt(&self, f: &mut fmt::Formatter<'_>) -> fmt::Result {
        match self {
            Error::Memory => write!(f, "no memory"),
            Error::Range => write!(f, "a number is out of range"),
            Error::Busy => write!(f, "another seat has what is needed"),
            Error::Full => write!(f, "the history is full"),
            Error::Stopped => write!(f, "the history has ended"),
            Error::Seats => write!(f, "other seats are out"),
            Error::Numbers => write!(f, "no number for one more seat"),
            Error::Others => write!(f, "the seats are of different coordinators"),
            Error::Status(status) => write!(f, "status {status}"),
        }
    }
}

impl std::error::Error for Error {}

/// Why blocks make no plan. The numbers of `why` are those of `enum yeq_why` in `include/yeqorwas.h`.
#[derive(Clone, Debug, PartialEq, Eq)]
pub enum Fault {
    /// The bytes of a block, counted from 0, are refused at `at`.
    Block { block: usize, why: u32, at: u64, found: u32 },
    /// Two objects are given this path.
    Twice { path: String },
    /// The object at this path means nothing, at this element and the one within it, counted from 1; 0 is the whole.
    Object { path: String, why: u32, outer: u32, inner: u32 },
    /// A limit of plans is passed, by this number.
    Limit { why: u32, found: u32 },
    /// There was no memory.
    Memory,
}

impl fmt::Display for Fault {
    fn fmt(&self, f: &mut fmt::Formatter<'_>) -> fmt::Result {
        match self {
            Fault::Block { block, why, at, .. } => write!(f, "block {block}: why {why} at byte {at}"),
            Fault::Twice { path } => write!(f, "{path} given twice"),
            Fault::Object { path, why, outer, inner } => write!(f, "{path}: why {why} at {outer}.{inner}"),
            Fault::Limit { why, found } => write!(f, "limit {why} passed by {found}"),
            Fault::Memory => write!(f, "no memory"),
        }
    }
}

impl std::error::Error for Fault {}
