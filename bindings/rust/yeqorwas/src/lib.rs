//! Coordinators of ACPI processor power (ACPI 6.5, chapter 8): definition blocks make a [`Plan`] of a machine's processors; a
//! [`Coordinator`] answers one caller's requests on it, [`Endless`] and [`Seat`] those of callers on several threads, and a
//! [`Cppc`] those for desired performance. None operates a register: each answer comes with the operations that the caller is
//! to do, in order.
//!
//! The calls below are those of `include/yeqorwas.h`, which are proved; this crate, which is not, only wraps them.

mod coordinator;
mod cppc;
mod endless;
mod error;
mod plan;
mod request;
mod seat;

pub use coordinator::Coordinator;
pub use cppc::{Cppc, CppcReply, CppcRequest, CppcUnfit};
pub use endless::{Begun, Endless};
pub use error::{Error, Fault};
pub use plan::{Cpu, IdleTable, Plan};
pub use request::{Operation, Register, Reply, Request, States, Unfit, ANY_LATENCY};
pub use seat::{Answer, Entry, History, Seat};
