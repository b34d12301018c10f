use crate::{Error, Operation, Plan};
use yeqorwas_sys as sys;

/// What a processor asks of its performance, on the scale of its `_CPC`: greater is faster (ACPI 6.5, 8.4.6.1.2).
#[derive(Clone, Copy, Debug, PartialEq, Eq)]
pub enum CppcRequest {
    Desired { cpu: u32, value: u32 },
    /// It is to be no slower.
    Minimum { cpu: u32, value: u32 },
    /// It is to be no faster.
    Maximum { cpu: u32, value: u32 },
}

/// Why a domain of desired performance can't be coordinated.
#[derive(Clone, Copy, Debug, PartialEq, Eq)]
pub enum CppcUnfit {
    /// Its members declare different coordination types.
    Coord,
    /// They declare different numbers of processors.
    Counts,
    /// It has another number of members than they declare.
    Number,
    /// A member's lowest performance is no integer, or above its highest.
    Range,
    /// They have different ranges.
    Ranges,
    /// A member has no register for desired performance.
    Register,
}

/// What such a request is answered. From `NoTable` on it is refused, and changed nothing.
#[derive(Clone, Copy, Debug, PartialEq, Eq)]
pub enum CppcReply {
    /// Where its domain, or by itself the processor, stands.
    Stands { value: u64 },
    /// The processor has no `_CPC`.
    NoTable,
    /// Its domain can't be coordinated.
    Unfit { why: CppcUnfit },
    /// The value isn't from the lowest performance to the highest.
    OutOfRange { lowest: u64, highest: u64 },
    /// A minimum above this maximum, or a maximum below this minimum.
    Crossed { bound: u64 },
}

impl CppcReply {
    fn of(raw: sys::yeq_cppc_reply) -> CppcReply {
        match raw.kind {
            1 => CppcReply::Stands { value: raw.value },
            2 => CppcReply::NoTable,
            3 => CppcReply::Unfit { why: unfit(raw.why) },
            4 => CppcReply::OutOfRange { lowest: raw.value, highest: raw.highest },
            5 => CppcReply::Crossed { bound: raw.value },
            other => unreachable!("no kind of reply: {other}"),
        }
    }
}

fn unfit(why: u32) -> CppcUnfit {
    match why {
        1 => CppcUnfit::Coord,
        2 => CppcUnfit::Counts,
        3 => CppcUnfit::Number,
        4 => CppcUnfit::Range,
        5 => CppcUnfit::Ranges,
        6 => CppcUnfit::Register,
        other => unreachable!("no reason: {other}"),
    }
}

/// The coordinator of one caller for desired performance.
pub struct Cppc {
    raw: sys::yeq_cppc,
}

// SAFETY: a handle owns what it points to, and may be moved to another thread.
unsafe impl Send for Cppc {}

impl Cppc {
    /// The coordinator by `_CPC` of a plan. Gives also the operations at the start.
    pub fn open(plan: &mut Plan) -> Result<(Cppc, Vec<Operation>), Error> {
        let mut cppc = Cppc { raw: sys::yeq_cppc::CLOSED };
        // SAFETY: both handles are in no other call.
        Error::unless_done(unsafe { sys::yeq_cppc_open(&mut cppc.raw, &mut plan.raw) })?;
        let operations = cppc.operations()?;
        Ok((cppc, operations))
    }

    /// Makes a request. Gives the reply, and the operations that the caller does.
    pub fn ask(&mut self, request: CppcRequest) -> Result<(CppcReply, Vec<Operation>), Error> {
        let (kind, cpu, value) = match request {
            CppcRequest::Desired { cpu, value } => (1, cpu, value),
            CppcRequest::Minimum { cpu, value } => (2, cpu, value),
            CppcRequest::Maximum { cpu, value } => (3, cpu, value),
        };
        let mut reply = sys::yeq_cppc_reply::default();
        let request = sys::yeq_cppc_request { kind, cpu, value };
        // SAFETY: the pointers are to values of their types.
        Error::unless_done(unsafe { sys::yeq_cppc_ask(&mut self.raw, &request, &mut reply) })?;
        Ok((CppcReply::of(reply), self.operations()?))
    }

    fn operations(&mut self) -> Result<Vec<Operation>, Error> {
        // SAFETY: the room is that of the list.
        Operation::list(|ops, room, count| unsafe { sys::yeq_cppc_ops(&mut self.raw, ops, room, count) })
    }
}

impl Drop for Cppc {
    fn drop(&mut self) {
        // SAFETY: closing a handle twice is a status.
        unsafe { sys::yeq_cppc_close(&mut self.raw) };
    }
}
