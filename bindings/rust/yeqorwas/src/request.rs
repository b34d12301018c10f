use yeqorwas_sys as sys;

/// Bears any wake latency.
pub const ANY_LATENCY: u32 = u32::MAX;

/// What a processor, or the platform in its name, asks for. Processors are numbered from 0, in the order of the blocks.
#[derive(Clone, Copy, Debug, PartialEq, Eq)]
pub enum Request {
    /// The processor goes idle in this state, from 1, and bears this wake latency, in microseconds.
    Idle { cpu: u32, state: u32, tolerance: u32 },
    /// It runs again.
    Wake { cpu: u32 },
    /// It asks for this performance state, from 0, the fastest (ACPI 6.5, 8.4.5).
    Perf { cpu: u32, index: u32 },
    /// It asks for this throttling state, from 0, the fastest (8.4.4).
    Throttle { cpu: u32, index: u32 },
    /// The first performance state that may be used is this one (`_PPC`, 8.4.5.3).
    PerfLimit { cpu: u32, limit: u32 },
    /// The first throttling state that may be used is this one (`_TPC`, 8.4.4.3).
    ThrottleLimit { cpu: u32, limit: u32 },
}

impl Request {
    pub(crate) fn raw(self) -> sys::yeq_request {
        let raw = |kind, cpu, state, tolerance| sys::yeq_request { kind, cpu, state, tolerance };
        match self {
            Request::Idle { cpu, state, tolerance } => raw(1, cpu, state, tolerance),
            Request::Wake { cpu } => raw(2, cpu, 0, 0),
            Request::Perf { cpu, index } => raw(3, cpu, index, 0),
            Request::Throttle { cpu, index } => raw(4, cpu, index, 0),
            Request::PerfLimit { cpu, limit } => raw(5, cpu, limit, 0),
            Request::ThrottleLimit { cpu, limit } => raw(6, cpu, limit, 0),
        }
    }

    pub(crate) fn of(raw: sys::yeq_request) -> Request {
        let sys::yeq_request { kind, cpu, state, tolerance } = raw;
        match kind {
            1 => Request::Idle { cpu, state, tolerance },
            2 => Request::Wake { cpu },
            3 => Request::Perf { cpu, index: state },
            4 => Request::Throttle { cpu, index: state },
            5 => Request::PerfLimit { cpu, limit: state },
            6 => Request::ThrottleLimit { cpu, limit: state },
            other => unreachable!("no kind of request: {other}"),
        }
    }
}

/// The states that a processor and its containers are in, its own first.
#[derive(Clone, Copy, PartialEq, Eq)]
pub struct States {
    length: u8,
    states: [u8; 9],
}

impl States {
    pub(crate) fn of(length: u8, states: [u8; 9]) -> States {
        States { length, states }
    }
}

impl std::ops::Deref for States {
    type Target = [u8];

    fn deref(&self) -> &[u8] {
        &self.states[..usize::from(self.length)]
    }
}

impl std::fmt::Debug for States {
    fn fmt(&self, f: &mut std::fmt::Formatter<'_>) -> std::fmt::Result {
        (**self).fmt(f)
    }
}

/// Why a domain can't be coordinated.
#[derive(Clone, Copy, Debug, PartialEq, Eq)]
pub enum Unfit {
    /// Its members declare different coordination types.
    Coord,
    /// They declare different numbers of processors.
    Counts,
    /// It has another number of members than they declare.
    Number,
    /// Their tables have different lengths.
    States,
    /// A member has no control register.
    Register,
}

/// What a request is answered. From `NoState` on it is refused, and changed nothing.
#[derive(Clone, Copy, Debug, PartialEq, Eq)]
pub enum Reply {
    /// The processor idles. Its own state is 0 where it comes to none.
    Entered { states: States },
    /// It runs.
    Running,
    /// Where its domain, or by itself the processor, stands, from 0.
    Stands { index: u32 },
    /// There is no such state: there are so many.
    NoState { count: u32 },
    /// The state isn't enabled.
    Disabled,
    /// The state is faster than the processor's limit allows: the first that may be used is this one.
    AboveLimit { limit: u32 },
    /// The processor has no such table.
    NoTable,
    /// Its domain can't be coordinated.
    Unfit { domain: u32, why: Unfit },
    /// The state wakes in so many microseconds, slower than the request bears.
    TooSlow { latency: u32 },
}

impl Reply {
    pub(crate) fn of(raw: sys::yeq_reply) -> Reply {
        match raw.kind {
            1 => Reply::Entered { states: States::of(raw.length, raw.states) },
            2 => Reply::Running,
            3 => Reply::Stands { index: raw.index },
            4 => Reply::NoState { count: raw.index },
            5 => Reply::Disabled,
            6 => Reply::AboveLimit { limit: raw.index },
            7 => Reply::NoTable,
            8 => Reply::Unfit { domain: raw.index, why: unfit(raw.why) },
            9 => Reply::TooSlow { latency: raw.index },
            other => unreachable!("no kind of reply: {other}"),
        }
    }
}

fn unfit(why: u8) -> Unfit {
    match why {
        1 => Unfit::Coord,
        2 => Unfit::Counts,
        3 => Unfit::Number,
        4 => Unfit::States,
        5 => Unfit::Register,
        other => unreachable!("no reason: {other}"),
    }
}

/// A register as its descriptor gives it (ACPI 6.5, 6.4.3.7): address space, width and offset in bits, access size.
#[derive(Clone, Copy, Debug, PartialEq, Eq)]
pub struct Register {
    pub space: u8,
    pub width: u8,
    pub offset: u8,
    pub access: u8,
    pub address: u64,
}

/// An operation on a register of a processor, which the caller does.
#[derive(Clone, Copy, Debug, PartialEq, Eq)]
pub enum Operation {
    /// The value is written to the register (ACPI 6.5, 8.4.4.1, 8.4.5.1, 8.4.6.1.2).
    Set { cpu: u32, register: Register, value: u64 },
    /// The processor enters an idle state by the register (8.4.3.3, 8.4.1.1).
    Enter { cpu: u32, register: Register, states: States },
}

impl Operation {
    pub(crate) fn of(raw: &sys::yeq_op) -> Operation {
        let sys::yeq_op { space, width, offset, access, address, cpu, .. } = *raw;
        let register = Register { space, width, offset, access, address };
        match raw.kind {
            1 => Operation::Set { cpu, register, value: raw.value },
            _ => Operation::Enter { cpu, register, states: States::of(raw.length, raw.states) },
        }
    }

    /// The list that a call writes, which tells how much room it needs where it has too little.
    pub(crate) fn list(
        mut call: impl FnMut(*mut sys::yeq_op, usize, *mut u32) -> sys::yeq_status,
    ) -> Result<Vec<Operation>, crate::Error> {
        let mut count = 0;
        let mut raw = vec![sys::yeq_op::default(); 16];
        let mut status = call(raw.as_mut_ptr(), raw.len(), &mut count);
        if status == sys::YEQ_ROOM {
            raw.resize(count as usize, sys::yeq_op::default());
            status = call(raw.as_mut_ptr(), raw.len(), &mut count);
        }
        crate::Error::unless_done(status)?;
        Ok(raw[..count as usize].iter().map(Operation::of).collect())
    }
}
