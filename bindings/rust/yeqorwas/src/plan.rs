use crate::{Error, Fault};
use yeqorwas_sys as sys;

/// Where a processor's idle states stand.
#[derive(Clone, Copy, Debug, PartialEq, Eq)]
pub enum IdleTable {
    None,
    /// `_LPI` (ACPI 6.5, 8.4.3).
    Lpi,
    /// `_CST` (8.4.1).
    Cst,
}

/// A processor of a plan.
#[derive(Clone, Debug, PartialEq, Eq)]
pub struct Cpu {
    /// Its path, as `\_SB_.CPU0`.
    pub path: String,
    pub idle_table: IdleTable,
    /// Numbered from 1.
    pub idle_states: u32,
    /// Of `_PSS` (8.4.5.2), numbered from 0, the fastest.
    pub perf_states: u32,
    /// Of `_TSS` (8.4.4.2), numbered from 0, the fastest.
    pub throttle_states: u32,
}

/// What definition blocks say of a machine's processors.
pub struct Plan {
    pub(crate) raw: sys::yeq_machine,
    cpus: Vec<Cpu>,
    counts: sys::yeq_counts,
}

// SAFETY: a handle owns what it points to, and may be moved to another thread.
unsafe impl Send for Plan {}

impl Plan {
    /// The plan of these blocks, the DSDT first.
    pub fn new(blocks: &[&[u8]]) -> Result<Plan, Fault> {
        let mut plan = Plan { raw: sys::yeq_machine::CLOSED, cpus: Vec::new(), counts: sys::yeq_counts::default() };
        // SAFETY: the handle is closed, and dropped once it is open.
        if unsafe { sys::yeq_machine_open(&mut plan.raw) } != sys::YEQ_DONE {
            return Err(Fault::Memory);
        }
        for (block, bytes) in blocks.iter().enumerate() {
            plan.add(block, bytes)?;
        }
        plan.make()?;
        plan.learn().map_err(|_| Fault::Memory)?;
        Ok(plan)
    }

    fn add(&mut self, block: usize, bytes: &[u8]) -> Result<(), Fault> {
        let mut fault = sys::yeq_fault::default();
        // SAFETY: the pointers are to a slice and to values of their types.
        match unsafe { sys::yeq_machine_add_block(&mut self.raw, bytes.as_ptr(), bytes.len(), &mut fault) } {
            sys::YEQ_DONE => Ok(()),
            sys::YEQ_BLOCK => Err(Fault::Block { block, why: fault.why, at: fault.at, found: fault.found }),
            _ => Err(Fault::Memory),
        }
    }

    fn make(&mut self) -> Result<(), Fault> {
        let mut fault = sys::yeq_fault::default();
        let mut path = vec![0; 4096];
        // SAFETY: the pointers are to values of their types, and the room is that of the path.
        let status = unsafe { sys::yeq_machine_plan(&mut self.raw, &mut fault, path.as_mut_ptr(), path.len()) };
        path.truncate(fault.path_length as usize);
        let path = String::from_utf8_lossy(&path).into_owned();
        let sys::yeq_fault { why, outer, inner, found, .. } = fault;
        match status {
            sys::YEQ_DONE => Ok(()),
            sys::YEQ_TWICE => Err(Fault::Twice { path }),
            sys::YEQ_OBJECT => Err(Fault::Object { path, why, outer, inner }),
            sys::YEQ_LIMIT => Err(Fault::Limit { why, found }),
            _ => Err(Fault::Memory),
        }
    }

    fn learn(&mut self) -> Result<(), Error> {
        // SAFETY: the pointers are to values of their types, and the room is that of the path.
        Error::unless_done(unsafe { sys::yeq_machine_counts(&mut self.raw, &mut self.counts) })?;
        for cpu in 0..self.counts.cpus {
            let (mut told, mut path, mut length) = (sys::yeq_cpu::default(), vec![0; 2048], 0);
            Error::unless_done(unsafe {
                sys::yeq_machine_cpu(&mut self.raw, cpu, &mut told, path.as_mut_ptr(), path.len(), &mut length)
            })?;
            path.truncate(length);
            self.cpus.push(Cpu {
                path: String::from_utf8_lossy(&path).into_owned(),
                idle_table: match told.idle_kind {
                    1 => IdleTable::Lpi,
                    2 => IdleTable::Cst,
                    _ => IdleTable::None,
                },
                idle_states: told.idle_states,
                perf_states: told.perf_states,
                throttle_states: told.throttle_states,
            });
        }
        Ok(())
    }

    /// Its processors, in the order of their numbers.
    pub fn cpus(&self) -> &[Cpu] {
        &self.cpus
    }

    /// How many processor containers, domains and groups it has.
    pub fn counts(&self) -> (u32, u32, u32) {
        (self.counts.containers, self.counts.domains, self.counts.groups)
    }
}

impl Drop for Plan {
    fn drop(&mut self) {
        // SAFETY: closing a handle twice is a status.
        unsafe { sys::yeq_machine_close(&mut self.raw) };
    }
}
