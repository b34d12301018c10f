use crate::{Cpu, Error, Operation, Plan, Reply, Request};
use yeqorwas_sys as sys;

/// The coordinator of one caller.
pub struct Coordinator {
    plan: Plan,
}

impl Coordinator {
    /// Everyone runs, at the limits of the tables. Gives also the operations at the start.
    pub fn start(mut plan: Plan) -> Result<(Coordinator, Vec<Operation>), Error> {
        // SAFETY: the handle is the plan's, and in no other call.
        Error::unless_done(unsafe { sys::yeq_machine_start(&mut plan.raw) })?;
        let mut started = Coordinator { plan };
        let operations = started.operations()?;
        Ok((started, operations))
    }

    /// Makes a request. Gives the reply, and the operations that the caller does.
    pub fn ask(&mut self, request: Request) -> Result<(Reply, Vec<Operation>), Error> {
        let mut reply = sys::yeq_reply::default();
        // SAFETY: the pointers are to values of their types.
        Error::unless_done(unsafe { sys::yeq_machine_ask(&mut self.plan.raw, &request.raw(), &mut reply) })?;
        Ok((Reply::of(reply), self.operations()?))
    }

    fn operations(&mut self) -> Result<Vec<Operation>, Error> {
        // SAFETY: the room is that of the list.
        Operation::list(|ops, room, count| unsafe { sys::yeq_machine_ops(&mut self.plan.raw, ops, room, count) })
    }

    /// Its processors, in the order of their numbers.
    pub fn cpus(&self) -> &[Cpu] {
        self.plan.cpus()
    }
}
