//! `drive` by workers, and `generate`: one thread for each processor with lines, side by side over one coordinator with a lock for
//! each record.

use crate::script::{Line, Machine, Op, Request};
use crate::shared::{Asked, EachLock, Plan, Shared};
use std::thread;

const MOST_OF_A_REQUEST: usize = 256;

/// Makes the requests of one processor, up to the first that isn't answered.
fn work(coordinator: &EachLock<Asked>, cpu: u32, requests: &[Request]) {
    let mut ops: Vec<Op> = Vec::with_capacity(MOST_OF_A_REQUEST);
    for request in requests {
        if coordinator.request(cpu, *request, &mut ops).is_err() {
            return;
        }
    }
}

/// Makes the requests of all lines, and gives the coordinator and how many operations there were at the start.
pub fn drive(machine: Machine, lines: &[Line], operations: usize) -> (EachLock<Asked>, usize) {
    let mut lists = vec![Vec::new(); machine.cpus.len()];
    for line in lines {
        lists[line.request.cpu() as usize].push(line.request);
    }
    let coordinator = EachLock::open(Plan::new(machine), lines.len(), operations);
    let opened = coordinator.operations();
    thread::scope(|scope| {
        for (cpu, list) in (0..).zip(&lists).filter(|(_, list)| !list.is_empty()) {
            let shared = &coordinator;
            scope.spawn(move || work(shared, cpu, list));
        }
    });
    (coordinator, opened)
}
