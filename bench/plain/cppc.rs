//! `cppc --serial`: the requests of a script for performance, on the domains that processors with a `_CPC` make by their `_PSD`;
//! a register file in memory; and the history, printed at the end. `audit --cppc` walks over a history with the same state.

use crate::audit::{Coordination, audit};
use crate::drive::{MOST_OPERATIONS, register, segs, tell};
use crate::machine;
use crate::script::{self, Op, Register, lines_of, number, path_of, put_number, put_ops, put_path, write_name};
use crate::space::{Object, Space};
use crate::tables::{Coord, Cpc, Dependency, Entry, Given, NULL, dependency};
use std::collections::HashMap;
use std::io::{self, Write};

// # The plan

/// The least and the most performance, and the registers that there are.
#[derive(Clone, Copy)]
struct Table {
    lowest: Option<u64>,
    highest: Option<u64>,
    desired: Option<Register>,
    minimum: Option<Register>,
    maximum: Option<Register>,
}

struct Domain {
    coord: Coord,
    unfit: u8,
    members: Vec<u32>,
}

struct Plan {
    tables: Vec<Option<Table>>,
    /// Of each processor its domain, where it has a table.
    domain: Vec<usize>,
    domains: Vec<Domain>,
}

fn table(cpc: &Cpc) -> Table {
    let integer = |at: usize| match cpc.entries[at] {
        Entry::Integer(number) => Some(number),
        Entry::Register(_) => None,
    };
    let control = |at: usize| match cpc.entries[at] {
        Entry::Register(own) if own != NULL => Some(register(own)),
        _ => None,
    };
    Table { highest: integer(0), lowest: integer(3), desired: control(5), minimum: control(6), maximum: control(7) }
}

/// The `_PSD` of a processor, where it is an object.
fn shared(space: &Space, place: u32) -> Option<Dependency> {
    let placed = space.object_below(place, b"_PSD")?;
    match placed.object() {
        Object::Data(object) => dependency(Given { object, wide: placed.wide }).ok(),
        _ => None,
    }
}

/// The first reason for which members, who declare this, can't be coordinated.
fn unfit(tables: &[Option<Table>], declared: &[Option<Dependency>], members: &[u32]) -> u8 {
    let of = |cpu: &u32| tables[*cpu as usize].expect("a member has a table");
    let own = |cpu: &u32| declared[*cpu as usize];
    let first = of(&members[0]);
    if members.iter().any(|cpu| own(cpu).map(|d| d.coord) != own(&members[0]).map(|d| d.coord)) {
        1
    } else if members.iter().any(|cpu| own(cpu).map(|d| d.processors) != own(&members[0]).map(|d| d.processors)) {
        2
    } else if own(&members[0]).is_some_and(|d| d.processors as usize != members.len()) {
        3
    } else if members.iter().any(|cpu| !matches!((of(cpu).lowest, of(cpu).highest), (Some(low), Some(high)) if low <= high)) {
        4
    } else if members.iter().any(|cpu| (of(cpu).lowest, of(cpu).highest) != (first.lowest, first.highest)) {
        5
    } else if members.iter().any(|cpu| of(cpu).desired.is_none()) {
        6
    } else {
        0
    }
}

fn plan(space: &Space, machine: &machine::Machine) -> Plan {
    let tables: Vec<Option<Table>> = machine.cpus.iter().map(|cpu| cpu.cpc.as_ref().map(table)).collect();
    let declared: Vec<Option<Dependency>> = machine.cpus.iter().map(|cpu| shared(space, cpu.place)).collect();
    let (mut numbers, mut found) = (HashMap::new(), Vec::<(Coord, Vec<u32>)>::new());
    let mut domain = vec![0; tables.len()];
    for cpu in (0..tables.len()).filter(|cpu| tables[*cpu].is_some()) {
        let next = found.len();
        domain[cpu] = declared[cpu].map_or(next, |declared| *numbers.entry(declared.domain).or_insert(next));
        if domain[cpu] == next {
            found.push((declared[cpu].map_or(Coord::SwAll, |declared| declared.coord), Vec::new()));
        }
        found[domain[cpu]].1.push(cpu as u32);
    }
    let fitted = |(coord, members): (Coord, Vec<u32>)| Domain { coord, unfit: unfit(&tables, &declared, &members), members };
    let domains = found.into_iter().map(fitted).collect();
    Plan { tables, domain, domains }
}

// # Requests

#[derive(Clone, Copy)]
enum Verb {
    Desired,
    Minimum,
    Maximum,
}

#[derive(Clone, Copy)]
struct Request {
    verb: Verb,
    cpu: u32,
    value: u32,
}

/// The requests of a text that is a script.
fn requests(plan: &Plan, names: &script::Machine, text: &[u8]) -> Vec<Request> {
    let index: HashMap<Vec<u8>, u32> = (0..).zip(&names.cpus).map(|(cpu, of)| (of.name.clone(), cpu)).collect();
    let (mut name, mut found) = (Vec::new(), Vec::new());
    let mut bound: usize = plan.domains.iter().filter(|domain| domain.unfit == 0).map(|domain| 3 * domain.members.len()).sum();
    for line in lines_of(text) {
        let mut fields = line.split(|byte| *byte == b' ').filter(|field| !field.is_empty());
        let Some(path) = fields.next().filter(|path| path[0] != b'#') else {
            continue;
        };
        write_name(path, &mut name).expect("a path");
        let verb = match fields.next() {
            Some(b"desired") => Verb::Desired,
            Some(b"minimum") => Verb::Minimum,
            Some(b"maximum") => Verb::Maximum,
            _ => panic!("a verb"),
        };
        let value = fields.next().and_then(number).flatten().expect("a number");
        assert!(fields.next().is_none(), "one number");
        let cpu = *index.get(&name).expect("a processor");
        bound += match plan.tables[cpu as usize].map(|_| &plan.domains[plan.domain[cpu as usize]]) {
            Some(domain) if matches!(domain.coord, Coord::SwAll) => 1 + domain.members.len(),
            _ => 2,
        };
        found.push(Request { verb, cpu, value });
    }
    assert!(bound <= MOST_OPERATIONS, "the script is too long");
    found
}

#[derive(Clone, Copy)]
enum Reply {
    Stands(u64),
    NoTable,
    Unfit(u8),
    OutOfRange(u64, u64),
    Crossed(u64),
}

/// What processors ask for, and between which two they may stand.
struct State<'a> {
    plan: &'a Plan,
    asks: Vec<u64>,
    minima: Vec<u64>,
    maxima: Vec<u64>,
}

fn set(cpu: u32, register: Option<Register>, value: u64, ops: &mut Vec<Op>) {
    if let Some(register) = register {
        ops.push(Op::Set { cpu, register, value });
    }
}

impl<'a> State<'a> {
    fn new(plan: &'a Plan) -> State<'a> {
        let each = |of: fn(Table) -> Option<u64>| plan.tables.iter().map(|table| table.and_then(of).unwrap_or(0)).collect();
        State { plan, asks: each(|table| table.highest), minima: each(|table| table.lowest), maxima: each(|table| table.highest) }
    }

    /// Where a domain stands, or one of its members where hardware coordinates it.
    fn standing(&self, domain: &Domain, cpu: u32) -> u64 {
        let cpu = cpu as usize;
        let (wanted, most) = match domain.coord {
            Coord::HwAll => (self.asks[cpu].max(self.minima[cpu]), self.maxima[cpu]),
            Coord::SwAll | Coord::SwAny => domain.members.iter().map(|cpu| *cpu as usize).fold((0, u64::MAX), |(wanted, most), cpu| {
                (wanted.max(self.asks[cpu]).max(self.minima[cpu]), most.min(self.maxima[cpu]))
            }),
        };
        wanted.min(most)
    }

    fn set_desired(&self, members: &[u32], value: u64, ops: &mut Vec<Op>) {
        for cpu in members {
            set(*cpu, self.plan.tables[*cpu as usize].and_then(|table| table.desired), value, ops);
        }
    }

    fn opening(&self, ops: &mut Vec<Op>) {
        for domain in self.plan.domains.iter().filter(|domain| domain.unfit == 0) {
            for cpu in &domain.members {
                let table = self.plan.tables[*cpu as usize].expect("a member has a table");
                set(*cpu, table.minimum, self.minima[*cpu as usize], ops);
                set(*cpu, table.maximum, self.maxima[*cpu as usize], ops);
            }
            match domain.coord {
                Coord::SwAll => self.set_desired(&domain.members, self.standing(domain, 0), ops),
                Coord::SwAny => self.set_desired(&domain.members[..1], self.standing(domain, 0), ops),
                Coord::HwAll => {
                    for cpu in &domain.members {
                        self.set_desired(&[*cpu], self.standing(domain, *cpu), ops);
                    }
                }
            }
        }
    }

    fn serve(&mut self, request: Request, ops: &mut Vec<Op>) -> Result<Reply, Reply> {
        let (cpu, value) = (request.cpu as usize, u64::from(request.value));
        let table = self.plan.tables[cpu].ok_or(Reply::NoTable)?;
        let domain = &self.plan.domains[self.plan.domain[cpu]];
        let (0, Some(lowest), Some(highest)) = (domain.unfit, table.lowest, table.highest) else {
            return Err(Reply::Unfit(domain.unfit));
        };
        if !(lowest..=highest).contains(&value) {
            return Err(Reply::OutOfRange(lowest, highest));
        }
        let before = self.standing(domain, request.cpu);
        match request.verb {
            Verb::Desired => self.asks[cpu] = value,
            Verb::Minimum if value > self.maxima[cpu] => return Err(Reply::Crossed(self.maxima[cpu])),
            Verb::Maximum if value < self.minima[cpu] => return Err(Reply::Crossed(self.minima[cpu])),
            Verb::Minimum => {
                self.minima[cpu] = value;
                set(request.cpu, table.minimum, value, ops);
            }
            Verb::Maximum => {
                self.maxima[cpu] = value;
                set(request.cpu, table.maximum, value, ops);
            }
        }
        let stands = self.standing(domain, request.cpu);
        if stands != before {
            match domain.coord {
                Coord::SwAll => self.set_desired(&domain.members, stands, ops),
                Coord::SwAny | Coord::HwAll => self.set_desired(&[request.cpu], stands, ops),
            }
        }
        Ok(Reply::Stands(stands))
    }
}

// # A run

fn put(out: &mut impl Write, text: &[u8], number: u64) -> io::Result<()> {
    out.write_all(text)?;
    put_number(out, number)
}

fn put_request(out: &mut impl Write, request: Request) -> io::Result<()> {
    let verb: &[u8] = match request.verb {
        Verb::Desired => b" desired ",
        Verb::Minimum => b" minimum ",
        Verb::Maximum => b" maximum ",
    };
    put(out, verb, u64::from(request.value))
}

fn put_reply(out: &mut impl Write, reply: Reply) -> io::Result<()> {
    match reply {
        Reply::Stands(value) => put(out, b" stands ", value),
        Reply::NoTable => out.write_all(b" refused no table"),
        Reply::Unfit(why) => put(out, b" refused unfit ", u64::from(why)),
        Reply::OutOfRange(lowest, highest) => {
            put(out, b" refused out of range ", lowest)?;
            put(out, b" ", highest)
        }
        Reply::Crossed(bound) => put(out, b" refused crossed ", bound),
    }
}

impl Coordination for State<'_> {
    type Request = Request;
    type Reply = Reply;

    fn cpu(request: Request) -> u32 {
        request.cpu
    }

    fn opening(&mut self, ops: &mut Vec<Op>) {
        State::opening(self, ops);
    }

    fn serve(&mut self, request: Request, ops: &mut Vec<Op>) -> Reply {
        State::serve(self, request, ops).unwrap_or_else(|refusal| refusal)
    }

    fn put_request(out: &mut Vec<u8>, request: Request) -> io::Result<()> {
        put_request(out, request)
    }

    fn put_reply(out: &mut Vec<u8>, reply: &Reply) -> io::Result<()> {
        put_reply(out, *reply)
    }
}

/// The processors' names.
fn names(space: &Space, machine: &machine::Machine) -> script::Machine {
    let cpu = |cpu: &machine::Cpu| {
        let segs = segs(space, cpu.place);
        script::Cpu { name: segs.concat(), path: path_of(&segs), parent: None, rows: Vec::new(), idle_bound: 0, scales: [None, None] }
    };
    script::Machine { containers: Vec::new(), cpus: machine.cpus.iter().map(cpu).collect(), domains: Vec::new() }
}

/// Audits a history of the requests of a script, and tells the status.
pub fn audit_history(space: &Space, machine: &machine::Machine, script: &[u8], text: &[u8], out: impl Write) -> io::Result<u8> {
    let (plan, names) = (plan(space, machine), names(space, machine));
    let requests = requests(&plan, &names, script);
    tell(audit(&names, &mut State::new(&plan), &requests, text), out)
}

/// Makes the requests of a script, and prints their history.
pub fn cppc(space: &Space, machine: &machine::Machine, text: &[u8], mut out: impl Write) -> io::Result<()> {
    let (plan, names) = (plan(space, machine), names(space, machine));
    let requests = requests(&plan, &names, text);
    let mut state = State::new(&plan);
    let mut registers = Vec::with_capacity(MOST_OPERATIONS);
    let mut done = Vec::with_capacity(requests.len());
    state.opening(&mut registers);
    let mut seen = registers.len();
    for request in requests {
        let reply = state.serve(request, &mut registers).unwrap_or_else(|refusal| refusal);
        done.push((request, reply, registers.len()));
    }
    out.write_all(b"open\n")?;
    put_ops(&mut out, &names, &registers[..seen])?;
    for (number, (request, reply, until)) in (1..).zip(done) {
        put_number(&mut out, number)?;
        out.write_all(b" ")?;
        put_path(&mut out, &names, request.cpu)?;
        put_request(&mut out, request)?;
        out.write_all(b" ->")?;
        put_reply(&mut out, reply)?;
        out.write_all(b"\n")?;
        put_ops(&mut out, &names, &registers[seen..until])?;
        seen = until;
    }
    out.flush()
}
