//! `drive --serial`: the requests of a script on a machine, over a record for each container and each domain, each of which changes
//! by what was asked, and the votes for C states; a register file in memory; and the history, printed at the end. By workers the
//! records have locks (`workers`). `audit` walks over a history with these records.

use crate::audit::{Coordination, Said, audit};
use crate::machine;
use crate::plan::{self, Sort};
use crate::script::{
    Chain, Child, Container, Coord, Cpu, Domain, Entry, Kind, Line, Machine, Op, RUNNING, Register, Reply, Request, Row, Scale, Vote,
    entered, follow, path_of, put_number, put_ops, put_path, put_reply, put_request, script, set_each, step,
};
use crate::shared::Asked as Entered;
use crate::space::Space;
use crate::tables;
use crate::workers;
use std::io::{self, Write};

pub const MOST_OPERATIONS: usize = 1_048_576;

// # The machine

pub fn register(of: tables::Register) -> Register {
    let tables::Register { space, width, offset, access, address } = of;
    Register { space, width, offset, access, address }
}

fn rows(idle: machine::Idle) -> Vec<Row> {
    let row = |row: tables::Row| {
        let entry = match row.entry {
            tables::Entry::Register(own) => Entry::Register(register(own)),
            tables::Entry::Integer(address) => Entry::Integer(address),
        };
        Row { enabled: row.enabled, latency: row.latency, residency: row.residency, parent: row.parent, entry }
    };
    idle.rows.into_iter().map(row).collect()
}

pub fn segs(space: &Space, mut place: u32) -> Vec<[u8; 4]> {
    let mut segs = Vec::new();
    while place != 0 {
        segs.push(space.places[place as usize].seg);
        place = space.places[place as usize].above;
    }
    segs.reverse();
    segs
}

fn domain(of: plan::Domain) -> Domain {
    let kind = match of.sort {
        Sort::Perf => Kind::Perf,
        Sort::Throttle => Kind::Throttle,
        Sort::Idle => unreachable!("domains of C states are kept apart"),
    };
    let coord = match of.coord {
        tables::Coord::SwAll => Coord::SwAll,
        tables::Coord::SwAny => Coord::SwAny,
        tables::Coord::HwAll => Coord::HwAll,
    };
    Domain { kind, coord, unfit: of.unfit, members: of.members }
}

/// A domain of a C state, and its number among all domains.
struct Shared {
    number: usize,
    state: u8,
    coord: tables::Coord,
    unfit: u8,
    members: Vec<u32>,
}

/// What C states need: the domains, of each processor those that it is in, and its group.
struct CStates {
    shared: Vec<Shared>,
    of: Vec<Vec<usize>>,
    groups: Vec<Vec<u32>>,
}

fn c_states(plan: &plan::Plan, count: usize) -> CStates {
    let mut shared = Vec::new();
    let (mut of, mut groups) = (vec![Vec::new(); count], vec![Vec::new(); count]);
    for (number, domain) in plan.domains.iter().enumerate().filter(|(_, domain)| domain.sort == Sort::Idle) {
        for cpu in &domain.members {
            of[*cpu as usize].push(shared.len());
        }
        let members = domain.members.clone();
        shared.push(Shared { number, state: domain.index as u8 + 1, coord: domain.coord, unfit: domain.unfit, members });
    }
    for group in &plan.groups {
        for cpu in group {
            groups[*cpu as usize] = group.clone();
        }
    }
    CStates { shared, of, groups }
}

/// The machine as its coordinator needs it.
fn planned(space: &Space, machine: machine::Machine, plan: plan::Plan, c_states: &CStates) -> Machine {
    let scaled = plan.domains.into_iter().filter(|domain| domain.sort != Sort::Idle);
    let domains: Vec<Domain> = scaled.map(domain).collect();
    let mut joined = vec![[0; 2]; machine.cpus.len()];
    for (place, domain) in domains.iter().enumerate() {
        for cpu in &domain.members {
            joined[*cpu as usize][domain.kind as usize] = place;
        }
    }
    let mut containers: Vec<Container> = Vec::new();
    for (number, of) in (0..).zip(machine.containers) {
        if let Some(parent) = of.parent {
            containers[parent as usize].children.push(Child::Container(number));
        }
        containers.push(Container { parent: of.parent, rows: rows(of.idle), children: Vec::new() });
    }
    let mut cpus = Vec::new();
    for (number, of) in (0..).zip(machine.cpus) {
        if let Some(parent) = of.parent {
            containers[parent as usize].children.push(Child::Cpu(number));
        }
        let idle_bound = c_states.groups[number as usize].len().max(1) as u64;
        let scale = |kind: Kind, scale: Option<machine::Scale>| {
            let domain = joined[number as usize][kind as usize];
            scale.map(|of| Scale { controls: of.controls, register: register(of.register.unwrap_or(tables::NULL)), limit: of.limit, domain })
        };
        let scales = [scale(Kind::Perf, of.perf), scale(Kind::Throttle, of.throttle)];
        let segs = segs(space, of.place);
        cpus.push(Cpu { name: segs.concat(), path: path_of(&segs), parent: of.parent, rows: rows(of.idle), idle_bound, scales });
    }
    Machine { containers, cpus, domains }
}

// # The records

/// A container, by the votes of its children and its own.
pub struct Node {
    pub votes: Vec<Vote>,
    pub vote: Vote,
}

impl Node {
    /// The record at the start: every child runs.
    pub fn new(container: &Container) -> Node {
        Node { votes: vec![RUNNING; container.children.len()], vote: RUNNING }
    }

    /// The vote of a container of this number: the deepest state that all its children allow.
    fn deepest(&self, machine: &Machine, number: usize) -> Vote {
        let container = &machine.containers[number];
        let (mut deepest, mut tolerance) = (u32::MAX, u32::MAX);
        for (child, vote) in container.children.iter().zip(&self.votes) {
            if vote.state == 0 {
                return RUNNING;
            }
            let rows = match *child {
                Child::Cpu(cpu) => &machine.cpus[cpu as usize].rows,
                Child::Container(below) => &machine.containers[below as usize].rows,
            };
            deepest = deepest.min(rows[vote.state as usize - 1].parent);
            tolerance = tolerance.min(vote.tolerance);
        }
        let allowed = &container.rows[..container.rows.len().min(deepest as usize)];
        match allowed.iter().rposition(|row| row.enabled && row.latency <= tolerance) {
            None => RUNNING,
            Some(at) => Vote { state: at as u8 + 1, tolerance },
        }
    }

    /// Sets the vote of a child, and answers the container's own before and after.
    pub fn set(&mut self, machine: &Machine, number: usize, place: usize, vote: Vote) -> (Vote, Vote) {
        self.votes[place] = vote;
        let before = self.vote;
        self.vote = self.deepest(machine, number);
        (before, self.vote)
    }
}

/// A domain, by what its members ask for and their limits.
pub struct Levels {
    pub asks: Vec<u8>,
    pub limits: Vec<u8>,
}

impl Levels {
    /// The record at the start: every member asks for its limit.
    pub fn new(machine: &Machine, domain: &Domain) -> Levels {
        let limits: Vec<u8> = domain.members.iter().map(|cpu| machine.opening_limit(domain.kind, *cpu)).collect();
        Levels { asks: limits.clone(), limits }
    }

    /// Where the domain stands, or one of its members where hardware coordinates it.
    pub fn standing(&self, coord: Coord, member: usize) -> u8 {
        match coord {
            Coord::SwAll | Coord::SwAny => {
                let fastest = self.asks.iter().fold(255, |least: u8, ask| least.min(*ask));
                self.limits.iter().fold(fastest, |most, limit| most.max(*limit))
            }
            Coord::HwAll => self.asks[member].max(self.limits[member]),
        }
    }
}

/// Of each processor its place among the children of its container and among the members of its domains, and of each
/// container its place among the children of the one around it.
pub struct Places {
    pub child: Vec<usize>,
    pub member: Vec<[usize; 2]>,
    pub inner: Vec<usize>,
}

impl Places {
    pub fn new(machine: &Machine) -> Places {
        let (mut child, mut inner) = (vec![0; machine.cpus.len()], vec![0; machine.containers.len()]);
        for container in &machine.containers {
            for (place, of) in container.children.iter().enumerate() {
                match *of {
                    Child::Cpu(cpu) => child[cpu as usize] = place,
                    Child::Container(number) => inner[number as usize] = place,
                }
            }
        }
        let mut member = vec![[0; 2]; machine.cpus.len()];
        for domain in &machine.domains {
            for (place, cpu) in domain.members.iter().enumerate() {
                member[*cpu as usize][domain.kind as usize] = place;
            }
        }
        Places { child, member, inner }
    }
}

pub struct Records<'a> {
    machine: &'a Machine,
    c_states: &'a CStates,
    /// Which processors have C states, and what each of those votes.
    has_c: Vec<bool>,
    c_votes: Vec<u8>,
    nodes: Vec<Node>,
    levels: Vec<Levels>,
    places: Places,
}

impl<'a> Records<'a> {
    fn new(machine: &'a Machine, c_states: &'a CStates, has_c: Vec<bool>) -> Records<'a> {
        let nodes = machine.containers.iter().map(Node::new).collect();
        let levels = machine.domains.iter().map(|domain| Levels::new(machine, domain)).collect();
        let c_votes = vec![0; machine.cpus.len()];
        Records { machine, c_states, has_c, c_votes, nodes, levels, places: Places::new(machine) }
    }

    /// Sets the vote of a processor, and those of its containers up to the first that runs before and after.
    fn vote(&mut self, cpu: u32, own: Vote) -> Chain {
        let mut chain = Chain { len: 1, states: [own.state, 0, 0, 0, 0, 0, 0, 0, 0] };
        let (mut rising, mut vote, mut place) = (true, own, self.places.child[cpu as usize]);
        let mut next = self.machine.cpus[cpu as usize].parent;
        while let Some(number) = next {
            let number = number as usize;
            let before;
            (before, vote) = self.nodes[number].set(self.machine, number, place, vote);
            rising &= vote.state > 0;
            if rising {
                chain.push(vote.state);
            }
            if before.state == 0 && vote.state == 0 {
                break;
            }
            place = self.places.inner[number];
            next = self.machine.containers[number].parent;
        }
        chain
    }

    fn idle(&mut self, cpu: u32, state: u32, tolerance: u32, ops: &mut Vec<Op>) -> Reply {
        let own = &self.machine.cpus[cpu as usize];
        if own.rows.is_empty() {
            return Reply::NoTable;
        }
        let shared = self.c_states.of[cpu as usize].iter().map(|at| &self.c_states.shared[*at]);
        if let Some(unfit) = shared.filter(|shared| shared.unfit > 0).min_by_key(|shared| shared.number) {
            return Reply::Unfit { domain: unfit.number as u32, why: unfit.unfit };
        }
        if state == 0 || state as usize > own.rows.len() {
            return Reply::NoState(own.rows.len() as u32);
        }
        let row = &own.rows[state as usize - 1];
        if !row.enabled {
            return Reply::Disabled;
        }
        if row.latency > tolerance {
            return Reply::TooSlow(row.latency);
        }
        if self.has_c[cpu as usize] {
            return Reply::Entered(self.c_vote(cpu, state as u8, ops));
        }
        let chain = self.vote(cpu, Vote { state: state as u8, tolerance });
        ops.push(Op::Enter { cpu, register: entered(self.machine, cpu, chain) });
        Reply::Entered(chain)
    }

    /// The domains by which software coordinates this C state of a processor.
    fn governing(&self, cpu: u32, state: u8) -> impl Iterator<Item = &Shared> {
        let shared = self.c_states.of[cpu as usize].iter().map(|at| &self.c_states.shared[*at]);
        shared.filter(move |shared| shared.state == state && shared.coord != tables::Coord::HwAll)
    }

    /// The C state of a processor: the deepest up to its vote whose domains are gathered.
    fn c_state(&self, cpu: u32) -> u8 {
        let gathered = |shared: &Shared| shared.members.iter().all(|member| self.c_votes[*member as usize] >= shared.state);
        let entered = (1..=self.c_votes[cpu as usize]).rev().find(|state| self.governing(cpu, *state).all(gathered));
        entered.unwrap_or(0)
    }

    /// Sets the vote of a processor for a C state; others of its group enter along.
    fn c_vote(&mut self, cpu: u32, state: u8, ops: &mut Vec<Op>) -> Chain {
        let group = &self.c_states.groups[cpu as usize];
        let before: Vec<u8> = group.iter().map(|member| self.c_state(*member)).collect();
        self.c_votes[cpu as usize] = state;
        let alone = |state| Chain { len: 1, states: [state, 0, 0, 0, 0, 0, 0, 0, 0] };
        let chain = alone(self.c_state(cpu));
        if chain.states[0] > 0 {
            ops.push(Op::Enter { cpu, register: entered(self.machine, cpu, chain) });
        }
        for (member, before) in group.iter().zip(before) {
            let state = self.c_state(*member);
            let is_drawn = || self.governing(*member, state).any(|shared| shared.coord == tables::Coord::SwAll);
            if *member != cpu && state > before && is_drawn() {
                ops.push(Op::Enter { cpu: *member, register: entered(self.machine, *member, alone(state)) });
            }
        }
        chain
    }

    /// Where a domain stands, or one of its members where hardware coordinates it.
    fn standing(&self, place: usize, member: usize) -> u8 {
        self.levels[place].standing(self.machine.domains[place].coord, member)
    }

    fn scaled(&self, kind: Kind, cpu: u32) -> Result<(&'a Scale, usize), Reply> {
        let scale = self.machine.scale_of(kind, cpu).ok_or(Reply::NoTable)?;
        match self.machine.domains[scale.domain].unfit {
            0 => Ok((scale, self.places.member[cpu as usize][kind as usize])),
            why => Err(Reply::Unfit { domain: scale.domain as u32, why }),
        }
    }

    fn ask(&mut self, kind: Kind, cpu: u32, index: u32, ops: &mut Vec<Op>) -> Result<Reply, Reply> {
        let (scale, member) = self.scaled(kind, cpu)?;
        let limit = self.levels[scale.domain].limits[member];
        if index as usize >= scale.controls.len() {
            return Err(Reply::NoState(scale.controls.len() as u32));
        }
        if index < u32::from(limit) {
            return Err(Reply::AboveLimit(limit));
        }
        let before = self.standing(scale.domain, member);
        self.levels[scale.domain].asks[member] = index as u8;
        Ok(self.set(scale.domain, member, cpu, before, ops))
    }

    fn limit(&mut self, kind: Kind, cpu: u32, n: u32, ops: &mut Vec<Op>) -> Result<Reply, Reply> {
        let (scale, member) = self.scaled(kind, cpu)?;
        let before = self.standing(scale.domain, member);
        self.levels[scale.domain].limits[member] = n.min(scale.controls.len() as u32 - 1) as u8;
        Ok(self.set(scale.domain, member, cpu, before, ops))
    }

    /// Sets where a domain stands, if that changed.
    fn set(&mut self, place: usize, member: usize, cpu: u32, before: u8, ops: &mut Vec<Op>) -> Reply {
        let (domain, stands) = (&self.machine.domains[place], self.standing(place, member));
        if stands != before {
            match domain.coord {
                Coord::SwAll => set_each(self.machine, domain.kind, &domain.members, stands, ops),
                Coord::SwAny | Coord::HwAll => set_each(self.machine, domain.kind, &[cpu], stands, ops),
            }
        }
        Reply::Stands(stands)
    }

    pub fn serve(&mut self, request: Request, ops: &mut Vec<Op>) -> Reply {
        match request {
            Request::Idle { cpu, state, tolerance } => self.idle(cpu, state, tolerance, ops),
            Request::Wake { cpu } => {
                self.c_votes[cpu as usize] = 0;
                if !self.has_c[cpu as usize] {
                    self.vote(cpu, RUNNING);
                }
                Reply::Running
            }
            Request::Ask { kind, cpu, index } => self.ask(kind, cpu, index, ops).unwrap_or_else(|refusal| refusal),
            Request::Limit { kind, cpu, n } => self.limit(kind, cpu, n, ops).unwrap_or_else(|refusal| refusal),
        }
    }

    /// The operations at the start.
    pub fn opening(&self, ops: &mut Vec<Op>) {
        for (place, domain) in self.machine.domains.iter().enumerate().filter(|(_, domain)| domain.unfit == 0) {
            match domain.coord {
                Coord::SwAll => set_each(self.machine, domain.kind, &domain.members, self.standing(place, 0), ops),
                Coord::SwAny => set_each(self.machine, domain.kind, &domain.members[..1], self.standing(place, 0), ops),
                Coord::HwAll => {
                    for (member, cpu) in domain.members.iter().enumerate() {
                        set_each(self.machine, domain.kind, &[*cpu], self.standing(place, member), ops);
                    }
                }
            }
        }
    }
}

// # A run

fn print(machine: &Machine, opened: usize, done: &[Entered], registers: &[Op], mut out: impl Write) -> io::Result<()> {
    out.write_all(b"open\n")?;
    put_ops(&mut out, machine, &registers[..opened])?;
    let mut seen = opened;
    for (number, entry) in (1..).zip(done) {
        put_number(&mut out, number)?;
        out.write_all(b" ")?;
        put_path(&mut out, machine, entry.request.cpu())?;
        put_request(&mut out, entry.request)?;
        out.write_all(b" ->")?;
        put_reply(&mut out, &entry.reply)?;
        out.write_all(b"\n")?;
        put_ops(&mut out, machine, &registers[seen..entry.seen as usize])?;
        seen = entry.seen as usize;
    }
    out.flush()
}

/// The summary of a run that is over: what doesn't depend on which processor asked first.
fn summarize(machine: &Machine, nodes: &[Node], levels: &[Levels], done: &[Entered], mut out: impl Write) -> io::Result<()> {
    let count = |test: fn(&Reply) -> bool| done.iter().filter(|entry| test(&entry.reply)).count();
    let (entered, running) = (count(|reply| matches!(reply, Reply::Entered(_))), count(|reply| matches!(reply, Reply::Running)));
    let stands = count(|reply| matches!(reply, Reply::Stands(_)));
    writeln!(out, "processors {}", machine.cpus.len())?;
    writeln!(out, "lines {}", done.len())?;
    writeln!(out, "entered {entered}\nrunning {running}\nstands {stands}\nrefused {}", done.len() - entered - running - stands)?;
    out.write_all(b"containers")?;
    for node in nodes {
        write!(out, " {}", node.vote.state)?;
    }
    out.write_all(b"\nstanding")?;
    for (domain, levels) in machine.domains.iter().zip(levels).filter(|(domain, _)| matches!(domain.kind, Kind::Perf)) {
        write!(out, " {}", levels.standing(domain.coord, 0))?;
    }
    out.write_all(b"\n")?;
    out.flush()
}

/// What is asked of a machine, and what is printed of the run.
pub enum Asked<'a> {
    /// The history of a script, whose notifications each move a limit by one state or set it, on one thread or by workers. The text is
    /// let go once it is read.
    Script { text: Vec<u8>, steps: bool, serial: bool },
    /// What is to be said of a history of a script.
    History { script: &'a [u8], steps: bool, text: &'a [u8] },
    /// The summary of a load.
    Load(Vec<Line>),
}

/// One thread makes all requests.
fn serial(machine: &Machine, mut records: Records, lines: &[Line], out: impl Write) -> io::Result<()> {
    let mut registers = Vec::with_capacity(MOST_OPERATIONS);
    let mut done = Vec::with_capacity(lines.len());
    records.opening(&mut registers);
    let opened = registers.len();
    for line in lines {
        let reply = records.serve(line.request, &mut registers);
        done.push(Entered { seat: 0, request: line.request, reply, seen: registers.len() as u32 });
    }
    print(machine, opened, &done, &registers, out)
}

/// Workers make the requests, each those of a processor.
fn by_workers(machine: Machine, lines: &[Line], is_load: bool, out: impl Write) -> io::Result<()> {
    let (coordinator, opened) = workers::drive(machine, lines, MOST_OPERATIONS);
    let (machine, nodes, levels, journal) = coordinator.end();
    if is_load {
        summarize(&machine, &nodes, &levels, &journal.entries, out)
    } else {
        print(&machine, opened, &journal.entries, &journal.registers, out)
    }
}

impl Coordination for Records<'_> {
    type Request = Request;
    type Reply = Reply;

    fn cpu(request: Request) -> u32 {
        request.cpu()
    }

    fn opening(&mut self, ops: &mut Vec<Op>) {
        Records::opening(self, ops);
    }

    fn serve(&mut self, request: Request, ops: &mut Vec<Op>) -> Reply {
        Records::serve(self, request, ops)
    }

    fn put_request(out: &mut Vec<u8>, request: Request) -> io::Result<()> {
        put_request(out, request)
    }

    fn put_reply(out: &mut Vec<u8>, reply: &Reply) -> io::Result<()> {
        put_reply(out, reply)
    }
}

/// Tells what is said of a history: the line, and the status.
pub fn tell(said: Said, mut out: impl Write) -> io::Result<u8> {
    match said {
        Said::Lawful(entries) => writeln!(out, "lawful entries {entries}").and(Ok(0)),
        Said::Wrong(line) => writeln!(io::stderr(), "history: line {line}").and(Ok(8)),
        Said::Ends(lines) => writeln!(io::stderr(), "history: ends after {lines} lines").and(Ok(8)),
        Said::Long => writeln!(io::stderr(), "history: longer than 67108864").and(Ok(8)),
    }
}

/// Does what is asked, and tells the status. Machines with C states are driven by one thread.
pub fn drive(space: &Space, machine: machine::Machine, plan: plan::Plan, asked: Asked, out: impl Write) -> io::Result<u8> {
    let c_states = c_states(&plan, machine.cpus.len());
    let has_c: Vec<bool> = machine.cpus.iter().map(|cpu| cpu.idle.kind == machine::Kind::Cst).collect();
    let machine = planned(space, machine, plan, &c_states);
    let lines_of = |text: &[u8], steps| {
        let handler = if steps { step } else { follow };
        script(&machine, text, [handler, handler])
    };
    match asked {
        Asked::Load(lines) => by_workers(machine, &lines, true, out)?,
        Asked::Script { text, steps, serial: is_serial } => {
            let lines = lines_of(&text, steps);
            drop(text);
            if is_serial || has_c.contains(&true) {
                serial(&machine, Records::new(&machine, &c_states, has_c), &lines, out)?;
            } else {
                by_workers(machine, &lines, false, out)?;
            }
        }
        Asked::History { script, steps, text } => {
            let requests: Vec<Request> = lines_of(script, steps).iter().map(|line| line.request).collect();
            return tell(audit(&machine, &mut Records::new(&machine, &c_states, has_c), &requests, text), out);
        }
    }
    Ok(0)
}
