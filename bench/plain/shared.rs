//! A coordinator that threads share, with one lock round the whole of it, or with one for each record, taken in the order of the
//! climb, and one for the journal; `turns` has a third way. `shared` makes requests of several threads on it, over and over, as
//! `bench/shared_program` does. Machines with C states aren't coordinated here.

use crate::drive::{Levels, Node, Places};
use crate::script::{
    ANY_LATENCY, Chain, Child, Container, Coord, Cpu, Domain, Entry, Kind, Machine, Op, RUNNING, Register, Reply, Request, Row, Scale, Vote,
    entered, set_each,
};
use crate::turns::EachTurn;
use std::sync::Mutex;
use std::thread;

const REQUESTS: u32 = 65536;
const THREADS: u32 = 8;
const CLUSTER: u32 = 8;
const MOST_OF_A_REQUEST: usize = 256;

// # The machines

fn row(latency: u32, parent: u32, entry: Entry) -> Row {
    Row { enabled: true, latency, residency: 0, parent, entry }
}

fn fixed(address: u64) -> Entry {
    Entry::Register(Register { space: 127, width: 32, offset: 0, access: 3, address })
}

fn cluster(number: u32) -> Container {
    let children = (number * CLUSTER..(number + 1) * CLUSTER).map(Child::Cpu).collect();
    let rows = vec![row(100, 1, Entry::Integer(0x10)), row(500, 2, Entry::Integer(0x20))];
    Container { parent: None, rows, children }
}

fn clusters(count: u32) -> Machine {
    let cpu = |number| Cpu {
        name: Vec::new(),
        path: Vec::new(),
        parent: Some(number / CLUSTER),
        rows: vec![row(10, 0, fixed(1)), row(50, 1, fixed(2)), row(200, 2, fixed(3))],
        idle_bound: 1,
        scales: [None, None],
    };
    Machine { containers: (0..count).map(cluster).collect(), cpus: (0..count * CLUSTER).map(cpu).collect(), domains: Vec::new() }
}

fn domains() -> Machine {
    let register = Register { space: 1, width: 8, offset: 0, access: 1, address: 0xB2 };
    let scale = |domain| Scale { controls: (0x10..0x14).collect(), register, limit: 0, domain: domain as usize };
    let cpu = |number| Cpu { name: Vec::new(), path: Vec::new(), parent: None, rows: Vec::new(), idle_bound: 1, scales: [Some(scale(number)), None] };
    let domain = |number| Domain { kind: Kind::Perf, coord: Coord::SwAll, unfit: 0, members: vec![number] };
    Machine { containers: Vec::new(), cpus: (0..THREADS).map(cpu).collect(), domains: (0..THREADS).map(domain).collect() }
}

#[derive(Clone, Copy)]
enum Load {
    OneCluster,
    EightClusters,
    Domains,
}

impl Load {
    fn named(word: &str) -> Load {
        match word {
            "one-cluster" => Load::OneCluster,
            "eight-clusters" => Load::EightClusters,
            "domains" => Load::Domains,
            _ => panic!("no such machine"),
        }
    }

    fn machine(self) -> Machine {
        match self {
            Load::OneCluster => clusters(1),
            Load::EightClusters => clusters(8),
            Load::Domains => domains(),
        }
    }

    /// The processor that a thread asks for.
    fn cpu(self, thread: u32) -> u32 {
        match self {
            Load::EightClusters => thread * CLUSTER,
            Load::OneCluster | Load::Domains => thread,
        }
    }

    fn request(self, cpu: u32, step: u32) -> Request {
        let is_first = step % 2 == 0;
        match self {
            Load::Domains => Request::Ask { kind: Kind::Perf, cpu, index: u32::from(is_first) },
            Load::OneCluster | Load::EightClusters if is_first => Request::Idle { cpu, state: 3, tolerance: ANY_LATENCY },
            Load::OneCluster | Load::EightClusters => Request::Wake { cpu },
        }
    }
}

// # The journal

/// What the journal keeps of a request.
pub trait Kept: Send {
    fn new(seat: u32, request: Request, reply: Reply, seen: usize) -> Self;
}

/// Who asked for what, the reply, and how many operations the registers had seen when it was done.
#[allow(dead_code)]
pub struct Asked {
    pub seat: u32,
    pub request: Request,
    pub reply: Reply,
    pub seen: u32,
}

impl Kept for Asked {
    fn new(seat: u32, request: Request, reply: Reply, seen: usize) -> Asked {
        Asked { seat, request, reply, seen: seen as u32 }
    }
}

/// Who asked for what.
#[allow(dead_code)]
pub struct Bare {
    seat: u32,
    request: Request,
}

impl Kept for Bare {
    fn new(seat: u32, request: Request, _reply: Reply, _seen: usize) -> Bare {
        Bare { seat, request }
    }
}

/// The entries and the registers, in memory that is taken at the start.
pub struct Journal<E> {
    pub entries: Vec<E>,
    pub registers: Vec<Op>,
    stopped: bool,
}

/// What a request was told that wasn't answered.
#[derive(Debug)]
pub enum Unanswered {
    Full,
    Stopped,
    Fault,
}

pub type Told = Result<Reply, Unanswered>;

impl<E: Kept> Journal<E> {
    pub fn open(opening: &mut Vec<Op>, entries: usize, operations: usize) -> Journal<E> {
        let mut registers = Vec::with_capacity(operations);
        registers.append(opening);
        Journal { entries: Vec::with_capacity(entries), registers, stopped: false }
    }

    pub fn may_append(&self) -> Result<(), Unanswered> {
        if self.stopped {
            return Err(Unanswered::Stopped);
        }
        if self.entries.len() == self.entries.capacity() { Err(Unanswered::Full) } else { Ok(()) }
    }

    /// Does the operations, up to the first that finds no room, and appends the entry.
    pub fn append(&mut self, seat: u32, request: Request, reply: Reply, ops: &mut Vec<Op>) -> Told {
        let room = self.registers.capacity() - self.registers.len();
        self.stopped = ops.len() > room;
        self.registers.extend(ops.drain(..).take(room));
        self.entries.push(E::new(seat, request, reply, self.registers.len()));
        if self.stopped { Err(Unanswered::Fault) } else { Ok(reply) }
    }
}

// # Requests

/// Where a vote stands on its way up.
pub struct Climb {
    pub next: Option<u32>,
    pub place: usize,
    pub vote: Vote,
    rising: bool,
    chain: Chain,
}

/// What doesn't change.
pub struct Plan {
    pub machine: Machine,
    places: Places,
}

/// What a request changed in the record of a domain.
pub struct Old {
    is_limit: bool,
    level: u8,
}

impl Old {
    pub fn set_back(&self, levels: &mut Levels, member: usize) {
        let of = if self.is_limit { &mut levels.limits } else { &mut levels.asks };
        of[member] = self.level;
    }
}

impl Plan {
    pub fn new(machine: Machine) -> Plan {
        let places = Places::new(&machine);
        Plan { machine, places }
    }

    /// The vote of a processor, below its container; or the reply of one that may not idle so.
    pub fn begin(&self, request: Request) -> Result<Climb, Reply> {
        let (cpu, own) = match request {
            Request::Idle { cpu, state, tolerance } => (cpu, self.idle(cpu, state, tolerance)?),
            Request::Wake { cpu } => (cpu, RUNNING),
            Request::Ask { .. } | Request::Limit { .. } => unreachable!(),
        };
        let chain = Chain { len: 1, states: [own.state, 0, 0, 0, 0, 0, 0, 0, 0] };
        let (next, place) = (self.machine.cpus[cpu as usize].parent, self.places.child[cpu as usize]);
        Ok(Climb { next, place, vote: own, rising: true, chain })
    }

    fn idle(&self, cpu: u32, state: u32, tolerance: u32) -> Result<Vote, Reply> {
        let rows = &self.machine.cpus[cpu as usize].rows;
        if rows.is_empty() {
            return Err(Reply::NoTable);
        }
        if state == 0 || state as usize > rows.len() {
            return Err(Reply::NoState(rows.len() as u32));
        }
        let row = &rows[state as usize - 1];
        if !row.enabled {
            return Err(Reply::Disabled);
        }
        if row.latency > tolerance {
            return Err(Reply::TooSlow(row.latency));
        }
        Ok(Vote { state: state as u8, tolerance })
    }

    /// Goes past a container, to the one around it where a vote goes on.
    pub fn past(&self, climb: &mut Climb, number: u32, (before, after): (Vote, Vote)) {
        climb.rising &= after.state > 0;
        if climb.rising {
            climb.chain.push(after.state);
        }
        climb.vote = after;
        climb.place = self.places.inner[number as usize];
        let parent = self.machine.containers[number as usize].parent;
        climb.next = if before.state == 0 && after.state == 0 { None } else { parent };
    }

    /// The reply of a climb that is over, and its operation.
    pub fn over(&self, request: Request, climb: &Climb, ops: &mut Vec<Op>) -> Reply {
        let (Request::Idle { cpu, .. }, chain) = (request, climb.chain) else {
            return Reply::Running;
        };
        ops.push(Op::Enter { cpu, register: entered(&self.machine, cpu, chain) });
        Reply::Entered(chain)
    }

    /// The states and the member of a processor that asks, or whose limit moves.
    pub fn scale(&self, kind: Kind, cpu: u32) -> Result<(&Scale, usize), Reply> {
        let scale = self.machine.scale_of(kind, cpu).ok_or(Reply::NoTable)?;
        match self.machine.domains[scale.domain].unfit {
            0 => Ok((scale, self.places.member[cpu as usize][kind as usize])),
            why => Err(Reply::Unfit { domain: scale.domain as u32, why }),
        }
    }

    /// Makes an ask or moves a limit in the record of a domain, and answers what stood there before.
    pub fn change(&self, levels: &mut Levels, (scale, member): (&Scale, usize), request: Request, ops: &mut Vec<Op>) -> Result<(Old, Reply), Reply> {
        let domain = &self.machine.domains[scale.domain];
        let before = levels.standing(domain.coord, member);
        let old = match request {
            Request::Ask { index, .. } if index as usize >= scale.controls.len() => return Err(Reply::NoState(scale.controls.len() as u32)),
            Request::Ask { index, .. } if index < u32::from(levels.limits[member]) => return Err(Reply::AboveLimit(levels.limits[member])),
            Request::Ask { index, .. } => Old { is_limit: false, level: std::mem::replace(&mut levels.asks[member], index as u8) },
            Request::Limit { n, .. } => {
                let limit = n.min(scale.controls.len() as u32 - 1) as u8;
                Old { is_limit: true, level: std::mem::replace(&mut levels.limits[member], limit) }
            }
            Request::Idle { .. } | Request::Wake { .. } => unreachable!(),
        };
        let stands = levels.standing(domain.coord, member);
        if stands != before {
            match domain.coord {
                Coord::SwAll => set_each(&self.machine, domain.kind, &domain.members, stands, ops),
                Coord::SwAny | Coord::HwAll => set_each(&self.machine, domain.kind, &[request.cpu()], stands, ops),
            }
        }
        Ok((old, Reply::Stands(stands)))
    }

    pub fn nodes(&self) -> impl Iterator<Item = Node> + '_ {
        self.machine.containers.iter().map(Node::new)
    }

    pub fn levels(&self) -> impl Iterator<Item = Levels> + '_ {
        self.machine.domains.iter().map(|domain| Levels::new(&self.machine, domain))
    }

    /// The operations at the start.
    pub fn opening(&self) -> Vec<Op> {
        let mut ops = Vec::new();
        for (domain, levels) in self.machine.domains.iter().zip(self.levels()).filter(|(domain, _)| domain.unfit == 0) {
            let mut set = |members: &[u32], member| set_each(&self.machine, domain.kind, members, levels.standing(domain.coord, member), &mut ops);
            match domain.coord {
                Coord::SwAll => set(&domain.members, 0),
                Coord::SwAny => set(&domain.members[..1], 0),
                Coord::HwAll => (0..).zip(&domain.members).for_each(|(member, cpu)| set(&[*cpu], member)),
            }
        }
        ops
    }
}

/// A coordinator that threads share.
pub trait Shared<E>: Sized + Sync {
    /// With room for so many entries and operations.
    fn open(plan: Plan, entries: usize, operations: usize) -> Self;

    fn request(&self, seat: u32, request: Request, ops: &mut Vec<Op>) -> Told;

    fn close(self) -> Journal<E>;
}

// # One lock round all

struct All<E> {
    nodes: Vec<Node>,
    levels: Vec<Levels>,
    journal: Journal<E>,
}

struct OneLock<E> {
    plan: Plan,
    all: Mutex<All<E>>,
}

impl<E> All<E> {
    fn serve(&mut self, plan: &Plan, request: Request, ops: &mut Vec<Op>) -> Result<Reply, Reply> {
        if let Request::Ask { kind, cpu, .. } | Request::Limit { kind, cpu, .. } = request {
            let scale = plan.scale(kind, cpu)?;
            return plan.change(&mut self.levels[scale.0.domain], scale, request, ops).map(|(_, reply)| reply);
        }
        let mut climb = plan.begin(request)?;
        while let Some(number) = climb.next {
            let votes = self.nodes[number as usize].set(&plan.machine, number as usize, climb.place, climb.vote);
            plan.past(&mut climb, number, votes);
        }
        Ok(plan.over(request, &climb, ops))
    }
}

impl<E: Kept> Shared<E> for OneLock<E> {
    fn open(plan: Plan, entries: usize, operations: usize) -> OneLock<E> {
        let journal = Journal::open(&mut plan.opening(), entries, operations);
        let all = All { nodes: plan.nodes().collect(), levels: plan.levels().collect(), journal };
        OneLock { plan, all: Mutex::new(all) }
    }

    fn request(&self, seat: u32, request: Request, ops: &mut Vec<Op>) -> Told {
        let mut all = self.all.lock().unwrap();
        all.journal.may_append()?;
        let reply = all.serve(&self.plan, request, ops).unwrap_or_else(|refusal| refusal);
        all.journal.append(seat, request, reply, ops)
    }

    fn close(self) -> Journal<E> {
        self.all.into_inner().unwrap().journal
    }
}

// # A lock for each record

pub struct EachLock<E> {
    plan: Plan,
    nodes: Vec<Mutex<Node>>,
    levels: Vec<Mutex<Levels>>,
    journal: Mutex<Journal<E>>,
}

impl<E: Kept> EachLock<E> {
    /// How many operations were done so far.
    pub fn operations(&self) -> usize {
        self.journal.lock().unwrap().registers.len()
    }

    /// The machine, and what each container and each domain of it came to, and the journal.
    pub fn end(self) -> (Machine, Vec<Node>, Vec<Levels>, Journal<E>) {
        let nodes = self.nodes.into_iter().map(|node| node.into_inner().unwrap()).collect();
        let levels = self.levels.into_iter().map(|levels| levels.into_inner().unwrap()).collect();
        (self.plan.machine, nodes, levels, self.journal.into_inner().unwrap())
    }

    /// Appends the entry: the records of the request are locked.
    fn finish(&self, seat: u32, request: Request, reply: Reply, ops: &mut Vec<Op>) -> Told {
        let mut journal = self.journal.lock().unwrap();
        journal.may_append()?;
        journal.append(seat, request, reply, ops)
    }

    /// Goes on with a climb, each container's record being locked until the request is answered; where it isn't, sets votes back.
    fn climb(&self, seat: u32, request: Request, mut climb: Climb, ops: &mut Vec<Op>) -> Told {
        let Some(number) = climb.next else {
            let reply = self.plan.over(request, &climb, ops);
            return self.finish(seat, request, reply, ops);
        };
        let mut node = self.nodes[number as usize].lock().unwrap();
        let (machine, place) = (&self.plan.machine, climb.place);
        let old = node.votes[place];
        let votes = node.set(machine, number as usize, place, climb.vote);
        self.plan.past(&mut climb, number, votes);
        let told = self.climb(seat, request, climb, ops);
        if told.is_err() {
            node.set(machine, number as usize, place, old);
        }
        told
    }

    /// Changes a domain's record, which is locked until the request is answered; where it isn't, sets it back.
    fn change(&self, seat: u32, request: Request, scale: (&Scale, usize), ops: &mut Vec<Op>) -> Told {
        let mut levels = self.levels[scale.0.domain].lock().unwrap();
        match self.plan.change(&mut levels, scale, request, ops) {
            Err(refusal) => self.finish(seat, request, refusal, ops),
            Ok((old, reply)) => {
                let told = self.finish(seat, request, reply, ops);
                if told.is_err() {
                    old.set_back(&mut levels, scale.1);
                }
                told
            }
        }
    }
}

impl<E: Kept> Shared<E> for EachLock<E> {
    fn open(plan: Plan, entries: usize, operations: usize) -> EachLock<E> {
        let nodes = plan.nodes().map(Mutex::new).collect();
        let levels = plan.levels().map(Mutex::new).collect();
        let journal = Mutex::new(Journal::open(&mut plan.opening(), entries, operations));
        EachLock { plan, nodes, levels, journal }
    }

    fn request(&self, seat: u32, request: Request, ops: &mut Vec<Op>) -> Told {
        let begun = match request {
            Request::Ask { kind, cpu, .. } | Request::Limit { kind, cpu, .. } => match self.plan.scale(kind, cpu) {
                Ok(scale) => return self.change(seat, request, scale, ops),
                Err(refusal) => Err(refusal),
            },
            _ => self.plan.begin(request),
        };
        match begun {
            Ok(climb) => self.climb(seat, request, climb, ops),
            Err(refusal) => self.finish(seat, request, refusal, ops),
        }
    }

    fn close(self) -> Journal<E> {
        self.journal.into_inner().unwrap()
    }
}

// # Rounds

/// Makes a thread's requests, and tells how many were answered.
fn drive(coordinator: &impl Shared<Bare>, load: Load, thread: u32, requests: u32) -> u32 {
    let mut ops = Vec::with_capacity(MOST_OF_A_REQUEST);
    let mut answered = 0;
    for step in 0..requests {
        ops.clear();
        let request = load.request(load.cpu(thread), step);
        answered += u32::from(coordinator.request(thread, request, &mut ops).is_ok());
    }
    answered
}

/// Opens a coordinator, makes the requests by so many threads, and closes it; tells how many entries and operations it left.
fn round<S: Shared<Bare>>(load: Load, threads: u32) -> (usize, usize) {
    let coordinator = S::open(Plan::new(load.machine()), REQUESTS as usize, 2 * REQUESTS as usize);
    let requests = REQUESTS / threads;
    let answered: u32 = thread::scope(|scope| {
        let shared = &coordinator;
        let others: Vec<_> = (1..threads).map(|number| scope.spawn(move || drive(shared, load, number, requests))).collect();
        let own = drive(shared, load, 0, requests);
        own + others.into_iter().map(|other| other.join().unwrap()).sum::<u32>()
    });
    let Journal { entries, registers, .. } = coordinator.close();
    assert_eq!(entries.len(), answered as usize);
    (entries.len(), registers.len())
}

/// Makes so many rounds with one lock, or with a lock or a turn for each record, and prints what each left.
pub fn rounds(locks: &str, machine: &str, threads: u32, rounds: u32) {
    assert!((1..=THREADS).contains(&threads));
    let load = Load::named(machine);
    let one = match locks {
        "one-lock" => round::<OneLock<Bare>>,
        "each-lock" => round::<EachLock<Bare>>,
        "each-turn" => round::<EachTurn<Bare, 1>>,
        "each-turn-apart" => round::<EachTurn<Bare, 16>>,
        _ => panic!("no such locks"),
    };
    let mut left = (0, 0);
    for number in 0..rounds {
        let now = one(load, threads);
        assert!(number == 0 || left == now);
        left = now;
    }
    println!("{rounds} rounds, {} entries, {} operations", left.0, left.1);
}
