//! Scripts on a machine: their lines, a coordinator that keeps what was asked, and the history that is printed. It is one for
//! low power idle states in nested containers and for domains of each coordination type; of C states `drive.rs` has more.
//! `bench/scripts` measures reading a script on a machine of 256 processors over and over, and printing its history.

use std::collections::HashMap;
use std::fs::File;
use std::io::{self, BufWriter, Write};
use std::os::fd::AsFd;

const PROCESSORS: u32 = 256;
const CLUSTER: u32 = 8;
pub const ANY_LATENCY: u32 = u32::MAX;
const MOST_BYTES: usize = 4_194_304;
const MOST_LINES: usize = 65_536;
const MOST_OPERATIONS: u64 = 1_048_576;

// # The machine

#[derive(Clone, Copy)]
pub struct Register {
    pub space: u8,
    pub width: u8,
    pub offset: u8,
    pub access: u8,
    pub address: u64,
}

#[derive(Clone, Copy)]
pub enum Entry {
    Register(Register),
    Integer(u64),
}

pub struct Row {
    pub enabled: bool,
    pub latency: u32,
    pub residency: u32,
    pub parent: u32,
    pub entry: Entry,
}

pub enum Child {
    Cpu(u32),
    #[allow(dead_code)]
    Container(u32),
}

pub struct Container {
    pub parent: Option<u32>,
    pub rows: Vec<Row>,
    pub children: Vec<Child>,
}

pub struct Scale {
    pub controls: Vec<u32>,
    pub register: Register,
    pub limit: u32,
    pub domain: usize,
}

pub struct Cpu {
    /// The segments of its path, and the path as it is printed.
    pub name: Vec<u8>,
    pub path: Vec<u8>,
    pub parent: Option<u32>,
    /// Its idle states, none where it has no table.
    pub rows: Vec<Row>,
    /// How many operations an idle request of it has at most.
    pub idle_bound: u64,
    pub scales: [Option<Scale>; 2],
}

#[derive(Clone, Copy)]
pub enum Coord {
    SwAll,
    #[allow(dead_code)]
    SwAny,
    #[allow(dead_code)]
    HwAll,
}

pub struct Domain {
    pub kind: Kind,
    pub coord: Coord,
    /// Why its members don't agree, 0 where they do.
    pub unfit: u8,
    pub members: Vec<u32>,
}

pub struct Machine {
    pub containers: Vec<Container>,
    pub cpus: Vec<Cpu>,
    pub domains: Vec<Domain>,
}

#[derive(Clone, Copy)]
pub enum Kind {
    Perf,
    Throttle,
}

/// A path of these segments as it is printed.
pub fn path_of(segs: &[[u8; 4]]) -> Vec<u8> {
    [b"\\", segs.join(&b'.').as_slice()].concat()
}

fn numbered(letter: u8, number: u32) -> [u8; 4] {
    let digit = |n: u32| b"0123456789ABCDEF"[n as usize % 16];
    [letter, digit(number / 256), digit(number / 16), digit(number)]
}

fn row(latency: u32, parent: u32, entry: Entry) -> Row {
    Row { enabled: true, latency, residency: 0, parent, entry }
}

fn fixed(address: u64) -> Entry {
    Entry::Register(Register { space: 127, width: 32, offset: 0, access: 3, address })
}

fn scale(port: u64, domain: u32) -> Option<Scale> {
    let register = Register { space: 1, width: 16, offset: 0, access: 2, address: port };
    Some(Scale { controls: (0x1800..0x1808).collect(), register, limit: 0, domain: domain as usize })
}

fn members(cluster: u32) -> Vec<u32> {
    (cluster * CLUSTER..(cluster + 1) * CLUSTER).collect()
}

fn machine() -> Machine {
    let clusters = PROCESSORS / CLUSTER;
    let container = |cluster| Container {
        parent: None,
        rows: vec![row(100, 0, Entry::Integer(0x10)), row(500, 0, Entry::Integer(0x20))],
        children: members(cluster).into_iter().map(Child::Cpu).collect(),
    };
    let segs = |number| [*b"_SB_", numbered(b'C', number / CLUSTER), numbered(b'P', number)];
    let cpu = |number| Cpu {
        name: segs(number).concat(),
        path: path_of(&segs(number)),
        parent: Some(number / CLUSTER),
        rows: vec![row(10, 0, fixed(1)), row(50, 1, fixed(2)), row(200, 2, fixed(3))],
        idle_bound: 1,
        scales: [scale(0xB2, number / CLUSTER), scale(0xB4, clusters + number / CLUSTER)],
    };
    let domain = |kind| move |cluster| Domain { kind, coord: Coord::SwAll, unfit: 0, members: members(cluster) };
    Machine {
        containers: (0..clusters).map(container).collect(),
        cpus: (0..PROCESSORS).map(cpu).collect(),
        domains: (0..clusters).map(domain(Kind::Perf)).chain((0..clusters).map(domain(Kind::Throttle))).collect(),
    }
}

// # Requests

#[derive(Clone, Copy)]
pub enum Request {
    Idle { cpu: u32, state: u32, tolerance: u32 },
    Wake { cpu: u32 },
    Ask { kind: Kind, cpu: u32, index: u32 },
    Limit { kind: Kind, cpu: u32, n: u32 },
}

impl Request {
    pub fn cpu(&self) -> u32 {
        match *self {
            Request::Idle { cpu, .. } | Request::Wake { cpu } => cpu,
            Request::Ask { cpu, .. } | Request::Limit { cpu, .. } => cpu,
        }
    }
}

impl Machine {
    pub fn scale_of(&self, kind: Kind, cpu: u32) -> Option<&Scale> {
        self.cpus[cpu as usize].scales[kind as usize].as_ref()
    }

    /// How many operations a request has at most.
    fn bound(&self, request: &Request) -> u64 {
        match *request {
            Request::Idle { cpu, .. } => self.cpus[cpu as usize].idle_bound,
            Request::Wake { .. } => 0,
            Request::Ask { kind, cpu, .. } | Request::Limit { kind, cpu, .. } => match self.scale_of(kind, cpu) {
                None => 1,
                Some(scale) => self.domains[scale.domain].bound(),
            },
        }
    }

    /// The limit that a processor opens with.
    pub fn opening_limit(&self, kind: Kind, cpu: u32) -> u8 {
        self.scale_of(kind, cpu).map_or(0, |scale| scale.limit.min(scale.controls.len() as u32 - 1) as u8)
    }

    fn opening_bound(&self) -> u64 {
        self.domains.iter().filter(|domain| domain.unfit == 0).map(Domain::opening_bound).sum()
    }
}

impl Domain {
    fn bound(&self) -> u64 {
        match self.coord {
            Coord::SwAll => self.members.len() as u64,
            Coord::SwAny | Coord::HwAll => 1,
        }
    }

    fn opening_bound(&self) -> u64 {
        match self.coord {
            Coord::SwAny => 1,
            Coord::SwAll | Coord::HwAll => self.members.len() as u64,
        }
    }
}

// # Scripts

#[derive(Debug)]
enum Why {
    Grammar,
    Processor,
    Number,
}

enum Fault {
    TooLong,
    Line { number: u32, why: Why },
}

pub struct Line {
    /// Its number in the text, as the proved reader keeps it too.
    #[allow(dead_code)]
    pub number: u32,
    pub request: Request,
}

/// A number of digits alone; none inside where 32 bits don't hold it.
pub fn number(text: &[u8]) -> Option<Option<u32>> {
    if text.is_empty() || !text.iter().all(u8::is_ascii_digit) {
        return None;
    }
    let digits = text.iter().map(|digit| u32::from(digit - b'0'));
    Some(digits.into_iter().try_fold(0u32, |value, digit| value.checked_mul(10)?.checked_add(digit)))
}

/// Writes the segments of a path, each of four bytes, over the name.
pub fn write_name(text: &[u8], name: &mut Vec<u8>) -> Option<()> {
    name.clear();
    for part in text.strip_prefix(b"\\")?.split(|byte| *byte == b'.') {
        let is_word = |byte: &u8| byte.is_ascii_uppercase() || byte.is_ascii_digit() || *byte == b'_';
        if part.is_empty() || part.len() > 4 || part[0].is_ascii_digit() || !part.iter().all(is_word) {
            return None;
        }
        name.extend_from_slice(part);
        name.extend_from_slice(&b"____"[part.len()..]);
    }
    Some(())
}

#[derive(Clone, Copy)]
enum Verb {
    Idle,
    IdleBearing,
    Wake,
    Ask(Kind),
    Limit(Kind),
    Within,
    Notify,
}

fn verb(word: &[u8], numbers: usize) -> Option<Verb> {
    match (word, numbers) {
        (b"wake", 0) => Some(Verb::Wake),
        (b"idle", 1) => Some(Verb::Idle),
        (b"perf", 1) => Some(Verb::Ask(Kind::Perf)),
        (b"throttle", 1) => Some(Verb::Ask(Kind::Throttle)),
        (b"plimit", 1) => Some(Verb::Limit(Kind::Perf)),
        (b"tlimit", 1) => Some(Verb::Limit(Kind::Throttle)),
        (b"idle", 2) => Some(Verb::IdleBearing),
        (b"within", 2) => Some(Verb::Within),
        (b"notify", 2) => Some(Verb::Notify),
        _ => None,
    }
}

/// A verb and its numbers, 0 for one that there isn't, and none for one above 32 bits.
fn said<'a>(mut fields: impl Iterator<Item = &'a [u8]>) -> Option<(Verb, Option<u32>, Option<u32>)> {
    let word = fields.next()?;
    let mut numbers = [Some(0); 2];
    let mut count = 0;
    for field in fields {
        *numbers.get_mut(count)? = number(field)?;
        count += 1;
    }
    Some((verb(word, count)?, numbers[0], numbers[1]))
}

/// The deepest state for a wake latency and a residency, 0 where there is none.
fn deepest(rows: &[Row], tolerance: u32, residency: u32) -> u32 {
    let suits = |row: &Row| row.enabled && row.latency <= tolerance && row.residency <= residency;
    rows.iter().rposition(suits).map_or(0, |at| at as u32 + 1)
}

pub fn follow(count: u32, _current: u32, value: u32) -> u32 {
    value.min(count - 1)
}

pub fn step(count: u32, current: u32, value: u32) -> u32 {
    let target = follow(count, current, value);
    match current.cmp(&target) {
        std::cmp::Ordering::Less => current + 1,
        std::cmp::Ordering::Greater => current - 1,
        std::cmp::Ordering::Equal => current,
    }
}

/// The limit that is to stand: of how many states, the one that stands, and the platform's value.
pub type Handler = fn(u32, u32, u32) -> u32;

/// What reads lines: the processors by their paths, room for a path, and the limits behind the lines before.
struct Reader<'a> {
    machine: &'a Machine,
    handlers: [Handler; 2],
    index: HashMap<Vec<u8>, u32>,
    name: Vec<u8>,
    limits: [Vec<u32>; 2],
}

impl<'a> Reader<'a> {
    fn new(machine: &'a Machine, handlers: [Handler; 2]) -> Reader<'a> {
        let mut index = HashMap::new();
        for (number, cpu) in machine.cpus.iter().enumerate() {
            index.entry(cpu.name.clone()).or_insert(number as u32);
        }
        let opened = |kind| (0..machine.cpus.len() as u32).map(|cpu| u32::from(machine.opening_limit(kind, cpu))).collect();
        Reader { machine, handlers, index, name: Vec::new(), limits: [opened(Kind::Perf), opened(Kind::Throttle)] }
    }

    /// What a line asks for, if anything.
    fn request(&mut self, line: &[u8]) -> Result<Option<Request>, Why> {
        let mut fields = line.split(|byte| *byte == b' ').filter(|field| !field.is_empty());
        let Some(path) = fields.next() else {
            return Ok(None);
        };
        if path[0] == b'#' {
            return Ok(None);
        }
        write_name(path, &mut self.name).ok_or(Why::Grammar)?;
        let (verb, first, second) = said(fields).ok_or(Why::Grammar)?;
        let cpu = *self.index.get(&self.name).ok_or(Why::Processor)?;
        let (n, m) = (first.ok_or(Why::Number)?, second.ok_or(Why::Number)?);
        Ok(Some(match verb {
            Verb::Wake => Request::Wake { cpu },
            Verb::Idle => Request::Idle { cpu, state: n, tolerance: ANY_LATENCY },
            Verb::IdleBearing => Request::Idle { cpu, state: n, tolerance: m },
            Verb::Ask(kind) => Request::Ask { kind, cpu, index: n },
            Verb::Limit(kind) => self.limit(kind, cpu, n),
            Verb::Within => match deepest(&self.machine.cpus[cpu as usize].rows, n, m) {
                0 => Request::Wake { cpu },
                state => Request::Idle { cpu, state, tolerance: n },
            },
            Verb::Notify => self.noticed(cpu, n, m)?,
        }))
    }

    fn limit(&mut self, kind: Kind, cpu: u32, n: u32) -> Request {
        if let Some(scale) = self.machine.scale_of(kind, cpu) {
            if self.machine.domains[scale.domain].unfit == 0 {
                self.limits[kind as usize][cpu as usize] = n.min(scale.controls.len() as u32 - 1);
            }
        }
        Request::Limit { kind, cpu, n }
    }

    fn noticed(&mut self, cpu: u32, what: u32, value: u32) -> Result<Request, Why> {
        let kind = match what {
            128 => Kind::Perf,
            130 => Kind::Throttle,
            _ => return Err(Why::Number),
        };
        let answer = self.handlers[kind as usize];
        let n = match self.machine.scale_of(kind, cpu) {
            None => value,
            Some(scale) => answer(scale.controls.len() as u32, self.limits[kind as usize][cpu as usize], value),
        };
        Ok(self.limit(kind, cpu, n))
    }
}

/// The lines, without their endings.
pub fn lines_of(bytes: &[u8]) -> impl Iterator<Item = &[u8]> {
    bytes.split_inclusive(|byte| *byte == b'\n').map(|line| match line.strip_suffix(b"\n") {
        Some(ended) => ended.strip_suffix(b"\r").unwrap_or(ended),
        None => line,
    })
}

fn parse(machine: &Machine, bytes: &[u8], handlers: [Handler; 2]) -> Result<Vec<Line>, Fault> {
    if bytes.len() > MOST_BYTES {
        return Err(Fault::TooLong);
    }
    let feeds = bytes.iter().filter(|byte| **byte == b'\n').count();
    let count = feeds + usize::from(bytes.last().is_some_and(|last| *last != b'\n'));
    if count > MOST_LINES {
        return Err(Fault::TooLong);
    }
    let mut reader = Reader::new(machine, handlers);
    let mut lines = Vec::with_capacity(count);
    let mut bound = machine.opening_bound();
    for (number, text) in (1..).zip(lines_of(bytes)) {
        if let Some(request) = reader.request(text).map_err(|why| Fault::Line { number, why })? {
            bound += machine.bound(&request);
            lines.push(Line { number, request });
        }
    }
    if bound > MOST_OPERATIONS {
        return Err(Fault::TooLong);
    }
    Ok(lines)
}

// # The coordinator

#[derive(Clone, Copy)]
pub struct Vote {
    pub state: u8,
    pub tolerance: u32,
}

pub const RUNNING: Vote = Vote { state: 0, tolerance: ANY_LATENCY };

struct State {
    votes: Vec<Vote>,
    asks: [Vec<u8>; 2],
    limits: [Vec<u8>; 2],
}

/// The state of a processor and those of its containers upwards, as far as they are above 0.
#[derive(Clone, Copy)]
pub struct Chain {
    pub len: u8,
    pub states: [u8; 9],
}

impl Chain {
    pub fn states(&self) -> &[u8] {
        &self.states[..usize::from(self.len)]
    }

    pub fn push(&mut self, state: u8) {
        self.states[usize::from(self.len)] = state;
        self.len += 1;
    }
}

#[derive(Clone, Copy)]
pub enum Reply {
    Entered(Chain),
    Running,
    Stands(u8),
    NoState(u32),
    Disabled,
    AboveLimit(u8),
    NoTable,
    Unfit { domain: u32, why: u8 },
    TooSlow(u32),
}

pub enum Op {
    Set { cpu: u32, register: Register, value: u64 },
    Enter { cpu: u32, register: Register },
}

impl State {
    fn new(machine: &Machine) -> State {
        let zeros = || vec![0; machine.cpus.len()];
        State { votes: vec![RUNNING; machine.cpus.len()], asks: [zeros(), zeros()], limits: [zeros(), zeros()] }
    }

    /// Where a domain stands, or one of its members where hardware coordinates it.
    fn standing(&self, domain: &Domain, cpu: u32) -> u8 {
        let (asks, limits) = (&self.asks[domain.kind as usize], &self.limits[domain.kind as usize]);
        match domain.coord {
            Coord::SwAll | Coord::SwAny => {
                let fastest = domain.members.iter().map(|cpu| asks[*cpu as usize]).fold(255, u8::min);
                domain.members.iter().map(|cpu| limits[*cpu as usize]).fold(fastest, u8::max)
            }
            Coord::HwAll => asks[cpu as usize].max(limits[cpu as usize]),
        }
    }

    /// The vote of a container: the deepest state that all its children allow.
    fn container_vote(&self, machine: &Machine, number: u32) -> Vote {
        let container = &machine.containers[number as usize];
        let (mut deepest, mut tolerance) = (u32::MAX, ANY_LATENCY);
        for child in &container.children {
            let (rows, vote) = match *child {
                Child::Cpu(cpu) => (&machine.cpus[cpu as usize].rows, self.votes[cpu as usize]),
                Child::Container(below) => {
                    (&machine.containers[below as usize].rows, self.container_vote(machine, below))
                }
            };
            if vote.state == 0 {
                return RUNNING;
            }
            deepest = deepest.min(rows[vote.state as usize - 1].parent);
            tolerance = tolerance.min(vote.tolerance);
        }
        let allowed = &container.rows[..container.rows.len().min(deepest as usize)];
        match allowed.iter().rposition(|row| row.enabled && row.latency <= tolerance) {
            None => RUNNING,
            Some(at) => Vote { state: at as u8 + 1, tolerance },
        }
    }

    fn chain(&self, machine: &Machine, cpu: u32) -> Chain {
        let mut chain = Chain { len: 1, states: [self.votes[cpu as usize].state, 0, 0, 0, 0, 0, 0, 0, 0] };
        let mut next = machine.cpus[cpu as usize].parent;
        while let Some(number) = next {
            let vote = self.container_vote(machine, number);
            if vote.state == 0 {
                break;
            }
            chain.push(vote.state);
            next = machine.containers[number as usize].parent;
        }
        chain
    }

    fn idle(&mut self, machine: &Machine, cpu: u32, state: u32, tolerance: u32, ops: &mut Vec<Op>) -> Reply {
        let own = &machine.cpus[cpu as usize];
        if own.rows.is_empty() {
            return Reply::NoTable;
        }
        if state == 0 || state as usize > own.rows.len() {
            return Reply::NoState(own.rows.len() as u32);
        }
        let row = &own.rows[state as usize - 1];
        if !row.enabled {
            return Reply::Disabled;
        }
        if row.latency > tolerance {
            return Reply::TooSlow(row.latency);
        }
        self.votes[cpu as usize] = Vote { state: state as u8, tolerance };
        let chain = self.chain(machine, cpu);
        ops.push(Op::Enter { cpu, register: entered(machine, cpu, chain) });
        Reply::Entered(chain)
    }

    /// The scale and the domain of a request for a state or a limit.
    fn scaled<'a>(&self, machine: &'a Machine, kind: Kind, cpu: u32) -> Result<(&'a Scale, &'a Domain), Reply> {
        let scale = machine.scale_of(kind, cpu).ok_or(Reply::NoTable)?;
        let domain = &machine.domains[scale.domain];
        match domain.unfit {
            0 => Ok((scale, domain)),
            why => Err(Reply::Unfit { domain: scale.domain as u32, why }),
        }
    }

    fn ask(&mut self, machine: &Machine, kind: Kind, cpu: u32, index: u32, ops: &mut Vec<Op>) -> Result<Reply, Reply> {
        let (scale, domain) = self.scaled(machine, kind, cpu)?;
        let limit = self.limits[kind as usize][cpu as usize];
        if index as usize >= scale.controls.len() {
            return Err(Reply::NoState(scale.controls.len() as u32));
        }
        if index < u32::from(limit) {
            return Err(Reply::AboveLimit(limit));
        }
        let before = self.standing(domain, cpu);
        self.asks[kind as usize][cpu as usize] = index as u8;
        Ok(self.set(machine, domain, cpu, before, ops))
    }

    fn limit(&mut self, machine: &Machine, kind: Kind, cpu: u32, n: u32, ops: &mut Vec<Op>) -> Result<Reply, Reply> {
        let (scale, domain) = self.scaled(machine, kind, cpu)?;
        let before = self.standing(domain, cpu);
        self.limits[kind as usize][cpu as usize] = n.min(scale.controls.len() as u32 - 1) as u8;
        Ok(self.set(machine, domain, cpu, before, ops))
    }

    /// Sets where a domain stands, if that changed.
    fn set(&mut self, machine: &Machine, domain: &Domain, cpu: u32, before: u8, ops: &mut Vec<Op>) -> Reply {
        let stands = self.standing(domain, cpu);
        if stands != before {
            match domain.coord {
                Coord::SwAll => set_each(machine, domain.kind, &domain.members, stands, ops),
                Coord::SwAny | Coord::HwAll => set_each(machine, domain.kind, &[cpu], stands, ops),
            }
        }
        Reply::Stands(stands)
    }

    fn step(&mut self, machine: &Machine, request: Request, ops: &mut Vec<Op>) -> Reply {
        match request {
            Request::Idle { cpu, state, tolerance } => self.idle(machine, cpu, state, tolerance, ops),
            Request::Wake { cpu } => {
                self.votes[cpu as usize] = RUNNING;
                Reply::Running
            }
            Request::Ask { kind, cpu, index } => {
                self.ask(machine, kind, cpu, index, ops).unwrap_or_else(|refusal| refusal)
            }
            Request::Limit { kind, cpu, n } => self.limit(machine, kind, cpu, n, ops).unwrap_or_else(|refusal| refusal),
        }
    }
}

/// What a processor enters in a chain of its state and those of its containers.
pub fn entered(machine: &Machine, cpu: u32, chain: Chain) -> Register {
    let own = &machine.cpus[cpu as usize];
    let mut register = match own.rows[chain.states[0] as usize - 1].entry {
        Entry::Register(register) => register,
        Entry::Integer(address) => Register { space: 127, width: 0, offset: 0, access: 0, address },
    };
    let mut next = own.parent;
    for state in &chain.states()[1..] {
        let Some(number) = next else { break };
        let container = &machine.containers[number as usize];
        match container.rows[*state as usize - 1].entry {
            Entry::Register(own) => register = own,
            Entry::Integer(added) => register.address = register.address.wrapping_add(added),
        }
        next = container.parent;
    }
    register
}

pub fn set_each(machine: &Machine, kind: Kind, members: &[u32], stands: u8, ops: &mut Vec<Op>) {
    for cpu in members {
        if let Some(scale) = machine.scale_of(kind, *cpu) {
            let value = u64::from(scale.controls[stands as usize]);
            ops.push(Op::Set { cpu: *cpu, register: scale.register, value });
        }
    }
}

/// The operations at the start.
fn opening(machine: &Machine, state: &State, ops: &mut Vec<Op>) {
    for domain in machine.domains.iter().filter(|domain| domain.unfit == 0) {
        match domain.coord {
            Coord::SwAll => set_each(machine, domain.kind, &domain.members, state.standing(domain, 0), ops),
            Coord::SwAny => set_each(machine, domain.kind, &domain.members[..1], state.standing(domain, 0), ops),
            Coord::HwAll => {
                for cpu in &domain.members {
                    set_each(machine, domain.kind, &[*cpu], state.standing(domain, *cpu), ops);
                }
            }
        }
    }
}

// # Printing

/// A number in decimal, by digits: the formatter of the standard library takes several times as long.
pub fn put_number(out: &mut impl Write, mut number: u64) -> io::Result<()> {
    let mut digits = [0; 20];
    let mut at = digits.len();
    loop {
        at -= 1;
        digits[at] = b'0' + (number % 10) as u8;
        number /= 10;
        if number == 0 {
            return out.write_all(&digits[at..]);
        }
    }
}

fn put_hex(out: &mut impl Write, mut number: u64) -> io::Result<()> {
    let mut digits = [0; 18];
    let mut at = digits.len();
    loop {
        at -= 1;
        digits[at] = b"0123456789ABCDEF"[(number % 16) as usize];
        number /= 16;
        if number == 0 {
            digits[at - 2..at].copy_from_slice(b"0x");
            return out.write_all(&digits[at - 2..]);
        }
    }
}

pub fn put_path(out: &mut impl Write, machine: &Machine, cpu: u32) -> io::Result<()> {
    out.write_all(&machine.cpus[cpu as usize].path)
}

fn put_word(out: &mut impl Write, word: &[u8], number: u32) -> io::Result<()> {
    out.write_all(word)?;
    put_number(out, u64::from(number))
}

fn put_register(out: &mut impl Write, register: Register) -> io::Result<()> {
    out.write_all(b"[")?;
    for field in [register.space, register.width, register.offset, register.access] {
        put_number(out, u64::from(field))?;
        out.write_all(b",")?;
    }
    put_hex(out, register.address)?;
    out.write_all(b"]")
}

pub fn put_ops(out: &mut impl Write, machine: &Machine, ops: &[Op]) -> io::Result<()> {
    for op in ops {
        match *op {
            Op::Set { cpu, register, value } => {
                out.write_all(b"  set ")?;
                put_path(out, machine, cpu)?;
                out.write_all(b" ")?;
                put_register(out, register)?;
                out.write_all(b" ")?;
                put_hex(out, value)?;
            }
            Op::Enter { cpu, register } => {
                out.write_all(b"  enter ")?;
                put_path(out, machine, cpu)?;
                out.write_all(b" ")?;
                put_register(out, register)?;
            }
        }
        out.write_all(b"\n")?;
    }
    Ok(())
}

pub fn put_request(out: &mut impl Write, request: Request) -> io::Result<()> {
    match request {
        Request::Idle { state, tolerance, .. } => {
            put_word(out, b" idle ", state)?;
            if tolerance == ANY_LATENCY {
                return Ok(());
            }
            put_word(out, b" ", tolerance)
        }
        Request::Wake { .. } => out.write_all(b" wake"),
        Request::Ask { kind: Kind::Perf, index, .. } => put_word(out, b" perf ", index),
        Request::Ask { kind: Kind::Throttle, index, .. } => put_word(out, b" throttle ", index),
        Request::Limit { kind: Kind::Perf, n, .. } => put_word(out, b" plimit ", n),
        Request::Limit { kind: Kind::Throttle, n, .. } => put_word(out, b" tlimit ", n),
    }
}

pub fn put_reply(out: &mut impl Write, reply: &Reply) -> io::Result<()> {
    match *reply {
        Reply::Entered(chain) => {
            out.write_all(b" entered")?;
            for state in chain.states() {
                put_word(out, b" ", u32::from(*state))?;
            }
            Ok(())
        }
        Reply::Running => out.write_all(b" running"),
        Reply::Stands(index) => put_word(out, b" stands ", u32::from(index)),
        Reply::NoState(count) => put_word(out, b" refused no state, count ", count),
        Reply::Disabled => out.write_all(b" refused disabled"),
        Reply::AboveLimit(limit) => put_word(out, b" refused above limit ", u32::from(limit)),
        Reply::NoTable => out.write_all(b" refused no table"),
        Reply::Unfit { domain, why } => {
            put_word(out, b" refused unfit domain ", domain)?;
            put_word(out, b" why ", u32::from(why))
        }
        Reply::TooSlow(latency) => put_word(out, b" refused latency ", latency),
    }
}

fn print_history(out: &mut impl Write, machine: &Machine, lines: &[Line]) -> io::Result<()> {
    let mut state = State::new(machine);
    let mut ops = Vec::new();
    opening(machine, &state, &mut ops);
    out.write_all(b"open\n")?;
    put_ops(out, machine, &ops)?;
    for (number, line) in (1..).zip(lines) {
        ops.clear();
        let reply = state.step(machine, line.request, &mut ops);
        put_number(out, number)?;
        out.write_all(b" ")?;
        put_path(out, machine, line.request.cpu())?;
        put_request(out, line.request)?;
        out.write_all(b" ->")?;
        put_reply(out, &reply)?;
        out.write_all(b"\n")?;
        put_ops(out, machine, &ops)?;
    }
    out.flush()
}

/// The output, not by way of the standard library's, which looks for the ends of lines.
pub fn output() -> File {
    File::from(io::stdout().as_fd().try_clone_to_owned().expect("an output"))
}

/// The lines of a text that is a script.
pub fn script(machine: &Machine, text: &[u8], handlers: [Handler; 2]) -> Vec<Line> {
    match parse(machine, text, handlers) {
        Ok(lines) => lines,
        Err(Fault::TooLong) => panic!("the script is too long"),
        Err(Fault::Line { number, why }) => panic!("line {number}: {why:?}"),
    }
}

/// Reads a script, or prints the history of its lines, over and over.
pub fn rounds(work: &str, file: &str, rounds: u32) {
    let text = std::fs::read_to_string(file).expect("the file can be read");
    let machine = machine();
    if work == "read" {
        let mut last = Vec::new();
        for _ in 0..rounds {
            last = script(&machine, text.as_bytes(), [follow, step]);
        }
        println!("{} lines", last.len());
    } else {
        let lines = script(&machine, text.as_bytes(), [follow, step]);
        let out = output();
        for _ in 0..rounds {
            let mut page = BufWriter::with_capacity(1 << 16, &out);
            print_history(&mut page, &machine, &lines).expect("the output can be written");
        }
    }
}
