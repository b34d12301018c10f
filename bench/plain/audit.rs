//! `audit`: whether a history is one that a script allows, or which line can't be one of it. Each line must be what the records
//! make of the next line of its processor.

use crate::script::{Machine, Op, put_number, put_ops, put_path};
use std::collections::HashMap;
use std::io;

const MOST_BYTES: usize = 67_108_864;

/// What is said of a history.
pub enum Said {
    Lawful(usize),
    Wrong(usize),
    Ends(usize),
    Long,
}

/// Records of a kind of coordination, and the words of its histories.
pub trait Coordination {
    type Request: Copy;
    type Reply;
    fn cpu(request: Self::Request) -> u32;
    fn opening(&mut self, ops: &mut Vec<Op>);
    fn serve(&mut self, request: Self::Request, ops: &mut Vec<Op>) -> Self::Reply;
    fn put_request(out: &mut Vec<u8>, request: Self::Request) -> io::Result<()>;
    fn put_reply(out: &mut Vec<u8>, reply: &Self::Reply) -> io::Result<()>;
}

/// The lines that are left, and how many were taken.
struct Lines<'a> {
    left: &'a [u8],
    taken: usize,
}

impl<'a> Lines<'a> {
    /// The next line, with its line feed if it has one.
    fn first(&self) -> Option<&'a [u8]> {
        let end = self.left.iter().position(|byte| *byte == b'\n').map_or(self.left.len(), |at| at + 1);
        Some(&self.left[..end]).filter(|line| !line.is_empty())
    }

    /// Takes the lines that must come.
    fn take(&mut self, mut wanted: &[u8]) -> Result<(), Said> {
        if self.left.starts_with(wanted) {
            self.taken += wanted.iter().filter(|byte| **byte == b'\n').count();
            self.left = &self.left[wanted.len()..];
            return Ok(());
        }
        while let Some(line) = self.first() {
            if !wanted.starts_with(line) || !line.ends_with(b"\n") {
                return Err(Said::Wrong(self.taken + 1));
            }
            self.taken += 1;
            (self.left, wanted) = (&self.left[line.len()..], &wanted[line.len()..]);
        }
        Err(Said::Ends(self.taken))
    }

    /// Takes the operations that were done before a fault, where the line that is begun so tells of one; nothing comes after these.
    fn take_fault(&mut self, machine: &Machine, begun: &[u8], ops: &[Op], entries: usize) -> Option<Said> {
        let told = self.first()?.strip_prefix(begun)?.strip_prefix(b" register fault after ")?.strip_suffix(b"\n")?;
        let done: usize = std::str::from_utf8(told).ok()?.parse().ok()?;
        if done >= ops.len() || told != done.to_string().as_bytes() {
            return None;
        }
        let mut wanted = self.first()?.to_vec();
        put_ops(&mut wanted, machine, &ops[..done]).unwrap();
        Some(match self.take(&wanted) {
            Err(said) => said,
            Ok(()) if self.left.is_empty() => Said::Lawful(entries),
            Ok(()) => Said::Wrong(self.taken + 1),
        })
    }
}

/// Of each processor the requests that it is still to make, the last one first.
fn lists<C: Coordination>(machine: &Machine, requests: &[C::Request]) -> Vec<Vec<C::Request>> {
    let mut lists = vec![Vec::new(); machine.cpus.len()];
    for request in requests.iter().rev() {
        lists[C::cpu(*request) as usize].push(*request);
    }
    lists
}

/// The processors by their paths.
fn paths(machine: &Machine) -> HashMap<Vec<u8>, usize> {
    let path = |cpu: usize| {
        let mut path = Vec::new();
        put_path(&mut path, machine, cpu as u32).unwrap();
        (path, cpu)
    };
    (0..machine.cpus.len()).map(path).collect()
}

fn walk<C: Coordination>(machine: &Machine, records: &mut C, requests: &[C::Request], text: &[u8]) -> Result<usize, Said> {
    let (mut lists, paths) = (lists::<C>(machine, requests), paths(machine));
    let mut text = Lines { left: text, taken: 0 };
    let (mut ops, mut wanted) = (Vec::new(), b"open\n".to_vec());
    records.opening(&mut ops);
    if let Some(said) = text.take_fault(machine, b"open ->", &ops, 0) {
        return Err(said);
    }
    put_ops(&mut wanted, machine, &ops).unwrap();
    text.take(&wanted)?;
    for number in 1..=requests.len() {
        let Some(line) = text.first() else {
            return Err(Said::Ends(text.taken));
        };
        let wrong = || Said::Wrong(text.taken + 1);
        let cpu = line.split(|byte| *byte == b' ').nth(1).and_then(|path| paths.get(path)).ok_or_else(wrong)?;
        let request = lists[*cpu].pop().ok_or_else(wrong)?;
        ops.clear();
        let reply = records.serve(request, &mut ops);
        wanted.clear();
        put_number(&mut wanted, number as u64).unwrap();
        wanted.push(b' ');
        put_path(&mut wanted, machine, C::cpu(request)).unwrap();
        C::put_request(&mut wanted, request).unwrap();
        wanted.extend_from_slice(b" ->");
        if let Some(said) = text.take_fault(machine, &wanted, &ops, number) {
            return Err(said);
        }
        C::put_reply(&mut wanted, &reply).unwrap();
        wanted.push(b'\n');
        put_ops(&mut wanted, machine, &ops).unwrap();
        text.take(&wanted)?;
    }
    if text.left.is_empty() { Ok(requests.len()) } else { Err(Said::Wrong(text.taken + 1)) }
}

/// Audits a history of these requests.
pub fn audit<C: Coordination>(machine: &Machine, records: &mut C, requests: &[C::Request], text: &[u8]) -> Said {
    if text.len() > MOST_BYTES {
        return Said::Long;
    }
    match walk(machine, records, requests, text) {
        Ok(entries) => Said::Lawful(entries),
        Err(said) => said,
    }
}
