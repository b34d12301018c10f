//! A coordinator that threads share by the steps of the proved one: a word for each record tells which seat has its turn, and the
//! record moves out of its slot and back as one pointer. The words lie side by side, or so many apart.

use crate::drive::{Levels, Node};
use crate::script::{Op, Request, Scale};
use crate::shared::{Climb, Journal, Kept, Plan, Shared, Told};
use std::cell::UnsafeCell;
use std::sync::atomic::{AtomicU32, AtomicU64, Ordering};
use std::sync::{Condvar, Mutex};
use std::thread::yield_now;
use std::time::Duration;

const LOOKS: u32 = 25;
const YIELDS: u32 = 4;
const NAP: Duration = Duration::from_millis(10);

enum Held<E> {
    Node(Box<Node>),
    Levels(Box<Levels>),
    Log(Box<Journal<E>>),
}

/// Where threads sleep until a turn is free, and how many may.
struct Bed {
    sleepers: AtomicU32,
    lock: Mutex<()>,
    bell: Condvar,
}

pub struct EachTurn<E, const APART: usize> {
    plan: Plan,
    words: Vec<AtomicU64>,
    beds: Vec<Bed>,
    slots: Vec<UnsafeCell<Option<Held<E>>>>,
}

// A slot is touched only by the seat that its word names.
unsafe impl<E: Send, const APART: usize> Sync for EachTurn<E, APART> {}

impl<E: Kept, const APART: usize> EachTurn<E, APART> {
    fn word(&self, turn: usize) -> &AtomicU64 {
        &self.words[turn * APART]
    }

    fn wait_on(&self, turn: usize, found: u64) {
        for _ in 0..LOOKS {
            if self.word(turn).load(Ordering::SeqCst) != found {
                return;
            }
            for _ in 0..YIELDS {
                yield_now();
            }
        }
        let bed = &self.beds[turn];
        bed.sleepers.fetch_add(1, Ordering::SeqCst);
        let guard = bed.lock.lock().unwrap();
        if self.word(turn).load(Ordering::SeqCst) == found {
            let _ = bed.bell.wait_timeout(guard, NAP).unwrap();
        }
    }

    fn take(&self, seat: u32, turn: usize) -> Held<E> {
        let mine = u64::from(seat) + 1;
        while let Err(found) = self.word(turn).compare_exchange(0, mine, Ordering::SeqCst, Ordering::SeqCst) {
            self.wait_on(turn, found);
        }
        unsafe { (*self.slots[turn].get()).take() }.expect("a free turn's record is in its slot")
    }

    fn free(&self, turn: usize, held: Held<E>) {
        unsafe { *self.slots[turn].get() = Some(held) };
        self.word(turn).store(0, Ordering::SeqCst);
        let bed = &self.beds[turn];
        let asleep = bed.sleepers.load(Ordering::SeqCst);
        if asleep > 0 {
            let _ = bed.sleepers.compare_exchange(asleep, asleep - 1, Ordering::SeqCst, Ordering::SeqCst);
            bed.bell.notify_one();
        }
    }

    fn finish(&self, seat: u32, request: Request, reply: crate::script::Reply, ops: &mut Vec<Op>) -> Told {
        let last = self.slots.len() - 1;
        let Held::Log(mut journal) = self.take(seat, last) else { unreachable!() };
        let told = journal.may_append().and_then(|()| journal.append(seat, request, reply, ops));
        self.free(last, Held::Log(journal));
        told
    }

    fn climb(&self, seat: u32, request: Request, mut climb: Climb, ops: &mut Vec<Op>) -> Told {
        let Some(number) = climb.next else {
            let reply = self.plan.over(request, &climb, ops);
            return self.finish(seat, request, reply, ops);
        };
        let Held::Node(mut node) = self.take(seat, number as usize) else { unreachable!() };
        let (machine, place) = (&self.plan.machine, climb.place);
        let old = node.votes[place];
        let votes = node.set(machine, number as usize, place, climb.vote);
        self.plan.past(&mut climb, number, votes);
        let told = self.climb(seat, request, climb, ops);
        if told.is_err() {
            node.set(machine, number as usize, place, old);
        }
        self.free(number as usize, Held::Node(node));
        told
    }

    fn change(&self, seat: u32, request: Request, scale: (&Scale, usize), ops: &mut Vec<Op>) -> Told {
        let turn = self.plan.machine.containers.len() + scale.0.domain;
        let Held::Levels(mut levels) = self.take(seat, turn) else { unreachable!() };
        let told = match self.plan.change(&mut levels, scale, request, ops) {
            Err(refusal) => self.finish(seat, request, refusal, ops),
            Ok((old, reply)) => {
                let told = self.finish(seat, request, reply, ops);
                if told.is_err() {
                    old.set_back(&mut levels, scale.1);
                }
                told
            }
        };
        self.free(turn, Held::Levels(levels));
        told
    }
}

impl<E: Kept, const APART: usize> Shared<E> for EachTurn<E, APART> {
    fn open(plan: Plan, entries: usize, operations: usize) -> Self {
        let mut held: Vec<Held<E>> = plan.nodes().map(|node| Held::Node(Box::new(node))).collect();
        held.extend(plan.levels().map(|levels| Held::Levels(Box::new(levels))));
        held.push(Held::Log(Box::new(Journal::open(&mut plan.opening(), entries, operations))));
        let words = (0..held.len() * APART).map(|_| AtomicU64::new(0)).collect();
        let bed = |_| Bed { sleepers: AtomicU32::new(0), lock: Mutex::new(()), bell: Condvar::new() };
        let beds = (0..held.len()).map(bed).collect();
        let slots = held.into_iter().map(|held| UnsafeCell::new(Some(held))).collect();
        EachTurn { plan, words, beds, slots }
    }

    fn request(&self, seat: u32, request: Request, ops: &mut Vec<Op>) -> Told {
        let begun = match request {
            Request::Ask { kind, cpu, .. } | Request::Limit { kind, cpu, .. } => match self.plan.scale(kind, cpu) {
                Ok(scale) => return self.change(seat, request, scale, ops),
                Err(refusal) => Err(refusal),
            },
            _ => self.plan.begin(request),
        };
        match begun {
            Ok(climb) => self.climb(seat, request, climb, ops),
            Err(refusal) => self.finish(seat, request, refusal, ops),
        }
    }

    fn close(mut self) -> Journal<E> {
        match self.slots.pop().and_then(UnsafeCell::into_inner) {
            Some(Held::Log(journal)) => *journal,
            _ => unreachable!("the journal is in the last slot"),
        }
    }
}
