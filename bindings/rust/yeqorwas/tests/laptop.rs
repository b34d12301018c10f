//! Requests on the laptop of `examples/`. What must come is in docs/FORMATS.md, and was found by hand from its tables.

use yeqorwas::{Coordinator, Cppc, CppcReply, CppcRequest, Endless, Error, Fault, Operation, Plan, Reply, Request, Seat, ANY_LATENCY};

fn table(name: &str) -> Vec<u8> {
    std::fs::read(format!("{}/../../../examples/{name}", env!("CARGO_MANIFEST_DIR"))).expect("a table of the examples")
}

fn laptop() -> Plan {
    Plan::new(&[&table("laptop.aml")]).expect("a plan")
}

fn addresses(operations: &[Operation]) -> Vec<(u32, u64, Option<u64>)> {
    let told = |o: &Operation| match *o {
        Operation::Set { cpu, register, value } => (cpu, register.address, Some(value)),
        Operation::Enter { cpu, register, .. } => (cpu, register.address, None),
    };
    operations.iter().map(told).collect()
}

#[test]
fn one_caller() {
    let plan = laptop();
    assert_eq!(plan.cpus()[0].path, "\\_SB_.PLTF.C000");
    assert_eq!((plan.cpus()[0].idle_states, plan.cpus()[0].perf_states), (3, 3));
    let (mut coordinator, opening) = Coordinator::start(plan).expect("memory");
    assert_eq!(addresses(&opening)[0], (0, 0xC001_0062, Some(0)));
    let idle = |cpu, state, tolerance| Request::Idle { cpu, state, tolerance };
    // The third C state is shared: the first of its two threads waits in the second.
    let (reply, operations) = coordinator.ask(idle(0, 3, ANY_LATENCY)).expect("an answer");
    assert!(matches!(reply, Reply::Entered { states } if states[..] == [2]), "{reply:?}");
    assert_eq!(addresses(&operations), [(0, 0x414, None)]);
    let (reply, operations) = coordinator.ask(idle(1, 3, 1000)).expect("an answer");
    assert!(matches!(reply, Reply::Entered { states } if states[..] == [3]), "{reply:?}");
    assert_eq!(addresses(&operations), [(1, 0x415, None), (0, 0x415, None)]);
    let (reply, operations) = coordinator.ask(Request::Perf { cpu: 0, index: 2 }).expect("an answer");
    assert_eq!((reply, addresses(&operations)), (Reply::Stands { index: 2 }, vec![(0, 0xC001_0062, Some(2))]));
    let (reply, operations) = coordinator.ask(Request::Perf { cpu: 1, index: 3 }).expect("an answer");
    assert_eq!((reply, operations.len()), (Reply::NoState { count: 3 }, 0));
    assert_eq!(coordinator.ask(Request::Wake { cpu: 256 }), Err(Error::Range));
}

#[test]
fn faults_are_named() {
    let laptop = table("laptop.aml");
    let cut = Plan::new(&[&laptop[..laptop.len() - 1]]).err();
    assert_eq!(cut, Some(Fault::Block { block: 0, why: 4, at: 0, found: 0 }));
    assert!(matches!(Plan::new(&[&laptop, &laptop]), Err(Fault::Twice { .. })));
    let wrong = Plan::new(&[&table("wrong-type.aml")]).err();
    assert_eq!(wrong, Some(Fault::Object { path: "\\CPU0._PSD".into(), why: 34, outer: 1, inner: 4 }));
}

#[test]
fn seats_on_threads() {
    let mut plan = laptop();
    let (mut first, opening) = Seat::open(&mut plan, 8).expect("memory");
    assert!(!opening.is_empty());
    let mut second = first.split(1).expect("a seat");
    let thread = std::thread::spawn(move || {
        let answer = second.ask(Request::Idle { cpu: 0, state: 3, tolerance: ANY_LATENCY }).expect("an answer");
        (second, answer)
    });
    let (second, answer) = thread.join().expect("a thread");
    assert_eq!((answer.number, addresses(&answer.operations)), (1, vec![(0, 0x414, None)]));
    let answer = first.ask(Request::Idle { cpu: 1, state: 3, tolerance: 1000 }).expect("an answer");
    assert_eq!((answer.number, addresses(&answer.operations)), (2, vec![(1, 0x415, None), (0, 0x415, None)]));
    let (_, mut first) = first.seal().err().map(|(e, s)| (assert_eq!(e, Error::Seats), s)).expect("a seat is out");
    let (mut other, _) = Seat::open(&mut plan, 1).expect("memory");
    let (error, second) = other.join(second).err().expect("of another coordinator");
    assert_eq!(error, Error::Others);
    assert!(first.join(second).is_ok());
    assert_eq!(first.parts(), Ok(65536));
    let entries = first.seal().ok().expect("all parts").entries().expect("entries");
    let asked: Vec<Request> = entries.iter().map(|e| e.request).collect();
    assert_eq!(
        asked,
        [
            Request::Idle { cpu: 0, state: 3, tolerance: ANY_LATENCY },
            Request::Idle { cpu: 1, state: 3, tolerance: 1000 }
        ]
    );
    assert_ne!(entries[0].seat, entries[1].seat);
}

#[test]
fn two_steps() {
    let mut plan = laptop();
    let (mut first, opening) = Endless::open(&mut plan).expect("memory");
    assert!(!opening.is_empty());
    let mut second = first.split(1).expect("a seat");
    let idle = |cpu, tolerance| Request::Idle { cpu, state: 3, tolerance };
    let begun = second.begin(idle(0, ANY_LATENCY)).expect("it begins");
    assert_eq!(addresses(&begun.operations), [(0, 0x414, None)]);
    assert_eq!(first.begin(idle(1, 1000)).err(), Some(Error::Busy));
    assert_eq!(begun.finish(1), Ok(()));
    let begun = first.begin(idle(1, 1000)).expect("it begins");
    assert!(matches!(begun.reply, Reply::Entered { states } if states[..] == [3]), "{:?}", begun.reply);
    assert_eq!(addresses(&begun.operations), [(1, 0x415, None), (0, 0x415, None)]);
    assert_eq!(begun.finish(2), Ok(()));
    let begun = second.begin(Request::Wake { cpu: 0 }).expect("it begins");
    let done = begun.operations.len() as u32;
    assert_eq!(begun.finish(done), Ok(()));
    // A register fails.
    let begun = first.begin(Request::Perf { cpu: 0, index: 2 }).expect("it begins");
    assert_eq!((begun.operations.len(), begun.finish(0)), (1, Ok(())));
    assert_eq!(second.begin(Request::Wake { cpu: 1 }).err(), Some(Error::Stopped));
    assert!(first.join(second).is_ok());
    assert_eq!(first.facts(), Ok((65536, 4)));
}

#[test]
fn desired_performance() {
    let mut plan = Plan::new(&[&table("clusters.aml")]).expect("a plan");
    let (mut cppc, opening) = Cppc::open(&mut plan).expect("memory");
    assert_eq!(addresses(&opening)[0], (0, 0x4, Some(0x32)));
    let (reply, operations) = cppc.ask(CppcRequest::Desired { cpu: 0, value: 100 }).expect("an answer");
    assert_eq!((reply, operations.len()), (CppcReply::Stands { value: 255 }, 0));
    let (reply, operations) = cppc.ask(CppcRequest::Desired { cpu: 1, value: 120 }).expect("an answer");
    assert_eq!(reply, CppcReply::Stands { value: 120 });
    assert_eq!(addresses(&operations), [(0, 0x0, Some(0x78)), (1, 0x0, Some(0x78))]);
    let (reply, _) = cppc.ask(CppcRequest::Desired { cpu: 1, value: 256 }).expect("an answer");
    assert_eq!(reply, CppcReply::OutOfRange { lowest: 50, highest: 255 });
}
