//! `generate`: a machine of clusters of eight processors as a block, and a load of requests for it, both out of nothing.

use crate::script::{ANY_LATENCY, Kind, Line, Request};

// # Bytes

/// What this opcode holds, behind its length in the shortest spelling.
fn held(opcode: &[u8], content: &[u8]) -> Vec<u8> {
    let mut bytes = opcode.to_vec();
    let count = content.len();
    match count {
        0..63 => bytes.push(count as u8 + 1),
        _ => {
            let more = (1..4).find(|more| count + more + 1 < 1 << (4 + 8 * more)).expect("a length of at most 28 bits");
            let whole = count + more + 1;
            bytes.push((more << 6 | whole & 15) as u8);
            bytes.extend_from_slice(&(whole >> 4).to_le_bytes()[..more]);
        }
    }
    bytes.extend_from_slice(content);
    bytes
}

fn integer(value: u64) -> Vec<u8> {
    let bytes = value.to_le_bytes();
    let (lead, count) = match value {
        0 => return vec![0],
        1 => return vec![1],
        2..0x100 => (10, 1),
        0x100..0x1_0000 => (11, 2),
        0x1_0000..0x1_0000_0000 => (12, 4),
        _ => (14, 8),
    };
    [&[lead], &bytes[..count]].concat()
}

fn text(text: &str) -> Vec<u8> {
    [b"\x0d", text.as_bytes(), b"\0"].concat()
}

fn buffer(content: &[u8]) -> Vec<u8> {
    held(b"\x11", &[&integer(content.len() as u64), content].concat())
}

fn package(elements: &[Vec<u8>]) -> Vec<u8> {
    held(b"\x12", &[&[elements.len() as u8][..], &elements.concat()].concat())
}

fn numbers(values: &[u64]) -> Vec<u8> {
    package(&values.iter().map(|value| integer(*value)).collect::<Vec<_>>())
}

fn named(name: &str, object: &[u8]) -> Vec<u8> {
    [b"\x08", name.as_bytes(), object].concat()
}

/// A buffer of a generic register.
fn register(space: u8, width: u8, access: u8, address: u64) -> Vec<u8> {
    let head = [0x82, 12, 0, space, width, 0, access];
    buffer(&[&head[..], &address.to_le_bytes(), &[0x79, 0]].concat())
}

// # The machine

/// A low power idle state: its residency, latency, parent's state, entry and name.
fn state(residency: u64, latency: u64, parent: u64, entry: Vec<u8>, name: &str) -> Vec<u8> {
    let null = register(0, 0, 0, 0);
    let counts = [residency, latency, 1, 0, 0, parent].map(integer);
    package(&[&counts[..], &[entry, null.clone(), null, text(name)]].concat())
}

fn low_power(states: &[Vec<u8>]) -> Vec<u8> {
    let head = [0, 0, states.len() as u64].map(integer);
    named("_LPI", &package(&[&head[..], states].concat()))
}

fn performance() -> Vec<u8> {
    let states = [(2400, 15000, 16), (2000, 12000, 17), (1600, 9000, 18), (1200, 6000, 19)];
    named("_PSS", &package(&states.map(|(frequency, power, control)| numbers(&[frequency, power, 10, 10, control, control]))))
}

/// What is the same for each processor.
fn tables() -> Vec<u8> {
    let entered = |address| register(127, 32, 3, address);
    let states = [state(100, 10, 0, entered(1), "S1"), state(500, 50, 1, entered(2), "S2"), state(2000, 200, 2, entered(3), "S3")];
    let control = named("_PCT", &package(&[register(1, 8, 1, 0xB2), register(1, 8, 1, 0xB3)]));
    [named("_HID", &text("ACPI0007")), low_power(&states), performance(), control].concat()
}

fn device(name: &str, content: &[u8]) -> Vec<u8> {
    held(b"\x5b\x82", &[name.as_bytes(), content].concat())
}

fn cluster(number: u32, shared: &[u8]) -> Vec<u8> {
    let states = [state(1000, 100, 0, integer(0x10), "K1"), state(5000, 500, 0, integer(0x20), "K2")];
    let mut content = [named("_HID", &text("ACPI0010")), low_power(&states)].concat();
    for cpu in 8 * number..8 * number + 8 {
        let domain = named("_PSD", &package(&[numbers(&[5, 0, u64::from(number), 0xFC, 8])]));
        content.extend(device(&format!("P{cpu:03X}"), &[shared, &domain].concat()));
    }
    device(&format!("CL{number:02X}"), &content)
}

/// The block of so many clusters.
pub fn block(clusters: u32) -> Vec<u8> {
    let shared = tables();
    let devices: Vec<Vec<u8>> = (0..clusters).map(|number| cluster(number, &shared)).collect();
    let body = held(b"\x10", &[&b"\\_SB_"[..], &devices.concat()].concat());
    let length = (36 + body.len()) as u32;
    let mut bytes = [&b"SSDT"[..], &length.to_le_bytes(), &[2, 0], b"POWER POWERTAB", &1u32.to_le_bytes(), b"PWR ", &1u32.to_le_bytes()].concat();
    bytes.extend(body);
    bytes[9] = bytes.iter().fold(0u8, |sum, byte| sum.wrapping_sub(*byte));
    bytes
}

// # The load

fn request(round: u32, cpu: u32) -> Request {
    let idle = |state| Request::Idle { cpu, state, tolerance: ANY_LATENCY };
    let ask = |index| Request::Ask { kind: Kind::Perf, cpu, index };
    let limit = |n| Request::Limit { kind: Kind::Perf, cpu, n };
    match (5 * cpu + 3 * round) % 8 {
        0 => idle(1 + (cpu + round) % 3),
        1 => Request::Wake { cpu },
        2 => ask((cpu + round) % 5),
        3 => limit((cpu + round) % 4),
        4 => idle(3),
        5 => ask(3),
        6 => limit(0),
        _ => idle(4),
    }
}

/// The load of so many clusters: eight rounds for each, in which each processor asks once.
pub fn load(clusters: u32) -> Vec<Line> {
    let cpus = 8 * clusters;
    let asked = (0..8 * clusters).flat_map(|round| (0..cpus).map(move |cpu| request(round, cpu)));
    (1..).zip(asked).map(|(number, request)| Line { number, request }).collect()
}
