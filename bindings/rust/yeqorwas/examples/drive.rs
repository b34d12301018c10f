//! Prints the history of a script on the machine of some tables, as `pw drive --serial SCRIPT BLOCK..` does, for scripts without
//! `within` and `notify`.
//!
//! usage: drive SCRIPT BLOCK..

use std::error::Error;
use yeqorwas::{Coordinator, Cpu, Operation, Plan, Register, Reply, Request, Unfit, ANY_LATENCY};

/// A path with each segment filled to four characters.
fn filled(path: &str) -> String {
    let segments: Vec<String> = path.trim_start_matches('\\').split('.').map(|s| format!("{s:_<4}")).collect();
    format!("\\{}", segments.join("."))
}

fn request_of(line: &str, cpus: &[Cpu]) -> Option<Request> {
    let fields: Vec<&str> = line.split_whitespace().collect();
    let path = filled(fields.first()?);
    let cpu = cpus.iter().position(|c| c.path == path)? as u32;
    let number = |k: usize| fields.get(k).and_then(|f| f.parse::<u32>().ok());
    Some(match *fields.get(1)? {
        "idle" => Request::Idle { cpu, state: number(2)?, tolerance: number(3).unwrap_or(ANY_LATENCY) },
        "wake" => Request::Wake { cpu },
        "perf" => Request::Perf { cpu, index: number(2)? },
        "throttle" => Request::Throttle { cpu, index: number(2)? },
        "plimit" => Request::PerfLimit { cpu, limit: number(2)? },
        "tlimit" => Request::ThrottleLimit { cpu, limit: number(2)? },
        _ => return None,
    })
}

fn text_of_request(request: &Request, cpus: &[Cpu]) -> String {
    let (cpu, words) = match *request {
        Request::Idle { cpu, state, tolerance: ANY_LATENCY } => (cpu, format!("idle {state}")),
        Request::Idle { cpu, state, tolerance } => (cpu, format!("idle {state} {tolerance}")),
        Request::Wake { cpu } => (cpu, "wake".into()),
        Request::Perf { cpu, index } => (cpu, format!("perf {index}")),
        Request::Throttle { cpu, index } => (cpu, format!("throttle {index}")),
        Request::PerfLimit { cpu, limit } => (cpu, format!("plimit {limit}")),
        Request::ThrottleLimit { cpu, limit } => (cpu, format!("tlimit {limit}")),
    };
    format!("{} {words}", cpus[cpu as usize].path)
}

fn text_of_reply(reply: &Reply) -> String {
    match reply {
        Reply::Entered { states } => {
            "entered".to_owned() + &states.iter().map(|s| format!(" {s}")).collect::<String>()
        }
        Reply::Running => "running".into(),
        Reply::Stands { index } => format!("stands {index}"),
        Reply::NoState { count } => format!("refused no state, count {count}"),
        Reply::Disabled => "refused disabled".into(),
        Reply::AboveLimit { limit } => format!("refused above limit {limit}"),
        Reply::NoTable => "refused no table".into(),
        Reply::Unfit { domain, why } => {
            let all = [Unfit::Coord, Unfit::Counts, Unfit::Number, Unfit::States, Unfit::Register];
            let number = 1 + all.iter().position(|w| w == why).unwrap_or(all.len());
            format!("refused unfit domain {domain} why {number}")
        }
        Reply::TooSlow { latency } => format!("refused latency {latency}"),
    }
}

fn print_operations(operations: &[Operation], cpus: &[Cpu]) {
    let put = |word, cpu: u32, r: &Register| {
        let Register { space, width, offset, access, address } = r;
        print!("  {word} {} [{space},{width},{offset},{access},0x{address:X}]", cpus[cpu as usize].path);
    };
    for operation in operations {
        match operation {
            Operation::Set { cpu, register, value } => {
                put("set", *cpu, register);
                println!(" 0x{value:X}");
            }
            Operation::Enter { cpu, register, .. } => {
                put("enter", *cpu, register);
                println!();
            }
        }
    }
}

fn main() -> Result<(), Box<dyn Error>> {
    let words: Vec<String> = std::env::args().skip(1).collect();
    let [script, blocks @ ..] = &words[..] else {
        return Err("usage: drive SCRIPT BLOCK..".into());
    };
    let blocks = blocks.iter().map(std::fs::read).collect::<Result<Vec<_>, _>>()?;
    let blocks: Vec<&[u8]> = blocks.iter().map(|b| &b[..]).collect();
    let (mut coordinator, opening) = Coordinator::start(Plan::new(&blocks)?)?;
    let cpus = coordinator.cpus().to_vec();
    println!("open");
    print_operations(&opening, &cpus);
    let script = std::fs::read_to_string(script)?;
    let lines = script.lines().map(str::trim).enumerate();
    for (number, (at, line)) in (1..).zip(lines.filter(|(_, l)| !l.is_empty() && !l.starts_with('#'))) {
        let request = request_of(line, &cpus).ok_or_else(|| format!("script: line {}", at + 1))?;
        let (reply, operations) = coordinator.ask(request)?;
        println!("{number} {} -> {}", text_of_request(&request, &cpus), text_of_reply(&reply));
        print_operations(&operations, &cpus);
    }
    Ok(())
}
