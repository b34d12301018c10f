//! What `show`, `show --json`, `rewrite` and `check` do to blocks, written once more in plain Rust
//! with nothing proved: the measure of speed that bench/run sets beside the program. It reads a
//! block whole into a tree, with every test of lengths, counts, names, depth and sum. `rewrite`
//! writes it in its shortest spelling; the others place its objects, none where one was placed
//! before; `show` prints each, and `check` reads the tables of processors and prints the plan of
//! the machine. Which fault a block has it doesn't tell; that of a table it does.
//! `drive` makes the requests of a script on the machine, and prints their history: by a thread for each processor, or on one
//! thread. `cppc --serial` does so by requests for performance. `audit` tells whether a history of either is one that a script allows.
//! `generate` makes a block of so many clusters, reads it again, makes the requests of a load on its machine by threads, and prints
//! their summary. `shared` makes requests of one coordinator by several threads.
//! usage: plain show|rewrite|check [--json] FILE..
//!        plain drive [--serial] [--step] SCRIPT FILE..
//!        plain cppc --serial SCRIPT FILE..
//!        plain audit [--step|--cppc] SCRIPT HISTORY FILE..
//!        plain generate N
//!        plain read|print SCRIPT ROUNDS
//!        plain shared one-lock|each-lock|each-turn|each-turn-apart one-cluster|eight-clusters|domains THREADS ROUNDS

mod audit;
mod check;
mod cppc;
mod drive;
mod generate;
mod json;
mod machine;
mod plan;
mod read;
mod script;
mod shared;
mod show;
mod space;
mod tables;
mod turns;
mod workers;
mod written;

use drive::Asked;
use read::Term;
use space::Space;
use std::io::{self, BufWriter, Write};
use std::process::ExitCode;

/// Prints the plan; or else the line that says why there is none.
fn check(space: &Space, out: impl Write) -> io::Result<ExitCode> {
    let planned = machine::machine(space).and_then(|mut machine| {
        let plan = plan::plan(&mut machine)?;
        Ok((machine, plan))
    });
    match planned {
        Ok((machine, plan)) => {
            check::print_plan(space, &machine, &plan, out)?;
            Ok(ExitCode::SUCCESS)
        }
        Err(refused) => {
            check::print_refused(space, &refused, io::stderr())?;
            Ok(ExitCode::from(1))
        }
    }
}

fn rewrite(blocks: &[(Vec<u8>, Vec<Term>)], mut out: impl Write) -> io::Result<ExitCode> {
    for (block, terms) in blocks {
        out.write_all(&written::written(block, terms))?;
    }
    Ok(ExitCode::SUCCESS)
}

/// Makes what is asked on the machine of the blocks.
fn drive(blocks: &[(Vec<u8>, Vec<Term>)], asked: Asked) -> io::Result<ExitCode> {
    let space = Space::of(blocks).expect("no place is given twice");
    let mut machine = machine::machine(&space).unwrap_or_else(|_| panic!("the objects make a machine"));
    let plan = plan::plan(&mut machine).unwrap_or_else(|_| panic!("the machine has a plan"));
    let status = drive::drive(&space, machine, plan, asked, BufWriter::with_capacity(1 << 16, script::output()))?;
    std::mem::forget(space);
    Ok(ExitCode::from(status))
}

/// Drives the machine of the blocks by a script.
fn drive_script(script: &str, flags: &[String], blocks: &[(Vec<u8>, Vec<Term>)]) -> io::Result<ExitCode> {
    let text = std::fs::read(script)?;
    let has = |named: &str| flags.iter().any(|flag| flag == named);
    drive(blocks, Asked::Script { text, steps: has("--step"), serial: has("--serial") })
}

/// Steers the processors of the blocks by a script.
fn steer(script: &str, blocks: &[(Vec<u8>, Vec<Term>)]) -> io::Result<ExitCode> {
    let text = std::fs::read(script)?;
    let space = Space::of(blocks).expect("no place is given twice");
    let machine = machine::machine(&space).unwrap_or_else(|_| panic!("the objects make a machine"));
    cppc::cppc(&space, &machine, &text, BufWriter::with_capacity(1 << 16, script::output()))?;
    std::mem::forget(space);
    Ok(ExitCode::SUCCESS)
}

/// Tells whether a history is one that a script allows on the machine of the blocks.
fn audit(script: &str, history: &str, flags: &[String], blocks: &[(Vec<u8>, Vec<Term>)]) -> io::Result<ExitCode> {
    let (script, text) = (std::fs::read(script)?, std::fs::read(history)?);
    if flags == ["--cppc"] {
        let space = Space::of(blocks).expect("no place is given twice");
        let machine = machine::machine(&space).unwrap_or_else(|_| panic!("the objects make a machine"));
        let status = cppc::audit_history(&space, &machine, &script, &text, io::stdout())?;
        std::mem::forget(space);
        return Ok(ExitCode::from(status));
    }
    drive(blocks, Asked::History { script: &script, steps: !flags.is_empty(), text: &text })
}

/// Makes a machine of so many clusters and a load, and drives it.
fn generate(clusters: u32) -> io::Result<ExitCode> {
    let block = generate::block(clusters);
    let terms = read::parse(&block).expect("the block is spelled");
    drive(&[(block, terms)], Asked::Load(generate::load(clusters)))
}

/// Does this on the objects of the blocks.
fn on_objects(command: &str, flags: &[String], blocks: &[(Vec<u8>, Vec<Term>)]) -> io::Result<ExitCode> {
    let mut page = BufWriter::with_capacity(1 << 16, io::stdout());
    let Some(space) = Space::of(blocks) else {
        eprintln!("block: given twice");
        return Ok(ExitCode::from(1));
    };
    let done = match (command, flags.len()) {
        ("check", _) => check(&space, &mut page)?,
        (_, 0) => show::show(&space, &mut page).map(|()| ExitCode::SUCCESS)?,
        _ => json::show_json(&space, &mut page).map(|()| ExitCode::SUCCESS)?,
    };
    // As the program does it: the process ends now.
    std::mem::forget(space);
    Ok(done)
}

/// Each block with its terms; none where one isn't spelled, or all are too large.
fn read_all(files: &[String]) -> Option<Vec<(Vec<u8>, Vec<Term>)>> {
    let mut blocks = Vec::new();
    let mut whole = 0;
    for file in files {
        let block = std::fs::read(file).expect("the file can be read");
        whole += block.len();
        let terms = read::parse(&block).filter(|_| whole <= 1 << 24)?;
        blocks.push((block, terms));
    }
    Some(blocks)
}

fn main() -> ExitCode {
    let (flags, words): (Vec<String>, Vec<String>) =
        std::env::args().skip(1).partition(|word| word.starts_with("--"));
    let Some((command, files)) = words.split_first() else {
        panic!("usage: plain show|rewrite|check|drive|cppc|audit|generate|read|print|shared [FLAG..] FILE..");
    };
    if let ("read" | "print", [file, rounds]) = (command.as_str(), files) {
        script::rounds(command, file, rounds.parse().expect("a number of rounds"));
        return ExitCode::SUCCESS;
    }
    if let ("shared", [locks, machine, threads, rounds]) = (command.as_str(), files) {
        let number = |word: &String| word.parse().expect("a number");
        shared::rounds(locks, machine, number(threads), number(rounds));
        return ExitCode::SUCCESS;
    }
    if let ("generate", [clusters]) = (command.as_str(), files) {
        return generate(clusters.parse().expect("a number of clusters")).expect("the output can be written");
    }
    let (scripts, files) = files.split_at(match command.as_str() {
        "drive" | "cppc" => 1,
        "audit" => 2,
        _ => 0,
    });
    let Some(blocks) = read_all(files) else {
        eprintln!("block: refused");
        return ExitCode::from(1);
    };
    let done = match command.as_str() {
        "rewrite" => rewrite(&blocks, io::stdout().lock()),
        "drive" => drive_script(&scripts[0], &flags, &blocks),
        "cppc" => steer(&scripts[0], &blocks),
        "audit" => audit(&scripts[0], &scripts[1], &flags, &blocks),
        command => on_objects(command, &flags, &blocks),
    };
    std::mem::forget(blocks);
    done.expect("the output can be written")
}
