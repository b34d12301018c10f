//! What `check` prints of a plan and its notes, and the line where there is none.

use crate::machine::{Container, Cpu, Kind, Machine, Refused, Scale};
use crate::plan::{Domain, Plan, Sort};
use crate::read::Seg;
use crate::show::show_segs;
use crate::space::Space;
use crate::tables::Coord;
use std::io::{self, Write};

struct Printer<'s, 'a, W> {
    space: &'s Space<'a>,
    segs: Vec<Seg>,
    out: W,
}

fn states(scale: &Option<Scale>) -> usize {
    scale.as_ref().map_or(0, |scale| scale.controls.len())
}

impl<W: Write> Printer<'_, '_, W> {
    fn path(&mut self, place: u32, name: Option<&Seg>) -> io::Result<()> {
        self.space.segs_of(place, &mut self.segs);
        self.segs.extend(name);
        self.out.write_all(b"\\")?;
        show_segs(&self.segs, &mut self.out)
    }

    fn parent(&mut self, containers: &[Container], parent: Option<u32>) -> io::Result<()> {
        self.out.write_all(b" parent ")?;
        match parent {
            Some(number) => self.path(containers[number as usize].place, None),
            None => self.out.write_all(b"none"),
        }
    }

    fn container(&mut self, containers: &[Container], container: &Container) -> io::Result<()> {
        self.out.write_all(b"container ")?;
        self.path(container.place, None)?;
        self.parent(containers, container.parent)?;
        writeln!(self.out, " lpi {}", container.idle.rows.len())
    }

    fn cpu(&mut self, containers: &[Container], cpu: &Cpu) -> io::Result<()> {
        self.out.write_all(b"processor ")?;
        self.path(cpu.place, None)?;
        self.parent(containers, cpu.parent)?;
        let kind = match cpu.idle.kind {
            Kind::Lpi => "lpi",
            Kind::Cst => "cst",
            Kind::Absent => "none",
        };
        write!(self.out, " idle {kind} {}", cpu.idle.rows.len())?;
        write!(self.out, " perf {} throttle {}", states(&cpu.perf), states(&cpu.throttle))?;
        writeln!(self.out, " cpc {}", cpu.cpc.as_ref().map_or(0, |cpc| cpc.revision))
    }

    fn domain(&mut self, d: usize, domain: &Domain) -> io::Result<()> {
        let sort = match domain.sort {
            Sort::Perf => "perf",
            Sort::Throttle => "throttle",
            Sort::Idle => "idle",
        };
        write!(self.out, "domain {d} {sort} ")?;
        match (domain.number, domain.sort) {
            (None, _) => self.out.write_all(b"own")?,
            (Some(number), Sort::Idle) => write!(self.out, "{number}.{}", domain.index)?,
            (Some(number), _) => write!(self.out, "{number}")?,
        }
        let coord = match domain.coord {
            Coord::SwAll => "SW_ALL",
            Coord::SwAny => "SW_ANY",
            Coord::HwAll => "HW_ALL",
        };
        write!(self.out, " {coord} members {} ", domain.members.len())?;
        match domain.unfit {
            0 => writeln!(self.out, "fit"),
            why => writeln!(self.out, "unfit {why}"),
        }
    }

    fn plan(&mut self, machine: &Machine, plan: &Plan) -> io::Result<()> {
        for container in &machine.containers {
            self.container(&machine.containers, container)?;
        }
        for cpu in &machine.cpus {
            self.cpu(&machine.containers, cpu)?;
        }
        for (d, domain) in plan.domains.iter().enumerate() {
            self.domain(d, domain)?;
        }
        for (g, members) in plan.groups.iter().enumerate() {
            writeln!(self.out, "group {g} members {}", members.len())?;
        }
        for note in &machine.notes {
            self.out.write_all(b"note ")?;
            self.path(note.place, note.name)?;
            writeln!(self.out, " {}", note.text)?;
        }
        writeln!(self.out, "notes {}", machine.notes.len())?;
        self.out.flush()
    }
}

pub fn print_plan(
    space: &Space,
    machine: &Machine,
    plan: &Plan,
    out: impl Write,
) -> io::Result<()> {
    Printer { space, segs: Vec::new(), out }.plan(machine, plan)
}

/// The line that says why there is no plan.
pub fn print_refused(space: &Space, refused: &Refused, mut out: impl Write) -> io::Result<()> {
    match refused {
        Refused::Limit { name, number } => writeln!(out, "limit: {name} {number}"),
        Refused::Object { place, name, fault } => {
            out.write_all(b"object: ")?;
            let mut printer = Printer { space, segs: Vec::new(), out: &mut out };
            printer.path(*place, Some(name))?;
            writeln!(out, " at {}.{} {}", fault.outer, fault.inner, fault.why)
        }
    }
}
