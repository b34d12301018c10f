//! The containers and processors that objects tell of, with what is noted on the way.

use crate::space::{NONE, Object, Placed, Space};
use crate::tables::{
    CDependency, Cpc, Dependency, Fault, Given, Meant, NULL, Register, Row, control, cpc, csd, cst,
    dependency, limit, lpi, scale,
};

#[derive(Clone, Copy, PartialEq)]
pub enum Kind {
    Lpi,
    Cst,
    Absent,
}

pub struct Idle {
    pub kind: Kind,
    pub rows: Vec<Row>,
}

#[allow(dead_code)]
pub struct Scale {
    pub controls: Vec<u32>,
    pub register: Option<Register>,
    pub limit: u32,
    pub dependency: Option<Dependency>,
}

/// A container, at this place, in that container.
pub struct Container {
    pub place: u32,
    pub parent: Option<u32>,
    pub idle: Idle,
}

pub struct Cpu {
    pub place: u32,
    pub parent: Option<u32>,
    pub idle: Idle,
    pub csd: Vec<CDependency>,
    pub perf: Option<Scale>,
    pub throttle: Option<Scale>,
    pub cpc: Option<Cpc>,
}

/// What is noted, at a place, or right below it at a name.
pub struct Note {
    pub place: u32,
    pub name: Option<&'static [u8; 4]>,
    pub text: String,
}

/// Why there is no machine.
pub enum Refused {
    Object { place: u32, name: &'static [u8; 4], fault: Fault },
    Limit { name: &'static str, number: usize },
}

pub struct Machine {
    pub containers: Vec<Container>,
    pub cpus: Vec<Cpu>,
    pub notes: Vec<Note>,
}

struct Reader<'s, 'a> {
    space: &'s Space<'a>,
    /// Of each place, the number of the container there.
    labels: Vec<u32>,
    notes: Vec<Note>,
}

/// Whether the `_HID` of a device is this text.
fn has_id(space: &Space, placed: &Placed, id: &[u8]) -> bool {
    use crate::read::Data;
    let hid = space.object_below(placed.place, b"_HID");
    matches!(hid.map(Placed::object), Some(Object::Data(Data::Text(text))) if text == id)
}

fn depth(space: &Space, mut place: u32) -> u32 {
    let mut depth = 0;
    while place != 0 {
        depth += 1;
        place = space.places[place as usize].above;
    }
    depth
}

/// The places of the containers and of the processors, in their orders.
fn found(space: &Space) -> (Vec<u32>, Vec<u32>) {
    let (mut containers, mut cpus) = (Vec::new(), Vec::new());
    for placed in &space.objects {
        match placed.object() {
            Object::Processor => cpus.push(placed.place),
            Object::Device if has_id(space, placed, b"ACPI0007") => cpus.push(placed.place),
            Object::Device if has_id(space, placed, b"ACPI0010") => containers.push(placed.place),
            _ => {}
        }
    }
    containers.sort_by_key(|place| depth(space, *place));
    (containers, cpus)
}

type Name = &'static [u8; 4];

impl<'a> Reader<'_, 'a> {
    fn note(&mut self, place: u32, name: Name, text: &str) {
        self.notes.push(Note { place, name: Some(name), text: text.to_string() });
    }

    /// What a table says, unless it counts as absent.
    fn table<T>(
        &mut self,
        place: u32,
        name: Name,
        read: impl Fn(Given<'a>) -> Meant<T>,
    ) -> Result<Option<T>, Refused> {
        let space = self.space;
        let Some(placed) = space.object_below(place, name) else {
            return Ok(None);
        };
        match placed.object() {
            Object::Data(object) => {
                let meant = read(Given { object, wide: placed.wide });
                meant.map(Some).map_err(|fault| Refused::Object { place, name, fault })
            }
            Object::Method => {
                self.note(place, name, "by method");
                Ok(None)
            }
            Object::Alias(_) => {
                self.note(place, name, "by alias");
                Ok(None)
            }
            Object::Device | Object::Processor => Ok(None),
        }
    }

    /// The states of a table, which counts as absent where there are none.
    fn states<T>(
        &mut self,
        place: u32,
        name: Name,
        read: impl Fn(Given<'a>) -> Meant<Vec<T>>,
    ) -> Result<Option<Vec<T>>, Refused> {
        let states = self.table(place, name, read)?;
        if states.as_ref().is_some_and(Vec::is_empty) {
            self.note(place, name, "empty");
            return Ok(None);
        }
        Ok(states)
    }

    /// The entries about C states that are there, no two of them about the same domain and state.
    fn kept(
        &mut self,
        place: u32,
        entries: Vec<CDependency>,
        states: usize,
    ) -> Result<Vec<CDependency>, Refused> {
        let mut seen = std::collections::HashSet::new();
        let mut kept = Vec::new();
        for (i, entry) in entries.into_iter().enumerate() {
            if entry.index as usize >= states {
                self.note(place, b"_CSD", "no such state");
            } else if seen.insert((entry.of.domain, entry.index)) {
                kept.push(entry);
            } else {
                let fault = Fault { outer: i + 1, inner: 3, why: "range" };
                return Err(Refused::Object { place, name: b"_CSD", fault });
            }
        }
        Ok(kept)
    }

    fn idle(&mut self, place: u32) -> Result<(Idle, Vec<CDependency>), Refused> {
        let lpi = self.states(place, b"_LPI", lpi)?;
        let cst = self.states(place, b"_CST", cst)?;
        if lpi.is_some() && cst.is_some() {
            self.note(place, b"_CST", "ignored");
        }
        let csd = self.table(place, b"_CSD", csd)?.unwrap_or_default();
        if let Some(rows) = lpi {
            return Ok((Idle { kind: Kind::Lpi, rows }, Vec::new()));
        }
        let kept = self.kept(place, csd, cst.as_ref().map_or(0, Vec::len))?;
        let kind = if cst.is_some() { Kind::Cst } else { Kind::Absent };
        Ok((Idle { kind, rows: cst.unwrap_or_default() }, kept))
    }

    /// States with their control register, limit and domain, by the names of these four.
    fn scale(&mut self, place: u32, n: [Name; 4], count: usize) -> Result<Option<Scale>, Refused> {
        let controls = self.states(place, n[0], |given| scale(given, count))?;
        let register = self.table(place, n[1], control)?.filter(|register| *register != NULL);
        let limit = self.table(place, n[2], limit)?.unwrap_or(0);
        let dependency = self.table(place, n[3], dependency)?;
        Ok(controls.map(|controls| Scale { controls, register, limit, dependency }))
    }

    fn parent(&self, place: u32) -> Option<u32> {
        let mut at = place;
        while at != 0 {
            at = self.space.places[at as usize].above;
            if self.labels[at as usize] != NONE {
                return Some(self.labels[at as usize]);
            }
        }
        None
    }

    fn container(&mut self, place: u32) -> Result<Container, Refused> {
        let rows = self.states(place, b"_LPI", lpi)?;
        let kind = if rows.is_some() { Kind::Lpi } else { Kind::Absent };
        let idle = Idle { kind, rows: rows.unwrap_or_default() };
        Ok(Container { place, parent: self.parent(place), idle })
    }

    fn cpu(&mut self, place: u32) -> Result<Cpu, Refused> {
        let (idle, csd) = self.idle(place)?;
        let perf = self.scale(place, [b"_PSS", b"_PCT", b"_PPC", b"_PSD"], 6)?;
        let throttle = self.scale(place, [b"_TSS", b"_PTC", b"_TPC", b"_TSD"], 5)?;
        let cpc = self.table(place, b"_CPC", cpc)?;
        Ok(Cpu { place, parent: self.parent(place), idle, csd, perf, throttle, cpc })
    }
}

/// The machine that the objects tell of.
pub fn machine(space: &Space) -> Result<Machine, Refused> {
    let (containers, cpus) = found(space);
    let mut labels = vec![NONE; space.places.len()];
    for (number, place) in containers.iter().enumerate() {
        labels[*place as usize] = number as u32;
    }
    let mut reader = Reader { space, labels, notes: Vec::new() };
    let containers = containers.iter().map(|place| reader.container(*place));
    let containers = containers.collect::<Result<Vec<_>, _>>()?;
    let cpus = cpus.iter().map(|place| reader.cpu(*place)).collect::<Result<Vec<_>, _>>()?;
    Ok(Machine { containers, cpus, notes: reader.notes })
}
