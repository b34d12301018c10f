//! The plan of a machine: its limits, domains and groups.

use crate::machine::{Cpu, Machine, Note, Refused, Scale};
use crate::tables::{Coord, Dependency};
use std::collections::HashMap;

#[derive(Clone, Copy, PartialEq, Eq, Hash)]
pub enum Sort {
    Perf,
    Throttle,
    Idle,
}

pub struct Domain {
    pub sort: Sort,
    pub number: Option<u32>,
    pub index: u32,
    pub coord: Coord,
    pub members: Vec<u32>,
    pub unfit: u8,
}

pub struct Plan {
    pub domains: Vec<Domain>,
    pub groups: Vec<Vec<u32>>,
}

fn above(
    name: &'static str,
    bound: usize,
    counts: impl IntoIterator<Item = usize>,
) -> Result<(), Refused> {
    match counts.into_iter().find(|count| *count > bound) {
        Some(number) => Err(Refused::Limit { name, number }),
        None => Ok(()),
    }
}

fn within_limits(machine: &Machine) -> Result<(), Refused> {
    let Machine { containers, cpus, .. } = machine;
    above("containers", 256, [containers.len()])?;
    above("processors", 256, [cpus.len()])?;
    let mut depths: Vec<usize> = Vec::new();
    let mut children = vec![0; containers.len()];
    for container in containers {
        let around = container.parent.map(|parent| parent as usize);
        depths.push(1 + around.map_or(0, |parent| depths[parent]));
    }
    let parents = containers.iter().map(|container| container.parent);
    for parent in parents.chain(cpus.iter().map(|cpu| cpu.parent)).flatten() {
        children[parent as usize] += 1;
    }
    above("depth", 8, depths)?;
    above("children", 255, children)?;
    let count = |scale: &Option<Scale>| scale.as_ref().map_or(0, |scale| scale.controls.len());
    let of_cpu = |cpu: &Cpu| [cpu.idle.rows.len(), count(&cpu.perf), count(&cpu.throttle)];
    let of_containers = containers.iter().map(|container| container.idle.rows.len());
    above("states", 255, of_containers.chain(cpus.iter().flat_map(of_cpu)))
}

fn scale_of(sort: Sort, cpu: &Cpu) -> Option<&Scale> {
    match sort {
        Sort::Perf => cpu.perf.as_ref(),
        Sort::Throttle => cpu.throttle.as_ref(),
        Sort::Idle => None,
    }
}

/// The first reason for which members, who declare this, can't be coordinated.
fn unfit(cpus: &[Cpu], sort: Sort, own: bool, members: &[(u32, Dependency)]) -> u8 {
    let first = members[0].1;
    let scales = || members.iter().filter_map(|(p, _)| scale_of(sort, &cpus[*p as usize]));
    let length = scales().next().map_or(0, |scale| scale.controls.len());
    if members.iter().any(|(_, d)| d.coord != first.coord) {
        1
    } else if !own && members.iter().any(|(_, d)| d.processors != first.processors) {
        2
    } else if !own && first.processors as usize != members.len() {
        3
    } else if scales().any(|scale| scale.controls.len() != length) {
        4
    } else if scales().any(|scale| scale.register.is_none()) {
        5
    } else {
        0
    }
}

/// A domain's kind, its number and its index, and its members with what they declare.
type Found = (Sort, Option<u32>, u32, Vec<(u32, Dependency)>);

#[derive(Default)]
struct Named {
    places: HashMap<(Sort, u32, u32), usize>,
    found: Vec<Found>,
}

impl Named {
    fn add(&mut self, sort: Sort, index: u32, cpu: u32, declared: Dependency) {
        let next = self.found.len();
        let place = *self.places.entry((sort, declared.domain, index)).or_insert(next);
        if place == next {
            self.found.push((sort, Some(declared.domain), index, Vec::new()));
        }
        self.found[place].3.push((cpu, declared));
    }

    fn add_scale(&mut self, sort: Sort, cpu: u32, scale: &Option<Scale>) {
        let alone = Dependency { domain: 0, coord: Coord::SwAll, processors: 1 };
        match scale {
            None => {}
            Some(Scale { dependency: Some(declared), .. }) => self.add(sort, 0, cpu, *declared),
            Some(_) => self.found.push((sort, None, 0, vec![(cpu, alone)])),
        }
    }
}

fn domains(cpus: &[Cpu]) -> Vec<Domain> {
    let mut named = Named::default();
    for (p, cpu) in (0..).zip(cpus) {
        named.add_scale(Sort::Perf, p, &cpu.perf);
        named.add_scale(Sort::Throttle, p, &cpu.throttle);
        for entry in &cpu.csd {
            named.add(Sort::Idle, entry.index, p, entry.of);
        }
    }
    let made = |(sort, number, index, members): Found| Domain {
        sort,
        number,
        index,
        coord: members[0].1.coord,
        unfit: unfit(cpus, sort, number.is_none(), &members),
        members: members.into_iter().map(|(p, _)| p).collect(),
    };
    let mut domains: Vec<Domain> = named.found.into_iter().map(made).collect();
    domains.sort_by_key(|d| (d.sort as u8, d.members[0], d.number.unwrap_or(0), d.index));
    domains
}

fn leader(leaders: &mut [u32], mut p: u32) -> u32 {
    while leaders[p as usize] != p {
        leaders[p as usize] = leaders[leaders[p as usize] as usize];
        p = leaders[p as usize];
    }
    p
}

/// Processors joined by chains of idle domains that software coordinates.
fn groups(domains: &[Domain], count: u32) -> Vec<Vec<u32>> {
    let mut leaders: Vec<u32> = (0..count).collect();
    let mut linked = vec![false; count as usize];
    for domain in domains {
        if domain.sort != Sort::Idle || domain.coord == Coord::HwAll {
            continue;
        }
        for p in &domain.members {
            linked[*p as usize] = true;
            let (a, b) = (leader(&mut leaders, domain.members[0]), leader(&mut leaders, *p));
            leaders[a.max(b) as usize] = a.min(b);
        }
    }
    let mut groups: Vec<Vec<u32>> = Vec::new();
    let mut places = HashMap::new();
    for p in (0..count).filter(|p| linked[*p as usize]) {
        let place = *places.entry(leader(&mut leaders, p)).or_insert(groups.len());
        if place == groups.len() {
            groups.push(Vec::new());
        }
        groups[place].push(p);
    }
    groups
}

/// The plan of a machine, whose notes get one for each domain that is unfit.
pub fn plan(machine: &mut Machine) -> Result<Plan, Refused> {
    within_limits(machine)?;
    let domains = domains(&machine.cpus);
    for (d, domain) in domains.iter().enumerate().filter(|(_, domain)| domain.unfit > 0) {
        let place = machine.cpus[domain.members[0] as usize].place;
        machine.notes.push(Note { place, name: None, text: format!("unfit domain {d}") });
    }
    let groups = groups(&domains, machine.cpus.len() as u32);
    Ok(Plan { domains, groups })
}
