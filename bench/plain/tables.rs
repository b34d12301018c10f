//! The tables of processors, read from their objects: values, or the first place that means
//! nothing.
// A plan keeps what its user needs, though `check` prints little more than counts.
#![allow(dead_code)]

use crate::read::Data;

/// An element, a field of it, and why it means nothing.
pub struct Fault {
    pub outer: usize,
    pub inner: usize,
    pub why: &'static str,
}

pub type Meant<T> = Result<T, Fault>;

fn fault<T>(outer: usize, inner: usize, why: &'static str) -> Meant<T> {
    Err(Fault { outer, inner, why })
}

#[derive(Clone, Copy, PartialEq)]
pub struct Register {
    pub space: u8,
    pub width: u8,
    pub offset: u8,
    pub access: u8,
    pub address: u64,
}

pub const NULL: Register = Register { space: 0, width: 0, offset: 0, access: 0, address: 0 };

#[derive(Clone, Copy, PartialEq)]
pub enum Coord {
    SwAll,
    SwAny,
    HwAll,
}

#[derive(Clone, Copy)]
pub struct Dependency {
    pub domain: u32,
    pub coord: Coord,
    pub processors: u32,
}

/// A dependency of a C state, with the index of that state.
#[derive(Clone, Copy)]
pub struct CDependency {
    pub of: Dependency,
    pub index: u32,
}

#[derive(Clone, Copy)]
pub enum Entry {
    Register(Register),
    Integer(u64),
}

/// A state of `_LPI` or `_CST`, as far as a plan needs it.
#[derive(Clone, Copy)]
pub struct Row {
    pub enabled: bool,
    pub latency: u32,
    pub residency: u32,
    pub parent: u32,
    pub entry: Entry,
}

/// What tables are read from: an object, and whether integers have 64 bits.
#[derive(Clone, Copy)]
pub struct Given<'a> {
    pub object: &'a Data,
    pub wide: bool,
}

fn meaning(object: &Data, wide: bool) -> Option<u64> {
    match object {
        Data::Int(number) => Some(if wide { *number } else { u64::from(*number as u32) }),
        Data::Ones => Some(if wide { u64::MAX } else { u64::from(u32::MAX) }),
        _ => None,
    }
}

fn elements(object: &Data, outer: usize) -> Meant<&[Data]> {
    match object {
        Data::Package { elements, .. } | Data::VarPackage { elements, .. } => Ok(elements),
        _ => fault(outer, 0, "kind"),
    }
}

fn register(object: &Data, outer: usize, inner: usize) -> Meant<Register> {
    let Data::Buffer { size, bytes } = object else {
        return fault(outer, inner, "kind");
    };
    // A content is the bytes, and zeros up to the size.
    let mut content = [0; 17];
    if bytes.len().max((*size).min(18) as usize) != 17 {
        return fault(outer, inner, "register");
    }
    content[..bytes.len()].copy_from_slice(bytes);
    let sum = content.iter().fold(0u8, |sum, b| sum.wrapping_add(*b));
    let framed = content.starts_with(&[0x82, 0x0C, 0]) && content[15] == 0x79;
    let [_, _, _, space, width, offset, access, a, b, c, d, e, f, g, h, _, check] = content;
    if !framed || (check != 0 && sum != 0) {
        return fault(outer, inner, "register");
    }
    let address = u64::from_le_bytes([a, b, c, d, e, f, g, h]);
    Ok(Register { space, width, offset, access, address })
}

/// The fields of an element: its number, and their number.
struct Fields<'a> {
    outer: usize,
    wide: bool,
    fields: &'a [Data],
}

impl<'a> Fields<'a> {
    fn of(object: &'a Data, outer: usize, count: usize, wide: bool) -> Meant<Fields<'a>> {
        let fields = elements(object, outer)?;
        if fields.len() != count {
            return fault(outer, 0, "count");
        }
        Ok(Fields { outer, wide, fields })
    }

    fn long(&self, inner: usize) -> Meant<u64> {
        match meaning(&self.fields[inner - 1], self.wide) {
            Some(number) => Ok(number),
            None => fault(self.outer, inner, "kind"),
        }
    }

    fn number(&self, inner: usize) -> Meant<u32> {
        match u32::try_from(self.long(inner)?) {
            Ok(number) => Ok(number),
            Err(_) => fault(self.outer, inner, "range"),
        }
    }

    fn register(&self, inner: usize) -> Meant<Register> {
        register(&self.fields[inner - 1], self.outer, inner)
    }

    fn entry(&self, inner: usize) -> Meant<Entry> {
        Ok(match meaning(&self.fields[inner - 1], self.wide) {
            Some(number) => Entry::Integer(number),
            None => Entry::Register(self.register(inner)?),
        })
    }

    /// A register, or a number, which stands for none.
    fn counter(&self, inner: usize) -> Meant<Register> {
        match meaning(&self.fields[inner - 1], self.wide) {
            Some(_) => Ok(NULL),
            None => self.register(inner),
        }
    }

    fn dependency(&self, entries: u64) -> Meant<Dependency> {
        if self.long(1)? != entries {
            return fault(self.outer, 1, "count");
        }
        if self.long(2)? != 0 {
            return fault(self.outer, 2, "revision");
        }
        let domain = self.number(3)?;
        let coord = match self.long(4)? {
            0xFC => Coord::SwAll,
            0xFD => Coord::SwAny,
            0xFE => Coord::HwAll,
            _ => return fault(self.outer, 4, "range"),
        };
        Ok(Dependency { domain, coord, processors: self.number(5)? })
    }
}

/// The elements of a whole of at least so many.
fn whole<'a>(given: Given<'a>, least: usize) -> Meant<&'a [Data]> {
    let elements = elements(given.object, 0)?;
    if elements.len() < least {
        return fault(0, 0, "count");
    }
    Ok(elements)
}

fn whole_number(elements: &[Data], outer: usize, wide: bool) -> Meant<u64> {
    match meaning(&elements[outer - 1], wide) {
        Some(number) => Ok(number),
        None => fault(outer, 0, "kind"),
    }
}

/// What each element from this one on says.
fn rows<'a, T>(
    objects: &'a [Data],
    first: usize,
    row: impl Fn(usize, &'a Data) -> Meant<T>,
) -> Meant<Vec<T>> {
    objects.iter().enumerate().map(|(i, object)| row(first + i, object)).collect()
}

fn cst_row(outer: usize, object: &Data, wide: bool) -> Meant<Row> {
    let fields = Fields::of(object, outer, 4, wide)?;
    let register = fields.register(1)?;
    if !(1..=3).contains(&fields.long(2)?) {
        return fault(outer, 2, "range");
    }
    let latency = fields.number(3)?;
    fields.number(4)?;
    let entry = Entry::Register(register);
    Ok(Row { enabled: true, latency, residency: 0, parent: 0, entry })
}

pub fn cst(given: Given) -> Meant<Vec<Row>> {
    let elements = whole(given, 1)?;
    if whole_number(elements, 1, given.wide)? != elements.len() as u64 - 1 {
        return fault(1, 0, "count");
    }
    rows(&elements[1..], 2, |outer, object| cst_row(outer, object, given.wide))
}

pub fn csd(given: Given) -> Meant<Vec<CDependency>> {
    rows(elements(given.object, 0)?, 1, |outer, object| {
        let fields = Fields::of(object, outer, 6, given.wide)?;
        Ok(CDependency { of: fields.dependency(6)?, index: fields.number(6)? })
    })
}

fn lpi_row(outer: usize, object: &Data, wide: bool) -> Meant<Row> {
    let fields = Fields::of(object, outer, 10, wide)?;
    let residency = fields.number(1)?;
    let latency = fields.number(2)?;
    let flags = fields.number(3)?;
    fields.number(4)?;
    fields.number(5)?;
    let parent = fields.number(6)?;
    let entry = fields.entry(7)?;
    fields.counter(8)?;
    fields.counter(9)?;
    let Data::Text(_) = fields.fields[9] else {
        return fault(outer, 10, "kind");
    };
    Ok(Row { enabled: flags & 1 == 1, latency, residency, parent, entry })
}

pub fn lpi(given: Given) -> Meant<Vec<Row>> {
    let elements = whole(given, 3)?;
    if whole_number(elements, 1, given.wide)? != 0 {
        return fault(1, 0, "revision");
    }
    whole_number(elements, 2, given.wide)?;
    if whole_number(elements, 3, given.wide)? != elements.len() as u64 - 3 {
        return fault(3, 0, "count");
    }
    rows(&elements[3..], 4, |outer, object| lpi_row(outer, object, given.wide))
}

/// The control values of `_PSS` (six fields, the fifth) or `_TSS` (five, the fourth).
pub fn scale(given: Given, count: usize) -> Meant<Vec<u32>> {
    rows(elements(given.object, 0)?, 1, |outer, object| {
        let fields = Fields::of(object, outer, count, given.wide)?;
        let mut control = 0;
        for inner in 1..=count {
            let number = fields.number(inner)?;
            if inner == count - 1 {
                control = number;
            }
        }
        Ok(control)
    })
}

/// The control register of `_PCT` or `_PTC`.
pub fn control(given: Given) -> Meant<Register> {
    let [control, status] = elements(given.object, 0)? else {
        return fault(0, 0, "count");
    };
    let control = register(control, 1, 0)?;
    register(status, 2, 0)?;
    Ok(control)
}

pub fn limit(given: Given) -> Meant<u32> {
    match meaning(given.object, given.wide) {
        None => fault(0, 0, "kind"),
        Some(number) => u32::try_from(number).or_else(|_| fault(0, 0, "range")),
    }
}

pub fn dependency(given: Given) -> Meant<Dependency> {
    let [one] = elements(given.object, 0)? else {
        return fault(0, 0, "count");
    };
    Fields::of(one, 1, 5, given.wide)?.dependency(5)
}

/// A `_CPC`: its revision, and its entries.
pub struct Cpc {
    pub revision: u8,
    pub entries: Vec<Entry>,
}

pub fn cpc(given: Given) -> Meant<Cpc> {
    let elements = whole(given, 2)?;
    let count = whole_number(elements, 1, given.wide)?;
    let (revision, wanted) = match whole_number(elements, 2, given.wide)? {
        2 => (2, 21),
        3 => (3, 23),
        _ => return fault(2, 0, "revision"),
    };
    if count != wanted {
        return fault(1, 0, "count");
    }
    if elements.len() as u64 != wanted {
        return fault(0, 0, "count");
    }
    let entries = rows(&elements[2..], 3, |outer, object| {
        Ok(match meaning(object, given.wide) {
            Some(number) => Entry::Integer(number),
            None => Entry::Register(register(object, outer, 0)?),
        })
    })?;
    Ok(Cpc { revision, entries })
}
