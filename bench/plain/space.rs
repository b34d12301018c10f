//! The objects of blocks by their places.

use crate::read::{Data, Path, Seg, Term, name};
use std::collections::HashMap;

/// No object stands there.
pub const NONE: u32 = u32::MAX;

/// A place of the namespace: the place above it, its last segment, and the number of its object.
/// The root is place 0.
pub struct Place {
    pub above: u32,
    pub seg: Seg,
    pub object: u32,
}

pub enum Object<'a> {
    Data(&'a Data),
    Device,
    Processor,
    Method,
    Alias(&'a Path),
}

/// A term that gives a place its object.
pub struct Placed<'a> {
    pub place: u32,
    /// Whether its integers have 64 bits.
    pub wide: bool,
    term: &'a Term,
}

impl<'a> Placed<'a> {
    pub fn object(&self) -> Object<'a> {
        match self.term {
            Term::Name(_, value) => Object::Data(value),
            Term::Device(..) => Object::Device,
            Term::Processor(..) => Object::Processor,
            Term::Alias(source, _) => Object::Alias(source),
            _ => Object::Method,
        }
    }
}

#[derive(Default)]
pub struct Space<'a> {
    pub places: Vec<Place>,
    known: HashMap<(u32, Seg), u32>,
    pub objects: Vec<Placed<'a>>,
    wide: bool,
}

impl<'a> Space<'a> {
    pub fn new() -> Space<'a> {
        let root = Place { above: 0, seg: *b"____", object: NONE };
        Space { places: vec![root], ..Space::default() }
    }

    fn below(&mut self, above: u32, segs: &[Seg]) -> u32 {
        let mut place = above;
        for seg in segs {
            let next = self.places.len() as u32;
            let found = *self.known.entry((place, *seg)).or_insert(next);
            if found == next {
                self.places.push(Place { above: place, seg: *seg, object: NONE });
            }
            place = found;
        }
        place
    }

    /// The place of a path in a scope.
    fn named(&mut self, scope: u32, path: &Path) -> u32 {
        let mut start = if path.root { 0 } else { scope };
        for _ in 0..path.ups {
            start = self.places[start as usize].above;
        }
        self.below(start, &path.segs)
    }

    /// The place that a Scope opens: one of a single segment is sought in each scope around it.
    fn opened(&mut self, scope: u32, path: &Path) -> u32 {
        if let (false, 0, [seg]) = (path.root, path.ups, path.segs.as_slice()) {
            let mut around = scope;
            loop {
                if let Some(place) = self.known.get(&(around, *seg)) {
                    return *place;
                }
                if around == 0 {
                    break;
                }
                around = self.places[around as usize].above;
            }
        }
        self.named(scope, path)
    }

    fn put(&mut self, scope: u32, path: &Path, term: &'a Term) -> Option<u32> {
        let place = self.named(scope, path);
        let number = self.objects.len() as u32;
        let taken = std::mem::replace(&mut self.places[place as usize].object, number);
        self.objects.push(Placed { place, wide: self.wide, term });
        (taken == NONE).then_some(place)
    }

    fn fill(&mut self, scope: u32, terms: &'a [Term]) -> Option<()> {
        for term in terms {
            match term {
                Term::Name(path, _) | Term::Alias(_, path) => {
                    self.put(scope, path, term)?;
                }
                Term::Scope(path, inside) => {
                    let place = self.opened(scope, path);
                    self.fill(place, inside)?;
                }
                Term::Device(path, inside) | Term::Processor(path, _, inside) => {
                    let place = self.put(scope, path, term)?;
                    self.fill(place, inside)?;
                }
                Term::Unread(opcode, body) if opcode == &[0x14] => {
                    if let Some((path, _)) = name(body).filter(|(path, _)| !path.segs.is_empty()) {
                        self.put(scope, &path, term)?;
                    }
                }
                _ => {}
            }
        }
        Some(())
    }

    /// Places the objects of blocks, whose integers have the width of the first DSDT, or else their
    /// own. None where a place is given twice.
    pub fn of(blocks: &'a [(Vec<u8>, Vec<Term>)]) -> Option<Space<'a>> {
        let mut space = Space::new();
        let dsdt = blocks.iter().find(|(bytes, _)| bytes.starts_with(b"DSDT"));
        for (bytes, terms) in blocks {
            space.wide = dsdt.map_or(bytes[8], |(first, _)| first[8]) >= 2;
            space.fill(0, terms)?;
        }
        Some(space)
    }

    /// The object at a name right below a place.
    pub fn object_below(&self, place: u32, seg: &Seg) -> Option<&Placed<'a>> {
        let below = self.known.get(&(place, *seg))?;
        self.objects.get(self.places[*below as usize].object as usize)
    }

    /// The segments of a place, in order.
    pub fn segs_of(&self, place: u32, segs: &mut Vec<Seg>) {
        segs.clear();
        let mut at = place;
        while at != 0 {
            let place = &self.places[at as usize];
            segs.push(place.seg);
            at = place.above;
        }
        segs.reverse();
    }
}
