//! Reading a block whole into a tree, with every test of lengths, counts, names, depth and sum.

pub type Seg = [u8; 4];
type Read<'a, T> = Option<(T, &'a [u8])>;

pub struct Path {
    pub root: bool,
    pub ups: u32,
    pub segs: Vec<Seg>,
}

pub enum Data {
    Int(u64),
    Ones,
    Revision,
    Text(Vec<u8>),
    Buffer { size: u64, bytes: Vec<u8> },
    Package { count: u8, elements: Vec<Data> },
    VarPackage { count: u64, elements: Vec<Data> },
    Path(Path),
}

fn constant(bytes: &[u8]) -> Read<'_, u64> {
    let (lead, rest) = bytes.split_first()?;
    let size = match lead {
        0 | 1 => return Some((u64::from(*lead), rest)),
        0x0A => 1,
        0x0B => 2,
        0x0C => 4,
        0x0E => 8,
        _ => return None,
    };
    let (digits, rest) = rest.split_at_checked(size)?;
    let mut number = [0; 8];
    number[..size].copy_from_slice(digits);
    Some((u64::from_le_bytes(number), rest))
}

fn window(bytes: &[u8]) -> Option<(&[u8], &[u8])> {
    let lead = *bytes.first()?;
    let more = usize::from(lead >> 6);
    if more > 0 && lead & 0x30 != 0 {
        return None;
    }
    let mut whole = usize::from(if more == 0 { lead } else { lead & 15 });
    for (i, byte) in bytes.get(1..=more)?.iter().enumerate() {
        whole += usize::from(*byte) << (4 + 8 * i);
    }
    Some((bytes.get(more + 1..whole)?, &bytes[whole..]))
}

fn seg(bytes: &[u8]) -> Read<'_, Seg> {
    let (seg, rest) = bytes.split_first_chunk::<4>()?;
    let letter = |b: &u8| b.is_ascii_uppercase() || *b == b'_';
    if !letter(&seg[0]) || !seg[1..].iter().all(|b| letter(b) || b.is_ascii_digit()) {
        return None;
    }
    Some((*seg, rest))
}

pub fn name(mut bytes: &[u8]) -> Read<'_, Path> {
    let root = bytes.first() == Some(&b'\\');
    let mut ups = 0;
    if root {
        bytes = &bytes[1..];
    }
    while !root && bytes.first() == Some(&b'^') {
        ups += 1;
        bytes = &bytes[1..];
    }
    let (count, mut bytes) = match bytes {
        [0, rest @ ..] => (0, rest),
        [0x2E, rest @ ..] => (2, rest),
        [0x2F, count, rest @ ..] => (*count, rest),
        _ => (1, bytes),
    };
    let mut segs = Vec::with_capacity(usize::from(count));
    for _ in 0..count {
        let (one, rest) = seg(bytes)?;
        segs.push(one);
        bytes = rest;
    }
    Some((Path { root, ups, segs }, bytes))
}

fn elements(mut bytes: &[u8], count: u64, depth: u32) -> Option<Vec<Data>> {
    let mut elements = Vec::with_capacity(bytes.len().min(count.min(255) as usize));
    while !bytes.is_empty() {
        if elements.len() as u64 == count {
            return None;
        }
        let (element, rest) = object(bytes, depth)?;
        elements.push(element);
        bytes = rest;
    }
    Some(elements)
}

fn object(bytes: &[u8], depth: u32) -> Read<'_, Data> {
    let (lead, rest) = bytes.split_first()?;
    match lead {
        0xFF => Some((Data::Ones, rest)),
        0x5B => match rest {
            [0x30, rest @ ..] => Some((Data::Revision, rest)),
            _ => None,
        },
        0x0D => {
            let end = rest.iter().position(|b| *b == 0 || *b >= 0x80)?;
            let (text, rest) = rest.split_at(end);
            (rest[0] == 0).then(|| (Data::Text(text.to_vec()), &rest[1..]))
        }
        0x11 => {
            let (inside, after) = window(rest)?;
            let (size, content) = constant(inside)?;
            let bytes = content.to_vec();
            Some((Data::Buffer { size, bytes }, after))
        }
        0x12 => {
            let (inside, after) = window(rest)?;
            let (count, inside) = inside.split_first()?;
            let elements = elements(inside, u64::from(*count), depth.checked_sub(1)?)?;
            Some((Data::Package { count: *count, elements }, after))
        }
        0x13 => {
            let (inside, after) = window(rest)?;
            let (count, inside) = constant(inside)?;
            let elements = elements(inside, count, depth.checked_sub(1)?)?;
            Some((Data::VarPackage { count, elements }, after))
        }
        b'\\' | b'^' | 0x2E | 0x2F | b'A'..=b'Z' | b'_' => {
            let (path, rest) = name(bytes)?;
            Some((Data::Path(path), rest))
        }
        _ => {
            let (number, rest) = constant(bytes)?;
            Some((Data::Int(number), rest))
        }
    }
}

pub enum Term {
    Name(Path, Data),
    Scope(Path, Vec<Term>),
    Device(Path, Vec<Term>),
    /// With the bytes of its identifier, its address and its length.
    Processor(Path, [u8; 6], Vec<Term>),
    Alias(Path, Path),
    /// An opcode and a body that isn't read.
    Unread(Vec<u8>, Vec<u8>),
    External(Path, [u8; 2]),
    Mutex(Path, u8),
    Event(Path),
    Region(Path, u8, u64, u64),
}

/// A name that has a segment.
fn own_name(bytes: &[u8]) -> Read<'_, Path> {
    name(bytes).filter(|(path, _)| !path.segs.is_empty())
}

fn unread(opcode: &[u8], bytes: &[u8]) -> Option<Term> {
    Some(Term::Unread(opcode.to_vec(), bytes.to_vec()))
}

fn region(bytes: &[u8]) -> Read<'_, Term> {
    let (path, rest) = name(bytes)?;
    let (space, rest) = rest.split_first()?;
    let (offset, rest) = constant(rest)?;
    let (size, rest) = constant(rest)?;
    Some((Term::Region(path, *space, offset, size), rest))
}

fn processor(bytes: &[u8], depth: u32) -> Option<Term> {
    let (path, inside) = own_name(bytes)?;
    let (front, inside) = inside.split_first_chunk::<6>()?;
    Some(Term::Processor(path, *front, terms(inside, depth.checked_sub(1)?)?))
}

/// A term behind the byte 5B.
fn extended(bytes: &[u8], depth: u32) -> Read<'_, Term> {
    let (opcode, rest) = bytes.split_first()?;
    Some(match opcode {
        0x01 => {
            let (path, rest) = name(rest)?;
            let (flags, rest) = rest.split_first()?;
            (Term::Mutex(path, *flags), rest)
        }
        0x02 => {
            let (path, rest) = name(rest)?;
            (Term::Event(path), rest)
        }
        0x80 => region(rest)?,
        0x82 => {
            let (inside, after) = window(rest)?;
            let (path, inside) = own_name(inside)?;
            (Term::Device(path, terms(inside, depth.checked_sub(1)?)?), after)
        }
        0x83 => {
            let (inside, after) = window(rest)?;
            (processor(inside, depth)?, after)
        }
        0x81 | 0x84..=0x87 => {
            let (inside, after) = window(rest)?;
            (unread(&[0x5B, *opcode], inside)?, after)
        }
        _ => return None,
    })
}

fn term(bytes: &[u8], depth: u32) -> Read<'_, Term> {
    let (opcode, rest) = bytes.split_first()?;
    Some(match opcode {
        0x06 => {
            let (source, rest) = name(rest)?;
            let (second, rest) = own_name(rest)?;
            (Term::Alias(source, second), rest)
        }
        0x08 => {
            let (path, rest) = own_name(rest)?;
            let (value, rest) = object(rest, 32)?;
            (Term::Name(path, value), rest)
        }
        0x10 => {
            let (inside, after) = window(rest)?;
            let (path, inside) = name(inside)?;
            (Term::Scope(path, terms(inside, depth.checked_sub(1)?)?), after)
        }
        0x14 | 0xA0..=0xA2 => {
            let (inside, after) = window(rest)?;
            (unread(&[*opcode], inside)?, after)
        }
        0x15 => {
            let (path, rest) = name(rest)?;
            let (ends, rest) = rest.split_first_chunk::<2>()?;
            (Term::External(path, *ends), rest)
        }
        0x5B => extended(rest, depth)?,
        _ => return None,
    })
}

fn terms(mut bytes: &[u8], depth: u32) -> Option<Vec<Term>> {
    let mut terms = Vec::new();
    while !bytes.is_empty() {
        let (term, rest) = term(bytes, depth)?;
        terms.push(term);
        bytes = rest;
    }
    Some(terms)
}

pub fn parse(block: &[u8]) -> Option<Vec<Term>> {
    let length = u32::from_le_bytes(block.get(4..8)?.try_into().ok()?);
    let sum = block.iter().fold(0u8, |sum, b| sum.wrapping_add(*b));
    let signed = block.starts_with(b"DSDT") || block.starts_with(b"SSDT");
    if !signed || length as usize != block.len() || block.len() > 1 << 22 || sum != 0 {
        return None;
    }
    terms(block.get(36..)?, 32)
}
