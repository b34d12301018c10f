//! A block in its shortest spelling.

use crate::read::{Data, Path, Term};

fn constant_len(number: u64) -> usize {
    match number {
        0..=1 => 1,
        2..=0xFF => 2,
        0x100..=0xFFFF => 3,
        0x1_0000..=0xFFFF_FFFF => 5,
        _ => 9,
    }
}

fn sized(content: usize) -> usize {
    let length = match content {
        0..=62 => 1,
        63..=4093 => 2,
        4094..=1_048_572 => 3,
        _ => 4,
    };
    1 + length + content
}

fn name_len(path: &Path) -> usize {
    let lead = match path.segs.len() {
        1 => 0,
        0 | 2 => 1,
        _ => 2,
    };
    usize::from(path.root) + path.ups as usize + lead + 4 * path.segs.len()
}

fn elements_len(elements: &[Data]) -> usize {
    elements.iter().map(object_len).sum()
}

fn object_len(value: &Data) -> usize {
    match value {
        Data::Int(number) => constant_len(*number),
        Data::Ones => 1,
        Data::Revision => 2,
        Data::Text(text) => text.len() + 2,
        Data::Buffer { size, bytes } => sized(constant_len(*size) + bytes.len()),
        Data::Package { elements, .. } => sized(1 + elements_len(elements)),
        Data::VarPackage { count, elements } => sized(constant_len(*count) + elements_len(elements)),
        Data::Path(path) => name_len(path),
    }
}

fn put_constant(number: u64, out: &mut Vec<u8>) {
    let digits = number.to_le_bytes();
    let (lead, size) = match constant_len(number) {
        1 => return out.push(number as u8),
        2 => (0x0A, 1),
        3 => (0x0B, 2),
        5 => (0x0C, 4),
        _ => (0x0E, 8),
    };
    out.push(lead);
    out.extend_from_slice(&digits[..size]);
}

fn put_head(lead: u8, content: usize, out: &mut Vec<u8>) {
    out.push(lead);
    let more = sized(content) - content - 2;
    let whole = content + more + 1;
    if more == 0 {
        return out.push(whole as u8);
    }
    out.push((more << 6 | whole & 15) as u8);
    out.extend_from_slice(&(whole >> 4).to_le_bytes()[..more]);
}

fn put_name(path: &Path, out: &mut Vec<u8>) {
    if path.root {
        out.push(b'\\');
    }
    out.extend(std::iter::repeat_n(b'^', path.ups as usize));
    match path.segs.len() {
        0 => out.push(0),
        1 => {}
        2 => out.push(0x2E),
        count => out.extend_from_slice(&[0x2F, count as u8]),
    }
    for seg in &path.segs {
        out.extend_from_slice(seg);
    }
}

fn put(value: &Data, out: &mut Vec<u8>) {
    match value {
        Data::Int(number) => put_constant(*number, out),
        Data::Ones => out.push(0xFF),
        Data::Revision => out.extend_from_slice(&[0x5B, 0x30]),
        Data::Text(text) => {
            out.push(0x0D);
            out.extend_from_slice(text);
            out.push(0);
        }
        Data::Buffer { size, bytes } => {
            put_head(0x11, constant_len(*size) + bytes.len(), out);
            put_constant(*size, out);
            out.extend_from_slice(bytes);
        }
        Data::Package { count, elements } => {
            put_head(0x12, 1 + elements_len(elements), out);
            out.push(*count);
            elements.iter().for_each(|element| put(element, out));
        }
        Data::VarPackage { count, elements } => {
            put_head(0x13, constant_len(*count) + elements_len(elements), out);
            put_constant(*count, out);
            elements.iter().for_each(|element| put(element, out));
        }
        Data::Path(path) => put_name(path, out),
    }
}

fn terms_len(terms: &[Term]) -> usize {
    terms.iter().map(term_len).sum()
}

fn term_len(term: &Term) -> usize {
    match term {
        Term::Name(path, value) => 1 + name_len(path) + object_len(value),
        Term::Scope(path, inside) => sized(name_len(path) + terms_len(inside)),
        Term::Device(path, inside) => 1 + sized(name_len(path) + terms_len(inside)),
        Term::Processor(path, _, inside) => 1 + sized(name_len(path) + 6 + terms_len(inside)),
        Term::Alias(source, second) => 1 + name_len(source) + name_len(second),
        Term::Unread(opcode, body) => opcode.len() - 1 + sized(body.len()),
        Term::External(path, _) => 3 + name_len(path),
        Term::Mutex(path, _) => 3 + name_len(path),
        Term::Event(path) => 2 + name_len(path),
        Term::Region(path, _, offset, size) => {
            3 + name_len(path) + constant_len(*offset) + constant_len(*size)
        }
    }
}

/// A term that holds terms, or whose front is the same.
fn put_holder(lead: u8, path: &Path, front: &[u8], inside: &[Term], out: &mut Vec<u8>) {
    put_head(lead, name_len(path) + front.len() + terms_len(inside), out);
    put_name(path, out);
    out.extend_from_slice(front);
    inside.iter().for_each(|term| put_term(term, out));
}

fn put_named(opcode: &[u8], path: &Path, ends: &[u8], out: &mut Vec<u8>) {
    out.extend_from_slice(opcode);
    put_name(path, out);
    out.extend_from_slice(ends);
}

fn put_term(term: &Term, out: &mut Vec<u8>) {
    match term {
        Term::Name(path, value) => {
            put_named(&[8], path, &[], out);
            put(value, out);
        }
        Term::Scope(path, inside) => put_holder(0x10, path, &[], inside, out),
        Term::Device(path, inside) => {
            out.push(0x5B);
            put_holder(0x82, path, &[], inside, out);
        }
        Term::Processor(path, front, inside) => {
            out.push(0x5B);
            put_holder(0x83, path, front, inside, out);
        }
        Term::Alias(source, second) => {
            put_named(&[6], source, &[], out);
            put_name(second, out);
        }
        Term::Unread(opcode, body) => {
            out.extend_from_slice(&opcode[..opcode.len() - 1]);
            put_head(opcode[opcode.len() - 1], body.len(), out);
            out.extend_from_slice(body);
        }
        Term::External(path, ends) => put_named(&[0x15], path, ends, out),
        Term::Mutex(path, flags) => put_named(&[0x5B, 1], path, &[*flags], out),
        Term::Event(path) => put_named(&[0x5B, 2], path, &[], out),
        Term::Region(path, space, offset, size) => {
            put_named(&[0x5B, 0x80], path, &[*space], out);
            put_constant(*offset, out);
            put_constant(*size, out);
        }
    }
}

pub fn written(block: &[u8], terms: &[Term]) -> Vec<u8> {
    let whole = 36 + terms_len(terms);
    let mut out = Vec::with_capacity(whole);
    out.extend_from_slice(&block[..36]);
    out[4..8].copy_from_slice(&(whole as u32).to_le_bytes());
    out[9] = 0;
    terms.iter().for_each(|term| put_term(term, &mut out));
    out[9] = out.iter().fold(0u8, |sum, b| sum.wrapping_sub(*b));
    out
}
