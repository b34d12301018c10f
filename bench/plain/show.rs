//! What `show` prints.

use crate::read::{Data, Path, Seg};
use crate::space::{Object, Space};
use std::io::{self, Write};

pub fn show_segs(segs: &[Seg], out: &mut impl Write) -> io::Result<()> {
    for (i, seg) in segs.iter().enumerate() {
        if i > 0 {
            out.write_all(b".")?;
        }
        out.write_all(seg)?;
    }
    Ok(())
}

/// The bytes as two digits each with a space between, spelled in pieces.
fn show_bytes(bytes: &[u8], out: &mut impl Write) -> io::Result<()> {
    const DIGITS: &[u8; 16] = b"0123456789ABCDEF";
    let mut text = [b' '; 3 * 512];
    let mut skip = 1;
    for piece in bytes.chunks(512) {
        for (spelled, byte) in text.chunks_exact_mut(3).zip(piece) {
            spelled[1] = DIGITS[usize::from(byte >> 4)];
            spelled[2] = DIGITS[usize::from(byte & 15)];
        }
        out.write_all(&text[skip..3 * piece.len()])?;
        skip = 0;
    }
    Ok(())
}

fn show_text(text: &[u8], out: &mut impl Write) -> io::Result<()> {
    for byte in text {
        match byte {
            b'"' | b'\\' => out.write_all(&[b'\\', *byte])?,
            0..=0x1F | 0x7F => write!(out, "\\x{byte:02X}")?,
            _ => out.write_all(&[*byte])?,
        }
    }
    Ok(())
}

fn show_elements(elements: &[Data], out: &mut impl Write) -> io::Result<()> {
    for (i, element) in elements.iter().enumerate() {
        if i > 0 {
            out.write_all(b", ")?;
        }
        show_value(element, out)?;
    }
    Ok(())
}

fn show_value(value: &Data, out: &mut impl Write) -> io::Result<()> {
    match value {
        Data::Int(number) => write!(out, "{number}"),
        Data::Ones => out.write_all(b"Ones"),
        Data::Revision => out.write_all(b"Revision"),
        Data::Text(text) => {
            out.write_all(b"\"")?;
            show_text(text, out)?;
            out.write_all(b"\"")
        }
        Data::Buffer { size, bytes } => {
            write!(out, "Buffer({size}) {{")?;
            show_bytes(bytes, out)?;
            out.write_all(b"}")
        }
        Data::Package { count, elements } => {
            write!(out, "Package({count}) {{")?;
            show_elements(elements, out)?;
            out.write_all(b"}")
        }
        Data::VarPackage { count, elements } => {
            write!(out, "VarPackage({count}) {{")?;
            show_elements(elements, out)?;
            out.write_all(b"}")
        }
        Data::Path(path) => show_path(path, out),
    }
}

pub fn show_path(path: &Path, out: &mut impl Write) -> io::Result<()> {
    if path.root {
        out.write_all(b"\\")?;
    }
    for _ in 0..path.ups {
        out.write_all(b"^")?;
    }
    show_segs(&path.segs, out)
}

/// A line for each object.
pub fn show(space: &Space<'_>, out: &mut impl Write) -> io::Result<()> {
    let mut segs = Vec::new();
    for placed in &space.objects {
        space.segs_of(placed.place, &mut segs);
        out.write_all(b"\\")?;
        show_segs(&segs, out)?;
        match placed.object() {
            Object::Device => out.write_all(b" device")?,
            Object::Processor => out.write_all(b" processor")?,
            Object::Method => out.write_all(b" method")?,
            Object::Alias(target) => {
                out.write_all(b" alias ")?;
                show_path(target, out)?;
            }
            Object::Data(value) => {
                out.write_all(b" = ")?;
                show_value(value, out)?;
            }
        }
        out.write_all(b"\n")?;
    }
    out.flush()
}
