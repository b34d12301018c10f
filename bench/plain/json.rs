//! What `show --json` prints, with no value made of it: one compact line, the keys in the order of their bytes.

use crate::read::{Data, Path, Seg};
use crate::show::{show_path, show_segs};
use crate::space::{Object, Space};
use std::io::{self, Write};

/// The numbers of bytes with commas between, spelled in pieces.
fn put_bytes(bytes: &[u8], out: &mut impl Write) -> io::Result<()> {
    let mut text = Vec::with_capacity(4 * 512);
    for piece in bytes.chunks(512) {
        for byte in piece {
            if *byte >= 100 {
                text.push(b'0' + byte / 100);
            }
            if *byte >= 10 {
                text.push(b'0' + byte / 10 % 10);
            }
            text.extend_from_slice(&[b'0' + byte % 10, b',']);
        }
        out.write_all(&text)?;
        text.clear();
    }
    Ok(())
}

fn put_buffer(size: u64, bytes: &[u8], out: &mut impl Write) -> io::Result<()> {
    out.write_all(b"{\"bytes\":[")?;
    if let Some((last, front)) = bytes.split_last() {
        put_bytes(front, out)?;
        write!(out, "{last}")?;
    }
    write!(out, "],\"size\":{size}}}")
}

fn put_text(text: &[u8], out: &mut impl Write) -> io::Result<()> {
    out.write_all(b"\"")?;
    for byte in text {
        match byte {
            b'"' | b'\\' => out.write_all(&[b'\\', *byte])?,
            8 => out.write_all(b"\\b")?,
            9 => out.write_all(b"\\t")?,
            10 => out.write_all(b"\\n")?,
            12 => out.write_all(b"\\f")?,
            13 => out.write_all(b"\\r")?,
            0..=0x1F => write!(out, "\\u{byte:04x}")?,
            _ => out.write_all(&[*byte])?,
        }
    }
    out.write_all(b"\"")
}

/// A path's text; its only character that JSON escapes is the one for the root.
fn put_path(path: &Path, out: &mut impl Write) -> io::Result<()> {
    out.write_all(if path.root { b"\"\\" } else { b"\"" })?;
    show_path(path, out)?;
    out.write_all(b"\"")
}

fn put_package(count: u64, elements: &[Data], out: &mut impl Write) -> io::Result<()> {
    write!(out, "{{\"count\":{count},\"elements\":[")?;
    for (i, element) in elements.iter().enumerate() {
        out.write_all(if i > 0 { b",{\"kind\":\"" } else { b"{\"kind\":\"" })?;
        out.write_all(kind_of(element))?;
        out.write_all(b"\",\"value\":")?;
        put_value(element, out)?;
        out.write_all(b"}")?;
    }
    out.write_all(b"]}")
}

fn kind_of(value: &Data) -> &'static [u8] {
    match value {
        Data::Int(_) => b"integer",
        Data::Ones => b"ones",
        Data::Revision => b"revision",
        Data::Text(_) => b"string",
        Data::Buffer { .. } => b"buffer",
        Data::Package { .. } => b"package",
        Data::VarPackage { .. } => b"varpackage",
        Data::Path(_) => b"path",
    }
}

fn put_value(value: &Data, out: &mut impl Write) -> io::Result<()> {
    match value {
        Data::Int(number) => write!(out, "{number}"),
        Data::Ones | Data::Revision => out.write_all(b"null"),
        Data::Text(text) => put_text(text, out),
        Data::Buffer { size, bytes } => put_buffer(*size, bytes, out),
        Data::Package { count, elements } => put_package(u64::from(*count), elements, out),
        Data::VarPackage { count, elements } => put_package(*count, elements, out),
        Data::Path(path) => put_path(path, out),
    }
}

fn put_object(segs: &[Seg], object: &Object, out: &mut impl Write) -> io::Result<()> {
    out.write_all(b"{\"kind\":\"")?;
    out.write_all(match object {
        Object::Data(value) => kind_of(value),
        Object::Device => b"device",
        Object::Processor => b"processor",
        Object::Method => b"method",
        Object::Alias(_) => b"alias",
    })?;
    out.write_all(b"\",\"path\":\"\\\\")?;
    show_segs(segs, out)?;
    out.write_all(b"\"")?;
    match object {
        Object::Data(value) => {
            out.write_all(b",\"value\":")?;
            put_value(value, out)?;
        }
        Object::Alias(target) => {
            out.write_all(b",\"value\":")?;
            put_path(target, out)?;
        }
        Object::Device | Object::Processor | Object::Method => {}
    }
    out.write_all(b"}")
}

/// All objects in one list.
pub fn show_json(space: &Space<'_>, out: &mut impl Write) -> io::Result<()> {
    let mut segs = Vec::new();
    out.write_all(b"[")?;
    for (i, placed) in space.objects.iter().enumerate() {
        if i > 0 {
            out.write_all(b",")?;
        }
        space.segs_of(placed.place, &mut segs);
        put_object(&segs, &placed.object(), out)?;
    }
    out.write_all(b"]\n")?;
    out.flush()
}
