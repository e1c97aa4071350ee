//! The reports of the plain program on its heap, beside `check`. It uses std alone.

use std::collections::BTreeMap;
use std::io::{self, Write};

use crate::Heap;
use crate::format::{number, type_width};
use crate::graph::{Entry, Layout, Object, class_of, layout, object_of, path, referrers};
use crate::text::printed;

const VIAS: [&str; 9] = ["class", "super", "loader", "signers", "domain", "constant", "static", "field", "element"];

fn word(code: u8) -> &'static str {
    match code {
        1 => "array",
        2 => "object",
        4 => "boolean",
        5 => "char",
        6 => "float",
        7 => "double",
        8 => "byte",
        9 => "short",
        10 => "int",
        _ => "long",
    }
}

/// A name in print.
fn name(heap: &Heap, id: u64) -> String {
    match heap.names.get(&id) {
        Some(body) => printed(&body[heap.width..]),
        None => format!("\\?{id:x}"),
    }
}

/// Of each class its name in the load of least serial.
fn class_names(heap: &Heap) -> BTreeMap<u64, u64> {
    let mut names = BTreeMap::new();
    for body in heap.loads.values() {
        let class = number(&body[4..4 + heap.width]);
        names.entry(class).or_insert(number(&body[8 + heap.width..]));
    }
    names
}

fn label(heap: &Heap, names: &BTreeMap<u64, u64>, class: u64) -> String {
    names.get(&class).map_or_else(|| "\\?".into(), |id| name(heap, *id))
}

/// The rows of the histogram, those with the most bytes first.
pub fn histo(heap: &Heap, out: &mut impl Write) -> io::Result<()> {
    // Classes come before types: (0, class) and (1, code).
    let mut rows: BTreeMap<(u8, u64), (u64, u64)> = BTreeMap::new();
    for bytes in heap.objects.values() {
        let (kind, len) = match object_of(bytes, heap.width) {
            Object::Instance { class, bytes } => ((0, class), bytes.len()),
            Object::Objects { class, elements } => ((0, class), elements.len()),
            Object::Values { code, bytes } => ((1, u64::from(code)), bytes.len()),
        };
        let row = rows.entry(kind).or_default();
        row.0 += 1;
        row.1 += len as u64;
    }
    let mut rows: Vec<_> = rows.into_iter().collect();
    rows.sort_by_key(|(kind, (count, bytes))| (u64::MAX - bytes, u64::MAX - count, *kind));
    let names = class_names(heap);
    for ((kind, id), (count, bytes)) in rows {
        match kind {
            0 => writeln!(out, "{bytes} {count} {id:x} {}", label(heap, &names, id))?,
            _ => writeln!(out, "{bytes} {count} - {}[]", word(id as u8))?,
        }
    }
    Ok(())
}

fn bits(heap: &Heap, entry: &Entry) -> String {
    format!("{:0width$x}", entry.bits, width = 2 * type_width(entry.code, heap.width))
}

fn class_lines(heap: &Heap, id: u64, bytes: &[u8], out: &mut impl Write) -> io::Result<()> {
    let dump = class_of(bytes, heap.width);
    let label = label(heap, &class_names(heap), id);
    writeln!(
        out,
        "class {id:x} super {:x} loader {:x} signers {:x} domain {:x} size {} {label}",
        dump.parent, dump.loader, dump.signers, dump.domain, dump.size
    )?;
    for (place, entry) in dump.constants.iter().enumerate() {
        writeln!(out, "constant {place} {} {} {}", entry.key, word(entry.code), bits(heap, entry))?;
    }
    for (place, entry) in dump.statics.iter().enumerate() {
        writeln!(out, "static {place} {} {} {}", word(entry.code), bits(heap, entry), name(heap, entry.key))?;
    }
    for (place, entry) in dump.own.iter().enumerate() {
        writeln!(out, "own {place} {} {}", word(entry.code), name(heap, entry.key))?;
    }
    Ok(())
}

fn field_lines(heap: &Heap, class: u64, bytes: &[u8], out: &mut impl Write) -> io::Result<()> {
    let slots = match layout(heap, class) {
        Layout::Missing(class) => return writeln!(out, "no layout: class {class:x} is missing"),
        Layout::Cyclic => return writeln!(out, "no layout: the superclasses run in a circle"),
        Layout::Known(slots) => slots,
    };
    let len: usize = slots.iter().map(|slot| type_width(slot.code, heap.width)).sum();
    if len != bytes.len() {
        return writeln!(out, "no fields: the layout has {len} bytes");
    }
    let mut rest = bytes;
    for (place, slot) in slots.iter().enumerate() {
        let width = type_width(slot.code, heap.width);
        let (front, behind) = rest.split_at(width);
        rest = behind;
        let bits = number(front);
        writeln!(
            out,
            "field {place} {:x} {} {bits:0digits$x} {}",
            slot.class,
            word(slot.code),
            name(heap, slot.name),
            digits = 2 * width
        )?;
    }
    Ok(())
}

fn object_lines(heap: &Heap, id: u64, bytes: &[u8], out: &mut impl Write) -> io::Result<()> {
    let names = class_names(heap);
    match object_of(bytes, heap.width) {
        Object::Instance { class, bytes } => {
            writeln!(out, "instance {id:x} class {class:x} bytes {} {}", bytes.len(), label(heap, &names, class))?;
            field_lines(heap, class, bytes, out)
        }
        Object::Objects { class, elements } => {
            let count = elements.len() / heap.width;
            writeln!(out, "objects {id:x} class {class:x} elements {count} {}", label(heap, &names, class))?;
            for (place, element) in elements.chunks(heap.width).enumerate() {
                writeln!(out, "element {place} {:x}", number(element))?;
            }
            Ok(())
        }
        Object::Values { code, bytes } => {
            writeln!(out, "values {id:x} {} elements {}", word(code), bytes.len() / type_width(code, heap.width))?;
            if bytes.is_empty() {
                return Ok(());
            }
            write!(out, "bytes ")?;
            for byte in bytes {
                write!(out, "{byte:02x}")?;
            }
            writeln!(out)
        }
    }
}

/// The class and the object of an identifier.
pub fn object(heap: &Heap, id: u64, out: &mut impl Write) -> io::Result<()> {
    let (class, object) = (heap.classes.get(&id), heap.objects.get(&id));
    if let Some(bytes) = class {
        class_lines(heap, id, bytes, out)?;
    }
    if let Some(bytes) = object {
        object_lines(heap, id, bytes, out)?;
    }
    match (class, object) {
        (None, None) => writeln!(out, "nothing at {id:x}"),
        _ => Ok(()),
    }
}

/// What refers to an identifier.
pub fn refs(heap: &Heap, id: u64, out: &mut impl Write) -> io::Result<()> {
    for (from, via, position, _) in referrers(heap, id) {
        writeln!(out, "{from:x} {} {position}", VIAS[usize::from(via) - 1])?;
    }
    Ok(())
}

/// How an identifier is reached.
pub fn reached(heap: &Heap, id: u64, out: &mut impl Write) -> io::Result<()> {
    let Some(nodes) = path(heap, id) else {
        return writeln!(out, "not reached");
    };
    writeln!(out, "distance {}", nodes.len() - 1)?;
    for node in nodes {
        writeln!(out, "{node:x}")?;
    }
    Ok(())
}
