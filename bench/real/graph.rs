//! What refers to what in the plain program's heap: classes and objects taken apart, layouts, edges, distances. It uses std alone.

use std::collections::BTreeMap;

use crate::Heap;
use crate::format::{number, type_width};

/// An entry of a class dump: the index of a constant or the name of a field, a type, and the bits of a value where there is one.
pub struct Entry {
    pub key: u64,
    pub code: u8,
    pub bits: u64,
}

/// A class dump.
pub struct Class {
    pub parent: u64,
    pub loader: u64,
    pub signers: u64,
    pub domain: u64,
    pub size: u64,
    pub constants: Vec<Entry>,
    pub statics: Vec<Entry>,
    pub own: Vec<Entry>,
}

/// An object dump.
pub enum Object<'a> {
    Instance { class: u64, bytes: &'a [u8] },
    Objects { class: u64, elements: &'a [u8] },
    Values { code: u8, bytes: &'a [u8] },
}

/// A field of the instances of a class.
pub struct Slot {
    pub class: u64,
    pub name: u64,
    pub code: u8,
}

/// How the instances of a class are laid out, or why not.
pub enum Layout {
    Known(Vec<Slot>),
    Missing(u64),
    Cyclic,
}

/// A reference: from, via (1 to 9), position, to.
pub type Edge = (u64, u8, u64, u64);

/// Takes numbers from the front of bytes.
struct Cursor<'a>(&'a [u8]);

impl Cursor<'_> {
    fn next(&mut self, width: usize) -> u64 {
        let (front, rest) = self.0.split_at(width);
        self.0 = rest;
        number(front)
    }

    fn entries(&mut self, key: usize, valued: bool, width: usize) -> Vec<Entry> {
        let count = self.next(2);
        let mut entries = Vec::new();
        for _ in 0..count {
            let key = self.next(key);
            let code = self.next(1) as u8;
            let bits = if valued { self.next(type_width(code, width)) } else { 0 };
            entries.push(Entry { key, code, bits });
        }
        entries
    }
}

/// The class dump that the bytes spell.
pub fn class_of(bytes: &[u8], width: usize) -> Class {
    let mut cursor = Cursor(&bytes[5 + width..]);
    let [parent, loader, signers, domain] = std::array::from_fn(|_| cursor.next(width));
    cursor.next(width);
    cursor.next(width);
    let size = cursor.next(4);
    let constants = cursor.entries(2, true, width);
    let statics = cursor.entries(width, true, width);
    let own = cursor.entries(width, false, width);
    Class { parent, loader, signers, domain, size, constants, statics, own }
}

/// The object dump that the bytes spell.
pub fn object_of(bytes: &[u8], width: usize) -> Object<'_> {
    let after = 5 + width;
    match bytes[0] {
        0x21 => Object::Instance { class: number(&bytes[after..after + width]), bytes: &bytes[after + width + 4..] },
        0x22 => {
            Object::Objects { class: number(&bytes[after + 4..after + 4 + width]), elements: &bytes[after + 4 + width..] }
        }
        _ => Object::Values { code: bytes[after + 4], bytes: &bytes[after + 5..] },
    }
}

pub fn refers(code: u8) -> bool {
    code == 1 || code == 2
}

/// The slots of the own fields of a class, then those of its superclass, and so on.
pub fn layout(heap: &Heap, class: u64) -> Layout {
    let mut slots = Vec::new();
    let mut at = class;
    let mut passed = std::collections::BTreeSet::new();
    while at != 0 {
        let Some(bytes) = heap.classes.get(&at) else {
            return Layout::Missing(at);
        };
        if !passed.insert(at) {
            return Layout::Cyclic;
        }
        let dump = class_of(bytes, heap.width);
        slots.extend(dump.own.iter().map(|own| Slot { class: at, name: own.key, code: own.code }));
        at = dump.parent;
    }
    Layout::Known(slots)
}

/// Of a class: how many bytes its instances have, and where those of their fields lie that refer, each with its place.
struct Plan {
    len: usize,
    fields: Vec<(usize, u64)>,
}

/// The plans of classes that were asked for; None where the layout is not known.
#[derive(Default)]
pub struct Plans(BTreeMap<u64, Option<Plan>>);

impl Plans {
    fn plan(&mut self, heap: &Heap, class: u64) -> Option<&Plan> {
        let make = || {
            let Layout::Known(slots) = layout(heap, class) else {
                return None;
            };
            let mut fields = Vec::new();
            let mut len = 0;
            for (place, slot) in (0..).zip(&slots) {
                if refers(slot.code) {
                    fields.push((len, place));
                }
                len += type_width(slot.code, heap.width);
            }
            Some(Plan { len, fields })
        };
        self.0.entry(class).or_insert_with(make).as_ref()
    }
}

/// Gives the edges of a class dump.
fn class_edges(heap: &Heap, id: u64, bytes: &[u8], put: &mut impl FnMut(Edge)) {
    let dump = class_of(bytes, heap.width);
    for (via, to) in (2..).zip([dump.parent, dump.loader, dump.signers, dump.domain]) {
        put((id, via, 0, to));
    }
    for (via, entries) in [(6, &dump.constants), (7, &dump.statics)] {
        for (place, entry) in (0..).zip(entries) {
            if refers(entry.code) {
                put((id, via, place, entry.bits));
            }
        }
    }
}

/// Gives the edges of an object dump.
fn object_edges(heap: &Heap, plans: &mut Plans, id: u64, bytes: &[u8], put: &mut impl FnMut(Edge)) {
    let width = heap.width;
    match object_of(bytes, width) {
        Object::Instance { class, bytes } => {
            put((id, 1, 0, class));
            if let Some(plan) = plans.plan(heap, class).filter(|plan| plan.len == bytes.len()) {
                for (offset, place) in &plan.fields {
                    put((id, 8, *place, number(&bytes[*offset..offset + width])));
                }
            }
        }
        Object::Objects { class, elements } => {
            put((id, 1, 0, class));
            for (place, element) in (0..).zip(elements.chunks(width)) {
                put((id, 9, place, number(element)));
            }
        }
        Object::Values { .. } => {}
    }
}

/// The edges to an identifier, in order.
pub fn referrers(heap: &Heap, id: u64) -> Vec<Edge> {
    let mut edges = Vec::new();
    let mut plans = Plans::default();
    let mut put = |edge: Edge| {
        if edge.3 == id && id != 0 {
            edges.push(edge);
        }
    };
    for (from, bytes) in &heap.classes {
        class_edges(heap, *from, bytes, &mut put);
    }
    for (from, bytes) in &heap.objects {
        object_edges(heap, &mut plans, *from, bytes, &mut put);
    }
    edges.sort_unstable();
    edges
}

/// The path to an identifier from a root: in each step back the least node that is one nearer.
pub fn path(heap: &Heap, id: u64) -> Option<Vec<u64>> {
    let is_node = |id: u64| id != 0 && (heap.classes.contains_key(&id) || heap.objects.contains_key(&id));
    let mut plans = Plans::default();
    let mut found: BTreeMap<u64, u64> = BTreeMap::new();
    let roots = heap.roots.iter().map(|bytes| number(&bytes[1..1 + heap.width]));
    let mut level: Vec<u64> = roots.filter(|root| is_node(*root)).collect();
    level.sort_unstable();
    level.dedup();
    found.extend(level.iter().map(|root| (*root, 0)));
    while !level.is_empty() {
        let mut next = Vec::new();
        for from in &level {
            let mut put = |edge: Edge| {
                if is_node(edge.3) {
                    found.entry(edge.3).or_insert_with(|| {
                        next.push(edge.3);
                        *from
                    });
                }
            };
            if let Some(bytes) = heap.classes.get(from) {
                class_edges(heap, *from, bytes, &mut put);
            }
            if let Some(bytes) = heap.objects.get(from) {
                object_edges(heap, &mut plans, *from, bytes, &mut put);
            }
        }
        next.sort_unstable();
        level = next;
    }
    let mut path = vec![id];
    let mut at = *found.get(&id)?;
    while at != 0 {
        path.push(at);
        at = found[&at];
    }
    path.reverse();
    Some(path)
}
