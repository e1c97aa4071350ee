//! A plain program with the same tables, to measure hprof beside: it reads parts in pieces, goes over them in place, unites
//! their facts in BTreeMaps of boxed spellings, and writes a dump or a report. It uses std alone.
//!
//!     plain join OUT PART..
//!     plain join101 OUT PART..
//!     plain salvage OUT PART..       (of parts that are cut short; of no other fault)
//!     plain check PART..
//!     plain histo PART..
//!     plain object ID PART..         (and refs, path)
//!     plain sample SEED COUNT PART.. (identifiers at random, so many of classes, of instances, and of either kind of array)

use std::collections::btree_map::Entry;
use std::collections::{BTreeMap, BTreeSet};
use std::env;
use std::fs::File;
use std::io::{self, BufWriter, Read, Write};

mod dice;
mod format;
mod graph;
mod reports;
mod text;
use dice::Dice;
use format::{HEAD_LEN, HEADER_LEN, number, refuse, sub_len};

const PIECE_LEN: usize = 65_536;
const SEGMENT_LEN: usize = 1_048_576;

/// Rows by key: for a record its body, for a sub-record all of it.
type Rows = BTreeMap<u64, Box<[u8]>>;

fn state(rows: &mut Rows, key: u64, row: &[u8]) {
    match rows.entry(key) {
        Entry::Vacant(entry) => {
            entry.insert(row.into());
        }
        Entry::Occupied(entry) if **entry.get() == *row => {}
        Entry::Occupied(_) => refuse("conflict"),
    }
}

#[derive(Default)]
struct Heap {
    width: usize,
    millis: u64,
    names: Rows,
    loads: Rows,
    unloads: Rows,
    frames: Rows,
    traces: Rows,
    starts: Rows,
    ends: Rows,
    roots: BTreeSet<Box<[u8]>>,
    classes: Rows,
    objects: Rows,
}

impl Heap {
    fn begin(&mut self, header: &[u8]) {
        let width = number(&header[19..23]) as usize;
        let millis = number(&header[23..31]);
        if self.width == 0 {
            self.width = width;
            self.millis = millis;
        } else if self.width != width {
            refuse("identifier sizes differ");
        }
        self.millis = self.millis.min(millis);
    }

    fn record(&mut self, tag: u8, body: &[u8]) {
        let (rows, width) = match tag {
            0x01 => (&mut self.names, self.width),
            0x02 => (&mut self.loads, 4),
            0x03 => (&mut self.unloads, 4),
            0x04 => (&mut self.frames, self.width),
            0x05 => (&mut self.traces, 4),
            0x0a => (&mut self.starts, 4),
            0x0b => (&mut self.ends, 4),
            _ => return,
        };
        state(rows, number(&body[..width]), body);
    }

    fn sub_record(&mut self, bytes: &[u8]) {
        let key = number(&bytes[1..1 + self.width]);
        match bytes[0] {
            0x20 => state(&mut self.classes, key, bytes),
            0x21..=0x23 => state(&mut self.objects, key, bytes),
            _ if self.roots.contains(bytes) => {}
            _ => {
                self.roots.insert(bytes.into());
            }
        }
    }
}

/// What was read of a part.
#[derive(Default)]
struct Summary {
    version: String,
    width: usize,
    millis: u64,
    records: u64,
    facts: u64,
    ended: bool,
    /// Where the first item stands that is not whole.
    cut: Option<usize>,
}

/// Where in a part reading stands.
enum Place {
    Start,
    Between,
    /// Within a heap dump record, with so many bytes of it left.
    Within(usize),
    /// Within a record that is passed over, with so many bytes of it left, of so many.
    Over(usize, usize),
}

/// Takes the whole items at the front of the bytes, and gives how many bytes they have.
fn take(heap: &mut Heap, part: &mut Summary, place: &mut Place, bytes: &[u8]) -> usize {
    let mut at = 0;
    loop {
        let rest = &bytes[at..];
        match *place {
            Place::Start => {
                if rest.len() < HEADER_LEN {
                    return at;
                }
                heap.begin(&rest[..HEADER_LEN]);
                part.version = String::from_utf8_lossy(&rest[13..18]).into_owned();
                part.width = number(&rest[19..23]) as usize;
                part.millis = number(&rest[23..31]);
                at += HEADER_LEN;
                *place = Place::Between;
            }
            Place::Between => {
                if rest.len() < HEAD_LEN {
                    return at;
                }
                let len = number(&rest[5..9]) as usize;
                match rest[0] {
                    0x0c | 0x1c => *place = Place::Within(len),
                    0x01..=0x05 | 0x0a | 0x0b => {
                        if rest.len() < HEAD_LEN + len {
                            return at;
                        }
                        heap.record(rest[0], &rest[HEAD_LEN..HEAD_LEN + len]);
                        part.facts += 1;
                        at += len;
                    }
                    tag => {
                        part.ended |= tag == 0x2c;
                        *place = Place::Over(len, len);
                    }
                }
                part.records += 1;
                at += HEAD_LEN;
            }
            Place::Within(0) | Place::Over(0, _) => *place = Place::Between,
            Place::Within(left) => {
                let Some(len) = sub_len(rest, heap.width) else {
                    return at;
                };
                if len > left {
                    refuse("past the end");
                }
                heap.sub_record(&rest[..len]);
                part.facts += 1;
                at += len;
                *place = Place::Within(left - len);
            }
            Place::Over(left, len) => {
                let count = left.min(rest.len());
                if count == 0 {
                    return at;
                }
                at += count;
                *place = Place::Over(left - count, len);
            }
        }
    }
}

/// Reads a part to its end. One that is cut short is refused, unless what is whole of it is to be kept.
fn read_part(heap: &mut Heap, name: &str, keep: bool) -> Summary {
    let mut file = File::open(name).unwrap_or_else(|_| refuse("cannot open"));
    let mut piece = vec![0; PIECE_LEN];
    // What is held of a part is at the front of the piece, which grows where an item is longer.
    let mut held = 0;
    let mut at = 0;
    let mut place = Place::Start;
    let mut part = Summary::default();
    loop {
        if held == piece.len() {
            piece.resize(2 * held, 0);
        }
        let count = file.read(&mut piece[held..]).unwrap_or_else(|_| refuse("read failed"));
        if count == 0 {
            break;
        }
        let taken = take(heap, &mut part, &mut place, &piece[..held + count]);
        at += taken;
        piece.copy_within(taken..held + count, 0);
        held = held + count - taken;
    }
    part.cut = match place {
        Place::Between if held == 0 => None,
        Place::Over(left, len) => Some(at - (len - left) - HEAD_LEN),
        _ => Some(at),
    };
    if !keep && part.cut.is_some() {
        refuse("truncated");
    }
    part
}

fn head(tag: u8, len: usize) -> [u8; HEAD_LEN] {
    let mut head = [0; HEAD_LEN];
    head[0] = tag;
    head[5..].copy_from_slice(&(len as u32).to_be_bytes());
    head
}

/// Writes the header and what records state.
fn write_records(heap: &Heap, version: &[u8], out: &mut impl Write) -> io::Result<()> {
    out.write_all(version)?;
    out.write_all(&(heap.width as u32).to_be_bytes())?;
    out.write_all(&heap.millis.to_be_bytes())?;
    for (tag, rows) in [
        (0x01, &heap.names),
        (0x02, &heap.loads),
        (0x03, &heap.unloads),
        (0x04, &heap.frames),
        (0x05, &heap.traces),
        (0x0a, &heap.starts),
        (0x0b, &heap.ends),
    ] {
        for body in rows.values() {
            out.write_all(&head(tag, body.len()))?;
            out.write_all(body)?;
        }
    }
    Ok(())
}

/// The sub-records in order.
fn subs(heap: &Heap) -> impl Iterator<Item = &Box<[u8]>> {
    heap.roots.iter().chain(heap.classes.values()).chain(heap.objects.values())
}

/// Writes the 1.0.1 dump.
fn write101(heap: &Heap, out: &mut impl Write) -> io::Result<()> {
    write_records(heap, b"JAVA PROFILE 1.0.1\0", out)?;
    let len: usize = subs(heap).map(|sub| sub.len()).sum();
    if len > 0 {
        out.write_all(&head(0x0c, len))?;
    }
    subs(heap).try_for_each(|sub| out.write_all(sub))
}

/// Writes the canonical dump.
fn write(heap: &Heap, out: &mut impl Write) -> io::Result<()> {
    write_records(heap, b"JAVA PROFILE 1.0.2\0", out)?;
    let subs = || subs(heap);
    let mut ahead = subs();
    let mut first = ahead.next();
    let mut behind = subs();
    while let Some(sub) = first {
        let (mut len, mut count) = (sub.len(), 1);
        first = ahead.next();
        while let Some(next) = first
            && len + next.len() <= SEGMENT_LEN
        {
            len += next.len();
            count += 1;
            first = ahead.next();
        }
        out.write_all(&head(0x1c, len))?;
        for sub in behind.by_ref().take(count) {
            out.write_all(sub)?;
        }
    }
    out.write_all(&head(0x2c, 0))
}

/// How many facts each table has.
fn counts(heap: &Heap) -> [(&'static str, usize); 10] {
    [
        ("names", heap.names.len()),
        ("loads", heap.loads.len()),
        ("unloads", heap.unloads.len()),
        ("frames", heap.frames.len()),
        ("traces", heap.traces.len()),
        ("starts", heap.starts.len()),
        ("ends", heap.ends.len()),
        ("roots", heap.roots.len()),
        ("classes", heap.classes.len()),
        ("objects", heap.objects.len()),
    ]
}

fn report(parts: &[Summary], heap: &Heap, out: &mut impl Write) -> io::Result<()> {
    for (number, part) in parts.iter().enumerate() {
        let Summary { version, width, millis, records, facts, ended, .. } = part;
        let ended = if *ended { "yes" } else { "no" };
        writeln!(
            out,
            "part {number}: version {version} ids {width} time {millis} records {records} facts {facts} end {ended}"
        )?;
    }
    for (word, count) in counts(heap) {
        writeln!(out, "{word} {count}")?;
    }
    let bad = heap.names.values().filter(|body| !text::is_modified(&body[heap.width..])).count();
    writeln!(out, "bad names {bad}")
}

/// Reads the parts, and what was read of each.
fn read_parts(names: &[String], keep: bool) -> (Vec<Summary>, Heap) {
    let mut heap = Heap::default();
    let parts = names.iter().map(|name| read_part(&mut heap, name, keep)).collect();
    (parts, heap)
}

/// Writes through a buffer what is made of a heap, which is then left: freeing millions of rows is no work that anyone waits for.
fn write_out<W: Write>(out: W, heap: Heap, make: impl FnOnce(&Heap, &mut BufWriter<W>) -> io::Result<()>) {
    let mut out = BufWriter::with_capacity(PIECE_LEN, out);
    make(&heap, &mut out).unwrap_or_else(|_| refuse("write failed"));
    out.flush().unwrap_or_else(|_| refuse("write failed"));
    std::mem::forget(heap);
}

fn create(name: &str) -> File {
    File::create_new(name).unwrap_or_else(|_| refuse("cannot create"))
}

/// Writes the canonical dump of what is whole, and prints where each part is cut short.
fn salvage(out: &str, names: &[String]) {
    let (parts, heap) = read_parts(names, true);
    if heap.width == 0 {
        refuse("no parts");
    }
    write_out(create(out), heap, |heap, out| write(heap, out));
    for (number, part) in parts.iter().enumerate() {
        if let Some(at) = part.cut {
            println!("part {number}: malformed at {at}: Truncated");
        }
    }
}

fn id_of(word: &str) -> u64 {
    u64::from_str_radix(word, 16).unwrap_or_else(|_| refuse("not an identifier"))
}

fn count_of(word: &str) -> u64 {
    word.parse().unwrap_or_else(|_| refuse("not a number"))
}

/// So many of the identifiers in any order, none of them twice; all where there are fewer.
fn drawn(mut ids: Vec<u64>, count: usize, dice: &mut Dice) -> Vec<u64> {
    let count = count.min(ids.len());
    for place in 0..count {
        let other = place + dice.below(ids.len() - place);
        ids.swap(place, other);
    }
    ids.truncate(count);
    ids
}

/// Prints identifiers that are drawn at random, so many of each kind, with a line for each kind.
fn sample(heap: &Heap, seed: u64, count: usize, out: &mut impl Write) -> io::Result<()> {
    let kind = |tag: u8| heap.objects.iter().filter(move |(_, bytes)| bytes[0] == tag).map(|(id, _)| *id).collect();
    let kinds: [Vec<u64>; 4] = [heap.classes.keys().copied().collect(), kind(0x21), kind(0x22), kind(0x23)];
    let mut dice = Dice(seed);
    for ids in kinds {
        let words: Vec<String> = drawn(ids, count, &mut dice).iter().map(|id| format!("{id:x}")).collect();
        writeln!(out, "{}", words.join(" "))?;
    }
    Ok(())
}

fn main() {
    let words: Vec<String> = env::args().skip(1).collect();
    let read = |first: usize| read_parts(&words[first..], false);
    let stdout = io::stdout;
    match words[0].as_str() {
        "join" => write_out(create(&words[1]), read(2).1, |heap, out| write(heap, out)),
        "join101" => write_out(create(&words[1]), read(2).1, |heap, out| write101(heap, out)),
        "salvage" => salvage(&words[1], &words[2..]),
        "check" => {
            let (parts, heap) = read(1);
            write_out(stdout(), heap, |heap, out| report(&parts, heap, out));
        }
        "histo" => write_out(stdout(), read(1).1, |heap, out| reports::histo(heap, out)),
        "object" => write_out(stdout(), read(2).1, |heap, out| reports::object(heap, id_of(&words[1]), out)),
        "sample" => {
            let (seed, count) = (count_of(&words[1]), count_of(&words[2]) as usize);
            write_out(stdout(), read(3).1, |heap, out| sample(heap, seed, count, out));
        }
        "refs" => write_out(stdout(), read(2).1, |heap, out| reports::refs(heap, id_of(&words[1]), out)),
        "path" => write_out(stdout(), read(2).1, |heap, out| reports::reached(heap, id_of(&words[1]), out)),
        _ => refuse("join, join101, salvage, check, histo, object, refs or path"),
    }
}
