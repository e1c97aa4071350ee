//! Cuts a dump into parts: its records and sub-records in any order, some of them repeated, in segments of any
//! length. Together they state what the dump states. It uses std alone.
//!
//!     recut DUMP PART..

use std::env;
use std::fs::{self, File};
use std::io::{BufWriter, Write};
use std::ops::Range;

mod dice;
mod format;
use dice::Dice;
use format::{HEAD_LEN, HEADER_LEN, number, refuse, sub_len};

/// A record, or a sub-record.
struct Item {
    place: Range<usize>,
    is_sub: bool,
}

/// Where the dump's records and sub-records lie. Ends of the dump are left out.
fn items_of(dump: &[u8]) -> Vec<Item> {
    let width = number(&dump[19..23]) as usize;
    let mut items = Vec::new();
    let mut at = HEADER_LEN;
    while at < dump.len() {
        let body = at + HEAD_LEN;
        let end = body + number(&dump[at + 5..body]) as usize;
        match dump[at] {
            0x0c | 0x1c => {
                let mut from = body;
                while from < end {
                    let len = sub_len(&dump[from..end], width).unwrap_or_else(|| refuse("truncated"));
                    items.push(Item { place: from..from + len, is_sub: true });
                    from += len;
                }
            }
            0x2c => {}
            _ => items.push(Item { place: at..end, is_sub: false }),
        }
        at = end;
    }
    items
}

/// Writes a segment of these sub-records.
fn write_segment(dump: &[u8], subs: &mut Vec<Range<usize>>, out: &mut impl Write) -> std::io::Result<()> {
    if subs.is_empty() {
        return Ok(());
    }
    let len: usize = subs.iter().map(|place| place.len()).sum();
    out.write_all(&[0x1c, 0, 0, 0, 7])?;
    out.write_all(&(len as u32).to_be_bytes())?;
    for place in subs.drain(..) {
        out.write_all(&dump[place])?;
    }
    Ok(())
}

fn write_part(dump: &[u8], items: &[&Item], later: u64, dice: &mut Dice, out: &mut impl Write) -> std::io::Result<()> {
    let version: &[u8] = if later % 2 == 0 { b"JAVA PROFILE 1.0.2\0" } else { b"JAVA PROFILE 1.0.1\0" };
    out.write_all(version)?;
    out.write_all(&dump[19..23])?;
    out.write_all(&(number(&dump[23..31]) + later).to_be_bytes())?;
    let mut subs = Vec::new();
    let mut room = 0;
    for item in items {
        if !item.is_sub || subs.len() >= room {
            write_segment(dump, &mut subs, out)?;
            room = 1 + dice.below(1_000);
        }
        if item.is_sub {
            subs.push(item.place.clone());
        } else {
            out.write_all(&dump[item.place.clone()])?;
        }
    }
    write_segment(dump, &mut subs, out)?;
    // The third part has no end.
    if later != 2 {
        out.write_all(&[0x2c, 0, 0, 0, 0, 0, 0, 0, 0])?;
    }
    Ok(())
}

fn main() {
    let names: Vec<String> = env::args().skip(1).collect();
    let dump = fs::read(&names[0]).unwrap_or_else(|_| refuse("cannot read"));
    let items = items_of(&dump);
    // The same cut at each run.
    let mut dice = Dice(1);
    let count = names.len() - 1;
    let mut parts: Vec<Vec<&Item>> = vec![Vec::new(); count];
    for item in &items {
        parts[dice.below(count)].push(item);
        if dice.below(10) == 0 {
            parts[dice.below(count)].push(item);
        }
    }
    for (later, (part, name)) in (0..).zip(parts.iter_mut().zip(&names[1..])) {
        for place in (1..part.len()).rev() {
            part.swap(place, dice.below(place + 1));
        }
        let file = File::create(name).unwrap_or_else(|_| refuse("cannot create"));
        let mut out = BufWriter::new(file);
        write_part(&dump, part, later, &mut dice, &mut out).unwrap_or_else(|_| refuse("write failed"));
        out.flush().unwrap_or_else(|_| refuse("write failed"));
    }
}
