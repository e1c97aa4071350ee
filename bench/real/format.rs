//! What the programs beside this file know of the format: where items end. It uses std alone, and is no part of hprof.

use std::process::exit;

pub const HEADER_LEN: usize = 31;
pub const HEAD_LEN: usize = 9;

pub fn refuse(why: &str) -> ! {
    eprintln!("{why}");
    exit(1)
}

/// The number of up to eight bytes, big-endian.
pub fn number(bytes: &[u8]) -> u64 {
    bytes.iter().fold(0, |number, byte| number << 8 | u64::from(*byte))
}

/// The width of a value of that type.
pub fn type_width(code: u8, width: usize) -> usize {
    match code {
        1 | 2 => width,
        4 | 8 => 1,
        5 | 9 => 2,
        6 | 10 => 4,
        7 | 11 => 8,
        _ => refuse("bad type"),
    }
}

/// Where the entries of a class dump end that stand at a place: constants, static fields or own fields.
fn entries_end(bytes: &[u8], at: usize, key: usize, valued: bool, width: usize) -> Option<usize> {
    let mut end = at + 2;
    for _ in 0..number(bytes.get(at..end)?) {
        let code = *bytes.get(end + key)?;
        end += key + 1 + if valued { type_width(code, width) } else { 0 };
    }
    (end <= bytes.len()).then_some(end)
}

/// The length of the sub-record at the front of the bytes, or None where it does not end within them.
pub fn sub_len(bytes: &[u8], width: usize) -> Option<usize> {
    let count_at = |at: usize| Some(number(bytes.get(at..at + 4)?) as usize);
    let len = match *bytes.first()? {
        0xff | 0x05 | 0x07 => 1 + width,
        0x01 => 1 + 2 * width,
        0x02 | 0x03 | 0x08 => 9 + width,
        0x04 | 0x06 => 5 + width,
        0x20 => {
            let constants = 9 + 7 * width;
            let statics = entries_end(bytes, constants, 2, true, width)?;
            let fields = entries_end(bytes, statics, width, true, width)?;
            entries_end(bytes, fields, width, false, width)?
        }
        0x21 => 9 + 2 * width + count_at(5 + 2 * width)?,
        0x22 => 9 + 2 * width + width * count_at(5 + width)?,
        0x23 => {
            let code = *bytes.get(9 + width)?;
            10 + width + type_width(code, width) * count_at(5 + width)?
        }
        _ => refuse("bad sub-record"),
    };
    (len <= bytes.len()).then_some(len)
}
