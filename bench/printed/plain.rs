//! The same as `main.rt` in plain Rust: prints each line of a file of names, and says how many
//! milliseconds that took, once a round.

use std::fmt::Write;
use std::time::Instant;

const ROUNDS: u32 = 7;

/// The unit whose modified UTF-8 stands at the front, and the bytes after it.
fn first_unit(bytes: &[u8]) -> Option<(u16, &[u8])> {
    let low = |byte: &u8| u16::from(byte & 0x3f);
    match bytes {
        [first @ 0x01..=0x7f, rest @ ..] => Some((u16::from(*first), rest)),
        [first @ 0xc0..=0xdf, second @ 0x80..=0xbf, rest @ ..] => {
            let unit = u16::from(first & 0x1f) << 6 | low(second);
            (unit == 0 || unit >= 0x80).then_some((unit, rest))
        }
        [first @ 0xe0..=0xef, second @ 0x80..=0xbf, third @ 0x80..=0xbf, rest @ ..] => {
            let unit = u16::from(first & 0x0f) << 12 | low(second) << 6 | low(third);
            (unit >= 0x800).then_some((unit, rest))
        }
        _ => None,
    }
}

fn is_plain(byte: u8) -> bool {
    matches!(byte, 0x20..=0x7e) && byte != b'\\'
}

/// The plain bytes at the front as text, and the bytes after them.
fn split_plain(bytes: &[u8]) -> (&str, &[u8]) {
    let end = bytes.iter().position(|byte| !is_plain(*byte)).unwrap_or(bytes.len());
    let (plain, rest) = bytes.split_at(end);
    (std::str::from_utf8(plain).unwrap(), rest)
}

fn printed_units(bytes: &[u8]) -> Option<String> {
    let mut text = String::with_capacity(bytes.len());
    let mut rest = bytes;
    loop {
        let (plain, after) = split_plain(rest);
        text.push_str(plain);
        if after.is_empty() {
            return Some(text);
        }
        let (unit, after) = first_unit(after)?;
        write!(text, "\\u{unit:04x}").unwrap();
        rest = after;
    }
}

fn printed_bytes(bytes: &[u8]) -> String {
    let mut text = String::from("\\x");
    for byte in bytes {
        write!(text, "{byte:02x}").unwrap();
    }
    text
}

fn printed(name: &[u8]) -> String {
    printed_units(name).unwrap_or_else(|| printed_bytes(name))
}

fn main() {
    for path in std::env::args().skip(1) {
        let names = std::fs::read(path).unwrap();
        for _ in 0..ROUNDS {
            let start = Instant::now();
            let total: usize = names.split(|byte| *byte == b'\n').map(|name| printed(name).len()).sum();
            println!("{total} {}", start.elapsed().as_millis());
        }
    }
}
