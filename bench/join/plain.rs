//! A plain program with the same table, to measure hprof's join beside: it reads parts of names, unites them in a
//! BTreeMap and writes them in order. It uses std alone.

use std::collections::BTreeMap;
use std::collections::btree_map::Entry;
use std::env;
use std::fs::File;
use std::io::{BufWriter, Read, Write};
use std::process::exit;

const PIECE_LEN: usize = 65_536;
const TEXT_LEN: usize = 19;
const HEADER_LEN: usize = 31;
const HEAD_LEN: usize = 9;

fn number(bytes: &[u8]) -> u64 {
    bytes.iter().fold(0, |number, byte| number << 8 | u64::from(*byte))
}

fn refuse(why: &str) -> ! {
    eprintln!("plain: {why}");
    exit(1)
}

/// The heap so far: the size of its identifiers, the earliest time, and the names by identifier.
struct Heap {
    width: Option<usize>,
    millis: u64,
    names: BTreeMap<u64, Vec<u8>>,
}

impl Heap {
    /// Takes the header of a part.
    fn begin(&mut self, header: &[u8]) {
        let width = number(&header[TEXT_LEN..TEXT_LEN + 4]) as usize;
        if self.width.is_some_and(|known| known != width) {
            refuse("identifier sizes differ");
        }
        self.width = Some(width);
        self.millis = self.millis.min(number(&header[TEXT_LEN + 4..]));
    }

    /// Takes the items at the front of the bytes of a part, of which the header is taken or not, and gives how many
    /// bytes they have.
    fn take(&mut self, bytes: &[u8], begun: &mut bool) -> usize {
        let mut at = 0;
        if !*begun {
            if bytes.len() < HEADER_LEN {
                return 0;
            }
            self.begin(&bytes[..HEADER_LEN]);
            *begun = true;
            at = HEADER_LEN;
        }
        let width = self.width.unwrap_or(0);
        while bytes.len() - at >= HEAD_LEN {
            let length = number(&bytes[at + 5..at + 9]) as usize;
            if bytes.len() - at < HEAD_LEN + length {
                break;
            }
            let body = &bytes[at + HEAD_LEN..at + HEAD_LEN + length];
            match bytes[at] {
                0x01 if length >= width => self.name(number(&body[..width]), &body[width..]),
                0x2c if length == 0 => {}
                _ => refuse("malformed"),
            }
            at += HEAD_LEN + length;
        }
        at
    }

    fn name(&mut self, id: u64, text: &[u8]) {
        match self.names.entry(id) {
            Entry::Vacant(entry) => {
                entry.insert(text.to_vec());
            }
            Entry::Occupied(entry) if entry.get() == text => {}
            Entry::Occupied(_) => refuse("conflict"),
        }
    }

    /// Takes a part to its end.
    fn read(&mut self, file: &mut File, piece: &mut [u8]) {
        let mut held: Vec<u8> = Vec::new();
        let mut begun = false;
        loop {
            let count = file.read(piece).unwrap_or_else(|_| refuse("read failed"));
            if count == 0 {
                break;
            }
            held.extend_from_slice(&piece[..count]);
            let taken = self.take(&held, &mut begun);
            held.drain(..taken);
        }
        if !held.is_empty() || !begun {
            refuse("truncated");
        }
    }
}

fn main() {
    let names: Vec<String> = env::args().skip(1).collect();
    let mut heap = Heap { width: None, millis: u64::MAX, names: BTreeMap::new() };
    let mut piece = vec![0; PIECE_LEN];
    for name in &names[1..] {
        let mut file = File::open(name).unwrap_or_else(|_| refuse("cannot open"));
        heap.read(&mut file, &mut piece);
    }
    let width = heap.width.unwrap_or_else(|| refuse("no parts"));
    let file = File::create_new(&names[0]).unwrap_or_else(|_| refuse("cannot create"));
    let mut out = BufWriter::with_capacity(PIECE_LEN, file);
    let write = |out: &mut BufWriter<File>, bytes: &[u8]| {
        out.write_all(bytes).unwrap_or_else(|_| refuse("write failed"));
    };
    write(&mut out, b"JAVA PROFILE 1.0.2\0");
    write(&mut out, &(width as u32).to_be_bytes());
    write(&mut out, &heap.millis.to_be_bytes());
    for (id, text) in &heap.names {
        let mut front = [0; 17];
        front[0] = 0x01;
        front[5..9].copy_from_slice(&((width + text.len()) as u32).to_be_bytes());
        front[9..9 + width].copy_from_slice(&id.to_be_bytes()[8 - width..]);
        write(&mut out, &front[..9 + width]);
        write(&mut out, text);
    }
    write(&mut out, &[0x2c, 0, 0, 0, 0, 0, 0, 0, 0]);
    out.flush().unwrap_or_else(|_| refuse("write failed"));
}
