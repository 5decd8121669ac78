//! What `crates/frame_rates` does, as a plain Rust program with `Vec<u8>` does it: the same bytes, and the same tests of
//! bytes. `copy` only copies each row's bytes, one after the other.
use std::env::args;
use std::hint::black_box;
use std::str::from_utf8;

const UNIT: usize = 32768;
const FIELDS: [&[u8]; 2] = [b"\x03\x80\x00\x00\x00\x00\x00\x00\x01", b"\x04tag of a row"];

fn number(bytes: &[u8], at: usize) -> usize {
    u32::from_be_bytes(bytes[at..at + 4].try_into().unwrap()) as usize
}

fn tuple() -> Vec<u8> {
    let mut tuple = Vec::new();
    let mut end = 0u32;
    for field in FIELDS {
        end += field.len() as u32;
        tuple.extend_from_slice(&end.to_be_bytes());
    }
    tuple.extend_from_slice(&FIELDS.concat());
    tuple
}

struct Frame {
    tuples: Vec<u8>,
    ends: Vec<u32>,
}

impl Frame {
    fn append(&mut self, tuple: &[u8]) -> bool {
        if self.tuples.len() + tuple.len() + 4 * self.ends.len() + 8 > UNIT {
            return false;
        }
        self.tuples.extend_from_slice(tuple);
        self.ends.push(self.tuples.len() as u32);
        true
    }

    fn clear(&mut self) {
        self.tuples.clear();
        self.ends.clear();
    }

    fn bytes(&self) -> Vec<u8> {
        let mut bytes = self.tuples.clone();
        bytes.resize(UNIT - 4 - 4 * self.ends.len(), 0);
        for end in self.ends.iter().rev() {
            bytes.extend_from_slice(&end.to_be_bytes());
        }
        bytes.extend_from_slice(&(self.ends.len() as u32).to_be_bytes());
        bytes
    }
}

fn is_field(field: &[u8]) -> bool {
    match field.split_first() {
        Some((0..=2, rest)) => rest.is_empty(),
        Some((3, rest)) => rest.len() == 8,
        Some((4, rest)) => rest.len() <= 32000 && from_utf8(rest).is_ok(),
        _ => false,
    }
}

fn is_tuple(arity: usize, tuple: &[u8]) -> bool {
    if 4 * arity > tuple.len() {
        return false;
    }
    let (ends, fields) = tuple.split_at(4 * arity);
    let mut start = 0;
    for j in 0..arity {
        let end = number(ends, 4 * j);
        if start > end || end > fields.len() || !is_field(&fields[start..end]) {
            return false;
        }
        start = end;
    }
    start == fields.len()
}

fn parse(arity: usize, bytes: &[u8]) -> Option<usize> {
    let count = number(bytes, bytes.len() - 4);
    if 4 * count + 4 > bytes.len() {
        return None;
    }
    let body = bytes.len() - 4 - 4 * count;
    let mut start = 0;
    for i in 0..count {
        let end = number(bytes, bytes.len() - 8 - 4 * i);
        if start > end || end > body || !is_tuple(arity, &bytes[start..end]) {
            return None;
        }
        start = end;
    }
    bytes[start..body].iter().all(|b| *b == 0).then_some(count)
}

fn read(bytes: &[u8], rows: u64) -> u64 {
    let count = number(bytes, bytes.len() - 4);
    let (mut read, mut left) = (0, rows);
    loop {
        let mut start = 0;
        for i in 0..count {
            if left == 0 {
                return read;
            }
            let end = number(bytes, bytes.len() - 8 - 4 * i);
            let (ends, fields) = bytes[start..end].split_at(8);
            let mut from = 0;
            for j in 0..2 {
                let to = number(ends, 4 * j);
                read += fields[from..to].len() as u64;
                from = to;
            }
            start = end;
            left -= 1;
        }
    }
}

fn main() {
    let work = args().nth(1).unwrap();
    let rows: u64 = args().nth(2).unwrap().parse().unwrap();
    let tuple = tuple();
    let mut frame = Frame { tuples: Vec::with_capacity(UNIT), ends: Vec::with_capacity(UNIT / 4) };
    while frame.append(&tuple) {}
    let mut counted = 0;
    match work.as_str() {
        "append" => {
            for _ in 0..rows {
                if !frame.append(black_box(&tuple)) {
                    counted += 1;
                    frame.clear();
                    frame.append(&tuple);
                }
            }
        }
        "copy" => {
            let mut at = 0;
            let mut bytes = vec![0; UNIT];
            for _ in 0..rows {
                if at + tuple.len() > UNIT {
                    counted += 1;
                    at = 0;
                }
                bytes[at..at + tuple.len()].copy_from_slice(black_box(&tuple));
                at += tuple.len();
            }
            black_box(bytes);
        }
        "read" => counted = read(black_box(&frame.bytes()), rows),
        "parse" => {
            let bytes = frame.bytes();
            while counted < rows {
                counted += parse(2, black_box(&bytes)).unwrap() as u64;
            }
        }
        _ => {}
    }
    println!("{work} {rows}: {counted}");
}
