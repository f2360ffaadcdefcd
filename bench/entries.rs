// The same bytes as crates/bench_entry, by plain Rust. Words: LINKS TIMES.
mod fields;

use fields::{Link, take, take_links};
use std::env;
use std::hint::black_box;
use std::time::Instant;

struct Blob {
    hash: [u8; 20],
    len: u64,
    start: u64,
    links: Vec<Link>,
}

enum Entry {
    Upload { space: String, blob: Blob, hour: u32 },
    Touch { space: String, bucket: String, key: [u8; 20], hour: u32 },
}

fn push_name(out: &mut Vec<u8>, name: &str) {
    out.push(name.len() as u8);
    out.extend_from_slice(name.as_bytes());
}

fn write(entry: &Entry) -> Vec<u8> {
    let mut out = Vec::new();
    match entry {
        Entry::Upload { space, blob, hour } => {
            out.push(2);
            push_name(&mut out, space);
            out.extend_from_slice(&blob.hash);
            out.extend_from_slice(&blob.len.to_le_bytes());
            out.extend_from_slice(&blob.start.to_le_bytes());
            out.extend_from_slice(&(blob.links.len() as u32).to_le_bytes());
            for (kind, hash) in &blob.links {
                out.push(*kind);
                out.extend_from_slice(hash);
            }
            out.extend_from_slice(&hour.to_le_bytes());
        }
        Entry::Touch { space, bucket, key, hour } => {
            out.push(7);
            push_name(&mut out, space);
            push_name(&mut out, bucket);
            out.extend_from_slice(key);
            out.extend_from_slice(&hour.to_le_bytes());
        }
    }
    out
}

fn take_name(bytes: &mut &[u8]) -> Option<String> {
    let [len] = take::<1>(bytes)?;
    let (text, rest) = bytes.split_at_checked(len as usize)?;
    *bytes = rest;
    let allowed = |b: &u8| b.is_ascii_alphanumeric() || matches!(b, b'-' | b'_' | b'.');
    if len == 0 || len > 64 || !text[0].is_ascii_alphanumeric() || !text.iter().all(allowed) {
        return None;
    }
    Some(std::str::from_utf8(text).ok()?.to_string())
}

fn read(mut bytes: &[u8]) -> Option<Entry> {
    let rest = &mut bytes;
    let entry = match take::<1>(rest)? {
        [2] => {
            let space = take_name(rest)?;
            let hash = take(rest)?;
            let len = u64::from_le_bytes(take(rest)?);
            let start = u64::from_le_bytes(take(rest)?);
            let links = take_links(rest)?;
            let blob = Blob { hash, len, start, links };
            let hour = u32::from_le_bytes(take(rest)?);
            Entry::Upload { space, blob, hour }
        }
        [7] => Entry::Touch {
            space: take_name(rest)?,
            bucket: take_name(rest)?,
            key: take(rest)?,
            hour: u32::from_le_bytes(take(rest)?),
        },
        _ => return None,
    };
    bytes.is_empty().then_some(entry)
}

fn main() {
    let mut words = env::args().skip(1).map(|word| word.parse::<u64>().unwrap_or(0));
    let (count, times) = (words.next().unwrap(), words.next().unwrap());
    let space = "game".to_string();
    let entry = if count == 0 {
        Entry::Touch { space, bucket: "ddc".to_string(), key: [7; 20], hour: 494_933 }
    } else {
        let links = (0..count).map(|number| (1, [(number % 251) as u8; 20])).collect();
        let blob = Blob { hash: [9; 20], len: 65_536, start: 4_096, links };
        Entry::Upload { space, blob, hour: 494_933 }
    };
    let bytes = write(&entry);
    let started = Instant::now();
    let mut written = 0;
    for _ in 0..times {
        written += black_box(write(black_box(&entry))).len();
    }
    let writing = started.elapsed().as_nanos();
    let started = Instant::now();
    let mut found = 0;
    for _ in 0..times {
        found += black_box(read(black_box(&bytes))).is_some() as u64;
    }
    let reading = started.elapsed().as_nanos();
    println!("{written} bytes, {found} entries");
    println!("{writing} {reading}");
}
