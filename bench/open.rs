// What `ddc replay` does with the journal of a folder when it opens a store, by plain Rust with its own ordered maps:
// `open FOLDER`. The file is read whole, each entry read and seen to be legal, the maps and the list of entries built. Then
// it writes a line, and ends where its standard input ends. It knows the entries that bench/many_blobs writes: namespaces
// and uploads.
mod fields;
mod name;

use fields::{Link, take, take_links};
use name::Name;
use std::collections::BTreeMap;
use std::io::{Read, Write};
use std::{env, fs, io, process};

type Hash = [u8; 20];

struct Stored {
    hash: Hash,
    len: u64,
    start: u64,
    links: Vec<Link>,
}

enum Entry {
    Space { space: Name, ttl: u32, pin: u32 },
    Upload { space: Name, blob: Stored, hour: u32 },
}

#[allow(dead_code)]
struct Blob {
    len: u64,
    start: u64,
    at: u32,
    units: u32,
    links: Vec<Link>,
}

#[derive(Default)]
struct Store {
    spaces: BTreeMap<Name, (u32, u32)>,
    blobs: BTreeMap<Name, BTreeMap<Hash, Blob>>,
    // by the first unit: how many
    extents: BTreeMap<u64, u32>,
    hour: u32,
    steps: Vec<Entry>,
}

const MOST_UNITS: u64 = 268_435_456;

fn take_name(bytes: &mut &[u8]) -> Option<Name> {
    let [len] = take::<1>(bytes)?;
    let (text, rest) = bytes.split_at_checked(len as usize)?;
    *bytes = rest;
    Name::parse(text)
}

fn read(mut bytes: &[u8]) -> Option<Entry> {
    let rest = &mut bytes;
    let entry = match take::<1>(rest)? {
        [1] => Entry::Space {
            space: take_name(rest)?,
            ttl: u32::from_le_bytes(take(rest)?),
            pin: u32::from_le_bytes(take(rest)?),
        },
        [2] => {
            let space = take_name(rest)?;
            let hash = take(rest)?;
            let len = u64::from_le_bytes(take(rest)?);
            let start = u64::from_le_bytes(take(rest)?);
            let links = take_links(rest)?;
            let blob = Stored { hash, len, start, links };
            Entry::Upload { space, blob, hour: u32::from_le_bytes(take(rest)?) }
        }
        _ => return None,
    };
    bytes.is_empty().then_some(entry)
}

impl Store {
    fn is_free(&self, start: u64, units: u64) -> bool {
        if start > MOST_UNITS || MOST_UNITS - start < units {
            return false;
        }
        let before = self.extents.range(..start + units).next_back();
        units == 0 || before.map_or(true, |(first, count)| first + *count as u64 <= start)
    }

    fn fits(&self, entry: &Entry) -> bool {
        match entry {
            Entry::Space { ttl, pin, .. } => (1..=1_000_000).contains(ttl) && (1..=1_000_000).contains(pin),
            Entry::Upload { space, blob, .. } => {
                self.spaces.contains_key(space)
                    && !self.blobs.get(space).is_some_and(|blobs| blobs.contains_key(&blob.hash))
                    && blob.len <= 67_108_864
                    && blob.links.len() <= 4_194_304
                    && self.is_free(blob.start, blob.len.div_ceil(4096))
            }
        }
    }

    fn apply(&mut self, entry: &Entry) {
        match entry {
            Entry::Space { space, ttl, pin } => {
                self.spaces.insert(*space, (*ttl, *pin));
            }
            Entry::Upload { space, blob, hour } => {
                let units = blob.len.div_ceil(4096) as u32;
                if units > 0 {
                    self.extents.insert(blob.start, units);
                }
                let kept = Blob { len: blob.len, start: blob.start, at: *hour, units, links: blob.links.clone() };
                self.blobs.entry(*space).or_default().insert(blob.hash, kept);
                self.hour = self.hour.max(*hour);
            }
        }
    }

    fn open(file: &[u8]) -> Option<Store> {
        if file.len() < 22 || file[..8] != *b"DDCJLOG\n" || file[8..12] != [1, 0, 0, 0] || file[20] != 1 {
            return None;
        }
        let mut store = Store::default();
        let mut rest = &file[21..];
        while let [1, after @ ..] = rest {
            let (length, tail) = after.split_first_chunk::<4>()?;
            let (body, tail) = tail.split_at_checked(u32::from_le_bytes(*length) as usize)?;
            let entry = read(body)?;
            if !store.fits(&entry) {
                return None;
            }
            store.apply(&entry);
            store.steps.push(entry);
            rest = tail;
        }
        Some(store)
    }
}

fn main() {
    let folder = env::args().nth(1).unwrap();
    let file = fs::read(format!("{folder}/journal-a")).unwrap();
    let Some(store) = Store::open(&file) else { process::exit(2) };
    drop(file);
    let count: usize = store.blobs.values().map(BTreeMap::len).sum();
    println!("{count} blobs, {} extents, {} steps, {} hours", store.extents.len(), store.steps.len(), store.hour);
    io::stdout().flush().unwrap();
    let mut rest = Vec::new();
    io::stdin().read_to_end(&mut rest).unwrap();
}
