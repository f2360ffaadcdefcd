// What `bench_table` does, with Rust's own `BTreeMap` and keys of the same form: `table COUNT PAGES [TIMES]`.
mod name;

use name::Name;
use std::collections::BTreeMap;
use std::ops::Bound;
use std::time::Instant;

#[derive(Clone, Copy, PartialEq, Eq, PartialOrd, Ord)]
struct Spot {
    bucket: Name,
    key: [u8; 20],
}

#[derive(Clone, Copy, PartialEq, Eq, PartialOrd, Ord)]
struct Key {
    space: Name,
    spot: Spot,
}

#[derive(Clone, Copy)]
struct Slot {
    done: Option<[u8; 20]>,
    #[allow(dead_code)]
    pending: Option<[u8; 20]>,
    seen: u32,
}

fn mixed(i: u64) -> u64 {
    let z = i.wrapping_add(1).wrapping_mul(0x9e37_79b9_7f4a_7c15);
    let z = (z ^ (z >> 30)).wrapping_mul(0xbf58_476d_1ce4_e5b9);
    let z = (z ^ (z >> 27)).wrapping_mul(0x94d0_49bb_1331_11eb);
    z ^ (z >> 31)
}

fn key_of(i: u64) -> [u8; 20] {
    let mut key = [0; 20];
    key[..8].copy_from_slice(&mixed(i).to_be_bytes());
    key[8..16].copy_from_slice(&mixed(!i).to_be_bytes());
    key[16..].copy_from_slice(&(i as u32).to_be_bytes());
    key
}

fn main() {
    let words: Vec<String> = std::env::args().skip(1).collect();
    let count: u64 = words[0].parse().unwrap();
    let pages: u64 = words[1].parse().unwrap();
    let space = Name::parse(b"ue5.ddc").unwrap();
    let buckets = ["textures", "meshes", "shaders", "animations"].map(|text| Name::parse(text.as_bytes()).unwrap());
    let name = |i: u64| Key { space, spot: Spot { bucket: buckets[(mixed(i) % 4) as usize], key: key_of(i) } };
    let mut table = BTreeMap::new();
    let start = Instant::now();
    for i in 0..count {
        table.insert(name(i), Slot { done: Some(key_of(i)), pending: None, seen: i as u32 });
    }
    let set_nanos = start.elapsed().as_nanos();
    let start = Instant::now();
    let hours: u64 = (0..count).filter_map(|i| table.get(&name(mixed(i) % count))).map(|slot| slot.seen as u64).sum();
    let get_nanos = start.elapsed().as_nanos();
    let start = Instant::now();
    let mut rows = 0;
    for i in 0..pages {
        let from = name(mixed(i) % count);
        let found = table
            .range((Bound::Excluded(from), Bound::Unbounded))
            .take_while(|(key, _)| key.space == space)
            .filter_map(|(key, slot)| slot.done.map(|object| (key.spot, object)));
        let page: Vec<(Spot, [u8; 20])> = found.take(51).collect();
        rows += page.len().min(50);
    }
    let page_nanos = start.elapsed().as_nanos();
    println!("{} set, {hours} hours, {rows} rows", table.len());
    if words.len() > 2 {
        println!("{set_nanos} {get_nanos} {page_nanos}");
    }
}
