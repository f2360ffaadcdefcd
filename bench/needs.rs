// The walk of the crate needs_resolver over the ordered map and sets of Rust's std, for bench/needs: the same closure,
// asked for the same number of times. The keys of the map have the text of a namespace too, as those of an index.
use std::collections::{BTreeMap, BTreeSet};

type Hash = [u8; 20];
type Index = BTreeMap<([u8; 64], Hash), Vec<(bool, Hash)>>;

const SPACE: [u8; 64] = [b'g'; 64];

fn hash_of(number: u64) -> Hash {
    let mut bytes = [0; 20];
    bytes[..8].copy_from_slice(&number.wrapping_mul(0x9e37_79b9_7f4a_7c15).to_be_bytes());
    bytes
}

fn filled(objects: u64) -> Index {
    let mut index = Index::new();
    for number in 0..objects {
        let below = |side| {
            let below = 2 * number + side;
            (true, hash_of(if below < objects { below } else { number / 2 }))
        };
        let blobs = objects + 8 * number..objects + 8 * number + 8;
        let mut links = vec![below(1), below(2)];
        links.extend(blobs.clone().map(|blob| (false, hash_of(blob))));
        index.insert((SPACE, hash_of(number)), links);
        index.extend(blobs.step_by(2).map(|blob| ((SPACE, hash_of(blob)), Vec::new())));
    }
    index
}

fn needs(index: &Index, root: Hash) -> Vec<Hash> {
    let (mut seen, mut absent) = (BTreeSet::from([root]), BTreeSet::new());
    let mut work = vec![root];
    while let Some(held) = work.pop() {
        for &(is_object, hash) in &index[&(SPACE, held)] {
            if seen.contains(&hash) {
                continue;
            }
            if !index.contains_key(&(SPACE, hash)) {
                absent.insert(hash);
            } else if is_object {
                seen.insert(hash);
                work.push(hash);
            }
        }
    }
    absent.into_iter().collect()
}

fn main() {
    let words: Vec<u64> = std::env::args().skip(1).map(|word| word.parse().unwrap()).collect();
    let index = filled(words[0] / 10);
    let mut needed = 0;
    for _ in 0..words[1] {
        needed = needs(&index, std::hint::black_box(hash_of(0))).len();
    }
    println!("{} links, {needed} needed", words[0]);
}
