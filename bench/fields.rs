//! Fields at the front of an entry, as the peers read them.

pub type Link = (u8, [u8; 20]);

pub fn take<const N: usize>(bytes: &mut &[u8]) -> Option<[u8; N]> {
    let (front, rest) = bytes.split_first_chunk::<N>()?;
    *bytes = rest;
    Some(*front)
}

pub fn take_links(bytes: &mut &[u8]) -> Option<Vec<Link>> {
    let mut links = Vec::new();
    for _ in 0..u32::from_le_bytes(take(bytes)?) {
        let [kind] = take::<1>(bytes)?;
        if kind > 1 {
            return None;
        }
        links.push((kind, take(bytes)?));
    }
    Some(links)
}
