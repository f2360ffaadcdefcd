//! The name of a namespace or a bucket, as the peers keep it.
use std::cmp::Ordering;

#[derive(Clone, Copy, PartialEq, Eq)]
pub struct Name {
    bytes: [u8; 64],
    len: u8,
}

impl Name {
    pub fn parse(text: &[u8]) -> Option<Name> {
        let allowed = |b: &u8| b.is_ascii_alphanumeric() || matches!(b, b'-' | b'_' | b'.');
        if text.is_empty() || text.len() > 64 || !text[0].is_ascii_alphanumeric() || !text.iter().all(allowed) {
            return None;
        }
        let mut bytes = [0; 64];
        bytes[..text.len()].copy_from_slice(text);
        Some(Name { bytes, len: text.len() as u8 })
    }

    fn text(&self) -> &[u8] {
        &self.bytes[..self.len as usize]
    }
}

impl Ord for Name {
    fn cmp(&self, other: &Name) -> Ordering {
        self.text().cmp(other.text())
    }
}

impl PartialOrd for Name {
    fn partial_cmp(&self, other: &Name) -> Option<Ordering> {
        Some(self.cmp(other))
    }
}
