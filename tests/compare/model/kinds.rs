//! "Kinds and memory bytes are a constant table".

pub const KINDS: [(u8, usize); 5] = [(0, 52), (2, 2665), (3, 4141), (5, 8065), (10, 16381)];

/// The bytes of memory of a kind; none for an unknown kind.
pub fn size_of(kind: u8) -> Option<usize> {
    for (known, size) in KINDS {
        if known == kind {
            return Some(size);
        }
    }
    None
}
