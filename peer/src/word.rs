//! Words of the table, a rank and a parent in 32 bits, and the order of nodes.

pub fn word(rank: u32, parent: u32) -> u32 {
    (rank << 16) | parent
}

pub fn rank(word: u32) -> u32 {
    word >> 16
}

pub fn parent(word: u32) -> u32 {
    word & 0xFFFF
}

/// Whether node `a` of one rank comes before node `b` of another.
pub fn before(rank_a: u32, a: u32, rank_b: u32, b: u32) -> bool {
    (rank_a, a) < (rank_b, b)
}
