//! Stands for the file of the same name, which is not among those listed. Document 01: "the listed file has ones, and
//! zeros follow the same rule". It is the listed `build_inventory` on the complement, with the listed file's S.

use super::{LOG2_U16_PER_USIZE, build_inventory};

/// Inventory and spill over the zeros, L and M given.
pub fn fixed_zeros(words: &[u64], len: usize, zeros: usize, l: usize, m: usize) -> (Box<[usize]>, Box<[usize]>) {
    build_inventory::<true, _>(words, len, zeros, l, m, l.saturating_sub(m + LOG2_U16_PER_USIZE))
}
