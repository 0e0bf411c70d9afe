//! The bit vector.

use crate::traits::bit_vec_ops::BitLength;
use crate::traits::rank_sel::{SelectHinted, SelectZeroHinted};
use crate::traits::{Backend, Word};
use crate::utils::SelectInWord;

/// Words and a length in bits; whatever stands at or past the length is padding.
#[derive(Debug, Clone, Copy)]
pub struct BitVec<V> {
    words: V,
    len: usize,
}

impl<V: AsRef<[u64]>> BitVec<V> {
    pub fn new(words: V, len: usize) -> Self {
        BitVec { words, len }
    }
}

impl<V> Backend for BitVec<V> {
    type Word = u64;
}

impl<V> BitLength for BitVec<V> {
    #[inline(always)]
    fn len(&self) -> usize {
        self.len
    }
}

impl<V: AsRef<[u64]>> AsRef<[u64]> for BitVec<V> {
    #[inline(always)]
    fn as_ref(&self) -> &[u64] {
        self.words.as_ref()
    }
}

/// Document 01, step 7: "the selected position at or after the mark with exactly s mod 2^q selected bits between, mark
/// included". Bits below the mark are cut off the first word; then whole words are counted until the rank falls inside.
///
/// # Safety
/// Such a position exists within the words.
#[inline(always)]
unsafe fn seek(words: &[u64], flip: u64, mark: usize, mut residual: usize) -> usize {
    let mut at = mark / 64;
    unsafe {
        let mut word = ((*words.get_unchecked(at) ^ flip) >> (mark % 64)) << (mark % 64);
        loop {
            let ones = Word::count_ones(word) as usize;
            if residual < ones {
                return at * 64 + word.select_in_word(residual);
            }
            residual -= ones;
            at += 1;
            word = *words.get_unchecked(at) ^ flip;
        }
    }
}

impl<V: AsRef<[u64]>> SelectHinted for BitVec<V> {
    #[inline(always)]
    unsafe fn select_hinted<const W: usize>(&self, rank: usize, hint_pos: usize, hint_rank: usize) -> usize {
        unsafe { seek(self.as_ref(), 0, hint_pos, rank - hint_rank) }
    }
}

impl<V: AsRef<[u64]>> SelectZeroHinted for BitVec<V> {
    #[inline(always)]
    unsafe fn select_zero_hinted<const W: usize>(&self, rank: usize, hint_pos: usize, hint_rank: usize) -> usize {
        unsafe { seek(self.as_ref(), u64::MAX, hint_pos, rank - hint_rank) }
    }
}
