//! The sux-rs side: an index by the original's constructors, its parameters, cells and selects.

use crate::model::{self, Choice};
use sux::bits::BitVec;
use sux::rank_sel::{SelectAdapt, SelectAdaptConst, SelectZeroAdapt, fixed_zeros};
use sux::traits::rank_sel::{AddNumBits, NumBits, Select, SelectZero};

pub type Record<'a> = AddNumBits<BitVec<&'a [u64]>>;

/// The original's own limit of M and its maximum.
pub const MAX_LOG2_WORDS: u32 = 53;

/// What the original answers with.
pub trait Reference {
    /// N, L, M, S.
    fn parameters(&self) -> [u64; 4];
    fn inventory(&self) -> &[usize];
    fn spill(&self) -> &[usize];
    /// `Select::select` or `SelectZero::select_zero`, with the rank test.
    fn position(&self, rank: u64) -> Option<u64>;
}

macro_rules! adaptive {
    ($Structure:ident, $num:ident, $select:ident) => {
        impl Reference for $Structure<Record<'_>> {
            fn parameters(&self) -> [u64; 4] {
                let (l, m) = (*self.peek_log2_ones_per_inventory(), *self.peek_log2_words_per_subinventory());
                [self.$num() as u64, l as u64, m as u64, *self.peek_log2_ones_per_sub16() as u64]
            }

            fn inventory(&self) -> &[usize] {
                self.peek_inventory()
            }

            fn spill(&self) -> &[usize] {
                self.peek_spill()
            }

            fn position(&self, rank: u64) -> Option<u64> {
                self.$select(rank as usize).map(|p| p as u64)
            }
        }
    };
}

adaptive!(SelectAdapt, num_ones, select);
adaptive!(SelectZeroAdapt, num_zeros, select_zero);

/// `SelectAdaptConst` over its own words: the record's, or for zeros their complement.
struct Fixed<const L: usize, const M: usize>(SelectAdaptConst<AddNumBits<BitVec<Vec<u64>>>, Box<[usize]>, L, M>);

impl<const L: usize, const M: usize> Reference for Fixed<L, M> {
    /// The original keeps S as a private constant of the type; here it is L - M - 2, and the cells show it.
    fn parameters(&self) -> [u64; 4] {
        [self.0.num_ones() as u64, L as u64, M as u64, L.saturating_sub(M + 2) as u64]
    }

    fn inventory(&self) -> &[usize] {
        self.0.peek_inventory()
    }

    fn spill(&self) -> &[usize] {
        self.0.peek_spill()
    }

    fn position(&self, rank: u64) -> Option<u64> {
        self.0.select(rank as usize).map(|p| p as u64)
    }
}

fn fixed<const L: usize, const M: usize>(words: &[u64], len: usize, polarity: u32) -> Box<dyn Reference> {
    let flip = if polarity == model::ZEROS { u64::MAX } else { 0 };
    let flipped: Vec<u64> = words.iter().map(|w| w ^ flip).collect();
    let index = Fixed(SelectAdaptConst::<_, _, L, M>::new(BitVec::new(flipped, len).into()));
    if polarity == model::ZEROS {
        let (inventory, spill) = fixed_zeros(words, len, index.0.num_ones(), L, M);
        assert!(
            *inventory == *index.inventory() && *spill == *index.spill(),
            "fixed zeros are not the complement's ones"
        );
    }
    Box::new(index)
}

/// Const parameters must be known when the oracle is compiled: these pairs are.
macro_rules! pairs {
    ($($l:literal: $($m:literal)*;)*) => {
        pub const PAIRS: &[(u64, u32)] = &[$($(($l, $m),)*)*];

        fn fixed_by_pair(words: &[u64], len: usize, polarity: u32, l: u64, m: u32) -> Option<Box<dyn Reference>> {
            match (l, m) {
                $($(($l, $m) => Some(fixed::<$l, $m>(words, len, polarity)),)*)*
                _ => None,
            }
        }
    };
}

pairs! {
    0: 0 1 2 3 10 11;
    1: 0 1 2 3;
    2: 0 1 2 3 5;
    3: 0 1 2 3;
    4: 0 1 2 3 4 8;
    5: 0 1 2 3;
    6: 0 1 2 3 4;
    7: 0 1 2 3;
    8: 0 1 2 3 6;
    9: 0 1 2 3;
    10: 0 1 2 3 4;
    11: 0 1 2 3;
    12: 0 1 2 3 4;
    13: 0 1 2 3;
    16: 0 1 3 4 10;
    20: 0 3;
    31: 0 1 10;
    32: 0 1 10;
    62: 0 3;
    63: 0 1 2 3 10 11;
}

/// The original's index. None where no pair of const parameters was compiled for a fixed choice.
pub fn build<'a>(words: &'a [u64], len: u64, polarity: u32, choice: &Choice) -> Option<Box<dyn Reference + 'a>> {
    let (len, value, log2) = (len as usize, choice.value as usize, choice.log2 as usize);
    if choice.kind == model::FIXED {
        return fixed_by_pair(words, len, polarity, choice.value, choice.log2).map(|index| index as Box<dyn Reference>);
    }
    let bits = BitVec::new(words, len);
    // Past the length limit the original's own test is to speak, not the stand-in that would count first.
    let bits: Record<'a> = if len >> 62 == 0 { bits.into() } else { unsafe { AddNumBits::from_raw_parts(bits, 0) } };
    Some(match (polarity, choice.kind) {
        (model::ONES, model::DEFAULT) => Box::new(SelectAdapt::new(bits)),
        (model::ONES, model::SPAN) => Box::new(SelectAdapt::with_span(bits, value, log2)),
        (model::ONES, model::POWER) => Box::new(SelectAdapt::with_inv(bits, value, log2)),
        (model::ONES, model::OVERHEAD) => Box::new(SelectAdapt::with_overhead(bits, choice.percentage, log2)),
        (_, model::DEFAULT) => Box::new(SelectZeroAdapt::new(bits)),
        (_, model::SPAN) => Box::new(SelectZeroAdapt::with_span(bits, value, log2)),
        (_, model::POWER) => Box::new(SelectZeroAdapt::with_inv(bits, value, log2)),
        (_, _) => Box::new(SelectZeroAdapt::with_overhead(bits, choice.percentage, log2)),
    })
}
