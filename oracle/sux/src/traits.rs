//! The traits of sux-rs's other files, as far as the listed files use them.

pub use bit_vec_ops::{BitLength, BitVecOps};

include!(concat!(env!("OUT_DIR"), "/traits_rank_sel.in"));

pub mod ambassador_impl_Backend {}

pub trait Backend {
    type Word;
}

/// Of sux-rs's word types, u64: document 01 leaves out the others.
pub trait Word:
    Copy
    + std::ops::Not<Output = Self>
    + std::ops::BitAnd<Output = Self>
    + std::ops::Shl<usize, Output = Self>
    + std::ops::Shr<usize, Output = Self>
{
    const BITS: u32;
    const MAX: Self;
    fn count_ones(self) -> u32;
}

impl Word for u64 {
    const BITS: u32 = u64::BITS;
    const MAX: u64 = u64::MAX;

    #[inline(always)]
    fn count_ones(self) -> u32 {
        u64::count_ones(self)
    }
}

pub mod bit_vec_ops {
    use super::{Backend, Word};

    pub mod ambassador_impl_BitLength {}

    pub trait BitLength {
        fn len(&self) -> usize;
    }

    /// Document 01, step 7: "the record's `count_ones` and `count_zeros` mean N".
    pub trait BitVecOps: Backend<Word: Word> + AsRef<[Self::Word]> + BitLength {
        #[inline]
        fn count_ones(&self) -> usize {
            let (full, rest) = (self.len() / 64, self.len() % 64);
            let words = self.as_ref();
            let ones: usize = words[..full].iter().map(|w| w.count_ones() as usize).sum();
            if rest == 0 { ones } else { ones + (words[full] << (64 - rest)).count_ones() as usize }
        }

        #[inline]
        fn count_zeros(&self) -> usize {
            self.len() - self.count_ones()
        }
    }

    impl<T: Backend<Word: Word> + AsRef<[T::Word]> + BitLength> BitVecOps for T {}
}

pub mod bal_paren {
    pub mod ambassador_impl_BalParen {}

    pub trait BalParen {}
}
