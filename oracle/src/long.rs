//! Records past 2^32 bits: U64 entries, and U32 at its widest.

use crate::cases::{exact_spans, fixed, power};
use crate::compare::{Case, Tally};
use crate::model::{ONES, ZEROS};
use crate::random::Random;
use std::time::Instant;

const WIDE: u64 = 1 << 32;

pub fn run(tally: &mut Tally) {
    let started = Instant::now();
    let random = Random::new(3);
    // One buffer at a time: 512 MiB and a little.
    let mut words = vec![0u64; (WIDE / 64 + 4096) as usize];
    for (entry, spans, last, choices) in [
        // Exactly 2^32 is still U32, one more is U64; the last entry is short.
        (4, [WIDE, 300], 3, &[power(2, 0)][..]),
        (4, [WIDE + 1, 300], 1, &[power(2, 0)]),
        (16, [WIDE + 70, 70_000], 9, &[power(4, 2), fixed(4, 8)]),
        (16, [2000, WIDE + 5], 11, &[power(4, 1)]),
    ] {
        let (positions, len) = exact_spans(&random, entry, &spans, last);
        set(&mut words, &positions, len);
        for &choice in choices {
            tally.compare(&Case { words: &words, len, polarity: ONES, choice });
        }
        clear(&mut words, &positions, len);
    }
    // The zeros of a record of ones.
    words.fill(u64::MAX);
    let (positions, len) = exact_spans(&random, 8, &[WIDE + 12_345, 9], 5);
    positions.iter().for_each(|&p| words[p as usize / 64] ^= 1 << (p % 64));
    words[len as usize / 64] ^= 0x5555_5555_5555_5555 << (len % 64);
    tally.compare(&Case { words: &words, len, polarity: ZEROS, choice: power(3, 1) });
    tally.group("records past 2^32 bits", started);
}

/// The positions, and dirty padding in the last word.
fn set(words: &mut [u64], positions: &[u64], len: u64) {
    positions.iter().for_each(|&p| words[p as usize / 64] |= 1 << (p % 64));
    words[len as usize / 64] |= 0xAAAA_AAAA_AAAA_AAAA << (len % 64);
}

fn clear(words: &mut [u64], positions: &[u64], len: u64) {
    positions.iter().for_each(|&p| words[p as usize / 64] = 0);
    words[len as usize / 64] = 0;
}
