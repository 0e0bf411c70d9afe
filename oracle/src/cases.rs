//! Choices and records to try.

use crate::model::{Choice, DEFAULT, FIXED, MAX_LOG2_WORDS, OVERHEAD, POWER, SPAN, ZEROS};
use crate::random::Random;
use crate::reference::{self, PAIRS};

pub const fn default() -> Choice {
    Choice { kind: DEFAULT, value: 0, percentage: 0.0, log2: 0 }
}

pub const fn span(value: u64, log2: u32) -> Choice {
    Choice { kind: SPAN, value, percentage: 0.0, log2 }
}

pub const fn power(value: u64, log2: u32) -> Choice {
    Choice { kind: POWER, value, percentage: 0.0, log2 }
}

pub const fn overhead(percentage: f64, log2: u32) -> Choice {
    Choice { kind: OVERHEAD, value: 0, percentage, log2 }
}

pub const fn fixed(value: u64, log2: u32) -> Choice {
    Choice { kind: FIXED, value, percentage: 0.0, log2 }
}

/// The least that is over the limit of M, and over the Rust's own.
pub const OVER: u32 = MAX_LOG2_WORDS + 1;
const THEIR_OVER: u32 = reference::MAX_LOG2_WORDS + 1;

/// Choices for the smallest records: every kind, small values and the outermost.
pub fn small_choices() -> Vec<Choice> {
    let mut all = vec![default()];
    for value in [0, 1, 2, 3, 5, 7, 10, 20, 64, 1000, u64::MAX] {
        all.extend([0, 1, 3, MAX_LOG2_WORDS].map(|log2| span(value, log2)));
    }
    for value in [0, 1, 2, 3, 4, 5, 10, 63] {
        all.extend([0, 1, 2, MAX_LOG2_WORDS].map(|log2| power(value, log2)));
    }
    for percentage in [5e-324, 0.001, 1.0, 10.0, 100.0, 1e6, 1e300] {
        all.extend([0, 3, 5, 9, MAX_LOG2_WORDS].map(|log2| overhead(percentage, log2)));
    }
    all.extend(PAIRS.iter().filter(|pair| pair.1 <= 3).map(|&(l, m)| fixed(l, m)));
    all
}

/// Choices at and past every limit.
pub fn extreme_choices() -> Vec<Choice> {
    let mut all = vec![default()];
    let maxima = (0..=55).chain([64, u32::MAX]);
    for log2 in maxima {
        for value in [0, 1, 2, 3, 255, 65_535, 65_536, 65_537, 1 << 31, 1 << 32, (1 << 52) + 1, 1 << 63, u64::MAX] {
            all.push(span(value, log2));
        }
        for percentage in [
            f64::NAN,
            f64::INFINITY,
            f64::NEG_INFINITY,
            -1.0,
            0.0,
            -0.0,
            5e-324,
            2.3e-308,
            1e-300,
            3.5e-14,
            1e-10,
            0.3,
            1.0,
            7.0,
            24.9,
            25.0,
            25.1,
            50.0,
            100.0,
            12_345.678,
            1e18,
            1e300,
            f64::MAX,
        ] {
            all.push(overhead(percentage, log2));
        }
    }
    for log2 in [0, 1, 2, 3, 9, MAX_LOG2_WORDS, OVER, THEIR_OVER - 1, THEIR_OVER, u32::MAX] {
        all.extend((0..=65).chain([1 << 32, (1 << 32) + 1, u64::MAX]).map(|value| power(value, log2)));
    }
    all.extend(PAIRS.iter().map(|&(l, m)| fixed(l, m)));
    all.extend(
        [(64, 0), (64, OVER), (0, THEIR_OVER), (63, THEIR_OVER), (u64::MAX, 0), (1 << 32, 3), (3, u32::MAX)]
            .map(|(l, m)| fixed(l, m)),
    );
    all
}

/// A lawful choice that fits a record of few thousand bits; M small enough that the index stays small.
pub fn random_choice(random: &Random) -> Choice {
    match random.below(5) {
        0 => default(),
        1 => span(if random.one_in(8) { random.next() } else { random.below(5000) }, random.below(6) as u32),
        2 => power(if random.one_in(8) { random.below(64) } else { random.below(12) }, random.below(6) as u32),
        3 => overhead(random.pick(&[0.5, 3.0, 10.0, 33.3, 100.0, 400.0, 1e5]), random.below(6) as u32),
        _ => loop {
            let (l, m) = random.pick(PAIRS);
            if m <= 5 {
                return fixed(l, m);
            }
        },
    }
}

/// The most that origin and `len` may sum up to.
pub const MOST_SAMPLES: u64 = (1 << 62) - 1;

/// An origin that goes with so many bits: 0, a small one, one at the limit, or any.
pub fn origin(random: &Random, len: u64) -> u64 {
    let last = MOST_SAMPLES.saturating_sub(len);
    random.pick(&[0, 1, random.below(1000), random.below(last), last.saturating_sub(1), last]).min(last)
}

/// An origin that does not: just past the limit, far past it, or such that the sum wraps in 64 bits.
pub fn origin_past(random: &Random, len: u64) -> u64 {
    let first = (MOST_SAMPLES + 1).saturating_sub(len);
    random.pick(&[first, first + 1, 1 << 62, 1 << 63, u64::MAX - len.saturating_sub(1), u64::MAX])
}

/// A record whose selected bits below `len` are exactly `positions`: for zeros all words are complemented. The padding
/// and the `extra` words are whatever `dirt` gives.
pub fn record(positions: &[u64], len: u64, polarity: u32, extra: usize, dirt: impl Fn() -> u64) -> Vec<u64> {
    let used = len.div_ceil(64) as usize;
    let mut words = vec![0; used];
    for &p in positions {
        words[p as usize / 64] |= 1 << (p % 64);
    }
    if !len.is_multiple_of(64) {
        words[used - 1] |= dirt() << (len % 64);
    }
    words.extend((0..extra).map(|_| dirt()));
    if polarity == ZEROS {
        words.iter_mut().for_each(|w| *w = !*w);
    }
    words
}

/// Random words of a random density.
pub fn random_words(random: &Random, count: usize) -> Vec<u64> {
    let density = random.below(6);
    (0..count)
        .map(|_| match density {
            0 => random.next(),
            1 => random.next() & random.next() & random.next(),
            2 => random.next() | random.next() | random.next(),
            3 => {
                if random.one_in(20) {
                    1 << random.below(64)
                } else {
                    0
                }
            }
            4 => {
                if random.one_in(20) {
                    !(1 << random.below(64))
                } else {
                    u64::MAX
                }
            }
            _ => {
                if random.one_in(2) {
                    0
                } else {
                    random.next()
                }
            }
        })
        .collect()
}

/// `count` rising positions, the first at `from`, all below `to`: bunched at the front, at the back, or spread.
pub fn rising(random: &Random, count: u64, from: u64, to: u64) -> Vec<u64> {
    assert!(1 <= count && count <= to - from);
    let mut all = std::collections::BTreeSet::from([from]);
    let width = to - from;
    let shape = random.below(3);
    while (all.len() as u64) < count {
        let near = random.below((4 * count).min(width));
        all.insert(match shape {
            0 => from + near,
            1 => to - 1 - near,
            _ => from + random.below(width),
        });
    }
    all.into_iter().collect()
}

/// Entries of `count` bits each, whose starts lie exactly `spans` apart; the last holds `last` bits, and its span ends
/// with the record. Positions and length.
pub fn exact_spans(random: &Random, count: u64, spans: &[u64], last: u64) -> (Vec<u64>, u64) {
    let mut at = random.below(200);
    let mut positions = Vec::new();
    for (i, &span) in spans.iter().enumerate() {
        let here = if i + 1 == spans.len() { last } else { count };
        positions.extend(rising(random, here.min(span), at, at + span));
        at += span;
    }
    (positions, at)
}
