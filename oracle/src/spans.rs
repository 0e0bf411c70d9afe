//! Spans at both ends of each case of document 02's W-204: built, as far as a record reaches, and foreign, to the last.

use crate::cases::{exact_spans, power, random_words, record};
use crate::compare::{self, Case};
use crate::damage::{Input, Tally, list_call, read_calls};
use crate::list::List;
use crate::model::{ONES, Summary};
use crate::random::Random;
use std::time::Instant;

/// The last span of all.
const LAST: u64 = (1 << 62) - 1;

/// The ends of each case, and what it takes off: 2 from 65,537 to 131,071, and one more for each doubling.
fn ends() -> impl Iterator<Item = (u64, u64)> {
    (2..=47).flat_map(|off| [(1 << (off + 14)) + (off == 2) as u64, (2 << (off + 14)) - 1].map(|span| (span, off)))
}

/// One entry over a whole record, its marks two or four ranks apart. Compare's own group has the shorter spans, long has 2^32.
pub fn built(tally: &mut compare::Tally) {
    let started = Instant::now();
    let random = Random::new(8);
    for (span, off) in ends().filter(|(span, _)| (1 << 24..1 << 32).contains(span)) {
        let (m, apart) = (random.below(4), 1 + random.below(2));
        let (positions, len) = exact_spans(&random, 0, &[span], 100 + random.below(100));
        let words = record(&positions, len, ONES, 0, || random.next());
        tally.compare(&Case { words: &words, len, polarity: ONES, choice: power(off + apart + m + 2, m as u32) });
    }
    tally.group("exact spans from 2^24 to 2^32, both ends of each doubling", started);
}

/// One entry of a small record whose next start stands the span off, with S below, at and above what is taken off; the
/// number of differences.
pub fn foreign() -> u64 {
    let started = Instant::now();
    let random = Random::new(9);
    let mut tally = Tally::default();
    for (span, off) in ends().chain([(65_536, 2)]) {
        for s in [0, off - 1, off, off + 1, off + 2, off + 4] {
            for m in 0..4 {
                for _ in 0..4 {
                    let input = entry(&random, span, s, m);
                    read_calls(&mut tally, &random, &input);
                    list_call(&mut tally, &input, &List::random(&random, input.summary.n));
                }
            }
        }
    }
    let (calls, seconds) = (tally.calls, started.elapsed().as_secs_f64());
    println!(
        "foreign spans, both ends of each doubling to 2^62 - 1: {calls} calls, {seconds:.1} s; how each came out:"
    );
    tally.print()
}

fn entry(random: &Random, span: u64, s: u64, m: u64) -> Input {
    let len = 64 + random.below(400);
    let l = s + m + 2;
    let n = 1 + random.below(len.min(1 << l));
    let polarity = random.below(2);
    let halves = || (random.below(len / 2) << 32) + random.below(len / 2);
    let start = random.below(len / 4).min(LAST - span);
    let mut inventory: Vec<u64> = (0..(1 << m) + 2).map(|_| halves()).collect();
    inventory[0] = 2 << 62 | start;
    inventory[1] = random.below(4);
    inventory[(1 << m) + 1] = random.below(4) << 62 | (start + span);
    let spill: Vec<u64> = (0..4 + random.below(200)).map(|_| halves()).collect();
    let (cells, spilled) = (inventory.len() as u64, spill.len() as u64);
    let origin = random.below(1000);
    Input {
        words: random_words(random, len.div_ceil(64) as usize),
        len,
        origin,
        polarity: polarity as u32,
        choice: power(l, m as u32),
        summary: Summary { polarity, len, n, origin, l, m, s, inventory: cells, spill: spilled },
        inventory,
        spill,
    }
}
