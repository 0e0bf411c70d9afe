//! A sample of the oracle's answers as a list of u64, little endian, for a program in the repository to replay.
//!
//! Each case: number of words W, len, origin, polarity, kind, value, bits of the percentage, log2, refusal of the
//! build with buffers long enough. Where the refusal is 0: N, L, M, S, inventory count, spill count, the words, the
//! inventory, the spill, the number of selects, and for each its rank and its sample number, which is the origin plus
//! the Rust's position. Where not: the words. The end: 2^64 - 1 for W.

use crate::cases::*;
use crate::model::{self, Built, Choice, MAX_LOG2_WORDS, ONES, Summary, ZEROS};
use crate::random::Random;
use crate::reference;

const MOST_SELECTS: u64 = 64;

#[derive(Default)]
struct List {
    numbers: Vec<u64>,
    cases: u64,
    refusals: u64,
    selects: u64,
}

impl List {
    fn add(&mut self, words: &[u64], len: u64, origin: u64, polarity: u32, choice: Choice) {
        let out = &mut self.numbers;
        out.extend([words.len() as u64, len, origin, polarity as u64, choice.kind as u64, choice.value]);
        out.extend([choice.percentage.to_bits(), choice.log2 as u64]);
        self.cases += 1;
        match model::built(words, len, origin, polarity, &choice, usize::MAX, usize::MAX) {
            Ok(built) => self.answered(words, &choice, &built),
            Err(refusal) => {
                self.refusals += 1;
                out.push(refusal as u64);
                out.extend(words);
            }
        }
    }

    /// The Rust answers; the model must agree, or the sample would carry a difference into the repository.
    fn answered(&mut self, words: &[u64], choice: &Choice, built: &Built) {
        let Summary { polarity, len, origin, .. } = built.summary;
        let theirs = reference::build(words, len, polarity as u32, choice).expect("a pair compiled in");
        let cells = |cells: &[usize]| cells.iter().map(|&c| c as u64).collect::<Vec<_>>();
        let (inventory, spill) = (cells(theirs.inventory()), cells(theirs.spill()));
        assert!(inventory == built.inventory && spill == built.spill, "run compare first");
        let parameters = theirs.parameters();
        let out = &mut self.numbers;
        out.push(0);
        out.extend(parameters);
        out.extend([inventory.len() as u64, spill.len() as u64]);
        out.extend(words);
        out.extend(inventory);
        out.extend(spill);
        let n = parameters[0];
        let listed = n.min(MOST_SELECTS);
        out.push(listed);
        for i in 0..listed {
            // Spread over all ranks, the first and the last among them.
            let rank = if listed == 1 { 0 } else { i * (n - 1) / (listed - 1) };
            out.extend([rank, origin + theirs.position(rank).expect("a rank below N")]);
        }
        self.selects += listed;
    }
}

pub fn write(path: &str) -> std::io::Result<()> {
    let random = Random::new(4);
    let mut list = List::default();
    // Origins draw from a stream of their own; most are 0.
    let origins = Random::new(8);
    let any_origin = |len| if origins.one_in(3) { origin(&origins, len) } else { 0 };

    // Document 01's records.
    for choice in [power(1, 0), default()] {
        for polarity in [ONES, ZEROS] {
            list.add(&[0x252], 10, 0, polarity, choice);
            list.add(&[0xFFFF_FFFF_FFFF_FC00 | 0x252, 5], 10, 100, polarity, choice);
        }
    }
    list.add(&[], 0, 0, ONES, default());
    list.add(&[0], 5, MOST_SAMPLES - 5, ONES, default());
    for (len, origin) in [(65_540, 0), (65_536, 1 << 40)] {
        let words = record(&[0, len - 1], len, ONES, 0, || 0);
        list.add(&words, len, origin, ONES, power(1, 0));
    }
    // The smallest records under every kind of choice, and random ones.
    for choice in small_choices() {
        let len = random.below(12);
        let words = [random.next()];
        list.add(&words, len, any_origin(len), random.below(2) as u32, choice);
    }
    for _ in 0..300 {
        let len = 64 * (1 + random.below(20)) + random.below(5) - 2;
        let words = random_words(&random, len.div_ceil(64) as usize + random.below(2) as usize);
        let (polarity, choice) = (random.below(2) as u32, random_choice(&random));
        list.add(&words, len, any_origin(len), polarity, choice);
    }
    // U32 entries, with spill and without.
    for i in 0..24 {
        let (l, m) = (1 + random.below(8), random.below(4) as u32);
        let spans = [65_537 + random.below(2000), (1 << l) + random.below(2000)];
        let (positions, len) = exact_spans(&random, 1 << l, &spans, 1 << (l - 1));
        let polarity = i % 2;
        let words = record(&positions, len, polarity, 0, || random.next());
        list.add(&words, len, any_origin(len), polarity, if random.one_in(2) { power(l, m) } else { fixed(l, m) });
    }
    // The largest M.
    list.add(&[0x252], 10, 0, ONES, fixed(63, MAX_LOG2_WORDS));
    // Refusals 1 to 5, alone and together.
    for choice in [
        default(),
        span(9, OVER),
        power(64, 3),
        power(64, OVER),
        overhead(0.0, 3),
        overhead(f64::NAN, OVER),
        fixed(64, 0),
        fixed(0, OVER),
    ] {
        for (len, words) in [(10, 1), (65, 1), (64, 0), (1 << 62, 1), ((1 << 62) - 1, 1)] {
            list.add(&[0x252][..words], len, 0, ONES, choice);
        }
    }
    // Refusal 14: the limit and one past it, sums that wrap in 64 bits; after 1, before 2 and the choice's.
    for (len, words, origin, choice) in [
        (10, 1, MOST_SAMPLES - 10, power(1, 0)),
        (10, 1, MOST_SAMPLES - 9, power(1, 0)),
        (10, 1, u64::MAX, default()),
        (10, 1, u64::MAX - 9, default()),
        (0, 0, MOST_SAMPLES, default()),
        (0, 0, MOST_SAMPLES + 1, default()),
        (65, 1, MOST_SAMPLES, default()),
        (1 << 62, 1, u64::MAX, default()),
        (10, 1, MOST_SAMPLES, fixed(64, OVER)),
    ] {
        list.add(&[0x252][..words], len, origin, ONES, choice);
    }

    list.numbers.push(u64::MAX);
    let bytes: Vec<u8> = list.numbers.iter().flat_map(|n| n.to_le_bytes()).collect();
    std::fs::write(path, &bytes)?;
    println!(
        "{path}: {} cases, {} of them refused, {} selects, {} bytes",
        list.cases,
        list.refusals,
        list.selects,
        bytes.len()
    );
    Ok(())
}
